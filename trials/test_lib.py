"""The library: each file's own net, whose answer stands in its head, and each of its agents on drawn values, by what Python says
of them. The rich examples, beside the plain ones."""

import random
import re

import rich
from program import IN_MEMORY, SEED, TOP, Trial, run

LIB = TOP / "lib"
NAMES = ["bool", "binary", "church", "lambda", "list", "nat", "pair", "sk", "sort", "tree", "turing"]

# How the answers in the heads are read: what numbers, lists and pairs stand for.
FORMS = "{number S Z; list Cons Nil; pair Pair} "


def nat(value):
    return str(value)


def listed(values):
    return "[" + ",".join(map(nat, values)) + "]"


def binary(draw, value):
    """A number in binary, the lowest bit first, with some zeros at its end."""
    text = "E"
    for bit in bin(value)[2:].lstrip("0") if value else "":
        text = f"B{bit}({text})"
    for _ in range(draw.randint(0, 2)):
        text = text.replace("E", "B0(E)")
    return text


def value_of(text):
    """The number that a net in binary is."""
    bits = re.findall(r"B([01])", text)
    return sum(int(bit) << place for place, bit in enumerate(bits))


def order(one, other):
    return "Lt" if one < other else "Gt" if one > other else "Eq"


def tree(draw, entries):
    """A tree with these entries from the left, its mirror, and its depth."""
    if not entries:
        return "Leaf", "Leaf", 0
    at = draw.randrange(len(entries))
    (left, left_mirror, left_depth), (right, right_mirror, right_depth) = tree(draw, entries[:at]), tree(draw, entries[at + 1 :])
    entry = entries[at]
    return f"Node({left},{entry},{right})", f"Node({right_mirror},{entry},{left_mirror})", 1 + max(left_depth, right_depth)


# Terms of lambda calculus: a variable or an agent, a pair of a variable and a body, or of a function and what it is applied to.


def applied(function, *terms):
    for term in terms:
        function = ("apply", function, term)
    return function


def church(number):
    """Church's numeral."""
    body = "x"
    for _ in range(number):
        body = applied("f", body)
    return ("lambda", "f", ("lambda", "x", body))


def function(*words):
    """A function of all but the last of these."""
    body = words[-1]
    for word in reversed(words[:-1]):
        body = ("lambda", word, body)
    return body


SUM = function("m", "n", "s", "z", applied("m", "s", applied("n", "s", "z")))
PRODUCT = function("m", "n", "s", applied("m", applied("n", "s")))
FIRST = function("a", "b", "a")
TWICE = function("m", applied(SUM, "m", "m"))


def drawn_numeral(draw, depth):
    """A term that comes to a numeral, and its number."""
    kind = draw.randint(0, 5 if depth else 0)
    if kind < 2:
        number = draw.randint(0, 3)
        return church(number), number
    (one, x), (other, y) = drawn_numeral(draw, depth - 1), drawn_numeral(draw, depth - 1)
    return {2: (applied(SUM, one, other), x + y), 3: (applied(PRODUCT, one, other), x * y), 4: (applied(FIRST, one, other), x), 5: (applied(TWICE, one), 2 * x)}[kind]


def net_of(term):
    """A term as lambda.rich writes it."""
    names = (f"v{k}" for k in range(10**6))

    def written(term, variables):
        if isinstance(term, str):
            if term not in variables:
                return term
            variables[term].append(next(names))
            return variables[term][-1]
        kind, one, other = term
        if kind == "apply":
            return f"Ap({written(one, variables)},{written(other, variables)})"
        stands = []
        body = written(other, {**variables, one: stands})
        variable = stands.pop() if stands else "Era"
        for stand in reversed(stands):
            variable = f"Two({stand},{variable})"
        return f"Lam({variable},{body})"

    return written(term, {})


# The machine of turing.rich: what it writes, whether it goes right, and its next state, for each state and symbol.
MACHINE = {("A", 0): (1, True, "B"), ("A", 1): (1, True, ""), ("B", 0): (0, True, "C"), ("B", 1): (1, True, "B"), ("C", 0): (1, False, "C"), ("C", 1): (1, False, "A")}


def halted(left, right, most=2000):
    """The two sides of the tape where the machine halts, or none if it doesn't in so many steps. The cell beside the head is first."""
    state, left, right = "A", list(left), list(right)
    for _ in range(most):
        if not state:
            return left, right
        symbol = right.pop(0) if right else 0
        symbol, is_right, state = MACHINE[state, symbol]
        if is_right:
            left.insert(0, symbol)
        else:
            right[:0] = [left.pop(0) if left else 0, symbol]
    return None


def tape(cells):
    text = "End"
    for cell in reversed(cells):
        text = f"{'OI'[cell]}({text})"
    return text


def cells_of(text):
    """The cells of a side of a tape, up to the last 1."""
    return [int(it == "I") for it in re.findall(r"[OI](?=\()", text.rpartition("I")[0] + "I(" * ("I" in text))]


def ones_last(cells):
    """The same of cells."""
    while cells and not cells[-1]:
        cells = cells[:-1]
    return cells


class Library(Trial):
    rooms = IN_MEMORY
    seconds = 60

    def rules(self, name):
        """The rules of a file, without its net."""
        text = (LIB / f"{name}.rich").read_text()
        return text[: text.rindex("}") + 1]

    def expanded(self, text):
        ran = run("expand", given=text)
        self.equals(ran.command, "status and standard error", (0, b""), (ran.status, ran.err))
        return ran.out

    def plain(self, net):
        return self.expanded(FORMS + net).decode().partition("<")[2].rstrip("\n")

    def answer(self, name, net):
        """What a net comes to by the rules of a file."""
        ran = run("reduce", "--workers", 1, given=self.expanded(f"{self.rules(name)} {net}"))
        self.equals(ran.command, "status and standard error", (0, b""), (ran.status, ran.err))
        return ran.out.decode()

    def comes_to(self, name, net, wanted):
        self.equals(f"{name}: {net}", "what it comes to", "<" + self.plain(f"<{wanted}|>"), self.answer(name, net).rstrip("\n"))

    def test_the_files_are_those_that_are_tried(self):
        self.equals("lib/", "its files", sorted(NAMES), sorted(it.stem for it in LIB.iterdir()))

    def test_each_file_answers_what_its_head_says(self):
        for name in NAMES:
            text = (LIB / f"{name}.rich").read_text()
            wanted = re.search(r"(?m)^# => (<.*>)$", text)[1]
            plain = self.expanded(text)
            ran = run("reduce", given=plain)
            self.equals(ran.command, "status and standard error", (0, b""), (ran.status, ran.err))
            self.equals(ran.command, "its answer", "<" + self.plain(wanted), ran.out.decode().rstrip("\n"))
            self.equals(f"check {name}", "its faults and warnings", (0, b"", b""), run("check", "-", given=plain)[1:4])

    def test_each_rich_example_answers_as_the_plain_one_beside_it(self):
        tried = [it for it in TOP.glob("examples/*.rich") if it.with_suffix(".ic").exists()]
        self.equals("examples/", "rich ones beside plain ones", 9, len(tried))
        for path in tried:
            words = ("reduce", "--rounds", 9) if path.stem == "unending" else ("reduce",)
            plain = run(*words, path.with_suffix(".ic"))
            self.runs(*words, given=self.expanded(path.read_text()), out=plain.out, err=plain.err, status=plain.status)

    def test_numbers_in_unary(self):
        draw = random.Random(f"{SEED} nat")
        for _ in range(12):
            x, y = draw.randint(0, 9), draw.randint(0, 9)
            net = f"<a,b,c,d|Add({y},a)={x},Mul({y},b)={x},Sub({y},c)={x},Cmp({y},d)={x}>"
            self.comes_to("nat", net, f"{x + y},{x * y},{max(x - y, 0)},{order(x, y)}")

    def test_numbers_in_binary(self):
        draw = random.Random(f"{SEED} binary")
        for _ in range(12):
            x, y = (draw.randrange(2 ** draw.randint(0, 9)) for _ in range(2))
            one, other = binary(draw, x), binary(draw, y)
            net = f"<a,b,c,d,e|Add({other},a)={one},Mul({other},b)={one},Cmp(Eq,{other},c)={one},Inc(d)={one},Sub({other},e)={one}>"
            answers = self.answer("binary", net).strip("<|>\n").split(",")
            wanted = (order(x, y), x + y, x * y, x + 1, max(x - y, 0))
            self.equals(net, "what it comes to", wanted, (answers.pop(2), *map(value_of, answers)))

    def test_truth_values(self):
        for x in (True, False):
            for y in (True, False):
                net = f"<a,b,c,d,e|Not(a)={x},And({y},b)={x},Or({y},c)={x},Xor({y},d)={x},If(A,B,e)={x},Dup(f,Era)=Z,f=Era>"
                self.comes_to("bool", net, f"{not x},{x and y},{x or y},{x != y},{'A' if x else 'B'}")

    def test_lists(self):
        draw = random.Random(f"{SEED} lists")
        for _ in range(12):
            one, other = ([draw.randint(0, 5) for _ in range(draw.randint(0, 6))] for _ in range(2))
            l, m = listed(one), listed(other)
            net = f"<a,b,c,d|Append({m},a)={l},Reverse(b)={l},Length(c)={l},More(d)={l},Dup(e,Era)=Z,e=Era>"
            wanted = f"{listed(one + other)},{listed(one[::-1])},{len(one)},{listed([it + 1 for it in one])}"
            self.comes_to("list", net, wanted)

    def test_sorted_lists(self):
        draw = random.Random(f"{SEED} sorts")
        for _ in range(12):
            one, other = ([draw.randint(0, 6) for _ in range(draw.randint(0, 7))] for _ in range(2))
            l, s, t = listed(one), listed(sorted(one)), listed(sorted(other))
            net = f"<a,b,c,d|InsertSort(a)={l},MergeSort(b)={l},Merge({t},c)={s},Insert(3,d)={s}>"
            self.comes_to("sort", net, f"{s},{s},{listed(sorted(one + other))},{listed(sorted(one + [3]))}")

    def test_pairs(self):
        for one, other in (("A", "B"), ("(A,B)", "C"), ("Z", "(Z,Z)")):
            net = f"<a,b,c|Fst(a)=({one},{other}),Snd(b)=({one},{other}),Swap(c)=({one},{other}),Dup(d,Era)=Z,d=Era>"
            self.comes_to("pair", net, f"{one},{other},({other},{one})")

    def test_trees(self):
        draw = random.Random(f"{SEED} trees")
        for _ in range(12):
            entries = [draw.randint(0, 4) for _ in range(draw.randint(0, 8))]
            one, mirror, depth = tree(draw, entries)
            net = f"<a,b,c|Mirror(a)={one},Entries([],b)={one},Depth(c)={one},Dup(d,Era)=Z,d=Era>"
            self.comes_to("tree", net, f"{mirror},{listed(entries)},{depth}")

    def test_combinators(self):
        """K, S K and S K K, applied; S of combinators that copy what they are given."""
        for net, wanted in (
            ("K=App(A,App(B,r))", "A"),
            ("S=App(K,App(K1(A),App(B,r)))", "B"),
            ("S=App(K,App(K,App(A,r)))", "A"),
            ("S=App(S,App(K,App(A,r)))", "S2(A,K1(A))"),
        ):
            self.comes_to("sk", f"<r|{net}>", wanted)

    def test_numerals_of_church(self):
        """Two of a counter, of one number after the other."""
        two = "Lam(D(App(one,more),App(x,one)),Lam(x,more))"
        for number in (0, 1, 5):
            self.comes_to("church", f"<r,u,v|{two}=App(Count,App({number},r)),E(u,v)=A>", f"{number + 2},A,A")

    def test_terms_of_lambda_calculus(self):
        draw = random.Random(f"{SEED} lambda")
        for _ in range(20):
            term, number = drawn_numeral(draw, 3)
            self.comes_to("lambda", f"<r|Eval(r)={net_of(applied(term, 'Succ', 'Z'))}>", f"{number}")
        for base in range(4):
            for power in range(1, 4):
                self.comes_to("lambda", f"<r|Eval(r)={net_of(applied(church(power), church(base), 'Succ', 'Z'))}>", f"{base**power}")

    def test_a_turing_machine(self):
        draw = random.Random(f"{SEED} turing")
        for _ in range(20):
            left, right = ([draw.randint(0, 1) for _ in range(draw.randint(0, 6))] for _ in range(2))
            wanted = halted(left, right)
            if wanted:
                net = f"<r|AR({tape(left)},r)={tape(right)}>"
                sides = re.fullmatch(r"<Tape\((.*),(.*)\)\|>\n", self.answer("turing", net))
                self.equals(net, "both sides of its tape", tuple(map(ones_last, wanted)), (cells_of(sides[1]), cells_of(sides[2])))
