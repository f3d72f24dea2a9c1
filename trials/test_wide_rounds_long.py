"""20,000 drawn systems whose rounds in place have the rows and nets of rounds of words, and 300 nets of 100,000 to 10,000,000 interactions
whose rounds add up to those of any order. Where rounds end they are those that `reduce --span --profile` tells by one thread and by
four. They take some twenty minutes of one processor: python3 trials wide_rounds_long."""

import draws
from program import run
from test_in_place import POWER, numeral, stats_of
from test_span import OfProfiles
from test_wide_rounds import ADD_AND_COPY, BesideWords, FIBONACCI, SORT, rows_of, summed

# How many systems each of the four trials draws.
EACH = 5_000

# How many are given to one server.
AT_ONCE = 250

# How many large nets each of the three trials draws.
LARGE = 100

MULTIPLY = ADD_AND_COPY[:-1] + ";Mul(Z,Eps)><Z;Mul(r,Dup(y,z))><S(Mul(Add(r,z),y));Eps><Z;Eps><S(Eps)}"
ACKERMANN = "{Ack(S(x),x)><Z;Ack(r,Again(r,m))><S(m);Again(r,Ack(r,S(Z)))><Z;Again(r,Dup(Ack(r,k),m))><S(Again(k,m))"
ACKERMANN += ";Dup(Z,Z)><Z;Dup(S(x),S(y))><S(Dup(x,y))}"


class ManyBesideWords(BesideWords, OfProfiles):
    seconds = 400

    def has_ended(self, text, pairs):
        while pairs and not pairs[-1]:
            pairs.pop()
        self.has_profile(text, pairs, (1, 4))

    def beside(self, size, most):
        """Systems of a size, each for at most so many rounds. Some end, some go on, and some need more nodes than a job has."""
        drawn, seen = self.draws(), {}
        for _ in range(EACH // AT_ONCE):
            systems = [size(drawn) for _ in range(AT_ONCE)]
            for kind, count in self.are_those_of_words(drawn, systems, most).items():
                seen[kind] = seen.get(kind, 0) + count
        self.equals("icserve trace", f"all systems: {seen}", EACH, seen["systems"])
        self.equals("icserve trace", f"rounds were made: {seen}", True, seen["rounds"] > EACH // 2)

    def test_small_systems(self):
        self.beside(lambda drawn: draws.system(drawn, drawn.choice([1, 2]), drawn.choice([2, 3, 4])), 12)

    def test_larger_systems(self):
        self.beside(lambda drawn: draws.system(drawn, drawn.choice([3, 4, 6]), drawn.choice([2, 3, 4])), 8)

    def test_known_rules(self):
        known = list(draws.known_rules().values())

        def system(drawn):
            rules = drawn.choice(known)
            return rules, draws.configuration(drawn, rules, drawn.randrange(6), drawn.randint(1, 20), drawn.choice([2, 5, 9]))

        self.beside(system, 15)

    def test_many_rules(self):
        def system(drawn):
            symbols = draws.symbols(drawn, drawn.randint(3, 8), 3)
            rules = draws.rules(drawn, symbols, drawn.randint(4, 20), size=drawn.choice([1, 2, 3]))
            return rules, draws.configuration(drawn, rules, drawn.randrange(5), drawn.randint(1, 25), 4, active=0.9)

        self.beside(system, 6)


def sums(drawn):
    """Products and sums that hang together as a drawn tree."""
    names, equations, due = 1, [], [("x1", drawn.randint(6, 9))]
    while due:
        name, depth = due.pop()
        if depth == 0 or drawn.random() < 0.1:
            equations.append(f"{name}={numeral(drawn.randint(1, 60))}")
            continue
        left, right = f"x{names + 1}", f"x{names + 2}"
        names += 2
        word = "Mul" if depth == 1 else "Add"
        equations.append(f"{word}({name},{left})={right}")
        due += [(left, depth - 1), (right, depth - 1)]
    drawn.shuffle(equations)
    return f"{MULTIPLY} <x1|{','.join(equations)}>"


def sort(drawn):
    numbers = drawn.choices(range(drawn.randint(50, 200)), k=drawn.randint(60, 180))
    listed = "".join(f"Cons({numeral(it)}," for it in numbers) + "Nil" + ")" * len(numbers)
    return f"{SORT} <r|Sort(r)={listed}>"


def functions(drawn):
    """Several values of a function at once."""
    kind = drawn.randrange(3)
    if kind == 0:
        numbers = [drawn.randint(12, 26) for _ in range(drawn.randint(1, 5))]
        rules, one = FIBONACCI, "F(r{0})={1}"
    elif kind == 1:
        numbers = [drawn.randint(10, 20) for _ in range(drawn.randint(1, 5))]
        rules, one = POWER, "Exp(r{0})={1}"
    else:
        numbers = [drawn.randint(5, 7) for _ in range(drawn.randint(1, 5))]
        rules, one = ACKERMANN, "Ack(r{0},{1})=S(S(S(Z)))"
    face = ",".join(f"r{at}" for at, _ in enumerate(numbers, 1))
    body = ",".join(one.format(at, numeral(it)) for at, it in enumerate(numbers, 1))
    return f"{rules} <{face}|{body}>"


class ManyLargeNets(OfProfiles):
    seconds = 100

    def each_adds_up(self, kind):
        drawn, tried = self.draws(), 0
        while tried < LARGE:
            text = kind(drawn)
            ran = run("reduce", "--workers", 1, "--stats", given=text)
            made = stats_of(ran.err)[0]
            if 100_000 <= made <= 10_000_000:
                self.adds_up(text, ran, made, drawn)
                tried += 1

    def adds_up(self, text, in_any_order, made, drawn):
        """Fails unless the pairs of all rounds are the interactions of any order, and the net after them, and after some and the rest, is its."""
        traced = run("trace", "--stats", given=text)
        pairs = [it[1] for it in rows_of(traced)]
        work, span, average, greatest = summed(pairs)
        line = b"icserve: work %d, span %d, pairs at once %s on average, %d at most\n" % (work, span, average.encode(), greatest)
        self.equals(traced.command, "status, pairs of all rounds and what all did", (0, made, line), (traced.status, work, traced.err))
        whole = run("reduce", "--rounds", span, "--stats", given=text)
        self.equals(whole.command, "status and interactions", (0, made), (whole.status, stats_of(whole.err)[0]))
        self.agrees(whole.command, "the net, which has no equation", in_any_order.out, whole.out)
        count = drawn.randrange(span)
        cut = run("reduce", "--rounds", count, "--stats", given=text)
        self.equals(cut.command, "status and interactions", (5, sum(pairs[:count])), (cut.status, stats_of(cut.err)[0]))
        rest = run("reduce", "--rounds", span, "--stats", given=text[: text.index("}") + 1].encode() + cut.out)
        self.equals(rest.command, "status and interactions that were left", (0, made - sum(pairs[:count])), (rest.status, stats_of(rest.err)[0]))
        self.agrees(rest.command, "the net", in_any_order.out, rest.out)
        self.has_profile(text, pairs, (1, 4))

    def test_sums_and_products(self):
        self.each_adds_up(sums)

    def test_sorts(self):
        self.each_adds_up(sort)

    def test_functions(self):
        self.each_adds_up(functions)
