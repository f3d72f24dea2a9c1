"""Forms of rich texts: worked examples whose answers are written by hand, drawn texts, and one fault in each of others."""

import random
import re
import resource

import patterns
import rich
from program import IN_MEMORY, SEED, TOP, Trial, run

SYMBOLS = {"Add": 2, "S": 1, "Z": 0, "Dup": 2, "Era": 0, "T": 3, "0": 0}
SHORT_SYMBOLS = {"Add": 2, "S": 1, "Z": 0, "Dup": 2, "Era": 0, "Cons": 2, "Nil": 0, "Pair": 2}
WORDS = [letter + rest for letter in "abcdefghijklmnopqrstuvwxyz" for rest in ("", "1", "7", "_x", "Left", "01")]

# A text, and what it is written as, both by hand.
WORKED = {
    "addition": (
        "{Add(x,r) >< S(y) => Add(x,w)~y, r~S(w);\n Add(x,r) >< Z => x~r} <r|Add(S(Z),r)=S(Z)>",
        "{Add(x,S(w))><S(Add(x,w));\n Add(x,x)><Z} <r|Add(S(Z),r)=S(Z)>",
    ),
    "nothing right": ("{A >< B =>} <|>", "{A><B} <|>"),
    "= and a comma at the end": ("{A(x) >< B => x=C,} <|>", "{A(C)><B} <|>"),
    "the agent first": ("{A(x) >< B(y) => C(y)~x} <|>", "{A(C(y))><B(y)} <|>"),
    "wires through": ("{A(x,y) >< B(z,w) => x~z, y~w} <|>", "{A(x,y)><B(x,y)} <|>"),
    "a chain": ("{A(x) >< B(y) => x~u, u~v, v~y} <|>", "{A(x)><B(x)} <|>"),
    "a chain to an agent": ("{A(x) >< B => u~v, v~C, x~u} <|>", "{A(C)><B} <|>"),
    "agents in agents": ("{A(x) >< B(y) => x~P(u,v), u~Q(w), v~w, y~R} <|>", "{A(P(Q(v),v))><B(R)} <|>"),
    "a loop within a term": ("{A(x) >< B => x~P(u,v), u~v} <|>", "{A(P(u,u))><B} <|>"),
    "an inner name twice in terms": ("{A(x,r) >< S(y) => r~P(w,w), x~y} <|>", "{A(x,P(w,w))><S(x)} <|>"),
    "long names": ("{Add(left,out) >< Z => left~out} <out|Add(out,Z)=Z>", "{Add(a,a)><Z} <b|Add(b,Z)=Z>"),
    "lines stay": ("{A(x)\n><B\n=> # note\nx~C\n;\nD><E}\n<|>", "{A(C)><B\n\n\n\n;\nD><E}\n<|>"),
    "copy beside": (
        "{copy D; A(x) >< B => x~D(y,y)} <|A(x)=x>",
        "{ D(A(a),A(a1))><A(D(a,a1));D(a,b)><D(a,b);D(B,B)><B; A(D(y,y))><B} <|A(x)=x>",
    ),
    "copiers of one another": (
        "{copy D, E} <|D(a,b)=E(c,d)>",
        "{ D(a,b)><D(a,b);D(E(a,b),E(a1,b1))><E(D(a,a1),D(b,b1));  E(a,b)><E(a,b)} <|D(a,b)=E(c,d)>",
    ),
    "erasers over lines": ("{erase E\n,\nF;A><B} <|>", "{ E><A;E><B;E><E;E><F\n; \nF><A;F><B;F><F;A><B} <|>"),
    "equations of the configuration stay": ("{A><B} <|a=>", "{A><B} <|a=>"),
    "separators at an end": ("{A><B;\n C><D ; } <a,b|a=A, b=B , >", "{A><B;\n C><D  } <a,b|a=A, b=B  >"),
    "separators that are no end stay": ("{A><B;;} <a,|a=A,,>", "{A><B;} <a,|a=A,>"),
    "numbers": ("{number S Z; Add(x,x)><0} <r|Add(r,2)=0>", "{ Add(x,x)><Z} <r|Add(r,S(S(Z)))=Z>"),
    "numbers that are declared later": ("{Add(x,x)><0; number S Z}\n<007|>", "{Add(x,x)><Z}\n<S(S(S(S(S(S(S(Z)))))))|>"),
    "no declaration": ("{A><0;} <|A=0>", "{A><0} <|A=0>"),
    "powers": ("{number S Z;} <x|S^3(x)=T^2(S ^ 0 (Z)),U^1(V,W)=2>", "{} <x|S(S(S(x)))=T(T( Z)),U(V,W)=S(S(Z))>"),
    "lists": ("{list Cons Nil;} <x,y|[]=[a,b|x],[[A]|y]=A([],[B])>", "{} <x,y|Nil=Cons(a,Cons(b,x)),Cons(Cons(A,Nil),y)=A(Nil,Cons(B,Nil))>"),
    "pairs": ("{pair P} <(a,(b,C))|(a,b)=A((C,D))>", "{} <P(a,P(b,C))|P(a,b)=A(P(C,D))>"),
    "terms with names": ("{number S Z} let one = 1; let pair_1 = P(one, one)\n<r|r=pair_1,one=Q(pair_1)>", "{}  \n<r|r=P(S(Z),S(Z)),S(Z)=Q(P(S(Z),S(Z)))>"),
    "a term over lines": ("{} let a = A(\nB\n)\n<|a=a>", "{} \n\n\n<|A(B)=A(B)>"),
    "all in an arrow": ("{number S Z; list C N; pair P; A(x,y) >< B => x~[1,(u,2)|v], y~P(v,u)} <|>", "{ A(C(S(Z),C(P(u,S(S(Z))),v)),P(v,u))><B} <|>"),
    "names as ever": ("{A><B} <list,number|let=Z,list=number,use=pair>", "{A><B} <a,b|c=Z,a=b,d=e>"),
}

# A text, the place of its fault, and what is told of it.
REFUSED = {
    "two agents": ("{A(x) >< B => x~C, D~E} <|>", (1, 20), "right of => no two agents meet: write what these two come to, or one agent more, which has rules of its own"),
    "two agents by names": ("{A(x) >< B => x~C, u~E, F~u} <|>", (1, 20), "right of => no two agents meet: write what these two come to, or one agent more, which has rules of its own"),
    "a circle": ("{A >< B => u~u} <|>", (1, 12), "right of => this equation leads round to itself, and to no name left of it"),
    "a circle of two": ("{A >< B =>\n u~v, v~u} <|>", (2, 2), "right of => this equation leads round to itself, and to no name left of it"),
    "a circle by an agent": ("{A >< B => u~S(u)} <|>", (1, 12), "right of => this equation leads round to itself, and to no name left of it"),
    "not right": ("{A(x,y) >< B => x~C} <|>", (1, 6), "a name left of => stands once right of it, and this one doesn't: to erase it, write y ~ Era"),
    "twice right": ("{A(x) >< B => x~C(x)} <|>", (1, 19), "a name left of => stands once right of it, and this one twice: to copy it, write x ~ Dup(y,z)"),
    "twice left": ("{A(x) >< B(long,x) => long~C} <|>", (1, 17), "left of => each name stands once: x stands there twice"),
    "once": ("{A(x) >< B => x~C(more_1)} <|>", (1, 19), "a name that isn't left of => stands right of it twice: more_1 stands once"),
    "thrice": ("{A(x) >< B => x~C(y,y,y)} <|>", (1, 23), "a name that isn't left of => stands right of it twice: y stands three times"),
    "no argument": ("{A(~x) >< B => x~C} <|>", (1, 4), "left of => an argument is a name, or a pattern as S(x): one is looked for here"),
    "no symbol": ("{a(x) >< B => x~C} <|>", (1, 2), "a rule by => begins as A(x,y) >< B(z): a symbol is looked for here, which begins with A to Z or 0 to 9"),
    "no second symbol": ("{A(x) >< => x~C} <|>", (1, 10), "a rule by => begins as A(x,y) >< B(z): a symbol is looked for here, which begins with A to Z or 0 to 9"),
    "no meeting": ("{A(x) => x~C} <|>", (1, 7), ">< is looked for here, between the two sides of a rule"),
    "no sign": ("{A(x) >< B => x C} <|>", (1, 17), "~ or = is looked for here, between two terms"),
    "no term": ("{A(x) >< B => x~} <|>", (1, 17), "a term is looked for here: a name, or a symbol, which may have arguments"),
    "no closing": ("{A(x) >< B => x~C(D E)} <|>", (1, 21), ", or ) is looked for here"),
    "no end": ("{A(x) >< B => x~C D} <|>", (1, 19), ", or the end of the rule is looked for here"),
    "a second arrow": ("{A(x) >< B => x~C => D} <|>", (1, 19), ", or the end of the rule is looked for here"),
    "a number without its symbols": ("{number S} <|>", (1, 10), "a symbol is looked for here: number S Z, list Cons Nil and pair Pair say what numbers, lists and pairs stand for"),
    "a number of three symbols": ("{number S Z Q} <|>", (1, 13), "; or } is looked for here"),
    "a pair of two symbols": ("{pair S Z} <|>", (1, 9), "; or } is looked for here"),
    "two of numbers": ("{number S Z;\n number S Z} <|>", (2, 2), "an earlier number says what these stand for"),
    "a list without its symbols": ("{A><B} <|A=[B]>", (1, 12), "write list Cons Nil among the rules, which says what a list stands for"),
    "a pair without its symbol": ("{list C N} <|A=(B,C)>", (1, 16), "write pair Pair among the rules, which says what a pair stands for"),
    "a pair of one": ("{pair P} <|A=(B)>", (1, 16), "a pair has two terms, as (a,b)"),
    "a pair of three": ("{pair P} <|A=(B,C,D)>", (1, 18), "a pair has two terms, as (a,b)"),
    "a list that isn't closed": ("{list C N} <|A=B([C)>", (1, 20), ", or ] is looked for here, and after the term that follows | only ]"),
    "a list with two rests": ("{list C N} <|A=[B|C,D]>", (1, 20), ", or ] is looked for here, and after the term that follows | only ]"),
    "the end of no list": ("{list C N} <|A=B]>", (1, 17), "no list is open here"),
    "a power without a number": ("{} <|A^(x)=B>", (1, 8), "after ^ a number and a term in parentheses are looked for, as in S^12(x)"),
    "a power without a term": ("{} <|A^3=B>", (1, 8), "after ^ a number and a term in parentheses are looked for, as in S^12(x)"),
    "a let without a name": ("{} let Two = A <|>", (1, 8), "a name is looked for here, as in let two = S(S(Z))"),
    "a let without =": ("{} let two A <|>", (1, 12), "= is looked for here, as in let two = S(S(Z))"),
    "a let with a name": ("{} let two = A(x) <|>", (1, 16), "what let names has no names but those of an earlier let: x is none"),
    "a let of two terms": ("{} let two = A B <|>", (1, 16), "after the term of a let another let or the configuration is looked for"),
    "two lets of a name": ("{} let two = A; let two = B <|>", (1, 21), "an earlier let names two already"),
    "a fault after a number": ("{number S Z; A(x)><B=>x~4;copy dup} <|>", (1, 32), "copy and erase need a symbol: A to Z or 0 to 9, and then letters and digits"),
    "a copier without a symbol": ("{copy D,} <|D(a,b)=A>", (1, 9), "copy and erase need a symbol: A to Z or 0 to 9, and then letters and digits"),
    "of a copier in the same text": ("{A(x) >< B => x~C;\ncopy dup} <|>", (2, 6), "copy and erase need a symbol: A to Z or 0 to 9, and then letters and digits"),
    "of a copier on the same line": ("{A(x)><B=>x~C;copy dup} <|>", (1, 20), "copy and erase need a symbol: A to Z or 0 to 9, and then letters and digits"),
}

# What may stand first in a configuration, where its fault is, and what is told of it.
FORM_FAULTS = [
    ("a pair of one", "(A)", 2),
    ("a pair of three", "(A,[B],3,T)", 6),
    ("a list that isn't closed", "T([A,1)", 6),
    ("two rests", "[A|q_1,T]", 6),
    ("no list", "T(A]", 3),
    ("a power", "S^x(A)", 2),
    ("a power alone", "S^7", 2),
    ("a list of Inpla", "T:A", 1),
    ("a sum of Inpla", "T(3+A)", 3),
]

# What may stand before a configuration, and the same.
LET_FAULTS = [
    ("a let without a name", " let Two = A ", 5),
    ("a let without =", " let q_let A ", 11),
    ("a let with a name", " let q_let = A(q_2) ", 15),
    ("a let of two terms", " let q_let = A B ", 15),
    ("two lets of a name", " let q_let = A; let q_let = B ", 20),
]

# What may stand after the rules, and the same.
NET_FAULT = ("a net of Inpla", " q_1 ~ A; q_1; ", 1)

# What may stand among the rules, and the same.
USE_FAULTS = [
    ("a file that isn't there", 'use "none.rich";', 0),
    ("a path without quotes", "use none;", 0),
    ("a second declaration", "list A B;list A B;", 9),
]

# What is told of each fault that is drawn.
TELLS = {
    "a pair of one": "a pair has two terms, as (a,b)",
    "a pair of three": "a pair has two terms, as (a,b)",
    "a list that isn't closed": ", or ] is looked for here",
    "two rests": ", or ] is looked for here",
    "no list": "no list is open here",
    "a power": "after ^ a number and a term in parentheses",
    "a power alone": "after ^ a number and a term in parentheses",
    "not right": "this one doesn't: to erase it",
    "twice left": "stands there twice",
    "twice right": "this one twice: to copy it",
    "once right": "stands once",
    "thrice right": "stands three times",
    "meeting": "no two agents meet",
    "circle": "leads round to itself",
    "a list of Inpla": "here it is [x|xs]",
    "a sum of Inpla": "numbers inside agents are Inpla's own",
    "a let without a name": "a name is looked for here",
    "a let without =": "= is looked for here",
    "a let with a name": "q_2 is none",
    "a let of two terms": "after the term of a let another let",
    "two lets of a name": "names q_let already",
    "a net of Inpla": "a configuration is looked for here",
    "a file that isn't there": "the file that is named here can't be read",
    "a path without quotes": "a path in quotes is looked for here",
    "a second declaration": "says what these stand for",
}


def place_in(text, at):
    front = text[:at]
    return front.count("\n") + 1, len(front) - front.rfind("\n")


def faulty(draw, text):
    """A rule by an arrow with one fault, which it is, and where."""
    left, right, equations = rich.read_rule(rich.uncommented(text))
    lefts = rich.names_in(left) + rich.names_in(right)
    inner = sorted({it for pair in equations for term in pair for it in rich.names_in(term)} - set(lefts))
    kinds = ["once right", "meeting", "circle"] + ["thrice right"] * bool(inner) + ["twice right", "not right"] * bool(lefts) + ["twice left"] * (len(lefts) > 1)
    kind = draw.choice(kinds)
    if kind in ("not right", "twice left"):
        word = draw.choice(lefts if kind == "not right" else lefts[1:])
        other = "q_lost" if kind == "not right" else lefts[0]
        at = rich.place_of(text, word)
        return text[:at] + other + text[at + len(word) :], kind, at
    more = {
        "once right": "q_new ~ Z",
        "meeting": draw.choice(["Z ~ S(Z)", "q_new ~ Z, S(Z) = q_new"]),
        "circle": draw.choice(["q_new ~ S(q_new)", "q_new = q_new", "q_new ~ q_old, q_old = S(q_new)"]),
        "thrice right": f"{draw.choice(inner)} ~ Z" if inner else "",
        "twice right": f"{draw.choice(lefts)} ~ Z" if lefts else "",
    }[kind]
    text = text.rstrip().removesuffix(",")
    text += (", " if equations else " ") + ("" if not text.endswith("}") else "\n")
    return text + more, kind, len(text)


class Worked(Trial):
    rooms = IN_MEMORY

    def test_each_worked_text_is_written_so(self):
        for name_of, (text, wanted) in WORKED.items():
            with self.subTest(name=name_of):
                self.runs("expand", given=text, out=wanted.encode())

    def test_each_refused_text_is_told_with_its_place(self):
        for name_of, (text, place, sentence) in REFUSED.items():
            with self.subTest(name=name_of):
                self.is_refused(text, place, sentence)

    def test_the_example_reverses(self):
        plain = run("expand", TOP / "examples/reverse.rich")
        self.equals(plain.command, "status and standard error", (0, b""), (plain.status, plain.err))
        self.runs("reduce", given=plain.out, out=["<Cons(S(S(S(Z))),Cons(S(S(Z)),Cons(S(Z),Nil)))|>"])
        self.equals("check", "the faults of what is written", (0, b""), run("check", "-", given=plain.out)[1:3])

    def is_refused(self, text, place, sentence):
        ran = run("expand", given=text)
        self.equals(ran.command, "how it ends", (1, b"", b"icserve: bad syntax\n"), (ran.status, ran.out, ran.err))
        lines = ran.after.decode().splitlines()
        self.equals(ran.command, "place and sentence", ("line {}, column {}".format(*place), sentence), (lines[0], lines[-1]))


class Drawn(Trial):
    rooms = IN_MEMORY
    seconds = 60

    def rules(self, draw, count):
        """Rules of the calculus, and by arrows, of pairs that differ."""
        pairs, rules = set(), []
        while len(rules) < count:
            wanted, arrow = rich.drawn_rule(draw, SYMBOLS, WORDS)
            pair = frozenset(rich.heads(wanted))
            if pair not in pairs:
                pairs.add(pair)
                rules.append((wanted, arrow))
        return rules

    def test_drawn_rules_stand_for_those_of_which_they_were_made(self):
        draw = random.Random(f"{SEED} arrows")
        for _ in range(60):
            rules = self.rules(draw, draw.randint(1, 12))
            ran = run("expand", given="{" + ";".join(arrow for _, arrow in rules) + "} <|>")
            self.equals(ran.command, "status and standard error", (0, b""), (ran.status, ran.err))
            wanted = "{" + ";".join(wanted for wanted, _ in rules) + "}<|>"
            self.equals(ran.command, "what is written", rich.canonical(wanted), rich.canonical(ran.out.decode()))
            by_model = ";".join(rich.plain(rich.uncommented(arrow)) for _, arrow in rules)
            self.equals("the model", "what it writes", rich.canonical(wanted), rich.canonical("{" + by_model + "}<|>"))

    def test_both_reduce_to_the_same(self):
        draw = random.Random(f"{SEED} reduce")
        for _ in range(40):
            rules = self.rules(draw, 10)
            net = rich.net_text(rich.drawn_net(draw, SYMBOLS))
            plain = run("expand", given="{" + ";".join(arrow for _, arrow in rules) + "}" + net)
            ends = [run("reduce", "--steps", 300, given=it) for it in (plain.out, rich.canonical("{" + ";".join(wanted for wanted, _ in rules) + "}" + net))]
            self.equals(plain.command, "how both end", ends[1].status, ends[0].status)
            self.equals(plain.command, "what they come to", *(rich.canonical(it.out.decode()) for it in reversed(ends)))

    def test_drawn_shorthands_stand_for_those_of_which_they_were_made(self):
        draw = random.Random(f"{SEED} shorthands")
        for _ in range(200):
            wanted, text = rich.drawn_shorthands(draw, SHORT_SYMBOLS, WORDS, draw.randint(0, 6))
            ran = run("expand", given=text)
            self.equals(ran.command, "status and standard error", (0, b""), (ran.status, ran.err))
            self.equals(ran.command, "what is written", rich.canonical(wanted), rich.canonical(ran.out.decode()))
            lines = text.count("\n")
            self.equals(ran.command, "how many lines", lines, ran.out.count(b"\n"))

    def drawn_fault(self, draw):
        """A text with one fault, which it is, and its place."""
        if draw.random() < 0.3:
            text, kind, at = patterns.faulty_text(draw, WORDS, faulty)
            return text, kind, place_in(text, at)
        if draw.random() < 0.4:
            _, text = rich.drawn_shorthands(draw, SHORT_SYMBOLS, WORDS, draw.randint(0, 3))
            shown = re.sub(r"#[^\n]*", lambda it: " " * len(it[0]), text)
            if draw.random() < 0.4:
                first, last, net = shown.index("{") + 1, shown.rindex("}") + 1, shown.rindex("<")
                at, (kind, spoilt, shift) = draw.choice([(first, draw.choice(USE_FAULTS)), (last, NET_FAULT), (net, draw.choice(LET_FAULTS))])
                return text[:at] + spoilt + text[at:], kind, place_in(text[:at] + spoilt, at + shift)
            at = shown.rindex("<") + 1
            kind, spoilt, shift = draw.choice(FORM_FAULTS)
            # Some have a configuration before that one, which is sound.
            before = draw.choice(["", "", "<|>", "<q_1,\n x|q_1=Z> "])
            text, at = text[: at - 1] + before + text[at - 1 :], at + len(before)
            return text[:at] + spoilt + draw.choice(["", ","]) + text[at:], kind, place_in(text[:at] + spoilt, at + shift)
        rules = [arrow for _, arrow in self.rules(draw, draw.randint(1, 3))]
        spoilt, kind, at = faulty(draw, rules[-1])
        front = "{" + "".join(it + ";" for it in rules[:-1])
        return f"{front}{spoilt}}} <|>", kind, place_in(front + spoilt, len(front) + at)

    def test_each_of_5000_faults_is_told_at_its_place(self):
        draw = random.Random(f"{SEED} faults")
        for _ in range(10):
            drawn = [self.drawn_fault(draw) for _ in range(500)]
            for number, (text, _, _) in enumerate(drawn):
                (self.room / f"{number}.rich").write_text(text)
            ran = run("check", *(f"{number}.rich" for number in range(500)), cwd=self.room)
            self.equals("check", "status, and how many faults are told", (1, 500), (ran.status, ran.out.count(b"\n")))
            for number, ((text, kind, (line, column)), told) in enumerate(zip(drawn, ran.out.decode().splitlines())):
                self.equals(text, f"the place of {kind}: {told}", f"{number}.rich:{line}:{column}: bad syntax: ", told[: told.index("syntax: ") + 8])
                self.equals(text, f"what is told of {kind}: {told}", True, TELLS.get(kind, kind) in told)

    def test_texts_with_shorthands_reduce_to_the_same(self):
        draw = random.Random(f"{SEED} reduced")
        for _ in range(60):
            wanted, text = rich.drawn_shorthands(draw, SHORT_SYMBOLS, WORDS, draw.randint(1, 8))
            ends = [run("reduce", "--rich", "--plain", "--workers", 1, "--steps", 300, given=it) for it in (wanted, text)]
            self.equals(ends[1].command, "how both end", ends[0].status, ends[1].status)
            self.equals(ends[1].command, "what they come to", *(rich.canonical(it.out.decode()) for it in ends))

    def test_spoilt_texts_are_written_or_refused(self):
        draw = random.Random(f"{SEED} spoilt")
        for _ in range(200):
            _, text = rich.drawn_shorthands(draw, SHORT_SYMBOLS, WORDS, draw.randint(0, 4))
            tokens = rich.TOKEN.findall(rich.uncommented(text))
            for _ in range(draw.randint(1, 4)):
                at = draw.randrange(len(tokens))
                tokens[at : at + draw.randint(0, 2)] = draw.choice([[], [draw.choice(tokens)], [draw.choice("{};<>|=,()[]^~#-_\n é") + draw.choice(["", " let "])]])
                tokens = tokens or ["{"]
            ran = run("expand", given=" ".join(tokens))
            ends = (ran.status, ran.err) in ((0, b""), (1, b"icserve: bad syntax\n"))
            self.equals(ran.command, "how it ends", (True, ran.status == 0), (ends, ran.after == b""))


class Bounds(Trial):
    rooms = IN_MEMORY
    seconds = 60

    def spent(self):
        return resource.getrusage(resource.RUSAGE_CHILDREN).ru_utime

    def test_large_rules_take_seconds(self):
        """A chain of names, agents in agents, equations of one name each, and many rules."""
        chain = ",".join(f"n{k}_~n{k + 1}_" for k in range(300_000))
        deep = "S(" * 1_000_000 + "y" + ")" * 1_000_000
        wide = ",".join(f"n{k}_~S(n{k + 1}_)" for k in range(300_000))
        for text in (
            "{A(n0_,n300000_)><B=>" + chain + "}<|>",
            "{A(x,y)><B=>x~" + deep + "}<|>",
            "{A(n0_,n300000_)><B=>" + wide + "}<|>",
            "{" + ";".join(f"A{k}(x,r)><B=>x~r" for k in range(300_000)) + "}<|>",
            "{number S Z}<x|x=5000000>",
            "{list C N}<x|x=[" + ",".join("A" * 2_000_000) + "]>",
            "{list C N}<x|x=" + "[" * 2_000_000 + "A" + "]" * 2_000_000 + ">",
            "{pair P}<x|x=" + "(A," * 1_000_000 + "A" + ")" * 1_000_000 + ">",
            "{}" + "".join(f"let a_{k} = A{k};" for k in range(300_000)) + "<|" + ",".join(f"a_{k}=B" for k in range(300_000)) + ">",
        ):
            before = self.spent()
            ran = run("expand", given=text)
            took = self.spent() - before
            self.equals(ran.command[:60], "status and standard error", (0, b""), (ran.status, ran.err))
            self.equals(ran.command[:60], f"within 6 seconds of processor time: {took:.2f}", True, took < 6)

    def test_what_is_too_long_is_told(self):
        """What stands for more than a text may have is refused at its place, in the time and room of what may be written."""
        doubled = "let a0_ = A(B,B);" + "".join(f"let a{k + 1}_ = A(a{k}_,a{k}_);" for k in range(60))
        for text, column in (
            ("{number S Z}<|A=99999999999999999999999>", 17),
            ("{} <|A^9000000000(x)=B>", 6),
            ("{}" + doubled + "<|>", None),
        ):
            ran = run("expand", given=text)
            self.equals(ran.command[:60], "how it ends", (1, b"", b"icserve: bad limit\n"), (ran.status, ran.out, ran.err))
            lines = ran.after.decode().splitlines()
            most = "what this stands for is too long: a text has at most 8589934592 bytes" if column else "a term that let names has at most 16777216 bytes"
            self.equals(ran.command[:60], "what is told", most, lines[-1])
            if column:
                self.equals(ran.command[:60], "its place", f"line 1, column {column}", lines[0])
