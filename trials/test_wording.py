"""Answers in the words of a rich text: worked ones by hand, drawn ones that are read again, and what stays plain."""

import random
import re
import resource

import rich
from program import IN_MEMORY, SEED, TOP, Trial, run
from test_rich import SHORT_SYMBOLS, WORDS

FORMS = "number S Z; list Cons Nil; pair Pair"

# The rules and the configuration of a text, and what `reduce` prints of it.
WORKED = {
    "a number": ("number S Z", "<x,3|>", "<x,3|>"),
    "zero": ("number S Z", "<Z|>", "<0|>"),
    "no zero at the end": ("number S Z", "<S(x),S(S(x))|>", "<S(a),S^2(a)|>"),
    "other agents at the end": ("number S Z", "<S(S(A(S(S(Z)))))|>", "<S^2(A(2))|>"),
    "a number in arguments": ("number S Z", "<A(S(Z),Z,S(B))|>", "<A(1,0,S(B))|>"),
    "lists": ("list Cons Nil", "<Cons(A,Cons(B,Nil)),Nil|>", "<[A,B],[]|>"),
    "lists that go on": ("list Cons Nil", "<Cons(A,Cons(B,x)),Cons(x,T)|>", "<[A,B|a],[a|T]|>"),
    "lists of lists": ("list Cons Nil", "<Cons(Cons(A,Nil),Cons(Nil,Cons(A,B)))|>", "<[[A],[],A|B]|>"),
    "pairs": ("pair Pair", "<Pair(A,Pair(B,x)),x|>", "<(A,(B,a)),a|>"),
    "all": (FORMS, "<Cons(S(Z),Cons(Pair(Z,S(S(x))),T(Nil))),x|>", "<[1,(0,S^2(a))|T([])],a|>"),
    "equations": (FORMS, "<|S(S(Z))=Cons(x,Nil),x=Pair(A,B)>", "<|2=[(A,B)]>"),
    "another number of arguments": (FORMS, "<S(A,B),Z(A),Cons(A),Nil(A),Pair(A,B,A)|>", "<S(A,B),Z(A),Cons(A),Nil(A),Pair(A,B,A)|>"),
    "zeros with arguments": (FORMS, "<S(S(Z(A)))|>", "<S^2(Z(A))|>"),
    "symbols of digits": ("number 1 0; list 2 3; pair 7", "<1^1(x),2,[],[1],x,(0,A)|[A|A]=3>", "<1^1(a),2,[],[1],a,(0,A)|[A|A]=3>"),
    "one symbol of both": ("number S N; list C N", "<C(A,N),S(N),N|>", "<[A],1,0|>"),
    "free names": ("number S Z", "<one_more,x,last|>", "<one_more,x,last|>"),
    "a free name in a term": ("number S Z", "<S(one_more),r|A(r)=B,two=x>", "<S(one_more),d|A(d)=B,two=x>"),
    "wires are named anew": ("number S Z", "<left,S(left),right|>", "<a,S(a),right|>"),
    "a name of the calculus that is taken": ("number S Z", "<a,first,A(w),w|>", "<a,first,A(e),e|>"),
}


def declared(text):
    """The rules of a text, with their braces."""
    shown = re.sub(r"#[^\n]*", lambda it: " " * len(it[0]), text)
    return text[: shown.rindex("}") + 1]


def net_of(text):
    return re.search(r"<[^<>]*>$", text.strip())[0]


def free_names(net, text=""):
    """The names that stand once in a net, but for those that `let` names in the text."""
    found = re.findall(r"(?<![A-Za-z0-9_^])[a-z][A-Za-z0-9_]*", net)
    return sorted(it for it in found if found.count(it) == 1 and not re.search(rf"\blet {it}\b", text))


def renamed(draw, text, words):
    """A text whose configuration has other names, long ones too."""
    front, net = text[: text.rindex("<")], text[text.rindex("<") :]
    names = dict(zip((f"w{k}" for k in range(1, 13)), draw.sample(words, 12)))
    return front + re.sub(r"\bw\d+\b", lambda it: names[it[0]], net)


class Answers(Trial):
    rooms = IN_MEMORY
    seconds = 60

    def test_worked_answers(self):
        for name, (rules, net, wanted) in WORKED.items():
            with self.subTest(name=name):
                ran = run("reduce", "--rich", given=f"{{{rules}}} {net}")
                self.equals(ran.command, "status, and what it prints", (0, f"{wanted}\n"), (ran.status, ran.out.decode()))

    def is_read_again(self, text, *words):
        """An answer in words, which with the same rules is expanded to the plain one."""
        told, plain = (run(*words, *more, "--rich", given=text) for more in ([], ["--plain"]))
        self.equals(told.command, "status and standard error", plain[1:2] + plain[3:], told[1:2] + told[3:])
        if not plain.out:
            return
        again = run("expand", given=f"{declared(text)}\n{told.out.decode()}")
        self.equals(again.command, "status", (0, b""), (again.status, again.err))
        self.equals(told.command, "its answer, read again", rich.canonical(net_of(plain.out.decode())), rich.canonical(net_of(again.out.decode())))
        uncommented = rich.uncommented(text)
        self.equals(told.command, "its free names", free_names(uncommented[uncommented.rindex("<") :], text), free_names(told.out.decode()))

    def test_drawn_answers_are_read_again(self):
        draw = random.Random(f"{SEED} answers")
        for _ in range(120):
            _, text = rich.drawn_shorthands(draw, SHORT_SYMBOLS, WORDS, draw.randint(0, 6))
            text = renamed(draw, text, WORDS)
            words = draw.choice([("reduce", "--workers", 1, "--steps", draw.randint(0, 200)), ("reduce", "--rounds", draw.randint(0, 9)), ("once",), ("reduce", "--workers", 2, "--nodes", 3000)])
            self.is_read_again(text, *words)

    def test_the_library_and_the_examples_are_read_again(self):
        for path in sorted([*TOP.glob("lib/*.rich"), *TOP.glob("examples/*.rich")]):
            text = path.read_text()
            if path.stem == "unending":
                self.is_read_again(text, "reduce", "--rounds", 6)
                continue
            self.is_read_again(text, "reduce")
            told = run("reduce", path)
            self.runs("reduce", "--rich", given=f"{declared(text)}{told.out.decode()}", out=told.out)

    def test_the_library_answers_as_its_heads_say(self):
        for path in sorted(TOP.glob("lib/*.rich")):
            wanted = re.search(r"(?m)^# => (<.*>)$", path.read_text())[1]
            self.runs("reduce", path, out=[wanted])

    def test_settled_configurations(self):
        self.runs("settle", "--rich", given="<one,other_end|one=A(x),x=B>", out=["<A(B),other_end|>"])
        self.runs("settle", "--rich", "--plain", given="<one,other_end|one=A(x),x=B>", out=["<A(B),b|>"])

    def test_what_stays_plain(self):
        text = "{number S Z; A><B} <r_1,2|A=B>"
        self.runs("reduce", "--rich", "--plain", given=text, out=["<a,S(S(Z))|>"])
        self.runs("reduce", "--rich", "--with-rules", given=text, out=["{A><B} <a,S(S(Z))|>"])
        self.runs("reduce", "--plain", given="{}<S(Z)|>", out=["<S(Z)|>"])
        self.runs("reduce", "--rich", "--quiet-answer", given=text, out=[])
        self.runs("reduce", "--rich", "--keep", self.room / "kept", given=text, out=["<r_1,2|>"])
        self.runs("reduce", "--resume", self.room / "kept", out=["<a,S(S(Z))|>"])
        self.equals("a refused text", "what it prints", (1, b""), run("reduce", "--rich", given="{number S Z}<2|A=>")[1:3])

    def test_a_drawing_has_the_names_of_the_text(self):
        for words in (("draw",), ("draw", "--rounds", 3)):
            told, plain = (run(*words, *more, "--rich", given="{A><B}<node,x,w,w|A=B,C(last_one)=D>") for more in ([], ["--plain"]))
            self.equals(told.command, "status", (0, 0), (told.status, plain.status))
            added = [it for it in told.out.decode().splitlines() if it not in plain.out.decode().splitlines()]
            self.equals(told.command, "the lines that are more", ['a [label="last_one"]', 'b [label="node"]'], sorted(re.sub("^.", lambda it: {"b": "a", "a": "b"}[it[0]], line) for line in added))
            self.equals(told.command, "the others", plain.out, b"".join(it + b"\n" for it in told.out.splitlines() if b"label=\"last" not in it and b"label=\"node\"" not in it))

    def test_large_answers_take_seconds(self):
        """A deep number, lists in lists, a long list, deep pairs, and many free names."""
        many = [f"n_{k}" for k in range(200_000)]
        for net, wanted in (
            ("<S^3000000(x)|>", "<S^3000000(x)|>"),
            ("<" + "[" * 500_000 + "A" + "]" * 500_000 + "|>", None),
            ("<[" + ",".join(["2"] * 500_000) + "]|>", None),
            ("<" + "(A," * 500_000 + "A" + ")" * 500_000 + "|>", None),
            (f"<{','.join(many)}|>", None),
        ):
            before = resource.getrusage(resource.RUSAGE_CHILDREN).ru_utime
            ran = run("reduce", "--rich", given=f"{{{FORMS}}}{net}")
            took = resource.getrusage(resource.RUSAGE_CHILDREN).ru_utime - before
            self.equals(ran.command[:60], "status, and the length of what it prints", (0, len(wanted or net) + 1), (ran.status, len(ran.out)))
            self.equals(ran.command[:60], "whether it is what was given", True, ran.out.decode() == (wanted or net) + "\n")
            self.equals(ran.command[:60], f"within 12 seconds of processor time: {took:.2f}", True, took < 12)
