"""Rich texts with several configurations: each is answered as if it stood alone after the rules, and what is told has its place."""

import json
import os
import random
import re
import shutil

import rich
from program import IN_MEMORY, PROGRAM, SEED, TOP, Trial, run
from test_rich import SHORT_SYMBOLS, WORDS

ADD = "number S Z; Add(x,r) >< Z => r~x; Add(x,r) >< S(y) => r~S(more), Add(x,more)~y"
SUMS = f"{{{ADD}}}\n<sum|Add(2,sum)=3>\n# two at once\n<one,two|Add(1,one)=1,\n Add(0,two)=0,> <x,x|>"

# What is said of a second configuration by a word that takes one.
ONE = "a second configuration begins here, and one is wanted: reduce without --keep or --profile, check and expand take several"


def one_each(front, nets):
    """A text for each configuration, with the rules and terms before it."""
    return [front + net for net in nets]


class Several(Trial):
    rooms = IN_MEMORY
    seconds = 60

    def test_each_is_answered_on_a_line(self):
        for words in ((), ("--workers", 1), ("--workers", 3), ("--rounds", 99)):
            self.runs("reduce", "--rich", *words, given=SUMS, out=["<5|>", "<2,0|>", "<a,a|>"])
        self.runs("reduce", "--rich", "--plain", given=SUMS, out=["<S(S(S(S(S(Z)))))|>", "<S(S(Z)),Z|>", "<a,a|>"])
        self.runs("reduce", "--rich", "--quiet-answer", given=SUMS)
        ran = run("reduce", "--rich", "--with-rules", given=SUMS)
        for line, wanted in zip(ran.out.decode().splitlines(), ("<S(S(S(S(S(Z)))))|>", "<S(S(Z)),Z|>", "<a,a|>")):
            self.runs("reduce", given=line, out=[wanted])

    def test_a_let_holds_for_those_that_follow(self):
        text = f"{{{ADD}}} let two = 2 <r|Add(two,r)=two> let four = S^2(two); let one = 1\n<r|Add(four,r)=one><four|Add(1,four)=0>"
        self.equals("a name before its let", "its answers", [b"<4|>", b"<5|>"], run("reduce", "--rich", given=text).out.splitlines()[:2])
        self.runs("reduce", "--rich", given=f"{{{ADD}}} <four|Add(1,four)=0> let four = 4 <r|r=four>", out=["<1|>", "<4|>"])
        self.equals("a let at the end", "status", 1, run("reduce", "--rich", given=f"{{{ADD}}} <r|r=two> let two = 2").status)

    def is_refused(self, text, *words, place, sentence=None, name=b"bad syntax", out=b""):
        ran = run(*words, "--rich", given=text)
        self.equals(ran.command, "how it ends", (1, out, b"icserve: " + name + b"\n"), (ran.status, ran.out, ran.err))
        lines = ran.after.decode().splitlines()
        self.equals(ran.command, "the place", "line {}, column {}".format(*place), lines[0])
        if sentence:
            self.equals(ran.command, "what is told", True, sentence in lines)

    def test_the_first_that_is_refused_ends_it(self):
        front = f"{{{ADD}}}\n<r|Add(1,r)=2>\n"
        self.is_refused(front + "  <r|r=[1]> <r|r=Z>", "reduce", place=(3, 8), out=b"<3|>\n")
        self.is_refused(front + " <q|r=Z,r=Z,\nr=Z> <r|r=Z>", "reduce", place=(4, 1), name=b"bad name r", out=b"<3|>\n")
        self.is_refused(front + "<r|r=Z> <r|r=Z|> <|>", "reduce", place=(3, 15), out=b"<3|>\n<0|>\n")
        self.is_refused("{A><B;copy dup}\n<|> <|>", "reduce", place=(1, 12))
        self.is_refused("{A><B}\n<x|x=A <|>", "reduce", place=(2, 8))

    def test_one_that_is_not_done_does_not_end_it(self):
        text = f"{{{ADD}}} <r|Add(1,r)=9> <r|r=Z> <r|Add(0,r)=1>"
        ran = run("reduce", "--rich", "--steps", 2, given=text)
        self.equals(ran.command, "status and lines", (5, 3), (ran.status, ran.out.count(b"\n")))
        self.equals(ran.command, "its last lines", [b"<0|>", b"<1|>"], ran.out.splitlines()[1:])

    def test_one_that_is_too_large_ends_it(self):
        text = f"{{{ADD}}} <r|r=Z>\n\n <r|Add(1,r)=90> <r|r=Z>"
        ran = run("reduce", "--rich", "--workers", 1, "--nodes", 20, given=text)
        alone = run("reduce", "--rich", "--workers", 1, "--nodes", 20, given=f"{{{ADD}}} <r|Add(1,r)=90>")
        self.equals(ran.command, "status and answers", (alone.status, b"<0|>\n"), (ran.status, ran.out))
        told = alone.err + alone.after + b"icserve: configuration 2, line 3\n"
        self.equals(ran.command, "what is told", told, ran.err + ran.after)

    def test_what_is_told_has_its_configuration(self):
        text = "{A><B}\n<|A=B>\n<|A=C>\n<|B=B,A=B>"
        told = ["icserve: configuration 2, line 3", "icserve: stuck A><C", "icserve: configuration 3, line 4", "icserve: stuck B><B"]
        self.runs("reduce", "--rich", given=text, out=["<|>", "<|A=C>", "<|B=B>"], err=told)
        ran = run("reduce", "--rich", "--stats", given=text)
        heads = re.findall(rb"(?m)^icserve: configuration .*$", ran.err)
        self.equals(ran.command, "of which figures are told", [b"icserve: configuration %d, line %d" % (k, k + 1) for k in (1, 2, 3)], heads)
        self.equals(ran.command, "how many interactions", [b"1", b"0", b"1"], re.findall(rb"(?m)^icserve: interactions (\d+)", ran.err))
        ran = run("reduce", "--rich", "--stats", "--format", "json", given=text)
        objects = [json.loads(it) for it in ran.err.splitlines() if it.startswith(b"{")]
        self.equals(ran.command, "their interactions", [1, 0, 1], [it["interactions"] for it in objects])

    def test_a_word_that_takes_one_refuses_several(self):
        kept, profile = self.room / "kept", self.room / "profile"
        for words in (("trace",), ("draw",), ("draw", "--rounds", 1), ("once",), ("reduce", "--keep", kept), ("reduce", "--profile", profile)):
            self.is_refused(SUMS, *words, place=(4, 1), sentence=ONE)
        self.is_refused("<one,two|one=two>\n <r|r=Z>", "settle", place=(2, 2), sentence=ONE)
        self.equals("what they leave", "files", [], [it.name for it in self.room.iterdir()])
        path = self.room / "sums.rich"
        path.write_text(SUMS)
        if not shutil.which("dot"):
            return
        ran = run(path, program=TOP / "film", env={**os.environ, "ICSERVE": PROGRAM})
        self.equals(ran.command, "status and page", (1, b""), (ran.status, ran.out))
        self.equals(ran.command, "whether the reason is told", True, ONE.encode() in ran.err + ran.after)

    def test_a_plain_text_has_one(self):
        for words in (("reduce",), ("once",)):
            self.equals("a plain text", "status", 1, run(*words, given="{A><B} <|A=B> <|>").status)

    def test_expand_prints_a_system_for_each(self):
        ran = run("expand", given=SUMS)
        wanted = run("reduce", "--rich", "--plain", given=SUMS).out.splitlines(keepends=True)
        self.equals(ran.command, "status, and how many lines", (0, 3), (ran.status, len(ran.out.splitlines())))
        for line, answer in zip(ran.out.splitlines(), wanted):
            self.runs("reduce", given=line, out=answer)
        text = "{A >< B => ;\n copy D} # c\n <one|one=A>\n\n<a|a=D(B,B)>"
        self.runs("expand", given=text, out=["{A><B; D(A,A)><A;D(B,B)><B;D(a,b)><D(a,b)} <a|a=A>", "{A><B; D(A,A)><A;D(B,B)><B;D(a,b)><D(a,b)} <a|a=D(B,B)>"])

    def test_each_system_of_expand_is_a_job(self):
        systems = run("expand", given=SUMS).out.decode().splitlines()
        names = [f"j{number}" for number in range(len(systems))]
        lines = [*(f"submit {it} {system}" for it, system in zip(names, systems)), "run 100", *(f"fetch {it}" for it in names)]
        answers = self.asks(self.disk(), lines)
        self.equals("submit", "what it is answered", ["accepted"] * 3, answers[:3])
        self.equals("fetch", "what they come to", ["<S(S(S(S(S(Z)))))|>", "<S(S(Z)),Z|>", "<x,x|>"], [it.split(" ")[-1] for it in answers[-3:]])

    def test_check_looks_at_each_and_warns_of_all(self):
        front = f"{{{ADD};\n A >< B}}\n<r|Add(1,r)=2>\n"
        for text, wanted in (
            (front + "<|A=B>", ""),
            (front + "<|A=C>", "-: warning: no rule for A><C\n-: warning: symbols that stand only once: B, C\n-: warning: rule 3, A><B, is never used\n"),
            (front + "<|A=B>\n <|A=>\n<|B=A>", "-:5:6: bad syntax: "),
            (front + "<|A=B>\n <|A=(B)>\n<|B=A>", "-:5:6: bad syntax: write pair Pair among the rules, which says what a pair stands for\n"),
            (f"{{{ADD}}} <x|x=1> <x,x|> <|Add(y,z)=1,Add(z,y)=1>", ""),
        ):
            ran = run("check", "--rich", "-", given=text)
            self.equals(ran.command, "what it prints", wanted, ran.out.decode()[: len(wanted) or None] if "bad" in wanted else self.without_free(ran.out.decode()))
            self.equals(ran.command, "status", int("bad" in wanted), ran.status)

    def without_free(self, out):
        """What is told but for names that stand once, and nets in which none meet."""
        return "".join(it for it in out.splitlines(keepends=True) if "stands only once\n" not in it and "no two agents" not in it)

    def test_at_most_4096_are_taken(self):
        self.runs("reduce", "--rich", "--workers", 1, given="{}" + "<|>\n" * 4096, out=["<|>"] * 4096)
        for words in (("reduce",), ("expand",)):
            ran = run(*words, *["--rich"] * (words[0] == "reduce"), given="{}" + "<|>\n" * 4097)
            self.equals(ran.command[:60], "how it ends", (1, b"", b"icserve: bad limit\n"), (ran.status, ran.out, ran.err))
            lines = ran.after.decode().splitlines()
            self.equals(ran.command[:60], "what is told", ("line 4097, column 1", "a text has at most 4096 configurations"), (lines[0], lines[-1]))
        found = run("check", "--rich", "-", given="{}" + "<|>\n" * 4097)
        self.equals("check", "what it prints", b"-:4097:1: bad limit: a text has at most 4096 configurations\n", found.out)

    def test_drawn_configurations_are_answered_as_each_alone(self):
        draw = random.Random(f"{SEED} several")
        for _ in range(30):
            _, text = rich.drawn_shorthands(draw, SHORT_SYMBOLS, WORDS, draw.randint(0, 6))
            at = text.rindex("<")
            nets = [text[at:]] + [rich.net_text(rich.drawn_net(draw, SHORT_SYMBOLS), rich.Shorthand(draw)) for _ in range(draw.randint(1, 5))]
            draw.shuffle(nets)
            gap = lambda: draw.choice(["", " ", "\n", "\n# <|> a note\n"])
            words = draw.choice([("reduce", "--workers", 1, "--steps", 200), ("reduce", "--rounds", draw.randint(0, 9)), ("expand",)])
            more = ["--rich"] if words[0] == "reduce" else []
            together = run(*words, *more, given=text[:at] + "".join(net + gap() for net in nets))
            alone = [run(*words, *more, given=it) for it in one_each(text[:at], nets)]
            self.equals(together.command, "status", max(it.status for it in alone), together.status)
            lines = [b"".join(it.out.split()) for it in alone]
            self.equals(together.command, "its answers", lines, [b"".join(it.split()) for it in together.out.splitlines()])
