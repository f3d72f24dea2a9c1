"""Rules with nested patterns: worked examples whose rules are written by hand, drawn functions, whose values Python says, and faults."""

import random
import re
import resource

import patterns
import rich
from program import IN_MEMORY, SEED, TOP, Trial, run
from test_rich import WORDS

# A text, and what it is written as, both by hand.
WORKED = {
    "two deep": (
        "{Half(r) >< 0 => r ~ 0; Half(r) >< 1 => r ~ 0;\n Half(r) >< S(S(n)) => Half(w) ~ n, r ~ S(w);\nnumber S Z} <|>",
        "{Half(Z)><Z; Half(a)><S(HalfS(a));HalfS(Z)><Z;\n HalfS(S(w))><S(Half(w))\n} <|>",
    ),
    "on both sides": (
        "{Max(y,r) >< Z => r~y; Max(Z,r) >< S(x) => r~S(x);\n Max(S(y),r) >< S(x) => r~S(w), Max(y,w)~x} <|>",
        "{Max(y,y)><Z; Max(MaxS(b,c),b)><S(c);MaxS(S(x),x)><Z;\n MaxS(S(w),Max(y,w))><S(y)} <|>",
    ),
    "the other way round": (
        "{S(x) >< Max(Z,r) => r~S(x);\n Max(S(y),r) >< S(x) => r~S(w), Max(y,w)~x} <|>",
        "{S(a)><Max(SMax(a,c),c);SMax(x,S(x))><Z;\n SMax(Max(y,w),S(w))><S(y)} <|>",
    ),
    "three deep": (
        "{F(r) >< S(S(S(n))) => r~n; F(r) >< S(S(Z)) => r~A; F(r) >< S(Z) => r~B} <|>",
        "{F(a)><S(FS(a));FS(a)><S(FSS(a));FSS(r)><S(r); FSS(A)><Z; FS(B)><Z} <|>",
    ),
    "one after the other": (
        "{F(r) >< P(A,A) => r~A; F(r) >< P(A,B) => r~B; F(r) >< P(B,x) => r~x} <|>",
        "{F(a)><P(FP(a,c),c);FP(a,FPA(a))><A;FPA(A)><A; FPA(B)><B; FP(r,r)><B} <|>",
    ),
    "the first place at which all have one": (
        "{F(r) >< P(x,A) => r~x; F(r) >< P(A,B) => r~B} <|>",
        "{F(a)><P(b,FP(a,b));FP(r,r)><A; FP(a,FPB(a))><B;FPB(B)><A} <|>",
    ),
    "lists and pairs": (
        "{list C N; pair P; L(r) >< [(x,y)|l] => r~[y,x|l]} <|>",
        "{ L(a)><C(LC(a,c),c);LC(C(y,C(x,l)),l)><P(x,y)} <|>",
    ),
    "symbols that are taken": (
        "{F(r) >< S(S(n)) => r~n; F(r) >< S(Z) => r~FS1;\n FS(x)><A(x)} <|>",
        "{F(a)><S(FS2(a));FS2(r)><S(r); FS2(FS1)><Z;\n FS(x)><A(x)} <|>",
    ),
    "long symbols": (
        "{Abcdefghijklmnop(r) >< Qrstuvwxyz0123456(S(n)) => r~n} <|>",
        "{Abcdefghijklmnop(a)><Qrstuvwxyz0123456(AbcdefghijklmnopQrstuvwx(a));AbcdefghijklmnopQrstuvwx(r)><S(r)} <|>",
    ),
    "lines stay": (
        "{F(r)\n>< S(\nS(n)) => # note\nr~n;\nF(r) >< S(Z) => r~Z}\n<|>",
        "{F(a)><S(FS(a));FS(r)><S(r)\n\n\n;\nFS(Z)><Z}\n<|>",
    ),
    "copy beside": (
        "{F(r) >< S(S(n)) => r~n; copy D} <|F(x)=D(x,S(y)),y=A>",
        "{F(a)><S(FS(a));FS(r)><S(r);  D(F(a),F(a1))><F(D(a,a1));D(S(a),S(a1))><S(D(a,a1));D(FS(a),FS(a1))><FS(D(a,a1));D(a,b)><D(a,b);D(A,A)><A} <|F(x)=D(x,S(y)),y=A>",
    ),
}

# A text, the place of its fault, and what is told of it.
REFUSED = {
    "the same twice": ("{F(r) >< S(S(n)) => r~n;\n F(q) >< S(S(m)) => q~m} <|>", (2, 2), "some agents fit two rules, this one and that in line 1"),
    "a rule for all": ("{F(r) >< S(S(n)) => r~n;\n F(r) >< S(n) => r~n} <|>", (2, 2), "some agents fit two rules, this one and that in line 1"),
    "a rule without an arrow": ("{F(x)><S(x);\n F(r) >< S(S(n)) => r~n} <|>", (1, 2), "some agents fit two rules, this one and that in line 2"),
    "deeper than the other": ("{F(r) >< S(S(S(n))) => r~n; F(r) >< S(Z) => r~Z;\n F(r) >< S(S(n)) => r~n} <|>", (2, 2), "some agents fit two rules, this one and that in line 1"),
    "no order": ("{F(A,B,x) >< G => x~C; F(x,A,B) >< G => x~C;\n F(B,x,A) >< G => x~C} <|>", (1, 24), "no argument is a pattern in each rule of these symbols, in this one and in that in line 1"),
    "with itself": ("{F(x) >< F(S(y)) => x~y} <|>", (1, 10), "where a symbol meets itself the arguments left of => are names"),
    "other arguments": ("{F(r) >< S(S(n)) => r~n;\n F(r,x) >< S(Z) => r~x} <|>", (2, 2), "a symbol has one number of arguments, and an earlier pattern has another one"),
    "other arguments within": ("{F(r) >< S(S(n)) => r~n;\n F(r) >< S(S(n,m)) => r~P(n,m)} <|>", (2, 12), "a symbol has one number of arguments, and an earlier pattern has another one"),
    "too many to hold": (
        "{F(a,b,c,d,e,f,g,h) >< G(i,j,k,l,m,n,o,p,S(q)) => a~b,c~d,e~f,g~h,i~j,k~l,m~n,o~p,q~C} <|>",
        (1, 42),
        "what waits for this pattern would be an agent of more than 15 arguments",
    ),
    "a name twice": ("{F(r) >< S(S(r)) => r~A} <|>", (1, 14), "left of => each name stands once: r stands there twice"),
    "a name that is lost": ("{F(r) >< P(S(n),\n S(long_1)) => r~n} <|>", (2, 4), "a name left of => stands once right of it, and this one doesn't: to erase it, write long_1 ~ Era"),
    "no pattern": ("{F(r) >< S(S(-)) => r~A} <|>", (1, 14), "a term is looked for here: a name, or a symbol, which may have arguments"),
    "no argument": ("{F(-) >< S(S(n)) => n~A} <|>", (1, 4), "left of => an argument is a name, or a pattern as S(x): one is looked for here"),
}


class Worked(Trial):
    rooms = IN_MEMORY

    def test_each_worked_text_is_written_so(self):
        for name_of, (text, wanted) in WORKED.items():
            with self.subTest(name=name_of):
                self.runs("expand", given=text, out=wanted.encode())

    def test_each_refused_text_is_told_with_its_place(self):
        for name_of, (text, place, sentence) in REFUSED.items():
            with self.subTest(name=name_of):
                ran = run("expand", given=text)
                self.equals(ran.command, "how it ends", (1, b"", b"icserve: bad syntax\n"), (ran.status, ran.out, ran.err))
                lines = ran.after.decode().splitlines()
                self.equals(ran.command, "place and sentence", ("line {}, column {}".format(*place), sentence), (lines[0], lines[-1]))

    def test_the_numbers_of_fibonacci(self):
        self.runs("reduce", TOP / "examples/fibonacci.rich", out=["<55|>"])
        text = (TOP / "examples/fibonacci.rich").read_text()
        wanted = [0, 1]
        for number in range(15):
            self.runs("reduce", "--rich", given=text.replace("= 10", f"= {number}"), out=[f"<{wanted[number]}|>"])
            wanted.append(sum(wanted[-2:]))

    def test_an_agent_that_waits_is_told_as_what_it_was(self):
        rules = "{number S Z; Half(r)><0=>r~0; Half(r)><1=>r~0; Half(r)><S^2(n)=>Half(w)~n,r~S(w)}"
        for net, wanted in (
            ("<r,x|Half(r)=S(x)>", "<a,b|Half(a)=S(b)>"),
            ("<r,x|Half(r)=S^5(x)>", "<S^2(a),b|Half(a)=S(b)>"),
            ("<half,x|Half(half)=S(x)>", "<a,c|Half(a)=S(c)>"),
        ):
            self.runs("reduce", "--rich", given=rules + net, out=[wanted])

    def test_check_warns_of_holes(self):
        """Of one in each rule, at its place; a file's one at its `use`. It tells no rules of agents that wait."""
        for rules, place, sentence in (
            ("{number S Z;\n F(r) >< S(S(n)) => r~n}", "2:12", "rules have S here, and none has Z: F(r)><S(Z) has no rule"),
            ("{number S Z;\n F(r) >< S^9(n) => r~n}", "2:10", "rules have S here, and none has Z: F(r)><S(Z) has no rule"),
            ("{number S Z; list C N;\n F(r) >< [x] => r~x}", "2:12", "rules have N here, and none has C: F(r)><C(x,C(..)) has no rule"),
            ("{number S Z;\n F(A,r) >< S(0) => r~Z; F(B,r) >< S(Z) => r~Z; F(B,r) >< S(S(x)) => r~x}", "2:14", "rules have Z here, and none has S: F(A,r)><S(S(..)) has no rule"),
        ):
            side = "F(B,r)" if "F(B," in rules else "F(r)"
            ran = run("check", "--rich", "-", given=f"{rules}\n<r|{side}=S(S(Z))>")
            holes = [it for it in ran.out.decode().splitlines() if "here, and none" in it]
            self.equals(ran.command, "its holes", [f"-:{place}: warning: {sentence}"], holes)
        for text in ("{number S Z; F(r) >< S(S(n)) => r~n; F(r) >< S(Z) => r~Z} <r|F(r)=3>", "{F(r) >< S(S(n)) => r~n} <r|F(r)=S(S(Z))>"):
            ran = run("check", "--rich", "-", given=text)
            self.equals(ran.command, "whether it tells a hole", False, b"here, and none" in ran.out)
            self.equals(ran.command, "whether it tells an agent that waits", False, b"FS" in ran.out)
        (self.room / "deep.rich").write_text("{number S Z;\n F(r) >< S(S(n)) => r~n}\n<|>")
        path = self.room / "main.rich"
        path.write_text('{\n use "deep.rich"}\n<r|F(r)=3>')
        wanted = f"{path}:2:2: warning: in {self.room}/deep.rich, line 2: rules have S here, and none has Z: F(r)><S(Z) has no rule\n"
        self.equals("check of a file", "whether its hole is told", True, wanted in run("check", path).out.decode())

    def test_files_with_patterns_are_used(self):
        (self.room / "half.rich").write_text("{number S Z; list C N; Half(r)><0=>r~0; Half(r)><1=>r~0;\n Half(r)><S^2(n)=>Half(w)~n,r~S(w);\n Last(r)><[x]=>r~x; Last(r)><[x,y|l]=>x~Era,l~After(y,r); After(y,r)><[]=>r~y; After(y,r)><[x|l]=>y~Era,l~After(x,r); erase Era}\n<|>")
        path = self.room / "main.rich"
        path.write_text('{use "half.rich"} <a,b|Half(a)=7,Last(b)=[1,2,3]>')
        self.runs("reduce", path, out=["<3,3|>"])
        path.write_text('{\nuse "half.rich"; Half(r)><S(n)=>r~n} <a|Half(a)=7>')
        ran = run("reduce", path)
        told = (1, f"{path}, line 2, column 18", f"some agents fit two rules, this one and that in {self.room}/half.rich, line 1")
        lines = (ran.err + ran.after).decode().splitlines()
        self.equals(ran.command, "how it ends", told, (ran.status, lines[1], lines[-1]))


class Drawn(Trial):
    rooms = IN_MEMORY
    seconds = 60

    def test_functions_come_to_what_python_says(self):
        """By the program's rules, and by those of an expander that looks at the last argument first."""
        draw = random.Random(f"{SEED} patterns")
        for _ in range(150):
            text, expanded, wanted = patterns.drawn_text(draw, WORDS)
            for given in (text, expanded):
                ran = run("reduce", "--rich", "--plain", "--workers", 1, given=given)
                self.equals(ran.command, "how it ends", (0, wanted + "\n"), (ran.status, ran.out.decode()))

    def test_agents_that_wait_are_told_as_what_they_were(self):
        """An answer has no symbol but those of its text, and comes to the same net again."""
        draw = random.Random(f"{SEED} waiting")
        for _ in range(80):
            rules, net = patterns.drawn_open_text(draw, WORDS)
            plain = run("reduce", "--rich", "--plain", "--workers", 1, given=rules + net)
            told = run("reduce", "--rich", "--workers", 1, given=rules + net)
            self.equals(told.command, "how both end", (0, 0), (plain.status, told.status))
            symbols = set(re.findall(r"[A-Z][A-Za-z0-9]*", told.out.decode()))
            self.equals(told.command, f"symbols that are made, in {told.out}", set(), symbols - {"F", "Gg", "H1", "Z", "S", "Pair", "Era"})
            again = run("reduce", "--rich", "--plain", "--workers", 1, given=rules + told.out.decode())
            self.equals(told.command, "what its answer comes to", rich.canonical(plain.out.decode()), rich.canonical(again.out.decode()))

    def test_what_is_written_has_the_lines_of_the_text(self):
        draw = random.Random(f"{SEED} lines")
        for _ in range(50):
            text, _, _ = patterns.drawn_text(draw, WORDS)
            ran = run("expand", given=text)
            self.equals(ran.command, "status, and how many lines", (0, text.count("\n")), (ran.status, ran.out.count(b"\n")))


class Bounds(Trial):
    rooms = IN_MEMORY
    seconds = 60

    def spent(self):
        return resource.getrusage(resource.RUSAGE_CHILDREN).ru_utime

    def test_large_patterns_take_seconds(self):
        """Many rules of two symbols, many pairs of symbols, patterns that are deep, and deep ones that overlap."""
        deep = "S(" * 60_000 + "{}" + ")" * 60_000
        for text, status in (
            ("{" + ";".join(f"F(x)><S(A{k}(y))=>x~y" for k in range(200_000)) + "}<|>", 0),
            ("{" + ";".join(f"F{k}(x)><S(A(y))=>x~y" for k in range(150_000)) + "}<|>", 0),
            ("{F(x)><" + deep.format("y") + "=>x~y}<|>", 0),
            ("{F(x)><T(" + deep.format("y") + ",z)=>x~y,z~E;F(x)><T(" + deep.format("Z") + ",z)=>x~Z,z~E}<|>", 1),
        ):
            before = self.spent()
            ran = run("expand", given=text)
            took = self.spent() - before
            self.equals(ran.command[:60], "status", status, ran.status)
            self.equals(ran.command[:60], f"within 8 seconds of processor time: {took:.2f}", True, took < 8)
