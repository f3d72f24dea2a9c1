"""What is told of a circle: an equation of a name with a term that has this name, which is left where no step is possible."""

import json

import draws
import model
import nets
from program import IN_MEMORY, Trial, run
from test_in_place import object_of

ONE = "{Add(x,x)><Z;Add(S(x),y)><S(Add(x,y))} <r|Add(r,x)=x>"


class Circles(Trial):
    rooms = IN_MEMORY
    seconds = 5

    def test_a_circle_is_told_on_standard_error(self):
        for text, out, symbol in (
            (ONE, "<a|b=Add(a,b)>", "Add"),
            ("{} <|x=A(x)>", "<|a=A(a)>", "A"),
            ("{} <|x=y,x=y>", "<|a=a>", "x=x"),
            ("{A(x)><B(x)} <|A(x)=B(D(x))>", "<|a=D(a)>", "D"),
        ):
            for words in ([], ["--workers", 1], ["--workers", 2], ["--rounds", 9], ["--quiet-answer"], ["--steps", 9], ["--keep", self.room / "kept"]):
                ran = run("reduce", *words, given=text)
                self.equals(ran.command, "status and what is told", (0, f"icserve: circle at {symbol}\n".encode()), (ran.status, ran.err))
                if "--quiet-answer" not in words:
                    self.equals(ran.command, "the net", nets.form_of(model.read_system(text.encode())[0], out.encode()), nets.form_of(model.read_system(text.encode())[0], ran.out))
            again = run("reduce", "--resume", self.room / "kept")
            self.equals(again.command, "status and what is told", (0, f"icserve: circle at {symbol}\n".encode()), (again.status, again.err))
            for name in ("kept", "kept.2"):
                (self.room / name).unlink()

    def test_a_trace_tells_it_at_its_end(self):
        for text, told in (
            (ONE, b"icserve: circle at Add\n"),
            ("{A(x)><B(x)} <|A(x)=B(D(x))>", b"icserve: circle at D\n"),
            ("{} <r|x=Add(r,x),C=D>", b"icserve: stuck C><D\nicserve: circle at Add\n"),
            ("{A(B(x))><B(A(x))} <|x=C(x),A(y)=B(y)>", b"icserve: not done\n"),
            ("{} <r|r=C(D)>", b""),
        ):
            for words in ([], ["--format", "json"], ["--format", "svg"]):
                ran = run("trace", "--rounds", 9, *words, given=text)
                self.equals(ran.command, "status and what is told", (0, told), (ran.status, ran.err))

    def test_a_stuck_pair_is_told_before_it(self):
        for words in ([], ["--rounds", 9]):
            ran = run("reduce", *words, given="{} <r|x=Add(r,x),C=D>")
            self.equals(ran.command, "what is told", (0, b"icserve: stuck C><D\nicserve: circle at Add\n"), (ran.status, ran.err))

    def test_none_is_told_where_a_step_is_possible_or_no_name_is_in_its_own_term(self):
        for text, words, told in (
            ("{A(B(x))><B(A(x))} <|x=C(x),A(y)=B(y)>", ["--steps", 9], b"icserve: not done\n"),
            ("{A(B(x))><B(A(x))} <|x=C(x),A(y)=B(y)>", ["--rounds", 9], b"icserve: not done\n"),
            ("{} <r,s|x=C(y)>", [], b""),
            ("{} <r|r=C(D),x=y>", [], b""),
        ):
            ran = run("reduce", *words, given=text)
            self.equals(ran.command, "what is told", told, ran.err)

    def test_drawn_systems_tell_one_just_where_there_is_one(self):
        drawn, seen = self.draws(), [0, 0]
        for _ in range(150):
            rules, config = draws.system(drawn, drawn.choice([1, 2, 3, 5]), drawn.choice([2, 3, 4]))
            text = draws.system_text(rules, config)
            words = drawn.choice([["--steps", 2_000], ["--steps", 2_000, "--workers", 3], ["--rounds", 200]])
            ran = run("reduce", "--stats", "--format", "json", *words, given=text)
            told, rest = object_of(ran.err)
            symbol = nets.circle_in(nets.phrases_of(ran.out)[1]) if ran.status == 0 else None
            self.equals(ran.command, "the circle that is told", symbol, told["circle"])
            self.equals(ran.command, "the line of it", nets.circle_line(ran.out) if ran.status == 0 else b"", b"".join(it for it in rest.splitlines(True) if b"circle" in it))
            seen[symbol is not None] += 1
        self.equals(self.id(), f"some have a circle, others none: {seen}", True, min(seen) > 2)

    def test_inspect_tells_it_of_jobs_that_are_done(self):
        disk = self.disk()
        lines = [f"submit one {ONE}", "submit both {} <r|C=D,x=Add(r,x)>", "submit loop {A(B(x))><B(A(x))} <|A(x)=B(x),y=C(y)>", "run 2"]
        self.serves(disk, lines, ["accepted"] * 3 + ["ran 2"])
        told = run("inspect", "--disk", disk)
        jobs = told.out.decode().splitlines()[3:]
        ends = [it.partition("active pairs ")[2] for it in jobs]
        self.equals(told.command, "what is told of jobs", ["0, circle at Add", "0, stuck C><D, circle at Add", "1"], ends)
        objects = [json.loads(it) for it in run("inspect", "--disk", disk, "--format", "json").out.splitlines()[3:]]
        wanted = [(None, "Add"), ("C><D", "Add"), (None, None)]
        self.equals("inspect --format json", "what is told of jobs", wanted, [(it.get("stuck"), it.get("circle")) for it in objects])
