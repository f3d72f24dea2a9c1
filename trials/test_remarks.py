"""What `check` remarks of rich texts: terms, copiers, erasers and files without a use, each at its place, and which unused rules it
doesn't tell of."""

import json
import re

from program import IN_MEMORY, TOP, Trial, run

NAT = "#rich\n{ number S Z; copy Dup; erase Era;\n Add(x,r) >< Z => r ~ x;\n Add(x,r) >< S(y) => Add(x,w) ~ y, r ~ S(w);\n Mul(x,r) >< Z => x ~ Era, r ~ Z }\n<|>\n"
SUM = "<r|Add(1,r)=2>"

# A text, and what is told of it.
REMARKED = {
    "nothing": (f'{{use "nat.rich"}} {SUM}', ""),
    "an eraser": (f'{{use "nat.rich";\n erase E}} {SUM}', "{}:2:8: warning: E stands in no rule and no configuration: write it where it has to copy or erase\n"),
    "a copier": (f'{{copy D; use "nat.rich"}} {SUM}', "{}:1:7: warning: D stands in no rule and no configuration: write it where it has to copy or erase\n"),
    "a copier that is used": ('{copy D; use "nat.rich"} <a,b|D(a,b)=1,Add(1,r)=2,r=Add(c,c)>', None),
    "a let": (f'{{use "nat.rich"}} let one = 1\nlet two_2 = S(one) {SUM}', "{}:2:5: warning: let two_2 is used nowhere\n"),
    "a file": ('{use "nat.rich"; A >< B} <|A=B>', "{}:1:2: warning: no rule of this file is ever used\n"),
    "one file of two": ('{use "nat.rich"; use "other.rich"} <|A=B>', "{}:1:2: warning: no rule of this file is ever used\n"),
    "rules of the text": (f'{{use "nat.rich"; A >< B}} {SUM}', "{}: warning: rule N, A><B, is never used\n"),
    "a configuration of several": (f'{{use "nat.rich"; use "other.rich"}} let one = 1 {SUM}\n<|A=B> let two = 2\n<r|Add(one,r)=one>', "{}:2:12: warning: let two is used nowhere\n"),
}


class Remarks(Trial):
    rooms = IN_MEMORY

    def setUp(self):
        super().setUp()
        (self.room / "nat.rich").write_text(NAT)
        (self.room / "other.rich").write_text("{A >< B} <|>")

    def told(self, text, *words):
        path = self.room / "main.rich"
        path.write_text(text)
        return path, run("check", *words, path)

    def test_each_is_told_at_its_place(self):
        for name, (text, wanted) in REMARKED.items():
            path, ran = self.told(text)
            lines = "".join(re.sub(r"rule \d+", "rule N", it) for it in ran.out.decode().splitlines(keepends=True) if "the name" not in it)
            if wanted is not None:
                self.equals(f"check of {name}: {text}", "what it prints", wanted.replace("{}", str(path)), lines)
                self.equals(ran.command, "status", 0, ran.status)
            else:
                self.equals(ran.command, "whether the copier is told of", False, "stands in no rule" in lines)

    def test_a_remark_counts_as_a_fault_where_that_is_asked_for(self):
        self.equals("check --strict", "status", 1, self.told(REMARKED["a let"][0], "--strict")[1].status)
        self.equals("check --strict", "status", 0, self.told("{A >< B} <|A=B>", "--strict")[1].status)

    def test_objects_have_the_place(self):
        path, ran = self.told(REMARKED["a let"][0], "--format", "json")
        wanted = {"file": str(path), "line": 2, "column": 5, "warning": "let two_2 is used nowhere"}
        self.equals(ran.command, "its object", wanted, json.loads(ran.out.splitlines()[0]))
        path, ran = self.told(REMARKED["a file"][0], "--format", "json")
        wanted = {"file": str(path), "line": 1, "column": 2, "warning": "no rule of this file is ever used"}
        self.equals(ran.command, "its objects", [wanted], [json.loads(it) for it in ran.out.splitlines()])

    def test_nothing_is_told_of_the_library(self):
        for path in sorted(TOP.glob("lib/*.rich")):
            self.runs("check", path)

    def test_a_text_that_uses_the_library_is_told_of_its_own_rules_alone(self):
        ran = run("check", "--rich", "-", given='{use "lib/nat.rich"; use "lib/list.rich"} <r|Length(r)=[1,2]>', cwd=TOP)
        self.equals(ran.command, "what it prints", b"-:1:2: warning: no rule of this file is ever used\n", b"".join(it + b"\n" for it in ran.out.splitlines() if b"the name" not in it))
