"""Refusals of what a rich text stands for, told at their places in that text and in its words."""

import random

import rich
from program import IN_MEMORY, SEED, Trial, run
from test_rich import SHORT_SYMBOLS, WORDS, place_in

ONCE = "write one name for both, or an eraser in the place of each, as Era (`icserve expand` writes its rules)"

# A text, the place of its fault, and what is told of it.
RETOLD = {
    "names of a rule": ("{copy Dup;\n Add(sum,total)><Z}\n<one,two|Dup(one,two)=Z>", (2, 6), f"in a rule each name stands exactly twice: sum and total stand once; {ONCE}"),
    "a name of a rule": ("{number S Z; A(3,left)><B} <|>", (1, 18), "in a rule each name stands exactly twice: left stands once; write it once more, or in its place an eraser, as Era (`icserve expand` writes its rules)"),
    "the same symbols": ("{copy Dup;\n A(long)><B(long);\n\n B(other)><A(other)}\n<|>", (4, 2), "the rule in line 2 is of the same two symbols"),
    "other arguments": ("{number S Z} <r|Add(r,3)=S(2,1)>", (1, 26), "a symbol has one arity: S has 2 here and 1 where it stands first"),
    "other arguments in an arrow": ("{A(left,right) >< B => left ~ C(right,D);\n E(left) >< F => left ~ D(G)} <|>", (2, 25), "a symbol has one arity: D has 1 here and 0 where it stands first, 1 line before"),
    "a third time": ("{number S Z} <long,other|\nlong=A(7,other,long)>", (2, 16), "in a configuration a name stands at most twice; `icserve expand` writes rules that copy"),
    "no rule": ("{number S Z; A(left) left} <|>", (1, 22), None),
}


class Retold(Trial):
    rooms = IN_MEMORY

    def retold(self, *words, given, line, column):
        """What is told of a text that is refused at a place: the sentence. The line stands there as it was written."""
        ran = run(*words, given=given)
        lines = (ran.err + ran.after).decode().splitlines()
        shown = lines[2].strip().strip(".")
        self.equals(ran.command, "how it ends", (1, b"", f"line {line}, column {column}"), (ran.status, ran.out, lines[1]))
        self.equals(ran.command, f"whether the line is shown: {shown}", True, shown in given.splitlines()[line - 1])
        self.equals(ran.command, "how many lines are told", 5, len(lines))
        return lines[-1]

    def test_worked_texts(self):
        for name, (text, (line, column), sentence) in RETOLD.items():
            for words in (("reduce",), ("once",), ("trace",), ("draw",)):
                with self.subTest(name=name, words=words):
                    told = self.retold(*words, "--rich", given=text, line=line, column=column)
                    self.equals(text, "what is told", sentence or told, told)

    def test_rules_of_copiers_are_told_by_their_line(self):
        """Each of the symbols is met first in a rule by which it is copied, and the 65th is one too many."""
        text = "{\n copy Dup; " + ";".join(f"A{k}><B{k}" for k in range(40)) + "}\n<x,y|Dup(x,y)=A0>"
        told = self.retold("reduce", "--rich", "--limits", "served", given=text, line=2, column=2)
        self.equals("copy", "how it begins to tell", "copy Dup, for B31: ", told[:19])

    def test_a_fault_in_a_file_is_told_with_its_line(self):
        (self.room / "one.rich").write_text("{A><B;\n C(left,left) >< D(left)} <|>")
        path = self.room / "main.rich"
        path.write_text('{E><F;\n use "one.rich"}\n<|>')
        ran = run("reduce", path)
        lines = (ran.err + ran.after).decode().splitlines()
        wanted = f"in {self.room}/one.rich, line 2: in a rule each name stands exactly twice: left stands here for the third time; `icserve expand` writes rules that copy"
        self.equals(ran.command, "place and sentence", (f"{path}, line 2, column 2", wanted), (lines[1], lines[-1]))

    def test_drawn_texts(self):
        draw = random.Random(f"{SEED} retold")
        for _ in range(60):
            _, text = rich.drawn_shorthands(draw, SHORT_SYMBOLS, WORDS, draw.randint(0, 5))
            text = "{copy Dup;" + text[1:] if draw.random() < 0.5 else text
            at = text.rindex("<") + 1
            front = draw.choice(["q_7,", "(q_7,q_7),", "[A7,1],"])
            fault = {"q_7,": "T7(q_7, A7, q_7),", "(q_7,q_7),": "q_7,", "[A7,1],": "A7(q_7),"}[front]
            shift = {"q_7,": 12, "(q_7,q_7),": 0, "[A7,1],": 0}[front]
            fault = fault[:-1] if text[at:].lstrip().startswith("|") else fault
            spoilt = text[:at] + front + fault + text[at:]
            line, column = place_in(spoilt, at + len(front) + shift)
            self.retold("reduce", "--rich", given=spoilt, line=line, column=column)
