"""For who knows Inpla: the texts of docs/coming-from.md answer as the page says, and what is Inpla's own is told as that."""

import re

from program import IN_MEMORY, TOP, Trial, run

NUMBER = "numbers inside agents are Inpla's own; here a number is a net: number S Z, and rules of S and Z"
COMMENT = "a comment begins with # here"
COLON = "x:xs is Inpla's own; here it is [x|xs], after list Cons Nil among the rules"
USE = 'use stands among the rules, within their braces: { use "lib/nat.rich"; .. }'
NET = "a configuration is looked for here: what is shown, and then the equations, as in <r | Add(r,1) ~ 2>"
NAMING = "<< and >> are Inpla's own; here r << Add(x,y) is written as the equation Add(r,x) ~ y"

# A text, where its fault is, and what is told of it.
FOREIGN = {
    "an integer": ("{Add(r,int a) >< B(x) => r~x} <|>", (1, 8), NUMBER),
    "a sum": ("{A(r,a) >< B(b) =>\n r~(a+b)} <|>", (2, 6), NUMBER),
    "a product in a net": ("{A(r) >< B => r~C} <r|r~D(2*3)>", (1, 28), NUMBER),
    "a comment": ("{A(r) >< B => r~C; // nothing\n} <|>", (1, 20), COMMENT),
    "a long comment": ("/* nothing */ {A(r) >< B => r~C} <|>", (1, 1), COMMENT),
    "a name for an agent": ("{A(r,x) >< B => r~x}\n<r|r << A(C)>", (2, 6), NAMING),
    "another one": ("{A(r,x) >< B => r~x}\n<r|A(C) >> r~x>", (2, 9), NAMING),
    "a list in a pattern": ("{list C N; A(r) >< x:xs => r~C(x,xs)} <|>", (1, 21), COLON),
    "a list in a net": ("{list C N; A(r) >< [x|xs] => r~C(x,xs)}\n<r|A(r)~T:[]>", (2, 10), COLON),
    "a use before the rules": ("\n use \"lib/nat.rich\";\n{A(r) >< B => r~C} <|>", (2, 2), USE),
    "a use after the rules": ("{A(r) >< B => r~C}\nuse \"a.rich\";\n<|>", (2, 1), USE),
    "nets after the rules": ("{A(r) >< B => r~C}\n\n A(r) ~ B;\nr;", (3, 2), NET),
    "a name after the rules": ("{A(r) >< B => r~C} r", (1, 20), NET),
}


class Inpla(Trial):
    rooms = IN_MEMORY

    def test_what_is_of_inpla_is_told_as_that(self):
        for name, (text, place, sentence) in FOREIGN.items():
            for words in (("expand",), ("reduce", "--rich")):
                ran = run(*words, given=text)
                lines = ran.after.decode().splitlines()
                wanted = (1, b"", b"icserve: bad syntax\n", "line {}, column {}".format(*place), sentence)
                self.equals(f"{ran.command}: {name}", "how it ends", wanted, (ran.status, ran.out, ran.err, lines[0], lines[-1]))

    def test_words_that_look_like_it_stay(self):
        self.runs("reduce", "--rich", given="{A(r,int) >< B => r~int} <a|A(a,int)~B,int=C>", out=["<C|>"])

    def test_both_signs_stand_in_a_configuration(self):
        self.runs("reduce", "--rich", given="{A(r) >< B => r~C} <a,b|A(a) ~ B, A(b)=B>", out=["<C,C|>"])
        self.runs("expand", given="{A><B} <a|a~C>", out="{A><B} <a|a=C>")

    def test_each_text_of_the_page_answers_as_it_says(self):
        page = (TOP / "docs/coming-from.md").read_text()
        texts = re.findall(r"`(<[^`]*\|>)`[^`]*\n\n((?:    .*\n)*    #rich\n(?:    .*\n)+)", page)
        self.equals("docs/coming-from.md", "how many texts", True, len(texts) >= 2)
        for answer, text in texts:
            given = re.sub(r"(?m)^    ", "", text)
            self.runs("reduce", given=given, out=[answer])
            self.equals(given, "what check tells", (0, b""), run("check", "-", given=given)[1:3])
