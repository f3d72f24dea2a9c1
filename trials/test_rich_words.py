"""Rich texts read by each word: what a word answers over one, and over what `expand` writes of it; which texts are rich; and how
one is refused."""

import json
import os
import random
import re
import shutil
import subprocess

import rich
from known import CHAIN
from program import IN_MEMORY, OF_PLAIN, PROGRAM, SEED, TOP, Trial, run
from test_rich import REFUSED, SHORT_SYMBOLS, WORDS

SYSTEM_WORDS = [
    ("reduce", "--workers", 1, "--steps", 400),
    ("reduce", "--rounds", 9, "--with-rules"),
    ("trace", "--rounds", 9, "--format", "json"),
    ("draw",),
    ("draw", "--rounds", 2),
    ("once",),
    ("check", "-"),
]
# Those that tell a net, in the words of its text unless `--plain` is given.
TOLD_WORDS = ["reduce", "draw", "once", "settle"]
SUM = "{number S Z; Add(x,r) >< Z => r~x; Add(x,r) >< S(y) => r~S(more), Add(x,more)~y}\n<sum|Add(2,sum)=3>"
CONFIG = "<long,other|long=A(other)>   # names"

# Texts that begin with the word `#rich`, and texts that don't.
MARKED = ["#rich\n", "#rich", "#rich\r\n", "#rich \n", "#rich\tof sums\n", "#rich # sums\n"]
UNMARKED = ["#richer\n", "#rich: sums\n", "# rich\n", " #rich\n", "\n#rich\n", "#Rich\n", "#ric\n", "#rich1\n"]


class Rich(Trial):
    rooms = IN_MEMORY
    seconds = 60

    def ends(self, ran):
        return ran.status, ran.out, (ran.err + ran.after).replace(OF_PLAIN, b"")

    def is_as_expanded(self, words, text):
        """Over a rich text, by its first line, by the option, or by the name of its file, as over what it is expanded to."""
        plain = run("expand", given=text)
        self.equals(plain.command, "status", 0, plain.status)
        wanted = self.ends(run(*words, given=plain.out))
        words = [*words, "--plain"] if words[0] in TOLD_WORDS else words
        path = self.room / "text.rich"
        path.write_text(text)
        for ran in (run(*words, "--rich", given=text), run(*words, given="#rich\n" + text)):
            if "check" in words or b"line " in wanted[2]:
                self.equals(ran.command, "status", wanted[0], ran.status)
            else:
                self.equals(ran.command, "how it ends", wanted, self.ends(ran))
        words = [it for it in words if it != "-"]
        named = run(*words, path)
        if "check" not in words and b"line " not in wanted[2]:
            self.equals(named.command, "how it ends", wanted, self.ends(named))

    def test_each_word_over_a_rich_text_is_as_over_what_it_is_expanded_to(self):
        for path in sorted([*TOP.glob("lib/*.rich"), *TOP.glob("examples/*.rich")]):
            for words in SYSTEM_WORDS:
                with self.subTest(path=path.name, words=words):
                    self.is_as_expanded(words, path.read_text())
        self.is_as_expanded(("settle",), CONFIG)
        self.is_as_expanded(("draw",), CONFIG)

    def test_drawn_texts(self):
        draw = random.Random(f"{SEED} rich words")
        for _ in range(25):
            _, text = rich.drawn_shorthands(draw, SHORT_SYMBOLS, WORDS, draw.randint(0, 6))
            self.is_as_expanded(draw.choice(SYSTEM_WORDS), text)

    def test_which_texts_are_rich(self):
        for front in MARKED:
            given = front + "\n" + SUM
            self.runs("reduce", given=given, out=["<5|>"])
        for front in UNMARKED:
            for words in (("reduce",), ("check", "-")):
                ran = run(*words, given=front + SUM)
                self.equals(ran.command, "status", 1, ran.status)
                self.equals(ran.command, "whether a comment is told", True, b"there are no comments" in ran.out + ran.after)
        self.equals("#rich alone", "status", 1, run("reduce", given="#rich").status)
        self.runs("reduce", given="{} <|>", out=["<|>"])
        self.equals("no text", "status", 1, run("reduce", given="").status)
        self.runs("settle", "--rich", given=CHAIN, out=run("settle", given=CHAIN).out)

    def test_a_text_may_come_in_pieces(self):
        for pieces in (["#", "ri", "ch", "\n", SUM], ["#rich", "\n" + SUM], ["{Add(x,x)><Z", "} <r|Add(r,A)=Z>"], ["<", "|>"]):
            with subprocess.Popen([PROGRAM, "draw"], stdin=subprocess.PIPE, stdout=subprocess.PIPE, bufsize=0) as started:
                for piece in pieces:
                    started.stdin.write(piece.encode())
                    os.sched_yield()
                started.stdin.close()
                out = started.stdout.read()
            text = "".join(pieces)
            plain = run("expand", given=text).out if text.startswith("#rich") else text
            self.equals(f"draw of {pieces}", "what it draws", run("draw", given=plain).out, out)

    def test_a_refused_rich_text_is_told_as_expand_tells_it(self):
        for name, (text, place, sentence) in REFUSED.items():
            wanted = run("expand", given=text)
            for words in (("reduce",), ("trace",), ("once",), ("draw",)):
                ran = run(*words, "--rich", given=text)
                self.equals(ran.command, f"how {name} ends", wanted[1:], ran[1:])
            line, column = place
            checked = run("check", "--rich", "-", given=text)
            self.equals(checked.command, "what it prints", f"-:{line}:{column}: bad syntax: {sentence}\n", checked.out.decode())
            self.equals(checked.command, "status and standard error", (1, b"icserve: faults\n"), (checked.status, checked.err + checked.after))
        path = self.room / "sum.rich"
        path.write_text("{number S Z}\n<r|r=[1]>")
        ran = run("reduce", path)
        told = f"icserve: bad syntax\n{path}, line 2, column 6\n".encode()
        self.equals(ran.command, "how it begins to tell", (1, told), (ran.status, ran.err[: len(told)]))
        found = json.loads(run("check", "--format", "json", path).out)
        self.equals(f"check {path}", "the place", (str(path), 2, 6), (found["file"], found["line"], found["column"]))

    def test_a_place_in_what_is_expanded_is_said_to_be_one(self):
        text = "{A(left) >< B}\n<|>"
        for words in (("reduce", "--plain"), ("once", "--plain")):
            ran = run(*words, "--rich", given=text)
            told = (ran.err + ran.after).decode().splitlines(keepends=True)
            self.equals(ran.command, "how it ends", (1, "line 1, column 4\n", OF_PLAIN.decode()), (ran.status, told[1], told[-1]))
        checked = run("check", "--rich", "-", given=text)
        self.equals(checked.command, "standard error", OF_PLAIN + b"icserve: faults\n", checked.err)
        self.equals("a plain text", "whether it is said", False, OF_PLAIN in run("reduce", given="{A(a) >< B}\n<|>").after)

    def test_each_rich_example_answers_as_the_plain_one_beside_it(self):
        tried = [it for it in TOP.glob("examples/*.rich") if it.with_suffix(".ic").exists()]
        self.equals("examples/", "rich ones beside plain ones", 9, len(tried))
        for path in tried:
            words = ("reduce", "--rounds", 9) if path.stem == "unending" else ("reduce",)
            plain = run(*words, path.with_suffix(".ic"))
            self.runs(*words, "--plain", path, out=plain.out, err=plain.err, status=plain.status)

    def test_a_film_of_a_rich_text_is_that_of_its_plain_text_in_other_words(self):
        if not shutil.which("dot"):
            self.skipTest("Graphviz's dot isn't there")
        path = self.room / "sum.rich"
        path.write_text(SUM)
        films = [run(*words, program=TOP / "film", given=given, env={**os.environ, "ICSERVE": PROGRAM}) for words, given in (((path,), ""), (("--rich",), SUM), ((), "#rich\n" + SUM), ((), run("expand", given=SUM).out))]
        pages = [re.sub(rb"<pre>.*?</pre>", b"", it.out.replace(b"sum.rich", b"A net").replace(b"\r", b""), flags=re.S).split() for it in films]
        for film, page in zip(films, pages):
            self.equals(film.command, "status and standard error", (0, b""), (film.status, film.err))
            self.equals(film.command, "whether it is the same film, but for terms", True, page == pages[-1])
            self.equals(film.command, "its last net", b"&lt;5|&gt;" if film is not films[-1] else b"&lt;S(S(S(S(S(Z)))))|&gt;", re.findall(rb"<pre>(.*?)</pre>", film.out, re.S)[-1])

    def test_a_rich_text_is_kept(self):
        path = self.room / "sum.rich"
        path.write_text(SUM)
        self.runs("reduce", "--keep", self.room / "kept", path, out=["<5|>"])
        self.runs("reduce", "--resume", self.room / "kept", out=["<S(S(S(S(S(Z)))))|>"])

    def test_a_text_of_a_server_is_no_rich_one(self):
        for word in ("serve", "attend", "batch", "inspect", "dump", "create"):
            ran = run(word, "--disk", self.room / "disk", "--rich")
            self.equals(ran.command, "status", 2, ran.status)
