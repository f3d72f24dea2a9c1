"""The options `reduce --span` and `--profile`: they tell of a reduction in any order, by any number of threads, what `trace` tells of
rounds, over drawn systems and those of bench/. So many are drawn as the variable SYSTEMS says, of 400 if it isn't set."""

import contextlib
import json
import os
import re
import sys
import unittest

import draws
import nets
from program import IN_MEMORY, PROGRAM, TOP, Trial, run

sys.path.insert(0, str(TOP / "bench"))

from systems import FIBONACCI, numeral, rows  # noqa: E402

SYSTEMS = int(os.environ.get("SYSTEMS") or 400)

WORKERS = (1, 2, 4)

# How many interactions the model makes of a system before it counts as one that never ends.
PATIENT = 20_000

SORT = (TOP / "examples/sort.ic").read_text()

# What the figures tell of rounds.
SPAN = re.compile(rb", (partial )?span (\d+), pairs at once (\d+\.\d) on average, (\d+) at most, threads ")


def traced(text):
    """How many pairs each round fires, up to the last one that fires some."""
    ran = run("trace", "--rounds", 10**7, "--nodes", 10**9, given=text)
    pairs = [int(it.split(b"\t")[1]) for it in ran.out.splitlines()[1:]]
    while pairs and not pairs[-1]:
        pairs.pop()
    return pairs


def summed(pairs):
    """Span, average and the greatest number, as the object of figures has them."""
    return {"span": len(pairs), "average": sum(pairs) * 10 // max(1, len(pairs)) / 10, "greatest": max(pairs, default=0)}


class OfProfiles(Trial):
    rooms = IN_MEMORY

    def profile(self, text, *words):
        """What stands in the file after a reduction, and the run with its figures."""
        path = self.room / "profile.tsv"
        ran = run("reduce", "--span", "--format", "json", "--quiet-answer", "--profile", path, *words, given=text)
        lines = path.read_text().splitlines()
        self.equals(ran.command, "the head of the table", "round\tpairs", lines[0])
        told = [tuple(map(int, it.split("\t"))) for it in lines[1:]]
        self.equals(ran.command, "the numbers of rounds", [*range(1, len(told) + 1)], [it for it, _ in told])
        return ran, [it for _, it in told]

    def are_rounds(self, text, workers=WORKERS):
        """A text whose reduction ends has one profile by any number of threads, which is that of its rounds."""
        return self.has_profile(text, traced(text), workers)

    def has_profile(self, text, pairs, workers):
        """The same, where the rounds fire so many pairs each."""
        for count in workers:
            ran, told = self.profile(text, "--workers", count)
            self.equals(ran.command, "status", 0, ran.status)
            self.equals(ran.command, "pairs of each round", pairs, told)
            figures = json.loads(ran.err.partition(b"\n")[0])
            self.equals(ran.command, "its figures", {**summed(pairs), "partial": False}, {it: figures[it] for it in ("span", "average", "greatest", "partial")})
            self.equals(ran.command, "interactions", sum(pairs), figures["interactions"])
        return sum(pairs)


class Profiles(OfProfiles):
    seconds = 60

    def test_drawn_systems(self):
        drawn = self.draws()
        for _ in range(max(1, SYSTEMS // 4)):
            rules, config = draws.system(drawn, drawn.choice([1, 2, 3, 5]), drawn.choice([2, 3, 4]))
            if nets.Reduction(rules, config, drawn).run(PATIENT // 10):
                self.are_rounds(draws.system_text(rules, config))

    def test_drawn_systems_that_threads_share(self):
        drawn, shared = self.draws("shared"), 0
        for _ in range(max(1, SYSTEMS // 4)):
            symbols = draws.symbols(drawn, drawn.randint(2, 6), drawn.choice([1, 2, 3]))
            rules = draws.rules(drawn, symbols, drawn.randint(1, 12), size=drawn.choice([1, 2, 3]))
            config = draws.configuration(drawn, rules, drawn.randrange(5), drawn.randint(1, 200), drawn.choice([2, 4, 6]), active=1.0)
            if nets.Reduction(rules, config, drawn).run(PATIENT):
                shared += self.are_rounds(draws.system_text(rules, config)) > 200
        if SYSTEMS >= 100:
            self.equals("what was drawn", "whether some systems are shared", True, shared > 0)

    def test_systems_of_bench(self):
        for row in rows(0.1):
            if row.is_in_place():
                self.are_rounds(row.given)

    def test_a_tree_that_is_handed_on_with_what_waits_in_it(self):
        for number in (14, 17, 20):
            self.are_rounds(f"{FIBONACCI}<r,s|F(r)={numeral(number)},F(s)={numeral(number - 3)}>", (2, 3, 4, 7))

    def test_a_reduction_that_is_cut(self):
        """What has fired by then is told of the rounds in which it would fire, and that it is a part."""
        pairs = traced(SORT)
        for steps in range(sum(pairs) + 1):
            ran, told = self.profile(SORT, "--steps", steps)
            self.equals(ran.command, "status", 5 if steps < sum(pairs) else 0, ran.status)
            self.equals(ran.command, "whether it is partial", steps < sum(pairs), json.loads(ran.err.partition(b"\n")[0])["partial"])
            self.equals(ran.command, "pairs in all", steps, sum(told))
            self.equals(ran.command, "whether no round has more", True, all(it <= most for it, most in zip(told, pairs)))

    def test_figures_in_lines(self):
        pairs = traced(SORT)
        for words in (["--span"], ["--span", "--stats"], ["--stats", "--profile", self.room / "table"]):
            ran = run("reduce", *words, given=SORT)
            told = SPAN.search(ran.err)
            wanted = [str(it).encode() for it in summed(pairs).values()]
            self.equals(ran.command, "what is told of rounds", (None, *wanted), told.groups() if told else ran.err)
        self.equals("reduce --stats", "what is told of rounds", None, SPAN.search(run("reduce", "--stats", given=SORT).err))
        for words in (["--steps", 9], ["--nodes", 1_000, "--workers", 1], ["--nodes", 1_000, "--workers", 4]):
            ran = run("reduce", "--span", *words, given=(TOP / "examples/unending.ic").read_text())
            told = SPAN.search(ran.err)
            self.equals(ran.command, "whether it is partial", b"partial ", told[1] if told else ran.err)

    def test_a_picture(self):
        """It has the bars of the picture of a trace, and no line."""
        path = self.room / "profile.svg"
        self.runs("reduce", "--quiet-answer", "--profile", path, given=SORT)
        picture, trace = path.read_text(), run("trace", "--format", "svg", given=SORT).out.decode()
        bars = re.compile(r"<rect width='0.9' x='(\d+)' height='(\d+)'/>")
        self.equals(str(path), "bars", bars.findall(trace), bars.findall(picture))
        self.equals(str(path), "title", re.findall(r"middle'>(.*?)</text>", trace), re.findall(r"middle'>(.*?)</text>", picture))
        self.equals(str(path), "whether there is a line", (False, False), ("polyline" in picture, "nodes" in picture))
        self.refuses("reduce", "--quiet-answer", "--steps", 3, "--profile", path, given=SORT, line="not done", status=5)
        self.equals(str(path), "how a title begins that is cut", True, "middle'>partial: 3 rounds, 3 interactions, " in path.read_text())

    def test_a_profile_is_not_written_over_the_text(self):
        """That is refused with the words, whether the text is in a file or on standard input, and by whatever path."""
        text, other = self.room / "sort.ic", self.room / "other.ic"
        text.write_text(SORT)
        other.symlink_to(text)
        for words, how in (([text], {}), ([other], {}), ([], {"stdin": text})):
            for path in (text, other):
                with contextlib.ExitStack() as opened:
                    given = {it: opened.enter_context(open(path, "rb")) for it, path in how.items()}
                    ran = run("reduce", "--profile", path, *words, **given)
                self.equals(ran.command, "how it ends", (2, b"", b"error: --profile would overwrite the text\n"), (ran.status, ran.out, ran.err + ran.after))
                self.equals(str(text), "what it holds", SORT, text.read_text())
        with open(os.devnull, "rb") as nothing:
            ran = run("reduce", "--profile", os.devnull, stdin=nothing)
        self.equals(ran.command, "how it ends", (1, b"icserve: bad syntax\n"), (ran.status, ran.err))

    def test_a_text_without_interactions(self):
        for text in ("{}<|>", "{}<x|x=y,y=Z>", "{A><B}<|A=A>"):
            ran, told = self.profile(text)
            self.equals(ran.command, "status and pairs", (0, []), (ran.status, told))

    def test_what_the_file_held_is_gone(self):
        path = self.room / "profile.tsv"
        path.write_text("x" * 10_000)
        self.profile(SORT)

    def test_a_file_that_cannot_be_had(self):
        """It is told before a text is read, and the line after that of the failure tells why."""
        for path, why in ((self.room, "is a folder"), (self.room / "no/such/folder", "no such file or folder")):
            for given in (SORT, "{A><A}<|A=>"):
                self.runs("reduce", "--span", "--profile", path, given=given, err=["icserve: write", f"{path}: open: {why}"], status=4)

    @unittest.skipUnless(os.access("/dev/full", os.W_OK), "there is no /dev/full")
    def test_a_file_that_takes_no_bytes(self):
        """That is known at the end: the answer is printed."""
        lines = ["icserve: write", "/dev/full: write: no room left on the device"]
        self.runs("reduce", "--profile", "/dev/full", given=SORT, out=run("reduce", given=SORT).out, err=lines, status=4)

    def test_a_refused_reduction_leaves_files_as_they_are(self):
        """A new file is taken away, one that was there holds what it held, and so does what a link leads to."""
        old, new, link, loose = (self.room / it for it in ("old", "new", "link", "loose"))
        old.write_text("as it was")
        link.symlink_to(old)
        loose.symlink_to(new)
        for path in (old, new, link):
            ran = run("reduce", "--profile", path, given="{A><A}<|A=>")
            self.equals(ran.command, "status, and whether a file was made", (1, False), (ran.status, new.exists()))
            self.equals(ran.command, "what stood there", "as it was", old.read_text())
        run("reduce", "--profile", loose, given="{A><A}<|A=>")
        self.equals(loose, "whether the link is there", True, loose.is_symlink())

    def redirected(self, *words, to):
        """What stands in a file of this name after a reduction whose standard stream went there, by a shell."""
        path = self.room / "redirected"
        shell = ["-c", f'exec "$0" reduce "$@" {to}"{path}"', PROGRAM]
        ran = run(*shell, *words, program="/bin/sh", given=SORT)
        self.equals(ran.command, "status", 0, ran.status)
        return ran, path.read_bytes()

    def test_a_standard_stream(self):
        """What goes to its file stands after what was written there before, and nothing of that is lost."""
        answer, path = run("reduce", given=SORT).out, self.room / "table"
        self.runs("reduce", "--quiet-answer", "--profile", path, given=SORT)
        table = path.read_bytes()
        path.unlink()
        for name in ("-", "/dev/stdout"):
            self.runs("reduce", "--profile", name, given=SORT, out=answer + table)
            self.runs("reduce", "--quiet-answer", "--profile", name, given=SORT, out=table)
        for name in ("-", "/dev/stdout", "/dev/fd/1", self.room / "redirected"):
            for to in (">", ">>"):
                ran, told = self.redirected("--profile", name, to=to)
                self.agrees(ran.command, "what stands in the file", answer + table, told.removeprefix(answer + table if to == ">>" else b""))
        ran, told = self.redirected("--quiet-answer", "--span", "--profile", "/dev/stderr", to="2>")
        self.equals(ran.command, "table and figures", (table, True), (told[: len(table)], SPAN.search(told) is not None))
        self.equals("--profile -", "whether a file is named so", False, os.path.lexists("-"))
