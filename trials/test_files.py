"""Texts that are read from files: the words over a text with a FILE, `-` and what can't be read, and `check` with `-`."""

import os
import subprocess

from known import CHAIN, TEXT_WORDS, TEXTS, TWO, words_for
from program import IN_MEMORY, PROGRAM, Trial, run

# The words over a text, and some with options that they may have, with a text.
WORDS = [([word], TEXTS[kind]) for word, kind in TEXT_WORDS.items()] + [
    (["reduce", "--partial", "--steps", "1000"], TWO.text),
    (["reduce", "--rounds=9", "--partial"], TWO.text),
    (["trace", "--format", "svg"], TWO.text),
    (["trace", "--format", "json"], TWO.text),
]


class Files(Trial):
    seconds = 8
    rooms = IN_MEMORY

    def text(self, text, name="sum.ic"):
        path = self.room / name
        path.write_text(text)
        return path

    def test_a_file_is_answered_as_its_text_on_standard_input(self):
        for number, (words, text) in enumerate(WORDS):
            with self.subTest(words=words):
                wanted = run(*words, given=text).out
                path = self.text(text, f"{number}.ic")
                word, *options = words
                for ways in ([*words, path], [word, path, *options], [*words, "--", path]):
                    self.runs(*ways, given="what isn't read", out=wanted)
                for ways in ([*words, "-"], [word, "-", *options], [*words, "/dev/stdin"], [*words, "--", "-"], words):
                    self.runs(*ways, given=text, out=wanted)

    def test_names_with_blanks_and_other_bytes_are_taken_and_shown_in_printable_bytes(self):
        for name in ("a sum of two.ic", " ", "--sum.ic", "-", "sum\x1b.ic", "sümme.ic", "a" * 200):
            with self.subTest(name=name):
                path = self.text(CHAIN, name)
                self.runs("settle", path, out=["<S(Z)|>"])
                path.write_text("<x|x=A(x)>")
                seen = "".join(chr(it) if 32 <= it < 127 else "?" for it in bytes(path))
                err = ["icserve: bad name x", f"{seen}, line 1, column 8", "    <x|x=A(x)>", "           ^"]
                self.runs("settle", path, err=[*err, "in a configuration a name stands at most twice; `icserve expand` writes rules that copy"], status=1)
        self.runs("settle", "--", "--sum.ic", cwd=self.text(CHAIN, "--sum.ic").parent, out=["<S(Z)|>"])
        self.runs("settle", "./-", cwd=self.text(CHAIN, "-").parent, out=["<S(Z)|>"])

    def test_the_words_are_refused_where_a_name_is_no_text(self):
        path = self.room / os.fsdecode(b"\xff.ic")
        path.write_text(CHAIN)
        ran = run("settle", path)
        self.equals(ran.command, "how it ends", (2, b"", b"error: the words are no UTF-8 text\n"), (ran.status, ran.out, ran.err))

    def test_of_a_refused_text_the_file_is_named_before_its_place(self):
        path = self.text("\n <x|x=A(x)>")
        for word in words_for("configuration", "either"):
            alone = run(word, given=path.read_text())
            ran = run(word, path)
            self.equals(ran.command, "status", (1, b""), (ran.status, ran.out))
            self.agrees(ran.command, "standard error", alone.err + f"{path}, ".encode() + alone.after, ran.err)
        path = self.text("{A><B} <|A=")
        for words in (["reduce", "--rounds", "1"], *([word] for word in words_for("system"))):
            alone = run(*words, given=path.read_text())
            ran = run(*words, path)
            self.equals(ran.command, "status", (1, b""), (ran.status, ran.out))
            self.agrees(ran.command, "standard error", alone.err + f"{path}, ".encode() + alone.after, ran.err)

    def test_a_file_that_isnt_read_is_told_with_its_cause(self):
        within = self.text(CHAIN) / "more"
        for words, _ in WORDS:
            for path, cause in (
                (self.room / "missing", "open: no such file or folder"),
                (within, "open: a name on the way to it is no folder's"),
                (self.room, "read: is a folder"),
                ("", "open: no such file or folder"),
            ):
                self.runs(*words, path, given=CHAIN, err=["icserve: read", f"{path}: {cause}"], status=4)

    def test_a_file_without_rights_isnt_read(self):
        how = self.without_rights()
        path = self.text(CHAIN)
        os.chmod(path, 0o000)
        self.runs("settle", path, err=["icserve: read", f"{path}: open: no rights"], status=4, **how)

    def test_a_pipe_is_read_to_its_end(self):
        pipe = self.room / "pipe"
        os.mkfifo(pipe)
        for words, text in WORDS:
            wanted = run(*words, given=text).out
            with subprocess.Popen(["sh", "-c", 'printf %s "$1" > "$2"', "sh", text, pipe]):
                self.runs(*words, pipe, out=wanted)
        ran = run("-c", 'printf %s "$1" | "$0" settle /dev/stdin', PROGRAM, CHAIN, program="/bin/sh")
        self.ended(ran, out=["<S(Z)|>"])

    def test_other_failures_are_told_as_of_standard_input(self):
        """A net that is too large, a round that isn't made and a step that is possible still."""
        wide = self.text("{A><B(C(C(D)))} <|A=B(P)," + "C(" * 8187 + "D" + ")" * 8187 + "=Q>")
        for words in (["once"], ["trace"], ["reduce", "--steps", "0"], ["reduce", "--nodes", "1"], ["reduce", "--rounds", "1"]):
            alone, ran = run(*words, given=wide.read_text()), run(*words, wide)
            self.equals(ran.command, "how it ends", alone[1:], ran[1:])

    def test_two_files_are_refused(self):
        path = self.text(CHAIN)
        for words, _ in WORDS:
            ran = run(*words, path, path)
            self.equals(ran.command, "how it ends", (2, b"", b"error:"), (ran.status, ran.out, ran.err[:6]))

    def test_check_reads_standard_input_for_a_hyphen(self):
        path = self.text("<|", "bad.ic")
        told = "1:3: bad syntax: the text ends before its configuration does: <INTERFACE|EQUATIONS>"
        self.runs("check", "-", given="<|>")
        self.refuses("check", "-", given="<|", out=[f"-:{told}"], line="faults", status=1)
        self.refuses("check", path, "-", path, given="<|", out=[f"{path}:{told}", f"-:{told}", f"{path}:{told}"], line="faults", status=1)
        self.runs("check", "-", "-", given="{} <A|>", out=["-: warning: symbols that stand only once: A"])
        folder = os.open(self.room, os.O_RDONLY)
        self.addCleanup(os.close, folder)
        ran = run("check", "-", stdin=folder)
        told = (ran.status, ran.out, ran.err, ran.after)
        self.equals(ran.command, "how it ends", (4, b"", b"icserve: read\n", b"standard input: read: is a folder\n"), told)
