"""The words after the program's name, by what its helps say of them: each word, each option with its range, what may not stand
beside what, and what a terminal is shown of a refused one."""

import itertools
import os
import re
import subprocess

from known import TEXT_WORDS
from program import IN_MEMORY, PROGRAM, TOP, Trial, run

# A line of a help: an option with its value, and what it says.
OPTION = re.compile(r"  (?:    |-\w, )(--[\w-]+)(?: <(\w+)>)? +(.*)")
# The greatest numbers of a cell of the page's table of limits.
NUMBER = re.compile(r"(below )?(?:2\^(\d+)|(\d[\d,]*))")
RANGE = re.compile(r"from (\d+) to (\d+)")

# What of `reduce` may not stand beside what.
APART = {
    "--rounds": ["--steps", "--workers", "--span", "--profile"],
    "--keep": ["--resume", "--limits", "--span", "--profile"],
    "--resume": ["--limits", "--span", "--profile", "FILE"],
}
GIVEN = {"--limits": "wide", "--format": "json", "--keep": "F", "--resume": "G", "--profile": os.devnull, "FILE": "text"}
FLAGS = ("--rich", "--plain", "--partial", "--with-rules", "--quiet-answer", "--stats", "--span", "--from-one-file")


def help_of(*words):
    return run(*words, "--help").out.decode()


def words_of_help():
    """The words of the program, as its help has them."""
    text = help_of()
    part = text[text.index("Commands:") :].split("\n\n")[0]
    return re.findall(r"(?m)^  (\w+) ", part)


def options_of(word):
    """The options of a word, each with the name of its value and what its help says."""
    found = (OPTION.fullmatch(line) for line in help_of(word).split("\n"))
    return {it[1]: (it[2], it[3]) for it in found if it}


def needed(word):
    """What a word has to be given, beside the option that is tried."""
    usage = re.search(r"Usage: icserve \w+(.*)", help_of(word))[1]
    disk = ["--disk", "no/such/disk"] if "--disk" in usage else []
    return disk + ["no/such/file"] * bool(re.search(r"<(FILE|LINES)>", usage))


def given(option):
    """An option of `reduce`, or its text, as it stands among words."""
    if option in FLAGS:
        return [option]
    return [option, GIVEN.get(option, "1")] if option != "FILE" else [GIVEN[option]]


class Words(Trial):
    rooms = IN_MEMORY
    seconds = 10

    def refused(self, words, part):
        ran = run(*words, given="{} <|>", cwd=self.room)
        self.equals(ran.command, "how it ends", (2, b"", b"error: "), (ran.status, ran.out, ran.err[:7]))
        self.equals(ran.command, f"whether {part} is told: {ran.err.decode()}", True, part in ran.err.decode())

    def taken(self, words):
        ran = run(*words, given="{} <|>", cwd=self.room)
        self.equals(ran.command, f"whether the words are refused: {ran.err}", False, ran.status == 2)

    def test_the_words_of_the_help(self):
        words = words_of_help()
        self.equals("--help", "words without those over texts", [], sorted(set(TEXT_WORDS) - set(words)))
        for word in words:
            with self.subTest(word=word):
                self.equals(f"{word} --help", "its usage", True, f"Usage: icserve {word}" in help_of(word))
                self.equals(f"help {word}", "what it shows", help_of(word), run("help", word).out.decode())
                self.equals(f"{word} --loud", "status", 2, run(word, *needed(word), "--loud").status)

    def test_numbers_out_of_the_ranges_of_the_helps_are_refused_and_those_at_their_ends_are_not(self):
        tried = 0
        for word in words_of_help():
            for option, (value, says) in options_of(word).items():
                found = RANGE.search(says)
                self.equals(f"{word} {option}", f"whether {says} tells a range", value in ("N", "K", "R", "T"), bool(found))
                if found:
                    least, most = int(found[1]), int(found[2])
                    for number in (least - 1, most + 1):
                        self.refused([word, *needed(word), f"{option}={number}"], f"{number}")
                    ends = (least, most)
                    beside = ["--keep", "F"] if option == "--seconds" else []
                    for number in ends:
                        self.taken([word, *needed(word), *beside, option, str(number)])
                    tried += 1
        self.equals("all words", "options with a range", True, tried >= 14)

    def test_words_of_choices_are_those_of_the_helps(self):
        for word in words_of_help():
            for option, (_, says) in options_of(word).items():
                among = re.search(r"\[possible values: (.*)\]", says)
                for one in among[1].split(", ") if among else []:
                    self.taken([word, *needed(word), option, one])
                if among:
                    self.refused([word, *needed(word), option, "none"], f"[possible values: {among[1]}]")

    def test_options_that_exclude_each_other_are_refused_in_any_order_and_no_others(self):
        options = [it for it in options_of("reduce") if it != "--help"] + ["FILE"]
        (self.room / "text").write_text("{} <|>")
        for one, other in itertools.combinations(options, 2):
            apart = other in APART.get(one, ()) or one in APART.get(other, ())
            for words in ([*given(one), *given(other)], [*given(other), *given(one)]):
                with self.subTest(words=words):
                    if apart:
                        self.refused(["reduce", *words], "cannot be used with")
                    elif not {"--resume", "--keep", "--seconds", "--from-one-file"} & set(words):
                        self.taken(["reduce", *words])
        self.refused(["reduce", "--seconds", "3"], "--keep <F> or --resume <F>")
        for words in ([], ["--keep", "F"]):
            self.refused(["reduce", "--from-one-file", *words], "--resume <F>")

    def test_a_refused_argument_is_shown_without_its_control_bytes(self):
        for words in (["\x1b[31mred\x07"], ["reduce", "--steps", "\x1b[31m5"], ["trace", "--format", "\x9b2J\u202e"], ["help", "\x1b[2J"], ["serve", "--disk", "F", "\x1b]0;x\x07"]):
            with self.subTest(words=words):
                ran = run(*words, cwd=self.room)
                self.equals(ran.command, "how it ends", (2, b"", b"error: "), (ran.status, ran.out, ran.err[:7]))
                others = bytes(it for it in ran.err if it != 10 and not 32 <= it < 127)
                self.equals(ran.command, "bytes that are no printable ASCII", b"", others)
                self.equals(ran.command, "whether others stand for them", True, b"?" in ran.err)

    def test_of_the_words_that_are_like_a_refused_one_the_likest_is_told_first(self):
        for word, like in (("redcue", "'reduce', 'trace'"), ("reudce", "'reduce', 'trace'"), ("some similar subcommands exist: redcue", None)):
            ran = run(word)
            told = "error: unrecognized subcommand '%s'\n\n%sUsage: icserve <COMMAND>\n\nFor more information, try '--help'.\n"
            tip = f"  tip: some similar subcommands exist: {like}\n\n" if like else ""
            self.equals(ran.command, "how it ends", (2, b"", (told % (word, tip)).encode()), (ran.status, ran.out, ran.err))

    def test_help_of_another_word_tells_those_that_are_like_it(self):
        """As of a word of the program, and of those that `help` alone has."""
        some, one = "some similar subcommands exist:", "a similar subcommand exists:"
        likes = {"redcue": f"{some} 'reduce', 'trace'", "limit": f"{one} 'limits'", "languag": f"{one} 'language'", "xyzzy": ""}
        for word, like in likes.items():
            ran = run("help", word)
            tip = f"  tip: {like}\n\n" if like else ""
            told = f"error: unrecognized subcommand '{word}'\n\n{tip}Usage: icserve help [WORD]\n\nFor more information, try '--help'.\n"
            self.equals(ran.command, "how it ends", (2, b"", told.encode()), (ran.status, ran.out, ran.err))
        for word in ("--help", "-x", "--disk", ""):
            ran = run("help", "--", word)
            told = ran.err.decode()
            self.equals(ran.command, "how it ends", (2, b"", True), (ran.status, ran.out, told.startswith("error: ") and "\n\nUsage: icserve help [WORD]\n" in told))

    def test_help_limits_tells_the_limits_of_the_page(self):
        def numbers(cell):
            return [(2 ** int(it[2]) if it[2] else int(it[3].replace(",", ""))) - bool(it[1]) for it in NUMBER.finditer(cell)]

        rows = [line.split(" | ") for line in (TOP / "docs/text-format.md").read_text().split("\n### Limits\n")[1].split("\n\n")[1].split("\n")[2:]]
        at_page = sorted(it for row in rows for it in zip(numbers(row[1]), numbers(row[2])))
        told = run("help", "limits").out.decode().split("\n\n")[1].split("\n")[1:]
        in_help = sorted(tuple(int(it) for it in re.findall(r" (\d+)", line)) for line in told)
        self.equals("icserve help limits", "limits, served and wide", at_page, in_help)

    def test_the_version_says_whether_the_program_is_proved(self):
        told = run("--version").out.decode()
        self.assertRegex(told, r"\Aicserve \d+\.\d+\.\d+ \((not )?proved\)\n\Z")
        if PROGRAM.endswith("crates/icserve/out/icserve"):
            self.assertIn(" (proved)", told)
        self.equals("icserve -V", "what is shown", told, run("-V").out.decode())

    def test_lines_of_helps_have_at_most_100_columns(self):
        for words in ([], ["help", "language"], ["help", "limits"], ["help", "keep"], *([it] for it in words_of_help())):
            text = run(*words).out.decode() if words[:1] == ["help"] and len(words) > 1 else help_of(*words)
            long = [line for line in text.split("\n") if len(line) > 100]
            self.equals(f"icserve {' '.join(words)} --help", "lines of more than 100 columns", [], long)
        for script in sorted((TOP / "cluster").iterdir()):
            if script.suffix:
                continue
            text = subprocess.run([script, "--help"], stdin=subprocess.DEVNULL, stdout=subprocess.PIPE, text=True).stdout
            self.equals(f"{script.name} --help", "lines of more than 100 columns", [], [line for line in text.split("\n") if len(line) > 100])
