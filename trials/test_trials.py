"""`python3 trials WORD..` takes the trials of each word, and tells of a word that takes none. Small trials stand for those here,
so the program isn't tried."""

import os
import shutil
import subprocess
import sys

from program import TOP, Trial

SMALL = "from program import Trial\nclass {0}(Trial):\n    needs_program = False\n    def test_it(self):\n        pass\n"


class Trials(Trial):
    needs_program = False

    def setUp(self):
        super().setUp()
        self.folder = self.room / "trials"
        self.folder.mkdir()
        for name in ("__main__.py", "program.py", "shim.py"):
            shutil.copy(TOP / "trials" / name, self.folder)
        for name in ("One", "Two", "Three", "Slow_long"):
            (self.folder / f"test_{name.lower()}.py").write_text(SMALL.format(name))

    def tried(self, status, *words):
        """Runs the trials by these words, which must end so: the names of those that were tried, and the lines after the first."""
        command = [sys.executable, self.folder, *words]
        ran = subprocess.run(command, env={**os.environ, "PYTHONDONTWRITEBYTECODE": "1"}, capture_output=True, text=True, timeout=60)
        self.equals(words, f"status; it said {ran.stdout}{ran.stderr}", status, ran.returncode)
        lines = ran.stdout.splitlines()
        return {it.split(": ")[1].split(".")[0].removeprefix("test_") for it in lines if it.endswith(" s")}, lines[1:]

    def test_the_trials_of_each_word_are_tried(self):
        for words, wanted in (
            ([], {"one", "two", "three"}),
            (["test_one.One.test_it"], {"one"}),
            (["test_one.One.test_it", "two"], {"one", "two"}),
            (["One", "one", "T"], {"one", "two", "three"}),
            (["long"], {"slow_long"}),
            (["slow_long", "one"], {"slow_long", "one"}),
        ):
            names, lines = self.tried(0, "--without-program", *words)
            self.equals(words, "those that are tried", wanted, names)
            self.equals(words, "the last line", f"{len(wanted)} passed, 0 failed", lines[-1])

    def test_a_word_that_takes_no_trial_is_told_and_none_is_tried(self):
        told = "trials: no trial is taken by {}: python3 trials --help tells which words take which"
        for words, strange in ((["four"], ["four"]), (["one", "four", "--five"], ["four", "--five"]), (["slow"], ["slow"])):
            names, lines = self.tried(1, "--without-program", *words)
            wanted = [*(told.format(it) for it in strange), f"0 passed, {len(strange)} failed"]
            self.equals(words, "what is told", (set(), wanted), (names, lines))

    def test_help_tells_of_the_words(self):
        names, lines = self.tried(0, "--help")
        self.equals("--help", "what is tried", set(), names)
        for word in ("--without-program", "--with-program", "long"):
            self.equals("--help", f"whether {word} is told of", True, any(word in it for it in lines))
