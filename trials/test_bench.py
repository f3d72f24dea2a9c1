"""`make bench` times the program on each of its systems, `make bench-clients` a server, and `make bench-kept` reductions that are
kept: here on tiny ones."""

import os
import re
import shutil
import subprocess
import sys
from pathlib import Path

from program import PROGRAM, TOP, Trial, run

sys.path.insert(0, str(TOP / "bench"))

from systems import rows  # noqa: E402

HAS_COMPILER = bool(shutil.which("cc"))


class Bench(Trial):
    seconds = 5

    def setUp(self):
        """A copy whose launcher tells the program that is tried."""
        super().setUp()
        shutil.copy(TOP / "Makefile", self.room / "Makefile")
        shutil.copytree(TOP / "bench", self.room / "bench", ignore=shutil.ignore_patterns("__pycache__"))
        (self.room / "icserve").write_text(f"#!/bin/sh\necho '{PROGRAM}'\n")
        (self.room / "icserve").chmod(0o755)
        if not os.access(self.room / "icserve", os.X_OK):
            self.skipTest("programs in a trial's folder can't be started here")

    def figures(self, words):
        """What `make bench` prints with these words: what each row is, with its figures."""
        command = ["make", "-s", "bench", f"WITH={words}"]
        ran = subprocess.run(command, cwd=self.room, stdin=subprocess.DEVNULL, capture_output=True, text=True, timeout=120)
        self.equals(" ".join(command), "status and standard error", (0, ""), (ran.returncode, ran.stderr))
        return [re.split(r" {2,}", it.strip()) for it in ran.stdout.splitlines() if re.match(r"[a-z][a-z0-9 ]*: ", it)]

    def test_each_row_is_printed_with_its_seconds_its_memory_and_the_interactions_that_are_told(self):
        found = self.figures("--size 0.01 --times 1")
        self.equals("make bench", "the rows", [it.what for it in rows(0.01)], [it[0] for it in found])
        for row, (what, seconds, rate, memory, *plain) in zip(rows(0.01), found):
            self.equals(what, "whether it tells seconds", True, float(seconds) > 0)
            self.equals(what, f"whether {memory} MB are more than none and less than Python has", True, 0 < float(memory) < 8)
            self.equals(what, "whether it tells interactions", row.pairs > 0 or row.is_in_place(), rate != "-")
            self.equals(what, "how many figures of the plain program there are", 4 * HAS_COMPILER, len(plain))
            self.equals(what, "whether they are told", HAS_COMPILER and row.is_in_place(), "-" not in (plain or ["-"]))

    def test_the_other_rows_are_timed_by_processor_time(self):
        found = self.figures("--others --least --size 0.001 --times 1")
        wanted = [it.what for it in rows(0.001, others=True)]
        self.equals("make bench", "the rows", wanted, [it[0] for it in found])
        self.equals("make bench", "whether several threads and large texts are among them", (5, True), (sum("large" in it for it in wanted), any(it.startswith("by 4 threads") for it in wanted)))
        for what, *cells in found:
            self.equals(what, "whether it has figures", True, all(re.fullmatch(r"[\d,.]+|-", it) for it in cells))

    def test_texts_of_rows_are_written(self):
        command = [sys.executable, TOP / "bench", PROGRAM, "--write", self.room / "texts", "--size", "0.01", "--only", "reduce"]
        ran = subprocess.run([str(it) for it in command], capture_output=True, text=True, timeout=120)
        self.equals(command, "status and standard error", (0, ""), (ran.returncode, ran.stderr))
        chosen = [it for it in rows(0.01) if "reduce" in it.what]
        for row, line in zip(chosen, ran.stdout.splitlines()):
            path = line.partition(": ")[0]
            self.holds(Path(path), row.given.encode())
            self.equals(path, "what is told of it", f"{path}: {row.what}: icserve {' '.join(row.words)} < {path}", line)
        self.equals(command, "how many are told", len(chosen), len(ran.stdout.splitlines()))

    def test_each_figure_of_a_server_is_printed(self):
        (self.room / "trials").mkdir()
        for it in ("listen", "trials/shim.c"):
            shutil.copy(TOP / it, self.room / it)
        words = "--turns 1 --seconds 0.2 --clients 4 --groups 8 64 --workers 1 2 --size 0.01"
        command = ["make", "-s", "bench-clients", f"WITH={words}"]
        ran = subprocess.run(command, cwd=self.room, stdin=subprocess.DEVNULL, capture_output=True, text=True, timeout=120)
        self.equals(" ".join(command), "status and standard error", (0, ""), (ran.returncode, ran.stderr))
        found = [[it.strip() for it in line.strip("|").split("|")] for line in ran.stdout.splitlines() if re.match(r"\| \w", line)]
        disks = ["in memory", *["in memory, syncs of 5 ms more"] * HAS_COMPILER, "on this disk"]
        wanted = ["disk", *(it for it in disks for _ in range(2)), "jobs, pairs of each, rounds of each"]
        self.equals("make bench-clients", "what the rows begin with", wanted, [it[0] for it in found[: len(wanted)]])
        self.equals("make bench-clients", "how many rows of laps there are", 5, len(found) - len(wanted))
        for cells in found[1 : len(wanted) - 1] + found[len(wanted) :]:
            self.equals(cells, "whether each cell has a figure", True, all(re.fullmatch(r"[\d,.]+", it) for it in cells[-2:]))

    def test_reductions_that_are_kept_are_timed_beside_those_that_are_not(self):
        command = ["make", "-s", "bench-kept", f"WITH={PROGRAM} --turns 1 --size 0.001"]
        ran = subprocess.run(command, cwd=self.room, stdin=subprocess.DEVNULL, capture_output=True, text=True, timeout=120)
        self.equals(" ".join(command), "status and standard error", (0, ""), (ran.returncode, ran.stderr))
        found = [[it.strip() for it in line.strip("|").split("|")] for line in ran.stdout.splitlines() if re.match(r"\| \w", line)]
        self.equals("make bench-kept", "the programs of the first table", ["1", "2"] * 5, [it[0] for it in found[1:11]])
        self.equals("make bench-kept", "the threads of the second table", ["1", "2", "4"] * 4, [it[1] for it in found[12:]])
        self.equals("make bench-kept", "whether each cell has a figure", [], [it for it in found[1:11] + found[12:] for cell in it[2:] if not re.fullmatch(r"[\d,.]+", cell)])
        self.equals("make bench-kept", "the folders that it has left", [], [it.name for it in self.room.glob("kept-*")])

    def test_another_program_stands_beside_and_one_that_answers_otherwise_is_told(self):
        for other, more in ((PROGRAM, []), (shutil.which("true"), ["answers otherwise"])):
            (found,) = self.figures(f"--size 0.01 --times 1 --only once {other}")
            self.equals(other, "how many figures there are", 7 + len(more) + 4 * HAS_COMPILER, len(found))
            self.equals(other, "what stands after them", more, found[7 : 7 + len(more)])
            self.equals(other, "whether the program tells interactions", False, found[2] == "-")

    def test_the_memory_of_each_program_is_its_own(self):
        large = self.room / "large"
        large.write_text(f"#!/bin/sh\nexec '{sys.executable}' -c 'it = b\"x\" * 100_000_000'\n")
        large.chmod(0o755)
        (found,) = self.figures(f"--size 0.01 --times 1 --only once {large}")
        for which, memory, least, most in (("first", found[3], 0, 8), ("second", found[6], 100, 150)):
            self.equals(found, f"whether the {which} has more than {least} MB and less than {most}", True, least < float(memory) < most)

    def test_the_plain_program_prints_what_reduce_prints(self):
        if not HAS_COMPILER:
            self.skipTest("no C compiler is there")
        plain = self.room / "plain"
        subprocess.run(["cc", "-O2", "-Wall", "-Wextra", "-Werror", "-o", plain, TOP / "bench/plain.c"], check=True)
        for path in sorted((TOP / "examples").glob("*.ic")):
            text = path.read_bytes()
            wanted = run("reduce", "--steps", "100000", given=text)
            if wanted.out.endswith(b"|>\n") and not wanted.status:
                came = run(given=text, program=plain)
                self.equals(came.command, "what it prints", (0, wanted.out), (came.status, came.out))

    def test_a_program_that_is_slower_than_another_fails_the_guard(self):
        slow = self.room / "slow"
        slow.write_text(f'#!/bin/sh\nsleep 0.2\nexec {PROGRAM} "$@"\n')
        slow.chmod(0o755)
        for program, status, told in ((PROGRAM, 0, ""), (slow, 1, "slower than 5.0 times: start: settle of <|>\n")):
            command = [sys.executable, TOP / "bench", program, PROGRAM, "--guard", "5", "--times", "3", "--only", "start: settle"]
            ran = subprocess.run([str(it) for it in command], capture_output=True, text=True, timeout=120)
            self.equals(command, "status and standard error", (status, told), (ran.returncode, ran.stderr))

    def test_a_guard_takes_all_rows_unless_some_are_picked(self):
        both = [it.what for others in (False, True) for it in rows(0.001, others)]
        for words, wanted in (
            ("", both),
            ("--others", [it.what for it in rows(0.001, others=True)]),
            ("--only start", [it for it in both if it.startswith("start: ")]),
            ("--others --only traced", [it for it in both if it.startswith("traced: ")]),
        ):
            found = self.figures(f"--guard 1000 --size 0.001 --times 1 {words} {PROGRAM}")
            self.equals(f"--guard {words}", "the rows", wanted, [it[0] for it in found])
            self.equals(f"--guard {words}", "what else stands in a row than figures", [], [it for row in found for it in row[1:] if not re.fullmatch(r"[\d,.]+|-", it)])

    def test_a_guard_of_no_row_fails(self):
        command = [sys.executable, TOP / "bench", PROGRAM, PROGRAM, "--guard", "--only", "nothing like it"]
        ran = subprocess.run([str(it) for it in command], capture_output=True, text=True, timeout=120)
        self.equals(command, "status and standard error", (1, "no row has the word nothing like it\n"), (ran.returncode, ran.stderr))
