"""Times programs on the systems of docs/speed.md, each from its start to its end: the median of some runs, in turn, or the least
processor time of them. Tells the most memory of each, too, in a run that isn't timed."""

import argparse
import ctypes
import itertools
import os
import platform
import re
import shutil
import statistics
import subprocess
import sys
import tempfile
import time
from pathlib import Path

from systems import rows

IN_MEMORY = "/dev/shm" if os.access("/dev/shm", os.W_OK) else None

# Has this process wait for what its children leave behind as they end: a number of Linux, for `prctl`.
PR_SET_CHILD_SUBREAPER = 36

# A command that starts another one and ends before it. Of a program that this process starts itself, `wait4` tells at least the
# memory of this process. A shell has little.
LEAVES = ["sh", "-c", 'exec 3<&0; "$@" <&3 3<&- &', "sh"]


class Bench:
    """Runs programs on a row, in folders of its own: one in memory, where there is one, and one on a disk."""

    def __init__(self, memory, disk, least):
        self.least = least
        self.given, self.out, self.err = (f"{memory}/{it}" for it in ("given", "out", "err"))
        self.disks = {False: f"{memory}/jobs.disk", True: f"{disk}/jobs.disk"}

    def run(self, command, given):
        """How long a run took, or for how long processors were at it, and its status."""
        files = [(os.POSIX_SPAWN_OPEN, 0, given, os.O_RDONLY, 0)]
        files += [(os.POSIX_SPAWN_OPEN, i, it, os.O_WRONLY | os.O_CREAT | os.O_TRUNC, 0o600) for i, it in ((1, self.out), (2, self.err))]
        began = time.perf_counter()
        _, status, usage = os.wait4(os.posix_spawnp(command[0], command, os.environ, file_actions=files), 0)
        return usage.ru_utime + usage.ru_stime if self.least else time.perf_counter() - began, status

    def tried(self, program, row, before=()):
        """A run of a program on a row, over a new disk if it serves: how long it took, its status, and what it wrote."""
        words, disk = row.words, self.disks[row.keeps]
        Path(self.given).write_text(row.given)
        if words[0] == "serve":
            Path(disk).unlink(missing_ok=True)
            self.run([program, "create", "--disk", disk], os.devnull)
            words = ["serve", "--disk", disk, *words[1:]]
        took, status = self.run([*before, program, *words], self.given)
        return took, status, Path(self.out).read_bytes()

    def first(self, program, row):
        """A run that isn't timed: how many MB of memory the program had at most, its status, and what it wrote."""
        self.tried(program, row, LEAVES)
        _, status, usage = os.wait4(-1, 0)
        return usage.ru_maxrss * 1024 / 1e6, status, Path(self.out).read_bytes()

    def instructions(self, program, row):
        """How many instructions valgrind counts."""
        self.tried(program, row, ["valgrind", "--tool=cachegrind", "--cache-sim=no", "--cachegrind-out-file=/dev/null"])
        told = re.search(r"I\s+refs:\s+([\d,]+)", Path(self.err).read_text(errors="replace"))
        return int(told[1].replace(",", "")) if told else float("nan")

    def interactions(self, program, row, out):
        """The interactions that a program tells: of a serving by the rounds that it ran, of a reduction in place by its figures,
        else by `trace`."""
        if row.words[0] == "serve":
            return row.pairs * sum(int(it) for it in re.findall(rb"(?m)^ran (\d+)", out))
        if row.is_in_place():
            told = subprocess.run([program, *row.words, "--stats"], input=row.given.encode(), capture_output=True).stderr
            return int(re.search(rb"interactions (\d+)", told)[1])
        rounds = row.words[2] if row.words[0] == "reduce" else "1"
        # A trace that is cut says so; no more is asked for.
        told = subprocess.run([program, "trace", "--rounds", rounds], input=row.given.encode(), capture_output=True).stdout
        return sum(int(it.split()[1]) for it in told.splitlines()[1:])


def figures(bench, row, options):
    """What a line of the table says of each program: a median of seconds or the least, millions of instructions, a rate, and MB of
    memory."""
    programs = [*options.program, *[options.plain] * bool(options.plain and row.is_in_place())]
    first = [bench.first(it, row) for it in programs]
    took = [[bench.tried(it, row)[0] for it in programs] for _ in range(options.times)]
    is_told = row.pairs or row.is_in_place()
    count = bench.interactions(options.program[0], row, first[0][2]) if is_told else 0
    of_all = min if options.least else statistics.median
    for program, seconds, tried in zip(programs, map(of_all, zip(*took)), first):
        yield f"{seconds:.4f}"
        if options.instructions:
            yield f"{bench.instructions(program, row) / 1e6:.1f}"
        yield f"{count / seconds:,.0f}" if count and seconds else "-"
        yield f"{tried[0]:.1f}"
        if tried[1:] != first[0][1:]:
            yield "answers otherwise"
    if len(programs) > len(options.program):
        turns = [[min(it) for it in zip(*took)]] if options.least else took
        yield f"{statistics.median(it[0] / (it[-1] or 1e-6) for it in turns):.2f}"
    elif options.plain:
        yield from ["-"] * (4 + options.instructions)
    if options.guard:
        # Of each turn, since a machine that is busy slows all programs of a turn.
        yield f"{statistics.median(it[0] / (it[len(options.program) - 1] or 1e-6) for it in took):.2f}"


def processor():
    """What the system calls a processor."""
    about = Path("/proc/cpuinfo")
    found = re.search(r"(?m)^model name\s*: (.*)$", about.read_text()) if about.exists() else None
    return found[1] if found else platform.machine()


def chosen(options):
    """The rows that are taken, with their numbers: the first ones, or the other ones. A guard takes both, unless it is told which."""
    is_told = options.others or options.only or not options.guard
    taken = itertools.chain.from_iterable(rows(options.size, it) for it in ([options.others] if is_told else [False, True]))
    return ((number, row) for number, row in enumerate(taken, 1) if options.only in row.what)


def write(options):
    """Writes what a row gives into a file of its own, and tells how it is taken."""
    folder = Path(options.write)
    folder.mkdir(parents=True, exist_ok=True)
    for number, row in chosen(options):
        path = folder / f"{number:02}"
        path.write_text(row.given)
        print(f"{path}: {row.what}: icserve {' '.join(row.words)} < {path}")
    return 0


def as_line(what, cells):
    return f"{what:52}{''.join(f'{it:>22}' for it in cells)}"


def main():
    parser = argparse.ArgumentParser(prog="bench", description=__doc__)
    parser.add_argument("program", nargs="+", help="the paths of programs: the first tells how many interactions there are")
    parser.add_argument("--plain", metavar="P", help="takes bench/plain.c, compiled into P, beside them where nets are reduced in place, and tells the first one's time by its")
    parser.add_argument("--times", type=int, default=7, help="runs of each program (7 if not said), after one that isn't counted, which tells the memory")
    parser.add_argument("--size", type=float, default=1, help="takes each number of a system times this (1 if not said)")
    parser.add_argument("--least", action="store_true", help="tells the least processor seconds of the runs, of all threads, in place of the median of seconds: for a machine that isn't idle")
    parser.add_argument("--others", action="store_true", help="takes the other rows: large texts, nets by 1, 2 and 4 threads, and rounds in place")
    parser.add_argument("--write", metavar="FOLDER", help="writes the texts and lines of the rows into a folder, and times nothing")
    parser.add_argument("--only", default="", metavar="WORD", help="takes only rows that have this word")
    parser.add_argument("--instructions", action="store_true", help="has valgrind count instructions, which takes long")
    parser.add_argument("--guard", type=float, nargs="?", const=1.15, metavar="R", help="fails where the first program takes more than R times (1.15) as long as the last, on any row: all are taken, unless --only or --others picks some")
    options = parser.parse_intermixed_args()
    if options.guard and len(options.program) < 2:
        parser.error("--guard compares two programs")
    if options.instructions and not shutil.which("valgrind"):
        parser.error("valgrind isn't installed: apt install valgrind")
    if options.write:
        return write(options)
    ctypes.CDLL(None).prctl(PR_SET_CHILD_SUBREAPER, 1, 0, 0, 0)
    heads = ["seconds", *["M instructions"] * options.instructions, "interactions/s", "MB"]
    print(f"{os.cpu_count()} processors, {processor()}")
    for at, program in enumerate(options.program, 1):
        print(f"{at}: {program}")
    columns = [f"{at}: {it}" for at in range(1, len(options.program) + 1) for it in heads]
    columns += [f"plain: {it}" for it in [*heads, "ratio"] if options.plain]
    print(as_line("", [*columns, *[f"1 by {len(options.program)}"] * bool(options.guard)]))
    count, slower = 0, []
    with tempfile.TemporaryDirectory(dir=IN_MEMORY) as memory, tempfile.TemporaryDirectory() as disk:
        for _, row in chosen(options):
            cells = list(figures(Bench(memory, disk, options.least), row, options))
            print(as_line(row.what, cells), flush=True)
            count += 1
            slower += [row.what] if options.guard and float(cells[-1]) > options.guard else []
    for it in slower:
        print(f"slower than {options.guard} times: {it}", file=sys.stderr)
    if not count:
        print(f"no row has the word {options.only}", file=sys.stderr)
    return 0 if count and not slower else 1


if __name__ == "__main__":
    sys.exit(main())
