#!/usr/bin/env python3
"""Times reductions that are kept beside those that aren't, as docs/speed.md tells them: a net that grows to so many nodes, texts of a
million, a resume with its memory, and nets by several threads. Programs take their turns, and each figure is the median of some."""

import argparse
import contextlib
import os
import re
import statistics
import sys
import tempfile
import time
from pathlib import Path
from typing import NamedTuple

from systems import ADD, BINARY, COMMUTE, EATS, FIBONACCI, TREES, full, numbers, numeral

GROWS = "{A(B(x),S(l))><B(A(x,l))} <r|A(x,r)=B(x)>"

# One that has no bound makes fewer interactions than so many, and has fewer nodes.
NO_BOUND = 2**60


class Ran(NamedTuple):
    """How many seconds a program ran, or processors were at it, and how many MB it took at most."""

    seconds: float
    memory: float


class Kept:
    """Runs programs on a text, with what they keep in a folder."""

    def __init__(self, folder, least):
        self.least = least
        self.text, self.out, self.err, self.kept = (f"{folder}/{it}" for it in ("text", "out", "err", "kept"))

    def run(self, program, *words):
        """A run by `reduce` that ends well, or as not done."""
        command = [str(it) for it in (program, "reduce", *words, "--nodes", NO_BOUND, "--quiet-answer")]
        files = [(os.POSIX_SPAWN_OPEN, 0, self.text, os.O_RDONLY, 0)]
        files += [(os.POSIX_SPAWN_OPEN, i, it, os.O_WRONLY | os.O_CREAT | os.O_TRUNC, 0o600) for i, it in ((1, self.out), (2, self.err))]
        began = time.perf_counter()
        _, status, usage = os.wait4(os.posix_spawnp(command[0], command, os.environ, file_actions=files), 0)
        took = time.perf_counter() - began
        if os.waitstatus_to_exitcode(status) not in (0, 5):
            sys.exit(f"bench: {' '.join(command)}: {Path(self.err).read_text()}")
        return Ran(usage.ru_utime + usage.ru_stime if self.least else took, usage.ru_maxrss / 1024)

    def clear(self):
        for it in ("", ".2"):
            Path(self.kept + it).unlink(missing_ok=True)

    def turn(self, program, seconds, steps, words):
        """A run without keeps, one with keeps so many seconds apart, and a resume that makes one interaction more, if one is there."""
        plain = self.run(program, *words, "--steps", steps)
        self.clear()
        every = ["--seconds", seconds]
        kept = self.run(program, "--keep", self.kept, *every, *words, "--steps", steps)
        resumed = self.run(program, "--resume", self.kept, *every, *words, "--steps", steps + 1)
        return plain, kept, resumed


def row(*cells):
    print(f"| {' | '.join(str(it) for it in cells)} |", flush=True)


def head(*cells):
    row(*cells)
    row(*["---"] * len(cells))


def median(turns, told):
    return statistics.median(map(told, turns))


def of_nodes(size):
    """What is reduced by one thread: what it is, its text, and its interactions at most."""
    for most in (1_000_000, 10_000_000, 100_000_000):
        nodes = max(1, round(most * size))
        yield f"a net that grows to {nodes:,} nodes", GROWS, nodes
    nodes = max(9, round(1_000_000 * size))
    sums = nodes // 9
    yield f"a text of {nodes:,} nodes, eaten", f"{EATS} <r|Eat(r)={numeral(nodes)}>", NO_BOUND
    names = ",".join(f"x{it}" for it in numbers(sums))
    yield f"a text of {nodes:,} nodes, additions", f"{ADD} <{names}|{','.join(f'Add(x{it},S(S(Z)))=S(S(Z))' for it in numbers(sums))}>", NO_BOUND


def of_keeps(options, kept):
    """What keeps take by one thread, of each program."""
    head("program", "what is reduced", "seconds without keeps", "with `--keep`", "ratio", "resumed", "MB without keeps", "with `--keep`", "resumed", "memory of a resume")
    for what, text, steps in of_nodes(options.size):
        if options.only not in what:
            continue
        Path(kept.text).write_text(text)
        turns = [[kept.turn(it, 30, steps, []) for it in options.program] for _ in range(options.turns)]
        for at in range(len(options.program)):
            mine = [it[at] for it in turns]
            if options.least:
                mine = [[Ran(*map(min, zip(*of_run))) for of_run in zip(*mine)]]
            seconds = [f"{median(mine, lambda it: it[run].seconds):.2f}" for run in range(3)]
            memory = [f"{median(mine, lambda it: it[run].memory):,.0f}" for run in range(3)]
            ratio = f"{median(mine, lambda it: it[1].seconds / it[0].seconds):.2f}"
            row(at + 1, what, *seconds[:2], ratio, seconds[2], *memory, f"{median(mine, lambda it: it[2].memory / it[0].memory):.2f}")


def of_nets(size):
    """What several threads reduce."""
    number, leaves, levels = 9 + round(26 * size), 3 + round(20 * size), 3 + round(9 * size)
    yield f"Fibonacci's number {number}", f"{FIBONACCI} <r|F(r)={numeral(number)}>"
    yield f"Fibonacci's number {number} in binary", f"{BINARY} <r|F(r)={numeral(number)}>"
    yield f"a tree of 2^{leaves} leaves, built, turned and added up", f"{TREES} <r|Build(Turn(Total(r)))={numeral(leaves)}>"
    yield f"combinators that commute, trees of {levels} levels", f"{COMMUTE} <|{full('Gamma', levels)}={full('Delta', levels)}>"


def of_threads(options, kept):
    """How much faster several threads are than one, with keeps and without, by the first program."""
    program = options.program[0]
    head("what is reduced", "threads", "seconds without keeps", f"with `--keep --seconds {options.seconds}`", "faster without keeps", "with `--keep`", "ratio")
    for what, text in of_nets(options.size):
        if options.only not in what:
            continue
        Path(kept.text).write_text(text)
        turns = [{it: kept.turn(program, options.seconds, NO_BOUND, ["--workers", it])[:2] for it in (1, *options.workers)} for _ in range(options.turns)]
        for count in (1, *options.workers):
            seconds = [f"{median(turns, lambda it: it[count][run].seconds):.2f}" for run in range(2)]
            gains = [[it[1][run].seconds / it[count][run].seconds for run in range(2)] for it in turns]
            row(what, count, *seconds, *(f"{median(gains, lambda it: it[run]):.2f}" for run in range(2)), f"{median(gains, lambda it: it[1] / it[0]):.2f}")


def main():
    parser = argparse.ArgumentParser(prog="bench/kept.py", description=__doc__)
    parser.add_argument("program", nargs="+", help="the paths of programs")
    parser.add_argument("--turns", type=int, default=3, help="the median is of so many (3 if not said)")
    parser.add_argument("--seconds", type=int, default=5, help="how many seconds keeps by several threads are apart (5 if not said)")
    parser.add_argument("--workers", type=int, nargs="+", default=[2, 4], help="the threads that are compared with one (2 4)")
    parser.add_argument("--size", type=float, default=1, help="takes each number of a net times this (1 if not said)")
    parser.add_argument("--least", action="store_true", help="tells the least processor seconds of the turns, and of several threads nothing: for a machine that isn't idle")
    parser.add_argument("--only", default="", metavar="WORD", help="takes only rows that have this word")
    parser.add_argument("--folder", default=".", help="keeps the files in a new folder in this one (. if not said)")
    options = parser.parse_args()
    options.program = [os.path.abspath(it) for it in options.program]
    with tempfile.TemporaryDirectory(dir=options.folder, prefix="kept-") as folder:
        kept = Kept(folder, options.least)
        of_keeps(options, kept)
        if not options.least:
            print()
            of_threads(options, kept)


if __name__ == "__main__":
    with contextlib.suppress(KeyboardInterrupt):
        main()
