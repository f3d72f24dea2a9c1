#!/usr/bin/env python3
"""What the proofs of crates cost, by what their last check from nothing kept in out/incremental.

usage: python3 checks/costs.py [--least SECONDS] NAME..

For each function that took so long (3 seconds, if it isn't said) a line tells the seconds, the bytes
that were kept of it, and its three dearest parts: Lts is its code, Proof the search for its proofs, and
Tie what joins the two. Seconds are those between two files that were kept, so they hold for a check by
one job on an idle machine. Bytes hold always: a million takes some 1.3 seconds."""

import collections
import re
import sys
from pathlib import Path

# The last words of the names of modules that belong to a function.
PARTS = set("Answers Code Given Goals Key Kinds Layout Lts Met Mir Named Proof Reads Statement Symbol Tie View".split())


def function_of(name, crate):
    """The function to which a kept file belongs, and its part, or none."""
    words = name.removesuffix(".oantt").split(".")
    part = re.sub("-.*", "", words[-1])
    if words[0] != f"Rattle-{crate}-proofs" or "TheLinks" in words or len(words) < 3:
        return None
    while words and (words[-1] in PARTS or re.match("(Lts|Kinds|Carried)-", words[-1])):
        words.pop()
    return ".".join(words[1:]), part


def costs(crate):
    """For each function of a crate its seconds by parts, and its bytes; and the seconds of all else."""
    folders = sorted((Path(__file__).resolve().parents[1] / "crates" / crate / "out/incremental").glob("*"))
    if not folders:
        sys.exit(f"costs: nothing is kept of {crate}: run `rt check --jobs 1` there, with no out/ before")
    files = sorted((it.stat().st_mtime, it.name, it.stat().st_size) for it in folders[-1].glob("*.oantt"))
    seconds, sizes, others = collections.defaultdict(collections.Counter), collections.Counter(), 0
    before = files[0][0]
    for time, name, size in files:
        found = function_of(name, crate)
        if found:
            seconds[found[0]][found[1]] += time - before
            sizes[found[0]] += size
        else:
            others += time - before
        before = time
    return seconds, sizes, others


def main(words):
    if not words or words[0] in ("-h", "--help"):
        print(__doc__)
        return 0 if words else 2
    least = 3.0
    if words[0] == "--least":
        least, words = float(words[1]), words[2:]
    for crate in words:
        seconds, sizes, others = costs(crate)
        total = sum(it.total() for it in seconds.values())
        print(f"{crate}: {len(seconds)} functions and types, {total:.0f} s, {sum(sizes.values()) / 1e6:.0f} MB; all else {others:.0f} s")
        for name, parts in sorted(seconds.items(), key=lambda it: -it[1].total()):
            if parts.total() >= least:
                dearest = " ".join(f"{part} {took:.1f}" for part, took in parts.most_common(3))
                print(f"{parts.total():8.1f} s {sizes[name] // 1000:6} KB  {name}: {dearest}")
    return 0


if __name__ == "__main__":
    sys.exit(main(sys.argv[1:]))
