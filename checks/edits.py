#!/usr/bin/env python3
"""Tries further wrong bodies, which the prover must refuse: python3 checks/edits.py [CRATE..]. They stand in checks/edits/,
a folder for each crate, and are written as those of crates/NAME/must-fail/, which the gate tries. Proves a crate first,
where it isn't proved yet."""

import os
import shutil
import subprocess
import sys
import tempfile
from pathlib import Path

TOP = Path(__file__).resolve().parent.parent
RT = shutil.which("rt") or "/opt/rattle/bin/rt"


def libraries():
    """What each crate of crates.txt uses."""
    lines = (line.split("#")[0] for line in (TOP / "crates.txt").read_text().split("\n"))
    return {name.strip(): used.split() for name, _, used in (line.partition(":") for line in lines) if name.strip()}


def with_all_below(name, used):
    """A crate and those that it stands on, which are in this repository."""
    found, left = [], [name]
    while left:
        crate = left.pop()
        if crate in used and crate not in found:
            found.append(crate)
            left += used[crate]
    return found


def try_edits(name, used):
    """Tries a crate's further edits in a room that has what its check reads as hard links. Returns the status of `rt`."""
    out = TOP / "crates" / name / "out"
    out.mkdir(exist_ok=True)
    with tempfile.TemporaryDirectory(prefix="edits-", dir=out) as room:
        for crate in with_all_below(name, used):
            to = Path(room) / "crates" / crate
            (to / "out").mkdir(parents=True)
            for part in ["src", "specs", "proofs", "out/rlib"] + ["out/incremental"] * (crate == name):
                if (TOP / "crates" / crate / part).exists():
                    shutil.copytree(TOP / "crates" / crate / part, to / part, copy_function=os.link)
        (Path(room) / "crates.txt").write_text("".join(f"{it}: {' '.join(used[it])}\n" for it in with_all_below(name, used)))
        shutil.copytree(TOP / "checks" / "edits" / name, Path(room) / "crates" / name / "must-fail")
        return subprocess.call([RT, "must-fail", name], cwd=room)


def main():
    used, tried = libraries(), sorted(it.name for it in (TOP / "checks" / "edits").iterdir())
    names = sys.argv[1:] or tried
    if not set(names) <= set(tried):
        sys.exit(f"{__doc__}\nIt has edits of {' '.join(tried)}.")
    return max([try_edits(name, used) for name in names], default=0)


if __name__ == "__main__":
    sys.exit(main())
