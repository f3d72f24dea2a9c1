#!/usr/bin/env python3
"""The definitions that docs/believe.md lists: the files that the headline rests on, and those of the program by crates. This
writes how many lines they have, and the sums of these, into the page. Runs at the top of the repository."""

import re
from pathlib import Path

import floors

PAGE = Path("docs/believe.md")
# Of what the headline speaks.
FIRST = [("ic_lives", "Headline"), ("ic_book", "Server"), ("ic_disk", "DiskCalls")]


def counted():
    """How many lines each file of definitions has, by its crate and name."""
    paths = [it for it in Path("crates").glob("*/specs/*.antt") if it.stem not in ("Lib", "inner", "lemmas")]
    return {(it.parts[1], it.stem): it.read_text().count("\n") for it in paths}


def rested_on(lines):
    """The files that the headline rests on, also through others."""
    found = list(FIRST)
    for crate, file in found:
        text = Path("crates", crate, "specs", f"{file}.antt").read_text()
        used = [it for it in re.findall(r"(?m)^use Rattle\.(\w+)\.specs\.(\w+)", text) if it in lines]
        found += [it for it in dict.fromkeys(used) if it not in found]
    return found


def believed():
    """The lines of the files that the headline rests on, and of each crate of the program those of its further files."""
    lines, program, others = counted(), ["icserve"], {}
    for crate in program:
        program += [it for it in floors.uses()[crate] if it not in program]
    headline = {it: lines[it] for it in rested_on(lines)}
    for (crate, file), count in lines.items():
        if crate in program and (crate, file) not in headline:
            others.setdefault(crate, []).append(count)
    return headline, others


def cells_of(line):
    """The crate of a row of the page, and the files that it names, or none where the line is no row of a crate."""
    cells = line.split("|")
    if len(cells) != 5 or not re.fullmatch(r" `\w+` ", cells[1]):
        return None, []
    return cells[1].strip(" `"), re.findall(r"`(\w+)` \d+", cells[3])


def unnamed():
    """What stands in one of specs/ and the page alone, by crate and file, or by crate."""
    headline, others = believed()
    rows = [cells_of(line) for line in PAGE.read_text().split("\n")]
    told = {(crate, file) for crate, files in rows if crate for file in files or [""]}
    return sorted(told ^ {*headline, *((crate, "") for crate in others)})


def row(line, headline, others):
    """A line of the page, with the numbers as they are where it is the row of a crate."""
    crate, files = cells_of(line)
    for file in files:
        line = re.sub(rf"`{file}` \d+", f"`{file}` {headline.get((crate, file), 0)}", line)
    count = sum(headline.get((crate, it), 0) for it in files) if files else sum(others.get(crate, []))
    return re.sub(r"^(\| `\w+` \|) \d+ \|", rf"\1 {count} |", line) if crate else line


def sums(headline, others):
    """What the page says of all files that the headline rests on, and of all further files."""
    own, rest, further = sum(headline.values()), sum(map(sum, others.values())), sum(map(len, others.values()))
    yield f"stand in {len(headline)} files with {own:,} lines"
    yield f"stands in {further} further files with {rest:,} lines, so in all {own + rest:,}:"


def written():
    """The page, with the numbers as they are, or None where it doesn't say the sums."""
    headline, others = believed()
    text = "\n".join(row(line, headline, others) for line in PAGE.read_text().split("\n"))
    for said in sums(headline, others):
        text = re.sub(re.sub(r"[\d,]+", r"[\\d,]+", said), said, text)
    return text if all(it in text for it in sums(headline, others)) else None


if __name__ == "__main__":
    PAGE.write_text(written())
