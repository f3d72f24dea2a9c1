#!/usr/bin/env python3
"""The floors of crates.txt, and their picture docs/floors.svg, which this writes. Runs at the top of the repository."""

import re
from pathlib import Path

BOX, HIGH, GAP = 330, 76, 26  # how wide and how high the box of a floor is, and how far from the next one
# The row of each floor in the picture, from below, and its column; none is the whole row.
PLACES = {"Calculus": (0, None), "Texts": (1, None), "Machine": (2, 0), "Rounds": (2, 1), "Store": (3, 1), "Serving": (4, 1)}
PLACES |= {"Tools": (5, 0), "Laws": (5, 1), "Rows": (6, None)}


def uses():
    """What each crate of crates.txt uses, in the order of its lines."""
    found = re.findall(r"(?m)^(\w+) *:(.*)", Path("crates.txt").read_text())
    return {name: [it for it in used.split() if it in dict(found)] for name, used in found}


def kit():
    """The libraries of the kit that crates.txt lists."""
    found = re.findall(r"(?m)^(\w+) *:(.*)", Path("crates.txt").read_text())
    return {it for _, used in found for it in used.split()} - {name for name, _ in found}


def builds_on():
    """What each crate uses, without what another one of these uses too, also through others."""
    used, all_used = uses(), {}
    for name, direct in used.items():
        all_used[name] = set(direct).union(*(all_used.get(it, set()) for it in direct))
    through = {name: set().union(*(all_used.get(it, set()) for it in direct)) for name, direct in used.items()}
    return {name: [it for it in direct if it not in through[name]] for name, direct in used.items()}


def floors():
    """The crates of each floor: of each heading of crates.txt the lines after it."""
    found = {}
    for heading, crate in re.findall(r"(?m)^# (\w+): .*|^(\w+) *:", Path("crates.txt").read_text()):
        if heading:
            found[heading] = []
        else:
            found[list(found)[-1]].append(crate)
    return found


def floors_used():
    """Which other floors each floor uses, also through others."""
    floor_of = {crate: floor for floor, crates in floors().items() for crate in crates}
    found = {floor: set() for floor in floors()}
    for crate, used in uses().items():
        below = {floor_of[it] for it in used} - {floor_of[crate]}
        found[floor_of[crate]] |= below.union(*(found[it] for it in below))
    return found


def lines_of_crates(crates):
    """The names of these crates, in lines that a box has room for."""
    lines = [""]
    for name in crates:
        if len(lines[-1]) + len(name) > 52:
            lines.append("")
        lines[-1] = f"{lines[-1]} {name}".strip()
    return lines


def box(floor, crates, x, y, wide):
    """The box of a floor at a place: its name, and its crates without `ic_`."""
    names = lines_of_crates([it.removeprefix("ic_") for it in crates])
    texts = [f'<text x="{x + 12}" y="{y + 36 + 14 * i}" font-size="11">{it}</text>' for i, it in enumerate(names)]
    return [
        f'<rect x="{x}" y="{y}" width="{wide}" height="{HIGH}" fill="none" stroke="black"/>',
        f'<text x="{x + 12}" y="{y + 19}" font-size="14" font-weight="bold">{floor}</text>',
        *texts,
    ]


def arrow(left, low, high, is_turned):
    """An arrow from the lower edge of a box to the upper edge of another, to the right where it is turned."""
    ends = (left + BOX - 30, left + BOX + GAP + 30) if is_turned else (left + BOX // 2, left + BOX // 2)
    return f'<line x1="{ends[0]}" y1="{low}" x2="{ends[1]}" y2="{high - 3}" stroke="black" marker-end="url(#arrow)"/>'


def picture():
    """The floors as boxes, and an arrow from each to those that it uses and no other one that it uses does."""
    below, boxes, arrows = floors_used(), [], []
    top = max(row for row, _ in PLACES.values())
    for floor, crates in floors().items():
        row, column = PLACES[floor]
        x, y = 10 + (column or 0) * (BOX + GAP), 10 + (top - row) * (HIGH + GAP)
        boxes += box(floor, crates, x, y, 2 * BOX + GAP if column is None else BOX)
        for it in sorted(below[floor] - set().union(*(below[one] for one in below[floor]))):
            used_row, used_column = PLACES[it]
            side = next((one for one in (column, used_column) if one is not None), 0)
            is_turned = (column, used_column) == (0, 1)
            arrows.append(arrow(10 + side * (BOX + GAP), y + HIGH, 10 + (top - used_row) * (HIGH + GAP), is_turned))
    size = f'width="{2 * BOX + GAP + 20}" height="{(top + 1) * (HIGH + GAP)}"'
    tip = '<path d="M0 0L8 4L0 8z"/>'
    head = f'<marker id="arrow" markerWidth="9" markerHeight="8" refX="7" refY="4" orient="auto">{tip}</marker>'
    frame = f'<svg xmlns="http://www.w3.org/2000/svg" {size} font-family="sans-serif">'
    said = "<title>The floors of crates.txt: an arrow leads from a floor to one that it uses</title>"
    return "\n".join([frame, said, f"<defs>{head}</defs>", f'<rect {size} fill="white"/>', *boxes, *arrows, "</svg>", ""])


if __name__ == "__main__":
    Path("docs/floors.svg").write_text(picture())
