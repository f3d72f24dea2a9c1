#!/usr/bin/env python3
"""Checks what no prover sees: where that stands which a reader has to believe, and how the docs read. Runs at the top of
the repository. Prints the file and line of each fault, and last how many checks passed."""

import fnmatch
import re
import sys
from pathlib import Path

import believe
import floors


def lines_of(*patterns):
    """Each line of these files, with its file and number."""
    for path in sorted(it for pattern in patterns for it in Path(".").glob(pattern)):
        for number, line in enumerate(path.read_text().split("\n"), 1):
            yield path, number, line


def sources():
    return lines_of("crates/*/src/**/*.rt", "crates/*/specs/**/*.antt", "crates/*/proofs/**/*.antt")


def proofs_are_cited_at_home():
    """No crate cites another's proofs, nor what stands in its specs/inner. That a type may cross threads is in no file:
    the check writes it, as `TheSendSync` and `TheKnot`."""
    for path, number, line in sources():
        cited = re.sub(r"Rattle\.ic_\w+\.proofs\.\S+\.(?:TheSendSync|TheKnot)\b", "", line)
        for crate, part in re.findall(r"Rattle\.(ic_\w+)\.(proofs|specs\.inner)\b", cited):
            if crate != path.parts[1]:
                yield path, number, f"cites {part} of {crate}"


def definitions_stand_by_themselves():
    """What stands right in specs/ is definitions, and rests on definitions. A value `coded_..` may stand beside them."""
    for path, number, line in lines_of("crates/*/specs/*.antt"):
        rests = re.match(r"use Rattle\.ic_\w+\.specs\.(?:lemmas|inner)\b[^{]*\{?([^}]*)", line)
        if rests and not all(it.strip().startswith("coded_") for it in rests[1].split(",")):
            yield path, number, "rests on what is proved of definitions"
        lemma = re.match(r"(?!use |--)(?:pub )?([^\s:]+) +:(?: |$)", line)
        values = re.findall(r"(?m)^coded_.*(?:\n .*)*", path.read_text()) if lemma else []
        if lemma and not lemma[1].startswith("coded_") and not any(lemma[1] in it for it in values):
            yield path, number, f"{lemma[1]} is no definition: its place is specs/lemmas or specs/inner"


def public_clauses_cite_definitions():
    """No clause of a public function of a library cites what stands in specs/inner."""
    public, inner, owner, is_clause = set(), set(), "", False
    for path, number, line in lines_of("crates/*/src/**/*.rt"):
        if number == 1:
            root = Path(*path.parts[:3], "lib.rt")
            shown = re.findall(r"pub (?:use|mod) ([^;]*);", root.read_text() if root.exists() else "")
            public, inner, owner, is_clause = set(re.findall(r"\w+", " ".join(shown))), set(), "", False
        uses = re.match(r"\s*ghost use Rattle\.\w+\.specs\.inner\.\w+\.\{(.*)\};", line)
        inner |= {it.strip() for it in uses[1].split(",")} if uses else set()
        block = re.match(r"impl(?:<.*?>)? (?:.* for )?(\w+)|\}", line)
        owner = block[1] or "" if block else owner
        function = re.match(r"\s*(pub )?fn (\w+)", line)
        if function:
            is_clause = bool(function[1] and {owner or function[2], path.stem} & public)
        for name in sorted(inner & set(re.findall(r"[\w-]+", line)) if is_clause and not function else []):
            yield path, number, f"a public clause cites {name} of specs/inner"
        is_clause = is_clause and not re.match(r"\s*\{ ?\}?$", line) and not re.search(r"\) .*\{$", line)


def files_say_what_they_hold():
    """Each file of src/ begins with a line `//!`."""
    for path, number, line in lines_of("crates/*/src/**/*.rt"):
        if number == 1 and not line.startswith("//!"):
            yield path, number, "doesn't begin with a line //!"


def calls_of_a_book_are_steps():
    """Each public call that may change or close a book says by its clause `step` which move of a server it is."""
    calls = 0
    desk = Path("crates/ic_book/src")
    for path in sorted([*desk.glob("book*.rt"), *desk.glob("book*/**/*.rt")]):
        number = 1
        for part in re.split(r"(?m)^(?= *(?:pub(?:\(\w+\))? )?fn )", path.read_text()):
            call = re.match(r" *pub fn (\w+)\(\s*(?:&mut |mut )?self\b", part)
            calls += bool(call)
            if call and "ensures step " not in part:
                yield path, number, f"{call[1]} has no clause step"
            number += part.count("\n")
    if not calls:
        yield desk, 1, "has no call that changes a book"


def the_longest_form_is_said_once():
    """Code and clauses say how long a table's form is by a constant, but for its definition and the law of the limits."""
    for path, number, line in sources():
        is_said = re.search(r"\b3_?036_?421\b", line) and not re.search(r"const MAX_\w+:|MAX_\w+ ≡", line)
        if is_said and path.parts[2] != "proofs":
            yield path, number, "says MAX_BYTES as a number"


def layers_are_as_built():
    """docs/layers.md has a row for each crate, under the heading and in the order of crates.txt, with the crates of this
    repository that it builds on. A crate uses those of the lines before its own alone. The page also names each library of
    the kit that crates.txt lists."""
    built, told, heading, kit = floors.uses(), {}, "", {}
    wanted = floors.builds_on()
    floor_of = {crate: floor for floor, crates in floors.floors().items() for crate in crates}
    for path, number, line in lines_of("docs/layers.md"):
        heading = line[3:] if line.startswith("## ") else heading
        cells = [re.findall(r"`(\w+)`", it) for it in line.split("|")]
        if len(cells) >= 5 and len(cells[1]) == 1:
            name = cells[1][0]
            told[name] = number
            if name in built and (set(cells[3]), heading) != (set(wanted[name]), floor_of[name]):
                builds_on = " ".join(wanted[name]) or "-"
                yield path, number, f"by crates.txt {name} stands on {floor_of[name]} and builds on {builds_on}"
        if line.startswith("`crates.txt` also names the libraries of the kit"):
            kit = dict.fromkeys(re.findall(r"`(\w+)`", line), number)
    for name in sorted(floors.kit() ^ set(kit)):
        yield Path("docs/layers.md"), kit.get(name, 1), f"the library {name} stands in one of crates.txt and this page alone"
    for name in sorted(set(built) ^ set(told)):
        yield Path("docs/layers.md"), told.get(name, 1), f"{name} stands in one of crates.txt and this table alone"
    order = list(built)
    for name in order:
        if set(built[name]) - set(order[: order.index(name)]):
            yield Path("crates.txt"), 1, f"{name} uses a crate of a line after it"
    if [it for it in told if it in built] != [it for it in order if it in told]:
        yield Path("docs/layers.md"), 1, "its rows stand in another order than the lines of crates.txt"


def the_floors_are_drawn():
    """docs/floors.svg is the picture of the floors of crates.txt."""
    if Path("docs/floors.svg").read_text() != floors.picture():
        yield Path("docs/floors.svg"), 1, "is another picture than that of crates.txt: python3 checks/floors.py draws it"


def what_is_believed_is_counted():
    """docs/believe.md names the files of definitions that the headline rests on, and those of the program by crates, with
    their lines and the sums of these."""
    for crate, file in believe.unnamed():
        yield believe.PAGE, 1, f"{crate} {file} stands in one of specs/ and this page alone"
    if believe.written() != believe.PAGE.read_text():
        yield believe.PAGE, 1, "has other numbers, or doesn't say their sums: python3 checks/believe.py writes them"


def calls_that_may_wait_are_told():
    """The row of docs/promises.md on calls that return names just the public calls that wait, by their bound `Wait`, or for the
    threads that they say they join."""
    waits, told = {"Wait"}, set()
    for path in Path("crates").glob("*/src/**/*.rt"):
        text = path.read_text()
        for call in re.finditer(r"(?m)^( *)pub fn (\w+)<([^(]*)\(", text):
            owner = re.findall(r"(?m)^impl(?:<.*?>)? (\w+)", text[: call.start()])[-1] if call[1] else ""
            is_shown = f"pub struct {owner}" in text if owner else True
            may_wait = re.search(r"\bWait\b", call[3]) or text[: call.start()].endswith("joins their threads.\n")
            if may_wait and is_shown and not path.parts[1].endswith("_rows"):
                waits.add(f"{owner}::{call[2]}".removeprefix("::"))
    for path, number, line in lines_of("docs/promises.md"):
        if line.startswith("| each function without the bound `Wait` returns |"):
            told = set(re.findall(r"`([\w:]+)`", line))
            for name in sorted(waits ^ told):
                yield path, number, f"{name} stands in one of this row and the code alone"
    if not told:
        yield Path("docs/promises.md"), 1, "has no row on calls that return"


def further_edits_apply():
    """Each text that an edit of checks/edits/ puts another in the place of stands once in its file, and docs/wrong-bodies.md
    names each edit."""
    named = re.findall(r"`(\w+_[\w*]*)`", Path("docs/wrong-bodies.md").read_text())
    for edit in sorted(Path("checks/edits").glob("*/*.edit")):
        if not any(fnmatch.fnmatch(edit.stem, it) for it in named):
            yield edit, 1, "isn't named in docs/wrong-bodies.md"
        place, lines = Path("crates") / edit.parent.name, edit.read_text().split("\n")
        path = None
        for number, line in enumerate(lines, 1):
            if line.startswith("file: "):
                path = place / line[len("file: "):].strip()
            old = line[len("old: "):] if line.startswith("old: ") else None
            if old is not None and not (path and path.is_file() and path.read_text().count(old) == 1):
                yield edit, number, f"its text doesn't stand once in {path}"


def texts(path):
    """The paragraphs, headings, items of lists and cells of tables of a page, each as its words with their lines."""
    found, is_code, is_open = [], False, False
    for _, number, line in lines_of(str(path)):
        is_fence = line.startswith("```")
        is_code ^= is_fence
        marked = re.match(r"(#+|[-*>]|\d+\.) |\|", line.strip())
        is_more = is_open and not marked
        is_open = bool(line.strip()) and not (is_code or is_fence or (line.startswith("    ") and not is_open))
        cells = re.split(r"(?<!\\)\|", re.sub(r"`[^`]*`", "code", line))
        for words in [[(number, it) for it in cell.split()] for cell in cells if is_open]:
            found = found[:-1] + [found[-1] + words] if is_more else found + [words]
    return found


def sentences_are_short():
    """A sentence of the docs has at most 40 words; what stands between backquotes is one word."""
    for path in [*sorted(Path(".").glob("*.md")), *sorted(Path("docs").rglob("*.md"))]:
        for words in texts(path):
            first, count = 0, 0
            for place, (number, word) in enumerate(words, 1):
                first, count = first or number, count + bool(re.search(r"\w", word))
                if re.search(r"[.?!][)\"*]*$", word) or place == len(words):
                    if count > 40:
                        yield path, first, f"a sentence of {count} words"
                    first, count = 0, 0


def paragraphs_are_short():
    """A paragraph of the docs, an item of a list and a cell of a table have at most 80 words."""
    for path in [*sorted(Path(".").glob("*.md")), *sorted(Path("docs").rglob("*.md"))]:
        for words in texts(path):
            count = sum(bool(re.search(r"\w", word)) for _, word in words)
            if count > 80:
                yield path, words[0][0], f"a paragraph of {count} words"


def main():
    checks = [proofs_are_cited_at_home, definitions_stand_by_themselves, public_clauses_cite_definitions]
    checks += [files_say_what_they_hold, calls_of_a_book_are_steps, the_longest_form_is_said_once]
    checks += [layers_are_as_built, the_floors_are_drawn, what_is_believed_is_counted, calls_that_may_wait_are_told]
    checks += [further_edits_apply, sentences_are_short, paragraphs_are_short]
    failed = 0
    for check in checks:
        faults = list(check())
        for path, number, text in faults:
            print(f"{path}:{number}: {text}")
        failed += bool(faults)
        print(f"layout: {check.__name__.replace('_', ' ')}: {'FAILED' if faults else 'ok'}")
    print(f"{len(checks) - failed} passed, {failed} failed")
    return 1 if failed else 0


if __name__ == "__main__":
    sys.exit(main())
