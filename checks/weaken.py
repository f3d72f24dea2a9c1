#!/usr/bin/env python3
"""Finds facts of definitions on which nothing rests. `python3 checks/weaken.py [CRATE..]` lists those fields of records of
specs/ that no proof of their crate or of one above uses, as far as their names tell; it checks nothing. A law that the
prover found by itself may use them all the same. A fact that proofs only carry, from one value of its record to another,
counts as used: the law shrinks with it. With `--carried` those are listed too that are taken only where a value with such a
field is built; what definitions that are no records say may be carried unseen. `python3 checks/weaken.py --cases CRATE..`
lists the cases of definitions: an equation (`1`), a side of its `⊎` or `×` (`1/2`), which where it says nothing is a
disjunct that always holds, or a conjunct less, and a premise of a constructor (`name/2`). `python3 checks/weaken.py --try
CRATE FACT..` takes facts or cases out that are named as they are listed, also of crates below, checks the crate in a room of
hard links, and tells which proofs miss one of them. `python3 checks/weaken.py --premises CRATE..` lists definitions that
public clauses only assume, so that `⊥` in them empties a law unseen, and those that they only conclude, so that they may say
nothing. A definition that a clause both assumes and concludes is carried: that clause uses it for neither. With `--never`,
`--try` puts `⊥` in the place of facts."""

import argparse
import os
import re
import shutil
import subprocess
import tempfile
from collections import defaultdict
from pathlib import Path

from edits import RT, TOP, libraries, with_all_below

WORD = re.compile(r"[A-Za-z_][\w'-]*")
RECORD = re.compile(r"^( *)(?:pub )?record (\S+)(?:.|\n)*? where\n((?:\1  .*\n|\s*\n)*)", re.M)
DEFINITION = re.compile(r"^ *(?:(?:abbrev|unfoldable) (?:pub )?|(?:pub )?data )(\S+)((?:.|\n(?=[ ]|\1\b))*)", re.M)
LEMMA = re.compile(r"^(?:pub )?([A-Za-z_]\S*) : ((?:.|\n(?=  ))*)", re.M)
ERROR = re.compile(r"^(?:note: )?(?:\./)?(\S+?\.(?:antt|rt)):(\d+):\d+: (?:error: (?!.*that depend)|(?=it is not))(.*(?:\n  .*)*)", re.M)
IMPORTS = re.compile(r"use Rattle\.(\w+)\.specs\.[\w.]+\.\{([^}]*)\}")
CITES = re.compile(r"\bRattle\.(\w+)\.specs\.(\w+)(?=[.\s;]*(?:\{|;|as\b|\n))")  # a module of definitions: crate and name
STATES = re.compile(r"^( *)(?:abbrev )?pub (\S+) : (?:.|\n\1 )*?Type 0\n((?:\1\2 (?:.|\n\1 )*\n)+)", re.M)
DATA = re.compile(r"^( *)pub data (\S+)(?:.|\n\1 )*? where\n((?:\1  .*\n)+)", re.M)
BINDERS = re.compile(r"\s*(?:[({][^():]+ : (?:[^()]|\([^()]*\))*[)}]\s*)+")
NOTHING, NEVER = "Unit {0}", "⊥"  # in the place of a fact
SAYS = re.compile(r"^( *)(?:abbrev )?pub (\S+) : ((?:.|\n\1 )*?Type 0)\n((?:\1\2 (?:.|\n\1 )*\n)+)", re.M)


def plain(path):
    """A file without its comments, and without what it imports."""
    return re.sub(r"^[ \t]*(?:--|//).*\n|^(?:ghost )?use .*\n", "", path.read_text(), flags=re.M)


def fields(text):
    """The records of a file, with the names and the types of their fields."""
    for found in RECORD.finditer(text):
        indent = len(found[1]) + 2
        field = r"^ {%d}(?:pub )?(\S+) : ((?:.|\n(?! {0,%d}\S))*)" % (indent, indent)
        yield found[2], [(it[1], " ".join(it[2].split())) for it in re.finditer(field, found[3], re.M)]


def is_fact(kind):
    """Whether a field of this type says something: it is no list, number or other part of a value."""
    return bool(re.search(r"[≡≢≤<↔⊎×¬→]|^[A-Z]\w* \S", kind)) and not re.match(r"(List|Option|Result|ℕ)\b", kind)


def clauses(text):
    """The clauses of a file of code: function, name of the clause or `ensures`, and what it says."""
    starts = [*re.finditer(r"\bfn (\w+)", text)]
    for start, end in zip(starts, [*(it.start() for it in starts[1:]), len(text)]):
        body = text[start.start() : end]
        for found in re.finditer(r"(ensures|requires|invariant)(?: (\w+))? \{", body):
            depth, at = 1, found.end()
            while depth and at < len(body):
                depth += (body[at] == "{") - (body[at] == "}")
                at += 1
            yield start[1], found[2] or found[1], body[found.end() : at - 1]


def builds(text, name, at):
    """Whether the declaration in which a field is taken builds a value with a field of this name."""
    start, end = text.rfind("\n\n", 0, at), text.find("\n\n", at)
    return re.search(r"[{;]\s*%s = " % re.escape(name), text[max(start, 0) : end if end >= 0 else None])


class Tree:
    """What the proofs of the repository use, by the names in their texts."""

    def __init__(self):
        self.used, crates = libraries(), TOP / "crates"
        self.below = {it: set(with_all_below(it, self.used)) for it in self.used}
        self.said, self.inside, self.calls, self.lemmas = defaultdict(str), defaultdict(str), defaultdict(str), defaultdict(str)
        self.proofs, self.facts, self.words = defaultdict(dict), [], {}
        for crate in self.used:
            for path in sorted((crates / crate / "specs").rglob("*.antt")) + sorted((crates / crate / "proofs").rglob("*.antt")):
                text = plain(path)
                for name, rest in DEFINITION.findall(text):
                    self.inside[name] += " " + rest
                for record, parts in fields(text):
                    for name, kind in parts:
                        self.said[name] += " " + kind
                        if path.parent == crates / crate / "specs" and is_fact(kind):
                            self.facts.append((crate, path.stem, record, name, kind))
                if "proofs" in path.parts or "lemmas" in path.parts:
                    self.proofs[crate][path] = text
                    for name, kind in LEMMA.findall(text):
                        self.lemmas[name] += " " + kind
            for path in (crates / crate / "src").rglob("*.rt"):
                for function, name, says in clauses(plain(path)):
                    self.said[name] += " " + says
                    self.calls[function] += " " + says

    def names(self, key, text):
        """The words of a text, and those of the definitions that it names."""
        if key not in self.words:
            found = new = set(WORD.findall(text))
            for _ in range(3):
                new = set(WORD.findall(" ".join(self.inside[it] for it in new if it in self.inside and it[0].isupper()))) - found
                found = found | new
            self.words[key] = found
        return self.words[key]

    def may_be(self, record, path, text, at):
        """Whether the field that is taken at this place may be one of this record."""
        before = re.search(r"((?:[A-Za-z_][\w'-]*|\d+|[)\]])(?:\.(?:[A-Za-z_][\w'-]*|\d+))*)$", text[max(0, at - 200) : at])
        steps = [it for it in before[1].split(".") if not it.isdigit()] if before else []
        if not steps:
            return True
        last = steps[-1] if steps[-1] in self.said else re.sub(r"-.*", "", steps[-1])
        if record in self.names(("step", last), self.said[last] + self.calls[last]) or len(steps) > 1:
            return record in self.names(("step", last), "")
        bound = " ".join(re.findall(r"[({][^(){}:]*\b" + re.escape(steps[-1]) + r"\b[^(){}:]*: ([^)}]*)", text)) if WORD.match(last) else ""
        callees = " ".join(self.calls[it.split("-")[0]] for it in set(re.findall(r"\bc\.([A-Za-z_]\w*)", text)))
        own = " ".join(self.calls[part] for part in path.parts)
        cited = " ".join(self.lemmas[it] for it in set(WORD.findall(text)) if it in self.lemmas) if last in ")]" else ""
        return record in self.names(("bound", path, last), bound) or record in self.names(path, f"{text} {own} {callees} {cited}")

    def unused(self, chosen, carried):
        """The facts that no proof uses. To hand a field on to one of the same name is no use; with `carried`, neither is to take
        it where a value with such a field is built."""
        for crate, module, record, name, kind in self.facts:
            above = [it for it in self.used if crate in self.below[it] and (not chosen or crate in chosen)]
            taken = re.compile(r"(?<!\.ensures)" * carried + r"\." + re.escape(name) + r"(?![\w'-])")
            handed = re.compile(r"\b" + re.escape(name) + r" = [\w.]+\." + re.escape(name) + r"(?=\s*[;},])")
            texts = ((path, handed.sub("", text)) for other in above for path, text in self.proofs[other].items())
            uses = ((path, text, it.start()) for path, text in texts for it in taken.finditer(text))
            if above and not any(self.may_be(record, *it) for it in uses if not (carried and builds(it[1], name, it[2]))):
                yield f"{crate}.{module}.{record}.{name} : {kind[:100]}"


def used(text, sign=1):
    """The words of a type, each with 1 where it is concluded, -1 where it is assumed, and 0 where it is both: on one side of `↔`."""
    text = text.strip()
    for mark in "→↔⊎×":
        parts = [text[slice(*it)] for it in parted(text, mark, 0, len(text))]
        if len(parts) > 1 and mark == "↔":
            sides = [{name for name, _ in used(part)} for part in parts]
            for name in set.union(*sides):
                yield from [(name, 0)] if sum(name in it for it in sides) == 1 else [(name, 1), (name, -1)]
            return
        if len(parts) > 1:
            for part in parts[:-1]:
                yield from used(part, -sign if mark == "→" else sign)
            yield from used(parts[-1], sign)
            return
    if text.startswith("¬"):
        yield from used(text[1:], -sign)
        return
    depth, start = 0, 0
    for at, letter in enumerate(text):
        if letter in "([{":
            start = start if depth else at + 1
            depth += 1
        elif letter in ")]}":
            depth -= 1
            if depth == 0:
                yield from used(re.sub(r"^\s*(?:λ[^.]*\.|[^():→]* : )", "", text[start:at]), sign)
        elif depth == 0 and (at == 0 or not re.match(r"[\w'-]", text[at - 1])):
            found = WORD.match(text, at)
            if found:
                yield found[0], sign


def definitions(text):
    """What the definitions of a file are made of: each name, with the types that it says."""
    for found in SAYS.finditer(text):
        each = re.compile(r"^%s%s (?:.|\n%s )*" % (found[1], re.escape(found[2]), found[1]), re.M)
        ends = ((it, next(parted(text, "=", it.start(), it.end()))[1]) for it in each.finditer(text, found.start(4), found.end(4)))
        yield found[2], [text[end + 1 : it.end()] for it, end in ends]
    for name, parts in fields(text):
        yield name, [kind for _, kind in parts]
    for found in DATA.finditer(text):
        parts = re.findall(r"^%s  \S+ :((?:.|\n%s   )*)" % (found[1], found[1]), found[3], re.M)
        yield found[2], [it for part in parts for it in part.split("→")[:-1]]


class Uses:
    """Whether clauses assume or conclude what definitions say."""

    def __init__(self):
        self.inside, self.of, self.homes = defaultdict(list), {}, defaultdict(set)
        crates = TOP / "crates"
        specs = [(it, path) for it in libraries() for path in sorted((crates / it / "specs").rglob("*.antt"))]
        for crate, path in specs:
            for name, _ in definitions(plain(path)):
                self.homes[name].add(crate)
        for crate, path in specs:
            for name, parts in definitions(self.told_apart(crate, path)):
                self.inside[name] += parts
                if path.parent == crates / crate / "specs":
                    self.of.setdefault(name, f"{crate}.{path.stem}")
        self.signs = {name: {it for part in parts for it in used(part) if it[0] in self.inside} for name, parts in self.inside.items()}
        self.assumed, self.concluded = set(), set()
        for crate in libraries():
            for path in (crates / crate / "src").rglob("*.rt"):
                for _, kind, says in clauses(self.told_apart(crate, path)):
                    self.add(says, kind in ["requires", "invariant"])

    def told_apart(self, crate, path):
        """A file without its imports, in which a name that several crates define has its crate after it."""
        names = {it: (it, crate) for it, _ in definitions(plain(path))}
        for of, listed in IMPORTS.findall(path.read_text()):
            parts = (it.strip().partition(" as ") for it in listed.split(","))
            names |= {local or name: (name, of) for name, _, local in parts}
        names = {it: f"{name}'{of}" for it, (name, of) in names.items() if len(self.homes[name]) > 1}
        return WORD.sub(lambda found: names.get(found[0], found[0]), plain(path))

    def all_of(self, says):
        """The definitions in a clause, and those in what they say, each with how it is used."""
        left = [it for it in used(says) if it[0] in self.inside]
        found = set(left)
        while left:
            name, sign = left.pop()
            more = {(it, sign * of) for it, of in self.signs[name]} - found
            found |= more
            left += more
        return found

    def add(self, says, is_both):
        found = self.all_of(says)
        yes, no, both = ({it for it, sign in found if sign == of} for of in [1, -1, 0])
        self.concluded |= both | (yes | no if is_both else yes - no)
        self.assumed |= both | (yes | no if is_both else no - yes)

    def unheeded(self, chosen):
        """The definitions that are only assumed, and those that are only concluded."""
        for name, place in sorted(self.of.items(), key=lambda it: it[1]):
            told = f"{place}.{name.split(chr(39) + 'ic')[0]}"
            if place.split(".")[0] in chosen and (name in self.assumed) != (name in self.concluded):
                yield f"{told}: only {'assumed' if name in self.assumed else 'concluded'}"
            elif place.split(".")[0] in chosen and name not in self.assumed:
                yield f"{told}: only carried, or in no clause"


def parted(text, sign, start, end):
    """The parts of a text between signs that stand in no brackets, by where they begin and end."""
    depth, at = 0, start
    for i in range(start, end):
        depth += (text[i] in "([{") - (text[i] in ")]}")
        if depth == 0 and text[i] == sign:
            yield at, i
            at = i + 1
    yield at, end


def sides(text, start, end):
    """The sides of a disjunction, or of a conjunction. What is said of each value has none."""
    if len([*parted(text, "→", start, end), *parted(text, "λ", start, end)]) > 2:
        return []
    either, both = [*parted(text, "⊎", start, end)], [*parted(text, "×", start, end)]
    found = either if len(either) > 1 else both
    return [it for it in found if len(found) > 1 and not BINDERS.fullmatch(text[slice(*it)])]


def cases(text):
    """The cases of a file's definitions: the definition, the case's name, and where it stands."""
    for found in STATES.finditer(text):
        each = re.compile(r"^%s%s (?:.|\n%s )*" % (found[1], re.escape(found[2]), found[1]), re.M)
        for number, it in enumerate(each.finditer(text, found.start(3), found.end(3)), 1):
            _, end = next(parted(text, "=", it.start(), it.end()))
            if text[end + 1 : it.end()].strip() not in [NOTHING, "⊤"]:
                yield found[2], str(number), end + 1, it.end()
            for side, place in enumerate(sides(text, end + 1, it.end()), 1):
                yield found[2], f"{number}/{side}", *place
    for found in DATA.finditer(text):
        each = re.compile(r"^%s  (\S+) :((?:.|\n%s   )*)" % (found[1], found[1]), re.M)
        for it in each.finditer(text, found.start(3), found.end(3)):
            for number, place in enumerate([*parted(text, "→", it.start(2), it.end(2))][:-1], 1):
                if is_fact(" ".join(text[slice(*place)].split())) and not BINDERS.fullmatch(text[slice(*place)]):
                    yield found[2], f"{it[1]}/{number}", *place


def weakened(text, record, name, says):
    """A file of definitions in which a field of a record, or a case of a definition, says this."""
    for definition, case, start, end in cases(text):
        if (definition, case) == (record, name):
            return f"{text[:start]} {says}{text[end:] if text[end - 1] != chr(10) else chr(10) + text[end:]}"
    for found in RECORD.finditer(text):
        field = re.compile(r"^( {%d}pub )%s : (?:.|\n {%d} )*" % (len(found[1]) + 2, re.escape(name), len(found[1]) + 3), re.M)
        if found[2] == record and field.search(found[3]):
            return text[: found.start(3)] + field.sub(rf"\1{name} : {says}", found[3], count=1) + text[found.end(3) :]
    raise SystemExit(f"there is no {record}.{name}")


def files_of(crates, name):
    """What a crate's check reads of it, but for what it made itself."""
    return [it for part in ["src", "specs", "proofs"] for it in (crates / name / part).rglob("*.*") if it.is_file()]


def copied(crates, crate, modules):
    """The modules of crates below that a crate has to have a weakened copy of: these, and what it cites that cites them."""
    left, reached = [it.read_text() for it in files_of(crates, crate)], {}
    while left:
        for module in set(CITES.findall(left.pop())) - set(reached):
            path = crates / module[0] / "specs" / f"{module[1]}.antt"
            if module[0] != crate and path.exists():
                reached[module] = set(CITES.findall(path.read_text()))
                left.append(path.read_text())
    found, more = set(modules), set(modules)
    while more:
        more = {it for it, cites in reached.items() if cites & found} - found
        found |= more
    return found


def try_without(crate, taken, says):
    """Checks a crate in which these facts say this, in a room. Facts of crates below are taken out of copies, which the crate then cites."""
    used, out = libraries(), TOP / "crates" / crate / "out"
    out.mkdir(exist_ok=True)
    with tempfile.TemporaryDirectory(prefix="weaken-", dir=out) as room:
        crates = Path(room) / "crates"
        for it in with_all_below(crate, used):
            for part in ["src", "specs", "proofs", "out/rlib"] + ["out/incremental"] * (it == crate):
                if (TOP / "crates" / it / part).exists():
                    shutil.copytree(TOP / "crates" / it / part, crates / it / part, copy_function=os.link)
        (Path(room) / "crates.txt").write_text("".join(f"{it}: {' '.join(used[it])}\n" for it in with_all_below(crate, used)))
        facts = defaultdict(list)
        for of, module, record, name in (it.split(".") for it in taken):
            facts[of, module].append((record, name))
        texts = {}
        for of, module in facts.keys() | copied(crates, crate, {it for it in facts if it[0] != crate}):
            texts[of, module] = (crates / of / "specs" / f"{module}.antt").read_text()
            for record, name in facts[of, module]:
                texts[of, module] = weakened(texts[of, module], record, name, says)
        copies = {it: "Weak" + "".join(part.capitalize() for part in it[0].split("_")) + it[1] for it in texts if it[0] != crate}
        own = crates / crate / "specs"
        written = {it: it.read_text() for it in files_of(crates, crate)}
        written |= {own / f"{copies.get(it, it[1])}.antt": text for it, text in texts.items()}
        own.mkdir(exist_ok=True)
        written[own / "Lib.antt"] = written.get(own / "Lib.antt", "") + "".join(f"pub mod {it}\n" for it in copies.values())
        for path, text in written.items():
            for (of, module), name in copies.items():
                text = re.sub(rf"\bRattle\.{of}\.specs\.{module}(?!\w)", f"Rattle.{crate}.specs.{name}", text)
            path.unlink(missing_ok=True)  # it may be a link
            path.write_text(text)
        done = subprocess.run([RT, "check", "--jobs", "1"], cwd=crates / crate, capture_output=True, text=True)
    for path, line, says in ERROR.findall(done.stdout + done.stderr):
        states = re.search(r"(?:expected type|checked against|where one has) `Unit", says)  # and proves what isn't asked for
        shrinks = "argument that gets smaller" in says  # a call on what a case has left out
        if says.startswith("it is not") or shrinks or ("Unit" in says and not states):
            print(f"{path}:{line} misses a fact: {' '.join(says.split())[:120]}")
    if "logic=" not in done.stdout:
        raise SystemExit(f"nothing was checked: {(done.stdout + done.stderr)[-300:]}")
    print("all is proved without them" if done.returncode == 0 else "not all is proved without them")


if __name__ == "__main__":
    given = argparse.ArgumentParser(description=__doc__.split(". ", maxsplit=1)[0])
    given.add_argument("names", nargs="*", help="crates; with --try a crate, and facts as they are listed")
    given.add_argument("--cases", action="store_true", help="list the cases of the crates' definitions")
    given.add_argument("--carried", action="store_true", help="list also facts that proofs may only carry from one value of a record to another: they are taken only where one is built")
    given.add_argument("--premises", action="store_true", help="list the definitions that clauses only assume, or only conclude")
    given.add_argument("--never", action="store_true", help="with --try: facts never hold, in place of saying nothing")
    given.add_argument("--try", dest="tries", action="store_true", help="check the crate without these facts")
    asked = given.parse_args()
    if asked.tries:
        try_without(asked.names[0], asked.names[1:], NEVER if asked.never else NOTHING)
    elif asked.premises:
        print(*Uses().unheeded(asked.names), sep="\n")
    elif asked.cases:
        for path in (it for crate in asked.names for it in sorted((TOP / "crates" / crate / "specs").glob("*.antt"))):
            print(*(f"{path.parts[-3]}.{path.stem}.{name}.{case}" for name, case, *_ in cases(path.read_text())), sep="\n")
    else:
        print(*Tree().unused(asked.names, asked.carried), sep="\n")
