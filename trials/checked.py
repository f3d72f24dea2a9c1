"""A model of what `check` tells of a file: each fault with its place, and of systems without one what is mostly a mistake. Places
and sentences are those of `places`, faults and meanings those of `model`."""

import functools
import re
from collections import Counter

import model
import places
from known import name_text

MOST_BYTES = 16_777_216
WORD = re.compile(rb"([A-Za-z0-9-]*)[ \t\r\n]*")
COMMAND = "submit|copy|pause|resume|cancel|fetch|list|run"
NAME = "[a-z][a-z0-9-]*"
NUMBER = "0|[1-9][0-9]*"
# What stands after the first word of a line, word by word.
AFTER = {"submit": ["name", "budget", "system"], "copy": ["name", "name"], "list": [], "run": ["number"]}
WORDS = {"command": COMMAND, "name": NAME, "budget": NUMBER, "number": NUMBER}
SOUGHT = {
    "command": "a command is looked for here: submit, copy, pause, resume, cancel, fetch, list or run; a file with one text begins with { or <",
    "name": "a job's name is looked for here: a small letter, then small letters, digits and -",
    "budget": "a budget or { is looked for here",
    "system": "{ is looked for here",
    "number": "a number is looked for here",
    "nothing": "the line should end before this",
}
PASSED = {
    "name": "a job's name has at most 16 bytes",
    "budget": "a budget is 1 to 4294967295",
    "number": "a run makes at most 1000 rounds",
}
JOB_NAME = "a job's name has small letters, digits and - only"
WHOLE_TEXT = "a system is submitted on one line: submit NAME {RULES} <CONFIG>"
FRONT_COMMENT = "there are no comments, unless the first line is #rich or --rich is given, and lines for serve have none"
LINE_COMMENT = "lines have no comments: take this one out"
READERS = {"system": model.read_system, "configuration": model.read_configuration}


def form_of(text):
    """What a file holds, by its first byte that is no blank."""
    return {b"{": "system", b"<": "configuration", b"#": "comment"}.get(text.lstrip(b" \t\r\n")[:1], "lines")


def lines_of(text):
    lines = text.split(b"\n")
    return lines if lines[-1] else lines[:-1]


def refusal(read, text):
    """The fault of a text, or None, and what it is read as, or None."""
    try:
        return None, read(text)
    except model.Fault as fault:
        return str(fault), None


def kind_of(fault):
    """A fault without its name or number."""
    return fault.split()[1]


def spot(text, at):
    """The line and the column of a place, where a character is one of UTF-8."""
    before = text[:at].split(b"\n")
    return len(before), sum(not 128 <= it < 192 for it in before[-1]) + 1


def fault_line(file, text, fault, found, number=None):
    """The line of a fault, of a whole file or of the line of this number."""
    _, at, sentence = found
    line, column = spot(text, places.told_at(text, at))
    return f"{file}:{number or line}:{column}: {fault}: {sentence}"


def own_words(line):
    """The words of a line before its system, each with its place and what it is; where they end, and what is looked for there."""
    at = len(line) - len(line.lstrip(b" \t\r\n"))
    words, due = [], ["command"]
    while due and due[0] in WORDS:
        found = WORD.match(line, at)
        word = found[1].decode()
        if not re.fullmatch(WORDS[due[0]], word):
            return words, at, due[0]
        words.append((at, due[0], word))
        due = AFTER.get(word, ["name"]) if due[0] == "command" else due[1:]
        at = found.end()
    return words, at, due[0] if due else "nothing"


def passes(what, word):
    """Whether a word of a line passes its limit."""
    if what == "name":
        return len(word) > model.MAX_JOB_NAME
    return what == "budget" and not model.fits_budget(word) or what == "number" and (len(word) > 4 or int(word) > model.MAX_RUN)


def found_in_line(line, kind):
    """The place of a line's fault of this kind, and what is told of it."""
    if len(line) > places.MOST_BYTES:
        return "limit", places.MOST_BYTES, f"a line has at most {places.MOST_BYTES} bytes"
    words, end, due = own_words(line)
    passed = [(at, what) for at, what, word in words if passes(what, word)]
    if kind == "limit" and passed:
        return "limit", passed[0][0], PASSED[passed[0][1]]
    inner = places.found(line[end:], "system") if due in ("budget", "system") else None
    if kind != "syntax":
        return kind, end + inner[1], inner[2]
    follows_name = due == "budget" or due == "name" and len(words) == 2
    if (not inner or not inner[1]) and follows_name and re.match(rb"[A-Za-z0-9-][_'\x80-\xff]", line[end - 1 : end + 1]):
        return "syntax", end, JOB_NAME
    if line.startswith(places.ORDER_MARK):
        return "syntax", 0, places.MARKED
    if not inner or not inner[1]:
        sought = WHOLE_TEXT if due == "command" and line[end : end + 1] in (b"{", b"<") else SOUGHT[due]
        return "syntax", end, LINE_COMMENT if line.startswith(places.COMMENTS, end) else sought
    return "syntax", end + inner[1], places.sentence_of_syntax(line, end + inner[1], "system")


def symbols_in(terms):
    return [~node for term in terms for node in term if node < 0]


def met(rules, config):
    """The symbols that may come to stand in a configuration: those that do, and those that rules of such symbols bring."""
    symbols = set(symbols_in(model.terms_of(config)))
    while True:
        used = [it for it in rules.rules if {it.left, it.right} <= symbols]
        more = symbols.union(*(symbols_in(it.left_args + it.right_args) for it in used))
        if more == symbols:
            return symbols
        symbols = more


def warnings(rules, config):
    """What is legal in a system and mostly a mistake."""
    texts = [text for text, _ in rules.symbols]
    for left, right in config.equations:
        if left[0] < 0 and right[0] < 0 and not rules.find(left, right):
            yield f"no rule for {texts[~left[0]]}><{texts[~right[0]]}"
    stand = Counter(symbols_in(model.terms_of(config)))
    for it in rules.rules:
        stand.update([it.left, it.right, *symbols_in(it.left_args + it.right_args)])
    if alone := [text for symbol, text in enumerate(texts) if stand[symbol] == 1]:
        yield f"symbols that stand only once: {', '.join(alone)}"
    symbols = met(rules, config)
    for place, it in enumerate(rules.rules, 1):
        if not {it.left, it.right} <= symbols:
            yield f"rule {place}, {texts[it.left]}><{texts[it.right]}, is never used"
    names = Counter(node for term in model.terms_of(config) for node in term if node >= 0)
    for name, count in names.items():
        if count == 1:
            yield f"the name {name_text(name)} stands only once"
    sides = Counter(side[0] for equation in config.equations for side in equation if side[0] >= 0)
    joined = any(left[0] < 0 and right[0] < 0 for left, right in config.equations)
    if any({it.left, it.right} <= symbols for it in rules.rules) and not joined and all(it == 1 for it in sides.values()):
        yield "no two agents meet, so no rule is used: a sum is Add(r,n)=m, not r=Add(m,n)"
    sides = {side for it in rules.rules for side in (it.left, it.right)}
    for symbol, (text, arity) in enumerate(rules.symbols):
        made = [symbols_in(it.left_args + it.right_args).count(symbol) for it in rules.rules]
        if re.fullmatch("[A-Z]", text) and not arity and symbol not in sides and max(made, default=0) >= 2:
            yield f"{text} is an agent, and no rule is of it: names are small letters, as x"


def of_whole(file, text, kind):
    """What is told of a file that is a configuration or a system."""
    fault, value = refusal(READERS[kind], text)
    if fault:
        return [fault_line(file, text, fault, places.found(text, kind))], True
    return [f"{file}: warning: {it}" for it in (warnings(*value) if kind == "system" else [])], False


@functools.lru_cache(1000)
def seen_of_line(line):
    """The fault of a line and its place, and the warnings of what it submits."""
    fault, asked = refusal(model.read_line, line)
    if fault:
        return fault, found_in_line(line, kind_of(fault)), []
    return None, None, list(warnings(*asked[2:4])) if asked[0] == "submit" else []


NO_RUN = "run isn't for scripts, since runners make the rounds"


def of_line(file, number, line, in_script=False):
    fault, found, words = seen_of_line(line)
    word = own_words(line)[0][:1]
    if in_script and len(line) <= places.MOST_BYTES and word and word[0][2] == "run":
        fault, found, words = "bad syntax", ("syntax", word[0][0], NO_RUN), []
    if fault:
        return [fault_line(file, line, fault, found, number)], True
    return [f"{file}:{number}: warning: {it}" for it in words], False


def checked(file, text, in_script=False):
    """The lines that tell of a file, and whether it has a fault."""
    form = form_of(text)
    if form == "comment" and not in_script:
        return [fault_line(file, text, "bad syntax", ("syntax", text.index(b"#"), FRONT_COMMENT))], True
    if form != "lines" and not in_script:
        return of_whole(file, text, form)
    told = [of_line(file, number, line, in_script) for number, line in enumerate(lines_of(text), 1)]
    return [line for lines, _ in told for line in lines], any(faulty for _, faulty in told)
