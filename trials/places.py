"""A model of where in a text its refusal stands, and of what is told of it: a fault of syntax is at the first word, mark or other
byte with which no text can go on, or at the end; a text that is too long is refused after the last byte that it may have; a limit
is passed at the first word that does so, which may be the first of a rule or a term too many, or a node too many. A symbol has two
arities at its first use with another one than before. A name that doesn't stand twice in a rule is told where it stands only there,
or for the third time; a name of the configuration where it stands for the third time; a second rule of two symbols and a lopsided
rule at their first word."""

import re
from collections import Counter

MOST_BYTES = 262_144
MOST_SYMBOL_BYTES, MOST_ARGUMENTS, MOST_NAME, MOST_SYMBOLS = 32, 15, 2**32 - 1, 64
MOST_RULES, MOST_RULE_NODES, MOST_TERMS, MOST_NODES = 256, 2048, 64, 8192
TOKEN = re.compile(rb"[A-Za-z0-9-]+|[^ \t\r\n]")
NAME = re.compile(rb"[a-z]([1-9][0-9]*)?")
SYMBOL = re.compile(rb"[A-Z0-9][A-Za-z0-9]*")
SYMBOL_LAST = r"(?<![A-Za-z0-9-])[A-Z0-9][A-Za-z0-9-]*$"
COMMANDS = (b"submit", b"pause", b"resume", b"cancel", b"fetch", b"list", b"run", b"copy")
NAMES = "a name is a letter a to z, maybe with a number from 1 on, and a symbol begins with A to Z or 0 to 9; `icserve expand` takes long names"
SYMBOLS = "a symbol has letters and digits only"
RULE_SYMBOLS = "both symbols of a rule begin with A to Z or 0 to 9"
ONCE = "stands once; write it once more, or in its place an eraser, as Era (`icserve expand` writes its rules)"
EACH = "stand once; write each once more, or an eraser in its place, as Era (`icserve expand` writes its rules)"
BOTH = "stand once; write one name for both, or an eraser in the place of each, as Era (`icserve expand` writes its rules)"
MOST_LOOKED = 4_096
THRICE = "stands here for the third time; `icserve expand` writes rules that copy"
EXPANDED = "`icserve expand` writes the rules for which copy and erase stand"
FORMS = {"configuration": "<INTERFACE|EQUATIONS>", "system": "{RULES} <INTERFACE|EQUATIONS>"}
NO_ARGUMENTS = "a name has no arguments: names begin with a to z, and symbols, which may have them, with A to Z or 0 to 9"

TERM = "a term is looked for here"
AFTER = {"(": TERM, ",": TERM, "=": TERM, "|": "a term or > is looked for here"}
AFTER_OF = {
    "configuration": {"<": "a term or | is looked for here", ">": "nothing may follow a configuration"},
    "system": {"{": "a symbol or } is looked for here", ";": "a symbol is looked for here", "}": "< is looked for here"},
}
AFTER_OF["system"] |= AFTER_OF["configuration"]
COMMENTS, NO_COMMENTS = (b"#", b"//", b"/*", b"--", b"(*"), "there are no comments; `icserve expand` takes out those that begin with #"
ORDER_MARK, MARKED = b"\xef\xbb\xbf", "a byte order mark stands before the text: take it out"
EQUATED = "the interface and | come before the equations: <r|Add(r,Z)=Z>"
MADE_SYSTEM = ": {} before it makes it a system"


class NoText(Exception):
    """No text goes on from here."""


class Reader:
    """Goes through the tokens of a text as far as a text goes on."""

    def __init__(self, text):
        self.text = text
        self.tokens = [(it.start(), it.group()) for it in TOKEN.finditer(text)] + [(len(text), b"")]
        self.at = 0
        self.words, self.terms, self.sides = [], [], []

    def place(self):
        return self.tokens[self.at][0]

    def takes(self, mark):
        found = self.tokens[self.at][1] == mark
        self.at += found
        return found

    def mark(self, mark):
        if not self.takes(mark):
            raise NoText

    def word(self, *forms):
        word = self.tokens[self.at][1]
        form = next((it for it in forms if it.fullmatch(word)), None)
        if not form:
            raise NoText
        self.at += 1
        return form

    def term(self, *forms):
        """A term of one of these forms, whose words are kept with their arguments. Its depth has no bound, so it is a list."""
        around = []
        while True:
            word = [*self.tokens[self.at], self.word(*forms), 0]
            self.words.append(word)
            if word[2] is SYMBOL and self.takes(b"("):
                around.append(word)
            else:
                while around and self.takes(b")"):
                    around.pop()
                if not around:
                    return
                self.mark(b",")
            around[-1][3] += 1
            forms = (NAME, SYMBOL)

    def listed(self, item, between, end):
        if not self.takes(end):
            item()
            while self.takes(between):
                item()
            self.mark(end)

    def item(self):
        first = len(self.words)
        self.term(NAME, SYMBOL)
        self.terms.append(self.words[first])

    def equation(self):
        self.term(NAME, SYMBOL)
        self.mark(b"=")
        self.term(NAME, SYMBOL)

    def configuration(self):
        self.mark(b"<")
        self.before = len(self.words)
        self.listed(self.item, b",", b"|")
        self.listed(self.equation, b",", b">")

    def rule(self):
        first = len(self.words)
        self.term(SYMBOL)
        self.mark(b">")
        self.mark(b"<")
        second = len(self.words)
        self.term(SYMBOL)
        self.sides.append((self.words[first:second], self.words[second:]))

    def system(self):
        self.mark(b"{")
        self.listed(self.rule, b";", b"}")
        self.configuration()


def limit_at(word, symbols):
    """The sentence of the limit that a word passes after these symbols, if it passes one."""
    _, text, form, arguments = word
    if form is NAME:
        number = 26 * int(text[1:] or b"0") + text[0] - ord("a")
        return f"the number of a name is at most {MOST_NAME}" if number > MOST_NAME else None
    if len(text) > MOST_SYMBOL_BYTES:
        return f"a symbol has at most {MOST_SYMBOL_BYTES} bytes"
    if arguments > MOST_ARGUMENTS:
        return f"a symbol has at most {MOST_ARGUMENTS} arguments"
    return f"a text has at most {MOST_SYMBOLS} different symbols" if len(symbols | {text}) > MOST_SYMBOLS else None


def too_many(reader):
    """The first word with which there are too many rules, nodes of rules, terms or nodes, as its place and a sentence, or None."""
    rules = [left[0] for left, _ in reader.sides]
    inner = [word for sides in reader.sides for side in sides for word in side[1:]]
    counts = (
        (rules, MOST_RULES, f"a system has at most {MOST_RULES} rules"),
        (inner, MOST_RULE_NODES, f"the arguments of all rules together have at most {MOST_RULE_NODES} nodes"),
        (reader.terms, MOST_TERMS, f"an interface has at most {MOST_TERMS} terms"),
        (reader.words[reader.before :], MOST_NODES, f"a configuration has at most {MOST_NODES} nodes"),
    )
    places = [(words[most][0], sentence) for words, most, sentence in counts if len(words) > most]
    return min(places, key=lambda it: it[0], default=None)


def miscounted(words):
    """The place of the first name that stands only there among these words, or for the third time."""
    names = [(at, text) for at, text, form, _ in words if form is NAME]
    whole, before = Counter(text for _, text in names), Counter()
    for at, text in names:
        if whole[text] == 1 or before[text] == 2:
            return at
        before[text] += 1


def others_alone(text, at, words):
    """The first two names beside that at a place which stand once among the words of its rule; of a long rule none is told."""
    before, after = re.split(rb"[{;]", text[:at])[-1], re.split(rb"[;}]", text[at:])[0]
    if max(len(before), len(after)) > MOST_LOOKED:
        return []
    counts = Counter(it[1] for it in words)
    return [it[1].decode() for it in words if it[2] is NAME and counts[it[1]] == 1 and it[0] != at][:2]


def renamed(words):
    """Words with their names numbered in the order in which they first occur."""
    numbers = {}
    return [(numbers.setdefault(text, len(numbers)) if form is NAME else text, arguments) for _, text, form, arguments in words]


def fault_of_names_and_rules(reader):
    """The fault of names or of rules, its place and a sentence, or None: of names in rules, in the configuration, then of rules."""
    for number, (left, right) in enumerate(reader.sides, 1):
        at = miscounted(left + right)
        if at is not None:
            text = next(text for place, text, *_ in left + right if place == at).decode()
            is_once = [it[1].decode() for it in left + right].count(text) == 1
            told = f"{text} {THRICE}"
            if is_once:
                texts = [text, *others_alone(reader.text, at, left + right)]
                told = f"{' and '.join([', '.join(texts[:-1]), texts[-1]]).removeprefix(' and ')} {(ONCE, BOTH, EACH)[len(texts) - 1]}"
            return "namecount", at, f"rule {number}: in a rule each name stands exactly twice: {told}"
    seen = {}
    for at, text, form, _ in reader.words[reader.before :]:
        seen[text] = seen.get(text, 0) + (form is NAME)
        if seen[text] == 3:
            return "name", at, "in a configuration a name stands at most twice; `icserve expand` writes rules that copy"
    pairs = [{left[0][1], right[0][1]} for left, right in reader.sides]
    for index, pair in enumerate(pairs):
        if pair in pairs[:index]:
            at, earlier = (reader.sides[it][0][0][0] for it in (index, pairs.index(pair)))
            before = distance(reader.text[earlier:at])
            return "twice", at, f"rule {index + 1}: rule {pairs.index(pair) + 1}, {before} before, is of the same two symbols"
    for number, (left, right) in enumerate(reader.sides, 1):
        if left[0][1] == right[0][1] and renamed(left + right) != renamed(right + left):
            return "lopsided", left[0][0], f"rule {number}: a rule of a symbol with itself reads the same from both sides"


def distance(between):
    """How far it is from one word to another one, by the text between them."""
    count, word = (between.count(b"\n"), "line") if b"\n" in between else (len(between), "column")
    return f"{count} {word}{'s' * (count != 1)}"


def fault_of_words(reader):
    """The fault of what is written, its place and a sentence, or None."""
    over = too_many(reader)
    symbols, clash = {}, None
    for word in reader.words:
        at, text, form, arguments = word
        if over and over[0] == at:
            return "limit", *over
        passed = limit_at(word, set(symbols))
        if passed:
            return "limit", at, passed
        if form is SYMBOL and symbols.setdefault(text, arguments) != arguments and not clash:
            first = symbols[text]
            before = distance(reader.text[next(it[0] for it in reader.words if it[1] == text) : at])
            told = f"{text.decode()} has {arguments} here and {first} where it stands first, {before} before"
            clash = ("arity", at, f"a symbol has one arity: {told}")
    return clash or fault_of_names_and_rules(reader)


def stand_of(front):
    """The last mark of a text outside of parentheses and what follows it, or None where the text ends in parentheses."""
    while (flat := re.sub(r"\([^()]*\)", "", front)) != front:
        front = flat
    return None if "(" in front else re.search(r"(><|[{};<>|=])([^{};<>|=]*)$", front).groups()


def slip_of(text, at, front, word):
    """What is said of a word that is amiss, or None: of a symbol with another byte, of a small letter in a rule, of what is for
    `expand`, of a name with arguments, or of a word that is no name."""
    due, small = front[-1] in "{<|=,;(", word[:1].islower()
    is_joined = re.match(rb"[A-Za-z0-9-][_'\x80-\xff]", text[at - 1 :])
    if is_joined and re.search(SYMBOL_LAST, front) or due and re.match(rb"[A-Z0-9][A-Za-z0-9]*-", word):
        return SYMBOLS
    if due and small and (stand_of(front) or " ")[0] in ("{", ";", "><"):
        return EXPANDED if re.match(rb"(copy|erase)[ \t\r\n]+[A-Za-z0-9-]", text[at:]) else RULE_SYMBOLS
    after = text[at + len(word) :].lstrip(b" \t\r\n")
    named = re.search(r"(?<![A-Za-z0-9-])[a-z][A-Za-z0-9-]*$", front)
    if due and small and after.startswith(b"(") or text.startswith(b"(", at) and named:
        return NO_ARGUMENTS
    return NAMES if is_joined or due and small and not NAME.fullmatch(word) else None


def sought_after(front):
    """What is looked for after a term that ends a text, or None where no term stands there."""
    opens = "( or " if re.search(SYMBOL_LAST, front) else ""
    stand = stand_of(front)
    if not stand:
        return opens + ", or )"
    mark, after = stand
    if mark == "=" and "," not in after:
        return opens + ", or >"
    sought = {"{": "><", ";": "><", "><": "; or }", "<": ", or |", "|": "=", "=": "="}.get(mark)
    return sought and opens + sought


def sentence_of_syntax(text, at, kind):
    """What is said at the place of a fault of syntax. A text that begins otherwise may be of another kind, there are no comments,
    and a word may be amiss. Rules are separated by semicolons, of which none ends them. After a mark and after a term the sentence
    tells what is looked for."""
    if at == len(text):
        if not text.strip(b" \t\r\n"):
            return f"the text is empty: a {kind} is {FORMS[kind]}"
        return f"the text ends before its {kind} does: {FORMS[kind]}"
    mark, other, of = ("<", b"{", "a system") if kind == "configuration" else ("{", b"<", "a configuration")
    front, word = text[:at].strip(b" \t\r\n").decode("latin-1"), re.match(rb"[A-Za-z0-9-]*", text[at:]).group()
    front = re.sub(r">[ \t\r\n]+<", "><", front)
    if not front:
        if text[at : at + 1] == other:
            return f"a {kind} begins with {mark}, and this is {of}" + (MADE_SYSTEM if kind == "system" else "")
        if word in COMMANDS:
            return f"a {kind} begins with {mark}, and commands are served"
        if text.startswith(ORDER_MARK, at):
            return MARKED
        return NO_COMMENTS if text.startswith(COMMENTS, at) else f"a {kind} begins with {mark}"
    if text.startswith(COMMENTS, at):
        return NO_COMMENTS
    if slip := slip_of(text, at, front, word):
        return slip
    here = text[at : at + 1].decode("latin-1")
    if front[-1] + here in ("()", ";}"):
        return {"(": "a symbol without arguments has no parentheses", ";": "there is no ; before }"}[front[-1]]
    if front[-1] == "," and here and here in ">|)":
        return "there is no , at the end of a list"
    if front[-1].isalnum() or front[-1] in "-)":
        stand = stand_of(front) or " "
        if here == "," and stand[0] == "><":
            return "rules are separated by ;"
        if here == "=" and stand[0] == "<":
            return EQUATED
        sought = sought_after(front)
        return f"{sought} is looked for here" if sought else f"no {kind} goes on with this"
    if front[-1] + here == ">{" and not re.search(r"[{;][^{}<>|=;]*>$", front):
        return "the rules come before the configuration"
    if kind == "system" and front.endswith("><"):
        return "a symbol is looked for here"
    if re.search(r"[{;][^{}<>|=;]*>$", front):
        return "< is looked for here"
    return (AFTER | AFTER_OF[kind]).get(front[-1], f"no {kind} goes on with this")


def found(text, kind):
    """What refuses a text as a `configuration` or a `system`: the fault, its place and a sentence, or None."""
    if len(text) > MOST_BYTES:
        return "limit", MOST_BYTES, f"a text has at most {MOST_BYTES} bytes"
    reader = Reader(text)
    try:
        getattr(reader, kind)()
        reader.mark(b"")
    except NoText:
        at = reader.place()
        return "syntax", at, sentence_of_syntax(text, at, kind)
    return fault_of_words(reader)


def told_at(text, at):
    """Where a place is told: one at the end of a text after its last byte that is no blank."""
    return len(text.rstrip(b" \t\r\n")) if at == len(text) else at


def shown(data):
    return bytes(it if 32 < it < 127 else 32 if it in b" \t\r\n" else 63 for it in data)


def told(text, kind):
    """What stands on standard error after the line of a text's refusal; nothing where it isn't refused. Of a text that is too
    long no more than one byte too many is read."""
    text = text[: MOST_BYTES + 1]
    fault = found(text, kind)
    if fault is None:
        return b""
    _, at, sentence = fault
    at = told_at(text, at)
    line, column = text[:at].count(b"\n") + 1, text[:at].split(b"\n")[-1]
    after = re.split(rb"\r?\n", text[at:])[0]
    before = shown(column) if len(column) <= 60 else b"..." + shown(column[-57:])
    after = shown(after) if len(after) <= 20 else shown(after[:17]) + b"..."
    characters = sum(not 128 <= it < 192 for it in column)
    head = f"line {line}, column {characters + 1}\n".encode()
    mark = b" " * len(before) + b"^"
    return head + b"    " + before + after + b"\n    " + mark + b"\n" + sentence.encode() + b"\n"
