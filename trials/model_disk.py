"""The model's second half: the byte form of a table, the disk, served lines, and how the program ends. Written from the
pages in docs/ like the first, `model`."""

from typing import NamedTuple

import model
from model import (
    JOB_NAME,
    SYMBOL,
    Config,
    Fault,
    Job,
    Refusal,
    Rule,
    Rules,
    Table,
)

MAX_LINES = 1_000_000
MAX_ENTRIES = 65_536
# What a page weighs before a new one begins, and what its entries weigh, if it isn't 1.
PAGE_WEIGHT, WEIGHTS = 65_536, {"submit": 512, "fetch": 512, "list": 2}
MAX_BODY = 3_036_677
SECOND_SLOT, HEAD = 4_194_304, 13
MAX_NUMBER = 2**64 - 1
SYMBOL_BYTES = [bytes([symbol]) for symbol in range(256)]


class Outcome(NamedTuple):
    """What the program writes to standard output and to standard error, and its exit status."""

    out: bytes
    err: bytes = b""
    status: int = 0


class Ended(Exception):
    """A serving that ended at a fault, with the words that say so."""


# The byte form.

FORM, OLD_FORM = b"ICT2", b"ICT1"


def number_bytes(number, length):
    return number.to_bytes(length, "big")


def term_bytes(term):
    return b"".join([b"\xff" + node.to_bytes(8, "big") if node >= 0 else SYMBOL_BYTES[~node] for node in term])


def job_bytes(job, form=FORM):
    rules, config = job.rules, job.config
    parts = [bytes([len(job.name)]), job.name.encode(), bytes([model.STATES.index(job.state)])]
    parts += [number_bytes(job.rounds, 8)]
    parts += [number_bytes(job.budget or 0, 8)] if form == FORM else []
    parts += [number_bytes(config.next, 8), bytes([len(rules.symbols)])]
    parts += [bytes([len(text)]) + text.encode() + bytes([arity]) for text, arity in rules.symbols]
    parts.append(number_bytes(len(rules.rules), 2))
    for rule in rules.rules:
        parts.append(bytes([rule.left, rule.right]))
        parts += map(term_bytes, rule.left_args + rule.right_args)
    parts += [bytes([len(config.interface)]), number_bytes(len(config.equations), 2)]
    parts += map(term_bytes, model.terms_of(config))
    return b"".join(parts)


def encode(table, form=FORM):
    return b"".join([form, bytes([len(table.jobs)]), *(job_bytes(job, form) for job in table.jobs)])


class NotATable(Exception):
    """Bytes that are the form of no table."""


def need(holds):
    if not holds:
        raise NotATable


class FormReader:
    """Reads the parts of a byte form."""

    def __init__(self, form):
        self.form, self.at = form, 0

    def bytes(self, length):
        part = self.form[self.at : self.at + length]
        need(len(part) == length)
        self.at += length
        return part

    def number(self, length):
        return int.from_bytes(self.bytes(length), "big")

    def word(self, form, longest):
        """A text of this form with its length before it."""
        text = self.bytes(self.number(1)).decode("latin-1")
        need(len(text) <= longest and form.fullmatch(text))
        return text

    def term(self, arities):
        nodes, wanted = [], 1
        while wanted:
            node = self.number(1)
            if node == 255:
                nodes.append(self.number(8))
                wanted -= 1
            else:
                need(node < len(arities))
                nodes.append(~node)
                wanted += arities[node] - 1
        return tuple(nodes)

    def rules(self):
        symbols = [(self.word(SYMBOL, model.MAX_SYMBOL_TEXT), self.number(1)) for _ in range(self.number(1))]
        arities = [arity for _, arity in symbols]
        need(len(symbols) <= model.MAX_SYMBOLS and len({text for text, _ in symbols}) == len(symbols))
        need(max(arities, default=0) <= model.MAX_ARITY)
        rules = []
        for _ in range(self.number(2)):
            left, right = self.number(1), self.number(1)
            need(max(left, right) < len(symbols))
            arguments = [[self.term(arities) for _ in range(arities[symbol])] for symbol in (left, right)]
            rules.append(Rule(left, right, *model.numbered(*arguments)))
            need(rules[-1][2:4] == (arguments[0], arguments[1]))
        need(len(rules) <= model.MAX_RULES)
        need(sum(len(term) for it in rules for term in it.left_args + it.right_args) <= model.MAX_RULE_NODES)
        need(not (model.first_unpaired(rules) or model.first_repeated(rules) or model.first_lopsided(rules)))
        return Rules(symbols, rules)

    def configuration(self, arities, next_name):
        terms, pairs = self.number(1), self.number(2)
        interface = [self.term(arities) for _ in range(terms)]
        config = Config(interface, [(self.term(arities), self.term(arities)) for _ in range(pairs)], next_name)
        need(terms <= model.MAX_INTERFACE and model.nodes_of(config) <= model.MAX_NODES and next_name <= model.MAX_NEXT)
        names = model.names_of(config)
        need(max(names, default=-1) < next_name and model.third_occurrence(names) is None)
        return config

    def job(self, form):
        name = self.word(JOB_NAME, model.MAX_JOB_NAME)
        state, rounds = self.number(1), self.number(8)
        budget = self.number(8) if form == FORM else 0
        next_name = self.number(8)
        rules = self.rules()
        config = self.configuration(rules.arities, next_name)
        need(state < len(model.STATES) and rounds <= model.MAX_ROUNDS)
        need(budget <= model.MAX_BUDGET and (not budget or rounds <= budget))
        quiet, used_up = model.is_quiet(rules, config), budget > 0 and rounds == budget
        need((model.STATES[state] == "done") == quiet)
        need((model.STATES[state] == "spent") == (used_up and not quiet))
        return Job(name, rules, config, rounds, model.STATES[state], budget or None)


def decode(form):
    """The table that has this form, or nothing."""
    reader = FormReader(form)
    try:
        kind = reader.bytes(4)
        need(kind in (FORM, OLD_FORM))
        table = Table(reader.job(kind) for _ in range(reader.number(1)))
        need(len(table.jobs) <= model.MAX_JOBS and len({job.name for job in table.jobs}) == len(table.jobs))
    except NotATable:
        return None
    return table if encode(table, kind) == form else None


# The disk.


class Disk:
    """The bytes of a disk's file, and once it is opened its newest slot and that one's number."""

    def __init__(self, content=b""):
        self.content = bytearray(content)
        self.newest = self.number = None

    def put(self, at, part):
        """Lays bytes over the content, which is filled up with zeros where it is shorter."""
        self.content.extend(bytes(max(0, at - len(self.content))))
        self.content[at : at + len(part)] = part

    def put_slot(self, slot, number, body, gate=1):
        self.put(slot * SECOND_SLOT, bytes([gate]) + number_bytes(number, 8) + number_bytes(len(body), 4) + body)

    def create(self):
        self.put(SECOND_SLOT, bytes(HEAD))
        self.put_slot(0, 1, encode(Table()))

    def head(self, slot):
        """The number and the length of an open slot, or nothing."""
        begin = slot * SECOND_SLOT
        head = self.content[begin : begin + HEAD]
        if len(head) < HEAD or head[0] != 1:
            return None
        return int.from_bytes(head[1:9], "big"), int.from_bytes(head[9:13], "big")

    def open(self):
        """The table that is held, or why there is none."""
        heads = [self.head(0), self.head(1)]
        slots = [slot for slot in (0, 1) if heads[slot]]
        if not slots:
            raise Refusal("no slot")
        if len(slots) == 2 and heads[0][0] == heads[1][0]:
            raise Refusal("two alike")
        newest = max(slots, key=lambda slot: heads[slot][0])
        number, length = heads[newest]
        begin = newest * SECOND_SLOT + HEAD
        body = bytes(self.content[begin : begin + length]) if length <= MAX_BODY else b""
        table = decode(body) if len(body) == length else None
        if table is None:
            raise Refusal("damaged")
        self.newest, self.number = newest, number
        return table

    def keep(self, table):
        """Keeps a table in the slot beside the newest."""
        if self.number == MAX_NUMBER:
            raise Ended("worn")
        self.newest, self.number = 1 - self.newest, self.number + 1
        self.put_slot(self.newest, self.number, encode(table))


# Serving.


class Server:
    """Answers lines over a disk that it opens. What a line changes is kept before it is answered, and in a run after each
    so many rounds. A page of its history has entries of such a weight before the next begins."""

    def __init__(self, disk, every=100, page=PAGE_WEIGHT):
        self.disk, self.every, self.page = disk, every, page
        self.table = disk.open()
        self.entries = self.kept = self.weight = 0

    def keep(self):
        if self.kept < self.entries:
            self.disk.keep(self.table)
            self.kept = self.entries

    def make_room(self):
        """Begins a new page where the entries of this one weigh too much."""
        if self.weight >= self.page:
            self.keep()
            self.entries = self.kept = self.weight = 0

    def command(self, *asked):
        if self.disk.number == MAX_NUMBER:
            raise Ended("worn")
        self.make_room()
        answer = self.table.apply(*asked)
        self.entries += 1
        self.weight += WEIGHTS.get(asked[0], 1)
        if answer in ("accepted", "ok"):
            self.keep()
        self.kept = self.entries
        return answer

    def run(self, rounds):
        made = after = 0
        while made < rounds and (place := self.table.due(after)) is not None:
            self.make_room()
            self.table.jobs[place].move()
            self.entries += 1
            self.weight += 1
            made += 1
            after = place + 1
            if made % self.every == 0:
                self.keep()
        self.keep()
        return f"ran {made}"

    def answer(self, line):
        """The answer to a line, or nothing."""
        try:
            asked = model.read_line(line)
        except Fault as fault:
            return str(fault)
        if asked == ("blank",):
            return None
        return self.run(asked[1]) if asked[0] == "run" else self.command(*asked)


def lines_of(text):
    lines = text.split(b"\n")
    return lines if lines[-1] else lines[:-1]


def read_script(text):
    """The commands of a script's lines, or its first fault with the number of its line."""
    commands = []
    for number, line in enumerate(lines_of(text), 1):
        try:
            asked = model.read_line(line, in_script=True)
            if asked != ("blank",) and len(commands) == MAX_ENTRIES:
                raise Fault("bad limit")
        except Fault as fault:
            raise Fault(f"line {number}: {fault}") from None
        if asked != ("blank",):
            commands.append(asked)
    return commands


# What the program writes and how it ends, by its words.


def refused(status, words, out=b""):
    return Outcome(out, f"icserve: {words}\n".encode(), status)


def written(answers):
    return "".join(f"{answer}\n" for answer in answers if answer is not None).encode()


def settle(text):
    try:
        rules, config = model.read_configuration(text)
    except Fault as fault:
        return refused(1, fault)
    return Outcome(written([model.printed(rules, model.settled(config))]))


def once(text):
    try:
        rules, config = model.read_system(text)
        after = model.round_of(rules, config)
    except (Fault, Refusal) as fault:
        return refused(1, fault)
    return Outcome(written([model.printed(rules, after)]))


def serve(disk, text, every=100, page=PAGE_WEIGHT):
    """Serves a text over a disk that is left as the program leaves its file."""
    try:
        server = Server(disk, every, page)
    except Refusal as refusal:
        return refused(3, refusal)
    answers = []
    try:
        for place, line in enumerate(lines_of(text)):
            if place == MAX_LINES:
                raise Ended("too many lines")
            if len(line) > model.MAX_TEXT:
                raise Ended("long line")
            answers.append(server.answer(line))
    except Ended as ended:
        return refused(4, ended, written(answers))
    return Outcome(written(answers))
