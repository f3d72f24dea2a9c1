"""A small model of the program, written from the pages in docs/ and sharing nothing with it: texts and their faults,
settling, rounds, and tables of jobs. Bytes, disks and served lines stand in `model_disk`.

A term is a tuple of numbers, its nodes in the order of the text. A name is its number; an agent is -1 less its symbol's
number, and its arguments follow. So a term of any depth is a flat list, and its length is the number of its nodes.

What a new command is comes into `read_line` and `Table.apply`, a new state into STATES and `Job.move`, a new part of a job
into `Job`, and its bytes into `job_bytes` and `FormReader` of `model_disk`. What is drawn of them stands in WORDS and `session`
of test_drawn_serving, in `table` and `unsound` of test_drawn_disks, and in test_drawn_attend; `known` has its own few commands.
"""

import re
from collections import Counter, defaultdict, namedtuple

MAX_TEXT = 262_144
MAX_SYMBOLS, MAX_SYMBOL_TEXT, MAX_ARITY = 64, 32, 15
MAX_RULES, MAX_RULE_NODES = 256, 2_048
MAX_NODES, MAX_INTERFACE = 8_192, 64
MAX_NAME = 2**32
MAX_NEXT = MAX_ROUNDS = 2**62
MAX_JOBS, MAX_JOB_NAME, MAX_RUN = 32, 16, 1_000
MAX_BUDGET = 2**32 - 1
STATES = ["running", "paused", "done", "halted", "spent"]

Rule = namedtuple("Rule", "left right left_args right_args names")
Config = namedtuple("Config", "interface equations next")


class Fault(Exception):
    """A text that is refused, with the line that says so."""


class Refusal(Exception):
    """A round that can't be made, or a disk that can't be opened, with the words that say so."""


# Words and tokens.

OTHER_BYTE = re.compile(rb"[^A-Za-z0-9\-{}<>|=,;() \t\r\n]")
TOKEN = re.compile(rb"[A-Za-z0-9\-]+|[{}<>|=,;()]")
NAME = re.compile(r"[a-z]([1-9][0-9]*)?")
SYMBOL = re.compile(r"[A-Z0-9][A-Za-z0-9]*")
JOB_NAME = re.compile(r"[a-z][a-z0-9-]*")
NUMBER = re.compile(r"0|[1-9][0-9]*")


def tokens(text):
    """The tokens of a text; blanks are dropped."""
    if OTHER_BYTE.search(text):
        raise Fault("bad syntax")
    return [token.decode() for token in TOKEN.findall(text)]


def name_number(word):
    """The number of a name; of one with more than 11 digits, some number that is above the limit too."""
    return 26 * int(word[1:12] or 0) + ord(word[0]) - ord("a")


def name_text(name):
    digits, letter = divmod(name, 26)
    return chr(ord("a") + letter) + (str(digits) if digits else "")


# Phrases. A term as it is written is a list of nodes too: a name's number, or a symbol's text and how many arguments it has.


class Reader:
    """Reads phrases from the tokens of a text."""

    def __init__(self, text):
        if len(text) > MAX_TEXT:
            raise Fault("bad limit")
        self.tokens = tokens(text)
        self.tokens.append("")
        self.at = 0

    def next(self):
        return self.tokens[self.at]

    def take(self, form):
        """The next token, which has to be of this form."""
        word = self.tokens[self.at]
        if not form.fullmatch(word):
            raise Fault("bad syntax")
        self.at += 1
        return word

    def mark(self, mark):
        if self.tokens[self.at] != mark:
            raise Fault("bad syntax")
        self.at += 1

    def passes(self, mark):
        """Whether this mark is next, which is then taken."""
        found = self.tokens[self.at] == mark
        self.at += found
        return found

    def listed(self, phrase, separator, end):
        """Phrases with separators between them, or none, and the mark at their end."""
        if self.passes(end):
            return []
        phrases = [phrase()]
        while self.passes(separator):
            phrases.append(phrase())
        self.mark(end)
        return phrases

    def term(self):
        nodes, open_agents = [], []
        while True:
            word = self.next()
            self.at += 1
            if NAME.fullmatch(word):
                nodes.append(name_number(word))
            elif not SYMBOL.fullmatch(word):
                raise Fault("bad syntax")
            elif self.passes("("):
                open_agents.append(len(nodes))
                nodes.append((word, 1))
                continue
            else:
                nodes.append((word, 0))
            while open_agents and self.passes(")"):
                open_agents.pop()
            if not open_agents:
                return nodes
            self.mark(",")
            word, arguments = nodes[open_agents[-1]]
            nodes[open_agents[-1]] = word, arguments + 1

    def agent(self):
        if not SYMBOL.fullmatch(self.next()):
            raise Fault("bad syntax")
        return self.term()

    def rule(self):
        left = self.agent()
        self.mark(">")
        self.mark("<")
        return left, self.agent()

    def equation(self):
        left = self.term()
        self.mark("=")
        return left, self.term()

    def configuration(self):
        self.mark("<")
        return self.listed(self.term, ",", "|"), self.listed(self.equation, ",", ">")

    def system(self):
        self.mark("{")
        return self.listed(self.rule, ";", "}"), *self.configuration()

    def end(self):
        self.mark("")


# Meaning.


class Rules:
    """A rule set: symbols, each with its text and arity, and rules whose names are numbered by first occurrence."""

    def __init__(self, symbols, rules):
        self.symbols, self.rules = symbols, rules
        self.arities = [arity for _, arity in symbols]
        self.found = {}
        for place, rule in enumerate(rules):
            self.found.setdefault((rule.left, rule.right), (place, False))
        for place, rule in enumerate(rules):
            self.found.setdefault((rule.right, rule.left), (place, True))

    def find(self, left, right):
        """The place of the rule of an equation, and whether it is turned, or nothing."""
        if left[0] >= 0 or right[0] >= 0:
            return None
        return self.found.get((~left[0], ~right[0]))

    def arguments(self, agent):
        """The arguments of an agent."""
        arguments, at = [], 1
        for _ in range(self.arities[~agent[0]]):
            begin = at
            wanted = 1
            while wanted:
                node = agent[at]
                wanted += self.arities[~node] - 1 if node < 0 else -1
                at += 1
            arguments.append(agent[begin:at])
        return arguments


def flat(pairs):
    """Both of each pair, in order."""
    return [it for pair in pairs for it in pair]


def names_in(terms):
    return [node for term in terms for node in term if node >= 0]


def numbered(left, right):
    """The arguments of a rule with its names numbered by first occurrence, and how many names there are."""
    numbers = {}
    for name in names_in(left + right):
        numbers.setdefault(name, len(numbers))

    def renamed(terms):
        return [tuple(numbers[node] if node >= 0 else node for node in term) for term in terms]

    return renamed(left), renamed(right), len(numbers)


def first_unpaired(rules):
    """The place from 1 of the first rule with a name that doesn't occur just twice in it."""
    for place, rule in enumerate(rules, 1):
        if any(count != 2 for count in Counter(names_in(rule.left_args + rule.right_args)).values()):
            return place
    return None


def first_repeated(rules):
    """The place from 1 of the first rule whose pair of symbols an earlier one has."""
    pairs = set()
    for place, rule in enumerate(rules, 1):
        pair = frozenset((rule.left, rule.right))
        if pair in pairs:
            return place
        pairs.add(pair)
    return None


def first_lopsided(rules):
    """The place from 1 of the first rule of a symbol with itself that isn't its own swap."""
    for place, rule in enumerate(rules, 1):
        swap = numbered(rule.right_args, rule.left_args)
        if rule.left == rule.right and numbered(rule.left_args, rule.right_args) != swap:
            return place
    return None


def third_occurrence(names):
    seen = Counter()
    for name in names:
        seen[name] += 1
        if seen[name] > 2:
            return name
    return None


def passes_limits(rules, interface, equations):
    """Whether phrases pass a limit on symbols, names, rules or nodes."""
    in_rules, in_config = flat(rules), interface + flat(equations)
    nodes = [node for term in in_rules + in_config for node in term]
    symbols = [node for node in nodes if isinstance(node, tuple)]
    return (
        any(len(text) > MAX_SYMBOL_TEXT or arity > MAX_ARITY for text, arity in symbols)
        or any(node >= MAX_NAME for node in nodes if isinstance(node, int))
        or len({text for text, _ in symbols}) > MAX_SYMBOLS
        or len(rules) > MAX_RULES
        or sum(len(side) - 1 for side in in_rules) > MAX_RULE_NODES
        or len(interface) > MAX_INTERFACE
        or sum(map(len, in_config)) > MAX_NODES
    )


def fits_budget(digits):
    """Whether the digits of a budget, or none, are a budget's."""
    return not digits or (len(digits) <= 10 and 1 <= int(digits) <= MAX_BUDGET)


def meaning(rules, interface, equations, job_name="", budget=""):
    """The rule set and the configuration that phrases mean, or their first fault."""
    if passes_limits(rules, interface, equations) or len(job_name) > MAX_JOB_NAME or not fits_budget(budget):
        raise Fault("bad limit")
    symbols = {}
    sides = flat(rules) + interface + flat(equations)
    for text, arity in (node for side in sides for node in side if isinstance(node, tuple)):
        if symbols.setdefault(text, (len(symbols), arity))[1] != arity:
            raise Fault("bad arity")

    def term(nodes):
        return tuple(node if isinstance(node, int) else ~symbols[node[0]][0] for node in nodes)

    symbol_list = Rules([(text, arity) for text, (_, arity) in symbols.items()], [])
    built = []
    for left, right in rules:
        left, right = term(left), term(right)
        built.append(Rule(~left[0], ~right[0], symbol_list.arguments(left), symbol_list.arguments(right), 0))
    if place := first_unpaired(built):
        raise Fault(f"bad namecount {place}")
    config = configuration([term(it) for it in interface], [(term(left), term(right)) for left, right in equations])
    third = third_occurrence(names_of(config))
    if third is not None:
        raise Fault(f"bad name {name_text(third)}")
    if place := first_repeated(built):
        raise Fault(f"bad twice {place}")
    if place := first_lopsided(built):
        raise Fault(f"bad lopsided {place}")
    built = [Rule(rule.left, rule.right, *numbered(rule.left_args, rule.right_args)) for rule in built]
    return Rules(symbol_list.symbols, built), config


def read_configuration(text):
    """The rule set, without rules, and the configuration that a text means, or its first fault."""
    reader = Reader(text)
    phrases = reader.configuration()
    reader.end()
    return meaning([], *phrases)


def read_system(text):
    """The rule set and the configuration that a text means, or its first fault."""
    reader = Reader(text)
    phrases = reader.system()
    reader.end()
    return meaning(*phrases)


def read_line(text, in_script=False):
    """What a line asks: its first word, or `blank`, and what stands after it. A script has no runs."""
    reader = Reader(text)
    if reader.passes(""):
        return ("blank",)
    word = reader.take(JOB_NAME)
    name = new = number = budget = ""
    if word in ("submit", "copy", "pause", "resume", "cancel", "fetch"):
        name = reader.take(JOB_NAME)
    elif word == "run" and not in_script:
        number = reader.take(NUMBER)
    elif word != "list":
        raise Fault("bad syntax")
    if word == "submit" and reader.next() != "{":
        budget = reader.take(NUMBER)
    if word == "copy":
        new = reader.take(JOB_NAME)
    phrases = reader.system() if word == "submit" else None
    reader.end()
    if phrases:
        return word, name, *meaning(*phrases, name, budget), int(budget) if budget else None
    if max(len(name), len(new)) > MAX_JOB_NAME or len(number) > 4 or int(number or 0) > MAX_RUN:
        raise Fault("bad limit")
    if new:
        return word, name, new
    return (word, int(number)) if number else (word, name)


# Configurations: printing, settling, rounds.


def terms_of(config):
    """The terms of a configuration in the order of the text."""
    return list(config.interface) + flat(config.equations)


def names_of(config):
    return names_in(terms_of(config))


def nodes_of(config):
    return sum(map(len, terms_of(config)))


def configuration(interface, equations):
    """A configuration that is read: its next name stands above all names."""
    config = Config(interface, equations, 0)
    return config._replace(next=max(names_of(config), default=-1) + 1)


def term_text(symbols, term):
    texts, wanted = [], []
    for node in term:
        if node >= 0:
            texts.append(name_text(node))
        else:
            text, arity = symbols[~node]
            texts.append(text)
            if arity:
                texts.append("(")
                wanted.append(arity)
                continue
        while wanted:
            wanted[-1] -= 1
            if wanted[-1]:
                texts.append(",")
                break
            texts.append(")")
            wanted.pop()
    return "".join(texts)


def printed(rules, config):
    interface = ",".join(term_text(rules.symbols, term) for term in config.interface)
    equations = ",".join("=".join(term_text(rules.symbols, side) for side in sides) for sides in config.equations)
    return f"<{interface}|{equations}>"


def put(term, name, other):
    """A term with another one in the place of a name that occurs in it."""
    at = term.index(name)
    return term[:at] + other + term[at + 1 :]


def applicable(equation, occurs_outside):
    """The name and the other side of an equation's first side that is a name which occurs outside of the equation."""
    left, right = equation
    for side, other in ((left, right), (right, left)):
        if side[0] >= 0 and occurs_outside(side[0], other):
            return side[0], other
    return None


def settled(config):
    """A configuration settled: steps are taken at the first equation that allows one, again and again. One that allows
    none never does later, since no step brings a name a new occurrence. So one walk along the equations is enough."""
    interface, equations = list(config.interface), list(config.equations)
    stands = defaultdict(list)
    for place, term in enumerate(interface):
        for name in names_in([term]):
            stands[name].append(("interface", place))
    for place, equation in enumerate(equations):
        for name in names_in(equation):
            stands[name].append(("equation", place))
    stay = []
    for place in range(len(equations)):
        here = "equation", place
        step = applicable(equations[place], lambda name, _: any(it != here for it in stands[name]))
        if step is None:
            stay.append(place)
            continue
        name, other = step
        target = kind, at = next(it for it in stands[name] if it != here)
        for moved in names_in([other]):
            stands[moved].remove(here)
            stands[moved].append(target)
        if kind == "interface":
            interface[at] = put(interface[at], name, other)
        else:
            left, right = equations[at]
            equations[at] = (put(left, name, other), right) if name in left else (left, put(right, name, other))
    return Config(interface, [equations[place] for place in stay], config.next)


def settled_by_steps(config):
    """The same, as docs/rounds.md says it, one step after the other."""
    while True:
        occurs = Counter(names_of(config))
        for place, equation in enumerate(config.equations):
            if step := applicable(equation, lambda name, _: occurs[name] > names_in(equation).count(name)):
                break
        else:
            return config
        rest = config.equations[:place] + config.equations[place + 1 :]
        name, other = step

        def replaced(term):
            return put(term, name, other) if name in term else term

        interface = [replaced(term) for term in config.interface]
        config = Config(interface, [(replaced(left), replaced(right)) for left, right in rest], config.next)


def is_quiet(rules, config):
    """Whether no step is possible. A name occurs at most twice: outside of an equation of which it is a side, where it
    occurs twice and not in the other side."""
    occurs = Counter(names_of(config))
    return not any(
        rules.find(*equation) or applicable(equation, lambda name, other: occurs[name] == 2 and name not in other)
        for equation in config.equations
    )


def instance(terms, base):
    """Terms of a rule with fresh names from a base on."""
    return [tuple(node + base if node >= 0 else node for node in term) for term in terms]


def products(rules, equation, base):
    """The place of the rule by which an equation is active, and what it leaves, with fresh names from a base on; or nothing."""
    found = rules.find(*equation)
    if found is None:
        return None
    place, turned = found
    rule = rules.rules[place]
    left, right = reversed(equation) if turned else equation
    left_pairs = zip(rules.arguments(left), instance(rule.left_args, base))
    return place, [*left_pairs, *zip(rules.arguments(right), instance(rule.right_args, base))]


def fired(rules, config):
    """A configuration with the products of each active equation in its place, not settled."""
    equations, base = [], config.next
    for equation in config.equations:
        if made := products(rules, equation, base):
            place, left = made
            equations += left
            base += rules.rules[place].names
        else:
            equations.append(equation)
    return Config(config.interface, equations, base)


def within_limits(config):
    """A configuration that has been made, if it isn't too great."""
    if nodes_of(config) > MAX_NODES:
        raise Refusal("overgrown")
    if config.next > MAX_NEXT:
        raise Refusal("names out")
    return config


def round_of(rules, config):
    """The configuration after one round, or why there is none."""
    return settled(within_limits(fired(rules, config)))


def name_steps(rules, config, rounds):
    """How many steps put a term for a name in so many rounds, and before the first: each takes an equation away."""
    steps = 0
    for _ in range(rounds + 1):
        after = settled(config)
        steps += len(config.equations) - len(after.equations)
        config = fired(rules, after)
    return steps


# Jobs and tables.


class Job:
    def __init__(self, name, rules, config, rounds=0, state=None, budget=None):
        self.name, self.rules, self.config, self.rounds, self.budget = name, rules, config, rounds, budget
        self.state = state or ("done" if is_quiet(rules, config) else "running")

    def move(self):
        """Makes the next round of a running job, or halts it."""
        try:
            if self.rounds == MAX_ROUNDS:
                raise Refusal("rounds out")
            self.config = round_of(self.rules, self.config)
        except Refusal:
            self.state = "halted"
            return
        self.rounds += 1
        if is_quiet(self.rules, self.config):
            self.state = "done"
        elif self.rounds == self.budget:
            self.state = "spent"

    def shown(self):
        return f"{self.name} {self.state} {self.rounds} {printed(self.rules, self.config)}"


class Table:
    """Jobs in the order in which they began."""

    def __init__(self, jobs=()):
        self.jobs = list(jobs)

    def named(self, name):
        return next((job for job in self.jobs if job.name == name), None)

    def apply(self, word, name=None, *parts):
        """Does a command and answers it."""
        job = self.named(name)
        if word == "list":
            return "".join(["jobs", *(f" {it.name}:{it.state}:{it.rounds}" for it in self.jobs)])
        if word == "submit":
            return self.submit(name, *parts)
        if job is None:
            return "refused nojob"
        if word == "copy":
            return self.submit(*parts, job.rules, job.config)
        if word == "fetch":
            return job.shown()
        if word == "cancel":
            self.jobs.remove(job)
            return "ok"
        before, after = ("running", "paused") if word == "pause" else ("paused", "running")
        if job.state != before:
            return f"refused not{before}"
        job.state = after
        return "ok"

    def submit(self, name, rules, config, budget=None):
        if self.named(name):
            return "refused taken"
        if len(self.jobs) == MAX_JOBS:
            return "refused full"
        self.jobs.append(Job(name, rules, config, budget=budget))
        return "accepted"

    def due(self, after):
        """The place of the first running job from a place on, else of the first running job."""
        running = [place for place, job in enumerate(self.jobs) if job.state == "running"]
        return next((place for place in running if place >= after), running[0] if running else None)
