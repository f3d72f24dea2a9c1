"""What the drawn trials draw from: terms, rules, systems and lines of all sizes up to the limits, well and badly formed.

Each function takes the numbers that it draws from, a `random.Random`. Terms are those of `model`, which prints them.
"""

import string

import model
from model import MAX_NAME, Rule, Rules
from program import TOP

LETTERS = string.ascii_uppercase + string.digits
TEXTS = LETTERS + string.ascii_lowercase
BYTES = b"{}<>|=,;() \t\r\n-ABZaxz019"
HOLE = 0


def symbol_text(draws, longest=6):
    return draws.choice(LETTERS) + "".join(draws.choices(TEXTS, k=draws.randrange(longest)))


def symbols(draws, count, widest=3, longest=6):
    """So many symbols with different texts; the first has no argument."""
    texts = set()
    while len(texts) < count:
        texts.add(symbol_text(draws, longest))
    texts = sorted(texts)
    draws.shuffle(texts)
    return [(text, draws.randint(0, widest) if place else 0) for place, text in enumerate(texts)]


class Terms:
    """Draws terms over symbols. Where a name is to stand, a term has a hole."""

    def __init__(self, draws, arities, holes=0.3):
        self.draws, self.holes = draws, holes
        # The symbols with at most so many arguments.
        self.fitting = [[~place for place, arity in enumerate(arities) if arity <= room] for room in range(16)]
        self.arities = arities

    def rest(self, nodes, wanted, size):
        """Goes on with nodes of which so many terms are wanted yet, to that size about."""
        draws = self.draws
        while wanted:
            room = size - len(nodes) - wanted
            fitting = self.fitting[max(0, min(room, 15))]
            if not fitting or room <= 0 and draws.random() < 0.7 or draws.random() < self.holes:
                nodes.append(HOLE)
                wanted -= 1
            else:
                nodes.append(draws.choice(fitting))
                wanted += self.arities[~nodes[-1]] - 1
        return nodes

    def term(self, size):
        return self.rest([], 1, size)

    def agent(self, symbol, size):
        return self.rest([~symbol], self.arities[symbol], size)

    def arguments(self, symbol, size):
        return [self.term(size) for _ in range(self.arities[symbol])]


def holes_of(terms):
    return [(term, at) for term in terms for at, node in enumerate(term) if node == HOLE]


def fill(holes, names):
    for (term, at), name in zip(holes, names):
        term[at] = name


def rule(draws, terms, left, right, size=2, lopsided=0.0):
    """A rule of two symbols, each name twice in it. Of a symbol with itself one that is its own swap; the share `lopsided`
    of them need not be."""
    left_args = terms.arguments(left, size)
    if left == right and draws.random() >= lopsided:
        right_args = [list(term) for term in left_args]
        count = len(holes_of(left_args))
        turned = list(range(count))
        for at in range(0, count - 1, 2):
            if draws.random() < 0.5:
                turned[at], turned[at + 1] = turned[at + 1], turned[at]
        fill(holes_of(left_args), range(count))
        fill(holes_of(right_args), turned)
    else:
        right_args = terms.arguments(right, size)
        holes = holes_of(left_args + right_args)
        if len(holes) % 2:
            term, at = holes.pop(draws.randrange(len(holes)))
            term[at] = ~0
        names = [at // 2 for at in range(len(holes))]
        draws.shuffle(names)
        fill(holes, names)
    freed = [[tuple(term) for term in side] for side in (left_args, right_args)]
    return Rule(left, right, *model.numbered(*freed))


def rules(draws, symbol_list, count, size=2, lopsided=0.0):
    """A rule set with so many rules, or as many as there are pairs."""
    terms = Terms(draws, [arity for _, arity in symbol_list], holes=0.55)
    pairs = set()
    for _ in range(4 * count):
        if len(pairs) < count:
            pairs.add(tuple(sorted(draws.choices(range(len(symbol_list)), k=2))))
    drawn = []
    for left, right in sorted(pairs, key=lambda _: draws.random()):
        if draws.random() < 0.5:
            left, right = right, left
        drawn.append(rule(draws, terms, left, right, size, lopsided))
    return Rules(symbol_list, drawn)


def names(draws, count, greatest=None):
    """Names for so many places, each once or twice, with numbers below a bound."""
    different = max(1, count - draws.randint(0, count // 2))
    greatest = greatest or draws.choice([different + 1, 2 * different + 20, 10_000, MAX_NAME])
    chosen = draws.sample(range(max(greatest, different)), different)
    drawn = chosen + chosen[: count - different]
    draws.shuffle(drawn)
    return drawn


def configuration(draws, rule_set, interface=2, equations=3, size=4, greatest=None, active=0.7):
    """A configuration over these rules. Where there are rules, such a share of its equations is active."""
    terms = Terms(draws, rule_set.arities)
    face = [terms.term(size) for _ in range(interface)]
    pairs = []
    for _ in range(equations):
        if rule_set.rules and draws.random() < active:
            pair = draws.choice(rule_set.rules)
            sides = [terms.agent(pair.left, size), terms.agent(pair.right, size)]
            draws.shuffle(sides)
        else:
            sides = [terms.term(size), terms.term(size)]
        pairs.append(sides)
    nodes = sum(map(len, face + model.flat(pairs)))
    while nodes > model.MAX_NODES:
        nodes -= sum(map(len, pairs.pop()))
    holes = holes_of(face + model.flat(pairs))
    fill(holes, names(draws, len(holes), greatest))
    return model.configuration([tuple(it) for it in face], [(tuple(left), tuple(right)) for left, right in pairs])


def rule_text(rule_set, it):
    sides = [(~it.left, *model.flat(it.left_args)), (~it.right, *model.flat(it.right_args))]
    return "><".join(model.term_text(rule_set.symbols, side) for side in sides)


def system_text(rule_set, config):
    """The text of a system. Names of rules are numbered there as in the rule set."""
    listed = ";".join(rule_text(rule_set, it) for it in rule_set.rules)
    return "{" + listed + "}" + model.printed(rule_set, config)


def system(draws, size=1, widest=3, lopsided=0.0):
    """A system of a size from 1 on: about so many symbols, rules and equations as it says."""
    count = min(64, draws.randint(1, 2 + 2 * size))
    longest = draws.choice([1, 6, 32])
    symbol_list = symbols(draws, count, draws.choice([widest, 2, 1]), max(longest, 2 if count > 20 else 1))
    rule_set = rules(draws, symbol_list, min(256, draws.randint(0, 3 * size)), lopsided=lopsided)
    interface, equations = draws.randint(0, min(64, 3 * size)), draws.randint(0, 3 * size)
    return rule_set, configuration(draws, rule_set, interface, equations, draws.randint(1, 6))


def sized_system(draws, least, most):
    """The text of a system of a size between these, in bytes."""
    symbol_list = symbols(draws, draws.randint(2, 12), 4, draws.choice([2, 6, 32]))
    rule_set = rules(draws, symbol_list, draws.randint(0, 14))
    terms = Terms(draws, rule_set.arities)
    target = draws.randint(least, most)
    one = len(system_text(rule_set, configuration(draws, rule_set, 0, 20, 5))) / 20
    text = system_text(rule_set, configuration(draws, rule_set, 2, max(1, int(target / one)), 5))
    return text if least <= len(text) <= most else padded(draws, text, target)


def padded(draws, text, size):
    """A text with blanks at its marks, so that it has this size where it was shorter."""
    wanted = size - len(text)
    places = [at for at, letter in enumerate(text) if letter in "{}<>|=,;()"]
    for _ in range(min(8, max(0, wanted))):
        at = draws.choice(places)
        share = draws.randint(0, wanted)
        text = text[:at] + blanks(draws, share) + text[at:]
        wanted -= share
        places = [it for it in places if it <= at]
    return text + blanks(draws, max(0, wanted))


def blanks(draws, count):
    return draws.choice(" \t\r") * count


def known_rules():
    """The rule sets of the folder `examples`, by the names of the files."""
    texts = {path.stem: path.read_bytes() for path in sorted((TOP / "examples").glob("*.ic"))}
    return {name: model.read_system(text)[0] for name, text in texts.items() if b"{" in text}


def spaced(draws, text):
    """A text with some blanks between its tokens."""
    between = draws.choice([" ", "  ", "\t", " \r"])
    return "".join(between + it + between if it in "{}<>|=,;()" and draws.random() < 0.3 else it for it in text)


def spoilt(draws, text):
    """A text with something changed: one word by another one of its kind, a byte, a token, a part left out, twice there or
    at another place."""
    how = draws.randrange(14)
    if how > 6:
        return altered(draws, text)
    at = draws.randrange(len(text) + 1)
    if how == 0:
        return text[:at] + bytes([draws.randrange(256)]) + text[at + 1 :]
    if how == 1:
        return text[:at] + draws.choice(BYTES).to_bytes(1, "big") + text[at + draws.randrange(2) :]
    if how == 2:
        return text[:at]
    parts = model.TOKEN.findall(text) or [b""]
    one, two = sorted(draws.choices(range(len(parts)), k=2))
    if how == 3:
        parts[one:two] = []
    elif how == 4:
        parts[one:one] = parts[one : min(two, one + 40)]
    elif how == 5:
        parts[one], parts[two] = parts[two], parts[one]
    else:
        parts[one] = draws.choice(parts)
    return joined(parts)


def altered(draws, text):
    """A text with one word changed by another one of its kind, which stands in the text too or which is new."""
    parts = model.TOKEN.findall(text)
    words = [at for at, part in enumerate(parts) if part[:1].isalnum()]
    if not words:
        return text
    at = draws.choice(words)
    is_name = parts[at][:1].islower()
    alike = [parts[it] for it in words if parts[it][:1].islower() == is_name]
    fresh = model.name_text(draws.choice([0, 27, MAX_NAME - 1])) if is_name else symbol_text(draws, 32)
    parts[at] = draws.choice([draws.choice(alike), fresh.encode()])
    return joined(parts)


def renamed(draws, text):
    """A text with one name changed to another one that stands in it."""
    parts = model.TOKEN.findall(text)
    places = [at for at, part in enumerate(parts) if part[:1].islower()]
    if places:
        parts[draws.choice(places)] = parts[draws.choice(places)]
    return joined(parts)


def joined(parts):
    """A text of tokens, with blanks only where two words would become one."""
    marks = [part[:1] in b"{}<>|=,;()" for part in parts]
    between = [b"" if one or two else b" " for one, two in zip(marks, marks[1:])]
    return b"".join(model.flat(zip(parts, between + [b""])))
