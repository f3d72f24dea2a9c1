"""Rich texts with rules by arrows, drawn, and an expander of their own: it takes equations away one at a time, each by writing
one side in the place where its name stands again. It shares nothing with the program, and takes no care of time."""

import re

TOKEN = re.compile(r"[A-Za-z0-9_]+|=>|\S")


class Refused(Exception):
    """Why a rule stands for none."""


def uncommented(text):
    return re.sub(r"#[^\n]*", "", text)


def place_of(text, word):
    """Where a word first stands in a text, outside its comments."""
    shown = re.sub(r"#[^\n]*", lambda it: "#" * len(it[0]), text)
    return re.search(rf"(?<![A-Za-z0-9_]){word}(?![A-Za-z0-9_])", shown).start()


def heads(rule):
    """The symbols of the two sides of a rule."""
    left, right, _ = read_rule(rule)
    return left[1], right[1]


def is_name(term):
    return term[0] == "name"


def agent(symbol, args=()):
    return ("agent", symbol, tuple(args))


def name(word):
    return ("name", word, ())


def read_term(tokens):
    """The term with which a list of tokens begins, which are taken from it."""
    word = tokens.pop(0)
    if word[0].islower():
        return name(word)
    args = []
    if tokens and tokens[0] == "(":
        while tokens.pop(0) != ")":
            args.append(read_term(tokens))
            if tokens[0] == ")":
                tokens.pop(0)
                break
    return agent(word, args)


def written(term):
    kind, word, args = term
    return word + (f"({','.join(map(written, args))})" if args else "")


def names_in(term):
    return [term[1]] if is_name(term) else [it for arg in term[2] for it in names_in(arg)]


def replaced(term, word, other):
    kind, symbol, args = term
    if kind == "name":
        return other if symbol == word else term
    return agent(symbol, (replaced(arg, word, other) for arg in args))


def read_rule(text):
    """The two sides of a rule, and its equations, or none where it has no arrow."""
    tokens = TOKEN.findall(text)
    left = read_term(tokens)
    assert [tokens.pop(0), tokens.pop(0)] == [">", "<"]
    right = read_term(tokens)
    equations = []
    if tokens and tokens.pop(0) == "=>":
        while tokens:
            one = read_term(tokens)
            assert tokens.pop(0) in "~="
            equations.append((one, read_term(tokens)))
            assert not tokens or tokens.pop(0) == ","
    return left, right, equations


def plain(text):
    """The rule of the calculus for which a rule by an arrow stands."""
    left, right, equations = read_rule(text)
    left_names, all_names = names_in(left) + names_in(right), []
    for one, other in equations:
        all_names += names_in(one) + names_in(other)
    if len(set(left_names)) < len(left_names):
        raise Refused("twice left")
    for word in left_names:
        if all_names.count(word) != 1:
            raise Refused("not right" if word not in all_names else "twice right")
    for word in all_names:
        if word not in left_names and all_names.count(word) != 2:
            raise Refused("once right" if all_names.count(word) == 1 else "thrice right")
    while equations:
        one, other = equations.pop()
        if not is_name(one):
            one, other = other, one
        if not is_name(one):
            raise Refused("meeting")
        word = one[1]
        if word in names_in(other):
            raise Refused("circle")
        left, right = replaced(left, word, other), replaced(right, word, other)
        equations = [(replaced(a, word, other), replaced(b, word, other)) for a, b in equations]
    return f"{written(left)}><{written(right)}"


def canonical(text):
    """A text with its names by first occurrence, rule by rule, and without blanks."""
    parts = []
    for part in re.split(r"([{};])", re.sub(r"\s", "", text)):
        numbers = {}
        parts.append(re.sub(r"(?<![A-Za-z0-9_])[a-z][A-Za-z0-9_]*", lambda it: f"n{numbers.setdefault(it[0], len(numbers) + 1)}", part))
    return "".join(parts)


def drawn_rule(draw, symbols, words, say=written):
    """A rule of the calculus, and one by an arrow for which it stands. The terms of the plain one are cut at places that are
    drawn, and each piece is put into an equation of its own, in which `say` writes terms."""
    fresh = iter(draw.sample(words, len(words)))
    arities = dict(symbols)
    one, other = draw.sample(list(arities), 2)
    places = arities[one] + arities[other]
    loose = []

    def drawn(depth):
        if depth == 0 or draw.random() < 0.35:
            loose.append(None)
            return ["loose", len(loose) - 1]
        symbol = draw.choice(list(arities))
        return [symbol, [drawn(depth - 1) for _ in range(arities[symbol])]]

    arguments = [drawn(draw.randint(0, 3)) for _ in range(places)]
    if len(loose) % 2:
        return drawn_rule(draw, symbols, words, say)
    order = list(range(len(loose)))
    draw.shuffle(order)
    for first, second in zip(order[::2], order[1::2]):
        loose[first] = loose[second] = next(fresh)

    def grown(term):
        return name(loose[term[1]]) if term[0] == "loose" else agent(term[0], map(grown, term[1]))

    arguments = [grown(it) for it in arguments]
    at = arities[one]
    wanted = f"{written(agent(one, arguments[:at]))}><{written(agent(other, arguments[at:]))}"
    equations = []

    def cut(term, always=False):
        """A term with some of its parts cut off, each into an equation."""
        grown_up = term if is_name(term) else agent(term[1], map(cut, term[2]))
        if not always and draw.random() < 0.7:
            return grown_up
        word = name(next(fresh))
        while True:
            put(word, grown_up)
            if draw.random() < 0.8:
                return word
            grown_up, word = word, name(next(fresh))

    def put(first, second):
        equations.append((first, second) if draw.random() < 0.5 else (second, first))

    heads = [cut(it, always=True) for it in arguments]
    draw.shuffle(equations)
    gap = lambda: draw.choice(["", "", " ", "\n", " # a note => ; }\n"])
    right = (gap() + "," + gap()).join(f"{say(a)}{gap()}{draw.choice('~=')}{gap()}{say(b)}" for a, b in equations)
    sides = [written(agent(one, heads[:at])), written(agent(other, heads[at:]))]
    return wanted, f"{sides[0]}{gap()}>{gap()}<{gap()}{sides[1]}{gap()}=>{gap()}{right}{draw.choice(['', gap() + ',']) if equations else ''}"


def drawn_net(draw, symbols):
    """A configuration in which each name stands once or twice: its free terms, and its equations."""
    words = [f"w{k}" for k in range(1, 13)] * 2
    draw.shuffle(words)

    def drawn(depth):
        if words and (depth == 0 or draw.random() < 0.3):
            return name(words.pop())
        symbol = draw.choice([it for it in symbols if depth or not symbols[it]])
        return agent(symbol, [drawn(max(depth - 1, 0)) for _ in range(symbols[symbol])])

    free = [drawn(0) for _ in range(draw.randint(0, 3))]
    return free, [(drawn(3), drawn(3)) for _ in range(draw.randint(1, 5))]


def net_text(net, say=written):
    free, equations = net
    return f"<{','.join(map(say, free))}|{','.join(f'{say(one)}={say(other)}' for one, other in equations)}>"


class Shorthand:
    """Writes terms with numbers, lists and pairs where they may stand, and names some closed ones."""

    def __init__(self, draw, lets=None):
        self.draw = draw
        self.lets = lets

    def __call__(self, term):
        draw, (kind, symbol, args) = self.draw, term
        if self.lets is not None and not names_in(term) and draw.random() < 0.2:
            lets, self.lets = self.lets, None
            word = f"t_{len(lets) + 1}"
            lets.append(f"let {word} = {self(term)}{draw.choice(['', ';', chr(10)])}")
            self.lets = lets
            return word
        if kind == "name" or draw.random() < 0.2:
            return symbol + (f"({','.join(map(self, args))})" if args else "")
        if symbol in ("S", "Z"):
            count = 0
            while term[1] == "S" and term[0] == "agent" and not (count and draw.random() < 0.1):
                count, term = count + 1, term[2][0]
            if term == agent("Z"):
                return str(count)
            return f"S{draw.choice(['', ' '])}^{draw.choice(['', ' '])}{count}({self(term)})"
        if symbol in ("Cons", "Nil"):
            terms = []
            while term[1] == "Cons" and not (terms and draw.random() < 0.1):
                terms.append(self(term[2][0]))
                term = term[2][1]
            if term == agent("Nil"):
                return f"[{', '.join(terms)}]"
            return f"[{','.join(terms)}|{self(term)}]"
        if symbol == "Pair":
            return f"({self(args[0])},{self(args[1])})"
        return symbol + (f"({','.join(map(self, args))})" if args else "")


DECLARATIONS = ["number S Z", "list Cons Nil", "pair Pair"]


def drawn_shorthands(draw, symbols, words, count):
    """A text of the calculus, and one with shorthands for which it stands."""
    say, pairs, plain_rules, rules = Shorthand(draw), set(), [], list(DECLARATIONS)
    while len(plain_rules) < count:
        wanted, arrow = drawn_rule(draw, symbols, words, say)
        pair = frozenset(heads(wanted))
        if pair not in pairs:
            pairs.add(pair)
            plain_rules.append(wanted)
            left, right, _ = read_rule(wanted)
            by_sides = "><".join(it[1] + (f"({','.join(map(say, it[2]))})" if it[2] else "") for it in (left, right))
            rules.append((arrow if draw.random() < 0.7 else by_sides, wanted))
    draw.shuffle(rules)
    plain_rules = [it[1] for it in rules if isinstance(it, tuple)]
    rules = [it if isinstance(it, str) else it[0] for it in rules]
    net, lets = drawn_net(draw, symbols), []
    gap = lambda: draw.choice(["", " ", "\n"])
    named = net_text(net, Shorthand(draw, lets))
    if net[1] and draw.random() < 0.5:
        named = named[:-1] + gap() + "," + gap() + ">"
    front = "{" + ";".join(gap() + it + gap() for it in rules) + draw.choice(["", ";", " ; \n"]) + "}" + gap()
    lets = "".join(it + ("" if it.endswith((";", "\n")) else " ") for it in lets)
    return "{" + ";".join(plain_rules) + "}" + net_text(net), front + lets + named
