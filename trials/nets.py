"""Nets without the program: a plain reduction by steps in any order, written from docs/calculus.md, and a form that two
configurations share just where they are one net. Terms are those of `model`."""

from collections import Counter, defaultdict

import model

# The names of a reduction are numbers; an agent is a pair of its symbol's number and its arguments.


def tree(arities, nodes):
    """A term as a name, or as a pair of a symbol and the terms of its arguments."""
    stack = []
    for node in reversed(nodes):
        if node >= 0:
            stack.append(node)
        else:
            symbol = ~node
            arguments = tuple(stack.pop() for _ in range(arities[symbol]))
            stack.append((symbol, arguments))
    return stack.pop()


class Reduction:
    """A net that is reduced step by step: equations to come, what waits for the other end of each name, and what is left."""

    def __init__(self, rules, config, draws=None):
        self.rules, self.draws = rules, draws
        self.interface = [tree(rules.arities, it) for it in config.interface]
        self.due = [tuple(tree(rules.arities, side) for side in sides) for sides in config.equations]
        self.waiting, self.left = {}, []
        self.next, self.interactions = config.next, 0
        self.sides = [self.of_rule(rule) for rule in rules.rules]

    def of_rule(self, rule):
        return [[tree(self.rules.arities, it) for it in args] for args in (rule.left_args, rule.right_args)]

    def run(self, most):
        """Makes steps until no interaction is possible, or so many interactions were made: whether none is possible."""
        while self.due:
            if self.interactions == most and any(self.found(*it) for it in self.due):
                return False
            at = self.draws.randrange(len(self.due)) if self.draws else -1
            self.due[at], self.due[-1] = self.due[-1], self.due[at]
            left, right = self.due.pop()
            if isinstance(left, tuple) and isinstance(right, tuple):
                if self.interactions == most and self.found(left, right):
                    self.due.insert(0, (left, right))
                    continue
                self.fire(left, right)
            elif isinstance(left, tuple) or left not in self.waiting and right in self.waiting:
                self.meet(right, left)
            else:
                self.meet(left, right)
        return True

    def found(self, left, right):
        is_pair = isinstance(left, tuple) and isinstance(right, tuple)
        return self.rules.find((~left[0],), (~right[0],)) if is_pair else None

    def meet(self, name, other):
        """What waits for the name meets the other side, or that waits for the name from now on."""
        if name == other:
            self.left.append((name, other))
        elif name in self.waiting:
            self.due.append((self.waiting.pop(name), other))
        else:
            self.waiting[name] = other

    def fire(self, left, right):
        found = self.found(left, right)
        if found is None:
            self.left.append((left, right))
            return
        place, turned = found
        if turned:
            left, right = right, left
        self.interactions += 1
        for agent, terms in zip((left, right), self.sides[place]):
            self.due += zip(agent[1], (self.renamed(it) for it in terms))
        self.next += self.rules.rules[place].names

    def renamed(self, term):
        """A copy of a rule's small term, with fresh names."""
        if isinstance(term, int):
            return term + self.next
        return term[0], tuple(self.renamed(it) for it in term[1])

    def net(self):
        """The form of the net as it stands."""
        equations = self.due + self.left + list(self.waiting.items())
        return form(self.interface, equations, [text for text, _ in self.rules.symbols])


def phrases_of(line):
    """The interface and the equations of a configuration that was printed, however long it is."""
    reader = model.Reader(b"")
    reader.tokens, reader.at = [*model.tokens(line.rstrip(b"\n")), ""], 0
    phrases = reader.configuration()
    reader.end()
    return phrases


def puttable(line):
    """The names of a configuration that was printed for which a term could be put: sides of equations that occur elsewhere."""
    interface, equations = phrases_of(line)
    everywhere = Counter(it for term in (*interface, *model.flat(equations)) for it in term if isinstance(it, int))
    found = []
    for sides in equations:
        here = Counter(it for it in model.flat(sides) if isinstance(it, int))
        found += [side[0] for side in sides if isinstance(side[0], int) and everywhere[side[0]] > here[side[0]]]
    return found


def circle_in(equations):
    """The symbol at which the first circle of equations is closed, which are of terms that were read: an equation of a name with a term that
    has this name. Of a name that is joined with itself it is `x=x`."""
    for sides in equations:
        for side, other in (sides, sides[::-1]):
            if isinstance(side[0], int) and side[0] in other:
                return "x=x" if isinstance(other[0], int) else other[0][0]
    return None


def circle_line(line):
    """What standard error is told of the first circle of a configuration that was printed."""
    symbol = circle_in(phrases_of(line)[1])
    return f"icserve: circle at {symbol}\n".encode() if symbol else b""


def terms_of(rules, line):
    """The interface and the equations of a configuration that was printed, as terms over the symbols of these rules."""
    interface, equations = phrases_of(line)
    places = {text: place for place, (text, _) in enumerate(rules.symbols)}

    def term(nodes):
        return [it if isinstance(it, int) else ~places[it[0]] for it in nodes]

    return [term(it) for it in interface], [(term(left), term(right)) for left, right in equations]


def form_of(rules, line):
    """The form of the net of a configuration that was printed, over the symbols of these rules."""
    return form_in(rules, *terms_of(rules, line))


def trees(rules, interface, equations):
    """The terms of an interface and of equations, each as a name or as a pair."""

    def term(nodes):
        return tree(rules.arities, nodes)

    return [term(it) for it in interface], [(term(left), term(right)) for left, right in equations]


def form_in(rules, interface, equations):
    """The form of the net of these terms and equations over the symbols of rules."""
    return form(*trees(rules, interface, equations), [text for text, _ in rules.symbols])


class Wires:
    """The wires between the ends of a net: an end is a place of the interface, a free name, or an agent and a port."""

    def __init__(self):
        self.symbols, self.arities = [], []
        self.other = defaultdict(list)
        self.names = defaultdict(list)

    def agent(self, symbol, arity):
        self.symbols.append(symbol)
        self.arities.append(arity)
        return len(self.symbols) - 1

    def join(self, one, two):
        self.other[one].append(two)
        self.other[two].append(one)

    def put(self, end, term):
        """A term stands at this end."""
        due = [(end, term)]
        while due:
            end, term = due.pop()
            if isinstance(term, int):
                self.names[term].append(end)
                continue
            number = self.agent(term[0], len(term[1]))
            self.join(end, ("A", number, 0))
            due += [(("A", number, port), it) for port, it in enumerate(term[1], 1)]

    def close(self):
        """Joins the ends of names."""
        for name, ends in self.names.items():
            self.join(ends[0], ends[1] if len(ends) == 2 else ("F", name))

    def beyond(self, end):
        """The end at the other side of the wire from here. The two ends of an equation are points on a wire."""
        before, at = end, self.other[end][0]
        while at[0] == "E":
            one, two = self.other[at]
            before, at = at, two if one == before else one
        return at


def form(interface, equations, texts):
    """A form that is the same for configurations just where they are one net: names, the order and the sides of equations,
    and where terms stand are no matter. Free names are."""
    wires = Wires()
    for place, it in enumerate(interface):
        wires.put(("I", place), it)
    for place, sides in enumerate(equations):
        for side, it in enumerate(sides):
            wires.put(("E", place, side), it)
        wires.join(("E", place, 0), ("E", place, 1))
    wires.close()
    roots = [("I", place) for place in range(len(interface))]
    roots += sorted(it for it in wires.other if it[0] == "F")
    seen = {}
    rooted = [walked(wires, texts, wires.beyond(it), seen) for it in roots]
    return rooted, sorted(apart(wires, texts, seen)), loops(wires)


def walked(wires, texts, start, numbers):
    """What is met from an end on, agent by agent and port by port. Agents are numbered as they are met."""
    told, due = [], [start]
    while due:
        end = due.pop()
        if end[0] != "A":
            told.append(end)
            continue
        _, agent, port = end
        is_new = agent not in numbers
        number = numbers.setdefault(agent, len(numbers))
        told.append((number, port))
        if is_new:
            told.append((texts[wires.symbols[agent]], wires.arities[agent]))
            ports = [it for it in range(wires.arities[agent], -1, -1)]
            due += [wires.beyond(("A", agent, it)) for it in ports if it != port]
    return tuple(told)


def apart(wires, texts, seen):
    """What hangs at no place of the interface and at no free name: each part as it is told from the agent that tells least."""
    for first in range(len(wires.symbols)):
        if first in seen:
            continue
        told, met = around(wires, texts, first)
        # Those of the rarest symbol begin, so that few are tried.
        among = defaultdict(list)
        for agent in met:
            among[texts[wires.symbols[agent]], wires.arities[agent]].append(agent)
        begin = min(among, key=lambda it: (len(among[it]), it))
        seen.update(met)
        yield min(told if it == first else around(wires, texts, it)[0] for it in among[begin])


def around(wires, texts, agent):
    """What is met from an agent on, and which agents are."""
    numbers = {}
    ends = [("A", agent, 0), wires.beyond(("A", agent, 0))]
    return repr([walked(wires, texts, it, numbers) for it in ends]), numbers


def loops(wires):
    """How many wires are closed in themselves."""
    on_wires = set()
    for end in list(wires.other):
        if end[0] != "E":
            before, at = end, wires.other[end][0]
            while at[0] == "E":
                on_wires.add(at)
                one, two = wires.other[at]
                before, at = at, two if one == before else one
    left = {end for end in wires.other if end[0] == "E"} - on_wires
    count = 0
    while left:
        count += 1
        due = [next(iter(left))]
        while due:
            end = due.pop()
            if end in left:
                left.remove(end)
                due += wires.other[end]
    return count
