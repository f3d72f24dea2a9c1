"""Single steps of configurations, written from docs/calculus.md: which there are, and what each leaves. Terms are those of
`model`. Also what the steps of a round are, of which it makes several at once."""

import model
from model import Refusal
from nets import form_in

# An equation has five steps at most: its interaction; indirection, which puts a side for the name that the other is, in
# another equation; collect, which puts it in the interface; and the last two with the sides exchanged before, so that of
# `x=y` either name is replaced.
STEPS_AT = 5
KINDS = ["interact", "indirect", "collect", "indirect", "collect"]


def interaction(rules, config, place):
    """The configuration after the interaction of an equation, and the place of its rule; or nothing."""
    made = model.products(rules, config.equations[place], config.next)
    if made is None:
        return None
    rule, left = made
    equations = [*config.equations[:place], *left, *config.equations[place + 1 :]]
    after = config._replace(equations=equations, next=config.next + rules.rules[rule].names)
    return model.within_limits(after), rule


def replacement(config, place, kind, turned=False):
    """The configuration after a name that is a side of an equation is replaced by the other one, where that stands; or
    nothing."""
    sides = config.equations[place][:: -1 if turned else 1]
    rest = [*config.equations[:place], *config.equations[place + 1 :]]
    for (name, *_), other in (sides, sides[::-1]):
        if name < 0:
            continue
        if kind == "collect" and any(name in term for term in config.interface):
            return config._replace(interface=[put(it, name, other) for it in config.interface], equations=rest)
        if kind == "indirect" and any(name in term for term in model.flat(rest)):
            rest = [(put(left, name, other), put(right, name, other)) for left, right in rest]
            return config._replace(equations=rest)
    return None


def put(term, name, other):
    return model.put(term, name, other) if name in term else term


def numbers_of(config):
    """The numbers that steps may have: those of the first equation, then those of the next."""
    return range(STEPS_AT * len(config.equations))


def step(rules, config, number):
    """What the step of a number leaves, and the place of the rule that it fires, if it fires one; or nothing."""
    place, kind = divmod(number, STEPS_AT)
    is_pair = all(side[0] < 0 for side in config.equations[place])
    if is_pair or kind == 0:
        return interaction(rules, config, place) if is_pair and kind == 0 else None
    after = replacement(config, place, KINDS[kind], kind > 2)
    return after and (after, None)


def steps_of(rules, config):
    """Each step that is possible, by its number: what it leaves and the place of its rule, in the order of the numbers."""
    return {number: made for number in numbers_of(config) if (made := step(rules, config, number))}


def net_of(rules, config):
    """The form of the net of a configuration."""
    return form_in(rules, config.interface, config.equations)


def works_of(rules, config):
    """For each active equation the place of its rule, the first of its fresh names and how many equations it leaves."""
    works, base = [], config.next
    for equation in config.equations:
        if made := model.products(rules, equation, base):
            place, left = made
            works.append((place, base, len(left)))
            base += rules.rules[place].names
    return works


class Counts:
    """How often each rule fired, and how many names were replaced."""

    def __init__(self, rules):
        self.firings, self.names = [0] * len(rules.rules), 0

    def __eq__(self, other):
        return (self.firings, self.names) == (other.firings, other.names)

    def add(self, rule):
        """Counts a step that fires a rule, or replaces a name where there is none."""
        if rule is None:
            self.names += 1
        else:
            self.firings[rule] += 1

    def steps(self):
        return sum(self.firings) + self.names


# A system of rows ends by so many rounds, and has so many nodes before and after each at most.
MOST_ROUNDS, MOST_NODES = 12, 300


def ended_by_rounds(rules, config):
    """The end by rounds and its steps, where it has one: an interaction leaves an equation for each argument, and each name
    that is replaced takes one away."""
    counts = Counts(rules)
    for _ in range(MOST_ROUNDS):
        if model.is_quiet(rules, config) or model.nodes_of(config) > MOST_NODES:
            break
        for place, _, _ in works_of(rules, config):
            counts.add(place)
        fired = model.within_limits(model.fired(rules, config))
        config = model.settled(fired)
        counts.names += len(fired.equations) - len(config.equations)
    is_end = model.is_quiet(rules, config) and model.nodes_of(config) <= MOST_NODES
    return (config, counts) if is_end else None


def key_of(config):
    """What is the same of equal configurations, and can be looked up."""
    return tuple(config.interface), tuple(config.equations), config.next


class Orders:
    """Orders of the single steps of a system. What was found of a configuration is kept, since many orders come by it."""

    def __init__(self, rules):
        self.rules, self.steps, self.nets = rules, {}, {}

    def found(self, kept, find, config):
        key = key_of(config)
        if key not in kept:
            kept[key] = find(self.rules, config)
        return kept[key]

    def net(self, config):
        return self.found(self.nets, net_of, config)

    def drawn(self, config, draws, most):
        """The end by at most so many single steps in a drawn order, and how many of each kind it made. A step that replaces a
        name has to leave the net."""
        counts = Counts(self.rules)
        for _ in range(most):
            steps = self.found(self.steps, steps_of, config)
            first = draws.below(len(numbers_of(config)))
            if not steps:
                break
            after, rule = steps[min(steps, key=lambda it: (it < first, it))]
            if rule is None and self.net(config) != self.net(after):
                raise Refusal(f"a replaced name changes the net of {config}")
            counts.add(rule)
            config = after
        return config, counts


def all_ends(rules, config):
    """All ends that single steps reach, in the order in which they are found."""
    found, left, seen = [], [config], set()
    while left:
        config = left.pop()
        if key_of(config) in seen:
            continue
        seen.add(key_of(config))
        reached = [after for after, _ in steps_of(rules, config).values()]
        left += reversed(reached)
        if not reached:
            found.append(config)
    return found


def most_nodes(rules, config, backwards=False):
    """The most nodes that there are after any step, and the end, where the first step that is possible is taken each time, or
    the last one. A step that is too great is a `Refusal`."""
    most = model.nodes_of(config)
    while made := next(filter(None, (step(rules, config, it) for it in numbers_of(config)[:: -1 if backwards else 1])), None):
        config, _ = made
        most = max(most, model.nodes_of(config))
    return most, config
