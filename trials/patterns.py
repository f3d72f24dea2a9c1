"""Rules with nested patterns, drawn: functions over closed values, what Python says that these come to, and an expander of its own.
That one looks at the last argument first, where the program looks at the first one. It shares nothing with the program."""

import rich
from rich import agent, is_name, name, names_in, written

VALUES = {"Z": 0, "S": 1, "Pair": 2}


class Function:
    """Rules of a symbol that meets each value. What it holds comes first, and then its result, in the order of `heads`."""

    def __init__(self, symbol, arity):
        self.symbol, self.arity, self.rules = symbol, arity, []


def matched(pattern, value, bound):
    """Whether a value is as a pattern says, whose names are bound."""
    if is_name(pattern):
        bound[pattern[1]] = value
        return True
    return pattern[1] == value[1] and all(matched(one, other, bound) for one, other in zip(pattern[2], value[2]))


def value_of(term, bound):
    return bound[term[1]] if is_name(term) else agent(term[1], (value_of(it, bound) for it in term[2]))


def called(function, held, value):
    """What a function comes to that holds values and meets one."""
    for patterns, met, calls, result in function.rules:
        bound = {}
        if matched(met, value, bound) and all(matched(one, other, bound) for one, other in zip(patterns, held)):
            for callee, args, over, word in calls:
                bound[word] = called(callee, [value_of(it, bound) for it in args], bound[over])
            return value_of(result, bound)
    raise AssertionError("no rule")


def patterns_of(draw, columns, fresh, depth):
    """Patterns in these columns of names that leave out nothing and don't overlap."""
    if not columns or depth == 0 or draw.random() < 0.35:
        return [columns]
    at, rows = draw.randrange(len(columns)), []
    for symbol, arity in VALUES.items():
        inner = [name(next(fresh)) for _ in range(arity)]
        for row in patterns_of(draw, columns[:at] + columns[at + 1 :] + inner, fresh, depth - 1):
            front = len(columns) - 1
            rows.append(row[:at] + [agent(symbol, row[front:])] + row[at:front])
    return rows


def drawn_body(draw, functions, patterns, met, fresh):
    """What a rule comes to: calls of functions over what the value has within, and a result."""
    free = [it for pattern in patterns for it in names_in(pattern)]
    within, calls = names_in(met), []

    def taken():
        """A term of names that are left and of small values."""
        if free and draw.random() < 0.6:
            return name(free.pop(draw.randrange(len(free))))
        symbol = draw.choice(list(VALUES)) if draw.random() < 0.5 else "Z"
        return agent(symbol, [taken() for _ in range(VALUES[symbol])])

    for _ in range(draw.randint(0, 2)):
        if within:
            over = within.pop(draw.randrange(len(within)))
            callee, word = draw.choice(functions), next(fresh)
            calls.append((callee, [taken() for _ in range(callee.arity)], over, word))
            free.append(word)
    free += within
    return calls, taken()


def drawn_functions(draw, words):
    """Some functions, whose rules leave out nothing."""
    functions = [Function(symbol, draw.randint(0, 2)) for symbol in ("F", "Gg", "H1")[: draw.randint(1, 3)]]
    for function in functions:
        for symbol, arity in VALUES.items():
            fresh = iter(draw.sample(words, len(words)))
            columns = [name(next(fresh)) for _ in range(function.arity + arity)]
            for row in patterns_of(draw, columns, fresh, draw.randint(0, 3)):
                patterns, met = row[: function.arity], agent(symbol, row[function.arity :])
                calls, result = drawn_body(draw, functions, patterns, met, fresh)
                function.rules.append((patterns, met, calls, result))
    return functions


def equations_of(rule, out):
    """The equations of a rule whose result has this name: its calls, its result, and what is erased."""
    patterns, met, calls, result = rule
    equations = [(agent(callee.symbol, [*args, name(word)]), name(over)) for callee, args, over, word in calls] + [(name(out), result)]
    stand = [it for one, other in equations for term in (one, other) for it in names_in(term)]
    made = [word for _, _, _, word in calls]
    lost = [it for pattern in (*patterns, met) for it in names_in(pattern) if it not in stand] + [it for it in made if stand.count(it) < 2]
    return equations + [(name(it), agent("Era")) for it in lost]


def rules_of(functions):
    """Each rule as the two sides and the equations."""
    rules = []
    for function in functions:
        for rule in function.rules:
            patterns, met, _, _ = rule
            rules.append((agent(function.symbol, [*patterns, name("out_")]), met, equations_of(rule, "out_")))
    return rules


def rule_text(draw, rule, say):
    """A rule by an arrow, its sides and those of its equations in an order that is drawn."""
    left, right, equations = rule
    sides = [written(left) if is_name(left) else left[1] + f"({','.join(map(say, left[2]))})", say(right)]
    if draw.random() < 0.3:
        sides.reverse()
    gap = lambda: draw.choice(["", "", " ", "\n", " # a note => ; }\n"])
    draw.shuffle(equations)
    written_out = [f"{say(a)}{gap()}{draw.choice('~=')}{gap()}{say(b)}" for a, b in (it if draw.random() < 0.5 else it[::-1] for it in equations)]
    return f"{sides[0]}{gap()}><{gap()}{sides[1]}{gap()}=>{gap()}" + f",{gap()}".join(written_out)


def drawn_value(draw, depth):
    symbol = draw.choice(list(VALUES)) if depth else "Z"
    return agent(symbol, [drawn_value(draw, depth - 1) for _ in range(VALUES[symbol])])


def drawn_open_text(draw, words):
    """The rules of functions, and a net of calls over values that end in free wires."""
    functions = drawn_functions(draw, words)
    rules = "{" + ";".join([*(rule_text(draw, it, written) for it in rules_of(functions)), "number S Z", "pair Pair", "erase Era"]) + "}"
    free = iter(range(1, 10**6))

    def opened(term):
        if draw.random() < 0.3:
            return name(f"f_{next(free)}")
        return agent(term[1], map(opened, term[2]))

    calls = []
    for number in range(draw.randint(1, 4)):
        function = draw.choice(functions)
        held = [opened(drawn_value(draw, 3)) for _ in range(function.arity)]
        calls.append((agent(function.symbol, [*held, name(f"r_{number}")]), opened(drawn_value(draw, 4))))
    names = [it for call in calls for term in call for it in names_in(term)]
    return rules, rich.net_text(([name(it) for it in names], calls))


def drawn_text(draw, words):
    """A rich text of functions with nested patterns and of calls, the same by an expander of its own, and what its free wires
    come to."""
    functions, say = drawn_functions(draw, words), rich.Shorthand(draw)
    rules = rules_of(functions)
    draw.shuffle(rules)
    calls, results = [], []
    for number in range(draw.randint(1, 5)):
        function = draw.choice(functions)
        held, value = [drawn_value(draw, 3) for _ in range(function.arity)], drawn_value(draw, 5)
        calls.append((agent(function.symbol, [*held, name(f"r_{number}")]), value))
        results.append(written(called(function, held, value)))
    net = ([name(f"r_{number}") for number in range(len(calls))], calls)
    lines = [rule_text(draw, rule, say) for rule in rules] + ["number S Z", "pair Pair", "erase Era"]
    draw.shuffle(lines)
    text = "{" + ";".join(draw.choice(["", " ", "\n"]) + it for it in lines) + "}" + rich.net_text(net, say)
    expanded = "{" + ";".join([*map(rich.plain, expanded_rules(rules)), "erase Era"]) + "}" + rich.net_text(net)
    return text, expanded, f"<{','.join(results)}|>"


def expanded_rules(rules):
    """Rules by arrows without patterns for which rules with patterns stand. Of several places the last one is looked at first."""
    out, groups, numbers = [], {}, iter(range(1, 10**6))
    for left, right, equations in rules:
        groups.setdefault((left[1], right[1]), []).append(([*left[2]], [*right[2]], equations))

    def put(one, lefts, other, rights, equations):
        right_side = ", ".join(f"{written(a)} ~ {written(b)}" for a, b in equations)
        out.append(f"{written(agent(one, lefts))} >< {written(agent(other, rights))} => {right_side}")

    def split(one, other, rows):
        lefts, rights, equations = rows[0]
        count, width = len(lefts), len(lefts) + len(rights)
        whole = [([*a, *b], c) for a, b, c in rows]
        at = next((it for it in reversed(range(width)) if not any(is_name(args[it]) for args, _ in whole)), None)
        if at is None:
            assert len(rows) == 1
            return put(one, lefts, other, rights, equations)
        waits = f"Q{next(numbers)}"
        names = [name(f"n{it}_") for it in range(width)]
        put(one, names[:count], other, names[count:], [(names[at], agent(waits, names[:at] + names[at + 1 :]))])
        inner = {}
        for args, equations in whole:
            inner.setdefault(args[at][1], []).append((args[:at] + args[at + 1 :], [*args[at][2]], equations))
        for symbol, rest in inner.items():
            split(waits, symbol, rest)

    for (one, other), rows in groups.items():
        split(one, other, rows)
    return out


def with_marks(term, mark):
    """A term with a mark after each name."""
    return name(term[1] + mark) if is_name(term) else agent(term[1], (with_marks(it, mark) for it in term[2]))


def spoilt_rule(draw, rules):
    """A rule with patterns that has a fault beside others, the word at whose place it is told, and what is told with the number of
    the rule that is told beside it."""
    several = [it for it in rules if sum((it[0][1], it[1][1]) == (one[1], other[1]) for one, other, _ in rules) > 1]
    if several and draw.random() < 0.6:
        left, right, equations = draw.choice(several)
        first = next(number for number, (one, other, _) in enumerate(rules) if (one[1], other[1]) == (left[1], right[1]))
        if draw.random() < 0.5:
            rule = with_marks(left, "_2"), with_marks(right, "_2"), [(with_marks(a, "_2"), with_marks(b, "_2")) for a, b in equations]
            beside = rules.index((left, right, equations))
        else:
            sides = [agent(it[1], (name(f"{mark}{k}_3") for k in range(len(it[2])))) for it, mark in ((left, "x"), (right, "y"))]
            rule = (*sides, [(name(it), agent("Era")) for side in sides for it in names_in(side)])
            beside = first
        return rule, 0, "some agents fit two rules", beside
    if several and draw.random() < 0.5:
        left, right, equations = draw.choice(several)
        rule = agent(left[1], [*left[2], name("q_more")]), right, [*equations, (name("q_more"), agent("Era"))]
        return rule, 0, "a symbol has one number of arguments", None
    count = draw.randint(8, 20)
    if draw.random() < 0.5:
        rule = agent("Q9", [name("x_9")]), agent("Q9", [agent("S", [name("y_9")])]), [(name("x_9"), name("y_9"))]
        return rule, len("Q9(x_9)><"), "where a symbol meets itself", None
    held = [name(f"x{k}_9") for k in range(count)]
    rule = agent("Q9", held), agent("Q8", [*[name(f"y{k}_9") for k in range(16)], agent("S", [name("z_9")])]), []
    rule = (*rule[:2], [(name(it), agent("Era")) for side in rule[:2] for it in names_in(side)])
    shift = len(f"{written(rule[0])}><{written(rule[1])}") - len("S(z_9))")
    return rule, shift, "an agent of more than 15 arguments", None


def faulty_text(draw, words, faulty):
    """A text with nested patterns and one fault, what is told of it, and where. Of a rule alone `faulty` spoils one."""
    functions, say = drawn_functions(draw, words), rich.Shorthand(draw)
    rules = rules_of(functions)
    draw.shuffle(rules)
    if draw.random() < 0.5:
        number = draw.randrange(len(rules))
        left, right, equations = rules.pop(number)
        front = "{number S Z;pair Pair;" + "".join(rule_text(draw, it, say) + ";" for it in rules)
        given = f"{written(left)} >< {written(right)} => " + ", ".join(f"{written(a)} ~ {written(b)}" for a, b in equations)
        spoilt, kind, at = faulty(draw, given)
        return f"{front}{spoilt}}} <|>", kind, len(front) + at
    (left, right, equations), shift, kind, beside = spoilt_rule(draw, rules)
    front, lines = "{number S Z;pair Pair;", []
    for it in rules:
        lines.append(front.count("\n") + 1)
        front += rule_text(draw, it, say) + ";"
    given = f"{written(left)}><{written(right)}=>" + ", ".join(f"{written(a)} ~ {written(b)}" for a, b in equations)
    if beside is not None:
        kind = f", line {lines[beside]}"
    return f"{front}{given}}} <|>", kind, len(front) + shift
