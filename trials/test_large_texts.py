"""Texts that pass what is served: `reduce` takes them, of a hundred thousand nodes, of a million, on one line or on a million
lines, as deep as they are long, of many symbols and rules, and other commands and `--limits served` refuse them with the
sentence of the limit."""

import re

import model
from known import ADD, TEXT_WORDS, words_for
from program import IN_MEMORY, Trial, run

# The limits of what is served.
NODES, TERMS, BYTES, SYMBOLS, RULES, RULE_NODES = 8_192, 64, 262_144, 64, 256, 2_048

SERVED = ["--limits", "served"]

# Those of symbols for `reduce`, and of the numbers of names.
WIDE_SYMBOLS, MAX_NAME = 65_536, 2**32 - 1

TOO_MANY_NODES = f"a configuration has at most {NODES} nodes"
TOO_MANY_TERMS = f"an interface has at most {TERMS} terms"
TOO_MANY_BYTES = f"a text has at most {BYTES} bytes"
TOO_MANY_SYMBOLS = f"a text has at most {SYMBOLS} different symbols"
TOO_MANY_RULES = f"a system has at most {RULES} rules"
TOO_LONG_RULES = f"the arguments of all rules together have at most {RULE_NODES} nodes"
TOO_LONG_RULE = f"the arguments of one rule have at most {RULE_NODES} nodes"

# Where a fault is and what it is, after the first line of a refusal.
PLACE = re.compile(rb"line (\d+), column (\d+)\n(?:.*\n){2}(.*)\n")


def numeral(number):
    return "S(" * number + "Z" + ")" * number


def sums(drawn, nodes, parted=","):
    """A system of additions of some so many nodes in all, its answer, and how many interactions it takes."""
    terms, equations, answers, made, count = [], [], [], 0, 0
    while count < nodes:
        name, left, right = model.name_text(len(terms)), drawn.randint(0, 6), drawn.randint(0, 6)
        terms.append(name)
        equations.append(f"Add({name},{numeral(left)})={numeral(right)}")
        answers.append(numeral(left + right))
        made += right + 1
        count += 5 + left + right
    return f"{ADD}{parted}<{parted.join([',' * bool(it) + term for it, term in enumerate(terms)])}|" + \
        parted.join([',' * bool(it) + text for it, text in enumerate(equations)]) + ">", f"<{','.join(answers)}|>", made


def wheel(states, moves, steps):
    """A system in which N1, N2 and so on turn the states A0, A1 and so on by 1, 2 and so on, and begin with A0."""
    rules = [f"A{state}><N{move}(A{(state + move) % states})" for state in range(states) for move in range(1, moves + 1)]
    term = "r"
    for move in reversed(steps):
        term = f"N{move}({term})"
    return "{" + ";".join(rules) + "}" + f" <r|{term}=A0>", f"<A{sum(steps) % states}|>"


def chain(length):
    """A system in which N turns A0 into A1, and so on to the last symbol, by a rule each. It has N and these symbols."""
    rules = [f"A{number}><N(A{number + 1})" for number in range(length)]
    return "{" + ";".join(rules) + "}" + f" <r|{'N(' * length}r{')' * length}=A0>", f"<A{length}|>"


def long_rule(nodes, left="A", right="B"):
    """A rule whose arguments have so many nodes, the last of which is a name at its end."""
    return f"{left}({'S(' * (nodes - 2)}x{')' * (nodes - 2)})><{right}(x)"


class Large(Trial):
    rooms = IN_MEMORY
    seconds = 60

    def reduces(self, text, out, made, *words):
        ran = run("reduce", "--stats", *words, given=text)
        told, _, rest = ran.err.partition(b", ")
        self.equals(ran.command, "status and interactions", (0, f"icserve: interactions {made}".encode()), (ran.status, told))
        self.agrees(ran.command, "standard output", out.encode() + b"\n", ran.out)

    def refused(self, words, text, sentence, line=1, column=None):
        """Fails unless a text is refused at a limit, and the sentence of the limit is told at this place."""
        ran = run(*words, given=text)
        self.equals(ran.command, "status and first line", (1, b"icserve: bad limit\n", b""), (ran.status, ran.err, ran.out))
        told = PLACE.fullmatch(ran.after)
        self.equals(ran.command, "line and sentence", (line, sentence.encode()), (int(told[1]), told[3]))
        if column is not None:
            self.equals(ran.command, "column", column, int(told[2]))

    def test_a_hundred_thousand_nodes_and_a_million(self):
        drawn = self.draws()
        for nodes in (100_000, 1_000_000):
            text, answer, made = sums(drawn, nodes, "")
            self.reduces(text, answer, made)
            self.reduces(text, answer, made, "--limits", "wide")
            self.refused(["reduce", "--limits", "served"], text, TOO_MANY_BYTES if len(text) > BYTES else TOO_MANY_TERMS)

    def test_the_answer_is_a_text_that_is_read_again(self):
        text, answer, _ = sums(self.draws(), 100_000, "")
        rules = text[: text.index("}") + 1]
        self.reduces(rules + answer, answer, 0)

    def test_one_line_and_a_million_lines(self):
        drawn = self.draws()
        text, answer, made = sums(drawn, 400_000, "\n")
        lines = text.replace("(", "\n(\n").replace(")", "\n)\n")
        self.equals("the text", f"a million lines: {lines.count(chr(10))}", True, lines.count("\n") > 900_000)
        self.reduces(lines, answer, made)
        self.reduces("".join(text.split()), answer, made)
        spoilt = lines + "\n;"
        ran = run("reduce", given=spoilt)
        self.equals(ran.command, "status and first line", (1, b"icserve: bad syntax\n"), (ran.status, ran.err))
        told = PLACE.fullmatch(ran.after)
        self.equals(ran.command, "where it is", (spoilt.count("\n") + 1, 1), (int(told[1]), int(told[2])))
        ran = run("reduce", given="".join(text.split()) + ";")
        self.equals(ran.command, "where it is", (1, len("".join(text.split())) + 1), tuple(map(int, PLACE.fullmatch(ran.after).groups()[:2])))

    def test_a_million_agents_one_in_the_other(self):
        for deep in (numeral(1_000_000), "P(" * 500_000 + "Z" + ",Z)" * 500_000):
            self.reduces(f"{{}} <{deep}|>", f"<{deep}|>", 0)
        half = numeral(500_000)
        self.reduces(f"{ADD} <r|Add(r,{half})={half}>", f"<{numeral(1_000_000)}|>", 500_001)

    def test_one_node_more_than_is_served(self):
        for nodes in (NODES, NODES + 1):
            config = f"<{numeral(nodes - 1)}|>"
            self.reduces(f"{{A><B}} {config}", config, 0)
            served = [[word] for word in words_for("configuration", "system", "either") if word not in ("reduce", "trace")]
            for words in (["reduce", *SERVED], ["reduce", "--rounds", 1, *SERVED], ["trace", *SERVED], *served):
                text = f"{{A><B}} {config}" if TEXT_WORDS[words[0]] == "system" else config
                if nodes == NODES:
                    self.equals(words, "status", 0, run(*words, given=text).status)
                else:
                    self.refused(words, text, TOO_MANY_NODES, column=text.index("Z") + 1)
        self.serves(self.disk(), [f"submit large {{A><B}} {config}"], ["bad limit"])

    def test_one_term_more_than_is_served(self):
        for count in (TERMS, TERMS + 1, 50_000):
            config = f"<{','.join(['Z'] * count)}|>"
            self.reduces(f"{{}} {config}", config, 0)
            for words in (["reduce", "--limits", "served"], ["once"]):
                if count <= TERMS:
                    self.equals(words, "status", 0, run(*words, given=f"{{}} {config}").status)
                else:
                    self.refused(words, f"{{}} {config}", TOO_MANY_TERMS, column=5 + 2 * TERMS)

    def test_other_limits_stay_as_they_are(self):
        many = ",".join(["Z"] * 10_000)
        for faulty, sentence in (
            ("A" * 33, "a symbol has at most 32 bytes"),
            (f"B({','.join(['C'] * 16)})", "a symbol has at most 15 arguments"),
            ("v165191050", "the number of a name is at most 4294967295"),
        ):
            self.refused(["reduce"], f"{{}} <{many},{faulty}|>", sentence, column=5 + 2 * 10_000)

    def test_one_symbol_more_than_is_served(self):
        for count in (SYMBOLS, SYMBOLS + 1):
            config = f"<{'('.join(f'S{it}' for it in range(count))}{')' * (count - 1)}|>"
            self.reduces(f"{{}} {config}", config, 0)
            for words in (["reduce", *SERVED], ["reduce", "--rounds", 1, *SERVED], ["once"], ["trace", *SERVED]):
                text = f"{{}} {config}"
                if count == SYMBOLS:
                    self.equals(words, "status", 0, run(*words, given=text).status)
                else:
                    self.refused(words, text, TOO_MANY_SYMBOLS, column=text.index("S64") + 1)

    def test_sixty_five_symbols_and_three_hundred_rules(self):
        steps = [self.draws().randint(1, 5) for _ in range(1_000)]
        text, answer = wheel(60, 5, steps)
        self.reduces(text, answer, len(steps))
        self.refused(["reduce", "--limits", "served"], text, TOO_MANY_RULES, column=text.index("A51><N2") + 1)
        for words in (["reduce", "--rounds", 1, *SERVED], ["once"], ["trace", *SERVED]):
            self.refused(words, text, TOO_MANY_RULES)
        self.serves(self.disk(), [f"submit large {text}"], ["bad limit"])

    def test_a_hundred_symbols_and_their_rules(self):
        text, answer = chain(99)
        self.reduces(text, answer, 99)
        # N and A0 to A62 are 64 symbols.
        self.refused(["reduce", "--limits", "served"], text, TOO_MANY_SYMBOLS, column=text.index("A63") + 1)
        self.refused(["once"], text, TOO_MANY_SYMBOLS)
        self.serves(self.disk(), [f"submit large {text}"], ["bad limit"])

    def test_as_many_symbols_as_there_may_be(self):
        # N and A0 to A65534 are as many as there may be.
        text, answer = chain(WIDE_SYMBOLS - 2)
        self.reduces(text, answer, WIDE_SYMBOLS - 2)
        one_more = text.replace("<r|", "<r,Z|")
        self.refused(["reduce"], one_more, f"a text has at most {WIDE_SYMBOLS} different symbols", column=one_more.index("Z") + 1)

    def test_nodes_of_one_rule_and_of_all(self):
        config = "<|>"
        rules = ";".join(long_rule(1_000, f"A{it}", f"B{it}") for it in range(5))
        self.reduces(f"{{{rules}}} {config}", config, 0)
        self.refused(["reduce", "--limits", "served"], f"{{{rules}}} {config}", TOO_LONG_RULES)
        self.refused(["once"], f"{{{rules}}} {config}", TOO_LONG_RULES)
        self.serves(self.disk(), [f"submit large {{{rules}}} {config}"], ["bad limit"])
        for nodes in (RULE_NODES, RULE_NODES + 1):
            text = f"{{{long_rule(nodes)};{long_rule(nodes, 'C', 'D')}}} {config}"
            last = text.index("x);") + 1
            if nodes == RULE_NODES:
                self.reduces(text, config, 0)
                self.refused(["reduce", "--limits", "served"], text, TOO_LONG_RULES, column=text.index("C(") + 3)
            else:
                self.refused(["reduce"], text, TOO_LONG_RULE, column=last)
                self.refused(["once"], text, TOO_LONG_RULES, column=last)

    def test_a_name_that_stands_three_times_is_found(self):
        names = [model.name_text(it) for it in range(100_000)]
        text = "{} <" + ",".join(names + names) + ",a|>"
        ran = run("reduce", given=text)
        self.equals(ran.command, "status and first line", (1, b"icserve: bad name a\n"), (ran.status, ran.err))
        self.equals(ran.command, "the column", len(text) - 2, int(PLACE.fullmatch(ran.after)[2]))

    def test_names_near_each_other_and_far_apart(self):
        drawn = self.draws()
        near, far = range(50_000), drawn.sample(range(50_000, MAX_NAME + 1), 50_000)
        twice = [*near, *near, *far, *far]
        drawn.shuffle(twice)
        numbers = {}
        told = [numbers.setdefault(name, len(numbers)) for name in twice]
        text, answer = (f"<{','.join(map(model.name_text, names))}|>" for names in (twice, told))
        self.reduces(f"{{}} {text}", answer, 0)
        once = sorted(set(twice), key=lambda _: drawn.random())
        text = f"<{','.join(map(model.name_text, once))}|>"
        self.reduces(f"{{}} {text}", text, 0)

    def test_thousands_of_symbols_in_any_order(self):
        drawn = self.draws()
        symbols = [f"{drawn.choice('AZ09')}{number}{'z' * drawn.randint(0, 20)}" for number in range(5_000)]
        arities = {it: drawn.randint(0, 3) for it in symbols}
        constants = [it for it in symbols if not arities[it]]
        terms = []
        for _ in range(40_000):
            symbol = drawn.choice(symbols)
            listed = ",".join(drawn.choice(constants) for _ in range(arities[symbol]))
            terms.append(f"{symbol}({listed})" if listed else symbol)
        text = f"<{','.join(terms)}|>"
        self.reduces(f"{{}} {text}", text, 0)
        wrong = next(it for it in symbols if arities[it] == 1 and f"{it}(" in text)
        ran = run("reduce", given=f"{{}} {text[:-2]},{wrong}|>")
        self.equals(ran.command, "status and first line", (1, b"icserve: bad arity\n"), (ran.status, ran.err))
        self.equals(ran.command, "the column", len(text) + 3, int(PLACE.fullmatch(ran.after)[2]))

    def test_a_text_of_more_bytes_than_are_served(self):
        for count in (BYTES, BYTES + 1, 10 * BYTES):
            text = " " * (count - 6) + "{} <|>"
            self.reduces(text, "<|>", 0)
            if count > BYTES:
                self.refused(["reduce", "--limits", "served"], text, TOO_MANY_BYTES)
                self.refused(["trace", *SERVED], text, TOO_MANY_BYTES)
