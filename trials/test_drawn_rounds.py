"""Rounds of drawn systems, of one active equation to as many as fit, by one thread and by many."""

import draws
import model
from against_model import ModelTrial

LOOP = "{A(B(x))><B(A(x))}"
ADDITION = "{Add(x,x)><Z;Add(S(x),y)><S(Add(x,y))}"
GROWING = "{A(B(x),S(y))><B(A(x,y))}"


def loops(count, names=None, one="A", two="B"):
    """So many active pairs of a system that never ends."""
    pairs = (f"{one}({name})={two}({name})" for name in map(model.name_text, names or range(count)))
    return f"{{{one}({two}(x))><{two}({one}(x))}}<|{','.join(pairs)}>"


def numeral(number):
    return "S(" * number + "Z" + ")" * number


class DrawnRounds(ModelTrial):
    seconds = 10

    def makes_rounds(self, texts, rounds, *words, every=100):
        """Each text is submitted, run so many rounds at a time, shown after each and cancelled."""
        lines = []
        for text in texts:
            lines.append(f"submit a {text}")
            for count in rounds:
                lines += [f"run {count}", "fetch a", "list"]
            lines.append("cancel a")
        return self.serve(self.new_disk(), lines, *words, every=every)

    def test_one_round_of_1_to_1_300_active_pairs(self):
        drawn = self.draws()
        counts = [1, 2, 3, 63, 64, 65, 127, 128, 199, 200, 201, 255, 256, 257, 512, 999, 1_000, 1_001, 1_300]
        for count in counts + [drawn.randint(1, 1_300) for _ in range(60)]:
            symbols = draws.symbols(drawn, drawn.randint(2, 6), drawn.choice([1, 2]))
            rule_set = draws.rules(drawn, symbols, drawn.randint(1, 6), size=drawn.choice([1, 2]))
            config = draws.configuration(drawn, rule_set, drawn.randrange(9), count, 1, active=1.0)
            self.streamed("once", draws.system_text(rule_set, config).encode())

    def test_as_many_pairs_as_fit(self):
        for count in (1_364, 1_365, 1_366, 2_047, 2_048):
            self.streamed("once", loops(count).encode())
            self.makes_rounds([loops(count)], [0, 1, 1, 2], "--workers", 3)

    def test_systems_round_by_round(self):
        drawn = self.draws()
        texts = []
        for _ in range(250):
            rule_set, config = draws.system(drawn, drawn.choice([1, 2, 3, 5]), drawn.choice([2, 3, 4]))
            texts.append(draws.system_text(rule_set, config))
        self.makes_rounds(texts, [1, 1, 1, 2, 5])

    def test_more_than_8_rules_and_more_than_4_arguments(self):
        drawn = self.draws()
        texts = []
        for _ in range(60):
            symbols = draws.symbols(drawn, drawn.randint(4, 64), drawn.choice([5, 8, 15]), 4)
            rule_set = draws.rules(drawn, symbols, drawn.choice([9, 16, 17, 40, 100]), size=1)
            while sum(len(term) for it in rule_set.rules for term in it.left_args + it.right_args) > 2_048:
                rule_set = model.Rules(symbols, rule_set.rules[: len(rule_set.rules) // 2])
            config = draws.configuration(drawn, rule_set, drawn.randrange(20), drawn.randint(1, 60), 3)
            texts.append(draws.system_text(rule_set, config))
        self.makes_rounds(texts, [1, 1, 3])

    def test_256_rules(self):
        drawn = self.draws()
        symbols = draws.symbols(drawn, 40, 1, 3)
        rule_set = draws.rules(drawn, symbols, 256, size=1)
        texts = []
        for equations in (3, 30, 300, 600):
            config = draws.configuration(drawn, rule_set, 3, equations, 2, active=0.9)
            texts.append(draws.system_text(rule_set, config))
        self.makes_rounds(texts, [1, 1, 2])

    def test_known_rules_over_drawn_configurations(self):
        drawn = self.draws()
        texts = []
        for _ in range(120):
            rule_set = drawn.choice(list(draws.known_rules().values()))
            equations, size = drawn.randint(1, 20), drawn.choice([2, 5, 9])
            config = draws.configuration(drawn, rule_set, drawn.randrange(6), equations, size)
            texts.append(draws.system_text(rule_set, config))
        self.makes_rounds(texts, [1, 2, 3, 10])

    def test_sums(self):
        drawn = self.draws()
        texts = []
        for _ in range(25):
            sums = [(drawn.randrange(20), drawn.randrange(20)) for _ in range(drawn.randint(1, 30))]
            names = draws.names(drawn, len(sums), drawn.choice([100, 2**32]))
            names = list(dict.fromkeys(names))
            face = ",".join(map(model.name_text, names))
            pairs = zip(names, sums)
            parts = [f"Add({model.name_text(it)},{numeral(one)})={numeral(two)}" for it, (one, two) in pairs]
            body = ",".join(parts)
            texts.append(f"{ADDITION}<{face}|{body}>")
        self.makes_rounds(texts, [1, 1, 5, 30])

    def test_growth_up_to_the_halt(self):
        for rest in (8_150, 8_170, 8_178, 8_180, 8_181, 8_182):
            text = f"{GROWING}<r,{'S(' * rest}Z{')' * rest}|A(x,r)=B(x)>"
            self.makes_rounds([text], [1, 1, 40])

    def test_systems_that_grow(self):
        drawn = self.draws()
        texts = []
        for _ in range(60):
            symbols = draws.symbols(drawn, drawn.randint(3, 6), 3)
            rule_set = draws.rules(drawn, symbols, drawn.randint(6, 15), size=drawn.choice([3, 4, 6]))
            config = draws.configuration(drawn, rule_set, drawn.randrange(5), drawn.randint(3, 30), 6, active=1.0)
            texts.append(draws.system_text(rule_set, config))
        self.makes_rounds(texts, [1, 1, 5, 60], "--workers", drawn.randint(1, 64))

    def test_rounds_of_a_thousand_pairs_with_any_number_of_workers(self):
        """The serving's own thread makes those of one job, however many workers there may be."""
        drawn = self.draws()
        for workers in [1, 2, 3, 4, 7, 8, 16, 31, 32, 33, 63, 64] + [drawn.randint(1, 64) for _ in range(8)]:
            count = drawn.choice([999, 1_000, 1_001, drawn.randint(1_000, 1_365)])
            names = draws.names(drawn, count)
            names += [name for name in range(2 * count) if name not in set(names)]
            names = list(dict.fromkeys(names))[:count]
            self.makes_rounds([loops(count, names)], [1, 2], "--workers", workers)

    def test_threads_over_drawn_pairs(self):
        """Jobs of 2,000 equations and more are made by threads. Of pairs of so few nodes some fire, and some are stuck."""
        drawn = self.draws()
        for _ in range(20):
            texts = []
            for _ in range(drawn.randint(2, 5)):
                count = drawn.choice([999, 1_000, 1_001, 4_096])
                pairs = ",".join(drawn.choice(["A=B", "B=A", "C=C", "C=A", "B=B"]) for _ in range(count))
                texts.append(f"{{A><B;C><C}}<|{pairs}>")
            lines = [f"submit {name} {text}" for name, text in zip("abcde", texts)]
            for rounds in (3, 20):
                lines += [f"run {rounds}", *(f"fetch {name}" for name in "abcde"[: len(texts)]), "list"]
            self.serve(self.new_disk(), lines, "--workers", drawn.randint(1, 64))
