"""Small systems that look drawn by chance, the same in each run, over A and B of one argument, C of none and D of two."""


class Draws:
    """Numbers that look drawn by chance: a linear congruential generator, Knuth's MMIX."""

    def __init__(self, seed):
        self.state = seed

    def below(self, count):
        """A number below a count, which is taken for 1 where it is 0."""
        self.state = (self.state * 6_364_136_223_846_793_005 + 1_442_695_040_888_963_407) % 2**64
        return (self.state >> 33) % max(count, 1)


class Writer:
    """Writes the texts of systems."""

    def __init__(self, seed):
        self.draws = Draws(seed)
        # The names that are left to be written, each as often as it is to occur.
        self.pool = []

    def systems(self, count):
        return (self.system() for _ in range(count))

    def system(self):
        """Rules of drawn pairs of symbols and of drawn symbols with themselves, and a configuration."""
        rules = [self.rule(*pair) for pair in ("AB", "AC", "AD", "BC", "BD", "CD") if self.draws.below(3)]
        turned = ("A(a)><A(a)", "B(a)><B(a)", "C><C", "D(a,b)><D(b,a)")
        rules += [rule for rule in turned if self.draws.below(2)]
        return "{" + ";".join(rules) + "}" + self.configuration()

    def rule(self, one, other):
        """The rule of two symbols, with one name or two. A name that occurs once there is C."""
        self.pool = list("aabb" if self.draws.below(2) else "aa")
        text = f"{self.agent(one)}><{self.agent(other)}"
        return "".join("C" if it.islower() and text.count(it) == 1 else it for it in text)

    def configuration(self):
        """Up to two terms of an interface and six equations, with up to seven names, most of them twice."""
        names = "abcdefg"[: self.draws.below(8)]
        self.pool = [it for name in names for it in name * (2 if self.draws.below(6) else 1)]
        interface = [self.term() for _ in range(self.draws.below(3))]
        equations = [f"{self.term()}={self.term()}" for _ in range(self.draws.below(7))]
        return f"<{','.join(interface)}|{','.join(equations)}>"

    def agent(self, symbol):
        arguments = [self.term() for _ in range({"C": 0, "D": 2}.get(symbol, 1))]
        return f"{symbol}({','.join(arguments)})" if arguments else symbol

    def term(self):
        """A name, A or B round one, C, or D round two."""
        kind = self.draws.below(8)
        symbol, count = {4: ("A", 1), 5: ("B", 1), 6: ("C", 0), 7: ("D", 2)}.get(kind, ("", 1))
        leaves = ",".join(self.leaf() for _ in range(count))
        return f"{symbol}({leaves})" if symbol and leaves else symbol or leaves

    def leaf(self):
        """A name of the pool, or C where none is left."""
        if not self.pool:
            return "C"
        at = self.draws.below(len(self.pool))
        self.pool[at], self.pool[-1] = self.pool[-1], self.pool[at]
        return self.pool.pop()
