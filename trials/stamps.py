"""A plain reduction in any order that tells in which round each pair would fire, written from docs/rounds.md: an equation has a
stamp, the number of the round after which it is there."""

from collections import Counter

from nets import Reduction


def is_agent(term):
    return isinstance(term, tuple)


class Stamped(Reduction):
    """A net that is reduced step by step, whose equations and waiting terms have stamps."""

    def __init__(self, rules, config, draws=None):
        super().__init__(rules, config, draws)
        self.fired = Counter()
        self.due = [(left, right, 0 if is_agent(left) and is_agent(right) else 1) for left, right in self.due]

    def run(self, most):
        """Makes steps until no interaction is possible, or so many interactions were made: whether none is possible."""
        while self.due and self.interactions < most:
            at = self.draws.randrange(len(self.due)) if self.draws else -1
            self.due[at], self.due[-1] = self.due[-1], self.due[at]
            left, right, stamp = self.due.pop()
            if is_agent(left) and is_agent(right):
                self.fire_in(stamp + 1, left, right)
            elif is_agent(left) or left not in self.waiting and right in self.waiting:
                self.meet_after(stamp, right, left)
            else:
                self.meet_after(stamp, left, right)
        return not any(self.found(left, right) for left, right, _ in self.due)

    def fire_in(self, turn, left, right):
        """Fires a pair of this round, if it has a rule. What comes of it is there after that."""
        before = self.due
        self.due, made = [], self.interactions
        self.fire(left, right)
        self.fired[turn] += self.interactions - made
        self.due = before + [(*sides, turn) for sides in self.due]

    def meet_after(self, stamp, name, other):
        """What waits for the name meets the other side, and the greater stamp is that of both. Or the other side waits from now on."""
        if name == other:
            self.left.append((name, other))
        elif name in self.waiting:
            term, since = self.waiting.pop(name)
            self.due.append((term, other, max(stamp, since)))
        else:
            self.waiting[name] = other, stamp

    def profile(self):
        """How many pairs each round would fire, from the first one on."""
        return [self.fired[it] for it in range(1, max(+self.fired, default=0) + 1)]
