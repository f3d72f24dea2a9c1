"""Stamps: that those of the plain model are rounds, over drawn systems, whatever order its steps are taken in. So many are drawn as the
variable SYSTEMS says, of 400 if it isn't set."""

import os

import draws
import model
from program import Trial
from stamps import Stamped

SYSTEMS = int(os.environ.get("SYSTEMS") or 400)

# How many rounds the model makes of a system, and how many nodes its net may have, before the system counts as one that never ends.
PATIENT, LARGE = 60, 4_000


def rounds_of(rules, config):
    """How many pairs each round fires, up to the last one that fires some; or nothing if the rounds come to no end."""
    pairs = []
    while not model.is_quiet(rules, config):
        if len(pairs) == PATIENT or model.nodes_of(config) > LARGE:
            return None
        pairs.append(sum(rules.find(*it) is not None for it in config.equations))
        config = model.settled(model.fired(rules, config))
    while pairs and not pairs[-1]:
        pairs.pop()
    return pairs


class StampsOfTheModel(Trial):
    needs_program = False
    seconds = 20

    def test_stamps_are_rounds_in_any_order(self):
        drawn, ended = self.draws(), 0
        for _ in range(SYSTEMS):
            rules, config = draws.system(drawn, drawn.choice([1, 2, 3, 5]), drawn.choice([2, 3, 4]))
            pairs = rounds_of(rules, config)
            if pairs is None:
                continue
            ended += 1
            for order in (drawn, None):
                plain = Stamped(rules, config, order)
                self.equals(draws.system_text(rules, config), "it ends", True, plain.run(sum(pairs)))
                self.equals(draws.system_text(rules, config), "pairs of each round", pairs, plain.profile())
        self.equals("the model", f"more than a third of {SYSTEMS} systems end: {ended}", True, ended > SYSTEMS // 3)
