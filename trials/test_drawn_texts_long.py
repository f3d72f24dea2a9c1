"""200,000 drawn texts, well and badly formed: what the program reads, prints and refuses is what the model does. They take some
two minutes of one processor, and are run by name: python3 trials texts_long."""

from test_drawn_texts import TextTrial, of_faulty_rules, of_several_faults, spoilt, well_formed

# How many texts of each of the four kinds.
EACH = 50_000

# How many are given to one server.
AT_ONCE = 1_000


class ManyDrawnTexts(TextTrial):
    def reads_drawn(self, kind):
        drawn = self.draws()
        for _ in range(EACH // AT_ONCE):
            self.reads([kind(drawn) for _ in range(AT_ONCE)])

    def test_systems(self):
        self.reads_drawn(well_formed)

    def test_spoilt_systems(self):
        self.reads_drawn(spoilt)

    def test_several_faults_at_once(self):
        self.reads_drawn(of_several_faults)

    def test_rules_with_faults(self):
        self.reads_drawn(of_faulty_rules)
