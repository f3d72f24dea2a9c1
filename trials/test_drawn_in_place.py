"""Drawn systems that are reduced in place: to the net of the rounds and of a plain model that takes its steps in any order, by
as many interactions. So many are drawn as the variable SYSTEMS says, of 400 if it isn't set."""

import os

import draws
import model
import nets
from program import IN_MEMORY, Trial, run
from test_in_place import InPlace, name_steps_of, stats_of

SYSTEMS = int(os.environ.get("SYSTEMS") or 400)

# How many interactions the model makes of a system before it counts as one that never ends.
PATIENT = 2_000


class DrawnInPlace(Trial):
    rooms = IN_MEMORY
    seconds = 20

    def setUp(self):
        super().setUp()
        self.drawn_from = self.draws()
        self.seen = {"quiet": 0, "by rounds": 0, "cut": 0, "unending": 0, "stuck": 0, "circles": 0}

    def all_are_reduced(self, system):
        """Draws a quarter of the systems by this function, and reduces each."""
        for _ in range(max(1, SYSTEMS // 4)):
            rules, config = system(self.drawn_from)
            text = draws.system_text(rules, config)
            plain = nets.Reduction(rules, config, self.drawn_from)
            if plain.run(PATIENT):
                self.ends_alike(rules, text, plain, config)
            else:
                self.never_ends(rules, text)

    def ends_alike(self, rules, text, plain, config):
        self.seen["quiet"] += 1
        ran = run("reduce", "--stats", given=text)
        made, _, rest = stats_of(ran.err)
        self.equals(ran.command, "status and interactions", (0, plain.interactions), (ran.status, made))
        wanted = plain.net()
        self.equals(ran.command, "the model's net", wanted, nets.form_of(rules, ran.out))
        self.equals(ran.command, "standard error", self.stuck_line(ran.out) + nets.circle_line(ran.out), rest)
        self.seen["circles"] += b"circle" in rest
        self.equals(ran.command, "names for which a term could be put", [], nets.puttable(ran.out))
        by_rounds = run("reduce", "--rounds", 10_000, given=text)
        if by_rounds.status == 0:
            self.seen["by rounds"] += 1
            self.equals(by_rounds.command, "the model's net", wanted, nets.form_of(rules, by_rounds.out))
            table = run("trace", "--rounds", 10_000, given=text).out.splitlines()[1:]
            self.equals(by_rounds.command, "interactions of all rounds", made, sum(int(it.split(b"\t")[1]) for it in table))
            steps = model.name_steps(rules, config, len(table))
            self.equals(ran.command, "the model's name steps", steps, name_steps_of(ran.err))
        if made:
            self.goes_on(rules, text, made, wanted)

    def stuck_line(self, line):
        """What is told of the first equation of two agents."""
        for left, right in nets.phrases_of(line)[1]:
            if isinstance(left[0], tuple) and isinstance(right[0], tuple):
                self.seen["stuck"] += 1
                return f"icserve: stuck {left[0][0]}><{right[0][0]}\n".encode()
        return b""

    def goes_on(self, rules, text, made, wanted):
        """A reduction that is cut anywhere goes on to the same net, by the interactions that are left."""
        first = self.drawn_from.randrange(made)
        cut = run("reduce", "--steps", first, "--stats", given=text)
        self.equals(cut.command, "status and what is told", (5, first, b"icserve: not done\n"), (cut.status, *stats_of(cut.err)[::2]))
        rest = run("reduce", "--stats", given=text[: text.index("}") + 1].encode() + cut.out)
        if rest.err == b"icserve: bad limit\n":
            return
        self.seen["cut"] += 1
        self.equals(rest.command, "status and interactions", (0, made - first), (rest.status, stats_of(rest.err)[0]))
        self.equals(rest.command, "the model's net", wanted, nets.form_of(rules, rest.out))

    def never_ends(self, rules, text):
        self.seen["unending"] += 1
        for count in (0, self.drawn_from.randrange(1, PATIENT)):
            cut = run("reduce", "--steps", count, "--stats", given=text)
            self.equals(cut.command, "status and what is told", (5, count, b"icserve: not done\n"), (cut.status, *stats_of(cut.err)[::2]))
        again = run("reduce", "--steps", count, given=text)
        self.agrees(again.command, "the same bytes a second time", cut.out, again.out)

    def have_come(self, **least):
        """Fails where fewer of a kind were drawn than should be, of each hundred."""
        for kind, count in least.items():
            kind = kind.replace("_", " ")
            enough = self.seen[kind] >= count * (SYSTEMS // 4) // 100
            self.equals(self.id(), f"{count} of a hundred are {kind}: {self.seen}", True, enough)

    def test_systems(self):
        self.all_are_reduced(lambda it: draws.system(it, it.choice([1, 2, 3, 5]), it.choice([2, 3, 4])))
        self.have_come(quiet=80, by_rounds=70, cut=20, stuck=20, circles=1)

    def test_systems_with_many_active_pairs(self):
        def system(drawn):
            symbols = draws.symbols(drawn, drawn.randint(2, 6), drawn.choice([1, 2, 3]))
            rule_set = draws.rules(drawn, symbols, drawn.randint(1, 12), size=drawn.choice([1, 2, 3]))
            return rule_set, draws.configuration(drawn, rule_set, drawn.randrange(5), drawn.randint(1, 30), drawn.choice([2, 4, 6]), active=1.0)

        self.all_are_reduced(system)
        self.have_come(quiet=40, by_rounds=30, cut=30)

    def test_circles_at_which_terms_hang(self):
        def system(drawn):
            cells = range(drawn.randint(1, 12))
            users = [drawn.choice(cells) for _ in cells]
            equations = []
            for cell in cells:
                names = [model.name_text(it) for it in cells if users[it] == cell]
                terms = names + ["Z"] * drawn.randrange(2)
                drawn.shuffle(terms)
                agent = chr(ord("A") + len(terms)) + (f"({','.join(terms)})" if terms else "")
                sides = [model.name_text(cell), agent]
                drawn.shuffle(sides)
                equations.append("=".join(sides))
            drawn.shuffle(equations)
            return model.read_system(("{}<|" + ",".join(equations) + ">").encode())

        self.all_are_reduced(system)
        self.have_come(quiet=100, by_rounds=100)

    def test_known_rules_over_drawn_configurations(self):
        def system(drawn):
            rule_set = drawn.choice(list(draws.known_rules().values()))
            return rule_set, draws.configuration(drawn, rule_set, drawn.randrange(6), drawn.randint(1, 12), drawn.choice([2, 5, 9]))

        self.all_are_reduced(system)
        self.have_come(quiet=60, by_rounds=50, cut=30)

    def test_known_systems_of_drawn_sizes(self):
        """Sums, products and copies of numerals: they end, and are of many interactions."""
        rules = draws.known_rules()["multiplication"]
        head = draws.system_text(rules, model.Config([], [], 0)).removesuffix("<|>")
        counts = {"Add(r,{})={}": 12, "Mul(r,{})={}": 6, "Mul(r,Dup(Eps,{}))={}": 4}

        def system(drawn):
            form, most = drawn.choice(list(counts.items()))
            numerals = ["S(" * it + "Z" + ")" * it for it in (drawn.randint(0, most), drawn.randint(0, most))]
            return model.read_system(f"{head}<r|{form.format(*numerals)}>".encode())

        self.all_are_reduced(system)
        self.have_come(quiet=60, by_rounds=50, cut=50)


class DrawnWires(InPlace):
    seconds = 5

    def test_wires_end_where_their_turns_lead(self):
        """Each turn joins the ends of some wires to others, so that names join names until terms come to the last of them."""
        drawn = self.draws()
        for turns in (10, 5_000, 20_000):
            for _ in range(max(1, SYSTEMS // 40)):
                rules, config, wanted = self.wired(drawn, turns)
                ran = run("reduce", given=rules + config)
                self.equals(ran.command, "status and standard error", (0, b""), (ran.status, ran.err))
                self.is_net(ran.command, rules + "<|>", ran.out, wanted)

    def wired(self, drawn, turns):
        """Rules, a configuration whose wires they permute in so many turns, and its answer. The first few wires are joined only
        as a pair of S and T is reduced."""
        count = drawn.randint(1, 7)
        late = drawn.randint(0, min(count, (15 - count) // 2))
        to = drawn.sample(range(count), count)
        here, there, given, beside = ([model.name_text(it + 20 * series) for it in range(count)] for series in range(4))
        twice = [it for it in beside[:late] for _ in "ST"]
        before = dict(zip(to, there[:late] + here[late:]))
        pairs = [drawn.sample([f"S({one})", f"T({two})"], 2) for one, two in zip(here[:late], there)]
        last = self.ends(drawn, count)
        turn = f"A(U({','.join([before[it] for it in range(count)] + twice)}))><U({','.join(here + sum(pairs, []))})"
        rules = f"{{{turn};S(x)><T(x);Z><U({','.join(last + ['E', 'F'] * late)});E><F}} "
        at = list(range(count))
        for _ in range(turns):
            at = [to[it] for it in at]
        config = f"<{','.join(given)}|{'A(' * turns}Z{')' * turns}=U({','.join(given + twice)})>"
        return rules, config, f"<{','.join(last[it] for it in at)}|>"

    def ends(self, drawn, count):
        """What comes to the ends of so many wires: terms, or the other end of one that is among them."""
        names = [model.name_text(it + 80) for it in range(count)]
        ends = [drawn.choice(("B", "G(B)", f"P({it},{it})")) for it in names]
        order = drawn.sample(range(count), count)
        for one, two in zip(order[::2], order[1::2]):
            if drawn.random() < 0.5:
                ends[one] = ends[two] = names[one]
        return ends
