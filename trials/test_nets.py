"""Nets, and orders of single steps: the rows of `trials/rows/nets`. The plain model answers each, and where a system ends, the
program comes to the same net, in place and by rounds.

- `net A + B`: whether two configurations are one net.
- `orders N SYSTEM`: N drawn orders of single steps, and rounds, end in one net: how often each rule fires, how many names are
  replaced, and `next`. `order_ends SYSTEM`: the texts of all ends that single steps reach, which are one net.
- `limits SYSTEM`: by rounds, by the first step each time, by the last one: the most nodes, and the end.
- `drawn_orders SYSTEMS ORDERS`: how many of the drawn systems end; their interactions and replaced names; how many have circles
  at the start, at the end, and more at the end. `spoiled SYSTEMS WAY`: how many of their ends can be changed so at the last
  equation, and how many are another net then.
- `tests SYSTEM`, `tests_from NEXT SYSTEM`: whether the configuration, with this `next` or its own, fits and is quiet. `fires
  SYSTEM`, `fires_from NEXT SYSTEM`: `next` and the text once all active equations have fired; the program prints it settled.
- `products COUNT SYSTEM`: the rule, the first fresh name and the number of products of the first works of a round."""

from functools import cache
from typing import NamedTuple

import model
import nets
import steps
from disks import newest, put, slot
from model import Refusal
from model_disk import decode, encode
from program import IN_MEMORY, Trial, run
from small_systems import Draws, Writer
from worked_rows import expanded, rows

# The seed of the drawn systems.
DRAWN = 20_261_123

# How many of the drawn systems the program reduces too.
REDUCED = 150


def is_circle(equation):
    """Whether a side of an equation is a name that the other one holds."""
    left, right = equation
    return left[0] >= 0 and left[0] in right or right[0] >= 0 and right[0] in left


def circles(config):
    return sum(map(is_circle, config.equations))


class Ended(NamedTuple):
    """A system that ends by rounds, and the steps that these make."""

    number: int
    text: bytes
    rules: model.Rules
    config: model.Config
    end: model.Config
    counts: steps.Counts


def ended(number, text):
    """A system with this number and text, if it ends by rounds."""
    rules, config = model.read_system(text)
    whole = steps.ended_by_rounds(rules, config)
    return whole and Ended(number, text, rules, config, *whole)


@cache
def drawn_ends(count):
    """Those of so many drawn systems that end."""
    return list(filter(None, (ended(number, text.encode()) for number, text in enumerate(Writer(DRAWN).systems(count)))))


def lost(before, last):
    return before


def crossed(before, last):
    """The right sides of the last two exchanged."""
    if not before:
        return None
    *before, (left, right) = before
    return [*before, (left, last[1]), (last[0], right)]


def with_other_symbol(before, last):
    """The symbol of the right side changed to the next one, which may be none."""
    left, right = last
    return [*before, (left, (right[0] + 1, right[1]))] if isinstance(right, tuple) else None


def with_arguments_exchanged(before, last):
    """The two arguments of the right side exchanged."""
    left, right = last
    has_two = isinstance(right, tuple) and len(right[1]) == 2
    return [*before, (left, (right[0], right[1][::-1]))] if has_two else None


# The ways to change the last of some equations: the equations then, or nothing where that can't be.
WAYS = {"lost": lost, "crossed": crossed, "symbol": with_other_symbol, "arguments": with_arguments_exchanged}


def is_told_apart(rules, end, way):
    """Whether an end is another net once its last equation is changed so; nothing where that can't be."""
    interface, equations = nets.trees(rules, end.interface, end.equations)
    changed = WAYS[way](equations[:-1], equations[-1]) if equations else None
    texts = [*(text for text, _ in rules.symbols), ""]
    return None if changed is None else nets.form(interface, equations, texts) != nets.form(interface, changed, texts)


class NetTrial(Trial):
    rooms = IN_MEMORY

    def rows(self, *kinds):
        """The rows of these kinds, of which there have to be some: name, kind, text and answer."""
        found = rows("nets", *kinds)
        self.equals("trials/rows/nets", f"whether there are rows of {kinds}", True, bool(found))
        return [(name, kind, expanded(text), answer.decode()) for name, kind, text, answer in found]

    def ends_in(self, rules, text, net):
        """The program reduces a system to this net, in place and by rounds."""
        for words in (["reduce"], ["reduce", "--rounds", steps.MOST_ROUNDS]):
            ran = run(*words, given=text)
            self.equals(ran.command, "the status, and the net", (0, net), (ran.status, nets.form_of(rules, ran.out)))


    def orders_agree(self, whole, count):
        """So many drawn orders of single steps end in the net of the rounds, with its `next`, by as many steps of each kind."""
        tried = steps.Orders(whole.rules)
        for order in range(count):
            end, counts = tried.drawn(whole.config, Draws(1000 * whole.number + order), whole.counts.steps())
            come = (model.is_quiet(whole.rules, end), end.next, counts == whole.counts, tried.net(end) == tried.net(whole.end))
            self.equals(f"order {order} of {whole.text}", "quiet, `next`, steps, net", (True, whole.end.next, True, True), come)


class Nets(NetTrial):
    seconds = 3

    def test_each_pair_of_nets(self):
        for name, _, text, answer in self.rows("net"):
            with self.subTest(name=name):
                both = [self.net_of(it) for it in text.split(b" + ")]
                self.equals(f"net {text}", "whether they are one net", answer == "the same", both[0] == both[1])

    def net_of(self, text):
        """The net of a configuration, which is that of what the program reduces it to."""
        rules, config = model.read_configuration(text)
        net = steps.net_of(rules, config)
        self.ends_in(rules, b"{}" + text, net)
        return net

    def test_each_system_in_drawn_orders(self):
        for name, _, text, answer in self.rows("orders"):
            count, _, text = text.partition(b" ")
            with self.subTest(name=name):
                self.equals(f"orders {text}", "the steps of each kind, and `next`", answer, self.orders_of(int(count), text))

    def orders_of(self, count, text):
        try:
            whole = ended(0, text)
        except model.Fault as fault:
            self.refuses("reduce", given=text, line=fault, status=1)
            return "refused"
        if whole is None:
            for words in (["--rounds", steps.MOST_ROUNDS], ["--steps", 1_000]):
                ran = run("reduce", *words, given=text)
                self.equals(ran.command, "the status", 5, ran.status)
            return "goes on"
        self.orders_agree(whole, count)
        self.ends_in(whole.rules, text, steps.net_of(whole.rules, whole.end))
        return " ".join(map(str, [*whole.counts.firings, whole.counts.names, whole.end.next]))

    def test_all_ends_of_each_system(self):
        for name, _, text, answer in self.rows("order_ends"):
            with self.subTest(name=name):
                rules, config = model.read_system(text)
                ends = steps.all_ends(rules, config)
                self.equals(f"order_ends {text}", "all ends", answer, " ".join(model.printed(rules, it) for it in ends))
                first, *others = (steps.net_of(rules, it) for it in ends)
                self.equals(f"order_ends {text}", "the nets of the other ends", [first] * len(others), others)
                self.ends_in(rules, text, first)

    def test_that_limits_depend_on_the_order(self):
        for name, _, text, answer in self.rows("limits"):
            with self.subTest(name=name):
                rules, config = model.read_system(text)
                ways = {"rounds": self.by_rounds(text), "first steps": self.by_steps(rules, config, False)}
                ways["last steps"] = self.by_steps(rules, config, True)
                self.equals(f"limits {text[:200]}", "what comes of it", answer, ", ".join(f"{how} {it}" for how, it in ways.items()))
                self.runs("reduce", given=text, out=["<|>"])

    def by_rounds(self, text):
        """The most nodes that the program tells before and after a round, and the end, or that a job of it is too large."""
        (self.room / "jobs.disk").unlink(missing_ok=True)
        disk = self.disk()
        if b"halted" in run("serve", "--disk", disk, given=[b"submit one " + text, "run 1000", "list"]).out:
            return "too large"
        ran = run("reduce", "--rounds", 1_000, given=text)
        table = run("trace", "--rounds", 1_000, given=text).out.splitlines()[1:]
        return f"{max(int(it.split(bytes([9]))[2]) for it in table)} {ran.out.decode().rstrip()}"

    def by_steps(self, rules, config, backwards):
        try:
            most, end = steps.most_nodes(rules, config, backwards)
        except Refusal:
            return "too large"
        return f"{most} {model.printed(rules, end)}"

    def test_that_spoiled_ends_are_told_apart(self):
        for name, _, text, answer in self.rows("spoiled"):
            count, way = text.decode().split()
            with self.subTest(name=name):
                told = [is_told_apart(drawn.rules, drawn.end, way) for drawn in drawn_ends(int(count))]
                told = [it for it in told if it is not None]
                self.equals(f"spoiled {way}", "how many are changed, and told apart", answer, f"{len(told)} {sum(told)}")


class DrawnOrders(NetTrial):
    seconds, needs_program = 40, False

    def test_drawn_systems_in_drawn_orders(self):
        for name, _, text, answer in self.rows("drawn_orders"):
            count, orders = map(int, text.split())
            with self.subTest(name=name):
                sums = [self.sums_of(it, orders) for it in drawn_ends(count)]
                self.equals(f"drawn_orders {count}", "the sums", answer, " ".join(str(sum(it)) for it in zip(*sums)))

    def sums_of(self, drawn, orders):
        """What an end adds to the sums. So many drawn orders have to come to it."""
        self.orders_agree(drawn, orders)
        first, last = circles(model.settled(drawn.config)), circles(drawn.end)
        return 1, sum(drawn.counts.firings), drawn.counts.names, first > 0, last > 0, last > first


class DrawnNets(NetTrial):
    seconds = 5

    def test_the_program_comes_to_the_ends_of_the_first_drawn_systems(self):
        for drawn in drawn_ends(REDUCED):
            self.ends_in(drawn.rules, drawn.text, steps.net_of(drawn.rules, drawn.end))


class Rounds(NetTrial):
    seconds = 2

    def test_what_fits_and_is_quiet(self):
        for name, kind, text, answer in self.rows("tests", "tests_from"):
            with self.subTest(name=name, kind=kind):
                rules, config, text = self.begun(kind, text)
                refusal = self.refusal_of(rules, config, text)
                ran = run("reduce", "--rounds", 0, given=text)
                is_quiet = model.is_quiet(rules, config)
                self.equals(ran.command, "whether no pair fires once it is settled", model.is_quiet(rules, model.settled(config)), ran.status == 0)
                told = f"{'outgrows' if refusal else 'fits'}, {'quiet' if is_quiet else 'goes on'}"
                self.equals(f"{kind} {text[:200]}", "whether it fits and is quiet", answer, told)

    def begun(self, kind, text):
        """The system of a row with the `next` that it names, or its own, and its text."""
        first, _, rest = text.partition(b" ")
        has_next = kind.endswith("_from")
        rules, config = model.read_system(rest if has_next else text)
        return rules, config._replace(next=int(first)) if has_next else config, rest if has_next else text

    def refusal_of(self, rules, config, text):
        """Why the model has no round of it, and the program neither."""
        try:
            after, refusal = model.round_of(rules, config), None
        except Refusal as fault:
            after, refusal = config, str(fault)
        if config.next == model.read_system(text)[1].next:
            out, err, status = (b"", [f"icserve: {refusal}"], 1) if refusal else ([model.printed(rules, after)], b"", 0)
            self.runs("once", given=text, out=out, err=err, status=status)
        else:
            self.equals(f"a job of {text} from {config.next} on", "its round", (after, bool(refusal)), self.played(rules, config))
        return refusal

    def played(self, rules, config):
        """What the round of a job leaves that runs, and whether it is halted."""
        disk = self.room / "jobs.disk"
        put(disk, slot(1, encode(model.Table([model.Job("top", rules, config)]))))
        self.serves(disk, ["run 1"], ["ran 1"])
        job = decode(newest(disk.read_bytes())[2]).jobs[0]
        return job.config, job.state == "halted"

    def test_what_fires(self):
        for name, kind, text, answer in self.rows("fires", "fires_from"):
            with self.subTest(name=name, kind=kind):
                rules, config, text = self.begun(kind, text)
                refusal = self.refusal_of(rules, config, text)
                fired = model.fired(rules, config)
                told = {None: f"{fired.next} {model.printed(rules, fired)}", "overgrown": "outgrows"}.get(refusal, refusal)
                self.equals(f"{kind} {text[:200]}", "`next` and the text", answer, told)

    def test_products(self):
        for name, _, text, answer in self.rows("products"):
            count, _, text = text.partition(b" ")
            with self.subTest(name=name):
                rules, config = model.read_system(text)
                works = steps.works_of(rules, config)
                told = "".join("%d %d %d;" % it for it in works[: int(count)])
                self.equals(f"products {text[:200]}", "the first works", answer, told)
                table = run("trace", "--rounds", 1, given=text).out.splitlines()
                self.equals(f"trace {text[:200]}", "how many works there are", len(works), int(table[1].split(b"\t")[1]))
