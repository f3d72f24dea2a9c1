"""Disks that the model writes and the program opens, whole and spoilt: what is answered, and what is left."""

import draws
import model
import model_disk
from against_model import ModelTrial
from model import MAX_BUDGET, MAX_NEXT, MAX_ROUNDS, Config, Job, Rules, Table
from model_disk import FORM, HEAD, MAX_BODY, MAX_NUMBER, OLD_FORM, SECOND_SLOT, Disk
from program import run
from test_drawn_rounds import ADDITION, LOOP
from test_drawn_serving import job_names, session, small_systems

TWO = f"submit two {ADDITION}<r|Add(r,S(Z))=S(Z)>"
SPENT = TWO.replace("two ", "two 1 ", 1)
QUESTIONS = ["list", "fetch two", f"submit loop {LOOP}<|A(x)=B(x)>", "run 3", "list"]


def shuffled(drawn, items):
    return drawn.sample(items, len(items))


def other_symbols(drawn, rule_set, config):
    """The same with symbols in another order, and with some that nothing uses."""
    known = {text for text, _ in rule_set.symbols}
    more = [it for it in draws.symbols(drawn, drawn.randrange(4) + 1, 15, 8) if it[0] not in known]
    symbols = shuffled(drawn, rule_set.symbols + more)[: model.MAX_SYMBOLS]
    if not known <= {text for text, _ in symbols}:
        return rule_set, config
    at = {text: place for place, (text, _) in enumerate(symbols)}
    turned = [at[text] for text, _ in rule_set.symbols]

    def term(nodes):
        return tuple(node if node >= 0 else ~turned[~node] for node in nodes)

    rules = [
        model.Rule(turned[it.left], turned[it.right], [*map(term, it.left_args)], [*map(term, it.right_args)], it.names)
        for it in rule_set.rules
    ]
    equations = [(term(left), term(right)) for left, right in config.equations]
    return Rules(symbols, rules), Config([*map(term, config.interface)], equations, config.next)


def table(drawn, most=6, least=0, sizes=(1, 1, 2, 4)):
    """A table with jobs in all states, and numbers up to the limits."""
    jobs = []
    for name in job_names(drawn, drawn.randint(least, most)):
        rule_set, config = draws.system(drawn, drawn.choice(sizes), 3)
        rule_set, config = other_symbols(drawn, rule_set, config)
        if drawn.random() < 0.5:
            # Names as they stand after many rounds, up to the limit.
            names = sorted(set(model.names_of(config)))
            greatest = drawn.choice([2**33, 2**40, MAX_NEXT])
            fresh = dict(zip(names, drawn.sample(range(greatest - 3 * len(names) - 3, greatest), len(names))))
            moved = [[tuple(fresh.get(node, node) for node in side) for side in sides] for sides in config.equations]
            face = [tuple(fresh.get(node, node) for node in term) for term in config.interface]
            config = Config(face, [tuple(it) for it in moved], drawn.choice([greatest, MAX_NEXT]))
        job = Job(name, rule_set, config, drawn.choice([0, 1, 255, 256, 2**32, MAX_ROUNDS - 2, MAX_ROUNDS]))
        if job.rounds < MAX_BUDGET and drawn.random() < 0.3:
            job.budget = drawn.choice([max(1, job.rounds), job.rounds + 1, job.rounds + 3, MAX_BUDGET])
        if job.state == "running":
            job.state = drawn.choice(["running", "running", "paused", "halted"])
            job.state = "spent" if job.rounds == job.budget else job.state
        jobs.append(job)
    return Table(jobs)


def form_of(drawn, jobs):
    """A form of a table: the one that is written, or the old one where no job has a budget."""
    unbudgeted = all(job.budget is None for job in jobs.jobs)
    return model_disk.encode(jobs, drawn.choice([FORM, OLD_FORM]) if unbudgeted else FORM)


def sized_table(drawn, count, least, most):
    """A table of so many jobs whose form has so many bytes: at least these, and less than those."""
    size = 1
    while True:
        jobs = table(drawn, count, count, (size,))
        length = len(model_disk.encode(jobs))
        if least <= length < most:
            return jobs
        size = max(1, min(200, size * 2 if length < least else size * 2 // 3))


def unsound(drawn, jobs):
    """Changes one value of a table, most often so that it is none any more."""
    job = drawn.choice(jobs.jobs)
    how = drawn.randrange(4)
    if how == 0:
        change = drawn.choice(["state", "rounds", "budget", "name", "jobs"])
        if change == "state":
            job.state = drawn.choice(model.STATES)
        elif change == "rounds":
            job.rounds = drawn.choice([MAX_ROUNDS, MAX_ROUNDS + 1, 2**63, 2**64 - 1])
        elif change == "budget":
            job.budget = drawn.choice([1, job.rounds, job.rounds + 1, max(0, job.rounds - 1), MAX_BUDGET, MAX_BUDGET + 1, 2**63])
        elif change == "name":
            job.name = drawn.choice([drawn.choice(jobs.jobs).name, "", "A", "-a", "a_", "9", "a" * 16, "a" * 17])
        else:
            more = [Job(f"n{at}", Rules([], []), Config([], [], 0)) for at in range(40)]
            jobs.jobs += more[: drawn.choice([1, 28, 30, 31, 32, 33])]
    elif how == 1:
        job.rules = Rules(unsound_symbols(drawn, list(job.rules.symbols)), job.rules.rules)
    elif how == 2:
        job.rules = Rules(job.rules.symbols, unsound_rules(drawn, job.rules))
    else:
        job.config = unsound_config(drawn, job.config)


def unsound_symbols(drawn, symbols):
    if symbols and drawn.random() < 0.5:
        at = drawn.randrange(len(symbols))
        text = drawn.choice(symbols)[0]
        symbols[at] = drawn.choice([text, text + "a", "a", "", "A-", "A" * 32, "A" * 33]), symbols[at][1]
        return symbols
    more, arity = drawn.choice([1, 2, 64 - len(symbols), 65 - len(symbols)]), drawn.choice([0, 15, 15, 16])
    return symbols + [(f"Z{at}y", arity) for at in range(more)]


def unsound_rules(drawn, rules):
    listed = list(rules.rules)
    if drawn.random() < 0.3 and rules.symbols:
        # One more rule, of a symbol with itself.
        terms, symbol = draws.Terms(drawn, rules.arities, 0.8), drawn.randrange(len(rules.symbols))
        return listed + [draws.rule(drawn, terms, symbol, symbol, 2, lopsided=0.8)]
    if not listed:
        return listed
    how = drawn.randrange(6)
    at = max(range(len(listed)), key=lambda place: listed[place].names) if how > 1 else drawn.randrange(len(listed))
    it = listed[at]
    turned = model.Rule(it.right, it.left, *model.numbered(it.right_args, it.left_args))
    if how == 0:
        listed.insert(drawn.randrange(len(listed) + 1), drawn.choice([it, turned]))
    elif how == 1:
        listed[at] = drawn.choice([turned, it._replace(left=len(rules.symbols))])
    elif it.names:
        # Its names in another order, or two of them made one.
        numbers = [*reversed(range(it.names))]
        if how > 3:
            numbers[0] = numbers[-1]
        sides = [[tuple(numbers[node] if node >= 0 else node for node in term) for term in side] for side in it[2:4]]
        listed[at] = model.Rule(it.left, it.right, *(sides if how < 5 else model.numbered(*sides)[:2]), it.names)
    return listed


def unsound_config(drawn, config):
    face, equations, how = list(config.interface), list(config.equations), drawn.randrange(3)
    if how == 0:
        nexts = [0, 1, max(0, config.next - 1), MAX_NEXT, MAX_NEXT + 1, 2**64 - 1]
        return config._replace(next=drawn.choice(nexts))
    if how == 1 and equations:
        one, two = drawn.choice(equations), drawn.choice(equations)
        equations.append(drawn.choice([one, (one[0], two[1]), (one[0], one[0])]))
    else:
        face += [(drawn.choice([drawn.randrange(30), ~0, ~drawn.randrange(9)]),)] * drawn.choice([1, 2, 3, 64, 65])
    return Config(face[:200], equations, config.next)


class DrawnDisks(ModelTrial):
    seconds = 12

    def kept(self, *lines):
        """The model's disk after these lines, and the program's file."""
        disk = self.new_disk()
        self.serve(disk, lines)
        return disk

    def opened(self, content, lines=QUESTIONS, *words, every=100):
        """A disk of these bytes, opened and served by both."""
        disk = Disk(content)
        self.lay(disk)
        return self.serve(disk, lines, *words, every=every)

    def changed(self, content, places, drawn, count, lines=QUESTIONS):
        """The disk with one byte changed, at each of these places to so many others, near ones among them."""
        for at in places:
            now = content[at]
            near = {(now + 1) % 256, (now - 1) % 256, now ^ 1, 0, 1, 2, 3, 255} - {now}
            others = drawn.sample(sorted(set(range(256)) - near - {now}), max(count // 2, count - len(near)))
            for value in others + drawn.sample(sorted(near), count - len(others)):
                disk = Disk(content)
                disk.content[at] = value
                self.lay(disk)
                self.serve(disk, lines)

    def test_what_create_leaves(self):
        drawn = self.draws()
        lengths = [0, 1, 12, 13, 17, 18, 19, *(SECOND_SLOT + more for more in (-1, 0, 12, HEAD, 900))]
        for length in [None] + lengths:
            disk = Disk()
            if length is not None:
                disk.content = bytearray((drawn.getrandbits(8 * length + 1) >> 1).to_bytes(length, "big"))
                self.lay(disk)
            disk.create()
            ran = run("create", "--disk", self.path, "--overwrite")
            self.ended(ran)
            self.same_file(ran.command, disk)
            self.serve(disk, QUESTIONS)
            self.path.unlink()

    def test_created_anew_over_a_kept_table(self):
        for lines in ([TWO], [TWO, "run 1"], [TWO, "run 1", "cancel two"]):
            disk = self.kept(*lines)
            disk.create()
            ran = run("create", "--disk", self.path, "--overwrite")
            self.ended(ran)
            self.same_file(ran.command, disk)
            self.serve(disk, ["list", TWO, "run 2", "fetch two"])

    def test_one_byte_of_the_newer_slot_changed(self):
        disk = self.kept(TWO)
        self.changed(bytes(disk.content), range(SECOND_SLOT, len(disk.content)), self.draws(), 4)

    def test_one_byte_of_a_disk_of_one_slot_changed(self):
        drawn = self.draws()
        for lines in ([TWO], [TWO, "run 10"]):
            table = self.kept(*lines).open()
            for form, count in ((FORM, 9), (OLD_FORM, 4)):
                whole = Disk()
                whole.put_slot(0, 1, model_disk.encode(table, form))
                self.changed(bytes(whole.content), range(len(whole.content)), drawn, count, ["list", "fetch two"])

    def test_one_byte_of_a_done_table_changed(self):
        disk = self.kept(TWO, "run 10")
        self.changed(bytes(disk.content), range(HEAD + 114), self.draws(), 3)

    def test_one_byte_of_a_spent_table_changed(self):
        disk = self.kept(SPENT, "run 10")
        self.changed(bytes(disk.content), range(HEAD + 134), self.draws(), 3)

    def test_each_value_of_some_bytes(self):
        drawn = self.draws()
        disk = self.kept(TWO)
        self.changed(bytes(disk.content), [0, 8, SECOND_SLOT, SECOND_SLOT + 8], drawn, 25)
        body = range(SECOND_SLOT + HEAD, len(disk.content))
        self.changed(bytes(disk.content), [SECOND_SLOT + 12, drawn.choice(body)], drawn, 100)

    def test_each_front_of_a_table(self):
        for lines in ([TWO], [TWO, "run 10"], [SPENT, "run 1"], [TWO, "pause two", f"submit loop {LOOP}<|A(x)=B(x)>"]):
            disk = self.kept(*lines)
            for form in (model_disk.encode(disk.open(), it) for it in (FORM, OLD_FORM)):
                for length in range(len(form) + 1):
                    disk = Disk()
                    disk.put_slot(0, 1, form[:length])
                    self.opened(disk.content)

    def test_a_new_disk_cut_to_each_length(self):
        content = bytes(self.kept().content)
        for length in range(19):
            self.opened(content[:length])

    def test_cut_disks(self):
        drawn = self.draws()
        for lines in ([], [TWO], [TWO, "run 10"], [TWO, "run 1", "run 1"]):
            content = bytes(self.kept(*lines).content)
            ends = [0, 1, 12, 13, 14, 17, 18, 19, 126, 127, 128, SECOND_SLOT - 1, *range(SECOND_SLOT, len(content))]
            for end in drawn.sample(ends, min(len(ends), 50)):
                self.opened(content[:end])
                self.opened(content[:end] + bytes(drawn.choice([1, 9])))

    def test_both_slots_in_all_states(self):
        drawn = self.draws()
        tables = [form_of(drawn, it) for it in (Table(), table(drawn), table(drawn), Table())]
        for _ in range(400):
            disk = Disk(bytes(drawn.choice([0, SECOND_SLOT + HEAD, SECOND_SLOT + 5_000])))
            number = drawn.choice([0, 1, 2, 255, 2**32, MAX_NUMBER - 1, MAX_NUMBER])
            for slot in (0, 1):
                body = drawn.choice(tables)
                if drawn.random() < 0.2:
                    body = draws.spoilt(drawn, body)
                near = min(MAX_NUMBER, max(0, number + drawn.randint(-1, 1)))
                disk.put_slot(slot, near, body, drawn.choice([0, 1, 1, 1, 2, 255]))
                if drawn.random() < 0.15:
                    lengths = [0, 4, 5, 6, len(body) - 1, len(body) + 1, MAX_BODY, MAX_BODY + 1, 2**32 - 1]
                    disk.put(slot * SECOND_SLOT + 9, model_disk.number_bytes(drawn.choice(lengths), 4))
            self.opened(disk.content)

    def test_lengths_of_bodies_up_to_the_bound(self):
        near = [MAX_BODY - 1, MAX_BODY, MAX_BODY + 1]
        for length in (0, 4, 5, 6, 126, 134, *near, SECOND_SLOT - HEAD, SECOND_SLOT, 2**31, 2**32 - 1):
            for end in (SECOND_SLOT + HEAD, SECOND_SLOT + HEAD + MAX_BODY + 9, 2 * SECOND_SLOT + HEAD):
                content = bytearray(self.kept(TWO).content)
                content.extend(bytes(max(0, end - len(content))))
                content[SECOND_SLOT + 9 : SECOND_SLOT + HEAD] = model_disk.number_bytes(length, 4)
                self.opened(content)

    def test_numbers_of_slots(self):
        drawn = self.draws()
        for power in range(65):
            for number in {max(0, 2**power - 2), 2**power - 1, min(MAX_NUMBER, 2**power)}:
                disk = Disk(bytes(SECOND_SLOT + HEAD))
                slot = drawn.randrange(2)
                disk.put_slot(slot, number, form_of(drawn, table(drawn, 2)))
                if drawn.random() < 0.5 and number:
                    disk.put_slot(1 - slot, drawn.randrange(number), b"anything")
                self.opened(disk.content, session(drawn, ["two", "b"], small_systems(drawn, 1), 6, 9))

    def test_numbers_that_are_used_up(self):
        drawn = self.draws()
        for _ in range(40):
            disk = Disk(bytes(SECOND_SLOT + HEAD))
            number = MAX_NUMBER - drawn.choice([0, 0, 1, 2])
            disk.put_slot(drawn.randrange(2), number, model_disk.encode(table(drawn, 3)))
            lines = drawn.choice([[], ["run 0", "lists", ""]]) + session(drawn, ["two", "b"], small_systems(drawn, 1), 6, 9)
            self.opened(disk.content, lines, every=drawn.choice([1, 2, 100]))

    def goes_on_with(self, drawn, jobs, most_rounds=40):
        """A table that is opened, shown, run, changed and shown."""
        disk, form = Disk(bytes(SECOND_SLOT + HEAD)), form_of(drawn, jobs)
        disk.put_slot(drawn.randrange(2), drawn.randrange(2**64 - 99), form)
        names = [job.name for job in jobs.jobs]
        look = ["list", *(f"fetch {name}" for name in names)]
        change = [f"{drawn.choice(['pause', 'resume', 'cancel'])} {name}" for name in names]
        lines = [*look, f"run {most_rounds}", *look, *change, "run 9", "list"]
        self.opened(disk.content, lines, every=drawn.choice([1, 7, 100]))

    def test_tables(self):
        drawn = self.draws()
        for most in [1, 2, 5] * 40 + [20, 32] * 6:
            self.goes_on_with(drawn, table(drawn, most))

    def test_tables_of_each_number_of_jobs_and_of_300_to_130_000_bytes(self):
        drawn = self.draws()
        for count in range(1, 9):
            for least in (300, 1_000, 2_000, 3_000, 5_000):
                self.goes_on_with(drawn, sized_table(drawn, count, least, 2 * least), 20)
        for count in (9, 16, 20, 31, 32):
            for least in (4_000, 16_000, 65_000):
                self.goes_on_with(drawn, sized_table(drawn, count, least, 4 * least), 20)

    def test_spoilt_tables(self):
        drawn = self.draws()
        for _ in range(1_000):
            form = bytearray(form_of(drawn, table(drawn, drawn.choice([1, 1, 2, 4]))))
            how, at = drawn.randrange(6), drawn.randrange(len(form))
            if how < 3:
                form[at] = drawn.choice([0, 1, 255, form[at] ^ 1, (form[at] + 1) % 256, drawn.randrange(256)])
            elif how == 3:
                del form[at : at + drawn.choice([1, 1, 2, 9])]
            elif how == 4:
                form[at:at] = drawn.choice([form[at : at + 9], b"\0", b"\xff"])
            else:
                other = drawn.randrange(len(form))
                form[at], form[other] = form[other], form[at]
            disk = Disk(drawn.choice([b"", b"", b"", bytes(SECOND_SLOT + HEAD)]))
            disk.put_slot(0, 1, bytes(form))
            self.opened(disk.content, ["list", "run 1", "list"])

    def test_values_that_are_no_table(self):
        drawn = self.draws()
        for _ in range(1_000):
            jobs = table(drawn, drawn.choice([1, 2, 4]), least=1, sizes=(1, 2, 3))
            for _ in range(drawn.choice([1, 1, 2])):
                unsound(drawn, jobs)
            disk = Disk(drawn.choice([b"", b"", b"", bytes(SECOND_SLOT + HEAD)]))
            disk.put_slot(0, 1, form_of(drawn, jobs))
            self.opened(disk.content, ["list", "run 1", "list"])

    def test_tables_at_each_limit(self):
        symbols = [("Z", 0), ("S", 1), ("P", 2), ("W", 15)]
        zero, deep = (~0,), lambda size: (~1,) * (size - 1) + (~0,)
        none, empty = Rules(symbols, []), Config([], [], 0)
        for more in (-1, 0, 1):
            listed = [model.Rule(1, 2, [deep(2_045 + more)], [zero, deep(2)], 0)]
            pairs = [model.Rule(one, two, [], [], 0) for one in range(32) for two in range(32, 64)]
            for rules, config in (
                (none, Config([deep(8_192 + more)], [], 0)),
                (none, Config([], [(deep(8_191 + more), zero)], 0)),
                (none, Config([], [(zero, zero)] * 4_095 + [(deep(1 + more), zero)] * (more >= 0), 0)),
                (none, Config([zero] * (64 + more), [], 0)),
                (none, Config([(at,) for at in range(64)], [], 63 + more)),
                (Rules(symbols, listed), empty),
                (Rules([(f"A{at}", 0) for at in range(64)], pairs[: 256 + more]), empty),
                (Rules([(f"A{at}", 0) for at in range(64 + more)], []), empty),
                (Rules([("A" * (32 + more), 15)], []), empty),
                (Rules([("A", 15 + more)], []), empty),
                (none, empty._replace(next=MAX_NEXT + more)),
            ):
                for state in ("done", "running"):
                    other = Job("b", none, empty, MAX_ROUNDS + min(more, 0), "done")
                    disk = Disk(bytes(SECOND_SLOT + HEAD))
                    disk.put_slot(0, 1, model_disk.encode(Table([Job("two", rules, config, 0, state), other])))
                    self.opened(disk.content, ["list", "fetch two", "run 1", "cancel b"])

    def test_names_and_rounds_that_run_out(self):
        drawn = self.draws()
        rule_set, config = model.read_system(f"{LOOP}<|A(x)=B(x),A(y)=B(y)>".encode())
        for rounds in (0, MAX_ROUNDS - 2, MAX_ROUNDS - 1, MAX_ROUNDS):
            for next_name in (25, MAX_NEXT - 5, MAX_NEXT - 4, MAX_NEXT - 3, MAX_NEXT - 2, MAX_NEXT - 1, MAX_NEXT):
                jobs = [Job(name, rule_set, config._replace(next=next_name), rounds) for name in ("two", "b")]
                disk = Disk(bytes(SECOND_SLOT + HEAD))
                disk.put_slot(0, 1, model_disk.encode(Table(jobs)))
                lines = ["list", f"run {drawn.randint(1, 3)}", "list", "fetch two", "run 5", "fetch b", "list"]
                self.opened(disk.content, lines, every=drawn.choice([1, 100]))

    def test_paths_and_words(self):
        drawn = self.draws()
        lengths = [1, 15, 16, 17, 31, 32, 33, 63, 64, 65, 127, 200, 255]
        for length in lengths + [drawn.randint(1, 255) for _ in range(15)]:
            name = "".join(drawn.choices("abcXYZ019 _.-+,=:é", k=length)).encode()[:length].decode(errors="ignore")
            self.path = self.room / ("d" + name[1:])
            disk = Disk()
            disk.create()
            self.ended(run(*drawn.choice([["create", "--disk", self.path], ["create", f"--disk={self.path}"]])))
            every, workers = drawn.choice([1, 99, 100, 101, 1_000_000]), drawn.randint(1, 64)
            words = [["--disk", self.path], ["--workers", workers], ["--every", every]]
            words = [it if drawn.random() < 0.5 else [f"{it[0]}={it[1]}"] for it in shuffled(drawn, words)]
            lines = [TWO, f"submit loop {LOOP}<|A(x)=B(x)>", "run 250", "fetch two", "list"]
            wanted = model_disk.serve(disk, "\n".join(lines).encode(), every)
            ran = run("serve", *model.flat(words), given=lines)
            self.agree(ran, wanted)
            self.same_file(ran.command, disk)
            self.path.unlink()
