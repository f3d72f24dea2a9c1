"""Rounds of nets of any size, in place: `trace` and `reduce --rounds` of texts beyond the limits of a job, the rows and nets of drawn
systems beside those of the model and of `once`, and what is told where a bound ends them."""

import json
import os
import re
import subprocess
from collections import Counter

import draws
import model
import nets
from program import IN_MEMORY, PROGRAM, TOP, Trial, run
from test_in_place import DOUBLES, numeral, stats_of

SYSTEMS = int(os.environ.get("SYSTEMS") or 200)

COPY = "Dup(Z,Z)><Z;Dup(S(x),S(y))><S(Dup(x,y))"
ADD_AND_COPY = f"{{Add(x,x)><Z;Add(S(x),y)><S(Add(x,y));{COPY}}}"
FIBONACCI = f"{ADD_AND_COPY[:-1]};F(Z)><Z;F(r)><S(G(r));G(S(Z))><Z;G(r)><S(Dup(G(Add(r,u)),F(u)))}}"
SORT = (
    "{Sort(Nil)><Nil;Sort(r)><Cons(h,Sort(Insert(r,h)));Insert(Cons(x,Nil),x)><Nil;Insert(Cons(l,r),Min(l,k,h))><Cons(h,Insert(r,k));"
    "Min(Z,x,x)><Z;Min(l,h,Mid(l,h,x))><S(x);Mid(Z,S(x),x)><Z;Mid(S(l),S(h),Min(l,h,y))><S(y)}"
)

LOOP = "{A(B(x))><B(A(x))} <|A(x)=B(x)>"

HEAD = b"round\tpairs\tnodes\tequations\tnames\n"
SUMMARY = re.compile(rb"icserve: work (\d+), span (\d+), pairs at once (\d+\.\d) on average, (\d+) at most\n")


def fibonacci(number):
    return f"{FIBONACCI} <r|F(r)={numeral(number)}>"


def sorting(count):
    turned = list(range(count))
    turned = turned[1::2] + turned[::-2]
    listed = "".join(f"Cons({numeral(it)}," for it in turned) + "Nil" + ")" * count
    return f"{SORT} <r|Sort(r)={listed}>"


def rows_of(ran):
    return [tuple(map(int, it.split(b"\t"))) for it in ran.out.splitlines()[1:]]


def summed(pairs):
    """Work, span, the average of pairs at once, and their greatest number."""
    work, span = sum(pairs), len(pairs)
    tenths = work * 10 // max(span, 1)
    return work, span, f"{tenths // 10}.{tenths % 10}", max(pairs, default=0)


def circles_of(config):
    """How many equations are of a name with a term that has it."""
    return sum(any(len(side) == 1 and side[0] >= 0 and side[0] in other for side, other in (it, it[::-1])) for it in config.equations)


def row_of(rules, number, before, config):
    """The row of a round from one configuration to another, without circles."""
    pairs = sum(rules.find(*it) is not None for it in before.equations)
    circles = circles_of(config)
    nodes, names = model.nodes_of(config), len(model.names_of(config))
    return number, pairs, nodes - 2 * circles, len(config.equations) - circles, names - 2 * circles


def model_rows(rules, config, most):
    """The rows of at most so many rounds, without circles, and the net after each; and whether none is possible then."""
    rows, after = [], [config]
    while len(rows) < most and not model.is_quiet(rules, config):
        before, config = config, model.settled(model.fired(rules, config))
        rows.append(row_of(rules, len(rows) + 1, before, config))
        after.append(config)
        if model.nodes_of(config) > 20_000:
            break
    return rows, after, model.is_quiet(rules, config)


class BesideWords(Trial):
    """Rounds in place beside rounds of words, which a server makes of jobs, one by one."""

    rooms = IN_MEMORY

    def lives(self, texts, most):
        """How each text goes on as a job: its configuration, and that after each round, as they are fetched; and what its job is then."""
        disk = self.disk()
        asked = ["fetch a", *["run 1", "fetch a"] * most, "cancel a"]
        ran = run("serve", "--disk", disk, "--every", 1_000_000, given=[line for text in texts for line in (f"submit a {text}", *asked)])
        answers = ran.out.splitlines()
        each = len(asked) + 1
        self.equals(ran.command, "answers", len(texts) * each, len(answers))
        for at in range(0, len(answers), each):
            self.equals(ran.command, "a system is taken", b"accepted", answers[at])
            fetched = [it.split(b" ", 3)[1:] for it in answers[at + 1 : at + each : 2]]
            lines = [fetched[0][2]]
            lines += [line for (_, before, _), (_, count, line) in zip(fetched, fetched[1:]) if before != count]
            yield lines, fetched[-1][0].decode()

    def are_those_of_words(self, drawn, systems, most):
        """Fails unless rows and nets in place are those of words: how many systems ended in which way, and how many rounds there were."""
        texts = [draws.system_text(*it) for it in systems]
        seen = Counter()
        for (rules, _), text, (lines, state) in zip(systems, texts, self.lives(texts, most)):
            configs = [model.configuration(*nets.terms_of(rules, it)) for it in lines]
            steps = enumerate(zip(configs, configs[1:]), 1)
            rows = [row_of(rules, number, *it) for number, it in steps]
            traced = run("trace", "--rounds", len(rows), given=text)
            self.equals(traced.command, "status and rows", (0, rows), (traced.status, rows_of(traced)))
            for count in {len(rows), drawn.randint(0, len(rows))}:
                ran = run("reduce", "--rounds", count, "--stats", given=text)
                # The text itself is printed settled.
                reached = configs[count] if count else model.settled(configs[0])
                wanted = 0 if model.is_quiet(rules, reached) else 5, sum(it[1] for it in rows[:count])
                self.equals(ran.command, "status and interactions", wanted, (ran.status, stats_of(ran.err)[0]))
                self.equals(ran.command, "the net", nets.form_in(rules, *reached[:2]), nets.form_of(rules, ran.out))
            if state == "done":
                self.has_ended(text, [it[1] for it in rows])
            seen.update([state, "systems"])
            seen["rounds"] += len(rows)
        return seen

    def has_ended(self, text, pairs):
        """Is told of a text whose rounds end, and of the pairs of each."""

    def test_rows_and_nets_are_those_of_words(self):
        drawn = self.draws()
        systems = [draws.system(drawn, drawn.choice([1, 2, 3, 5]), drawn.choice([2, 3, 4])) for _ in range(SYSTEMS)]
        self.are_those_of_words(drawn, systems, drawn.choice([3, 10]))


class WideRounds(Trial):
    rooms = IN_MEMORY
    seconds = 20

    def test_fibonacci_is_traced_far_beyond_the_limits_of_a_job(self):
        text = fibonacci(20)
        ran = run("trace", "--stats", given=text)
        rows = rows_of(ran)
        self.equals(ran.command, "status and the head", (0, HEAD), (ran.status, ran.out[: len(HEAD)]))
        self.equals(ran.command, "the numbers of the rounds", list(range(1, len(rows) + 1)), [it[0] for it in rows])
        in_place = run("reduce", "--workers", 1, "--stats", "--quiet-answer", given=text)
        self.equals(ran.command, "pairs of all rounds", stats_of(in_place.err)[0], sum(it[1] for it in rows))
        self.equals(ran.command, "what there is in the end", (6_766, 0, 0), rows[-1][2:])
        told = SUMMARY.fullmatch(ran.err)
        work, span, average, greatest = summed([it[1] for it in rows])
        self.equals(ran.command, "what all did", (b"%d" % work, b"%d" % span, average.encode(), b"%d" % greatest), told and told.groups())
        objects = run("trace", "--stats", "--format", "json", given=text)
        self.equals(objects.command, "rows", rows, [tuple(json.loads(it).values()) for it in objects.out.splitlines()])
        wanted = {"work": work, "span": span, "average": float(average), "greatest": greatest, "partial": False}
        self.equals(objects.command, "what all did", wanted, json.loads(objects.err))

    def test_a_sort_of_300_is_traced_and_cut_anywhere(self):
        text = sorting(300)
        ran = run("trace", given=text)
        rows = rows_of(ran)
        whole = run("reduce", "--rounds", len(rows), "--stats", given=text)
        self.equals(whole.command, "status", 0, whole.status)
        plain = run("reduce", "--workers", 1, "--stats", given=text)
        self.equals(whole.command, "interactions", stats_of(plain.err)[0], stats_of(whole.err)[0])
        self.agrees(whole.command, "the net, which has no equation", plain.out, whole.out)
        self.equals(ran.command, "pairs of all rounds", stats_of(plain.err)[0], sum(it[1] for it in rows))
        for count in (0, 1, 2, len(rows) // 2, len(rows) - 1):
            cut = run("reduce", "--rounds", count, "--stats", given=text)
            made = sum(it[1] for it in rows[:count])
            self.equals(cut.command, "status and what is told", (5, made, b"icserve: not done\n"), (cut.status, *stats_of(cut.err)[::2]))
            rest = run("reduce", "--rounds", len(rows), "--stats", given=f"{SORT} {cut.out.decode()}")
            self.equals(rest.command, "interactions that were left", stats_of(plain.err)[0] - made, stats_of(rest.err)[0])
            self.agrees(rest.command, "the net", plain.out, rest.out)

    def test_rows_and_nets_of_drawn_systems_are_those_of_the_model(self):
        drawn, seen = self.draws(), {"quiet": 0, "cut": 0, "unsettled": 0, "circles": 0, "no round": 0}
        for _ in range(SYSTEMS):
            rules, config = draws.system(drawn, drawn.choice([1, 2, 3, 5]), drawn.choice([2, 3, 4]))
            text = draws.system_text(rules, config)
            rows, after, is_quiet = model_rows(rules, config, drawn.choice([1, 3, 30]))
            seen["quiet" if is_quiet else "cut"] += 1
            seen["no round"] += not rows
            seen["unsettled"] += bool(rows) and rows[0][1] == 0
            seen["circles"] += bool(circles_of(after[-1]))
            ran = run("trace", "--rounds", len(rows), given=text)
            left = run("reduce", "--rounds", len(rows), "--quiet-answer", given=text).err
            wanted = (0, rows, left if is_quiet else b"icserve: not done\n")
            self.equals(ran.command, "status, rows and what is told", wanted, (ran.status, rows_of(ran), ran.err))
            if is_quiet:
                self.agrees(ran.command, "the trace without a bound", ran.out, run("trace", given=text).out)
            count = drawn.randint(0, len(rows))
            reduced = run("reduce", "--rounds", count, "--stats", given=text)
            quiet_then = model.is_quiet(rules, model.settled(after[count]))
            self.equals(reduced.command, "status and interactions", (0 if quiet_then else 5, sum(it[1] for it in rows[:count])), (reduced.status, stats_of(reduced.err)[0]))
            self.equals(reduced.command, "the net", self.net_of(rules, model.settled(after[count])), nets.form_of(rules, reduced.out))
        for kind, count in seen.items():
            self.equals(self.id(), f"some are {kind}: {seen}", True, count > SYSTEMS // 100)

    def net_of(self, rules, config):
        return nets.form_in(rules, config.interface, config.equations)

    def test_once_again_and_again_leads_to_the_nets_of_rounds(self):
        for text in (LOOP, "{Add(x,x)><Z;Add(S(x),y)><S(Add(x,y))} <r|Add(q,S(Z))=S(S(Z)),q=r>"):
            rules = model.read_system(text.encode())[0]
            head, line = text[: text.index("}") + 1], text[text.index("}") + 1 :].encode()
            for count in range(1, 6):
                line = run("once", given=head.encode() + line).out
                reduced = run("reduce", "--rounds", count, given=text)
                self.equals(reduced.command, "the net of so many words `once`", nets.form_of(rules, line), nets.form_of(rules, reduced.out))

    def test_a_bound_is_told_with_the_rounds_before_it(self):
        for word in ("reduce", "trace"):
            ran = run(word, *(["--rounds", 1_000] if word == "reduce" else []), "--nodes", 20_000, given=DOUBLES)
            told = re.fullmatch(rb"interactions (\d+), nodes (\d+), equations (\d+), rounds (\d+), --nodes 20000\n", ran.after)
            self.equals(ran.command, "status and what is told", (1, b"icserve: overgrown\n", True), (ran.status, ran.err, bool(told)))
            if word == "trace":
                self.equals(ran.command, "rows", int(told[4]), len(rows_of(ran)))
            else:
                self.agrees(ran.command, "standard output", b"", ran.out)
        self.refuses("reduce", "--rounds", 7, line="not done", status=5, given=LOOP, out=["<|B(a)=A(a)>"])

    def test_a_round_is_broken_off_within(self):
        """The pairs of one round pass the bound before it is over: no row of it is shown."""
        count = 30_000
        text = "{A(x,y)><B(C(x,x1),C(y,y1),C(x1,y1))} <|" + ",".join(["A(P,Q)=B(P,Q,R)"] * count) + ">"
        ran = run("trace", "--nodes", 7 * count + 10, given=text)
        self.equals(ran.command, "status and rows", (1, []), (ran.status, rows_of(ran)))

    def test_a_picture_of_many_rounds_sums_columns(self):
        for rounds, width in ((640, 1), (641, 2), (5_000, 8)):
            ran = run("trace", "--rounds", rounds, "--format", "svg", given=LOOP)
            bars = re.findall(rb"<rect width='0.9' x='(\d+)' height='(\d+)'/>", ran.out)
            told = f"; each bar is the sum of {width} rounds</text>" if width > 1 else "in a round</text>"
            self.equals(ran.command, "that the title says it", True, told.encode() in ran.out)
            self.equals(ran.command, "the sum of all bars", rounds, sum(int(it[1]) for it in bars))
            self.equals(ran.command, "how many bars", -(-rounds // width), len(bars))

    def test_rows_come_while_further_rounds_are_made(self):
        pipes = {"stdin": subprocess.PIPE, "stdout": subprocess.PIPE}
        with subprocess.Popen([PROGRAM, "trace", "--rounds", "1000000000"], **pipes) as started:
            started.stdin.write(LOOP.encode())
            started.stdin.close()
            rows = [started.stdout.readline() for _ in range(100)]
            runs = started.poll() is None
            started.kill()
        self.equals("trace of a loop", "the 99th row, and whether the program runs", (b"99\t1\t", True), (rows[-1][:5], runs))

    def test_figures_tell_how_many_rounds_were_made(self):
        text = (TOP / "examples/sort.ic").read_text()
        for asked, made in ((7, 7), (19, 19), (1_000, 19)):
            words = ["reduce", "--rounds", asked, "--stats", "--quiet-answer"]
            told = run(*words, given=text).err.decode()
            self.equals(words, f"the rounds in {told}", [str(made)], re.findall(r", equations \d+, rounds (\d+), threads 1,", told))
            figures = json.loads(run(*words, "--format", "json", given=text).err.decode().split("\n")[0])
            self.equals(words, f"the rounds in {figures}", made, figures["rounds"])
        self.equals("reduce", "whether rounds are told", False, b"rounds" in run("reduce", "--stats", given=text).err)

    def test_no_workers_beside_rounds(self):
        ran = run("reduce", "--rounds", 3, "--workers", 2, given="<|>")
        self.equals(ran.command, "status", 2, ran.status)
