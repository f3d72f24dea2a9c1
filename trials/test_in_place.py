"""The word `reduce` without rounds, which reduces a net in place: the rows of trials/rows, each bound and ending, hard nets,
and what goes wrong on the way."""

import json
import re
import resource
import signal
import subprocess
import time

import model
import nets
import test_faults
from known import ADD, LOOP
from program import IN_MEMORY, PROGRAM, TOP, Trial, as_bytes, run
from shim import shimmed
from worked_rows import expanded, rows

# The most interactions, and names and agents, that may be asked for.
MOST = 2**62 - 1

STATS = re.compile(
    rb"icserve: interactions (\d+)(?:, name steps (\d+))?, nodes (\d+), equations (\d+)(?:, rounds \d+)?, threads (\d+), shared (\d+), seconds (?:0\.000|\d+\.\d{3}, interactions a second \d+)\n"
    rb"icserve: (no interactions|rule \d+ \S+><\S+: \d+ interactions?(?:, rule \d+ \S+><\S+: \d+ interactions?)*)\n"
    rb"(?:icserve: ((?:thread \d+: \d+ interactions?, )+)trees handed on (\d+), seconds idle (\d+\.\d{3})\n)?"
)
REACHED = re.compile(rb"interactions (\d+), nodes (\d+), equations (\d+)(?:, --nodes (\d+))?\n")

# How many interactions are made at a time, at most.
PIECE = 4_096

# Each pair of it becomes two, of agents that are larger by one each time.
DOUBLES = "{D(D(x,y),D(z,w))><E(E(x,y),E(z,w))} <|D(a,b)=E(a,b)>"

# Each interaction of it leaves two equations of agents without arguments, for which there is no rule, and a pair as before.
PILES = "{A(Q,B(P,x))><B(R,A(S,x))} <|A(S,n)=B(P,n)>"

# Two to the power of a number: some twice as many interactions.
POWER = "{Exp(S(Z))><Z;Exp(r)><S(Exp(Dbl(r)));Dbl(Z)><Z;Dbl(S(S(x)))><S(Dbl(x))}"

# Two interactions of a turn of it join names twice, and leave a net of the same nodes.
JOINS = "{U(x,K(w,z),S(x))><K(U(y,w,z),T(y));S(x)><T(x)} <r|U(r,m,n)=K(m,n)>"


def numeral(number):
    return "S(" * number + "Z" + ")" * number


def stats_of(err):
    """How many interactions, and names and agents, a run with `--stats` tells, and what else it says on standard error. The interactions
    of all rules are those in all, else none are told."""
    told = STATS.match(err)
    if not told or sum(map(int, re.findall(rb": (\d+)", told[7]))) != int(told[1]):
        return None, None, err
    return int(told[1]), int(told[3]), err[told.end() :]


def name_steps_of(err):
    """How many steps that put a term for a name a run with `--stats` tells, if it does."""
    told = STATS.match(err)
    return int(told[2]) if told and told[2] else None


def figures_of(err):
    """The figures that a run with `--stats` tells as lines, by their names in an object, and what else it says. Time and pace
    are none of them. Those of threads are there if several threads made anything."""
    told = STATS.match(err)
    if not told:
        return None, err
    names = ("interactions", "name_steps", "nodes", "equations", "threads", "shared")
    figures = {name: it and int(it) for name, it in zip(names, told.groups())}
    fired = re.findall(rb"rule (\d+) (\S+): (\d+)", told[7])
    figures["fired"] = {int(rule): (pair.decode(), int(count)) for rule, pair, count in fired}
    if told[8]:
        threads = re.findall(rb"thread (\d+): (\d+) interaction(s?)", told[8])
        figures["by_thread"] = [int(made) for number, (at, made, more) in enumerate(threads, 1) if (int(at), bool(more)) == (number, made != b"1")]
        figures["handed_on"] = int(told[9])
    return {name: it for name, it in figures.items() if it is not None}, err[told.end() :]


def object_of(err):
    """The same of a run with `--format json`, with the end, time and pace and how many rules there are."""
    line, _, rest = err.partition(b"\n")
    told = json.loads(line)
    fired = [(it["rule"], it["interactions"]) for it in told["by_rule"]]
    told["fired"] = {at: it for at, it in enumerate(fired, 1) if it[1]}
    return told, rest


class InPlace(Trial):
    rooms = IN_MEMORY

    def reduces(self, *words, given, out, err=b"", status=0, interactions=None, **how):
        """Fails unless the text is reduced in place to this line, with so many interactions where they are given."""
        ran = run("reduce", "--stats", *words, given=given, **how)
        made, nodes, rest = stats_of(ran.err)
        if made is None:
            self.told(ran.command, "a line of figures comes first", STATS.pattern, ran.err)
        if interactions is not None:
            self.equals(ran.command, "interactions", interactions, made)
        self.ended(ran._replace(err=rest), out, err, status)
        return made, nodes

    def is_net(self, command, text, came, wanted):
        """Fails unless the line that came is the net of a configuration, over the symbols of a text."""
        rules = model.read_system(as_bytes(text))[0]
        self.equals(command, "the net", nets.form_of(rules, as_bytes(wanted)), nets.form_of(rules, came))


class Rows(InPlace):
    ENDS = re.compile(rb"(<.*>)\n(?:done (\d+)(?: stuck (.*))?|(not done))")

    def test_each_row_that_is_reduced_in_place(self):
        seen = set()
        for name, _, text, answer in rows("texts", "in_place"):
            count, _, text = text.partition(" ")
            with self.subTest(name=name, steps=count):
                told = self.ENDS.fullmatch(answer)
                if not told:
                    self.refuses("reduce", "--steps", count, given=expanded(text), line=answer.decode(), status=1)
                elif told[4]:
                    ran = run("reduce", "--steps", count, "--stats", given=expanded(text))
                    self.equals(ran.command, "status and what is told", (5, int(count), b"icserve: not done\n"), (ran.status, *stats_of(ran.err)[::2]))
                    self.is_net(ran.command, expanded(text), ran.out, told[1])
                else:
                    err = (b"icserve: stuck " + told[3] + b"\n" if told[3] else b"") + nets.circle_line(told[1])
                    self.reduces("--steps", count, given=expanded(text), out=[told[1]], err=err, interactions=int(told[2]))
                seen.add(answer.split(b" ")[0] if not told else "stuck" if told[3] else told[4] or "done")
        self.equals("reduce", "ends that no row has", set(), {b"bad", "stuck", b"not done", "done"} - seen)

    def test_each_example_has_the_net_and_the_interactions_of_its_rounds(self):
        tried = 0
        for path in sorted(TOP.glob("examples/*.ic")):
            text = path.read_text()
            by_rounds = run("reduce", "--rounds", 10**6, given=text)
            if by_rounds.status:
                continue
            table = run("trace", given=text).out.splitlines()[1:]
            ran = run("reduce", "--stats", given=text)
            self.equals(ran.command, "status", 0, ran.status)
            self.is_net(ran.command, text, ran.out, by_rounds.out)
            self.equals(ran.command, "interactions", sum(int(it.split(b"\t")[1]) for it in table), stats_of(ran.err)[0])
            tried += 1
        self.equals("examples/", f"at least eight systems: {tried}", True, tried >= 8)


class Bounds(InPlace):
    seconds = 5

    def test_interactions_that_are_cut_go_on_where_they_ended(self):
        """A configuration that isn't done is printed; with the rules before it, it is reduced further, to the same net."""
        text = (TOP / "examples/ackermann.ic").read_text()
        rules = text[: text.index("}") + 1]
        whole, made, status, rest = run("reduce", given=text), 0, 5, text
        while status == 5:
            ran = run("reduce", "--steps", 7, "--stats", given=rest)
            rest, status, made = rules + ran.out.decode(), ran.status, made + stats_of(ran.err)[0]
            self.equals(ran.command, "standard error", b"icserve: not done\n" if status else b"", stats_of(ran.err)[2])
        self.equals(ran.command, "the end, its status and the interactions", (whole.out, 0, 44), (ran.out, status, made))

    def test_a_net_that_never_ends_is_cut_by_its_bound_of_interactions(self):
        for count in (0, 1, 2, PIECE - 1, PIECE, PIECE + 1, 100_000):
            ran = run("reduce", "--steps", count, "--stats", given=LOOP.text)
            self.equals(ran.command, "status", 5, ran.status)
            self.equals(ran.command, "what is told", (count, b"icserve: not done\n"), stats_of(ran.err)[::2])
            self.is_net(ran.command, LOOP.text, ran.out, LOOP.config(count))

    def test_just_so_many_interactions_as_it_takes_are_enough(self):
        two = f"{ADD} <r|Add(r,S(Z))=S(Z)>"
        self.reduces("--steps", 2, given=two, out=["<S(S(Z))|>"], interactions=2)
        self.reduces("--steps", MOST, "--nodes", MOST, given=two, out=["<S(S(Z))|>"], interactions=2)
        self.reduces("--steps", 0, given="{A><B} <|A=C>", out=["<|A=C>"], err=["icserve: stuck A><C"], interactions=0)
        for option in ("--steps", "--nodes"):
            ran = run("reduce", option, MOST + 1, given=two)
            self.equals(ran.command, "status and standard output", (2, b""), (ran.status, ran.out))
            self.equals(ran.command, f"the range is told: {ran.err}", True, f"0..={MOST}".encode() in ran.err)

    def grows(self, *words, most, **how):
        """A net that grows without end is cut by its bound of what it holds, if one thread reduces it. Hands on what was printed."""
        ran = run("reduce", "--workers", 1, "--nodes", most, *words, given=DOUBLES, **how)
        self.equals(ran.command, "status and line", (1, b"icserve: overgrown\n"), (ran.status, ran.err))
        made, nodes, left, bound = map(int, REACHED.fullmatch(ran.after).groups())
        self.equals(ran.command, "the bound that is told", most, bound)
        self.equals(ran.command, f"the bound is passed, by no more than a sixteenth or one interaction: {ran.after}", True, most < nodes <= most + max(most // 16, 8))
        return ran

    def test_a_net_that_grows_without_end_is_cut_by_its_bound(self):
        for most in (0, 5_000, 300_000):
            self.equals("reduce", "standard output", b"", self.grows(most=most).out)

    def test_equations_that_pile_up_are_bounded(self):
        """The agents of equations without a rule count. A bound that they don't meet changes nothing."""
        for most in (0, 20_000, 200_000):
            ran = run("reduce", "--workers", 1, "--nodes", most, given=PILES)
            self.equals(ran.command, "how it ends", (1, b"", b"icserve: overgrown\n"), (ran.status, ran.out, ran.err))
            made, nodes, left, bound = map(int, REACHED.fullmatch(ran.after).groups())
            self.equals(ran.command, f"all equations and their agents: {ran.after}", (2 * made + 1, most), (left, bound))
            self.equals(ran.command, f"names beside four agents an interaction: {ran.after}", True, 4 * made <= nodes < 4 * made + 10)
            self.equals(ran.command, f"the bound is passed, by no more than a sixteenth or one interaction: {ran.after}", True, most < nodes <= most + max(most // 16, 12))
        whole = run("reduce", "--quiet-answer", "--steps", 30_000, given=PILES)
        self.equals(whole.command, "how it ends", (5, b"icserve: not done\n"), (whole.status, whole.err))

    def test_what_is_reached_is_printed_where_it_is_asked_for(self):
        ran = self.grows("--partial", most=20_000)
        interface, equations = nets.phrases_of(ran.out)
        made = int(REACHED.fullmatch(ran.after)[1])
        self.equals(ran.command, "terms of the interface and equations", (0, made + 1), (len(interface), len(equations)))
        again = self.grows("--partial", most=20_000)
        self.agrees(ran.command, "the same bytes a second time", ran.out, again.out)

    def test_where_memory_runs_out_that_is_told_and_nothing_is_printed(self):
        limited = {"preexec_fn": lambda: resource.setrlimit(resource.RLIMIT_AS, (200 * 2**20, 200 * 2**20))}
        for words in (["--workers", 1], ["--workers", 1, "--partial"], []):
            ran = run("reduce", *words, given=DOUBLES, **limited)
            self.equals(ran.command, "status and line", (4, b"icserve: memory\n"), (ran.status, ran.err))
            if ran.out or "--partial" not in words:
                self.agrees(ran.command, "standard output", b"", ran.out)
                told = REACHED.fullmatch(ran.after)
                self.equals(ran.command, f"how far it came: {ran.after}", True, bool(told) and int(told[1]) > 100_000)

    def test_words_that_ask_for_no_reduction_in_place_have_status_2(self):
        two = f"{ADD} <r|Add(r,S(Z))=S(Z)>"
        wrongs = [["--steps", -1], ["--steps"], ["--nodes", "many"], ["--partial=1"], ["--steps", 1, "--steps", 2], ["--stats", "--stats"]]
        for wrong in (*wrongs, ["--format"], ["--format", "tsv"], ["--format="], ["--quiet-answer=1"], ["--quiet-answer"] * 2):
            ran = run("reduce", *wrong, given=two)
            self.equals(ran.command, "how it ends", (2, b"", b"error:"), (ran.status, ran.out, ran.err[:6]))

    def test_a_signal_ends_it_and_nothing_is_printed(self):
        for text in (LOOP.text, DOUBLES):
            for wait in (0.05, 0.5):
                command = [PROGRAM, "reduce", "--nodes", "50000000", "--partial"]
                with subprocess.Popen(command, stdin=subprocess.PIPE, stdout=subprocess.PIPE, stderr=subprocess.PIPE) as started:
                    started.stdin.write(text.encode())
                    started.stdin.close()
                    time.sleep(wait)
                    started.send_signal(signal.SIGTERM)
                    out, err = started.stdout.read(), started.stderr.read()
                self.equals(f"{command} {text}", "how it ended", (-signal.SIGTERM, b"", b""), (started.returncode, out, err))


class HardNets(InPlace):
    seconds = 10

    def test_circles_stay_as_they_are(self):
        for text, wanted in (
            ("{} <|x=A(x)>", "<|x=A(x)>"),
            ("{} <|x=x>", "<|x=x>"),
            ("{} <|x=y,y=x>", "<|x=x>"),
            ("{} <|x=A(y),y=B(x)>", "<|x=A(B(x))>"),
            ("{} <a|x=A(x),y=a,z=z,y=B>", "<B|x=A(x),z=z>"),
            ("{A(x)><B(x)} <|A(x)=B(x)>", "<|x=x>"),
            ("{A(x)><B(x)} <|A(x)=B(y),x=y>", "<|x=x>"),
            ("{A(x,y)><B(x,y)} <|A(x,C(x))=B(y,y)>", "<|x=C(x)>"),
            ("{A(x)><B(C(x))} <|A(x)=B(x)>", "<|x=C(x)>"),
        ):
            ran = run("reduce", given=text)
            self.equals(ran.command, "status and standard error", (0, nets.circle_line(ran.out)), (ran.status, ran.err))
            self.is_net(ran.command, text, ran.out, wanted)

    def test_what_hangs_at_a_circle_is_put_into_it(self):
        for text, wanted in (
            ("{} <|x=A(Z),y=B(x,y)>", "<|a=B(A(Z),a)>"),
            ("{} <|y=B(x,y),x=A(Z)>", "<|a=B(A(Z),a)>"),
            ("{} <|x=A(Z),y=B(y,x),z=C(z)>", "<|a=B(a,A(Z)),b=C(b)>"),
            ("{} <|x=A(p,y),y=B(q,z),z=C(r,x),p=S(Z),q=T(s,Z),s=S(S(Z)),r=Z>", "<|x=A(S(Z),B(T(S(S(Z)),Z),C(Z,x)))>"),
            ("{} <|p=S(Z),q=S(p),r=T(q,s),s=S(Z),x=A(r,x),t=S(u),u=S(v),v=A(t,w),w=Z>", "<|x=A(T(S(S(Z)),S(Z)),x),t=S(S(A(t,Z)))>"),
            ("{} <a,b|x=A(a),y=B(x,y),b=S(d),d=Z>", "<a,S(Z)|y=B(A(a),y)>"),
            ("{E(x,y)><F(x,y)} <|E(p,x)=F(A(Z),B(p,x))>", "<|a=B(A(Z),a)>"),
        ):
            ran = run("reduce", given=text)
            self.equals(ran.command, "status and standard error", (0, nets.circle_line(ran.out)), (ran.status, ran.err))
            self.is_net(ran.command, text, ran.out, wanted)
            self.equals(ran.command, "names for which a term could be put", [], nets.puttable(ran.out))
        self.reduces(given="{} <|x=A(Z),y=B(x,y)>", out=["<|a=B(A(Z),a)>"], err=["icserve: circle at B"], interactions=0)

    def test_a_long_tail_at_a_circle_is_put_into_it(self):
        names = [model.name_text(it) for it in range(2_000)]
        tail = [f"{one}=S({two})" for one, two in zip(names[1:], names)]
        whole = "a=A(" + "S(" * 1_999 + "Z" + ")" * 1_999 + ",a)"
        for order in (tail, tail[::-1], tail[::2] + tail[1::2]):
            ends = [f"{names[0]}=Z", f"z9999=A({names[-1]},z9999)"]
            for equations in (ends + order, order + ends):
                self.reduces(given="{} <|" + ",".join(equations) + ">", out=[f"<|{whole}>"], err=["icserve: circle at A"], interactions=0)

    def test_rings_through_many_names_and_many_rules_become_circles(self):
        names = [model.name_text(it) for it in range(3_000)]
        around = list(zip(names, names[1:] + names[:1]))
        ring = ",".join(f"{one}=A({two})" for one, two in around[:300] + [(names[300], names[0])])
        whole = "A(" * 301 + "x" + ")" * 301
        wires = ",".join(f"{one}={two}" for one, two in around)
        pairs = ",".join(f"P({one})=Q({two})" for one, two in around[:300] + [(names[300], names[0])])
        for text, wanted, made in (
            (f"{{A(x)><B(x)}} <|{ring}>", f"<|x={whole}>", 0),
            (f"{{A(x)><B(x)}} <|{wires}>", "<|x=x>", 0),
            (f"{{P(x)><Q(x);P(A(x))><R(x)}} <|{pairs}>", "<|x=x>", 301),
            (f"{{P(A(x))><Q(x)}} <|{pairs}>", "<|x=" + "A(" * 301 + "x" + ")" * 301 + ">", 301),
        ):
            ran = run("reduce", "--stats", given=text)
            self.equals(ran.command, "status and what is told", (0, made, nets.circle_line(ran.out)), (ran.status, *stats_of(ran.err)[::2]))
            self.is_net(ran.command, text, ran.out, wanted)

    def test_a_list_that_is_copied_is_there_twice(self):
        rules = "{Dup(Nil,Nil)><Nil;Dup(Cons(a,x),Cons(b,y))><Cons(Dup(a,b),Dup(x,y));Dup(Z,Z)><Z;Dup(S(x),S(y))><S(Dup(x,y))}"
        whole = "".join(f"Cons({numeral(it % 3)}," for it in range(2_000)) + "Nil" + ")" * 2_000
        ends = 2_000 + 1 + sum(it % 3 + 1 for it in range(2_000))
        self.reduces(given=f"{rules} <r,s|Dup(r,s)={whole}>", out=[f"<{whole},{whole}|>"], interactions=ends)
        # Eight copies of copies.
        copies = "Dup(Dup(Dup(a,b),Dup(c,d)),Dup(Dup(e,f),Dup(g,h)))"
        answer = ",".join([whole] * 8)
        self.reduces(given=f"{rules} <a,b,c,d,e,f,g,h|{copies}={whole}>", out=[f"<{answer}|>"], interactions=7 * ends)

    def test_an_answer_that_is_nested_262_144_deep_is_printed(self):
        power = 2**18
        self.reduces(given=f"{POWER} <r|Exp(r)={numeral(18)}>", out=[f"<{numeral(power)}|>"], interactions=power + 36)
        deep = "{B(A(x),y)><S(B(x,y));B(x,x)><Z} <r|B(r,r)=" + numeral(4_000) + ">"
        self.reduces(given=deep.replace("B(r,r)", "B(r,C)"), out=["<" + "A(" * 4_000 + "C" + ")" * 4_000 + "|>"], interactions=4_001)

    def test_free_names_keep_theirs_and_others_are_numbered(self):
        self.reduces(given="{} <z9|z9=A(y,b,y)>", out=["<A(a,b,a)|>"])
        self.reduces(given="{} <a,b|>", out=["<a,b|>"])
        self.reduces(given="{} <v165191049,x,x|>", out=["<v165191049,b,b|>"])
        swaps = "{A(x,y)><B(y,x)} <c,d|A(p,d)=B(q,c),p=F(a),q=G(t,t)>"
        ran = run("reduce", given=swaps)
        self.is_net(ran.command, swaps, ran.out, "<c,d|c=F(a),d=G(t,t)>")
        text = "{Gamma(x,y)><Gamma(y,x);Gamma(Delta(a,b),Delta(c,d))><Delta(Gamma(a,c),Gamma(b,d))} <a,b,c,d|Gamma(a,b)=Delta(c,d)>"
        self.reduces(given=text, out=["<Delta(a,b),Delta(c,d),Gamma(a,c),Gamma(b,d)|>"], interactions=1)

    def test_name_steps_and_each_rule_are_told_at_a_quiet_end(self):
        pace = rb", nodes %d, equations %d, threads 1, shared 0, seconds (?:0\.000|[.\d]+, interactions a second \d+)\n"
        two = f"{ADD} <r|Add(r,S(Z))=S(Z)>"
        for words, told in (
            ([], b"icserve: interactions 2, name steps 4" + pace % (5, 0) + b"icserve: rule 1 Add><Z: 1 interaction, rule 2 Add><S: 1 interaction\n"),
            (["--steps", 0], b"icserve: interactions 0" + pace % (6, 1) + b"icserve: no interactions\nicserve: not done\n"),
        ):
            ran = run("reduce", "--stats", "--workers", 1, *words, given=two)
            self.equals(ran.command, f"{ran.err} is as {told}", True, bool(re.fullmatch(told, ran.err)))

    def shown(self):
        """Texts and options with their ends: quiet, with a stuck pair or without, and each bound."""
        two, drawn = f"{ADD} <r|Add(r,S(Z))=S(Z)>", self.draws()
        yield two, [], "quiet", 0
        yield "{} <a,b|>", [], "quiet", 0
        yield f"{POWER} <r|Exp(r)={numeral(drawn.randint(3, 9))}>", [], "quiet", 0
        yield "{A><B} <|C=D>", [], "quiet", 0
        yield "{} <r|Add(r,x)=x>", [], "quiet", 0
        yield two, ["--steps", drawn.randint(0, 1)], "steps", 5
        yield LOOP.text, ["--steps", drawn.randint(0, 9_999)], "steps", 5
        yield DOUBLES, ["--nodes", drawn.randint(100, 9_999), "--workers", 1], "nodes", 1

    def test_figures_as_an_object_are_those_as_lines(self):
        fields = ["end", "stuck", "circle", "interactions", "name_steps", "nodes", "equations", "threads", "shared", "by_thread", "handed_on", "idle_milliseconds", "milliseconds", "interactions_a_second", "by_rule"]
        for text, words, end, status in self.shown():
            lines = run("reduce", "--stats", *words, given=text)
            told, rest = figures_of(lines.err)
            most = 0 if words else told["interactions"]
            self.equals(lines.command, "whether no more are shared than may be", True, told.pop("shared") <= most)
            for more in ([], ["--partial"], ["--quiet-answer"]):
                ran = run("reduce", *more, "--format", "json", "--stats", *words, given=text)
                came, after = object_of(ran.err)
                self.equals(ran.command, "status, end and what else is said", (status, end, rest), (ran.status, came["end"], after))
                self.equals(ran.command, "figures", told, {name: came[name] for name in told})
                self.equals(ran.command, "whether no more are shared than may be", True, came["shared"] <= most)
                self.equals(ran.command, "fields", [it for it in fields if it in came], list(came)[:-1])
                self.equals(ran.command, "whether name steps are told", end == "quiet", "name_steps" in came)
                rules = [it.split("><") for it in text[1:].partition("}")[0].split(";") if it]
                pairs = ["><".join(re.match(r"\s*(\w+)", side)[1] for side in sides) for sides in rules]
                self.equals(ran.command, "rules", pairs, [it["rule"] for it in came["by_rule"]])
                lines = [f"icserve: {word} {came[name]}\n" for name, word in (("stuck", "stuck"), ("circle", "circle at")) if came[name]]
                self.equals(ran.command, "the stuck pair and the circle", rest if end == "quiet" else b"", "".join(lines).encode())
                pace = came["milliseconds"] and came["interactions"] * 1000 // came["milliseconds"] or None
                self.equals(ran.command, "interactions a second", pace, came["interactions_a_second"] or None)

    def test_a_format_alone_tells_nothing(self):
        for text, words, _, status in self.shown():
            bare = run("reduce", *words, given=text)
            self.equals(bare.command, "status", status, bare.status)
            for form in ("lines", "json"):
                ran = run("reduce", *words, "--format", form, given=text)
                self.equals(ran.command, "how it ends", (bare.status, bare.out, bare.err), (ran.status, ran.out, ran.err))

    def test_where_no_answer_is_wanted_all_else_is_as_with_it(self):
        for text, words, _, status in self.shown():
            for more in ([], ["--partial"]):
                told = run("reduce", *words, *more, given=text)
                quiet = run("reduce", "--quiet-answer", *words, *more, given=text)
                self.equals(quiet.command, "standard output", b"", quiet.out)
                self.equals(quiet.command, "status and what is told", (told.status, told.err, told.after), (quiet.status, quiet.err, quiet.after))
                self.equals(told.command, "status", status, told.status)
                counted = run("reduce", "--quiet-answer", "--stats", *words, *more, given=text)
                self.equals(counted.command, "standard output", b"", counted.out)
                figures = figures_of(run("reduce", "--stats", *words, *more, given=text).err)
                self.equals(counted.command, "figures", figures, figures_of(counted.err))

    def test_a_refused_text_is_told_where_no_answer_is_wanted(self):
        for text in ("{A><B}", "<x|x=y>{", f"{ADD} <r|Add(r)=Z>"):
            told = run("reduce", given=text)
            ran = run("reduce", "--quiet-answer", "--stats", "--format=json", given=text)
            self.equals(ran.command, "how it ends", (1, b"", told.err, told.after), (ran.status, ran.out, ran.err, ran.after))

    def test_a_net_that_stays_small_has_few_nodes(self):
        """However many interactions it makes."""
        pairs = ",".join(f"A(x{it})=B(x{it})" for it in range(1, 1_001))
        for text, most in ((LOOP.text, 10), (f"{{A(B(x))><B(A(x))}} <|{pairs}>", 4_010)):
            ran = run("reduce", "--steps", 300_000, "--stats", given=text)
            made, nodes, _ = stats_of(ran.err)
            self.equals(ran.command, "interactions", 300_000, made)
            self.equals(ran.command, f"at most {most} nodes: {nodes}", True, nodes <= most)

    def test_names_that_join_names_are_put_through(self):
        """A net of few nodes keeps few, however often its rules join names."""
        for count in (1_000_000, 300_000):
            ran = run("reduce", "--steps", count, "--nodes", 20_000, "--stats", given=JOINS)
            made, nodes, rest = stats_of(ran.err)
            self.equals(ran.command, "status, interactions and what else is told", (5, count, b"icserve: not done\n"), (ran.status, made, rest))
            self.equals(ran.command, f"few nodes: {nodes}", True, nodes < 9_000)
            self.is_net(ran.command, JOINS, ran.out, "<r|U(r,m,n)=K(m,n)>")

    def test_an_answer_comes_through_many_names(self):
        """Names that were put through at one look join others until the next, and in the end an answer comes to the last."""
        rules = "{A(U(y,z,z))><U(x,S(x),T(y));S(x)><T(x);Z><U(Q(a,B),a,C)}"
        for count in (100, 5_000, 100_000):
            given = f"{rules} <r|" + "A(" * count + "Z" + ")" * count + "=U(r,n,n)>"
            _, nodes = self.reduces("--workers", 1, given=given, out=["<Q(C,B)|>"], interactions=2 * count + 1)
            self.equals(given[:80], f"few nodes at the end: {nodes}", True, nodes < 10_000)

    def test_circles_that_are_made_again_and_again_stay(self):
        """A circle of names is part of the net, whether names were put through since it was made or not."""
        for rules, pair, turn in (
            ("{A(B(x),y,y)><B(A(x,z,z))}", "A(n,m,m)=B(n)", 1),
            ("{B(A(x,z,z))><A(B(x),y,y)}", "A(n,m,m)=B(n)", 1),
            ("{A(C(x,y))><B(D(x,y));C(A(x),y)><D(B(x),y)}", "A(n)=B(n)", 2),
        ):
            for count in (1_000, 10_000):
                text = f"{rules} <|{pair}>"
                ran = run("reduce", "--steps", count * turn, given=text)
                self.equals(ran.command, "status and standard error", (5, b"icserve: not done\n"), (ran.status, ran.err))
                circles = "".join(f",{name}={name}" for name in map(model.name_text, range(100, 100 + count)))
                self.is_net(ran.command, text, ran.out, f"<|{pair}{circles}>")


class Growths(InPlace):
    """Each growth of memory is refused in turn."""

    seconds = 15
    in_turn = test_faults.Faults.in_turn

    def test_memory_runs_out_anywhere_and_what_was_reached_goes_on(self):
        """Nothing is printed then, or with `--partial` the net that was reached, from which the answer is reached."""
        shimmed()
        self.log = self.room / "log"
        text, answer = f"{POWER} <r|Exp(r)={numeral(7)}>", f"<{numeral(2**7)}|>\n".encode()
        told = {"well": 0, "before": 0, "between": 0, "printed": 0}

        def attempt(env, call):
            ran = run("reduce", "--workers", 1, *words, given=text, env=env)
            if (ran.status, ran.out, ran.err) == (0, answer, b""):
                told["well"] += 1
                return
            self.equals(ran.command, f"status and line, where it went wrong: {call}", (4, b"icserve: memory\n"), (ran.status, ran.err))
            told["between" if ran.after else "before"] += 1
            self.equals(ran.command, f"how far it came: {ran.after}", True, not ran.after or bool(REACHED.fullmatch(ran.after)))
            if ran.out:
                told["printed"] += 1
                self.equals(ran.command, "whether a net may be printed", True, bool(words and ran.after))
                self.runs("reduce", given=f"{POWER} ".encode() + ran.out, out=answer)

        for words in ([], ["--partial"]):
            self.in_turn("growth", ("once", "on"), attempt)
        self.equals("reduce", f"ends that never came: {told}", [], [it for it, count in told.items() if not count])
