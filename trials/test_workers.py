"""The word `reduce --workers W`: one text and one count for any number of workers, over drawn systems and over systems that are
cut into parts, and what threads do. So many systems are drawn as the variable SYSTEMS says, of 400 if it isn't set."""

import os
import sys
from pathlib import Path

import draws
import model
import nets
from known import ADD
from program import IN_MEMORY, PROGRAM, TOP, Trial, run
from shim import noted, shimmed
from test_in_place import DOUBLES, PILES, REACHED, figures_of, name_steps_of, object_of, stats_of

sys.path.insert(0, str(TOP / "bench"))

from systems import FIBONACCI, numeral  # noqa: E402

SYSTEMS = int(os.environ.get("SYSTEMS") or 400)

WORKERS = (2, 3, 7, 64)

# The fields of an object that tell how several threads shared a reduction.
THREADS = {"by_thread", "handed_on", "idle_milliseconds"}

PATIENT = 2_000

FIB = (
    "{Add(x,x)><Z;Add(S(x),y)><S(Add(x,y));Dup(Z,Z)><Z;Dup(S(x),S(y))><S(Dup(x,y));"
    "F(Z)><Z;F(r)><S(G(r));G(S(Z))><Z;G(r)><S(Dup(G(Add(r,u)),F(u)))}"
)


# For each turn of P a number is copied and counted down by Q. Then N has the next turn begin.
TURNS = (
    "{P(r,Dup(Q(N(r,n,x)),n))><S(x);P(Z,E)><Z;N(r,n,P(r,n))><Z;Q(u)><S(Q(u));Q(Z)><Z;E><S(E);E><Z;"
    "Dup(Z,Z)><Z;Dup(S(x),S(y))><S(Dup(x,y))}"
)


def rules_of(text):
    return model.read_system(text.encode())[0]


def numeral(number):
    return "S(" * number + "Z" + ")" * number


def quota():
    """How many processors the quota of a container allows, one at least."""
    try:
        limit, period = map(int, Path("/sys/fs/cgroup/cpu.max").read_text().split())
        return max(1, limit // period)
    except (OSError, ValueError):
        return 64


class Workers(Trial):
    rooms = IN_MEMORY
    seconds = 20

    def ends_alike(self, text):
        """A text has one net, one count of interactions and of name steps by any number of workers, and the same line if no
        equation is left."""
        rules = rules_of(text)
        alone = run("reduce", "--workers", 1, "--stats", given=text)
        told = stats_of(alone.err)
        form = nets.form_of(rules, alone.out)
        for workers in WORKERS:
            ran = run("reduce", "--stats", "--workers", workers, given=text)
            self.equals(ran.command, "status and net", (alone.status, form), (ran.status, nets.form_of(rules, ran.out)))
            if alone.out.endswith(b"|>\n"):
                self.equals(ran.command, "answer", alone.out, ran.out)
            made, _, rest = stats_of(ran.err)
            self.equals(ran.command, "interactions", told[0], made)
            self.equals(ran.command, "whether a pair is stuck", bool(told[2]), bool(rest))
            self.equals(ran.command, "name steps", name_steps_of(alone.err), name_steps_of(ran.err))
        return told[0]

    def is_cut(self, text, made):
        """With a bound it ends after as many interactions, and what is printed goes on to the same net."""
        rules = text[: text.index("}") + 1]
        whole = nets.form_of(rules_of(text), run("reduce", "--workers", 1, given=text).out)
        for workers in WORKERS:
            for most in (0, 1, made // 2, made - 1):
                cut = run("reduce", "--stats", "--steps", most, "--workers", workers, given=text)
                told = (5, most, b"icserve: not done\n")
                self.equals(cut.command, "status and what is told", told, (cut.status, *stats_of(cut.err)[::2]))
                rest = run("reduce", "--workers", 1, given=rules.encode() + cut.out)
                self.equals(rest.command, "the same net", whole, nets.form_of(rules_of(text), rest.out))

    def test_drawn_systems(self):
        drawn = self.draws()
        for _ in range(max(1, SYSTEMS)):
            rules, config = draws.system(drawn, drawn.choice([1, 2, 3, 5]), drawn.choice([2, 3, 4]))
            if nets.Reduction(rules, config, drawn).run(PATIENT):
                self.ends_alike(draws.system_text(rules, config))

    def test_systems_with_many_active_pairs(self):
        drawn = self.draws()
        for _ in range(max(1, SYSTEMS)):
            symbols = draws.symbols(drawn, drawn.randint(2, 6), drawn.choice([1, 2, 3]))
            rules = draws.rules(drawn, symbols, drawn.randint(1, 12), size=drawn.choice([1, 2, 3]))
            config = draws.configuration(drawn, rules, drawn.randrange(5), drawn.randint(1, 200), drawn.choice([2, 4, 6]), active=1.0)
            if nets.Reduction(rules, config, drawn).run(PATIENT * 10):
                self.ends_alike(draws.system_text(rules, config))

    def test_systems_that_are_cut_into_parts(self):
        for text in (f"{FIB}<r|F(r)={numeral(21)}>", f"{FIB}<r,s|F(r)={numeral(14)},F(s)={numeral(15)},Add(t,r1)=Z,t=r1>"):
            made = self.ends_alike(text)
            if "," not in text[text.index("<") : text.index("|")]:
                self.is_cut(text, made)

    def test_one_pair_among_many_that_wait(self):
        """One worker has something to do, and the equations of the others wait for names that only it has."""
        waiting = ",".join(f"Add(a{it + 2},S(Z))=a{it + 1}" for it in range(1_200))
        made = self.ends_alike(f"{ADD} <a1201|a1=S(Z),{waiting}>")
        self.equals("a chain of 1,200 sums", "interactions", 1_200 * 1_203 // 2, made)

    def test_equations_that_all_wait_for_names_of_one_part(self):
        """One pair gives each of 600 sums what it waits for, one after the other."""
        rules = f"{ADD[:-1]};C(S(Z),M(m))><M(m);E><M(Z)}}"
        names = range(1, 601)
        given, results = ("".join(f"{agent}({name}{it}," for it in names) + "E" + ")" * len(names) for agent, name in ("Cn", "Kr"))
        sums = ",".join(f"Add(r{it},S(Z))=n{it}" for it in names)
        made = self.ends_alike(f"{rules} <w,{results}|{given}=M(w),{sums}>")
        self.equals("600 sums that wait", "interactions", 1_801, made)

    def test_one_pair_in_a_net_of_a_million(self):
        text = f"{ADD} <r,t|Add(r,S(Z))=S(Z),t={numeral(1_000_000)}>"
        wanted = f"<S(S(Z)),{numeral(1_000_000)}|>\n".encode()
        for workers in (1, *WORKERS):
            ran = run("reduce", "--stats", "--workers", workers, given=text)
            self.equals(f"{workers} workers", "status, answer and interactions", (0, wanted, 2), (ran.status, ran.out, stats_of(ran.err)[0]))

    def test_a_net_without_pairs(self):
        for config in ("<|>", "<x|>", "<x,x|>", "<r|r=Z>", "<|x=Add(x,Z)>"):
            self.ends_alike(f"{ADD} {config}")

    def test_how_many_threads_may_reduce_is_told(self):
        text, processors = f"{ADD} <r|Add(r,S(Z))=S(Z)>", min(len(os.sched_getaffinity(0)), quota(), 64)
        for words, wanted in (([], processors), (["--workers", 3], 3), (["--steps", 9], 1), (["--steps", 9, "--workers", 64], 64)):
            ran = run("reduce", "--stats", *words, given=text)
            self.equals(ran.command, "threads", wanted, figures_of(ran.err)[0]["threads"])

    def test_words_that_are_refused(self):
        for number in ("0", "65", "-1", "two", ""):
            self.equals("reduce", "status", 2, run("reduce", "--workers", number, given="{} <|>").status)


class Threads(Trial):
    """What is made and asked for by the threads of a reduction, as the shim sees it."""

    rooms = IN_MEMORY
    seconds = 5
    text = f"{FIB}<r|F(r)={numeral(22)}>"

    def setUp(self):
        super().setUp()
        self.log = self.room / "log"

    def reduced(self, workers, call):
        return run("reduce", "--workers", workers, given=self.text, env=shimmed(call, self.log))

    def at_once(self):
        """The most threads that have begun and weren't joined yet."""
        now = most = 0
        for it in noted(self.log):
            now += (it.kind == "B") - (it.kind == "J")
            most = max(most, now)
        return most

    def made(self, *words, text, gate=0, **how):
        """A run that went well, and how many threads it has made. So many of its first threads wait for each other."""
        ran = run("reduce", *words, given=text, env={**shimmed(f"thread {10**9} once", self.log), "SHIM_GATE": f"0 {gate}"}, **how)
        self.equals(ran.command, "status", 0, ran.status)
        return ran, next(it.at for it in noted(self.log) if it.kind == "C")

    def test_no_thread_is_made_for_one_worker(self):
        for workers in (1, 2, 7, 64):
            ran, threads = self.made("--workers", workers, text=self.text)
            self.equals(ran.command, "whether threads are made", workers > 1, threads > 0)

    def test_where_no_number_is_said_there_is_a_thread_for_each_processor(self):
        """Of those that the process may use. The thread that asks is one of them."""
        processors = sorted(os.sched_getaffinity(0))
        wanted = run("reduce", "--workers", 1, given=self.text)
        for count in (1, 2, 3, 4):
            if count > len(processors):
                break
            others = min(count, quota()) - 1
            ran, _ = self.made(text=self.text, gate=others, preexec_fn=lambda may=processors[:count]: os.sched_setaffinity(0, may))
            self.equals(ran.command, f"threads beside the first on {count} processors", others, self.at_once())
            self.equals(ran.command, "answer", wanted.out, ran.out)

    def test_where_no_number_is_said_one_thread_makes_few_interactions_and_those_that_are_bounded(self):
        for words, text in (([], f"{FIB}<r|F(r)={numeral(3)}>"), (["--steps", 10**9], self.text), (["--steps", 10**9, "--nodes", 10**7], self.text)):
            ran, threads = self.made(*words, text=text)
            self.equals(ran.command, "threads", 0, threads)
        first, *others = (run("reduce", "--steps", 20_000, given=self.text) for _ in range(4))
        self.equals(first.command, "the same line each time", [first[1:]] * len(others), [it[1:] for it in others])

    def test_several_threads_are_at_work_at_once(self):
        """Each thread of the first step waits at its end until all of them have begun. The thread that asks makes a share
        itself."""
        for workers in (2, 4, 7):
            self.made("--workers", workers, text=self.text, gate=workers - 1)
            self.equals(f"{workers} workers", "threads beside the first", workers - 1, self.at_once())
            gates = [it.kind for it in noted(self.log) if it.kind in "GL"]
            self.equals(f"{workers} workers", "whether each ended after all had begun", ["G"] * (workers - 1), gates)

    def test_a_thread_that_cannot_be_made_changes_nothing(self):
        wanted = run("reduce", "--workers", 1, given=self.text)
        for call in ("thread 1 on", "thread 1 once", "thread 2 once", "thread 5 on"):
            ran = self.reduced(4, call)
            self.equals(call, "status and answer", (0, wanted.out, b""), (ran.status, ran.out, ran.err))

    def test_drawn_growths_are_refused(self):
        """The answer is there, or memory has run out. Where one growth is refused while several threads are at work, or what
        they have is handed on, it is there: one thread goes on, or reduces the net from its beginning."""
        drawn, wanted = self.draws(), run("reduce", "--workers", 1, given=self.text)
        self.reduced(3, f"growth {10**9} once")
        growths = next(it.at for it in noted(self.log) if it.kind == "C")
        among, numbers = 0, sorted(drawn.sample(range(1, growths + 1), min(growths, 200)))
        # Few growths come while several threads are at work, and it differs how many.
        for at, number in enumerate([*numbers, *(drawn.randint(1, growths) for _ in range(400))]):
            if at >= len(numbers) and among:
                break
            how = drawn.choice(("once", "on")) if at < len(numbers) else "once"
            ran = self.reduced(3, f"growth {number} {how}")
            kinds = "".join(it.kind for it in noted(self.log))
            before, _, after = kinds.partition("E")
            is_among = how == "once" and "B" in before and "B" in after
            among += is_among
            if is_among or ran.status == 0:
                self.equals(f"growth {number} {how}", "status and answer", (0, wanted.out), (ran.status, ran.out))
            else:
                self.equals(f"growth {number} {how}", "status and standard output", (4, b""), (ran.status, ran.out))
        self.equals("drawn growths", "whether some were refused between the first thread and the last one", True, among > 0)


class Dropped(Trial):
    rooms = IN_MEMORY
    seconds = 60

    def test_no_line_tells_of_threads_whose_work_was_dropped(self):
        """Where memory is refused to several threads, one reduces the system anew, and no interactions are shared."""
        text = f"{FIBONACCI} <r|F(r)={numeral(27)}>"
        for kilobytes in (20_000, 30_000, 40_000):
            shell = ["-c", f'ulimit -v {kilobytes}; exec "$0" reduce --quiet-answer --stats --workers 4', PROGRAM]
            ran = run(*shell, program="/bin/sh", given=text)
            told = ran.err + ran.after
            if b", shared 0, " in told:
                self.equals(ran.command, "whether a line tells of threads", False, b"icserve: thread 1: " in told)


class Sizes(Trial):
    """What ends a reduction by several threads, and how soon."""

    rooms = IN_MEMORY
    seconds = 20

    def test_a_net_that_grows_without_end_is_overgrown(self):
        """All parts together are held against the bound, and a step makes no more interactions than keep to it."""
        for text in (PILES, DOUBLES):
            for workers in (2, 4):
                for most in (20_000, 100_000, 1_000_000):
                    ran = run("reduce", "--workers", workers, "--nodes", most, given=text, seconds=30)
                    self.equals(ran.command, "status, answer and what is told", (1, b"", b"icserve: overgrown\n"), (ran.status, ran.out, ran.err))
                    reached = REACHED.match(ran.after)
                    self.equals(ran.command, "what is told of the net", True, reached is not None and int(reached[4]) == most)
                    nodes = int(reached[2])
                    self.equals(ran.command, f"whether {nodes} names and agents are more, by a tenth at most", True, most < nodes <= 1.1 * most)

    def test_a_small_net_that_opens_many_names_is_not_overgrown(self):
        """Its turns open some twelve million names. Few are there at once."""
        turns, loops = numeral(700), range(1, 9)
        each = ",".join(f"P(a{it},{turns})={turns}" for it in loops)
        text = f"{TURNS} <{','.join(f'a{it}' for it in loops)}|{each}>"
        wanted = (0, b"<Z,Z,Z,Z,Z,Z,Z,Z|>\n", 8 * (700 * 1_404 + 702), b"")
        for workers in (1, 2, 4):
            ran = run("reduce", "--stats", "--workers", workers, "--nodes", 100_000, given=text, seconds=60)
            made, nodes, rest = stats_of(ran.err)
            self.equals(ran.command, "status, answer and interactions", wanted, (ran.status, ran.out, made, rest))
            self.equals(ran.command, f"whether {nodes} names and agents are within the bound", True, nodes <= 100_000)

    def test_how_many_interactions_are_shared_is_told(self):
        """None by one thread. By several, one thread makes the last."""
        text = f"{FIB}<r|F(r)={numeral(22)}>"
        for words in (["--workers", 1], ["--steps", 10**9], ["--workers", 1, "--steps", 5_000]):
            ran = run("reduce", "--stats", *words, given=text)
            self.equals(ran.command, "shared", 0, figures_of(ran.err)[0]["shared"])
        for workers in (2, 4):
            ran = run("reduce", "--stats", "--workers", workers, given=text)
            told = figures_of(ran.err)[0]
            self.equals(ran.command, f"whether some of {told} are shared", True, 0 < told["shared"] <= told["interactions"])
            for grows in (PILES, DOUBLES):
                ran = run("reduce", "--stats", "--workers", workers, "--nodes", 100_000, given=grows, seconds=30)
                told = figures_of(ran.err)[0]
                self.equals(ran.command, f"whether one thread ends {told}", True, told["shared"] < told["interactions"])

    def test_what_each_thread_has_made_is_told(self):
        """As many numbers as threads, together those that are shared but for the first, which one thread makes; by one thread none."""
        text = f"{FIB}<r|F(r)={numeral(22)}>"
        for words in (["--workers", 1], ["--steps", 10**9], ["--rounds", 10**6]):
            ran = run("reduce", "--stats", *words, given=text)
            self.equals(ran.command, "what is told of threads", False, b"icserve: thread " in ran.err)
            objects = run("reduce", "--stats", "--format", "json", *words, given=text)
            self.equals(objects.command, "fields of threads", set(), THREADS & set(object_of(objects.err)[0]))
        for workers in (2, 4):
            ran = run("reduce", "--stats", "--workers", workers, given=text)
            self.adds_up(ran.command, workers, figures_of(ran.err)[0])
            objects = run("reduce", "--stats", "--format", "json", "--workers", workers, given=text)
            told = object_of(objects.err)[0]
            self.equals(objects.command, "fields of threads", THREADS, THREADS & set(told))
            self.adds_up(objects.command, workers, told)
            idle = told["idle_milliseconds"]
            self.equals(objects.command, f"whether {idle} of so many threads are within its time", True, idle <= workers * (told["milliseconds"] + 1))

    def adds_up(self, command, workers, told):
        """Fails unless so many threads share what is told as shared, but for a part, and some trees are handed on."""
        made = told["by_thread"]
        self.equals(command, "threads", workers, len(made))
        self.equals(command, f"whether {made} are some of {told['shared']}", True, 0 < sum(made) <= told["shared"])
        self.equals(command, "whether several threads made some", True, sum(it > 0 for it in made) > 1)
        self.equals(command, "whether trees are handed on", True, told["handed_on"] > 0)

    def test_what_each_thread_has_made_is_told_of_a_kept_reduction(self):
        """Of all pieces between two keeps together."""
        ran = run("reduce", "--keep", self.room / "net", "--seconds", 1, "--stats", "--workers", 2, given=f"{FIB}<r|F(r)={numeral(24)}>", seconds=120)
        self.adds_up(ran.command, 2, figures_of(ran.err)[0])

    def test_where_too_few_are_left_to_share_the_first_are_told_as_shared(self):
        """The first 100 interactions are made before anything is parted. Then 99 or 40 are left, or fewer than 1,000 a thread."""
        text = f"{ADD} <r|Add(r,S(Z))={numeral(149)}>"
        for steps, made, status in ((199, 150, 0), (140, 140, 5)):
            ran = run("reduce", "--stats", "--workers", 4, "--steps", steps, given=text)
            told = figures_of(ran.err)[0]
            self.equals(ran.command, "status, interactions, shared", (status, made, 100), (ran.status, told["interactions"], told["shared"]))
        ran = run("reduce", "--stats", "--quiet-answer", "--workers", 64, "--steps", 63_000, "--nodes", 100_000, given=PILES)
        told = figures_of(ran.err)[0]
        self.equals(ran.command, f"whether one thread ends {told}", (1, True), (ran.status, told["shared"] < told["interactions"]))

    def test_a_net_with_one_pair_at_a_time_is_left_to_one_thread(self):
        text = f"{ADD} <r|Add(r,S(Z))={numeral(3_000_000)}>"
        alone, several = (run("reduce", "--stats", "--workers", it, given=text, seconds=60) for it in (1, 4))
        self.equals(several.command, "status, answer and interactions", (0, 3_000_001), (several.status, stats_of(several.err)[0]))
        self.equals(several.command, "whether the answer is that of one thread", True, several.out == alone.out)
