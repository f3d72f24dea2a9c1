"""Workers stand from a serving's first lap on, for all laps, and are joined at its end: a lap is the next rounds of several
jobs that have enough work together. Those of an attendance's runner stand from its beginning to its end."""

import signal
import time

from attending import TOLD, Attending
from disks import EMPTY, put, slot
from known import LOOP, TWO, WAVES, WIDE
from program import Server, heeds_signals, run
from shim import noted, shimmed
from stops import Stops

# Two jobs of 4,000 equations. The first lap is made where they run both and more than one round is asked for.
LINES = [f"submit two {TWO.text}", "run 5", f"submit a {WAVES.text}", "run 1", f"submit loop {LOOP.text}"]
LINES += [f"submit b {WIDE.text}", "run 3", "list", "run 20"]
FIRST_LAP = LINES.index("run 3")
SMALL = [f"submit two {TWO.text}", "run 5", f"submit loop {LOOP.text}", "run 100", "list"]


def loops(count):
    """Pairs that fire in every round."""
    return "{A(B(x))><B(A(x))} <|" + ",".join(f"A(x{it})=B(x{it})" for it in range(1, count + 1)) + ">"


def growing(nodes):
    """A pair that leaves a node more in every round, beside so many at first."""
    return "{A(B(x),S(y))><B(A(x,y))} <" + "S(" * nodes + "r" + ")" * nodes + "|A(x,r)=B(x)>"


class Standing(Stops):
    seconds = 10

    def asked(self, server, lines):
        """Gives lines to a server that runs, and fails unless they are answered as the small model has it. The numbers of its
        threads after each answer."""
        threads = []
        for line, answer in zip(lines, self.answers_to(lines, 100)):
            self.answers(server, line, answer)
            threads.append(server.threads())
        return threads

    def test_the_same_workers_stand_between_two_rounds_and_none_before(self):
        for workers in (2, 3, 7, 64):
            with Server(self.disk(f"{workers}.disk"), "--workers", workers) as server:
                threads = self.asked(server, LINES)
                self.equals(server.said(), "threads before a lap", [[server.process.pid]] * FIRST_LAP, threads[:FIRST_LAP])
                self.equals(server.said(), "threads after it", workers, len(threads[FIRST_LAP]))
                self.equals(server.said(), "threads from then on", [threads[FIRST_LAP]] * (len(LINES) - FIRST_LAP), threads[FIRST_LAP:])
                self.ends(server)

    def test_a_serving_without_laps_starts_no_thread(self):
        for lines, words in ((SMALL, ("--workers", 64)), (LINES, ("--workers", 1))):
            with Server(self.disk(f"{len(lines)}.disk"), *words) as server:
                threads = self.asked(server, lines)
                self.equals(server.said(), "threads after each answer", [[server.process.pid]] * len(lines), threads)
                self.ends(server)

    def begun_and_joined(self, refused, workers, *ends):
        """How many threads a serving of the lines has begun and joined, in which a call goes wrong."""
        disk, log = self.room / "jobs.disk", self.room / "log"
        put(disk, slot(1, EMPTY))
        with Server(disk, "--workers", workers, env=shimmed(refused, log)) as server:
            for line in LINES:
                server.send(line)
                if server.answer() is None:
                    break
            ran = server.end()
        if (ran.status, ran.err) not in ends:
            self.told(ran.command, f"the end, where it went wrong: {refused}", ends, (ran.status, ran.err))
        kinds = [it.kind for it in noted(log)]
        self.found(ran, disk, self.may_be_left(ran, LINES, (), 100, ahead=1))
        return kinds.count("B"), kinds.count("J")

    def test_each_thread_is_begun_once_and_joined_at_the_end(self):
        """Also where the serving ends at a fault: of the writer, of the disk, or of memory. Without a thread it goes on."""
        well, write, device = (0, b""), (4, b"icserve: write\n"), (4, b"icserve: device\n")
        pool, memory = (4, b"icserve: pool\n"), (4, b"icserve: memory\n")
        for workers in (2, 5, 64):
            all_of_them = (workers - 1, workers - 1)
            came = self.begun_and_joined(f"thread {10**9} once", workers, well)
            self.equals(f"{workers} workers", "threads begun and joined", all_of_them, came)
            for answer in range(FIRST_LAP + 1, len(LINES) + 1):
                came = self.begun_and_joined(f"write {answer} on", workers, write)
                self.equals(f"{workers} workers, the write {answer}", "threads begun and joined", all_of_them, came)
            for thread in range(1, workers, 1 + workers // 5):
                came = self.begun_and_joined(f"thread {thread} on", workers, well)
                self.equals(f"{workers} workers, the thread {thread}", "threads begun and joined", (thread - 1,) * 2, came)
        opening = [(3, b"icserve: device\n"), (3, b"icserve: memory\n")]
        for what, calls, ends in (("disk", 60, (well, device)), ("growth", 4000, (well, pool, memory))):
            for call in sorted(self.draws(what).sample(range(20, calls), 25)):
                begun, joined = self.begun_and_joined(f"{what} {call} once", 3, *ends, *opening)
                self.equals(f"{what} {call} once", "threads joined, of those that were begun", begun, joined)

    def test_kills_while_workers_stand_lose_nothing_that_was_answered(self):
        draw = self.draws()
        for number in range(40):
            every, workers = draw.choice((1, 3, 100)), draw.choice((2, 3, 16))
            disk, lines = self.disk(f"{number}.disk"), [*LINES, f"submit c {WAVES.text}", "run 30", "run 30"]
            with Server(disk, "--every", every, "--workers", workers, preexec_fn=heeds_signals) as server:
                self.equals(server.said(), "threads", workers, len(self.asked(server, lines[: FIRST_LAP + 1])[-1]))
                server.send(lines[FIRST_LAP + 1 :])
                time.sleep(draw.random() * 0.03)
                sign = draw.choice((signal.SIGKILL, signal.SIGTERM))
                ran = server.stop(sign)
            self.equals(ran.command, "status and standard error", (-sign, b""), (ran.status, ran.err))
            self.found(ran, disk, self.may_be_left(ran, lines, (), every))


class Laps(Stops):
    seconds = 15

    def lines_of_jobs(self, draw):
        """Lines on a few jobs: of many pairs or few, that grow until they are halted, that end, with a budget or without."""
        systems = [loops(it) for it in (1, 3, 30, 200)] + [growing(it) for it in (1, 500, 4000, 8000)] + [TWO.text]
        names = [f"j{it}" for it in range(8)]
        lines = [f"submit {it} {draw.choice(('', '', '40 '))}{draw.choice(systems)}" for it in names]
        for _ in range(40):
            name = draw.choice(names)
            go_on = f"run {draw.choice((1, 2, 30, 100, 1000))}"
            other = draw.choice((f"pause {name}", f"resume {name}", f"cancel {name}", f"copy {name} {draw.choice(names)}", f"fetch {name}"))
            submit = f"submit {name} {draw.choice(systems)}"
            lines.append(draw.choice((go_on, go_on, go_on, other, submit)))
        return [*lines, "list"]

    def test_answers_and_disks_are_the_same_bytes_by_any_number_of_workers(self):
        draw = self.draws()
        for number in range(8):
            lines, every = self.lines_of_jobs(draw), draw.choice((1, 50, 100_000))
            came = []
            for workers in (1, 2, 4, 64):
                disk = self.disk(f"{number}.{workers}.disk")
                ran = run("serve", "--disk", disk, "--workers", workers, "--every", every, given=lines)
                came.append((ran.status, ran.err, ran.out, disk.read_bytes()))
            self.equals(came[0][:2], "how it ends", (0, b""), came[0][:2])
            self.equals([it[:60] for it in lines], "whether answers and disks are the same by 1, 2, 4 and 64 workers", 1, len(set(came)))


class StandingCrews(Attending):
    seconds = 15

    def begun_and_joined(self, runners, workers, turns=10, refused=f"thread {10**9} once"):
        """An attendance of both scripts, and which threads were begun (B) and joined (J) meanwhile, in order."""
        log = self.room / "log"
        ran = self.attended(self.attends(*self.paths, runners=runners, workers=workers, turns=turns), env=shimmed(refused, log))
        return ran, "".join(it.kind for it in noted(log) if it.kind in "BJ")

    def test_each_runner_has_one_crew_however_many_rounds_are_made(self):
        for runners, workers in ((0, 2), (1, 1), (1, 64), (2, 2), (5, 7)):
            for turns in (0, 10, 1000):
                ran, came = self.begun_and_joined(runners, workers, turns)
                self.ended(ran, TOLD)
                threads = len(self.paths) + runners + runners * workers
                self.equals(ran.command, "threads begun, and then joined", "B" * threads + "J" * threads, came)
                least = max(0, turns - 2) if runners else 0
                rounds = self.rounds()["loop"]
                self.equals(ran.command, f"at least {least} rounds of `loop`, came {rounds}", True, rounds >= least)

    def test_a_thread_that_cant_be_had_ends_all(self):
        """Be it a client's, a runner's or a worker's: those that were begun are joined."""
        runners, workers = 2, 3
        threads = len(self.paths) + runners + runners * workers
        for how in ("once", "on"):
            for number in range(1, threads + 1):
                ran, came = self.begun_and_joined(runners, workers, refused=f"thread {number} {how}")
                self.ended(ran, err=["icserve: no thread"], status=4)
                counted = came.count("B"), came.count("J")
                self.equals(ran.command, f"threads begun and joined, the thread {number} {how}", (number - 1,) * 2, counted)

    def test_all_threads_are_joined_where_memory_is_refused(self):
        most = 0
        for call in sorted(self.draws().sample(range(1, 600), 40)):
            ran, came = self.begun_and_joined(2, 3, refused=f"growth {call} once")
            begun, joined = came.count("B"), came.count("J")
            self.equals(ran.command, f"threads joined, of those that were begun, the growth {call}", begun, joined)
            most = max(most, begun)
        self.equals("40 refused growths", "threads begun at most", len(self.paths) + 2 + 2 * 3, most)
