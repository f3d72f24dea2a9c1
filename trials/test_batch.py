"""`batch`: the jobs of a file of lines come to their ends, whatever stops came before."""

import re
import signal
import subprocess
import time
from pathlib import Path

from checked import checked
from known import ADD, LOOP, STILL, TWO, WAVES, WIDE, Job, fetched
from program import PATIENCE, PROGRAM, Server, Trial, as_lines, heeds_signals, run, said_of
from shim import noted, recording
from test_standing import loops

SYSTEMS = (TWO, STILL, LOOP, WIDE, WAVES)


def submitted(name, system, budget=None):
    return f"submit {name} {f'{budget} ' if budget else ''}{system.text}"


def end_of(name, system, most):
    """What a job has come to, by hand: it is done at its first quiet configuration, or has made the most rounds."""
    rounds = next(it for it in range(most + 1) if it == most or system.is_quiet(it))
    return fetched(Job(name, system, "running", 0).at(rounds))


class Batch(Trial):
    seconds = 15

    def setUp(self):
        super().setUp()
        self.path = self.room / "jobs.disk"
        self.lines = self.room / "lines"

    def words(self, lines, *words):
        self.lines.write_bytes(as_lines(lines))
        return ["batch", "--disk", self.path, *words, self.lines]

    def brings(self, lines, out, *words):
        return self.runs(*self.words(lines, *words), out=out)

    def test_jobs_by_hand_come_to_their_ends(self):
        loop = LOOP.text
        lines = [
            f"submit two {ADD} <r|Add(r,S(Z))=S(Z)>",
            "",
            f"submit  four\t7 {ADD} <r|Add(r,S(S(Z)))=S(S(Z))>\r",
            f"submit loop 3 {loop}",
            f"submit long {loop}",
            "submit still {} <|x=x>",
        ]
        out = [
            "two done 2 <S(S(Z))|>",
            "four done 3 <S(S(S(S(Z))))|>",
            "loop spent 3 <|B(a1)=A(a1)>",
            "long running 5 <|B(c1)=A(c1)>",
            "still done 0 <|x=x>",
        ]
        self.brings(lines, out, "--rounds", "5")
        self.brings(lines, out, "--rounds", "5", "--every", "1", "--workers", "7")
        more = [it.replace("long running 5 <|B(c1)=A(c1)>", "long running 30 <|B(b2)=A(b2)>") for it in out]
        self.brings(lines, more, "--rounds", "30")
        self.brings(lines[::-1], more[::-1], "--rounds", "30")
        self.serves(self.path, "list", ["jobs two:done:2 four:done:3 loop:spent:3 long:running:30 still:done:0"])

    def test_no_round_and_no_job(self):
        """Rounds are made of all jobs of the disk, of those that no line submits, too."""
        self.brings([submitted("two", TWO)], [fetched(Job("two", TWO, "running", 0))], "--rounds", "0")
        self.brings(["", " \t"], [])
        self.serves(self.path, "list", ["jobs two:done:2"])
        self.brings(b"", [])

    def test_halted_jobs_are_told_with_status_7_after_the_answers(self):
        """So they are where the batch is called again, but not by a batch of other lines."""
        over = "submit {} {{A><B(C(C(D)))}} <|A=B(P)," + "C(" * 8187 + "D" + ")" * 8187 + "=Q>"
        lines = [over.format("over"), submitted("two", TWO), over.format("more")]
        words = self.words(lines)
        told = as_lines(f"icserve: halted {it}: next round overgrown" for it in ("over", "more"))
        for _ in range(2):
            ran = run(*words)
            self.equals(ran.command, "status and what is told", (7, told), (ran.status, ran.err + ran.after))
            answers = [it.split(b" <")[0] for it in ran.out.splitlines()]
            self.equals(ran.command, "the answers", [b"over halted 0", b"two done 2", b"more halted 0"], answers)
        self.brings([submitted("two", TWO)], [end_of("two", TWO, 9)])

    def test_the_disk_is_made_or_finished(self):
        """A file that is missing, one that is empty, and what a stopped `create` has left of one."""
        self.runs("create", "--disk", self.path)
        whole = self.path.read_bytes()
        self.path.unlink()
        for data in (None, b"", whole, bytes(len(whole)), whole[:100]):
            self.path.unlink(missing_ok=True)
            if data is not None:
                self.path.write_bytes(data)
            self.brings([submitted("two", TWO)], [end_of("two", TWO, 9)])
        self.path.write_bytes(b"a text\n")
        self.refuses(*self.words([submitted("two", TWO)]), line="no slot", status=3)
        self.holds(self.path, b"a text\n")

    def test_lines_that_are_refused(self):
        """No disk is made or opened then."""
        two, loop = submitted("two", TWO), submitted("loop", LOOP)
        many = [submitted(f"j{it}", STILL) for it in range(33)]
        submits = "each line submits a job"
        sought = "a command is looked for here: submit, copy, pause, resume, cancel, fetch, list or run; a file with one text begins with { or <"
        for lines, line, after in (
            ([two, "", "submit loop {A(B(x))><B(A(x))} <|A(x)=B(x)"], "line 3: bad syntax", None),
            (["submit x {} <|x=x,x=y>"], "line 1: bad name x", None),
            ([two, "run 3"], "line 2: bad syntax", f"2: {submits}"),
            ([two, "list"], "line 2: bad syntax", f"2: {submits}"),
            (["", two, "", loop, "fetch two"], "line 5: bad syntax", f"5: {submits}"),
            ([two, "", loop, submitted("two", LOOP)], "line 4: refused taken", "4: a line before submits a job of this name"),
            (["", *many], "line 34: refused full", "34: a batch has at most 32 jobs; `cluster/cut` parts more into shards"),
            ([two, "no"], "line 2: bad syntax", f"2:1: bad syntax: {sought}"),
        ):
            with self.subTest(line=line):
                words = self.words(lines)
                ran = self.refuses(*words, line=line, status=1)
                told = checked(words[-1], "\n".join(lines).encode())[0] if after is None else [f"{words[-1]}:{after}"]
                self.equals(ran.command, "what is told after", "".join(f"{it}\n" for it in told), ran.after.decode())
                self.equals(line, "whether a disk was made", False, self.path.exists())
        ran = run("batch", "--disk", self.path, self.room / "none")
        after = f"{self.room / 'none'}: open: no such file or folder\n".encode()
        self.equals(ran.command, "how it ends", (4, b"", b"icserve: read\n" + after), (ran.status, ran.out, ran.err))

    def test_a_name_that_another_job_has(self):
        budget, rules, begin = (f"its job of this name {it}" for it in ("has another budget", "has other rules", "begins with another configuration"))
        self.runs("create", "--disk", self.path)
        self.serves(self.path, [submitted("two", TWO, 9), submitted("still", STILL), "run 1"], ["accepted", "accepted", "ran 1"])
        begun = self.path.read_bytes()
        for lines, name, words in (
            ([submitted("two", TWO)], "two", budget),
            ([submitted("new", LOOP), submitted("two", TWO, 8)], "two", budget),
            ([submitted("two", LOOP, 9)], "two", rules),
            ([submitted("two", TWO, 9), "submit still {} <|x=y,y=x>"], "still", begin),
        ):
            with self.subTest(lines=lines):
                ran = self.refuses(*self.words(lines), line=f"taken {name}", status=1)
                self.equals(ran.command, "what is told after it", f"{self.path}: {words}\n".encode(), ran.after)
                self.holds(self.path, begun)
        self.brings([submitted("two", TWO, 9), submitted("still", STILL)], [end_of("two", TWO, 9), end_of("still", STILL, 9)])

    def test_a_disk_without_room(self):
        self.runs("create", "--disk", self.path)
        others = [submitted(f"j{it}", STILL) for it in range(31)]
        self.serves(self.path, others, ["accepted"] * 31)
        lines = [submitted("two", TWO), submitted("loop", LOOP)]
        before = self.path.read_bytes()
        ran = self.refuses(*self.words(lines), line="full", status=1)
        self.holds(self.path, before)
        words = f"{self.path}: it has jobs of other names, and no disk has more than 32\n"
        self.equals(ran.command, "what is told after it", words.encode(), ran.after)
        self.serves(self.path, "cancel j7", ["ok"])
        self.brings(lines, [end_of("two", TWO, 9), end_of("loop", LOOP, 9)], "--rounds", "9")

    def test_a_disk_that_another_server_has(self):
        path = self.disk()
        with Server(path) as server:
            self.answers(server, "list", "jobs")
            ran = self.refuses(*self.words([submitted("two", TWO)]), line="locked", status=6)
            self.equals(ran.command, "what is told after it", f"{path}: lock: another process has it open\n".encode(), ran.after)
            self.ends(server)
        self.brings([submitted("two", TWO)], [end_of("two", TWO, 9)])

    def test_words_that_are_refused(self):
        self.lines.write_bytes(b"")
        disk = ["--disk", self.path]
        for words in ([], disk, [self.lines], [*disk, self.lines, self.lines], ["--rounds", "-1", *disk, self.lines]):
            ran = run("batch", *words)
            self.equals(ran.command, "status and standard output", (2, b""), (ran.status, ran.out))
            self.equals(ran.command, "whether a disk was made", False, self.path.exists())

    def test_an_output_that_cant_be_written(self):
        with open("/dev/full", "wb") as full:
            ran = run(*self.words([submitted("two", TWO)]), stdout=full)
        self.equals(ran.command, "how it ends", (4, b"icserve: write\n"), (ran.status, ran.err))
        self.serves(self.path, "list", ["jobs two:done:2"])

    def stopped(self, draw, sign, command):
        """Starts the program, and ends it by a signal at a drawn moment, unless it has ended before."""
        pipes = {"stdin": subprocess.DEVNULL, "stdout": subprocess.PIPE, "stderr": subprocess.PIPE}
        with subprocess.Popen([PROGRAM, *map(str, command)], preexec_fn=heeds_signals, **pipes) as started:
            time.sleep(draw.random() ** 2 * 0.15)
            started.send_signal(sign)
            out, err = started.communicate()
        if started.returncode not in (0, -sign) or err:
            self.told(said_of(command), "how it ends", f"by the signal {sign!r}", f"status {started.returncode}, {err}")
        return started.returncode, out

    def line_of(self, name, system, budget, most):
        """What is printed of a job with a budget or none."""
        line = end_of(name, system, min(most, budget or most))
        is_spent = budget and budget <= most and f"{name} running {budget} " in line
        return line.replace(" running ", " spent ", 1) if is_spent else line

    def test_jobs_have_their_rounds_in_turn_and_these_are_kept_meanwhile(self):
        """A look at the disk of a batch that goes on finds rounds of each job, as many, or one more of those before."""
        command = self.words([submitted(it, LOOP) for it in ("one", "two", "three")], "--rounds", 10**9, "--every", 1)
        pipes = {"stdin": subprocess.DEVNULL, "stdout": subprocess.PIPE, "stderr": subprocess.PIPE}
        with subprocess.Popen([PROGRAM, *map(str, command)], **pipes) as started:
            found, end = [], time.monotonic() + PATIENCE
            while (len(found) < 3 or found[0] < 5) and time.monotonic() < end:
                found = [int(it) for it in re.findall(rb": running, rounds (\d+)", run("inspect", "--disk", self.path).out)]
            started.kill()
        self.equals(said_of(command), f"whether each of three jobs has rounds, as {found}", True, len(found) == 3 and found[0] >= 5)
        self.equals(said_of(command), f"whether they were made in turn, as {found}", True, found[2] <= found[1] <= found[0] <= found[2] + 1)

    def test_as_many_threads_make_rounds_as_are_asked_for_and_the_answers_are_the_same(self):
        """16 jobs of 300 pairs that never end, by 1, 2 and 4 threads, the first of which is the program's own."""
        told, answers = [], self.room / "answers"
        for workers in (1, 2, 4):
            self.path = self.room / f"{workers}.disk"
            command = self.words([f"submit j{it} {loops(300)}" for it in range(16)], "--rounds", 400, "--workers", workers)
            with answers.open("wb") as out, subprocess.Popen([PROGRAM, *map(str, command)], stdin=subprocess.DEVNULL, stdout=out) as started:
                tasks, threads = Path(f"/proc/{started.pid}/task"), 0
                while started.poll() is None:
                    threads = max(threads, len(list(tasks.iterdir())))
                    time.sleep(0.01)
            self.equals(said_of(command), "status and threads", (0, workers), (started.returncode, threads))
            told.append((answers.read_bytes(), self.path.read_bytes()))
        self.equals("batch", "whether answers and disks are the same", [True, True], [it == told[0] for it in told[1:]])

    def test_all_submits_are_kept_by_one_keep(self):
        log, syncs = self.room / "calls", []
        for count in (1, 32):
            self.path = self.room / f"{count}.disk"
            ran = run(*self.words([submitted(f"j{it}", STILL) for it in range(count)]), **recording(log))
            self.equals(ran.command, "the status", 0, ran.status)
            syncs.append(sum(it.kind == "S" for it in noted(log)))
        self.equals("batch", "the syncs of 1 job and of 32", *syncs)

    def test_stops_at_drawn_moments_change_nothing(self):
        """Stopped again and again and called anew, it prints what one call prints, and a stopped one a front of that at most."""
        draw = self.draws()
        stops = ends = 0
        for turn in range(30):
            jobs = [(f"j{it}", draw.choice(SYSTEMS), draw.choice((None, None, 5))) for it in range(draw.randint(1, 20))]
            most = draw.choice((3, 60, 400))
            lines = [submitted(*it) for it in jobs]
            command = self.words(lines, "--rounds", most, "--every", draw.choice((1, 7, 100)))
            self.path.unlink(missing_ok=True)
            out = [self.line_of(*it, most) for it in jobs]
            for _ in range(draw.randint(1, 12)):
                status, came = self.stopped(draw, draw.choice((signal.SIGKILL, signal.SIGTERM, signal.SIGINT)), command)
                stops += status != 0
                ends += status == 0
                is_front = as_lines(out).startswith(came) and (status or came == as_lines(out))
                self.equals(said_of(command), "whether a front of the lines, or all of them, stand in the output", True, bool(is_front))
            self.brings(lines, out, *command[3:-1])
        self.equals("drawn stops", f"stops and ends: {stops}, {ends}", True, stops > 30)
