"""The word `attend`: scripts of several clients over one disk, with runners beside them."""

import os
import resource
import shlex
import signal
import subprocess
import time

from attending import TOLD, Attending
from checked import MOST_BYTES, of_line
from known import LOOP
from program import PATIENCE, PROGRAM, Ran, Server, heeds_signals, run, said_of
from test_progress import Terminal


class Attend(Attending):
    seconds = 10

    def test_two_clients_are_answered_and_their_jobs_run(self):
        for _ in range(20):
            ran = self.attended(self.attends(*self.paths))
            self.ended(ran, TOLD)
            found = self.rounds()
            is_run = found.get("two") == 2 and found.get("loop", 0) > 0
            self.equals(ran.command, f"whether `two` is done and `loop` has made rounds: {found}", True, is_run)

    def test_without_scripts_and_runners_nothing_is_told(self):
        self.runs(*self.attends(runners=0))
        self.runs("attend", "--disk", self.jobs)
        ran = self.runs(*self.attends(*self.paths, runners=0), out=TOLD)
        self.leaves(ran.command, two=0, loop=0)

    def test_runners_make_as_many_rounds_as_they_have_turns_and_no_more(self):
        """Without a script each round is a turn. Of two rounds of one job that are made at once only one is landed."""
        for runners, turns in ((1, 0), (1, 1), (1, 7), (3, 5), (5, 1)):
            self.runs("create", "--disk", self.jobs, "--overwrite")
            self.serves(self.jobs, f"submit loop {LOOP.text}", ["accepted"])
            words = self.attends(runners=runners, turns=turns)
            self.runs(*words)
            rounds = self.rounds()["loop"]
            is_within = turns <= rounds <= runners * turns
            self.equals(words, f"whether {rounds} rounds are {turns} to {runners * turns}", True, is_within)

    def test_a_full_history_ends_each_client_that_has_not_ended(self):
        paths = [self.script(f"long {i}", ["list"] * 40_000) for i in range(2)]
        ran = run(*self.attends(*paths, runners=0))
        self.equals(ran.command, "status and standard error", (4, b"icserve: log full\n"), (ran.status, ran.err))
        first, second = ran.out.decode()[len("client 0\n") :].split("client 1\n")
        self.equals(ran.command, "answers in all", 65_536, first.count("jobs\n") + second.count("jobs\n"))
        for told in (first, second):
            answers = told.count("jobs\n")
            end = "" if answers == 40_000 else "stopped log full\n"
            self.agrees(ran.command, "what a client is told", "jobs\n" * answers + end, told)
        self.serves(self.jobs, "list", ["jobs"])

    def test_runners_end_with_log_full_where_their_turns_pass_what_the_history_holds(self):
        """65,536 entries: 65,521 commands and 15 rounds, which are kept."""
        path = self.script("loop", [*["list"] * 65_520, f"submit loop {LOOP.text}"])
        words = self.attends(path, runners=1, turns=1_000_000)
        ran = self.refuses(*words, out=["client 0", *["jobs"] * 65_520, "accepted"], line="log full", status=4)
        told = "the history holds 65536 commands and rounds; all that was answered is kept, and a further call goes on from there\n"
        self.equals(ran.command, "the second line", told, ran.after.decode())
        self.leaves(words, loop=15)

    def test_64_scripts_and_scripts_of_no_command_and_of_the_most_are_answered(self):
        paths = [self.script(f"list {i}", ["list"]) for i in range(64)]
        told = [it for i in range(64) for it in (f"client {i}", "jobs")]
        self.runs(*self.attends(*paths, runners=0), out=told)
        self.runs(*self.attends(self.script("empty", []), self.script("blank", ["", " "])), out=["client 0", "client 1"])
        longest = self.script("longest", ["list"] * 65_536)
        self.runs(*self.attends(longest, runners=0), out=["client 0", *["jobs"] * 65_536])

    def test_clients_are_answered_while_others_ask(self):
        """Each client begins to ask before the other one's job is there. On a machine that is busy it may want some luck."""
        names = ["ann", "bob"]
        asking = [[*["list"] * 30_000, f"submit {it} {LOOP.text}", "list"] for it in names]
        paths = [self.script(name, lines) for name, lines in zip(names, asking)]
        for _ in range(10):
            ran = self.attended(self.attends(*paths, runners=0))
            lists = [it.splitlines() for it in ran.out.decode().split("client ")[1:]]
            self.equals(ran.command, "answers and status", ([30_003] * 2, 0), ([len(it) for it in lists], ran.status))
            begun = [it[1] for it in lists]
            if begun == ["jobs", "jobs"]:
                break
        self.equals(ran.command, "the first answers of both", ["jobs", "jobs"], begun)

    def test_rounds_are_made_while_a_client_asks(self):
        path = self.script("asking", [f"submit loop {LOOP.text}", *["fetch loop"] * 20_000])
        for _ in range(10):
            ran = self.attended(self.attends(path, runners=1, turns=0))
            self.equals(ran.command, "status", 0, ran.status)
            rounds = [int(it.split(" ")[2]) for it in ran.out.decode().splitlines()[2:]]
            self.equals(ran.command, "answers, in the order of their rounds", (20_000, sorted(rounds)), (len(rounds), rounds))
            if rounds[0] < rounds[-1]:
                break
        self.equals(ran.command, f"rounds between fetches, from {rounds[0]} on", True, rounds[0] < rounds[-1])

    def test_a_signal_to_end_leaves_the_disk_as_some_moment_did(self):
        lines = [f"submit loop {LOOP.text}", *["pause loop", "resume loop"] * 20_000]
        words = self.attends(self.script("long", lines), turns=60_000)
        for sign in (signal.SIGTERM, signal.SIGINT, signal.SIGHUP):
            # On a machine that is busy all may be done before the signal comes, or nothing begun.
            for seconds in (0.1, 0.05, 0.02, 0.3, 1, 5, 20):
                self.runs("create", "--disk", self.jobs, "--overwrite")
                ran = self.signalled(words, sign, seconds)
                is_begun = "loop" in self.rounds()
                if is_begun and ran.status == -sign:
                    break
            came = is_begun, ran.status, ran.out[:99], ran.err
            self.equals(ran.command, f"whether it had begun, and its end by {sign!r}", (True, -sign, b"", b""), came)

    def signalled(self, words, sign, seconds):
        """A run that gets a signal after so many seconds."""
        command, pipes = [PROGRAM, *map(str, words)], {"stdout": subprocess.PIPE, "stderr": subprocess.PIPE}
        with subprocess.Popen(command, preexec_fn=heeds_signals, stdin=subprocess.DEVNULL, **pipes) as started:
            time.sleep(seconds)
            started.send_signal(sign)
            out, err = started.communicate(timeout=PATIENCE)
        return Ran(said_of(command), started.returncode, out, err)

    def test_kills_at_drawn_moments_leave_jobs_at_some_round(self):
        draw = self.draws()
        for _ in range(60):
            self.runs("create", "--disk", self.jobs, "--overwrite")
            words = self.attends(*self.paths, turns=draw.choice((0, 10, 100_000)))
            self.holds_what_was_answered(self.signalled(words, signal.SIGKILL, draw.random() * 0.02))

    def test_the_disk_is_never_opened_in_the_place_of_a_closed_stream(self):
        for closed in ("<&-", ">&-", "2>&-"):
            with self.subTest(closed=closed):
                words = " ".join(shlex.quote(str(it)) for it in [PROGRAM, *self.attends(*self.paths)])
                ran = self.attended(["-c", f"exec {words} {closed}"], program="/bin/sh")
                self.equals(ran.command, "status", 4 if closed == ">&-" else 0, ran.status)
                self.two_is_done(ran.command)

    def test_a_script_with_a_fault_is_told_with_its_number_and_line_before_the_disk_is_opened(self):
        bad = [(["list", "", "lists"], 3, "bad syntax"), (["run 1"], 1, "bad syntax")]
        bad += [([f"submit {'a' * 17} {{}} <|>"], 1, "bad limit"), (["submit n {} <x|x=A(x)>"], 1, "bad name x")]
        bad += [(["list"] * 65_537, 65_537, "bad limit")]
        for lines, number, fault in bad:
            path = self.script("bad", lines)
            for disk in (self.jobs, self.room / "missing"):
                line = f"script 1 line {number}: {fault}"
                ran = self.refuses(*self.attends(self.paths[0], path, disk=disk), line=line, status=1)
                told, _ = of_line(path, number, lines[number - 1].encode(), in_script=True)
                told = told or [f"{path}:{number}: bad limit: a script has at most 65536 commands"]
                self.equals(ran.command, "the second line", "\n".join(told) + "\n", ran.after.decode())
        self.leaves(ran.command)

    def test_a_terminal_is_told_where_turns_may_pass_what_the_history_holds(self):
        for turns, told in ((32_766, b""), (32_767, b"65538"), (1_000_000, b"2000004")):
            with Terminal() as shown:
                ran = run(*self.attends(*self.paths, runners=2, turns=turns), stderr=shown.theirs)
            words = b"icserve: %s commands and turns; the history holds 65536, so it may end with log full\n" % told
            begins = bytes(shown.came).startswith(words) if told else b"may end" not in shown.came
            self.equals(ran.command, f"whether it is told, in {bytes(shown.came[:200])}", True, begins)

    def test_of_the_first_script_that_cant_be_read_the_path_and_the_cause_are_told(self):
        missing = (self.room / "missing", "open: no such file or folder")
        folder = (self.room, "read: is a folder")
        within = (self.paths[0] / "more", "open: a name on the way to it is no folder's")
        for bad in ([missing], [folder], [within], [folder, missing]):
            err = ["icserve: read", f"{bad[0][0]}: {bad[0][1]}"]
            ran = self.runs(*self.attends(self.paths[0], *(path for path, _ in bad)), err=err, status=4)
        self.leaves(ran.command)

    def test_a_script_of_more_than_16777216_bytes_is_not_read_and_one_of_so_many_is(self):
        """With 1 GB of memory, a file without an end among them, and a pipe without one, which has blank lines alone."""
        how = {"preexec_fn": lambda: resource.setrlimit(resource.RLIMIT_AS, (2**30, 2**30))}
        pipe, path = self.room / "pipe", self.room / "long"
        os.mkfifo(pipe)
        path.write_bytes(b"\n" * MOST_BYTES + b"list")
        with subprocess.Popen(["sh", "-c", 'exec yes "" 2>&- > "$0"', pipe]) as blanks:
            for bad in (path, "/dev/zero", pipe):
                err = ["icserve: read", f"{bad}: it has more than {MOST_BYTES} bytes"]
                ran = self.runs(*self.attends(self.paths[0], bad), err=err, status=4, **how)
            blanks.wait(10)
        self.leaves(ran.command)
        path.write_bytes((b" " * 262_143 + b"\n") * 63 + b"list".ljust(262_143) + b"\n")
        self.equals(path, "how long the script is", MOST_BYTES, path.stat().st_size)
        self.runs(*self.attends(path), out=["client 0", "jobs"], **how)

    def test_a_script_that_may_not_be_read_is_told(self):
        how = self.without_rights()
        os.chmod(self.jobs, 0o666)
        os.chmod(self.paths[1], 0)
        err = ["icserve: read", f"{self.paths[1]}: open: no rights"]
        ran = self.runs(*self.attends(*self.paths), err=err, status=4, **how)
        self.leaves(ran.command)

    def test_a_disk_that_cant_be_opened_ends_with_status_3(self):
        self.refuses(*self.attends(*self.paths, disk=self.room / "missing"), line="device", status=3)
        (self.room / "zeros").write_bytes(bytes(100))
        self.refuses(*self.attends(*self.paths, disk=self.room / "zeros"), line="no slot", status=3)
        with Server(self.jobs) as server:
            self.answers(server, "list", "jobs")
            self.refuses(*self.attends(*self.paths), line="locked", status=6)
