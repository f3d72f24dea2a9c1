"""A shard's whole life by cluster/shard: however it is stopped and started again, its answers are those of one server. By
itself, and many of them under GNU parallel."""

import fcntl
import os
import signal
import time

from known import LOOP, TWO
from program import Server, grows_to, run
from shards import SCRIPTS, Shards, drawn_jobs

TWICE = f"submit two {TWO.text}"
SHARD = "jobs/00001"


class Lives(Shards):
    """One shard."""

    seconds = 20

    def shard(self, *words, of=SHARD, **how):
        return self.script("shard", of, *words, **how)

    def has(self, folder, *names):
        """Fails unless the folder's first shard has just these files."""
        self.equals(folder, "the files of its first shard", sorted(names), sorted(it.name for it in (folder / "00001").iterdir()))

    def fails(self, ran, status, line):
        """Fails unless a shard ended so, and left no answers, not even in part."""
        self.equals(ran.command, f"status; it said {ran.err}", status, ran.status)
        self.equals(ran.command, f"the line {line} in {ran.err}", True, line.encode() + b"\n" in ran.err)
        answers = [it.name for it in (self.room / SHARD).iterdir() if it.name.startswith("answers")]
        self.equals(ran.command, "answers", [], answers)

    def test_a_shard_runs_its_jobs_and_then_is_left_as_it_is(self):
        lines = drawn_jobs(self.draws(), 32, 300)
        # Lines of another system end with CR LF.
        lines[::2] = [f"{it}\r" for it in lines[::2]]
        folder = self.cut(lines)
        self.ended(self.shard())
        self.gathers(lines, 300)
        before = {it: (it.read_bytes(), it.stat().st_mtime_ns) for it in (folder / "00001").iterdir()}
        self.has(folder, "answers", "disk", "lines", "lock")
        self.ended(self.shard())
        self.ended(self.shard("--every", 1))
        after = {it: (it.read_bytes(), it.stat().st_mtime_ns) for it in (folder / "00001").iterdir()}
        self.equals(folder, "whether all is as it was", True, before == after)

    def test_a_shard_that_is_killed_at_30_drawn_moments_goes_on(self):
        """Each is killed whole, and each third the shell alone, whose program then runs on."""
        draw = self.draws()
        kills = number = 0
        while kills < 30:
            number += 1
            lines = drawn_jobs(draw, 20, 400)
            folder = self.cut(lines, folder=f"jobs-{number}")
            status, longest = None, 0.1
            while status != 0:
                with self.engine(SCRIPTS / "shard", folder / "00001", "--every", draw.choice([1, 10])) as shard:
                    time.sleep(draw.random() * longest)
                    if shard.ended() is None:
                        kills += 1
                        longest *= 1.3
                        shard.kill_shells() if draw.random() < 0.3 else shard.kill_all()
                        continue
                    status, said = shard.end()
                    if status not in (0, 6):
                        self.told(shard.command, f"status; it said {said}", "0 or 6", status)
            self.gathers(lines, 400, folder.name)

    def test_a_shard_that_is_killed_before_or_after_each_program_that_it_calls_goes_on(self):
        """It calls five: flock, icserve, sync, mv and sync."""
        self.counts_calls("flock", "sync", "mv")
        for moment in ("BEFORE", "AFTER"):
            for call in range(1, 7):
                folder = self.cut([TWICE, f"submit loop 300 {LOOP.text}"], folder=f"jobs-{moment}-{call}")
                with self.killed_at(moment, call, SCRIPTS / "shard", folder / "00001") as shard:
                    status, said = shard.end()
                    self.equals(shard.command, f"status; it said {said}", -signal.SIGKILL if call < 6 else 0, status)
                    self.waits_for(lambda: not shard.left(), told=shard.left)
                is_there = call > 4 or call == 4 and moment == "AFTER"
                self.equals(folder, f"whether answers are there, {moment} {call}", is_there, (folder / "00001/answers").exists())
                self.ended(self.shard(of=folder / "00001"))
                self.has(folder, "answers", "disk", "lines", "lock")
                self.ended(self.script("gather", folder), out=["two done 2 <S(S(Z))|>", f"loop spent 300 {LOOP.config(300)}"])

    def test_a_shard_that_is_told_to_end_ends_its_program_and_goes_on(self):
        for sign in (signal.SIGTERM, signal.SIGINT, signal.SIGHUP):
            folder = self.cut([TWICE, f"submit loop {LOOP.text}"], folder=f"jobs-{sign}")
            disk = folder / "00001/disk"
            with self.engine(SCRIPTS / "shard", folder / "00001") as shard:
                self.waits_for(lambda: b"loop: running, rounds" in run("inspect", "--disk", disk).out)
                os.kill(shard.process.pid, sign)
                status, said = shard.end()
                self.equals(shard.command, f"status; it said {said}", 143, status)
                self.equals(shard.command, "what it has left running", [], shard.left())
            self.has(folder, "disk", "lines", "lock")
            rounds = int(run("inspect", "--disk", disk).out.decode().split("loop: running, rounds ")[1].split(",")[0])
            self.ended(self.shard("--rounds", rounds + 10, of=folder / "00001"))
            answer = f"loop running {rounds + 10} {LOOP.config(rounds + 10)}"
            self.ended(self.script("gather", folder), out=["two done 2 <S(S(Z))|>", answer])

    def test_a_job_that_never_ends_is_ended_by_a_budget_or_by_the_rounds_of_its_shard(self):
        self.cut([f"submit spent 7 {LOOP.text}", f"submit loop {LOOP.text}", TWICE])
        self.ended(self.shard("--rounds", 20))
        answers = [f"spent spent 7 {LOOP.config(7)}", f"loop running 20 {LOOP.config(20)}", "two done 2 <S(S(Z))|>"]
        self.ended(self.script("gather", "jobs"), out=answers)

    def test_a_shard_with_a_halted_job_has_its_answers_and_says_so_with_status_7(self):
        over = "submit over {A><B(C(C(D)))} <|A=B(P)," + "C(" * 8187 + "D" + ")" * 8187 + "=Q>"
        folder = self.cut([TWICE, over])
        self.ended(self.shard(), err=["icserve: halted over: next round overgrown"], status=7)
        self.has(folder, "answers", "disk", "lines", "lock")
        before = (folder / "00001/answers").read_bytes()
        self.ended(self.shard(), err=["shard: halted over"], status=7)
        self.holds(folder / "00001/answers", before)
        answers = [it.rpartition(" ")[0] for it in self.script("gather", "jobs").out.decode().splitlines()]
        self.equals(folder, "what is gathered", ["two done 2", "over halted 0"], answers)

    def test_a_shard_that_another_one_runs_is_refused_with_status_6(self):
        folder = self.cut([TWICE])
        with open(folder / "00001/lock", "w") as lock:
            fcntl.flock(lock, fcntl.LOCK_EX)
            self.fails(self.shard(), 6, "shard: locked: another one runs jobs/00001")
        self.has(folder, "lines", "lock")
        with Server(self.disk("jobs/00001/disk")) as server:
            server.ask("list")
            self.fails(self.shard(), 6, "icserve: locked")
        self.ended(self.shard())

    def test_a_program_whose_shell_was_killed_keeps_the_lock_until_it_ends(self):
        folder = self.cut([f"submit loop {LOOP.text}"])
        disk = folder / "00001/disk"
        with self.engine(SCRIPTS / "shard", SHARD) as shard:
            self.waits_for(lambda: b"loop: running, rounds" in run("inspect", "--disk", disk).out)
            shard.kill_shells()
            self.equals(shard.command, f"a program that runs on: {shard.left()}", True, bool(shard.left()))
            ran = self.shard("--rounds", 10_000_000)
            self.equals(ran.command, "how it ended", (6, b"shard: locked: another one runs jobs/00001\n"), (ran.status, ran.err))
        held = run("inspect", "--disk", disk).out.decode()
        rounds = int(held.split("loop: running, rounds ")[1].split(",")[0])
        self.ended(self.shard("--rounds", rounds + 1))
        self.ended(self.script("gather", "jobs"), out=[f"loop running {rounds + 1} {LOOP.config(rounds + 1)}"])

    def test_a_disk_of_other_jobs_is_refused_and_stays(self):
        folder = self.cut([TWICE])
        disk = self.disk("jobs/00001/disk")
        self.serves(disk, ["submit two {} <|>"], ["accepted"])
        before = disk.read_bytes()
        ran = self.shard()
        self.equals(ran.command, f"status; it said {ran.err}", 1, ran.status)
        self.equals(ran.command, f"the name in {ran.err}", True, b"two" in ran.err)
        self.holds(disk, before)
        disk.write_bytes(b"no disk at all")
        self.fails(self.shard(), 3, "icserve: no slot")
        self.holds(disk, b"no disk at all")
        self.has(folder, "disk", "lines", "lock")

    def test_a_shard_whose_device_is_full_fails_and_goes_on_once_there_is_room(self):
        lines = drawn_jobs(self.draws(), 20, 200)
        folder = self.cut(lines)
        for most in (100, 4_000_000, 4_194_310, 4_195_000):
            ran = self.shard(**grows_to(most))
            if ran.status not in (3, 4):
                self.told(ran.command, f"status with {most} bytes a file; it said {ran.err}", "3 or 4", ran.status)
        self.has(folder, "disk", "lines", "lock")
        self.ended(self.shard())
        self.gathers(lines, 200)

    def test_a_disk_elsewhere_is_named_by_a_word(self):
        folder = self.cut([TWICE])
        self.ended(self.shard("--disk", self.room / "else.disk", "--workers", 1))
        self.has(folder, "answers", "lines", "lock")
        self.ended(self.script("gather", "jobs"), out=["two done 2 <S(S(Z))|>"])
        # A disk that was lost costs time, and no answer.
        (folder / "00001/answers").unlink()
        self.ended(self.shard())
        self.ended(self.script("gather", "jobs"), out=["two done 2 <S(S(Z))|>"])


class Parallel(Shards):
    """A hundred jobs under GNU parallel."""

    seconds = 30

    def test_100_jobs_killed_at_drawn_moments_have_the_answers_of_one_server(self):
        lines = drawn_jobs(self.draws(), 100, 400)
        self.cut(lines, 13)
        kills = self.killed_often(lambda: self.parallel(of_shards=["--every", 1]), 6, self.draws("kills"))
        self.equals("8 shards", f"at least two kills in their midst: {kills}", True, kills >= 2)
        self.gathers(lines, 400)

    def test_two_engines_over_one_folder_answer_it_once(self):
        lines = drawn_jobs(self.draws(), 100, 300)
        folder = self.cut(lines, 9)
        # Whether they meet at a shard goes by the machine. That one is then refused, another trial shows.
        with self.parallel(log="one.log") as one, self.parallel(log="two.log") as two:
            for it in (one, two):
                it.end()
        for log in ("one.log", "two.log"):
            self.ends_well(lambda log=log: self.parallel(log=log))
        self.gathers(lines, 300)
        parts = sorted(it.name for it in folder.glob("*/*") if it.name not in ("answers", "disk", "lines", "lock"))
        self.equals(folder, "what else is in its shards", [], parts)
