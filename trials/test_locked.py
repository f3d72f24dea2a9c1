"""A disk that another process has: each word that opens a disk tries it again for as long as `--wait` says."""

import subprocess
import threading
import time

from known import LOOP, STILL
from program import IN_MEMORY, PROGRAM, Server, Trial, as_lines, run

# What each word is given beside the disk.
WORDS = {"create": [], "serve": ["--workers", 1], "attend": ["script"], "batch": ["lines"], "dump": []}


class Locked(Trial):
    seconds = 4
    rooms = IN_MEMORY

    def setUp(self):
        super().setUp()
        self.jobs = self.disk()
        (self.room / "script").write_bytes(as_lines(["list"]))
        (self.room / "lines").write_bytes(as_lines([f"submit still {STILL.text}"]))

    def words(self, word, *more):
        return [word, "--disk", self.jobs, *WORDS[word], *more]

    def test_each_word_waits_for_a_disk_until_the_other_process_has_ended(self):
        for word in WORDS:
            with Server(self.jobs, "--workers", 1) as first:
                self.answers(first, "list", "jobs")
                ends = threading.Timer(0.6, first.process.kill)
                ends.start()
                begun = time.monotonic()
                ran = run(*self.words(word, "--wait", 60), given=["list"] if word == "serve" else b"", cwd=self.room)
                took = time.monotonic() - begun
                ends.join()
            self.equals(ran.command, "status and standard error", (0, b""), (ran.status, ran.err))
            self.equals(ran.command, f"whether it waited, and no longer than it had to: {took:.1f} s", True, 0.5 < took < 30)
            run("create", "--disk", self.jobs, "--overwrite")

    def test_a_disk_is_refused_as_locked_once_the_time_is_over(self):
        with Server(self.jobs, "--workers", 1) as first:
            self.answers(first, "list", "jobs")
            for word in WORDS:
                for seconds, least, most in ((0, 0, 1), (1, 1, 4)):
                    begun = time.monotonic()
                    ran = self.refuses(*self.words(word, "--wait", seconds), line="locked", status=6, cwd=self.room)
                    took = time.monotonic() - begun
                    self.equals(ran.command, "what is told", f"{self.jobs}: lock: another process has it open\n".encode(), ran.after)
                    self.equals(ran.command, f"whether it took {least} to {most} s: {took:.1f} s", True, least <= took < most)
            self.ends(first)

    def test_of_two_that_wait_each_has_the_disk_in_turn(self):
        with Server(self.jobs, "--workers", 1) as first:
            self.answers(first, f"submit loop {LOOP.text}", "accepted")
            words = [PROGRAM, "serve", "--disk", self.jobs, "--workers", "1", "--wait", "60"]
            pipes = {"stdout": subprocess.PIPE, "stderr": subprocess.PIPE}
            lines = self.room / "one round"
            lines.write_text("run 1\n")
            # Either may have the disk first, so each has its line from the beginning.
            others = []
            for _ in range(2):
                with open(lines, "rb") as given:
                    others.append(subprocess.Popen(words, stdin=given, **pipes))
            self.ends(first)
        told = [it.communicate(timeout=60) for it in others]
        self.equals(words, "what both were told", [(b"ran 1\n", b"")] * 2, told)
        self.serves(self.jobs, ["list"], ["jobs loop:running:2"])

    def test_another_fault_than_a_lock_is_told_at_once(self):
        begun = time.monotonic()
        self.refuses("serve", "--disk", self.room / "none", "--wait", 60, line="device", status=3)
        self.refuses("serve", "--disk", self.room / "lines", "--wait", 60, line="no slot", status=3)
        self.equals("serve --wait 60", "whether it took less than 30 s", True, time.monotonic() - begun < 30)
