"""A server that is killed or told to end at any moment has lost nothing that it answered."""

import signal
import time

from known import LOOP, drawn_line, name_text
from program import PATIENCE, Server, heeds_signals, run
from stops import Stops


# Within how many seconds a server that is told to end has ended: at once, but on a machine that may be busy.
PROMPT = PATIENCE / 6


class Kills(Stops):
    seconds = 30

    def lives(self, kills, stop):
        """Serves drawn lines over one disk in many lives, each of which is ended by `stop` at a drawn moment: while a text of
        lines is served, or a moment after one line more was sent than was answered."""
        draw, disk, table = self.draws(), self.disk(), ()
        counts = {"answers": 0, "unanswered, but kept": 0}
        for _ in range(kills):
            every, workers = draw.choice((1, 3, 100)), draw.choice((1, 2, 7))
            lines = [drawn_line(draw) for _ in range(draw.choice((15, 30, 300)))]
            with Server(disk, "--every", every, "--workers", workers, preexec_fn=heeds_signals) as server:
                if len(lines) == 300:
                    server.send(lines)
                    time.sleep(draw.random() * 0.012)
                else:
                    for line in lines[:-1]:
                        server.send(line)
                        if line and server.answer() is None:
                            self.told(server.command, f"the answer to {line}", "a line", "nothing")
                    server.send(lines[-1])
                    time.sleep(draw.random() * 0.0006)
                ran = stop(server, draw)
            tables = self.may_be_left(ran, lines, table, every)
            counts["answers"] += ran.out.count(b"\n")
            table = self.found(ran, disk, tables)
            counts["unanswered, but kept"] += table != tables[0]
        return counts

    def test_200_kills_at_drawn_moments_lose_nothing_that_was_answered(self):
        def kill(server, _):
            ran = server.stop(signal.SIGKILL)
            self.equals(ran.command, "status", -signal.SIGKILL, ran.status)
            return ran

        counts = self.lives(200, kill)
        is_enough = counts["answers"] > 1000 and counts["unanswered, but kept"] > 0
        self.equals("200 kills", f"more than 1,000 answers, and lines that were kept unanswered: {counts}", True, is_enough)

    def test_a_signal_to_end_is_obeyed_at_once_and_loses_nothing_that_was_answered(self):
        def end(server, draw):
            sign = draw.choice((signal.SIGTERM, signal.SIGINT, signal.SIGHUP))
            began = time.monotonic()
            ran = server.stop(sign)
            took = time.monotonic() - began
            if ran.status != -sign or ran.err or took > PROMPT:
                came = f"status {ran.status}, {ran.err}, after {took:.1f} s"
                self.told(ran.command, f"the end by {sign!r}", "by the signal, at once and silent", came)
            return ran

        self.lives(60, end)

    def test_a_signal_to_end_in_the_midst_of_a_long_run_is_obeyed_at_once(self):
        for sign in (signal.SIGTERM, signal.SIGINT, signal.SIGHUP, signal.SIGKILL):
            # How long the server is let alone is halved and doubled until the signal comes in the midst.
            early, late, wait = 0, None, 0.05
            for number in range(16):
                disk = self.disk(f"{sign}.{number}.disk")
                lines = [f"submit loop {LOOP.text}", "run 10", "list"] + ["run 1000"] * 6
                with Server(disk, "--every", "1", preexec_fn=heeds_signals) as server:
                    self.answers(server, lines[0], "accepted")
                    self.answers(server, lines[1], "ran 10")
                    server.send(lines[2:])
                    time.sleep(wait)
                    began = time.monotonic()
                    ran = server.stop(sign)
                self.equals(ran.command, f"within {PROMPT} seconds", True, time.monotonic() - began < PROMPT)
                self.equals(ran.command, "status and standard error", (-sign, b""), (ran.status, ran.err))
                table = self.found(ran, disk, self.may_be_left(ran, lines, (), 1))
                if 1010 < table[0].rounds < 6010:
                    break
                early, late = (wait, late) if table[0].rounds <= 1010 else (early, wait)
                wait = (early + late) / 2 if late else 2 * wait
            rounds = table[0].rounds
            self.equals(ran.command, f"whether the signal came in the midst, at {rounds} rounds", True, 1010 < rounds < 6010)
            # Of the last run that is whole the answer may not have been written yet.
            least = (rounds - 11) // 1000
            came = ran.out.count(b"ran 1000\n")
            self.equals(ran.command, f"answers to runs, {came}, at {rounds} rounds", True, came >= least)

    def test_rounds_are_kept_in_the_midst_of_one_run(self):
        """Not at its end alone: a look at the disk meanwhile finds some of them, and no others than each so many. Of many pairs, so that
        the run lasts."""
        pairs = ",".join(f"A({it})=B({it})" for it in map(name_text, range(300)))
        for every in (1, 7):
            for number in range(30):
                disk = self.disk(f"{every}.{number}.disk")
                with Server(disk, "--every", every) as server:
                    self.answers(server, f"submit loop {{A(B(x))><B(A(x))}} <|{pairs}>", "accepted")
                    server.send(["run 1000"])
                    rounds, end = 0, time.monotonic() + PATIENCE
                    while rounds == 0 and time.monotonic() < end:
                        rounds = int(run("inspect", "--disk", disk).out.partition(b"loop: running, rounds ")[2].partition(b",")[0] or 0)
                    self.equals(server.said(), "the answer to the run", "ran 1000", server.answer(PATIENCE))
                    self.ended(server.end(), out=["accepted", "ran 1000"])
                if 0 < rounds < 1000:
                    break
            self.equals(server.said(), f"whether some rounds were kept in its midst, as {rounds} of each {every}", True, 0 < rounds < 1000)
            self.equals(server.said(), f"rounds after the last {every}", 0, rounds % every)

    def test_sigpipe_is_no_reason_to_end(self):
        with Server(self.disk()) as server:
            self.answers(server, f"submit loop {LOOP.text}", "accepted")
            server.process.send_signal(signal.SIGPIPE)
            self.answers(server, "run 3", "ran 3")
            self.ended(server.end(), out=["accepted", "ran 3"])

    def test_sigpipe_in_the_midst_of_a_long_run_is_no_reason_to_end(self):
        """Each round is kept, so that the file changes while the runs are made."""
        disk = self.disk()
        with Server(disk, "--every", "1") as server:
            self.answers(server, f"submit loop {LOOP.text}", "accepted")
            begun = disk.read_bytes()
            server.send(["run 1000"] * 20)
            end = time.monotonic() + PATIENCE
            while disk.read_bytes() == begun and time.monotonic() < end:
                time.sleep(0.001)
            server.process.send_signal(signal.SIGPIPE)
            came = [server.answer(PATIENCE) for _ in range(20)]
            self.equals(server.said(), "the answers to the runs", ["ran 1000"] * 20, came)
            self.ended(server.end(), out=["accepted", *["ran 1000"] * 20])
