"""Commands that have come are done as a group, kept by one keep, and answered after it."""

import signal
import threading
import time

from known import TWO, drawn_line, listed
from program import PROGRAM, PATIENCE, Server, run
from shim import noted, shimmed, was_refused
from stops import Stops
from test_listen import Listens

# A keep of a job table makes so many syncs.
SYNCS = 3


def submits(count, name="j"):
    return [f"submit {name}{number} {TWO.text}" for number in range(count)]


class Groups(Stops):
    seconds = 20

    def setUp(self):
        super().setUp()
        self.log = self.room / "log"

    def served(self, disk, lines, group, refused="", **how):
        """A serving of lines that come at once, and what it did with files."""
        ran = run("serve", "--disk", disk, "--group", group, given=lines, env=shimmed(refused, self.log), **how)
        return ran, noted(self.log)

    def keeps_of(self, calls):
        """How many keeps were made: their syncs, without those of an opening, which makes none."""
        return sum(it.kind == "S" for it in calls) // SYNCS

    def test_a_group_is_kept_once_and_answered_after_its_keep(self):
        lines = submits(30) + [f"cancel j{number}" for number in range(30)] + ["list", "fetch j1", "", "nonsense", "list"]
        answers = ["accepted"] * 30 + ["ok"] * 30 + ["jobs", "refused nojob", "bad syntax", "jobs"]
        # The first line after a group is the first of the next.
        for group, keeps in ((1, 60), (2, 30), (7, 9), (60, 1), (64, 1)):
            ran, calls = self.served(self.disk(f"{group}.disk"), lines, group)
            self.ended(ran, out=answers)
            self.equals(ran.command, "keeps", keeps, self.keeps_of(calls))
            # Before each answer there are as many keeps as its group needs.
            written, synced = 0, 0
            for call in calls:
                synced += call.kind == "S"
                written += call.data.count(b"\n") if call.kind == "O" else 0
                changes = min(written, 60)
                least = -(-changes // group)
                self.equals(ran.command, f"whether {written} answers are kept by {synced} syncs", True, synced >= SYNCS * least)

    def test_a_run_a_blank_and_a_refused_line_end_a_group(self):
        for other in ("run 1", "", "nonsense"):
            lines = [*submits(2), other, *submits(2, "k")]
            _, calls = self.served(self.disk(f"{other}.disk"), lines, 64)
            self.equals(lines, "keeps", 3 if other == "run 1" else 2, self.keeps_of(calls))

    def test_kills_at_each_call_to_the_disk_in_groups_lose_nothing_that_was_answered(self):
        """The program is killed at the first call, at the second, and so on. What is found is the table after a front of the lines
        that has all that were answered, and at most a group more."""
        draw = self.draws()
        for group in (1, 3, 64):
            number, lines = 0, [drawn_line(draw, 6, (0, 1, 2, 7)) for _ in range(60)]
            while True:
                number += 1
                disk = self.disk(f"{group}.{number}.disk")
                ran, _ = self.served(disk, lines, group, f"disk {number} kill")
                tables = self.may_be_left(ran, lines, (), 100, ahead=group)
                self.found(ran, disk, tables)
                if ran.status == 0:
                    break
                self.equals(ran.command, "status", -signal.SIGKILL, ran.status)
            self.equals(f"groups of {group}", "whether there were many calls", True, number > 20)

    def test_a_device_that_fails_in_a_group_answers_none_of_it(self):
        """All answers that were written are those of lines before the group whose keep failed."""
        lines, number = submits(20), 0
        while True:
            number += 1
            disk = self.disk(f"{number}.disk")
            ran, calls = self.served(disk, lines, 5, f"disk {number} on")
            if not was_refused(self.log):
                self.ended(ran, out=["accepted"] * 20)
                break
            if not ran.out and ran.status == 5:
                continue
            count = ran.out.count(b"\n")
            self.equals(ran.command, f"whether {count} answers are whole groups", 0, count % 5)
            tables = self.may_be_left(ran, lines, (), 100, ahead=5)
            self.found(ran, disk, tables)

    def test_kills_at_drawn_moments_lose_nothing_that_was_answered(self):
        draw, disk, table, unanswered = self.draws(), self.disk(), (), 0
        for _ in range(60):
            lines = [drawn_line(draw) for _ in range(400)]
            group = draw.choice((1, 2, 16, 64))
            with Server(disk, "--group", group, env={**shimmed(), "SHIM_SYNC": "300"}) as server:
                server.send(lines)
                time.sleep(draw.random() * 0.03)
                ran = server.stop(signal.SIGKILL)
            tables = self.may_be_left(ran, lines, table, 100, ahead=group)
            table = self.found(ran, disk, tables)
            unanswered += table != tables[0]
        self.equals("60 kills", "whether lines were kept unanswered", True, unanswered > 0)

    def test_answers_are_the_same_for_groups_of_any_size(self):
        draw = self.draws()
        for number in range(20):
            lines = [drawn_line(draw) for _ in range(200)]
            came = [self.served(self.disk(f"{number}.{group}.disk"), lines, group)[0].out for group in (1, 2, 5, 64)]
            self.equals(lines, "whether all sizes answer the same", 1, len(set(came)))


class ManyClients(Listens):
    seconds = 40

    def commands_a_second(self, group, clients, seconds):
        """How many commands 64 clients are answered in a second, each of which sends one after the other, over a disk whose syncs
        take 5 ms more."""
        env = {**shimmed(), "SHIM_SYNC": "5000", "ICSERVE": str(PROGRAM)}
        counts, end = [0] * clients, threading.Event()
        with self.listening("--group", str(group), disk=self.disk(f"{group}.disk"), env=env) as listening:
            def works(number):
                with listening.client() as client:
                    name = f"j{number % 32}"
                    while not end.is_set():
                        if client.ask(f"submit {name} {TWO.text}") is None or client.ask(f"cancel {name}") is None:
                            return
                        counts[number] += 2

            threads = [threading.Thread(target=works, args=(number,)) for number in range(clients)]
            began = time.monotonic()
            for thread in threads:
                thread.start()
            time.sleep(seconds)
            end.set()
            for thread in threads:
                thread.join(PATIENCE)
            took = time.monotonic() - began
        return sum(counts) / took

    def test_64_clients_have_many_more_commands_a_second_in_groups(self):
        one = self.commands_a_second(1, 64, 3)
        many = self.commands_a_second(64, 64, 3)
        self.equals(f"{many:.0f} commands a second in groups, {one:.0f} without", "whether these are 10 times as many", True, many > 10 * one)
