"""Standard streams that are slow, closed, or long without end; and two servers on one disk."""

import os
import threading
import time
import unittest

from known import LOOP, TWO, fetched, submitted
from program import OF_BAD, PATIENCE, Server, Trial, run, shown
from shim import noted, shimmed

# The ways of the shell to close a standard stream, by its number.
CLOSED = {0: "<&-", 1: ">&-", 2: "2>&-"}


def memory_of(process, field):
    """A figure of a process in kilobytes: VmRSS, what it has in memory, or VmHWM, the most that it had."""
    with open(f"/proc/{process.pid}/status") as status:
        figures = [int(line.split()[1]) for line in status if line.startswith(field)]
    if not figures:
        raise unittest.SkipTest(f"/proc tells no {field} here")
    return figures[0]


class Slow(Trial):
    seconds = 8

    def test_each_answer_comes_before_the_next_line_is_waited_for(self):
        with Server(self.disk()) as server:
            self.answers(server, f"submit two {TWO.text}", "accepted")
            for line, answer in (("run 1", "ran 1"), ("list", "jobs two:running:1"), ("no", "bad syntax")):
                self.answers(server, line, answer)
            server.send("\n \n")
            self.equals(server.said(), "the answer to blank lines", None, server.answer(0.2))
            self.answers(server, "fetch two", "two running 1 <S(s)|Z=Add(s,S(Z))>")
            self.ends(server)

    def test_a_line_that_comes_byte_by_byte_is_answered_once_it_is_whole(self):
        with Server(self.disk()) as server:
            for byte in f"submit two {TWO.text}\nlist\n".encode():
                server.process.stdin.write(bytes([byte]))
                time.sleep(0.002)
            came = [server.answer(), server.answer()]
            self.equals(server.said(), "the answers", ["accepted", "jobs two:running:0"], came)
            server.process.stdin.write(b"lis")
            self.equals(server.said(), "the answer to a line that isn't whole", None, server.answer(0.2))
            server.process.stdin.write(b"t")
            self.ended(server.end(), out=["accepted", "jobs two:running:0", "jobs two:running:0"])

    def test_a_reader_of_answers_that_is_slow_gets_all_of_them(self):
        """20,000 answers fill the pipe many times; the server waits, and loses none."""
        lines = [f"submit loop {LOOP.text}", *["run 1", *["fetch loop"] * 40] * 500]
        wanted = ["accepted"]
        for rounds in range(1, 501):
            wanted += ["ran 1", *[f"loop running {rounds} {LOOP.config(rounds)}"] * 40]
        with Server(self.disk(), "--every", "1000000") as server:
            feeder = threading.Thread(target=lambda: (server.send(lines), server.process.stdin.close()))
            feeder.start()
            time.sleep(0.5)
            came = bytearray()
            while True:
                more = os.read(server.process.stdout.fileno(), 3000)
                if not more:
                    break
                came += more
                time.sleep(0.001)
            feeder.join()
            self.equals(server.said(), "status", 0, server.process.wait(PATIENCE))
        self.agrees(server.said(), "the answers", "\n".join(wanted) + "\n", came)

    def test_answers_to_lines_that_were_read_together_go_out_together(self):
        """docs/serving.md: these lines make some 100 writes of answers. Some more are allowed here, as by a pipe that is slow."""
        disk, log = self.disk(), self.room / "log"
        lines = [f"submit j{i} {{}} <|x=x>" for i in range(32)] + ["list", "fetch j1"] * 10_000
        ran = run("serve", "--disk", disk, given=lines, env=shimmed(log=log))
        self.equals(ran.command, "status and answers", (0, len(lines)), (ran.status, ran.out.count(b"\n")))
        writes = sum(it.kind == "O" for it in noted(log))
        self.equals(ran.command, f"{writes} writes, at most 200", True, writes <= 200)

    def test_answers_go_out_before_a_run_and_before_a_command_that_is_kept(self):
        """Of lines that were read together. The disk is written and synced after what was answered before."""
        log = self.room / "log"
        lines = [f"submit loop {LOOP.text}", "list", "run 7", "fetch loop", "pause loop", "no", "resume loop", "run 3", "list"]
        ran = run("serve", "--disk", self.disk(), given=lines, env=shimmed(log=log))
        told = []
        for it in noted(log):
            said = it.data.decode().splitlines() if it.kind == "O" else ["kept"]
            told += said if said != told[-1:] else []
        seventh = f"loop running 7 {LOOP.config(7)}"
        wanted = ["kept", "accepted", "jobs loop:running:0", "kept", "ran 7", seventh, "kept", "ok", "bad syntax", "kept", "ok", "kept"]
        self.equals(ran.command, "answers, and keeps between them", [*wanted, "ran 3", "jobs loop:running:10"], told)


class Closed(Trial):
    def closed(self, streams, *words, given=b"", out=b"", line=None, status=0):
        """Runs the program where these standard streams are closed from the beginning, and fails unless it ends so. No line
        is told where standard error is closed."""
        closing = " ".join(CLOSED[it] for it in streams)
        ran = run(*words, given=given, before=["sh", "-c", f'exec "$0" "$@" {closing}'])
        self.ended(ran, out, [f"icserve: {line}"] if line and 2 not in streams else b"", status)

    def test_a_standard_input_that_is_closed_is_read(self):
        disk = self.disk()
        for words in (["settle"], ["once"], ["serve", "--disk", disk]):
            self.closed([0], *words, status=4, line="read")

    def test_a_standard_output_that_is_closed_is_write_at_the_first_answer(self):
        disk = self.disk()
        answered = [(["settle"], b"<|>"), (["once"], b"{} <|>"), (["serve", "--disk", disk], b"list\n"), (["--help"], b"")]
        for words, given in answered:
            self.closed([1], *words, given=given, status=4, line="write")
        self.closed([1], "serve", "--disk", disk, given=b"\n\n")

    def test_the_disk_is_never_opened_in_the_place_of_a_closed_stream(self):
        """Whatever is closed: the disk is a disk after it, and holds what it held and what was asked."""
        for streams in ([0], [1], [2], [0, 1], [0, 2], [1, 2], [0, 1, 2]):
            disk = self.room / "closed.disk"
            self.closed(streams, "create", "--disk", disk, "--overwrite")
            self.serves(disk, [f"submit two {TWO.text}"], ["accepted"])
            before = disk.read_bytes()
            fault = "read" if 0 in streams else "write" if 1 in streams else None
            words, how = ["serve", "--disk", disk], {"line": fault, "status": 4 if fault else 0}
            answers = ["jobs two:running:0", "two running 0 <r|Add(r,S(Z))=S(Z)>", "refused nojob"]
            self.closed(streams, *words, given="list\nfetch two\npause no\n", out=b"" if fault else answers, **how)
            self.holds(disk, before)
            self.closed(streams, "serve", "--disk", self.room / "missing", given="list\n", line="device", status=3)
            self.closed(streams, *words, given="pause two\n", out=b"" if fault else ["ok"], **how)
            self.serves(disk, "list", ["jobs two:running:0" if 0 in streams else "jobs two:paused:0"])

    def test_a_refusal_without_standard_error_has_its_status(self):
        self.closed([2], "settle", given=b"<|", status=1)
        self.closed([2], "settles", status=2)
        self.closed([2], "serve", "--disk", self.room / "missing", status=3)
        self.closed([0, 2], "settle", status=4)


class Long(Trial):
    seconds = 20

    def fed(self, block, times, answer_of_block, disk=None):
        """Feeds a block of lines many times, and looks at the memory of the server on the way: the figures, in kilobytes."""
        figures, wanted = [], len(answer_of_block) * times
        with Server(disk or self.disk()) as server:
            came = [0, True]

            def take():
                rest = b""
                while True:
                    more = os.read(server.process.stdout.fileno(), 1 << 20)
                    if not more:
                        return
                    came[0] += len(more)
                    rest += more
                    whole = len(rest) // len(answer_of_block) * len(answer_of_block)
                    came[1] &= rest[:whole] == answer_of_block * (whole // len(answer_of_block))
                    rest = rest[whole:]

            taker = threading.Thread(target=take)
            taker.start()
            for done in range(times):
                server.process.stdin.write(block)
                if done % (times // 10) == times // 10 - 1:
                    figures.append(memory_of(server.process, "VmHWM"))
            server.process.stdin.close()
            taker.join()
            status = server.process.wait(PATIENCE)
            told = OF_BAD if answer_of_block.startswith(b"bad ") else b""
            self.equals(server.said(), "status and standard error", (0, told), (status, server.process.stderr.read()))
        self.equals(f"{server.said()}{len(block)} bytes, {times} times", "bytes of right answers", [wanted, True], came)
        return figures

    def is_flat(self, figures):
        """The most memory is there after the first tenth, and is little."""
        is_little = figures[-1] - figures[0] < 4_096 and figures[-1] < 20_000
        self.equals("icserve serve", f"little memory, and no growth, in kilobytes: {figures}", True, is_little)

    def test_100_megabytes_of_refused_lines_are_answered_in_flat_memory(self):
        line = b"submit a " + b"{A(x)><B(x)} " + b"<|" * 44 + b"\n"
        block = line * 9_000
        self.is_flat(self.fed(block, 100, b"bad syntax\n" * 9_000))

    def test_100_megabytes_of_long_refused_lines_are_answered_in_flat_memory(self):
        deep = b"submit a {} <|" + b"A(" * 80_000 + b"B" + b")" * 80_000 + b"=C>"
        wide = b"submit a {} <" + b"A," * 130_000 + b"A|>"
        names = b"submit a {} <" + b",".join(b"x%d" % it for it in range(1, 30_000)) + b"|>"
        block = b"".join(it[:262_144] + b"\n" for it in (deep, wide, names))
        times = 100_000_000 // len(block) // 10 * 10 + 10
        self.is_flat(self.fed(block, times, b"bad limit\n" * 3))

    def takes_at_most(self, kilobytes, before, lines, answers):
        """Asks a server some lines and then these, and fails unless it took at most so much memory."""
        with Server(self.disk()) as server:
            for line in before:
                self.answers(server, line, "accepted")
            feeder = threading.Thread(target=server.send, args=(lines,))
            feeder.start()
            for line, answer in zip(lines, answers):
                came = server.answer()
                if came != answer:
                    self.told(server.said(), f"the answer to {line}", shown(answer), shown(came or "nothing"))
            feeder.join()
            most = memory_of(server.process, "VmHWM")
            self.equals(server.said(), f"at most {kilobytes} kilobytes, came {most}", True, most < kilobytes)

    def test_a_thousand_fetches_of_a_large_job_copy_it_not_once(self):
        """docs/speed.md: 5 MB. Copies of its 8,182 nodes would take some 600."""
        config = "<|P=" + "C(" * 8180 + "D" + ")" * 8180 + ">"
        answers = [f"big done 0 {config}"] * 1000
        self.takes_at_most(8_000, [f"submit big {{}} {config}"], ["fetch big"] * 1000, answers)

    def test_65_536_fetches_of_32_large_jobs_copy_none(self):
        """A whole page of fetches of jobs of 8,192 nodes. A copy for each would take 8 GB."""
        config = b"<|P=" + b"C(" * 8190 + b"D" + b")" * 8190 + b">"
        jobs = [b"j%d" % it for it in range(32)]
        disk = self.disk()
        self.serves(disk, b"".join(b"submit %s {} %s\n" % (it, config) for it in jobs), ["accepted"] * 32)
        fetches = b"".join(b"fetch %s\n" % it for it in jobs)
        shown = b"".join(b"%s done 0 %s\n" % (it, config) for it in jobs)
        figures = self.fed(fetches, 2_048, shown, disk)
        self.equals("icserve serve", f"at most 64,000 kilobytes, came {figures}", True, figures[-1] < 64_000)

    def test_65_000_lists_over_32_jobs_share_one_list(self):
        """docs/speed.md: 13 MB. Copies of the list would take some 90."""
        jobs = [f"job-of-long-name{i}"[-16:] for i in range(32)]
        listed = "jobs" + "".join(f" {it}:done:0" for it in jobs)
        submits = [f"submit {it} {{}} <|>" for it in jobs]
        self.takes_at_most(40_000, submits, ["list"] * 65_000, [listed] * 65_000)


class Locked(Trial):
    def test_a_second_server_is_refused_by_whatever_path_it_comes(self):
        disk = self.disk()
        (self.room / "symbolic").symlink_to(disk)
        (self.room / "relative").symlink_to("symbolic")
        (self.room / "folder").symlink_to(self.room)
        os.link(disk, self.room / "hard")
        paths = [disk, f"{self.room}//./jobs.disk", "jobs.disk"]
        paths += [self.room / it for it in ("symbolic", "relative", "hard", "folder/hard")]
        job = submitted((), "two", TWO)[0][0]
        for path in paths:
            with Server(path, cwd=self.room) as server:
                self.answers(server, f"submit two {TWO.text}", "accepted")
                held = disk.read_bytes()
                for other in paths:
                    self.refuses("serve", "--disk", other, given="cancel two", line="locked", status=6, cwd=self.room)
                    self.refuses("create", "--disk", other, line="locked", status=6, cwd=self.room)
                self.holds(disk, held)
                self.answers(server, "fetch two", fetched(job))
                self.answers(server, "cancel two", "ok")
                self.ends(server)
            self.serves(path, "list", ["jobs"], cwd=self.room)

    def test_a_killed_server_holds_the_disk_no_longer(self):
        disk = self.disk()
        with Server(disk) as server:
            self.answers(server, f"submit two {TWO.text}", "accepted")
            server.stop()
        self.serves(disk, "list", ["jobs two:running:0"])

    def test_a_link_to_nothing_is_made_a_disk_by_create_alone(self):
        (self.room / "link").symlink_to("made")
        self.refuses("serve", "--disk", self.room / "link", line="device", status=3)
        self.equals("serve --disk link", "whether it made the file", False, (self.room / "made").exists())
        self.runs("create", "--disk", self.room / "link")
        self.serves(self.room / "made", "list", ["jobs"])

    def test_two_servers_on_two_disks_serve_side_by_side(self):
        one, other = self.disk("one.disk"), self.disk("other.disk")
        with Server(one) as first, Server(other) as second:
            self.answers(first, f"submit two {TWO.text}", "accepted")
            self.answers(second, "list", "jobs")
            self.refuses("serve", "--disk", one, line="locked", status=6)
            self.ends(first)
            self.ends(second)
