"""What no contract bounds: the memory and the time that the program takes. Times are told as those of a fixed work in the same
run, so that a busy machine doesn't fail a trial."""

import contextlib
import os
import re
import subprocess
import threading
import time
from pathlib import Path

from known import ADD, LOOP
from program import IN_MEMORY, PROGRAM, Trial, run
from test_in_place import DOUBLES, PILES

MEGABYTE = 1_000_000

# The names and agents that are told of a net.
NODES = re.compile(rb"interactions \d+, nodes (\d+), ")


def fixed_work(count=3_000_000):
    """How many seconds a loop of Python takes."""
    began, total = time.process_time(), 0
    for it in range(count):
        total += it & 7
    return time.process_time() - began


class Bounds(Trial):
    rooms = IN_MEMORY
    seconds = 5

    def taken(self, *words, given=b"", status=0):
        """Runs the program on a file of this text: the most bytes of memory that it took, and its seconds of a processor."""
        path = self.room / "text"
        path.write_bytes(given if isinstance(given, bytes) else given.encode())
        with path.open("rb") as file:
            return self.watched(words, file, status)

    def taken_of(self, *words, lines, times):
        """The same of lines that come so many times, by a pipe."""
        out, into = os.pipe()

        def write():
            with contextlib.suppress(BrokenPipeError), open(into, "wb") as pipe:
                for _ in range(times):
                    pipe.write(lines)

        writing = threading.Thread(target=write)
        writing.start()
        try:
            with open(out, "rb") as pipe:
                return self.watched(words, pipe, 0)
        finally:
            writing.join()

    def watched(self, words, file, status):
        most, reaped = 0, 0
        started = subprocess.Popen([PROGRAM, *map(str, words)], stdin=file, stdout=subprocess.DEVNULL, stderr=subprocess.DEVNULL)
        while not reaped:
            # The memory that `wait4` tells has that of this process in it, as it was before the program was loaded.
            found = re.search(r"VmHWM:\s+(\d+)", Path(f"/proc/{started.pid}/status").read_text())
            most = max(most, int(found[1]) if found else 0)
            time.sleep(0.002)
            reaped, ended, used = os.wait4(started.pid, os.WNOHANG)
        started.returncode = os.WEXITSTATUS(ended) if os.WIFEXITED(ended) else -os.WTERMSIG(ended)
        self.equals(words, "the status", status, started.returncode)
        return 1024 * most, used.ru_utime + used.ru_stime

    def below(self, what, most, came):
        self.equals(what, f"whether {came} is at most {most}", True, came <= most)

    def test_a_net_that_stays_small_takes_little_memory_for_ever(self):
        chain = ",".join(f"A(x{it + 1})=B(x{it + 1})" for it in range(100))
        for text in (LOOP.text, f"{{A(B(x))><B(A(x))}} <|{chain}>"):
            memory, seconds = self.taken("reduce", "--workers", 1, "--steps", 3_000_000, "--quiet-answer", given=text, status=5)
            self.below("bytes of 3,000,000 interactions", 20 * MEGABYTE, memory)
            self.below("seconds of 3,000,000 interactions, in those of a loop", 20, seconds / fixed_work())

    def test_a_text_of_a_million_nodes_takes_below_100_bytes_a_node(self):
        wide = "{} <|" + ",".join(["A(B,C)=D(E)"] * 200_000) + ">"
        names = "{} <|" + ",".join(f"A(x{it + 1})=B(x{it + 1})" for it in range(250_000)) + ">"
        deep = "{} <" + "S(" * 999_999 + "Z" + ")" * 999_999 + "|>"
        for what, text in (("equations", wide), ("names", names), ("a deep term", deep)):
            memory, seconds = self.taken("reduce", "--workers", 1, "--quiet-answer", given=text)
            self.below(f"bytes of a million nodes: {what}", 100 * MEGABYTE, memory)
            self.below(f"seconds of a million nodes, in those of a loop: {what}", 20, seconds / fixed_work())

    def test_a_million_agents_one_in_the_other_take_little_memory(self):
        """A text of three megabytes, which is printed as well, by one thread and by as many as are taken by default."""
        text = "{} <" + "S(" * 1_000_000 + "Z" + ")" * 1_000_000 + "|>"
        for words, most in ((["--workers", 1], 40), ([], 42)):
            memory, _ = self.taken("reduce", *words, given=text)
            self.below(f"bytes of a million agents: reduce {words}", most * MEGABYTE, memory)

    def test_a_rich_text_takes_little_memory(self):
        """What is written of these has five, six and three megabytes. Each entry of a list took some 50 bytes, for its place."""
        for what, text, most in (
            ("a list", "{list C N}<x|x=[" + ",".join("A" * 1_000_000) + "]>", 60),
            ("a number", "{number S Z}<x|x=2000000>", 72),
            ("rules", "{" + ";".join(f"A{k}(x,r)><B=>x~r" for k in range(200_000)) + "}<|>", 80),
        ):
            memory, _ = self.taken("expand", given=text)
            self.below(f"bytes of {what}", most * MEGABYTE, memory)

    def test_as_many_symbols_as_there_may_be_and_many_rules_take_little_memory(self):
        """A table of all pairs of symbols would take 34 GB."""
        symbols = "{} <|" + ",".join(f"A{it}=B{it}" for it in range(2**15)) + ">"
        rules = ";".join(f"A{it}><A{it + 1}" for it in range(2**15))
        pairs = ",".join(f"A{it}=A{it + 1}" for it in range(2**15))
        for what, text in (("symbols", symbols), ("rules", f"{{{rules}}} <|{pairs}>")):
            memory, seconds = self.taken("reduce", "--workers", 1, "--quiet-answer", given=text)
            self.below(f"bytes of many {what}", 100 * MEGABYTE, memory)
            self.below(f"seconds of many {what}, in those of a loop", 20, seconds / fixed_work())

    def test_a_server_of_many_submits_and_cancels_takes_little_memory_and_time(self):
        lines = f"submit a {LOOP.text}\nrun 1\ncancel a\n" * 20_000
        memory, seconds = self.taken("serve", "--disk", self.disk(), given=lines)
        self.below("bytes of 20,000 jobs that come and go", 200 * MEGABYTE, memory)
        self.below("seconds of 20,000 jobs that come and go, in those of a loop", 20, seconds / fixed_work())

    def test_a_server_of_large_submits_and_cancels_takes_little_memory_and_time(self):
        """Each text of 24,000 bytes takes 60,000 bytes while the page goes on that has its submit."""
        text = "{} <|" + ",".join(["ABCDA(ABCDB,ABCDC)=ABCDD(ABCDE)"] * 750) + ">"
        lines = f"submit a {text}\ncancel a\n".encode()
        memory, seconds = self.taken_of("serve", "--disk", self.disk(), "--group", 64, lines=lines, times=20_000)
        self.below("bytes of 20,000 large jobs that come and go", 200 * MEGABYTE, memory)
        self.below("seconds of 20,000 large jobs that come and go, in those of a loop", 200, seconds / fixed_work())

    def test_a_server_that_shows_a_large_job_after_each_round_takes_little_memory_and_time(self):
        """Each configuration that is shown takes 128,000 bytes while the page goes on that has its fetch."""
        disk, text = self.disk(), "{A(B(x))><B(A(x))} <|A(x)=B(x)," + ",".join(["C(D,E)=F(G)"] * 1_600) + ">"
        self.taken("serve", "--disk", disk, given=f"submit a {text}\n")
        memory, seconds = self.taken_of("serve", "--disk", disk, lines=b"run 1\nfetch a\n", times=3_000)
        self.below("bytes of a job that is shown 3,000 times", 200 * MEGABYTE, memory)
        self.below("seconds of a job that is shown 3,000 times, in those of a loop", 40, seconds / fixed_work())

    def test_a_server_of_jobs_that_grow_takes_little_memory_and_time(self):
        """Each round of a job makes 300 nodes more, and several threads make rounds ahead, as each fires as much as it copies."""
        text = "{A(n,B(x))><B(A(S(n),x))} <|" + ",".join(f"A(Z,x{it})=B(x{it})" for it in range(1, 301)) + ">"
        lines = "".join(f"submit j{it} {text}\n" for it in range(32)) + "run 480\n"
        memory, seconds = self.taken("serve", "--disk", self.disk(), "--workers", 4, given=lines)
        self.below("bytes of 32 jobs that grow to 7,000 nodes", 60 * MEGABYTE, memory)
        self.below("seconds of 32 jobs that grow to 7,000 nodes, in those of a loop", 20, seconds / fixed_work())

    def test_twice_the_text_takes_twice_the_time(self):
        def numeral(count):
            return "S(" * count + "Z" + ")" * count

        for what, text in (("a sum", lambda n: f"{ADD} <r|Add(r,{numeral(n)})={numeral(n)}>"),
                           ("equations", lambda n: "{A(x)><B(x)} <|" + ",".join(["A(P)=B(Q)"] * n) + ">")):
            (little, few), (much, many) = (self.taken("reduce", "--workers", 1, given=text(n)) for n in (100_000, 400_000))
            self.below(f"four times {what}: seconds by seconds", 8, many / (few + 0.02))
            self.below(f"four times {what}: bytes by bytes", 5, much / little)

    def test_what_bounds_a_net_are_its_names_and_agents_at_a_time(self):
        """Agents of one kind become those of another three times. All kinds at their peaks are four times as many."""
        count, turns = 20_000, ("ST", "TU", "UV")
        rules = ";".join(f"{at}(a,r)><{old}({at}({new}(a),r));{at}(a,a)><Z" for at, (old, new) in zip("PQR", turns))
        text = f"{{{rules}}} <w|P(Z,x)={'S(' * count}Z{')' * count},Q(Z,y)=x,R(Z,w)=y>"
        for workers in (1, 4):
            ran = run("reduce", "--workers", workers, "--nodes", count + 2_000, "--stats", given=text)
            wanted = (0, f"<{'V(' * count}Z{')' * count}|>\n".encode())
            self.equals(ran.command, "status and answer", wanted, (ran.status, ran.out))

    def test_a_net_that_grows_is_ended_within_a_tenth_of_its_bound(self):
        """However many threads reduce it. What the process takes follows the bound."""
        for what, text, room in (("pairs that become two", DOUBLES, 25), ("pairs that pile up", PILES, 12)):
            for workers in (1, 2, 4):
                for most in (20_000, 200_000, 2_000_000):
                    words = ["reduce", "--workers", workers, "--nodes", most]
                    ran = run(*words, given=text, seconds=30)
                    told = NODES.match(ran.after)
                    self.equals(ran.command, "how it ends", (1, b"icserve: overgrown\n", True), (ran.status, ran.err, bool(told)))
                    self.equals(ran.command, f"whether {told[1]} is more, by a tenth at most", True, most < int(told[1]) <= 1.1 * most)
                memory, _ = self.taken(*words, given=text, status=1)
                self.below(f"bytes of {most} names and agents: {what}, {workers} threads", (20 + room * most / MEGABYTE) * MEGABYTE, memory)
