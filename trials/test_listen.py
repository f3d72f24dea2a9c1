"""Many clients at one server, over a Unix socket: `listen`, and `send`, a client of it."""

import contextlib
import os
import pty
import re
import resource
import select
import shutil
import signal
import socket
import stat
import subprocess
import sys
import threading
import time
from pathlib import Path

import model_disk
from hosts import Hosts
from known import ADD, LOOP, TWO
from program import IN_MEMORY, PATIENCE, PROGRAM, TOP, Trial, heeds_signals, run, shown
from test_drawn_serving import OTHERS, session
from test_standing import loops

LONGEST = 262_144


class Client:
    """A client at a socket."""

    def __init__(self, path):
        self.socket = socket.socket(socket.AF_UNIX)
        self.socket.settimeout(PATIENCE)
        self.socket.connect(str(path))
        self.came = bytearray()

    def __enter__(self):
        return self

    def __exit__(self, *_):
        self.socket.close()

    def send(self, *lines):
        for line in lines:
            self.socket.sendall(line.encode() + b"\n" if isinstance(line, str) else line)

    def answer(self):
        """The next answer, without its line feed; None where the server closes before."""
        while b"\n" not in self.came:
            try:
                data = self.socket.recv(65_536)
            except ConnectionError:
                return None
            if not data:
                return None
            self.came += data
        answer, _, self.came = self.came.partition(b"\n")
        return answer.decode()

    def ask(self, line):
        self.send(line)
        return self.answer()

    def rest(self):
        """All that comes up to the end."""
        while self.answer_came():
            pass
        return bytes(self.came)

    def answer_came(self):
        try:
            data = self.socket.recv(65_536)
        except ConnectionError:
            return False
        self.came += data
        return bool(data)

    def half_close(self):
        self.socket.shutdown(socket.SHUT_WR)


class Listening:
    """The script, with a server as its child."""

    def __init__(self, disk, path, *words, before=(), program=PROGRAM, env=(), **how):
        self.path = path
        command = [*before, sys.executable, TOP / "listen", "--disk", disk, "--socket", path, *words]
        self.command = [str(it) for it in command]
        pipes = {"stdout": subprocess.PIPE, "stderr": subprocess.PIPE}
        self.process = subprocess.Popen(self.command, env={**os.environ, "ICSERVE": str(program), **dict(env)}, **pipes, **how)
        self.first = self.process.stderr.readline().decode()

    def __enter__(self):
        return self

    def __exit__(self, *_):
        self.process.kill()
        self.process.communicate()

    def client(self):
        return Client(self.path)

    def child(self):
        """The number of the server's process."""
        found = Path(f"/proc/{self.process.pid}/task/{self.process.pid}/children").read_text().split()
        return int(found[0])

    def memory(self):
        """How many bytes of memory the script has taken at most."""
        text = Path(f"/proc/{self.process.pid}/status").read_text()
        return 1024 * int(re.search(r"VmHWM:\s+(\d+)", text)[1])

    def end(self, sign=signal.SIGTERM):
        """Ends it by a signal, if one is said: its status, and what it said."""
        if sign:
            self.process.send_signal(sign)
        _, err = self.process.communicate(timeout=PATIENCE)
        return self.process.returncode, err.decode()


class Listens(Trial):
    rooms = IN_MEMORY
    seconds = 3

    def listening(self, *words, disk=None, **how):
        return Listening(disk or self.disk(), self.room / "socket", *words, **how)

    def answers(self, client, line, answer):
        self.equals(line, "its answer", answer, client.ask(line))

    def free(self, disk):
        """Waits until no server has the disk."""
        end = time.monotonic() + PATIENCE
        while run("serve", "--disk", disk).status == 6 and time.monotonic() < end:
            time.sleep(0.01)

    def ends_well(self, listening, sign=signal.SIGTERM):
        self.equals(listening.command, "status, and what it said", (0, ""), listening.end(sign))


class Sharing(Listens):
    def test_each_client_has_the_answers_to_its_own_lines_in_their_order(self):
        with self.listening() as listening, listening.client() as one, listening.client() as two:
            one.send(f"submit two {TWO.text}", "\t \r", "fetch two", "list")
            self.equals("submit, a blank, fetch, list", "the answers", ["accepted", f"two running 0 {TWO.config(0)}", "jobs two:running:0"],
                        [one.answer() for _ in range(3)])
            self.answers(two, "submit two {} <|>", "refused taken")
            self.answers(two, "run 10", "ran 2")
            self.answers(one, "fetch two", "two done 2 <S(S(Z))|>")
            self.ends_well(listening)

    def test_a_line_of_any_bytes_is_answered_as_by_the_server_itself(self):
        lines = [bytes([it]) + b"\n" for it in range(256) if it != 10] + [b"list" + bytes([it]) + b"\n" for it in range(256) if it != 10]
        wanted = run("serve", "--disk", self.disk("other.disk"), given=b"".join(lines)).out
        with self.listening() as listening, listening.client() as one, listening.client() as other:
            one.send(b"".join(lines))
            other.send(*["list"] * 5)
            one.half_close()
            self.agrees("a line of each byte", "the answers", wanted, one.rest())
            self.equals("list", "the other's answers", ["jobs"] * 5, [other.answer() for _ in range(5)])

    def test_a_client_that_closes_its_side_has_all_its_answers(self):
        with self.listening() as listening, listening.client() as client:
            client.send(*[f"submit loop{it} {LOOP.text}" for it in range(40)])
            client.half_close()
            self.agrees("40 submits", "the answers", b"accepted\n" * 32 + b"refused full\n" * 8, client.rest())

    def test_a_last_line_without_a_line_feed_is_not_done(self):
        with self.listening() as listening, listening.client() as other:
            self.answers(other, f"submit job {LOOP.text}", "accepted")
            for line in (b"cancel job", b"submit a {} <|>", b"\xff"):
                with listening.client() as client:
                    client.send("list", line)
                    client.half_close()
                    wanted = b"jobs job:running:0\nclosed: the last line has no line feed, so it wasn't done\n"
                    self.agrees(line, "what came", wanted, client.rest())
            with listening.client() as client:
                client.send(b"cancel job")
            self.answers(other, "list", "jobs job:running:0")

    def test_a_line_that_is_too_long_closes_this_client_alone(self):
        told = f"closed: long line: a line has at most {LONGEST} bytes\n".encode()
        with self.listening() as listening, listening.client() as other:
            for line, wanted in ((b"list" + b" " * (LONGEST - 4) + b"\nlist\n", b"jobs\njobs\n"), (b" " * LONGEST + b"\nlist\n", b"jobs\n"),
                                 (b"list" + b" " * (LONGEST - 3) + b"\nlist\n", told), (b"list\n" + b"x" * 2_000_000, b"jobs\n" + told)):
                with listening.client() as client:
                    with contextlib.suppress(ConnectionError):
                        client.send(line)
                        client.half_close()
                    self.agrees(f"a line of {len(line)} bytes", "what came", wanted, client.rest())
                self.answers(other, "list", "jobs")

    def test_what_64_clients_are_answered_is_one_legal_history(self):
        draw, tee = self.draws(), self.room / "tee"
        tee.write_text(f'#!/bin/sh\ntee -a {self.room}/lines | {PROGRAM} "$@" | tee -a {self.room}/answers\n')
        tee.chmod(0o755)
        names = [f"job{it}" for it in range(40)]
        texts = ["{}<|>", "{}<r|r=Z>", LOOP.text, f"{ADD}<r|Add(r,S(Z))=S(S(Z))>"]
        others = [it for it in OTHERS if it.strip("\t\r ")]
        # What stands before a line tells which client has sent it.
        given = [[f"{' ' * it}{line}" if line.strip("\t\r ") else f"{' ' * it}{draw.choice(others)}"
                  for line in session(draw, names, texts, 60, 20)] for it in range(1, 65)]
        got = [None] * 64

        def converse(number):
            with listening.client() as client:
                lines, got[number] = list(given[number]), []
                while lines:
                    some, lines = lines[: number % 7 + 1], lines[number % 7 + 1 :]
                    client.send(*some)
                    got[number] += [client.answer() for _ in some]

        with self.listening("--rounds", program=tee) as listening:
            threads = [threading.Thread(target=converse, args=[it]) for it in range(64)]
            for it in threads:
                it.start()
            for it in threads:
                it.join()
            self.ends_well(listening)
        disk = model_disk.Disk()
        disk.create()
        asked, answered = ((self.room / it).read_bytes() for it in ("lines", "answers"))
        self.agrees("64 clients", "the answers of the model", model_disk.serve(disk, asked, 100).out, answered)
        lines, answers = (it.decode().split("\n")[:-1] for it in (asked, answered))
        for number in range(64):
            own = [(line, answer) for line, answer in zip(lines, answers) if len(line) - len(line.lstrip(" ")) == number + 1]
            self.equals(f"client {number}", "its lines and answers in the history", list(zip(given[number], got[number])), own)

    def test_a_client_that_never_reads_holds_up_nobody_and_takes_little_memory(self):
        system = f"{ADD} <r|Add(r,{'S(' * 4000}Z{')' * 4000})=Z>"
        with self.listening() as listening, listening.client() as one, listening.client() as other:
            self.answers(other, f"submit big {system}", "accepted")
            before = listening.memory()
            one.socket.setblocking(False)
            sent, data = 0, b"fetch big\n" * 1_000_000
            end = time.monotonic() + 2
            while time.monotonic() < end and sent < len(data):
                with contextlib.suppress(BlockingIOError):
                    sent += one.socket.send(data[sent : sent + 65_536])
                self.answers(other, "fetch no", "refused nojob")
            taken = listening.memory() - before
            self.equals(f"{sent} bytes of `fetch big`", f"whether it takes below 8 MB more: {taken}", True, taken < 8_000_000)
            self.equals("fetch big", "whether lines wait with the client", True, sent < len(data))

    def test_10000_clients_one_after_another_leave_nothing(self):
        with self.listening() as listening:
            before = None
            for number in range(10_000):
                with listening.client() as client:
                    if number % 3 == 0:
                        self.answers(client, "list", "jobs")
                    elif number % 3 == 1:
                        client.send("list", b"li")
                if number == 1000:
                    before = listening.memory()
            files = len(os.listdir(f"/proc/{listening.process.pid}/fd"))
            self.equals("10,000 clients", f"whether few files are open: {files}", True, files < 30)
            self.equals("10,000 clients", "whether memory stays", True, listening.memory() < before + 4_000_000)
            self.ends_well(listening)

    def test_500_clients_at_once_are_answered(self):
        soft, hard = resource.getrlimit(resource.RLIMIT_NOFILE)
        if hard != resource.RLIM_INFINITY and hard < 1200:
            self.skipTest(f"only {hard} files may be open here")
        resource.setrlimit(resource.RLIMIT_NOFILE, (max(soft, 1200), hard))
        self.addCleanup(resource.setrlimit, resource.RLIMIT_NOFILE, (soft, hard))
        with self.listening() as listening, contextlib.ExitStack() as stack:
            clients = [stack.enter_context(listening.client()) for _ in range(500)]
            for number, it in enumerate(clients):
                it.send(f"fetch job{number}", "list")
            for it in clients:
                self.equals("500 clients", "the answers", ["refused nojob", "jobs"], [it.answer(), it.answer()])
            with contextlib.ExitStack() as more:
                late = [more.enter_context(listening.client()) for _ in range(13)]
                self.equals("the 513th client", "what came", b"closed: too many clients\n", late[-1].rest())
            self.ends_well(listening)

    def test_with_few_files_it_takes_fewer_clients(self):
        def limited():
            resource.setrlimit(resource.RLIMIT_NOFILE, (20, 20))

        with self.listening(preexec_fn=limited) as listening, contextlib.ExitStack() as stack:
            clients = [stack.enter_context(listening.client()) for _ in range(5)]
            for it in clients[:4]:
                self.answers(it, "list", "jobs")
            self.equals("the fifth", "what came", b"closed: too many clients\n", clients[4].rest())
            clients[0].socket.close()
            end = time.monotonic() + PATIENCE
            while time.monotonic() < end:
                with listening.client() as again:
                    if again.ask("list") == "jobs":
                        break
            self.ends_well(listening)


def nc():
    """A program of that name which knows Unix sockets; None where there is none."""
    for name in ("nc", "nc.openbsd", "ncat"):
        found = shutil.which(name)
        if found and re.search(r"(?m)^\s*-U\b", shown_help(found)):
            return found
    return None


def shown_help(program):
    told = subprocess.run([program, "-h"], stdin=subprocess.DEVNULL, stdout=subprocess.PIPE, stderr=subprocess.STDOUT, timeout=PATIENCE)
    return told.stdout.decode(errors="replace")


class ByNc(Listens):
    """A person with `nc -U` has an answer for each line, at once, like one with `send`, and may go in mid-line."""

    def setUp(self):
        super().setUp()
        self.nc = nc()
        if not self.nc:
            self.skipTest("no nc that knows -U is installed: apt install netcat-openbsd")

    @contextlib.contextmanager
    def person(self, listening):
        pipes = {"stdin": subprocess.PIPE, "stdout": subprocess.PIPE}
        process = subprocess.Popen([self.nc, "-U", str(listening.path)], **pipes)
        try:
            yield process
        finally:
            process.kill()
            process.communicate()

    def says(self, person, line, answer):
        person.stdin.write(line.encode() + b"\n")
        person.stdin.flush()
        self.equals(f"nc -U, {line}", "whether it is answered at once", [person.stdout], select.select([person.stdout], [], [], PATIENCE)[0])
        self.equals(f"nc -U, {line}", "its answer", f"{answer}\n".encode(), person.stdout.readline())

    def test_each_line_of_two_people_is_answered_at_once(self):
        with self.listening() as listening, self.person(listening) as one, self.person(listening) as two, listening.client() as other:
            self.says(one, f"submit two {TWO.text}", "accepted")
            self.says(two, "submit two {} <|>", "refused taken")
            self.says(two, "run 10", "ran 2")
            self.says(one, "fetch two", "two done 2 <S(S(Z))|>")
            two.stdin.write(b"cancel tw")
            two.stdin.flush()
            two.kill()
            self.answers(other, "list", "jobs two:done:2")
            self.says(one, "cancel two", "ok")
            self.ends_well(listening)


class Waits(Listens):
    def test_wait_is_answered_once_the_job_does_not_run(self):
        with self.listening() as listening, listening.client() as one, listening.client() as other:
            self.answers(one, "wait two", "refused nojob")
            self.answers(one, "wait", "bad syntax")
            self.answers(one, "wait two two", "bad syntax")
            self.answers(one, f"submit two {TWO.text}", "accepted")
            one.send("wait two", "list")
            self.answers(other, "run 1", "ran 1")
            self.equals("wait two", "whether it is answered while the job runs", [], select.select([one.socket], [], [], 0.1)[0])
            self.answers(other, "run 1", "ran 1")
            self.equals("wait two", "the answers", ["two done 2 <S(S(Z))|>", "jobs two:done:2"], [one.answer(), one.answer()])
            self.answers(one, "wait two", "two done 2 <S(S(Z))|>")

    def test_wait_ends_with_a_pause_and_where_the_job_is_gone(self):
        with self.listening("--rounds") as listening, listening.client() as one, listening.client() as other:
            self.answers(one, f"submit loop {LOOP.text}", "accepted")
            one.send("wait loop")
            self.answers(other, "pause loop", "ok")
            self.equals("wait loop", "the answer", "loop paused", " ".join(one.answer().split()[:2]))
            self.answers(other, "resume loop", "ok")
            one.send("wait loop")
            self.answers(other, "cancel loop", "ok")
            self.equals("wait loop", "the answer", "refused nojob", one.answer())
            self.ends_well(listening)

    def test_clients_that_go_while_they_wait_leave_nothing(self):
        with self.listening("--rounds") as listening, listening.client() as other:
            self.answers(other, f"submit loop {LOOP.text}", "accepted")
            for _ in range(600):
                with listening.client() as one:
                    one.send("wait loop", "cancel loop")
            time.sleep(0.1)
            self.equals("list", "whether the job is there", True, other.ask("list").startswith("jobs loop:running:"))
            self.ends_well(listening)


class Rounds(Listens):
    seconds = 6

    def test_jobs_make_rounds_while_no_line_waits(self):
        with self.listening("--rounds") as listening, listening.client() as client:
            for number in range(16):
                self.answers(client, f"submit loop{number} {LOOP.text}", "accepted")
                self.answers(client, f"submit sum{number} {ADD} <r|Add(r,Z)={'S(' * 100}Z{')' * 100}>", "accepted")
            for number in range(16):
                client.send(f"wait sum{number}")
                self.equals(f"sum{number}", "how it ends", True, client.answer().startswith(f"sum{number} done 101 <S(S("))
            first = self.rounds(client)
            while min(self.rounds(client)) < 1000 + min(first):
                time.sleep(0.05)
            made = [after - before for before, after in zip(first, self.rounds(client))]
            self.equals("16 jobs that never end", f"whether each has its share: {made}", True, max(made) <= 1.2 * min(made))

    def rounds(self, client):
        """How many rounds each job has made that never ends."""
        return [int(it.split(":")[2]) for it in client.ask("list").split()[1:] if it.startswith("loop")]

    def test_a_line_is_answered_soon_while_32_jobs_run(self):
        with self.listening("--rounds") as listening, listening.client() as client:
            for number in range(32):
                self.answers(client, f"submit loop{number} {LOOP.text}", "accepted")
            took = []
            for _ in range(200):
                time.sleep(0.002)
                began = time.monotonic()
                client.ask("fetch loop7")
                took.append(time.monotonic() - began)
            took.sort()
            self.equals("fetch", f"whether half are answered within 20 ms: {took[100]:.4f}", True, took[100] < 0.020)

    def test_a_line_is_answered_soon_after_a_large_job_has_come(self):
        """Laps of a small job have grown by then."""
        with self.listening("--rounds") as listening, listening.client() as client:
            self.answers(client, f"submit small {LOOP.text}", "accepted")
            took = []
            for _ in range(5):
                time.sleep(0.5)
                self.answers(client, f"submit large {loops(1_000)}", "accepted")
                time.sleep(0.01)
                began = time.monotonic()
                client.ask("list")
                took.append(time.monotonic() - began)
                self.answers(client, "cancel large", "ok")
            self.equals("list", f"whether it is answered within 0.1 s, once of five times: {took}", True, min(took) < 0.1)

    def test_lines_of_another_client_come_between_runs(self):
        with self.listening() as listening, listening.client() as one, listening.client() as other:
            for number in range(8):
                self.answers(one, f"submit loop{number} {loops(100)}", "accepted")
            one.send(*["run 1000"] * 20)
            made = self.rounds(other)
            self.equals("list after 20 times run 1000", f"whether most are still to be made: {made}", True, max(made) <= 5 * 1000 // 8)
            for _ in range(20):
                self.equals("run 1000", "its answer", "ran 1000", one.answer())
            self.equals("list", "the rounds then", [2500] * 8, self.rounds(other))

    def test_a_new_serving_begins_before_the_last_line_that_one_takes(self):
        env = {"ICSERVE_LISTEN_LINES": "300"}
        with self.listening("--max-clients", "8", "--rounds", env=env) as listening, listening.client() as one, listening.client() as other:
            first = listening.child()
            self.answers(one, f"submit two {TWO.text}", "accepted")
            for number in range(1000):
                other.send("fetch no")
                self.answers(one, f"submit j{number} {{}} <|>", "accepted")
                self.answers(one, f"cancel j{number}", "ok")
            self.equals("1,000 lines", "the other's answers", {"refused nojob"}, {other.answer() for _ in range(1000)})
            self.answers(one, "wait two", "two done 2 <S(S(Z))|>")
            self.equals("1,000 lines", "whether another server runs", True, listening.child() != first)
            self.ends_well(listening)


class Ends(Listens):
    def test_the_socket_is_its_owners_and_is_removed_at_the_end(self):
        for sign in (signal.SIGTERM, signal.SIGINT, signal.SIGHUP):
            with self.listening(disk=self.disk(f"{sign}.disk"), preexec_fn=heeds_signals) as listening:
                mode = stat.S_IMODE(os.stat(listening.path).st_mode)
                self.equals("the socket", "its mode", 0o600, mode)
                self.ends_well(listening, sign)
                self.equals("the socket", "whether it is there", False, os.path.exists(listening.path))

    def test_a_terminal_that_closes_ends_it_but_not_by_nohup(self):
        def is_kept():
            signal.signal(signal.SIGHUP, signal.SIG_IGN)

        for heeds, sign in ((heeds_signals, None), (is_kept, signal.SIGTERM)):
            with self.listening(disk=self.disk(f"{sign}.disk"), preexec_fn=heeds) as listening, listening.client() as client:
                self.answers(client, f"submit loop {LOOP.text}", "accepted")
                listening.process.send_signal(signal.SIGHUP)
                if sign:
                    self.answers(client, "list", "jobs loop:running:0")
                else:
                    self.agrees("SIGHUP", "what came", b"", client.rest())
                self.equals(listening.command, "status, and what it said", (0, ""), listening.end(sign))

    def connects(self, path):
        """Whether a process of another user, whose group is 65534, may connect."""
        child = os.fork()
        if not child:
            with contextlib.suppress(OSError), socket.socket(socket.AF_UNIX) as there:
                os.setgroups([])
                os.setgid(65534)
                os.setuid(65534)
                there.connect(str(path))
                os._exit(0)
            os._exit(1)
        return os.waitpid(child, 0)[1] == 0

    def test_members_of_a_group_may_connect_once_the_socket_is_theirs_too(self):
        if os.geteuid():
            self.skipTest("only root can be another user")
        os.chmod(self.room, 0o711)
        with self.listening() as listening:
            self.equals("another user", "whether it may connect", False, self.connects(listening.path))
            os.chown(listening.path, -1, 65534)
            os.chmod(listening.path, 0o660)
            self.equals("a member of the group", "whether it may connect", True, self.connects(listening.path))
            self.ends_well(listening)

    def test_shutdown_answers_what_is_due_and_ends(self):
        with self.listening() as listening, listening.client() as one, listening.client() as other:
            self.answers(other, f"submit loop {LOOP.text}", "accepted")
            other.send(*["run 1000"] * 20)
            other.answer()
            one.send("shutdown")
            self.agrees("shutdown", "what came", b"ok\n", one.rest())
            answers = other.rest().decode().split("\n")
            self.equals("20 runs", "what came", set(answers[:-1]) - {"closed: the server has ended"}, {"ran 1000"})
            self.equals(listening.command, "status, and what it said", (0, ""), listening.end(None))

    def test_shutdown_is_answered_after_the_lines_before_it(self):
        for lines, wanted in ((["list"], b"jobs\n"), ([f"submit two {TWO.text}", "run 10", "fetch no", "wait two"], b"accepted\nran 2\nrefused nojob\ntwo done 2 <S(S(Z))|>\n")):
            with self.listening(disk=self.disk(f"{len(lines)}.disk")) as listening, listening.client() as one:
                one.send(*lines, "shutdown", "list")
                self.agrees(lines, "what came", wanted + b"ok\nclosed: the server has ended\n", one.rest())
                self.equals(listening.command, "status, and what it said", (0, ""), listening.end(None))

    def test_a_socket_that_is_left_is_taken_and_nothing_else_is(self):
        disk = self.disk()
        with self.listening(disk=disk) as listening:
            listening.process.kill()
            listening.process.wait()
            self.equals("a script that was killed", "whether its socket is left", True, os.path.exists(listening.path))
        self.free(disk)
        with self.listening(disk=disk) as listening, listening.client() as client:
            self.answers(client, "list", "jobs")
            with self.listening(disk=self.disk("other.disk")) as second:
                self.equals("another script at this socket", "how it ends", (6, ""), second.end(None))
                self.equals("another script at this socket", "what it said", f"icserve-listen: {listening.path}: another server answers there\n", second.first)
            self.answers(client, "list", "jobs")
        path = self.room / "file"
        path.write_text("mine")
        with Listening(self.disk("third.disk"), path) as listening:
            self.equals("a file at this path", "how it ends", (4, ""), listening.end(None))
        self.holds(path, b"mine")

    def test_two_scripts_for_one_disk(self):
        disk = self.disk()
        with self.listening(disk=disk) as listening, listening.client() as client:
            with Listening(disk, self.room / "second") as second:
                self.equals("another script for this disk", "what it said", "icserve: locked\n", second.first)
                self.equals("another script for this disk", "its status", 6, second.end(None)[0])
            self.answers(client, "list", "jobs")

    def test_a_script_that_waits_has_the_disk_once_the_one_before_has_ended(self):
        disk = self.disk()
        with self.listening(disk=disk) as listening:
            with listening.client() as client:
                self.answers(client, f"submit two {TWO.text}", "accepted")
            ends = threading.Timer(0.5, listening.process.kill)
            ends.start()
            with Listening(disk, self.room / "second", "--wait", "60") as second, second.client() as client:
                self.answers(client, "list", "jobs two:running:0")
            ends.join()

    def test_where_the_server_ends_the_clients_are_closed(self):
        for sign, status in ((signal.SIGKILL, 4), (signal.SIGTERM, 4)):
            with self.listening(disk=self.disk(f"{sign}.disk")) as listening, listening.client() as client:
                self.answers(client, "list", "jobs")
                os.kill(listening.child(), sign)
                self.equals("a server that was killed", "what came", b"", client.rest())
                came, err = listening.end(None)
                line = f"icserve-listen: icserve serve was killed by signal {sign.value}: begin this script anew, and all that it has answered is there"
                self.equals("a server that was killed", "the status, and whether a line says so", (status, True), (came, line in err.splitlines()))

    def test_a_socket_of_systemd_is_taken_and_left(self):
        """The script is started as the unit in examples/ says."""
        path, unit = self.room / "given", (TOP / "examples/icserve.service").read_text()
        (words,) = re.findall(r"(?m)^ExecStart=icserve-listen (.*)", unit)
        with socket.socket(socket.AF_UNIX) as made:
            made.bind(str(path))
            made.listen(8)
            script = 'exec 3<&0 </dev/null; LISTEN_FDS=1 LISTEN_PID=$$ exec "$@"'
            words = [str(self.disk()) if it == "/var/lib/icserve/jobs.disk" else it for it in words.split()]
            command = ["sh", "-c", script, "sh", sys.executable, str(TOP / "listen"), *words]
            how = {"stdin": made, "stdout": subprocess.PIPE, "stderr": subprocess.PIPE, "env": {**os.environ, "ICSERVE": PROGRAM}}
            with subprocess.Popen(command, **how) as started, Client(path) as client:
                self.answers(client, "list", "jobs")
                self.answers(client, "shutdown", "ok")
                self.equals(command, "the status", 0, started.wait(PATIENCE))
        self.equals("the socket", "whether it is there", True, path.exists())

    def test_systemd_takes_the_units(self):
        if not shutil.which("systemd-analyze"):
            self.skipTest("not installed: systemd-analyze")
        (self.room / "listen").symlink_to(TOP / "listen")
        units = [self.room / it for it in ("icserve.service", "icserve.socket")]
        for it in units:
            it.write_text((TOP / "examples" / it.name).read_text().replace("ExecStart=icserve-listen ", f"ExecStart={self.room}/listen "))
        ran = run("verify", *units, program="systemd-analyze")
        self.equals(ran.command, "what it says of them", [], [it for it in ran.err.decode().splitlines() if "icserve" in it])


class Sends(Listens):
    def send(self, *words, given=b"", path=None):
        env = {**os.environ, "ICSERVE": PROGRAM}
        return run("--socket", path or self.room / "socket", *words, given=given, program=TOP / "send", env=env)

    def test_lines_are_sent_and_their_answers_printed(self):
        with self.listening():
            self.ended(self.send(f"submit two {TWO.text}", "run 10", "fetch two"), ["accepted", "ran 2", "two done 2 <S(S(Z))|>"])
            self.ended(self.send(given=b"list\n\nlist"), ["jobs two:done:2"] * 2)
            self.ended(self.send(given=b""), b"")
            lines = b"fetch two\n" * 5_000
            self.ended(self.send(given=lines), b"two done 2 <S(S(Z))|>\n" * 5_000)

    def test_texts_in_files_are_sent_as_expand_writes_them(self):
        sum_of = self.room / "my sum.rich"
        sum_of.write_text("{number S Z;  # sums\n Add(r,n) >< Z => r ~ n;\n Add(r,n) >< S(m) => r ~ S(w), Add(w,n) ~ m}\n<r | Add(r,1) ~ 2>\n")
        (self.room / "plain.ic").write_text(TWO.text.replace("<r|", "\n<r|"))
        (self.room / "two.rich").write_text("{} <|> <|>")
        (self.room / "bad.rich").write_text("{A(r) >< B => r ~ n}\n<|>")
        with self.listening():
            sent = self.send(f"submit sum @{sum_of}", f"  submit\tfew 1 @{self.room}/plain.ic \r", "run 10", "fetch sum", "fetch few")
            self.ended(sent, ["accepted", "accepted", "ran 4", "sum done 3 <S(S(S(Z)))|>", "few spent 1 <S(s)|Z=Add(s,S(Z))>"])
            for name, said in (
                ("none.rich", f"read\n{self.room}/none.rich: open: no such file or folder\n"),
                ("two.rich", "it has several configurations, and a job has one\n"),
                ("bad.rich", f"bad syntax\n{self.room}/bad.rich, line 1, column 19\n"),
            ):
                ran = self.send(f"submit other @{self.room}/{name}", "fetch other", given=b"")
                self.equals(ran.command, "status and answers", (1, b"refused nojob\n"), (ran.status, ran.out))
                told = f"icserve-send: {self.room}/{name} is not submitted: {said}".encode()
                self.equals(ran.command, "what is told", told, (ran.err + ran.after)[: len(told)])

    def test_what_is_wrong_with_a_line_that_is_answered_by_bad_is_told(self):
        """Each line is told by its number, of which lines that aren't sent have one too, and no more than twenty are."""
        command = "bad syntax: a command is looked for here: submit, copy, pause, resume, cancel, fetch, list or run; a file with one text begins with { or <"
        name = "bad syntax: a job's name is looked for here: a small letter, then small letters, digits and -"
        run_at_most = "bad limit: a run makes at most 1000 rounds"
        more = "icserve-send: more lines were answered `bad`: `icserve check -` tells what is wrong in such lines\n"

        def told(*faults):
            return "".join(f"icserve-send: line {line}, column {column}: {fault}\n" for line, column, fault in faults)

        quotes = "icserve-send: each LINE is one argument: put it in quotes, as 'fetch two'\n"
        with self.listening():
            self.ended(self.send("lst", "", "list", "run 2000"), ["bad syntax", "jobs", "bad limit"], told((1, 1, command), (4, 5, run_at_most)))
            self.ended(self.send("fetch", "two"), ["bad syntax", "bad syntax"], told((1, 6, name), (2, 1, command)) + quotes)
            self.ended(self.send("wait"), ["bad syntax"], told((1, 5, name)))
            self.ended(self.send(given=b"list\n wait No"), ["jobs", "bad syntax"], told((2, 7, name)))
            self.ended(self.send("{A><B} <|>"), ["bad syntax"], told((1, 1, "bad syntax: a system is submitted on one line: submit NAME {RULES} <CONFIG>")))
            unsent = self.send(f"submit no @{self.room}/none.ic", "run 2000")
            self.equals(unsent.command, "the last line", told((2, 5, run_at_most)).encode(), (unsent.err + unsent.after)[-len(told((2, 5, run_at_most))) :])
            self.ended(self.send(given=b"run 2000\n" * 25), ["bad limit"] * 25, told(*((it, 5, run_at_most) for it in range(1, 21))) + more)
            self.ended(self.send("submit bad {} <|>", "fetch bad"), ["accepted", "bad done 0 <|>"])

    def test_a_missing_answer_is_told(self):
        with self.listening():
            ran = self.send(given=b"list\n" + b"x" * (LONGEST + 1))
            rest = "a line has no answer: `list` and `fetch` tell what was done\n"
            self.ended(ran, "jobs\n", f"icserve-send: closed: long line: a line has at most {LONGEST} bytes; {rest}", status=1)
        for kills_child, why in ((True, "closed: the server has ended;"), (False, "the server has ended, and")):
            wanted = (1, b"", f"icserve-send: {why} {rest}".encode())
            with self.listening(disk=self.disk(f"{kills_child}.disk")) as listening:
                with listening.client() as client:
                    client.ask(f"submit loop {LOOP.text}")
                command = [sys.executable, TOP / "send", "--socket", listening.path, "list", "wait loop"]
                with subprocess.Popen(command, stdout=subprocess.PIPE, stderr=subprocess.PIPE) as started:
                    self.equals(command, "the first answer", b"jobs loop:running:0\n", started.stdout.readline())
                    os.kill(listening.child() if kills_child else listening.process.pid, signal.SIGKILL)
                    out, err = started.communicate(timeout=PATIENCE)
                self.equals(command, "how it ends", wanted, (started.returncode, out, err))

    def test_where_nobody_listens_it_says_so(self):
        path = self.room / "none"
        self.ended(self.send("list", path=path), b"", f"icserve-send: {path}: no server listens there: No such file or directory\n", status=4)
        with socket.socket(socket.AF_UNIX) as left:
            left.bind(str(path))
            self.ended(self.send("list", path=path), b"", f"icserve-send: {path}: no server listens there: Connection refused\n", status=4)

    def test_a_server_that_is_begun_just_after_it_is_found(self):
        """So the lines of a page may be pasted at once."""
        path = self.room / "socket"
        command = [sys.executable, TOP / "send", "--socket", path, "list"]
        with subprocess.Popen(command, stdout=subprocess.PIPE, stderr=subprocess.PIPE) as started:
            time.sleep(0.5)
            with self.listening():
                out, err = started.communicate(timeout=PATIENCE)
        self.equals(command, "how it ends", (0, b"jobs\n", b""), (started.returncode, out, err))

    def shows(self, terminal, wanted):
        """Reads what stands on a terminal up to these bytes."""
        came = b""
        while wanted not in came:
            if not select.select([terminal], [], [], PATIENCE / 4)[0]:
                self.told("send at a terminal", "what it shows", shown(wanted), shown(came))
            came += os.read(terminal, 1)

    def test_at_a_terminal_it_asks_for_lines(self):
        with self.listening() as listening:
            self.is_asked("run K, wait NAME, shutdown; Ctrl-D ends the session", "Ctrl-D ends the session, and `shutdown` the server", "--socket", listening.path)
        (self.room / "icserve/history").unlink()
        self.is_asked("run K; Ctrl-D ends the session", "Ctrl-D ends the session", "--disk", self.disk("own.disk"))

    @contextlib.contextmanager
    def at_a_terminal(self, *words):
        """The script at a terminal: its command, its process and the terminal's other end."""
        main, other = pty.openpty()
        self.addCleanup(os.close, main)
        command = [sys.executable, TOP / "send", *words]
        env = {**os.environ, "TERM": "dumb", "XDG_STATE_HOME": str(self.room), "ICSERVE": PROGRAM}
        with subprocess.Popen(command, stdin=other, stdout=other, stderr=other, env=env, start_new_session=True) as started:
            self.addCleanup(started.kill)
            os.close(other)
            yield command, started, main

    def types(self, terminal, line, wanted):
        """Types a line at the prompt, after which this is shown."""
        self.shows(terminal, b"> ")
        os.write(terminal, line.encode() + b"\n")
        self.shows(terminal, f"{wanted}\r\n".encode())

    def is_asked(self, helped, ends, *words):
        """Types lines at a prompt: each is answered, and they are remembered."""
        lines = (("list", "jobs"), ("help", helped), ("quit", ends), ("fetch no", "refused nojob"))
        with self.at_a_terminal(*words) as (command, started, terminal):
            for line, wanted in lines:
                self.types(terminal, line, wanted)
            self.shows(terminal, b"> ")
            os.write(terminal, b"\x04")
            self.equals(command, "the status", 0, started.wait(PATIENCE / 4))
        self.equals("the history", "its lines", [it for it, _ in lines], (self.room / "icserve/history").read_text().split("\n")[: len(lines)])

    def test_at_a_terminal_it_is_told_that_the_server_has_ended(self):
        for sign in (signal.SIGTERM, signal.SIGKILL):
            with self.listening(disk=self.disk(f"{sign}.disk")) as listening:
                with self.at_a_terminal("--socket", listening.path) as (command, started, terminal):
                    self.types(terminal, "list", "jobs")
                    listening.end(sign)
                    self.types(terminal, "list", "icserve-send: the server has ended, and a line has no answer: `list` and `fetch` tell what was done")
                    self.equals(command, "the status", 1, started.wait(PATIENCE / 4))

    def test_a_server_of_ones_own_is_asked_over_a_disk(self):
        disk, env = self.disk("own.disk"), {**os.environ, "ICSERVE": PROGRAM}
        how = {"program": TOP / "send", "env": env}
        self.ended(run("--disk", disk, f"submit two {TWO.text}", "run 10", " ", "fetch two", **how), ["accepted", "ran 2", "two done 2 <S(S(Z))|>"])
        self.ended(run("--disk", disk, given=b"list\n\nlist", **how), ["jobs two:done:2"] * 2)
        faulty = run("--disk", disk, f"submit no @{self.room}/none.ic", "run 2000", **how)
        told = b"line 2, column 5: bad limit: a run makes at most 1000 rounds\n"
        self.equals(faulty.command, "status, answer, and what is told last", (1, b"bad limit\n", told), (faulty.status, faulty.out, (faulty.err + faulty.after)[-len(told) :]))
        with self.listening(disk=disk):
            self.ended(run("--disk", disk, "list", **how), b"", b"icserve: locked\n", status=6)


class Ssh(Hosts, Listens):
    seconds = 10

    def test_a_client_of_another_host_speaks_through_a_socket_of_ssh(self):
        """The host is a server of ssh on a port of its own. Its clients and one here have one table, and ssh's end harms neither."""
        found = self.wants("sshd", "ssh", "ssh-keygen")
        self.ssh_host(found, "there")
        with self.listening() as one:
            far = self.room / "far"
            handed = [found["ssh"], "-F", self.room / "ssh_config", "-N", "-o", "ExitOnForwardFailure=yes", "-L", f"{far}:{one.path}", "there"]
            tunnel = self.daemon(*handed)
            end = time.monotonic() + PATIENCE
            while not far.exists() and tunnel.poll() is None and time.monotonic() < end:
                time.sleep(0.02)
            sent = run(TOP / "send", "--socket", far, f"submit two {TWO.text}", "run 1", "list", program=sys.executable)
            self.equals(sent.command, "how it ends", (0, b"accepted\nran 1\njobs two:running:1\n", b""), sent[1:4])
            with Client(far) as there, one.client() as here:
                self.answers(there, "pause two", "ok")
                self.answers(here, "list", "jobs two:paused:1")
                tunnel.kill()
                self.equals("a client of ssh that was killed", "what it is answered", None, there.answer())
                self.answers(here, "resume two", "ok")
            self.ends_well(one)


class Kills(Listens):
    seconds = 60

    def test_200_kills_of_server_or_script_lose_nothing_that_was_answered(self):
        draw, disk, done, answered = self.draws(), self.disk(), 0, 0
        for number in range(200):
            self.free(disk)
            with self.listening(disk=disk) as listening, listening.client() as client:
                found = client.ask("list")
                held = max([int(it.split(":")[0][1:]) for it in found.split()[1:]] or [0])
                self.equals(f"after {number} kills", f"whether job {done} is there, which was accepted", True, held >= done)
                wait = draw.random() * 0.02
                victim = listening.child() if draw.random() < 0.5 else listening.process.pid
                killer = threading.Timer(wait, lambda: os.kill(victim, signal.SIGKILL))
                killer.start()
                done = held
                with contextlib.suppress(ConnectionError):
                    while client.ask(f"submit j{done + 1} {{}} <|>") == "accepted":
                        done, answered = done + 1, answered + 1
                        if client.ask(f"cancel j{done - 1}") not in ("ok", "refused nojob"):
                            break
                killer.join()
        self.equals("200 kills", f"whether many lines were answered: {answered}", True, answered > 400)
