"""A client of a server: one of its own over a disk, or one that others share, at a socket."""

import os
import re
import socket
import subprocess
import threading
import time
from pathlib import Path
from typing import IO, Any, Dict, List, NamedTuple, Optional, Union

from .nets import expand
from .program import Refusal, program, run

PathText = Union[str, "os.PathLike[str]"]

# The most rounds that one line asks for.
MOST_ROUNDS = 1000


class Job(NamedTuple):
    """A job. Its state is `running`, `paused`, `done`, `halted` or `spent`; `text` is its configuration, where it was asked for."""

    name: str
    state: str
    rounds: int
    text: Optional[str] = None


class JobRefused(Exception):
    """A command that the server refuses: `reason` is `taken`, `full`, `nojob`, `notrunning` or `notpaused`."""

    def __init__(self, reason: str, line: str) -> None:
        self.reason = reason
        super().__init__(f"{reason}: {line[:80]}")


class BadLine(Exception):
    """A line that the server can't read: `fault` is such as `bad syntax`. `check` tells of a text where its fault is."""

    def __init__(self, fault: str, line: str) -> None:
        self.fault = fault
        super().__init__(f"{fault}: {line[:80]}")


class ServerEnded(Exception):
    """The server has ended before it answered. What was answered is kept; `list` and `fetch` tell, of a new server, what was done."""


class Server:
    """A server of jobs, used in a `with`. Over a disk it is a process of its own, which nobody else may use meanwhile; the disk is
    made where it is wanting. At a socket it is one that `icserve-listen` runs. `wait` says for how many seconds a disk or a socket
    is waited for: none and 3, if it isn't given.

    >>> import tempfile
    >>> room = tempfile.TemporaryDirectory()
    >>> with Server(room.name + "/jobs.disk") as server:
    ...     server.submit("two", "{Add(x,x)><Z; Add(S(x),y)><S(Add(x,y))} <r|Add(r,S(Z))=S(Z)>")
    ...     server.wait("two")
    Job(name='two', state='done', rounds=2, text='<S(S(Z))|>')
    >>> with Server(room.name + "/jobs.disk") as server:
    ...     server.list()
    ...     server.submit("loop", "{A(B(x))><B(A(x))} <|A(x)=B(x)>", budget=9)
    ...     server.run(4)
    ...     server.pause("loop")
    ...     server.fetch("loop").state
    ...     server.resume("loop")
    ...     server.copy("loop", "other")
    ...     server.cancel("other")
    ...     server.wait("loop")[:3]
    ...     server.ask("list")
    [Job(name='two', state='done', rounds=2, text=None)]
    4
    'paused'
    ('loop', 'spent', 9)
    'jobs two:done:2 loop:spent:9'
    """

    def __init__(
        self, disk: Optional[PathText] = None, *, socket: Optional[PathText] = None, every: int = 100, wait: Optional[int] = None
    ) -> None:
        if (disk is None) == (socket is None):
            raise ValueError("either a disk or a socket is wanted")
        self._lock = threading.Lock()
        self._process: Optional["subprocess.Popen[bytes]"] = None
        if disk is not None:
            self._start(disk, every, wait or 0)
        else:
            self._connect(os.fspath(socket), 3 if wait is None else wait)  # type: ignore[arg-type]

    def _start(self, disk: PathText, every: int, wait: int) -> None:
        if not Path(disk).exists():
            run("create", "--disk", disk).well()
        command = [program(), "serve", "--disk", os.fspath(disk), "--every", str(every)]
        command += ["--wait", str(wait)] if wait else []
        pipes: Dict[str, Any] = {"stdin": subprocess.PIPE, "stdout": subprocess.PIPE, "stderr": subprocess.PIPE}
        self._process = subprocess.Popen(command, start_new_session=True, **pipes)
        self._given: IO[bytes] = self._process.stdin  # type: ignore[assignment]
        self._came: IO[bytes] = self._process.stdout  # type: ignore[assignment]
        self.list()

    def _connect(self, path: str, wait: int) -> None:
        there = socket.socket(socket.AF_UNIX)
        for _ in range(10 * wait):
            # It may have been begun just now.
            try:
                there.connect(path)
                break
            except (FileNotFoundError, ConnectionRefusedError):
                time.sleep(0.1)
        else:
            there.connect(path)
        both: Any = there.makefile("rwb")
        self._given = self._came = both
        there.close()

    def __enter__(self) -> "Server":
        return self

    def __exit__(self, *_: Any) -> None:
        self.close()

    def close(self) -> None:
        """Ends a server of its own, or leaves one that is shared."""
        try:
            self._given.close()
        except OSError:
            pass
        self._came.close()
        if self._process:
            self._process.wait()
            if self._process.stderr:
                self._process.stderr.close()

    def ask(self, line: str) -> str:
        """The answer to a line as it is; it may stand on several lines here. Faults and refusals raise nothing."""
        one = " ".join(line.split("\n")).strip()
        if not one.strip(" \t\r"):
            raise ValueError("a blank line has no answer")
        with self._lock:
            try:
                self._given.write(one.encode() + b"\n")
                self._given.flush()
                answer = self._came.readline()
            except OSError:
                answer = b""
        if not answer.endswith(b"\n") or answer.startswith(b"closed: "):
            self._tell_end(answer)
        return answer.decode().rstrip("\n")

    def _tell_end(self, answer: bytes) -> None:
        told = answer.decode(errors="replace").strip()
        if self._process and self._process.stderr:
            status, told = self._process.wait(), self._process.stderr.read().decode(errors="replace")
            if status > 0:
                raise Refusal(status, told)
        raise ServerEnded(f"{told or 'the server has ended'}; whatever it has answered is kept")

    def _done(self, line: str) -> str:
        answer = self.ask(line)
        if answer.startswith("refused "):
            raise JobRefused(answer[len("refused ") :], line)
        if answer.startswith("bad "):
            raise BadLine(answer, line)
        return answer

    def submit(self, name: str, text: str, budget: Optional[int] = None) -> None:
        """Puts a new job last in the table; with a budget it makes at most so many rounds. A text that begins with `#rich` is
        expanded first."""
        if re.match(r"#rich(\s|\Z)", text):
            text = expand(text)
        self._done(f"submit {name} {f'{budget} ' if budget is not None else ''}{text}")

    def copy(self, old: str, new: str) -> None:
        """Begins a job with the rules and the present configuration of another."""
        self._done(f"copy {old} {new}")

    def pause(self, name: str) -> None:
        self._done(f"pause {name}")

    def resume(self, name: str) -> None:
        self._done(f"resume {name}")

    def cancel(self, name: str) -> None:
        self._done(f"cancel {name}")

    def fetch(self, name: str) -> Job:
        return job_of(self._done(f"fetch {name}"))

    def list(self) -> "List[Job]":
        jobs = [it.split(":") for it in self._done("list").split()[1:]]
        return [Job(name, state, int(rounds)) for name, state, rounds in jobs]

    def run(self, rounds: int) -> int:
        """Makes at most so many rounds of the running jobs, in turn: how many were made."""
        made = 0
        while made < rounds:
            count = min(MOST_ROUNDS, rounds - made)
            ran = int(self._done(f"run {count}").split()[1])
            made += ran
            if ran < count:
                break
        return made

    def wait(self, name: str) -> Job:
        """The job once it doesn't run. A server of its own makes rounds meanwhile."""
        if not self._process:
            return job_of(self._done(f"wait {name}"))
        job = self.fetch(name)
        while job.state == "running":
            self.run(MOST_ROUNDS)
            job = self.fetch(name)
        return job


def job_of(answer: str) -> Job:
    name, state, rounds, text = answer.split(" ", 3)
    return Job(name, state, int(rounds), text)
