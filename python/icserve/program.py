"""Where the program is, and how it is run."""

import contextlib
import os
import shutil
import signal
import subprocess
from pathlib import Path
from typing import Any, Dict, List, NamedTuple, Optional, Sequence, Union

HERE = Path(__file__).resolve()

# The clone in which this file is, if it is in one, and the folder into which a release or an install has put it, with its programs.
CLONE = HERE.parents[2]
PREFIX = HERE.parents[4] if len(HERE.parents) > 4 else HERE.parent


class Refusal(Exception):
    """What the program refuses: `name` is what stands after `icserve: ` on the first line that it tells, `told` the lines after it,
    and `status` its exit status."""

    def __init__(self, status: int, lines: str) -> None:
        # Figures may stand before it, as an object of JSON.
        first, _, self.told = "\n".join(it for it in lines.strip().split("\n") if not it.startswith("{")).partition("\n")
        self.name = first[len("icserve: ") :] if first.startswith("icserve: ") else first
        self.status = status
        super().__init__(f"{self.name}\n{self.told}" if self.told else self.name)


class Ran(NamedTuple):
    """A run of the program that has ended."""

    status: int
    out: str
    err: str

    def well(self, *statuses: int) -> "Ran":
        """The run, if its status is 0 or one of these."""
        if self.status and self.status not in statuses:
            raise Refusal(self.status, self.err)
        return self


def found(name: str, variable: str, beside: str) -> str:
    """The path of a program: what a variable names, what is on the path, or what stands in the clone or beside this package."""
    path: Optional[str] = os.environ.get(variable) or shutil.which(name)
    for it in (CLONE / beside, PREFIX / "bin" / name):
        if not path and os.access(it, os.X_OK) and it.is_file():
            path = str(it)
    if not path:
        raise FileNotFoundError(f"{name} is not on the path; set the variable {variable} to where it is")
    return path


def program() -> str:
    return found("icserve", "ICSERVE", "icserve")


def run(
    *words: Union[str, int, "os.PathLike[str]"], given: str = "", command: Sequence[str] = (), seconds: Optional[float] = None
) -> Ran:
    """Runs the program on a text. It reads and writes ASCII alone. What it began ends with it where its seconds are over."""
    line: List[str] = [*(command or [program()]), *(str(it) for it in words)]
    pipes: Dict[str, Any] = {"stdin": subprocess.PIPE, "stdout": subprocess.PIPE, "stderr": subprocess.PIPE}
    env = {**os.environ, "ICSERVE": program()} if command else None
    with subprocess.Popen(line, env=env, start_new_session=seconds is not None, **pipes) as ran:
        try:
            out, err = ran.communicate(given.encode(), timeout=seconds)
        except BaseException:
            end(ran, seconds is not None)
            raise
    return Ran(ran.returncode, out.decode(errors="replace"), err.decode(errors="replace"))


def end(ran: "subprocess.Popen[bytes]", is_leader: bool) -> None:
    """Ends a run, and what it has begun where it leads a session."""
    if is_leader:
        with contextlib.suppress(ProcessLookupError):
            os.killpg(ran.pid, signal.SIGKILL)
    ran.kill()
