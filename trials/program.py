"""How a trial starts the built program, feeds it, stops it and looks at what came. A trial that fails prints the command,
what was wanted and what came."""

import contextlib
import os
import random
import resource
import select
import shlex
import shutil
import signal
import subprocess
import tempfile
import time
import unittest
from pathlib import Path
from typing import NamedTuple

TOP = Path(__file__).resolve().parent.parent

# The program that is tried: the proved one, or that of the variable ICSERVE.
PROGRAM = os.path.abspath(os.environ.get("ICSERVE") or TOP / "crates/icserve/out/icserve")

# What drawn trials begin with: drawn anew for each run, and given again by the variable SEED. The gate gives 1.
SEED = os.environ.setdefault("SEED", str(random.SystemRandom().randrange(10**9)))

# A folder in memory, where there is one: a sync there costs nothing.
IN_MEMORY = "/dev/shm" if os.access("/dev/shm", os.W_OK) else None

# How long a trial waits for the program at most, in seconds. No trial should come near; on a slow machine give more.
PATIENCE = float(os.environ.get("PATIENCE") or 120)


class Ran(NamedTuple):
    """A run of the program that has ended. A signal that ended it is a negative status, as of `subprocess`. What stands on
    standard error after the line of a disk, of a text, of a net or of a standard stream stands by itself."""

    command: str
    status: int
    out: bytes
    err: bytes
    after: bytes = b""


# The lines of standard error after which a line tells of the disk's file.
OF_DISKS = [f"icserve: {it}\n".encode() for it in ("device", "locked", "broken", "no slot", "two alike", "damaged", "not empty", "full")]

# The lines after which a line tells how far a net has come that was reduced in place.
OF_NETS = [b"icserve: overgrown", b"icserve: table full", b"icserve: memory"]


# The line of standard error that a serving without `--explain` has at the first line that is answered by `bad`.
OF_BAD = b"icserve: a line was answered `bad`: serve --explain tells what is wrong in such lines\n"

# What is told after a place in what a rich text is expanded to.
OF_PLAIN = b"the line is the same in the rich text; `icserve expand` writes it as it is told here\n"


def ran_with(command, status, out, err):
    """A run, what it wrote on standard error parted: a line that tells of the disk's file, of a standard stream, of a net,
    of a script, of a line of a batch, of a history or of a line with a fault stands by itself, and so do the
    four lines of a place in a text."""
    if OF_BAD in err:
        ran = ran_with(command, status, out, err.replace(OF_BAD, b"", 1))
        return ran._replace(after=OF_BAD + ran.after)
    line, feed, after = err.partition(b"\n")
    of_disk = (line + feed in OF_DISKS or line.startswith(b"icserve: taken ")) and after.count(b"\n") in (1, 2)
    of_input = line == b"icserve: read" and after.startswith(b"standard input: ") and after.count(b"\n") == 1
    of_output = line == b"icserve: write" and after.startswith(b"standard output: ") and after.count(b"\n") == 1
    of_text = line.startswith(b"icserve: bad ") and after.startswith(b"line ") and after.removesuffix(OF_PLAIN).count(b"\n") == 4
    of_net = line in OF_NETS and after.startswith(b"interactions ") and after.count(b"\n") in (1, 2)
    of_script = line.startswith(b"icserve: script ") and after.count(b"\n") == 1
    of_job = line.startswith(b"icserve: line ") and after.count(b"\n") == 1
    of_history = line == b"icserve: log full" and after.startswith(b"the history holds ") and after.count(b"\n") == 1
    if of_disk or of_text or of_input or of_output or of_net or of_script or of_job or of_history:
        return Ran(command, status, out, line + feed, after)
    return Ran(command, status, out, err)


def as_bytes(text):
    return text.encode() if isinstance(text, str) else bytes(text)


def as_lines(lines):
    """A text of lines, each with its line feed; a text that is given stays as it is."""
    if isinstance(lines, (str, bytes, bytearray)):
        return as_bytes(lines)
    return b"".join(as_bytes(it) + b"\n" for it in lines)


def shown(data, most=1500):
    """Bytes as a failed trial prints them: the ends of what is long, and how long it is."""
    data = as_bytes(data)
    if len(data) <= most:
        return repr(data)[1:]
    return f"{repr(data[:most // 2])[1:]} .. {repr(data[-most // 2:])[1:]} ({len(data)} bytes)"


def said_of(command, given=b""):
    """The command as a failed trial prints it, with what was on its standard input."""
    text = shlex.join([str(it) for it in command])
    return f"{text}\n  given  {shown(given)}" if given else text


def heeds_signals():
    """Has a program that is started heed the signals to end, which a shell in the background has it ignore."""
    for sign in (signal.SIGINT, signal.SIGTERM, signal.SIGHUP):
        signal.signal(sign, signal.SIG_DFL)


def grows_to(most):
    """How the program is started so that its files may have at most so many bytes, which stands for a full device."""

    def limited():
        signal.signal(signal.SIGXFSZ, signal.SIG_IGN)
        resource.setrlimit(resource.RLIMIT_FSIZE, (most, most))

    return {"preexec_fn": limited}


def run(*words, given=b"", program=None, before=(), seconds=PATIENCE, **how):
    """Runs the program with these words on a standard input, and waits until it has ended. `before` is a command that starts
    it, and `how` goes to `Popen`."""
    command = [*before, program or PROGRAM, *map(str, words)]
    given = as_lines(given)
    pipes = {"stdin": subprocess.PIPE, "stdout": subprocess.PIPE, "stderr": subprocess.PIPE}
    with subprocess.Popen(command, **{**pipes, **how}) as started:
        try:
            out, err = started.communicate(given if started.stdin else None, timeout=seconds)
        except subprocess.TimeoutExpired:
            started.kill()
            out, err = started.communicate()
            err = (err or b"") + f"\n(the trial stopped it after {seconds} seconds)".encode()
    return ran_with(said_of(command, given), started.returncode, out or b"", err or b"")


class Server:
    """A server that runs, over pipes. Used in a `with`, which kills what still runs at its end."""

    def __init__(self, disk, *words, program=None, before=(), **how):
        self.command = [*before, program or PROGRAM, "serve", "--disk", str(disk), *map(str, words)]
        pipes = {"stdin": subprocess.PIPE, "stdout": subprocess.PIPE, "stderr": subprocess.PIPE}
        self.process = subprocess.Popen(self.command, bufsize=0, **{**pipes, **how})
        self.given = bytearray()
        self.came = bytearray()
        self.taken = 0

    def __enter__(self):
        return self

    def __exit__(self, *_):
        if self.process.poll() is None:
            self.process.kill()
        for pipe in (self.process.stdin, self.process.stdout, self.process.stderr):
            if pipe and not pipe.closed:
                pipe.close()
        self.process.wait()

    def send(self, lines):
        """Writes lines, and waits until the program has room for them or has ended."""
        text = as_lines([lines] if isinstance(lines, (str, bytes)) else lines)
        self.given += text
        with contextlib.suppress(BrokenPipeError):
            self.process.stdin.write(text)

    def answer(self, seconds=PATIENCE / 4):
        """The next line that the program answers, without its line feed; None where it ends or is silent before."""
        end = time.monotonic() + seconds
        while b"\n" not in self.came[self.taken :]:
            left = end - time.monotonic()
            if left <= 0 or not select.select([self.process.stdout], [], [], left)[0]:
                return None
            more = os.read(self.process.stdout.fileno(), 65536)
            if not more:
                return None
            self.came += more
        at = self.came.index(b"\n", self.taken)
        line, self.taken = bytes(self.came[self.taken : at]), at + 1
        return line.decode()

    def ask(self, line):
        self.send(line)
        return self.answer()

    def threads(self):
        """The numbers of the program's threads. A trial that asks for them is skipped where the system has no /proc."""
        tasks = Path(f"/proc/{self.process.pid}/task")
        if not tasks.is_dir():
            raise unittest.SkipTest(f"there is no {tasks}, which tells the threads of a program")
        return sorted(int(it.name) for it in tasks.iterdir())

    def said(self):
        """The command as a failed trial prints it, with what was given so far."""
        return said_of(self.command, self.given)

    def end(self, seconds=PATIENCE):
        """Closes the program's standard input, and waits until it has ended: the whole of what it wrote."""
        if not self.process.stdin.closed:
            self.process.stdin.close()
        return self.gather(seconds)

    def stop(self, sign=signal.SIGKILL, seconds=PATIENCE):
        """Sends a signal, and waits until the program has ended."""
        self.process.send_signal(sign)
        return self.gather(seconds)

    def gather(self, seconds=PATIENCE):
        self.process.stdin = None
        try:
            out, err = self.process.communicate(timeout=seconds)
        except subprocess.TimeoutExpired:
            self.process.kill()
            out, err = self.process.communicate()
            err += f"\n(the trial stopped it after {seconds} seconds)".encode()
        self.came += out
        return ran_with(said_of(self.command, self.given), self.process.returncode, bytes(self.came), err)


class Trial(unittest.TestCase):
    """A trial with a folder of its own, `self.room`, which is deleted after it."""

    # About how many seconds a trial takes: those that take longest are begun first.
    seconds = 1

    # Whether it tries the built program: others can run before that is there.
    needs_program = True

    # The folder in which its folder is made: None is the system's for temporary files.
    rooms = None

    def setUp(self):
        self.room = Path(tempfile.mkdtemp(prefix="trial-", dir=self.rooms))
        self.addCleanup(shutil.rmtree, self.room, ignore_errors=True)

    @contextlib.contextmanager
    def device(self, size):
        """A device in memory of so many bytes, which is taken away at the end. A trial that asks for it is skipped where none can
        be had."""
        if os.geteuid() or not shutil.which("mount"):
            self.skipTest("a device in memory takes root and mount")
        folder = self.room / "device"
        folder.mkdir()
        made = subprocess.run(["mount", "-t", "tmpfs", "-o", f"size={size}", "tmpfs", folder], stderr=subprocess.PIPE)
        if made.returncode:
            self.skipTest(f"no device in memory can be had: {made.stderr.decode(errors='replace')}")
        try:
            yield folder
        finally:
            subprocess.run(["umount", folder], check=True)

    def draws(self, about=""):
        """The numbers that this trial draws from, which the seed fixes."""
        self.drawn = f"drawn with SEED={SEED}"
        return random.Random(f"{SEED} {self.id()} {about}")

    def told(self, command, what, wanted, came):
        """Fails, and says of a command what was wanted of it and what came."""
        drawn = f"\n  {self.drawn}" if hasattr(self, "drawn") else ""
        self.fail(f"\n  tried  {command}\n  {what}\n  wanted {wanted}\n  came   {came}{drawn}")

    def equals(self, command, what, wanted, came):
        """Fails where something else came than was wanted."""
        if wanted != came:
            self.told(command, what, *(it if len(it) < 1500 else f"{it[:1500]} .." for it in (repr(wanted), repr(came))))

    def agrees(self, command, what, wanted, came):
        """Fails where other bytes came than were wanted."""
        wanted, came = as_bytes(wanted), as_bytes(came)
        if wanted == came:
            return
        at = next((i for i, (a, b) in enumerate(zip(wanted, came)) if a != b), min(len(wanted), len(came)))
        if max(len(wanted), len(came)) > 1500:
            what += f", from byte {at} on (line {wanted[:at].count(10) + 1})"
            wanted, came = wanted[max(0, at - 200) : at + 700], came[max(0, at - 200) : at + 700]
        self.told(command, what, shown(wanted), shown(came))

    def holds(self, path, data):
        """Fails unless the file holds just these bytes."""
        self.agrees(path, "the bytes of the file", data, path.read_bytes())

    def ended(self, ran, out=b"", err=b"", status=0):
        """Fails unless a run ended so: with this standard output and error, and this status. Hands the run on."""
        if ran.status != status:
            self.told(ran.command, f"status; it said {shown(ran.err)}", status, f"{ran.status}, out {shown(ran.out)}")
        self.agrees(ran.command, "standard output", as_lines(out), ran.out)
        self.agrees(ran.command, "standard error", as_lines(err), ran.err)
        return ran

    def runs(self, *words, given=b"", out=b"", err=b"", status=0, **how):
        """Runs the program, and fails unless it ends so. Lines may be given as lists."""
        return self.ended(run(*words, given=given, **how), out, err, status)

    def refuses(self, *words, line, status, given=b"", out=b"", **how):
        """Fails unless the program ends with this status and the line `icserve: LINE` on standard error."""
        return self.runs(*words, given=given, out=out, err=[f"icserve: {line}"], status=status, **how)

    def disk(self, name="jobs.disk"):
        """The path of a new disk, as `create` makes it."""
        path = self.room / name
        self.runs("create", "--disk", path)
        return path

    def serves(self, disk, lines, answers, *words, **how):
        """Fails unless the lines are served over the disk with these answers and no fault."""
        return self.runs("serve", "--disk", disk, *words, given=lines, out=answers, **how)

    def answers(self, server, line, answer):
        """Fails unless a server that runs answers the line so."""
        came = server.ask(line)
        self.equals(server.said(), f"the answer to {line}", answer, came)

    def ends(self, server):
        """Ends the input of a server that runs, and fails unless it ends well."""
        ran = server.end()
        self.equals(ran.command, "status and standard error", (0, b""), (ran.status, ran.err))
        return ran

    def without_rights(self):
        """How the program is started so that it may not read and write all files: root may, so as root it runs as nobody."""
        if os.geteuid():
            return {}
        # Programs in a folder in memory may not be started everywhere.
        room = tempfile.mkdtemp(prefix="trial-")
        self.addCleanup(shutil.rmtree, room, ignore_errors=True)
        program = shutil.copy(PROGRAM, room)
        for it in (room, self.room):
            os.chmod(it, 0o711)
        os.chmod(program, 0o755)
        how = {"program": program, "preexec_fn": lambda: os.setuid(65534)}
        try:
            run("--version", **how)
        except (OSError, subprocess.SubprocessError) as fault:
            self.skipTest(f"root may do all, and nobody can't start the program here: {fault}")
        return how

    def asks(self, disk, lines):
        """The answers of a new server on the disk, which must end well."""
        ran = run("serve", "--disk", disk, given=lines)
        if ran.status or ran.err:
            self.told(ran.command, "how it ended", "status 0", f"status {ran.status}, {shown(ran.err)}")
        return ran.out.decode().splitlines()
