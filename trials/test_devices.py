"""A disk is never in a block device, whatever it holds: it is neither written nor read. And which files are opened before the
disk's: none, but what stands in the place of a standard stream that is closed."""

import contextlib
import os
import resource
import shutil
import subprocess

from disks import EMPTY, disk_of, put, slot
from known import TWO
from program import PROGRAM, Trial, run
from shim import shimmed, was_refused

WORDS = [["create"], ["create", "--overwrite"], ["serve"], ["attend"], ["dump"], ["inspect"]]

# Each word with the option that names its file, and what it is given.
GIVEN = [([*it, "--disk"], ["list", f"submit two {TWO.text}"]) for it in WORDS]
GIVEN += [(["reduce", it], "{A><B} <|A=B>") for it in ("--keep", "--resume")]

STAND_IN = "/dev/null, in the place of a closed standard stream"


def opens_few(most):
    """How the program is started so that it may have at most so many files open, the three standard streams among them."""
    return {"preexec_fn": lambda: resource.setrlimit(resource.RLIMIT_NOFILE, (most, most))}


class Devices(Trial):
    def is_left(self, path, data, env=None):
        """Fails unless each word refuses what looks as a device, and leaves it as it is. The file of a device is `path`."""
        for words, given in GIVEN:
            ran = run(*words, path, given=given, env=env)
            told = (ran.status, ran.out, ran.err.decode(), ran.after.decode())
            wanted = (3, b"", "icserve: device\n", f"{path}: open: is a device\n")
            self.equals(ran.command, "how it ends", wanted, told)
            with open(path, "rb") as file:
                self.agrees(ran.command, "what the device holds", data, file.read())

    @contextlib.contextmanager
    def loop(self, data):
        """A block device that holds these bytes, which is taken away at the end. A trial that asks for it is skipped where none
        can be made."""
        if os.geteuid() or not shutil.which("losetup"):
            self.skipTest("a loop device takes root and losetup")
        path = self.room / "behind the device"
        path.write_bytes(data)
        made = subprocess.run(["losetup", "--find", "--show", path], stdout=subprocess.PIPE, stderr=subprocess.PIPE)
        if made.returncode:
            self.skipTest(f"no loop device can be made: {made.stderr.decode(errors='replace')}")
        device = made.stdout.decode().strip()
        try:
            yield device
        finally:
            subprocess.run(["losetup", "--detach", device], check=True)

    def test_a_block_device_is_neither_written_nor_read(self):
        """A loop device, with bytes of something else, with zeros, and with a disk in it."""
        for data in (bytes(range(256)) * 32_768, bytes(2**23), disk_of(slot(1, EMPTY)).ljust(2**23, b"\0")):
            with self.loop(data) as device:
                self.is_left(device, data)

    def test_what_looks_as_a_block_device_is_neither_written_nor_read(self):
        """The shim has a plain file look so: by its path, once it is open, as if it had taken the place of another file
        meanwhile, or both."""
        path = self.room / "device"
        for data in (b"", bytes(range(256)) * 100, disk_of(slot(1, EMPTY))):
            path.write_bytes(data)
            for when in ("looked", "opened", "always"):
                self.is_left(path, data, {**shimmed(), "SHIM_DEVICE": f"{when} {path}"})
        self.serves(path, "list", ["jobs"], env=shimmed())


# Where it isn't said how many threads there may be, the number of processors is looked for in files of the system.
ALONE = {"serve": ("--workers", "1")}


class Standing(Trial):
    def closed(self, closing, *words, **how):
        """Runs the program with a standard stream closed, as a shell says it: `<&-`."""
        return run("-c", f'exec "$0" "$@" {closing}', PROGRAM, *words, program="/bin/sh", **how)

    def test_two_more_files_than_the_standard_streams_are_enough(self):
        path = self.room / "jobs.disk"
        how = opens_few(5)
        self.runs("create", "--disk", path, **how)
        self.runs("serve", "--disk", path, given=["list"], out=["jobs"], **how)
        self.runs("attend", "--disk", path, **how)
        self.runs("dump", "--disk", path, **how)
        ran = run("inspect", "--disk", path, **how)
        self.equals(ran.command, "how it ends", (0, b""), (ran.status, ran.err))

    def test_with_one_file_less_create_alone_is_refused_and_makes_none(self):
        """It has the folder open meanwhile."""
        path, new = self.disk(), self.room / "new"
        self.runs("serve", "--disk", path, given=["list"], out=["jobs"], **opens_few(4))
        ran = run("create", "--disk", new, **opens_few(4))
        told = (ran.status, ran.err.decode(), ran.after.decode(), new.exists())
        wanted = (3, "icserve: device\n", f"{new}: open: too many files are open in this process\n", False)
        self.equals(ran.command, "how it ends", wanted, told)

    def test_the_first_file_that_is_opened_is_the_disks(self):
        """Where no standard stream is closed. `create` opens its folder first."""
        path, log = self.disk(), self.room / "log"
        for words, place in (("create", ": its folder"), ("serve", ""), ("attend", ""), ("dump", ""), ("inspect", "")):
            ran = run(words, "--disk", path, *ALONE.get(words, ()), env=shimmed("disk 1 once", log))
            self.equals(ran.command, "whether a call went wrong", True, was_refused(log))
            told = f"{path}{place}: open: input/output error of the device\n"
            self.equals(ran.command, "what is told", (3, told), (ran.status, ran.after.decode()))

    def test_what_stands_for_a_closed_stream_is_named_where_it_cant_be_opened(self):
        path, log = self.disk(), self.room / "log"
        for closing in ("<&-", ">&-"):
            for word in ("create", "serve", "attend", "dump", "inspect"):
                env = shimmed("disk 1 once", log)
                ran = self.closed(closing, word, "--disk", path, *ALONE.get(word, ()), env=env)
                told = f"icserve: device\n{STAND_IN}: open: input/output error of the device\n"
                self.equals(ran.command, "how it ends", (3, b"", told), (ran.status, ran.out, (ran.err + ran.after).decode()))

    def test_a_disk_is_never_opened_in_the_place_of_a_closed_stream(self):
        """Also where two are closed, and all three. What is written there goes nowhere."""
        path = self.room / "jobs.disk"
        for closing in ("<&-", ">&-", "2>&-", "<&- >&-", ">&- 2>&-", "<&- 2>&-", "<&- >&- 2>&-"):
            put(path, slot(1, EMPTY))
            before = path.read_bytes()
            ran = self.closed(closing, "serve", "--disk", path, given=["list", "nothing"])
            self.equals(ran.command, "status", 0 if closing == "2>&-" else 4, ran.status)
            self.holds(path, before)
