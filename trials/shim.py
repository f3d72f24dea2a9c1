"""The shim between the program and the C library (shim.c): it refuses one call of the program, or records its calls. Where
there is none, strace records them."""

import atexit
import os
import re
import shutil
import subprocess
import tempfile
import unittest
from pathlib import Path
from typing import NamedTuple

from program import PROGRAM

SOURCE = Path(__file__).resolve().parent / "shim.c"


class Noted(NamedTuple):
    """What was recorded of one call: what it was (shim.c lists the letters), where, how long, and the bytes of a write."""

    kind: str
    at: int
    length: int
    data: bytes


def build():
    """Builds the shim where there is a C compiler, and says where it is or why there is none."""
    compiler = next(filter(None, map(shutil.which, ("cc", "gcc", "clang"))), None)
    if not compiler:
        return None, "no C compiler (cc, gcc or clang) is on the path"
    room = tempfile.mkdtemp(prefix="trial-shim-")
    atexit.register(shutil.rmtree, room, ignore_errors=True)
    command = [compiler, "-O1", "-shared", "-fPIC", "-o", f"{room}/shim.so", str(SOURCE), "-ldl", "-lpthread"]
    made = subprocess.run(command, stderr=subprocess.PIPE)
    # The program has to hear of it: a program without dynamic linking, or another C library, doesn't.
    if made.returncode:
        return None, f"{compiler} doesn't build trials/shim.c: {made.stderr.decode(errors='replace')[-300:]}"
    log = Path(room) / "log"
    how = {"LD_PRELOAD": f"{room}/shim.so", "SHIM": "growth 1 on", "SHIM_LOG": str(log)}
    subprocess.run([PROGRAM, "--version"], env={**os.environ, **how}, stdout=subprocess.DEVNULL, stderr=subprocess.DEVNULL)
    if not log.exists() or not noted(log):
        return None, "the program doesn't load trials/shim.c by LD_PRELOAD"
    return f"{room}/shim.so", None


def prepare():
    """Builds the shim once for all processes that this one starts."""
    if "SHIM_AT" not in os.environ and "SHIM_MISSING" not in os.environ:
        path, why = build()
        os.environ.update({"SHIM_AT": path} if path else {"SHIM_MISSING": why})


def shimmed(refused="", log=None):
    """The environment in which a call goes wrong, as `growth 7 once`, or calls are recorded. A trial that asks for it is
    skipped where there is no shim."""
    prepare()
    if "SHIM_AT" not in os.environ:
        raise unittest.SkipTest(os.environ["SHIM_MISSING"])
    how = {"LD_PRELOAD": os.environ["SHIM_AT"]}
    if refused:
        how["SHIM"] = refused
    if log:
        Path(log).unlink(missing_ok=True)
        how["SHIM_LOG"] = str(log)
    return {**os.environ, **how}


def recording(log):
    """How the program is started so that what it does with files is recorded: by the shim, or else by strace. A trial that
    asks for it is skipped where neither is there."""
    prepare()
    return {"env": shimmed(log=log)} if "SHIM_AT" in os.environ else recording_by_strace(log)


def recording_by_strace(log):
    calls = "trace=openat,open,lseek,read,write,fsync,fdatasync,ftruncate"
    tracing = ["strace", "-f", "-xx", "-s", "100000000", "-e", calls, "-e", "signal=none", "-o", str(log)]
    if not shutil.which("strace") or subprocess.run([*tracing, "true"], stderr=subprocess.DEVNULL).returncode:
        why = os.environ.get("SHIM_MISSING", "nothing is recorded")
        raise unittest.SkipTest(f"{why}, and there is no strace that may trace")
    return {"before": tracing}


def noted(log):
    """What the shim, or strace, has recorded, in order."""
    data = Path(log).read_bytes()
    return list(noted_by_strace(whole_calls(data.decode())) if re.match(rb"\d+ +\w+\(", data) else noted_by_shim(data))


def noted_by_shim(data):
    at = 0
    while at < len(data):
        end = data.index(b"\n", at)
        kind, where, length = data[at:end].decode().split()
        at = end + 1
        size = int(length) if kind in "WO" else 0
        yield Noted(kind, int(where), int(length), data[at : at + size])
        at += size


def whole_calls(text):
    """The calls that strace tells, thread by thread: one that was interrupted by another thread's stands in two lines."""
    begun = {}
    for line in text.splitlines():
        thread, _, call = line.partition(" ")
        call = call.strip()
        if call.endswith("<unfinished ...>"):
            begun[thread] = call[: -len("<unfinished ...>")]
        elif call.startswith("<... "):
            yield begun.pop(thread, "") + call.partition(" resumed>")[2]
        else:
            yield call


def noted_by_strace(calls):
    """Where a write goes is told by the calls before it on its file."""
    places = {}
    for told in (re.match(r"(\w+)\((.*)\) += (-?\d+)", call) for call in calls):
        if not told:
            continue
        name, words, answer = told.groups()
        first, count = words.split(",")[0], int(answer)
        if count < 0:
            continue
        if name in ("open", "openat"):
            places[str(answer)] = 0
        elif name == "lseek":
            places[first] = count
        elif name in ("fsync", "fdatasync"):
            yield Noted("S", 0, 0, b"")
        elif name == "ftruncate":
            yield Noted("T", int(words.split(",")[1]), 0, b"")
        elif name in ("read", "write"):
            if name == "write" and first != "2":
                data = bytes.fromhex(words.split('"')[1].replace("\\x", ""))[:count]
                yield Noted("O", 0, count, data) if first == "1" else Noted("W", places.get(first, 0), count, data)
            places[first] = places.get(first, 0) + count


def was_refused(log):
    """Whether the call that was to go wrong was made."""
    return Path(log).exists() and any(it.kind == "E" for it in noted(log))
