#!/usr/bin/env python3
"""Times one server, as docs/speed.md tells it: how many changes it keeps in a second for some clients of `listen`, how long 320 lines
take that come at once, and rounds of several jobs by several threads. Each figure is the median of some turns."""

import argparse
import contextlib
import os
import selectors
import socket
import statistics
import subprocess
import sys
import tempfile
import time
from pathlib import Path

from systems import ADD, growing, loops

IN_MEMORY = "/dev/shm" if os.access("/dev/shm", os.W_OK) else None
LISTEN = Path(__file__).resolve().parent.parent / "listen"
TWO = f"{ADD} <r|Add(r,S(Z))=S(Z)>"

# How many jobs a server has at most, so many names are there for clients.
NAMES = 32

# How much longer a sync takes on a slow disk, in microseconds.
SLOWER = 5_000

# How many lines a client sends at once, and how many clients do, so that each line is a change.
AT_ONCE = 10

# What is made by several threads: jobs, the pairs and the system of each, and its rounds.
LAPS = [(32, f"{it:,}", loops(it), rounds) for it, rounds in ((1_000, 125), (100, 625), (30, 625))]
LAPS += [(32, "1 that grows from 4,000 nodes", growing(4_000), 250), (1, "1", loops(1), 100_000)]


class Client:
    """A client that submits a job and cancels it, in turn. `kept` counts its changes."""

    def __init__(self, path, number):
        self.lines = [f"{it} j{number % NAMES}{more}\n".encode() for it, more in (("submit", f" {TWO}"), ("cancel", ""))]
        self.kept, self.due, self.begun = 0, 0, b""
        self.there = socket.socket(socket.AF_UNIX)
        self.there.connect(path)

    def send(self, count):
        self.there.sendall(b"".join(self.lines[it % 2] for it in range(self.due, self.due + count)))
        self.due += count

    def read(self):
        """Reads answers, and counts those that have come: of changes, and all."""
        data = self.there.recv(65_536)
        if not data:
            raise EOFError("the server has ended")
        *answers, self.begun = (self.begun + data).split(b"\n")
        self.kept += sum(it in (b"accepted", b"ok") for it in answers)
        return len(answers)


class Server:
    """`listen` over a new disk in this folder, with groups of at most so many commands."""

    def __init__(self, program, folder, group, shim=None):
        disk, self.path = f"{folder}/jobs.disk", f"{folder}/socket"
        Path(disk).unlink(missing_ok=True)
        subprocess.run([program, "create", "--disk", disk], check=True)
        slower = {"LD_PRELOAD": os.path.abspath(shim), "SHIM_SYNC": str(SLOWER)} if shim else {}
        command = [sys.executable, LISTEN, "--disk", disk, "--socket", self.path, "--group", str(group)]
        how = {"stdin": subprocess.DEVNULL, "stderr": subprocess.PIPE, "env": {**os.environ, "ICSERVE": program, **slower}}
        self.process = subprocess.Popen(command, **how)
        self.process.stderr.readline()

    def __enter__(self):
        return self

    def __exit__(self, *_):
        self.process.terminate()
        self.process.communicate()

    def asked(self, count):
        return [Client(self.path, number) for number in range(count)]


def heard(clients, each, deadline=None):
    """Has clients send so many lines, and those after them once they are answered, to the deadline; without one, just these."""
    with selectors.DefaultSelector() as selector:
        for client in clients:
            selector.register(client.there, selectors.EVENT_READ, client)
            client.send(each)
        left = each * len(clients)
        while left if deadline is None else time.monotonic() < deadline:
            for key, _ in selector.select(0.1):
                count = key.data.read()
                left -= count
                if deadline is not None:
                    key.data.send(count)


def changes(server, count, seconds):
    """How many changes are kept in a second, of so many clients that each send a line once the one before is answered."""
    clients, began = server.asked(count), time.monotonic()
    heard(clients, 1, began + seconds)
    return sum(it.kept for it in clients) / (time.monotonic() - began)


def burst(server):
    """How many seconds pass until all is answered that clients have sent at once."""
    clients, began = server.asked(NAMES), time.monotonic()
    heard(clients, AT_ONCE)
    took = time.monotonic() - began
    if sum(it.kept for it in clients) != NAMES * AT_ONCE:
        sys.exit("bench: a change was refused")
    return took


def laps(program, folder, workers, jobs, system, rounds):
    """How many seconds a serving takes with its submits."""
    disk = f"{folder}/jobs.disk"
    Path(disk).unlink(missing_ok=True)
    subprocess.run([program, "create", "--disk", disk], check=True)
    lines = [f"submit j{it} {system}" for it in range(jobs)] + ["run 1000"] * (jobs * rounds // 1000)
    command = [program, "serve", "--disk", disk, "--every", "1000000", "--workers", str(workers)]
    began = time.monotonic()
    subprocess.run(command, input="\n".join(lines) + "\n", stdout=subprocess.DEVNULL, check=True, text=True)
    return time.monotonic() - began


def row(*cells):
    print(f"| {' | '.join(str(it) for it in cells)} |", flush=True)


def head(*cells):
    row(*cells)
    row(*["---"] * len(cells))


def of_clients(options, disks):
    """Changes in a second, and lines that come at once."""
    head("disk", "clients", *(f"`--group {it}`" for it in options.groups))
    for name, folder, shim in disks:
        for count in options.clients:
            found = [median_of(options, folder, group, shim, lambda it: changes(it, count, options.seconds)) for group in options.groups]
            row(name, f"{count}: changes in a second", *(f"{it:,.0f}" for it in found))
        found = [median_of(options, folder, group, shim, burst) for group in options.groups]
        row(name, f"{NAMES}: seconds of {NAMES * AT_ONCE} lines at once", *(f"{it:.3f}" for it in found))


def median_of(options, folder, group, shim, measured):
    """The median of some turns, each by a server of its own."""
    found = []
    for _ in range(options.turns):
        with Server(options.program, folder, group, shim) as server:
            found.append(measured(server))
    return statistics.median(found)


def of_laps(options, folder):
    """Milliseconds of servings."""
    head("jobs, pairs of each, rounds of each", *(f"{it} workers" for it in options.workers))
    for jobs, pairs, system, rounds in LAPS:
        rounds = max(1000 // jobs, int(rounds * options.size))
        found = [statistics.median(laps(options.program, folder, it, jobs, system, rounds) for _ in range(options.turns)) for it in options.workers]
        row(f"{jobs}, {pairs}, {rounds:,}", *(f"{1000 * it:,.0f}" for it in found))


def main():
    parser = argparse.ArgumentParser(prog="bench/clients.py", description=__doc__)
    parser.add_argument("program", help="the path of the program")
    parser.add_argument("--shim", metavar="P", help="trials/shim.c, compiled into P: a disk whose syncs take 5 ms more is measured too")
    parser.add_argument("--turns", type=int, default=3, help="the median is of so many (3 if not said)")
    parser.add_argument("--seconds", type=float, default=2, help="how long clients send lines in each (2 if not said)")
    parser.add_argument("--clients", type=int, nargs="+", default=[1, 8, 64], help="how many clients there are (1 8 64)")
    parser.add_argument("--groups", type=int, nargs="+", default=[1, 64], help="the groups that are compared (1 64)")
    parser.add_argument("--workers", type=int, nargs="+", default=[1, 2, 4], help="the threads that are compared (1 2 4)")
    parser.add_argument("--size", type=float, default=1, help="makes this part of the rounds (1 if not said)")
    options = parser.parse_args()
    options.program = os.path.abspath(options.program)
    with tempfile.TemporaryDirectory(dir=IN_MEMORY) as memory, tempfile.TemporaryDirectory(dir=".", prefix="clients-") as here:
        disks = [("in memory", memory, None), ("on this disk", os.path.relpath(here), None)]
        if options.shim:
            disks.insert(1, ("in memory, syncs of 5 ms more", memory, options.shim))
        of_clients(options, disks)
        print()
        of_laps(options, memory)


if __name__ == "__main__":
    with contextlib.suppress(KeyboardInterrupt):
        main()
