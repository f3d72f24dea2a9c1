"""`inspect`: what a disk's file holds, with nothing changed and without a server's lock."""

import json
import os
import re

import model
import nets
import model_disk
from against_model import ModelTrial
from disks import EMPTY, HEAD, OLD_EMPTY, SECOND, disk_of, put, slot
from known import LOOP, TWO
from model_disk import MAX_BODY, SECOND_SLOT, decode
from program import Server, grows_to, run
from shim import noted, shimmed, was_refused
from test_drawn_disks import form_of, table, unsound
from test_drawn_serving import job_names, session, small_systems

# How much of a file is looked at.
LIMIT = 2 * SECOND_SLOT
WORN = 2**64 - 1


CAUSES = {"overgrown": ", next round overgrown", "names out": ", next round out of names"}


def cause(job):
    """Why no further round of a halted job can be made; nothing where one can, as on a disk that no server has written."""
    if job.rounds == model.MAX_ROUNDS:
        return ", out of rounds"
    try:
        model.round_of(job.rules, job.config)
    except model.Refusal as refusal:
        return CAUSES[str(refusal)]
    return ""


def stuck(job):
    """The first equation of two agents of a job, as it is told."""
    pairs = ([job.rules.symbols[~node[0]][0] for node in it] for it in job.config.equations if max(it[0][0], it[1][0]) < 0)
    return next((f", stuck {left}><{right}" for left, right in pairs), "")


def circle(job):
    """Where the first circle of a job is closed, as it is told."""
    texts = [[tuple(node if node >= 0 else (job.rules.symbols[~node][0],) for node in side) for side in it] for it in job.config.equations]
    symbol = nets.circle_in(texts)
    return f", circle at {symbol}" if symbol else ""


def job_line(job):
    """The line of a job of the newest table."""
    pairs = sum(job.rules.find(*it) is not None for it in job.config.equations)
    why = cause(job) if job.state == "halted" else stuck(job) + circle(job) if job.state == "done" else ""
    return f"{job.name}: {job.state}, rounds {job.rounds}, nodes {model.nodes_of(job.config)}, active pairs {pairs}{why}"


def looked_at(data, at):
    """What is told of a slot, its number where it is open, and its table."""
    head = data[at : at + HEAD]
    if len(head) < HEAD:
        return "cut off", None, None
    number, size = int.from_bytes(head[1:9], "big"), int.from_bytes(head[9:], "big")
    body = bytes(data[at + HEAD : at + HEAD + size]) if size <= MAX_BODY else b""
    jobs = decode(body) if len(body) == size else None
    what = "too long" if size > MAX_BODY else "cut short" if len(body) < size else "a table" if jobs else "no table"
    gate = "open" if head[0] == 1 else "closed"
    return f"{gate}, number {number}, body {size}, {what}", number if head[0] == 1 else None, jobs


def held(slots):
    """The lines of what is held."""
    numbers = [number for _, number, _ in slots if number is not None]
    if not numbers:
        return ["held: no slot"]
    if len(numbers) == 2 and numbers[0] == numbers[1]:
        return ["held: two alike"]
    place = next(it for it in (0, 1) if slots[it][1] == max(numbers))
    jobs = slots[place][2]
    return [f"held: slot {place + 1}", *map(job_line, jobs.jobs)] if jobs else ["held: damaged"]


def report(data):
    """The lines that tell what a file with these bytes holds."""
    data = data[:LIMIT]
    slots = looked_at(data, 0), looked_at(data, SECOND)
    return [*(f"slot {place}: {text}" for place, (text, _, _) in enumerate(slots, 1)), *held(slots)]


# The lines that tell what a file holds, with the fields of their objects.
SLOT = re.compile(r"slot (?P<slot>[12]): (?:(?P<cut>cut off)|(?P<state>open|closed), number (?P<number>\d+), body (?P<size>\d+), (?P<body>.*))")
JOB = re.compile(r"(?P<job>\S+): (?P<state>\w+), rounds (?P<rounds>\d+), nodes (?P<nodes>\d+), active pairs (?P<active_pairs>\d+)(?:(?:, stuck (?P<stuck>\S+))?(?:, circle at (?P<circle>\S+))?|, (?P<halt>.*))")


def fields_of(line):
    """The fields of the object of a line."""
    if line.startswith("held: "):
        return [("held", line.removeprefix("held: "))]
    found = (SLOT.fullmatch(line) or JOB.fullmatch(line)).groupdict()
    if found.get("cut"):
        return [("slot", int(found["slot"])), ("state", "cut off")]
    numbers = ("slot", "number", "size", "rounds", "nodes", "active_pairs")
    return [(name, int(it) if name in numbers else it) for name, it in found.items() if name != "cut" and it is not None]


class Inspect(ModelTrial):
    seconds = 6

    def tells(self, lines):
        """Fails unless the file is told in these lines, and stays as it is."""
        before = self.path.read_bytes(), self.path.stat().st_mtime_ns
        self.runs("inspect", "--disk", self.path, out=lines)
        ran = run("inspect", "--disk", self.path, "--format", "json")
        objects = [json.loads(it, object_pairs_hook=list) for it in ran.out.decode().split("\n")[:-1]]
        self.equals(ran.command, "status and standard error", (0, b""), (ran.status, ran.err))
        self.equals(ran.command, "the objects", [fields_of(it) for it in lines], objects)
        after = self.path.read_bytes(), self.path.stat().st_mtime_ns
        self.equals("inspect", "whether the file stayed as it was", True, before == after)

    def isnt_read(self, path, cause, **how):
        """Fails unless the file of this path is refused, with `device` and this cause."""
        ran = self.refuses("inspect", "--disk", path, line="device", status=3, **how)
        self.equals(ran.command, "the cause", f"{path}: {cause}\n", ran.after.decode())

    def test_disks_by_hand(self):
        self.runs("create", "--disk", self.path)
        begun = ["slot 1: open, number 1, body 5, a table", "slot 2: closed, number 0, body 0, no table"]
        self.tells([*begun, "held: slot 1"])
        self.serves(self.path, [f"submit two 7 {TWO.text}", "run 1"], ["accepted", "ran 1"])
        slots = ["slot 1: open, number 3, body 134, a table", "slot 2: open, number 2, body 134, a table"]
        self.tells([*slots, "held: slot 1", "two: running, rounds 1, nodes 7, active pairs 1"])
        lines = [f"submit loop {LOOP.text}", "pause loop", "submit still {} <y,y|x=x>"]
        self.serves(self.path, lines, ["accepted", "ok", "accepted"])
        ran = run("inspect", "--disk", self.path)
        self.equals(
            ran.command,
            "what is held",
            [
                "held: slot 2",
                "two: running, rounds 1, nodes 7, active pairs 1",
                "loop: paused, rounds 0, nodes 4, active pairs 1",
                "still: done, rounds 0, nodes 4, active pairs 0, circle at x=x",
            ],
            ran.out.decode().splitlines()[2:],
        )

    def test_done_jobs_are_told_with_the_first_pair_that_is_stuck(self):
        """Jobs that are done with a pair without a rule: one from the start, and one after rounds, after a free name. Of one that
        is done without such a pair, and of those that aren't done, no pair is told."""
        self.runs("create", "--disk", self.path)
        lines = ["submit a {} <r|s=Z,B(x)=C(D),A=E>", "submit b {A><B(E)} <|x=A,A=B(F)>", "submit c {} <A,r|r=B(C)>"]
        lines += [f"submit {name} {LOOP.text[:-1]},C=D>" for name in ("d", "e 1")] + ["pause d"]
        self.serves(self.path, [*lines, "run 3"], ["accepted"] * 5 + ["ok", "ran 3"])
        data = self.path.read_bytes()
        told = report(data)
        self.equals("trials/test_inspect.py", "pairs by hand", ["B><C", "F><E", "", "", ""], [it.partition(", stuck ")[2] for it in told[3:]])
        self.tells(told)

    def test_halted_jobs_are_told_with_their_cause(self):
        """A job of 8,191 nodes whose next round has one too many; one whose names are used up, and one whose rounds are; and a
        job that was put to be halted though it isn't, on a disk that no server has written."""
        self.runs("create", "--disk", self.path)
        over = "submit o {A><B(C(C(D)))} <|A=B(P)," + "C(" * 8187 + "D" + ")" * 8187 + "=Q>"
        self.serves(self.path, [over, "run 1"], ["accepted", "ran 1"])
        ran = run("inspect", "--disk", self.path)
        self.equals(ran.command, "the job", "o: halted, rounds 0, nodes 8192, active pairs 1, next round overgrown", ran.out.decode().splitlines()[3])
        rules, config = model.read_system(b"{A(x)><B(x)} <|A(P)=B(Q)>")
        top = model.MAX_ROUNDS
        for name, rounds, following, state, told in (
            ("rounds", top, 0, "halted", ", out of rounds"),
            ("names", 0, top, "halted", ", next round out of names"),
            ("both", top, top, "halted", ", out of rounds"),
            ("none", 0, 0, "halted", ""),
            ("paused", top, top, "paused", ""),
        ):
            with self.subTest(name=name):
                job = model.Job(name, rules, model.Config(config.interface, config.equations, following), rounds, state)
                self.path.write_bytes(disk_of(slot(1, form_of(self.draws(), model.Table([job])))))
                line = f"{name}: {state}, rounds {rounds}, nodes 4, active pairs 1{told}"
                self.equals(name, "the line of the model", line, job_line(job))
                self.tells([*report(self.path.read_bytes())[:2], "held: slot 1", line])

    def test_each_kind_of_slot(self):
        none = "slot 2: closed, number 0, body 0, no table"
        kinds = [
            (b"", ["slot 1: cut off", "slot 2: cut off", "held: no slot"]),
            (bytes(12), ["slot 1: cut off", "slot 2: cut off", "held: no slot"]),
            (bytes(13), ["slot 1: closed, number 0, body 0, no table", "slot 2: cut off", "held: no slot"]),
            (slot(1, EMPTY), ["slot 1: open, number 1, body 5, a table", "slot 2: cut off", "held: slot 1"]),
            (slot(1, OLD_EMPTY), ["slot 1: open, number 1, body 5, a table", "slot 2: cut off", "held: slot 1"]),
            (slot(1, EMPTY)[:-1], ["slot 1: open, number 1, body 5, cut short", "slot 2: cut off", "held: damaged"]),
            (disk_of(slot(1, EMPTY)), ["slot 1: open, number 1, body 5, a table", none, "held: slot 1"]),
            (disk_of(slot(1, EMPTY), bytes(12)), ["slot 1: open, number 1, body 5, a table", "slot 2: cut off", "held: slot 1"]),
            (disk_of(slot(1, EMPTY, 0)), ["slot 1: closed, number 1, body 5, a table", none, "held: no slot"]),
            (disk_of(slot(1, EMPTY, 2)), ["slot 1: closed, number 1, body 5, a table", none, "held: no slot"]),
            (disk_of(slot(3, b"x" * 7)), ["slot 1: open, number 3, body 7, no table", none, "held: damaged"]),
            (
                disk_of(slot(7, EMPTY), slot(7, EMPTY)),
                ["slot 1: open, number 7, body 5, a table", "slot 2: open, number 7, body 5, a table", "held: two alike"],
            ),
            (
                disk_of(slot(7, EMPTY), slot(8, EMPTY[:-1])),
                ["slot 1: open, number 7, body 5, a table", "slot 2: open, number 8, body 4, no table", "held: damaged"],
            ),
            (
                disk_of(slot(WORN, EMPTY), slot(8, EMPTY)),
                [f"slot 1: open, number {WORN}, body 5, a table", "slot 2: open, number 8, body 5, a table", "held: slot 1"],
            ),
            (
                disk_of(slot(1, EMPTY), slot(2, EMPTY)[:9] + (MAX_BODY + 1).to_bytes(4, "big")),
                ["slot 1: open, number 1, body 5, a table", f"slot 2: open, number 2, body {MAX_BODY + 1}, too long", "held: damaged"],
            ),
            (
                disk_of(slot(1, EMPTY), slot(2, EMPTY)[:9] + MAX_BODY.to_bytes(4, "big")),
                ["slot 1: open, number 1, body 5, a table", f"slot 2: open, number 2, body {MAX_BODY}, cut short", "held: damaged"],
            ),
            (b"\0" + os.urandom(5_000_000), None),
        ]
        for place, (data, lines) in enumerate(kinds):
            with self.subTest(place=place):
                self.path.write_bytes(data)
                self.tells(lines or report(data))
                self.equals("the lines", "what the model tells", lines or report(data), report(data))

    def test_a_file_that_is_known_to_be_no_disk_is_told_so(self):
        text = f"{self.path}: the file is a text, and no disk; `icserve create --disk F` makes a new file F one"
        for data in (b"a text that is no disk\n", b"list"):
            self.path.write_bytes(data)
            ran = self.runs("inspect", "--disk", self.path, out=report(data), err=[text])
            self.equals(ran.command, "what the file holds", data, self.path.read_bytes())

    def test_a_disk_that_was_cut(self):
        """A copy that lost the head of the newest slot opens with the older table, and here that is told."""
        self.runs("create", "--disk", self.path)
        self.serves(self.path, [f"submit two {TWO.text}"], ["accepted"])
        whole = self.path.read_bytes()
        body = len(whole) - SECOND - HEAD
        for length, lines in (
            (len(whole), [f"slot 2: open, number 2, body {body}, a table", "held: slot 2"]),
            (len(whole) - 1, [f"slot 2: open, number 2, body {body}, cut short", "held: damaged"]),
            (SECOND + HEAD, [f"slot 2: open, number 2, body {body}, cut short", "held: damaged"]),
            (SECOND + HEAD - 1, ["slot 2: cut off", "held: slot 1"]),
            (SECOND, ["slot 2: cut off", "held: slot 1"]),
            (HEAD + 5, ["slot 2: cut off", "held: slot 1"]),
        ):
            with self.subTest(length=length):
                self.path.write_bytes(whole[:length])
                ran = run("inspect", "--disk", self.path)
                self.equals(ran.command, "the second slot, and what is held", lines, ran.out.decode().splitlines()[1:3])
        self.path.write_bytes(whole[:SECOND])
        self.serves(self.path, ["list"], ["jobs"])

    def test_bytes_after_both_slots_are_not_looked_at(self):
        put(self.path, slot(1, EMPTY))
        lines = report(self.path.read_bytes())
        with open(self.path, "r+b") as file:
            file.truncate(LIMIT)
            file.seek(LIMIT)
            file.write(b"after both slots")
        self.tells(lines)
        with open(self.path, "r+b") as file:
            file.truncate(2**40)
        self.runs("inspect", "--disk", self.path, out=lines)

    def test_files_that_are_not_read(self):
        self.isnt_read(self.room / "missing", "open: no such file or folder")
        self.equals("inspect", "whether a file was made", False, (self.room / "missing").exists())
        self.isnt_read(self.room, "read: is a folder")
        self.isnt_read(self.room / ("x" * 300), "open: the name is too long")
        os.mkfifo(self.room / "pipe")
        os.symlink(self.room / "pipe", self.room / "link")
        for path in (self.room / "pipe", self.room / "link"):
            self.isnt_read(path, "open: is a pipe")
        for path in ("/dev/null", "/dev/zero", "/dev/full"):
            self.isnt_read(path, "open: is a device")
        how = self.without_rights()
        self.path.write_bytes(disk_of(slot(1, EMPTY)))
        os.chmod(self.path, 0o000)
        self.isnt_read(self.path, "open: no rights", **how)
        os.chmod(self.path, 0o444)
        self.runs("inspect", "--disk", self.path, out=report(self.path.read_bytes()), **how)

    def test_a_link_to_a_disk_is_followed(self):
        self.runs("create", "--disk", self.path)
        os.symlink(self.path, self.room / "link")
        self.runs("inspect", "--disk", self.room / "link", out=report(self.path.read_bytes()))

    def test_each_call_that_goes_wrong_is_told(self):
        """The shim lets the n-th call to a file fail: where it isn't made a second time, the file isn't told."""
        log, number, ends = self.room / "log", 0, set()
        put(self.path, slot(1, EMPTY))
        lines = report(self.path.read_bytes())
        while True:
            number += 1
            ran = run("inspect", "--disk", self.path, env=shimmed(f"disk {number} once", log))
            if not was_refused(log):
                break
            if ran.status:
                self.equals(ran.command, "how it ends", (3, b"icserve: device\n", b""), (ran.status, ran.err, ran.out))
                ends.add(ran.after.decode().removeprefix(f"{self.path}: ").rstrip("\n"))
        calls = {f"{call}: input/output error of the device" for call in ("open", "length", "read")}
        self.equals(ran.command, "what was told", calls, ends)
        self.ended(ran, out=lines)

    def test_each_head_is_read_before_its_body_and_again_after_both(self):
        """First it is looked whether a reduction is kept there. Of each slot the head is read, and then the body, unless that is
        too long or the head is cut off; then both heads again. Those of the first slot are read first each time, as the law on two readings wants it."""
        log = self.room / "log"
        for second, parts in (
            (slot(2, EMPTY), [(SECOND, HEAD), (SECOND + HEAD, len(EMPTY))]),
            (slot(2, EMPTY)[:9] + (MAX_BODY + 1).to_bytes(4, "big"), [(SECOND, HEAD)]),
            (slot(2, EMPTY)[:-1], [(SECOND, HEAD), (SECOND + HEAD, len(EMPTY) - 1), (SECOND + HEAD + len(EMPTY) - 1, 0)]),
        ):
            with self.subTest(second=second):
                put(self.path, slot(1, EMPTY), second)
                lines = report(self.path.read_bytes())
                ran = self.runs("inspect", "--disk", self.path, out=lines, env=shimmed(log=log))
                wanted = [(0, 89), (0, HEAD), (HEAD, len(EMPTY)), *parts, (0, HEAD), (SECOND, HEAD)]
                self.equals(ran.command, "what is read", wanted, [(it.at, it.length) for it in noted(log) if it.kind == "R"])

    def test_an_output_that_cant_be_written(self):
        put(self.path, slot(1, EMPTY))
        with open("/dev/full", "wb") as full:
            ran = run("inspect", "--disk", self.path, stdout=full)
        self.equals(ran.command, "how it ends", (4, b"icserve: write\n"), (ran.status, ran.err))
        with open(self.room / "out", "wb") as file:
            ran = run("inspect", "--disk", self.path, stdout=file, **grows_to(20))
        self.equals(ran.command, "how it ends", (4, b"icserve: write\n"), (ran.status, ran.err))

    def test_drawn_disks(self):
        drawn = self.draws()
        for _ in range(30):
            disk = self.new_disk()
            names = job_names(drawn, drawn.randint(1, 12))
            self.serve(disk, session(drawn, names, small_systems(drawn, 4), drawn.choice([5, 20, 60])))
            self.tells(report(disk.content))

    def test_drawn_disks_that_are_spoilt(self):
        drawn = self.draws()
        for _ in range(60):
            forms = [form_of(drawn, it) for it in (table(drawn), spoilt(drawn))]
            drawn.shuffle(forms)
            numbers = [drawn.choice([0, 1, 2, 255, 256, WORN - 1, WORN]) for _ in forms]
            slots = [slot(number, form, drawn.choice([0, 1, 1, 1, 1, 2])) for number, form in zip(numbers, forms)]
            data = bytearray(disk_of(*slots))
            if drawn.random() < 0.4:
                at = drawn.choice([0, SECOND]) + drawn.randrange(60)
                data[at : at + 1] = bytes([drawn.randrange(256)])
            if drawn.random() < 0.3:
                del data[drawn.choice([drawn.randrange(400), SECOND + drawn.randrange(20), drawn.randrange(len(data))]) :]
            self.path.write_bytes(data)
            self.tells(report(data))


def spoilt(drawn):
    """A table with a value that was changed, so that it is none, mostly."""
    jobs = table(drawn, least=1)
    unsound(drawn, jobs)
    return jobs


class Kept(model_disk.Server):
    """A server of the model that notes what each table is told as that it keeps."""

    def __init__(self, disk, every):
        super().__init__(disk, every)
        self.told = [held_now(disk)]

    def keep(self):
        before = self.disk.number
        super().keep()
        if self.disk.number != before:
            self.told.append(held_now(self.disk))


def held_now(disk):
    """The lines of what the model's disk holds."""
    return held([looked_at(disk.content, at) for at in (0, SECOND)])


class Meanwhile(ModelTrial):
    seconds = 40

    def test_a_disk_that_is_served_can_be_inspected(self):
        disk = self.new_disk()
        with Server(self.path) as server:
            self.answers(server, f"submit two {TWO.text}", "accepted")
            model_disk.Server(disk).answer(f"submit two {TWO.text}".encode())
            self.runs("inspect", "--disk", self.path, out=report(disk.content))
            self.answers(server, "list", "jobs two:running:0")
            self.ends(server)

    def test_a_thousand_looks_while_it_is_written(self):
        """Each look shows a table that stood between the line that was answered before it and the one that was answered
        after it, or says that the file was changed; none is shown that is older than one that was shown before."""
        disk = self.new_disk()
        kept, changed = Kept(disk, 1), 0
        with Server(self.path, "--every", 1) as server:
            self.asks_all(server, kept, [f"submit loop {LOOP.text}", f"submit other {LOOP.text}"])
            for look in range(1000):
                first = len(kept.told) - 1
                lines = [f"submit a {TWO.text}", "run 20", "cancel a", "run 20"]
                wanted = [kept.answer(it.encode()) for it in lines]
                server.send(lines)
                ran = run("inspect", "--disk", self.path)
                self.equals(server.said(), "answers", wanted, [server.answer() for _ in lines])
                self.shows(ran, kept.told[first:])
                changed += ran.status != 0
            self.ends(server)
        self.equals("icserve inspect", "whether few of a thousand looks say that the file was changed", True, changed < 10)
        self.same_file("serve", disk)

    def asks_all(self, server, kept, lines):
        for line in lines:
            self.answers(server, line, kept.answer(line.encode()))

    def shows(self, ran, tables):
        """Fails unless a look has shown one of these tables, or has said that the file was changed meanwhile."""
        if ran.status:
            self.ended(ran, err="icserve: changed while read\n", status=3)
            return
        came = ran.out.decode().splitlines()[2:]
        self.equals(ran.command, "standard error", b"", ran.err)
        self.equals(ran.command, f"whether it is one of {len(tables)} tables that stood: {came}", True, came in tables)
