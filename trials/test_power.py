"""The power goes at any moment. The program's own calls on the disk's file are recorded, and from them images are drawn that
docs/disk.md allows at each moment: what was synced stands, and the ranges written since hold any bytes. Each is opened."""

from typing import NamedTuple

from disks import EMPTY, HEAD, SECOND, put, slot
from histories import answers_but_rounds, drawn_scripts, kept_next, next_change, table_of
from known import LOOP, TWO, answered, drawn_line, listed
from program import Server, run
from shim import noted, recording, recording_by_strace, shimmed
from stops import Stops

LINES = 10
IMAGES = 5


class Content(NamedTuple):
    """The bytes of a file: those from 0 on, those from the second slot on, its length; and zeros elsewhere."""

    low: bytes
    high: bytes
    length: int

    def range(self, at, count):
        part = self.low[at:] if at < SECOND else self.high[at - SECOND :]
        return part[:count].ljust(count, b"\0")

    def laid(self, at, data):
        """With these bytes laid over it."""
        base = 0 if at < SECOND else SECOND
        part = (self.high if base else self.low).ljust(at - base, b"\0")
        part = part[: at - base] + data + part[at - base + len(data) :]
        length = max(self.length, at + len(data))
        return Content(self.low, part, length) if base else Content(part, self.high, length)

    def write(self, path):
        put(path, self.low, self.high)
        with open(path, "r+b") as file:
            file.truncate(self.length)


class Moment(NamedTuple):
    """A moment of a life: what is on the disk for good, and the ranges written since the last sync. Then how many lines were
    answered and how many keeps were over, whether a slot is being opened, and whether a sync has come in this life."""

    synced: Content
    pending: list
    lines: int = 0
    keeps: int = 0
    is_opening: bool = False
    has_synced: bool = False

    def content(self):
        """What reads give: all that was written."""
        content = self.synced
        for at, data in self.pending:
            content = content.laid(at, data)
        return content


def moments_of(begun, calls):
    """The moments of a life, from the one that it began with: after each write and after each sync."""
    synced, pending, answers, keeps, is_opening, has_synced = begun.synced, begun.pending, 0, 0, False, False
    yield begun
    for call in calls:
        if call.kind == "O":
            answers += call.data.count(b"\n")
            continue
        if call.kind == "T":
            raise AssertionError("the program cuts its disk: what that leaves the trial doesn't know")
        if call.kind == "W":
            pending = [*pending, (call.at, call.data)]
            is_opening = call.data == b"\1" and call.at in (0, SECOND)
        elif call.kind == "S":
            synced = Moment(synced, pending).content()
            keeps, is_opening, has_synced, pending = keeps + is_opening, False, True, []
        yield Moment(synced, pending, answers, keeps, is_opening, has_synced)


def torn(draw, old, new):
    """What a range may hold of which `new` was written over `old`, and not synced: any bytes, and these above all."""
    at = draw.randrange(len(new) + 1)
    drawn = [old, new, new[:at] + old[at:], old[:at] + new[at:], bytes(len(new)), b"\1" * len(new), b"\xff" * len(new)]
    return draw.choice([*drawn, bytes(draw.randrange(256) for _ in new)])


def image_of(draw, moment):
    """The bytes that a loss of power at this moment may leave."""
    image = moment.synced
    for at, data in moment.pending:
        image = image.laid(at, torn(draw, image.range(at, len(data)), data))
    # Past the synced end the file may have any length and any bytes.
    least, end = moment.synced.length, image.length
    if end > least:
        length = draw.choice((least, end, end + 50, draw.randrange(least, end + 1)))
        if length > end:
            image = image.laid(end, torn(draw, bytes(length - end), b"\1" * (length - end)))
        image = Content(image.low[:length], image.high[: max(0, length - SECOND)], length)
    return image


def is_begun(image):
    """Whether there are only zeros, and bytes of an empty disk in their places, with its gate shut."""
    first = slot(1, EMPTY, 0).ljust(len(image.low), b"\0")
    fits = all(byte in (0, its) for byte, its in zip(image.low, first))
    return fits and not any(image.high) and image.length <= SECOND + HEAD


class Power(Stops):
    seconds = 40

    def setUp(self):
        super().setUp()
        self.file = self.room / "image.disk"

    def life(self, draw, begun, table):
        """A life over a disk that holds a table: the run, the tables that it keeps in turn, how many of them are kept after
        each answer, and the moments."""
        every, disk, log = draw.choice((1, 2, 100)), self.room / "life.disk", self.room / "log"
        lines = [drawn_line(draw, 6, (0, 1, 2, 7)) for _ in range(LINES)]
        begun.content().write(disk)
        with Server(disk, "--every", every, **recording(log)) as server:
            for line in lines:
                server.send(line)
                if line and server.answer() is None:
                    break
            ran = server.end()
        kept, after, answers = [table], [1], []
        for line in lines:
            more, table, answer = answered(table, line, every)
            kept += more
            if answer is not None:
                answers.append(answer)
                after.append(len(kept))
        self.ended(ran, out=answers)
        return ran, kept, after, list(moments_of(begun, noted(log)))

    def attended_life(self, draw, begun, table):
        """A life in which scripts are attended, with runners beside them. The tables that it keeps are those that the program
        finds in what stands at each sync; each has to follow from the one before."""
        disk, log = self.room / "life.disk", self.room / "log"
        scripts = drawn_scripts(draw, draw.randrange(1, 5), 12)
        paths = [self.room / f"script {place}" for place in range(len(scripts))]
        for path, lines in zip(paths, scripts):
            path.write_text("".join(f"{it}\n" for it in lines))
        begun.content().write(disk)
        words = ["--runners", draw.randrange(4), "--turns", draw.choice((0, 1, 5)), "--workers", draw.choice((1, 2))]
        ran = run("attend", "--disk", disk, *words, *paths, **recording(log))
        self.equals(ran.command, "status and standard error", (0, b""), (ran.status, ran.err))
        self.are_told(ran, table, scripts)
        moments = list(moments_of(begun, noted(log)))
        kept, rests = [table], scripts
        for before, moment in zip(moments, moments[1:]):
            if moment.keeps > before.keeps:
                kept.append(self.table_in(moment.content()))
                rests = kept_next(kept[-2], rests, kept[-1])
                if rests is None:
                    self.told(ran.command, f"what is kept of {scripts} afterwards", listed(kept[-2]), listed(kept[-1]))
        changes = [it for it in rests if next_change(kept[-1], it)]
        self.equals(ran.command, "lines that were told and aren't kept", [], changes)
        return ran, kept, [1] + [len(kept)] * ran.out.count(b"\n"), moments

    def are_told(self, ran, table, scripts):
        """Each client is told what its lines are answered, whatever the rounds are."""
        parts = ("\n" + ran.out.decode()).split("\nclient ")[1:]
        for place, (part, lines) in enumerate(zip(parts, scripts)):
            came = [it.split(" ")[0] if it[0] == "j" else it for it in part.splitlines()]
            self.equals(ran.command, f"what is told of {lines}", [str(place), *answers_but_rounds(table, lines)], came)
        self.equals(ran.command, "clients that are told", len(scripts), len(parts))

    def table_in(self, content):
        """The table that the program finds in a file with this content."""
        content.write(self.file)
        names = [it.split(":")[0] for it in self.asks(self.file, ["list"])[0].split(" ")[1:]]
        answers = self.asks(self.file, [f"fetch {it}" for it in names])
        table = table_of(answers)
        if table is None:
            self.told(self.file, "jobs on the disk", "each at one of its rounds", answers)
        return table

    def found_in(self, ran, content, tables):
        content.write(self.file)
        return self.found(ran, self.file, tables)

    def may_be_found(self, ran, moment, before, kept, after):
        """The tables that a loss of power at this moment may leave: the one that is kept, and the next while its slot is being
        opened. Until a life has made its first sync, those that were left to it."""
        if not moment.has_synced and moment.lines:
            self.told(ran.command, "a line was answered over what isn't there for good", "a sync first", moment.lines)
        if moment.has_synced and moment.keeps + 1 < after[moment.lines]:
            wanted = f"{after[moment.lines] - 1} keeps at {moment.lines} answers"
            self.told(ran.command, "a line was answered before what it left was kept for good", wanted, moment.keeps)
        return kept[moment.keeps :][: 1 + moment.is_opening] if moment.has_synced else before

    def lives(self, count, a_life):
        """Life after life: each begins with what a loss of power has left, or a kill, after which writes aren't there for
        good yet. Every image that a loss of power may leave holds what was answered."""
        draw, opened = self.draws(), 0
        begun, before, table = Moment(Content(slot(1, EMPTY), bytes(13), SECOND + 13), []), [()], ()
        for _ in range(count):
            ran, kept, after, moments = a_life(draw, begun, table)
            self.equals(ran.command, "how often it kept", len(kept) - 1, moments[-1].keeps)
            following = []
            for moment in moments:
                tables = self.may_be_found(ran, moment, before, kept, after)
                for _ in range(IMAGES if moment.pending else 1):
                    image = image_of(draw, moment)
                    found = self.found_in(ran, image, tables)
                    following.append((Moment(image, []), [found], found))
                killed = Moment(moment.synced, moment.pending)
                following.append((killed, tables, self.found_in(ran, killed.content(), tables)))
            opened += len(following)
            begun, before, table = draw.choice(following)
        self.equals(f"{count} lives", f"more than 200 images opened, came {opened}", True, opened > 200)

    def test_a_serving_whose_power_goes_at_any_moment_has_lost_nothing_that_was_answered(self):
        self.lives(25, self.life)

    def test_an_attendance_whose_power_goes_at_any_moment_leaves_a_front_of_its_history(self):
        self.lives(25, self.attended_life)

    def test_strace_and_the_shim_record_the_same(self):
        """What is recorded where there is no C compiler."""
        script = self.room / "script"
        script.write_text(f"submit loop {LOOP.text}\npause loop\nlist\n")
        lines = [f"submit two {TWO.text}", "run 10", "list", "cancel two"]
        disk, log = self.room / "life.disk", self.room / "log"
        ways = {"env": shimmed(log=log)}, recording_by_strace(log)
        for words, given in ((["serve"], lines), (["attend", "--runners", "0", script], b""), (["create", "--overwrite"], b"")):
            records = []
            for how in ways:
                put(disk, slot(1, EMPTY))
                log.unlink(missing_ok=True)
                ran = run(*words, "--disk", disk, given=given, **how)
                records.append([it for it in noted(log) if it.kind in "WSTO"])
            self.equals(ran.command, "what the shim and strace have recorded", *records)
            kinds = {it.kind for it in records[0]}
            self.equals(ran.command, f"whether writes and syncs are among {kinds}", True, {"W", "S"} <= kinds)

    def test_a_create_over_the_empty_table_writes_nothing(self):
        """So no stop in its midst can leave less than a disk."""
        disk, log = self.room / "empty.disk", self.room / "log"
        put(disk, slot(1, EMPTY))
        self.runs("create", "--disk", disk, **recording(log))
        self.equals("create", "its writes", [], [it for it in noted(log) if it.kind in "WTO"])

    def test_a_create_that_was_cut_short_is_done_again(self):
        """Nothing is promised of what it leaves, but that the next one makes an empty disk of it: unasked where it has left only
        zeros and bytes of its own."""
        draw, disk, log = self.draws(), self.room / "new.disk", self.room / "log"
        unasked = 0
        for before in (Content(b"", b"", 0), Content(slot(5, EMPTY), slot(6, b"torn"), SECOND + 17)):
            before.write(disk)
            self.runs("create", "--disk", disk, "--overwrite", **recording(log))
            for moment in moments_of(Moment(before, []), noted(log)):
                for _ in range(4):
                    image = image_of(draw, moment)
                    image.write(self.file)
                    unasked += is_begun(image)
                    self.runs("create", "--disk", self.file, *([] if is_begun(image) else ["--overwrite"]))
                    self.serves(self.file, "list", ["jobs"])
            moment.synced.write(self.file)
            self.serves(self.file, "list", ["jobs"])
        self.equals("create", f"that some of {unasked} images are begun ones", True, unasked >= 5)
