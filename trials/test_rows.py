"""The worked rows of `trials/rows`, which the built program answers. Those of `reduce` and `trace` are played in test_looks.py,
those of `draw` in test_draw.py.

- `settle TEXT`, `once TEXT`: the line that is printed, or the fault. `settle_told`, `once_told`: what is told of its place.
- `config TEXT`, `system TEXT`: the configuration as it is read, or the fault. `config_place`, `system_place`: the fault and the byte
  at which it stands. `byte TEXT`: in the place of `?`, the bytes that are dropped, as blanks are, and those that stand in the text
  that is printed; with all others the text is refused as none. `system_byte`: those with which a text means a system of nothing.
- `checked TEXT`: what `check` tells of a file F with this text, and whether it has a fault. `sizes TEXT`: bytes and lines of a graph.
- `in_a_small_stack TEXT`: the line of a round where the program has no more stack than a thread has.
- `alike N TEXT`: how a system ends after at most N rounds.
- `rounds N TEXT`: `next` and the text after each of N rounds, and whether the last is quiet. `ends N TEXT`: after how many, at
  most N, it is quiet, and its text. `lasts N TEXT`: how many are made, at most N, and why there is no next one.
- `words WORDS ~ PART`: whether words after the program's name are refused or answered by a help, and whether this part stands there.
- `serve WORKERS EVERY LINES`: what lines with ` ; ` between them are answered on a new disk, by so many workers, with a keep
  after each so many rounds. `slow`: the same, where each read and write takes one byte.
- `stream WORKERS EVERY TEXT`: what is written for a text as it stands. `times COUNT LINE`: the answer that a line has so many times.
  `feeds COUNT TEXT`: what is written for so many line feeds and a text after them.
- `again WORKERS EVERY LINES + LINES`: lines, and more on the disk that these left.
- `worn WORKERS EVERY LINES`, or `LINES + LINES`: lines on a disk whose numbers are used up, as the first lines have left it.
- `newest WORKERS EVERY LINES`: the number of the newest slot after the lines."""

import os
import resource

from disks import EMPTY, SECOND, newest, put, slot
from model_disk import decode
from program import IN_MEMORY, Trial, run
from shim import shimmed
from worked_rows import expanded, rows

LAST_NUMBER = 2**64 - 1

# Which word of the program reads which kind of text.
WORDS = {"config": "settle", "system": "once"}

# A text of more bytes doesn't stand in a line.
MOST_IN_A_LINE = 262_000


def lines_of(text):
    """The lines of a row, each with its end."""
    return expanded(text).replace(b" ; ", b"\n") + b"\n"


def on_one_line(ran):
    """What was written, as it stands in a row: answers, and the line of a fault."""
    return b" ; ".join(it for it in (ran.out + ran.err).split(b"\n") if it)


def with_a_small_stack():
    """Gives the program that is started the stack of a thread, of 2 MiB."""
    resource.setrlimit(resource.RLIMIT_STACK, (2 << 20, 2 << 20))


class Texts(Trial):
    rooms = IN_MEMORY
    seconds = 3

    def test_each_row_that_is_settled_or_makes_a_round(self):
        for name, kind, text, answer in rows("texts", "settle", "once"):
            with self.subTest(name=name, kind=kind):
                if answer.startswith(b"<"):
                    self.runs(kind, given=expanded(text), out=answer + b"\n")
                else:
                    self.runs(kind, given=expanded(text), err=b"icserve: " + answer + b"\n", status=1)

    def test_each_row_in_a_small_stack(self):
        for name, _, text, answer in rows("texts", "in_a_small_stack"):
            with self.subTest(name=name):
                self.runs("once", given=expanded(text), out=answer + b"\n", preexec_fn=with_a_small_stack)

    def test_each_row_that_tells_a_place(self):
        for name, kind, text, answer in rows("texts", "settle_told", "once_told"):
            with self.subTest(name=name, kind=kind):
                ran = run(kind.removesuffix("_told"), given=expanded(text))
                self.agrees(ran.command, "what is told after the first line", answer, ran.after or b"nothing")

    def test_each_row_that_is_read(self):
        for name, kind, text, answer in rows("texts", "config", "system"):
            with self.subTest(name=name, kind=kind):
                text = expanded(text)
                if answer.startswith(b"bad") or len(text) > MOST_IN_A_LINE:
                    self.agrees(text, "the fault, or the text", answer, self.printed(kind, text))
                else:
                    self.agrees(text, "the text", answer, self.shown(kind, text)[0])

    def printed(self, kind, text):
        """The line of a text that is settled, or makes a round; or its fault."""
        ran = run(WORDS[kind], given=text)
        return (ran.out + ran.err).removeprefix(b"icserve: ").rstrip(b"\n")

    def shown(self, kind, *texts):
        """The configurations of texts as they are shown of jobs, or the faults. A line feed is given as a space."""
        before = b"{}" if kind == "config" else b""
        lines = [it for text in texts for it in (b"submit a " + before + text.replace(b"\n", b" "), b"fetch a", b"cancel a")]
        disk = self.room / "jobs.disk"
        put(disk, slot(1, EMPTY))
        answers = run("serve", "--disk", disk, given=lines).out.splitlines()
        pairs = zip(answers[::3], answers[1::3])
        return [second.split(b" ", 3)[3] if first == b"accepted" else first for first, second in pairs]

    def test_each_row_of_bytes(self):
        """A line feed ends a line of a serving, so a text with one is given by itself."""
        for name, kind, text, answer in rows("texts", "byte", "system_byte"):
            with self.subTest(name=name, kind=kind):
                read, text = {"byte": "config", "system_byte": "system"}[kind], expanded(text)
                texts = [text.replace(b"?", bytes([it])) for it in range(256)]
                # In front of rules digits would be a budget.
                told = self.shown(read, *texts) if kind == "byte" else [self.printed(read, it) for it in texts]
                told[10] = self.printed(read, texts[10])
                without, dropped, kept = self.printed(read, text.replace(b"?", b"")), bytearray(), bytearray()
                for byte, (whole, line) in enumerate(zip(texts, told)):
                    fate = kept if line == whole else dropped if line == without else None
                    if fate is None:
                        self.agrees(whole, "the fault", "bad syntax", line)
                    else:
                        fate.append(byte)
                self.agrees(text, "the bytes", answer, dropped + (b" " + kept if kind == "byte" else b""))

    def test_each_row_of_a_place(self):
        """Where a text ends too early, the place after its last word is told."""
        for name, kind, text, answer in rows("texts", "config_place", "system_place"):
            with self.subTest(name=name, kind=kind):
                text = expanded(text)
                ran = run(WORDS[kind.removesuffix("_place")], given=text)
                fault, _, at = answer.partition(b" at ")
                if at:
                    place = len(text.rstrip()) if int(at) == len(text) else int(at)
                    line = text[:place].count(b"\n") + 1
                    wanted = b"line %d, column %d" % (line, place - text.rfind(b"\n", 0, place))
                    self.agrees(ran.command, "the place", wanted, ran.after.split(b"\n")[0])
                self.agrees(ran.command, "the fault", fault.replace(b"none", b""), ran.err.removeprefix(b"icserve: ").rstrip())

    def test_each_row_that_is_checked(self):
        for name, _, text, answer in rows("texts", "checked"):
            with self.subTest(name=name):
                (self.room / "F").write_bytes(expanded(text))
                ran = run("check", "F", cwd=self.room)
                verdict = {0: b"fine", 1: b"faulty"}.get(ran.status, b"neither")
                self.agrees(ran.command, "what is told, and the verdict", answer, ran.out + verdict)

    def test_each_row_of_sizes(self):
        for name, _, text, answer in rows("texts", "sizes"):
            with self.subTest(name=name):
                ran = run("draw", given=expanded(text))
                self.agrees(ran.command, "bytes and lines", answer, b"%d %d" % (len(ran.out), ran.out.count(b"\n")))

    def test_each_row_of_reductions_by_rounds(self):
        for name, _, text, answer in rows("texts", "alike"):
            count, _, text = text.partition(" ")
            with self.subTest(name=name):
                ran = run("reduce", "--rounds", count, given=expanded(text))
                self.agrees(ran.command, "how it ends", answer, self.end_of(ran, int(count), expanded(text)))

    def end_of(self, ran, most, text):
        """How a reduction ended, in the words of a row: the number of rounds is the least that is done."""
        if ran.status == 1:
            return ran.err.removeprefix(b"icserve: ").rstrip()
        if ran.status == 5:
            return b"not done"
        rounds = next(it for it in range(most + 1) if run("reduce", "--rounds", it, given=text).status == 0)
        stuck = ran.err.removeprefix(b"icserve:").rstrip()
        return b"done %d" % rounds + stuck


    def test_each_row_of_rounds(self):
        tellers = {"rounds": self.each_of, "ends": self.end_after, "lasts": self.last_of}
        for name, kind, text, answer in rows("texts", *tellers):
            count, _, text = text.partition(" ")
            with self.subTest(name=name, kind=kind):
                self.agrees(f"{kind} {count} {text[:200]}", "the rounds", answer, tellers[kind](int(count), expanded(text)))

    def ran(self, text, *lines):
        """A job of this text after these lines: its state, its rounds, its configuration, and its `next`."""
        disk = self.room / "jobs.disk"
        put(disk, slot(1, EMPTY))
        answers = run("serve", "--disk", disk, given=[b"submit p " + text, *lines, "fetch p"]).out.splitlines()
        return *answers[-1].split(b" ", 3)[1:], b"%d" % decode(newest(disk.read_bytes())[2]).jobs[0].config.next

    def each_of(self, count, text):
        """`next` and the text after each round of a job, and whether it is done."""
        jobs = [self.ran(text, f"run {made}") for made in range(1, count + 1)]
        told = [b"%b %b" % (next_name, shown) for _, _, shown, next_name in jobs]
        return b" ".join([*told, {b"done": b"quiet"}.get(jobs[-1][0], b"on")])

    def end_after(self, most, text):
        """After how many rounds a job is done, and its text."""
        state, rounds, shown, *_ = self.ran(text, f"run {most}")
        return b"%b quiet %b" % (rounds, shown) if state == b"done" else b"not done"

    def last_of(self, most, text):
        """After how many rounds a job halts, and what is told of one round more."""
        state, rounds, after, *_ = self.ran(text, *["run 1000"] * (most // 1000), f"run {most % 1000}")
        rules = text[: text.index(b"}") + 1]
        return rounds + run("once", given=rules + after).err.removeprefix(b"icserve:").rstrip() if state == b"halted" else rounds


class Words(Trial):
    rooms = IN_MEMORY

    def test_each_row_of_words(self):
        for name, _, text, answer in rows("words", "words"):
            words, _, part = text.partition(" ~ ")
            with self.subTest(name=name, words=words):
                ran = run(*words.split(), cwd=self.room)
                how, told = {0: ("help", ran.out), 2: ("refused", ran.err)}.get(ran.status, ("", b""))
                came = f"{how} {'with' if part.encode() in told else 'without'} it"
                self.agrees(ran.command, f"how it ends, and whether {part} is told", answer, came)
                self.equals(ran.command, "the files that it made", [], os.listdir(self.room))


class Lines(Trial):
    rooms = IN_MEMORY
    seconds = 8

    def served(self, disk, options, given, **how):
        workers, every = options
        return run("serve", "--disk", disk, "--workers", workers, "--every", every, given=given, **how)

    def parted(self, *kinds):
        """The rows of these kinds: name, kind, workers and every, what else stands in the row, and the answer."""
        for name, kind, text, answer in rows("lines", *kinds):
            workers, every, rest = text.split(" ", 2)
            yield name, kind, (workers, every), rest, answer

    def test_each_row_that_is_served(self):
        for at, (name, _, options, text, answer) in enumerate(self.parted("serve")):
            with self.subTest(name=name):
                ran = self.served(self.disk(f"{at}.disk"), options, lines_of(text))
                self.agrees(ran.command, "what is answered", answer, on_one_line(ran))

    def test_each_row_that_is_served_slowly(self):
        for at, (name, _, options, text, answer) in enumerate(self.parted("slow")):
            for call in ("read", "write"):
                with self.subTest(name=name, call=call):
                    disk = self.disk(f"{at}.{call}.disk")
                    ran = self.served(disk, options, lines_of(text), env=shimmed(f"{call} 1 short"))
                    self.agrees(ran.command, "what is answered", answer, on_one_line(ran))

    def test_each_row_of_a_text_as_it_stands(self):
        for at, (name, _, options, text, answer) in enumerate(self.parted("stream")):
            with self.subTest(name=name):
                ran = self.served(self.disk(f"{at}.disk"), options, expanded(text))
                self.agrees(ran.command, "what is written", answer, ran.out + ran.err or b"nothing")

    def test_each_row_of_many_lines(self):
        for at, (name, kind, text, answer) in enumerate(rows("lines", "times", "feeds")):
            count, _, rest = text.partition(" ")
            given = lines_of(rest) * int(count) if kind == "times" else b"\n" * int(count) + expanded(rest)
            wanted = (answer + b"\n") * int(count) if kind == "times" else answer
            with self.subTest(name=name):
                ran = self.served(self.disk(f"{at}.disk"), (1, 1), given)
                self.agrees(ran.command[:200], "what is written", wanted, ran.out + ran.err or b"nothing")

    def test_each_row_that_goes_on_after_a_stop(self):
        for at, (name, _, options, text, answer) in enumerate(self.parted("again")):
            with self.subTest(name=name):
                disk = self.disk(f"{at}.disk")
                parts = [on_one_line(self.served(disk, options, lines_of(it))) for it in text.split(" + ")]
                self.agrees(f"serve {text}", "what is answered", answer, b" ; ".join(parts))

    def test_each_row_of_the_newest_slot(self):
        for at, (name, _, options, text, answer) in enumerate(self.parted("newest")):
            with self.subTest(name=name):
                disk = self.disk(f"{at}.disk")
                ran = self.served(disk, options, lines_of(text))
                _, number, _ = newest(disk.read_bytes())
                self.agrees(ran.command, "the number of the newest slot", answer, b"%d" % number)

    def test_each_row_of_a_disk_whose_numbers_are_used_up(self):
        for at, (name, _, options, text, answer) in enumerate(self.parted("worn")):
            with self.subTest(name=name):
                disk = self.disk(f"{at}.disk")
                before, plus, lines = text.rpartition(" + ")
                if plus:
                    self.served(disk, options, lines_of(before))
                body = newest(disk.read_bytes())[2] if plus else EMPTY
                put(disk, slot(LAST_NUMBER, body))
                left = disk.read_bytes()
                ran = self.served(disk, options, lines_of(lines))
                stays = b" ; the disk is as it was" if disk.read_bytes() == left else b" ; the disk has changed"
                self.agrees(ran.command, "what is answered, and the disk", answer, on_one_line(ran) + stays)
