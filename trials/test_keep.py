"""A reduction that is kept in two files (`reduce --keep`, `reduce --resume`) goes on after any stop, with the answer and the
counts of one that isn't stopped. Files that hold something else are refused, and stay as they are."""

import itertools
import json
import os
import resource
import shlex
import signal
import struct
import subprocess
import sys
import time

import draws
import model
import nets
from program import PROGRAM, TOP, grows_to, heeds_signals, ran_with, run, said_of
from shim import noted, recording, shimmed, was_refused
from stops import Stops
from test_in_place import DOUBLES

sys.path.insert(0, str(TOP / "bench"))

from systems import ACKERMANN, FIBONACCI, church, numeral  # noqa: E402

FIGURES = ["--stats", "--format", "json"]
HEAD = 17
IMAGES = 3
# In how many bytes each word of a state stands, by the letters of its form.
WIDTHS = {b"ICKEPT01": 8, b"ICKEPT02": 4}
SECOND = "it is the second file of a reduction: name the first one, without .2"
NO_SECOND = "no `--keep` made this second file: move it away, and resume with `--from-one-file`"
STRANGER = "it keeps no reduction: `--resume F` takes a file F that `--keep F` made"


def ackermann(number):
    return f"{ACKERMANN} <r|Ack(r,{numeral(number)})={numeral(3)}>"


def fibonacci(number):
    return f"{FIBONACCI} <r|F(r)={numeral(number)}>"


def figures(ran):
    """The figures that a run tells."""
    return json.loads(ran.err.splitlines()[0])


def seen(place, content):
    """What `inspect` tells of a file, and its number where its gate is open."""
    if content is None:
        return f"file {place}: missing", -1
    gate, number, size = content[0] == 1, *struct.unpack(">2Q", content[1:HEAD])
    head = f"file {place}: {'open' if gate else 'closed'}, number {number}, size {size}"
    if len(content) < HEAD + size:
        return f"{head}, cut short", number if gate else -1
    state, rounds, order = content[HEAD:], "", "in any order"
    if state[:8] == b"ICROUND1":
        state, rounds, order = state[16:], f", rounds {struct.unpack('>Q', state[8:16])[0]}", "by rounds"
    if state[:8] not in WIDTHS:
        return f"{head}, no state", number if gate else -1
    _, interactions, ended, rules, words, millis = struct.unpack(">6Q", state[8:56])
    fields = f"interactions {interactions}, words {words}, rules {rules}, milliseconds {millis}{rounds}"
    return f"{head}, a reduction {order}, {'ended' if ended else 'not ended'}, {fields}", number if gate else -1


def first_pair(line):
    """The symbols of the first equation of two agents in a line that was printed, or nothing."""
    for left, right in nets.phrases_of(line)[1]:
        if isinstance(left[0], tuple) and isinstance(right[0], tuple):
            return f"{left[0][0]}><{right[0][0]}"
    return None


def laid(content, at, data):
    """A file's bytes with these laid over them."""
    return content.ljust(at, b"\0")[:at] + data + content[at + len(data) :]


def torn(draw, old, new):
    """What a range may hold of which `new` was written over `old`, and not synced: any bytes, and these above all."""
    at = draw.randrange(len(new) + 1)
    drawn = [old, new, new[:at] + old[at:], old[:at] + new[at:], bytes(len(new)), b"\1" * len(new), b"\xff" * len(new)]
    return draw.choice([*drawn, draw.randbytes(len(new))])


def second_missing(path):
    """What is told of a file of a reduction whose second file isn't there."""
    what = f"{path}: its second file, {path}.2, is missing: bring it back"
    return f"{what}; if it is lost, `--resume {path} --from-one-file` goes on without it"


def first_missing(path):
    """What is told of a file that isn't there, where the second file of its reduction is."""
    what = f"{path}: its second file, {path}.2, holds a reduction: bring the first one back"
    return f"{what}; if it is lost, `--resume {path} --from-one-file` goes on without it"


def turned(state):
    """A state whose numbers have their lowest byte first, as another machine might write it. Its letters and its text stay."""
    rules, words = struct.unpack(">2Q", state[32:48])
    front, width = 56 + 8 * rules, WIDTHS[state[:8]]
    end = front + width * words
    numbers = [state[at : at + 8][::-1] for at in range(8, front, 8)] + [state[at : at + width][::-1] for at in range(front, end, width)]
    return state[:8] + b"".join(numbers) + state[end:]


def state_of(content):
    """The state in a file: its head with its counts, its words, and its text."""
    state = content[HEAD : HEAD + struct.unpack(">Q", content[9:HEAD])[0]]
    form = 16 if state[:8] == b"ICROUND1" else 0
    rules, words = struct.unpack(">2Q", state[form + 32 : form + 48])
    front = form + 56 + 8 * rules
    end = front + WIDTHS[state[form : form + 8]] * words
    return state[:front], state[front:end], state[end:]


def with_state(content, *parts):
    """A file with such a state in the place of its own."""
    state = b"".join(parts)
    return content[:9] + struct.pack(">Q", len(state)) + state


def widened(content):
    """A file whose state has four bytes for each word, with that state as older programs keep it: with eight."""
    numbers, words, text = state_of(content)
    wide = [it if it < 2**31 else 2**63 + (it - 2**31 >> 24 << 32) + it % 2**24 for (it,) in struct.iter_unpack(">I", words)]
    return with_state(content, numbers.replace(b"ICKEPT02", b"ICKEPT01"), struct.pack(f">{len(wide)}Q", *wide), text)


class Keep(Stops):
    seconds = 80

    def setUp(self):
        super().setUp()
        self.file = self.room / "net.keep"
        self.second = self.room / "net.keep.2"
        self.log = self.room / "log"

    def contents(self):
        return [it.read_bytes() if it.exists() else None for it in (self.file, self.second)]

    def put(self, contents):
        for path, content in zip((self.file, self.second), contents):
            if content is not None:
                path.write_bytes(content)

    def clear(self):
        for path in (self.file, self.second):
            path.unlink(missing_ok=True)

    def whole(self, text, *words):
        """The answer and the figures of a reduction by one thread that isn't kept, in any order or by rounds."""
        ran = run("reduce", *(words or ("--workers", 1)), *FIGURES, given=text)
        self.equals(ran.command, "status", 0, ran.status)
        return ran.out, figures(ran)

    def agree(self, ran, whole):
        """Fails unless a run that is kept has come to the same end."""
        self.equals(ran.command, f"status; it said {ran.err}", 0, ran.status)
        self.agrees(ran.command, "standard output", whole[0], ran.out)
        for name in ("end", "stuck", "circle", "interactions", "by_rule", "rounds"):
            self.equals(ran.command, name, whole[1].get(name), figures(ran).get(name))

    def kept(self, bound="--steps"):
        """How many interactions the files hold, or nothing where they are refused."""
        ran = run("reduce", "--resume", self.file, bound, 0, "--quiet-answer", *FIGURES)
        if ran.status == 3:
            return None
        self.equals(ran.command, f"status; it said {ran.err}", True, ran.status in (0, 5))
        return figures(ran)["interactions"]

    def test_a_reduction_that_is_kept_answers_as_one_that_is_not(self):
        whole = self.whole(ackermann(3))
        self.agree(run("reduce", "--keep", self.file, *FIGURES, given=ackermann(3)), whole)
        # What has ended is answered again.
        for _ in range(3):
            self.agree(run("reduce", "--resume", self.file, *FIGURES), whole)
        # A text in a file.
        self.clear()
        text = self.room / "text"
        text.write_text(ackermann(3))
        self.agree(run("reduce", "--keep", self.file, *FIGURES, text), whole)

    def test_any_number_of_threads_keeps_a_reduction(self):
        """Without a number there are as many as of one that isn't kept, and with a bound of interactions one."""
        whole = self.whole(fibonacci(25))
        half = whole[1]["interactions"] // 2
        threads = figures(run("reduce", *FIGURES, given=ackermann(1)))["threads"]
        for first, second in ((1, 4), (4, 1), (2, 64), (7, 2), (None, None)):
            self.clear()
            words = [[] if it is None else ["--workers", it] for it in (first, second)]
            began = run("reduce", "--keep", self.file, "--steps", half, *words[0], *FIGURES, given=fibonacci(25))
            self.equals(began.command, f"how it ended; it said {began.err}", (5, half), (began.status, figures(began)["interactions"]))
            ended = run("reduce", "--resume", self.file, *words[1], *FIGURES)
            self.agree(ended, whole)
            for ran, many in ((began, first or 1), (ended, second or threads)):
                told = figures(ran)
                self.equals(ran.command, "threads, and whether they shared the net", (many, many > 1), (told["threads"], told["shared"] > 0))

    def test_the_time_of_what_has_ended_stays(self):
        """It is that in which it went on, and not the time in which it is read again."""
        words = ["--quiet-answer", *FIGURES]
        ended = run("reduce", "--keep", self.file, *words, given=church(18))
        for _ in range(2):
            again = run("reduce", "--resume", self.file, *words)
            self.equals(again.command, "milliseconds", figures(ended)["milliseconds"], figures(again)["milliseconds"])

    def test_keeps_that_take_long_are_further_apart(self):
        """What comes between two of them takes ten times as long as one, also where fewer seconds are asked for. One takes a second here,
        so they come twelve seconds apart, but for the first and the last one. Who is slowed down by others may keep more often."""
        given = "{A(B(x))><B(A(x))} <|A(x)=B(x)>"
        slow = {**shimmed(), "SHIM_SYNC": "200000"}
        began = time.monotonic()
        ran = run("reduce", "--keep", self.file, "--seconds", 1, "--steps", 80_000_000, "--quiet-answer", given=given, env=slow)
        took = time.monotonic() - began
        often = max(seen(it, content)[1] for it, content in enumerate(self.contents(), 1))
        told = f"whether it was kept {often} times in {took:.1f} seconds, and once in four at most"
        self.equals(ran.command, told, True, 3 <= often <= 3 + took / 4)

    def test_a_stuck_pair_is_told(self):
        text = "{A(B(x))><B(x)} <r|A(r)=B(C),D=E(z)>"
        whole = run("reduce", "--workers", 1, given=text)
        self.equals(whole.command, "what is told", b"icserve: stuck D><E\n", whole.err)
        for words, given in ((["--keep", self.file], text), (["--resume", self.file], b"")):
            self.runs("reduce", *words, given=given, out=whole.out, err=whole.err)
            self.agree(run("reduce", "--resume", self.file, *FIGURES), self.whole(text))

    def test_the_stuck_pair_is_the_first_that_is_printed(self):
        """By one thread and by several, kept and not, and where nothing is printed. After stops the net, the interactions by rule
        and this are those of an unbroken run, and by one thread the line is."""
        drawn, seen = self.draws(), 0
        while seen < 40:
            symbols = draws.symbols(drawn, drawn.randint(3, 6), drawn.choice([1, 2, 3]))
            rules = draws.rules(drawn, symbols, drawn.randint(2, 6))
            text = draws.system_text(rules, draws.configuration(drawn, rules, drawn.randrange(3), drawn.randint(5, 30), active=1.0))
            whole = run("reduce", "--workers", 1, "--steps", 2_000, *FIGURES, given=text)
            if whole.status or not figures(whole)["interactions"] or not figures(whole)["stuck"]:
                continue
            seen += 1
            told = figures(whole)
            self.clear()
            threads = drawn.choice((1, 1, 2, 5))
            words, given = ["--workers", threads, "--keep", self.file], text
            for most in sorted(drawn.randrange(told["interactions"] + 1) for _ in range(drawn.randint(1, 3))):
                run("reduce", *words, "--steps", most, "--quiet-answer", given=given)
                words, given = ["--workers", threads, "--resume", self.file], b""
            kept = [run("reduce", *words, *FIGURES, given=given), run("reduce", "--resume", self.file, *FIGURES)]
            # Circles come in another order as a net is read again.
            for ran in kept if threads == 1 and not told["circle"] else []:
                self.equals(ran.command, "the line", whole.out, ran.out)
            for ran in (whole, run("reduce", "--workers", 3, *FIGURES, given=text), *kept):
                self.equals(ran.command, "the pair that is told", first_pair(ran.out), figures(ran)["stuck"])
                self.equals(ran.command, "the net", nets.form_of(rules, whole.out), nets.form_of(rules, ran.out))
                for name in ("end", "interactions", "by_rule"):
                    self.equals(ran.command, name, told[name], figures(ran)[name])
            for words in (["--workers", 1], ["--resume", self.file]):
                printed, quiet = (run("reduce", *words, *more, *FIGURES, given=text) for more in ([], ["--quiet-answer"]))
                self.equals(quiet.command, "the pair that is told without an answer", first_pair(printed.out), figures(quiet)["stuck"])

    def inspected(self):
        """What `inspect` tells, as it is found in the files; each file stays as it is."""
        before = self.contents()
        files = [seen(place, content) for place, content in enumerate(before, 1)]
        newest = max((1, 2), key=lambda it: files[it - 1][1])
        lines = [*(it for it, _ in files), f"held: file {newest}"]
        self.runs("inspect", "--disk", self.file, out=lines)
        ran = run("inspect", "--disk", self.file, "--format", "json")
        told = [json.loads(it) for it in ran.out.splitlines()]
        self.equals(ran.command, "what is held", {"held": f"file {newest}"}, told[2])
        self.equals(ran.command, "what the files hold", before, self.contents())
        return told[newest - 1]

    def test_rounds_that_are_kept_are_those_of_one_that_is_not_stopped(self):
        """Cut anywhere, it tells the same figures and holds the same net as one that makes as many rounds at once."""
        draw = self.draws()
        texts = [ackermann(2), fibonacci(9), "{A(B(x))><B(x)} <r|A(r)=B(C),D=E(z)>", "{} <a,b|a=b>", "{A(x)><B(x)} <r|x=A(r),x=B(C)>", "{} <|x=A(x)>"]
        texts += [draws.system_text(*draws.system(draw, draw.choice([2, 3, 5]), draw.choice([2, 3, 4]))) for _ in range(40)]
        for text in texts:
            self.clear()
            words, given = ["--keep", self.file], text
            for most in sorted(draw.choice([0, 1, 2, 3, 5, 9, 20]) for _ in range(4)):
                ran = run("reduce", *words, "--rounds", most, *FIGURES, given=given)
                whole = run("reduce", "--rounds", most, *FIGURES, given=text)
                self.equals(ran.command, "status", whole.status, ran.status)
                for name in ("end", "interactions", "by_rule", "rounds"):
                    self.equals(ran.command, f"{name} of {text}", figures(whole)[name], figures(ran)[name])
                for it in (whole, ran) if figures(whole)["stuck"] else []:
                    self.equals(it.command, f"the pair that is told of {text}", first_pair(it.out), figures(it)["stuck"])
                rules = model.read_system(text.encode())[0]
                self.equals(ran.command, f"the net of {text}", nets.form_of(rules, whole.out), nets.form_of(rules, ran.out))
                words, given = ["--resume", self.file], b""

    def test_a_reduction_by_rounds_goes_on_alone(self):
        for text in (ackermann(3), fibonacci(20)):
            self.clear()
            whole = self.whole(text, "--rounds", 2**62)
            ran = run("reduce", "--keep", self.file, "--rounds", 99, *FIGURES, given=text)
            self.equals(ran.command, "status, and rounds", (5, 99), (ran.status, figures(ran)["rounds"]))
            self.equals(self.file, "rounds that are told", 99, self.inspected()["rounds"])
            for _ in range(3):
                self.agree(run("reduce", "--resume", self.file, *FIGURES), whole)

    def test_within_a_round_nothing_is_kept(self):
        run("reduce", "--keep", self.file, "--rounds", 3, given=DOUBLES)
        before = self.contents()
        for words in (["--resume", self.file], ["--resume", self.file, "--rounds", 99]):
            ran = run("reduce", *words, "--nodes", 1_000)
            whole = run("reduce", "--rounds", 99, "--nodes", 1_000, given=DOUBLES)
            self.equals(ran.command, "status, and what is told", (whole.status, whole.err.splitlines()[0]), (ran.status, ran.err.splitlines()[0]))
            self.equals(ran.command, "what is told of the keep", True, b"the last keep stands: `icserve reduce --resume " in ran.after)
            self.equals(self.file, "what is kept", 3, figures(run("reduce", "--resume", self.file, "--rounds", 0, "--quiet-answer", *FIGURES))["rounds"])
        self.equals(self.file, "whether the files hold what they did", before, self.contents())

    def test_each_order_goes_on_as_it_began(self):
        text, in_any = ackermann(2), "its reduction doesn't go by rounds: resume it without `--rounds`"
        by_rounds = "its reduction goes by rounds: `--rounds N` bounds it, without `--steps` and `--workers`"
        for first, then, line in (("--steps", "--rounds", in_any), ("--rounds", "--steps", by_rounds), ("--rounds", "--workers", by_rounds)):
            self.clear()
            run("reduce", "--keep", self.file, first, 9, given=text)
            before = self.contents()
            ran = run("reduce", "--resume", self.file, then, 20)
            self.equals(ran.command, "how it is refused", (3, b"", f"icserve: other order\n{self.file}: {line}\n".encode()), (ran.status, ran.out, ran.err))
            self.equals(self.file, "whether the files hold what they did", before, self.contents())

    def test_fewer_rounds_than_are_kept(self):
        """The net after those that are kept is told, and that it is this one."""
        answer = run("reduce", "--rounds", 9, given=ackermann(2)).out
        run("reduce", "--keep", self.file, "--rounds", 9, given=ackermann(2))
        for most in (0, 8, 9):
            ran = run("reduce", "--resume", self.file, "--rounds", most, *FIGURES)
            self.equals(ran.command, "status and net", (5, answer), (ran.status, ran.out))
            lines = [f"icserve: more than {most} rounds are kept: this is the net after 9".encode()] if most < 9 else []
            self.equals(ran.command, "what is told after the figures", [*lines, b"icserve: not done"], ran.err.splitlines()[1:])

    def test_inspect_tells_what_is_kept(self):
        total = self.whole(ackermann(2))[1]["interactions"]
        run("reduce", "--keep", self.file, "--steps", 0, given=ackermann(2))
        for most in (0, 9, 9, 30, total, total):
            run("reduce", "--resume", self.file, "--steps", most)
            told = self.inspected()
            self.equals(self.file, "what is told", (most, most == total), (told["interactions"], told["ended"]))

    def test_a_file_without_its_second_one_is_told_of(self):
        """The second file itself has none. It isn't told to be one where the first isn't there."""
        run("reduce", "--keep", self.file, "--steps", 9, given=ackermann(2))
        run("reduce", "--resume", self.file, "--steps", 30)
        first, second = self.contents()
        for path, contents in ((self.second, [first, second]), (self.second, [None, second]), (self.second, [b"text", second]), (self.file, [first, None])):
            self.clear()
            self.put(contents)
            is_second = path == self.second and contents[0] == first
            hint = f"{path}: {SECOND}" if is_second else second_missing(path)
            lines = [seen(1, path.read_bytes())[0], "file 2: missing", "held: file 1"]
            self.runs("inspect", "--disk", path, out=lines, err=[hint])
            ran = run("reduce", "--resume", path)
            told = f"{hint}\n" if is_second else f"{path}.2: open: no such file or folder\n{hint}\n"
            self.equals(ran.command, "the end", (3, b"icserve: device\n", told), (ran.status, ran.err, ran.after.decode()))
            self.equals(self.file, "what the files hold", contents, self.contents())
        # A second file in which nothing is kept yet.
        self.put([first, bytes(HEAD)])
        ran = run("reduce", "--resume", self.second)
        self.equals(ran.command, "what is told", f"{self.second}: {SECOND}\n", ran.after.decode())
        # It is as is told.
        self.second.unlink()
        self.renewed(self.second, self.file)

    def renewed(self, lost, other, *words, why="holds the last keep or the one before, from which the reduction goes on", asked=True):
        """Goes on from one file, which is told, and so is that the other one is made anew. The end is that of one not stopped."""
        flag = ["--from-one-file"] if asked else []
        ran = run("reduce", "--resume", self.file, *flag, "--steps", 9, "--quiet-answer", *words)
        self.equals(ran.command, "what is told", f"{lost}: made anew: {other} {why}".encode(), ran.err.splitlines()[0] if ran.err else b"")
        self.agree(run("reduce", "--resume", self.file, *FIGURES), self.whole(ackermann(2)))

    def test_a_second_file_is_told_of_where_the_first_is_lost(self):
        run("reduce", "--keep", self.file, "--steps", 9, given=ackermann(2))
        run("reduce", "--resume", self.file, "--steps", 30)
        second = self.second.read_bytes()
        told = f"{self.file}: open: no such file or folder\n"
        for content in (second, b"\0" + second[1:], bytes(HEAD), b"text", b"", None):
            self.clear()
            if content is not None:
                self.second.write_bytes(content)
            more = f"{first_missing(self.file)}\n" if content == second else ""
            for words in (["inspect", "--disk"], ["reduce", "--resume"]):
                ran = run(*words, self.file)
                self.equals(ran.command, "the end", (3, b"icserve: device\n", told + more), (ran.status, ran.err, ran.after.decode()))
            self.equals(self.file, "what the files hold", [None, content], self.contents())
        # It is as is told.
        self.second.write_bytes(second)
        self.renewed(self.file, self.second)

    def test_a_file_that_is_lost_is_made_anew(self):
        run("reduce", "--keep", self.file, "--steps", 9, given=ackermann(2))
        run("reduce", "--resume", self.file, "--steps", 30)
        whole = self.contents()
        # What the other file has is at most one keep older.
        for place, zeros, kept in ((0, HEAD, {9, 30}), (1, HEAD, {9, 30}), (0, 60, {9, 30}), (1, 60, {9, 30})):
            self.put(bytes(zeros) if it == place else whole[it] for it in (0, 1))
            held = [f"file {place + 1}: closed, number 0, size 0, no state"] * 2
            held[1 - place] = seen(2 - place, whole[1 - place])[0]
            self.runs("inspect", "--disk", self.file, out=[*held, f"held: file {2 - place}"])
            self.equals(self.file, "interactions that are kept", True, self.kept() in kept)
            self.agree(run("reduce", "--resume", self.file, *FIGURES), self.whole(ackermann(2)))

    def test_a_reduction_goes_on_from_one_file_where_that_is_asked_for(self):
        """The other is damaged, and its keep is lost."""
        run("reduce", "--keep", self.file, "--steps", 9, given=ackermann(2))
        run("reduce", "--resume", self.file, "--steps", 30)
        whole, paths = self.contents(), (self.file, self.second)
        newest = max((0, 1), key=lambda it: seen(it, whole[it])[1])
        cut = [whole[newest][:it] for it in (0, HEAD - 1, 30, len(whole[newest]) - 1)]
        # Of one that is damaged in its words, `inspect` tells that it is held.
        for content in (*cut, laid(whole[newest], HEAD, b"nothing!"), laid(whole[newest], HEAD + 56 + 8 * 6, b"\xff" * 8)):
            put = [content if it == newest else whole[it] for it in (0, 1)]
            self.put(put)
            ran = run("reduce", "--resume", self.file)
            self.equals(ran.command, "the end", (3, b"icserve: damaged\n"), (ran.status, ran.err))
            self.equals(ran.command, "whether its cure is told", True, b"`--resume %b --from-one-file`" % str(self.file).encode() in ran.after)
            self.equals(self.file, "what the files hold", put, self.contents())
            self.renewed(paths[newest], paths[1 - newest])
        # One that is older, or whole, is no reason to make the other anew; nor is there one where no state stands in the other.
        for place, content in ((1 - newest, laid(whole[1 - newest], HEAD, b"nothing!")), (newest, whole[newest])):
            self.put(content if it == place else whole[it] for it in (0, 1))
            ran = run("reduce", "--resume", self.file, "--from-one-file", "--steps", 0, "--quiet-answer", *FIGURES)
            self.equals(ran.command, "interactions", 30, json.loads(ran.err.splitlines()[0])["interactions"])
        for contents in ([whole[0], b"mine" + bytes(40)], [whole[newest], whole[newest]], [whole[0][:60], None], [None, whole[1][:60]], [laid(whole[0], HEAD + 56 + 8 * 6, b"\xff" * 8), bytes(HEAD)]):
            self.clear()
            self.put(contents)
            ran = run("reduce", "--resume", self.file, "--from-one-file")
            self.equals(ran.command, f"the end; it said {ran.err}", (3, b""), (ran.status, ran.out))
            self.equals(self.file, "what the files hold", contents, self.contents())

    def test_a_reduction_that_has_ended_needs_one_file(self):
        """Nothing is kept after its end, so no keep is lost."""
        run("reduce", "--keep", self.file, "--steps", 9, "--quiet-answer", given=ackermann(2))
        run("reduce", "--resume", self.file, "--quiet-answer")
        whole, paths = self.contents(), (self.file, self.second)
        newest = max((0, 1), key=lambda it: seen(it, whole[it])[1])
        for content in (None, b"", b"\0" * 9):
            self.clear()
            self.put(content if it != newest else whole[it] for it in (0, 1))
            self.renewed(paths[1 - newest], paths[newest], why="holds the end of the reduction, so nothing is lost", asked=False)
        # The second one by itself is no first one.
        self.clear()
        self.put(whole)
        ran = run("reduce", "--resume", self.second)
        self.equals(ran.command, "the end", (3, [self.second.name, self.file.name]), (ran.status, sorted((it.name for it in self.room.glob("net.keep*")), reverse=True)))

    def test_another_file_beside_a_whole_one_is_not_written_over(self):
        run("reduce", "--keep", self.file, "--steps", 9, given=ackermann(2))
        run("reduce", "--resume", self.file, "--steps", 30)
        whole = self.contents()
        pictures = [b"\x89PNG\r\n\x1a\n\0\0\0\rIHDR" + bytes(9), b"\0\0\0\x18ftypmp42\0\0\0\0isommp42", b"\0asm\1\0\0\0" + bytes(20)]
        files = [b"{A(B(x))><B(x)} <|A(B(C))=D>\n", "\ufeff<|A=B> <|A=B>".encode("utf-16-le"), "<|A=B> <|A=B>".encode("utf-16-be"), *pictures]
        others = [(self.disk("jobs").read_bytes(), "a disk of jobs"), *((it, "another file") for it in files)]
        for place, (other, what) in ((place, other) for place in (0, 1) for other in others):
            put = [other if it == place else whole[it] for it in (0, 1)]
            self.put(put)
            lines = [f"file {it + 1}: {what}" if it == place else seen(it + 1, whole[it])[0] for it in (0, 1)]
            if (place, what) != (0, "a disk of jobs"):
                self.runs("inspect", "--disk", self.file, out=[*lines, "held: damaged"])
                told = [json.loads(it) for it in run("inspect", "--disk", self.file, "--format", "json").out.splitlines()]
                self.equals(self.file, "objects", (what, "damaged"), (told[place]["state"], told[2]["held"]))
            for most in (0, 100_000):
                ran = run("reduce", "--resume", self.file, "--steps", most)
                self.equals(ran.command, "the end", (3, b"", b"icserve: damaged\n"), (ran.status, ran.out, ran.err))
                told = (f"{self.file}: {STRANGER}\n", f"{self.second}: {NO_SECOND}\n")[place]
                self.equals(ran.command, "what is told", told, ran.after.decode())
            self.equals(self.file, "what the files hold", put, self.contents())

    def test_an_older_file_may_have_any_byte_for_its_gate(self):
        """As after a stop in the midst of a keep, which closes the gate first."""
        run("reduce", "--keep", self.file, "--steps", 9, given=ackermann(2))
        run("reduce", "--resume", self.file, "--steps", 30)
        whole = self.contents()
        newest = max((0, 1), key=lambda it: seen(it, whole[it])[1])
        for gate in (0, 2, 60, 137, 255):
            for rest in (whole[1 - newest][1:], whole[1 - newest][1:HEAD]):
                self.put(whole[it] if it == newest else bytes([gate]) + rest for it in (0, 1))
                self.equals(self.file, "interactions that are kept", 30, self.kept())
                self.agree(run("reduce", "--resume", self.file, *FIGURES), self.whole(ackermann(2)))

    def test_inspect_tells_that_a_file_is_cut_off_where_it_is_refused(self):
        run("reduce", "--keep", self.file, "--steps", 9, given=ackermann(2))
        whole = self.contents()
        for place in (0, 1):
            for cut in (0, HEAD - 1):
                self.put(whole[it][:cut] if it == place else whole[it] for it in (0, 1))
                lines = [f"file {it + 1}: cut off" if it == place else seen(it + 1, whole[it])[0] for it in (0, 1)]
                self.runs("inspect", "--disk", self.file, out=[*lines, "held: damaged"])
                self.refuses("reduce", "--resume", self.file, line="damaged", status=3)

    def test_inspect_tells_that_a_state_is_cut_short(self):
        """That of the newest file is refused, and that of the other isn't looked at."""
        run("reduce", "--keep", self.file, "--steps", 9, given=ackermann(2))
        run("reduce", "--resume", self.file, "--steps", 30)
        whole = self.contents()
        newest = max((0, 1), key=lambda it: seen(it, whole[it])[1])
        for place in (0, 1):
            for cut in (HEAD + 8, HEAD + 56, len(whole[place]) - 1):
                self.put(whole[it][:cut] if it == place else whole[it] for it in (0, 1))
                lines = [seen(it, content)[0] for it, content in enumerate(self.contents(), 1)]
                self.equals(self.file, f"whether a state is cut short: {lines}", True, lines[place].endswith(", cut short"))
                held = "damaged" if place == newest else f"file {newest + 1}"
                self.runs("inspect", "--disk", self.file, out=[*lines, f"held: {held}"])
                told = [json.loads(it) for it in run("inspect", "--disk", self.file, "--format", "json").out.splitlines()]
                self.equals(self.file, "objects", ("cut short", held), (told[place]["body"], told[2]["held"]))
                if place == newest:
                    self.refuses("reduce", "--resume", self.file, line="damaged", status=3)
                else:
                    self.agree(run("reduce", "--resume", self.file, *FIGURES), self.whole(ackermann(2)))

    def test_inspect_tells_that_the_newest_file_has_no_state(self):
        run("reduce", "--keep", self.file, "--steps", 9, given=ackermann(2))
        for newest in (1, 0):
            whole = self.contents()
            self.equals(self.file, "the newest file", newest, max((0, 1), key=lambda it: seen(it, whole[it])[1]))
            self.put(laid(whole[it], HEAD, b"nothing!") if it == newest else whole[it] for it in (0, 1))
            lines = [seen(it, content)[0] for it, content in enumerate(self.contents(), 1)]
            self.runs("inspect", "--disk", self.file, out=[*lines, "held: damaged"])
            self.refuses("reduce", "--resume", self.file, line="damaged", status=3)
            self.put(whole)
            run("reduce", "--resume", self.file, "--steps", 30)

    def costs(self, *words, text=b""):
        """The megabytes that a run takes at most, and the seconds of processor."""
        given = self.room / "given"
        given.write_bytes(text)
        with given.open("rb") as file:
            process = subprocess.Popen([PROGRAM, "reduce", *map(str, words), "--quiet-answer"], stdin=file, stderr=subprocess.DEVNULL)
            _, status, used = os.wait4(process.pid, 0)
        process.returncode = os.waitstatus_to_exitcode(status)
        self.equals(shlex.join(map(str, process.args)), "status", True, process.returncode in (0, 5))
        return used.ru_maxrss / 1024, used.ru_utime + used.ru_stime

    def costs_of_all(self, text):
        """Those of three million interactions that aren't kept, that are kept, and of what is kept being read again."""
        self.clear()
        words = ["--workers", 1, "--steps", 3 * 10**6]
        plain = self.costs(*words, text=text)
        kept = self.costs("--keep", self.file, *words, text=text)
        return plain, kept, self.costs("--resume", self.file, *words)

    def test_three_million_nodes_are_kept_at_a_bounded_cost(self):
        """Of a net that grows, and of one that is read: what has begun holds and reads nothing of its own files, and a resume frees what
        it has read before it puts together what it has reached. Who is slowed down by others may try again."""
        rules = "{A(B(x),S(l))><B(A(x,l))}"
        grows, is_read = (f"{rules} <r|{it}>".encode() for it in ("A(x,r)=B(x)", f"r={'S(' * 3 * 10**6}Z{')' * 3 * 10**6}"))
        for text, held, most in ((grows, 1.1, 1.4), (is_read, 1.05, 1.05)):
            for _ in range(3):
                plain, kept, resumed = self.costs_of_all(text)
                is_small = kept[0] <= held * plain[0] and resumed[0] <= most * plain[0]
                is_quick = max(kept[1], resumed[1]) <= 2 * plain[1]
                if not is_small or is_quick:
                    break
            told = f"MB and seconds, kept and resumed: {plain}, {kept}, {resumed}"
            self.equals(text[:50], told, (True, True), (is_small, is_quick))

    def test_what_is_not_asked_for_is_not_printed(self):
        self.runs("reduce", "--keep", self.file, "--quiet-answer", given=ackermann(2))
        for words in (["--nodes", 0, "--steps", 100_000], ["--nodes", 0, "--steps", 100_000, "--partial"]):
            self.clear()
            ran = run("reduce", "--keep", self.file, *words, given=church(14))
            self.equals(ran.command, "the end", (1, b"icserve: overgrown\n"), (ran.status, ran.err))
            told = f"the net is kept: `icserve reduce --resume {self.file}` goes on with it, given a greater --nodes\n"
            self.equals(ran.command, "whether it is told that the net is kept", True, ran.after.decode().endswith(f"\n{told}"))
            self.equals(ran.command, "whether a line is printed", "--partial" in words, ran.out.count(b"\n") == 1)
        self.agree(run("reduce", "--resume", self.file, *FIGURES), self.whole(church(14)))

    def test_interactions_of_all_runs_are_counted_once(self):
        whole = self.whole(ackermann(3))
        total = whole[1]["interactions"]
        self.runs("reduce", "--keep", self.file, "--steps", 10, "--quiet-answer", given=ackermann(3), err=["icserve: not done"], status=5)
        for most in (10, 11, 500, 499, 900, total - 1):
            ran = run("reduce", "--resume", self.file, "--steps", most, *FIGURES)
            self.equals(ran.command, "status", 5, ran.status)
            reached = max(most, reached) if most != 10 else 10
            self.equals(ran.command, "interactions", reached, figures(ran)["interactions"])
            self.equals(ran.command, "by rule", reached, sum(it["interactions"] for it in figures(ran)["by_rule"]))
        self.agree(run("reduce", "--resume", self.file, *FIGURES), whole)

    def test_what_a_file_holds_is_not_written_over(self):
        run("reduce", "--keep", self.file, "--steps", 9, given=ackermann(2))
        closed = b"\0" + self.contents()[0][1:]
        kept = (closed, b"\1" + bytes(16)), (laid(closed, 1, b"\1"), None), (laid(closed, 8, b"\2"), bytes(HEAD)), (closed[:24], None)
        for first, second in ((b"mine", None), (b"\0\1", None), (bytes(25), None), (None, b"mine"), (bytes(HEAD), bytes(HEAD + 1)), *kept):
            self.clear()
            for path, content in ((self.file, first), (self.second, second)):
                if content is not None:
                    path.write_bytes(content)
            self.refuses("reduce", "--keep", self.file, given=ackermann(2), line="not empty", status=3)
            self.equals(self.file, "what the files hold", [first, second], self.contents())
        self.clear()
        self.agree(run("reduce", "--keep", self.file, *FIGURES, given=ackermann(2)), self.whole(ackermann(2)))
        before = self.contents()
        ran = run("reduce", "--keep", self.file, given=ackermann(2))
        self.equals(ran.command, "the end", (3, b"icserve: not empty\n"), (ran.status, ran.err))
        told = f"{self.file}: it or its second file, {self.second}, holds something; `reduce --resume` goes on if a reduction is kept there\n"
        self.equals(ran.command, "what is told", told, ran.after.decode())
        self.equals(ran.command, "what the files hold", before, self.contents())

    def test_a_stop_within_the_first_keep_leaves_files_that_the_same_command_takes(self):
        whole = self.whole(ackermann(2))
        run("reduce", "--keep", self.file, "--steps", 0, "--quiet-answer", given=ackermann(2))
        first, second = self.contents()
        self.equals(self.second, "what the second file holds", bytes(HEAD), second)
        empty = bytes(HEAD)
        begun = [empty + first[HEAD:], empty + first[HEAD : HEAD + 8], empty[:9] + first[9:], b"\0" + first[1:], empty, b"\0", b"", None]
        for contents in [(it, empty) for it in begun] + [(None, it) for it in (b"\0\0", b"", None)]:
            self.clear()
            self.put(contents)
            self.agree(run("reduce", "--keep", self.file, *FIGURES, given=ackermann(2)), whole)
            self.agree(run("reduce", "--resume", self.file, *FIGURES), whole)

    def test_a_refused_text_makes_no_file(self):
        ran = run("reduce", "--keep", self.file, given="<r|r=")
        self.equals(ran.command, "the end", (1, b"icserve: bad syntax\n"), (ran.status, ran.err))
        self.equals(ran.command, "whether its place is told", True, ran.after.startswith(b"line 1"))
        self.equals(ran.command, "files", [None, None], self.contents())

    def test_files_that_hold_no_reduction_are_refused(self):
        self.refuses("reduce", "--resume", self.file, line="device", status=3)
        # Of a jobs disk there is no second file.
        disk = self.disk("net.keep")
        ran = run("reduce", "--resume", disk)
        self.equals(ran.command, "the end", (3, b"icserve: device\n"), (ran.status, ran.err))
        self.equals(ran.command, "what is told of the file", f"{disk}: {STRANGER}\n", ran.after.decode())
        ones = b"\1" * 40
        for contents in ((self.file.read_bytes(), b""), (b"text", None), (b"text", b"text"), (b"text", bytes(HEAD)), (ones, b""), (ones, bytes(HEAD))):
            self.clear()
            self.put(contents)
            ran = run("reduce", "--resume", self.file)
            self.equals(ran.command, f"status of {contents[:20]}; it said {ran.err}", 3, ran.status)
            self.equals(ran.command, "what is told of the file", f"{self.file}: {STRANGER}\n", ran.after.decode())
            self.equals(ran.command, "what the files hold", list(contents), self.contents())
        no_state = b"\1" + struct.pack(">2Q", 3, 8) + b"nothing!"
        for contents in ((b"", b""), (bytes(HEAD), bytes(HEAD)), (no_state, b""), (no_state, bytes(HEAD))):
            self.put(contents)
            ran = run("reduce", "--resume", self.file)
            self.equals(ran.command, f"status of {contents}; it said {ran.err}", 3, ran.status)
            self.equals(ran.command, "whether it is told to begin again", True, ran.after.endswith(b"give the same `--keep` again\n"))
            self.equals(ran.command, "whether the second file is named", True, f"its second file, {self.second}" in ran.after.decode())
            self.equals(ran.command, "what the files hold", list(contents), self.contents())
        # What is kept is read whole: a file that was cut, or whose state is another.
        self.clear()
        run("reduce", "--keep", self.file, "--steps", 9, given=ackermann(2))
        whole = self.contents()
        newest = 0 if whole[0][0] == 1 and whole[0][1:9] > whole[1][1:9] * (whole[1][0] == 1) else 1
        for at in (0, 1, 8, 16, 17, 24, 30, 70, len(whole[newest]) - 30):
            for content in (whole[newest][:at], laid(whole[newest], at, b"\7")):
                self.put([content if it == newest else whole[it] for it in (0, 1)])
                put = self.contents()
                ran = run("reduce", "--resume", self.file, "--steps", 0, *FIGURES)
                self.equals(ran.command, f"an end that is told; it said {ran.err}", True, ran.status in (1, 3, 4, 5))
                self.equals(ran.command, "what the files hold", put, self.contents())

    def test_another_form_and_another_byte_order_are_refused(self):
        run("reduce", "--keep", self.file, "--steps", 9, given=ackermann(2))
        whole = self.contents()
        newest = max((0, 1), key=lambda it: (whole[it][:1] == b"\1", whole[it][1:9]))
        gate, number, size, state = (whole[newest][a:b] for a, b in ((0, 1), (1, 9), (9, HEAD), (HEAD, None)))
        self.equals(self.file, "how many interactions are kept", 9, struct.unpack(">Q", state[16:24])[0])
        head = gate + number + size
        others = [head + letters + state[8:] for letters in (b"ICKEPT03", b"ICKEPT00", b"ICKEPT2\0", b"20TPEKCI")]
        for content in (*others, head + turned(state), gate + number[::-1] + size[::-1] + state):
            self.put([content if it == newest else whole[it] for it in (0, 1)])
            put = self.contents()
            ran = run("reduce", "--resume", self.file)
            told = (ran.status, ran.out, ran.err, self.contents() == put)
            self.equals(ran.command, f"the end of {content[:40]}", (3, b"", b"icserve: damaged\n", True), told)

    def test_the_text_of_the_rules_is_kept_or_a_whole_one(self):
        """The configuration that was read first isn't kept, where its text is long. States with the whole text, as older programs
        keep them, go on as well, and so does either kind after the other."""
        rules = "{ A(B(x),y)><B(A(x,y)) ;\nA(x,y)><C(x,y) }"
        long = ",".join(f"Odd(q{it},D)=Even(Nil,q{it},Odd(D,Nil))" for it in range(1, 40))
        few = f"{rules} <r,s|A(r,s)=B(C(t,t)),{long}>"
        for text, front in ((few, f"{rules}<A("), (f"{{}}<{'S(' * 99}Z{')' * 99}|>", "{}<S(a),Z|>"), ("{}<|>", None), ("{A><B}<C|A=B>", None)):
            whole = self.whole(text)
            self.clear()
            run("reduce", "--keep", self.file, "--steps", 1, "--quiet-answer", given=text)
            kept = self.contents()
            newest = max((0, 1), key=lambda it: seen(it, kept[it])[1])
            numbers, words, rest = state_of(kept[newest])
            is_short = rest.startswith(front.encode()) and 2 * len(rest) <= len(text) if front else rest == text.encode()
            self.equals(text, f"whether its rules are kept, or all of it: {rest}", True, is_short)
            for content in (kept[newest], with_state(kept[newest], numbers, words, text.encode())):
                self.put(content if it == newest else kept[it] for it in (0, 1))
                self.agree(run("reduce", "--resume", self.file, *FIGURES), whole)
                self.agree(run("reduce", "--resume", self.file, *FIGURES), whole)

    def is_narrow(self, content):
        """Whether the state in a file has four bytes for each word."""
        return b"ICKEPT02" in state_of(content)[0]

    def test_a_state_with_eight_bytes_for_each_word_goes_on(self):
        """As older programs keep it, in any order and by rounds. The next keep has four bytes for each."""
        for text, bound, all_of_it in ((ackermann(2), ["--steps", 9], []), (fibonacci(9), ["--rounds", 3], ["--rounds", 2**62])):
            whole = self.whole(text, *all_of_it)
            self.clear()
            run("reduce", "--keep", self.file, *bound, "--quiet-answer", given=text)
            kept = self.contents()
            newest = max((0, 1), key=lambda it: seen(it, kept[it])[1])
            self.equals(text, "whether what is kept has four bytes for each word", [True, True], [*map(self.is_narrow, kept)])
            wide, words = widened(kept[newest]), state_of(kept[newest])[1]
            self.equals(text, "how many bytes more there are", len(words), len(wide) - len(kept[newest]))
            for files in ([wide if it == newest else kept[it] for it in (0, 1)], [*map(widened, kept)]):
                self.put(files)
                self.inspected()
                self.agree(run("reduce", "--resume", self.file, *FIGURES), whole)
                then = self.contents()
                self.equals(text, "the state that was read", wide, then[newest])
                self.equals(text, "whether the next keep has four bytes for each word", True, self.is_narrow(then[1 - newest]))
                self.agree(run("reduce", "--resume", self.file, *FIGURES), whole)

    def test_a_name_from_2_to_the_31_on_has_eight_bytes(self):
        """So a text that has it is kept first. After a step names are numbered anew, and four bytes are enough."""
        text = ackermann(2).replace("<r|Ack(r,", "<v165191049|Ack(v165191049,")
        whole = self.whole(text)
        run("reduce", "--keep", self.file, "--steps", 0, "--quiet-answer", given=text)
        self.equals(self.file, "whether four bytes are enough", False, self.is_narrow(self.contents()[0]))
        self.inspected()
        run("reduce", "--resume", self.file, "--steps", 1, "--quiet-answer")
        self.equals(self.second, "whether four bytes are enough", True, self.is_narrow(self.contents()[1]))
        self.agree(run("reduce", "--resume", self.file, *FIGURES), whole)

    def test_counts_that_are_not_those_of_the_text_are_damage(self):
        """A count too many, one too few, and one above all interactions."""
        run("reduce", "--keep", self.file, "--steps", 9, given=ackermann(2))
        whole = self.contents()
        newest = max((0, 1), key=lambda it: (whole[it][:1] == b"\1", whole[it][1:9]))
        number, state = whole[newest][1:9], whole[newest][HEAD:]
        rules = struct.unpack(">Q", state[32:40])[0]
        counts, rest = state[56 : 56 + 8 * rules], state[56 + 8 * rules :]
        for other in (counts + bytes(8), counts[8:], b"", struct.pack(">Q", 10) + counts[8:]):
            changed = state[:32] + struct.pack(">Q", len(other) // 8) + state[40:56] + other + rest
            content = b"\1" + number + struct.pack(">Q", len(changed)) + changed
            self.put([content if it == newest else whole[it] for it in (0, 1)])
            put = self.contents()
            ran = run("reduce", "--resume", self.file)
            told = (ran.status, ran.out, ran.err, self.contents() == put)
            self.equals(ran.command, f"the end where the counts are {other}", (3, b"", b"icserve: damaged\n", True), told)

    def test_a_file_whose_first_bytes_are_no_state_is_not_read_whole(self):
        """A file of 600 MB, most of which is a hole. What the program has in memory may be limited to 64 MB for it."""
        size = 600 * 2**20
        few = {"preexec_fn": lambda: resource.setrlimit(resource.RLIMIT_AS, (2**26, 2**26))}
        numbers = [letters + struct.pack(">6Q", 1, 0, 0, 2, size // width, 0) for letters, width in WIDTHS.items()]
        for state in (b"", b"nothing!", b"ICKEPT03", *numbers):
            for place in (0, 1):
                self.put(bytes(HEAD) for _ in (0, 1))
                with open((self.file, self.second)[place], "r+b") as file:
                    file.write(b"\1" + struct.pack(">2Q", 1, size - HEAD) + state)
                    file.truncate(size)
                ran = run("reduce", "--resume", self.file, **few)
                self.equals(ran.command, "the end", (3, b"icserve: damaged\n"), (ran.status, ran.err))
                if state in numbers:
                    lines = run("inspect", "--disk", self.file, **few).out.splitlines()
                    self.equals(self.file, "what is seen", (True, b"held: damaged"), (lines[place].endswith(b", no state"), lines[2]))

    def test_a_second_file_that_is_the_first_one_is_told_of(self):
        """By a symbolic link or another name, also where the link leads to a file that isn't there yet. What it holds stays."""
        told = f"{self.second}: open: not possible with such a file\n"
        told = f"{told}{self.second}: it is a link to the file {self.file}, and a reduction takes two files: remove the link\n"
        for link, held in itertools.product((os.symlink, os.link), (None, b"")):
            if (link, held) == (os.link, None):
                continue
            self.clear()
            if held is not None:
                self.file.write_bytes(held)
            link(self.file, self.second)
            ran = run("reduce", "--keep", self.file, given=ackermann(2))
            self.equals(ran.command, "the end", (3, b"", b"icserve: device\n"), (ran.status, ran.out, ran.err))
            self.equals(ran.command, "what is told", told, ran.after.decode())
            self.equals(ran.command, "what the file holds", b"", self.file.read_bytes())
        # One that is told so when its removal is done goes on.
        self.clear()
        self.agree(run("reduce", "--keep", self.file, *FIGURES, given=ackermann(2)), self.whole(ackermann(2)))
        before = self.file.read_bytes()
        for link in (os.symlink, os.link):
            self.second.unlink()
            link(self.file, self.second)
            ran = run("reduce", "--resume", self.file)
            self.equals(ran.command, "the end", (3, b"", b"icserve: device\n", told), (ran.status, ran.out, ran.err, ran.after.decode()))
            self.equals(ran.command, "what the file holds", before, self.file.read_bytes())

    def test_kept_files_are_no_disks(self):
        run("reduce", "--keep", self.file, given=ackermann(2))
        before = self.contents()
        for words in (["serve", "--disk"], ["dump", "--disk"], ["attend", "--disk"], ["create", "--disk"]):
            for path in (self.file, self.second):
                ran = run(*words, path)
                self.equals(ran.command, f"status; it said {ran.err}", 3, ran.status)
                is_told = path.read_bytes()[HEAD : HEAD + 8] in WIDTHS
                self.equals(ran.command, "whether --resume is told of", is_told, b"`icserve reduce --resume F`" in ran.after)
                self.equals(ran.command, "lines after the first", 1, ran.after.count(b"\n"))
                others = (b"something else", b"--overwrite")
                self.equals(ran.command, "whether more is told", False, is_told and any(it in ran.after for it in others))
        self.equals(self.file, "what the files hold", before, self.contents())

    def test_one_process_at_a_time(self):
        command = [PROGRAM, "reduce", "--keep", str(self.file), "--seconds", "1"]
        with subprocess.Popen(command, stdin=subprocess.PIPE, stdout=subprocess.DEVNULL, stderr=subprocess.DEVNULL) as process:
            process.stdin.write(b"{A(B(x))><B(A(x))} <|A(x)=B(x)>")
            process.stdin.close()
            end = time.monotonic() + 30
            while not (self.second.exists() and self.second.stat().st_size >= HEAD) and time.monotonic() < end:
                time.sleep(0.01)
            ran = run("reduce", "--resume", self.file)
            process.kill()
        self.equals(ran.command, "the end", (6, b"icserve: locked\n"), (ran.status, ran.err))

    def test_a_second_file_that_another_process_has_is_told_of(self):
        """The second file of one reduction is the first of another. No file is made."""
        text = "{A(B(x))><B(A(x))} <|A(x)=B(x)>"
        command = [PROGRAM, "reduce", "--keep", str(self.second), "--seconds", "1"]
        with subprocess.Popen(command, stdin=subprocess.PIPE, stdout=subprocess.DEVNULL, stderr=subprocess.DEVNULL) as process:
            process.stdin.write(text.encode())
            process.stdin.close()
            end = time.monotonic() + 30
            while not (self.second.exists() and self.second.stat().st_size > HEAD) and time.monotonic() < end:
                time.sleep(0.01)
            ran = run("reduce", "--keep", self.file, given=text)
            told = (ran.status, ran.err, ran.after.decode(), self.file.exists())
            process.kill()
        wanted = (6, b"icserve: locked\n", f"{self.second}: lock: another process has it open\n", False)
        self.equals(ran.command, "the end", wanted, told)

    def test_the_file_is_named_of_which_a_call_has_failed(self):
        run("reduce", "--keep", self.file, "--steps", 9, given=ackermann(2))
        before = self.contents()
        named = set()
        for number in range(1, 60):
            self.put(before)
            ran = run("reduce", "--resume", self.file, "--steps", 20, env=shimmed(f"disk {number} once", self.log))
            if not was_refused(self.log):
                break
            if ran.status in (3, 4):
                named.add(ran.after.decode().split(": ")[0])
        self.equals("the files", "those that are named", {str(self.file), str(self.second)}, named)

    def test_what_has_ended_is_answered_on_a_full_device(self):
        """Nothing is kept where no interaction was made, so nothing is written."""
        whole = self.whole(ackermann(2))
        run("reduce", "--keep", self.file, given=ackermann(2))
        before = self.contents()
        ran = run("reduce", "--resume", self.file, *FIGURES, **grows_to(0))
        self.agree(ran, whole)
        ran, calls = self.life("", whole[1]["interactions"], False)
        self.equals(ran.command, "writes", [], [it for it in calls if it.kind != "S"])
        self.equals(ran.command, "what the files hold", before, self.contents())

    def test_a_full_device_leaves_what_was_kept(self):
        text = church(9)
        whole = self.whole(text)
        run("reduce", "--keep", self.file, "--steps", 100, given=text)
        before = self.kept()
        most = max(len(it) for it in self.contents())
        ran = run("reduce", "--resume", self.file, "--steps", 3000, **grows_to(most + 100))
        self.equals(ran.command, "the end", (4, b"icserve: device\n"), (ran.status, ran.err))
        self.equals(ran.command, "interactions that are kept", before, self.kept())
        self.agree(run("reduce", "--resume", self.file, *FIGURES), whole)

    def test_a_device_that_fills_in_the_midst_of_a_keep_leaves_what_was_kept(self):
        """The state takes six pages, and its file has one."""
        text = church(14)
        whole = self.whole(text)
        with self.device(2**20) as folder:
            self.file, self.second, more = folder / "net.keep", folder / "net.keep.2", folder / "more"
            run("reduce", "--keep", self.file, "--steps", 100, given=text)
            before = self.kept()
            for pages in (0, 1, 3):
                more.unlink(missing_ok=True)
                has = os.statvfs(folder)
                more.write_bytes(bytes((has.f_bavail - pages) * has.f_frsize))
                ran = run("reduce", "--resume", self.file, "--steps", 6000)
                told = (ran.status, ran.err, ran.after)
                cause = f"{self.file}: write: no room left on the device\n".encode()
                self.equals(ran.command, f"the end where {pages} pages are free", (4, b"icserve: device\n", cause), told)
                self.equals(ran.command, "interactions that are kept", before, self.kept())
            more.unlink()
            self.agree(run("reduce", "--resume", self.file, *FIGURES), whole)

    def test_a_folder_a_pipe_and_a_device_are_refused(self):
        """In the place of either file. The other one isn't made, nor written."""
        puts = {"folder": os.mkdir, "pipe": os.mkfifo, "device": lambda path: os.symlink("/dev/full", path)}
        for number, (kind, word, place) in enumerate(itertools.product(puts, ("--keep", "--resume"), (0, 1))):
            room = self.room / str(number)
            room.mkdir()
            paths = self.file, self.second = room / "net.keep", room / "net.keep.2"
            if word == "--resume":
                run("reduce", "--keep", self.file, "--steps", 9, given=ackermann(2))
                paths[place].unlink()
            other = paths[1 - place].read_bytes() if word == "--resume" else None
            puts[kind](paths[place])
            ran = run("reduce", word, self.file, given=ackermann(2), seconds=20)
            told = (ran.status, ran.out, ran.err, ran.after.decode())
            self.equals(ran.command, "the end", (3, b"", b"icserve: device\n", f"{paths[place]}: open: is a {kind}\n"), told)
            left = paths[1 - place].read_bytes() if paths[1 - place].exists() else None
            self.equals(ran.command, "what the other file holds", other, left)

    def life(self, text, most, begins, threads=1):
        """A run that is recorded and makes at most so many interactions: what it told, and its calls on the files."""
        words = ["--keep" if begins else "--resume", self.file, "--steps", most, "--workers", threads, "--quiet-answer", *FIGURES]
        ran = run("reduce", *words, given=text if begins else b"", **recording(self.log))
        self.equals(ran.command, f"status; it said {ran.err}", True, ran.status in (0, 5))
        return ran, [it for it in noted(self.log) if it.kind in "WST"]

    def test_a_keep_waits_for_the_disk_between_its_phases_alone(self):
        """Gate, state, length, number, gate: each is there for good before the next. The first keep finds a closed gate. A number that
        is torn stands before a whole state, so that its file isn't taken for another one."""
        begins, first, later = "WSWS" + "WS" * 4, "WS" * 4, "WS" * 5
        for most, wanted in ((20, begins + first), (40, later), (60, later)):
            ran, calls = self.life(ackermann(2), most, most == 20)
            kinds = "".join(it.kind for it in calls)
            self.equals(ran.command, "its writes and syncs", wanted, kinds[kinds.index("W") :])

    def moments(self, begun, calls, held, next_one, after):
        """The moments of a life: what is synced in each file, which is written, the ranges pending there, and how many interactions
        may be held. A file is written from where its gate is shut to where it is open and synced, and then the other is."""
        synced, pending = list(begun), []
        newest = max((0, 1), key=lambda it: (synced[it][:1] == b"\1", synced[it][1:9])) if held is not None else 0
        at = 1 - newest
        yield list(synced), at, [], {held}
        for call in calls:
            if call.kind == "W":
                pending = [*pending, (call.at, call.data)]
            elif call.kind == "S" and pending:
                opened = pending == [(0, b"\1")]
                is_new = pending == [(0, bytes(HEAD))]
                for place, data in pending:
                    synced[at] = laid(synced[at], place, data)
                pending = []
                if opened:
                    held = next_one if held is not None else 0
                if opened or (is_new and at == 1):
                    at = 1 - at
            is_opening = pending == [(0, b"\1")]
            coming = next_one if held is not None else 0
            yield list(synced), at, list(pending), {held, coming} if is_opening else {held}
        self.equals(self.file, "the files, as the calls on them made them", after, synced)

    def image_of(self, draw, synced, at, pending):
        """What a loss of power may leave of the two files."""
        image = synced[at]
        for place, data in pending:
            image = laid(image, place, torn(draw, image[place : place + len(data)].ljust(len(data), b"\0"), data))
        if len(image) > len(synced[at]):
            image = image[: draw.choice((len(synced[at]), len(image), draw.randrange(len(synced[at]), len(image) + 1)))]
        return [image if it == at else synced[it] for it in (0, 1)]

    def test_power_that_goes_at_any_moment_leaves_a_state_that_was_kept(self):
        self.loses_power(ackermann(2), (20, 21, 60, 150), 1)

    def test_power_that_goes_while_four_threads_reduce_leaves_a_state_that_was_kept(self):
        self.loses_power(fibonacci(16), (1_000, 1_001, 9_000, 15_000), 4)

    def loses_power(self, text, bounds, threads):
        """Goes on from bound to bound and to the end, each life by so many threads. At each moment of each the power is lost."""
        draw = self.draws()
        whole = self.whole(text)
        total, held, tried, shared = whole[1]["interactions"], None, 0, 0
        self.equals("the whole", f"whether its {total} interactions pass the bounds", True, total > bounds[-1])
        contents = [b"", b""]
        for most in (*bounds, total, total):
            if held is not None:
                self.put(contents)
            ran, calls = self.life(text, most, held is None, threads)
            reached = figures(ran)["interactions"]
            shared += figures(ran)["shared"]
            after = self.contents()
            for synced, at, pending, counts in self.moments(contents, calls, held, reached, after):
                for _ in range(IMAGES if pending else 1):
                    self.put(self.image_of(draw, synced, at, pending))
                    came = self.kept()
                    self.equals(ran.command, f"interactions that are held, at {pending}", True, came in counts)
                    if came is not None and draw.random() < 0.2:
                        self.agree(run("reduce", "--resume", self.file, *FIGURES), whole)
                    tried += 1
            self.put(after)
            contents, held = after, reached
        self.equals("power cuts", f"at least 100 images, came {tried}", True, tried >= 100)
        self.equals("power cuts", f"whether several threads had the net, with {shared} interactions", threads > 1, shared > 0)

    def test_each_call_on_the_files_goes_wrong_in_turn(self):
        text = ackermann(2)
        whole = self.whole(text)
        total, calls = whole[1]["interactions"], 0
        run("reduce", "--keep", self.file, "--steps", 30, given=text)
        before = self.contents()
        for how in ("once", "on", "done", "half", "nothing", "short", "interrupt", "kill"):
            number, is_over = 0, False
            while not is_over:
                number += 1
                self.put(before)
                env = shimmed(f"disk {number} {how}", self.log)
                ran = run("reduce", "--resume", self.file, "--steps", 90, "--quiet-answer", *FIGURES, env=env)
                is_over = not was_refused(self.log)
                ends = [(3, b"icserve: device\n"), (4, b"icserve: device\n"), (-signal.SIGKILL, b"")]
                if ran.status != 5 and (ran.status, ran.err) not in ends[2 if how == "kill" else 0 :][:2]:
                    self.told(ran.command, f"the end where call {number} went wrong, {how}", "device, or not done", ran[1:])
                came = self.kept()
                self.equals(ran.command, f"interactions where call {number} went wrong, {how}", True, came in (30, 90))
                if ran.status == 5:
                    self.equals(ran.command, "interactions that are kept where it was answered", 90, came)
                self.agree(run("reduce", "--resume", self.file, *FIGURES), whole)
            calls += number - 1
        self.equals("faults", f"at least 70 calls, came {calls}", True, calls >= 70)
        self.equals("the whole", "interactions", True, total > 90)

    def test_each_call_of_a_first_keep_goes_wrong_in_turn(self):
        """It goes wrong, or the program is killed before it."""
        text = ackermann(2)
        whole = self.whole(text)
        for how, ends in (("once", (3, 4, 5)), ("on", (3, 4, 5)), ("kill", (-signal.SIGKILL, 5))):
            number, is_over = 0, False
            while not is_over:
                number += 1
                self.clear()
                env = shimmed(f"disk {number} {how}", self.log)
                ran = run("reduce", "--keep", self.file, "--steps", 30, "--quiet-answer", given=text, env=env)
                is_over = not was_refused(self.log)
                self.equals(ran.command, f"status where call {number} went wrong, {how}: {ran.err}", True, ran.status in ends)
                if ran.status == 5 or self.kept() is not None:
                    self.agree(run("reduce", "--resume", self.file, *FIGURES), whole)
                    continue
                # Nothing was kept: the same command begins anew.
                self.agree(run("reduce", "--keep", self.file, *FIGURES, given=text), whole)

    def test_each_growth_is_refused_in_turn(self):
        text = "{A><B} <|A=B,x=C(x)>"
        whole = self.whole(text)
        run("reduce", "--keep", self.file, "--steps", 0, given=text)
        before = self.contents()
        number, is_over = 0, False
        while not is_over:
            number += 1
            self.put(before)
            ran = run("reduce", "--resume", self.file, *FIGURES, env=shimmed(f"growth {number} once", self.log))
            is_over = not was_refused(self.log)
            if ran.status:
                word = (ran.status, ran.err.splitlines()[-1])
                self.equals(ran.command, f"the end where growth {number} was refused", True, word in ((3, b"icserve: memory"), (4, b"icserve: memory")))
            self.agree(run("reduce", "--resume", self.file, *FIGURES), whole)
        self.equals("growths", f"at least 100, came {number}", True, number >= 100)

    def test_each_growth_of_a_first_keep_is_refused_in_turn(self):
        text = "{A><B} <|A=B,x=C(x)>"
        whole = self.whole(text)
        number, is_over = 0, False
        while not is_over:
            number += 1
            self.clear()
            ran = run("reduce", "--keep", self.file, *FIGURES, given=text, env=shimmed(f"growth {number} once", self.log))
            is_over = not was_refused(self.log)
            if ran.status:
                word = (ran.status, ran.err.splitlines()[-1])
                self.equals(ran.command, f"the end where growth {number} was refused", True, word in ((3, b"icserve: memory"), (4, b"icserve: memory")))
            if self.kept() is None:
                self.clear()
                self.agree(run("reduce", "--keep", self.file, *FIGURES, given=text), whole)
            self.agree(run("reduce", "--resume", self.file, *FIGURES), whole)
        self.equals("growths", f"at least 100, came {number}", True, number >= 100)

    def stopped(self, words, text, seconds, sign):
        """Starts a run, and stops it by a signal after so many seconds: how it has ended."""
        command = [PROGRAM, "reduce", *map(str, words), "--seconds", "1", *FIGURES]
        pipes = dict.fromkeys(("stdin", "stdout", "stderr"), subprocess.PIPE)
        with subprocess.Popen(command, preexec_fn=heeds_signals, **pipes) as process:
            try:
                out, err = process.communicate(text, timeout=seconds)
            except subprocess.TimeoutExpired:
                process.send_signal(sign)
                out, err = process.communicate()
        return ran_with(said_of(command, text), process.returncode, out, err)

    def test_100_kills_at_drawn_moments_of_a_long_reduction(self):
        self.is_killed(ackermann(int(os.environ.get("KEEP_SIZE") or 11)), 100, 1)

    def test_200_kills_at_drawn_moments_of_a_long_reduction_by_four_threads(self):
        self.is_killed(fibonacci(int(os.environ.get("SHARED_SIZE") or 30)), 200, 4)

    def test_100_kills_at_drawn_moments_of_a_long_reduction_by_rounds(self):
        self.is_killed(fibonacci(int(os.environ.get("ROUNDS_SIZE") or 29)), 100, None)

    def is_killed(self, text, most, threads):
        """Kills a reduction so often. Each comes as a run goes on, and the next run resumes what is kept then. Where the reduction
        ends, it has the answer and the counts of one that isn't stopped, and is begun anew. Without threads it goes by rounds. It
        begins by one thread or by all, as is drawn, since by all it may end before its first keep."""
        draw = self.draws()

        def first():
            return [*(["--workers", draw.choice((1, threads))] if threads else several), "--keep", self.file]

        began = time.monotonic()
        bound, several = ("--steps", ["--workers", threads]) if threads else ("--rounds", ["--rounds", 2**62])
        whole = self.whole(text) if threads else self.whole(text, *several)
        took = time.monotonic() - began
        words, given, held, kills, went_on, ends = first(), text.encode(), None, 0, 0, 0
        # About half of the runs keep something before they are stopped, however busy the machine is.
        longest = took * 0.1
        while kills < most:
            ran = self.stopped(words, given, draw.random() * longest, draw.choice((signal.SIGKILL, signal.SIGKILL, signal.SIGTERM)))
            if ran.status >= 0:
                self.agree(ran, whole)
                self.clear()
                words, given, held, ends = first(), text.encode(), None, ends + 1
                continue
            kills += 1
            now = self.kept(bound)
            # Nothing is kept yet: it is begun anew.
            if held is None and now is None:
                longest *= 1.1
                words = first()
                self.clear()
                continue
            earlier = held or 0
            longest *= 0.9 if (now or 0) > earlier else 1.1
            is_between = now is not None and earlier <= now <= whole[1]["interactions"]
            self.equals(ran.command, f"interactions after {kills} kills, {earlier} before: {now}", True, is_between)
            words, given, held, went_on = [*several, "--resume", self.file], b"", now, went_on + (now > earlier)
        self.agree(run("reduce", *map(str, words), "--seconds", 1, *FIGURES, given=given, seconds=900), whole)
        self.equals(self.file, f"whether it went on between kills, in {took:.1f} s: {went_on} times, {ends} ends", True, went_on >= 20)
