"""The line of progress: what a terminal is shown on standard error of long work, and that nothing else is."""

import fcntl
import os
import re
import struct
import subprocess
import termios
import threading
import time
import tty
import unittest

from known import LOOP, STILL, name_text
from program import IN_MEMORY, PROGRAM, Trial, as_lines, run, said_of

# A line as the program writes it: to the begin of the terminal's line, the text, which doesn't go on in the next row, and what
# erases the rest.
LINE = re.compile(rb"\r\x1b\[\?7levents (\d+)(?:, rounds a second (\d+), jobs running (\d+))?\x1b\[K\x1b\[\?7h")
OF_A_NET = re.compile(rb"\r\x1b\[\?7linteractions (\d+), a second (\d+), nodes (\d+)\x1b\[K\x1b\[\?7h")
WIPED = b"\r\x1b[K"

# A thousand pairs that never end, so that many rounds take a while on any machine.
WIDE = "{A(B(x))><B(A(x))} <|" + ",".join(f"A({name_text(at)})=B({name_text(at)})" for at in range(1000)) + ">"
LONG = [f"submit wide {WIDE}", *["run 1000"] * 6]
ANSWERS = ["accepted", *["ran 1000"] * 6]


class Terminal:
    """A terminal to which a program writes, and which a thread reads until no program has it open."""

    def __init__(self, columns=80):
        self.columns = columns

    def __enter__(self):
        try:
            self.ours, self.theirs = os.openpty()
        except OSError as fault:
            raise unittest.SkipTest(f"no terminal can be had here: {fault}") from fault
        tty.setraw(self.theirs)
        fcntl.ioctl(self.theirs, termios.TIOCSWINSZ, struct.pack("HHHH", 24, self.columns, 0, 0))
        self.came = bytearray()
        self.reader = threading.Thread(target=self.read)
        self.reader.start()
        return self

    def read(self):
        while True:
            try:
                more = os.read(self.ours, 65536)
            except OSError:
                return
            self.came += more

    def __exit__(self, *_):
        os.close(self.theirs)
        self.reader.join()
        os.close(self.ours)


def rows_of(shown, columns):
    """The rows of a terminal of so many columns, after each sequence that it was sent."""
    rows, at, wraps = [""], 0, True
    for it in re.findall(r"\x1b\[\??\d*\w|.|\n", shown.decode()):
        if it in ("\x1b[?7l", "\x1b[?7h"):
            wraps = it.endswith("h")
        elif it == "\x1b[K":
            rows[-1] = rows[-1][:at]
        elif it == "\r":
            at = 0
        elif it == "\n" or (at == columns and wraps):
            rows.append("" if it == "\n" else it)
            at = len(rows[-1])
        else:
            at = min(at, columns - 1)
            rows[-1] = rows[-1][:at] + it + rows[-1][at + 1 :]
            at += 1
        at = min(at, columns if wraps else columns - 1)
        yield list(rows)


class Progress(Trial):
    seconds = 15
    rooms = IN_MEMORY

    def setUp(self):
        super().setUp()
        self.jobs = self.disk()

    def shows(self, words, given=b"", out=True, err=True, columns=80):
        """Runs the program with terminals as its standard output or error: its status, what came on each, and how many
        seconds it took."""
        command, given = [PROGRAM, *map(str, words)], as_lines(given)
        self.command = said_of(command, given)
        with Terminal(columns) as shown:
            begun = time.monotonic()
            pipes = {"stdout": shown.theirs if out else subprocess.PIPE, "stderr": shown.theirs if err else subprocess.PIPE}
            ran = run(*words, given=given, **pipes)
            took = time.monotonic() - begun
        return ran.status, ran.out, ran.err, bytes(shown.came), took

    def lines_of(self, shown, took, line=LINE):
        """What the lines say that came on a terminal: they are rewritten in place and seldom enough, and wiped at the end."""
        lines = [tuple(int(it or 0) for it in found.groups()) for found in line.finditer(shown)]
        rest = line.sub(b"", shown)
        if rest.replace(WIPED, b"") or not shown.endswith(WIPED):
            self.told(self.command, "standard error", "lines of progress, and last that they are wiped", shown)
        events = [it[0] for it in lines]
        self.equals(self.command, "what is counted, which grows", sorted(events), events)
        is_seldom = len(lines) <= 10 * took + 1
        self.equals(self.command, f"at most ten lines in a second: {len(lines)} in {took:.1f} s", True, is_seldom)
        return lines

    def script(self, name, lines):
        path = self.room / name
        path.write_bytes(as_lines(lines))
        return path

    def test_a_run_shows_its_line_on_a_terminal_and_wipes_it(self):
        status, out, _, shown, took = self.shows(["serve", "--disk", self.jobs], LONG, out=False)
        self.equals(self.command, "status and standard output", (0, as_lines(ANSWERS)), (status, out))
        lines = self.lines_of(shown, took)
        self.equals(self.command, f"more than two lines came: {lines}", True, len(lines) > 2)
        told = all(0 < events <= 6001 and running == 1 for events, _, running in lines)
        self.equals(self.command, f"1 to 6,001 events and one job that runs: {lines}", True, told)

    def test_scripts_show_their_line_on_a_terminal_and_wipe_it(self):
        scripts = [self.script(f"script {i}", [f"submit wide{i} {WIDE}", *["list"] * 100]) for i in range(3)]
        words = ["attend", "--disk", self.jobs, "--turns", 800, *scripts]
        status, out, _, shown, took = self.shows(words, out=False)
        self.equals(self.command, "status, and how the output begins", (0, b"client 0\naccepted\n"), (status, out[:18]))
        lines = self.lines_of(shown, took)
        self.equals(self.command, f"more than one line came: {lines}", True, len(lines) > 1)
        told = any(rate > 0 and running == 3 for _, rate, running in lines)
        self.equals(self.command, f"a line of three jobs that run: {lines}", True, told)

    def test_without_rounds_the_line_tells_events_alone(self):
        # Each of these commands is kept. On a device that takes its time few are enough.
        count = 15_000 if IN_MEMORY else 500
        scripts = [self.script(f"script {i}", [f"submit j{i} {STILL.text}", f"cancel j{i}"] * count) for i in range(2)]
        words = ["attend", "--disk", self.jobs, "--runners", 0, *scripts]
        status, out, _, shown, took = self.shows(words, out=False)
        told = [it for i in range(2) for it in (f"client {i}", *["accepted", "ok"] * count)]
        self.equals(self.command, "status", 0, status)
        self.agrees(self.command, "standard output", as_lines(told), out)
        self.equals(self.command, "a line came", True, len(self.lines_of(shown, took)) > 0)
        self.equals(self.command, f"no word of rounds in {shown}", False, b"rounds" in shown)

    def test_a_line_is_wiped_before_an_answer_or_a_fault_is_written(self):
        """Standard output and error are one terminal: after the answer of a run that showed a line stands no line."""
        status, _, _, shown, _ = self.shows(["serve", "--disk", self.jobs], [*LONG, "x" * 262_145])
        told = f"line {len(LONG) + 1}, column 262145: bad limit: a line has at most 262144 bytes"
        wanted = as_lines([*ANSWERS, told, "icserve: long line"])
        self.equals(self.command, "status", 4, status)
        self.agrees(self.command, "what stands on the terminal", wanted, LINE.sub(b"", shown).replace(WIPED, b""))
        self.equals(self.command, f"a line came: {shown}", True, len(LINE.findall(shown)) > 0)
        for line in LINE.finditer(shown):
            after = shown[line.end() :]
            is_gone = bool(LINE.match(after)) or after.startswith(WIPED)
            self.equals(self.command, f"a line is rewritten or wiped: {shown}", True, is_gone)

    def test_nothing_of_it_comes_where_standard_error_is_no_terminal(self):
        status, _, err, shown, _ = self.shows(["serve", "--disk", self.jobs], LONG, err=False)
        self.equals(self.command, "status, standard error and output", (0, b"", as_lines(ANSWERS)), (status, err, shown))

    def test_a_net_that_is_reduced_in_place_shows_its_line_on_a_terminal_and_wipes_it(self):
        for words in (["--steps", 10_000_000], ["--steps", 10_000_000, "--stats"]):
            status, out, _, shown, took = self.shows(["reduce", *words], LOOP.text, out=False)
            told = shown.rpartition(WIPED)[2]
            self.equals(self.command, "status, and how what is told ends", (5, True), (status, told.endswith(b"icserve: not done\n")))
            self.equals(self.command, "how many lines are told", 3 if "--stats" in words else 1, told.count(b"\n"))
            self.equals(self.command, "standard output", (b"<|", b">\n", 1), (out[:2], out[-2:], out.count(b"\n")))
            lines = self.lines_of(shown.removesuffix(told), took, OF_A_NET)
            self.equals(self.command, f"a line came: {lines}", True, len(lines) > 0)
            is_told = all(made % 4_096 == 0 and pace > 0 and nodes < 10 for made, pace, nodes in lines)
            self.equals(self.command, f"pieces of a run, and few nodes: {lines}", True, is_told)

    def test_a_trace_whose_picture_comes_at_its_end_shows_its_line(self):
        status, out, _, shown, took = self.shows(["trace", "--rounds", 2_000_000, "--format", "svg"], LOOP.text, out=False)
        told = shown.rpartition(WIPED)[2]
        came = status, out.endswith(b"</svg>\n"), told
        self.equals(self.command, "status, picture and what is told", (0, True, b"icserve: not done\n"), came)
        lines = self.lines_of(shown.removesuffix(told), took, OF_A_NET)
        self.equals(self.command, f"a line came, of few nodes: {lines}", True, bool(lines) and all(nodes < 10 for _, _, nodes in lines))

    def test_a_trace_of_quick_rounds_whose_rows_go_elsewhere_shows_its_line(self):
        for form in ("tsv", "json"):
            status, out, _, shown, took = self.shows(["trace", "--rounds", 2_000_000, "--format", form], LOOP.text, out=False)
            told = shown.rpartition(WIPED)[2]
            came = status, len(out.splitlines()), told
            self.equals(self.command, "status, lines and what is told", (0, 2_000_000 + (form == "tsv"), b"icserve: not done\n"), came)
            lines = [it.groups() for it in OF_A_NET.finditer(shown)]
            self.equals(self.command, f"a line came more than once: {lines[:3]}", True, len(lines) > 1)

    def test_a_line_stays_in_one_row_of_a_terminal_of_40_columns(self):
        for words, given in ((["reduce", "--steps", 10_000_000], LOOP.text), (["serve", "--disk", self.jobs], LONG)):
            _, _, _, shown, _ = self.shows(words, given, out=False, columns=40)
            front = shown[: shown.rindex(WIPED) + len(WIPED)]
            is_long = any(len(it) > 40 for it in re.findall(rb"7l([^\x1b]*)", front))
            self.equals(self.command, f"whether a line is too long for a row: {front}", True, is_long)
            seen = list(rows_of(front, 40))
            self.equals(self.command, f"the most rows of {front}", 1, max(map(len, seen)))
            self.equals(self.command, "what stands there at last", [""], seen[-1])

    def test_a_net_that_is_kept_shows_the_interactions_of_all_pieces(self):
        kept = self.room / "net.keep"
        words = ["reduce", "--keep", kept, "--steps", 60_000_000, "--seconds", 1]
        status, _, _, shown, took = self.shows(words, LOOP.text, out=False)
        told = shown.rpartition(WIPED)[2]
        self.equals(self.command, "status and what is told", (5, b"icserve: not done\n"), (status, told))
        lines = self.lines_of(shown.removesuffix(told), took, OF_A_NET)
        self.equals(self.command, f"a line of a later piece: {lines}", True, lines[-1][0] > 4_194_304)

    def test_a_terminal_is_told_that_no_rule_was_used(self):
        idle = b"icserve: no two agents met, so no rule was used; `icserve check` warns where none can\n"
        for given, told in (("{A><B} <r|r=S(Z)>", idle), ("{} <r|r=S(Z)>", b""), ("{A><B} <r|r=S(Z),A=B>", b"")):
            status, _, _, shown, _ = self.shows(["reduce"], given, out=False)
            self.equals(self.command, "status and what is told", (0, told), (status, shown.replace(WIPED, b"")))

    def test_short_work_shows_no_line(self):
        _, out, _, shown, took = self.shows(["reduce", "--steps", 10], LOOP.text, out=False)
        if took < 0.1:
            self.equals(self.command, f"what the terminal is shown of {took:.2f} s", b"icserve: not done\n", shown)
        given = [f"submit loop {LOOP.text}", "run 1", "list"]
        status, out, _, shown, took = self.shows(["serve", "--disk", self.jobs], given, out=False)
        self.equals(self.command, "status and standard output", (0, b"accepted\nran 1\njobs loop:running:1\n"), (status, out))
        if took < 0.1:
            self.equals(self.command, f"what the terminal is shown of {took:.2f} s", b"", shown)
