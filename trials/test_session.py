"""Sessions of `serve`: what standard error is told of lines that are refused, and the prompt of a terminal. What is told is
compared with the models of `checked` and `places`."""

import os
import re
import termios
import threading

from checked import lines_of, seen_of_line, spot
from known import LOOP, TWO
from places import told_at
from program import IN_MEMORY, OF_BAD, TOP, Server, Trial, as_bytes, as_lines, grows_to, run
from test_drawn_serving import job_names, session, small_systems
from test_progress import Terminal
from worked_rows import expanded, rows

LINES = (
    "the lines are submit NAME [BUDGET] {RULES} <CONFIG>, copy OLD NEW, pause NAME, resume NAME, cancel NAME, fetch NAME, "
    "list and run K (K up to 1000); `icserve help serve` tells more, and Ctrl-D ends the session"
)
END = "the end of the input ends a session: at a terminal, Ctrl-D"
REFUSED = ["lists", f"submit two {TWO.text}", "fetch one two", "", "run 1001", "list", "submit a {A(x,x)><A} <|>", " run 007"]
TOLD = [
    "line 1, column 1: bad syntax: a command is looked for here: submit, copy, pause, resume, cancel, fetch, list or run; a file with one text begins with { or <",
    "line 3, column 11: bad syntax: the line should end before this",
    "line 5, column 5: bad limit: a run makes at most 1000 rounds",
    "line 7, column 19: bad arity: a symbol has one arity: A has 0 here and 2 where it stands first, 8 columns before",
    "line 8, column 6: bad syntax: a number is looked for here",
]
ANSWERS = ["bad syntax", "accepted", "bad syntax", "bad limit", "jobs two:running:0", "bad arity", "bad syntax"]


def told_of(text):
    """What a session is told of its lines."""
    for number, line in enumerate(lines_of(text), 1):
        fault, found, _ = seen_of_line(line)
        if fault:
            _, at, sentence = found
            word = re.match(rb"[A-Za-z0-9-]+|\??", line[at:])[0] if sentence.startswith("a command ") else b""
            sentence = {b"help": LINES, b"?": LINES, b"quit": END, b"exit": END}.get(word, sentence)
            yield f"line {number}, column {spot(line, told_at(line, at))[1]}: {fault}: {sentence}"


DONE = {"stuck": ", but stuck: there is no rule for", "circle at": " with a circle, which no step takes apart, at"}


def still_of(held):
    """What a session is told at its end of jobs that go no further without a result, by the lines that `inspect` has of them."""
    for line in held:
        name, state = re.match(r"(\S+): (\w+),", line).groups()
        if state == "done":
            for told, symbols in re.findall(r", (stuck|circle at) (\S+?)(?=,|$)", line):
                yield f"job {name} is done{DONE[told]} {symbols}"
        elif state == "halted":
            why = line.partition("active pairs ")[2].partition(", ")[2]
            yield f"job {name} is halted: {why}" if why else f"job {name} is halted"


class Session(Trial):
    seconds = 8
    rooms = IN_MEMORY

    def setUp(self):
        super().setUp()
        self.jobs = self.disk()

    def test_with_the_option_each_refused_line_is_told_with_its_column_and_the_answers_stay(self):
        self.equals("trials/test_session.py", "the lines by hand", TOLD, list(told_of(as_lines(REFUSED))))
        self.serves(self.jobs, REFUSED, ANSWERS)
        self.runs("create", "--disk", self.jobs, "--overwrite")
        self.serves(self.jobs, REFUSED, ANSWERS, "--explain", err=TOLD)
        self.serves(self.jobs, b"pause two\nlists", ["ok", "bad syntax"], "--explain", err=[TOLD[0].replace("1", "2", 1)])

    def test_jobs_without_a_result_are_told_at_the_end(self):
        over = "submit over {A><B(C(C(D)))} <|A=B(P)," + "C(" * 8187 + "D" + ")" * 8187 + "=Q>"
        lines = ["submit sum {Add(x,x)><Z} <r|Ad(r,Z)=Z>", f"submit two {TWO.text}", over, "run 10"]
        told = ["job sum is done, but stuck: there is no rule for Ad><Z"]
        told += ["job over is halted: next round overgrown"]
        told += ["job both is done, but stuck: there is no rule for C><D"]
        told += [f"job {name} is done with a circle, which no step takes apart, at {at}" for name, at in (("both", "Add"), ("round", "x=x"))]
        lines[-1:] = ["submit both {} <r|C=D,x=Add(r,x)>", "submit round {} <|x=y,x=y>", "run 10"]
        ran = run("serve", "--disk", self.jobs, "--explain", given=lines)
        self.equals(ran.command, "what is told", (0, as_lines(told)), (ran.status, ran.err))
        self.serves(self.jobs, "list", ["jobs sum:done:0 two:done:2 over:halted:0 both:done:0 round:done:1"])

    def test_a_last_line_without_a_line_feed_is_told_before_jobs_without_a_result(self):
        lines = as_lines(["submit sum {Add(x,x)><Z} <r|Ad(r,Z)=Z>", "run 10"]) + b"lists"
        told = [TOLD[0].replace("1", "3", 1), "job sum is done, but stuck: there is no rule for Ad><Z"]
        self.serves(self.jobs, lines, ["accepted", "ran 0", "bad syntax"], "--explain", err=told)

    def test_lines_that_were_read_are_told_of_where_a_fault_ends_the_serving(self):
        given = f"lists\nsubmit two {TWO.text}\nfetch one two\nli"
        ran = run("serve", "--disk", self.jobs, "--explain", given=given, **grows_to(0))
        lines = ran.err.decode().splitlines()
        self.equals(ran.command, "status, standard output and lines", (4, b"bad syntax\n", 4), (ran.status, ran.out, len(lines)))
        self.equals(ran.command, "what is told", [TOLD[0], TOLD[1], "icserve: device"], lines[:3])
        ran = run("serve", "--disk", self.jobs, given=given, **grows_to(0))
        self.equals(ran.command, "whether lines are told of without the option", False, b"line 1" in ran.err + ran.after)

    def test_without_the_option_it_is_told_once_that_there_is_one(self):
        self.serves(self.jobs, f"submit bad {TWO.text}", ["accepted"])
        for lines, is_told in ((["list", "fetch bad", "fetch b", "run 3", "fetch bad"], False), (["lists", "lists"], True), (["run 1001"], True)):
            ran = run("serve", "--disk", self.jobs, given=lines)
            self.equals(ran.command, "what is told", (b"", OF_BAD if is_told else b""), (ran.err, ran.after))

    def test_help_is_told_the_lines_there_are(self):
        told = [f"line {number}, column {column}: bad syntax: {LINES}" for number, column in ((1, 1), (2, 3), (4, 1))]
        given = ["help", "\t help run", "list", "help", "helps", "fetch help", "?"]
        told.append(TOLD[0].replace("line 1", "line 5"))
        told.append(f"line 7, column 1: bad syntax: {LINES}")
        answers = ["bad syntax", "bad syntax", "jobs", "bad syntax", "bad syntax", "refused nojob", "bad syntax"]
        self.serves(self.jobs, given, answers, "--explain", err=told)
        helped = run("help", "serve").out.decode()
        words = re.findall(r"\w+", LINES.partition("are ")[2].partition(";")[0])
        missing = [it for it in words if it not in helped and it != "and"]
        self.equals("icserve help serve", "words of the lines that it hasn't", [], missing)

    def test_a_system_that_is_no_line_is_told_how_it_is_submitted(self):
        text = "{Add(x,x)><Z;\n  Add(S(x),y)><S(Add(x,y))}\n\t<r|Add(r,S(Z))=S(Z)>"
        words = "a system is submitted on one line: submit NAME {RULES} <CONFIG>"
        told = [f"line 1, column 1: bad syntax: {words}", TOLD[0].replace("1", "2", 1).replace("column 1", "column 3"), f"line 3, column 2: bad syntax: {words}"]
        self.serves(self.jobs, text, ["bad syntax"] * 3, "--explain", err=told)
        path = self.room / "commented.ic"
        path.write_text(f"// a sum\n{text}\n")
        told = run("check", path).out.decode().splitlines()
        self.equals("check", "what is told of lines of a system", [f"{path}:{it}: bad syntax: {words}" for it in ("2:1", "4:2")], [it for it in told if words in it])

    def test_who_wants_to_quit_is_told_how_a_session_ends(self):
        told = [f"line {number}, column {column}: bad syntax: {END}" for number, column in ((1, 1), (2, 3), (3, 1))]
        told += [TOLD[0].replace("line 1", "line 5")]
        answers = ["bad syntax"] * 3 + ["jobs", "bad syntax", "refused nojob"]
        self.serves(self.jobs, ["quit", "\t exit", "quit now", "list", "quits", "fetch quit"], answers, "--explain", err=told)
        self.serves(self.jobs, "quit", ["bad syntax"], "--explain", err=told[:1])

    def test_rows_and_drawn_lines_are_told_as_the_models_say(self):
        given = [b"submit job " + expanded(text).replace(b"\n", b" ") for _, _, text, _ in rows("texts", "system", "once", "system_place")]
        draw = self.draws()
        given += [as_bytes(it) for it in session(draw, job_names(draw, 8), small_systems(draw, 10), 300)]
        text = b"\n".join(it for it in given if len(it) < 50_000)
        ran = run("serve", "--disk", self.jobs, "--explain", given=text)
        self.equals(ran.command, "status", 0, ran.status)
        held = run("inspect", "--disk", self.jobs).out.decode().partition("\nheld: ")[2].splitlines()[1:]
        wanted = [*still_of(held), *told_of(text)]
        self.equals(ran.command, "lines of standard error", sorted(wanted), sorted(ran.err.decode().splitlines()))
        self.agrees(ran.command, "what is told of lines", as_lines(told_of(text)), as_lines(it for it in ran.err.decode().splitlines() if it.startswith("line ")))
        silent = run("serve", "--disk", self.disk("other.disk"), given=text)
        self.agrees(silent.command, "the answers without the option", silent.out, ran.out)
        self.equals(silent.command, "what is told without the option", b"", silent.err)

    def test_what_is_told_comes_before_the_next_line_is_awaited(self):
        with Server(self.jobs, "--explain") as server:
            for number in range(1, 4):
                self.answers(server, "lists", "bad syntax")
                told = os.read(server.process.stderr.fileno(), 4096).decode()
                self.equals(server.said(), "what is told", TOLD[0].replace("1", str(number), 1) + "\n", told)
            self.answers(server, "list", "jobs")
            self.ends(server)

    def test_a_terminal_is_told_without_the_option_and_has_no_prompt_of_its_own(self):
        with Terminal() as shown:
            ran = run("serve", "--disk", self.jobs, given=REFUSED, stderr=shown.theirs)
        self.agrees(ran.command, "standard output", as_lines(ANSWERS), ran.out)
        self.agrees(ran.command, "the terminal", as_lines(TOLD), bytes(shown.came))

    def typed(self, lines, *words, err=True):
        """Runs a server at a terminal, where these lines and an end of input are typed: what it answers, what the terminal of
        standard error shows, or what standard error has."""
        ours, theirs = os.openpty()
        mode = termios.tcgetattr(theirs)
        mode[3] &= ~termios.ECHO
        termios.tcsetattr(theirs, termios.TCSANOW, mode)
        typing = threading.Thread(target=os.write, args=(ours, as_lines(lines) + b"\x04"))
        typing.start()
        try:
            with Terminal() as shown:
                how = {"stderr": shown.theirs} if err else {}
                ran = run("serve", "--disk", self.jobs, *words, stdin=theirs, **how)
        finally:
            typing.join()
            os.close(theirs)
            os.close(ours)
        self.equals(ran.command, "status", 0, ran.status)
        return ran.command, ran.out, bytes(shown.came) if err else ran.err

    def test_with_a_terminal_on_both_sides_there_is_a_prompt_for_each_line(self):
        # Help is told, and no answer is printed.
        for word in ("help", "?"):
            command, out, shown = self.typed(["list", word, "", "fetch two"])
            self.agrees(command, "standard output", as_lines(["jobs", "refused nojob"]), out)
            self.agrees(command, "the terminal", f"> > line 2, column 1: bad syntax: {LINES}\n> > > \n", shown)
        command, out, shown = self.typed(["help me", "helps"])
        self.agrees(command, "standard output", as_lines(["bad syntax", "bad syntax"]), out)
        told = TOLD[0].replace("line 1", "line 2")
        self.agrees(command, "the terminal", f"> line 1, column 1: bad syntax: {LINES}\n> {told}\n> \n", shown)

    def test_a_terminal_from_which_a_text_is_read_is_told_so(self):
        told = "icserve: a text is read from here; Ctrl-D on an empty line ends it\n"
        for words in (["reduce"], ["reduce", "--keep", self.room / "net.keep"], ["settle"], ["reduce", "-"]):
            ours, theirs = os.openpty()
            mode = termios.tcgetattr(theirs)
            mode[3] &= ~termios.ECHO
            termios.tcsetattr(theirs, termios.TCSANOW, mode)
            os.write(ours, (b"<|>\n" if words == ["settle"] else b"{} <|>\n") + b"\x04")
            with Terminal() as shown:
                ran = run(*words, stdin=theirs, stderr=shown.theirs)
            os.close(theirs)
            os.close(ours)
            self.equals(ran.command, "status and standard output", (0, b"<|>\n"), (ran.status, ran.out))
            self.agrees(ran.command, "the terminal", told, bytes(shown.came))
        ran = run("reduce", given="{} <|>")
        self.equals(ran.command, "standard error that is no terminal", b"", ran.err)

    def test_with_a_terminal_on_one_side_there_is_no_prompt(self):
        command, out, err = self.typed(["list", "lists"], err=False)
        self.equals(command, "standard output and error", (as_lines(["jobs", "bad syntax"]), b""), (out, err))
        command, out, err = self.typed(["list"], "--explain", err=False)
        self.equals(command, "standard output and error", (as_lines(["jobs"]), b""), (out, err))

    def test_a_run_at_a_terminal_wipes_its_line_before_the_prompt(self):
        lines = [f"submit loop {LOOP.text}", *["run 1000"] * 3]
        command, out, shown = self.typed(lines)
        self.agrees(command, "standard output", as_lines(["accepted", *["ran 1000"] * 3]), out)
        lines = re.sub(rb"\r(?:\x1b\[\?7l[^\r\x1b]*)?\x1b\[K(?:\x1b\[\?7h)?", b"", shown)
        self.agrees(command, "the terminal without lines of progress", b"> " * 5 + b"\n", lines)

    def test_an_error_that_cant_be_written_ends_nothing(self):
        with open("/dev/full", "wb") as full:
            ran = run("serve", "--disk", self.jobs, "--explain", given=REFUSED, stderr=full)
        self.equals(ran.command, "status and standard output", (0, as_lines(ANSWERS)), (ran.status, ran.out))

    def test_the_session_of_the_page_goes_as_the_page_says(self):
        page = (TOP / "docs/serving.md").read_text()
        given, told = re.search(r"\$ printf '(.*)' \| \./icserve serve --disk \S+ --explain\n((?:    .*\n)+)", page).groups()
        ran = run("serve", "--disk", self.jobs, "--explain", given=given.replace("\\n", "\n"))
        wanted = [it.strip() for it in told.splitlines()]
        came = [*ran.out.decode().splitlines(), *ran.err.decode().splitlines()]
        self.equals(ran.command, "what the page shows", sorted(wanted), sorted(came))
