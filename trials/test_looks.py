"""The words `reduce` by rounds, `trace` and `draw`: the rows of trials/rows through the built program, each exit status and each line of
standard error, and what goes wrong on the way."""

import json
import re
import xml.etree.ElementTree as xml

import model
import nets
import test_faults
from known import ADD, LOOP, WIDE
from program import IN_MEMORY, PROGRAM, TOP, Trial, as_lines, run
from shim import shimmed, was_refused
from test_statuses import SYSTEMS
from worked_rows import expanded, rows

TWO = f"{ADD} <r|Add(r,S(Z))=S(Z)>"
DOUBLES = "{D(D(x,y),D(z,w))><E(E(x,y),E(z,w))}<|D(a,b)=E(a,b)>"
GRAPH = ["graph net {", "node [shape=plaintext, width=0, height=0]", "edge [arrowsize=0.7]"]
NOT_DONE = b"icserve: not done\n"
HEAD = "round\tpairs\tnodes\tequations\tnames"
SVG = "{http://www.w3.org/2000/svg}"

# The most rounds that may be asked for.
MOST = 2**62

# A row of the table of examples on docs/looks.md: an example, its answer, and the numbers of its trace.
TOLD = re.compile(r"\| `(\w+\.ic)` \| [^|]+ \| (none: the next round is )?`(.+)` \| (\d+) \| (\d+) \| (\d+) \| (\d+\.\d) \| .*\|")

# What a row tells of a refused round, after what is printed: why, and which one it is.
REFUSED = re.compile(rb"(.*)(overgrown|names out): (round \d+(?:, nodes| would pass 8192 nodes as its pairs fire; before it there are) \d+)", re.DOTALL)

# The formats of a trace, by the kinds of rows.
SHOWN = {"trace": "tsv", "picture": "svg", "objects": "json"}

# What a row tells after the line of a reduced system.
ENDS = re.compile(rb"(<.*>)\n(?:done \d+(?: stuck (?P<pair>.*))?|(?P<rest>not done))")


def asked(kinds):
    """The rows of these kinds: name, kind, how many rounds, the text and the answer."""
    for name, kind, text, answer in rows("texts", *kinds):
        count, _, text = text.partition(" ")
        yield name, kind, count, expanded(text), answer


def nodes_of(text):
    """How many nodes the configuration of a system has: its symbols and names, each as often as it stands."""
    return len(re.findall(rb"\w+", text.rpartition(b"}")[2]))


def is_one_net(text, one, two):
    """Whether two lines are one net, over the symbols of a text. One is written as in a table, with a mark before each bar."""
    rules = model.read_system(text)[0]
    return nets.form_of(rules, one.replace("\\|", "|").encode()) == nets.form_of(rules, two)


def end_of(answer):
    """How a `reduce` ends whose row has this answer: standard output, standard error and the status."""
    told = ENDS.fullmatch(answer)
    if not told:
        return b"", b"icserve: " + answer + b"\n", 1
    line = told[1] + b"\n"
    if told["rest"]:
        return line, b"icserve: not done\n", 5
    return line, (b"icserve: stuck " + told["pair"] + b"\n" if told["pair"] else b"") + nets.circle_line(told[1]), 0


class Rows(Trial):
    rooms = IN_MEMORY
    seconds = 5

    def test_each_row_that_is_reduced_has_its_net_and_its_status(self):
        """A round that is refused on words isn't in place, where a net has no such limit."""
        seen = set()
        for name, _, count, text, answer in asked(["reduce"]):
            with self.subTest(name=name, rounds=count):
                out, err, status = end_of(answer)
                if REFUSED.fullmatch(answer) or not int(count):
                    continue
                ran = run("reduce", "--rounds", count, "--limits", "served", given=text)
                # Which pair is told as stuck may differ.
                self.equals(ran.command, "status and what is told", (status, err.split(b" ")[:2]), (ran.status, ran.err.split(b" ")[:2]))
                if out:
                    self.equals(ran.command, "the net", True, is_one_net(text, out.decode(), ran.out))
                seen.add(err.split(b" ")[1] if err else status)
        self.equals("reduce", "ends that no row has", set(), {0, b"stuck", b"not", b"bad"} - seen)

    def test_each_row_that_is_traced_has_its_table_its_picture_or_its_objects(self):
        tried, cut = 0, set()
        for name, kind, count, text, answer in asked(list(SHOWN)):
            shown = SHOWN[kind]
            with self.subTest(name=name, kind=kind, rounds=count):
                if REFUSED.fullmatch(answer):
                    continue
                ran = run("trace", "--rounds", count, "--format", shown, "--limits", "served", given=text)
                if answer.startswith((b"round\t", b"<svg", b"{")):
                    reduced = run("reduce", "--rounds", count, "--limits", "served", given=text)
                    cut.add((kind, reduced.status == 5))
                    # It tells what is stuck or goes in a circle as well.
                    self.ended(ran, out=answer, err=reduced.err)
                else:
                    self.ended(ran, err=b"icserve: " + answer + b"\n", status=1)
                tried += 1
        self.equals("trace", f"more than ten rows: {tried}", True, tried > 10)
        self.equals("trace", f"tables and pictures that are cut, and that aren't: {cut}", 4, len({it for it in cut if it[0] != "objects"}))

    def test_what_is_shown_before_a_bound_is_the_trace_of_the_rounds_before_it(self):
        """A table, a picture and objects of a system that grows without end."""
        for options in ([], ["--format", "svg"], ["--format", "json"]):
            ran = run("trace", "--nodes", 10_000, *options, given=DOUBLES)
            made = int(re.search(rb"rounds (\d+)", ran.after)[1])
            before = run("trace", "--rounds", made, *options, given=DOUBLES)
            ends = (ran.status, ran.err, ran.out == before.out, made > 9)
            self.equals(ran.command, "how it ends", (1, b"icserve: overgrown\n", True, True), ends)
            self.equals(before.command, "status", 0, before.status)
        ran = run("reduce", "--rounds", MOST, "--nodes", 10_000, "--partial", given=DOUBLES)
        self.equals(ran.command, "status, and whether a net is printed", (1, True), (ran.status, ran.out.startswith(b"<|")))

    def test_a_million_rounds_are_made_and_a_table_is_told(self):
        self.runs("reduce", "--rounds", 10**6, given=TWO, out=["<S(S(Z))|>"])
        table = [HEAD, "1\t1\t7\t1\t2", "2\t1\t3\t0\t0"]
        self.runs("trace", given=TWO, out=table)
        self.runs("trace", "--format", "tsv", given=TWO, out=table)
        self.refuses("reduce", "--rounds", 10**6, given=LOOP.text, out=["<|A(a)=B(a)>"], line="not done", status=5)
        ran = run("trace", given=LOOP.text)
        self.equals(ran.command, "status, what is told, and how many lines", (0, NOT_DONE, 10**6 + 1), (ran.status, ran.err, ran.out.count(b"\n")))

    def test_figures_of_a_cut_trace_are_told_as_partial(self):
        """By the million rounds that are made if no number is said, by a number, and by a round that is broken off."""
        eaten = "#rich\n{number S Z; E><S(E);E><Z} <|E=%d>"
        for count, words, rounds in ((1_000_000, [], 10**6), (5, ["--rounds", 3], 3), (5, ["--rounds", 0], 0)):
            average = "1.0" if rounds else "0.0"
            told = f"icserve: work {rounds}, partial span {rounds}, pairs at once {average} on average, {min(rounds, 1)} at most\n".encode()
            ran = run("trace", "--stats", *words, given=eaten % count)
            self.equals(ran.command, "status, and what is told", (0, told + NOT_DONE), (ran.status, ran.err))
            told = {"work": rounds, "span": rounds, "average": float(average), "greatest": min(rounds, 1), "partial": True}
            ran = run("trace", "--stats", "--format", "json", *words, given=eaten % count)
            figures, rest = ran.err.split(b"\n", 1)
            self.equals(ran.command, "status, and what is told", (0, told, NOT_DONE), (ran.status, json.loads(figures), rest))
        ran = run("trace", "--stats", "--nodes", 10_000, given=DOUBLES)
        told = (ran.err + ran.after).split(b"\n")
        self.equals(ran.command, "status, and what is told", (1, b"icserve: overgrown"), (ran.status, told[1]))
        self.equals(ran.command, f"its figures: {told[0]}", True, b", partial span " in told[0])

    def test_figures_of_a_whole_trace_are_not(self):
        """Also if as many rounds are made as may be, or a stuck pair is left."""
        for text, words, work, stuck in ((TWO, [], 2, b""), (TWO, ["--rounds", 2], 2, b""), ("{A><B} <|A=B,A=C>", [], 1, b"icserve: stuck A><C\n")):
            told = f"icserve: work {work}, span {work}, pairs at once 1.0 on average, 1 at most\n".encode()
            ran = run("trace", "--stats", *words, given=text)
            self.equals(ran.command, "status, and what is told", (0, told + stuck), (ran.status, ran.err))
            ran = run("trace", "--stats", "--format", "json", *words, given=text)
            self.equals(ran.command, "whether it is partial", (0, False), (ran.status, json.loads(ran.err.removesuffix(stuck))["partial"]))

    def test_as_many_rounds_as_there_may_be_are_taken(self):
        self.runs("reduce", "--rounds", MOST, given=TWO, out=["<S(S(Z))|>"])
        self.runs("trace", "--rounds", MOST, given="{} <|>", out=[HEAD])
        self.runs("trace", "--rounds", MOST, "--format", "json", given="{} <|>")
        for word in ("reduce", "trace"):
            ran = run(word, "--rounds", MOST + 1, given=TWO)
            self.equals(ran.command, "status and standard output", (2, b""), (ran.status, ran.out))
            self.equals(ran.command, f"the range is told: {ran.err}", True, b"0..=4611686018427387904" in ran.err)

    def test_rounds_that_are_cut_go_on_where_they_ended(self):
        """A configuration that isn't done is printed all the same; with the rules before it, it is reduced further."""
        text = (TOP / "examples/ackermann.ic").read_text()
        rules = text[: text.index("}") + 1]
        whole, rounds, status = run("reduce", "--rounds", 10**6, given=text), 0, 5
        while status == 5:
            ran = run("reduce", "--rounds", 5, given=text)
            text, status, rounds = rules + ran.out.decode(), ran.status, rounds + 1
        self.equals(ran.command, "the end, its status and after how many runs", (whole.out, 0, 4), (ran.out, status, rounds))


class Examples(Trial):
    """The table of the examples on docs/looks.md."""

    rooms = IN_MEMORY

    def table(self):
        """What the table tells of each example."""
        lines = (TOP / "docs/looks.md").read_text().splitlines()
        return {found[1]: found.groups()[1:] for found in map(TOLD.fullmatch, lines) if found}

    def test_the_table_has_each_example_that_is_a_system(self):
        systems = {path.name for path in TOP.glob("examples/*.ic") if "{" in path.read_text()}
        self.equals("docs/looks.md", "the systems of the table", systems, set(self.table()))

    def test_the_table_tells_how_each_example_ends(self):
        for name, (refused, answer, rounds, *_) in self.table().items():
            given = (TOP / "examples" / name).read_bytes()
            with self.subTest(example=name):
                if refused:
                    self.refuses("once", given=self.after(given, int(rounds)), line=answer, status=1)
                else:
                    self.runs("reduce", given=given, out=[answer.replace("\\|", "|")])
                    by_rounds = run("reduce", "--rounds", rounds, given=given)
                    self.equals(by_rounds.command, "status, and the net of the answer", (0, True), (by_rounds.status, is_one_net(given, answer, by_rounds.out)))

    def after(self, given, rounds):
        """The text of a system after so many rounds."""
        rules, line = given[: given.rindex(b"}") + 1], given[given.rindex(b"}") + 1 :]
        for _ in range(rounds):
            line = run("once", given=rules + line).out
        return rules + line

    def test_the_table_tells_the_sums_of_each_trace(self):
        for name, (refused, _, rounds, *sums) in self.table().items():
            given = (TOP / "examples" / name).read_bytes()
            with self.subTest(example=name):
                ran = run("trace", *(["--rounds", rounds] if refused else []), given=given)
                fired = [int(line.split(b"\t")[1]) for line in ran.out.splitlines()[1:]]
                tenths = 10 * sum(fired) // len(fired)
                came = [str(len(fired)), str(sum(fired)), str(max(fired)), f"{tenths // 10}.{tenths % 10}"]
                self.equals(ran.command, "rounds, interactions, at most, on average", [rounds, *sums], came)


class Endings(Trial):
    rooms = IN_MEMORY

    def test_refused_texts_are_told_and_nothing_is_printed(self):
        for text, fault in SYSTEMS:
            for words in (["reduce"], ["reduce", "--rounds", 9], ["trace"], ["trace", "--format", "svg"], ["trace", "--format", "json"]):
                if fault != "overgrown":
                    with self.subTest(text=text[:60], words=words):
                        self.refuses(*words, "--limits", "served", given=text, line=fault, status=1)

    def test_a_text_of_262145_bytes_is_too_long_and_one_of_262144_is_not(self):
        for words, out in ((["reduce"], "<|>\n"), (["reduce", "--rounds", 9], "<|>\n"), (["trace"], f"{HEAD}\n")):
            self.runs(*words, "--limits", "served", given=" " * (262_144 - 6) + "{} <|>", out=out)
            self.refuses(*words, "--limits", "served", given=" " * (262_145 - 6) + "{} <|>", line="bad limit", status=1)

    def test_no_more_is_read_than_a_text_may_have(self):
        """A source without end is refused at its 262,145th byte."""
        for words in (["reduce", "--limits", "served"], ["trace", "--limits", "served"], ["draw"]):
            with open("/dev/zero", "rb") as zeros:
                ran = run(*words, stdin=zeros)
            self.ended(ran, err=["icserve: bad limit"], status=1)

    def test_words_that_ask_for_nothing_have_status_2(self):
        for words in (["reduce", "F", "G"], ["reduce", "--format", "svg"], ["trace", "--rounds"], ["trace", "--rounds", "-1"]):
            ran = run(*words, given=TWO)
            self.equals(ran.command, "how it ends", (2, b"", b"error:"), (ran.status, ran.out, ran.err[:6]))

    def test_a_stuck_pair_is_told_on_standard_error_alone(self):
        text = f"{ADD} <r|Ad(r,Z)=Z,Up=Down>"
        out = ["<a|Up=Down,Ad(a,Z)=Z>"]
        self.runs("reduce", "--rounds", 9, given=text, out=out, err=["icserve: stuck Up><Down"])
        self.runs("-c", 'exec "$0" reduce --rounds 9 2>&-', PROGRAM, program="/bin/sh", given=text, out=out)
        in_place = run("reduce", given=text)
        self.equals(in_place.command, "whether a stuck pair is told", True, in_place.err in (b"icserve: stuck Ad><Z\n", b"icserve: stuck Up><Down\n"))
        self.runs("-c", 'exec "$0" reduce --stats 2>&-', PROGRAM, program="/bin/sh", given=text, out=in_place.out)

    def test_streams_that_are_closed_or_full_have_their_line(self):
        for words in (["reduce"], ["reduce", "--stats"], ["reduce", "--rounds", "9"], ["trace"], ["trace", "--format", "svg"], ["trace", "--format", "json"], ["draw"]):
            for closing, line in (("<&-", "read"), (">&-", "write"), (">/dev/full", "write")):
                shell = ["-c", f'exec "$0" "$@" {closing}', PROGRAM, *words]
                self.refuses(*shell, program="/bin/sh", given=TWO, line=line, status=4)


class Objects(Trial):
    rooms = IN_MEMORY

    def test_the_objects_of_each_example_have_the_names_and_the_numbers_of_its_table(self):
        for path in sorted(TOP.glob("examples/*.ic")):
            text = path.read_bytes()
            head, *lines = run("trace", "--nodes", 8192, given=text).out.decode().splitlines() or [HEAD]
            with self.subTest(example=path.name):
                wanted = [list(zip(head.split("\t"), map(int, line.split("\t")))) for line in lines]
                told = run("trace", "--nodes", 8192, "--format", "json", given=text).out.decode()
                came = [json.loads(line, object_pairs_hook=list) for line in told.splitlines()]
                self.equals(path.name, "the objects", wanted, came)
                self.equals(path.name, "how many lines", len(wanted), told.count("\n"))


class Pictures(Trial):
    rooms = IN_MEMORY

    def drawn(self, text, words=(), err=b""):
        """The picture of a text, which is well-formed: its title, and how many bars and points it has."""
        ran = run("trace", "--format", "svg", *words, given=text)
        self.equals(ran.command, "status and standard error", (0, err), (ran.status, ran.err))
        picture = xml.fromstring(ran.out)
        self.equals(ran.command, "what the picture is", f"{SVG}svg", picture.tag)
        bars = picture.findall(f".//{SVG}g/{SVG}rect")
        points = picture.find(f".//{SVG}polyline").get("points").split()
        return picture.find(f"{SVG}text").text, bars, points

    def test_the_picture_of_each_example_is_well_formed_and_says_what_its_table_says(self):
        tried = 0
        for path in sorted(TOP.glob("examples/*.ic")):
            text = path.read_bytes()
            table = run("trace", "--nodes", 8192, given=text)
            if table.status:
                continue
            told = [[int(it) for it in line.split("\t")] for line in table.out.decode().splitlines()[1:]]
            with self.subTest(example=path.name):
                title, bars, points = self.drawn(text)
                came = [(int(it.get("x")), int(it.get("height"))) for it in bars]
                self.equals(path.name, "the bars of the picture", [(it[0], it[1]) for it in told], came)
                nodes = [nodes_of(text), *(it[2] for it in told)]
                wanted = [f"{k * 6400 // len(told)},{count * 3500 // max(nodes)}" for k, count in enumerate(nodes)]
                self.equals(path.name, "the points of the picture", wanted, points)
                fired = sum(it[1] for it in told)
                wanted = f"{len(told)} round{'s' * (len(told) != 1)}, {fired} interaction"
                self.equals(path.name, "how the title begins", wanted, title[: len(wanted)])
                tried += 1
        self.equals("examples/", f"at least seven pictures: {tried}", True, tried >= 7)

    def test_a_picture_is_in_svg_1_1_and_its_line_is_not_stretched(self):
        """Its elements and attributes are of SVG 1.1, and a unit of the line is as wide as it is high."""
        attributes = "viewBox font-family x y width height preserveAspectRatio transform fill stroke stroke-width text-anchor points d"
        ran = run("trace", "--format", "svg", given=TWO)
        picture = xml.fromstring(ran.out)
        later = {name for it in picture.iter() for name in it.keys()} - set(attributes.split())
        later |= {it.tag for it in picture.iter()} - {f"{SVG}{name}" for name in "svg g rect text polyline path".split()}
        self.equals(ran.command, "elements and attributes of later versions", set(), later)
        places = [it.get("transform") for it in picture if it.find(f"{SVG}polyline") is not None]
        self.equals(ran.command, "how the line is placed", ["matrix(0.1 0 0 -0.1 80 400)"], places)

    def test_one_round_is_one_round_and_none_are_no_rounds(self):
        for text, rounds, title in (
            (TWO, 1, "partial: 1 round, 1 interaction, at most 1 and on average 1.0 in a round"),
            (TWO, 0, "partial: 0 rounds, 0 interactions, at most 0 and on average 0.0 in a round"),
            (TWO, 2, "2 rounds, 2 interactions, at most 1 and on average 1.0 in a round"),
        ):
            came, bars, points = self.drawn(text, ["--rounds", rounds], NOT_DONE * title.startswith("partial: "))
            self.equals(f"trace --rounds {rounds}", "the title", title, came)
            wanted = rounds, [["0,3500"], ["0,3500", "6400,3500"], ["0,3500", "3200,3500", "6400,1500"]][rounds]
            self.equals(f"trace --rounds {rounds}", "bars, and points, the first of them before the rounds", wanted, (len(bars), points))

    def test_the_pictures_in_docs_are_what_the_program_prints(self):
        """docs/NAME.svg is the trace of examples/NAME.ic, and docs/NAME-N.svg that of its first N rounds. That of `fibonacci` is of
        the rich text, for a greater number. The picture of the floors is one of the crates (`checks/floors.py`)."""
        pictures = sorted({*TOP.glob("docs/*.svg")} - {TOP / "docs/floors.svg"})
        self.equals("docs/", f"at least five pictures: {pictures}", True, len(pictures) >= 5)
        for picture in pictures:
            name, dash, count = picture.stem.partition("-")
            words = ["--rounds", count] if dash else []
            with self.subTest(picture=picture.name):
                if name == "fibonacci":
                    text = (TOP / "examples/fibonacci.rich").read_bytes().replace(b"= 10>", b"= 28>")
                else:
                    text = (TOP / "examples" / f"{name}.ic").read_bytes()
                self.runs("trace", "--format", "svg", *words, given=text, out=picture.read_bytes(), err=NOT_DONE * bool(dash))


class Faults(Trial):
    """Calls of the program to the system go wrong in turn, as in test_faults.py."""

    rooms = IN_MEMORY
    seconds = 15
    in_turn = test_faults.Faults.in_turn
    is_fault = test_faults.Faults.is_fault

    def setUp(self):
        super().setUp()
        shimmed()
        self.log = self.room / "log"
        self.came = set()

    # Words, a text, and how the run ends: standard output, standard error and the status.
    RUNS = [
        (["reduce"], TWO, b"<S(S(Z))|>\n", b"", 0),
        (["reduce", "--steps", "1"], TWO, b"<S(a)|Z=Add(a,S(Z))>\n", b"icserve: not done\n", 5),
        (["reduce", "--rounds", "9"], TWO, b"<S(S(Z))|>\n", b"", 0),
        (["reduce", "--rounds", "1"], TWO, b"<S(a)|Z=Add(a,S(Z))>\n", b"icserve: not done\n", 5),
        (["reduce"], "{A><B} <|A=C>", b"<|A=C>\n", b"icserve: stuck A><C\n", 0),
        (["reduce", "--rounds", "9"], "{A><B} <|A=C>", b"<|A=C>\n", b"icserve: stuck A><C\n", 0),
        (["reduce"], "{A(B,x)><A(x,C)} <|>", b"", b"icserve: bad lopsided 1\n", 1),
        (["draw"], "<a|a=b>", as_lines([*GRAPH, "J0 [shape=point, width=0.05, height=0.05]", "I1 -- J0", "J0 -- b", "}"]), b"", 0),
        (["draw"], "{} <a1,a1|a1=A>", b"", b"icserve: bad name a1\n", 1),
        (["trace"], TWO, f"{HEAD}\n1\t1\t7\t1\t2\n2\t1\t3\t0\t0\n".encode(), b"", 0),
    ]

    def test_each_growth_is_refused_in_turn(self):
        """It is `memory`, with nothing printed, or all goes as if it weren't refused; but where the line is printed before, its
        own line of standard error may be wanting, which the status tells."""
        for words, text, out, err, status in self.RUNS:

            def attempt(env, call, words=words, text=text, out=out, err=err, status=status):
                ran = run(*words, given=text, env=env)
                if (ran.status, ran.out, ran.err) == (status, out, err):
                    return
                if ran.out and (ran.out, ran.status) == (out, 0) and not ran.err and b"stuck" in err:
                    return
                self.is_fault(ran, call, (4, "memory"))
                is_begun = words[0] == "trace" and out.startswith(ran.out)
                if not is_begun and not (status == 5 and ran.out == out):
                    self.agrees(ran.command, f"standard output, where it went wrong: {call}", b"", ran.out)

            self.in_turn("growth", ("once", "on"), attempt)
        self.equals("reduce, trace and draw", "the faults that came", {(4, "memory")}, self.came)

    def test_each_read_and_write_fails_in_turn(self):
        shown = [(it, TWO, run(*it, given=TWO).out, b"", 0) for it in (["trace", "--format", "svg"], ["trace", "--format", "json"])]
        cut = ["trace", "--nodes", "5000"]
        shown.append((cut, DOUBLES, run(*cut, given=DOUBLES).out, b"icserve: overgrown\n", 1))
        for words, text, out, err, status in [*self.RUNS, *shown]:
            writes = ("once", "on", "nothing", "half", "interrupt", "short")
            for what, ways in (("read", ("once", "on", "interrupt", "short")), ("write", writes)):
                for how in ways:

                    def attempt(env, call, words=words, text=text, what=what, how=how, ends=(out, err, status)):
                        ran = run(*words, given=text, env=env)
                        if how in ("interrupt", "short") or not was_refused(self.log):
                            self.ended(ran, *ends)
                            return
                        self.is_fault(ran, call, (4, what))
                        if not ends[0].startswith(ran.out):
                            self.told(ran.command, "standard output, which is cut", ends[0], ran.out)

                    self.in_turn(what, [how], attempt)
        self.equals("reduce, trace and draw", "the faults that came", {(4, "read"), (4, "write")}, self.came)
