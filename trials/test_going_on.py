"""What was cut goes on: `reduce --with-rules` prints a text again, and `draw --rounds` draws the net after some rounds."""

import draws
import model
import nets
from graphs import faults_of, graph_of, shape_of
from program import IN_MEMORY, PROGRAM, TOP, Trial, run
from test_in_place import DOUBLES, stats_of
from test_wide_rounds import fibonacci, rows_of, sorting


class WithRules(Trial):
    rooms = IN_MEMORY
    seconds = 10

    def again(self, ran):
        """The system that is read again of what a run has printed: one line."""
        self.equals(ran.command, "lines", 1, ran.out.count(b"\n"))
        return model.read_system(ran.out.rstrip(b"\n"))

    def test_rules_and_configuration_are_printed_on_a_line(self):
        text = (TOP / "examples/addition.ic").read_text()
        rules = "{Add(a,a)><Z;Add(S(a),b)><S(Add(a,b))}"
        self.runs("reduce", "--with-rules", given=text, out=[f"{rules} <S(S(S(S(Z))))|>"])
        self.runs("reduce", "--with-rules", "--rounds", 1, given=text, out=[f"{rules} <S(a)|S(Z)=Add(a,S(S(Z)))>"], err=["icserve: not done"], status=5)
        self.runs("reduce", "--with-rules", given="{} <a,b|>", out=["{} <a,b|>"])

    def test_nothing_is_printed_where_no_configuration_is(self):
        self.runs("reduce", "--with-rules", "--quiet-answer", given="{} <a,b|>")
        for words in (["--workers", 1], ["--rounds", 99]):
            ran = run("reduce", "--with-rules", "--nodes", 1_000, *words, given=DOUBLES)
            self.equals(ran.command, "status and standard output", (1, b""), (ran.status, ran.out))
            ran = run("reduce", "--with-rules", "--partial", "--nodes", 1_000, *words, given=DOUBLES)
            self.equals(ran.command, "status and how it begins", (1, b"{D(D(a,b),D(c,d))><E(E(a,b),E(c,d))} <|"), (ran.status, ran.out[:39]))
        shell = ["-c", 'exec "$0" reduce --with-rules >/dev/full', PROGRAM]
        self.refuses(*shell, program="/bin/sh", given="{} <|>", line="write", status=4)

    def test_a_kept_reduction_prints_them_too(self):
        text = (TOP / "examples/sort.ic").read_text()
        plain = run("reduce", "--with-rules", given=text)
        for words, given in ((["--keep", self.room / "kept"], text), (["--resume", self.room / "kept"], b"")):
            self.runs("reduce", "--with-rules", *words, given=given, out=plain.out)

    def test_drawn_systems_are_read_again_with_the_same_rules_and_the_same_net(self):
        drawn = self.draws()
        for _ in range(100):
            rules, config = draws.system(drawn, drawn.choice([1, 2, 3, 5]), drawn.choice([2, 3, 4]))
            text = draws.system_text(rules, config)
            words = [*drawn.choice([["--steps"], ["--rounds"]]), drawn.choice([0, 1, 3, 100])]
            plain, ran = run("reduce", *words, given=text), run("reduce", *words, "--with-rules", given=text)
            self.equals(ran.command, "status and what is told", (plain.status, plain.err), (ran.status, ran.err))
            self.equals(ran.command, "what stands after the rules", plain.out, ran.out[ran.out.index(b"}") + 2 :])
            read = self.again(ran)
            given = model.read_system(text.encode())[0]
            wanted, came = ([draws.rule_text(those, it) for it in those.rules] for those in (given, read[0]))
            self.equals(ran.command, "the rules", wanted, came)
            self.equals(ran.command, "the net", nets.form_of(given, plain.out), nets.form_in(read[0], read[1].interface, read[1].equations))

    def test_what_is_cut_anywhere_goes_on_by_itself(self):
        drawn = self.draws()
        for text in (fibonacci(12), sorting(30)):
            plain = run("reduce", "--workers", 1, "--stats", given=text)
            line, left = text.encode(), stats_of(plain.err)[0]
            while True:
                words = drawn.choice([["--steps", drawn.randint(0, 2_000)], ["--rounds", drawn.randint(0, 30)]])
                ran = run("reduce", *words, "--with-rules", "--stats", given=line)
                left -= stats_of(ran.err)[0]
                line = ran.out
                if ran.status == 0:
                    break
            self.equals(ran.command, "interactions that are left", 0, left)
            self.agrees(ran.command, "the net, which has no equation", plain.out, line[line.index(b"}") + 2 :])


class AfterRounds(Trial):
    rooms = IN_MEMORY
    seconds = 5

    def test_the_net_after_rounds_is_drawn_with_active_pairs_thick(self):
        for path in sorted(TOP.glob("examples/*.ic")):
            text = path.read_text()
            if "{" not in text:
                continue
            rows = [it for it in rows_of(run("trace", "--rounds", 9, given=text)) if it[2] < 200]
            for count in range(len(rows) + 1):
                ran = run("draw", "--rounds", count, path)
                self.equals(ran.command, "status and standard error", (0, b""), (ran.status, ran.err))
                graph = graph_of(ran.out.decode())
                self.equals(ran.command, "what is wrong with the net", [], faults_of(graph))
                if count < len(rows):
                    self.equals(ran.command, "how many wires are thick", rows[count][1], graph.thick)
                again = run("draw", given=run("reduce", "--rounds", count, "--with-rules", given=text).out)
                self.equals(ran.command, "the graph", shape_of(graph_of(again.out.decode())), shape_of(graph))

    def test_a_small_net_after_many_rounds_of_a_wide_text_is_drawn(self):
        text = sorting(60)
        rows = rows_of(run("trace", given=text))
        ran = run("draw", "--rounds", len(rows), given=text)
        self.equals(ran.command, "status and standard error", (0, b""), (ran.status, ran.err))
        self.equals(ran.command, "agents", rows[-1][2], len(graph_of(ran.out.decode()).agents))

    def test_what_is_too_large_to_be_drawn_is_told(self):
        told = "after {} rounds the net, or its rules, pass the limits of what is drawn: icserve help limits\n"
        ran = run("draw", "--rounds", 40, given=fibonacci(20))
        self.equals(ran.command, "how it ends", (1, b"", f"icserve: bad limit\n{told.format(40)}".encode()), (ran.status, ran.out, ran.err + ran.after))
        self.refuses("draw", "--rounds", 3, given="{A><B", line="bad syntax", status=1)
        self.refuses("draw", "--rounds", 3, given="<|A=B>", line="bad syntax", status=1)
