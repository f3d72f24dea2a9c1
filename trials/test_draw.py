"""The word `draw`: the rows of trials/rows through the built program, its graphs as nets, and Graphviz's eyes on them."""

import re
import shutil
import subprocess
import time
import xml.etree.ElementTree as xml

from graphs import HEAD, configuration_of, faults_of, graph_of, shape_of
from known import ADD
from program import IN_MEMORY, TOP, Trial, run
from test_statuses import CONFIGS, SYSTEMS, nested
from worked_rows import expanded, rows, short_texts

SVG = "{http://www.w3.org/2000/svg}"
NOTHING = [*HEAD, "}"]


def examples():
    return sorted(TOP.glob("examples/*.ic"))


def drawn(text):
    """The graph that the program draws of a text."""
    ran = run("draw", given=text)
    if (ran.status, ran.err) != (0, b""):
        raise AssertionError(f"{ran.command}: {ran.status} {ran.err}")
    return graph_of(ran.out.decode())


def parts_of(text):
    """The rules before a configuration, with their braces, or nothing; and the configuration."""
    rules, brace, config = text.rpartition("}")
    return rules + brace, config


def points_of(text):
    return [tuple(map(float, it.split(","))) for it in re.findall(r"[-.\d]+,[-.\d]+", text)]


def box_of(group):
    """Where the box of an agent is in a picture: its left, upper, right and lower edge."""
    across, down = zip(*points_of(group.find(f"{SVG}polygon").get("points")))
    return min(across), min(down), max(across), max(down)


def depth_of(point, box):
    """How deep a point lies within a box, below 0 where it lies outside."""
    return min(point[0] - box[0], point[1] - box[1], box[2] - point[0], box[3] - point[1])


def curve_of(group):
    """Points of the curves along which a wire goes."""
    knots = points_of(group.find(f"{SVG}path").get("d"))
    for at in range(0, len(knots) - 3, 3):
        for step in range(21):
            t = step / 20
            parts = ((1 - t) ** 3, 3 * t * (1 - t) ** 2, 3 * t * t * (1 - t), t**3)
            yield tuple(sum(part * knot[i] for part, knot in zip(parts, knots[at : at + 4])) for i in (0, 1))


class Rows(Trial):
    rooms = IN_MEMORY

    def test_each_row_has_its_graph_or_its_refusal(self):
        tried = 0
        for name, _, text, answer in rows("texts", "draw"):
            with self.subTest(name=name):
                if answer.startswith(b"graph"):
                    self.runs("draw", given=expanded(text), out=answer)
                else:
                    self.refuses("draw", given=expanded(text), line=answer.decode(), status=1)
                tried += 1
        self.equals("draw", f"more than 40 rows: {tried}", True, tried > 40)

    def test_refused_texts_are_told_and_nothing_is_printed(self):
        """What would be `overgrown` is drawn: no round is made."""
        refused = [(text, fault) for text, fault in SYSTEMS if fault != "overgrown" and text != "<|>"]
        for text, fault in CONFIGS + refused:
            with self.subTest(text=text[:60]):
                self.refuses("draw", given=text, line=fault, status=1)

    def test_a_text_of_262145_bytes_is_too_long_and_one_of_262144_is_not(self):
        for text in ("<|>", "{} <|>"):
            self.runs("draw", given=" " * (262_144 - len(text)) + text, out=NOTHING)
            self.refuses("draw", given=" " * (262_145 - len(text)) + text, line="bad limit", status=1)

    def test_words_that_ask_for_nothing_have_status_2(self):
        for words in (["draw", "F", "G"], ["draw", "--rounds"], ["draw", "--rounds", "x"], ["draw", "--format", "svg"]):
            ran = run(*words, given="<|>")
            self.equals(ran.command, "how it ends", (2, b"", b"error:"), (ran.status, ran.out, ran.err[:6]))

    def test_8192_nodes_are_drawn_in_under_a_second(self):
        wide = "<" + ",".join(f"T({','.join(['Z'] * 15)})" for _ in range(64)) + "|" + ",".join(["A(B)=C(D)"] * 1792) + ">"
        for text in (f"<|{nested(8190)}=E>", wide, "<|" + ",".join(f"a{i}=b{i}" for i in range(1, 4097)) + ">"):
            began = time.monotonic()
            ran = run("draw", given=text)
            took = time.monotonic() - began
            self.equals(ran.command, f"drawn in under a second: {took}", True, took < 1)
            self.equals(ran.command, "status and standard error", (0, b""), (ran.status, ran.err))
            self.equals(ran.command, "what is wrong with the net", [], faults_of(graph_of(ran.out.decode())))


class Graphs(Trial):
    rooms = IN_MEMORY
    seconds = 5

    def texts(self):
        """The examples, and the short texts of the rows that aren't refused."""
        yield from (it.read_text() for it in examples())
        for text in short_texts("texts", "draw"):
            if run("draw", given=text).status == 0:
                yield text.decode()

    def test_each_port_is_an_end_of_one_wire_and_arrow_heads_are_at_principal_ports(self):
        tried = 0
        for text in self.texts():
            with self.subTest(text=text[:60]):
                self.equals("draw", "what is wrong with the net", [], faults_of(drawn(text)))
                tried += 1
        self.equals("draw", f"more than 50 texts: {tried}", True, tried > 50)

    def test_as_many_wires_are_thick_as_the_first_round_fires_pairs(self):
        for path in examples():
            text = path.read_text()
            if "{" in text:
                with self.subTest(example=path.name):
                    rows_told = run("trace", "--rounds", 1, given=text).out.decode().splitlines()[1:]
                    fired = int(rows_told[0].split("\t")[1]) if rows_told else 0
                    self.equals(path.name, "how many wires are thick", fired, drawn(text).thick)

    def test_a_configuration_is_found_again_in_its_graph(self):
        """A configuration that has a name for each wire of the graph has a graph of the same shape. Settled, it is the
        configuration's own net settled: names, order, sides and cuts of circles are all that differs."""
        for text in self.texts():
            with self.subTest(text=text[:60]):
                graph = drawn(text)
                rules, config = parts_of(text)
                again = configuration_of(graph)
                plain = graph._replace(edges=[it._replace(is_thick=False) for it in graph.edges])
                self.equals(again, "the shape of its graph", shape_of(plain), shape_of(drawn(again)))
                settled = [run("settle", given=it).out.decode() for it in (config, again)]
                self.equals(again, "the shape of its graph settled", *(shape_of(drawn(rules + it)) for it in settled))

    def test_the_same_bytes_come_for_the_same_configuration(self):
        text = f"{ADD} <r|Add(r,S(Z))=S(Z)>"
        self.equals("draw", "how many graphs came", 1, len({run("draw", given=text).out for _ in range(5)}))


class Pictures(Trial):
    """Graphviz takes what is drawn, where it is installed."""

    seconds = 5

    def svg_of(self, graph):
        """The picture that Graphviz makes of a graph, without a word of complaint."""
        dot = shutil.which("dot")
        if not dot:
            self.skipTest("Graphviz's dot isn't installed: its pictures are not tried")
        ran = subprocess.run([dot, "-Tsvg"], input=graph, stdout=subprocess.PIPE, stderr=subprocess.PIPE, timeout=120)
        self.equals(f"dot -Tsvg of {graph[:200]}", "status and standard error", (0, b""), (ran.returncode, ran.stderr))
        return ran.stdout

    def titles(self, picture):
        """The vertices and the edges in a picture of Graphviz, in its order."""
        groups = xml.fromstring(picture).iter(f"{SVG}g")
        found = [(it.get("class"), it.find(f"{SVG}title").text) for it in groups if it.get("class") in ("node", "edge")]
        return [text for kind, text in found if kind == "node"], [text for kind, text in found if kind == "edge"]

    def shows(self, picture, text):
        """Fails unless a picture has the vertices and the edges of this graph, and its symbols."""
        graph = graph_of(text)
        nodes, edges = self.titles(picture)
        ends = {end.partition(":")[0] for it in graph.edges for end in it.ends}
        agents = {f"A{k}" for k in range(len(graph.agents))} | {f"J{j}" for j in range(graph.joints)}
        self.equals(text[:200], "the vertices of the picture", sorted(ends | agents), sorted(nodes))
        # Of a wire from an agent to itself, Graphviz may tell no ports.
        told, wanted = (sorted(re.sub(r"(\w+):.*--\1:.*", r"\1--\1", it) for it in them) for them in (edges, map("--".join, (it.ends for it in graph.edges))))
        self.equals(text[:200], "the edges of the picture", wanted, told)
        words = [it.text.strip() for it in xml.fromstring(picture).iter(f"{SVG}text")]
        symbols = sorted(it for it in words if re.fullmatch(r"[A-Z0-9]\w*", it) and not re.fullmatch(r"I\d+", it))
        ports = [str(i + 1) for _, arity in graph.agents for i in range(arity if arity > 2 else 0)]
        wanted = sorted(ports + [symbol for symbol, _ in graph.agents if not re.fullmatch(r"I\d+", symbol)])
        self.equals(text[:200], "the symbols of the picture", wanted, symbols)

    def test_graphviz_takes_the_graph_of_each_example(self):
        for path in examples():
            with self.subTest(example=path.name):
                graph = run("draw", given=path.read_bytes()).out
                self.shows(self.svg_of(graph), graph.decode())

    def test_graphviz_takes_symbols_of_32_letters_and_each_row(self):
        for name, _, _, answer in rows("texts", "draw"):
            if answer.startswith(b"graph") and len(answer) < 20_000:
                with self.subTest(name=name):
                    self.svg_of(answer)

    def test_arrow_heads_are_at_the_edges_of_boxes_and_no_wire_crosses_its_agents(self):
        """A head that lies in a box, and a loop that crosses a label, would be hidden or hide it. A loop goes round its box."""
        loops = "<r,s|x=x,A(A(B,r),s)=B,y=A(y,y1),A(p,p)=q,Long(v)=v,Four(g,h,g1,h)=g,L(a,b)=M(b,a),N(c)=O(O(c)),P=P,T(e1,e2)=T(e2,e1)>"
        for text in (loops, *(it.read_text() for it in examples())):
            picture = xml.fromstring(self.svg_of(run("draw", given=text).out))
            groups = {it.find(f"{SVG}title").text: it for it in picture.iter(f"{SVG}g") if it.get("class") in ("node", "edge")}
            boxes = {name: box_of(it) for name, it in groups.items() if re.fullmatch(r"A\d+", name)}
            for name, group in groups.items():
                for end in {it.partition(":")[0] for it in name.split("--")} & set(boxes) if "--" in name else ():
                    points = [*curve_of(group), *(it for head in group.iter(f"{SVG}polygon") for it in points_of(head.get("points")))]
                    deepest = max(depth_of(it, boxes[end]) for it in points)
                    self.equals(f"{name} of {text[:60]}", f"whether it stays out of {end}, it lies {deepest} points within", True, deepest < 2)

    def test_the_nets_in_docs_are_what_the_program_draws(self):
        """docs/nets/NAME-N.svg is the net of examples/NAME.ic after N rounds."""
        pictures = sorted(TOP.glob("docs/nets/*.svg"))
        self.equals("docs/nets", f"at least six pictures: {len(pictures)}", True, len(pictures) >= 6)
        for picture in pictures:
            name, _, count = picture.stem.rpartition("-")
            text = (TOP / "examples" / f"{name}.ic").read_text()
            rules, after = parts_of(text)
            for _ in range(int(count)):
                after = run("once", given=rules + after).out.decode()
            with self.subTest(picture=picture.name):
                self.shows(picture.read_bytes(), run("draw", given=rules + after).out.decode())
