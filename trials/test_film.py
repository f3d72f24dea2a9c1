"""The script `film`: its pages have a frame for each round and one before, with the texts of `reduce --rounds` and the nets of
`draw`; agents that stay keep their numbers; and a browser, where there is one, goes where keys and clicks say."""

import os
import re
import shutil
import subprocess
import sys
from html.parser import HTMLParser

from draws import system, system_text
from graphs import graph_of
from known import ADD
from model import read_system
from nets import form_of
from program import IN_MEMORY, PATIENCE, PROGRAM, TOP, Trial, run
from test_draw import parts_of

FILM = TOP / "film"

# Systems beside the examples: names that join two terms before the first round, points, circles, open ends, a stuck pair, an
# agent that is its own neighbour, rules that join and rules that are their own swap, nothing at all, and a name after which no
# other has a number.
SYSTEMS = [
    "{} <|>",
    "{A><B} <|x=A,x=B>",
    "{A><B} <r,s|A=A,r=b,b=c,c=s,q=w>",
    "{A(x)><B(x)} <r,x|A(x)=A(y),z=S(z),y=y1,w=w,r=B(q),B(p)=A(D(p)),q1=C(C(q1))>",
    "{A(x,y)><A(y,x); A(B(x),y)><B(A(x,y))} <r,s|A(r,x)=B(y),A(s,y)=B(x),A(u,v)=A(v,u),A(p,q)=A(E,F)>",
    "{A(B(x))><B(A(x))} <|A(x)=B(x),A(y)=B(z),A(z)=B(y)>",
    "{0(x,y,z)><1(z,x,y)} <t|0(t,T,t1)=1(t1,E(t2),t2),s=t3>",
    "{A(B(x))><B(A(x))} <v165191049|v165191049=A(B(C)),A(p)=B(q),A(s)=B(t)>",
]

# What a page's own script is tried with: the keys and clicks that are made, and where each leads.
DRIVER = """<script>
const at = () => document.querySelector(".frame.now").id + " " + document.querySelector(".bar.now").getAttribute("href");
const found = [at()], does = (it, what) => { it.dispatchEvent(what); found.push(at()); };
const key = it => does(document.body, new KeyboardEvent("keydown", { key: it, bubbles: true }));
const click = it => does(document.querySelector(it), new MouseEvent("click", { bubbles: true, cancelable: true }));
["ArrowRight", "ArrowRight", "ArrowLeft", "End", "ArrowRight", "Home", "ArrowLeft"].forEach(key);
[".bar[href='#round-2']", "#back", "#next", "#last", "#first"].forEach(click);
key(" ");
found.push([...document.querySelectorAll(".frame")].filter(it => it.getClientRects().length).length + " shown");
found.push([...document.querySelectorAll("li.due")].length + " due");
setTimeout(() => { found.push(at()); document.title = found.join(", "); }, 20000);
</script></body>"""


class Page(HTMLParser):
    """A page as a browser reads it: its frames, each with its text, the classes of the parts of its net and its agents, and
    what is wrong with the page."""

    is_port = False

    def __init__(self, text):
        super().__init__()
        self.open, self.faults, self.ids, self.frames = [], [], [], []
        self.feed(text)
        self.close()
        self.faults += [f"not closed: {it}" for it in self.open]
        self.faults += [f"twice: {it}" for it in self.ids if self.ids.count(it) > 1]

    def handle_starttag(self, tag, attrs):
        words = dict(attrs)
        if tag not in ("meta", "br"):
            self.open.append(tag)
        if "id" in words:
            self.ids.append(words["id"])
        if any(it.startswith("on") or it == "src" for it in words) or not words.get("href", "#")[0] == "#":
            self.faults.append(f"reaches out: {attrs}")
        classes = words.get("class", "").split()
        if tag == "figure":
            self.frames.append({"id": words["id"], "text": "", "told": "", "parts": [], "agents": []})
        elif tag == "g" and classes:
            self.frames[-1]["parts"].append(classes)
            if "agent" in classes:
                self.frames[-1]["agents"].append([words["data-agent"], words.get("data-place"), "", []])
        elif tag == "text":
            self.is_port = classes == ["port"]
            if self.is_port:
                self.frames[-1]["agents"][-1][3].append("")
        elif "bar" in classes:
            next(it for it in self.frames if "bar" not in it)["bar"] = words["href"]

    def handle_startendtag(self, tag, attrs):
        self.handle_starttag(tag, attrs)
        self.handle_endtag(tag)

    def handle_endtag(self, tag):
        if not self.open or self.open.pop() != tag:
            self.faults.append(f"closed: {tag} at {self.getpos()}")

    def handle_data(self, data):
        if not self.frames:
            return
        frame, tags = self.frames[-1], self.open
        if tags[-1:] == ["pre"]:
            frame["text"] += data
        elif "figcaption" in tags:
            frame["told"] += data
        elif tags[-1:] == ["text"] and "figure" in tags and "agent" in frame["parts"][-1]:
            agent = frame["agents"][-1]
            if self.is_port:
                agent[3][-1] += data
            else:
                agent[2] += data


def systems():
    """The examples that a film shows whole, the great one in part, and the systems above: texts with the words for each."""
    for path in sorted(TOP.glob("examples/*.ic")):
        if "{" in path.read_text():
            yield path.read_text(), ["--rounds", 6] if path.stem == "unending" else []
    for text in SYSTEMS:
        yield text, ["--rounds", 3]


class Films(Trial):
    rooms = IN_MEMORY
    seconds = 20

    def film(self, *words, **how):
        """Runs the script over the program that is tried."""
        return run(*words, program=FILM, before=[sys.executable], **{"env": {**os.environ, "ICSERVE": PROGRAM}, **how})

    def page(self, *words, **how):
        """The page of a film, which must be made without a word, and be whole."""
        if not shutil.which("dot"):
            self.skipTest("Graphviz's dot isn't installed: films aren't tried")
        ran = self.film(*words, **how)
        self.equals(ran.command, "status and standard error", (0, b""), (ran.status, ran.err))
        page = Page(ran.out.decode())
        self.equals(ran.command, "what is wrong with the page", [], page.faults)
        return page

    def shows(self, text, *words):
        """Fails unless the film of a system shows what the program tells of it."""
        frames, told = self.page(*words, given=text).frames, run("trace", *words, given=text).out.decode().splitlines()
        rows = [list(map(int, it.split("\t"))) for it in told[1:]]
        self.equals(text, "the frames", [f"round-{k}" for k in range(len(told))], [it["id"] for it in frames])
        self.equals(text, "where the bars lead", [f"#{it['id']}" for it in frames], [it["bar"] for it in frames])
        for count, frame in enumerate(frames):
            after = run("reduce", "--rounds", count, given=text).out.decode() if count else "".join(text[text.rfind("}") + 1 :].split()) + "\n"
            self.equals(text, f"the configuration after {count} rounds", after, frame["text"] + "\n")
            nodes = rows[count - 1][2] if count else len(re.findall(r"\w+", after))
            self.equals(text, f"{nodes} nodes told", True, re.search(rf"\b{nodes} nodes?\b", frame["told"]) is not None)
            self.net_is_drawn(parts_of(text)[0] + frame["text"], frame)
        for row, before, after in zip(rows, frames, frames[1:]):
            self.equals(text, f"the pairs of round {row[0]}", row[1], sum({"wire", "fires"} <= {*it} for it in before["parts"]))
            self.agents_stay(f"{text}, round {row[0]}", row[1], before, after)

    def net_is_drawn(self, text, frame):
        """Fails unless a frame has the vertices, the wires and the pairs that the program draws of a system."""
        graph = graph_of(run("draw", given=text).out.decode())
        ends = {end for it in graph.edges for end in it.ends if ":" not in end and end[0] != "J"}
        wanted = len(graph.agents), graph.joints, len(ends), len(graph.edges), graph.thick
        kinds = [sum(word in it for it in frame["parts"]) for word in ("agent", "point", "end", "wire")]
        fires = sum({"wire", "fires"} <= {*it} for it in frame["parts"])
        self.equals(text, "agents, points, outer ends, wires and pairs that fire", wanted, (*kinds, fires))
        told = [(sign, [str(k + 1) for k in range(arity)] if arity > 2 else []) for sign, arity in graph.agents]
        shown = [(sign, sorted(ports, key=int)) for _, _, sign, ports in frame["agents"]]
        self.equals(text, "the symbols, with the numbers of more than two ports", sorted(told), sorted(shown))

    def agents_stay(self, text, pairs, before, after):
        """Fails unless each agent but two of each pair keeps its number and symbol, and each new one has the number of an agent
        that is gone as its place."""
        old, new = ({number: sign for number, _, sign, _ in it["agents"]} for it in (before, after))
        stay = old.keys() & new.keys()
        self.equals(text, "how many stay", len(old) - 2 * pairs, len(stay))
        self.equals(text, "those with another symbol", [], [it for it in stay if old[it] != new[it]])
        places = {place for number, place, *_ in after["agents"] if number not in old}
        self.equals(text, "places that are none of agents that are gone", set(), places - (old.keys() - new.keys()))

    def test_films_show_what_reduce_trace_and_draw_tell(self):
        for text, words in systems():
            with self.subTest(text=text[:60]):
                self.shows(text, *words)

    def test_a_film_begins_after_some_rounds(self):
        loop = "{A(B(x))><B(A(x))} <|A(x)=B(x)>"
        for text, begin, most in (((TOP / "examples/sort.ic").read_text(), 7, 5), ((TOP / "examples/church.ic").read_text(), 3, 99), (loop, 1_000, 3)):
            frames = self.page("--from", begin, "--rounds", most, given=text).frames
            rows = run("trace", "--rounds", begin + most, given=text).out.decode().splitlines()
            self.equals(text, "the frames", [f"round-{k}" for k in range(begin, len(rows))], [it["id"] for it in frames])
            self.equals(text, "where the bars lead", [f"#{it['id']}" for it in frames], [it["bar"] for it in frames])
            rules = read_system(text.encode())[0]
            for count, frame in enumerate(frames, begin):
                after = run("reduce", "--rounds", count, given=text).out
                self.equals(text, f"the net after {count} rounds", form_of(rules, after), form_of(rules, frame["text"].encode()))
                fires = sum({"wire", "fires"} <= {*it} for it in frame["parts"])
                if count + 1 < len(rows):
                    self.equals(text, f"the pairs of round {count + 1}", int(rows[count + 1].split("\t")[1]), fires)

    def test_a_film_that_would_begin_after_the_end_shows_the_end(self):
        frames = self.page("--from", 99, given=(TOP / "examples/addition.ic").read_text()).frames
        self.equals("--from 99", "the frames", ["round-3"], [it["id"] for it in frames])

    def test_drawn_systems_are_shown_so_too(self):
        draws = self.draws()
        for count in range(15):
            text = system_text(*system(draws, 1 + count % 5))
            if run("reduce", "--rounds", 4, given=text).status in (0, 5):
                with self.subTest(text=text[:60]):
                    self.shows(text, "--rounds", 4)

    def test_frames_tell_what_fires_and_what_is_stuck(self):
        told = [it["told"] for it in self.page(given=(TOP / "examples/addition.ic").read_text()).frames]
        self.equals("addition.ic", "its second round", True, "Fires next: Add><S (rule 2)" in told[1])
        self.equals("addition.ic", "its third round", True, "Fires next: Add><Z (rule 1)" in told[2])
        self.equals("addition.ic", "its end", True, "No step is possible" in told[3])
        (told,) = (it["told"] for it in self.page(given="{A><B} <|A=A>").frames)
        self.equals("A=A", "what is stuck", True, "there is no rule for A><A" in told)
        given = "{A><B;K(x)><L(x)} <|A=A,A=B,x=K(x)>"
        dashed = self.film(given=given).out.decode().count("stroke-dasharray")
        self.equals(given, "how many wires of its frames are dashed: of a pair without a rule, twice", 2, dashed)
        told = [it["told"] for it in self.page("--rounds", 1, given=f"{ADD} <r|Add(r,Z)=S(S(Z))>").frames]
        self.equals("Add(r,Z)=S(S(Z))", "where it is cut", True, "The film ends here" in told[1])

    def test_names_of_files_are_escaped_and_the_same_bytes_come_again(self):
        path = self.room / "a<b>&.ic"
        shutil.copy(TOP / "examples/addition.ic", path)
        self.page(path)
        ran = [self.film(path).out for _ in range(2)]
        self.equals("film", "whether it is escaped", True, b"<h1>a&lt;b&gt;&amp;.ic, round by round" in ran[0])
        self.agrees("film", "the page made again", *ran)


class Refusals(Trial):
    rooms = IN_MEMORY
    film, page = Films.film, Films.page

    def test_a_refused_text_is_told_as_the_program_tells_it(self):
        for text in ("<r|r=Z>", "{A(x)><B} <|>", "{} <r|r=r>", ""):
            wanted = run("trace", given=text)
            self.equals(text, "how the trace ends", (1, b""), (wanted.status, wanted.out))
            self.equals(text, "how the film ends", wanted[1:], self.film(given=text)[1:])

    def test_a_refused_file_is_named_as_the_program_names_it(self):
        path = self.room / "text.ic"
        path.write_text("{A(x)><B} <|>")
        wanted = run("trace", path)
        self.equals(path, "how the trace ends", (1, b""), (wanted.status, wanted.out))
        self.equals(path, "how the film ends", wanted[1:], self.film(path)[1:])

    def test_what_is_too_large_is_refused_with_the_rounds_that_fit(self):
        def refused(line, *words, given):
            self.ended(self.film(*words, given=given), err=[f"film: {line}"], status=1)

        unending = (TOP / "examples/unending.ic").read_text()
        for words in ([], ["--rounds", 9]):
            line = "the net has 1020 nodes after round 9, and a film shows at most 600: --rounds 8 ends before"
            refused(line, *words, given=unending)
        wide = "{} <|" + ",".join(["A=A"] * 301) + ">"
        refused("the net has 602 nodes before the first round, and a film shows at most 600", given=wide)
        line = "the net has 1020 nodes after round 9, with which the film begins, and a film shows at most 600"
        for words in ([], ["--rounds", 0], ["--rounds", 3]):
            refused(line, "--from", 9, *words, given=unending)
        for begin in ([], ["--from", 8]):
            self.equals("film --rounds 0", f"frames: {begin}", 1, len(self.page(*begin, "--rounds", 0, given=unending).frames))
        endless = "{A(B(x))><B(A(x))} <|A(x)=B(x)>"
        refused("a film shows at most 200 rounds: --rounds 200 ends there", given=endless)
        refused("a film shows at most 200 rounds: --rounds 200 ends there", "--rounds", 201, given=endless)
        self.equals("film", "frames of 200 rounds", 201, len(self.page("--rounds", 200, given=endless).frames))
        self.equals("film", "frames of 600 nodes", 1, len(self.page(given=wide.replace("A=A,A=A", "A=A", 1)).frames))
        self.equals("film", "frames of no round", 1, len(self.page("--rounds", 0, given=unending).frames))

    def test_without_graphviz_one_line_says_so(self):
        how = {"env": {"PATH": str(self.room), "ICSERVE": PROGRAM}, "given": f"{ADD} <r|Add(r,Z)=Z>"}
        line = "film: Graphviz's dot, which lays nets out, isn't on the path (Debian: apt-get install graphviz)"
        self.ended(self.film(**how), err=[line], status=1)

    def test_words_and_files_that_there_are_not(self):
        for words in (["--rounds", "-1"], ["--rounds", "x"], ["a", "b"], ["--steps"]):
            self.equals(f"film {words}", "status", 2, self.film(*words).status)
        absent = self.room / "absent"
        self.ended(self.film(absent), err=[f"film: No such file or directory: {absent}"], status=4)

    def test_the_installed_program_is_the_one_beside_it(self):
        for name, source in (("icserve-film", FILM), ("icserve", PROGRAM)):
            shutil.copy(source, self.room / name)
        how = {"env": {"PATH": os.environ["PATH"]}, "program": self.room / "icserve-film"}
        ran = run("--rounds", 0, given="<|>", before=[sys.executable], **how)
        self.equals(ran.command, "what it tells", (1, b"icserve: bad syntax\n"), (ran.status, ran.err))
        (self.room / "icserve").unlink()
        ran = run(given="<|>", before=[sys.executable], **{**how, "env": {"PATH": str(self.room)}})
        self.ended(ran, err=["film: icserve is neither beside this script nor on the path"], status=4)


class Browser(Trial):
    """A page in a real browser, where Chromium is on the path."""

    seconds = 10

    def dumped(self, page, *words):
        """The page as Chromium has it after its scripts."""
        browser = shutil.which("chromium") or shutil.which("chromium-browser")
        if not browser or not shutil.which("dot"):
            self.skipTest("Chromium or Graphviz isn't installed: no film is tried in a browser")
        path = self.room / "page.html"
        path.write_text(page)
        flags = ["--headless", "--no-sandbox", "--disable-gpu", f"--user-data-dir={self.room}/profile", *words]
        command = [browser, *flags, "--virtual-time-budget=60000", "--dump-dom", path.as_uri()]
        how = {"stdin": subprocess.DEVNULL, "stdout": subprocess.PIPE, "stderr": subprocess.DEVNULL, "timeout": PATIENCE}
        ran = subprocess.run(command, **{**how, "env": {**os.environ, "HOME": str(self.room)}})
        self.equals(" ".join(map(str, command)), "status", 0, ran.returncode)
        return ran.stdout.decode()

    def test_keys_clicks_and_playing_lead_from_frame_to_frame(self):
        page = Films.film(self, TOP / "examples/addition.ic").out.decode()
        found = re.search(r"<title>(.*?)</title>", self.dumped(page.replace("</body>", DRIVER)))[1].split(", ")
        wanted = [0, 1, 2, 1, 3, 3, 0, 0, 2, 1, 2, 3, 0, 1]
        wanted = [f"round-{k} #round-{k}" for k in wanted] + ["1 shown", "1 due", "round-3 #round-3"]
        self.equals("addition.ic", "the frames that keys, clicks and playing lead to", wanted, found)
