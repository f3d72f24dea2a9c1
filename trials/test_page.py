"""The page in the browser: what its calls answer, which it refuses, and, where Chromium is there, how it is used."""

import contextlib
import http.client
import json
import os
import re
import shutil
import signal
import subprocess
import sys
import time
import xml.etree.ElementTree as xml

from known import LOOP, TWO
from program import IN_MEMORY, PATIENCE, PROGRAM, TOP, Trial, run
from test_listen import Listening

BROWSER = shutil.which("chromium")


class Page:
    """The script while it listens."""

    def __init__(self, *words):
        command = [sys.executable, str(TOP / "page"), *map(str, words)]
        self.process = subprocess.Popen(command, env={**os.environ, "ICSERVE": PROGRAM}, stdout=subprocess.PIPE, stderr=subprocess.PIPE)
        self.address = self.process.stdout.readline().decode().strip()
        self.port, self.key = re.fullmatch(r"http://127\.0\.0\.1:(\d+)/#key=(\S+)", self.address).groups()

    def __enter__(self):
        return self

    def __exit__(self, *_):
        self.process.terminate()
        self.process.communicate(timeout=PATIENCE)

    def sent(self, method, path, body=None, **headers):
        """The status, the headers and the body of an answer."""
        there = http.client.HTTPConnection("127.0.0.1", int(self.port), timeout=PATIENCE)
        with contextlib.closing(there):
            there.request(method, path, body, {it.replace("_", "-"): value for it, value in headers.items()})
            answer = there.getresponse()
            return answer.status, answer.headers, answer.read()

    def call(self, name, **asked):
        return json.loads(self.sent("POST", f"/call/{name}", json.dumps(asked), X_Key=self.key)[2])


class Calls(Trial):
    rooms = IN_MEMORY
    seconds = 10

    def test_calls_answer_what_the_program_prints(self):
        text = TWO.text
        with Page() as page:
            self.equals("reduce", "the answer", "<S(S(Z))|>", page.call("reduce", text=text)["came"]["text"])
            came = page.call("trace", text=text)["came"]
            rows = [list(map(int, it.split("\t"))) for it in run("trace", given=text).out.decode().split("\n")[1:-1]]
            self.equals("trace", "the rows", rows, came["rows"])
            self.equals("trace", "the picture", run("trace", "--format", "svg", given=text).out.decode(), came["svg"])
            found = page.call("check", text="{A><B}\n<|A=")["came"]["findings"]
            self.equals("check", "the fault's place", [(True, 2, 5)], [(it["is_fault"], it["line"], it["column"]) for it in found])
            self.equals("draw", "what is refused", ("bad syntax", True), (lambda it: (it["refused"], it["told"].startswith("line 1")))(page.call("draw", text="{")))
            stuck = page.call("reduce", text="{Add(x,x)><Z} <r|Ad(r,Z)=Z>")["came"]
            self.equals("reduce", "what is stuck", ("Ad><Z", None), (stuck["stuck"], stuck["circle"]))
            circle = page.call("reduce", text="{} <r|Add(r,x)=x>")["came"]
            self.equals("reduce", "the circle", (None, "Add"), (circle["stuck"], circle["circle"]))

    def test_examples_and_the_library_are_there_and_each_is_read(self):
        names = [it.stem for it in (TOP / "examples").glob("*.ic")] + [it.name for it in (TOP / "examples").glob("*.rich")]
        names += [f"lib/{it.name}" for it in (TOP / "lib").glob("*.rich")]
        with Page() as page:
            came = page.call("examples")["came"]["examples"]
            self.equals("examples", "their names", sorted(names), sorted(came))
            for name, text in came.items():
                faults = [it["told"] for it in page.call("check", text=text)["came"]["findings"] if it["is_fault"]]
                self.equals(name, "its faults", [], faults)

    def test_what_a_limit_ends_is_told(self):
        with Page() as page:
            self.equals("reduce", "what is told of steps", True, "10,000,000 interactions" in page.call("reduce", text=LOOP.text)["came"]["limit"])
            self.equals("draw", "what is told of a large text", True, "1,000,000 bytes" in page.call("draw", text="{" + " " * 1_000_000)["limit"])
            large = {"text": "{" + " " * 6_100_000}
            status, _, body = page.sent("POST", "/call/draw", json.dumps(large), X_Key=page.key)
            self.equals("draw", "a body that is too large", (413, True), (status, b"1,000,000 bytes" in body))
            self.equals("trace", "what is told of rounds", True, "10,000 rounds" in page.call("trace", text=LOOP.text)["came"]["limit"])

    def test_only_the_page_s_own_calls_are_answered(self):
        with Page("--socket", self.room / "none") as page:
            text = json.dumps({"text": TWO.text})
            for headers in ({}, {"X_Key": "a"}, {"X_Key": page.key + "a"}, {"X_Key": page.key, "Host": "sidelime.example"}):
                self.equals(headers, "the status", 403, page.sent("POST", "/call/reduce", text, **headers)[0])
            for path, body in (("/call/none", "{}"), ("/reduce", text), ("/call/", "{}")):
                self.equals(path, "the status", 404, page.sent("POST", path, body, X_Key=page.key)[0])
            for name, body in (("reduce", "{"), ("reduce", "[]"), ("reduce", "{}"), ("reduce", '{"text":1}'), ("on", '{"text":"","config":"","by":"--help"}'), ("jobs", '{"line":"shutdown"}'), ("jobs", '{"line":"wait a"}'), ("jobs", "{}"), ("jobs", '{"line":""}')):
                self.equals((name, body), "the status", 400, page.sent("POST", f"/call/{name}", body, X_Key=page.key)[0])
            self.equals("a server that isn't there", "what is told", True, "doesn't answer" in page.call("jobs", line="list")["limit"])
            for path in ("/film/", "/film/a", "/page.py", "/../page", "/__init__.py"):
                self.equals(path, "the status", 404, page.sent("GET", path)[0])
            self.equals("/", "another host", 403, page.sent("GET", "/", Host="sidelime.example")[0])
            status, headers, _ = page.sent("GET", "/")
            policy = headers["Content-Security-Policy"]
            self.equals("/", "its policy", (200, True, False), (status, policy.startswith("default-src 'none'"), "unsafe" in policy))
            self.equals("reduce", "whether it goes on", "<S(S(Z))|>", page.call("reduce", text=TWO.text)["came"]["text"])

    def test_a_port_that_is_taken_is_told(self):
        with Page() as page:
            ran = run(TOP / "page", "--port", page.port, program=sys.executable)
            self.equals(ran.command, "how it ends", (4, b"", True), (ran.status, ran.out, ran.err.startswith(b"icserve-page: port ")))
        self.equals(page.process.args, "status, by SIGTERM", 0, page.process.returncode)

    def test_where_the_program_is_wanting_no_page_is_shown(self):
        """Its first call builds that of a clone, for longer than a call of the page may take, so the page begins with it."""
        for path, told in ((self.room / "none", b"icserve-page: "), (shutil.which("false"), b"")):
            ran = run(TOP / "page", program=sys.executable, env={**os.environ, "ICSERVE": str(path)})
            self.equals(ran.command, "how it ends", (4, b"", True), (ran.status, ran.out, ran.err.startswith(told)))
            self.equals(ran.command, "how many lines it tells", len(told) > 0, ran.err.count(b"\n"))

    def test_films_stand_in_a_frame_of_their_own(self):
        if not shutil.which("dot"):
            self.skipTest("Graphviz isn't there")
        with Page() as page:
            at = page.call("film", text=TWO.text)["came"]["at"]
            status, headers, body = page.sent("GET", at)
            self.equals(at, "the film", (200, True), (status, body.startswith(b"<!DOCTYPE html>")))
            self.equals(at, "its policy", True, "sandbox allow-scripts" in headers["Content-Security-Policy"])


class Steps(Trial):
    """Steps and rounds, one at a time."""

    seconds = 20

    def setUp(self):
        super().setUp()
        if not shutil.which("dot"):
            self.skipTest("Graphviz isn't there")

    def test_rounds_are_those_of_the_program(self):
        with Page() as page:
            text = (TOP / "examples/multiplication.ic").read_text()
            net = page.call("begin", text=text)["came"]
            for number in range(1, 6):
                net = page.call("on", text=text, config=net["config"], by="round")["came"]
                wanted = run("reduce", "--rounds", number, given=text).out.decode().strip()
                self.equals(f"round {number}", "the net as a graph", *(self.graph(text, it) for it in (wanted, net["config"])))

    def test_rich_texts_are_stepped_through_in_their_plain_form(self):
        with Page() as page:
            for path in (TOP / "examples/addition.rich", TOP / "examples/sk.rich", TOP / "lib/bool.rich"):
                text = path.read_text()
                net = page.call("begin", text=text)["came"]
                for _ in range(200):
                    if net["pairs"]:
                        net = page.call("on", text=text, config=net["config"], by="round")["came"]
                wanted = run("reduce", "--plain", path).out.decode().strip()
                self.equals(path, "the last net", (wanted, 0), (net["config"], net["pairs"]))

    def graph(self, text, config):
        """The net without its names."""
        drawn = run("draw", given=text[: text.rfind("}") + 1] + config).out.decode()
        return sorted(re.findall(r'label="([^"]*)"', re.sub(r"\b[a-z]\d*\b", "x", drawn)))

    def test_the_marked_pair_is_the_one_that_fires(self):
        """A step fires the rule of the marked pair, and the marked pair alone goes: each other one is marked later."""
        text = "{A><B;C><D;E><F} <|A=B,C=D,E=F,D=C>"
        with Page() as page:
            net, fired = page.call("begin", text=text)["came"], []
            while net["pairs"]:
                marked = self.marked(net["svg"])
                net = page.call("on", text=text, config=net["config"], by="step")["came"]
                self.equals(net["config"], "the rule that fired", sorted(marked), sorted(net["fired"][0].split("><")))
                fired += net["fired"]
            self.equals(text, "what fired", 4, len(fired))

    def marked(self, svg):
        """The symbols of the two agents that a red wire joins."""
        space = "{http://www.w3.org/2000/svg}"
        parts = list(xml.fromstring(svg).iter(space + "g"))
        labels = {it.find(space + "title").text: [t.text for t in it.iter(space + "text")][0] for it in parts if it.get("class") == "node"}
        red = [it.find(space + "title").text for it in parts if it.get("class") == "edge" and any(p.get("stroke") == "red" for p in it.iter(space + "path"))]
        self.equals("red", "how many wires are red", 1, len(red))
        return [labels[re.match(r"\w+", end)[0]] for end in red[0].split("--")]


class Browser:
    """Chromium without a window, driven over its pipe."""

    def __init__(self, room):
        self.asks, asks = os.pipe()
        answers, self.answers = os.pipe()
        # The browser reads at 3 and writes at 4.
        script = f"exec 3<&{self.asks} 4>&{self.answers}; exec {BROWSER} --headless=new --no-sandbox --disable-gpu --disable-dev-shm-usage --remote-debugging-pipe --user-data-dir={room}/browser about:blank"
        pipes = {"stdout": subprocess.DEVNULL, "stderr": subprocess.DEVNULL, "pass_fds": (self.asks, self.answers)}
        self.process = subprocess.Popen(["bash", "-c", script], start_new_session=True, **pipes)
        os.close(self.asks)
        os.close(self.answers)
        self.write, self.read = os.fdopen(asks, "wb"), os.fdopen(answers, "rb")
        self.number = 0
        target = self.ask("Target.createTarget", url="about:blank")["targetId"]
        self.session = self.ask("Target.attachToTarget", targetId=target, flatten=True)["sessionId"]

    def ask(self, method, **params):
        self.number += 1
        session = {"sessionId": self.session} if hasattr(self, "session") else {}
        self.write.write(json.dumps({"id": self.number, "method": method, "params": params, **session}).encode() + b"\0")
        self.write.flush()
        while True:
            data = bytearray()
            while not data.endswith(b"\0"):
                byte = self.read.read(1)
                if not byte:
                    raise EOFError("the browser has ended")
                data += byte
            came = json.loads(data[:-1])
            if came.get("id") == self.number:
                return came["result"]

    def value(self, script):
        """What a script on the page gives."""
        came = self.ask("Runtime.evaluate", expression=script, returnByValue=True, awaitPromise=True)
        return came["result"].get("value")

    def until(self, script):
        """Waits until a script on the page gives something true: that."""
        end = time.monotonic() + PATIENCE
        while time.monotonic() < end:
            came = self.value(script)
            if came:
                return came
            time.sleep(0.05)
        raise AssertionError(f"{script} stays {came}; the page is {self.value('document.body.innerText')}")

    def close(self):
        os.killpg(self.process.pid, signal.SIGKILL)
        self.process.wait()
        self.write.close()
        self.read.close()


class Driven(Trial):
    """The page as a user has it, in Chromium."""

    seconds = 30

    def setUp(self):
        super().setUp()
        if not BROWSER:
            self.skipTest("Chromium isn't there")
        self.browser = Browser(self.room)
        self.addCleanup(self.browser.close)

    def write(self, text):
        self.browser.value(f"at('text').value = {json.dumps(text)}; at('text').oninput()")

    def click(self, name):
        self.browser.value(f"at({json.dumps(name)}).click()")

    def test_a_fault_is_seen_and_a_net_is_reduced_stepped_and_filmed(self):
        b = self.browser
        with Page() as page:
            b.ask("Page.navigate", url=page.address)
            b.until("document.readyState === 'complete' && at('text').value.length > 10")
            self.write("{A><B}\n<|A=")
            told = b.until("at('faults').innerText.includes('line 2, column 5') && at('faults').innerText")
            self.equals("the fault", "whether its line is shown", True, "<|A=" in told)
            self.write(TWO.text)
            b.until("at('faults').children.length === 0")
            self.click("reduce")
            b.until("at('answer').textContent === '<S(S(Z))|>'")
            self.click("trace")
            b.until("at('figures').rows.length === 3 && at('picture').querySelector('img')?.complete")
            if shutil.which("dot"):
                self.drive_steps(b)
            self.equals("the address", "whether the key has gone from it", False, "key=" in b.value("location.href"))

    def drive_steps(self, b):
        self.click("draw")
        b.until("at('picture').querySelector('img')?.naturalWidth > 0")
        self.click("begin")
        begun = b.until("at('place').textContent.startsWith('net 0') && at('answer').textContent")
        self.click("step")
        b.until("at('place').textContent.startsWith('net 1')")
        self.click("back")
        b.until("at('place').textContent.startsWith('net 0')")
        self.equals("back", "the net", begun, b.value("at('answer').textContent"))
        self.click("round")
        b.until("at('place').textContent.startsWith('net 1')")
        self.click("round")
        b.until("at('answer').textContent === '<S(S(Z))|>' && at('step').disabled")
        self.click("film")
        b.until("at('picture').querySelector('iframe')?.src.includes('/film/')")

    def test_hostile_texts_are_shown_as_texts(self):
        b = self.browser
        with Page() as page:
            b.ask("Page.navigate", url=page.address)
            b.until("document.readyState === 'complete' && at('text').value.length > 10")
            hostile = "<img src=x onerror=\"document.title='gone'\"><script>document.title='gone'</script>"
            self.write(hostile)
            b.until("at('faults').children.length > 0")
            for it in ("reduce", "trace", "draw", "begin", "film"):
                self.click(it)
                b.until("at('told').textContent.startsWith('bad')")
            self.equals("the page", "its title and images", ["icserve", 0], b.value("[document.title, document.images.length]"))

    def test_jobs_of_a_server_are_submitted_and_ended(self):
        b = self.browser
        disk = self.room / "jobs.disk"
        run("create", "--disk", disk)
        with Listening(disk, self.room / "socket", "--rounds"), Page("--socket", self.room / "socket") as page:
            b.ask("Page.navigate", url=page.address)
            b.until("document.readyState === 'complete' && !at('jobs').hidden")
            self.write(TWO.text)
            b.value("at('name').value = 'two'")
            self.click("submit")
            b.until("at('reply').textContent === 'accepted'")
            b.until("at('table').innerText.includes('done')")
            b.value("[...at('table').querySelectorAll('button')].find(it => it.textContent === 'fetch').click()")
            b.until("at('reply').textContent === 'two done 2 <S(S(Z))|>'")
            b.value("[...at('table').querySelectorAll('button')].find(it => it.textContent === 'cancel').click()")
            b.until("at('table').rows.length === 0")
