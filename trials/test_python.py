"""The Python package: the examples of its calls, its refusals, servers that end, the notebook, and how it is installed."""

import ast
import contextlib
import doctest
import importlib
import io
import json
import os
import shutil
import signal
import subprocess
import sys
import threading
import time

from known import ADD, LOOP, TWO
from program import IN_MEMORY, PATIENCE, PROGRAM, TOP, Trial, run
from test_listen import Listening

PACKAGE = TOP / "python/icserve"

# The notebook, and what it says.
NOTEBOOK = TOP / "examples/tour.ipynb"
SAID = ("<S(S(S(S(Z))))|>", "no rule for Ad><Z", "Row(round=3, pairs=1, nodes=5", "(3, 3)", "the server was killed", "state='done', rounds=3")


class Axes:
    """What is called of it, in order."""

    def __init__(self):
        self.calls = []

    def __getattr__(self, name):
        return lambda *given: self.calls.append(f"{name}({', '.join(map(repr, given))})")


class Package(Trial):
    rooms = IN_MEMORY

    def setUp(self):
        super().setUp()
        os.environ["ICSERVE"] = PROGRAM
        sys.path.insert(0, str(TOP / "python"))
        self.addCleanup(sys.path.remove, str(TOP / "python"))
        self.icserve = importlib.import_module("icserve")

    def raised(self, fault, call, *words, **named):
        try:
            came = call(*words, **named)
        except fault as raised:
            return raised
        return self.told(f"{call} {words}", "what is raised", fault, came)


class Calls(Package):
    def test_the_example_of_each_call_answers_what_stands_there(self):
        for name in ("icserve", "icserve.nets", "icserve.server"):
            tried = doctest.testmod(importlib.import_module(name))
            self.equals(name, "its examples that fail", (0, True), (tried.failed, tried.attempted > 2))

    def test_answers_are_those_of_the_program(self):
        for path in sorted((TOP / "examples").glob("*.ic")):
            text = path.read_text()
            text = text if text.lstrip().startswith("{") else "{}" + text
            words = ["--steps", "20000", "--partial"]
            wanted = run("reduce", *words, given=text)
            came = self.icserve.reduce(text, steps=20000)
            self.equals(path, "the answer", (wanted.out.decode(), wanted.status == 0), (came.text + "\n", came.is_done))
            self.equals(path, "interactions by rule", came.interactions, sum(came.by_rule.values()))
            rows = run("trace", "--rounds", 5, given=text).out.decode().split("\n")[1:-1]
            self.equals(path, "the rows", rows, ["\t".join(map(str, it)) for it in self.icserve.trace(text, 5)])
        self.equals("Add(r,x)=x", "the circle", (None, "Add"), (lambda it: (it.stuck, it.circle))(self.icserve.reduce("{} <r|Add(r,x)=x>")))
        self.equals("Ad(r,Z)=Z", "what is stuck", "Ad><Z", self.icserve.reduce("{Add(x,x)><Z} <r|Ad(r,Z)=Z>").stuck)
        self.equals("a round", "the answer", ("<S(a)|Z=Add(a,S(Z))>", False), (lambda it: (it.text, it.is_done))(self.icserve.reduce(TWO.text, rounds=1)))

    def test_what_is_refused_is_raised_by_its_name(self):
        fault = self.raised(self.icserve.Refusal, self.icserve.reduce, "{A><B")
        self.equals("{A><B", "the refusal", ("bad syntax", 1), (fault.name, fault.status))
        self.equals("{A><B", "whether its place is told", True, fault.told.startswith("line 1, column 6"))
        grows = "{A(Q,B(P,x))><B(R,A(S,x))} <|A(S,n)=B(P,n)>"
        fault = self.raised(self.icserve.Refusal, self.icserve.reduce, grows, nodes=1000)
        self.equals(grows, "the refusal", ("overgrown", 1), (fault.name, fault.status))
        self.equals(grows, "whether figures are told, and no object", True, fault.told.startswith("interactions ") and "{" not in fault.told)
        fault = self.raised(self.icserve.Refusal, self.icserve.reduce, TWO.text, workers=65)
        self.equals("65 workers", "the status", 2, fault.status)
        fault = self.raised(self.icserve.Refusal, self.icserve.resume, self.room / "none")
        self.equals("no file", "the refusal", ("device", 3), (fault.name, fault.status))

    def test_rich_texts(self):
        self.raised(ValueError, self.icserve.reduce, "#rich\n{A><B} <|A=B> <|>")
        found = self.icserve.check("#rich\n{A><B}\n let a = A\n<|A=B>")
        self.equals("check", "what it finds", [(False, "let a is used nowhere", 3, 6, None)], [tuple(it) for it in found])

    def test_a_reduction_is_kept_and_goes_on(self):
        text = f"{ADD} <r|Add(r,{'S(' * 999}Z{')' * 999})={'S(' * 999}Z{')' * 999}>"
        cut = self.icserve.reduce(text, steps=100, keep=self.room / "kept")
        self.equals("100 steps", "interactions, and whether it is done", (100, False), (cut.interactions, cut.is_done))
        whole = self.icserve.resume(self.room / "kept", workers=3)
        self.equals("resume", "interactions, threads, and whether it is done", (1000, 3, True), (whole.interactions, whole.threads, whole.is_done))

    def test_plots_are_drawn_on_axes(self):
        """By stand-ins for those of matplotlib, which may not be there."""
        axes = Axes()
        rows = [self.icserve.Row(1, 2, 5, 1, 0), self.icserve.Row(2, 3, 0, 0, 0)]
        answers = [self.icserve.reduce(TWO.text), self.icserve.reduce("{} <|>")]
        self.equals("plot", "what it returns", axes, self.icserve.plot(rows, axes))
        self.equals("plot_times", "what it returns", axes, self.icserve.plot_times(answers, axes))
        wanted = ["bar([1, 2], [2, 3])", "set_xlabel('round')", "set_ylabel('pairs that fire')"]
        times = [it.milliseconds for it in answers]
        wanted += [f"loglog([2, 0], {times}, 'o')", "set_xlabel('interactions')", "set_ylabel('milliseconds')"]
        self.equals("plots", "what is drawn", wanted, axes.calls)
        self.equals("work_and_span", "the sums", (5, 2), self.icserve.work_and_span(rows))

    def test_it_is_python_of_3_8_with_types(self):
        for path in PACKAGE.glob("*.py"):
            tree = ast.parse(path.read_text(), feature_version=(3, 8))
            untyped = [it.name for it in ast.walk(tree) if isinstance(it, ast.FunctionDef) and it.returns is None]
            self.equals(path, "functions without types", [], untyped)
        self.equals(PACKAGE, "whether it says that it has types", True, (PACKAGE / "py.typed").exists())

    def test_mypy_finds_no_fault_of_types(self):
        if not shutil.which("mypy"):
            self.skipTest("mypy isn't installed: types are not tried")
        ran = run("--strict", "--cache-dir", self.room, PACKAGE, program=shutil.which("mypy"))
        self.equals(ran.command, f"how it ends; it said {ran.out}", 0, ran.status)


class Servers(Package):
    def test_commands_and_refusals(self):
        with self.icserve.Server(self.room / "jobs.disk") as server:
            server.submit("two", TWO.text.replace("<r|", "\n<r|"))
            server.submit("loop", LOOP.text, budget=5)
            server.copy("two", "other")
            server.pause("two")
            server.resume("two")
            self.equals("run", "rounds made", 9, server.run(2500))
            self.equals("list", "the jobs", [("two", "done", 2), ("loop", "spent", 5), ("other", "done", 2)], [it[:3] for it in server.list()])
            self.equals("fetch", "the job", ("two", "done", 2, "<S(S(Z))|>"), tuple(server.fetch("two")))
            server.submit("rich", '#rich\n{use "lib/nat.rich"}\n<r|Add(1,r)=2>')
            self.equals("wait", "the answer of a rich text", "<S(S(S(Z)))|>", server.wait("rich").text)
            server.cancel("rich")
            server.cancel("two")
            self.equals("fetch", "the reason", "nojob", self.raised(self.icserve.JobRefused, server.fetch, "two").reason)
            self.equals("submit", "the fault", "bad syntax", self.raised(self.icserve.BadLine, server.submit, "x", "{A").fault)
            self.raised(ValueError, server.ask, " \n")
        self.equals("list", "the jobs after it was closed", b"jobs loop:spent:5 other:done:2\n", run("serve", "--disk", self.room / "jobs.disk", given="list\n").out)

    def test_threads_share_a_server_and_a_shared_one_is_waited_for(self):
        disk, path = self.disk(), self.room / "socket"
        with Listening(disk, path, "--rounds"):
            def work(number):
                with self.icserve.Server(socket=path) as server:
                    server.submit(f"sum{number}", TWO.text)
                    done[number] = server.wait(f"sum{number}").text

            done = [None] * 8
            threads = [threading.Thread(target=work, args=[it]) for it in range(8)]
            for it in threads:
                it.start()
            for it in threads:
                it.join()
            self.equals("8 clients", "their jobs", ["<S(S(Z))|>"] * 8, done)
            with self.icserve.Server(socket=path) as server:
                threads = [threading.Thread(target=lambda: [server.fetch("sum1") for _ in range(100)]) for _ in range(4)]
                for it in threads:
                    it.start()
                for it in threads:
                    it.join()
                self.equals("4 threads", "a further answer", 8, len(server.list()))

    def test_a_shared_server_that_is_begun_just_after_is_found(self):
        disk, path, came = self.disk(), self.room / "socket", []

        def ask():
            with self.icserve.Server(socket=path, wait=60) as server:
                came.append(server.list())

        client = threading.Thread(target=ask)
        client.start()
        time.sleep(0.5)
        with Listening(disk, path):
            client.join()
        self.equals("Server(socket=..)", "the jobs", [[]], came)
        self.raised(FileNotFoundError, self.icserve.Server, socket=self.room / "none", wait=1)

    def test_a_server_that_ends_is_told_of(self):
        server = self.icserve.Server(self.room / "jobs.disk")
        server.submit("two", TWO.text)
        fault = self.raised(self.icserve.Refusal, self.icserve.Server, self.room / "jobs.disk")
        self.equals("a second server", "the refusal", ("locked", 6), (fault.name, fault.status))
        ends = threading.Timer(0.5, os.kill, (server._process.pid, signal.SIGKILL))
        ends.start()
        with self.icserve.Server(self.room / "jobs.disk", wait=60) as other:
            self.equals("a second server that waits", "the jobs", ["two"], [it.name for it in other.list()])
        ends.join()
        fault = self.raised(self.icserve.ServerEnded, server.list)
        self.equals("a server that was killed", "what is told", "the server has ended; whatever it has answered is kept", str(fault))
        server.close()
        with self.icserve.Server(self.room / "jobs.disk") as server:
            self.equals("list", "the jobs", ["two"], [it.name for it in server.list()])


class Installed(Package):
    seconds = 8

    def test_the_cells_of_the_notebook_run(self):
        notebook = json.loads(NOTEBOOK.read_text())
        names, said = {}, io.StringIO()
        with contextlib.redirect_stdout(said):
            for cell in notebook["cells"]:
                if cell["cell_type"] == "code":
                    exec("".join(cell["source"]), names)
        names["room"].cleanup()
        for part in SAID:
            self.equals("the notebook", f"whether it says {part}", True, part in said.getvalue())

    def test_nbconvert_runs_the_notebook(self):
        """That of Debian's packages jupyter-nbconvert and python3-ipykernel."""
        python = shutil.which("python3", path="/usr/bin:/bin")
        path = os.pathsep.join([str(TOP / "python"), *filter(None, [os.environ.get("PYTHONPATH")])])
        env = {**os.environ, "PYTHONPATH": path, "HOME": str(self.room), "IPYTHONDIR": str(self.room)}
        if not python or subprocess.run([python, "-c", "import nbconvert, ipykernel"], env=env, stderr=subprocess.DEVNULL).returncode:
            self.skipTest("nbconvert and ipykernel aren't there")
        command = [python, "-m", "nbconvert", "--to", "notebook", "--execute", "--stdout", NOTEBOOK]
        ran = subprocess.run([str(it) for it in command], env=env, cwd=self.room, stdout=subprocess.PIPE, stderr=subprocess.PIPE, timeout=PATIENCE)
        self.equals(command, f"the status; it said {ran.stderr}", 0, ran.returncode)
        outputs = [it for cell in json.loads(ran.stdout)["cells"] for it in cell.get("outputs", [])]
        said = "".join("".join(it.get("text") or it.get("data", {}).get("text/plain", "")) for it in outputs)
        for part in SAID:
            self.equals(command, f"whether the notebook says {part}", True, part in said)

    def test_pip_installs_it_without_a_network(self):
        pip = [sys.executable, "-m", "pip"]
        if subprocess.run([*pip, "--version"], stdout=subprocess.DEVNULL, stderr=subprocess.DEVNULL).returncode:
            self.skipTest("there is no pip here")
        command = [*pip, "install", "--no-index", "--quiet", "--target", self.room, TOP / "python"]
        ran = subprocess.run([str(it) for it in command], stdout=subprocess.PIPE, stderr=subprocess.STDOUT, timeout=PATIENCE)
        self.equals(command, f"the status; it said {ran.stdout}", 0, ran.returncode)
        env = {**os.environ, "PYTHONPATH": str(self.room)}
        script = "import icserve; print(icserve.__file__, icserve.settle('<r|r=Z>'))"
        came = subprocess.run([sys.executable, "-c", script], env=env, cwd=self.room, stdout=subprocess.PIPE, timeout=PATIENCE).stdout.decode()
        self.equals(script, "what it prints", f"{self.room}/icserve/__init__.py <Z|>\n", came)

    def test_the_same_sources_give_the_same_wheel(self):
        wheel_of = importlib.import_module("wheel_of")
        wheels = []
        for name in ("one", "two"):
            (self.room / name).mkdir()
            wheels.append((self.room / name / wheel_of.build_wheel(self.room / name)).read_bytes())
        self.agrees("python/", "the wheel made again", *wheels)
