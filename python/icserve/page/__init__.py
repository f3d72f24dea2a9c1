"""A page in the browser for one text: its faults while one types, what it is reduced to, its rounds and its net, a step or a round
at a time; and the jobs of a server, if one is named. It listens on this machine alone, and each call carries a key."""

import argparse
import hmac
import json
import os
import re
import secrets
import shutil
import signal
import subprocess
import sys
import threading
import webbrowser
from http.server import BaseHTTPRequestHandler, ThreadingHTTPServer
from pathlib import Path
from typing import Any, Callable, Dict, List, Optional, Tuple

from ..nets import answer_of, finding_of
from ..program import Ran, Refusal, found, program, run
from ..server import Server, ServerEnded

HERE = Path(__file__).resolve().parent

# What one call may take at most: seconds, bytes of a text, interactions, names and agents, rounds, and calls at the same time.
SECONDS = 20
BYTES = 1_000_000
STEPS = 10_000_000
NODES = 2_000_000
ROUNDS = 10_000
CALLS = 4

# What a picture shows at most: bytes of a net as a graph. Graphviz lays a larger one out for minutes.
GRAPH = 60_000

# A call's body is at most this: its text, of which each byte may take six, and what else it says.
BODY = 6 * BYTES + 10_000

# The clone or archive in which this file is, where it is in one.
CLONE = HERE.parents[2]

# The page takes its own scripts and styles alone, pictures that it makes itself, and films in a frame.
POLICY = "default-src 'none'; script-src 'self'; style-src 'self'; connect-src 'self'; img-src blob:; frame-src 'self'; base-uri 'none'; form-action 'none'; frame-ancestors 'none'"
FILM_POLICY = "default-src 'none'; script-src 'unsafe-inline'; style-src 'unsafe-inline'; img-src data:; sandbox allow-scripts"

FILES = {"/": ("page.html", "text/html"), "/page.js": ("page.js", "text/javascript"), "/page.css": ("page.css", "text/css")}

# A wire of a drawn net between two agents that fire next.
THICK = re.compile(r"(?m)^.*\bpenwidth=.*$")


class Limit(Exception):
    """What a call would take is more than the page allows: the sentence that is shown."""


class Unasked(Exception):
    """What the page's own script never asks."""


def limited(text: str, *words: object, command: Optional[List[str]] = None) -> Ran:
    """Runs the program on a text, for so many seconds at most."""
    if len(text.encode()) > BYTES:
        raise Limit(f"the page takes texts of at most {BYTES:,} bytes")
    try:
        return run(*map(str, words), given=text, command=command or (), seconds=SECONDS)
    except subprocess.TimeoutExpired:
        raise Limit(f"it was ended after {SECONDS} seconds; icserve in a shell has no such limit") from None


def laid_out(graph: str, arguments: Tuple[str, ...] = ()) -> str:
    """The picture of a graph, by Graphviz."""
    if len(graph) > GRAPH:
        raise Limit("the net is too large for a picture: icserve draw has it as a graph")
    try:
        made = subprocess.run(["dot", "-Tsvg", *arguments], input=graph.encode(), stdout=subprocess.PIPE, stderr=subprocess.PIPE, timeout=SECONDS)
    except FileNotFoundError:
        raise Limit("pictures of nets need Graphviz, and dot isn't on the path") from None
    except subprocess.TimeoutExpired:
        raise Limit(f"Graphviz was ended after {SECONDS} seconds") from None
    return made.stdout.decode(errors="replace")


# ---- what the page asks for: each takes the object that came, and gives one back


def check(asked: Dict[str, Any]) -> Dict[str, Any]:
    ran = limited(asked["text"], "check", "--format", "json", "-").well(1)
    findings = (finding_of(json.loads(it)) for it in ran.out.split("\n") if it)
    return {"findings": [it._asdict() for it in findings]}


def reduce(asked: Dict[str, Any]) -> Dict[str, Any]:
    words = ["--partial", "--stats", "--format", "json", "--steps", STEPS, "--nodes", NODES]
    answer = answer_of(limited(asked["text"], "reduce", *words))
    ended = "" if answer.is_done else f"the page ends a reduction after {STEPS:,} interactions"
    return {"text": answer.text, "stuck": answer.stuck, "circle": answer.circle, "by_rule": answer.by_rule, "interactions": answer.interactions, "limit": ended}


def trace(asked: Dict[str, Any]) -> Dict[str, Any]:
    ran = limited(asked["text"], "trace", "--rounds", ROUNDS).well(1)
    rows = [list(map(int, it.split("\t"))) for it in ran.out.split("\n")[1:] if it]
    if ran.status == 1 and not rows:
        ran.well()
    picture = limited(asked["text"], "trace", "--format", "svg", "--rounds", ROUNDS)
    told = ran.err.strip()
    if told == "icserve: not done":
        told = f"the page shows {ROUNDS:,} rounds"
    return {"rows": rows, "svg": picture.out, "limit": told}


def draw(asked: Dict[str, Any]) -> Dict[str, Any]:
    graph = limited(asked["text"], "draw").well().out
    return {"dot": graph, "svg": laid_out(graph)}


def begin(asked: Dict[str, Any]) -> Dict[str, Any]:
    """The settled configuration of a text, from which steps and rounds go on, and its net."""
    limited(asked["text"], "draw").well()
    text = plain(asked["text"])
    rules = rules_of(text)
    return at(rules, settled(text[len(rules) :]))


def go_on(asked: Dict[str, Any]) -> Dict[str, Any]:
    """The configuration after one interaction or one round, settled, the rules that have fired, and its net."""
    rules, config = rules_of(plain(asked["text"])), asked["config"]
    if asked["by"] == "step":
        answer = answer_of(limited(rules + config, "reduce", "--partial", "--stats", "--format", "json", "--steps", 1, "--workers", 1))
        after, fired = answer.text, [it for it, count in (answer.by_rule or {}).items() if count]
    elif asked["by"] == "round":
        after, fired = limited(rules + config, "once").well().out.strip(), []
    else:
        raise Unasked
    return {**at(rules, settled(after)), "fired": fired}


def is_rich(text: str) -> bool:
    return text.split("\n", 1)[0].split()[:1] == ["#rich"]


def plain(text: str) -> str:
    """The text of the calculus for which a rich one stands; any other as it is."""
    return limited(text, "expand").well().out if is_rich(text) else text


def settled(config: str) -> str:
    return limited(config, "settle").well().out.strip()


def rules_of(text: str) -> str:
    return text[: text.rfind("}") + 1]


def at(rules: str, config: str) -> Dict[str, Any]:
    """A settled configuration and its net, with the pair marked that the next step fires: the last one that can fire."""
    graph = limited(rules + config, "draw").well().out
    pairs = list(THICK.finditer(graph))
    if pairs:
        last = pairs[-1]
        graph = graph[: last.start()] + last[0].replace("[", "[color=red ", 1) + graph[last.end() :]
    try:
        return {"config": config, "pairs": len(pairs), "svg": laid_out(graph), "limit": ""}
    except Limit as limit:
        return {"config": config, "pairs": len(pairs), "svg": "", "limit": str(limit)}


def files(folder: str, pattern: str) -> List[Path]:
    """The files of a folder of the clone or archive, or of what is installed beside the program."""
    places = (CLONE / folder, Path(program()).resolve().parent.parent / "share/icserve" / folder)
    place = next((it for it in places if it.is_dir()), None)
    return sorted(place.glob(pattern)) if place else []


def rich(path: Path) -> str:
    """A rich text that says so by itself."""
    text = path.read_text()
    return text if is_rich(text) else "#rich\n" + text


def examples(_: Dict[str, Any]) -> Dict[str, Any]:
    found = {it.stem: it.read_text() for it in files("examples", "*.ic")}
    found.update((it.name, rich(it)) for it in files("examples", "*.rich"))
    found.update((f"lib/{it.name}", rich(it)) for it in files("lib", "*.rich"))
    return {"examples": found}


class Page:
    """What the page's server holds: the key, the socket of a server of jobs, and the film that was made last."""

    def __init__(self, jobs: Optional[str]) -> None:
        self.key = secrets.token_urlsafe(16)
        self.jobs = jobs
        self.film = ("", "")
        self.filming = threading.Lock()
        self.calls = threading.BoundedSemaphore(CALLS)

    def make_film(self, asked: Dict[str, Any]) -> Dict[str, Any]:
        if not self.filming.acquire(blocking=False):
            raise Limit("a film is being made; the page makes one at a time")
        try:
            made = limited(asked["text"], command=[found("icserve-film", "ICSERVE_FILM", "film")]).well()
            self.film = (secrets.token_urlsafe(16), made.out)
        finally:
            self.filming.release()
        return {"at": f"/film/{self.film[0]}"}

    def ask_jobs(self, asked: Dict[str, Any]) -> Dict[str, Any]:
        """The answer of the server of jobs to a line. Lines that wait, or that end the server, aren't the page's to send."""
        if not self.jobs:
            raise Limit("no server of jobs is named: icserve-page --socket PATH")
        line = " ".join(asked["line"].split())
        if line.split(" ", 1)[0] not in ("list", "submit", "copy", "pause", "resume", "cancel", "fetch"):
            raise Unasked
        try:
            with Server(socket=self.jobs) as server:
                return {"answer": server.ask(line)}
        except (OSError, ServerEnded) as fault:
            raise Limit(f"the server of jobs doesn't answer: {fault}") from None

    def has_jobs(self, _: Dict[str, Any]) -> Dict[str, Any]:
        return {"socket": self.jobs or ""}

    def call(self, name: str) -> Optional[Callable[[Dict[str, Any]], Dict[str, Any]]]:
        own = {"film": self.make_film, "jobs": self.ask_jobs, "socket": self.has_jobs}
        return own.get(name) or CALLS_OF_TEXTS.get(name)

    def answer(self, name: str, body: bytes) -> Tuple[int, Dict[str, Any]]:
        """What a call answers: a status of HTTP and an object. What the program refuses, and what a limit ends, are answers."""
        call = self.call(name)
        if not call:
            return 404, {}
        try:
            with self.calls:
                return 200, {"came": call(json.loads(body))}
        except Refusal as refusal:
            return 200, {"refused": refusal.name, "told": refusal.told}
        except Limit as limit:
            return 200, {"limit": str(limit)}
        except FileNotFoundError as fault:
            return 200, {"limit": str(fault)}
        except (Unasked, ValueError, KeyError, TypeError, AttributeError):
            return 400, {}


CALLS_OF_TEXTS = {"check": check, "reduce": reduce, "trace": trace, "draw": draw, "begin": begin, "on": go_on, "examples": examples}


class Handler(BaseHTTPRequestHandler):
    """Answers a browser on this machine. Other sites can't ask: they know neither the key nor may they name this host."""

    server: "Listener"
    protocol_version = "HTTP/1.1"
    timeout = 60

    def log_message(self, *_: Any) -> None:
        pass

    def is_here(self) -> bool:
        port = self.server.server_address[1]
        return self.headers.get("Host") in (f"127.0.0.1:{port}", f"localhost:{port}")

    def send(self, status: int, kind: str, data: bytes, policy: str = POLICY) -> None:
        self.send_response(status)
        for name, value in {
            "Content-Type": f"{kind}; charset=utf-8",
            "Content-Length": str(len(data)),
            "Content-Security-Policy": policy,
            "X-Content-Type-Options": "nosniff",
            "Referrer-Policy": "no-referrer",
            "Cross-Origin-Resource-Policy": "same-origin",
            "Cache-Control": "no-store",
        }.items():
            self.send_header(name, value)
        if status >= 400:
            self.close_connection = True
            self.send_header("Connection", "close")
        self.end_headers()
        self.wfile.write(data)

    def drop(self, size: int) -> None:
        """Reads a body and leaves it, so that the browser, which sends all of it first, reads the answer."""
        while size > 0:
            came = len(self.rfile.read(min(size, 65_536)))
            size = size - came if came else 0

    def do_GET(self) -> None:
        film, html = self.server.page.film
        if not self.is_here():
            self.send(403, "text/plain", b"")
        elif self.path in FILES:
            name, kind = FILES[self.path]
            self.send(200, kind, (HERE / name).read_bytes())
        elif film and hmac.compare_digest(self.path.encode(), f"/film/{film}".encode()):
            self.send(200, "text/html", html.encode(), FILM_POLICY)
        else:
            self.send(404, "text/plain", b"")

    def do_POST(self) -> None:
        size = self.headers.get("Content-Length", "")
        if not self.is_here() or not hmac.compare_digest(self.headers.get("X-Key", "").encode(), self.server.page.key.encode()):
            self.send(403, "application/json", b"{}")
        elif not re.fullmatch("[0-9]{1,9}", size):
            self.send(411, "application/json", b"{}")
        elif int(size) > BODY:
            self.drop(int(size))
            self.send(413, "application/json", json.dumps({"limit": f"the page takes texts of at most {BYTES:,} bytes"}).encode())
        else:
            status, came = self.server.page.answer(self.path[len("/call/") :] if self.path.startswith("/call/") else "", self.rfile.read(int(size)))
            self.send(status, "application/json", json.dumps(came).encode())


class Listener(ThreadingHTTPServer):
    daemon_threads = True

    def __init__(self, port: int, page: Page) -> None:
        self.page = page
        super().__init__(("127.0.0.1", port), Handler)

    def handle_error(self, *_: Any) -> None:
        """A browser that goes away is no fault."""


def is_there() -> bool:
    """Whether the program is there. That of a clone is built first, which may take minutes; what is told of it stands on standard
    error."""
    try:
        return not subprocess.run([program(), "--version"], stdin=subprocess.DEVNULL, stdout=subprocess.DEVNULL).returncode
    except OSError as fault:
        print(f"icserve-page: {fault}", file=sys.stderr)
        return False


def narrow(prog: str) -> argparse.HelpFormatter:
    """A help is at most 100 columns wide."""
    return argparse.HelpFormatter(prog, width=min(100, shutil.get_terminal_size().columns - 2))


def main() -> int:
    form = argparse.ArgumentParser("icserve-page", formatter_class=narrow, description="Shows a page in the browser on which nets are written, reduced, stepped through and drawn.")
    form.add_argument("--socket", metavar="PATH", help="the socket of a server of jobs, which icserve-listen runs: its jobs are shown too")
    form.add_argument("--port", metavar="N", type=int, default=0, help="the port on 127.0.0.1; without it a free one")
    form.add_argument("--open", action="store_true", help="opens the page in a browser")
    words = form.parse_args()
    if not is_there():
        return 4
    page = Page(os.path.abspath(words.socket) if words.socket else None)
    try:
        listener = Listener(words.port, page)
    except (OSError, OverflowError) as fault:
        print(f"icserve-page: port {words.port}: {fault}", file=sys.stderr)
        return 4
    signal.signal(signal.SIGTERM, signal.default_int_handler)
    address = f"http://127.0.0.1:{listener.server_address[1]}/#key={page.key}"
    try:
        print(address, flush=True)
        if words.open:
            webbrowser.open(address)
        with listener:
            listener.serve_forever()
    except (KeyboardInterrupt, BrokenPipeError):
        pass
    return 0
