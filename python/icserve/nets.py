"""What the program does with a text: it reduces, traces, checks, expands and draws it."""

import html
import importlib
import json
import os
import re
import shutil
import subprocess
from dataclasses import dataclass
from pathlib import Path
from typing import Any, Dict, List, NamedTuple, Optional, Sequence, Tuple, Union

from .program import Ran, found, run

PathText = Union[str, "os.PathLike[str]"]


@dataclass(frozen=True)
class Answer:
    """What a text was reduced to. `is_done` says whether no step is possible any more. Then `stuck` is the first pair without a rule, and
    `circle` the symbol at which the first circle is closed. `by_rule` has the interactions of each rule, by its two symbols. `span`
    is the number of rounds, of a text that is reduced by rounds or with `span=True`. `by_thread` has the interactions of each thread
    while several reduced."""

    text: str
    is_done: bool
    stuck: Optional[str] = None
    interactions: Optional[int] = None
    by_rule: Optional[Dict[str, int]] = None
    nodes: Optional[int] = None
    threads: Optional[int] = None
    milliseconds: Optional[int] = None
    circle: Optional[str] = None
    span: Optional[int] = None
    by_thread: Optional[List[int]] = None

    def __str__(self) -> str:
        return self.text


class Row(NamedTuple):
    """A round: how many pairs it fires, and the counts after it."""

    round: int
    pairs: int
    nodes: int
    equations: int
    names: int


class Finding(NamedTuple):
    """What `check` tells of a text: a fault with its place, or a warning, which has one only of a rich text."""

    is_fault: bool
    told: str
    line: Optional[int] = None
    column: Optional[int] = None
    name: Optional[str] = None


def answer_of(ran: Ran) -> Answer:
    ran.well(5)
    text = ran.out.rstrip("\n")
    if "\n" in text:
        raise ValueError("the text has several configurations, and an answer is that of one")
    figures = json.loads(next(it for it in ran.err.split("\n") if it.startswith("{")))
    by_rule: Dict[str, int] = {}
    for it in figures["by_rule"]:
        by_rule[it["rule"]] = by_rule.get(it["rule"], 0) + it["interactions"]
    names = ("stuck", "circle", "interactions", "nodes", "threads", "milliseconds")
    span, by_thread = figures.get("rounds", figures.get("span")), figures.get("by_thread")
    return Answer(text, ran.status == 0, by_rule=by_rule, span=span, by_thread=by_thread, **{it: figures[it] for it in names})


def options(**values: Optional[Any]) -> List[str]:
    """Words of the program: `steps=3` is `--steps 3`, and what is None is left out."""
    return [it for name, value in values.items() if value is not None for it in (f"--{name}", str(value))]


def reduce(
    text: str,
    workers: Optional[int] = None,
    steps: Optional[int] = None,
    nodes: Optional[int] = None,
    rounds: Optional[int] = None,
    keep: Optional[PathText] = None,
    span: bool = False,
) -> Answer:
    """Reduces a text: by steps in any order until none is possible, or by so many rounds. With `span` it is told how many rounds
    there would have been.

    >>> answer = reduce("{Add(x,x)><Z; Add(S(x),y)><S(Add(x,y))} <r|Add(r,S(Z))=S(S(Z))>")
    >>> answer.text, answer.interactions, answer.by_rule
    ('<S(S(S(Z)))|>', 3, {'Add><Z': 1, 'Add><S': 2})
    >>> reduce("{A(B(x))><B(A(x))} <|A(x)=B(x)>", steps=1000).is_done
    False
    >>> reduce("{A><B} <|A=B,A=B>", rounds=100).span
    1
    >>> reduce("{A><B} <|A=B,A=B>", span=True).span
    1

    With `keep` it is kept in two files now and then, and goes on by `resume` after a stop. What the program refuses raises
    `Refusal`."""
    words = options(workers=workers, steps=steps, nodes=nodes, rounds=rounds, keep=keep) + ["--span"] * span
    return answer_of(run("reduce", "--partial", "--stats", "--format", "json", *words, given=text))


def resume(
    keep: PathText,
    steps: Optional[int] = None,
    nodes: Optional[int] = None,
    workers: Optional[int] = None,
    rounds: Optional[int] = None,
) -> Answer:
    """Goes on with a reduction that is kept.

    >>> import tempfile
    >>> room = tempfile.TemporaryDirectory()
    >>> reduce("{A(B(x))><B(A(x))} <|A(x)=B(x)>", steps=10, keep=room.name + "/kept").is_done
    False
    >>> resume(room.name + "/kept", steps=20).interactions
    20
    """
    words = options(resume=keep, steps=steps, nodes=nodes, workers=workers, rounds=rounds)
    return answer_of(run("reduce", "--partial", "--stats", "--format", "json", *words))


def settle(text: str) -> str:
    """A configuration without the names that only join two terms.

    >>> settle("<r|r=S(s),s=Z>")
    '<S(Z)|>'
    """
    return run("settle", given=text).well().out.rstrip("\n")


def trace(text: str, rounds: Optional[int] = None) -> List[Row]:
    """What each round does. `pandas.DataFrame(trace(text))` is a table of it.

    >>> trace("{A><B} <|A=B,A=B>")
    [Row(round=1, pairs=2, nodes=0, equations=0, names=0)]
    """
    ran = run("trace", *options(rounds=rounds), given=text).well(5)
    return [Row(*map(int, it.split("\t"))) for it in ran.out.split("\n")[1:] if it]


def check(text: str) -> List[Finding]:
    """The faults of a text, and what is legal and mostly a mistake.

    >>> check("{A><B} <|A=C>")[0].told
    'no rule for A><C'
    >>> check("{A><B} <|A=").pop()
    Finding(is_fault=True, told='the text ends before its system does: {RULES} <INTERFACE|EQUATIONS>', line=1, column=12, name='bad syntax')
    """
    ran = run("check", "--format", "json", "-", given=text).well(1)
    objects = [json.loads(it) for it in ran.out.split("\n") if it]
    return [finding_of(it) for it in objects]


def finding_of(told: Dict[str, Any]) -> Finding:
    if "warning" in told:
        return Finding(False, told["warning"], told.get("line"), told.get("column"))
    return Finding(True, told["sentence"], told["line"], told["column"], told["fault"])


def expand(text: str) -> str:
    """A text with comments, long names, copy and erase, as a plain text.

    >>> expand("{number S Z} <sum|sum=2>")
    '{} <a|a=S(S(Z))>'
    """
    return run("expand", given=text).well().out


class Picture:
    """A net as a graph: `dot` is its text for Graphviz, which a notebook shows if Graphviz is there."""

    def __init__(self, dot: str) -> None:
        self.dot = dot

    def svg(self) -> str:
        """The picture, laid out by Graphviz."""
        layout = subprocess.run(["dot", "-Tsvg"], input=self.dot, stdout=subprocess.PIPE, check=True, universal_newlines=True)
        return layout.stdout

    def _repr_svg_(self) -> Optional[str]:
        return self.svg() if shutil.which("dot") else None

    def __repr__(self) -> str:
        return self.dot


class Film:
    """A net round by round: `html` is a page, which a notebook shows in a frame."""

    def __init__(self, page: str) -> None:
        self.html = page

    def save(self, path: PathText) -> None:
        Path(path).write_text(self.html)

    def _repr_html_(self) -> str:
        return f'<iframe sandbox="allow-scripts" width="100%" height="700" srcdoc="{html.escape(self.html)}"></iframe>'


def draw(text: str, rounds: Optional[int] = None) -> Picture:
    """The net of a configuration, or of a system, of which pairs that fire are thick: as it stands, or after so many rounds.

    >>> draw("<|A=B>").dot.startswith("graph")
    True
    """
    return Picture(run("draw", *options(rounds=rounds), given=text).well().out)


def film(text: str, rounds: Optional[int] = None, begin: Optional[int] = None) -> Film:
    """A page that shows a net round by round, after `begin` rounds that it doesn't show. It needs Graphviz."""
    script = found("icserve-film", "ICSERVE_FILM", "film")
    words = options(rounds=rounds, **{"from": begin})
    return Film(run(*words, given=text, command=[script]).well().out)


def new_axes() -> Any:
    """The axes of matplotlib's figure, which is made where there is none."""
    return importlib.import_module("matplotlib.pyplot").gca()


def plot(rows: Sequence[Row], axes: Any = None) -> Any:
    """A plot of how many pairs each round fires, by matplotlib."""
    if axes is None:
        axes = new_axes()
    axes.bar([it.round for it in rows], [it.pairs for it in rows])
    axes.set_xlabel("round")
    axes.set_ylabel("pairs that fire")
    return axes


def plot_times(answers: Sequence[Answer], axes: Any = None) -> Any:
    """A plot of the milliseconds that reductions took against their interactions, both by powers of ten, by matplotlib."""
    if axes is None:
        axes = new_axes()
    axes.loglog([it.interactions for it in answers], [it.milliseconds for it in answers], "o")
    axes.set_xlabel("interactions")
    axes.set_ylabel("milliseconds")
    return axes


def work_and_span(rows: Sequence[Row]) -> Tuple[int, int]:
    """How many pairs all rounds fire, and how many rounds there are.

    >>> work_and_span(trace("{A><B} <|A=B,A=B>"))
    (2, 1)
    """
    return sum(it.pairs for it in rows), len(rows)


def version() -> str:
    """What `icserve --version` prints.

    >>> version().split()[0]
    'icserve'
    """
    return run("--version").well().out.strip()
