"""Interaction nets in Python: what the program `icserve` does with texts, and a client of its server.

    >>> import icserve
    >>> ADD = "{Add(x,x)><Z; Add(S(x),y)><S(Add(x,y))}"
    >>> icserve.reduce(ADD + "<r|Add(r,S(Z))=S(Z)>").text
    '<S(S(Z))|>'

The program is the one that the variable ICSERVE names, else `icserve` on the path, else that of the clone, the release or the install
which this file is in."""

from .nets import Answer, Film, Finding, Picture, Row, check, draw, expand, film, plot, plot_times, reduce, resume, settle, trace, version, work_and_span
from .program import Refusal
from .server import BadLine, Job, JobRefused, Server, ServerEnded

__all__ = [
    "Answer",
    "BadLine",
    "Film",
    "Finding",
    "Job",
    "JobRefused",
    "Picture",
    "Refusal",
    "Row",
    "Server",
    "ServerEnded",
    "check",
    "draw",
    "expand",
    "film",
    "plot",
    "plot_times",
    "reduce",
    "resume",
    "settle",
    "trace",
    "version",
    "work_and_span",
]
