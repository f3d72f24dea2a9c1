"""Texts of any size for `cluster/large`, and what becomes of them without a stop."""

import json
import sys

from program import IN_MEMORY, TOP, run
from shards import Shards

sys.path.insert(0, str(TOP / "bench"))

from systems import ACKERMANN, FIBONACCI, numeral  # noqa: E402

# Equations of which a pair is left, and none.
STUCK = ",Stop(z)=Wait(z)"


def drawn_text(draw):
    """A system of 10^6 to 10^7 interactions, whose answer has no names, and whether a pair is left."""
    stuck = STUCK if draw.random() < 0.3 else ""
    if draw.random() < 0.5:
        return f"{FIBONACCI} <r|F(r)={numeral(draw.randint(24, 27))}{stuck}>"
    one, two = draw.choice([(3, 8), (2, draw.randint(800, 1500))])
    return f"{ACKERMANN} <r|Ack(r,{numeral(two)})={numeral(one)}{stuck}>"


class Texts(Shards):
    """A trial of the scripts over a folder of texts."""

    rooms = IN_MEMORY

    def write(self, texts, folder="texts"):
        (self.room / folder).mkdir()
        for name, text in texts.items():
            (self.room / folder / f"{name}.ic").write_text(text + "\n")

    def unbroken(self, name, text):
        """What `gather` prints of a text that is reduced without a stop, and its figures."""
        ran = run("reduce", "--workers", "1", "--stats", "--format", "json", given=text, seconds=120)
        figures = next(json.loads(it) for it in ran.err.decode().splitlines() if it.startswith("{"))
        state = "stuck" if figures["stuck"] else "done"
        return f"{name} {state} {figures['interactions']} {ran.out.decode().strip()}", figures

    def end_as_unbroken(self, texts):
        """Fails unless the answers of these texts are gathered, and they and what is told of them are as without a stop."""
        wanted = {name: self.unbroken(name, text) for name, text in texts.items()}
        self.ended(self.script("gather", "texts"), out=[line for line, _ in wanted.values()])
        for name, (_, figures) in wanted.items():
            came = json.loads((self.room / f"texts/{name}.ic.figures").read_text())
            self.equals(name, "interactions by rule and the stuck pair", (figures["by_rule"], figures["stuck"]), (came["by_rule"], came["stuck"]))
        left = {it.name.split(".ic")[1] for it in (self.room / "texts").iterdir()}
        self.equals("texts", "files that are left", {"", ".answer", ".figures", ".lock"}, left)

    def answered_texts(self):
        """How many texts have answers."""
        return len(list((self.room / "texts").glob("*.answer")))

    def has(self, *ends, of="texts"):
        """Fails unless the folder has just these files, by the ends of their names."""
        self.equals(of, "the files", sorted(ends), sorted(it.name for it in (self.room / of).iterdir()))
