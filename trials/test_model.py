"""The model answers the worked rows as they stand, so model and rows, which the gate tries, say the same. Its settling is the
one of docs/rounds.md, step after step."""

import random
import unittest

import draws
import model
import model_disk
import steps
from model import Fault, Refusal
from program import SEED, Trial
from worked_rows import expanded, rows


def printed_or_fault(read, text):
    try:
        return model.printed(*read(text))
    except Fault as fault:
        return str(fault)


def rounds(text, most, kind):
    """What rows of rounds tell: each round with its next name, or how many there are until nothing moves."""
    rules, config = model.read_system(text)
    told = []
    while len(told) < most and not (kind == "ends" and model.is_quiet(rules, config)):
        try:
            config = model.round_of(rules, config)
        except Refusal as refusal:
            return f"{len(told)} {refusal}"
        told.append(f"{config.next} {model.printed(rules, config)} ")
    ending = "quiet" if model.is_quiet(rules, config) else "on"
    return f"{len(told)} {ending} {model.printed(rules, config)}" if kind == "ends" else "".join(told) + ending


def line_told(text):
    """A line as it is read."""
    try:
        return asked_told(model.read_line(text))
    except Fault as fault:
        return str(fault)


def asked_told(asked):
    word, *rest = asked
    if word == "submit":
        name, rules, config, budget = rest
        rest = [name, *([budget] if budget else []), model.printed(rules, config)]
    return " ".join(map(str, [word, *rest])).strip()


def served(text):
    """What is answered to each of the lines, and the disk that they leave."""
    disk = model_disk.Disk()
    disk.create()
    _, every, lines = text.split(" ", 2)
    told = []
    for part in lines.split(" + "):
        server = model_disk.Server(disk, int(every))
        told += [server.answer(line) for line in expanded(part).split(b" ; ")]
    return " ; ".join(it for it in told if it is not None), server


class TheModelSettlesAsDefined(Trial):
    def test_one_walk_is_step_after_step(self):
        drawn = random.Random(f"{SEED} {self.id()}")
        for _ in range(1_500):
            rules, config = draws.system(drawn, drawn.choice([1, 2, 3]), 3)
            after = model.fired(rules, config)
            text = model.printed(rules, config)
            with self.subTest(text, seed=SEED):
                settled = model.settled_by_steps(after)
                self.equals(f"the model, of {text}", "one walk", settled, model.settled(after))
                active = any(rules.find(*equation) for equation in settled.equations)
                self.equals(f"the model, of {text}", "quiet, once settled", not active, model.is_quiet(rules, settled))
                is_quiet = settled == after and not active
                self.equals(f"the model, of {text}", "quiet, once fired", is_quiet, model.is_quiet(rules, after))


class TheModelAnswersTheRows(Trial):
    seconds, needs_program = 60, False

    def answers(self, answer, crate, *kinds):
        found = rows(crate, *kinds)
        self.equals(f"rows of {crate}", f"rows of {kinds}", True, bool(found))
        for name, kind, text, wanted in found:
            with self.subTest(name, kind=kind, text=text[:200]):
                wanted = wanted.partition(b", jobs before")[0]
                came = answer(kind, text).encode()[:2000]
                self.agrees(f"the model, of row {name}: {kind} {text[:200]}", "the answer", wanted[:2000], came)

    def test_of_settling(self):
        def answer(_, text):
            ran = model_disk.settle(expanded(text))
            return (ran.out or b"%d " % ran.status + ran.err).decode()[:-1].replace("1 icserve: ", "")

        self.answers(answer, "texts", "settle")

    def test_of_settling_step_after_step(self):
        for name, _, text, wanted in rows("texts", "settle"):
            if wanted.startswith(b"<") and len(text) < 300:
                with self.subTest(name, text=text):
                    rules, config = model.read_configuration(expanded(text))
                    self.agrees(f"row {name}: {text}", "the text", wanted, model.printed(rules, model.settled_by_steps(config)))

    def test_of_single_steps(self):
        def answer(kind, text):
            place, _, system = text.partition(" ")
            rules, config = model.read_system(expanded(system))
            return self.step_told(rules, config, int(place), kind)

        self.answers(answer, "ic_rows", "interact", "indirect", "collect")

    def step_told(self, rules, config, place, kind):
        if place >= len(config.equations):
            return "NotThere"
        try:
            made = steps.step(rules, config, steps.STEPS_AT * place + steps.KINDS.index(kind))
        except Refusal:
            return "Limit"
        return model.printed(rules, made[0]) if made else "NotThere"

    def test_of_drawn_rounds(self):
        def answer(_, text):
            most, _, system = text.partition(" ")
            return rounds(expanded(system), int(most), "ends").partition("quiet ")[2]

        self.answers(answer, "ic_rows", "alike")

    def test_of_one_round(self):
        def answer(_, text):
            ran = model_disk.once(expanded(text))
            return (ran.out or ran.err).decode()[:-1].replace("icserve: ", "")

        self.answers(answer, "texts", "once")

    def test_of_texts(self):
        reads = {"config": model.read_configuration, "system": model.read_system}
        self.answers(lambda kind, text: printed_or_fault(reads[kind], expanded(text)), "texts", "config", "system")

    def test_of_rounds(self):
        def answer(kind, text):
            most, _, system = text.partition(" ")
            return rounds(expanded(system), int(most), kind)

        self.answers(answer, "texts", "rounds", "ends")

    def test_of_lines(self):
        self.answers(lambda _, text: line_told(expanded(text)), "commands", "line")

    def test_of_served_lines(self):
        self.answers(lambda _, text: served(text)[0], "lines", "serve", "again")

    def test_of_numbers_of_slots(self):
        self.answers(lambda _, text: str(served(text)[1].disk.number), "lines", "newest")

    def test_of_scripts(self):
        def answer(_, text):
            try:
                commands = model_disk.read_script(expanded(text).replace(b"/", b"\n"))
            except Fault as fault:
                return str(fault).replace(":", "")
            disk = model_disk.Disk()
            disk.create()
            server = model_disk.Server(disk)
            return " ; ".join(server.command(*it) for it in commands) or "nothing"

        self.answers(answer, "commands", "script")

    def test_of_byte_forms(self):
        def answer(_, text):
            form = bytes.fromhex(expanded(text).decode())
            table = model_disk.decode(form)
            return "not a table" if table is None else table.apply("list")

        self.answers(answer, "forms", "bytes")


if __name__ == "__main__":
    unittest.main()
