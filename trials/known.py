"""A small model of a table of jobs whose rounds are known by hand: what each line is answered, and which tables are kept
on the way. A table is a tuple of jobs in the order of their submission."""

from typing import NamedTuple

ADD = "{Add(x,x)><Z;Add(S(x),y)><S(Add(x,y))}"
MOST_JOBS = 32


def name_text(number):
    """The text of the name with this number: a letter, and how often the letters were gone through."""
    return chr(97 + number % 26) + (str(number // 26) if number >= 26 else "")


class Ends(NamedTuple):
    """A system with its configurations round by round, the last of which is quiet."""

    text: str
    rounds: tuple

    def config(self, rounds):
        return self.rounds[rounds]

    def is_quiet(self, rounds):
        return rounds == len(self.rounds) - 1


class Loops(NamedTuple):
    """The system that never ends: each round takes one name more, from `y`, the 24th, on."""

    text: str = "{A(B(x))><B(A(x))} <|A(x)=B(x)>"

    def config(self, rounds):
        name = name_text(23 + rounds)
        return f"<|B({name})=A({name})>" if rounds else "<|A(x)=B(x)>"

    def is_quiet(self, rounds):
        return False


LOOP = Loops()
TWO = Ends(f"{ADD} <r|Add(r,S(Z))=S(Z)>", ("<r|Add(r,S(Z))=S(Z)>", "<S(s)|Z=Add(s,S(Z))>", "<S(S(Z))|>"))
STILL = Ends("{} <|x=x>", ("<|x=x>",))

# Enough equations for a lap by threads.
WIDE_ROUNDS = tuple("<|" + ",".join([it] * 1000) + ">" for it in ("A=B,A=B,A=B,Q=R", "Q=R"))
WIDE = Ends("{A><B} " + WIDE_ROUNDS[0], WIDE_ROUNDS)

# Two such rounds.
WAVES_ROUNDS = tuple("<|" + ",".join(it + ["Q=R"] * 3940) + ">" for it in (["D(C)=F(C)"] * 60, ["C=C"] * 60, []))
WAVES = Ends("{D(x)><F(x);C><C} " + WAVES_ROUNDS[0], WAVES_ROUNDS)

# The words that read a text, and what each reads: a configuration, a system, either of the two, or a text that is expanded.
TEXT_WORDS = {"settle": "configuration", "once": "system", "reduce": "system", "trace": "system", "draw": "either", "expand": "expanded"}
CHAIN = "<r|r=S(s),s=Z>"
TEXTS = {"configuration": CHAIN, "system": TWO.text, "either": CHAIN, "expanded": "{copy D} # twice\n<one,two|D(one,two)=S(Z)>"}


def words_for(*kinds):
    """The words that read texts of these kinds."""
    return [word for word, kind in TEXT_WORDS.items() if kind in kinds]


class Job(NamedTuple):
    name: str
    system: object
    state: str
    rounds: int

    def at(self, rounds):
        """The job after so many rounds, which is done where it is quiet then."""
        return self._replace(rounds=rounds, state="done" if self.system.is_quiet(rounds) else "running")


def listed(table):
    return "jobs" + "".join(f" {it.name}:{it.state}:{it.rounds}" for it in table)


def fetched(job):
    return f"{job.name} {job.state} {job.rounds} {job.system.config(job.rounds)}"


def asked_for(table):
    """The lines that show a whole table, and their answers."""
    return ["list", *(f"fetch {it.name}" for it in table)], [listed(table), *map(fetched, table)]


def with_changed(table, place, job):
    return table[:place] + (job,) + table[place + 1 :]


def submitted(table, name, system):
    if any(it.name == name for it in table):
        return table, "refused taken"
    if len(table) == MOST_JOBS:
        return table, "refused full"
    return (*table, Job(name, system, "running", 0).at(0)), "accepted"


def commanded(table, word, name):
    """The table after a command on a job, and its answer."""
    place = next((i for i, it in enumerate(table) if it.name == name), None)
    if place is None:
        return table, "refused nojob"
    job = table[place]
    if word == "fetch":
        return table, fetched(job)
    if word == "cancel":
        return table[:place] + table[place + 1 :], "ok"
    before, after = ("running", "paused") if word == "pause" else ("paused", "running")
    if job.state != before:
        return table, f"refused not{before}"
    return with_changed(table, place, job._replace(state=after)), "ok"


def rounds_of(table, count):
    """The tables after each round of a run."""
    after = 0
    for _ in range(count):
        due = [i for i, it in enumerate(table) if it.state == "running"]
        if not due:
            return
        place = next((i for i in due if i >= after), due[0])
        table, after = with_changed(table, place, table[place].at(table[place].rounds + 1)), place + 1
        yield table


def answered(table, line, every):
    """The tables that are kept while the line is done, in order; the table after it; and its answer, None of a blank line."""
    words = line.split(" ", 2)
    if words[0] == "run":
        passed = list(rounds_of(table, int(words[1])))
        is_rest = len(passed) % every != 0
        return passed[every - 1 :: every] + passed[-1:] * is_rest, (passed or [table])[-1], f"ran {len(passed)}"
    if not line:
        return [], table, None
    if line == "list":
        return [], table, listed(table)
    if words[0] == "submit":
        system = next(it for it in (LOOP, TWO, STILL, WIDE, WAVES) if it.text == words[2])
        after, answer = submitted(table, words[1], system)
    else:
        after, answer = commanded(table, words[0], words[1])
    return [after] * (answer in ("accepted", "ok")), after, answer


def drawn_line(draw, names=40, runs=(0, 1, 2, 7, 30, 100)):
    """A line on one of a few jobs, drawn so that tables fill up and empty again."""
    name = f"j{draw.randrange(names)}"
    kind = draw.random()
    if kind < 0.3:
        return f"submit {name} {draw.choice((LOOP, TWO, STILL)).text}"
    if kind < 0.5:
        return f"run {draw.choice(runs)}"
    if kind < 0.55:
        return ""
    return draw.choice((f"cancel {name}", f"pause {name}", f"resume {name}", f"fetch {name}", f"fetch {name}", "list"))
