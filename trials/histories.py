"""A small model of what several clients and runners leave together over one disk: which tables may be kept, one after the
other, each after one line of a client and any rounds. Clients use no job of another; a job that ends isn't paused."""

from known import LOOP, STILL, TWO, Job, answered


def drawn_scripts(draw, clients, length):
    """Scripts of so many clients, each on jobs of its own."""
    return [drawn_script(draw, [f"j{place}-{i}" for i in range(3)], draw.randrange(length)) for place in range(clients)]


def drawn_script(draw, names, length):
    """Lines on these jobs, of which the first never ends."""
    lines = []
    for _ in range(length):
        name, word = draw.choice(names), draw.choice(("submit", "submit", "pause", "resume", "fetch", "cancel"))
        if word == "submit":
            lines.append(f"submit {name} {LOOP.text if name == names[0] else draw.choice((TWO, STILL)).text}")
        elif word in ("pause", "resume"):
            lines.append(f"{word} {names[0]}")
        else:
            lines.append(f"{word} {name}")
    return lines


def table_of(answers):
    """The table of which these are the answers to `fetch` of each job, in order; None where one is no round of its job."""
    table = []
    for answer in answers:
        name, state, rounds, config = answer.split(" ", 3)
        job = next((Job(name, it, state, int(rounds)) for it in (LOOP, TWO, STILL) if shows(it, int(rounds), config)), None)
        table.append(job)
    return None if None in table else tuple(table)


def shows(system, rounds, config):
    return (system is LOOP or rounds < len(system.rounds)) and system.config(rounds) == config


def moved_to(table, found):
    """The table with each running job at the rounds that it has in another table, if they are no fewer."""
    rounds = {it.name: it.rounds for it in found}
    return tuple(it.at(max(it.rounds, rounds.get(it.name, 0))) if it.state == "running" else it for it in table)


def next_change(table, lines):
    """How many lines there are up to the first that changes the table, and that line; None where none does."""
    for count, line in enumerate(lines, 1):
        if answered(table, line, 1)[0]:
            return count, line
    return None


def kept_next(table, rests, found):
    """What is left of each client's lines where another table was kept after this one; None where it can't have been. It is
    kept after a line that changed it, or at the end after rounds alone."""
    before = moved_to(table, found)
    for place, lines in enumerate(rests):
        change = next_change(table, lines)
        if change and answered(before, change[1], 1)[1] == found:
            return [*rests[:place], lines[change[0] :], *rests[place + 1 :]]
    return rests if before == found else None


def answers_but_rounds(table, lines):
    """What a client is told, of a job that is shown the name alone: its rounds may be any."""
    for line in lines:
        _, table, answer = answered(table, line, 1)
        yield answer.split(" ")[0] if line.startswith("fetch ") and answer != "refused nojob" else answer
