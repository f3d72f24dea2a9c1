"""Jobs for the scripts of cluster/, what one long serving answers of them, and how an engine that runs them is stopped as a
whole or in part, and started again."""

import os
import shutil
import signal
import subprocess
import time
from pathlib import Path

import draws
from known import LOOP
from program import PATIENCE, PROGRAM, TOP, Trial, heeds_signals, run, said_of, shown

SCRIPTS = TOP / "cluster"

# Stands for a program that a script calls: counts the calls of all, and at the one of the variable kills the script's shell,
# before the program is run or after it.
TOOL = """#!/bin/sh
calls=$(($(cat {room}/calls) + 1))
echo "$calls" >{room}/calls
[ "$calls" != "$BEFORE" ] || {{ kill -9 "$PPID"; exit 1; }}
{program} "$@"
status=$?
[ "$calls" != "$AFTER" ] || kill -9 "$PPID"
exit "$status"
"""


def numeral(count):
    return "S(" * count + "Z" + ")" * count


def drawn_jobs(draw, count, most_rounds):
    """So many `submit` lines with different names, in no order of these: drawn systems, products and jobs that never end, each
    with a budget of at most so many rounds."""
    known = draws.known_rules()
    listed = {name: ";".join(draws.rule_text(it, rule) for rule in it.rules) for name, it in known.items()}
    lines = []
    for number in draw.sample(range(10 * count), count):
        kind = draw.random()
        if kind < 0.5:
            text = draws.system_text(*draws.system(draw, draw.choice([1, 2, 3])))
        elif kind < 0.8:
            one, two = numeral(draw.randrange(20)), numeral(draw.randrange(20))
            text = f"{{{listed['multiplication']}}} <r|Mul(r,{one})={two}>"
        else:
            text = LOOP.text
        lines.append(f"submit job-{number} {draw.randint(1, most_rounds)} {text}")
    return lines


def name_of(line):
    return line.split()[1]


def one_long_run(lines, most_rounds):
    """The lines that serve all these jobs one after the other, 32 at a time, over one disk: each runs to its end, is fetched
    and makes room."""
    for at in range(0, len(lines), 32):
        names = [name_of(it) for it in lines[at : at + 32]]
        yield from lines[at : at + 32]
        yield from ["run 1000"] * (len(names) * most_rounds // 1000 + 1)
        yield from (f"fetch {it}" for it in names)
        yield from (f"cancel {it}" for it in names)


def started_by(session):
    """The processes that run in a session, each with its parent and its words. One that has ended may stay for its parent to see."""
    for it in Path("/proc").iterdir():
        if it.name.isdigit():
            try:
                state, parent, _, its_session = (it / "stat").read_text().rpartition(")")[2].split()[:4]
                if int(its_session) == session and state != "Z":
                    yield int(it.name), int(parent), (it / "cmdline").read_bytes().split(b"\0")
            except (OSError, ValueError):
                pass


def kill(process):
    try:
        os.kill(process, signal.SIGKILL)
    except ProcessLookupError:
        pass


class Engine:
    """An engine that runs in a session of its own, with all that it starts. Used in a `with`, which kills what is left."""

    def __init__(self, command, **how):
        self.command = said_of(command)
        how = {"stdin": subprocess.DEVNULL, "stdout": subprocess.PIPE, "stderr": subprocess.PIPE, **how}
        self.process = subprocess.Popen(command, start_new_session=True, preexec_fn=heeds_signals, **how)

    def __enter__(self):
        return self

    def __exit__(self, *_):
        self.kill_all()

    def kill_all(self):
        """Kills the engine and all that runs under it, until nothing does."""
        kill(self.process.pid)
        while left := [it for it, _, _ in started_by(self.process.pid)]:
            for it in left:
                kill(it)
            self.process.poll()
            time.sleep(0.005)
        self.process.communicate()

    def kill_shells(self, script="shard"):
        """Kills the engine and the shells that run a script, and leaves the programs below them running."""
        kill(self.process.pid)
        for it, _, words in list(started_by(self.process.pid)):
            if str(SCRIPTS / script).encode() in b" ".join(words) and PROGRAM.encode() not in words:
                kill(it)
        self.process.wait()

    def programs(self):
        """The words of the programs that run in its session."""
        return [words for _, _, words in started_by(self.process.pid) if words[0] == PROGRAM.encode()]

    def left(self):
        """What still runs in its session."""
        return list(started_by(self.process.pid))

    def ended(self):
        """Its status, where it has ended."""
        return self.process.poll()

    def end(self, seconds=PATIENCE):
        """Waits until it has ended: its status, and what it has said."""
        try:
            out, err = self.process.communicate(timeout=seconds)
        except subprocess.TimeoutExpired:
            self.kill_all()
            return None, f"(the trial stopped it after {seconds} seconds)"
        return self.process.returncode, (out + err).decode(errors="replace")


class Shards(Trial):
    """A trial of the scripts in its own folder."""

    def script(self, name, *words, program_of_scripts=PROGRAM, **how):
        """Runs a script in the trial's folder."""
        env = {**os.environ, "ICSERVE": str(program_of_scripts)}
        return run(*words, program=SCRIPTS / name, cwd=self.room, env=env, **how)

    def cut(self, lines, jobs=32, folder="jobs"):
        """Cuts lines into shards of at most so many jobs, in a new folder: its path."""
        (self.room / f"{folder}.txt").write_text("".join(f"{it}\n" for it in lines))
        self.ended(self.script("cut", "--jobs", jobs, f"{folder}.txt", folder))
        return self.room / folder

    def engine(self, *command, **how):
        """A command begun in the trial's folder, in a session of its own."""
        env = {**os.environ, "ICSERVE": PROGRAM, "TMPDIR": str(self.room), "PARALLEL_HOME": str(self.room / "of-parallel")}
        (self.room / "of-parallel").mkdir(exist_ok=True)
        return Engine([str(it) for it in command], cwd=self.room, env={**env, **how.pop("env", {})}, **how)

    def counts_calls(self, *names):
        """Puts what counts calls in the place of these programs and of icserve."""
        for name, program in ({it: shutil.which(it) for it in names} | {"icserve": PROGRAM}).items():
            self.stands_for(name, TOOL.format(room=self.room, program=program))

    def stands_for(self, name, script):
        """Writes a script that is called in the place of a program."""
        (self.room / name).write_text(script)
        (self.room / name).chmod(0o755)

    def with_stand_ins(self, *command, **how):
        """A command begun that calls what stands for programs in the trial's folder."""
        env = {"PATH": f"{self.room}:{os.environ['PATH']}", **how.pop("env", {})}
        return self.engine(*command, env=env, **how)

    def killed_at(self, moment, call, *command):
        """A script begun whose shell is killed BEFORE or AFTER its call of this number."""
        (self.room / "calls").write_text("0")
        return self.with_stand_ins(*command, env={"ICSERVE": str(self.room / "icserve"), moment: str(call)})

    def waits_for(self, holds, seconds=PATIENCE, told=lambda: ""):
        """Waits until this holds, and tells what was there where it doesn't."""
        end = time.monotonic() + seconds
        while not holds():
            if time.monotonic() > end:
                self.fail(f"waited {seconds} seconds in vain: {told()}")
            time.sleep(0.005)

    def gathers(self, lines, most_rounds, folder="jobs"):
        """Fails unless the answers of a folder's shards are those of one long serving over one disk."""
        asked = list(one_long_run(lines, most_rounds))
        served = run("serve", "--disk", self.disk(f"{folder}.disk"), "--every", 1_000_000, given=asked, seconds=10 * PATIENCE)
        self.equals("one long serving", "status", 0, served.status)
        replies = served.out.decode().splitlines()
        wanted = [reply for line, reply in zip(asked, replies) if line.startswith("fetch ")]
        self.equals("one long serving", "answers", len(lines), len(wanted))
        self.equals("one long serving", "jobs that run on", [], [it for it in wanted if it.split()[1] == "running"])
        self.ended(self.script("gather", folder), out=wanted)

    def parallel(self, *words, log="jobs.log", folder="jobs", of_shards=(), jobs=4):
        """GNU parallel begun over the shards of a folder."""
        if not shutil.which("parallel"):
            self.skipTest("GNU parallel isn't installed: apt install parallel")
        shards = sorted(str(it.relative_to(self.room)) for it in (self.room / folder).glob("[0-9]*"))
        command = ["parallel", "--will-cite", "--jobs", jobs, "--joblog", log, "--resume-failed", *words]
        return self.engine(*command, SCRIPTS / "shard", "{}", *of_shards, ":::", *shards)

    def answered(self, folder="jobs"):
        """How many shards have answers."""
        return len(list((self.room / folder).glob("*/answers")))

    def killed_often(self, begun, kills, draw, pause=0.3):
        """Begins an engine over the shards of `jobs` again and again, and kills all of it so often, at drawn moments over its whole
        run; then lets it end, and begins it again while shards are locked. How often it was killed in its midst."""
        count = len(list((self.room / "jobs").glob("[0-9]*")))
        killed = 0
        for kill in range(kills):
            with begun() as engine:
                self.waits_for(lambda: engine.ended() is not None or self.answered() >= count * kill // kills)
                time.sleep(draw.random() * pause)
                killed += engine.ended() is None
        self.ends_well(begun)
        return killed

    def ends_well(self, begun):
        """Begins an engine again until all its shards end well, at most ten times."""
        for _ in range(10):
            with begun() as engine:
                status, said = engine.end(10 * PATIENCE)
                if status == 0:
                    return
                time.sleep(0.5)
        self.told(engine.command, f"status, begun for the tenth time; it said {shown(said)}", 0, status)
