"""Texts of any size that `cluster/large` reduces and keeps, under an engine that is stopped again and again."""

import json
import os
import resource
import shutil
import signal
import time

from program import PROGRAM, grows_to, run
from shards import SCRIPTS, kill
from texts import FIBONACCI, Texts, drawn_text, numeral

# A net that never ends.
LOOP = "{A(B(x))><B(A(x))} <|A(x)=B(x)>"

# A net that gets larger by a node with each interaction.
GROWS = "{A(B(x),S(l))><B(A(x,l))} <r|A(x,r)=B(x)>"

# Stands for icserve: what is begun has written a first byte, and then takes long.
SLOW = """#!/bin/sh
case $2 in --keep) printf x >"$3" && exec sleep 60 ;; esac
exec {program} "$@"
"""

# Stands for icserve: it begins a second and a half late.
LATE = """#!/bin/sh
sleep 1.5
exec {program} "$@"
"""

# Stands for icserve: a text ends as soon as what is kept of it is looked at.
ENDS = """#!/bin/sh
ICSERVE={program} {large} texts/one.ic
exec {program} "$@"
"""


class Large(Texts):
    seconds = 60

    def test_40_texts_killed_at_ten_moments_end_as_unbroken_runs(self):
        draw = self.draws()
        texts = {f"text{it:02}": drawn_text(draw) for it in range(40)}
        self.write(texts)
        large = f"{SCRIPTS}/large {{}} --seconds 1 --workers {draw.choice((1, 2, 4))}"
        command = f"parallel --will-cite --jobs 4 {large} ::: texts/*.ic" if shutil.which("parallel") else f"ls texts/*.ic | xargs -P 4 -I {{}} {large}"
        killed = 0
        for moment in range(10):
            with self.engine("sh", "-c", command) as engine:
                self.waits_for(lambda: engine.ended() is not None or self.answered_texts() >= 3 * moment, 120)
                time.sleep(0.05 * draw.random())
                killed += engine.ended() is None
                if moment % 3 == 1:
                    engine.kill_shells("large")
                elif moment % 3 == 2:
                    for number, _, words in engine.left():
                        if words[0] == PROGRAM.encode():
                            kill(number)
                    engine.end()
        self.ends_well(lambda: self.engine("sh", "-c", command))
        self.equals("40 texts", f"at least eight kills in their midst: {killed}", True, killed >= 8)
        self.end_as_unbroken(texts)

    def test_a_script_that_is_killed_before_or_after_each_program_that_it_calls_goes_on(self):
        """It calls flock, then rm twice, icserve and grep, sync, mv and sync twice, icserve, grep twice, sync, mv and sync twice,
        and rm twice."""
        self.counts_calls("flock", "grep", "mv", "rm", "sync")
        for moment in ("BEFORE", "AFTER"):
            for call in range(1, 24):
                folder = f"texts-{moment}-{call}"
                self.write({"one": f"{FIBONACCI} <r|F(r)={numeral(5)}>"}, folder)
                with self.killed_at(moment, call, SCRIPTS / "large", f"{folder}/one.ic") as large:
                    status, said = large.end()
                    self.equals(large.command, f"{moment} {call}: status; it said {said}", -signal.SIGKILL if call < 23 else 0, status)
                    self.waits_for(lambda: not large.left(), told=large.left)
                ran = self.script("table", folder)
                self.equals(ran.command, f"status; it said {ran.err}", 0, ran.status)
                self.ended(self.script("large", f"{folder}/one.ic"))
                self.has("one.ic", "one.ic.answer", "one.ic.figures", "one.ic.lock", of=folder)
                self.ended(self.script("gather", folder), out=[f"one done 51 <{numeral(5)}|>"])

    def test_a_script_that_is_told_to_end_ends_its_program_and_goes_on(self):
        self.write({"one": LOOP})
        for sign in (signal.SIGTERM, signal.SIGHUP):
            for text in ("texts/one.ic", "texts"):
                with self.engine(SCRIPTS / "large", text) as large:
                    self.waits_for(lambda: (self.room / "texts/one.ic.out").exists())
                    os.kill(large.process.pid, sign)
                    status, said = large.end()
                    self.equals(large.command, f"status; it said {said}", 143, status)
                    self.equals(large.command, "what it has left running", [], large.left())
                self.has("one.ic", "one.ic.keep", "one.ic.keep.2", "one.ic.lock")

    def test_a_time_that_is_too_short_for_a_beginning_leaves_nothing(self):
        self.write({"one": f"{FIBONACCI} <r|F(r)={numeral(5)}>"})
        self.stands_for("icserve", SLOW.format(program=PROGRAM))
        ran = self.script("large", "--time", "1", "texts/one.ic", program_of_scripts=self.room / "icserve")
        self.equals(ran.command, f"status; it said {ran.err}", 5, ran.status)
        self.has("one.ic", "one.ic.lock")
        self.ended(self.script("large", "--time", "60", "texts/one.ic"))

    def test_all_that_a_start_does_ends_once_its_time_is_over(self):
        """Each call of the program begins a second and a half late: the second one has what the first has left of the time."""
        self.write({"one": LOOP})
        self.stands_for("icserve", LATE.format(program=PROGRAM))
        began = time.monotonic()
        ran = self.script("large", "--time", "3", "texts/one.ic", program_of_scripts=self.room / "icserve")
        took = time.monotonic() - began
        self.equals(ran.command, f"status; it said {ran.err}", 5, ran.status)
        self.equals(ran.command, f"whether it took less than 4.4 seconds: {took}", True, took < 4.4)
        self.has("one.ic", "one.ic.keep", "one.ic.keep.2", "one.ic.lock")

    def test_a_text_that_has_lost_a_file_of_what_is_kept_is_not_begun_anew(self):
        """It is told, and goes on once the file is back."""
        texts = {"one": f"{FIBONACCI} <r|F(r)={numeral(9)}>"}
        self.write(texts)
        ran = self.script("large", "texts/one.ic", "--steps", "100")
        self.equals(ran.command, f"status; it said {ran.err}", 5, ran.status)
        for lost in ("keep", "keep.2"):
            there, away = self.room / f"texts/one.ic.{lost}", self.room / "away"
            there.rename(away)
            ran = self.script("table", "texts")
            self.equals(ran.command, f"without {lost}: whether it is told as waiting; it said {ran.err}", False, b"\twaiting\t" in ran.out)
            ran = self.script("large", "texts/one.ic")
            self.equals(ran.command, f"without {lost}: status; it said {ran.err}", 3, ran.status)
            self.equals(ran.command, f"without {lost}: whether the way is told; it said {ran.after}", True, b"--from-one-file" in ran.after)
            away.rename(there)
        self.ended(self.script("large", "texts/one.ic"))
        self.end_as_unbroken(texts)

    def test_a_text_that_ends_while_it_is_looked_at_is_told_as_done(self):
        self.write({"one": f"{FIBONACCI} <r|F(r)={numeral(5)}>"})
        ran = self.script("large", "texts/one.ic", "--steps", "1")
        self.equals(ran.command, f"status; it said {ran.err}", 5, ran.status)
        self.stands_for("icserve", ENDS.format(program=PROGRAM, large=SCRIPTS / "large"))
        ran = self.script("table", "texts", program_of_scripts=self.room / "icserve")
        self.equals(ran.command, f"status; it said {ran.err}", 0, ran.status)
        self.equals(ran.command, "its row", [b"one", b"done", b"51"], ran.out.splitlines()[1].split(b"\t")[:3])

    def test_a_task_of_slurm_whose_time_is_nearly_over_stops_and_is_put_into_the_queue(self):
        """A program that writes down how it is called stands for scontrol."""
        self.stands_for("scontrol", '#!/bin/sh\necho "$@" >>asked\n')
        self.write({"one": f"{FIBONACCI} <r|F(r)={numeral(5)}>", "two": LOOP})
        folder = self.cut([f"submit loop {LOOP}", "submit none {} <|>"], jobs=1)
        tasks = {"texts": (2, "texts/two.ic.out", ["--seconds", "1"]), "jobs": (1, "jobs/00001/answers.part", ["--every", "1"])}
        for of, (number, begun, words) in tasks.items():
            slurm = {"SLURM_ARRAY_TASK_ID": str(number), "SLURM_ARRAY_JOB_ID": "7"}
            with self.with_stand_ins("sh", SCRIPTS / "array.sbatch", SCRIPTS, of, *words, env=slurm) as task:
                self.waits_for((self.room / begun).exists, told=task.left)
                time.sleep(0.1)
                os.kill(task.process.pid, signal.SIGUSR1)
                status, said = task.end()
                self.equals(task.command, f"status; it said {said}", 0, status)
                self.equals(task.command, "what it has left running", [], task.left())
        self.holds(self.room / "asked", "requeue 7_2\nrequeue 7_1\n")
        self.has("one.ic", "two.ic", "two.ic.keep", "two.ic.keep.2", "two.ic.lock")
        # Others end as their scripts do.
        for of, number, wanted in (("texts", 1, "texts/one.ic.answer"), ("jobs", 2, "jobs/00002/answers"), ("texts", 3, None)):
            slurm = {"SLURM_ARRAY_TASK_ID": str(number), "SLURM_ARRAY_JOB_ID": "9"}
            with self.with_stand_ins("sh", SCRIPTS / "array.sbatch", SCRIPTS, of, env=slurm) as task:
                status, said = task.end()
                self.equals(task.command, f"status; it said {said}", 0 if wanted else 2, status)
            if wanted:
                self.equals(wanted, "whether it is there", True, (self.room / wanted).exists())

    def test_what_is_refused_cut_or_begun_is_told(self):
        add = "{Add(x,x)><Z;Add(S(x),y)><S(Add(x,y))}"
        self.write({"bad": "{A><B", "circle": "{} <|x=A(x)>", "done": f"{add} <r|Add(r,Z)=Z>", "loop": LOOP, "stuck": "{A><B} <|A=A,A=B>", "wide": f"{add} <r|Add(r,Z)={numeral(9)}>"})
        self.ended(self.script("table", "texts"), out=["name\tstate\tinteractions\trounds\tseconds\tnodes\ttold", *(f"{it}\twaiting\t-\t-\t-\t-\t-" for it in ("bad", "circle", "done", "loop", "stuck", "wide"))])
        for words, status in ((["texts/bad.ic"], 1), (["texts/circle.ic"], 0), (["texts/done.ic"], 0), (["texts/loop.ic", "--steps", "7"], 5), (["texts/stuck.ic"], 0)):
            ran = self.script("large", *words)
            self.equals(ran.command, f"status; it said {ran.err}", status, ran.status)
        rows = [it.split("\t") for it in self.script("table", "texts").out.decode().splitlines()[1:]]
        told = [["bad", "refused", "-", "bad syntax"], ["circle", "circling", "0", "A"], ["done", "done", "1", "-"], ["loop", "begun", "7", "-"], ["stuck", "stuck", "1", "A><A"], ["wide", "waiting", "-", "-"]]
        self.equals("table texts", "its rows, without seconds and nodes", told, [[*it[:3], it[6]] for it in rows])
        progress = self.script("progress", "texts").out.decode().splitlines()
        kept = [self.room / f"texts/loop.ic.{it}" for it in ("keep", "keep.2")]
        line = rf"loop: interactions 7, (-|\d+) a second, words {rows[3][5]}, bytes {sum(it.stat().st_size for it in kept)}"
        self.equals("progress texts", "its lines of what is stuck, circling or refused", ["bad: refused, bad syntax", "circle: circling, A", "stuck: stuck, A><A"], [progress[0], progress[1], progress[3]])
        self.assertRegex(progress[2], f"^{line}$")
        self.equals("progress texts", "the last line", "6 texts: done 1, stuck 1, circling 1, refused 1, begun 1, waiting 1, interactions 9", progress[-1])
        self.equals("gather --there texts", "the states", [b"circling", b"done", b"stuck"], [it.split()[1] for it in self.script("gather", "--there", "texts").out.splitlines()])
        ran = self.script("gather", "texts")
        self.equals(ran.command, "how it ends", (1, b""), (ran.status, ran.out))
        # With more steps it goes on, and a folder is taken as a whole.
        ran = self.script("large", "texts", "--steps", "100")
        self.equals(ran.command, f"status; it said {ran.err}", 5, ran.status)
        rows = [it.split("\t")[:3] for it in self.script("table", "texts").out.decode().splitlines()[1:]]
        self.equals("table texts", "its rows", [["bad", "refused", "-"], ["circle", "circling", "0"], ["done", "done", "1"], ["loop", "begun", "100"], ["stuck", "stuck", "1"], ["wide", "done", "10"]], rows)

    def test_a_text_goes_by_rounds_where_that_is_asked_for(self):
        """Its rounds stand in the table: at its end they are the span that is told in any order."""
        text = f"{FIBONACCI} <r|F(r)={numeral(9)}>"
        self.write({"one": text, "two": text})
        told = run("reduce", "--span", "--format", "json", given=text).err
        wanted = next(json.loads(it) for it in told.decode().splitlines() if it.startswith("{"))
        for words, status in ((["texts/one.ic", "--rounds", "7"], 5), (["texts/two.ic"], 0), (["texts/one.ic", "--steps", "9"], 3)):
            ran = self.script("large", *words)
            self.equals(ran.command, f"status; it said {ran.err}", status, ran.status)
        rows = [it.split("\t") for it in self.script("table", "texts").out.decode().splitlines()[1:]]
        self.equals("table texts", "states and rounds", [["begun", "7"], ["done", "-"]], [[it[1], it[3]] for it in rows])
        self.ended(self.script("large", "texts/one.ic", f"--rounds={wanted['span']}"))
        rows = [it.split("\t")[1:4] for it in self.script("table", "texts").out.decode().splitlines()[1:]]
        ended = ["done", str(wanted["interactions"])]
        self.equals("table texts", "its rows", [[*ended, str(wanted["span"])], [*ended, "-"]], rows)
        ran = self.script("large", "texts/one.ic", "--rounds", "7", "--workers", "2")
        self.equals(ran.command, "status and standard output", (2, b""), (ran.status, ran.out))

    def test_a_net_that_outgrows_its_nodes_is_kept_and_goes_on_with_more(self):
        """Of the text it is told how, and of another refusal that the text has to be mended. By one thread and by several."""
        texts = {"one": f"{FIBONACCI} <r|F(r)={numeral(20)}>"}
        self.write({**texts, "bad": "{A><B"})
        reached = [0]
        for words in (["--nodes", "100"], ["--nodes=1000", "--workers", "3"]):
            for text, told in (("one", b"icserve: overgrown\n"), ("bad", b"icserve: bad syntax\n")):
                ran = self.script("large", f"texts/{text}.ic", *words)
                self.equals(ran.command, "status, and what is told first", (1, told), (ran.status, ran.err.splitlines(keepends=True)[0]))
            self.has("bad.ic", "bad.ic.lock", "bad.ic.refused", *(f"one.ic{it}" for it in ("", ".keep", ".keep.2", ".lock", ".refused")))
            lines = ["texts/bad.ic is refused, bad syntax: mend it, or move it away", "texts/one.ic is refused, overgrown: it goes on with a greater --nodes"]
            ran = self.script("gather", "texts")
            self.equals(ran.command, "how it ends, and what it tells", (1, [f"gather: {it}" for it in lines]), (ran.status, ran.err.decode().splitlines()))
            row = self.script("table", "texts").out.decode().splitlines()[2].split("\t")
            self.equals("table texts", "its row", ["one", "refused", "overgrown"], [*row[:2], row[6]])
            reached.append(int(row[2]))
        self.equals("table texts", f"whether it has gone on: {reached}", True, reached == sorted(set(reached)))
        for it in ("bad.ic", "bad.ic.lock", "bad.ic.refused"):
            (self.room / "texts" / it).unlink()
        self.ended(self.script("large", "texts", "--nodes", "1000000"))
        self.end_as_unbroken(texts)

    def test_a_text_whose_device_is_full_fails_and_goes_on_once_there_is_room(self):
        """What is kept first is refused for its size, and then what is kept at the end."""
        texts = {"one": f"{FIBONACCI} <r|F(r)={numeral(13)}>"}
        self.write(texts)
        statuses = set()
        for most in (0, 10, 100, 200, 300, 500, 800, 1000):
            ran = self.script("large", "texts/one.ic", **grows_to(most))
            statuses.add(ran.status)
            self.equals(ran.command, f"whether there is an answer, with {most} bytes a file", False, (self.room / "texts/one.ic.answer").exists())
            self.equals(ran.command, f"status with {most} bytes a file; it said {ran.err}", True, ran.status in (3, 4))
        self.equals("large texts/one.ic", "the statuses", {3, 4}, statuses)
        self.ended(self.script("large", "texts/one.ic"))
        self.end_as_unbroken(texts)

    def test_a_text_that_is_refused_memory_goes_on_once_there_is_more(self):
        self.write({"one": GROWS})
        words = ["texts/one.ic", "--steps", "8000000"]
        ran = self.script("large", *words, preexec_fn=lambda: resource.setrlimit(resource.RLIMIT_AS, (2**27, 2**27)))
        self.equals(ran.command, "status, and what is told", (4, True), (ran.status, b"icserve: memory" in ran.err))
        self.has("one.ic", "one.ic.keep", "one.ic.keep.2", "one.ic.lock")
        ran = self.script("large", *words)
        self.equals(ran.command, f"status; it said {ran.err}", 5, ran.status)
        figures = json.loads((self.room / "texts/one.ic.figures").read_text())
        self.equals(ran.command, "interactions", 8_000_000, figures["interactions"])

    def test_two_at_one_text_and_misuse_are_told(self):
        self.write({"one": LOOP})
        with self.engine(SCRIPTS / "large", "texts/one.ic") as engine:
            self.waits_for(lambda: (self.room / "texts/one.ic.keep").exists() or engine.ended() is not None)
            ran = self.script("large", "texts/one.ic")
            self.equals(ran.command, "status", 6, ran.status)
            # A time limit ends it, and what is kept stays.
        ran = self.script("large", "--time", "1", "texts/one.ic")
        self.equals(ran.command, f"status; it said {ran.err}", 5, ran.status)
        for words in ([], ["none.ic"], ["--time", "x", "texts/one.ic"], ["--time", "0", "texts/one.ic"], ["texts/one.ic", "--stats"]):
            ran = self.script("large", *words)
            self.equals(ran.command, "status and standard output", (2, b""), (ran.status, ran.out))
        for script in ("large", "table"):
            ran = self.script(script, "--help")
            self.equals(ran.command, "whether it tells the statuses", True, ran.status == 0 and b"\nStatus 0: " in ran.out)
