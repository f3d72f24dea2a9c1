"""The scripts of cluster/ by themselves: what they do with words, files and folders, whatever these have."""

import os
import shutil

from known import LOOP, TWO
from program import IN_MEMORY, Server, as_lines, grows_to, run
from shards import SCRIPTS, Shards

LOOPING = f"submit loop {LOOP.text}"
TWICE = f"submit two {TWO.text}"
NONE = "submit none {} <|>"

# The folders of the path that have no program `icserve`.
WITHOUT = ":".join(it for it in os.environ["PATH"].split(":") if not os.path.exists(f"{it}/icserve"))


class Scripts(Shards):
    seconds = 15
    rooms = IN_MEMORY

    def is_left(self, *names):
        """Fails unless the trial's folder has just these files and folders."""
        self.equals(self.room, "what is there", sorted(names), sorted(it.name for it in self.room.iterdir()))

    def test_misuse_is_told_in_a_line_with_status_2_and_leaves_nothing(self):
        (self.room / "jobs.txt").write_text(TWICE + "\n")
        (self.room / "there").mkdir()
        words = {
            "cut": [[], ["jobs.txt"], ["--jobs"], ["jobs.txt", "a", "b"], ["none.txt", "new"], [".", "new"], ["jobs.txt", "/"]]
            + [["jobs.txt", "there"], ["jobs.txt", "jobs.txt"], ["jobs.txt", "there/"]]
            + [["--jobs", it, "jobs.txt", "new"] for it in ("", "0", "33", "01", "-1", "x", "1 2", "10000000000000000000")],
            "shard": [[], ["there"], ["none"], ["jobs.txt"], ["--rounds", "1", "there"]],
            "gather": [[], ["there"], ["none"], ["jobs.txt"], ["there", "there"]],
            "progress": [[], ["there"], ["none"], ["jobs.txt"], ["there", "there"]],
        }
        for script, tried in words.items():
            for it in tried:
                with self.subTest(script=script, words=it):
                    ran = self.script(script, *it)
                    self.equals(ran.command, "status and standard output", (2, b""), (ran.status, ran.out))
                    is_line = ran.err.startswith(f"{script}: ".encode()) and ran.err.count(b"\n") == 1
                    self.equals(ran.command, f"one line of the script: {ran.err}", True, is_line)
                    self.is_left("jobs.txt", "there")
                    self.equals(self.room / "there", "what is there", [], list((self.room / "there").iterdir()))

    def test_each_script_tells_how_it_is_used(self):
        for script in ("cut", "shard", "gather", "progress"):
            for word in ("--help", "-h"):
                ran = self.script(script, word)
                self.equals(ran.command, "status and standard error", (0, b""), (ran.status, ran.err))
                self.equals(ran.command, "its first words", True, ran.out.startswith(script.encode() + b" "))
                self.equals(ran.command, "whether it tells the statuses", True, b"\nStatus 0: " in ran.out)
        self.is_left()

    def test_without_the_program_each_script_says_so(self):
        self.cut([TWICE])
        for script, words in {"cut": ["jobs.txt", "new"], "shard": ["jobs/00001"], "progress": ["jobs"]}.items():
            ran = self.script(script, *words, program_of_scripts="/none/icserve")
            self.equals(ran.command, "status", 2, ran.status)
            self.equals(ran.command, f"the path in {ran.err}", True, b"/none/icserve" in ran.err)
            self.is_left("jobs", "jobs.txt")

    def test_lines_are_cut_as_they_are_and_in_their_order(self):
        lines = [TWICE, "", "  submit\tb 7{}<|>", "\r", "submit c {} <|>\r", LOOPING, "submit e  {} <|>"]
        jobs = [it for it in lines if it.strip()]
        for most in (1, 2, 3, 4, 5, 9, 10, 29, 32):
            folder = self.cut(lines, most, f"by-{most}")
            self.holds(folder / "names", "two\nb\nc\nloop\ne\n")
            parts = [jobs[at : at + most] for at in range(0, len(jobs), most)]
            wanted = {"names", *(f"{number:05}" for number in range(1, len(parts) + 1))}
            self.equals(folder, "what is there", wanted, {it.name for it in folder.iterdir()})
            for number, part in enumerate(parts, 1):
                self.holds(folder / f"{number:05}" / "lines", "".join(f"{it}\n" for it in part))
        self.equals(folder, "its rights", 0o755 & ~self.umask(), folder.stat().st_mode & 0o777)

    def umask(self):
        before = os.umask(0o22)
        os.umask(before)
        return before

    def test_a_text_in_a_file_takes_the_place_of_its_name(self):
        (self.room / "texts").mkdir()
        (self.room / "texts/my sum.rich").write_text("{Add(r,n) >< Z => r ~ n;  # sums\n Add(r,n) >< S(m) => r ~ S(w), Add(w,n) ~ m}\n<r | Add(r,Z) ~ S(Z)>\n")
        (self.room / "texts/two.rich").write_text("{} <|> <|>")
        (self.room / "texts/bad.rich").write_text("{A(r) >< B => r ~ n}\n<|>")
        here = self.room.resolve()
        (self.room / "jobs.txt").write_text(f"{TWICE}\n\n submit sum 7 @{here}/texts/my sum.rich \r\nsubmit a\t@texts/my sum.rich\n{NONE}\n")
        ran = self.script("cut", "--jobs", 3, "jobs.txt", "new")
        self.equals(ran.command, "status and what is told", (0, b"", b""), (ran.status, ran.out, ran.err))
        lines = [it.split(None, 2) for it in (self.room / "new/00001/lines").read_text().splitlines()]
        self.equals(ran.command, "the names of the first shard", ["two", "sum", "a"], [it[1] for it in lines])
        self.equals(ran.command, "the second shard", f"{NONE}\n", (self.room / "new/00002/lines").read_text())
        for line, budget in ((lines[1], "7 "), (lines[2], "")):
            answer = run("reduce", given=line[2].removeprefix(budget))
            self.equals(line, "what it comes to", (0, b"<S(Z)|>\n"), (answer.status, answer.out))
        for name, status, said in (
            ("two", 1, "cut: jobs.txt:2: ./texts/two.rich has several configurations, and a job has one\n"),
            ("bad", 1, "cut: jobs.txt:2: bad syntax\n./texts/bad.rich, line 1, column 19\n"),
            ("none", 4, "cut: jobs.txt:2: read\n./texts/none.rich: open: no such file or folder\n"),
        ):
            (self.room / "jobs.txt").write_text(f"{TWICE}\nsubmit b @texts/{name}.rich\n")
            ran = self.script("cut", "jobs.txt", "newer")
            self.equals(ran.command, "status, and what is told", (status, said.encode()), (ran.status, ran.err[: len(said)]))
            self.is_left("jobs.txt", "new", "texts")

    def test_a_file_of_jobs_with_a_fault_is_refused_with_its_line(self):
        """Three jobs a shard, so that a fault stands in a shard of its own and in a line of its own."""
        good = [f"submit a{it} {{}} <|>" for it in range(10)]
        for lines, said in (
            (["", "\r", " \t"], "jobs.txt has no job"),
            ([], "jobs.txt has no job"),
            ([*good, "", "submit x {} <r|r=r>"], "jobs.txt:12:18: bad name r: in a configuration a name stands at most twice; `icserve expand` writes rules that copy"),
            (["submit x", *good], "jobs.txt:1:9: bad syntax: "),
            ([*good, "", "list"], "jobs.txt:12: this is no submit"),
            (["{A(x)><B(x)} <r|A(r)=B(C)>"], "jobs.txt:1: this is no submit"),
            ([*good, "run 10", "list"], "jobs.txt:11: this is no submit"),
            ([*good, "copy a1 submit"], "jobs.txt:11: this is no submit"),
            (["", *good, "", good[3]], "jobs.txt:13: the name a3 is that of line 5"),
            ([*good, "submit a3{}<|>"], "jobs.txt:11: the name a3 is that of line 4"),
            ([*good, "submit x " + "S" * 300_000], "jobs.txt:11:262145: bad limit: "),
            (["submit x\0 {} <|>"], "jobs.txt:1:9: bad syntax: "),
        ):
            with self.subTest(said=said):
                (self.room / "jobs.txt").write_text("".join(f"{it}\n" for it in lines))
                ran = self.script("cut", "--jobs", 3, "jobs.txt", "new")
                self.equals(ran.command, "status and standard output", (1, b""), (ran.status, ran.out))
                self.equals(ran.command, f"a line of {ran.err[:300]}", True, said.encode() in ran.err)
                self.is_left("jobs.txt")

    def test_all_faults_of_a_file_of_jobs_are_told_and_no_warning(self):
        lines = ["", TWICE, "submit a {} <r|r=r>", "", "submit b {A><B} <|>", "submit c {", "submit d {} <|"]
        (self.room / "jobs.txt").write_text("\n".join(lines))
        ran = self.script("cut", "--jobs", 2, "jobs.txt", "new")
        told = ran.err.decode().splitlines()
        self.equals(ran.command, "the places", ["3:18", "6:11", "7:15"], [":".join(it.split(":")[1:3]) for it in told[:-1]])
        self.equals(ran.command, "the last line", "cut: jobs.txt has faults", told[-1])

    def test_a_file_larger_than_a_check_takes_is_cut(self):
        filler = " " * 250_000
        lines = [f"submit a{it} {{}}{filler}<|>" for it in range(68)] + ["submit last {} <r|r=r>"]
        (self.room / "jobs.txt").write_text("\n".join(lines))
        ran = self.script("cut", "jobs.txt", "new")
        self.equals(ran.command, f"the place in {ran.err}", True, ran.err.startswith(b"jobs.txt:69:21: bad name r: "))
        self.cut(lines[:-1])

    def test_a_cut_whose_device_is_full_leaves_nothing(self):
        lines = [f"submit a{it} {{}} <|>" for it in range(100)]
        (self.room / "jobs.txt").write_text("".join(f"{it}\n" for it in lines))
        for most in (0, 100, 1000, 2000):
            ran = self.script("cut", "--jobs", 30, "jobs.txt", "new", **grows_to(most))
            self.equals(ran.command, f"status with {most} bytes a file; it said {ran.err}", 4, ran.status)
            self.is_left("jobs.txt")
        self.cut(lines, 30)

    def test_answers_that_are_missing_or_not_whole_are_not_gathered(self):
        folder = self.cut([f"submit a{it} {{}} <|>" for it in range(5)], 2)
        none = [f"gather: jobs/0000{it} has no answers yet" for it in (1, 2, 3)]
        self.ended(self.script("gather", "jobs"), err=none, status=1)
        answers = [["a0 done 0 <|>", "a1 done 0 <|>"], ["a2 done 0 <|>", "a3 spent 7 <|A=B>"], ["a4 done 0 <|>"]]
        files = [folder / f"0000{it}" / "answers" for it in (1, 2, 3)]
        for path, lines in zip(files, answers):
            path.write_text("".join(f"{it}\n" for it in lines))
        self.ended(self.script("gather", "jobs"), out=sum(answers, []))
        for path in files:
            whole = path.read_bytes()
            for size in range(len(whole)):
                path.write_bytes(whole[:size])
                line = f"gather: jobs/{path.parent.name}/answers isn't whole: delete it, and run the shard again"
                self.ended(self.script("gather", "jobs/"), err=[line], status=1)
            path.write_bytes(whole)
        files[1].unlink()
        self.ended(self.script("gather", "jobs"), err=none[1:2], status=1)
        self.ended(self.script("gather", "--there", "jobs"), out=answers[0] + answers[2], err=none[1:2], status=1)
        files[1].write_text("a2 done 0 <|>\n")
        line = "gather: jobs/00002/answers isn't whole: delete it, and run the shard again"
        self.ended(self.script("gather", "--there", "jobs"), out=answers[0] + answers[2], err=[line], status=1)
        files[1].write_text("".join(f"{it}\n" for it in answers[1]))
        self.ended(self.script("gather", "--there", "jobs"), out=sum(answers, []))

    def test_what_is_there_of_large_texts_is_gathered(self):
        folder = self.room / "texts"
        folder.mkdir()
        for name in ("a", "b", "c"):
            (folder / f"{name}.ic").write_text("{} <|>\n")
        (folder / "c.ic.answer").write_text("<|>\n")
        figures = '{"end":"quiet","stuck":null,"circle":null,"interactions":7,"by_rule":[]}'
        (folder / "c.ic.figures").write_text(figures + "\n")
        (folder / "b.ic.refused").write_text("icserve: overgrown\n")
        told = ["gather: texts/a.ic has no answer yet", "gather: texts/b.ic is refused, overgrown: it goes on with a greater --nodes"]
        self.ended(self.script("gather", "texts"), err=told, status=1)
        self.ended(self.script("gather", "--there", "texts"), out=["c done 7 <|>"], err=told, status=1)

    def test_the_figures_of_the_pages_are_measured(self):
        """Each way of running jobs is timed, of few jobs here, where GNU parallel is there."""
        if not shutil.which("parallel"):
            self.skipTest("GNU parallel isn't installed: cluster/figures isn't tried")
        ran = self.script("figures", "--turns", 1, "--jobs", 2, self.room)
        self.equals(ran.command, f"status; it said {ran.err}", 0, ran.status)
        rows = [it.split("|")[1].strip() for it in ran.out.decode().splitlines() if it.startswith("| ")]
        ways = [f"`icserve reduce {words}` without disks, {it} at a time" for words in ("--workers 1", "--rounds 1000000") for it in (1, 2, 4)]
        self.equals(ran.command, "the rows without disks", ways, [it for it in rows if "without disks" in it])
        ways = [f"one server, one disk, {it} workers" for it in (1, 2, 4)]
        self.equals(ran.command, "the rows of a server", ways, [it for it in rows if "one server" in it])
        self.assertRegex(ran.out.decode(), r"\nBy 4 workers one server takes \d+\.\d\d times as long as 4 shards at a time\.\n")

    def test_progress_tells_stuck_jobs_of_answers_and_disks(self):
        """Of answers and of disks alike, those jobs are stuck that are done with an equation of two agents."""
        stuck = ["<|A=B>", "<A,r|s=Z,B(x)=A>", "<|x=A,A=B(y)>", "<|A=B(C,x)>"]
        whole = ["<|>", "<A,Z(B)|>", "<|x=A(z),y=B(x2)>", "<A(x)|y=B>", "<a|b=A(c),d=B(e)>"]
        lines = [f"submit j{at} {{}} {it}" for at, it in enumerate(stuck + whole)]
        folder = self.cut([*lines, "submit run {A(B(x))><B(A(x))} <|A(x)=B(x)>"])
        shard = folder / "00001"
        self.runs("create", "--disk", shard / "disk")
        self.serves(shard / "disk", [*lines, "submit run {A(B(x))><B(A(x))} <|A(x)=B(x)>", "run 2"], ["accepted"] * 10 + ["ran 2"])
        told = "running 1, paused 0, done 9 (stuck 4), spent 0, halted 0"
        of_shards = ["1 shards: answered 0, begun 1, waiting 0", "1 shards: answered 1, begun 0, waiting 0"]
        of_jobs = f"10 jobs: {told}, waiting 0, rounds 2"
        self.ended(self.script("progress", "jobs"), out=[f"00001: {told}, rounds 2", of_shards[0], of_jobs])
        answers = [f"j{at} done 0 {it}\n" for at, it in enumerate(stuck + whole)]
        (shard / "answers").write_text("".join([*answers, "run running 2 <|A=B>\n"]))
        self.ended(self.script("progress", "jobs"), out=[of_shards[1], of_jobs])

    def test_progress_tells_jobs_of_a_spoilt_disk_as_unread(self):
        """Not those of a disk that a stopped shard has begun to make."""
        folder = self.cut([LOOPING, TWICE, NONE], 2)
        disk = folder / "00001/disk"
        shards = "2 shards: answered 0, begun 1, waiting 1"
        counts = "3 jobs: running 0, paused 0, done 0 (stuck 0), spent 0, halted 0, waiting {}, rounds 0"
        none = "00001: running 0, paused 0, done 0 (stuck 0), spent 0, halted 0, rounds 0"
        self.runs("create", "--disk", disk)
        new = disk.read_bytes()
        for begun in (b"", new, bytes(len(new)), b"\0" + new[1:], new[:100], bytes(5)):
            disk.write_bytes(begun)
            self.ended(self.script("progress", "jobs"), out=[none, shards, counts.format(3)])
        disk.write_bytes(new)
        self.serves(disk, TWICE, ["accepted"])
        whole = disk.read_bytes()
        fault = "progress: jobs/00001/disk is no disk that a server takes"
        for spoilt in (b"no disk at all", bytes(len(whole)), b"\1" * len(whole)):
            disk.write_bytes(spoilt)
            ran = self.script("progress", "jobs")
            out = as_lines(["00001: unread", shards, counts.format("1, unread 2")])
            self.equals(ran.command, "status and output", (1, out), (ran.status, ran.out))
            self.equals(ran.command, f"the last line of {ran.err}", fault, ran.err.decode().splitlines()[-1])

    def test_the_program_is_that_on_the_path_or_that_of_the_clone(self):
        """Where ICSERVE names none, a script runs the icserve on the path, and else the one beside the folder of the scripts."""
        self.cut([TWICE])
        (self.room / "bin").mkdir()
        (self.room / "clone/cluster").mkdir(parents=True)
        for place, says in (("bin", "path"), ("clone", "clone")):
            (self.room / place / "icserve").write_text(f"#!/bin/sh\necho {says} >&2\nexit 1\n")
            (self.room / place / "icserve").chmod(0o755)
        for script, words in {"cut": ["jobs.txt", "new"], "shard": ["jobs/00001"], "progress": ["jobs"]}.items():
            shutil.copy(SCRIPTS / script, self.room / "clone/cluster" / script)
            if script == "progress":
                (self.room / "jobs/00001/disk").touch()
            for path, says in ((f"{self.room / 'bin'}:{os.environ['PATH']}", b"path\n"), (WITHOUT, b"clone\n")):
                env = {name: it for name, it in os.environ.items() if name != "ICSERVE"} | {"PATH": path}
                ran = run(*words, program=self.room / "clone/cluster" / script, cwd=self.room, env=env)
                self.equals(ran.command, f"the program that ran, of {ran.err}", True, says in ran.err)

    def test_progress_adds_up_answers_and_disks(self):
        folder = self.cut([LOOPING, TWICE, NONE, "submit a {} <|>", "submit b {} <|>"], 2)
        waits = "3 shards: answered 0, begun 0, waiting 3"
        jobs = "5 jobs: running 0, paused 0, done 0 (stuck 0), spent 0, halted 0, waiting 5, rounds 0"
        self.ended(self.script("progress", "jobs"), out=[waits, jobs])
        disk = folder / "00001/disk"
        self.runs("create", "--disk", disk)
        with Server(disk) as server:
            server.ask(LOOPING)
            server.ask(TWICE)
            self.equals(server.said(), "the run", "ran 12", server.ask("run 12"))
            (folder / "00003/answers").write_text("b spent 4611686018427387904 <|A=B>\n")
            begun = "00001: running 1, paused 0, done 1 (stuck 0), spent 0, halted 0, rounds 12"
            waits = "3 shards: answered 1, begun 1, waiting 1"
            jobs = "5 jobs: running 1, paused 0, done 1 (stuck 0), spent 1, halted 0, waiting 2, rounds 4611686018427387904"
            self.ended(self.script("progress", "jobs/"), out=[begun, waits, jobs])
        (self.room / "fails").write_text("#!/bin/sh\nexit 3\n")
        (self.room / "fails").chmod(0o755)
        lines = ["00001: unread", waits]
        counts = "running 0, paused 0, done 0 (stuck 0), spent 1, halted 0, waiting 2, unread 2, rounds 4611686018427387904"
        lines += [f"5 jobs: {counts}"]
        fault = "progress: jobs/00001/disk can't be looked at"
        self.ended(self.script("progress", "jobs", program_of_scripts=self.room / "fails"), out=lines, err=[fault], status=1)
