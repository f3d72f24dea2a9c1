"""`check`: the faults of texts in files, each with its place, and warnings of what is legal and mostly a mistake. What is told
is compared with the model of `checked.py`."""

import json
import os
import re
import resource
import subprocess

import draws
import model
from checked import MOST_BYTES, SOUGHT, checked
from places import MOST_BYTES as MOST_TEXT
from program import IN_MEMORY, PROGRAM, TOP, Trial, as_bytes, run
from test_drawn_serving import job_names, session, small_systems
from test_streams import memory_of
from worked_rows import expanded, rows

CONFIGS = ("config", "settle", "config_place", "settle_told")
SYSTEMS = ("system", "once", "system_place", "once_told")


# A finding, after the path of its file.
FINDING = re.compile(r"(?::(?P<line>\d+))?(?::(?P<column>\d+))?: (?:warning: (?P<warning>.*)|(?P<fault>bad [^:]*)(?:: (?P<sentence>.*))?)")


def fields_of(path, finding):
    """The fields of the object of a finding, which is told in a line."""
    shown = re.sub(rb"[^ -~]", b"?", os.fsencode(path)).decode()
    found = FINDING.fullmatch(finding.removeprefix(shown)).groupdict()
    told = [(name, found[name]) for name in ("line", "column", "fault", "sentence", "warning") if found[name] is not None]
    return [("file", str(path))] + [(name, int(it) if name in ("line", "column") else it) for name, it in told]


class Check(Trial):
    seconds = 22
    rooms = IN_MEMORY

    def put(self, *texts):
        """Files with these texts, each with its path and its text."""
        files = []
        for number, text in enumerate(texts):
            path = self.room / f"{number}.ic"
            path.write_bytes(as_bytes(text))
            files.append((path, as_bytes(text)))
        return files

    def tells(self, files, *flags):
        """Fails unless the files are told as the model says, in their order."""
        told = [checked(path, text, in_script=bool(flags)) for path, text in files]
        ran = run("check", *flags, *(path for path, _ in files))
        self.agrees(ran.command, "what is told", "".join(f"{it}\n" for lines, _ in told for it in lines), ran.out)
        faulty = any(it for _, it in told)
        ends = (1, b"icserve: faults\n") if faulty else (0, b"")
        self.equals(ran.command, "how it ends", ends, (ran.status, ran.err))
        wanted = [fields_of(path, it) for (path, _), (lines, _) in zip(files, told) for it in lines]
        self.objects(wanted, ends, *flags, *(path for path, _ in files))
        return ran.out.decode()

    def objects(self, wanted, ends, *paths):
        """Fails unless `--format json` has objects with these fields, one a line, and ends so."""
        ran = run("check", "--format", "json", *paths)
        came = [json.loads(it, object_pairs_hook=list) for it in ran.out.decode().split("\n")[:-1]]
        self.equals(ran.command, "the objects", wanted, came)
        self.equals(ran.command, "how it ends", ends, (ran.status, ran.err))

    def test_each_row(self):
        texts = [expanded(text) for _, _, text, _ in rows("texts", *CONFIGS, *SYSTEMS)]
        files = self.put(*texts)
        for at in range(0, len(files), 50):
            self.tells(files[at : at + 50])
        for at in range(0, len(texts), 20):
            lines = [b"submit job " + it.replace(b"\n", b" ") for it in texts[at : at + 20] if len(it) < 100_000]
            self.tells(self.put(b"\n".join(lines)))

    def test_each_fault_of_the_page_on_texts_has_the_place_that_the_page_tells(self):
        """What `settle` and `once` say there, in one line for each text."""
        page = (TOP / "docs/text-format.md").read_text()
        typed = re.findall(
            r"\$ printf '(.*)' \| \./icserve (?:settle|once)\n *icserve: (.*)\n *line (\d+), column (\d+)\n.*\n.*\n *(.*)\n", page
        )
        self.equals("docs/text-format.md", "at least seven faults", True, len(typed) >= 7)
        files = self.put(*(it[0] for it in typed))
        wanted = [
            f"{path}:{line}:{column}: {fault}: {sentence}"
            for (path, _), (_, fault, line, column, sentence) in zip(files, typed)
        ]
        self.refuses("check", *(path for path, _ in files), out=wanted, line="faults", status=1)
        self.tells(files)

    def test_a_run_is_a_fault_of_a_script(self):
        lines = ["submit one {} <x|x=Done>", "\t run 5", "fetch run", "run", "runs", "", "pause one", "run 007", "{} <|>"]
        ((path, _),) = files = self.put("\n".join(lines))
        told = self.tells(files, "--script").splitlines()
        no_run = "bad syntax: run isn't for scripts, since runners make the rounds"
        wanted = [f"{path}:2:3: {no_run}", f"{path}:4:1: {no_run}", f"{path}:8:1: {no_run}"]
        self.equals(path, "the runs", wanted, [it for it in told if "scripts" in it])
        self.equals(path, "all that is told", 6, len(told))
        self.tells(files)
        self.tells(self.put("{} <|>", "run " + "0" * 262_140, "run " + "0" * 262_141, "", "submit a {} <|>\nlist"), "--script")

    def test_a_strict_check_counts_warnings_as_faults(self):
        fine, warned, line, bad = (path for path, _ in self.put("<|>", "{A><B} <x|A=C>", "submit two {} <r|r=Done>", "<"))
        faults = (1, b"icserve: faults")
        for paths, plain, strict in (
            ([fine], (0, b""), (0, b"")),
            ([warned], (0, b""), faults),
            ([line], (0, b""), faults),
            ([warned, fine], (0, b""), faults),
            ([fine, bad], faults, faults),
            ([self.room / "none", warned], (4, b"icserve: read"), (4, b"icserve: read")),
        ):
            for flags in ([], ["--format", "json"]):
                ran, told = run("check", "--strict", *flags, *paths), run("check", *flags, *paths)
                self.equals(ran.command, "what is told", (told.out, told.after), (ran.out, ran.after))
                self.equals(told.command, "how it ends", plain, (told.status, told.err.partition(b"\n")[0]))
                self.equals(ran.command, "how it ends", strict, (ran.status, ran.err.partition(b"\n")[0]))

    def test_drawn_lines_of_scripts(self):
        draw = self.draws()
        for _ in range(10):
            lines = session(draw, job_names(draw, 5), small_systems(draw, 3), 50)
            self.tells(self.put("\n".join(lines)), "--script")

    def test_warnings(self):
        add = "{Add(x,x)><Z;Add(S(x),y)><S(Add(x,y))}"
        none_meet = "no two agents meet, so no rule is used: a sum is Add(r,n)=m, not r=Add(m,n)"
        systems = {
            f"{add} <r|r=Add(S(Z),S(Z))>": [none_meet],
            f"{add} <Add(S(Z),S(Z))|>": [none_meet],
            f"{add} <r|x=Add(r,Z),x=S(Z)>": [],
            f"{add} <r|x=Add(r,Z),y=S(Z),x=y>": [],
            f"{add} <r|x=x,r=Add(S(Z),S(Z))>": [],
            f"{add} <r,x|x=Add(r,Z),y=Add(Z,S(y))>": [none_meet],
            f"{add} <r|Add(r,S(Z))=S(Z)>": [],
            f"{add} <r|Add(r,Z)=Nil>": ["no rule for Add><Nil", "symbols that stand only once: Nil", "rule 2, Add><S, is never used"],
            f"{add} <Z|>": ["rule 1, Add><Z, is never used", "rule 2, Add><S, is never used"],
            "{A><B} <|A=B>": [],
            "{A><B} <|A=A,B=A,B=B>": ["no rule for A><A", "no rule for B><B"],
            "{A><B;D><D} <|A=x>": [
                "symbols that stand only once: B",
                "rule 1, A><B, is never used",
                "rule 2, D><D, is never used",
                "the name x stands only once",
            ],
            "{} <x,A|x=A>": [],
            "{Add(X,X)><Z} <r|Add(r,Z)=Z>": ["X is an agent, and no rule is of it: names are small letters, as x"],
            "{Add(T,U)><Z(a,a)} <r,s|Add(r,s)=Z(T,U)>": [],
            "{Add(X,X)><Z;X><Z} <|Add(X,X)=Z>": [],
            "{Add(Nil,Nil)><Z;B(X(X(a)),a)><Z} <|Add(b,c)=Z,B(b,c)=Z>": [],
            "{} <A|>": ["symbols that stand only once: A"],
            "{C(x,y)><D(x,y)} <r|C(r,C(Nill,C(B,Z)))=D(A,Nil)>": ["symbols that stand only once: Nill, B, Z, A, Nil"],
        }
        for text, told in systems.items():
            ((path, _),) = files = self.put(text)
            self.tells(files)
            self.runs("check", path, out=[f"{path}: warning: {it}" for it in told])
            ((path, _),) = self.put(f"\nsubmit one {text}\nlist")
            self.runs("check", path, out=[f"{path}:2: warning: {it}" for it in told])
        self.tells(self.put("<A|>", "<|A=B>"))
        # Neither the name of a job nor its budget is a symbol of its text.
        self.tells(self.put("submit A 2 {A><B(x)} <A(x,y)|>\nsubmit job 2 {2><B(x)} <2(x,y)|>"))

    def test_the_texts_and_sessions_in_examples(self):
        paths = sorted([*TOP.glob("examples/*.ic"), *TOP.glob("examples/*.session")])
        self.equals("examples/", "at least 20 files", True, len(paths) >= 20)
        told = self.tells([(path, path.read_bytes()) for path in paths])
        faulty = [it for it in told.splitlines() if "warning" not in it and ".ic:" in it]
        self.equals("examples/", "texts with a fault", [], faulty)

    def test_drawn_texts(self):
        drawn = self.draws()
        texts = []
        for _ in range(150):
            rule_set, config = draws.system(drawn, drawn.choice([1, 2, 5]), drawn.choice([2, 3, 6]), drawn.choice([0, 0, 0.2]))
            text = drawn.choice([draws.system_text, draws.system_text, model.printed])(rule_set, config)
            text = as_bytes(draws.spaced(drawn, text) if drawn.random() < 0.3 else text)
            for _ in range(drawn.choice([0, 0, 1, 1, 2])):
                text = draws.spoilt(drawn, text)
            texts.append(text)
        files = self.put(*texts)
        for at in range(0, len(files), 30):
            self.tells(files[at : at + 30])

    def test_drawn_lines(self):
        drawn = self.draws()
        for _ in range(12):
            lines = session(drawn, job_names(drawn, 6), small_systems(drawn, 6), drawn.choice([1, 10, 60]))
            lines = [draws.spoilt(drawn, as_bytes(it)) if drawn.random() < 0.5 else as_bytes(it) for it in lines]
            self.tells(self.put(drawn.choice([b"\n", b"\r\n"]).join(lines) + drawn.choice([b"", b"\n", b"\r\n", b"\n\n"])))

    def test_each_mistake_in_a_line_is_told_its_place_and_what_is_wrong(self):
        name, budget, long = SOUGHT["name"], "a budget or { is looked for here", "a job's name has at most 16 bytes"
        told = {
            "submit two Add(x)": (12, "syntax", budget),
            " submit\ttwo  5 Add": (16, "syntax", "{ is looked for here"),
            "submit two 5": (13, "syntax", "{ is looked for here"),
            "submit a b {} <|>": (10, "syntax", budget),
            "submit two 05 Add": (12, "syntax", budget),
            "submit a {A><B <|>": (16, "syntax", "( or ; or } is looked for here"),
            "submit": (7, "syntax", name),
            "submit Two Add": (8, "syntax", name),
            "fetch one two": (11, "syntax", "the line should end before this"),
            "copy a b {} <|>": (10, "syntax", "the line should end before this"),
            "run": (4, "syntax", "a number is looked for here"),
            "fetch": (6, "syntax", name),
            "fetch " + "a" * 17: (7, "limit", long),
            "copy a " + "b" * 17: (8, "limit", long),
            "submit a 0 {} <r|r=r>": (10, "limit", "a budget is 1 to 4294967295"),
            "run 1001": (5, "limit", "a run makes at most 1000 rounds"),
            " " * 262_144 + "x": (262_145, "limit", "a line has at most 262144 bytes"),
        }
        for line, (column, kind, sentence) in told.items():
            ((path, _),) = files = self.put(f"list\n{line}\n")
            self.equals(line[:60], "what is told", f"{path}:2:{column}: bad {kind}: {sentence}\n", self.tells(files))

    def test_files_that_are_no_text(self):
        blank = [b"", b"\n", b" \t\r\n"]
        others = [b"\0", b"\xff\xfe<|>", b"\xef\xbb\xbf{} <|>", b"# a comment\n<|>", b"{", b"<", b"\n\n<", b"\r{}\r\n<\r"]
        self.tells(self.put(*blank, *others))

    def test_line_ends(self):
        for end in ("\n", "\r\n", "\r"):
            system = end.join(["{A><B;", "\tB><A}", "<|>"])
            lines = end.join(["list", "", "submit a {A(x)><B} <|>", "pause", "submit b {} <A|>", "submit"])
            self.tells(self.put(system, lines, lines + end, end + end + lines))

    def test_texts_of_the_greatest_length(self):
        for piece in (b"<", b"{}<|>", b"x\n", b"submit a {}<|>\n", b"\xc3\xa9", b"\r\n"):
            long = piece * (MOST_TEXT // len(piece) + 1)
            self.tells(self.put(*(long[:most] for most in (MOST_TEXT, MOST_TEXT + 1))))
        space = b" " * MOST_TEXT
        self.tells(self.put(space + b"<|>", b"submit a {}" + space + b"<|>\nlist\n", b"submit a {" + space + b"A}<|>"))

    def test_many_lines(self):
        lines = {b"list\n": 0, b"submit a {} <r|r=r>\r\n": 1, b"x\n": 1, b"submit b {A><B} <A|>\n": 2}
        for line, told in lines.items():
            self.equals("check", "how many lines are told", told * 100_000, self.tells(self.put(line * 100_000)).count("\n"))

    def test_findings_are_written_as_they_are_found(self):
        """By a program that may hold 12 MB: of many lines, of lines under a long path, and of a system with many warnings."""
        least = {"preexec_fn": lambda: resource.setrlimit(resource.RLIMIT_AS, (12 * 2**20, 12 * 2**20)), "stdout": subprocess.DEVNULL}
        folder = self.room.joinpath(*["p" * 200] * 15)
        folder.mkdir(parents=True)
        names = ",".join(f"A(a{3 * it + 1},a{3 * it + 2},a{3 * it + 3})" for it in range(60))
        texts = {
            self.room / "lines": (b"x\n" * 150_000, 1),
            folder / "lines": (b"x\n" * 8_192, 1),
            folder / "warnings": (b"submit a {} <%s|>\n" % names.encode() * 40, 0),
        }
        for path, (text, status) in texts.items():
            path.write_bytes(text)
            for flags in ((), ("--format", "json"), ("--script",)):
                ran = run("check", *flags, path, **least)
                self.equals(ran.command, "how it ends", (status, b"icserve: faults\n" if status else b""), (ran.status, ran.err))

    def test_each_line_is_told_before_the_next_is_looked_at(self):
        """A client may read what is told of a file's first lines while the others are looked at: no more than a buffer of it is wanting."""
        ((path, _),) = self.put(b"x\n" * 400_000)
        with subprocess.Popen([PROGRAM, "check", path], stdout=subprocess.PIPE, stderr=subprocess.PIPE) as checking:
            front = checking.stdout.read(100_000)
            most = memory_of(checking, "VmHWM")
            checking.stdout.close()
            checking.kill()
        self.equals(path, "whether the first line is told", True, front.startswith(f"{path}:1:1: bad syntax: ".encode()))
        self.equals(path, "whether less than 20 MB were held", True, most < 20 * 1024)

    def test_several_files(self):
        fine, faulty, warns = self.put("<|>", "<|", "{} <A|>")
        self.tells([fine])
        self.tells([warns, fine])
        self.tells([fine, faulty, warns])
        self.tells([faulty] * 3)

    def test_files_that_are_not_read(self):
        """The others are looked over all the same."""
        (fine, _), (faulty, text) = self.put("<|>", "<|")
        os.mkfifo(self.room / "pipe")
        missing = [f"{self.room}/missing: open: no such file or folder"]
        folder = [f"{self.room}: read: is a folder"]
        pipe = [f"{self.room}/pipe: open: is a pipe"]
        told, _ = checked(faulty, text)
        for paths, out, after in (
            ([self.room / "missing"], [], missing),
            ([fine, self.room], [], folder),
            ([self.room / "pipe", faulty], told, pipe),
            ([self.room / "missing", faulty, self.room, fine, faulty], told + told, missing + folder),
        ):
            self.runs("check", *paths, out=out, err=["icserve: read", *after], status=4)
        how = self.without_rights()
        os.chmod(fine, 0o000)
        os.chmod(faulty, 0o444)
        err = ["icserve: read", f"{fine}: open: no rights"]
        self.runs("check", fine, faulty, out=told, err=err, status=4, **how)

    def test_a_file_that_is_too_long(self):
        ((path, _),) = self.put(b"")
        with open(path, "r+b") as file:
            file.truncate(MOST_BYTES)
        told, _ = checked(path, bytes(MOST_BYTES))
        self.refuses("check", path, out=told, line="faults", status=1)
        for size in (MOST_BYTES + 1, 2**40):
            with open(path, "r+b") as file:
                file.truncate(size)
            self.runs("check", path, err=["icserve: read", f"{path}: it has more than {MOST_BYTES} bytes"], status=4)

    def test_a_path_with_bytes_that_are_not_shown(self):
        path = self.room / "a\nb\x7f\u00e9\x9b.ic"
        path.write_text("<|")
        told = f"{self.room}/a?b?????.ic:1:3: bad syntax: the text ends before its configuration does: <INTERFACE|EQUATIONS>"
        self.refuses("check", path, out=[told], line="faults", status=1)

    def test_objects_have_paths_with_quotation_marks_backslashes_and_other_bytes_as_they_are(self):
        for name in ('a"b\\c.ic', "a\nb\t\x01\x1f\x7f\u00e9\U0001f600.ic", "a: b: 1:2.ic", "warning"):
            path = self.room / name
            path.write_text("<|")
            sentence = "the text ends before its configuration does: <INTERFACE|EQUATIONS>"
            wanted = [("file", str(path)), ("line", 1), ("column", 3), ("fault", "bad syntax"), ("sentence", sentence)]
            self.objects([wanted], (1, b"icserve: faults\n"), path)

    def test_objects_of_standard_input_of_several_files_and_of_no_finding(self):
        (fine, _), (warns, _) = self.put("<|>", "{} <A|>")
        warning = [("file", str(warns)), ("warning", "symbols that stand only once: A")]
        self.objects([], (0, b""), fine)
        self.objects([warning], (0, b""), warns, fine)
        line = {"file": "-", "line": 2, "warning": "symbols that stand only once: A"}
        self.runs("check", "--format=json", "-", given="list\nsubmit a {} <A|>", out=[json.dumps(line, separators=(",", ":"))])
        missing = self.room / "missing"
        cause = f"icserve: read\n{missing}: open: no such file or folder\n".encode()
        self.objects([warning], (4, cause), warns, missing)

    def test_files_stay_as_they_are(self):
        files = self.put("<|", "{} <A|>", "submit\n")
        before = [(path.read_bytes(), path.stat().st_mtime_ns) for path, _ in files]
        self.tells(files)
        self.equals("check", "the files", before, [(path.read_bytes(), path.stat().st_mtime_ns) for path, _ in files])

    def test_an_output_that_cant_be_written(self):
        ((path, _),) = self.put("<|")
        with open("/dev/full", "wb") as full:
            ran = run("check", path, stdout=full)
        self.equals(ran.command, "how it ends", (4, b"icserve: write\n"), (ran.status, ran.err))
