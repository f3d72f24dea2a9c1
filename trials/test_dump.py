"""`dump`: jobs of a disk as lines that submit them."""

from collections import Counter

import draws
import model
from against_model import ModelTrial
from disks import EMPTY, disk_of, slot
from known import ADD, LOOP
from program import Server, grows_to, run
from test_drawn_serving import full_systems, job_names, session, small_systems

GREATEST, BEFORE = (model.name_text(model.MAX_NAME - it) for it in (1, 2))


def growing(pairs):
    """A system whose one round makes of each pair a hundred agents with texts of 32 bytes."""
    chain = f"{'L' * 32}(" * 100 + "x" + ")" * 100
    names = map(model.name_text, range(pairs))
    return f"{{G(x)><H({chain})}} <|{','.join(f'G({it})=H({it})' for it in names)}>"


def with_text_names(config):
    """The configuration with names that may stand in a text: its own, or where one is too great numbered by first occurrence,
    but for names that stand once: these are kept, and their numbers passed over."""
    names = model.names_of(config)
    if all(it < model.MAX_NAME for it in names):
        return config
    kept = {name for name, times in Counter(names).items() if times == 1 and name < model.MAX_NAME}
    spare = [it for it in range(2 * len(names)) if it not in kept]
    number = {name: name if name in kept else spare[place] for place, name in enumerate(dict.fromkeys(names))}

    def told(term):
        return tuple(number[it] if it >= 0 else it for it in term)

    return model.configuration([told(it) for it in config.interface], [tuple(map(told, sides)) for sides in config.equations])


def line_of(job):
    """The line that submits a job as it is now."""
    rules = ";".join(draws.rule_text(job.rules, it) for it in job.rules.rules)
    budget = f"{job.budget} " if job.budget else ""
    return f"submit {job.name} {budget}{{{rules}}} {model.printed(job.rules, with_text_names(job.config))}"


class Dump(ModelTrial):
    seconds = 8

    def dumps(self, disk, names, jobs):
        """Fails unless these jobs are dumped, and the file stays as it is."""
        self.runs("dump", "--disk", self.path, *names, out=[line_of(it) for it in jobs])
        self.same_file("dump", disk)

    def read_again(self, table):
        """The lines of a whole table are taken by a new disk, which has the same jobs then, with no rounds made."""
        lines = [line_of(it) for it in table.jobs]
        disk = self.new_disk()
        self.serve(disk, lines)
        again = disk.open()
        begun = [model.Job(it.name, it.rules, with_text_names(it.config), budget=it.budget) for it in table.jobs]
        self.equals("dump", "the jobs that are read again", [it.shown() for it in begun], [it.shown() for it in again.jobs])
        self.dumps(disk, [], again.jobs)
        self.equals("dump", "the lines of what was read again", lines, [line_of(it) for it in again.jobs])

    def test_lines_by_hand(self):
        disk = self.new_disk()
        given = [f"submit two 7 {ADD} <r|Add(r,S(Z))=S(Z)>", "submit still {} <y,y|>", f"submit loop {LOOP.text}"]
        self.serve(disk, [*given, "run 1", "pause loop"])
        rules = "{Add(a,a)><Z;Add(S(a),b)><S(Add(a,b))}"
        two, still = f"submit two 7 {rules} <S(s)|Z=Add(s,S(Z))>", "submit still {} <y,y|>"
        loop = "submit loop {A(B(a))><B(A(a))} <|A(x)=B(x)>"
        for names, lines in (
            ([], [two, still, loop]),
            (["two"], [two]),
            (["loop", "two"], [two, loop]),
            (["loop", "loop", "still"], [still, loop]),
            (["--"], [two, still, loop]),
        ):
            with self.subTest(names=names):
                self.runs("dump", "--disk", self.path, *names, out=lines)
                self.same_file("dump", disk)
        self.new_disk()
        self.runs("dump", "--disk", self.path)

    def test_what_is_refused(self):
        disk = self.new_disk()
        self.serve(disk, [f"submit two {ADD} <r|Add(r,S(Z))=S(Z)>", f"submit long {growing(78)}", "run 3"])
        self.refuses("dump", "--disk", self.path, "two", "tow", "wto", line="no job tow", status=1)
        self.refuses("dump", "--disk", self.path, line="too long long", status=1)
        self.refuses("dump", "--disk", self.path, "long", "none", line="no job none", status=1)
        self.dumps(disk, ["two"], disk.open().jobs[:1])
        for word in ("Two", "two three", "", "2", "a" * 17, "é"):
            ran = run("dump", "--disk", self.path, word)
            self.equals(ran.command, "status", (2, b""), (ran.status, ran.out))
            self.equals(ran.command, "that the word is told", True, f"'{word}'".encode() in ran.err)
        self.same_file("dump", disk)
        with Server(self.path) as server:
            self.answers(server, "list", "jobs two:done:2 long:done:1")
            ran = self.refuses("dump", "--disk", self.path, line="locked", status=6)
            self.equals(ran.command, "that the lock is told", True, b"another process has it open" in ran.after)
            self.ends(server)
        ran = self.refuses("dump", "--disk", self.room / "none", line="device", status=3)
        self.equals(ran.command, "that the file is missing", False, (self.room / "none").exists())
        broken = {"no slot": b"a text\n", "two alike": disk_of(slot(1, EMPTY), slot(1, EMPTY)), "damaged": disk_of(slot(1, b"x"))}
        for word, data in broken.items():
            self.path.write_bytes(data)
            self.refuses("dump", "--disk", self.path, line=word, status=3)
            self.holds(self.path, data)

    def test_an_output_that_cant_be_written(self):
        disk = self.new_disk()
        self.serve(disk, [f"submit two {ADD} <r|Add(r,S(Z))=S(Z)>"])
        with open("/dev/full", "wb") as full:
            ran = run("dump", "--disk", self.path, stdout=full)
        self.equals(ran.command, "how it ends", (4, b"icserve: write\n"), (ran.status, ran.err))
        with open(self.room / "out", "wb") as file:
            ran = run("dump", "--disk", self.path, stdout=file, **grows_to(20))
        self.equals(ran.command, "how it ends", (4, b"icserve: write\n"), (ran.status, ran.err))
        self.same_file("dump", disk)

    def test_drawn_tables_are_read_again(self):
        drawn = self.draws()
        for _ in range(40):
            names = job_names(drawn, drawn.randint(1, 12))
            disk = self.new_disk()
            self.serve(disk, session(drawn, names, small_systems(drawn, 4), drawn.choice([5, 20, 60])))
            table = disk.open()
            self.dumps(disk, [], table.jobs)
            chosen = [drawn.choice(table.jobs).name for _ in range(drawn.randint(1, 4))] if table.jobs else []
            self.dumps(disk, chosen, [it for it in table.jobs if it.name in chosen or not chosen])
            self.read_again(table)

    def test_great_names_are_numbered_anew(self):
        drawn = self.draws()
        disk = self.new_disk()
        lines = [f"submit j{place} {text}" for place, text in enumerate(full_systems(drawn, 8))]
        last = f"submit last {{A(B(x))><B(A(x))}} <{GREATEST}|A({BEFORE})=B({BEFORE})>"
        self.serve(disk, [*lines, last, "run 20"])
        table = disk.open()
        great = [it for it in table.jobs if any(name >= model.MAX_NAME for name in model.names_of(it.config))]
        self.equals("dump", "whether some names are too great", True, len(great) > 0)
        short = [it for it in table.jobs if len(line_of(it)) <= model.MAX_TEXT]
        self.dumps(disk, [it.name for it in short], short)
        self.read_again(model.Table(short))

    def test_free_names_are_kept_beside_great_ones(self):
        """Two jobs that differ in a free name, and one whose free names are the first numbers."""
        disk = self.new_disk()
        rules = "{A(B(x))><B(A(x))}"
        given = [("q", f"q|A({GREATEST})=B({GREATEST})"), ("r", f"r|A({GREATEST})=B({GREATEST})"), ("ba", f"b,a|A({GREATEST})=B({GREATEST})")]
        self.serve(disk, [*(f"submit {name} {rules} <{text}>" for name, text in given), "run 6"])
        rules = "{A(B(a))><B(A(a))}"
        told = [("q", "q|B(b)=A(b)"), ("r", "r|B(b)=A(b)"), ("ba", "b,a|B(e)=A(e)")]
        lines = [f"submit {name} {rules} <{text}>" for name, text in told]
        self.runs("dump", "--disk", self.path, out=lines)
        self.read_again(disk.open())
