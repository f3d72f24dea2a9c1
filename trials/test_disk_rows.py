"""The worked rows of `trials/rows` that stand in the files `commands`, `forms`, `disks` and `attended`: what lines and scripts say,
which bytes are a table, what servings find and leave on a disk, and what clients and runners do.

- `line LINE`: what a line says, in one spelling, or its refusal. `script SCRIPT`: what a script's commands are told over a new
  disk, or the refusal of its first line with a fault; `/` stands for a line feed.
- `bytes BYTES`, `is_table BYTES`: the jobs of the table that has these bytes, or whether it is one. `symbols SYSTEM`: the symbols
  of the table that has a job of this system, each with its arity, and `next`.
- `disk WORD ; WORD ..`: what is told over a disk, a new one to begin with. Lines are served, up to a word of these:
  `has TABLE TABLE ..` for a disk that has kept these one after the other (e is empty, t has the job `two`, p has it paused, s has
  it spent after one round of one, l has the job `loop`), `slots BYTES BYTES` for one with these two, `top NEXT ROUNDS SYSTEM` for
  one of a job that runs; `put PLACE BYTES` and `cut LENGTH` change it, and `stop` changes nothing: it ends the serving. `create`
  makes it anew, `open` serves a list. `body` tells the newest table, `bytes PLACE COUNT`, `len` and `zeros PLACE` what the file
  has, `slot NUMBER` gate, number and length of a slot, `dump NAME ..` and `inspect` what the program tells, with `~n` between
  lines.
- `stopped CHOICES WORD ; .. | LINE ; ..`: what is found where the power goes before each write and each sync of these lines over
  a disk, or after all: a letter of the table for each of these choices of what it leaves of the ranges written since the last
  sync, as `synced` for nothing, `written` for all, `fill255` for this byte everywhere, `front13` for so many bytes.
- `crew WORKERS COUNT SYSTEM + ..`: the text and `next` after each of so many rounds, made by workers that stand. `each`: the same
  by 1, 2, 3, 7 and 64 workers.
- `attended RUNNERS TURNS WORKERS SCRIPTS`: what each client is answered over a new disk, and the jobs that are left. Commands stand
  between ` ; `, scripts between ` | `. `counted`: how many answers each client has, and why it was stopped. `served SCRIPT`:
  whether runners leave the jobs that a serving leaves. `unopened LENGTH`: why a disk isn't attended that is cut to a length, or
  has a slot `twice`."""

import model
import model_disk
from disks import EMPTY, HEAD, SECOND, newest, put, slot, table_by_hand
from known import LOOP
from model_disk import Disk, encode
from program import IN_MEMORY, Trial, run
from shim import noted, recording
from test_power import Content, Moment
from worked_rows import expanded, rows

LOOPS = LOOP.text.encode()
TWO = table_by_hand()
SPENT = model.read_system(b"{Add(x,x)><Z;Add(S(x),y)><S(Add(x,y))} <r|Add(r,S(Z))=S(Z)>")


def table_of(name, system, state="running", rounds=0, budget=None):
    """The bytes of a table of one job, by the model."""
    return encode(model.Table([model.Job(name, *system, rounds, state, budget)]))


# The tables of the rows, and what a list shows of each.
TABLES = {
    "e": EMPTY,
    "t": TWO,
    "p": TWO[:9] + b"\1" + TWO[10:],
    "s": table_of("two", (SPENT[0], model.round_of(*SPENT)), "spent", 1, 1),
    "l": table_of("loop", model.read_system(LOOPS)),
}
LETTERS = {
    "jobs": "e",
    "jobs two:running:0": "t",
    "jobs two:paused:0": "p",
    "jobs two:spent:1": "s",
    "jobs loop:running:0": "l",
}


def image_of(moment, choice):
    """The bytes that a loss of power at this moment leaves."""
    image = moment.synced
    if choice == "written":
        return moment.content()
    how = choice.rstrip("0123456789")
    number = int(choice.removeprefix(how) or 0)
    for at, data in moment.pending:
        if how == "fill":
            start = min(at, image.length)
            image = image.laid(start, bytes([number]) * (at + len(data) - start))
        elif how == "front" and number:
            image = image.laid(at, data[:number])
            number -= min(number, len(data))
    return image


def moments_of(begun, calls):
    """The moments before each write and each sync, and after all."""
    synced, pending = begun, []
    yield Moment(synced, pending)
    for call in calls:
        if call.kind == "W":
            pending = [*pending, (call.at, call.data)]
        else:
            synced, pending = Moment(synced, pending).content(), []
        yield Moment(synced, pending)


class Rows(Trial):
    rooms = IN_MEMORY

    def setUp(self):
        super().setUp()
        self.path = self.room / "jobs.disk"

    def served(self, *lines):
        """What lines are answered over the disk, and the line of a fault."""
        ran = run("serve", "--disk", self.path, given=lines)
        return [it.decode("latin-1").removeprefix("icserve: ") for it in (ran.out + ran.err).split(b"\n") if it]

    def answers_each(self, where, kinds, answer):
        """Asks for each row of these kinds, over a new disk."""
        found = rows(where, *kinds)
        self.equals(where, f"whether there are rows of {kinds}", True, bool(found))
        for name, kind, text, wanted in found:
            with self.subTest(name=name, kind=kind):
                put(self.path, slot(1, EMPTY))
                came = answer(kind, text)
                self.agrees(f"row {name}: {kind} {text[:300]}", "the answer", wanted, came.encode("latin-1"))


class Commands(Rows):
    seconds = 3

    def test_each_line(self):
        self.answers_each("commands", ["line"], lambda _, text: self.line_told(expanded(text)))

    def line_told(self, line):
        """What a line is answered where the jobs that rows speak of aren't there, or else what it did, in one spelling."""
        answers = self.served(line)
        if not answers:
            return "blank"
        if answers[0].startswith("bad "):
            return answers[0]
        if line.split()[0].startswith(b"submit"):
            return self.submitted()
        return self.done_by(line)

    def submitted(self):
        """The only job, as a line that submits it, without its rules."""
        ran = run("dump", "--disk", self.path)
        head, _, after = ran.out.decode().rstrip("\n").partition("{")
        return head + after.partition("}")[2].lstrip()

    def done_by(self, line):
        """What a line does over a table in which one job runs and another is paused, in the words of a row."""
        words = line.decode().split()
        name = words[1] if len(words) > 1 else "a"
        if name.isdigit():
            came = self.served(b"submit a " + LOOPS, line)[1]
            return came.replace("ran", "run")
        begin = [b"submit %s %s" % (name.encode(), LOOPS)] + [b"pause " + name.encode()] * (words[0] == "resume")
        answer, after = self.served(*begin, line, b"list")[-2:]
        wanted = {
            "pause": ("ok", f"jobs {name}:paused:0"),
            "resume": ("ok", f"jobs {name}:running:0"),
            "cancel": ("ok", "jobs"),
            "fetch": (f"{name} running 0 {LOOP.config(0)}", f"jobs {name}:running:0"),
            "list": (f"jobs {name}:running:0", f"jobs {name}:running:0"),
            "copy": ("accepted", f"jobs {name}:running:0 {words[-1]}:running:0"),
        }[words[0]]
        if words[0] == "copy" and words[-1] == name:
            wanted = "refused taken", f"jobs {name}:running:0"
        return " ".join(words) if wanted == (answer, after) else f"{answer}, and then {after}"

    def test_each_script(self):
        def told(_, text):
            path = self.room / "script"
            path.write_bytes(expanded(text).replace(b"/", b"\n"))
            ran = run("attend", "--disk", self.path, "--runners", 0, path)
            if ran.status:
                return ran.err.decode().removeprefix("icserve: script 0 ").rstrip("\n").replace(":", "", 1)
            return " ; ".join(ran.out.decode().splitlines()[1:]) or "nothing"

        self.answers_each("commands", ["script"], told)


class Forms(Rows):
    seconds = 3

    def test_each_byte_form(self):
        def told(kind, text):
            form = bytes.fromhex(expanded(text).decode())
            put(self.path, slot(1, form))
            first = self.served(b"list")[0]
            if first != "damaged":
                self.is_written_again(form)
            return {"damaged": "not a table"}.get(first, "table" if kind == "is_table" else first)

        self.answers_each("forms", ["bytes", "is_table"], told)

    def test_the_symbols_of_each_system(self):
        def told(_, text):
            self.served(b"submit a " + expanded(text))
            job = model_disk.decode(newest(self.path.read_bytes())[2]).jobs[0]
            return " ".join([*(f"{text}/{arity}" for text, arity in job.rules.symbols), str(job.config.next)])

        self.answers_each("forms", ["symbols"], told)

    def is_written_again(self, form):
        """Fails unless a line more is kept with the same jobs in front, in the form that is written."""
        jobs = model_disk.decode(form).jobs
        if self.served(b"submit one-more {} <|>") == ["accepted"]:
            wanted = encode(model.Table([*jobs, model.Job("one-more", model.Rules([], []), model.Config([], [], 0))]))
            self.agrees("a table of a row, and a job more", "what is kept", wanted, newest(self.path.read_bytes())[2])


class Disks(Rows):
    seconds = 15

    def test_each_disk(self):
        self.answers_each("disks", ["disk"], lambda _, text: self.told_over(expanded(text).decode("latin-1").split(" ; ")))

    def told_over(self, words):
        """What the words of a row are answered over a new disk."""
        answers, lines = [], []
        for word in [*words, "stop"]:
            verb, *rest = word.split(" ")
            told = getattr(self, f"word_{verb}", None)
            if told is None:
                lines.append(word)
                continue
            answers += self.served(*lines) if lines else []
            answers += told(*rest) or []
            lines = []
        return " ; ".join(answers)

    def word_stop(self):
        pass

    def word_has(self, *letters):
        disk = Disk()
        disk.create()
        disk.number, disk.newest = 1, 0
        disk.put_slot(0, 1, TABLES[letters[0]])
        for number, letter in enumerate(letters[1:], 2):
            disk.put_slot((number - 1) % 2, number, TABLES[letter])
        self.path.write_bytes(disk.content)

    def word_slots(self, first, second=""):
        put(self.path, bytes.fromhex(first), bytes.fromhex(second))

    def word_top(self, next_name, rounds, *system):
        rules, config = model.read_system(" ".join(system).encode())
        table = model.Table([model.Job("top", rules, config._replace(next=int(next_name)), int(rounds), "running")])
        put(self.path, slot(1, encode(table)))

    def word_put(self, at, digits):
        with open(self.path, "r+b") as file:
            file.seek(int(at))
            file.write(bytes.fromhex(digits))

    def word_cut(self, length):
        with open(self.path, "r+b") as file:
            file.truncate(int(length))

    def word_create(self):
        ran = run("create", "--disk", self.path, "--overwrite")
        return ["ok" if not ran.status else ran.err.decode()]

    def word_open(self):
        return self.served(b"list")[:1]

    def word_body(self):
        return [newest(self.path.read_bytes())[2].hex()]

    def word_bytes(self, at, count):
        return [self.path.read_bytes()[int(at) :][: int(count)].hex()]

    def word_len(self):
        return [str(self.path.stat().st_size)]

    def word_zeros(self, at):
        return ["no" if any(self.path.read_bytes()[int(at) :]) else "yes"]

    def word_slot(self, number):
        head = self.path.read_bytes()[int(number) * SECOND :][:HEAD]
        return [f"{head[0]} {int.from_bytes(head[1:9], 'big')} {int.from_bytes(head[9:], 'big')}"]

    def word_dump(self, *names):
        return self.told_by("dump", *names)

    def word_inspect(self):
        return self.told_by("inspect")

    def told_by(self, verb, *words):
        ran = run(verb, "--disk", self.path, *words)
        return [(ran.out + ran.err).decode("latin-1").removeprefix("icserve: ").rstrip("\n")]

    def test_each_stop(self):
        def told(_, text):
            choices, _, rest = text.partition(" ")
            before, _, lines = rest.rpartition(" | ")
            self.told_over(before.split(" ; "))
            return " ".join(self.found_by_stops(choices.split(","), lines.split(" ; ")))

        self.answers_each("disks", ["stopped"], told)

    def found_by_stops(self, choices, lines):
        """A letter for each choice, moment by moment."""
        data, log, known = self.path.read_bytes(), self.room / "log", {}
        begun = Content(data[:SECOND].rstrip(b"\0"), data[SECOND:], len(data))
        run("serve", "--disk", self.path, given=lines, **recording(log))
        calls = [it for it in noted(log) if it.kind in "WS"]
        # The opening makes syncs alone, before the first write.
        first = next(place for place, it in enumerate(calls) if it.kind == "W")
        for moment in list(moments_of(begun, calls))[first:]:
            images = [image_of(moment, it) for it in choices]
            for image in images:
                if image not in known:
                    image.write(self.path)
                    came = self.served(b"list")[0]
                    known[image] = LETTERS.get(came, came)
            yield "".join(known[it] for it in images)


class Attended(Rows):
    seconds = 8

    def test_each_crew(self):
        def told(kind, text):
            if kind == "crew":
                workers, _, systems = text.partition(" ")
                return self.rounds_by(int(workers), systems.split(" + "))
            ends = {self.rounds_by(it, [text]) for it in (1, 2, 3, 7, 64)}
            self.equals(f"each {text[:200]}", "how many ends there are", 1, len(ends))
            return ends.pop()

        self.answers_each("attended", ["crew", "each"], told)

    def rounds_by(self, workers, systems):
        """The text and `next` after each round of systems, made by so many workers that stand."""
        told = []
        for system in systems:
            count, _, text = system.partition(" ")
            put(self.path, slot(1, EMPTY))
            self.served(b"submit p " + expanded(text))
            for _ in range(int(count)):
                self.runs("attend", "--disk", self.path, "--runners", 1, "--turns", 1, "--workers", workers)
                job = model_disk.decode(newest(self.path.read_bytes())[2]).jobs[0]
                shown = self.served(b"fetch p")[0].split(" ", 3)[3]
                told.append(f"{shown} {job.config.next} ")
        return "".join(told)

    def attend(self, runners, turns, workers, scripts):
        """Attends scripts over the disk: what each client is told."""
        paths = [self.room / f"script {place}" for place in range(len(scripts))]
        for path, script in zip(paths, scripts):
            path.write_text(script.replace(" ; ", "\n"))
        ran = run("attend", "--disk", self.path, "--runners", runners, "--turns", turns, "--workers", workers, *paths)
        return ran, [it.splitlines()[1:] for it in ("\n" + ran.out.decode()).split("\nclient ")[1:]]

    def scripts_of(self, text):
        runners, turns, workers, *rest = expanded(text).decode().split(" ", 3)
        return runners, turns, workers, rest[0].split(" | ") if rest else []

    def test_each_attendance(self):
        def told(_, text):
            ran, clients = self.attend(*self.scripts_of(text))
            self.equals(ran.command, "status and standard error", (0, b""), (ran.status, ran.err))
            answers = "".join("".join(f"{it} ; " for it in client) + "| " for client in clients)
            copied = [word[2] for word in (it.split(" ") for it in text.split(" ; ")) if word[0] == "copy"]
            return (answers + "".join(sorted(self.jobs_told(copied)))).rstrip(" ") or "nothing"

        self.answers_each("attended", ["attended"], told)

    def jobs_told(self, copied):
        """The jobs on the disk: of one that runs its state alone, and of a copy no rounds."""
        names = [it.split(":")[0] for it in self.served(b"list")[0].split(" ")[1:]]
        for answer in self.served(*(f"fetch {it}" for it in names)) if names else []:
            name, state, rounds, config = answer.split(" ", 3)
            rest = [] if state == "running" else [config] if name in copied else [rounds, config]
            yield " ".join([name, state, *rest, "; "])

    def test_each_count_of_answers(self):
        def told(_, text):
            counts, (_, clients) = [], self.attend(*self.scripts_of(text))
            for client in clients:
                end = client.pop().removeprefix("stopped") if client and client[-1].startswith("stopped ") else ""
                counts.append(f"{len(client)}{end} ; ")
            return "".join(counts) + f"{len(clients)} clients"

        self.answers_each("attended", ["counted"], told)

    def test_each_disk_that_is_not_attended(self):
        def told(_, text):
            if text == "twice":
                put(self.path, slot(1, EMPTY), slot(1, EMPTY))
            else:
                self.path.write_bytes(slot(1, EMPTY)[: int(text)])
            before = self.path.read_bytes()
            ran, _ = self.attend(1, 1, 1, ["list", "list"])
            self.holds(self.path, before)
            self.equals(ran.command, "status and standard output", (3, b""), (ran.status, ran.out))
            return ran.err.decode().removeprefix("icserve: ").rstrip("\n")

        self.answers_each("attended", ["unopened"], told)

    def test_each_script_that_is_served_too(self):
        def told(_, text):
            self.attend(2, 1000, 2, [text])
            found = sorted(self.jobs_told([]))
            disk = Disk()
            disk.create()
            server = model_disk.Server(disk)
            for line in [*text.split(" ; "), "run 1000"]:
                server.answer(line.encode())
            shown = [server.table.apply("fetch", it.name) for it in server.table.jobs]
            self.equals(text, "the jobs that are left", sorted(f"{it} ; " for it in shown), found)
            return "one table"

        self.answers_each("attended", ["served"], told)
