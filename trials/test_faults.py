"""Each call of the program to the system goes wrong in turn: a growth of memory, a thread, a call on the disk's file, a read,
a write. Each fault gives the defined line and status, and leaves the disk to be opened with all that was answered."""

from disks import EMPTY, SECOND, put, slot
from known import ADD, LOOP, TWO, WAVES, WIDE
from program import TOP, Server, run
from shim import noted, shimmed, was_refused
from stops import Stops

# The lines of the worked row `looping`.
LOOPING = [f"submit loop {LOOP.text}", "run 5", "fetch loop", "pause loop", "pause loop", "run 3"]
LOOPING += ["resume loop", "resume loop", "run 2", "fetch loop"]
SUMS = [f"submit two {TWO.text}", "run 1", "list", "", f"submit more {TWO.text}"]
SUMS += ["fetch two", "run 10", "cancel two", "list"]
# Two jobs whose rounds are made in a lap.
LAP = [f"submit a {WAVES.text}", f"submit b {WIDE.text}", "list", "run 2", "fetch b"]


class Faults(Stops):
    seconds = 15

    def setUp(self):
        super().setUp()
        shimmed()
        self.log = self.room / "log"
        self.came = set()

    def in_turn(self, what, ways, attempt):
        """Has each call of a kind go wrong, in each of these ways, until an attempt makes fewer calls: how many there were."""
        for how in ways:
            number, is_over = 0, False
            while not is_over:
                number += 1
                attempt(shimmed(f"{what} {number} {how}", self.log), f"{what} {number} {how}")
                is_over = not was_refused(self.log)
        return number - 1

    def is_fault(self, ran, call, *faults):
        """Fails unless a run in which a call went wrong ended with one of these (status, word)."""
        if (ran.status, ran.err) not in [(status, f"icserve: {word}\n".encode()) for status, word in faults]:
            self.told(ran.command, f"the end, where it went wrong: {call}", f"one of {faults}", ran[1:])
        self.came.add((ran.status, ran.err.decode()[9:-1]))

    def are(self, least, calls):
        """Fails where fewer calls were tried than there should be."""
        self.equals(self.id(), f"at least {least} calls, came {calls}", True, calls >= least)

    def have_come(self, *faults):
        """Fails unless each of these (status, word) has come."""
        self.equals(self.id(), f"faults that never came, of {sorted(self.came)}", set(), {*faults} - self.came)

    def stream_by(self, word, text, answer, status=0, line=b""):
        """Each growth of a run over streams is refused: want of memory, or all goes as if it weren't."""

        def attempt(env, call):
            ran = run(word, given=text, env=env)
            if (ran.status, ran.out, ran.err) == (status, answer, line):
                return
            self.is_fault(ran, call, (4, "memory"))
            self.agrees(ran.command, f"standard output, where it went wrong: {call}", b"", ran.out)

        return self.in_turn("growth", ("once", "on"), attempt)

    def test_each_growth_of_settle_is_refused_in_turn(self):
        self.are(20, self.stream_by("settle", "<r|r=S(s),s=Z>", b"<S(Z)|>\n"))
        self.stream_by("settle", "<x|x=A(x)>", b"", 1, b"icserve: bad name x\n")
        self.stream_by("settle", "<x|x==A(x)>", b"", 1, b"icserve: bad syntax\n")

    def test_each_growth_of_once_is_refused_in_turn(self):
        self.are(40, self.stream_by("once", f"{ADD} <r|Add(r,S(Z))=S(Z)>", b"<S(s)|Z=Add(s,S(Z))>\n"))
        self.stream_by("once", "{A(B,x)><A(x,C)} <|>", b"", 1, b"icserve: bad lopsided 1\n")
        self.stream_by("once", "{A(B,x)><A(x,C)} <|", b"", 1, b"icserve: bad syntax\n")

    def test_each_growth_over_words_is_refused_in_turn(self):
        for words in (["--help"], ["--version"], ["settles"], ["serve"], ["serve", "--disk", "F", "--workers", "65"]):
            well = run(*words)

            def attempt(env, call, words=words, well=well):
                ran = run(*words, env=env)
                if (ran.status, ran.out, ran.err) != (well.status, well.out, well.err):
                    self.is_fault(ran, call, (4, "memory"))
                    self.agrees(ran.command, f"standard output, where it went wrong: {call}", b"", ran.out)

            self.in_turn("growth", ("once", "on"), attempt)

    def told_of(self, file, *words):
        """Each growth of a run that tells of a file is refused: a fault, or all goes as if it weren't. Nothing is printed at a
        fault, but by `check`, which has printed a front of what it tells. The file stays as it is."""
        well, before = run(*words), file.read_bytes()

        def attempt(env, call):
            ran = run(*words, env=env)
            if (ran.status, ran.out, ran.err) != (well.status, well.out, well.err):
                self.is_fault(ran, call, (4, "memory"), (3, "memory"))
                if words[0] == "check":
                    self.equals(ran.command, f"whether a front of all is told, where it went wrong: {call}", True, well.out.startswith(ran.out))
                else:
                    self.agrees(ran.command, f"standard output, where it went wrong: {call}", b"", ran.out)
            self.holds(file, before)

        return self.in_turn("growth", ("once", "on"), attempt)

    def test_each_growth_over_a_file_of_a_text_is_refused_in_turn(self):
        """A text that is answered, one that is refused, and a file that is missing: lines after the first may be wanting."""
        answered, refused = self.room / "answered", self.room / "refused"
        answered.write_text("<r|r=S(s),s=Z>")
        refused.write_text("<x|x=A(x)>")
        for path in (answered, refused, self.room / "missing"):
            well = run("settle", path)

            def attempt(env, call, path=path, well=well):
                ran = run("settle", path, env=env)
                if (ran.status, ran.out, ran.err.split(b"\n")[0]) != (well.status, well.out, well.err.split(b"\n")[0]):
                    self.is_fault(ran, call, (4, "memory"))
                    self.agrees(ran.command, f"standard output, where it went wrong: {call}", b"", ran.out)

            self.in_turn("growth", ("once", "on"), attempt)
        self.have_come((4, "memory"))

    def test_each_growth_of_dump_and_of_inspect_is_refused_in_turn(self):
        """Of a disk with two jobs, one of which has a name that may not stand in a text. Its newest slot alone is looked at."""
        disk = self.disk()
        great = "submit great {A(B(x))><B(A(x))} <v165191049|A(x)=B(x)>"
        self.serves(disk, [great, f"submit two 7 {TWO.text}", "run 2"], ["accepted", "accepted", "ran 2"])
        disk.write_bytes(disk.read_bytes()[SECOND:])
        self.are(200, self.told_of(disk, "dump", "--disk", disk))
        self.told_of(disk, "dump", "--disk", disk, "two", "none")
        self.have_come((3, "memory"), (4, "memory"))
        self.are(200, self.told_of(disk, "inspect", "--disk", disk))

    def test_each_growth_of_check_is_refused_in_turn(self):
        path = self.room / "text"
        for text in (f"submit a {TWO.text}\nlist\nsubmit b {{}} <A|>\nsubmit c {{}} <A|", "{A><B;C><C} <|A=A>", "<r|r=r>"):
            path.write_text(text)
            self.are(100, self.told_of(path, "check", path))
        self.have_come((4, "memory"))

    def created(self, env, call, *faults):
        """A `create` in which a call goes wrong. It is done again, and the disk is empty and serves."""
        disk = self.room / "created.disk"
        ran = run("create", "--disk", disk, env=env)
        if ran.status:
            self.is_fault(ran, call, *faults)
        elif ran.out or ran.err:
            self.told(ran.command, f"what it wrote, where it went wrong: {call}", "nothing", (ran.out, ran.err))
        else:
            self.serves(disk, "list", ["jobs"])
        self.runs("create", "--disk", disk)
        self.serves(disk, "list", ["jobs"])
        disk.unlink()
        return ran

    def test_each_growth_of_create_is_refused_in_turn(self):
        faults = [(4, "memory"), (3, "memory"), (3, "device")]
        self.are(5, self.in_turn("growth", ("once", "on"), lambda *it: self.created(*it, *faults)))
        self.have_come((3, "memory"), (4, "memory"))

    def test_each_call_of_create_on_the_disk_fails_in_turn(self):
        def attempt(env, call):
            ran = self.created(env, call, (3, "device"))
            if not ran.status and was_refused(self.log):
                self.told(ran.command, f"the end, where it went wrong: {call}", "status 3", ran.status)

        self.are(10, self.in_turn("disk", ("once", "on", "done", "half"), attempt))

    def served(self, lines, ways, what, *faults, words=(), may_go_well=False):
        """Serves lines, one at a time, over a new disk each time, while each call of a kind goes wrong in turn. What was
        answered is there at the next opening, and of the next line a front of what it keeps."""
        disk, every = self.room / "jobs.disk", 2

        def attempt(env, call):
            put(disk, slot(1, EMPTY))
            ran = self.spoken(disk, lines, env, "--every", every, *words)
            if was_refused(self.log) and not (may_go_well and ran.status == 0):
                self.is_fault(ran, call, *faults)
            elif (ran.status, ran.err) != (0, b""):
                self.told(ran.command, f"the end, where it went wrong: {call}", "status 0", (ran.status, ran.err))
            answers = [it for it in self.answers_to(lines, every) if it is not None]
            if not ran.status:
                self.agrees(ran.command, "the answers of a serving that went well", "\n".join(answers) + "\n", ran.out)
            self.found(ran, disk, self.may_be_left(ran, lines, (), every, ahead=1))

        return self.in_turn(what, ways, attempt)

    def spoken(self, disk, lines, env, *words):
        """A server that is asked line by line until it ends. Where it isn't said how many threads there may be it would look for
        the number of processors, in files of the system."""
        if "--workers" not in words:
            words = (*words, "--workers", "1")
        with Server(disk, *words, env=env) as server:
            for line in lines:
                server.send(line)
                if line and server.answer() is None:
                    break
            return server.end()

    def test_each_growth_of_a_serving_is_refused_in_turn(self):
        faults = [(4, "memory"), (4, "pool"), (3, "memory"), (3, "device")]
        for lines, ways in ((LOOPING, ("once", "on")), (SUMS, ("once",))):
            self.are(200, self.served(lines, ways, "growth", *faults, may_go_well=True))
        self.have_come((3, "memory"), (4, "memory"), (4, "pool"))

    def test_each_growth_of_an_opening_is_refused_in_turn(self):
        """Over a disk that holds jobs, which stay."""
        disk = self.disk()
        self.serves(disk, SUMS[:5], ["accepted", "ran 1", "jobs two:running:1", "accepted"])
        before = disk.read_bytes()

        def attempt(env, call):
            ran = run("serve", "--disk", disk, env=env)
            if ran.status:
                self.is_fault(ran, call, (4, "memory"), (3, "memory"), (3, "device"))
            self.agrees(ran.command, f"standard output, where it went wrong: {call}", b"", ran.out)
            self.holds(disk, before)

        self.are(50, self.in_turn("growth", ("once", "on"), attempt))
        self.have_come((3, "memory"), (4, "memory"))

    def test_drawn_growths_of_an_opening_of_many_jobs_are_refused(self):
        """Over a disk with the jobs of all sessions in examples/."""
        lines = [line for it in sorted(TOP.glob("examples/*.session")) for line in it.read_text().splitlines()]
        submits = [it for it in lines if it.startswith("submit ")]
        draw, disk = self.draws(), self.disk()
        wanted = self.asks(disk, [*submits, "run 7", "list"])[-1]
        before = disk.read_bytes()

        def attempt(call):
            ran = run("serve", "--disk", disk, given=["list"], env=shimmed(call, self.log))
            if ran.status:
                self.is_fault(ran, call, (4, "memory"), (3, "memory"), (3, "device"))
            self.agrees(ran.command, "the list", b"" if ran.status else f"{wanted}\n", ran.out)

        attempt(f"growth {10**9} once")
        growths = next(it.at for it in noted(self.log) if it.kind == "C")
        self.are(500, growths)
        for number in sorted(draw.sample(range(1, growths + 1), 300)):
            attempt(f"growth {number} once")
        self.have_come((3, "memory"), (4, "memory"))
        self.holds(disk, before)

    def growths_of(self, *words, given):
        """How many growths a run asks for."""
        run(*words, given=given, env=shimmed(f"growth {10**9} once", self.log))
        return next(it.at for it in noted(self.log) if it.kind == "C")

    def test_rounds_of_reduce_use_one_another_s_lists(self):
        """A thousand rounds more ask for no memory. A round with lists of its own asks for some."""
        few, many = (self.growths_of("reduce", "--rounds", it, given=LOOP.text) for it in ("1000", "2000"))
        self.equals(f"icserve reduce, {LOOP.text}", "growths of 1,000 and of 2,000 rounds", few, many)

    def test_each_call_of_a_serving_on_the_disk_fails_in_turn(self):
        for lines in (LOOPING, SUMS):
            self.are(50, self.served(lines, ("once", "on", "done", "half"), "disk", (4, "device"), (3, "device")))
        self.have_come((4, "device"), (3, "device"))

    def test_a_disk_that_takes_and_gives_a_byte_at_a_time(self):
        """All goes as on another one, and leaves the same file."""
        disks = [self.room / name for name in ("slow.disk", "jobs.disk")]
        for disk, how in zip(disks, ({"env": shimmed("disk 1 short")}, {})):
            self.runs("create", "--disk", disk, **how)
            self.serves(disk, LOOPING, [it for it in self.answers_to(LOOPING, 100) if it], **how)
        self.holds(disks[0], disks[1].read_bytes())

    def test_no_call_is_made_on_the_disk_after_one_that_failed(self):
        """Neither a write nor a sync: after a sync that failed the file would take the next one."""
        disk, script = self.room / "jobs.disk", self.room / "script"
        script.write_text("".join(f"{it}\n" for it in LOOPING if not it.startswith("run")))

        def attempt(words, env, call):
            put(disk, slot(1, EMPTY))
            ran = run(*words, given=LOOPING, env=env)
            calls = [it.kind for it in noted(self.log)]
            after = calls[calls.index("E") + 1 :] if "E" in calls else []
            self.equals(ran.command, f"writes and syncs after it went wrong: {call}", [], [it for it in after if it in "WS"])

        for words in (["create", "--overwrite"], ["serve", "--workers", 1], ["attend", "--runners", 0, script]):
            self.are(10, self.in_turn("disk", ["once"], lambda *it, words=words: attempt([*words, "--disk", disk], *it)))

    def test_create_syncs_a_new_file_and_its_folder_before_it_writes(self):
        """One sync more than where the file is there: that of the folder, whatever the path is. Without `--overwrite` each look at
        what stands there makes one: whether it may be made anew, and whether it is made already."""
        (self.room / "a").mkdir()
        for path in ("one.disk", "a/two.disk", "./a/../three.disk", self.room / "a/four.disk"):
            for words, wanted in (["create"], 4), (["create", "--overwrite"], 2), (["serve"], 2):
                ran = run(*words, "--disk", path, given="", cwd=self.room, env=shimmed(log=self.log))
                calls = "".join(it.kind for it in noted(self.log) if it.kind in "WS")
                self.equals(ran.command, f"syncs before the first write, of {calls}", wanted, len(calls.partition("W")[0]))

    def test_create_syncs_the_folder_after_it_has_made_and_synced_the_file(self):
        """So the file's name is there for good, too. Where the folder's sync fails, the file is there, and one sync was made."""
        disk, came = self.room / "made.disk", []

        def attempt(env, _):
            ran = run("create", "--disk", disk, env=env)
            if b": its folder: sync: " in ran.after:
                came.append((disk.exists(), sum(it.kind == "S" for it in noted(self.log))))
            disk.unlink(missing_ok=True)

        self.in_turn("disk", ["once"], attempt)
        self.equals("create", "whether the file was there where the folder's sync failed, and the syncs before", [(True, 1)], came)

    def test_each_read_of_a_serving_fails_in_turn(self):
        self.are(len(LOOPING) + 1, self.served(LOOPING, ("once", "on"), "read", (4, "read")))
        self.served(LOOPING, ("interrupt", "short"), "read", may_go_well=True)

    def test_each_write_of_a_serving_fails_in_turn(self):
        calls = self.served(LOOPING, ("once", "on", "nothing", "half"), "write", (4, "write"))
        self.equals("row looping", "writes, one an answer", len(LOOPING), calls)
        self.served(LOOPING, ("interrupt", "short"), "write", may_go_well=True)

    def test_each_read_and_write_of_a_stream_fails_in_turn(self):
        for what, line in (("read", "read"), ("write", "write")):
            for how in ("once", "on", "interrupt", "short"):

                def attempt(env, call, how=how, line=line):
                    ran = run("settle", given="<r|r=S(s),s=Z>", env=env)
                    if how in ("interrupt", "short") or not was_refused(self.log):
                        self.ended(ran, out=["<S(Z)|>"])
                    else:
                        self.is_fault(ran, call, (4, line))

                self.are(1, self.in_turn(what, [how], attempt))

    def test_each_start_of_a_thread_is_refused_in_turn(self):
        """Laps are made by threads. Where one can't be started fewer make them, and the answers are the same."""
        calls = self.served(LAP, ("once", "on"), "thread", words=("--workers", "4"), may_go_well=True)
        self.equals("a lap by 4 workers", "threads", 3, calls)

    def test_jobs_with_enough_work_are_made_by_as_many_threads_as_said(self):
        """Where a run asks for less, of one job, for one round, or for rounds that copy more than they fire, the thread that serves
        makes the rounds. The shim counts the threads."""
        disk = self.room / "jobs.disk"
        two = [((("a", 1), ("b", 1)), it) for it in ((1, 2), (444, 2), (445, 2), (1024, 2), (1024, 1))]
        large, smaller = (tuple((f"j{it}", nodes) for it in range(32)) for nodes in (7000, 1000))
        for jobs, (count, asked) in [*two, (large, (1, 2)), (large, (100, 2)), (smaller, (200, 4)), (smaller[:20], (60, 16))]:
            for workers in (1, 2, 7, 64):
                put(disk, slot(1, EMPTY))
                nets = [(name, "C(" * (nodes - 1) + "D" + ")" * (nodes - 1)) for name, nodes in jobs]
                lines = [f"submit {name} {{A><B}} <{net}|" + ",".join(["A=B"] * count) + ">" for name, net in nets] + [f"run {asked}"]
                counts = shimmed(f"thread {10**9} once", self.log)
                ran = self.serves(disk, lines, [*["accepted"] * len(jobs), f"ran {asked}"], "--workers", workers, env=counts)
                threads = next(it.at for it in noted(self.log) if it.kind == "C")
                fires = 16 * count >= 2 * count + jobs[0][1]
                is_lap = asked > 1 and fires and asked * (18 * count + jobs[0][1]) >= 16_000
                made = workers - 1 if is_lap else 0
                self.equals(ran.command, f"threads for {len(jobs)} jobs of {count} equations, and {asked} rounds", made, threads)

    def test_drawn_growths_of_a_lap_by_threads_are_refused(self):
        draw, disk = self.draws(), self.room / "jobs.disk"

        def attempt(call):
            put(disk, slot(1, EMPTY))
            ran = self.spoken(disk, LAP, shimmed(call, self.log), "--workers", "3")
            if ran.status or ran.err:
                self.is_fault(ran, call, (4, "memory"), (4, "pool"), (3, "memory"), (3, "device"))
            self.found(ran, disk, self.may_be_left(ran, LAP, (), 100, ahead=1))

        attempt(f"growth {10**9} once")
        growths = next(it.at for it in noted(self.log) if it.kind == "C")
        self.are(200, growths)
        for number in sorted(draw.sample(range(1, growths + 1), 150)):
            attempt(f"growth {number} {draw.choice(('once', 'on'))}")
        self.have_come((4, "memory"))
