"""Each exit status and each line of standard error that docs/words.md and docs/serving.md name, and what a refusal leaves.
Want of memory and of threads is tried in test_faults.py; the lines of docs/clients.md in test_attend.py."""

import os
import subprocess

from disks import EMPTY, HEAD, OLD_EMPTY, SECOND, disk_of, old_form, slot, table_by_hand
from known import TEXT_WORDS
from program import PROGRAM, Server, Trial, grows_to, run

NOT_EMPTY = "the file holds something; `--overwrite` makes it an empty disk all the same"
IS_TEXT = "the file is a text, and no disk; `--overwrite` makes it an empty disk all the same"

ADD = "{Add(x,x)><Z;Add(S(x),y)><S(Add(x,y))}"
TWO = f"submit two {ADD} <r|Add(r,S(Z))=S(Z)>"


def nested(count):
    """A term of so many agents round one more."""
    return "C(" * count + "D" + ")" * count


# Texts that `settle` refuses, and those that `once` refuses.
CONFIGS = [
    ("", "bad syntax"),
    ("<|", "bad syntax"),
    ("<|A(", "bad syntax"),
    ("<x0|>", "bad syntax"),
    ("<|A()=B>", "bad syntax"),
    ("<|>\0", "bad syntax"),
    ("<|> <|>", "bad syntax"),
    ("<" + ",".join("A" * 65) + "|>", "bad limit"),
    ("<" + ",".join("A" * 65) + "|", "bad syntax"),
    ("<w165191049|>", "bad limit"),
    (" " * 262_142 + "<|>", "bad limit"),
    ("<" * 300_000, "bad limit"),
    (f"<|{nested(8191)}=E>", "bad limit"),
    (f"<|{nested(80_000)}=E>", "bad limit"),
    (f"<|{nested(80_000)[:-80_000]}=E>", "bad syntax"),
    ("<A|A(x)=B>", "bad arity"),
    ("<x|x=A(x)>", "bad name x"),
    ("<a1,a1|B(a1)=C>", "bad name a1"),
]
SYSTEMS = [
    ("<|>", "bad syntax"),
    ("{x><A} <|>", "bad syntax"),
    ("{A(x)><B} <|A(", "bad syntax"),
    ("{A><B} <|A(x)=B>", "bad arity"),
    ("{A><B;A(x,y)><B(x)} <|>", "bad arity"),
    ("{A(x,y)><B(x)} <|>", "bad namecount 1"),
    ("{A><B;C(x)><D} <|>", "bad namecount 2"),
    ("{A(x)><B(x)} <x|x=A(x)>", "bad name x"),
    ("{A(x)><B(x);B(y)><A(y)} <|>", "bad twice 2"),
    ("{A(B,x)><A(x,C)} <|>", "bad lopsided 1"),
    ("{" + ";".join(f"A{i}><B" for i in range(64)) + "} <|>", "bad limit"),
    (f"{{A><B(C(C(D)))}} <|A=B(P),{nested(8187)}=Q>", "overgrown"),
]


class Texts(Trial):
    def test_what_goes_well_ends_with_status_0_and_says_nothing_else(self):
        self.runs("settle", given="<r | r = S(s), s = Z>", out=["<S(Z)|>"])
        self.runs("once", given=f"{ADD} <r|Add(r,S(Z))=S(Z)>", out=["<S(s)|Z=Add(s,S(Z))>"])
        self.runs("settle", given=f"<|{nested(8190)}=E>", out=[f"<|{nested(8190)}=E>"])
        self.runs("once", given=f"{{A><B(C(C(D)))}} <|A=B(P),{nested(8186)}=Q>", out=[f"<|P=C(C(D)),{nested(8186)}=Q>"])
        disk = self.disk()
        self.serves(disk, [TWO, "run 10", "fetch two"], ["accepted", "ran 2", "two done 2 <S(S(Z))|>"])
        self.serves(disk, "", "")

    def test_a_refused_configuration_ends_with_status_1_and_its_fault(self):
        for text, fault in CONFIGS:
            with self.subTest(text=text[:60]):
                self.refuses("settle", given=text, line=fault, status=1)

    def test_a_refused_system_or_round_ends_with_status_1_and_its_fault(self):
        for text, fault in SYSTEMS:
            with self.subTest(text=text[:60]):
                self.refuses("once", given=text, line=fault, status=1)

    def test_refused_lines_are_answered_and_the_serving_goes_on(self):
        refused = [(f"submit a {text}", fault) for text, fault in SYSTEMS if fault != "overgrown"]
        refused += [("run 1001", "bad limit"), ("pause " + "a" * 17, "bad limit")]
        bad = ["run 007", "run", "submit Two {} <|>", "list list", "lists", "\0"]
        refused += [(it, "bad syntax") for it in bad]
        lines, answers = zip(*refused)
        self.serves(self.disk(), [*lines, "", " \t\r", "list"], [*answers, "jobs"])


class Words(Trial):
    REFUSED = [
        (),
        ("serve",),
        ("create",),
        ("settle", "one", "more"),
        ("help", "helps"),
        ("help", "settle", "once"),
        ("once", "--disk", "F"),
        ("settles",),
        ("--disk", "F", "serve"),
        ("serve", "F"),
        ("serve", "--disk"),
        ("serve", "--disk", "F", "--disk", "G"),
        ("serve", "--disk", "F", "--workers", "0"),
        ("serve", "--disk", "F", "--workers", "65"),
        ("serve", "--disk", "F", "--workers", "two"),
        ("serve", "--disk", "F", "--workers", "-1"),
        ("serve", "--disk", "F", "--every", "0"),
        ("serve", "--disk", "F", "--every", "1000001"),
        ("serve", "--disk", "F", "--every", ""),
        ("serve", "--disk", "F", "--sometimes", "1"),
        ("create", "--disk", "F", "--workers", "2"),
        ("create", "--overwrite"),
        ("create", "--disk", "F", "--overwrite", "--overwrite"),
        ("create", "--disk", "F", "--overwrite=yes"),
        ("serve", "--disk", "F", "--overwrite"),
        ("attend",),
        ("attend", "F"),
        ("attend", "--disk"),
        ("attend", "--disk", "F", "--every", "2"),
        ("attend", "--disk", "F", "--runners", "65"),
        ("attend", "--disk", "F", "--runners", "-1"),
        ("attend", "--disk", "F", "--runners", ""),
        ("attend", "--disk", "F", "--turns", "1000001"),
        ("attend", "--disk", "F", "--turns", "no", "script"),
        ("attend", "--disk", "F", "--workers", "0", "script"),
        ("attend", "--disk", "F", "--workers", "65"),
        ("attend", "--disk", "F", "--workers", "2", "--workers", "2"),
    ]

    def test_refused_words_end_with_status_2_and_touch_no_file(self):
        for words in [*self.REFUSED, ("serve", "--disk", os.fsdecode(b"\xff"))]:
            with self.subTest(words=words):
                ran = run(*words, cwd=self.room)
                begins = b"error: " if words else b"A job server"
                if ran.status != 2 or ran.out or not ran.err.startswith(begins) or not ran.err.endswith(b"\n"):
                    self.told(ran.command, "the end", f"status 2, nothing on standard output, {begins} ..", ran[1:])
                self.equals(ran.command, "the files that it made", [], os.listdir(self.room))

    def test_help_and_version_go_to_standard_output(self):
        helps = [["--help"], ["-h"], *([word, "--help"] for word in ("settle", "once", "create", "serve", "attend")), ["help"], ["help", "batch"]]
        for words in (*helps, ["--version"], ["-V"]):
            with self.subTest(words=words):
                ran = run(*words)
                wanted = b"Usage: icserve" if words in helps else b"icserve "
                if ran.status or ran.err or wanted not in ran.out:
                    self.told(ran.command, "the end", f"status 0 and {wanted} on standard output", ran[1:])

    def test_each_option_may_be_written_with_an_equals_sign_and_in_any_order(self):
        disk = self.room / ("a-path-of-more-than-sixteen-bytes" * 6)
        self.runs("create", f"--disk={disk}")
        self.runs("serve", "--every=1000000", "--workers", "64", f"--disk={disk}", given="list", out=["jobs"])
        self.runs("serve", "--workers=1", "--disk", disk, "--every", "1", given="list\nlist", out=["jobs", "jobs"])
        script = self.room / "script"
        script.write_text("list")
        longest = ["--turns", "1000000", "--runners", "64", "--workers", "1"]
        for numbers in (["--runners=0", "--turns=0", "--workers=64"], longest):
            self.runs("attend", *numbers, f"--disk={disk}", script, script, out=["client 0", "jobs", "client 1", "jobs"])
            self.runs("attend", script, "--disk", disk, *numbers, out=["client 0", "jobs"])


class Disks(Trial):
    def leaves(self, path, line):
        """Serving is refused with status 3 and this line, and the file is left as it is."""
        before = path.read_bytes() if path.is_file() else None
        self.refuses("serve", "--disk", path, line=line, status=3, given="list")
        if before is not None:
            self.holds(path, before)

    def file(self, name, data):
        path = self.room / name
        path.write_bytes(data)
        return path

    def test_create_makes_the_empty_disk_of_the_pages_whatever_the_file_held(self):
        empty = disk_of(slot(1, EMPTY))
        self.equals("docs/book.md", "bytes of a new disk", 4_194_317, len(empty))
        for name, before in [("missing", None), ("short", b"x" * 100), ("zeros", bytes(5_000_000))]:
            with self.subTest(before=name):
                path = self.room / name
                if before is not None:
                    path.write_bytes(before)
                self.runs("create", "--disk", path, "--overwrite")
                rest = before[len(empty) :] if before else b""
                between = (before or b"")[18:SECOND].ljust(SECOND - 18, b"\0")
                self.holds(path, empty[:18] + between + empty[SECOND:] + rest)
                self.serves(path, "list", ["jobs"])
        disk = self.disk()
        self.holds(disk, empty)
        self.serves(disk, [TWO], ["accepted"])
        self.runs("create", "--overwrite", "--disk", disk)
        self.serves(disk, "list", ["jobs"])

    def test_create_makes_an_empty_disk_of_what_is_unused(self):
        """An empty file, an empty disk, and what a `create` of an empty file leaves where it is stopped: of both forms."""
        cases = [disk_of(slot(1, OLD_EMPTY), slot(2, EMPTY))]
        for form in (EMPTY, OLD_EMPTY):
            begun = slot(1, form, 0)
            cases += [disk_of(slot(1, form)), disk_of(slot(7, form)), disk_of(slot(1, form), slot(2, form))]
            cases += [begun[:length] for length in range(len(begun) + 1)]
            cases += [begun[:length].ljust(SECOND + more, b"\0") for length in (0, 1, 9, 13, 18) for more in (1, HEAD)]
        for i, data in enumerate(cases):
            with self.subTest(case=i):
                path = self.file("disk", data)
                self.runs("create", "--disk", path)
                self.serves(path, "list", ["jobs"])

    def test_create_overwrites_nothing_else_unasked(self):
        table = table_by_hand()
        cases = [b"a text\n", b"x" * 100, bytes(SECOND + HEAD + 1), slot(1, EMPTY)[:12], slot(1, EMPTY)[:17]]
        cases += [slot(1, EMPTY, 0) + b"x", disk_of(slot(3, b"x")), disk_of(slot(1, EMPTY), slot(1, EMPTY))]
        cases += [disk_of(slot(1, table)), disk_of(slot(1, EMPTY), slot(2, table)), disk_of(slot(1, table, 0))]
        cases += [disk_of(slot(1, old_form(table))), slot(1, b"ICT3\0", 0), slot(2, EMPTY, 0)]
        cases += [b"\xf3" * (SECOND + HEAD), b"\xc3\xa9" * SECOND]
        for i, data in enumerate(cases):
            with self.subTest(case=i):
                path = self.file("disk", data)
                ran = self.refuses("create", "--disk", path, line="not empty", status=3)
                words = IS_TEXT if i in (0, 1, len(cases) - 1) else NOT_EMPTY
                self.agrees(ran.command, "what is told after it", f"{path}: {words}\n", ran.after)
                self.holds(path, data)
                self.runs("create", "--disk", path, "--overwrite")
                self.serves(path, "list", ["jobs"])

    def test_what_is_kept_is_the_table_that_the_page_writes_by_hand(self):
        table = table_by_hand()
        self.equals("docs/byte-form.md", "bytes of the table by hand", 134, len(table))
        disk = self.disk()
        self.serves(disk, [TWO], ["accepted"])
        self.holds(disk, disk_of(slot(1, EMPTY), slot(2, table)))
        made = self.file("made", disk_of(slot(1, EMPTY), slot(2, table)))
        self.serves(made, ["list", "fetch two"], ["jobs two:running:0", "two running 0 <r|Add(r,S(Z))=S(Z)>"])

    def test_a_disk_of_the_old_form_opens_and_its_newest_slot_stays_as_it_was(self):
        table = table_by_hand()
        old = old_form(table)
        self.equals("docs/byte-form.md", "bytes of the old form", 126, len(old))
        before = disk_of(slot(1, OLD_EMPTY), slot(2, old))
        disk = self.file("old", before)
        self.serves(disk, ["list", "fetch two"], ["jobs two:running:0", "two running 0 <r|Add(r,S(Z))=S(Z)>"])
        self.holds(disk, before)
        self.serves(disk, ["pause two"], ["ok"])
        paused = table.replace(b"two\0", b"two\1", 1)
        first = slot(3, paused)
        self.holds(disk, first + before[len(first) :])
        self.serves(disk, ["resume two"], ["ok"])
        self.holds(disk, disk_of(first, slot(4, table)))

    def test_device_where_the_file_is_missing_and_then_it_isnt_made(self):
        missing = self.room / "missing"
        self.leaves(missing, "device")
        self.equals("serve --disk missing", "whether it made the file", False, missing.exists())
        self.refuses("create", "--disk", self.room / "no/folder", line="device", status=3)
        self.refuses("serve", "--disk", "", line="device", status=3)

    def test_device_where_the_file_is_a_folder_or_a_device(self):
        self.leaves(self.room, "device")
        self.refuses("create", "--disk", self.room, line="device", status=3)
        for path in ("/dev/full", "/dev/null"):
            self.refuses("create", "--disk", path, line="device", status=3)

    def test_device_where_the_file_may_not_be_read_and_written(self):
        how = self.without_rights()
        for mode in (0o444, 0o222, 0o000):
            with self.subTest(mode=oct(mode)):
                path = self.disk()
                os.chmod(path, mode)
                self.refuses("serve", "--disk", path, given="list", line="device", status=3, **how)
                self.refuses("create", "--disk", path, line="device", status=3, **how)
                os.chmod(path, 0o644)
                self.serves(path, "list", ["jobs"])
                path.unlink()

    def test_no_slot_where_no_slot_is_open(self):
        table = table_by_hand()
        cases = [b"", b"\1", bytes(12), bytes(5_000_000), slot(1, EMPTY)[:12], slot(1, EMPTY, 0), b"\xff" * 100]
        cases += [disk_of(slot(1, EMPTY, 0), slot(2, table, 0)), disk_of(slot(1, EMPTY, 2), slot(2, table, 255))]
        for i, data in enumerate(cases):
            with self.subTest(case=i):
                self.leaves(self.file("disk", data), "no slot")

    def test_two_alike_where_both_slots_are_open_with_one_number(self):
        for number in (0, 1, 2**64 - 1):
            self.leaves(self.file("disk", disk_of(slot(number, EMPTY), slot(number, table_by_hand()))), "two alike")

    def test_damaged_where_the_newest_slot_holds_no_table(self):
        table = table_by_hand()
        whole = disk_of(slot(1, EMPTY), slot(2, table))
        bodies = [table[:-1], table + b"\0", b"ICT0" + table[4:], b""]
        cases = [whole[:-1], whole[: SECOND + HEAD], *(disk_of(slot(1, EMPTY), slot(2, it)) for it in bodies)]
        long = slot(2, b"")[:9] + (3_036_678).to_bytes(4, "big")
        cases += [disk_of(slot(1, EMPTY), long + table.ljust(3_036_678, b"\0")), disk_of(slot(3, b"x"), slot(2, table))]
        for i, data in enumerate(cases):
            with self.subTest(case=i):
                self.leaves(self.file("disk", data), "damaged")

    def test_a_disk_cut_to_any_length_below_its_first_body(self):
        whole = disk_of(slot(1, EMPTY))
        for length in range(18):
            self.leaves(self.file("disk", whole[:length]), "no slot" if length < 13 else "damaged")
        for length in (18, 19, SECOND, SECOND + 12, SECOND + 13):
            disk = self.file("disk", whole[:length])
            self.serves(disk, ["list", TWO, "list"], ["jobs", "accepted", "jobs two:running:0"])
            self.serves(disk, "list", ["jobs two:running:0"])


class Servings(Trial):
    def isnt_read(self, ran, cause, out=b""):
        """Fails unless a run ended with `read`, and this cause after it, and had answered this."""
        told = (ran.status, ran.out, ran.err.decode(), ran.after.decode())
        self.equals(ran.command, "how it ends", (4, out, "icserve: read\n", f"standard input: read: {cause}\n"), told)

    def test_read_where_standard_input_cant_be_read(self):
        disk = self.disk()
        folder = os.open(self.room, os.O_RDONLY)
        self.addCleanup(os.close, folder)
        for words in (["serve", "--disk", disk], *([word] for word in TEXT_WORDS)):
            self.isnt_read(run(*words, stdin=folder), "is a folder")
            shell = ["-c", 'exec "$0" "$@" <&-', PROGRAM, *words]
            self.isnt_read(run(*shell, program="/bin/sh"), "is closed")

    def test_read_where_standard_input_is_set_not_to_wait(self):
        """What came before is answered."""
        disk, wanted = self.disk(), "nothing is there yet, and it is set not to wait"
        cases = [(["serve", "--disk", disk], b"list\nlist\n", b"jobs\njobs\n"), (["serve", "--disk", disk], b"list", b"")]
        cases += [([word], b"<|", b"") for word in TEXT_WORDS]
        for words, given, out in cases:
            read, write = os.pipe2(os.O_NONBLOCK)
            try:
                os.write(write, given)
                self.isnt_read(run(*words, stdin=read), wanted, out)
            finally:
                os.close(read)
                os.close(write)
        self.serves(disk, "list", ["jobs"])

    def test_write_where_standard_output_cant_be_written(self):
        """Why, is told after it."""
        disk, jobs, script = self.disk(), self.room / "jobs", self.room / "script"
        jobs.write_text(f"{TWO}\n")
        script.write_text("list\n")
        of_disks = [["attend", "--disk", disk, script], ["dump", "--disk", disk], ["inspect", "--disk", disk], ["batch", "--disk", disk, jobs]]
        with open("/dev/full", "r+b", buffering=0) as full:
            for words, given in (
                (["settle"], "<|>"),
                (["once"], "{} <|>"),
                (["reduce"], "{} <|>"),
                (["check", "-"], "<"),
                (["serve", "--disk", disk], f"{TWO}\n"),
                *((it, "") for it in of_disks),
                (["--help"], ""),
            ):
                ran = self.refuses(*words, given=given, line="write", status=4, stdout=full)
                self.equals(ran.command, "what is told after it", b"standard output: write: no room left on the device\n", ran.after)
            self.runs("serve", "--disk", disk, given="\n \n", stdout=full)
        ran = run("-c", 'exec "$0" --help >&-', PROGRAM, program="/bin/sh")
        self.equals(ran.command, "what is told", (b"icserve: write\n", b"standard output: write: is closed\n"), (ran.err, ran.after))
        self.serves(disk, "list", ["jobs two:done:2"])

    def test_write_where_the_reader_of_the_answers_has_gone(self):
        disk = self.disk()
        with Server(disk) as server:
            server.process.stdout.close()
            server.process.stdout = None
            server.send(TWO)
            server.process.stdin.close()
            ran = server.process.wait(60)
            said = server.process.stderr.read()
        if (ran, said) != (4, b""):
            self.told(server.command, "the end", "status 4, and nothing told", (ran, said))
        self.serves(disk, "list", ["jobs two:running:0"])

    def test_long_line_and_what_stood_before_it_is_answered(self):
        disk = self.disk()
        self.serves(disk, " " * 262_140 + "list\nlist", ["jobs", "jobs"])
        for long in (" " * 262_141 + "list\nlist\n", " " * 262_145, "x" * 10_000_000):
            self.refuses("serve", "--disk", disk, given=f"list\n{long}", out=["jobs"], line="long line", status=4)

    def test_too_many_lines_after_the_1000000th(self):
        disk = self.disk()
        self.serves(disk, "\n" * 999_999 + "list\n", ["jobs"])
        for more in ("list\n", "list", "x" * 300_000):
            given = "\n" * 999_999 + f"list\n{more}"
            self.refuses("serve", "--disk", disk, given=given, out=["jobs"], line="too many lines", status=4)

    def test_worn_where_the_numbers_of_the_slots_are_used_up(self):
        disk = self.room / "worn"
        disk.write_bytes(disk_of(slot(2**64 - 1, table_by_hand())))
        before = disk.read_bytes()
        for line in (TWO, "list", "fetch two", "pause two", "run 1"):
            self.refuses("serve", "--disk", disk, given=[line], line="worn", status=4)
        self.serves(disk, ["", "run 0", "no command"], ["ran 0", "bad syntax"])
        self.holds(disk, before)
        disk.write_bytes(disk_of(slot(2**64 - 2, table_by_hand())))
        given, out = ["list", "pause two", "list"], ["jobs two:running:0", "ok"]
        self.refuses("serve", "--disk", disk, given=given, out=out, line="worn", status=4)
        self.agrees(disk, "the head of the second slot", b"\1" + b"\xff" * 8, disk.read_bytes()[SECOND : SECOND + 9])

    def test_device_where_a_file_may_grow_no_further(self):
        """The table of 134 bytes ends at 4,194,451."""
        for most in (0, 1, 18, SECOND, SECOND + 1, SECOND + 12):
            self.refuses("create", "--disk", self.room / "new", line="device", status=3, **grows_to(most))
        self.runs("create", "--disk", self.room / "new", **grows_to(SECOND + 13))
        for most in (0, SECOND, SECOND + 1, SECOND + 13, SECOND + 146):
            disk = self.disk()
            how = grows_to(most)
            self.refuses("serve", "--disk", disk, given=["list", TWO, "list"], out=["jobs"], line="device", status=4, **how)
            self.serves(disk, "list", ["jobs"])
        self.serves(disk, [TWO], ["accepted"], **grows_to(SECOND + 147))
        self.serves(disk, "list", ["jobs two:running:0"])
