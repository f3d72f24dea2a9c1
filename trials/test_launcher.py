"""The launcher `icserve`: it builds the program where that is missing or its sources have changed, and starts it: the proved
one where that is there, else one that isn't proved. Scripts stand for the prover and for what builds without it, so nothing
is proved here; one trial makes the real build that proves nothing."""

import os
import select
import shutil
import signal
import subprocess
import time
from pathlib import Path

from known import TEXT_WORDS
from program import PATIENCE, PROGRAM, TOP, Trial, heeds_signals, run
from test_pages import blocks_of, typed_in

# What the launcher and the builds call, but for make and rt.
TOOLS = "sh env cp find flock grep install mkdir nproc python3 readlink rm sed setsid sha256sum sleep sort stat tail tee xargs"

# Stands for `rt lib` in crates/ic_flat_round, and for `rt all check` and `rt run` in crates/icserve: notes its calls, keeps work
# of a library that it proves, or fails to, and puts the program where the prover would.
RT = f"""#!/bin/sh
echo "$1" >> "$CALLS"
[ -z "$SLOW" ] || sleep "$SLOW"
[ "$1" != "$FAILS" ] || [ "$1" = all ] || exit 1
case $1 in run) exec cp "{PROGRAM}" out/icserve ;; lib) exit ;; esac
mkdir -p ../low/out/incremental ../low/out/rlib
rm -f ../low/out/rlib/stamp
[ "$FAILS" = all ] || echo proved >../low/out/rlib/stamp
echo "== low"
[ "$FAILS" = all ] && printf '== summary\nlow: failed (1)\nicserve: not run, since low failed\n0 of 2 crates ok\n' && exit 1
printf '== icserve\n== summary\nlow: ok\nicserve: ok\n2 of 2 crates ok\n'
"""

# Stands for `build.py`, which builds without a proof.
BUILD = f"""#!/bin/sh
mkdir "$1/rooms"
echo build >> "$CALLS"
[ -z "$SLOW" ] || sleep "$SLOW"
[ -z "$UNTIL" ] || while [ ! -e "$UNTIL" ]; do sleep 0.05; done
[ -z "$REFUSES" ] || exit "$REFUSES"
eval "$EDITS"
cp "{PROGRAM}" "$1/icserve"
"""

# Stands for a tool: notes its calls, refuses those with a word of these, and says TELLS where that is set.
TOOL = """#!/bin/sh
echo {name} >> "$USED"
case " $* " in {refused}) exit 1 ;; esac
[ -z "{tells}" ] || exec echo "{tells}"
exec {path} "$@"
"""

ISNT_PROVED = "It isn't proved on this machine: `make prove` proves it"


class Launcher(Trial):
    seconds = 8

    def setUp(self):
        super().setUp()
        self.calls = self.room / "calls"
        self.calls.write_text("")
        for name in ("icserve", "film", "listen", "send", "page", "Makefile"):
            shutil.copy(TOP / name, self.room / name)
        shutil.copytree(TOP / "python/icserve", self.room / "python/icserve", ignore=shutil.ignore_patterns("__pycache__"))
        for it in ("lib", "examples", "cluster"):
            shutil.copytree(TOP / it, self.room / it, ignore=shutil.ignore_patterns("__pycache__"))
        (self.room / "crates.txt").write_text("low:\nicserve: low\n")
        for part in ("src", "specs", "proofs"):
            (self.room / "crates/icserve" / part).mkdir(parents=True)
            (self.room / "crates/low" / part).mkdir(parents=True)
        (self.room / "crates/ic_flat_round").mkdir()
        self.source = self.room / "crates/icserve/src/main.rt"
        self.source.write_text("first\n")
        self.tools = self.room / "tools"
        self.tools.mkdir()
        (self.room / "share").mkdir()
        (self.room / "share/pages.py").write_text("")
        for path, text in ((self.tools / "rt", RT), (self.room / "build.py", BUILD)):
            path.write_text(text)
            path.chmod(0o755)
        if not os.access(self.tools / "rt", os.X_OK):
            self.skipTest(f"programs in {self.room} can't be started here")
        for name in ("make", *TOOLS.split()):
            if shutil.which(name):
                (self.tools / name).symlink_to(shutil.which(name))
        self.used = self.room / "used"
        self.used.write_text("")
        self.stand_in("xargs")
        self.env = {"PATH": str(self.tools), "CALLS": str(self.calls), "USED": str(self.used), "HOME": str(self.room)}

    def stand_in(self, name, refused="none", tells=""):
        """Puts a script in the place of a tool. By `xargs` the launcher reads the sources."""
        (self.tools / name).unlink()
        (self.tools / name).write_text(TOOL.format(name=name, refused=refused, tells=tells, path=shutil.which(name)))
        (self.tools / name).chmod(0o755)

    def reads(self, wanted, **how):
        """Fails unless a launch that says nothing settles a configuration, and reads the sources or not, as is wanted."""
        self.used.write_text("")
        self.ended(self.launch("settle", **how), out=["<Z|>"])
        self.equals(f"./icserve settle, of {how}", "whether it reads the sources", wanted, "xargs" in self.used.read_text())

    def ages(self):
        """Waits until no file was changed just now."""
        time.sleep(2.2)

    def launch(self, *words, given=b"<r|r=Z>", path=None, **variables):
        return run(*words, given=given, program=path or self.room / "icserve", env={**self.env, **variables}, cwd="/")

    def make(self, *words, **variables):
        """Runs make, which must end well: what it said."""
        ran = run("-C", self.room, "--no-print-directory", *words, program=self.tools / "make", env={**self.env, **variables})
        self.equals(ran.command, f"status; it said {ran.err}", 0, ran.status)
        return ran.err.decode()

    def calls_are(self, *calls):
        """Fails unless the prover and the build without a proof were called so, as told by their notes."""
        self.equals("./icserve", "what was called", list(calls), self.calls.read_text().split())

    def settles(self, **variables):
        """Fails unless a launch settles a configuration, whatever is told of a build: what is told."""
        ran = self.launch("settle", **variables)
        self.ended(ran._replace(err=b""), out=["<Z|>"])
        return ran.err.decode()

    def says(self, text, told):
        self.equals("./icserve", f"whether it tells {text}; it told {told}", True, text in told)

    def test_it_builds_once_without_a_proof_and_again_where_a_source_has_changed(self):
        self.says(ISNT_PROVED, self.settles())
        for _ in range(3):
            self.agrees("./icserve settle, once more", "standard error", "", self.settles())
        self.calls_are("build")
        self.source.write_text("second\n")
        self.says(ISNT_PROVED, self.settles())
        self.calls_are("build", "build")

    def test_no_source_is_read_where_none_was_changed_since_the_last_read(self):
        self.settles()
        for _ in range(2):
            self.ages()
            self.settles()
            for _ in range(2):
                self.reads(False)
            os.utime(self.source)
            self.reads(True)
        self.ages()
        self.settles()
        known = self.room / "out/known"
        kept = known.read_bytes()
        for cut in (0, 40, 68, 80, 130):
            known.write_bytes(kept[:cut])
            self.reads(True)
            self.holds(known, kept)
        self.calls_are("build")

    def test_what_is_read_just_after_a_change_is_read_again(self):
        begun = time.monotonic()
        self.source.write_text("second\n")
        self.settles()
        if time.monotonic() - begun < 2:
            self.reads(True)

    def test_each_change_is_seen_also_one_that_leaves_size_and_times(self):
        low, source = "crates/low", "crates/icserve/src/main.rt"
        (self.room / low / "proofs/deep").mkdir()
        for path in ("src/lib.rt", "src/more.rt", "proofs/deep/Answers.antt"):
            (self.room / low / path).write_text("text\n")
        self.settles()

        def writes(copy, path, text):
            had = (copy / path).stat()
            (copy / path).write_text(text)
            os.utime(copy / path, ns=(had.st_atime_ns, had.st_mtime_ns))

        def puts(copy, path, text):
            (copy / "new").write_text(text)
            shutil.copystat(copy / path, copy / "new")
            os.replace(copy / "new", copy / path)

        def swaps(copy, one, other):
            for old, new in ((one, "x"), (other, one), ("x", other)):
                os.rename(copy / old, copy / new)

        changes = {
            "other bytes": lambda it: writes(it, source, "FIRST\n"),
            "other bytes of crates.txt": lambda it: writes(it, "crates.txt", "lox:\nicserve: lox\n"),
            "another file in its place": lambda it: puts(it, source, "FIRST\n"),
            "a file more": lambda it: (it / low / "specs/New.antt").write_text(""),
            "a file less": lambda it: os.remove(it / low / "src/more.rt"),
            "a file with another name": lambda it: os.rename(it / low / "src/more.rt", it / low / "src/most.rt"),
            "a folder with another name": lambda it: os.rename(it / low / "proofs/deep", it / low / "proofs/dee"),
            "a crate with another name": lambda it: os.rename(it / low, it / "crates/lox"),
            "folders that were swapped": lambda it: swaps(it, f"{low}/src", "crates/icserve/src"),
        }
        copies = {name: self.room / f"copy {number}" for number, name in enumerate(changes)}
        for copy in copies.values():
            copy.mkdir()
            subprocess.run(["cp", "-a", *(self.room / it for it in ("icserve", "build.py", "crates", "crates.txt", "out")), copy], check=True)
        self.ages()
        self.calls.write_text("")
        for name, copy in copies.items():
            for wanted in (True, False):
                self.reads(wanted, path=copy / "icserve")
            changes[name](copy)
            ran = self.launch("settle", path=copy / "icserve")
            self.ended(ran._replace(err=b""), out=["<Z|>"])
            self.equals(name, "what was called", ["build"], self.calls.read_text().split())
            self.calls.write_text("")

    def test_each_launch_reads_the_sources_where_changes_may_not_show(self):
        for name, refused, tells in (("stat", "none", "nfs"), ("find", "*' -printf '*", ""), ("find", "*' -newerct '*", "")):
            self.stand_in(name, refused, tells)
            self.settles()
            self.ages()
            for _ in range(3):
                self.reads(True)
            self.source.write_text(f"without {name} {refused}\n")
            self.says(ISNT_PROVED, self.settles())
            (self.tools / name).unlink()
            (self.tools / name).symlink_to(shutil.which(name))

    def test_what_is_known_isnt_kept_where_it_cant_be_written(self):
        self.settles()
        self.ages()
        (self.room / "out/known").unlink(missing_ok=True)
        (self.room / "out/known").mkdir()
        for _ in range(2):
            self.reads(True)

    def test_a_program_isnt_kept_if_a_source_is_changed_while_it_is_built(self):
        for after in ("", f"; echo first >{self.source}"):
            self.source.write_text("first\n")
            ran = self.launch("settle", EDITS=f"sleep 0.1; echo second >{self.source}{after}")
            self.ended(ran._replace(err=b""), status=4)
            self.says("sources were changed meanwhile, so this program isn't theirs: launch it again", ran.err.decode())
        self.says(ISNT_PROVED, self.settles())
        self.agrees("./icserve settle, once more", "standard error", "", self.settles())
        self.calls_are("build", "build", "build")

    def test_the_proved_program_is_run_where_it_is_there_of_these_sources(self):
        self.make("prove")
        self.calls_are("lib", "all", "run")
        self.agrees("./icserve settle", "standard error", "", self.settles())
        (self.room / "crates/icserve/out/icserve").write_text("#!/bin/sh\necho proved\n")
        (self.make("build"), self.calls_are("lib", "all", "run", "build"))
        self.ended(self.launch("settle"), out=["proved"])
        self.says("is proved", self.make("install", "PREFIX=prefix"))
        self.ended(run(program=self.room / "prefix/bin/icserve"), out=["proved"])
        for it in ("film", "listen", "send", "page"):
            self.holds(self.room / f"prefix/bin/icserve-{it}", (TOP / it).read_bytes())
        self.equals("make install", "the Python package", 1, len(list(self.room.glob("prefix/lib/python3*/*-packages/icserve/py.typed"))))
        self.make("uninstall", "PREFIX=prefix")
        self.equals("make uninstall", "the files that are left", [], [it for it in (self.room / "prefix").rglob("*") if it.is_file()])
        self.make("install", "PREFIX=prefix")
        self.source.write_text("second\n")
        self.says(ISNT_PROVED, self.settles())
        self.says("isn't proved", self.make("install", "PREFIX=~/prefix"))
        self.runs("settle", given="<r|r=Z>", out=["<Z|>"], program=self.room / "prefix/bin/icserve")
        self.source.write_text("first\n")
        self.ended(self.launch("settle"), out=["proved"])
        self.calls_are("lib", "all", "run", "build", "build")

    def test_neither_program_passes_for_the_other(self):
        self.settles()
        (self.room / "crates/icserve/out").mkdir(parents=True)
        shutil.copy(self.room / "out/sources", self.room / "crates/icserve/out/sources")
        self.says("isn't proved", self.make("install", "PREFIX=prefix"))
        self.make("prove")
        self.calls_are("build", "lib", "all", "run")

    def test_where_it_cant_be_built_without_a_proof_it_is_proved(self):
        told = self.settles(REFUSES="1")
        self.says("it can't be built so with this kit, for the reason above, and is proved first", told)
        self.agrees("./icserve settle, once more", "standard error", "", self.settles())
        self.calls_are("build", "lib", "all", "run")

    def test_where_the_kit_lacks_what_builds_without_a_proof_it_is_proved(self):
        shutil.copy(TOP / "build.py", self.room / "build.py")
        told = self.settles()
        self.says("this kit has other tools", told)
        self.says("and is proved first", told)
        self.calls_are("lib", "all", "run")

    def test_status_4_and_no_proof_where_the_sources_are_refused_or_a_signal_ends_the_build(self):
        for status in ("3", "137"):
            ran = self.launch("settle", REFUSES=status)
            self.ended(ran._replace(err=b""), status=4)
        self.calls_are("build", "build")

    def test_it_hands_on_words_input_and_status_through_links_too(self):
        (self.room / "folder").mkdir()
        (self.room / "folder/link").symlink_to("../icserve")
        self.launch("--version")
        for path in (self.room / "icserve", self.room / "folder/link"):
            self.ended(self.launch("settle", given=b"<|", path=path), err=["icserve: bad syntax"], status=1)
            self.ended(self.launch("serve", "--disk", "no file", path=path), err=["icserve: device"], status=3)

    def test_with_the_version_it_tells_the_sources(self):
        self.settles()
        sources = self.launch(ICSERVE_BUILD="sources").out.decode().split()[0]
        for word in ("--version", "-V"):
            self.ended(self.launch(word), out=run(word).out + f"sources {sources}\n".encode())
        self.source.write_text("second\n")
        told = self.launch("--version").out.decode()
        self.equals("./icserve --version, of other sources", "whether it tells the same", False, sources in told)

    def test_status_4_where_what_it_is_made_from_isnt_proved(self):
        for fails, crates in (("all", "low: failed (1)\n0 of 2 crates ok\n"), ("run", "2 of 2 crates ok\n")):
            ran = self.launch("settle", FAILS=fails, REFUSES="1")
            self.ended(ran._replace(err=b""), status=4)
            log = self.room / "crates/icserve/out/build.log"
            self.says(f"{crates}icserve: it could not be proved and built; see {log}\n", ran.err.decode())
        self.settles()

    def test_what_the_prover_keeps_of_a_crate_stays_where_there_was_some_or_it_isnt_proved(self):
        kept = self.room / "crates/low/out/incremental"
        for fails, stays in (("", False), ("all", True), ("", True), ("lib", True)):
            self.launch("settle", FAILS=fails, REFUSES="1", ICSERVE_BUILD="proved")
            self.equals(f"./icserve, where the prover fails: {fails}", f"whether {kept} is there", stays, kept.exists())
            (self.room / "crates/icserve/out/sources").unlink(missing_ok=True)

    def test_status_4_where_make_is_wanting_for_a_proof(self):
        (self.tools / "make").unlink()
        ran = self.launch("settle", REFUSES="1")
        self.ended(ran._replace(err=ran.err.splitlines()[-1]), err="icserve: GNU make is wanting", status=4)
        self.settles()

    def test_two_launches_build_once(self):
        """The build goes on until two launches have said that they wait for it. What one of them runs then holds up no other."""
        env = {**self.env, "UNTIL": str(self.room / "all wait")}
        errors = [open(self.room / f"errors {i}", "w+b") for i in range(3)]
        self.addCleanup(lambda: [it.close() for it in errors])
        pipes = {"stdin": subprocess.PIPE, "stdout": subprocess.PIPE, "bufsize": 0}
        words = [[self.room / "icserve", "serve", "--disk", self.disk(f"{i}.disk")] for i in range(3)]
        started = [subprocess.Popen(it, env=env, stderr=err, **pipes) for it, err in zip(words, errors)]
        self.addCleanup(lambda: [it.kill() for it in started])
        told = lambda: [(self.room / f"errors {i}").read_bytes() for i in range(3)]
        end = time.monotonic() + PATIENCE
        while sum(b"waiting for another launch" in it for it in told()) < 2 and time.monotonic() < end:
            time.sleep(0.05)
        (self.room / "all wait").write_text("")
        for it in started:
            it.stdin.write(b"list\n")
        answers = [it.stdout.readline() if select.select([it.stdout], [], [], PATIENCE)[0] else b"" for it in started]
        self.equals("three launches of a server", "what they answer", [b"jobs\n"] * 3, answers)
        waiting = sum(b"waiting for another launch" in it for it in told())
        self.calls_are("build")
        ends = [it.communicate(timeout=PATIENCE) and it.returncode for it in started]
        self.equals("three launches", f"ends, and how many waited; told {told()}", ([0, 0, 0], 2), (ends, waiting))

    def interrupted(self, rooms, seen, **variables):
        """Sends each signal to a launch once its build has made what is to be seen: it ends and leaves no rooms."""
        for sign in (signal.SIGINT, signal.SIGTERM, signal.SIGHUP):
            env = {**self.env, "SLOW": "30", **variables}
            pipes = {"stdin": subprocess.DEVNULL, "stdout": subprocess.DEVNULL, "stderr": subprocess.DEVNULL}
            started = subprocess.Popen([self.room / "icserve", "settle"], env=env, preexec_fn=heeds_signals, **pipes)
            self.addCleanup(started.kill)
            end = time.monotonic() + PATIENCE
            while not (self.calls.read_text() and seen.exists()) and started.poll() is None and time.monotonic() < end:
                time.sleep(0.02)
            what = f"./icserve settle {variables}, {sign!r} while it builds"
            self.equals(what, f"whether {seen} is there", True, seen.exists())
            started.send_signal(sign)
            self.equals(what, "status", 4, started.wait(PATIENCE))
            self.equals(what, "whether rooms are left", False, rooms.exists())
            self.calls.write_text("")

    def test_a_build_that_is_interrupted_ends_with_its_launch_and_is_begun_anew(self):
        self.interrupted(self.room / "out/rooms", self.room / "out/rooms")
        self.settles()
        self.calls_are("build")

    def test_a_proof_that_is_interrupted_ends_with_its_launch_and_is_begun_anew(self):
        rooms = self.room / "crates/icserve/out/rooms"
        self.interrupted(rooms, self.room / "crates/icserve/out/build.log", ICSERVE_BUILD="proved")
        self.make("prove")
        self.calls_are("lib", "all", "run")


class FirstCommands(Trial):
    """What the README begins with, on a clean copy of this repository, by the real build that proves nothing. The program that
    this builds answers as the proved one, where that is there or the gate makes it."""

    seconds, needs_program = 240, False

    def test_the_first_commands_of_the_readme_answer_on_a_clean_copy(self):
        if not os.access(shutil.which("rt") or "/opt/rattle/bin/rt", os.X_OK):
            self.skipTest("the kit isn't here")
        copy = self.room / "copy"
        shutil.copytree(TOP, copy, ignore=shutil.ignore_patterns("out", ".git", ".rattle", "__pycache__"))
        sections = dict(it.split("\n", 1) for it in (TOP / "README.md").read_text().split("\n## ")[1:])
        (self.room / "section.md").write_text(sections["One reduction"] + sections["To look at a net"])
        told = ISNT_PROVED
        for command, wanted in [it for block in blocks_of(self.room / "section.md") for it in typed_in(block)]:
            if ("dot " in command or "./film " in command) and not shutil.which("dot"):
                continue
            words = ["sh", "-c", command.replace("/tmp/", f"{self.room}/")]
            ran = subprocess.run(words, cwd=copy, stdin=subprocess.DEVNULL, capture_output=True, timeout=PATIENCE * 12)
            err = ran.stderr.decode()
            self.agrees(f"{command}, which said {err}", "what it prints", "".join(f"{it}\n" for it in wanted), ran.stdout)
            self.equals(command, f"whether it tells just the first time: {told}; it told {err}", True, told in err and bool(told) == bool(err))
            told = ""
        self.equals("./icserve", "whether something was proved", False, (copy / "crates/icserve/out").exists())
        while os.path.exists(os.environ.get("COMING", "")) and not Path(PROGRAM).with_name("sources").exists():
            time.sleep(1)
        if not os.access(PROGRAM, os.X_OK):
            return
        for text in sorted(TOP.glob("examples/*.ic")):
            for word in TEXT_WORDS:
                ran, wanted = (run(word, given=text.read_bytes(), program=it) for it in (copy / "out/icserve", PROGRAM))
                self.ended(ran, wanted.out, wanted.err, wanted.status)
