"""What the pages show is what the program does: their sessions are read from the pages themselves, and run word for word."""

import os
import re
import shlex
import shutil
import subprocess
from pathlib import Path

from program import IN_MEMORY, PATIENCE, PROGRAM, TOP, Trial


def blocks_of(page):
    """The indented blocks of a page, each as its lines."""
    blocks, before = [], ""
    for line in (TOP / page).read_text().split("\n"):
        if line.startswith("    "):
            if not before.startswith("    "):
                blocks.append([])
            blocks[-1].append(line[4:])
        before = line
    return blocks


def typed_in(block):
    """The commands of a block of a terminal, each with the lines that stand after it."""
    commands = []
    for line in block:
        if line.startswith("$ "):
            commands.append((line[2:], []))
        elif commands:
            commands[-1][1].append(line)
    return commands


class Pages(Trial):
    seconds = 10
    rooms = IN_MEMORY

    def setUp(self):
        super().setUp()
        (self.room / "icserve").symlink_to(PROGRAM)
        (self.room / "film").symlink_to(TOP / "film")
        for it in ("examples", "lib", "cluster"):
            (self.room / it).symlink_to(TOP / it)

    def typed(self, page, commands, wanted, streams=subprocess.STDOUT):
        """Runs the commands of a page by a shell in the trial's folder: they print just these lines."""
        text = "\n".join(commands).replace("/tmp/", shlex.quote(f"{self.room}/"))
        wanted = [it.replace("/tmp/", f"{self.room}/") for it in wanted]
        how = {"cwd": self.room, "stdin": subprocess.DEVNULL, "stdout": subprocess.PIPE, "stderr": streams}
        how["env"] = {**os.environ, "ICSERVE": PROGRAM, "PARALLEL_HOME": str(self.room)}
        how["timeout"] = PATIENCE
        ran = subprocess.run(["sh", "-c", text], **how)
        self.agrees(f"{page}: {text}", "what it prints", "".join(f"{it}\n" for it in wanted), ran.stdout)

    def test_the_session_of_several_clients_prints_what_the_pages_say(self):
        for it in ("listen", "send"):
            (self.room / it).symlink_to(TOP / it)
        self.disk()
        consoles = [(page, it) for page in ("README.md", "docs/share.md") for it in map(typed_in, blocks_of(page)) if any("./listen" in command for command, _ in it)]
        self.equals("README.md and docs/share.md", "how many sessions there are", 3, len(consoles))
        for page, commands in consoles:
            text = [self.at_leisure(it) for it, _ in commands]
            self.typed(page, text, [line for _, answer in commands for line in answer])

    def at_leisure(self, command):
        """A command of such a session as one types it who waits until the server is there. A killed one's socket is taken away, so
        that the next one's is waited for."""
        if command.startswith("kill"):
            return f"{command}; rm /tmp/*.sock"
        return f"{command[:-1].strip()} 2>/dev/null & while ! [ -S /tmp/*.sock ]; do sleep 0.02; done" if command.endswith("&") else command

    def test_the_session_of_the_readme_prints_what_the_readme_says(self):
        section = (TOP / "README.md").read_text().split("## A session")[1].split("\n## ")[0]
        (self.room / "session.md").write_text(section)
        (typed,) = blocks_of(self.room / "session.md")
        (create, _), *others = typed_in(typed)
        self.typed("README.md", [create], [])
        killed = [command for command, _ in others]
        self.equals("README.md", f"it kills a server: {killed}", True, "KILL" in killed[0])
        self.killed_at(killed, [it for _, answer in others for it in answer])

    def killed_at(self, commands, prints):
        """The server that is killed after two seconds has answered before. On a machine that is busy it may not have: then the
        same is tried over a new copy of the disk with ten times as long."""
        disk = self.room / "jobs.disk"
        before = disk.read_bytes()
        try:
            self.typed("README.md", commands, prints, subprocess.DEVNULL)
        except AssertionError:
            disk.write_bytes(before)
            longer = [it.replace("sleep 3)", "sleep 30)").replace("KILL 2 ", "KILL 20 ") for it in commands]
            self.equals("README.md", "a server that is killed after two seconds", False, longer == commands)
            self.typed("README.md", longer, prints, subprocess.DEVNULL)

    def test_the_session_of_the_page_on_clients_prints_what_the_page_says(self):
        section = (TOP / "docs/clients.md").read_text().split("## A session")[1].split("\n## ")[0]
        (self.room / "session.md").write_text(section)
        attended, prints, asked = blocks_of(self.room / "session.md")
        self.typed("docs/clients.md", attended, prints)
        self.typed("docs/clients.md", asked, [re.search(r"prints `(two [^`]*)`", section)[1]])

    def test_what_is_typed_on_a_page_prints_what_the_page_says(self):
        consoles = []
        for page in sorted({*TOP.glob("*.md"), *TOP.glob("docs/**/*.md")} - {TOP / "docs/cluster.md"}):
            blocks = [it for it in blocks_of(page) if it[0].startswith("$ ")]
            # Servers that go on in the background, or are killed, have trials of their own.
            consoles += [(page.relative_to(TOP), typed_in(it)) for it in blocks if not any("./listen" in line or "KILL" in line for line in it)]
        wanting = {"README.md", "docs/rounds.md"} - {str(page) for page, _ in consoles}
        self.equals("README.md and docs/", "pages without a command that is typed", set(), wanting)
        for page, commands in consoles:
            for command, wanted in commands:
                if re.search(r"(^|\| )(dot|\./film) ", command) and not shutil.which("dot"):
                    # Graphviz isn't needed for the rest: trials of the word itself look at what it prints.
                    continue
                with self.subTest(page=str(page), command=command):
                    self.typed(page, [command], wanted)

    def test_the_sessions_of_the_page_on_clusters_print_what_the_page_says(self):
        for console in (it for it in blocks_of("docs/cluster.md") if it[0].startswith("$ ")):
            for command, wanted in typed_in(console):
                self.typed("docs/cluster.md", [command], wanted)

    def test_the_script_for_slurm_is_the_one_that_the_page_explains(self):
        block = next(it for it in blocks_of("docs/cluster.md") if it[0] == "#!/bin/sh")
        self.holds(TOP / "cluster/array.sbatch", "".join(f"{it}\n" for it in block))

    def test_each_line_of_a_session_on_a_page_has_the_answer_after_it(self):
        for page in ("docs/serving.md", "docs/jobs.md"):
            block = next(it for it in blocks_of(page) if it[0].startswith("submit "))
            lines, answers = zip(*(re.split(r" {2,}", it, maxsplit=1) for it in block))
            self.equals(page, f"at least six lines: {lines}", True, len(lines) >= 6)
            with self.subTest(page=page):
                self.serves(self.disk(f"{Path(page).stem}.disk"), lines, answers)

    def test_each_session_in_examples_has_its_answers_by_any_number_of_workers(self):
        sessions = sorted(TOP.glob("examples/*.session"))
        self.equals("examples/", "how many sessions there are", 7, len(sessions))
        for session in sessions:
            answers = session.with_suffix(".answers").read_bytes()
            for workers, every in ((1, 1), (2, 100), (7, 3), (64, 1_000_000)):
                with self.subTest(session=session.name, workers=workers, every=every):
                    disk = self.disk(f"{session.stem}.{workers}.disk")
                    self.serves(disk, session.read_bytes(), answers, "--workers", workers, "--every", every)

    def test_each_text_in_examples_has_the_answer_of_its_row(self):
        """The answers stand in the rows that the trials play, in those of the files' names: those of `settle` and
        `once`, and those of systems that are reduced."""
        rows = (TOP / "trials/rows/texts").read_text().splitlines()
        texts = sorted(TOP.glob("examples/*.ic"))
        self.equals("examples/", f"at least 13 texts: {texts}", True, len(texts) >= 13)
        tried = 0
        for text in texts:
            word = "once" if text.read_text().startswith("{") else "settle"
            asked = f"{text.name}: {word} {text.read_text()}".replace("\n", "~n")
            told = f"{text.name}: reduce 1000000 {text.read_text()} => ".replace("\n", "~n")
            with self.subTest(text=text.name):
                answers = [it[len(asked) + 4 :] for it in rows if it.startswith(f"{asked} => ")]
                is_reduced = any(it.startswith(told) for it in rows)
                self.equals(text.name, f"whether a row has {asked} or {told}", True, bool(answers) or is_reduced)
                for answer in answers:
                    self.runs(word, given=text.read_bytes(), out=[answer])
                    tried += 1
        self.equals("examples/", f"at least eight rows: {tried}", True, tried >= 8)
