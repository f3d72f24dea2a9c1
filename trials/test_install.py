"""What `make install` puts beside the program: its manual page, and completions for bash, zsh and fish, which `share/pages.py` makes
of the helps; and the helps themselves: each example is run, and answers what stands there."""

import os
import re
import shutil
import subprocess
import sys

from program import IN_MEMORY, PATIENCE, PROGRAM, TOP, Trial, run
from test_pages import blocks_of, typed_in
from test_words import words_of_help

sys.path.insert(0, str(TOP / "share"))

from pages import SCRIPTS  # noqa: E402

TOPICS = (("language",), ("limits",), ("keep",))

# What there is beside a release for who has neither the kit nor a clone nor make.
TOOLS = ("sh", "env", "cat", "echo", "head", "tail", "tr", "dot")


def help_of(*words):
    """What the program prints as its help, as that of a word, of the language or of keeps."""
    return run(*(("help", *words) if words in TOPICS else (*words, "--help"))).out.decode()


class Install(Trial):
    seconds = 10
    rooms = IN_MEMORY

    def setUp(self):
        super().setUp()
        ran = run(TOP / "share/pages.py", PROGRAM, self.room, program=sys.executable)
        self.equals(ran.command, f"status; it said {ran.err}", 0, ran.status)
        share = self.room / "share"
        self.page = share / "man/man1/icserve.1"
        self.bash = share / "bash-completion/completions/icserve"
        self.zsh = share / "zsh/site-functions/_icserve"
        self.fish = share / "fish/vendor_completions.d/icserve.fish"

    def options(self, text):
        """The long options of a help."""
        return re.findall(r"(?m)^ +(?:-\w, )?(--[\w-]+)", text[text.index("Options:") :].split("\n\n")[0])

    def test_each_word_and_each_option_stands_in_the_page_and_in_the_completions(self):
        for words in ((), *((word,) for word in words_of_help())):
            text = help_of(*words)
            options = self.options(text)
            self.equals(f"icserve {' '.join(words)} --help", "whether it has options", True, "--help" in options)
            for option in options:
                wanted = {
                    self.page: option.replace("-", "\\-"),
                    self.bash: option,
                    self.zsh: option,
                    self.fish: f"-l {option[2:]}",
                }
                for path, part in wanted.items():
                    own = self.part_of(path, *words)
                    self.equals(f"{path.name} of {words}", f"whether it has {part}", True, part in own)

    def part_of(self, path, word=None):
        """What a page says of a word, or all of it."""
        text = path.read_text()
        if word is None:
            return text
        heads = {self.page: f'.SH "ICSERVE {word.upper()}"', self.bash: f"    {word}) flags=", self.zsh: f"        {word})\n"}
        if path in heads:
            part = text[text.index(heads[path]) + 1 :]
            return part[: {self.page: part.find("\n.SH"), self.bash: part.find("\n"), self.zsh: part.find(";;")}[path]]
        return "".join(line for line in text.split("\n") if f"__fish_seen_subcommand_from {word}'" in line)

    def of(self, script):
        """The page and the completions of a script."""
        share = self.room / "share"
        names = (f"man/man1/{script}.1", f"bash-completion/completions/{script}", f"zsh/site-functions/_{script}", f"fish/vendor_completions.d/{script}.fish")
        return [share / it for it in names]

    def test_each_option_of_a_script_stands_in_its_page_and_in_its_completions(self):
        for script, file in SCRIPTS.items():
            text = run("--help", program=TOP / file, env={**os.environ, "COLUMNS": "200"}).out.decode()
            self.equals(f"{file} --help", "lines of more than 100 columns", [], [it for it in text.split("\n") if len(it) > 100])
            options = self.options(text.replace("options:", "Options:").replace("optional arguments:", "Options:"))
            self.equals(f"{file} --help", "whether it has options", True, len(options) > 1)
            for option in options:
                forms = (option.replace("-", "\\-"), option, option, f"-l {option[2:]}")
                for path, part in zip(self.of(script), forms):
                    self.equals(path.name, f"whether it has {part}", True, part in path.read_text())

    def test_the_completions_are_taken_by_their_shells(self):
        made = [*zip(("bash", "zsh", "fish"), (self.bash, self.zsh, self.fish))]
        for script in SCRIPTS:
            made += zip(("bash", "zsh", "fish"), self.of(script)[1:])
        for shell, path in made:
            if shutil.which(shell):
                ran = run("-n", path, program=shutil.which(shell))
                self.equals(ran.command, "how it ends", (0, b"", b""), ran[1:4])

    def completed(self, *words):
        """What bash offers for the last of these words."""
        script = f"source {self.bash}; COMP_WORDS=(icserve {' '.join(words)}); COMP_CWORD={len(words)}; _icserve; printf '%s\\n' \"${{COMPREPLY[@]}}\""
        ran = run("-c", script, program=shutil.which("bash"), cwd=self.room)
        self.equals(ran.command, "how it ends", (0, b""), (ran.status, ran.err))
        return sorted(ran.out.decode().split())

    def test_bash_completes_words_options_choices_and_files(self):
        (self.room / "sum.ic").write_text("")
        self.equals("icserve s", "what is offered", ["serve", "settle"], self.completed("s"))
        self.equals("icserve reduce --s", "what is offered", ["--seconds", "--span", "--stats", "--steps"], self.completed("reduce", "--s"))
        self.equals("icserve trace --format s", "what is offered", ["svg"], self.completed("trace", "--format", "s"))
        self.equals("icserve trace --format ''", "what is offered", ["json", "svg", "tsv"], self.completed("trace", "--format", "''"))
        self.equals("icserve reduce --format ''", "what is offered", ["json", "lines"], self.completed("reduce", "--format", "''"))
        self.equals("icserve reduce su", "what is offered", ["sum.ic"], self.completed("reduce", "su"))
        self.equals("icserve create --disk su", "what is offered", ["sum.ic"], self.completed("create", "--disk", "su"))
        self.equals("icserve help re", "what is offered", ["reduce"], self.completed("help", "re"))
        self.equals("icserve help l", "what is offered", ["language", "limits"], self.completed("help", "l"))
        self.equals("icserve help k", "what is offered", ["keep"], self.completed("help", "k"))

    def test_the_pages_are_rendered_without_a_warning(self):
        for words in (["groff", "-man", "-Tutf8", "-ww", "-z"], ["mandoc", "-T", "lint", "-W", "warning"]):
            for page in [self.page, *(self.of(it)[0] for it in SCRIPTS)] if shutil.which(words[0]) else []:
                ran = run(*words[1:], page, program=shutil.which(words[0]))
                self.equals(ran.command, "how it ends", (0, b"", b""), ran[1:4])
        if shutil.which("man"):
            ran = run("-l", self.page, program=shutil.which("man"), env={**os.environ, "MANWIDTH": "100", "LC_ALL": "C.UTF-8"})
            self.equals(ran.command, "how it ends", (0, b""), (ran.status, ran.err))
            if b"minimized" not in ran.out:
                self.equals(ran.command, "whether it tells of two and two", True, b"<S(S(S(S(Z))))|>" in ran.out)
                self.equals(ran.command, "whether it tells the language", True, b"a name that stands once is free" in ran.out)
                self.equals(ran.command, "whether it tells of keeps", True, b"F and F.2 belong together" in ran.out)


class Helps(Trial):
    seconds = 10
    rooms = IN_MEMORY

    def test_help_alone_shows_the_program_s_help_and_those_of_words_tell_no_language(self):
        self.equals("--help", "the help of help alone", help_of(), run("help").out.decode())
        for word in words_of_help():
            self.equals(f"{word} --help", "whether it tells the language", False, "The language:" in help_of(word))

    def test_without_words_the_help_is_told_with_status_2(self):
        ran = run()
        self.equals(ran.command, "how it ends", (2, b"", help_of().encode()), (ran.status, ran.out, ran.err))

    def test_each_example_of_a_help_answers_what_stands_there(self):
        (self.room / "bin").mkdir()
        (self.room / "bin/icserve").symlink_to(PROGRAM)
        path = {**os.environ, "PATH": f"{self.room}/bin:{os.environ['PATH']}"}
        for number, words in enumerate(((), *TOPICS, *((word,) for word in words_of_help() if word != "help"))):
            text = help_of(*words)
            block = text[text.index("Example") :].rstrip("\n").split("\n")[1:]
            room = self.room / str(number)
            room.mkdir()
            for command, answer in typed_in([line[2:] for line in block]):
                with self.subTest(words=words, command=command):
                    ran = subprocess.run(["sh", "-c", command], cwd=room, env=path, capture_output=True, text=True, timeout=60)
                    self.equals(command, "how it ends", (0, "".join(f"{it}\n" for it in answer), ""), (ran.returncode, ran.stdout, ran.stderr))


class Releases(Trial):
    seconds = 10

    def test_the_same_program_gives_the_same_release_and_it_works_by_itself(self):
        for it in ("one", "two"):
            command = [sys.executable, TOP / "share/dist.py", PROGRAM, "icserve", self.room / it]
            subprocess.run([str(it) for it in command], check=True, stdout=subprocess.DEVNULL, timeout=PATIENCE)
        names = sorted(it.name for it in (self.room / "one").iterdir())
        self.equals("dist.py", "whether an archive is there", True, any(it.endswith("-linux-x86_64.tar.gz") for it in names))
        for it in names:
            self.holds(self.room / "two" / it, (self.room / "one" / it).read_bytes())
        subprocess.run(["sha256sum", "--quiet", "-c", "SHA256SUMS"], cwd=self.room / "one", check=True)
        archive = next((self.room / "one").glob("*.tar.gz"))
        subprocess.run(["tar", "-xzf", archive, "-C", self.room], check=True)
        tree = next(self.room.glob("icserve-*"))
        self.works(tree, "", tree / "python")
        self.types(tree, {}, "README.md", "docs/expand.md")
        self.stands_alone(tree)
        wanted = run("--version").out.decode() + "sources [0-9a-f]{64}\n"
        self.assertRegex((tree / "START").read_text(), wanted.replace("(", "\\(").replace(")", "\\)"))
        package = next((self.room / "one").glob("*.deb"), None)
        if package:
            self.installs(package, self.room / "root")

    def installs(self, package, root):
        """Installs the package by Debian's own program below a folder, where it works, and removes it again."""
        (root / "var/lib/dpkg/updates").mkdir(parents=True)
        (root / "var/lib/dpkg/info").mkdir()
        (root / "var/lib/dpkg/status").touch()
        dpkg = ["dpkg", f"--root={root}", "--force-not-root", "--force-bad-path", "--force-depends"]
        for words in (["--install", package], ["--purge", "icserve"]):
            ran = subprocess.run([*dpkg, *map(str, words)], stdout=subprocess.PIPE, stderr=subprocess.STDOUT, timeout=PATIENCE)
            self.equals(words, f"the status; it said {ran.stdout}", 0, ran.returncode)
            if words[0] == "--install":
                self.works(root / "usr", "share/doc/icserve", root / "usr/lib/python3/dist-packages")
                self.types(root / "usr/share/doc/icserve", {"./icserve": root / "usr/bin/icserve", "./film": root / "usr/bin/icserve-film"}, "README.md")
        left = [it for it in root.rglob("*") if "var" not in it.relative_to(root).parts[:1]]
        self.equals("dpkg --purge", "what is left", [], left)

    def types(self, room, programs, *pages):
        """What these pages say is typed prints in a folder what they say, with few other programs on the path. Servers have trials of
        their own."""
        tools = self.room / "tools"
        tools.mkdir(exist_ok=True)
        for name, path in {"python3": sys.executable, **{it: shutil.which(it) for it in TOOLS}}.items():
            if path and not (tools / name).exists():
                (tools / name).symlink_to(path)
        how = {"cwd": room, "env": {"PATH": str(tools), "PYTHONDONTWRITEBYTECODE": "1"}, "stdin": subprocess.DEVNULL, "timeout": PATIENCE}
        for page in pages:
            self.holds(room / page, (TOP / page).read_bytes())
            blocks = [it for it in blocks_of(page) if not any(re.search(r"icserve serve|\./send", line) for line in it)]
            typed = [it for block in blocks for it in typed_in(block)]
            self.equals(page, "whether commands are typed", True, len(typed) >= 4)
            for command, wanted in typed:
                if (tools / "dot").exists() or not re.search(r"(^|\| )(dot|\./film) ", command):
                    text = command.replace("/tmp/", f"{self.room}/")
                    for name, program in programs.items():
                        text = text.replace(name, str(program))
                    ran = subprocess.run([shutil.which("sh"), "-c", text], stdout=subprocess.PIPE, stderr=subprocess.STDOUT, **how)
                    printed = ran.stdout.decode().replace(f"{self.room}/", "/tmp/")
                    self.equals(text, "what it prints", "".join(f"{it}\n" for it in wanted), printed)

    def stands_alone(self, tree):
        """In a root that has nothing but the C library the program answers, where this user may have such a root."""
        chroot = shutil.which("chroot", path="/usr/sbin:/sbin:/usr/bin:/bin")
        if not chroot:
            return
        root = self.room / "alone"
        said = subprocess.run(["ldd", tree / "bin/icserve"], stdout=subprocess.PIPE, check=True, timeout=PATIENCE).stdout.decode()
        copied = {it: it for it in re.findall(r"(/\S+) \(", said)}
        for at, it in {**copied, "/icserve": tree / "bin/icserve", "/addition.ic": tree / "examples/addition.ic"}.items():
            (root / at[1:]).parent.mkdir(parents=True, exist_ok=True)
            shutil.copy(it, root / at[1:])
        ran = run(root, "/icserve", "reduce", "/addition.ic", program=chroot)
        if ran.status != 125:
            self.equals(ran.command, "how it ends", (0, b"<S(S(S(S(Z))))|>\n", b""), ran[1:4])

    def works(self, root, pages, packages):
        """Fails unless what stands below a folder works without anything of this clone."""
        env = {"PATH": f"{root}/bin:/usr/bin:/bin", "PYTHONPATH": str(packages), "PYTHONDONTWRITEBYTECODE": "1"}
        how = {"env": env, "cwd": self.room}
        self.runs("reduce", root / pages / "examples/addition.ic", out=["<S(S(S(S(Z))))|>"], program=root / "bin/icserve", **how)
        for it in ("film", "listen", "send", "page"):
            self.equals(it, "the status of its help", 0, run("--help", program=root / f"bin/icserve-{it}", **how).status)
        script = "import icserve, icserve.page; print(icserve.settle('<r|r=Z>'), *sorted(icserve.page.examples({})['examples']))"
        texts = [it.stem if it.suffix == ".ic" else it.name for it in (TOP / "examples").iterdir() if it.suffix in (".ic", ".rich")]
        texts += [f"lib/{it.name}" for it in (TOP / "lib").glob("*.rich")]
        how["env"] = {**env, "PATH": "/usr/bin:/bin"}
        ran = run("-c", script, program=sys.executable, **how)
        self.equals(script, f"what it prints; it said {ran.err}", " ".join(["<Z|>", *sorted(texts)]) + "\n", ran.out.decode())
