#!/usr/bin/env python3
"""Writes the manual pages of `icserve` and of its scripts, and completions for bash, zsh and fish: pages.py PROGRAM PREFIX puts
them into folders of PREFIX/share. All of it is made from what their own `--help` prints, so an option is told in one place."""

import os
import re
import subprocess
import sys
from pathlib import Path

TOP = Path(__file__).resolve().parent.parent

# The scripts beside the program, and as what each is installed.
SCRIPTS = {"icserve-film": "film", "icserve-listen": "listen", "icserve-send": "send", "icserve-page": "page"}

# Where a value or an argument is a file.
FILES = ("F", "FILE", "SCRIPT", "LINES", "PATH")


class Option:
    """A line of `Options:`: `-h, --help  Print help`, or `--disk <F>  The path of the file`."""

    FORM = re.compile(r" *(?:(-\w), )?(--[\w-]+)(?: <(\w+)>)? +(.*)")

    def __init__(self, line):
        self.short, self.long, self.value, self.says = self.FORM.fullmatch(line).groups()
        among = re.search(r"\[possible values: (.*)\]", self.says)
        self.choices = among[1].split(", ") if among else []


class Help:
    """What a `--help` says, by its parts."""

    def __init__(self, text):
        self.lines = text.rstrip("\n").split("\n")
        self.about = self.lines[0]
        self.usage = self.part("Usage: ")[0][len("Usage: ") :]
        self.arguments = [line.strip().split(None, 1) for line in self.part("Arguments:")[1:]]
        self.options = [Option(line) for line in self.part("Options:")[1:]]
        last = max(i for i, line in enumerate(self.lines) if line.startswith("  -"))
        self.more = "\n".join(self.lines[last + 1 :]).strip("\n")

    def part(self, head):
        """The lines of a part, from the one that begins so up to a blank one."""
        for i, line in enumerate(self.lines):
            if line.startswith(head):
                end = self.lines.index("", i) if "" in self.lines[i:] else len(self.lines)
                return self.lines[i:end]
        return []

    def words(self):
        """The words of the program, each with what it does: the lines with two blanks before any part of options."""
        found = [re.fullmatch(r"  ([a-z]+)  +(\S.*)", line) for line in self.lines[: self.lines.index("Options:")]]
        return {it[1]: it[2] for it in found if it}

    def takes_files(self):
        return any(name.strip("[]<>.") in FILES for name, _ in self.arguments)


# What else `help` tells of, beside the words.
TOLD_OF = ("language", "limits", "keep")


def said(program, *words):
    return subprocess.run([program, *words], check=True, capture_output=True, text=True).stdout


def helps_of(program):
    """The program's help, and those of its words."""

    def asked(*words):
        return Help(said(program, *words, "--help"))

    top = asked()
    return top, {word: asked(word) for word in top.words()}


# ---- the manual page


def roff(text):
    """A text as it stands in a page: no byte of it is a request."""
    text = text.replace("\\", "\\e").replace("-", "\\-").replace("'", "\\(aq").replace("`", "\\(ga").replace("^", "\\(ha").replace("~", "\\(ti")
    return re.sub(r"(?m)^\.", r"\\&.", text)


def items(pairs):
    return [f".TP\n.B {roff(name)}\n{roff(says)}" for name, says in pairs]


def options_of(one):
    def name(option):
        short = f"{option.short}, " if option.short else ""
        return short + option.long + (f" {option.value}" if option.value else "")

    return items((name(it), it.says) for it in one.options)


def shown(text):
    return [f".PP\n.nf\n{roff(text)}\n.fi"] if text else []


def manual(version, top, words, told):
    page = [f'.TH ICSERVE 1 "" "{roff(version)}" "User Commands"', ".SH NAME", f"icserve \\- {roff(top.about[0].lower() + top.about[1:])}"]
    page += [".SH SYNOPSIS", f".B {roff(top.usage)}", ".SH COMMANDS", *items(top.words().items()), ".SH OPTIONS", *options_of(top)]
    for word, one in words.items():
        page += [f'.SH "ICSERVE {word.upper()}"', f".B {roff(one.usage)}", ".PP", roff(one.about) + "."]
        page += items((re.sub(r"[\[\]<>]", "", name), says) for name, says in one.arguments)
        page += options_of(one) + shown(one.more)
    for topic, text in told.items():
        page += [f".SH {topic.upper()}", *shown(text.rstrip("\n"))]
    return "\n".join(page + [".SH EXAMPLE"] + shown(top.more)) + "\n"


# ---- completions


def bash(top, words):
    cases = []
    for word, one in words.items():
        flags = " ".join(it for option in one.options for it in (option.short, option.long) if it)
        files, others = ("yes" if one.takes_files() else ""), (f'"$words {" ".join(TOLD_OF)}"' if word == "help" else "")
        cases.append(f'    {word}) flags="{flags}" files={files} others={others} ;;')
    before = []
    for word, option in ((word, it) for word, one in words.items() for it in one.options if it.value):
        offers = f'COMPREPLY=($(compgen -W "{" ".join(option.choices)}" -- "$this")); ' if option.choices else ""
        files = 'COMPREPLY=($(compgen -f -- "$this")); ' if option.value in FILES else ""
        before.append(f'    "{word} {option.long}") {offers or files}return ;;')
    of_words, of_values = "\n".join(cases), "\n".join(before)
    flags = " ".join(it for option in top.options for it in (option.short, option.long) if it)
    return f"""# Completes the words of icserve in bash. Made by share/pages.py from what `icserve --help` prints.
_icserve() {{
    local this=${{COMP_WORDS[COMP_CWORD]}} before=${{COMP_WORDS[COMP_CWORD - 1]}} flags files= others=
    local words="{" ".join(words)}"
    COMPREPLY=()
    if [ "$COMP_CWORD" = 1 ]; then
        COMPREPLY=($(compgen -W "$words {flags}" -- "$this"))
        return
    fi
    case "${{COMP_WORDS[1]}} $before" in
{of_values}
    esac
    case ${{COMP_WORDS[1]}} in
{of_words}
    *) return ;;
    esac
    case $this in
    -*) COMPREPLY=($(compgen -W "$flags" -- "$this")) ;;
    *)
        [ -z "$others" ] || COMPREPLY=($(compgen -W "$others" -- "$this"))
        [ -z "$files" ] || COMPREPLY=($(compgen -f -- "$this"))
        ;;
    esac
}}
complete -o filenames -F _icserve icserve
"""


def quoted(text):
    """A text between single quotes."""
    return text.replace("'", "'\\''")


def zsh(top, words):
    def spec(option):
        says = quoted(re.sub(r"([\[\]:\\])", r"\\\1", option.says))
        names = f"({option.short} {option.long})'{{{option.short},{option.long}}}'" if option.short else option.long
        if not option.value:
            return f"'{names}[{says}]'"
        among = "_files" if option.value in FILES else ""
        if option.choices:
            among = f"({' '.join(option.choices)})"
        return f"'{names}=[{says}]:{option.value}:{among}'"

    lines = ["#compdef icserve", "# Completes the words of icserve in zsh. Made by share/pages.py from what `icserve --help` prints.", ""]
    lines += ["_icserve() {", "    local -a words_of_icserve", "    words_of_icserve=("]
    lines += [f"        '{word}:{quoted(says.replace(':', chr(92) + ':'))}'" for word, says in top.words().items()]
    lines += ["    )", "    if (( CURRENT == 2 )); then", "        _describe word words_of_icserve"]
    lines += ["        _arguments " + " ".join(spec(it) for it in top.options), "        return", "    fi", "    local word=$words[2]"]
    lines += ["    shift words", "    (( CURRENT-- ))", "    case $word in"]
    for word, one in words.items():
        rest = ["'*:file:_files'"] if one.takes_files() else ["'1:word:(" + " ".join([*words, *TOLD_OF]) + ")'"] if word == "help" else []
        lines += [f"        {word})", "            _arguments " + " \\\n                ".join([spec(it) for it in one.options] + rest), "            ;;"]
    return "\n".join(lines + ["    esac", "}", "", '_icserve "$@"', ""])


def fish(top, words):
    def options(one, condition):
        for it in one.options:
            line = f"complete -c icserve -n '{condition}' -l {it.long[2:]}" + (f" -s {it.short[1:]}" if it.short else "")
            if it.choices:
                line += f" -x -a '{' '.join(it.choices)}'"
            elif it.value:
                line += " -r -F" if it.value in FILES else " -x"
            yield f"{line} -d '{quoted_in_fish(it.says)}'"

    lines = ["# Completes the words of icserve in fish. Made by share/pages.py from what `icserve --help` prints.", "complete -c icserve -f"]
    for word, says in top.words().items():
        lines.append(f"complete -c icserve -n __fish_use_subcommand -a {word} -d '{quoted_in_fish(says)}'")
    lines += options(top, "__fish_use_subcommand")
    for word, one in words.items():
        condition = f"__fish_seen_subcommand_from {word}"
        lines += options(one, condition)
        if one.takes_files():
            lines.append(f"complete -c icserve -n '{condition}' -F")
        if word == "help":
            lines.append(f"complete -c icserve -n '{condition}' -a '{' '.join([*words, *TOLD_OF])}'")
    return "\n".join(lines) + "\n"


def quoted_in_fish(text):
    return text.replace("\\", "\\\\").replace("'", "\\'")


# ---- scripts


class Script:
    """A script's help: its usage, what it does, its options, each with its value, and the whole text."""

    OPTION = re.compile(r"(?m)^  (?:(-\w), )?(--[\w-]+)(?: ([A-Z]+))?(?: +(.*(?:\n {5,}\S.*)*))?")

    def __init__(self, name, text):
        self.name = name
        usage, self.about, *_ = text.split("\n\n")
        self.usage = re.sub(r"^usage: \S+|\s+", " ", usage).strip()
        self.options = [(short, long, value, " ".join(says.split())) for short, long, value, says in self.OPTION.findall(text)]
        self.takes_files = "[FILE]" in self.usage
        self.more = text.split("\n\n", 2)[2].rstrip("\n")

    def manual(self, version):
        head = f'.TH {self.name.upper()} 1 "" "{roff(version)}" "User Commands"'
        about = " ".join(self.about.split())
        page = [head, ".SH NAME", f"{self.name} \\- {roff(about[0].lower() + about[1:].rstrip('.'))}"]
        page += [".SH SYNOPSIS", f".B {self.name} {roff(self.usage)}", ".SH DESCRIPTION", shown(self.more)[0].split("\n", 1)[1]]
        return "\n".join([*page, ".SH SEE ALSO", ".BR icserve (1)"]) + "\n"

    def bash(self):
        flags = " ".join(it for short, long, *_ in self.options for it in (short, long) if it)
        values = [(f"    {long}) COMPREPLY=($(compgen -f -- \"$this\")); return ;;" if value in FILES else f"    {long}) return ;;")
                  for _, long, value, _ in self.options if value]
        files = '    *) COMPREPLY=($(compgen -f -- "$this")) ;;\n' if self.takes_files else ""
        function = "_" + self.name.replace("-", "_")
        return f"""# Completes the words of {self.name} in bash. Made by share/pages.py from what its `--help` prints.
{function}() {{
    local this=${{COMP_WORDS[COMP_CWORD]}} before=${{COMP_WORDS[COMP_CWORD - 1]}}
    COMPREPLY=()
    case $before in
{chr(10).join(values)}
    esac
    case $this in
    -*) COMPREPLY=($(compgen -W "{flags}" -- "$this")) ;;
{files}    esac
}}
complete -o filenames -F {function} {self.name}
"""

    def zsh(self):
        def spec(long, value, says):
            says = quoted(re.sub(r"([\[\]:\\])", r"\\\1", says))
            return f"'{long}=[{says}]:{value}:{'_files' if value in FILES else ''}'" if value else f"'{long}[{says}]'"

        specs = [spec(*it[1:]) for it in self.options] + ["'*:file:_files'"] * self.takes_files
        return f"#compdef {self.name}\n# Made by share/pages.py from what its `--help` prints.\n_arguments " + " \\\n    ".join(specs) + "\n"

    def fish(self):
        lines = [f"# Completes the words of {self.name} in fish. Made by share/pages.py from what its `--help` prints."]
        lines += [f"complete -c {self.name} -f"] * (not self.takes_files)
        for short, long, value, says in self.options:
            takes = " -r -F" if value in FILES else " -x" if value else ""
            lines.append(f"complete -c {self.name} -l {long[2:]}{f' -s {short[1:]}' if short else ''}{takes} -d '{quoted_in_fish(says)}'")
        return "\n".join(lines) + "\n"


def of_scripts(version):
    """What is written of each script."""
    wide = {**os.environ, "COLUMNS": "90"}
    for name, file in SCRIPTS.items():
        ran = subprocess.run([sys.executable, TOP / file, "--help"], check=True, capture_output=True, text=True, env=wide)
        one = Script(name, ran.stdout)
        yield f"man/man1/{name}.1", one.manual(version)
        yield f"bash-completion/completions/{name}", one.bash()
        yield f"zsh/site-functions/_{name}", one.zsh()
        yield f"fish/vendor_completions.d/{name}.fish", one.fish()


def main(program, prefix):
    top, words = helps_of(program)
    version = said(program, "--version").strip()
    made = {
        "man/man1/icserve.1": manual(version, top, words, {it: said(program, "help", it) for it in TOLD_OF}),
        "bash-completion/completions/icserve": bash(top, words),
        "zsh/site-functions/_icserve": zsh(top, words),
        "fish/vendor_completions.d/icserve.fish": fish(top, words),
        **dict(of_scripts(version)),
    }
    for name, text in made.items():
        path = Path(prefix) / "share" / name
        path.parent.mkdir(parents=True, exist_ok=True)
        path.write_text(text)
        print(f"'{path}'")


if __name__ == "__main__":
    main(*sys.argv[1:])
