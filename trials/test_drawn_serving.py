"""Served lines in drawn order, over tables of all sizes and through stops: each answer, and the disk after it."""

import draws
import model
import model_disk
from against_model import ModelTrial
from program import Server, as_lines
from test_drawn_rounds import ADDITION, GROWING, LOOP, loops, numeral

EVERY = [1, 2, 99, 100, 101, 1_000_000]
WORDS = ["submit"] * 5 + ["fetch"] * 4 + ["run"] * 4 + ["list"] * 3 + ["pause", "resume"] * 3
WORDS += ["cancel", "copy"] * 2 + ["other"]
OTHERS = ["", " ", "\t\r", "lists", "run 1001", "run 00", "fetch", "pause A", "submit a", "submit a {} <|", "list list",
          "copy a", "copy a A", "copy a b c", "copy a bbbbbbbbbbbbbbbbb"]
OTHERS += ["\0", "é", "submit a 0 {} <|>", "submit a 01 {} <|>", "submit a 4294967296 {} <|>", "submit a 1 1 {} <|>"]

# What may stand in front of a system: no budget, mostly.
BUDGETS = [""] * 9 + ["1 ", "2 ", "3 ", "10 ", "4294967295 "]


def job_names(draws_from, count):
    """Different names of jobs, of 1 to 16 bytes."""
    letters, rest = "abcdefghijklmnopqrstuvwxyz", "abcdefghijklmnopqrstuvwxyz0123456789-"
    names = {"submit", "a"}
    while len(names) < count:
        length = draws_from.choice([0, 1, 2, 7, 14, 15])
        names.add(draws_from.choice(letters) + "".join(draws_from.choices(rest, k=length)))
    return draws_from.sample(sorted(names), count)


def small_systems(drawn, count):
    texts = [f"{LOOP}<|A(x)=B(x)>", loops(3), f"{GROWING}<r|A(x,r)=B(x)>", "{}<|>", "{}<r|r=Z>", "{}<|x=A(x),y=y>"]
    for _ in range(count):
        rule_set, config = draws.system(drawn, drawn.choice([1, 1, 2, 3]), 3)
        texts.append(draws.system_text(rule_set, config))
        texts.append(f"{ADDITION}<r|Add(r,{numeral(drawn.randrange(9))})={numeral(drawn.randrange(30))}>")
    return texts


def session(drawn, names, texts, length, longest_run=60):
    """So many lines on these names."""
    lines = []
    for _ in range(length):
        word, name = drawn.choice(WORDS), drawn.choice(names)
        if word == "submit":
            lines.append(f"submit {name} {drawn.choice(BUDGETS)}{drawn.choice(texts)}")
        elif word == "copy":
            lines.append(f"copy {name} {drawn.choice(names)}")
        elif word == "run":
            lines.append(f"run {drawn.choice([0, 1, 2, 3, 5, drawn.randint(0, longest_run)])}")
        elif word == "other":
            lines.append(drawn.choice(OTHERS))
        else:
            lines.append("list" if word == "list" else f"{word} {name}")
    return lines


def full_systems(drawn, count):
    """Systems of about 8,190 nodes each once they are fired: pairs that never end, long texts and names, deep terms."""
    long_texts = f"{'A' * 32}", f"{'B' * 32}"
    texts = []
    for place in range(count):
        pairs = drawn.choice([1_000, 1_200, 1_365])
        numbers = [model.name_text(at) for at in drawn.sample(range(2**31, 2**32), 4_092)]
        if place % 4 == 0:
            texts.append(loops(pairs, drawn.sample(range(2**32 - 5_000, 2**32), pairs)))
        elif place % 4 == 1:
            texts.append(loops(1_365, None, *long_texts))
        elif place % 4 == 2:
            texts.append(f"{LOOP}<|A(x)=B(x),{','.join(f'{it}={it}' for it in numbers)}>")
        else:
            texts.append(f"{ADDITION}<r|Add(r,{numeral(4_090)})={numeral(4_090)}>")
    return texts


class DrawnServing(ModelTrial):
    seconds = 12

    def stopped_and_opened(self, drawn, lines, every, *words):
        """Lines served by several servers, one after the other, over one disk. What ends a line is drawn too."""
        disk = self.new_disk()
        while lines:
            now = drawn.randint(1, len(lines))
            end = drawn.choice(["\n", "\n", "\r\n", " \n", "\n\n"])
            text = end.join(lines[:now]) + drawn.choice([end, ""])
            self.serve(disk, text, *words, every=every)
            lines = lines[now:]
        self.serve(disk, ["list"], every=every)

    def test_sessions_on_few_names(self):
        drawn = self.draws()
        for _ in range(60):
            names = job_names(drawn, drawn.randint(1, 4))
            lines = session(drawn, names, small_systems(drawn, 4), drawn.choice([5, 20, 60]))
            self.stopped_and_opened(drawn, lines, drawn.choice(EVERY), "--workers", drawn.randint(1, 64))

    def test_sessions_on_many_names(self):
        drawn = self.draws()
        for count in (8, 9, 16, 20, 31, 32, 33, 36):
            lines = session(drawn, job_names(drawn, count), small_systems(drawn, 6), 250)
            self.stopped_and_opened(drawn, lines, drawn.choice(EVERY), "--workers", drawn.randint(1, 64))

    def test_each_disk_that_a_line_leaves(self):
        drawn = self.draws()
        for _ in range(5):
            disk = self.new_disk()
            every = drawn.choice(EVERY)
            lines = session(drawn, job_names(drawn, 3), small_systems(drawn, 3), 40)
            lines = [it for it in lines if it.strip()]
            server = model_disk.Server(disk, every)
            with Server(self.path, "--every", every) as asked:
                for line in lines:
                    wanted = server.answer(as_lines([line])[:-1])
                    self.agrees(asked.command, f"the answer to {line!r}", wanted, asked.ask(line) or "(nothing)")
                    self.same_file(f"{asked.command}, after {line!r}", disk)
                asked.end()

    def test_rounds_that_are_kept(self):
        drawn = self.draws()
        counts = [0, 1, 99, 100, 101, 199, 200, 201, 202, 300, 1_000]
        for every in EVERY + [3, 50, 999, 1_000, 1_001]:
            disk = self.new_disk()
            systems = [f"{LOOP}<|A(x)=B(x)>", f"{ADDITION}<r|Add(r,Z)={numeral(60)}>", loops(2)]
            self.serve(disk, [f"submit {name} {text}" for name, text in zip("abc", systems)], every=every)
            for count in drawn.sample(counts, 6):
                self.serve(disk, [f"run {count}"], every=every)
            lines = ["run 7", "run 100", "list", "run 250", "cancel a", "cancel c", "run 1000", "list"]
            self.serve(disk, lines, every=every)

    def test_a_list_after_each_submit(self):
        drawn = self.draws()
        for _ in range(4):
            names, texts = job_names(drawn, 34), small_systems(drawn, 20)
            lines = model.flat((f"submit {name} {drawn.choice(texts)}", "list") for name in names)
            lines += model.flat((f"fetch {name}", f"run {at}") for at, name in enumerate(names))
            lines += model.flat((f"cancel {name}", "list") for name in drawn.sample(names, 34))
            self.stopped_and_opened(drawn, lines, drawn.choice(EVERY))

    def test_turns_of_many_jobs(self):
        drawn = self.draws()
        for _ in range(25):
            names = job_names(drawn, drawn.randint(2, 32))
            texts = [loops(1), loops(2), "{}<r|r=Z>", "{}<|>"]
            lines = [f"submit {name} {drawn.choice(texts)}" for name in names]
            for _ in range(15):
                lines += [f"run {drawn.randint(1, 2 * len(names) + 3)}", "list"]
                lines += [f"{drawn.choice(['pause', 'pause', 'resume', 'cancel'])} {drawn.choice(names)}" for _ in range(3)]
            self.stopped_and_opened(drawn, lines, drawn.choice(EVERY))

    def test_a_full_table_of_full_size(self):
        drawn = self.draws()
        disk = self.new_disk()
        names = job_names(drawn, 33)
        texts = full_systems(drawn, 33)
        lines = model.flat((f"submit {name} {text}", "list") for name, text in zip(names, texts))
        words = "--workers", drawn.randint(1, 64)
        self.serve(disk, lines, *words)
        self.serve(disk, ["run 32", "list", *(f"fetch {name}" for name in names)], *words)
        self.serve(disk, [f"pause {names[0]}", "run 33", f"resume {names[0]}", "list"], *words, every=10)
        # The page is turned with all of them.
        self.serve(disk, ["pause no"] * 65_500 + ["run 70", "list", f"fetch {names[-2]}"], *words, every=64)
        lines = [f"cancel {name}" for name in drawn.sample(names, 16)] + [f"fetch {name}" for name in names]
        self.serve(disk, ["list", *lines, "list"], *words)

    def test_pages_turned(self):
        drawn = self.draws()
        for count in (1, 2, 9, 32):
            disk = self.new_disk()
            names = job_names(drawn, count)
            lines = [f"submit {name} {loops(drawn.choice([1, 2, 40]))}" for name in names]
            lines += [drawn.choice(["list", f"fetch {names[-1]}", "pause no"])] * (65_400 - drawn.randrange(99))
            lines += ["run 300", "list", f"fetch {names[0]}", f"cancel {names[-1]}", "run 50", "list"]
            self.serve(disk, lines, every=drawn.choice([40, 100, 1_000_000]))
        self.serve(disk, ["list"] * 65_535 + ["cancel no", "submit last {}<|>", "list"] + ["run 0"] * 9)

    def test_pages_of_any_size(self):
        """A page that begins keeps what isn't kept: so the file tells when each began."""
        drawn = self.draws()
        for page in (1, 2, 3, 511, 512, 513, 1_024, 1_025):
            disk, names = self.new_disk(), job_names(drawn, 4)
            for _ in range(3):
                lines = session(drawn, names, small_systems(drawn, 4), 40, longest_run=100)
                self.serve(disk, lines, every=drawn.choice([40, 1_000_000]), page=page)

    def test_a_million_lines(self):
        lines = b"list\n" + b"\n" * 499_998 + b"x\n" * 3 + b"\t\n" * 499_997 + b"list\n"
        for more in (b"", b"list\n", b"list", b"\n", b" " * (model.MAX_TEXT + 1)):
            self.serve(self.new_disk(), lines + more)

    def test_many_answers_at_once(self):
        drawn = self.draws()
        disk = self.new_disk()
        self.serve(disk, [f"submit a {loops(1_000)}", f"submit b {ADDITION}<r|Add(r,Z)={numeral(900)}>"])
        lines = [drawn.choice(["list", "fetch a", "fetch b", "fetch c", "", "x"]) for _ in range(2_000)]
        self.serve(disk, lines)
        for place in range(0, len(lines), 20):
            lines[place] = "run 3"
        self.serve(disk, lines)
