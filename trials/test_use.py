"""`use "FILE"` in rich texts: which rules come, once each, from which folder, and what is refused, at which places."""

import itertools
import random
import resource
import shutil

import rich
from collisions import symbols
from program import IN_MEMORY, PROGRAM, SEED, TOP, Trial, run
from test_rich import SHORT_SYMBOLS, WORDS

NAT = "{number S Z;\n Add(y,r) >< Z => r ~ y;\n Add(y,r) >< S(x) => Add(S(y),r) ~ x}\n<r|Add(1,r)=1>\n"


class Use(Trial):
    rooms = IN_MEMORY
    seconds = 30

    def file(self, path, text):
        path = self.room / path
        path.parent.mkdir(parents=True, exist_ok=True)
        path.write_text(text)
        return path

    def is_refused(self, path, place, sentence, *words):
        ran = run(*(words or ("reduce",)), path)
        lines = ran.err.decode().splitlines()
        wanted = (1, "icserve: bad syntax", "{}, line {}, column {}".format(path, *place), sentence)
        self.equals(ran.command, "how it ends, the place and the sentence", wanted, (ran.status, lines[0], lines[1], lines[-1]))

    def test_the_rules_of_a_file_come_in_its_place(self):
        self.file("lib/nat.rich", "#rich\n# a comment\n" + NAT)
        path = self.file("sums/sum.rich", '{\n use "../lib/nat.rich";\n Two(r) >< T => r ~ 2}\n\n<a,b|Add(4,a)=3,Two(b)=T>')
        self.runs("reduce", path, out=["<7,2|>"])
        plain = run("expand", path)
        self.equals(plain.command, "status, and how many lines", (0, 4), (plain.status, plain.out.count(b"\n")))
        self.runs("reduce", given=plain.out, out=["<S(S(S(S(S(S(S(Z))))))),S(S(Z))|>"])
        self.equals(f"check {path}", "status", 0, run("check", path).status)
        whole = self.file("whole.rich", f'{{use "{self.room}/lib/nat.rich"}} <r|Add(1,r)=1>')
        self.runs("reduce", whole, out=["<2|>"])

    def test_standard_input_has_the_folder_in_which_the_program_runs(self):
        self.file("nat.rich", NAT)
        self.runs("reduce", "--rich", given='{use "nat.rich"} <r|Add(1,r)=1>', cwd=self.room, out=["<2|>"])

    def test_each_file_comes_once(self):
        self.file("nat.rich", NAT)
        self.file("b.rich", '{use "nat.rich"; number S Z; B(r) >< T => r ~ 3} <|>')
        self.file("c.rich", '{C(r) >< T => Add(2,r) ~ T2; use "./nat.rich"; use "d/d.rich"} <|>')
        self.file("d/d.rich", '{use "e.rich"; D >< T} <|>')
        self.file("d/e.rich", "{E >< T;}")
        text = '{use "b.rich"; use "b.rich"; A >< T; use "nat.rich"} <b|B(b)=T,A=T>'
        path = self.file("main.rich", text)
        self.runs("reduce", path, out=["<3|>"])
        plain = run("expand", path).out
        self.equals(f"expand {path}", "how often a rule of nat.rich stands", 1, plain.count(b"Add(x,x)><Z") + plain.count(b"Add(y,y)><Z"))

    def test_lines_that_hold_for_the_whole_text_may_stand_in_several_files(self):
        self.file("one.rich", "{copy Dup; erase Era; number S Z; A(r) >< T => r ~ Dup(x,x)} <|>")
        path = self.file("main.rich", '{ number S Z ;copy  Dup; use "one.rich"; B >< Z } <a,b|Dup(a,b)=Dup(c,c),Era=1>')
        self.equals(f"expand {path}", "status", 0, run("expand", path).status)

    def test_what_is_refused(self):
        self.file("nat.rich", NAT)
        for number, (text, place, sentence) in enumerate(
            (
                ('{A >< B;\n use "none.rich"}\n<|>', (2, 2), "the file that is named here can't be read"),
                ("{use nat.rich} <|>", (1, 2), 'a path in quotes is looked for here, as in use "nat.rich"'),
                ('{use ""} <|>', (1, 2), 'a path in quotes is looked for here, as in use "nat.rich"'),
                ('{use "nat.rich" "nat.rich"} <|>', (1, 2), 'a path in quotes is looked for here, as in use "nat.rich"'),
                ('{use "nat.rich} <|>', (1, 2), 'a path in quotes is looked for here, as in use "nat.rich"'),
                ('{\n use "."} <|>', (2, 2), "the file that is named here can't be read"),
            )
        ):
            path = self.file(f"main{number}.rich", text)
            for words in (("reduce",), ("expand",), ("once",)):
                self.is_refused(path, place, sentence, *words)
            found = run("check", path).out.decode()
            self.equals(f"check {path}", "what it prints", "{}:{}:{}: bad syntax: {}\n".format(path, *place, sentence), found)

    def test_a_fault_in_a_file_is_told_with_both_places(self):
        bad = self.file("bad.rich", "#rich\n{A >< B;\n C(x) >< D => x ~ E(y)}\n<|>")
        path = self.file("main.rich", '{\n\n  use "bad.rich"}\n<|>')
        self.is_refused(path, (3, 3), f"in {bad}, line 3: a name that isn't left of => stands right of it twice: y stands once")
        self.file("bad.rich", '{use "worse.rich"}')
        self.is_refused(path, (3, 3), f"in {bad}, line 1: the file that is named here can't be read")
        worse = self.file("worse.rich", "{A >< B;\ncopy dup} <|>")
        self.is_refused(path, (3, 3), f"in {worse}, line 2: copy and erase need a symbol: A to Z or 0 to 9, and then letters and digits")
        self.file("worse.rich", "{number S Z; number T Z}")
        self.is_refused(path, (3, 3), f"in {worse}, line 1: an earlier number says what these stand for")

    def test_two_rules_of_one_pair_are_told_with_both_places(self):
        one = self.file("one.rich", "{A(x,y) >< B => x ~ y}\n<|>")
        two = self.file("two.rich", "{C >< D;\nB >< A(x,x)}\n<|>")
        path = self.file("main.rich", '{use "one.rich";\n use "two.rich"}\n<|>')
        self.is_refused(path, (2, 2), f"in {two}, line 2: this rule's two symbols have a rule already: {one}, line 1")
        path = self.file("own.rich", '{use "one.rich";\n\n A(x,x)><B}\n<|>')
        self.is_refused(path, (1, 2), f"in {one}, line 1: this rule's two symbols have a rule already: {path}, line 3")

    def test_files_that_use_one_another_are_refused(self):
        one = self.file("one.rich", '{use "two.rich"} <|>')
        two = self.file("two.rich", '{\nuse "one.rich"} <|>')
        self.is_refused(one, (1, 2), "the file that is named here uses this one, too")
        path = self.file("main.rich", '{ use "one.rich"} <|>')
        self.is_refused(path, (1, 3), f"in {one}, line 1: the file that is named here uses this one, too")
        path = self.file("self.rich", '{use "self.rich"} <|>')
        self.is_refused(path, (1, 2), "the file that is named here uses this one, too")
        self.equals(str(two), "whether it is there", True, two.exists())

    def test_at_most_63_files_are_used(self):
        for number in range(70):
            self.file(f"f{number}.rich", f'{{use "f{number + 1}.rich"; A{number} >< B}} <|>')
        self.file("f63.rich", "{A63 >< B} <|>")
        self.runs("reduce", self.room / "f0.rich", out=["<|>"])
        self.file("f63.rich", '{use "f64.rich"; A63 >< B} <|>')
        self.is_refused(self.room / "f0.rich", (1, 2), f"in {self.room / 'f63.rich'}, line 1: a text uses at most 63 files")

    def test_the_library_is_used(self):
        path = self.file("lib.rich", f'{{use "{TOP}/lib/nat.rich"; use "{TOP}/lib/bool.rich"}} <a,b|Mul(3,a)=4,Not(b)=True,Era=Dup(x,x)>')
        self.runs("reduce", path, out=["<12,False|>"])

    def test_the_library_is_found_that_was_installed(self):
        text = '{use "lib/nat.rich"; use "lib/bool.rich"} <a,b|Mul(3,a)=4,Not(b)=True>'
        for folder in ("clone/out", "clone/crates/icserve/out", "there/bin"):
            program = self.room / folder / "icserve"
            program.parent.mkdir(parents=True)
            shutil.copy(PROGRAM, program)
        for place in ("clone", "there/share/icserve"):
            shutil.copytree(TOP / "lib", self.room / place / "lib")
        for folder in ("clone/out", "clone/crates/icserve/out", "there/bin"):
            program = self.room / folder / "icserve"
            ran = run("reduce", "--rich", given=text, program=program, cwd=self.room)
            self.equals(ran.command, "how it ends", (0, b"<12,False|>\n", b""), (ran.status, ran.out, ran.err))
        self.file("lib/bool.rich", "{Not(r) >< True => r ~ Other} <|>")
        ran = run("reduce", "--rich", given=text, program=program, cwd=self.room)
        self.equals(ran.command, "a library in the folder comes first", (0, b"<12,Other|>\n"), (ran.status, ran.out))
        ran = run("reduce", "--rich", given='{use "lib/none.rich"} <|>', program=program, cwd=self.room)
        self.equals(ran.command, "a file that isn't there", (1, b"the file that is named here can't be read"), (ran.status, ran.after.splitlines()[-1]))
        twice = self.file("twice.rich", f'{{use "lib/nat.rich"; use "{self.room}/there/share/icserve/lib/nat.rich"}} <r|Add(1,r)=1>')
        ran = run("reduce", twice, program=program)
        self.equals(ran.command, "a file of the library comes once", (0, b"<2|>\n"), (ran.status, ran.out))

    def test_many_rules_of_files_take_seconds(self):
        """A hundred thousand, and some of symbols that have one hash; the second file brings the same lines, and no further rule."""
        chosen = symbols(8_192)[:300]
        for pairs in ([(f"A{k}", f"B{k % 10_000}") for k in range(100_000)], list(itertools.combinations(chosen, 2))):
            rules = ";".join(f"{one}(x,r)><{other} => x~r" for one, other in pairs)
            self.file("rules.rich", "{" + rules + "; number S Z} <|>")
            self.file("more.rich", "{" + "number S Z;" * 20_000 + 'use "rules.rich"} <|>')
            path = self.file("main.rich", '{use "rules.rich"; use "more.rich"} <|>')
            before = resource.getrusage(resource.RUSAGE_CHILDREN).ru_utime
            ran = run("expand", path)
            took = resource.getrusage(resource.RUSAGE_CHILDREN).ru_utime - before
            self.equals(ran.command, f"within 5 seconds of processor time: {took:.2f}", True, took < 5)
            self.equals(ran.command, "how it ends", (0, b""), (ran.status, ran.err))

    def test_use_is_a_name_elsewhere(self):
        self.runs("expand", given="{A><B} <use|use=use1>", out="{A><B} <a|a=b>")

    def test_drawn_rules_in_several_files_are_those_of_one(self):
        draw = random.Random(f"{SEED} files")
        for number in range(30):
            _, text = rich.drawn_shorthands(draw, SHORT_SYMBOLS, WORDS, draw.randint(1, 8))
            text = rich.uncommented(text)
            end = text.rindex("}")
            rules = [it for it in text[1:end].split(";") if it.strip()]
            folder = draw.choice(["", "rules/"])
            parts = [[], [], []]
            for rule in rules:
                parts[draw.randint(0, 2)].append(rule)
            self.file(f"{number}/{folder}one.rich", "{" + ";".join([*parts[1], 'use "two.rich"']) + "}<|>")
            self.file(f"{number}/{folder}two.rich", "#rich\n{" + ";".join(parts[2]) + draw.choice(["", ";"]) + "}")
            uses = [f'use "{folder}one.rich"', f' use "{folder}two.rich" '][: draw.randint(1, 2)]
            own = parts[0] + uses
            draw.shuffle(own)
            path = self.file(f"{number}/main.rich", "{" + ";".join(own) + text[end:])
            ends = [run("reduce", "--plain", "--workers", 1, "--steps", 300, *more, given=given) for more, given in ((["--rich"], text), ([path], ""))]
            self.equals(ends[1].command, "how both end", ends[0].status, ends[1].status)
            self.equals(ends[1].command, "what they come to", *(rich.canonical(it.out.decode()) for it in ends))
