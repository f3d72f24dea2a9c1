"""Names and symbols that are chosen to have one hash cost no more than ordinary ones, within a factor that leaves room for
noise."""

import itertools
import resource
import string

import model
from collisions import long_names, names, names_of_a_slot, symbols
from program import IN_MEMORY, Trial, run

# So many of them stand in a text, or in one that is served.
MANY, SERVED = 8_192, 8_180

# No text costs more than this many times what an ordinary one costs, and as many seconds more.
TIMES, NOISE = 3, 0.02


def spent():
    used = resource.getrusage(resource.RUSAGE_CHILDREN)
    return used.ru_utime + used.ru_stime


class Collisions(Trial):
    rooms = IN_MEMORY
    seconds = 20

    def cost(self, command, text, ended, runs):
        """The least processor time that so many runs of a command take of three times, each of which ends so."""
        least = float("inf")
        for _ in range(3):
            before = spent()
            for _ in range(runs):
                ran = run(*command.split(), given=text)
                self.equals(ran.command, "status and standard error", ended, (ran.status, ran.err))
            least = min(least, spent() - before)
        return least

    def costs_alike(self, command, chosen, ordinary, written, ended=(0, b""), runs=1):
        drawn = self.draws()
        for words in (chosen, ordinary):
            drawn.shuffle(words)
        slow, usual = (self.cost(command, written(words), ended, runs) for words in (chosen, ordinary))
        self.equals(f"icserve {command}", f"{slow:.3f} s of processor time beside {usual:.3f}", True, slow <= TIMES * usual + NOISE)

    def ordinary_names(self):
        return [model.name_text(number) for number in self.draws("names").sample(range(2**24, 2**31), MANY)]

    def test_names(self):
        self.costs_alike("reduce", names(MANY), self.ordinary_names(), lambda all_of_them: f"{{}} <{','.join(all_of_them)}|{','.join(f'{it}=A' for it in all_of_them)}>")

    def test_served_names(self):
        """Names of equations that stay, two of each, beside a pair that fires in each round."""

        def stay(all_of_them):
            return f"<|A(x)=B(x),{','.join(f'{one}={two}' for one, two in zip(all_of_them[:SERVED:2], all_of_them[1:SERVED:2]))}>"

        def goes_on(all_of_them):
            return f"{{A(B(x))><B(A(x))}} {stay(all_of_them)}"

        serve = f"serve --disk {self.disk()} --workers 1"
        for chosen in (names(MANY), names_of_a_slot(MANY)):
            ordinary = self.ordinary_names()
            self.costs_alike("settle", chosen, ordinary, stay, runs=4)
            for command in ("once", "draw"):
                self.costs_alike(command, chosen, ordinary, goes_on, runs=4)
            self.costs_alike(serve, chosen, ordinary, lambda it: f"submit a {goes_on(it)}\nrun 20\ncancel a\n")

    def test_symbols(self):
        ordinary = [f"A{number:04}" for number in range(MANY)]
        self.costs_alike("reduce", symbols(MANY), ordinary, lambda all_of_them: f"{{}} <{','.join(4 * all_of_them)}|>")

    def test_long_names(self):
        """A text of a megabyte, in which each name stands twenty times."""
        ordinary = ["nn" + "".join(it) for it in itertools.islice(itertools.product(string.ascii_letters, repeat=3), MANY)]
        self.costs_alike("expand", long_names(MANY), ordinary, lambda all_of_them: f"<{','.join(20 * all_of_them)}|>")

    def test_pairs_of_symbols(self):
        """Two symbols with one rule among many make a million interactions."""

        def endless(all_of_them):
            *others, one, two = all_of_them
            rules = [f"{it}><{other}" for it, other in zip(others, others[1:])]
            return f"{{{';'.join(rules)};{one}({two}(x))><{two}({one}(x))}} <|{one}(x)={two}(x)>"

        command, ended = "reduce --workers 1 --steps 1000000 --quiet-answer", (5, b"icserve: not done\n")
        self.costs_alike(command, symbols(MANY), [f"A{number:04}" for number in range(MANY)], endless, ended)
