"""Drawn scripts of many clients with runners beside them. What is answered to a client hangs on rounds that are made
meanwhile, so each answer is looked for among those that some number of rounds would give."""

import draws
import model
import model_disk
from against_model import ModelTrial
from model_disk import HEAD, MAX_NUMBER, SECOND_SLOT, Disk
from program import run
from test_drawn_serving import BUDGETS, job_names, small_systems

WORDS = ["submit"] * 4 + ["fetch"] * 5 + ["pause", "resume"] * 2 + ["cancel"]

# No job makes more rounds: a disk is attended six times at most, and each history holds 65,536 entries.
LONGEST = 400_000

# A job that hasn't ended after so many rounds is taken for one that never does.
ENDLESS = 10_000


def submit(drawn, name, systems):
    """The submit of a job, with a budget or without one."""
    return f"submit {name} {drawn.choice(BUDGETS)}{drawn.choice(systems)}"


class Course:
    """A job's rounds from its submit on, up to its end or up to a bound."""

    def __init__(self, name, rules, config, budget=None):
        self.job = model.Job(name, rules, config, budget=budget)
        self.shown = [self.job.shown()]
        self.paused, self.least, self.most = False, 0, None

    def at(self, rounds):
        """What a fetch shows after so many rounds."""
        while len(self.shown) <= min(rounds, LONGEST) and self.job.state == "running":
            self.job.move()
            self.shown.append(self.job.shown())
        return self.shown[rounds] if rounds < len(self.shown) else None

    def ends_after(self, rounds):
        """Whether it is done, spent or halted at some number of rounds from this one on."""
        self.at(rounds + ENDLESS)
        return self.job.state != "running" and rounds < len(self.shown)


class Client:
    """What a client's answers may be. Its jobs have names that no other client uses."""

    def __init__(self):
        self.jobs = {}

    def fits(self, asked, answer):
        """Whether this may be answered."""
        word, name = asked[:2]
        course = self.jobs.get(name)
        if word == "submit":
            if course is None:
                self.jobs[name] = Course(*asked[1:])
            return answer == ("accepted" if course is None else "refused taken")
        if course is None:
            return answer == "refused nojob"
        if word == "cancel":
            del self.jobs[name]
            return answer == "ok"
        if word == "fetch":
            return self.shows(course, answer)
        if word == "resume":
            was, course.paused, course.most = course.paused, False, None
            return answer == ("ok" if was else "refused notpaused")
        if answer == "ok" and not course.paused:
            course.paused = True
            return True
        return answer == "refused notrunning" and (course.paused or course.ends_after(course.least))

    def shows(self, course, answer):
        """Whether a job may be shown so: as some number of rounds leaves it, no fewer than it had before."""
        _, state, rounds, _ = answer.split(" ", 3)
        rounds = int(rounds)
        if course.paused:
            answer = answer.replace(" paused ", " running ", 1)
        # A halt shows the rounds of the round before it once more.
        found = rounds >= course.least and answer in (course.at(rounds), course.at(rounds + 1))
        found = found and (state == "paused") == course.paused
        if course.paused:
            found = found and course.most in (None, rounds)
        course.least, course.most = rounds, rounds if course.paused else None
        return found


class DrawnAttend(ModelTrial):
    seconds = 10

    def attend(self, texts, *words):
        paths = []
        for place, text in enumerate(texts):
            paths.append(self.room / f"script {place}")
            paths[-1].write_bytes(text if isinstance(text, bytes) else text.encode())
        return run("attend", "--disk", self.path, *words, *paths)

    def scripts(self, drawn, count, length, names=None):
        """Scripts with names of their own."""
        names = names or job_names(drawn, min(32, 3 * count))
        texts = []
        for place in range(count):
            systems, lines = [it for it in small_systems(drawn, 3) if "A(x,r)" not in it], []
            for _ in range(drawn.randint(0, length)):
                word, name = drawn.choice(WORDS), drawn.choice(names[place::count])
                lines.append(submit(drawn, name, systems) if word == "submit" else f"{word} {name}")
                lines += [""] * (drawn.random() < 0.05)
            texts.append("\n".join(lines) + drawn.choice(["", "\n"] if lines else [""]))
        return texts

    def told_to(self, ran, count):
        """The answers to each client."""
        parts = ("\n" + ran.out.decode()).split("\nclient ")
        self.equals(ran.command, "the clients told", [str(it) for it in range(count)], [it.split("\n")[0] for it in parts[1:]])
        return [part.split("\n")[1:] for part in "\nclient ".join(parts)[:-1].split("\nclient ")[1:]]

    def test_one_client_without_runners(self):
        drawn = self.draws()
        for _ in range(60):
            disk = self.new_disk()
            for _ in range(drawn.randint(1, 3)):
                names, systems = job_names(drawn, 3), small_systems(drawn, 3)
                asked = [(drawn.choice(WORDS), drawn.choice(names)) for _ in range(drawn.randrange(30))]
                lines = [submit(drawn, name, systems) if word == "submit" else f"{word} {name}" for word, name in asked] + ["list"]
                wanted = model_disk.serve(disk, "\n".join(lines).encode())
                ran = self.attend(["\n".join(lines)], "--runners", 0, "--workers", drawn.randint(1, 64))
                self.ended(ran, b"client 0\n" + wanted.out)
                self.same_file(ran.command, disk)

    def test_many_clients_with_runners(self):
        drawn = self.draws()
        for _ in range(20):
            count = drawn.choice([0, 1, 2, 3, 8, 10])
            names, clients = job_names(drawn, 3 * count), [Client() for _ in range(count)]
            self.new_disk()
            # The same clients come several times, so that they find jobs that runners have moved.
            for _ in range(drawn.choice([1, 3, 6])):
                texts = self.scripts(drawn, count, drawn.choice([5, 30, 200]), names)
                words = "--turns", drawn.choice([0, 1, 5, 40, 100]), "--workers", drawn.randint(1, 8)
                ran = self.attend(texts, "--runners", drawn.choice([0, 1, 2, 4, 8, 64]), *words)
                if ran.err == b"icserve: log full\n":
                    # The history has room for 65,536 entries, and rounds may fill it where clients are slow.
                    break
                self.ended(ran, ran.out)
                self.fit(ran, clients, texts)
                self.looks(ran, clients)

    def fit(self, ran, clients, texts):
        """Each client has an answer to each of its commands, and one that may be."""
        for client, text, answers in zip(clients, texts, self.told_to(ran, len(texts))):
            commands = model_disk.read_script(text.encode())
            self.equals(ran.command, f"how many answers {answers} are", len(commands), len(answers))
            for asked, answer in zip(commands, answers):
                if not client.fits(asked, answer):
                    self.told(ran.command, f"what is told to {asked[0]} {asked[1]}", "some rounds' answer", answer)

    def looks(self, ran, clients):
        """Each job that should be there is, as some number of rounds leaves it."""
        jobs = {name: (client, course) for client in clients for name, course in client.jobs.items()}
        listed = self.asks(self.path, ["list"])[0].split(" ")[1:]
        self.equals(ran.command, "the jobs that are there", sorted(jobs), sorted(it.split(":")[0] for it in listed))
        for name, answer in zip(jobs, self.asks(self.path, [f"fetch {name}" for name in jobs])):
            client, course = jobs[name]
            if not client.shows(course, answer):
                self.told(ran.command, f"the job {name} on the disk", "some rounds' configuration", answer)

    def test_runners_go_on_until_nothing_runs(self):
        drawn = self.draws()
        for _ in range(20):
            texts = {name: drawn.choice(small_systems(drawn, 8)[6:]) for name in job_names(drawn, drawn.randint(1, 12))}
            courses = {name: Course(name, *model.read_system(text.encode())) for name, text in texts.items()}
            ending = [name for name in texts if courses[name].ends_after(0)]
            self.new_disk()
            lines = [f"submit {name} {texts[name]}" for name in ending]
            ran = self.attend(["\n".join(lines)], "--runners", drawn.randint(1, 5), "--turns", 1_000_000)
            self.ended(ran, ["client 0", *("accepted" for _ in ending)])
            came = self.asks(self.path, [f"fetch {name}" for name in ending])
            wanted = [courses[name].shown[-1] for name in ending]
            self.agrees(ran.command, "the jobs after it", "\n".join(wanted), "\n".join(came))

    def test_scripts_with_faults(self):
        drawn = self.draws()
        disk = self.new_disk()
        for _ in range(150):
            texts = [it.encode() for it in self.scripts(drawn, drawn.randint(1, 4), 12)]
            place = drawn.randrange(len(texts))
            texts[place] = draws.spoilt(drawn, texts[place]) if drawn.random() < 0.7 else texts[place] + b"\nrun 3\nlists"
            for number, text in enumerate(texts):
                try:
                    model_disk.read_script(text)
                except model.Fault as fault:
                    wanted = model_disk.refused(1, f"script {number} {fault}")
                    break
            else:
                continue
            ran = self.attend(texts, "--runners", drawn.randrange(3))
            self.agree(ran, wanted)
            self.same_file(ran.command, disk)

    def test_numbers_of_slots_that_are_used_up(self):
        drawn = self.draws()
        for left in (0, 1, 2, 3):
            for runners in (0, 0, 2):
                disk = Disk(bytes(SECOND_SLOT + HEAD))
                disk.put_slot(drawn.randrange(2), MAX_NUMBER - left, model_disk.encode(model.Table()))
                self.lay(disk)
                lines = [f"submit {name} {{}}<|>" for name in "abcdef"]
                ran = self.attend(["\n".join(lines)], "--runners", runners)
                answers = "".join("accepted\n" for _ in range(left))
                self.ended(ran, f"client 0\n{answers}stopped worn\n", "icserve: worn\n", 4)
