"""What trials share that attend scripts: two clients, one of whose jobs ends, and looks at what they left."""

from disks import EMPTY, put, slot
from known import LOOP, TWO, fetched, submitted
from program import IN_MEMORY, Trial, run

SCRIPTS = [[f"submit two {TWO.text}", "pause no"], [f"submit loop {LOOP.text}", f"submit loop {LOOP.text}"]]
ANSWERS = [["accepted", "refused nojob"], ["accepted", "refused taken"]]
TOLD = [it for i, answers in enumerate(ANSWERS) for it in (f"client {i}", *answers)]


class Attending(Trial):
    rooms = IN_MEMORY

    def setUp(self):
        super().setUp()
        self.jobs = self.disk()
        self.paths = [self.script(f"client {i}", lines) for i, lines in enumerate(SCRIPTS)]

    def script(self, name, lines):
        path = self.room / name
        path.write_text("".join(f"{it}\n" for it in lines))
        return path

    def attends(self, *paths, runners=2, turns=10, workers=2, disk=None):
        numbers = ["--runners", runners, "--turns", turns, "--workers", workers]
        return ["attend", "--disk", disk or self.jobs, *numbers, *paths]

    def attended(self, words, **how):
        """A run over a new disk. Where the history got full it is done again: a client that gets no processor for long
        leaves all of it to the rounds of a job that never ends."""
        for _ in range(5):
            put(self.jobs, slot(1, EMPTY))
            ran = run(*words, **how)
            if ran.err != b"icserve: log full\n":
                break
        return ran

    def rounds(self):
        """Looks at the disk: the rounds of each job that is there. Its configuration is that of its rounds."""
        found, lines = {}, ["fetch two", "fetch loop"]
        for line, came in zip(lines, self.asks(self.jobs, lines)):
            if came != "refused nojob":
                name, state, rounds, _ = came.split()
                job = submitted((), name, {"two": TWO, "loop": LOOP}[name])[0][0].at(int(rounds))
                self.equals(self.jobs, line, fetched(job._replace(state="paused") if state == "paused" else job), came)
                found[name] = int(rounds)
        return found

    def leaves(self, command, **wanted):
        """Fails unless these jobs are there, with these rounds."""
        self.equals(command, "the rounds of the jobs on the disk", wanted, self.rounds())

    def two_is_done(self, command):
        """Fails unless the job that ends is there and has ended."""
        found = self.rounds()
        self.equals(command, f"the rounds of the job `two`, of {found}", 2, found.get("two"))

    def holds_what_was_answered(self, ran):
        """The jobs of which `accepted` was told are there."""
        told, client, found = ran.out.decode().splitlines(), None, self.rounds()
        for before, line in zip([None, *told], told):
            client = int(line.split()[1]) if line.startswith("client ") else client
            if line == "accepted" and before == f"client {client}" and ("two", "loop")[client] not in found:
                self.told(ran.command, "the jobs that are there", f"that of client {client}, told `accepted`", found)
