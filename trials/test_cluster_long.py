"""A thousand drawn jobs in 40 shards under each engine, stopped again and again: the answers are those of one server. They
take many minutes, and are run by name: python3 trials cluster_long."""

import os
import socket
import subprocess
import time

from hosts import Hosts, free_port
from known import ADD, LOOP
from program import PATIENCE, PROGRAM
from shards import SCRIPTS, Shards, drawn_jobs, numeral
from texts import Texts, drawn_text

SHARDS = 40
MOST_ROUNDS = 2000


class Thousand(Hosts, Shards):
    """The jobs, cut into their shards."""

    def cut_thousand(self):
        self.lines = drawn_jobs(self.draws(), 1000, MOST_ROUNDS)
        return self.cut(self.lines, 1000 // SHARDS)


class Parallel(Thousand):
    seconds = 300

    def test_1000_jobs_under_gnu_parallel_killed_at_ten_moments(self):
        self.cut_thousand()
        begun = lambda: self.parallel(of_shards=["--every", 10])
        kills = self.killed_often(begun, 10, self.draws("kills"), 1)
        self.equals("40 shards", f"at least eight kills in their midst: {kills}", True, kills >= 8)
        self.gathers(self.lines, MOST_ROUNDS)

    def test_1000_jobs_whose_shells_are_killed_and_whose_programs_run_on(self):
        """Meanwhile their shards are refused, and another engine goes on with the others. It is killed once they have ended, so that
        each turn begins in the midst."""
        self.cut_thousand()
        draw = self.draws("kills")
        begun = lambda: self.parallel(of_shards=["--every", 10])
        orphans = refused = 0
        for share in (5, 15, 25):
            with begun() as engine:
                self.waits_for(lambda: engine.ended() is not None or self.answered() >= share)
                time.sleep(draw.random())
                self.waits_for(lambda: engine.ended() is not None or engine.programs())
                engine.kill_shells()
                programs = engine.programs()
                orphans += len(programs)
                refused += sum(self.is_refused(os.path.dirname(words[-2].decode())) for words in programs)
                with begun():
                    self.waits_for(lambda: not engine.left(), told=engine.left)
        self.equals("40 shards", f"at least three programs that ran on: {orphans}", True, orphans >= 3)
        self.equals("40 shards", f"at least two that were refused meanwhile: {refused}", True, refused >= 2)
        self.ends_well(begun)
        self.gathers(self.lines, MOST_ROUNDS)

    def is_refused(self, shard):
        """Whether a shard is refused, since its program runs still. Else it has ended, and the shard is run again."""
        ran = self.script("shard", shard, "--every", 10)
        if ran.status not in (0, 6):
            self.told(ran.command, f"status; it said {ran.err}", "0 or 6", ran.status)
        return ran.status == 6

    def test_1000_jobs_over_two_hosts_killed_at_ten_moments(self):
        """The hosts are two servers of ssh on ports of their own, which share the trial's folder."""
        found = self.wants("sshd", "ssh", "ssh-keygen", "parallel")
        self.cut_thousand()
        hosts, words = self.two_hosts(found)
        begun = lambda: self.parallel(*words, of_shards=["--every", 10])
        kills = self.killed_often(begun, 10, self.draws("kills"), 1)
        self.equals("40 shards", f"at least eight kills in their midst: {kills}", True, kills >= 8)
        self.equals("40 shards", "the hosts that ran them", {"one", "two"}, self.hosts_used())
        self.gathers(self.lines, MOST_ROUNDS)
        self.equals("the servers of ssh", "whether they still run", [None, None], [it.poll() for it in hosts])


class LargeOnes(Hosts, Texts):
    """Texts of 10^6 to 10^7 interactions."""

    seconds = 200

    def test_20_texts_over_two_hosts_killed_at_five_moments(self):
        """With all that ran on the hosts: of a killed engine they end what they run after some seconds."""
        found = self.wants("sshd", "ssh", "ssh-keygen", "parallel")
        draw = self.draws()
        texts = {f"text{it:02}": drawn_text(draw) for it in range(20)}
        self.write(texts)
        hosts, words = self.two_hosts(found)
        command = ["parallel", "--will-cite", "--memfree", "200M", "--joblog", "jobs.log", "--resume-failed", *words, SCRIPTS / "large", "{}", "--seconds", "1"]
        begun = lambda: self.engine(*command, ":::", *(f"texts/{it}.ic" for it in texts))  # noqa: E731
        killed = 0
        for moment in range(5):
            with begun() as engine:
                self.waits_for(lambda: engine.ended() is not None or self.answered_texts() >= 3 * moment)
                time.sleep(draw.random())
                killed += engine.ended() is None
        self.ends_well(begun)
        self.equals("20 texts", f"at least four kills in their midst: {killed}", True, killed >= 4)
        self.equals("20 texts", "the hosts that ran them", {"one", "two"}, self.hosts_used())
        self.end_as_unbroken(texts)
        self.equals("the servers of ssh", "whether they still run", [None, None], [it.poll() for it in hosts])

    def test_a_text_on_a_device_that_fills_goes_on_once_there_is_room(self):
        """The device has room for what is kept of a wide net."""
        draw = self.draws()
        texts = {"one": drawn_text(draw)}
        with self.device(2**26) as folder:
            (self.room / "texts").symlink_to(folder)
            (folder / "one.ic").write_text(texts["one"] + "\n")
            ran = self.script("large", "texts/one.ic", "--steps", "100")
            self.equals(ran.command, f"status; it said {ran.err}", 5, ran.status)
            for pages in (0, 1, 2):
                has = os.statvfs(folder)
                (folder / "more").write_bytes(bytes((has.f_bavail - pages) * has.f_frsize))
                ran = self.script("large", "texts/one.ic")
                self.equals(ran.command, f"status where {pages} pages are free; it said {ran.err}", True, ran.status in (3, 4))
                (folder / "more").unlink()
            ran = self.script("large", "texts/one.ic")
            self.equals(ran.command, f"status; it said {ran.err}", 0, ran.status)
            self.end_as_unbroken(texts)


# A controller and a node of Slurm on this machine alone, in a folder of their own.
SLURM = """ClusterName=trial
SlurmctldHost={host}(127.0.0.1)
SlurmUser={user}
SlurmdUser={user}
SlurmctldPort={controller}
AuthType=auth/munge
AuthInfo=socket={room}/munge/socket,cred_expire=5
StateSaveLocation={room}/state
SlurmdSpoolDir={room}/spool
SlurmctldPidFile={room}/slurmctld.pid
SlurmdPidFile={room}/slurmd.pid
SlurmctldLogFile={room}/slurmctld.log
SlurmdLogFile={room}/slurmd.log
ProctrackType=proctrack/linuxproc
TaskPlugin=task/none
MpiDefault=none
MailProg=/bin/true
ReturnToService=2
JobRequeue=1
KillWait=5
SchedulerType=sched/builtin
SchedulerParameters=sched_interval=1
SelectType=select/cons_tres
SelectTypeParameters=CR_CPU
NodeName={host} NodeAddr=127.0.0.1 Port={node} CPUs=4 RealMemory=1000 State=UNKNOWN
PartitionName=all Nodes=ALL Default=YES MaxTime=INFINITE State=UP
"""


class Slurm(Thousand):
    seconds = 300

    def test_1000_jobs_under_slurm_requeued_while_they_run(self):
        self.found = self.wants("munged", "slurmctld", "slurmd", "sbatch", "scontrol", "squeue", "sinfo")
        self.cut_thousand()
        self.start()
        script = ["--chdir", self.room, f"--array=1-{SHARDS}", SCRIPTS / "array.sbatch", SCRIPTS, "jobs", "--every", 10]
        self.asks("sbatch", *script)
        draw, requeued = self.draws("requeues"), 0
        for turn in range(10):
            self.waits_for(lambda: self.answered() >= SHARDS * turn // 10 or self.has_ended())
            time.sleep(draw.random())
            running = [job for job, state in self.queue() if state == "RUNNING"]
            for job in draw.sample(running, min(2, len(running))):
                requeued += self.asks("scontrol", "requeue", job, may_fail=True)
        self.equals("40 tasks", f"at least ten were requeued: {requeued}", True, requeued >= 10)
        self.waits_for(self.has_ended, 10 * PATIENCE)
        self.gathers(self.lines, MOST_ROUNDS)

    def test_a_text_under_slurm_whose_time_is_nearly_over_is_put_into_the_queue(self):
        """And once it is cancelled, it stays so. A signal comes up to a minute earlier than it is asked for."""
        self.found = self.wants("munged", "slurmctld", "slurmd", "sbatch", "scancel", "scontrol", "squeue", "sinfo")
        texts = self.room / "texts"
        texts.mkdir()
        (texts / "one.ic").write_text(f"{ADD} <r|Add(r,Z)={numeral(9)}>\n")
        (texts / "two.ic").write_text(f"{LOOP.text}\n")
        self.start()
        self.asks("sbatch", "--chdir", self.room, "--array=1-2", "--time=2", "--signal=B:USR1@100", SCRIPTS / "array.sbatch", SCRIPTS, "texts", "--seconds", 1)
        state = lambda: [it for _, it in self.queue()]  # noqa: E731
        self.waits_for(lambda: (texts / "two.ic.out").exists() and state() == ["RUNNING"], 60, state)
        self.waits_for(lambda: state() == ["PENDING"], 180, state)
        left = {it.name for it in texts.iterdir()}
        wanted = {"one.ic", "one.ic.answer", "one.ic.figures", "one.ic.lock", "two.ic", "two.ic.keep", "two.ic.keep.2", "two.ic.lock"}
        self.equals("texts", "the files", wanted, left)
        self.asks("scancel", self.queue()[0][0])
        self.waits_for(self.has_ended, 60, state)
        time.sleep(5)
        self.equals("squeue", "what is left", [], self.queue())

    def has_ended(self):
        """Whether no task is left."""
        time.sleep(0.2)
        return not self.queue()

    def start(self):
        """Starts munged, slurmctld and slurmd in the foreground, and waits until the node is idle."""
        for it in ("munge", "state", "spool"):
            (self.room / it).mkdir()
        self.room.chmod(0o755)
        (self.room / "munge").chmod(0o711)
        (self.room / "munge/key").write_bytes(os.urandom(1024))
        (self.room / "munge/key").chmod(0o400)
        names = {"host": socket.gethostname().split(".")[0], "user": "root" if os.geteuid() == 0 else os.environ["USER"]}
        text = SLURM.format(room=self.room, controller=free_port(), node=free_port(), **names)
        (self.room / "slurm.conf").write_text(text)
        self.env = {**os.environ, "ICSERVE": PROGRAM, "SLURM_CONF": str(self.room / "slurm.conf")}
        files = [f"--{it}-file={self.room}/munge/{it}" for it in ("key", "pid", "seed", "log")]
        self.daemon(self.found["munged"], "--foreground", "--force", f"--socket={self.room}/munge/socket", *files)
        self.waits_for(lambda: (self.room / "munge/socket").exists(), 20)
        self.daemon(self.found["slurmctld"], "-D", "-f", self.room / "slurm.conf", env=self.env)
        self.daemon(self.found["slurmd"], "-D", "-f", self.room / "slurm.conf", "-N", names["host"], env=self.env)
        try:
            self.waits_for(lambda: "idle" in self.told_by("sinfo", "-h", "-o", "%T"), 60)
        except AssertionError:
            logs = {it: (self.room / it).read_text()[-800:] for it in ("slurmctld.log", "slurmd.log") if (self.room / it).exists()}
            self.skipTest(f"Slurm doesn't start here: {logs}")

    def told_by(self, program, *words):
        command = [str(it) for it in (self.found[program], *words)]
        self.ran = subprocess.run(command, env=self.env, capture_output=True, text=True, timeout=PATIENCE)
        return self.ran.stdout

    def asks(self, program, *words, may_fail=False):
        """Asks Slurm for something: whether it was done."""
        self.told_by(program, *words)
        if self.ran.returncode and not may_fail:
            self.fail(f"{self.ran.args}: {self.ran.stderr}")
        return self.ran.returncode == 0

    def queue(self):
        """The tasks that haven't ended, each with its state."""
        return [it.split() for it in self.told_by("squeue", "-h", "-r", "-o", "%i %T").splitlines()]
