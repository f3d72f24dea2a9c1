"""Each call to the system goes wrong in turn while scripts are attended. Each fault ends clients, runners or all of it by the
defined words, and what was answered is on the disk."""

from attending import TOLD, Attending
from disks import EMPTY, SECOND, put, slot
from known import LOOP, TWO, WIDE
from program import grows_to, run
from shim import noted, shimmed, was_refused


class AttendFaults(Attending):
    seconds = 50

    def setUp(self):
        super().setUp()
        shimmed()
        self.log = self.room / "log"
        self.came = set()

    def in_turn(self, words, what, how, ends, spared=1):
        """Has each call of a kind go wrong, until so many runs, one after the other, make fewer calls. Each run ends by one of
        these words and status, or as if nothing had gone wrong."""
        number, left = 0, spared
        while left:
            number += 1
            call = f"{what} {number} {how}"
            ran = self.attended(words, env=shimmed(call, self.log))
            left = left - 1 if not was_refused(self.log) else spared
            lines, end = ran.out.decode().splitlines(), self.end_of(ran)
            if end not in ends and (ran.status, lines, ran.err) != (0, TOLD, b""):
                self.told(ran.command, f"the end, where it went wrong: {call}", f"one of {ends}, or all as ever", ran[1:])
            self.holds_what_was_answered(ran)
            self.came |= {end, *(it for it in lines if it.startswith("stopped "))}
        return number

    def end_of(self, ran):
        """The status and the word of an end. After `read` stand the path of a script and the cause."""
        word, _, after = ran.err.decode()[9:-1].partition("\n")
        is_of_script = word == "read" and any(after.startswith(f"{it}: ") for it in self.paths)
        return ran.status, word if is_of_script else ran.err.decode()[9:-1]

    def have_come(self, *ends):
        """Fails unless each of these ends, and lines to clients, has come."""
        self.equals(self.id(), f"ends that never came, of {self.came}", set(), {*ends} - self.came)

    def growths(self, how):
        """By threads the growths come in no fixed order, so it ends where five runs make fewer. Without runners they do."""
        ends = [(status, word) for status in (3, 4) for word in ("memory", "pool", "no thread", "device")]
        number = self.in_turn(self.attends(*self.paths, runners=0), "growth", how, ends)
        number += self.in_turn(self.attends(*self.paths, turns=3), "growth", how, ends, spared=5)
        self.equals(self.id(), f"more than 500 growths, came {number}", True, number > 500)

    def test_each_growth_is_refused_in_turn_and_later_ones_are_not(self):
        self.growths("once")
        self.have_come((3, "memory"), (4, "memory"), "stopped memory", (4, "pool"), (4, "no thread"))

    def test_each_growth_is_refused_in_turn_and_all_later_ones(self):
        self.growths("on")
        self.have_come((4, "memory"))

    def test_each_start_of_a_thread_is_refused_in_turn(self):
        """A client's, a runner's or a worker's: none is started for a round."""
        ends = [(4, "no thread")]
        for how in ("once", "on"):
            self.in_turn(self.attends(*self.paths), "thread", how, ends, spared=5)
        self.have_come(*ends)

    def test_each_call_on_the_disk_goes_wrong_in_turn(self):
        """A script that can't be read, a disk that can't be opened, or clients that are stopped. Without runners no keep at the
        end makes good what one before it lost."""
        ends = [(3, "device"), (4, "read"), (4, "device")]
        for how in ("once", "on", "done", "half"):
            for runners in (0, 2):
                number = self.in_turn(self.attends(*self.paths, runners=runners, turns=3), "disk", how, ends, spared=3)
                self.equals(self.id(), f"at least 20 calls, came {number}", True, number > 20)
        self.have_come(*ends, "stopped device", "stopped broken")

    def test_a_keep_at_the_end_that_fails_is_device_after_all_answers(self):
        """With one client and one runner the calls on the disk come in a fixed order, the last of them those of the keep."""
        words = self.attends(self.script("loop", [f"submit loop {LOOP.text}"]), runners=1, turns=3)
        self.attended(words, env=shimmed(f"disk {10**9} once", self.log))
        calls = next(it.at for it in noted(self.log) if it.kind == "C")
        for number in range(calls - 3, calls + 1):
            ran = self.attended(words, env=shimmed(f"disk {number} on", self.log))
            self.ended(ran, ["client 0", "accepted"], ["icserve: device"], 4)
            found = self.rounds()
            self.equals(ran.command, f"whether the job is there: {found}", True, "loop" in found)

    def test_each_write_of_the_answers_goes_wrong_in_turn(self):
        """Answers of 10,000 bytes, so that there are several writes. What they say is done and kept all the same."""
        path = self.script("wide", [f"submit two {TWO.text}", f"submit wide {WIDE.text}", *["fetch wide"] * 14])
        told = ["client 0", "accepted", "accepted", *[f"wide running 0 {WIDE.config(0)}"] * 14]
        words, whole = self.attends(path, runners=0), "".join(f"{it}\n" for it in told).encode()
        for how in ("once", "on", "nothing", "half", "interrupt", "short"):
            number, is_over = 0, False
            while not is_over:
                number += 1
                ran = self.attended(words, env=shimmed(f"write {number} {how}", self.log))
                is_over = not was_refused(self.log)
                if is_over or how in ("interrupt", "short"):
                    self.ended(ran, told)
                else:
                    self.ended(ran, whole[: len(ran.out)], ["icserve: write"], 4)
                self.serves(self.jobs, "list", ["jobs two:running:0 wide:running:0"])
            self.equals(ran.command, f"at least 3 writes, came {number - 1}", True, number > 3)

    def test_write_where_standard_output_cant_be_written(self):
        with open("/dev/full", "r+b", buffering=0) as full:
            ran = self.attended(self.attends(*self.paths), stdout=full)
        self.ended(ran, err=["icserve: write"], status=4)
        self.two_is_done(ran.command)

    def test_stopped_device_where_a_file_may_grow_no_further(self):
        """The table with the job `two` ends at 4,194,451."""
        for most in (0, SECOND, SECOND + 1, SECOND + 13, SECOND + 146):
            put(self.jobs, slot(1, EMPTY))
            words = self.attends(self.paths[0], runners=0)
            told = ["client 0", "stopped device"]
            self.refuses(*words, out=told, line="device", status=4, **grows_to(most))
            self.serves(self.jobs, "list", ["jobs"])
        self.runs(*words, out=TOLD[:3], **grows_to(SECOND + 147))
        self.leaves(words, two=0)

    def test_stopped_broken_where_a_keep_has_failed_before(self):
        """The first client still asks when the submit of the second can't be kept. That it comes so takes some luck. What is told
        is the fault of the call that has failed."""
        asking = self.script("asking", [*["list"] * 30_000, f"submit two {TWO.text}"])
        for most in (0, SECOND, SECOND + 13):
            for _ in range(20):
                put(self.jobs, slot(1, EMPTY))
                ran = run(*self.attends(asking, self.paths[1]), **grows_to(most))
                if b"stopped broken" in ran.out:
                    break
            asked = ["jobs"] * ran.out.count(b"jobs\n")
            told = ["client 0", *asked, "stopped broken", "client 1", "stopped device"]
            self.ended(ran, told, ["icserve: device"], 4)
            self.serves(self.jobs, "list", ["jobs"])
