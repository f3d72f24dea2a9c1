"""`./gate` sums its parts, tells how long after those below it each crate was proved, and tells at its end what has failed.
Scripts stand for its parts, so nothing is proved or tried here."""

import os
import re
import shutil
import subprocess
import time

from program import PATIENCE, TOP, Trial

# Stands for `rt ci`: keeps a library, proves another one, and then the program, if no variable has it fail. It tells so once
# that is tried.
RT = """#!/bin/sh
echo "$*" >>"$CALLS"
echo "rt: ic_kept is kept: an earlier run proved it"
sleep 3
echo "rt: ic_low proved"
mkdir -p crates/icserve/out
sleep 1.5
[ -n "$FAILS" ] || install gate crates/icserve/out/icserve
[ -n "$FAILS" ] || for _ in $(seq 60); do [ -e tried ] || sleep 0.5; done
[ -n "$FAILS" ] || { echo "rt: icserve proved"; echo "9 passed, 0 failed"; exit; }
printf '== icserve\\n./src/main.rt:3:1: error: a type\\nfn main: not proved\\nrt: icserve NOT PROVED\\nrt: FAILED: icserve\\n'
echo "6 passed, 1 failed"
exit 1
"""

# Stands for the trials: one fails where the program isn't said to be proved of its sources.
TRIALS = """import os, sys
if sys.argv[1:] == ["--without-program"]:
    print("3 passed, 0 failed")
    sys.exit()
told = open("crates/icserve/out/sources").read() if os.path.exists("crates/icserve/out/sources") else ""
print(f"trials: SEED={os.environ['SEED']}, {'before' if os.path.exists(os.environ['COMING']) else 'after'} the end")
open("tried", "w").close()
print("trials: test_a.A.test_b: " + ("ok, 0.1 s" if told else "FAILED, 0.1 s: Traceback"))
print("1 passed, 0 failed" if told else "0 passed, 1 failed")
sys.exit(not told)
"""

LAYOUT = "print('docs/a.md:3: a sentence of 41 words')\nprint('layout: sentences are short: FAILED')\nprint('8 passed, 1 failed')\n"


class Gate(Trial):
    seconds, needs_program = 12, False

    def setUp(self):
        super().setUp()
        for name in ("gate", "icserve"):
            shutil.copy(TOP / name, self.room / name)
        files = {"crates.txt": "ic_kept: std\nic_low: std\nicserve: ic_low ic_kept std\n", "tools/rt": RT, "trials/__main__.py": TRIALS, "checks/layout.py": "print('9 passed, 0 failed')\n"}
        for part in ("src", "specs", "proofs"):
            files[f"crates/icserve/{part}/file"] = "text\n"
        for path, text in files.items():
            (self.room / path).parent.mkdir(parents=True, exist_ok=True)
            (self.room / path).write_text(text)
        (self.room / "tools/rt").chmod(0o755)
        if not os.access(self.room / "tools/rt", os.X_OK):
            self.skipTest("programs in a trial's folder can't be started here")

    def gate(self, status, **variables):
        """Runs the gate, which must end so: its lines."""
        env = {**os.environ, "PATH": f"{self.room}/tools:{os.environ['PATH']}", "TMPDIR": str(self.room), "CALLS": f"{self.room}/calls"}
        env.pop("SEED", None)
        ran = subprocess.run([self.room / "gate"], cwd="/", env={**env, **variables}, capture_output=True, text=True, timeout=PATIENCE)
        self.equals("./gate", f"status; it said {ran.stdout}{ran.stderr}", status, ran.returncode)
        return ran.stdout.splitlines()

    def test_it_sums_its_parts_and_tells_how_long_after_those_below_each_crate_was_proved(self):
        began = time.monotonic()
        lines = self.gate(0)
        took = time.monotonic() - began
        self.equals("./gate", "its last line", "22 passed, 0 failed", lines[-1])
        self.equals("./gate", f"whether the trials draw by one seed, as soon as the program is there: {lines}", True, "trials: SEED=1, before the end" in lines)
        told = [it[1] for it in (re.fullmatch(r"gate: +(.*)", line) for line in lines) if it]
        wanted = ["N s  icserve, after ic_low", "N s  ic_low, after the gate began", "N processor minutes in N minutes"]
        self.equals("./gate", f"what it tells of the proofs: {told}", wanted, [re.sub(r"\d+", "N", it) for it in told])
        program, library = (int(it.split()[0]) for it in told[:2])
        self.equals("./gate", f"whether one came after the other: {told} in {took} s", True, program >= 2 and library >= 3 and program + library <= took + 1)
        self.holds(self.room / "calls", "ci\n")

    def test_its_help_runs_nothing(self):
        for words, status in ((["--help"], 0), (["all"], 2)):
            ran = subprocess.run([self.room / "gate", *words], stdout=subprocess.PIPE, text=True, timeout=PATIENCE)
            self.equals(f"./gate {' '.join(words)}", "its status, and how it begins", (status, "The gate: "), (ran.returncode, ran.stdout[:10]))
            self.equals(f"./gate {' '.join(words)}", "whether anything ran", False, (self.room / "calls").exists())

    def test_what_has_failed_is_told_last(self):
        (self.room / "checks/layout.py").write_text(LAYOUT)
        lines = self.gate(1, FAILS="yes")
        wanted = ["docs/a.md:3: a sentence of 41 words", "layout: sentences are short: FAILED", "./src/main.rt:3:1: error: a type"]
        wanted += ["fn main: not proved", "rt: icserve NOT PROVED", "rt: FAILED: icserve", "trials: test_a.A.test_b: FAILED, 0.1 s: Traceback"]
        self.equals("./gate", "its last lines", [*(f"once more: {it}" for it in wanted), "17 passed, 3 failed"], lines[-8:])
