"""Runs the trials of the built program, as many side by side as there are processors: python3
trials [WORD..], where those are run in whose name one of the words stands. If a word stands in
no name, none is run. Those of files `test_.._long` take many minutes, and are run only by a
word that has `long`: python3 trials cluster_long. The word --without-program takes those that
need no built program, and --with-program the others. The last line is `N passed, M failed`."""

import multiprocessing
import os
import sys
import threading
import time
import unittest
from concurrent.futures import ProcessPoolExecutor, as_completed
from pathlib import Path

HERE = Path(__file__).resolve().parent
sys.path.insert(0, str(HERE))
sys.dont_write_bytecode = True

from program import PROGRAM, SEED  # noqa: E402
from shim import prepare  # noqa: E402


def trials_in(suite):
    for it in suite:
        if isinstance(it, unittest.TestSuite):
            yield from trials_in(it)
        else:
            yield it


# Which trials are taken, by whether they need the built program.
KINDS = {"--with-program": True, "--without-program": False}


def fits(word, name):
    """Whether a word takes the trial of this name."""
    return word in name and ("long" in word or "_long." not in name)


def found(words):
    """The names of the trials, those that take longest first, and the words that take none."""
    all_of_them = list(trials_in(unittest.defaultTestLoader.discover(str(HERE), top_level_dir=str(HERE))))
    all_of_them.sort(key=lambda it: -getattr(it, "seconds", 1))
    kinds, parts = [KINDS[it] for it in words if it in KINDS], [it for it in words if it not in KINDS]
    names = [it.id() for it in all_of_them if all(getattr(it, "needs_program", True) == kind for kind in kinds)]
    taken = [name for name in names if any(fits(part, name) for part in parts or [""])]
    return taken, [part for part in parts if not any(fits(part, name) for name in names)]


def tried(name):
    """Runs one trial: how long it took, how it went and what there is to say of it."""
    began = time.monotonic()
    result = unittest.TestResult()
    unittest.defaultTestLoader.loadTestsFromName(name).run(result)
    faults = [text for _, text in result.errors + result.failures]
    skipped = [reason for _, reason in result.skipped]
    how = "FAILED" if faults else "skipped" if skipped else "ok"
    # A trial of many parts may skip each for the same reason.
    text = "\n".join(dict.fromkeys(faults or skipped)).encode("ascii", "backslashreplace").decode()
    return name, time.monotonic() - began, how, text


# How long all trials may take at most, in seconds, once the gate proves nothing more: then the runner says so, and fails.
AT_MOST = 1800


def at_once():
    """How many processors may be used: no more than the quota of a container, and no more than 4."""
    seen = min(4, len(os.sched_getaffinity(0)))
    try:
        quota, period = Path("/sys/fs/cgroup/cpu.max").read_text().split()
        return max(1, min(seen, int(quota) // int(period)))
    except (OSError, ValueError):
        return seen


def give_up(counts):
    while os.path.exists(os.environ.get("COMING", "")):
        time.sleep(1)
    time.sleep(AT_MOST)
    print(f"trials: stopped after {AT_MOST} seconds\n{counts['ok']} passed, {counts['FAILED'] + 1} failed", flush=True)
    # They hold the pipe to the gate, which waits for its end.
    for worker in multiprocessing.active_children():
        worker.kill()
    os._exit(1)


def main(words):
    if "--help" in words or "-h" in words:
        print(__doc__)
        return 0
    print(f"trials: {PROGRAM}, SEED={SEED} (set it to draw the same again)", flush=True)
    tries_it = "--without-program" not in words
    if tries_it and not os.access(PROGRAM, os.X_OK):
        print("trials: it isn't there: make prove makes it, and so does ./gate. make trials tries the one that ./icserve runs")
        print("0 passed, 1 failed")
        return 1
    names, strange = found(words)
    if strange:
        print(*(f"trials: no trial is taken by {word}: python3 trials --help tells which words take which" for word in strange), sep="\n")
        print(f"0 passed, {len(strange)} failed")
        return 1
    if tries_it:
        prepare()
    counts = {"ok": 0, "FAILED": 0, "skipped": 0}
    failed, reasons = [], set()
    threading.Thread(target=give_up, args=[counts], daemon=True).start()
    # Processes are forked: one that is started anew doesn't find `tried` in a folder that is run.
    with ProcessPoolExecutor(at_once(), mp_context=multiprocessing.get_context("fork")) as pool:
        for done in as_completed([pool.submit(tried, name) for name in names]):
            name, seconds, how, text = done.result()
            counts[how] += 1
            text = "as above" if how == "skipped" and text in reasons else text
            reasons.add(text)
            line = f"trials: {name}: {how}, {seconds:.1f} s{': ' + text if text else ''}"
            print(line, flush=True)
            if how == "FAILED":
                failed.append(line)
    # A log that is cut keeps its end.
    for line in failed:
        print(f"once more: {line[-4000:]}")
    if counts["skipped"]:
        print(f"trials: {counts['skipped']} skipped, as said above")
    print(f"{counts['ok']} passed, {counts['FAILED']} failed")
    return 1 if counts["FAILED"] or not counts["ok"] else 0


if __name__ == "__main__":
    sys.exit(main(sys.argv[1:]))
