#!/usr/bin/env python3
"""Times the folder on the disk beside plain loops over the same calls of the system, turn about in one run, and prints ratios."""
import os
import shutil
import statistics
import subprocess
import sys
import time

HERE = os.path.dirname(os.path.abspath(__file__))
ROOT = os.path.dirname(HERE)
# a folder on the disk that users have: in memory no sync costs anything
WORK = os.environ.get("FOLDER_WORK", os.path.join(HERE, "work", "folder"))
PROGRAM = os.environ.get("FOLDER_BENCH", os.path.join(ROOT, "crates", "folder_bench", "out", "folder_bench"))
SIDES = ("folder", "plain")

# what is measured: the word, what its time is taken from, how often, and the ratio that is wanted
CASES = {
    "append": ("append", None, 1024, 1.15),
    "open": ("open", None, 20000, 2.0),
    "finish": ("finish", "open", 20000, 1.3),
}
SAID = {
    "append": "%d MiB appended, with a sync and a rename at each",
    "open": "%d lanes opened",
    "finish": "%d lanes finished, less their opening",
}


def left():
    """The names that stand, with their sizes."""
    with os.scandir(WORK) as entries:
        return sorted((entry.name, entry.stat().st_size) for entry in entries)


def timed(word, side, count):
    """The wall time of one run in an empty folder, the time of user and system together, and what it left."""
    shutil.rmtree(WORK, ignore_errors=True)
    os.makedirs(WORK)
    os.sync()
    start = time.perf_counter()
    child = subprocess.Popen([PROGRAM, word, side, WORK, str(count)])
    _, status, usage = os.wait4(child.pid, 0)
    took = time.perf_counter() - start
    child.returncode = os.waitstatus_to_exitcode(status)
    if status != 0:
        sys.exit("%s %s ended with %d" % (word, side, child.returncode))
    return took, usage.ru_utime + usage.ru_stime, left()


def measured(kind, runs):
    """For each side the times of each run, by the clock and of the processor."""
    word, less, count, _ = CASES[kind]
    times = {side: [] for side in SIDES}
    for turn in range(runs):
        stand = []
        for side in SIDES if turn % 2 == 0 else reversed(SIDES):
            took, busy, names = timed(word, side, count)
            if less:
                before, idle, _ = timed(less, side, count)
                took, busy = took - before, busy - idle
            times[side].append((took, busy))
            stand.append(names)
        if stand[0] != stand[1]:
            sys.exit("%s: the two sides left different files" % kind)
    return times


def main():
    runs = int(os.environ.get("FOLDER_RUNS", "5"))
    for kind in sys.argv[1:] or list(CASES):
        load = os.getloadavg()[0]
        times = measured(kind, runs)
        shutil.rmtree(WORK, ignore_errors=True)
        _, _, count, most = CASES[kind]
        parts = []
        for at, clock in enumerate(("by the clock", "of the processor")):
            ours, theirs = ([one[at] for one in times[side]] for side in SIDES)
            parts.append("%s %.2f (least of each; of the medians %.2f; %.3f and %.3f s)" % (
                clock, min(ours) / min(theirs), statistics.median(ours) / statistics.median(theirs), min(ours), min(theirs)))
        print("%s: %s; %s; wanted %.2f; %d runs, load %.1f to %.1f" % (
            SAID[kind] % count, *parts, most, runs, load, os.getloadavg()[0]), flush=True)


if __name__ == "__main__":
    main()
