#!/usr/bin/env python3
"""Compares the build of 1,000 sources with 64 processors with that of 8, measured in turn in one run.

    bench/processors.py [PROGRAM]

PROGRAM is crates/apt_cli/out/apt_cli where it is left out. All processors support q.A and claim nothing, so each is asked in both
rounds with all roots. It prints the median of each build and their ratio, which is to be at most 10, and for the scale the time
in which the same number of children is started and read alone. Nothing but the ratio means anything on another machine, and no
test depends on it.
"""
import json
import os
import shutil
import statistics
import subprocess
import sys
import tempfile
import time

HERE = os.path.dirname(os.path.abspath(__file__))
sys.path.insert(0, os.path.join(HERE, "..", "tests"))
import frames

PROGRAM = os.path.join(HERE, "..", "crates", "apt_cli", "out", "apt_cli")
SOURCES, SMALL, LARGE, TURNS, GOAL = 1000, 8, 64, 15, 10
VARIES = 2

# A child that says Hello and two Dones at once, creates nothing and reads what it is sent.
HELLO = frames.frame(frames.HELLO, frames.texts_field(["q.A"]) + frames.NO_OPTIONS + bytes([VARIES]))
ANSWERS = HELLO + 2 * frames.done(claimed=False)
CHILD = ["sh", "-c", "printf '" + "".join(f"\\{byte:03o}" for byte in ANSWERS) + "'; exec cat > /dev/null"]


def make_project(count):
    """A folder with the sources, and a configuration that names this many processors."""
    folder = tempfile.mkdtemp(prefix="apt-bench-processors-", dir="/dev/shm" if os.path.isdir("/dev/shm") else None)
    os.makedirs(os.path.join(folder, "src", "p"))
    os.makedirs(os.path.join(folder, "stubs"))
    with open(os.path.join(folder, "stubs", "A.java"), "w", encoding="ascii") as file:
        file.write("package q; public @interface A {}\n")
    for number in range(SOURCES):
        name = f"C{number:05}"
        with open(os.path.join(folder, "src", "p", name + ".java"), "w", encoding="ascii") as file:
            file.write(f"package p; @q.A class {name} {{}}\n")
    names = [f"n{number:02}" for number in range(count)]
    rows = {name: {"command": CHILD, "version": "1"} for name in names}
    with open(os.path.join(folder, "apt.json"), "w", encoding="ascii") as file:
        json.dump({"order": names, "processors": rows}, file)
    return folder


def seconds_of_build(folder, count):
    start = time.perf_counter()
    run = subprocess.run([PROGRAM, "build"], cwd=folder, capture_output=True, check=False)
    taken = time.perf_counter() - start
    report = f"mode: clean (Full), started {count}\ndone: 2 rounds, 0 files, 0 errors, 0 warnings\n"
    if run.returncode != 0 or run.stdout.decode() != report:
        sys.exit(f"the build ended with status {run.returncode}: {run.stdout.decode()[-500:]}")
    return taken


def seconds_of_children(count):
    """How long it takes to start the children, to send each an end of its input and to read what it says."""
    start = time.perf_counter()
    children = [subprocess.Popen(CHILD, stdin=subprocess.PIPE, stdout=subprocess.PIPE) for _ in range(count)]
    for child in children:
        child.communicate()
    return time.perf_counter() - start


def main():
    global PROGRAM
    PROGRAM = os.path.abspath(sys.argv[1] if len(sys.argv) > 1 else PROGRAM)
    projects = {count: make_project(count) for count in (SMALL, LARGE)}
    taken, alone = {count: [] for count in projects}, {count: [] for count in projects}
    try:
        # The first turn brings the programs into memory, and is not counted.
        for turn in range(TURNS + 1):
            for count, folder in projects.items():
                seconds, started = seconds_of_build(folder, count), seconds_of_children(count)
                if turn > 0:
                    taken[count].append(seconds)
                    alone[count].append(started)
    finally:
        for folder in projects.values():
            shutil.rmtree(folder)
    medians = {count: statistics.median(seconds) for count, seconds in taken.items()}
    for count, median in medians.items():
        children = statistics.median(alone[count])
        print(f"{count} processors over {SOURCES} sources: {median * 1000:.1f} ms (median of {TURNS}; "
              f"the children alone {children * 1000:.1f} ms)")
    print(f"ratio: {medians[LARGE] / medians[SMALL]:.1f}, goal: at most {GOAL}")


if __name__ == "__main__":
    main()
