#!/usr/bin/env python3
"""Compares builds with more and with fewer created sources, and with more and with fewer rounds, in turn in one run.

    bench/rounds.py [PROGRAM]

PROGRAM is crates/apt_cli/out/apt_cli where it is left out. For each of two pairs it prints the median of each build,
their ratio, which is to be at most 12, and the most memory that each build took. Nothing but the ratios means anything
on another machine, and no test depends on them.

On a disk nearly all of a build's time is the wait until each file of the store is stored. That hides what the host
itself takes, and it was seen to vary between 1 and 8 ms for a file. So the builds run many times in /dev/shm, where it
is there, and the goal is for the ratio of these; a few run on the disk, in which the memory is looked at too.
"""
import json
import os
import shutil
import statistics
import subprocess
import sys
import tempfile
import time

HERE = os.path.dirname(os.path.abspath(__file__))
sys.path.insert(0, os.path.join(HERE, "..", "tests"))
import frames

PROGRAM = os.path.join(HERE, "..", "crates", "apt_cli", "out", "apt_cli")
IN_MEMORY = "/dev/shm"
TURNS, DISK_TURNS, GOAL = 15, 3, 12

HELLO, DONE = frames.hello("q.A"), frames.done()

# A child that says all that it says, and reads what it is sent. What it does not read at first fits into a pipe.
CHILD = ["sh", "-c", 'cat answers; exec cat > /dev/null']


def source(number):
    """The creation of a source that gives a type with this number."""
    content = f"package p; @q.A class D{number:05} {{}}\n"
    return frames.create_source(f"p.D{number:05}", content.encode())


def in_one_round(count):
    """The answers of a child that creates this many sources in round 1, and the end of the report."""
    return HELLO + b"".join(source(number) for number in range(count)) + 3 * DONE, f"done: 3 rounds, {count} files"


def in_as_many_rounds(count):
    """The answers of a child that creates a source in each of this many rounds, and the end of the report."""
    answers = b"".join(source(number) + DONE for number in range(count))
    return HELLO + answers + 2 * DONE, f"done: {count + 2} rounds, {count} files"


PAIRS = [("created sources", in_one_round, 100, 1000), ("rounds with a source", in_as_many_rounds, 6, 62)]


class Project:
    """A folder, below `where` or that of temporary files, with one source and the answers of a child."""

    def __init__(self, where, answers, end):
        self.end = end
        self.folder = tempfile.mkdtemp(prefix="apt-bench-rounds-", dir=where)
        os.makedirs(os.path.join(self.folder, "src", "p"))
        os.makedirs(os.path.join(self.folder, "stubs"))
        with open(os.path.join(self.folder, "stubs", "A.java"), "w", encoding="ascii") as file:
            file.write("package q; public @interface A {}\n")
        with open(os.path.join(self.folder, "src", "p", "C.java"), "wb") as file:
            file.write(b"package p; @q.A class C {}\n")
        with open(os.path.join(self.folder, "apt.json"), "w", encoding="ascii") as file:
            json.dump({"order": ["maker"], "processors": {"maker": {"command": CHILD, "version": "1"}}}, file)
        with open(os.path.join(self.folder, "answers"), "wb") as file:
            file.write(answers)

    def start(self):
        # Each build begins without an output, so that all have the same to do.
        shutil.rmtree(os.path.join(self.folder, "out"), ignore_errors=True)
        self.report = open(os.path.join(self.folder, "report"), "w+b")
        return [PROGRAM, "build"]

    def check(self, status):
        with self.report:
            self.report.seek(0)
            report = self.report.read().decode()
        if status != 0 or not report.splitlines()[-1].startswith(self.end):
            sys.exit(f"the build ended with status {status}: {report[-500:]}")

    def seconds(self):
        command = self.start()
        start = time.perf_counter()
        run = subprocess.run(command, cwd=self.folder, stdout=self.report, check=False)
        taken = time.perf_counter() - start
        self.check(run.returncode)
        return taken

    def seconds_and_memory(self):
        """The time, and the most bytes that the host held in memory, as seen until shortly before it ended."""
        command = self.start()
        start = time.perf_counter()
        build = subprocess.Popen(command, cwd=self.folder, stdout=self.report)
        most = 0
        while build.poll() is None:
            most = max(most, high_water_mark(build.pid))
            time.sleep(0.001)
        taken = time.perf_counter() - start
        self.check(build.returncode)
        return taken, most

    def remove(self):
        shutil.rmtree(self.folder)


def high_water_mark(number):
    """The most bytes that a process has held in memory, and 0 where it has ended."""
    with open(f"/proc/{number}/status", encoding="ascii") as file:
        for line in file:
            if line.startswith("VmHWM:"):
                return int(line.split()[1]) * 1024
    return 0


def in_turn(where, answers_of, counts, turns, measure):
    """What each build gives that is measured, by its count; the builds take turns."""
    projects = {count: Project(where, *answers_of(count)) for count in counts}
    found = {count: [] for count in counts}
    try:
        for _ in range(turns):
            for count, project in projects.items():
                found[count].append(measure(project))
    finally:
        for project in projects.values():
            project.remove()
    return found


def print_times(what, where, goal, times):
    small, large = times
    medians = {count: statistics.median(taken) for count, taken in times.items()}
    for count, median in medians.items():
        print(f"{count} {what}, {where}: {median * 1000:.1f} ms (median of {len(times[count])})")
    print(f"ratio: {medians[large] / medians[small]:.1f}{goal}", flush=True)


def compare(what, answers_of, *counts):
    goal = f", goal: at most {GOAL}"
    if os.path.isdir(IN_MEMORY):
        # The first turn brings the program into memory, and is not counted.
        taken = in_turn(IN_MEMORY, answers_of, counts, TURNS + 1, Project.seconds)
        print_times(what, "in memory", goal, {count: seconds[1:] for count, seconds in taken.items()})
        goal = ""
    found = in_turn(None, answers_of, counts, DISK_TURNS, Project.seconds_and_memory)
    print_times(what, "on the disk", goal, {count: [it[0] for it in pairs] for count, pairs in found.items()})
    for count, pairs in found.items():
        print(f"{count} {what}: at most {max(it[1] for it in pairs) / 1048576:.1f} MiB of memory", flush=True)


def main():
    global PROGRAM
    PROGRAM = os.path.abspath(sys.argv[1] if len(sys.argv) > 1 else PROGRAM)
    for what, answers_of, small, large in PAIRS:
        compare(what, answers_of, small, large)


if __name__ == "__main__":
    main()
