#!/usr/bin/env python3
"""Compares the build of 1,000 generated sources with that of 100, measured in turn in one run.

    bench/first.py [PROGRAM]

PROGRAM is crates/apt_cli/out/apt_cli where it is left out. It prints the median of each and their ratio, which is to be
at most 12. Nothing but the ratio means anything on another machine, and no test depends on it.
"""
import json
import os
import shutil
import statistics
import subprocess
import sys
import tempfile
import time

HERE = os.path.dirname(os.path.abspath(__file__))
sys.path.insert(0, os.path.join(HERE, "..", "tests"))
import frames

PROGRAM = os.path.join(HERE, "..", "crates", "apt_cli", "out", "apt_cli")
SMALL, LARGE, TURNS, GOAL = 100, 1000, 15, 12

# A child that supports q.A, creates nothing and reads what it is sent: Hello, and Done for each of the two rounds.
ANSWERS = frames.hello("q.A") + 2 * frames.done()
CHILD = ["sh", "-c", "printf '" + "".join(f"\\{byte:03o}" for byte in ANSWERS) + "'; cat > /dev/null"]


def make_project(count):
    folder = tempfile.mkdtemp(prefix="apt-bench-first-")
    os.makedirs(os.path.join(folder, "src", "p"))
    os.makedirs(os.path.join(folder, "stubs"))
    with open(os.path.join(folder, "stubs", "A.java"), "w", encoding="ascii") as file:
        file.write("package q; public @interface A {}\n")
    for number in range(count):
        name = f"C{number:05}"
        with open(os.path.join(folder, "src", "p", name + ".java"), "w", encoding="ascii") as file:
            file.write(f"package p; @q.A class {name} {{}}\n")
    with open(os.path.join(folder, "apt.json"), "w", encoding="ascii") as file:
        json.dump({"order": ["maker"], "processors": {"maker": {"command": CHILD, "version": "1"}}}, file)
    return folder


def seconds_of_build(folder):
    start = time.perf_counter()
    run = subprocess.run([PROGRAM, "build"], cwd=folder, capture_output=True, check=False)
    taken = time.perf_counter() - start
    if run.returncode != 0:
        sys.exit(f"the build ended with status {run.returncode}: {run.stdout.decode()}")
    return taken


def main():
    global PROGRAM
    PROGRAM = os.path.abspath(sys.argv[1] if len(sys.argv) > 1 else PROGRAM)
    projects = {count: make_project(count) for count in (SMALL, LARGE)}
    taken = {count: [] for count in projects}
    try:
        for turn in range(TURNS + 1):
            for count, folder in projects.items():
                seconds = seconds_of_build(folder)
                if turn > 0:
                    taken[count].append(seconds)
    finally:
        for folder in projects.values():
            shutil.rmtree(folder)
    small, large = (statistics.median(taken[count]) for count in (SMALL, LARGE))
    print(f"{SMALL} sources: {small * 1000:.1f} ms, {LARGE} sources: {large * 1000:.1f} ms (medians of {TURNS})")
    print(f"ratio: {large / small:.1f}, goal: at most {GOAL}")


if __name__ == "__main__":
    main()
