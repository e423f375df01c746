#!/usr/bin/env python3
"""Compares the build of 5,000 annotated sources with that of 500, and each with javac over the same files, in turn in one run.

    bench/presence.py [PROGRAM]

PROGRAM is crates/apt_cli/out/apt_cli where it is left out. Each source is as long as any other and has annotations of three
interfaces, which stubs declare, on a class, its field, its method and a parameter, and on a class in it; all are named by imports
on demand of four packages. One processor supports one of the annotations, and says at once all that it says. Beside it
`javac -proc:only` reads the same files with one processor that supports that annotation (PresenceBench.java), and finds the stubs
on its source path.

It prints the median of each, in seconds and in seconds of the processor, the children's included; the growth of the build's time
from the small to the large project, which is to be at most 12 where the bytes of the sources grow to ten times as many; and how
many times javac's time the build takes. Nothing but the ratios means anything on another machine, and no test depends on them.
The projects are in /dev/shm, where it is there: on a disk most of a build is the wait for it.
"""
import json
import os
import resource
import shutil
import statistics
import subprocess
import sys
import tempfile
import time

import jdk

HERE = jdk.HERE
sys.path.insert(0, os.path.join(HERE, "..", "tests"))
import frames  # noqa: E402

PROGRAM = os.path.join(HERE, "..", "crates", "apt_cli", "out", "apt_cli")
IN_MEMORY = "/dev/shm"
SMALL, LARGE, TURNS, GOAL = 500, 5_000, 9, 12

# The annotation interfaces are in three packages, and the fourth has types that nothing names.
STUBS = {
    "q/A.java": "package q; public @interface A {}\n", "r/B.java": "package r; public @interface B { int value() default 1; }\n",
    "s/C.java": "package s; public @interface C {}\n", "t/D.java": "package t; public class D {}\n",
}
SOURCE = """package p;

import q.*;
import r.*;
import s.*;
import t.*;

@A @B(2) class {name} {{
    @B int field;

    @C void method(@A int parameter) {{}}

    @A static class Inner {{
        @C {name} around;
    }}
}}
"""

# The child says Hello, creates a file in round 1, so that the report shows that it was asked, and says Done in both rounds.
ANSWERS = frames.hello("q.A") + frames.create_resource("x", b"hi") + 2 * frames.done()
CHILD = ["sh", "-c", "cat answers; exec cat > /dev/null"]
REPORT = "mode: clean (Full), started 1\nfile CLASS_OUTPUT/x 2\ndone: 2 rounds, 1 files, 0 errors, 0 warnings\n"


def write(folder, path, text):
    where = os.path.join(folder, path)
    os.makedirs(os.path.dirname(where), exist_ok=True)
    with open(where, "w", encoding="ascii") as file:
        file.write(text)
    return where


class Project:
    """A folder with this many sources."""

    def __init__(self, count):
        self.folder = tempfile.mkdtemp(prefix="apt-bench-presence-", dir=IN_MEMORY if os.path.isdir(IN_MEMORY) else None)
        for path, text in STUBS.items():
            write(self.folder, f"stubs/{path}", text)
        texts = {f"src/p/C{number:05}.java": SOURCE.format(name=f"C{number:05}") for number in range(count)}
        jdk.write_list(self.folder, "files", [write(self.folder, path, text) for path, text in texts.items()])
        self.bytes = sum(map(len, texts.values()))
        write(self.folder, "apt.json", json.dumps({"order": ["maker"], "processors": {"maker": {"command": CHILD, "version": "1"}}}))
        with open(os.path.join(self.folder, "answers"), "wb") as file:
            file.write(ANSWERS)

    def measure(self, command, wanted):
        """The seconds of a run that prints this, and those of the processor."""
        before, start = resource.getrusage(resource.RUSAGE_CHILDREN), time.perf_counter()
        run = subprocess.run(command, cwd=self.folder, capture_output=True, check=False)
        taken, after = time.perf_counter() - start, resource.getrusage(resource.RUSAGE_CHILDREN)
        if run.returncode != 0 or run.stdout.decode() != wanted:
            sys.exit(f"{command[0]} ended with status {run.returncode}: {run.stdout.decode()[-500:]}{run.stderr.decode()[-500:]}")
        return taken, after.ru_utime + after.ru_stime - before.ru_utime - before.ru_stime

    def build(self):
        # Each build begins without an output, so that all have the same to do.
        shutil.rmtree(os.path.join(self.folder, "out"), ignore_errors=True)
        return self.measure([PROGRAM, "build"], REPORT)

    def javac(self, classes):
        options = ["-proc:only", "-implicit:none", "-sourcepath", "stubs", "-processorpath", classes, "-processor", "PresenceBench"]
        return self.measure(["javac", *options, "@files"], "")

    def remove(self):
        shutil.rmtree(self.folder)


def medians(taken):
    return [statistics.median(each) for each in zip(*taken)]


def report(projects, taken, title, others=None):
    middle = {count: medians(taken[count]) for count in projects}
    for count, (seconds, processor) in middle.items():
        beside = f"; {seconds / others[count][0]:.2f} times javac's time, {processor / others[count][1]:.2f} times its processor time" if others else ""
        print(f"{title}, {count} sources: {seconds * 1000:.0f} ms, {processor * 1000:.0f} ms of the processor (median of {TURNS}){beside}")
    growth = [large / small for small, large in zip(middle[SMALL], middle[LARGE])]
    bytes_grown = projects[LARGE].bytes / projects[SMALL].bytes
    print(f"{title} grows to {growth[0]:.1f} times the time, {growth[1]:.1f} times that of the processor, where the bytes grow to {bytes_grown:.1f}")
    return middle


def main():
    global PROGRAM
    PROGRAM = os.path.abspath(sys.argv[1] if len(sys.argv) > 1 else PROGRAM)
    has_jdk = jdk.is_there()
    projects = {count: Project(count) for count in (SMALL, LARGE)}
    built, compiled = {count: [] for count in projects}, {count: [] for count in projects}
    classes = tempfile.mkdtemp(prefix="apt-bench-presence-classes-")
    try:
        if has_jdk:
            jdk.compile_some(classes, ("PresenceBench",))
        # The first turn brings the programs into memory, and is not counted.
        for turn in range(TURNS + 1):
            for count, project in projects.items():
                both = project.build(), project.javac(classes) if has_jdk else None
                if turn > 0:
                    built[count].append(both[0])
                    compiled[count].append(both[1])
    finally:
        for project in projects.values():
            project.remove()
        shutil.rmtree(classes)
    others = report(projects, compiled, "javac -proc:only") if has_jdk else None
    report(projects, built, "apt build", others)
    print(f"goal: apt build grows to at most {GOAL} times the time")
    if not has_jdk:
        print("there is no JDK")


if __name__ == "__main__":
    main()
