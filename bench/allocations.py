#!/usr/bin/env python3
"""Runs the built program with each of its allocations failing in turn, over a former output.

    bench/allocations.py [PROGRAM]

PROGRAM is crates/apt_cli/out/apt_cli where it is left out. A library that is loaded before the C library (bench/refuse.c, which `cc`
compiles) counts what the program asks for and refuses one of them. For each build below there is first a run in which none is refused,
which has to give the answer that is named, and then one for each number up to those that it asked for. Each of them has to answer that
it is out of memory. Before that nothing is printed, or the whole report, which is written before the record takes its place; where there
is no memory for the line of a refusal, nothing is. What was published before has to stand, no child may be left, and no unfinished file.
Where the memory was for what is said on the standard error alone, it has to answer and publish as the first did, and may say less. The
first that does neither ends the run with status 1. A line says how many there were of each build.
"""
import os
import subprocess
import sys
import tempfile

HERE = os.path.dirname(os.path.abspath(__file__))
sys.path.insert(0, os.path.join(HERE, "..", "tests"))
import generated
import host
from host import (BAD_FRAME, BAD_GENERATED, CREATE, DONE_STATUS, ERRORS, GENERATED_DUPLICATE, TOO_MANY_QUESTIONS, Failure,
                  expect)

MEMORY_STATUS = 3
MEMORY = b"refused: Memory\n"

# What a child says in its rounds, and the status of the build without out of memory.
BUILDS = {
    "created sources in three rounds": ([[generated.create_source("p.D"), CREATE], [], []], DONE_STATUS),
    "a source of the last round": ([[generated.create_source("p.D")], [], [generated.create_source("p.E")]], DONE_STATUS),
    "printed errors": ([[CREATE, generated.message(generated.ERROR, "bad")], []], ERRORS),
    "a type that is there": ([[generated.create_source("p.E", generated.source_of("p.C"))]], GENERATED_DUPLICATE),
    "a created source that is no Java file": ([[generated.create_source("p.E", b"class")]], BAD_GENERATED),
    "a frame that is none": ([[[host.say(b"\0\0\0\1\xff")]]], BAD_FRAME),
    "questions, and a note at an element": (
        [[generated.ROOTS, generated.NAMED, generated.message(generated.NOTE, "n", element=generated.AN_ELEMENT)], []],
        DONE_STATUS),
}


def library(folder):
    made = os.path.join(folder, "refuse.so")
    subprocess.run(["cc", "-O1", "-shared", "-fPIC", "-o", made, os.path.join(HERE, "refuse.c")], check=True)
    return made


class Build:
    """How a build over a former output ended in which the allocation of this number failed, and how many the program asked for."""

    def __init__(self, made, rounds, number):
        project = host.Project()
        try:
            project.publish_former()
            counted = project.path("counted")
            environment = dict(os.environ, LD_PRELOAD=made, REFUSED=str(number), COUNTED=counted)
            ended = project.run(project.scripted(generated.talk(*rounds)), environment=environment)
            self.status, self.output, self.messages = ended.status, ended.output, ended.messages
            self.published = project.published()
            self.left = sorted(os.listdir(project.path("out")))
            self.asked = int(project.read("counted"))
        finally:
            project.remove()

    def is_as(self, other):
        """Whether it answered and published as another one did, and said no more lines."""
        alike = (self.status, self.output, self.published) == (other.status, other.output, other.published)
        return alike and self.messages.count(b"\n") <= other.messages.count(b"\n")

    def expect_memory(self, report):
        """It was out of memory, and the former output stands."""
        expect("the status", self.status, MEMORY_STATUS)
        # (without memory for the line of a refusal there is none)
        if self.output not in (report + MEMORY, b""):
            expect("the output", self.output, MEMORY)
        expect("the published files", self.published, host.FORMER_FILES)
        expect("the files below out", self.left, ["record", "store"])


def try_build(made, name, rounds, status):
    whole = Build(made, rounds, 0)
    expect("the status", whole.status, status)
    report = whole.output if status in (DONE_STATUS, ERRORS) else b""
    alike = 0
    for number in range(1, whole.asked + 1):
        build = Build(made, rounds, number)
        if build.is_as(whole):
            alike += 1
            continue
        try:
            build.expect_memory(report)
        except Failure as failure:
            raise Failure(f"allocation {number} of {whole.asked}: {failure}") from None
    print(f"{name}: {whole.asked} allocations, each of them refused once: Memory, and the former output stands, but for {alike} "
          "that only a message on the standard error needs", flush=True)


def main():
    if len(sys.argv) > 1:
        host.PROGRAM = sys.argv[1]
    with tempfile.TemporaryDirectory(prefix="apt-bench-allocations-") as folder:
        made = library(folder)
        for name, (rounds, status) in BUILDS.items():
            try:
                try_build(made, name, rounds, status)
            except Failure as failure:
                sys.exit(f"{name}: {failure}")


if __name__ == "__main__":
    main()
