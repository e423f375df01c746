#!/usr/bin/env python3
"""Measures names as values: many in one annotation on a class of many constants, and one in an annotation on each of many constants.

    bench/values.py [PROGRAM]

PROGRAM is the program of cases, which tests/cases.py builds as out/cases/cases, where it is left out. It is built without proofs,
and tests each index and each sum while it runs. Its table `value_cases` makes the class and asks for its annotations; where each
constant has one, all are asked of one value. The time of a question is the processor time of a run that makes the class and asks,
less that of one that makes it alone; the medians of five turns are printed, with how many times as long it takes as making the
class, whose text is read then, and with how it grows to four times as many constants.

Nothing but the ratios means anything on another machine, and no test depends on them.
"""
import os
import resource
import statistics
import subprocess
import sys

HERE = os.path.dirname(os.path.abspath(__file__))
PROGRAM = os.path.join(HERE, "..", "out", "cases", "cases")
TURNS, SHARE, GROWTH = 5, 4, 8

# What is measured, each over a small class and over one of four times as many constants: the call that makes the class, and the question.
FORMS = {
    "as many names as constants": ("many {0} {0}", "mirrors m.Many", (4_000, 16_000)),
    "2,000 names": ("many 2000 {0}", "mirrors m.Many", (15_000, 60_000)),
    "an annotation of one name on each constant": ("each {0}", "member_mirrors m.Each", (4_000, 16_000)),
}


def seconds_of(program, calls):
    """The processor seconds of a run of these calls."""
    before = resource.getrusage(resource.RUSAGE_CHILDREN)
    ran = subprocess.run([program, "value_cases"], input="\n".join([*calls, ""]).encode(), stdout=subprocess.PIPE, check=True)
    after = resource.getrusage(resource.RUSAGE_CHILDREN)
    if b"memory" in ran.stdout:
        sys.exit(f"{calls[0]}: out of memory")
    return after.ru_utime + after.ru_stime - before.ru_utime - before.ru_stime


def measure(program, making, asking):
    """The seconds of making a class and those of the question."""
    made, asked = [], []
    for _ in range(TURNS):
        made.append(seconds_of(program, [making]))
        asked.append(seconds_of(program, [making, asking]) - made[-1])
    return statistics.median(made), statistics.median(asked)


def main():
    program = os.path.abspath(sys.argv[1] if len(sys.argv) > 1 else PROGRAM)
    for form, (making, asking, counts) in FORMS.items():
        taken = {}
        for count in counts:
            made, taken[count] = measure(program, making.format(count), asking)
            print(f"{form}, {count:,} constants: {taken[count] * 1000:.0f} ms, {taken[count] / made:.2f} times the time of making the class "
                  f"(goal: at most {SHARE})", flush=True)
        small, large = counts
        print(f"{form}, {large:,} constants beside {small:,}: {taken[large] / taken[small]:.1f} times the time (goal: at most {GROWTH})", flush=True)


if __name__ == "__main__":
    main()
