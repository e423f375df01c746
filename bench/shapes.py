#!/usr/bin/env python3
"""Measures the spelling of a unit and its reading back beside a plain copy of the same bytes, in turn in one run.

    bench/shapes.py [PROGRAM]

PROGRAM is the one that bench/measured.py builds where it is left out. The time of a round is the processor time of a run with
many rounds less that of a run with few, so that what a run does once is not in it; memory that a round gave back is kept for
the next, so that the system's handing out of pages is not in it either. It prints the medians in MB/s, how often
the copy's time a step takes, the time for ten times the members as a ratio, and the peak memory of the process. Nothing
but the ratios means anything on another machine, and no test depends on them.
"""
import os
import statistics
import sys

import measured

PROGRAM = None
SMALL, LARGE, TURNS, FEW = 6_500, 65_000, 7, 2

# How many rounds more the longer run has at LARGE; at SMALL ten times as many, so that both take about as long.
MORE = {"copy": 200, "shape": 10, "parse": 10}

# The C library keeps what is freed.
SETTINGS = dict(os.environ, MALLOC_TRIM_THRESHOLD_=str(4 << 30), MALLOC_MMAP_THRESHOLD_=str(1 << 30))


def run(step, members, rounds):
    """The processor time of one run in seconds, its peak memory in bytes, and the bytes of a round."""
    seconds, peak, said = measured.run(PROGRAM, ["shapes", step, str(members), str(rounds)], SETTINGS)
    return seconds, peak, int(said[1])


def seconds_of_round(step, members):
    more = MORE[step] * LARGE // members
    few, _, _ = run(step, members, FEW)
    many, peak, length = run(step, members, FEW + more)
    return (many - few) / more, peak, length


def main():
    global PROGRAM
    PROGRAM = os.path.abspath(sys.argv[1]) if len(sys.argv) > 1 else measured.program()
    taken = {(step, members): [] for step in MORE for members in (SMALL, LARGE)}
    peaks, lengths = {}, {}
    for _ in range(TURNS):
        for step, members in taken:
            seconds, peaks[step, members], lengths[members] = seconds_of_round(step, members)
            taken[step, members].append(seconds)
    median = {key: statistics.median(all_taken) for key, all_taken in taken.items()}
    print(f"a unit of {LARGE} members, {lengths[LARGE]} bytes (medians of {TURNS})")
    for step in MORE:
        seconds = median[step, LARGE]
        print(f"{step}: {lengths[LARGE] / seconds / 1e6:.0f} MB/s, {seconds / median['copy', LARGE]:.1f} times the copy's time, "
              f"{seconds / median[step, SMALL]:.1f} times that of {SMALL} members, peak {peaks[step, LARGE] / 1e6:.0f} MB")


if __name__ == "__main__":
    main()
