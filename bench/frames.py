#!/usr/bin/env python3
"""Measures the spelling of a frame and its reading beside a plain copy of the same bytes, in turn in one run.

    bench/frames.py [PROGRAM]
    bench/frames.py --peaks BYTES [--limit MEGABYTES] [APT] [CASE..]

PROGRAM is the one that bench/measured.py builds where it is left out. The steps are `copy`, a plain copy of the bytes; `encode`, the
spelling; `feed`, the reading of bytes that come one by one; and `pieces`, that of bytes that come in pieces of 65,536.

First it measures two frames: the beginning of a round with 50,000 root elements, and the creation of a source file of 8 MiB. The time
of a round is the processor time of a run with many rounds less that of a run with few, so that what a run does once is not in it;
memory that a round gave back is kept for the next, so that the system's handing out of pages is not in it either. It prints the
medians in MB/s, how often the copy's time a step takes, and the peak memory of the process.

Then it measures how the time grows from frames of 1 MB to one of 10 MB, twice. `In equal memory` the ten times longer frame stands
against ten of the shorter, which lie in memory of their own and are done one after another in a round that lets all go at its end
that it made. Both then touch as many bytes, and a tenth of the time of the ten is that of one. `Alone` it stands against one of the
shorter, again and again in the same memory, most of which then stays in the caches of a processor, where 10 MB don't: that ratio is
also one of a near memory to a far one, and the copy's says how much of it.

With --peaks it measures instead what a frame costs: for each case a child that sends one frame of some BYTES, of a form
that takes much memory for each of its bytes, and APT, which is crates/apt_cli/out/apt_cli where it is left out. A line
says the bytes, the peak memory of the host, how many times the frame that is above the peak with a frame of two bytes
(the goal is at most 16, or 1 MiB more) and what the host said last. A build may take no more than --limit of memory, 6,000
MB where nothing is said.

Nothing but the ratios means anything on another machine, and no test depends on them.
"""
import argparse
import itertools
import json
import os
import resource
import shutil
import statistics
import subprocess
import tempfile
import time

import measured
import rounds
from rounds import frames as spelling, high_water_mark

PROGRAM = None
TURNS, FEW = 3, 1
STEPS = ("copy", "encode", "feed", "pieces")

# What is measured: the kind of the frames, how many root elements or bytes each has, and how many frames there are.
SPEEDS = [("round", 50_000, 1), ("created", 8 << 20, 1)]
GROWTHS = [[("round", 42_000, 1), ("round", 42_000, 10), ("round", 420_000, 1)],
           [("created", 1_000_000, 1), ("created", 1_000_000, 10), ("created", 10_000_000, 1)]]
FRAMES = SPEEDS + GROWTHS[0] + GROWTHS[1]

# How many bytes are copied, spelled or read in the rounds that a longer run has more.
BYTES = {"copy": 1_000_000_000, "encode": 200_000_000, "feed": 10_000_000, "pieces": 50_000_000}

# The C library keeps what is freed.
SETTINGS = dict(os.environ, MALLOC_TRIM_THRESHOLD_=str(4 << 30), MALLOC_MMAP_THRESHOLD_=str(1 << 30))


def run(step, kind, count, units, rounds):
    """The processor time of one run in seconds, its peak memory in bytes, and the bytes of a frame."""
    seconds, peak, said = measured.run(PROGRAM, ["frames", step, kind, str(count), str(units), str(rounds)], SETTINGS)
    return seconds, peak, int(said[1])


def seconds_of_frame(step, kind, count, units):
    """The time for one frame in seconds, the peak memory in bytes, and the bytes of a frame."""
    few, _, length = run(step, kind, count, units, FEW)
    more = max(BYTES[step] // (length * units), 1)
    many, peak, _ = run(step, kind, count, units, FEW + more)
    return (many - few) / more / units, peak, length


def print_speeds(median, lengths, peaks):
    for frame in SPEEDS:
        print(f"{frame[0]} {frame[1]}, {lengths[frame]} bytes (medians of {TURNS})")
        for step in STEPS:
            seconds = median[step, frame]
            print(f"  {step}: {lengths[frame] / seconds / 1e6:.0f} MB/s, {seconds / median['copy', frame]:.1f} times the copy's time, "
                  f"peak {peaks[step, frame] / 1e6:.0f} MB")


def print_growths(median, lengths):
    for alone, small, large in GROWTHS:
        print(f"{large[0]}: {lengths[large]} bytes in the time of {lengths[small]}, in equal memory, and alone")
        for step in STEPS:
            seconds = median[step, large]
            print(f"  {step}: {seconds / median[step, small]:.1f} times, {seconds / median[step, alone]:.1f} times")


# What a frame costs.


GOAL, MEGABYTE = 16, 1_000_000
OF_HOST = {"Init": 1, "Round": 2, "Elements": 16, "Texts": 18, "Annotations": 19, "Values": 20, "Mirrors": 21}
ERASURE, DECLARED_TYPE = 106, 112
NO_LIST, NO_ENCLOSING, TRUTH, NOTHING, INT = spelling.number_field(0), b"\x00", b"\x00\x01", b"\x07", b"\x00\x03"


def many(item, room):
    """As many of an item as have room, behind their number."""
    count = room // len(item)
    return spelling.number_field(count) + item * count


def element(unit="p", steps=1):
    return spelling.text_field(unit) + spelling.number_field(steps) + bytes(2 * steps)


def declared(arguments=NO_LIST, enclosing=NO_ENCLOSING):
    return b"\x01" + element() + enclosing + arguments


def executable(variables, parameters, thrown):
    return b"\x06" + variables + parameters + NOTHING + thrown


def arguments(item):
    return lambda room: spelling.frame(DECLARED_TYPE, element("p.C", 0) + many(item, room))


def reply(name, fields):
    return lambda room: spelling.frame(OF_HOST[name], fields(room))


def values_of_array(item):
    return reply("Values", lambda room: spelling.number_field(1) + spelling.text_field("v") + b"\x06" + many(item, room))


def variables_of_method(room):
    return spelling.frame(ERASURE, executable(many(element(), room), NO_LIST, NO_LIST))


def variables_and_arguments(room):
    """A method whose parameters take what a quota allows, as nearly as they can, and whose type variables take the rest."""
    return spelling.frame(ERASURE, executable(many(element(), room * 9 // 10), many(NOTHING, room // 45), NO_LIST))


def distinct_texts(room, between=0):
    """Texts of four characters that ascend, with so many bytes behind each."""
    letters = [chr(code) for code in range(0x21, 0x7F)]
    return ["".join(each) for each in itertools.islice(itertools.product(letters, repeat=4), room // (8 + between))]


def hello(room):
    options = spelling.texts_field(distinct_texts(room))
    return spelling.frame(spelling.HELLO, spelling.texts_field(["*"]) + options + bytes([spelling.ALWAYS]))


def roots(room):
    return spelling.round_frame(1, distinct_texts(room))


def options(room):
    return spelling.init("maker", [(key, "v") for key in distinct_texts(room, 5)])


# A frame of about so many bytes, by the name of its case.
PEAKS = {
    "type arguments that are nothing": arguments(NOTHING),
    "type arguments int": arguments(INT),
    "arrays of nothing": arguments(b"\x04" + NOTHING),
    "type variables": arguments(b"\x03" + element()),
    "error types": arguments(b"\x02" + spelling.text_field("T")),
    "class types": arguments(declared()),
    "class types with an enclosing one": arguments(declared(enclosing=b"\x01" + NOTHING)),
    "class types with an argument": arguments(declared(many(NOTHING, 1))),
    "methods": arguments(executable(many(element(), 11), many(NOTHING, 1), many(NOTHING, 1))),
    "type variables of a method": variables_of_method,
    "type variables and parameters of a method": variables_and_arguments,
    "mirrors": reply("Mirrors", lambda room: many(NOTHING, room)),
    "annotations": reply("Annotations", lambda room: many(NOTHING + NO_LIST, room)),
    "values of an annotation": reply("Annotations", lambda room: spelling.number_field(1) + NOTHING + many(spelling.text_field("n") + TRUTH, room)),
    "values": reply("Values", lambda room: many(spelling.text_field("n") + TRUTH, room)),
    "truths": values_of_array(TRUTH),
    "texts as values": values_of_array(b"\x03" + spelling.text_field("t")),
    "elements without a name": reply("Elements", lambda room: many(element("", 0), room)),
    "elements": reply("Elements", lambda room: many(element(), room)),
    "texts": reply("Texts", lambda room: many(spelling.text_field("t"), room)),
    "origins of a source": lambda room: spelling.create_source("p.D", b"", many(element(), room)),
    "content of a source": lambda room: spelling.create_source("p.D", b"x" * room),
    "message": lambda room: spelling.message(spelling.NOTE, "x" * room),
    "options of Hello": hello,
    "roots": roots,
    "options of Init": options,
}


class Build:
    """A folder with one source and a child that sends a frame, behind Hello where it is none."""

    def __init__(self, frame):
        self.folder = tempfile.mkdtemp(prefix="apt-bench-frames-", dir=rounds.IN_MEMORY if os.path.isdir(rounds.IN_MEMORY) else None)
        self.length = len(frame)
        sent = frame if frame[4] == spelling.HELLO else spelling.hello("q.A") + frame
        processor = {"command": rounds.CHILD, "version": "1"}
        for path, content in {
            "src/p/C.java": b"package p; @q.A class C {}\n",
            "stubs/A.java": b"package q; public @interface A {}\n",
            "apt.json": json.dumps({"order": ["maker"], "processors": {"maker": processor}}).encode(),
            "answers": sent,
        }.items():
            whole = os.path.join(self.folder, path)
            os.makedirs(os.path.dirname(whole), exist_ok=True)
            with open(whole, "wb") as file:
                file.write(content)

    def peak(self, apt, limit):
        """The last line that the host says, the seconds, and the most bytes that it held in memory."""
        start = time.perf_counter()
        build = subprocess.Popen([apt, "build"], cwd=self.folder, stdout=subprocess.PIPE, stderr=subprocess.DEVNULL,
                                 preexec_fn=lambda: resource.setrlimit(resource.RLIMIT_AS, (limit, limit)))
        most = 0
        while build.poll() is None:
            most = max(most, high_water_mark(build.pid))
            time.sleep(0.001)
        taken = time.perf_counter() - start
        with build.stdout:
            lines = build.stdout.read().decode().splitlines()
        return (lines[-1] if lines else f"status {build.returncode}"), taken, most

    def remove(self):
        shutil.rmtree(self.folder)


def peak_of(frame, apt, limit):
    """What a build with this frame said last, the seconds that it took, its peak, and the bytes of the frame."""
    build = Build(frame)
    try:
        return *build.peak(apt, limit), build.length
    finally:
        build.remove()


def print_peaks(apt, room, limit, cases):
    _, _, least, _ = peak_of(spelling.done(False), apt, limit)
    print(f"a frame of two bytes: peak {least / MEGABYTE:.1f} MB", flush=True)
    for name in cases or PEAKS:
        said, taken, most, length = peak_of(PEAKS[name](room), apt, limit)
        print(f"{name}: {length} bytes, peak {most / MEGABYTE:.1f} MB, {(most - least) / length:.1f} times the frame above that (goal: at most {GOAL}), "
              f"{taken:.1f} s, {said}", flush=True)


def print_times():
    taken = {(step, frame): [] for step in STEPS for frame in FRAMES}
    peaks, lengths = {}, {}
    for _ in range(TURNS):
        for step, frame in taken:
            seconds, peaks[step, frame], lengths[frame] = seconds_of_frame(step, *frame)
            taken[step, frame].append(seconds)
    median = {key: statistics.median(all_taken) for key, all_taken in taken.items()}
    print_speeds(median, lengths, peaks)
    print_growths(median, lengths)


def main():
    global PROGRAM
    words = argparse.ArgumentParser(description=__doc__, formatter_class=argparse.RawDescriptionHelpFormatter)
    words.add_argument("--peaks", type=int, metavar="BYTES", help="measure what frames of so many bytes cost")
    words.add_argument("--limit", type=int, default=6_000, help="the most megabytes of memory that a build may take")
    words.add_argument("program", nargs="?")
    words.add_argument("cases", nargs="*", metavar="case")
    given = words.parse_args()
    if given.peaks is not None:
        apt = os.path.abspath(given.program or rounds.PROGRAM)
        print_peaks(apt, given.peaks, given.limit * MEGABYTE, given.cases)
        return
    PROGRAM = os.path.abspath(given.program) if given.program else measured.program()
    print_times()


if __name__ == "__main__":
    main()
