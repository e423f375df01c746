#!/usr/bin/env python3
"""Measures the spelling of the record of a build and its reading beside a plain copy of the same bytes, in turn in one run.

    bench/records.py [--limit] [PROGRAM]

PROGRAM is the one that bench/measured.py builds where it is left out. The record is that of a project of 10,000 classes with a
doc comment, two annotations and two fields each, of which a processor makes 10,000 classes more, each in a file of its own; its
units and entries stand there as a build has them. Beside it stands the one of a tenth of the classes.

The time of a round is the processor time of a run with many rounds less that of a run with few, so that what a run does once is
not in it; memory that a round gave back is kept for the next. It prints the medians in MB/s, how often the copy's time a step
takes (the goal is at most 5), the time for ten times the classes as a ratio (at most 12), and the peak memory of the process.
`In equal memory` the longer record stands against ten of the shorter, which lie in memory of their own and are done one after
another in a round that lets all go at its end that it made; a tenth of their time is that of one. `Alone` it stands against one of
the shorter, again and again in the same memory, which then stays in the caches of a processor.

With --limit it reads instead a record of 1,073,741,824 bytes, spells it again, and reads one of a byte more, which is damaged.

Nothing but the ratios means anything on another machine, and no test depends on them.
"""
import argparse
import os
import statistics
import subprocess
import tempfile

import measured
from rounds import frames as spelling

PROGRAM = None
SMALL, LARGE, TURNS, FEW = 1_000, 10_000, 7, 2
STEPS = ("copy", "encode", "decode")
GOAL, GROWTH = 5, 12

# How many rounds more the longer run has at LARGE; at SMALL ten times as many, so that both take about as long.
MORE = {"copy": 200, "encode": 20, "decode": 10}

# The C library keeps what is freed.
SETTINGS = dict(os.environ, MALLOC_TRIM_THRESHOLD_=str(4 << 30), MALLOC_MMAP_THRESHOLD_=str(1 << 30))

# The most bytes that a record has.
LIMIT = 1_073_741_824

BUILDER, REGISTERED = "apt.demo.Builder", "apt.demo.Registered"
ISOLATING, ALWAYS, CLASS, PUBLIC, INT = 0, 0, 2, 1, 3
NONE, NO_TYPES = b"\x00", spelling.number_field(0)


# The record, field by field.


def listed(items):
    return spelling.number_field(len(items)) + b"".join(items)


def u16(number):
    return number.to_bytes(2, "big")


def optional(field):
    return b"\x01" + field


def named_type(*names):
    return b"\x01" + listed([spelling.text_field(name) + NONE for name in names])


def field_member(name, modifiers, of):
    return b"\x00" + spelling.text_field(name) + u16(modifiers) + NO_TYPES + NONE + of + NONE


def shape(name, doc, annotations, members):
    """The shape of a public class of the package g."""
    package = spelling.text_field("g") + NO_TYPES + spelling.texts_field([name]) + NONE
    words = listed([spelling.text_field(each) + NO_TYPES for each in annotations])
    return package + bytes([CLASS]) + spelling.text_field(name) + u16(PUBLIC) + words + doc + NO_TYPES + NONE + NO_TYPES + listed(members)


def source_shape(number):
    """`/** Class number 7. */ @apt.demo.Builder @apt.demo.Registered public class C7 { int a; C3 up; }`, of the number 7."""
    doc = optional(spelling.text_field(f"Class number {number}."))
    fields = [field_member("a", 0, bytes([0, INT])), field_member("up", 0, named_type(f"C{number // 2}"))]
    return shape(f"C{number}", doc, [BUILDER, REGISTERED], fields)


def created_shape(number):
    """`public class C7Builder { public int a; public g.C3 up; }`, of the number 7."""
    fields = [field_member("a", PUBLIC, bytes([0, INT])), field_member("up", PUBLIC, named_type("g", f"C{number // 2}"))]
    return shape(f"C{number}Builder", NONE, [], fields)


def in_order(count, name):
    """The numbers of classes, as their names ascend."""
    return sorted(range(count), key=lambda number: name(number).encode())


def units(count, name, shape_of):
    return listed([spelling.text_field(name(number)) + spelling.bytes_field(shape_of(number)) for number in in_order(count, name)])


def source_name(number):
    return f"g.C{number}"


def created_name(number):
    return f"g.C{number}Builder"


def entry(number, store):
    """What a processor did in round 1 of a class."""
    origin = source_name(number)
    file = spelling.text_field(f"SOURCE_OUTPUT/g/C{number}Builder.java") + spelling.text_field(created_name(number))
    file += spelling.number_field(store) + spelling.number_field(90) + listed([spelling.element_field(origin)])
    done = optional(spelling.text_field(origin)) + spelling.texts_field([BUILDER]) + spelling.texts_field([])
    return spelling.number_field(1) + u16(0) + done + listed([file]) + NO_TYPES


def key(stubs):
    command = spelling.texts_field(["apt_cli", "serve", "builder"])
    processor = spelling.text_field("builder") + command + spelling.text_field("1") + bytes([ISOLATING])
    return u16(spelling.LEVEL) + NO_TYPES + listed([processor]) + stubs


def names(count, name):
    return spelling.texts_field([name(number) for number in in_order(count, name)])


def record(count, stubs=NO_TYPES):
    """The record of a build of so many classes, and of as many that it makes of them."""
    hello = spelling.texts_field([BUILDER]) + spelling.texts_field([]) + bytes([ALWAYS])
    first = names(count, source_name) + NO_TYPES + spelling.texts_field([BUILDER, REGISTERED])
    second = names(count, created_name) + units(count, created_name, created_shape) + spelling.texts_field([])
    rounds = listed([first, second, 3 * NO_TYPES])
    entries = listed([entry(number, store) for store, number in enumerate(in_order(count, source_name))])
    return b"APTR" + u16(1) + key(stubs) + listed([hello]) + units(count, source_name, source_shape) + rounds + entries + NO_TYPES


def record_of(length):
    """A record of so many bytes, nearly all of which are those of a stub."""
    def with_stub(room):
        return record(1, spelling.number_field(1) + spelling.text_field("stubs/S.java") + spelling.bytes_field(bytes(room)))
    return with_stub(length - len(with_stub(0)))


# The measurements.


def run(step, file, units, times):
    """The processor time of one run in seconds, its peak memory in bytes, and the bytes of a record."""
    seconds, peak, said = measured.run(PROGRAM, ["records", step, file, str(units), str(times)], SETTINGS)
    return seconds, peak, int(said[1])


def seconds_of_record(step, file, count, units):
    """The time for one record in seconds, the peak memory in bytes, and the bytes of a record."""
    more = MORE[step] * LARGE // (count * units)
    few, _, _ = run(step, file, units, FEW)
    many, peak, length = run(step, file, units, FEW + more)
    return (many - few) / more / units, peak, length


def write(folder, name, content):
    path = os.path.join(folder, name)
    with open(path, "wb") as file:
        file.write(content)
    return path


def print_times(folder):
    files = {count: write(folder, str(count), record(count)) for count in (SMALL, LARGE)}
    whole, beside, alone = (LARGE, 1), (SMALL, LARGE // SMALL), (SMALL, 1)
    taken = {(step, measure): [] for step in STEPS for measure in (whole, beside, alone)}
    peaks, lengths = {}, {}
    for _ in range(TURNS):
        for step, (count, units) in taken:
            seconds, peaks[step, count, units], lengths[count] = seconds_of_record(step, files[count], count, units)
            taken[step, (count, units)].append(seconds)
    median = {key: statistics.median(all_taken) for key, all_taken in taken.items()}
    print(f"a record of {LARGE} classes and as many files, {lengths[LARGE]} bytes (medians of {TURNS}), and one of {lengths[SMALL]} bytes")
    for step in STEPS:
        seconds = median[step, whole]
        print(f"{step}: {lengths[LARGE] / seconds / 1e6:.0f} MB/s, {seconds / median['copy', whole]:.1f} times the copy's time (goal: at most {GOAL}); "
              f"{seconds / median[step, beside]:.1f} times the shorter in equal memory (goal: at most {GROWTH}), "
              f"{seconds / median[step, alone]:.1f} times alone; peak {peaks[step, LARGE, 1] / 1e6:.0f} MB")


def print_limit(folder):
    for length in (LIMIT, LIMIT + 1):
        file = write(folder, str(length), record_of(length))
        for step in ("decode", "encode"):
            ran = subprocess.run([PROGRAM, "records", step, file, "1", "1"], stdout=subprocess.PIPE, text=True, check=False)
            print(f"{length} bytes, {step}: status {ran.returncode}, {ran.stdout.strip() or 'no record'}", flush=True)
        os.remove(file)


def main():
    global PROGRAM
    words = argparse.ArgumentParser(description=__doc__, formatter_class=argparse.RawDescriptionHelpFormatter)
    words.add_argument("--limit", action="store_true", help="read the longest record, and one that is too long")
    words.add_argument("program", nargs="?")
    given = words.parse_args()
    PROGRAM = os.path.abspath(given.program) if given.program else measured.program()
    with tempfile.TemporaryDirectory(prefix="apt-bench-records-") as folder:
        if given.limit:
            print_limit(folder)
        else:
            print_times(folder)


if __name__ == "__main__":
    main()
