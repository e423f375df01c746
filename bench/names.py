#!/usr/bin/env python3
"""Measures look-ups of the names of types: over tables of 5,000 and 50,000 types, and of all types of fields that the
JDK's java.util declares, beside javac's attribution of the same declarations, in turn in one run.

    bench/names.py SOURCES [PROGRAM]

SOURCES is the archive src.zip of a JDK's sources, such as that of the Debian package openjdk-17-source. PROGRAM is the
one that bench/measured.py builds where it is left out. The time of a round is the processor time of a run with many
rounds less that of a run with few, so that what a run does once, as making the table, is not in it. Each look-up is one
call of `resolve_type`, of `superclass` or of `interfaces`, with the test of its condition, and remembers nothing of the
one before.

The tables hold units of two types each, which import and extend each other. A round looks one field of each unit up: of
a type of its own file, by a single import, of another type of its package, by an import on demand, an inherited member
type, a member type by its canonical name, or of a type that is nowhere. The growth is that of the time for each look-up
from the small table to the large one.

Of the JDK's module java.base the files are taken that jdk.py leaves, which have types and fields alone. The program has
all of them in one table and looks up the types of fields, and the supertypes; javac enters them (`-proc:only`) and has a
processor ask each field for its type. Of javac the time counts from where the files are read and parsed, for the package
java.util once with the types of all other packages from the JDK's class files, which it reads within that time, and
once, over all of the files, with no need of these. It checks besides what it enters, and the program does not. What javac
does for its last round, all of it once more, is not counted. The JVM is warm: rounds before the measured ones are not
counted, and only the processor time of the thread that compiles is.

What both find is compared line by line, for java.util and for all of the packages: the type of each field and the
supertypes of each type, with type arguments and without what encloses a member type. How many have an error type for
the program, and how many others are different, is printed, and the first of these.

Nothing but the ratios means anything on another machine, and no test depends on them.
"""
import os
import re
import statistics
import subprocess
import sys
import tempfile

import jdk
import measured

PROGRAM = None
FORMS = ("own", "single", "beside", "demand", "inherited", "qualified", "absent")
SMALL, LARGE, TURNS, FEW, GOAL = 5_000, 50_000, 5, 1, 1.6

# How many rounds more the longer run has: at LARGE, at SMALL ten times as many, and over the files of one package or of
# all. What a run does once takes seconds, and the rounds are to take as long.
MORE, MORE_OF_PACKAGE, MORE_OF_ALL = 5, 200, 20

# How many rounds only warm the JDK up, over the files of one package and of all.
WARM, WARM_OF_ALL = 20, 4

# How many differences are printed.
TOLD = 20

# The C library keeps what is freed.
SETTINGS = dict(os.environ, MALLOC_TRIM_THRESHOLD_=str(4 << 30), MALLOC_MMAP_THRESHOLD_=str(1 << 30))


def run(words, rounds):
    """The processor seconds of one run, its peak memory in bytes, and the look-ups of a round."""
    seconds, peak, said = measured.run(PROGRAM, ["names", *words, str(rounds)], SETTINGS)
    return seconds, peak, int(said[1])


def seconds_of_round(words, more):
    """The processor seconds of one round, the peak memory, and the look-ups of a round."""
    few = run(words, FEW)[0]
    many, peak, count = run(words, FEW + more)
    return (many - few) / more, peak, count


# ---- tables


def measure_tables():
    taken, peaks = {}, {}
    for _ in range(TURNS):
        for form in FORMS:
            for types in (SMALL, LARGE):
                seconds, peaks[form, types], count = seconds_of_round([form, str(types)], MORE * LARGE // types)
                taken.setdefault((form, types), []).append(seconds / count)
    median = {key: statistics.median(all_taken) for key, all_taken in taken.items()}
    for form in FORMS:
        growth = median[form, LARGE] / median[form, SMALL]
        print(f"{form}: {1 / median[form, LARGE]:,.0f} look-ups a second over {LARGE} types, {growth:.2f} times the time for each over {SMALL} "
              f"(goal: at most {GOAL}), peak {peaks[form, LARGE] / 1e6:.0f} MB")


# ---- the JDK's declarations


def called(package):
    return "all packages" if package == "-" else package


def round_of_jdk(javac):
    """The processor time of one round in seconds, the number of fields and that of errors."""
    seconds, fields, errors = jdk.ask(javac, "round")
    return float(seconds), int(fields), int(errors)


def measure_package(folder, of_jdk, package, listed, more, warm):
    """Of javac over some files, and of the program over the declarations of a package in a table of all of them."""
    javac = jdk.start(folder, ["NameBench", "rounds", *of_jdk])
    try:
        for _ in range(warm):
            round_of_jdk(javac)
        taken = {"fields": [], "supertypes": [], "javac": []}
        counts = {}
        for _ in range(TURNS):
            for step in ("fields", "supertypes"):
                seconds, _, counts[step] = seconds_of_round([step, package, listed], more)
                taken[step].append(seconds)
            seconds, counts["javac"], errors = round_of_jdk(javac)
            taken["javac"].append(seconds)
    finally:
        jdk.end(javac)
    if counts["javac"] != counts["fields"]:
        print(f"javac has {counts['javac']} fields there")
    median = {step: statistics.median(all_taken) for step, all_taken in taken.items()}
    both = median["fields"] + median["supertypes"]
    print(f"{called(package)}: {counts['fields']} types of fields in {median['fields'] * 1e3:.1f} ms, the supertypes of "
          f"{counts['supertypes']} types in {median['supertypes'] * 1e3:.1f} ms; javac {median['javac'] * 1e3:.1f} ms, {errors} errors")
    print(f"  the fields take {median['fields'] / median['javac']:.2f} times javac's time, with the supertypes {both / median['javac']:.2f} times")


def found_by_name(words):
    """What is found of each field and each type, by its name."""
    done = subprocess.run(words, stdout=subprocess.PIPE, encoding="utf-8", check=True)
    lines = (line.split(" ", 2) for line in done.stdout.splitlines())
    return {(around, name): found for around, name, found in lines}


def has_error(found):
    return "error" in re.findall(r"[^ <>,\[\]]+", found)


def compare(folder, of_jdk, package, listed):
    """Prints what is different for the program and for javac."""
    ours = found_by_name([PROGRAM, "names", "said", package, listed])
    theirs = found_by_name(jdk.java(folder, ["NameBench", "said", *of_jdk]))
    both = ours.keys() & theirs.keys()
    errors = sum(has_error(ours[name]) for name in both)
    others = sorted(name for name in both if ours[name] != theirs[name] and not has_error(ours[name]))
    print(f"{called(package)}: {len(both)} types of fields and headers of types are found by both, {len(ours) - len(both)} by the program alone and "
          f"{len(theirs) - len(both)} by javac alone; for the program {errors} have an error type, and {len(others)} others are different")
    for name in others[:TOLD]:
        print(f"  {' '.join(name)}: {ours[name]}; javac {theirs[name]}")


def measure_jdk(sources):
    with tempfile.TemporaryDirectory(prefix="apt-bench-names-") as folder:
        jdk.compile_all(folder)
        module, listed, package, of_package = jdk.files_of_jdk(PROGRAM, folder, sources)
        compare(folder, (package, of_package), "java.util", listed)
        compare(folder, (module, listed), "-", listed)
        measure_package(folder, (package, of_package), "java.util", listed, MORE_OF_PACKAGE, WARM)
        measure_package(folder, (module, listed), "-", listed, MORE_OF_ALL, WARM_OF_ALL)


def main():
    global PROGRAM
    if len(sys.argv) < 2:
        sys.exit(__doc__)
    PROGRAM = os.path.abspath(sys.argv[2]) if len(sys.argv) > 2 else measured.program()
    print(f"load {os.getloadavg()[0]:.1f}")
    measure_tables()
    if jdk.is_there():
        measure_jdk(sys.argv[1])
    else:
        print("there is no JDK")


if __name__ == "__main__":
    main()
