#!/usr/bin/env python3
"""Measures the reading of Java files beside the JDK's own parser over the same files, in turn in one run.

    bench/declarations.py SOURCES [PROGRAM]

SOURCES is the archive src.zip of a JDK's sources, such as that of the Debian package openjdk-17-source. Of its packages
below java.lang and java.util those files are taken that have units by the program, which are all but a few, so that both
read the same. PROGRAM is the one that bench/measured.py builds where it is left out. A round reads each file by itself:
its characters, its characters and tokens, or its characters, tokens and units. Its time is the processor time of a run
with many rounds less that of a run with few, so that what a run does once is not in it; memory that a round gave back is
kept for the next. The JDK's parser (com.sun.source) is warm: rounds before the measured ones are not counted, and only
the processor time of the thread that parses is. Both begin with the bytes of the files.

The growth is that from a text of 1,000 methods to one of 10,000, and the peak that of a process that reads the longer
one once, the text itself in it. Nothing but the ratios means anything on another machine, and no test depends on them.
"""
import os
import shutil
import statistics
import subprocess
import sys
import tempfile
import zipfile

import measured

HERE = os.path.dirname(os.path.abspath(__file__))
PROGRAM = None
PARTS = ("java.base/java/lang/", "java.base/java/util/")
STEPS = ("copy", "chars", "tokens", "units")
SMALL, LARGE, TURNS, FEW = 1_000, 10_000, 5, 1

# How many rounds more the longer run has over all files and over the long text; over the short one ten times as many.
MORE = {"copy": 100, "chars": 40, "tokens": 3, "units": 2}

# How many rounds only warm the JDK up.
WARM = 8

# The C library keeps what is freed.
SETTINGS = dict(os.environ, MALLOC_TRIM_THRESHOLD_=str(4 << 30), MALLOC_MMAP_THRESHOLD_=str(1 << 30))


def run(step, listed, rounds, settings):
    """The processor seconds of one run, its peak memory in bytes, and the bytes of a round."""
    seconds, peak, said = measured.run(PROGRAM, ["files", step, listed, str(rounds)], settings)
    return seconds, peak, int(said[1])


def seconds_of_round(step, listed, more):
    few = run(step, listed, FEW, SETTINGS)[0]
    many = run(step, listed, FEW + more, SETTINGS)[0]
    return (many - few) / more


def write_list(folder, name, paths):
    listed = os.path.join(folder, name)
    with open(listed, "w", encoding="utf-8") as file:
        file.writelines(f"{path}\n" for path in paths)
    return listed


def files_of_jdk(folder, sources):
    """A list of the files that have units, and how many there are besides."""
    with zipfile.ZipFile(sources) as archive:
        names = sorted(name for name in archive.namelist() if name.startswith(PARTS) and name.endswith(".java")
                       and not name.endswith(("/package-info.java", "/module-info.java")))
        archive.extractall(folder, names)
    every = write_list(folder, "every", (os.path.join(folder, name) for name in names))
    whole = subprocess.run([PROGRAM, "files", "whole", every], stdout=subprocess.PIPE, encoding="utf-8", check=True)
    paths = whole.stdout.splitlines()
    return write_list(folder, "files", paths), len(paths), len(names) - len(paths)


def text_of(folder, methods):
    """A list of one file, a class with this many methods."""
    path = os.path.join(folder, f"Sample{methods}.java")
    with open(path, "wb") as file:
        subprocess.run([PROGRAM, "tokens", "text", str(methods)], stdout=file, check=True)
    return write_list(folder, f"text{methods}", [path])


def start_jdk(folder, listed):
    """A JDK that parses the files; None where there is none."""
    javac, java = shutil.which("javac"), shutil.which("java")
    if javac is None or java is None:
        return None
    command = [javac, "-d", folder, os.path.join(HERE, "DeclarationBench.java")]
    done = subprocess.run(command, capture_output=True, text=True, check=False)
    if done.returncode != 0:
        sys.exit(f"javac ended with {done.returncode}: {done.stderr}")
    command = [java, "-Xmx2g", "-cp", folder, "DeclarationBench", listed]
    return subprocess.Popen(command, stdin=subprocess.PIPE, stdout=subprocess.PIPE, encoding="ascii")


def round_of_jdk(jdk, files):
    """The processor time of one round in seconds."""
    jdk.stdin.write("round\n")
    jdk.stdin.flush()
    line = jdk.stdout.readline()
    if not line:
        sys.exit(f"the JDK ended with {jdk.wait()}")
    seconds, units = line.split()
    if int(units) != files:
        sys.exit("the JDK parses another number of files")
    return float(seconds)


def measure(jdk, listed, files, short, long):
    """The medians of a round's time: of each step over all files and over both texts, and of the JDK's parser."""
    taken = {}
    for _ in range(WARM if jdk is not None else 0):
        round_of_jdk(jdk, files)
    for _ in range(TURNS):
        for step in STEPS:
            for over, more in ((listed, 1), (short, 10), (long, 1)):
                seconds = seconds_of_round(step, over, more * MORE[step])
                taken.setdefault((step, over), []).append(seconds)
        if jdk is not None:
            taken.setdefault(("parser", listed), []).append(round_of_jdk(jdk, files))
    return {key: statistics.median(all_taken) for key, all_taken in taken.items()}


def speed(length, seconds):
    return f"{length / seconds / 1e6:.1f} MB/s"


def report(median, listed, short, long):
    length = run("copy", listed, 0, os.environ)[2]
    for step in STEPS:
        _, peak, text = run(step, long, 1, os.environ)
        print(f"{step}: {speed(length, median[step, listed])} over the files, {speed(text, median[step, long])} over the "
              f"text, {median[step, long] / median[step, short]:.1f} times as long as that of {SMALL} methods, "
              f"peak {peak / text:.1f} times the text")
    if ("parser", listed) in median:
        seconds = median["parser", listed]
        print(f"the JDK's parser: {speed(length, seconds)} over the files, "
              f"{seconds / median['units', listed]:.2f} times the time of characters, tokens and units")


def main():
    global PROGRAM
    if len(sys.argv) < 2:
        sys.exit(__doc__)
    PROGRAM = os.path.abspath(sys.argv[2]) if len(sys.argv) > 2 else measured.program()
    with tempfile.TemporaryDirectory(prefix="apt-bench-declarations-") as folder:
        listed, files, others = files_of_jdk(folder, sys.argv[1])
        short, long = text_of(folder, SMALL), text_of(folder, LARGE)
        length = run("copy", listed, 0, os.environ)[2]
        print(f"{files} files of {length} bytes; {others} have no units; load {os.getloadavg()[0]:.1f}")
        jdk = start_jdk(folder, listed)
        try:
            median = measure(jdk, listed, files, short, long)
        finally:
            if jdk is not None:
                jdk.stdin.close()
                jdk.wait()
        report(median, listed, short, long)


if __name__ == "__main__":
    main()
