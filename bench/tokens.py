#!/usr/bin/env python3
"""Measures the reading of a Java text's characters and of its tokens, beside a plain copy of its bytes and
beside the scanner and the parser of a JDK over the same text, in turn in one run.

    bench/tokens.py [PROGRAM]

PROGRAM is the one that bench/measured.py builds where it is left out. The time of a round is the processor
time of a run with many rounds less that of a run with few, so that what a run does once is not in it;
memory that a round gave back is kept for the next. The JDK's are warm: rounds before the measured ones are
not counted, and only the processor time of the thread that reads is. Both get the bytes of the text. Each
reads all tokens, and their numbers must be the same. The peak is that of a process with one round, the text
itself in it. Nothing but the ratios means anything on another machine, and no test depends on them.
"""
import os
import shutil
import statistics
import subprocess
import sys
import tempfile

import measured

HERE = os.path.dirname(os.path.abspath(__file__))
PROGRAM = None
SMALL, LARGE, TURNS, FEW = 1_000, 10_000, 3, 1

# How many rounds more the longer run has at LARGE; at SMALL ten times as many, so that both take as long.
MORE = {"copy": 100, "chars": 40, "tokens": 3}

# How many rounds of each step only warm the JDK up.
WARM = 4
JDK_STEPS = ("scanner", "parser")

# The C library keeps what is freed.
SETTINGS = dict(os.environ, MALLOC_TRIM_THRESHOLD_=str(4 << 30), MALLOC_MMAP_THRESHOLD_=str(1 << 30))

EXPORTS = [word for name in ("file", "parser", "util")
           for word in ("--add-exports", f"jdk.compiler/com.sun.tools.javac.{name}=ALL-UNNAMED")]


def run(step, methods, rounds, settings):
    """The processor seconds of one run, its peak memory in bytes, the bytes of a round, and the checksum."""
    seconds, peak, said = measured.run(PROGRAM, ["tokens", step, str(methods), str(rounds)], settings)
    return seconds, peak, int(said[1]), int(said[4])


def seconds_of_round(step, methods):
    more = MORE[step] * LARGE // methods
    few = run(step, methods, FEW, SETTINGS)[0]
    many = run(step, methods, FEW + more, SETTINGS)[0]
    return (many - few) / more


def start_jdk(folder, file):
    """A JDK that reads the file; None where there is none."""
    javac, java = shutil.which("javac"), shutil.which("java")
    if javac is None or java is None:
        return None
    source = os.path.join(HERE, "TokenBench.java")
    command = [javac, *EXPORTS, "-d", folder, source]
    done = subprocess.run(command, capture_output=True, text=True, check=False)
    if done.returncode != 0:
        sys.exit(f"javac ended with {done.returncode}: {done.stderr}")
    command = [java, "-Xmx2g", *EXPORTS, "-cp", folder, "TokenBench", file]
    return subprocess.Popen(command, stdin=subprocess.PIPE, stdout=subprocess.PIPE, encoding="ascii")


def round_of_jdk(jdk, step):
    """The processor time of one round in seconds, and its result."""
    jdk.stdin.write(step + "\n")
    jdk.stdin.flush()
    line = jdk.stdout.readline()
    if not line:
        sys.exit(f"the JDK ended with {jdk.wait()}")
    seconds, result = line.split()
    return float(seconds), int(result)


def warm_up(jdk, tokens):
    for _ in range(WARM):
        if round_of_jdk(jdk, "scanner")[1] != tokens:
            sys.exit("the JDK finds another number of tokens")
        round_of_jdk(jdk, "parser")


def measure(jdk):
    """The medians of a round's time, of each step at each length and of the JDK's."""
    taken = {}
    for _ in range(TURNS):
        for step in MORE:
            for methods in (SMALL, LARGE):
                taken.setdefault((step, methods), []).append(seconds_of_round(step, methods))
        for step in JDK_STEPS if jdk is not None else ():
            taken.setdefault((step, LARGE), []).append(round_of_jdk(jdk, step)[0])
    return {key: statistics.median(all_taken) for key, all_taken in taken.items()}


def speed(length, seconds):
    return f"{length / seconds / 1e6:.1f} MB/s"


def report(median, length):
    for step in MORE:
        seconds = median[step, LARGE]
        peak = run(step, LARGE, 1, os.environ)[1]
        print(f"{step}: {speed(length, seconds)}, {seconds / median['copy', LARGE]:.1f} times the copy's time, "
              f"{seconds / median[step, SMALL]:.1f} times that of {SMALL} methods, "
              f"peak {peak / length:.1f} times the text")
    both = median["chars", LARGE] + median["tokens", LARGE]
    print(f"chars and tokens: {speed(length, both)}")
    for step in JDK_STEPS:
        if (step, LARGE) in median:
            seconds = median[step, LARGE]
            print(f"the JDK's {step}: {speed(length, seconds)}, {seconds / both:.2f} times the time of chars and tokens")


def main():
    global PROGRAM
    PROGRAM = os.path.abspath(sys.argv[1]) if len(sys.argv) > 1 else measured.program()
    with tempfile.TemporaryDirectory(prefix="apt-bench-tokens-") as folder:
        file = os.path.join(folder, "Sample.java")
        with open(file, "wb") as output:
            subprocess.run([PROGRAM, "tokens", "text", str(LARGE)], stdout=output, check=True)
        length, tokens = run("tokens", LARGE, 1, os.environ)[2:]
        jdk = start_jdk(folder, file)
        if jdk is None:
            print("no JDK: its scanner and parser are left out")
        else:
            warm_up(jdk, tokens)
        print(f"a text of {LARGE} methods, {length} bytes, {tokens} tokens (medians of {TURNS})")
        report(measure(jdk), length)
        if jdk is not None:
            jdk.communicate()


if __name__ == "__main__":
    main()
