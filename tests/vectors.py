#!/usr/bin/env python3
"""Runs the built program of the tables of cases on words, and compares what it prints and its exit status.

    tests/vectors.py [PROGRAM]

PROGRAM is crates/apt_vectors/out/apt_vectors where it is left out. Each case prints a line. The first that fails ends the run with status 1.
"""
import os
import resource
import subprocess
import sys

from host import SECONDS

PROGRAM = os.path.join(os.path.dirname(os.path.abspath(__file__)), "..", "crates", "apt_vectors", "out", "apt_vectors")

TOKENS = b"tokens: passed\n"
FRAMES = b"frames: passed\n"
REFUSED = b"refused\n"

# The words of a call, what is printed, and the exit status.
CASES = [
    ([], TOKENS + FRAMES, 0),
    (["--table", "tokens"], TOKENS, 0),
    (["--table=tokens"], TOKENS, 0),
    (["--table", "frames"], FRAMES, 0),
    (["--table=frames"], FRAMES, 0),
    (["--table", "other"], REFUSED, 2),
    (["--table", ""], REFUSED, 2),
    (["--table"], REFUSED, 2),
    (["--table", "tokens", "--table", "tokens"], REFUSED, 2),
    (["--table", "tokens", "--table", "frames"], REFUSED, 2),
    (["--table", "tokens", "tokens"], REFUSED, 2),
    (["--table", "tokens", "frames"], REFUSED, 2),
    (["tokens"], REFUSED, 2),
    (["frames"], REFUSED, 2),
    (["--other"], REFUSED, 2),
    (["--help"], REFUSED, 2),
    ([b"--table=\xff"], REFUSED, 2),
]

# The exit status where nothing can be printed.
UNPRINTED = [([], 1), (["--table", "tokens"], 1), (["--help"], 2)]


# The exit status when memory runs out, and the limits of the address space, in KiB, at one of which it is to come: below them
# the program does not start, and above them it has all that it wants.
MEMORY = 3
LIMITS = range(512, 65_536, 16)


def runs_within(program, kibibytes):
    """What the program prints without words where its address space is limited, and its exit status."""
    most = kibibytes << 10

    def limit():
        resource.setrlimit(resource.RLIMIT_AS, (most, most))

    try:
        run = subprocess.run([program], stdout=subprocess.PIPE, stderr=subprocess.DEVNULL, timeout=SECONDS,
                             check=False, preexec_fn=limit)
    except (OSError, subprocess.SubprocessError):
        return None
    return run.stdout, run.returncode


def test_want_of_memory(program):
    """Without memory for all of it the program prints nothing and answers so; what ends it before it begins is passed over."""
    met = False
    for kibibytes in LIMITS:
        seen = runs_within(program, kibibytes)
        if seen == (TOKENS + FRAMES, 0):
            break
        if seen is not None and seen[1] >= 0 and seen[1] != 127:
            if seen != (b"", MEMORY):
                failed([], seen, (b"", MEMORY))
            met = True
    if not met:
        failed([], "no want of memory", (b"", MEMORY))
    print("no words, without memory: ok")


def shown(words):
    return " ".join(word if isinstance(word, str) else repr(word) for word in words) or "no words"


def failed(words, seen, wanted):
    print(f"{shown(words)}: FAILED: {seen!r}, and not {wanted!r}")
    sys.exit(1)


def main():
    program = sys.argv[1] if len(sys.argv) > 1 else PROGRAM
    if not os.path.exists(program):
        sys.exit(f"there is no program {program}: build it by 'rt run' in crates/apt_vectors")
    for words, output, status in CASES:
        run = subprocess.run([program, *words], stdout=subprocess.PIPE, timeout=SECONDS, check=False)
        if (run.stdout, run.returncode) != (output, status):
            failed(words, (run.stdout, run.returncode), (output, status))
        print(f"{shown(words)}: ok")
    for words, status in UNPRINTED:
        with open("/dev/full", "wb") as full:
            run = subprocess.run([program, *words], stdout=full, timeout=SECONDS, check=False)
        if run.returncode != status:
            failed(words, run.returncode, status)
        print(f"{shown(words)}, unprinted: ok")
    test_want_of_memory(program)
    print(f"vectors: {len(CASES) + len(UNPRINTED) + 1} passed, 0 failed")


if __name__ == "__main__":
    main()
