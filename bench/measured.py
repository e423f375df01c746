#!/usr/bin/env python3
"""Builds the program that declarations.py, frames.py, names.py, questions.py, records.py, shapes.py, subtypes.py and tokens.py measure, where it is not built yet, and prints its path.

    bench/measured.py [--unproved]

The program measures the library and is no part of it, so its sources stand in bench/measured and not among the crates:
the gate proves and builds what stands there, and takes no other file of the language, so these end in .rattle. To build
the program, a temporary repository gets copies of it and of the crates below it, and `rt ci` is called there. That takes
over what an earlier `rt ci` on this machine has proved of the same files, as the gate of this repository does. With all
crates below kept it proves the program alone, which takes minutes; else it proves each of them first.

With --unproved the program is lowered without proofs instead, and optimised, as the program of cases is. That takes some
minutes, whatever is kept. Unlike a proved program it tests each index and each sum while it runs.

The built program is kept in bench/built until a file that it is made of changes, the unproved one beside the other.
"""
import os
import shutil
import subprocess
import sys
import tempfile

HERE = os.path.dirname(os.path.abspath(__file__))
sys.path.append(os.path.join(HERE, "..", "tools"))

from laid_out import checksum, kept_checksum, lay_out  # noqa: E402
from lowered import compile_module, kit, lower  # noqa: E402

SOURCES = os.path.join(HERE, "measured")
BUILT = os.path.join(HERE, "built")
NAME = "measured"
UNPROVED = "unproved"

# The crates that the program names.
USED = [
    "apt_base", "decl_tree", "decl_syntax", "decl_parser", "element_table", "type_mirror", "type_layers", "type_resolve", "type_memory", "type_queries",
    "java_tokens", "wire_frames", "frame_stream", "origin_record",
]

# The words with which `rt ci` runs the program, which is to print nothing then.
PRINTS_NOTHING = ["files", "whole", os.devnull]


def keep(built, name, made_of):
    """Keeps a built program under this name, with the checksum of what it is made of."""
    each = subprocess.run([built], stdout=subprocess.DEVNULL, check=False)
    if each.returncode != 0:
        sys.exit(f"bench/measured does not run: it ended with status {each.returncode}")
    os.makedirs(BUILT, exist_ok=True)
    shutil.copy(built, os.path.join(BUILT, name))
    with open(os.path.join(BUILT, name + ".checksum"), "w", encoding="ascii") as file:
        file.write(made_of)


def prove(repository):
    """Builds the proved program, and gives its path."""
    ci = subprocess.run(["rt", "ci"], cwd=repository, stdout=sys.stderr, check=False)
    if ci.returncode != 0:
        sys.exit(f"bench/measured was not built: rt ended with status {ci.returncode}")
    return os.path.join(repository, "crates", NAME, "out", NAME)


def optimise(repository, inner):
    """Builds the unproved program, and gives its path."""
    folder, rtlib = kit()
    return compile_module(folder, lower(folder, rtlib, repository, NAME, inner), NAME, "-O3", inner)


def program(name=NAME):
    """The path of the built program, the unproved one where that is the name."""
    with tempfile.TemporaryDirectory(prefix="apt-bench-measured-") as folder:
        repository, inner = os.path.join(folder, "repository"), os.path.join(folder, "inner")
        os.makedirs(inner)
        crate = lay_out(repository, NAME, SOURCES, USED)
        with open(os.path.join(crate, "args"), "w", encoding="ascii") as file:
            file.writelines(f"{word}\n" for word in PRINTS_NOTHING)
        made_of = checksum(repository)
        if made_of != kept_checksum(os.path.join(BUILT, name + ".checksum")):
            keep(optimise(repository, inner) if name == UNPROVED else prove(repository), name, made_of)
    return os.path.join(BUILT, name)


def run(built, words, settings):
    """One run of the built program with these words: its processor time in seconds, its peak memory in bytes, and the words that it prints."""
    step = words[1]
    reading, writing = os.pipe()
    child = os.fork()
    if child == 0:
        os.dup2(writing, 1)
        os.execve(built, [built, *words], settings)
    os.close(writing)
    with os.fdopen(reading, encoding="ascii") as output:
        line = output.read()
    _, status, used = os.wait4(child, 0)
    if status != 0 or not line.startswith(step + ": "):
        sys.exit(f"{' '.join(words)} ended with {status}: {line}")
    return used.ru_utime + used.ru_stime, used.ru_maxrss * 1024, line.split()


def main():
    print(program(UNPROVED if sys.argv[1:] == ["--unproved"] else NAME))


if __name__ == "__main__":
    main()
