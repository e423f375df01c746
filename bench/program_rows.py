#!/usr/bin/env python3
"""Makes the table `program_cases`: twenty small programs, with questions on their types and the answers of javac.

    bench/program_rows.py > cases/tables/program_cases

The programs are simple ones of programs.py with 10 to 40 lines, from the seeds from 0 on that are legal for javac. Each
is entered as its Java files, beside stubs of what it uses of the JDK. ProgramBench.java asks the questions of `javax.lang.model`,
and says which are not asked since the definitions differ from javac there. Of a program with many questions of one kind each second,
third or further one is taken, so that no more than MOST are left.
"""
import os
import re
import tempfile

import jdk
import programs
import questions

PROGRAMS, FEWEST, LONGEST, MOST = 20, 10, 40, 8


def word(text):
    """The text as one word of a table."""
    spelled = "".join(f"%{ord(letter):02X}" if letter in "%*()" else letter for letter in " ".join(text.split()))
    return spelled.replace(" ", "%20")


def rows_of(javac, listed):
    """The rows of a program, behind which javac has an empty line."""
    javac.stdin.write(f"{listed}\n")
    javac.stdin.flush()
    return list(iter(lambda: javac.stdout.readline().rstrip("\n"), ""))


def next_program(legal, fewest):
    """The next legal program that is no longer than it may be: its seed, its texts and the number of its lines."""
    while True:
        seed, texts = legal.next(fewest, True)
        lines = sum(text.count("\n") for text in texts.values())
        if lines <= LONGEST:
            return seed, texts, lines


def some(rows):
    """At most so many rows of each call, as far from each other as may be, each once."""
    by_call = {}
    for row in dict.fromkeys(rows):
        by_call.setdefault(row.split(" ")[0], []).append(row)
    return [row for each in by_call.values() for row in each[::-(-len(each) // MOST)]]


def stub_rows(texts):
    """Those that enter the types of the JDK that the program names, and that these name."""
    simple_names = {name: name.rpartition(".")[2] for name in programs.STUBS}
    named, former = {"Object", *re.findall(r"\w+", " ".join(texts.values()))}, None
    while named != former:
        former = set(named)
        named.update(*(re.findall(r"\w+", text) for name, text in programs.STUBS.items() if simple_names[name] in former))
    for name, text in programs.STUBS.items():
        package = name.rpartition(".")[0]
        if simple_names[name] in named:
            yield f"stub_file {word(f'package {package}; {text}')} = done"


def main():
    print("# Programs of several files, made by bench/programs.py, with the answers of javac (bench/program_rows.py).")
    with tempfile.TemporaryDirectory(prefix="apt-bench-rows-") as folder:
        legal = questions.Legal(folder)
        javac = jdk.start(folder, ["-XX:+UseSerialGC", "ProgramBench", "rows"])
        for number in range(PROGRAMS):
            seed, texts, lines = next_program(legal, FEWEST + number)
            print(f"\n# Seed {seed}: {len(texts)} files, {lines} lines.\nempty = done")
            files = [f"file {word(text)} = done" for text in texts.values()]
            rows = some(rows_of(javac, os.path.join(legal.files_of(seed), "files")))
            print("\n".join([*stub_rows(texts), *files, *rows]))
        jdk.end(javac)
        legal.end()


if __name__ == "__main__":
    main()
