#!/usr/bin/env python3
"""Measures questions on subtypes over the declarations of the JDK's java.util, over a chain of 64 classes, and over ten and
twenty diamonds of interfaces, beside `Types` of `javax.lang.model.util` over the same declarations, in turn in one run.

    bench/subtypes.py SOURCES [PROGRAM]

SOURCES is the archive src.zip of a JDK's sources, such as that of the Debian package openjdk-17-source. PROGRAM is the one
that bench/measured.py builds where it is left out. The time of a round of it is the processor time of a run with many
rounds less that of a run with few, so that what a run does once, as making the table and the questions, is not in it.

The program is asked in three ways:

- Warm: one value of `Questions` has a number for each type and is asked by these numbers again and again, as javac is asked
  on type mirrors that are made once. Both sides have been asked all questions before a round counts, and remember: the
  program the direct supertypes of each type that a search came to, and the answer to each question; javac the supertypes of
  each type, and no answers.
- Each once: every round has a new value, to which both types of a question are added before it is asked. Nothing is
  remembered from an earlier round.
- By calls: each question is one call of `is_subtype`, which remembers nothing of the one before.

Of java.util each type, with its own type parameters as arguments, is asked against each supertype that it reaches, as it is
reached, erased, and with each argument as the upper bound of a wildcard; and against ten other types of the package, of
which each second one is erased. The program has all files of the JDK's module java.base in its table that jdk.py leaves;
javac enters those of java.util and takes the other packages from the JDK's class files. Its processor makes the questions
once and asks them again and again; the JVM is warm, and only the processor time of the thread that asks is counted. Besides,
the times of a new javac are given in the warm JVM: to enter the declarations, to make the questions, for which it looks the
supertypes up, and to ask each of them once.

In a chain the lowest class is asked against the highest one. In diamonds, in which one interface stands on two, and these on
one below them again, the lowest one is asked against the highest one and against one that is not above it. Each has a form
without type parameters and one in which each header hands its type parameter on. All are asked by calls, chains also warm.
The growth is that of the time of a call from ten diamonds to twenty.

The answers of both sides are compared, question by question. What is asked by one of them alone, and which answers differ,
is printed, the first of these in words. So is each question to which the program has more than one answer: that of a call,
and two of one value, which is asked all questions and then all of them again. Nothing but the ratios means anything on
another machine, and no test depends on them.
"""
import os
import statistics
import subprocess
import sys
import tempfile

import jdk
import measured

PROGRAM = None
TURNS, FEW = 5, 1
CHAIN, DIAMONDS, GOAL, GROWTH = 64, (10, 20), 1, 3

# What each way of asking is called, and how many seconds the rounds take at least by which the longer run over java.util has more. By calls one round takes most of a second.
WAYS = {"again": ("warm, by numbers", 2), "anew": ("each once, of a new value", 2), "calls": ("by calls", 0.3)}

# The same over a sample, and for a processor.
LEAST = 0.3

# How many times a processor asks rounds that take long enough, and how many new javacs there are, only to warm the JDK up.
WARM, WARM_NEW = 2, 20

# How many differences are printed.
TOLD = 20

# The C library keeps what is freed.
SETTINGS = dict(os.environ, MALLOC_TRIM_THRESHOLD_=str(4 << 30), MALLOC_MMAP_THRESHOLD_=str(1 << 30))


# ---- samples


def declared(kind, form, numbers):
    """A type of the sample, its header's type parameter, and what it stands on."""
    names = [f"{name}{form}" for name in numbers]
    return f"{kind} {names[0]}" + (f" extends {', '.join(names[1:])}" if len(names) > 1 else "") + " {}\n"


def chain(form):
    types = [declared("class", form, [f"C{at}", f"C{at + 1}"]) for at in range(CHAIN - 1)]
    return [*types, declared("class", form, [f"C{CHAIN - 1}"])]


def diamonds(form, count):
    types = []
    for at in range(count):
        types.append(declared("interface", form, [f"D{at}", f"L{at}", f"R{at}"]))
        types += [declared("interface", form, [f"{side}{at}", f"D{at + 1}"]) for side in "LR"]
    return [*types, declared("interface", form, [f"D{count}"]), declared("interface", form, ["Aside"])]


def write_sample(folder, name, form, types, asked):
    """A folder with the sample, in which the types of two fields are what is asked, and a list of its file."""
    argument = form.replace("T", "Given")
    fields = [f"    {asked[0]}{argument} of;\n", f"    {asked[1]}{argument} above;\n"]
    below = os.path.join(folder, name)
    os.makedirs(os.path.join(below, "sample"))
    path = os.path.join(below, "sample", "Asked.java")
    with open(path, "w", encoding="ascii") as file:
        file.writelines(["package sample;\n", *types, "class Given {}\n", "class Asked {\n", *fields, "}\n"])
    return below, jdk.write_list(folder, name + "-files", [path])


# ---- both sides


def rounds_of(seconds_of, least):
    """How many rounds take as long as that."""
    rounds = 1
    while seconds_of(rounds) < least:
        rounds *= 4
    return rounds


class Program:
    """The program, asked in a way the questions of a step on a package of the files of a list."""

    def __init__(self, way, asked, least):
        self.way, self.words = way, ["subtypes", way, *asked]
        _, _, said = self.run(FEW)
        self.questions, self.checksum = int(said[1]), int(said[4])
        few = self.take(FEW)
        self.more = rounds_of(lambda more: self.take(FEW + more) - few, least)

    def run(self, rounds):
        return measured.run(PROGRAM, [*self.words, str(rounds)], SETTINGS)

    def take(self, rounds):
        """The processor seconds of a run, in which each round gives the same answers."""
        seconds, _, said = self.run(rounds)
        if int(said[4]) * FEW != self.checksum * rounds:
            sys.exit(f"{' '.join(self.words)}: a round has other answers than the one before")
        return seconds

    def seconds(self):
        """What a question takes."""
        few = self.take(FEW)
        return (self.take(FEW + self.more) - few) / self.more / self.questions


class Processor:
    """A processor in a running javac, asked the same."""

    def __init__(self, folder, step, below, listed):
        self.javac = jdk.start(folder, ["SubtypeBench", "rounds", step, below, listed])
        self.rounds = rounds_of(self.take, LEAST)
        for _ in range(WARM):
            self.take(self.rounds)

    def take(self, rounds):
        seconds, questions, _ = jdk.ask(self.javac, rounds)
        self.questions = int(questions)
        return float(seconds)

    def seconds(self):
        return self.take(self.rounds) / self.rounds / self.questions

    def end(self):
        jdk.end(self.javac)


def measure(sides):
    """The median of the seconds that a question takes on each side, in turn."""
    taken = [[side.seconds() for side in sides] for _ in range(TURNS)]
    return [statistics.median(each) for each in zip(*taken)]


def report(programs, processor):
    """Prints the questions a second of the program in each way and of the processor, and gives the seconds that each takes for one."""
    *ours, theirs = measure([*programs, processor])
    print(f"  javac, warm: {1 / theirs:,.0f} questions a second (load {os.getloadavg()[0]:.1f})")
    for program, taken in zip(programs, ours):
        goal = f" (goal: at least {GOAL})" if program.way == "again" else ""
        print(f"  {WAYS[program.way][0]}: {1 / taken:,.0f} questions a second, {theirs / taken:.4f} times as many{goal}", flush=True)
    return ours, theirs


# ---- answers


def answers(words):
    """The answers to each question, by its two types in words."""
    done = subprocess.run(words, stdout=subprocess.PIPE, encoding="utf-8", check=True)
    found = {}
    for line in done.stdout.splitlines():
        of, above, *given = line.split("\t")
        found.setdefault((of, above), []).extend(given)
    return found


def tell(lines):
    for line in lines[:TOLD]:
        print(f"  {line}")


def compare(name, folder, step, package, listed, of_jdk):
    """Prints which answers are different for the program and for javac, or are not the same each time."""
    ours = answers([PROGRAM, "subtypes", "said", step, package, listed])
    theirs = answers(jdk.java(folder, ["SubtypeBench", "said", step, *of_jdk]))
    both, alone = ours.keys() & theirs.keys(), sorted(ours.keys() ^ theirs.keys())
    torn = [f"{' | '.join(asked)}: {', '.join(given)}" for asked, given in [*ours.items(), *theirs.items()] if len(set(given)) > 1]
    faults = sum(ours[asked][0] not in ("yes", "no") for asked in both)
    others = sorted(asked for asked in both if ours[asked][0] in ("yes", "no") and ours[asked][0] != theirs[asked][0])
    yes = sum(given[0] == "yes" for given in ours.values())
    print(f"{name}: {len(both)} questions are asked by both, {len(ours) - len(both)} by the program alone and {len(theirs) - len(both)} by javac "
          f"alone; {yes} are answered by yes, {faults} by a fault, and {len(others)} otherwise than by javac; "
          f"{len(torn)} have more than one answer{', which is a fault' if torn else ''}")
    tell(torn)
    tell([f"{' | '.join(asked)}: {ours[asked][0]}; javac {theirs[asked][0]}" for asked in others])
    tell([f"{' | '.join(asked)}: {'the program' if asked in ours else 'javac'} alone" for asked in alone])


# ---- what is measured


def measure_new(folder, of_jdk):
    """The seconds in which a new javac enters the declarations, makes the questions and asks each once, and how many there are."""
    javac = jdk.start(folder, ["SubtypeBench", "fresh", "declared", *of_jdk])
    try:
        for _ in range(WARM_NEW):
            jdk.ask(javac, "round")
        taken = [jdk.ask(javac, "round") for _ in range(TURNS)]
    finally:
        jdk.end(javac)
    return [statistics.median(map(float, each)) for each in list(zip(*taken))[:3]], int(taken[0][3])


def report_new(folder, of_jdk, programs, ours):
    """Prints these, and how many times as long they are as a round of the program in each way that looks up anew."""
    parts, questions = measure_new(folder, of_jdk)
    entering, making, asking = (1e3 * each for each in parts)
    print(f"  a new javac enters the declarations in {entering:.1f} ms, makes {questions} questions in {making:.1f} ms and asks each once in {asking:.1f} ms, "
          f"together {1e3 * sum(parts):.1f} ms (load {os.getloadavg()[0]:.1f})")
    for program, taken in zip(programs, ours):
        if program.way != "again":
            round_of = taken * program.questions
            print(f"  that is {sum(parts) / round_of:.4f} times the time of the program, {WAYS[program.way][0]}: {1e3 * round_of:.1f} ms", flush=True)


def measure_package(folder, sources):
    _, listed, *of_package = jdk.files_of_jdk(PROGRAM, folder, sources)
    compare("java.util", folder, "declared", "java.util", listed, of_package)
    programs = [Program(way, ("declared", "java.util", listed), least) for way, (_, least) in WAYS.items()]
    processor = Processor(folder, "declared", *of_package)
    try:
        ours, _ = report(programs, processor)
    finally:
        processor.end()
    report_new(folder, of_package, programs, ours)


def measure_sample(folder, name, form, types, asked, ways):
    """The seconds of the program in the first way, and those of javac."""
    below, listed = write_sample(folder, name.replace(" ", "-").replace(",", ""), form, types, asked)
    compare(name, folder, "fields", "sample", listed, (below, listed))
    programs = [Program(way, ("fields", "sample", listed), LEAST) for way in ways]
    processor = Processor(folder, "fields", below, listed)
    try:
        ours, theirs = report(programs, processor)
    finally:
        processor.end()
    return ours[0], theirs


def measure_samples(folder):
    for form, called in (("", ""), ("<T>", "generic ")):
        measure_sample(folder, f"{called}chain of {CHAIN}", form, chain(form), ("C0", f"C{CHAIN - 1}"), ("calls", "again"))
        for held in (True, False):
            taken = []
            for count in DIAMONDS:
                name = f"{count} {called}diamonds, {'the highest one' if held else 'one that is not above'}"
                above = f"D{count}" if held else "Aside"
                taken.append(measure_sample(folder, name, form, diamonds(form, count), ("D0", above), ("calls",)))
            growth, of_javac = (more / fewer for fewer, more in zip(*taken))
            print(f"  by calls {DIAMONDS[1]} diamonds take {growth:.2f} times as long as {DIAMONDS[0]} (goal: at most {GROWTH}); of javac {of_javac:.2f} times")


def main():
    global PROGRAM
    if len(sys.argv) < 2:
        sys.exit(__doc__)
    PROGRAM = os.path.abspath(sys.argv[2]) if len(sys.argv) > 2 else measured.program()
    if not jdk.is_there():
        sys.exit("there is no JDK")
    with tempfile.TemporaryDirectory(prefix="apt-bench-subtypes-") as folder:
        jdk.compile_all(folder)
        print(f"load {os.getloadavg()[0]:.1f}")
        measure_package(folder, sys.argv[1])
        measure_samples(folder)


if __name__ == "__main__":
    main()
