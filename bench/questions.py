#!/usr/bin/env python3
"""Measures single questions on types: how long the longest of them takes, and that each is answered in time.

    bench/questions.py [--program PATH] [--sources ARCHIVE] [--programs COUNT] [PART..]

PART is `programs`, `util`, `forms` or the name of a form; all are measured where none is named. PATH is the program that
bench/measured.py builds without proofs where it is left out. It has the types of some Java files in one table, is asked by a line
for each question, and answers it before the next one. A question's time is the processor time that the program takes from one to
the other, so that what it does once, as reading the files, is not in it. Nothing is remembered from one question to the next. What
is asked is the type of a field or of a method, the superclass and the interfaces of a type, all members of a type, and whether a
type is a subtype of another one. A question that is not answered within 20 seconds of the processor is given up, and a program
after 60.

- `forms` are programs of one form each, which grow in one number. A line has the milliseconds of one question, the median of five
  where one takes less than half a second, its answer, as which power of the number the time grew from the line before, and the aim.
  Some forms are no legal programs, but tables that someone may make.
- `programs` are those of programs.py, of some 200 lines each in several files, from the seeds from 0 on, without those to which
  javac has an error. Over each all fields, methods, headers and members are asked, and each type against each other one. A line
  has the slowest question of each program, the last one how many programs have no question above the aim.
- `util` is the package java.util of the JDK's sources, ARCHIVE as src.zip of the Debian package openjdk-17-source, in a table of
  all packages below java whose files have units. Each type is asked against ten others.

The aims: a form grows at most with the square of its number, a question over 32 files in a circle takes at most 20 ms, one over
400 overloads at most a second, one over a program at most 50 ms, one over java.util at most 1 ms on average, and none more than
2 seconds, also one that is answered by out of memory. The milliseconds hang on the machine and on its other work.
"""
import argparse
import math
import os
import select
import statistics
import subprocess
import sys
import tempfile
import time
import zipfile

import jdk
import measured
import programs

# Seconds of the processor after which a question is given up, and those that none is to take; over forms of the largest number, over
# the programs, and over java.util on average.
LIMIT, LONGEST = 20, 2
GOALS = {"circle": 0.02, "overloads": 1}
OF_PROGRAM, OF_UTIL = 0.05, 0.001
GROWTH = 2

# How often a question is asked that takes less than so many seconds, and the seconds of all questions over a program after which it
# is given up.
TURNS, SHORT, MOST_OF_PROGRAM = 5, 0.5, 60

COUNT, LINES = 245, 200

# Of how many other types a type of java.util is asked, and how far these stand from each other.
OTHERS, APART = 10, 37

PARTS = ("forms", "programs", "util")
BELOW = "java.base/java/"
PROGRAM = None


# ---- the program


class Table:
    """A running program with the declarations of some files, of which those of one package are asked about."""

    def __init__(self, package, listed):
        self.words = [PROGRAM, "questions", package, listed]
        self.start()

    def start(self):
        self.running = subprocess.Popen(self.words, stdin=subprocess.PIPE, stdout=subprocess.PIPE)
        # The number of the clock of another process's processor time (clock_getcpuclockid).
        self.clock = (~self.running.pid << 3) | 2

    def is_silent(self, before):
        """Whether no answer comes within the limit."""
        while not select.select([self.running.stdout], [], [], 0.05)[0]:
            if time.clock_gettime(self.clock) - before > LIMIT:
                return True
        return False

    def ask(self, line):
        """The answer and the seconds of the processor that it took. Without one the program is begun anew."""
        before = time.clock_gettime(self.clock)
        self.running.stdin.write(f"{line}\n".encode())
        self.running.stdin.flush()
        if self.is_silent(before):
            self.running.kill()
            self.running.wait()
            self.start()
            self.counts()
            return None, LIMIT
        answer = self.running.stdout.readline().decode().strip()
        if not answer:
            sys.exit(f"{' '.join(self.words)} ended at {line} with status {self.running.wait()}")
        return answer, time.clock_gettime(self.clock) - before

    def median(self, line):
        """The same of several turns, where it takes little time."""
        answer, seconds = self.ask(line)
        if seconds < SHORT:
            seconds = statistics.median(self.ask(line)[1] for _ in range(TURNS))
        return answer, seconds

    def counts(self):
        """How many fields, methods and types there are. The first answer comes when all files are read."""
        self.running.stdin.write(b"counts\n")
        self.running.stdin.flush()
        answer = self.running.stdout.readline().split()
        if not answer:
            sys.exit(f"{' '.join(self.words)} ended with status {self.running.wait()}")
        return [int(number) for number in answer[1:]]

    def end(self):
        self.running.stdin.close()
        self.running.wait()


def written(folder, texts):
    """A list of files with these texts, which are written below a folder."""
    paths = []
    for path, text in texts.items():
        paths.append(os.path.join(folder, path))
        os.makedirs(os.path.dirname(paths[-1]), exist_ok=True)
        with open(paths[-1], "w", encoding="utf-8") as file:
            file.write(text)
    return jdk.write_list(folder, "files", paths)


def table(folder, package, texts):
    """A table of files with these texts and of the stubs."""
    stubs = {f"{name.replace('.', '/')}.java": f"package {name.rpartition('.')[0]};\n{text}\n" for name, text in programs.STUBS.items()}
    return Table(package, written(folder, {**stubs, **texts}))


def shown(answer, seconds):
    return f"{seconds * 1e3:,.2f} ms ({answer})" if answer is not None else f"no answer in {LIMIT} s"


# ---- forms: the files of a program with a number, of which the package `p` is asked about


def circle(number):
    """Files that import each other's member types in a circle."""
    texts = {}
    for at in range(number):
        imports = "".join(f"import static p.C{other}.*;\n" for other in range(number) if other != at)
        texts[f"p/C{at}.java"] = f"package p;\n{imports}public class C{at} implements Comparable<C{at}>, Cloneable {{ String name; }}\n"
    return texts


def one_line(number, line):
    """A file with this line, of which a member type has supertypes that an import on demand names, as the line might."""
    kinds = {f"o/B{at}.java": f"package o;\npublic {'interface' if at else 'class'} B{at} {{}}\n" for at in range(number)}
    interfaces = ", ".join(f"B{at}" for at in range(1, number))
    member = f"public static class L0 extends B0{' implements ' + interfaces if interfaces else ''} {{}}"
    return {**kinds, "p/G0.java": f"package p;\nimport o.*;\n{line}public class G0 {{ String name; {member} }}\n"}


def headers(number):
    """Interfaces whose headers name what each other's headers may inherit."""
    texts = {}
    for at in range(number):
        above = ", ".join(f"I{other}.X{other}" for other in range(number) if other != at)
        texts[f"p/I{at}.java"] = f"package p;\ninterface I{at} extends {above} {{}}\n"
    return texts


def classes(above, below):
    """A class of another package with these members, and one that extends it, which is asked about."""
    return {"o/A.java": f"package o;\npublic class A {{\n{above}}}\n", "p/B.java": f"package p;\nimport o.*;\npublic class B extends A {{\n{below}}}\n"}


def overloads(number, fields=""):
    """Methods of one name in a class, which are all overridden in another one."""
    methods = "".join(f"public void m(K{at} of) {{}}\n" for at in range(number))
    kinds = {f"o/K{at}.java": f"package o;\npublic class K{at} {{}}\n" for at in range(number)}
    return {**kinds, **classes(fields + methods, methods)}


def beside_fields(number):
    """40 of them beside so many fields."""
    return overloads(40, "".join(f"public int f{at};\n" for at in range(number)))


def interfaces(number, parameter):
    """A class of interfaces with a method each: all of one name."""
    texts = {f"o/I{at}.java": f"package o;\npublic interface I{at} {{ void m({parameter.format(at)}); }}\n" for at in range(number)}
    kinds = {f"o/K{at}.java": f"package o;\npublic class K{at} {{}}\n" for at in range(number)}
    above = ", ".join(f"I{at}" for at in range(number))
    return {**texts, **kinds, "p/C.java": f"package p;\nimport o.*;\npublic abstract class C implements {above} {{}}\n"}


def all_hidden(number):
    """Fields and as many methods, all of which are hidden or overridden."""
    members = "".join(f"public int f{at};\npublic void m{at}() {{}}\n" for at in range(number))
    return classes(members, members)


LINE = "import static p.G0.L0.*;"

# Each form: its name, what it is with a number, its files, the numbers, and the questions.
FORMS = [
    ("circle", "{} files that import each other's member types", circle, (2, 4, 8, 16, 32), ("field 0", "header 0")),
    ("no_line", f"a file `p.G0` without `{LINE}`, supertypes of `L0`: {{}}", lambda number: one_line(number, ""), (1, 2, 4, 8), ("field 0", "header 1")),
    ("one_line", "the same with this line: {}", lambda number: one_line(number, LINE + "\n"), (1, 2, 4, 8), ("field 0", "header 1")),
    ("headers", "{} interfaces that inherit from each other's member types", headers, (12, 16, 24, 32), ("header 0",)),
    ("overloads", "{} overloads, overridden", overloads, (50, 100, 200, 400), ("members 0",)),
    ("beside_fields", "40 overloads, overridden, beside {} fields", beside_fields, (5_000, 10_000, 20_000), ("members 0",)),
    ("interfaces", "{} interfaces with a method each, of one signature", lambda number: interfaces(number, ""), (100, 200, 400), ("members 0",)),
    ("named_interfaces", "{} interfaces with a method each, of one name and other parameters", lambda number: interfaces(number, "K{} of"), (50, 100, 200, 400), ("members 0",)),
    ("all_hidden", "{} fields and as many methods, all hidden or overridden", all_hidden, (2_000, 4_000, 8_000), ("members 0",)),
]


def goal_of(name, number):
    """The aim of the form's largest number, or of any."""
    if name == "circle" and number == 32 or name == "overloads" and number == 400:
        return GOALS[name]
    return LONGEST


def growth(before, after):
    """As which power of the number the time grows from one number to the next."""
    return math.log(after[1] / before[1]) / math.log(after[0] / before[0])


def power_told(former, number, answer, seconds):
    """The growth, where both are known and there is something to measure."""
    if former is None or answer is None or former[0] == 0 or min(former[1], seconds) < 0.0001:
        return "-"
    return f"{growth(former, (number, seconds)):.2f}"


def measure_form(name, told, texts_of, numbers, questions):
    former = dict.fromkeys(questions)
    for number in numbers:
        with tempfile.TemporaryDirectory(prefix="apt-bench-questions-") as folder:
            asked = table(folder, "p", texts_of(number))
            asked.counts()
            is_given_up = False
            for question in questions:
                answer, seconds = asked.median(question)
                power = power_told(former[question], number, answer, seconds)
                former[question] = None if answer is None else (number, seconds)
                print(f"| {told.format(f'{number:,}')} | {question.split()[0]} | {shown(answer, seconds)} | {power} | at most {goal_of(name, number) * 1e3:,.0f} ms |", flush=True)
                is_given_up = is_given_up or answer is None
            asked.end()
        if is_given_up:
            return


def measure_forms(forms):
    print(f"\n| Form | Question | One question | Grows as the power | Aim (the power: at most {GROWTH}) |\n|---|---|---|---|---|")
    for form in forms:
        measure_form(*form)


# ---- programs


class Legal:
    """The programs of seeds from 0 on to which javac has no error."""

    def __init__(self, folder):
        self.folder, self.seed, self.refused = folder, 0, 0
        jdk.compile_some(folder, ("Javac", "ElementWords", "ProgramBench"))
        self.javac = jdk.start(folder, ["-XX:+UseSerialGC", "ProgramBench", "legal"])

    def files_of(self, seed):
        """The folder of the program of a seed."""
        return os.path.join(self.folder, "legal", str(seed))

    def next(self, lines, is_simple=False):
        """The next seed with its program's texts."""
        while True:
            seed, texts = self.seed, programs.Program(self.seed, lines, is_simple).texts()
            self.seed += 1
            listed = written(self.files_of(seed), texts)
            if jdk.ask(self.javac, listed) == ["0"]:
                return seed, texts
            self.refused += 1

    def end(self):
        jdk.end(self.javac)


def questions_of(counts):
    """All questions on so many fields, methods and types."""
    fields, methods, types = counts
    for kind, count in (("field", fields), ("method", methods), ("header", types), ("members", types)):
        yield from (f"{kind} {number}" for number in range(count))
    yield from (f"subtype {of} {above}" for of in range(types) for above in range(types) if of != above)


class Asked:
    """What questions over one table took: the seconds of each kind, the slowest one, and how many had no answer."""

    def __init__(self):
        self.taken, self.slowest, self.unanswered, self.is_given_up = {}, ("none", 0, ""), 0, False

    def ask_all(self, of, questions, most):
        """Asks until all together took so many seconds."""
        left = most
        for question in questions:
            if left < 0:
                self.is_given_up = True
                return
            answer, seconds = of.ask(question)
            left -= seconds
            self.taken.setdefault(question.split()[0], []).append(seconds)
            self.unanswered += answer is None
            if seconds > self.slowest[1]:
                self.slowest = question, seconds, answer

    def count(self):
        return sum(map(len, self.taken.values()))

    def slowest_told(self):
        question, seconds, answer = self.slowest
        return f"the slowest `{question}` {shown(answer, seconds)}"


def measure_program(folder, number, seed, texts):
    """What its questions took. Prints a line."""
    asked, of = Asked(), table(folder, "-", texts)
    asked.ask_all(of, questions_of(of.counts()), MOST_OF_PROGRAM)
    of.end()
    lines = sum(text.count("\n") for text in texts.values())
    given_up = f", given up after {MOST_OF_PROGRAM} s" if asked.is_given_up else ""
    print(f"program {number} (seed {seed}): {len(texts)} files, {lines} lines, {asked.count()} questions, {asked.slowest_told()}{given_up}", flush=True)
    return asked


def measure_programs(count):
    with tempfile.TemporaryDirectory(prefix="apt-bench-questions-") as folder:
        legal = Legal(folder)
        asked = [measure_program(os.path.join(folder, str(number)), number, *legal.next(LINES)) for number in range(count)]
        refused = legal.refused
        legal.end()
    slowest = [each.slowest[1] for each in asked]
    print(f"{count} programs ({refused} more were not legal), {sum(each.count() for each in asked):,} questions: {sum(each <= OF_PROGRAM for each in slowest)} programs have "
          f"none over {OF_PROGRAM * 1e3:.0f} ms (aim: all), {sum(each.unanswered > 0 for each in asked)} have one without an answer in {LIMIT} s, "
          f"{sum(each.is_given_up for each in asked)} were given up")
    print(f"of the slowest question of each program the median takes {statistics.median(slowest) * 1e3:.2f} ms, the longest {max(slowest) * 1e3:,.2f} ms (load {os.getloadavg()[0]:.1f})")


# ---- java.util


def whole_files_below(folder, sources):
    """A list of the files below java that have units."""
    with zipfile.ZipFile(sources) as archive:
        names = sorted(name for name in archive.namelist() if name.startswith(BELOW) and name.endswith(".java")
                       and not name.endswith(("/package-info.java", "/module-info.java")))
        archive.extractall(folder, names)
    paths = jdk.whole_files(PROGRAM, jdk.write_list(folder, "every", [os.path.join(folder, name) for name in names]))
    print(f"{len(paths)} files below {BELOW} have units, {len(names) - len(paths)} have none")
    return jdk.write_list(folder, "files", paths)


def questions_of_util(counts):
    fields, methods, types = counts
    for kind, count in (("field", fields), ("method", methods), ("header", types), ("members", types)):
        yield from (f"{kind} {number}" for number in range(count))
    yield from (f"subtype {of} {(of + turn * APART) % types}" for of in range(types) for turn in range(1, OTHERS + 1))


def measure_util(sources):
    with tempfile.TemporaryDirectory(prefix="apt-bench-questions-") as folder:
        asked, of = Asked(), Table("java.util", whole_files_below(folder, sources))
        asked.ask_all(of, questions_of_util(of.counts()), math.inf)
        of.end()
    for kind, taken in asked.taken.items():
        print(f"java.util: {len(taken)} questions `{kind}`, {statistics.mean(taken) * 1e3:.3f} ms on average, the longest {max(taken) * 1e3:.2f} ms")
    mean = sum(sum(taken) for taken in asked.taken.values()) / asked.count()
    print(f"java.util: {asked.count()} questions, {mean * 1e3:.3f} ms on average (aim: at most {OF_UTIL * 1e3:.0f} ms), {asked.slowest_told()} "
          f"(load {os.getloadavg()[0]:.1f})")


def main():
    global PROGRAM
    reader = argparse.ArgumentParser(usage=__doc__)
    reader.add_argument("--program")
    reader.add_argument("--sources")
    reader.add_argument("--programs", type=int, default=COUNT)
    reader.add_argument("parts", nargs="*")
    words = reader.parse_args()
    parts = words.parts or PARTS
    forms = [form for form in FORMS if form[0] in parts or "forms" in parts]
    unknown = set(parts) - {*PARTS, *(form[0] for form in FORMS)}
    if unknown:
        reader.error(f"there is no part {', '.join(sorted(unknown))}")
    PROGRAM = os.path.abspath(words.program) if words.program else measured.program(measured.UNPROVED)
    print(f"load {os.getloadavg()[0]:.1f}")
    if forms:
        measure_forms(forms)
    if "programs" in parts:
        if jdk.is_there():
            measure_programs(words.programs)
        else:
            print("there is no JDK, so no programs are measured")
    if "util" in parts:
        if words.sources:
            measure_util(words.sources)
        else:
            print("no archive of the JDK's sources is named")


if __name__ == "__main__":
    main()
