#!/usr/bin/env python3
"""Measures replies to questions of a child: how many a second, beside the same calls of javac, and how their time grows.

    bench/answers.py [--program PATH] [--sources ARCHIVE] [--rows ROW,..] [PART..]

PART is `util`, `growth`, `forms` or the name of a form; all are measured where none is named. ROW is one of the six kinds of questions
of `util` and `growth`, of which all are measured where none is named. PATH is the program of cases. Where it is left out, tests/cases.py
builds it at -O3, which takes some minutes, and it is kept in bench/built. Its table `answer_cases` has the calls `collect` and `frames`,
by which one value of `Answering` is asked many questions many times for the frame of each reply, and `alone`, which makes a value for
each question. The time of a round of questions is the processor time of a run with many rounds less that of a run with one; so what a run
does once, as reading the files, is not in it. Questions are asked in three ways: `again` of one value, which was asked each before and
answers by a copy of the frame; `first` of one value, which is asked each once and remembers what it found for the others; and `alone` of
a value for each question, where nothing is remembered. The program tests each index and each sum, as every one that is built without
proofs.

- `util` asks Info, TypeOf and Annotations of each type, member and parameter that the JDK's java.util declares, Enclosed and AllMembers
  of each type, and Subtype of each type with its direct supertypes and theirs, as they are and erased, and with ten other types. The
  table has all files below java of ARCHIVE, the src.zip of a JDK, that have units. A processor in a warm javac makes the same calls of
  the same elements (AnswerBench.java), in turn in one run: once the calls alone, of which lists are counted, and once with each answer
  gone through, down to the elements in its types and values. The ratios say how many replies the program gives where javac makes one call,
  to questions that are asked again, and to first ones of one value.
- `growth` asks the same of 240 types, in a table of 5,000 and of 50,000 types, less the 50 of a package, again and alone.
- `forms` are deep and wide declarations and questions, which grow in one number. Each question has one reply, which is known; a line has
  the milliseconds of one, as which power of the number the time grew from a smaller one, and the aim. The program has a stack of 8 MiB.

The aims: 0.5 replies for a call that looks up (Info, Enclosed, TypeOf, Annotations), 1 for Subtype and AllMembers; from 5,000 to 50,000
types at most 1.6 times the time of a question, first or not; and what FORMS says. The exit status is 1 where a reply of a form is not the one that is
known, else 0. No test depends on the times.
"""
import argparse
import math
import os
import resource
import statistics
import subprocess
import sys
import tempfile
import zipfile

import annotations
import jdk

sys.path.append(os.path.join(jdk.HERE, "..", "tests"))

import cases  # noqa: E402

PARTS = ("util", "growth", "forms")
BELOW = "java.base/java/"
ROWS = {"Info": 0.5, "Enclosed": 0.5, "TypeOf": 0.5, "Annotations": 0.5, "AllMembers": 1, "Subtype": 1}

# How often both sides are asked in turn, and the seconds that the rounds take at least by which a longer run has more.
TURNS, LEAST, LEAST_OF_FORM = 3, 1, 0.2

# How many times a processor asks only to warm the JDK up.
WARM = 3

SIZES, GROWTH, ASKED, IN_PACKAGE = (5_000, 50_000), 1.6, 240, 50
STACK = 8 << 20

# The ways in which questions are asked, each with the calls of so many rounds more than the one round of ONE.
ONE = ["frames 1"]
WAYS = {"again": lambda rounds: [f"frames {1 + rounds}"], "first": lambda rounds: ONE * (1 + rounds), "alone": lambda rounds: [*ONE, f"alone {rounds}"]}
OF_GROWTH = ("again", "alone")

# How many times the rounds grow at most until they last, and how much longer than wanted they are then to last.
FASTER, LONGER = 64, 1.2

# How many times a number has to be the former one for a growth to be told.
STEP = 1.5
PROGRAM, LEVEL = os.path.join(jdk.HERE, "built", "cases"), "-O3"


# ---- the program


def limit_stack():
    resource.setrlimit(resource.RLIMIT_STACK, (STACK, STACK))


def children_seconds():
    used = resource.getrusage(resource.RUSAGE_CHILDREN)
    return used.ru_utime + used.ru_stime


def run(lines):
    """What the program prints of lines of the table, and the seconds of the processor that it takes."""
    with tempfile.TemporaryFile(prefix="apt-bench-answers-") as table:
        table.write("".join(f"{line}\n" for line in lines).encode())
        table.seek(0)
        before = children_seconds()
        done = subprocess.run([PROGRAM, "answer_cases"], stdin=table, stdout=subprocess.PIPE, preexec_fn=limit_stack, check=False)
        taken = children_seconds() - before
    if done.returncode != 0:
        sys.exit(f"{PROGRAM} ended with {done.returncode}")
    return done.stdout.decode().split("\n"), taken


def rounds_of(seconds_of, least):
    """How many rounds take as long as that."""
    rounds, taken = 1, seconds_of(1)
    while taken < least:
        rounds *= FASTER if taken * FASTER < least else math.ceil(least / taken * LONGER)
        taken = seconds_of(rounds)
    return rounds


class Frames:
    """The program over a table, of which some questions are asked again and again."""

    def __init__(self, entering, questions, ways):
        self.lines, self.questions, self.ways = [*entering, *(f"collect {question}" for question in questions)], len(questions), ways
        printed, one = run([*self.lines, *ONE])
        wrong = [line for line in printed[:len(self.lines)] if not line.endswith(" = done")]
        if wrong:
            sys.exit(f"the program refuses {wrong[0][-80:]}")
        _, self.bytes = map(int, printed[len(self.lines)].split(" = ")[1].split(" "))
        self.rounds = {way: rounds_of(lambda rounds, way=way: self.take(WAYS[way](rounds)) - one, LEAST) for way in ways}

    def take(self, calls):
        return run([*self.lines, *calls])[1]

    def turn(self):
        """What a question takes in each way."""
        one = self.take(ONE)
        return [(self.take(WAYS[way](self.rounds[way])) - one) / self.rounds[way] / self.questions for way in self.ways]


class Calls:
    """A processor in a running javac that is asked the same."""

    def __init__(self, folder, below, listed, package):
        self.javac = jdk.start(folder, ["-XX:+UseSerialGC", "AnswerBench", below, listed, package])
        self.questions = {row: [] for row in ROWS}
        for line in iter(lambda: self.javac.stdout.readline().rstrip("\n"), ""):
            question = line.removeprefix("collect ")
            self.questions[question.partition(" ")[0]].append(question)
        self.rounds = {}

    def take(self, row, way, rounds):
        seconds, *_ = jdk.ask(self.javac, f"{row} {way} {rounds}")
        return float(seconds)

    def seconds(self, row, way):
        if (row, way) not in self.rounds:
            for _ in range(WARM):
                self.rounds[row, way] = rounds_of(lambda rounds: self.take(row, way, rounds), LEAST)
        rounds = self.rounds[row, way]
        return self.take(row, way, rounds) / rounds / len(self.questions[row])

    def end(self):
        jdk.end(self.javac)


# ---- java.util


def files_below(folder, sources):
    """The texts of the files below java that have units, and a list of those of java.util."""
    with zipfile.ZipFile(sources) as archive:
        names = sorted(name for name in archive.namelist() if name.startswith(BELOW) and name.endswith(".java")
                       and not name.endswith(("/package-info.java", "/module-info.java")))
        texts = {name: archive.read(name).decode() for name in names}
    said = annotations.answers([PROGRAM, "shape_cases"], [f"limits {annotations.word(text)}" for text in texts.values()])
    texts = {name: text for (name, text), units in zip(texts.items(), said) if units.startswith("units")}
    print(f"{len(texts):,} files below {BELOW} have units, {len(names) - len(texts)} have none")
    paths = annotations.write(folder, texts)
    return texts, jdk.write_list(folder, "files", [path for path in paths if os.path.dirname(path).endswith("/java/util")])


def measure_util(sources, rows):
    with tempfile.TemporaryDirectory(prefix="apt-bench-answers-") as folder:
        jdk.compile_some(folder, ("Javac", "ElementWords", "ReplyWords", "AnswerBench"))
        texts, listed = files_below(folder, sources)
        calls = Calls(folder, os.path.join(folder, "java.base"), listed, "java.util")
        print("\n| Question | Questions | Bytes of a frame | Again | First of one value | Alone | For each call | For each answer that is gone through | Aim | First, for each call |\n"
              "|---|---|---|---|---|---|---|---|---|---|")
        entering = ["empty", *(f"stub_file {annotations.word(text)}" for text in texts.values())]
        for row in rows:
            measure_row(row, ROWS[row], Frames(entering, calls.questions[row], WAYS), calls)
        calls.end()


def medians(turns):
    return [statistics.median(each) for each in zip(*turns)]


def micros(seconds):
    return f"{seconds * 1e6:,.2f} us"


def measure_row(row, aim, frames, calls):
    again, first, alone, called, read = medians([*frames.turn(), calls.seconds(row, "calls"), calls.seconds(row, "read")] for _ in range(TURNS))
    print(f"| {row} | {frames.questions:,} | {frames.bytes / frames.questions:,.0f} | {micros(again)} | {micros(first)} | {micros(alone)} "
          f"| {called / again:.3f} | {read / again:.3f} | at least {aim} | {called / first:.4f} |", flush=True)


# ---- tables of many types


STUBS = ("package java.lang; public class Object { public String toString() { return null; } }", "package java.lang; public final class String implements Comparable<String> {}",
         "package java.lang; public interface Comparable<T> { int compareTo(T other); }")


def packages_of(types):
    """How many packages there are in a table of so many types, which has stubs besides."""
    return types // IN_PACKAGE - 1


def package_text(number):
    """The file of a package: an annotation interface, an interface, and classes that extend each other."""
    lines = [f"package g{number};", f"import g{number // 2}.C1;" if number else "", "@interface A { int n() default 1; String[] of() default {}; }",
             "interface I<T> { T get(T from); }", "class C0<T extends Comparable<T>> implements I<T> { public T get(T from) { return from; } }"]
    for at in range(1, IN_PACKAGE - 2):
        lines.append(f"@A(n = {at}) public class C{at}<T extends Comparable<T>> extends g{number}.C{at // 2}<T> {{ @A(of = {{\"a\", \"b\"}}) String name; C1<T> first; int[] at; "
                     f"@A <U> U f{at}(T of, I<? super U> by) {{ return null; }} void g{at}(int... more) {{ }} }}")
    return "\n".join(lines)


def questions_of_sample(types):
    """The questions of each row on types that are spread over the table."""
    packages = packages_of(types)
    asked = [(number * packages // (ASKED // 8), at) for number in range(ASKED // 8) for at in (1, 2, 5, 11, 23, 31, 40, 47)]
    of_types = [f"g{package}.C{at}" for package, at in asked]
    members = [f"{each}:{step}" for each in of_types for step in range(1, 6)]
    found = {row: [f"{row} {each}" for each in of_types + (members if row in ("Info", "TypeOf", "Annotations") else [])] for row in ROWS if row != "Subtype"}
    variable = lambda each: f"{each}<1/variable={each}:0"  # noqa: E731
    found["Subtype"] = [f"Subtype {variable(f'g{package}.C{at}')} {above}" for package, at in asked
                        for above in (f"g{package}.C0", f"g{package}.I<1/variable=g{package}.C{at}:0", f"g{package}.I<1/java.lang.String", "java.lang.Object", f"g{package // 2}.C1")]
    return found


def measure_growth(rows):
    print(f"\n| Question | Questions | Asked | One with {SIZES[0]:,} types | With {SIZES[1]:,} | Times as long | Aim |\n|---|---|---|---|---|---|---|")
    tables = []
    for types in SIZES:
        entering = ["empty", *(f"stub_file {annotations.word(text)}" for text in STUBS),
                    *(f"file {annotations.word(package_text(number))}" for number in range(packages_of(types)))]
        tables.append((entering, questions_of_sample(types)))
    for row in rows:
        small, large = (Frames(entering, questions[row], OF_GROWTH) for entering, questions in tables)
        taken = medians([*small.turn(), *large.turn()] for _ in range(TURNS))
        for way, of_small, of_large in zip(OF_GROWTH, taken, taken[len(OF_GROWTH):]):
            print(f"| {row} | {small.questions:,} | {way} | {micros(of_small)} | {micros(of_large)} | {of_large / of_small:.2f} | at most {GROWTH} |", flush=True)


# ---- deep and wide: the lines that enter a form with a number, and its questions with their replies


def file_of(text, call="file"):
    return f"{call} {annotations.word(text)}"


def nested_arguments(number):
    """A superclass and a field whose types have arguments so deep within each other."""
    written = "B<" * number + "S" + ">" * number
    mirror = "n.B<1/" * number + "n.S"
    printed = "n.B<" * number + "n.S" + ">" * number
    entering = [file_of(f"package n; class S {{}} class B<T> {{ T of; }} class N extends {written} {{ {written} in; }}")]
    return entering, [
        ("Superclass n.N", f"mirrors {mirror}"), ("TypeOf n.N:0", f"mirrors {mirror}"), (f"PrintType {mirror}", f"texts {printed}"), (f"Erasure {mirror}", "mirrors n.B"),
        (f"Subtype n.N {mirror}", "truth yes"), (f"SameType {mirror} {mirror}", "truth yes"), (f"DirectSupertypes {mirror}", "mirrors error=java.lang.Object"),
        (f"MemberType n.N n.B:1", f"mirrors {mirror.removeprefix('n.B<1/')}"), ("AllMembers n.N", "elements n.N:0 n.N:1 n.B:1"),
    ]


def nested_types(number):
    """Types so deep within each other."""
    names = [f"C{depth}" for depth in range(number + 1)]
    entering = [file_of(f"package m; {' '.join(f'class {name} {{' for name in names)} int of; {'}' * (number + 1)}")]
    name, at = ".".join(["m", *names]), "m.C0" + ":0" * number
    return entering, [
        (f"TypeElement {name}", f"elements {at}"), (f"Info {at}", f"info class none C{number} {name} fixed"), (f"Enclosing {at}:0", f"elements {at}"),
        (f"PackageOf {at}:0", "elements m.package-info"), (f"TypeOf {at}", f"mirrors {at}"), (f"PrintType {at}", f"texts {name}"), (f"AllMembers {at}", f"elements {at}:0 {at}:1"),
    ]


def arrays(number):
    """An array type that is so deep, as the argument of questions."""
    mirror = "[]/" * (number - 1) + "int"
    fits = lambda reply, depth: reply if depth <= 256 else "refused TooLarge"  # noqa: E731
    # Each step to a supertype takes one array away.
    near = lambda reply: reply if number <= 65 else "refused TooDeep"  # noqa: E731
    return ["empty"], [
        (f"ArrayType {mirror}", fits(f"mirrors []/{mirror}", number + 1)), (f"Erasure {mirror}", fits(f"mirrors {mirror}", number)),
        (f"PrintType {mirror}", f"texts int{'[]' * (number - 1)}"),
        (f"SameType {mirror} {mirror}", "truth yes"), (f"Subtype {mirror} error=java.lang.Object", near("truth yes")), (f"Assignable {mirror} []/{mirror}", near("truth no")),
        (f"AsElement {mirror}", "elements none"), (f"Contains ?extends/{mirror} {mirror}", "truth yes"),
    ]


def arguments(number):
    """A class type whose arguments are so deep within each other, as the argument of questions."""
    mirror = "n.B<1/" * (number - 1) + "n.B"
    fits = lambda reply, depth: reply if depth <= 256 else "refused TooLarge"  # noqa: E731
    return [file_of("package n; class B<T> { T of; }")], [
        (f"ArrayType {mirror}", fits(f"mirrors []/{mirror}", number + 1)), (f"Erasure {mirror}", "mirrors n.B"), (f"SameType {mirror} {mirror}", "truth yes"),
        (f"Subtype {mirror} {mirror}", "truth yes"), (f"Subtype {mirror} n.B<1/?", "truth yes"), (f"DeclaredType n.B {mirror}", fits(f"mirrors n.B<1/{mirror}", number + 1)),
        (f"MemberType {mirror} n.B:1", f"mirrors {mirror.removeprefix('n.B<1/')}"), (f"PrintType {mirror}", f"texts {'n.B<' * (number - 1)}n.B{'>' * (number - 1)}"),
    ]


def one_package(number):
    """So many types in one package."""
    names = [f"C{at}" for at in range(number)]
    files = [file_of(f"package w; {' '.join(f'class {name} {{}}' for name in names[at:at + 500])}") for at in range(0, number, 500)]
    return files, [("Enclosed w.package-info", f"elements {' '.join(f'w.{name}' for name in sorted(names))}"), ("Enclosing w.C7", "elements w.package-info"),
                   ("PackageElement w", "elements w.package-info"), (f"TypeElement w.C{number}", "elements none")]


def one_type(number):
    """So many fields in one type, and below it."""
    entering = [file_of(f"package w; class A {{ {' '.join(f'int f{at};' for at in range(number))} }} class B extends A {{ int f0; }}")]
    return entering, [("Enclosed w.A", f"elements {' '.join(f'w.A:{at}' for at in range(number + 1))}"),
                      ("AllMembers w.B", f"elements w.B:0 w.B:1 {' '.join(f'w.A:{at}' for at in range(1, number))}"),
                      (f"Info w.A:{number - 1}", f"info field none f{number - 1} - fixed")]


def chain(number):
    """A chain of so many steps to the type above all."""
    types = [f"class C{at} extends C{at + 1} {{ int f{at}; }}" for at in range(number)]
    every = [f"m.C{at}:{step}" for at in range(number + 1) for step in ((0, 1) if at == 0 else (0,))]
    is_open = number > 64
    return [file_of(f"package m; {' '.join(types)} class C{number} {{ int f{number}; }} class D {{}}")], [
        ("AllMembers m.C0", "refused TooDeep" if is_open else f"elements {' '.join(every)}"), (f"Subtype m.C0 m.C{number}", "refused TooDeep" if is_open else "truth yes"),
        ("Subtype m.C0 m.D", "refused TooDeep" if number >= 64 else "truth no"), (f"MemberType m.C0 m.C{number}:0", "mirrors int"), ("Superclass m.C0", "mirrors m.C1"),
    ]


def diamonds(number):
    """So many diamonds of interfaces above each other."""
    types = [f"interface L{at} extends D{at - 1} {{}} interface R{at} extends D{at - 1} {{}} interface D{at} extends L{at}, R{at} {{}}" for at in range(1, number + 1)]
    return [file_of(f"package d; interface D0 {{ void m(); int N = 1; }} interface E {{}} {' '.join(types)}")], [
        (f"AllMembers d.D{number}", "elements d.D0:0 d.D0:1"), (f"Subtype d.D{number} d.D0", "truth yes"), (f"Subtype d.D{number} d.E", "truth no"),
        (f"MemberType d.D{number} d.D0:1", "mirrors int"), (f"Overrides d.D0:0 d.D0:0 d.D{number}", "truth no"),
    ]


# Each form: what it is with a number, its lines, the numbers, and as which power of the number its time may grow.
FORMS = {
    "nested_arguments": ("a header with arguments nested {}", nested_arguments, (50, 100, 199, 200), 2),
    "nested_types": ("types nested {}", nested_types, (50, 100, 200), 2),
    "arrays": ("a question with an array nested {}", arrays, (64, 65, 66, 128, 255, 256, 257), 1.5),
    "arguments": ("a question with arguments nested {}", arguments, (64, 128, 255, 256, 257), 1.5),
    "one_package": ("{} types in one package", one_package, (5_000, 20_000, 50_000), 1.3),
    "one_type": ("{} fields in one type", one_type, (5_000, 20_000, 60_000), 1.3),
    "chain": ("a chain of {} steps", chain, (16, 32, 63, 64, 65), 2),
    "diamonds": ("{} diamonds", diamonds, (5, 10, 20), 2),
}


def told(reply):
    return reply if len(reply) < 60 else f"{reply[:40]}.. ({len(reply):,} characters)"


def seconds_of(entering, question):
    """What a question takes of which nothing is remembered."""
    take = lambda times: run([*entering, f"collect {question}", f"alone {times}"])[1]  # noqa: E731
    one = take(1)
    more = rounds_of(lambda times: take(1 + times) - one, LEAST_OF_FORM)
    return (take(1 + more) - one) / more


def is_as_known(entering, questions):
    """Whether each reply is the one that is known, each that is not printed."""
    printed, _ = run([*entering, *(f"ask {question}" for question, _ in questions)])
    replies = [line.partition(" = ")[2].rpartition(" : ")[0] for line in printed[len(entering):]]
    wrong = [(question, known, reply) for (question, known), reply in zip(questions, replies) if reply != known]
    for question, known, reply in wrong:
        print(f"{told(question)} = {told(reply)}, not {told(known)}")
    return not wrong


def growth_of(former, now):
    """As which power of the number the time grew."""
    (few, short), (many, long) = former, now
    return f"{math.log(max(long, 1e-9) / max(short, 1e-9)) / math.log(many / few):.2f}"


def measure_form(name):
    described, lines_of, numbers, power = FORMS[name]
    former, decided = {}, True
    for number in numbers:
        entering, questions = lines_of(number)
        decided = is_as_known(entering, questions) and decided
        for at, (question, _) in enumerate(questions):
            seconds = seconds_of(entering, question)
            grown = "-"
            if at not in former or number > former[at][0] * STEP:
                grown = growth_of(former[at], (number, seconds)) if at in former else grown
                former[at] = number, seconds
            print(f"| {described.format(f'{number:,}')} | {question.partition(' ')[0]} | {seconds * 1e3:,.3f} ms | {grown} | at most {power} |", flush=True)
    return decided


def measure_forms(names):
    print("\n| Form | Question | One question | Grows as the power | Aim |\n|---|---|---|---|---|")
    decided = [measure_form(name) for name in names]
    print("each reply is the one that is known" if all(decided) else "some replies are not those that are known")
    return all(decided)


def main():
    global PROGRAM
    reader = argparse.ArgumentParser(description=__doc__, formatter_class=argparse.RawDescriptionHelpFormatter)
    reader.add_argument("--program", default=PROGRAM)
    reader.add_argument("--sources")
    reader.add_argument("--rows", type=lambda given: given.split(","), default=list(ROWS))
    reader.add_argument("parts", nargs="*")
    words = reader.parse_args()
    parts, decided = words.parts or PARTS, True
    forms = [form for form in FORMS if form in parts or "forms" in parts]
    unknown = (set(parts) - {*PARTS, *FORMS}) | (set(words.rows) - set(ROWS))
    if unknown:
        reader.error(f"there is no part and no row {', '.join(sorted(unknown))}")
    PROGRAM = os.path.abspath(words.program)
    if words.program == reader.get_default("program"):
        cases.build(PROGRAM, LEVEL)
    print(f"load {os.getloadavg()[0]:.1f}", flush=True)
    if forms:
        decided = measure_forms(forms)
    if "growth" in parts:
        measure_growth(words.rows)
    if "util" in parts:
        if words.sources and jdk.is_there():
            measure_util(words.sources, words.rows)
        else:
            print("no archive of the JDK's sources is named, or there is no JDK")
    print(f"load {os.getloadavg()[0]:.1f}", flush=True)
    sys.exit(0 if decided else 1)


if __name__ == "__main__":
    main()
