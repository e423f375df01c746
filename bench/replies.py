#!/usr/bin/env python3
"""Compares the replies to the questions of a child with those of javac's `javax.lang.model` to the same questions.

    bench/replies.py [--program PATH] [--sources ARCHIVE] [--programs COUNT] [--seed SEED] [PART..]

PART is `programs`, or a package of the JDK's module java.base; without one `programs`, and with ARCHIVE, the src.zip of a JDK, also
`java.util`, `java.util.concurrent` and `java.io`. PATH is the program of cases, out/cases/cases where it is left out.

- `programs` are COUNT (30) of each of three kinds, from SEED (1) on, without those to which javac has an error: those of programs.py,
  of annotations.py and of mixed_programs.py. Beside them stand small stubs of the JDK. javac reads the same stubs as a part of its
  module java.base, so that both sides have the same declarations.
- A package is asked in a table of all files of java.base that have units, as stubs. javac has the same files as sources.

Of each package, type, type parameter, member and parameter each question is asked that has one element as its argument; of each type
that is written somewhere each question that has one type as its argument; names, and pairs that a seed chooses (ReplyBench.java). One
value of the program of cases is asked all of them, in its table `answer_cases`, and says its replies in words.

Replies are compared in parts: an annotation, a value, a type, a member. Each difference has to fall under a sentence of SENTENCES, each
of which stands in docs/DECISIONS.md: the script ends where one does not. A list that the interface does not order is compared as a set
(the members of a type, annotated elements). Tables say how many questions there are of each kind, how many have the same reply, and how
many differences there are under each sentence.

The exit status is 0 where each difference has its sentence, else 1; the first of those that have none are printed, with both replies.
"""
import argparse
import collections
import os
import subprocess
import sys
import tempfile
import zipfile

import annotations
import jdk
import mixed_programs
import programs
import reply_differences

PARTS = ("programs", "java.util", "java.util.concurrent", "java.io")
MODULE = "java.base/"
DECISIONS = os.path.join(jdk.HERE, "..", "docs", "DECISIONS.md")

# How many lines a program of programs.py has at least, how many programs are asked at once, and how many differences are printed.
LINES, TOLD, MOST = 120, 12, 300

# Options of javac for programs and for the JDK's own files.
OPTIONS = ("-encoding", "UTF-8", "-source", "11")

# What programs name of the JDK. Annotation interfaces have to be as javac wants them.
STUBS = {
    "java.lang.Object": "public class Object { public Object() {} public boolean equals(Object other) { return true; } public int hashCode() { return 0; } "
                        "public String toString() { return null; } public final native Class<?> getClass(); protected native Object clone() throws CloneNotSupportedException; }",
    "java.lang.String": "public final class String implements java.io.Serializable, Comparable<String>, CharSequence { public int length() { return 0; } "
                        "public int compareTo(String other) { return 0; } }",
    "java.lang.CharSequence": "public interface CharSequence { int length(); String toString(); }",
    "java.lang.Comparable": "public interface Comparable<T> { int compareTo(T other); }",
    "java.lang.Cloneable": "public interface Cloneable {}",
    "java.io.Serializable": "public interface Serializable {}",
    "java.lang.Number": "public abstract class Number implements java.io.Serializable { public abstract int intValue(); }",
    **{f"java.lang.{name}": f"public final class {name} extends Number implements Comparable<{name}> {{ public int intValue() {{ return 0; }} "
                            f"public int compareTo({name} other) {{ return 0; }} }}"
       for name in ("Integer", "Long", "Short", "Byte", "Double", "Float")},
    **{f"java.lang.{name}": f"public final class {name} implements java.io.Serializable, Comparable<{name}> {{ public int compareTo({name} other) {{ return 0; }} }}"
       for name in ("Boolean", "Character")},
    "java.lang.Enum": "public abstract class Enum<E extends Enum<E>> implements Comparable<E>, java.io.Serializable { private final int ordinal; "
                      "protected Enum(String name, int ordinal) {} public final String name() { return null; } public final int compareTo(E other) { return 0; } }",
    "java.lang.Class": "public final class Class<T> implements java.io.Serializable {}",
    "java.lang.Iterable": "public interface Iterable<T> {}",
    "java.lang.AutoCloseable": "public interface AutoCloseable { void close() throws Exception; }",
    "java.lang.Runnable": "public interface Runnable { void run(); }",
    "java.lang.Throwable": "public class Throwable implements java.io.Serializable { public String getMessage() { return null; } }",
    "java.lang.Exception": "public class Exception extends Throwable {}",
    "java.lang.RuntimeException": "public class RuntimeException extends Exception {}",
    "java.lang.CloneNotSupportedException": "public class CloneNotSupportedException extends Exception {}",
    "java.io.IOException": "public class IOException extends Exception {}",
    "java.lang.Override": "public @interface Override {}",
    "java.lang.Deprecated": "public @interface Deprecated { String since() default \"\"; boolean forRemoval() default false; }",
    "java.lang.annotation.Annotation": "public interface Annotation { boolean equals(Object other); Class<? extends Annotation> annotationType(); }",
    "java.lang.annotation.Inherited": "public @interface Inherited {}",
    "java.lang.annotation.Documented": "public @interface Documented {}",
    "java.lang.annotation.Repeatable": "public @interface Repeatable { Class<? extends Annotation> value(); }",
    "java.util.List": "public interface List<E> extends Iterable<E> { boolean add(E item); E get(int at); }",
    "java.util.Map": "public interface Map<K, V> { V get(Object key); interface Entry<K, V> { K getKey(); V getValue(); } }",
}


# ---- files


def stub_texts():
    """The text of each stub by its path."""
    return {f"{name.replace('.', '/')}.java": f"package {name.rpartition('.')[0]};\n{text}\n" for name, text in STUBS.items()}


def entered(texts, call):
    return [f"{'package_file' if path.endswith('package-info.java') else call} {annotations.word(text)}" for path, text in texts.items()]


class Program:
    """A program with its packages, and the lines that enter it."""

    def __init__(self, name, texts):
        self.name, self.texts = name, texts
        self.packages = sorted({os.path.dirname(path).replace("/", ".") for path in texts})

    def entering(self):
        return ["empty", *entered(stub_texts(), "stub_file"), *entered(self.texts, "file")]


def made_programs(count, seed):
    for number in range(seed, seed + count):
        yield Program(f"program {number}", programs.Program(number, LINES).texts())
        yield Program(f"annotated {number}", annotations.Made(number, seed).texts())
        yield Program(f"mixed {number}", mixed_programs.Mixed(number).texts())


# ---- what javac says


class Said:
    """What javac says: its reply to each question, and what helps to compare them; the replies of the program, and the types of files that it does not read."""

    def __init__(self, lines):
        self.unread, self.told = set(), {}
        self.rows, self.orders, self.aparts, self.elements, self.above = {}, {}, {}, {}, {}
        self.names, self.forms, self.errors = collections.defaultdict(dict), {}, 0
        for line in lines:
            if line.startswith("# "):
                self.note(line[2:])
            else:
                question, _, reply = line.removeprefix("ask ").partition(" = ")
                self.rows.setdefault(question, reply)

    def note(self, line):
        kind, _, rest = line.partition(" ")
        if kind in ("order", "apart"):
            question, _, reply = rest.partition(" = ")
            (self.orders if kind == "order" else self.aparts)[question] = reply
        elif kind == "element":
            at, *facts = rest.split(" ")
            self.elements[at] = facts
        elif kind == "above":
            of, *above = rest.split(" ")
            self.above[of] = above
        elif kind == "names":
            at, name, *facts = rest.split(" ")
            self.names[at].setdefault(name, facts)
        elif kind == "form":
            at, form = rest.split(" ")
            self.forms[at] = form
        else:
            self.errors = int(rest)


class Asker:
    """A running JDK that answers for one program after another."""

    def __init__(self, folder, tools=None):
        self.folder = os.path.join(folder, "classes")
        os.makedirs(self.folder, exist_ok=True)
        tool = lambda name: os.path.join(tools, name) if tools else name  # noqa: E731
        sources = [os.path.join(jdk.HERE, f"{name}.java") for name in ("Javac", "ElementWords", "AnnotationFacts", "ReplyWords", "ReplyBench", "ProgramBench")]
        subprocess.run([tool("javac"), "-d", self.folder, *sources], check=True)
        self.words = [tool("java"), "-Xmx3g", "-XX:+UseSerialGC", "-cp", self.folder]
        self.running = {}

    def start(self, *words):
        if words not in self.running:
            self.running[words] = subprocess.Popen([*self.words, *words], stdin=subprocess.PIPE, stdout=subprocess.PIPE, encoding="utf-8")
        return self.running[words]

    def is_legal(self, listed):
        return jdk.ask(self.start("ProgramBench", "legal"), listed) == ["0"]

    def said(self, listed, packages, options):
        java = self.start("ReplyBench")
        java.stdin.write(f"{listed} {','.join(packages)} {' '.join(options)}\n")
        java.stdin.flush()
        return Said(iter(lambda: java.stdout.readline().rstrip("\n"), ""))

    def end(self):
        for each in self.running.values():
            jdk.end(each)


# ---- the comparison


class Totals:
    """The questions and the differences of several programs."""

    def __init__(self, title):
        self.title, self.asked, self.same, self.counts = title, collections.Counter(), collections.Counter(), collections.Counter()
        self.rows, self.nameless, self.first, self.programs, self.errors = collections.Counter(), [], {}, 0, 0

    def add(self, name, said, replies):
        self.programs += 1
        self.errors += said.errors
        said.told = dict(zip(said.rows, replies))
        for question, theirs in said.rows.items():
            ours = said.told[question]
            found = reply_differences.differences(said, question, ours, theirs)
            row = question.split(" ")[0]
            self.asked[row] += 1
            self.same[row] += not found
            self.counts.update(each for each in found if each is not None)
            self.rows.update((each, row) for each in set(found) if each is not None)
            for each in found:
                self.first.setdefault(each, (name, question, ours, theirs))
            if None in found:
                self.nameless.append((name, question, ours, theirs))

    def tell(self):
        print(f"{self.title}: {self.programs:,} programs, {self.asked.total():,} questions; javac has {self.errors} errors")
        for row, count in sorted(self.asked.items()):
            print(f"  {row}: {count:,} questions, {self.same[row]:,} with the same reply")
        print(f"  differences by the sentence that decides them: {self.counts.total():,}")
        for sentence, count in self.counts.most_common():
            rows = ", ".join(f"{row} {number:,}" for (each, row), number in self.rows.most_common() if each == sentence)
            print(f"  {count:8,} {reply_differences.SENTENCES[sentence]} ({rows})")
            tell("the first", *self.first[sentence])
        print(f"  questions with a difference that no sentence decides: {len(self.nameless):,}")
        by_row = collections.defaultdict(list)
        for each in self.nameless:
            by_row[each[1].split(" ")[0]].append(each)
        for row, some in sorted(by_row.items()):
            print(f"    {row}: {len(some):,}")
            for each in some[:TOLD]:
                tell("a question", *each)
        return not self.nameless


def tell(what, name, question, ours, theirs):
    print(f"           {what}, of {name}: {question[:MOST]}\n             the program: {ours[:MOST]}\n             javac:       {theirs[:MOST]}")


def replies(name, program, entering, said):
    """The program's replies to the questions that javac was asked."""
    roots = said.rows["Roots"].split(" ")[1:]
    asking = [f"roots {' '.join(roots)}", *(f"collect {question}" for question in said.rows)]
    *done, told = annotations.answers([program, "answer_cases"], [*entering, *asking, "replies"])
    if set(done) != {"done"}:
        sys.exit(f"{name}: the program takes not all files and questions: {set(done) - {'done'}}")
    return told.removeprefix("/ ").split(" / ")


def compare(totals, name, program, entering, said):
    told = replies(name, program, entering, said)
    if len(told) != len(said.rows):
        sys.exit(f"{name}: the program has {len(told)} replies to {len(said.rows)} questions")
    totals.add(name, said, told)


def compare_programs(folder, program, count, seed):
    asker, totals, refused = Asker(folder), Totals(f"programs from seed {seed}"), 0
    stubs = annotations.write(os.path.join(folder, "stubs"), stub_texts())
    for number, each in enumerate(made_programs(count, seed)):
        below = os.path.join(folder, str(number))
        listed = jdk.write_list(folder, "legal", annotations.write(below, each.texts))
        if not asker.is_legal(listed):
            refused += 1
            continue
        with open(listed, encoding="utf-8") as file:
            paths = file.read().splitlines()
        patch = f"java.base={below}{os.pathsep}{os.path.join(folder, 'stubs')}"
        said = asker.said(jdk.write_list(folder, "all", [*stubs, *paths]), each.packages, [*OPTIONS, "--patch-module", patch])
        if said.errors:
            refused += 1
        else:
            compare(totals, each.name, program, each.entering(), said)
    asker.end()
    print(f"{refused} programs more are not legal for javac")
    return totals.tell()


def files_of_jdk(folder, program, sources):
    """The files of the module that have units, which are written below a folder: their paths, the lines that enter them as stubs, and the types of the others."""
    with zipfile.ZipFile(sources) as archive:
        names = sorted(name for name in archive.namelist()
                       if name.startswith(MODULE) and name.endswith(".java") and not name.endswith("/module-info.java"))
        texts = {name: archive.read(name).decode() for name in names}
    of_word = {name: annotations.word(text) for name, text in texts.items()}
    is_info = lambda name: name.endswith("package-info.java")  # noqa: E731
    told = annotations.answers([program, "shape_cases"], [f"{'info_limits' if is_info(name) else 'limits'} {of_word[name]}" for name in names])
    readable = [name for name, said in zip(names, told) if said.startswith("units")]
    print(f"{len(readable):,} of {len(names):,} files of {MODULE[:-1]} have units", flush=True)
    entering = ["empty", *(f"{'package_file' if is_info(name) else 'stub_file'} {of_word[name]}" for name in readable)]
    unread = {name.removeprefix(MODULE).removesuffix(".java").replace("/", ".") for name in set(names) - set(readable)}
    return annotations.write(folder, {name: texts[name] for name in readable}), entering, unread


def compare_packages(folder, program, sources, packages):
    tools = os.path.normpath(os.path.join(os.path.dirname(os.path.realpath(sources)), "..", "bin"))
    paths, entering, unread = files_of_jdk(folder, program, sources)
    listed, options = jdk.write_list(folder, "jdk", paths), ["-encoding", "UTF-8", "--patch-module", f"java.base={os.path.join(folder, MODULE)}"]
    asker, decided = Asker(folder, tools if os.path.exists(tools) else None), True
    for package in packages:
        totals = Totals(package)
        said = asker.said(listed, [package], options)
        said.unread = unread
        compare(totals, package, program, entering, said)
        decided = totals.tell() and decided
    asker.end()
    return decided


def main():
    parser = argparse.ArgumentParser(description=__doc__, formatter_class=argparse.RawDescriptionHelpFormatter)
    parser.add_argument("--program", default=annotations.PROGRAM, help="another build of the program")
    parser.add_argument("--sources", help="the archive src.zip of a JDK")
    parser.add_argument("--programs", type=int, default=30)
    parser.add_argument("--seed", type=int, default=1)
    parser.add_argument("parts", nargs="*")
    words = parser.parse_args()
    parts = words.parts or (PARTS if words.sources else PARTS[:1])
    if not os.path.exists(words.program):
        sys.exit(f"there is no program {words.program}: tests/cases.py builds it")
    if not jdk.is_there():
        sys.exit("there is no JDK")
    reply_differences.check_sentences(DECISIONS)
    packages, decided = [part for part in parts if part != "programs"], True
    with tempfile.TemporaryDirectory(prefix="apt-bench-replies-") as folder:
        if "programs" in parts:
            decided = compare_programs(os.path.join(folder, "programs"), words.program, words.programs, words.seed)
        if packages and words.sources:
            decided = compare_packages(os.path.join(folder, "jdk"), words.program, words.sources, packages) and decided
    sys.exit(0 if decided else 1)


if __name__ == "__main__":
    main()
