#!/usr/bin/env python3
"""Measures the most memory that builds take, beside the text that they read.

    bench/memory.py [--limit MEGABYTES] [PROGRAM] [CASE..]

PROGRAM is crates/apt_cli/out/apt_cli where it is left out, and all cases run where none is named. The first case is a
project of 11.7 MB of sources and as much of stubs, made of the seed below, which is built without a processor and with
one; its peak is to be at most 20 times the text. The others are single files: some that a build reads, and some that it
refuses for a child list, for depth or for a bracket. Nested types, type arguments, annotations and brackets are built
with less and less stack too, and the least that is enough is printed.

A line says the text, the answer, the time, the peak and how many times the text that is. A build may take no more than
--limit of memory, 8,000 MB where nothing is said: one that wants more answers that memory ran out, and its peak shows
nothing. The peak is what the system says shortly before the build ended. No test depends on these figures.
"""
import argparse
import json
import os
import random
import resource
import shutil
import subprocess
import sys
import tempfile
import time

import rounds
from rounds import frames, high_water_mark

SEED, FILES, LENGTH, GOAL = 11, 1_000, 11_700, 20
MOST_OF_A_FILE = 8 << 20
MOST_TYPES, MOST_CHILDREN, MOST_DEPTH = 50_000, 65_535, 200
KILOBYTE, MEGABYTE = 1024, 1_000_000

# The stack that a process has where nothing else is said, and the step between two that are tried.
USUAL_STACK, STEP = 8 << 20, 16 * KILOBYTE

# A child that supports q.A, creates nothing and reads what it is sent: Hello, and Done for each of the two rounds.
ANSWERS = frames.hello("q.A") + 2 * frames.done()
CHILD = ["sh", "-c", "printf '" + "".join(f"\\{byte:03o}" for byte in ANSWERS) + "'; exec cat > /dev/null"]
ONE_PROCESSOR = {"order": ["reader"], "processors": {"reader": {"command": CHILD, "version": "1"}}}


# Texts.


class Texts:
    """The sources and the stubs of a project, each of about LENGTH bytes."""

    NAMES = ["price", "item", "count", "list", "total", "share", "order", "name", "limit", "offer", "store", "line"]
    TYPES = ["int", "long", "boolean", "String", "int[]", "List<String>", "Map<String, List<Integer>>", "Optional<? extends Number>"]
    HEAD = "package {package};\n\nimport java.util.List;\nimport java.util.Map;\nimport java.util.Optional;\n\n"
    DOC = "    /**\n     * The {first} of a {second}, in the order in which they were added.\n     *\n     * @return the {first}\n     */\n"
    BODY = """ {{
        long sum = 0x1F_00L; // the running sum
        for (int place = 0; place < {first}.size(); place++) {{
            if ({first}.get(place) >= 7 && !{second}.isEmpty()) {{
                sum += place * 31L + (sum >>> 3);
            }}
        }}
        throw new IllegalStateException("no {first} in " + sum);
    }}
"""

    def __init__(self):
        self.random = random.Random(SEED)

    def name(self):
        return self.random.choice(self.NAMES) + str(self.random.randrange(1000))

    def parameters(self):
        return ", ".join(f"{self.random.choice(self.TYPES)} {self.name()}" for _ in range(self.random.randrange(4)))

    def member(self, with_body):
        """A field, or a method with a body or without."""
        first, second = self.name(), self.name()
        if self.random.random() < 0.3:
            return f"    private final {self.random.choice(self.TYPES)} {first} = {self.random.randrange(100)};\n"
        end = self.BODY.format(first=first, second=second) if with_body else ";\n"
        doc = self.DOC.format(first=first, second=second)
        return f"{doc}    public {self.random.choice(self.TYPES)} {first}({self.parameters()}){end}"

    def type(self, package, name, with_bodies):
        parts = [self.HEAD.format(package=package), f"/** A class. */\n@q.A\npublic abstract class {name} implements Cloneable {{\n"]
        length = sum(map(len, parts))
        while length < LENGTH - 200:
            parts.append(self.member(with_bodies))
            length += len(parts[-1])
        return "".join(parts) + "}\n"

    def project(self):
        """The files of the project by their paths."""
        files = {f"src/p/C{number:05}.java": self.type("p", f"C{number:05}", True) for number in range(FILES)}
        files.update({f"stubs/q/S{number:05}.java": self.type("q", f"S{number:05}", False) for number in range(FILES)})
        files["stubs/q/A.java"] = "package q; public @interface A {}\n"
        return files


def fields(count):
    return "class C{int a" + ",a" * (count - 1) + ";}"


def as_long_as_a_file(front, part, end=""):
    """The front, as many parts as one file may have behind it, and the end."""
    return front + part * ((MOST_OF_A_FILE - len(front) - len(end)) // len(part)) + end


def in_brackets(front, opening, closing, end):
    half = (MOST_OF_A_FILE - len(front) - len(end)) // 2
    return front + opening * half + closing * half + end


def nested(front, opening, middle, closing, end, depth=MOST_DEPTH):
    return front + opening * depth + middle + closing * depth + end


def many_types(count):
    return "".join(f"class T{number}{{}}\n" for number in range(count))


def types_and_imports(count):
    return "".join(f"import a.B{number};\n" for number in range(count)) + many_types(count)


def classes_of_fields():
    """As many classes as a file may have bytes for, each with as many fields as a type may have beside its constructor."""
    names = ",a" * (MOST_CHILDREN - 2)
    each = [f"class C{number:02}{{int a{names};}}\n" for number in range(MOST_OF_A_FILE // (2 * MOST_CHILDREN + 20))]
    return "".join(each)


# A file by the name of its case.
FILES_OF_CASES = {
    "types": lambda: many_types(MOST_TYPES),
    "imports": lambda: types_and_imports(4_000),
    "fields": classes_of_fields,
    "fields past the limit": lambda: fields(MOST_OF_A_FILE // 2 - 10),
    "constants past the limit": lambda: as_long_as_a_file("enum E{a", ",a", "}"),
    "parameters past the limit": lambda: as_long_as_a_file("class C{void m(int a", ",int a", "){}}"),
    "members past the limit": lambda: as_long_as_a_file("class C{", "int a;", "}"),
    "classes past the limit": lambda: as_long_as_a_file("", "class A{"),
    "arguments past the limit": lambda: as_long_as_a_file("class C{A", "<A"),
    "values past the limit": lambda: as_long_as_a_file("@A", "(@A"),
    "brackets of an initialiser": lambda: in_brackets("class C{int x=", "(", ")", ";}"),
    "brackets of a body": lambda: in_brackets("class C{void m()", "{", "}", "}"),
    "a bracket that is not closed": lambda: as_long_as_a_file("class C{int x=", "("),
    "a fault at the front": lambda: as_long_as_a_file("class C{}}", "a,"),
}

# Texts that need stack, by what is nested in them.
NESTS = {
    "nested classes": lambda: nested("class C{", "class A{", "", "}", "}"),
    "nested type arguments": lambda: nested("class C{A", "<A", "", ">", " a;}"),
    "nested annotations": lambda: nested("@A", "(@A", "", ")", " class C{}"),
    "nested arrays of an annotation": lambda: nested("@A(", "{", "", "}", ") class C{}"),
    "nested constants": lambda: nested("class C{int x=", "(", "1", ")", ";}", MOST_DEPTH - 1),
}


# Builds.


class Project:
    def __init__(self, files, configuration=None):
        self.folder = tempfile.mkdtemp(prefix="apt-bench-memory-")
        self.length = sum(len(text) for text in files.values())
        for path, text in files.items():
            whole = os.path.join(self.folder, path)
            os.makedirs(os.path.dirname(whole), exist_ok=True)
            with open(whole, "w", encoding="ascii") as file:
                file.write(text)
        if configuration is not None:
            with open(os.path.join(self.folder, "apt.json"), "w", encoding="ascii") as file:
                json.dump(configuration, file)

    def start(self, program, limits):
        def limit():
            for what, most in limits.items():
                resource.setrlimit(what, (most, most))

        return subprocess.Popen([program, "build"], cwd=self.folder, stdout=subprocess.PIPE, stderr=subprocess.DEVNULL, preexec_fn=limit)

    def build(self, program, limit):
        """The last line of the answer, the seconds, and the most bytes that the build held in memory."""
        start = time.perf_counter()
        build, most = self.start(program, {resource.RLIMIT_AS: limit}), 0
        while build.poll() is None:
            most = max(most, high_water_mark(build.pid))
            time.sleep(0.001)
        taken = time.perf_counter() - start
        with build.stdout:
            lines = build.stdout.read().decode().splitlines()
        return (lines[-1] if lines else f"status {build.returncode}"), taken, most

    def is_built(self, program, stack):
        """Whether this much stack is enough."""
        build = self.start(program, {resource.RLIMIT_STACK: stack})
        build.communicate()
        return build.returncode == 0

    def remove(self):
        shutil.rmtree(self.folder)


def measure(name, project, program, limit, goal=""):
    try:
        answer, taken, most = project.build(program, limit)
    finally:
        project.remove()
    print(f"{name}: {project.length / MEGABYTE:.2f} MB, {answer}, {taken:.2f} s, peak {most / MEGABYTE:.0f} MB, "
          f"{most / project.length:.1f} times the text{goal}", flush=True)


def least_stack(name, project, program):
    """Prints the least stack with which the project is built, within a step."""
    try:
        low, high = 0, USUAL_STACK
        if not project.is_built(program, high):
            sys.exit(f"{name}: the project is not built with {high // KILOBYTE} kB of stack")
        while high - low > STEP:
            middle = (low + high) // 2
            if project.is_built(program, middle):
                high = middle
            else:
                low = middle
    finally:
        project.remove()
    print(f"{name}: {project.length} bytes, {high // KILOBYTE} kB of stack are enough", flush=True)


def main():
    words = argparse.ArgumentParser(description=__doc__, formatter_class=argparse.RawDescriptionHelpFormatter)
    words.add_argument("--limit", type=int, default=8_000, help="the most megabytes of memory that a build may take")
    words.add_argument("program", nargs="?", default=rounds.PROGRAM)
    words.add_argument("cases", nargs="*", metavar="case")
    given = words.parse_args()
    program, limit = os.path.abspath(given.program), given.limit * MEGABYTE

    def is_wanted(name):
        return not given.cases or name in given.cases

    if is_wanted("project"):
        files, goal = Texts().project(), f", goal: at most {GOAL}"
        measure("project without a processor", Project(files), program, limit, goal)
        measure("project with one processor", Project(files, ONE_PROCESSOR), program, limit, goal)
    for name, text_of in FILES_OF_CASES.items():
        if is_wanted(name):
            measure(name, Project({"src/C.java": text_of()}), program, limit)
    for name, text_of in NESTS.items():
        if is_wanted(name):
            least_stack(name, Project({"src/C.java": text_of()}), program)


if __name__ == "__main__":
    main()
