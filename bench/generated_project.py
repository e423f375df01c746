#!/usr/bin/env python3
"""Compares a build of 1,000 classes by two of the program's own processors with javac and ecj over the same classes.

    bench/generated_project.py [PROGRAM] [--classes N] [--turns N]

PROGRAM is crates/apt_cli/out/apt_cli where it is left out. Class number i has a field whose type is class number i / 2,
rounded down, and both annotations: `builder` makes a source of each class, and `registry` one resource of all names.
The host starts both as children, each the program itself with `serve`. The compilers have two processors in Java, which
have to make the same files with the same bytes (BuilderProcessor.java, RegistryProcessor.java); they do with
-proc:only what the host does, and have the annotations as class files, where the host reads a stub.

Cold is a new process, whose start counts. Warm is a JVM that has done the same before (WarmCompiler.java); the host and
its children are started anew each time. All are run in turn in one run, in a folder in memory. It prints the medians by
the clock and by the processors, and how many times the compiler's time the host's is. The jars of ecj are those of
Debian's packages libeclipse-jdt-core-java and libeclipse-jdt-compiler-apt-java, below JARS or /usr/share/java; where
one is missing, javac stands alone.
"""
import argparse
import os
import shutil
import statistics
import subprocess
import sys
import tempfile

import jdk
from processors_java import JARS, beside_javac, host, measured

sys.path.insert(0, os.path.join(jdk.HERE, "..", "tests"))
import serving  # noqa: E402

ECJ = [os.path.join(JARS, f"eclipse-jdt-{name}.jar") for name in ("core", "compiler-apt")]
ECJ_MAIN = "org.eclipse.jdt.internal.compiler.batch.Main"
IN_MEMORY = "/dev/shm"
WARM_UP = 20
PROCESSORS = ["BuilderProcessor", "RegistryProcessor"]
CLASS = """package g;
/** Class number {number}. */
@apt.demo.Builder
@apt.demo.Registered
public class C{number} {{
  int a;
  C{half} up;
}}
"""
# Those that are used. They are public, which the compilers test and the host does not.
ANNOTATIONS = {f"apt/demo/{name}.java": f"package apt.demo;\npublic @interface {name} {{}}\n"
               for name in ("Builder", "Registered")}


def make_project(classes):
    """The project with its stubs and its configuration, and below `java` the annotations and processors compiled."""
    project = host.Project()
    sources = {f"src/g/C{at}.java": CLASS.format(number=at, half=at // 2) for at in range(classes)}
    serving.with_processors(project, ["builder", "registry"], sources)
    for path, text in ANNOTATIONS.items():
        project.write(os.path.join("annotations", path), text.encode())
    annotations = [project.path(f"annotations/{path}") for path in ANNOTATIONS]
    subprocess.run(["javac", "-d", project.path("java"), *annotations], check=True)
    jdk.compile_some(project.path("java"), [*PROCESSORS, "WarmCompiler"])
    return project


class UnderHost:
    """The build by the program, from nothing."""

    name = "host"

    def __init__(self, project):
        self.project = project

    def turn(self):
        shutil.rmtree(self.project.path("out"), ignore_errors=True)
        *taken, run = measured(lambda: self.project.run(["build"], seconds=beside_javac.SECONDS))
        if run.status != host.DONE_STATUS:
            sys.exit(f"the build ended with status {run.status}: {run.output.decode()[-500:]}")
        return taken

    def files(self):
        return self.project.published()


class Compiler:
    """A compiler with the two processors, whose files go below a folder of its own."""

    def __init__(self, project, name):
        self.name, self.project = name, project
        self.made = project.path(f"by {name}")
        self.places = ["-s", os.path.join(self.made, "SOURCE_OUTPUT"), "-d", os.path.join(self.made, "CLASS_OUTPUT")]
        src = project.path("src")
        self.sources = [os.path.join(src, path) for path in beside_javac.sources_below(src)]

    def empty(self):
        shutil.rmtree(self.made, ignore_errors=True)
        for place in ("SOURCE_OUTPUT", "CLASS_OUTPUT"):
            os.makedirs(os.path.join(self.made, place))

    def files(self):
        return beside_javac.bytes_below(self.made)


class Cold(Compiler):
    """The compiler in a new process each time."""

    def __init__(self, project, name, command):
        super().__init__(project, name + ", cold")
        java = project.path("java")
        self.command = [*command, "-proc:only", "-cp", java, "-processorpath", java, "-processor", ",".join(PROCESSORS),
                        *self.places, *self.sources]

    def turn(self):
        self.empty()
        return measured(lambda: subprocess.run(self.command, cwd=self.project.folder, check=True,
                                               stdout=subprocess.DEVNULL))[:2]


class Warm(Compiler):
    """The JDK's compiler in one JVM, which runs it again for each line that it is given."""

    def __init__(self, project):
        super().__init__(project, "javac, warm")
        java = project.path("java")
        words = ["-proc:only", "-cp", java, *self.places, "--", *self.sources]
        self.java = subprocess.Popen(["java", "-cp", java, "WarmCompiler", *words], text=True,
                                     stdin=subprocess.PIPE, stdout=subprocess.PIPE)
        for _ in range(WARM_UP):
            self.turn()

    def turn(self):
        self.empty()
        self.java.stdin.write("again\n")
        self.java.stdin.flush()
        line = self.java.stdout.readline()
        if not line.startswith("true "):
            sys.exit(f"{self.name} answered: {line}")
        return [float(word) for word in line.split()[1:]]


def runners(project):
    yield UnderHost(project)
    yield Cold(project, "javac", ["javac"])
    yield Warm(project)
    if all(map(os.path.exists, ECJ)):
        yield Cold(project, "ecj", ["java", "-cp", os.pathsep.join(ECJ), ECJ_MAIN, "-11"])


def tell(taken, count):
    medians = {name: [statistics.median(turn[at] for turn in turns) for at in (0, 1)] for name, turns in taken.items()}
    own = medians.pop(UnderHost.name)
    print(f"host: {own[0]:.3f} s by the clock, {own[1]:.3f} s by the processors (medians of {count})")
    for name, (clock, used) in medians.items():
        print(f"{name}: {clock:.3f} s by the clock, {used:.3f} s by the processors; the host takes "
              f"{own[0] / clock:.3f} and {own[1] / used:.3f} times that")


def main():
    parser = argparse.ArgumentParser()
    parser.add_argument("program", nargs="?", default=host.PROGRAM)
    parser.add_argument("--classes", type=int, default=1000)
    parser.add_argument("--turns", type=int, default=9)
    words = parser.parse_args()
    host.PROGRAM = words.program
    if os.path.isdir(IN_MEMORY):
        tempfile.tempdir = IN_MEMORY
    print(f"load: {os.getloadavg()[0]:.1f}", flush=True)
    project = make_project(words.classes)
    try:
        all_runners = list(runners(project))
        taken = {runner.name: [] for runner in all_runners}
        for _ in range(words.turns):
            for runner in all_runners:
                taken[runner.name].append(runner.turn())
                print(f"{runner.name}: {taken[runner.name][-1]}", file=sys.stderr)
        files = all_runners[0].files()
        different = [runner.name for runner in all_runners[1:] if runner.files() != files]
        if different or len(files) != words.classes + 1:
            sys.exit(f"{len(files)} files; those of {different} differ")
        print(f"the {len(files):,} files of all are the same")
        tell(taken, words.turns)
        print(f"load: {os.getloadavg()[0]:.1f}")
    finally:
        project.remove()
        shutil.rmtree(beside_javac.CLASSES, ignore_errors=True)


if __name__ == "__main__":
    main()
