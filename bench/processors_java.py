#!/usr/bin/env python3
"""Compares the build of 1,000 types with AutoValue's processor under the host with javac -proc:only over the same.

    bench/processors_java.py [PROGRAM] [--types N] [--turns N]

PROGRAM is crates/apt_cli/out/apt_cli where it is left out. Both begin cold: a build has the time in which the host and
the processor's Java start. The files of both have to be the same. It prints the least times of the turns, by the clock
and by the processors, and their ratios, which are to be at most 1.5; and then how many frames the processor sent, by
kind, and how long it waited for their answers. The jars are those of Debian's package libgoogle-auto-value-java, below
JARS or /usr/share/java.
"""
import argparse
import os
import resource
import shutil
import subprocess
import sys
import tempfile
import time

HERE = os.path.dirname(os.path.abspath(__file__))
sys.path.insert(0, os.path.join(HERE, "..", "tests"))
import beside_javac
import host

JARS = os.environ.get("JARS", "/usr/share/java")
CLASS_PATH = [os.path.join(JARS, "auto-value-annotations.jar")]
PROCESSOR_PATH = [os.path.join(JARS, name + ".jar") for name in (
    "auto-value", "auto-value-annotations", "auto-common", "auto-service-annotations", "guava", "escapevelocity",
    "javapoet")]
PROCESSOR = "com.google.auto.value.processor.AutoValueProcessor"
GOAL = 1.5
TYPE = """package p;

import com.google.auto.value.AutoValue;
import java.util.List;

@AutoValue
abstract class C{number} {{
  abstract String name();
  abstract int number();
  abstract List<String> parts();
  abstract boolean isLast();
}}
"""


def make_project(types):
    project = host.Project()
    shutil.rmtree(project.path("src"))
    shutil.rmtree(project.path("stubs"))
    for number in range(types):
        project.write(f"src/p/C{number}.java", TYPE.format(number=number).encode())
    subprocess.run(["java", "-jar", beside_javac.JAR, "stubs", "stubs", *CLASS_PATH, "--jdk", "--release", "11",
                    "--for", "src", "--asked-by", os.pathsep.join(PROCESSOR_PATH)], cwd=project.folder, check=True)
    return project


def measured(run):
    """The seconds that a run took by the clock, those of the processors, and what it gave."""
    used = resource.getrusage(resource.RUSAGE_CHILDREN)
    start = time.perf_counter()
    result = run()
    taken = time.perf_counter() - start
    now = resource.getrusage(resource.RUSAGE_CHILDREN)
    return taken, now.ru_utime + now.ru_stime - used.ru_utime - used.ru_stime, result


def under_host(project, *words):
    command = ["java", *words, "-cp", os.pathsep.join([beside_javac.JAR, *PROCESSOR_PATH]), "dinxobhe.Bridge",
               "--claim", "never", PROCESSOR]
    project.configure({PROCESSOR: command})
    shutil.rmtree(project.path("out"), ignore_errors=True)
    run = project.run(["build"], seconds=beside_javac.SECONDS)
    if run.status != host.DONE_STATUS:
        sys.exit(f"the build ended with status {run.status}: {run.output.decode()[-500:]}")
    return run


def under_javac(project):
    made = project.path("by-javac")
    shutil.rmtree(made, ignore_errors=True)
    os.mkdir(made)
    src = project.path("src")
    subprocess.run(["javac", "-encoding", "UTF-8", "--release", "11", "-proc:only", "-cp", os.pathsep.join(CLASS_PATH),
                    "-processorpath", os.pathsep.join(PROCESSOR_PATH), "-processor", PROCESSOR, "-d", made,
                    *beside_javac.sources_below(src)], cwd=src, check=True)
    return beside_javac.bytes_below(made)


def main():
    parser = argparse.ArgumentParser()
    parser.add_argument("program", nargs="?", default=host.PROGRAM)
    parser.add_argument("--types", type=int, default=1000)
    parser.add_argument("--turns", type=int, default=3)
    words = parser.parse_args()
    host.PROGRAM = words.program
    subprocess.run([os.path.join(HERE, "..", "kits", "java", "build")], check=True)
    project = make_project(words.types)
    try:
        own, javac = [], []
        for _ in range(words.turns):
            own.append(measured(lambda: under_host(project)))
            javac.append(measured(lambda: under_javac(project)))
        files = {path.split("/", 1)[1]: content for path, content in project.published().items()}
        if files != javac[0][2] or len(files) != words.types:
            sys.exit(f"the files differ: {len(files)} and {len(javac[0][2])}")
        for place, what in enumerate(["by the clock", "by the processors"]):
            host_time, javac_time = (min(turn[place] for turn in turns) for turns in (own, javac))
            print(f"{what}: {host_time:.2f} s under the host, {javac_time:.2f} s under javac, "
                  f"{host_time / javac_time:.2f} times as long (goal {GOAL})")
        print(under_host(project, "-Ddinxobhe.exchanges=true").messages.decode(), end="")
    finally:
        project.remove()
        shutil.rmtree(beside_javac.CLASSES, ignore_errors=True)


if __name__ == "__main__":
    main()
