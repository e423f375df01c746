#!/usr/bin/env python3
"""Measures how long a child waits for the answers to its questions, beside a host that computes nothing.

    bench/sessions.py [--turns COUNT] [PROGRAM] [PART..]

PROGRAM is crates/apt_cli/out/apt_cli where it is left out. PART is `one`, `mixed`, `builder` or `large`; the first three are run
where none is named. The child is a program that `cc` compiles (bench/asker.c): it has its frames in memory, and reads each answer
whole before it sends the next one. In each turn it runs once below PROGRAM, and once below a small program that sends it the same
frames, which the child wrote down in a first run: that takes what the pipes and the child take, and nothing else. The time is from
the child's first frame to its last one, by its clock.

- `one`: 100,000 questions `Info` in one round, about 10 classes in turn. The time is to be at most 1.5 times the other one.
- `mixed`: over the 1,000 classes of the project below `Info` and `TypeOf` of each element and `AllMembers` of each type, each
  question once; and then the same questions over and over, 100,000 in all.
- `builder`: the processor of examples/builder, in Python, makes builders for the 1,000 classes. What it takes, and what the host
  takes beside it, is the time by the processor; how many frames it sends is counted in it.
- `large`: one round of 103 MB: 50,000 annotation interfaces with names of 1,024 bytes, 50 in a file, each on itself.

A class of the project has five fields, a constructor of them, two methods and a superclass, four of which are one below the other.
No test depends on these figures.
"""
import argparse
import json
import os
import shutil
import statistics
import subprocess
import sys
import tempfile
import time

HERE = os.path.dirname(os.path.abspath(__file__))
ROOT = os.path.dirname(HERE)
sys.path.insert(0, os.path.join(ROOT, "kits", "python"))
sys.path.insert(0, os.path.join(ROOT, "tests"))
import dinxobhe  # noqa: E402
import frames  # noqa: E402
from dinxobhe import Ask, Element  # noqa: E402

PROGRAM = os.path.join(ROOT, "crates", "apt_cli", "out", "apt_cli")
IN_MEMORY = "/dev/shm"
TURNS, GOAL, QUESTIONS, FEW, CLASSES = 5, 1.5, 100_000, 10, 1_000
PARTS = ("one", "mixed", "builder", "large")
BUILDER = os.path.join(ROOT, "examples", "builder")

# The types and the longest names that a project may have.
MOST_TYPES, LONGEST_NAME, IN_A_FILE = 50_000, 1_024, 50

CLASS = """package {package};

import java.util.List;

/** A class. */
@shop.Builder(prefix = "with")
public class C{number} {above}implements Comparable<C{number}> {{
    static final int MAX = {number};
    private final String name;
    private final int price;
    protected List<? extends {other}> parts;
    {other}[] items;
    long[][] sums;

    public C{number}(String name, int price, List<? extends {other}> parts, {other}[] items, long[][] sums) {{
        this.name = name;
    }}

    public <T extends Comparable<T>> T least{number}(List<T> of, T other) {{ return other; }}

    @Override
    public String toString() {{ return name; }}
}}
"""

# Counts the frames that the processor of the example sends, and says them and what it took by the processor.
COUNTED = """import resource, sys
import builder, dinxobhe
sent = 0
send = dinxobhe.Session.send
def counted(self, frame):
    global sent
    sent += 1
    send(self, frame)
dinxobhe.Session.send = counted
dinxobhe.run(builder.Builders)
used = resource.getrusage(resource.RUSAGE_SELF)
print("asker", sent, 0, int(used.ru_utime * 1e6), int(used.ru_stime * 1e6), file=sys.stderr)
"""

# Writes the elements of the project to the file `elements`, each with whether it is a type.
LISTER = """import dinxobhe
class Lister(dinxobhe.Processor):
    supports = ["*"]
    def listed(self, element, file):
        is_type = element.kind.is_class or element.kind.is_interface
        print(int(is_type), element.unit, *element.path, file=file)
        for each in [*element.enclosed_elements] + ([*element.type_parameters] if is_type else []):
            self.listed(each, file)
    def process(self, annotations, round):
        if round.roots:
            with open("elements", "w") as file:
                for root in round.roots:
                    self.listed(root, file)
dinxobhe.run(Lister)
"""


# ---- projects


def few_classes():
    return {"stubs/shop/Builder.java": "package shop; public @interface Builder {}\n",
            **{f"src/p/C{at}.java": f"package p; @shop.Builder public class C{at} {{}}\n" for at in range(FEW)}}


def many_classes():
    texts = {}
    for at in range(CLASSES):
        package, above = f"p{at % 10}", "" if at % 40 < 10 else f"extends p{at % 10}.C{at - 10} "
        other = f"p{(at + 3) % 10}.C{(at * 7 + 3) % CLASSES // 10 * 10 + (at + 3) % 10}"
        texts[f"src/{package}/C{at}.java"] = CLASS.format(package=package, number=at, above=above, other=other)
    return texts


def long_names():
    """Annotation interfaces with names as long as they may be, each on itself, some in a file."""
    package = "p" * (LONGEST_NAME - len(".A00000"))
    texts = {}
    for first in range(0, MOST_TYPES, IN_A_FILE):
        types = "".join(f"@A{at:05} @interface A{at:05} {{}}\n" for at in range(first, first + IN_A_FILE))
        texts[f"src/A{first}.java"] = f"package {package};\n{types}"
    return texts


class Project:
    """A folder with these files, and the stubs and the processor of the example, whose annotation is a source here."""

    def __init__(self, texts, has_example=True):
        self.folder = tempfile.mkdtemp(prefix="apt-bench-sessions-", dir=IN_MEMORY if os.path.isdir(IN_MEMORY) else None)
        if has_example:
            shutil.copytree(os.path.join(BUILDER, "stubs"), self.path("stubs"))
            self.write("stubs/shop/Builder.java", 'package shop; public @interface Builder { String prefix() default ""; }\n')
        shutil.copy(os.path.join(BUILDER, "builder.py"), self.folder)
        shutil.copy(os.path.join(ROOT, "kits", "python", "dinxobhe.py"), self.folder)
        for name, text in texts.items():
            self.write(name, text)

    def path(self, name):
        return os.path.join(self.folder, name)

    def write(self, name, content):
        os.makedirs(os.path.dirname(self.path(name)), exist_ok=True)
        with open(self.path(name), "wb") as file:
            file.write(content if isinstance(content, bytes) else content.encode())

    def built(self, command):
        """A build with a child of this command."""
        rows = {"asker": {"command": command, "version": "1"}}
        self.write("apt.json", json.dumps({"order": ["asker"], "processors": rows}))
        shutil.rmtree(self.path("out"), ignore_errors=True)
        return Run([PROGRAM, "build"], self.folder)

    def asked(self, asker, spelled, turns):
        """The runs of a child that sends these frames in round 1, below the host and below one that computes nothing, in turn."""
        self.write("said", frames.hello("*") + b"".join(spelled) + 2 * frames.done())
        child = [asker, "child", self.path("said")]
        self.built([*child, self.path("heard")])
        return [(self.built(child), Run([asker, "echo", self.path("heard"), *child], self.folder)) for _ in range(turns)]

    def elements(self):
        """All elements of the roots, each with whether it is a type."""
        self.write("lister.py", LISTER)
        self.built([sys.executable, self.path("lister.py")])
        with open(self.path("elements"), encoding="utf-8") as file:
            lines = [line.split() for line in file]
        return [(is_type == "1", Element(unit, tuple(map(int, path)))) for is_type, unit, *path in lines]

    def remove(self):
        shutil.rmtree(self.folder)


class Run:
    """What a run took: in seconds by the clock, between the child's first frame and its last one, and by the processor."""

    def __init__(self, command, folder):
        with tempfile.TemporaryFile() as messages, tempfile.TemporaryFile() as output:
            start = time.perf_counter()
            program = subprocess.Popen(command, cwd=folder, stdout=output, stderr=messages)
            _, status, used = os.wait4(program.pid, 0)
            self.seconds = time.perf_counter() - start
            program.returncode = status
            messages.seek(0)
            said = messages.read().decode()
            output.seek(0)
            self.report = output.read().decode().splitlines()
        if status != 0:
            sys.exit(f"{command} ended with {status}: {self.report[-1:]}{said[-500:]}")
        told = [line.split()[1:] for line in said.splitlines() if line.startswith("asker ")]
        self.frames, *taken = map(int, told[0]) if told else (0, 0, 0, 0)
        self.waited, *by_child = (each / 1e6 for each in taken)
        self.by_child = sum(by_child)
        # (without what the child takes before its first frame and behind its last one, which is little)
        self.by_host = used.ru_utime + used.ru_stime - self.by_child
        self.peak = used.ru_maxrss * 1024


# ---- parts


def median(runs, value):
    return statistics.median(getattr(run, value) for run in runs)


def told(runs, questions):
    """What the child waited, the median and the least, and what the host and the child took by the processor."""
    least = min(run.waited for run in runs)
    return (f"{median(runs, 'waited'):.3f} s, at least {least:.3f} s ({least / questions * 1e6:.1f} us each), by the processor "
            f"{median(runs, 'by_host'):.3f} s and {median(runs, 'by_child'):.3f} s")


def tell(what, pairs, goal=""):
    """Lines on the child below each host, and how many times as long it waited below PROGRAM."""
    hosts, others = zip(*pairs)
    questions = hosts[0].frames - 3
    medians = median(hosts, "waited") / median(others, "waited")
    least = min(run.waited for run in hosts) / min(run.waited for run in others)
    used = [median(runs, "by_host") + median(runs, "by_child") for runs in (hosts, others)]
    print(f"{what}: {questions:,} questions in {told(hosts, questions)}; the same frames without the host {told(others, questions)}")
    print(f"{what}: {medians:.2f} times as long, the least {least:.2f} times{goal}; by the processor {used[0] / used[1]:.2f} times", flush=True)


def over_and_over(questions, count):
    return [questions[at % len(questions)] for at in range(count)]


def measure_one(asker, turns):
    project = Project(few_classes(), has_example=False)
    questions = [dinxobhe.spell(Ask.Info(Element(f"p.C{at}", ()))) for at in range(FEW)]
    tell("one", project.asked(asker, over_and_over(questions, QUESTIONS), turns), f" (aim: at most {GOAL})")
    project.remove()


def mixed_questions(elements):
    for is_type, element in elements:
        yield dinxobhe.spell(Ask.Info(element))
        yield dinxobhe.spell(Ask.TypeOf(element))
        if is_type:
            yield dinxobhe.spell(Ask.AllMembers(element))


def measure_mixed(asker, turns):
    project = Project(many_classes())
    questions = list(mixed_questions(project.elements()))
    nothing = project.asked(asker, [], turns)
    print(f"a build of {CLASSES:,} classes without questions: {median([host for host, _ in nothing], 'by_host'):.3f} s by the processor")
    tell("mixed, once", project.asked(asker, questions, turns))
    tell("mixed, over and over", project.asked(asker, over_and_over(questions, QUESTIONS), turns))
    project.remove()


def measure_builder(_asker, turns):
    project = Project(many_classes())
    project.write("counted.py", COUNTED)
    runs = [project.built([sys.executable, project.path("counted.py")]) for _ in range(turns)]
    print(f"builder: {runs[0].report[-1]}; {runs[0].frames:,} frames of the child in {median(runs, 'seconds'):.2f} s; by the "
          f"processor {median(runs, 'by_host'):.2f} s of the host and {median(runs, 'by_child'):.2f} s of the child", flush=True)
    project.remove()


def measure_large(asker, _turns):
    project = Project(long_names(), has_example=False)
    [(host, other)] = project.asked(asker, [], 1)
    size = os.path.getsize(project.path("heard"))
    print(f"large: {size:,} bytes for the child; the build {host.seconds:.2f} s, {host.by_host:.2f} s by the processor, peak "
          f"{host.peak / 1e6:,.0f} MB; the child waited {host.waited:.2f} s, without the host {other.waited:.2f} s", flush=True)
    project.remove()


MEASURES = {"one": measure_one, "mixed": measure_mixed, "builder": measure_builder, "large": measure_large}


def main():
    global PROGRAM
    words = argparse.ArgumentParser()
    words.add_argument("--turns", type=int, default=TURNS)
    words.add_argument("program", nargs="?", default=PROGRAM)
    words.add_argument("parts", nargs="*", metavar="PART")
    asked = words.parse_args()
    PROGRAM = os.path.abspath(asked.program)
    with tempfile.TemporaryDirectory(prefix="apt-bench-asker-") as folder:
        asker = os.path.join(folder, "asker")
        subprocess.run(["cc", "-O2", "-o", asker, os.path.join(HERE, "asker.c")], check=True)
        print(f"load: {os.getloadavg()[0]:.1f}", flush=True)
        for part in asked.parts or PARTS[:3]:
            MEASURES[part](asker, asked.turns)
        print(f"load: {os.getloadavg()[0]:.1f}")


if __name__ == "__main__":
    main()
