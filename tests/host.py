"""What the scripts of this folder share: frames by name, a project in a fresh folder, and the run of their cases."""
import json
import os
import shutil
import signal
import subprocess
import sys
import tempfile

import frames

HERE = os.path.dirname(os.path.abspath(__file__))
PROGRAM = os.path.join(HERE, "..", "crates", "apt_cli", "out", "apt_cli")
CHILD = os.path.join(HERE, "scripted_child.py")
SECONDS = 60

SOURCE = b"package p; @q.A class C {}"
# The stub that declares its annotation.
STUB = b"package q; public @interface A {}"
# The files of the configuration, beside apt.json.
SERVICES = "res/META-INF/services/javax.annotation.processing.Processor"
KINDS = "res/META-INF/gradle/incremental.annotation.processors"

FORMER = {"CLASS_OUTPUT/former": (0, b"what stood before")}
FORMER_FILES = {"CLASS_OUTPUT/former": b"what stood before"}

DONE_STATUS, ERRORS, BAD_WORDS, TREE_FAULT, SINK_FAULT, CHILD_FAULT = 0, 1, 2, 4, 5, 7
TOO_MANY_QUESTIONS, CLAIM_BROKEN, BAD_CONFIG, BAD_STUB, BAD_SOURCE, DUPLICATE_TYPE = 11, 12, 13, 14, 15, 16
UNKNOWN_PROCESSOR, BAD_GENERATED, GENERATED_DUPLICATE, TOO_MANY_ROUNDS, PAST_A_LIMIT = 17, 18, 19, 20, 21
CHILD_ENDED, BAD_FRAME, WRONG_FRAME = 8, 9, 10

# What the host sends in a build of the source above whose child creates no source.
INIT = frames.init("maker")
FIRST_ROUND = frames.round_frame(1, ["p.C"], offered=["q.A"])
LAST_ROUND = frames.round_frame(2, [], over=True)
ACCEPTED, EXISTS, UNSUPPORTED, BAD_NAME, TOO_LARGE = (frames.created(answer) for answer in range(5))
NOTED = frames.noted()

# What a child says.
HELLO = frames.hello("q.A")
CREATE = frames.create_resource("x", b"hi")
DONE = frames.done()


class Failure(Exception):
    """What a case has shown to be wrong."""


class NotRun(Exception):
    """Why a case cannot be run here."""


def expect(what, seen, wanted):
    if seen != wanted:
        raise Failure(f"{what}: {shortened(seen)}, and not {shortened(wanted)}")


def shortened(value):
    text = repr(value)
    return text if len(text) <= 2000 else f"{text[:1000]} .. {text[-1000:]} ({len(text)} characters)"


def by_hand(digits):
    """Bytes that are written out in hexadecimal digits."""
    return bytes.fromhex(digits)


def say(frame):
    """The step of a scripted child that says these bytes."""
    return "say:" + frame.hex()


def record_of(files):
    """The record of published files, by the number of each path's store file."""
    record = by_hand("41505452 0000") + frames.number_field(len(files))
    for path, (number, content) in sorted(files.items()):
        record += frames.text_field(path) + frames.number_field(number) + frames.number_field(len(content))
    return record


def program():
    return os.path.abspath(PROGRAM)


class Run:
    """How one run of the program ended."""

    def __init__(self, status, output, messages):
        self.status = status
        self.output = output
        self.messages = messages


class Project:
    """A fresh folder with one source and the stub of its annotation, and what the program is called with there."""

    def __init__(self):
        self.folder = tempfile.mkdtemp(prefix="apt-host-")
        self.record = self.path("child-record")
        self.write("src/p/C.java", SOURCE)
        self.write("stubs/q/A.java", STUB)

    def path(self, name):
        return os.path.join(self.folder, name)

    def write(self, name, content):
        os.makedirs(os.path.dirname(self.path(name)), exist_ok=True)
        with open(self.path(name), "wb") as file:
            file.write(content)

    def read(self, name):
        with open(self.path(name), "rb") as file:
            return file.read()

    def publish_former(self):
        self.write("out/store/0", FORMER["CLASS_OUTPUT/former"][1])
        self.write("out/record", record_of(FORMER))

    def published(self):
        """The bytes of each published file, by its path."""
        record, files = frames.Fields(self.read("out/record")), {}
        expect("the first bytes of the record", record.take(6), by_hand("41505452 0000"))
        for _ in range(record.number()):
            path, store, size = record.text(), record.number(), record.number()
            content = self.read(f"out/store/{store}")
            expect(f"the length of {path}", len(content), size)
            files[path] = content
        expect("the length of the record", len(record.data), record.at)
        return files

    def configure(self, commands, **items):
        """Writes an apt.json with these processors, by name in their order, each with the words of its command."""
        rows = {name: {"command": command, "version": "1"} for name, command in commands.items()}
        value = {"order": list(commands), **items, "processors": rows}
        self.write("apt.json", json.dumps({name: item for name, item in value.items() if item is not None}).encode())

    def command(self, steps, record="child-record"):
        """The command of a child that follows these steps, and writes what it reads to this file."""
        return [sys.executable, CHILD, self.path(record), *steps]

    def with_command(self, command, name="maker"):
        """The words of a build whose one processor is started by this command."""
        self.configure({name: command})
        return ["build"]

    def scripted(self, steps):
        """The words of a build with a child that follows these steps."""
        return self.with_command(self.command(steps))

    def sent(self, record="child-record"):
        """All bytes that a scripted child read."""
        return self.read(record)

    def run(self, words, stdout=subprocess.PIPE, stderr=subprocess.PIPE, before=(), environment=None,
            seconds=SECONDS):
        """Runs the program, and sees that no child outlives it."""
        command = [*before, program(), *words]
        host = subprocess.Popen(command, cwd=self.folder, stdin=subprocess.DEVNULL, stdout=stdout,
                                stderr=stderr, start_new_session=True, env=environment)
        try:
            output, messages = host.communicate(timeout=seconds)
        except subprocess.TimeoutExpired:
            end_session(host.pid)
            host.communicate()
            raise Failure(f"no end after {seconds} seconds") from None
        left = processes_of(host.pid)
        end_session(host.pid)
        expect("processes that are left", left, [])
        return Run(host.returncode, output, messages)

    def remove(self):
        shutil.rmtree(self.folder, ignore_errors=True)


def processes_of(session):
    """The numbers of the processes of a session, those that were not waited for included."""
    found = []
    for name in os.listdir("/proc"):
        if name.isdigit():
            try:
                with open(f"/proc/{name}/stat", "rb") as file:
                    fields = file.read().rpartition(b")")[2].split()
            except OSError:
                continue
            if int(fields[3]) == session:
                found.append(int(name))
    return found


def end_session(session):
    for number in processes_of(session):
        try:
            os.kill(number, signal.SIGKILL)
        except OSError:
            pass


def refused(project, words, status, line, **how):
    """A build that is refused prints this line alone, and the former output stands. Gives how the run ended."""
    project.publish_former()
    run = project.run(words, **how)
    expect("the output", run.output, f"refused: {line}\n".encode())
    expect("the status", run.status, status)
    former_stands(project)
    return run


def says(run, *lines):
    """The run wrote these lines to its standard error, and nothing else."""
    expect("the messages", run.messages, "".join(f"apt_cli: {line}\n" for line in lines).encode())


def former_stands(project):
    expect("the published files", project.published(), FORMER_FILES)


class Cases:
    """The cases of a script: a function is one where it has this as its decorator."""

    def __init__(self, title):
        self.title = title
        self.functions = []

    def __call__(self, function):
        self.functions.append(function)
        return function

    def main(self):
        """Runs each case in a project of its own. The first that fails ends the run with status 1."""
        global PROGRAM
        if len(sys.argv) > 1:
            PROGRAM = sys.argv[1]
        if not os.path.exists(PROGRAM):
            sys.exit(f"there is no program {PROGRAM}: build it by 'rt run' in crates/apt_cli")
        passed, left_out = 0, 0
        for function in self.functions:
            project = Project()
            try:
                function(project)
                passed += 1
                print(f"{function.__name__}: ok", flush=True)
            except NotRun as reason:
                left_out += 1
                print(f"{function.__name__}: not run: {reason}", flush=True)
            except (Failure, OSError) as failure:
                print(f"{function.__name__}: FAILED: {failure}")
                print(f"{self.title}: {passed} passed, 1 failed")
                sys.exit(1)
            finally:
                project.remove()
        more = f", {left_out} not run" if left_out else ""
        print(f"{self.title}: {passed} passed, 0 failed{more}")
