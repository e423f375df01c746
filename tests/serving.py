#!/usr/bin/env python3
"""Runs the built program as a child with each of its own processors, and builds projects whose processors it is itself.

    tests/serving.py [PROGRAM]

PROGRAM is crates/apt_cli/out/apt_cli where it is left out. Each case prints a line. The first that fails ends the run
with status 1. The last line is 'serving: N passed, M failed'.
"""
import os
import select
import shutil
import subprocess
import sys

from host import (BAD_FRAME, BAD_WORDS, CHILD_ENDED, DONE_STATUS, ERRORS, KINDS, SECONDS, SINK_FAULT, TOO_MANY_ROUNDS,
                  WRONG_FRAME, Cases, Failure, Run, by_hand, expect, former_stands, frames, program, refused, say)

case = Cases("serving")

SOURCE_FAULT, INPUT_ENDED = 6, 24

# The first frames of a session with builder: Init and the answer to it.
INIT = by_hand("00000012 01 00000007 6275696c646572 000b 00000000")
HELLO = (by_hand("0000004c 40 00000001 00000010") + b"apt.demo.Builder"
         + by_hand("00000001 0000002a") + b"org.gradle.annotation.processing.isolating" + by_hand("00"))
# A round in which nothing is offered, and the answers to it.
ROUND = by_hand("0000000f 02 00000001 00 00 00000000 00000000")
DONE, DONE_UNCLAIMED = by_hand("00000002 41 01"), by_hand("00000002 41 00")


# A child by itself.


def serve(project, given, *words, **how):
    """The program as a child with these words, builder if there are none, that is given this input."""
    command = [*how.pop("before", ()), program(), "serve", *(words or ["builder"])]
    how = {"stdout": subprocess.PIPE, **how}
    run = subprocess.run(command, cwd=project.folder, input=given, stderr=subprocess.PIPE, timeout=SECONDS,
                         check=False, **how)
    return Run(run.returncode, run.stdout, run.stderr)


def answered(run, status, output, *messages):
    expect("the output", run.output, output)
    expect("the status", run.status, status)
    expect("the messages", run.messages, "".join(f"apt_cli: {line}\n" for line in messages).encode())


@case
def hello_of_builder(project):
    expect("the length of Hello", len(HELLO), 80)
    answered(serve(project, INIT), DONE_STATUS, HELLO)


@case
def each_processor_says_what_it_supports(project):
    checker = frames.frame(frames.HELLO, frames.texts_field(["apt.demo.Checked"]) + frames.texts_field([]) + b"\1")
    chain = frames.frame(frames.HELLO, frames.texts_field(["apt.demo.Chain"]) + frames.texts_field([]) + b"\0")
    aggregating = frames.texts_field(["org.gradle.annotation.processing.aggregating"])
    registry = frames.frame(frames.HELLO, frames.texts_field(["apt.demo.Registered"]) + aggregating + b"\0")
    answered(serve(project, INIT + ROUND, "checker"), DONE_STATUS, checker + DONE_UNCLAIMED)
    answered(serve(project, INIT + ROUND, "chain"), DONE_STATUS, chain + DONE)
    answered(serve(project, INIT + ROUND, "registry"), DONE_STATUS, registry + DONE)
    answered(serve(project, INIT + ROUND + ROUND), DONE_STATUS, HELLO + DONE + DONE)


@case
def the_folder_is_not_looked_at(project):
    shutil.rmtree(project.path("src"))
    project.write("apt.json", b"{")
    before = sorted(os.listdir(project.folder))
    answered(serve(project, INIT), DONE_STATUS, HELLO)
    os.remove(project.path("apt.json"))
    answered(serve(project, INIT), DONE_STATUS, HELLO)
    expect("what is there", sorted([*os.listdir(project.folder), "apt.json"]), before)


@case
def an_input_that_ends_before_its_first_frame(project):
    answered(serve(project, b""), INPUT_ENDED, b"", "the input ended before its first frame")


@case
def an_input_that_ends_within_a_frame(project):
    for count in range(1, len(INIT)):
        message = f"the input ended after {count} bytes of a frame"
        answered(serve(project, INIT[:count]), INPUT_ENDED, b"", message)
    answered(serve(project, INIT + ROUND[:5]), INPUT_ENDED, HELLO, "the input ended after 5 bytes of a frame")


@case
def a_bad_byte(project):
    answered(serve(project, by_hand("00000000")), BAD_FRAME, b"", "a frame of the input is bad, at byte 3 of it")
    answered(serve(project, INIT + by_hand("00000002 ff 00") + ROUND), BAD_FRAME, HELLO,
             "a frame of the input is bad, at byte 4 of it")


@case
def a_frame_that_may_not_come(project):
    messages = {tag: f"a frame with tag {tag} may not come there in the input" for tag in (1, 2, 24, 64)}
    answered(serve(project, ROUND + INIT), WRONG_FRAME, b"", messages[2])
    answered(serve(project, INIT + INIT), WRONG_FRAME, HELLO, messages[1])
    answered(serve(project, INIT + frames.noted()), WRONG_FRAME, HELLO, messages[24])
    answered(serve(project, INIT + ROUND + HELLO), WRONG_FRAME, HELLO + DONE, messages[64])


@case
def an_output_that_is_closed(project):
    closed = ["/bin/sh", "-c", 'exec "$@" >&-', "sh"]
    run = serve(project, INIT, before=closed)
    answered(run, SINK_FAULT, b"", "cannot write the standard output: Bad file descriptor (os error 9)")


@case
def an_output_that_is_full(project):
    with open("/dev/full", "wb") as full:
        run = serve(project, INIT, stdout=full)
    expect("the status", run.status, SINK_FAULT)


def heard(stream, count):
    """The next bytes of a pipe, which have to come while it waits for nothing more."""
    said = b""
    while len(said) < count:
        if not select.select([stream], [], [], SECONDS)[0]:
            raise Failure(f"nothing came after {said}")
        piece = os.read(stream.fileno(), count - len(said))
        if not piece:
            break
        said += piece
    return said


@case
def each_answer_comes_before_more_is_sent(project):
    with subprocess.Popen([program(), "serve", "builder"], cwd=project.folder, stdin=subprocess.PIPE,
                          stdout=subprocess.PIPE, bufsize=0) as child:
        for frame, answer in [(INIT, HELLO), (ROUND, DONE), (ROUND, DONE)]:
            child.stdin.write(frame)
            expect("the answer", heard(child.stdout, len(answer)), answer)
        child.stdin.close()
        expect("what comes behind it", heard(child.stdout, 1), b"")
    expect("the status", child.returncode, DONE_STATUS)


@case
def nothing_is_read_behind_an_answer_that_fails(project):
    source, sink = os.pipe()
    os.write(sink, INIT + ROUND + ROUND)
    os.close(sink)
    with open(source, "rb", buffering=0) as given, open("/dev/full", "wb") as full:
        run = subprocess.run([program(), "serve", "builder"], cwd=project.folder, stdin=given, stdout=full,
                             stderr=subprocess.DEVNULL, timeout=SECONDS, check=False)
        expect("what is left", given.read(), ROUND + ROUND)
    expect("the status", run.returncode, SINK_FAULT)


@case
def an_input_that_cannot_be_read(project):
    run = serve(project, b"", before=["/bin/sh", "-c", 'exec "$@" <&-', "sh"])
    answered(run, SOURCE_FAULT, b"", "cannot read the standard input: Bad file descriptor (os error 9)")
    run = serve(project, b"", before=["/bin/sh", "-c", 'exec "$@" </', "sh"])
    answered(run, SOURCE_FAULT, b"", "cannot read the standard input: Is a directory (os error 21)")


# Words behind `serve` that it does not have, and the place of the first of them.
WORDS = [
    ([], 1), ([""], 1), (["maker"], 1), (["Builder"], 1), (["maker", "x"], 1), ([b"\xff"], 1),
    (["builder", "x"], 2), (["builder", ""], 2), (["builder", "builder"], 2), (["builder", b"\xff"], 2),
]


@case
def words_that_are_no_serve(project):
    for words, place in WORDS:
        run = project.run(["serve", *words])
        expect(f"the output of {words}", run.output, f"refused: BadWords({place})\n".encode())
        expect("the status", run.status, BAD_WORDS)


# Projects whose processors are children with real pipes.


STUBS = {
    "stubs/apt/demo/Demo.java": """\
package apt.demo;
public @interface Builder {}
@java.lang.annotation.Inherited
@interface Checked {}
@interface Chain { int value(); }
@interface Registered {}
""",
    "stubs/java/lang/annotation/Inherited.java": """\
package java.lang.annotation;
public @interface Inherited {}
""",
}

USER = """\
package a;
@apt.demo.Builder
public class User {
  String name;
  int age;
}
"""

TEAM = """\
package a;
@apt.demo.Builder
public class Team {
  User lead;
}
"""

USER_BUILDER = b"""\
package a;
public class UserBuilder {
  public String name;
  public int age;
}
"""

TEAM_BUILDER = b"""\
package a;
public class TeamBuilder {
  public a.User lead;
}
"""


def served(name):
    """The command of a child with this processor."""
    return [program(), "serve", name]


# The kind of each processor.
KIND_OF = {"builder": "isolating", "checker": "isolating", "chain": "isolating", "registry": "aggregating"}


def put_sources(project, names, sources):
    """Lays down these sources and the stubs, and no others, and the kinds of these processors."""
    shutil.rmtree(project.path("src"), ignore_errors=True)
    shutil.rmtree(project.path("stubs"), ignore_errors=True)
    for path, text in {**STUBS, **sources}.items():
        project.write(path, text.encode())
    project.write(KINDS, "".join(f"{name},{KIND_OF[name]}\n" for name in names).encode())


def with_processor(project, name, sources, command=None):
    """The words of a build of these sources with this processor."""
    put_sources(project, [name], sources)
    return project.with_command(command or served(name), name)


def with_processors(project, names, sources, **items):
    """The words of a build of these sources with these processors, and with these further items of apt.json."""
    put_sources(project, names, sources)
    project.configure({name: served(name) for name in names}, **items)
    return ["build"]


def reported(run, status, *lines, started=1):
    expect("the messages", run.messages, b"")
    report = [f"mode: clean (Full), started {started}", *lines]
    expect("the output", run.output, "".join(f"{line}\n" for line in report).encode())
    expect("the status", run.status, status)


def builds_teams(project, command=None):
    """The build of two classes that ask for builders."""
    words = with_processor(project, "builder", {"src/a/User.java": USER, "src/a/Team.java": TEAM}, command)
    reported(project.run(words), DONE_STATUS,
             "file SOURCE_OUTPUT/a/TeamBuilder.java 62",
             "file SOURCE_OUTPUT/a/UserBuilder.java 80",
             "done: 3 rounds, 2 files, 0 errors, 0 warnings")
    expect("what was published", project.published(), {
        "SOURCE_OUTPUT/a/TeamBuilder.java": TEAM_BUILDER, "SOURCE_OUTPUT/a/UserBuilder.java": USER_BUILDER})


@case
def builders_of_two_classes(project):
    builds_teams(project)


# A child between the host and another child, which hands each byte on by itself, both ways.
BETWEEN = """
import os, subprocess, sys, threading
child = subprocess.Popen(sys.argv[1:], stdin=subprocess.PIPE, stdout=subprocess.PIPE, bufsize=0)
def hand_on(source, sink):
    while byte := os.read(source, 1):
        os.write(sink, byte)
there = threading.Thread(target=hand_on, args=(0, child.stdin.fileno()))
back = threading.Thread(target=hand_on, args=(child.stdout.fileno(), 1))
there.start(); back.start(); there.join(); child.stdin.close(); back.join()
sys.exit(child.wait())
"""


@case
def byte_by_byte(project):
    builds_teams(project, [sys.executable, "-c", BETWEEN, *served("builder")])


@case
def a_hello_that_is_cut_off(project):
    words = with_processor(project, "builder", {"src/a/User.java": USER}, project.command(["read", say(HELLO[:79])]))
    refused(project, words, CHILD_ENDED, "ChildEnded(builder, 79)")


@case
def a_class_that_is_there(project):
    there = "package a;\nclass UserBuilder {}\n"
    words = with_processor(project, "builder", {
        "src/a/User.java": USER, "src/a/Team.java": TEAM, "src/a/UserBuilder.java": there})
    reported(project.run(words), DONE_STATUS,
             "warning: src/a/User.java:3: [builder] builder not created",
             "file SOURCE_OUTPUT/a/TeamBuilder.java 62",
             "done: 3 rounds, 1 files, 0 errors, 1 warnings")


@case
def a_name_that_is_ambiguous(project):
    source = "package q;\nimport p.*;\nimport r.*;\n@apt.demo.Builder\nclass A {\n  N n;\n}\n"
    sources = {"src/q/A.java": source, "src/r/N.java": "package r;\npublic class N {}\n"}
    reported(project.run(with_processor(project, "builder", sources)), DONE_STATUS,
             "file SOURCE_OUTPUT/q/ABuilder.java 53", "done: 3 rounds, 1 files, 0 errors, 0 warnings")
    sources["src/p/N.java"] = "package p;\npublic class N {}\n"
    reported(project.run(with_processor(project, "builder", sources)), DONE_STATUS,
             "file SOURCE_OUTPUT/q/ABuilder.java 51", "done: 3 rounds, 1 files, 0 errors, 0 warnings")


@case
def classes_without_a_comment(project):
    source = "package a;\n@apt.demo.Checked\nclass Job {\n  void run() { }\n}\nclass Late extends Job {\n}\n"
    edited = source.replace("  void run() { }\n", "  void run() {\n    go();\n  }\n")
    for text, line in [(source, 6), (edited, 8)]:
        reported(project.run(with_processor(project, "checker", {"src/a/Job.java": text})), DONE_STATUS,
                 "warning: src/a/Job.java:3: [checker] no doc comment",
                 f"warning: src/a/Job.java:{line}: [checker] no doc comment",
                 "done: 2 rounds, 0 files, 0 errors, 2 warnings")


@case
def a_name_in_lower_case(project):
    project.publish_former()
    source = "package a;\n@apt.demo.Checked\nclass job {}\n"
    reported(project.run(with_processor(project, "checker", {"src/a/job.java": source})), ERRORS,
             "error: src/a/job.java:3: [checker] name begins in lower case",
             "errors: 2 rounds, 1 errors, 0 warnings")
    former_stands(project)


def chained(project, count):
    source = f"package a;\n@apt.demo.Chain({count})\nclass A {{}}\n"
    return with_processor(project, "chain", {"src/a/A.java": source})


@case
def a_chain_of_two(project):
    reported(project.run(chained(project, 2)), DONE_STATUS,
             "file SOURCE_OUTPUT/a/A_.java 50",
             "file SOURCE_OUTPUT/a/A__.java 51",
             "done: 4 rounds, 2 files, 0 errors, 0 warnings")


@case
def the_longest_chain(project):
    run = project.run(chained(project, 62))
    expect("the last line", run.output.splitlines()[-1:], [b"done: 64 rounds, 62 files, 0 errors, 0 warnings"])
    expect("the status", run.status, DONE_STATUS)
    before = project.published()
    run = project.run(chained(project, 63))
    expect("the output", run.output, b"refused: TooManyRounds(64)\n")
    expect("the status", run.status, TOO_MANY_ROUNDS)
    expect("what was published before", project.published(), before)
    expect("the number of files", len(before), 62)


# The resource of registry.
LIST = "CLASS_OUTPUT/META-INF/registry.txt"


def listed(project, sources, names):
    """The build of these sources, which lists these names."""
    text = "".join(f"{name}\n" for name in names)
    lines = [f"file {LIST} {len(text)}"] if names else []
    reported(project.run(with_processor(project, "registry", sources)), DONE_STATUS,
             *lines, f"done: 2 rounds, {len(lines)} files, 0 errors, 0 warnings")
    expect("what was published", project.published(), {LIST: text.encode()} if names else {})


@case
def types_that_are_registered(project):
    sources = {f"src/a/{name}.java": f"package a;\n@apt.demo.Registered\nclass {name} {{}}\n" for name in "AB"}
    listed(project, sources, ["a.A", "a.B"])
    del sources["src/a/B.java"]
    listed(project, sources, ["a.A"])
    listed(project, {}, [])


SHOP = {
    "src/shop/package-info.java": """\
/** The shop. */
package shop;
""",
    "src/shop/Base.java": """\
package shop;

import apt.demo.Checked;

@Checked
abstract class Base {
  long id;
}
""",
    "src/shop/Cart.java": """\
package shop;

@apt.demo.Registered
interface Cart {
  int SIZE = 4;
  default int size() { return SIZE; }
}
""",
    "src/shop/Item.java": """\
package shop;

import apt.demo.*;
import java.util.List;
import java.util.Map;

/** An item. */
@Builder
@Registered
public class Item<T extends Comparable<T>> extends Base {
  public static final int MAX = 10;
  private final List<T> parts = new java.util.ArrayList<>();
  Map<String, ? extends Number> prices;
  State state = State.NEW;
  /** The states. */
  public enum State {
    NEW, SOLD { @Override boolean last() { return true; } };
    boolean last() { return false; }
  }
  public <K> K find(K key, int... at) throws java.io.IOException {
    return at.length > 0 ? key : null;
  }
}
""",
}

ITEM_BUILDER = b"""\
package shop;
public class ItemBuilder {
  public List<T> parts;
  public Map<String,? extends Number> prices;
  public shop.Item.State state;
}
"""


@case
def three_processors_and_a_shop(project):
    words = with_processors(project, ["checker", "builder", "registry"], SHOP,
                            options={"debug": "false", "team": "core"})
    reported(project.run(words), DONE_STATUS,
             "warning: src/shop/Base.java:6: [checker] no doc comment",
             f"file {LIST} 20",
             "file SOURCE_OUTPUT/shop/ItemBuilder.java 145",
             "done: 3 rounds, 2 files, 0 errors, 1 warnings",
             started=3)
    expect("what was published", project.published(), {
        LIST: b"shop.Cart\nshop.Item\n", "SOURCE_OUTPUT/shop/ItemBuilder.java": ITEM_BUILDER})


if __name__ == "__main__":
    case.main()
