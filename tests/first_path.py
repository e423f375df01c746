#!/usr/bin/env python3
"""Runs the built program in fresh folders, over real files, pipes and child programs.

    tests/first_path.py [PROGRAM]

PROGRAM is crates/apt_cli/out/apt_cli where it is left out. Each case prints a line. The first that fails ends the run
with status 1. The last line is 'first path: N passed, M failed'. The cases that look at the host's calls of the system
are not run where there is no strace.
"""
import os
import shutil
import subprocess
import sys
import time

from host import (ACCEPTED, BAD_CONFIG, BAD_FRAME, BAD_GENERATED, BAD_SOURCE, BAD_STUB, BAD_WORDS, CHILD_ENDED,
                  CHILD_FAULT, CLAIM_BROKEN, CREATE, DONE, DONE_STATUS, DUPLICATE_TYPE, EXISTS, FIRST_ROUND, HELLO,
                  INIT, KINDS, LAST_ROUND, PAST_A_LIMIT, SECONDS, SERVICES, SINK_FAULT, SOURCE, TREE_FAULT,
                  UNKNOWN_PROCESSOR, WRONG_FRAME, Cases, Failure, NotRun, by_hand, expect, former_stands, frames,
                  processes_of, program, record_of,
                  refused, say, says)

# The steps of a child that creates one file, and of one that creates nothing.
CREATES = ["read", say(HELLO), "read", say(CREATE), "read", say(DONE), "read", say(DONE), "rest"]
CREATES_NOTHING = ["read", say(HELLO), "read", say(DONE), "read", say(DONE), "rest"]

REPORT_OF_ONE_FILE = (
    b"mode: clean (Full), started 1\n"
    b"file CLASS_OUTPUT/x 2\n"
    b"done: 2 rounds, 1 files, 0 errors, 0 warnings\n"
)
REPORT_OF_NO_FILE = b"mode: clean (Full), started 1\ndone: 2 rounds, 0 files, 0 errors, 0 warnings\n"
REPORT_WITHOUT_PROCESSOR = b"mode: clean (Full), started 0\ndone: 2 rounds, 0 files, 0 errors, 0 warnings\n"

# What `help` prints: each row of the table of words.
HELP = b"build [--full] [key=value]..\nserve NAME\nhelp\n"

case = Cases("first path")


# One round, from bytes to a published record.


@case
def one_round_publishes_a_file(project):
    run = project.run(project.scripted(CREATES))
    expect("the output", run.output, REPORT_OF_ONE_FILE)
    expect("the status", run.status, DONE_STATUS)
    expect("what the child was sent", project.sent(), INIT + FIRST_ROUND + ACCEPTED + LAST_ROUND)
    expect("the store file", project.read("out/store/0"), b"hi")
    expect("the record", project.read("out/record"), record_of({"CLASS_OUTPUT/x": (0, b"hi")}))
    expect("the files below out", sorted(os.listdir(project.path("out"))), ["record", "store"])


@case
def hello_is_answered_by_done(project):
    refused(project, project.scripted(["read", say(DONE), "rest"]), WRONG_FRAME, "WrongFrame(maker, 65)")


@case
def a_source_that_is_no_java_file(project):
    project.write("src/a/X.java", b"class {")
    refused(project, project.scripted(CREATES), BAD_SOURCE, "BadSource(src/a/X.java, 6)")
    expect("whether the child was started", os.path.exists(project.record), False)


@case
def two_sources_of_one_type(project):
    project.write("src/a/User.java", b"package a;\npublic class User {}\n")
    project.write("src/b/U.java", b"package a; class User {}")
    refused(project, project.scripted(CREATES), DUPLICATE_TYPE, "DuplicateType(a.User, src/a/User.java, src/b/U.java)")
    expect("whether the child was started", os.path.exists(project.record), False)


@case
def a_stub_that_is_no_java_file(project):
    project.write("stubs/X.java", b'"')
    project.write("src/a/X.java", b"class {")
    refused(project, project.scripted(CREATES), BAD_STUB, "BadStub(stubs/X.java, 0)")
    expect("whether the child was started", os.path.exists(project.record), False)


@case
def a_source_of_a_type_that_a_stub_has(project):
    project.write("stubs/z/User.java", b"package a;\npublic class User {}\n")
    project.write("src/b/U.java", b"package a; class User {}")
    refused(project, project.scripted(CREATES), DUPLICATE_TYPE, "DuplicateType(a.User, stubs/z/User.java, src/b/U.java)")
    expect("whether the child was started", os.path.exists(project.record), False)


@case
def stubs_are_no_roots(project):
    project.write("stubs/q/B.java", b"package q; public @interface B {}")
    project.write("stubs/r/B.java", b"package r; @q.B class B {}")
    run = project.run(project.scripted(CREATES))
    expect("the output", run.output, REPORT_OF_ONE_FILE)
    expect("the status", run.status, DONE_STATUS)
    expect("what the child was sent", project.sent(), INIT + FIRST_ROUND + ACCEPTED + LAST_ROUND)


@case
def a_source_without_an_annotation(project):
    project.write("src/p/C.java", b"package p; class C {}")
    run = project.run(project.scripted(["read", say(HELLO), "rest"]))
    expect("the output", run.output, REPORT_OF_NO_FILE)
    expect("the status", run.status, DONE_STATUS)
    expect("what the child was sent", project.sent(), INIT)


@case
def an_annotation_that_is_declared_nowhere(project):
    os.remove(project.path("stubs/q/A.java"))
    run = project.run(project.scripted(["read", say(HELLO), "rest"]))
    expect("the output", run.output, REPORT_OF_NO_FILE)
    expect("the status", run.status, DONE_STATUS)
    expect("what the child was sent", project.sent(), INIT)


@case
def an_annotation_by_an_import(project):
    project.write("src/p/C.java", b"package p; import q.*; @A class C {}")
    run = project.run(project.scripted(CREATES))
    expect("the output", run.output, REPORT_OF_ONE_FILE)
    expect("the status", run.status, DONE_STATUS)
    expect("what the child was sent", project.sent(), INIT + FIRST_ROUND + ACCEPTED + LAST_ROUND)


# The project of a shop: a package with a doc comment and without an annotation, a class with one that is imported, an interface with one by its
# whole name, and a class with two that are imported on demand, a field initialiser, a nested enum with a body and a method with type parameters.
# What is declared nowhere, as Override, is not present.
SHOP = {
    "package-info.java": """/** The shop. */
package shop;
""",
    "Base.java": """package shop;

import apt.demo.Checked;

@Checked
abstract class Base {
  long id;
}
""",
    "Cart.java": """package shop;

@apt.demo.Registered
interface Cart {
  int SIZE = 4;
  default int size() { return SIZE; }
}
""",
    "Item.java": """package shop;

import apt.demo.*;
import java.util.List;
import java.util.Map;

/** An item. */
@Builder
@Registered
public class Item<T extends Comparable<T>> extends Base {
  public static final int MAX = 10;
  private final List<T> parts = new java.util.ArrayList<>();
  Map<String, ? extends Number> prices;
  State state = State.NEW;
  /** The states. */
  public enum State {
    NEW, SOLD { @Override boolean last() { return true; } };
    boolean last() { return false; }
  }
  public <K> K find(K key, int... at) throws java.io.IOException {
    return at.length > 0 ? key : null;
  }
}
""",
}


def put_shop(project):
    shutil.rmtree(project.path("src"))
    for name, content in SHOP.items():
        project.write("src/shop/" + name, content.encode())
    for name in ("Builder", "Checked", "Registered"):
        project.write(f"stubs/apt/demo/{name}.java", f"package apt.demo; public @interface {name} {{}}".encode())


@case
def the_project_of_a_shop(project):
    put_shop(project)
    run = project.run(project.scripted(["read", say(frames.hello("*")), "read", say(DONE), "read", say(DONE), "rest"]))
    expect("the output", run.output, REPORT_OF_NO_FILE)
    roots = ["shop.Base", "shop.Cart", "shop.Item", "shop.package-info"]
    first = frames.round_frame(1, roots, offered=["apt.demo.Builder", "apt.demo.Checked", "apt.demo.Registered"])
    expect("what the child was sent", project.sent(), INIT + first + LAST_ROUND)


# The elements of the shop by unit and path, each with the line of its name. What stands behind the written members is
# added by the language: the constructors of Base, of State and of Item, and `values` and `valueOf` of State with a
# parameter.
SHOP_LINES = [
    ("Base", 6, []), ("Base", 7, [0]), ("Base", 6, [1]),
    ("Cart", 4, []), ("Cart", 5, [0]), ("Cart", 6, [1]),
    ("Item", 10, []), ("Item", 10, [0]), ("Item", 11, [1]), ("Item", 12, [2]), ("Item", 13, [3]), ("Item", 14, [4]),
    ("Item", 16, [5]), ("Item", 17, [5, 0]), ("Item", 17, [5, 1]), ("Item", 18, [5, 2]), ("Item", 16, [5, 3]),
    ("Item", 16, [5, 4]), ("Item", 16, [5, 5]), ("Item", 16, [5, 5, 0]), ("Item", 20, [6]), ("Item", 20, [6, 0]),
    ("Item", 20, [6, 1]), ("Item", 20, [6, 2]), ("Item", 10, [7]), ("package-info", 2, []),
]


@case
def messages_at_the_elements_of_a_shop(project):
    put_shop(project)
    steps = ["read", say(frames.hello("*")), "read"]
    for name, line, path in SHOP_LINES:
        element = bytes([1]) + frames.element_field("shop." + name, *path)
        steps += [say(frames.message(frames.NOTE, f"expected at {line}", element)), "read"]
    run = project.run(project.scripted([*steps, say(DONE), "read", say(DONE), "rest"]))
    lines = [f"note: src/shop/{name}.java:{line}: [maker] expected at {line}\n" for name, line, _ in SHOP_LINES]
    first, last = REPORT_OF_NO_FILE.splitlines(keepends=True)
    expect("the output", run.output, first + "".join(lines).encode() + last)
    expect("the status", run.status, DONE_STATUS)


@case
def a_word_that_is_no_option(project):
    refused(project, ["build", "maker"], BAD_WORDS, "BadWords(1)")
    refused(project, ["build", "k=v", "--fast"], BAD_WORDS, "BadWords(2)")
    refused(project, ["build", "--full", "--full"], BAD_WORDS, "BadWords(2)")


@case
def no_words(project):
    refused(project, [], BAD_WORDS, "BadWords(0)")


@case
def an_unknown_command(project):
    refused(project, ["biuld"], BAD_WORDS, "BadWords(0)")


@case
def the_table_of_words(project):
    # It does not look at the project, which a build would refuse, nor at the output of a former build.
    project.publish_former()
    project.write("apt.json", b"no JSON")
    run = project.run(["help"])
    expect("the output", run.output, HELP)
    expect("the status", run.status, DONE_STATUS)
    says(run)
    former_stands(project)


@case
def a_word_behind_help(project):
    refused(project, ["help", "build"], BAD_WORDS, "BadWords(1)")
    refused(project, ["help", "help"], BAD_WORDS, "BadWords(1)")
    refused(project, ["help", b"\xff"], BAD_WORDS, "BadWords(1)")
    refused(project, ["Help"], BAD_WORDS, "BadWords(0)")


@case
def help_without_an_output(project):
    with open("/dev/full", "wb") as full:
        run = project.run(["help"], stdout=full)
    expect("the status", run.status, SINK_FAULT)
    # Neither the table nor the line of the refusal.
    says(run, *2 * ["cannot write the standard output: No space left on device (os error 28)"])


@case
def a_build_without_a_processor(project):
    run = project.run(["build"])
    expect("the output", run.output, REPORT_WITHOUT_PROCESSOR)
    expect("the status", run.status, DONE_STATUS)
    expect("the record", project.read("out/record"), record_of({}))


@case
def an_empty_folder(project):
    shutil.rmtree(project.path("src"))
    run = project.run(["build"])
    expect("the output", run.output, REPORT_WITHOUT_PROCESSOR)
    expect("the status", run.status, DONE_STATUS)


@case
def a_child_that_creates_nothing(project):
    project.publish_former()
    run = project.run(project.scripted(CREATES_NOTHING))
    expect("the output", run.output, REPORT_OF_NO_FILE)
    expect("the status", run.status, DONE_STATUS)
    expect("what the child was sent", project.sent(), INIT + FIRST_ROUND + LAST_ROUND)
    expect("the published files", project.published(), {})


@case
def a_build_replaces_the_former_output(project):
    project.publish_former()
    run = project.run(project.scripted(CREATES))
    expect("the output", run.output, REPORT_OF_ONE_FILE)
    expect("the published files", project.published(), {"CLASS_OUTPUT/x": b"hi"})
    expect("the record", project.read("out/record"), record_of({"CLASS_OUTPUT/x": (1, b"hi")}))


# Words that are no text.


@case
def a_first_word_that_is_no_text(project):
    refused(project, [b"b\xff"], BAD_WORDS, "BadWords(0)")


@case
def an_option_that_is_no_text(project):
    refused(project, ["build", b"k=\xff", "m"], BAD_WORDS, "BadWords(1)")


@case
def a_later_word_that_is_no_text(project):
    refused(project, ["build", "k=v", "--full", b"\xc3"], BAD_WORDS, "BadWords(3)")


@case
def a_wrong_word_before_one_that_is_no_text(project):
    refused(project, ["biuld", b"\xff"], BAD_WORDS, "BadWords(0)")


@case
def long_words(project):
    # A word is read whole, however much longer it is than the room that it is first read into.
    for length in [255, 256, 257, 300, 511, 512, 513, 4000]:
        value = "x" * length
        refused(project, ["build", value], BAD_WORDS, "BadWords(1)")
        run = project.run([*project.scripted(CREATES_NOTHING), "k=" + value])
        expect("the output", run.output, REPORT_OF_NO_FILE)
        init = frames.init("maker", {"k": value})
        expect("what the child was sent", project.sent(), init + FIRST_ROUND + LAST_ROUND)
        name = "x" * length
        refused(project, project.with_command(["no-such-program"], name), CHILD_FAULT, f"ChildFault({name})")


# Children that do not do what they should.


@case
def a_program_that_is_not_there(project):
    not_started(project, "no-such-program", "No such file or directory (os error 2)")


@case
def a_path_that_is_not_there(project):
    not_started(project, "./no-such-program", "No such file or directory (os error 2)")


@case
def a_file_that_is_no_program(project):
    not_started(project, "./src/p/C.java", "Permission denied (os error 13)")


@case
def a_folder_as_a_program(project):
    not_started(project, "./src", "Permission denied (os error 13)")


def not_started(project, word, reason):
    run = refused(project, project.with_command([word]), CHILD_FAULT, "ChildFault(maker)")
    says(run, f"cannot start {word}: {reason}")


@case
def what_a_child_complains(project):
    run = project.run(project.scripted(["complain:no", *CREATES]))
    expect("the output", run.output, REPORT_OF_ONE_FILE)
    expect("what the child wrote to its standard error", run.messages, b"no\n")


@case
def a_program_without_a_name(project):
    run = refused(project, project.with_command([""]), CHILD_FAULT, "ChildFault(maker)")
    says(run, 'cannot start "": No such file or directory (os error 2)')


@case
def a_program_of_the_search_path(project):
    project.write("tools/maker-tool", b"#!/bin/sh\nexec " + program_line(project.command(CREATES)) + b"\n")
    os.chmod(project.path("tools/maker-tool"), 0o755)
    environment = dict(os.environ, PATH="/no-such-folder:" + project.path("tools") + ":" + os.environ["PATH"])
    run = project.run(project.with_command(["maker-tool"]), environment=environment)
    expect("the output", run.output, REPORT_OF_ONE_FILE)
    expect("the status", run.status, DONE_STATUS)


def program_line(words):
    return " ".join("'" + word + "'" for word in words).encode()


@case
def a_program_of_the_project(project):
    project.write("tools/maker-tool", b"#!/bin/sh\nexec " + program_line(project.command(CREATES)) + b"\n")
    os.chmod(project.path("tools/maker-tool"), 0o755)
    run = project.run(project.with_command(["tools/maker-tool"]))
    expect("the output", run.output, REPORT_OF_ONE_FILE)
    expect("the status", run.status, DONE_STATUS)


@case
def a_child_that_ends_at_once(project):
    # The host may see that nobody reads what it sends, or that nothing comes.
    project.publish_former()
    run = project.run(project.with_command(["true"]))
    ends = {CHILD_FAULT: b"refused: ChildFault(maker)\n", CHILD_ENDED: b"refused: ChildEnded(maker, 0)\n"}
    expect("the output", run.output, ends.get(run.status))
    former_stands(project)


@case
def a_child_that_ends_after_init(project):
    run = refused(project, project.scripted(["read"]), CHILD_ENDED, "ChildEnded(maker, 0)")
    says(run, "processor maker: frame at offset 0: end of stream after 0 bytes of it")


@case
def a_child_that_ends_with_a_status(project):
    run = ended_by(project, "exit 7")
    says(run, "processor /bin/sh ended with status 7")


@case
def a_child_that_a_signal_ends(project):
    run = ended_by(project, "kill -KILL $$")
    says(run, "processor /bin/sh ended by signal 9")


def ended_by(project, command):
    """A build whose child does all that it should, and then this. Its output is published."""
    shell = ["/bin/sh", "-c", '"$@"; ' + command, "sh"]
    run = project.run(project.with_command([*shell, *project.command(CREATES)]))
    expect("the output", run.output, REPORT_OF_ONE_FILE)
    expect("the status", run.status, DONE_STATUS)
    return run


@case
def a_child_that_ends_badly_where_the_build_is_refused(project):
    # It ends with status 3 where its input ends before the frame that it waits for.
    run = refused(project, project.scripted([say(DONE), "read", "read"]), WRONG_FRAME, "WrongFrame(maker, 65)")
    says(run, f"processor {sys.executable} ended with status 3",
         "processor maker: frame at offset 0, tag 65: it may not stand there")


@case
def a_child_that_ends_inside_a_frame(project):
    refused(project, project.scripted(["read", say(HELLO[:-1])]), CHILD_ENDED, "ChildEnded(maker, 20)")


@case
def a_child_that_closes_its_output(project):
    # It lives on: in the first two cases until its input ends, and in the third one for a second more.
    run = refused(project, project.scripted(["read", "mute", "rest"]), CHILD_ENDED, "ChildEnded(maker, 0)")
    says(run, "processor maker: frame at offset 0: end of stream after 0 bytes of it")
    steps = ["read", say(HELLO), "read", say(CREATE[:-1]), "mute", "rest"]
    refused(project, project.scripted(steps), CHILD_ENDED, f"ChildEnded(maker, {len(CREATE) - 1})")
    start = time.monotonic()
    refused(project, project.scripted(["read", "mute", "rest", "wait:1"]), CHILD_ENDED, "ChildEnded(maker, 0)")
    expect("whether the host waited for it", time.monotonic() - start >= 1, True)


@case
def a_child_that_closes_its_output_at_the_end(project):
    run = project.run(project.scripted(CREATES[:-1] + ["mute", "rest"]))
    expect("the output", run.output, REPORT_OF_ONE_FILE)
    expect("the status", run.status, DONE_STATUS)
    says(run)


@case
def a_child_that_closes_its_input_before_the_last_round(project):
    steps = CREATES[:5] + ["deaf", say(DONE)]
    run = refused(project, project.scripted(steps), CHILD_FAULT, "ChildFault(maker)")
    says(run, f"cannot send to {sys.executable}: Broken pipe (os error 32)")


@case
def a_child_that_closes_its_input(project):
    steps = ["read", "deaf", say(HELLO), "wait:0.1"]
    run = refused(project, project.scripted(steps), CHILD_FAULT, "ChildFault(maker)")
    says(run, f"cannot send to {sys.executable}: Broken pipe (os error 32)")


@case
def a_child_that_writes_a_byte_at_a_time(project):
    steps = [step.replace("say:", "spell:") for step in CREATES]
    run = project.run(project.scripted(steps))
    expect("the output", run.output, REPORT_OF_ONE_FILE)
    expect("what the child was sent", project.sent(), INIT + FIRST_ROUND + ACCEPTED + LAST_ROUND)
    expect("the published files", project.published(), {"CLASS_OUTPUT/x": b"hi"})


@case
def a_child_that_writes_a_megabyte_at_once(project):
    refused(project, project.scripted(["flood:1048576", "rest"]), BAD_FRAME, "BadFrame(maker, 3, Length)")


@case
def a_child_that_writes_a_megabyte_in_a_round(project):
    steps = ["read", say(HELLO), "read", "flood:1048576", "rest"]
    refused(project, project.scripted(steps), BAD_FRAME, "BadFrame(maker, 3, Length)")


@case
def a_child_that_writes_a_megabyte_at_the_end(project):
    steps = CREATES[:-1] + ["flood:1048576", "rest"]
    run = project.run(project.scripted(steps))
    expect("the output", run.output, REPORT_OF_ONE_FILE)
    expect("the status", run.status, DONE_STATUS)


@case
def a_child_that_never_reads(project):
    steps = [say(HELLO + CREATE + DONE + DONE), "wait:1"]
    start = time.monotonic()
    run = project.run(project.scripted(steps))
    expect("the output", run.output, REPORT_OF_ONE_FILE)
    expect("whether the host waited for it", time.monotonic() - start >= 1, True)


@case
def frames_longer_than_a_pipe_holds(project):
    names = [f"p.C{number:03}{'x' * 100}" for number in range(1000)]
    shutil.rmtree(project.path("src"))
    for name in names:
        project.write(f"src/p/{name[2:]}.java", f"package p; @q.A class {name[2:]} {{}}\n".encode())
    content = bytes(range(256)) * 256
    steps = ["read", say(HELLO), "read", f"make:{os.path.join(project.folder, 'frame')}", *CREATES[4:]]
    project.write("frame", frames.create_resource("big", content))
    run = project.run(project.scripted(steps))
    expect("the output", run.output, REPORT_OF_ONE_FILE.replace(b"/x 2", b"/big 65536"))
    first = frames.round_frame(1, names, offered=["q.A"])
    expect("what the child was sent", project.sent(), INIT + first + ACCEPTED + LAST_ROUND)
    expect("the published files", project.published(), {"CLASS_OUTPUT/big": content})


@case
def a_child_that_creates_a_file_twice(project):
    run = project.run(project.scripted(CREATES[:5] + [say(CREATE), "read"] + CREATES[5:]))
    expect("the output", run.output, REPORT_OF_ONE_FILE)
    expect("what the child was sent", project.sent(), INIT + FIRST_ROUND + ACCEPTED + EXISTS + LAST_ROUND)
    expect("the published files", project.published(), {"CLASS_OUTPUT/x": b"hi"})


@case
def a_claim_that_is_broken(project):
    project.write("src/p/C.java", b"package p; @apt.demo.Registered class C {}")
    project.write("stubs/apt/demo/Registered.java", b"package apt.demo; public @interface Registered {}")
    hello = by_hand("00000021 40 00000001 00000013") + b"apt.demo.Registered" + by_hand("00000000 00")
    steps = ["read", say(hello), "read", say(by_hand("00000002 41 00")), "rest"]
    refused(project, project.scripted(steps), CLAIM_BROKEN, "ClaimBroken(maker, always, false)")
    expect("what the child was sent", project.sent(),
           INIT + frames.round_frame(1, ["p.C"], offered=["apt.demo.Registered"]))


@case
def any_names_that_a_processor_supports(project):
    hello = by_hand("00000016 40 00000002 00000001 2a 00000003") + b"q.*" + by_hand("00000000 01")
    steps = ["read", say(hello), *["read", say(by_hand("00000002 41 00"))] * 2, "rest"]
    run = project.run(project.scripted(steps))
    expect("the output", run.output, REPORT_OF_NO_FILE)
    expect("the status", run.status, DONE_STATUS)
    expect("what the child was sent", project.sent(), INIT + FIRST_ROUND + LAST_ROUND)


@case
def options_that_a_processor_supports(project):
    hello = by_hand("00000016 40 00000001 00000003 712e41 00000001 00000001 6b 02")
    run = project.run(project.scripted(["read", say(hello), *["read", say(DONE)] * 2, "rest"]))
    expect("the output", run.output, REPORT_OF_NO_FILE)
    expect("the status", run.status, DONE_STATUS)


@case
def a_done_with_one_byte_more(project):
    steps = ["read", say(HELLO), "read", say(by_hand("00000003 410100")), "rest"]
    refused(project, project.scripted(steps), BAD_FRAME, "BadFrame(maker, 6, Rest)")


# Several processors, and the configuration.


# A Hello that supports q.A and says that its claims vary, and a Done that claims nothing.
VARIES = by_hand("00000011 40 00000001 00000003 712e41 00000000 02")
CLAIMS_NOTHING = by_hand("00000002 41 00")


# How a report ends that has the file x alone, and one without a file.
ONE_FILE = ["file CLASS_OUTPUT/x 2", "done: 2 rounds, 1 files, 0 errors, 0 warnings"]
NO_FILE = "done: 2 rounds, 0 files, 0 errors, 0 warnings"


def several(project, scripts):
    """The words of a build with children that follow these steps, by the names of their processors.

    Each writes what it reads to a file of its name.
    """
    project.configure({name: project.command(steps, name) for name, steps in scripts.items()})
    return ["build"]


def report(started, *lines):
    return "".join(line + "\n" for line in (f"mode: clean (Full), started {started}", *lines)).encode()


@case
def a_processor_without_sources(project):
    # The three frames of the child are written out, and so is what it is sent.
    shutil.rmtree(project.path("src"))
    hello = by_hand("0000000f 40 00000001 00000001 2a 00000000 01")
    star = ["read", say(hello), *["read", say(CLAIMS_NOTHING)] * 2, "rest"]
    run = project.run(several(project, {"star": star}))
    expect("the output", run.output, REPORT_OF_NO_FILE)
    expect("what the child was sent", project.sent("star"), by_hand(
        "0000000f 01 00000004 73746172 000b 00000000"
        "0000000f 02 00000001 00 00 00000000 00000000"
        "0000000f 02 00000002 01 00 00000000 00000000"))


@case
def a_star_by_the_shell(project):
    # The command prints its three frames at once, and reads what it is sent.
    shutil.rmtree(project.path("src"))
    says_all = by_hand("0000000f 40 00000001 00000001 2a 00000000 01" + 2 * "00000002 41 00")
    run = project.run(project.with_command(by_the_shell(says_all, "/dev/null"), "star"))
    expect("the output", run.output, REPORT_OF_NO_FILE)
    expect("the status", run.status, DONE_STATUS)


def by_the_shell(says_all, record):
    """The command of a child that writes all this at once, and what it reads to a file. It starts sooner than a script."""
    printed = "".join(f"\\{byte:03o}" for byte in says_all)
    return ["sh", "-c", f"printf '{printed}'; exec cat > {record}"]


@case
def two_processors_of_which_the_first_claims_always(project):
    run = project.run(several(project, {"one": CREATES, "two": ["read", say(HELLO), "rest"]}))
    expect("the output", run.output, report(2, *ONE_FILE))
    expect("the status", run.status, DONE_STATUS)
    expect("what the first was sent", project.sent("one"), frames.init("one") + FIRST_ROUND + ACCEPTED + LAST_ROUND)
    expect("what the second was sent", project.sent("two"), by_hand("0000000e 01 00000003 74776f 000b 00000000"))


@case
def two_processors_of_which_the_first_claims_nothing(project):
    claims_nothing = ["read", say(VARIES), *["read", say(CLAIMS_NOTHING)] * 2, "rest"]
    run = project.run(several(project, {"one": claims_nothing, "two": CREATES}))
    expect("the output", run.output, report(2, *ONE_FILE))
    expect("what the first was sent", project.sent("one"), frames.init("one") + FIRST_ROUND + LAST_ROUND)
    expect("what the second was sent", project.sent("two"), frames.init("two") + FIRST_ROUND + ACCEPTED + LAST_ROUND)


@case
def all_processors_are_started_before_the_first_round(project):
    # The first answers the first round only once the second, which is never asked, has read its first frame.
    steps = ["read", say(HELLO), "read", "until:" + project.path("two"), *CREATES[3:]]
    run = project.run(several(project, {"one": steps, "two": ["read", say(HELLO), "rest"]}))
    expect("the status", run.status, DONE_STATUS)
    expect("what the second was sent", project.sent("two"), frames.init("two"))


@case
def a_refused_processor_between_two(project):
    talks = {"one": ["read", say(HELLO), "rest"], "two": ["read", say(DONE), "rest"], "three": CREATES}
    refused(project, several(project, talks), WRONG_FRAME, "WrongFrame(two, 65)")
    expect("what the first was sent", project.sent("one"), frames.init("one"))
    expect("whether the third was started", os.path.exists(project.path("three")), False)


@case
def a_processor_between_two_that_is_not_there(project):
    commands = {name: project.command(["read", say(HELLO), "rest"], name) for name in ("one", "three")}
    project.configure({"one": commands["one"], "two": ["no-such-program"], "three": commands["three"]})
    run = refused(project, ["build"], CHILD_FAULT, "ChildFault(two)")
    says(run, "cannot start no-such-program: No such file or directory (os error 2)")
    expect("whether the third was started", os.path.exists(project.path("three")), False)


@case
def options_of_the_words_over_those_of_the_file(project):
    project.configure({"maker": project.command(CREATES_NOTHING)}, options={"b": "2", "a": "1"})
    run = project.run(["build", "b=3", "--full", "c=", "b=4"])
    expect("the output", run.output, REPORT_OF_NO_FILE)
    init = by_hand("0000002d 01 00000005 6d616b6572 000b 00000003"
                   "00000001 61 00000001 31 00000001 62 00000001 34 00000001 63 00000000")
    expect("what the child was sent", project.sent(), init + FIRST_ROUND + LAST_ROUND)


@case
def processors_of_the_file_of_services(project):
    claims_nothing = ["read", say(VARIES), *["read", say(CLAIMS_NOTHING)] * 2, "rest"]
    project.configure({"a": project.command(CREATES, "a"), "b": project.command(claims_nothing, "b")}, order=None)
    project.write(SERVICES, b"b # x\n\na\r\nb")
    run = project.run(["build"])
    expect("the output", run.output, report(2, *ONE_FILE))
    expect("what the first was sent", project.sent("b"), frames.init("b") + FIRST_ROUND + LAST_ROUND)
    expect("what the second was sent", project.sent("a"), frames.init("a") + FIRST_ROUND + ACCEPTED + LAST_ROUND)


def refused_unstarted(project, status, line):
    """A build is refused, and the processor of its configuration is not started."""
    refused(project, ["build"], status, line)
    expect("whether the child was started", os.path.exists(project.record), False)


@case
def a_processor_without_a_row(project):
    project.configure({"maker": project.command(CREATES)}, order=["other"])
    refused_unstarted(project, UNKNOWN_PROCESSOR, "UnknownProcessor(other)")


def nested(depth):
    """An object in which arrays stand, one in another, this deep with the object."""
    return b'{"x":' + b"[" * (depth - 1) + b"]" * (depth - 1) + b"}"


@case
def a_configuration_that_names_nobody(project):
    for text in [b"{}", b"{}\n", b"{}\r", b"\r\n\t {} ", b'{"level":12,"level":11}', nested(127)]:
        project.write("apt.json", text)
        expect(f"the output for {text}", project.run(["build"]).output, report(0, NO_FILE))


@case
def a_configuration_off_its_form(project):
    for text, place in [(b"{", "json"), (b"", "json"), (b"\xef\xbb\xbf{}", "json"), (b'{"x":"\xff"}', "json"), (nested(128), "json"),
                        (b'{"level":12}', "/level"), (b'{"level":1.0}', "/level"), (b'{"level":1e3}', "/level"),
                        (b'{"level":11.5}', "/level"), (b'{"level":11,"level":12}', "/level"), (b'{"order":["a","a"]}', "/order"),
                        (b'{"processors":{"a":{"command":["m"]}}}', "/processors/a/version")]:
        project.write("apt.json", text)
        refused_unstarted(project, BAD_CONFIG, f"BadConfig(apt.json, {place})")


@case
def lists_off_their_form(project):
    project.configure({"maker": project.command(CREATES)})
    project.write(KINDS, b"builder,isolated")
    refused_unstarted(project, BAD_CONFIG, f"BadConfig({KINDS}, 1)")
    project.write(KINDS, b"builder,isolating\rmaker,Dynamic")
    project.configure({"maker": project.command(CREATES)}, order=None)
    project.write(SERVICES, b"maker\r\n# more\r\nnot a name\r\n")
    refused_unstarted(project, BAD_CONFIG, f"BadConfig({SERVICES}, 3)")


@case
def lists_as_they_may_stand(project):
    for services in [b"", b"# none", b"\r\r\n\n \t"]:
        project.write(SERVICES, services)
        expect(f"the output for {services}", project.run(["build"]).output, report(0, NO_FILE))
    claims_nothing = ["read", say(VARIES), *["read", say(CLAIMS_NOTHING)] * 2, "rest"]
    project.configure({name: project.command(claims_nothing, name) for name in ("a", "b")}, order=None)
    # The lines end at a CR, and the last one at nothing; of two kinds of one name the last counts; a comment may be no text.
    project.write(SERVICES, b"b # \xff\ra\rb")
    project.write(KINDS, b"a,isolating\rb,dynamic\r\na , AGGREGATING # \xff")
    expect("the output", project.run(["build"]).output, report(2, NO_FILE))
    for name in ("b", "a"):
        expect(f"what {name} was sent", project.sent(name), frames.init(name) + FIRST_ROUND + LAST_ROUND)
    for path, text, line in [(SERVICES, b"\xef\xbb\xbfa", 1), (SERVICES, b"a\r\xff", 2), (SERVICES, b"a\r\n\r\na b", 3),
                             (KINDS, b"\xef\xbb\xbfa,isolating", 1), (KINDS, b"\ra,isolating\ra", 3)]:
        project.write(SERVICES, b"a")
        project.write(KINDS, b"")
        project.write(path, text)
        refused(project, ["build"], BAD_CONFIG, f"BadConfig({path}, {line})")


@case
def files_of_the_configuration_of_a_byte_too_many(project):
    for path in ["apt.json", SERVICES, KINDS]:
        project.write(path, b"\n" * 1_048_577)
        refused_unstarted(project, PAST_A_LIMIT, "TooLarge(ConfigBytes, 1048576)")
        os.remove(project.path(path))


@case
def a_configuration_that_cannot_be_read(project):
    os.makedirs(project.path("apt.json"))
    run = refused(project, ["build"], TREE_FAULT, "TreeFault")
    says(run, "cannot read apt.json: not a regular file")


@case
def sixty_five_processors(project):
    project.write(SERVICES, b"".join(b"n%d\n" % number for number in range(65)))
    refused_unstarted(project, PAST_A_LIMIT, "TooLarge(Processors, 64)")


@case
def sixty_four_processors(project):
    # The first that is asked claims always: all others are sent Init alone.
    names = [f"n{number:02}" for number in range(64)]
    others = {name: ["read", say(HELLO), "rest"] for name in names[1:]}
    run = project.run(several(project, {names[0]: CREATES_NOTHING, **others}))
    expect("the output", run.output, report(64, "done: 2 rounds, 0 files, 0 errors, 0 warnings"))
    for name in names[1:]:
        expect(f"what {name} was sent", project.sent(name), frames.init(name))


@case
def sixty_processors_that_all_ask(project):
    names = [f"n{number:02}" for number in range(60)]
    roots = frames.frame(frames.ROOTS)
    said = {name: VARIES + roots + frames.create_resource(name, b"hi") + CLAIMS_NOTHING + roots + CLAIMS_NOTHING for name in names}
    project.configure({name: by_the_shell(said[name], name) for name in names})
    run = project.run(["build"])
    created = [f"file CLASS_OUTPUT/{name} 2" for name in names]
    expect("the output", run.output, report(60, *created, "done: 2 rounds, 60 files, 0 errors, 0 warnings"))
    for name in names:
        expect(f"what {name} was sent", project.sent(name), b"".join([
            frames.init(name), FIRST_ROUND, frames.elements("p.C"), ACCEPTED, LAST_ROUND, frames.elements()]))


# What is said beside the line of a refusal.


USAGE = [
    "apt_cli: usage: build [--full] [KEY=VALUE]..",
    "apt_cli: builds the project in the current folder; KEY=VALUE is an option of its processors",
    "apt_cli: usage: serve NAME",
    "apt_cli: is the processor NAME, one of the program's own, for the host at its input and output",
    "apt_cli: usage: help",
    "apt_cli: prints the words of each command",
]

# Words that no command has.
WORDS = [[], ["help", "build"], ["--help"], ["--version"], ["biuld"], ["build", "maker"], ["build", b"\xff"]]

# A file that is no Java file of level 11, and what is said of it.
FILES = [
    (b"class {", ["1:7: not Java of level 11", "  class {", "        ^"]),
    (b"class A {\n", ["2:1: the file ends too early"]),
    (b"class A {", ["1:10: the file ends too early", "  class A {", "           ^"]),
    (b"package p;\r\n\r\npublic record P(int x) {}\r\n",
     ["3:8: records need level 17", "  public record P(int x) {}", "         ^"]),
    (b"package p;\rsealed interface S {}", ["2:1: sealed types need level 17", "  sealed interface S {}", "  ^"]),
    (b"non-sealed class S {}", ["1:1: sealed types need level 17", "  non-sealed class S {}", "  ^"]),
    (b"class S permits T {}", ["1:9: sealed types need level 17", "  class S permits T {}", "          ^"]),
    ("/* \u00e4\u20ac\x1b */\tclass 1\n".encode(),
     ["1:17: not Java of level 11", "  /* \u00e4\u20ac\\u{1b} */ class 1", "                       ^"]),
    (b"/*" + b"-" * 200 + b"*/ 1" + b"=" * 200,
     ["1:206: not Java of level 11", "  " + "-" * 77 + "*/ 1" + "=" * 79, "  " + " " * 80 + "^"]),
]

# An apt.json that is off its form, and what is said of it.
CONFIGURATIONS = [
    (b'{\n  "level": 12\n}', ["2:3: /level has to be 11", '    "level": 12', "    ^"]),
    (b'{"order": 1}',
     ["1:2: /order has to be a list of class names without repeats", '  {"order": 1}', "   ^"]),
    (b'{"options": []}', ["1:2: /options has to be an object of texts", '  {"options": []}', "   ^"]),
    (b'{"processors": []}',
     ["1:2: /processors has to be an object with a row for each processor", '  {"processors": []}', "   ^"]),
    (b'{"processors":\n {"a": 1}}',
     ["2:3: /processors/a has to be an object with a command and a version", '   {"a": 1}}', "    ^"]),
    (b'{"processors":\n {"b": {"command": ["m"], "version": "1"},\n  "a": {"version": "1",\n "command": []}}}',
     ["4:2: /processors/a/command has to be a list of one or more texts", '   "command": []}}}', "   ^"]),
    (b'{"processors":\n {"a": {"command": ["m"]},\n  "b": {"command": ["m"], "version": "1"}}}',
     ["2:3: /processors/a/version has to be a text", '   {"a": {"command": ["m"]},', "    ^"]),
    (b'{"level": 11,\n}', ["2:1: not JSON", "  }", "  ^"]),
    (b'{"level": 11', ["1:13: the JSON text ends too early", '  {"level": 11', "              ^"]),
    (b"[]", ["1:1: not a JSON object", "  []", "  ^"]),
]

# A file of the configuration with a bad line, and what is said of it.
LINES = [
    (SERVICES, b"maker\r\n# more\r\nnot a name\r\n",
     ["3:1: not the name of a processor", "  not a name", "  ^"]),
    (KINDS, b"builder,isolated",
     ["1:1: not the name of a processor, a comma, and isolating, aggregating or dynamic", "  builder,isolated", "  ^"]),
]

# What a child says to Init and then to the first round, and what is said of it.
TALKS = [
    (["00000000"], BAD_FRAME, "BadFrame(maker, 3, Length)", "frame at offset 0: bad length, at byte 3 of it"),
    (["00000001 77"], BAD_FRAME, "BadFrame(maker, 4, Tag)", "frame at offset 0, tag 119: bad tag, at byte 4 of it"),
    (["00000002 41 02"], BAD_FRAME, "BadFrame(maker, 5, Field)",
     "frame at offset 0, tag 65: bad field, at byte 5 of it"),
    (["0000000f 40 00000001 00000001 31 00000000 02"], BAD_FRAME, "BadFrame(maker, 13, Pattern)",
     "frame at offset 0, tag 64: bad pattern, at byte 13 of it"),
    (["00000002 41 01"], WRONG_FRAME, "WrongFrame(maker, 65)",
     "frame at offset 0, tag 65: it may not stand there"),
    ([HELLO.hex(), "00000003 41 01 00"], BAD_FRAME, "BadFrame(maker, 6, Rest)",
     "frame at offset 21, tag 65: more than its fields, at byte 6 of it"),
    ([HELLO.hex(), HELLO.hex()], WRONG_FRAME, "WrongFrame(maker, 64)",
     "frame at offset 21, tag 64: it may not stand there"),
    ([HELLO.hex(), "00000001 18"], WRONG_FRAME, "WrongFrame(maker, 24)",
     "frame at offset 21, tag 24: it may not stand there"),
    ([HELLO.hex(), "00010000 42 00000000 0000f000" + "00" * 8192], CHILD_ENDED, "ChildEnded(maker, 8205)",
     "frame at offset 21, tag 66: end of stream after 8205 bytes of it"),
]


def says_of(run, path, lines):
    """The run wrote these lines to its standard error, the first behind the path, and nothing else."""
    expect("the messages", run.messages, "".join(line + "\n" for line in [f"{path}:{lines[0]}", *lines[1:]]).encode())


@case
def words_that_no_command_has(project):
    for words in WORDS:
        run = project.run(words)
        expect("the status", run.status, BAD_WORDS)
        expect(f"the messages for {words}", run.messages.decode().splitlines(), USAGE)


@case
def places_of_java_files(project):
    for text, lines in FILES:
        for folder, status in [("src", BAD_SOURCE), ("stubs", BAD_STUB)]:
            project.write(folder + "/p/A.java", text)
            run = project.run(["build"])
            expect(f"the status for {text}", run.status, status)
            says_of(run, folder + "/p/A.java", lines)
        os.remove(project.path("stubs/p/A.java"))


@case
def places_of_the_configuration(project):
    for path, text, lines in [("apt.json", *row) for row in CONFIGURATIONS] + LINES:
        project.write(path, text)
        run = project.run(["build"])
        expect(f"the status for {text}", run.status, BAD_CONFIG)
        says_of(run, path, lines)
        os.remove(project.path(path))


@case
def an_item_that_is_none(project):
    project.write("apt.json", b'{"level": 11,\n "ordre": {"level": [], "x": "\\" :"}}')
    run = project.run(["build"])
    expect("the output", run.output, REPORT_WITHOUT_PROCESSOR)
    says_of(run, "apt.json", ["2:2: ordre is none of level, order, options and processors, and is passed over",
                              '   "ordre": {"level": [], "x": "\\" :"}}', "   ^"])


@case
def children_that_leave_the_protocol(project):
    for answers, status, refusal, line in TALKS:
        steps = [step for answer in answers for step in ("read", "say:" + answer.replace(" ", ""))]
        steps += [] if "end of stream" in line else ["rest"]
        run = refused(project, project.scripted(steps), status, refusal)
        says(run, "processor maker: " + line)


@case
def a_long_frame_that_may_not_come(project):
    project.write("frame", frames.init("x" * 70_000))
    steps = ["read", say(HELLO), "read", "make:" + project.path("frame"), "rest"]
    run = refused(project, project.scripted(steps), WRONG_FRAME, "WrongFrame(maker, 1)")
    says(run, "processor maker: frame at offset 21, tag 1: what is wrong is not known of its first 65536 bytes")


def says_of_created(project, line, place, lines):
    """This is said of a created source that is no Java file. Others are created in the round before, and behind it."""
    project.write("frame", frames.create_source("p.D", line))
    first = [say(frames.create_source("p.C1", b"package p; class C1 {}")), "read", say(DONE), "read"]
    others = [say(frames.create_source(name, b"class 1")) for name in ("p.D", "p.E")]
    second = ["make:" + project.path("frame"), "read", others[0], "read", others[1], "read", say(DONE), "rest"]
    steps = ["read", say(HELLO), "read", *first, *second]
    run = refused(project, project.scripted(steps), BAD_GENERATED, f"BadGenerated(SOURCE_OUTPUT/p/D.java, {place})")
    says_of(run, "SOURCE_OUTPUT/p/D.java", lines)


@case
def created_sources_that_are_no_java_files(project):
    says_of_created(project, b"package p;\nclass {", 17, ["2:7: not Java of level 11", "  class {", "        ^"])
    says_of_created(project, b"package p;\nrecord D(int x) {}", 11,
                    ["2:1: records need level 17", "  record D(int x) {}", "  ^"])
    says_of_created(project, b"package p;\n/*" + b"-" * 70_000 + b"*/\nclass {", 70_022,
                    ["3:7: not Java of level 11", "  class {", "        ^"])


@case
def a_folder_without_a_project(project):
    shutil.rmtree(project.path("src"))
    says(project.run(["build"]), "neither src nor apt.json is in this folder")
    project.write("apt.json", b"{}")
    says(project.run(["build"]))


@case
def a_child_that_keeps_the_host_waiting(project):
    run = project.run(project.scripted(["read", "wait:6", *CREATES_NOTHING[1:]]))
    expect("the output", run.output, REPORT_OF_NO_FILE)
    expect("the status", run.status, DONE_STATUS)
    says(run, "processor maker has not answered for 5 seconds, and is waited for")


# Files and streams that fail.


@case
def out_is_a_file(project):
    project.write("out", b"")
    run = project.run(project.scripted(CREATES))
    refused_by_the_tree(run)
    says(run, "cannot list out/store: Not a directory (os error 20)")
    expect("the file", project.read("out"), b"")


@case
def the_store_is_a_file(project):
    project.write("out/store", b"")
    run = project.run(project.scripted(CREATES))
    refused_by_the_tree(run)
    says(run, "cannot list out/store: Not a directory (os error 20)")
    expect("the file", project.read("out/store"), b"")


@case
def out_cannot_be_written(project):
    os.symlink("/proc/self", project.path("out"))
    refused_by_the_tree(project.run(project.scripted(CREATES)))


def refused_by_the_tree(run):
    expect("the output", run.output, b"refused: TreeFault\n")
    expect("the status", run.status, TREE_FAULT)


@case
def a_link_where_a_store_file_goes(project):
    os.makedirs(project.path("out/store"))
    os.symlink(project.path("elsewhere"), project.path("out/store/0"))
    run = project.run(project.scripted(CREATES))
    refused_by_the_tree(run)
    says(run, "cannot write out/store/0: File exists (os error 17)")
    expect("whether the link was followed", os.path.exists(project.path("elsewhere")), False)


@case
def a_file_that_came_where_a_store_file_goes(project):
    # The processor makes it, after the host has listed the store. What is there is never written over.
    makes = ["/bin/sh", "-c", 'mkdir -p out/store; printf early >out/store/0; exec "$@"', "sh"]
    run = project.run(project.with_command([*makes, *project.command(CREATES)]))
    refused_by_the_tree(run)
    says(run, "cannot write out/store/0: File exists (os error 17)")
    expect("the file", project.read("out/store/0"), b"early")
    expect("the files below out", sorted(os.listdir(project.path("out"))), ["store"])


@case
def the_record_is_a_folder(project):
    os.makedirs(project.path("out/record/below"))
    run = project.run(project.scripted(CREATES))
    # The report stands before the line where the record is what could not be replaced.
    if run.output.startswith(b"mode"):
        expect("the output", run.output, REPORT_OF_ONE_FILE + b"refused: TreeFault\n")
        expect("the status", run.status, TREE_FAULT)
    else:
        refused_by_the_tree(run)
    says(run, "cannot replace out/record: Is a directory (os error 21)")
    expect("the folder", os.listdir(project.path("out/record")), ["below"])
    expect("leftovers", set(os.listdir(project.path("out"))) - {"record", "store"}, set())


@case
def a_folder_where_the_record_is_first_written(project):
    os.makedirs(project.path("out/\\unfinished"))
    run = project.run(project.scripted(CREATES_NOTHING))
    expect("the output", run.output, REPORT_OF_NO_FILE + b"refused: TreeFault\n")
    expect("the status", run.status, TREE_FAULT)
    says(run, "cannot replace out/record: out/\\\\unfinished: Is a directory (os error 21)")


@case
def a_name_of_a_source_that_is_no_text(project):
    named(project, b"\xff.java", "\\xff.java")


@case
def a_name_of_a_source_that_is_no_text_in_part(project):
    named(project, b"a \\\n\x1b\xc3\xb6\xe2\x82.java", "a \\\\\\n\\u{1b}\u00f6\\xe2\\x82.java")


def named(project, name, shown):
    """A source with a name that is no text is not listed, and its name is shown so."""
    with open(os.path.join(os.fsencode(project.folder), b"src/p", name), "wb") as file:
        file.write(SOURCE)
    run = refused(project, project.scripted(CREATES), TREE_FAULT, "TreeFault")
    says(run, f"cannot list src: src/p/{shown}: its name is not UTF-8")


@case
def a_source_that_cannot_be_read(project):
    os.symlink("/proc/self/mem", project.path("src/p/D.java"))
    run = refused(project, ["build"], TREE_FAULT, "TreeFault")
    says(run, "cannot read src/p/D.java: Input/output error (os error 5)")


@case
def a_folder_that_is_no_folder(project):
    shutil.rmtree(project.path("src"))
    project.write("src", SOURCE)
    run = refused(project, ["build"], TREE_FAULT, "TreeFault")
    says(run, "cannot list src: Not a directory (os error 20)")


@case
def messages_that_cannot_be_written(project):
    project.write("out", b"")
    with open("/dev/full", "wb") as full:
        refused_by_the_tree(project.run(["build"], stderr=full))
    reader, writer = os.pipe()
    os.close(reader)
    refused_by_the_tree(project.run(["build"], stderr=writer))
    os.close(writer)
    refused_by_the_tree(project.run(["build"], before=["/bin/sh", "-c", 'exec "$@" 2>&-', "sh"]))


@case
def a_folder_with_the_name_of_a_source(project):
    os.makedirs(project.path("src/p/D.java"))
    run = project.run(project.scripted(CREATES))
    expect("the output", run.output, REPORT_OF_ONE_FILE)
    project.write("src/p/D.java/E.java", b"class {")
    refused(project, project.scripted(CREATES), BAD_SOURCE, "BadSource(src/p/D.java/E.java, 6)")


# How many bytes a file may have.
MOST_OF_A_FILE = 8_388_608

# What units of one file say together is held once, so that memory grows with the file alone.
WITH_300_MEGABYTES = ["/bin/sh", "-c", 'ulimit -v 300000; exec "$@"', "sh"]


@case
def a_source_of_a_gigabyte(project):
    with open(project.path("src/p/Big.java"), "wb") as file:
        file.truncate(1 << 30)
    small_memory = ["/bin/sh", "-c", 'ulimit -v 100000; exec "$@"', "sh"]
    refused(project, project.scripted(CREATES), PAST_A_LIMIT, "TooLarge(FileBytes, 8388608)", before=small_memory)


@case
def the_longest_source_that_is_read(project):
    start, end = b"package p; // ", b"\n@q.A class D {}\n"
    project.write("src/p/D.java", start + b"x" * (MOST_OF_A_FILE - len(start) - len(end)) + end)
    run = project.run(["build"])
    expect("the output", run.output, REPORT_WITHOUT_PROCESSOR)
    expect("the status", run.status, DONE_STATUS)
    project.write("src/p/D.java", start + b"x" * (MOST_OF_A_FILE + 1 - len(start) - len(end)) + end)
    refused(project, ["build"], PAST_A_LIMIT, "TooLarge(FileBytes, 8388608)")


@case
def more_bytes_of_sources_than_may_be(project):
    for number in range(8):
        project.write(f"src/many/{number}.java", b" " * MOST_OF_A_FILE)
    refused(project, ["build"], PAST_A_LIMIT, "TooLarge(SourceBytes, 67108864)")


@case
def more_sources_than_may_be(project):
    for number in range(20_000):
        project.write(f"src/many/{number}.java", b"")
    refused(project, ["build"], PAST_A_LIMIT, "TooLarge(Files, 20000)")
    os.remove(project.path("src/p/C.java"))
    run = project.run(["build"])
    expect("the output", run.output, REPORT_WITHOUT_PROCESSOR)
    expect("the status", run.status, DONE_STATUS)


@case
def as_many_types_in_one_file_as_may_be(project):
    # the project has another file with one type, and a stub
    types = "".join(f"class T{number} {{}}\n" for number in range(49_998))
    project.write("src/p/Types.java", f"package p;\n{types}".encode())
    run = project.run(["build"], before=WITH_300_MEGABYTES)
    expect("the output", run.output, REPORT_WITHOUT_PROCESSOR)
    expect("the status", run.status, DONE_STATUS)
    project.write("src/p/Types.java", f"package p;\n{types}class Last {{}}\n".encode())
    refused(project, ["build"], PAST_A_LIMIT, "TooLarge(Types, 50000)", before=WITH_300_MEGABYTES)


@case
def many_types_that_share_many_imports(project):
    imports = "".join(f"import b.D{number};\n" for number in range(4_000))
    types = "".join(f"class T{number} {{}}\n" for number in range(4_000))
    project.write("src/p/Types.java", f"package p;\n{imports}{types}".encode())
    run = project.run(["build"], before=WITH_300_MEGABYTES)
    expect("the output", run.output, REPORT_WITHOUT_PROCESSOR)
    expect("the status", run.status, DONE_STATUS)


@case
def long_files_past_a_limit(project):
    # what no clause says: such a file is given up where its first symbols show it, in memory for little more than its characters
    for head, part, limit in [("class C { int a", ",a", "Children, 65535"), ("enum E { ", "a,", "Children, 65535"),
                              ("class C { void m(", "int a,", "Children, 65535"), ("", "class A {", "Depth, 200"),
                              ("class C { ", "A<", "Depth, 200")]:
        project.write("src/p/Long.java", (head + part * ((MOST_OF_A_FILE - len(head)) // len(part))).encode())
        refused(project, ["build"], PAST_A_LIMIT, f"TooLarge({limit})", before=WITH_300_MEGABYTES)


@case
def the_longest_name_of_a_type(project):
    project.write("src/p/D.java", b"package p; @q.A class " + b"D" * 1022 + b" {}")
    run = project.run(["build"])
    expect("the output", run.output, REPORT_WITHOUT_PROCESSOR)
    expect("the status", run.status, DONE_STATUS)
    project.write("src/p/E.java", b"package p; @q.A class " + b"E" * 1023 + b" {}")
    project.write("src/p/F.java", b"class {")
    refused(project, ["build"], PAST_A_LIMIT, "TooLarge(Name, 1024)")
    project.write("src/p/B.java", b"class {")
    refused(project, ["build"], BAD_SOURCE, "BadSource(src/p/B.java, 6)")


@case
def links_below_the_sources(project):
    project.write("elsewhere/D.java", b"package p; @q.A class D {}")
    project.write("elsewhere/more/E.java", b"not a source")
    os.symlink("../../elsewhere/D.java", project.path("src/p/D.java"))
    os.symlink("../../elsewhere/more", project.path("src/p/more"))
    os.symlink("..", project.path("src/p/up"))
    os.symlink("nowhere", project.path("src/p/Gone.java"))
    run = project.run(project.scripted(CREATES))
    expect("the output", run.output, REPORT_OF_ONE_FILE)
    first = frames.round_frame(1, ["p.C", "p.D"], offered=["q.A"])
    expect("what the child was sent", project.sent(), INIT + first + ACCEPTED + LAST_ROUND)


@case
def links_in_a_circle(project):
    os.symlink("D.java", project.path("src/p/D.java"))
    os.symlink("F.java", project.path("src/p/E.java"))
    os.symlink("E.java", project.path("src/p/F.java"))
    run = project.run(project.scripted(CREATES))
    expect("the output", run.output, REPORT_OF_ONE_FILE)
    expect("the status", run.status, DONE_STATUS)
    says(run)
    expect("what the child was sent", project.sent(), INIT + FIRST_ROUND + ACCEPTED + LAST_ROUND)


@case
def sources_in_a_circle(project):
    shutil.rmtree(project.path("src"))
    os.symlink("src", project.path("src"))
    run = project.run(["build"])
    expect("the output", run.output, REPORT_WITHOUT_PROCESSOR)
    expect("the status", run.status, DONE_STATUS)
    says(run)


@case
def an_output_in_a_circle(project):
    os.symlink("out", project.path("out"))
    run = project.run(project.scripted(CREATES))
    refused_by_the_tree(run)
    says(run, "cannot write out/store/0: out/store: Too many levels of symbolic links (os error 40)")


@case
def sources_in_the_order_of_their_bytes(project):
    shutil.rmtree(project.path("src"))
    for name in ["a/X.java", "a-b/X.java", "a.java", "b/X.java"]:
        project.write("src/" + name, b"not a source")
    refused(project, project.scripted(CREATES), BAD_SOURCE, "BadSource(src/a-b/X.java, 0)")
    shutil.rmtree(project.path("src/a-b"))
    refused(project, project.scripted(CREATES), BAD_SOURCE, "BadSource(src/a.java, 0)")


@case
def a_closed_output(project):
    project.publish_former()
    run = project.run(project.scripted(CREATES), before=["/bin/sh", "-c", 'exec "$@" >&-', "sh"])
    expect("the status", run.status, SINK_FAULT)
    says(run, *2 * ["cannot write the standard output: Bad file descriptor (os error 9)"])
    former_stands(project)


@case
def all_streams_closed(project):
    # No file or pipe of the host takes the number of a standard stream.
    project.publish_former()
    closed = ["/bin/sh", "-c", 'exec "$@" <&- >&- 2>&-', "sh"]
    run = project.run(project.scripted(["streams", *CREATES]), before=closed)
    expect("the status", run.status, SINK_FAULT)
    expect("the host's streams", project.read("child-record.streams"), b"/dev/null\n" * 3)
    expect("what the child was sent", project.sent(), INIT + FIRST_ROUND + ACCEPTED + LAST_ROUND)
    former_stands(project)


@case
def input_and_messages_closed(project):
    # The child sees the end of its input, and the host that it has ended.
    run = project.run(project.scripted(CREATES), before=["/bin/sh", "-c", 'exec "$@" <&- 2>&-', "sh"])
    expect("the output", run.output, REPORT_OF_ONE_FILE)
    expect("the status", run.status, DONE_STATUS)


@case
def a_full_output(project):
    project.publish_former()
    with open("/dev/full", "wb") as full:
        run = project.run(project.scripted(CREATES), stdout=full)
    expect("the status", run.status, SINK_FAULT)
    # Neither the report nor the line of the refusal.
    says(run, *2 * ["cannot write the standard output: No space left on device (os error 28)"])
    former_stands(project)


@case
def an_output_that_nobody_reads(project):
    project.publish_former()
    reader, writer = os.pipe()
    os.close(reader)
    run = project.run(project.scripted(CREATES), stdout=writer)
    os.close(writer)
    expect("the status", run.status, SINK_FAULT)
    says(run, *2 * ["cannot write the standard output: Broken pipe (os error 32)"])
    former_stands(project)


# When the files of a build are stored, as far as the host's calls show it.


def traced(project, words, *how):
    """Runs the program, and gives how the run ended, and what it had stored and renamed, in order, by path."""
    if not shutil.which("strace"):
        raise NotRun("there is no strace")
    trace = project.path("trace")
    calls = "fsync,rename,renameat,renameat2"
    run = project.run(words, before=["strace", "-qq", "-y", "-o", trace, "-e", "trace=" + calls, *how])
    if not os.path.exists(trace) or not os.path.getsize(trace):
        raise NotRun("strace traces nothing")
    with open(trace, encoding="utf-8") as file:
        return run, [shown_call(project, line) for line in file if "(" in line]


def shown_call(project, line):
    """A file or folder that is stored, by its path in the project, or the path that something is renamed to."""
    if line.startswith("fsync("):
        path = line.partition("<")[2].partition(">")[0]
        return os.path.relpath(path.replace("\\\\", "\\"), os.path.realpath(project.folder))
    return "renamed to " + line.split('"')[3]


STORED_AND_REPLACED = ["out/\\unfinished", "out", "out/store", "renamed to out/record", "out"]


@case
def store_files_are_stored_before_the_record(project):
    creates = CREATES[:5] + [say(frames.create_resource("y", b"ho")), "read"] + CREATES[5:]
    run, calls = traced(project, project.scripted(creates))
    expect("the status", run.status, DONE_STATUS)
    expect("what was stored", calls, ["out/store/0", "out/store/1", *STORED_AND_REPLACED])


@case
def a_record_of_no_files(project):
    run, calls = traced(project, ["build"])
    expect("the status", run.status, DONE_STATUS)
    expect("what was stored", calls, ["out/\\unfinished", "renamed to out/record", "out"])


@case
def a_store_file_that_cannot_be_stored(project):
    project.publish_former()
    run, calls = traced(project, project.scripted(CREATES), "-e", "inject=fsync:error=EIO:when=1")
    refused_by_the_tree(run)
    says(run, "cannot write out/store/1: Input/output error (os error 5)")
    expect("what was stored", calls, ["out/store/1"])
    expect("the files of the store", os.listdir(project.path("out/store")), ["0"])
    former_stands(project)


@case
def a_store_that_cannot_be_stored(project):
    project.publish_former()
    run, calls = traced(project, project.scripted(CREATES), "-e", "inject=fsync:error=EIO:when=4")
    expect("the output", run.output, REPORT_OF_ONE_FILE + b"refused: TreeFault\n")
    expect("the status", run.status, TREE_FAULT)
    says(run, "cannot replace out/record: out/store: Input/output error (os error 5)")
    expect("what was stored", calls, ["out/store/1", "out/\\unfinished", "out", "out/store"])
    expect("the files below out", sorted(os.listdir(project.path("out"))), ["record", "store"])
    former_stands(project)


@case
def a_system_that_stores_no_folders(project):
    run, calls = traced(project, project.scripted(CREATES), "-e", "inject=fsync:error=EINVAL:when=3+")
    expect("the output", run.output, REPORT_OF_ONE_FILE)
    expect("the status", run.status, DONE_STATUS)
    says(run)
    expect("what was stored", calls, ["out/store/0", *STORED_AND_REPLACED])
    expect("the published files", project.published(), {"CLASS_OUTPUT/x": b"hi"})


@case
def a_folder_that_cannot_be_stored_after_the_record(project):
    run, calls = traced(project, project.scripted(CREATES), "-e", "inject=fsync:error=EIO:when=5")
    expect("the output", run.output, REPORT_OF_ONE_FILE)
    expect("the status", run.status, DONE_STATUS)
    says(run)
    expect("what was stored", calls, ["out/store/0", *STORED_AND_REPLACED])


# A stop of the machine, as far as a killed host shows it.


@case
def a_host_that_is_killed(project):
    project.publish_former()
    command = [program(), *project.scripted(["read", say(HELLO), "read", "rest"])]
    host = subprocess.Popen(command, cwd=project.folder, stdin=subprocess.DEVNULL, stdout=subprocess.DEVNULL,
                            stderr=subprocess.DEVNULL, start_new_session=True)
    wanted = len(INIT + FIRST_ROUND) // 2
    soon(lambda: os.path.exists(project.record) and os.path.getsize(project.record) >= wanted)
    host.kill()
    host.wait()
    former_stands(project)
    # The child sees the end of its input.
    soon(lambda: all(is_ended(number) for number in processes_of(host.pid)))
    run = project.run(project.scripted(CREATES))
    expect("the output", run.output, REPORT_OF_ONE_FILE)


def soon(holds):
    for _ in range(SECONDS * 100):
        if holds():
            return
        time.sleep(0.01)
    raise Failure(f"not so after {SECONDS} seconds")


def is_ended(number):
    """The process is gone, or only waits for its parent to notice its end."""
    try:
        with open(f"/proc/{number}/stat", "rb") as file:
            return file.read().rpartition(b")")[2].split()[0] == b"Z"
    except OSError:
        return True


@case
def a_leftover_of_an_earlier_stop(project):
    project.write("out/\\unfinished", b"half a rec")
    run = project.run(project.scripted(CREATES))
    expect("the output", run.output, REPORT_OF_ONE_FILE)
    expect("the files below out", sorted(os.listdir(project.path("out"))), ["record", "store"])


if __name__ == "__main__":
    case.main()
