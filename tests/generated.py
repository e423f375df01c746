#!/usr/bin/env python3
"""Runs the built program with processors that create sources and resources and print messages, over real pipes.

    tests/generated.py [PROGRAM]

PROGRAM is crates/apt_cli/out/apt_cli where it is left out. Each case prints a line. The first that fails ends the run
with status 1. The last line is 'generated: N passed, M failed'.
"""
import os

from host import (ACCEPTED, BAD_FRAME, BAD_GENERATED, BAD_NAME, CHILD_ENDED, CLAIM_BROKEN, CREATE, DONE, DONE_STATUS,
                  ERRORS, EXISTS, FIRST_ROUND, GENERATED_DUPLICATE, HELLO, HERE, INIT, LAST_ROUND, NOTED, PAST_A_LIMIT,
                  TOO_LARGE, TOO_MANY_QUESTIONS, TOO_MANY_ROUNDS, UNSUPPORTED, WRONG_FRAME, Cases, Failure, by_hand,
                  expect, former_stands, frames as spelling, record_of, refused, say)

case = Cases("generated")

ERROR, WARNING, NOTE, OTHER = spelling.ERROR, spelling.WARNING, spelling.NOTE, spelling.OTHER
MANDATORY_WARNING = spelling.MANDATORY_WARNING
SOURCE_OUTPUT, NATIVE_HEADER_OUTPUT = spelling.SOURCE_OUTPUT, spelling.NATIVE_HEADER_OUTPUT

NO_ORIGINS = spelling.NO_ORIGINS
ONE_ORIGIN = spelling.number_field(1) + spelling.text_field("p.C") + spelling.number_field(0)

# The most bytes of one content, and of all contents and paths together.
LONGEST, ALL = 8_388_608, 67_108_864


# What a child sends, and the rounds that it is sent.


def source_of(name):
    """A source file that gives this type."""
    package, _, simple = name.rpartition(".")
    return f"package {package}; @q.A class {simple} {{}}".encode()


def create_source(name, content=None, origins=NO_ORIGINS):
    return spelling.create_source(name, source_of(name) if content is None else content, origins)


def create_resource(relative, content=b"hi", **place):
    return spelling.create_resource(relative, content, **place)


def create_class(name, content=b"", **origins):
    return spelling.create_class(name, content, **origins)


def message(kind, text, **element):
    return spelling.message(kind, text, **element)


def round_frame(number, roots, offered=("q.A",)):
    return spelling.round_frame(number, roots, offered)


def last_round(number, error=False):
    return spelling.round_frame(number, [], over=True, error=error)


def talk(*rounds):
    """The steps of a child that sends these frames in its rounds, and waits for the reply to each.

    A list among the frames is steps that stand as they are.
    """
    steps = ["read", say(HELLO)]
    for frames in rounds:
        steps.append("read")
        for frame in frames:
            steps += frame if isinstance(frame, list) else [say(frame), "read"]
        steps.append(say(DONE))
    return steps + ["rest"]


def from_file(project, name, *frames):
    """Steps that send frames too long for words, and wait for their replies."""
    project.write(name, b"".join(frames))
    return ["make:" + project.path(name), *["read"] * len(frames)]


# What a build gives.


def report(*lines):
    return "".join(line + "\n" for line in ("mode: clean (Full), started 1", *lines)).encode()


def done(rounds, files, warnings=0):
    return f"done: {rounds} rounds, {files} files, 0 errors, {warnings} warnings"


def unread(name):
    return f"warning: [host] type {name} was created in the last round and is not processed"


def file_lines(files):
    """The lines of published files, given by their paths, ascending."""
    return [f"file {path} {len(content)}" for path, content in sorted(files.items())]


def publishes(project, rounds, wanted, files, sent=None):
    """A build with this talk, whose report has these lines after the first, publishes these files."""
    run = project.run(project.scripted(talk(*rounds)))
    expect("the output", run.output, report(*wanted))
    expect("the status", run.status, DONE_STATUS)
    expect("the published files", project.published(), files)
    if sent is not None:
        expect("what the child was sent", project.sent(), INIT + b"".join(sent))


def errs(project, rounds, wanted, sent=None):
    """A build with this talk prints errors; what stood before stands, and the store gains nothing."""
    project.publish_former()
    run = project.run(project.scripted(talk(*rounds)))
    expect("the output", run.output, report(*wanted))
    expect("the status", run.status, ERRORS)
    nothing_changed(project)
    if sent is not None:
        expect("what the child was sent", project.sent(), INIT + b"".join(sent))


def nothing_changed(project):
    former_stands(project)
    expect("the files of the store", os.listdir(project.path("out/store")), ["0"])


def refuses(project, rounds, status, line):
    """A build with this talk is refused with this line, and the store gains nothing."""
    refused(project, project.scripted(talk(*rounds)), status, line)
    nothing_changed(project)


def answers(project, frames, wanted):
    """The replies to the frames of round 1."""
    run = project.run(project.scripted(talk(frames, [])))
    expect("the status", run.status, DONE_STATUS)
    expect("what the child was sent", project.sent(), INIT + FIRST_ROUND + b"".join(wanted) + LAST_ROUND)
    return run


# The frames that are spelled for these scripts, against the same written out by hand.

WRITTEN_OUT = [
    (INIT, "00000010 01 00000005 6d616b6572 000b 00000000"),
    (FIRST_ROUND, "0000001d 02 00000001 00 00 00000001 00000003 712e41 00000001 00000003 702e43"),
    (LAST_ROUND, "0000000f 02 00000002 01 00 00000000 00000000"),
    (last_round(2, error=True), "0000000f 02 00000002 01 01 00000000 00000000"),
    (round_frame(258, ["p.C", "p.D"], offered=[]),
     "0000001d 02 00000102 00 00 00000000 00000002 00000003 702e43 00000003 702e44"),
    (ACCEPTED, "00000002 17 00"),
    (EXISTS, "00000002 17 01"),
    (UNSUPPORTED, "00000002 17 02"),
    (BAD_NAME, "00000002 17 03"),
    (TOO_LARGE, "00000002 17 04"),
    (NOTED, "00000001 18"),
    (HELLO, "00000011 40 00000001 00000003 712e41 00000000 00"),
    (DONE, "00000002 41 01"),
    (create_source("p.D"),
     "0000002a 42 00000003 702e44 0000001a 7061636b61676520703b2040712e4120636c6173732044207b7d 00000000"),
    (CREATE, "00000015 43 00 00000000 00000001 78 00000002 6869 00000000"),
    (create_resource("x", b"", package="p.q", location=NATIVE_HEADER_OUTPUT),
     "00000016 43 02 00000003 702e71 00000001 78 00000000 00000000"),
    (create_class("p.D"), "00000010 44 00000003 702e44 00000000 00000000"),
    (create_class("D", b"x", origins=ONE_ORIGIN),
     "0000001a 44 00000001 44 00000001 78 00000001 00000003 702e43 00000000"),
    (message(ERROR, "bad"), "0000000a 45 00 00 00000003 626164"),
    (message(OTHER, "\u00e4"), "00000009 45 04 00 00000002 c3a4"),
]


@case
def frames_written_out(_project):
    for spelled, digits in WRITTEN_OUT:
        expect("a frame", spelled.hex(), digits.replace(" ", ""))


@case
def the_exchange_of_the_document(project):
    with open(os.path.join(HERE, "..", "docs", "PROTOCOL.md"), encoding="utf-8") as file:
        exchange, wanted = file.read().split("```\n")[1::2]
    frames = [(sender, by_hand("".join(digits))) for sender, _, *digits in map(str.split, exchange.splitlines())]
    steps = ["read" if sender == "host" else say(frame) for sender, frame in frames]
    run = project.run(project.scripted([*steps, "rest"]))
    expect("what the child was sent", project.sent(), b"".join(frame for sender, frame in frames if sender == "host"))
    expect("the output", run.output, wanted.encode())
    expect("the status", run.status, DONE_STATUS)


# A created source makes a further round; a path, an error, a type and the rounds have their bounds.


@case
def a_created_source_is_the_root_of_the_next_round(project):
    publishes(project, [[create_source("p.D")], [], []], ["file SOURCE_OUTPUT/p/D.java 26", done(3, 1)],
              {"SOURCE_OUTPUT/p/D.java": b"package p; @q.A class D {}"},
              sent=[by_hand("0000001d 02 00000001 00 00 00000001 00000003 712e41 00000001 00000003 702e43"),
                    by_hand("00000002 17 00"),
                    by_hand("0000001d 02 00000002 00 00 00000001 00000003 712e41 00000001 00000003 702e44"),
                    by_hand("0000000f 02 00000003 01 00 00000000 00000000")])
    expect("the record", project.read("out/record"),
           record_of({"SOURCE_OUTPUT/p/D.java": (0, b"package p; @q.A class D {}")}))
    expect("the files below out", sorted(os.listdir(project.path("out"))), ["record", "store"])


@case
def a_path_that_is_created_twice(project):
    publishes(project, [[CREATE, create_resource("x", b"other")], []], ["file CLASS_OUTPUT/x 2", done(2, 1)],
              {"CLASS_OUTPUT/x": b"hi"}, sent=[FIRST_ROUND, ACCEPTED, by_hand("00000002 17 01"), LAST_ROUND])


@case
def a_source_of_a_type_that_a_stub_has_is_not_created(project):
    project.write("stubs/p/D.java", b"package p; class D {} class F {}")
    publishes(project, [[create_source("p.D"), create_source("p.F"), create_source("p.E")], [], []],
              ["file SOURCE_OUTPUT/p/E.java 26", done(3, 1)], {"SOURCE_OUTPUT/p/E.java": source_of("p.E")},
              sent=[FIRST_ROUND, EXISTS, EXISTS, ACCEPTED, round_frame(2, ["p.E"]), last_round(3)])


@case
def a_created_source_that_gives_a_type_of_a_stub(project):
    project.write("stubs/p/D.java", b"package p; class D {}")
    refuses(project, [[create_source("p.E", source_of("p.D"))]], GENERATED_DUPLICATE, "GeneratedDuplicate(p.D)")


@case
def an_error_ends_the_build(project):
    errs(project, [[by_hand("0000000a 45 00 00 00000003 626164")], []],
         ["error: [maker] bad", "errors: 2 rounds, 1 errors, 0 warnings"],
         sent=[FIRST_ROUND, by_hand("00000001 18"), by_hand("0000000f 02 00000002 01 01 00000000 00000000")])


@case
def an_error_leaves_no_output_behind(project):
    run = project.run(project.scripted(talk([CREATE, message(ERROR, "bad")], [])))
    expect("the status", run.status, ERRORS)
    expect("whether there is an output", os.path.exists(project.path("out/record")), False)
    run = project.run(project.scripted(talk([CREATE], [])))
    expect("the output of the next build", run.output, report("file CLASS_OUTPUT/x 2", done(2, 1)))
    expect("the published files", project.published(), {"CLASS_OUTPUT/x": b"hi"})


@case
def a_created_source_of_a_type_that_is_there(project):
    refuses(project, [[create_source("p.E", b"package p; @q.A class C {}")]], GENERATED_DUPLICATE,
            "GeneratedDuplicate(p.C)")


def chain(count):
    """The rounds of a child that creates one source in each of this many rounds, and the names of the sources."""
    names = [f"p.D{number:02}" for number in range(1, count + 1)]
    return [[create_source(name)] for name in names], names


@case
def sources_in_each_of_sixty_two_rounds(project):
    rounds, names = chain(62)
    files = {f"SOURCE_OUTPUT/p/{name[2:]}.java": source_of(name) for name in names}
    sent = []
    for number, root in enumerate(["p.C", *names], 1):
        sent += [round_frame(number, [root]), ACCEPTED]
    sent[-1] = last_round(64)
    publishes(project, [*rounds, [], []], [*file_lines(files), done(64, 62)], files, sent=sent)


@case
def sources_in_each_of_sixty_three_rounds(project):
    rounds, names = chain(63)
    refuses(project, rounds, TOO_MANY_ROUNDS, "TooManyRounds(64)")
    sent = b"".join(round_frame(number, [root]) + ACCEPTED for number, root in enumerate(["p.C", *names[:-1]], 1))
    expect("what the child was sent", project.sent(), INIT + sent)


@case
def a_source_of_the_last_round(project):
    publishes(project, [[], [create_source("p.Z")]], [unread("p.Z"), "file SOURCE_OUTPUT/p/Z.java 26", done(2, 1, 1)],
              {"SOURCE_OUTPUT/p/Z.java": source_of("p.Z")}, sent=[FIRST_ROUND, LAST_ROUND, ACCEPTED])


# Rounds.


@case
def roots_and_files_ascend(project):
    names = ["p.Z", "r.B", "p.D", "a.b.C"]
    files = {f"SOURCE_OUTPUT/{name.replace('.', '/')}.java": source_of(name) for name in names}
    publishes(project, [[create_source(name) for name in names], [], []], [*file_lines(files), done(3, 4)], files,
              sent=[FIRST_ROUND, *[ACCEPTED] * 4, round_frame(2, ["a.b.C", "p.D", "p.Z", "r.B"]), last_round(3)])
    numbered = {path: (number, content) for number, (path, content) in enumerate(sorted(files.items()))}
    expect("the record", project.read("out/record"), record_of(numbered))


@case
def a_later_round_offers_what_its_roots_have(project):
    project.write("stubs/r/B.java", b"package r; public @interface B {}")
    other = b"package p; @r.B class D {}"
    publishes(project, [[create_source("p.D", other)], [create_source("p.E")], [], []],
              ["file SOURCE_OUTPUT/p/D.java 26", "file SOURCE_OUTPUT/p/E.java 26", done(4, 2)],
              {"SOURCE_OUTPUT/p/D.java": other, "SOURCE_OUTPUT/p/E.java": source_of("p.E")},
              sent=[FIRST_ROUND, ACCEPTED, by_hand("00000016 02 00000002 00 00 00000000 00000001 00000003 702e44"),
                    ACCEPTED, round_frame(3, ["p.E"]), last_round(4)])


@case
def a_processor_that_is_never_asked(project):
    project.write("src/p/C.java", b"package p; @r.B class C {}")
    project.write("stubs/r/B.java", b"package r; public @interface B {}")
    publishes(project, [], [done(2, 0)], {}, sent=[])


@case
def a_source_may_give_another_type_than_its_name_says(project):
    files = {"SOURCE_OUTPUT/p/E.java": source_of("p.F"), "SOURCE_OUTPUT/p/F.java": source_of("p.G")}
    publishes(project, [[create_source("p.E", source_of("p.F"))], [create_source("p.F", source_of("p.G"))], [], []],
              [*file_lines(files), done(4, 2)], files,
              sent=[FIRST_ROUND, ACCEPTED, round_frame(2, ["p.F"]), ACCEPTED, round_frame(3, ["p.G"]), last_round(4)])


@case
def a_type_that_an_earlier_round_gave(project):
    refuses(project, [[create_source("p.E", source_of("p.F"))], [create_source("p.F")]], GENERATED_DUPLICATE,
            "GeneratedDuplicate(p.F)")


@case
def two_sources_of_a_round_that_give_one_type(project):
    refuses(project, [[create_source("p.E", source_of("p.X")), create_source("p.D", source_of("p.X"))]],
            GENERATED_DUPLICATE, "GeneratedDuplicate(p.X)")


@case
def a_created_source_of_a_type_with_the_longest_name(project):
    longest = "p." + "D" * 1022
    content = source_of(longest)
    publishes(project, [[create_source("p.D", content)], [], []],
              [f"file SOURCE_OUTPUT/p/D.java {len(content)}", done(3, 1)], {"SOURCE_OUTPUT/p/D.java": content},
              sent=[FIRST_ROUND, ACCEPTED, round_frame(2, [longest]), last_round(3)])


@case
def a_created_source_of_a_type_with_too_long_a_name(project):
    refuses(project, [[create_source("p.D", source_of("p." + "D" * 1023))]], PAST_A_LIMIT, "TooLarge(Name, 1024)")


def made(project, count):
    """Steps that create this many sources, each of a type of its own, a thousand at a time."""
    frames = [create_source(f"p.T{number:05}") for number in range(count)]
    return [from_file(project, f"made-{start}", *frames[start:start + 1000]) for start in range(0, count, 1000)]


@case
def as_many_types_as_may_be(project):
    # the project has a type and the stub of its annotation
    errs(project, [made(project, 49_998), [message(ERROR, "full")], []],
         ["error: [maker] full", "errors: 3 rounds, 1 errors, 0 warnings"])


@case
def one_type_too_many(project):
    refuses(project, [made(project, 49_999)], PAST_A_LIMIT, "TooLarge(Types, 50000)")


@case
def a_created_source_that_is_no_java_file(project):
    refuses(project, [[create_source("a.X", b"class {")]], BAD_GENERATED, "BadGenerated(SOURCE_OUTPUT/a/X.java, 6)")


@case
def the_least_path_of_two_that_are_no_java_files(project):
    off = b"not a source"
    refuses(project, [[create_source("p.E", off), create_source("p.B"), create_source("p.D", off)]], BAD_GENERATED,
            "BadGenerated(SOURCE_OUTPUT/p/D.java, 0)")


@case
def no_java_file_before_a_type_that_is_there(project):
    refuses(project, [[create_source("p.E", source_of("p.C")), create_source("p.D", b"class")]], BAD_GENERATED,
            "BadGenerated(SOURCE_OUTPUT/p/D.java, 5)")


@case
def a_type_that_is_there_before_no_java_file(project):
    refuses(project, [[create_source("p.E", b"class"), create_source("p.D", source_of("p.C"))]], GENERATED_DUPLICATE,
            "GeneratedDuplicate(p.C)")


@case
def no_java_file_in_a_later_round(project):
    refuses(project, [[CREATE, create_source("p.D")], [create_source("p.E", b"not a source")]], BAD_GENERATED,
            "BadGenerated(SOURCE_OUTPUT/p/E.java, 0)")


@case
def a_created_source_of_two_types_and_one_of_a_package(project):
    project.write("stubs/q/B.java", b"package q; public @interface B {}")
    two = b"package p; class D {} class E { void m(@q.A int a) {} }"
    files = {"SOURCE_OUTPUT/p/D.java": two, "SOURCE_OUTPUT/p/package-info.java": b"@q.B package p;"}
    frames = [create_source("p.D", two), create_source("p.package-info", files["SOURCE_OUTPUT/p/package-info.java"])]
    publishes(project, [frames, [], []], [*file_lines(files), done(3, 2)], files,
              sent=[FIRST_ROUND, ACCEPTED, ACCEPTED, round_frame(2, ["p.D", "p.E", "p.package-info"]), last_round(3)])


@case
def a_created_source_of_no_type(project):
    files = {"SOURCE_OUTPUT/p/D.java": b""}
    publishes(project, [[create_source("p.D", b"")], [], []], [*file_lines(files), done(3, 1)], files,
              sent=[FIRST_ROUND, ACCEPTED, round_frame(2, [], offered=()), last_round(3)])


@case
def the_longest_source_that_is_read(project):
    content = source_of("p.D") + b" //" + b"x" * (LONGEST - len(source_of("p.D")) - 3)
    publishes(project, [[from_file(project, "longest", create_source("p.D", content))], [], []],
              [f"file SOURCE_OUTPUT/p/D.java {LONGEST}", done(3, 1)], {"SOURCE_OUTPUT/p/D.java": content},
              sent=[FIRST_ROUND, ACCEPTED, round_frame(2, ["p.D"]), last_round(3)])


@case
def sources_of_the_last_round_are_not_read(project):
    files = {"CLASS_OUTPUT/x": b"hi", "SOURCE_OUTPUT/p/D.java": source_of("p.D"),
             "SOURCE_OUTPUT/p/Y.java": b"x" * 5000, "SOURCE_OUTPUT/p/Z.java": b"not a source"}
    last = [create_source("p.Z", b"not a source"), CREATE, create_source("p.Y", b"x" * 5000)]
    publishes(project, [[create_source("p.D")], [], last],
              [unread("p.Y"), unread("p.Z"), *file_lines(files), done(3, 4, 2)], files)


@case
def a_child_that_writes_a_byte_at_a_time(project):
    steps = [step.replace("say:", "spell:") for step in talk([create_source("p.D"), message(NOTE, "n")], [], [])]
    run = project.run(project.scripted(steps))
    expect("the output", run.output, report("note: [maker] n", "file SOURCE_OUTPUT/p/D.java 26", done(3, 1)))
    expect("what the child was sent", project.sent(),
           INIT + FIRST_ROUND + ACCEPTED + NOTED + round_frame(2, ["p.D"]) + last_round(3))


@case
def more_roots_than_a_pipe_holds(project):
    names = [f"p.D{number:03}{'x' * 100}" for number in range(700)]
    files = {f"SOURCE_OUTPUT/p/{name[2:]}.java": source_of(name) for name in names}
    frames = from_file(project, "frames", *(create_source(name) for name in names))
    publishes(project, [[frames], [], []], [*file_lines(files), done(3, 700)], files,
              sent=[FIRST_ROUND, *[ACCEPTED] * 700, round_frame(2, names), last_round(3)])


@case
def new_files_beside_former_ones(project):
    project.publish_former()
    publishes(project, [[CREATE, create_source("p.D"), create_resource("a")], [], []],
              ["file CLASS_OUTPUT/a 2", "file CLASS_OUTPUT/x 2", "file SOURCE_OUTPUT/p/D.java 26", done(3, 3)],
              {"CLASS_OUTPUT/a": b"hi", "CLASS_OUTPUT/x": b"hi", "SOURCE_OUTPUT/p/D.java": source_of("p.D")})
    expect("the files of the store", sorted(os.listdir(project.path("out/store"))), ["0", "1", "2", "3"])
    expect("the record", project.read("out/record"), record_of({
        "CLASS_OUTPUT/a": (1, b"hi"), "CLASS_OUTPUT/x": (2, b"hi"), "SOURCE_OUTPUT/p/D.java": (3, source_of("p.D"))}))


# Messages.


@case
def messages_of_each_kind(project):
    frames = [message(OTHER, "one"), message(NOTE, "two"), CREATE, message(MANDATORY_WARNING, "three"),
              message(WARNING, "four")]
    publishes(project, [frames, []],
              ["other: [maker] one", "note: [maker] two", "mandatory_warning: [maker] three", "warning: [maker] four",
               "file CLASS_OUTPUT/x 2", done(2, 1, 2)], {"CLASS_OUTPUT/x": b"hi"},
              sent=[FIRST_ROUND, NOTED, NOTED, ACCEPTED, NOTED, NOTED, LAST_ROUND])


@case
def characters_of_a_message(project):
    publishes(project, [[message(NOTE, "a\\b\nc\rd\r\ne\\n"), message(NOTE, ""), message(NOTE, "\tä€𝄞\0")], []],
              ["note: [maker] a\\\\b\\nc\\rd\\r\\ne\\\\n", "note: [maker] ", "note: [maker] \tä€𝄞\0",
               done(2, 0)], {})


@case
def messages_in_the_order_of_rounds(project):
    publishes(project, [[message(WARNING, "1"), create_source("p.D")], [message(NOTE, "2"), message(WARNING, "3")],
                        [create_source("p.E"), message(OTHER, "4")]],
              ["warning: [maker] 1", "note: [maker] 2", "warning: [maker] 3", "other: [maker] 4", unread("p.E"),
               "file SOURCE_OUTPUT/p/D.java 26", "file SOURCE_OUTPUT/p/E.java 26", done(3, 2, 3)],
              {"SOURCE_OUTPUT/p/D.java": source_of("p.D"), "SOURCE_OUTPUT/p/E.java": source_of("p.E")})


@case
def a_message_longer_than_a_pipe_holds(project):
    text = "€\n" * 100_000
    run = project.run(project.scripted(talk([from_file(project, "frame", message(NOTE, text))], [])))
    expect("the output", run.output, report("note: [maker] " + "€\\n" * 100_000, done(2, 0)))
    expect("the status", run.status, DONE_STATUS)


# Messages at elements, each with the path of its file and the line of its name.


def note_at(unit, *path, kind=NOTE, text="n"):
    return message(kind, text, element=bytes([1]) + spelling.element_field(unit, *path))


def notes_at(project, line_of):
    """A build whose child prints a note at each of these elements, by unit and path, has it at this line of the file."""
    lines = [f"note: src/p/C.java:{line}: [maker] n" for line in line_of.values()]
    run = project.run(project.scripted(talk([note_at(*element) for element in line_of], [])))
    expect("the output", run.output, report(*lines, done(2, 0)))


# Each name stands in a line of its own where it can. Behind what is written in C stands nothing; behind the two
# constants of E stand its constructor, `values`, and `valueOf` with its parameter.
LINES = b"""\
package p;

@q.A
public
class
C<T,
  U> {
  int a,
    b;
  void m(int x,
    int y) {
  }
  <V>
  void
  n() {}
  enum E {
    X,
    Y
  }
  @interface I {
    int v()
      default 1;
  }
  C() {}
}
class Second {
}
"""


@case
def a_message_at_each_kind_of_element(project):
    project.write("src/p/C.java", LINES)
    notes_at(project, {
        ("p.C",): 6, ("p.C", 0): 6, ("p.C", 1): 7, ("p.C", 2): 8, ("p.C", 3): 9, ("p.C", 4): 10, ("p.C", 4, 0): 10,
        ("p.C", 4, 1): 11, ("p.C", 5): 15, ("p.C", 5, 0): 13, ("p.C", 6): 16, ("p.C", 6, 0): 17, ("p.C", 6, 1): 18,
        ("p.C", 6, 2): 16, ("p.C", 6, 3): 16, ("p.C", 6, 4): 16, ("p.C", 6, 4, 0): 16, ("p.C", 7): 20,
        ("p.C", 7, 0): 21, ("p.C", 8): 24, ("p.Second",): 26, ("p.Second", 0): 26})


@case
def lines_end_at_cr_and_lf(project):
    for source, line in [(b"package p;\r\n\r@q.A\nclass C {}\r\n", 4), (b"package p;\r@q.A\r\rclass C {}", 4),
                         (b"package p;\n\r@q.A class C {}", 3), (b"package p; // \r\n/* \r\n */ @q.A class C {}", 3),
                         (b"package p; @q.A class\x0c C {}", 1)]:
        project.write("src/p/C.java", source)
        notes_at(project, {("p.C",): line})


@case
def lines_end_at_characters_that_are_escaped(project):
    for source, line in [(rb"package p;\u000a@q.A class C {}", 2), (rb"package p;\u000d\uu000a@q.A class C {}", 2),
                         (rb"package p;\u000a\u000d@q.A class C {}", 3),
                         (rb"package p; /*\\u000a*/ @q.A class C {}", 1)]:
        project.write("src/p/C.java", source)
        notes_at(project, {("p.C",): line})


@case
def a_line_with_many_digits(project):
    project.write("src/p/C.java", b"package p;" + b"\n" * 99_999 + b"@q.A class C {}")
    notes_at(project, {("p.C",): 100_000})


@case
def a_path_is_printed_as_it_is(project):
    os.remove(project.path("src/p/C.java"))
    project.write("src/of p/\u00e9:1: [x].java", b"package p;\n@q.A class C {}")
    run = project.run(project.scripted(talk([note_at("p.C", text="a\\b\nc\rd")], [])))
    expect("the output", run.output, report("note: src/of p/\u00e9:1: [x].java:2: [maker] a\\\\b\\nc\\rd", done(2, 0)))


@case
def a_message_at_a_package(project):
    project.write("src/p/package-info.java", b"/** P. */\n\n@Deprecated\npackage\np;\n")
    publishes(project, [[note_at("q.package-info", text="q"), note_at("p.package-info", text="p"), note_at("p.C")], []],
              ["note: src/p/C.java:1: [maker] n", "note: src/p/package-info.java:4: [maker] p", "note: [maker] q",
               done(2, 0)], {}, sent=[round_frame(1, ["p.C", "p.package-info"]), NOTED, NOTED, NOTED, LAST_ROUND])


@case
def a_message_at_a_package_that_is_created(project):
    info = b"\n\npackage p;\n"
    files = {"SOURCE_OUTPUT/p/package-info.java": info}
    of_p = note_at("p.package-info")
    line = "note: SOURCE_OUTPUT/p/package-info.java:3: [maker] n"
    publishes(project, [[of_p, create_source("p.package-info", info)], [of_p], []],
              [line, line, *file_lines(files), done(3, 1)], files)


@case
def a_message_at_an_element_of_a_stub(project):
    project.write("stubs/q/A.java", b"package q;\n\npublic @interface A {\n  int[] of()\n    default {};\n}\n")
    publishes(project, [[note_at("q.A"), note_at("q.A", 0)], []],
              ["note: stubs/q/A.java:3: [maker] n", "note: stubs/q/A.java:4: [maker] n", done(2, 0)], {})


@case
def messages_at_elements_of_created_sources(project):
    """Each has the path and the lines of its own file, also where another one has more lines."""
    one, two = b"package p;\n\n\nclass D {\n  int d;\n}\n", b"package p; @q.A class E {\n  int e; }"
    files = {"SOURCE_OUTPUT/p/D.java": one, "SOURCE_OUTPUT/p/E.java": two}
    publishes(project, [[create_source("p.D", one), note_at("p.C")], [note_at("p.D", 0), create_source("p.E", two)],
                        [note_at("p.E", 0), note_at("p.E"), note_at("p.D"), note_at("p.C")],
                        [note_at("p.D", kind=WARNING), note_at("p.C", 0)]],
              ["note: src/p/C.java:1: [maker] n", "note: SOURCE_OUTPUT/p/D.java:5: [maker] n",
               "note: src/p/C.java:1: [maker] n", "note: SOURCE_OUTPUT/p/D.java:4: [maker] n",
               "note: SOURCE_OUTPUT/p/E.java:2: [maker] n", "note: SOURCE_OUTPUT/p/E.java:1: [maker] n",
               "note: src/p/C.java:1: [maker] n", "warning: SOURCE_OUTPUT/p/D.java:4: [maker] n",
               *file_lines(files), done(4, 2, 1)], files)


@case
def messages_in_the_order_of_their_elements(project):
    """In a round those of a processor go by their units, and one without an element comes first; of a unit they stay as
    they were sent."""
    project.write("src/p/B.java", b"package p;\nclass B {\n  int b;\n}\n")
    frames = [note_at("p.C", text="1"), note_at("p.B", 0, text="2"), message(NOTE, "3"), note_at("p.B", text="4"),
              message(NOTE, "5"), note_at("p.C", text="6")]
    publishes(project, [frames, [message(NOTE, "7")]],
              ["note: [maker] 3", "note: [maker] 5",
               "note: src/p/B.java:3: [maker] 2", "note: src/p/B.java:2: [maker] 4",
               "note: src/p/C.java:1: [maker] 1", "note: src/p/C.java:1: [maker] 6",
               "note: [maker] 7", done(2, 0)], {})


# Errors.


@case
def an_error_at_a_created_type(project):
    """The file is not published, and its line is that of the created file all the same."""
    created = b"package p;\n\n\nclass D {}\n"
    errs(project, [[create_source("p.D", created)],
                   [note_at("p.D", kind=ERROR, text="d"), note_at("p.C", text="c")], []],
         ["note: src/p/C.java:1: [maker] c", "error: SOURCE_OUTPUT/p/D.java:4: [maker] d",
          "errors: 3 rounds, 1 errors, 0 warnings"])


@case
def errors_in_the_round_that_creates(project):
    """A created source that is not read since an error was printed has no elements; one of the round before has lines."""
    one = b"package p;\n@q.A\nclass D {}\n"
    errs(project, [[create_source("p.D", one)],
                   [note_at("p.D", kind=ERROR), create_source("p.E", b"package p; class E {}"), note_at("p.E")],
                   [note_at("p.D", kind=ERROR, text="late"), note_at("p.E")]],
         ["error: SOURCE_OUTPUT/p/D.java:3: [maker] n", "error: SOURCE_OUTPUT/p/D.java:3: [maker] late",
          "errors: 3 rounds, 2 errors, 0 warnings"],
         sent=[FIRST_ROUND, ACCEPTED, round_frame(2, ["p.D"]), NOTED, ACCEPTED, NO_SUCH,
               last_round(3, error=True), NOTED, NO_SUCH])


@case
def an_error_in_the_last_round(project):
    errs(project, [[CREATE], [message(WARNING, "w"), message(ERROR, "late\n"), message(ERROR, "again")]],
         ["warning: [maker] w", "error: [maker] late\\n", "error: [maker] again",
          "errors: 2 rounds, 2 errors, 1 warnings"],
         sent=[FIRST_ROUND, ACCEPTED, LAST_ROUND, NOTED, NOTED, NOTED])


@case
def a_source_beside_an_error_is_not_read(project):
    errs(project, [[create_source("p.D", b"not a source"), message(ERROR, "bad")], []],
         ["error: [maker] bad", "errors: 2 rounds, 1 errors, 0 warnings"],
         sent=[FIRST_ROUND, ACCEPTED, NOTED, last_round(2, error=True)])


@case
def an_error_in_a_later_round(project):
    errs(project, [[create_source("p.D")], [message(ERROR, "bad"), create_source("p.E")], []],
         ["error: [maker] bad", "errors: 3 rounds, 1 errors, 0 warnings"],
         sent=[FIRST_ROUND, ACCEPTED, round_frame(2, ["p.D"]), NOTED, ACCEPTED, last_round(3, error=True)])


@case
def an_error_and_a_source_of_the_last_round(project):
    errs(project, [[message(ERROR, "bad")], [create_source("p.Z")]],
         ["error: [maker] bad", unread("p.Z"), "errors: 2 rounds, 1 errors, 1 warnings"])


@case
def an_error_in_round_sixty_three(project):
    rounds, _ = chain(63)
    rounds[-1].append(message(ERROR, "bad"))
    errs(project, [*rounds, []], ["error: [maker] bad", "errors: 64 rounds, 1 errors, 0 warnings"])


@case
def an_error_before_a_refusal(project):
    refuses(project, [[message(ERROR, "bad")], [by_hand("00000002 41 00")]], CLAIM_BROKEN, "ClaimBroken(maker, always, false)")


# The answers to creations.


@case
def files_by_location_and_package(project):
    frames = [create_resource("c/d.txt", b"1", package="a.b"), create_resource("META-INF/x", b"22"),
              create_resource("d.h", b"", package="a", location=NATIVE_HEADER_OUTPUT),
              create_resource("a/D.java", b"333", location=SOURCE_OUTPUT),
              create_resource("C.java", b"4444", package="p", location=SOURCE_OUTPUT)]
    files = {"CLASS_OUTPUT/META-INF/x": b"22", "CLASS_OUTPUT/a/b/c/d.txt": b"1", "NATIVE_HEADER_OUTPUT/a/d.h": b"",
             "SOURCE_OUTPUT/a/D.java": b"333", "SOURCE_OUTPUT/p/C.java": b"4444"}
    publishes(project, [frames, []], [*file_lines(files), done(2, 5)], files)


@case
def class_files_are_unsupported(project):
    frames = [create_class("p.D"), create_class("p.D", b"x" * 100), create_class(""), create_class("p.C")]
    run = answers(project, frames, [UNSUPPORTED] * 4)
    expect("the output", run.output, report(done(2, 0)))


@case
def bad_names_of_types(project):
    names = ["", ".", "p.", ".D", "p..D", "p.class", "int.D", "p.true", "p._", "p.1D", "p/D", "p.D-", "p. D", "p.D\n",
             "package-info", ".package-info", "p.package-info.D", "int.package-info", "a-b.package-info", "*", "p.*",
             "p." + "D" * 1023]
    run = answers(project, [create_source(name, source_of("p.D")) for name in names], [BAD_NAME] * len(names))
    expect("the output", run.output, report(done(2, 0)))


@case
def good_names_of_types(project):
    names = ["D", "p.D", "p.q.r.D", "p.D_", "p.$", "p.__", "p.É1", "p.package-info", "q.C", "p.record",
             "p." + "D" * 1022]
    types = {name: f"g.G{number:02}" for number, name in enumerate(names)}
    contents = {name: source_of(types[name]) for name in names}
    # A file of this name declares its package alone (JLS 7.4.1).
    contents["p.package-info"] = f"@q.A package {types['p.package-info']};".encode()
    types["p.package-info"] += ".package-info"
    files = {f"SOURCE_OUTPUT/{name.replace('.', '/')}.java": contents[name] for name in names}
    publishes(project, [[create_source(name, contents[name]) for name in names], [], []],
              [*file_lines(files), done(3, len(names))], files,
              sent=[FIRST_ROUND, *[ACCEPTED] * len(names), round_frame(2, list(types.values())), last_round(3)])


@case
def bad_names_of_resources(project):
    relative = ["", "/", "/a", "a/", "a//b", ".", "..", "a/../b", "./a", "a/.", "a\\b", "a\n", "\0", "a\x1fb", "a\x7f",
                "a" * 1025]
    packages = [".", "a.", ".a", "a..b", "a/b", "1a", "a b", "int", "a.null", "a-b", "a." + "b" * 1023]
    frames = [create_resource(name) for name in relative]
    frames += [create_resource("x", package=package, location=SOURCE_OUTPUT) for package in packages]
    run = answers(project, frames, [BAD_NAME] * len(frames))
    expect("the output", run.output, report(done(2, 0)))


@case
def good_names_of_resources(project):
    relative = ["a b", "...", ".a", "a..b/c", "-", "ä€", "a:*?", "x" * 1024, "CLASS_OUTPUT/x"]
    files = {f"CLASS_OUTPUT/{name}": b"hi" for name in relative}
    files["CLASS_OUTPUT/a_/b$/é/x"] = b"hi"
    frames = [create_resource(name) for name in relative] + [create_resource("x", package="a_.b$.é")]
    publishes(project, [frames, []], [*file_lines(files), done(2, len(files))], files)


@case
def what_exists(project):
    frames = [create_source("p.C"), create_source("p.D"), create_source("p.D", b"other"),
              create_resource("D.java", package="p", location=SOURCE_OUTPUT),
              create_resource("p/D.java", location=SOURCE_OUTPUT),
              create_resource("E.java", package="p", location=SOURCE_OUTPUT), create_source("p.E"),
              create_resource("p/D.java"), create_resource("D.java", package="p")]
    wanted = [EXISTS, ACCEPTED, EXISTS, EXISTS, EXISTS, ACCEPTED, EXISTS, ACCEPTED, EXISTS]
    files = {"CLASS_OUTPUT/p/D.java": b"hi", "SOURCE_OUTPUT/p/D.java": source_of("p.D"),
             "SOURCE_OUTPUT/p/E.java": b"hi"}
    publishes(project, [frames, [create_source("p.D")], [create_resource("p/D.java", b"late"), create_source("p.C")]],
              [*file_lines(files), done(3, 3)], files,
              sent=[FIRST_ROUND, *wanted, round_frame(2, ["p.D"]), EXISTS, last_round(3), EXISTS, EXISTS])


@case
def one_content_that_is_too_large(project):
    frames = [from_file(project, "long", create_resource("x", b"x" * (LONGEST + 1))),
              from_file(project, "source", create_source("p.D", b"x" * (LONGEST + 1))),
              from_file(project, "longest", create_resource("x", b"x" * LONGEST))]
    publishes(project, [frames, []], [f"file CLASS_OUTPUT/x {LONGEST}", done(2, 1)], {"CLASS_OUTPUT/x": b"x" * LONGEST},
              sent=[FIRST_ROUND, TOO_LARGE, TOO_LARGE, ACCEPTED, LAST_ROUND])


@case
def all_contents_and_paths_that_are_too_large(project):
    path = len("CLASS_OUTPUT/a")
    room = ALL - 7 * (LONGEST + path)
    frames = [from_file(project, f"frame-{name}", create_resource(name, b"x" * LONGEST)) for name in "abcdefg"]
    frames += [from_file(project, "frame-h", create_resource("h", b"x" * (room - path + 1))),
               from_file(project, "frame-i", create_resource("h", b"x" * (room - path - 14))),
               create_resource("ij", b""), create_resource("i", b""), create_resource("j", b""), create_resource("i")]
    sent = [FIRST_ROUND, *[ACCEPTED] * 7, TOO_LARGE, ACCEPTED, TOO_LARGE, ACCEPTED, TOO_LARGE, EXISTS, LAST_ROUND]
    sizes = dict.fromkeys("abcdefg", LONGEST) | {"h": room - path - 14, "i": 0}
    lines = [f"file CLASS_OUTPUT/{name} {size}" for name, size in sizes.items()]
    publishes(project, [frames, []], [*lines, done(2, 9)],
              {f"CLASS_OUTPUT/{name}": b"x" * size for name, size in sizes.items()}, sent=sent)


@case
def the_order_of_the_tests(project):
    too_large = b"x" * (LONGEST + 1)
    frames = [CREATE, from_file(project, "class", create_class("", too_large)),
              from_file(project, "name", create_resource("..", too_large)),
              from_file(project, "type", create_source("p.", too_large)),
              from_file(project, "path", create_resource("x", too_large)),
              from_file(project, "unit", create_source("p.C", too_large))]
    run = answers(project, frames, [ACCEPTED, UNSUPPORTED, BAD_NAME, BAD_NAME, EXISTS, EXISTS])
    expect("the output", run.output, report("file CLASS_OUTPUT/x 2", done(2, 1)))


@case
def a_thousand_and_one_creations(project):
    names = [f"x{number:04}" for number in range(1001)]
    files = {f"CLASS_OUTPUT/{name}": b"" for name in names}
    frames = from_file(project, "frames", *(create_resource(name, b"") for name in names))
    publishes(project, [[frames], []], [*file_lines(files), done(2, 1001)], files,
              sent=[FIRST_ROUND, *[ACCEPTED] * 1001, LAST_ROUND])


# Questions, and elements of creations and messages.

ROOTS, ROOT = by_hand("00000001 73"), by_hand("00000010 10 00000001 00000003 702e43 00000000")
NAMED, NONE_OF_THE_NAME = by_hand("00000008 50 00000003 782e59"), by_hand("00000005 10 00000000")
NO_SUCH = by_hand("00000002 19 00")

AN_ELEMENT = by_hand("01 00000003 702e43 00000000")
ABSENT_ORIGIN = by_hand("00000001 00000003 782e59 00000000")


@case
def questions(project):
    answers(project, [ROOTS, NAMED, CREATE, ROOTS], [ROOT, NONE_OF_THE_NAME, ACCEPTED, ROOT])


@case
def elements_of_creations_and_messages(project):
    frames = [create_resource("x", origins=ABSENT_ORIGIN), create_resource("x", origins=ONE_ORIGIN),
              create_class("p.D", origins=ONE_ORIGIN), message(NOTE, "n", element=AN_ELEMENT)]
    run = answers(project, frames, [NO_SUCH, ACCEPTED, UNSUPPORTED, NOTED])
    expect("the output", run.output, report("note: src/p/C.java:1: [maker] n", "file CLASS_OUTPUT/x 2", done(2, 1)))


WRONG_KIND = by_hand("00000002 19 01")

# What a class is that is in the package p.
INFO_OF_C, INFO_OF_D = (by_hand(f"00000011 11 02 0000 00000001 {letter} 00000003 702e{letter} 00")
                        for letter in ("43", "44"))


def type_named(name):
    return spelling.about_name(spelling.TYPE_ELEMENT, name)


def info_of(unit, *path):
    return spelling.about_element(spelling.ASK_INFO, unit, *path)


ANNOTATED = spelling.about_name(spelling.ANNOTATED_WITH, "q.A")
TYPES_OF_THE_PACKAGE = spelling.about_element(spelling.ENCLOSED, "p.package-info")


@case
def questions_written_out(_project):
    for spelled, digits in [(NAMED, type_named("x.Y").hex()), (ROOTS, spelling.frame(spelling.ROOTS).hex()),
                            (ROOT, spelling.elements("p.C").hex()), (NONE_OF_THE_NAME, spelling.elements().hex()),
                            (info_of("p.C", 1), "0000000e 52 00000003 702e43 00000001 0001"),
                            (ANNOTATED, "00000008 72 00000003 712e41")]:
        expect("a frame", spelled.hex(), digits.replace(" ", ""))


@case
def refused_questions_between_others(project):
    parameters = spelling.about_element(spelling.PARAMETERS, "p.C")
    asked = [info_of("x.Y"), info_of("p.C"), info_of("p.C", 1), parameters, CREATE, info_of("x.Y"), type_named("p.C")]
    wanted = [NO_SUCH, INFO_OF_C, NO_SUCH, WRONG_KIND, ACCEPTED, NO_SUCH, ROOT]
    run = answers(project, asked, wanted)
    expect("the output", run.output, report("file CLASS_OUTPUT/x 2", done(2, 1)))


@case
def created_sources_are_asked_about_from_the_next_round_on(project):
    first = [create_source("p.D"), type_named("p.D"), info_of("p.D"), ANNOTATED, TYPES_OF_THE_PACKAGE]
    second = [type_named("p.D"), info_of("p.D"), ROOTS, ANNOTATED, TYPES_OF_THE_PACKAGE, create_source("p.E"),
              type_named("p.E")]
    last = [type_named("p.E"), ROOTS, ANNOTATED, TYPES_OF_THE_PACKAGE]
    none, d, e = NONE_OF_THE_NAME, spelling.elements("p.D"), spelling.elements("p.E")
    files = {f"SOURCE_OUTPUT/p/{name}.java": source_of(f"p.{name}") for name in "DE"}
    publishes(project, [first, second, [ROOTS, info_of("p.C")], last], [*file_lines(files), done(4, 2)], files,
              sent=[FIRST_ROUND, ACCEPTED, none, NO_SUCH, ROOT, ROOT,
                    round_frame(2, ["p.D"]), d, INFO_OF_D, d, d, spelling.elements("p.C", "p.D"), ACCEPTED, none,
                    round_frame(3, ["p.E"]), e, INFO_OF_C,
                    last_round(4), e, none, none, spelling.elements("p.C", "p.D", "p.E")])


@case
def ten_thousand_questions_in_a_round(project):
    some = [(ROOTS, ROOT), (NAMED, NONE_OF_THE_NAME), (info_of("p.C"), INFO_OF_C), (info_of("x.Y"), NO_SUCH),
            (TYPES_OF_THE_PACKAGE, ROOT)]
    asked, wanted = (b"".join(frames) for frames in zip(*some))
    project.write("asked", asked * 2000)
    run = answers(project, [["exchange:" + project.path("asked")]], [wanted * 2000])
    expect("the output", run.output, report(done(2, 0)))


@case
def frames_of_megabytes_to_and_fro(project):
    names = [f"p.C{number:04}{'x' * 1017}" for number in range(3000)]
    lines = [f"@q.A class {name[2:]} {{}}\n" for name in names]
    project.write("src/p/C.java", "".join(["package p;\n", *lines]).encode())
    too_long, longest = (create_resource("x", b"x" * count) for count in (LONGEST + 1, LONGEST))
    project.write("asked", b"".join([too_long, ROOTS, ANNOTATED, longest]))
    elements = spelling.elements(*names)
    publishes(project, [[["exchange:" + project.path("asked")]], []], [f"file CLASS_OUTPUT/x {LONGEST}", done(2, 1)],
              {"CLASS_OUTPUT/x": b"x" * LONGEST},
              sent=[round_frame(1, names), TOO_LARGE, elements, elements, ACCEPTED, LAST_ROUND])


# What is written behind Done is read as the beginning of what answers the next round.


def with_done(frame):
    return [say(DONE + frame), "read"]


@case
def what_is_written_behind_done(project):
    files = {f"SOURCE_OUTPUT/p/{name}.java": source_of(f"p.{name}") for name in "DE"}
    behind = with_done(create_source("p.E") + type_named("p.D"))
    steps = ["read", say(HELLO), "read", say(create_source("p.D")), "read", *behind, "read", "read",
             *with_done(message(NOTE, "n")), "read", say(DONE), "read", say(DONE), "rest"]
    run = project.run(project.scripted(steps))
    expect("the output", run.output, report("note: [maker] n", *file_lines(files), done(4, 2)))
    expect("the status", run.status, DONE_STATUS)
    expect("what the child was sent", project.sent(), b"".join([
        INIT, FIRST_ROUND, ACCEPTED, round_frame(2, ["p.D"]), ACCEPTED, spelling.elements("p.D"),
        round_frame(3, ["p.E"]), NOTED, last_round(4)]))


@case
def what_is_no_talk_behind_done(project):
    for frame, status, refusal in [(HELLO, WRONG_FRAME, "WrongFrame(maker, 64)"),
                                   (by_hand("00000001 77"), BAD_FRAME, "BadFrame(maker, 4, Tag)")]:
        refused(project, project.scripted(["read", say(HELLO), "read", say(DONE + frame), "rest"]), status, refusal)
        expect("what the child was sent", project.sent(), INIT + FIRST_ROUND + LAST_ROUND)
    run = project.run(project.scripted(["read", say(HELLO), "read", say(DONE), "read", say(DONE + HELLO), "rest"]))
    expect("the output", run.output, report(done(2, 0)))


# Frames that are none of these, or not in this order.

NO_TEXT = spelling.bytes_field(b"\xff")
NAME, NOTHING = spelling.text_field("p.D"), spelling.bytes_field(b"")

# The kind and the element of a note.
A_NOTE = bytes([NOTE]) + spelling.NO_ELEMENT

NOT_IN_A_ROUND = {
    "a Done that says 2": (by_hand("00000002 41 02"), BAD_FRAME, "BadFrame(maker, 5, Field)"),
    "a Done with one byte more": (by_hand("00000003 41 01 00"), BAD_FRAME, "BadFrame(maker, 6, Rest)"),
    "a Done without its field": (by_hand("00000001 41"), BAD_FRAME, "BadFrame(maker, 4, Field)"),
    "a second Hello": (HELLO, WRONG_FRAME, "WrongFrame(maker, 64)"),
    "Init": (INIT, WRONG_FRAME, "WrongFrame(maker, 1)"),
    "a round": (FIRST_ROUND, WRONG_FRAME, "WrongFrame(maker, 2)"),
    "a reply": (ACCEPTED, WRONG_FRAME, "WrongFrame(maker, 23)"),
    "Noted": (NOTED, WRONG_FRAME, "WrongFrame(maker, 24)"),
    "a message of kind 5": (message(5, "n"), BAD_FRAME, "BadFrame(maker, 5, Field)"),
    "a message whose element is 2": (message(NOTE, "n", element=bytes([2])),
        BAD_FRAME, "BadFrame(maker, 6, Field)"),
    "a message that is no text": (spelling.frame(spelling.MESSAGE, A_NOTE + NO_TEXT),
        BAD_FRAME, "BadFrame(maker, 11, Field)"),
    "a message with one byte more": (spelling.frame(spelling.MESSAGE, A_NOTE + spelling.text_field("n") + b"\0"),
        BAD_FRAME, "BadFrame(maker, 12, Rest)"),
    "a message that ends inside its text": (spelling.frame(spelling.MESSAGE, A_NOTE + by_hand("00000002 6e")),
        BAD_FRAME, "BadFrame(maker, 11, Field)"),
    "a source whose name is no text": (spelling.frame(spelling.CREATE_SOURCE, NO_TEXT + NOTHING + NO_ORIGINS),
        BAD_FRAME, "BadFrame(maker, 9, Field)"),
    "a source without origins": (spelling.frame(spelling.CREATE_SOURCE, NAME + NOTHING),
        BAD_FRAME, "BadFrame(maker, 15, Field)"),
    "a resource at location 3": (create_resource("x", location=3), BAD_FRAME, "BadFrame(maker, 5, Field)"),
    "a class file with one byte more": (spelling.frame(spelling.CREATE_CLASS, NAME + NOTHING + NO_ORIGINS + b"\0"),
        BAD_FRAME, "BadFrame(maker, 20, Rest)"),
    "a question that is no text": (by_hand("00000006 50 00000001 ff"), BAD_FRAME, "BadFrame(maker, 9, Field)"),
    "a question with one byte more": (by_hand("00000002 73 00"), BAD_FRAME, "BadFrame(maker, 5, Rest)"),
    "a tag of no frame": (by_hand("00000001 77"), BAD_FRAME, "BadFrame(maker, 4, Tag)"),
    "an empty frame": (by_hand("00000000"), BAD_FRAME, "BadFrame(maker, 3, Length)"),
    "a frame past the limit": (by_hand("07fffffd 45"), BAD_FRAME, "BadFrame(maker, 3, Length)"),
}


@case
def what_is_no_talk_in_a_round(project):
    for what, (frame, status, refusal) in NOT_IN_A_ROUND.items():
        in_round(what, project, [[CREATE, [say(frame), "rest"]]], status, refusal)


@case
def what_is_no_talk_in_a_further_round(project):
    for what in ["a Done that says 2", "a source without origins", "a question that is no text", "a second Hello"]:
        frame, status, refusal = NOT_IN_A_ROUND[what]
        steps = [say(frame), "rest"]
        in_round(what + ", in round 2", project, [[create_source("p.D")], [steps]], status, refusal)
        in_round(what + ", in the last round", project, [[create_source("p.D")], [], [steps]], status, refusal)


def in_round(what, project, rounds, status, refusal):
    try:
        refuses(project, rounds, status, refusal)
    except Failure as failure:
        raise Failure(f"{what}: {failure}") from None


# The Done of a processor whose Hello said that it always claims.


@case
def a_done_that_breaks_the_claim(project):
    broken = [say(spelling.done(claimed=False)), "rest"]
    for rounds in [[[CREATE, broken]], [[create_source("p.D")], [broken]], [[create_source("p.D")], [], [broken]]]:
        refuses(project, rounds, CLAIM_BROKEN, "ClaimBroken(maker, always, false)")


@case
def a_frame_in_the_place_of_hello(project):
    for tag, frame in [(66, create_source("p.D")), (67, CREATE), (68, create_class("p.D")), (69, message(NOTE, "n"))]:
        refused(project, project.scripted(["read", say(frame), "rest"]), WRONG_FRAME, f"WrongFrame(maker, {tag})")


@case
def a_child_that_ends_in_a_further_round(project):
    steps = talk([create_source("p.D")])[:-1]
    refused(project, project.scripted([*steps, "read"]), CHILD_ENDED, "ChildEnded(maker, 0)")
    cut = create_source("p.E")[:-1]
    refused(project, project.scripted([*steps, "read", say(cut)]), CHILD_ENDED, f"ChildEnded(maker, {len(cut)})")


# How many frames other than Done may come in one round: 65,536 and 4,096 for each root.


def asked(count, frame):
    return [f"ask:{count}:{frame.hex()}"]


@case
def as_many_frames_as_may_come(project):
    run = project.run(project.scripted(talk([asked(69_632, create_class("x"))], [asked(65_536, create_class("x"))])))
    expect("the output", run.output, report(done(2, 0)))
    expect("the status", run.status, DONE_STATUS)
    expect("what the child was sent", project.sent(),
           INIT + FIRST_ROUND + UNSUPPORTED * 69_632 + LAST_ROUND + UNSUPPORTED * 65_536)


@case
def one_question_more(project):
    refuses(project, [[asked(69_632, ROOTS), [say(ROOTS), "rest"]]], TOO_MANY_QUESTIONS, "TooManyQuestions(maker, 69632)")
    expect("what the child was sent", project.sent(), INIT + FIRST_ROUND + ROOT * 69_632)


@case
def one_frame_more(project):
    refuses(project, [[CREATE, asked(69_632, create_class("x"))]], TOO_MANY_QUESTIONS, "TooManyQuestions(maker, 69632)")
    expect("what the child was sent", project.sent(), INIT + FIRST_ROUND + ACCEPTED + UNSUPPORTED * 69_631)


@case
def what_is_no_talk_behind_as_many_frames_as_may_come(project):
    frame, status, refusal = NOT_IN_A_ROUND["a second Hello"]
    refuses(project, [[asked(69_632, create_class("x")), [say(frame), "rest"]]], status, refusal)


@case
def one_message_more_than_may_come_in_the_last_round(project):
    refuses(project, [[], [asked(65_537, message(NOTE, "n"))]], TOO_MANY_QUESTIONS, "TooManyQuestions(maker, 65536)")


@case
def one_frame_more_than_may_come_for_two_roots(project):
    project.write("src/p/D.java", source_of("p.D"))
    refuses(project, [[asked(73_729, create_resource("x"))]], TOO_MANY_QUESTIONS, "TooManyQuestions(maker, 73728)")


if __name__ == "__main__":
    case.main()
