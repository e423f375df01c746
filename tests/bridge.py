#!/usr/bin/env python3
"""Builds the jar of kits/java, and tries its bridge: processors that were written for javac, as children of the host.

    tests/bridge.py [PROGRAM]

PROGRAM is crates/apt_cli/out/apt_cli where it is left out. Each case prints a line. The first that fails ends the
run with status 1. The last line is 'bridge: N passed, M failed'. Without a JDK nothing can be tried, and that is a
failed case. No jar is needed but the JDK's and the one that is built.

What is expected of a processor is what javac gives of it: the same files, and the same messages.
"""
import ast
import functools
import os
import re
import shutil
import subprocess
import sys

from beside_javac import CLASSES, SECONDS, bridge, compare, compiled, stubs_of_the_jdk, under_host, under_javac, use
from host import HERE, Cases, expect, frames
from stubs import FAST, JAR, KIT, put

DOCUMENT = os.path.join(HERE, "..", "docs", "PROTOCOL.md")
TABLE = os.path.join(HERE, "..", "crates", "vector_tables", "src", "frame_table.rt")
SOURCES = os.path.join(HERE, "bridge")
DONE, FAILED, WRONG_WORDS = 0, 1, 2
NEVER, VARIES = 1, 2
# A file that is opened and never closed, which javac leaves empty and the host doesn't have.
UNCLOSED = os.path.join("made", "Open.java")
# The methods that the language adds to an enum, as Elements.Origin says; the javac of JDK 17 says otherwise.
OF_EVERY_ENUM = [(f"METHOD {method}: EXPLICIT", f"METHOD {method}: MANDATED")
                 for method in ("values()", "valueOf(java.lang.String)")]
# A file that is read after it was created, which the bridge gives and javac doesn't.
READ, UNREAD = ("note", "after: done"), ("note", "after: FilerException")
# There are no modules and no captured types, a method's receiver is of no type, and a raw type within another one is not
# that of the same class with arguments.
CAPTURED = "  captured: UnsupportedOperationException"
PART, RAW_PART = "e.Calls.Outer<java.lang.String>.Part", "e.Calls.Outer.Part"
METHOD = ("type <X>(X,java.lang.String[])void: EXECUTABLE executable XX,java.lang.String[]voidX,java.io.IOException{}"
          "null0false")
CALLS = [
    ("module: java.base", "module: null"), ("module of: unnamed module", "module of: null"),
    ("no modules: false", "no modules: true"), ("around package: unnamed module", "around package: null"),
    ("type of no module: NullPointerException", "type of no module: null"),
    ("  captured: java.util.List<capture of ? extends java.lang.Number>", CAPTURED),
    ("  captured: java.util.List<capture of ? super java.lang.Integer>", CAPTURED),
    (METHOD.format("null"), METHOD.format("none")),
    ("  captured: java.util.List<capture of ? extends java.lang.String>", CAPTURED),
    *(2 * [(f"{PART} and {RAW_PART}: -++-", f"{PART} and {RAW_PART}: ----")]),
    *(2 * [(f"{RAW_PART} and {PART}: --+-", f"{RAW_PART} and {PART}: ----")]),
]
# What is said of a class with two annotations of a type that another one is to contain.
REPEATED = "note", "r.Reps at [r.Repeated]"

case = Cases("bridge")


# ---- what the cases share


@functools.cache
def classes():
    """The folder of the processors' classes, and of those of the annotations that they have as objects."""
    return compiled(SOURCES, os.path.join(SOURCES, "processors"), os.path.join(SOURCES, "objects", "o"))


def same(project, names, folder, *options, different=(), elsewhere=()):
    """What processors give of a project under the host, which is what javac gives, but for lines and places that are
    known."""
    use(project, os.path.join(SOURCES, folder), stubs=stubs_of_the_jdk())
    commands = {name: bridge(name, class_path=classes()) for name in names}
    own = under_host(project, commands, options)
    javac = under_javac(project, names, classes(), options=options)
    javac.files.pop(UNCLOSED, None)
    javac.printed = sorted((*READ, place) if (kind, text) == UNREAD else (kind, text, place)
                           for kind, text, place in javac.printed)
    compare(own, javac, different, elsewhere)
    return own


def echo(pieces):
    """What is said of pieces of bytes: the frames, as they are written again, or why they are none."""
    data = b"".join(frames.bytes_field(piece) for piece in pieces)
    run = subprocess.run(["java", *FAST, "-cp", os.pathsep.join([classes(), JAR]), "FrameEcho"], input=data,
                         stdout=subprocess.PIPE, check=True)
    return run.stdout.decode().splitlines()


def talk(words, *sent, class_path=""):
    """The bytes that a bridge says where it is sent these frames and then no more; its status and its messages."""
    run = subprocess.run(bridge(*words, class_path=class_path), input=b"".join(sent), stdout=subprocess.PIPE,
                         stderr=subprocess.PIPE, check=False)
    return run.stdout, run.returncode, run.stderr.decode()


def hello(options):
    """What a processor of all annotations says that may claim them or not."""
    fields = frames.texts_field(["*"]) + frames.texts_field(options) + bytes([VARIES])
    return frames.frame(frames.HELLO, fields)


# ---- frames


def document_frames():
    """The frames that the document writes out."""
    found = []
    with open(DOCUMENT, encoding="utf-8") as file:
        for line in file:
            match = re.fullmatch(r" {4}\w+ +([0-9a-f ]+)\n", line)
            if match:
                found.append(bytes.fromhex(match.group(1)))
    return found


@case
def the_frames_of_the_document(_project):
    found = document_frames()
    expect("the number of tags", len({frame[4] for frame in found}), 54)
    expect("the frames", echo(found), [frame.hex() for frame in found])


def table_frames(verdict):
    """The bytes of the table's cases with this verdict, each with the kind of what is bad."""
    with open(TABLE, encoding="utf-8") as file:
        text = file.read()
    row = r'bytes: (b"(?:[^"\\]|\\.)*"),\s*expected: Verdict::(\w+)(?: \{\s*place: \d+,\s*kind: BadKind::(\w+))?'
    rows = re.findall(row, text)
    return [(ast.literal_eval(data), kind) for data, word, kind in rows if word == verdict]


@case
def the_table_of_frames(_project):
    whole = [data for data, _ in table_frames("Whole")]
    expect("whether there are many frames", len(whole) > 50, True)
    expect("the frames", echo(whole), [data.hex() for data in whole])
    # What follows a bad byte doesn't matter. The order of texts and the form of patterns are for a host to test.
    bad = [data + bytes(100) for data, kind in table_frames("Bad") if kind in ("Length", "Tag", "Rest")]
    begun = [data for data, _ in table_frames("Begun") if data]
    expect("whether there are both", len(bad) > 3 and len(begun) > 3, True)
    for data, said in zip([*bad, *begun], echo([*bad, *begun])):
        expect(f"what is said of {data.hex()[:80]}", said[:5], "none:")


# ---- a talk


@case
def a_talk_without_questions(_project):
    said, status, messages = talk(["Failing"], frames.init("x"), class_path=classes())
    expect("what it says", said, hello([]))
    expect("the status and the messages", (status, messages), (DONE, ""))
    said, _, _ = talk(["--claim", "never", "InInit"], frames.init("x"), class_path=classes())
    expect("what is said of options", said.hex()[-2:], f"{NEVER:02x}")
    expect("whether both options are there", b"asked" in said and b"late" in said, True)


@case
def the_kind_that_a_jar_says(project):
    put(project.folder, "kinds/META-INF/gradle/incremental.annotation.processors",
        "# kinds\nFailing , ISOLATING # own\nInInit,dynamic\n")
    path = os.pathsep.join([project.path("kinds"), classes()])
    said, _, _ = talk(["Failing"], frames.init("x"), class_path=path)
    expect("what it says", said, hello(["org.gradle.annotation.processing.isolating"]))
    said, _, _ = talk(["InInit"], frames.init("x"), class_path=path)
    expect("whether a dynamic one says a kind", b"gradle" in said, False)


@case
def words(_project):
    for words_of in ([], ["a", "b"], ["--claim", "A"], ["--claim", "sometimes", "A"], ["--claim", "never"],
                     ["--claim", "never", "A", "B"]):
        said, status, messages = talk(words_of)
        expect(f"the status of {words_of}", status, WRONG_WORDS)
        expect("the first line", messages.splitlines()[0].split()[0], "usage:")
        expect("what it says", said, b"")
    for name, message in [("Absent", "no class Absent on the class path"),
                          ("java.lang.String", "java.lang.String is no annotation processor")]:
        expect(f"the talk of {name}", talk([name]), (b"", FAILED, message + "\n"))


# ---- processors


@case
def the_model(project):
    """All that a processor sees of declarations and types; a constant is one for the host by the form of its text."""
    own = same(project, ["Everything"], "model", "key=value", different=[
        ("    constant: Integer 12", "    constant: none"),  # 3 * 4
        ("    constant: Long 1099511627776L", "    constant: none"),  # 1L << 40
        ('    constant: String "a12"', "    constant: none"),  # "a" and the first one
        ("    constant: Boolean true", "    constant: none"),  # !false
    ])
    lines = own.files["everything.txt"].decode().splitlines()
    print(f"  {len(lines)} lines on the model are the same")


@case
def annotations_as_objects(project):
    own = same(project, ["AsObjects"], "objects")
    expect("whether an unknown value is said to be", b"AnnotationTypeMismatchException" in own.files["objects.txt"],
           True)


@case
def expressions_of_literals(project):
    same(project, ["Everything"], "constants")


@case
def files_and_messages(project):
    own = same(project, ["Making"], "files", "given=x", "open=yes", "other=y")
    expect("whether there are files of two rounds", "made/Old__.java" in own.files, True)
    expect("whether the version is warned of", "less than -source" in str(own.messages), True)


@case
def lines_of_elements(project):
    """A message at each element stands in the line of its name. Of a class javac says the line of its keyword, of a
    constant that of its first annotation, and of what it adds to an enum nothing."""
    own = same(project, ["Located"], "lines", elsewhere=[
        ("C.java:7", "C.java:8"),  # class C
        ("C.java:23", "C.java:24"),  # the constant X
        ("", "C.java:22"), ("", "C.java:22"), ("", "C.java:22"),  # valueOf and values, and the parameter of valueOf
    ])
    expect("how many elements there are", len(own.places), 28)


@case
def printed_declarations(project):
    """What is printed of declarations, what is deprecated, and what the language adds. The blanks in front of a line of
    a comment are no part of it for the host, where the line has no star."""
    blanks = [(f"   *      {line} ", f"   *{line} ") for line in ("@deprecated", "@deprecatedX")]
    same(project, ["Printed"], "printed", different=[*blanks, *(2 * OF_EVERY_ENUM)])


@case
def the_printed_model(project):
    constants = [("  public static final int SIZE", " = 12"), ("  static final long L", " = 1099511627776L"),
                 ("  static final java.lang.String TEXT", ' = "a12"'), ("  static final boolean YES", " = true")]
    same(project, ["Printed"], "model", different=[
        *OF_EVERY_ENUM, *((f"{front}{value};", f"{front};") for front, value in constants), *(2 * OF_EVERY_ENUM)])


@case
def the_order_of_annotated_elements(project):
    same(project, ["Ordered"], "order")


@case
def calls(project):
    """What the other processors don't call. For javac a message at an annotation is in its line."""
    same(project, ["Calling"], "calls", elsewhere=8 * [("Calls.java:7", "Calls.java:8")], different=CALLS)


@case
def annotations_that_contain_others(project):
    """One that is not written, but contains those that are, is present in their place."""
    own = same(project, ["Contained$Both", "Contained$Any"], "repeated")
    expect("how often it is offered", own.messages.count(REPEATED), 2)


def contained_alone(project, *written):
    """What a processor that supports the containing annotation alone says under the host, and what under javac, where
    these texts stand in a unit too."""
    use(project, os.path.join(SOURCES, "repeated"), stubs=stubs_of_the_jdk())
    for text in written:
        put(project.folder, "src/s/Written.java", text)
    own = under_host(project, {"alone": bridge("Contained", class_path=classes())})
    return own, under_javac(project, ["Contained"], classes())


@case
def an_annotation_that_contains_others_alone(project):
    """For the host an annotation is present where it is written, and it is asked only where one is present that the
    processor supports."""
    own, javac = contained_alone(project)
    expect("the messages", (own.messages, javac.messages), ([], [REPEATED]))


@case
def an_annotation_that_contains_others_and_is_written(project):
    own, javac = contained_alone(project, "package s; @r.Reps({@r.Rep(1), @r.Rep(2)}) class Written {}\n")
    compare(own, javac)
    expect("the messages", own.messages, [("note", "r.Reps at [r.Repeated, s.Written]")])


@case
def a_question_that_comes_late(project):
    use(project, os.path.join(SOURCES, "files"), stubs=stubs_of_the_jdk())
    project.configure({"asking": bridge("Afterwards", class_path=classes())})
    run = project.run(["build"], seconds=SECONDS)
    expect("the status", run.status, DONE)
    expect("the messages", run.messages.decode(), "outside of a round the host answers nothing: TYPE_ELEMENT\n")


@case
def types_in_init(project):
    own = same(project, ["InInit"], "files")
    expect("whether a type was found", ("note", "initialised with java.lang.Object") in own.messages, True)


@case
def several_processors(project):
    same(project, ["Making", "InInit", "Everything"], "files")


@case
def a_processor_that_claims_all(project):
    own = same(project, ["InInit", "Making", "Everything"], "files")
    expect("the files", own.files, {})


@case
def a_processor_that_fails(project):
    use(project, os.path.join(SOURCES, "files"), stubs=stubs_of_the_jdk())
    on_purpose = "IllegalStateException: on purpose"
    for name, exception, place in [
            ("Failing", f"lang.{on_purpose}", "Failing.process"),
            ("Failing$InClass", 'lang.NumberFormatException: For input string: "none"', "java.base/java.lang.Number"),
            ("Failing$InConstructor", "io.IOException: on purpose", "Failing$InConstructor.<init>"),
            ("Failing$WhereInitialised", f"lang.{on_purpose}", "Failing$WhereInitialised.init"),
            ("Failing$InOptions", f"lang.{on_purpose}", "Failing$InOptions.getSupportedOptions"),
            ("Failing$ByFiles", "io.UncheckedIOException: java.io.IOException: on purpose", "Failing$ByFiles.process"),
            ("Failing$ByClassFile", "io.UncheckedIOException: javax.annotation.processing.FilerException: "
             "The host creates no class files: p.Made", "Failing$ByClassFile.process"),
            ("Failing$ByTrees", "lang.IllegalArgumentException", "jdk.compiler/com.sun.source.util.Trees.instance"),
            ("Failing$ByCapture", "lang.UnsupportedOperationException: Types.capture of java.util.List<?>",
             "dinxobhe.model.HostTypes.capture"),
            ("Failing$ByDepth", "lang.StackOverflowError", "")]:
        own = under_host(project, {"maker": bridge(name, class_path=classes())})
        expect("the files", own.files, {})
        (kind, text), = own.messages
        expect("the error", (kind, text.splitlines()[0]), ("error", f"the processor {name} failed: java.{exception}"))
        expect("whether the trace is there", f"\n  at {place}" in text, True)


@case
def a_processor_that_is_initialised_first(project):
    """It is asked what it supports in the first round, and then for what it supports."""
    same(project, ["Late", "Making"], "files")


@case
def a_processor_that_is_not_asked(project):
    """It has said that it supports all, and none of the annotations that it does support is there."""
    use(project, os.path.join(SOURCES, "objects"), stubs=stubs_of_the_jdk())
    own = under_host(project, {"late": bridge("Late", class_path=classes())})
    expect("the messages", own.messages, [("note", "initialised"), ("note", "supports java.lang.Deprecated")])


def main():
    missing = [name for name in ("java", "javac", "jar") if shutil.which(name) is None]
    try:
        if missing:
            print(f"there is no {missing[0]}, which a JDK has")
        elif subprocess.run([os.path.join(KIT, "build")], check=False).returncode != 0:
            print("kits/java/build failed")
        else:
            case.main()
            return
    finally:
        shutil.rmtree(CLASSES, ignore_errors=True)
    print("bridge: 0 passed, 1 failed")
    sys.exit(1)


if __name__ == "__main__":
    main()
