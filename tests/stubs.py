#!/usr/bin/env python3
"""Builds the jar of kits/java, and tries its command stubs: over small libraries, over faulty words and files, and
over the JDK's module java.base. The built program then reads the stubs.

    tests/stubs.py [PROGRAM]

PROGRAM is crates/apt_cli/out/apt_cli where it is left out. Each case prints a line. The first that fails ends the
run with status 1. The last line is 'stubs: N passed, M failed'. Without a JDK nothing can be tried, and that is a
failed case.

What is expected is written by hand, or comes from the JDK: SameDeclarations.java compares the stubs of java.base with
its class files, as javax.lang.model has both, and as the host answers a processor for javac whose sources are the
stubs. No expected text was made by the command itself.
"""
import concurrent.futures
import functools
import json
import os
import shutil
import subprocess
import sys
import tempfile
import zipfile

from host import DONE_STATUS, HERE, KINDS, SERVICES, Cases, Failure, NotRun, expect, frames, say

KIT = os.path.join(HERE, "..", "kits", "java")
JAR = os.path.join(KIT, "out", "dinxobhe.jar")
WRITTEN, FAULT, WRONG_WORDS = 0, 1, 2
COMPARING = ["SameDeclarations", "Declarations", "HostDeclarations"]
# The seconds that all questions on a module of the JDK may take on a busy machine.
LONG = 600

# Each run of Java takes a second or two, in which its best compiler would be no help.
FAST = ["-XX:+UseSerialGC", "-XX:TieredStopAtLevel=1"]

REPORT = b"mode: clean (Full), started 0\ndone: 2 rounds, 0 files, 0 errors, 0 warnings\n"



class StubCases(Cases):
    """Cases whose projects have no stubs at first, since the command writes them."""

    def __call__(self, function):
        @functools.wraps(function)
        def without_stubs(project):
            shutil.rmtree(project.path("stubs"))
            function(project)

        return super().__call__(without_stubs)


case = StubCases("stubs")


# ---- what the cases share


def output_of(command, folder):
    run = subprocess.run(command, cwd=folder, stdout=subprocess.PIPE, stderr=subprocess.STDOUT, encoding="utf-8",
                         check=False)
    if run.returncode != 0:
        raise Failure(f"{command[0]} ended with {run.returncode}: {run.stdout[-2000:]}")
    return run.stdout


def library(project, sources, name="library.jar", resources=(), release="11"):
    """A jar of compiled sources, by their paths, and of other files. Gives its path."""
    with tempfile.TemporaryDirectory(dir=project.folder) as folder:
        for path, content in sources.items():
            put(folder, path, content)
        os.mkdir(os.path.join(folder, "classes"))
        fast = [f"-J{word}" for word in FAST]
        output_of(["javac", *fast, "-encoding", "UTF-8", "--release", release, "-d", "classes", *sources], folder)
        for path, content in dict(resources).items():
            put(os.path.join(folder, "classes"), path, content)
        jar = project.path(name)
        os.rename(shutil.make_archive(jar, "zip", os.path.join(folder, "classes")), jar)
    return jar


def without(project, jar, front):
    """The jar without the files whose names begin so."""
    with zipfile.ZipFile(jar) as old, zipfile.ZipFile(project.path("some.jar"), "w") as new:
        for name in old.namelist():
            if not name.startswith(front):
                new.writestr(name, old.read(name))
    return "some.jar"


def put(folder, path, content):
    whole = os.path.join(folder, path)
    os.makedirs(os.path.dirname(whole), exist_ok=True)
    with open(whole, "w", encoding="utf-8", newline="") as file:
        file.write(content)


def stubs(project, *words):
    """A run of the command in the project's folder."""
    return subprocess.run(["java", *FAST, "-jar", JAR, "stubs", *words], cwd=project.folder, stdout=subprocess.PIPE,
                          stderr=subprocess.PIPE, encoding="utf-8", check=False)


def written(project, *words):
    """The stubs that the command writes, by their paths; and how the run ended."""
    run = stubs(project, "stubs", *words)
    expect("the status and the messages", (run.returncode, run.stderr) if run.returncode else WRITTEN, WRITTEN)
    return files_below(project.path("stubs")), run


def files_below(folder):
    files = {}
    for path, _, names in os.walk(folder):
        for name in names:
            with open(os.path.join(path, name), encoding="utf-8", newline="") as file:
                files[os.path.relpath(os.path.join(path, name), folder)] = file.read()
    return files


def is_read(project):
    """The program builds the project, and so it read all stubs."""
    run = project.run(["build"])
    expect("the output", run.output, REPORT)
    expect("the messages", run.messages, b"")
    expect("the status", run.status, DONE_STATUS)


def refused(project, status, *rows):
    """Of each row the words behind the first are refused. The command writes nothing but the message that is the first
    word, and a line on how it is used where the words are wrong. All rows run at once."""
    with concurrent.futures.ThreadPoolExecutor(os.cpu_count()) as pool:
        runs = list(pool.map(lambda row: stubs(project, "stubs", *row[1:]), rows))
    for (message, *words), run in zip(rows, runs):
        expect(f"the status of {words}", run.returncode, status)
        expect(f"the message for {words}", run.stderr.splitlines()[0], f"stubs: {message}")
        expect("the number of lines", len(run.stderr.splitlines()), 2 if status == WRONG_WORDS else 1)
        expect("the output", run.stdout, "")
    expect("whether there are stubs", os.path.exists(project.path("stubs")), False)


# ---- a library, and what its stubs are to be


# The forms of declarations, each with the stub that it is to have.
FORMS = {
    "lib/Base.java": ("""package lib;

abstract class Base {
    protected long id;
    int hidden;
    public abstract void close() throws java.io.IOException, IllegalStateException;
    void inside() {}
}
""", """package lib;

abstract class Base {
  protected long id;
  Base() {}
  public abstract void close() throws java.io.IOException, java.lang.IllegalStateException;
}
"""),
    "lib/Box.java": ("""package lib;

import java.util.*;

/** A comment. */
public abstract class Box<T extends Comparable<? super T>, N extends Number & java.io.Serializable> extends Base
        implements Holder<List<? extends T>> {
    private static class Secret {}
    private static class Named<E> {}
    public class Inner<E> {
        public class Deep {}
    }
    static class Beside {
        public static class Within {}
    }
    protected Named<T> named;
    public Map.Entry<String, int[][]> entry = new AbstractMap.SimpleEntry<>("", null);
    public volatile transient boolean on;
    private Secret secret;
    protected Box(int first, T... others) {}
    Box() {}
    public <K, V extends K> Map<K, ? super V> of(K key, V... values) throws java.io.IOException { return null; }
    public Inner<String>.Deep deep(Box<T, Integer>.Inner<?> inner) { return null; }
    public final synchronized native void call(N[] numbers);
    protected Beside.Within within() { return null; }
    private void hidden() {}
}
""", """package lib;

public abstract class Box<T extends java.lang.Comparable<? super T>, N extends java.lang.Number & java.io.Serializable> extends lib.Base implements lib.Holder<java.util.List<? extends T>> {
  static class Beside {
    public static class Within {
      public Within() {}
    }
    Beside() {}
  }
  public class Inner<E> {
    public class Deep {
      public Deep() {}
    }
    public Inner() {}
  }
  private static class Named<E> {
    private Named() {}
  }
  protected lib.Box.Named<T> named;
  public java.util.Map.Entry<java.lang.String, int[][]> entry;
  public transient volatile boolean on;
  protected Box(int arg0, T... arg1) {}
  public <K, V extends K> java.util.Map<K, ? super V> of(K arg0, V... arg1) throws java.io.IOException;
  public lib.Box<T, N>.Inner<java.lang.String>.Deep deep(lib.Box<T, java.lang.Integer>.Inner<?> arg0);
  public final synchronized native void call(N[] arg0);
  protected lib.Box.Beside.Within within();
}
"""),
    "lib/Outer.java": ("""package lib;

public class Outer<T> {
    public class Middle { public class Inner {} }
    public Outer<String>.Middle.Inner inner;
}
""", """package lib;

public class Outer<T> {
  public class Middle {
    public class Inner {
      public Inner() {}
    }
    public Middle() {}
  }
  public lib.Outer<java.lang.String>.Middle.Inner inner;
  public Outer() {}
}
"""),
    "lib/Holder.java": ("""package lib;

public interface Holder<T> extends Comparable<Holder<?>>, Runnable {
    int SIZE = 3 + 4;
    int[] NUMBERS = {1};
    String NAME = System.getProperty("name");
    char LETTER = NAME.charAt(0);
    enum Kind { ONE, TWO }
    interface Inner {}
    class Made {}
    T get(final int at);
    default void run() {}
    static void help() {}
    private void own() {}
}
""", """package lib;

public interface Holder<T> extends java.lang.Comparable<lib.Holder<?>>, java.lang.Runnable {
  class Made {
    public Made() {}
  }
  interface Inner {
  }
  enum Kind {
    ONE, TWO;
  }
  int SIZE = 7;
  int[] NUMBERS = (null);
  java.lang.String NAME = (null);
  char LETTER = (Character) null;
  T get(int arg0);
  default void run();
  static void help();
}
"""),
    "lib/Constants.java": (r"""package lib;

public final class Constants {
    public static final boolean YES = true;
    public static final byte BYTE = -128;
    public static final short SHORT = (short) 0xFFFF;
    public static final char QUOTE = '\'', LINE = '\n', ACUTE = '\u00e9', HALF = '\ud800', NONE = 0;
    public static final int LEAST = Integer.MIN_VALUE;
    public static final long LONG = 1L << 40;
    public static final float FLOAT = 1.5e9f, NO_NUMBER = Float.NaN;
    public static final double TENTH = 0.1, LITTLE = 4.9e-324, FAR = Double.NEGATIVE_INFINITY, ZERO = -0.0;
    public static final String TEXT = "a\"b\\c\t\0" + "1\u20ac\ud83d\ude00'";
    public static final String BROKEN = "x\udc00";
    public static final Integer BOX = 5;
    protected final int of = 4;
    private Constants(int number) {}
}
""", r"""package lib;

public final class Constants {
  public static final boolean YES = true;
  public static final byte BYTE = -128;
  public static final short SHORT = -1;
  public static final char QUOTE = '\'';
  public static final char LINE = '\n';
  public static final char ACUTE = '\u00e9';
  public static final char HALF = 55296;
  public static final char NONE = '\000';
  public static final int LEAST = -2147483648;
  public static final long LONG = 1099511627776L;
  public static final float FLOAT = 1.5E9f;
  public static final float NO_NUMBER = 0.0f / 0.0f;
  public static final double TENTH = 0.1;
  public static final double LITTLE = 4.9E-324;
  public static final double FAR = -1.0 / 0.0;
  public static final double ZERO = -0.0;
  public static final java.lang.String TEXT = "a\"b\\c\t\0001\u20ac\ud83d\ude00'";
  public static final java.lang.String BROKEN;
  public static final java.lang.Integer BOX;
  protected final int of = 4;
  private Constants() {}
}
"""),
    "lib/Colour.java": ("""package lib;

public enum Colour implements java.util.function.IntSupplier {
    @Deprecated RED { public int getAsInt() { return 1; } },
    GREEN { public int getAsInt() { return 2; } };
    public static final Colour FIRST = RED;
    private final int number = 1;
    Colour() {}
    public static Colour valueOf(int number) { return RED; }
}
""", """package lib;

public enum Colour implements java.util.function.IntSupplier {
  @java.lang.Deprecated RED {}, GREEN;
  public static final lib.Colour FIRST;
  public static lib.Colour valueOf(int arg0);
}
"""),
    "lib/Marked.java": ("""package lib;

import java.lang.annotation.*;

@Retention(RetentionPolicy.RUNTIME)
@Target({ElementType.TYPE, ElementType.METHOD, ElementType.PARAMETER, ElementType.PACKAGE})
public @interface Marked {
    int number() default -1;
    String[] names() default {"a", "b"};
    Class<?> of() default java.util.Map.Entry.class;
    Class<?>[] all() default {int.class, String[].class, void.class};
    Colour colour() default Colour.RED;
    Kept kept() default @Kept('x');
    Kept[] none() default {};
    double part();
}
""", """package lib;

@java.lang.annotation.Retention(value = java.lang.annotation.RetentionPolicy.RUNTIME) @java.lang.annotation.Target(value = {java.lang.annotation.ElementType.TYPE, java.lang.annotation.ElementType.METHOD, java.lang.annotation.ElementType.PARAMETER, java.lang.annotation.ElementType.PACKAGE}) public @interface Marked {
  int number() default -1;
  java.lang.String[] names() default {"a", "b"};
  java.lang.Class<?> of() default java.util.Map.Entry.class;
  java.lang.Class<?>[] all() default {int.class, java.lang.String[].class, void.class};
  lib.Colour colour() default lib.Colour.RED;
  lib.Kept kept() default @lib.Kept(value = 'x');
  lib.Kept[] none() default {};
  double part();
}
"""),
    "lib/Kept.java": ("package lib;\n\npublic @interface Kept { char value(); }\n",
                      "package lib;\n\npublic @interface Kept {\n  char value();\n}\n"),
    "lib/Word.java": ("package lib;\n\npublic @interface Word { String value(); }\n",
                      "package lib;\n\npublic @interface Word {\n  java.lang.String value();\n}\n"),
    "lib/Forgotten.java": ("""package lib;

@java.lang.annotation.Retention(java.lang.annotation.RetentionPolicy.SOURCE)
public @interface Forgotten {}
""", """package lib;

@java.lang.annotation.Retention(value = java.lang.annotation.RetentionPolicy.SOURCE) public @interface Forgotten {
}
"""),
    "lib/Noted.java": ("""package lib;

@Forgotten @Kept('k') @Marked(part = 1, colour = Colour.GREEN, names = {})
public class Noted {
    @Kept('f') public int field;
    @Kept('g') @Word("\\ud83d") public int broken;
    @Marked(part = 0.5) public void method(int plain, @Kept('p') @Marked(part = 2) String marked) {}
}
""", """package lib;

@lib.Marked(part = 1.0, colour = lib.Colour.GREEN, names = {}) @lib.Kept(value = 'k') public class Noted {
  @lib.Kept(value = 'f') public int field;
  @lib.Kept(value = 'g') public int broken;
  public Noted() {}
  @lib.Marked(part = 0.5) public void method(int arg0, @lib.Kept(value = 'p') @lib.Marked(part = 2.0) java.lang.String arg1);
}
"""),
    "lib/package-info.java": ("@Marked(part = 3) package lib;\n", "@lib.Marked(part = 3.0) package lib;\n"),
    "Alone.java": ("public class Alone { Alone(int number) {} private Alone() {} }\n",
                   "public class Alone {\n  Alone(int arg0) {}\n}\n"),
}
NOT_NAMED = {"lib/Unused.java": "package lib; class Unused {}\n"}


@case
def every_form_of_a_declaration(project):
    jar = library(project, {**{path: source for path, (source, _) in FORMS.items()}, **NOT_NAMED})
    files, run = written(project, jar)
    for path, (_, stub) in FORMS.items():
        expect(path, files.get(path), stub)
    expect("the files", sorted(files), sorted(FORMS))
    size = sum(len(stub.encode()) for _, stub in FORMS.values())
    expect("the messages", run.stderr,
           "stubs: note: constants, written without their values, which no Java text means (1): lib.Constants.BROKEN\n"
           "stubs: note: elements without one of their annotations, which has a value that no Java text means (1): lib.Noted.broken\n"
           f"stubs: {len(FORMS)} files, {size} bytes\n")
    is_read(project)



# ---- what sources name


USED = {
    "a/Shown.java": "package a; public class Shown extends Parent { public c.Result result() { return null; } }",
    "a/Parent.java": "package a; public class Parent { protected d.Far[] far; protected static class Inner {} }",
    "a/Outer.java": "package a; public interface Outer { interface Nested { c.Deep deep() throws c.Fault; } }",
    "a/Star.java": "package a; public interface Star<T extends d.Bound> {}",
    "a/Constants.java": "package a; public interface Constants { int LIMIT = 1; String NAME = \"n\"; }",
    "a/Quiet.java": "package a; class Quiet {}",
    "a/InABody.java": "package a; public class InABody { public static String of() { return null; } }",
    "a/NotNamed.java": "package a; public class NotNamed {}",
    "b/Mark.java": """package b;

public @interface Mark { String value(); Kind kind(); Class<?> of() default d.OfDefault.class; }
""",
    "b/Kind.java": "package b; public enum Kind { GOOD; }",
    "c/Result.java": "package c; @c.OnResult public class Result {}",
    "c/OnResult.java": "package c; public @interface OnResult {}",
    "c/Deep.java": "package c; public class Deep {}",
    "c/Fault.java": "package c; public class Fault extends Exception {}",
    "d/Far.java": "package d; public class Far {}",
    "d/Bound.java": "package d; public interface Bound {}",
    "d/OfDefault.java": "package d; public class OfDefault {}",
    "p/Near.java": """package p;

class Near { int shared; private int own; void call(d.Near near) {} private void hide(d.NotReached at) {} }
""",
    "p/Own.java": "package p; public class Own {}",
    "d/Near.java": "package d; public class Near {}",
    "d/NotReached.java": "package d; public class NotReached {}",
}
USING = """package p;

import a.*;
import static a.Constants.LIMIT;
import b.Mark;

@Mark(value = Constants.NAME, kind = b.Kind.GOOD)
abstract class Using extends a.Shown implements Outer.Nested {
    String text = InABody.of();
    Generated later;
    Quiet quiet;
    Near near;
    Own own;
    int limit = LIMIT;
    abstract <T extends Star<?>> void call(T t);
    void body() { NotNamed none = null; }
}
"""
NEAR = """package p;

class Near {
  int shared;
  Near() {}
  void call(d.Near arg0);
}
"""


@case
def what_sources_name_and_what_that_names(project):
    jar = library(project, USED)
    shutil.rmtree(project.path("src"))
    project.write("src/p/Using.java", USING.encode())
    project.write("src/p/Own.java", b"package p; class Own {}")
    files, _ = written(project, jar, "--for", "src")
    left_out = ["a/Quiet.java", "a/InABody.java", "a/NotNamed.java", "p/Own.java", "d/NotReached.java"]
    expect("the files", sorted(files), sorted(set(USED) - set(left_out)))
    expect("a class of the sources' package", files["p/Near.java"], NEAR)
    is_read(project)


@case
def what_sources_name_of_the_jdk(project):
    project.write("src/p/D.java", b"package p; interface D extends java.util.function.Supplier<ClassValue<?>> {}")
    files, _ = written(project, "--jdk", "--for", "src", "--also", "java.util.Map.Entry", "--release", "11")
    for name in ["util.function.Supplier", "lang.ClassValue", "util.Map", "lang.Object", "lang.annotation.Inherited"]:
        expect(f"whether java.{name} is there", f"java/{name.replace('.', '/')}.java" in files, True)
    expect("whether it is more than what is named", "java/util/Scanner.java" in files, False)
    expect("a method of release 11", "  public boolean isBlank();\n" in files["java/lang/String.java"], True)
    expect("a method of release 12", " transform(" in files["java/lang/String.java"], False)
    expect("whether they have less than 600,000 bytes", sum(map(len, files.values())) < 600_000, True)
    is_read(project)


# ---- names that processors ask for, and the processors of jars


ASKING = {"proc/Asking.java": """package proc;

public class Asking {
    String first = "e.First", inner = "e.Outer$Inner", text = "a text with e.InText in it";
    Object third = e.ByClass.class;
    String own = "proc.Asking";
}
""", "e/ByClass.java": "package e; public class ByClass {}"}
ASKED = {f"e/{name}.java": f"package e; public class {name} {{ public static class Inner {{}} }}"
         for name in ["First", "Outer", "InText", "ByClass", "InTemplate", "NotAsked"]}
TEMPLATES = {"proc/template.vm": "import e.InTemplate;\n", "META-INF/maven/pom.xml": "<a>e.NotAsked</a>"}
SAID = """# processors
 proc.Asking  # the first
proc.Other
proc.Asking
"""
KINDS_SAID = "proc.Other , AGGREGATING\nproc.Unknown,dynamic\n"


def asking(project, **more):
    jar = library(project, ASKING, "asking.jar", {**TEMPLATES, SERVICES[len("res/"):]: SAID, **more})
    os.replace(project.path(without(project, jar, "e/")), project.path("processors.jar"))
    os.remove(jar)
    return "processors.jar"


@case
def what_processors_ask_for(project):
    jar = library(project, {**ASKED, "proc/Asking.java": "package proc; public class Asking {}"})
    files, _ = written(project, jar, "--for", "src", "--asked-by", asking(project))
    expect("the files", sorted(files), sorted(set(ASKED) - {"e/NotAsked.java"}))


@case
def the_processors_of_a_jar(project):
    jar = library(project, ASKED)
    asking(project, **{KINDS[len("res/"):]: KINDS_SAID})
    files, run = written(project, jar, "--asked-by", "processors.jar", "--services")
    expect("the files", sorted(files), sorted(ASKED))
    expect("the file of services", project.read(SERVICES), b"proc.Asking\nproc.Other\n")
    expect("the file of kinds", project.read(KINDS), b"proc.Other,AGGREGATING\n")
    rows = json.loads(run.stdout)["processors"]
    version = rows["proc.Asking"]["version"]
    bridge = ["java", "-cp", f"{os.path.realpath(JAR)}:processors.jar", "dinxobhe.Bridge"]
    expect("the rows", rows, {name: {"command": [*bridge, name], "version": version}
                              for name in ["proc.Asking", "proc.Other"]})
    shutil.rmtree(project.path("stubs"))
    asking(project, **{KINDS[len("res/"):]: KINDS_SAID, "proc/more": ""})
    files, run = written(project, "processors.jar", "--for", "src", "--services")
    expect("the files of no type", files, {})
    other = json.loads(run.stdout)["processors"]["proc.Asking"]["version"]
    expect("whether another jar has another version", other != version, True)
    shutil.rmtree(project.path("stubs"))
    project.write(SERVICES, b"mine\n")
    there = f"{SERVICES}: is there already, with other lines: remove it first"
    refused(project, FAULT, [there, jar, "--asked-by", "processors.jar", "--services"])
    # The host looks for a row for each of the names.
    project.write("apt.json", run.stdout.replace("proc.Other", "proc.Another").encode())
    project.write(SERVICES, b"proc.Asking\nproc.Other\n")
    expect("the output of the host", project.run(["build"]).output, b"refused: UnknownProcessor(proc.Other)\n")


# ---- what is refused


@case
def wrong_words(project):
    refused(
        project, WRONG_WORDS,
        ["there is no library: give a JAR, --jdk or --module"],
        ["nothing names a type: give a JAR, --module, --for, --asked-by or --also", "--jdk"],
        ["there is no option --fast", "x.jar", "--fast"],
        ["--for needs a word after it", "x.jar", "--for"],
        ["--release 8: not a number from 9", "x.jar", "--release", "8"],
        ["--services needs a JAR or --asked-by", "--module", "java.base", "--services"],
    )
    run = subprocess.run(["java", "-jar", JAR], stderr=subprocess.PIPE, check=False)
    expect("the status without words", run.returncode, WRONG_WORDS)
    run = stubs(project, "--help")
    expect("the status of --help", run.returncode, WRITTEN)
    expect("the first line of --help", run.stdout.splitlines()[0], "usage: stubs OUT [JAR].. [OPTION]..")


def jar_of(project, name, files):
    with zipfile.ZipFile(project.path(name), "w") as archive:
        for path, content in files.items():
            archive.writestr(path, content)


@case
def faulty_libraries(project):
    jar = library(project, {"a/A.java": "package a; public class A { public b.B b; }",
                            "b/B.java": "package b; public class B {}"})
    with zipfile.ZipFile(jar) as archive:
        whole = archive.read("a/A.class")
    project.write("text.jar", b"a text")
    jar_of(project, "later.jar", {"a/A.class": whole[:6] + (999).to_bytes(2, "big") + whole[8:]})
    jar_of(project, "short.jar", {"a/A.class": whole[:-20]})
    jar_of(project, "other.jar", {"c/A.class": whole})
    jar_of(project, "none.jar", {"a/A.class": b"none"})
    jar_of(project, "reaching.jar", {"a/A.class": whole, "b/B.class": b"none"})
    project.write("using/Using.java", b"class Using { a.A a; }")
    later = "later.jar: the class a.A cannot be read: it has version 999, which is that of a later Java"
    refused(
        project, FAULT,
        ["absent.jar: there is no such jar or folder", "absent.jar"],
        ["text.jar: not a jar: zip END header not found", "text.jar"],
        [later, "later.jar"],
        [later, "later.jar", "--for", "using"],
        ["short.jar: the class a.A cannot be read: it is damaged, or of another name", "short.jar"],
        ["other.jar: the class c.A cannot be read: it is damaged, or of another name", "other.jar"],
        ["none.jar: the class a.A cannot be read: it is no class file", "none.jar"],
        ["reaching.jar: the class b.B cannot be read: it is no class file", "reaching.jar", "--for", "using"],
        ["--also a.C: no library has this type", jar, "--also", "a.C"],
        ["the Java compiler does not read the libraries: module not found: no.such", "--module", "no.such"],
        ["error: release version 999 not supported", jar, "--release", "999"],
    )


@case
def faulty_files(project):
    jar = library(project, {"a/A.java": "package a; public class A {}"})
    project.write("src/p/Bad.java", b"package p;\nclass Bad {\n  int x = ;\n}\n")
    services, kinds = SERVICES[len("res/"):], KINDS[len("res/"):]
    jar_of(project, "names.jar", {services: "a.B\na b\n"})
    jar_of(project, "kinds.jar", {services: "a.B\n", kinds: "a.B,fast\n"})
    refused(
        project, FAULT,
        ["none: there is no such folder", jar, "--for", "none"],
        ["src/p/Bad.java:3: illegal start of expression", jar, "--for", "src"],
        ["--services: none of the jars names a processor", jar, "--services"],
        [f"names.jar: {services}:2: not the name of a processor", jar, "--asked-by", "names.jar", "--services"],
        [f"kinds.jar: {kinds}:1: not a processor and its kind", jar, "--asked-by", "kinds.jar", "--services"],
    )
    project.write("stubs/X.java", b"class X {}")
    run = stubs(project, "stubs", jar)
    expect("the end", (run.returncode, run.stderr),
           (FAULT, "stubs: stubs: not empty: name another, or remove what is there\n"))
    expect("the stubs", files_below(project.path("stubs")), {"X.java": "class X {}"})


# ---- what no library has, and what no Java text says


@case
def types_that_no_library_has(project):
    jar = library(project, {
        "a/A.java": """package a;

@x.Gone(when = x.When.NEVER, of = x.Of.class)
public class A extends x.Base<String> { public x.Outer.In<x.Of>[] of() { return null; } }
""",
        "a/B.java": """package a;

public interface B extends x.Face { @x.Gone(when = x.When.NEVER) void call() throws x.Fault; }
""",
        "x/Gone.java": "package x; public @interface Gone { When when(); Class<?> of() default int.class; }",
        "x/When.java": "package x; public enum When { NEVER }",
        "x/Of.java": "package x; public class Of {}",
        "x/Base.java": "package x; public class Base<T> {}",
        "x/Face.java": "package x; public interface Face {}",
        "x/Fault.java": "package x; public class Fault extends Exception {}",
        "x/Outer.java": "package x; public class Outer { public static class In<T> {} }",
    })
    files, run = written(project, without(project, jar, "x/"))
    expect("the files", files, {
        "a/A.java": """package a;

@x.Gone(when = x.When.NEVER, of = x.Of.class) public class A extends x.Base<java.lang.String> {
  public A() {}
  public x.Outer.In<x.Of>[] of();
}
""",
        "a/B.java": """package a;

public interface B extends x.Face {
  @x.Gone(when = x.When.NEVER) void call() throws x.Fault;
}
"""})
    expect("the first message", run.stderr.splitlines()[0],
           "stubs: note: types that no library has (7): x.Base, x.Face, x.Fault, x.Gone, x.Of, ..")
    is_read(project)


def renamed(project, jar, names):
    """The jar with other texts of the same lengths in its class files."""
    with zipfile.ZipFile(jar) as old, zipfile.ZipFile(project.path("renamed.jar"), "w") as new:
        for name in old.namelist():
            content = old.read(name)
            for text, other in names.items():
                name, content = name.replace(text, other), content.replace(text.encode(), other.encode())
            new.writestr(name, content)
    return project.path("renamed.jar")


@case
def names_that_are_no_java_names(project):
    jar = library(project, {
        "a/A.java": """package a;

public class A { public int good, oddNameA, whilE; public void class_() {} public void as(B_C b) {} }
""",
        "a/B_C.java": "package a; public class B_C {}",
        "a/D.java": "package a; public class D extends B_C {}",
        "w_x/E.java": "package w_x; public class E {}",
        "a/Scala$.java": "package a; public class Scala$ { public int zXXX; public static class In {} }",
    })
    # As Kotlin, Scala and tools that shorten names have them.
    jar = renamed(project, jar, {"oddNameA": "odd name", "whilE": "while", "class_": "class-", "zXXX": "z\u20ac", "B_C": "B-C",
                                  "w_x": "w-x"})
    files, run = written(project, jar)
    expect("the files", files, {
        "a/A.java": "package a;\n\npublic class A {\n  public int good;\n  public A() {}\n}\n",
        "a/Scala$.java": """package a;

public class Scala$ {
  public static class In {
    public In() {}
  }
  public Scala$() {}
}
""",
    })
    left_out = "a.A.as(a.B-C), a.A.class-(), a.A.odd name, a.A.while, a.B-C, .."
    expect("the first message", run.stderr.splitlines()[0],
           "stubs: note: left out, since they have or use names that are no Java names (8): " + left_out)
    is_read(project)


# ---- the JDK


@case
def records_and_sealed_types(project):
    version = output_of(["javac", "-version"], project.folder).split()[1]
    if int(version.split(".")[0]) < 17:
        raise NotRun(f"javac {version} has none")
    jar = library(project, {
        "lib/Point.java": """package lib;

public record Point<T>(int x, @Deprecated T[] rest) implements Shape {
    public static final int SIZE = 2;
    public int twice() { return 2 * x; }
}
""",
        "lib/Shape.java": """package lib;

public sealed interface Shape permits Point, Shape.Other {
    non-sealed abstract class Other implements Shape {}
}
"""}, release="17")
    files, run = written(project, jar)
    expect("the sealed type", files["lib/Shape.java"], """package lib;

public interface Shape {
  abstract class Other implements lib.Shape {
    public Other() {}
  }
}
""")
    point = files["lib/Point.java"].splitlines()
    expect("the head of the record", point[2], "public final class Point<T> extends java.lang.Record implements lib.Shape {")
    expect("the members of the record", sorted(point[3:-1]), [
        "  @java.lang.Deprecated public T[] rest();",
        "  public Point(int x, @java.lang.Deprecated T[] rest) {}",
        "  public final boolean equals(java.lang.Object arg0);",
        "  public final int hashCode();",
        "  public final java.lang.String toString();",
        "  public int twice();",
        "  public int x();",
        "  public static final int SIZE = 2;",
    ])
    expect("the messages", run.stderr.splitlines()[:2], [
        "stubs: note: records, written as classes (1): lib.Point",
        "stubs: note: sealed types, written as if they were not sealed (1): lib.Shape"])
    is_read(project)


@case
def packages_of_the_jdk_in_a_jar(project):
    jar = library(project, {
        "abc/def/ghi/Node.java": "package abc.def.ghi; public class Node {}",
        "abc/def/ghi/Extra.java": "package abc.def.ghi; public class Extra {}",
        "b/B.java": "package b; public class B { public abc.def.ghi.Node node; }",
    })
    jar = renamed(project, jar, {"abc/def/ghi": "org/w3c/dom"})
    files, run = written(project, jar)
    expect("the files", sorted(files), ["b/B.java"])
    hidden = "left out, since their packages are those of modules of the JDK, which hide them (1): org.w3c.dom.Extra"
    expect("the first message", run.stderr.splitlines()[0], "stubs: note: " + hidden)


@case
def classes_beside_their_sources(project):
    jar = library(project, {"a/A.java": "package a; public class A {}"})
    with zipfile.ZipFile(jar, "a") as archive:
        source = zipfile.ZipInfo("a/A.java", (2100, 1, 1, 0, 0, 0))
        archive.writestr(source, "package a; public class A { public int newer; }")
    files, _ = written(project, jar)
    expect("the files", files, {"a/A.java": "package a;\n\npublic class A {\n  public A() {}\n}\n"})


def shown_as_sources(project):
    """The annotations and the units that the host sends a processor of all annotations where the stubs are sources."""
    shutil.rmtree(project.path("src"))
    os.rename(project.path("stubs"), project.path("src"))
    done = ["read", say(frames.done())]
    run = project.run(project.scripted(["read", say(frames.hello("*")), *done, *done, "rest"]))
    expect("the status", run.status, DONE_STATUS)
    sent = frames.Fields(project.sent())
    sent.take(sent.number())  # Init
    sent.number()
    tag, number, over, error = sent.byte(), sent.number(), sent.byte(), sent.byte()
    expect("the head of the second frame", (tag, number, over, error), (frames.ROUND, 1, 0, 0))
    return sent.texts(), sent.texts()


def comparing_classes(project):
    """The folder of the classes that collect and compare declarations."""
    sources = [os.path.join(HERE, name + ".java") for name in COMPARING]
    output_of(["javac", *(f"-J{word}" for word in FAST), "-proc:none", "-d", "classes", *sources], project.folder)
    return project.path("classes")


def declared_by_the_host(project, classes):
    """A file with the declarations of the sources, as the host answers a processor for javac."""
    command = ["java", *FAST, "-cp", os.pathsep.join([JAR, classes]), "dinxobhe.Bridge", "HostDeclarations"]
    project.configure({"HostDeclarations": command})
    run = project.run(["build"], seconds=LONG)
    if run.status != DONE_STATUS:
        raise Failure(f"the build ended with {run.status}: {run.output.decode()[-2000:]}")
    project.write("declarations", project.published()["CLASS_OUTPUT/declarations"])
    return "declarations"


@case
def the_module_java_base(project):
    """The stubs declare what the class files declare, for javac and for the host."""
    _, run = written(project, "--module", "java.base")
    is_read(project)
    offered, roots = shown_as_sources(project)
    classes = comparing_classes(project)
    declared = declared_by_the_host(project, classes)
    compared = output_of(["java", *FAST, "-cp", classes, "SameDeclarations", "module", "java.base", "src", declared],
                         project.folder)
    *said, types, annotations = compared.splitlines()
    expect("whether there are many declarations", int(said[-1].split()[0]) > 10_000, True)
    expect("the host's units", roots, sorted(types.split(" ")[1:]))
    expect("the annotations that the host finds", offered, sorted(annotations.split(" ")[1:]))
    print(f"  java.base: {said[-1]}; {run.stderr.splitlines()[-1]}")


def main():
    missing = [name for name in ("java", "javac", "jar") if shutil.which(name) is None]
    if missing:
        print(f"there is no {missing[0]}, which a JDK has")
    elif subprocess.run([os.path.join(KIT, "build")], check=False).returncode != 0:
        print("kits/java/build failed")
    else:
        case.main()
        return
    print("stubs: 0 passed, 1 failed")
    sys.exit(1)


if __name__ == "__main__":
    main()
