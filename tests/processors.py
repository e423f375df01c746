#!/usr/bin/env python3
"""Runs processors that exist under the built host, and compares their files and messages with those of javac.

    tests/processors.py [PROGRAM] [--install] [--needed]

The processors are those of Debian's packages libgoogle-auto-service-java, libgoogle-auto-value-java, liblog4j2-java and
libmetainf-services-java; their jars are looked for below /usr/share/java, or below JARS where that is set. With
--install those packages are installed by apt-get of which jars are missing. A case whose jars are not there is not run,
and names the package; with --needed it has failed. Each case prints a line. The first that fails ends the run with
status 1. The last line is 'processors: N passed, M failed'. PROGRAM is crates/apt_cli/out/apt_cli where it is left out.

A project is set up as a user's is: the command stubs writes its stubs, and the rows of its apt.json.

The sources are handed to javac in the order of the units' names, which is that of the host. A processor that stops at
its first error, as AutoValue does, makes other files where the order is another one.
"""
import os
import shutil
import subprocess
import sys

from beside_javac import CLASSES, Outcome, bytes_below, compare, under_host, under_javac, use
from examples import blocks_of
from host import HERE, Cases, Failure, NotRun, expect, program
from stubs import FAST, JAR, KIT, output_of

DEBIAN = "/usr/share/java"
JARS = os.environ.get("JARS", DEBIAN)
ARE_INSTALLED, ARE_NEEDED = "--install" in sys.argv, "--needed" in sys.argv
ROOT = os.path.dirname(HERE)
PROJECTS = os.path.join(HERE, "processors")
AUTO_VALUE = "com.google.auto.value"
OPTIONS = [f"{AUTO_VALUE}.AutoBuilderIsUnstable="]

case = Cases("processors")


class Processors:
    """The processors of a package with their jars, and the project in which they are run."""

    def __init__(self, package, folder, names, class_path, processor_path):
        self.package = package
        self.folder = folder
        self.names = names
        self.class_path = self.paths(class_path)
        self.processor_path = self.paths(processor_path)

    @staticmethod
    def paths(names):
        return [os.path.join(JARS, name + ".jar") for name in names]

    def missing(self):
        return [path for path in self.class_path + self.processor_path if not os.path.exists(path)]

    def need(self):
        for path in self.missing()[:1]:
            raise (Failure if ARE_NEEDED else NotRun)(f"the package {self.package} is not installed: no {path}")

    def part(self, name):
        return os.path.join(PROJECTS, self.folder, name)

    def set_up(self, project):
        """Writes stubs for the sources of all parts, and an apt.json, into a folder that is kept; uses both."""
        folder = os.path.join(CLASSES, self.folder)
        if not os.path.exists(folder):
            os.mkdir(folder)
            sources = [word for part in os.listdir(self.part("")) for word in ("--for", self.part(part))]
            configuration = output_of(
                ["java", *FAST, "-jar", JAR, "stubs", "stubs", *self.class_path, "--jdk", "--release", "11",
                 *sources, "--asked-by", os.pathsep.join(self.processor_path), "--services"], folder)
            with open(os.path.join(folder, "apt.json"), "w", encoding="utf-8") as file:
                file.write(configuration[configuration.index("{"):configuration.rindex("}") + 1])
        use(project, stubs=os.path.join(folder, "stubs"))
        shutil.copytree(os.path.join(folder, "res"), project.path("res"))
        shutil.copy(os.path.join(folder, "apt.json"), project.path("apt.json"))

    def run(self, project, *parts, options=()):
        """What the processors give of the sources of some parts under the host, and what under javac."""
        self.need()
        self.set_up(project)
        for part in parts:
            shutil.copytree(self.part(part), project.path("src"), dirs_exist_ok=True)
        own = under_host(project, options=options)
        javac = under_javac(project, self.names, os.pathsep.join(self.processor_path),
                            os.pathsep.join(self.class_path), options)
        print(f"  {self.folder}: {len(own.files)} files, {own.kinds().count('error')} errors")
        return own, javac

    def same(self, project, *parts, options=(), different=(), elsewhere=()):
        own, javac = self.run(project, *parts, options=options)
        compare(own, javac, different, elsewhere)
        return own


AUTO_SERVICE = Processors("libgoogle-auto-service-java", "autoservice",
                          ["com.google.auto.service.processor.AutoServiceProcessor"],
                          ["auto-service-annotations"],
                          ["auto-service", "auto-service-annotations", "auto-common", "guava"])
META_INF = Processors("libmetainf-services-java", "metainf",
                      ["org.kohsuke.metainf_services.AnnotationProcessorImpl"],
                      ["metainf-services"], ["metainf-services"])
LOG4J = Processors("liblog4j2-java", "log4j",
                   ["org.apache.logging.log4j.core.config.plugins.processor.PluginProcessor"],
                   ["log4j-core", "log4j-api"], ["log4j-core", "log4j-api"])
VALUE_JARS = ["auto-value", "auto-value-annotations", "auto-common", "auto-service-annotations", "guava",
              "escapevelocity", "javapoet"]
VALUE = Processors("libgoogle-auto-value-java", "autovalue", [AUTO_VALUE + name for name in (
    ".extension.memoized.processor.MemoizedValidator", ".extension.toprettystring.processor.ToPrettyStringValidator",
    ".processor.AutoAnnotationProcessor", ".processor.AutoBuilderProcessor", ".processor.AutoOneOfProcessor",
    ".processor.AutoValueBuilderProcessor", ".processor.AutoValueProcessor")],
                   ["auto-value-annotations", "guava"], VALUE_JARS)


def install():
    """Installs the packages of which jars are missing, where apt-get can. A case says what is missing after that."""
    packages = [one.package for one in (AUTO_SERVICE, META_INF, LOG4J, VALUE) if one.missing()]
    if not packages or JARS != DEBIAN or shutil.which("apt-get") is None:
        return
    for words in (["update"], ["install", "-y", "--no-install-recommends", *packages]):
        command = ["apt-get", "-q", *words]
        run = subprocess.run(command, env={**os.environ, "DEBIAN_FRONTEND": "noninteractive"}, check=False,
                             stdin=subprocess.DEVNULL, stdout=subprocess.PIPE, stderr=subprocess.STDOUT)
        if run.returncode != 0:
            print(f"{' '.join(command)}: status {run.returncode}: {run.stdout.decode()[-500:]}")


@case
def auto_service(project):
    own = AUTO_SERVICE.same(project, "src")
    expect("the number of files", len(own.files), 7)


@case
def auto_service_with_errors(project):
    own = AUTO_SERVICE.same(project, "src", "errors", elsewhere=[("Nothing.java:5", "Nothing.java:6")])
    expect("the messages", own.kinds(), ["error"])


@case
def meta_inf_services(project):
    own = META_INF.same(project, "src")
    expect("the number of files", len(own.files), 4)


@case
def meta_inf_services_with_errors(project):
    own = META_INF.same(project, "src", "errors")
    expect("the messages", own.kinds(), ["error"] + 5 * ["note"])


@case
def log4j_plugins(project):
    own = LOG4J.same(project, "src")
    expect("the number of files", len(own.files), 1)


@case
def log4j_plugins_with_errors(project):
    own = LOG4J.same(project, "src", "errors")
    expect("the messages", own.kinds(), ["error"] + 3 * ["note"])


@case
def auto_value(project):
    """An annotation within a type is in no unit; an initialiser that is an expression is no constant; and names are
    looked up without access, so a private type of a superclass hides one of the package."""
    different = [
        ("  private final Kind kind;", "  private final Hidden2.Kind kind;"),
        ("      Kind kind) {", "      Hidden2.Kind kind) {"),
        ("  Kind kind() {", "  Hidden2.Kind kind() {"),
        ("  @Column(width = 20)", '  @Column(width = "<error>")'),
        ("  @Column(width = 20)", '  @Column(width = "<error>")'),
        *((text.format("@Nullable String"), text.format("String")) for text in (
            "  private final List<{}> names;", "      List<{}> names,", "  public List<{}> names() {{",
            "    private List<{}> names;", "    public Typed.Builder names(List<{}> names) {{"))]
    own = VALUE.same(project, "src", "rules", options=OPTIONS, different=different)
    expect("the number of files", len(own.files), 18)


@case
def auto_value_with_errors(project):
    own = VALUE.same(project, "src", "errors", options=OPTIONS)
    expect("the messages", own.kinds(), 3 * ["error"] + ["warning"])


@case
def auto_value_with_errors_by_other_rules(project):
    """A type of package access hides one that is imported on demand, and an expression is no constant."""
    own, javac = VALUE.run(project, "refused")
    expect("javac's messages", javac.messages, [])
    expect("the number of javac's files", len(javac.files), 2)
    expect("the messages", own.printed, [
        ("error", "[AutoValueUndefined] Did not generate @AutoValue class for zoo.Stars because it references "
         "undefined types", "Stars.java:9"),
        ("error", "serialVersionUID must be a static final long compile-time constant", "Serial.java:9")])


@case
def the_example(project):
    """What README says of it, in a clone: stubs and apt.json, a build, files in their places, and javac over all."""
    VALUE.need()
    readme, commands = (blocks_of(*path) for path in (("README.md",), ("docs", "COMMANDS.md")))
    session = next(block for block in readme if block.startswith("kits/java/build"))
    with open(os.path.join(ROOT, "examples", "autovalue", "place.py"), encoding="utf-8") as file:
        expect("the program that places files", file.read(), next(
            block for block in commands if block.startswith("import pathlib")))
    shutil.rmtree(project.folder)
    for folder in ("examples", "kits"):
        shutil.copytree(os.path.join(ROOT, folder), project.path(folder), ignore=shutil.ignore_patterns("out"))
    os.makedirs(project.path("out/bin"))
    os.symlink(program(), project.path("out/bin/apt"))
    output_of(["sh", "-e", "-c", session.replace(DEBIAN, JARS)], project.folder)
    example = project.path("out/autovalue")
    made = bytes_below(os.path.join(example, "files", "SOURCE_OUTPUT"))
    expect("the files", sorted(made), ["zoo/AutoValue_Animal.java", "zoo/AutoValue_Cage.java"])
    compiled = os.path.join(example, "classes", "zoo", "AutoValue_Cage.class")
    expect("whether they are compiled", os.path.exists(compiled), True)
    shutil.copytree(os.path.join(example, "src"), project.path("src"))
    javac = under_javac(project, VALUE.names, os.pathsep.join(VALUE.processor_path), VALUE.class_path[0])
    compare(Outcome(made, []), javac)


def main():
    for word in ("--install", "--needed"):
        if word in sys.argv:
            sys.argv.remove(word)
    if ARE_INSTALLED:
        install()
    output_of([os.path.join(KIT, "build")], HERE)
    try:
        case.main()
    finally:
        shutil.rmtree(CLASSES, ignore_errors=True)


if __name__ == "__main__":
    main()
