"""What tests/bridge.py and tests/processors.py share: processors for javac, under the built host and under javac."""
import functools
import os
import re
import shutil
import subprocess
import tempfile

from host import DONE_STATUS, ERRORS, Failure, expect
from stubs import FAST, JAR, output_of

CLASSES = tempfile.mkdtemp(prefix="apt-java-")
# Seven Javas are started in a build with AutoValue.
SECONDS = 300

# A message of javac as -XDrawDiagnostics prints it; what a processor printed has the key proc.messager.
DIAGNOSTIC = re.compile(r"(?:(\S+\.java:\d+):\d+:|-) compiler\.(err|warn|note)\.([\w.]+)(?:: (.*))?")
KINDS = {"err": "error", "warn": "warning", "note": "note"}
COUNT = re.compile(r"\d+ (?:error|warning)s?")
# Three warnings are javac's own, and under the host those of the bridge and of the host.
OWN = {
    "proc.processor.incompatible.source.version":
        "Supported source version '{0}' from annotation processor '{1}' less than -source '{2}'",
    "proc.unclosed.type.files":
        "Unclosed files for the types '{0}'; these types will not undergo annotation processing",
    "proc.file.create.last.round": "type {0} was created in the last round and is not processed",
}
# A line of the host's report.
MESSAGE = re.compile(r"(error|warning|mandatory_warning|note|other): (?:(\S+\.java:\d+): )?\[([\w.$]+)\] (.*)")
AS_JAVAC = {"mandatory_warning": "warning", "other": "note"}


def fast_javac(*words):
    return ["javac", *(f"-J{word}" for word in FAST), "-encoding", "UTF-8", "--release", "11", *words]


def compiled(*folders):
    """The folder of the classes of the Java files in some folders, which may name those of the bridge."""
    classes = os.path.join(CLASSES, "classes")
    sources = [os.path.join(folder, name) for folder in folders for name in os.listdir(folder)
               if name.endswith(".java")]
    output_of(fast_javac("-proc:none", "-Xlint:all", "-cp", JAR, "-d", classes, *sources), CLASSES)
    return classes


def sources_below(folder):
    """The paths of the Java files below a folder, in the order of their units' names, which is that of the host."""
    paths = [os.path.relpath(os.path.join(path, name), folder)
             for path, _, names in os.walk(folder) for name in names if name.endswith(".java")]
    return sorted(paths, key=lambda path: path[:-len(".java")].replace(os.sep, "."))


def bytes_below(folder):
    files = {}
    for path, _, names in os.walk(folder):
        for name in names:
            with open(os.path.join(path, name), "rb") as file:
                files[os.path.relpath(os.path.join(path, name), folder)] = file.read()
    return files


def bridge(*words, class_path):
    """The command of a processor under the host."""
    return ["java", *FAST, "-cp", os.pathsep.join([JAR, class_path]), "dinxobhe.Bridge", *words]


@functools.cache
def stubs_of_the_jdk():
    """A folder with stubs of the module java.base, as Java 11 had it."""
    folder = os.path.join(CLASSES, "stubs")
    output_of(["java", *FAST, "-jar", JAR, "stubs", folder, "--module", "java.base", "--release", "11"], CLASSES)
    return folder


def use(project, *folders, stubs=None):
    """Makes the Java files below some folders the project's sources, and a folder its stubs."""
    shutil.rmtree(project.path("src"))
    shutil.rmtree(project.path("stubs"))
    for folder in folders:
        shutil.copytree(folder, project.path("src"), dirs_exist_ok=True)
    if stubs is not None:
        os.symlink(stubs, project.path("stubs"))


class Outcome:
    """The files of a run by their paths, and what it printed, in no order: each message with its kind and its place,
    which is the name of a file and a line, or nothing where the message has none."""

    def __init__(self, files, printed):
        self.files = files
        self.printed = sorted(printed)

    @property
    def messages(self):
        return [(kind, text) for kind, text, _ in self.printed]

    @property
    def places(self):
        return [place for _, _, place in self.printed]

    def kinds(self):
        return [kind for kind, _ in self.messages]


# ---- javac


def under_javac(project, names, processor_path, class_path="", options=()):
    """What processors give under javac, which is given the project's sources."""
    made = project.path("by-javac")
    os.makedirs(made)
    words = ["-proc:only", "-XDrawDiagnostics", "-Xstdout", "../messages", "-d", "../by-javac",
             "-cp", class_path, "-processorpath", processor_path, "-processor", ",".join(names),
             *(f"-A{option.removesuffix('=')}" for option in options)]
    src = project.path("src")
    subprocess.run(fast_javac(*words, *sources_below(src)), cwd=src, stdout=subprocess.DEVNULL,
                   stderr=subprocess.DEVNULL, timeout=SECONDS, check=False)
    with open(project.path("messages"), encoding="utf-8") as file:
        messages = file.read().splitlines()
    return Outcome(bytes_below(made), javac_messages(messages))


def javac_messages(lines):
    """The processors' messages among javac's, and those of javac's own that the host has too."""
    found = []
    is_own = True
    for line in lines:
        begin = DIAGNOSTIC.fullmatch(line)
        if begin is None:
            if not is_own and not COUNT.fullmatch(line):
                kind, text, place = found.pop()
                found.append((kind, f"{text}\n{line}", place))
            continue
        place, kind, key, text = begin.groups()
        is_own = key != "proc.messager"
        if not is_own:
            found.append((KINDS[kind], text, place or ""))
        elif key in OWN:
            found.append((KINDS[kind], OWN[key].format(*text.split(", ")), place or ""))
    return found


# ---- the host


def under_host(project, commands=None, options=()):
    """What processors give under the host. Without commands the project has its apt.json."""
    if commands is not None:
        project.configure(commands)
    run = project.run(["build", *options], seconds=SECONDS)
    lines = run.output.decode().splitlines()
    messages = [host_message(line) for line in lines if MESSAGE.match(line)]
    errors = sum(kind == "error" for kind, _, _ in messages)
    if run.status not in (DONE_STATUS, ERRORS) or (run.status == ERRORS) != (errors > 0):
        raise Failure(f"the host ended with {run.status}: {lines[-1]} {run.messages.decode()[-2000:]}")
    published = project.published() if errors == 0 else {}
    return Outcome({path.split("/", 1)[1]: content for path, content in published.items()}, messages)


def host_message(line):
    kind, place, _, text = MESSAGE.fullmatch(line).groups()
    escapes = {"\\n": "\n", "\\r": "\r", "\\\\": "\\"}
    text = re.sub(r"\\[nr\\]", lambda escape: escapes[escape.group()], text)
    return AS_JAVAC.get(kind, kind), text, os.path.basename(place or "")


# ---- both


def compare(own, javac, different=(), elsewhere=()):
    """The host's messages are javac's, and so are its files but for lines that are known: pairs of javac's line and the
    host's. So are the places of messages but for those that are known: pairs of javac's and the host's. Where there is
    an error the host has no files."""
    expect("the messages", own.messages, javac.messages)
    places = [(place, own_place) for place, own_place in zip(javac.places, own.places) if place != own_place]
    expect("the places that differ", places, list(elsewhere))
    if "error" in javac.kinds():
        expect("the files", own.files, {})
        return
    expect("the names of the files", sorted(own.files), sorted(javac.files))
    seen = []
    for name in sorted(own.files):
        lines, own_lines = (content.split(b"\n") for content in (javac.files[name], own.files[name]))
        if len(lines) != len(own_lines):
            expect(f"the file {name}", own.files[name].decode(), javac.files[name].decode())
        seen += [(line.decode(), own_line.decode()) for line, own_line in zip(lines, own_lines) if line != own_line]
    expect("the lines that differ", seen, list(different))
