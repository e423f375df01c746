#!/usr/bin/env python3
"""Tries wrong bodies, which the contracts of their functions must refuse: many in one check, and with nothing proved before.

An edit is a file `tools/further_edits/CRATE/NAME.edit` in the form of those of `must-fail/`, which the gate tries: a line
`file: `, and then pairs of lines `old: ` and `new: `. The gate does not try those that stand here.

A caller cites contracts alone, so an edited function decides by itself whether its edit is refused. Of an edited constant
those functions decide that name it, and those whose proofs use lemmas on it. The crates below, and
all other functions of the crate, are given to the prover with bodies `unreachable!()` and with holes for proofs. Edits of
different functions are applied together and seen in one check. What that does not settle is seen in halves, and then alone.

For each edit a line is printed, CRATE/NAME with one of these words:
  REFUSED      as it must be, with the first goal that is not proved
  LET THROUGH  the function still meets its contract: the contract is too weak, or the edit changes nothing that counts
  BAD EDIT     it does not fit the text as it stands, or the prover cannot read it
  UNDECIDED    the prover gave no verdict: its output is in the file that is named
The exit status is 0 where each was refused. With `--unedited` the same functions are checked as they stand, once for each
crate: where they are LET THROUGH, as they must be then, a refusal comes from the edit and not from what stands in for the
others. A verdict here is quick and not the gate's: `rt must-fail` over an edit in `must-fail/` decides.
"""
import argparse
import importlib.machinery
import importlib.util
import os
import queue
import re
import resource
import shutil
import subprocess
import sys
import tempfile
import threading
from concurrent.futures import ThreadPoolExecutor
from dataclasses import dataclass, field
from pathlib import Path

TOP = Path(__file__).resolve().parent.parent
CRATES = TOP / "crates"
FURTHER = TOP / "tools" / "further_edits"
REFUSED, LET_THROUGH, BAD, UNDECIDED = "REFUSED", "LET THROUGH", "BAD EDIT", "UNDECIDED"


# The text of a source file


IMPL = re.compile(r"(?:unsafe )?impl(<.*?>)?\s+(?=[A-Z(\[&])(.*?)\s*\{?\s*$")
HEAD = re.compile(r"(\s*)(?:pub(?:\([a-z]+\))? )?(const )?fn (\w+)")
TYPE = re.compile(r"(?:pub(?:\([a-z]+\))? )?(?:struct|enum) (\w+)")
CYCLE = re.compile(r"\s*#\[cycle\((\w+)\)\]")
CONSTANT = re.compile(r"(?:pub(?:\([a-z]+\))? )?(?:const|static) ([A-Z]\w*)")


@dataclass(frozen=True)
class Function:
    """A function of a source file, with the lines of its head, of the brackets of its body, and of the word that puts it into a cycle."""

    name: str
    owner: str | None
    of_trait: str | None
    cycle: str | None
    is_constant: bool
    head: int
    opening: int | None
    closing: int
    cycle_line: int | None

    @property
    def is_replaced(self):
        """Whether its body and proof are replaced where it is not edited: methods of traits keep theirs, which are short."""
        return not self.of_trait and not self.is_constant


def body_of(lines, head, indent):
    """The lines of the brackets round a body; the first is None where the body is empty or there is none, and the last closes the function."""
    at = head
    while True:
        line = lines[at]
        if line.rstrip().endswith(";") and at == head:
            return None, at
        if line == indent + "{":
            break
        is_end = at == head or line.startswith(indent + ")")
        if line == indent + "{}" or is_end and line.endswith("{}"):
            return None, at
        if is_end and line.endswith(" {") and not re.match(r"\s*(ensures|requires)", line):
            break
        at += 1
    return at, next(last for last in range(at + 1, len(lines)) if lines[last] == indent + "}")


def owner_of(parameters, header):
    """The type and the trait of an `impl` with these parameters, as the prover writes them in a name."""
    header = header.split(" where ")[0]
    trait, _, of = header.rpartition(" for ")
    own = set(re.findall(r"[<,]\s*(\w+)", parameters or ""))
    return name_of_type(of, own), name_of_type(trait, own) or None


def name_of_type(text, parameters):
    """A type as the prover writes it in a name: its words in order, a tuple by the number of its parts, and no parameters of the `impl`."""
    text = re.sub(r"'\w+|\w+::", "", text)
    while part := re.search(r"\(([^()]*)\)", text):
        items = [item for item in re.sub(r"<[^<>]*>", "", part[1]).split(",") if item.strip()]
        text = f"{text[:part.start()]}Tuple{len(items)} {part[1]}{text[part.end():]}"
    words = [word for word in re.findall(r"\w+", text) if word not in parameters]
    return "".join(word[0].upper() + word[1:] for word in words)


def functions_of(text):
    """The functions of a source file in their order."""
    lines, found, owner, trait, cycle, at = text.split("\n"), [], None, None, None, 0
    while at < len(lines):
        line = lines[at]
        if impl := IMPL.match(line):
            owner, trait = owner_of(impl[1], impl[2])
        elif re.match(r"(pub(\([a-z]+\))? )?trait ", line):
            owner, trait = None, "trait"
        if line.startswith("}"):
            owner, trait = None, None
        if marked := CYCLE.match(line):
            cycle = marked[1], at
        head = HEAD.match(line)
        if head and (not head[1] or owner):
            opening, closing = body_of(lines, at, head[1])
            in_type = (owner, trait) if head[1] else (None, None)
            found.append(Function(head[3], *in_type, cycle and cycle[0], bool(head[2]), at, opening, closing, cycle and cycle[1]))
            cycle, at = None, closing
        elif TYPE.match(line.strip()):
            cycle = None
        at += 1
    return found


def without_bodies(text, is_kept):
    """The text with each body `unreachable!()` but those of the functions that are kept."""
    lines = text.split("\n")
    for function in reversed(functions_of(text)):
        if not function.is_replaced or is_kept(function):
            continue
        if function.opening is not None:
            lines[function.opening + 1 : function.closing] = [re.match(r"\s*", lines[function.closing])[0] + "    unreachable!()"]
        if function.cycle_line is not None:
            del lines[function.cycle_line]
    return "\n".join(lines)


# A crate


def module_of(path):
    """The modules that lead to a file of `src`, whose path is given from there."""
    parts = list(Path(path).with_suffix("").parts)
    return parts[:-1] if parts[-1] in ("lib", "main", "mod") else parts


class Source:
    """The files of a crate, by their paths in its folder, and where its functions have their proofs."""

    def __init__(self, folder):
        parts = ("src", "specs", "proofs")
        paths = [path for part in parts for path in (folder / part).rglob("*") if path.suffix in (".rt", ".antt")]
        self.name = folder.name
        self.texts = {str(path.relative_to(folder)): path.read_text(encoding="utf-8") for path in paths}
        self.folders = {os.path.dirname(path) for path in self.texts}
        self.code = {path: text for path, text in self.texts.items() if path.startswith("src/")}
        self.functions = {path: functions_of(text) for path, text in self.code.items()}
        types = [(path, TYPE.match(line)) for path, text in self.code.items() for line in text.split("\n")]
        self.homes = {match[1]: module_of(path[len("src/") :]) for path, match in types if match}

    def place_of(self, path, function):
        """The names that lead to a function, its own among them, in what the prover prints and below `proofs`."""
        modules = module_of(path[len("src/") :])
        if not function.owner:
            return [*modules, function.name]
        if function.of_trait:
            return [*modules, function.owner + function.of_trait, function.name]
        return [*self.homes.get(function.owner, modules), function.owner, function.name]

    def proof_of(self, path, function):
        """The folder of a function's proof, or of that of the cycle of calls that it belongs to."""
        place = self.place_of(path, function)
        cycle = "+" + (function.cycle or function.name)
        for depth in range(len(place)):
            folder = "/".join(["proofs", *place[:depth], cycle])
            if folder in self.folders:
                return folder
        return "/".join(["proofs", *module_of(path[len("src/") :]), cycle] if function.cycle else ["proofs", *place])

    def stands_in(self, kept=frozenset(), code=None):
        """The files of the crate with holes for proofs and no bodies, but those whose proofs stand in these folders; `code` is its source, edited."""
        texts = self.texts | (code or {})
        for path, functions in self.functions.items():
            texts[path] = without_bodies(texts[path], lambda function: self.proof_of(path, function) in kept)
            for function in functions:
                if function.is_replaced and self.proof_of(path, function) not in kept:
                    self.put_hole(texts, path, function)
        return texts

    def put_hole(self, texts, path, function):
        """Puts a hole in the place of a function's proof."""
        place = self.place_of(path, function)
        for folder in (self.proof_of(path, function), "/".join(["proofs", *place])):
            for name in ("Invariants", "Answers", "Start", "Proof"):
                texts.pop(f"{folder}/{name}.antt", None)
        module = ".".join(["Rattle", self.name, "proofs", *place])
        hole = f"use {module}.Statement.{{statement}}\n\npub {function.name}_spec : {{M : Type 1}} → statement M\n{function.name}_spec = ?\n"
        texts["/".join(["proofs", *place, "Proof.antt"])] = hole


def write(folder, texts):
    """Makes a folder hold these files and no others; those that are the same already are left."""
    for old in [path for path in folder.rglob("*") if path.is_file() and str(path.relative_to(folder)) not in texts]:
        old.unlink()
    for path, text in texts.items():
        at = folder / path
        if not at.is_file() or at.read_text(encoding="utf-8") != text:
            at.parent.mkdir(parents=True, exist_ok=True)
            at.write_text(text, encoding="utf-8")


# An edit


class BadEdit(Exception):
    """Why an edit does not fit."""


@dataclass
class Edit:
    """An edit: its name, its replacements, and by the folders of their proofs the functions that it changes, with their files."""

    name: str
    pairs: list
    changed: dict = field(default_factory=dict)

    def applied(self, texts):
        """The texts with the edit applied, or BadEdit."""
        texts = dict(texts)
        for path, old, new in self.pairs:
            count = texts.get(path, "").count(old)
            if count != 1:
                raise BadEdit(f"an `old:` text stands in {path} {count} times, and not once: {old.strip()}")
            texts[path] = texts[path].replace(old, new)
        return texts


def read_edit(file, source):
    """Reads an edit and finds which functions it changes, or BadEdit."""
    path, old, pairs = None, None, []
    for line in file.read_text(encoding="utf-8").split("\n"):
        if line.startswith("file: "):
            path = line.removeprefix("file: ").strip()
        elif line.startswith("old: "):
            old = line.removeprefix("old: ")
        elif line.startswith("new:"):
            pairs.append((path, old, line.removeprefix("new:").removeprefix(" ")))
    edit = Edit(file.stem, pairs)
    edit.applied(source.code)
    for path, old, _ in pairs:
        edit.changed.update(functions_at(source, path, old))
    if not edit.changed:
        raise BadEdit("it changes no function, and no constant that a function names")
    return edit


def read_edits(files, source):
    """Reads edits, and gives those that fit and the verdicts on the others."""
    edits, verdicts = [], {}
    for file in files:
        try:
            edits.append(read_edit(file, source))
        except BadEdit as why:
            verdicts[file.stem] = BAD, str(why)
    return edits, verdicts


def functions_at(source, path, old):
    """The functions that a text stands in, or that name the constant that it stands in or use lemmas on it, with their files, by the folders of their proofs."""
    text = source.code[path]
    at = text.find(old)
    if at < 0:
        # an earlier pair of the same edit made the text
        return {}
    line = text[:at].count("\n")
    around = [it for it in source.functions[path] if it.head <= line <= it.closing]
    if around:
        return {source.proof_of(path, it): (path, it) for it in around}
    item = next(it for it in reversed(text.split("\n")[: line + 1]) if it and it[0] not in " )]}")
    constant = CONSTANT.match(item)
    return functions_with(source, constant[1]) | functions_by_lemmas(source, constant[1]) if constant else {}


def functions_with(source, word):
    """The functions whose bodies have a word, with their files, by the folders of their proofs."""
    found = {}
    for path, functions in source.functions.items():
        lines = source.code[path].split("\n")
        for it in functions:
            body = "\n".join(lines[it.opening : it.closing]) if it.opening is not None else ""
            if re.search(rf"\b{word}\b", body):
                found[source.proof_of(path, it)] = path, it
    return found


def functions_by_lemmas(source, word):
    """The functions whose proofs use lemmas on a constant, as those on a table, with their files, by the folders of their proofs."""
    own = {source.proof_of(path, it): (path, it) for path, functions in source.functions.items() for it in functions}
    uses = {path: set(re.findall(rf"^use Rattle\.{source.name}\.proofs\.(\w+)\.\{{", text, re.M)) for path, text in source.texts.items()}
    lemmas = {Path(path).stem: path for path in uses if os.path.dirname(path) == "proofs"}
    on_it = {name for name, path in lemmas.items() if re.search(rf"\b{word}\b", source.texts[path])}
    while more := {name for name, path in lemmas.items() if uses[path] & on_it} - on_it:
        on_it |= more
    return {folder: own[folder] for path in uses if uses[path] & on_it and (folder := os.path.dirname(path)) in own}


def groups_of(edits, source):
    """The edits in as few groups as possible: no two of a group change the same function or cycle, and they fit one after the other."""
    groups = []
    for edit in sorted(edits, key=lambda it: -len(it.changed)):
        for group in groups:
            try:
                texts = edit.applied(group[1])
            except BadEdit:
                continue
            if not any(edit.changed.keys() & other.changed.keys() for other in group[0]):
                group[0].append(edit)
                group[1] = texts
                break
        else:
            groups.append([[edit], edit.applied(source.code)])
    return [edits for edits, _ in groups]


def unedited(edits):
    """The functions that edits change, as they stand."""
    changed = {folder: at for edit in edits for folder, at in edit.changed.items()}
    return Edit("as it stands", [], changed)


# A check


def kit():
    """The kit's library of commands and its folder."""
    folder = Path(subprocess.run(["rt", "doc"], capture_output=True, text=True, check=True).stdout.strip()).parent
    loader = importlib.machinery.SourceFileLoader("rtlib", str(folder / "bin" / "rtlib.py"))
    module = importlib.util.module_from_spec(importlib.util.spec_from_loader("rtlib", loader))
    sys.modules["rtlib"] = module
    sys.dont_write_bytecode = True
    loader.exec_module(module)
    return module, folder


class Trial:
    """The edits of one crate over what stands in for the crates below it; what is read is kept in a folder."""

    def __init__(self, crate, bench, kept):
        self.source = Source(CRATES / crate)
        self.bench = bench
        self.kept = kept
        self.words = bench.words_of(crate)
        self.checks = 0

    def check(self, edits):
        """Checks the functions that the edits change, and gives what the prover says."""
        changed = {folder: at for edit in edits for folder, at in edit.changed.items()}
        room = self.kept / "trial"
        code = self.source.code
        for edit in edits:
            code = edit.applied(code)
        texts = self.source.stands_in(changed.keys(), code)
        write(room, texts)
        call = [str(self.bench.folder / "bin" / "rattle"), "check", *self.words, "--incremental", str(self.kept / "read"), "--allow-holes"]
        for at in changed.values():
            call += ["--only", "::".join(self.source.place_of(*at))]
        done = subprocess.run(call, cwd=room, stdin=subprocess.DEVNULL, stdout=subprocess.PIPE, stderr=subprocess.STDOUT, text=True)
        self.checks += 1
        log = self.bench.logs / self.source.name / f"{self.checks}.log"
        log.parent.mkdir(parents=True, exist_ok=True)
        log.write_text(done.stdout, encoding="utf-8")
        return Said(self.source.name, done.stdout, texts, log)

    def verdict(self, edit, said, is_alone):
        """What the prover says of an edit: the word and the reason."""
        lines = []
        for folder, at in edit.changed.items():
            place = "::".join(self.source.place_of(*at))
            lines.append(said.of_function(place))
            if goal := said.goal(lines[-1], *at, folder, is_alone):
                return REFUSED, f"{place}: {goal}"
        if all(lines) and all(re.search(r": (proved|no holes|depends on a hole)", line) for line in lines):
            return LET_THROUGH, place
        if not any(lines) and (error := said.error()):
            return BAD, error
        return UNDECIDED, str(said.log)

    def tries(self, files):
        """Each edit with its verdict."""
        edits, verdicts = read_edits(files, self.source)
        groups = [[unedited(edits)]] if edits and self.bench.is_unedited else groups_of(edits, self.source)
        for group in groups:
            verdicts |= self.settled(group)
        return verdicts

    def settled(self, group):
        """The verdicts on the edits of a group: what one check does not settle is seen in halves or alone."""
        said = self.check(group)
        if len(group) == 1:
            return {group[0].name: self.verdict(group[0], said, is_alone=True)}
        if not said.is_of_functions():
            half = len(group) // 2
            return self.settled(group[:half]) | self.settled(group[half:])
        verdicts = {edit.name: self.verdict(edit, said, is_alone=False) for edit in group}
        for edit in group:
            if verdicts[edit.name][0] != REFUSED:
                verdicts |= self.settled([edit])
        return verdicts


class Said:
    """What the prover said in one check of a crate, the files that it checked, and the file that keeps what it said."""

    # what a proof's file says where the edit took away a name that it cites
    NAME_IS_GONE = re.compile(r"is not in scope|has no field|has no `")
    NOTE = re.compile(r"note: (src/\S+?):(\d+):\d+: it is not proved that .*\(`([^`]*)`\)")

    def __init__(self, crate, text, texts, log):
        self.crate = crate
        self.lines = text.split("\n")
        self.texts = texts
        self.log = log

    def is_of_functions(self):
        """Whether the source was read, so that there is a line for each function."""
        return any(line.startswith("fn ") for line in self.lines)

    def of_function(self, place):
        """The line on a function, or None."""
        return next((line for line in self.lines if line.startswith(f"fn {self.crate}::{place}: ")), None)

    def goal(self, line, path, function, folder, is_alone):
        """The first goal of a function that is not proved, or None; `folder` has its proof, and where it `is_alone` all else is as it was."""
        if not line or not re.search(r": (not proved|no proof)", line):
            return None
        errors = self.errors_in(folder)
        gone = [name for name, said in errors if self.NAME_IS_GONE.search(said)]
        others = [name for name, _ in errors if name not in gone]
        goals = re.findall(r"`search` did not prove `([^`]*)`", line) + others + self.noted(path, function) + self.stood_on(line, folder)
        if goals:
            return goals[0] + (" (beside names that its proof cites and the edit took away)" if gone else "")
        if gone:
            return gone[0] + " (only since its proof cites a name that the edit took away)"
        of_others = re.search(r"stands on `([^`]*)`", line)
        return of_others[1] if of_others and is_alone else None

    def errors_in(self, folder):
        """The errors in a function's proof: the goal or the item, and what is said."""
        found = (re.match(rf"(?:\./)?{re.escape(folder)}/\w+\.antt:\d+:\d+: error: `([^`]*)`: (.*)", line) for line in self.lines)
        return [(error[1], error[2]) for error in found if error]

    def stood_on(self, line, folder):
        """The items of a function's own proof that its line names as refused."""
        module = ".".join(["Rattle", self.crate, *folder.split("/"), ""])
        refused = line.partition("; it calls ")[0]
        return [name.removeprefix(module).removeprefix("Answers.") for name in re.findall(r"`([^`]*)`", refused) if name.startswith(module)]

    def noted(self, path, function):
        """The goals of a function that the notes on its source name."""
        same = [it for it in functions_of(self.texts[path]) if (it.name, it.owner, it.of_trait) == (function.name, function.owner, function.of_trait)]
        notes = (self.NOTE.match(line) for line in self.lines)
        return [note[3] for note in notes if note and note[1] == path and any(it.head < int(note[2]) <= it.closing + 1 for it in same)]

    def error(self):
        """The first error of the source, or None."""
        return next((line[:200] for line in self.lines if re.search(r"\berror\b", line)), None)


class Bench:
    """What all trials share: the kit, the crates with nothing but their contracts, the folder of the logs, and those that lanes of trials keep."""

    def __init__(self, crates, work, jobs, is_unedited, proved):
        self.is_unedited = is_unedited
        self.rtlib, self.folder = kit()
        self.proved = proved
        self.top = proved or work / "stands_in"
        self.logs = work / "logs"
        self.lock = threading.Lock()
        self.lanes = queue.Queue()
        for number in range(jobs):
            self.lanes.put(work / f"lane-{number}")
        uses = with_those_below(crates)
        if proved:
            others = [crate for crate in uses if Source(CRATES / crate).texts != Source(proved / "crates" / crate).texts]
            if others:
                raise SystemExit(f"{proved} has other text of {', '.join(others)}")
        else:
            self.lay_out(uses)
        self.crates = {it.name: it for it in self.in_top(lambda: self.rtlib.crates_below(str(self.top)))}

    def lay_out(self, uses):
        """Writes these crates with nothing but their contracts."""
        for crate in uses:
            write(self.top / "crates" / crate, Source(CRATES / crate).stands_in())
        lines = "".join(f"{crate}: {' '.join(used)}\n" for crate, used in uses.items())
        (self.top / "crates.txt").write_text(lines, encoding="utf-8")
        if (TOP / "HANDLES").is_file():
            shutil.copy(TOP / "HANDLES", self.top)

    def in_top(self, gives):
        """What a call of the kit's library gives in the folder of the crates that stand in."""
        before = os.getcwd()
        os.chdir(self.top)
        try:
            return gives()
        finally:
            os.chdir(before)

    def words_of(self, crate):
        """The words of a check of a crate over the others: as source, or as the libraries that were proved."""
        with self.lock:
            return self.in_top(lambda: self.crates[crate].words(["--jobs", "1"], keeps=False, as_source=not self.proved))


# Which crates


def graph():
    """The crates in their order, and of each those that it uses."""
    lines = [line.split("#")[0] for line in (TOP / "crates.txt").read_text(encoding="utf-8").split("\n")]
    return {line.split(":")[0].split()[0]: line.split(":")[1].split() for line in lines if ":" in line}


def with_those_below(crates):
    """These crates and those that stand below one of them, in their order, and of each those that it uses."""
    uses, found = graph(), set(crates)
    while more := {used for crate in found for used in uses[crate] if used in uses} - found:
        found |= more
    return {crate: used for crate, used in uses.items() if crate in found}


def changed_since(revision):
    """The files that differ from a revision, new ones among them."""
    asked = (["diff", "--name-only", revision], ["ls-files", "--others", "--exclude-standard"])
    calls = [["git", *words, "--", "crates", "tools/further_edits"] for words in asked]
    return [path for words in calls for path in subprocess.run(words, cwd=TOP, capture_output=True, text=True, check=True).stdout.split()]


def named_by(crate):
    """The crates whose definitions a crate's contracts and definitions name."""
    texts = [path.read_text(encoding="utf-8") for part in ("src", "specs") for path in (CRATES / crate / part).rglob("*") if path.is_file()]
    return {name for text in texts for name in re.findall(r"\buse Rattle\.(\w+)\.", text)} - {crate}


def to_be_tried(crate, changed, edits):
    """Whether a crate, its edits, or what its contracts name have changed."""
    own = [f"crates/{crate}/{part}/" for part in ("src", "specs", "proofs")] + [str(edits.relative_to(TOP)) + "/"]
    below = [f"crates/{name}/{part}/" for name in named_by(crate) for part in ("src", "specs")]
    return any(path.startswith((*own, *below)) for path in changed)


def edits_of(crate, of_gate):
    """The folder of a crate's edits."""
    return CRATES / crate / "must-fail" if of_gate else FURTHER / crate


def wanted(asked):
    """The crates that are asked for and have edits, lowest first, and of each its folders of edits."""
    kinds = [True] if asked.gate else [True, False] if asked.both else [False]
    unknown = {*asked.crates, *(path.name for path in FURTHER.iterdir())} - set(graph())
    if unknown:
        raise SystemExit(f"crates.txt names no {', '.join(sorted(unknown))}")
    changed = changed_since(asked.since) if asked.since else None
    found = {}
    for crate in graph():
        folders = [edits_of(crate, kind) for kind in kinds if edits_of(crate, kind).is_dir()]
        if asked.crates and crate not in asked.crates or not folders:
            continue
        if changed is None or any(to_be_tried(crate, changed, folder) for folder in folders):
            found[crate] = folders
    return found


def files_of(folders):
    """The edits in these folders."""
    return sorted(file for folder in folders for file in folder.glob("*.edit"))


def show(crate, verdicts):
    """Prints the verdicts on edits of a crate."""
    for name, (word, why) in sorted(verdicts.items()):
        print(f"{crate}/{name}: {word}: {why}", flush=True)


def tried(crate, folders, bench):
    """Tries the edits of a crate, prints each verdict, and gives the words and how many checks they took."""
    lane = bench.lanes.get()
    trial = Trial(crate, bench, lane)
    verdicts = trial.tries(files_of(folders))
    bench.lanes.put(lane)
    show(crate, verdicts)
    return [word for word, _ in verdicts.values()], trial.checks


def look(crates):
    """Prints which edits do not fit the text, and gives the exit status."""
    found = {crate: read_edits(files_of(folders), Source(CRATES / crate)) for crate, folders in crates.items()}
    for crate, (_, misfits) in found.items():
        show(crate, misfits)
    print(f"{sum(len(edits) for edits, _ in found.values())} edits fit")
    return 1 if any(misfits for _, misfits in found.values()) else 0


def summary(found, checks):
    """How many edits came to each word, and what it took."""
    counts = ", ".join(f"{found.count(word)} {word.lower()}" for word in (REFUSED, LET_THROUGH, BAD, UNDECIDED) if word in found)
    used = resource.getrusage(resource.RUSAGE_CHILDREN)
    return f"{len(found)} edits: {counts or 'none to be tried'}; {checks} checks, {(used.ru_utime + used.ru_stime) / 60:.1f} processor minutes"


def read_words():
    """The words that the command is called with."""
    words = argparse.ArgumentParser(description=__doc__, formatter_class=argparse.RawDescriptionHelpFormatter)
    words.add_argument("crates", nargs="*", metavar="CRATE", help="the crates whose edits are tried; with none, all that have some")
    words.add_argument("--since", metavar="REVISION", help="only crates that changed since this revision, or that name definitions of one that did")
    words.add_argument("--gate", action="store_true", help="a quick look at the edits of must-fail/, in place of the further ones")
    words.add_argument("--both", action="store_true", help="those of must-fail/ and the further ones together")
    words.add_argument("--unedited", action="store_true", help="check the functions that the edits change as they stand: all must be let through")
    words.add_argument("--look", action="store_true", help="check nothing, and only say which edits do not fit the text as it stands")
    words.add_argument("--jobs", type=int, default=1, metavar="N", help="how many crates are tried at a time (1)")
    words.add_argument("--proved", type=Path, metavar="FOLDER", help="a checkout with the same crates, in which `rt ci` passed: its libraries are taken in place of stand-ins, which is faster")
    words.add_argument("--kept", type=Path, metavar="FOLDER", help="where what is read is kept for the next run; a new folder if it is left out")
    return words.parse_args()


def main():
    asked = read_words()
    crates = wanted(asked)
    if asked.look:
        return look(crates)
    work = (asked.kept or Path(tempfile.mkdtemp(prefix="further-edits-"))).resolve()
    bench = Bench(crates, work, asked.jobs, asked.unedited, asked.proved and asked.proved.resolve())
    with ThreadPoolExecutor(asked.jobs) as pool:
        done = list(pool.map(lambda crate: tried(crate, crates[crate], bench), crates))
    found = [word for of_crate, _ in done for word in of_crate]
    print(summary(found, sum(checks for _, checks in done)))
    is_well = set(found) <= {LET_THROUGH if asked.unedited else REFUSED}
    if is_well and not asked.kept:
        shutil.rmtree(work)
    return 0 if is_well else 1


if __name__ == "__main__":
    sys.exit(main())
