#!/usr/bin/env python3
"""Compares what the library says of annotations and constants with what javac's `javax.lang.model` says of them.

    bench/annotations.py [--program PATH] [--sources ARCHIVE] [COUNT] [SEED]

COUNT programs of three files (300 where it is left out) are made from SEED (1): classes of constants of each form, annotation
interfaces with defaults, and classes with annotations, whose values are of each form and name the constants by each kind of import,
inherited, hidden, and through each other. With ARCHIVE, the src.zip of a JDK, 2,000 files of its module java.base are read besides,
in a table of all of its files that have units.

Each file is entered by the table `value_cases` of the program of cases, which is out/cases/cases unless another build of it is
named. AnnotationBench.java has javac read the files and says what each annotation, each default and each constant is worth, and which
annotations are present in each file; the program is asked the same. What both say is compared value by value. Each difference has to
fall under a sentence of SENTENCES, which docs/DECISIONS.md has; a table says how many there are of each.

The exit status is 0 where each difference has its sentence, else 1; the first of those that have none are printed, with both answers.
"""
import argparse
import collections
import os
import random
import re
import struct
import subprocess
import sys
import tempfile
import urllib.parse
import zipfile

import jdk

PROGRAM = os.path.join(jdk.HERE, "..", "out", "cases", "cases")
MODULE = "java.base/"

# How many files of the JDK are asked, how many differences without a sentence are printed, and how much of each answer.
OF_JDK, TOLD, MOST = 2_000, 20, 400

# What has no meaning in a word of a table.
PLAIN = "!\"#$&'()*+,/:;<>?@[]^{|}~\\"

SENTENCES = {
    "converted": "Nothing is converted to the type that is wanted.",
    "braces": "One value in the place of an array is no array.",
    "items": "An array one of whose values is no constant form is itself none, and kept as its tokens.",
    "floating": "A floating-point literal keeps its text.",
    "kept": "What is no literal, name, class literal, annotation, joined text or array keeps its text: nothing is computed.",
    "joined": "Otherwise what is written is kept with ` + ` between the items, and no item is replaced by its value.",
    "initialiser": "A name is a constant where it means an enum constant, or a field that is final, as written or implied, with a constant form "
                   "as its initialiser.",
    "absent": "A name means what is declared among the sources or the stubs.",
    "scope": "That is the scope of all names at an element, of types and annotations too, so a name in an annotation on a class is looked for in "
             "that class first.",
    "inherited": "As with member types, neither access nor `static` is tested when a name is looked up, so a private field of a supertype is found "
                 "before what is further out.",
    "order": "Inherited annotations come behind the written ones, the nearest first.",
    "together": "An annotation that is written twice is mirrored twice, each where it is written.",
    "twice": "A written annotation keeps out an inherited one of the same interface, also one that is written twice.",
    "character": "A character beyond U+FFFF is one character.",
}


# ---- the programs


class Made:
    """A program of three files, which no other program uses."""

    WHOLE = ("0", "7", "0x1F", "-12", "0777", "0b101", "1_000", "2147483647", "-2147483648", "0xFFFFFFFF")
    LONG = ("0L", "7l", "-12L", "0x1FL", "9223372036854775807L", "-9223372036854775808L", "0xFFFFFFFFFFFFFFFFL", "5", "-0x1")
    TEXT = ('""', '"a"', '"a\\tb"', '"\\""', '"\\101\\7"', '"\\400"', '"é"', '"// x"')
    CHARACTER = ("'a'", "'\\n'", "'\\''", "'\\\\'", "'\\0'", "'\\377'", "'é'", "65")
    DOUBLE = ("1.0", "1e3", ".5", "-1.5", "0x1.8p1", "1d", "7", "1.5f")
    TRUTH = ("true", "false")
    LITERALS = {"int": WHOLE, "long": LONG, "String": TEXT, "char": CHARACTER, "double": DOUBLE, "boolean": TRUTH,
                "byte": ("1", "-128", "(byte) 200"), "float": ("1f", "1.5F", "-2f", "3")}
    COMPUTED = {"int": "({0})|~({0})|{0} - 1|+{0}|true ? {0} : 1", "long": "({0})|{0} + 1L|{0} << 2",
                "String": '({0})|"a" + 1 + {0}', "char": "({0})|(char) 66", "double": "({0})|{0} * 2|(double) 1",
                "boolean": "!{0}|({0})|1 < 2", "byte": "(byte) 3", "float": "{0}|(1f)"}

    def __init__(self, number, seed):
        self.random, self.number = random.Random(f"{seed} {number}"), number
        self.constants, self.interfaces, self.count = [], [], 0
        self.package, self.user = f"q{number}", f"p{number}"

    def name(self, letter):
        self.count += 1
        return f"{letter}{self.count}"

    def named(self, of, known, by):
        """The name of a constant of this type, as `by` writes it."""
        fitting = [each for each in known if each[1] == of]
        return by(self.random.choice(fitting)) if fitting else None

    def form(self, of, known, by):
        """An initialiser or a value of this type."""
        drawn = self.random.random()
        name = self.named(of, known, by)
        if drawn < 0.35 and name:
            return name
        if drawn < 0.5 and of == "String":
            others = ["1", self.named("int", known, by) or "2"][:self.random.randint(0, 2)]
            items = [self.named(of, known, by) or '"x"', self.random.choice(self.TEXT), *others]
            self.random.shuffle(items)
            return " + ".join(items if any('"' in each for each in items[:2]) else ['""', *items])
        if drawn < 0.6:
            plain = self.random.choice(self.LITERALS[of]) if name is None else name
            plain = f"({plain})" if plain.startswith("-") else plain
            return self.random.choice(self.COMPUTED[of].split("|")).format(plain)
        return self.random.choice(self.LITERALS[of])

    def constant_lines(self, owner, count, known):
        """Declares constants, each of which may name those before it."""
        lines = []
        for _ in range(count):
            of, name = self.random.choice(list(self.LITERALS)), self.name("C")
            lines.append(f"    public static final {of} {name} = {self.form(of, known, lambda each: each[0])};")
            known.append((name, of, owner))
        return lines

    def constants_text(self):
        """Constants of an enum, of an interface, of a class above and of the class itself."""
        of_class, of_interface = [], []
        above = self.constant_lines("Base", 4, of_class)
        interface = self.constant_lines("Also", 3, of_interface)
        self.constants = of_class + of_interface
        own = self.constant_lines("K", 10, self.constants)
        lines = [f"package {self.package};", "public class K extends Base implements Also {", *own, "}"]
        lines += ["class Base {", *above, "}", "interface Also {", *(line.replace("public static final ", "") for line in interface), "}"]
        return "\n".join(lines) + "\n"

    def default_of(self, of):
        if of.endswith("[]"):
            return "{" + ", ".join(self.default_of(of[:-2]) for _ in range(self.random.randint(0, 2))) + "}"
        return self.value(of, self.constants, lambda each: f"K.{each[0]}")

    def interfaces_text(self):
        text = [f"package {self.package};", "import java.lang.annotation.*;", "public interface A {"]
        for _ in range(3):
            name, elements = self.name("A"), []
            inherited, repeated = self.random.random() < 0.5, self.random.random() < 0.4
            for _ in range(self.random.randint(1, 5)):
                of = self.random.choice([*self.LITERALS, "E", "Class<?>", "N", "String[]", "int[]", "E[]", "N[]", "Class<?>[]"])
                elements.append((self.name("e"), of, self.random.random() < 0.4))
            front = "@Inherited " if inherited else ""
            if repeated:
                front += f"@Repeatable({name}s.class) "
                text.append(f"    {'@Inherited ' if inherited else ''}@interface {name}s {{ {name}[] value(); }}")
            members = "".join(f" {of} {each}(){f' default {self.default_of(of)}' if has_default else ''};" for each, of, has_default in elements)
            text.append(f"    {front}@interface {name} {{{members} }}")
            self.interfaces.append((name, elements, repeated))
        text += ["    @interface N { int n() default 1; }", "    enum E { A, B { }, C; }", "}"]
        return "\n".join(text) + "\n"

    def value(self, of, known, by):
        """A value of an element of this type."""
        if of.endswith("[]"):
            if self.random.random() < 0.4:
                return self.value(of[:-2], known, by)
            return "{" + ", ".join(self.value(of[:-2], known, by) for _ in range(self.random.randint(0, 3))) + "}"
        if of == "E":
            return self.random.choice(("A.E.A", "A.E.B", f"{self.package}.A.E.C"))
        if of == "Class<?>":
            return self.random.choice(("int.class", "void.class", "String.class", "String[].class", "A.class", "A.E.class", "int[][].class"))
        if of == "N":
            return self.random.choice(("@A.N", "@A.N()", f"@A.N(n = {self.form('int', known, by)})"))
        return self.form(of, known, by)

    def annotation(self, known, by, interface):
        name, elements, _ = interface
        values = [f"{each} = {self.value(of, known, by)}" for each, of, has_default in elements if not has_default or self.random.random() < 0.5]
        return f"@A.{name}{f'({chr(44).join(values)})' if values else ''}"

    def annotations(self, known, by):
        """Some annotations of different interfaces, and one of them twice where it may be."""
        chosen = self.random.sample(self.interfaces, self.random.choice((0, 1, 1, 2)))
        words = [self.annotation(known, by, each) for each in chosen]
        words += [self.annotation(known, by, each) for each in chosen if each[2] and self.random.random() < 0.3]
        return "".join(f"{word} " for word in words)

    def users_text(self):
        """Classes with annotations, which name the constants by an import of one kind."""
        package, form = self.package, self.random.choice(("demand", "single", "qualified", "inherited"))
        lines = [f"package {self.user};", f"import {package}.A;", f"import {package}.K;"]
        known = list(self.constants)
        by = (lambda each: f"K.{each[0]}") if form == "qualified" else (lambda each: each[0])
        if form == "demand":
            lines.append(f"import static {package}.K.*;")
        elif form != "qualified":
            lines += [f"import static {package}.K.{each[0]};" for each in known]
        note = lambda: self.annotations(known, by)  # noqa: E731
        lines.append(f"{note()}class U {'extends K ' if form == 'inherited' else ''}{{")
        # A constant of the class hides one that is imported, but not on the class itself.
        for name, of, _ in self.random.sample(known, 2):
            lines.append(f"    static final {of} {name} = {self.random.choice(self.LITERALS[of])};")
        lines += [f"    {note()}int f{number};" for number in range(2)]
        lines += [f"    {note()}U({note()}int a) {{ }}", f"    {note()}<T> void m({note()}T a, {note()}int b) {{ }}"]
        lines += [f"    {note()}static class In {{", f"        {note()}int x;", "    }", "}"]
        lines += [f"class V extends U {{ V() {{ super(1); }} {note()}void n() {{ }} }}", f"{note()}class W extends V {{ }}", "class X extends W { }"]
        lines += [f"{note()}enum Y {{ {note()}P, Q {{ }}; }}", f"{note()}interface Z {{ {note()}int z(); }}"]
        return "\n".join(lines) + "\n"

    def texts(self):
        constants, interfaces = self.constants_text(), self.interfaces_text()
        return {f"{self.package}/K.java": constants, f"{self.package}/A.java": interfaces, f"{self.user}/U.java": self.users_text()}


# What the programs use of the JDK.
STUBS = (
    "package java.lang; public class Object {}", "package java.lang; public final class String {}",
    "package java.lang.annotation; public @interface Inherited {}",
    "package java.lang.annotation; public @interface Repeatable { Class<? extends Annotation> value(); }",
    "package java.lang.annotation; public interface Annotation {}",
)


# ---- both answers


def word(text):
    return urllib.parse.quote(text, safe=PLAIN)


def answers(command, lines):
    """What follows ` = ` in each line of a table that the program prints; a call is a line."""
    run = subprocess.run(command, input="".join(f"{line}\n" for line in lines).encode(), stdout=subprocess.PIPE, check=False)
    printed = run.stdout.decode().split("\n")[:-1]
    if run.returncode != 0 or len(printed) != len(lines):
        sys.exit(f"{command[0]} ended with {run.returncode} and has {len(printed)} answers to {len(lines)} lines")
    return [line.partition(" = ")[2] for line in printed]


def entered(path, text, part="source"):
    return f"{part}{'_info' if path.endswith('package-info.java') else ''} {word(text)}"


class Said:
    """What javac says: its answer to each call, and what it says of names and initialisers."""

    def __init__(self, java, folder, listed, options):
        run = subprocess.run([*java, "AnnotationBench", listed, *options], stdout=subprocess.PIPE, encoding="utf-8", check=True)
        self.rows, self.names, self.forms, self.errors = {}, collections.defaultdict(dict), {}, 0
        for line in run.stdout.splitlines():
            if line.startswith("# names "):
                at, name, *facts = line[len("# names "):].split(" ")
                self.names[at].setdefault(name, facts)
            elif line.startswith("# form "):
                at, form = line[len("# form "):].split(" ")
                self.forms[at] = form
            elif line.startswith("# errors "):
                self.errors = int(line.rpartition(" ")[2])
            else:
                call, _, answer = line.partition(" = ")
                self.rows[call] = answer


# ---- values


def parse_text(text, at):
    end = text.index("`", at + 1)
    return urllib.parse.unquote(text[at + 1:end]), end + 1


def parse_items(text, at, closing, parse):
    """Items behind an opening bracket up to the closing one."""
    items = []
    while text[at] != closing:
        item, at = parse(text, at + (text[at] == ","))
        items.append(item)
    return items, at + 1


def parse_pair(text, at):
    end = text.index("=", at)
    value, behind = parse_value(text, end + 1)
    return (text[at:end], value), behind


def parse_within(text, at):
    """A word with balanced brackets, up to the bracket that closes what is around it."""
    depth, end = 0, at
    while depth or text[end] not in "),}":
        depth += (text[end] in "(<") - (text[end] in ")>")
        end += 1
    return text[at:end], end


def parse_annotation(text, at):
    """`@TYPE(NAME=VALUE,..)`, where the type may be `error(NAME)`."""
    name = re.compile(r"@(error\([^()]*\)|[^()]*)\(").match(text, at)
    values, end = parse_items(text, name.end(), ")", parse_pair)
    return ("annotation", name.group(1), values), end


def parse_value(text, at):
    if text[at] == "{":
        items, end = parse_items(text, at + 1, "}", parse_value)
        return ("array", items), end
    if text[at] == "@":
        return parse_annotation(text, at)
    kind = re.compile("[a-z]+").match(text, at)
    if kind.group() in ("true", "false"):
        return ("truth", kind.group()), kind.end()
    if text[kind.end()] == "`":
        said, end = parse_text(text, kind.end())
        return (kind.group(), said), end
    said, end = parse_within(text, kind.end() + 1)
    return (kind.group(), said), end + 1


def parse_whole(text, parse):
    value, end = parse(text, 0)
    if end != len(text):
        raise ValueError(f"{text} goes on behind a value")
    return value


def parse_annotations(text):
    found, at = [], 0
    while text != "[]" and at < len(text):
        one, at = parse_annotation(text, at)
        found.append(one)
        at += 1
    return found


def parse_pairs(text):
    return [] if text == "[]" else parse_items(text + ")", 0, ")", parse_pair)[0]


# ---- the comparison


def as_number(value):
    """The number that a value is, or None."""
    kind, said = value
    if kind in ("int", "long", "byte", "short", "character"):
        return int(said)
    if kind in ("float", "double"):
        return float(said.replace("Infinity", "inf"))
    return None


def as_floating(text):
    """The number of a floating-point literal."""
    digits = text.replace("_", "")
    is_hexadecimal = "0x" in digits.lower()
    digits = digits.rstrip("dDfF") if not is_hexadecimal else re.sub("[dDfF]$", "", digits) if "p" in digits.lower() else digits
    return float.fromhex(digits) if is_hexadecimal else float(digits)


def is_number(one, other, is_single):
    single = lambda number: struct.unpack("f", struct.pack("f", number))[0]  # noqa: E731
    return one == other or is_single and single(one) == single(other)


NAME = re.compile(r"\w+(\.\w+)*")

# What is joined of a text that is kept as it is written, and of one that is kept as its tokens; a constant form without braces; an
# annotation; and the tokens, as far as they part values.
QUOTED = r'"(?:[^"\\]|\\.)*"|\'(?:[^\'\\]|\\.)+\''
NUMERAL = r"\.?\d(?:[\w.]|(?<=[eEpP])[+-])*"
NAMED = r"\w+(?: \. \w+)*"
ITEM = re.compile(rf"{QUOTED}|[\w.]+")
JOINED = rf"(?:{QUOTED}|{NUMERAL}|{NAMED})"
FORM = re.compile(rf"{JOINED}(?: \+ {JOINED})*|- {NUMERAL}|{NAMED}(?: \[ \])* \. class")
NESTED = re.compile(rf"@ ?{NAMED}( \(.*\))?", re.DOTALL)
TOKEN = re.compile(rf"{QUOTED}|[^ ]+")


def items_of(text):
    """The values in the braces that a text which is kept stands in."""
    items, depth = [[]], 0
    for token in TOKEN.findall(text)[1:-1]:
        depth += (token in "({[") - (token in ")}]")
        if token == "," and depth == 0:
            items.append([])
        else:
            items[-1].append(token)
    return [" ".join(tokens) for tokens in items if tokens]


def is_form(text):
    """Whether the tokens are a constant form."""
    if text.startswith("{") and text.endswith("}"):
        return all(map(is_form, items_of(text)))
    return FORM.fullmatch(text) is not None or NESTED.fullmatch(text) is not None


def as_many(annotations, counts):
    """The first of each interface, as many as the counts say."""
    left, kept = collections.Counter(counts), []
    for each in annotations:
        left[each[1]] -= 1
        kept += [each] if left[each[1]] >= 0 else []
    return kept


class Comparison:
    """The differences between two answers to a call, each by its sentence, or by None."""

    def __init__(self, said, kind, at):
        self.said, self.kind, self.at, self.found = said, kind, at, []

    def note(self, sentence):
        self.found.append(sentence)

    def facts(self, name):
        return self.said.names[self.at].get(name, [])

    def of_name(self, name):
        """Why a name is kept that javac gives a value."""
        form = (self.facts(name) or [None])[0]
        if form == "expression":
            return "initialiser"
        if form == "absent":
            return "absent"
        if len(self.facts(name)) > 1:
            return {"own": "scope", "private": "inherited"}[self.facts(name)[1]]
        return None

    def of_other(self, text, theirs):
        """Why a text is kept of which javac knows the value."""
        if NAME.fullmatch(text) and not text[0].isdigit():
            return self.of_name(text)
        items = text.split(" + ")
        if theirs[0] == "text" and len(items) > 1 and all(ITEM.fullmatch(each) for each in items):
            return None if all(each.startswith('"') or (self.facts(each) or [""])[0] == "text" for each in items) else "joined"
        if re.fullmatch(r"-? ?[\w.]+|'.*'|\"(?:[^\"\\]|\\.)*\"", text):
            return "character" if theirs[0] == "character" and len(text) > 3 else None
        return "kept"

    def value(self, ours, theirs):
        if ours == theirs:
            return
        if theirs[0] == "array" and ours[0] == "other" and ours[1].startswith("{"):
            self.note(None if is_form(ours[1]) else "items")
        elif theirs[0] == "array" and ours[0] != "array":
            self.note("braces" if len(theirs[1]) == 1 else None)
            if len(theirs[1]) == 1:
                self.value(ours, theirs[1][0])
        elif theirs[0] == "array" and len(ours[1]) == len(theirs[1]):
            for one, other in zip(ours[1], theirs[1]):
                self.value(one, other)
        elif ours[0] == "annotation" and theirs[0] == "annotation":
            self.annotation(ours, theirs)
        elif ours[0] == "other":
            self.note(self.of_other(ours[1], theirs))
        elif ours[0] == "class" and theirs[0] == "class":
            self.note("absent" if "error(" in ours[1] else None)
        elif ours[0] == "floating" and as_number(theirs) is not None:
            is_same = is_number(as_floating(ours[1]), as_number(theirs), theirs[0] == "float")
            self.note("floating" if is_same else self.hidden())
        elif ours[0] in ("int", "long", "character") and as_number(theirs) is not None:
            single = theirs[0] == "float"
            self.note("converted" if is_number(as_number(ours), as_number(theirs), single) else self.hidden())
        else:
            self.note(self.hidden())

    def hidden(self):
        """The sentence by which another field was found, where the element has such a name."""
        flags = {fact for facts in self.said.names[self.at].values() for fact in facts[1:]}
        return "scope" if "own" in flags else "inherited" if "private" in flags else None

    def pairs(self, ours, theirs):
        if [name for name, _ in ours] != [name for name, _ in theirs]:
            self.note(None)
            return
        for (_, one), (_, other) in zip(ours, theirs):
            self.value(one, other)

    def annotation(self, ours, theirs):
        if ours[1] != theirs[1]:
            self.note("absent" if ours[1].startswith("error(") else None)
        self.pairs(ours[2], theirs[2])

    def annotations(self, ours, theirs):
        """Annotations in their order, of which javac may have more of an interface of which a nearer class has one."""
        of_ours = collections.Counter(each[1] for each in ours)
        if len(ours) < len(theirs) and all(each[1] in of_ours for each in theirs):
            self.note("twice")
            # The nearest one is the first where it is written, and the last where it is inherited.
            tries = [as_many(theirs, of_ours), as_many(theirs[::-1], of_ours)[::-1]]
            theirs = min(tries, key=lambda each: None in self.tried(ours, each))
        self.found += self.tried(ours, theirs)

    def tried(self, ours, theirs):
        """The differences of as many annotations."""
        comparison = Comparison(self.said, self.kind, self.at)
        if len(ours) != len(theirs):
            return [None]
        if [each[1] for each in ours] != [each[1] for each in theirs] and sorted(each[1] for each in ours) == sorted(each[1] for each in theirs):
            comparison.note("together" if self.kind == "mirrors" else "order")
            ours, theirs = sorted(ours, key=lambda each: each[1]), sorted(theirs, key=lambda each: each[1])
        for one, other in zip(ours, theirs):
            comparison.annotation(one, other)
        return comparison.found

    def constant(self, ours, theirs):
        if ours == "none" and theirs != "none":
            form = self.said.forms[self.at]
            self.note({"expression": "initialiser", "absent": "absent", "form": "joined"}.get(form))
        elif theirs == "none":
            self.note(None)
        else:
            self.value(parse_whole(ours, parse_value), parse_whole(theirs, parse_value))


def differences(said, call, ours, theirs):
    """The sentences of the differences in a row."""
    kind, at = call.split(" ")[:2]
    comparison = Comparison(said, kind, at)
    if ours == theirs:
        return []
    if kind in ("mirrors", "all_mirrors"):
        comparison.annotations(parse_annotations(ours), parse_annotations(theirs))
    elif kind == "values_with_defaults":
        comparison.pairs(parse_pairs(ours), parse_pairs(theirs))
    elif kind == "present_on":
        missing = set(theirs.split(",")) - set(ours.split(",")) - {"[]"}
        is_absent = not set(ours.split(",")) - set(theirs.split(",")) - {"[]"} and missing
        comparison.note("absent" if is_absent else None)
    elif kind == "default_of" and "none" in (ours, theirs):
        comparison.note(None)
    else:
        comparison.constant(ours, theirs)
    return comparison.found


def tell(what, call, ours, theirs):
    print(f"           {what}: {call}\n             the program: {ours[:MOST]}\n             javac:       {theirs[:MOST]}")


def compare(title, program, said, entering):
    """Asks the program what javac was asked, and prints the tables; whether each difference has its sentence."""
    calls = list(said.rows)
    told = answers([program, "value_cases"], [*entering, *calls])
    if set(told[:len(entering)]) - {"done"}:
        sys.exit(f"{title}: the program enters not all files: {set(told[:len(entering)]) - {'done'}}")
    counts, same, nameless, first = collections.Counter(), collections.Counter(), [], {}
    for call, ours in zip(calls, told[len(entering):]):
        found = differences(said, call, ours, said.rows[call])
        same[call.split(" ")[0]] += ours == said.rows[call]
        counts.update(each for each in found if each is not None)
        for each in found:
            first.setdefault(each, (call, ours, said.rows[call]))
        if None in found:
            nameless.append((call, ours, said.rows[call]))
    kinds = collections.Counter(call.split(" ")[0] for call in calls)
    elements = {call.split(" ")[1] for call in calls}
    annotations = sum(len(parse_annotations(said.rows[call])) for call in calls if call.startswith("mirrors "))
    print(f"{title}: {len(entering):,} files, {len(elements):,} elements, {annotations:,} annotations; javac has {said.errors} errors")
    for kind, count in kinds.items():
        print(f"  {kind}: {count:,} rows, {same[kind]:,} the same")
    print(f"  differences by the sentence that decides them: {counts.total():,}")
    for sentence, count in counts.most_common():
        print(f"  {count:8,} {SENTENCES[sentence]}")
        tell("the first", *first[sentence])
    print(f"  rows with a difference that no sentence decides: {len(nameless):,}")
    for each in nameless[:TOLD]:
        tell("a row", *each)
    return not nameless


# ---- the files


def write(folder, texts):
    for path, text in texts.items():
        os.makedirs(os.path.join(folder, os.path.dirname(path)), exist_ok=True)
        with open(os.path.join(folder, path), "w", encoding="utf-8") as file:
            file.write(text)
    return [os.path.join(folder, path) for path in texts]


def command(folder, tools):
    java = os.path.join(tools, "java") if tools else "java"
    classes = tempfile.mkdtemp(dir=folder)
    sources = [os.path.join(jdk.HERE, name + ".java") for name in ("Javac", "ElementWords", "AnnotationFacts", "AnnotationBench")]
    subprocess.run([os.path.join(tools, "javac") if tools else "javac", "-d", classes, *sources], check=True)
    return [java, "-Xmx2g", "-XX:+UseSerialGC", "-cp", classes]


def compare_made(folder, program, count, seed):
    texts = {}
    for number in range(count):
        texts.update(Made(number, seed).texts())
    listed = jdk.write_list(folder, "made-list", write(os.path.join(folder, "made"), texts))
    said = Said(command(folder, None), folder, listed, ["-encoding", "UTF-8"])
    entering = [f"stub {word(text)}" for text in STUBS] + [entered(path, text) for path, text in texts.items()]
    return compare(f"{count:,} programs from seed {seed}", program, said, entering)


def compare_jdk(folder, program, sources):
    """The JDK whose archive it is reads the files, if it stands where a JDK has them."""
    tools = os.path.normpath(os.path.join(os.path.dirname(os.path.realpath(sources)), "..", "bin"))
    with zipfile.ZipFile(sources) as archive:
        names = sorted(name for name in archive.namelist()
                       if name.startswith(MODULE) and name.endswith(".java") and not name.endswith("/module-info.java"))
        texts = {name: archive.read(name).decode() for name in names}
    calls = [f"{'info_limits' if name.endswith('package-info.java') else 'limits'} {word(text)}" for name, text in texts.items()]
    readable = [name for name, said in zip(texts, answers([program, "shape_cases"], calls)) if said.startswith("units")]
    texts = {name: texts[name] for name in readable}
    print(f"{len(readable):,} of {len(names):,} files of {MODULE[:-1]} have units")
    paths = write(folder, texts)
    chosen = [paths[number * len(paths) // OF_JDK] for number in range(OF_JDK)] if len(paths) > OF_JDK else paths
    listed = jdk.write_list(folder, "jdk-list", chosen)
    options = ["-encoding", "UTF-8", "--patch-module", f"java.base={os.path.join(folder, MODULE)}"]
    said = Said(command(folder, tools if os.path.exists(tools) else None), folder, listed, options)
    return compare(f"{len(chosen):,} files of {MODULE[:-1]}", program, said, [entered(name, text) for name, text in texts.items()])


def main():
    parser = argparse.ArgumentParser(description=__doc__, formatter_class=argparse.RawDescriptionHelpFormatter)
    parser.add_argument("--program", default=PROGRAM, help="another build of the program")
    parser.add_argument("--sources", help="the archive src.zip of a JDK")
    parser.add_argument("count", nargs="?", type=int, default=300)
    parser.add_argument("seed", nargs="?", type=int, default=1)
    words = parser.parse_args()
    if not os.path.exists(words.program):
        sys.exit(f"there is no program {words.program}: tests/cases.py builds it")
    if not jdk.is_there():
        sys.exit("there is no JDK")
    with tempfile.TemporaryDirectory(prefix="apt-bench-annotations-") as folder:
        decided = compare_made(folder, words.program, words.count, words.seed)
        if words.sources:
            decided = compare_jdk(folder, words.program, words.sources) and decided
    sys.exit(0 if decided else 1)


if __name__ == "__main__":
    main()
