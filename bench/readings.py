#!/usr/bin/env python3
"""Compares what the reader of Java declarations reads with what the JDK's own parser reads, over texts that are made.

    bench/readings.py [--program PATH] [COUNT] [SEED]

COUNT compilation units (2,000 where it is left out) are made from SEED (1) by the grammar of declarations of JLS 11, ordinary
ones and files package-info.java, and of each some texts in which one or two tokens are deleted, doubled, swapped, replaced,
put in, or cut off with all behind them. Each is read by the table `shape_cases` of the program of cases, which is out/cases/cases
unless another build of it is named, and by the parser (com.sun.source, `--release 11`).

Bodies are passed over by the program, and initialisers and values mostly, so most bodies are empty and most values short. What the
parser refuses and the program reads is only counted, by the parser's code. What the program refuses, and the parser reads or refuses
only at a later token, has to fall under a rule of RULES, each of which is a sentence of the JLS. Tables say how many there are of
each.

The exit status is 0 where both read each whole unit and each such text falls under a rule, else 1; the first of those that do not
are printed, with both answers.
"""
import argparse
import collections
import os
import random
import re
import subprocess
import sys
import tempfile

import jdk

PROGRAM = os.path.join(jdk.HERE, "..", "out", "cases", "cases")

# How many texts are made of each unit, and how many that no rule names are printed.
CHANGES, TOLD = 3, 20

# For a JVM that runs for less than a minute.
QUICK_START = ("-XX:+UseSerialGC", "-XX:TieredStopAtLevel=1")

# The grammar in the notation of the JLS, with brackets and braces of the language in quotes. Modifiers stand in few orders, since none
# may come twice. All types have one name, since a constructor has that of its type. What is thrown has no type arguments and an import
# more than one name, as the JDK's parser wants it.
GRAMMAR_TEXT = """
Unit: [Package] {Import} Type {Type} [;] | Package Type | Import Import Type
Info: {Annotation} Package {Import} [;] | Annotation Annotation Package | {Import}
Package: package Name ;
Import: import [static] Name . Identifier [. *] ;
Type: Class | Interface | Enum | AnnotationInterface
Class: Modifiers class C [TypeParameters] [extends {Annotation} ClassType] [implements Types] ClassBody
Interface: Modifiers interface C [TypeParameters] [extends Types] '{' InterfaceMembers '}'
Enum: Modifiers enum C [implements Types] '{' [Constant {, Constant}] [,] [; ClassMembers] '}'
AnnotationInterface: Modifiers @ interface C '{' AnnotationMembers '}'
ClassBody: '{' ClassMembers '}'
Body: '{' '}' | '{' Field '}' | '{' Method '}'
ClassMembers: | ClassMember | ClassMember | ClassMember ClassMember | ClassMember ClassMember ClassMember
InterfaceMembers: | InterfaceMember | InterfaceMember InterfaceMember
AnnotationMembers: | AnnotationMember | AnnotationMember AnnotationMember
ClassMember: Field | Field | Method | Method | Constructor | Block | static Block | ; | Type
InterfaceMember: ConstantField | Modifiers Method | default Method | Type | ;
AnnotationMember: Element | Element | ConstantField | Type | ;
Constant: {Annotation} Identifier [( [Expression {, Expression}] )] [Body]
Field: FieldModifiers PlainType Declarator {, Declarator} ;
ConstantField: Modifiers PlainType Identifier [Dims] = Initializer {, Identifier [Dims] = Initializer} ;
Element: Modifiers PlainType Identifier '(' ')' [Dims] [default Value] ;
Declarator: Identifier [Dims] [= Initializer]
Method: MethodModifiers [TypeParameters {Annotation}] MethodHeader [throws Thrown {, Thrown}] MethodBody
MethodHeader: void Identifier Parameters | PlainType Identifier Parameters [Dims]
MethodBody: Block | Block | ;
Constructor: Modifiers [TypeParameters] C ConstructorParameters [throws Thrown {, Thrown}] Block
Block: '{' '}' | '{' '}' | '{' '}' | '{' return Literal ; '}'
Parameters: ( ) | ( ListedParameters ) | ( {Annotation} C this {, Parameter} )
ConstructorParameters: ( ) | ( ListedParameters ) | ( {Annotation} C C . this {, Parameter} )
ListedParameters: Parameter {, Parameter} | {Parameter ,} VariableModifiers PlainType {Annotation} ... Identifier
Parameter: VariableModifiers PlainType Identifier [Dims]
Thrown: {Annotation} TypeName [. TypeName]
Modifiers: | {Annotation} | {Annotation} public [Annotation] [abstract] | [static] [Annotation] private [final] | protected [strictfp]
FieldModifiers: Modifiers | [volatile] [transient] Modifiers
MethodModifiers: | {Annotation} | [synchronized] {Annotation} [native]
VariableModifiers: | {Annotation} | [Annotation] final [Annotation]
PlainType: Primitive [Dims] | ClassType [Dims]
ClassType: TypeName [TypeArguments] {. {Annotation} TypeName [TypeArguments]}
BareType: TypeName [TypeArguments] {. TypeName [TypeArguments]}
ReferenceType: {Annotation} ClassType [Dims] | {Annotation} Primitive Dims
Types: {Annotation} ClassType {, {Annotation} ClassType}
TypeArguments: < TypeArgument {, TypeArgument} >
TypeArgument: ReferenceType | ReferenceType | {Annotation} ? [extends ReferenceType | super ReferenceType]
TypeParameters: < TypeParameter {, TypeParameter} >
TypeParameter: {Annotation} T [extends {Annotation} ClassType {& {Annotation} ClassType}]
Dims: {Annotation} '[' ']' {{Annotation} '[' ']'}
Annotation: @ Name | @ Name ( ) | @ Name ( Value ) | @ Name ( Identifier = Value {, Identifier = Value} )
Value: Expression | Expression | Annotation | '{' [Value {, Value}] [,] '}'
Initializer: Expression | Expression | '{' [Initializer {, Initializer}] [,] '}' | BareType :: new | new ClassType ( ) [Body]
Expression: Simple | Simple | Name + Literal | Name < Literal | ( Expression ) | Name ? Literal : Name | ( int ) Name | ClassLiteral
Simple: Literal | Name | - Literal
ClassLiteral: void . class | Name {'[' ']'} . class | Primitive {'[' ']'} . class
Literal: 1 | 0x1F | 1.5 | "s" | true | null
Name: Identifier {. Identifier}
Identifier: a | b | c | d | x | y | z | record | module | with
TypeName: A | B | C | D | T | open
Primitive: int | long | boolean | double
"""

# What is put into a text, or stands in the place of a token.
PHRASES = [phrase.split(" ") for phrase in (
    "class|interface|enum|@|@ interface|{|}|(|)|[|]|;|,|.|...|=|<|>|>>|?|&|::|->|*|extends|implements|super|throws|static|default|"
    "final|public|abstract|synchronized|native|transient|void|int|this|import|package|module|open|new|instanceof|A|b|x|1|\"s\"|"
    "record|var|-|:|[ ]|( )|{ }|@ A|@ A ( )|< T >|< >|>=|import b ;|throws B|extends A|default 1").split("|")]

# Past this depth the first alternative is taken, and what may be left out is.
DEEPEST = 14
SHARES = {"[": 0.25, "{": 0.2}


# ---- the texts


def parts_of(words, end):
    """The alternatives up to a bracket, each a list of words and of groups: what opens the group, and its alternatives."""
    alternatives = [[]]
    while words:
        word = words.pop(0)
        if word == end:
            break
        if word in ("[", "{"):
            alternatives[-1].append((word, parts_of(words, "]" if word == "[" else "}")))
        elif word == "|":
            alternatives.append([])
        else:
            alternatives[-1].append(word.strip("'"))
    return alternatives


def read_grammar(text):
    rules = (line.split(": ", 1) for line in text.strip().splitlines())
    return {name: parts_of(re.findall(r"'.'|[\[\]{}]|[^\s\[\]{}]+", said), None) for name, said in rules}


GRAMMAR = read_grammar(GRAMMAR_TEXT)


def made(chance, alternatives, depth=0):
    """The tokens of one of the alternatives."""
    tokens = []
    for part in chance.choice(alternatives) if depth < DEEPEST else alternatives[0]:
        if isinstance(part, str):
            tokens += made(chance, GRAMMAR[part], depth + 1) if part in GRAMMAR else [part]
            continue
        opening, inside = part
        while depth < DEEPEST and chance.random() < SHARES[opening]:
            tokens += made(chance, inside, depth)
            if opening == "[":
                break
    return tokens


def with_joined_ends(chance, tokens):
    """The same with some of the `>` that stand together as one token."""
    joined = []
    for token in tokens:
        if token == ">" and joined and joined[-1] in (">", ">>") and chance.random() < 0.5:
            joined[-1] += token
        else:
            joined.append(token)
    return joined


def changed(chance, tokens):
    """The same with one change."""
    at = chance.randrange(len(tokens))
    before, token, behind = tokens[:at], tokens[at:at + 1], tokens[at + 1:]
    return chance.choice([
        lambda: before + behind,
        lambda: before + 2 * token + behind,
        lambda: before + behind[:1] + token + behind[1:],
        lambda: before + chance.choice(PHRASES) + behind,
        lambda: before + chance.choice(PHRASES) + token + behind,
        lambda: before,
    ])() or token


def make_texts(count, seed):
    """The whole units and the changed ones: of each whether it is a file package-info.java, and its tokens."""
    chance, whole, others = random.Random(seed), {}, {}
    while len(whole) < count:
        info = chance.random() < 0.1
        tokens = with_joined_ends(chance, made(chance, GRAMMAR["Info" if info else "Unit"])) or [";"]
        whole[info, tuple(tokens)] = None
        for _ in range(CHANGES):
            text = changed(chance, tokens)
            others[info, tuple(changed(chance, text) if chance.random() < 0.25 else text)] = None
    return list(whole), [text for text in others if text not in whole]


# ---- both answers


class Reading:
    """The answer to a text: whether it is read, and else the place of its fault, as the number of a token, and what was said."""

    def __init__(self, text, said, code, offset):
        self.is_read = offset is None
        self.said = said
        self.code = code
        self.place = None if self.is_read else place_of(text[1], offset)


def place_of(tokens, offset):
    """The number of the token in which an offset lies, or before which it does."""
    end = -1
    for number, token in enumerate(tokens):
        end += 1 + len(token)
        if offset < end:
            return number
    return len(tokens)


def in_words(tokens):
    return "".join(c if c.isascii() and c.isalnum() else f"%{ord(c):02X}" for c in " ".join(tokens))


def lines_of(command, lines):
    run = subprocess.run(command, input="".join(f"{line}\n" for line in lines), stdout=subprocess.PIPE, encoding="ascii", check=False)
    answers = run.stdout.splitlines()
    if len(answers) != len(lines):
        sys.exit(f"{command[0]} ended with {run.returncode} and has {len(answers)} answers to {len(lines)} texts")
    return answers


def readings_of_program(program, texts):
    readings = []
    calls = [f"{'info_limits' if info else 'limits'} {in_words(tokens)}" for info, tokens in texts]
    for text, line in zip(texts, lines_of([program, "shape_cases"], calls)):
        said = line.partition(" = ")[2]
        code, _, number = said.partition(" ")
        if code not in ("units", "bad"):
            sys.exit(f"{program} answers {said!r} to {' '.join(text[1])}")
        readings.append(Reading(text, said, code, int(number) if code == "bad" else None))
    return readings


def readings_of_jdk(folder, texts):
    subprocess.run(["javac", "-d", folder, os.path.join(jdk.HERE, "ReadingBench.java")], check=True)
    lines = [f"{'package-info' if info else 'C'}.java {' '.join(tokens)}" for info, tokens in texts]
    readings = []
    for text, said in zip(texts, lines_of(jdk.java(folder, [*QUICK_START, "ReadingBench"]), lines)):
        code, _, rest = said.partition(" ")
        offset = None if code == "read" else int(rest.partition(" ")[0])
        # (what is missing at the end is reported at the last token)
        readings.append(Reading(text, said, code, sys.maxsize if code == "premature.eof" else offset))
    return readings


# ---- the place of a fault, as the rules see it


def is_of_annotation(tokens, bracket):
    return re.search(r"@ \w+( \. \w+)* $", " ".join(tokens[:bracket]) + " ") is not None


def without_annotations(words):
    """The same without whole annotations; in the brackets of one no others are looked for."""
    left, at = [], 0
    while at < len(words):
        name = re.match(r"@ (?!interface )\w+( \. \w+)* ", " ".join(words[at:]) + " ")
        if name is None:
            left.append(words[at])
            at += 1
            continue
        at += name.group().count(" ")
        depth = 0
        while at < len(words) and (depth > 0 or words[at] == "("):
            depth += (words[at] in ("(", "{")) - (words[at] in (")", "}"))
            at += 1
            if depth == 0:
                break
    return left


def kind_of(tokens, brace):
    """Which kind of type has its members in these braces, by the words before them."""
    heading = re.split("[;{}]", " ".join(without_annotations(tokens[:brace])))[-1]
    found = re.search(r"@ interface\b|\bclass\b|\binterface\b|\benum\b", heading)
    return found.group().replace(" ", "") if found else "braces"


def front_of(info, tokens, place):
    """What the fault lies in, with the words of that before the fault, and behind a bar the word that is the fault.

    It lies in `annotation`, behind the `(` of one, or in a declaration in a `class`, `interface`, `enum`, `@interface`, `file` or
    `info`. Of a declaration whole annotations are left out, and a `;` outside all types, which declares nothing, stays.
    """
    opened, begin = [], 0
    for number, token in enumerate(tokens[:place]):
        if token in ("(", "[", "{"):
            opened.append(number)
        elif token in (")", "]", "}") and opened:
            opened.pop()
        is_alone = not opened and set(tokens[begin:number + 1]) == {";"}
        if token in (";", "{", "}") and not is_alone and all(tokens[each] == "{" for each in opened):
            begin = number + 1
    word = tokens[place] if place < len(tokens) else ""
    if opened and is_of_annotation(tokens, opened[-1]):
        return " ".join(["annotation", *tokens[opened[-1] + 1:place], "|", word])
    braces = [number for number in opened if tokens[number] == "{"]
    kind = kind_of(tokens, braces[-1]) if braces else "info" if info else "file"
    return " ".join([kind, *without_annotations(tokens[begin:place]), "|", word])


MODIFIER = "(?:public|protected|private|static|abstract|final|native|synchronized|transient|volatile|strictfp|default)"
PRIMITIVE = "(?:boolean|byte|char|short|int|long|float|double)"

# What the JDK's parser goes past though the grammar has it not: the section of the JLS with what it says, and expressions that find it in
# the front of a fault.
RULES = {
    "7.3: imports stand before all types, and a `;` counts as one": [r"^(file|info) (; )+\| import$"],
    "7.3: an ordinary compilation unit declares no module": [rf"^(file|info) (; )*({MODIFIER} )*(open )?\| (module|open)$"],
    "7.4.1: annotations of a package stand in its file package-info.java": [r"^file \| package$"],
    "7.4.1: a file package-info.java has a package and imports, and here no types": [
        rf"^info (; )*({MODIFIER} )*(@ )?\| ({MODIFIER}|class|interface|enum|@|)$"],
    "7.6: behind modifiers a type stands, and none begins with a name": [
        rf"^file (; )*({MODIFIER} )*\| $",
        rf"^(file|info) (; )*({MODIFIER} )*\| (?!({MODIFIER}|class|interface|enum|import|package)$)\w+$"],
    "4.3, 4.4, 8.1, 8.4.6: a supertype, a bound and what is thrown are class types, without brackets": [
        r" (extends|implements|throws|&) .*(\w|>) \| [\[@]$"],
    "4.3: a primitive type is no class type": [rf"(extends|implements|throws|,|&|\.) \| {PRIMITIVE}$"],
    "4.3: behind brackets stand no names, no arguments and, in a heading, no `::`": [
        r"\] \| (\.|<)$", r" (extends|implements|throws) .*\] \| ::$"],
    "4.3: a primitive type has no member types": [rf"{PRIMITIVE} \| \.$"],
    "4.3: void is no type": [
        r"(<|,|&|\.|extends|implements|super|throws) \| void$", r"\( (.*, )?(final )*\| void$"],
    "4.5.1: a type argument is no primitive type": [rf"(<|,|\?|extends|super) {PRIMITIVE} \| (,|&|\.|>+)$"],
    "8.4, 9.4: a method has no default value": [r"^(class|interface|enum) .*\) (\[ \] )*(throws .* )?\| default$"],
    "8.4.1: a parameter has no modifier but final": [rf"\( (.*, )?(final )*\| {MODIFIER}$"],
    "8.4.1: a receiver stands first and has a type and no modifier, and no parameter has names before its own": [
        r"\( .*(\b(?!final )\w+|[\]>]) \w+ \. \| (?!this)", r", .*\| this$", r"\( final .*\| this$",
        r"\( .*(\b(?!final )\w+|[\]>]) \w+ \| \.$"],
    "8.4.1: a parameter of any number is no receiver, and nothing stands behind its name": [r"\.\.\. (\w+ \| [\[@]|\| this)$"],
    "8.6, 8.7: an initialiser has no modifier but static": [rf"^(class|enum) ({MODIFIER} )+\| \{{$"],
    "3.9: no name of a type or an annotation has `this`": [r"\( (.*@ )?((\w+ (< .* >+ )?)?\. )*\| this$"],
    "8.8: a constructor has a body": [rf"^(class|enum) ({MODIFIER} )*(< .*>+ )?\w+ \( .*\) (throws .* )?\| ;$"],
    "9.6: an annotation type has no type parameters and extends nothing": [r"@ interface \w+ (< .* )?\| (<|extends)$"],
    "9.6.1: an element has no type parameters, and a type": [rf"^@interface ({MODIFIER} )*\| (void|<)$"],
    "9.6.1: an element has no parameters, throws nothing and has no body": [
        r"^@interface .*\( \| (?!\))", r"^@interface .*\) (\[ \] )*\| (throws|\{)$"],
    "15.8: no expression begins with type arguments": [r"= < .*\| "],
    "15.13: behind a type with arguments stands `::` in a value": [r"^annotation .*\w < .*, .*\| (?!::)"],
    "9.7: an annotation has one value without a name, or values with names": [
        r"^annotation (?!\w+ = ).*\| ,$", r"^annotation \w+ = .*, (?!\w+ = )(\w+ )?\| "],
}


# ---- the comparison


def rule_of(text, our):
    front = front_of(*text, our.place)
    return next((f"JLS {rule}" for rule, patterns in RULES.items() if any(re.search(each, front) for each in patterns)), None)


def tell(text, our, their):
    print(f"  {'package-info.java: ' if text[0] else ''}{' '.join(text[1])}")
    print(f"    the program: {our.said}; the JDK: {their.said}")


BOTH, PARSER_ALONE, PARSER_LATER, PROGRAM_ALONE = TITLES = (
    "changed texts to which both have one answer, or the program refuses later", "the JDK's parser alone reads, by the rule",
    "the JDK's parser refuses at a later token, by the rule", "the program alone reads, by the code of the JDK's parser")


def row_of(text, our, their):
    """The table in which a changed text counts, and its row there; None for the row where no rule says why."""
    if our.is_read:
        return (BOTH, "both read") if their.is_read else (PROGRAM_ALONE, their.code)
    if their.is_read:
        return PARSER_ALONE, rule_of(text, our)
    if their.code == "fails":
        return BOTH, "both refuse, the parser without a place"
    if our.place < their.place:
        return PARSER_LATER, rule_of(text, our)
    return BOTH, "both refuse, at the same token" if our.place == their.place else "both refuse, the program at a later token"


def report(whole, others):
    """Prints the tables of all texts with both answers; whether all is as it should be."""
    unread = [each for each in whole if not (each[1].is_read and each[2].is_read)]
    tables, ruleless = {title: collections.Counter() for title in TITLES}, []
    for each in others:
        title, row = row_of(*each)
        if row is None:
            ruleless.append(each)
        else:
            tables[title][row] += 1
    print(f"units: {len(whole):,}, of which both read {len(whole) - len(unread):,}")
    for title, rows in tables.items():
        print(f"{title}: {sum(rows.values()):,}")
        for row, count in rows.most_common():
            print(f"  {count:6,} {row}")
    for title, texts in (("whole units that are not read by both", unread), ("texts that fall under no rule", ruleless)):
        print(f"{title}: {len(texts):,}")
        for each in texts[:TOLD]:
            tell(*each)
    return not unread and not ruleless


def main():
    parser = argparse.ArgumentParser(description=__doc__, formatter_class=argparse.RawDescriptionHelpFormatter)
    parser.add_argument("--program", default=PROGRAM, help="another build of the program")
    parser.add_argument("count", nargs="?", type=int, default=2_000)
    parser.add_argument("seed", nargs="?", type=int, default=1)
    words = parser.parse_args()
    if not os.path.exists(words.program):
        sys.exit(f"there is no program {words.program}: tests/cases.py builds it")
    if not jdk.is_there():
        sys.exit("there is no JDK")
    whole, others = make_texts(words.count, words.seed)
    texts = whole + others
    with tempfile.TemporaryDirectory(prefix="apt-bench-readings-") as folder:
        answered = list(zip(texts, readings_of_program(words.program, texts), readings_of_jdk(folder, texts)))
    sys.exit(0 if report(answered[:len(whole)], answered[len(whole):]) else 1)


if __name__ == "__main__":
    main()
