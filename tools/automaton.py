#!/usr/bin/env python3
"""Prints the table by which tokens are read, from the forms of the lexical grammar, and the tokens' numbers by their names.

    tools/automaton.py          prints the tables of crates/java_tokens/src/automaton.rt
    tools/automaton.py --check  compares them with those that stand there, the list of states in the proofs, and the numbers by name in the
                                definitions and in the code; status 1 where any differs
    tools/automaton.py --write  puts all in their place

The forms are read from specs/Literals.antt and the sorts of characters from specs/Sorts.antt. A state is a list of forms, one for each class of
texts: what may follow there. It begins with the forms themselves, and a character of a sort leads to what is left of each (its derivative, as
proofs/Derive.antt defines it). States are numbered in the order in which they are found, by the number of the state before and then by the sort.
That the table is right is proved and does not rest on this program.

A keyword or an operator has the number of its place in the table `keywords` or `operators` of the definitions. In crates/decl_grammar the definitions
name these numbers (specs/TokenNames.antt), and the code names the sorts of symbols that specs/Symbols.antt makes of them (src/sorts.rt).
"""
import re
import sys
from pathlib import Path

CRATES = Path(__file__).resolve().parent.parent / "crates"
CRATE = CRATES / "java_tokens"
CODE = CRATE / "src" / "automaton.rt"
STATES = CRATE / "proofs" / "TableLemmas.antt"
GRAMMAR = CRATES / "decl_grammar"
TOKEN_NAMES = GRAMMAR / "specs" / "TokenNames.antt"
SORT_NAMES = GRAMMAR / "src" / "sorts.rt"
CLASSES = ["separator", "word", "integer", "floating", "character", "text", "text_block"]
SORTS = 26
NO_CLASS = len(CLASSES)
WIDTH = 99
NAMES = {10: "LF", 13: "CR", 32: "SP"}
COMMENT = re.compile(r"--.*")
WORD = re.compile(r"\s*([()]|∷|\[\]|[A-Za-z_]\w*|\d+)")

# The names of the separators and operators. A keyword is its own name.
NAME_OF = {
    "_": "underscore",
    "(": "open_parenthesis",
    ")": "close_parenthesis",
    "{": "open_brace",
    "}": "close_brace",
    "[": "open_bracket",
    "]": "close_bracket",
    ";": "semicolon",
    ",": "comma",
    ".": "dot",
    "...": "ellipsis",
    "@": "at",
    "::": "double_colon",
    "=": "equals",
    ">": "greater_than",
    "<": "less_than",
    "!": "exclamation",
    "~": "tilde",
    "?": "question",
    ":": "colon",
    "->": "arrow",
    "==": "double_equals",
    ">=": "greater_or_equal",
    "<=": "less_or_equal",
    "!=": "not_equal",
    "&&": "double_ampersand",
    "||": "double_bar",
    "++": "increment",
    "--": "decrement",
    "+": "plus",
    "-": "minus",
    "*": "star",
    "/": "slash",
    "&": "ampersand",
    "|": "bar",
    "^": "caret",
    "%": "percent",
    "<<": "shift_left",
    ">>": "shift_right",
    ">>>": "unsigned_shift_right",
    "+=": "plus_equals",
    "-=": "minus_equals",
    "*=": "star_equals",
    "/=": "slash_equals",
    "&=": "ampersand_equals",
    "|=": "bar_equals",
    "^=": "caret_equals",
    "%=": "percent_equals",
    "<<=": "shift_left_equals",
    ">>=": "shift_right_equals",
    ">>>=": "unsigned_shift_right_equals",
}
# The names that the language of the definitions keeps for itself: they stand escaped there.
ESCAPED = {"do", "package"}

NOTHING, EMPTY = ("nothing",), ("empty",)


def one(sorts):
    return ("one", tuple(sorts))


def optional(form):
    return ("either", form, EMPTY)


def sorts_from(first, count):
    return list(range(first, first + count))


def without(left, sorts):
    return [sort for sort in sorts if sort not in left]


BUILT_IN = {
    "empty": EMPTY,
    "one": one,
    "many": lambda form: ("many", form),
    "optional": optional,
    "sorts_from": sorts_from,
    "without": without,
}


# ---- definitions


def definitions(path):
    """Each definition of a file that takes one line or more: its name, its parameters and the words of its value."""
    text = "\n".join(COMMENT.sub("", line) for line in path.read_text(encoding="utf-8").splitlines())
    found = {}
    for block in re.split(r"\n(?=(?:abbrev|unfoldable) )", text):
        lines = block.split("\n", 1)
        declared = re.match(r"(?:abbrev|unfoldable) (?:pub )?(\w+) :", lines[0])
        if declared and len(lines) == 2:
            heads, value = lines[1].split("=", 1)
            found[declared[1]] = heads.split()[1:], WORD.findall(value)
    return found


class Reader:
    """The value of an expression over forms and lists of sorts. `then` binds tighter than `or`, and both lean to the right, as `∷` does."""

    def __init__(self, known, words, given):
        self.known, self.words, self.given, self.at = known, words, given, 0

    def next(self):
        return self.words[self.at] if self.at < len(self.words) else None

    def takes(self, word):
        taken = self.next() == word
        self.at += taken
        return taken

    def either(self):
        form = self.both()
        return ("either", form, self.either()) if self.takes("or") else form

    def both(self):
        form = self.row()
        return ("both", form, self.both()) if self.takes("then") else form

    def row(self):
        first = self.applied()
        return [first, *self.row()] if self.takes("∷") else first

    def applied(self):
        value = self.atom()
        arguments = []
        while self.next() not in (None, ")", "∷", "or", "then"):
            arguments.append(self.atom())
        return value(*arguments) if arguments else value

    def atom(self):
        word = self.next()
        self.at += 1
        if word == "(":
            value = self.either()
            assert self.takes(")"), "a bracket is open"
            return value
        if word == "[]":
            return []
        if word.isdigit():
            return int(word)
        return self.given[word] if word in self.given else self.known.value(word)


class Known:
    """The values of the definitions, by name."""

    def __init__(self, path):
        self.definitions = definitions(path)

    def value(self, name):
        if name in BUILT_IN:
            return BUILT_IN[name]
        parameters, words = self.definitions[name]
        if parameters:
            return lambda *values: Reader(self, words, dict(zip(parameters, values))).either()
        return Reader(self, words, {}).either()


# ---- what is left of a form after a character (proofs/Derive.antt)


def nullable(form):
    match form:
        case ("empty",) | ("many", _):
            return True
        case ("either", f, g):
            return nullable(f) or nullable(g)
        case ("both", f, g):
            return nullable(f) and nullable(g)
    return False


def either_of(f, g):
    if f == NOTHING:
        return g
    return f if g in (NOTHING, f) else ("either", f, g)


def both_of(f, g):
    if NOTHING in (f, g):
        return NOTHING
    return g if f == EMPTY else ("both", f, g)


def derive(sort, form):
    match form:
        case ("one", sorts):
            return EMPTY if sort in sorts else NOTHING
        case ("either", f, g):
            return either_of(derive(sort, f), derive(sort, g))
        case ("both", f, g):
            return either_of(both_of(derive(sort, f), g), derive(sort, g) if nullable(f) else NOTHING)
        case ("many", f):
            return both_of(derive(sort, f), form)
    return NOTHING


# ---- the table


def sort_rows():
    """The characters that have a sort of their own or with a few others, with their sorts, in order."""
    text = COMMENT.sub("", (CRATE / "specs" / "Sorts.antt").read_text(encoding="utf-8"))
    numbers = {name: int(number) for name, number in re.findall(r"^(\w+) = (\d+)$", text, re.MULTILINE)}
    lists = dict(re.findall(r"^(\w+) = ((?:\d+ ∷ )+)\[\]$", text, re.MULTILINE))
    rows = []
    body = text[text.index("\nsort_rows =") :]
    body = body[: body.index("\n\n")]
    for codes, numbered, named, sort in re.findall(r'\((?:codes "((?:\\.|[^"\\])*)"|((?:\d+ ∷ )+)\[\]|(\w+)), (\w+)\)', body):
        if codes:
            characters = [ord(character) for character in re.sub(r"\\(.)", r"\1", codes)]
        else:
            characters = [int(number) for number in re.findall(r"\d+", numbered or lists[named])]
        rows.append((characters, numbers[sort] if sort in numbers else int(sort)))
    return rows


def ascii_sorts(rows):
    first = {}
    for characters, sort in rows:
        for character in characters:
            first.setdefault(character, sort)
    return [first[character] for character in range(128)]


def automaton():
    """The steps of each state, the class of each, and the pair of a state and a sort by which each but the first is found."""
    known = Known(CRATE / "specs" / "Literals.antt")
    states = [tuple(known.value(name) for name in CLASSES)]
    numbers = {states[0]: 0}
    steps, pairs = [], []
    for at, here in enumerate(states):
        row = []
        for sort in range(SORTS):
            after = tuple(derive(sort, form) for form in here)
            if after not in numbers:
                numbers[after] = len(states)
                states.append(after)
                pairs.append((at, sort))
            row.append(numbers[after])
        steps.append(row)
    classes = []
    for here in states:
        ending = [at for at, form in enumerate(here) if nullable(form)]
        assert len(ending) <= 1, "a text has two classes"
        classes.append(ending[0] if ending else NO_CLASS)
    return states, steps, classes, pairs


def filled(numbers):
    lines = [""]
    for number in numbers:
        if lines[-1] and len(lines[-1]) + len(f" {number},") > WIDTH - 4:
            lines.append("")
        lines[-1] += f"{' ' if lines[-1] else ''}{number},"
    return [f"    {line}" for line in lines]


def shown(characters):
    """A text, where a control character and a space stand as names with a blank on either side."""
    text = "".join(f" {NAMES[character]} " if character in NAMES else chr(character) for character in characters)
    return re.sub("  +", " ", text).strip()


def texts(states, pairs, rows):
    """One of the texts that lead to each state: that of the state before with the first character of the sort."""
    characters = {}
    for row, sort in rows:
        characters.setdefault(sort, row[0])
    stuck = states.index(tuple(NOTHING for _ in CLASSES))
    leading, shortest = {0: "nothing"}, {0: []}
    for at, (before, sort) in enumerate(pairs, 1):
        shortest[at] = [*shortest[before], characters.get(sort, 0)]
        leading[at] = "no text goes on" if at == stuck else shown(shortest[at])
    return leading


def tables():
    """The lines of the three tables of the code, and the line of the pairs of the proof."""
    states, steps, classes, pairs = automaton()
    rows = sort_rows()
    leading = texts(states, pairs, rows)
    lines = [f"pub const STEPS: [u8; {len(states) * SORTS}] = ["]
    for at, row in enumerate(steps):
        lines += [f"    // {at}: {leading[at]}", *filled(row)]
    lines += ["];", "", f"/// For each state the class of the texts that lead to it, {NO_CLASS} where they are none."]
    lines += [f"pub const CLASSES: [u8; {len(states)}] = [", *filled(classes), "];", ""]
    lines += ["/// The sort of each ASCII character.", "pub const ASCII_SORTS: [u8; 128] = [", *filled(ascii_sorts(rows)), "];"]
    return "\n".join(lines), "pairs = " + " ∷ ".join(f"({before}, {sort})" for before, sort in pairs) + " ∷ []"


# ---- the tokens' numbers by name


def table_texts(path, name):
    """The texts of a table of the definitions, in its order."""
    text = path.read_text(encoding="utf-8")
    body = text[text.index(f"\n{name} =") :]
    return re.findall(r'codes "([^"]+)"', body[: body.index("[]")])


def token_tables():
    """The keywords and the operators, each with its name, in the order of their numbers."""
    keywords = table_texts(CRATES / "apt_base" / "specs" / "Identifiers.antt", "keywords")
    operators = table_texts(CRATE / "specs" / "Words.antt", "operators")
    return [(text, NAME_OF.get(text, text)) for text in keywords], [(text, NAME_OF[text]) for text in operators]


def token_names():
    """The file of the numbers by name for the definitions."""
    lines = [
        "-- The keywords (JLS 3.9) and the separators and operators (JLS 3.11, 3.12) by name, each with its number in the table of java_tokens/specs/Words.",
        "-- Written by tools/automaton.py from these tables. It refuses a number that is not the table's.",
        "use Rattle.std.specs.Prelude.{ℕ}",
    ]
    for heading, table in zip(("keywords", "separators and operators"), token_tables()):
        lines += ["", f"-- ---- {heading}"]
        for number, (text, name) in enumerate(table):
            name = f"«{name}»" if name in ESCAPED else name
            lines += ["", *([] if name == text else [f"-- `{text}`"]), f"abbrev pub {name} : ℕ", f"{name} = {number}"]
    return "\n".join(lines) + "\n"


def sort_names():
    """The file of the sorts of symbols by name for the code."""
    symbols = (GRAMMAR / "specs" / "Symbols.antt").read_text(encoding="utf-8")
    first_word, first_operator = (int(re.search(rf"^{kind} n = (\d+) \+ n$", symbols, re.MULTILINE)[1]) for kind in ("word", "operator"))
    lines = [
        "// The sorts of symbols by name, with the numbers of `specs/Symbols`.",
        "// Written by tools/automaton.py from the tables of the definitions. It refuses a number that is not the table's.",
    ]
    for remark, name, number in re.findall(r"^-- (.+)\nabbrev pub (\w+) : ℕ\n\2 = (\d+)$", symbols, re.MULTILINE):
        lines += ["", f"/// {remark[0].upper()}{remark[1:]}.", f"pub const {name.upper()}: u8 = {number};"]
    keywords, operators = token_tables()
    for kind, first, table in (("keyword", first_word, keywords), ("operator", first_operator, operators)):
        for number, (text, name) in enumerate(table, first):
            lines += ["", f"/// The {kind} `{text}`.", f"pub const {name.upper()}: u8 = {number};"]
    return "\n".join(lines) + "\n"


# ---- the files


def parts(text, begin, end):
    """A text before, at and behind a part that begins and ends so."""
    at = text.index(begin)
    to = text.index(end, text.index("ASCII_SORTS: ", at) if "ASCII_SORTS: " in text else at) + len(end)
    return text[:at], text[at:to], text[to:]


def main():
    code, pairs = tables()
    if sys.argv[1:] == []:
        print(code)
        return 0
    status = 0
    for path, begin, end, wanted in ((CODE, "pub const STEPS", "];", code), (STATES, "pairs = ", "[]", pairs)):
        before, stands, behind = parts(path.read_text(encoding="utf-8"), begin, end)
        if sys.argv[1:] == ["--write"]:
            path.write_text(before + wanted + behind, encoding="utf-8")
        elif stands != wanted:
            print(f"{path.relative_to(CRATES)} is not what the forms give")
            status = 1
    for path, wanted in ((TOKEN_NAMES, token_names()), (SORT_NAMES, sort_names())):
        if sys.argv[1:] == ["--write"]:
            path.write_text(wanted, encoding="utf-8")
        elif path.read_text(encoding="utf-8") != wanted:
            print(f"{path.relative_to(CRATES)} is not what the tables give")
            status = 1
    return status


if __name__ == "__main__":
    sys.exit(main())
