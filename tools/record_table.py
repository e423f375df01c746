#!/usr/bin/env python3
"""The table of the record of a build in docs/FORMATS.md, made of the forms of its definition.

    tools/record_table.py          prints the table
    tools/record_table.py --check  fails where docs/FORMATS.md has another one
    tools/record_table.py --write  puts the table there

A form is a line of the definition: parts joined by `then`, each with the field that the word before it takes from them, as
`file_of v = record { path = v.0.0.0.0; .. }` for five parts. Its row has the name of its type.
"""

import re
import sys
from pathlib import Path

ROOT = Path(__file__).resolve().parent.parent
DEFINITION = ROOT / "crates/record_forms/specs/RecordTable.antt"
FRAMES = ROOT / "crates/frame_forms/specs/FrameTable.antt"
DOCUMENT = ROOT / "docs/FORMATS.md"

HEAD = ["| Form | Fields |", "|---|---|"]

# Forms that are made of no others, the fields of the pairs that have none, and the pair that is used for two things.
PLAIN = {"u16": "u16", "u32": "u32", "text": "text", "octets": "bytes"}
PAIRS = {"option": ("key", "value")}
NAMED = "a text and bytes: the path of a file and its bytes, or the name of a unit and its shape"

# The number of a kind of messages, whose names stand in the comment on how many there are.
SAID_OF_KINDS = r"^-- what a message may be: (.*)\n.*\nmessage_kinds = (\d+)$"


def numbered(text, number_of):
    """The things that a definition counts, each with its number."""
    things = re.findall(rf"^{number_of} (\w+) = (\d+)$", text, re.M)
    return ", ".join(f"{number} {thing.lower()}" for thing, number in things)


class Definition:
    """The definition's text, and what its lines define."""

    def __init__(self):
        self.text = DEFINITION.read_text(encoding="utf-8")
        self.types = dict(re.findall(r"^(?:abbrev|unfoldable) pub (\w+) : Form (.+)$", self.text, re.M))

    def line(self, pattern):
        """The one line that is so."""
        found = re.findall(pattern, self.text, re.M)
        if len(found) != 1:
            sys.exit(f"{DEFINITION}: {len(found)} lines are as {pattern}")
        return found[0]

    def parts(self, name):
        """The parts of a form, and the word that makes a value of them, if there is one."""
        made = re.search(rf"^{name} =\s+made (\w+) \w+\s+\((.*)\)$", self.text, re.M)
        if made:
            return made[2].split(" then "), made[1]
        return self.line(rf"^{name} = (\w+(?: then \w+)*)$").split(" then "), None

    def fields(self, maker, count):
        """The fields that a word makes of so many parts, by the numbers of these."""
        pairs = re.findall(r"(\w+) = v((?:\.[01])+)", self.line(rf"^{maker} v = record {{ (.*) }}$"))
        places = {".0" * (count - 1): 0} | {".0" * (count - 1 - number) + ".1": number for number in range(1, count)}
        return {places[place]: field for field, place in pairs}

    def hello(self):
        """The fields of a Hello, in the order of their spelling."""
        spelling = self.line(r"^hello = record {\n  spelling = λ h\. (.*);$")
        items = re.findall(r"(list_form name_form|claim_number) h\.(\w+)", spelling)
        if len(items) != spelling.count("h."):
            sys.exit(f"{DEFINITION}: a Hello is spelled {spelling}")
        claim = f"byte ({numbered(FRAMES.read_text(encoding='utf-8'), 'claim_number')})"
        fields = ", ".join(f"{field} {claim if word == 'claim_number' else 'list text'}" for word, field in items)
        return f"{fields}: the fields of the frame Hello, by its rules"

    def kinds_of_messages(self):
        """The kinds of messages, each with its number."""
        said, count = self.line(SAID_OF_KINDS)
        kinds = [re.sub(r"^(or )?(an?\s*)?", "", kind) for kind in said.split(", ")]
        if len(kinds) != int(count):
            sys.exit(f"{DEFINITION}: {count} kinds of messages, and not {said}")
        return ", ".join(f"{number} {kind}" for number, kind in enumerate(kinds))

    def part(self, words, below):
        """What stands in the table for a part; the forms that have rows of their own are added to `below`."""
        word, _, others = words.partition(" ")
        if word == "names":
            return "ascending text"
        if word in ("list", "opt"):
            return f"{word} {self.part(others, below)}"
        if word == "ascending":
            return f"ascending {self.part(others.partition(' ')[2], below)}"
        if word == "u8_below":
            return f"byte ({self.kinds_of_messages()})"
        if word in PLAIN:
            return PLAIN[word]
        if word in PAIRS:
            parts, _ = self.parts(word)
            return "(" + ", ".join(f"{field} {PLAIN[part]}" for field, part in zip(PAIRS[word], parts, strict=True)) + ")"
        in_order = re.search(rf"^{word} = in_order (\w+) ", self.text, re.M)
        if in_order:
            return f"byte ({numbered(self.text, in_order[1])})"
        below.append(word)
        return self.row_name(word)

    def row_name(self, form):
        """The name of a form's row: that of its type, or its own."""
        of = self.types[form]
        return of if of.isidentifier() else form.capitalize()

    def row(self, form, below):
        """The row of a form; the forms that it names are added to `below`."""
        if form == "named":
            fields = NAMED
        elif form == "hello":
            fields = self.hello()
        else:
            parts, maker = self.parts(form)
            names = self.fields(maker, len(parts))
            fields = ", ".join(f"{names[number]} {self.part(part, below)}" for number, part in enumerate(parts) if part != "head")
        return f"| {self.row_name(form)} | {fields} |"

    def rows(self):
        """A row for each form that a record has, in the order in which they are named."""
        rows, seen, waiting = [], set(), ["record_form"]
        while waiting:
            form = waiting.pop(0)
            if form not in seen:
                seen.add(form)
                below = []
                rows.append(self.row(form, below))
                waiting = below + waiting
        return rows


def main():
    table = HEAD + Definition().rows()
    text = DOCUMENT.read_text(encoding="utf-8")
    start = text.index("\n".join(HEAD), text.index("**The record of a build**"))
    end = text.index("\n\n", start)
    if "--write" in sys.argv:
        DOCUMENT.write_text(text[:start] + "\n".join(table) + text[end:], encoding="utf-8")
    elif "--check" in sys.argv:
        if text[start:end] != "\n".join(table):
            sys.exit("docs/FORMATS.md: the table of the record is not that of its definition; run tools/record_table.py --write")
    else:
        print("\n".join(table))


if __name__ == "__main__":
    main()
