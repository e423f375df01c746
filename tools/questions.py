#!/usr/bin/env python3
"""The table of a child's questions in docs/PROTOCOL.md, made of the rows of its definition.

    tools/questions.py          prints the table
    tools/questions.py --check  fails where docs/PROTOCOL.md has another one
    tools/questions.py --write  puts the table there
"""

import re
import sys
from pathlib import Path

ROOT = Path(__file__).resolve().parent.parent
DEFINITION = ROOT / "crates/frame_forms/specs/QuestionTable.antt"
DOCUMENT = ROOT / "docs/PROTOCOL.md"

HEAD = ["| Tag | Question | Fields | Asks for | Reply | Required of the fields |", "|---|---|---|---|---|---|"]

# the form of each argument, by its name
FORMS = {
    "name": "text",
    "element": "r",
    "mirror": "m",
    "one": "m",
    "other": "m",
    "annotation": "u16",
    "overrider": "r",
    "overridden": "r",
    "in_type": "r",
    "container": "m",
    "arguments": "list m",
}

# what is wanted, in words
WANTED = {
    "tt": "",
    "nothing_wanted": "",
    "element.Any": "",
    "element.TypeElement": "a type",
    "element.Executable": "an executable",
    "element.Parameterizable": "a type or executable",
    "element.Method": "a method",
    "element.Field": "a field",
    "element.TypeParameter": "a type parameter",
    "mirror.Any": "",
    "mirror.NoPackage": "no package",
    "mirror.NoPackageOrExecutable": "no executable, no package",
    "mirror.Executable": "executables",
    "mirror.Primitive": "a primitive type",
    "mirror.PrimitiveBox": "one of the eight boxes",
    "mirror.ArrayItem": "no executable, package or wildcard, not Void, not Nothing",
    "of_an_annotation": "an element with that annotation",
    "methods_and_type": "a method, a method, a type",
    "of_a_member": "a declared type, and a member of its element or of a supertype's, no type parameter",
    "as_many_arguments": "a type, with as many as it has parameters, or none",
}

ROW = re.compile(r'^asked_\w+(?: \w+)? = ask (\d+) \(codes "(\w+)"\) (\S+) (\w+)$')


def rows():
    """The rows of the definition, by their tags."""
    found = {}
    comment, goes_on = "", False
    for line in DEFINITION.read_text(encoding="utf-8").splitlines():
        if line.startswith("-- "):
            comment = f"{comment} {line[3:]}" if goes_on else line[3:]
            goes_on = True
            continue
        goes_on = False
        row = ROW.match(line)
        if row:
            tag, name, wanted, reply = row.groups()
            names, _, asks = comment.rpartition(": ") if ": " in comment else ("", "", comment)
            fields = ", ".join(f"{each} {FORMS[each]}" for each in names.split(", ")) if names else "none"
            found[int(tag)] = f"| {tag} | {name} | {fields} | {asks} | {reply.capitalize()} | {WANTED[wanted]} |".replace("|  |", "| |")
    return [found[tag] for tag in sorted(found)]


def main():
    table = HEAD + rows()
    text = DOCUMENT.read_text(encoding="utf-8")
    start = text.index(HEAD[0])
    end = text.index("\n\n", start)
    if "--write" in sys.argv:
        DOCUMENT.write_text(text[:start] + "\n".join(table) + text[end:], encoding="utf-8")
    elif "--check" in sys.argv:
        if text[start:end] != "\n".join(table):
            sys.exit("docs/PROTOCOL.md: the table of questions is not that of the definition; run tools/questions.py --write")
    else:
        print("\n".join(table))


if __name__ == "__main__":
    main()
