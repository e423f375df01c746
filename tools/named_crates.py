#!/usr/bin/env python3
"""Says where crates.txt and the files of a crate name different crates.

A crate that a file names and that the crate's line of crates.txt does not have stops `rt ci` only when it comes to
the crate. This looks at all crates in a second. A name that only the line has is said too, and counts as no fault.
"""
import os
import re
import sys

from laid_out import ROOT, listed_crates

NAMED = re.compile(r"\bRattle\.([a-z_0-9]+)\.|\b([a-z_0-9]+)::")
FOLDERS = ("src", "specs", "proofs")


def named_in(crate):
    """Each first name of a path in the files of a crate."""
    named = set()
    for folder in FOLDERS:
        for at, _, files in os.walk(os.path.join(ROOT, "crates", crate, folder)):
            for file in files:
                with open(os.path.join(at, file), encoding="utf-8") as text:
                    named.update(one or other for one, other in NAMED.findall(text.read()))
    return named


def main():
    crates = listed_crates()
    known = set(crates).union(*(uses for _, uses in crates.values()))
    missing = 0
    for crate, (_, uses) in crates.items():
        named = named_in(crate) & known - {crate}
        for name in sorted(named - set(uses)):
            missing += 1
            print(f"{crate} names {name}, which its line of crates.txt does not have")
        for name in sorted(set(uses) - named):
            print(f"{crate} does not name {name}, which its line has")
    sys.exit(missing != 0)


if __name__ == "__main__":
    main()
