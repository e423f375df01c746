"""A program whose sources end in .rattle, laid out in a temporary repository with the crates that it stands on.

The kit takes a file of the language only in a crate that crates.txt lists, and proves each of those. So the sources of
programs that are no part of the library end in .rattle where they stand, and get the ending .rt here.
"""
import hashlib
import os
import shutil

ROOT = os.path.join(os.path.dirname(os.path.abspath(__file__)), "..")


def listed_crates():
    """Each crate of the repository with its line and the crates and libraries that it uses."""
    crates = {}
    with open(os.path.join(ROOT, "crates.txt"), encoding="utf-8") as file:
        for line in file:
            line = line.partition("#")[0].strip()
            if line:
                called, _, uses = line.partition(":")
                crates[called.split()[0]] = line, uses.split()
    return crates


def crates_below(used):
    """The lines of the crates at and below those that a program uses, by their names."""
    listed, below, left = listed_crates(), {}, list(used)
    while left:
        name = left.pop()
        if name in listed and name not in below:
            below[name], uses = listed[name]
            left.extend(uses)
    return below


def lay_out(folder, name, sources, used):
    """Makes a repository of a program with these sources and the crates below it, and gives the folder of the program's crate."""
    below = crates_below(used)
    for crate in below:
        unused = shutil.ignore_patterns("out", "must-fail")
        shutil.copytree(os.path.join(ROOT, "crates", crate), os.path.join(folder, "crates", crate), ignore=unused)
    with open(os.path.join(folder, "crates.txt"), "w", encoding="utf-8") as file:
        file.writelines(f"{line}\n" for line in [*below.values(), f"{name}: {' '.join(used)}"])
    shutil.copy(os.path.join(ROOT, "HANDLES"), folder)
    crate = os.path.join(folder, "crates", name)
    for where, _, files in os.walk(sources):
        to = os.path.join(crate, "src", os.path.relpath(where, sources))
        os.makedirs(to, exist_ok=True)
        for source in files:
            called, _ = os.path.splitext(source)
            shutil.copy(os.path.join(where, source), os.path.join(to, called + ".rt"))
    return crate


def checksum(folder):
    """A checksum of all files below a folder, with their paths."""
    total = hashlib.sha256()
    for where, folders, files in os.walk(folder):
        folders.sort()
        for name in sorted(files):
            path = os.path.join(where, name)
            with open(path, "rb") as file:
                total.update(f"{os.path.relpath(path, folder)} {hashlib.sha256(file.read()).hexdigest()}\n".encode())
    return total.hexdigest()


def kept_checksum(path):
    """The checksum of what a built program was made of, which stands in this file; None where there is no such file."""
    try:
        with open(path, encoding="ascii") as file:
            return file.read()
    except FileNotFoundError:
        return None
