#!/usr/bin/env python3
"""Compares what the library finds of the names in stubs with what javac reads from the class files.

    bench/stubs.py [--program PATH] [JAR..]

PATH is the program that bench/measured.py builds without proofs where it is left out. The command of kits/java writes
the stubs of the JARs, of what they name, and of the JDK's module java.base. The program has all of them in one table,
and looks up the type of each field and the supertypes of each type. javac has the class files of the same types. Both
say what they find in the same words, without what encloses a member type.

The differences are printed, and then how many fields and types there were. The status is 1 where something is different.
"""
import argparse
import os
import subprocess
import sys
import tempfile

import jdk
import measured
import names

KIT = os.path.join(jdk.HERE, "..", "kits", "java")


def listed(folder, stubs):
    """A file with the paths of the types' files, and one with the names of the types."""
    paths = [os.path.join(path, name) for path, _, some in os.walk(stubs) for name in some
             if name != "package-info.java"]
    types = [os.path.relpath(path, stubs)[:-len(".java")].replace(os.sep, ".") for path in paths]
    return jdk.write_list(folder, "files", sorted(paths)), jdk.write_list(folder, "types", sorted(types))


def main():
    parser = argparse.ArgumentParser()
    parser.add_argument("--program")
    parser.add_argument("jars", nargs="*")
    words = parser.parse_args()
    program = words.program or measured.program(measured.UNPROVED)
    if not jdk.is_there():
        sys.exit("there is no JDK")
    subprocess.run([os.path.join(KIT, "build")], check=True)
    with tempfile.TemporaryDirectory(prefix="apt-bench-stubs-") as folder:
        jdk.compile_some(folder, ("Javac", "StubBench"))
        stubs = os.path.join(folder, "stubs")
        subprocess.run(["java", "-jar", os.path.join(KIT, "out", "dinxobhe.jar"), "stubs", stubs, *words.jars,
                        "--module", "java.base"], check=True)
        files, types = listed(folder, stubs)
        found = names.found_by_name([program, "names", "said", "-", files])
        read = names.found_by_name(jdk.java(folder, ["StubBench", os.pathsep.join(words.jars), types]))
    different = [key for key in found if found[key] != read.get(key)]
    for key in different:
        print(f"{' '.join(key)}: {found[key]}, and for javac {read.get(key)}")
    print(f"{len(found)} fields and types, {len(different)} are different")
    sys.exit(1 if different else 0)


if __name__ == "__main__":
    main()
