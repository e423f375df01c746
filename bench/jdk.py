"""The files of the JDK's module java.base for names.py and subtypes.py, which measure the program of measured.py beside javac, and what these
and questions.py ask a running JDK.

Of each file javac writes spaces over the methods, constructors and initializer blocks, so that types, their type
parameters, their supertypes and their fields are left, and an A over each escape of a surrogate, of which alone the
program makes no character. Of what is left those files are taken that have units by the program, so that both sides read
the same.
"""
import os
import shutil
import subprocess
import sys
import zipfile

HERE = os.path.dirname(os.path.abspath(__file__))
MODULE, PACKAGE = "java.base/", "java/util/"


def is_there():
    return shutil.which("javac") is not None and shutil.which("java") is not None


def compile_some(folder, names):
    """Compiles classes that run in the JDK into a folder."""
    sources = [os.path.join(HERE, name + ".java") for name in names]
    subprocess.run(["javac", "-d", folder, *sources], check=True)


def compile_all(folder):
    """Compiles those of names.py and subtypes.py."""
    compile_some(folder, ("Javac", "NameBench", "SubtypeBench"))


def java(folder, words):
    """The command that runs a compiled class of the folder."""
    return ["java", "-Xmx3g", "-cp", folder, *words]


def write_list(folder, name, paths):
    listed = os.path.join(folder, name)
    with open(listed, "w", encoding="utf-8") as file:
        file.writelines(f"{path}\n" for path in paths)
    return listed


def whole_files(program, listed):
    whole = subprocess.run([program, "files", "whole", listed], stdout=subprocess.PIPE, encoding="utf-8", check=True)
    return whole.stdout.splitlines()


def files_of_jdk(program, folder, sources):
    """The stripped files of the module that have units, in a folder of all and in one of the package alone, each with a list."""
    with zipfile.ZipFile(sources) as archive:
        names = sorted(name for name in archive.namelist() if name.startswith(MODULE) and name.endswith(".java")
                       and not name.endswith(("/package-info.java", "/module-info.java")))
        archive.extractall(folder, names)
    module, package = os.path.join(folder, MODULE), os.path.join(folder, "package")
    every = [os.path.join(folder, name) for name in names]
    listed = write_list(folder, "every", every)
    subprocess.run(java(folder, ["NameBench", "strip", module, listed]), check=True)
    paths = whole_files(program, listed)
    for path in set(every) - set(paths):
        os.remove(path)
    of_package = []
    for path in paths:
        below = os.path.relpath(path, module)
        if os.path.dirname(below) + "/" == PACKAGE:
            os.makedirs(os.path.join(package, PACKAGE), exist_ok=True)
            of_package.append(shutil.copy(path, os.path.join(package, below)))
    print(f"{len(paths)} files of {MODULE[:-1]}, {len(of_package)} of them of java.util; {len(names) - len(paths)} have no units")
    return module, write_list(folder, "files", paths), package, write_list(folder, "package-files", of_package)


def start(folder, words):
    """A JDK that runs a compiled class and answers each line of its input."""
    return subprocess.Popen(java(folder, words), stdin=subprocess.PIPE, stdout=subprocess.PIPE, encoding="ascii")


def ask(jdk, line):
    """The words of the answer to a line."""
    jdk.stdin.write(f"{line}\n")
    jdk.stdin.flush()
    said = jdk.stdout.readline()
    if not said:
        sys.exit(f"the JDK ended with {jdk.wait()}")
    return said.split()


def end(jdk):
    jdk.stdin.close()
    jdk.wait()
