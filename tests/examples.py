#!/usr/bin/env python3
"""Runs the built program on the projects of examples and on the one of README, with processors of kits/python.

    tests/examples.py [PROGRAM]

PROGRAM is crates/apt_cli/out/apt_cli where it is left out. Each case prints a line. The first that fails ends the run
with status 1. The last line is 'examples: N passed, M failed'.
"""
import os
import shutil
import subprocess
import sys

from host import DONE_STATUS, ERRORS, HERE, SECONDS, Cases, NotRun, expect

ROOT = os.path.dirname(HERE)
KIT = os.path.join(ROOT, "kits", "python", "dinxobhe.py")

case = Cases("examples")


def blocks_of(*path):
    """The blocks of code in a document."""
    with open(os.path.join(ROOT, *path), encoding="utf-8") as file:
        return file.read().split("```\n")[1::2]


def copy_example(project, name):
    """Makes the project that of an example, with the kit beside its processor."""
    shutil.rmtree(project.folder)
    shutil.copytree(os.path.join(ROOT, "examples", name), project.folder)
    shutil.copy(KIT, project.folder)


def builds(project, *lines, status=DONE_STATUS):
    """A build reports these lines."""
    run = project.run(["build"])
    expect("the output", run.output.decode(), "".join(line + "\n" for line in lines))
    expect("the status", run.status, status)
    return run.messages.decode()


def copied(project):
    """The text of each published file, which the program of docs/COMMANDS.md copies to the folder `files`."""
    program = next(block for block in blocks_of("docs", "COMMANDS.md") if block.startswith("import pathlib"))
    subprocess.run([sys.executable, "-c", program], cwd=project.folder, check=True, timeout=SECONDS)
    files = {}
    for folder, _, names in os.walk(project.path("files")):
        for name in names:
            path = os.path.relpath(os.path.join(folder, name), project.path("files"))
            files[path] = project.read(os.path.join("files", path)).decode()
    return files


@case
def first(project):
    copy_example(project, "first")
    expect("the messages", builds(project, "mode: clean (Full), started 1", "file CLASS_OUTPUT/roots 4",
                                  "done: 2 rounds, 1 files, 0 errors, 0 warnings"), "")
    expect("the files", copied(project), {"CLASS_OUTPUT/roots": "p.C\n"})


@case
def generated(project):
    copy_example(project, "generated")
    expect("the messages", builds(
        project, "mode: clean (Full), started 1",
        "note: [maker] shop.Cart has shop.CartInfo", "note: [maker] shop.Item has shop.ItemInfo",
        "warning: [maker] nothing is made for shop.CartInfo", "warning: [maker] nothing is made for shop.ItemInfo",
        "file CLASS_OUTPUT/classes 48", "file SOURCE_OUTPUT/shop/CartInfo.java 37",
        "file SOURCE_OUTPUT/shop/ItemInfo.java 37", "done: 3 rounds, 3 files, 0 errors, 2 warnings"), "")
    expect("the files", copied(project), {
        "CLASS_OUTPUT/classes": "shop.Cart\nshop.Item\nshop.CartInfo\nshop.ItemInfo\n",
        "SOURCE_OUTPUT/shop/CartInfo.java": "package shop; @q.A class CartInfo {}\n",
        "SOURCE_OUTPUT/shop/ItemInfo.java": "package shop; @q.A class ItemInfo {}\n"})


# What uses the builders of the example, and prints what they built.
USER = """package shop;

class User {
  public static void main(String[] arguments) {
    Item tea = new ItemBuilder().name("tea").price(3).parts(java.util.List.of("bag", "leaf")).build();
    Order.Line<String> line = new OrderLineBuilder<String>().withKey("k").withItems(new Item[] {tea}).build();
    System.out.println(line.key + ": " + line.items[0]);
  }
}
"""


@case
def builder(project):
    copy_example(project, "builder")
    expect("the messages", builds(
        project, "mode: clean (Full), started 1", "file SOURCE_OUTPUT/shop/ItemBuilder.java 530",
        "file SOURCE_OUTPUT/shop/OrderLineBuilder.java 413", "done: 3 rounds, 2 files, 0 errors, 0 warnings"), "")
    copied(project)
    if shutil.which("javac") is None:
        raise NotRun("there is no javac, so what was created is not compiled")
    project.write("User.java", USER.encode())
    sources = [os.path.join(folder, name) for top in ("src", "files") for folder, _, names in os.walk(project.path(top))
               for name in names]
    subprocess.run(["javac", "-Werror", "-Xlint:all", "-d", project.path("classes"), *sources,
                    project.path("User.java")], check=True, timeout=SECONDS)
    said = subprocess.run(["java", "-cp", project.path("classes"), "shop.User"], check=True, timeout=SECONDS,
                          stdout=subprocess.PIPE).stdout
    expect("what the program prints", said, b"k: tea for 3 of [bag, leaf]\n")


@case
def what_has_no_builder(project):
    copy_example(project, "builder")
    project.write("src/shop/Bad.java", b"""package shop;

class Bad {
  @Builder interface Shape {}

  @Builder static class Unknown {
    Missing missing;
  }

  @Builder static class Few {
    int one;
    String two;

    Few(int one) {}

    private Few(int one, String two) {}
  }
}
""")
    run = project.run(["build"])
    errors = sorted(line for line in run.output.decode().splitlines() if line.startswith("error: "))
    expect("the errors", errors, [
        "error: src/shop/Bad.java:10: [builder] Few has no constructor (int, java.lang.String)",
        "error: src/shop/Bad.java:4: [builder] Shape is no class that can be made",
        "error: src/shop/Bad.java:7: [builder] the type Missing is not declared"])
    expect("the status", run.status, ERRORS)


def make_greeter(project, change=str):
    """Makes the project that of README, with a change of its processor."""
    shutil.rmtree(project.folder)
    os.makedirs(project.folder)
    shutil.copy(KIT, project.folder)
    _, configuration, program, session = blocks_of("README.md")[:4]
    project.write("apt.json", configuration.encode())
    project.write("greeter.py", change(program).encode())
    project.write("stubs/hello/Greet.java", b"package hello; public @interface Greet {}")
    project.write("src/hello/World.java", b"package hello; @Greet class World {}")
    return session.splitlines()[1:]


@case
def the_project_of_the_readme(project):
    session = make_greeter(project)
    expect("the messages", builds(project, *session), "")
    expect("the files", copied(project), {
        "SOURCE_OUTPUT/hello/WorldGreeting.java": "package hello; class WorldGreeting {}"})


@case
def an_exception_of_a_processor(project):
    make_greeter(project, lambda program: program.replace("text = ", "text = package[99] + "))
    run = project.run(["build"])
    expect("the output", run.output.decode().splitlines()[1:],
           ["error: src/hello/World.java:1: [Greeter] IndexError: string index out of range",
            "errors: 2 rounds, 1 errors, 0 warnings"])
    expect("the status", run.status, ERRORS)
    expect("whether the traceback is there", b"Traceback" in run.messages and b"greeter.py" in run.messages, True)


@case
def what_a_processor_prints(project):
    session = make_greeter(project, lambda program: program.replace(
        "        for element", "        print(annotations)\n        for element"))
    messages = builds(project, *session)
    expect("the messages", messages, "('hello.Greet',)\n()\n()\n")


if __name__ == "__main__":
    case.main()
