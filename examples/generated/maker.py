#!/usr/bin/env python3
"""A processor that generates sources, prints messages and writes a resource.

It supports the annotation q.A, which stubs/q/A.java declares. For each class C of the project it creates the source
CInfo, which is annotated too, so that the host shows it in a further round; for a class whose name ends in Info it
creates none. In the last round it writes the resource 'classes': the names of all classes that it was shown. It prints
a note for each source that it creates, and a warning where there is a class that it makes none for. The kit for
processors, kits/python/dinxobhe.py, is copied beside it.
"""
import dinxobhe


class Maker(dinxobhe.Processor):
    supports = ["q.A"]

    def __init__(self):
        self.shown = []

    def process(self, annotations, round):
        self.shown += [root.qualified_name for root in round.roots]
        if "q.A" in annotations:
            for root in round.roots:
                if root.simple_name.endswith("Info"):
                    self.messager.warning(f"nothing is made for {root}")
                else:
                    self.make_info(root)
        if round.processing_over:
            self.filer.create_resource("classes", "".join(f"{name}\n" for name in self.shown))

    def make_info(self, root):
        package, _, simple = root.qualified_name.rpartition(".")
        try:
            self.filer.create_source(f"{root}Info", f"package {package}; @q.A class {simple}Info {{}}\n")
        except dinxobhe.FilerException as failure:
            self.messager.warning(f"{root}Info is not made: {failure.answer.name}")
        else:
            self.messager.note(f"{root} has {root}Info")


if __name__ == "__main__":
    dinxobhe.run(Maker)
