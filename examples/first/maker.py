#!/usr/bin/env python3
"""A processor that lists what it is shown.

It supports the annotation q.A, which stubs/q/A.java declares, and creates in round 1 the resource 'roots': the names
of the root types, each ended by a line end. The kit for processors, kits/python/dinxobhe.py, is copied beside it.
"""
import dinxobhe


class Maker(dinxobhe.Processor):
    supports = ["q.A"]

    def process(self, annotations, round):
        if round.number == 1:
            self.filer.create_resource("roots", "".join(f"{root}\n" for root in round.roots))


if __name__ == "__main__":
    dinxobhe.run(Maker)
