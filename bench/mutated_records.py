#!/usr/bin/env python3
"""Reads records of builds with bytes that were changed at random: each is damaged, or is spelled by the same bytes again.

    bench/mutated_records.py [COUNT [SEED]]

The records are those of cases/tables/record_cases that stand there byte by byte, and those of bench/records.py of 10 and of 100
classes, which are some 3 and some 35 times as long as the longest of the table. One to four of their bytes are changed, taken
away, doubled or moved, or they end early. Of COUNT, which is 20,000 where it is left out, nine in ten are of the table, and one
in a hundred is of 100 classes.

It is no part of the gate. It uses the program of the cases (tests/cases.py) and prints for each kind how many were damaged, how
many were read and spelled again, and the processor time, also of a megabyte. The status is 1 where a line gives anything else,
and where a megabyte of the longest takes more than three times the time of one of the shortest.
"""
import os
import random
import sys

sys.dont_write_bytecode = True
ROOT = os.path.dirname(os.path.dirname(os.path.abspath(__file__)))
sys.path.append(os.path.join(ROOT, "tests"))

import cases  # noqa: E402
import records  # noqa: E402

TABLE, SHORTEST, MOST = "record_cases", 30, 3


def records_of_table():
    """The records that the table gives by their bytes: as a word of a call, or as its result."""
    found = []
    with open(os.path.join(cases.TABLES, TABLE), encoding="utf-8") as file:
        for line in file:
            words, _, result = line.strip().partition(" = ")
            call = words.split()
            if call[:1] == ["decode"] and len(call) == 2 and call[1].startswith("hex="):
                found.append(bytes.fromhex(call[1][4:]))
            if call[:1] == ["bytes"]:
                found.append(bytes.fromhex(result))
    return [record for record in found if len(record) > SHORTEST]


def changed(record, chance):
    """The record with a change at a place."""
    at = chance.randrange(len(record))
    to = min(len(record), at + chance.randrange(1, 9))
    kind = chance.randrange(6)
    if kind == 0:
        return record[:at] + bytes([chance.randrange(256)]) + record[at + 1:]
    if kind == 1:
        return record[:at] + bytes([(record[at] + chance.choice((1, 255))) % 256]) + record[at + 1:]
    if kind == 2:
        return record[:at] + record[to:]
    if kind == 3:
        return record[:at] + record[at:to] + record[at:]
    if kind == 4:
        return record[:at] + b"\xff" * (to - at) + record[to:]
    return record[:at] if chance.randrange(8) == 0 else record[to:at:-1] + record


def mutated(records_of, chance):
    record = chance.choice(records_of)
    for _ in range(chance.randrange(1, 5)):
        record = changed(record, chance) or record
    return record


def read(kind, base, count, chance):
    """Reads so many records of a kind, prints how, and gives whether each is as it has to be and the seconds of a megabyte."""
    made = [mutated(base, chance) for _ in range(count)]
    printed, status, seconds = cases.run(TABLE, [f"decode hex={record.hex()}".encode() for record in made])
    outcomes = [line.rpartition(b" = ")[2] for line in printed[:count]]
    damaged = sum(each == b"Damaged" for each in outcomes)
    again = sum(each.endswith(b" again=yes") for each in outcomes)
    of_megabyte = seconds / (sum(map(len, made)) / 1e6)
    print(f"{kind}: {damaged} damaged, {again} spelled again, {count - damaged - again} others, status {status}, {seconds:.2f} s, "
          f"{of_megabyte:.2f} s for a megabyte", flush=True)
    return status == 0 and damaged + again == count, of_megabyte


def main():
    count = int(sys.argv[1]) if len(sys.argv) > 1 else 20000
    chance = random.Random(int(sys.argv[2]) if len(sys.argv) > 2 else 1)
    cases.build()
    kinds = [
        ("of the table", records_of_table(), count - count // 10),
        ("of 10 classes", [records.record(10)], count // 10 - count // 100),
        ("of 100 classes", [records.record(100)], count // 100),
    ]
    outcomes = [read(*kind, chance) for kind in kinds if kind[2]]
    is_linear = outcomes[-1][1] <= MOST * outcomes[0][1]
    sys.exit(0 if is_linear and all(is_well for is_well, _ in outcomes) else 1)


if __name__ == "__main__":
    main()
