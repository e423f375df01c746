#!/usr/bin/env python3
"""Runs the gate and says where its time goes, crate by crate.

    tools/gate.py                   runs `rt ci` at the top of the repository, and where it passes the tables of cases (`tests/cases.py`) behind it
    tools/gate.py WORD..            runs `rt ci WORD..` alone, as for crates by name; a kit may take no other words
    tools/gate.py --watch NUMBER    measures what the process with this number starts, until it is told to end, and then prints the table
    tools/gate.py --functions NAME  checks a copy of the crate NAME on one processor, and names its slowest functions; what a checkout on this
                                    machine has checked before is taken over, and does not show

Each line that the gate prints is written to `gate.log` in the current folder with the seconds since the start before it. At the end a table is
printed: for each crate its lines of src, specs and proofs, the processor minutes of its proof, its edits in `must-fail/` and their processor minutes,
and the minutes by the clock from the first of them to the last. Most crates have no edits there: those in `tools/further_edits` are no part of the
gate. No crate has tests: cases are rows of tables, whose processor minutes stand in a line of their own. Processor time is read once a second from
/proc, so the last second of each process is not counted, and neither is what the linker and the programs themselves use. Some kits keep what an
earlier run on the machine proved, which then takes no time: there a measurement of the whole wants a machine where nothing is kept, or the word
`--anew`.
"""
import os
import resource
import shutil
import signal
import subprocess
import sys
import tempfile
import threading
import time
from pathlib import Path

TOP = Path(__file__).resolve().parent.parent
TICKS = os.sysconf("SC_CLK_TCK")
PROOF, EDITS = "proof", "edits"


def lines_of(crate):
    """The lines of src, specs and proofs of a crate."""
    folders = [TOP / "crates" / crate / part for part in ("src", "specs", "proofs")]
    files = [path for folder in folders for path in folder.rglob("*") if path.suffix in (".rt", ".antt")]
    return sum(path.read_bytes().count(b"\n") for path in files)


def edits_of(crate):
    """How many edits of a crate the gate tries."""
    return len(list((TOP / "crates" / crate / "must-fail").glob("*.edit")))


def parent_of(number):
    """The number of the process that started this one, or 0."""
    try:
        return int(Path("/proc", str(number), "stat").read_text().rsplit(")", 1)[1].split()[1])
    except (OSError, IndexError):
        return 0


def is_below(number, gate):
    """Whether a process was started by the gate, or by what the gate started."""
    while number not in (0, 1, gate):
        number = parent_of(number)
    return number == gate


def work_of(process, gate):
    """The crate, the kind of work and the processor seconds of a process of the prover below the gate's, or None."""
    try:
        words = (process / "cmdline").read_bytes().decode("utf-8", "replace").split("\0")
        if not words[0].endswith("/rattle") or "--crate-name" not in words:
            return None
        fields = (process / "stat").read_text().rsplit(")", 1)[1].split()
        # what it used itself: a process that shares the check with it is read for itself
        seconds = sum(int(field) for field in fields[11:13]) / TICKS
        folder = os.readlink(process / "cwd")
    except (OSError, IndexError):
        return None
    if not is_below(int(process.name), gate):
        return None
    return words[words.index("--crate-name") + 1], EDITS if "rt-edit" in folder else PROOF, seconds


class Sampler(threading.Thread):
    """Reads what the prover's processes have used, once a second, until it is told to end."""

    def __init__(self, gate):
        super().__init__(daemon=True)
        self.gate = gate
        self.ended = threading.Event()
        self.used = {}
        self.seen = {}

    def run(self):
        while not self.ended.wait(1):
            for process in Path("/proc").iterdir():
                if process.name.isdigit() and (work := work_of(process, self.gate)):
                    crate, kind, seconds = work
                    self.used[process.name, crate, kind] = seconds
                    now = time.monotonic()
                    first, _ = self.seen.get(crate, (now, now))
                    self.seen[crate] = first, now

    def minutes(self, crate, kind):
        """The processor minutes of one kind of work on a crate."""
        return sum(used for (_, of, what), used in self.used.items() if (of, what) == (crate, kind)) / 60


def table(sampler, clock):
    """The table of the crates, the most expensive first, and a line for all."""
    rows = []
    for crate, (first, last) in sampler.seen.items():
        proof, edits = sampler.minutes(crate, PROOF), sampler.minutes(crate, EDITS)
        rows.append((crate, lines_of(crate), proof, edits_of(crate), edits, proof + edits, (last - first) / 60))
    rows.sort(key=lambda row: -row[5])
    sums = [sum(row[at] for row in rows) for at in range(1, 6)]
    rows.append(("all", *sums, clock / 60))
    text = ["| Crate | Lines | Proof | Edits | Minutes of the edits | Together | Clock |", "|---|---|---|---|---|---|---|"]
    text += ["| {} | {} | {:.1f} | {} | {:.1f} | {:.1f} | {:.1f} |".format(*row) for row in rows]
    if sums[0]:
        text.append(f"{sums[4] * 1000 / sums[0]:.2f} processor minutes for each 1,000 lines")
    return "\n".join(text)


def measure_cases():
    """Runs the tables of cases, prints their processor minutes, and gives the exit status."""
    before = resource.getrusage(resource.RUSAGE_CHILDREN)
    status = subprocess.run([TOP / "tests" / "cases.py"], cwd=TOP).returncode
    after = resource.getrusage(resource.RUSAGE_CHILDREN)
    seconds = after.ru_utime + after.ru_stime - before.ru_utime - before.ru_stime
    print(f"the tables of cases: {seconds / 60:.1f} processor minutes")
    return status


def measure_gate(words):
    """Runs the gate with these words, and gives its exit status."""
    start = time.monotonic()
    with open("gate.log", "w", encoding="utf-8") as log:
        gate = subprocess.Popen(["rt", "ci", *words], cwd=TOP, stdout=subprocess.PIPE, stderr=subprocess.STDOUT, text=True)
        sampler = Sampler(gate.pid)
        sampler.start()
        for line in gate.stdout:
            print(f"{time.monotonic() - start:7.1f} {line}", end="", file=log, flush=True)
            last = line
    status = gate.wait()
    sampler.ended.set()
    sampler.join()
    print(table(sampler, time.monotonic() - start))
    print(last, end="")
    return status


def watch(number):
    """Measures what runs below a process until SIGTERM comes, and prints the table."""
    told = threading.Event()
    signal.signal(signal.SIGTERM, lambda *_: told.set())
    start = time.monotonic()
    sampler = Sampler(number)
    sampler.start()
    told.wait()
    sampler.ended.set()
    sampler.join()
    print(table(sampler, time.monotonic() - start))
    return 0


def measure_functions(crate):
    """Checks a crate from nothing on one processor, and prints its slowest functions with their seconds."""
    with tempfile.TemporaryDirectory() as folder:
        top = Path(folder) / "top"
        shutil.copytree(TOP, top, ignore=shutil.ignore_patterns(".git"))
        subprocess.run(["git", "init", "-q", str(top)], check=True)
        shutil.rmtree(top / "crates" / crate / "out", ignore_errors=True)
        words = ["rt", "check", "--jobs", "1"]
        check = subprocess.Popen(words, cwd=top / "crates" / crate, stdout=subprocess.PIPE, stderr=subprocess.STDOUT, text=True)
        before = time.monotonic()
        took = []
        for line in check.stdout:
            if line.startswith("checked "):
                now = time.monotonic()
                took.append((now - before, line[len("checked "):].rsplit(",", 1)[0]))
                before = now
        status = check.wait()
    for seconds, function in sorted(took, reverse=True)[:20]:
        print(f"{seconds:7.1f} {function}")
    return status


def main():
    words = sys.argv[1:]
    if words[:1] == ["--functions"] and len(words) == 2:
        return measure_functions(words[1])
    if words[:1] == ["--watch"] and len(words) == 2:
        return watch(int(words[1]))
    return measure_gate(words) or (0 if words else measure_cases())


if __name__ == "__main__":
    sys.exit(main())
