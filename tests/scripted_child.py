"""A child program that follows a script.

    scripted_child.py RECORD STEP..

It writes its process number to RECORD.pid, and all bytes that it reads to RECORD. A step is

    read          reads one frame: four bytes of length, and as many bytes as they say
    rest          reads to the end of its input
    say:HEX       writes these bytes at once
    spell:HEX     writes these bytes one by one
    ask:COUNT:HEX writes these bytes COUNT times, and reads a frame for each time; at most 1,000 are on their way
    make:FILE     writes the bytes of a file
    exchange:FILE writes the frames of a file one by one, and reads a frame whole behind each
    flood:COUNT   writes that many bytes that nobody asked for
    complain:TEXT writes a line to its standard error
    streams       writes what the host's three standard streams are to RECORD.streams, each in a line
    deaf          closes its input
    mute          closes its output
    wait:SECONDS  does nothing for that long
    until:FILE    does nothing until this file has a byte
"""
import os
import signal
import sys
import time


class Child:
    def __init__(self, record):
        self.name = record
        self.record = open(record, "wb", buffering=0)

    def take(self, count):
        taken = b""
        while len(taken) < count:
            more = os.read(0, count - len(taken))
            if not more:
                sys.exit(3)
            self.record.write(more)
            taken += more
        return taken

    def read(self):
        self.take(int.from_bytes(self.take(4), "big"))

    def rest(self):
        while more := os.read(0, 65536):
            self.record.write(more)

    def say(self, text):
        give(bytes.fromhex(text))

    def spell(self, text):
        for byte in bytes.fromhex(text):
            give(bytes([byte]))
            time.sleep(0.001)

    def ask(self, argument):
        count, _, text = argument.partition(":")
        frame, left = bytes.fromhex(text), int(count)
        while left > 0:
            some = min(left, 1000)
            give(frame * some)
            for _ in range(some):
                self.read()
            left -= some

    def make(self, name):
        with open(name, "rb") as file:
            give(file.read())

    def exchange(self, name):
        with open(name, "rb") as file:
            while head := file.read(4):
                give(head + file.read(int.from_bytes(head, "big")))
                self.read()

    def flood(self, count):
        give(b"x" * int(count))

    def complain(self, text):
        print(text, file=sys.stderr)

    def streams(self):
        with open(self.name + ".streams", "w", encoding="utf-8") as file:
            for number in range(3):
                file.write(os.readlink(f"/proc/{os.getppid()}/fd/{number}") + "\n")

    def deaf(self):
        os.close(0)

    def mute(self):
        os.close(1)

    def wait(self, seconds):
        time.sleep(float(seconds))

    def until(self, path):
        while not os.path.exists(path) or not os.path.getsize(path):
            time.sleep(0.01)


def give(data):
    while data:
        data = data[os.write(1, data):]


def main():
    # As most programs, and unlike Python's own, it ends where nobody reads what it writes.
    signal.signal(signal.SIGPIPE, signal.SIG_DFL)
    record, *steps = sys.argv[1:]
    with open(record + ".pid", "w", encoding="ascii") as file:
        file.write(str(os.getpid()))
    child = Child(record)
    for step in steps:
        name, _, argument = step.partition(":")
        act = getattr(child, name)
        act(argument) if argument else act()


if __name__ == "__main__":
    main()
