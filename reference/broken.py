"""Prints what the program of broken texts must print: `python3 reference/broken.py > crates/ny_broken/stdout`.

It makes the texts as `crates/ny_broken/src/breaks.rt` describes, from the pieces in `crates/ny_broken/data/`, cuts one piece at
each byte, and answers each text by `nyq.py`."""

import os
import sys
import zlib

import nyq

ROOT = os.path.dirname(os.path.dirname(os.path.abspath(__file__)))
DATA = os.path.join(ROOT, "crates", "ny_broken", "data")
PIECES = ("first.sal", "chord.sal", "shore.sal", "several-lines.sal")
CUT = "echoes.sal"
COMMON = b'aeghnsvx0123579 .,()+-*/<>=!&|@~#\n;"[]{}defplayr'


class Draws:
    """A state of 32 bits, of which each draw takes the upper half."""

    def __init__(self, seed):
        self.state = seed

    def below(self, bound):
        self.state = (self.state * 1664525 + 1013904223) % 2 ** 32
        return (self.state >> 16) % bound

    def byte(self):
        return self.below(256) if self.below(4) == 0 else COMMON[self.below(len(COMMON))]


def with_break(text, draws):
    start = draws.below(len(text) + 1)
    end = min(len(text), start + 1 + draws.below(8))
    kind = draws.below(3)
    if kind == 0:
        return text[:start] + bytes([draws.byte()]) + text[start + 1:]
    return text[:start] + (text[end:] if kind == 1 else text[start:end] + text[start:])


def broken(text, draws):
    for _ in range(draws.below(3) + 1):
        text = with_break(text, draws)
    return text


def answer(text):
    host = nyq.Host({"in.sal": text})
    status = nyq.run(["check", "in.sal"], host)
    if status == 0:
        return b"status 0, %d bytes, adler32 %08x\n" % (len(host.printed), zlib.adler32(host.printed))
    return b"status %d, " % status + host.printed


def piece(name):
    with open(os.path.join(DATA, name), "rb") as file:
        return file.read()


def main():
    out = sys.stdout.buffer.write
    for name in PIECES:
        draws = Draws(1)
        for number in range(1, 501):
            out(b"%s %d: " % (name.encode(), number) + answer(broken(piece(name), draws)))
    for length in range(len(piece(CUT)) + 1):
        out(b"%s to %d: " % (CUT.encode(), length) + answer(piece(CUT)[:length]))


if __name__ == "__main__":
    nyq.with_room(lambda: [main()])
