#!/usr/bin/env python3
"""Writes a raw capture, one byte a sample, as a VCD file.

The file declares the scalars D0, D1, D2 and D7, the bits of the samples, and with IDLE so many more,
which never change. A sample takes one microsecond. Each change stands on a line of its own, after the
line of its time.
"""
import argparse
import sys

BITS = (0, 1, 2, 7)


def code(number):
    """The code of a variable, as short as it can be: a byte from `!` to `~`, or more of them."""
    text = ""
    while True:
        text += chr(33 + number % 94)
        number = number // 94 - 1
        if number < 0:
            return text


def header(idle):
    yield "$timescale 1 us $end\n"
    names = [f"D{bit}" for bit in BITS] + [f"idle{number}" for number in range(idle)]
    for number, name in enumerate(names):
        yield f"$var wire 1 {code(number)} {name} $end\n"
    yield "$enddefinitions $end\n"


def changes(samples):
    """The lines of the changes, and a last time for the samples that follow the last change."""
    before = None
    for time, sample in enumerate(samples):
        told = False
        for number, bit in enumerate(BITS):
            level = sample >> bit & 1
            if before is not None and level == before >> bit & 1:
                continue
            if not told:
                yield f"#{time}\n"
                told = True
            yield f"{level}{code(number)}\n"
        before = sample
    yield f"#{len(samples) - 1}\n"


def main():
    parser = argparse.ArgumentParser(
        description=__doc__, formatter_class=argparse.RawDescriptionHelpFormatter
    )
    parser.add_argument("idle", metavar="IDLE", nargs="?", type=int, default=0)
    words = parser.parse_args()
    samples = sys.stdin.buffer.read()
    for line in header(words.idle):
        sys.stdout.write(line)
    for line in changes(samples):
        sys.stdout.write(line)


if __name__ == "__main__":
    main()
