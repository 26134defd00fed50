#!/usr/bin/env python3
"""Writes a raw capture, one byte a sample, as a CSV file.

The columns are D0, D1 and D2, the lowest bits of the samples, a record for each sample. With `times` the file
is as Saleae Logic exports one: the columns are Channel 0, Channel 1 and Channel 2 after one of times, with a
record for each change and one for the last sample, where a sample takes one microsecond.

    tools/csv_capture.py < capture.raw > capture.csv
    bin/ldecode --format csv i2c:scl=D0:sda=D1 < capture.csv
"""
import argparse
import sys


def fields(sample):
    return ",".join(str(sample >> bit & 1) for bit in range(3))


def rows(samples):
    yield "D0,D1,D2\n"
    for sample in samples:
        yield fields(sample) + "\n"


def changes(samples):
    yield "Time [s],Channel 0,Channel 1,Channel 2\n"
    before = None
    for number, sample in enumerate(samples):
        if sample & 7 != before or number == len(samples) - 1:
            yield f"{number // 1_000_000}.{number % 1_000_000:06}000,{fields(sample)}\n"
        before = sample & 7


def main():
    parser = argparse.ArgumentParser(
        description=__doc__, formatter_class=argparse.RawDescriptionHelpFormatter
    )
    parser.add_argument("form", nargs="?", choices=["rows", "times"], default="rows")
    words = parser.parse_args()
    samples = sys.stdin.buffer.read()
    lines = changes(samples) if words.form == "times" else rows(samples)
    sys.stdout.writelines(lines)


if __name__ == "__main__":
    main()
