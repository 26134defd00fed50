#!/usr/bin/env python3
"""Prints how many samples a second the I2C decode takes on one thread, beside a `cat` of the same file.

The capture has 120 samples for each transaction, one byte a sample: SCL on D0, SDA on D1, a serial
line on D2 that no decoder reads. Each transaction writes two bytes to an address; addresses and bytes
are drawn from a generator of numbers that always gives the same. So each gives eight notes. Each time
is the best of three, and both programs run in turn, in this one run.
"""
import argparse
import os
import sys
import tempfile

from drawn import LENGTH, NOTES, made
from program import built, seconds

CHAIN = "i2c:scl=D0:sda=D1"
# The words of the decode: `bench/threads.py` compares the two ways.
WORDS = f"--threads no {CHAIN}"


def make(path, count):
    with open(path, "wb") as file:
        file.writelines(made(count))


def main():
    parser = argparse.ArgumentParser(
        description=__doc__, formatter_class=argparse.RawDescriptionHelpFormatter
    )
    parser.add_argument("transactions", metavar="TRANSACTIONS", nargs="?", type=int, default=100000)
    words = parser.parse_args()
    count = words.transactions
    program = built()
    with tempfile.TemporaryDirectory() as folder:
        path = os.path.join(folder, "capture")
        listing = os.path.join(folder, "listing")
        make(path, count)
        plain, decoded = [], []
        for _ in range(3):
            plain.append(seconds(f"cat {path} > /dev/null"))
            decoded.append(seconds(f"{program} {WORDS} < {path} > {listing}"))
        with open(listing, "rb") as file:
            lines = sum(1 for _ in file)
        if lines != NOTES * count:
            sys.exit(f"{lines} lines, and not {NOTES * count}")
        samples = count * LENGTH
        print(f"{samples} samples, {lines} notes: {samples / min(decoded) / 1e6:.1f} million samples a second")
        print(f"cat {min(plain):.3f} s, ldecode {min(decoded):.3f} s: {min(decoded) / min(plain):.1f} times")


if __name__ == "__main__":
    main()
