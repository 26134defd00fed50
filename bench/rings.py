#!/usr/bin/env python3
"""Prints how long decodes take by the slots of a ring, beside the default of 256.

The capture is that of `bench/decode.py`, of 100 transactions, 12,000 samples, decoded as 1, 3, 8 and 24 equal
buses. Each time is the best of three. Exits with 1 where one slot takes more than 4 seconds for 24 of them.
"""
import argparse
import os
import subprocess
import sys
import tempfile
import time

from drawn import made
from program import built

ROUNDS = 3
BUS = "i2c:scl=D0:sda=D1"
RINGS = [1, 2, 3, 5, 16, 256, 16384]
DECODERS = [1, 3, 8, 24]
MOST = 4


def seconds(ring, decoders, path):
    start = time.perf_counter()
    with open(path, "rb") as capture:
        command = [built(), "--ring", str(ring), *[BUS] * decoders]
        subprocess.run(command, stdin=capture, stdout=subprocess.DEVNULL, check=True)
    return time.perf_counter() - start


def main():
    parser = argparse.ArgumentParser(
        description=__doc__, formatter_class=argparse.RawDescriptionHelpFormatter
    )
    parser.add_argument("transactions", metavar="TRANSACTIONS", nargs="?", type=int, default=100)
    count = parser.parse_args().transactions
    slow = False
    with tempfile.TemporaryDirectory() as folder:
        path = os.path.join(folder, "capture")
        with open(path, "wb") as file:
            file.writelines(made(count))
        for decoders in DECODERS:
            took = {ring: min(seconds(ring, decoders, path) for _ in range(ROUNDS)) for ring in RINGS}
            told = ", ".join(f"{ring} {time_:.3f} s ({time_ / took[256]:.1f})" for ring, time_ in took.items())
            print(f"{decoders} decoders, slots and times of those of 256 slots: {told}")
            slow |= decoders == 24 and took[1] > MOST
    if slow:
        sys.exit(1)


if __name__ == "__main__":
    main()
