#!/usr/bin/env python3
"""Prints how long decodes take with a thread for each decoder, beside the same on one thread.

The capture is that of `bench/decode.py`, with the same bus on three pairs of lines, one of which is read
as SPI too. Each time is the best of five, and both ways run in turn, in this one run. What is timed is written
to nowhere, since whoever reads it would take one of the cores; before that, both ways must write the same
bytes. Then comes a capture of one transaction, in milliseconds: there threads cost their start. The last
line tells what the cores give that are there: how long runs on one thread take side by side, one for each
of them, beside one alone. It would be as long on cores that share nothing.
"""
import argparse
import os
import subprocess
import sys
import tempfile
import time

from drawn import made
from program import built

ROUNDS = 5
BUS = "i2c:scl=D0:sda=D1"
LOADS = [
    ("one bus", [BUS]),
    ("three buses", [BUS, "i2c:scl=D3:sda=D4", "i2c:scl=D5:sda=D6"]),
    ("a bus with three devices", [BUS + ",eeprom24", "i2c-1,ds1307", "i2c-1,lm75"]),
    ("three buses, a device on each", [BUS + ",eeprom24", BUS + ",ds1307", BUS + ",lm75"]),
    ("a bus and a serial line", [BUS, "uart:rx=D2:baud=100000"]),
    ("a bus, a serial line and SPI", [BUS, "uart:rx=D2:baud=100000", "spi:sck=D3:mosi=D4"]),
]


def make(path, count):
    """Three equal buses, on D0 and D1, D3 and D4, D5 and D6."""
    spread = bytes((b & 7) | (b & 3) << 3 | (b & 3) << 5 for b in range(256))
    with open(path, "wb") as file:
        for one in made(count):
            file.write(one.translate(spread))


def decode(words, threads, path, **streams):
    with open(path, "rb") as capture:
        return subprocess.run([built(), "--threads", threads, *words], stdin=capture, check=True, **streams)


def seconds(words, threads, path):
    start = time.perf_counter()
    decode(words, threads, path, stdout=subprocess.DEVNULL)
    return time.perf_counter() - start


def compare(words, path):
    alone, apart = (decode(words, threads, path, capture_output=True).stdout for threads in ("no", "yes"))
    if alone != apart:
        sys.exit(f"{words}: other bytes with threads")
    best = {"no": [], "yes": []}
    for _ in range(ROUNDS):
        for threads, took in best.items():
            took.append(seconds(words, threads, path))
    return min(best["no"]), min(best["yes"])


def side_by_side(words, path, count):
    """The seconds that so many runs on one thread take side by side."""
    start = time.perf_counter()
    runs = []
    for _ in range(count):
        with open(path, "rb") as capture:
            command = [built(), "--threads", "no", *words]
            runs.append(subprocess.Popen(command, stdin=capture, stdout=subprocess.DEVNULL))
    if any([run.wait() for run in runs]):
        sys.exit(f"{words}: failed")
    return time.perf_counter() - start


def main():
    parser = argparse.ArgumentParser(
        description=__doc__, formatter_class=argparse.RawDescriptionHelpFormatter
    )
    parser.add_argument("transactions", metavar="TRANSACTIONS", nargs="?", type=int, default=100000)
    count = parser.parse_args().transactions
    built()
    with tempfile.TemporaryDirectory() as folder:
        path = os.path.join(folder, "capture")
        make(path, count)
        for name, words in LOADS:
            alone, apart = compare(words, path)
            print(f"{name}: one thread {alone:.3f} s, threads {apart:.3f} s: {alone / apart:.2f} times as fast")
        cores = len(os.sched_getaffinity(0))
        alone, together = (min(side_by_side([BUS], path, runs) for _ in range(ROUNDS)) for runs in (1, cores))
        make(path, 1)
        short, parted = compare([BUS], path)
        print(f"one transaction: threads take {1000 * (parted - short):.1f} ms more")
        print(f"{cores} runs on one thread, side by side: {together / alone:.2f} times as long as one")


if __name__ == "__main__":
    main()
