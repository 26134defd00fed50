#!/usr/bin/env python3
"""Prints the most memory that a decode takes, by the number of its decoders and the length of its capture.

The capture is that of bench/decode.py, of 10,000 and of 100,000 transactions where none are named, and goes
through a pipe as it is made. It is decoded by 1, 3, 8 and 24 decoders, and by a serial line beside devices on
lines that rest, with threads and without. Exits with 1 where a run takes more than 3 MB and 1 MB a decoder.
"""
import argparse
import subprocess
import sys

from drawn import LENGTH, made
from program import built

BUS = "i2c:scl=D0:sda=D1"
STACKS = {
    1: [BUS],
    3: [BUS + ",eeprom24", "uart:rx=D2:baud=100000"],
    8: [BUS] * 8,
    24: [BUS] * 24,
}

LINE = "uart:rx=D2:baud=100000"
# Devices on lines that rest, high, in which nothing has begun.
RESTING = [
    "i2c:scl=D3:sda=D4,eeprom24",
    "spi:sck=D3:mosi=D4:cs=D5,flash25",
    "onewire_link:dq=D3,onewire_net,ds18b20",
    "uart:rx=D3:baud=31250,midi",
    "uart:rx=D3:baud=9600,modbus",
]
RESTING_WAYS = ["yes", "no"]

# What a run may take, in kilobytes.
BASE = 3000
EACH = 1000


def most_resident(process):
    with open(f"/proc/{process}/status", encoding="ascii") as file:
        for line in file:
            if line.startswith("VmHWM:"):
                return int(line.split()[1])
    sys.exit("the kernel doesn't tell the memory of a process")


def kilobytes(words, count):
    part = bytes(sample | 248 for sample in b"".join(made(1000)))
    run = subprocess.Popen([built(), *words], stdin=subprocess.PIPE, stdout=subprocess.DEVNULL)
    for _ in range(count // 1000):
        run.stdin.write(part)
    run.stdin.flush()
    taken = most_resident(run.pid)
    run.stdin.close()
    if run.wait() != 0:
        sys.exit(f"ldecode ended with {run.returncode}")
    return taken


def main():
    parser = argparse.ArgumentParser(
        description=__doc__, formatter_class=argparse.RawDescriptionHelpFormatter
    )
    parser.add_argument("transactions", metavar="TRANSACTIONS", nargs="*", type=int, default=[10000, 100000])
    counts = parser.parse_args().transactions
    runs = [(f"{number} decoders", number, ("yes", "no"), stack) for number, stack in STACKS.items()]
    runs += [(f"{rests} rests", rests.count(",") + 2, RESTING_WAYS, [rests, LINE]) for rests in RESTING]
    fits = True
    for name, number, ways, stack in runs:
        for threads in ways:
            for count in counts:
                taken = kilobytes(["--threads", threads, *stack], count)
                fits = fits and taken <= BASE + EACH * number
                told = "with threads" if threads == "yes" else "without threads"
                print(f"{name} {told}, {count * LENGTH} samples: {taken / 1000:.1f} MB")
    if not fits:
        sys.exit("a run takes more memory than it may")


if __name__ == "__main__":
    main()
