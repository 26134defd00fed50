#!/usr/bin/env python3
"""Prints how much processor time a bus that is decoded 24 times over takes with threads, as a multiple of
what it takes on one thread, on two cores.

The capture is that of `bench/decode.py`, of 20,000 transactions. Each figure is the median of nine, and then
the least of them; all ways run in turn, in this one run. Two cores of a virtual machine are often the two
threads of one core, and each of them is slower while the other one works: so the run on one thread is
measured alone, and beside another one that keeps the second core busy, as threads do.
"""
import argparse
import os
import resource
import statistics
import subprocess
import sys
import tempfile

from drawn import made
from program import built

INSTANCES = 24
CORES = 2
ROUNDS = 9


def processor_seconds(words, path, places):
    """What a run takes of all processors together, where one runs at each of these places side by side."""
    before = resource.getrusage(resource.RUSAGE_CHILDREN)
    runs = []
    for cores in places:
        with open(path, "rb") as capture:
            command = ["taskset", "-c", ",".join(map(str, cores)), built(), *words]
            runs.append(subprocess.Popen(command, stdin=capture, stdout=subprocess.DEVNULL))
    if any([run.wait() for run in runs]):
        sys.exit(f"{words}: failed")
    after = resource.getrusage(resource.RUSAGE_CHILDREN)
    return (after.ru_utime + after.ru_stime - before.ru_utime - before.ru_stime) / len(places)


def main():
    parser = argparse.ArgumentParser(
        description=__doc__, formatter_class=argparse.RawDescriptionHelpFormatter
    )
    parser.add_argument("transactions", metavar="TRANSACTIONS", nargs="?", type=int, default=20000)
    words = parser.parse_args()
    cores = sorted(os.sched_getaffinity(0))[:CORES]
    stack = ["i2c:scl=D0:sda=D1"] * INSTANCES
    ways = [
        ("one thread, alone", "no", [cores]),
        ("one thread, beside another such run", "no", [[core] for core in cores]),
        ("threads", "yes", [cores]),
    ]
    took = {name: [] for name, _, _ in ways}
    with tempfile.TemporaryDirectory() as folder:
        path = os.path.join(folder, "capture")
        with open(path, "wb") as file:
            file.writelines(made(words.transactions))
        for _ in range(ROUNDS):
            for name, threads, places in ways:
                took[name].append(processor_seconds(["--threads", threads, *stack], path, places))
    for figure in (statistics.median, min):
        told = [figure(took[name]) for name, _, _ in ways]
        print(
            f"{figure.__name__}: one thread {told[0]:.2f} s, beside another such run {told[1]:.2f} s, threads"
            f" {told[2]:.2f} s of processor time: {told[2] / told[0]:.2f} and {told[2] / told[1]:.2f} times"
        )


if __name__ == "__main__":
    main()
