#!/usr/bin/env python3
"""Prints how long a decode takes through a pipe, beside the same from a file, in each form of capture.

The capture is that of `bench/decode.py`, of 20,000 transactions, decoded as one bus with threads and
without. `cat` writes it into the pipe. Each time is the best of seven, and each processor time the least,
of the decoder alone; the ways run in turn, in this one run. What is listed is written to nowhere.
"""
import argparse
import os
import subprocess
import sys
import tempfile
import time

from drawn import made
from forms import FORMS, named
from program import built

ROUNDS = 7
BUS = "i2c:scl=D0:sda=D1"


def took(command, path, piped):
    """The seconds that a run takes, and those of processors."""
    with open(path, "rb") as capture:
        cat = subprocess.Popen(["cat"], stdin=capture, stdout=subprocess.PIPE) if piped else None
        start = time.perf_counter()
        run = subprocess.Popen(command, stdin=cat.stdout if piped else capture, stdout=subprocess.DEVNULL)
        if piped:
            cat.stdout.close()
        _, status, used = os.wait4(run.pid, 0)
        seconds = time.perf_counter() - start
        run.returncode = status
        if piped:
            cat.wait()
    if run.returncode != 0:
        sys.exit(f"{' '.join(command)}: status {run.returncode}")
    return seconds, used.ru_utime + used.ru_stime


def main():
    parser = argparse.ArgumentParser(
        description=__doc__, formatter_class=argparse.RawDescriptionHelpFormatter
    )
    parser.add_argument("transactions", metavar="TRANSACTIONS", nargs="?", type=int, default=20000)
    count = parser.parse_args().transactions
    samples = b"".join(made(count))
    with tempfile.TemporaryDirectory() as folder:
        for form, (read, make) in FORMS.items():
            path = os.path.join(folder, "capture")
            with open(path, "wb") as file:
                file.write(make(samples))
            for threads in ("no", "yes"):
                command = [built(), "--threads", threads, *read, *named([BUS], form)]
                best = {}
                for _ in range(ROUNDS):
                    for piped in (False, True):
                        one = took(command, path, piped)
                        had = best.get(piped, one)
                        best[piped] = (min(one[0], had[0]), min(one[1], had[1]))
                file_s, file_cpu = best[False]
                pipe_s, pipe_cpu = best[True]
                print(
                    f"{form}, threads {threads}: file {file_s:.3f} s ({file_cpu:.3f} of processors), pipe"
                    f" {pipe_s:.3f} s ({pipe_cpu:.3f}): {pipe_s / file_s:.2f} and {pipe_cpu / file_cpu:.2f} times"
                )


if __name__ == "__main__":
    main()
