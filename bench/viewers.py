#!/usr/bin/env python3
"""Prints how long decodes take at which a viewer looks on, beside the same without one, and the memory.

The capture is that of `bench/decode.py`, decoded as a bus and a serial line: 9 notes a transaction, of
2,000 and 111,112 transactions where none are named, which are 18,000 and 1,000,008 notes. The viewer asks
for all notes of the listing all the time, so it keeps a core of its own busy. Each time is the best of
nine, and all ways run in turn; each run writes the same bytes, and is told that all notes were seen. The
memory is the most that such a run took, with what the viewer was answered; what this script takes itself is the
least that can be told.
"""
import argparse
import hashlib
import os
import subprocess
import sys
import tempfile
import time

from drawn import made
from program import built

ROUNDS = 9
STACK = ["i2c:scl=D0:sda=D1", "uart:rx=D2:baud=100000"]
NOTES = 9
WAYS = [("no", "no"), ("no", "yes"), ("yes", "no"), ("yes", "yes")]


def run(threads, watch, path, count):
    """The seconds that a decode takes, the most memory that it took in MB, and a sum of what it writes."""
    with open(path, "rb") as capture, tempfile.TemporaryFile() as listing:
        start = time.perf_counter()
        one = subprocess.Popen(
            [built(), "--threads", threads, "--watch", watch, *STACK],
            stdin=capture,
            stdout=listing,
            stderr=subprocess.PIPE,
        )
        told = one.stderr.read()
        _, status, used = os.wait4(one.pid, 0)
        took = time.perf_counter() - start
        wanted = f"ldecode: viewer saw {NOTES * count} notes\n" if watch == "yes" else ""
        if status != 0 or told.decode() != wanted:
            sys.exit(f"--threads {threads} --watch {watch}: status {status}, {told.decode()!r}")
        listing.seek(0)
        return took, used.ru_maxrss / 1000, hashlib.file_digest(listing, "sha256").digest()


def compare(path, count):
    best, most, wrote = {}, {}, None
    for _ in range(ROUNDS):
        for way in WAYS:
            took, memory, listing = run(*way, path, count)
            if wrote is not None and listing != wrote:
                sys.exit(f"{way}: other bytes")
            wrote = listing
            best[way] = min(took, best.get(way, took))
            most[way] = max(memory, most.get(way, memory))
    return best, most


def main():
    parser = argparse.ArgumentParser(
        description=__doc__, formatter_class=argparse.RawDescriptionHelpFormatter
    )
    parser.add_argument("transactions", metavar="TRANSACTIONS", nargs="*", type=int, default=[2000, 111112])
    counts = parser.parse_args().transactions
    with tempfile.TemporaryDirectory() as folder:
        path = os.path.join(folder, "capture")
        for count in counts:
            with open(path, "wb") as file:
                for one in made(count):
                    file.write(one)
            best, most = compare(path, count)
            for threads in ["no", "yes"]:
                alone, watched = best[(threads, "no")], best[(threads, "yes")]
                print(
                    f"{NOTES * count} notes, --threads {threads}: {1000 * alone:.1f} ms, "
                    f"watched {1000 * watched:.1f} ms ({watched / alone:.2f} times), {most[(threads, 'yes')]:.1f} MB"
                )


if __name__ == "__main__":
    main()
