#!/usr/bin/env python3
"""Prints how long `find` takes on 64 MB of raw samples, as a multiple of `cat FILE | wc -c`.

Three files are made in a folder of their own, which is removed again:

  runs    each value stands for 65,536 samples
  others  bit 7 never changes and all other bits are random; the condition asks for bit 7 high
  noise   bit 0 changes with each sample; the condition asks for no change of it, so each sample is
          looked at, and the condition is met at the first one alone

Each time is the best of five, and both programs run in turn, in this one run.
"""
import argparse
import os
import random
import subprocess
import tempfile

from program import built, seconds

BLOCK = 1 << 20


def block(kind):
    if kind == "runs":
        return bytes([0]) * 65536 + bytes([1]) * 65536
    if kind == "others":
        return bytes(byte & 0x7F for byte in random.Random(1).randbytes(BLOCK))
    return bytes([0, 1]) * (BLOCK // 2)


def make(path, kind, size):
    piece = block(kind)
    with open(path, "wb") as file:
        written = 0
        while written < size:
            file.write(piece[: size - written])
            written += len(piece)


def main():
    parser = argparse.ArgumentParser(
        description=__doc__, formatter_class=argparse.RawDescriptionHelpFormatter
    )
    parser.add_argument("megabytes", metavar="MEGABYTES", nargs="?", type=int, default=64)
    words = parser.parse_args()
    program = built()
    with tempfile.TemporaryDirectory() as folder:
        for kind, word in (("runs", "D0=r"), ("others", "D7=h"), ("noise", "D0=s")):
            path = os.path.join(folder, kind)
            make(path, kind, words.megabytes * BLOCK)
            plain, found = [], []
            for _ in range(5):
                plain.append(seconds(f"cat {path} | wc -c", stdout=subprocess.DEVNULL))
                found.append(seconds(f"{program} --job find {word} < {path}", stdout=subprocess.DEVNULL))
            ratio = min(found) / min(plain)
            print(f"{kind:6} cat {min(plain):.3f} s, ldecode {min(found):.3f} s: {ratio:.1f} times")


if __name__ == "__main__":
    main()
