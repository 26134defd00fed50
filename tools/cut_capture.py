#!/usr/bin/env python3
"""Cuts a capture of raw samples into pieces: CAPTURE.0, CAPTURE.1 and so on.

Each piece has so many samples, and the last one those that are left; of an empty capture there is one
empty piece. A sample has as many bytes as N channels need (8). What CAPTURE.* was there before is
written over, but pieces of an earlier cut that are beyond the last one stay.

The pieces are decoded one after another, each after the checkpoint with which the one before it
ended, and what is written is what the whole capture gives:

    tools/cut_capture.py 1000000 capture.raw
    from= piece=0
    while [ -e capture.raw.$piece ]; do
        bin/ldecode --job part ${from:+--from "$from"} i2c:scl=D0:sda=D1 < capture.raw.$piece > part || break
        sed '$d' part
        from=$(sed -n '$s/^checkpoint: //p' part)
        piece=$((piece + 1))
    done

The options of `ldecode` have to be the same for all pieces: `--channels N` among them where it is given
here.
"""
import argparse


def pieces(file, size):
    """The bytes of a file in pieces of so many; an empty one where it has none."""
    piece = file.read(size)
    yield piece
    while len(piece) == size:
        piece = file.read(size)
        if piece:
            yield piece


def main():
    parser = argparse.ArgumentParser(
        description=__doc__, formatter_class=argparse.RawDescriptionHelpFormatter
    )
    parser.add_argument("--channels", type=int, choices=range(1, 129), default=8, metavar="N")
    parser.add_argument("samples", metavar="SAMPLES", type=int)
    parser.add_argument("capture", metavar="CAPTURE")
    words = parser.parse_args()
    if words.samples < 1:
        parser.error("a piece has at least one sample")
    size = words.samples * -(-words.channels // 8)
    with open(words.capture, "rb") as file:
        for number, piece in enumerate(pieces(file, size)):
            with open(f"{words.capture}.{number}", "wb") as part:
                part.write(piece)


if __name__ == "__main__":
    main()
