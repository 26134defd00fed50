#!/usr/bin/env python3
"""Writes samples of a MIDI cable, one byte a sample at 1 MHz, with the line on D0.

Each word is bytes in hexadecimal with commas between them, which follow one another without a pause: a start
bit, eight data bits and a stop bit each, at 31250 baud. The line is high for a millisecond before and after
each word.

    tools/midi_capture.py 90,3C,40,40,F8,40,43,40 > capture.raw
"""
import argparse
import sys

from buses import bits_of, sampled

RATE, BAUD = 1000000, 31250
PAUSE = [1] * (BAUD // 1000)


def main():
    parser = argparse.ArgumentParser(
        description=__doc__, formatter_class=argparse.RawDescriptionHelpFormatter
    )
    parser.add_argument("bytes", nargs="+", metavar="BYTES", help="as 90,3C,40")
    words = parser.parse_args()
    levels = list(PAUSE)
    for word in words.bytes:
        levels += list(bits_of(int(byte, 16) for byte in word.split(","))) + PAUSE
    sys.stdout.buffer.write(sampled(levels, RATE, BAUD))


if __name__ == "__main__":
    main()
