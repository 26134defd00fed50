#!/usr/bin/env python3
"""Writes samples of a serial line, one byte a sample, with the line on D0.

The characters of the text follow one another without a pause, each with a start bit, eight data bits and
a stop bit, as often as TIMES says (1). The rate is in samples a second (1000000), and the baud in bits a
second (115200); each bit begins at the sample that its time falls into. The line is high for ten bits
before and after them.
"""
import argparse
import sys

from buses import bits_of, sampled


def main():
    parser = argparse.ArgumentParser(
        description=__doc__, formatter_class=argparse.RawDescriptionHelpFormatter
    )
    parser.add_argument("text", metavar="TEXT")
    parser.add_argument("rate", metavar="RATE", nargs="?", type=int, default=1000000)
    parser.add_argument("baud", metavar="BAUD", nargs="?", type=int, default=115200)
    parser.add_argument("times", metavar="TIMES", nargs="?", type=int, default=1)
    words = parser.parse_args()
    levels = [1] * 10 + list(bits_of(words.text.encode())) * words.times + [1] * 10
    sys.stdout.buffer.write(sampled(levels, words.rate, words.baud))


if __name__ == "__main__":
    main()
