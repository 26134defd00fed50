#!/usr/bin/env python3
"""Writes samples of an SPI bus, one byte a sample: SCK on D0, MOSI on D1, MISO on D2, and the select line
on D3, active low.

Each word is one transaction: the bytes of both lines in hexadecimal, as many on MISO as on MOSI. Four
samples are a bit: the clock is low for two of them, and then high for two, and the most significant bit
comes first. With -2 two samples are a bit, one of each, so that the clock changes at each sample. The bus
rests for eight samples before each transaction and after the last. They are sent as often as TIMES says
(1).

The busiest bus, a word for each sixteen samples with data on both lines:

    tools/spi_capture.py -2 03A5C31E7F0096D8:1B2C3D4E5F607182 100000 > spi.raw
"""
import argparse
import sys

from buses import SELECT, spi_transaction


def transactions(words, half, times):
    """The samples of transactions, with a rest before each and after the last."""
    once = []
    for word in words:
        mosi, miso = (bytes.fromhex(part) for part in word.split(":"))
        once += [SELECT] * 8 + spi_transaction(mosi, miso, half)
    return bytes(once) * times + bytes([SELECT] * 8)


def main():
    parser = argparse.ArgumentParser(
        description=__doc__, formatter_class=argparse.RawDescriptionHelpFormatter
    )
    parser.add_argument("-2", dest="half", action="store_const", const=1, default=2, help="two samples a bit")
    parser.add_argument("words", metavar="MOSI:MISO", nargs="+", help="and last, where it is given, TIMES")
    given = parser.parse_args()
    words = given.words
    times = int(words.pop()) if len(words) > 1 and ":" not in words[-1] else 1
    try:
        samples = transactions(words, given.half, times)
    except ValueError as fault:
        parser.error(str(fault))
    sys.stdout.buffer.write(samples)


if __name__ == "__main__":
    main()
