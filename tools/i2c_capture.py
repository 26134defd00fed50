#!/usr/bin/env python3
"""Writes a raw capture of an I2C bus on which these bytes are sent: SCL is D0, SDA is D1.

Each word is one transaction, from a START to a STOP: segments with `/` between them, where a repeated
START stands. A segment is an address and hexadecimal bytes, with commas between them. The address is

    A0, A1      a byte, of seven bits and the direction: 0 is write, 1 is read
    w150        a ten-bit address that is written to: its prefix and its lower eight bits
    r150        the prefix of a ten-bit address that is read from, after a segment that writes to it
    call        the general call

The receiver acknowledges each byte, but for the last one that is read. A bit is eight samples long; SDA
changes one sample after the fall of SCL.

    tools/i2c_capture.py A0,00,10,48,69 A0,00,10/A1,48,69 > capture.raw
    tools/i2c_capture.py w150,10/r150,48,69 call,06 > capture.raw
"""
import argparse
import sys

from buses import I2c


def address(text):
    """The bytes that an address is sent as."""
    if text == "call":
        return [0]
    if text[:1] in ("w", "r"):
        bits = int(text[1:], 16)
        prefix = 0xF0 | bits >> 8 << 1
        return [prefix, bits & 255] if text[0] == "w" else [prefix | 1]
    return [int(text, 16)]


def sent(segment):
    """The bytes of a segment, each with whether it is acknowledged."""
    head, *data = segment.split(",")
    values = address(head) + [int(byte, 16) for byte in data]
    for place, value in enumerate(values):
        last_read = values[0] & 1 and place > 0 and place == len(values) - 1
        yield value, not last_read


def main():
    parser = argparse.ArgumentParser(
        description=__doc__, formatter_class=argparse.RawDescriptionHelpFormatter
    )
    parser.add_argument("transactions", nargs="*", metavar="TRANSACTION", help="as A0,00,10/A1,48,69")
    words = parser.parse_args()
    bus = I2c(late=1, low=4, high=4)
    bus.hold(1, 12)
    for transaction in words.transactions:
        for segment in transaction.split("/"):
            bus.segment(sent(segment))
        bus.stop(12)
    sys.stdout.buffer.write(bus.samples)


if __name__ == "__main__":
    main()
