#!/usr/bin/env python3
"""Writes a raw capture of an I2C bus that is kept busy by one device: SCL is D0, SDA is D1.

Each transaction writes a byte that says where, and two bytes there, or reads two from where the last one
ended; one of eight is for a part that isn't there, and isn't acknowledged. Bytes are drawn from a generator
of numbers that always gives the same. A bit is four samples long, and a transaction 120 to 200. ADDRESS is
the device's, in hexadecimal: 50, an EEPROM of one address byte, or 68, a clock, or 48, a thermometer.

    tools/device_capture.py 100000 > capture.raw
    bin/ldecode i2c:scl=D0:sda=D1,eeprom24 < capture.raw
"""
import argparse
import sys

from buses import I2c, draws


def samples(segments):
    """The samples of one transaction: segments of bytes, each with whether it is acknowledged."""
    bus = I2c(late=0, low=2, high=2)
    bus.hold(1, 2)
    for segment in segments:
        bus.segment(segment)
    bus.stop(4)
    return bytes(bus.samples)


def transaction(address, kind, place, one, other):
    """A write of two bytes, a read of two, or an address that nobody answers."""
    if kind == 0:
        return samples([[((address ^ 4) * 2, False)]])
    if kind % 2 == 0:
        return samples([[(address * 2 + 1, True), (one, True), (other, False)]])
    return samples([[(address * 2, True), (place, True), (one, True), (other, True)]])


def main():
    parser = argparse.ArgumentParser(
        description=__doc__, formatter_class=argparse.RawDescriptionHelpFormatter
    )
    parser.add_argument("transactions", metavar="TRANSACTIONS", nargs="?", type=int, default=100000)
    parser.add_argument(
        "address", metavar="ADDRESS", nargs="?", type=lambda word: int(word, 16), default=0x50
    )
    words = parser.parse_args()
    numbers = draws(7)
    for _ in range(words.transactions):
        drawn = next(numbers) % 8, next(numbers), next(numbers), next(numbers)
        sys.stdout.buffer.write(transaction(words.address, *drawn))


if __name__ == "__main__":
    main()
