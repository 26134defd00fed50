#!/usr/bin/env python3
"""Writes a raw capture of a 1-Wire line, one byte a sample at 1 MHz, with the line on D0.

Each word is one segment: a reset that is answered, and then hexadecimal bytes, with commas between them. Of a
search stand the command, a colon, and for each device that takes part its ROM of eight bytes, joined by `+`: in
each step the devices send their bits and the complements of these, and the master goes on with the first one.

    tools/onewire_capture.py 55,02,1C,B8,01,00,00,00,A2 CC,44 > capture.raw
    tools/onewire_capture.py F0:021CB801000000A2+281CB801000000C6 > capture.raw
"""
import argparse
import sys

from buses import OneWire


def main():
    parser = argparse.ArgumentParser(
        description=__doc__, formatter_class=argparse.RawDescriptionHelpFormatter
    )
    parser.add_argument("segments", nargs="*", metavar="SEGMENT", help="as 55,02,1C,B8,01,00,00,00,A2")
    words = parser.parse_args()
    line = OneWire()
    for word in words.segments:
        line.reset()
        sent, _, roms = word.partition(":")
        for byte in sent.split(","):
            line.byte(int(byte, 16))
        if roms:
            line.search([bytes.fromhex(rom) for rom in roms.split("+")])
    line.hold(1, 100)
    sys.stdout.buffer.write(line.samples)


if __name__ == "__main__":
    main()
