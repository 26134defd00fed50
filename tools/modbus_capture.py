#!/usr/bin/env python3
"""Writes samples of a serial line that carries messages of Modbus RTU, one byte a sample at 1 MHz, with the
line on D0.

Each word is a message: its bytes in hexadecimal, with commas between them, to which its CRC is added; with a
`!` before it the lowest bit of the CRC's last byte is turned. A byte has a start bit, eight data bits and a
stop bit at 19200 baud, and the bytes of a message follow one another without a pause. Before and after each
message the line is high for 3.5 characters, the shortest silence that the standard has there.

    tools/modbus_capture.py 11,03,00,6B,00,03 11,03,06,AE,41,56,52,43,40 > capture.raw
"""
import argparse
import sys

from buses import bits_of, sampled

RATE, BAUD = 1000000, 19200
PAUSE = [1] * 35
# What parts the messages: that silence in nanoseconds.
GAP = -(-35 * 10**9 // BAUD)


def crc(data):
    """The CRC of bytes, its low byte first."""
    register = 0xFFFF
    for byte in data:
        register ^= byte
        for _ in range(8):
            register = register >> 1 ^ (0xA001 if register & 1 else 0)
    return register.to_bytes(2, "little")


def message(word):
    """The bytes of a message with its CRC."""
    data = bytes(int(byte, 16) for byte in word.lstrip("!").split(","))
    low, high = crc(data)
    return data + bytes([low, high ^ word.startswith("!")])


def main():
    parser = argparse.ArgumentParser(
        description=__doc__, formatter_class=argparse.RawDescriptionHelpFormatter
    )
    parser.add_argument("messages", nargs="+", metavar="MESSAGE", help="as 11,03,00,6B,00,03")
    words = parser.parse_args()
    levels = list(PAUSE)
    for word in words.messages:
        levels += list(bits_of(message(word))) + PAUSE
    sys.stdout.buffer.write(sampled(levels, RATE, BAUD))


if __name__ == "__main__":
    main()
