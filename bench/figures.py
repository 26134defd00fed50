#!/usr/bin/env python3
"""Counts again the figures of speed that are instructions, a line for each.

valgrind counts them (its tool callgrind), so they don't depend on what else the machine does. What a run
takes on no input at all is taken off. All decodes are on one thread, but for those of the last line. With
words, only the lines that have one of them are counted. It takes some minutes.
"""
import argparse
import os
import random
import re
import subprocess
import sys
import tempfile

from drawn import TOOLS, OneWire, bits_of, device_capture, draws, made, modbus_capture, sampled, spi_capture
from program import built

BUS = "i2c:scl=D0:sda=D1"
SPI = "spi:sck=D0:mosi=D1:miso=D2:cs=D3"
LINE = "uart:rx=D0:baud="
ONEWIRE = "onewire_link:dq=D0,onewire_net"
TABLE = ["--format", "csv", BUS]
CHANGES = ["--format", "csv", "--csv", "times", "i2c:scl=Channel 0:sda=Channel 1"]
TRANSACTIONS = 10000


# The captures, each as bytes.

def bus():
    return b"".join(made(TRANSACTIONS))


def device(address):
    numbers = draws(7)
    parts = []
    for _ in range(TRANSACTIONS):
        drawn = next(numbers) % 8, next(numbers), next(numbers), next(numbers)
        parts.append(device_capture.transaction(address, *drawn))
    return b"".join(parts)


def spi(half, word="03A5C31E7F0096D8:1B2C3D4E5F607182"):
    return spi_capture.transactions([word], half, TRANSACTIONS)


def line():
    """A serial line full of bytes."""
    return sampled(bits_of(range(256)), 24000000, 115200) * 3


def modbus():
    words = ["11,03,00,6B,00,01", "11,03,02,AE,41"] * 20
    levels = list(modbus_capture.PAUSE)
    for word in words:
        levels += [*bits_of(modbus_capture.message(word)), *modbus_capture.PAUSE]
    return sampled(levels, modbus_capture.RATE, modbus_capture.BAUD)


def midi():
    return sampled(bits_of(bytes.fromhex("903C40F840434080") * 500), 1000000, 31250)


def onewire():
    """A thermometer that is told to measure, and is read, again and again."""
    wire = OneWire()
    for _ in range(50):
        for sent in "CC44", "CCBE50054B467FFF0C101C":
            wire.reset()
            for byte in bytes.fromhex(sent):
                wire.byte(byte)
    return bytes(wire.samples)


def noise(channels, steady):
    """Samples in which each channel may change, or all but the first."""
    size = channels // 8
    data = bytearray(random.Random(1).randbytes(size * 20000))
    if steady:
        data[::size] = bytes(byte & 0xFE for byte in data[::size])
    return bytes(data)


def piped(script, *words):
    """The bus, as a script of `tools/` writes it in another form."""
    command = [sys.executable, os.path.join(TOOLS, script), *words]
    return subprocess.run(command, input=bus(), stdout=subprocess.PIPE, check=True).stdout


def quoted():
    return re.sub(rb"([^,\n]+)", rb'"\1"', piped("csv_capture.py"))


def odd_quotes():
    """A table in which each line has a quote inside a field, so that it isn't read in place."""
    return b"D0,D1,D2\n" + b'""1,0,0\n""0,0,0\n' * 500


def wide_dump():
    """64 channels, of which four change at each time."""
    codes = [chr(33 + number) for number in range(64)]
    lines = ["$timescale 1 us $end"]
    lines += [f"$var wire 1 {code} c{number} $end" for number, code in enumerate(codes)]
    lines.append("$enddefinitions $end")
    for time in range(20000):
        lines.append(f"#{time}")
        lines += [f"{(time >> 4) & 1}{codes[(4 * time + place) % 64]}" for place in range(4)]
    return "\n".join(lines).encode() + b"\n"


def shown(name, *chains):
    return ["--show", name, *chains]


def find(*words):
    return ["--job", "find", *words]


def wide(channels, steady):
    samples = 20000
    name = f"find on one of {channels} channels that all change" if not steady else \
        f"find on a steady one of {channels} channels"
    words = find("--channels", str(channels), "D0=r")
    return name, lambda: noise(channels, steady), words, None, samples


# What is counted: its name, its capture, the words, the words that are taken off, and by what the count is
# divided: the bytes of the capture, or a number of samples.
FIGURES = [
    ("I2C, the whole listing", bus, [BUS], None, None),
    ("the same bus and a serial line", bus, [BUS, "uart:rx=D2:baud=100000"], None, None),
    ("three such buses", bus, [BUS, BUS, BUS], None, None),
    ("an EEPROM on a busy bus, more", lambda: device(0x50), shown("i2c-1", BUS + ",eeprom24"), [BUS], None),
    (
        "a further EEPROM, more",
        lambda: device(0x50),
        shown("i2c-1", BUS + ",eeprom24", "i2c-1,eeprom24"),
        shown("i2c-1", BUS + ",eeprom24"),
        None,
    ),
    ("a clock on a busy bus, more", lambda: device(0x68), shown("i2c-1", BUS + ",ds1307"), [BUS], None),
    ("an LM75 on a busy bus, more", lambda: device(0x48), shown("i2c-1", BUS + ",lm75"), [BUS], None),
    ("SPI, four samples a bit", lambda: spi(2), [SPI], None, None),
    ("SPI, two samples a bit", lambda: spi(1), [SPI], None, None),
    ("SPI, two samples a bit, and a flash memory", lambda: spi(1), [SPI + ",flash25"], None, None),
    ("a flash memory, four samples a bit, more", lambda: spi(2), shown("spi-1", SPI + ",flash25"), [SPI], None),
    ("a serial line full of bytes", line, ["--rate", "24000000", LINE + "115200"], None, None),
    (
        "the same as binary data",
        line,
        ["--rate", "24000000", "--binary", "uart-1:data", LINE + "115200"],
        None,
        None,
    ),
    ("Modbus, more", modbus, shown("uart-1", f"{LINE}19200,modbus:gap={modbus_capture.GAP}"), [LINE + "19200"], None),
    ("MIDI, more", midi, shown("uart-1", LINE + "31250,midi"), [LINE + "31250"], None),
    ("a 1-Wire line", onewire, [ONEWIRE], None, None),
    (
        "a DS18B20 on it, more",
        onewire,
        shown("onewire_link-1,onewire_net-1", ONEWIRE + ",ds18b20"),
        [ONEWIRE],
        None,
    ),
    ("find D0=r, a line for every fourth byte", bus, find("D0=r"), None, None),
    ("find D7=r, on a steady channel", bus, find("D7=r"), None, None),
    *[wide(channels, steady) for steady in (False, True) for channels in (16, 64, 128)],
    ("I2C as a dump", lambda: piped("vcd_capture.py"), ["--format", "vcd", BUS], None, None),
    (
        "find on a steady channel of a dump",
        lambda: piped("vcd_capture.py"),
        find("--format", "vcd", "D7=r"),
        None,
        None,
    ),
    (
        "the same with 200 channels more",
        lambda: piped("vcd_capture.py", "200"),
        find("--format", "vcd", "D7=r"),
        None,
        None,
    ),
    (
        "a dump of 64 channels that are bound",
        wide_dump,
        find("--format", "vcd", ",".join(f"c{number}=h" for number in range(64))),
        None,
        None,
    ),
    ("I2C as a table, a record a sample", lambda: piped("csv_capture.py"), TABLE, None, None),
    ("I2C as a table, a record a change", lambda: piped("csv_capture.py", "times"), CHANGES, None, None),
    (
        "a table whose fields are quoted, a sample",
        quoted,
        TABLE,
        None,
        TRANSACTIONS * 120,
    ),
    ("a line with a quote inside a field", odd_quotes, ["--format", "csv", *find("D0=r")], None, 1000),
    (
        "a table without quotes, a sample",
        lambda: piped("csv_capture.py"),
        TABLE,
        None,
        TRANSACTIONS * 120,
    ),
]


def count(words, path):
    """The instructions of a run. On no input a dump has no header, and a table no channels: such runs are refused."""
    command = ["valgrind", "--tool=callgrind", "--callgrind-out-file=/dev/null", built(), *words]
    with open(path, "rb") as capture:
        done = subprocess.run(command, stdin=capture, stdout=subprocess.DEVNULL, stderr=subprocess.PIPE)
    if done.returncode not in ([0, 1, 3] if path == os.devnull else [0]):
        sys.exit(f"{words} ends with {done.returncode}: {done.stderr.decode()}")
    return int(re.search(rb"Collected : (\d+)", done.stderr).group(1))


def alone(words):
    return words if "find" in words else ["--threads", "no", *words]


def figure(capture, words, without, units, folder):
    path = os.path.join(folder, "capture")
    with open(path, "wb") as file:
        file.write(capture())
    taken = count(alone(words), path) - count(alone(words), os.devnull)
    if without is not None:
        taken -= count(alone(without), path) - count(alone(without), os.devnull)
    return taken / (units or os.path.getsize(path))


def made_figure():
    few, many = 1000, 11000
    counts = [count(["--job", "make", "--count", str(number)], os.devnull) for number in (few, many)]
    return (counts[1] - counts[0]) / (120 * (many - few))


def threads_figure(folder):
    """How many times the instructions of one thread 24 buses take with threads. How often who waits looks again
    is a matter of time, so the last digits vary."""
    path = os.path.join(folder, "capture")
    with open(path, "wb") as file:
        file.write(bus())
    words = [BUS] * 24
    return count(["--threads", "yes", *words], path) / count(alone(words), path)


def main():
    parser = argparse.ArgumentParser(
        description=__doc__, formatter_class=argparse.RawDescriptionHelpFormatter
    )
    parser.add_argument("wanted", metavar="WORD", nargs="*", help="counts the lines alone that have one of these")
    wanted = parser.parse_args().wanted
    built()
    with tempfile.TemporaryDirectory() as folder:
        for name, capture, words, without, units in FIGURES:
            if not wanted or any(word in name for word in wanted):
                found = figure(capture, words, without, units, folder)
                print(f"{name}: {found:.1f} a {'sample' if units else 'byte'}", flush=True)
        if not wanted or any(word in "--job make" for word in wanted):
            print(f"--job make: {made_figure():.1f} a sample", flush=True)
        if not wanted or any(word in "24 buses with threads" for word in wanted):
            print(f"24 buses with threads: {threads_figure(folder):.2f} times those of one thread")


if __name__ == "__main__":
    main()
