#!/usr/bin/env python3
"""Writes a table of numbers as a raw capture, a sample a record.

A value of LEVEL or more is high (0.5 where none is given), so a table of voltages is read too. The columns
that are named, by their numbers from 0 on, become D0, D1 and so on in this order; all where none is named. A
record without a number in one of them is passed over: such are the names, the units and the comments of an
export. A sample has as many bytes as the channels need.

What stands between the fields is found at the first record: a tab, else a semicolon, else a comma. Between
tabs and semicolons a number may have a decimal comma. Where commas stand between the fields, decimal commas
can't be told from these: so a record is refused that has more fields than the names or another number of them
than the record before it, and so are digits such as 05 or 000001, which rather stand after a decimal comma. A
table with decimal points and decimal commas is refused too. `--decimal` says which it is, where one knows.

A table of changes with their times isn't read so: `ldecode --format csv --csv times` reads it.

    tools/raw_capture.py < capture.csv > capture.raw
    tools/raw_capture.py 1.6 1 2 < scope.csv > capture.raw
"""
import argparse
import re
import sys

SEPARATORS = "\t;,"
COMMENTS = ("#", ";")
NUMBER = re.compile(r"[-+]?(\d+\.?\d*|\.\d+)([eE][-+]?\d+)?")
# Digits that nobody writes as a whole number: rather what stands after a decimal comma.
FRACTION = re.compile(r"0\d+")


class Refused(Exception):
    """The table can be read in two ways."""


def number(field, has_commas):
    """The number in a field, None where it has none. With a decimal comma it has no point."""
    if has_commas and "," in field:
        if "." in field and NUMBER.fullmatch(field.replace(".", "").replace(",", "")):
            raise Refused(f"{field} has points and commas")
        field = field.replace(",", ".")
    return float(field) if NUMBER.fullmatch(field) else None


class Table:
    """The records of a table, one after another: the numbers of the columns that are named, or of all."""

    def __init__(self, columns, decimal):
        self.columns = columns
        self.decimal = decimal
        self.separator = None
        # How many fields the last record has, or the names before the first one.
        self.width = 0
        self.marks = set()

    def chosen(self, fields):
        """The fields of the columns that are named; none where one of these isn't there."""
        if not self.columns:
            return fields
        return [fields[column] for column in self.columns] if max(self.columns) < len(fields) else []

    def split(self, line, separator):
        """The fields of a line, and the numbers that are asked for; none of these where one is no number."""
        fields = [field.strip().strip('"') for field in line.split(separator)]
        has_commas = separator != "," and self.decimal != "point"
        values = [number(field, has_commas) for field in self.chosen(fields)]
        return fields, [] if None in values else values

    def record(self, line):
        """The numbers of a line that are asked for; none where it is no record."""
        marks = SEPARATORS if self.decimal != "comma" else SEPARATORS[:2]
        for separator in self.separator or [mark for mark in marks if mark in line] or ["\n"]:
            fields, values = self.split(line, separator)
            if values:
                self.check(fields, separator)
                self.separator = separator
                return values
        if self.separator is None:
            self.width = line.count(",") + 1
        return []

    def check(self, fields, separator):
        """Refuses a record that can be read in two ways."""
        if self.decimal:
            return
        if separator != ",":
            self.marks |= {mark for field in self.chosen(fields) for mark in ".," if mark in field}
            if len(self.marks) > 1:
                raise Refused("a decimal comma in one field, a point in another")
            return
        many = len(fields) - next((at for at, field in enumerate(reversed(fields)) if field), 0)
        if self.width > 1 and (many > self.width or self.separator and many != self.width):
            raise Refused(f"{many} fields, {self.width} before: are these decimal commas?")
        digits = next((field for field in fields if FRACTION.fullmatch(field)), None)
        if digits and not any("." in field for field in fields):
            raise Refused(f"does {digits} stand after a decimal comma?")
        self.width = many


def samples(lines, level, columns, decimal):
    table = Table(columns, decimal)
    for place, line in enumerate(lines, 1):
        line = line.strip("\ufeff\r\n ")
        if not line or line.startswith(COMMENTS):
            continue
        try:
            values = table.record(line)
        except Refused as fault:
            raise Refused(f"line {place}: {fault}") from None
        if values:
            word = sum((value >= level) << bit for bit, value in enumerate(values))
            yield word.to_bytes((len(values) + 7) // 8, "little")


def main():
    parser = argparse.ArgumentParser(
        description=__doc__, formatter_class=argparse.RawDescriptionHelpFormatter
    )
    parser.add_argument("--decimal", choices=["point", "comma"], help="what stands before the fraction")
    parser.add_argument("level", metavar="LEVEL", nargs="?", type=float, default=0.5)
    parser.add_argument("columns", metavar="COLUMN", nargs="*", type=int)
    words = parser.parse_args()
    try:
        for sample in samples(sys.stdin, words.level, words.columns, words.decimal):
            sys.stdout.buffer.write(sample)
    except Refused as fault:
        sys.exit(f"raw_capture.py: {fault}; --decimal says which")


if __name__ == "__main__":
    main()
