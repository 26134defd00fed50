"""Captures as `ldecode` reads them, in blocks: raw samples, value change dumps and tables.

A capture has its channels and gives batches of changes, each a time and the levels of all channels as one
number, the first channel lowest. Times are in its `unit`, of which a sample has `step`; the first change is at
`start`, and `end` is the time of the last sample once all was read. A fault ends it, and stands in `fault`.
"""
import csv
import re
from fractions import Fraction
from itertools import chain
from typing import NamedTuple

BLOCK = 1 << 18
DIGITS = b"01xXzZ"
ONE = ord("1")
# How many changes are given at a time, where a block has more.
BATCH = 1 << 16
# Lines of a table and values of a table that are known by their text at a time.
MOST_KNOWN = 50000

MOST_WIDTH = 65535
UNITS = {"s": 15, "ms": 12, "us": 9, "ns": 6, "ps": 3, "fs": 0}
PICOS = 10**12


class Fault(Exception):
    """The capture can't be read from here on."""


class Channel(NamedTuple):
    """A channel: its number, its name as `ldecode` knows it or as it is called in the picture, its scopes."""

    number: int
    name: str
    scopes: tuple = ()


class Variable(NamedTuple):
    """A variable of a dump: its first channel, how many it has, its name and its scopes."""

    first: int
    width: int
    name: str
    scopes: tuple


def chosen(channels, wires):
    """The channels that are named, by name or else by number; all where none is named."""
    if not wires:
        return channels
    names = {channel.name: channel for channel in reversed(channels)}
    found = []
    for wire in wires.split(","):
        name, _, label = wire.partition("=")
        channel = names.get(name)
        if channel is None and re.fullmatch(r"\d{1,4}", name) and int(name) < len(channels):
            channel = channels[int(name)]
        if channel is None:
            raise Fault(f"there is no channel {name}")
        found.append(channel._replace(name=label or channel.name))
    return found


def step_of(rate):
    """The coarsest unit of which a sample at this rate is a whole number, and that number."""
    femtos = Fraction(10**15) / rate
    for unit, power in UNITS.items():
        if femtos.denominator == 1 and femtos.numerator % 10**power == 0:
            return f"1 {unit}", femtos.numerator // 10**power
    return "1 fs", max(1, round(femtos))


class Capture:
    """What captures of every form share."""

    def __init__(self, file, wires):
        self.file, self.wires = file, wires
        self.channels = []
        self.start, self.end, self.fault = 0, None, None
        # the changes that were read and not given yet
        self.batch = []
        self.unit, self.step = "1 us", 1

    def choose(self, channels):
        """Takes those of these channels that are asked for."""
        self.channels = chosen(channels, self.wires)

    @property
    def femtos(self):
        """Femtoseconds of a unit."""
        count, unit = re.fullmatch(r"(\d+)\s*(\w+)", self.unit).groups()
        return int(count) * 10 ** UNITS[unit]

    def samples(self):
        """How many samples there are, once all was read."""
        return 0 if self.end is None else (self.end - self.start) // self.step + 1

    def give(self):
        """The changes that were read, which are then given."""
        batch, self.batch = self.batch, []
        return batch

    def batches(self):
        """The changes, a list at a time; a fault ends them."""
        try:
            for _ in self.read():
                yield self.give()
        except Fault as fault:
            self.fault = str(fault)
        yield self.give()

    def read(self):
        """Puts changes into the batch, and stops now and then for them to be given."""
        raise NotImplementedError


class Raw(Capture):
    """Raw samples: a unit of bytes each, the lowest byte first."""

    def __init__(self, file, wires, channels, rate):
        super().__init__(file, wires)
        self.unit, self.step = step_of(rate)
        self.width = (channels + 7) // 8
        self.choose([Channel(number, f"D{number}") for number in range(channels)])

    def read(self):
        picks = [(channel.number, 1 << place) for place, channel in enumerate(self.channels)]
        levels = {}

        def levels_of(unit):
            word = int.from_bytes(unit, "little")
            found = sum(bit for number, bit in picks if word >> number & 1)
            if len(levels) < MOST_KNOWN:
                levels[unit] = found
            return found

        runs = re.compile(b"(?s)(" + b"." * self.width + rb")\1*")
        count, before, size = 0, None, self.width * (BLOCK // self.width)
        while block := self.file.read(size):
            rest = len(block) % self.width
            block = block[: len(block) - rest]
            batch = self.batch
            for run in runs.finditer(block):
                unit = run[1]
                value = levels.get(unit)
                if value is None:
                    value = levels_of(unit)
                if value != before:
                    batch.append(((count + run.start() // self.width) * self.step, value))
                    before = value
            count += len(block) // self.width
            if count:
                self.end = (count - 1) * self.step
            yield
            if rest:
                raise Fault("it ends within a sample")


class Dump(Capture):
    """A value change dump; x and z are low, as `ldecode` reads them."""

    def __init__(self, file, wires, down):
        super().__init__(file, wires)
        self.unit, self.step = None, down
        self.parts = self.tokens()
        self.left = []
        self.codes, self.variables = {}, []
        self.header()

    def tokens(self):
        """The tokens of the file, a list at a time."""
        rest = b""
        while block := self.file.read(BLOCK):
            text = rest + block
            tokens = text.split()
            rest = tokens.pop() if tokens and not text[-1:].isspace() else b""
            yield tokens
        yield [rest] if rest else []

    def header(self):
        """Reads up to `$enddefinitions`, and keeps the tokens that were read already."""
        channels, scopes, section = [], [], None
        for tokens in self.parts:
            for place, token in enumerate(tokens):
                if section is None:
                    section = [token] if token.startswith(b"$") and token != b"$end" else None
                elif token != b"$end":
                    section.append(token)
                elif section[0] == b"$enddefinitions":
                    self.left = tokens[place + 1 :]
                    self.choose(channels)
                    if self.unit is None:
                        raise Fault("it has no time scale")
                    return
                else:
                    self.declare([word.decode("latin-1") for word in section], channels, scopes)
                    section = None
        raise Fault("it is no value change dump, or its header was cut")

    def declare(self, section, channels, scopes):
        """Takes what a section of the header says."""
        kind, *words = section
        if kind == "$timescale":
            self.unit = re.sub(r"(\d+)", r"\1 ", "".join(words))
            if not re.fullmatch(r"(1|10|100) (s|[munpf]s)", self.unit):
                raise Fault("its time scale is odd")
        elif kind == "$scope":
            scopes.append(words[-1] if words else "")
        elif kind == "$upscope" and scopes:
            scopes.pop()
        elif kind == "$var" and len(words) > 3 and words[0] not in ("real", "realtime", "string"):
            if not re.fullmatch(r"\d+", words[1]) or not 1 <= int(words[1]) <= MOST_WIDTH:
                raise Fault(f"the variable {words[3]} has an odd size")
            width, code = int(words[1]), words[2]
            name = "".join(words[3:]) if width == 1 else words[3]
            self.codes.setdefault(code.encode("latin-1"), []).append((len(channels), width))
            self.variables.append(Variable(len(channels), width, name, tuple(scopes)))
            for bit in range(width):
                bit_name = name if width == 1 else f"{name}.{bit}"
                channels.append(Channel(len(channels), bit_name, tuple(scopes)))

    def masks(self):
        """What each token of a scalar does, and the places of the channels of each other code."""
        places = {}
        for place, channel in enumerate(self.channels):
            places.setdefault(channel.number, []).append(place)
        ups, downs, wide = {}, {}, {}
        for code, variables in self.codes.items():
            bits = [
                (bit, place)
                for number, width in variables
                for bit in range(width)
                for place in places.get(number + bit, ())
            ]
            if all(width == 1 for _, width in variables):
                mask = sum(1 << place for _, place in bits)
                ups[b"1" + code] = mask
                for digit in (b"0", b"x", b"X", b"z", b"Z"):
                    downs[digit + code] = ~mask
            wide[code] = bits
        return ups, downs, wide

    def read(self):
        ups, downs, wide = self.masks()
        now, value, before, digits, skips, comments = None, 0, None, None, False, False
        for tokens in chain([self.left], self.parts):
            for token in tokens:
                if digits is not None:
                    value = changed(value, digits, wide.get(token, ()))
                    digits = None
                elif skips:
                    skips = False
                elif comments:
                    comments = token != b"$end"
                elif token in ups:
                    value |= ups[token]
                elif token in downs:
                    value &= downs[token]
                elif token[:1] == b"#" and token[1:].isdigit():
                    time = int(token[1:])
                    if now is None:
                        self.start = time
                    elif time < now:
                        raise Fault(f"the time {time} follows {now}")
                    elif time > now and value != before:
                        self.batch.append((now, value))
                        before = value
                    now = self.end = time
                elif token[0] in b"bB" and len(token) > 1 and not token[1:].strip(DIGITS):
                    digits = token[1:]
                elif token[0] in DIGITS and len(token) > 1:
                    value = changed(value, token[:1], wide.get(token[1:], ()))
                elif token[0] in b"rRsS":
                    skips = True
                elif token == b"$comment":
                    comments = True
                elif token[0] not in b"$":
                    raise Fault(f"{token[:20].decode('latin-1')!r} is no change")
            if len(self.batch) > BATCH:
                yield
        if now is not None and value != before:
            self.batch.append((now, value))


def changed(value, digits, bits):
    """The levels after a value of these digits, of which the last one is the lowest bit."""
    # a shorter value goes on with 0 or x, which are both low
    ups = {bit for bit, digit in enumerate(reversed(digits)) if digit == ONE}
    for bit, place in bits:
        value = value | 1 << place if bit in ups else value & ~(1 << place)
    return value


class Table(Capture):
    """A table of 0 and 1: a record is a sample, or a change with its time in seconds."""

    def __init__(self, file, wires, rate, has_times, has_header):
        super().__init__(file, wires)
        self.rate, self.has_times = rate, int(has_times)
        self.unit, self.step = step_of(rate)
        self.line, self.left, self.width = 0, [], 0
        self.lists = self.lines()
        fields = self.head(has_header)
        self.width = len(fields)
        bare = [f"D{place}" for place in range(self.width - self.has_times)]
        names = fields[self.has_times :] if has_header else bare
        self.choose([Channel(number, name) for number, name in enumerate(names)])

    def lines(self):
        """The lines of the file, a list at a time."""
        while lines := self.file.readlines(BLOCK):
            yield lines

    def head(self, has_header):
        """The fields of the first record; if it has the names, the lines that are left begin after it."""
        for lines in self.lists:
            for place, line in enumerate(lines):
                record = cleaned(line)
                if record:
                    self.line += place + has_header
                    self.left = lines[place + has_header :]
                    return fields_of(record)
            self.line += len(lines)
        return []

    def value(self, fields):
        """The levels that the fields of a record say."""
        if len(fields) != self.width:
            raise Fault(f"line {self.line} has {len(fields)} fields, and not {self.width}")
        levels = 0
        for place, channel in enumerate(self.channels):
            field = fields[channel.number + self.has_times]
            if field not in ("0", "1"):
                raise Fault(f"line {self.line}: {field[:20]!r} is neither 0 nor 1")
            levels |= (field == "1") << place
        return levels

    def read(self):
        lists = chain([self.left], self.lists)
        yield from self.timed(lists) if self.has_times else self.rows(lists)

    def rows(self, lists):
        count, before, same, known = 0, None, None, {}
        for lines in lists:
            for line in lines:
                self.line += 1
                if line != same:
                    value = known.get(line)
                    if value is None:
                        record = cleaned(line)
                        if not record:
                            continue
                        value = self.value(fields_of(record))
                        if len(known) < MOST_KNOWN:
                            known[line] = value
                    if value != before:
                        self.batch.append((count * self.step, value))
                        before = value
                    same = line
                self.end = count * self.step
                count += 1
            yield

    def timed(self, lists):
        known, start, last, sample, before, value = {}, None, None, 0, None, None
        num, den = self.rate.numerator, self.rate.denominator * PICOS
        for lines in lists:
            for line in lines:
                self.line += 1
                head, _, rest = line.partition(b",")
                time = picos(head)
                levels = known.get(rest) if time is not None else None
                if levels is None:
                    record = cleaned(line)
                    if not record:
                        continue
                    time, levels = self.record(fields_of(record))
                    if len(known) < MOST_KNOWN:
                        known[rest] = levels
                if start is None:
                    start = last = time
                if time < last:
                    raise Fault(f"line {self.line}: its time goes back")
                now, last = (time - start) * num // den, time
                if now > sample and value != before:
                    self.batch.append((sample * self.step, value))
                    before = value
                sample, value = now, levels
                self.end = sample * self.step
            yield
        if value != before:
            self.batch.append((sample * self.step, value))

    def record(self, fields):
        """The time and the levels that the fields of a record say."""
        levels = self.value(fields)
        time = picos(fields[0].encode())
        if time is None:
            raise Fault(f"line {self.line}: {fields[0][:20]!r} is no time in seconds")
        return time, levels


SECONDS = re.compile(rb"([-+]?)(\d{1,10})(?:\.(\d+))?")


def picos(text):
    """A time in seconds as whole picoseconds, None where it is none."""
    match = SECONDS.fullmatch(text)
    if not match:
        return None
    sign, whole, parts = match.groups()
    time = int(whole) * PICOS + int((parts or b"")[:12].ljust(12, b"0"))
    return -time if sign == b"-" else time


def cleaned(line):
    """The text of a record, empty where the line is none."""
    line = line.replace(b"\r", b"").rstrip(b"\n")
    while line.startswith(b"\xef\xbb\xbf"):
        line = line[3:]
    text = line.decode("utf-8", "replace")
    return "" if text.strip(" \t")[:1] in ("", ";", "#") else text


def fields_of(record):
    """The fields of a record, without the blanks round them."""
    fields = next(csv.reader([record])) if '"' in record else record.split(",")
    return [field.strip(" \t") for field in fields]


def opened(file, words):
    """The capture in a file, as the words of the command line say."""
    rate = Fraction(words.rate)
    if words.format == "vcd":
        return Dump(file, words.wires, words.down)
    if words.format == "csv":
        return Table(file, words.wires, rate, words.csv == "times", words.header == "yes")
    return Raw(file, words.wires, words.channels, rate)
