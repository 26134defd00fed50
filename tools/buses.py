"""The samples of buses and lines, by which all scripts draw.

A bus is a list of samples, a byte each, with a line on each bit; a line is its levels, 0 and 1.
"""


def draws(seed):
    """Numbers that are always the same for a seed."""
    number = seed
    while True:
        number = (number * 1103515245 + 12345) % 2**31
        yield number // 65536 % 256


class I2c:
    """An I2C bus: SCL is bit 0, SDA bit 1.

    SCL is low for `low` samples of a bit and then high for `high`; SDA changes `late` samples after the fall
    of SCL.
    """

    def __init__(self, late, low, high):
        self.late, self.low, self.high = late, low, high
        self.samples = bytearray()
        self.data = 1
        self.is_open = False

    def hold(self, clock, count):
        self.samples += bytes([clock | self.data << 1]) * count

    def bit(self, value):
        self.hold(0, self.late)
        self.data = value
        self.hold(0, self.low - self.late)
        self.hold(1, self.high)

    def start(self):
        """A START, which is a repeated one where no STOP stands before it."""
        if self.is_open:
            self.bit(1)
        self.is_open = True
        self.data = 0
        self.hold(1, self.high)

    def byte(self, value, acknowledged):
        for place in range(7, -1, -1):
            self.bit(value >> place & 1)
        self.bit(0 if acknowledged else 1)

    def segment(self, sent):
        """A START and bytes, each with whether it is acknowledged."""
        self.start()
        for value, acknowledged in sent:
            self.byte(value, acknowledged)
        self.hold(0, self.late)

    def stop(self, rest):
        """A STOP, and a free bus for so many samples."""
        self.bit(0)
        self.is_open = False
        self.data = 1
        self.hold(1, rest)


def bits_of(data):
    """The levels of a serial line, bit by bit: a start bit, eight data bits and a stop bit for each byte."""
    for byte in data:
        yield 0
        for place in range(8):
            yield byte >> place & 1
        yield 1


def sampled(levels, rate, baud):
    """The samples of levels that each last a bit; each begins at the sample that its time falls into."""
    line = bytearray()
    for number, level in enumerate(levels, 1):
        line += bytes([level]) * (number * rate // baud - len(line))
    return bytes(line)


# The select line of an SPI bus, active low.
SELECT = 8


def spi_transaction(mosi, miso, half):
    """Bytes on an SPI bus: SCK is bit 0, MOSI 1, MISO 2, the select line 3. Half a bit has so many samples."""
    if len(mosi) != len(miso):
        raise ValueError("both lines of a transaction have as many bytes")
    line = [0, 0]
    for out, back in zip(mosi, miso):
        for place in range(7, -1, -1):
            data = (out >> place & 1) << 1 | (back >> place & 1) << 2
            line += [data] * half + [data | 1] * half
    return line + [0, 0]


class OneWire:
    """A 1-Wire line at a million samples a second."""

    def __init__(self):
        self.samples = bytearray(b"\1" * 10)

    def hold(self, level, count):
        self.samples += bytes([level]) * count

    def reset(self):
        for level, count in (0, 480), (1, 30), (0, 120), (1, 350):
            self.hold(level, count)

    def bit(self, value):
        self.hold(0, 6 if value else 60)
        self.hold(1, 64 if value else 10)

    def byte(self, value):
        for place in range(8):
            self.bit(value >> place & 1)

    def search(self, devices):
        """The triples of a search that finds the first of these ROMs."""
        taking_part = devices
        for place in range(64):
            bits = [rom[place // 8] >> place % 8 & 1 for rom in taking_part]
            self.bit(all(bits))
            self.bit(not any(bits))
            self.bit(bits[0])
            taking_part = [rom for rom, bit in zip(taking_part, bits) if bit == bits[0]]


# What a transaction of a made capture has.
LENGTH = 120
NOTES = 8


def transaction(address, one, other, serial):
    """The samples of a write of two bytes, with a byte on a serial line, which is bit 2."""
    bus = I2c(late=0, low=2, high=2)
    bus.hold(1, 2)
    bus.segment([(address << 1, True), (one, True), (other, True)])
    bus.stop(4)
    line = sampled([1, *bits_of([serial]), 1], LENGTH // 12, 1)
    assert len(line) == len(bus.samples)
    return bytes(sample | level << 2 for sample, level in zip(bus.samples, line))


def made(count):
    """The transactions of the made capture of seed 7, one after another."""
    numbers = draws(7)
    for _ in range(count):
        address = 8 + next(numbers) % 112
        yield transaction(address, next(numbers), next(numbers), next(numbers))
