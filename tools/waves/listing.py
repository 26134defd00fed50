"""A listing of `ldecode` as notes, in little memory: 800,000 of them take some 30 MB."""
import re
from array import array

# A note of a decoder, and a stop of a search.
NOTE = re.compile(rb"(\d+)-(\d+) ([a-z0-9_]+-\d+): (.*)")
STOP = re.compile(rb"(\d+): ([\d,]+)")
FIND = b"find"
# How many texts are known by their bytes at a time, so that equal ones are mostly kept once.
MOST_KNOWN = 100000
# How many notes of a row say how long a note of it usually is.
SOME = 10000
USUAL_SPAN = 8


class Texts:
    """Texts by their numbers, one after another in one piece of memory."""

    def __init__(self):
        self.bytes = bytearray()
        self.ends = array("Q", [0])
        self.known = {}

    def __len__(self):
        return len(self.ends) - 1

    def __getitem__(self, number):
        return self.bytes[self.ends[number] : self.ends[number + 1]].decode("utf-8", "replace")

    def number(self, text):
        """The number of a text, which is a new one where it isn't known."""
        found = self.known.get(text)
        if found is None:
            if len(self.known) == MOST_KNOWN:
                self.known.clear()
            found = self.known[text] = len(self)
            self.bytes += text
            self.ends.append(len(self.bytes))
        return found


class Notes:
    """The notes of a listing in order of their first samples, each in a row in which none overlaps another.

    A row is a line of the picture: an instance has one, and further ones where its notes overlap.
    """

    def __init__(self, lines):
        self.firsts, self.lasts, self.texts = array("Q"), array("Q"), array("L")
        self.instances = array("H")
        self.names = []
        self.store = Texts()
        self.read(lines)
        if any(self.firsts[at] > self.firsts[at + 1] for at in range(len(self) - 1)):
            self.sort()
        self.rows, self.row_names, self.row_instances = array("H"), [], []
        self.part()

    def __len__(self):
        return len(self.firsts)

    def read(self, lines):
        """Takes the notes of lines; any other line is passed over, as that of a checkpoint is."""
        numbers, number_of = {}, self.store.number
        for line in lines:
            match = NOTE.match(line)
            if match:
                first, last, name, text = match.groups()
            else:
                match = STOP.match(line)
                if not match:
                    continue
                first, last, name, text = match[1], match[1], FIND, match[2]
            if name not in numbers:
                numbers[name] = len(numbers)
                self.names.append(name.decode())
            self.firsts.append(int(first))
            self.lasts.append(int(last))
            self.texts.append(number_of(text))
            self.instances.append(numbers[name])

    def sort(self):
        """Puts the notes in order, as the listings of several parts aren't."""
        order = sorted(range(len(self)), key=self.firsts.__getitem__)
        for name in ("firsts", "lasts", "texts", "instances"):
            values = getattr(self, name)
            setattr(self, name, array(values.typecode, (values[at] for at in order)))

    def part(self):
        """Gives each note the first row of its instance that is free."""
        rows, ends = [[] for _ in self.names], []
        for first, last, instance in zip(self.firsts, self.lasts, self.instances):
            mine = rows[instance]
            for row in mine:
                if ends[row] < first:
                    ends[row] = last
                    break
            else:
                row = len(ends)
                mine.append(row)
                ends.append(last)
            self.rows.append(row)
        order = [row for mine in rows for row in mine]
        places = array("H", [0] * len(order))
        for place, row in enumerate(order):
            places[row] = place
        self.rows = array("H", (places[row] for row in self.rows))
        for instance, mine in enumerate(rows):
            for number in range(len(mine)):
                self.row_names.append(self.names[instance] + (f".{number + 1}" if number else ""))
                self.row_instances.append(instance)

    def spans(self):
        """For each row how many samples a note of it usually has after its first."""
        found = [[] for _ in self.row_names]
        for first, last, row in zip(self.firsts, self.lasts, self.rows):
            if last > first and len(found[row]) < SOME:
                found[row].append(last - first)
        return [sorted(spans)[len(spans) // 2] if spans else USUAL_SPAN for spans in found]
