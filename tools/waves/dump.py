"""A capture and its notes as a value change dump with strings, and as GTKWave is to show it."""
import heapq
import math
import os
import re

# Further bytes are written as \x and two digits: a blank would end the text.
ODD = re.compile(r"[^!-\[\]-~]")
# How many notes of the usual length GTKWave shows at first, and in how many pixels.
NOTES_SHOWN, PIXELS = 12, 1220
MOST_KNOWN = 20000
NEVER = (math.inf, None)


def code_of(number):
    """The code of a variable: a byte from `!` to `~`, or more of them."""
    text = ""
    while True:
        text += chr(33 + number % 94)
        number = number // 94 - 1
        if number < 0:
            return text


def escaped(text):
    return ODD.sub(lambda odd: "".join(f"\\x{byte:02x}" for byte in odd[0].encode()), text)


def name_of(text):
    """A name without blanks, as a variable of a dump has it."""
    return re.sub(r"[^!-~]", "_", text) or "_"


def note_changes(notes, start, step):
    """The changes of the rows, by their times: lists of a row and its new text, empty between two notes.

    A note of one sample is shown up to the next one of its row, but no longer than a sixth of the usual note.
    """
    short = [max(1, span // 6) * step for span in notes.spans()]
    # when each row's note ends, and these ends with their rows
    open_until, ends = {}, []
    at, count = 0, len(notes)
    while at < count or ends:
        first = start + notes.firsts[at] * step if at < count else math.inf
        here = at
        while at < count and start + notes.firsts[at] * step == first:
            at += 1
        begun = set(notes.rows[here:at])
        while ends and ends[0][0] <= first:
            end, over = ends[0][0], []
            while ends and ends[0][0] == end:
                row = heapq.heappop(ends)[1]
                if open_until.get(row) == end and not (end == first and row in begun):
                    del open_until[row]
                    over.append((row, None))
            if over:
                yield end, over
        for number in range(here, at):
            row, last = notes.rows[number], notes.lasts[number]
            wide = last > notes.firsts[number]
            end = start + (last + 1) * step if wide else first + short[row]
            open_until[row] = end
            heapq.heappush(ends, (end, row))
        if here < at:
            yield first, [(notes.rows[number], notes.texts[number]) for number in range(here, at)]


class Dump:
    """A dump that is written, with the codes of its channels and rows."""

    def __init__(self, file, capture, notes):
        self.file, self.capture, self.notes = file, capture, notes
        many = len(capture.channels)
        self.wires = [code_of(number) for number in range(many)]
        self.strings = [code_of(many + row) for row in range(len(notes.row_names))]
        self.moved = 0
        self.known = {}

    def header(self):
        yield f"$timescale {self.capture.unit} $end\n"
        scopes = ()
        for code, channel in zip(self.wires, self.capture.channels):
            wanted = channel.scopes or ("capture",)
            yield from scope_lines(scopes, wanted)
            yield f"$var wire 1 {code} {name_of(channel.name)} $end\n"
            scopes = wanted
        yield from scope_lines(scopes, ("notes",))
        for code, name in zip(self.strings, self.notes.row_names):
            yield f"$var string 1 {code} {name} $end\n"
        yield "$upscope $end\n$enddefinitions $end\n"

    def levels(self, before, value):
        """The lines of the channels that changed; of all where nothing stands before."""
        changed = value ^ before if before is not None else -1
        if before is not None:
            self.moved |= changed
        lines = "".join(f"{value >> at & 1}{code}\n" for at, code in enumerate(self.wires) if changed >> at & 1)
        if len(self.known) < MOST_KNOWN:
            self.known[before, value] = lines
        return lines

    def texts(self, changes):
        """The lines of rows that changed."""
        store, strings = self.notes.store, self.strings
        return "".join(
            f"s{escaped(store[text]) if text is not None else ''} {strings[row]}\n" for row, text in changes
        )

    def write(self):
        """Writes the dump while the capture is read."""
        self.file.writelines(self.header())
        changes, begun, before, later = iter(()), False, None, NEVER
        for batch in self.capture.batches():
            lines = []
            if batch and not begun:
                begun = True
                changes = note_changes(self.notes, self.capture.start, self.capture.step)
                before, later = self.first(batch.pop(0), changes, lines)
            known, next_time = self.known, later[0]
            for time, value in batch:
                while next_time < time:
                    lines.append(f"#{next_time}\n{self.texts(later[1])}")
                    later = next(changes, NEVER)
                    next_time = later[0]
                text = known.get((before, value)) or self.levels(before, value)
                lines.append(f"#{time}\n{text}")
                if next_time == time:
                    lines.append(self.texts(later[1]))
                    later = next(changes, NEVER)
                    next_time = later[0]
                before = value
            self.file.write("".join(lines))
        end = self.capture.end
        if end is not None:
            while later[0] <= end:
                self.file.write(f"#{later[0]}\n{self.texts(later[1])}")
                later = next(changes, NEVER)
            self.file.write(f"#{end}\n")

    def first(self, change, changes, lines):
        """Puts the first lines of the body: all levels and the text of each row at the first time."""
        time, value = change
        texts = dict.fromkeys(range(len(self.strings)))
        later = next(changes, NEVER)
        while later[0] <= time:
            texts.update(later[1])
            later = next(changes, NEVER)
        lines.append(f"#{time}\n{self.levels(None, value)}{self.texts(texts.items())}")
        return value, later


def scope_lines(old, new):
    """The lines between variables of one scope and variables of another."""
    same = 0
    while same < min(len(old), len(new)) and old[same] == new[same]:
        same += 1
    for _ in old[same:]:
        yield "$upscope $end\n"
    for scope in new[same:]:
        yield f"$scope module {name_of(scope)} $end\n"


def view_lines(path, dump, drawn):
    """What GTKWave opens: the channels that are drawn and all rows, from the first note on."""
    capture, notes = dump.capture, dump.notes
    spans = sorted(notes.spans()) or [16]
    usual = spans[len(spans) // 2] * capture.step
    first = notes.firsts[0] * capture.step if len(notes) else 0
    begin = max(capture.start, capture.start + first - usual)
    shown = usual * NOTES_SHOWN
    if capture.end is not None:
        shown = min(shown, capture.end - begin)
    zoom = math.log2(max(1, shown / PIXELS * 192))
    yield f'[dumpfile] "{os.path.abspath(path)}"\n[timestart] {begin}\n[size] 1500 500\n[pos] 0 0\n'
    yield f"*-{zoom:.6f} {begin} -1 -1\n[sst_expanded] 0\n[signals_width] 150\n"
    for place, channel in enumerate(capture.channels):
        if drawn >> place & 1:
            scopes = channel.scopes or ("capture",)
            yield f"@28\n{'.'.join(map(name_of, (*scopes, channel.name)))}\n"
    for name in notes.row_names:
        yield f"@820\nnotes.{name}\n"


def write(path, capture, notes, shows_all):
    """Writes the dump at this path, and beside it what GTKWave opens."""
    with open(path, "w", encoding="latin-1") as file:
        dump = Dump(file, capture, notes)
        dump.write()
    view = (path[: -len(".vcd")] if path.endswith(".vcd") else path) + ".gtkw"
    with open(view, "w", encoding="latin-1") as file:
        file.writelines(view_lines(path, dump, -1 if shows_all or not dump.moved else dump.moved))
