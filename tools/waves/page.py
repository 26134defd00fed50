"""A capture and its notes as one page of HTML, which fetches nothing.

Its data are numbers of seven bits a byte, the lowest first, with the highest bit set on all but the last, as
base64: of each channel the distances of its changes, and of the notes, in order, their row, the distance of the
first sample from that of the note before, the samples that follow it, and the number of the text.
"""
import base64
import json
import os

HERE = os.path.dirname(os.path.abspath(__file__))
# Where the template has its data.
PLACE = "<!--DATA-->"


def put(data, number):
    """Puts a number after these bytes."""
    while number > 127:
        data.append(number & 127 | 128)
        number >>= 7
    data.append(number)


def waves_of(capture):
    """For each channel the level that it has first, and the distances of its changes."""
    many = len(capture.channels)
    places = {1 << place: place for place in range(many)}
    first, before, last, waves = 0, None, [0] * many, [bytearray() for _ in range(many)]
    for batch in capture.batches():
        for time, value in batch:
            if before is None:
                before = first = value
                last = [time] * many
                continue
            moved = value ^ before
            before = value
            while moved:
                bit = moved & -moved
                moved ^= bit
                place = places[bit]
                distance = time - last[place]
                last[place] = time
                if distance < 128:
                    waves[place].append(distance)
                else:
                    put(waves[place], distance)
    return first, waves


def notes_of(notes):
    """The notes as bytes."""
    data, before = bytearray(), 0
    for row, first, last, text in zip(notes.rows, notes.firsts, notes.lasts, notes.texts):
        for number in (row, first - before, last - first, text):
            if number < 128:
                data.append(number)
            else:
                put(data, number)
        before = first
    return data


def embedded(name, data):
    """Bytes as a part of the page."""
    return f'<script type="text/plain" id="{name}">{base64.b64encode(data).decode()}</script>\n'


def data_lines(capture, notes, title, shows_all):
    """The parts of the page that are its data."""
    first, waves = waves_of(capture)
    shown = [place for place, wave in enumerate(waves) if wave or shows_all]
    names = [".".join((*channel.scopes, channel.name)) for channel in capture.channels]
    for number, place in enumerate(shown):
        yield embedded(f"wave{number}", waves[place])
        waves[place] = None
    yield embedded("notes", notes_of(notes))
    yield '<script type="application/json" id="texts">['
    for number in range(len(notes.store)):
        text = json.dumps(notes.store[number]).replace("<", "\\u003c")
        yield ("," if number else "") + text
    yield "]</script>\n"
    facts = {
        "title": title,
        "start": capture.start,
        "end": capture.start if capture.end is None else capture.end,
        "step": capture.step,
        "femtos": capture.femtos,
        "waves": [{"name": names[place], "first": first >> place & 1} for place in shown],
        "rows": notes.row_names,
        "instances": notes.row_instances,
        "count": len(notes),
    }
    text = json.dumps(facts).replace("<", "\\u003c")
    yield f'<script type="application/json" id="facts">{text}</script>\n'


def write(path, capture, notes, shows_all, title):
    """Writes the page at this path."""
    with open(os.path.join(HERE, "page.html"), encoding="utf-8") as file:
        before, after = file.read().split(PLACE)
    with open(path, "w", encoding="utf-8") as file:
        file.write(before)
        file.writelines(data_lines(capture, notes, title, shows_all))
        file.write(after)
