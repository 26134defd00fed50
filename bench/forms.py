"""A capture in each form that is read, for the scripts that compare them; run by none.

Each form is made from raw samples of one byte: the words that read it, and its bytes.
"""
import os

from drawn import draws  # first, as it tells where the next two are
from csv_capture import changes as csv_changes
from csv_capture import rows
from vcd_capture import changes as vcd_changes
from vcd_capture import header


def text(lines):
    return "".join(lines).encode()


def wide(samples, unit):
    """Units of so many bytes, with noise in the upper ones, which no channel asks for."""
    noise = draws(3)
    return b"".join(bytes([sample]) + bytes(next(noise) for _ in range(unit - 1)) for sample in samples)


def quoted(line):
    return ",".join(f'"{field}"' for field in line.rstrip("\n").split(",")) + "\n"


RAW = ["--channels", "8"]
ROWS = ["--format", "csv"]

# The name of each form, the words that read it, and how it is made.
FORMS = {
    "raw": (RAW, bytes),
    "raw, 16 channels": (["--channels", "16"], lambda samples: wide(samples, 2)),
    "raw, 128 channels": (["--channels", "128"], lambda samples: wide(samples, 16)),
    "vcd": (["--format", "vcd"], lambda samples: text([*header(0), *vcd_changes(samples)])),
    "rows": (ROWS, lambda samples: text(rows(samples))),
    "rows with blanks": (ROWS, lambda samples: text(rows(samples)).replace(b",", b", ")),
    "rows in quotes": (ROWS, lambda samples: text(map(quoted, rows(samples)))),
    "rows with CR": (ROWS, lambda samples: text(rows(samples)).replace(b"\n", b"\r\n")),
    "times": ([*ROWS, "--csv", "times"], lambda samples: text(csv_changes(samples))),
}


def named(words, form):
    """Words with the names that the channels have in a form."""
    if form != "times":
        return words
    return [word.replace("D0", "Channel 0").replace("D1", "Channel 1").replace("D2", "Channel 2") for word in words]


def made_in(form, samples):
    """The words that read a form, and its bytes."""
    words, make = FORMS[form]
    return words, make(samples)


def cut_in(form, samples, count):
    """A capture, and how many bytes of it are those of the first so many samples alone."""
    whole = FORMS[form][1](samples)
    front = FORMS[form][1](samples[:count])
    return whole, len(os.path.commonprefix([whole, front]))
