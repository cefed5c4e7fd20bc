"""Records of grid series and what crates/cases must print of them, by Rules 4.1 to 4.7 and 9.1 to 9.5 (docs/RULES.md)
and Python's datetime: shared by the parts of tests/cases.py that have such records.

It knows nothing of the code under test. tests/grid.py works the windows out in two ways, from a whole series and along
the days; where all days were taken, the two are held against each other. Days count from 1, quarters and positions in a
day from 0.
"""
import struct

import grid
from editions import TODAYS, picked, step
from grid import Days, place
from layout import period_run
from recipes import MOST, Patch, handed_out, offered, patch_bytes, series_of
from year import sheet_bytes

FILL = 170  # what the lent bytes hold before a call
ROOM = 64


# The lent buffer

def lent(sheet=b""):
    """The 64 bytes after a call: those of the sheet, and then what they held."""
    return (sheet + bytes([FILL] * ROOM)[len(sheet):]).hex()


def filled(year, level, answer):
    """The number with its figures, and the 64 bytes: the sheet's for 0."""
    said, windows = answer
    return said, lent(sheet_bytes(year, level, windows) if windows is not None else b"")


def whole(year, level, series, room, editions=TODAYS):
    """14 comes before all else."""
    return ((14,), lent()) if room < 56 else filled(year, level, grid.whole(year, level, series, editions))


def closed(days, room):
    """Before an accepted opening there is no year and no level, and nothing to fill."""
    if room < 56:
        return (14,), lent()
    said, windows = days.close()
    return filled(days.year, days.level, (said, windows)) if said == (0,) else (said, lent())


# Records

WIDTHS = {"W": ">HBB", "O": ">HB", "D": ">HH", "P": ">HH", "L": ">HH", "C": ">B"}


def record(length, base, patches, calls, editions=TODAYS):
    """The record's bytes and its lines. An E among the calls changes the list for those after it."""
    assert length <= MOST and len(patches) < 256 and len(calls) < 256
    data = b"G" + struct.pack(">HIBB", length, base, len(patches), len(calls))
    data += patch_bytes(patches)
    series = series_of(length, base, patches)
    days = Days()
    lines = [f"S {length}"]
    for kind, *words in calls:
        if kind == "E":
            own, line, editions = step(editions, *words)
            data += own
            lines.append(line)
            continue
        data += kind.encode() + struct.pack(WIDTHS[kind], *words)
        if kind == "W":
            answer, after = whole(words[0], words[1], series, words[2], editions)
            said = answer + (after,)
        elif kind == "O":
            said = days.open(*words, editions)
        elif kind == "D":
            said = offered(days, series, *words, editions)
        elif kind == "P":
            said = days.day(series[words[0]:words[0] + words[1]])
        elif kind == "L":
            said = handed_out(period_run, series, *words, editions)
        else:
            answer, after = closed(days, *words)
            said = answer + (after,)
        lines.append(" ".join([kind, *map(str, said)]))
    return data, lines


def count_of(year, editions=TODAYS):
    """Days of the period; any number will do for a year that has none."""
    return len(period_run(year).dates) if picked(editions, year) else 366


def both(year, level, base, patches, length=None, room=60, editions=TODAYS):
    """The whole series, and the same by days."""
    days = count_of(year, editions)
    calls = [("W", year, level, room), ("O", year, level), ("D", 1, days), ("C", room)]
    return (96 * days if length is None else length), base, patches, calls


def one(year, month, day, quarter, value):
    return Patch(place(year, month, day, quarter), 1, 1, value)
