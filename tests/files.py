"""What the window program and the statement program print for the bytes of any file, by Rules 10.1 to 10.7
(docs/RULES.md), and what they would print under another list of editions than today's.

It knows nothing of the code under test. Each text is worked out in two ways that are held against each other: from the
whole file, by the places at which its fields stand, with the answer over a whole series (`from_places`); and along the
bytes as they come, a field or a day at a time, with the answer of days given singly (`from_parts`). The two take runs
of windows apart in two ways, too. Places of bytes and quarters count from 0.
"""
import io
import re
import struct

import grid
import year as customer
from dates import SEASONS, days_of, legal_list
from editions import TODAYS, picked
from layout import length, period_run, year_run
from recipes import Patch, series_of
from year import LIMITS, READING_MOST, SHARE, USUAL, Terms, sheet_bytes

PRINTED_WINDOWS = "HLZ 2025 5\n1 18:00-18:15\n2 none\n3 none\n4 none\n"
PRINTED_STATEMENT = "0 1001500 2001500 1000000 1500000 500000 2 72\n"
PRINTED_SHEET = bytes.fromhex("484c5a000107e905" + "00" * 9 + "80" + "00" * 38)  # case 12


# Files

def readings_bytes(series):
    return struct.pack(f">{len(series)}I", *series)


def grid_file(year, level, series):
    return b"GRD" + struct.pack(">HHB", 1, year, level) + readings_bytes(series)


def customer_file(terms, series):
    listed = bytes([len(terms.holidays)]) + b"".join(struct.pack(">H", day) for day in terms.holidays)
    return b"CUS\0\1" + terms.sheet + bytes([terms.option]) + listed + struct.pack(">4I", *terms.prices) + readings_bytes(series)


# What is printed

def time(quarter):
    return f"{quarter // 4:02}:{quarter % 4 * 15:02}"


def runs_by_edges(quarters):
    """A run begins where the quarter before is not kept, and ends where the quarter after is not."""
    begins = [q for q in quarters if q - 1 not in quarters]
    ends = [q + 1 for q in quarters if q + 1 not in quarters]
    return list(zip(begins, ends))


def runs_by_marks(quarters):
    marks = "".join("x" if q in quarters else "." for q in range(96))
    return [match.span() for match in re.finditer("x+", marks)]


def refusal_text(said):
    return " ".join(["REFUSED", *map(str, said)]) + "\n"


def windows_text(year, level, windows, runs_of):
    lines = [f"HLZ {year} {level}"]
    for season in SEASONS:
        lines += [f"{season} {time(a)}-{time(b)}" for a, b in runs_of(windows[season])] or [f"{season} none"]
    return "".join(line + "\n" for line in lines)


def statement_text(said):
    return " ".join(map(str, said)) + "\n"


# From places: the whole file at once

def at(data, start, end):
    return int.from_bytes(data[start:end], "big")


def first_stop(data, fields):
    """fields: where each ends, and the number that refuses it or 0. 12 for one that the file cuts off."""
    for end, number in fields:
        if len(data) < end or number:
            return 12 if len(data) < end else number
    return 0


def when(number, test):
    return number if test else 0


def grid_fields(data, editions):
    yield 3, when(12, data[:3] != b"GRD")
    yield 5, when(12, at(data, 3, 5) != 1)
    yield 7, when(1, picked(editions, at(data, 5, 7)) is None)
    yield 8, when(2, at(data, 7, 8) not in SHARE)


def customer_fields(data, editions):
    yield 3, when(12, data[:3] != b"CUS")
    yield 5, when(12, at(data, 3, 5) != 1)
    yield 8, when(12, data[5:8] != b"HLZ")
    yield 10, when(12, at(data, 8, 10) != 1)
    edition = picked(editions, at(data, 10, 12))
    yield 12, when(1, edition is None)
    yield 13, when(2, at(data, 12, 13) not in SHARE)
    for start in (13, 25, 37, 49):
        yield start + 12, when(12, bin(at(data, start, start + 12)).count("1") > edition.limit)
    yield 62, when(12, at(data, 61, 62) > 1)
    count = at(data, 62, 63)
    yield 63, when(3, count > 40)
    days = [0] + [at(data, start, start + 2) for start in range(63, 63 + 2 * count, 2)]
    for k in range(1, count + 1):
        yield 63 + 2 * k, when(3, not days[k - 1] < days[k] <= days_of(at(data, 10, 12)))
    for k in range(4):
        end = 63 + 2 * count + 4 * k + 4
        yield end, when(6, at(data, end - 4, end) > LIMITS[k])


def days_stop(body, run, most):
    """5 for a bad reading of the days that are whole, then 4 for another length than all days have, or nothing."""
    count = run.starts[run.held(len(body) // 4)]
    series = struct.unpack(f">{count}I", body[:4 * count])
    bad = next((i for i, reading in enumerate(series) if reading > most), None)
    if bad is not None:
        return (5, *run.where(bad)), None
    return ((4,), None) if len(body) != 4 * run.starts[-1] else (None, list(series))


def windows_from_places(data, editions):
    number = first_stop(data, grid_fields(data, editions))
    if number:
        return refusal_text((number,))
    year, level = at(data, 5, 7), at(data, 7, 8)
    stop, series = days_stop(data[8:], period_run(year), grid.GRID_MOST)
    said, windows = (stop, None) if stop else grid.whole(year, level, series, editions)
    return windows_text(year, level, windows, runs_by_edges) if said == (0,) else refusal_text(said)


def terms_at(data, head):
    holidays = tuple(at(data, start, start + 2) for start in range(63, head - 16, 2))
    return Terms(data[5:61], holidays, struct.unpack(">4I", data[head - 16:head]), data[61] == 1)


def held_to_opening(data, number, editions):
    """A whole header that is right in what the file adds to the terms is refused as the opening of a year is."""
    head = 79 + 2 * at(data, 62, 63)
    if data[:5] == b"CUS\0\1" and at(data, 61, 62) < 2 and len(data) >= head:
        assert number == customer.opening(terms_at(data, head), editions)


def statement_from_places(data, editions):
    number = first_stop(data, customer_fields(data, editions))
    held_to_opening(data, number, editions)
    if number:
        return statement_text((number,))
    head = 79 + 2 * data[62]
    stop, series = days_stop(data[head:], year_run(at(data, 10, 12)), READING_MOST)
    return statement_text(stop or customer.whole(terms_at(data, head), series, editions))


# From parts: the bytes as they come

class Said(Exception):
    """An answer that ends the reading."""


class Input:
    """Bytes that are asked for part by part. `asked` is how many the programs need to have before they answer."""

    def __init__(self, data):
        self.data, self.asked = io.BytesIO(data), 0

    def take(self, count, number=12):
        """A whole part; where the input ends inside it, that is the answer."""
        part = self.data.read(count)
        self.asked += count
        if len(part) < count:
            raise Said(number)
        return part

    def number(self, count):
        return int.from_bytes(self.take(count), "big")

    def days(self, machine):
        for when in machine.run.dates:
            count = length(when)
            said = machine.day(list(struct.unpack(f">{count}I", self.take(4 * count, 4))))
            if said != (0,):
                raise Said(*said)
        self.asked += 1
        if self.data.read(1):
            raise Said(4)


def refuse(number, test):
    if test:
        raise Said(number)


def read_mark(source, mark):
    refuse(12, source.take(3) != mark)
    refuse(12, source.take(2) != b"\0\1")


def read_year_level(source, editions):
    year = source.number(2)
    refuse(1, picked(editions, year) is None)
    level = source.number(1)
    refuse(2, not 1 <= level <= 7)
    return year, level


def read_windows(source, limit):
    bits = b""
    for _ in SEASONS:
        season = source.take(12)
        refuse(12, sum(byte >> k & 1 for byte in season for k in range(8)) > limit)
        bits += season
    return bits


def read_holidays(source, year):
    count = source.number(1)
    refuse(3, count > 40)
    holidays = []
    for _ in range(count):
        holidays.append(source.number(2))
        refuse(3, not legal_list(year, holidays))
    return tuple(holidays)


def read_prices(source):
    prices = []
    for limit in LIMITS:
        prices.append(source.number(4))
        refuse(6, prices[-1] > limit)
    return tuple(prices)


def windows_from_parts(source, editions=TODAYS):
    try:
        read_mark(source, b"GRD")
        year, level = read_year_level(source, editions)
        machine = grid.Days()
        assert machine.open(year, level, editions) == (0,)
        source.days(machine)
        said, windows = machine.close()
    except Said as refused:
        said = refused.args
    return windows_text(year, level, windows, runs_by_marks) if said == (0,) else refusal_text(said)


def statement_from_parts(source, editions=TODAYS):
    try:
        read_mark(source, b"CUS")
        read_mark(source, b"HLZ")
        year, level = read_year_level(source, editions)
        sheet = b"HLZ" + struct.pack(">HHB", 1, year, level) + read_windows(source, picked(editions, year).limit)
        option = source.number(1)
        refuse(12, option not in (0, 1))
        terms = Terms(sheet, read_holidays(source, year), read_prices(source), option == 1)
        machine = customer.Days()
        # what no field was refused for, the opening takes
        assert machine.open(terms, editions) == (0,)
        source.days(machine)
        return statement_text(machine.close())
    except Said as refused:
        return statement_text(refused.args)


# Both

def windows_of(data, editions=TODAYS):
    """What the window program prints."""
    text = windows_from_parts(Input(data), editions)
    assert text == windows_from_places(data, editions)
    return text


def statement_of(data, editions=TODAYS):
    """What the statement program prints."""
    text = statement_from_parts(Input(data), editions)
    assert text == statement_from_places(data, editions)
    return text


def printed():
    """The examples of Rules 10.6 and 10.7 as files: they come out to the letter, or nothing is made of this module.

    In the grid's series 15 January 2024 comes after 136 days, one of which has four readings more than 96.
    """
    place = 136 * 96 + 4 + 72
    assert place == grid.place(2025, 1, 15, 72) == 13_132
    windows = grid_file(2025, 5, series_of(96 * 366, 1_000, [Patch(place, 1, 1, 2_000)]))
    assert windows_of(windows) == PRINTED_WINDOWS
    assert sheet_bytes(2025, 5, {1: [72]}) == PRINTED_SHEET
    series = series_of(96 * 365, 0, [Patch(96 * 3, 1, 1, 1_000_000), Patch(96 * 1 + 72, 1, 1, 500_000)])
    statement = customer_file(Terms(PRINTED_SHEET, (), USUAL, False), series)
    assert statement_of(statement) == PRINTED_STATEMENT
    return windows, statement
