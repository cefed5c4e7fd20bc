"""The rules over figures, and a year of readings, by Rules 2.4, 6.1 to 7.7 and 9.1 to 9.5 (docs/RULES.md), for the
scripts that make records.

It knows nothing of the code under test. What a charge, a row, a floor or a share is, which days carry windows, which
bits of a sheet are set, and the figures of a year are each worked out in two ways that are held against each other: by
the units and by the integer formulas of the rules; week by week and day by day; by the sheet's bits as one number and
byte by byte; from the whole series (`whole`) and along the days (`Days`). The ruling's numbers are an edition's; where
none is named, today's. Days and seasons count from 1, quarters and positions in a day from 0.
"""
import collections
import datetime
import fractions
import functools
import math
import struct

from dates import SEASONS, date, day_of, days_of, free_by_others, legal_list
from editions import TODAY, TODAYS, picked
from layout import Run, length, year_run

SHARE = dict(enumerate(TODAY.shares, 1))  # today's, by level
LIMITS = (100_000, 50_000, 100_000, 50_000)  # of the low row's prices, and of the high row's
USUAL = (2_000, 4_000, 10_000, 800)  # the prices of Rule 11.1
PART = 4_000_000  # of a cent
READING_MOST = 1_000_000_000
MISSING = 4_294_967_295
SEASON = {12: 1, 1: 1, 2: 1, 3: 2, 4: 2, 5: 2, 6: 3, 7: 3, 8: 3, 9: 4, 10: 4, 11: 4}
YEARS = range(TODAY.first, TODAY.last + 1)  # of today's edition
Set = collections.namedtuple("Set", "M S any H day quarter level prices option")
Terms = collections.namedtuple("Terms", "sheet holidays prices option")


# The rules over figures, by units

def charge_by_units(power, capacity, energy, readings):
    kw = fractions.Fraction(power, 1000)
    kwh = fractions.Fraction(readings, 4 * 1000)
    exact = kw * capacity + kwh * fractions.Fraction(energy, 1000)
    below = math.floor(exact)
    return below + (exact - below >= fractions.Fraction(1, 2))


def few_hours_by_units(M, S, hours):
    """Without a peak there are no hours to speak of, and S < 4 hours M is false: the high row (Rule 6.6)."""
    return M > 0 and fractions.Fraction(S, 4) / M < hours


def share_by_units(M, H, percent):
    return M == 0 or fractions.Fraction(max(M - H, 0), M) >= fractions.Fraction(percent, 100)


# The rules over figures, by the formulas of Rules 6.6 to 7.6

def charge_for(power, row, S):
    cents = (2 * (4_000 * power * row[0] + S * row[1]) + PART) // (2 * PART)
    assert cents == charge_by_units(power, row[0], row[1], S)
    return cents


def few_hours(M, S, hours=TODAY.hours):
    assert (S < 4 * hours * M) == few_hours_by_units(M, S, hours)
    return S < 4 * hours * M


def floor_of(g, percent=TODAY.floor):
    f = math.ceil(fractions.Fraction(percent, 100) * g)
    assert 100 * f >= percent * g > 100 * (f - 1)
    return f


def share_reached(M, H, level, edition=TODAY):
    percent = edition.shares[level - 1]
    reached = 100 * max(M - H, 0) >= percent * M
    assert reached == share_by_units(M, H, percent)
    return reached


def charges(s, edition=TODAY):
    """g, r, f."""
    low, high = s.prices[:2], s.prices[2:]
    few = few_hours(s.M, s.S, edition.hours)
    general_row = low if few else high
    reduced_row = high if few and s.option else general_row
    g = charge_for(s.M, general_row, s.S)
    return g, charge_for(s.H, reduced_row, s.S), floor_of(g, edition.floor)


def prices_out(prices):
    return any(price > limit for price, limit in zip(prices, LIMITS))


def judge(s, edition=TODAY):
    """The number and its figures: every row of Rule 8.1, and then the first in the order 2, 6, 8, 9, 10, 11."""
    if s.level not in SHARE:
        return (2,)
    if prices_out(s.prices):
        return (6,)
    g, r, f = charges(s, edition)
    c = max(r, f)
    holds = {
        8: not s.any,
        9: not share_reached(s.M, s.H, s.level, edition),
        10: max(s.M - s.H, 0) < edition.move,
        11: g < c + edition.reduction,
    }
    number = next((n for n in (8, 9, 10, 11) if holds[n]), 0)
    plain = g, s.M, s.S
    peaks = plain + (s.H, s.day, s.quarter)
    return (number,) + {0: (c,) + peaks, 8: plain}.get(number, peaks)


# Days

@functools.lru_cache(maxsize=None)
def carrying_by_weeks(year, listed):
    """The days that carry windows: weeks from Monday on, the first candidate of each a bridge day (Rule 3.4)."""
    carry = []
    monday = datetime.date(year, 1, 1) - datetime.timedelta(days=datetime.date(year, 1, 1).weekday())
    while monday.year <= year:
        week = [monday + datetime.timedelta(days=k) for k in range(7)]
        is_listed = [d.year == year and day_of(d) in listed for d in week]
        left = [k for k in range(7) if not free_by_others(week[k], year, listed)]
        candidates = [k for k, beside in ((0, 1), (4, 3)) if k in left and is_listed[beside]]
        carry += [day_of(week[k]) for k in left if k not in candidates[:1] and week[k].year == year]
        monday += datetime.timedelta(days=7)
    return carry


def carries_by_day(year, listed, day):
    """One day by itself, by day numbers: ordinals count on from 1 January 2014, a Wednesday."""
    weekday = (date(year, day).toordinal() - datetime.date(2014, 1, 1).toordinal() + 2) % 7
    last = days_of(year)

    def plain(d, wd):
        return wd < 5 and d not in listed and 2 <= d <= last - 8

    if not plain(day, weekday):
        return False
    if weekday == 0:
        return day + 1 not in listed
    if weekday == 4 and day - 1 in listed:
        return plain(day - 4, 0) and day - 3 in listed
    return True


# The sheet

def sheet_bytes(year, level, windows):
    """windows: season 1 to 4 to its quarters; a season that is not there has none."""
    text = "".join("1" if q in windows.get(s, ()) else "0" for s in SEASONS for q in range(96))
    return b"HLZ" + struct.pack(">HHB", 1, year, level) + int(text, 2).to_bytes(48, "big")


def read_sheet(data, editions=TODAYS):
    """A number, or year, level and the quarters of each season."""
    if len(data) != 56 or data[:3] != b"HLZ" or data[3:5] != b"\x00\x01":
        return 12
    year, level = struct.unpack(">HB", data[5:8])
    edition = picked(editions, year)
    if edition is None:
        return 1
    if level not in SHARE:
        return 2
    text = format(int.from_bytes(data[8:], "big"), "0384b")
    windows = {s: [q for q in range(96) if text[96 * s - 96 + q] == "1"] for s in SEASONS}
    if max(map(len, windows.values())) > edition.limit:
        return 12
    return year, level, windows


def bit_set(data, season, quarter):
    return data[8 + 12 * (season - 1) + quarter // 8] & (128 >> quarter % 8) != 0


def opening(terms, editions=TODAYS):
    """12, 1, 2, 12, 3, 6 in this order, else 0."""
    read = read_sheet(terms.sheet, editions)
    if isinstance(read, int):
        return read
    if not legal_list(read[0], terms.holidays):
        return 3
    return 6 if prices_out(terms.prices) else 0


# A year of readings

def whole(terms, series, editions=TODAYS):
    """The decision: the number and its figures."""
    refused = opening(terms, editions)
    if refused:
        return (refused,)
    year, level, windows = read_sheet(terms.sheet, editions)
    run = year_run(year)
    if len(series) != run.starts[-1]:
        return (4,)
    bad = next((i for i, reading in enumerate(series) if reading > READING_MOST), None)
    if bad is not None:
        return (5, *run.where(bad))
    # no Sunday carries windows, so on these days quarters are positions
    carrying = carrying_by_weeks(year, frozenset(terms.holidays))
    places = [run.starts[d - 1] + q for d in carrying for q in windows[SEASON[date(year, d).month]]]
    at = max(places, key=lambda p: (series[p], -p), default=None)
    found = (False, 0, 0, 0) if at is None else (True, series[at], *run.where(at))
    return judge(Set(max(series), sum(series), *found, level, terms.prices, terms.option), picked(editions, year))


class Days:
    """A year that is given day by day, by the edition of its opening.

    Before an accepted one it is the state of a refused one.
    """

    def __init__(self):
        self.terms, self.run = None, Run([])

    def open(self, terms, editions=TODAYS):
        number = opening(terms, editions)
        self.terms, self.run = None if number else terms, Run([])
        if not number:
            self.year, self.level = struct.unpack(">HB", terms.sheet[5:8])
            self.run, self.editions = year_run(self.year), editions
            self.quarters = {s: [q for q in range(96) if bit_set(terms.sheet, s, q)] for s in SEASONS}
            self.listed, self.taken, self.given, self.M, self.S, self.best = frozenset(terms.holidays), 0, [], 0, 0, None
        return (number,)

    def day(self, day):
        if self.terms is None or self.taken == days_of(self.year):
            return (13,)
        number = self.taken + 1
        if len(day) != length(date(self.year, number)):
            return (4,)
        bad = [position for position, reading in enumerate(day) if reading > READING_MOST]
        if bad:
            return (5, number, bad[0])
        season = date(self.year, number).month % 12 // 3 + 1
        if carries_by_day(self.year, self.listed, number):
            for q in self.quarters[season]:
                if self.best is None or day[q] > self.best[0]:
                    self.best = day[q], number, q
        self.M, self.S = max(self.M, *day), self.S + sum(day)
        self.taken = number
        self.given += day
        return (0,)

    def close(self):
        if self.terms is None or self.taken != days_of(self.year):
            return (13,)
        found = (True, *self.best) if self.best else (False, 0, 0, 0)
        edition = picked(self.editions, self.year)
        answer = judge(Set(self.M, self.S, *found, self.level, self.terms.prices, self.terms.option), edition)
        assert answer == whole(self.terms, self.given, self.editions)
        return answer