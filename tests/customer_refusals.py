"""Customers' years that are refused, whole, when they are opened or day by day, and what crates/cases must print of
them: a part of tests/cases.py. tests/customer_records.py makes its records.
"""
import itertools

from customer_records import EVENING, asked, both, figures_of, on_day, record
from dates import SEASONS, days_of, nationwide
from layout import year_run
from recipes import MOST, Patch, daily, series_of
from year import LIMITS, MISSING, READING_MOST, SHARE, USUAL, Terms, opening, sheet_bytes, whole

bad_sheets = {  # what makes a legal sheet one that is malformed
    "none": lambda s: b"", "one": lambda s: s[:1], "head": lambda s: s[:8], "short": lambda s: s[:55],
    "long": lambda s: s + b"\0", "longer": lambda s: s + b"\0" * 4,
    "mark 1": lambda s: b"h" + s[1:], "mark 2": lambda s: s[:1] + b"\0" + s[2:], "mark 3": lambda s: s[:2] + b"Y" + s[3:],
    "version 0": lambda s: s[:4] + b"\0" + s[5:], "version 2": lambda s: s[:4] + b"\2" + s[5:],
    "version 256": lambda s: s[:3] + b"\1\0" + s[5:], "version 257": lambda s: s[:3] + b"\1\1" + s[5:],
}


# Kinds: years

def bad_readings():
    """1,000,000,001 and a lost reading, in a window or not, at the edges of days and of the year.

    The highest legal reading stands beside them.
    """
    for year in (2024, 2025):
        n = days_of(year)
        last = 96 * n - 1
        # behind the Sunday in March there are four readings fewer than 96 for each day
        places = {0: (1, 0), 70: (1, 70), 95: (1, 95), 96: (2, 0), 91 * 96 + 70: (92, 74), 177 * 96 + 90: (178, 94), last - 95: (n, 0), last: (n, 95)}
        for at, (day, position) in places.items():
            for value in (READING_MOST + 1, MISSING):
                length, base, patches, calls = both(asked(year), 1_000, [Patch(at, 1, 1, value)], year)
                assert whole(calls[0][1], series_of(length, base, patches)) == (5, day, position)
                # the bad day again, then another in its place, then the rest
                other = 96 if day == 1 else 0
                yield length, base, patches, calls + [("D", day, 1), ("P", other, 96), ("C",), ("D", day + 1, 366), ("C",)]
            case = both(asked(year), 100_000_000, [Patch(at, 1, 1, READING_MOST)], year)
            assert figures_of(case)[0] in (0, 9)
            yield case
        for first, second in ((300, 205), (96 * 50 + 95, 96 * 51), (96 * 50 + 5, 96 * 50 + 4), (0, last), (96 * 9 + 90, 96 * 200 + 1)):
            yield both(asked(year), 1_000, [Patch(first, 1, 1, READING_MOST + 1), Patch(second, 1, 1, MISSING)], year)
        yield both(asked(year), MISSING, [], year)
        yield both(asked(year), READING_MOST, [Patch(11_111, 1, 1, READING_MOST + 1)], year)
        yield both(asked(year, windows={}), 1_000, [Patch(11_111, 1, 1, MISSING)], year)


def lengths():
    """Off by a reading and by a day, empty, a day in part; with a bad reading 4 comes first."""
    for year in (2024, 2026):
        right = 96 * days_of(year)
        for length in (0, 1, 95, 96, 97, 96 * 200, *(right + k for k in (-97, -96, -95, -1, 1, 95, 96, 97)), MOST):
            patches = [on_day(year, 100, 70, 500_000), Patch(5, 1, 1, MISSING if length == right + 96 else 3)]
            yield both(asked(year), 1_000, patches, year, length)


def broken_terms(year):
    """Terms that are each wrong in one thing, and those beside them that are not."""
    good = asked(year, 5, EVENING, nationwide(year))
    last = days_of(year)
    terms = [good._replace(sheet=change(good.sheet)) for change in bad_sheets.values()]
    terms += [asked(y, 5, EVENING) for y in (2013, 2029, 0, 1, 65535, 0xE907, 2014 + 256, 2025 - 256)]
    terms += [asked(year, level) for level in (0, 8, 9, 128, 255, *SHARE)]
    full, over = list(range(20, 60)), list(range(20, 61))
    for season in SEASONS:
        terms += [asked(year, 5, {season: over}), asked(year, 5, {s: full for s in SEASONS} | {season: over}), asked(year, 5, {season: range(96)})]
    terms += [asked(year, 5, {s: full for s in SEASONS}), asked(year, 5, {s: range(96) for s in SEASONS})]
    lists = [range(1, 41), range(1, 42), range(1, 46), range(last - 39, last + 1), range(last - 39, last + 2), range(last - 40, last + 1)]
    lists += [[0], [0, 1], [0] * 40, [last], [last + 1], [1, last + 1], [365], [366], [367], [65535], [1, 65535]]
    lists += [[1, 1], [5, 4], [2, 1], [1, 2, 3, 3], [9, 8, 7], [last - 1, last, last], [10, 20, 30, 29], [10, 20, 30, 30], [40, 39, 41]]
    terms += [asked(year, 5, EVENING, numbers) for numbers in lists]
    for k, limit in enumerate(LIMITS):
        for price in (limit, limit + 1, 2**32 - 1):
            terms.append(asked(year, 5, EVENING, (), USUAL[:k] + (price,) + USUAL[k + 1:]))
    return terms


def alone():
    """Every field out of its limits alone, then a day and a closing; where it is taken, the whole year.

    As many terms as a record has room for.
    """
    for year in (2025, 2028):
        n, terms = days_of(year), broken_terms(year)
        for k in range(0, len(terms), 40):
            calls = [call for t in terms[k:k + 40] for call in (("A", t), ("P", 0, 96) if opening(t) else ("D", 1, n), ("C",))]
            yield 96 * n, 100_000, [on_day(year, 100, 70, 500_000), Patch(0, 1, 1, 900_000)], calls


def order():
    """Every choice of things wrong in the terms, over series that are right, too short, bad, or both; zeros or not."""
    year = 2025
    for short, bad, base in itertools.product((0, 1), (False, True), (0, 400_000)):
        calls = []
        for mark, old, level, full, listed, price in itertools.product((0, 1), repeat=6):
            windows = {1: range(41)} if full else ({} if base else EVENING)
            sheet = sheet_bytes(2013 if old else year, 8 if level else 5, windows)
            terms = Terms(b"X" + sheet[1:] if mark else sheet, (3, 3) if listed else (3,), (100_001 if price else 0, 0, 0, 0), False)
            wrong = [n for n, yes in ((12, mark), (1, old), (2, level), (12, full), (3, listed), (6, price)) if yes]
            assert opening(terms) == (wrong + [0])[0]
            calls += [("A", terms), ("P", 0, 96), ("C",)]
        yield 96 * 365 - short, base, [Patch(9_000, 1, 1, MISSING)] if bad else [], calls


def refused_openings():
    """Each number of a refused opening, after a year in part and after a whole one (Rule 9.5).

    Every day is 13 then, and so is closing; the next opening begins anew.
    """
    year, n = 2025, 365
    good = asked(year, 5, EVENING, nationwide(year))
    refused = [good._replace(sheet=sheet) for sheet in (b"", good.sheet[:55], good.sheet + b"\0", b"GRD" + good.sheet[3:])]
    refused += [asked(2013), asked(2029), asked(year, 0), asked(year, 8), asked(year, 5, {2: range(41)})]
    refused += [good._replace(holidays=(0,)), good._replace(prices=(0, 50_001, 0, 0))]
    offers = [("D", 1, 1), ("P", 0, 95), ("P", 0, 97), ("P", 0, 0), ("P", 96, 96), ("D", 1, 366), ("D", 0, 1), ("C",), ("C",)]
    patches = [Patch(96, 1, 1, MISSING), on_day(year, 100, 70, 300_000), on_day(year, 101, 0, 900_000)]
    for terms in refused:
        number = opening(terms)
        assert number in (12, 1, 2, 3, 6)
        # before any opening; then a year in part; then the refused opening; then a whole year; then the refused one
        # again
        start = [*offers, ("A", good), ("C",), ("P", 96 * 2, 96), ("P", 96 * 3, 96), ("C",), ("A", terms), *offers]
        again = [("A", good), ("P", 0, 96), ("P", 0, 96), ("D", 3, n), ("C",), ("A", terms), *offers, ("A", good), ("C",)]
        yield 96 * n, 1_000, patches, start + again


# Kinds: days

def refused_days():
    """Days that are refused among the others, with readings that would show had they been taken."""
    for year in (2019, 2024, 2026):
        n = days_of(year)
        good = 96 * n
        # past the year's end the series holds what is no day of it: 96 high readings, then 96 with a bad one
        high, bad_day = good, good + 96
        patches = [Patch(high, 200, 1, 5_000_000), Patch(bad_day + 95, 1, 1, READING_MOST + 1)]
        patches += daily(year_run(year), range(1, n + 1), 70, 200_000, 9_000, 3) + [on_day(year, 94, 0, 990_000)]
        wrong = [("P", high, 95), ("P", high, 97), ("P", high, 0), ("P", high, 1), ("P", high, 192)]
        past = wrong + [("P", bad_day, 96), ("P", 0, 96), ("D", n + 1, 1), ("D", 0, 1), ("D", 1, 5)]
        worst = [("P", bad_day, 97), ("P", bad_day + 95, 1), ("P", bad_day, 96)]
        length, start = bad_day + 97, [("A", asked(year, 3, EVENING, nationwide(year)))]
        yield length, 10, patches, start + [*wrong, ("D", 1, n), *past, ("C",)]
        yield length, 10, patches, start + [("D", 1, 10), *wrong, *worst, ("D", 11, n), *past, ("C",)]
        yield length, 10, patches, start + [("D", 1, n - 1), *worst, *wrong, ("C",), ("P", good - 96, 96), *worst, *past, ("C",)]
        # a day that is refused, and then given again
        again = [call for d in (1, 2, 100, 183, n) for call in (("D", d, 1), *wrong, *worst)]
        yield length, 10, patches, start + [*again, ("C",)]
        # between any twelve days two refused ones
        between = [call for d in range(1, n + 1, 12) for call in (wrong[d % 5], worst[d % 3], ("D", d, min(12, n + 1 - d)))]
        yield length, 10, patches, start + [*between, ("C",), *past, ("C",)]
        # a series that holds a day in part
        yield 96 * 20 + 95, 10, patches, start + [("D", 0, 3), ("D", 20, 5), ("D", 21, 1), ("D", 65535, 2), ("D", 1, 19), ("C",)]


def other_order():
    """The series' days given in another order: the state counts its days by itself, and names its own day's place.

    It knows how long each must be.
    """
    for year in (2017, 2020, 2028):
        n = days_of(year)
        patches = [on_day(year, 61, 0, 1_000_000, 96), on_day(year, 171, 69, 960_000, 3), Patch(300 * 96, 40, 2, 970_000)]
        terms = asked(year, 7, EVENING, nationwide(year))
        short, long = year_run(year).sundays()
        # each stretch between the two Sundays from its middle on, then from its first day
        calls = [("A", terms)]
        for first, last in ((1, short - 1), (short, short), (short + 1, long - 1), (long, long), (long + 1, n)):
            middle = (first + last + 1) // 2
            calls += [("D", middle, last + 1 - middle), ("D", first, middle - first)]
        yield 96 * n, 10, patches, [*calls, ("C",), ("A", terms)]
        # one day again and again, also where the short Sunday is due
        yield 96 * n, 10, patches, [("A", terms)] + [("D", 61, 1)] * 100 + [("D", short, n), ("C",)]
        # a day of 96 readings where the short Sunday is due
        yield 96 * n, 10, patches, [("A", terms), ("D", 101, n - 100), ("D", 1, 100), ("C",), ("A", terms)]


def early_and_twice():
    """Closings before all days are in, and several after: none changes the state."""
    for year in (2018, 2024):
        n = days_of(year)
        parts = (0, 1), (1, 121), (122, 200), (322, n - 323), (n - 1, 1)
        turns = [call for done, more in parts for call in (("C",), ("C",), ("D", done + 1, more))]
        for windows, patches in ((EVENING, [on_day(year, n - 9, 70, 700_000), on_day(year, n, 0, 1_000_000)]), ({}, [])):
            terms = asked(year, 3, windows)
            yield 96 * n, 1_000, patches, [("A", terms), *turns, ("C",), ("C",), ("C",), ("P", 0, 96), ("C",), ("P", 0, 95), ("C",)]
            yield 96 * n, 1_000, patches, [("C",), ("A", terms), ("C",), ("D", 1, n), ("C",), ("A", terms), ("C",), ("D", 1, n), ("C",)]


KINDS = (bad_readings, lengths, alone, order, refused_openings, refused_days, other_order, early_and_twice)


def records():
    return {kind.__name__: [record(*case) for case in kind()] for kind in KINDS}
