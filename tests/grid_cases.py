"""Grid series of every kind, and what crates/cases must print of them: a part of tests/cases.py. tests/grid_records.py
makes its records.
"""
import random

from dates import SEASONS
from grid import GRID_MOST as LIMIT, day_number, kept_of, place
from grid_records import ROOM, both, count_of, lent, one, record, whole
from layout import period_run
from recipes import MOST, Patch, any_places, daily, series_of
from year import MISSING, YEARS


def curve_on(year, month, day, values):
    """Patches that make a day's readings these."""
    start = place(year, month, day, 0)
    edges = [q for q in range(97) if q in (0, 96) or values[q] != values[q - 1]]
    return [Patch(start + a, b - a, 1, values[a]) for a, b in zip(edges, edges[1:])]


MIDDLES = {1: (1, 17), 2: (4, 9), 3: (7, 4), 4: (10, 7)}  # a day of 96 readings inside each season


# Cases

def printed():
    """The example of Rule 10.6, then with the first and the last level."""
    example = [one(2025, 1, 15, 72, 2000)]
    got = whole(2025, 5, series_of(96 * 366, 1000, example), 64)
    assert got == ((0,), lent(bytes.fromhex("484c5a000107e905" + "00" * 9 + "80" + "00" * 38)))
    for level in (5, 1, 7):
        yield both(2025, level, 1000, example, room=64 if level == 5 else 56)


def boundaries():
    """The first and the last day of each season, with 29 February where the period has it: all at once, each alone."""
    edges = [(9, 1), (11, 30), (12, 1), (12, 31), (1, 1), (2, 28), (2, 29), (3, 1), (5, 31), (6, 1), (8, 31)]
    for year in YEARS:
        has = [(m, d) for m, d in edges if (m, d) != (2, 29) or count_of(year) == 366]
        yield both(year, year % 7 + 1, 100, [one(year, m, d, (8 * i + year) % 96, 1000) for i, (m, d) in enumerate(has)])
    for year in (2021, 2023):
        for i, (m, d) in enumerate(edges):
            if (m, d) != (2, 29) or count_of(year) == 366:
                # nine quarters of the day, and the readings next to it: the last of the day before, the first of the
                # day after
                start = place(year, m, d, 0)
                beside = [Patch(start + k, 1, 1, 999) for k in (-1, 96) if 0 <= start + k < 96 * count_of(year)]
                yield both(year, 3, 100, [Patch(start + i, 9, 7, 1000)] + beside)


def at_line():
    """Readings about 19 twentieths of the peak: the last one that is not above, and the next."""
    assert kept_of([2000, 1900, 1901] + [0] * 93, 2000) == [0, 2]
    rng = random.Random(19)
    peaks = [2000, LIMIT, LIMIT - 1, LIMIT - 19, LIMIT - 20, 1, 2, 3, 19, 20, 21, 39, 40, 41, 999, 1001, 1999, 12_345_677]
    for n, peak in enumerate(peaks):
        year = YEARS[n % 15]
        last = 19 * peak // 20
        about = [max(last + k, 0) for k in (-2, -1, 0, 1, 2) if last + k <= peak]
        patches = [one(year, *MIDDLES[n % 4 + 1], 5, peak)]
        for season in SEASONS:
            # a day later than the peak's, so that the peak stays; a few of them, so that the seasons differ
            month, day = MIDDLES[season]
            patches += [one(year, month, day + 1, q, rng.choice(about)) for q in rng.sample(range(96), 24)]
        yield both(year, n % 7 + 1, 0, patches)
        # no reading is above but the peak, one at the end of a day, and thirty of a summer day
        month, day = MIDDLES[3]
        few = [one(year, *MIDDLES[(n + 1) % 4 + 1], 94, last + 1), Patch(place(year, month, day + 2, 1), 30, 3, last + 1)]
        yield both(year, n % 7 + 1, last, patches[:1] + few)


def shapes():
    """96 readings each, of which 951 and more are above the line of a peak of 1,000."""
    low = [0] * 96
    tied = list(low)
    for q in range(1, 79, 2):
        tied[q] = 1000  # 39 of them
    for q in (0, 40, 80, 94):
        tied[q] = 960  # of these the earliest is the 40th
    late = list(low)
    for q in range(50, 90):
        late[q] = 990  # 40 of them
    late[0] = 989  # the earliest quarter, and the 41st
    first_41 = [970] * 41 + [0] * 55
    two_cuts = [980] * 20 + [990] * 30 + [980] * 46
    exactly = [951] * 40 + [950] * 56
    fewer = [950] * 57 + [951] * 39
    return [
        [905 + q for q in range(96)], [1000 - q // 2 for q in range(96)], [1000] * 96, tied, late, first_41, two_cuts, exactly, fewer,
        [953 + q // 2 for q in range(96)], [960 + 40 * (q % 2) for q in range(96)], low,
    ]


def cut():
    """Forty, and what is left out: each shape in each season."""
    made = shapes()
    for year in (2016, 2017):
        for n in range(len(made)):
            patches = [Patch(0, 1, 1, 1000)]  # the peak, in autumn's quarter 0
            for season in SEASONS:
                patches += curve_on(year, *MIDDLES[season], made[(n + 3 * season) % len(made)])
            yield both(year, n % 7 + 1, 1, patches)


def equal():
    """Every reading the same: quarters 0 to 39 of each season."""
    assert kept_of([7] * 96, 7) == list(range(40))
    for year, value in ((2014, 1), (2015, 2), (2016, 19), (2020, 1000), (2024, 123_456_789), (2028, LIMIT)):
        yield both(year, 4, value, [])
    # two values that are both above the line: the higher ones first
    for year in (2018, 2025):
        every = range(1, count_of(year) + 1)
        yield both(year, 4, 990, [patch for q in (60, 61, 95) for patch in daily(period_run(year), every, q, 1000)])


def alone():
    """One season has all the windows, with few quarters and with all."""
    spans = {1: ((12, 1), (2, 28)), 2: ((3, 1), (5, 31)), 3: ((6, 1), (8, 31)), 4: ((9, 1), (11, 30))}
    for season, ((m, d), (last_m, last_d)) in spans.items():
        year = (2019, 2025)[season % 2]
        start, end = place(year, m, d, 0), place(year, last_m, last_d, 95) + 1
        yield both(year, season, 0, [Patch(start, end - start, 1, 500)])
        days = range(day_number(year, m, d), day_number(year, last_m, last_d) + 1)
        yield both(year, season, 475, daily(period_run(year), days, 33, 500) + [Patch(start + 34, 1, 1, 476)])


def weekends():
    """Readings of days that carry no windows count all the same."""
    for year, weekdays in ((2017, range(7)), (2024, (5, 6))):
        for weekday in weekdays:
            days = [d for d, date in enumerate(period_run(year).dates, 1) if date.weekday() == weekday]
            yield both(year, 6, 3, daily(period_run(year), days, 10 * weekday + 3, 4000))
    for month, day in ((12, 25), (12, 24), (1, 1), (5, 1), (10, 3)):
        yield both(2022, 6, 3, [one(2022, month, day, 44, 4000), one(2022, month, day, 90, 3801), one(2022, month, day, 91, 3800)])


def bad():
    """A reading above the limit, the limit itself, and the first of several."""
    for year in (2022, 2025):
        last = 96 * count_of(year) - 1
        for at in (0, 95, 96, 17_000, last - 95, last):
            for value in (LIMIT + 1, MISSING):
                yield both(year, 5, 1000, [Patch(at, 1, 1, value)])
            yield both(year, 5, 190_000_000, [Patch(at, 1, 1, LIMIT)])
        for first, second in ((300, 205), (96 * 50 + 95, 96 * 51), (96 * 50 + 5, 96 * 50 + 4), (0, last), (96 * 9 + 90, 96 * 200 + 1)):
            yield both(year, 5, 1000, [Patch(first, 1, 1, LIMIT + 1), Patch(second, 1, 1, MISSING)])
        yield both(year, 5, MISSING, [])
        # every reading before the bad one is the highest that is legal
        yield both(year, 5, LIMIT, [Patch(11_111, 1, 1, LIMIT + 1)])


def missing():
    """One reading is missing, at places all over the period."""
    for n, at in enumerate(range(13, 35_040, 1_319)):
        yield both(YEARS[n % 15], n % 7 + 1, 700, [Patch(at, 1, 1, MISSING)])


def zero():
    for year in (2014, 2017, 2028):
        yield both(year, 1, 0, [])
        last = 96 * count_of(year) - 1
        for at in (0, 20_000, last):
            yield both(year, 1, 0, [Patch(at, 1, 1, 1)])


def lengths():
    for year in (2025, 2026):
        right = 96 * count_of(year)
        off = [right + k for k in (-97, -96, -95, -1, 1, 95, 96, 97)]
        for length in (0, 1, 95, 96, 97, 96 * 200, *off, MOST):
            yield both(year, 5, 1000, [Patch(5_000, 1, 1, 2000)], length)
    for year in (2014, 2017, 2020, 2021, 2028):
        # a day more than a common period has, a day less than a leap one
        yield both(year, 5, 1000, [], 96 * (731 - count_of(year)))


def rooms():
    """Every length of the lent buffer: an accepted series, a peak of zero, an early closing and a refused opening."""
    every = range(ROOM + 1)
    example = [one(2025, 1, 15, 72, 2000)]
    whole_calls = [("W", 2025, 5, room) for room in every]
    closings = [("C", room) for room in every]
    for base, patches in ((1000, example), (0, []), (1000, [Patch(9, 1, 1, MISSING)])):
        yield 96 * 366, base, patches, whole_calls + [("O", 2025, 5), ("D", 1, 366)] + closings
    yield 96 * 366, 1000, example, [("O", 2025, 5), ("D", 1, 365)] + closings + [("D", 366, 1), ("C", 55), ("C", 56)]
    yield 96 * 366, 1000, example, closings + [("O", 2029, 5)] + closings


def order():
    """Several things wrong at once."""
    for room in (55, 56):
        for year, level in ((2025, 5), (2025, 0), (2025, 8), (2013, 5), (2013, 0), (2029, 8)):
            for length in (96 * 366, 96 * 366 - 1):
                for patches in ([], [Patch(7_000, 1, 1, LIMIT + 1)]):
                    yield both(year, level, 0, patches, length, room)


def refused_days():
    """Days that are refused among the others, with readings that would show had they been taken."""
    for year in (2019, 2021, 2026):
        n = count_of(year)
        good = 96 * n
        # past the period's end the series holds what is not a day of it: 96 high readings, then 96 with a bad one
        high, bad_day = good, good + 96
        patches = [Patch(high, 200, 1, 5000), Patch(bad_day + 95, 1, 1, LIMIT + 1), one(year, 4, 4, 20, 990)]
        patches += daily(period_run(year), range(1, n + 1), 50, 1000)
        wrong = [("P", high, 95), ("P", high, 97), ("P", high, 0), ("P", high, 1), ("P", high, 192)]
        past = wrong + [("P", bad_day, 96), ("P", 0, 96), ("D", n + 1, 1), ("D", 0, 1), ("D", 1, 5)]
        worst = [("P", bad_day, 97), ("P", bad_day + 95, 1), ("P", bad_day, 96)]
        length = bad_day + 97
        yield length, 10, patches, [("O", year, 2), *wrong, ("D", 1, n), *past, ("C", 64)]
        yield length, 10, patches, [("O", year, 2), ("D", 1, 10), *wrong, *worst, ("D", 11, n), *past, ("C", 56)]
        yield length, 10, patches, [("O", year, 2), ("D", 1, n - 1), *worst, *wrong, ("C", 60), ("P", good - 96, 96), *worst, *past, ("C", 60)]
        # a day that is refused, and then given again
        again = [call for d in (1, 2, 100, 183, n) for call in (("D", d, 1), *wrong, *worst)]
        yield length, 10, patches, [("O", year, 2), *again, ("C", 60)]
        # between any two days a refused one
        between = [call for d in range(1, n + 1, 12) for call in (wrong[d % 5], worst[d % 3], ("D", d, min(12, n + 1 - d)))]
        yield length, 10, patches, [("O", year, 2), *between, ("C", 60), *past, ("C", 60)]
        # day 0 of the series, and days that it does not hold
        yield 96 * 20 + 95, 10, patches, [("O", year, 2), ("D", 0, 3), ("D", 20, 5), ("D", 21, 1), ("D", 65535, 2), ("D", 1, 19), ("C", 60)]


def other_order():
    """The series' days given in another order: the state counts its days by itself, and knows how long each must be."""
    for year in (2017, 2020, 2028):
        n = count_of(year)
        patches = [Patch(60 * 96, 96, 1, 1000), Patch(170 * 96 + 5, 3, 1, 960), Patch(300 * 96, 20, 2, 970)]
        long, short = period_run(year).sundays()
        # each stretch between the two Sundays from its middle on, then from its first day
        calls = [("O", year, 7)]
        for first, last in ((1, long - 1), (long, long), (long + 1, short - 1), (short, short), (short + 1, n)):
            middle = (first + last + 1) // 2
            calls += [("D", middle, last + 1 - middle), ("D", first, middle - first)]
        yield 96 * n, 10, patches, [*calls, ("C", 60), ("W", year, 7, 60)]
        # one day again and again, also where the long Sunday is due, and another one behind it
        yield 96 * n, 10, patches, [("O", year, 7)] + [("D", 61, 1)] * 60 + [("D", long, 1)] + [("D", 62, 1)] * 80 + [("C", 60)]
        # a day of 96 readings where the long Sunday is due
        yield 96 * n, 10, patches, [("O", year, 7), ("D", 101, n - 100), ("D", 1, 100), ("C", 60), ("W", year, 7, 60)]


def early():
    for year in (2018, 2025):
        n = count_of(year)
        turns = []
        for done, more in ((0, 1), (1, 121), (122, 200), (322, n - 323), (n - 1, 1)):
            turns += [("C", 55), ("C", 56), ("C", 64), ("D", done + 1, more)]
        for base in (1000, 0):
            yield 96 * n, base, [], [("O", year, 3), *turns, ("C", 55), ("C", 56), ("C", 64)]


def refused_openings():
    """Years and levels outside, on a state that was well on its way: each day is 13 then, and so is closing."""
    pairs = [(2013, 5), (2029, 5), (2025, 0), (2025, 8), (2013, 0), (2029, 8), (0, 1), (65535, 7), (2028, 255)]
    offers = [("D", 1, 1), ("P", 0, 95), ("P", 0, 97), ("P", 0, 0), ("P", 96, 96), ("D", 1, 366)]
    closings = [("C", 64), ("C", 56), ("C", 55), ("C", 0)]
    for year, level in pairs:
        patches = [Patch(96, 1, 1, MISSING)]
        yield 96 * 366, 1000, patches, [("O", year, level), *offers, *closings, *offers, ("C", 64)]
        # before any opening, then an accepted one, then the refused one, then an accepted one again
        accepted = [("O", 2025, 5), *closings, ("D", 1, 366), *closings]
        yield 96 * 366, 1000, [], [*offers, *closings, *accepted, ("O", year, level), *closings, *offers, *accepted]


def twice():
    """A closing leaves the state as it was."""
    for year, base in ((2016, 1000), (2025, 1000), (2025, 0)):
        n = count_of(year)
        patches = [Patch(96 * (n - 1) + 70, 3, 1, 2000)] if base else []
        closings = [("C", 64), ("C", 64), ("C", 55), ("C", 64)]
        days = [("D", 1, n - 1), *closings, ("D", n, 1), *closings, ("D", 1, 1), *closings]
        yield 96 * n, base, patches, [("O", year, 6), *days, ("O", year, 1), *closings]


def any_patch(rng, run, peak):
    first, count, step = any_places(rng, run)
    value = rng.choice([peak, 19 * peak // 20, 19 * peak // 20 + 1, rng.randint(0, peak)])
    spread = rng.choice([0, 3, peak // 40, peak // 15, peak // 2])
    return Patch(first, count, step, value, min(spread, 65535), rng.randrange(65536))


def chance():
    rng = random.Random(35_040)
    for n in range(45):
        year = YEARS[n % 15]
        days = count_of(year)
        peak = rng.choice([20, 100, 2000, 40_000, 1_000_000, LIMIT])
        patches = [any_patch(rng, period_run(year), peak) for _ in range(rng.randint(1, 30))]
        if n % 3 == 0:
            # one day in each season has a value for each quarter, drawn from few: many are above, and many are equal
            spread = min(peak // rng.choice([20, 25, 40]), 65535)
            patches += [Patch(place(year, *MIDDLES[s], 0), 96, 1, peak, spread, rng.randrange(65536)) for s in SEASONS]
        if n % 10 == 9:
            patches.append(Patch(rng.randrange(96 * days), 1, 1, rng.choice([LIMIT + 1, MISSING])))
        yield both(year, rng.randint(1, 7), rng.choice([0, 1, peak // 2]), patches, room=rng.randint(56, 64))


KINDS = (
    printed, boundaries, at_line, cut, equal, alone, weekends, bad, missing, zero, lengths, rooms, order, refused_days, other_order, early,
    refused_openings, twice, chance,
)


def records():
    return {kind.__name__: [record(*case) for case in kind()] for kind in KINDS}
