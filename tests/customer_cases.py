"""Customers' years that are taken, of every kind, and what crates/cases must print of them: a part of tests/cases.py.
tests/customer_records.py makes its records.
"""
import itertools
import random

from customer_records import EVENING, all_terms, asked, both, figures_of, on_day, one, record
from dates import SEASONS, date, days_of, nationwide, yday
from layout import year_run
from recipes import Patch, any_places, daily, series_of
from year import LIMITS, MISSING, READING_MOST, SEASON, SHARE, USUAL, YEARS, Terms, carrying_by_weeks, whole

MORNINGS = {1: [10], 2: [30], 3: [50], 4: [70]}  # another quarter in each season


def runs_of(year, season):
    """The days of a season: one run of them, and two in winter."""
    own = [d for d in range(1, days_of(year) + 1) if SEASON[date(year, d).month] == season]
    return [own] if season != 1 else [[d for d in own if d < 100], [d for d in own if d > 100]]


# Kinds

def printed():
    """The example of Rule 10.7, and beside it: the option, other levels and prices, the day and the quarter moved."""
    terms = Terms(bytes.fromhex("484c5a000107e905" + "00" * 9 + "80" + "00" * 38), (), USUAL, False)
    patches = [one(2025, 1, 4, 0, 1_000_000), one(2025, 1, 2, 72, 500_000)]
    case = both(terms, 0, patches, 2025)
    assert figures_of(case) == (0, 1001500, 2001500, 1000000, 1500000, 500000, 2, 72)
    yield case
    yield all_terms(2025, 0, patches, [terms._replace(option=True)] + [asked(2025, level, {1: [72]}) for level in SHARE])
    moved = ((1, 1, 72), (1, 2, 71), (1, 2, 73), (1, 3, 72), (2, 28, 72), (3, 3, 72), (12, 1, 72), (12, 23, 72), (12, 24, 72))
    for month, day, quarter in moved:
        yield both(terms, 0, [patches[0], one(2025, month, day, quarter, 500_000)], 2025)


def zeros():
    """Zeros with windows (case 13): 10, with M 0, and H 0 at the year's first in-window quarter. Without windows: 8."""
    for year in YEARS:
        terms = [asked(year, year % 7 + 1, {season: [year % 90, 95]}, nationwide(year)) for season in SEASONS]
        case = all_terms(year, 0, [], terms)
        assert figures_of(case)[:5] == (10, 0, 0, 0, 0)
        yield case
    yield both(asked(2025), 0, [], 2025)
    yield both(asked(2025, windows={}), 0, [], 2025)


def no_windows():
    """The empty sheet: 8 with g, M and S, whatever else."""
    for year, option in ((2014, False), (2016, True), (2025, True), (2028, False)):
        terms = asked(year, 1, {}, nationwide(year), USUAL, option)
        case = both(terms, 777, [Patch(0, 30_000, 1, 900_000, 60_000, year)], year)
        assert figures_of(case)[0] == 8
        yield case
        yield both(terms, 1_000_000, [], year)
        yield both(terms, 0, [Patch(96 * days_of(year) - 1, 1, 1, READING_MOST)], year)


def free_days_high():
    """Every day that carries no windows is high in a quarter of the windows: none may count.

    Each year, with and without its holidays.
    """
    for year, listed in itertools.product(YEARS, (True, False)):
        holidays = nationwide(year) if listed else []
        carrying = carrying_by_weeks(year, frozenset(holidays))
        free = [d for d in range(1, days_of(year) + 1) if d not in carrying]
        run, every = year_run(year), range(1, days_of(year) + 1)
        patches = daily(run, every, 68, 400_000, 3_000, year) + daily(run, every, 75, 400_000, 3_000, 5 * year)
        for weekday in (5, 6):
            patches += daily(run, [d for d in free if date(year, d).weekday() == weekday], 64 + weekday, 900_000)
        patches += [on_day(year, d, 68 + d % 8, 900_000) for d in free if date(year, d).weekday() < 5]
        case = both(asked(year, 5, EVENING, holidays), 100_000, patches, year)
        assert figures_of(case)[5 if figures_of(case)[0] == 0 else 4] <= 400_000
        yield case


def stairs():
    """Days with falling readings, of which three more are listed at each turn: the highest that counts moves on."""
    rng = random.Random(14)
    for year in (2014, 2019, 2024, 2028):
        steps = sorted(rng.sample(carrying_by_weeks(year, frozenset()), 40), key=lambda d: (d * 7919) % 367)
        patches = [on_day(year, d, 68 + k % 8, 700_000 - 1_000 * k) for k, d in enumerate(steps)] + [Patch(0, 1, 1, 1_000_000)]
        yield all_terms(year, 50_000, patches, [asked(year, 5, EVENING, sorted(steps[:k])) for k in range(0, 41, 3)], 5)


def cold_store():
    """Leap years: the Saturday after 29 February must not count, nor the Sunday; the Friday and the Monday do."""
    for year in (2016, 2020, 2024, 2028):
        saturday = next(d for d in range(61, 70) if date(year, d).weekday() == 5)
        patches = [on_day(year, saturday, 68, 2_000_000, 8), on_day(year, saturday + 1, 0, 1_900_000, 96)]
        case = both(asked(year), 300_000, patches, year)
        assert figures_of(case)[0] == 0 and figures_of(case)[3] == 2_000_000 and figures_of(case)[5] == 300_000
        yield case
        for beside in (saturday - 2, saturday - 1, saturday + 2, yday(year, 2, 29), yday(year, 2, 28), yday(year, 3, 1)):
            yield both(asked(year), 300_000, patches + [on_day(year, beside, 70, 500_000)], year)
        # every weekend day after 29 February is the highest
        weekend = [patch for d in (saturday, saturday + 1) for patch in daily(year_run(year), range(d, 367, 7), 69, 1_500_000)]
        yield both(asked(year, 3), 300_000, weekend + [Patch(96 * 366 - 1, 400, 1, 5)], year)
    # a common year's days under a leap year's sheet: a day short, and the other way round
    yield both(asked(2024), 300_000, [], 2025)
    yield both(asked(2025), 300_000, [], 2024)


def holidays_move():
    """Lists that move H: holidays, bridge days, case 14, weeks over the year's end."""
    year = 2025
    day = {(m, d): yday(year, m, d) for m, d in ((5, 1), (5, 2), (5, 5), (5, 6), (5, 8), (5, 9), (6, 9), (6, 10))}
    first_may, bridge, monday, tuesday, thursday, friday = (day[k] for k in ((5, 1), (5, 2), (5, 5), (5, 6), (5, 8), (5, 9)))
    highs = (first_may, 70, 900_000), (bridge, 71, 800_000), (monday, 72, 700_000), (friday, 69, 600_000), (tuesday, 68, 650_000), (thursday, 68, 640_000)
    patches = [on_day(year, *high) for high in highs] + [Patch(0, 1, 1, 2_000_000)]
    lists = [[], [first_may], [bridge], [first_may, bridge], [first_may, monday], [first_may, tuesday], [first_may, thursday]]
    lists += [[first_may, tuesday, thursday], [first_may, monday, tuesday, thursday], [first_may, tuesday, thursday, friday]]
    lists += [[first_may, bridge, tuesday], [first_may, monday, thursday], [first_may, friday]]
    lists += [[first_may, bridge, monday, tuesday, thursday, friday]]
    case = all_terms(year, 100_000, patches, [asked(year, 5, EVENING, numbers) for numbers in lists], 2)
    series = series_of(*case[:3])
    got = [whole(asked(year, 5, EVENING, numbers), series)[-3:] for numbers in lists]
    assert got[0] == (900_000, first_may, 70) and got[1] == (700_000, monday, 72)
    # case 14: Monday free, Friday carries windows
    assert got[7] == (600_000, friday, 69)
    yield case
    # each other week of some years: Tuesday and Thursday listed, alone and together, with Monday and Friday the highest
    for year in (2019, 2020, 2026):
        mondays = [d for d in range(7, days_of(year) - 14) if date(year, d).weekday() == 0][3::11]
        for m in mondays:
            patches = [on_day(year, m, 70, 900_000), on_day(year, m + 4, 70, 900_000), on_day(year, m + 2, 70, 500_000), Patch(1, 1, 1, 3_000_000)]
            lists = [m + 1], [m + 3], [m + 1, m + 3], [m, m + 3], [m, m + 1, m + 3], [m + 2]
            yield all_terms(year, 100_000, patches, [asked(year, 5, EVENING, numbers) for numbers in lists], 3)
    # the first week: 1 and 3 January 2019 listed, so 4 January is a bridge day; and the weeks about each year's end
    for year in (2014, 2016, 2019, 2020, 2021, 2024, 2028):
        patches = [on_day(year, d, 70, 900_000 - 10_000 * k) for k, d in enumerate((2, 3, 4, 5, 6, 7, 8, 9))]
        last = days_of(year)
        patches += [on_day(year, last - k, 71, 800_000 - 10_000 * k) for k in range(17)] + [Patch(0, 1, 1, 3_000_000)]
        lists = [[], [1], [1, 3], [2], [3], [6], [1, 6], [2, 6], [2, 3, 6], [2, 3, 4, 5, 6, 7]]
        lists += [[last], [last - 7], [last - 8], [last - 8, last - 7, last - 6]]
        lists += [[1, 2, 3, 6, 7, 8, 9, last - 10, last - 9, last - 7], [1, 2, 3, 4, 5, 6, 7, 8, 9, last - 12, last - 9]]
        yield all_terms(year, 100_000, patches, [asked(year, 5, EVENING, numbers) for numbers in lists], 8)


def year_ends():
    """24 December to 1 January are high, then one of the days beside them is, too."""
    for year in YEARS:
        last = days_of(year)
        free = [on_day(year, 1, 68, 950_000, 8)] + [on_day(year, d, 68, 950_000, 8) for d in range(last - 7, last + 1)]
        yield both(asked(year), 100_000, free, year)
        beside = [d for d in range(2, 6)] + [d for d in range(last - 11, last - 7)]
        yield all_terms(year, 100_000, free + [on_day(year, d, 70 + d % 4, 500_000 - 1_000 * k) for k, d in enumerate(beside)],
                        [asked(year, 5, EVENING, numbers) for numbers in ([], [2], [2, last - 8], [last - 8])], 4)


def seasons():
    """Another quarter in each season.

    Every day is high at the other seasons' quarters, and a season's first and last days are the highest of its own.
    """
    for year in YEARS:
        of = {d: SEASON[date(year, d).month] for d in range(1, days_of(year) + 1)}
        patches = []
        for season, (quarter,) in MORNINGS.items():
            patches += daily(year_run(year), of, quarter, 900_000)
            patches += daily(year_run(year), [d for d in of if of[d] == season], quarter, 300_000, 2_000, year)
        terms = asked(year, 5, MORNINGS, [])
        alone = [asked(year, 5, {s: MORNINGS[s]}) for s in SEASONS] if year in (2020, 2025) else []
        case = all_terms(year, 50_000, patches, [terms] + alone, 5)
        assert figures_of(case)[-3] <= 300_000
        yield case
        carrying = carrying_by_weeks(year, frozenset())
        edges = [d for d in carrying if any(of.get(d + k, of[d]) != of[d] for k in (-3, -2, -1, 1, 2, 3))]
        steps = [on_day(year, d, MORNINGS[of[d]][0], 600_000 - 5_000 * k) for k, d in enumerate(edges)]
        yield all_terms(year, 50_000, patches + steps, [asked(year, 5, MORNINGS, edges[:k]) for k in range(0, min(len(edges), 40), 5)], 4)


def one_season():
    """Windows in one season only: the readings of the others say nothing of H."""
    for year, season in itertools.product((2017, 2020, 2025), SEASONS):
        windows = {season: [0, 20, 40, 95]}
        run, every = year_run(year), range(1, days_of(year) + 1)
        patches = [patch for q in (0, 20, 40, 95) for patch in daily(run, every, q, 800_000, 50_000, 31 * q + year)]
        yield both(asked(year, 1, windows, nationwide(year)), 10_000, patches + [Patch(50, 1, 1, 1_000_000)], year)
        # the season's own days are low, in every quarter
        own = [(run.starts[days[0] - 1], run.starts[days[-1]]) for days in runs_of(year, season)]
        low = [Patch(start, end - start, 1, 1_000, 900, season) for start, end in own]
        case = both(asked(year, 7, windows), 800_000, low, year)
        assert figures_of(case)[-3] <= 1_000
        yield case


def edges_of_day():
    """Windows at the first and the last quarter, and readings at the quarters beside them, of this day and the next."""
    for year, quarters in zip((2018, 2024, 2018, 2024, 2018, 2024, 2018), ([0], [95], [0, 95], [7], [8], [87, 88], [1, 94])):
        monday = next(d for d in range(100, 107) if date(year, d).weekday() == 0)
        around = [on_day(year, monday - 7, 0, 900_000, 96 * 21)]
        around += [patch for q in quarters for patch in daily(year_run(year), range(monday - 7, monday + 14), q, 200_000)]
        terms = asked(year, 5, {s: quarters for s in SEASONS})
        yield both(terms, 200_000, around, year)
        for k, q in itertools.product((0, 4), quarters):
            case = both(terms, 200_000, around + [on_day(year, monday + k, q, 300_000)], year)
            assert figures_of(case)[-3:] == (300_000, monday + k, q)
            yield case


def ties():
    """H at its first place: two days, two quarters of a day, a later day's earlier quarter.

    Also equal readings before it that do not count.
    """
    year = 2025
    wednesday = yday(year, 4, 2)
    cases = [
        ([(wednesday, 70), (wednesday + 1, 70)], (wednesday, 70)), ([(wednesday, 70), (wednesday, 74)], (wednesday, 70)),
        ([(wednesday, 74), (wednesday + 1, 68)], (wednesday, 74)), ([(wednesday, 67), (wednesday, 76), (wednesday, 75)], (wednesday, 75)),
        ([(wednesday - 4, 70), (wednesday - 3, 70), (wednesday + 5, 71)], (wednesday + 5, 71)), ([(1, 70), (2, 75), (2, 68)], (2, 68)),
        ([(365, 70), (wednesday + 196, 75), (357, 68)], (wednesday + 196, 75)),
    ]
    for places, first in cases:
        case = both(asked(year), 100_000, [on_day(year, d, q, 500_000) for d, q in places] + [Patch(0, 1, 1, 1_000_000)], year)
        assert figures_of(case)[-3:] == (500_000, *first)
        yield case
        # the later one a W higher, and a W lower
        d, q = max(places)
        for by in (-1, 1):
            yield both(asked(year), 100_000, case[2] + [on_day(year, d, q, 500_000 + by)], year)
    # every reading the same: the first in-window quarter of the year; H equals M
    for year, value in ((2014, 1), (2021, 300_000), (2024, READING_MOST), (2028, 999_999_999)):
        case = both(asked(year, 1), value, [], year)
        assert figures_of(case)[0] == 9 and figures_of(case)[-3] == value
        yield case
    # the in-window value equals the peak, which first stands outside the windows
    for year in (2015, 2024):
        yield both(asked(year), 100_000, [on_day(year, 1, 3, 800_000), on_day(year, 200, 70, 800_000), on_day(year, 201, 70, 800_000)], year)
        yield both(asked(year), 100_000, [on_day(year, 1, 3, 800_000), on_day(year, 200, 70, 799_999), on_day(year, 201, 70, 799_999)], year)


def thresholds():
    """Whole years at the edge of each row of the decision."""
    year, wednesday = 2025, yday(2025, 4, 2)
    for level, percent in SHARE.items():
        for by in (-1, 0, 1):
            H = 4_000_000 - 40_000 * percent + by
            case = both(asked(year, level), 50_000, [Patch(50, 1, 1, 4_000_000), on_day(year, wednesday, 70, H)], year)
            assert figures_of(case)[0] == (9 if by > 0 else 0)
            yield case
    for by in (99_999, 100_000, 100_001):
        case = both(asked(year, 1), 150_000, [Patch(50, 1, 1, 300_000), on_day(year, wednesday, 70, 300_000 - by)], year)
        assert figures_of(case)[0] == (10 if by < 100_000 else 0)
        yield case
    # 10,000 quarters at the peak: 2,500 hours of use; one W less is below
    for by, option in itertools.product((-1, 0, 1), (False, True)):
        patches = [on_day(year, 151, 0, 1_000_000, 10_000 - 35)]  # summer and autumn, where no window is
        patches += [on_day(year, 1, 0, 1_000_000, 35), on_day(year, 2, 70, 200_000), on_day(year, 2, 0, 1_000_000 - 200_000 + by), on_day(year, 1, 34, 0)]
        case = both(asked(year, 5, {1: EVENING[1]}, (), USUAL, option), 0, patches, year)
        assert figures_of(case)[4 if figures_of(case)[0] == 0 else 3] == 10_000_000_000 + by
        yield case
    # case 7 and its neighbour: 50,000 cent, and 49,900
    for price in (500, 499):
        terms = asked(year, 1, EVENING, (), USUAL[:2] + (price, 800))
        spread = [Patch(0, 24_000, 1, 150_000), on_day(year, wednesday, 70, 200_000), Patch(2, 1, 1, 300_000)]
        case = both(terms, 0, spread, year)
        assert figures_of(case)[0] == (0 if price == 500 else 11)
        yield case
    # the option makes r higher than g
    for option in (False, True):
        yield both(asked(year, 5, EVENING, (), USUAL, option), 100_000, [Patch(2, 1, 1, 1_000_000), on_day(year, wednesday, 70, 800_000)], year)


def every_year():
    """Each year with made-up readings, nationwide holidays and evening windows; on the way a few refused days."""
    for year in YEARS:
        n = days_of(year)
        patches = [patch for q in range(60, 84) for patch in daily(year_run(year), range(1, n + 1), q, 600_000, 60_000, 97 * q + year)]
        patches += [Patch(20, 3 * n, 32, 1_000_000, 65_000, year)]
        windows = {s: list(range(64 + s, 76 + 2 * s)) for s in SEASONS}
        terms = asked(year, year % 7 + 1, windows, nationwide(year), USUAL, year % 2 == 0)
        cut = 37 * (year - 2013) % n + 1
        yield 96 * n, 90_000, patches, [("A", terms), ("D", 1, cut), ("P", 0, 95), ("C",), ("P", 5, 97), ("D", cut + 1, n), ("C",)]


def any_windows(rng):
    return {s: rng.sample(range(96), rng.choice([0, 1, 3, 12, 40])) for s in SEASONS}


def any_patch(rng, run, peak):
    first, count, step = any_places(rng, run)
    spread = rng.choice([0, 3, peak // 40, peak // 2])
    return Patch(first, count, step, rng.choice([peak, peak // 2, rng.randint(0, peak)]), min(spread, 65535), rng.randrange(65536))


def chance():
    rng = random.Random(35_040)
    for n in range(45):
        year = YEARS[n % 15]
        days = days_of(year)
        peak = rng.choice([20, 150_000, 1_000_000, 40_000_000, READING_MOST])
        patches = [any_patch(rng, year_run(year), peak) for _ in range(rng.randint(1, 20))]
        if n % 9 == 8:
            patches.append(Patch(rng.randrange(96 * days), 1, 1, rng.choice([READING_MOST + 1, MISSING])))
        terms = []
        for _ in range(2):
            holidays = rng.choice([nationwide(year), sorted(rng.sample(range(1, days + 1), rng.randint(0, 40)))])
            rows = rng.choice([USUAL, tuple(rng.randint(0, limit) for limit in LIMITS)])
            terms.append(asked(year, rng.randint(1, 7), any_windows(rng), holidays, rows, rng.random() < 0.5))
        yield all_terms(year, rng.choice([0, 1, peak // 3]), patches, terms, 2)


KINDS = (
    printed, zeros, no_windows, free_days_high, stairs, cold_store, holidays_move, year_ends, seasons, one_season, edges_of_day, ties,
    thresholds, every_year, chance,
)


def records():
    return {kind.__name__: [record(*case) for case in kind()] for kind in KINDS}
