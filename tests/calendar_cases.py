"""The calendar's records and what crates/cases must print of them, by Rules 3.1 to 3.5 and 4.1 (docs/RULES.md) and
Python's datetime: a part of tests/cases.py.

It knows nothing of the code under test: weekdays and dates are datetime's, a week is the seven dates from a Monday on,
and the kinds of days are worked out week by week, as Rule 3.4 finds bridge days. Days of a year and of a reference
period count from 1.
"""
import datetime
import functools
import random
import struct

from dates import date, day_of, days_of, free_by_others, legal_list, nationwide, yday
from editions import TO_2060, TODAYS, loads, picked, under
from year import YEARS

DAYS = range(368)  # day 0 and the days past the year's end too
SEASON = {12: 1, 1: 1, 2: 1, 3: 2, 4: 2, 5: 2, 6: 3, 7: 3, 8: 3, 9: 4, 10: 4, 11: 4}


def period(year):
    """The reference period's dates, the first at place 0."""
    first, last = datetime.date(year - 2, 9, 1), datetime.date(year - 1, 8, 31)
    return [first + datetime.timedelta(days=k) for k in range((last - first).days + 1)]


def season(year, day):
    """Of a day of the year; day 0 counts to January and a day behind the year's end to December."""
    return SEASON[date(year, min(max(day, 1), days_of(year))).month]


@functools.lru_cache(maxsize=None)
def bridge_days(year, listed):
    """Of each week from Monday to Sunday that touches the year the first candidate (Rule 3.4)."""
    found = set()
    monday = datetime.date(year, 1, 1) - datetime.timedelta(days=datetime.date(year, 1, 1).weekday())
    while monday.year <= year:
        week = [monday + datetime.timedelta(days=k) for k in range(7)]
        is_listed = [d.year == year and day_of(d) in listed for d in week]
        candidates = [day for day, beside in ((0, 1), (4, 3)) if is_listed[beside] and not free_by_others(week[day], year, listed)]
        found.update(week[k] for k in candidates[:1])
        monday += datetime.timedelta(days=7)
    return found


def kind(year, listed, when):
    """The code of Rule 3.5, by the grounds 2 to 5; 1 where none holds."""
    grounds = {
        2: when.weekday() >= 5,
        3: day_of(when) in listed,
        4: (when.month, when.day) == (1, 1) or when.month == 12 and when.day >= 24,
        5: when in bridge_days(year, listed),
    }
    return min((code for code, applies in grounds.items() if applies), default=1)


def answer(year, holidays, day, editions=TODAYS):
    """The number and, for 0, the kind: order 1, 3, 13 (Rule 8.2)."""
    if picked(editions, year) is None:
        return (1,)
    if not legal_list(year, holidays):
        return (3,)
    if not 1 <= day <= days_of(year):
        return (13,)
    return (0, kind(year, frozenset(holidays), date(year, day)))


SIGN = {True: "+", False: "-"}
LETTER = {(1,): "y", (3,): "h", (13,): "d"} | {(0, code): str(code) for code in range(1, 6)}


def record(kind, year, day, holidays):
    return kind.encode() + struct.pack(">HHB", year, day, len(holidays)) + b"".join(struct.pack(">H", h) for h in holidays)


def whole_year(year, holidays, editions):
    dates = period(year)
    # day 0 of the period is 31 August, and behind its last 31 August the days go on
    around = [dates[0] + datetime.timedelta(days=d - 1) for d in DAYS]
    return [
        f"Y {year} {days_of(year)} {len(dates)}",
        "".join(str(date(year, d).weekday()) for d in DAYS),
        "".join(str(season(year, d)) for d in DAYS),
        "".join(str(SEASON[d.month]) for d in around),
        "".join(LETTER[answer(year, holidays, d, editions)] for d in DAYS),
    ]


def whole_list(year, holidays, editions):
    """Whether the list is taken, the answers of all days under it, and the days of window_days.

    window_days answers for any list, so for one that is refused its rule is applied to the days that are listed all
    the same. Its last place is of no day in a year of 365.
    """
    listed = frozenset(holidays)
    days = [d <= days_of(year) and kind(year, listed, date(year, d)) == 1 for d in range(1, 367)]
    return [
        f"L {year}" + SIGN[legal_list(year, holidays)],
        "".join(LETTER[answer(year, holidays, d, editions)] for d in DAYS),
        "".join(SIGN[carries] for carries in days),
    ]


def one_day(year, holidays, day, editions):
    return [LETTER[answer(year, holidays, day, editions)]]


# Kinds. Each gives the kind of a record, year, day and holidays

def years():
    for year in (*YEARS, 2010, 2011, 2012, 2013, 2029, 2030, 1900, 2000, 2100, 2400, 9998):
        yield "Y", year, 0, []


def taken_lists():
    """The nationwide lists, then random ones of every length."""
    rng = random.Random(20140101)
    for year in YEARS:
        yield "L", year, 0, nationwide(year)
    for n in range(240):
        year = rng.choice(YEARS)
        yield "L", year, 0, sorted(rng.sample(range(1, days_of(year) + 1), n % 41))
    # many Tuesdays and Thursdays, so that bridge days are frequent
    for year in YEARS:
        pool = [d for d in range(1, days_of(year) + 1) if date(year, d).weekday() in (0, 1, 3, 4)]
        yield "L", year, 0, sorted(rng.sample(pool, 40))
    # the turns of the years: the first and the last days listed in every way
    for year in YEARS:
        for listed in ([1], [1, 2], [1, 3], [2, 4], [1, 2, 3, 4, 5, 6]):
            yield "L", year, 0, listed
        eve = yday(year, 12, 24)
        for listed in ([eve], [eve - 1, eve], [eve - 3, eve - 1], list(range(eve - 4, eve + 8))):
            yield "L", year, 0, listed


def refused_lists():
    """Lists that break Rule 2.6, and beside them the longest and the last day alone."""
    for year in (2014, 2016, 2023, 2024, 2028):
        last = days_of(year)
        full = list(range(1, 41))
        for bad in (
            full + [41], list(range(1, 256)), [5, 5], [1, 2, 3, 3, 4], [2, 1], [1, 10, 9, 20], [0], [0, 1], [last + 1], [1, last + 1],
            [last, last], [367], [65535], [1, 65535], full[:-1] + [39], [366] if last == 365 else [366, 367], [368], [40, 50, 0],
        ):
            yield "L", year, 0, bad
        yield "L", year, 0, full
        yield "L", year, 0, [last]


def single_days():
    """Case 11, case 14 and its variants, Christmas, and bad input."""
    may = [yday(2025, 5, 13), yday(2025, 5, 15)]
    singles = [
        (2024, yday(2024, 3, 2), []), (2024, yday(2024, 3, 1), []), (2025, yday(2025, 5, 2), [yday(2025, 5, 1)]), (2025, yday(2025, 5, 2), []),
        (2025, yday(2025, 5, 12), may), (2025, yday(2025, 5, 16), may),
        (2025, yday(2025, 5, 12), [yday(2025, 5, 12)] + may), (2025, yday(2025, 5, 16), [yday(2025, 5, 12)] + may),
        (2019, 4, [1, 3]), (2019, 4, [3]), (2015, 2, [1]), (2015, 2, []), (2026, 2, [1]), (2026, 2, []),
        (2024, yday(2024, 12, 23), []), (2024, yday(2024, 12, 23), [yday(2024, 12, 24)]),
        (2016, 366, []), (2016, 367, []), (2015, 365, []), (2015, 366, []),
        # the earliest ground that applies
        (2025, yday(2025, 5, 1), [yday(2025, 5, 1)]), (2025, yday(2025, 5, 3), [yday(2025, 5, 1)]), (2025, yday(2025, 5, 3), [yday(2025, 5, 3)]),
        (2017, 1, []), (2017, 1, [1]), (2025, yday(2025, 12, 25), [yday(2025, 12, 25)]), (2025, yday(2025, 12, 25), []),
        (2025, yday(2025, 12, 26), [yday(2025, 12, 25)]), (2025, yday(2025, 12, 26), []),
    ]
    for year, day, listed in singles:
        yield "D", year, day, listed
    for year in (0, 1, 2013, 2029, 65535):
        for day in (0, 1, 2, 366, 65535):
            for listed in ([], [5, 5]):
                yield "D", year, day, listed
    for year in (2014, 2016, 2028):
        for day in (0, 1, 365, 366, 367, 368, 32768, 65535):
            for listed in ([], [1], [5, 5], [0], list(range(1, 42))):
                yield "D", year, day, listed


def outside():
    """One day of each year that today's list has no edition for: all are 1."""
    for year in (*range(1990, 2014), *range(2029, 2070)):
        assert answer(year, [], 1) == answer(year, [5, 5], 0) == (1,)
        yield "D", year, 1, []
        yield "D", year, 0, [5, 5]


def to_2060():
    """Under a list that reaches 2060: all its years, the years behind them; and of those behind 2028 lists and days."""
    rng = random.Random(20600101)
    years = range(2029, 2061)
    for year in (*range(2014, 2061), 2012, 2013, 2061, 2062):
        yield "Y", year, 0, []
    for year in years:
        beside = [d for d in range(1, days_of(year) + 1) if date(year, d).weekday() in (0, 1, 3, 4)]
        eve, last = yday(year, 12, 24), days_of(year)
        turns = [1], [1, 2], [1, 3], [2, 4], [eve - 1, eve], [eve - 3, eve - 1], [last], [last + 1], [0], [5, 5], list(range(1, 42))
        for listed in (nationwide(year), sorted(rng.sample(beside, 40)), *turns):
            yield "L", year, 0, listed
        for day in (0, 1, last, last + 1, yday(year, 2, 28) + 1, 65535):
            yield "D", year, day, []
    for year in (0, 2013, 2061, 65535):
        for day in (0, 1, 366):
            yield "D", year, day, [5, 5]


def lines(kind, year, day, holidays, editions=TODAYS):
    if kind == "Y":
        return whole_year(year, holidays, editions)
    return whole_list(year, holidays, editions) if kind == "L" else one_day(year, holidays, day, editions)


def made(cases, editions=TODAYS):
    return [(record(*case), lines(*case, editions)) for case in cases]


def records():
    later = under(loads(*TO_2060), lambda editions: made(to_2060(), editions))
    kinds = (years, taken_lists, refused_lists, single_days, outside)
    return {kind.__name__: made(kind()) for kind in kinds} | {"to_2060": later}
