"""The two Sundays of the clock change (Rule 2.4, docs/RULES.md) in grid series and in customers' years, and what
crates/cases must print of them: a part of tests/cases.py. tests/grid_records.py and tests/customer_records.py make its
records.

Days, places and answers that stand here as numbers were counted by hand, not by tests/layout.py.
"""
import customer_records
import grid_records
from customer_records import asked, figures_of, on_day
from dates import SEASONS, days_of
from editions import EVER, TO_2060, TODAYS, loads, under
from grid import GRID_MOST, whole
from layout import period_run, year_run
from recipes import Patch, daily, series_of
from year import MISSING, READING_MOST, YEARS

# of a charge year: its period's days with 100 and with 92 readings, and its own days with 92 and with 100
IN_PERIOD = {2014: (58, 212), 2025: (59, 213), 2026: (57, 211)}
IN_YEAR = {2014: (89, 299), 2024: (91, 301), 2025: (89, 299), 2026: (88, 298), 2028: (86, 303)}
NIGHT = {s: [0, 7, 8, 11, 12, 95] for s in SEASONS}


# Grid series

def starts_in_period(year):
    """Where the two Sundays, the Sundays a week before and the Mondays behind them start: each day to its place."""
    long, short = IN_PERIOD[year]
    usual = {day: 96 * (day - 1) for day in (long - 7, long, short + 1)}
    return usual | {day: 96 * (day - 1) + 4 for day in (long + 1, short - 7, short)}


def grid_positions():
    """One reading is high: which quarter of which season is a window then."""
    some = {(0, 12, 8), (0, 99, 95), (-7, 12, 12), (-7, 95, 95), (1, 0, 0)}
    more = {(0, 0, 0), (0, 7, 7), (0, 8, 8), (0, 11, 11), (0, 15, 11), (0, 16, 12), (0, 95, 91), (1, 95, 95)}
    some_short = {(0, 8, 12), (0, 91, 95), (-7, 8, 8), (-7, 95, 95), (1, 0, 0), (1, 8, 8)}
    more_short = {(0, 0, 0), (0, 7, 7), (0, 11, 15), (-7, 12, 12), (1, 95, 95)}
    for year, (long, short) in IN_PERIOD.items():
        every = year == 2025
        tried = [(4, long + by, p, q) for by, p, q in sorted(some | more if every else some)]
        tried += [(2, short + by, p, q) for by, p, q in sorted(some_short | more_short if every else some_short)]
        for season, day, position, quarter in tried:
            case = grid_records.both(year, 5, 1000, [Patch(starts_in_period(year)[day] + position, 1, 1, 2000)])
            assert whole(year, 5, series_of(*case[:3])) == ((0,), {s: [quarter] if s == season else [] for s in SEASONS})
            yield case
    # a file made as if each day had 96 readings: its reading of 18:00 is read an hour earlier
    case = grid_records.both(2025, 5, 1000, [Patch(136 * 96 + 72, 1, 1, 2000)])
    assert whole(2025, 5, series_of(*case[:3])) == ((0,), {1: [68], 2: [], 3: [], 4: []})
    yield case


def grid_doubled():
    """Both readings of a doubled quarter are in the curve: the higher one decides, first or second.

    So it does where a season is cut to forty: quarter 58 is the last of 39 equal ones, and goes.
    """
    for year, (long, _) in IN_PERIOD.items():
        start = 96 * (long - 1)
        for first, second in ((960, 995), (995, 960), (995, 0), (0, 995), (995, 995)):
            doubled = [Patch(start + 9, 1, 1, first), Patch(start + 13, 1, 1, second)]
            case = grid_records.both(year, 3, 1, [Patch(0, 1, 1, 1000), Patch(96 + 20, 39, 1, 990), *doubled])
            assert whole(year, 3, series_of(*case[:3]))[1][4] == [0, 9, *range(20, 58)]
            yield case
        # the whole hour: each quarter above the line by one of its two readings only
        hour = [Patch(start + 8, 2, 1, 951), Patch(start + 14, 2, 1, 951), Patch(start + 10, 2, 1, 950), Patch(start + 12, 2, 1, 950)]
        case = grid_records.both(year, 3, 1, [Patch(96 * 200, 1, 1, 1000), *hour])
        assert whole(year, 3, series_of(*case[:3]))[1][4] == [8, 9, 10, 11]
        yield case


def grid_bad():
    """5 names the position in the day, up to 99."""
    for year, (long, short) in IN_PERIOD.items():
        starts = starts_in_period(year)
        for day, position in ((long, 0), (long, 15), (long, 95), (long, 99), (long + 1, 0), (short, 0), (short, 91), (short + 1, 0)):
            value = MISSING if position % 2 else GRID_MOST + 1
            case = grid_records.both(year, 5, 1000, [Patch(starts[day] + position, 1, 1, value)])
            assert whole(year, 5, series_of(*case[:3])) == ((5, day, position), None)
            yield case
    # the first of several: by position, not by quarter, which is 8 for the second of these and 10 for the first
    case = grid_records.both(2025, 5, 1000, [Patch(58 * 96 + 10, 3, 2, MISSING)])
    assert whole(2025, 5, series_of(*case[:3])) == ((5, 59, 10), None)
    yield case


def lengths_by_days(first, start, right, wrong):
    """Days up to a Sunday, the Sunday in wrong lengths, then in its own."""
    return [*first, *(("P", start, length) for length in wrong), ("P", start, right)]


def lines_of(kind, record):
    """The lines of a record that tell of one kind of call."""
    return [line for line in record[1] if line.split()[0] == kind]


# a usual Sunday in two wrong lengths and its own, and the Sunday after it, which is short or long, in five; twice
ALL_LENGTHS = 2 * (2 * ["P 4"] + ["P 0"] + 5 * ["P 4"] + ["P 0"])


def grid_by_days():
    """Each day has its own length: 96 readings are refused on both Sundays, and taken a week before."""
    for year, (long, short) in IN_PERIOD.items():
        n, starts = grid_records.count_of(year), starts_in_period(year)
        calls = lengths_by_days([("O", year, 5), ("D", 1, long - 8)], starts[long - 7], 96, (92, 100))
        calls += lengths_by_days([("D", long - 6, 6)], starts[long], 100, (96, 92, 0, 99, 101))
        calls += lengths_by_days([("D", long + 1, short - long - 8)], starts[short - 7], 96, (92, 100))
        calls += lengths_by_days([("D", short - 6, 6)], starts[short], 92, (96, 100, 0, 91, 93))
        patches = [Patch(starts[long] + 12, 1, 1, 2000), Patch(starts[short] + 8, 1, 1, 2000)]
        case = 96 * n, 1000, patches, [*calls, ("D", short + 1, n - short), ("C", 60), ("W", year, 5, 60)]
        assert lines_of("P", grid_records.record(*case)) == ALL_LENGTHS
        yield case
        # each Sunday where the other is due; and a bad one: its length is tested first, and another day may be given
        bad = [Patch(starts[long] + 99, 1, 1, MISSING)]
        calls = [("O", year, 5), ("D", 1, long - 1), ("D", short, 1), ("D", long, 1), ("P", starts[long], 96), ("P", 0, 100)]
        yield 96 * n, 1000, bad, [*calls, ("D", long + 1, short - long - 1), ("D", long, 1), ("D", short, n), ("C", 60)]


def parts_of(year, first, second, n):
    """Parts without a reading: of years that are not allowed, of day 0, of days behind the last; and of ten others."""
    outside = [("L", other, day) for other in (0, 1, 2, 2013, 2029, 65_535) for day in (0, 1, 59, 366)]
    held = (1, 2, first - 7, first - 1, first, first + 1, second - 7, second, second + 1, n)
    return outside + [("L", year, day) for day in (*held, 0, n + 1, n + 2, 32_768, 65_535)]


def with_parts(records, length, tried, expected):
    """A record of parts: the length of each, and its first and last reading. Readings are made up, and tell places."""
    record = records.record(length, 1000, [Patch(0, 35_500, 1, 100_000, 65_535, 5)], tried)
    lengths = [int(line.split()[1]) for line in lines_of("L", record)]
    assert lengths == [0] * 24 + expected + [0] * (len(tried) - 24 - len(expected))
    return record


def parts():
    """Day parts as they are handed out, of series that hold every day, more, or a reading less than some day has."""
    for year, (long, short) in IN_PERIOD.items():
        n = grid_records.count_of(year)
        tried, every = parts_of(year, long, short, n), [96, 96, 96, 96, 100, 96, 96, 92, 96, 96]
        less = (96 * n - 1, 9), (96 * (short - 1) + 4 + 91, 7), (96 * (long - 1) + 99, 4), (0, 0)
        for length, held in ((96 * (n + 2), 10), (96 * n, 10), *less):
            yield with_parts(grid_records, length, tried, every[:held])
    for year, (short, long) in IN_YEAR.items():
        n = days_of(year)
        tried, every = parts_of(year, short, long, n), [96, 96, 96, 96, 92, 96, 96, 100, 96, 96]
        less = (96 * n - 1, 9), (96 * (long - 1) - 4 + 99, 7), (96 * (short - 1) + 91, 4)
        for length, held in ((96 * (n + 2), 10), (96 * n, 10), *less):
            yield with_parts(customer_records, length, tried, every[:held])


def grid_parts():
    """A part that is not there is empty, so a day with it is 4: of day 0, a day behind the period, a day in part."""
    for year, (long, short) in IN_PERIOD.items():
        n, starts = grid_records.count_of(year), starts_in_period(year)
        outside = [("D", 0, 1), ("D", n + 1, 1), ("D", n + 2, 1), ("D", 32_768, 1), ("D", 65_535, 2)]
        # two days more than the period has, and a bad reading there
        more, patches = 96 * (n + 2), [Patch(96 * n, 96, 1, 2000), Patch(96 * n + 100, 1, 1, MISSING)]
        yield more, 1000, patches, [("O", year, 5), *outside, ("D", 1, n - 1), *outside, ("D", n, 1), *outside, ("C", 60)]
        for day, right in ((long, 100), (short, 92)):
            for length in (starts[day] + right - 1, starts[day] + right):
                yield length, 1000, [], [("O", year, 5), ("D", 1, day), ("D", day, 1), ("C", 60)]
    # a year that is refused has no day: 13, whatever the series holds
    yield 96 * 366, 1000, [], [("O", 2029, 5), ("D", 1, 1), ("D", 0, 1), ("D", 367, 1), ("O", 2013, 5), ("D", 1, 1), ("C", 60)]


def grid_years(years=YEARS, editions=TODAYS):
    """Every year: quarter 40 is high on each day. A day that is laid out an hour off would show as quarter 36 or 44.

    On the Sundays a reading of the doubled hour is high, and one of the hour after the one left out. Then one series
    under the years whose periods are as long.
    """
    for year in years:
        run = period_run(year)
        long, short = run.sundays()
        patches = daily(run, range(1, len(run.dates) + 1), 40, 2000)
        patches += [Patch(run.starts[long - 1] + 14, 1, 1, 2000), Patch(run.starts[short - 1] + 10, 1, 1, 2000)]
        case = grid_records.both(year, year % 7 + 1, 1000, patches, editions=editions)
        assert whole(year, 1, series_of(*case[:3]), editions)[1] == {1: [40], 2: [14, 40], 3: [40], 4: [10, 40]}
        yield case
    patches = [Patch(96 * 57 + 12, 1, 1, 2000), Patch(96 * 80 + 50, 1, 1, 1990), Patch(96 * 211 + 8, 1, 1, 2000), Patch(96 * 230, 1, 1, 1990)]
    same = [year for year in years if grid_records.count_of(year, editions) == 365]
    yield 96 * 365, 1000, patches, [call for year in same for call in (("W", year, 5, 60), ("O", year, 5), ("D", 1, 365), ("C", 60))]


# Customers' years

def starts_in_year(year):
    """As above, and the Fridays before the Sundays."""
    short, long = IN_YEAR[year]
    usual = {day: 96 * (day - 1) for day in (short - 7, short - 2, short, long + 1)}
    return usual | {day: 96 * (day - 1) - 4 for day in (short + 1, long - 7, long - 2, long)}


def m_and_s(case):
    """M and S of a decision that carries H."""
    return figures_of(case)[-5:-3]


def customer_figures():
    """M may be the second reading of a doubled quarter, S has both; and S is each Sunday's readings, none left out."""
    for year, (short, long) in IN_YEAR.items():
        n, starts = days_of(year), starts_in_year(year)
        for first, second in ((800_000, 900_000), (900_000, 800_000), (900_000, 900_000)):
            doubled = [Patch(starts[long] + 9, 1, 1, first), Patch(starts[long] + 13, 1, 1, second)]
            case = customer_records.both(asked(year, 5, NIGHT), 100_000, doubled, year)
            assert m_and_s(case) == (900_000, 100_000 * (96 * n - 2) + first + second) and figures_of(case)[-3] == 100_000
            yield case
        for day, count, S in ((short, 92, 4_278), (long, 100, 5_050)):  # 1 + 2 + .. + count
            case = customer_records.both(asked(year, 5, NIGHT), 0, [Patch(starts[day] + p, 1, 1, p + 1) for p in range(count)], year)
            assert m_and_s(case) == (count, S) and figures_of(case)[-3] == 0
            yield case


def customer_places():
    """H on the Fridays before the two Sundays and on the Mondays behind. The Sundays are higher, and do not count."""
    for year, (short, long) in IN_YEAR.items():
        starts = starts_in_year(year)
        high = [Patch(starts[short], 92, 1, 900_000), Patch(starts[long], 100, 1, 900_000)]
        for day in (short - 2, short + 1, long - 2, long + 1):
            for quarter in (0, 8, 95) if year == 2025 else (12,):
                case = customer_records.both(asked(year, 5, NIGHT), 100_000, high + [Patch(starts[day] + quarter, 1, 1, 500_000)], year)
                assert figures_of(case)[-3:] == (500_000, day, quarter)
                yield case


def customer_bad():
    """5 names the position in the day, up to 99."""
    for year in (2014, 2025, 2028):
        (short, long), starts = IN_YEAR[year], starts_in_year(year)
        for day, position in ((short, 0), (short, 91), (short + 1, 0), (long, 15), (long, 96), (long, 99), (long + 1, 0)):
            value = MISSING if position % 2 else READING_MOST + 1
            case = customer_records.both(asked(year), 1000, [Patch(starts[day] + position, 1, 1, value)], year)
            assert figures_of(case) == (5, day, position)
            yield case


def customer_by_days():
    """Each day has its own length: 96 readings are refused on both Sundays, and taken a week before."""
    for year, (short, long) in IN_YEAR.items():
        n, starts = days_of(year), starts_in_year(year)
        calls = lengths_by_days([("A", asked(year, 5, NIGHT)), ("D", 1, short - 8)], starts[short - 7], 96, (92, 100))
        calls += lengths_by_days([("D", short - 6, 6)], starts[short], 92, (96, 100, 0, 91, 93))
        calls += lengths_by_days([("D", short + 1, long - short - 8)], starts[long - 7], 96, (92, 100))
        calls += lengths_by_days([("D", long - 6, 6)], starts[long], 100, (96, 92, 0, 99, 101))
        patches = [Patch(starts[long] + 12, 1, 1, 900_000), on_day(year, long + 1, 8, 500_000)]
        case = 96 * n, 100_000, patches, [*calls, ("D", long + 1, n - long), ("C",)]
        assert lines_of("P", customer_records.record(*case)) == ALL_LENGTHS
        yield case
        # each Sunday where the other is due; and a bad one: its length is tested first, and another day may be given
        bad = [Patch(starts[short] + 91, 1, 1, MISSING)]
        calls = [("A", asked(year)), ("D", 1, short - 1), ("D", long, 1), ("D", short, 1), ("P", starts[short], 96), ("P", 0, 92)]
        yield 96 * n, 100_000, bad, [*calls, ("D", short + 1, long - short - 1), ("D", short, 1), ("D", long, n), ("C",)]


def customer_parts():
    """A part that is not there is empty, so a day with it is 4: of day 0, a day behind the year, a day in part."""
    for year in (2025, 2028):
        (short, long), n, starts = IN_YEAR[year], days_of(year), starts_in_year(year)
        outside = [("D", 0, 1), ("D", n + 1, 1), ("D", n + 2, 1), ("D", 32_768, 1), ("D", 65_535, 2)]
        # two days more than the year has, and a bad reading there
        more, patches = 96 * (n + 2), [Patch(96 * n, 96, 1, 900_000), Patch(96 * n + 100, 1, 1, MISSING)]
        calls = [("A", asked(year)), *outside, ("D", 1, n - 1), *outside, ("D", n, 1), *outside, ("C",)]
        yield more, 100_000, patches, calls
        for day, right in ((short, 92), (long, 100)):
            for length in (starts[day] + right - 1, starts[day] + right):
                yield length, 100_000, [], [("A", asked(year)), ("D", 1, day), ("D", day, 1), ("C",)]


def customer_years(years=YEARS, editions=TODAYS):
    """Every year: an hour before the window and an hour behind it each day is high.

    H would show a day that is laid out an hour off.
    """
    for year in years:
        run, every = year_run(year), range(1, days_of(year) + 1)
        patches = daily(run, every, 68, 900_000) + daily(run, every, 76, 900_000)
        case = customer_records.both(asked(year, year % 7 + 1, {s: [72] for s in SEASONS}), 100_000, patches, year)
        assert figures_of(case, editions)[-3] == 100_000
        yield case


def to_2060(records, cases):
    """Records of the years behind today's edition, under a list that has them."""
    later = [year for year in EVER if year not in YEARS]
    return under(loads(*TO_2060), lambda editions: [records.record(*case, editions) for case in cases(later, editions)])


GRID = (grid_positions, grid_doubled, grid_bad, grid_by_days, grid_parts, grid_years)
CUSTOMER = (customer_figures, customer_places, customer_bad, customer_by_days, customer_parts, customer_years)


def records():
    made = {kind.__name__: [grid_records.record(*case) for case in kind()] for kind in GRID}
    made |= {kind.__name__: [customer_records.record(*case) for case in kind()] for kind in CUSTOMER}
    made |= {"grid_to_2060": to_2060(grid_records, grid_years), "customer_to_2060": to_2060(customer_records, customer_years)}
    return made | {"parts": list(parts())}
