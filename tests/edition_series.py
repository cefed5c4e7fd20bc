"""Series under other editions than today's, whole and by days, and all calls under records that no loading takes; and
what crates/cases must print: a part of tests/cases.py.

It knows nothing of the code under test. What a case must come to is said beside it, as it was calculated by hand;
tests/grid.py and tests/year.py have the rules, and are held to it. Of `forged` only a few answers are said so, behind
its calls. Its others, and what all kinds answer to single days, are worked out by the scripts alone. Rules 2.7, 4.4 to
7.7 and 9.1 to 9.6 (docs/RULES.md).
"""
import itertools

import customer_records
import grid
import grid_records
import sheet_cases
import tariff_cases
from customer_records import asked, second_year
from dates import SEASONS
from editions import NONE, SECOND, TODAY, TWO, Edition, Listed, loads, picked, under
from layout import period_run, year_run
from recipes import Patch, series_of
from tariff_cases import U32, U64, made
from year import LIMITS, USUAL, judge, sheet_bytes, whole


def windows_of(year, base, patches, editions):
    """The quarters of each season that a whole series has; for the checks below."""
    said, windows = grid.whole(year, 5, series_of(96 * len(period_run(year).dates), base, patches), editions)
    assert said == (0,)
    return [windows[season] for season in SEASONS]


def gridded(edition, year, cases):
    """Base and patches, with the windows that they must have: whole and by days."""
    def records(editions):
        for base, patches, expected in cases:
            assert windows_of(year, base, patches, editions) == expected
            yield grid_records.record(*grid_records.both(year, 5, base, patches, editions=editions), editions)

    return under(loads(TODAY, edition), records)


def lines_and_limits():
    """The ends of line and limit, in a season's curve of 96 values or fewer."""
    year = 2035
    winter, summer = grid.place(year, 1, 17, 0), grid.place(year, 7, 4, 0)
    rising = [Patch(winter + q, 1, 1, 905 + q) for q in range(96)]  # 905 to 1000
    everything, first = list(range(96)), [0]
    none = []
    # line 100: nothing is above the peak itself
    yield from gridded(SECOND._replace(line=100), year, [(1000, [], [none] * 4), (0, rising, [none] * 4), (0, [Patch(5, 1, 1, 1)], [none] * 4)])
    # line 0: every quarter with a value, however small, as far as the limit goes
    zero = SECOND._replace(line=0, limit=96)
    small = [Patch(winter + 3, 1, 1, 1), Patch(summer + 90, 2, 1, 200_000_000)]
    yield from gridded(zero, year, [(1, [], [everything] * 4), (0, small, [[3], none, [90, 91], none])])
    yield from gridded(zero._replace(limit=1), year, [(1, [], [first] * 4), (0, small, [[3], none, [90], none])])
    # limit 96 never cuts, limit 95 does: the last of the lowest goes
    wide = SECOND._replace(limit=96)
    yield from gridded(wide, year, [(1000, [], [everything] * 4), (0, rising, [everything, none, none, none])])
    yield from gridded(wide._replace(limit=95), year, [(1000, [], [everything[:95]] * 4), (0, rising, [everything[1:], none, none, none])])
    yield from gridded(wide._replace(limit=1), year, [(1000, [], [first] * 4), (0, rising, [[95], none, none, none])])
    # line 99: 991 and more of 1,000; line 1: 11 and more
    yield from gridded(wide._replace(line=99), year, [(0, rising, [everything[86:], none, none, none])])
    low = [Patch(winter + k, 1, 1, 9 + k) for k in range(4)] + [Patch(summer, 1, 1, 1000)]
    yield from gridded(wide._replace(line=1), year, [(0, low, [[2, 3], none, [0], none])])


def second_grid():
    """A line of 90 percent and 32 quarters: in a period with the long February, and in one without."""
    for year in (2031, 2033, 2035, 2040):
        spring, autumn = grid.place(year, 4, 10, 0), grid.place(year, 10, 7, 0)
        # 900 is on the line, 901 above it
        at_line = [Patch(autumn + 7, 1, 1, 1000), Patch(spring + 10, 1, 1, 900), Patch(spring + 20, 1, 1, 901)]
        # 33 above the line: the lowest of them is the first one, and of 40 equal ones the last eight go
        many = [Patch(autumn, 33, 1, 1000), Patch(autumn, 1, 1, 999), Patch(spring + 50, 40, 1, 950)]
        exactly = [Patch(autumn + 64, 32, 1, 901), Patch(spring, 1, 1, 1000)]
        yield from gridded(SECOND, year, [
            (0, at_line, [[], [20], [], [7]]),
            (0, many, [[], list(range(50, 82)), [], list(range(1, 33))]),
            (0, exactly, [[], [0], [], list(range(64, 96))]),
            (1000, [], [list(range(32))] * 4),
        ])
    # the same readings in a year of today's edition: neither 901 nor 950 of 1,000 is above its line, 951 is
    autumn = grid.place(2025, 10, 7, 0)
    patches = [Patch(autumn, 41, 1, 1000), Patch(autumn + 50, 1, 1, 950), Patch(autumn + 60, 1, 1, 901)]
    yield from gridded(SECOND, 2025, [(0, patches, [[], [], [], list(range(40))]), (0, patches[1:], [[], [], [], [50]])])


def second_customer():
    """Case 21 (Rule 11.1) as a year of readings, and at a level that asks for less: whole and by days."""
    year = 2035

    def records(editions):
        for H, level, expected in ((750_000, 5, (0, 12_500_000, 13_000_000)), (750_001, 5, (9, 13_000_000)), (750_001, 4, (0, 12_500_002, 13_000_000))):
            case = customer_records.both(asked(year, level, {1: [72]}), *second_year(H), year)
            assert customer_records.figures_of(case, editions) == expected + (1_000_000, 11_000_000_000, H, 8, 72)
            yield customer_records.record(*case, editions)
        # 33 quarters in a season are 12 here, and 32 are not
        for count in (32, 33):
            terms = asked(year, 5, {2: range(count)})
            assert whole(terms, series_of(35_040, 1000, []), editions)[0] == (12 if count == 33 else 9)
            yield customer_records.record(*customer_records.both(terms, 1000, [], year), editions)

    yield from under(TWO, records)


# States that were opened under another list: each keeps the edition of its opening

# the same years as the second edition's; whoever goes by it answers otherwise below
OTHER = SECOND._replace(line=99, limit=1, shares=(100,) * 7, move=0, floor=100, reduction=0, hours=0)
TO_OTHER = [("E", *operation) for operation in loads(TODAY, OTHER)]


def by_places(run, first):
    """Days from one on by the places of their readings: a list without the year has no part for a day."""
    return [("P", start, end - start) for start, end in itertools.pairwise(run.starts[first - 1:])]


def said(record):
    """What a record's whole series and closings are answered."""
    return [line[2:] for line in record[1] if line[0] in "WC"]


def grids_opened_before():
    """All days under another list, half of them under each, and the last under a list that has lost the year."""
    year, autumn, summer = 2035, grid.place(2035, 10, 7, 0), grid.place(2035, 7, 4, 0)
    patches = [Patch(autumn, 33, 1, 1000), Patch(autumn, 1, 1, 999), Patch(summer + 20, 1, 1, 901)]
    # autumn has 33 above the line, the first of them the lowest: 32 stay. By the other edition one does, the second,
    # and 901 is not above the line
    sheets = sheet_bytes(year, 5, {3: [20], 4: range(1, 33)}), sheet_bytes(year, 5, {4: [1]})
    kept, one = (f"0 {grid_records.lent(sheet)}" for sheet in sheets)
    opened, every = ("O", year, 5), [("D", 1, 365), ("C", 60)]
    halves = [("D", 1, 150), *TO_OTHER, ("D", 151, 215), ("C", 60), opened, *every]
    lost = [("D", 1, 215), ("E", "N"), ("D", 216, 1), ("L", year, 216), *by_places(period_run(year), 216), ("C", 60)]
    tried = ([*TO_OTHER, *every, ("W", year, 5, 60)], [kept, one]), (halves, [kept, one]), (lost, [kept])

    def records(editions):
        for calls, expected in tried:
            record = grid_records.record(96 * 365, 0, patches, [opened, *calls], editions)
            assert said(record) == expected
            yield record

    yield from under(TWO, records)


def customers_opened_before():
    """The same of a customer's year; and a year that is closed again after the list has lost it."""
    year = 2035
    readings = [Patch(0, 1, 1, 1_000_000), Patch(7 * 96 + 72, 1, 1, 750_000)]
    # S is 35,038 times 300,000 and the two: the low row, 2,000,000 and 10,513,150 cent. By the other edition it is the
    # high one, 10,000,000 and 2,102,630, and H must be 0
    figures = "1000000 10513150000 750000 8 72"
    accepted, refused = f"0 12013150 12513150 {figures}", f"9 12102630 {figures}"
    opened, every = ("A", asked(year, 5, {1: [72]})), [("D", 1, 365), ("C",)]
    halves = [("D", 1, 200), *TO_OTHER, ("D", 201, 165), ("C",), ("E", "N"), ("C",)]
    lost = [("D", 1, 215), ("E", "T"), ("D", 216, 1), ("L", year, 216), ("C",), *by_places(year_run(year), 216), ("C",)]
    tried = ([*TO_OTHER, *every, opened, *every], [accepted] * 2 + [refused] * 2), (halves, [accepted] * 3), (lost, [accepted, "13", accepted])

    def records(editions):
        for calls, expected in tried:
            record = customer_records.record(96 * 365, 300_000, readings, [opened, *calls], editions)
            assert said(record) == expected
            yield record

    yield from under(TWO, records)


# Records that no loading took

def forged():
    """Counts and numbers outside of all ranges: each call has its one answer all the same."""
    wild = Edition(2031, 2040, 255, 0, (255,) * 7, U32, 255, U32, 65535)

    def calls(editions):
        e = picked(editions, 2035)
        series = 96 * 365
        patches = [Patch(30, 40, 1, 1000)]
        yield grid_records.record(series, 10, patches, [("W", 2035, 5, 60), ("O", 2035, 5), ("D", 1, 365), ("C", 60), ("L", 2035, 3)], editions)
        for chosen in ([], [(1, 72)], [(2, q) for q in range(96)]):
            yield sheet_cases.reading(sheet_cases.sheet_bytes(2035, 5, chosen), editions)
            yield sheet_cases.writing(2035, 5, chosen, 60, editions)
        for windows in ({}, {1: [72]}):
            yield customer_records.record(series, 10, patches, [("A", asked(2035, 5, windows)), ("D", 1, 365), ("C",)], editions)
        for M, H, S in itertools.product((0, 1, 1_000_000, U32), (0, 1, 600_000, U32), (0, 11_000_000_000, U64)):
            for level, rows, option in ((5, USUAL, False), (7, LIMITS, True), (0, USUAL, False)):
                yield tariff_cases.record(made(M, H, S, level, rows, option), 2035, e)

    for e in (wild, wild._replace(line=0, limit=255), SECOND._replace(limit=0), SECOND._replace(shares=(255,) * 7), SECOND._replace(floor=255, move=0)):
        yield from under([("F", 1, 0, e), ("Y", 2035)], calls)
    # by hand: line 255 or limit 0 keep nothing, and the sheet is empty with 0; line 0 and limit 255 keep every value
    lists = {e: Listed(1, (e,) + NONE.records[1:]) for e in (wild, SECOND._replace(limit=0), wild._replace(line=0, limit=255))}
    kept = [windows_of(2035, 10, [], editions) for editions in lists.values()]
    assert kept == [[[]] * 4, [[]] * 4, [list(range(96))] * 4]
    # with limit 0 every quarter is one too many
    assert [sheet_cases.write_answer(2035, 5, chosen, 56, lists[wild]) for chosen in ([], [(1, 1)])] == [0, 12]
    # 255 percent of M cannot be moved, nor can a charge be above its floor of 255 percent of g
    assert judge(made(1_000_000, 0, 0), SECOND._replace(shares=(255,) * 7))[0] == 9
    assert judge(made(1_000_000, 0, 0), SECOND._replace(floor=255))[0] == 11


KINDS = (lines_and_limits, second_grid, second_customer, grids_opened_before, customers_opened_before, forged)


def records():
    return {kind.__name__: list(kind()) for kind in KINDS}
