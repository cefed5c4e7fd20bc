"""Lists of editions, and the years, days and sheets under them, and what crates/cases must print: a part of
tests/cases.py. tests/edition_figures.py and tests/edition_series.py have what is decided under them.

It knows nothing of the code under test. What a case must come to is said beside it, as it was calculated by hand; the
scripts that have the rules (editions.py and others) make the lines, and are held to it. Only the days' parts of
`layouts` are worked out by the scripts alone. Rules 2.1, 2.7 and 5.1 to 5.4 (docs/RULES.md).
"""
import itertools

import calendar_cases
import customer_records
import grid
import grid_records
import sheet_cases
from customer_records import asked
from dates import SEASONS, days_of
from editions import BLANK, EVER, SECOND, TO_2060, TODAY, TWO, Edition, all_steps, loads, picked, under, year_line
from layout import period_run, year_run
from recipes import Patch, series_of
from tariff_cases import U32
from year import USUAL, Terms, whole

AGAIN = ("T",)


# Loading

def told(operations, *lines):
    """Operations that must print these lines; then today's list again."""
    records, _ = all_steps(operations)
    assert [line for _, own in records for line in own] == list(lines), records
    return records + all_steps([AGAIN])[0]


def years(first, last, **numbers):
    return TODAY._replace(first=first, last=last, **numbers)


TODAYS_LINE = "Y 2014 2028 95 40 5 10 10 20 20 30 30 100000 20 50000 2500"
SECONDS_LINE = "Y 2031 2040 90 32 5 10 10 20 25 30 30 200000 25 100000 3000"
BLANK_LINE = "Y 0 0 0 0 0 0 0 0 0 0 0 0 0 0 0"


def lists():
    """The list without a record, today's, and today's with a second edition: in either order."""
    ask = [("Y", year) for year in (0, 2013, 2014, 2028, 2029, 2030, 2031, 2040, 2041, 2060, 2061, 65535)]
    yield from told([("N",), *ask], "N 0", *[BLANK_LINE] * 12)
    today = [BLANK_LINE] * 2 + [TODAYS_LINE] * 2
    yield from told([("T",), *ask], "T 1", *today, *[BLANK_LINE] * 8)
    second = [BLANK_LINE] * 2 + [SECONDS_LINE] * 2 + [BLANK_LINE] * 4
    yield from told([("T",), ("I", SECOND), *ask], "T 1", "I 0 2", *today, *second)
    yield from told([("N",), ("I", SECOND), ("I", TODAY), *ask], "N 0", "I 0 1", "I 0 2", *today, *second)
    # the same record twice, and one that is loaded after a refused one
    yield from told([("N",), ("I", SECOND), ("I", SECOND), ("I", TODAY), ("I", TODAY)], "N 0", "I 0 1", "I 22 1", "I 0 2", "I 22 2")


def case_23():
    """Of Rule 11.1: behind both each of these is refused, and the list is as it was; 2050 to 2055 as such is taken."""
    late = years(2050, 2055)
    six = [("I", years(year, year)) for year in (2029, 2030, 2041, 2042, 2043, 2044)]
    ask = [("Y", year) for year in (2014, 2028, 2031, 2040, 2049, 2050, 2055, 2060)]
    as_it_was = [TODAYS_LINE] * 2 + [SECONDS_LINE] * 2 + [BLANK_LINE] * 4
    both = "N 0", "I 0 1", "I 0 2"
    refused = years(2028, 2030), years(2050, 2049), years(2050, 2061), late._replace(limit=0), late._replace(limit=97), late._replace(line=101)
    for e in refused:
        yield from told([*TWO, ("I", e), *ask, ("I", late)], *both, "I 22 2", *as_it_was, "I 0 3")
    yield from told([*TWO, *six, ("I", late), *ask], *both, *(f"I 0 {k}" for k in range(3, 9)), "I 22 8", *as_it_was)


def ninth():
    """Eight records of one year each, in any order: a ninth is 22, whatever it is, and leaves the list as it was."""
    eight = [years(2014 + 5 * k, 2014 + 5 * k, line=90 + k) for k in (3, 0, 7, 1, 6, 2, 5, 4)]
    counts = [f"I 0 {k}" for k in range(1, 9)]
    more = [years(2060, 2060), SECOND, TODAY, years(2016, 2016), eight[0], years(2061, 2061)]
    picks = [("Y", e.first) for e in eight] + [("Y", 2060), ("Y", 2016)]
    lines = [year_line(e) for e in eight] + [BLANK_LINE] * 2
    yield from told([("N",), *(("I", e) for e in eight), *(("I", e) for e in more), *picks], "N 0", *counts, *["I 22 8"] * 6, *lines)
    # the eighth is taken at every place that is free, and after a refusal
    for last in (years(2060, 2060), years(2050, 2060), years(2015, 2018)):
        yield from told([("N",), *(("I", e) for e in eight[:7]), ("I", eight[6]), ("I", last)], "N 0", *counts[:7], "I 22 7", "I 0 8")


def ranges():
    """Each number at the ends of its range, and one over."""
    table = [
        ("line", (0, 1, 100), (101, 102, 255)), ("floor", (0, 1, 100), (101, 102, 255)), ("limit", (1, 2, 96), (0, 97, 255)),
        ("move", (0, 1_000_000_000), (1_000_000_001, U32)), ("reduction", (0, 1_000_000), (1_000_001, U32)),
        ("hours", (0, 8_784), (8_785, 65535)),
    ]
    for name, taken, refused in table:
        for value in taken:
            e = SECOND._replace(**{name: value})
            yield from told([("N",), ("I", e), ("Y", 2035)], "N 0", "I 0 1", year_line(e))
        for value in refused:
            e = SECOND._replace(**{name: value})
            yield from told([("T",), ("I", e), ("Y", 2035), ("Y", 2014)], "T 1", "I 22 1", BLANK_LINE, TODAYS_LINE)
    for k in range(7):
        for value, number in ((0, 0), (100, 0), (101, 22), (255, 22)):
            e = SECOND._replace(shares=TODAY.shares[:k] + (value,) + TODAY.shares[k + 1:])
            yield from told([("N",), ("I", e)], "N 0", f"I {number} {0 if number else 1}")
    least = Edition(2014, 2014, 0, 1, (0,) * 7, 0, 0, 0, 0)
    most = Edition(2060, 2060, 100, 96, (100,) * 7, 1_000_000_000, 100, 1_000_000, 8_784)
    yield from told([("N",), ("I", least), ("I", most), ("Y", 2014), ("Y", 2060)], "N 0", "I 0 1", "I 0 2", year_line(least), year_line(most))
    for first, last in ((2014, 2014), (2060, 2060), (2014, 2060), (2014, 2015), (2059, 2060), (2030, 2030)):
        yield from told([("N",), ("I", years(first, last))], "N 0", "I 0 1")
    # before 2014, behind 2060, ending before it begins
    bad = [
        (2013, 2013), (2013, 2014), (2013, 2060), (2060, 2061), (2061, 2061), (2014, 2061), (0, 0), (0, 65535), (65535, 65535), (0, 2060),
        (2014, 65535), (2031, 2030), (2015, 2014), (2060, 2014), (2060, 2059), (65535, 0), (2061, 2014), (2014, 2013), (1, 2),
    ]
    for first, last in bad:
        yield from told([("N",), ("I", years(first, last)), ("Y", 2014)], "N 0", "I 22 0", BLANK_LINE)


def overlapping():
    """Against 2031 to 2040: a shared year at either end, inside, around; and beside it with and without a gap."""
    shared = [
        (2020, 2031), (2031, 2031), (2040, 2040), (2040, 2050), (2035, 2035), (2032, 2039), (2031, 2040), (2030, 2041), (2014, 2060),
        (2031, 2035), (2035, 2040), (2014, 2031), (2040, 2060), (2030, 2031), (2040, 2041),
    ]
    for first, last in shared:
        then = SECONDS_LINE if 2031 <= first <= 2040 else BLANK_LINE
        yield from told([("N",), ("I", SECOND), ("I", years(first, last)), ("Y", first)], "N 0", "I 0 1", "I 22 1", then)
    for first, last in ((2014, 2030), (2030, 2030), (2041, 2041), (2041, 2060), (2014, 2014), (2029, 2029), (2042, 2060), (2060, 2060)):
        e = years(first, last)
        yield from told([("N",), ("I", SECOND), ("I", e), ("Y", last), ("Y", 2040)], "N 0", "I 0 1", "I 0 2", year_line(e), SECONDS_LINE)
    # between two: it may fill the gap and no more, and may meet the one that was loaded last or first
    three = [("N",), ("I", years(2014, 2020)), ("I", years(2030, 2040)), ("I", years(2050, 2060))]
    first = "N 0", "I 0 1", "I 0 2", "I 0 3"
    taken, refused = ((2021, 2029), (2041, 2049)), ((2020, 2029), (2021, 2030), (2041, 2050), (2040, 2049), (2021, 2049))
    for a, b in taken:
        yield from told([*three, ("I", years(a, b))], *first, "I 0 4")
    for a, b in refused:
        yield from told([*three, ("I", years(a, b))], *first, "I 22 3")


# Lists that no loading made

def forged_lists():
    """Counts above eight, two records for a year, years that no edition may have: each has its one answer, too."""
    # a count of 255 is eight, and one behind the records finds the blank ones, which hold for no year
    nine = [("T",), ("F", 255, 7, SECOND), ("Y", 2035), ("Y", 2014), ("Y", 0), ("I", years(2050, 2050))]
    nine += [("F", 8, 6, BLANK), ("Y", 2035), ("F", 7, 6, BLANK), ("Y", 2035)]
    lines = ["T 1", "F 255", SECONDS_LINE, TODAYS_LINE, BLANK_LINE, "I 22 255", "F 8", SECONDS_LINE, "F 7", BLANK_LINE]
    yield from told(nine, *lines)
    late, both = years(2050, 2050), years(2020, 2040, line=1)
    yield from told([*nine, ("I", late), ("Y", 2050), ("I", years(2051, 2051))], *lines, "I 0 8", year_line(late), "I 22 8")
    behind = [("N",), ("F", 3, 2, SECOND), ("Y", 2035), ("Y", 0), ("I", late), ("Y", 2050)]
    yield from told(behind, "N 0", "F 3", SECONDS_LINE, BLANK_LINE, "I 0 4", year_line(late))
    # two records for one year: the first counts
    yield from told([("T",), ("F", 2, 1, both), ("Y", 2020), ("Y", 2029)], "T 1", "F 2", TODAYS_LINE, year_line(both))
    # years of their own that no edition may have: none outside 2014 to 2060 is held for
    ever = years(0, 65535, line=7)
    ask = [("Y", year) for year in (0, 2013, 2014, 2060, 2061, 65535)]
    yield from told([("F", 1, 0, ever), *ask], "F 1", *[BLANK_LINE] * 2, *[year_line(ever)] * 2, *[BLANK_LINE] * 2)
    # a record that ends before it begins holds for no year; one that spans both of its ends still meets it
    turned = [("F", 1, 0, years(2040, 2020)), ("Y", 2030)]
    yield from told([*turned, ("I", years(2020, 2040)), ("I", years(2021, 2040)), ("I", years(2050, 2060))], "F 1", BLANK_LINE, "I 22 1", "I 0 2", "I 0 3")


# Years with no edition

def without(editions):
    """Every call that has a year answers 1 for one that the list has no edition for, and its neighbours do not."""
    for year in (2029, 2030, 2041, 2028, 2031, 2040, 2013, 2061):
        number = 1 if year in (2029, 2030, 2041, 2013, 2061) else 0
        case = "D", year, 8, []
        assert calendar_cases.answer(year, [], 8, editions)[0] == number
        yield calendar_cases.record(*case), calendar_cases.lines(*case, editions)
        chosen = [(1, 72)]
        data = sheet_cases.sheet_bytes(year, 5, chosen)
        assert sheet_cases.read_sheet(data, editions)[0] == sheet_cases.write_answer(year, 5, chosen, 56, editions) == number
        yield sheet_cases.reading(data, editions)
        yield sheet_cases.writing(year, 5, chosen, 56, editions)
        days = len(period_run(year).dates)
        calls = [("W", year, 5, 60), ("O", year, 5), ("L", year, 1), ("L", year, 8), ("D", 1, days), ("C", 60)]
        assert grid.opening(year, 5, editions) == number
        yield grid_records.record(96 * days, 1000, [], calls, editions)
        terms = asked(year, 5, {1: [72]})
        assert whole(terms, series_of(96 * days_of(year), 1_000, []), editions)[0] == (1 if number else 9)
        calls = [("A", terms), ("L", year, 1), ("L", year, 8), ("D", 1, days_of(year)), ("C",)]
        yield customer_records.record(96 * days_of(year), 1_000, [], calls, editions)
    # 1 comes before 2 and 12, as ever
    yield sheet_cases.reading(sheet_cases.sheet_bytes(2029, 0, [(1, q) for q in range(96)]), editions)
    yield sheet_cases.writing(2041, 8, [(1, q) for q in range(96)], 56, editions)


def gaps():
    yield from under(TWO, without)
    # with no record at all each of them is 1
    yield from under([("N",)], without_any)


def without_any(editions):
    for year in (2014, 2025, 2028, 2035):
        case = "D", year, 8, []
        assert calendar_cases.answer(year, [], 8, editions) == (1,)
        yield calendar_cases.record(*case), calendar_cases.lines(*case, editions)
        yield sheet_cases.reading(sheet_cases.sheet_bytes(year, 5, []), editions)
        yield sheet_cases.writing(year, 5, [], 56, editions)
        yield grid_records.record(96 * 366, 1000, [], [("W", year, 5, 60), ("O", year, 5), ("L", year, 1), ("D", 1, 2), ("C", 60)], editions)
        yield customer_records.record(96 * 366, 1000, [], [("A", asked(year)), ("L", year, 1), ("D", 1, 2), ("C",)], editions)


def layouts():
    """Days about the clock change, and the ends, of every year to 2060: by the list, how many readings each has."""
    def lent(editions):
        for year in EVER:
            for make, run in ((grid_records.record, period_run(year)), (customer_records.record, year_run(year))):
                days = [1, *(d + k for d in run.sundays() for k in (-1, 0, 1)), len(run.dates), len(run.dates) + 1]
                yield make(96 * len(run.dates), 7, [Patch(0, 35_500, 1, 60_000, 50_000, year)], [("L", year, d) for d in days], editions)

    yield from under(loads(*TO_2060), lent)


# Sheets

def sheets():
    """33 quarters in a season: 12 in 2031, whose edition takes 32, and read in 2025, whose edition takes 40."""
    def both_ways(editions):
        for year, count, number in ((2031, 33, 12), (2031, 32, 0), (2040, 33, 12), (2025, 33, 0), (2025, 40, 0), (2025, 41, 12), (2028, 41, 12)):
            for season in SEASONS:
                chosen = [(season, 2 * q) for q in range(count)]
                data = sheet_cases.sheet_bytes(year, 5, chosen)
                assert sheet_cases.read_sheet(data, editions)[0] == sheet_cases.write_answer(year, 5, chosen, 64, editions) == number
                yield sheet_cases.reading(data, editions)
                yield sheet_cases.writing(year, 5, chosen, 64, editions)
                terms = Terms(data, (), USUAL, False)
                yield customer_records.record(96, 0, [], [("A", terms)], editions)

    yield from under(TWO, both_ways)

    def full(editions):
        limit = picked(editions, 2050).limit
        for count, season in itertools.product((limit - 1, limit, limit + 1), SEASONS):
            if count <= 96:
                chosen = [(season, 95 - q) for q in range(count)]
                number = 12 if count > limit else 0
                assert sheet_cases.write_answer(2050, 1, chosen, 60, editions) == number
                yield sheet_cases.reading(sheet_cases.sheet_bytes(2050, 1, chosen), editions)
                yield sheet_cases.writing(2050, 1, chosen, 60, editions)

    for limit in (1, 2, 8, 95, 96):
        yield from under(loads(TODAY, years(2050, 2050, limit=limit)), full)


KINDS = (lists, case_23, ninth, ranges, overlapping, forged_lists, gaps, layouts, sheets)


def records():
    return {kind.__name__: list(kind()) for kind in KINDS}
