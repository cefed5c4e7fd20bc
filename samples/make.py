#!/usr/bin/env python3
"""Makes the files of this folder, and beside each the text that its program must print, by docs/RULES.md.

Run at the project's root:  samples/make.py          writes them
                            samples/make.py --check  says whether they are what it would write, and whether
                                                     samples/README.md has their lines

What must be printed comes from tests/files.py, which knows nothing of the programs. Quarters count from 0.
"""
import pathlib
import sys

sys.path.insert(0, str(pathlib.Path(__file__).resolve().parent.parent / "tests"))

from dates import date, nationwide, yday
from files import customer_file, grid_file, printed, statement_of, windows_of
from grid import whole
from kept import keep
from layout import period_run, quarters, year_run
from year import SEASON, USUAL, Set, Terms, carrying_by_weeks, judge, sheet_bytes

YEAR, LEVEL = 2024, 5
SATURDAY, QUARTER = yday(2024, 3, 2), 74  # 18:30


# The grid: a working day's course in thousandths of its peak, by quarters, and what seasons and weekends take off it

COURSE = ((0, 620), (20, 600), (32, 880), (46, 960), (52, 930), (64, 910), (74, 1_000), (80, 940), (88, 780), (96, 640))
BY_SEASON = {1: 1_000, 2: 975, 3: 900, 4: 985}
GRID_PEAK = 400_000  # kW


def course(quarter):
    """Straight lines between the points."""
    (a, x), (b, y) = next((p, q) for p, q in zip(COURSE, COURSE[1:]) if p[0] <= quarter < q[0])
    return x + (y - x) * (quarter - a) // (b - a)


def of_day(number, when):
    """Thousandths that a day has of its season's highest one: weekends have less, and days differ."""
    return {5: 890, 6: 820}.get(when.weekday(), 1_000) - 7 * (number % 4)


def grid_series():
    days = enumerate(period_run(YEAR).dates)
    return [GRID_PEAK * course(q) * BY_SEASON[SEASON[day.month]] * of_day(k, day) // 1_000**3 for k, day in days for q in quarters(day)]


# The cold store: it cools at night and at noon, and keeps its compressors low in the morning and in the evening of a
# working day

WORKING = ((0, 24, 900), (24, 44, 600), (44, 50, 350), (50, 68, 650), (68, 80, 320), (80, 88, 600), (88, 96, 900))  # kW from quarter to quarter
WEEKEND = ((0, 96, 700),)


def cold_store_day(day, when):
    """Its readings: none for an hour that is left out, two for each quarter of an hour that comes twice."""
    parts = WORKING if when.weekday() < 5 else WEEKEND
    by_quarter = [1_000 * kw + 250 * (day % 7) for a, b, kw in parts for _ in range(a, b)]
    return [by_quarter[q] for q in quarters(when)]


def cold_store_series():
    """The highest reading on the Saturday, after a delivery; and one slip in a window, on a Thursday of November."""
    run = year_run(YEAR)
    series = [reading for day, when in enumerate(run.dates, 1) for reading in cold_store_day(day, when)]
    series[run.at(SATURDAY, QUARTER)] = 1_480_000
    series[run.at(yday(YEAR, 11, 14), 71)] = 610_000
    return series


def taken_for_friday(series, terms):
    """What is answered where weekdays are counted on without 29 February: 2 March is then a Friday.

    No reading is higher than that day's, so H is M, whichever other days are mistaken.
    """
    first = date(YEAR, 1).weekday()
    assert date(YEAR, SATURDAY).weekday() == 5 and (first + SATURDAY - 2) % 7 == 4
    at = year_run(YEAR).at(SATURDAY, QUARTER)
    assert series[at] == max(series) and series.count(max(series)) == 1
    return judge(Set(series[at], sum(series), True, series[at], SATURDAY, QUARTER, LEVEL, terms.prices, terms.option))


def cold_store():
    """The grid file, the customer file under its sheet, and the line of a module that forgets 29 February."""
    readings, series = grid_series(), cold_store_series()
    said, windows = whole(YEAR, LEVEL, readings)
    assert said == (0,) and QUARTER in windows[2] and SATURDAY not in carrying_by_weeks(YEAR, frozenset())
    terms = Terms(sheet_bytes(YEAR, LEVEL, windows), tuple(nationwide(YEAR)), USUAL, False)
    old = taken_for_friday(series, terms)
    assert old[0] == 9
    return grid_file(YEAR, LEVEL, readings), customer_file(terms, series), " ".join(map(str, old))


def made():
    files = dict(zip(("printed.grd", "printed.cus"), printed()))
    files["cold-store.grd"], files["cold-store.cus"], old = cold_store()
    texts = {name: windows_of(data) if name.endswith(".grd") else statement_of(data) for name, data in files.items()}
    assert texts["cold-store.cus"].startswith("0 ")
    told = pathlib.Path("samples/README.md").read_text()
    for line in [old, *(line for text in texts.values() for line in text.splitlines())]:
        assert line in told, f"README.md lacks: {line}"
    return files | {name + ".txt": text.encode() for name, text in texts.items()}


keep("samples", made())
