"""The windows of a reference period's readings, by Rules 2.4, 4.1 to 4.7 and 9.1 to 9.5 (docs/RULES.md), for the
scripts that make records and files.

It knows nothing of the code under test. The windows are worked out in two ways that share the calendar alone: `whole`
gathers the readings of each season's quarters from a whole series and sorts, `Days` goes day by day with running maxima
and throws quarters away. Where all days were taken, the two are held against each other. The ruling's numbers are an
edition's; where none is named, today's. Seasons count from 1, quarters, and positions in a day, from 0.
"""
import datetime
import fractions
import functools

from dates import SEASONS
from editions import TODAY, TODAYS, picked
from layout import Run, around, length, period_run, quarters
from year import SEASON, SHARE

GRID_MOST = 200_000_000


def day_number(year, month, day):
    """Of a date in the period of a charge year, from 1; September on is in the first of its two years."""
    return period_run(year).dates.index(datetime.date(year - (2 if month >= 9 else 1), month, day)) + 1


def place(year, month, day, quarter):
    """From 0, of a date's quarter in the series of a charge year."""
    return period_run(year).at(day_number(year, month, day), quarter)


@functools.lru_cache(maxsize=None)
def places_of(year, season):
    """For each quarter all places of the series that have a reading of it on a day of the season."""
    run, found = period_run(year), [[] for _ in range(96)]
    for start, when in zip(run.starts, run.dates):
        for position, quarter in enumerate(quarters(when) if SEASON[when.month] == season else ()):
            found[quarter].append(start + position)
    return found


def kept_of(curve, peak, edition=TODAY):
    above = [q for q in range(96) if 100 * curve[q] > edition.line * peak]
    return sorted(above, key=lambda q: (-curve[q], q))[:edition.limit]


def opening(year, level, editions=TODAYS):
    """1, 2 in this order, else 0."""
    return 1 if picked(editions, year) is None else 2 if level not in SHARE else 0


def whole(year, level, series, editions=TODAYS):
    """The number with its figures, 1, 2, 4, 5, 7 in this order; and for 0 the quarters that each season keeps."""
    refused = opening(year, level, editions)
    if refused:
        return (refused,), None
    run = period_run(year)
    if len(series) != run.starts[-1]:
        return (4,), None
    bad = next((i for i, reading in enumerate(series) if reading > GRID_MOST), None)
    if bad is not None:
        return (5, *run.where(bad)), None
    peak = max(series)
    if peak == 0:
        return (7,), None
    windows = {}
    for season in SEASONS:
        curve = [max(series[p] for p in places) for places in places_of(year, season)]
        windows[season] = sorted(kept_of(curve, peak, picked(editions, year)))
    return (0,), windows


class Days:
    """A series that is given day by day, by the edition of its opening.

    Before an accepted one it is the state of a refused one.
    """

    def __init__(self):
        self.run, self.left = Run([]), None

    def open(self, year, level, editions=TODAYS):
        self.run, self.left = Run([]), None
        number = opening(year, level, editions)
        if not number:
            self.year, self.level, self.run, self.given = year, level, period_run(year), []
            self.left, self.editions = list(self.run.dates), editions
            self.high = {season: [0] * 96 for season in SEASONS}
        return (number,)

    def day(self, day):
        if not self.left:
            return (13,)
        when = self.left[0]
        if len(day) != length(when):
            return (4,)
        bad = [position for position, reading in enumerate(day) if reading > GRID_MOST]
        if bad:
            return (5, len(self.run.dates) - len(self.left) + 1, bad[0])
        curve = self.high[SEASON[when.month]]
        for first, part in around(when, day):
            end = first + len(part)
            curve[first:end] = map(max, curve[first:end], part)
        self.left.pop(0)
        self.given += day
        return (0,)

    def keep(self, season, peak):
        """Quarters above the line; while there are too many, the lowest goes, and of the lowest the latest."""
        curve, edition = self.high[season], picked(self.editions, self.year)
        quarters = [q for q in range(96) if fractions.Fraction(curve[q], peak) > fractions.Fraction(edition.line, 100)]
        while len(quarters) > edition.limit:
            lowest = min(curve[q] for q in quarters)
            quarters.remove(max(q for q in quarters if curve[q] == lowest))
        return quarters

    def close(self):
        if self.left is None or self.left:
            return (13,), None
        peak = max(max(curve) for curve in self.high.values())
        answer = ((7,), None) if peak == 0 else ((0,), {s: self.keep(s, peak) for s in SEASONS})
        # the days close as the whole series does (Rule 9.4)
        assert answer == whole(self.year, self.level, self.given, self.editions)
        return answer
