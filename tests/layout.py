"""Which reading of a series is which quarter of which day, by Rules 2.4, 4.1 and 6.1 (docs/RULES.md): shared by the
scripts that make expectations.

Meters follow legal time, so on two Sundays of a year a day's readings are not its quarters one by one. What they are is
worked out in two ways that are held against each other: `quarters` lists a date's quarters, `around` cuts its readings
where the clock is set. Days of a run count from 1; places in a series, positions in a day and quarters count from 0.
"""
import bisect
import datetime
import functools
import itertools

from dates import date, days_of

MARCH, OCTOBER = 3, 10
SUNDAY = 6


def last_sunday(year, month):
    """Of a month of 31 days: from its end back, day by day."""
    when = datetime.date(year, month, 31)
    while when.weekday() != SUNDAY:
        when -= datetime.timedelta(days=1)
    return when


@functools.lru_cache(maxsize=None)
def quarters(when):
    """The quarter of each of a date's readings, in their order."""
    if when == last_sunday(when.year, MARCH):
        return *range(0, 8), *range(12, 96)  # no 02:00 to 03:00
    if when == last_sunday(when.year, OCTOBER):
        return *range(0, 12), *range(8, 12), *range(12, 96)  # 02:00 to 03:00 twice
    return tuple(range(96))


def set_on(when):
    """By how many hours the clock is set on; -1 where it is set back. A month's last seven days begin with its 25th."""
    return {MARCH: 1, OCTOBER: -1}.get(when.month, 0) if when.weekday() == SUNDAY and when.day >= 25 else 0


def length(when):
    return 96 - 4 * set_on(when)


def around(when, readings):
    """A date's readings before the clock is set and after it, each part with its first quarter."""
    before = 8 if set_on(when) == 1 else 12  # it is set on at 02:00, and back at 03:00
    return (0, readings[:before]), (before + 4 * set_on(when), readings[before:])


class Run:
    """The days of a series by their dates; none where an opening was refused."""

    def __init__(self, dates):
        self.dates = dates
        self.starts = [0, *itertools.accumulate(len(quarters(when)) for when in dates)]
        for when in dates:
            both = around(when, quarters(when))
            assert len(quarters(when)) == length(when) and all(part == tuple(range(first, first + len(part))) for first, part in both)
        # what one Sunday lacks, the other has too many
        assert self.starts[-1] == 96 * len(dates)

    def sundays(self):
        """The days on which the clock is set, in their order."""
        return [day for day, when in enumerate(self.dates, 1) if length(when) != 96]

    def at(self, day, quarter):
        """The place of a day's quarter: the first of two. A day that leaves the quarter out has none."""
        return self.starts[day - 1] + quarters(self.dates[day - 1]).index(quarter)

    def where(self, place):
        """The day and the position of a place."""
        day = bisect.bisect_right(self.starts, place)
        return day, place - self.starts[day - 1]

    def held(self, count):
        """How many whole days so many readings are."""
        return bisect.bisect_right(self.starts, count) - 1

    def part(self, series, day):
        """A day's readings. Empty for a day that the run does not have, or that the series has in part (Rule 9.2)."""
        return series[self.starts[day - 1]:self.starts[day]] if 1 <= day <= self.held(len(series)) else []


@functools.lru_cache(maxsize=None)
def year_run(year):
    return Run([date(year, day) for day in range(1, days_of(year) + 1)])


@functools.lru_cache(maxsize=None)
def period_run(year):
    """Of a charge year: from 1 September to 31 August (Rule 4.1)."""
    first, last = datetime.date(year - 2, 9, 1), datetime.date(year - 1, 8, 31)
    return Run([first + datetime.timedelta(days=k) for k in range((last - first).days + 1)])
