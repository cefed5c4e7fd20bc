"""Dates, seasons, holiday lists and what frees a day, by Rules 2.6 and 3.1 to 3.3 (docs/RULES.md): shared by the
scripts that make expectations. Days of a year count from 1.
"""
import datetime

SEASONS = (1, 2, 3, 4)  # winter, spring, summer, autumn


def date(year, day):
    return datetime.date(year, 1, 1) + datetime.timedelta(days=day - 1)


def day_of(when):
    return when.timetuple().tm_yday


def yday(year, month, day):
    return day_of(datetime.date(year, month, day))


def days_of(year):
    return yday(year, 12, 31)


def free_by_others(when, year, listed):
    """The first three lines of Rule 3.3: weekend, listed, 1 January or one of 24 to 31 December."""
    inside = when.year == year and day_of(when) in listed
    christmas = (when.month, when.day) >= (12, 24) or (when.month, when.day) == (1, 1)
    return when.weekday() >= 5 or inside or christmas


def legal_list(year, holidays):
    rising = all(a < b for a, b in zip(holidays, holidays[1:]))
    return len(holidays) <= 40 and rising and all(1 <= h <= days_of(year) for h in holidays)


def easter(year):
    """Anonymous Gregorian algorithm; only to make lists that look like real ones."""
    a, b, c = year % 19, year // 100, year % 100
    h = (19 * a + b - b // 4 - (b - (b + 8) // 25 + 1) // 3 + 15) % 30
    l = (32 + 2 * (b % 4) + 2 * (c // 4) - h - c % 4) % 7
    m = (a + 11 * h + 22 * l) // 451
    return datetime.date(year, (h + l - 7 * m + 114) // 31, (h + l - 7 * m + 114) % 31 + 1)


def nationwide(year):
    fixed = [(1, 1), (5, 1), (10, 3), (12, 25), (12, 26)]
    moved = [easter(year) + datetime.timedelta(days=k) for k in (-2, 1, 39, 50)]
    return sorted({yday(year, m, d) for m, d in fixed} | {day_of(d) for d in moved})

