#!/usr/bin/env python3
"""Every day of every charge year, 2014 to 2060, under many holiday lists each: the kinds that the program `cases`
prints are held to those of tests/calendar_cases.py.

Run at the project's root:  tests/kinds.py [N]   N lists for each year, 400 if not given
"""
import random
import sys

from calendar_cases import lines, record
from dates import date, days_of, nationwide, yday
from editions import EVER, TO_2060, all_steps, loads
from programs import program, tell


def lists(year, count):
    """Nationwide lists, random ones, many days beside weekends, and the turn of the year listed in every way."""
    rng = random.Random(year)
    days = range(1, days_of(year) + 1)
    beside = [d for d in days if date(year, d).weekday() in (0, 1, 3, 4)]
    turn = [1, 2, 3, 4, 5] + list(range(yday(year, 12, 20), days_of(year) + 1))
    yield nationwide(year)
    for n in range(count - 1):
        pool = (days, beside, turn)[n % 3]
        yield sorted(rng.sample(pool, min(n // 3 % 41, len(pool))))


def main():
    count = int(sys.argv[1]) if len(sys.argv) > 1 else 400
    cases = program("cases")
    passed, wrong = 0, []
    loading, editions = all_steps(loads(*TO_2060))
    for year in EVER:
        asked = [("L", year, 0, listed) for listed in lists(year, count)]
        printed = iter(cases(b"".join([data for data, _ in loading] + [record(*one) for one in asked])).splitlines())
        assert [next(printed, None) for _ in loading] == [line for _, told in loading for line in told]
        for one in asked:  # three lines each
            if [next(printed, None) for _ in range(3)] == lines(*one, editions):
                passed += 1
            else:
                wrong.append(f"{year} {one[3]}: something else is printed")
    tell("lists passed", passed, wrong)


if __name__ == "__main__":
    main()
