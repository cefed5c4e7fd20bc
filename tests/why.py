#!/usr/bin/env python3
"""Asks ./run why and the day program for days, and holds what they print to Rules 10.9 to 10.11 (docs/RULES.md).

Run at the project's root:  tests/why.py [N]   N random inputs for the program, 2,000 if not given

It knows nothing of the code under test: dates are datetime's, kinds those of tests/calendar_cases.py.
"""
import datetime
import random
import re
import subprocess
import sys

from calendar_cases import answer
from dates import day_of, days_of, nationwide
from programs import program, tell

NAMES = "Monday Tuesday Wednesday Thursday Friday Saturday Sunday".split()
WORDS = {1: "window", 2: "weekend", 3: "holiday", 4: "Christmas", 5: "bridge day"}
USAGE = "usage: dates, one to a line, as 2025-05-02: the day asked for, then the listed holidays\n"
WRONG = {
    1: "REFUSED 1 the year is not one of 2014 to 2028\n",
    3: "REFUSED 3 the holidays are not rising days of that year, 40 at most\n",
    13: "REFUSED 13 a year does not have the date\n",
}


def read(line):
    """Year, and the date where the year has it. Python's dates begin with year 1, and year 0 has those of 2000."""
    year, month, day = map(int, line.split("-"))
    try:
        return year, datetime.date(year or 2000, month, day)
    except ValueError:
        return year, None


def expected(data):
    if not re.fullmatch(rb"([0-9]{4}-[0-9]{2}-[0-9]{2}\n)+", data) or len(data) > 4096:
        return USAGE
    lines = data.decode().splitlines()
    (year, asked), *listed = map(read, lines)
    if not 2014 <= year <= 2028:
        return WRONG[1]
    if asked is None or any(when is None for _, when in listed):
        return WRONG[13]
    if any(other != year for other, _ in listed):
        return WRONG[3]
    number, *kind = answer(year, [day_of(when) for _, when in listed], day_of(asked))
    return WRONG[number] if number else f"{lines[0]} {NAMES[asked.weekday()]} {WORDS[kind[0]]}\n"


def some_date(rng, year):
    return (datetime.date(year, 1, 1) + datetime.timedelta(days=rng.randrange(days_of(year)))).isoformat()


def inputs(count):
    """Fixed ones, then random ones: legal ones for the most part, and each kind of fault."""
    yield from (
        b"", b"\n", b"2025-05-02", b"2025-05-02\n", b"2025-05-02\n2025-05-01\n", b"2025-05-01\n2025-05-01\n", b"2025-05-03\n2025-05-01\n",
        b"2017-01-01\n", b"2017-01-01\n2017-01-01\n", b"2025-12-25\n2025-12-25\n", b"2025-12-25\n", b"2025-12-26\n2025-12-25\n",
        b"2024-12-23\n2024-12-24\n", b"2024-02-29\n", b"2025-02-29\n", b"2025-05-02\n2025-02-29\n", b"2025-05-02\n2024-02-29\n",
        b"2025-13-01\n", b"2025-00-01\n", b"2025-01-00\n", b"2025-04-31\n", b"2013-05-02\n", b"2029-02-30\n", b"0000-02-29\n", b"9999-12-31\n",
        b"2025-05-02 \n", b"2025-5-2\n", b"2025/05/02\n", b"2025-05-0:\n", b"/025-05-02\n", b"2025-05-02\r\n", b"x" * 11, b"x" * 22,
        b"2025-05-02\n2025-05-01\n2025-05-01\n", b"2025-05-02\n2025-05-03\n2025-05-01\n", b"2025-05-02\n2025-05-01", b"\n2025-05-02\n",
    )
    rng = random.Random(20250502)
    for length in (40, 41, 42, 300, 371, 372, 373):
        days = sorted({some_date(rng, 2024) for _ in range(4 * length)})[:length]
        yield "".join(f"{day}\n" for day in ["2024-07-01"] + days).encode()
    for _ in range(count):
        year = rng.randrange(2014, 2029)
        list_of = [some_date(rng, year) for _ in range(rng.randrange(12))]
        if rng.randrange(3) == 0:
            list_of += [(datetime.date(year, 1, 1) + datetime.timedelta(days=d - 1)).isoformat() for d in nationwide(year)]
        words = [some_date(rng, year)] + sorted(set(list_of))
        fault = rng.randrange(12)
        if fault == 0:
            words[rng.randrange(len(words))] = some_date(rng, rng.randrange(2010, 2033))
        elif fault == 1:
            words[rng.randrange(len(words))] = f"{year}-{rng.randrange(14):02}-{rng.randrange(33):02}"
        elif fault == 2:
            words[1:] = rng.sample(words[1:], len(words) - 1)
        data = bytearray("".join(f"{word}\n" for word in words).encode())
        if fault == 3:
            data[rng.randrange(len(data))] = rng.choice(b"0123456789-/:\n a\x80")
        elif fault == 4:
            del data[rng.randrange(len(data))]
        yield bytes(data)


def by_words(words, status):
    """./run why: the answer, or the usage with status 2."""
    run = subprocess.run(["./run", "why", *words], capture_output=True, text=True)
    text = expected("".join(f"{word}\n" for word in words).encode())
    return run.returncode == status and (run.stdout == text if status == 0 else run.stdout == "" and "./run why" in run.stderr)


WORDS_GIVEN = ((["2025-05-02", "2025-05-01"], 0), (["2025-02-30"], 0), (["today"], 2), ([], 2), (["2025-05-02\n2025-05-01"], 0), ([""], 2))


def main():
    why = program("why")
    tried = list(inputs(int(sys.argv[1]) if len(sys.argv) > 1 else 2000))
    wrong = [f"{data!r}: printed {why(data)!r}, expected {expected(data)!r}" for data in tried if why(data) != expected(data)]
    wrong += [f"./run why {words}: something else" for words, status in WORDS_GIVEN if not by_words(words, status)]
    tell("passed", len(tried) + len(WORDS_GIVEN) - len(wrong), wrong)


if __name__ == "__main__":
    main()
