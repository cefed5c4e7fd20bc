"""Series by recipe, for the programs that are fed with whole years: a base value for all readings, and patches over
it. Places in a series count from 0, days from 1.
"""
import collections
import struct

from editions import TODAYS, picked
from layout import Run, quarters

MOST = 35_500  # readings that the programs have room for
Patch = collections.namedtuple("Patch", "first count step value spread seed", defaults=(0, 0))


def series_of(length, base, patches):
    readings = [base] * MOST
    for patch in patches:
        x = patch.seed
        for k in range(patch.count):
            at = patch.first + k * patch.step
            if at < MOST:
                readings[at] = max(patch.value - x % (patch.spread + 1), 0)
            x = (75 * x + 74) % 65537
    return readings[:length]


def patch_bytes(patches):
    return b"".join(struct.pack(">HHHIHH", *patch) for patch in patches)


def daily(run, days, quarter, value, spread=0, seed=0):
    """Patches that set a quarter on each of these days: one for as many days as lie equally far apart in the series."""
    places = [run.starts[d - 1] + p for d in days for p, q in enumerate(quarters(run.dates[d - 1])) if q == quarter]
    patches = []
    while places:
        step = places[1] - places[0] if len(places) > 1 else 1
        count = next((k for k in range(1, len(places)) if places[k] - places[k - 1] != step), len(places))
        patches.append(Patch(places[0], count, step, value, spread, seed + len(patches)))
        places = places[count:]
    return patches


def handed_out(run_of, series, year, day, editions=TODAYS):
    """How many readings a day's part has, and its first and last one where there are some.

    A refused year has no days.
    """
    part = (run_of(year) if picked(editions, year) else Run([])).part(series, day)
    return (len(part), *part[:1], *part[-1:])


def offered(days, series, first, count, editions=TODAYS):
    """Days of the series, as the opened run has them, until one is refused: how many were taken, and the answer.

    The list may have lost the run's year since the opening: then each part is empty.
    """
    run = days.run if days.run.dates and picked(editions, days.year) else Run([])
    for k in range(count):
        answer = days.day(run.part(series, first + k))
        if answer != (0,):
            return (k,) + answer
    return (count, 0)


def any_places(rng, run):
    """First place, count and step of a patch somewhere in a run."""
    n = len(run.dates)
    day = rng.randint(1, n)
    start, end = run.starts[day - 1], run.starts[day]
    at = rng.randrange(start, end)
    return rng.choice([
        (start, end - start, 1),  # a whole day
        (at, rng.randint(1, n), 96),  # a quarter, for many days, and its neighbours an hour away behind a clock change
        (at, rng.randint(1, 40), rng.randint(1, 5)),  # part of a day, every few quarters
        (at, rng.randint(1, 2000), rng.randint(1, 200)),
    ])
