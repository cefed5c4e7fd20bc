"""Figures that are judged by other editions than today's, and what crates/cases must print: a part of tests/cases.py.

It knows nothing of the code under test. What a case must come to is said beside it, as it was calculated by hand;
tests/year.py and tests/tariff_cases.py have the rules, and are held to it. What `chance` makes up is worked out by
these two alone. Rules 2.7 and 6.6 to 7.7 (docs/RULES.md).
"""
import random

import tariff_cases
from editions import SECOND, TODAY, TWO, Edition, loads, picked, under
from tariff_cases import U32, U64, made
from year import LIMITS, USUAL, charges, judge

BIG = 12_000_000_000  # 3,000 hours of 1,000 kW


def judged(edition, cases, year=2035):
    """Cases under an edition that holds for the year: the figures, and the number with g and, for 0, with c and g."""
    def records(editions):
        assert picked(editions, year) == edition
        for s, (number, *rest) in cases:
            got = judge(s, edition)
            assert got[0] == number and list(got[1:1 + len(rest)]) == rest, (s, got)
            yield tariff_cases.record(s, year, edition)

    return under(loads(edition), records)


def second_figures():
    """2,750 hours: the low row at 3,000 hours, the high row at 2,500; a quarter of M moved, and a W less."""
    S = 11_000_000_000
    case_21 = made(1_000_000, 750_000, S)
    assert charges(case_21, SECOND) == (13_000_000, 12_500_000, 3_250_000)
    yield from judged(SECOND, [
        (case_21, (0, 12_500_000, 13_000_000)),
        (made(1_000_000, 750_001, S), (9, 13_000_000)),
        (made(1_000_000, 750_001, S, 4), (0, 12_500_002, 13_000_000)),
        (made(1_000_000, 800_000, S, 4), (0, 12_600_000, 13_000_000)),
        (made(1_000_000, 800_001, S, 4), (9, 13_000_000)),
        # 200 kW, and a W less
        (made(800_000, 600_000, 8_800_000_000), (0, 10_000_000, 10_400_000)),
        (made(700_000, 500_000, 7_700_000_000), (0, 8_700_000, 9_100_000)),
        (made(700_000, 500_001, 7_700_000_000), (10, 9_100_000)),
        (made(1_000_000, 800_001, S, 3), (10, 13_000_000)),
        # a reduction of 100,000 cent: 200 kW at 500 cent, and at 499
        (made(1_000_000, 800_000, BIG, 4, (0, 0, 500, 800)), (0, 2_800_000, 2_900_000)),
        (made(1_000_000, 800_000, BIG, 4, (0, 0, 499, 800)), (11, 2_899_000)),
        # the row changes at 12,000 M: 10,000 * 1,000 and 2,400,000 there, 2,000,000 and 12,000,000 below
        (made(1_000_000, 0, BIG), (0, 3_100_000, 12_400_000)),
        (made(1_000_000, 0, BIG - 1), (0, 12_000_000, 14_000_000)),
        (made(1_000_000, 0, BIG - 1, option=True), (0, 3_500_000, 14_000_000)),
    ])
    yield from judged(TODAY, [
        (made(1_000_000, 750_000, S), (0, 9_700_000, 12_200_000)),
        (made(1_000_000, 800_000, S), (0, 10_200_000, 12_200_000)),
        (made(1_000_000, 800_001, S), (9, 12_200_000)),
    ], 2025)


def by_years():
    """The year picks: the same figures under both, one after the other."""
    s = made(1_000_000, 750_001, 11_000_000_000)
    todays, seconds = (0, 9_700_010, 12_200_000), (9, 13_000_000)

    def records(editions):
        for year, expected in ((2025, todays), (2031, seconds), (2014, todays), (2040, seconds), (2028, todays)):
            assert judge(s, picked(editions, year))[:len(expected)] == expected
            yield tariff_cases.record(s, year, picked(editions, year))

    yield from under(TWO, records)


def charge_edges():
    """Hours and floor at their ends."""
    # hours 0: never the low row, though 1 reading in all is far less than an hour of use
    yield from judged(SECOND._replace(hours=0), [
        (made(1_000_000, 0, 0), (0, 2_500_000, 10_000_000)),
        (made(1_000_000, 0, 1), (0, 2_500_000, 10_000_000)),
        (made(1_000_000, 0, 0, option=True), (0, 2_500_000, 10_000_000)),
    ])
    # hours 8,784: the low row but for a peak that lasts a leap year, 35,136 quarters
    yield from judged(SECOND._replace(hours=8_784), [
        (made(1_000_000, 0, 35_135_999_999), (0, 35_136_000, 37_136_000)),
        (made(1_000_000, 0, 35_136_000_000), (0, 7_027_200, 17_027_200)),
    ])
    # floor 100 with no least reduction: c is g; with a cent of it 11
    free = SECOND._replace(floor=100, reduction=0)
    yield from judged(free, [
        (made(1_000_000, 0, BIG), (0, 12_400_000, 12_400_000)), (made(1_000_001, 750_000, BIG), (0, 14_000_002, 14_000_002)),
        (made(1_000_000, 0, 0), (0, 2_000_000, 2_000_000)),
    ])
    yield from judged(free._replace(reduction=1), [(made(1_000_000, 0, BIG), (11, 12_400_000))])
    # with floor 99 a hundredth of g is left: 124,000
    yield from judged(free._replace(floor=99, reduction=124_000), [(made(1_000_000, 0, BIG), (0, 12_276_000, 12_400_000))])
    yield from judged(free._replace(floor=99, reduction=124_001), [(made(1_000_000, 0, BIG), (11, 12_400_000))])


def thresholds():
    """Shares, least move and least reduction at their ends: from where all three are 0, and H may be M."""
    none = SECOND._replace(shares=(0,) * 7, move=0, reduction=0)
    yield from judged(none, [(made(1_000_000, 1_000_000, BIG, level), (0, 12_400_000, 12_400_000)) for level in range(1, 8)])
    yield from judged(none, [
        (made(0, 0, 0), (0, 0, 0)), (made(1, 1, 0), (0, 2, 2)), (made(1_000_000, 999_999, BIG), (0, 12_399_990, 12_400_000)),
        # figures that no year has: H above M has nothing moved
        (made(1_000_000, 1_000_001, BIG), (11, 12_400_000)),
    ])
    for edition, number in ((none._replace(reduction=1), 11), (none._replace(move=1), 10)):
        yield from judged(edition, [
            (made(1_000_000, 1_000_000, BIG), (number, 12_400_000)), (made(1_000_000, 999_999, BIG), (0, 12_399_990, 12_400_000)),
        ])
    # a share of 1 percent: 10 kW of 1,000
    yield from judged(none._replace(shares=(1,) * 7), [
        (made(1_000_000, 990_000, BIG), (0, 12_300_000, 12_400_000)), (made(1_000_000, 990_001, BIG), (9, 12_400_000)),
    ])
    # shares of 100: H must be 0
    yield from judged(none._replace(shares=(100,) * 7), [
        (made(1_000_000, 0, BIG), (0, 3_100_000, 12_400_000)), (made(1_000_000, 1, BIG), (9, 12_400_000)),
    ])
    # a least move of 1,000,000,000 W: all of the highest peak that there is
    most = none._replace(move=1_000_000_000)
    yield from judged(most, [(made(1_000_000_000, 0, 0), (0, 500_000_000, 2_000_000_000)), (made(1_000_000_000, 1, 0), (10, 2_000_000_000))])
    # each level by its own threshold: 1 to 7 percent of 1,000 kW, and a W less
    own = none._replace(shares=(1, 2, 3, 4, 5, 6, 7))
    yield from judged(own, [(made(1_000_000, 1_000_000 - 10_000 * level + k, BIG, level), (9 if k else 0,)) for level in range(1, 8) for k in (0, 1)])


def floors():
    """The floor up to the cent, H being 0 and energy free: g of 400,000 and a few cents more."""
    steps = {400_000: 100_000, 400_001: 100_001, 400_002: 100_001, 400_003: 100_001, 400_004: 100_001, 400_005: 100_002}
    yield from judged(SECOND, [(made(10 * g, 0, 0, 7, (100, 0, 0, 0)), (0, f, g)) for g, f in steps.items()])
    # 33 percent of 100 to 104 cents are 33, 33.33, 33.66, 33.99 and 34.32
    third = SECOND._replace(floor=33, move=0, reduction=0)
    steps = {100: 33, 101: 34, 102: 34, 103: 34, 104: 35, 3: 1, 1: 1, 0: 0}
    yield from judged(third, [(made(10 * g, 0, 0, 7, (100, 0, 0, 0)), (0, f, g)) for g, f in steps.items()])
    # one percent: a hundred cents are one, and a cent more is two
    steps = {99: 1, 100: 1, 101: 2, 200: 2, 201: 3}
    yield from judged(third._replace(floor=1), [(made(10 * g, 0, 0, 7, (100, 0, 0, 0)), (0, f, g)) for g, f in steps.items()])
    yield from judged(third._replace(floor=0), [(made(10 * g, 0, 0, 7, (100, 0, 0, 0)), (0, 0, g)) for g in steps])
    # the largest charge that there is, of which a hundred times as much would not fit 64 bits; and the largest in the
    # low row, where the option's row is free
    huge, low = made(U32, 0, U64, 7, LIMITS), made(U32, 0, 4 * 3_000 * U32 - 1, 7, LIMITS[:2] + (0, 0), True)
    yield from judged(third._replace(floor=100), [(huge, (0, 230_584_730_418_098_895, 230_584_730_418_098_895))])
    yield from judged(third._replace(floor=99), [(low, (0, 1_063_004_405_513, 1_073_741_823_750)), (huge, (0, 230_584_300_921_369_395))])
    yield from judged(third._replace(floor=100, reduction=1), [(huge, (11, 230_584_730_418_098_895))])


def chance():
    """Made-up legal editions and figures, often at an edge of them."""
    rng = random.Random(12)
    for _ in range(60):
        shares = tuple(rng.choice([rng.randint(0, 100), rng.randint(0, 30)]) for _ in range(7))
        move, reduction = rng.choice([0, 100_000, rng.randint(0, 10**9)]), rng.choice([0, 50_000, rng.randint(0, 10**6)])
        hours = rng.choice([0, 2_500, 8_784, rng.randint(0, 8_784)])
        e = Edition(2030, 2039, rng.randint(0, 100), rng.randint(1, 96), shares, move, rng.randint(0, 100), reduction, hours)
        sets = []
        for _ in range(6):
            level, M = rng.randint(1, 7), rng.choice([rng.randint(0, 2_000_000), rng.randint(0, 10**9)])
            H = min(M, max(0, rng.choice([rng.randint(0, M), M - M * shares[level - 1] // 100 + rng.randint(-1, 1), M - move + rng.randint(-1, 1)])))
            S = max(0, rng.choice([4 * hours * M + rng.randint(-1, 1), rng.randint(0, 35_136) * M]))
            rows = rng.choice([USUAL, tuple(rng.randint(0, limit) for limit in LIMITS), tuple(rng.randint(0, 300) for _ in LIMITS)])
            sets.append(made(M, H, S, level, rows, rng.random() < 0.5))
        yield from under(loads(e), lambda editions: [tariff_cases.record(s, 2035, picked(editions, 2035)) for s in sets])


KINDS = (second_figures, by_years, charge_edges, thresholds, floors, chance)


def records():
    return {kind.__name__: list(kind()) for kind in KINDS}
