"""The records of figures and what crates/cases must print of them, by Rules 6.6 to 7.7 (docs/RULES.md): a part of
tests/cases.py.

It knows nothing of the code under test. tests/year.py has the rules, each in two ways that are held against each other;
the two halves of the decision stand here, and their row is held against the decision there. Where no edition is named,
it is today's, of the year 2025.
"""
import itertools
import random
import struct

from editions import TODAY
from year import LIMITS, PART, SHARE, USUAL, Set, charge_by_units, charges, few_hours, floor_of, judge, prices_out
from year import share_by_units, share_reached

U32, U64 = 2**32 - 1, 2**64 - 1


# What each half of the decision answers: the number and its figures

def eligible(s, edition=TODAY):
    if s.level not in SHARE:
        return (2,)
    if prices_out(s.prices):
        return (6,)
    g, _, _ = charges(s, edition)
    if not s.any:
        return 8, g, s.M, s.S
    carried = g, s.M, s.S, s.H, s.day, s.quarter
    if not share_reached(s.M, s.H, s.level, edition):
        return (9,) + carried
    if max(s.M - s.H, 0) < edition.move:
        return (10,) + carried
    return 0, 1


def charge(s, edition=TODAY):
    if prices_out(s.prices):
        return (6,)
    g, r, f = charges(s, edition)
    if not s.any:
        return 8, g, s.M, s.S
    c = max(r, f)
    carried = g, s.M, s.S, s.H, s.day, s.quarter
    if g - c < edition.reduction:
        return (11,) + carried
    return (0, c) + carried


def record(s, year=2025, edition=TODAY):
    data = b"T" + struct.pack(">HIQ?IHBB4I?", year, s.M, s.S, s.any, s.H, s.day, s.quarter, s.level, *s.prices, s.option)
    e, c, j = eligible(s, edition), charge(s, edition), judge(s, edition)
    assert j == (c if e == (0, 1) else e), s
    lines = [("P", int(prices_out(s.prices))), ("E", *e), ("C", *c), ("J", *j)]
    return data, [" ".join(map(str, line)) for line in lines]


# The records

numbers = itertools.count(1)


def made(M, H, S, level=5, prices=USUAL, option=False, any_window=True):
    """Every record has a place of its own, of which nothing is decided."""
    n = next(numbers)
    return Set(M, S, any_window, H, 1 + 37 * n % 366, 5 * n % 96, level, tuple(prices), option)


def parts_of(P, row, S):
    """What is over a whole cent, before rounding."""
    return (4_000 * P * row[0] + S * row[1]) % PART


def starred():
    """Cases 1 to 8 of Rule 11.1, and those that stand beside them."""
    big = 12_000_000_000
    case_7 = USUAL[:2] + (500, 800)
    told = [
        (made(1_000_000, 800_000, big), (0, 10_400_000, 12_400_000)),
        (made(1_000_000, 800_001, big), (9, 12_400_000)),
        (made(1_000_000, 0, big), (0, 2_480_000, 12_400_000)),
        (made(1_000_000, 0, 10_000_000_000), (0, 2_400_000, 12_000_000)),
        (made(1_000_000, 0, 9_999_999_999), (0, 10_000_000, 12_000_000)),
        (made(1_000_000, 100_000, 4_000_000_000), (0, 4_200_000, 6_000_000)),
        (made(1_000_000, 100_000, 4_000_000_000, option=True), (0, 1_800_000, 6_000_000)),
        (made(1_000_000, 800_000, 4_000_000_000, option=True), (11, 6_000_000)),
        (made(300_000, 200_000, 3_600_000_000, 1, case_7), (0, 820_000, 870_000)),
        (made(300_000, 200_000, 3_600_000_000, 1, USUAL[:2] + (499, 800)), (11, 869_700)),
        (made(300_000, 200_001, 3_600_000_000, 1, case_7), (10, 870_000)),
    ]
    for s, (number, *figures) in told:
        got = judge(s)
        assert got[0] == number and list(got[1:1 + len(figures)]) == figures, (s, got)
        yield s
        # the option changes nothing at 2,500 hours and more
        flipped = s._replace(option=not s.option)
        assert few_hours(s.M, s.S) or judge(flipped) == got
        yield flipped
    # the example of Rule 10.7
    assert judge(made(1_000_000, 500_000, 1_500_000))[:5] == (0, 1_001_500, 2_001_500, 1_000_000, 1_500_000)
    yield made(1_000_000, 500_000, 1_500_000)._replace(day=2, quarter=72)


def share():
    """For each level the highest H that reaches the share, a W less and a W more; the peak a multiple of 100 or not."""
    for level, percent in SHARE.items():
        for M in (4_000_000, 4_000_001, 3_999_999, 2_345_678, U32):
            H = max(h for h in range(M - M * percent // 100 - 3, M - M * percent // 100 + 3) if share_by_units(M, h, percent))
            assert M % 100 or H == M - M * percent // 100
            sets = [made(M, H + k, 50_000 * M, level) for k in (-1, 0, 1)]
            assert [judge(s)[0] for s in sets] == [0, 0, 9]
            yield from sets
        # a peak so small that the share, at equality, is less than 100 kW: 9 comes before 10
        sets = [made(1_000, H, 50_000_000, level) for H in (1_000 - 10 * percent + k for k in (-1, 0, 1))]
        assert [judge(s)[0] for s in sets] == [10, 10, 9]
        yield from sets


def moved():
    """99,999, 100,000 and 100,001 W, where the share is reached."""
    for M, level in ((300_000, 1), (300_000, 7), (333_330, 7), (499_995, 5), (100_000, 7), (100_001, 3), (999_990, 3)):
        for by in (99_999, 100_000, 100_001):
            if M >= by:
                s = made(M, M - by, 12_000 * M, level)
                assert judge(s)[0] == (0 if by >= 100_000 else 10)
                yield s
    # less than 100 kW in all
    for M in (1, 2, 99_998, 99_999):
        yield made(M, 0, 12_000 * M, 7)
        yield made(M, 0, 12_000 * M - 2_000 * M - 1, 7, option=True)


def reduction():
    """49,999, 50,000 and 50,001 cent: by the in-window peak, by the floor, by the option, by rounding."""
    for by in (-2, -1, 0, 1, 2):
        # 100 cent per kW and year: ten W are a cent
        s = made(2_000_000, 2_000_000 - 10 * (50_000 + by), 40_000_000_000, 3, (0, 0, 100, 900))
        g, r, f = charges(s)
        assert r > f and g - r == 50_000 + by and judge(s)[0] == (0 if by >= 0 else 11)
        yield s
        # the same below 2,500 hours, with and without the option (a high row of 100 and 900 too, for M as for H)
        for option in (False, True):
            s = made(2_000_000, 2_000_000 - 10 * (50_000 + by), 12_000_000_000, 3, (100, 900, 100, 900), option)
            assert few_hours(s.M, s.S) and judge(s)[0] == (0 if by >= 0 else 11)
            yield s
        # g of 1,200,000 from the low row, r from the option's row, where a W is a cent; at level 3, where the share is
        # far off
        s = made(2_000_000, 1_150_000 - by, 4_000_000_000, 3, (100, 1_000, 1_000, 0), True)
        g, r, f = charges(s)
        assert r > f and g - r == 50_000 + by and judge(s)[0] == (0 if by >= 0 else 11)
        yield s
    for g in range(62_493, 62_508):
        # H is 0 and energy is free, so that the floor decides: 62,500 less a fifth is 50,000
        s = made(10 * g, 0, 200_000 * g, 7, (0, 0, 100, 0))
        assert charges(s) == (g, 0, floor_of(g)) and judge(s)[0] == (0 if g - floor_of(g) >= 50_000 else 11)
        yield s
    for spare in (0, 1, PART // 2 - 1, PART // 2, PART // 2 + 1, PART - 1):
        # 49,999 and a half cent before rounding: either charge may be the one that is rounded up
        s = made(2_000_000, 2_000_000 - 499_995, 40_000_000_000 + spare, 3, (0, 0, 100, 1))
        g, r, _ = charges(s)
        assert g - r in (49_999, 50_000) and judge(s)[0] == (0 if g - r == 50_000 else 11)
        yield s
        yield made(2_000_000, 2_000_000 - 500_000, 40_000_000_000 + spare, 3, (0, 0, 100, 1))
        yield made(2_000_000, 2_000_000 - 499_994, 40_000_000_000 + spare, 3, (0, 0, 100, 1))


def hours():
    """S one below 10,000 M, equal, one above, with and without the option: which row, for g and for r."""
    for M in (1, 2, 99, 100_000, 1_000_000, 1_234_567, 429_496_729, 429_496_730, 1_000_000_000, U32):
        for by, option in itertools.product((-1, 0, 1), (False, True)):
            H = M // 3
            s = made(M, H, 10_000 * M + by, 3, USUAL, option)
            g, r, _ = charges(s)
            row = USUAL[:2] if by < 0 else USUAL[2:]
            assert g == charge_by_units(M, *row, s.S)
            assert r == charge_by_units(H, *(USUAL[2:] if option else row), s.S)
            yield s


def rounding():
    """What is over a whole cent: nothing, a part, half a cent less a part, half, a part more, a cent less a part."""
    overs = (0, 1, PART // 2 - 1, PART // 2, PART // 2 + 1, PART - 1)
    years = (400_000, 100_000, 1_000, 1), (400_123, 100_123, 997, 3), (400_001, 77_777, 99_999, 7), (412_345, 0, 3, 49_999)
    for M, H, capacity, energy in years:
        for P, over in itertools.product((M, H), overs):
            # the sum that leaves `over` for P, at many hours and at few
            S = (over - 4_000 * P * capacity) * pow(energy, -1, PART) % PART
            many = S + PART * (10_000 * M // PART + 1)
            assert parts_of(P, (capacity, energy), S) == over == parts_of(P, (capacity, energy), many)
            yield made(M, H, many, 2, (1, 1, capacity, energy))
            yield made(M, H, S, 2, (capacity, energy, 1, 1))
            yield made(M, H, S, 2, (capacity + 1, energy + 2, capacity, energy), True)


def rounded_once():
    """The capacity part and the energy part each have a fraction of a cent: rounded apart they would be another sum."""
    for over_capacity, over_energy in itertools.product((300, 499, 500, 501, 700), repeat=2):
        # in thousandths of a cent: 1 cent per kW and year for so many W, and energy at 1 for 4,000 times as much
        s = made(1_000_000 + over_capacity, 400_000 + over_capacity, 4_000 * (3_000_000 + over_energy), 3, (0, 0, 1, 1))
        assert not few_hours(s.M, s.S)
        whole = (over_capacity + over_energy + 500) // 1000
        assert charges(s)[:2] == (1_000 + 3_000 + whole, 400 + 3_000 + whole)
        yield s
        # with a large difference between the charges, so that 0 shows them both
        yield s._replace(prices=(0, 0, 1_001, 1), M=1_000_000, H=over_capacity)


def floors():
    """g from a multiple of 5 to four more; the floor below r, equal, and above by one cent."""
    for g in range(400_000, 400_006):
        M = 10 * g
        for H in (0, M // 5 - 1_000, M // 5 - 10, M // 5, M // 5 + 10, M // 5 + 20, M // 5 + 30, 3 * M // 5):
            s = made(M, H, 20_000 * M, 7, (0, 0, 100, 0))
            assert charges(s)[0] == g and judge(s)[1] == max(charges(s)[1:])
            yield s
    # the floor's charge is the general one after rounding: 5.5 cents are 6, and a fifth of 6 is 2
    for g_parts in (5 * 1000 + 499, 5 * 1000 + 500, 10 * 1000 + 499, 10 * 1000 + 500):
        yield made(g_parts, 0, 20_000 * g_parts, 7, (0, 0, 1, 0))
        yield made(1_000_000_000 + g_parts, 0, 20_000_000_000_000 + 20_000 * g_parts, 7, (0, 0, 1, 0))


def odd_peaks():
    """M 0, H as large as M, H above M."""
    pairs = (0, 0), (0, 1), (0, 1_000_000), (1, 1), (1_000_000, 1_000_000), (1_000_000, 1_000_001), (1_000_000, U32), (100_000, 300_000)
    for S, level, option in itertools.product((0, 1, 35_040, 12_000_000_000), (1, 7), (False, True)):
        for M, H in pairs:
            s = made(M, H, S, level, USUAL, option)
            assert judge(s)[0] == (10 if M == 0 else 9)
            yield s


def options():
    """The option below and at 2,500 hours; r above g, r above M's charge in either row, r just below."""
    for H in (0, 100_000, 200_000, 440_000, 480_000, 519_999, 520_000, 521_000, 560_000, 600_000, 700_000, 800_000):
        for S in (4_000_000_000, 9_999_999_999, 10_000_000_000):
            for option in (False, True):
                yield made(1_000_000, H, S, 5, USUAL, option)
    # a high row that is dearer in both prices, and one that is free
    for high in ((100_000, 50_000), (0, 0), (2_000, 4_000)):
        for option in (False, True):
            yield made(1_000_000, 300_000, 4_000_000_000, 5, USUAL[:2] + high, option)
    above = [s for s in (made(1_000_000, H, 4_000_000_000, 5, USUAL, True) for H in (520_001, 800_000)) if charges(s)[1] > charges(s)[0]]
    assert len(above) == 2
    yield from above


def prices():
    """Each price at its limit, one above, and far above; then all of them."""
    for k, limit in enumerate(LIMITS):
        for price in (0, limit - 1, limit, limit + 1, 2 * limit, U32):
            changed = USUAL[:k] + (price,) + USUAL[k + 1:]
            for S in (4_000_000_000, 12_000_000_000):
                s = made(1_000_000, 300_000, S, 5, changed, k % 2 == 1)
                assert (judge(s) == (6,)) == (price > limit)
                yield s
    yield made(1_000_000, 300_000, 12_000_000_000, 5, LIMITS)
    yield made(1_000_000, 300_000, 4_000_000_000, 5, LIMITS, True)
    yield made(1_000_000, 300_000, 12_000_000_000, 5, (0, 0, 0, 0))
    yield made(1_000_000, 300_000, 12_000_000_000, 5, (U32,) * 4)
    # a capacity price where an energy price would be out, and the other way round
    yield made(1_000_000, 300_000, 12_000_000_000, 5, (50_001, 50_000, 50_001, 50_000))
    yield made(1_000_000, 300_000, 12_000_000_000, 5, (50_000, 50_001, 50_000, 100_000))


def levels():
    for level in (0, 1, 2, 3, 4, 5, 6, 7, 8, 9, 100, 128, 255):
        for any_window in (True, False):
            for H in (960_000, 900_000, 800_000, 700_000):
                yield made(1_000_000, H, 12_000_000_000, level, USUAL, False, any_window)


def order():
    """Several things wrong at once: every choice of them."""
    bad_prices = (100_001, 0, 0, 0)
    for level, out, any_window, short, small in itertools.product((7, 0, 8), (False, True), (True, False), range(4), (False, True)):
        # both hold; the share is short; the move is short; both are
        M, H = ((1_000_000, 600_000), (1_000_000, 800_000), (300_000, 200_001), (1_000_000, 990_000))[short]
        rows = bad_prices if out else ((0, 0, 1, 0) if small else USUAL)
        s = made(M, H, 12_000 * M, level, rows, False, any_window)
        wrong = [n for n, yes in (
            (2, level != 7), (6, out), (8, not any_window), (9, short in (1, 3)), (10, short in (2, 3)), (11, small)) if yes]
        assert judge(s)[0] == (wrong + [0])[0]
        yield s


def extreme():
    """The largest and the smallest figures, that no year has."""
    for M, H, S in itertools.product((0, 1, U32), (0, 1, U32), (0, 1, U32, U64 - 1, U64)):
        for rows, option in ((LIMITS, False), (LIMITS, True), (USUAL, True)):
            yield made(M, H, S, 7, rows, option)
    for S in (U64 - PART, U64 - U64 % PART - 1, U64 - U64 % PART, 10_000 * U32 - 1, 10_000 * U32, PART - 1, PART, PART + 1):
        yield made(U32, U32 // 2, S, 7, LIMITS, True)
        yield made(U32, U32 // 2, S, 7, (99_999, 49_999, 99_998, 49_998), False, False)
    yield Set(U32, U64, True, 0, 65535, 255, 1, LIMITS, True)
    yield Set(U32, U64, False, 0, 65535, 255, 1, LIMITS, True)


def chance():
    rng = random.Random(19)
    for n in range(200):
        level = rng.randint(1, 7)
        M = rng.choice([rng.randint(100_000, 2_000_000), rng.randint(0, 1_000_000_000)])
        share_at = M - M * SHARE[level] // 100
        H = min(M, max(0, rng.choice([rng.randint(0, M), share_at + rng.randint(-2, 2), M - 100_000 + rng.randint(-2, 2), M // 5])))
        S = rng.choice([10_000 * M + rng.randint(-3, 3), rng.randint(0, 35_136) * M, M * rng.randint(5_000, 20_000) + rng.randint(0, PART)])
        rows = rng.choice([USUAL, tuple(rng.randint(0, limit) for limit in LIMITS), tuple(rng.randint(0, 300) for _ in LIMITS)])
        yield made(M, H, max(S, 0), level, rows, rng.random() < 0.5, rng.random() < 0.95)
    for n in range(60):
        M, H = rng.randint(0, U32), rng.randint(0, U32)
        S = rng.choice([rng.randint(0, U64), rng.randint(0, 20_000 * U32)])
        rows = tuple(rng.choice([limit, limit + 1 if n % 7 == 0 else limit, rng.randint(0, limit)]) for limit in LIMITS)
        yield made(M, H, S, rng.choice([1, 2, 3, 4, 5, 6, 7, rng.randint(0, 255)]), rows, rng.random() < 0.5, rng.random() < 0.9)


KINDS = (
    starred, share, moved, reduction, hours, rounding, rounded_once, floors, odd_peaks, options, prices, levels, order, extreme, chance,
)


def records():
    return {kind.__name__: [record(s) for s in kind()] for kind in KINDS}
