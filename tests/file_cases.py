#!/usr/bin/env python3
"""Makes the files that crates/file_cases, hlz and statement are run on, and what they must print, by Rules 10.1 to
10.7 (docs/RULES.md).

Run at the project's root:  tests/file_cases.py          writes stdin, args, data/ and stdout of the three crates, and
                                                         counts the files of each kind
                            tests/file_cases.py --check  says whether they are what it would write

It knows nothing of the code under test. tests/files.py works out what is printed, in two ways that are held against
each other. A whole year has 140 KB, so few files are whole. A header that is taken is seen by its 4: no day follows it.
The files under other lists of editions than today's are those of tests/edition_files.py.
"""
import collections
import itertools

import edition_files
from dates import SEASONS, days_of, nationwide, yday
from files import PRINTED_STATEMENT, PRINTED_WINDOWS, customer_file, grid_file, printed, readings_bytes, statement_of, windows_of
from grid import GRID_MOST, place
from heads import customer_head, four, grid_head, joined, season, two, up_to
from kept import keep
from layout import period_run, year_run
from recipes import Patch, series_of
from year import LIMITS, MISSING, READING_MOST, USUAL, Terms, sheet_bytes

DAY = [1_000] * 96  # a usual one, as the first days of each series are
FULL = (1 << 40) - 1  # forty bits


# Headers with something wrong

def around(head, name):
    """A header that a field refuses: whole with a day; cut right after the field; cut in the next; cut in the field."""
    short = up_to(head, name)
    yield name, joined(head) + readings_bytes(DAY)
    yield name + "_cut", short
    if joined(head) != short:
        yield name + "_then_cut", joined(head)[:len(short) + 1]
    yield name + "_in_part", short[:-1]


def spoilt(mark):
    """A mark that is wrong in one byte: each of the three, another letter, a small letter."""
    for k, change in itertools.product(range(3), (1, 32)):
        yield f"{k + 1}_{change}", mark[:k] + bytes([mark[k] ^ change]) + mark[k + 1:]


# Kinds. Each gives names and bytes; a name begins with g for a grid file and c for a customer's

def cuts():
    """Every length up to the header's, the empty file first, and the header with nothing after it."""
    heads = {"g": joined(grid_head()), "c": joined(customer_head((1, 121, 365)))}
    for kind, head in heads.items():
        yield from ((f"{kind}_cut_{n:02}", head[:n]) for n in range(len(head) + 1))


def marks():
    for k, mark in spoilt(b"GRD"):
        yield f"g_mark_{k}", joined(grid_head(mark=mark)) + readings_bytes(DAY)
    for k, mark in spoilt(b"CUS"):
        yield f"c_mark_{k}", joined(customer_head(mark=mark)) + readings_bytes(DAY)
    for k, mark in spoilt(b"HLZ"):
        yield f"c_sheet_mark_{k}", joined(customer_head(sheet_mark=mark)) + readings_bytes(DAY)
    # each kind's file given to the other program, and a sheet alone
    yield "g_mark_of_customer", joined(customer_head())
    yield "c_mark_of_grid", joined(grid_head()) + readings_bytes(DAY)
    yield "c_sheet_alone", sheet_bytes(2025, 5, {1: [72]})
    yield "g_mark_only_wrong", b"X"
    yield "c_mark_only_wrong", b"XYZ"


def versions():
    for version in (0, 2, 256, 257, 65535):
        yield f"g_version_{version}", joined(grid_head(version=two(version)))
        yield f"c_version_{version}", joined(customer_head(version=two(version)))
        yield f"c_sheet_version_{version}", joined(customer_head(sheet_version=two(version)))


def years():
    """2013 and 2029 are case 13; the last has the bytes of 2025 swapped."""
    for year in (2013, 2014, 2028, 2029, 0, 65535, 0xE907):
        yield f"g_year_{year}", joined(grid_head(year=two(year)))
        yield f"c_year_{year}", joined(customer_head(year=two(year)))
    for name, data in around(grid_head(year=two(2013)), "year"):
        yield f"g_bad_{name}", data
    for name, data in around(customer_head(year=two(2029)), "year"):
        yield f"c_bad_{name}", data


def levels():
    for level in (0, 1, 7, 8, 255):
        yield f"g_level_{level}", joined(grid_head(level=bytes([level])))
        yield f"c_level_{level}", joined(customer_head(level=bytes([level])))
    for name, data in around(grid_head(level=b"\0"), "level"):
        yield f"g_bad_{name}", data
    for name, data in around(customer_head(level=b"\10"), "level"):
        yield f"c_bad_{name}", data


def set_bits():
    """Forty and forty-one bits of each season: at its start, at its end, spread; all; and forty in every season."""
    spread = sum(1 << 2 * k for k in range(40))
    for s in SEASONS:
        for name, bits in (("first", FULL << 56), ("last", FULL), ("spread", spread)):
            more = bits << 1 | 1 if name == "last" else bits | 1 << 55
            yield f"c_season{s}_40_{name}", joined(customer_head(**{f"season{s}": season(bits)}))
            yield f"c_season{s}_41_{name}", joined(customer_head(**{f"season{s}": season(more)}))
        yield f"c_season{s}_96", joined(customer_head(**{f"season{s}": season((1 << 96) - 1)}))
    yield "c_seasons_40", joined(customer_head(**{f"season{s}": season(FULL << 7 * s) for s in SEASONS}))
    yield "c_seasons_none", joined(customer_head(**{f"season{s}": season(0) for s in SEASONS}))
    for name, data in around(customer_head(season2=season(FULL | 1 << 95)), "season2"):
        yield f"c_bad_{name}", data


def options():
    for option in (0, 1, 2, 128, 255):
        yield f"c_option_{option}", joined(customer_head(option=bytes([option])))
    for name, data in around(customer_head(option=b"\2"), "option"):
        yield f"c_bad_{name}", data


def counts():
    """Up to forty; more are refused by the count itself, whether the list stands behind it or not."""
    for count in (1, 39, 40, 41, 255):
        yield f"c_count_{count}", joined(customer_head(range(1, count + 1)))
        yield f"c_count_{count}_cut", up_to(customer_head(range(1, count + 1)), "count")
    for name, data in around(customer_head(range(1, 42)), "count"):
        yield f"c_bad_{name}", data
    # a count that is one too small takes the last holiday for a price, one too large a price for a holiday
    yield "c_count_small", joined(customer_head((10, 20, 30), count=b"\2"))
    yield "c_count_large", joined(customer_head((10, 20, 30), count=b"\4"))


def holidays():
    """Zero, equal, falling, past the year's end, at each place; in leap years and in others."""
    lists = {
        "zero": (0,), "zero_first": (0, 1), "zero_last": (5, 0), "equal": (7, 7), "equal_last": (1, 2, 9, 9), "equal_apart": (5, 6, 5),
        "falling": (9, 8), "falling_middle": (1, 30, 29, 40), "high": (65535,), "high_byte": (256, 257), "low_byte": (255, 256), "swapped": (256, 1),
    }
    for name, days in lists.items():
        yield f"c_holiday_{name}", joined(customer_head(days))
    for year, day in itertools.product((2024, 2025, 2028, 2014), (365, 366, 367)):
        yield f"c_holiday_{year}_{day}", joined(customer_head((1, day), year=two(year)))
    for last in (40, 39, 366):
        yield f"c_holiday_40_{last}", joined(customer_head((*range(1, 40), last)))
    # refused as soon as it is read, with holidays to come
    for name, data in around(customer_head((3, 2, 9)), "holiday2"):
        yield f"c_bad_{name}", data
    for name, data in around(customer_head((366, 367)), "holiday1"):
        yield f"c_bad_{name}", data


def prices():
    names = ("low_capacity", "low_energy", "high_capacity", "high_energy")
    for name, limit in zip(names, LIMITS):
        for price in (0, limit, limit + 1, MISSING):
            yield f"c_{name}_{price}", joined(customer_head(**{name: four(price)}))
        for part, data in around(customer_head((1,), **{name: four(limit + 1)}), name):
            yield f"c_bad_{part}", data
    yield "c_prices_at_limits", joined(customer_head((1,), **dict(zip(names, map(four, LIMITS)))))


def first_of_two():
    """Two refused fields: the first in the file answers, whatever its number; before a bad reading any field."""
    yield "g_mark_and_year", joined(grid_head(mark=b"CUS", year=two(2013)))
    yield "g_version_and_level", joined(grid_head(version=two(2), level=b"\0"))
    yield "g_year_and_level", joined(grid_head(year=two(2013), level=b"\0"))
    bad_day = readings_bytes([MISSING] * 96)
    yield "g_level_and_reading", joined(grid_head(level=b"\10")) + bad_day
    wrong = {
        "mark": b"GRD", "version": two(2), "sheet_mark": b"HLY", "sheet_version": two(0), "year": two(2029), "level": b"\0",
        "season1": season(FULL << 1 | 1), "option": b"\3", "holiday1": two(366), "low_capacity": four(100_001), "high_energy": four(50_001),
    }
    for first, second in itertools.pairwise(wrong):
        yield f"c_{first}_and_{second}", joined(customer_head((1,), **{first: wrong[first], second: wrong[second]}))
    yield "c_all_wrong", joined(customer_head((1,), **wrong)) + bad_day
    yield "c_price_and_reading", joined(customer_head(high_energy=four(50_001))) + bad_day
    yield "c_year_and_bits", joined(customer_head(year=two(2013), season1=season(FULL << 1 | 1)))
    yield "c_bits_and_option", joined(customer_head(season4=season(FULL << 1 | 1), option=b"\2"))
    yield "c_option_and_count", joined(customer_head(range(1, 42), option=b"\2"))


def with_reading(quarter, value):
    return [value if q == quarter else 1_000 for q in range(96)]


def short_days():
    """Files that end among their days: 4, but 5 for a bad reading in a day that is there whole."""
    heads = {"g": (joined(grid_head()), GRID_MOST), "c": (joined(customer_head((1, 121))), READING_MOST)}
    for kind, (head, most) in heads.items():
        day, top = readings_bytes(DAY), readings_bytes(with_reading(7, most))
        parts = {
            "border_1": day, "border_3": 3 * day, "in_day_1": day[:1], "in_reading_1": day[:5], "in_day_1_end": day[:383], "in_day_2": day + day[:1],
            "in_day_2_end": day + day[:383], "top": top, "all_top": readings_bytes([most] * 96),
        }
        for quarter, value in itertools.product((0, 50, 95), (most + 1, MISSING)):
            bad = readings_bytes(with_reading(quarter, value))
            name = f"{quarter}_{'missing' if value == MISSING else 'above'}"
            parts |= {f"bad_1_{name}": bad, f"bad_2_{name}": day + bad + day[:100], f"bad_in_cut_{name}": day + bad[:383]}
        later = readings_bytes(with_reading(5, MISSING))
        parts["bad_twice"] = day + readings_bytes([1_000] * 60 + [most + 1] * 36) + later
        parts["bad_before_cut_bad"] = top + later + later[:200]
        parts["bad_all"] = readings_bytes([MISSING] * 96)
        yield from ((f"{kind}_days_{name}", head + data) for name, data in parts.items())


# Kinds: whole files

def on_days(year, dates, value):
    """dates: month, day and the quarters that a value, or a value for each quarter, is set at."""
    return [Patch(place(year, m, d, q), 1, 1, value(q) if callable(value) else value) for m, d, quarters in dates for q in quarters]


def whole_grids():
    """Every shape of lines in one file; a peak of zero; bytes left over, which do not undo a bad last day's reading."""
    patches = on_days(2025, [(1, 13, (0, 1, 2, 72, 93, 94)), (12, 24, (95,)), (2, 29, (71,))], 2_000)  # runs from 00:00 and to 24:00
    patches += on_days(2025, [(3, 1, range(1, 81, 2))], 1_901)  # forty runs of a quarter
    patches += on_days(2025, [(8, 31, range(96))], 1_950)  # a whole day, of which forty stay
    patches += on_days(2025, [(9, 1, range(30, 90))], lambda q: 1_920 if q % 2 else 1_990)  # sixty: the high ones, and the first of the others
    rich = grid_file(2025, 5, series_of(96 * 366, 1_900, patches))
    text = windows_of(rich)
    lines = text.splitlines()
    assert lines[1:5] == ["1 00:00-00:45", "1 17:45-18:15", "1 23:15-24:00", "2 00:15-00:30"] and "3 00:00-10:00" in lines
    assert len(lines) == 1 + 3 + 40 + 1 + 20 and len(period_run(2025).dates) == 366 and len(period_run(2026).dates) == 365
    yield "g_whole_2025", rich
    yield "g_whole_zeros", grid_file(2026, 7, [0] * 96 * 365)
    yield "g_over", printed()[0] + b"\0"
    yield "g_over_bad", printed()[0][:-4] + four(GRID_MOST + 1) + b"\0"


def decided(name, number, terms, base, patches):
    year = int.from_bytes(terms.sheet[5:7], "big")
    data = customer_file(terms, series_of(96 * days_of(year), base, patches))
    assert statement_of(data).split()[0] == str(number)
    return name, data


def whole_customers():
    """A leap year that is accepted with the option below 2,500 hours; 8, 9, 10, 11; bytes left over."""
    edges = {1: [*range(0, 12), *range(68, 96)], 2: [95], 3: range(28, 68), 4: [0, 1, 3, 4, 90, 95]}
    evening = {s: range(68, 76) for s in SEASONS}
    leap = Terms(sheet_bytes(2024, 5, edges), tuple(nationwide(2024)), USUAL, True)
    # high in quarters of windows, but on a Saturday, the listed days, the bridge day after Ascension and 31 December;
    # then a Tuesday in April
    run = year_run(2024)
    free = [Patch(run.at(day, 95), 1, 1, 3_000_000) for day in (*leap.holidays, yday(2024, 5, 10), 366)]
    peaks = [Patch(run.at(yday(2024, 3, 2), 95), 1, 1, 4_000_000), Patch(run.at(yday(2024, 4, 2), 95), 1, 1, 700_000)]
    yield decided("c_whole_leap", 0, leap, 123_456, free + peaks)
    common = Terms(sheet_bytes(2025, 5, evening), tuple(nationwide(2025)), USUAL, False)
    at = year_run(2025).at(91, 70)
    peaks = [Patch(0, 1, 1, 1_000_000), Patch(at, 1, 1, 800_001)]
    yield decided("c_whole_8", 8, common._replace(sheet=sheet_bytes(2025, 5, {}), option=True), 500_000, peaks)
    yield decided("c_whole_9", 9, common, 500_000, peaks)
    yield decided("c_whole_10", 10, common, 0, [])  # case 13: a year of zeros
    yield decided("c_whole_11", 11, common._replace(prices=(249, 0, 0, 0)), 0, [Patch(0, 1, 1, 1_000_000), Patch(at, 1, 1, 800_000)])
    yield "c_over", printed()[1] + b"\0"
    yield "c_over_bad", printed()[1][:-4] + four(READING_MOST + 1) + b"\0"


# Kinds: the two Sundays of the clock change. Their days and places were counted by hand

def one_high(place):
    """The period of 2025 with one high reading."""
    return grid_file(2025, 5, series_of(96 * 366, 1_000, [Patch(place, 1, 1, 2_000)]))


def whole_sundays():
    """A grid's Sundays, a file made as if each day had 96 readings, and a customer's doubled quarter."""
    files = {
        "g_sunday_100": (one_high(58 * 96 + 12), "HLZ 2025 5\n1 none\n2 none\n3 none\n4 02:00-02:15\n"),
        "g_sunday_92": (one_high(212 * 96 + 4 + 8), "HLZ 2025 5\n1 none\n2 03:00-03:15\n3 none\n4 none\n"),
        "g_printed_as_before": (one_high(136 * 96 + 72), "HLZ 2025 5\n1 17:00-17:15\n2 none\n3 none\n4 none\n"),
    }
    for name, (data, text) in files.items():
        assert windows_of(data) == text
        yield name, data
    # M is the second reading, and S has both: 35,038 times 100,000 and the two
    doubled = [Patch(298 * 96 - 4 + 9, 1, 1, 800_000), Patch(298 * 96 - 4 + 13, 1, 1, 900_000)]
    terms = Terms(sheet_bytes(2025, 5, {s: [9] for s in SEASONS}), (), USUAL, False)
    name, data = decided("c_sunday_100", 0, terms, 100_000, doubled)
    assert statement_of(data) == "0 3705500 5305500 900000 3505500000 100000 2 9\n"
    yield name, data


def short_sundays():
    """Files that end on a Sunday or about it, with a bad reading there. All readings before it are 1,000."""
    heads = {"g": (joined(grid_head()), GRID_MOST), "c": (joined(customer_head()), READING_MOST)}
    # the Sunday's day, the readings before it, and its own: the later one of each series in one file only
    for kind, day, before, own in (("g", 59, 58 * 96, 100), ("c", 89, 88 * 96, 92), ("g", 213, 212 * 96 + 4, 92), ("c", 299, 298 * 96 - 4, 100)):
        head, most = heads[kind]
        end = before + own
        # the bad reading's place, the bytes of all readings in the file, and what is answered
        tried = {"last": (end - 1, 4 * end, f"5 {day} {own - 1}")}
        if day < 100:
            tried |= {"last_cut": (end - 1, 4 * end - 1, "4"), "96_readings": (before + 95, 4 * (before + 96), "4")}
            tried |= {"next": (end, 4 * (end + 96), f"5 {day + 1} 0"), "next_cut": (end, 4 * (end + 96) - 1, "4")}
        for name, (place, size, answer) in tried.items():
            data = head + readings_bytes(series_of(end + 96, 1_000, [Patch(place, 1, 1, most + 1)]))[:size]
            text = windows_of(data) if kind == "g" else statement_of(data)
            assert text.removeprefix("REFUSED ") == answer + "\n"
            yield f"{kind}_sunday_{own}_{name}", data


KINDS = (
    cuts, marks, versions, years, levels, set_bits, options, counts, holidays, prices, first_of_two, short_days, whole_grids, whole_customers,
    whole_sundays, short_sundays,
)


def with_text(name, data):
    return name, data, (windows_of if name[0] == "g" else statement_of)(data)


made = {kind.__name__: [with_text(*case) for case in kind()] for kind in KINDS}
made |= {kind.__name__: list(kind()) for kind in edition_files.KINDS}
cases = [case for part in made.values() for case in part]
texts = {name: text for name, _, text in cases}
assert len(texts) == len(cases), "a name is given twice"
windows, statement = printed()
kept = {"hlz/stdin": windows, "hlz/stdout": PRINTED_WINDOWS.encode(), "statement/stdin": statement, "statement/stdout": PRINTED_STATEMENT.encode()}
kept |= {f"file_cases/data/{name}": data for name, data, _ in cases}
kept["file_cases/args"] = "".join(name + "\n" for name in texts).encode()
kept["file_cases/stdout"] = "".join(name + "\n" + text for name, text in texts.items()).encode()
keep("crates", kept, ["file_cases/data"])
print(len(cases), {name: len(part) for name, part in made.items()})
answers = collections.Counter((name[0], text.removeprefix("REFUSED ").split()[0]) for name, text in texts.items())
print("answered", {f"{kind} {number}": count for (kind, number), count in sorted(answers.items())})
