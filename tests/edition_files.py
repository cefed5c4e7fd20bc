"""Files under other lists of editions than today's, and what crates/file_cases must print of them: kinds of
tests/file_cases.py. Such a file's name begins with e, and it has its kind and its list before it, as
crates/file_cases/src/main.rt says.

It knows nothing of the code under test. What is printed is said beside each file, as it was calculated by hand;
tests/files.py has the rules, and is held to it. Rules 2.7, 4.4, 4.5, 10.4 and 10.5 (docs/RULES.md).
"""
from customer_records import asked, second_year
from dates import SEASONS
from editions import SECOND, TODAY, all_steps, edition_bytes, loaded, loads
from files import customer_file, grid_file, statement_of, windows_of
from grid import place
from heads import customer_head, grid_head, joined, season, two
from recipes import Patch, series_of

BOTH = TODAY, SECOND
# the second one shares a year with today's, the third has a quarter too many: both are refused
SOME_REFUSED = TODAY, SECOND._replace(first=2028), SECOND._replace(limit=97), SECOND


def listed(name, kind, given, taken, data, text):
    """A file's name, its bytes with the given editions before it, and its text, which goes by those that are taken."""
    editions = loaded(*taken)
    assert all_steps(loads(*given))[1] == editions
    assert (windows_of if kind == b"G" else statement_of)(data, editions) == text
    return "e_" + name, kind + bytes([len(given)]) + b"".join(map(edition_bytes, given)) + data, text


def both_heads(name, given, taken, year, number):
    """A header of each kind for a year: 4 where it is taken, since no day follows."""
    yield listed(f"grid_{name}", b"G", given, taken, joined(grid_head(year=two(year))), f"REFUSED {number}\n")
    yield listed(f"customer_{name}", b"C", given, taken, joined(customer_head(year=two(year))), f"{number}\n")


# Kinds. Each gives names, bytes and texts

def second_edition():
    """Whole files of 2035: case 21 as a year of readings, and windows at line 90 and limit 32."""
    # 2,750 hours of use, so the low row: 2,000 cent for 1,000 kW and for 750 kW, 4 cent for 2,750,000 kWh. Level 5 asks
    # for a quarter of M: it is moved, and a W less is
    texts = {750_000: "0 12500000 13000000 1000000 11000000000 750000 8 72\n", 750_001: "9 13000000 1000000 11000000000 750001 8 72\n"}
    for H, text in texts.items():
        data = customer_file(asked(2035, 5, {1: [72]}), series_of(96 * 365, *second_year(H)))
        yield listed(f"customer_whole_{H}", b"C", SOME_REFUSED, BOTH, data, text)
    spring, summer, autumn = place(2035, 4, 10, 0), place(2035, 7, 4, 0), place(2035, 10, 7, 0)
    # 900 is on the line, 901 above it; of 40 equal ones the last eight go; of 33 the lowest goes, which is the first
    patches = [Patch(spring + 10, 1, 1, 900), Patch(spring + 20, 1, 1, 901), Patch(summer + 50, 40, 1, 950)]
    patches += [Patch(autumn, 33, 1, 1_000), Patch(autumn, 1, 1, 999)]
    text = "HLZ 2035 5\n1 none\n2 05:00-05:15\n3 12:30-20:30\n4 00:15-08:15\n"
    yield listed("grid_whole", b"G", SOME_REFUSED, BOTH, grid_file(2035, 5, series_of(96 * 365, 500, patches)), text)


def edition_years():
    """2029 and 2030 lie between the two editions, and in a refused one; 2041 lies behind them."""
    for year, number in ((2028, 4), (2029, 1), (2030, 1), (2031, 4), (2040, 4), (2041, 1)):
        yield from both_heads(f"year_{year}", SOME_REFUSED, BOTH, year, number)


def edition_seasons():
    """Set bits by the limit of the header's year: 32 in 2031, 40 in 2025; and 96, where every quarter may be set."""
    for year, count, number in ((2031, 32, 4), (2031, 33, 12), (2025, 33, 4), (2025, 40, 4), (2025, 41, 12)):
        for s in SEASONS:
            head = customer_head(year=two(year), **{f"season{s}": season((1 << count) - 1 << 11 * s)})
            yield listed(f"customer_season{s}_{year}_{count}", b"C", BOTH, BOTH, joined(head), f"{number}\n")
    wide = TODAY, SECOND._replace(limit=96)
    head = customer_head(year=two(2031), **{f"season{s}": season((1 << 96) - 1) for s in SEASONS})
    yield listed("customer_seasons_96", b"C", wide, wide, joined(head), "4\n")


def edition_lists():
    """A list without a record; and nine editions, of which the ninth is refused."""
    yield from both_heads("no_record", (), (), 2025, 1)
    nine = [SECOND._replace(first=year, last=year) for year in range(2041, 2050)]
    yield from both_heads("eighth", nine, nine[:8], 2048, 4)
    yield from both_heads("ninth", nine, nine[:8], 2049, 1)


KINDS = (second_edition, edition_years, edition_seasons, edition_lists)
