"""Records of customers' years and what crates/cases must print of them, by Rules 6.1 to 7.7 and 9.1 to 9.5
(docs/RULES.md): shared by the parts of tests/cases.py that have such records.

It knows nothing of the code under test. tests/year.py works a decision out in two ways: `whole` from the places of a
whole series, `Days` along the days; where all days were taken, the two are held against each other. Days count from 1,
quarters and positions in a day from 0.
"""
import struct

from dates import SEASONS, date, days_of, yday
from editions import TODAYS, step
from layout import year_run
from recipes import Patch, handed_out, offered, patch_bytes, series_of
from year import USUAL, Days, Terms, sheet_bytes, whole

EVENING = {s: list(range(68, 76)) for s in SEASONS}
REFUSED = Terms(b"", (), (0, 0, 0, 0), False)


# Records

def call_bytes(call):
    kind, *rest = call
    if kind == "E":
        return step(TODAYS, *rest)[0]
    if kind != "A":
        return kind.encode() + b"".join(struct.pack(">H", n) for n in rest)
    terms, = rest
    assert len(terms.sheet) <= 64 and len(terms.holidays) <= 64
    sheet = bytes([len(terms.sheet)]) + terms.sheet
    holidays = bytes([len(terms.holidays)]) + b"".join(struct.pack(">H", h) for h in terms.holidays)
    return b"A" + sheet + holidays + struct.pack(">4I?", *terms.prices, terms.option)


def answered(days, series, call, editions):
    """The lines of a call."""
    kind, *rest = call
    if kind == "A":
        return [("W", *whole(rest[0], series, editions)), ("O", *days.open(rest[0], editions))]
    if kind == "D":
        return [("D", *offered(days, series, *rest, editions))]
    if kind == "P":
        return [("P", *days.day(series[rest[0]:rest[0] + rest[1]]))]
    if kind == "L":
        return [("L", *handed_out(year_run, series, *rest, editions))]
    return [("C", *days.close())]


def record(length, base, patches, calls, editions=TODAYS):
    """An E among the calls changes the list for those after it."""
    # every record opens first: under terms that are refused where a case begins with another call
    first, *others = calls if calls[0][0] == "A" else [("A", REFUSED), *calls]
    assert len(patches) < 256 and len(others) < 256
    data = b"C" + struct.pack(">HIBB", length, base, len(patches), len(others))
    data += patch_bytes(patches) + call_bytes(first)[1:] + b"".join(map(call_bytes, others))
    series, days = series_of(length, base, patches), Days()
    lines = [("S", length)]
    for call in (first, *others):
        if call[0] == "E":
            _, line, editions = step(editions, *call[1:])
            lines.append((line,))
        else:
            lines += answered(days, series, call, editions)
    return data, [" ".join(map(str, line)) for line in lines]


# Parts of records

def asked(year, level=5, windows=EVENING, holidays=(), prices=USUAL, option=False):
    return Terms(sheet_bytes(year, level, windows), tuple(holidays), tuple(prices), option)


def on_day(year, day, quarter, value, count=1):
    """From a day's quarter on, as many readings."""
    return Patch(year_run(year).at(day, quarter), count, 1, value)


def one(year, month, day, quarter, value):
    return on_day(year, yday(year, month, day), quarter, value)


def second_year(H):
    """Base and patches of a year of 2035 that has the figures of case 21 (Rule 11.1) with such an H.

    M is at midnight of 1 January, H at 18:00 of Monday, 8 January. All others are alike but for a W, so that S fits.
    """
    assert date(2035, 8).weekday() == 0
    base, over = divmod(11_000_000_000 - 1_000_000 - H, 96 * 365 - 2)
    patches = [Patch(3_000, over, 1, base + 1), Patch(0, 1, 1, 1_000_000), one(2035, 1, 8, 72, H)]
    assert sum(series_of(96 * 365, base, patches)) == 11_000_000_000
    return base, patches


def both(terms, base, patches, year, length=None):
    """The whole series, and all days of the year with a closing."""
    days = days_of(year)
    return 96 * days if length is None else length, base, patches, [("A", terms), ("D", 1, days), ("C",)]


def all_terms(year, base, patches, list_of_terms, every=1):
    """One series under several terms: whole, and every so many of them by days, too."""
    by_days = [("D", 1, days_of(year)), ("C",)]
    calls = [call for k, terms in enumerate(list_of_terms) for call in [("A", terms)] + (by_days if k % every == 0 else [])]
    return 96 * days_of(year), base, patches, calls


def figures_of(case, editions=TODAYS):
    """What the first call's decision over the whole series answers, for the checks of the scripts."""
    length, base, patches, calls = case
    return whole(calls[0][1], series_of(length, base, patches), editions)
