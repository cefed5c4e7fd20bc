"""The sheet's records and what crates/cases must print of them, by Rules 5.1 to 5.4 (docs/RULES.md): a part of
tests/cases.py.

It knows nothing of the code under test. A sheet is put together as one large number of bits, and taken apart from a
string of bits. Where no list of editions is named, it is today's.
"""
import random
import struct

from dates import SEASONS
from editions import TODAYS, picked

FILL = 170  # what the lent bytes hold before a writing
ROOM = 64


def sheet_bytes(year, level, chosen):
    """chosen: pairs of season 1 to 4 and quarter 0 to 95. Quarter 0 of season 1 is the top bit of 4 * 96."""
    bits = sum(1 << (4 * 96 - 1 - (96 * (season - 1) + quarter)) for season, quarter in chosen)
    return b"HLZ" + struct.pack(">HHB", 1, year, level) + bits.to_bytes(48, "big")


def fullest(chosen):
    return max(sum(1 for season, _ in chosen if season == s) for s in SEASONS)


def write_answer(year, level, chosen, room, editions=TODAYS):
    """14, 1, 2, 12 in this order."""
    if room < 56:
        return 14
    edition = picked(editions, year)
    if edition is None:
        return 1
    if not 1 <= level <= 7:
        return 2
    return 12 if fullest(chosen) > edition.limit else 0


def read_sheet(data, editions=TODAYS):
    """The number, and for 0 the meaning; order 12 (form), 1, 2, 12 (set bits)."""
    if len(data) != 56 or data[:3] != b"HLZ" or struct.unpack(">H", data[3:5])[0] != 1:
        return 12, None
    year, level = struct.unpack(">HB", data[5:8])
    edition = picked(editions, year)
    if edition is None:
        return 1, None
    if not 1 <= level <= 7:
        return 2, None
    text = "".join(f"{byte:08b}" for byte in data[8:])
    chosen = [(i // 96 + 1, i % 96) for i, bit in enumerate(text) if bit == "1"]
    return (12, None) if fullest(chosen) > edition.limit else (0, (year, level, chosen))


def writing(year, level, chosen, room, editions=TODAYS):
    """The record and its lines."""
    record = b"W" + struct.pack(">HBBH", year, level, room, len(chosen)) + b"".join(bytes((s - 1, q)) for s, q in chosen)
    number = write_answer(year, level, chosen, room, editions)
    lent = bytes([FILL] * ROOM)
    after = sheet_bytes(year, level, chosen) + lent[56:] if number == 0 else lent
    return record, [f"W {number} {after.hex()}"]


def reading(data, editions=TODAYS):
    number, meaning = read_sheet(data, editions)
    # beside a refusal stands one fixed sheet: year 0, level 0, no window
    year, level, chosen = meaning or (0, 0, [])
    line = f"R {number} {year} {level}" + "".join(f" {s}:{q}" for s, q in sorted(chosen))
    return b"R" + bytes([len(data)]) + data, [line]


EVERYTHING = [(s, q) for s in SEASONS for q in range(96)]
EXAMPLE = sheet_bytes(2025, 5, [(1, 72)])
# case 12
assert EXAMPLE.hex() == "484c5a000107e905" + "00" * 9 + "80" + "00" * 38


def quarters():
    """Sheets by their quarters, written and read."""
    rng = random.Random(56)
    # every single-quarter sheet, written and read back
    for one in EVERYTHING:
        yield writing(2025, 5, [one], 60)
        yield reading(sheet_bytes(2025, 5, [one]))
    # random sheets, the empty one, the fullest legal ones, and one quarter more in each season
    for n in range(60):
        chosen = [c for s in SEASONS for c in rng.sample([(s, q) for q in range(96)], rng.randint(0, 40))]
        yield writing(rng.randint(2014, 2028), rng.randint(1, 7), chosen, rng.randint(56, 64))
        yield reading(sheet_bytes(rng.randint(2014, 2028), rng.randint(1, 7), chosen))
    forty = [(s, q) for s in SEASONS for q in range(40)]
    for chosen in ([], forty):
        yield writing(2014, 1, chosen, 56)
        yield reading(sheet_bytes(2028, 7, chosen))
    for s in SEASONS:
        yield writing(2025, 5, forty + [(s, 95)], 64)
        yield reading(sheet_bytes(2025, 5, forty + [(s, 95)]))
    yield writing(2025, 5, EVERYTHING, 64)
    yield reading(sheet_bytes(2025, 5, EVERYTHING))


def rooms_and_order():
    """Every room, and what comes first where several things are wrong."""
    for room in range(65):
        yield writing(2025, 5, [(1, 72)], room)
    for year in (0, 2013, 2014, 2028, 2029, 65535):
        for level in (0, 1, 7, 8, 255):
            for chosen in ([(4, 95)], EVERYTHING):
                for room in (55, 56):
                    yield writing(year, level, chosen, room)
            yield reading(sheet_bytes(year, level, EVERYTHING))


def damaged():
    """Every length, and damage at every byte."""
    for n in range(61):
        yield reading((EXAMPLE + bytes(5))[:n])
    for i in range(56):
        for other in (EXAMPLE[i] ^ 1, EXAMPLE[i] ^ 128, (EXAMPLE[i] + 1) % 256, 0, 255):
            yield reading(EXAMPLE[:i] + bytes([other]) + EXAMPLE[i + 1:])
    # a sheet with 40 set quarters in a season, and one more at each of the season's bytes
    full = sheet_bytes(2025, 5, [(2, q) for q in range(40)])
    for i in range(56):
        yield reading(full[:i] + bytes([full[i] | 1]) + full[i + 1:])


KINDS = (quarters, rooms_and_order, damaged)


def records():
    return {kind.__name__: list(kind()) for kind in KINDS}
