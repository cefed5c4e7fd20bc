"""Headers of grid files and customer files as their fields, in order: name to bytes, by Rules 10.2 and 10.3
(docs/RULES.md). Shared by the scripts that make files.
"""
import struct

from dates import SEASONS
from year import USUAL


def two(number):
    return struct.pack(">H", number)


def four(number):
    return struct.pack(">I", number)


def season(bits):
    """The 12 bytes of a season; quarter 0 is their highest bit."""
    return bits.to_bytes(12, "big")


def grid_head(**changes):
    return {"mark": b"GRD", "version": two(1), "year": two(2025), "level": b"\5"} | changes


def customer_head(holidays=(), **changes):
    head = {"mark": b"CUS", "version": two(1), "sheet_mark": b"HLZ", "sheet_version": two(1), "year": two(2025), "level": b"\5"}
    head |= {f"season{s}": season(0xFF << 8 * s) for s in SEASONS}
    head |= {"option": b"\0", "count": bytes([len(holidays)])}
    head |= {f"holiday{k}": two(day) for k, day in enumerate(holidays, 1)}
    head |= {name: four(price) for name, price in zip(("low_capacity", "low_energy", "high_capacity", "high_energy"), USUAL)}
    assert set(changes) <= set(head)
    return head | changes


def joined(head):
    return b"".join(head.values())


def up_to(head, name):
    """The header up to a field, with it."""
    names = list(head)
    return b"".join(head[key] for key in names[:names.index(name) + 1])
