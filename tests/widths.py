#!/usr/bin/env python3
"""Whether code and proofs have the widths of docs/DECISIONS.md, The rooms: comments at most 120 characters, other lines
at most 160, imports aside; and whether a proof that walks more than five steps back names its stops.

Run at the project's root: tests/widths.py prints each place that breaks this and exits with 1, or says that there is
none.
"""
import pathlib
import re
import sys

COMMENT, LINE, STEPS = 120, 160, 5
WALK = re.compile(r"(?:\.before){%d,}" % (STEPS + 1))
# the one line that rt fmt would lay out as a staircase
STAIRCASE = "crates/demands/proofs/Cases.antt", "    (refl, (refl, "


def faults(line):
    text = line.strip()
    comment = text.startswith(("//", "--"))
    if not text.startswith(("use ", "ghost use ")) and len(line) > (COMMENT if comment else LINE):
        yield f"{len(line)} characters"
    if WALK.search(line):
        yield f"more than {STEPS} steps without a stop"


def places():
    for path in sorted(path for kind in ("rt", "antt") for path in pathlib.Path("crates").rglob(f"*.{kind}") if "out" not in path.parts):
        for number, line in enumerate(path.read_text().splitlines(), 1):
            if str(path) != STAIRCASE[0] or not line.startswith(STAIRCASE[1]):
                yield from (f"{path}:{number}: {fault}" for fault in faults(line))


found = list(places())
print("\n".join(found) or "0 places")
sys.exit(1 if found else 0)
