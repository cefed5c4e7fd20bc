#!/usr/bin/env python3
"""Makes the records that crates/cases reads, and what it must print: the parts that the scripts named below make, one
after the other.

Run at the project's root:  tests/cases.py          writes crates/cases/stdin and stdout, and counts each part's
                                                    records and answers
                            tests/cases.py --check  says whether the two files are what it would write

A part maps the names of its kinds to records, each with its lines. No part knows the code under test. A kind begins and
ends under today's list of editions.
"""
import collections

import calendar_cases
import customer_cases
import customer_refusals
import edition_cases
import edition_figures
import edition_series
import grid_cases
import sheet_cases
import sunday_cases
import tariff_cases
from kept import keep

PARTS = (
    calendar_cases, sheet_cases, grid_cases, tariff_cases, customer_cases, customer_refusals, sunday_cases, edition_cases, edition_figures,
    edition_series,
)
ANSWERS = "WRPOCEJI"  # lines that have an answer's number behind their letter


def answered(records):
    words = (line.split()[:2] for _, lines in records for line in lines)
    return dict(sorted(collections.Counter(" ".join(pair) for pair in words if pair[0] in ANSWERS).items()))


made = {part.__name__: part.records() for part in PARTS}
parts = {name: [one for kind in kinds.values() for one in kind] for name, kinds in made.items()}
records = [one for part in parts.values() for one in part]
for name, part in parts.items():
    print(name, len(part), {kind: len(of_kind) for kind, of_kind in made[name].items()}, answered(part))
keep("crates/cases", {
    "stdin": b"".join(data for data, _ in records),
    "stdout": "".join(line + "\n" for _, lines in records for line in lines).encode(),
})
