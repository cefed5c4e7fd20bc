#!/usr/bin/env python3
"""The table of counts in docs/PROOF.md: for each crate its functions, lines of code, specs, laws and function proofs,
and must-fail edits.

Run at the project's root:  tests/counts.py          prints the table
                            tests/counts.py --check  says whether docs/PROOF.md has it as it is now

A line is one that is neither blank nor a comment. A law is what stands right in proofs/; a function's own proof files
stand in a folder there.
"""
import pathlib
import re
import sys

HEAD = "| crate | functions | code | specs | laws | function proofs | edits |\n|---|---|---|---|---|---|---|\n"


def lines(files):
    texts = (path.read_text().splitlines() for path in files)
    return sum(1 for text in texts for line in text if line.strip() and not line.strip().startswith(("//", "--")))


def counts(crate):
    code = sorted(crate.glob("src/**/*.rt"))
    proofs = [path for path in crate.glob("proofs/**/*.antt")]
    own = [path for path in proofs if path.parent.name != "proofs"]
    laws = [path for path in proofs if path.parent.name == "proofs"]
    functions = sum(len(re.findall(r'(?m)^\s*(?:pub(?:\(crate\))? )?(?:extern "C" )?fn ', path.read_text())) for path in code)
    return functions, lines(code), lines(crate.glob("specs/**/*.antt")), lines(laws), lines(own), len(list(crate.glob("must-fail/*.edit")))


def table():
    listed = (line.split("#")[0] for line in pathlib.Path("crates.txt").read_text().splitlines())
    names = [line.split(":")[0].split()[0] for line in listed if ":" in line]
    rows = [(f"`{name}`", *counts(pathlib.Path("crates") / name)) for name in names]
    total = ("all", *(sum(row[k] for row in rows) for k in range(1, 7)))
    return HEAD + "".join("| " + " | ".join(f"{x:,}" if isinstance(x, int) else x for x in row) + " |\n" for row in rows + [total])


if sys.argv[1:] == ["--check"]:
    same = table() in pathlib.Path("docs/PROOF.md").read_text()
    print("as it should be" if same else "docs/PROOF.md does not have the table")
    sys.exit(0 if same else 1)
print(table(), end="")
