#!/usr/bin/env python3
"""Spells the definitions and lemmas of crates/ in snake case: `dayTaken` and `day-taken` become `day_taken`.

usage: tools/snake_names.py [--list]          at the top of the repository, once, right after port.py

A name is turned if a file of specs/ or proofs/ declares it: a definition, a lemma, a field, a case. It turns in specs/, proofs/, in the
clauses, imports and comments of src/, and between backticks in README.md and docs/. A name that a file brings in from the library stays as it is there, and so do
the names that Rattle makes for proofs. Of two names that would fall together the definition keeps it, and the other, a law, ends in `_law`. --list writes nothing: it says
where a new name meets another word of its file ('meets:') and which words behind a dot are like one of the names ('dot:').
"""
import collections
import glob
import os
import re
import sys

WORD = r"[^\s(){}.;,@\"«»`]+"
DECLARED = re.compile(
    r"^(\s*)(?:(?:unfoldable|abbrev|pub|record|data|irreducible)\s+)*(" + WORD + r")"
    r"(?:\s+(?:\{[^{}\n]*\}|\([^()\n]*\)))*\s+:(?:\s|$)", re.M)
USE = re.compile(r"\buse ([^\s;{]+)\.\{([^}]*)\}")
OWN_PATH = re.compile(r"Rattle\.(?!std\b)\w+\.(?:specs|proofs)\.")
# what Rattle makes for a function's proof, and what a proof file calls its answers to it
MADE = re.compile(r"(returns|loop|search)(-.*)?$|(invariant|decreases)-.*|.*-(requires|spec)(-\d+)?$")

def snake(name):
    words = re.sub(r"(?<=[a-z0-9])[A-Z]", lambda m: "_" + m[0].lower(), name)
    return words.replace("-", "_")


def turns(name):
    return bool(re.fullmatch(r"[a-z][A-Za-z0-9_'-]*", name)) and snake(name) != name


def read(path):
    with open(path, encoding="utf-8") as f:
        return f.read()


def code(text):
    return re.sub(r"--[^\n]*", "", text)


def of_function(path):
    return bool(re.search(r"/proofs/.+/(Proof|Answers|Invariants)\.antt$", path))


def declared(path, text):
    found = set()
    lines = code(text)
    for m in DECLARED.finditer(lines):
        name = m[2]
        if of_function(path):
            rest = lines[m.end():].lstrip()
            if rest.startswith("tie.Need") or rest.startswith("tie.invariant") or rest.startswith("tie.decreases") or MADE.fullmatch(name):
                continue
        found.add(name)
    return found



def own_names():
    """Returns the new name of each name that turns, and the fields among all names; stops where two would fall together."""
    files = sorted(glob.glob("crates/*/specs/**/*.antt", recursive=True) + glob.glob("crates/*/proofs/**/*.antt", recursive=True))
    shared, fields = collections.defaultdict(set), set()
    for p in files:
        if of_function(p):
            continue
        text = read(p)
        for n in declared(p, text):
            shared[n].add(p)
        block = False
        for line in code(text).split("\n"):
            if re.match(r"\s*(?:(?:pub|abbrev|unfoldable) )*(record|data) ", line):
                block = True
            elif line and not line.startswith(" "):
                block = False
            elif block and DECLARED.match(line):
                fields.add(DECLARED.match(line)[2])
    together = collections.defaultdict(set)
    for n in shared:
        together[snake(n)].add(n)
    names, bad = {}, []
    for new, olds in together.items():
        # of two that would fall together the definition keeps the name: it is the one with capitals, else the one in snake case
        first = sorted(olds, key=lambda n: (not re.search("[A-Z]", n), "-" in n))[0]
        for n in olds:
            to = new if n == first else new + "_law"
            if n != first and (n in names or len(olds) > 2 and "-" not in n or to in shared):
                bad.append((n, to))
            if to != n and (turns(n) or n != first):
                names[n] = to
    if bad:
        sys.exit(f"fall together: {bad}")
    return names, fields, shared, files


IN_COMMENT = re.compile(r"--[^\n]*|//[^\n]*")


def turn(text, names, skip, behind_dot):
    """Turns the words of a text that are names; in a comment those with a hyphen or none of their own spelling only between backticks."""
    def word(m):
        w = m[0]
        if w in skip or w not in names:
            return w
        if m.start() and m.string[m.start() - 1] == "." and not behind_dot(w, m):
            return w
        return names[w]
    one = re.compile(WORD)
    out, at = [], 0
    for c in IN_COMMENT.finditer(text):
        out.append(one.sub(word, text[at:c.start()]))
        out.append(turn_prose(c[0], names, skip))
        at = c.end()
    out.append(one.sub(word, text[at:]))
    return "".join(out)


def turn_prose(text, names, skip=()):
    """Between backticks each name turns; elsewhere only one with a capital inside, which is no English word."""
    def plain(m):
        w = m[0]
        return names[w] if w in names and w not in skip and re.match(r"[a-z][a-z0-9]*[A-Z]", w) else w
    def span(m):
        return re.sub(r"[A-Za-z0-9_'-]+", lambda k: names.get(k[0], k[0]) if k[0] not in skip else k[0], m[0])
    parts = re.split(r"(`[^`\n]*`)", text)
    return "".join(span(re.match(r"(?s).*", x)) if x.startswith("`") else re.sub(r"[A-Za-z0-9_]+", plain, x) for x in parts)


def from_library(text):
    found = set()
    for path, items in USE.findall(text):
        if not OWN_PATH.match(path):
            for it in items.split(","):
                found.update(it.split(" as ")[-1].split())
    return found


def main():
    names, fields, shared, files = own_names()
    said = []
    for p in files + sorted(glob.glob("crates/*/src/**/*.rt", recursive=True)):
        text = read(p)
        skip = from_library(text)
        here = dict(names)
        if of_function(p):
            for n in declared(p, text):
                if turns(n) and n not in here:
                    here[n] = snake(n)
        made = set(re.findall(r"tie\.(?:[A-Z]\w*-)?([^\s(){}.;,]+)", text)) if of_function(p) else set()
        def behind_dot(w, m, p=p, made=made):
            if not of_function(p):
                return True
            said.append(f"dot: {p}: .{w}" + ("" if w in fields else "  (no field)"))
            return w in fields
        before = set(re.findall(WORD, code(text)))
        new = turn(text, here, skip, behind_dot)
        used = {here[w] for w in before if w in here and w not in skip}
        for w in sorted(used & before):
            said.append(f"meets: {p}: {w} (from {[o for o in before if here.get(o) == w]})")
        if new != text and "--list" not in sys.argv:
            with open(p, "w", encoding="utf-8") as f:
                f.write(new)
    for p in ["README.md"] + sorted(glob.glob("docs/*.md")):
        text = read(p)
        new = turn_prose(text, names)
        if new != text and "--list" not in sys.argv:
            with open(p, "w", encoding="utf-8") as f:
                f.write(new)
    print("\n".join(sorted(set(said))))
    print(len(names), "names")


main()
