#!/usr/bin/env python3
"""The places that docs/DESIGN-PASS.md counts: what in src/ has an older form. Run at the project's root:

    tools/places.py [-v] [POINT..]     the number of places of each point; with -v each place, too

A place is a line, a function or a group of functions that a rule below finds. The rules go by the text alone: they find
more than is to be changed, and the page says of each what became of it.
"""
import collections
import pathlib
import re
import sys

WORDS = set("fn pub let mut if else for in while loop match return break continue as use mod impl struct enum const self Self crate "
            "super true false u8 u16 u32 u64 usize bool where move ref trait type".split())
TOKEN = re.compile(r"b?\"[^\"]*\"|b'[^']*'|[A-Za-z_]\w*|\d[\d_]*|[^\s\w]")


def files():
    return sorted(path for path in pathlib.Path("crates").rglob("*.rt") if "src" in path.parts and "out" not in path.parts)


def code(path):
    """A file's lines without comments."""
    return [re.sub(r"//.*", "", line) for line in path.read_text().splitlines()]


def functions():
    """Each function: its place, its name, head (parameters and result), clauses and body."""
    for path in files():
        lines = code(path)
        at = 0
        while at < len(lines):
            found = re.match(r"\s*(?:pub(?:\(crate\))? )?(?:unsafe )?(?:extern \"C\" )?fn (\w+)", lines[at])
            if not found:
                at += 1
                continue
            indent = len(lines[at]) - len(lines[at].lstrip())
            end = at
            while end + 1 < len(lines) and not re.match(r" {%d}}\s*$" % indent, lines[end]) and not (end == at and lines[at].rstrip().endswith("}")):
                end += 1
            text = "\n".join(lines[at:end + 1])
            start = re.search(r"^ {%d}\{\s*$|\{\s*$" % indent, text, re.M)
            clause = re.search(r"^\s*(requires|ensures)\b", text, re.M)
            if clause:
                start = re.search(r"^ {%d}\{\s*$" % indent, text, re.M)
            cut = start.start() if start else len(text)
            head = text[:clause.start() if clause else cut]
            yield f"{path}:{at + 1}", found[1], head, text[len(head):cut], text[cut:]
            at = end + 1


def matching(*rules):
    for path in files():
        for number, line in enumerate(path.read_text().splitlines(), 1):
            if any(re.search(rule, line) for rule in rules):
                yield f"{path}:{number}: {line.strip()}"


def one():
    """Enums, an answer or a yes beside a value, numbers that refuse, and values that say that there is none."""
    yield from matching(r"^(pub )?enum ", r"^    pub (answer|any): ", r"^pub const NO_", r"Refused\(u8\)", r"fn (number_if|refusal|\w+_no)\b",
                        r"^// .*(0 where |; 0 (for|before|where)|or how many readings there are where none|length where (none|it)|Day 0 )")


def shape(body):
    kinds = []
    for token in TOKEN.findall(body):
        if token in WORDS or not re.match(r"\w|b[\"']", token):
            kinds.append(token)
        elif re.match(r"\d|b[\"']", token):
            kinds.append("#")
        else:
            kinds.append("x")
    return " ".join(kinds)


def two():
    """Functions with one shape: the same but for names, numbers and types. Bodies of fewer than 12 words are left out."""
    groups = collections.defaultdict(list)
    for place, name, head, _, body in functions():
        if len(TOKEN.findall(body)) >= 12:
            groups[shape(body)].append(f"{place} {name}")
    for group in groups.values():
        if len(group) > 1:
            yield " = ".join(group)


def three():
    """Loops over a range, and loops with a condition."""
    yield from matching(r"^\s*('\w+: )?for \w+ in [^ ]*[\w)]\.\.", r"^\s*while ")


def four():
    """Conversions by `as`, the smaller or larger of two by hand, and matches from an enum to a yes, a number or a letter."""
    yield from matching(r"^\s+\w+ as \w+$", r"^\s+if (\w+) < (\w+) \{ (\1|\2) \} else \{ (\1|\2) \}", r"^\s+\w+::\w+(\([a-z]+\))? => (true|false|\d+|b'.'|\w+::\w+),",
                        r"\bfn (is|as)_[a-z]+\(")


def five():
    """Functions of five parameters or more, and facts that three contracts or more require."""
    facts = collections.defaultdict(list)
    for place, name, head, clauses, _ in functions():
        inside = head[head.find("(") + 1:head.rfind(")")]
        count = len(re.findall(r"\b\w+: ", inside)) + len(re.findall(r"\bself\b", inside))
        if count >= 5:
            yield f"{place} {name}: {count} parameters"
        for requires in re.findall(r"requires \{(.*?)\}\s*(?=ensures|requires|$)", clauses, re.S):
            for fact in re.split(r" × |\n", requires):
                fact = fact.strip(" ×()")
                if fact:
                    facts[fact].append(f"{place} {name}")
    for fact, places in facts.items():
        if len(places) >= 3:
            yield f"required {len(places)} times: {fact}"


def six():
    """A length beside an array, and arrays of one length beside one another."""
    text = {path: path.read_text() for path in files()}
    for path, whole in text.items():
        for found in re.finditer(r"struct (\w+)[^{]*\{([^}]*)\}", whole):
            if re.search(r"\b(count|field|at|len): (u|usize)", found[2]) and re.search(r": \[", found[2]):
                yield f"{path}: struct {found[1]}"
        sizes = collections.Counter(re.findall(r"^const \w+: \[\w+; (\w+)\]", whole, re.M))
        for size, count in sizes.items():
            if count > 1:
                yield f"{path}: {count} arrays of {size}"
    yield from matching(r"buf: &mut \[u8\], at: usize")


def seven():
    """Steps that are chosen by a number or a letter."""
    yield from matching(r"^\s*if (k|weekday) (<|==) \d+ \{", r"^\s*match (line|kind|operation) \{")


def eight():
    """Lines of the functions' proofs."""
    for path in sorted(pathlib.Path("crates").rglob("*.antt")):
        if path.name in ("Answers.antt", "Invariants.antt") and "out" not in path.parts:
            for number, line in enumerate(path.read_text().splitlines(), 1):
                yield f"{path}:{number}"


def main():
    points = {"1": one, "2": two, "3": three, "4": four, "5": five, "6": six, "7": seven, "8": eight}
    words = [word for word in sys.argv[1:] if word != "-v"]
    for point in words or points:
        places = list(points[point]())
        print(f"{point}. {len(places):5}  {points[point].__doc__}")
        if "-v" in sys.argv:
            for place in places:
                print(f"    {place}")


if __name__ == "__main__":
    main()
