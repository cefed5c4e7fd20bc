"""The ruling's numbers, and lists of editions, by Rules 2.1 and 2.7 (docs/RULES.md): shared by the scripts that make
expectations.

It knows nothing of the code under test. Whether a record holds for a year, and whether two records overlap, is worked
out in two ways that are held against each other: by the ends and by the years one by one. The rest is said once, and
held to what the scripts beside it say by hand. A list is what a list of editions holds: a count, and eight places, so
that one that no loading made can be told, too. Without one the scripts go by today's list.
"""
import collections
import struct

Edition = collections.namedtuple("Edition", "first last line limit shares move floor reduction hours")
EVER = range(2014, 2061)  # the years that an edition may hold for
PLACES = 8

TODAY = Edition(2014, 2028, 95, 40, (5, 10, 10, 20, 20, 30, 30), 100_000, 20, 50_000, 2_500)
# the made-up edition of most cases: every number is another one
SECOND = Edition(2031, 2040, 90, 32, (5, 10, 10, 20, 25, 30, 30), 200_000, 25, 100_000, 3_000)
BLANK = Edition(0, 0, 0, 0, (0,) * 7, 0, 0, 0, 0)  # what stands for the edition of a year that has none


class Listed(collections.namedtuple("Listed", "count records")):
    def held(self):
        """The records that count: no more than there are places, whatever the count says."""
        return self.records[:self.count]


NONE = Listed(0, (BLANK,) * PLACES)
TODAYS = Listed(1, (TODAY,) + (BLANK,) * (PLACES - 1))


# The edition of a year

def has(edition, year):
    inside = 2014 <= year <= 2060 and edition.first <= year <= edition.last
    assert inside == (year in set(EVER) & set(range(edition.first, edition.last + 1)))
    return inside


def picked(editions, year):
    """The first record that holds for the year, or None."""
    return next((edition for edition in editions.held() if has(edition, year)), None)


# Loading

def in_ranges(e):
    shares = all(0 <= share <= 100 for share in (e.line, e.floor, *e.shares))
    numbers = 1 <= e.limit <= 96 and e.move <= 1_000_000_000 and e.reduction <= 1_000_000 and e.hours <= 8_784
    return 2014 <= e.first <= e.last <= 2060 and shares and numbers


def meet(a, b):
    """Each begins no later than the other ends; where neither ends before it begins, they share a year."""
    by_ends = a.first <= b.last and b.first <= a.last
    in_order = a.first <= a.last and b.first <= b.last
    assert not in_order or by_ends == any(b.first <= year <= b.last for year in range(a.first, a.last + 1))
    return by_ends


def loading(editions, edition):
    """The number, and the list then."""
    if editions.count >= PLACES or not in_ranges(edition) or any(meet(edition, other) for other in editions.held()):
        return 22, editions
    at = editions.count
    return 0, Listed(at + 1, editions.records[:at] + (edition,) + editions.records[at + 1:])


def loaded(*records):
    """The list that these make, one after the other; all are taken."""
    editions = NONE
    for edition in records:
        number, editions = loading(editions, edition)
        assert number == 0, edition
    return editions


TO_2060 = (TODAY, TODAY._replace(first=2029, last=2044), TODAY._replace(first=2045, last=2060))


# Records of crates/cases, and the editions before a file of crates/file_cases

def numbers_of(e):
    """All numbers of a record, one after the other."""
    return e.first, e.last, e.line, e.limit, *e.shares, e.move, e.floor, e.reduction, e.hours


def edition_bytes(e):
    return struct.pack(">HHBB7BIBIH", *numbers_of(e))


def year_line(e):
    """What is printed of the record that a year has."""
    return " ".join(map(str, ("Y", *numbers_of(e))))


def step(editions, operation, *words):
    """An operation's bytes and line, and the list then."""
    data = b"E" + operation.encode()
    if operation in "NT":
        after = NONE if operation == "N" else TODAYS
        return data, f"{operation} {after.count}", after
    if operation == "I":
        number, after = loading(editions, *words)
        return data + edition_bytes(*words), f"I {number} {after.count}", after
    if operation == "Y":
        return data + struct.pack(">H", *words), year_line(picked(editions, *words) or BLANK), editions
    count, place, edition = words
    records = editions.records[:place] + (edition,) + editions.records[place + 1:]
    return data + bytes([count, place]) + edition_bytes(edition), f"F {count}", Listed(count, records)


def all_steps(operations, editions=TODAYS):
    """The records of operations in a row, and the list after them."""
    records = []
    for operation in operations:
        data, line, editions = step(editions, *operation)
        records.append((data, [line]))
    return records, editions


def loads(*records):
    """The operations that load these into a list without a record."""
    return [("N",), *(("I", edition) for edition in records)]


TWO = loads(TODAY, SECOND)


def under(operations, records_of):
    """Operations, then the records that a call makes for the list they leave; then today's list again."""
    before, editions = all_steps(operations)
    after, _ = all_steps([("T",)])
    return before + list(records_of(editions)) + after
