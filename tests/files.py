"""The history file, written from the specification alone: its bytes, and what a reader makes of bytes.

A record is (site, (epoch, ((site, count), ..)), ((kind, item, value), ..)). Places are a table, entry k the place of site k; a number past it is its own place. A base has
a value for each item; it is written where a collect has removed a record (`folded`), and else all 0. Answers are tuples, the number first, 0 or empty behind it where
refused.
"""
import collections

from limits import ITEMS, OPERATIONS, RECORDS, SITES

MARK = bytes.fromhex("53454154")
TRAILER = 16
NO_RECORD = (0, (0, ()), ())
NUMBERS = tuple(range(SITES))
NO_PLACES = (0,) * SITES
TABLE, BASE = 1, 2  # the flags that say that a table of places leads the file, and that the base values stand behind it


# ---- places
def rank(places, site):
    """A site's place by a table."""
    return places[site] if site < len(places) else site


def made_by(places, site, stamp):
    """Whether the places of a timestamp's sites rise and it ends with the site that made it."""
    sites = [s for s, _ in stamp[1]]
    ranks = [rank(places, s) for s in sites]
    return sites[-1:] == [site] and all(x < y for x, y in zip(ranks, ranks[1:]))


# ---- writing
def little(n):
    return n.to_bytes(4, "little")


def value_bytes(value):
    return value.to_bytes(4, "little", signed=True)


def record_bytes(record):
    site, (epoch, tuples), ops = record
    out = bytes([site, len(tuples), len(ops), 0]) + little(epoch)
    for s, count in tuples:
        out += bytes([s, 0, 0, 0]) + little(count)
    for kind, item, value in ops:
        out += bytes([kind, item, 0, 0]) + value_bytes(value)
    return out


def trailer(count, distance, sites, items, flag):
    return MARK + little(count) + little(distance) + bytes([sites, items, flag, 0])


def file_bytes(sites, items, history, places, folded, base):
    """The table of places leads the file exactly where places and numbers differ, and the base values stand before the records exactly where some were removed; the
    distance counts both.
    """
    table = bytes(places[:sites])
    moved = table != bytes(range(sites))
    lead = (table if moved else b"") + (b"".join(map(value_bytes, base)) if folded else b"")
    inside = lead + b"".join(map(record_bytes, history))
    flag = (TABLE if moved else 0) + (BASE if folded else 0)
    return inside + trailer(len(history), len(inside) + TRAILER, sites, items, flag)


# ---- reading
def number_at(b, at):
    return int.from_bytes(b[at : at + 4], "little")


def value_at(b, at):
    return int.from_bytes(b[at : at + 4], "little", signed=True)


def record_at(part, at, sites, items, places):
    """The record that starts at a byte and where the next one starts, or None where no valid one does."""
    head = part[at : at + 8]
    if len(head) < 8 or head[3]:
        return None
    site, tuple_count, op_count = head[:3]
    end = at + 8 + 8 * (tuple_count + op_count)
    if end > len(part) or tuple_count > SITES or not 1 <= op_count <= OPERATIONS or site >= sites:
        return None
    tuples, ops = [], []
    for i in range(tuple_count):
        a = at + 8 + 8 * i
        if any(part[a + 1 : a + 4]):
            return None
        tuples.append((part[a], number_at(part, a + 4)))
    for i in range(op_count):
        a = at + 8 + 8 * (tuple_count + i)
        if any(part[a + 2 : a + 4]) or part[a] > 1 or part[a + 1] >= items:
            return None
        ops.append((part[a], part[a + 1], value_at(part, a + 4)))
    stamp = (number_at(part, at + 4), tuple(tuples))
    return ((site, stamp, tuple(ops)), end) if made_by(places, site, stamp) else None


Examined = collections.namedtuple("Examined", "number start sites items places folded base found")
Read = collections.namedtuple("Read", "number start length records sites items places folded base")


def lead_size(flag, sites, items):
    """How many bytes stand before the records."""
    return (sites if flag & TABLE else 0) + (4 * items if flag & BASE else 0)


def examined(b):
    """The number, where the part starts, the sites, the items, the eight places, the base, and the records with where the next one starts."""
    refused = lambda number: Examined(number, 0, 0, 0, NO_PLACES, False, (), [])
    if len(b) < TRAILER or b[-16:-12] != MARK:
        return refused(21)
    distance = number_at(b, len(b) - 8)
    if not TRAILER <= distance <= len(b):
        return refused(22)
    count, sites, items, flag = number_at(b, len(b) - 12), b[-4], b[-3], b[-2]
    if not 1 <= sites <= SITES or not 1 <= items <= ITEMS or flag > TABLE + BASE or b[-1] or count > RECORDS:
        return refused(23)
    if distance < lead_size(flag, sites, items) + TRAILER:
        return refused(23)
    at, places, base = len(b) - distance, NUMBERS, (0,) * items
    if flag & TABLE:
        places = tuple(b[at : at + sites]) + NUMBERS[sites:]
        at += sites
        if sorted(places) != list(NUMBERS) or places == NUMBERS:
            return refused(23)
    if flag & BASE:
        base = tuple(value_at(b, at + 4 * x) for x in range(items))
        at += 4 * items
    part = b[at : len(b) - TRAILER]
    found, end = [], 0
    for _ in range(count):
        one = record_at(part, end, sites, items, places)
        if one is None:
            return refused(23)
        found.append(one)
        end = one[1]
    if end != len(part):
        return refused(23)
    return Examined(0, at, sites, items, places, flag & BASE != 0, base, found)


def read(b):
    """The number, where the part starts and how long it is, how many records, sites and items, the eight places, whether records were removed, and the base values."""
    seen = examined(b)
    length = 0 if seen.number else len(b) - TRAILER - seen.start
    return Read(seen.number, seen.start, length, len(seen.found), seen.sites, seen.items, seen.places, seen.folded, seen.base)


def part(b):
    """The part from the first record to the trailer; empty where the file is refused."""
    seen = read(b)
    return b[seen.start : seen.start + seen.length]


def records(b):
    """All records of a file, and none of a refused one."""
    return [record for record, _ in examined(b).found]


def found_at(b, k):
    """The number, and a record with where the next one starts."""
    seen = examined(b)
    if seen.number:
        return seen.number, None
    return (0, seen.found[k]) if k < len(seen.found) else (24, None)


def record(b, k):
    """The number, and a record's site, timestamp and operations."""
    number, found = found_at(b, k)
    return (number,) + (found[0] if found else NO_RECORD)


def starting_at(inside, at, sites, items, places):
    """The number, and the record that starts at a byte of a part with where the next one starts."""
    if at >= len(inside):
        return 24, None
    found = record_at(inside, at, sites, items, places)
    return (0, found) if found else (23, None)
