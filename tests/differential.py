#!/usr/bin/env python3
"""Plays random lists of calls on the compiled library, through the Python module, and on the model, and compares them call by call.

    differential.py SECONDS [SEED]      runs of rising seeds for so many seconds, from SEED or one that is new each time
    differential.py cases               the same runs each time; they must reach every number and every case that calls have to show
    differential.py play FILE           the calls of a file, one to a line as a failure prints them

Compared are: every field of every answer; every byte of the struct or buffer that was lent for it, unused places too; after a call that was refused or only looks, every
word of the state; after the others, what the words mean; after a round, every word with what its calls leave when they are made one by one. Where calls alone led from a
set-up to the state, an origin must also have the value read, every commit must be applied at all its copies after a round, and all that was seen must be what the book of the
calls and the one-copy run have (book.py). The first difference is printed with its seed and a list of calls that is as short as could be
found; the exit status is then 1. The module is taken from target/gevrolen, where bindings/build puts it, or from GEVROLEN_FOLDER.
"""
import array
import ast
import collections
import copy
import ctypes
import os
import pathlib
import sys
import tempfile
import time

import book
import chosen
import files
import layout
import model

ROOT = pathlib.Path(__file__).resolve().parent.parent
sys.path.insert(0, os.environ.get("GEVROLEN_FOLDER", str(ROOT / "target" / "gevrolen")))
import gevrolen  # noqa: E402

SHRINKING = 30  # seconds
CASES = range(400)  # the seeds of the runs that must reach every case
UNREACHED = "the runs do not reach: "
# what has cases that the runs must show
SHOWN = ("set_up", "read", "schedule", "collect", "round", "base", "book", "origin", "waiting", "file", "record_from", "compare", "compare_lent")
LOOKS = {"waiting", "table", "stamp", "line", "places", "base", "origin", "export", "read", "record", "records", "record_from", "compare", "compare_lent"}
UNNUMBERED = {"script", "run", "records", "compare", "compare_lent"}  # answers that do not start with a number
POISON = 0xEE
GUARD = bytes([POISON]) * 64


# ---- what is lent to the library: full of poison, and looked at afterwards
class Lent:
    struct = None
    base = None
    buffer = None
    places = None


def poisoned(structure, name="struct"):
    class Poisoned(structure):
        def __init__(self, *fields):
            ctypes.memset(ctypes.byref(self), POISON, ctypes.sizeof(self))
            super().__init__(*fields)
            setattr(Lent, name, self)

    return Poisoned


class PoisonedPlaces(gevrolen._Places):
    _type_, _length_ = ctypes.c_uint8, layout.SITES

    def __init__(self, *places):
        if len(places) not in (0, layout.SITES):
            raise ValueError("eight places, or none")
        super().__init__(*places or [POISON] * layout.SITES)
        Lent.places = self


def poisoned_buffer(size):
    Lent.buffer = (ctypes.c_char * (size + len(GUARD))).from_buffer(bytearray([POISON]) * (size + len(GUARD)))
    return Lent.buffer


for answer in ["_Stamp", "_Committed", "_Scheduled", "_Report", "_Table", "_Line", "_Origin", "_File", "_Record", "_Compared"]:
    setattr(gevrolen, answer, poisoned(getattr(gevrolen, answer)))
gevrolen._Base = poisoned(gevrolen._Base, "base")
gevrolen._Places = PoisonedPlaces
gevrolen._buffer = poisoned_buffer
gevrolen._ANSWERS = 1000  # a run of some lines takes several calls then


def padded(numbers, count):
    return list(numbers) + [0] * (count - len(numbers))


def stamp_words(stamp):
    return [stamp[0], len(stamp[1])] + padded([n for one in stamp[1] for n in one], 2 * layout.SITES)


# the words of the struct behind each call's answer, by the fields that the module made of it
STRUCTS = {
    "commit": lambda number, stamp, values: stamp_words(stamp) + [len(values)] + padded(values, layout.OPERATIONS),
    "dummy": lambda number, stamp: stamp_words(stamp),
    "schedule": lambda number, parent, stamp: [parent] + stamp_words(stamp),
    "waiting": lambda number, items: [len(items)] + padded(items, layout.ITEMS),
    "table": lambda number, values: [len(values)] + padded(values, layout.ITEMS),
    "stamp": lambda number, stamp: stamp_words(stamp),
    "line": lambda number, held, arrived: [held, arrived],
    "origin": lambda number, kind, record: [("", "start", "commit", "folded").index(kind), record],
    "compare": lambda order, shared: [1, 0] if shared is None else [0, shared],
    "read": lambda number, *fields: [half for n in fields[:5] for half in (n, n >> 32)],
    "record": lambda number, site, stamp, ops: [site, len(ops)] + stamp_words(stamp) + padded([n for o in ops for n in o], 3 * layout.OPERATIONS),
}
STRUCTS["commit_lists"] = STRUCTS["commit"]


def words_bytes(numbers):
    return array.array("I", [n % 2**32 for n in numbers]).tobytes()


def struct_bytes(name, fields):
    return words_bytes(STRUCTS[name](*fields))


def base_bytes(folded, values):
    return words_bytes([folded, len(values)] + padded(values, layout.ITEMS))


# ---- what set-ups, reads, schedules, collects, rounds, origins, reports, files and comparisons have to show: a plainer rule would answer otherwise
def breadth_first(sites, lines):
    """Another order of sites in which parents come first: of all that are free, lowest number first, then of those that are free by them."""
    placed = []
    while len(placed) < sites:
        placed += [c for c in range(sites) if c not in placed and all(p in placed for p, child in lines if child == c)]
    return placed


def highest_first(sites, lines):
    """Another one: again and again the highest-numbered site whose parents are all placed."""
    placed = []
    while len(placed) < sites:
        placed.append(max(c for c in range(sites) if c not in placed and all(p in placed for p, child in lines if child == c)))
    return placed


def shown_by_set_up(sites, items, primaries, masks, number):
    """How the number of a set-up stands to its lines, and the places that it gives to those of other rules."""
    if number not in (0, 3, 4, 5):
        return {}
    lines = model.lines_of(zip(primaries, masks))
    order = model.site_order(sites, lines)
    places, accepted = model.places_by(order), number == 0
    downward = {(p, c) for p, c in lines if p > c}
    return {
        "5": number == 5,
        "5 for a cycle of two": number == 5 and any((c, p) in lines for p, c in lines),
        "5 for a longer cycle": number == 5 and not any((c, p) in lines for p, c in lines),
        "5 for a cycle beside sites that can be placed": number == 5 and order != [],
        "3 before a cycle": number == 3 and any((c, p) in lines for p, c in lines if p != c),
        "4 before a cycle": number == 4 and any((c, p) in lines for p, c in lines if p != c),
        "a copy below its primary, accepted": accepted and downward != set(),
        "places that are not the numbers": accepted and places != files.NUMBERS,
        "places of all eight sites in reverse or nearly": accepted and sites == 8 and places[0] > 5 and places[7] < 2,
        "a site without lines that has another place": accepted and any(places[k] != k and not any(k in line for line in lines) for k in range(sites)),
        "not the order breadth first": accepted and order != breadth_first(sites, lines),
        "not the highest-numbered first": accepted and downward != set() and order != highest_first(sites, lines),
    }


def shown_by_schedule(heads, places, parent):
    """How the parent of the message taken stands to what other rules would choose, of parents and the timestamps of their oldest messages."""
    first = lambda by: min(heads, key=lambda head: (model.key(by, head[1]), head[0]))[0]
    return {
        "not the one that numbers would choose": parent != first(files.NUMBERS),
        "not the one of the lowest place": parent != min(heads, key=lambda head: places[head[0]])[0],
        "not the one of the highest place": parent != max(heads, key=lambda head: places[head[0]])[0],
        "not the one of the lowest number": parent != min(heads)[0],
        "not the one of the highest number": parent != max(heads)[0],
        "a lower-numbered parent at a higher place": any(p > parent and places[p] < places[parent] for p, _ in heads),
    }


def another(b, table, flag):
    """A file with other bytes for its table, or none, and another flag."""
    start, sites = len(b) - files.number_at(b, len(b) - 8), b[-4]
    inside = table + b[start + (sites if b[-2] & files.TABLE else 0) : len(b) - files.TRAILER]
    return inside + b[-16:-8] + files.little(len(inside) + files.TRAILER) + b[-4:-2] + bytes([flag, b[-1]])


def shown_by_file(b, seen):
    """Why a file was refused by 23, where another table, distance or flag would do; or what stands before its records."""
    if seen.number not in (0, 23):
        return {}
    distance, sites, items, flag = files.number_at(b, len(b) - 8), b[-4], b[-3], b[-2]
    refused, known = seen.number == 23, flag <= files.TABLE + files.BASE
    in_range = 1 <= sites <= files.SITES and 1 <= items <= files.ITEMS
    numbers, rest = bytes(range(sites)), flag & ~files.TABLE
    table = b[len(b) - distance :][:sites] if known and flag & files.TABLE else b""
    good = lambda table, flag: files.read(another(b, table, flag)).number == 0
    orders = [bytes(reversed(numbers)), numbers[:-2] + numbers[:-3:-1]]
    without, ordered = lambda: good(b"", rest), lambda: any(good(one, rest + files.TABLE) for one in orders)
    by_flag = lambda other: files.read(b[:-2] + bytes([other, b[-1]])).number == 0
    short = refused and known and in_range and distance < files.TRAILER + files.lead_size(flag, sites, items)
    refused_table = refused and table != b"" and not short and in_range
    whole = sorted(table) == list(numbers)
    falls = any(x > y for _, (_, tuples), _ in files.records(b) for (x, _), (y, _) in zip(tuples, tuples[1:]))
    return {
        "a table": not refused and table != b"",
        "a table and no records": not refused and table != b"" and seen.length == 0,
        "a table of fewer than eight": not refused and 0 < len(table) < files.SITES,
        "no table": not refused and table == b"",
        "tuples whose numbers fall": not refused and falls,
        "places behind the sites' own": not refused and seen.places[:sites] + files.NUMBERS[sites:] == seen.places != files.NUMBERS and sites < files.SITES,
        "a base": not refused and flag == files.BASE,
        "a base and no records": not refused and seen.folded and seen.length == 0,
        "a base of zeros": not refused and seen.folded and not any(seen.base),
        "a base of one item": not refused and seen.folded and items == 1,
        "a base of 64 items": not refused and seen.folded and items == files.ITEMS,
        "a base behind a table": not refused and seen.folded and table != b"",
        "neither table nor base": not refused and flag == 0,
        "23 for its flag": refused and not known and by_flag(flag & 3),
        "23 for a base that is not announced": refused and known and not seen.folded and by_flag(flag ^ files.BASE),
        "23 for a base that is announced and not there": refused and known and flag & files.BASE and by_flag(flag ^ files.BASE),
        "23 for a distance too small for its table": short and flag == files.TABLE,
        "23 for a distance too small for its base": short and flag == files.BASE,
        "23 for a distance too small for table and base": short and flag == files.TABLE + files.BASE and distance >= files.TRAILER + max(sites, 4 * items),
        "23 for a distance one short of its base": short and flag == files.BASE and distance == files.TRAILER + 4 * items - 1,
        "23 for a table without each place once": refused_table and not whole and (without() or ordered()),
        "23 for a table that equals the numbers": refused_table and table == numbers and without(),
        "23 for tuples whose places do not rise, though their numbers do": refused_table and whole and table != numbers and without(),
        "23 for tuples whose numbers do not rise, without a table": refused and known and not flag & files.TABLE and ordered() and not without(),
    }


def shown_by_record_from(part, at, sites, items, places, number):
    """Whether another table would give another number."""
    by = lambda table: files.starting_at(part, at, sites, items, table)[0]
    return {
        "a record by its table, which the numbers would refuse": number == 0 and by(files.NUMBERS) == 23,
        "23 by its table, though the numbers would not refuse": number == 23 and by(files.NUMBERS) == 0,
        "a record by a table that no order has": number == 0 and sorted(places) != list(files.NUMBERS),
    }


def shown_by_read(table, ops, a):
    """How the value that operation a of a commit gave, a read, stands to the table before the commit and to the commit's writes."""
    _, item, value = ops[a]
    before, behind = model.values_written(item, ops[:a]), model.values_written(item, ops[a:])
    last = [v for kind, _, v in ops[:a] if kind == 1][-1:]
    return {
        "a value written before it, not the table's": before != [] and value != table[item],
        "the table's value, not one written behind it": before == [] and behind != [] and value != behind[-1],
        "a value written before it, not one written behind it": before != [] and behind != [] and value != behind[-1],
        "the latest value written before it, not the first": before != [] and value != before[0],
        "not the value last written before it, to another item": last != [] and value != last[0],
    }


def shown_by_origin(n, k, a, named):
    """How the commit named, or None, stands to operation a of record k, a read, and to the writers of its item."""
    ops = n.history[k][2]
    _, item, read = ops[a]
    wrote = [model.values_written(item, some) for _, _, some in n.history]
    stamps = [stamp for _, stamp, _ in n.history]
    writers = [i for i, values in enumerate(wrote) if values]
    own, other = named == k, named not in (None, k)
    by_numbers = sorted(range(len(stamps)), key=lambda i: model.key(files.NUMBERS, stamps[i]))
    return {
        "the start value": named is None and not n.folded,
        "folded": named is None and n.folded,
        "folded, of a 0 that was read": named is None and n.folded and read == 0,
        "folded, though a later commit writes the item": named is None and n.folded and writers != [],
        "a commit that was kept": other and n.folded,
        "the reader, where others were folded": own and n.folded,
        "not the one that numbers would name": not own and named != ([None] + [i for i in by_numbers[: by_numbers.index(k)] if i in writers])[-1],
        "one made after the reader": other and named > k,
        "not the last made before the reader": not own and named != max((i for i in writers if i < k), default=None),
        "the last made of equal timestamps": other and any(i < named and stamps[i] == stamps[named] for i in writers),
        "one made before the reader with its timestamp": other and named < k and stamps[named] == stamps[k],
        "not one made after the reader with its timestamp": not own and any(i > k and i != named and stamps[i] == stamps[k] for i in writers),
        "a 0 that was written": other and read == 0,
        "another value than was read": other and wrote[named][-1] != read,
        "the reader": own,
        "the reader, though it wrote another value than was read": own and read not in wrote[k],
        "not the reader, which writes the item behind the read": not own and k in writers,
        "not the reader, which writes another item before the read": not own and any(kind == 1 for kind, _, _ in ops[:a]),
        "not the reader, which reads the item before": not own and any(x == item for _, x, _ in ops[:a]),
    }


def shown_by_collect(n):
    """How what a collect is to do to a network stands to what other rules would do."""
    keys = [model.key(n.places, stamp) for _, stamp, _ in n.history]
    sites = [model.key(n.places, stamp) for stamp in n.stamps]
    past, named = n.past(), n.named()
    count = sum(past)
    gone = [k for k in n.rising() if past[k]]
    by = lambda stamps, places: [model.key(places, stamp) <= min(model.key(places, own) for own in stamps) for _, stamp, _ in n.history]
    lively = [n.stamps[i] for i in range(n.sites) if any(n.has(i, x) for x in range(len(n.items)))]
    written = [[item for kind, item, _ in n.history[k][2] if kind == 1] for k in gone]

    def folded(records):
        base = list(n.base)
        for k in records:
            model.write(base, n.history[k][2])
        return base

    def folded_backward():
        base = list(n.base)
        for k in gone:
            model.write(base, n.history[k][2][::-1])
        return base

    left = folded(gone)
    both = list(zip(n.base, left))
    stale = {line: [isinstance(k, int) and past[k] for k in messages] for line, messages in n.held.items()}
    refused = any(map(any, stale.values()))
    some = not refused and count > 0
    return {
        "none removed of some": not refused and count == 0 and past != [],
        "none removed, by which the flag is not set": not refused and count == 0 and not n.folded,
        "none removed, by which the flag stays set": not refused and count == 0 and n.folded,
        "some removed": some and count < len(past),
        "some removed again": some and n.folded,
        "all removed": some and count == len(past),
        "one at the point itself removed": some and min(sites) in keys,
        "not up to the latest site": not refused and past != [own <= max(sites) for own in keys],
        "not by numbers": not refused and past != by(n.stamps, files.NUMBERS),
        "not by the sites with items alone": not refused and lively != [] and past != by(lively, n.places),
        "not the first ones made": some and not all(past[:count]),
        "not in the order made": some and left != folded(sorted(gone)),
        "not the last made first of equal timestamps": some and left != folded(sorted(gone, key=lambda k: (keys[k], -k))),
        "not the first of two writes in a commit": some and left != folded_backward(),
        "a base value that stays": some and any(value != 0 and all(x not in items for items in written) for x, value in enumerate(left)),
        "a base value that is written over": some and any(before not in (0, after) for before, after in both),
        "a flag without a base value": some and not any(left),
        "a message that names a commit by another number": some and any(any(past[:k]) for k in named),
        "a message that names a commit by the same number": some and any(not any(past[:k]) for k in named),
        "a dummy on a line": some and len(named) < sum(map(len, n.held.values())),
        "6": refused,
        "6 for a message that has arrived": any(any(messages[: n.arrived[line]]) for line, messages in stale.items()),
        "6 for messages on the way alone": refused and not any(any(messages[: n.arrived[line]]) for line, messages in stale.items()),
        "6 for one message of many": refused and sum(map(sum, stale.values())) == 1 and len(named) > 1,
        "6, though none is first on its line": refused and not any(messages[0] for messages in stale.values() if messages),
    }


def shown_by_round(n, calls, left, reached):
    """How what a round is to do to a network stands to what other rules would do. `calls` are those that it counts as, none where it is refused; `left` are the messages on each
    line after it; `reached` says whether calls alone led here from a set-up.
    """
    held = [len(messages) for messages in n.held.values()]
    epochs, free = [epoch for epoch, _ in n.stamps], [i for i in range(n.sites) if not n.parents(i)]
    full, counted, last = max(held) >= layout.HELD, [n.own_count(i) == model.U32 for i in range(n.sites)], [epoch == model.U32 for epoch in epochs]
    taken = collections.Counter(call[1] for call in calls if call[0] == "schedule")
    accepted = calls != []
    return {
        "messages on the way": reached and accepted and any(n.arrived[line] < len(messages) for line, messages in n.held.items()),
        "messages that have arrived": reached and accepted and any(n.arrived.values()),
        "commits on the way": reached and accepted and any(isinstance(message, int) for line, messages in n.held.items() for message in messages[n.arrived[line] :]),
        "15 on a line": accepted and max(held) == layout.HELD - 1,
        "a full history": accepted and len(n.history) == layout.RECORDS,
        "several messages taken at one site": reached and any(times > 2 for times in taken.values()),
        "dummies left on a line": reached and accepted and any(left.values()),
        "nothing left on any of some lines": reached and accepted and n.lines != set() and not any(left.values()),
        "sites not in the order of their numbers": accepted and any(p > c for p, c in n.lines),
        "several sites without parents, in several epochs": reached and accepted and len({epochs[i] for i in free}) > 1,
        "not one above the epoch of the first site": reached and accepted and epochs[0] < max(epochs),
        "not one above those of sites without parents": accepted and max(epochs[i] for i in free) < max(epochs),
        "a site without lines": accepted and any(i in free and not n.children(i) for i in range(n.sites)),
        "13": full,
        "13 from a set-up": full and reached,
        "13 before 14 and 16": full and any(counted) and any(last),
        "13 on a line where all have arrived": full and all(n.arrived[line] == layout.HELD for line, messages in n.held.items() if len(messages) == layout.HELD),
        "14": not full and any(counted) and not any(last),
        "14 before 16": not full and any(counted) and any(last),
        "14 at a site without children": not full and all(not n.children(i) for i in range(n.sites) if counted[i]) and any(counted),
        "a count at its largest that is no site's own": accepted and any(count == model.U32 for _, tuples in n.stamps for _, count in tuples[:-1]),
        "16": not full and not any(counted) and any(last),
        "16 from a set-up": not full and not any(counted) and any(last) and reached,
        "16 for a site with parents": not full and not any(counted) and any(last) and not any(last[i] for i in free),
        "one below the largest epoch": accepted and max(epochs) == model.U32 - 1,
    }


def shown_by_base(w, n, number):
    """What stands in the words of the flag and of the base values; n is the network that they hold, well shaped or not."""
    if n is None:
        return {}
    flag, past = w[layout.FOLDED_AT], w[layout.BASE_AT + len(n.items) : layout.WORDS]
    n.folded = True
    return {
        "no flag": number == 0 and flag == 0,
        "a flag": number == 0 and flag == 1,
        "a flag that is another number": number == 0 and flag > 1,
        "a flag without base values": number == 0 and flag != 0 and not any(n.base),
        "a negative value": number == 0 and min(n.base) < 0,
        "words past the items, without a flag": number == 0 and flag == 0 and any(past),
        "6 for a value without a flag": number == 6 and flag == 0 and any(n.base) and model.well_shaped(n),
        "6 for the last value without a flag": number == 6 and flag == 0 and not any(n.base[:-1]) and n.base[-1] != 0 and model.well_shaped(n),
    }


Write = collections.namedtuple("Write", "item parent place arrived record stamp")


def waiting_writes(n, site):
    """Every write of an item with a copy at a site by a message on a line into it, line by line in the order sent."""
    return [
        Write(item, p, k, k < n.arrived[p, site], message, n.message_stamp(message))
        for p in n.parents(site)
        for k, message in enumerate(n.held[p, site])
        for item, _ in n.writes(message)
        if n.items[item][1] >> site & 1
    ]


def items_by(writes, key, choose=min):
    """The items of writes by the least of a key over those of the item, or by the one chosen, then by number."""
    keys = collections.defaultdict(list)
    for write in writes:
        keys[write.item].append(key(write))
    return tuple(sorted(keys, key=lambda item: (choose(keys[item]), item)))


def first_of(writes, key):
    """Of writes with the same key the first."""
    return list({key(write): write for write in reversed(writes)}.values())


def shown_by_waiting(n, site, items):
    """How the order of a report stands to those that other rules would give."""
    writes = waiting_writes(n, site)
    rank = lambda write: model.key(n.places, write.stamp)
    lines = collections.defaultdict(set)
    for write in writes:
        lines[write.item].add(write.parent)
    arrived = {write.item for write in writes if write.arrived}
    written = {item for p in n.parents(site) for message in n.held[p, site] for item, _ in n.writes(message)}
    return {
        "nothing, though there are parents": items == () and n.parents(site) != [],
        "more items than a commit can write": len(items) > layout.OPERATIONS,
        "not the order of numbers": items != tuple(sorted(items)),
        "not that of numbers, nor falling": items not in (tuple(sorted(items)), tuple(sorted(items, reverse=True))),
        "not the order of lines": items != items_by(writes, lambda write: (write.parent, write.place)),
        "not the order of places on the lines": items != items_by(writes, lambda write: (write.place, write.parent)),
        "not the order made": items != items_by(writes, lambda write: write.record),
        "not by the latest writes": items != items_by(writes, rank, max),
        "not by the first writes on the lines": items != items_by(first_of(writes, lambda write: (write.parent, write.item)), rank),
        "not by the first lines": items != items_by([write for write in writes if write.parent == min(lines[write.item])], rank),
        "not by the last lines": items != items_by([write for write in writes if write.parent == max(lines[write.item])], rank),
        "not the arrived ones alone": len(arrived) not in (0, len(items)),
        "not the arrived writes, where an item has one": items != items_by([write for write in writes if write.arrived or write.item not in arrived], rank),
        "not the higher number first of equal timestamps": items != tuple(-item for item in items_by([write._replace(item=-write.item) for write in writes], rank)),
        "not the order made of equal timestamps": items != items_by(writes, lambda write: (rank(write), write.record)),
        "not by epochs alone": items != items_by(writes, lambda write: write.stamp[0]),
        "not without epochs": items != items_by(writes, lambda write: rank(write)[1]),
        "not by the last tuples": items != items_by(writes, lambda write: (write.stamp[0], rank(write)[1][-1])),
        "not by numbers": items != items_by(writes, lambda write: model.key(files.NUMBERS, write.stamp)),
        "not with the lower place earlier": items != items_by(writes, lambda write: (write.stamp[0], [(n.places[site], count) for site, count in write.stamp[1]])),
        "not with a proper prefix later": items != items_by(writes, lambda write: (write.stamp[0], rank(write)[1] + [(1, 0, 0)])),
        "not an item without a copy, which a message writes": any(n.items[item][0] != site for item in written - set(items)),
        "not an item of the site's own, which a message writes": any(n.items[item][0] == site for item in written),
    }


def shown_by_compare(a, b, places, order, shared):
    """How two timestamps stand to each other, and to places, that share so many leading tuples, or None."""
    (_, x), (_, y) = a, b
    n = -1 if shared is None else shared
    both = 0 <= n < min(len(x), len(y))  # whether each has a tuple where they part
    i, j = (x[n][0], y[n][0]) if both else (0, 0)
    sites = both and i != j
    return {
        "another order than by numbers": order != model.compare(a, b, files.NUMBERS).order,
        "another order than by numbers, behind shared tuples": n > 0 and order != model.compare(a, b, files.NUMBERS).order,
        "the same order as by numbers, of other places": sites and places != files.NUMBERS and order == model.compare(a, b, files.NUMBERS).order,
        "two sites at one place": sites and files.rank(places, i) == files.rank(places, j),
        "a number past the table beside one in it": sites and min(i, j) < layout.SITES <= max(i, j),
        "a number past the table at the place of one in it": sites and min(i, j) < layout.SITES <= max(i, j) and files.rank(places, i) == files.rank(places, j),
        "a site of the table at a higher place than a number past it": min(i, j) < layout.SITES <= max(i, j) < files.rank(places, min(i, j)),
        "two numbers past the table": sites and min(i, j) >= layout.SITES,
        "that the epochs differ, of the same tuples": n < 0 and x == y != (),
        "that the epochs differ, of others": n < 0 and x != y,
        "none shared": both and n == 0,
        "some shared": both and n > 0,
        "seven shared of eight": both and n == layout.SITES - 1,
        "the first a proper prefix": 0 < n == len(x) < len(y),
        "the second a proper prefix": 0 < n == len(y) < len(x),
        "no tuples in one": n == 0 and x != y and () in (x, y),
        "equal ones": 0 < n == len(x) == len(y),
        "eight shared": n == layout.SITES,
        "not the same tuples behind others": both and any(p == q for p, q in zip(x[n + 1 :], y[n + 1 :])),
        "not the same site with another count": both and x[n][0] == y[n][0],
        "not the same count of another site": both and x[n][1] == y[n][1],
    }


def shown_by_lent(first, second, shared):
    """What length fields and unused tuples have to do with it, where two structs share so many leading tuples, or None."""
    x, y = [tuple(zip(words[2::2], words[3::2])) for words in (first, second)]
    lengths = sorted([first[1], second[1]])
    unused = shared is not None and lengths[0] == shared < layout.SITES  # whether the tuple behind those shared is, in one of the two at least
    return {
        "eight shared by a length field above eight": shared == layout.SITES < lengths[1],
        "eight shared by two": shared == layout.SITES < lengths[0],
        "a proper prefix of one whose length field is above eight": unused and lengths[1] > layout.SITES,
        "two that part before the end by length fields above eight": shared is not None and shared < layout.SITES < lengths[0],
        "not the same in unused tuples of both": unused and lengths[0] == lengths[1] and x[shared] == y[shared],
        "not others in unused tuples of both": unused and lengths[0] == lengths[1] and x[shared:] != y[shared:],
        "not a tuple that is unused in one": unused and lengths[0] != lengths[1] and x[shared] == y[shared],
        "that the epochs differ": shared is None,
    }


# ---- one state in the library and in the model
class Difference(Exception):
    pass


def expect(what, library, expected):
    if library == expected:
        return
    if isinstance(expected, (bytes, list)) and isinstance(library, type(expected)):
        place = next((k for k, pair in enumerate(zip(library, expected)) if pair[0] != pair[1]), min(len(library), len(expected)))
        what, library, expected = "%s at %d of %d" % (what, place, len(expected)), library[place : place + 40], expected[place : place + 40]
    raise Difference("%s: the library has %.1000r, the model %.1000r" % (what, library, expected))


class Pair:
    def __init__(self):
        self.network = gevrolen.Network()
        self.engine = book.Witnessed()
        self.seen = collections.Counter()  # how many calls of each name had each number
        self.heard = False  # whether the last call was a round, accepted
        self.shown = {what: collections.Counter() for what in SHOWN}  # how many of each showed what

    def words(self):
        return array.array("I", bytes(self.network))

    def load(self, data):
        self.network = gevrolen.Network(data)
        self.engine.take(layout.load(self.words()))

    def play(self, call, thorough=True):
        """Makes a call on both and compares; the meaning of the words after an accepted step only where that is asked for."""
        name, arguments = call[0], call[1:]
        if name == "copy":
            self.network = self.network.copy()
            return
        if name in ("poke", "state", "noise"):
            self.load(getattr(self, name)(*arguments))
            return self.by_the_book()
        before = bytes(self.network)
        answer, expected = getattr(self, name, self.plain)(name, *arguments)
        number = 0 if name in UNNUMBERED else expected[0]
        self.heard = name == "round" and number == 0
        self.seen[name, number] += 1
        expect("answer", answer, expected)
        if name in STRUCTS:
            expect("struct", bytes(Lent.struct), struct_bytes(name, answer))
        if name in LOOKS or number:
            if bytes(self.network) != before:
                raise Difference("words: the call was refused or only looks, and changed some")
        elif thorough:
            self.compare_states()
        self.by_the_book()

    def by_the_book(self):
        if self.engine.wrong:
            raise Difference(self.engine.wrong[0])

    def close(self):
        """At the end of some calls."""
        self.compare_states()
        self.engine.close()
        self.by_the_book()

    def compare_states(self):
        """What the words mean, part by part; of words that are no state nothing is asked."""
        if self.engine.network:
            meant = layout.load(self.words())
            for part, expected in vars(self.engine.network).items():
                expect(part, meant and getattr(meant, part), expected)

    # ---- states made otherwise
    def poke(self, place, word):
        changed = self.words()
        changed[place] = word
        return changed.tobytes()

    def state(self, seed, records, held):
        laid = array.array("I", chosen.noise(seed))
        layout.words(chosen.network(seed, records, held), laid)
        return laid.tobytes()

    def noise(self, seed):
        return chosen.noise(seed)

    # ---- what the library and the model answer
    def plain(self, name, *arguments):
        return tuple(getattr(self.network, name)(*arguments)), getattr(self.engine, name)(*arguments)

    def set_up(self, name, *arguments):
        answer, expected = self.plain(name, *arguments)
        self.shown[name].update(shown_by_set_up(*arguments, expected[0]))
        return answer, expected

    def places(self, name):
        answer, expected = self.plain(name)
        expect("places lent", bytes(Lent.places), bytes(expected[1]))
        return answer, expected

    def schedule(self, name, site):
        n, heads = self.engine.network, []
        if n and site < n.sites:
            heads = [(p, n.message_stamp(n.held[p, site][0])) for p in n.parents(site) if n.arrived[p, site]]
        answer, expected = self.plain(name, site)
        if expected[0] == 0:
            self.shown[name].update(shown_by_schedule(heads, n.places, expected[1]))
        return answer, expected

    def waiting(self, name, site):
        answer, expected = self.plain(name, site)
        if answer == expected and answer[0] == 0:
            self.shown[name].update(shown_by_waiting(self.engine.network, site, answer[1]))
        return answer, expected

    def collect(self, name):
        n = self.engine.network
        shown = shown_by_collect(n) if n else {}
        reached = self.heard and self.engine.book is not None
        left = len(n.history) if n else 0
        answer, expected = self.plain(name)
        if answer == expected:
            self.shown[name].update(shown)
            self.shown[name].update({"all removed straight after a round": reached and answer == (0, left) and left > 0})
        if reached:
            expect("a collect straight after a round", answer, (0, left))
        return answer, expected

    def round(self, name):
        n, reached, other = self.engine.network, self.engine.book is not None, self.network.copy()
        before = copy.deepcopy(n)
        answer, expected = self.plain(name)
        if answer == expected and n:
            self.shown[name].update(shown_by_round(before, self.engine.calls, n.held, reached))
        if answer == expected and answer[0] == 0:
            self.by_its_calls(other)
            if reached:
                self.every_house_heard()
        return answer, expected

    def by_its_calls(self, other):
        """The calls that the round counts as, made one by one on the library's state from before it, leave the same words."""
        for call in self.engine.calls:
            expect("number of %r, which a round counts as" % (call,), getattr(other, call[0])(*call[1:]).number, 0)
        expect("words left by a round, and by its calls", bytes(self.network), bytes(other))

    def every_house_heard(self):
        """What the library's words mean after a round is held against the book, and so is what a collect on a copy of them leaves."""
        self.engine.by_the_round(layout.load(self.words()))
        after = self.network.copy()
        expect("a collect on a copy after a round", tuple(after.collect()), (0, len(self.engine.network.history)))
        meant = layout.load(array.array("I", bytes(after)))
        expect("what it leaves", (meant.history, tuple(meant.base)), ([], self.engine.book.table()))

    def base(self, name):
        answer, expected = self.plain(name)
        expect("struct", bytes(Lent.base), base_bytes(*expected[1:]))
        words = self.words()
        self.shown[name].update(shown_by_base(words, layout.load(words), expected[0]))
        return answer, expected

    def commit(self, name, site, *given):
        n = self.engine.network
        table = list(n.tables[site]) if n and site < n.sites else []
        answer, expected = self.plain(name, site, *given)
        if answer == expected and answer[0] == 0:
            ops = n.history[-1][2]
            for a in [a for a, (kind, _, _) in enumerate(ops) if kind == 0]:
                self.shown["read"].update(shown_by_read(table, ops, a))
        return answer, expected

    commit_lists = commit

    def origin(self, name, k, a):
        answer, expected = self.plain(name, k, a)
        if answer == expected and answer[0] == 0:
            self.trace(k, a, answer[2] if answer[1] == "commit" else None)
        return answer, expected

    def trace(self, k, a, named):
        """Notes what an origin shows. From a set-up on, the last write of the item in the commit named, in the reader's own the last before the read, has the value read;
        where none is named, the base value is it, which is 0 where nothing was folded.
        """
        n = self.engine.network
        ops = n.history[k][2]
        _, item, read = ops[a]
        self.shown["origin"].update(shown_by_origin(n, k, a, named))
        if self.engine.book:
            wrote = [n.base[item]] if named is None else model.values_written(item, ops[:a] if named == k else n.history[named][2])
            expect("value of the origin", wrote[-1:], [read])

    def export(self, name, room):
        answer, expected = self.plain(name, room)
        after = expected[1] + bytes([POISON]) * (max(1, room) - len(expected[1])) + GUARD
        expect("buffer", bytes(Lent.buffer), after)
        return answer, expected

    def script(self, name, text):
        before = bytes(self.network)
        answer = self.network.script(text)
        self.guarded()
        expected = self.engine.script(text)
        if expected == b"?" or expected.isdigit() and expected != b"0":
            expect("words", bytes(self.network) == before, True)
        return answer, expected

    def run(self, name, text):
        answer = self.network.run(text)
        self.guarded()
        return answer, self.engine.run(text)

    def guarded(self):
        expect("bytes behind the buffer", bytes(Lent.buffer)[-len(GUARD) :], GUARD)

    def read(self, name, data):
        answer, expected = tuple(gevrolen.read(data)), files.read(data)
        expect("places lent", bytes(Lent.places), bytes(expected.places))
        expect("base lent", bytes(Lent.base), base_bytes(expected.folded, expected.base))
        self.shown["file"].update(shown_by_file(data, expected))
        return answer, expected

    def record(self, name, data, k):
        return tuple(gevrolen.record(data, k)), files.record(data, k)

    def records(self, name, data):
        number = files.read(data).number
        try:
            answer = [tuple(one)[1:] for one in gevrolen.records(data)]
        except gevrolen.Refused as refused:
            return refused.number, number
        return answer, number or files.records(data)

    def record_from(self, name, part, at, sites, items, places):
        answer, after, table = gevrolen._Record(), ctypes.c_size_t(POISON), gevrolen._Places(*places)
        number = gevrolen._library.record_from(part, len(part), at, sites, items, ctypes.byref(table), ctypes.byref(answer), ctypes.byref(after))
        told, found = files.starting_at(part, at, sites, items, places)
        record, end = found or (files.NO_RECORD, 0)
        fields = tuple(answer.value(number))
        expect("struct", bytes(answer), struct_bytes("record", fields))
        expect("places lent", tuple(table), tuple(places))
        self.shown[name].update(shown_by_record_from(part, at, sites, items, places, told))
        return fields + (after.value,), (told,) + record + (end,)

    def compare(self, name, a, b, places):
        answer, expected = tuple(gevrolen.compare(a, b, places)), tuple(model.compare(a, b, places))
        self.shown[name].update(shown_by_compare(a, b, places, *expected))
        return answer, expected

    def compare_lent(self, name, first, second, places):
        """Two structs and a table as they are lent, whatever their words; the words of the answer too."""
        structs = [gevrolen._Stamp.from_buffer_copy(array.array("I", words)) for words in (first, second)]
        answer, table = gevrolen._Compared(), gevrolen._Places(*places)
        order = gevrolen._library.compare(*map(ctypes.byref, structs), ctypes.byref(table), ctypes.byref(answer))
        expect("structs compared", [tuple(array.array("I", bytes(one))) for one in structs], [first, second])
        expect("places lent", tuple(table), tuple(places))
        wanted, shared = model.compare(layout.stamp_lent(first), layout.stamp_lent(second), places)
        self.shown[name].update(shown_by_lent(first, second, shared))
        return (order, *array.array("I", bytes(answer))), (wanted, *STRUCTS["compare"](wanted, shared))


def complaint(calls):
    """What a list of calls differs in, in words, or None."""
    pair = Pair()
    for call in calls:
        try:
            pair.play(call)
        except Difference as difference:
            return "%s: %s" % (call[0], difference)
    try:
        pair.close()
    except Difference as difference:
        return "at the end: %s" % difference
    return None


# ---- in a child, so that a library that dies does not take the test with it
def apart(function, *arguments):
    """What a function returns, as text, or how the process died in it."""
    into, out = os.pipe()
    child = os.fork()
    if child == 0:
        os.close(into)
        try:
            told = function(*arguments)
        except BaseException as fault:  # told to the parent in words
            told = "raised %r" % fault
        with os.fdopen(out, "w") as pipe:
            pipe.write(told or "")
        os._exit(0)
    os.close(out)
    with os.fdopen(into) as pipe:
        told = pipe.read()
    status = os.waitpid(child, 0)[1]
    return "the library died of signal %d" % os.WTERMSIG(status) if os.WIFSIGNALED(status) else told


# ---- a short list of calls
def smaller(thing):
    """Things of the same kind that are simpler than a number, a list or a text."""
    if isinstance(thing, bool) or isinstance(thing, str):
        return
    if isinstance(thing, int):
        for other in (0, thing // 2, thing - 1):
            if abs(other) < abs(thing):
                yield other
    elif isinstance(thing, (tuple, list, bytes)):
        size = len(thing) // 2
        while size:
            for at in range(0, len(thing), size):
                yield thing[:at] + thing[at + size :]
            size //= 2
        if not isinstance(thing, bytes):
            for k, part in enumerate(thing):
                for other in smaller(part):
                    yield thing[:k] + type(thing)([other]) + thing[k + 1 :]


def simpler(calls):
    """Lists of calls that are shorter, or have a simpler argument."""
    size = len(calls) // 2
    while size:
        for at in range(0, len(calls), size):
            yield calls[:at] + calls[at + size :]
        size //= 2
    for k, call in enumerate(calls):
        for n, argument in enumerate(call[1:], 1):
            for other in smaller(argument):
                yield calls[:k] + [call[:n] + (other,) + call[n + 1 :]] + calls[k + 1 :]


def shrunk(calls):
    """A list as short as could be found in the time, on which library and model still differ, and in what."""
    until = time.monotonic() + SHRINKING
    told = apart(complaint, calls)
    if not told:
        return calls, None
    better = True
    while better:
        better = False
        for other in simpler(calls):
            if time.monotonic() > until:
                break
            said = apart(complaint, other)
            if said and said.startswith("raised") == told.startswith("raised"):
                calls, told, better = other, said, True
                break
    return calls, told


# ---- runs
def run(seed, pair, journal):
    """The calls of a seed; each is written down before it is made."""
    chooser = chosen.Chooser(seed)
    call = chooser.first()
    while call:
        journal.write(repr(call) + "\n")
        journal.flush()
        pair.play(call, thorough=chooser.rng.random() < 0.1)
        call = chooser.next(pair.engine, pair.words)
    pair.close()


def runs(seeds, path):
    """Runs of some seeds; how many, and the calls and cases of them, or what differs in words. The last run's seed and calls stand in the file."""
    seen, shown, count = collections.Counter(), {what: collections.Counter() for what in SHOWN}, 0
    for seed in seeds:
        pair = Pair()
        with open(path, "w") as journal:
            journal.write("%d\n" % seed)
            try:
                run(seed, pair, journal)
            except Difference as difference:
                return str(difference), seen, shown
        seen += pair.seen
        for what, cases in pair.shown.items():
            shown[what].update(cases)
        shown["book"].update(pair.engine.shown)
        count += 1
    print("%d calls in %d runs: the library and the model agree" % (sum(seen.values()), count), flush=True)
    return None, seen, shown


def rising(seed, seconds):
    """Seeds for so many seconds."""
    until = time.monotonic() + seconds
    while time.monotonic() < until:
        yield seed
        seed += 1


def for_a_time(seed, seconds, path):
    return runs(rising(seed, seconds), path)[0]


def every_case(path):
    """What differs in the runs that are the same each time, or what they do not reach."""
    told, seen, shown = runs(CASES, path)
    missing = ["a call that answers %d" % number for number in sorted(set(range(27)) - {number for _, number in seen})]
    for what, cases in shown.items():
        missing += ["%s that shows %s" % (what, case) for case, times in cases.items() if not times] if cases else [what]
    return told or missing and UNREACHED + "; ".join(missing)


def calls_of(lines):
    return [ast.literal_eval(line) for line in lines if line.strip()]


def main():
    if sys.argv[1] == "play":
        told = complaint(calls_of(open(sys.argv[2])))
        print(told or "no difference")
        return 1 if told else 0
    if sys.argv[1] == "cases":
        test = (every_case,)
    else:
        seed = int(sys.argv[2]) if len(sys.argv) > 2 else time.time_ns() % 10**9
        print("seed %d" % seed, flush=True)
        test = (for_a_time, seed, int(sys.argv[1]))
    with tempfile.NamedTemporaryFile() as journal:
        told = apart(*test, journal.name)
        if not told:
            return 0
        if told.startswith(UNREACHED):
            print(told)
            return 1
        last, *calls = open(journal.name).read().splitlines()
    print("seed %s: %s" % (last, told), flush=True)
    calls, told = shrunk(calls_of(calls))
    print("# %s" % (told or "the calls alone show no difference"))
    for call in calls:
        print(repr(call))
    return 1


if __name__ == "__main__":
    sys.exit(main())
