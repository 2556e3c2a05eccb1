"""Where things stand in the words of a state: all that tests/ knows of it, as docs/ARCHITECTURE.md says it under 'The state'."""
from limits import HELD, ITEMS, OPERATIONS, RECORDS, SITES
from model import Network

STAMP = 2 + 2 * SITES
ITEM, SITE, MESSAGE = 2, STAMP + ITEMS, 1 + STAMP
LINE = 2 + HELD * MESSAGE
CODES = 2 + STAMP  # where a record has the codes of its operations, and where their values
VALUES = CODES + 2
RECORD = VALUES + OPERATIONS

ITEMS_AT = 3
SITES_AT = ITEMS_AT + ITEMS * ITEM
LINES_AT = SITES_AT + SITES * SITE
HISTORY_AT = LINES_AT + SITES * SITES * LINE
FOLDED_AT = HISTORY_AT + RECORDS * RECORD  # 0 where no record has been removed
BASE_AT = FOLDED_AT + 1
WORDS = BASE_AT + ITEMS

DUMMY = RECORDS  # the name of a dummy: no record has this number, nor any above


class BeyondRoom(Exception):
    """A number that counts something is more than there is room for."""


def counted(count, room):
    if count > room:
        raise BeyondRoom
    return count


def signed(word):
    return word - 2**32 if word >> 31 else word


# ---- reading: w are the words, each part is read from its place on
def stamp_in(w, at):
    end = at + 2 + 2 * counted(w[at + 1], SITES)
    return (w[at], tuple(zip(w[at + 2 : end : 2], w[at + 3 : end : 2])))


def stamp_lent(w):
    """The timestamp of a struct that a caller lends, which is laid the same; a length field above eight is all eight."""
    return (w[0], tuple(zip(w[2::2], w[3::2]))[: w[1]])


def message_in(w, at):
    return w[at] if w[at] < DUMMY else stamp_in(w, at + 1)


def held_in(w, at):
    return [message_in(w, at + 2 + MESSAGE * k) for k in range(counted(w[at], HELD))]


def record_in(w, at):
    count = counted(w[at + 1], OPERATIONS)
    codes = [w[at + CODES + i // 4] >> 8 * (i % 4) & 255 for i in range(count)]
    values = map(signed, w[at + VALUES : at + VALUES + count])
    return (w[at], stamp_in(w, at + 2), tuple((code % 2, code // 2, v) for code, v in zip(codes, values)))


def load(w):
    """The network that the words hold, well shaped or not; None where a number that counts something is more than there is room for."""
    try:
        sites, items, records = counted(w[0], SITES), counted(w[1], ITEMS), counted(w[2], RECORDS)
        starts = [SITES_AT + SITE * i for i in range(sites)]
        lines = {(p, c): LINES_AT + LINE * (SITES * p + c) for p in range(SITES) for c in range(SITES)}
        return Network(
            sites,
            [(w[at], w[at + 1]) for at in range(ITEMS_AT, ITEMS_AT + ITEM * items, ITEM)],
            [stamp_in(w, at) for at in starts],
            [[signed(v) for v in w[at + STAMP : at + STAMP + items]] for at in starts],
            {line: held_in(w, at) for line, at in lines.items()},
            {line: w[at + 1] for line, at in lines.items()},
            [record_in(w, HISTORY_AT + RECORD * k) for k in range(records)],
            [signed(v) for v in w[BASE_AT : BASE_AT + items]],
            w[FOLDED_AT] != 0,
        )
    except BeyondRoom:
        return None


# ---- writing
def lay(w, at, numbers):
    for k, n in enumerate(numbers, at):
        w[k] = n % 2**32


def lay_stamp(w, at, stamp):
    lay(w, at, [stamp[0], len(stamp[1])] + [n for t in stamp[1] for n in t])


def lay_code(w, at, i, code):
    """Byte i of the two words: the others stay."""
    place, shift = at + i // 4, 8 * (i % 4)
    w[place] = w[place] & ~(255 << shift) | code % 256 << shift


def words(network, w=None):
    """The words of a network; those that mean nothing stay as they were in w, or are 0."""
    w = [0] * WORDS if w is None else w
    lay(w, 0, [network.sites, len(network.items), len(network.history)] + [n for item in network.items for n in item])
    for i in range(network.sites):
        lay_stamp(w, SITES_AT + SITE * i, network.stamps[i])
        lay(w, SITES_AT + SITE * i + STAMP, network.tables[i])
    for (p, c), messages in network.held.items():
        at = LINES_AT + LINE * (SITES * p + c)
        lay(w, at, [len(messages), network.arrived[p, c]])
        for k, message in enumerate(messages):
            dummy = isinstance(message, tuple)
            lay(w, at + 2 + MESSAGE * k, [DUMMY if dummy else message])
            if dummy:
                lay_stamp(w, at + 3 + MESSAGE * k, message)
    for k, (site, stamp, ops) in enumerate(network.history):
        at = HISTORY_AT + RECORD * k
        lay(w, at, [site, len(ops)])
        lay_stamp(w, at + 2, stamp)
        for i, (kind, item, _) in enumerate(ops):
            lay_code(w, at + CODES, i, 2 * item + kind)
        lay(w, at + VALUES, [v for _, _, v in ops])
    if (w[FOLDED_AT] != 0) != network.folded:
        w[FOLDED_AT] = int(network.folded)
    lay(w, BASE_AT, network.base)
    return w


# ---- where words mean something, for tests that change some
def parts(w):
    """Starts and lengths of parts that mean something, most of them small, so that one of them at random is often worth a change."""
    sites, items, records = min(w[0], SITES), min(w[1], ITEMS), min(w[2], RECORDS)
    found = [(0, 3), (ITEMS_AT, ITEM * items), (FOLDED_AT, 1), (BASE_AT + max(items, 1) - 1, 1), (BASE_AT, ITEMS)]
    found += [(SITES_AT + SITE * i, 2 + 2 * min(w[SITES_AT + SITE * i + 1], SITES)) for i in range(sites)]
    found += [(SITES_AT + SITE * i + STAMP, items) for i in range(sites)]
    for k in range(SITES * SITES):
        at = LINES_AT + LINE * k
        held = min(w[at], HELD)
        if held:
            found += [(at, 2), (at, 2), (at + 2, MESSAGE), (at + 2 + MESSAGE * (held - 1), MESSAGE)]
    if records:
        last = HISTORY_AT + RECORD * (records - 1)
        for at in (HISTORY_AT, last):
            found += [(at, 2 + STAMP), (at + CODES, 2), (at, RECORD)]
    return [part for part in found if part[1]] + [(LINES_AT, HISTORY_AT - LINES_AT), (0, WORDS)]
