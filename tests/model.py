#!/usr/bin/env python3
"""A plain model of the engine and of the script program, written from the specification alone.

    model.py run                  answers the script on standard input
    model.py script SEED N        writes a random script of N lines over 8 sites and 64 items, copies at higher-numbered sites
    model.py script SEED N moved  the same with copies at any sites, without a cycle, and some set-ups with one

tests/cases/long is the script of seed 1 with 4000 lines, tests/cases/moved that of seed 2 with 2000 lines, moved.

A timestamp is (epoch, ((site, count), ..)), a record (site, timestamp, ((kind, item, value), ..)), a message a record's number or a dummy's timestamp. Places are a
table of eight, entry k that of site k. The base has a value for each item; `folded` says whether a collect has removed a record since set-up. An answer is a tuple, the
number first.
"""
import collections
import functools
import random
import sys

import files
from limits import HELD, ITEMS, LONGEST, OPERATIONS, RECORDS, SITES, U32

NO_STAMP = (0, ())


# ---- timestamps
Compared = collections.namedtuple("Compared", "order shared")


def key(places, stamp):
    """What timestamps are put in order by: with places negated the tuples come as numbers do, and a proper prefix first. Two sites at one place, which no order of
    sites has, go by their numbers, the higher first.
    """
    epoch, tuples = stamp
    return (epoch, [(-files.rank(places, site), -site, count) for site, count in tuples])


def compare(a, b, places):
    """-1 where timestamp a is the earlier, 1 where b is, 0 where they are the same; and how many leading tuples they share, None where the epochs differ."""
    order = (key(places, a) > key(places, b)) - (key(places, a) < key(places, b))
    if a[0] != b[0]:
        return Compared(order, None)
    fronts = range(min(len(a[1]), len(b[1])) + 1)
    return Compared(order, max(n for n in fronts if a[1][:n] == b[1][:n]))


# ---- the order of sites
def lines_of(items):
    """The lines that primaries and masks give: pairs of parent and child."""
    return {(primary, c) for primary, mask in items for c in range(SITES) if mask >> c & 1}


def site_order(sites, lines):
    """Again and again the lowest-numbered site whose parents are all placed. It ends before all sites are placed exactly where the lines form a cycle."""
    placed = []
    for _ in range(sites):
        free = [c for c in range(sites) if c not in placed and all(p in placed for p, child in lines if child == c)]
        placed += free[:1]
    return placed


def places_by(order):
    """The eight places that an order of sites gives: a number that is not in it is its own place."""
    return tuple(order.index(k) if k in order else k for k in range(SITES))


# ---- refusals
class Refused(Exception):
    pass


def refuse(number, cause):
    if cause:
        raise Refused(number)


def call(*blank):
    """A call answers 0 and its fields, or the number of the first cause and blank fields."""

    def wrap(step):
        @functools.wraps(step)
        def answered(self, *arguments):
            try:
                return (0,) + step(self, *arguments)
            except Refused as refused:
                return refused.args + blank

        return answered

    return wrap


# ---- operations
def values_written(item, ops):
    """The values that operations write to an item, in list order."""
    return [v for kind, x, v in ops if kind == 1 and x == item]


def read_value(table, ops, a):
    """What a read, operation a of a commit, gives: the latest value written to its item before it there, or else the table's before the commit."""
    item = ops[a][1]
    own = values_written(item, ops[:a])
    return own[-1] if own else table[item]


def write(table, ops):
    """Operations write to a table, in list order."""
    for kind, item, v in ops:
        if kind == 1:
            table[item] = v


# ---- networks
class Network:
    """How many sites; primary and mask of each item; timestamp and table of each site; on each line the messages held and how many arrived; the history; what removed
    commits left, a value for each item, and whether there are such commits.
    """

    def __init__(self, sites, items, stamps, tables, held, arrived, history, base, folded):
        self.sites, self.items, self.stamps, self.tables = sites, items, stamps, tables
        self.held, self.arrived, self.history = held, arrived, history
        self.base, self.folded = base, folded
        self.lines = lines_of(items)
        self.places = places_by(site_order(sites, self.lines))

    def __eq__(self, other):
        return vars(self) == vars(other)

    def has(self, site, item):
        """Whether a site is an item's primary or has a copy of it."""
        primary, mask = self.items[item]
        return primary == site or mask >> site & 1

    def parents(self, site):
        return [p for p in range(self.sites) if (p, site) in self.lines]

    def children(self, site):
        return [c for c in range(self.sites) if (site, c) in self.lines]

    def own_count(self, site):
        return self.stamps[site][1][-1][1]

    def raise_count(self, site):
        epoch, tuples = self.stamps[site]
        self.stamps[site] = (epoch, tuples[:-1] + ((site, tuples[-1][1] + 1),))

    def full(self, site, children):
        return any(len(self.held[site, c]) >= HELD for c in children)

    def rising(self):
        """The numbers of the records by rising timestamp, equal ones in the order made."""
        return sorted(range(len(self.history)), key=lambda k: key(self.places, self.history[k][1]))

    def past(self):
        """Of each record whether it is not later than the earliest of all site timestamps."""
        point = min(key(self.places, stamp) for stamp in self.stamps)
        return [key(self.places, stamp) <= point for _, stamp, _ in self.history]

    def named(self):
        """The records that messages on lines name."""
        return [message for held in self.held.values() for message in held if not isinstance(message, tuple)]

    def message_stamp(self, message):
        return message if isinstance(message, tuple) else self.history[message][1]

    def writes(self, message):
        """Items and values that a message writes."""
        return [] if isinstance(message, tuple) else [(item, v) for kind, item, v in self.history[message][2] if kind == 1]


def set_up_number(sites, items, primaries, masks):
    """The number of a set-up's first cause, or 0: 3 and 4 of the first faulty item, then 5 for lines that form a cycle."""
    if not 1 <= sites <= SITES:
        return 1
    if not 1 <= items <= ITEMS or len(primaries) != items or len(masks) != items:
        return 2
    for primary, mask in zip(primaries, masks):
        if primary >= sites:
            return 3
        if mask >> sites or mask >> primary & 1:
            return 4
    return 5 if len(site_order(sites, lines_of(zip(primaries, masks)))) < sites else 0


def well_shaped(n):
    made_by = lambda site, stamp: files.made_by(n.places, site, stamp)

    def record_fits(record):
        site, stamp, ops = record
        in_range = site < n.sites and 1 <= len(ops) <= OPERATIONS
        return in_range and all(kind <= 1 and item < len(n.items) for kind, item, _ in ops) and made_by(site, stamp)

    def message_fits(parent, message):
        if isinstance(message, tuple):
            return made_by(parent, message)
        return message < len(n.history) and n.history[message][0] == parent

    def line_fits(p, c):
        held = n.held[p, c]
        if len(held) > HELD or n.arrived[p, c] > len(held) or held and (p, c) not in n.lines:
            return False
        return all(message_fits(p, message) for message in held)

    return (
        set_up_number(n.sites, len(n.items), [p for p, _ in n.items], [m for _, m in n.items]) == 0
        and len(n.history) <= RECORDS
        and all(made_by(i, stamp) for i, stamp in enumerate(n.stamps))
        and all(map(record_fits, n.history))
        and all(line_fits(p, c) for p, c in n.held)
        and (n.folded or not any(n.base))
    )


# ---- calls
class Engine:
    """A state: a network, or none where it was never set up or is not well shaped."""

    def __init__(self):
        self.network = None

    def take(self, network):
        """The state becomes one that holds this network, or none; which is no network where it is not well shaped."""
        self.network = network if network and well_shaped(network) else None

    def shaped(self):
        refuse(6, self.network is None)
        return self.network

    def at(self, *sites):
        """The network, where it has these sites."""
        n = self.shaped()
        refuse(7, any(site >= n.sites for site in sites))
        return n

    @call()
    def set_up(self, sites, items, primaries, masks):
        number = set_up_number(sites, items, primaries, masks)
        refuse(number, number)
        lines = [(p, c) for p in range(SITES) for c in range(SITES)]
        self.network = Network(
            sites,
            list(zip(primaries, masks)),
            [(0, ((i, 0),)) for i in range(sites)],
            [[0] * items for _ in range(sites)],
            {line: [] for line in lines},
            {line: 0 for line in lines},
            [],
            [0] * items,
            False,
        )
        return ()

    @call(NO_STAMP, ())
    def commit(self, i, ops):
        n = self.at(i)
        refuse(8, not 1 <= len(ops) <= OPERATIONS)
        for kind, item, _ in ops:
            refuse(9, kind > 1 or item >= len(n.items))
            refuse(10, kind == 0 and not n.has(i, item))
            refuse(11, kind == 1 and n.items[item][0] != i)
        refuse(12, len(n.history) >= RECORDS)
        written = [item for kind, item, _ in ops if kind == 1]
        due = [c for c in n.children(i) if any(n.items[item][1] >> c & 1 for item in written)]
        refuse(13, n.full(i, due))
        refuse(14, n.own_count(i) == U32)
        done = tuple((kind, item, read_value(n.tables[i], ops, a) if kind == 0 else v) for a, (kind, item, v) in enumerate(ops))
        write(n.tables[i], done)
        n.raise_count(i)
        for c in due:
            n.held[i, c].append(len(n.history))
        n.history.append((i, n.stamps[i], done))
        return n.stamps[i], tuple(v for kind, _, v in done if kind == 0)

    def commit_lists(self, i, kinds, items, values):
        # lists of two lengths are refused as no operations are
        return self.commit(i, list(zip(kinds, items, values)) if len(kinds) == len(items) == len(values) else [])

    @call(NO_STAMP)
    def dummy(self, i):
        n = self.at(i)
        refuse(13, n.full(i, n.children(i)))
        refuse(14, n.own_count(i) == U32)
        n.raise_count(i)
        for c in n.children(i):
            n.held[i, c].append(n.stamps[i])
        return (n.stamps[i],)

    @call()
    def epoch(self, i, new):
        n = self.at(i)
        refuse(15, n.parents(i))
        refuse(16, new <= n.stamps[i][0])
        n.stamps[i] = (new, n.stamps[i][1])
        return ()

    @call()
    def deliver(self, p, c):
        n = self.at(p, c)
        refuse(17, (p, c) not in n.lines)
        refuse(18, n.arrived[p, c] >= len(n.held[p, c]))
        n.arrived[p, c] += 1
        return ()

    @call(0, NO_STAMP)
    def schedule(self, j):
        n = self.at(j)
        parents = n.parents(j)
        refuse(19, not parents)
        refuse(20, any(n.arrived[p, j] == 0 for p in parents))
        best = parents[0]
        for p in parents[1:]:
            if compare(n.message_stamp(n.held[p, j][0]), n.message_stamp(n.held[best, j][0]), n.places).order < 0:
                best = p
        message = n.held[best, j].pop(0)
        n.arrived[best, j] -= 1
        for item, v in n.writes(message):
            if n.items[item][1] >> j & 1:
                n.tables[j][item] = v
        stamp = n.message_stamp(message)
        n.stamps[j] = (stamp[0], stamp[1] + n.stamps[j][1][-1:])
        return best, stamp

    @call(0)
    def collect(self):
        """Folds every commit not later than the earliest of all site timestamps into the base values, by rising timestamp, removes them and answers how many."""
        n = self.shaped()
        past = n.past()
        refuse(6, any(past[k] for k in n.named()))
        for k in n.rising():
            if past[k]:
                write(n.base, n.history[k][2])
        kept = [k for k in range(len(past)) if not past[k]]
        for line, held in n.held.items():
            n.held[line] = [message if isinstance(message, tuple) else kept.index(message) for message in held]
        n.history = [n.history[k] for k in kept]
        n.folded = n.folded or any(past)
        return (len(past) - len(kept),)

    @call(0)
    def round(self):
        """Every site without parents gets an epoch one above the greatest at any site; then, in the order of places, all lines into a site are delivered, it schedules until
        refused, and it sends a dummy. It answers the new epoch.
        """
        n = self.shaped()
        refuse(13, any(len(held) >= HELD for held in n.held.values()))
        refuse(14, any(n.own_count(i) == U32 for i in range(n.sites)))
        greatest = max(epoch for epoch, _ in n.stamps)
        refuse(16, greatest == U32)
        for i in range(n.sites):
            if not n.parents(i):
                n.stamps[i] = (greatest + 1, n.stamps[i][1])
        for j in sorted(range(n.sites), key=lambda i: n.places[i]):
            for p in n.parents(j):
                n.arrived[p, j] = len(n.held[p, j])
            while self.schedule(j)[0] == 0:
                pass
            self.dummy(j)
        return (greatest + 1,)

    # ---- calls that only look
    @call(())
    def waiting(self, j):
        """The items with a copy here that messages on the lines into the site write: by the earliest timestamp of those messages, then by number."""
        n = self.at(j)
        keys = {}  # of every message that writes the item
        for p in n.parents(j):
            for message in n.held[p, j]:
                for item, _ in n.writes(message):
                    if n.items[item][1] >> j & 1:
                        keys.setdefault(item, []).append(key(n.places, n.message_stamp(message)))
        return (tuple(sorted(keys, key=lambda item: (min(keys[item]), item))),)

    @call(())
    def table(self, i):
        return (tuple(self.at(i).tables[i]),)

    @call(NO_STAMP)
    def stamp(self, i):
        return (self.at(i).stamps[i],)

    @call(0, 0)
    def line(self, p, c):
        n = self.at(p, c)
        refuse(17, (p, c) not in n.lines)
        return len(n.held[p, c]), n.arrived[p, c]

    @call((0,) * SITES)
    def places(self):
        """The place of each site; a number that is no site is its own place."""
        return (self.shaped().places,)

    @call(False, ())
    def base(self):
        """Whether a collect has removed a record since set-up, and a base value for each item."""
        n = self.shaped()
        return n.folded, tuple(n.base)

    @call("", 0)
    def origin(self, k, a):
        """Where the value of operation a of record k came from: "commit" and its record number; with 0 "folded" where no kept record is it and some were removed, else
        "start".
        """
        n = self.shaped()
        refuse(26, k >= len(n.history) or a >= len(n.history[k][2]) or n.history[k][2][a][0] != 0)
        item = n.history[k][2][a][1]
        if values_written(item, n.history[k][2][:a]):
            return "commit", k
        rising = n.rising()
        writers = [i for i in rising[: rising.index(k)] if values_written(item, n.history[i][2])]
        return ("commit", writers[-1]) if writers else ("folded" if n.folded else "start", 0)

    @call(b"")
    def export(self, room):
        """The file, for a buffer of so many bytes."""
        n = self.shaped()
        made = files.file_bytes(n.sites, len(n.items), n.history, n.places, n.folded, n.base)
        refuse(25, len(made) > room)
        return (made,)

    # ---- the script
    def script(self, line):
        """The answer to a line, without newline."""
        try:
            letter, *fields = parse(line)
        except Malformed:
            return b"?"
        calls = {"p": self.set_up, "c": self.commit, "d": self.dummy, "e": self.epoch, "l": self.deliver, "s": self.schedule}
        return answer_text(letter, calls[letter](*fields)).encode()

    def run(self, text):
        """The answers to the lines of a script, a newline behind each."""
        lines = text.split(b"\n")
        if lines[-1] == b"":
            lines.pop()
        return b"".join(self.script(line) + b"\n" for line in lines)


# ---- the script's notation
class Malformed(Exception):
    pass


def number(text, most=U32):
    """A decimal field without extra leading zeros."""
    if not text or any(c not in b"0123456789" for c in text):
        raise Malformed
    if len(text) > 1 and text[:1] == b"0":
        raise Malformed
    value = int(text)
    if value > most:
        raise Malformed
    return value


def value(text):
    if text[:1] == b"-":
        magnitude = number(text[1:], 2**31)
        if magnitude == 0:
            raise Malformed
        return -magnitude
    return number(text, 2**31 - 1)


def operation(text):
    if text[:1] == b"r":
        return (0, number(text[1:]), 0)
    if text[:1] == b"w":
        item, equals, rest = text[1:].partition(b"=")
        if not equals:
            raise Malformed
        return (1, number(item), value(rest))
    raise Malformed


def parse(line):
    if len(line) > LONGEST:
        raise Malformed
    fields = line.split(b" ")
    letter, rest = fields[0], fields[1:]
    if letter == b"p":
        if len(rest) < 2 or len(rest) % 2:
            raise Malformed
        sites, items = number(rest[0]), number(rest[1])
        return ("p", sites, items, [number(f) for f in rest[2::2]], [number(f, 255) for f in rest[3::2]])
    if letter == b"c":
        if not rest:
            raise Malformed
        return ("c", number(rest[0]), [operation(f) for f in rest[1:]])
    counts = {b"d": 1, b"s": 1, b"e": 2, b"l": 2}
    if letter not in counts or len(rest) != counts[letter]:
        raise Malformed
    return (letter.decode(),) + tuple(number(f) for f in rest)


def tuples_text(tuples):
    return ",".join("%d.%d" % t for t in tuples)


def stamp_text(stamp):
    return "%d %s" % (stamp[0], tuples_text(stamp[1]))


def answer_text(letter, answer):
    if answer[0] or letter in "pel":
        return str(answer[0])
    if letter == "s":
        return "0 %d %s" % (answer[1], stamp_text(answer[2]))
    values = answer[2] if letter == "c" else ()
    return " ".join(["0", stamp_text(answer[1])] + [str(v) for v in values])


# ---- random scripts
FAULTY = ["c 9 r0", "c 0", "c 0 r64", "c 7 w0=1", "s 0", "l 7 0", "e 7 1", "d 8", "", "q", "d  1"]
CYCLES = ["p 2 2 0 2 1 1", "p 8 3 7 1 0 16 4 128", "p 3 3 0 6 2 2 1 4"]


def placement(rng, order):
    """Eight sites and 64 items: most with a copy or two at sites that are later in an order."""
    fields = []
    for i in range(ITEMS):
        primary = rng.randrange(SITES) if i >= SITES else i
        later = list(range(primary + 1, SITES))
        mask = sum(1 << order[c] for c in rng.sample(later, min(len(later), rng.choice([0, 1, 1, 2]))))
        fields += [str(order[primary]), str(mask)]
    return " ".join(["p", str(SITES), str(ITEMS)] + fields)


def script(seed, count, moved, sink):
    rng = random.Random(seed)
    order = rng.sample(range(SITES), SITES) if moved else range(SITES)
    faulty = FAULTY + CYCLES if moved else FAULTY
    out = [placement(rng, order)]
    owned = [[] for _ in range(SITES)]
    seen = [[] for _ in range(SITES)]
    fields = out[0].split(" ")[3:]
    pairs = [(int(fields[i]), int(fields[i + 1])) for i in range(0, len(fields), 2)]
    for item, (primary, mask) in enumerate(pairs):
        owned[primary].append(item)
        for k in range(SITES):
            if k == primary or mask >> k & 1:
                seen[k].append(item)
    lines = sorted({(p, c) for p, m in pairs for c in range(SITES) if m >> c & 1})
    inner = sorted({c for _, c in lines})
    commits = 0
    while len(out) < count:
        kind = rng.choices("cdelsx", [6, 4, 1, 12, 10, 1])[0]
        i = rng.randrange(SITES)
        if kind == "c":
            if commits == RECORDS + 20:
                out.append(out[0])
                commits = 0
                continue
            commits += 1
            ops = []
            for _ in range(rng.randint(1, OPERATIONS)):
                if owned[i] and rng.random() < 0.5:
                    ops.append("w%d=%d" % (rng.choice(owned[i]), rng.randint(-(2**31), 2**31 - 1)))
                elif seen[i]:
                    ops.append("r%d" % rng.choice(seen[i]))
            out.append(" ".join(["c", str(i)] + ops))
        elif kind == "d":
            out.append("d %d" % i)
        elif kind == "e":
            out.append("e %d %d" % (order[0], rng.randint(0, len(out))))
        elif kind == "l":
            out.append("l %d %d" % rng.choice(lines))
        elif kind == "s":
            out.append("s %d" % rng.choice(inner))
        else:
            out.append(rng.choice(faulty))
    sink.write("\n".join(out) + "\n")


def main():
    if sys.argv[1] == "run":
        sys.stdout.buffer.write(Engine().run(sys.stdin.buffer.read()))
    elif sys.argv[1] == "script":
        script(int(sys.argv[2]), int(sys.argv[3]), sys.argv[4:] == ["moved"], sys.stdout)


if __name__ == "__main__":
    main()
