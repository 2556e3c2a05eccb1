"""Random calls for the differential tests, chosen by looking at the model: most of them are accepted, and every cause of a refusal has its turn.

A call is a tuple of its name and its arguments, plain data, so that a list of calls can be printed, played again and made shorter.
"""
import random
import re

import files
import layout
import model
from files import NUMBERS
from limits import HELD, ITEMS, OPERATIONS, RECORDS, SITES, U32

# How often each call stands in a list. A run takes one of these by chance: what it does most decides which corners it reaches.
BALANCED = dict(
    commit=8, commit_lists=2, dummy=4, epoch=1, deliver=14, schedule=12, collect=2, round=1, stages=0.3, waiting=2, table=2, stamp=2, line=2, places=1, base=1, origin=2,
    export=1, script=4, run=1, poke=2, copy=1, set_up=1, state=0.2, held=0, few=0, noise=0.1, file=2, record_from=1, compare=2, compare_lent=2,
)
MOODS = [
    BALANCED,
    dict(BALANCED, commit=40, dummy=0, set_up=0, state=0, poke=0, noise=0),
    dict(BALANCED, dummy=20, deliver=8, schedule=4),
    dict(BALANCED, poke=20),
    dict(BALANCED, state=5),
    dict(BALANCED, file=20, record_from=10),
    dict(BALANCED, script=20, run=5),
    dict(BALANCED, set_up=20),
    dict(BALANCED, origin=20, state=3),
    dict(BALANCED, waiting=60, held=15, schedule=4),
    dict(commit=60, dummy=2, epoch=0.2, deliver=8, schedule=8, collect=3, round=1, stages=1, waiting=1, origin=8, base=1, export=1),
    dict(BALANCED, few=10, state=1, collect=15, base=5, origin=5),
    dict(BALANCED, round=12, few=6, set_up=3),
]

EDGES = [0, 1, 2, 7, 8, 9, 15, 16, 17, 63, 64, 65, 255, 256, 257, 2**31 - 1, 2**31, U32 - 1, U32]


def value(rng):
    return rng.choice([0, 1, -1, 2**31 - 1, -(2**31), rng.randint(-(2**31), 2**31 - 1)])


def word(rng):
    return rng.choice(EDGES) if rng.random() < 0.8 else rng.randint(0, U32)


def below(rng, count, wrong=0.03):
    """A number below a count, or by chance one that is not."""
    return rng.choice([count, count + 1, 8, 64, 255, 256, U32]) if rng.random() < wrong or not count else rng.randrange(count)


# ---- places
def order(rng, sites):
    """The places of so many sites in some order; numbers past them are their own places."""
    return tuple(rng.sample(range(sites), sites)) + NUMBERS[sites:]


def table(rng):
    """A table to compare by: of an order, the numbers, or one that no order has, with sites at one place and high ones."""
    no_order = tuple(rng.choice([0, 1, 2, 7, 8, 9, 255]) for _ in NUMBERS)
    return rng.choice([order(rng, SITES), order(rng, rng.randint(1, SITES)), NUMBERS, no_order, no_order])


# ---- timestamps and records
def stamp(rng, site, places):
    """A timestamp that a site made."""
    lower = [s for s in NUMBERS if places[s] < places[site]]
    before = sorted(rng.sample(lower, rng.randint(0, len(lower))), key=lambda s: places[s])
    count = lambda: rng.choice([0, 1, 2, 3, U32 - 1, U32])
    return (rng.choice([0, 0, 0, 1, 2, U32]), tuple((s, count()) for s in before + [site]))


def any_stamp(rng, places):
    """A timestamp that need not be one that a site made; comparing takes any."""
    if rng.random() < 0.7:
        return stamp(rng, rng.randrange(SITES), places)
    length = rng.choice([SITES, rng.randint(0, SITES)])
    return (rng.choice([0, 1]), tuple((rng.choice([*NUMBERS, 8, 255, U32]), rng.choice([0, 1, U32])) for _ in range(length)))


def beside(rng, first, places):
    """A timestamp to compare with another: any, the same, of another epoch, a front of it, or one that parts from it at a tuple."""
    epoch, tuples = first
    other = any_stamp(rng, places)
    k = rng.choice([rng.randint(0, len(tuples)), max(0, len(tuples) - 1)])
    site, count = tuples[k] if k < len(tuples) else (SITES, 0)
    turned = rng.choice([(site, word(rng)), (word(rng), count), (rng.randrange(SITES + 2), count)])
    near = [(epoch, tuples[:k] + other[1]), (epoch, tuples[:k] + (turned,) + tuples[k + 1 :])]
    epoch, tuples = rng.choice([other, first, (other[0], tuples), (epoch, tuples[:k])] + near)
    return (epoch, tuples[:SITES])


def struct(rng):
    """The words of a timestamp as it is lent: a length field that may be above eight, few numbers, so that two are often the same."""
    return [rng.choice([0, 1]), rng.choice([*range(SITES + 1), 9, 77, U32])] + [rng.choice([0, 1, U32]) for _ in range(2 * SITES)]


def record(rng, sites, items, places):
    site = rng.randrange(sites)
    ops = tuple((rng.randrange(2), rng.randrange(items), value(rng)) for _ in range(rng.choice([1, 1, 2, 3, OPERATIONS])))
    return (site, stamp(rng, site, places), ops)


# ---- set-up
def sizes(rng):
    return rng.choice([1, 2, 3, 3, 4, 5, 8, 8]), rng.choice([1, 2, 3, 4, 8, 16, 63, 64])


def placed(rng, sites, items, densities, fits):
    """A set-up with copies where they fit, by the primary and their own site."""
    primaries = [rng.randrange(sites) for _ in range(items)]
    density = rng.choice(densities)
    masks = [sum(1 << c for c in range(sites) if fits(p, c) and rng.random() < density) for p in primaries]
    return sites, items, primaries, masks


def placement(rng):
    """A set-up that is accepted: each copy is behind its primary in some order, often that of the numbers."""
    sites, items = sizes(rng)
    places = rng.choice([NUMBERS, order(rng, sites), order(rng, sites)])
    return placed(rng, sites, items, [0.2, 0.5, 0.9], lambda p, c: places[p] < places[c])


def tangled(rng):
    """A set-up with copies anywhere: the lines of most form a cycle."""
    return placed(rng, *sizes(rng), [0.03, 0.1, 0.3], lambda p, c: p != c)


def ring(rng):
    """A set-up whose lines form one cycle, of three sites or more."""
    sites = rng.randint(3, SITES)
    around = rng.sample(range(sites), rng.randint(3, sites))
    return sites, len(around), around, [1 << c for c in around[1:] + around[:1]]


def faulty(rng, sites, items, primaries, masks):
    """A set-up with a fault or two."""
    primaries, masks = list(primaries), list(masks)
    for _ in range(rng.choice([1, 1, 2, 3])):
        k = rng.randrange(len(primaries)) if primaries else 0
        fault = rng.randrange(7)
        if fault == 0:
            sites = rng.choice([0, 9, 255, U32])
        elif fault == 1:
            items = rng.choice([0, 65, (items + 1) % 2**32, U32])
        elif fault == 2:
            primaries = primaries[:-1] if rng.random() < 0.5 else primaries + [0]
        elif fault == 3:
            masks = masks[:-1] if rng.random() < 0.5 else masks + [0]
        elif fault == 4 and k < len(primaries):
            primaries[k] = rng.choice([sites, 8, 255, U32])
        elif fault >= 5 and k < len(masks):
            masks[k] = rng.randrange(256)
    return sites, items, primaries, masks


# ---- states that no set-up need lead to
def history(rng, count, sites, items, places):
    """So many records, whose timestamps need not rise, and of which some have that of another."""
    made = []
    for _ in range(count):
        site, own, ops = record(rng, sites, items, places)
        if made and rng.random() < 0.3:
            site, own, _ = rng.choice(made)
        made.append((site, own, ops))
    return made


def network(seed, records, held):
    """A network of at most so many records and messages on a line; well shaped, but for a flaw that some have."""
    rng = random.Random(seed)
    sites, items, primaries, masks = placement(rng)
    engine = model.Engine()
    engine.set_up(sites, items, primaries, masks)
    n = engine.network
    n.history = history(rng, records, sites, items, n.places)
    n.stamps = [stamp(rng, i, n.places) for i in range(sites)]
    n.tables = [[value(rng) for _ in range(items)] for _ in range(sites)]
    made = [[k for k, one in enumerate(n.history) if one[0] == i] for i in range(sites)]
    for p, c in sorted(n.lines):
        count = rng.randint(0, held)
        n.held[p, c] = [rng.choice(made[p]) if made[p] and rng.random() < 0.6 else stamp(rng, p, n.places) for _ in range(count)]
        n.arrived[p, c] = rng.randint(0, count)
    n.folded = rng.random() < 0.5
    if n.folded and rng.random() < 0.8:
        n.base = [value(rng) for _ in range(items)]
    if rng.random() < 0.5:
        later(rng, n)
    if rng.random() < 0.4:
        flaw(rng, n)
    return n


def later(rng, n):
    """Sites that are later than many records, which messages do not name then, most often: a collect removes some."""
    epoch = rng.choice([1, 2, U32])
    n.stamps = [(max(epoch, own), tuples) for own, tuples in n.stamps]
    past = n.past()
    for line, held in n.held.items():
        if rng.random() < 0.95:
            n.held[line] = [message for message in held if isinstance(message, tuple) or not past[message]]
            n.arrived[line] = min(n.arrived[line], len(n.held[line]))


def wrong_stamp(rng, site, places):
    """A timestamp that a site did not make; or that it may have, by the order of the numbers or another."""
    epoch, tuples = stamp(rng, site, places)
    others = [stamp(rng, site, NUMBERS)[1], stamp(rng, site, order(rng, SITES))[1]]
    return (epoch, rng.choice([(), tuples[:-1], tuples[-1:] + tuples, tuples + tuples[-1:], tuples + ((site + 1, 0),)] + others)[:SITES])


def wrong_record(rng, n, site, made, ops):
    kind, _, v = ops[-1]
    return rng.choice(
        [
            (n.sites, stamp(rng, min(n.sites, SITES - 1), n.places), ops),
            (site, wrong_stamp(rng, site, n.places), ops),
            (site, made, ops[:-1] + ((kind, 2 * ITEMS - 1, v),)),
            (site, made, ops[:-1] + ((kind, len(n.items), v),)),
        ]
    )


def flaw(rng, n):
    """One thing, most often, that no well-shaped network has."""
    p = rng.randrange(SITES)
    line = (p, rng.randrange(SITES))
    site, item = rng.randrange(n.sites), rng.randrange(len(n.items))
    which = rng.randrange(9)
    if which == 0:
        n.held[line] = n.held[line][:-1] + [stamp(rng, p, n.places)]
    elif which == 1:
        n.held[line] = n.held[line][:-1] + [rng.choice([wrong_stamp(rng, p, n.places), len(n.history), 0, RECORDS - 1])]
    elif which == 2:
        n.arrived[line] = len(n.held[line]) + 1
    elif which == 3:
        n.stamps[site] = wrong_stamp(rng, site, n.places)
    elif which == 4:
        n.items[item] = (rng.choice([n.items[item][0], n.sites]), rng.randrange(512))
    elif which == 5:
        # a copy more: it may close a cycle, or give other places, by which timestamps need not rise
        primary, mask = n.items[item]
        n.items[item] = (primary, mask | 1 << site & ~(1 << primary))
    elif which == 6:
        n.folded, n.base[rng.choice([item, -1])] = False, value(rng)
    elif n.history:
        k = rng.randrange(len(n.history))
        n.history[k] = wrong_record(rng, n, *n.history[k])


def noise(seed):
    """The bytes of a state, at random."""
    return random.Random(seed).randbytes(4 * layout.WORDS)


# ---- files
def damaged(rng, data):
    data = bytearray(data)
    for _ in range(rng.choice([0, 0, 1, 1, 2])):
        fault = rng.randrange(8)
        if fault == 0 and data:
            data[rng.randrange(len(data))] = rng.choice([0, 1, 2, 8, 9, 255, rng.randrange(256)])
        elif fault == 1 and len(data) >= files.TRAILER:
            data[-rng.randint(1, files.TRAILER)] = rng.choice([0, 1, 9, 16, 65, 255])
        elif fault == 2:
            del data[rng.randint(0, len(data)) :]
        elif fault == 3:
            data += rng.randbytes(rng.choice([1, 8, 16]))
        elif fault == 4 and len(data) >= files.TRAILER:
            near = int.from_bytes(data[-8:-4], "little") + rng.choice([-16, -8, -1, 1, 8, 16])
            data[-8:-4] = files.little(near % 2**32)
        elif fault == 5 and len(data) >= files.TRAILER:
            data[-2] = rng.choice([0, 1, 2, 3, 4, 5, 6, 7, 128, 130, 255])
        elif fault == 6 and len(data) >= files.TRAILER:
            damage_table(rng, data)
        elif fault == 7 and len(data) >= files.TRAILER:
            whole = files.TRAILER + files.lead_size(data[-2], data[-4], data[-3])
            data[-8:-4] = files.little(rng.choice([15, files.TRAILER, files.TRAILER + data[-4], whole - 4, whole - 1, whole - 1, whole]))
    return bytes(data)


def damage_table(rng, data):
    """The bytes that would be the file's table of places: the numbers, another order, one byte another."""
    start, sites = len(data) - files.number_at(data, len(data) - 8), data[-4]
    if not 0 <= start <= len(data) - files.TRAILER - sites or not 1 <= sites <= SITES:
        return
    one = bytearray(data[start : start + sites])
    one[rng.randrange(sites)] = rng.choice([0, 1, sites - 1, sites, 255])
    data[start : start + sites] = rng.choice([bytes(range(sites)), bytes(range(sites)), bytes(order(rng, sites)[:sites]), one, one])


def file(rng, engine):
    """A buffer that a file ends, or nearly one."""
    exported = engine.export(10**6)[1]
    if exported and len(exported) < 2000 and rng.random() < 0.5:
        made = exported
    else:
        sites, items = rng.randint(1, SITES), rng.choice([1, 2, ITEMS])
        count = rng.choice([0, 1, 2, 3, 5, RECORDS, RECORDS + 1]) if rng.random() < 0.05 else rng.choice([0, 1, 2, 3])
        places = rng.choice([NUMBERS, order(rng, sites)])
        by = rng.choice([places, places, places, order(rng, sites)])  # the order that the timestamps have
        base = rng.choice([[0] * items, [value(rng) for _ in range(items)]])
        made = files.file_bytes(sites, items, [record(rng, sites, items, by) for _ in range(count)], places, rng.random() < 0.5, base)
    return damaged(rng, rng.choice([b"", b"", b"junk", rng.randbytes(40)]) + made)


# ---- the script
LETTERS = dict(set_up=b"p", commit=b"c", dummy=b"d", epoch=b"e", deliver=b"l", schedule=b"s")


def line(call):
    """The line of a script that makes a call."""
    name, arguments = call[0], call[1:]
    if name == "set_up":
        sites, items, primaries, masks = arguments
        numbers = [sites, items] + [n for pair in zip(primaries, masks) for n in pair]
    elif name == "commit":
        site, ops = arguments
        texts = [b"r%d" % item if kind == 0 else b"w%d=%d" % (item, v) for kind, item, v in ops]
        return b" ".join([b"c", b"%d" % site] + texts)
    else:
        numbers = arguments
    return b" ".join([LETTERS[name]] + [b"%d" % n for n in numbers])


ODD_NUMBERS = b"0 -0 00 01 +1 -1 255 256 2147483647 2147483648 -2147483648 -2147483649 4294967295 4294967296 99999999999".split(b" ") + [b""]


def misspelt(rng, text):
    text = bytearray(text)
    for _ in range(rng.choice([1, 1, 2])):
        at = rng.randint(0, len(text))
        fault = rng.randrange(6)
        numbers = list(re.finditer(rb"-?[0-9]+", text))
        if fault >= 4 and numbers:
            start, end = rng.choice(numbers).span()
            text[start:end] = rng.choice(ODD_NUMBERS)
        elif fault == 0:
            text[at:at] = rng.choice([b" ", b"0", b"-", b"=", b"-0", b"r", b"w", b",", b"\x00", b"4294967296", b" " * 500])
        elif fault == 1:
            del text[at : at + 1]
        elif fault == 2:
            text[at : at + 1] = bytes([rng.choice(b" 0129-=rwpcdels\n\r\t\xff")])
        else:
            del text[at:]
    return bytes(text)


# ---- calls
class Chooser:
    """The next call of a run, by what the model holds."""

    def __init__(self, seed):
        self.rng = random.Random(seed)
        mood = self.rng.choice(MOODS)
        self.names, self.weights = list(mood), list(mood.values())
        self.left = self.rng.choice([20, 100, 400, 800])
        self.undo = []
        self.plan = []  # calls that come first
        self.hearing = []  # sites that are to hear behind them, in a round by stages

    def first(self):
        return ("set_up",) + placement(self.rng)

    def next(self, engine, words):
        """A call, or None at the run's end; `words` gives those of the state, where they are wanted."""
        self.left -= 1
        if self.left < 0:
            return None
        if self.undo and self.rng.random() < 0.3:
            return self.undo.pop()
        if (self.plan or self.hearing) and self.rng.random() < 0.95:
            return self.going_on(engine)
        if engine.network is None and not self.undo and self.rng.random() < 0.3:
            return self.first()
        name = self.rng.choices(self.names, self.weights)[0]
        if name == "poke":
            return self.poke(words())
        return getattr(self, name)(engine)

    def sizes(self, engine):
        n = engine.network
        return (n.sites, len(n.items)) if n else (3, 2)

    def site(self, engine):
        return below(self.rng, self.sizes(engine)[0])

    def pair(self, engine):
        """A parent and a child: a line, most often."""
        lines = sorted(engine.network.lines) if engine.network else []
        return self.rng.choice(lines) if lines and self.rng.random() < 0.95 else (self.site(engine), self.site(engine))

    def set_up(self, engine):
        made = self.rng.choice([placement] * 5 + [tangled, tangled, ring])(self.rng)
        return ("set_up",) + (faulty(self.rng, *made) if self.rng.random() < 0.6 else made)

    def commit(self, engine):
        rng, n = self.rng, engine.network
        site, (_, items) = self.site(engine), self.sizes(engine)
        count = rng.choice([0, 9, 10, 100]) if rng.random() < 0.03 else rng.randint(1, OPERATIONS)
        held = [x for x in range(items) if n and site < n.sites and n.has(site, x)] or [0]
        owned = [x for x in held if n and n.items[x][0] == site]
        ops = []
        # some commits keep to few items, so that reads stand before, between and behind writes of theirs
        few = rng.choice([1, 2, ITEMS])
        held, owned = [rng.sample(some, min(few, len(some))) for some in (held, owned)]
        for _ in range(count):
            if rng.random() < 0.02:
                ops.append((rng.choice([0, 1, 2, 255, 256, U32]), below(rng, items, 0.5), value(rng)))
            elif owned and rng.random() < 0.6:
                ops.append((1, rng.choice(owned), value(rng)))
            else:
                ops.append((0, rng.choice(held + owned), value(rng)))
        return ("commit", site, tuple(ops))

    def commit_lists(self, engine):
        _, site, ops = self.commit(engine)
        lists = [[kind % 256 for kind, _, _ in ops], [item for _, item, _ in ops], [v for _, _, v in ops]]
        if self.rng.random() < 0.1:
            one = self.rng.choice(lists)
            one[-1:] = [] if self.rng.random() < 0.5 else [0, 0]
        return ("commit_lists", site) + tuple(map(tuple, lists))

    def dummy(self, engine):
        return ("dummy", self.site(engine))

    def epoch(self, engine):
        n = engine.network
        free = [i for i in range(n.sites) if not n.parents(i)] if n else []
        site = self.rng.choice(free) if free and self.rng.random() < 0.8 else self.site(engine)
        now = n.stamps[site][0] if n and site < n.sites else 0
        near = [0, now, min(now + 1, U32), min(now + 1, U32), min(now + 7, U32), max(now - 1, 0)]
        return ("epoch", site, self.rng.choice(near) if self.rng.random() < 0.9 else word(self.rng))

    def likely(self, wanted, otherwise):
        """One of those that are wanted, most often."""
        return self.rng.choice(wanted) if wanted and self.rng.random() < 0.7 else otherwise

    def deliver(self, engine):
        n = engine.network
        moving = sorted(line for line in n.lines if n.arrived[line] < len(n.held[line])) if n else []
        return ("deliver",) + self.likely(moving, self.pair(engine))

    def children(self, engine):
        """The sites with parents."""
        return sorted({c for _, c in engine.network.lines}) if engine.network else []

    def schedule(self, engine):
        n, inner = engine.network, self.children(engine)
        ready = [j for j in inner if all(n.arrived[p, j] for p in n.parents(j))]
        return ("schedule", self.likely(ready, self.likely(inner, self.site(engine))))

    def waiting(self, engine):
        return ("waiting", self.likely(self.children(engine), self.site(engine)))

    def collect(self, engine):
        return ("collect",)

    def round(self, engine):
        """A round, often with a collect straight after it; at times behind calls that bring it to its bounds."""
        self.plan = self.to_its_bounds(engine.network) + [("round",)] + self.rng.choice([[], [("collect",)], [("collect",)]])
        return self.plan.pop(0)

    def to_its_bounds(self, n):
        """Calls that make 15 or 16 messages of those on a line, all of them arrived or not, or that leave one epoch or none above the greatest."""
        lines = sorted(n.lines) if n else []
        if lines and self.rng.random() < 0.1:
            p, child = self.rng.choice(lines)
            held = max(len(n.held[p, c]) for c in n.children(p))
            dummies = [("dummy", p)] * (self.rng.choice([HELD - 1, HELD]) - held)
            return dummies + [("deliver", p, child)] * self.rng.choice([0, HELD])
        if n and self.rng.random() < 0.05:
            return [("epoch", self.rng.choice([i for i in range(n.sites) if not n.parents(i)]), self.rng.choice([U32 - 1, U32]))]
        return []

    def stages(self, engine):
        """The first call of a round that is made by its calls: sites without parents get a higher epoch; then, in the order of places, each hears what there is and sends a
        dummy. At its end, or where it stops before, comes a collect.
        """
        n = engine.network
        if n:
            top = max(epoch for epoch, _ in n.stamps)
            self.plan = [("epoch", i, min(top + 1, U32)) for i in range(n.sites) if not n.parents(i)]
            order = sorted(range(n.sites), key=lambda i: n.places[i])
            self.hearing = order[: self.rng.choice([n.sites, n.sites, n.sites - 1, self.rng.randint(0, n.sites)])]
        return self.going_on(engine)

    def going_on(self, engine):
        """The next call of the round by stages, or one that was to come first."""
        n = engine.network
        if self.plan:
            return self.plan.pop(0)
        if not self.hearing or not n or self.hearing[0] >= n.sites:
            self.hearing = []
            return ("collect",)
        j = self.hearing[0]
        moving = [p for p in n.parents(j) if n.arrived[p, j] < len(n.held[p, j])]
        if moving:
            return ("deliver", moving[0], j)
        if n.parents(j) and all(n.arrived[p, j] for p in n.parents(j)):
            return ("schedule", j)
        return ("dummy", self.hearing.pop(0))

    def table(self, engine):
        return ("table", self.site(engine))

    def stamp(self, engine):
        return ("stamp", self.site(engine))

    def line(self, engine):
        return ("line",) + self.pair(engine)

    def places(self, engine):
        return ("places",)

    def base(self, engine):
        return ("base",)

    def origin(self, engine):
        made = engine.network.history if engine.network else []
        reads = [(k, a) for k, (_, _, ops) in enumerate(made) for a, (kind, _, _) in enumerate(ops) if kind == 0]
        return ("origin",) + self.likely(reads, (below(self.rng, len(made), 0.3), self.rng.choice([*range(10), U32])))

    def export(self, engine):
        length = len(engine.export(10**6)[1])
        return ("export", self.rng.choice([0, 15, 16, max(length - 1, 0), length, length, length + 7, 40000]))

    def step(self, engine):
        """A call that a line of a script can make."""
        name = self.rng.choice(["set_up", "commit", "commit", "dummy", "epoch", "deliver", "deliver", "schedule", "schedule"])
        return getattr(self, name)(engine)

    def script(self, engine):
        text = line(self.step(engine))
        return ("script", misspelt(self.rng, text) if self.rng.random() < 0.4 else text)

    def run(self, engine):
        lines = [self.script(engine)[1] for _ in range(self.rng.choice([0, 1, 3, 10, 30]))]
        return ("run", b"\n".join(lines) + self.rng.choice([b"", b"\n", b"\n\n"]))

    def poke(self, words):
        at, length = self.rng.choice(layout.parts(words))
        place = at + self.rng.randrange(length)
        now = words[place]
        self.undo.append(("poke", place, now))
        near = [(now + d) % 2**32 for d in (-1, 1, 2, 8)]
        return ("poke", place, self.rng.choice(near) if self.rng.random() < 0.5 else word(self.rng))

    def copy(self, engine):
        return ("copy",)

    def state(self, engine):
        self.undo.clear()
        rng = self.rng
        return ("state", rng.randrange(2**32), rng.choice([0, 3, 20, 254, RECORDS]), rng.choice([0, 1, 3, HELD]))

    def held(self, engine):
        """A state with many messages on its lines, whose commits often share items and timestamps."""
        self.undo.clear()
        return ("state", self.rng.randrange(2**32), self.rng.choice([8, 20, 60]), HELD)

    def few(self, engine):
        """A state with few records, quickly made and worked through."""
        self.undo.clear()
        return ("state", self.rng.randrange(2**32), self.rng.choice([3, 8, 20]), self.rng.choice([0, 1, 3]))

    def noise(self, engine):
        self.undo.clear()
        return ("noise", self.rng.randrange(2**32))

    def file(self, engine):
        data = file(self.rng, engine)
        name = self.rng.choice(["read", "record", "records"])
        return (name, data, below(self.rng, files.read(data).records, 0.2)) if name == "record" else (name, data)

    def record_from(self, engine):
        data = file(self.rng, engine)
        seen = files.examined(data)
        sites, items, places = seen.sites, seen.items, seen.places
        if seen.number:
            part = data[: max(0, len(data) - files.TRAILER)]
            starts, sites, items = [0], SITES, ITEMS
        else:
            part, starts = files.part(data), [0] + [end for _, end in seen.found]
        at = self.likely(starts, self.rng.choice([8, len(part), len(part) + 1, self.rng.randint(0, len(part))]))
        sites, items = self.likely([sites], self.rng.choice([0, 1, 3, 9])), self.likely([items], self.rng.choice([0, 1, 2, 65]))
        return ("record_from", part, at, sites, items, self.likely([places], table(self.rng)))

    def compare(self, engine):
        """By the places of an order or by a table that no order has; the timestamps by the same, or by another order."""
        places = table(self.rng)
        by = self.likely([places], order(self.rng, SITES))
        first = any_stamp(self.rng, by)
        both = [first, beside(self.rng, first, by)]
        self.rng.shuffle(both)
        return ("compare", *both, places)

    def compare_lent(self, engine):
        first, other = struct(self.rng), struct(self.rng)
        second = list(first)
        for k in self.rng.sample(range(len(first)), self.rng.choice([0, 1, 1, 2])) + self.rng.choice([[], [1]]):
            second[k] = other[k]
        return ("compare_lent", tuple(first), tuple(second), table(self.rng))
