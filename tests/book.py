"""The book of the calls and the one-copy run, written from the specification alone: what must be seen after calls from an accepted set-up.

The book is fed each call's arguments, whether it was accepted and, of a schedule, the timestamp that it answered. It has a timestamp for each site and the commits with
their operations as lent, those that collects removed too. The run works them one after another by rising timestamp, on one copy of each item. An accepted round counts as
its calls, each noted with what it answers when it is made alone.
"""
import collections
import copy

import model
from limits import RECORDS


def worked(table, ops):
    """Operations work on a table in list order; they come back with each read's value."""
    done = []
    for kind, item, v in ops:
        if kind == 1:
            table[item] = v
        done.append((kind, item, table[item]))
    return tuple(done)


class Run:
    """Commits worked from a table on, by rising timestamp, equal ones in the order given."""

    def __init__(self, places, start, commits):
        self.keys = [model.key(places, stamp) for _, stamp, _ in commits]
        self.order = sorted(range(len(commits)), key=lambda k: self.keys[k])
        self.tables, self.shown, table = [tuple(start)], {}, list(start)
        for k in self.order:
            self.shown[k] = worked(table, commits[k][2])
            self.tables.append(tuple(table))

    def up_to(self, key):
        """The table after exactly the commits not later than a timestamp."""
        return self.tables[sum(own <= key for own in self.keys)]


def round_calls(n):
    """The calls that an accepted round counts as. Each is worked out on what the ones before leave, so it is to be made before the next is asked for."""
    new = 1 + max(epoch for epoch, _ in n.stamps)
    yield from [("epoch", i, new) for i in range(n.sites) if not n.parents(i)]
    for j in model.site_order(n.sites, n.lines):
        parents = n.parents(j)
        for p in parents:
            yield from [("deliver", p, j)] * (len(n.held[p, j]) - n.arrived[p, j])
        while parents and all(n.arrived[p, j] for p in parents):
            yield ("schedule", j)
        yield ("dummy", j)


class Book:
    def __init__(self, sites, items):
        self.items = items
        self.places = model.places_by(model.site_order(sites, model.lines_of(items)))
        self.stamps = [(0, ((i, 0),)) for i in range(sites)]
        self.commits = []
        self.values = []  # that each commit answered for its reads
        self.removed = set()  # the numbers of commits
        self.points = []  # of each collect: how many commits there were, up to which timestamp it removed them, and how many it removed
        self.rounds = []  # of each round: how many commits there were
        self.wrong = []  # what was answered otherwise than the book has it, in words

    def expect(self, what, found, wanted):
        if found != wanted:
            self.wrong.append("%s: %.300r, and by the book %.300r" % (what, found, wanted))

    def key(self, stamp):
        return model.key(self.places, stamp)

    def raise_count(self, i, answered):
        epoch, tuples = self.stamps[i]
        self.stamps[i] = (epoch, tuples[:-1] + ((i, tuples[-1][1] + 1),))
        self.expect("timestamp answered", answered, self.stamps[i])

    # ---- accepted calls
    def commit(self, i, ops, stamp, values):
        self.raise_count(i, stamp)
        self.commits.append((i, self.stamps[i], tuple(ops)))
        self.values.append(values)

    def dummy(self, i, stamp):
        self.raise_count(i, stamp)

    def epoch(self, i, new):
        self.stamps[i] = (new, self.stamps[i][1])

    def schedule(self, j, parent, stamp):
        self.stamps[j] = (stamp[0], stamp[1] + self.stamps[j][1][-1:])

    def collect(self, removed):
        point = min(map(self.key, self.stamps))
        before = len(self.removed)
        self.removed |= {k for k, (_, stamp, _) in enumerate(self.commits) if self.key(stamp) <= point}
        self.points.append((len(self.commits), point, len(self.removed) - before))
        self.expect("how many records a collect removed", removed, len(self.removed) - before)

    # ---- what must be seen
    def table(self):
        """The run's values after all commits."""
        return Run(self.places, [0] * len(self.items), self.commits).tables[-1]

    def check_round(self, n):
        """Holds a network right after a round against the book: every commit is applied at all its copies, and a collect would remove all that are left."""
        table = self.table()
        self.expect("copies after a round", self.held(n.tables), self.held([table] * len(n.tables)))
        self.expect("commits that messages name after a round", n.named(), [])
        late = [stamp for _, stamp, _ in self.commits if any(self.key(stamp) > self.key(own) for own in n.stamps)]
        self.expect("commits that are later than a site after a round", late, [])
        after = model.Engine()
        after.network = copy.deepcopy(n)
        self.expect("a collect after a round", after.collect(), (0, len(self.commits) - len(self.removed)))
        self.expect("what it leaves", (after.network.history, tuple(after.network.base)), ([], table))

    def check(self, n):
        """Holds a network against the book."""
        zeros = [0] * len(self.items)
        run = Run(self.places, zeros, self.commits)
        kept = [k for k in range(len(self.commits)) if k not in self.removed]
        history = [self.commits[k][:2] + (run.shown[k],) for k in kept]
        reads = [tuple(v for kind, _, v in run.shown[k] if kind == 0) for k in range(len(self.commits))]
        self.expect("values read", self.values, reads)
        self.expect("history", n.history, history)
        self.expect("timestamps", n.stamps, self.stamps)
        self.expect("copies", self.held(n.tables), self.held([run.up_to(self.key(stamp)) for stamp in self.stamps]))
        # what was removed comes first, and left the base values
        self.expect("commits removed, in turn", set(run.order[: len(self.removed)]), self.removed)
        self.expect("base", tuple(n.base), run.tables[len(self.removed)])
        self.expect("flag", n.folded, self.removed != set())
        for count, point, _ in self.points:
            early = [stamp for _, stamp, _ in self.commits[count:] if self.key(stamp) <= point]
            self.expect("commits at or before the point of a collect before them", early, [])
        # the run over what is kept, from the base values on
        run = Run(n.places, n.base, n.history)
        self.expect("history from the base", n.history, [one[:2] + (run.shown[k],) for k, one in enumerate(n.history)])
        self.expect("copies from the base", self.held(n.tables), self.held([run.up_to(self.key(stamp)) for stamp in n.stamps]))

    def shows(self):
        """What calls have to lead to, for the book to say something of it."""
        removed, count = len(self.removed), len(self.commits)
        folding = [made for made, _, gone in self.points if gone]
        latest = max((self.key(stamp) for _, stamp, _ in self.commits), default=None)
        return {
            "commits, none removed": 0 == removed < count,
            "some removed and some kept": 0 < removed < count,
            "all removed": 0 < removed == count,
            "some removed by several collects": len(folding) > 1,
            "others removed than the first made": self.removed != set(range(removed)),
            "commits behind a collect that removed some": any(made < count for made in folding),
            "more commits than a history holds": count > RECORDS,
            "a value read that is not 0": any(map(any, self.values)),
            "a site that is behind": count > 0 and any(self.key(stamp) < latest for stamp in self.stamps),
            "several rounds": len(self.rounds) > 1,
            "a round before all commits": any(made == 0 for made in self.rounds) and count > 0,
            "commits between two rounds": len(set(self.rounds)) > 1,
            "commits behind a round": any(0 < made < count for made in self.rounds),
        }

    def held(self, tables):
        """Of tables, one for each site, the values of the items that the site owns or copies."""
        holds = lambda i, x: self.items[x][0] == i or self.items[x][1] >> i & 1
        return [{x: table[x] for x in range(len(self.items)) if holds(i, x)} for i, table in enumerate(tables)]


class Witnessed(model.Engine):
    """A model that keeps the book of its calls from an accepted set-up on, as long as nobody else writes to its state, and holds the state against it where that ends."""

    def __init__(self):
        super().__init__()
        self.book = None
        self.wrong = []  # what is not as the book has it, in words
        self.shown = collections.Counter()  # how many books showed what
        self.calls = []  # that the last round counts as

    def close(self):
        if self.book:
            self.book.check(self.network)
            self.told()
            self.shown.update(self.book.shows())

    def told(self):
        """What the book found wrong."""
        self.wrong += self.book.wrong
        self.book.wrong = []

    def by_the_round(self, n):
        """Holds a network right after a round against the book."""
        self.book.check_round(n)
        self.told()

    def take(self, network):
        self.close()
        self.book = None
        super().take(network)

    def set_up(self, sites, items, primaries, masks):
        self.close()
        answer = super().set_up(sites, items, primaries, masks)
        if answer[0] == 0:
            self.book = Book(sites, list(zip(primaries, masks)))
        return answer

    def round(self):
        """The round is made on a copy; here its calls are made one by one, by which the book notes them. They must be accepted, and leave what the round leaves."""
        alone, self.calls = model.Engine(), []
        alone.network = copy.deepcopy(self.network)
        answer = alone.round()
        if self.book and answer[0] == 6:
            self.wrong.append("round answers 6")
        if answer[0] == 0:
            for call in round_calls(self.network):
                self.calls.append(call)
                number = getattr(self, call[0])(*call[1:])[0]
                if number:
                    self.wrong.append("%r in a round answers %d" % (call, number))
            if self.network != alone.network:
                self.wrong.append("a round leaves another network than its calls")
        if self.book and answer[0] == 0:
            self.book.rounds.append(len(self.book.commits))
            self.by_the_round(self.network)
        return answer


def noting(name):
    """The call of a name, noted in the book where it is accepted; from a set-up on no call answers 6."""

    def called(self, *arguments):
        answer = getattr(model.Engine, name)(self, *arguments)
        if self.book and answer[0] == 0:
            getattr(self.book, name)(*arguments, *answer[1:])
        if self.book and answer[0] == 6:
            self.wrong.append("%s answers 6" % name)
        return answer

    return called


for name in ("commit", "dummy", "epoch", "schedule", "collect"):
    setattr(Witnessed, name, noting(name))
