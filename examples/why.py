#!/usr/bin/env python3
"""Why: technics owns an offset, the studio works out a seat state from it, and the door copies both. How often does the door show a seat state that is fresher than its offset?

    examples/why.py     after bindings/build

Technics measures again and again and numbers its offsets; a seat state has the number of the offset that it was worked out from. The same messages come at the same moments to two
doors, over three lines that are equally quick and keep the order sent. One door applies what arrives, as a script does that copies every change to every holder. The other is
Gevrolen's. After each event both are looked at: a seat state above its offset was worked out from one that the door does not have.
"""
import collections
import os
import pathlib
import random
import sys

ROOT = pathlib.Path(__file__).resolve().parent.parent
sys.path.insert(0, os.environ.get("GEVROLEN_FOLDER", str(ROOT / "target" / "gevrolen")))
from gevrolen import MESSAGES, READ, WRITE, Network, Number, Refused  # noqa: E402

TECHNICS, STUDIO, DOOR = 0, 1, 2
OFFSET, SEAT = 0, 1
LINES = [(TECHNICS, STUDIO), (TECHNICS, DOOR), (STUDIO, DOOR)]
LOOKS = 30_000


class Script:
    """Applies what arrives, when it arrives."""

    def __init__(self):
        self.lines = {line: collections.deque() for line in LINES}
        self.tables = [[0, 0] for _ in range(3)]

    def write(self, site, item, value):
        self.tables[site][item] = value
        for line in LINES:
            if line[0] == site:
                self.lines[line].append((item, value))

    def receive(self, parent, child):
        item, value = self.lines[parent, child].popleft()
        self.tables[child][item] = value

    def table(self, site):
        return self.tables[site]


class Engine:
    """The same by calls on a network, which raises where one is refused."""

    def __init__(self):
        self.network = Network(strict=True)
        self.network.set_up(3, 2, [TECHNICS, STUDIO], [0b110, 0b100])

    def write(self, site, item, value):
        self.network.collect()  # so that the history never fills up
        self.network.commit(site, [(READ, OFFSET, 0), (WRITE, item, value)])

    def receive(self, parent, child):
        self.network.deliver(parent, child)
        try:
            while True:
                self.network.schedule(child)
        except Refused as refused:
            if refused.number != Number.PARENT_SILENT:
                raise

    def table(self, site):
        return self.network.table(site).values

    def on_the_way(self, line):
        answer = self.network.line(*line)
        return answer.held - answer.arrived

    def room(self, site):
        """Whether the site may write: no line from it is full."""
        return all(self.network.line(*line).held < MESSAGES for line in LINES if line[0] == site)


def event(chance, script, engine, measured):
    """Technics measures, or a line brings a message, to both; the studio works out a seat state from each offset that it hears of. How many offsets there are then."""
    kind = chance.randrange(4)
    if kind == 3:
        if not engine.room(TECHNICS):
            return measured
        measured += 1
        for one in (script, engine):
            one.write(TECHNICS, OFFSET, measured)
        return measured
    parent, child = LINES[kind]
    if engine.on_the_way((parent, child)) and (child == DOOR or engine.room(STUDIO)):
        for one in (script, engine):
            one.receive(parent, child)
            if child == STUDIO:
                one.write(STUDIO, SEAT, one.table(STUDIO)[OFFSET])
    return measured


def main():
    chance, script, engine = random.Random(35), Script(), Engine()
    fresher, behind, measured = [0, 0], [0, 0], 0
    for _ in range(LOOKS):
        measured = event(chance, script, engine, measured)
        for k, one in enumerate((script, engine)):
            offset, seat = one.table(DOOR)
            fresher[k] += seat > offset
            behind[k] += measured - seat
    print("{:,} looks at the door, while technics measured {:,} offsets".format(LOOKS, measured))
    print("applied as it arrives:  a seat state fresher than its offset in {:,} looks, {:.1f} offsets behind on average".format(fresher[0], behind[0] / LOOKS))
    print("by Gevrolen:            a seat state fresher than its offset in {:,} looks, {:.1f} offsets behind on average".format(fresher[1], behind[1] / LOOKS))


if __name__ == "__main__":
    main()
