#!/usr/bin/env python3
"""Plays the stored cases of tests/cases and compares what is answered with the stored answers (NAME.answers). The exit status is 1 where something differs.

    cases.py model          on the model
    cases.py built          on what was built: the calls on the library, through the Python module, and the scripts on the program gevrolen
    cases.py model NAME     prints what the model answers

`script`, `long`, `moved` and `empty` are scripts; so is the example of crates/gevrolen. The lines of `calls`, beside those of a script:

    # ..                        a comment, answered as it is
    w SITE                      waiting report: the number, how many items, the items as they come, and behind them such places as are not 0: there are none
    t NUMBER OPERATION          origin of a read, by its record and operation: the number, the kind (1 start, 2 commit, 3 folded; 0 where refused), the commit's record
                                number
    n                           the places of sites: the number, and eight of them
    g                           collect: the number, and how many records it removed
    z                           round: the number, and the epoch that it set
    j SITE                      a site's timestamp: the number, the epoch, the tuples
    m SITE                      a site's table: the number, the values
    i PARENT CHILD              a line: the number, how many messages it holds, how many have arrived
    y                           the base: the number, whether records were removed (1) or not (0), how many values, the values, and behind them such places as are not 0:
                                there are none
    v EPOCH LENGTH TUPLES ..    two timestamps compared, each as a struct: its epoch, its length field, the tuples in front of places full of EE (- for none); behind the
                                second eight places with commas, or nothing for the numbers. The order, whether the epochs differ (1) or not (0), how many leading
                                tuples are shared; then the same with the two exchanged
    k PLACE WORD                a word of the state set by hand, answered as it is
    o SITE KIND                 commit by two records: a read of item 0, and an operation of that kind on item 1 with the value -1
    u SITE KINDS ITEMS VALUES   commit by separate lists of so many entries, writes of item 0
    = BYTES, + BYTES            the file anew, or more of it: how many bytes it has
    x SIZE                      export to so many bytes EE, which then are the file: the number and the length
    b, h                        the file's bytes; the bytes of its part
    a                           two sums over the file's bytes, as Adler's
    f                           check of the file: number, records, sites, items, length of the part, eight places; then the base as `y` has it, but for one of as many
                                values as there are items, all 0, where no records were removed
    r NUMBER                    a record by its number: number, how many operations, then the record with all eight places of operations
    @ BYTE SITES ITEMS          the record that starts at a byte of the part: number, where the next starts, how many operations, the record likewise; by the places that the
                                check answers, or by eight behind it, with commas

Behind a refused step stands whether every word of the state is as it was: by the specification, always.
"""
import pathlib
import subprocess
import sys
import zlib

import files
import layout
import model
from limits import ITEMS, SITES

ROOT = pathlib.Path(__file__).resolve().parent.parent
CASES = ROOT / "tests" / "cases"
EXAMPLE = ROOT / "crates" / "gevrolen"
SCRIPTS = ["script", "long", "moved", "empty"]
EE = 0xEE
NUMBERS = list(range(SITES))


class Model:
    """The model's answers. It keeps no words but those that were laid by hand."""

    def __init__(self):
        self.engine = model.Engine()
        self.laid = [0] * layout.WORDS
        for name in ("script", "commit", "commit_lists", "collect", "round", "stamp", "table", "line"):
            setattr(self, name, getattr(self.engine, name))

    def words(self):
        return None

    def poke(self, place, word):
        if self.engine.network:
            self.laid = layout.words(self.engine.network)
        self.laid[place] = word
        self.engine.take(layout.load(self.laid))

    def waiting(self, site):
        number, items = self.engine.waiting(site)
        return number, len(items), list(items) + [0] * (ITEMS - len(items))

    def origin(self, k, a):
        number, kind, record = self.engine.origin(k, a)
        return number, ("", "start", "commit", "folded").index(kind), record

    def places(self):
        number, places = self.engine.places()
        return number, list(places)

    def base(self):
        number, folded, values = self.engine.base()
        return number, laid_base(folded, values)

    def compare(self, first, second, places):
        order, shared = model.compare(layout.stamp_lent(first), layout.stamp_lent(second), places)
        return (order, 1, 0) if shared is None else (order, 0, shared)

    def export(self, size):
        number, made = self.engine.export(size)
        return number, len(made), made + bytes([EE]) * (size - len(made))

    def read(self, data):
        *found, folded, values = files.read(data)
        return (*found, laid_base(folded, values))

    def record(self, data, k):
        number, site, stamp, operations = files.record(data, k)
        return number, len(operations), (site, stamp, eight(operations))

    def record_from(self, part, at, sites, items, places):
        number, found = files.starting_at(part, at, sites, items, places)
        (site, stamp, operations), after = found or (files.NO_RECORD, 0)
        return number, after, len(operations), (site, stamp, eight(operations))


def eight(operations):
    return operations + ((0, 0, 0),) * (8 - len(operations))


def laid_base(folded, values):
    """A base as its struct has it: the flag, how many values, and 64 places for them."""
    return [int(folded), len(values)] + list(values) + [0] * (ITEMS - len(values))


def base_fields(base):
    """The flag, how many values, the values, and behind them such places as are not 0."""
    end = 2 + base[1]
    return base[:end] + [place for place in base[end:] if place]


def stamp_struct(epoch, length, tuples):
    """The words of a timestamp's struct, places that are not given full of EE."""
    given = [] if tuples == "-" else [int(n) for one in tuples.split(",") for n in one.split(".")]
    return [int(epoch), int(length)] + given + [0x01010101 * EE] * (layout.STAMP - 2 - len(given))


def places_of(text):
    return [int(place) for place in text.split(",")]


def joined(numbers):
    return " ".join(str(n) for n in numbers)


def record_text(first, stamp, operations):
    texts = ["%s%d=%d" % ("rw"[kind], item, value) for kind, item, value in operations]
    tuples = model.tuples_text(stamp[1])
    return " ".join([str(first), str(stamp[0])] + ([tuples] if tuples else []) + texts)


class Calls:
    """The lines of `calls` on the model or the library, with the file of the lines before."""

    def __init__(self, side):
        self.side = side
        self.file = b""

    def answer(self, line):
        letter, text = line[:1].decode(), line[2:].decode()
        plain = {"#": lambda: line.decode(), "b": self.file.hex, "h": self.read, "a": self.sums, "f": self.check, "n": self.places}
        plain |= {"g": lambda: self.step(lambda: joined(self.side.collect())), "z": lambda: self.step(lambda: joined(self.side.round())), "y": self.base}
        named = {"=": lambda: self.put(b"", text), "+": lambda: self.put(self.file, text)}
        named |= {"v": lambda: self.compare(*text.split(" ")), "@": lambda: self.record_from(*text.split(" "))}
        numbered = {"w": self.waiting, "t": self.origin, "k": self.poke, "o": self.records, "u": self.lists, "x": self.export, "r": self.record}
        numbered |= {"j": self.stamp, "m": self.table, "i": self.line}
        if letter in numbered:
            return numbered[letter](*[int(field) for field in text.split(" ")])
        return {**plain, **named}.get(letter, lambda: self.step(lambda: self.side.script(line).decode()))()

    def step(self, call):
        before = self.side.words()
        text = call()
        return text if text[0] == "0" else text + (" unchanged" if self.side.words() == before else " changed")

    def waiting(self, site):
        number, count, places = self.side.waiting(site)
        return joined([number, count] + places[:count] + [place for place in places[count:] if place])

    def origin(self, k, a):
        return joined(self.side.origin(k, a))

    def stamp(self, site):
        number, stamp = self.side.stamp(site)
        return record_text(number, stamp, ())

    def table(self, site):
        number, values = self.side.table(site)
        return joined((number,) + values)

    def line(self, parent, child):
        return joined(self.side.line(parent, child))

    def places(self):
        number, places = self.side.places()
        return joined([number] + places)

    def base(self):
        number, base = self.side.base()
        return joined([number] + base_fields(base))

    def compare(self, *fields):
        first, second = stamp_struct(*fields[:3]), stamp_struct(*fields[3:6])
        places = places_of(fields[6]) if fields[6:] else NUMBERS
        return joined(self.side.compare(first, second, places) + self.side.compare(second, first, places))

    def poke(self, place, word):
        self.side.poke(place, word)
        return "k %d %d" % (place, word)

    def committed(self, number, stamp, values):
        return record_text(number, stamp, [(0, i, v) for i, v in enumerate(values)])

    def records(self, site, kind):
        return self.step(lambda: self.committed(*self.side.commit(site, [(0, 0, 7), (kind, 1, -1)])))

    def lists(self, site, kinds, items, values):
        return self.step(lambda: self.committed(*self.side.commit_lists(site, [1] * kinds, [0] * items, [9] * values)))

    def put(self, front, text):
        self.file = front + bytes.fromhex(text)
        return str(len(self.file))

    def export(self, size):
        number, length, self.file = self.side.export(size)
        return joined([number, length])

    def sums(self):
        both = zlib.adler32(self.file)
        return joined([both % 65536, both // 65536])

    def part(self):
        _, start, length, *_ = self.side.read(self.file)
        return self.file[start : start + length]

    def check(self):
        number, _, length, records, sites, items, places, base = self.side.read(self.file)
        told = base_fields(base) if base != laid_base(False, [0] * items) else []
        return joined([number, records, sites, items, length, *places] + told)

    def read(self):
        number, part = self.side.read(self.file)[0], self.part()
        return joined([number] + ([part.hex()] if part else []))

    def record(self, k):
        number, count, found = self.side.record(self.file, k)
        return "%d %d %s" % (number, count, record_text(*found))

    def record_from(self, at, sites, items, table=None):
        places = places_of(table) if table else self.side.read(self.file)[-2]
        number, after, count, found = self.side.record_from(self.part(), int(at), int(sites), int(items), places)
        return "%d %d %d %s" % (number, after, count, record_text(*found))


def calls(side):
    driver = Calls(side)
    lines = (CASES / "calls").read_bytes().removesuffix(b"\n").split(b"\n")
    return "".join(driver.answer(line) + "\n" for line in lines).encode()


def stored():
    """The input and the stored answers of each case that is a script, by name."""
    found = {name: (CASES / name, CASES / (name + ".answers")) for name in SCRIPTS}
    return {**found, "gevrolen": (EXAMPLE / "stdin", EXAMPLE / "stdout")}


def by_model():
    answers = {name: model.Engine().run(source.read_bytes()) for name, (source, _) in stored().items()}
    return {**answers, "calls": calls(Model())}


def by_build():
    from library import Library

    program = ROOT / "crates" / "gevrolen" / "out" / "gevrolen"
    answers = {name: subprocess.run([program], input=source.read_bytes(), stdout=subprocess.PIPE, check=True).stdout for name, (source, _) in stored().items()}
    return {**answers, "calls": calls(Library())}


def differs(name, answers):
    """Where the stored answers differ from these, said in a line."""
    path = stored()[name][1] if name in stored() else CASES / (name + ".answers")
    wanted, found = (text.decode().split("\n") for text in (path.read_bytes(), answers))
    for n, (a, b) in enumerate(zip(wanted, found), 1):
        if a != b:
            return "%s: line %d is %r, and the answer %r" % (path.relative_to(ROOT), n, a, b)
    if len(wanted) != len(found):
        return "%s: %d lines, and %d answers" % (path.relative_to(ROOT), len(wanted) - 1, len(found) - 1)
    return None


def main():
    answers = {"model": by_model, "built": by_build}[sys.argv[1]]()
    if len(sys.argv) > 2:
        sys.stdout.buffer.write(answers[sys.argv[2]])
        return 0
    said = [text for text in map(differs, answers, answers.values()) if text]
    for text in said:
        print(text)
    return 1 if said else 0


if __name__ == "__main__":
    sys.exit(main())
