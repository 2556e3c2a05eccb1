"""Gevrolen, a proved replication engine for groups of small houses, from Python: this file and the shared library of its version beside it.

A house (here: a site) owns some items and keeps copies of others'. It commits on its own and sends afterwards; what arrives is applied in timestamp order.

    >>> network = Network()
    >>> network.set_up(3, 2, [0, 1], [6, 4])    # item 0 at site 0 with copies at 1 and 2, item 1 at site 1 with a copy at 2
    Answer(number=0)
    >>> network.commit(0, [(WRITE, 0, 5)])
    Committed(number=0, stamp=Stamp(epoch=0, tuples=((0, 1),)), values=())
    >>> network.deliver(0, 1)
    Answer(number=0)
    >>> network.schedule(1)
    Scheduled(number=0, parent=0, stamp=Stamp(epoch=0, tuples=((0, 1),)))
    >>> network.table(1).values
    (5, 0)
    >>> network.commit(1, [(READ, 0, 0), (WRITE, 1, 7)]).values
    (5,)
    >>> network.commit(1, [(READ, 1, 0), (WRITE, 1, 6), (READ, 1, 0)]).values    # before the write, and after it
    (7, 6)
    >>> network.origin(2, 0).record, network.origin(2, 2).record
    (1, 2)
    >>> network.waiting(2).items    # the earliest waiting write first: that of item 0 at 0.1, then that of item 1 at 0.1,1.1
    (0, 1)
    >>> answer = network.schedule(2)
    >>> answer.number == Number.PARENT_SILENT
    True
    >>> explain(answer.number)
    'A parent has nothing arrived: deliver from it, and where it has sent nothing let it send a dummy.'

Timestamps are compared by the places of the sites, which the network and each history file have; a table of places is eight numbers, entry k the place of site k:

    >>> network.places()
    Places(number=0, places=(0, 1, 2, 3, 4, 5, 6, 7))
    >>> compare(network.stamp(1).stamp, network.stamp(0).stamp, network.places().places)
    Compared(order=1, shared=1)

The history holds 256 commits. A collect folds those that are not later than any site's timestamp into a base value for each item, and makes room; here site 2 has heard of
none yet, then of the first:

    >>> network.collect()
    Collected(number=0, removed=0)
    >>> network.deliver(0, 2).number, network.deliver(1, 2).number, network.schedule(2).number, network.collect()
    (0, 0, 0, Collected(number=0, removed=1))
    >>> network.base()
    Base(number=0, folded=True, values=(5, 0))

A round lets every site hear of every commit made before it; a collect straight after it removes all of them:

    >>> network.round()
    Rounded(number=0, epoch=1)
    >>> network.table(2).values, network.collect()
    ((5, 6), Collected(number=0, removed=2))

A state is saved with its version, and loaded by the same:

    >>> Network.load(network.save()).table(2).values
    (5, 6)

A call that can be refused returns a named tuple whose first field is `number`: 0 where the call was accepted. A refusal is an answer: where the number is not 0 the
other fields are 0 or empty, and the state is as it was. A network made with strict=True raises Refused instead:

    >>> Network(strict=True).dummy(0)
    Traceback (most recent call last):
        ...
    gevrolen.Refused: 6: The state is not well shaped, or was never set up: set it up, or load a saved one.

An argument of a wrong type raises TypeError; a number that does not fit its field raises OverflowError; a table of places that are not eight raises ValueError.

Every call takes the network's lock. What must not be parted, as a look and the commit that rests on it, goes under `with network.locked():`.

Where the library stands elsewhere, the environment variable GEVROLEN_LIBRARY names it. One of another version is refused at the import, by ImportError.
"""
import ctypes
import enum
import functools
import itertools
import operator
import os
import struct
import threading
import zlib
from array import array
from collections import namedtuple

__version__ = "0.8.0"

WORDS = 28116  # the words of a state, four bytes each
SITES, ITEMS, OPERATIONS, MESSAGES, RECORDS = 8, 64, 8, 16, 256
FILE_BYTES = 35096  # the longest history file
SAVED_BYTES = 112484  # a saved state
READ, WRITE = 0, 1

_ANSWER, _ANSWERS = 512, 65536  # the bytes lent for a line's answer, and for those of many lines
_ORIGINS = ("", "start", "commit", "folded")  # the kinds of origins by their numbers

_CAUSES = [
    ("ACCEPTED", "It was accepted."),
    ("WRONG_SITES", "The sites are not 1 to 8: set up fewer, or another group for the rest."),
    ("WRONG_ITEMS", "The items are not 1 to 64, or a list has another length: give a primary and a mask for each item."),
    ("NO_SUCH_PRIMARY", "An item's primary is no site: correct it."),
    ("WRONG_MASK", "An item's mask names a missing site or the primary itself: clear that bit."),
    ("CYCLE", "The lines form a cycle: leave out a copy or move a primary, so that no site hears of itself."),
    ("NO_STATE", "The state is not well shaped, or was never set up: set it up, or load a saved one."),
    ("NO_SUCH_SITE", "There is no such site: correct its number."),
    ("WRONG_OPERATIONS", "The operations are not 1 to 8, or their lists differ in length: split the commit, or mend the lists."),
    ("UNKNOWN_OPERATION", "An operation has an unknown kind or item: correct it."),
    ("NO_COPY", "A read of an item that the site neither owns nor copies: read it where it is held."),
    ("NOT_PRIMARY", "A write of an item that another site owns: commit it there."),
    ("HISTORY_FULL", "The history holds 256 commits: export it, run a round, then collect."),
    ("LINE_FULL", "A line that would get a message holds 16: deliver and schedule at the child, then try again."),
    ("COUNT_FULL", "The site's own count, in a round any site's, is 4,294,967,295: export the history, then set up again."),
    ("HAS_PARENTS", "The site has parents: raise the epoch at the sites without; it comes with their messages."),
    ("EPOCH_NOT_ABOVE", "The new epoch is not above the present: take a higher one; where a round finds none above 4,294,967,295, export the history, then set up again."),
    ("NO_SUCH_LINE", "There is no such line: correct the two sites."),
    ("NOTHING_ON_THE_WAY", "Nothing is on the way: every message on the line has arrived."),
    ("NO_PARENTS", "The site has no parents: it never schedules."),
    ("PARENT_SILENT", "A parent has nothing arrived: deliver from it, and where it has sent nothing let it send a dummy."),
    ("NO_FILE", "The bytes are under 16 or lack the mark: they do not end with a history file, or it is cut off at its end."),
    ("WRONG_DISTANCE", "The distance is under 16 or above the length: the file is cut off or damaged."),
    ("INVALID_FILE", "The part is no valid file: it is damaged, take another copy."),
    ("NO_SUCH_RECORD", "There is no such record: the file has fewer."),
    ("BUFFER_TOO_SHORT", "The buffer is too short for the file: lend a longer one."),
    ("NO_SUCH_READ", "There is no such commit or operation in the history, or it is no read: correct the numbers."),
]

Number = enum.IntEnum("Number", [(name, k) for k, (name, _) in enumerate(_CAUSES)])
Number.__doc__ = "What the first field of an answer can be, by name."


def explain(number):
    """The cause behind a number, and what to do about it, in a sentence."""
    return _CAUSES[Number(number)][1]


class Refused(Exception):
    """A refusal, where it is raised: its number, and the sentence on it."""

    def __init__(self, number, sentence):
        super().__init__(number, sentence)
        self.number, self.sentence = number, sentence

    def __str__(self):
        return "%d: %s" % self.args


def _refused(number):
    known = number < len(_CAUSES)
    return Refused(number, explain(number) if known else "The number is none that version %s knows: take module and library of one version." % __version__)


# ---- answers
class Stamp(namedtuple("Stamp", "epoch tuples")):
    """A timestamp: an epoch and tuples (site, count), the places of the sites rising. It prints as a script prints it."""

    __slots__ = ()

    def __str__(self):
        return "%d %s" % (self.epoch, ",".join("%d.%d" % one for one in self.tuples))

    def _unordered(self, other):
        raise TypeError("the order of timestamps is not that of tuples: use gevrolen.compare")

    __lt__ = __le__ = __gt__ = __ge__ = _unordered


Answer = namedtuple("Answer", "number")
Committed = namedtuple("Committed", "number stamp values")
Dummied = namedtuple("Dummied", "number stamp")
Scheduled = namedtuple("Scheduled", "number parent stamp")
Report = namedtuple("Report", "number items")
Table = namedtuple("Table", "number values")
Stamped = namedtuple("Stamped", "number stamp")
Line = namedtuple("Line", "number held arrived")
Places = namedtuple("Places", "number places")
Collected = namedtuple("Collected", "number removed")
Rounded = namedtuple("Rounded", "number epoch")
Base = namedtuple("Base", "number folded values")
Origin = namedtuple("Origin", "number kind record")
Exported = namedtuple("Exported", "number data")
File = namedtuple("File", "number start length records sites items places folded base")
Record = namedtuple("Record", "number site stamp operations")
Compared = namedtuple("Compared", "order shared")


# ---- the structs of gevrolen.h
class _Stamp(ctypes.Structure):
    _fields_ = [("epoch", ctypes.c_uint32), ("length", ctypes.c_uint32), ("tuples", ctypes.c_uint32 * (2 * SITES))]

    def value(self):
        numbers = self.tuples[: 2 * self.length]
        return Stamp(self.epoch, tuple(zip(numbers[::2], numbers[1::2])))


class _Operation(ctypes.Structure):
    _fields_ = [("kind", ctypes.c_uint32), ("item", ctypes.c_uint32), ("value", ctypes.c_int32)]


class _Committed(ctypes.Structure):
    _fields_ = [("stamp", _Stamp), ("count", ctypes.c_uint32), ("values", ctypes.c_int32 * OPERATIONS)]


class _Scheduled(ctypes.Structure):
    _fields_ = [("parent", ctypes.c_uint32), ("stamp", _Stamp)]


class _Report(ctypes.Structure):
    _fields_ = [("count", ctypes.c_uint32), ("items", ctypes.c_uint32 * ITEMS)]


class _Table(ctypes.Structure):
    _fields_ = [("count", ctypes.c_uint32), ("values", ctypes.c_int32 * ITEMS)]


class _Line(ctypes.Structure):
    _fields_ = [("held", ctypes.c_uint32), ("arrived", ctypes.c_uint32)]


class _Base(ctypes.Structure):
    _fields_ = [("folded", ctypes.c_uint32), ("count", ctypes.c_uint32), ("values", ctypes.c_int32 * ITEMS)]

    def value(self):
        return self.folded != 0, tuple(self.values[: self.count])


class _Origin(ctypes.Structure):
    _fields_ = [("kind", ctypes.c_uint32), ("record", ctypes.c_uint32)]


class _File(ctypes.Structure):
    _fields_ = [(name, ctypes.c_size_t) for name in ("start", "length", "records", "sites", "items")]


class _Record(ctypes.Structure):
    _fields_ = [("site", ctypes.c_uint32), ("count", ctypes.c_uint32), ("stamp", _Stamp), ("operations", _Operation * OPERATIONS)]

    def value(self, number):
        operations = tuple([(one.kind, one.item, one.value) for one in self.operations[: self.count]])
        return Record(number, self.site, self.stamp.value(), operations)


class _Compared(ctypes.Structure):
    _fields_ = [("epochs_differ", ctypes.c_uint32), ("shared", ctypes.c_uint32)]


class _Progress(ctypes.Structure):
    _fields_ = [("used", ctypes.c_size_t), ("filled", ctypes.c_size_t)]


_Places = ctypes.c_uint8 * SITES


# ---- the library
_POINTER, _U32, _SIZE = ctypes.c_void_p, ctypes.c_uint32, ctypes.c_size_t
_LIST = [_POINTER, _SIZE]

_FUNCTIONS = {
    "version": (_U32, []),
    "words": (_SIZE, []),
    "set_up": (_U32, [_POINTER, _U32, _U32] + _LIST + _LIST),
    "commit": (_U32, [_POINTER, _U32] + _LIST + [_POINTER]),
    "commit_lists": (_U32, [_POINTER, _U32] + _LIST + _LIST + _LIST + [_POINTER]),
    "dummy": (_U32, [_POINTER, _U32, _POINTER]),
    "epoch": (_U32, [_POINTER, _U32, _U32]),
    "deliver": (_U32, [_POINTER, _U32, _U32]),
    "schedule": (_U32, [_POINTER, _U32, _POINTER]),
    "collect": (_U32, [_POINTER, _POINTER]),
    "round": (_U32, [_POINTER, _POINTER]),
    "waiting": (_U32, [_POINTER, _U32, _POINTER]),
    "table": (_U32, [_POINTER, _U32, _POINTER]),
    "stamp": (_U32, [_POINTER, _U32, _POINTER]),
    "line": (_U32, [_POINTER, _U32, _U32, _POINTER]),
    "origin": (_U32, [_POINTER, _U32, _U32, _POINTER]),
    "places": (_U32, [_POINTER, _POINTER]),
    "base": (_U32, [_POINTER, _POINTER]),
    "compare": (ctypes.c_int32, [_POINTER, _POINTER, _POINTER, _POINTER]),
    "export": (_U32, [_POINTER] + _LIST + [_POINTER]),
    "read": (_U32, _LIST + [_POINTER, _POINTER, _POINTER]),
    "record": (_U32, _LIST + [_SIZE, _POINTER]),
    "record_from": (_U32, _LIST + [_SIZE, _U32, _U32, _POINTER, _POINTER, _POINTER]),
    "script": (_SIZE, [_POINTER] + _LIST + [_POINTER]),
    "run": (None, [_POINTER] + _LIST + _LIST + [_POINTER]),
}


def _text(version):
    """A version's number as text: 800 is 0.8.0."""
    return "%d.%d.%d" % (version // 10000, version // 100 % 100, version % 100)


_VERSION = functools.reduce(lambda number, part: 100 * number + int(part), __version__.split("."), 0)


def _load():
    folder, name = os.path.dirname(os.path.abspath(__file__)), "libgevrolen.so." + __version__.rpartition(".")[0]
    path = os.environ.get("GEVROLEN_LIBRARY", os.path.join(folder, name))
    if not os.path.exists(path):
        raise ImportError("%s is not there: this is gevrolen.py of version %s, which wants the library of that version beside it" % (path, __version__))
    # a call takes microseconds: the interpreter's lock is kept
    library = ctypes.PyDLL(path)
    _compare(path, library)
    for name, (result, arguments) in _FUNCTIONS.items():
        function = getattr(library, "gevrolen_" + name)
        function.restype, function.argtypes = result, arguments
        setattr(library, name, function)
    return library


def _compare(path, library):
    """Refuses a library whose states or signatures may be others than this module's: it would write past the end of a state."""
    if not hasattr(library, "gevrolen_version"):
        raise ImportError("%s is a library from before version 0.8.0, and this is gevrolen.py of version %s: take both from one build" % (path, __version__))
    library.gevrolen_words.restype = _SIZE
    version, words = library.gevrolen_version(), library.gevrolen_words()
    if (version // 100, words) != (_VERSION // 100, WORDS):
        told = (path, _text(version), words, __version__, WORDS)
        raise ImportError("%s is of version %s, with %d words in a state, and this is gevrolen.py of version %s, with %d: take both from one build" % told)


_library = _load()
_byref = ctypes.byref
_buffer = ctypes.create_string_buffer
_nothing = ctypes.c_uint64()  # what the address of an empty list points to


# ---- arguments
def _word(number):
    number = operator.index(number)
    if not 0 <= number < 2**32:
        raise OverflowError("%d does not fit 32 bits" % number)
    return number


def _size(number):
    number = operator.index(number)
    if not 0 <= number < 2**63:
        raise OverflowError("%d is no size" % number)
    return number


def _list(code, numbers):
    """An array of numbers, each of which fits the code's type (OverflowError), and its address."""
    lent = array(code, numbers)
    return lent, lent.buffer_info()[0] if lent else _byref(_nothing)


def _bytes(buffer):
    return buffer if isinstance(buffer, bytes) else bytes(memoryview(buffer))


def _operations(operations):
    lent = (_Operation * max(1, len(operations)))()
    for place, (kind, item, value) in zip(lent, operations):
        place.kind, place.item, place.value = _word(kind), _word(item), operator.index(value)
        if place.value != value:
            raise OverflowError("%d does not fit signed 32 bits" % value)
    return lent


def _stamp(stamp):
    epoch, tuples = stamp
    if len(tuples) > SITES:
        raise OverflowError("%d tuples do not fit a timestamp" % len(tuples))
    lent = _Stamp(_word(epoch), len(tuples))
    for k, (site, count) in enumerate(tuples):
        lent.tuples[2 * k : 2 * k + 2] = _word(site), _word(count)
    return lent


def _places(places):
    table, _ = _list("B", places)
    if len(table) != SITES:
        raise ValueError("a table has %d places, not %d" % (SITES, len(table)))
    return _Places.from_buffer_copy(table)


# ---- saved states: the mark, the version, the number of words, the words, and the CRC-32 of all that; a number has four bytes, the lowest first
_MARK = b"GEVSTATE"
_LEAD = struct.Struct("<8sII")
_BEFORE_BASE = WORDS - 1 - ITEMS  # the words of a state before it had a base

_LOADS = {
    "NOT_SAVED": "The bytes are no saved state: take those that save gave, or bring older ones over by upgrade.",
    "DAMAGED": "The saved state is damaged or cut off: take the one before it.",
    "OTHER_VERSION": "The state was saved by version %s, and this is version %s, which cannot bring it over: take the library of that version.",
    "NO_VERSION": "The bytes are no state of version %s or one before it: they are damaged, or of a later version.",
}


class LoadError(ValueError):
    """Bytes that are not loaded: the cause by its name, and a sentence, which names both versions where they differ."""

    def __init__(self, cause, *versions):
        super().__init__(cause, *versions)
        self.cause = cause

    def __str__(self):
        return _LOADS[self.cause] % self.args[1:]


def _saved(words):
    saved = _LEAD.pack(_MARK, _VERSION, len(words) // 4) + words
    return saved + struct.pack("<I", zlib.crc32(saved))


def _words_of(saved):
    """The words of a saved state, once mark, length, sum and version are seen to be right."""
    if len(saved) < _LEAD.size + 4 or not saved.startswith(_MARK):
        raise LoadError("NOT_SAVED")
    _, version, count = _LEAD.unpack_from(saved)
    if len(saved) != _LEAD.size + 4 * count + 4 or zlib.crc32(saved[:-4]) != int.from_bytes(saved[-4:], "little"):
        raise LoadError("DAMAGED")
    if (version // 100, count) != (_VERSION // 100, WORDS):
        raise LoadError("OTHER_VERSION", _text(version), __version__)
    return saved[_LEAD.size : -4]


def upgrade(old_bytes):
    """A state that this version or one before it saved, as this version saves it. Taken are what `save` gave, the bare words of version 0.7, and those from before a state
    had a base, which gets zeros. All else is refused: LoadError.
    """
    old = _bytes(old_bytes)
    # who changes what the words mean adds the step from the version before here, and in the other bindings
    if old.startswith(_MARK):
        return _saved(_words_of(old))
    if len(old) not in (4 * WORDS, 4 * _BEFORE_BASE):
        raise LoadError("NO_VERSION", __version__)
    return _saved(old.ljust(4 * WORDS, b"\0"))


# ---- calls
def _call(method):
    """A call on a network: under its lock, and where the network is strict a refusal raises."""

    @functools.wraps(method)
    def call(self, *arguments, **named):
        with self._lock:
            answer = method(self, *arguments, **named)
        if self._strict and answer[0]:
            raise _refused(answer[0])
        return answer

    return call


class Network:
    """An owner of a state: zeros, which were never set up, or the bytes that bytes(network) gave. With strict=True a refused call raises Refused."""

    def __init__(self, words=None, strict=False):
        self._strict, self._lock = bool(strict), threading.RLock()
        self._words = (ctypes.c_uint32 * WORDS)()
        if words is not None:
            saved = _bytes(words)
            if len(saved) != 4 * WORDS:
                raise ValueError("a state has %d bytes, not %d" % (4 * WORDS, len(saved)))
            ctypes.memmove(self._words, saved, 4 * WORDS)

    def __bytes__(self):
        """The bare words of the state, in this machine's byte order; `save` gives them with their version."""
        with self._lock:
            return bytes(self._words)

    def save(self):
        """The state with its version and a sum, to be written to a file."""
        return _saved(bytes(self))

    @classmethod
    def load(cls, saved, strict=False):
        """The network that `save` saved. Bytes of another version, and damaged ones, are refused: LoadError."""
        return cls(_words_of(_bytes(saved)), strict)

    def locked(self):
        """The network's lock: what stands under `with network.locked():` is done with no other thread's call between. Each call takes it by itself too."""
        return self._lock

    def copy(self):
        return Network(bytes(self), self._strict)

    __copy__ = copy

    def __deepcopy__(self, memo):
        return self.copy()

    def __reduce__(self):
        return Network, (bytes(self), self._strict)

    def __repr__(self):
        plain = Network(bytes(self))
        table = plain.table(0)
        if table.number:
            return "<Network: %s>" % explain(table.number)
        sites = next(i for i in range(SITES + 1) if plain.stamp(i).number)
        return "<Network: %d sites, %d items>" % (sites, len(table.values))

    @_call
    def set_up(self, sites, items, primaries, masks):
        """Starts a group anew: for each item its primary site and its mask of copies, in which the bit of weight 2 to the power k names site k. Copies may be at any other
        sites, as long as the lines form no cycle. 1 to 5.
        """
        owners, owners_at = _list("I", primaries)
        copies, copies_at = _list("B", masks)
        return Answer(_library.set_up(self._words, _word(sites), _word(items), owners_at, len(owners), copies_at, len(copies)))

    @_call
    def commit(self, site, operations):
        """A commit of 1 to 8 operations (kind, item, value), in list order; a read's value is ignored. A read that follows a write of the same item gives the value written,
        the latest where there are more; every other read gives the value from before the commit. 6 to 14.
        """
        operations = list(operations)
        answer = _Committed()
        number = _library.commit(self._words, _word(site), _operations(operations), len(operations), _byref(answer))
        return Committed(number, answer.stamp.value(), tuple(answer.values[: answer.count]))

    @_call
    def commit_lists(self, site, kinds, items, values):
        """A commit by separate lists, which are refused by 8 where their lengths differ. 6 to 14."""
        (kinds, kinds_at), (items, items_at), (values, values_at) = _list("B", kinds), _list("I", items), _list("i", values)
        answer = _Committed()
        number = _library.commit_lists(
            self._words, _word(site), kinds_at, len(kinds), items_at, len(items), values_at, len(values), _byref(answer)
        )
        return Committed(number, answer.stamp.value(), tuple(answer.values[: answer.count]))

    @_call
    def dummy(self, site):
        """A commit without operations: it raises the site's count and goes to every child. 6, 7, 13, 14."""
        answer = _Stamp()
        number = _library.dummy(self._words, _word(site), _byref(answer))
        return Dummied(number, answer.value())

    @_call
    def epoch(self, site, number):
        """A higher epoch for a site without parents. 6, 7, 15, 16."""
        return Answer(_library.epoch(self._words, _word(site), _word(number)))

    @_call
    def deliver(self, parent, child):
        """The oldest message on the way from parent to child arrives. 6, 7, 17, 18."""
        return Answer(_library.deliver(self._words, _word(parent), _word(child)))

    @_call
    def schedule(self, site):
        """The site takes the earliest of the oldest arrived messages of its parents and applies it. 6, 7, 19, 20."""
        answer = _Scheduled()
        number = _library.schedule(self._words, _word(site), _byref(answer))
        return Scheduled(number, answer.parent, answer.stamp.value())

    @_call
    def collect(self):
        """Folds every commit that is not later than the earliest of all sites' timestamps into the base values, by rising timestamp, equal ones in the order made, removes its
        record and answers how many it removed, which may be none. The records kept are numbered from 0, in the order made. 6, also where a message on a line names a commit
        to be folded, to which no steps from a set-up lead.
        """
        removed = ctypes.c_uint32()
        number = _library.collect(self._words, _byref(removed))
        return Collected(number, removed.value)

    @_call
    def round(self):
        """Lets every site hear: every site without parents gets an epoch one above the greatest at any site; then, in the order of places, all lines into a site are delivered,
        it schedules until refused, and it sends a dummy. It answers the new epoch. In a state that calls led to from a set-up every commit made before it is applied at all its
        copies then. 6; 13 where a line holds 16 messages, 14 where a count is at its largest, 16 where the greatest epoch is 4,294,967,295.
        """
        epoch = ctypes.c_uint32()
        number = _library.round(self._words, _byref(epoch))
        return Rounded(number, epoch.value)

    @_call
    def waiting(self, site):
        """The items that messages on the lines into a site write, arrived or not, and that it has a copy of, each once: by the timestamp of the earliest of the messages that
        write the item, those of equal timestamps by number. 6, 7.
        """
        answer = _Report()
        number = _library.waiting(self._words, _word(site), _byref(answer))
        return Report(number, tuple(answer.items[: answer.count]))

    @_call
    def table(self, site):
        """A site's value for each item, 0 for one that it does not hold. 6, 7."""
        answer = _Table()
        number = _library.table(self._words, _word(site), _byref(answer))
        return Table(number, tuple(answer.values[: answer.count]))

    @_call
    def stamp(self, site):
        """A site's timestamp. 6, 7."""
        answer = _Stamp()
        number = _library.stamp(self._words, _word(site), _byref(answer))
        return Stamped(number, answer.value())

    @_call
    def line(self, parent, child):
        """How many messages the line holds, and how many of them have arrived. 6, 7, 17."""
        answer = _Line()
        number = _library.line(self._words, _word(parent), _word(child), _byref(answer))
        return Line(number, answer.held, answer.arrived)

    @_call
    def places(self):
        """The places of the sites, by which the network's timestamps are compared: a table of eight, entry k the place of site k; a number that is no site is its own. 6."""
        answer = _Places()
        number = _library.places(self._words, _byref(answer))
        return Places(number, tuple(answer))

    @_call
    def base(self):
        """Whether a collect has removed a record since set-up, and a base value for each item: what the removed commits left, 0 where there are none. 6."""
        answer = _Base()
        number = _library.base(self._words, _byref(answer))
        return Base(number, *answer.value())

    @_call
    def origin(self, record, operation):
        """Where the value of a read in the history came from, by its commit's record number and the number of the operation in it, both from 0: 'commit' and the record
        number of its own commit where it follows a write of the item there, else of the last commit before that in timestamp order that writes the item, equal timestamps
        in the order made. Where the history has none, 'folded' and 0 if a collect has removed a record since set-up, which may be the write's, else 'start' and 0. 6, 26.
        """
        answer = _Origin()
        number = _library.origin(self._words, _word(record), _word(operation), _byref(answer))
        return Origin(number, _ORIGINS[answer.kind], answer.record)

    @_call
    def export(self, room=None):
        """The history as a file; a buffer of `room` bytes is lent for it, or one that is long enough. 6, 25."""
        room = FILE_BYTES if room is None else _size(room)
        buffer = _buffer(max(1, room))
        length = ctypes.c_size_t()
        number = _library.export(self._words, buffer, room, _byref(length))
        return Exported(number, buffer[: length.value])

    def script(self, text):
        """The answer to one line of a script, both without newline: `?` where the line is no call."""
        text = _bytes(text)
        answer = _buffer(_ANSWER)
        with self._lock:
            return answer[: _library.script(self._words, text, len(text), answer)]

    def run(self, text):
        """The answers to the lines of a script, a newline behind each; the last line may lack its own."""
        text = _bytes(text)
        if text and not text.endswith(b"\n"):
            text += b"\n"
        answers, progress, told = _buffer(_ANSWERS), _Progress(), []
        with self._lock:
            while text:
                _library.run(self._words, text, len(text), answers, _ANSWERS, _byref(progress))
                told.append(answers[: progress.filled])
                text = text[progress.used :]
        return b"".join(told)


def read(buffer):
    """Checks the history file that ends a buffer: where its records stand, how many bytes they take, how many records, sites and items; the places of the sites, by
    which its timestamps are compared; whether a collect had removed records, and the base values, from which the records go on. 21 to 23.
    """
    buffer = _bytes(buffer)
    answer, places, base = _File(), _Places(), _Base()
    number = _library.read(buffer, len(buffer), _byref(answer), _byref(places), _byref(base))
    return File(number, answer.start, answer.length, answer.records, answer.sites, answer.items, tuple(places), *base.value())


def record(buffer, k):
    """The record of a number, from 0, of the file that ends a buffer; the whole file is checked each time. 21 to 24."""
    buffer = _bytes(buffer)
    answer = _Record()
    number = _library.record(buffer, len(buffer), _size(k), _byref(answer))
    return answer.value(number)


def records(buffer):
    """All records of the file that ends a buffer, one after another; where the file is refused, Refused. 21 to 23."""
    buffer = _bytes(buffer)
    file = read(buffer)
    if file.number:
        raise _refused(file.number)
    return _records(buffer[file.start : file.start + file.length], file)


def _records(part, file):
    places, answer, at = _places(file.places), _Record(), ctypes.c_size_t()
    for _ in range(file.records):
        number = _library.record_from(part, len(part), at.value, file.sites, file.items, _byref(places), _byref(answer), _byref(at))
        if number:
            raise _refused(number)
        yield answer.value(0)


def compare(a, b, places):
    """The order of two timestamps by a table of places, that of the network or the file from which they come: -1 where the first is earlier, 0 where they are equal, 1 where
    it is later; and how many leading tuples they share, up to the first that differ in site or count: None where the epochs differ. Any table is taken: a number above seven
    is its own place, and of two sites at one place, as no order of sites has them, the higher-numbered is earlier.
    """
    first, second, table, answer = _stamp(a), _stamp(b), _places(places), _Compared()
    order = _library.compare(_byref(first), _byref(second), _byref(table), _byref(answer))
    return Compared(order, None if answer.epochs_differ else answer.shared)


def side_by_side(a, b, places):
    """Two timestamps, compared by a table of places, as text: the epochs on a line, then tuple by tuple. The line where they part has `<` between them where the first is
    earlier, `>` where it is later.
    """
    order, shared = compare(a, b, places)
    parting = 0 if shared is None else shared + 1  # behind the last line where they are equal
    left, right = [["epoch %d" % epoch] + ["%d.%d" % tuple(one) for one in tuples] for epoch, tuples in (a, b)]
    width = max(map(len, left))
    lines = []
    for k, (first, second) in enumerate(itertools.zip_longest(left, right, fillvalue="")):
        mark = " " if k != parting else "<" if order < 0 else ">"
        lines.append(("%-*s %s %s" % (width, first, mark, second)).rstrip())
    return "\n".join(lines)
