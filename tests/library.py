"""The compiled library as the stored cases ask it: through the Python module, with every place of a struct and every byte of a buffer looked at."""
import ctypes
import os
import pathlib
import sys

ROOT = pathlib.Path(__file__).resolve().parent.parent
sys.path.insert(0, os.environ.get("GEVROLEN_FOLDER", str(ROOT / "target" / "gevrolen")))
import gevrolen  # noqa: E402

EE = 0xEE


def whole(answer):
    """A record's site, timestamp and all eight places of its operations."""
    return answer.site, answer.stamp.value(), [(one.kind, one.item, one.value) for one in answer.operations]


def poisoned_base():
    return gevrolen._Base(EE, EE, (ctypes.c_int32 * gevrolen.ITEMS)(*[EE] * gevrolen.ITEMS))


def base_places(base):
    """The flag, how many values, and all 64 places of them."""
    return [base.folded, base.count] + list(base.values)


class Library:
    def __init__(self):
        self.network = gevrolen.Network()

    def __getattr__(self, name):
        return getattr(self.network, name)

    def words(self):
        return bytes(self.network)

    def poke(self, place, word):
        self.network._words[place] = word

    def waiting(self, site):
        answer = gevrolen._Report(EE, (ctypes.c_uint32 * gevrolen.ITEMS)(*[EE] * gevrolen.ITEMS))
        number = gevrolen._library.waiting(self.network._words, site, ctypes.byref(answer))
        return number, answer.count, list(answer.items)

    def origin(self, k, a):
        answer = gevrolen._Origin(EE, EE)
        number = gevrolen._library.origin(self.network._words, k, a, ctypes.byref(answer))
        return number, answer.kind, answer.record

    def places(self):
        answer = gevrolen._Places(*[EE] * gevrolen.SITES)
        number = gevrolen._library.places(self.network._words, ctypes.byref(answer))
        return number, list(answer)

    def collect(self):
        removed = ctypes.c_uint32(EE)
        number = gevrolen._library.collect(self.network._words, ctypes.byref(removed))
        return number, removed.value

    def round(self):
        epoch = ctypes.c_uint32(EE)
        number = gevrolen._library.round(self.network._words, ctypes.byref(epoch))
        return number, epoch.value

    def base(self):
        answer = poisoned_base()
        number = gevrolen._library.base(self.network._words, ctypes.byref(answer))
        return number, base_places(answer)

    def compare(self, first, second, places):
        answer = gevrolen._Compared(EE, EE)
        structs = [(ctypes.c_uint32 * len(words))(*words) for words in (first, second)]
        order = gevrolen._library.compare(*structs, gevrolen._Places(*places), ctypes.byref(answer))
        return order, answer.epochs_differ, answer.shared

    def export(self, size):
        buffer, length = (ctypes.c_char * size).from_buffer(bytearray([EE]) * size) if size else ctypes.create_string_buffer(1), ctypes.c_size_t(EE)
        number = gevrolen._library.export(self.network._words, buffer, size, ctypes.byref(length))
        return number, length.value, bytes(buffer)[:size]

    def read(self, data):
        answer, places, base = gevrolen._File(EE, EE, EE, EE, EE), gevrolen._Places(*[EE] * gevrolen.SITES), poisoned_base()
        number = gevrolen._library.read(data, len(data), ctypes.byref(answer), ctypes.byref(places), ctypes.byref(base))
        return number, answer.start, answer.length, answer.records, answer.sites, answer.items, list(places), base_places(base)

    def record(self, data, k):
        answer = gevrolen._Record()
        number = gevrolen._library.record(data, len(data), k, ctypes.byref(answer))
        return number, answer.count, whole(answer)

    def record_from(self, part, at, sites, items, places):
        answer, after = gevrolen._Record(), ctypes.c_size_t(EE)
        number = gevrolen._library.record_from(part, len(part), at, sites, items, gevrolen._Places(*places), ctypes.byref(answer), ctypes.byref(after))
        return number, after.value, answer.count, whole(answer)
