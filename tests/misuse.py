#!/usr/bin/env python3
"""Plays what goes wrong in other hands, and sees that it is noticed. The exit status is 1 where it is not.

    misuse.py       after bindings/build; what it built is looked for in target/gevrolen, or in GEVROLEN_FOLDER

- The settlement of docs/USING.md pays nothing from a file that is cut off, empty or changed, and no change of one byte makes it pay something else.
- Cut at a house's timestamp it agrees with that house's table, whatever lines are down, and the sums add up; uncut it does not agree.
- Four threads sell by the `sell` of docs/USING.md: as many seats are settled as customers were told of. Without the lock its own check notices.
- A strict network raises on every refusal and on nothing else, and answers as ever.
- One version in the header, the library, the module, the crate and CHANGELOG.md; module, crate and C program refuse a library of another one, and a program does not start with it.
- A saved state is the same bytes in C, Rust and Python; each refuses the same bytes by the same sentence, and brings over the same old ones.
- A C program that drops a number does not compile where warnings are errors.
- examples/why.py counts what is stored, and README.md says so; ./try shows the answers that README.md has.
"""
import collections
import os
import pathlib
import pickle
import random
import re
import struct
import subprocess
import sys
import threading
import time
import zlib

import bindings
from bindings import FOLDER, ROOT, expect, output, run_c, run_rust

import gevrolen
from gevrolen import READ, WRITE, LoadError, Network, Number, Refused

USING = ROOT / "docs" / "USING.md"
HEADER = (FOLDER / "gevrolen.h").read_text()


def raised(fault, call):
    """What a call raises of a kind; None where it raises nothing."""
    try:
        call()
    except fault as one:
        return one
    return None


# ---- settlements
def check_settlement(using):
    settle, refused, file = using["settle"], using["NoSettlement"], using["archive"]
    table = (98, 26)
    paid = settle(file, table)
    changed = bytearray(file)
    changed[3] = 1  # no epoch begins so
    for damaged, number in ((file[:-1], 21), (b"", 21), (bytes(changed), 23)):
        found = raised(Refused, lambda: gevrolen.records(damaged))
        expect("records of a damaged file", found and (found.number, found.sentence), (number, gevrolen.explain(number)))
        expect("settlement by a damaged file", str(raised(refused, lambda: settle(damaged, table))), gevrolen.explain(number))
    for k in range(len(file)):
        for other in range(256):
            found = []
            if raised(refused, lambda: found.append(settle(file[:k] + bytes([other]) + file[k + 1 :], table))) is None:
                expect("settlement with byte %d changed to %d" % (k, other), found, [paid])


def check_cuts(using):
    """Three houses, of which the last copies everything; a line is down for a while, then another. At times a settlement is paid, and what can be is collected."""
    settle, refused, chance = using["settle"], using["NoSettlement"], random.Random(3)
    network = Network()
    network.set_up(3, 2, [0, 1], [0b110, 0b100])
    made, paid, uncut, kept, since = collections.Counter(), collections.Counter(), 0, 0, None
    for turn in range(600):
        down, item = (turn // 40) % 4, turn % 2
        left, value = network.table(item).values[item], chance.randrange(100)
        if network.commit(item, [(READ, item, 0), (WRITE, item, value)]).number == 0:
            made[item] += left - value
        for k, line in enumerate(((0, 1), (0, 2), (1, 2))):
            if k != down and chance.random() < 0.7:
                network.deliver(*line)
        for site in (1, 2):
            if chance.random() < 0.7:
                network.schedule(site)
        if down == 3:
            network.dummy(chance.randrange(2))
        file, then = network.export().data, Network.load(network.save(), strict=True)
        table, until = then.table(2).values, then.stamp(2).stamp
        expect("a cut settlement, turn %d" % turn, raised(refused, lambda: settle(file, table, until=until)), None)
        uncut += raised(refused, lambda: settle(file, table)) is not None
        if turn % 25 == 24:
            paid.update(settle(file, table, since, until))
            since = until
            kept += gevrolen.read(file).records - network.collect().removed
    expect("uncut settlements that fail, and records kept by collects", (uncut > 100, kept > 100), (True, True))
    while network.round().number:
        using["make_room"](network, [0, 1, 2], network.stamp(0).stamp.epoch + 1)
    paid.update(settle(network.export().data, network.table(2).values, since))
    expect("what all settlements paid", paid, made)


# ---- threads
class Slow(Network):
    """Lets other threads run after each look, as a busy machine does."""

    def table(self, site):
        answer = super().table(site)
        time.sleep(0.0002)
        return answer


def sales(text):
    """Four threads sell one seat at a time: how many customers were told that they have one, how many seats are gone, and how often the check of `sell` raised."""
    network = Slow()
    network.set_up(1, 1, [0], [0])
    network.commit(0, [(WRITE, 0, 200)])
    world = {"network": network, "READ": READ, "WRITE": WRITE}
    exec(text, world)
    told, noticed = [], []

    def counter():
        for _ in range(60):
            try:
                answer = world["sell"](0, 0, 1)
                if answer and answer.number == 0:
                    told.append(answer)
            except RuntimeError as fault:
                noticed.append(fault)

    threads = [threading.Thread(target=counter) for _ in range(4)]
    for one in threads:
        one.start()
    for one in threads:
        one.join()
    return len(told), 200 - network.table(0).values[0], len(noticed)


def check_threads():
    (text,) = re.findall(r"^>>> (def sell\(.*?)^>>>", USING.read_text(), re.M | re.S)
    text = re.sub(r"^\.\.\. ", "", text, flags=re.M)
    expect("seats told, gone and noticed by four threads", sales(text), (200, 200, 0))
    lock = "with network.locked():"
    expect("locks of sell", text.count(lock), 1)
    told, gone, noticed = sales(text.replace(lock, "if True:"))
    expect("without the lock: noticed, told and gone", (noticed > 0, told + noticed > gone), (True, True))


def check_lock():
    """While the lock is held no other thread's call gets through, and each call takes it by itself."""
    network = Network()
    network.set_up(1, 1, [0], [0])
    other = threading.Thread(target=lambda: network.commit(0, [(WRITE, 0, 1)]))
    with network.locked():
        other.start()
        other.join(0.05)
        expect("a call of another thread under the lock", (other.is_alive(), network.table(0).values), (True, (0,)))
    other.join()
    expect("the call behind the lock", network.table(0).values, (1,))


# ---- strict networks
def check_strict():
    plain, strict = Network(), Network(strict=True)
    calls = [
        ("dummy", (0,), 6), ("set_up", (9, 2, [0, 1], [6, 4]), 1), ("set_up", (3, 2, [0, 1], [6, 4]), 0), ("commit", (0, [(WRITE, 0, 5)]), 0), ("commit", (1, [(WRITE, 0, 5)]), 11),
        ("commit_lists", (0, [1], [0], []), 8), ("commit_lists", (0, [1], [0], [4]), 0), ("epoch", (1, 1), 15), ("epoch", (0, 1), 0), ("deliver", (0, 1), 0), ("deliver", (1, 0), 17),
        ("schedule", (1,), 0), ("schedule", (2,), 20), ("waiting", (3,), 7), ("waiting", (2,), 0), ("table", (3,), 7), ("table", (0,), 0), ("stamp", (3,), 7), ("stamp", (2,), 0),
        ("line", (2, 0), 17), ("line", (0, 2), 0), ("places", (), 0), ("base", (), 0), ("origin", (0, 0), 26), ("export", (3,), 25), ("export", (), 0), ("dummy", (0,), 0),
        ("collect", (), 0), ("round", (), 0), ("dummy", (5,), 7),
    ]
    for name, arguments, number in calls:
        answer, found = getattr(plain, name)(*arguments), None
        try:
            found = getattr(strict, name)(*arguments)
        except Refused as refused:
            expect("what %s%r raises" % (name, arguments), (refused.number, refused.sentence), (number, gevrolen.explain(number)))
        expect("%s%r" % (name, arguments), (answer.number, found), (number, None if number else answer))
    expect("words of both", bytes(strict) == bytes(plain), True)
    expect("a copy, a loaded and a pickled one raise too", [raised(Refused, lambda: one.table(9)) is not None for one in (
        strict.copy(), Network.load(strict.save(), strict=True), pickle.loads(pickle.dumps(strict)), plain.copy(), pickle.loads(pickle.dumps(plain)))], [True] * 3 + [False] * 2)
    expect("in text", (repr(strict), repr(Network(strict=True))), (repr(plain), repr(Network())))
    expect("scripts answer in text", strict.script(b"d 9"), b"7")
    expect("an unknown number", gevrolen._refused(99).number, 99)
    fault = pickle.loads(pickle.dumps(gevrolen._refused(7)))
    expect("a pickled refusal", (fault.number, str(fault)), (7, "7: There is no such site: correct its number."))


# ---- versions
def check_versions():
    version = gevrolen.__version__
    number = int("".join("%02d" % int(part) for part in version.split(".")))
    crate = ROOT / "bindings" / "rust"
    spec = dict(re.findall(r"^(major|minor|patch) = (\d+)$", (ROOT / "crates" / "gevrolen_c" / "specs" / "Version.antt").read_text(), re.M))
    named = "libgevrolen.so." + version.rpartition(".")[0]
    told = {
        "the header": re.findall(r"^#define GEVROLEN_VERSION (\d+)", HEADER, re.M) == [str(number)],
        "the library": (gevrolen._library.version(), gevrolen._library.words()) == (number, gevrolen.WORDS),
        "its definition": ".".join(spec[part] for part in ("major", "minor", "patch")) == version,
        "the crate": 'version = "%s"' % version in (crate / "Cargo.toml").read_text(),
        "the crate's lock": 'name = "gevrolen"\nversion = "%s"' % version in (crate / "Cargo.lock").read_text(),
        "the crate's number": "pub const VERSION: u32 = %d;" % number in (crate / "src" / "version.rs").read_text(),
        "the changes": re.findall(r"^## (\S+):", (ROOT / "CHANGELOG.md").read_text(), re.M)[0] == version,
        "the shared library's name": "[%s]" % named in output("readelf", "-d", str(FOLDER / named)),
        "the link": os.readlink(FOLDER / "libgevrolen.so") == named,
        "docs/USING.md": named in USING.read_text(),
    }
    expect("what is not of version %s" % version, [name for name, same in told.items() if not same], [])


STUB = """#include <stddef.h>
#include <stdint.h>
uint32_t gevrolen_version(void) { return %d; }
size_t gevrolen_words(void) { return %d; }
"""


def other_library(folder, version, words):
    """The library, but that it says it is of another version or another size; without a version where none is given."""
    folder.mkdir()
    archive, stub = folder / "libgevrolen.a", folder / "stub.c"
    renamed = [word for name in ("version", "words") for word in ("--redefine-sym", "gevrolen_%s=before_%s" % (name, name))]
    output("objcopy", *renamed, str(FOLDER / "libgevrolen.a"), str(archive))
    if version is not None:
        stub.write_text(STUB % (version, words))
        output("cc", "-c", str(stub), "-o", str(folder / "stub.o"))
        output("ar", "r", str(archive), str(folder / "stub.o"))
    output("cc", "-shared", "-o", str(folder / "libgevrolen.so"), "-Wl,--whole-archive", str(archive), "-Wl,--no-whole-archive")
    return folder


ASKS = """use gevrolen::{check_library, read, Network};

fn main() {
    println!("{}", check_library().map_or_else(|wrong| wrong.to_string(), |_| "one version".to_string()));
    std::panic::set_hook(Box::new(|_| ()));
    for made in [std::panic::catch_unwind(|| drop(Network::new())), std::panic::catch_unwind(|| drop(read(b"")))] {
        println!("{}", made.map_or_else(|why| why.downcast_ref::<String>().unwrap().clone(), |_| "made".to_string()));
    }
}
"""

FITS = """#include <stdio.h>
#include "gevrolen.h"
int main(void)
{
    printf("%d %d\\n", gevrolen_fits(), (int)gevrolen_version());
    return 0;
}
"""


def imported(library):
    """What the import of the module says with a library."""
    run = subprocess.run([sys.executable, "-c", "import gevrolen; print('imported')"], env=dict(os.environ, GEVROLEN_LIBRARY=str(library), PYTHONPATH=str(FOLDER)),
                         stdout=subprocess.PIPE, stderr=subprocess.PIPE, text=True)
    return (run.stdout + run.stderr).strip().splitlines()[-1]


def check_other_libraries(scratch):
    here, number, words = gevrolen.__version__, gevrolen._library.version(), gevrolen.WORDS
    program, asks, fits = scratch / "fits", scratch / "asks.rs", scratch / "fits.c"
    asks.write_text(ASKS)
    fits.write_text(FITS)
    told = "is of version %s, with %d words in a state, and this is %s of version %s, with %d: take both from one build"
    for name, version, size in (("later", number + 100, words), ("larger", number, words + 64), ("mended", number + 1, words)):
        folder = other_library(scratch / name, version, size)
        same = name == "mended"
        library = folder / "libgevrolen.so"
        numbers = ("%d.%d.%d" % (version // 10000, version // 100 % 100, version % 100), size)
        expect("import of the %s library" % name, imported(library), "imported" if same else "ImportError: %s " % library + told % (*numbers, "gevrolen.py", here, words))
        output("cc", "-I", str(FOLDER), str(fits), str(folder / "libgevrolen.a"), "-o", str(program))
        expect("C with the %s library" % name, output(str(program)), "%d %d\n" % (same, version))
        if name != "larger":
            found = run_rust(asks, scratch, GEVROLEN_FOLDER=str(folder)).splitlines()
            sentence = "The library " + told % (*numbers, "the crate", here, words) + "."
            expect("Rust with the %s library" % name, found, ["one version", "made", "made"] if same else [sentence] * 3)
    before = other_library(scratch / "before", None, None) / "libgevrolen.so"
    expect("import of one from before", imported(before),
           "ImportError: %s is a library from before version 0.8.0, and this is gevrolen.py of version %s: take both from one build" % (before, here))
    expect("import of none", imported(scratch / "none.so"),
           "ImportError: %s is not there: this is gevrolen.py of version %s, which wants the library of that version beside it" % (scratch / "none.so", here))
    # a program that was linked with this library does not start where only another is
    output("cc", "-I", str(FOLDER), str(fits), "-L", str(FOLDER), "-lgevrolen", "-o", str(program))
    run = {folder: subprocess.run([str(program)], env={"LD_LIBRARY_PATH": str(folder)}, stdout=subprocess.PIPE, stderr=subprocess.DEVNULL).returncode for folder in (FOLDER, scratch / "later")}
    expect("a program with this library, and with a later one", (run[FOLDER], run[scratch / "later"] != 0), (0, True))


# ---- saved states
def saved_as(version, words, bare):
    """The saved form, as another version might have it."""
    text = b"GEVSTATE" + struct.pack("<II", version, words) + bare
    return text + struct.pack("<I", zlib.crc32(text))


C_LOADS = """#include <stdlib.h>
#include "gevrolen.h"
static uint32_t state[GEVROLEN_WORDS];
static uint8_t bytes[2 * GEVROLEN_SAVED_BYTES], saved[GEVROLEN_SAVED_BYTES];
int main(int count, char **names)
{
    const struct gevrolen_operation sold[] = {{GEVROLEN_WRITE, 0, -5}};
    struct gevrolen_committed committed;
    char text[GEVROLEN_SENTENCE];
    for (int k = 2; k < count; k++) {
        FILE *file = fopen(names[k], "rb");
        size_t length = fread(bytes, 1, sizeof bytes, file);
        fclose(file);
        memset(saved, 0xEE, sizeof saved);
        uint32_t cause = gevrolen_load(state, bytes, length);
        printf("load %s\\n", cause ? gevrolen_explain_load(cause, bytes, length, text) : "done");
        cause = gevrolen_upgrade(bytes, length, saved);
        printf("upgrade %s\\n", cause ? gevrolen_explain_load(cause, bytes, length, text) : "done");
        if (!cause)
            printf("%u\\n", (unsigned)gevrolen_saved_sum(saved, sizeof saved));
    }
    if (gevrolen_set_up(state, 3, 2, (uint32_t[]){0, 1}, 2, (uint8_t[]){6, 4}, 2) || gevrolen_commit(state, 0, sold, 1, &committed))
        return 1;
    gevrolen_save(state, saved);
    FILE *file = fopen(names[1], "wb");
    return fwrite(saved, 1, sizeof saved, file) != sizeof saved || fclose(file);
}
"""

RUST_LOADS = """use gevrolen::{upgrade, Network, Operation};

fn main() {
    let names: Vec<String> = std::env::args().skip(1).collect();
    for name in &names[1..] {
        let bytes = std::fs::read(name).unwrap();
        println!("load {}", Network::load(&bytes).map_or_else(|why| why.to_string(), |_| "done".to_string()));
        let brought = upgrade(&bytes);
        println!("upgrade {}", brought.as_ref().map_or_else(|why| why.to_string(), |_| "done".to_string()));
        if let Ok(saved) = brought {
            std::fs::write(format!("{name}.brought"), &saved).unwrap();
            println!("{:?}", Network::load(&saved).unwrap().table(0).ok());
        }
    }
    let mut network = Network::new();
    network.set_up(3, 2, &[0, 1], &[6, 4]).unwrap();
    network.commit(0, &[Operation::write(0, -5)]).unwrap();
    std::fs::write(&names[0], network.save()).unwrap();
}
"""


def check_saved(scratch):
    network = Network()
    network.set_up(3, 2, [0, 1], [6, 4])
    network.commit(0, [(WRITE, 0, -5)])
    saved, bare = network.save(), bytes(network)
    here, words = int(gevrolen._library.version()), gevrolen.WORDS
    old = 4 * (words - 65)
    flipped = bytearray(saved)
    flipped[50000] ^= 4
    cases = [saved, saved[:-1], bytes(flipped), saved[:19], b"", saved[:12], bare, bare[:old], bare[:-4], bare + bytes(4), saved_as(here + 100, words, bare), saved_as(here + 1, words, bare),
             saved_as(here - 100, words - 65, bare[:old]), saved_as(here, words + 1, bare + bytes(4)), saved_as(here, words + 1, bare), b"GEVSTATE" + bare[8:], bytes(4 * words)]
    python = []
    for case in cases:
        fault = raised(LoadError, lambda: Network.load(case))
        python.append("load %s" % (fault or "done"))
        fault = raised(LoadError, lambda: gevrolen.upgrade(case))
        python.append("upgrade %s" % (fault or "done"))
    there = {"%d.%d.%d" % (one // 10000, one // 100 % 100, one % 100) for one in (here + 100, here - 100)}
    expect("sentences that name both versions", sum("version %s, and this is version %s" % (one, gevrolen.__version__) in told for one in there for told in python), 4)
    expect("taken", [told for told in python if told.endswith("done")], ["load done", "upgrade done", "upgrade done", "upgrade done", "load done", "upgrade done", "upgrade done"])
    expect("the words that are brought over", [Network.load(gevrolen.upgrade(case)).save() == saved for case in (saved, bare, bare[:old], saved_as(here + 1, words, bare))], [True] * 4)

    names = []
    for k, case in enumerate(cases):
        names.append(scratch / ("case%d" % k))
        names[-1].write_bytes(case)
    accepted = [gevrolen.upgrade(case) if raised(LoadError, lambda: gevrolen.upgrade(case)) is None else None for case in cases]
    for language, text, run in (("c", C_LOADS, run_c), ("rs", RUST_LOADS, run_rust)):
        source, out = scratch / ("loads." + language), scratch / ("saved." + language)
        source.write_text(text)
        found = run(source, scratch, arguments=[str(out)] + list(map(str, names))).splitlines()
        expect("what .%s says of bytes" % language, [line for line in found if line.startswith(("load", "upgrade"))], python)
        expect("what .%s saves" % language, out.read_bytes() == saved, True)
        if language == "c":
            expect("what C brings over", [line for line in found if line.isdigit()], [str(zlib.crc32(one)) for one in accepted if one])
        else:
            expect("what Rust brings over", [pathlib.Path("%s.brought" % name).read_bytes() if one else None for name, one in zip(names, accepted)], accepted)

    causes = re.findall(r"^#define GEVROLEN_LOAD_(\w+) +(\d+)", HEADER, re.M)
    expect("causes of the header", causes, [(name, str(k)) for k, name in enumerate(gevrolen._LOADS, 1)])


# ---- numbers that nobody looks at
DROPS = """#include "gevrolen.h"
int main(void)
{
    static uint32_t state[GEVROLEN_WORDS];
    %sgevrolen_deliver(state, 0, 1)%s;
    return 0;
}
"""


def check_dropped(scratch):
    source = scratch / "drops.c"
    for before, behind, compiles in (("", "", False), ("(void)", "", False), ("if (", " != GEVROLEN_NO_STATE) return 1", True)):
        source.write_text(DROPS % (before, behind))
        words = ["cc", "-std=c99", "-Wall", "-Wextra", "-Werror", "-c", "-o", os.devnull, "-I", str(FOLDER), str(source)]
        expect("whether %sgevrolen_deliver(..)%s compiles" % (before, behind), subprocess.run(words, stderr=subprocess.DEVNULL).returncode == 0, compiles)
    declared = re.findall(r"^(.*?)\b(?:uint32_t|int32_t|size_t|int) (gevrolen_\w+)\(", HEADER, re.M)
    inner = {"gevrolen_saved_sum", "gevrolen_saved_marked"}
    expect("calls whose number may be dropped", [name for before, name in declared if "GEVROLEN_LOOK" not in before and name not in inner], [])
    expect("calls of the module that the header declares", sorted(set(gevrolen._FUNCTIONS) - {name[9:] for _, name in declared}), ["run"])


# ---- why, and the first command
def check_why():
    told = output(sys.executable, str(ROOT / "examples" / "why.py"))
    expect("examples/why.py", told, (ROOT / "examples" / "why.txt").read_text())
    looks, script, engine = re.findall(r"^([\d,]+) looks|in ([\d,]+) looks", told, re.M)
    sentence = "In %s looks at the door a script that applies what arrives showed a seat state fresher than its offset %s times, Gevrolen %s times" % (looks[0], script[1], engine[1])
    expect("the figure of README.md", sentence in " ".join((ROOT / "README.md").read_text().split()), True)


def check_try():
    crate = ROOT / "crates" / "gevrolen"
    lines = zip((crate / "stdin").read_text().splitlines(), (crate / "stdout").read_text().splitlines())
    shown = "".join("%-14s -> %s\n" % pair for pair in lines)
    expect("the answers in README.md", shown in (ROOT / "README.md").read_text(), True)
    (command,) = re.findall(r"^awk .*$", (ROOT / "try").read_text(), re.M)
    expect("the answers of ./try", subprocess.run(["sh", "-c", command], cwd=crate, check=True, stdout=subprocess.PIPE, text=True).stdout, shown)


def main():
    using = bindings.run_session("docs/USING.md", bindings.session(USING))
    check_settlement(using)
    check_cuts(using)
    check_threads()
    check_lock()
    check_strict()
    check_versions()
    with bindings.folder() as scratch:
        check_saved(scratch)
        check_dropped(scratch)
        check_other_libraries(scratch)
    check_why()
    check_try()
    return bindings.verdict()


if __name__ == "__main__":
    sys.exit(main())
