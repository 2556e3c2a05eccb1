#!/usr/bin/env python3
"""Holds what is written about the library in C, Rust and Python against each other, and runs the code of the documents. The exit status is 1 where something differs.

    bindings.py     after bindings/build; what it built is looked for in target/gevrolen, or in GEVROLEN_FOLDER

- Names, numbers, sentences and sizes are the same in the header, the Python module, the Rust crate and the table of docs/USING.md.
- The Python module raises for numbers that do not fit, for wrong types and for tables that are not of eight places, before any call.
- The Python sessions of the module, of README.md and of docs/USING.md answer as they say; so do the programs in C and Rust, where a block of text follows them.
- The program of docs/RATTLE.md runs, without a proof, and writes what the document says; so do the two programs for histories.
- README.md has 90 to 120 lines.
- Two timestamps side by side are the same text in C, Rust and Python; in Python by one comparison, whose answer says where they part.
- The C example answers as the worked example's script, with two timestamps behind it, and ends with status 0; 100,000 steps on each of two networks answer what their rounds add up to.
"""
import contextlib
import doctest
import os
import pathlib
import re
import shutil
import subprocess
import sys
import tempfile

ROOT = pathlib.Path(__file__).resolve().parent.parent
FOLDER = pathlib.Path(os.environ.get("GEVROLEN_FOLDER", ROOT / "target" / "gevrolen"))
os.environ.setdefault("CARGO_TARGET_DIR", str(ROOT / "target" / "cargo"))
sys.path.insert(0, str(FOLDER))
import gevrolen  # noqa: E402

DOCUMENTS = [ROOT / "README.md", ROOT / "docs" / "USING.md"]
RATTLE = ROOT / "docs" / "RATTLE.md"
SIZES = ["WORDS", "SITES", "ITEMS", "OPERATIONS", "MESSAGES", "RECORDS", "FILE_BYTES", "SAVED_BYTES"]
complaints = []


def expect(what, found, wanted):
    if found != wanted:
        complaints.append("%s: %r, not %r" % (what, found, wanted))


def camel(name):
    return "".join(part.capitalize() for part in name.split("_"))


# ---- one set of names, numbers and sentences
def header_says():
    text = (ROOT / "bindings" / "c" / "gevrolen.h").read_text()
    defined = {name: int(number) for name, number in re.findall(r"#define GEVROLEN_(\w+) +(\d+)", text)}
    sentences = re.findall(r'^ +"(.*)",$', text, re.M)
    return defined, sentences


def compare_names():
    defined, sentences = header_says()
    expect("sentences of the header", sentences, [gevrolen.explain(number) for number in gevrolen.Number])
    for number in gevrolen.Number:
        expect("GEVROLEN_%s" % number.name, defined.get(number.name), number.value)
    for name in SIZES + ["READ", "WRITE"]:
        expect("%s of the module" % name, getattr(gevrolen, name), defined.get(name))
    for kind, name in enumerate(gevrolen._ORIGINS[1:], 1):
        expect("kind %s of the module" % name, kind, defined.get(name.upper()))

    refusals = re.findall(r'^    (\d+) (\w+) "(.*)"$', (ROOT / "bindings" / "rust" / "src" / "refusal.rs").read_text(), re.M)
    expected = [(str(n.value), camel(n.name), gevrolen.explain(n)) for n in gevrolen.Number if n]
    expect("refusals of the crate", refusals, expected)
    consts = dict(re.findall(r"pub const (\w+): usize = (\d+);", (ROOT / "bindings" / "rust" / "src" / "lib.rs").read_text()))
    expect("sizes of the crate", consts, {name: str(defined[name]) for name in SIZES})

    rows = re.findall(r"^\| (\d+) \| `(\w+)` \| (.*) \|$", (ROOT / "docs" / "USING.md").read_text(), re.M)
    expect("table of docs/USING.md", rows, [(str(n.value), n.name, gevrolen.explain(n)) for n in gevrolen.Number if n])


# ---- what the Python module refuses itself, since no field of the library could hold it
def check_arguments():
    network = gevrolen.Network()
    network.set_up(3, 2, [0, 1], [6, 4])
    before = bytes(network)
    too_large = [
        lambda: network.dummy(2**32),
        lambda: network.dummy(-1),
        lambda: network.epoch(0, 2**32),
        lambda: network.origin(2**32, 0),
        lambda: network.origin(0, -1),
        lambda: network.set_up(3, 2, [0, 2**32], [6, 4]),
        lambda: network.set_up(3, 2, [0, 1], [256, 4]),
        lambda: network.commit(0, [(1, 0, 2**31)]),
        lambda: network.commit(0, [(1, 0, -(2**31) - 1)]),
        lambda: network.commit(0, [(2**32, 0, 0)]),
        lambda: network.commit_lists(0, [256], [0], [0]),
        lambda: network.export(-1),
        lambda: gevrolen.record(b"", -1),
        lambda: gevrolen.compare((0, [(0, 0)] * 9), (0, []), NUMBERS),
        lambda: gevrolen.compare((0, []), (2**32, []), NUMBERS),
        lambda: gevrolen.compare((0, []), (0, []), [256] * 8),
        lambda: gevrolen.compare((0, []), (0, []), [-1] * 8),
        lambda: gevrolen.side_by_side((0, []), (0, [(0, -1)]), NUMBERS),
    ]
    wrong_type = [
        lambda: network.dummy("0"),
        lambda: network.dummy(0.0),
        lambda: network.origin(0, None),
        lambda: network.set_up(3, 2, [0, "1"], [6, 4]),
        lambda: network.commit(0, [(1, 0, None)]),
        lambda: network.script("d 0"),
        lambda: gevrolen.read(16),
        lambda: gevrolen.compare((0, []), (0, [(0, "1")]), NUMBERS),
        lambda: gevrolen.compare((0, []), (0, [])),
        lambda: gevrolen.compare((0, []), (0, []), None),
        lambda: gevrolen.compare((0, []), (0, []), [0.0] * 8),
        lambda: gevrolen.side_by_side((0.0, []), (0, []), NUMBERS),
        lambda: gevrolen.side_by_side((0, []), (0, [])),
        lambda: gevrolen.Stamp(0, ()) < gevrolen.Stamp(1, ()),
        lambda: gevrolen.Stamp(0, ()) >= (1, ()),
        lambda: max(gevrolen.Stamp(0, ()), gevrolen.Stamp(0, ((0, 1),))),
        lambda: sorted([(0, ()), gevrolen.Stamp(1, ())]),
    ]
    not_eight = [
        lambda: gevrolen.compare((0, []), (0, []), range(7)),
        lambda: gevrolen.compare((0, []), (0, []), range(9)),
        lambda: gevrolen.side_by_side((0, []), (0, []), []),
    ]
    for fault, calls in ((OverflowError, too_large), (TypeError, wrong_type), (ValueError, not_eight)):
        for k, call in enumerate(calls):
            try:
                expect("call %d that should raise %s" % (k, fault.__name__), call(), None)
            except fault:
                pass
    expect("words after calls that raise", bytes(network) == before, True)


# ---- code of the documents
def blocks(path):
    """The fenced blocks of a document: language and text."""
    return re.findall(r"^```(\w+)\n(.*?)^```$", path.read_text(), re.M | re.S)


def session(path):
    """The Python blocks of a document, each line at its place, so that a difference is told with its line."""
    language, lines = None, []
    for line in path.read_text().splitlines():
        if line.startswith("```"):
            language = line[3:]
            line = ""
        lines.append(line if language == "python" else "")
    return "\n".join(lines) + "\n"


def output(*command, **variables):
    return subprocess.run(command, check=True, stdout=subprocess.PIPE, text=True, env=dict(os.environ, **variables)).stdout


def run_c(source, scratch, arguments=()):
    program = str(scratch / "program")
    output("cc", "-std=c99", "-O2", "-Wall", "-Wextra", "-Werror", "-I", str(FOLDER), str(source), str(FOLDER / "libgevrolen.a"), "-o", program)
    return output(program, *arguments)


def run_rust(source, scratch, arguments=(), **variables):
    """A crate of its own, as a booking system would have it."""
    bin = '[[bin]]\nname = "program"\npath = "%s"\n' % source
    manifest = scratch / "Cargo.toml"
    manifest.write_text('[package]\nname = "program"\nedition = "2021"\n%s[dependencies]\ngevrolen = { path = "%s" }\n' % (bin, ROOT / "bindings" / "rust"))
    return output("cargo", "run", "--offline", "--quiet", "--manifest-path", str(manifest), "--", *arguments, **variables)


RUN = {"c": run_c, "rust": run_rust}


def run_programs(path, scratch):
    found = blocks(path)
    for (language, text), (after, wanted) in zip(found, found[1:]):
        if language in RUN and after == "text":
            source = scratch / ("program." + {"c": "c", "rust": "rs"}[language])
            source.write_text(text)
            expect("%s program of %s" % (language, path.name), RUN[language](source, scratch), wanted)


def run_rattle(path, scratch):
    """The blocks of the document as one program, in a folder with all crates: the first are its uses, the others its steps."""
    found = blocks(path)
    uses, *steps = [text for language, text in found if language == "rattle"]
    shutil.copytree(ROOT / "crates", scratch / "crates", ignore=shutil.ignore_patterns("out"))
    crate = scratch / "crates" / "examples"
    (crate / "src").mkdir(parents=True)
    (scratch / "crates.txt").write_text((ROOT / "crates.txt").read_text() + dict(found)["crates"])
    (crate / "src" / "main.rt").write_text("%s\nfn main(rt: HostRuntime) -> io::Result<()> {\n%s    Ok(())\n}\n" % (uses, "".join(steps)))
    run = subprocess.run(["rt", "try"], cwd=crate, stdin=subprocess.DEVNULL, stdout=subprocess.PIPE, stderr=subprocess.PIPE, text=True)
    expect("the program of %s%s" % (path.name, "" if run.returncode == 0 else "\n" + run.stderr), (run.returncode, run.stdout), (0, dict(found)["text"]))


def run_histories(path):
    """The ten lines' history as a file, and that as lines, which the document shows."""

    def tried(name, given):
        return subprocess.run(["rt", "try"], cwd=ROOT / "crates" / name, input=given, check=True, stdout=subprocess.PIPE, stderr=subprocess.DEVNULL).stdout

    file = tried("history_write", (ROOT / "crates" / "gevrolen" / "stdin").read_bytes())
    told = tried("history_print", file).decode()
    expect("the history of %s" % path.name, "".join("    %s\n" % line for line in told.splitlines()) in path.read_text(), bool(told))


def run_session(name, text):
    """What the session leaves under its names."""
    test = doctest.DocTestParser().get_doctest(text, dict(vars(gevrolen), gevrolen=gevrolen), name, name, 0)
    if doctest.DocTestRunner().run(test, clear_globs=False).failed or not test.examples:
        complaints.append("the Python session of %s" % name)
    return test.globs


# ---- two timestamps side by side
HEARD, HEARD_MORE = (0, ((0, 1), (1, 1))), (0, ((0, 1), (2, 1), (3, 4)))
SHORT, LONG = (7, ((0, 1),)), (7, ((0, 1), (2, 5)))
WIDE = (0, ((4294967295, 4294967295),))
EIGHT, ANOTHER = [(1, tuple((site, 10) for site in range(7)) + ((7, count),)) for count in (11, 9)]

NUMBERS, MOVED = tuple(range(8)), (1, 2, 0, 3, 4, 5, 6, 7)

SIDE_BY_SIDE = [
    (HEARD, HEARD_MORE, NUMBERS, ["epoch 0   epoch 0", "0.1       0.1", "1.1     > 2.1", "          3.4"]),
    (HEARD_MORE, HEARD, NUMBERS, ["epoch 0   epoch 0", "0.1       0.1", "2.1     < 1.1", "3.4"]),
    (SHORT, LONG, NUMBERS, ["epoch 7   epoch 7", "0.1       0.1", "        < 2.5"]),
    (LONG, SHORT, NUMBERS, ["epoch 7   epoch 7", "0.1       0.1", "2.5     >"]),
    (SHORT, HEARD, NUMBERS, ["epoch 7 > epoch 0", "0.1       0.1", "          1.1"]),
    ((9, ((3, 1),)), (10, ((3, 1),)), NUMBERS, ["epoch 9 < epoch 10", "3.1       3.1"]),
    ((4294967295, ()), (0, ()), NUMBERS, ["epoch 4294967295 > epoch 0"]),
    ((0, ()), (0, ()), NUMBERS, ["epoch 0   epoch 0"]),
    ((0, ((1, 1), (2, 1))), (0, ((1, 2), (2, 1))), NUMBERS, ["epoch 0   epoch 0", "1.1     < 1.2", "2.1       2.1"]),
    (WIDE, WIDE, NUMBERS, ["epoch 0                 epoch 0", "4294967295.4294967295   4294967295.4294967295"]),
    (HEARD, HEARD_MORE, MOVED, ["epoch 0   epoch 0", "0.1       0.1", "1.1     < 2.1", "          3.4"]),
    (SHORT, LONG, MOVED, ["epoch 7   epoch 7", "0.1       0.1", "        < 2.5"]),
    ((0, ((0, 1),)), (0, ((2, 1), (0, 2))), MOVED, ["epoch 0   epoch 0", "0.1     < 2.1", "          0.2"]),
    (EIGHT, ANOTHER, NUMBERS, ["epoch 1   epoch 1"] + ["%d.10      %d.10" % (site, site) for site in range(7)] + ["7.11    > 7.9"]),
]

C_PROGRAM = """#define main example
#include "%s"
#undef main

int main(void)
{
    const struct gevrolen_stamp pairs[][2] = {%s};
    const uint8_t places[][GEVROLEN_SITES] = {%s};
    for (size_t k = 0; k < sizeof pairs / sizeof pairs[0]; k++)
        side_by_side(&pairs[k][0], &pairs[k][1], places[k]);
    return 0;
}
"""

RUST_PROGRAM = """use gevrolen::{side_by_side, Stamp};

fn main() {
    let stamp = |epoch, tuples: &[(u32, u32)]| Stamp::new(epoch, tuples).unwrap();
    for (first, second, places) in [%s] {
        println!("{}", side_by_side(&first, &second, &places));
    }
}
"""


def c_stamp(stamp, length=None):
    epoch, tuples = stamp
    return "{%d, %d, {%s}}" % (epoch, len(tuples) if length is None else length, ", ".join("{%d, %d}" % one for one in tuples or ((0, 0),)))


def rust_stamp(stamp):
    return "stamp(%d, &%r)" % (stamp[0], list(stamp[1]))


def compare_texts(scratch):
    for a, b, places, lines in SIDE_BY_SIDE:
        expect("side_by_side(%r, %r, %r)" % (a, b, places), gevrolen.side_by_side(a, b, places).split("\n"), lines)
    wanted = [line for *_, lines in SIDE_BY_SIDE for line in lines]
    pairs = ["{%s, %s}" % (c_stamp(a), c_stamp(b)) for a, b, _, _ in SIDE_BY_SIDE]
    pairs.append("{%s, %s}" % (c_stamp(EIGHT, 77), c_stamp(ANOTHER, 2**32 - 1)))  # of the last pair again, all eight tuples
    tables = ["{%s}" % ", ".join(map(str, places)) for _, _, places, _ in SIDE_BY_SIDE + SIDE_BY_SIDE[-1:]]
    source = scratch / "pairs.c"
    source.write_text(C_PROGRAM % (ROOT / "bindings" / "c" / "example.c", ", ".join(pairs), ", ".join(tables)))
    expect("side_by_side in C", run_c(source, scratch).splitlines(), wanted + SIDE_BY_SIDE[-1][-1])
    pairs = ", ".join("(%s, %s, %r)" % (rust_stamp(a), rust_stamp(b), list(places)) for a, b, places, _ in SIDE_BY_SIDE)
    source = scratch / "pairs.rs"
    source.write_text(RUST_PROGRAM % pairs)
    expect("side_by_side in Rust", run_rust(source, scratch).splitlines(), wanted)


def check_one_comparison():
    """Another answer instead of the comparison's puts the mark elsewhere, and there is none for a second question."""
    compare, answers = gevrolen.compare, [gevrolen.Compared(-1, 1)]
    gevrolen.compare = lambda a, b, places: answers.pop()
    expect("side_by_side by another answer", gevrolen.side_by_side(HEARD, HEARD, NUMBERS).split("\n"), ["epoch 0   epoch 0", "0.1       0.1", "1.1     < 1.1"])
    gevrolen.compare = compare


def run_example(scratch):
    told = (ROOT / "crates" / "gevrolen" / "stdout").read_text().splitlines() + ["epoch 0   epoch 0", "0.1       0.1", "1.1     > 2.1"]
    expect("bindings/c/example.c", run_c(ROOT / "bindings" / "c" / "example.c", scratch).splitlines(), told)


# In each round of bench/speed.c the numbers of the refused steps and the own counts of the timestamps that were taken, one after another: 18 in nine rounds, 10,000 in 10,000.
ALMOST_EMPTY = 1000 * (9 * (11 + 20 + 18 + 15) + sum(range(1, 19)))
FULL = 10000 * (12 + 11 + 13 + 15 + 17 + 20) + sum(range(1, 10001))


def run_steps(scratch):
    expect("bench/speed.c", run_c(ROOT / "bench" / "speed.c", scratch), "%d\n%d\n" % (ALMOST_EMPTY, FULL))


@contextlib.contextmanager
def folder():
    with tempfile.TemporaryDirectory() as name:
        yield pathlib.Path(name)


def verdict():
    for text in complaints:
        print(text)
    return 1 if complaints else 0


def main():
    compare_names()
    check_arguments()
    check_one_comparison()
    run_session("gevrolen.py", gevrolen.__doc__)
    expect("lines of README.md", 90 <= len(DOCUMENTS[0].read_text().splitlines()) <= 120, True)
    with folder() as scratch:
        compare_texts(scratch)
        run_example(scratch)
        run_steps(scratch)
        for path in DOCUMENTS:
            run_session(path.name, session(path))
            run_programs(path, scratch)
        run_rattle(RATTLE, scratch)
    run_histories(RATTLE)
    return verdict()


if __name__ == "__main__":
    sys.exit(main())
