#!/usr/bin/env python3
"""Writes the script of refusals, malformed lines and lines at their longest; the last line lacks its newline.

    script_cases.py > tests/cases/script
    model.py run < tests/cases/script       prints what tests/cases/script.answers has
"""
import sys

UNSET = ["c 0 r0", "d 0", "e 0 1", "l 0 1", "s 0", "c 0"]

# causes 1 to 5, the last for cycles of two and of three sites and one beside a line
SET_UPS = [
    "p 0 1 0 0", "p 9 1 0 0", "p 1 0", "p 1 65 0 0", "p 3 2 0 6", "p 3 2 0 6 1 4 2 0", "p 3 1 3 0", "p 3 2 0 6 3 0", "p 3 1 0 8",
    "p 3 1 0 1", "p 3 1 0 7", "p 2 2 0 2 1 1", "p 3 3 0 2 1 4 2 1", "p 4 3 1 4 2 2 0 8", "p 4294967295 1 0 0", "p 1 4294967295 0 0",
    "p 3 1 4294967295 0", "p 3 1 0 255", "c 0 r0", "p 3 2 0 6 1 4",
]

MALFORMED = [
    # letters
    "", "?", " ", "p", "c", "d", "e", "l", "s", "p ", "c ", "d ", "s ", "P 3 2 0 6 1 4", "C 0 r0", "D 0", "S 0", "x 0", "pp 3", "dd",
    "d0", "c0 r0", "q",
    # spaces and numbers
    " d 0", "d  0", "d 0 ", "d\t0", "d 0\t", "d 0\r", "\rd 0", "d 00", "d 01", "d +0", "d -0", "d -1", "d 0x1", "d a", "d 0 0",
    "d 0.0", "d 4294967296", "d 10000000000", "d 99999999999999999999999999", "e 0", "e 0 1 2", "e 0  1", "e 0 4294967296", "e 0 01",
    "e -0 1", "l 0", "l 0 1 2", "l 0 -1", "l 00 1", "s", "s 0 0", "s 00", "s a",
    # set-up
    "p 3", "p 03 2 0 6 1 4", "p 3 2 0", "p 3 2 0 6 1", "p 3 2 0 256 1 4", "p 3 2 0 6 1 1000", "p 3 2 0 4294967296 1 4",
    "p 3 2 4294967296 6 1 4", "p 3 2 0 06 1 4", "p 3 2 0 6  1 4", "p 3 2 0 6 1 4 ", "p 3 2 0 -6 1 4", "p  3 2",
    # operations
    "c 0 x0", "c 0 r", "c 0 w", "c 0 w0", "c 0 w0=", "c 0 w=5", "c 0 r0=5", "c 0 r-1", "c 0 r00", "c 0 w00=5", "c 0 w0=05",
    "c 0 w0=-0", "c 0 w0=+5", "c 0 w0=--5", "c 0 w0=-", "c 0 w0=2147483648", "c 0 w0=-2147483649", "c 0 w0=4294967295",
    "c 0 w0=5=5", "c 0 w0==5", "c 0 w0 =5", "c 0 r0  r1", "c 0 r0 ", "c 0 r4294967296", "c 0 w4294967296=1", "c 0 R0", "c 0 W0=5",
    "c 00 r0", "c x r0", "c 0r0", "c 0 0", "c  0 r0", "c 0 w0=5a", "c 0 w0=00", "c 0 r0,r1",
]

# bytes that no field has
BYTES = [
    b"d \x00", b"d 0\x00", b"\x00", b"d \x80", b"d \xb2", b"\xff", b"d 0\xff", b"\xe4 0", b"c 0 r\x80", b"c\x000 r0", b"d 0\x0b",
]

WORKED = ["c 0 w0=5", "l 0 1", "s 1", "c 1 r0 w1=7", "l 1 2", "s 2", "l 0 2", "s 2", "c 2 r0 r1"]

# causes 7 to 11 and 15 to 20
STEPS = [
    "c 3 r0", "d 3", "e 3 1", "l 3 0", "l 0 3", "s 3", "d 4294967295", "c 0", "c 0" + " r0" * 9, "c 0" + " r0" * 8, "c 0 r2",
    "c 0 r4294967295", "c 0 r1", "c 1 w0=1", "c 2 w1=1", "c 0 r0 r2 r1", "c 0 r0 w1=1 r2", "e 1 9", "e 0 0", "e 0 7", "e 0 7",
    "e 0 6", "e 0 4294967295", "e 0 4294967295", "d 0", "l 0 0", "l 1 0", "l 2 1", "l 1 2", "l 1 2", "s 0", "s 1", "s 2", "l 0 1",
    "s 1", "l 0 1",
]

VALUES = ["c 0 w0=-2147483648 r0", "c 0 r0 w0=2147483647", "c 0 r0", "c 0 w0=0 w0=-1", "c 0 r0"]

# reads before, between and behind writes of their items in the same commit, and of other items; then copies beside own writes, and what the copies come to
OWN_WRITES = [
    "p 2 4 0 2 0 2 1 0 0 0", "c 0 w0=7 w1=8", "c 0 r0 w0=5 r0", "c 0 r0", "c 0 w0=1 r0 w0=2 r0", "c 0 w0=5 r1", "c 0 w0=3 r1 r0 r1 w0=4",
    "c 0 r0 w0=9", "c 0 w0=6 w0=1 r0", "c 0 w0=2 w1=3 r0 r1", "c 0 r1 w1=4 r0 w0=5 r1 r0", "c 0 r0 w0=11 r0 w0=12 r0 w0=13 w0=14 r0",
    "c 0 w3=21 r0 r1 r0 w0=22 r1 r0 r3", "c 0 w0=0 r0", "c 0 w0=-2147483648 r0 w0=2147483647 r0", "l 0 1", "s 1", "c 1 r0 w2=5 r0 r2 r1",
    "l 0 1", "s 1", "c 1 r0", "l 0 1", "s 1", "c 1 r0 w2=6 r2", "c 1 w2=9 r2 r3", "c 1 r2",
]

# copies at any sites, places 2 0 3 1: by its number site 3 would be earlier than site 0, which site 2 takes first
MOVED = [
    "p 4 2 3 5 0 4", "c 3 w0=5", "c 0 r0 w1=7", "l 3 2", "l 0 2", "s 2", "s 2", "l 3 0", "s 0", "c 0 r0 w1=8", "l 0 2", "s 2", "c 2 r0 r1",
]

# cycles: of two sites and of three, beside others, behind them, of eight; 1 to 4 come first, also of a later item; the network goes on as it was
CYCLES = [
    "p 2 2 0 2 1 1", "p 3 3 0 2 1 1 3 0", "p 3 3 0 2 1 1 2 4", "p 3 3 0 2 1 1 2 8", "p 3 3 2 4 0 2 1 1", "p 3 3 0 2 1 4 2 1", "p 9 2 0 2 1 1",
    "p 2 3 0 2 1 1", "p 4 3 1 4 2 2 0 8", "p 3 3 0 6 2 2 1 4", "p 8 4 0 2 1 4 7 32 5 128", "p 8 2 3 247 0 8",
    "p 8 8 0 2 1 4 2 8 3 16 4 32 5 64 6 128 7 1", "p 8 8 0 128 7 64 6 32 5 16 4 8 3 4 2 2 1 1", "c 2 r0 r1",
]

# a copy below its primary, alone and beside one above; then sites 3 and 1, of which 1 is placed first though 3 is free as long, so 3 is earlier
BELOW = [
    "p 2 1 1 1", "c 1 w0=4", "l 0 1", "l 1 0", "s 1", "s 0", "c 0 r0", "c 0 w0=1", "e 0 1", "e 1 1", "d 1", "d 0", "p 3 1 1 5", "c 1 w0=6", "l 1 0",
    "s 0", "l 1 2", "s 2", "c 0 r0", "c 2 r0", "p 3 1 2 1", "d 1", "p 3 1 1 1", "d 2", "p 5 4 3 1 2 2 1 16 3 16", "c 1 w2=1", "c 3 w3=2", "l 1 4",
    "l 3 4", "s 4", "s 4", "d 3", "l 3 4", "s 4", "d 3", "l 3 4", "e 2 1", "s 4", "c 4 r2 r3",
]

# eight sites in a row, then in reverse
REVERSE = ["p 8 8 0 2 1 4 2 8 3 16 4 32 5 64 6 128 7 0", "p 8 8 0 0 7 64 6 32 5 16 4 8 3 4 2 2 1 1"]
REVERSE += [line for k in range(7, 0, -1) for line in ("d %d" % k, "l %d %d" % (k, k - 1), "s %d" % (k - 1))] + ["c 0 r7 w0=1 r0"]

# as many operations and items as a line holds; lines of 512 and 513 bytes and more
LONGEST = [
    "c 0" + " r0" * 169, "c 0" + " r0" * 168 + " w1=1", "c 0" + " r0" * 168 + " w1=12", "p 2 2" + " 0 0" * 126,
    "p 2 126" + " 0 0" * 126, "d " + "0" * 510, "d " + "0" * 511, "x" * 512, "x" * 513, "x" * 5000, "d 0 " + " " * 600, "d 1",
]

# cause 13, then cause 12
FULL_LINE = ["p 2 2 0 2 1 0"] + ["d 0"] * 17 + ["c 0 w0=1", "c 0 r0", "l 0 1", "s 1", "c 0 w0=1", "c 0 w0=2"]
FULL_HISTORY = ["p 1 1 0 0"] + ["c 0 w0=%d" % i for i in range(257)] + ["c 0 r0", "d 0", "p 8 1 0 0", "d 7", "d 8"]

TEXT = [line.encode() for line in UNSET + SET_UPS + MALFORMED]
REST = [line.encode() for line in WORKED + STEPS + VALUES + LONGEST + OWN_WRITES + MOVED + CYCLES + BELOW + REVERSE + FULL_LINE + FULL_HISTORY]

sys.stdout.buffer.write(b"\n".join(TEXT + BYTES + REST) + b"\nc 0 w0=5 r0")
