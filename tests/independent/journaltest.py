"""The journal tried on journals made by hand; the answers are document 02 a's.

    python3 journaltest.py
"""

import sys

import journal
from journal import Disk

# A file of three pages, each filled with its own number; and what a call would make of it.
BEFORE = b"\x01" * 512 + b"\x02" * 512 + b"\x03" * 512
AFTER = b"\x01" * 512 + b"\xAB" * 512 + b"\xCD" * 512
HALF = b"\x01" * 512 + b"\xAB" * 300 + b"\x02" * 212 + b"\x03" * 512

# The images of that call, written out.
I1 = b"0001" + b"01" * 512 + b"\n"
I2 = b"0002" + b"02" * 512 + b"\n"
I3 = b"0003" + b"03" * 512 + b"\n"
R, D = b"0000\n", b"FFFF\n"

# Journals beside the file AFTER: the refusal, and the file that recovery leaves.
JOURNALS = [
    ("empty", b"", 0, AFTER),
    ("images alone", I2 + I3, 0, AFTER),
    ("ready", I2 + I3 + R, 0, BEFORE),
    ("done", I2 + I3 + R + D, 0, AFTER),
    ("one image of two", I3 + R, 0, AFTER[:1024] + BEFORE[1024:]),
    ("an earlier call, done", I2 + R + D + I3 + R, 0, AFTER[:1024] + BEFORE[1024:]),
    ("an earlier call, then images", I2 + R + D + I3, 0, AFTER),
    ("two calls, done", I2 + R + D + I2 + I3 + R + D, 0, AFTER),
    ("small letters", (I2 + I3 + R).lower(), 0, BEFORE),
    ("done in small letters", I2 + R + b"ffff\n", 0, AFTER),
    ("done in both letters", I2 + R + b"fFFf\n", 0, AFTER),
    ("ready without line end", I2 + I3 + R[:-1], 0, AFTER),
    ("done without line end", I2 + I3 + R + D[:-1], 0, BEFORE),
    ("done cut", I2 + I3 + R + b"FF", 0, BEFORE),
    ("an image without line end", I2 + I3[:-1], 0, AFTER),
    ("any last line without line end", I2 + I3 + R + b"no line\r\0", 0, BEFORE),
    ("only a piece of a line", b"00", 0, AFTER),
    ("ready without images", R, 13, AFTER),
    ("done alone", D, 13, AFTER),
    ("done without ready", I2 + D, 13, AFTER),
    ("two readies", I2 + R + R, 13, AFTER),
    ("two dones", I2 + R + D + D, 13, AFTER),
    ("ready after done", I2 + R + D + R, 13, AFTER),
    ("an image after ready", I2 + R + I3, 13, AFTER),
    ("images that fall", I3 + I2, 13, AFTER),
    ("an image twice", I2 + I2 + R, 13, AFTER),
    ("images that fall in a done call", I3 + I2 + R + D, 13, AFTER),
    ("page 0", b"0000" + I1[4:] + R, 13, AFTER),
    ("page 4 of 3", b"0004" + I1[4:], 13, AFTER),
    ("page 4 of 3 in a done call", b"0004" + I1[4:] + R + D, 13, AFTER),
    ("page 4 of 3 without line end", b"0004" + I1[4:-1], 0, AFTER),
    ("page 65535", b"FFFF" + I1[4:], 13, AFTER),
    ("page 258", b"0102" + I1[4:], 13, AFTER),
    ("an empty line", b"\n", 13, AFTER),
    ("an empty line at the end", I2 + R + b"\n", 13, AFTER),
    ("an image a byte short", I2[:-3] + b"\n", 13, AFTER),
    ("an image a byte long", I2[:-1] + b"02\n", 13, AFTER),
    ("an odd digit", I2[:-2] + b"\n", 13, AFTER),
    ("no digit", I2[:-2] + b"G\n", 13, AFTER),
    ("a space within", b"00 00\n", 13, AFTER),
    ("a space after ready", I2 + b"0000 \n", 13, AFTER),
    ("a carriage return", I2 + b"0000\r\n", 13, AFTER),
    ("another two bytes", I2 + b"0001\n", 13, AFTER),
    ("ready of three digits", I2 + b"000\n", 13, AFTER),
    ("a byte over 127", I2 + b"\xB0000\n", 13, AFTER),
]


class Tally:
    """Counts checks."""

    def __init__(self):
        self.passed = self.failed = 0

    def check(self, holds, name):
        """One check; a failure is shown."""
        self.passed += holds
        self.failed += not holds
        if not holds:
            print("FAILED", name)


def lines(tally):
    """What a call writes, byte for byte."""
    tally.check(journal.image_line(BEFORE, 2) == I2, "an image")
    tally.check(len(I2) == 2 * 514 + 1, "an image's length")
    tally.check((journal.READY_LINE, journal.DONE_LINE) == (R, D), "ready and done")
    tally.check(journal.line(b"\xab\x0c") == b"AB0C\n", "capitals")
    tally.check(journal.image_line(bytes(512 * 127) + b"\xEF" * 512, 128) == b"0080" + b"EF" * 512 + b"\n", "page 128")
    want = [("append", I2), ("append", I3), ("append", R), ("store", 2, b"\xAB" * 512),
            ("store", 3, b"\xCD" * 512), ("append", D)]
    tally.check(journal.writes(BEFORE, AFTER) == want, "a call's writes")
    tally.check(journal.writes(BEFORE, BEFORE) == [], "nothing changes")
    tally.check(journal.changed(BEFORE, HALF) == [2], "changed pages")


def disks(tally):
    """Writes performed, whole and cut."""
    start, some = Disk(BEFORE, b""), journal.writes(BEFORE, AFTER)
    tally.check(journal.performed(start, some) == Disk(AFTER, I2 + I3 + R + D), "all writes")
    tally.check(journal.cut(start, some, 0, 0) == start, "nothing reached the disk")
    tally.check(journal.cut(start, some, 1, 7) == Disk(BEFORE, I2 + I3[:7]), "a line cut")
    tally.check(journal.cut(start, some, 3, 300) == Disk(HALF, I2 + I3 + R), "a store cut")
    tally.check(journal.cut(start, some, 3, 512) == journal.cut(start, some, 4, 0), "a store whole")
    tally.check(journal.partly(Disk(BEFORE, I2), ("clear",), 0) == Disk(BEFORE, I2), "no clear")
    tally.check(journal.partly(Disk(BEFORE, I2), ("clear",), 1) == Disk(BEFORE, b""), "a clear")


def journals(tally):
    """The journals above: refusal, file and journal; and a file of the wrong length is 2 with each."""
    for name, text, refusal, file in JOURNALS:
        left = Disk(file, text if refusal else b"")
        tally.check(journal.recovered(Disk(AFTER, text)) == (refusal, left), name)
        for wrong in (b"", AFTER[:-1], AFTER + b"\0", bytes(511), bytes(512 * 129)):
            disk = Disk(wrong, text)
            tally.check(journal.recovered(disk) == (2, disk), f"{name}, {len(wrong)} bytes")


def recoveries(tally):
    """What recovery writes, and recovery cut and done again."""
    disk = Disk(HALF, I2 + I3 + R)
    some = [("store", 2, BEFORE[512:1024]), ("store", 3, BEFORE[1024:]), ("clear",)]
    tally.check(journal.recovery(disk) == (0, some), "recovery's writes")
    tally.check(journal.recovery(Disk(HALF, I2)) == (0, [("clear",)]), "no ready: only the clear")
    tally.check(journal.recovery(Disk(HALF, R)) == (13, []), "refused: no writes")
    for place, count in ((0, 0), (0, 1), (0, 511), (1, 100), (2, 0), (2, 1)):
        again = journal.recovered(journal.cut(disk, some, place, count))
        tally.check(again == (0, Disk(BEFORE, b"")), f"recovery cut at {place}, {count}")
    tally.check(journal.recovered(Disk(BEFORE, b"")) == (0, Disk(BEFORE, b"")), "recovery twice")
    full = Disk(bytes(512 * 128), b"0080" + b"EF" * 512 + b"\n" + R)
    tally.check(journal.recovered(full) == (0, Disk(bytes(512 * 127) + b"\xEF" * 512, b"")), "128 pages")


def main():
    """Run everything and print the counts."""
    tally = Tally()
    for part in (lines, disks, journals, recoveries):
        part(tally)
    print(f"journal: {tally.passed} passed, {tally.failed} failed")
    return 0 if tally.failed == 0 else 1


if __name__ == "__main__":
    sys.exit(main())
