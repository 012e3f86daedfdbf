"""The power goes at any byte: calls and recoveries cut, recovered and compared (document 02 a).

Games are drawn and played. Each call that changes the file is written through the journal and cut
at bytes of its lines and stores; recovery must leave the file before the call, or the one after it
exactly where the done line is complete, and an empty journal. Recovery's own stores are cut too, and
recovered again. Then the journals are spoiled: refusal 13 with nothing changed, or the recovery due.

    python3 tests/power.py [--cuts 100000] [--seed 3] [--library LIB.so] [--independent]

Recovery is done by the independent program and by the library; every byte is compared. Without
--library the shared object is made from the archive that `tools/archives journal` writes. With
--independent there is no library. --cuts counts cuts of calls; those of recoveries come on top.
"""

import argparse
import collections
import ctypes
import faulthandler
import pathlib
import random
import re
import subprocess
import sys

ROOT = pathlib.Path(__file__).resolve().parent.parent
sys.path.insert(0, str(ROOT / "tests" / "independent"))

import draw  # noqa: E402
import journal  # noqa: E402
import layout  # noqa: E402
import ledger as ledgers  # noqa: E402
import table as tables  # noqa: E402
from journal import Disk  # noqa: E402

SESSION = 40
NO_ROOM = 4294967295
# A line or store of at most SHORT bytes is cut at each of them; a longer one at NEAR bytes from
# each end and at BETWEEN drawn ones. Of more than MANY writes some are drawn.
SHORT, NEAR, BETWEEN, MANY = 16, 12, 14, 12
# How often a call of at most three pages is cut at every byte, and recovery likewise.
EVERY_BYTE, EVERY_BYTE_BACK = 0.03, 0.0006
SPOILED, WRONG_LENGTHS = 24, 2
# Journals of earlier calls are left standing up to this length, now and then longer.
EARLIER = 12000
# What a run must meet.
MET = ("before", "after", "put back", "every byte", "earlier", "games gone on", "cuts of recoveries",
       "spoiled 0", "spoiled 13", "length 2")
GUARD = bytes(range(160, 224))
DIGITS = b"0123456789ABCDEF"

IMAGE_LINE = rb"(?:[0-9A-Fa-f]{1028}\n)"
IN_ORDER = re.compile(rb"(?:%b+0000\n[Ff]{4}\n)*(?:(%b+)(0000\n)?)?" % (IMAGE_LINE, IMAGE_LINE))
GROUP_END = re.compile(rb"(?<=\n)0000\n(?:[Ff]{4}\n)?")


class Difference(Exception):
    """What differs: a name, what was told and what is due."""


def same(name, told, want):
    """A difference unless both are equal."""
    if told != want:
        raise Difference(name, told, want)


# The library


class Lent:
    """Bytes lent to the library between guard bytes."""

    def __init__(self):
        self.block, self.length = bytearray(), 0

    def lend(self, data):
        """Pointer and length of a copy."""
        self.length = len(data)
        whole = GUARD + data + GUARD
        if len(whole) > len(self.block):
            self.block = bytearray(2 * len(whole))
            self.at = ctypes.addressof((ctypes.c_uint8 * len(self.block)).from_buffer(self.block))
        self.block[:len(whole)] = whole
        return [ctypes.c_void_p(self.at + len(GUARD)), ctypes.c_size_t(len(data))]

    def back(self):
        """The bytes as the library left them."""
        end = len(GUARD) + self.length
        around = bytes(self.block[:len(GUARD)]), bytes(self.block[end:end + len(GUARD)])
        same("bytes outside what was lent", around, (GUARD, GUARD))
        return bytes(self.block[len(GUARD):end])


class Library:
    """The journal's three functions over a shared object."""

    def __init__(self, path):
        found = ctypes.CDLL(str(path))
        self.functions = found.gerunjap_images, found.gerunjap_recover, found.gerunjap_changed
        for function, result in zip(self.functions, (ctypes.c_uint32, ctypes.c_uint8, ctypes.c_uint8)):
            function.restype = result
        self.lent = [Lent() for _ in range(3)]

    def called(self, function, *blocks):
        """The function's answer, and the three blocks after it."""
        arguments = [part for lent, block in zip(self.lent, blocks) for part in lent.lend(block)]
        return (function(*arguments), *[lent.back() for lent in self.lent])

    def images(self, before, after, out):
        """Answer, before, after, out."""
        return self.called(self.functions[0], before, after, out)

    def recover(self, file, text, stored):
        """Answer, file, journal, stored."""
        return self.called(self.functions[1], file, text, stored)

    def changed(self, before, after, page):
        """Whether the page differs."""
        arguments = self.lent[0].lend(before) + self.lent[1].lend(after)
        answer = self.functions[2](*arguments, ctypes.c_uint32(page))
        same("lent files", (self.lent[0].back(), self.lent[1].back()), (before, after))
        return answer


def made():
    """The shared object of the archive, made anew."""
    archive, made_as = ROOT / "target/staticlib/libjournal.a", ROOT / "target/libjournal.so"
    subprocess.run(["gcc", "-shared", "-o", made_as, "-Wl,--whole-archive", archive, "-Wl,--no-whole-archive"], check=True)
    return made_as


# Spoiled journals


def judged(disk):
    """Refusal and file after recovery, told in another way: by a pattern over the whole journal."""
    pages, rest = divmod(len(disk.file), 512)
    if rest or not 1 <= pages <= 128:
        return 2, disk.file
    text = disk.journal[:disk.journal.rfind(b"\n") + 1]
    found = IN_ORDER.fullmatch(text)
    if not found:
        return 13, disk.file
    for group in GROUP_END.split(text):
        numbers = [0] + [int(line[:4], 16) for line in group.split()]
        if numbers[-1] > pages or any(a >= b for a, b in zip(numbers, numbers[1:])):
            return 13, disk.file
    file = bytearray(disk.file)
    for line in found[1].split() if found[2] else ():
        at = 512 * (int(line[:4], 16) - 1)
        file[at:at + 512] = bytes.fromhex(line[4:].decode())
    return 0, bytes(file)


def some_image(rng, pages):
    """An image of drawn bytes, mostly of a page of the file."""
    page = rng.choice([rng.randint(1, pages)] * 6 + [0, pages + 1, 65535])
    return journal.line(page.to_bytes(2, "big") + rng.randbytes(512))


def drawn_lines(rng, pages):
    """Lines drawn one by one, mostly each in its place."""
    lines, page, ready = [], 0, False
    for _ in range(rng.randint(1, 9)):
        right = journal.DONE_LINE if ready else journal.READY_LINE
        if not ready and page < pages and (page == 0 or rng.random() < 0.5):
            page = rng.randint(page + 1, pages)
            right = journal.line(page.to_bytes(2, "big") + rng.randbytes(512))
        else:
            page, ready = (0, False) if ready else (page, True)
        lines.append(right if rng.random() < 0.93 else other_line(rng, pages))
    return lines


def other_line(rng, pages):
    """A line that may be malformed or out of place."""
    image = some_image(rng, pages)
    return rng.choice([journal.READY_LINE, journal.DONE_LINE, image, image[2:], b"00" + image, b"\n", b" \n", b"0000\r\n",
                       b"00000000\n", b"FFFE\n", b"0001\n", b"ffff\n", b"000\n", b"00\n"])


def spoiled_bytes(rng, text):
    """One byte changed, dropped or put in, often at a line's ends."""
    ends = [at for at, byte in enumerate(text) if byte == 10] or [0]
    near = rng.choice(ends) + rng.randint(-5, 5)
    at = rng.choice([rng.randrange(len(text)), min(max(near, 0), len(text) - 1)])
    new = bytes([rng.choice(DIGITS + b"abcdef" + b"\n\r G@`g/:\0\x80\xFF")])
    return rng.choice([text[:at] + new + text[at + 1:], text[:at] + text[at + 1:], text[:at] + new + text[at:]])


def spoiled_lines(rng, lines, pages):
    """A line dropped, doubled, swapped with another, put in, or with another page number."""
    lines, at, other = list(lines), rng.randrange(len(lines)), rng.randrange(len(lines))
    way = rng.randrange(5)
    if way == 0:
        del lines[at]
    elif way == 1:
        lines.insert(other, lines[at])
    elif way == 2:
        lines[at], lines[other] = lines[other], lines[at]
    elif way == 3:
        lines.insert(at, other_line(rng, pages))
    else:
        page = rng.choice([0, pages, pages + 1, 65535, 128, 129, 256 + pages, rng.randint(1, pages)])
        lines[at] = b"%04X" % page + lines[at][4:]
    return lines


def spoiled(rng, text, pages):
    """A journal with something changed; it may still be in order."""
    roll = rng.random()
    if roll < 0.25 or not text:
        return b"".join(drawn_lines(rng, pages))[:rng.choice([None, None, None, -1])]
    for _ in range(rng.choice([1, 1, 1, 2])):
        if not text:
            break
        lines = text.splitlines(keepends=True) if rng.random() < 0.6 else None
        text = b"".join(spoiled_lines(rng, lines, pages)) if lines else spoiled_bytes(rng, text)
    return text.swapcase() if rng.random() < 0.1 else text


# The trials


class Power:
    """Cuts, recoveries and spoiled journals, counted."""

    def __init__(self, rng, library):
        self.rng, self.library, self.seen = rng, library, collections.Counter()
        self.disk, self.story = None, {}

    def recover(self, disk):
        """Recovery on both sides: refusal, its writes, and the disk after them."""
        self.disk = disk
        self.seen["recoveries"] += 1
        refusal, some = journal.recovery(disk)
        left = journal.performed(disk, some)
        if self.library:
            pages = len(disk.file) // 512 if refusal != 2 else 128
            lent = b"\xA5" * (pages + self.seen["recoveries"] % 3)
            stored = {write[1] for write in some if write[0] == journal.STORE}
            told = self.library.recover(disk.file, disk.journal, lent)
            flags = lent if refusal else bytes(page in stored for page in range(1, pages + 1)) + lent[pages:]
            due = refusal, left.file, disk.journal, flags
            for name, *both in zip(("refusal", "file", "lent journal", "stored"), told, due):
                same(f"recovery's {name}", *both)
        return refusal, some, left

    def survive(self, disk, want, again=True):
        """Recovery leaves that disk; so does recovery after a cut in recovery; a second one changes nothing."""
        refusal, some, left = self.recover(disk)
        same("refusal after a cut", refusal, 0)
        same("file after recovery", left.file, want.file)
        same("journal after recovery", left.journal, want.journal)
        same("recovery after recovery", self.recover(left), (0, [(journal.CLEAR,)], left))
        self.seen["put back"] += len(some) > 1
        # Where recovery only clears, a cut in it leaves a disk that was tried above.
        if again and len(some) > 1:
            every = len(some) <= 4 and self.rng.random() < EVERY_BYTE_BACK
            for at, count in self.places_back(some, every):
                self.seen["cuts of recoveries"] += 1
                self.survive(journal.cut(disk, some, at, count), want, not every and self.rng.random() < 0.1)

    def places_back(self, some, every):
        """Where recovery's writes are cut: at every byte, or in the first and in a drawn one."""
        if every:
            return [(at, count) for at, write in enumerate(some) for count in range(journal.extent(write))]
        return [(at, self.rng.randrange(journal.extent(some[at]))) for at in sorted({0, self.rng.randrange(len(some))})]

    def counts(self, write, every):
        """How many bytes of a write reach the disk, in each cut of it; never all of them."""
        size = journal.extent(write)
        if every or size <= SHORT:
            return range(size)
        return sorted({*range(NEAR), *range(size - NEAR, size), *self.rng.sample(range(NEAR, size - NEAR), BETWEEN)})

    def chosen(self, some):
        """The writes to cut: all, or of many those where something ends or begins and some drawn ones."""
        if len(some) <= MANY:
            return range(len(some))
        ready = len(some) // 2 - 1
        ends = {0, 1, ready - 1, ready, ready + 1, len(some) - 2, len(some) - 1}
        return ends | set(self.rng.sample(range(len(some)), 3))

    def call(self, before, after, earlier):
        """A call that changes the file, cut at bytes of all it writes, after earlier calls' lines."""
        self.story.update(before=before, after=after, earlier=earlier)
        some = journal.writes(before, after)
        every, chosen = len(some) <= 8 and self.rng.random() < EVERY_BYTE, self.chosen(some)
        if self.library:
            self.lines(before, after, some)
        disk, disks = Disk(before, earlier), []
        for at, write in enumerate(some):
            for count in self.counts(write, every) if at in chosen else ():
                self.story.update(write=at, count=count)
                disks.append(journal.partly(disk, write, count))
                self.survive(disks[-1], Disk(before, b""))
            disk = journal.partly(disk, write, journal.extent(write))
        same("file after the call", disk.file, after)
        self.story.update(write=len(some), count=0)
        self.survive(disk, Disk(after, b""))
        self.seen.update({"calls": 1, "before": len(disks), "after": 1, "every byte": every, "earlier": earlier != b""})
        self.story.update(write=None, count=None)
        self.spoil(self.rng.choices(disks, k=SPOILED // 2) + [disk] * (SPOILED // 2))

    def lines(self, before, after, some):
        """The library's lines and changed pages are those of the writes."""
        pages = journal.page_count(before)
        stores = [write[1] for write in some if write[0] == journal.STORE]
        text = b"".join(write[1] for write in some[:-1] if write[0] == journal.APPEND)
        for room in {0, 1, len(text) - 1, len(text), len(text) + 7}:
            out = b"\x5A" * room
            want = (NO_ROOM, out) if room < len(text) else (len(text), text + out[len(text):])
            told = self.library.images(before, after, out)
            same(f"images into {room} bytes", told, (want[0], before, after, want[1]))
        self.nothing(before, before, 0)
        for a, b in ((before, after[:-1]), (before[:-512], after), (before, after + bytes(512)), (b"", b""),
                     (before[1:], after[1:]), (bytes(512 * 129), bytes(512 * 128) + after[:512]), (b"", after)):
            self.nothing(a, b, NO_ROOM)
        for page in range(1, pages + 1) if pages < 9 else {1, 2, *stores[:4], pages - 1, pages}:
            same(f"page {page} changed", self.library.changed(before, after, page), int(page in stores))
        for page in (0, pages + 1, NO_ROOM):
            self.library.changed(before, after, page)   # comes back; its answer is not said anywhere
        short = b"\xA5" * (pages - 1)
        told = self.library.recover(after, text, short)
        same("recovery with too few places for the stored pages", told, (2, after, text, short))

    def nothing(self, before, after, answer):
        """Images of files that are the same or of wrong lengths: nothing is written."""
        for out in (b"", b"\x5A" * 3000):
            told = self.library.images(before, after, out)
            same(f"images of {len(before)} and {len(after)} bytes", told, (answer, before, after, out))

    def spoil(self, disks):
        """Spoiled journals beside files that a cut left, and files of wrong lengths."""
        for disk in disks:
            pages = journal.page_count(disk.file)
            file = disk.file if self.rng.random() < 0.9 else disk.file[:512 * self.rng.randint(1, pages)]
            refusal = self.judge(Disk(file, spoiled(self.rng, disk.journal, pages)))
            self.seen.update({"spoiled": 1, f"spoiled {refusal}": 1})
        for disk in self.rng.sample(disks, WRONG_LENGTHS):
            file = self.rng.choice([b"", disk.file[:-1], disk.file + b"\0", bytes(512 * 129), disk.file[:511]])
            text = self.rng.choice([disk.journal, spoiled(self.rng, disk.journal, pages)])
            self.seen[f"length {self.judge(Disk(file, text))}"] += 1

    def judge(self, disk):
        """Recovery of a spoiled disk, compared with the other reading; the refusal."""
        refusal, _, left = self.recover(disk)
        same("refusal and file of a spoiled journal", (refusal, left.file), judged(disk))
        same("journal after", left.journal, disk.journal if refusal else b"")
        return refusal


class Game:
    """One table with its file, ledger and currency, and the lines that stand in its journal."""

    def __init__(self, rng, power):
        self.rng, self.power = rng, power
        words = draw.table(rng)
        power.story = {"table": words}
        self.shape = tables.read(words)
        self.alphabet = rng.choice([(0, 1), (0, 127, 128, 255), tuple(range(256))])
        self.ledger, self.currency = ledgers.empty_ledger(self.shape), ledgers.empty_currency()
        self.file, self.groups = layout.write(self.shape, self.ledger), []
        size = len(self.file)
        # FORMAT comes first, on whatever stood there.
        self.changes(rng.choice([bytes(size), rng.randbytes(size), b"\xFF" * size]), self.file)

    def turn(self):
        """One drawn call; where it changes the file, the power goes."""
        hand = draw.Hand(self.rng, self.shape, self.ledger, self.currency, self.alphabet)
        number, arguments = (ledgers.FORMAT, ()) if self.rng.random() < 0.01 else hand.call()
        before = self.file
        if number == ledgers.FORMAT:
            self.ledger, self.currency = ledgers.empty_ledger(self.shape), ledgers.empty_currency()
        else:
            outcome = ledgers.call(self.shape, self.ledger, self.currency, number, arguments)
            self.ledger, self.currency = outcome.ledger, outcome.currency
        self.file = layout.write(self.shape, self.ledger)
        if self.file != before:
            self.power.story["frame"] = draw.frame(number, arguments)
            self.changes(before, self.file)
            if self.rng.random() < 0.1:
                self.power_back(before)

    def changes(self, before, after):
        """The call's cuts, with some, all or none of the earlier calls' lines; then its own lines stand too."""
        standing = min(self.rng.choice([0, 0, 1, 2, 3, len(self.groups)]), len(self.groups))
        earlier = b"".join(self.groups[len(self.groups) - standing:])
        if len(earlier) > EARLIER and self.rng.random() < 0.95:
            earlier = b""
        self.power.call(before, after, earlier)
        some = journal.writes(before, after)
        self.groups.append(b"".join(write[1] for write in some if write[0] == journal.APPEND))

    def power_back(self, before):
        """The game goes on from a recovered disk: the file before or after, zero currency, no journal."""
        self.file = self.rng.choice([before, self.file])
        ledger = layout.read(self.shape, self.file) if self.file == before else self.ledger
        self.ledger, self.currency, self.groups = ledger, ledgers.empty_currency(), []
        self.power.seen["games gone on"] += 1


def report(asked, power, difference):
    """Says what differs, with all that is needed to play it again."""
    name, told, want = difference.args
    shown = [value.hex() if isinstance(value, bytes) else value for value in (told, want)]
    print(f"DIFFERENCE in {name}; again with --seed {asked.seed} --cuts {asked.cuts}")
    # The last disk that was recovered, after the call's story.
    disk = power.disk._asdict() if power.disk else {}
    for key, value in {**power.story, **disk}.items():
        print(key, value.hex() if isinstance(value, bytes) else value)
    print("is", shown[0])
    print("should be", shown[1])


def main():
    """Plays games until there were enough cuts, and tells."""
    faulthandler.enable()
    options = argparse.ArgumentParser(description=__doc__.split("\n")[0])
    options.add_argument("--library")
    options.add_argument("--independent", action="store_true")
    options.add_argument("--cuts", type=int, default=100000)
    options.add_argument("--seed", type=int, default=3)
    asked = options.parse_args()
    rng = random.Random(asked.seed)
    power = Power(rng, None if asked.independent else Library(asked.library or made()))
    seen = power.seen
    try:
        while seen["before"] + seen["after"] < asked.cuts:
            game = Game(rng, power)
            for _ in range(SESSION):
                game.turn()
    except Difference as difference:
        report(asked, power, difference)
        raise SystemExit(1)
    lacking = [key for key in MET if not seen[key]]
    print(f"power: {seen['before'] + seen['after']} cuts of {seen['calls']} calls ({seen['every byte']} at every byte, "
          f"{seen['earlier']} after earlier calls' lines), {seen['cuts of recoveries']} cuts of recoveries, "
          f"{seen['recoveries']} recoveries, {seen['spoiled']} malformed journals ({seen['spoiled 13']} refused), "
          + ("no difference" if not lacking else f"never met: {', '.join(lacking)}"))
    sys.exit(1 if lacking else 0)


if __name__ == "__main__":
    main()
