"""The independent program tried on document 01's examples and on itself.

    python3 selftest.py [--seed S] [--calls N]

The listing and the ten examples at the edges come first, then random
tables, sessions, currencies, damaged files and player lines.
"""

import argparse
import collections
import random
import sys

import draw
import judge
import layout
import ledger as ledgers
import player
import store
import table as tables
from book import Book
from ledger import Answer, Currency, empty_currency, empty_ledger
from scenes import SCENES, steps

SESSION_CALLS = (40, 75, 75, 250)

LISTING_IN = """\
00 0001 0002 0001 000A 0002 0002 0001 0001 FFFF 0000 0002 0014 0004 0001 0001 0001 0000 0000 0000 000A 0014 0002 0000 0002 0000 0002
01 000A 5231
01 0014 0007AA01
01 0014 0003BB02
01 0014 0007CC03
04 00
0A
06 00
09
04 00
"""

LISTING_OUT = """\
0000000000000000
00000041000A0000
0000004200140000
0000004300140000
0A00000000000000
0000004200140000
00000042001400000007AA01
00000041000A0000
00000041000A0003
0600000000000000
"""

# Document 01's racks and boards: 10 is calculated, 20 its sorted detail.
RACKS = [1, 2, 1, 10, 2, 2, 1, 1, 65535, 0, 2, 20, 4, 1, 1, 1, 0, 0, 0,
         10, 20, 2, 0, 2, 0, 2]


class Tally:
    """Counts checks, and the calls and refusals seen."""

    def __init__(self):
        self.passed = self.failed = 0
        self.done, self.refused = collections.Counter(), collections.Counter()
        self.bent = collections.Counter()   # by whether the layout is still sound

    def check(self, holds, name):
        """One check; the first failures are shown."""
        if holds:
            self.passed += 1
            return
        self.failed += 1
        if self.failed <= 20:
            print("FAILED", name)

    def saw(self, number, answer):
        """Count an answer by its call or by its refusal."""
        if answer.code:
            self.refused[answer.code] += 1
        else:
            self.done[number] += 1


# The listing and the examples at the edges


def listing(tally):
    """Both ways of playing reproduce document 01's listing."""
    tally.check(player.play(LISTING_IN) == LISTING_OUT, "listing by ledger")
    tally.check(player.play(LISTING_IN, True) == LISTING_OUT, "listing through bytes")
    tally.check(player.play(LISTING_IN[:-1]) == LISTING_OUT, "last line without line end")


def edges(tally):
    """The ten examples at the edges."""
    ten_pages = tables.Type(1, 2, tables.CALCULATED, 1, 10, 65535, 0, 2)
    tally.check(tables.randomized(b"\x52\x31") == 213, "example 1, h")
    tally.check(tables.home_page(ten_pages, b"\x52\x31") == 4, "example 1, home")
    tally.check(tables.randomized(b"\xFF" * 16) == 65281, "example 2")
    tally.check(ledgers.LINES * 1 + 1 == 65 and ledgers.LINES * 128 == 8192, "example 3")
    wrapping = RACKS[:9] + [65535, 2] + RACKS[11:]
    tally.check(refusal(wrapping) == 1, "example 4, type")
    tally.check(refusal(RACKS[:-2] + [65535, 2]) == 1, "example 4, chain")
    tally.check(fill(1, 3) == (62, 0, 11), "example 5")
    tally.check(fill(1, 2) == (63, 55, 11), "example 6")
    tally.check(fill(2, 2) == (126, 55, 11), "example 6, the next goes on")
    empty_ring = "".join(line + "\n" for line in LISTING_IN.split("\n")[:2]) + "04 00\n05 00\n"
    tally.check(player.play(empty_ring).split()[2:] == ["00000041000A0000"] * 2, "example 7")
    example_8(tally)
    tally.check(refusal(RACKS[:19] + [20, 20] + RACKS[21:]) == 1, "example 9")
    sweep = player.play("\n".join(LISTING_IN.split("\n")[:5] + ["07 000041 000040"]))
    tally.check(sweep.split()[-1] == "0900000000000000", "example 10")


def hand_worked(tally):
    """The scenes worked by hand, both ways."""
    for name, scene in SCENES.items():
        pairs = steps(scene)
        for through_bytes in (False, True):
            lines = player.play("\n".join(frame for frame, _ in pairs), through_bytes).split()
            for (frame, answer), line in zip(pairs, lines, strict=True):
                tally.check(line == answer, f"{name}: {frame} gives {line}")


def refusal(words):
    """FORMAT's answer for these words, on a file of the right size."""
    return store.call(words, bytes(512 * words[0]), empty_currency(), 0, (), b"")[0].code


def fill(pages, length):
    """How many records of one type go in, bytes free on page 1, and the refusal then."""
    words = [pages, 1, 0, 7, length, 0, 1, pages, 65535, 0, 0]
    table = tables.read(words)
    ledger, currency = empty_ledger(table), empty_currency()
    while True:
        outcome = ledgers.call(table, ledger, currency, 1, (7, bytes(length)))
        if outcome.answer.code:
            file = layout.write(table, ledger)
            return len(ledger.records), layout.number(file, 3, 2), outcome.answer.code
        ledger, currency = outcome.ledger, outcome.currency


def example_8(tally):
    """Sizes 13 and 12, and 459 bytes free after three stores."""
    table = tables.read(RACKS)
    sizes = [tables.record_size(table, t) for t in table.types]
    tally.check(sizes == [13, 12], "example 8, sizes")
    file, currency = bytes(512), empty_currency()
    for number, arguments in [(0, ()), (1, (10, b"R1")), (1, (20, b"\0\7\xAA\1")),
                              (1, (20, b"\0\3\xBB\2"))]:
        answer, file, currency, _ = store.call(RACKS, file, currency, number, arguments, b"")
        tally.check(answer.code == 0, "example 8, done")
    tally.check(layout.number(file, 3, 2) == 459, "example 8, free")


# Tables and player lines


def some_tables(tally, rng, count):
    """Drawn tables are accepted, broken ones are refused 1 by every call."""
    for _ in range(count):
        tally.check(tables.broken_rule(draw.table(rng)) is None, "a drawn table is accepted")
        words = draw.broken_table(rng)
        file = bytes(512 * (words[0] if words and words[0] < 200 else 1))
        for number in (0, rng.randint(1, 13), 99):
            got = store.call(words, file, empty_currency(), number, (), b"xyz")
            tally.check(got == (Answer(1), file, empty_currency(), b"xyz"), "broken table")
            tally.saw(number, got[0])
    table_edges(tally)


def table_edges(tally):
    """Each word of the example table at and past its bounds: (word, accepted, refused)."""
    bounds = [(0, (1, 128), (0, 129)), (1, (2,), (0, 1, 3, 17)), (2, (1,), (0, 2, 17)),
              (3, (1, 19), (0, 20, 1000)), (4, (2, 200), (0, 1, 201, 65535)), (5, (2,), (0, 1, 3)),
              (6, (1,), (0, 2)), (7, (1,), (0, 2)), (8, (65535,), (0, 1)), (9, (0,), (1, 65535)),
              (10, (1, 2), (0, 3, 65535)), (11, (20,), (9, 10, 21, 1000)), (12, (2, 200), (1, 201)),
              (13, (1,), (0, 2, 3)), (16, (0,), (1, 65535)), (17, (0,), (1,)), (18, (0,), (1,)),
              (19, (10,), (11, 20)), (20, (20,), (10, 21)), (21, (2, 3), (0, 1, 4)),
              (22, (0, 1), (2,)), (23, (0, 1, 2), (3,)), (24, (0, 2), (3, 65535)),
              (25, (1, 4), (0, 5, 65535))]
    for at, accepted, refused in bounds:
        for word in accepted + refused:
            words = RACKS[:at] + [word] + RACKS[at + 1:]
            if at == 3:
                words[19] = word   # the chain's master follows the type's number
            holds = (tables.broken_rule(words) is None) == (word in accepted)
            tally.check(holds, f"table word {at} as {word}")


def some_lines(tally, rng, count):
    """Bad lines print FF, frames before a table 01, loose spelling is no matter."""
    tally.check(player.play("") == "" and player.play("\n") == "FF\n", "empty input and line")
    early = player.play(" \n00\nFE12\n0A")
    tally.check(early == "FF\n" + "0100000000000000\n" * 3, "before a table")
    tally.check(player.play("0A" + " " * 1098) != "FF\n", "1,100 characters")
    tally.check(player.play("0A" + " " * 1099) == "FF\n", "1,101 characters")
    for _ in range(count):
        words = draw.table(rng)
        plain = [draw.format_frame(words)] + [draw.frame(*c) for c in draw.session(rng, words, 30)]
        plain += [draw.format_frame(draw.broken_table(rng))] + plain[1:3]
        loose = [draw.loosened(rng, line) for line in plain]
        want = player.play("\n".join(plain))
        tally.check(player.play("\n".join(loose)) == want, "loose spelling")
        tally.check(player.play("\n".join(plain), True) == want, "both ways print the same")
        at = rng.randint(0, len(plain))
        lines = player.play("\n".join(plain[:at] + [draw.bad_line(rng) + "\n"] + plain[at:]))
        answers = want.split()
        # The bad line's own line end adds one empty line after it, except at the end.
        bad = ["FF", "FF"] if at < len(plain) else ["FF"]
        tally.check(lines.split() == answers[:at] + bad + answers[at:], "bad line")


# Sessions


def sessions(tally, rng, calls):
    """Random sessions by ledger, through bytes and in the book, side by side."""
    while sum(tally.done.values()) + sum(tally.refused.values()) < calls:
        words = draw.table(rng)
        desk = Desk(tally, rng, words)
        for number, arguments in draw.session(rng, words, rng.choice(SESSION_CALLS)):
            desk.play(number, arguments)
        some_currencies(tally, rng, desk)
        some_damage(tally, rng, desk)
        desk.format_over_anything()


class Desk:
    """One table's session, played by ledger and through bytes."""

    def __init__(self, tally, rng, words):
        self.tally, self.rng, self.words = tally, rng, words
        self.table = tables.read(words)
        self.ledger, self.currency = empty_ledger(self.table), empty_currency()
        self.file, self.book = layout.write(self.table, self.ledger), Book(self.table)

    def play(self, number, arguments):
        """One call both ways; then everything must agree."""
        output, before = draw.output(self.rng), self.currency
        out = ledgers.call(self.table, self.ledger, before, number, arguments, len(output))
        got = store.call(self.words, self.file, before, number, arguments, output)
        written = output if out.data is None else out.data + output[len(out.data):]
        check = self.tally.check
        check(got == (out.answer, layout.write(self.table, out.ledger), out.currency, written),
              f"call {number} through bytes {self.words}")
        if out.answer.code:
            check(got == (Answer(out.answer.code), self.file, before, output), "refusal changes")
        check(layout.read(self.table, got[1]) == out.ledger, "file decodes to its ledger")
        check(layout.currency_in_force(self.table, out.ledger, out.currency), "currency")
        self.book.note(number, arguments, out.answer, before)
        check(self.book.agrees(out.ledger), f"book after call {number} {self.words}")
        self.tally.saw(number, out.answer)
        self.ledger, self.currency, self.file = out.ledger, out.currency, got[1]

    def format_over_anything(self):
        """FORMAT takes any content and any currency of the right size."""
        junk = bytes(self.rng.randrange(256) for _ in range(512)) * self.table.pages
        odd = Currency(5, (9,) * 16, (9,) * 16)
        got = store.call(self.words, junk, odd, 0, (), b"out")
        empty = layout.write(self.table, empty_ledger(self.table))
        self.tally.check(got == (Answer(0), empty, empty_currency(), b"out"), "format")
        self.tally.saw(0, got[0])
        for number in (0, 1, 99):
            got = store.call(self.words, junk[1:], odd, number, (), b"out")
            self.tally.check(got == (Answer(2), junk[1:], odd, b"out"), "file size")
            self.tally.saw(number, got[0])


# Currency and damage


def some_currencies(tally, rng, desk):
    """Any currency in force serves as a start; a bad one is refused 4."""
    bad = draw.bad_currency(rng, desk.table, desk.ledger)
    got = store.call(desk.words, desk.file, bad, rng.choice([1, 9, 77]), (), b"o")
    tally.check(got == (Answer(4), desk.file, bad, b"o"), "bad currency")
    tally.saw(0, got[0])
    for _ in range(4):
        start = draw.currency(rng, desk.table, desk.ledger)
        held = layout.currency_in_force(desk.table, desk.ledger, start)
        tally.check(held, "a drawn currency is in force")
        hand = draw.Hand(rng, desk.table, desk.ledger, start, (0, 1, 2))
        desk.currency = start
        desk.play(*hand.call())


def some_damage(tally, rng, desk):
    """A damaged file is refused 3, unless it is another sound file."""
    for _ in range(12):
        bad = draw.damage(rng, desk.file)
        ledger = layout.read(desk.table, bad)
        got = store.call(desk.words, bad, empty_currency(), 77, (), b"o")
        want = 3 if ledger is None else 5
        tally.check(got == (Answer(want), bad, empty_currency(), b"o"), "damaged file")
        tally.saw(77, got[0])
        if ledger is not None:
            tally.check(ledger != desk.ledger, "two files of one ledger")
            tally.check(layout.write(desk.table, ledger) == bad, "sound file is a layout")
            tally.check(judge.well_formed(desk.table, ledger), "sound file is well formed")
    for _ in range(8):
        bad = draw.astray(rng, desk.table, desk.ledger, desk.file)
        tally.check(layout.read(desk.table, bad) is None, "a link astray")
    fixed_bytes(tally, rng, desk)
    bent_ledgers(tally, rng, desk)


def bent_ledgers(tally, rng, desk):
    """A bent ledger's layout is sound exactly where the judge finds it well formed."""
    for _ in range(8):
        ledger = draw.bent(rng, desk.table, desk.ledger)
        got = layout.read(desk.table, layout.write(desk.table, ledger))
        want = ledger if judge.well_formed(desk.table, ledger) else None
        tally.check(got == want, f"bent ledger {desk.words}")
        tally.bent[want is not None] += 1


def fixed_bytes(tally, rng, desk):
    """Outside data and types no single byte can change."""
    free_to_change = data_and_type_places(desk.table, desk.file)
    for at in rng.sample(range(len(desk.file)), 12):
        if at not in free_to_change:
            bad = bytearray(desk.file)
            bad[at] = (bad[at] + rng.randint(1, 255)) % 256
            tally.check(layout.read(desk.table, bytes(bad)) is None, f"byte {at} is fixed")


def data_and_type_places(table, file):
    """The only places where one changed byte may leave a sound file."""
    places = set()
    for page in range(table.pages):
        at = 512 * page + 16
        end = 512 * (page + 1) - layout.number(file, 512 * page + 3, 2)
        while at < end:
            t = tables.type_numbered(table, layout.number(file, at, 2))
            places.update([at, at + 1], range(at + 5, at + 5 + t.length))
            at += layout.number(file, at + 2, 2)
    return places


def ill_ledgers(tally):
    """Files laid out from ledgers that are not well formed, and one that is."""
    table = tables.read(RACKS)
    start = LISTING_IN.split("\n")
    desk = player.LedgerDesk()
    for line in start[:4] + ["01 000A 5232", "01 0014 00010000"]:
        player.play_line(desk, line)
    good = desk.ledger
    a, b = sorted(code for code, record in good.records.items() if record.type == 10)
    three, seven = good.rings[0, a]
    one = good.rings[0, b][0]

    def sound(rings=None, calc=None, data=None):
        records = dict(good.records)
        for code, value in (data or {}).items():
            records[code] = records[code]._replace(data=value)
        ledger = ledgers.Ledger(records, {**good.rings, **(rings or {})}, calc or good.calc)
        return layout.read(table, layout.write(table, ledger)) == ledger

    tally.check(sound(), "as stored")
    tally.check(sound({(0, a): [three], (0, b): [one, seven]}), "moved in order")
    tally.check(not sound({(0, a): [seven, three]}), "out of order")
    tally.check(not sound({(0, a): [three], (0, b): [seven, one]}), "moved out of order")
    tally.check(not sound(data={seven: b"\0\3zz"}), "forbidden duplicate")
    tally.check(sound(data={one: b"\0\3zz"}), "equal keys in two rings")
    tally.check(sound(calc={1: good.calc[1][::-1]}), "CALC lists have no order")
    tally.check(not sound(data={b: b"R1"}), "calculated duplicate")


def main():
    """Run everything and print the counts."""
    sys.stdout.reconfigure(line_buffering=True)
    switches = argparse.ArgumentParser()
    switches.add_argument("--seed", type=int, default=1)
    switches.add_argument("--calls", type=int, default=6000)
    chosen = switches.parse_args()
    rng, tally = random.Random(chosen.seed), Tally()
    listing(tally)
    edges(tally)
    hand_worked(tally)
    ill_ledgers(tally)
    some_tables(tally, rng, 150)
    some_lines(tally, rng, 40)
    sessions(tally, rng, chosen.calls)
    print("seed", chosen.seed)
    print("calls done", " ".join(f"{n:02X}:{k}" for n, k in sorted(tally.done.items())))
    print("refusals", " ".join(f"{n}:{k}" for n, k in sorted(tally.refused.items())))
    print(f"bent ledgers still sound {tally.bent[True]}, not sound {tally.bent[False]}")
    print(f"{tally.passed} passed, {tally.failed} failed")
    return 0 if tally.failed == 0 else 1


if __name__ == "__main__":
    sys.exit(main())
