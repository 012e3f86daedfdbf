"""Calls through the C interface, compared byte for byte with the independent program.

Sessions are drawn and played on lent bytes. Now and then the file, its size, the currency,
the table or the output is spoiled before a call, or the currency is set by hand. Answer,
file, currency and output are compared after every call.

    python3 tests/interface.py [--calls 20000] [--seed 2] [--library LIB.so] [--damaged]

Without --library the shared object is made from the archive that `tools/archives gerunjap` writes.
With --damaged each turn is followed by calls on damaged copies of the file, and --calls counts those.
"""

import argparse
import collections
import ctypes
import pathlib
import random
import subprocess
import sys

ROOT = pathlib.Path(__file__).resolve().parent.parent
sys.path.insert(0, str(ROOT / "tests" / "independent"))

import draw  # noqa: E402
import layout  # noqa: E402
import ledger as ledgers  # noqa: E402
import store  # noqa: E402
import table as tables  # noqa: E402

ENTRIES = 33
SESSION = 60
DAMAGED = 10
# The refusals that each call can give, beside 1 to 4 of every call but FORMAT.
OWN = {
    1: (5, 6, 8, 10, 11), 2: (9,), 3: (5, 7, 8, 9), 4: (5, 6), 5: (5, 6), 6: (5, 6), 7: (9,),
    8: (6, 8, 10), 9: (6,), 10: (6, 12), 11: (5, 6), 12: (5, 6, 7, 8, 9), 13: (5, 6, 7, 9, 10),
}


class Library:
    """gerunjap_call over a shared object."""

    def __init__(self, path):
        self.call = ctypes.CDLL(str(path)).gerunjap_call
        self.call.restype = ctypes.c_uint8

    def play(self, words, file, currency, frame, output):
        """Status, answer's bytes, file, currency and output after the call."""
        lent = [
            (ctypes.c_uint16 * len(words))(*words), (ctypes.c_uint8 * len(file)).from_buffer_copy(file),
            (ctypes.c_uint32 * len(currency))(*currency),
            (ctypes.c_uint8 * len(frame)).from_buffer_copy(frame),
            (ctypes.c_uint8 * len(output)).from_buffer_copy(output), (ctypes.c_uint8 * 8)(),
        ]
        arguments = []
        for block in lent:
            arguments += [block, ctypes.c_size_t(len(block))]
        status = self.call(*arguments)
        return status, bytes(lent[5]), bytes(lent[1]), tuple(lent[2]), bytes(lent[4])


def made():
    """The shared object of the archive, made anew."""
    archive, made_as = ROOT / "target/staticlib/libgerunjap.a", ROOT / "target/libgerunjap.so"
    subprocess.run(["gcc", "-shared", "-o", made_as, "-Wl,--whole-archive", archive, "-Wl,--no-whole-archive"], check=True)
    return made_as


def flat(currency):
    """A currency as its 33 codes."""
    return (currency.run, *currency.types, *currency.chains)


def answer_bytes(answer):
    """An answer as the interface writes it."""
    return (bytes([answer.code]) + answer.reference.to_bytes(3, "big")
            + answer.type.to_bytes(2, "big") + answer.count.to_bytes(2, "big"))


def frame_bytes(number, arguments):
    """A call's bytes; FORMAT has no argument here."""
    return bytes.fromhex(draw.frame(number, arguments))


class Game:
    """One table with its file and currency, played on both sides."""

    def __init__(self, rng, library, seen):
        self.rng, self.library, self.seen = rng, library, seen
        self.words = draw.table(rng)
        self.shape = tables.read(self.words)
        self.file = layout.write(self.shape, ledgers.empty_ledger(self.shape))
        self.currency = ledgers.empty_currency()
        self.alphabet = rng.choice([(0, 1), (0, 1, 2, 3), (0, 127, 128, 255), tuple(range(256))])

    def turn(self):
        """One call on the state or on a spoiled copy of it."""
        ledger = layout.read(self.shape, self.file)
        self.hand = draw.Hand(self.rng, self.shape, ledger, self.currency, self.alphabet)
        roll = self.rng.random()
        if roll < 0.72:
            self.file, self.currency = self.compare(self.words, self.file, self.currency)
        elif roll < 0.82:
            self.compare(self.words, self.damaged(ledger), self.currency)
        elif roll < 0.84:
            self.compare(self.words, self.resized(), self.currency)
        elif roll < 0.88:
            self.compare(self.words, self.file, draw.bad_currency(self.rng, self.shape, ledger))
        elif roll < 0.90:
            self.relink_twin(ledger)
        elif roll < 0.94:
            self.currency = draw.currency(self.rng, self.shape, ledger)
            self.hand.currency = self.currency
            self.file, self.currency = self.compare(self.words, self.file, self.currency)
        else:
            self.compare(draw.broken_table(self.rng), self.file, self.currency)

    def damaged_turns(self):
        """Calls on damaged copies of the state; how many."""
        ledger = layout.read(self.shape, self.file)
        self.hand = draw.Hand(self.rng, self.shape, ledger, self.currency, self.alphabet)
        for _ in range(DAMAGED):
            self.compare(self.words, self.damaged(ledger), self.currency)
        return DAMAGED

    def relink_twin(self, ledger):
        """RELINK of a record to a master that has its twin, which random calls seldom meet."""
        rings = [(c, m, d) for (c, m), details in ledger.rings.items() for d in details
                 if tables.is_sorted(self.shape.chains[c]) and self.shape.chains[c].duplicates == 2]
        key = {at: tables.key_in(self.shape.chains[at[0]], ledger.records[at[2]].data) for at in rings}
        twins = [(a, b) for a in rings for b in rings if a[0] == b[0] and a[1] != b[1] and key[a] == key[b]]
        if twins:
            (chain, _, detail), (_, master, _) = self.rng.choice(twins)
            self.compare(self.words, self.file, self.currency._replace(run=detail), (ledgers.RELINK, (chain, master)))

    def damaged(self, ledger):
        """A file with bytes, a link, records or pages changed; or another ledger's layout."""
        roll = self.rng.random()
        if roll < 0.4:
            file = self.file
            for _ in range(self.rng.randint(1, 3)):
                file = draw.damage(self.rng, file)
            return file
        if roll < 0.7:
            return draw.astray(self.rng, self.shape, ledger, self.file)
        return layout.write(self.shape, draw.bent(self.rng, self.shape, ledger))

    def resized(self):
        """A file of another size."""
        return self.rng.choice([b"", self.file[:-1], self.file + b"\0", self.file + bytes(512), self.file[512:]])

    def drawn(self):
        """A drawn call, now and then FORMAT."""
        return (ledgers.FORMAT, ()) if self.rng.random() < 0.01 else self.hand.call()

    def compare(self, words, file, currency, call=None):
        """Plays one call on both sides, a drawn one where none is given; what it left."""
        number, arguments = call or self.drawn()
        output = self.output()
        frame = frame_bytes(number, arguments)
        answer, left, cur, out = store.call(words, file, currency, number, arguments, output)
        cur = ledgers.Currency(cur[0], tuple(cur[1]), tuple(cur[2]))
        told = self.library.play(words, file, flat(currency), frame, output)
        want = (0, answer_bytes(answer), left, flat(cur), out)
        if told != want:
            report(words, file, currency, frame, output, told, want)
            raise SystemExit(1)
        self.seen[min(number, 14), answer.code] += 1
        return left, cur

    def output(self):
        """An output of 0, D - 1, D or 208 bytes, D being the run's; or any."""
        record = layout.read(self.shape, self.file).records.get(self.currency.run)
        length = len(record.data) if record else 0
        size = self.rng.choice([0, max(length - 1, 0), length, 208, self.rng.randint(0, 220)])
        return bytes(self.rng.randrange(256) for _ in range(size))


def report(words, file, currency, frame, output, told, want):
    """Says what differs, with all that is needed to play it again."""
    print("DIFFERENCE")
    print("table", words)
    print("frame", frame.hex(), "currency", flat(currency), "output", len(output))
    print("file", file.hex())
    for name, a, b in zip(("status", "answer", "file", "currency", "output"), told, want):
        if a != b:
            show = (a.hex(), b.hex()) if isinstance(a, bytes) else (a, b)
            print(name, "is", show[0])
            print(name, "should be", show[1])


def ill_made(rng, library):
    """Frames that are ill made, and lent memory of the wrong length: nothing is written."""
    words = draw.table(rng)
    shape = tables.read(words)
    file, cur = layout.write(shape, ledgers.empty_ledger(shape)), (0,) * ENTRIES
    output = bytes(20)
    for frame in (b"", b"\x01", b"\x01\x00", b"\x02\x00\x00", b"\x02" + bytes(4), b"\x04", b"\x04\x00\x00",
                  b"\x07" + bytes(5), b"\x09\x00", b"\x0a\x00", b"\x0b\x00", b"\x0c", b"\x0d" + bytes(3), b"\x00\x00"):
        assert library.play(words, file, cur, frame, output) == (1, bytes(8), file, cur, output), frame
    for codes in ((), (0,) * 32, (0,) * 34):
        assert library.play(words, file, codes, b"\x09", output) == (2, bytes(8), file, codes, output)


def missing(seen):
    """The pairs of call and refusal that can occur and were never met."""
    lacking = [(0, code) for code in (0, 1, 2) if not seen[0, code]]
    for call, own in OWN.items():
        lacking += [(call, code) for code in (0, 1, 2, 3, 4, *own) if not seen[call, code]]
    return lacking + [(14, code) for code in (1, 2, 3, 4, 5) if not seen[14, code]]


def main():
    """Plays games until there were enough calls, and tells."""
    options = argparse.ArgumentParser(description=__doc__.split("\n")[0])
    options.add_argument("--library")
    options.add_argument("--calls", type=int, default=20000)
    options.add_argument("--seed", type=int, default=2)
    options.add_argument("--damaged", action="store_true")
    asked = options.parse_args()
    rng, seen = random.Random(asked.seed), collections.Counter()
    library = Library(asked.library or made())
    ill_made(rng, library)
    damaged = 0
    while (damaged if asked.damaged else sum(seen.values())) < asked.calls:
        game = Game(rng, library, seen)
        for _ in range(SESSION):
            game.turn()
            damaged += game.damaged_turns() if asked.damaged else 0
    lacking = missing(seen)
    for call, code in lacking:
        print(f"never met: call {call:02X} with {code}")
    if asked.damaged:
        print(f"interface: {damaged} calls on damaged files, {sum(n for (_, code), n in seen.items() if code == 3)} refused with 3")
    print(f"interface: {sum(seen.values())} calls, {len(seen)} pairs of call and code, "
          + ("no difference" if not lacking else f"{len(lacking)} pairs never met"))
    sys.exit(1 if lacking else 0)


if __name__ == "__main__":
    main()
