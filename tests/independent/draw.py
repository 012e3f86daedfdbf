"""Random tables, sessions and currencies for tests; damage.py adds damaged files.

Everything is drawn from a random.Random, so that a seed repeats it.
Tables are lists of words; calls are (number, arguments); file is bytes.
"""

import layout
import ledger as ledgers
import table as tables
from damage import astray, bent, damage  # noqa: F401, part of what is drawn
from ledger import (CURRENT, DELETE, DIRECT, EACH, FIND, KEY, LINES, MASTER, MODIFY, NEXT,
                    PRIOR, READ, RELINK, STORE)
from player import REST, SHAPES
from table import CALCULATED, FIRST, LAST, NO_CHAIN, PRIMARY, RISING, FALLING, SECONDARY

LAST_CODE = LINES * 128 + 63

# How often each call is drawn; 14 and 200 stand for unknown calls.
WEIGHTS = {
    STORE: 34, DIRECT: 9, KEY: 7, NEXT: 6, PRIOR: 6, MASTER: 4, EACH: 5, MODIFY: 10,
    DELETE: 3, READ: 4, CURRENT: 4, FIND: 12, RELINK: 12, 14: 0.5, 200: 0.5,
}


# Tables


def table(rng):
    """The words of an accepted random table, mostly small."""
    large = rng.random() < 0.04
    type_count = rng.randint(6, 16) if large else rng.choice([1, 2, 2, 3, 3, 4, 4, 5])
    chain_count = rng.randint(6, 16) if large else rng.randint(0, 5)
    pages = rng.choice([1, 1, 1, 2, 2, 3, 3, rng.randint(4, 128)])
    numbers = sorted(rng.sample(range(1, 1000), type_count))
    lengths = data_lengths(rng, type_count)
    chains = []
    for _ in range(chain_count if type_count > 1 else 0):
        chains.append(draw_chain(rng, numbers, lengths))
    words = [pages, type_count, len(chains)]
    for number, length in zip(numbers, lengths):
        words += draw_type(rng, pages, number, length, chains)
    return words + [word for chain in chains for word in chain]


def data_lengths(rng, count):
    """Mostly short; sometimes so long that two or three records fill a page."""
    most, least = rng.choice([(4, 0), (6, 1), (8, 2), (8, 2), (200, 60), (200, 150)])
    return [0 if rng.random() < 0.05 else rng.randint(least, most) for _ in range(count)]


def draw_key(rng, length):
    """Offset and length of a key within the data; keys may overlap."""
    size = rng.randint(1, min(length, rng.choice([1, 2, 2, 3, 20])))
    # Keys near the front overlap more often.
    offset = min(rng.choice([0, 0, 1, rng.randint(0, length)]), length - size)
    return [offset, size]


def draw_chain(rng, numbers, lengths):
    """The words of a chain between two types, the master's number lower."""
    master, detail = sorted(rng.sample(range(len(numbers)), 2))
    ends = [numbers[master], numbers[detail]]
    prior = rng.randint(0, 1)
    if lengths[detail] == 0 or rng.random() < 0.4:
        return ends + [rng.choice([FIRST, LAST]), prior, 0, 0, 0]
    order = rng.choice([RISING, FALLING])
    return ends + [order, prior, rng.randint(0, 2)] + draw_key(rng, lengths[detail])


def draw_type(rng, pages, number, length, chains):
    """The words of a type; secondary only where it is a detail."""
    vias = [c for c, chain in enumerate(chains) if chain[1] == number]
    classes = [PRIMARY] + [SECONDARY] * (2 if vias else 0) + [CALCULATED] * (2 if length else 0)
    kind = rng.choice(classes)
    low = 1 if rng.random() < 0.6 else rng.randint(1, pages)
    high = pages if rng.random() < 0.6 else rng.randint(low, pages)
    via = rng.choice(vias) if kind == SECONDARY else NO_CHAIN
    key = draw_key(rng, length) if kind == CALCULATED else [0, 0]
    return [number, length, kind, low, high, via] + key


def broken_table(rng):
    """The words of a table that breaks a rule."""
    while True:
        words = broken_try(rng, table(rng))
        if tables.broken_rule(words) is not None:
            return words


def broken_try(rng, words):
    """A changed copy of the words, or random words; may still be accepted."""
    words = list(words)
    way = rng.randint(0, 5)
    if way == 0:
        return [rng.choice([0, 1, 2, 3, 65535]) for _ in range(rng.randint(0, 30))]
    if way == 1:
        return words[:rng.randint(0, len(words) - 1)]
    if way == 2:
        return words + [rng.choice([0, 1, 65535])] * rng.randint(1, 9)
    at = rng.randrange(3) if way == 3 else rng.randrange(len(words))
    words[at] = rng.choice([0, 1, 2, 3, 4, 128, 129, 201, 999, 1000, 65534, 65535,
                            words[at] + 1, max(words[at] - 1, 0), rng.choice(words)]) % 65536
    return words


# Sessions


def session(rng, words, n):
    """n calls chosen while a ledger is played, from an empty file."""
    shape = tables.read(words)
    alphabet = rng.choice([(0, 1), (0, 1, 2, 3), (0, 127, 128, 255), tuple(range(12)),
                           tuple(range(256)), tuple(range(256))])
    ledger, state = ledgers.empty_ledger(shape), ledgers.empty_currency()
    calls = []
    for _ in range(n):
        hand = Hand(rng, shape, ledger, state, alphabet)
        number, arguments = hand.call()
        outcome = ledgers.call(shape, ledger, state, number, arguments)
        ledger, state = outcome.ledger, outcome.currency
        calls.append((number, arguments))
    return calls


class Hand:
    """Draws one call that is mostly sensible for the ledger it sees."""

    def __init__(self, rng, shape, ledger, state, alphabet):
        self.rng, self.table, self.ledger = rng, shape, ledger
        self.currency, self.alphabet = state, alphabet

    def call(self):
        """A call number and arguments, sometimes spoiled."""
        number = self.number()
        arguments = self.arguments(number)
        if self.rng.random() < 0.06:
            arguments = self.spoiled(number, arguments)
        return number, arguments

    def number(self):
        """A call that can mostly be done now."""
        for _ in range(4):
            number = self.rng.choices(list(WEIGHTS), list(WEIGHTS.values()))[0]
            if self.can_be_done(number) or self.rng.random() < 0.1:
                break
        return number

    def can_be_done(self, number):
        """Whether the currency and the table leave the call any chance."""
        if number in (MODIFY, DELETE, READ):
            return self.currency.run != 0
        if number == RELINK:
            return bool(self.chains_of_run())
        if number in (NEXT, PRIOR, MASTER):
            return bool(self.chains_with_entry())
        if number == FIND:
            return bool(self.sorted_with_entry())
        if number == KEY:
            return any(t.kind == CALCULATED for t in self.table.types)
        return True

    def arguments(self, number):
        """Arguments of the call's own kind."""
        if number in (NEXT, PRIOR, MASTER):
            return (self.chain(self.chains_with_entry()),)
        drawers = {STORE: self.to_store, KEY: self.to_key, EACH: self.to_sweep,
                   FIND: self.to_find, RELINK: self.to_relink,
                   DIRECT: lambda: (self.code(),), MODIFY: lambda: (self.new_data(),),
                   CURRENT: lambda: (self.type_with_entry(),)}
        return drawers[number]() if number in drawers else ()

    def spoiled(self, number, arguments):
        """One argument made wrong: length, type, chain or code."""
        if not arguments:
            return arguments
        at = self.rng.randrange(len(arguments))
        old = arguments[at]
        if isinstance(old, bytes):
            new = self.rng.choice([old[:-1], old + b"\0", b""])
        else:
            most = 256 ** SHAPES[number][at] - 1
            new = self.rng.choice([0, 1, most, min(old + 1, most), max(old - 1, 0),
                                   self.rng.randint(0, min(most, 9000))])
        return arguments[:at] + (new,) + arguments[at + 1:]

    # Small parts

    def pick(self, some, other):
        """One of some where there is any, mostly; else one of the other."""
        if some and (not other or self.rng.random() < 0.93):
            return self.rng.choice(list(some))
        return self.rng.choice(list(other))

    def bytes(self, length):
        """Random bytes from the session's alphabet."""
        return bytes(self.rng.choice(self.alphabet) for _ in range(length))

    def codes(self, number=None):
        """The codes of all records, or of one type's."""
        return [code for code, record in self.ledger.records.items()
                if number in (None, record.type)]

    def code(self):
        """Mostly a present record's code."""
        absent = [0, LINES, LINES + 63, LINES * self.table.pages + 64, 2 ** 24 - 1,
                  self.rng.randint(0, LAST_CODE)]
        return self.pick(self.codes(), absent)

    def chain(self, some):
        """Mostly one of these chains, else any or an unknown one."""
        return self.pick(some, [*range(len(self.table.chains)), len(self.table.chains), 255])

    def chains_with_entry(self):
        """The chains that have a current record."""
        return [c for c in range(len(self.table.chains)) if self.currency.chains[c]]

    def sorted_with_entry(self):
        """Those of them that are sorted."""
        return [c for c in self.chains_with_entry() if tables.is_sorted(self.table.chains[c])]

    def chains_of_run(self):
        """The chains in which the run's record is detail."""
        run = self.ledger.records.get(self.currency.run)
        return tables.chains_of_detail(self.table, run.type) if run else []

    def type_with_entry(self):
        """Mostly a type that has a current record."""
        some = [t.number for place, t in enumerate(self.table.types)
                if self.currency.types[place]]
        return self.pick(some, [t.number for t in self.table.types])

    # Arguments of the calls that need more thought

    def to_store(self):
        """Mostly a type whose chains all have a current record."""
        ready = [t for t in self.table.types
                 if all(self.currency.chains[c]
                        for c in tables.chains_of_detail(self.table, t.number))]
        t = self.pick(ready, self.table.types)
        return t.number, self.bytes(t.length)

    def to_key(self):
        """Mostly the key of a present calculated record."""
        some = [t for t in self.table.types if t.kind == CALCULATED]
        t = self.pick(some, self.table.types)
        codes = self.codes(t.number)
        if codes and self.rng.random() < 0.8:
            return t.number, tables.key_in(t, self.ledger.records[self.rng.choice(codes)].data)
        return t.number, self.bytes(t.key_length)

    def to_sweep(self):
        """A range of codes, now and then an empty or crossed one."""
        first = self.rng.choice([0, 1, 64, 65, self.code()])
        last = self.rng.choice([LAST_CODE, first, first + self.rng.randint(0, 200), self.code()])
        return first, min(last, 2 ** 24 - 1)

    def to_find(self):
        """Mostly a sorted chain with an entry and a key of its occurrence."""
        c = self.chain(self.sorted_with_entry())
        if c not in self.chains_with_entry():
            return c, self.bytes(1)
        master = ledgers.occurrence(self.table, self.ledger, c, self.currency.chains[c])
        details = self.ledger.rings[c, master]
        if details and self.rng.random() < 0.8:
            data = self.ledger.records[self.rng.choice(details)].data
            return c, tables.key_in(self.table.chains[c], data)
        return c, self.bytes(self.table.chains[c].key_length)

    def new_data(self):
        """The run's data with some bytes changed, or new data."""
        if self.currency.run == 0:
            return self.bytes(2)
        data = bytearray(self.ledger.records[self.currency.run].data)
        if self.rng.random() < 0.3:
            return self.bytes(len(data))
        for _ in range(self.rng.randint(0, 2) if data else 0):
            data[self.rng.randrange(len(data))] = self.rng.choice(self.alphabet)
        return bytes(data)

    def to_relink(self):
        """Mostly a chain of the run's record and one of that chain's masters."""
        c = self.chain(self.chains_of_run())
        masters = self.codes(self.table.chains[c].master) if tables.has_chain(self.table, c) else []
        return c, self.pick(masters, [self.code()])


def output(rng):
    """An output for READ: mostly 200 bytes, sometimes short or empty."""
    length = rng.choice([200, 200, 200, 201, 0, rng.randint(0, 8)])
    return bytes(rng.randrange(256) for _ in range(length))


# Frames


def frame(number, arguments):
    """A call as the player's line of hexadecimal."""
    text = f"{number:02X}"
    for width, argument in zip(SHAPES.get(number, ()), arguments):
        text += argument.hex() if width is REST else f"{argument:0{2 * width}X}"
    return text


def format_frame(words):
    """FORMAT's line for a table."""
    return "00" + "".join(f"{word:04X}" for word in words)


def loosened(rng, line):
    """The same frame with other letter cases and spaces in any place."""
    line = rng.choice([line, line.lower(), line.swapcase()])
    for _ in range(rng.randint(0, 3)):
        at = rng.randint(0, len(line))
        line = line[:at] + " " * rng.randint(1, 3) + line[at:]
    return line


def bad_line(rng):
    """A line that prints FF."""
    return rng.choice(["", "   ", "0", "0A0", "0G", "01", "0100", "02 0041", "02 00004100",
                       "0A\r", "\t0A", "0A00", "00 00", "00 000100", "0D 00 0041", "07 000041",
                       "0x0A", "0A" + " " * 1099, "08" + "00" * 550, "0B 00", "0C", "é"])


# Currency


def currency(rng, shape, ledger):
    """A random currency in force; entries need not agree with each other."""
    def entry(*numbers):
        codes = [c for c, record in ledger.records.items() if record.type in numbers]
        return rng.choice(codes) if codes and rng.random() < 0.85 else 0
    types = [entry(t.number) for t in shape.types]
    chains = [entry(chain.master, chain.detail) for chain in shape.chains]
    run = entry(*[t.number for t in shape.types])
    return ledgers.Currency(run, filled(types), filled(chains))


def filled(entries):
    """Sixteen entries; unused ones are 0."""
    return tuple(entries) + (0,) * (ledgers.ENTRIES - len(entries))


def bad_currency(rng, shape, ledger):
    """A currency with at least one entry that breaks the rule."""
    while True:
        run, types, chains = currency(rng, shape, ledger)
        wrong = rng.choice([LINES, LINES + 63, 1, 2 ** 24 - 1, LAST_CODE,
                            rng.choice(list(ledger.records) or [1])])
        at = rng.randrange(ledgers.ENTRIES)
        bad = rng.choice([ledgers.Currency(wrong, types, chains),
                          ledgers.Currency(run, ledgers.replaced(types, at, wrong), chains),
                          ledgers.Currency(run, types, ledgers.replaced(chains, at, wrong))])
        if not layout.currency_in_force(shape, ledger, bad):
            return bad
