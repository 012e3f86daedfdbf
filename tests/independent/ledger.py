"""The ledger as plain records and lists, and the thirteen calls on it.

Every call takes (table, ledger, currency) and gives an Outcome with new ones.
Nothing is changed in place, so a refusal leaves everything as it was.
"""

from typing import NamedTuple

import table as tables
from table import CALCULATED, EQUALS_FIRST, EQUALS_REFUSED, FIRST, LAST, SECONDARY

FORMAT, STORE, DIRECT, KEY, NEXT, PRIOR, MASTER, EACH = range(8)
MODIFY, DELETE, READ, CURRENT, FIND, RELINK = range(8, 14)

BAD_TABLE, BAD_SIZE, NOT_SOUND, BAD_CURRENCY, UNKNOWN, NO_CURRENT = range(1, 7)
WRONG_KIND, WRONG_LENGTH, NO_RECORD, DUPLICATE, NO_ROOM, SHORT_OUTPUT = range(7, 13)

LINES, PAGE_ROOM, ENTRIES = 64, 496, 16


class Answer(NamedTuple):
    """What every call answers; code 0 is done, else a refusal number."""

    code: int
    reference: int = 0
    type: int = 0
    count: int = 0


class Currency(NamedTuple):
    """The run's record, an entry per type and an entry per chain."""

    run: int
    types: tuple
    chains: tuple


class Record(NamedTuple):
    """A record's type number and data."""

    type: int
    data: bytes


class Ledger(NamedTuple):
    """code -> Record, (chain, master) -> list of details, page -> CALC list."""

    records: dict
    rings: dict
    calc: dict


class Outcome(NamedTuple):
    """A call's answer, what it leaves, and READ's data (else None)."""

    answer: Answer
    ledger: Ledger
    currency: Currency
    data: bytes | None = None


class Refused(Exception):
    """Ends a call with a refusal number."""

    def __init__(self, number):
        super().__init__(number)
        self.number = number


def require(holds, refusal):
    """Refuse unless the condition holds."""
    if not holds:
        raise Refused(refusal)


def call(table, ledger, currency, number, arguments, room=200):
    """Play one call; `room` is the output's length, which only READ looks at."""
    try:
        require(number in CALLS, UNKNOWN)
        if number == READ:
            return read(table, ledger, currency, room)
        return CALLS[number](table, ledger, currency, *arguments)
    except Refused as refusal:
        return Outcome(Answer(refusal.number), ledger, currency)


# Codes, pages and empty things


def page_of(code):
    """The page of a reference code or header code."""
    return code // LINES


def empty_ledger(table):
    """No record; every page's CALC list is empty."""
    return Ledger({}, {}, {page: [] for page in range(1, table.pages + 1)})


def empty_currency():
    """All-zero currency."""
    return Currency(0, (0,) * ENTRIES, (0,) * ENTRIES)


def free_bytes(table, ledger, page):
    """The bytes of a page that no record uses."""
    used = [record for code, record in ledger.records.items() if page_of(code) == page]
    return PAGE_ROOM - sum(size_of(table, record) for record in used)


def size_of(table, record):
    """A record's size by its type."""
    return tables.record_size(table, tables.type_numbered(table, record.type))


# Rings


def occurrence(table, ledger, chain, code):
    """The master of the chain's ring that holds this record, be it master or detail."""
    if ledger.records[code].type == table.chains[chain].master:
        return code
    for (other, master), details in ledger.rings.items():
        if other == chain and code in details:
            return master
    raise ValueError("a detail in no ring")


def ring_round(ledger, chain, master):
    """The ring as a list that begins with its master."""
    return [master] + ledger.rings[chain, master]


def place_to_join(chain, records, details, data):
    """How many details stand before a record that joins by the chain's order."""
    if chain.order == FIRST:
        return 0
    if chain.order == LAST:
        return len(details)
    key = tables.key_in(chain, data)
    for place, other in enumerate(details):
        other_key = tables.key_in(chain, records[other].data)
        if tables.comes_before(chain, key, other_key):
            return place
        if key == other_key and chain.duplicates == EQUALS_FIRST:
            return place
    return len(details)


def joined(chain, records, details, code, data):
    """The list of details after the record has joined it."""
    place = place_to_join(chain, records, details, data)
    return details[:place] + [code] + details[place:]


def without(codes, gone):
    """The list with one code struck out."""
    return [code for code in codes if code != gone]


def chain_twin(chain, records, details, data):
    """Whether the chain forbids duplicates and one of the details has this key."""
    if not tables.is_sorted(chain) or chain.duplicates != EQUALS_REFUSED:
        return False
    key = tables.key_in(chain, data)
    return any(tables.key_in(chain, records[d].data) == key for d in details)


def calc_twin(ledger, t, data, itself=0):
    """Whether another record of this calculated type has this key."""
    if t.kind != CALCULATED:
        return False
    key = tables.key_in(t, data)
    return any(record.type == t.number and tables.key_in(t, record.data) == key
               for code, record in ledger.records.items() if code != itself)


# Arrival


def replaced(entries, place, value):
    """The entries with one of them set."""
    return entries[:place] + (value,) + entries[place + 1:]


def arrived(table, ledger, currency, code):
    """The record becomes current of run, its type and every chain it is in."""
    number = ledger.records[code].type
    types = replaced(currency.types, tables.type_place(table, number), code)
    chains = currency.chains
    for chain in tables.chains_of(table, number):
        chains = replaced(chains, chain, code)
    return Currency(code, types, chains)


def arrival(table, ledger, currency, code, count=0):
    """A done call that arrives at a record of the ledger it leaves."""
    answer = Answer(0, code, ledger.records[code].type, count)
    return Outcome(answer, ledger, arrived(table, ledger, currency, code))


# 00 FORMAT


def formatted(table, ledger, currency):
    """An empty ledger and all-zero currency; the answer is zeros."""
    return Outcome(Answer(0), empty_ledger(table), empty_currency())


# 01 STORE


def store(table, ledger, currency, number, data):
    """A new record joins each chain's occurrence and its home's CALC list."""
    t = tables.type_numbered(table, number)
    require(t is not None, UNKNOWN)
    chains = tables.chains_of_detail(table, number)
    require(all(currency.chains[c] != 0 for c in chains), NO_CURRENT)
    require(len(data) == t.length, WRONG_LENGTH)
    masters = {c: occurrence(table, ledger, c, currency.chains[c]) for c in chains}
    for c, master in masters.items():
        details = ledger.rings[c, master]
        require(not chain_twin(table.chains[c], ledger.records, details, data), DUPLICATE)
    require(not calc_twin(ledger, t, data), DUPLICATE)
    code = free_code(table, ledger, t, base_page(table, currency, t, data, masters))
    require(code != 0, NO_ROOM)
    after = with_record(table, ledger, t, code, data, masters)
    return arrival(table, after, currency, code)


def base_page(table, currency, t, data, masters):
    """Where placing begins: by class alone."""
    if t.kind == CALCULATED:
        return tables.home_page(t, tables.key_in(t, data))
    if t.kind == SECONDARY:
        page = page_of(masters[t.via])
        return page if t.low <= page <= t.high else t.low
    current = currency.types[tables.type_place(table, t.number)]
    return page_of(current) if current != 0 else t.low


def free_code(table, ledger, t, base):
    """The first page from base to high, then from low, with room; 0 for none."""
    size = tables.record_size(table, t)
    for page in [*range(base, t.high + 1), *range(t.low, base)]:
        lines = [line for line in range(1, LINES)
                 if LINES * page + line not in ledger.records]
        if lines and free_bytes(table, ledger, page) >= size:
            return LINES * page + lines[0]
    return 0


def with_record(table, ledger, t, code, data, masters):
    """The ledger with the new record joined everywhere."""
    records, rings, calc = dict(ledger.records), dict(ledger.rings), dict(ledger.calc)
    records[code] = Record(t.number, data)
    for c, master in masters.items():
        rings[c, master] = joined(table.chains[c], records, rings[c, master], code, data)
    for c in tables.chains_of_master(table, t.number):
        rings[c, code] = []
    if t.kind == CALCULATED:
        home = tables.home_page(t, tables.key_in(t, data))
        calc[home] = [code] + calc[home]
    return Ledger(records, rings, calc)


# 02 DIRECT, 03 KEY, 0B CURRENT, 0C FIND, 07 EACH


def direct(table, ledger, currency, code):
    """The record with this code."""
    require(code in ledger.records, NO_RECORD)
    return arrival(table, ledger, currency, code)


def by_key(table, ledger, currency, number, key):
    """The calculated record with this key; counts its place in the CALC list."""
    t = tables.type_numbered(table, number)
    require(t is not None, UNKNOWN)
    require(t.kind == CALCULATED, WRONG_KIND)
    require(len(key) == t.key_length, WRONG_LENGTH)
    for place, code in enumerate(ledger.calc[tables.home_page(t, key)]):
        record = ledger.records[code]
        if record.type == number and tables.key_in(t, record.data) == key:
            return arrival(table, ledger, currency, code, place + 1)
    raise Refused(NO_RECORD)


def current(table, ledger, currency, number):
    """The type's current record."""
    require(tables.type_numbered(table, number) is not None, UNKNOWN)
    code = currency.types[tables.type_place(table, number)]
    require(code != 0, NO_CURRENT)
    return arrival(table, ledger, currency, code)


def find(table, ledger, currency, chain, key):
    """The first detail of the occurrence with this key, and its place."""
    entry = chain_entry(table, currency, chain)
    shape = table.chains[chain]
    require(tables.is_sorted(shape), WRONG_KIND)
    require(len(key) == shape.key_length, WRONG_LENGTH)
    master = occurrence(table, ledger, chain, entry)
    for place, code in enumerate(ledger.rings[chain, master]):
        if tables.key_in(shape, ledger.records[code].data) == key:
            return arrival(table, ledger, currency, code, place + 1)
    raise Refused(NO_RECORD)


def each(table, ledger, currency, first, last):
    """The lowest code from first to last that has a record."""
    code = min((c for c in ledger.records if first <= c <= last), default=0)
    require(code != 0, NO_RECORD)
    return arrival(table, ledger, currency, code)


# 04 NEXT, 05 PRIOR, 06 MASTER


def chain_entry(table, currency, chain):
    """The chain's current record: refused 5 for no chain, 6 for no record."""
    require(tables.has_chain(table, chain), UNKNOWN)
    require(currency.chains[chain] != 0, NO_CURRENT)
    return currency.chains[chain]


def step(table, ledger, currency, chain, by):
    """From the chain's current record round its ring, forwards or backwards."""
    entry = chain_entry(table, currency, chain)
    ring = ring_round(ledger, chain, occurrence(table, ledger, chain, entry))
    code = ring[(ring.index(entry) + by) % len(ring)]
    return arrival(table, ledger, currency, code)


def next_in(table, ledger, currency, chain):
    """The next record; the master follows the last detail."""
    return step(table, ledger, currency, chain, 1)


def prior_in(table, ledger, currency, chain):
    """The record before; the last detail is before the master."""
    return step(table, ledger, currency, chain, -1)


def master_in(table, ledger, currency, chain):
    """The master of the ring that holds the chain's current record."""
    entry = chain_entry(table, currency, chain)
    return arrival(table, ledger, currency, occurrence(table, ledger, chain, entry))


# 08 MODIFY, 0D RELINK


def run_record(ledger, currency):
    """The run's current record, or refused 6."""
    require(currency.run != 0, NO_CURRENT)
    return currency.run, ledger.records[currency.run]


def modify(table, ledger, currency, data):
    """New data; the record joins afresh each ring whose key bytes change."""
    code, old = run_record(ledger, currency)
    t = tables.type_numbered(table, old.type)
    require(len(data) == t.length, WRONG_LENGTH)
    moving = [c for c in tables.chains_of_detail(table, old.type)
              if key_changes(table.chains[c], old.data, data)]
    masters = {c: occurrence(table, ledger, c, code) for c in moving}
    for c, master in masters.items():
        others = without(ledger.rings[c, master], code)
        require(not chain_twin(table.chains[c], ledger.records, others, data), DUPLICATE)
    require(not calc_twin(ledger, t, data, code), DUPLICATE)
    records, rings = {**ledger.records, code: Record(old.type, data)}, dict(ledger.rings)
    for c, master in masters.items():
        others = without(rings[c, master], code)
        rings[c, master] = joined(table.chains[c], records, others, code, data)
    calc = calc_after_modify(ledger.calc, t, code, old.data, data)
    return arrival(table, Ledger(records, rings, calc), currency, code)


def key_changes(owner, old, new):
    """Whether the owner's key bytes differ; an empty key never does."""
    return tables.key_in(owner, old) != tables.key_in(owner, new)


def calc_after_modify(calc, t, code, old, new):
    """The CALC lists: a changed key goes directly after its new home's header."""
    if t.kind != CALCULATED or not key_changes(t, old, new):
        return calc
    after = {page: without(codes, code) for page, codes in calc.items()}
    home = tables.home_page(t, tables.key_in(t, new))
    after[home] = [code] + after[home]
    return after


def relink(table, ledger, currency, chain, master):
    """The run's record leaves its ring of the chain and joins that master's."""
    require(tables.has_chain(table, chain), UNKNOWN)
    code, record = run_record(ledger, currency)
    shape = table.chains[chain]
    require(record.type == shape.detail, WRONG_KIND)
    require(master in ledger.records, NO_RECORD)
    require(ledger.records[master].type == shape.master, NO_RECORD)
    others = without(ledger.rings[chain, master], code)
    require(not chain_twin(shape, ledger.records, others, record.data), DUPLICATE)
    left = occurrence(table, ledger, chain, code)
    rings = dict(ledger.rings)
    rings[chain, left] = without(rings[chain, left], code)
    rings[chain, master] = joined(shape, ledger.records, others, code, record.data)
    after = Ledger(ledger.records, rings, ledger.calc)
    return arrival(table, after, currency, code)


# 09 DELETE


def delete(table, ledger, currency):
    """The run's record and everything below it goes, once each."""
    code, record = run_record(ledger, currency)
    going = all_below(ledger, code)
    answer = Answer(0, code, record.type, len(going))
    return Outcome(answer, ledger_without(ledger, going),
                   currency_without(table, ledger, currency, going))


def all_below(ledger, code):
    """The record, its details in any chain, and theirs: a worklist."""
    details_of = {}
    for (_, master), details in ledger.rings.items():
        details_of.setdefault(master, []).extend(details)
    going, work = {code}, [code]
    while work:
        for detail in details_of.get(work.pop(), []):
            if detail not in going:
                going.add(detail)
                work.append(detail)
    return going


def ledger_without(ledger, going):
    """Records that go leave the rings of surviving masters too."""
    def staying(codes):
        return [code for code in codes if code not in going]
    return Ledger(
        {code: record for code, record in ledger.records.items() if code not in going},
        {(chain, master): staying(details)
         for (chain, master), details in ledger.rings.items() if master not in going},
        {page: staying(codes) for page, codes in ledger.calc.items()},
    )


def currency_without(table, ledger, currency, going):
    """Run and type entries that went become 0; chain entries back up."""
    types = tuple(0 if entry in going else entry for entry in currency.types)
    chains = tuple(backed_up(table, ledger, chain, entry, going)
                   for chain, entry in enumerate(currency.chains))
    return Currency(0, types, chains)


def backed_up(table, ledger, chain, entry, going):
    """The nearest survivor backwards round the old ring, 0 if its master went."""
    if entry not in going:
        return entry
    master = occurrence(table, ledger, chain, entry)
    if master in going:
        return 0
    ring = ring_round(ledger, chain, master)
    before = ring[:ring.index(entry)]
    return [code for code in before if code not in going][-1]


# 0A READ


def read(table, ledger, currency, room):
    """The data of the run's record, if the output is long enough."""
    code, record = run_record(ledger, currency)
    require(room >= len(record.data), SHORT_OUTPUT)
    return Outcome(Answer(0, code, record.type), ledger, currency, record.data)


CALLS = {
    FORMAT: formatted, STORE: store, DIRECT: direct, KEY: by_key, NEXT: next_in,
    PRIOR: prior_in, MASTER: master_in, EACH: each, MODIFY: modify, DELETE: delete,
    READ: read, CURRENT: current, FIND: find, RELINK: relink,
}
