"""A ledger's one layout as bytes, and bytes read back with exact soundness.

A file is sound when it is the layout of a well-formed ledger. Reading walks
the links found in the bytes, judges the ledger, then lays it out again and
compares every byte. Refusals 1 to 4 are given here.
"""

from typing import NamedTuple

import table as tables
from ledger import (BAD_CURRENCY, BAD_SIZE, BAD_TABLE, ENTRIES, LINES, NOT_SOUND,
                    PAGE_ROOM, Ledger, Record, chain_twin, page_of, size_of)
from table import CALC, CALCULATED, LINK_BYTES, NEXT, PRIOR, RECORD_HEAD

PAGE_BYTES, HEADER_BYTES = 512, 16


class Unsound(Exception):
    """The text says which part of "sound" the bytes break."""


class Found(NamedTuple):
    """What the pages hold: records, and (ring, NEXT or PRIOR, code) -> code."""

    records: dict
    links: dict


def check(holds, text):
    """Unsound unless the condition holds."""
    if not holds:
        raise Unsound(text)


def number(data, at, size):
    """A number in the bytes, high byte first."""
    return int.from_bytes(data[at:at + size], "big")


# Writing


def write(table, ledger):
    """The file that is this ledger's layout."""
    links = all_links(ledger)
    return b"".join(page_bytes(table, ledger, links, page)
                    for page in range(1, table.pages + 1))


def all_links(ledger):
    """Every NEXT and PRIOR that the lists say; a lone master points at itself."""
    rings = {(CALC, LINES * page): codes for page, codes in ledger.calc.items()}
    rings.update(ledger.rings)
    links = {}
    for (ring, start), codes in rings.items():
        circle = [start, *codes]
        for here, there in zip(circle, circle[1:] + [start]):
            links[ring, NEXT, here] = there
            links[ring, PRIOR, there] = here
    return links


def page_bytes(table, ledger, links, page):
    """Header, records packed in rising line order, zeros."""
    codes = sorted(code for code in ledger.records if page_of(code) == page)
    body = b"".join(record_bytes(table, ledger.records[code], links, code) for code in codes)
    header_code = LINES * page
    flags = 1 + sum(1 << code % LINES for code in codes)
    header = (header_code.to_bytes(3, "big")
              + (PAGE_ROOM - len(body)).to_bytes(2, "big")
              + flags.to_bytes(8, "big")
              + links[CALC, NEXT, header_code].to_bytes(3, "big"))
    return (header + body).ljust(PAGE_BYTES, b"\0")


def record_bytes(table, record, links, code):
    """Type, size, line, data, then the links in the table's order."""
    t = tables.type_numbered(table, record.type)
    head = (record.type.to_bytes(2, "big")
            + size_of(table, record).to_bytes(2, "big")
            + bytes([code % LINES]))
    tail = [links[ring, way, code].to_bytes(LINK_BYTES, "big")
            for ring, way in tables.links(table, t)]
    return head + record.data + b"".join(tail)


# Reading


def read(table, data):
    """The ledger of a sound file of the right size, or None."""
    try:
        return decoded(table, data)
    except Unsound:
        return None


def decoded(table, data):
    """The ledger of a sound file; else Unsound says why."""
    found = Found({}, {})
    for page in range(1, table.pages + 1):
        start = PAGE_BYTES * (page - 1)
        read_page(table, page, data[start:start + PAGE_BYTES], found)
    ledger = Ledger(found.records, walk_chains(table, found), walk_calc(table, found))
    check_well_formed(table, ledger)
    check(write(table, ledger) == data, "a byte differs from the layout")
    return ledger


def read_page(table, page, data, found):
    """One page's header and records, judged by its own bytes."""
    header_code = LINES * page
    flags = number(data, 5, 8)
    check(number(data, 0, 3) == header_code, "header code")
    check(flags & 1, "flag of line 0")
    found.links[CALC, NEXT, header_code] = number(data, 13, 3)
    at = HEADER_BYTES
    for line in range(1, LINES):
        if flags >> line & 1:
            at = read_record(table, page, line, data, at, found)
    check(number(data, 3, 2) == PAGE_BYTES - at, "free bytes")
    check(not any(data[at:]), "rest of page not zero")


def read_record(table, page, line, data, at, found):
    """The record that begins here; gives where the next one begins."""
    check(at + RECORD_HEAD <= PAGE_BYTES, "record past the page's end")
    t = tables.type_numbered(table, number(data, at, 2))
    check(t is not None, "type not defined")
    size = tables.record_size(table, t)
    check(number(data, at + 2, 2) == size, "record size")
    check(number(data, at + 4, 1) == line, "record line")
    check(at + size <= PAGE_BYTES, "record past the page's end")
    check(t.low <= page <= t.high, "page outside the type's range")
    code = LINES * page + line
    data_end = at + RECORD_HEAD + t.length
    found.records[code] = Record(t.number, bytes(data[at + RECORD_HEAD:data_end]))
    for place, (ring, way) in enumerate(tables.links(table, t)):
        link = number(data, data_end + LINK_BYTES * place, LINK_BYTES)
        found.links[ring, way, code] = link
    return at + size


# Walking the rings


def walk_calc(table, found):
    """Each header's list; together they hold every calculated record once."""
    waiting = {code for code, record in found.records.items()
               if tables.type_numbered(table, record.type).kind == CALCULATED}
    calc = {page: walk(found, CALC, LINES * page, waiting)
            for page in range(1, table.pages + 1)}
    check(not waiting, "a calculated record in no ring")
    return calc


def walk_chains(table, found):
    """Each master's list; each chain's hold every detail once."""
    rings = {}
    for c, chain in enumerate(table.chains):
        waiting = codes_of_type(found.records, chain.detail)
        for master in codes_of_type(found.records, chain.master):
            rings[c, master] = walk(found, c, master, waiting)
            if chain.prior == 1:
                check_prior(found, c, [master, *rings[c, master]])
        check(not waiting, "a detail in no ring")
    return rings


def codes_of_type(records, wanted):
    """The codes of all records of a type."""
    return {code for code, record in records.items() if record.type == wanted}


def walk(found, ring, start, waiting):
    """The records met going NEXT until the walk is home; each is met only once."""
    met = []
    here = found.links[ring, NEXT, start]
    while here != start:
        # A wrong record, another master or a record met before ends the walk.
        check(here in waiting, "NEXT leads to no right record")
        waiting.remove(here)
        met.append(here)
        here = found.links[ring, NEXT, here]
    return met


def check_prior(found, ring, circle):
    """PRIOR undoes NEXT all round the ring."""
    for here in circle:
        there = found.links[ring, NEXT, here]
        check(found.links[ring, PRIOR, there] == here, "PRIOR does not undo NEXT")


# Well-formed ledgers


def check_well_formed(table, ledger):
    """What the walk leaves open: homes, order and duplicates."""
    for page, codes in ledger.calc.items():
        check(all(home_of(table, ledger, code) == page for code in codes), "home page")
    check_calc_twins(table, ledger)
    for (c, _), details in ledger.rings.items():
        if tables.is_sorted(table.chains[c]):
            check_order(table.chains[c], ledger, details)


def home_of(table, ledger, code):
    """A calculated record's home page."""
    record = ledger.records[code]
    t = tables.type_numbered(table, record.type)
    return tables.home_page(t, tables.key_in(t, record.data))


def check_calc_twins(table, ledger):
    """No two calculated records of one type have one key."""
    for t in table.types:
        if t.kind == CALCULATED:
            keys = [tables.key_in(t, ledger.records[code].data)
                    for code in codes_of_type(ledger.records, t.number)]
            check(len(set(keys)) == len(keys), "calculated duplicate")


def check_order(chain, ledger, details):
    """A sorted ring is in order and holds no forbidden duplicate."""
    keys = [tables.key_in(chain, ledger.records[code].data) for code in details]
    for key, after in zip(keys, keys[1:]):
        check(not tables.comes_before(chain, after, key), "ring out of order")
    for place, code in enumerate(details):
        twin = chain_twin(chain, ledger.records, details[:place], ledger.records[code].data)
        check(not twin, "forbidden duplicate in a ring")


# Refusals 1 to 4


def refusal_of_size(words, data):
    """1 for a broken table, 2 for a file of another size, else 0."""
    if tables.broken_rule(words) is not None:
        return BAD_TABLE
    if len(data) != PAGE_BYTES * words[0]:
        return BAD_SIZE
    return 0


def opened(words, data, currency):
    """(refusal 1 to 4, None, None), or (0, table, ledger)."""
    refusal = refusal_of_size(words, data)
    if refusal:
        return refusal, None, None
    table = tables.read(words)
    ledger = read(table, data)
    if ledger is None:
        return NOT_SOUND, None, None
    if not currency_in_force(table, ledger, currency):
        return BAD_CURRENCY, None, None
    return 0, table, ledger


def currency_in_force(table, ledger, currency):
    """Each entry by itself is 0 or a present record of a right type."""
    run, types, chains = currency
    if len(types) != ENTRIES or len(chains) != ENTRIES:
        return False
    allowed_types = [{t.number} for t in table.types]
    allowed_chains = [{chain.master, chain.detail} for chain in table.chains]
    return (
        (run == 0 or run in ledger.records)
        and entries_in_force(ledger, types, allowed_types)
        and entries_in_force(ledger, chains, allowed_chains)
    )


def entries_in_force(ledger, entries, allowed):
    """Entry by entry; those past the table's count are 0."""
    for place, entry in enumerate(entries):
        if entry == 0:
            continue
        if place >= len(allowed) or entry not in ledger.records:
            return False
        if ledger.records[entry].type not in allowed[place]:
            return False
    return True
