"""The definition table: which runs of 16-bit words are accepted, and what they say.

An accepted run is read into a Table of named types and chains. Randomizing,
home page, record size and the order of a record's links follow from it alone.
"""

from typing import NamedTuple

PRIMARY, SECONDARY, CALCULATED = 0, 1, 2
FIRST, LAST, RISING, FALLING = 0, 1, 2, 3
EQUALS_FIRST, EQUALS_LAST, EQUALS_REFUSED = 0, 1, 2
NO_CHAIN = 65535

MOST_PAGES, MOST_TYPES, MOST_CHAINS = 128, 16, 16
MOST_NUMBER, MOST_DATA = 999, 200
COUNT_WORDS, TYPE_WORDS, CHAIN_WORDS = 3, 8, 7

# A record's links belong to a ring of CALC or of a chain number.
CALC = -1
NEXT, PRIOR = "NEXT", "PRIOR"
RECORD_HEAD, LINK_BYTES = 5, 3


class Type(NamedTuple):
    """The eight words of a type; `kind` is its class, `length` its D."""

    number: int
    length: int
    kind: int
    low: int
    high: int
    via: int
    key_offset: int
    key_length: int


class Chain(NamedTuple):
    """The seven words of a chain."""

    master: int
    detail: int
    order: int
    prior: int
    duplicates: int
    key_offset: int
    key_length: int


class Table(NamedTuple):
    """A whole table: types and chains stand in table order."""

    pages: int
    types: tuple
    chains: tuple


# Accepted or refused


def broken_rule(words):
    """The first rule of document 01 that the words break, or None."""
    broken = broken_counts(words)
    if broken:
        return broken
    table = read(words)
    for place in range(len(table.types)):
        broken = broken_type(table, place)
        if broken:
            return f"type {place}: {broken}"
    for place, chain in enumerate(table.chains):
        broken = broken_chain(table, chain)
        if broken:
            return f"chain {place}: {broken}"
    return None


def first_broken(rules):
    """The text of the first pair (holds, text) that does not hold."""
    for holds, text in rules:
        if not holds:
            return text
    return None


def broken_counts(words):
    """The counts are judged before anything is read through them."""
    if len(words) < COUNT_WORDS:
        return "fewer than 3 words"
    pages, types, chains = words[:COUNT_WORDS]
    whole = COUNT_WORDS + TYPE_WORDS * types + CHAIN_WORDS * chains
    return first_broken([
        (1 <= pages <= MOST_PAGES, "page count"),
        (1 <= types <= MOST_TYPES, "type count"),
        (0 <= chains <= MOST_CHAINS, "chain count"),
        (len(words) == whole, "not exactly 3 + 8T + 7C words"),
    ])


def broken_type(table, place):
    """The first rule that one type breaks, or None."""
    t = table.types[place]
    below = table.types[place - 1].number if place > 0 else 0
    return first_broken([
        (1 <= t.number <= MOST_NUMBER, "number"),
        (below < t.number, "numbers do not rise"),
        (0 <= t.length <= MOST_DATA, "data length"),
        (t.kind in (PRIMARY, SECONDARY, CALCULATED), "class"),
        (1 <= t.low <= t.high <= table.pages, "page range"),
        (via_is_right(table, t), "via chain"),
        (type_key_is_right(t), "key"),
    ])


def via_is_right(table, t):
    """Only a secondary type has a via chain, one of which it is the detail."""
    if t.kind != SECONDARY:
        return t.via == NO_CHAIN
    return t.via < len(table.chains) and table.chains[t.via].detail == t.number


def type_key_is_right(t):
    """Only a calculated type has a key, and it lies within its data."""
    if t.kind != CALCULATED:
        return t.key_offset == 0 and t.key_length == 0
    return t.key_length >= 1 and t.key_offset + t.key_length <= t.length


def broken_chain(table, chain):
    """The first rule that one chain breaks, or None."""
    return first_broken([
        (type_numbered(table, chain.master) is not None, "master type"),
        (type_numbered(table, chain.detail) is not None, "detail type"),
        (chain.master < chain.detail, "master's number not below detail's"),
        (chain.order in (FIRST, LAST, RISING, FALLING), "order"),
        (chain.prior in (0, 1), "linked prior"),
        (chain_key_is_right(table, chain), "duplicates or key"),
    ])


def chain_key_is_right(table, chain):
    """Only a sorted chain has duplicates and key; the key lies in the detail."""
    if not is_sorted(chain):
        return (chain.duplicates, chain.key_offset, chain.key_length) == (0, 0, 0)
    detail = type_numbered(table, chain.detail)
    return (
        detail is not None
        and chain.duplicates in (EQUALS_FIRST, EQUALS_LAST, EQUALS_REFUSED)
        and chain.key_length >= 1
        and chain.key_offset + chain.key_length <= detail.length
    )


# Named parts of an accepted table


def read(words):
    """The words as a Table; the counts must be right."""
    pages, types, chains = words[:COUNT_WORDS]
    start = COUNT_WORDS + TYPE_WORDS * types
    return Table(
        pages,
        tuple(Type(*part(words, COUNT_WORDS, TYPE_WORDS, i)) for i in range(types)),
        tuple(Chain(*part(words, start, CHAIN_WORDS, i)) for i in range(chains)),
    )


def part(words, start, size, place):
    """The words of the type or chain at this place."""
    return words[start + size * place:start + size * (place + 1)]


def type_numbered(table, number):
    """The type with this number, or None."""
    for t in table.types:
        if t.number == number:
            return t
    return None


def type_place(table, number):
    """The place of a defined type in the table, which is its currency entry."""
    return [t.number for t in table.types].index(number)


def has_chain(table, chain):
    """Whether a chain has this number; chains are numbered from 0."""
    return 0 <= chain < len(table.chains)


def chains_of_detail(table, number):
    """The numbers of the chains in which the type is detail."""
    return [c for c, chain in enumerate(table.chains) if chain.detail == number]


def chains_of_master(table, number):
    """The numbers of the chains in which the type is master."""
    return [c for c, chain in enumerate(table.chains) if chain.master == number]


def chains_of(table, number):
    """The chains in which the type is master or detail, in one numbering."""
    return [c for c, chain in enumerate(table.chains)
            if number in (chain.master, chain.detail)]


def is_sorted(chain):
    """Whether the chain's order goes by key."""
    return chain.order in (RISING, FALLING)


# Keys, homes, sizes and links


def key_in(owner, data):
    """The key bytes of a type or a chain in a record's data."""
    return data[owner.key_offset:owner.key_offset + owner.key_length]


def comes_before(chain, key, other):
    """Whether the chain's order puts the one key strictly before the other."""
    return key < other if chain.order == RISING else key > other


def randomized(key):
    """Randomizing: repeated doubling and adding in 16 bits."""
    h = 0
    for byte in key:
        h = (2 * h + byte) % 65536
    return h


def home_page(t, key):
    """The home page of a calculated type's key."""
    return t.low + randomized(key) % (t.high - t.low + 1)


def links(table, t):
    """The record's links in their order, each as (ring, NEXT or PRIOR)."""
    order = [(CALC, NEXT)] if t.kind == CALCULATED else []
    for chain in chains_of(table, t.number):
        order.append((chain, NEXT))
        if table.chains[chain].prior == 1:
            order.append((chain, PRIOR))
    return order


def record_size(table, t):
    """Head, data and links in bytes."""
    return RECORD_HEAD + t.length + LINK_BYTES * len(links(table, t))
