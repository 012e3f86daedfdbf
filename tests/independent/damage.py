"""Damaged files for tests: bytes changed, links led astray, ledgers bent.

damage knows nothing of the table, astray changes one link of a sound file,
bent changes a ledger so that its layout may or may not be sound.
"""

import ledger as ledgers
import table as tables
from ledger import LINES, Ledger
from table import CALC, RECORD_HEAD

# Bytes changed without looking at the table


def damage(rng, file):
    """A damaged copy of a file: of the same size, and not the same bytes."""
    while True:
        way = rng.choice([damage_byte, damage_bit, copy_link, swap_links, swap_runs,
                          swap_pages, slide])
        bad = way(rng, bytearray(file))
        if bad != file:
            return bytes(bad)


def used_place(rng, file, size):
    """A place near bytes that are not zero, so that damage hits records."""
    used = [at for at, byte in enumerate(file) if byte]
    at = rng.choice(used) if used and rng.random() < 0.9 else rng.randrange(len(file))
    return max(0, min(at - rng.randint(0, 2), len(file) - size))


def damage_byte(rng, file):
    """One byte becomes another."""
    at = used_place(rng, file, 1)
    file[at] = rng.choice([0, 1, 2, 255, rng.randrange(256), (file[at] + 1) % 256])
    return file


def damage_bit(rng, file):
    """One bit is turned."""
    file[used_place(rng, file, 1)] ^= 1 << rng.randrange(8)
    return file


def copy_link(rng, file):
    """Three bytes become a copy of three others, as a link gone astray."""
    a, b = used_place(rng, file, 3), used_place(rng, file, 3)
    file[a:a + 3] = file[b:b + 3]
    return file


def swap_links(rng, file):
    """Two runs of three bytes change places."""
    return swapped(file, used_place(rng, file, 3), used_place(rng, file, 3), 3)


def swap_runs(rng, file):
    """Two runs of a record's likely size change places."""
    size = rng.randint(5, 40)
    return swapped(file, used_place(rng, file, size), used_place(rng, file, size), size)


def swap_pages(rng, file):
    """Two pages change places, or one page is emptied."""
    pages = len(file) // 512
    a, b = rng.randrange(pages), rng.randrange(pages)
    if a == b:
        file[512 * a + 16:512 * a + 512] = bytes(496)
        return file
    return swapped(file, 512 * a, 512 * b, 512)


def slide(rng, file):
    """The rest of a page moves up one byte, as after a bad closing up."""
    at = used_place(rng, file, 1)
    end = 512 * (at // 512 + 1)
    file[at:end] = file[at + 1:end] + b"\0"
    return file


def swapped(file, a, b, size):
    """The file with two runs exchanged; overlapping ones stay."""
    if abs(a - b) >= size:
        file[a:a + size], file[b:b + size] = file[b:b + size], file[a:a + size]
    return file


# One link of a sound file changed


def link_places(shape, file):
    """Where every link of a sound file stands, headers' CALC NEXT included."""
    places = []
    for start in range(0, len(file), 512):
        places.append(start + 13)
        at, end = start + 16, start + 512 - int.from_bytes(file[start + 3:start + 5], "big")
        while at < end:
            t = tables.type_numbered(shape, int.from_bytes(file[at:at + 2], "big"))
            first = at + RECORD_HEAD + t.length
            at += tables.record_size(shape, t)
            places += range(first, at, 3)
    return places


def astray(rng, shape, ledger, file):
    """A sound file with one link changed, mostly to another record or header."""
    at = rng.choice(link_places(shape, file))
    old = int.from_bytes(file[at:at + 3], "big")
    codes = [*ledger.records, *(LINES * page for page in ledger.calc), 0, 2 ** 24 - 1, old + 1]
    new = rng.choice([code for code in codes if code != old])
    return file[:at] + new.to_bytes(3, "big") + file[at + 3:]


# Ledgers changed, each record still once in a list of each of its rings


def bent(rng, shape, ledger):
    """The ledger with one to three changes that may break a rule."""
    for _ in range(rng.randint(1, 3)):
        way = rng.choice([bend_order, bend_master, bend_home, bend_data, bend_code])
        ledger = way(rng, shape, ledger)
    return ledger


def bend_order(rng, shape, ledger):
    """Two neighbours in a list change places."""
    rings = {**ledger.rings, **{(CALC, page): codes for page, codes in ledger.calc.items()}}
    long = [at for at, codes in rings.items() if len(codes) > 1]
    if not long:
        return ledger
    at = rng.choice(long)
    codes = list(rings[at])
    first = rng.randrange(len(codes) - 1)
    codes[first:first + 2] = reversed(codes[first:first + 2])
    return with_list(ledger, at, codes)


def with_list(ledger, at, codes):
    """The ledger with one ring's or CALC list replaced."""
    ring, start = at
    if ring == CALC:
        return ledger._replace(calc={**ledger.calc, start: codes})
    return ledger._replace(rings={**ledger.rings, at: codes})


def bend_master(rng, shape, ledger):
    """A detail moves to any place under any master of its chain."""
    full = [at for at, codes in ledger.rings.items() if codes]
    if not full:
        return ledger
    left = rng.choice(full)
    detail = rng.choice(ledger.rings[left])
    rings = {**ledger.rings, left: ledgers.without(ledger.rings[left], detail)}
    to = rng.choice([at for at in rings if at[0] == left[0]])
    place = rng.randint(0, len(rings[to]))
    rings[to] = rings[to][:place] + [detail] + rings[to][place:]
    return ledger._replace(rings=rings)


def bend_home(rng, shape, ledger):
    """A calculated record moves to the front of any page's CALC list."""
    full = [page for page, codes in ledger.calc.items() if codes]
    if not full:
        return ledger
    left = rng.choice(full)
    code = rng.choice(ledger.calc[left])
    calc = {**ledger.calc, left: ledgers.without(ledger.calc[left], code)}
    to = rng.choice(list(calc))
    calc[to] = [code] + calc[to]
    return ledger._replace(calc=calc)


def bend_data(rng, shape, ledger):
    """One record's data becomes that of another of its type, or has a byte changed."""
    full = [code for code, record in ledger.records.items() if record.data]
    if not full:
        return ledger
    code = rng.choice(full)
    old = ledger.records[code]
    data = rng.choice([r.data for r in ledger.records.values() if r.type == old.type])
    if data == old.data:
        at = rng.randrange(len(data))
        data = data[:at] + bytes([(data[at] + rng.choice([1, 255])) % 256]) + data[at + 1:]
    return ledger._replace(records={**ledger.records, code: old._replace(data=data)})


def bend_code(rng, shape, ledger):
    """A record takes another line of any page with room, in all lists too."""
    if not ledger.records:
        return ledger
    old = rng.choice(list(ledger.records))
    new = LINES * rng.randint(1, shape.pages) + rng.randint(1, 63)
    size = ledgers.size_of(shape, ledger.records[old])
    if new in ledger.records or ledgers.free_bytes(shape, ledger, ledgers.page_of(new)) < size:
        return ledger

    def renamed(codes):
        return [new if code == old else code for code in codes]
    return Ledger(
        {new if code == old else code: record for code, record in ledger.records.items()},
        {(ring, new if start == old else start): renamed(codes)
         for (ring, start), codes in ledger.rings.items()},
        {page: renamed(codes) for page, codes in ledger.calc.items()},
    )
