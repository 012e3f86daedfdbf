"""Reads a data file's bytes as far as they make sense. It looks and reports, and does not judge soundness."""

import collections

from idslib.rules import CALCULATED, Trouble

PAGE, HEADER, HEAD, LINK, LINES = 512, 16, 5, 3, 64
CALC = "CALC"


class Page:
    """A page: what its header says, and the codes of the records found on it."""

    def __init__(self, number):
        self.number, self.free, self.codes, self.calc = number, 0, [], 0


class Record:
    """A record's type, data and links; `links` maps (ring, way) to a code, ring being CALC or a chain's number."""

    def __init__(self, code, kind, data, links):
        self.code, self.kind, self.data, self.links = code, kind, data, links


class Ring:
    """A ring walked from its start: the records met, and what was wrong (or None)."""

    def __init__(self, chain, start, met, wrong):
        self.chain, self.start, self.met, self.wrong = chain, start, met, wrong


class File:
    """Pages, records by code, rings, and notes of what looks wrong."""

    def __init__(self, d, data):
        if len(data) != PAGE * d.pages:
            raise Trouble(f"the file has {len(data)} bytes, and the definition's {d.pages} pages make {PAGE * d.pages}")
        self.d, self.records, self.notes = d, {}, []
        self.pages = [self.page(p, data[PAGE * (p - 1):PAGE * p]) for p in range(1, d.pages + 1)]
        self.rings = self.chain_rings() + self.calc_rings()
        self.notes += [ring.wrong for ring in self.rings if ring.wrong]
        self.unreached()

    def page(self, number, data):
        """One page's header and records."""
        page = Page(number)
        page.free, page.calc = value(data, 3, 2), value(data, 13, 3)
        if value(data, 0, 3) != LINES * number:
            self.notes.append(f"page {number}: the header says code {value(data, 0, 3):06X}, not {LINES * number:06X}")
        at, flags = HEADER, value(data, 5, 8)
        for line in range(1, LINES):
            if flags >> line & 1:
                record, at = self.record(number, line, data, at)
                if record is None:
                    break
                page.codes.append(record.code)
                self.records[record.code] = record
        return page

    def record(self, page, line, data, at):
        """The record that begins here and where the next begins; None where the bytes make no sense."""
        t = self.d.type_numbered(value(data, at, 2))
        ways = link_ways(self.d, t) if t else []
        size = HEAD + t.length + LINK * len(ways) if t else 0
        if t is None or at + size > PAGE or value(data, at + 2, 2) != size or data[at + 4] != line:
            self.notes.append(f"page {page}: the bytes from {at} on are no record of line {line}; the rest of the page is not read")
            return None, at
        start = at + HEAD + t.length
        links = {way: value(data, start + LINK * i, LINK) for i, way in enumerate(ways)}
        return Record(LINES * page + line, t, data[at + HEAD:start], links), at + size

    def chain_rings(self):
        """The ring of each master in each chain."""
        rings = []
        for i, chain in enumerate(self.d.chains):
            for code, record in sorted(self.records.items()):
                if record.kind.number == chain.master:
                    rings.append(self.walk(i, code, record.links[i, "NEXT"], chain.detail, f"chain {chain.name} from {code:06X}"))
        return rings

    def calc_rings(self):
        """The CALC ring of each page's header."""
        return [self.walk(CALC, LINES * page.number, page.calc, None, f"CALC ring of page {page.number}") for page in self.pages]

    def walk(self, ring, start, here, detail, name):
        """Goes NEXT from a start until home, or until something is wrong."""
        met = {}  # keeps the order, and is quick to look in
        last = start
        while here != start:
            found = self.records.get(here)
            wrong = self.stop(found, here, last, met, ring, detail)
            if wrong:
                return Ring(ring, start, list(met), f"{name} does not come home: {wrong}")
            met[here], last = True, here
            here = found.links[ring, "NEXT"]
        return Ring(ring, start, list(met), None)

    def stop(self, found, here, last, met, ring, detail):
        """Why a walk cannot go on over this code, or None."""
        after = f" after {last:06X}"
        if found is None:
            return f"NEXT{after} is {here:06X}, where no record is"
        if here in met:
            return f"NEXT{after} is {here:06X}, which was met before"
        if ring == CALC and found.kind.kind != CALCULATED:
            return f"NEXT{after} is {here:06X}, a {found.kind.name}, which is not calculated"
        if ring != CALC and found.kind.number != detail:
            other = "another master" if found.kind.number == self.d.chains[ring].master else "no detail of the chain"
            return f"NEXT{after} is {here:06X}, a {found.kind.name}, {other}"
        return None

    def unreached(self):
        """Notes records that no ring of their own reached, or that two did."""
        for ring in [*range(len(self.d.chains)), CALC]:
            name = CALC if ring == CALC else f"chain {self.d.chains[ring].name}"
            met = collections.Counter(code for one in self.rings if one.chain == ring for code in one.met)
            for code, record in sorted(self.records.items()):
                due = record.kind.kind == CALCULATED if ring == CALC else record.kind.number == self.d.chains[ring].detail
                if due and met[code] != 1:
                    times = f"in {met[code]} rings" if met[code] else "in no ring"
                    self.notes.append(f"{record.kind.name} {code:06X} is {times} of {name}")


def value(data, at, size):
    """A number in the bytes, high byte first."""
    return int.from_bytes(data[at:at + size], "big")


def link_ways(d, t):
    """The links of a type's record in their order."""
    ways = [(CALC, "NEXT")] if t.kind == CALCULATED else []
    for i in d.chains_of(t.number):
        ways += [(i, "NEXT")] + ([(i, "PRIOR")] if d.chains[i].prior else [])
    return ways
