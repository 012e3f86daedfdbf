"""Demand 3's plain bookkeeping: what each master's ring must hold, and in what order.

It notes accepted calls only: which master a detail was last put or moved
under, and when it last joined. It never looks at the ledger's own lists.
"""

import table as tables
from ledger import DELETE, MODIFY, RELINK, STORE
from table import CALCULATED, EQUALS_FIRST, FALLING, FIRST


class Book:
    """Keeps for each record its type and data, and where and when it joined."""

    def __init__(self, table):
        self.table = table
        self.time = 0
        self.records = {}   # code -> (type number, data)
        self.under = {}     # (chain, detail) -> master
        self.joined = {}    # (ring, code) -> time of the last joining

    def note(self, number, arguments, answer, before):
        """Note an accepted call; `before` is the currency it was made with."""
        self.time += 1
        if answer.code != 0:
            return
        if number == STORE:
            self.note_store(answer.reference, *arguments, before)
        elif number == MODIFY:
            self.note_modify(before.run, *arguments)
        elif number == RELINK:
            chain, master = arguments
            self.put(chain, before.run, master)
        elif number == DELETE:
            self.note_delete(before.run)

    def put(self, chain, detail, master):
        """The detail is now under this master, as of now."""
        self.under[chain, detail] = master
        self.joined[chain, detail] = self.time

    def note_store(self, code, number, data, before):
        """A new detail goes under the master of each chain's current record."""
        self.records[code] = (number, data)
        for c, chain in enumerate(self.table.chains):
            if chain.detail == number:
                entry = before.chains[c]
                # An entry with no master in this chain is a master itself.
                self.put(c, code, self.under.get((c, entry), entry))
        self.joined[tables.CALC, code] = self.time

    def note_modify(self, code, data):
        """A changed key counts as joining now."""
        number, old = self.records[code]
        self.records[code] = (number, data)
        for c, chain in enumerate(self.table.chains):
            if chain.detail == number and self.key(chain, old) != self.key(chain, data):
                self.joined[c, code] = self.time
        t = tables.type_numbered(self.table, number)
        if self.key(t, old) != self.key(t, data):
            self.joined[tables.CALC, code] = self.time

    def note_delete(self, code):
        """Strike out records until no record has a master that is gone."""
        del self.records[code]
        while True:
            orphans = {detail for (_, detail), master in self.under.items()
                       if detail in self.records and master not in self.records}
            if not orphans:
                break
            for detail in orphans:
                del self.records[detail]
        self.under = {at: m for at, m in self.under.items() if at[1] in self.records}
        self.joined = {at: m for at, m in self.joined.items() if at[1] in self.records}

    @staticmethod
    def key(owner, data):
        """The owner's key bytes."""
        return data[owner.key_offset:owner.key_offset + owner.key_length]

    # What must be

    def ring(self, c, master):
        """The details under this master, sorted by key and time of joining."""
        chain = self.table.chains[c]
        details = [d for (other, d), m in self.under.items() if other == c and m == master]
        return sorted(details, key=lambda d: self.rank(c, chain, d))

    def rank(self, c, chain, detail):
        """Key first; among equals the newest is nearest the master, or farthest."""
        key = self.key(chain, self.records[detail][1])
        sign = -1 if chain.order == FALLING else 1
        newest_first = chain.order == FIRST or (
            tables.is_sorted(chain) and chain.duplicates == EQUALS_FIRST)
        time = self.joined[c, detail]
        return [sign * byte for byte in key], -time if newest_first else time

    def calc(self, page):
        """The calculated records of this home, newest first."""
        at_home = [code for code, (number, data) in self.records.items()
                   if self.home(number, data) == page]
        return sorted(at_home, key=lambda code: -self.joined[tables.CALC, code])

    def home(self, number, data):
        """The home page of a calculated record, else 0."""
        t = tables.type_numbered(self.table, number)
        return tables.home_page(t, self.key(t, data)) if t.kind == CALCULATED else 0

    def agrees(self, ledger):
        """Whether the ledger's records, rings and CALC lists are all as noted."""
        masters = {(c, code) for c, chain in enumerate(self.table.chains)
                   for code, (number, _) in self.records.items() if number == chain.master}
        return (
            {code: tuple(record) for code, record in ledger.records.items()} == self.records
            and set(ledger.rings) == masters
            and all(ledger.rings[c, m] == self.ring(c, m) for c, m in masters)
            and all(codes == self.calc(page) for page, codes in ledger.calc.items())
        )
