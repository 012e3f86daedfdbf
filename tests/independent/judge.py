"""Well-formed ledgers judged by brute force, sentence by sentence.

Used only to try layout.read: a ledger's layout is sound exactly when this
says well formed. It shares no code with the reader but keys and homes.
"""

import table as tables
from table import CALCULATED, EQUALS_REFUSED, FALLING, RISING


def well_formed(table, ledger):
    """Whether the layout of this ledger is a sound file."""
    return (every_record_in_range(table, ledger)
            and every_home_right(table, ledger)
            and no_calculated_twins(table, ledger)
            and all(ring_right(table.chains[c], [ledger.records[d].data for d in details])
                    for (c, _), details in ledger.rings.items()))


def every_record_in_range(table, ledger):
    """Every record lies in its type's page range."""
    ranges = {t.number: range(t.low, t.high + 1) for t in table.types}
    return all(code // 64 in ranges[record.type] for code, record in ledger.records.items())


def every_home_right(table, ledger):
    """Each header's list holds exactly the calculated records whose home it is."""
    homes = {page: set() for page in ledger.calc}
    for code, record in ledger.records.items():
        t = tables.type_numbered(table, record.type)
        if t.kind == CALCULATED:
            homes[tables.home_page(t, tables.key_in(t, record.data))].add(code)
    return all(set(codes) == homes[page] for page, codes in ledger.calc.items())


def no_calculated_twins(table, ledger):
    """No two calculated records of one type have one key."""
    seen = set()
    for record in ledger.records.values():
        t = tables.type_numbered(table, record.type)
        name = (t.number, tables.key_in(t, record.data))
        if t.kind == CALCULATED and name in seen:
            return False
        seen.add(name)
    return True


def ring_right(chain, datas):
    """Sorted rings are sorted, and no forbidden duplicate stands."""
    keys = [tables.key_in(chain, data) for data in datas]
    if chain.order == RISING and keys != sorted(keys):
        return False
    if chain.order == FALLING and keys != sorted(keys, reverse=True):
        return False
    return chain.duplicates != EQUALS_REFUSED or len(set(keys)) == len(keys)
