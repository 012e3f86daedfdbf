"""A data file as text: pages, records, rings, currency, and what looks wrong."""

from idslib import values
from idslib.pages import CALC, LINES
from idslib.rules import Trouble

ENTRIES = 33


def text(file, currency=None):
    """All that `ids show` prints."""
    lines = page_lines(file) + [""] + ring_lines(file)
    if currency is not None:
        lines += [""] + currency_lines(file, currency)
    lines += [""] + [f"looks wrong: {note}" for note in file.notes]
    if not file.notes:
        lines.append("Every ring came home. Whether the file is sound is for the library to say (refusal 3).")
    return "\n".join(lines) + "\n"


def page_lines(file):
    """Each page with its records; runs of empty pages in one line."""
    lines = []
    for first, last in runs(file):
        page = file.pages[first - 1]
        if not page.codes:
            many = f"page {first}" if first == last else f"pages {first} to {last}"
            lines.append(f"{many}: empty{'' if first == last else ', each'}, {page.free} bytes free")
            continue
        lines.append(f"page {first}: {page.free} bytes free, {len(page.codes)} line{'s' * (len(page.codes) > 1)} used")
        lines += [line for code in page.codes for line in record_lines(file, file.records[code])]
    return lines


def runs(file):
    """Pages by first and last number: each with records alone, empty ones that are alike together."""
    found = []
    for page in file.pages:
        before = file.pages[found[-1][1] - 1] if found else None
        if before and not before.codes and not page.codes and before.free == page.free:
            found[-1] = (found[-1][0], page.number)
        else:
            found.append((page.number, page.number))
    return found


def record_lines(file, record):
    """A record's code, type and data, and its links below."""
    head = f"  {record.code:06X}  line {record.code % LINES:<2}  {record.kind.name}  {values.shown(record.kind, record.data)}"
    links = [f"{ring_name(file.d, ring)} {way} {code:06X}" for (ring, way), code in record.links.items()]
    return [head] + (["          " + "; ".join(links)] if links else [])


def ring_name(d, ring):
    """CALC, or a chain's name."""
    return CALC if ring == CALC else d.chains[ring].name


def ring_lines(file):
    """The rings of each chain and CALC; empty CALC rings are left out."""
    lines = []
    for i, chain in enumerate(file.d.chains):
        master, detail = file.d.type_numbered(chain.master).name, file.d.type_numbered(chain.detail).name
        lines.append(f"chain {chain.name} ({master} to {detail}):")
        lines += [ring_line(file, ring) for ring in file.rings if ring.chain == i] or ["  no master"]
    calc = [ring for ring in file.rings if ring.chain == CALC and (ring.met or ring.wrong)]
    return lines + ["CALC rings:"] + ([ring_line(file, ring) for ring in calc] or ["  all empty"])


def ring_line(file, ring):
    """A ring from its start round, and how it ends."""
    start = f"header {ring.start:06X}" if ring.chain == CALC else label(file, ring.start)
    end = "DOES NOT COME HOME" if ring.wrong else "home" if ring.met else "home (no details)"
    return "  " + " -> ".join([start, *(label(file, code) for code in ring.met), end])


def label(file, code):
    """A record in a few letters: code and first field."""
    record = file.records[code]
    first = f" {record.kind.fields[0].name}={values.field_text(record.kind.fields[0], record.data)}" if record.kind.fields else ""
    return f"{code:06X}{first}"


def codes_of(text):
    """A currency of hexadecimal codes, at most 33; those not given are 0."""
    try:
        codes = [int(word, 16) for word in text.split()]
    except ValueError:
        raise Trouble("the currency is not hexadecimal codes") from None
    if len(codes) > ENTRIES:
        raise Trouble(f"the currency has {len(codes)} codes; it has {ENTRIES}: the run's, 16 of types, 16 of chains")
    return codes + [0] * (ENTRIES - len(codes))


def currency_lines(file, codes):
    """The currency entry by entry, in the table's names."""
    named = [("run", codes[0])] + [(f"type {t.name}", codes[1 + i]) for i, t in enumerate(file.d.types)]
    named += [(f"chain {c.name}", codes[17 + i]) for i, c in enumerate(file.d.chains)]
    lines = ["currency:"] + [f"  {name}: {current(file, code)}" for name, code in named]
    unused = codes[1 + len(file.d.types):17] + codes[17 + len(file.d.chains):]
    return lines + (["  an unused entry is not 0"] if any(unused) else [])


def current(file, code):
    """An entry in words."""
    if code == 0:
        return "none"
    record = file.records.get(code)
    return f"{record.kind.name} {label(file, code)}" if record else f"{code:06X}, where no record is"
