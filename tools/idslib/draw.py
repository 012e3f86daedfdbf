"""A data file as one SVG: pages are boxes, records are rows, and each NEXT link is an arrow beside them.

Chains run in lanes on the right, one block of lanes a chain, and CALC rings in lanes on the left. Every link end
has its own height on its row, and links share a lane only where they do not meet, so no two lines lie on each other.
"""

from xml.sax.saxutils import escape

from idslib import values
from idslib.pages import CALC, LINES
from idslib.show import ring_name, runs

COLOURS = ("#0b62a8", "#c2410c", "#15803d", "#7e22ce", "#0f766e", "#0e7490", "#a16207", "#be185d",
           "#4d7c0f", "#3730a3", "#9a3412", "#166534", "#86198f", "#1e40af", "#854d0e", "#9f1239")
GREY, INK, RED = "#6b7280", "#111827", "#b91c1c"
SIZE, LETTER = 13, 7.9            # font size and the width of a letter
ROW, PORT, LANE, GAP = 26, 9, 13, 26  # least row height, room of a link end, width of a lane, room between parts
MOST = 60                          # letters of data on a row


class Row:
    """A line of the picture that links can leave and reach."""

    def __init__(self, code, text, header=False):
        self.code, self.text, self.header, self.top, self.height, self.ports = code, text, header, 0, ROW, {}


class Link:
    """One NEXT link: from a code to a code, in a ring (CALC or a chain's number)."""

    def __init__(self, ring, start, end):
        self.ring, self.start, self.end, self.lane = ring, start, end, 0


def svg(file, title):
    """The picture."""
    boxes = boxes_of(file)
    rows = {row.code: row for box in boxes for row in box if row.code}
    links, lost = links_of(file, rows)
    set_ports(rows, links)
    legend = legend_of(file, links)
    top = 60 + 22 * len(legend)
    bottom = place_rows(boxes, top + 30)
    left, right = sides(links, rows)
    notes = lost + file.notes
    x = GAP + LANE * left + GAP
    width_box = LETTER * max(len(row.text) for box in boxes for row in box) + 24
    lanes_at = lane_places(file, right, x + width_box)
    width = max([x + width_box + GAP + sum(LANE * n + GAP for n in right.values()), 460]
                + [LETTER * len(note) + 60 for note in notes] + [LETTER * len(text) + 110 for _, text in legend]
                + [LETTER * len(title) + 160])
    out = [head(width, bottom + 30 + 20 * len(notes) + 10, links), text_at(GAP, 32, f"Pages and rings of {title}", INK, 17)]
    out += legend_lines(legend) + lane_names(file, lanes_at, top + 12)
    if left:
        out.append(text_at(GAP, top + 12, CALC, GREY))
    out += [part for box in boxes for part in box_parts(box, x, width_box)]
    out += [link_path(link, rows, x, x + width_box, lanes_at) for link in links]
    out += [text_at(GAP, bottom + 30 + 20 * i, note, RED) for i, note in enumerate(notes)]
    return "\n".join(out) + "\n</svg>\n"


# What is drawn


def boxes_of(file):
    """The pages as lists of rows; a run of empty pages is one row."""
    boxes = []
    for first, last in runs(file):
        page = file.pages[first - 1]
        if page.codes or page.calc not in (0, LINES * first):
            used = f"{len(page.codes)} line{'s' * (len(page.codes) != 1)} used"
            rows = [Row(LINES * first, f"page {first}   {page.free} free, {used}", header=True)]
            boxes.append(rows + [Row(code, record_text(file.records[code])) for code in page.codes])
        else:
            name = f"page {first}" if first == last else f"pages {first} to {last}"
            boxes.append([Row(0, f"{name}   empty", header=True)])
    return boxes


def record_text(record):
    """A record's row: code, type, data by field."""
    data = values.shown(record.kind, record.data)
    return f"{record.code:06X}  {record.kind.name}  {data if len(data) <= MOST else data[:MOST - 2] + '..'}"


def links_of(file, rows):
    """The NEXT links between rows, and notes of those that lead nowhere; rings of one are left out."""
    links, lost = [], []
    for code, row in rows.items():
        held = {(CALC, "NEXT"): file.pages[code // LINES - 1].calc} if row.header else file.records[code].links
        for (ring, way), end in held.items():
            if way != "NEXT" or end == code:
                continue
            if end in rows:
                links.append(Link(ring, code, end))
            else:
                lost.append(f"{ring_name(file.d, ring)} NEXT of {code:06X} is {end:06X}, where no record is")
    return links, lost


def set_ports(rows, links):
    """Each link end gets a height of its own on its row, arrivals from above the middle and departures below."""
    ends = {code: [] for code in rows}
    for link in links:
        ends[link.end].append((side(link), order(link), 0, link, "in"))
        ends[link.start].append((side(link), order(link), 1, link, "out"))
    for code, row in rows.items():
        for which in ("left", "right"):
            here = sorted((e for e in ends[code] if e[0] == which), key=lambda e: e[:3])
            row.height = max(row.height, PORT * len(here) + 8)
            for place, (_, _, _, link, way) in enumerate(here):
                row.ports[link, way] = (place - (len(here) - 1) / 2) * PORT


def side(link):
    """CALC links go left of the boxes, chains right."""
    return "left" if link.ring == CALC else "right"


def order(link):
    """Chains in their numbers."""
    return -1 if link.ring == CALC else link.ring


def place_rows(boxes, y):
    """Gives each row its height in the picture; returns where the last box ends."""
    for box in boxes:
        for row in box:
            row.top = y
            y += row.height
        y += GAP
    return y


def height_at(row, link, way):
    """The height of a link's end."""
    return row.top + row.height / 2 + row.ports[link, way]


def sides(links, rows):
    """Sets each link's lane; the number of lanes for CALC, and of each chain."""
    counts = {}
    for ring in sorted({link.ring for link in links}, key=str):
        counts[ring] = set_lanes([link for link in links if link.ring == ring], rows)
    return counts.pop(CALC, 0), dict(sorted(counts.items()))


def set_lanes(links, rows):
    """Short links take the inner lanes; links share a lane where their heights do not meet."""
    lanes = []
    for low, high, link in sorted((span(link, rows) + (link,) for link in links), key=lambda s: (s[1] - s[0], s[0])):
        for lane, taken in enumerate(lanes):
            if all(high + 4 < a or b + 4 < low for a, b in taken):
                break
        else:
            lane = len(lanes)
            lanes.append([])
        lanes[lane].append((low, high))
        link.lane = lane
    return len(lanes)


def span(link, rows):
    """The heights that a link's upright part covers."""
    ends = height_at(rows[link.start], link, "out"), height_at(rows[link.end], link, "in")
    return min(ends), max(ends)


def lane_places(file, right, x):
    """Where each chain's block of lanes begins; a block is as wide as its name."""
    places, at = {}, x + GAP
    for ring, count in right.items():
        places[ring] = at
        right[ring] = max(count, int(LETTER * len(ring_name(file.d, ring)) / LANE) + 1)
        at += LANE * right[ring] + GAP
    return places


# How it is drawn


def colour(ring):
    """A ring's colour."""
    return GREY if ring == CALC else COLOURS[ring % len(COLOURS)]


def head(width, height, links):
    """The opening of the picture, with an arrow head for each ring."""
    marks = "".join(
        f'<marker id="to{ring}" viewBox="0 0 8 8" refX="8" refY="4" markerWidth="5" markerHeight="5" orient="auto">'
        f'<path d="M0 0L8 4L0 8z" fill="{colour(ring)}"/></marker>' for ring in sorted({link.ring for link in links}, key=str))
    return (f'<svg xmlns="http://www.w3.org/2000/svg" width="{width:.0f}" height="{height:.0f}" viewBox="0 0 {width:.0f} {height:.0f}" '
            f'font-family="DejaVu Sans Mono, Consolas, monospace" font-size="{SIZE}">\n<defs>{marks}</defs>\n'
            '<rect width="100%" height="100%" fill="#ffffff"/>')


def text_at(x, y, text, ink, size=SIZE):
    """A line of text."""
    return f'<text x="{x:.1f}" y="{y:.1f}" fill="{ink}" font-size="{size}" xml:space="preserve">{escape(text)}</text>'


def legend_of(file, links):
    """Rings and what their colours mean, chains first."""
    drawn = {link.ring for link in links}
    lines = []
    for i, chain in enumerate(file.d.chains):
        master, detail = file.d.type_numbered(chain.master).name, file.d.type_numbered(chain.detail).name
        empty = "" if i in drawn else " (no details)"
        lines.append((i, f"chain {chain.name}: NEXT from {master} round its {detail} records and home{empty}"))
    return lines + ([(CALC, "CALC: from a page's header round the records whose home it is")] if CALC in drawn else [])


def legend_lines(legend):
    """The legend below the title."""
    out = []
    for i, (ring, text) in enumerate(legend):
        y = 58 + 22 * i
        out.append(f'<path d="M{GAP} {y - 4}H{GAP + 36}" stroke="{colour(ring)}" stroke-width="3"/>')
        out.append(text_at(GAP + 48, y, text, INK))
    return out


def lane_names(file, places, y):
    """Each chain's name over its lanes."""
    return [text_at(x - LANE / 2, y, ring_name(file.d, ring), colour(ring)) for ring, x in places.items()]


def box_parts(box, x, width):
    """A page's frame, its rows and their text."""
    height = sum(row.height for row in box)
    out = [f'<rect x="{x}" y="{box[0].top}" width="{width:.1f}" height="{height}" fill="#f9fafb" stroke="{INK}" rx="3"/>']
    for row in box:
        if row.header:
            out.append(f'<rect x="{x}" y="{row.top}" width="{width:.1f}" height="{row.height}" fill="#e5e7eb" stroke="{INK}" rx="3"/>')
        else:
            out.append(f'<path d="M{x} {row.top}h{width:.1f}" stroke="#d1d5db"/>')
        out.append(text_at(x + 12, row.top + row.height / 2 + 4.5, row.text, INK))
    return out


def link_path(link, rows, left, right, places):
    """A link: out of its row to its lane, along it, and to the other row with an arrow head."""
    y1, y2 = height_at(rows[link.start], link, "out"), height_at(rows[link.end], link, "in")
    if link.ring == CALC:
        edge, lane = left, left - GAP / 2 - LANE * (link.lane + 0.5)
    else:
        edge, lane = right, places[link.ring] + LANE * link.lane
    return (f'<path d="M{edge:.1f} {y1:.1f}H{lane:.1f}V{y2:.1f}H{edge:.1f}" fill="none" stroke="{colour(link.ring)}" '
            f'stroke-width="1.6" stroke-linejoin="round" marker-end="url(#to{link.ring})"/>')
