"""Definition files: readable text to a Definition, and a Definition to text.

    pages 2                            # how many pages the file has

    type rack 10                       # a name of your own, and the type's number
      data 2                           # bytes of data
      class calculated by name         # or: by OFFSET LENGTH; primary; secondary via CHAIN
      pages 1 to 2                     # all pages where it is not said
      field name 0 2 text              # offset, length; text, number or hex (hex where it is not said)

    chain boards
      master rack
      detail board
      order rising by slot             # first; last; rising or falling by FIELD, or by OFFSET LENGTH
      duplicates refused               # first, last, refused; only of a sorted chain
      prior yes                        # no where it is not said
"""

import re

from idslib.rules import (CALCULATED, CLASSES, DUPLICATES, ORDERS, PRIMARY, SECONDARY, Broken, Chain,
                          Definition, Field, Trouble, Type, check, check_below,
                          check_counts, check_numbers)

NAME = re.compile(r"[A-Za-z][A-Za-z0-9_-]*$")
FORMS = ("text", "number", "hex")


def bad(spot, text):
    """A line that cannot be read."""
    return Trouble(f"{spot}: {text}")


class Reader:
    """Reads the lines one after another; names are looked up when all are read."""

    def __init__(self, name):
        self.file, self.d, self.here, self.said = name, Definition(), None, set()
        self.ends, self.later = [], []  # what is looked up at the end: the types of chains, then all else

    def line(self, number, text):
        """One line: pages, a new type or chain, or a part of the one begun last."""
        spot, words = f"{self.file} line {number}", text.split("#")[0].split()
        if not words:
            return
        if words[0] in ("type", "chain"):
            self.begin(spot, words)
        elif words[0] == "pages" and self.here is None:
            self.once(spot, words[0])
            self.d.pages, self.d.spots["pages"] = whole(spot, words, 1, 2), spot
        elif self.here is None:
            raise bad(spot, f"'{words[0]}' stands before any type or chain; there only 'pages N' can stand")
        else:
            self.part(spot, words)

    def begin(self, spot, words):
        """`type NAME NUMBER` or `chain NAME`."""
        kind, held = words[0], self.d.types if words[0] == "type" else self.d.chains
        if len(words) != (3 if kind == "type" else 2) or not NAME.match(words[1]):
            raise bad(spot, "say 'type NAME NUMBER'" if kind == "type" else "say 'chain NAME'")
        if any(one.name == words[1] for one in held):
            raise bad(spot, f"there is a {kind} {words[1]} already")
        self.said = set()
        self.here = Type(words[1], spot) if kind == "type" else Chain(words[1], spot)
        if kind == "type":
            self.here.number = whole(spot, words, 2, 3)
        held.append(self.here)
        # Where a part is not said, an error names the line that begins the type or chain.
        for part in ("number", "length", "class", "range", "via", "key", "master", "detail", "order", "prior", "duplicates"):
            self.here.spots[part] = spot
        self.d.spots[kind + "s"] = spot

    def once(self, spot, word):
        """A part is said once."""
        if word in self.said:
            raise bad(spot, f"'{word}' is said twice")
        self.said.add(word)

    def part(self, spot, words):
        """A part of the type or chain begun last."""
        parts = TYPE_PARTS if isinstance(self.here, Type) else CHAIN_PARTS
        if words[0] not in parts:
            kind = "type" if isinstance(self.here, Type) else "chain"
            raise bad(spot, f"'{words[0]}' is no part of a {kind}; the parts are {', '.join(parts)}")
        if words[0] != "field":
            self.once(spot, words[0])
        parts[words[0]](self, self.here, spot, words)

    def finish(self):
        """Looks up names, fills in what is not said, and tries the rules."""
        d, end = self.d, f"{self.file} (end)"
        if d.pages is None:
            raise bad(end, "'pages N' is missing")
        d.spots.setdefault("types", end)
        d.spots.setdefault("chains", end)
        for one in d.types:
            one.low, one.high = (1, d.pages) if one.low is None else (one.low, one.high)
            needed(one, one.spots["type"], data=one.length, **{"class": one.kind})
        for one in d.chains:
            needed(one, one.spots["chain"], master=one.master, detail=one.detail, order=one.order)
        for step in self.ends:
            step()
        check_counts(d)
        check_numbers(d)
        check_fields(d)
        for one in d.chains:
            check_below(d, one)
        for step in self.later:
            step()
        check(d)
        return d


def needed(one, spot, **parts):
    """Parts that have to be said."""
    for name, value in parts.items():
        if value is None:
            raise bad(spot, f"{one.name} has no '{name}'")


def whole(spot, words, place, count):
    """The whole number at a place of a line of `count` words."""
    if len(words) != count or not words[place].isdigit():
        raise bad(spot, f"'{' '.join(words)}' needs a whole number as word {place + 1} and has {count} words")
    return int(words[place])


def choice(spot, word, names, rule):
    """The number of a name; another name breaks the rule."""
    if word not in names:
        raise Broken(spot, f"'{word}' is none of {', '.join(names)}", rule)
    return names.index(word)


# The parts of a type


def part_data(reader, t, spot, words):
    """data LENGTH"""
    t.length, t.spots["length"] = whole(spot, words, 1, 2), spot


def part_range(reader, t, spot, words):
    """pages LOW to HIGH"""
    if len(words) != 4 or words[2] != "to" or not (words[1] + words[3]).isdigit():
        raise bad(spot, "say 'pages LOW to HIGH'")
    t.low, t.high, t.spots["range"] = int(words[1]), int(words[3]), spot


def part_class(reader, t, spot, words):
    """class primary | secondary via CHAIN | calculated by KEY"""
    kind = choice(spot, words[1] if len(words) > 1 else "", CLASSES, "class")
    t.kind = kind
    for place in ("class", "via", "key"):
        t.spots[place] = spot
    rest = words[2:]
    if kind == PRIMARY and rest:
        raise Broken(spot, f"a primary type has neither '{rest[0]}' nor a key", "calc key" if rest[0] == "by" else "via")
    if kind == SECONDARY:
        if len(rest) != 2 or rest[0] != "via":
            raise Broken(spot, "say 'class secondary via CHAIN'", "via")
        reader.later.append(lambda: look_up_via(reader.d, t, spot, rest[1]))
    if kind == CALCULATED:
        if rest[:1] != ["by"]:
            raise Broken(spot, "say 'class calculated by FIELD' or 'by OFFSET LENGTH'", "calc key")
        reader.later.append(lambda: set_key(t, t, spot, rest[1:], "calc key"))


def look_up_via(d, t, spot, name):
    """The via chain's number."""
    names = [c.name for c in d.chains]
    if name not in names:
        raise Broken(spot, f"there is no chain {name}", "via")
    t.via = names.index(name)


def set_key(owner, t, spot, words, rule):
    """A key by field name, or by offset and length."""
    owner.spots["key"] = spot
    if len(words) == 2 and all(word.isdigit() for word in words):
        owner.key_offset, owner.key_length = int(words[0]), int(words[1])
        return
    field = next((f for f in t.fields if [f.name] == words), None)
    if field is None:
        raise Broken(spot, f"'{' '.join(words)}' is neither a field of {t.name} nor OFFSET LENGTH", rule)
    owner.key_offset, owner.key_length = field.offset, field.length


def part_field(reader, t, spot, words):
    """field NAME OFFSET LENGTH [text|number|hex]"""
    form = words[4] if len(words) == 5 else "hex"
    if len(words) not in (4, 5) or not NAME.match(words[1]) or not (words[2] + words[3]).isdigit() or form not in FORMS:
        raise bad(spot, "say 'field NAME OFFSET LENGTH', and then text, number, hex or nothing")
    if words[1] in ("data", "key") or any(f.name == words[1] for f in t.fields):
        raise bad(spot, f"the name {words[1]} is taken")
    field = Field(words[1], int(words[2]), int(words[3]), form)
    field.spot = spot
    t.fields.append(field)


def check_fields(d):
    """Fields are of our own making; each lies within its type's data."""
    for t in d.types:
        for f in t.fields:
            if f.length < 1 or f.offset + f.length > t.length:
                raise bad(f.spot, f"field {f.name} does not lie within the {t.length} bytes of data of {t.name}")


# The parts of a chain


def part_end(reader, c, spot, words):
    """master TYPE | detail TYPE"""
    if len(words) != 2:
        raise bad(spot, f"say '{words[0]} TYPE'")
    setattr(c, words[0], -1)
    c.spots[words[0]] = spot
    reader.ends.append(lambda: look_up_type(reader.d, c, spot, words))


def look_up_type(d, c, spot, words):
    """The number of the master or detail type."""
    found = next((t for t in d.types if t.name == words[1]), None)
    if found is None:
        raise Broken(spot, f"there is no type {words[1]}", "defined")
    setattr(c, words[0], found.number)
    if words[0] == "detail":
        c.detail_type = found


def part_order(reader, c, spot, words):
    """order first | last | rising by KEY | falling by KEY"""
    c.order, c.spots["order"] = choice(spot, words[1] if len(words) > 1 else "", ORDERS, "order"), spot
    if not c.is_sorted():
        if words[2:]:
            raise Broken(spot, f"a chain with order {words[1]} has no key", "unsorted")
    elif words[2:3] != ["by"]:
        raise Broken(spot, f"say 'order {words[1]} by FIELD' or 'by OFFSET LENGTH'", "sort key")
    else:
        reader.later.append(lambda: set_key(c, c.detail_type, spot, words[3:], "sort key"))
        reader.later.append(lambda: must_say_duplicates(c))


def must_say_duplicates(c):
    """A sorted chain says what becomes of equal keys."""
    if c.spots["duplicates"] == c.spots["chain"]:
        raise Broken(c.spots["chain"], f"chain {c.name} is sorted and does not say duplicates first, last or refused", "duplicates")


def part_prior(reader, c, spot, words):
    """prior yes | no"""
    c.prior, c.spots["prior"] = choice(spot, " ".join(words[1:]), ("no", "yes"), "prior"), spot


def part_duplicates(reader, c, spot, words):
    """duplicates first | last | refused"""
    c.duplicates, c.spots["duplicates"] = choice(spot, " ".join(words[1:]), DUPLICATES, "duplicates"), spot
    reader.later.append(lambda: no_duplicates_unsorted(c, spot))


def no_duplicates_unsorted(c, spot):
    """Only a sorted chain says duplicates."""
    if not c.is_sorted():
        raise Broken(spot, f"chain {c.name} is not sorted and says duplicates", "unsorted")


TYPE_PARTS = {"data": part_data, "class": part_class, "pages": part_range, "field": part_field}
CHAIN_PARTS = {"master": part_end, "detail": part_end, "order": part_order, "duplicates": part_duplicates, "prior": part_prior}


# Reading and writing


def read(text, name):
    """The Definition of a definition file's text."""
    reader = Reader(name)
    for number, line in enumerate(text.splitlines(), 1):
        reader.line(number, line)
    return reader.finish()


def write(d):
    """A definition file's text."""
    blocks = [[f"pages {d.pages}"]] + [type_lines(d, t) for t in d.types] + [chain_lines(d, c) for c in d.chains]
    return "\n\n".join("\n".join(block) for block in blocks) + "\n"


def type_lines(d, t):
    """A type as text."""
    tails = {PRIMARY: "", SECONDARY: "", CALCULATED: f" by {key_text(t, t)}"}
    if t.kind == SECONDARY:
        tails[SECONDARY] = f" via {d.chains[t.via].name}"
    lines = [f"type {t.name} {t.number}", f"  data {t.length}", f"  class {CLASSES[t.kind]}{tails[t.kind]}", f"  pages {t.low} to {t.high}"]
    return lines + [f"  field {f.name} {f.offset} {f.length} {f.form}" for f in t.fields]


def chain_lines(d, c):
    """A chain as text."""
    detail = d.type_numbered(c.detail)
    lines = [f"chain {c.name}", f"  master {d.type_numbered(c.master).name}", f"  detail {detail.name}"]
    if c.is_sorted():
        lines += [f"  order {ORDERS[c.order]} by {key_text(c, detail)}", f"  duplicates {DUPLICATES[c.duplicates]}"]
    else:
        lines += [f"  order {ORDERS[c.order]}"]
    return lines + [f"  prior {'yes' if c.prior else 'no'}"]


def key_text(owner, t):
    """A key by the name of the field that it is, else by offset and length."""
    for f in t.fields:
        if (f.offset, f.length) == (owner.key_offset, owner.key_length):
            return f.name
    return f"{owner.key_offset} {owner.key_length}"
