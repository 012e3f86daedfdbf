"""The rules of document 01, "The definition table", tried on types and chains that say where each value stands."""

PRIMARY, SECONDARY, CALCULATED = 0, 1, 2
FIRST, LAST, RISING, FALLING = 0, 1, 2, 3
NO_CHAIN = 65535

CLASSES = ("primary", "secondary", "calculated")
ORDERS = ("first", "last", "rising", "falling")
DUPLICATES = ("first", "last", "refused")

# What document 01 says, by a short name. An error quotes one of these.
RULES = {
    "words": "exactly 3 + 8T + 7C words",
    "pages": "page count N (1 to 128)",
    "types": "type count T (1 to 16)",
    "chains": "chain count C (0 to 16)",
    "number": "number (1 to 999, strictly rising through the table)",
    "length": "data length D (0 to 200)",
    "class": "class (0 primary, 1 secondary, 2 calculated)",
    "range": "lowest and highest page (1 <= low <= high <= N)",
    "via": "a secondary type's via chain is a chain of which it is the detail; otherwise the word is 65535",
    "calc key": "a calculated type's key length is at least 1 and offset + length <= D; otherwise both are 0",
    "defined": "both types are defined",
    "below": "the master's number is below the detail's",
    "order": "order (0 first, 1 last, 2 rising, 3 falling)",
    "prior": "linked prior (0 or 1)",
    "duplicates": "duplicates (0 first among equals, 1 last among equals, 2 refused)",
    "sort key": "for orders 2 and 3 the key has length at least 1 and lies within the detail's D",
    "unsorted": "for orders 0 and 1 the last three words are 0",
}


class Trouble(Exception):
    """Something that the user has to put right; the text is for reading."""


class Broken(Trouble):
    """A rule of document 01 that does not hold, and where."""

    def __init__(self, spot, found, rule):
        self.spot, self.rule = spot, rule
        super().__init__(f"{spot}: {found}\n  broken rule of document 01 (The definition table): {RULES[rule]}")


class Field:
    """A named part of a type's data; `form` is text, number or hex."""

    def __init__(self, name, offset, length, form):
        self.name, self.offset, self.length, self.form = name, offset, length, form


class Type:
    """A type's eight words, its name and fields; `spots` tells where each value was said."""

    def __init__(self, name, spot):
        self.name, self.spots, self.fields = name, {"type": spot}, []
        self.number = self.length = self.kind = self.low = self.high = None
        self.via, self.key_offset, self.key_length = NO_CHAIN, 0, 0

    def words(self):
        """The row of the table."""
        return [self.number, self.length, self.kind, self.low, self.high, self.via, self.key_offset, self.key_length]


class Chain:
    """A chain's seven words and its name; `spots` tells where each value was said."""

    def __init__(self, name, spot):
        self.name, self.spots = name, {"chain": spot}
        self.master = self.detail = self.order = None
        self.prior = self.duplicates = self.key_offset = self.key_length = 0

    def words(self):
        """The row of the table."""
        return [self.master, self.detail, self.order, self.prior, self.duplicates, self.key_offset, self.key_length]

    def is_sorted(self):
        """Whether the order goes by key."""
        return self.order in (RISING, FALLING)


class Definition:
    """Pages, types and chains in table order."""

    def __init__(self):
        self.pages, self.types, self.chains, self.spots = None, [], [], {}

    def words(self):
        """The whole table."""
        rows = [t.words() for t in self.types] + [c.words() for c in self.chains]
        return [self.pages, len(self.types), len(self.chains)] + [word for row in rows for word in row]

    def type_numbered(self, number):
        """The type with this number, or None."""
        return next((t for t in self.types if t.number == number), None)

    def chains_of(self, number):
        """The numbers of the chains in which the type is master or detail."""
        return [i for i, c in enumerate(self.chains) if number in (c.master, c.detail)]


def must(holds, spot, found, rule):
    """Broken, unless the rule holds."""
    if not holds:
        raise Broken(spot, found, rule)


def check(definition):
    """Every rule: counts, numbers, types, chains; the first that is broken is raised."""
    check_counts(definition)
    check_numbers(definition)
    for t in definition.types:
        check_type(definition, t)
    for c in definition.chains:
        check_chain(definition, c)


def check_counts(d):
    """The three counts."""
    must(1 <= d.pages <= 128, d.spots["pages"], f"{d.pages} pages", "pages")
    must(1 <= len(d.types) <= 16, d.spots["types"], f"{len(d.types)} types", "types")
    must(len(d.chains) <= 16, d.spots["chains"], f"{len(d.chains)} chains", "chains")


def check_numbers(d):
    """The types' numbers."""
    below = 0
    for t in d.types:
        must(1 <= t.number <= 999, t.spots["number"], f"type {t.name} has number {t.number}", "number")
        must(below < t.number, t.spots["number"], f"type {t.name} has number {t.number}, after {below}", "number")
        below = t.number


def check_type(d, t):
    """The other rules of one type."""
    at = t.spots
    must(0 <= t.length <= 200, at["length"], f"type {t.name} has {t.length} bytes of data", "length")
    must(t.kind in (PRIMARY, SECONDARY, CALCULATED), at["class"], f"type {t.name} has class {t.kind}", "class")
    must(1 <= t.low <= t.high <= d.pages, at["range"], f"type {t.name} lies on pages {t.low} to {t.high} of {d.pages}", "range")
    must(via_is_right(d, t), at["via"], f"type {t.name} is {CLASSES[t.kind]}, and its via chain is {chain_name(d, t.via)}", "via")
    must(calc_key_is_right(t), at["key"],
         f"type {t.name} is {CLASSES[t.kind]} with {t.length} bytes of data, and its key has offset {t.key_offset}, length {t.key_length}",
         "calc key")


def chain_name(d, number):
    """A via chain in words."""
    if number < len(d.chains):
        return f"{d.chains[number].name}, whose detail is {type_name(d, d.chains[number].detail)}"
    return "none" if number == NO_CHAIN else f"{number}, which is no chain"


def type_name(d, number):
    """A type in words."""
    found = d.type_numbered(number)
    return found.name if found else f"type {number}"


def via_is_right(d, t):
    """Only a secondary type has a via chain, one of which it is the detail."""
    if t.kind != SECONDARY:
        return t.via == NO_CHAIN
    return t.via < len(d.chains) and d.chains[t.via].detail == t.number


def calc_key_is_right(t):
    """Only a calculated type has a key, and it lies within its data."""
    if t.kind != CALCULATED:
        return t.key_offset == 0 and t.key_length == 0
    return t.key_length >= 1 and t.key_offset + t.key_length <= t.length


def check_chain(d, c):
    """The rules of one chain."""
    at = c.spots
    must(d.type_numbered(c.master), at["master"], f"chain {c.name} has master type {c.master}, which is not defined", "defined")
    must(d.type_numbered(c.detail), at["detail"], f"chain {c.name} has detail type {c.detail}, which is not defined", "defined")
    check_below(d, c)
    must(c.order in (FIRST, LAST, RISING, FALLING), at["order"], f"chain {c.name} has order {c.order}", "order")
    must(c.prior in (0, 1), at["prior"], f"chain {c.name} has linked prior {c.prior}", "prior")
    must(c.is_sorted() or c.duplicates == 0, at["duplicates"], f"chain {c.name} has order {ORDERS[c.order]} and duplicates {c.duplicates}", "unsorted")
    must(c.is_sorted() or c.key_offset == c.key_length == 0, at["key"], f"chain {c.name} has order {ORDERS[c.order]} and a key", "unsorted")
    if c.is_sorted():
        length = d.type_numbered(c.detail).length
        must(c.duplicates in (0, 1, 2), at["duplicates"], f"chain {c.name} has duplicates {c.duplicates}", "duplicates")
        must(c.key_length >= 1 and c.key_offset + c.key_length <= length, at["key"],
             f"chain {c.name} has a key of offset {c.key_offset}, length {c.key_length} in {length} bytes of data", "sort key")


def check_below(d, c):
    """The master's number is below the detail's."""
    must(c.master < c.detail, c.spots["detail"],
         f"chain {c.name} goes from {type_name(d, c.master)} ({c.master}) to {type_name(d, c.detail)} ({c.detail})", "below")
