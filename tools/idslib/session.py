"""A session by name: a line such as `store board slot=3` becomes a frame, and the answer a sentence."""

import re
import shlex

from idslib import values
from idslib.rules import CALCULATED, RISING, Trouble

CALLS = {"store": 1, "direct": 2, "key": 3, "next": 4, "prior": 5, "master": 6, "each": 7, "modify": 8, "delete": 9,
         "read": 10, "current": 11, "find": 12, "relink": 13}

HELP = """\
store TYPE FIELD=VALUE ..    put a record in, under the current masters
direct CODE                  go to a record by its reference code
key TYPE FIELD=VALUE ..      go to a calculated record by its key
current TYPE                 go to the type's current record
find CHAIN FIELD=VALUE ..    go to the first detail with that key in the chain's occurrence
next, prior, master CHAIN    go round the chain's ring
each FIRST LAST              go to the record with the lowest code in this range
read                         show the current record's data
modify FIELD=VALUE ..        change fields of the current record
relink CHAIN CODE            put the current record under another master
delete                       delete the current record and all below it
frame HEX                    a frame as it is
CODE is six hexadecimal digits (000042), a decimal number (66), or PAGE.LINE (1.2).
A value has quotes where it has spaces. data=HEX gives all of the data, key=HEX a key, 0x.. any field.
A type or chain may be its number. '#' begins a remark. At the prompt, 'quit' ends."""


class Call:
    """A call ready to be played: its line, name, frame, and the type and chain that it names (or None)."""

    def __init__(self, line, name, frame, kind=None, chain=None):
        self.line, self.name, self.frame, self.kind, self.chain = line, name, frame, kind, chain


class Answer:
    """The parts of an answer line."""

    def __init__(self, line):
        self.line, self.bad = line, line == "FF"
        if not self.bad:
            self.code, self.reference = int(line[0:2], 16), int(line[2:8], 16)
            self.type, self.count, self.data = int(line[8:12], 16), int(line[12:16], 16), bytes.fromhex(line[16:])


# Lines to calls


def words_of(line):
    """The words of a line without its remark."""
    try:
        return shlex.split(line, comments=True)
    except ValueError as error:
        raise Trouble(f"the line cannot be read: {error}") from None


def needs_record(words):
    """Whether the frame can be made only when the current record is known: MODIFY by field."""
    return words[:1] == ["modify"] and not all(word.startswith("data=") for word in words[1:])


def call_of(d, words, line, record=None):
    """The call that a line's words say; `record` is the current one's type and data, for MODIFY by field."""
    name, rest = words[0].lower(), words[1:]
    if name == "frame":
        if "".join(rest).startswith("00"):
            raise Trouble("a session keeps one definition; frame 00 would begin another")
        return Call(line, "frame", " ".join(rest))
    if name not in CALLS:
        raise Trouble(f"there is no call '{words[0]}'; the calls are {', '.join(CALLS)}, frame")
    first, tail, kind, chain = f"{CALLS[name]:02X}", "", None, None
    if name in ("store", "key", "current"):
        number, kind = type_said(d, name, rest)
        tail = f"{number:04X}"
    elif name in ("next", "prior", "master", "find", "relink"):
        number, chain = chain_said(d, name, rest)
        tail = f"{number:02X}"
    data = arguments(d, name, rest, kind, chain, record)
    return Call(line, name, " ".join(part for part in (first, tail, *data) if part), kind, chain)


def arguments(d, name, rest, kind, chain, record):
    """The rest of a call's frame, part by part."""
    if name == "store":
        return [hexed(values.data_of(kind or NOTHING, pairs_of(rest[1:])))]
    if name == "key":
        return [hexed(key_said(kind, kind, rest[1:]))]
    if name == "find":
        return [hexed(key_said(chain, chain and d.type_numbered(chain.detail), rest[1:]))]
    if name == "modify":
        return [hexed(modified(pairs_of(rest), record))]
    counts = {"direct": 1, "each": 2, "relink": 2, "next": 1, "prior": 1, "master": 1, "current": 1, "delete": 0, "read": 0}
    if len(rest) != counts[name]:
        raise Trouble(f"'{name}' takes {counts[name]} words, and {len(rest)} are given; 'ids play --calls' lists the calls")
    codes = rest[1:] if name == "relink" else rest if name in ("direct", "each") else []
    return [f"{code_said(word):06X}" for word in codes]


class Nothing:
    """Stands for a type that the definition has not: it has no fields."""

    name, length, fields = "that type", 0, []


NOTHING = Nothing()


def hexed(data):
    """Bytes as a frame has them."""
    return data.hex().upper()


def modified(pairs, record):
    """MODIFY's data: all of it given, or fields laid over the current record's data."""
    if "data" in pairs or record is None:
        if pairs and "data" not in pairs:
            return b""  # no current record: the call is refused 6 whatever the data
        return values.data_of(NOTHING, pairs)
    return values.data_of(record[0], pairs, record[1])


def key_said(owner, t, rest):
    """The key of KEY or FIND; of a type or chain that has no key only key=HEX, so that the refusal can be seen."""
    pairs = pairs_of(rest)
    if owner is None or owner.key_length == 0:
        return values.from_hex(pairs["key"]) if "key" in pairs else b""
    if not pairs:
        raise Trouble("a key is missing: say FIELD=VALUE or key=HEX")
    return values.key_of(t, owner, pairs)


def pairs_of(words):
    """FIELD=VALUE words as a dictionary."""
    pairs = {}
    for word in words:
        name, sign, value = word.partition("=")
        if not sign or name in pairs:
            raise Trouble(f"'{word}' is said twice" if sign else f"'{word}' is not FIELD=VALUE")
        pairs[name] = value
    return pairs


def type_said(d, name, rest):
    """The number and the type that a word names; a number need not be defined."""
    return said(name, rest, "type", {t.name: (t.number, t) for t in d.types}, 65535)


def chain_said(d, name, rest):
    """The number and the chain that a word names; a number need not be defined."""
    return said(name, rest, "chain", {c.name: (i, c) for i, c in enumerate(d.chains)}, 255)


def said(name, rest, what, known, most):
    """Looks a type or chain up by name or number."""
    if not rest:
        raise Trouble(f"'{name}' needs a {what}: {', '.join(known) or 'there is none'}")
    if rest[0] in known:
        return known[rest[0]]
    if rest[0].isdigit() and int(rest[0]) <= most:
        number = int(rest[0])
        return number, next((one for held, one in known.values() if held == number), None)
    raise Trouble(f"there is no {what} '{rest[0]}'; the {what}s are {', '.join(known) or 'none'}")


def code_said(word):
    """A reference code: six hexadecimal digits, a decimal number, or PAGE.LINE."""
    if re.fullmatch(r"[0-9A-Fa-f]{6}", word):
        return int(word, 16)
    if re.fullmatch(r"\d+\.\d+", word):
        page, line = map(int, word.split("."))
        if line > 63:
            raise Trouble(f"'{word}': lines go from 1 to 63")
        code = 64 * page + line
    elif word.isdigit():
        code = int(word)
    else:
        raise Trouble(f"'{word}' is no code; say six hexadecimal digits, a decimal number or PAGE.LINE")
    if code > 0xFFFFFF:
        raise Trouble(f"'{word}' is over three bytes")
    return code


# Answers to sentences


def place(code):
    """A reference code in words."""
    return f"{code:06X} (page {code // 64} line {code % 64})"


def sentence(d, call, answer):
    """What an answer says, in plain words."""
    if answer.bad:
        return "FF: the line is no frame, or has the wrong number of argument bytes; nothing was done"
    if answer.code:
        return f"refused {answer.code}: {refusal(d, call, answer.code)}"
    found = d.type_numbered(answer.type)
    record = f"{found.name if found else 'type ' + str(answer.type)} {place(answer.reference)}"
    return done(call, answer, found, record)


def done(call, answer, found, record):
    """The sentence for a call that was done."""
    if call.name == "read" or answer.data:
        return f"{record}: {values.shown(found, answer.data)}"
    if call.name == "delete":
        below = answer.count - 1
        return f"deleted {record}, and {below or 'no'} record{'' if below == 1 else 's'} below it: {answer.count} in all"
    if call.name in ("next", "prior", "master"):
        return moved(call, answer, record)
    if call.name in ("key", "find"):
        where = "CALC ring" if call.name == "key" else f"ring of {call.chain.name}"
        return f"found {record}, number {answer.count} in its {where}"
    verbs = {"store": "stored", "modify": "changed", "relink": "moved", "direct": "now at", "each": "now at", "current": "now at"}
    if call.name == "frame":
        return "done" if not answer.reference else f"done: {record}, count {answer.count}"
    tail = f" to its place in {call.chain.name}" if call.name == "relink" else ""
    return f"{verbs[call.name]} {record}{tail}"


def moved(call, answer, record):
    """The sentence for a step round a ring."""
    if call.name == "master":
        return f"the master in {call.chain.name} is {record}"
    home = answer.type == call.chain.master
    return f"{call.name} in {call.chain.name} is {'the master, home again: ' if home else ''}{record}"


def refusal(d, call, code):
    """A refusal in plain words, with what to look at."""
    if code in (5, 6, 7, 8, 9, 10):
        return {5: no_such, 6: no_current, 7: wrong_kind, 8: wrong_length, 9: no_record, 10: duplicate}[code](d, call)
    return {
        1: "the definition table breaks a rule, or no table was accepted yet; look at the definition ('ids table' names line and rule)",
        2: "the file is not 512 bytes for each page of the table; look at whether file and definition belong together",
        3: "the file is not sound; look at it with 'ids show', and go back to a copy that is sound",
        4: "the currency breaks its rule; an entry names no present record, or one of a wrong type",
        11: "no page in the type's range has the room and a free line; look at the free bytes of its pages ('ids show'), or delete",
        12: "the output is shorter than the record's data; give READ room for the type's data length",
    }.get(code, "a number that document 01 does not have")


def no_such(d, call):
    """Refusal 5."""
    if call.name in ("store", "key", "current"):
        return f"there is no such type; look at the definition's types: {', '.join(f'{t.name} {t.number}' for t in d.types)}"
    if call.chain is None and call.name != "frame":
        return f"there is no such chain; look at the definition's chains: {', '.join(c.name for c in d.chains) or 'none'}"
    return "there is no such call, type or chain; look at the frame's first bytes"


def no_current(d, call):
    """Refusal 6."""
    if call.name == "current":
        return f"no {call.kind.name} is current yet, or it was deleted; go to one first (direct, key, find, each)"
    if call.chain is not None and call.name != "relink":
        return f"chain {call.chain.name} has no current record; go to a master or detail of it first"
    if call.name == "store" and call.kind:
        chains = ", ".join(c.name for c in d.chains if c.detail == call.kind.number)
        return f"a chain in which {call.kind.name} is detail has no current record; go to a master in each of: {chains}"
    return "the run has no current record (none yet, or it was deleted); go to one first (direct, key, find, each, next)"


def wrong_kind(d, call):
    """Refusal 7."""
    if call.name == "key" and call.kind:
        names = ", ".join(t.name for t in d.types if t.kind == CALCULATED) or "none"
        return f"{call.kind.name} is not a calculated type, so KEY cannot find it; calculated types: {names}"
    if call.name == "find" and call.chain:
        names = ", ".join(c.name for c in d.chains if c.order >= RISING) or "none"
        return f"chain {call.chain.name} is not sorted, so FIND has no key; sorted chains: {names}"
    if call.name == "relink" and call.chain:
        return f"the current record is not a {d.type_numbered(call.chain.detail).name}, the detail of {call.chain.name}; look at 'read'"
    return "KEY of a type not calculated, FIND in an unsorted chain, or RELINK of a record not the chain's detail"


def wrong_length(d, call):
    """Refusal 8."""
    if call.name == "store" and call.kind:
        return f"the data has another length than defined; {call.kind.name} has {call.kind.length} bytes"
    owner = call.kind or call.chain
    if owner and call.name in ("key", "find"):
        return f"the key has another length than defined; it has {owner.key_length} bytes at offset {owner.key_offset}"
    return "the data or key has another length than defined; look at the type's data length"


def no_record(d, call):
    """Refusal 9."""
    texts = {
        "direct": "no record has this code; look at page and line ('ids show' lists the codes)",
        "key": "no record of this type has this key; look at the value, and at spaces and zeros in it",
        "find": "no detail in the chain's occurrence has this key; look at whether the chain's current record is under the master you mean",
        "each": "no record has a code from the first to the last, or the first is above the last",
        "relink": "no record has this code, or it is not of the chain's master type; look at the code",
    }
    return texts.get(call.name, "there is no such record")


def duplicate(d, call):
    """Refusal 10."""
    if call.name == "relink" and call.chain:
        return f"that master has a detail in {call.chain.name} with the same key, and its duplicates are refused; look at it with 'find'"
    types = [call.kind] if call.kind else []
    calc = [f"the CALC key of {t.name}" for t in types if t.kind == CALCULATED]
    keys = [f"the key in chain {c.name}" for t in types for c in d.chains if c.detail == t.number and c.is_sorted() and c.duplicates == 2]
    return "a forbidden duplicate would stand; look at " + (" or ".join(calc + keys) or "the keys that were changed")
