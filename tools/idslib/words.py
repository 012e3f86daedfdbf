"""Table words: hexadecimal text to words, words to a Definition with made-up names, and back to text."""

from idslib.rules import Broken, Chain, Definition, Trouble, Type, check

TYPE_WORDS = (("number", "number"), ("length", "length"), ("kind", "class"), ("low", "range"), ("high", "range"),
              ("via", "via"), ("key_offset", "key"), ("key_length", "key"))
CHAIN_WORDS = (("master", "master"), ("detail", "detail"), ("order", "order"), ("prior", "prior"),
               ("duplicates", "duplicates"), ("key_offset", "key"), ("key_length", "key"))


def parse(text):
    """The words of hexadecimal text: table words, or a frame 00 (an odd number of bytes)."""
    digits = "".join("".join(line.split("#")[0].split()) for line in text.splitlines())
    try:
        data = bytes.fromhex(digits)
    except ValueError:
        raise Trouble("the words are not hexadecimal, or their digits are odd in number") from None
    if len(data) % 2 == 1:
        if data[0] != 0:
            raise Trouble(f"an odd number of bytes is a frame, and this one is call {data[0]:02X}, not 00")
        data = data[1:]
    return [data[at] * 256 + data[at + 1] for at in range(0, len(data), 2)]


def definition(words):
    """The Definition that the words say; spots are word numbers, from 0."""
    if len(words) < 3:
        raise Broken("the words", f"{len(words)} words, too few for the three counts", "words")
    d, (pages, types, chains) = Definition(), words[:3]
    d.pages, d.spots = pages, {"pages": "word 0", "types": "word 1", "chains": "word 2"}
    for holds, spot, text, rule in ((1 <= pages <= 128, "word 0", f"{pages} pages", "pages"),
                                    (1 <= types <= 16, "word 1", f"{types} types", "types"),
                                    (chains <= 16, "word 2", f"{chains} chains", "chains")):
        if not holds:
            raise Broken(spot, text, rule)
    whole = 3 + 8 * types + 7 * chains
    if len(words) != whole:
        raise Broken("the words", f"{len(words)} words, where {types} types and {chains} chains make {whole}", "words")
    for i in range(types):
        d.types.append(filled(Type(f"type{words[3 + 8 * i]}", f"word {3 + 8 * i}"), words, 3 + 8 * i, TYPE_WORDS))
    for j in range(chains):
        at = 3 + 8 * types + 7 * j
        d.chains.append(filled(Chain(f"chain{j}", f"word {at}"), words, at, CHAIN_WORDS))
    check(d)
    return d


def filled(one, words, at, row):
    """A type or chain with its row of words and their spots."""
    for place, (name, spot) in enumerate(row):
        setattr(one, name, words[at + place])
        first = one.spots.get(spot)
        one.spots[spot] = f"words {at + place - 1} and {at + place}" if first else f"word {at + place}"
    return one


def text(d):
    """The words as hexadecimal, a row a line."""
    rows = [[d.pages, len(d.types), len(d.chains)]] + [t.words() for t in d.types] + [c.words() for c in d.chains]
    notes = ["pages, types, chains"] + [f"type {t.name}" for t in d.types] + [f"chain {i}, {c.name}" for i, c in enumerate(d.chains)]
    lines = [" ".join(f"{word:04X}" for word in row) for row in rows]
    width = max(map(len, lines))
    return "".join(f"{line:{width}}  # {note}\n" for line, note in zip(lines, notes))


def frame(d):
    """The frame 00 that formats a file under this table."""
    return "00 " + " ".join(f"{word:04X}" for word in d.words())
