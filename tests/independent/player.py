"""The frame player: lines of hexadecimal in, one line of answer each.

    python3 player.py < frames                   keeps a ledger between calls
    python3 player.py --through-bytes < frames   plays each call on file bytes
"""

import string
import sys

import ledger as ledgers
import store
import table as tables
from ledger import (BAD_TABLE, CURRENT, DELETE, DIRECT, EACH, FIND, FORMAT, KEY, MASTER,
                    MODIFY, NEXT, PRIOR, READ, RELINK, STORE, Answer)

MOST_CHARACTERS = 1100
BAD_LINE = "FF"

# Argument widths in bytes: types 2, chains 1, codes 3; REST goes to the end.
REST = None
SHAPES = {
    STORE: (2, REST), DIRECT: (3,), KEY: (2, REST), NEXT: (1,), PRIOR: (1,),
    MASTER: (1,), EACH: (3, 3), MODIFY: (REST,), DELETE: (), READ: (),
    CURRENT: (2,), FIND: (1, REST), RELINK: (1, 3),
}


# Lines and frames


def lines_of(text):
    """The lines of the input; the last needs no line end."""
    lines = text.split("\n")
    if lines[-1] == "":
        lines.pop()
    return lines


def bytes_of(line):
    """The frame's bytes, or None for a bad line."""
    if len(line) > MOST_CHARACTERS:
        return None
    digits = line.replace(" ", "")
    if digits == "" or len(digits) % 2 == 1:
        return None
    if any(digit not in string.hexdigits for digit in digits):
        return None
    return bytes.fromhex(digits)


def frame_of(line):
    """(call, arguments) of a well-made line, else None."""
    data = bytes_of(line)
    if data is None:
        return None
    number, rest = data[0], data[1:]
    if number == FORMAT:
        arguments = words_of(rest)
    elif number in SHAPES:
        arguments = split(SHAPES[number], rest)
    else:
        # An unknown call is well made with any whole number of bytes.
        arguments = ()
    return None if arguments is None else (number, arguments)


def words_of(data):
    """FORMAT's arguments: 16-bit words, or None for an odd number of bytes."""
    if len(data) % 2 == 1:
        return None
    return tuple(data[at] * 256 + data[at + 1] for at in range(0, len(data), 2))


def split(shape, data):
    """The arguments by their widths, or None for a wrong number of bytes."""
    arguments = []
    for width in shape:
        if width is REST:
            arguments.append(data)
            data = b""
        elif len(data) < width:
            return None
        else:
            arguments.append(int.from_bytes(data[:width], "big"))
            data = data[width:]
    return None if data else tuple(arguments)


def line_out(answer, data):
    """Code, reference code, type, count and READ's data, in capitals."""
    head = f"{answer.code:02X}{answer.reference:06X}{answer.type:04X}{answer.count:04X}"
    return head + (data or b"").hex().upper()


# The two ways to play


class LedgerDesk:
    """Keeps table, ledger and currency between calls."""

    def __init__(self):
        self.table = None

    def format(self, words):
        """A refused table changes nothing."""
        if tables.broken_rule(words) is not None:
            return Answer(BAD_TABLE)
        self.table = tables.read(words)
        self.ledger = ledgers.empty_ledger(self.table)
        self.currency = ledgers.empty_currency()
        return Answer(0)

    def call(self, number, arguments):
        """Until a table is accepted every call answers 01."""
        if self.table is None:
            return Answer(BAD_TABLE), None
        outcome = ledgers.call(self.table, self.ledger, self.currency, number, arguments)
        self.ledger, self.currency = outcome.ledger, outcome.currency
        return outcome.answer, outcome.data


class BytesDesk:
    """Keeps table words, file bytes and currency, and plays through the store."""

    def __init__(self):
        self.words, self.file = (), b""
        self.currency = ledgers.empty_currency()

    def format(self, words):
        """Formats a new file of the table's size, whatever it held before."""
        pages = words[0] if words and words[0] <= tables.MOST_PAGES else 0
        new_file = b"\xA5" * (512 * pages)
        answer, file, currency, _ = store.call(
            words, new_file, self.currency, FORMAT, (), b"")
        if answer.code == 0:
            self.words, self.file, self.currency = words, file, currency
        return answer

    def call(self, number, arguments):
        """The empty table held at first makes every call answer 01."""
        output = bytes(tables.MOST_DATA)
        answer, self.file, self.currency, output = store.call(
            self.words, self.file, self.currency, number, arguments, output)
        if number != READ or answer.code != 0:
            return answer, None
        length = tables.type_numbered(tables.read(self.words), answer.type).length
        return answer, output[:length]


def play_line(desk, line):
    """One line's answer."""
    frame = frame_of(line)
    if frame is None:
        return BAD_LINE
    number, arguments = frame
    if number == FORMAT:
        return line_out(desk.format(arguments), None)
    return line_out(*desk.call(number, arguments))


def play(text, through_bytes=False):
    """All of standard output for all of standard input."""
    desk = BytesDesk() if through_bytes else LedgerDesk()
    return "".join(play_line(desk, line) + "\n" for line in lines_of(text))


def main():
    """Any byte is one character, so no input stops the player."""
    text = sys.stdin.buffer.read().decode("latin-1")
    sys.stdout.write(play(text, "--through-bytes" in sys.argv[1:]))


if __name__ == "__main__":
    main()
