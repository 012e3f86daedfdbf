"""The independent side of a game: its session, the lines that it draws, and what the disk has to hold."""

import copy
from typing import NamedTuple

import draw
import frames
import journal
import layout
import ledger as ledgers
import player
import table as tables
from power import same

# The journal's folder is not the data file's.
DATA, JOURNAL, TABLE, NEXT = "lab/file", "journal", "lab/file.table", "lab/file.next"


class State(NamedTuple):
    """What the disk has to hold between calls: the data file, and the table's line with its end; None while there is no table."""

    data: bytes | None
    line: bytes | None


class Game:
    """The independent session, with the line of its table."""

    def __init__(self, rng):
        self.rng, self.desk, self.line, self.made = rng, player.LedgerDesk(), None, 0
        self.alphabet = rng.choice([(0, 1), (0, 127, 128, 255), tuple(range(256))])

    def play(self, line):
        """The answer; an accepted table's line is kept as it was typed, and the FORMATs done are counted."""
        answer = player.play_line(self.desk, line)
        frame = player.frame_of(line)
        if frame and frame[0] == ledgers.FORMAT and answer.startswith("00"):
            self.line, self.made = line, self.made + 1
        return answer

    def state(self):
        """What the disk has to hold now."""
        if self.line is None:
            return State(None, None)
        return State(layout.write(self.desk.table, self.desk.ledger), (self.line + "\n").encode())

    def kept(self):
        """A copy of the session as it is; nothing in it is ever changed in place."""
        other = copy.copy(self)
        other.desk = copy.copy(self.desk)
        return other

    def started_again(self):
        """A copy of the session with an empty currency."""
        other = self.kept()
        other.desk.currency = ledgers.empty_currency()
        return other

    def call(self, tries):
        """The frame of a call, of several tries one that changes the ledger."""
        desk = self.desk
        for _ in range(tries):
            number, arguments = draw.Hand(self.rng, desk.table, desk.ledger, desk.currency, self.alphabet).call()
            if ledgers.call(desk.table, desk.ledger, desk.currency, number, arguments).ledger is not desk.ledger:
                break
        return draw.frame(number, arguments)

    def drawn(self, tries=5, formats=0.012):
        """A line for the session as it is now: mostly a call, now and then a FORMAT or an odd line."""
        roll = self.rng.random()
        if roll < 0.03:
            return frames.odd_line(self.rng)
        if self.desk.table is None or roll < 0.03 + formats:
            return format_line(self.rng, self.rng.choice([1, 1, 2, 2, 3, 3, 4, 7]))
        return self.call(tries)


def small_table(rng, pages):
    """The words of a table with this many pages, and with a chain."""
    while True:
        words = draw.table(rng)
        if words[2]:
            words[0] = pages
            if tables.broken_rule(words) is None:
                return words


def format_line(rng, pages):
    """A FORMAT as it may be typed."""
    return typed(rng, draw.format_frame(small_table(rng, pages)))


def typed(rng, line):
    """The line with other letter cases and spaces, now and then as long as a line may be."""
    line = draw.loosened(rng, line)
    return line + " " * (player.MOST_CHARACTERS - len(line)) if rng.random() < 0.1 else line


def writes_of(before, after):
    """What a call other than FORMAT writes, by the sessions before and after it."""
    return journal.writes(before.state().data, after.state().data) if before.made else []


def written(some):
    """How much of these writes goes to the journal."""
    return sum(len(write[1]) for write in some if write[0] == journal.APPEND)


def is_whole(line):
    """Whether a kept line, or None, has its line end."""
    return line is not None and line.endswith(b"\n")


def due(files):
    """The state that a start has to leave, and what it has to do for it: the independent recovery."""
    if is_whole(files.get(NEXT)):
        desk = player.LedgerDesk()
        same("answer to the new table", player.play_line(desk, files[NEXT].decode("latin-1")[:-1]), "0" * 16)
        return State(layout.write(desk.table, desk.ledger), files[NEXT]), "FORMAT done again"
    if TABLE not in files:
        return State(None, None), "nothing there"
    disk = journal.Disk(files.get(DATA, b""), files.get(JOURNAL, b""))
    refusal, some = journal.recovery(disk)
    same("refusal of the independent recovery", refusal, 0)
    return State(journal.performed(disk, some).file, files[TABLE]), "put back" if len(some) > 1 else "plain"
