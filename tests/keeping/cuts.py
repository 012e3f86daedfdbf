"""Power cuts: all that keeper does to its files is logged (cuts.c), and keeper is started on the disks that a cut may leave."""

import copy
from typing import NamedTuple

import draw
import journal
from power import same

from .disk import Disk, Op
from .game import DATA, JOURNAL, NEXT, Game, due, format_line, small_table, writes_of, written

# Disks at least, frames under each table, and how many disks are cut again or gone on with.
DISKS, CALLS, PAGE_COUNTS = 1500, 12, (1, 3, 2)
AGAIN, AGAIN_PLAIN, GOES_ON = 0.6, 0.04, 0.015
# The journal is emptied when a call leaves it longer than this.
LONG = 65536


class Logged(NamedTuple):
    """A logged run: the files before it, its operations, and the states before it and after each of its calls."""

    files: dict
    ops: list
    states: list
    sessions: list


def logged_run(keeper, files, game, lines):
    """A run of these lines on these files; its answers, its order of writes and its end are those due."""
    keeper.put(files)
    sessions, wanted = [game.kept()], []
    for line in lines:
        wanted.append(game.play(line))
        sessions.append(game.kept())
    ops, out = keeper.logged("".join(line + "\n" for line in lines))
    same("answers of a logged run", out.splitlines(), wanted)
    run = Logged(files, ops, [session.state() for session in sessions], sessions)
    check_syncs(keeper, run)
    return run


def is_answer(op):
    """Whether an operation prints."""
    return op.path == "stdout"


def check_syncs(keeper, run):
    """Each write to data file or journal has reached the disk before the next one; all have before an answer, and at the end."""
    disk = Disk(run.files)
    for at, op in enumerate(run.ops):
        keeper.story["operation"] = at, op
        if is_answer(op):
            same("not synced before an answer", disk.waiting, [])
            continue
        if op.path in (DATA, JOURNAL) and op.kind in ("write", "truncate"):
            before = [other for other, _ in disk.waiting if other.path in (DATA, JOURNAL) and other.kind != "make"]
            # FORMAT empties the data file and writes it whole.
            if op.path != DATA or op.kind != "write" or before[:1] != [Op("truncate", DATA, 0, b"")]:
                same("not synced before a write", before, [])
        disk.do(op)
    same("not synced at the end", disk.waiting, [])
    same("files by the log", disk.whole(), keeper.files())


def check_writes(keeper, run):
    """The writes of each call are those of the independent journal; FORMAT, and a call that leaves it long, empties it."""
    length, told, calls = 0, [], zip(run.sessions, run.sessions[1:])
    for op in run.ops:
        if op.path in (DATA, JOURNAL) and op.kind in ("write", "truncate"):
            told.append(as_write(op))
        if not is_answer(op):
            continue
        before, after = next(calls)
        if before.made != after.made:
            want, told, length = [(journal.CLEAR,)], told[:1], 0
        else:
            want = writes_of(before, after)
            length += written(want)
        if length > LONG:
            want, length = want + [(journal.CLEAR,)], 0
            keeper.seen["emptied when long"] += 1
        same(f"writes before answer {op.data}", told, want)
        told = []


def as_write(op):
    """An operation on the data file or the journal as a write of the independent journal."""
    if op.path == DATA:
        return journal.STORE, op.offset / 512 + 1, op.data
    return (journal.CLEAR,) if op.kind == "truncate" else (journal.APPEND, op.data)


class Cuts:
    """Power cuts of logged runs."""

    def __init__(self, keeper):
        self.keeper, self.rng = keeper, keeper.rng

    def moments(self, run, places):
        """The disk at these places of the log, with the calls that were answered by then."""
        disk, answered = Disk(run.files), 0
        for at in range(len(run.ops) + 1):
            if at in places:
                self.keeper.seen["moments"] += 1
                yield disk, answered
            if at < len(run.ops):
                op = run.ops[at]
                answered += op.data.count(b"\n") if is_answer(op) else 0
                if not is_answer(op):
                    disk.do(op)

    def cut(self, run, places=None, deep=True):
        """A run cut at these places, or at each: the state before or after the call under way, and after each answered one."""
        tried = set()
        for disk, answered in self.moments(run, range(len(run.ops) + 1) if places is None else places):
            for files in disk.cuts(self.rng):
                key = answered, frozenset(files.items())
                if key not in tried:
                    tried.add(key)
                    self.start(run, files, answered, deep)

    def start(self, run, files, answered, deep):
        """A start on the files that a cut left; some of these are cut again, or go on with more frames and are cut then."""
        allowed = run.states[answered:answered + 2]
        self.keeper.put(files)
        state = self.keeper.recovers(allowed)
        self.keeper.seen["disks"] += 1
        if not deep:
            return
        if self.rng.random() < (AGAIN if due(files)[1] in ("put back", "FORMAT done again") else AGAIN_PLAIN):
            self.again(files, state)
        if self.rng.random() < GOES_ON * (1 + 5 * (NEXT in files)):
            self.go_on(files, run.sessions[answered + allowed.index(state)].started_again())

    def again(self, files, state):
        """The start itself is cut at a drawn moment; the next one leaves the same."""
        self.keeper.put(files)
        disk, (ops, out) = Disk(files), self.keeper.logged("")
        same("output of a recovery", out, "")
        for op in ops[:self.rng.randint(0, len(ops))]:
            disk.do(op)
        self.keeper.put(disk.drawn(self.rng))
        self.keeper.story["files before the first recovery"] = files
        self.keeper.recovers([state])
        self.keeper.seen["cut again"] += 1

    def go_on(self, files, game):
        """The game goes on from a cut, with a FORMAT among its frames, and is cut at some moments."""
        lines, ahead = [], game.kept()
        for number in range(5):
            lines.append(format_line(self.rng, self.rng.randint(1, 3)) if number == 2 else ahead.drawn(formats=0))
            ahead.play(lines[-1])
        run = logged_run(self.keeper, files, game, lines)
        self.keeper.seen["gone on"] += 1
        self.cut(run, self.rng.sample(range(len(run.ops) + 1), 12), deep=False)


def logged_game(rng):
    """The lines of a game with three tables."""
    game, lines = Game(rng), ["0A", draw.format_frame(draw.broken_table(rng))]
    for pages in PAGE_COUNTS:
        lines.append(format_line(rng, pages))
        game.play(lines[-1])
        for _ in range(CALLS):
            lines.append(game.drawn(formats=0))
            game.play(lines[-1])
    return lines


def long_game(rng):
    """The lines of a game that fills a journal, and goes on."""
    game, lines, length = Game(rng), [format_line(rng, 3)], 0
    game.play(lines[0])
    while length < LONG + 5000:
        before = game.kept()
        lines.append(game.drawn(formats=0))
        game.play(lines[-1])
        length += written(writes_of(before, game))
    return lines


def power_cuts(keeper):
    """Logged games, cut at each moment; a long one where its journal is emptied."""
    cuts = Cuts(keeper)
    while keeper.seen["disks"] < DISKS:
        run = logged_run(keeper, {}, Game(keeper.rng), logged_game(keeper.rng))
        check_writes(keeper, run)
        cuts.cut(run)
    run = logged_run(keeper, {}, Game(keeper.rng), long_game(keeper.rng))
    check_writes(keeper, run)
    # The first time is FORMAT's, the last the end's.
    emptied = [at for at, op in enumerate(run.ops) if op.path == JOURNAL and op.kind == "truncate"][1:-1]
    cuts.cut(run, {at + near for at in emptied for near in range(-4, 6)}, deep=False)


def cuts_after_kills(keeper):
    """A kill, a new start, and then a power cut: what the killed run had not synced may be lost as late as then."""
    lines, game = [], Game(keeper.rng)
    for pages in (1, 2):
        lines.append(draw.format_frame(small_table(keeper.rng, pages)))
        game.play(lines[-1])
        for _ in range(2):
            lines.append(game.call(9))
            game.play(lines[-1])
    run = logged_run(keeper, {}, Game(keeper.rng), lines)
    for disk, answered in Cuts(keeper).moments(run, range(len(run.ops) + 1)):
        if disk.waiting:
            killed_here(keeper, run, copy.deepcopy(disk), answered)


def killed_here(keeper, run, disk, answered):
    """The run was killed with the disk like this; the next one plays some lines and is cut at some moments."""
    files, allowed, lines = disk.whole(), run.states[answered:answered + 2], []
    game = run.sessions[answered + allowed.index(due(files)[0])].started_again()
    states = [game.state()]
    for _ in range(3):
        lines.append(game.call(9) if game.made else format_line(keeper.rng, 1))
        game.play(lines[-1])
        states.append(game.state())
    keeper.put(files)
    ops, _ = keeper.logged("".join(line + "\n" for line in lines))
    done = 0
    for op in ops:
        done += is_answer(op)
        if not is_answer(op):
            disk.do(op)
        keeper.put(disk.drawn(keeper.rng))
        keeper.recovers(states[done:done + 2] + ([] if done else allowed))
        keeper.seen["cut after a kill"] += 1
