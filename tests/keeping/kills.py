"""One game over many kills."""

import time

import journal
from power import Difference, same

from .game import JOURNAL, NEXT, Game, due

# Frames sent in a life that ends with a kill; in seconds the longest life, the longest of a recovery that is killed, and how
# long a start lasts on the machine that these were chosen on.
SENT, LIFE, RECOVERY, START = 80, 0.03, 0.004, 0.004
# Kills go on, up to so many times as many, until each of these was met.
PATIENCE, WANTED = 5, ("kills between calls", "kills put back", "kills in FORMAT", "recoveries killed")


def kills(keeper, count):
    """A game that goes on over many kills."""
    keeper.put({})
    game, slow = Game(keeper.rng), pace(keeper)
    while keeper.seen["kills"] < count or keeper.seen["kills"] < PATIENCE * count and not all(keeper.seen[key] for key in WANTED):
        game = life(keeper, game, slow)


def pace(keeper):
    """How much slower a start is on this machine."""
    begun = time.monotonic()
    for _ in range(5):
        keeper.run()
    return max(1, (time.monotonic() - begun) / 5 / START)


def life(keeper, game, slow):
    """Frames until a kill, and the recovery; the session as it goes on."""
    lines, wanted, moments = [], [], [game.kept()]
    for _ in range(SENT):
        lines.append(game.drawn(formats=0.03))
        wanted.append(game.play(lines[-1]))
        moments.append(game.kept())
    keeper.story = {"files before": keeper.files()}
    out = keeper.killed("".join(line + "\n" for line in lines), keeper.rng.uniform(0, LIFE * slow))
    if out is None:
        raise Difference("a run whose input goes on", "ended", "killed")
    *told, rest = out.split("\n")
    same("answers before a kill", told, wanted[:len(told)])
    same("answer begun before a kill", rest, (wanted + [""])[len(told)][:len(rest)])
    keeper.seen.update({"kills": 1, "answered before kills": len(told)})
    # The next call is begun when the answer of the one before it is out.
    return recovered(keeper, moments[len(told):len(told) + 2], slow)


def recovered(keeper, moments, slow):
    """The session after a kill, once a start has ended; starts before that are killed too."""
    keeper.story["files after the kill"] = files = keeper.files()
    keeper.seen[kind_of_kill(files)] += 1
    while keeper.rng.random() < 0.4:
        out = keeper.killed("", keeper.rng.uniform(0, RECOVERY * slow))
        keeper.seen["recoveries killed"] += out is not None
        same("output of a recovery", out or "", "")
    found = keeper.recovers([moment.state() for moment in moments])
    same("state after a kill and its recovery", found, due(files)[0])
    return next(moment for moment in moments if moment.state() == found).started_again()


def kind_of_kill(files):
    """When a kill came, by the files that it left."""
    if NEXT in files:
        return "kills in FORMAT"
    text = files.get(JOURNAL, b"")
    if text == b"" or text.endswith(journal.READY_LINE + journal.DONE_LINE):
        return "kills between calls"
    return "kills put back" if due(files)[1] == "put back" else "kills before ready"
