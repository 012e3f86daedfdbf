"""Drawn games on fresh files, which go on after new starts."""

import draw
import frames
import player
from power import same

from .game import NEXT, Game, format_line, typed

GAMES, STARTS, MORE = 30, 2, 25


def ended(rng, lines):
    """The text of the lines; sometimes the last one has no end."""
    return "".join(line + "\n" for line in lines)[:rng.choice([None, None, -1])]


def answers_to(keeper, game, text):
    """A run that has to answer as the session does, and to leave its files."""
    want = "".join(game.play(line) + "\n" for line in player.lines_of(text))
    out, error = keeper.run(text)
    same("answers", out, want)
    same("standard error", error, "")
    keeper.holds(game.state())
    same("a new table left", NEXT in keeper.files(), False)
    keeper.seen.update({"starts": 1, "answered": want.count("\n")})


def first_lines(rng, number):
    """The lines of a first start: a drawn game, or hardly anything."""
    few = [[], [""], ["0A"], ["0A", "00", "zz"], [draw.format_frame(draw.broken_table(rng)), "01"], [format_line(rng, 128)]]
    if number < len(few):
        return few[number]
    before = [draw.frame(10, ()), "00", "0E"] if rng.random() < 0.5 else []
    return [typed(rng, line) if line.startswith("00") and len(line) > 100 else line for line in before + frames.game(rng)]


def answers(keeper):
    """Games on fresh files, gone on with after new starts."""
    for number in range(GAMES):
        keeper.put({})
        game = Game(keeper.rng)
        answers_to(keeper, game, ended(keeper.rng, first_lines(keeper.rng, number)))
        for _ in range(STARTS):
            game, lines, ahead = game.started_again(), [], game.started_again()
            for _ in range(keeper.rng.randint(0, MORE)):
                lines.append(ahead.drawn(tries=1))
                ahead.play(lines[-1])
            answers_to(keeper, game, ended(keeper.rng, lines))
        keeper.seen["games"] += 1
