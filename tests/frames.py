"""Frames through the player, compared line by line with the independent program.

    python3 tests/frames.py [--frames 20000] [--seed 1] [--player PROGRAM]

The program is what `rt ci`, or `rt run` in crates/player, leaves in crates/player/out.
"""

import argparse
import collections
import pathlib
import random
import subprocess
import sys

ROOT = pathlib.Path(__file__).resolve().parent.parent
sys.path.insert(0, str(ROOT / "tests" / "independent"))

import draw  # noqa: E402
import player  # noqa: E402

GAME = 120


def odd_line(rng):
    """A line that is no frame, or that is at the edge of one."""
    return rng.choice([
        draw.bad_line(rng), "0A" + " " * 1098, "0A" + " " * 1099, " " * 1100, " " * 1101, "08" + "00" * 549,
        "08" + "00" * 549 + " " * 2, "08" + "00" * 549 + " ", "0 A", "0a", "f" * 1100, "F" * 1101, "7" * rng.randint(1, 3000),
        "".join(chr(rng.randint(1, 126)) for _ in range(rng.randint(1, 30))).replace("\n", ""), "00", "000001", "0001",
    ])


def game(rng):
    """The lines of a game: calls before a table, a table, a session with odd lines, another table."""
    lines = []
    for _ in range(rng.randint(1, 3)):
        words = draw.table(rng)
        if rng.random() < 0.3:
            lines.append(draw.format_frame(draw.broken_table(rng)))
        lines.append(draw.format_frame(words))
        lines += [draw.frame(number, arguments) for number, arguments in draw.session(rng, words, rng.randint(1, GAME))]
    shown = []
    for line in lines:
        if rng.random() < 0.06:
            shown.append(odd_line(rng))
        shown.append(draw.loosened(rng, line) if rng.random() < 0.2 else line)
    return shown


def text_of(rng, frames):
    """Games until there are enough frames; sometimes the last line has no end."""
    lines = [draw.frame(10, ()), "00", "0E"]
    while len(lines) < frames:
        lines += game(rng)
    return "\n".join(lines) + rng.choice(["\n", ""])


def missing(told):
    """The codes that frames can show and were never met (12 cannot be: the player's output is as long as any data)."""
    return [code for code in (0, 1, 5, 6, 7, 8, 9, 10, 11, 255) if not told[code]]


def main():
    """Draws, plays on both sides, compares, and tells."""
    options = argparse.ArgumentParser(description=__doc__.split("\n")[0])
    options.add_argument("--player", default=str(ROOT / "crates/player/out/player"))
    options.add_argument("--frames", type=int, default=20000)
    options.add_argument("--seed", type=int, default=1)
    asked = options.parse_args()
    text = text_of(random.Random(asked.seed), asked.frames)
    want = player.play(text).split("\n")
    ran = subprocess.run([asked.player], input=text.encode("latin-1"), capture_output=True)
    got = ran.stdout.decode("latin-1").split("\n")
    for at, (line, a, b) in enumerate(zip(text.split("\n"), got, want)):
        if a != b:
            print(f"line {at + 1}: {line[:200]!r} answered {a!r} and should {b!r}")
            sys.exit(1)
    if got != want or ran.returncode:
        print(f"{len(got)} lines of answers, should be {len(want)}; exit status {ran.returncode}")
        sys.exit(1)
    told = collections.Counter(int(line[:2], 16) for line in want if line)
    lacking = missing(told)
    print(f"frames: {len(want) - 1} lines, codes {dict(sorted(told.items()))}, "
          + ("no difference" if not lacking else f"never met {lacking}"))
    sys.exit(1 if lacking else 0)


if __name__ == "__main__":
    main()
