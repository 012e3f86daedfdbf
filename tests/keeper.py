"""The program keeper: its answers, the files it refuses, and what it leaves after kills and power cuts.

Answers: drawn games on fresh files, which go on after a new start. Messages: bad files, which have to stay as they are. Kills:
one game over many SIGKILLs. Power cuts: all that keeper does to its files is logged (keeping/cuts.c), the disks that a cut at any
moment may leave are made, and keeper is started on them; some of these starts are cut again, some cuts follow a kill. The
independent program says what is due.

    python3 tests/keeper.py [--keeper PROGRAM] [--kills 300] [--seed 4]

The program is what `rt ci`, or `rt run` in crates/keeper, leaves in crates/keeper/out.
The seed does not fix when a kill comes.
"""

import argparse
import os
import pathlib
import random
import sys
import tempfile

import keeping
from keeping.answers import answers
from keeping.cuts import cuts_after_kills, power_cuts
from keeping.kills import kills
from keeping.messages import messages
from keeping.program import Keeper
from power import Difference

ROOT = keeping.TESTS.parent
MEMORY = "/dev/shm"
# What a run must meet.
MET = ("answered", "starts", "bad starts", "spoiled 0", "spoiled 13", "kills between calls", "kills put back", "kills in FORMAT",
       "recoveries killed", "put back", "FORMAT done again", "cut again", "gone on", "emptied when long", "cut after a kill")


def shown(value):
    """A value as it is printed: bytes in hexadecimal."""
    if isinstance(value, bytes):
        return value.hex()
    if isinstance(value, dict):
        return {key: shown(part) for key, part in value.items()}
    return type(value)(map(shown, value)) if type(value) in (list, tuple) else value


def report(part, keeper, difference):
    """Says what differs, with all that is needed to see it again."""
    name, told, want = difference.args
    print(f"DIFFERENCE in {part}: {name}")
    for key, value in keeper.story.items():
        print(key, shown(value))
    print("is", shown(told))
    print("should be", shown(want))


def counts(seen):
    """The line of counts."""
    return (
        f"keeper: {seen['answered']} lines of {seen['games']} games in {seen['starts']} starts; {seen['bad starts']} bad starts, "
        f"{seen['spoiled 0'] + seen['spoiled 13']} spoiled journals ({seen['spoiled 13']} refused); {seen['kills']} kills after "
        f"{seen['answered before kills']} answers ({seen['kills between calls']} between calls, "
        f"{seen['kills before ready']} before ready, {seen['kills put back']} put back, {seen['kills in FORMAT']} in FORMAT), "
        f"{seen['recoveries killed']} of recoveries; {seen['disks']} disks after power cuts at {seen['moments']} moments, "
        f"{seen['cut again']} cut again, {seen['gone on']} gone on, {seen['cut after a kill']} after a kill and a new start; ")


def main():
    """All parts, and what they met."""
    options = argparse.ArgumentParser(description=__doc__.split("\n")[0])
    options.add_argument("--keeper", default=str(ROOT / "crates/keeper/out/keeper"))
    options.add_argument("--kills", type=int, default=300)
    options.add_argument("--seed", type=int, default=4)
    asked = options.parse_args()
    different = []
    # In memory, where there is such a folder: the test knows what a disk would have, and need not wait for one.
    with tempfile.TemporaryDirectory(dir=MEMORY if os.path.isdir(MEMORY) else None) as folder:
        keeper = Keeper(asked.keeper, pathlib.Path(folder), random.Random())
        for part, *arguments in ((answers,), (messages,), (kills, asked.kills), (power_cuts,), (cuts_after_kills,)):
            # The kills come when they come; the other parts are the same for a seed.
            keeper.rng = random.Random(f"{asked.seed} {part.__name__}")
            try:
                part(keeper, *arguments)
            except Difference as difference:
                different.append(part.__name__)
                report(part.__name__, keeper, difference)
    lacking = [key for key in MET if not keeper.seen[key]]
    wrong = [f"differences in {', '.join(different)}"] * bool(different) + [f"never met: {', '.join(lacking)}"] * bool(lacking)
    print(counts(keeper.seen) + ("; ".join(wrong) or "no difference"))
    sys.exit(1 if wrong else 0)


if __name__ == "__main__":
    main()
