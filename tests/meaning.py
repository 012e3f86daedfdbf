"""The meaning is run: the checker computes drawn sessions in the definitions of `ledger`.

Tables and sessions are drawn and played by the independent program. A module is then
written outside the repository in which each session's answers, the current record's
data after each call, final currency and final file bytes, as the definitions give them, are stated to be the
independent program's, by `refl`. The checker refuses the module where they differ.

    python3 tests/meaning.py [--calls 500] [--seed 1] [--keep FOLDER]
"""

import argparse
import collections
import pathlib
import random
import re
import shutil
import subprocess
import sys
import tempfile

ROOT = pathlib.Path(__file__).resolve().parent.parent
sys.path.insert(0, str(ROOT / "tests" / "independent"))

import draw  # noqa: E402
import layout  # noqa: E402
import ledger as ledgers  # noqa: E402
import table as tables  # noqa: E402

SPECS = ROOT / "crates" / "ledger" / "specs"
MODULE = "Rattle.ledger.specs."
SESSION = 14
SESSIONS_A_FILE = 8
TABLES_A_FILE = 40
# What every run of the test must have seen.
CALLS_SEEN = set(range(1, 14))
REFUSALS_SEEN = set(range(5, 13))
CALL_NAMES = {
    ledgers.STORE: "STORE", ledgers.DIRECT: "DIRECT", ledgers.KEY: "KEY", ledgers.NEXT: "NEXT",
    ledgers.PRIOR: "PRIOR", ledgers.MASTER: "MASTER", ledgers.EACH: "EACH",
    ledgers.MODIFY: "MODIFY", ledgers.DELETE: "DELETE", ledgers.READ: "READ",
    ledgers.CURRENT: "CURRENT", ledgers.FIND: "FIND", ledgers.RELINK: "RELINK",
}

HEAD = """-- Written by tests/meaning.py.
use Rattle.std.specs.Prelude.{ℕ, Bool, true, false, List, [], ◌∷◌, ◌++◌, ◌≡◌, refl, replicate}
use Rattle.ledger.specs.declared.Answer.{Answer}
use Rattle.ledger.specs.declared.Currency.{Currency}
"""

FLAT = """
-- an answer's numbers, and where it is done the data of the run's record, which are what READ hands out
unfoldable pub seen : Turn → List ℕ
seen (refuse n) = n ∷ 0 ∷ 0 ∷ 0 ∷ []
seen (done a l cur) = a.code ∷ a.reference ∷ a.kind ∷ a.count ∷ bytes_at l cur.run

-- a session's answers, then its last currency and file
unfoldable pub flat : List ℕ → State → List Call → List ℕ
flat t s [] = (s.cur.run ∷ s.cur.types) ++ s.cur.chains ++ layout t s.ledger
flat t s (c ∷ cs) = seen (turn t s c) ++ flat t (step t s c) cs
"""


def definitions():
    """Each module of the specs with the names that it offers, and those that must be opened."""
    modules, closed = {}, []
    for name in re.findall(r"pub mod (\w+)", (SPECS / "Lib.antt").read_text()):
        text = (SPECS / f"{name}.antt").read_text()
        found = re.findall(r"^(unfoldable pub|abbrev pub|pub record|pub data) (\S+)", text, re.M)
        modules[name] = [what for _, what in found]
        if name in ("Numbers", "Table", "Rules", "Pages", "Currency", "Calls"):
            closed += [what for how, what in found if how == "unfoldable pub"]
    modules["Calls"] += ["refuse", "done", *CALL_NAMES.values(), "UNKNOWN"]
    return modules, closed


def uses(modules):
    """The use lines of a written module."""
    wanted = ("Numbers", "Table", "Rules", "Pages", "Currency", "Calls")
    return "".join(f"use {MODULE}{m}.{{{', '.join(modules[m])}}}\n" for m in wanted)


def numbers(values):
    """A list of numbers; a long run of one value is a replicate."""
    parts, rest = [], list(values)
    while rest:
        same = 1
        while same < len(rest) and rest[same] == rest[0]:
            same += 1
        if same >= 12:
            parts.append(f"replicate {same} {rest[0]}")
            rest = rest[same:]
        else:
            run = []
            while rest and (len(rest) < 12 or any(v != rest[0] for v in rest[:12])):
                run.append(rest.pop(0))
            parts.append("(" + " ∷ ".join(map(str, run)) + " ∷ [])")
    return " ++ ".join(parts) or "[]"


def call_text(number, arguments, room):
    """A call as the definitions' Call."""
    if number == ledgers.READ:
        return f"READ {room}"
    name = CALL_NAMES.get(number, "UNKNOWN")
    shown = arguments if name != "UNKNOWN" else ()
    return " ".join([name, *(f"({numbers(a)})" if isinstance(a, bytes) else str(a) for a in shown)])


class Session:
    """A drawn session, played by the independent program."""

    def __init__(self, rng, count):
        self.words = draw.table(rng)
        while self.words[0] > 3:
            self.words = draw.table(rng)
        self.rooms, self.flat = [], []
        self.seen, self.refused = collections.Counter(), collections.Counter()
        self.calls = draw.session(rng, self.words, count)
        self.play(rng)

    def play(self, rng):
        """Plays the calls and keeps what the checker has to find."""
        shape = tables.read(self.words)
        ledger, state = ledgers.empty_ledger(shape), ledgers.empty_currency()
        for number, arguments in self.calls:
            room = len(draw.output(rng))
            self.rooms.append(room)
            out = ledgers.call(shape, ledger, state, number, arguments, room)
            run = out.ledger.records.get(out.currency.run)
            self.flat += [*out.answer, *(run.data if run and out.answer.code == 0 else b"")]
            self.seen[number] += out.answer.code == 0
            self.refused[out.answer.code] += 1
            ledger, state = out.ledger, out.currency
        self.flat += [state.run, *state.types, *state.chains, *layout.write(shape, ledger)]

    def text(self, name, closed):
        """The session as a statement that the checker computes."""
        calls = " ∷ ".join(call_text(n, a, r) for (n, a), r in zip(self.calls, self.rooms))
        return (f"\n{name} : flat ({numbers(self.words)}) start ({calls} ∷ [])\n"
                f"    ≡ {numbers(self.flat)}\n"
                f"unfolding flat seen {' '.join(closed)}\n{name} = refl\n")


def tables_text(rng, name, count, closed):
    """Drawn tables, accepted and refused, each with the independent program's verdict."""
    drawn = [draw.broken_table(rng) if i % 3 else draw.table(rng) for i in range(count)]
    found = " ∷ ".join(f"accepts ({numbers(words)})" for words in drawn)
    told = " ∷ ".join("false" if tables.broken_rule(words) else "true" for words in drawn)
    lines = f"\n{name} : ◌≡◌ {{A = List Bool}} ({found} ∷ []) ({told} ∷ [])\n"
    return lines + f"unfolding {' '.join(closed)}\n{name} = refl\n"


def write(folder, sessions, rng):
    """A repository with the crate `ledger` and the crate `runs` that states the sessions."""
    modules, closed = definitions()
    shutil.copytree(ROOT / "crates" / "ledger", folder / "crates" / "ledger", ignore=shutil.ignore_patterns("must-fail", "out"))
    specs = folder / "crates" / "runs" / "specs"
    specs.mkdir(parents=True)
    (folder / "crates" / "runs" / "src").mkdir()
    (folder / "crates" / "runs" / "src" / "lib.rt").write_text("// Sessions computed by the checker.\n#![tactic(auto)]\n")
    (folder / "crates.txt").write_text("ledger:\nruns: ledger\n")
    head = HEAD + uses(modules)
    (specs / "Flat.antt").write_text(head + FLAT)
    names = ["Flat"]
    flat = "use Rattle.runs.specs.Flat.{seen, flat}\n"
    for at in range(0, len(sessions), SESSIONS_A_FILE):
        names.append(f"Run{at}")
        parts = [s.text(f"run{at + i}", closed) for i, s in enumerate(sessions[at:at + SESSIONS_A_FILE])]
        (specs / f"Run{at}.antt").write_text(head + flat + "".join(parts))
    names.append("Tables")
    (specs / "Tables.antt").write_text(head + tables_text(rng, "tables", TABLES_A_FILE, closed))
    (specs / "Lib.antt").write_text("".join(f"pub mod {n}\n" for n in names))


def drawn_sessions(rng, calls):
    """Sessions of at least so many calls in all."""
    sessions = []
    while sum(len(s.calls) for s in sessions) < calls:
        sessions.append(Session(rng, SESSION))
    return sessions


def missing(sessions):
    """The calls never done and the refusals never given."""
    done, refused = collections.Counter(), collections.Counter()
    for session in sessions:
        done.update(session.seen)
        refused.update(session.refused)
    print("done:", dict(sorted((f"{n:02X}", c) for n, c in done.items() if c)))
    print("refused:", dict(sorted((n, c) for n, c in refused.items() if n)))
    return [f"call {n:02X}" for n in CALLS_SEEN if not done[n]] + [f"refusal {n}" for n in REFUSALS_SEEN if not refused[n]]


def main():
    """Draws, writes, has the checker compute, and tells."""
    options = argparse.ArgumentParser(description=__doc__.split("\n")[0])
    options.add_argument("--calls", type=int, default=500)
    options.add_argument("--seed", type=int, default=1)
    options.add_argument("--keep", help="a new folder for what is written")
    asked = options.parse_args()
    rng = random.Random(asked.seed)
    sessions = drawn_sessions(rng, asked.calls)
    lacking = missing(sessions)
    with tempfile.TemporaryDirectory() as other:
        folder = pathlib.Path(asked.keep or other)
        write(folder, sessions, rng)
        told = subprocess.run(["rt", "check"], cwd=folder / "crates" / "runs", capture_output=True, text=True)
    calls = sum(len(s.calls) for s in sessions)
    good = told.returncode == 0 and not lacking
    if told.returncode:
        print((told.stdout + told.stderr)[-4000:])
    for what in lacking:
        print("never seen:", what)
    print(f"meaning: {calls} calls in {len(sessions)} sessions and {TABLES_A_FILE} tables "
          + ("computed as the independent program has them" if good else "NOT as the independent program has them"))
    sys.exit(0 if good else 1)


if __name__ == "__main__":
    main()
