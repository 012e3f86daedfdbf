"""Compiles and runs the bindings' examples in Rust, Python and C, and compares what they print with bindings/example.txt.

The three play one session with every call by name. Also, the refusals have the same words in all three. The example in C on real
files goes on over several starts, one of them after a call that was cut before its done line.

    python3 tests/bindings.py          # needs what `tools/archives` writes, cargo and gcc
"""

import difflib
import pathlib
import subprocess
import sys
import tempfile

ROOT = pathlib.Path(__file__).resolve().parent.parent
BINDINGS = ROOT / "bindings"
sys.path.insert(0, str(BINDINGS / "python"))

import gerunjap  # noqa: E402

COMPILED = ROOT / "target/example"
COMPILE = ["gcc", "-std=c11", "-O2", "-Wall", "-Wextra", "-Werror", "-I", BINDINGS / "c", "-o"]
LIBRARY, JOURNAL = ROOT / "target/staticlib/libgerunjap.a", ROOT / "target/staticlib/libjournal.a"
KEPT = ROOT / "target/kept"
RUNS = {
    "Rust": ["cargo", "run", "--quiet", "--offline", "--manifest-path", BINDINGS / "rust/Cargo.toml", "--example", "lab"],
    "Python": [sys.executable, BINDINGS / "python/example.py"],
    "C": [COMPILED],
}
WORDED = (BINDINGS / "rust/src/answer.rs", BINDINGS / "c/example.c")


def differs(name, command, expected):
    """Whether a program prints anything else, or ends badly; says what."""
    ran = subprocess.run(command, capture_output=True, text=True, timeout=120)
    if ran.returncode == 0 and ran.stdout == expected:
        return False
    print(f"bindings: {name} ends with {ran.returncode}", ran.stderr, sep="\n")
    print(*difflib.unified_diff(expected.splitlines(), ran.stdout.splitlines(), "expected", name, lineterm=""), sep="\n")
    return True


def other_words(path):
    """The refusals whose words a source does not have; says which."""
    text = path.read_text()
    lacking = [number for number, words in gerunjap.WORDS.items() if f'"{words}"' not in text]
    if lacking:
        print(f"bindings: {path.relative_to(ROOT)} has other words for {lacking}")
    return lacking


def kept_differs():
    """Whether the example on real files tells anything else than it should, start by start."""
    with tempfile.TemporaryDirectory() as folder:
        data, journal = pathlib.Path(folder) / "data", pathlib.Path(folder) / "journal"
        bad = [count for count in (1, 2, 3) if differs("kept", [KEPT, data, journal], f"stored\n{count} captures\n")]
        journal.write_bytes(journal.read_bytes().removesuffix(b"FFFF\n"))
        return bad or differs("kept, cut before its done line", [KEPT, data, journal], "stored\n3 captures\n")


def main():
    """Runs all, and tells."""
    subprocess.run([*COMPILE, COMPILED, BINDINGS / "c/example.c", LIBRARY], check=True)
    subprocess.run([*COMPILE, KEPT, BINDINGS / "c/kept.c", LIBRARY, JOURNAL], check=True)
    expected = (BINDINGS / "example.txt").read_text()
    bad = [name for name, command in RUNS.items() if differs(name, command, expected)]
    bad += ["kept"] if kept_differs() else []
    bad += [path.name for path in WORDED if other_words(path)]
    print(f"bindings: {len(RUNS)} examples of {len(expected.splitlines())} lines, one on real files, "
          + (f"different: {', '.join(bad)}" if bad else "no difference"))
    sys.exit(1 if bad else 0)


if __name__ == "__main__":
    main()
