#!/usr/bin/env python3
"""Spells the repository's own names of specs/ and proofs/ in snake case, after port.py: nextIn as next_in, next-round as next_round.

usage: tools/respell.py [--dry]     (once, at the top; the tree as port.py leaves it. Where docs/PORT.md stands it is done, and nothing is changed.)

Words are in snake case, types and modules keep their capitals. Where a definition and a lemma would fall together, the lemma gets '_lem'. Functions of
src/, strings, inputs and outputs keep their names; a name that a file imports from a library stays in that file. Must-fail edits, tests/meaning.py
and what stands between backticks in README.md and docs/ follow.
"""
import collections
import glob
import os
import re
import sys

NAME = r'[^\s(){}.;,@"«»`]+'
KINDS = r"(?:(?:pattern|unfoldable|abbrev|pub|axiom|ruleset)\s+)*"
DECLARED = re.compile(rf"^ *({KINDS})({NAME})(?: \{{[^{{}}\n]*\}})* *:(?!=)", re.M)
USE = re.compile(r"\buse\s+([^\s;{]+?)(?:\.(\{[^}]*\})|(?=[\s;]|$))")
LIBRARIES = ("Rattle.std.", "Rattle.core.", "Rattle.io.", "Rattle.os.", "Rattle.libc.")

# Names in snake case already that would meet a definition: lemmas, but for `in_order`, which is a field of specs/.
MOVED = {
    "on_chain": "on_chain_lem", "opened_up": "opened_up_lem", "gap_from": "gap_from_lem", "gap_at": "gap_at_lem",
    "goes_in": "goes_in_lem", "head_walks": "head_walks_lem", "line_read": "line_read_lem", "each_from": "each_from_lem",
    "row_from": "row_from_lem", "same_key": "same_key_lem",
}
# Names that get another word: the rule would have them meet a field or another crate's name.
CHOSEN = {"inOrder": "in_order_of", "backedCurrency": "backed_currency"}
# Names of goals, which Rattle gives.
GIVEN = re.compile(r"(invariant|decreases)-(?!none$)")
# Fields of records of specs/: they stand behind a dot, so they may be called as a definition is.
FIELDS = {"type-right", "chain-right", "calc-next"}


def snake(name):
    words = re.sub(r"(?<=[a-z0-9])[A-Z]+", lambda m: "_" + m[0].lower(), name)
    return words.replace("-", "_")


def declared():
    """Each name that the repository's antt declares, with the files that declare it."""
    found = collections.defaultdict(set)
    for path in sorted(glob.glob("crates/**/*.antt", recursive=True)):
        for m in DECLARED.finditer(open(path).read()):
            found[m[2]].add(path)
    return found


def table():
    """Old name to new."""
    names = declared()
    new = {n: snake(n) for n in names if not n[0].isupper() and snake(n) != n}
    new = {n: word for n, word in new.items() if not GIVEN.match(n)}
    new.update(CHOSEN)
    new.update({a: b for a, b in MOVED.items() if a in names})
    taken = collections.defaultdict(set)
    for n in names:
        taken[new.get(n, n)].add(n)
    for word, olds in taken.items():
        if len(olds) > 1:
            for n in [n for n in olds if "-" in n and n not in FIELDS]:
                new[n] = word + "_lem"
    return new


def of_libraries(text):
    """The names that a file imports from a library."""
    out = set()
    for m in USE.finditer(text):
        path, items = m[1], m[2]
        own = path.startswith("Rattle.") and not path.startswith(LIBRARIES)
        if items and not own:
            out |= set(re.findall(NAME, items))
    return out


def turned(text, new, keep, antt):
    """The text with each whole name replaced; a path of a use line stays."""

    def word(m):
        w = m[0]
        if w in keep or w not in new or (w in MOVED and not antt):
            return w
        return new[w]

    def line(l):
        if " well-formed" in l and "--" in l:
            return l
        m = re.match(r"^(\s*(?:pub |ghost )*use\s+)([^\s;{]+?)(\.\{.*|\s+as\s.*|;?)$", l)
        if m:
            return m[1] + m[2] + re.sub(NAME, word, m[3])
        return re.sub(NAME, word, l)

    return "\n".join(line(l) for l in text.split("\n"))


def main():
    dry = "--dry" in sys.argv
    if os.path.exists("docs/PORT.md"):
        sys.exit("tools/respell.py: docs/PORT.md stands, so the names are respelled already; nothing was changed")
    new = table()
    names = declared()
    rust = re.compile(r"^[a-z]\w*[A-Z]\w*$")
    camel = {a: b for a, b in new.items() if rust.match(a)}
    for path in sorted(glob.glob("crates/**/*.antt", recursive=True)):
        text = open(path).read()
        here = {n for n in names if path in names[n]}
        out = turned(text, new, of_libraries(text) - here, True)
        seen = collections.defaultdict(set)
        for w in set(re.findall(NAME, "\n".join(l.split("--")[0] for l in text.split("\n")))):
            seen[new.get(w, w)].add(w)
        for word, olds in seen.items():
            if len(olds) > 1:
                print(f"fall together in {path}: {sorted(olds)}")
        if not dry:
            open(path, "w").write(out)
    others = glob.glob("crates/**/*.rt", recursive=True) + glob.glob("crates/*/must-fail/*.edit") + ["tests/meaning.py"]
    for path in sorted(others):
        text = open(path).read()
        antt = re.search(r"^file: (specs|proofs)/", text, re.M) if path.endswith(".edit") else None
        out = turned(text, new if antt else camel, set(), False)
        if not dry:
            open(path, "w").write(out)
    for path in ["README.md", *sorted(glob.glob("docs/**/*.md", recursive=True))]:
        text = open(path).read()
        out = re.sub(r"`[^`\n]+`", lambda m: re.sub(NAME, lambda w: new.get(w[0], w[0]) if w[0] not in MOVED else w[0], m[0]), text)
        if not dry:
            open(path, "w").write(out)
    print(f"{len(new)} names")


if __name__ == "__main__":
    main()
