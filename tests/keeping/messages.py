"""Bad starts: nothing is played, a message says why, and every file stays as it is."""

import subprocess

import draw
import journal
import player
import power
from power import same

from .game import DATA, JOURNAL, NEXT, TABLE, Game, State, format_line, small_table, writes_of
from .program import FOLDER

BASES, SPOILED = 4, 30


def base(rng):
    """The files of a game whose last call is readied and not done, and all lines of its journal."""
    game, lines, calls = Game(rng), [], 0
    game.play(draw.format_frame(small_table(rng, rng.randint(1, 4))))
    while calls < 3:
        before = game.kept()
        game.play(game.call(5))
        some = writes_of(before, game)
        calls += some != []
        lines += [write[1] for write in some if write[0] == journal.APPEND]
    return {DATA: game.state().data, TABLE: game.state().line, JOURNAL: b"".join(lines[:-1])}, lines


def bad_journals(rng, files, lines):
    """Texts that are no journal, or one that is refused with 13."""
    image, ready, done, whole = lines[0], journal.READY_LINE, journal.DONE_LINE, b"".join(lines)
    outside = b"%04X" % (len(files[DATA]) // 512 + 1) + image[4:]
    return {
        "of other bytes": b"\x7FELF" + rng.randbytes(2000), "the data file": files[DATA], "another text": b"not" + files[TABLE],
        "of bytes that begin well": b"0" + rng.randbytes(600) + b"\n" + rng.randbytes(9), "an empty line": b"\n",
        "too long": whole * (262144 // len(whole) + 1), "an image too short": image[:-3] + b"\n" + ready,
        "an image too long": image[:-1] + b"00\n", "an odd digit": image[:-2] + b"\n", "no digit": image[:-2] + b"G\n",
        "a carriage return": image + b"0000\r\n", "a space": image + b"0000 \n", "another line": image + b"0001\n",
        "a ready without image": ready, "a second ready": image + ready + ready, "ready after done": image + ready + done + ready,
        "a done without ready": image + done, "a done without image": ready + done, "an image twice": image + image + ready,
        "an image after ready": image + ready + image, "page 0": b"0000" + image[4:] + ready, "a page outside": outside + ready,
        "a page far outside": b"FFFE" + image[4:], "a page outside, and done": outside + ready + done,
        "a page outside, not ready": outside, "an empty line last": image + ready + done + b"\n",
    }


def bad_tables(rng, files):
    """Texts that are no table of this data file."""
    line, longest, other = files[TABLE], files[TABLE][:-1].ljust(player.MOST_CHARACTERS), len(files[DATA]) // 512 + 1
    return {
        "empty": b"", "a line end": b"\n", "not whole": line[:-1], "cut": line[:rng.randrange(len(line) - 1)],
        "of other pages": format_line(rng, other).encode() + b"\n",
        "refused": draw.format_frame(draw.broken_table(rng)).encode() + b"\n",
        "twice": line + line, "no frame 00": b"0A\n", "another frame": b"0C" + line[2:], "no frame": b"zz\n",
        "a bad line": line[:-1] + b"G\n", "with a carriage return": line[:-1] + b"\r\n", "with a line after it": line + b"0A\n",
        "too long a line": longest + b" \n", "with a line after its longest line": longest + b"\n0A\n",
    }


# These are no bad new tables: they are ignored, or are those of another file.
GOOD_NEW_TABLES = ("empty", "a line end", "not whole", "cut", "of other pages")


def bad_starts(rng, files, lines):
    """What is wrong, and the files."""
    for what, text in bad_journals(rng, files, lines).items():
        yield f"journal: {what}", {**files, JOURNAL: text}
    for what, text in bad_tables(rng, files).items():
        yield f"table: {what}", {**files, TABLE: text}
        yield f"table, and no journal: {what}", {DATA: files[DATA], TABLE: text}
        if what not in GOOD_NEW_TABLES:
            yield f"new table: {what}", {**files, NEXT: text, JOURNAL: b""}
    for text in (files[JOURNAL], b"00", b""):
        for what, there in bad_pairs(files[DATA], {**files, JOURNAL: text}):
            yield f"{what}, journal of {len(text)} bytes", there
        if text:
            yield f"only a journal of {len(text)} bytes", {JOURNAL: text}
            yield f"journal of {len(text)} bytes beside a new table", {**files, JOURNAL: text, NEXT: files[TABLE]}
            yield f"journal of {len(text)} bytes beside a first new table", {JOURNAL: text, NEXT: files[TABLE]}
    yield "only a data file", {DATA: files[DATA]}
    yield "only a folder as data file", {DATA: FOLDER}
    yield "only a folder as journal", {JOURNAL: FOLDER}
    yield "a folder as journal", {**files, JOURNAL: FOLDER}


def bad_pairs(data, files):
    """Data files and tables of which one is missing or not of the other's size."""
    for name in (DATA, TABLE):
        yield f"no {name}", {path: files[path] for path in files if path != name}
        yield f"a folder as {name}", {**files, name: FOLDER}
    for text in (data[:-1], data[:-512], b"", data + b"\0", data + bytes(512), data + bytes(65536)):
        yield f"data file of {len(text)} bytes, not {len(data)}", {**files, DATA: text}


BAD_ARGUMENTS = {
    "none": (), "one": (DATA,), "three": (DATA, JOURNAL, "more"), "the same name twice": (DATA, DATA),
    "too long a name": ("x" * 4001, JOURNAL), "the data file as journal": (DATA, "lab/../" + DATA),
    "the journal's folder missing": (DATA, "missing/journal"), "the data file's folder missing": ("missing/file", JOURNAL),
    "both folders missing": ("missing/file", "missing/journal"), "a file as the data file's folder": (TABLE + "/file", JOURNAL),
    "a file as the journal's folder": (DATA, TABLE + "/journal"),
}


def refuses(keeper, files, arguments=(DATA, JOURNAL)):
    """What is wrong with a start that has to be refused: nothing printed, a message, no file changed; None where all is right."""
    keeper.put(files)
    before = keeper.files()
    out, error = keeper.run(f"0A\n{draw.format_frame(small_table(keeper.rng, 1))}\n0A\n", arguments)
    left = keeper.files()
    for name in set(left) - set(before):
        if left[name] == b"" and name == arguments[1]:
            del left[name]
    if out:
        return f"printed {out!r} and said {error!r}"
    if not error or not all(line.startswith(("keeper: ", "usage: keeper ")) for line in error.splitlines()):
        return f"said {error!r}"
    return None if left == before else f"changed {[name for name in {*left, *before} if left.get(name) != before.get(name)]}"


def unheard(keeper, files):
    """A run that can't write its answer, with standard error closed: its message is in no file, and the next start goes on."""
    keeper.put(files)
    keeper.run()
    line = format_line(keeper.rng, 1)
    subprocess.run(["sh", "-c", 'exec "$0" "$@" > /dev/full 2>&-', keeper.program, DATA, JOURNAL], input=f"0A\n{line}\n".encode(),
                   cwd=keeper.folder, timeout=60, check=False)
    same("the start after an unheard message", keeper.run(), ("", ""))
    keeper.seen["unheard"] += 1


def messages(keeper):
    """Bad starts of some games, and spoiled journals, which are refused or recovered from; messages that nobody hears."""
    wrong = {}
    for _ in range(BASES):
        files, lines = base(keeper.rng)
        trials = [(what, there, (DATA, JOURNAL)) for what, there in bad_starts(keeper.rng, files, lines)]
        trials += [(f"arguments: {what}", {**files, JOURNAL: b""}, names) for what, names in BAD_ARGUMENTS.items()]
        for what, there, names in trials:
            found = refuses(keeper, there, names)
            keeper.seen["bad starts"] += 1
            if found:
                wrong[what] = found
        unheard(keeper, files)
        for _ in range(SPOILED):
            spoiled_start(keeper, {**files, JOURNAL: power.spoiled(keeper.rng, files[JOURNAL], len(files[DATA]) // 512)})
    keeper.story = {}
    same("starts that have to be refused", wrong, {})


def spoiled_start(keeper, files):
    """A spoiled journal is refused or recovered from as by the independent program; one that does not begin with 00 is none."""
    refusal, disk = journal.recovered(journal.Disk(files[DATA], files[JOURNAL]))
    if refusal or files[JOURNAL][:2].strip(b"0"):
        same("spoiled journal", refuses(keeper, files), None)
    else:
        keeper.put(files)
        keeper.recovers([State(disk.file, files[TABLE])])
    keeper.seen[f"spoiled {refusal}"] += 1
