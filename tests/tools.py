"""Tests of tools/ids: definitions and words, each rule's error, sessions by name, show and draw, and real files through keeper.

    python3 tests/tools.py [--player PROGRAM] [--keeper PROGRAM] [--library LIB.so]
"""

import argparse
import io
import pathlib
import random
import re
import subprocess
import sys
import tempfile
import xml.etree.ElementTree as xml

ROOT = pathlib.Path(__file__).resolve().parent.parent
sys.path.insert(0, str(ROOT / "tools"))
sys.path.insert(0, str(ROOT / "tests" / "independent"))
sys.dont_write_bytecode = True

import draw as drawn  # noqa: E402  (the independent program's)
import table as tables  # noqa: E402
from idslib import definition, draw, engines, pages, play, session, show, words  # noqa: E402
from idslib.rules import RULES, Broken, Trouble  # noqa: E402

LESSONS = ROOT / "docs/lessons"
LAB = """\
pages 2
type rack 10
  data 4
  class calculated by name
  field name 0 4 text
type board 20
  data 4
  class secondary via boards
  pages 1 to 2
  field slot 0 1 number
  field serial 1 3 hex
chain boards
  master rack
  detail board
  order rising by slot
  duplicates refused
  prior yes
chain notes
  master rack
  detail board
  order last
"""
# A line of LAB, what it becomes, and the rule that this breaks. The error names that line.
EDITS = [
    (1, "pages 0", "pages"), (1, "pages 129", "pages"),
    (2, "type rack 0", "number"), (2, "type rack 1000", "number"), (6, "type board 10", "number"), (6, "type board 9", "number"),
    (3, "data 201", "length"), (8, "class other", "class"), (8, "class", "class"),
    (9, "pages 0 to 2", "range"), (9, "pages 2 to 1", "range"), (9, "pages 1 to 3", "range"),
    (8, "class secondary", "via"), (8, "class secondary via none", "via"), (4, "class secondary via boards", "via"),
    (8, "class primary via boards", "via"), (4, "class primary by name", "calc key"), (4, "class calculated by 0 5", "calc key"),
    (4, "class calculated by 0 0", "calc key"), (4, "class calculated by 65535 2", "calc key"),
    (4, "class calculated by other", "calc key"), (4, "class calculated", "calc key"),
    (13, "master shelf", "defined"), (14, "detail shelf", "defined"), (14, "detail rack", "below"), (21, "order other", "order"),
    (17, "prior 2", "prior"), (16, "duplicates some", "duplicates"), (15, "order rising by 0 0", "sort key"),
    (15, "order falling by 3 2", "sort key"), (15, "order rising by 65535 2", "sort key"), (15, "order rising", "sort key"),
    (15, "order rising by weight", "sort key"), (21, "order first by slot", "unsorted"), (15, "order first", "unsorted"),
]
# A word of LAB's table, what it becomes, and the rule that this breaks.
WORDS = [
    (0, 0, "pages"), (0, 129, "pages"), (1, 0, "types"), (1, 17, "types"), (2, 17, "chains"), (2, 1, "words"), (3, 0, "number"),
    (3, 1000, "number"), (11, 10, "number"), (4, 201, "length"), (5, 3, "class"), (6, 0, "range"), (7, 3, "range"), (8, 0, "via"),
    (16, 2, "via"), (16, 65535, "via"), (9, 65535, "calc key"), (10, 0, "calc key"), (17, 1, "calc key"), (19, 11, "defined"),
    (27, 21, "defined"), (27, 10, "below"), (21, 4, "order"), (22, 2, "prior"), (23, 3, "duplicates"), (24, 4, "sort key"),
    (25, 0, "sort key"), (21, 0, "unsorted"), (30, 1, "unsorted"), (31, 1, "unsorted"), (32, 1, "unsorted"),
]
# Lines that cannot be read, and a part of what is said about them.
ODD = [(1, "page 2", "before any type"), (3, "data many", "whole number"), (3, "weight 4", "no part of a type"),
       (13, "class primary", "no part of a chain"), (5, "field name 1 4 text", "does not lie within"), (5, "field name 0 4 words", "say 'field"),
       (12, "chain notes", "already"), (6, "type rack 20", "already"), (17, "duplicates first", "twice"), (3, "", "no 'data'"),
       (14, "", "no 'detail'"), (1, "", "'pages N' is missing")]
CALLS = """\
store board slot=1 serial=000001
store rack name=R1
store board slot=3 serial=00000A    # a remark
store board slot=3 serial=00000B
store board slot=1 serial=00000C
store board data=01
find boards slot=3
read
modify slot=9
read
modify slot=1
prior boards
relink boards 1.1
relink boards 000042
key rack name=R2
key rack name=R1
key board key=00
find notes key=00
next notes
each 64 1000
each 65 64
direct 99
current 77
next 7
frame 0E
frame 0
delete
read
"""
TOLD = """\
refused 6: a chain in which board is detail has no current record
stored rack 000041 (page 1 line 1)
stored board 000042 (page 1 line 2)
refused 10: a forbidden duplicate would stand; look at the key in chain boards
stored board 000043 (page 1 line 3)
refused 8: the data has another length than defined; board has 4 bytes
found board 000042 (page 1 line 2), number 2 in its ring of boards
board 000042 (page 1 line 2): slot=3 serial=00000A
changed board 000042 (page 1 line 2)
board 000042 (page 1 line 2): slot=9 serial=00000A
refused 10: a forbidden duplicate would stand
prior in boards is board 000043 (page 1 line 3)
moved board 000043 (page 1 line 3) to its place in boards
refused 9: no record has this code, or it is not of the chain's master type
refused 9: no record of this type has this key
found rack 000041 (page 1 line 1), number 1 in its CALC ring
refused 7: board is not a calculated type
refused 7: chain notes is not sorted
next in notes is board 000042 (page 1 line 2)
now at rack 000041 (page 1 line 1)
refused 9: no record has a code from the first to the last
refused 9: no record has this code
refused 5: there is no such type
refused 5: there is no such chain
refused 5: there is no such call
FF: the line is no frame
deleted rack 000041 (page 1 line 1), and 2 records below it: 3 in all
refused 6: the run has no current record
"""


def same(what, told, wanted):
    """Ends the test with what differs."""
    if told != wanted:
        raise SystemExit(f"tools: {what}\n  is        {told!r}\n  should be {wanted!r}")


def trouble(make):
    """The trouble that a function raises, or None."""
    try:
        make()
    except Trouble as found:
        return found
    return None


def edited(line, text):
    """LAB with one line changed."""
    lines = LAB.splitlines()
    lines[line - 1] = text
    return "\n".join(lines)


# Definitions


def test_round(rng):
    """Definition to words, to a definition with made-up names, and to the same words; drawn tables and broken ones too."""
    for text in [LAB] + [path.read_text() for path in sorted(LESSONS.glob("*.def"))]:
        d = definition.read(text, "def")
        same("a definition written and read", definition.read(definition.write(d), "def").words(), d.words())
        same("the words' text", words.parse(words.text(d)), d.words())
        same("the frame's text", words.parse(words.frame(d)), d.words())
    for _ in range(300):
        table = list(drawn.table(rng))
        same("a drawn table", definition.read(definition.write(words.definition(table)), "def").words(), table)
        table = list(drawn.broken_table(rng))
        refused = isinstance(trouble(lambda: words.definition(table)), Broken)
        same(f"whether {table} is refused", refused, tables.broken_rule(table) is not None)


def test_rules():
    """Each rule is named, with the line or word where it is broken."""
    met, table = set(), definition.read(LAB, "lab").words()
    for line, text, rule in EDITS:
        found = trouble(lambda: definition.read(edited(line, text), "lab"))
        # An order that lost its key leaves the duplicates' line in the wrong.
        spot = f"lab line {16 if (line, text) == (15, 'order first') else line}"
        same(f"line {line}: {text}", (type(found), getattr(found, "spot", None), getattr(found, "rule", None)), (Broken, spot, rule))
        same("the rule in the text", RULES[rule] in str(found), True)
        met.add(rule)
    for place, word, rule in WORDS:
        found = trouble(lambda: words.definition(table[:place] + [word] + table[place + 1:]))
        same(f"word {place}: {word}", (type(found), getattr(found, "rule", None)), (Broken, rule))
        # The spot is the word, or the pair that it is one of; a class or order that changed leaves another word in the wrong.
        if rule != "words" and (place, word) != (21, 0):
            same(f"the spot of word {place}", str(place) in found.spot.split(), True)
        met.add(rule)
    many = "pages 1\n" + "".join(f"type t{i} {i}\n data 0\n class primary\n" for i in range(1, 18))
    same("17 types", trouble(lambda: definition.read(many, "lab")).rule, "types")
    many = LAB + "".join(f"chain c{i}\n master rack\n detail board\n order last\n" for i in range(15))
    same("17 chains", trouble(lambda: definition.read(many, "lab")).rule, "chains")
    same("rules never met", set(RULES) - met, set())


def test_odd():
    """Lines that cannot be read are named with their line."""
    for line, text, part in ODD:
        found = str(trouble(lambda: definition.read(edited(line, text), "lab")))
        same(f"line {line}: '{text}' says '{part}'", part in found and "lab " in found, True)
    for text in ("0", "xx", "01 0001 0001", ""):
        same(f"words '{text}' are refused", isinstance(trouble(lambda: words.definition(words.parse(text))), Trouble), True)


# Sessions


def told_by(d, engine, text):
    """What a session prints, and the sentences alone."""
    out = io.StringIO()
    play.Desk(d, engine, out=out).lines(text.splitlines(), "calls")
    return [line.strip() for line in out.getvalue().splitlines() if line.startswith("  ")]


def test_session(player, library):
    """A session by name over player and library tells the same, and what it should."""
    d = definition.read(LAB, "lab")
    over_player = told_by(d, engines.Player(player, words.frame(d)), CALLS)
    same("player and library", over_player, told_by(d, engines.Library(library, d.words()), CALLS))
    for told, wanted in zip(over_player, TOLD.splitlines(), strict=True):
        same("a sentence", told[:len(wanted)], wanted)
    call = session.call_of(d, ["read"], "read")
    for code in range(1, 13):
        same(f"refusal {code} has words", len(session.refusal(d, call, code)) > 20, True)


def test_lines(player):
    """Lines that are no call say what is wrong with them; a prompt goes on after them."""
    d = definition.read(LAB, "lab")
    for line, part in (("stor rack", "no call"), ("store shelf", "no type"), ("next", "needs a chain"), ("store rack size=1", "no field"),
                       ("store rack name=LONGER", "room for 4"), ("store rack name", "FIELD=VALUE"), ("direct x", "no code"),
                       ("direct 1.64", "lines go"), ("find boards", "key is missing"), ("find boards serial=000000", "no part of the key"),
                       ("store rack name=\u00e9", "not ASCII"),
                       ("store board slot=256", "below 256"), ("store board serial=00", "has 3 bytes"), ("read now", "takes 0"),
                       ("frame 00 0001", "one definition"), ("store rack name='R", "cannot be read")):
        found = str(trouble(lambda: session.call_of(d, session.words_of(line), line)))
        same(f"'{line}' says '{part}'", part in found, True)
    same("a record with no field given", session.call_of(d, ["store", "rack"], "").frame, "01 000A 20202020")
    wide = definition.read(edited(15, "order rising by 0 4"), "lab")
    found = str(trouble(lambda: session.call_of(wide, ["find", "boards", "slot=1"], "")))
    same("a key given in part", "do not make up all of it" in found, True)
    same("a key of two fields", session.call_of(wide, ["find", "boards", "slot=1", "serial=00000A"], "").frame, "0C 00 0100000A")
    out = io.StringIO()
    play.Desk(d, engines.Player(player, words.frame(d)), out=out).prompt(
        io.StringIO("help\nstor\nstore rack name=R1\nmodify name=R2\nread\nquit\nread\n"))
    same("the prompt's last answer", out.getvalue().splitlines()[-2:], ["ids>   rack 000041 (page 1 line 1): name=R2", "ids> "])


# Files and pictures


def kept(library, name, lines):
    """A lesson's definition and the file that its session leaves."""
    d = definition.read((LESSONS / f"{name}.def").read_text(), name)
    engine = engines.Library(library, d.words())
    told_by(d, engine, "\n".join((LESSONS / lines).read_text().splitlines()[:27]))
    return d, bytes(engine.file), list(engine.currency)


def test_show(library):
    """Rings and currency of a sound file, and what looks wrong in a damaged one."""
    d, data, currency = kept(library, "rings", "3-rings.play")
    text = show.text(pages.File(d, data), currency)
    for part in ("page 1: 449 bytes free, 5 lines used", "000041 name=R1 -> 000043 slot=1 -> 000044 slot=2 -> home",
                 "boards NEXT 000044", "run: board 000045 slot=3", "type rack: rack 000042 name=R2", "chain boards: board 000045 slot=3", "Every ring came home"):
        same(f"show says '{part}'", part in text, True)
    for at, byte, part in ((62, 0x41, "another master"), (62, 0x45, "met before"), (62, 0x77, "where no record is"),
                           (35, 0x42, "is in no ring"), (35, 0x43, "is in 2 rings"), (37, 0x15, "are no record"), (2, 0x41, "header says")):
        bad = data[:at] + bytes([byte]) + data[at + 1:]
        same(f"byte {at} as {byte:02X}: show says '{part}'", part in show.text(pages.File(d, bad)), True)
    same("a file of another size", isinstance(trouble(lambda: pages.File(d, data[1:])), Trouble), True)


def test_draw(library, rng):
    """Pictures are well-formed, show every record, and no text lies on text or on an arrow; damaged files are drawn too."""
    for name, lines in (("lab", "1-occurrence.play"), ("rings", "3-rings.play"), ("orders", "4-orders.play"), ("parts", "5-parts.play")):
        d, data, _ = kept(library, name, lines)
        file = pages.File(d, data)
        check_picture(name, file, draw.svg(file, f"<{name} & file>"))
        for _ in range(40):
            bad = pages.File(d, drawn.damage(rng, data))
            show.text(bad, [rng.randrange(200) for _ in range(33)])
            check_picture(name, bad, draw.svg(bad, name))


def check_picture(name, file, text):
    """One picture."""
    top = xml.fromstring(text)
    tag = "{http://www.w3.org/2000/svg}"
    texts = [(float(t.get("x")), float(t.get("y")), t.text, int(t.get("font-size"))) for t in top.iter(tag + "text")]
    for code in file.records:
        same(f"{name}: record {code:06X} is drawn", any(t[2].startswith(f"{code:06X} ") for t in texts), True)
    # A text's box: a letter is at most 0.61 of the size wide.
    boxes = [(x, y - 0.8 * size, x + 0.61 * size * len(t), y + 0.2 * size, t) for x, y, t, size in texts]
    for i, box in enumerate(boxes):
        same(f"{name}: '{box[4]}' lies within the picture", box[2] <= float(top.get("width")) and box[3] <= float(top.get("height")), True)
        for other in boxes[:i]:
            same(f"{name}: '{box[4]}' on '{other[4]}'", meet(box, other), False)
    lines = []
    for path in top.iter(tag + "path"):
        numbers = re.fullmatch(r"M([\d.]+) ([\d.]+)H([\d.]+)V([\d.]+)H([\d.]+)", path.get("d"))
        if numbers:
            x, y1, lane, y2, _ = map(float, numbers.groups())
            parts = [(min(x, lane), y1, max(x, lane), y1), (lane, min(y1, y2), lane, max(y1, y2)), (min(x, lane), y2, max(x, lane), y2)]
            for part in parts:
                same(f"{name}: an arrow on a text", [box[4] for box in boxes if meet(part, box)], [])
                same(f"{name}: an arrow on an arrow", [line for line in lines if overlap(part, line)], [])
            lines += parts


def meet(a, b):
    """Whether two boxes have a point in common."""
    return a[0] < b[2] and b[0] < a[2] and a[1] < b[3] and b[1] < a[3]


def overlap(a, b):
    """Whether two upright or two level lines lie on each other; crossing is allowed."""
    for along, across in ((0, 1), (1, 0)):
        if a[across] == a[across + 2] == b[across] == b[across + 2]:
            return a[along] < b[along + 2] and b[along] < a[along + 2]
    return False


# The command


def ids(*arguments, given=""):
    """Runs the command: its exit, output and errors."""
    done = subprocess.run([ROOT / "tools/ids", *map(str, arguments)], input=given, capture_output=True, text=True, check=False)
    return done.returncode, done.stdout, done.stderr


def test_command(player, library):
    """The subcommands one after another, in a folder of their own."""
    for name in ("table", "define", "play", "show", "draw"):
        same(f"{name} --help", ids(name, "--help")[0], 0)
    with tempfile.TemporaryDirectory() as folder:
        folder = pathlib.Path(folder)
        lab, file, codes, picture = LESSONS / "lab.def", folder / "file", folder / "codes", folder / "out.svg"
        code, frame, _ = ids("table", lab, "--frame")
        same("a definition from standard input", ids("table", "-", "--frame", given=ids("define", "-", given=frame)[1]), (0, frame, ""))
        over = ("--shared", library) if library else ("--library",)
        lesson = (lab, LESSONS / "1-occurrence.play", "--frames")
        code, told, _ = ids("play", *lesson, "--player", player)
        same("play", (code, told.count("\n")), (0, 19 * 4))
        same("play over the library", ids("play", *over, *lesson, "--keep", file, "--keep-currency", codes)[1], told)
        before = file.read_bytes()
        code, told, _ = ids("show", lab, file, "--currency", codes)
        same("show", (code, "run: rack 000041 name=R1" in told), (0, True))
        same("draw", (ids("draw", lab, file, picture)[0], xml.parse(picture).getroot().tag), (0, "{http://www.w3.org/2000/svg}svg"))
        code, told, _ = ids("play", *over, lab, "--start", file, "--start-currency", codes, given="delete\n")
        same("play goes on from a file", (code, "3 records below it: 4 in all" in told), (0, True))
        same("the file is as it was", file.read_bytes(), before)
        bad = folder / "bad.def"
        bad.write_text(edited(3, "  data 201"))
        code, _, error = ids("table", bad)
        same("an error", (code, error), (1, f"ids: {bad} line 3: type rack has 201 bytes of data\n"
                                           f"  broken rule of document 01 (The definition table): {RULES['length']}\n"))
        for asked in (("table", folder / "none"), ("show", lab, lab), ("play", lab, "--player", folder / "none"), ("define", "zz")):
            code, _, error = ids(*asked, given="read\n")
            same(f"{asked[0]} tells trouble in a line", (code, error.startswith("ids: "), "Traceback" in error), (1, True, False))


def test_kept(player, keeper):
    """Sessions through keeper: as by the player, gone on with after a new start, and never under another definition."""
    lab, lesson = LESSONS / "lab.def", LESSONS / "1-occurrence.play"
    with tempfile.TemporaryDirectory() as folder:
        on = ("--on", f"{folder}/lab.data", f"{folder}/lab.journal", "--keeper")
        same("a session on real files", ids("play", lab, lesson, *on, keeper), ids("play", lab, lesson, "--player", player))
        code, told, _ = ids("play", lab, *on, keeper, given="each 1 8255\nread\n")
        same("the session gone on with", (code, told.count("name=R1")), (0, 1))
        code, _, error = ids("play", LESSONS / "orders.def", *on, keeper, given="read\n")
        same("another definition", (code, error), (1, f"ids: {folder}/lab.data was made under another definition\n"))
        code, _, error = ids("play", lab, "--on", f"{folder}/lab.data", f"{folder}/lab.data", "--keeper", keeper, given="read\n")
        same("what keeper says", (code, error.startswith("ids: keeper: ")), (1, True))
        code, _, error = ids("play", lab, *on, f"{folder}/none", given="read\n")
        same("no keeper", (code, error.startswith("ids: keeper "), "Traceback" in error), (1, True, False))


def main():
    """All tests, and one line."""
    options = argparse.ArgumentParser(description=__doc__.split("\n")[0])
    options.add_argument("--player", default=engines.PLAYER)
    options.add_argument("--keeper", default=engines.KEEPER)
    options.add_argument("--library", default="")
    asked = options.parse_args()
    rng = random.Random(9)
    test_round(rng)
    test_rules()
    test_odd()
    test_session(asked.player, asked.library)
    test_lines(asked.player)
    test_show(asked.library)
    test_draw(asked.library, rng)
    test_command(asked.player, asked.library)
    test_kept(asked.player, asked.keeper)
    print(f"tools: {len(RULES)} rules, {len(EDITS) + len(WORDS)} ways to break them, {len(CALLS.splitlines())} calls by name, "
          "files shown and drawn: as they should be")


if __name__ == "__main__":
    main()
