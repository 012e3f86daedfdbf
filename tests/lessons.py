"""Plays every lesson of docs/lessons and compares with the answers in its text, so that the lessons stay true.

    python3 tests/lessons.py [--player PROGRAM] [--library LIB.so]

A lesson's frames go through the player. Where it has a file's bytes or damages them, they go through the library
too. The lesson's .play file has to give the same frames by name.
"""

import argparse
import pathlib
import re
import sys

ROOT = pathlib.Path(__file__).resolve().parent.parent
sys.path.insert(0, str(ROOT / "tools"))
sys.dont_write_bytecode = True

from idslib import definition, engines, pages, session, show, words  # noqa: E402

LESSONS = ROOT / "docs/lessons"
BLOCK = re.compile(r"^```(\w+)\n(.*?)^```$", re.MULTILINE | re.DOTALL)
CHANGE = re.compile(r"(\d+): ([0-9A-F]{2}) becomes ([0-9A-F]{2})")


class Lesson:
    """A lesson's text, its definition and its fenced blocks in order."""

    def __init__(self, path):
        self.path, text = path, path.read_text(encoding="utf-8")
        self.blocks = [(kind, body.splitlines()) for kind, body in BLOCK.findall(text)]
        self.definition = read_definition(LESSONS / re.search(r"The table is `(\w+\.def)`", text).group(1))
        self.frames = self.before_damage("frames")
        self.answers = self.before_damage("answers")

    def before_damage(self, kind):
        """All lines of one kind of block up to the first damage."""
        lines = []
        for name, body in self.blocks:
            if name == "damage":
                break
            lines += body if name == kind else []
        return lines

    def needs_library(self):
        """Whether there are bytes to compare or to change."""
        return any(kind in ("file", "damage", "show") for kind, _ in self.blocks)


def read_definition(path):
    """The definition file at a path."""
    return definition.read(path.read_text(encoding="utf-8"), path.name)


def alike(lesson, what, told, wanted):
    """Ends the test with what differs."""
    if told != wanted:
        lines = [f"{lesson.path.name}: {what} differ"]
        pairs = zip(told + ["(none)"] * (len(wanted) - len(told)), wanted + ["(none)"] * (len(told) - len(wanted)))
        lines += [f"  line {i}: is {a}\n  line {i}: text has {b}" for i, (a, b) in enumerate(pairs, 1) if a != b]
        raise SystemExit("\n".join(lines))


def through_player(lesson, program):
    """The lesson's frames through the player."""
    told = engines.Player(program, lesson.frames[0]).run(lesson.frames)
    alike(lesson, "the player's answers", told, lesson.answers)


def by_name(lesson):
    """The lesson's .play file gives the lesson's frames."""
    d, frames = lesson.definition, [words.frame(lesson.definition)]
    for line in lesson.path.with_suffix(".play").read_text(encoding="utf-8").splitlines():
        said = session.words_of(line)
        if said:
            frames.append(session.call_of(d, said, line).frame)
    alike(lesson, "the frames by name", frames, lesson.frames)


def through_library(lesson, path):
    """The lesson's blocks in order over the library: frames, bytes, damage, and what `ids show` prints."""
    library, asked = engines.Library(path, lesson.definition.words()), []
    for kind, body in lesson.blocks:
        if kind == "frames":
            asked = library.ask([frame for frame in body if not frame.startswith("00")])
            asked = ["0" * 16] * (len(body) - len(asked)) + asked
        elif kind == "answers":
            alike(lesson, "the library's answers", asked, body)
        elif kind == "file":
            data = bytes.fromhex("".join(body)).ljust(len(library.file), b"\0")
            alike(lesson, "the file's bytes", [bytes(library.file).hex()], [data.hex()])
        elif kind == "damage":
            damage(lesson, library, body)
        elif kind == "show":
            shown = show.text(pages.File(lesson.definition, bytes(library.file))).splitlines()
            alike(lesson, "lines of ids show", [line for line in body if line in shown], body)


def damage(lesson, library, body):
    """Changes bytes as the text says, after looking at what they were."""
    for line in body:
        at, before, after = CHANGE.fullmatch(line).groups()
        alike(lesson, f"byte {at}", [f"{library.file[int(at)]:02X}"], [before])
        library.file[int(at)] = int(after, 16)


def main():
    """All lessons, and one line."""
    options = argparse.ArgumentParser(description=__doc__.split("\n")[0])
    options.add_argument("--player", default=engines.PLAYER)
    options.add_argument("--library", default="")
    asked = options.parse_args()
    lessons = [Lesson(path) for path in sorted(LESSONS.glob("[0-9]-*.md"))]
    for lesson in lessons:
        through_player(lesson, asked.player)
        by_name(lesson)
        if lesson.needs_library():
            through_library(lesson, asked.library)
    frames = sum(len(body) for lesson in lessons for kind, body in lesson.blocks if kind == "frames")
    if not lessons or not any(lesson.needs_library() for lesson in lessons):
        raise SystemExit("lessons: none found")
    print(f"lessons: {len(lessons)} lessons, {frames} frames, the answers are those in the text")


if __name__ == "__main__":
    main()
