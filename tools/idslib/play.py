"""Plays a session by name, from a file or at a prompt, and tells each answer as a sentence."""

import sys

from idslib import session
from idslib.rules import Trouble

READ = "0A"


class Desk:
    """Turns lines into frames, has them played in stretches, and prints."""

    def __init__(self, d, engine, frames=False, out=sys.stdout):
        self.d, self.engine, self.frames, self.out = d, engine, frames, out

    def lines(self, lines, name):
        """A whole session; a line that cannot be read ends it, after what stands before it was played."""
        waiting = []
        for number, line in enumerate(lines, 1):
            try:
                words = session.words_of(line)
                if not words:
                    continue
                if session.needs_record(words):
                    self.play(waiting)
                    waiting = []
                waiting.append(self.call(words, line))
            except Trouble as trouble:
                self.play(waiting)
                raise Trouble(f"{name} line {number}: {trouble}") from None
        self.play(waiting)

    def prompt(self, given):
        """Lines from a person, one at a time; trouble is told and the session goes on."""
        print("Calls by name; 'help' lists them, 'quit' ends.", file=self.out)
        while True:
            print("ids> ", end="", flush=True, file=self.out)
            line = given.readline()
            if not line or line.strip() in ("quit", "exit"):
                return
            if line.strip() == "help":
                print(session.HELP, file=self.out)
                continue
            try:
                words = session.words_of(line)
                if words:
                    self.play([self.call(words, line.strip())], echo=False)
            except Trouble as trouble:
                print(f"  ? {trouble}", file=self.out)

    def call(self, words, line):
        """The call of a line; MODIFY by field looks at the current record first."""
        record = self.record() if session.needs_record(words) else None
        return session.call_of(self.d, words, line.strip(), record)

    def record(self):
        """The current record's type and data, or None; a READ changes nothing."""
        answer = session.Answer(self.engine.ask([READ])[0])
        found = None if answer.bad or answer.code else self.d.type_numbered(answer.type)
        return (found, answer.data) if found else None

    def play(self, calls, echo=True):
        """Plays calls and prints a sentence for each."""
        for call, line in zip(calls, self.engine.ask([call.frame for call in calls])):
            if echo:
                print(call.line, file=self.out)
            if self.frames:
                print(f"  {call.frame}\n  {line}", file=self.out)
            print("  " + session.sentence(self.d, call, session.Answer(line)), file=self.out)
