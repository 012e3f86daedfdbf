"""The program keeper in a folder of its own."""

import collections
import contextlib
import os
import pathlib
import shutil
import subprocess
import time

from power import Difference, same

from . import TESTS
from .disk import read_log
from .game import DATA, JOURNAL, NEXT, TABLE, due, is_whole

FOLDERS, FOLDER = ("lab",), "a folder"
# How many microseconds longer a sync lasts in a run that is killed: on a fast disk hardly any kill would come in a call.
WAITS = (0, 100, 300, 600)


class Keeper:
    """The program in a folder of its own, with counts, and the story of the last start."""

    def __init__(self, program, folder, rng):
        self.program, self.folder, self.rng = str(pathlib.Path(program).resolve()), folder / "files", rng
        self.library, self.log, self.seen, self.story = folder / "cuts.so", folder / "log", collections.Counter(), {}
        source = TESTS / "keeping" / "cuts.c"
        subprocess.run(["gcc", "-shared", "-fPIC", "-o", self.library, source], check=True)

    def put(self, files):
        """Makes these the only files; FOLDER stands for a folder."""
        shutil.rmtree(self.folder, ignore_errors=True)
        for folder in FOLDERS:
            (self.folder / folder).mkdir(parents=True)
        for path, data in files.items():
            if data is FOLDER:
                (self.folder / path).mkdir()
            else:
                (self.folder / path).write_bytes(data)
        self.story = {"files before": files}

    def files(self):
        """All files, and folders but those that are always there."""
        found = {}
        for path in self.folder.rglob("*"):
            name = str(path.relative_to(self.folder))
            if name not in FOLDERS:
                found[name] = FOLDER if path.is_dir() else path.read_bytes()
        return found

    def run(self, text="", arguments=(DATA, JOURNAL), logged=False):
        """Standard output and standard error of a whole run."""
        self.story.update(text=text, arguments=arguments)
        around = self.preloaded(CUTS_LOG=self.log) if logged else None
        ran = subprocess.run([self.program, *arguments], input=text.encode("latin-1"), capture_output=True, env=around,
                             cwd=self.folder, timeout=60)
        same("exit status", ran.returncode, 0)
        return ran.stdout.decode("latin-1"), ran.stderr.decode("latin-1")

    def preloaded(self, **named):
        """The environment in which tests/cuts.c is preloaded."""
        return {**os.environ, "LD_PRELOAD": str(self.library), **{name: str(value) for name, value in named.items()}}

    def logged(self, text):
        """The operations of a run that says nothing, and its standard output."""
        self.log.unlink(missing_ok=True)
        out, error = self.run(text, logged=True)
        same("standard error", error, "")
        return read_log(self.log.read_bytes()), out

    def killed(self, text, seconds):
        """Standard output of a run that is fed with a text and killed after some time; None where it had ended before."""
        wait, pipe, source = self.rng.choice(WAITS), subprocess.PIPE, subprocess.PIPE if text else subprocess.DEVNULL
        self.story.update(text=text, seconds=seconds, wait=wait)
        around = self.preloaded(CUTS_WAIT=wait) if wait else None
        process = subprocess.Popen([self.program, DATA, JOURNAL], stdin=source, stdout=pipe, stderr=pipe, env=around,
                                   cwd=self.folder)
        if text:
            with contextlib.suppress(BrokenPipeError):
                process.stdin.write(text.encode("latin-1"))
                process.stdin.flush()
        time.sleep(seconds)
        process.kill()
        out, error = process.communicate()
        same("standard error", error, b"")
        return out.decode("latin-1") if process.returncode < 0 else None

    def holds(self, state):
        """The files are those of the state, and the journal is empty; a new table that is not whole may be left beside."""
        left = self.files()
        if not is_whole(left.get(NEXT)):
            left.pop(NEXT, None)
        want = {JOURNAL: b"", DATA: state.data, TABLE: state.line}
        for name in sorted({*left, *want}):
            same(f"file {name}", left.get(name), want.get(name))

    def recovers(self, allowed):
        """A start with no input says nothing and leaves what is due for the files that are there, one of those allowed; which."""
        state, work = due(self.files())
        same("standard output and error", self.run(), ("", ""))
        self.holds(state)
        if state not in allowed:
            raise Difference("state after recovery", state, list(allowed))
        self.seen[work] += 1
        return state
