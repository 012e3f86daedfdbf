"""What plays frames: the player or keeper as a subprocess, or the C library over lent memory."""

import ctypes
import pathlib
import subprocess
import tempfile

from idslib.rules import Trouble

ROOT = pathlib.Path(__file__).resolve().parent.parent.parent
PLAYER = ROOT / "crates/player/out/player"
KEEPER = ROOT / "crates/keeper/out/keeper"
ARCHIVE = ROOT / "target/staticlib/libgerunjap.a"
ENTRIES, OUTPUT, PAGE = 33, 200, 512


class Player:
    """The frame player. It answers when its input ends, so each stretch of frames plays the session again from the start."""

    def __init__(self, program, format_frame):
        self.program, self.frames, self.first = str(program), [], format_frame

    def ask(self, frames):
        """The answers to these frames, after all that were asked before."""
        if not frames:
            return []
        self.frames += frames
        told = self.run([self.first, *self.frames])
        if len(told) != 1 + len(self.frames):
            raise Trouble(f"the player gave {len(told)} answers to {1 + len(self.frames)} frames")
        return told[-len(frames):]

    def run(self, frames):
        """All answers of one run of the player."""
        try:
            done = subprocess.run([self.program], input="\n".join(frames) + "\n", capture_output=True, text=True, check=True)
        except OSError as error:
            raise Trouble(f"the player {self.program} cannot be run ({error.strerror}); 'rt run' in crates/player builds it") from None
        except subprocess.CalledProcessError as error:
            raise Trouble(f"the player ended with {error.returncode}") from None
        return done.stdout.splitlines()


class Keeper:
    """The program keeper on real files: each answer is on the disk. A data file that is not there is made under the words."""

    def __init__(self, program, data, journal, words, format_frame):
        pipe = subprocess.PIPE
        try:
            self.process = subprocess.Popen([str(program), data, journal], stdin=pipe, stdout=pipe, stderr=pipe, text=True)
        except OSError as error:
            raise Trouble(f"keeper {program} cannot be run ({error.strerror}); 'rt run' in crates/keeper builds it") from None
        # Before there is a table even a READ is refused with 1.
        if self.one("0A").startswith("01"):
            self.one(format_frame)
        kept = bytes.fromhex(pathlib.Path(data + ".table").read_text(encoding="ascii"))[1:]
        if kept != b"".join(word.to_bytes(2, "big") for word in words):
            raise Trouble(f"{data} was made under another definition")

    def ask(self, frames):
        """The answers to these frames, one at a time."""
        return [self.one(frame) for frame in frames]

    def one(self, frame):
        """The answer to one frame."""
        try:
            self.process.stdin.write(frame + "\n")
            self.process.stdin.flush()
        except BrokenPipeError:
            pass
        told = self.process.stdout.readline()
        if not told:
            raise Trouble(self.process.communicate()[1].strip() or "keeper ended")
        return told.rstrip("\n")

    def close(self):
        """Lets keeper end, and waits for it."""
        self.process.communicate()


class Library:
    """gerunjap_call on a file and a currency held in memory; the words format the file at first, unless one is given."""

    def __init__(self, path, words, file=None, currency=None):
        self.call = loaded(path).gerunjap_call
        self.call.restype = ctypes.c_uint8
        self.words = (ctypes.c_uint16 * len(words))(*words)
        self.file = (ctypes.c_uint8 * len(file)).from_buffer_copy(file) if file else (ctypes.c_uint8 * (PAGE * words[0]))()
        self.currency = (ctypes.c_uint32 * ENTRIES)(*(currency or [0] * ENTRIES))
        if file is None:
            self.one(b"\0")

    def ask(self, frames):
        """The answers to these frames, as the player would print them."""
        return [self.line(frame) for frame in frames]

    def line(self, frame):
        """One frame's answer; FF for a line that is not hexadecimal."""
        try:
            return self.one(bytes.fromhex(frame.replace(" ", "")))
        except ValueError:
            return "FF"

    def one(self, frame):
        """The answer to a frame's bytes."""
        lent = [self.words, self.file, self.currency, (ctypes.c_uint8 * len(frame)).from_buffer_copy(frame),
                (ctypes.c_uint8 * OUTPUT)(), (ctypes.c_uint8 * 8)()]
        arguments = []
        for block in lent:
            arguments += [block, ctypes.c_size_t(len(block))]
        if self.call(*arguments) != 0:
            return "FF"
        answer = bytes(lent[5])
        data = bytes(lent[4])[:self.length(answer)] if frame[0] == 0x0A and answer[0] == 0 else b""
        return (answer + data).hex().upper()

    def length(self, answer):
        """The data length of the answer's type, read from the table's words."""
        kind = int.from_bytes(answer[4:6], "big")
        rows = [self.words[3 + 8 * i:11 + 8 * i] for i in range(self.words[1])]
        return next(row[1] for row in rows if row[0] == kind)


def loaded(path):
    """The shared object at the path, or one made from the archive for this run alone."""
    if path:
        return opened(path)
    if not ARCHIVE.exists():
        raise Trouble(f"{ARCHIVE} is not there; 'tools/archives gerunjap' builds it, or name a shared object with --shared")
    with tempfile.TemporaryDirectory() as folder:
        made = pathlib.Path(folder) / "libgerunjap.so"
        command = ["gcc", "-shared", "-o", made, "-Wl,--whole-archive", ARCHIVE, "-Wl,--no-whole-archive"]
        try:
            subprocess.run(command, check=True)
        except (OSError, subprocess.CalledProcessError):
            raise Trouble("gcc could not make a shared object of the archive; name one with --shared") from None
        return opened(made)


def opened(path):
    """A shared object, loaded."""
    try:
        return ctypes.CDLL(str(pathlib.Path(path).resolve()))
    except OSError as error:
        raise Trouble(f"the library cannot be loaded: {error}") from None
