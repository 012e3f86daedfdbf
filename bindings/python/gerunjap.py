"""The proved chain store through ctypes: the calls by name, on memory that the caller lends.

    store = Store(words, bytearray(512 * words[0]))
    store.format()
    rack = store.store(10, b"R001")        # an Answer; a refusal is raised as Refused

A code, type or chain that does not fit its width in a frame (3, 2, 1 bytes) is an OverflowError, before any call.
"""

import ctypes
import os
import pathlib
import subprocess
from typing import NamedTuple

ROOT = pathlib.Path(__file__).resolve().parent.parent.parent
PAGE, ENTRIES = 512, 33

WORDS = {
    1: "the definition table breaks a rule",
    2: "the file is not 512 bytes for each page of the table",
    3: "the file is not sound",
    4: "the currency breaks its rule",
    5: "no such call, type or chain",
    6: "no current record to start from",
    7: "this type or chain does not take this call",
    8: "data or key of another length than defined",
    9: "no such record",
    10: "a forbidden duplicate would stand",
    11: "no page in the type's range has the room and a free line",
    12: "the output is shorter than the record's data",
}


class Refused(Exception):
    """A call was refused, and has changed nothing. `number` is document 01's, `words` says what it means."""

    def __init__(self, number):
        self.number, self.words = number, WORDS[number]
        super().__init__(f"refused {number}: {self.words}")


class Answer(NamedTuple):
    """A call that was done: the record's code and type, and the count (deleted records; the place found by key and find)."""

    reference: int
    type: int
    count: int


def made():
    """The shared object of the archive that `tools/archives gerunjap` writes, made where it is missing or older."""
    archive, shared = ROOT / "target/staticlib/libgerunjap.a", ROOT / "target/python/libgerunjap.so"
    if not shared.exists() or shared.stat().st_mtime < archive.stat().st_mtime:
        shared.parent.mkdir(exist_ok=True)
        half = shared.with_suffix(f".{os.getpid()}")
        subprocess.run(["gcc", "-shared", "-o", half, "-Wl,--whole-archive", archive, "-Wl,--no-whole-archive"], check=True)
        half.replace(shared)
    return shared


def _block(element, values):
    """A block of the library's own, and its length."""
    return (element * len(values))(*values)


class Store:
    """A store on a lent table and file. The file is a bytearray: calls change it in place, and it cannot be resized meanwhile."""

    def __init__(self, words, file, library=None):
        self._call = ctypes.CDLL(str(library or made())).gerunjap_call
        self._call.restype = ctypes.c_uint8
        self._words = _block(ctypes.c_uint16, words)
        self._file = (ctypes.c_uint8 * len(file)).from_buffer(file)
        self._currency = (ctypes.c_uint32 * ENTRIES)()

    @property
    def currency(self):
        """33 codes: the run's, 16 of types, 16 of chains."""
        return tuple(self._currency)

    @currency.setter
    def currency(self, codes):
        self._currency[:] = codes

    def _play(self, number, *parts, output=b""):
        """The call's Answer and its output; a refusal is raised."""
        frame = bytes([number]) + b"".join(parts)
        out, told = _block(ctypes.c_uint8, output), (ctypes.c_uint8 * 8)()
        lent = (self._words, self._file, self._currency, _block(ctypes.c_uint8, frame), out, told)
        status = self._call(*(given for block in lent for given in (block, ctypes.c_size_t(len(block)))))
        if status != 0:
            raise ValueError(f"the library took no call: status {status}")
        told = bytes(told)
        if told[0] != 0:
            raise Refused(told[0])
        return Answer(int.from_bytes(told[1:4], "big"), int.from_bytes(told[4:6], "big"), int.from_bytes(told[6:8], "big")), bytes(out)

    def _done(self, number, *parts):
        return self._play(number, *parts)[0]

    def format(self):
        """An empty file, and no current record."""
        return self._done(0)

    def store(self, type_, data):
        """A new record, under the current ring of each chain in which its type is detail."""
        return self._done(1, _two(type_), bytes(data))

    def direct(self, code):
        return self._done(2, _three(code))

    def key(self, type_, key):
        """A calculated record by its key."""
        return self._done(3, _two(type_), bytes(key))

    def next(self, chain):
        return self._done(4, _one(chain))

    def prior(self, chain):
        return self._done(5, _one(chain))

    def master(self, chain):
        return self._done(6, _one(chain))

    def each(self, first, last):
        """The record of the lowest code from first to last."""
        return self._done(7, _three(first), _three(last))

    def modify(self, data):
        """Other data for the run's record."""
        return self._done(8, bytes(data))

    def delete(self):
        """The run's record and all below it."""
        return self._done(9)

    def read(self):
        """The data of the run's record."""
        answer, output = self._play(10, output=bytes(200))
        return output[:self._length(answer.type)]

    def current(self, type_):
        return self._done(11, _two(type_))

    def find(self, chain, key):
        """The first detail with this key in the chain's current ring."""
        return self._done(12, _one(chain), bytes(key))

    def relink(self, chain, master):
        """The run's record to the ring of another master."""
        return self._done(13, _one(chain), _three(master))

    def _length(self, type_):
        """A type's data length, from its row of the table."""
        rows = range(3, 3 + 8 * self._words[1], 8)
        return next(self._words[row + 1] for row in rows if self._words[row] == type_)


def _one(number):
    return number.to_bytes(1, "big")


def _two(number):
    return number.to_bytes(2, "big")


def _three(number):
    return number.to_bytes(3, "big")
