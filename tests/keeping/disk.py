"""The disk as a loss of power may leave it: what was synced is there, and of the rest any part."""

import os
from typing import NamedTuple

# Drawn cuts at each moment.
DRAWN = 7


class Op(NamedTuple):
    """One line of the log: a rename's data is the new path, a truncation's offset the new length."""

    kind: str
    path: str
    offset: int
    data: bytes


def read_log(text):
    """The operations in a log, with plain paths."""
    some, at = [], 0
    while at < len(text):
        end = text.index(b"\n", at)
        kind, path, offset, size = text[at:end].decode().split(" ")
        at = end + 1 + int(size)
        some.append(Op(kind, os.path.normpath(path), int(offset), text[end + 1:at]))
    return some


class Disk:
    """Names and files that have reached the disk, and the operations that may not have, in their order."""

    def __init__(self, files):
        self.names = {path: number for number, path in enumerate(files)}
        self.blocks = dict(enumerate(files.values()))
        # The names as the program sees them; each operation waits with the number of its file.
        self.seen, self.waiting = dict(self.names), []

    def do(self, op):
        """The program does one operation; a sync brings what waits for it to the disk."""
        if op.kind == "sync":
            return self.sync(op.path)
        if op.kind == "make":
            self.seen[op.path] = len(self.blocks)
            self.blocks[len(self.blocks)] = b""
        self.waiting.append((op, self.seen[op.path]))
        if op.kind in ("rename", "unlink"):
            number = self.seen.pop(op.path)
            if op.kind == "rename":
                self.seen[op.data.decode()] = number

    def sync(self, path):
        """A file's bytes, or the names in a folder, have reached the disk."""
        number = self.seen.get(path)
        for op, owner in self.waiting:
            if self.synced_by(op, owner, path, number):
                reach(self.names, self.blocks, op, owner, len(op.data))
        self.waiting = [(op, owner) for op, owner in self.waiting if not self.synced_by(op, owner, path, number)]

    def synced_by(self, op, owner, path, number):
        """Whether a sync of this path, or of the file with that number, brings the operation to the disk."""
        if op.kind in ("make", "rename", "unlink"):
            return (os.path.dirname(op.path) or ".") == path
        return owner == number

    def left(self, counts):
        """The files after a cut: of each waiting operation, None or how many of its bytes have reached the disk."""
        names, blocks = dict(self.names), dict(self.blocks)
        for (op, owner), count in zip(self.waiting, counts):
            if count is not None:
                reach(names, blocks, op, owner, count)
        return {path: blocks[number] for path, number in names.items()}

    def whole(self):
        """The files as the program sees them."""
        return self.left([len(op.data) for op, _ in self.waiting])

    def drawn(self, rng):
        """A drawn cut: each waiting operation is there or not, or of a write only its first bytes."""
        return self.left([rng.choice([None, len(op.data), cut_of(rng, op)]) for op, _ in self.waiting])

    def cuts(self, rng):
        """The files after some cuts: with none of what waits, with all of it, and drawn ones."""
        yield self.left([None] * len(self.waiting))
        if self.waiting:
            yield self.whole()
            for _ in range(DRAWN):
                yield self.drawn(rng)


def cut_of(rng, op):
    """How many bytes of an operation reach the disk in a drawn cut, often nearly none or nearly all."""
    if op.kind != "write" or len(op.data) < 2:
        return None
    size = len(op.data)
    return rng.choice([1, size - 1, rng.randint(1, size - 1), min(rng.randint(1, 20), size - 1)])


def reach(names, blocks, op, number, count):
    """An operation reaches the disk, of a write its first bytes."""
    if op.kind == "make":
        names[op.path] = number
    elif op.kind == "write":
        old, data = blocks[number].ljust(op.offset, b"\0"), op.data[:count]
        blocks[number] = old[:op.offset] + data + old[op.offset + len(data):]
    elif op.kind == "truncate":
        blocks[number] = blocks[number][:op.offset].ljust(op.offset, b"\0")
    else:
        names.pop(op.path, None)
        if op.kind == "rename":
            names[op.data.decode()] = number
