"""Document 02 a: the journal for power loss.

A write is ("append", line), ("store", page, bytes) or ("clear",). A disk is
the file and the journal. Lines and stores reach it in order, and the last one
may be cut at any byte; a clear is whole or not at all. Refusals are 2 and 13.
"""

import binascii
from typing import NamedTuple

from layout import PAGE_BYTES, number
from ledger import BAD_SIZE

BAD_JOURNAL = 13
MOST_PAGES = 128
LINE_END = b"\n"
PAGE_NUMBER_BYTES = 2
READY_BYTES, DONE_BYTES = b"\x00\x00", b"\xFF\xFF"
IMAGE, READY, DONE = "image", "ready", "done"
APPEND, STORE, CLEAR = "append", "store", "clear"


class Disk(NamedTuple):
    """What is there when the power comes back."""

    file: bytes
    journal: bytes


class BadLine(Exception):
    """A complete line that is malformed, out of place or of a page outside the file."""


# Lines


def line(data):
    """Bytes as capitals of hexadecimal, with the line end."""
    return data.hex().upper().encode() + LINE_END


def image_line(file, page):
    """The page's number and its 512 bytes."""
    return line(page.to_bytes(PAGE_NUMBER_BYTES, "big") + page_in(file, page))


READY_LINE, DONE_LINE = line(READY_BYTES), line(DONE_BYTES)


def page_in(file, page):
    """The bytes of a page, from 1."""
    return file[PAGE_BYTES * (page - 1):PAGE_BYTES * page]


def page_count(file):
    """How many pages the file has; None where its length is no file's."""
    pages, rest = divmod(len(file), PAGE_BYTES)
    return pages if rest == 0 and 1 <= pages <= MOST_PAGES else None


# What a call writes


def changed(before, after):
    """The pages that differ, rising."""
    return [page for page in range(1, page_count(before) + 1)
            if page_in(before, page) != page_in(after, page)]


def writes(before, after):
    """Images of the pages that will change, ready, the stores, done."""
    pages = changed(before, after)
    if not pages:
        return []
    return ([(APPEND, image_line(before, page)) for page in pages] + [(APPEND, READY_LINE)]
            + [(STORE, page, page_in(after, page)) for page in pages] + [(APPEND, DONE_LINE)])


# The disk


def extent(write):
    """In how many steps a write reaches the disk: its bytes; one for a clear."""
    return 1 if write[0] == CLEAR else len(write[-1])


def partly(disk, write, count):
    """The disk where only the first count steps of the write reached it."""
    if write[0] == CLEAR:
        return disk._replace(journal=b"") if count else disk
    data = write[-1][:count]
    if write[0] == APPEND:
        return disk._replace(journal=disk.journal + data)
    at = PAGE_BYTES * (write[1] - 1)
    return disk._replace(file=disk.file[:at] + data + disk.file[at + len(data):])


def performed(disk, some):
    """The disk after these writes, all whole."""
    for write in some:
        disk = partly(disk, write, extent(write))
    return disk


def cut(disk, some, place, count):
    """The disk where the power went in the write at this place, after count steps of it."""
    return partly(performed(disk, some[:place]), some[place], count)


# Recovery


def complete_lines(journal):
    """The lines that have their line end; what follows the last one is ignored."""
    return journal.split(LINE_END)[:-1]


def read_line(text):
    """What a line is: (IMAGE, page, bytes), (READY,) or (DONE,). Digits in either case."""
    try:
        data = binascii.unhexlify(text)
    except binascii.Error:
        raise BadLine from None
    if data == READY_BYTES:
        return (READY,)
    if data == DONE_BYTES:
        return (DONE,)
    if len(data) != PAGE_NUMBER_BYTES + PAGE_BYTES:
        raise BadLine
    return IMAGE, number(data, 0, PAGE_NUMBER_BYTES), data[PAGE_NUMBER_BYTES:]


def last_group(journal, pages):
    """The images of the group that has no done yet, and whether it has its ready.

    The lines go by groups: images, rising, then ready, then done. Only the last may be unfinished.
    """
    images, ready = [], False
    for text in complete_lines(journal):
        kind, *rest = read_line(text)
        if kind == IMAGE:
            page = rest[0]
            if ready or not 1 <= page <= pages or (images and page <= images[-1][0]):
                raise BadLine
            images.append(tuple(rest))
        elif kind == READY:
            if ready or not images:
                raise BadLine
            ready = True
        else:
            if not ready:
                raise BadLine
            images, ready = [], False
    return images, ready


def recovery(disk):
    """The refusal due, or 0; and what recovery writes, the clear last."""
    pages = page_count(disk.file)
    if pages is None:
        return BAD_SIZE, []
    try:
        images, ready = last_group(disk.journal, pages)
    except BadLine:
        return BAD_JOURNAL, []
    back = [(STORE, page, data) for page, data in images] if ready else []
    return 0, back + [(CLEAR,)]


def recovered(disk):
    """The refusal or 0, and the disk as recovery leaves it: on a refusal as it was."""
    refusal, some = recovery(disk)
    return refusal, performed(disk, some)
