"""Writes the sum of each page of a database file anew, after SQLite has tested the file.

    tools/run page_sums FILE

A file of the product has a sum on each page, as SQLite's extension `cksumvfs` writes them. A
copy that sqlite3 makes without that extension (`.backup`) has a wrong one on its first page, and
the program refuses it. This makes such a copy one that the program takes. A file whose pages
have no sums is left as it is. Never use it on a file that the program refuses without a copy
having been made by sqlite3: then a sum has found damage.

The status is 0, or 1 with a message where SQLite finds the file damaged, or where it isn't a
database of this product: an empty file is none. That file stays as it was.
"""
import sqlite3
import struct
import sys
from contextlib import closing
from pathlib import Path

from typing import BinaryIO

from uptane_tools import arguments

RESERVED = 8
PRODUCT = [(1, "uptane_desk")]


def sum_of(page: bytes) -> bytes:
    """Two sums of 32 bits over the words of the page, but for its last eight bytes."""
    first = second = 0
    words = iter(struct.unpack("<%dI" % (len(page) // 4 - 2), page[:-RESERVED]))
    for word in words:
        first = (first + word + second) & 0xFFFFFFFF
        second = (second + next(words) + first) & 0xFFFFFFFF
    return struct.pack("<II", first, second)


def page_size(data: bytes) -> int:
    size = int.from_bytes(data[16:18], "big")
    return 65536 if size == 1 else size


def written(file: BinaryIO, size: int) -> None:
    """Writes each sum that is wrong, a page after the other."""
    at = 0
    file.seek(0)
    while page := file.read(size):
        made = sum_of(page)
        if made != page[-RESERVED:]:
            file.seek(at + size - RESERVED)
            file.write(made)
        at += size
        file.seek(at)


def has_sums(data: bytes) -> bool:
    return data[:16] == b"SQLite format 3\0" and data[20] == RESERVED


def faults(path: str | Path) -> list[str]:
    """What SQLite finds wrong. It also copies a log that is there into a file of this product."""
    with closing(sqlite3.connect("%s?mode=rw" % Path(path).resolve().as_uri(), uri=True)) as db:
        if db.execute("SELECT id, app FROM meta").fetchall() != PRODUCT:
            return ["not a database of uptane_desk"]
        db.execute("PRAGMA wal_checkpoint(TRUNCATE)").fetchall()
        found = [row[0] for row in db.execute("PRAGMA integrity_check") if row[0] != "ok"]
        return found + [str(row) for row in db.execute("PRAGMA foreign_key_check")]


def rewritten(path: str | Path) -> int:
    try:
        found = faults(path)
    except sqlite3.Error as error:
        found = [str(error)]
    if found:
        print("page_sums: %s: %s" % (path, "; ".join(found)), file=sys.stderr)
        return 1
    with open(path, "r+b") as file:
        head = file.read(100)
        if has_sums(head):
            written(file, page_size(head))
    return 0


def main(words: arguments.Words = None) -> int:
    return rewritten(arguments.given(__doc__, words, "file").file)
