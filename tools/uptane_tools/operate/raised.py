"""Copies a desk's file before a newer program raises its schema, which can't be undone.

    tools/run raised FILE COPIES

FILE is one that no program has open. Where its schema is the program's own, or there is no file
yet, nothing is done. Else it and its log are copied into COPIES, which is made where it isn't
there, as `NAME-TIME-schemaN.db`, for root alone; such copies are never removed. The status is 0,
or 1 with a message where no copy could be made: then nothing may be started.
"""
import os
import sqlite3
import sys
import time
from pathlib import Path

from uptane_tools import arguments
from uptane_tools.operate import copy_served, fleet_tables, statements


def copied(path: Path, copies: Path) -> Path | None:
    """The copy; none where nothing will be raised."""
    with fleet_tables.opened(path) as db:
        schema = fleet_tables.meta_of(db)["schema"]
    if schema >= statements.SCHEMA:
        return None
    copies.mkdir(mode=0o700, parents=True, exist_ok=True)
    to = copies / ("%s-%s-schema%d.db" %
                   (path.stem, time.strftime("%Y%m%dT%H%M%SZ", time.gmtime()), schema))
    copy_served.copy(0, str(path), str(to))
    return to


def main(words: arguments.Words = None) -> int:
    parser = arguments.parser(__doc__)
    parser.add_argument("file", type=Path)
    parser.add_argument("copies", type=Path)
    given = parser.parse_args(words)
    os.umask(0o077)
    try:
        to = copied(given.file,
                    given.copies) if given.file.exists() and given.file.stat().st_size else None
    except fleet_tables.Other:
        # (the program says by itself what it is)
        to = None
    except (OSError, sqlite3.Error) as wrong:
        print("raised: %s: no copy could be made before the raise: %s" % (given.file, wrong),
              file=sys.stderr)
        return 1
    if to:
        print("%s is of an older schema, which the start raises: a copy is %s" % (given.file, to))
    return 0
