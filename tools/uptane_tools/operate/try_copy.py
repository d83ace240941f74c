"""Has the program open a copy as it would at a start, which tests each page's sum and each row,
before the copy counts and takes an older one's place.

    tools/run try_copy PROGRAM COPY

It takes the time and the memory of a start over that file. Then the log is in COPY, which stands
alone; a changed bit in the log isn't told, as at a start. Where a start would raise COPY's
schema, a copy of it is opened in its place, and COPY and its log stay as they are. Until the
program has taken it the copy is `NAME-untaken.db`, and one that it refuses keeps that name.

The status is 0, or 1 with a message where the program didn't take it.
"""
import contextlib
import os
import sqlite3
import subprocess
import sys
import tempfile
from pathlib import Path

from uptane_tools import arguments
from uptane_tools.operate import copy_served, fleet_tables, statements


class Refused(Exception):
    """Why the program doesn't take a file, in its words."""


def opened(words: list[str], path: Path) -> None:
    """Runs the program over the file without a line. `words` are the program, behind what starts
    it as another user. Where memory is short, it is what ends, and not the service.
    """
    with subprocess.Popen([*words, "run", str(path)], stdin=subprocess.DEVNULL,
                          stdout=subprocess.DEVNULL, stderr=subprocess.PIPE) as ran:
        with contextlib.suppress(OSError):
            Path("/proc/%d/oom_score_adj" % ran.pid).write_text("1000", encoding="ascii")
        said = ran.communicate()[1].decode("ascii", "replace").strip()
    if ran.returncode:
        raise Refused("the program doesn't take it: %s" %
                      (said.splitlines()[-1] if said else "it ended with %d" % ran.returncode))
    log = fleet_tables.log_of(path)
    if log.exists() and log.stat().st_size <= fleet_tables.EMPTY_LOG:
        log.unlink()


def restored(copy: Path, to: Path) -> None:
    """The copy and its log at a new place."""
    for one, other in ((copy, to), (fleet_tables.log_of(copy), fleet_tables.log_of(to))):
        if one.exists():
            copy_served.copied(one, other)


def is_older(path: Path) -> bool:
    """Whether a start would raise the file's schema."""
    try:
        with fleet_tables.opened(path) as db:
            return fleet_tables.meta_of(db)["schema"] < statements.SCHEMA
    except (fleet_tables.Other, sqlite3.Error):
        # (the program says what it is)
        return False


def renamed(path: Path, to: Path) -> None:
    """The file and its log, which are one copy."""
    for one, other in ((fleet_tables.log_of(path), fleet_tables.log_of(to)), (path, to)):
        if one.exists():
            one.rename(other)


def tried(program: str, copy: Path) -> None:
    if is_older(copy):
        with tempfile.TemporaryDirectory(dir=copy.parent, prefix="try-") as own:
            restored(copy, Path(own) / "desk.db")
            opened([program], Path(own) / "desk.db")
    else:
        opened([program], copy)


def main(words: arguments.Words = None) -> int:
    parser = arguments.parser(__doc__)
    parser.add_argument("program")
    parser.add_argument("copy", type=Path)
    given = parser.parse_args(words)
    os.umask(0o077)
    untaken = given.copy.with_name(given.copy.stem + "-untaken.db")
    try:
        renamed(given.copy, untaken)
        tried(given.program, untaken)
        renamed(untaken, given.copy)
    except (Refused, OSError) as wrong:
        print("try_copy: %s: %s" % (untaken, wrong), file=sys.stderr)
        return 1
    return 0
