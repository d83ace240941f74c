"""Databases of the schemas that came before the one of `docs/use/TABLES.md`: files of them with
rows of today's.
"""
import sqlite3
from contextlib import closing
from pathlib import Path
from typing import Any

from uptane_tools.operate import page_sums
from uptane_tools.operate.statements import LACKS, SCHEMA, made
from uptane_tools.trial import trials


def described(
    db: sqlite3.Connection
) -> dict[str, tuple[int, list[tuple[int, str, str, int, None, int]], list[tuple[tuple[
        int, str], tuple[Any, ...]]], list[tuple[int, int, str, str, str, str, str, str]]]]:
    """Each table as SQLite describes it: strictness, columns, keys and references."""
    found = {}
    listed = ("SELECT name, strict FROM pragma_table_list WHERE schema = 'main' AND name <> "
              "'sqlite_schema'")
    for table, strict in db.execute(listed):
        indexes = sorted((row[2:4],
                          tuple(db.execute("SELECT name FROM pragma_index_info(?)", row[1:2])))
                         for row in db.execute("PRAGMA index_list(%s)" % table))
        columns = db.execute("PRAGMA table_info(%s)" % table).fetchall()
        found[table] = strict, columns, indexes, db.execute(
            "PRAGMA foreign_key_list(%s)" % table).fetchall()
    return found


def of_schema(
    number: int
) -> dict[str, tuple[int, list[tuple[int, str, str, int, None, int]], list[tuple[tuple[
        int, str], tuple[Any, ...]]], list[tuple[int, int, str, str, str, str, str, str]]]]:
    with closing(sqlite3.connect(":memory:")) as db:
        return described(made(db, number))


DESCRIBED = {number: of_schema(number) for number in LACKS}


def number_in(db: sqlite3.Connection) -> int:
    """The schema whose tables the database has and whose number `meta` has; none where it has
    others.
    """
    if described(db) not in DESCRIBED.values():
        return None
    told = [tuple(row) for row in db.execute("SELECT id, app, schema FROM meta")]
    return next((n for n, tables in DESCRIBED.items()
                 if told == [(1, "uptane_desk", n)] and described(db) == tables), None)


def schema_of(path: str | Path) -> int:
    """The schema that the file has; none where it has none of ours."""
    with trials.read(path) as db:
        return number_in(db)


def raised(told: dict[str, Any]) -> dict[str, Any]:
    """What a raise makes of the rows of schema 1, 2 or 3: both repositories have one number,
    Targets the version of the other files, and the secrets of earlier root versions go.
    """
    root, version = told["meta"][0][3:5]
    keys = [row for row in told["role_key"] if row[0] >= root]
    return told | {"role_key": keys, "image_repository": [(1, root, version)]}


def rows(path: str | Path) -> dict[str, list[tuple[Any, ...]]]:
    """All rows of a file as they are, or are to be, once it was raised; none where it has tables
    of no schema.
    """
    with trials.read(path) as db:
        found = number_in(db)
        if found is None:
            return None
        there = [table for table in trials.TABLES if table not in LACKS[found]]
        told: dict[str, Any] = {
            table: sorted(map(tuple, db.execute("SELECT * FROM " + table)), key=repr)
            for table in there}
        told["meta"] = [(*told["meta"][0][:2], SCHEMA, *told["meta"][0][3:])]
        if found != SCHEMA:
            told = raised(told)
        return {table: told.get(table, []) for table in trials.TABLES}


def with_history(db: sqlite3.Connection) -> None:
    """Puts secrets of earlier root versions before those of the last, as files of older schemas
    have them.
    """
    last = db.execute("SELECT root FROM meta").fetchone()[0]
    keys = db.execute("SELECT * FROM role_key ORDER BY rowid").fetchall()
    db.execute("DELETE FROM role_key")
    for root in range(1, last):
        for _, repository, role, place, secret, threshold in keys:
            other = bytes(byte ^ root for byte in secret)
            db.execute("INSERT INTO role_key VALUES (?, ?, ?, ?, ?, ?)",
                       (root, repository, role, place, other, threshold))
    db.executemany("INSERT INTO role_key VALUES (?, ?, ?, ?, ?, ?)", keys)


def written(path: str | Path, to: Path, number: int) -> Path:
    """The same rows, table by table, in a file that SQLite makes by the statements of a schema; of
    an older one with secrets of earlier root versions. Its pages have no sums.
    """
    with trials.read(path) as db, closing(sqlite3.connect(to)) as new, made(new, number):
        for table in DESCRIBED[number]:
            for row in db.execute("SELECT * FROM %s ORDER BY rowid" % table):
                new.execute("INSERT INTO %s VALUES (%s)" % (table, ", ".join("?" * len(row))), row)
        new.execute("UPDATE meta SET schema = ?", (number, ))
        if number != SCHEMA:
            with_history(new)
    return to


def lowered(path: str | Path, to: Path, number: int) -> Path | None:
    """A copy of a file of the program's own, whose tables SQLite takes back to a schema; to an
    older one with secrets of earlier root versions. Its pages have sums.
    """
    trials.copied(path, to)
    with closing(sqlite3.connect(to, isolation_level=None)) as db:
        for table in LACKS[number]:
            db.execute("DROP TABLE " + table)
        db.execute("UPDATE meta SET schema = ?", (number, ))
        if number != SCHEMA:
            with_history(db)
        db.execute("VACUUM")
        db.execute("PRAGMA wal_checkpoint(TRUNCATE)").fetchall()
    trials.log_of(to).unlink(missing_ok=True)
    return to if page_sums.rewritten(to) == 0 else None
