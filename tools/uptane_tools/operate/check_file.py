"""Tells whether a database file has this product's tables and nothing more: no index, trigger or
column that an operator added.

    tools/run check_file FILE [FILE ..]

The program knows its file by `meta` alone, so it takes a file whose other tables were changed by
hand, and what is proved of lines and requests isn't proved over it (`docs/use/TABLES.md`). Under
Ed25519 it tells too which ECUs have a key that is none, which an older program took; and whether
each repository has the Root files that its number asks for. For each thing that is too much,
missing or different a line is printed:

    table retired: it is missing
    table ecu: the column note is too much
    index by_vehicle on ecu: it is too much
    ecu P1 of V1: its key is no Ed25519 public key: ..
    root of image: the number is 3, and 3.root.json is missing

Compared are the tables of the schema that `meta` names (1 to 4; where it names none, of the one
that is nearest) and what SQLite keeps as the file's own: tables, columns with their kinds and
rules, keys, references, indexes, triggers and views. Rows are not looked at, but for those of
`meta` and `image_repository`, the names of Root files, and ECUs' keys, of which a second has some
hundreds. Give it a file that no program writes to, or a copy. It is only read: where a log lies
beside it, it is read under another name, in a temporary folder. Of several files each line begins
with its file's name.

The status is 0 where the file has just what it has to, 1 where it hasn't or is no such database,
and 2 where it can't be read.
"""
import re
import shutil
import sqlite3
import sys
import tempfile
from contextlib import closing, contextmanager
from pathlib import Path

from typing import Any, Iterable, Iterator

from uptane_tools import arguments
from uptane_tools.operate import fleet_tables, points
from uptane_tools.operate.formats import REPOSITORIES
from uptane_tools.operate.statements import LACKS, made

LOGS = ("-wal", "-journal")
KINDS = ("table", "index", "trigger", "view")
# a word, a quoted name in one of four spellings, a text, a number, a mark; blanks and comments
# stand between
TOKEN = re.compile(
    r"""--[^\n]*|/\*.*?\*/|\s+|("(?:[^"]|"")*"|`(?:[^`]|``)*`|\[[^\]]*\]|'(?:[^']|'')*'|\w+|.)""",
    re.DOTALL)

# each thing's table and the words of its statement, by kind and name
Things = dict[tuple[str, str], tuple[str, list[str]]]


class Other(Exception):
    """The file is no database of this product."""


@contextmanager
def opened(path: Path) -> Iterator[sqlite3.Connection]:
    """A connection that reads the file and changes nothing, nor leaves anything beside it."""
    if Path(str(path) + "-journal").exists():
        with tempfile.TemporaryDirectory() as folder:
            own = Path(folder) / "copy"
            for end in ("", *LOGS):
                if Path(str(path) + end).exists():
                    shutil.copyfile(str(path) + end, str(own) + end)
            with closing(sqlite3.connect(own)) as db:
                yield db
    else:
        with fleet_tables.opened(path) as db:
            db.row_factory = None
            yield db


def tokens(sql: str) -> list[str]:
    """The words of a statement, however it is laid out: without blanks, comments and the quotes
    of names, in lower case but for texts.
    """
    found: list[str] = []
    for word in (it for it in TOKEN.findall(sql) if it):
        if word[0] == "'":
            found.append(word)
        elif word[0] in '"`[':
            found.append(word[1:-1].replace(2 * word[0], word[0]).lower())
        else:
            found.append(word.lower())
    return found


def listed(db: sqlite3.Connection) -> Things:
    """What SQLite keeps as the file's own: each thing's kind and name, with the table that it is
    on and the words of its statement.
    """
    rows = db.execute("SELECT type, name, tbl_name, sql FROM sqlite_schema").fetchall()
    return {
        (kind, name.lower()): (table.lower(), tokens(sql or "")) for kind, name, table, sql in rows}


def parts(db: sqlite3.Connection, table: str) -> dict[tuple[str, str], Any]:
    """A table's columns, keys and references, each with what there is to say of it."""
    columns = db.execute("PRAGMA table_xinfo(%s)" % table).fetchall()
    said = {("column", name.lower()): (kind.upper(), bool(not_null), default, key, hidden)
            for _, name, kind, not_null, default, key, hidden in columns}
    for row in db.execute("PRAGMA index_list(%s)" % table).fetchall():
        if row[3] != "c":
            names = [
                name or "?"
                for name, in db.execute("SELECT name FROM pragma_index_info(?)", row[1:2])]
            said["key", ", ".join(names).lower()] = row[3]
    for row in db.execute("PRAGMA foreign_key_list(%s)" % table).fetchall():
        said["reference", "%s to %s" % (row[3], row[2])] = row[1:]
    return said


def named(db: sqlite3.Connection, here: Things) -> tuple[int | None, list[str]]:
    """The schema that `meta` names, none where it names none, and what is amiss with its row."""
    if not here:
        raise Other("it has no tables")
    try:
        rows = db.execute("SELECT id, app, schema FROM meta").fetchall()
    except sqlite3.OperationalError:
        return None, []
    if len(rows) != 1:
        return None, ["meta: it has %d rows and not one" % len(rows)]
    number, app, schema = rows[0]
    if app != "uptane_desk":
        raise Other("meta names %r and not uptane_desk" % app)
    if schema not in LACKS:
        raise Other(
            "its schema is %r, and not one of %s" % (schema, ", ".join(map(str, sorted(LACKS)))))
    return schema, ["meta: its id is %r and not 1" % number] * (number != 1)


def differences(db: sqlite3.Connection, wanted: sqlite3.Connection, table: str,
                statement: list[str]) -> list[str]:
    """What of a table is too much, missing or different; its statement where nothing else tells."""
    here, there = parts(db, table), parts(wanted, table)
    found = ["the %s %s is missing" % it for it in there if it not in here]
    found += ["the %s %s is another" % it for it in there if it in here and here[it] != there[it]]
    found += ["the %s %s is too much" % it for it in here if it not in there]
    return [
        "table %s: %s" % (table, it)
        for it in found or ["it is made by other words: " + " ".join(statement)]]


def compared(db: sqlite3.Connection, here: Things, number: int) -> list[str]:
    """What of the file's own is too much, missing or different beside a schema."""
    with closing(sqlite3.connect(":memory:")) as wanted:
        there, found = listed(made(wanted, number)), []
        for kind, name in ordered(there):
            # (an index of these is one that SQLite makes for a key, which is told of with its
            # table)
            if kind == "table" and (kind, name) not in here:
                found.append("table %s: it is missing" % name)
            elif kind == "table" and here[kind, name] != there[kind, name]:
                found += differences(db, wanted, name, here[kind, name][1])
        for kind, name in ordered(set(here) - set(there)):
            table, statement = here[kind, name]
            if kind != "index" or statement:
                found.append("%s %s%s: it is too much" %
                             (kind, name, "" if kind in ("table", "view") else " on " + table))
    return found


def wrong_keys(db: sqlite3.Connection) -> list[str]:
    """A line for each ECU of a file of Ed25519 whose key is no public key."""
    try:
        root = db.execute("SELECT body FROM repo_file WHERE repository = 'director' AND "
                          "name = 'root.json'").fetchone()
        if not root or '"method":"ed25519"' not in str(root[0]):
            return []
        rows = db.execute("SELECT ecu, vehicle, public_key FROM ecu ORDER BY vehicle, place")
        return [
            "ecu %s of %s: its key is %s; replace the ECU" % (ecu, vehicle, points.NO_PUBLIC_KEY)
            for ecu, vehicle, key in rows if not (isinstance(key, bytes) and points.is_public(key))]
    except sqlite3.OperationalError:
        # (the tables are told of)
        return []


def wrong_numbers(db: sqlite3.Connection, schema: int | None) -> Iterator[str]:
    """A line for each Root file that a repository's number of root versions asks or doesn't."""
    sql = "SELECT name FROM repo_file WHERE repository = ? AND name GLOB '[0-9]*.root.json'"
    tables = ("meta", "image_repository" if schema == 4 else "meta")
    try:
        for repository, table in zip(REPOSITORIES, tables):
            there = {row[0] for row in db.execute(sql, (repository, ))}
            for (number, ) in db.execute("SELECT root FROM %s LIMIT 1" % table).fetchall():
                wanted = {"%d.root.json" % it for it in range(1, number + 1)}
                for name in sorted(there ^ wanted):
                    yield "root of %s: the number is %d, and %s is %s" % (
                        repository, number, name, "too much" if name in there else "missing")
    except (sqlite3.OperationalError, TypeError):
        # (the tables are told of)
        return


def ordered(things: Iterable[tuple[str, str]]) -> list[tuple[str, str]]:
    return sorted(things, key=lambda it: (KINDS.index(it[0]), it[1]))


def amiss(path: Path) -> list[str]:
    """A line for each thing that is too much, missing or different in a file."""
    if not path.is_file():
        raise OSError("%s is no file" % path)
    with path.open("rb") as file:
        if not file.read(1) and not Path(str(path) + LOGS[0]).exists():
            raise Other("it is empty")
    with opened(path) as db:
        here = listed(db)
        number, found = named(db, here)
        return found + min((compared(db, here, it)
                            for it in ([number] if number else sorted(LACKS, reverse=True))),
                           key=len) + wrong_keys(db) + list(wrong_numbers(db, number))


def told(path: str, front: str) -> int:
    """The status of a file, whose lines are printed."""
    try:
        found = amiss(Path(path))
    except (Other, sqlite3.DatabaseError) as why:
        print("%sit is no database of this product: %s" % (front, why))
        return 1
    except OSError as error:
        print("check_file: %s" % error, file=sys.stderr)
        return 2
    print("".join("%s%s\n" % (front, it) for it in found), end="")
    return 1 if found else 0


def main(words: arguments.Words = None) -> int:
    asked = arguments.parser(__doc__)
    asked.add_argument("files", nargs="+", metavar="FILE")
    files = asked.parse_args(words).files
    return max(told(path, path + ": " if len(files) > 1 else "") for path in files)
