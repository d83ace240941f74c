"""Damages each column of each table of a file in turn, and sees what the program answers over
it. Takes about half a minute.

    tools/run damaged_rows PROGRAM

A story is carried out over a file: a founding and a rotation, with roles of one key and of two,
vehicles, images with needs, conflicts and second hashes, campaigns for all and by name,
manifests with replies, and a replaced ECU. Then SQLite damages one column of one row of a copy,
in each of the ways that fit what stands there: a value of another type or null, a number past
its limit or below 0, a name with a forbidden byte, a blob of another length, a text that is no
JSON, JSON of another form, an empty text. Over each copy the program is given one script, with
lines of each command that could read the row.

Where the row breaks the schema, as SQLite tells, the program doesn't start and leaves the file
as it is. Else each line is answered as over the story's own file, or `refused 2 Store`, and no
line that is refused so changes a row of any table. Some columns are answered otherwise today,
and are named here: `KEYS` and `AS_THEY_STAND`. There each line is answered by the rules of
`tools/run reference` over the rows as they stand, or `Store`.

promise: store-columns
"""
import copy
import os
import re
import shutil
import sqlite3
from collections.abc import Iterator
from concurrent.futures import ThreadPoolExecutor
from contextlib import closing
from itertools import repeat
from pathlib import Path
from typing import Any

from uptane_tools import arguments
from uptane_tools.measure import fleet
from uptane_tools.operate import statements
from uptane_tools.oracle import reference
from uptane_tools.trial import tables, trials

LOST = "refused 2 Store"
MOST = 2**53 - 1
START = fleet.START

# ---- the story


def vehicle(name: str, *ecus: Any) -> str:
    told = [{"ecu": ecu, "hardware": kind, "key": fleet.key(7)} for ecu, kind in ecus]
    return fleet.line("add_vehicle", vehicle=name, primary=ecus[0][0], ecus=told)


def image(file: str, kind: str, release: int, **more: Any) -> str:
    told = {
        "file": file, "length": 3, "sha256": fleet.digest(file), "hardware": [kind],
        "release": release, **more}
    return fleet.line("add_image", **told)


def campaign(name: str, vehicles: list[str] | str, *items: Any) -> str:
    return fleet.line("open_campaign", campaign=name, vehicles=vehicles,
                      items=[{"hardware": k, "file": f} for k, f in items])


def replaced(name: str, old: str, ecu: str) -> str:
    return fleet.line("replace_ecu", vehicle=name, old=old, ecu=ecu, hardware="HS",
                      key=fleet.key(7))


def delivered(name: str, counter: int, *ecus: str, key: int = 7, **others: int) -> str:
    """A manifest with a report of each ECU at the same counter, but for those of which it is
    told, of the factory's image.
    """
    reports = [{
        "ecu": ecu, "counter": others.get(ecu, counter), "key": fleet.key(7), "time": START,
        **fleet.FACTORY} for ecu in ecus]
    reports[0]["sha512"] = fleet.second("factory")
    told = {
        "vehicle": name, "primary": ecus[0], "key": fleet.key(key), "counter": counter,
        "reports": reports}
    return fleet.line("deliver", body=fleet.body(told))


def fetch(repository: str, file: str) -> str:
    return fleet.line("fetch", repository=repository, file=file)


def show(name: str) -> str:
    return fleet.line("show", vehicle=name)


def close(name: str) -> str:
    return fleet.line("close_campaign", campaign=name)


def of_two() -> dict[str, Any]:
    """Keys for a rotation: a role of each repository has two, and asks for both."""
    keys = fleet.key_set(9)
    for repository, role in (("director", "targets"), ("image", "root")):
        keys[repository][role]["keys"].append(fleet.key(30))
        keys[repository][role]["threshold"] = 2
    return keys


NEEDED, REFUSED = [{"hardware": "HS", "release": 9}], ["factory.bin"]


def told_before() -> Iterator[str]:
    """V1 has updates, V2 one that is withheld for a need, V3 one that is withheld for a
    conflict, V4 has no manifest.
    """
    yield fleet.line("found", **fleet.key_set(1))
    yield from (vehicle("V1", ("P1", "HP"), ("S0", "HS"), ("E1", "HT")),
                vehicle("V2", ("P2", "HP"), ("S2", "HS")))
    yield from (vehicle("V3", ("P3", "HP"), ("S3", "HS")), vehicle("V4", ("P4", "HP")))
    yield image("a", "HP", 1, sha512=fleet.second("a"))
    yield image("b", "HS", 2, needs=[{"hardware": "HP", "release": 1}], conflicts=["z"])
    yield from (image("n", "HP", 5, needs=NEEDED), image("k", "HP", 5, conflicts=REFUSED),
                image("u", "HT", 1))
    yield from (campaign("everyone", "all", ("HP", "a")), campaign("mine", ["V1"], ("HS", "b")))
    yield from (campaign("second", ["V2"], ("HP", "n")), campaign("third", ["V3"], ("HP", "k")))
    yield from (campaign("over", ["V2", "V4"], ("HS", "b")), close("over"))
    yield from (delivered("V1", 1, "P1", "S0", "E1"), replaced("V1", "S0", "S1"))
    yield fleet.line("rotate", **of_two())
    yield from (delivered("V1", 3, "P1", "S1", "E1"), delivered("V2", 1, "P2", "S2"),
                delivered("V3", 1, "P3", "S3"))


FILES = [(repository, name) for repository in ("director", "image")
         for name in ("root.json", "1.root.json", "2.root.json")]
FILES += [("image", "targets.json"), ("image", "snapshot.json"), ("image", "timestamp.json"),
          ("image", "none")]


def asked() -> Iterator[str]:
    """Lines of each command: views and files, refusals and repeats, then what changes rows, and
    manifests in between.
    """
    yield from (show("V%d" % number) for number in range(1, 6))
    yield from (fetch(*file) for file in FILES)
    yield from (delivered("V1", 1, "P1", "S0", "E1"), delivered("V1", 3, "P1", "S1", "E1"),
                delivered("V2", 1, "P2", "S2"))
    yield from (delivered("V3", 1, "P3", "S3"), delivered("V1", 2, "P1", "S1", "E1"),
                delivered("V1", 1, "P1", "S1", "E1"))
    yield from (delivered("V5", 1, "P1"), delivered("V1", 4, "S1", "P1"),
                delivered("V1", 4, "P1", "S1", "E1", key=8))
    yield from (delivered("V1", 4, "P1", "S1"), delivered("V1", 4, "P1", "S1", "E1", "S0"),
                delivered("V1", 4, "P1", "S1", "E1", S1=2))
    yield delivered("V1", 4, "P1", "S1", "E1", S1=3)
    yield from (delivered("V2", 4, "P2", "S2"), delivered("V3", 4, "P3", "S3"),
                delivered("V4", 4, "P4"), show("V1"))
    yield fleet.line("found", **fleet.key_set(1))
    yield from (vehicle("V2", ("P2", "HP"), ("S2", "HS")), vehicle("V1", ("P1", "HP")),
                vehicle("V6", ("S0", "HP")))
    yield from (vehicle("V6", ("S1", "HP")), vehicle("V6", ("P6", "HP"), ("S6", "HS")),
                delivered("V6", 1, "P6", "S6"))
    yield from (replaced("V1", "E1", "S0"), replaced("V1", "E1", "S2"), replaced("V1", "S0", "E2"),
                replaced("V1", "P1", "E2"))
    yield from (replaced("V5", "E1", "E2"), replaced("V1", "E1", "E2"),
                delivered("V1", 5, "P1", "S1", "E2"))
    yield from (image("a", "HP", 1, sha512=fleet.second("a")), image("a", "HP", 2),
                image("c", "HT", 1), delivered("V2", 5, "P2", "S2"))
    yield from (campaign("mine", ["V1"], ("HS", "b")), campaign("mine", "all", ("HS", "b")),
                campaign("over", ["V2", "V4"], ("HS", "b")))
    yield from (campaign("new", "all", ("HP", "none")), campaign("new", "all", ("HT", "a")),
                campaign("new", ["V5"], ("HP", "a")))
    yield from (campaign("new", ["V1", "V4"], ("HP", "a")), delivered("V4", 5, "P4"), close("none"),
                close("over"), close("mine"))
    yield from (delivered("V1", 6, "P1", "S1", "E2"), fleet.line("refresh", version=3),
                fleet.line("refresh", version=99))
    yield from (delivered("V3", 5, "P3", "S3"), fleet.line("rotate", **fleet.key_set(17)),
                delivered("V3", 6, "P3", "S3"))
    yield from (show("V%d" % number) for number in range(1, 7))
    yield from (fetch(*file) for file in FILES)


# ---- damages: what SQLite puts in the place of a value, where `%s` is the column

NO_UTF8 = "CAST(x'ff' AS TEXT)"
OTHER_TYPES = {
    "INTEGER": ["NULL", "'x'", "CAST(%s AS TEXT)", "x'00'", "1.5"], "TEXT": [
        "NULL", "7", "CAST(%s AS BLOB)"], "BLOB": ["NULL", "7", "hex(%s)"]}
COUNT = [str(MOST + 1), str(2**63 - 1), "-1"]
MOMENT = [str(reference.LAST_MOMENT + 1), str(2**63 - 1), "-1"]
NAME = ["''", "%s || ' '", "char(10) || %s", "printf('%.*c', 65, 'A')", NO_UTF8]
FILE_NAME = ["''", "%s || ' '", "char(10) || %s", "printf('%.*c', 129, 'A')", NO_UTF8]
WORD = ["''", "upper(%s)", "%s || ' '", NO_UTF8]
BYTES = ["x''", "substr(%s, 2)", "CAST(%s || x'00' AS BLOB)"]
TEXT = ["''", "'x'", "substr(%s, 2)", NO_UTF8]
JSON = TEXT + ["'null'", "'{}'", "'[7]'", "'[{}]'"]


def json_of(*values: Any) -> list[str]:
    """What is no JSON or of another kind, and these values."""
    return JSON + ["'%s'" % reference.canonical(value) for value in values]


NAMES = json_of([], ["HP", "HP"], ["H P"], [""], ["H%d" % number for number in range(17)])
NEEDS = json_of([{"hardware": "HP"}], [{"release": 1}], [{"hardware": "H P", "release": 1}],
                [{"hardware": "HP", "release": -1}], [{"hardware": "HP", "release": MOST + 1}],
                [{"hardware": "HP", "release": "1"}], 17 * [{"hardware": "HP", "release": 1}])
CONFLICTS = json_of(["a b"], [""], ["f%d" % number for number in range(17)]) + ["json_array(file)"]
REACH = json_of("none", [], ["V 1"], [""], ["V%d" % number for number in range(1001)])
ITEMS = json_of([], [{"file": "a"}], [{"hardware": "HP"}], [{"file": "a b", "hardware": "HP"}],
                [{"file": "a", "hardware": ""}], 17 * [{"file": "a", "hardware": "HP"}])
ASSIGNED = [{}, [{"ecu": "P1"}], [{"file": "a"}], [{"ecu": "P 1", "file": "a"}],
            [{"ecu": "P1", "file": "a b"}]]
WITHHELD = [{}, "P1", {"ecu": "P1"}, {"file": "a"}, {"ecu": "P1", "file": ""}, {
    "ecu": "P1", "hardware": "H P"}]
PLAN = json_of({"assigned": []}, {"withheld": None},
               *({"assigned": assigned, "withheld": None} for assigned in ASSIGNED),
               *({"assigned": [], "withheld": withheld} for withheld in WITHHELD))
WAYS: dict[str, dict[str, list[str]]] = {
    "meta": {
        "id": ["2", "-1"], "app": TEXT + ["'other'"],
        "schema": COUNT + ["0", str(statements.SCHEMA + 1)], "root": COUNT, "image_version": COUNT,
        "stamp": MOMENT}, "role_key": {
            "root": COUNT, "repository": WORD, "role": WORD, "place": COUNT, "secret": BYTES,
            "threshold": COUNT + ["0"]}, "repo_file": {
                "repository": WORD, "name": FILE_NAME, "body": TEXT}, "image": {
                    "file": FILE_NAME, "length": COUNT, "sha256": BYTES, "hardware": NAMES,
                    "release_count": COUNT, "needs": NEEDS, "conflicts": CONFLICTS},
    "campaign": {"name": NAME, "reach": REACH, "items": ITEMS, "running": ["2", "-1"]}, "vehicle": {
        "vehicle": NAME, "primary_ecu": NAME, "version": COUNT, "last_counter": COUNT}, "ecu": {
            "ecu": NAME, "vehicle": NAME, "place": COUNT, "hardware": NAME, "public_key": BYTES,
            "file": FILE_NAME, "length": COUNT, "sha256": BYTES, "counter": COUNT,
            "report": TEXT}, "kept": {
                "vehicle": NAME, "counter": COUNT, "version": COUNT, "moment": MOMENT,
                "root": COUNT, "signed": TEXT, "plan_text": PLAN, "reply": TEXT}, "retired": {
                    "ecu": NAME, "vehicle": NAME}, "image_sha512": {
                        "file": FILE_NAME, "sha512": BYTES}, "image_repository": {
                            "id": ["2", "-1"], "root": COUNT,
                            "targets": COUNT}, "retired_vehicle": {"vehicle": NAME}}
# the rows that are damaged, one after another
ROWS: dict[str, list[str]] = {
    "meta": ["id = 1"], "role_key": [
        "root = 2 AND repository = 'director' AND role = 'snapshot'",
        "root = 2 AND repository = 'director' AND role = 'targets' AND place = 1",
        "root = 2 AND repository = 'image' AND role = 'root' AND place = 0",
        "root = 2 AND repository = 'image' AND role = 'timestamp'"], "repo_file": [
            "repository = 'director' AND name = '1.root.json'",
            "repository = 'image' AND name = 'targets.json'"],
    "image": ["file = 'a'", "file = 'n'", "file = 'k'"], "campaign": [
        "name = 'everyone'", "name = 'mine'", "name = 'over'"], "vehicle": [
            "vehicle = 'V1'", "vehicle = 'V4'"], "ecu": [
                "ecu = 'P1'", "ecu = 'S1'", "ecu = 'E1'", "ecu = 'P4'"], "kept": [
                    "vehicle = 'V1' AND counter = 1", "vehicle = 'V1' AND counter = 3",
                    "vehicle = 'V2' AND counter = 1"], "retired": ["ecu = 'S0'"], "image_sha512": [
                        "file = 'a'"], "image_repository": ["id = 1"], "retired_vehicle": []}


def damages() -> Iterator[tuple[str, str, str, str]]:
    """A table, a column, where its row is, and the value that is put there. A value of another
    type is tried in one row of a table.
    """
    with closing(sqlite3.connect(":memory:")) as db:
        for statement in statements.schema():
            db.execute(statement)
        types = {(table, it[1]): it[2] for table in trials.TABLES
                 for it in db.execute("PRAGMA table_info(%s)" % table)}
    for (table, column), kind in types.items():
        others = OTHER_TYPES[kind] if column != "id" else []
        for row in ROWS[table]:
            ways = WAYS[table][column] + (others if row == ROWS[table][0] else [])
            yield from ((table, column, row, way.replace("%s", column)) for way in ways)


def loose(statement: str) -> str:
    """The statement of a table without types, so that any value goes into any column; keys stay."""
    return re.sub(r" (TEXT|BLOB|INTEGER)( NOT NULL)?(?! PRIMARY KEY, (?:app|root))|STRICT$", "",
                  statement)


def connected(path: Path) -> sqlite3.Connection:
    """A connection to a file that need not last."""
    db = sqlite3.connect(path, isolation_level=None)
    db.execute("PRAGMA synchronous = OFF")
    db.execute("PRAGMA journal_mode = MEMORY").fetchall()
    db.text_factory = lambda told: ("text", told)
    return db


def set_statement(db: sqlite3.Connection, table: str, statement: str) -> None:
    db.execute("PRAGMA writable_schema = ON")
    db.execute("UPDATE sqlite_schema SET sql = ? WHERE type = 'table' AND name = ?",
               (statement, table))


def loosened(path: Path, to: Path, table: str) -> tuple[Path, str]:
    """A copy in which a table takes any value, and the table's own statement."""
    shutil.copy(path, to)
    with closing(connected(to)) as db:
        [(_, strict)] = db.execute(
            "SELECT sql FROM sqlite_schema WHERE type = 'table' AND name = ?",
            (table, )).fetchone()
        set_statement(db, table, loose(strict.decode()))
    return to, strict.decode()


def damaged(made: tuple[Path, str], to: Path, table: str, column: str, row: str,
            value: str) -> Path:
    """A copy with one damaged value; none where the value stood there already."""
    path, strict = made
    shutil.copy(path, to)
    with closing(connected(to)) as db:
        db.execute("BEGIN")
        changed = "UPDATE %s SET %s = %s WHERE (%s) AND %s IS NOT (%s)" % (table, column, value,
                                                                           row, column, value)
        count = db.execute(changed).rowcount
        set_statement(db, table, strict)
        db.execute("COMMIT")
    return to if count == 1 else None


# ---- answers

# What a look-up asks for: a row that was damaged there isn't found, and what it names is unknown or
# free.
OTHERS_SIGN = "the role's other keys sign without it"
KEYS = {("role_key", "root"): OTHERS_SIGN, ("role_key", "repository"): OTHERS_SIGN,
        ("role_key", "role"): OTHERS_SIGN, ("repo_file", "repository"): "the file is unknown",
        ("repo_file", "name"): "the file is unknown",
        ("image", "file"): "the image is unknown to a campaign",
        ("campaign", "name"): "the campaign is unknown, and its name is free",
        ("ecu", "ecu"): "the name is free", ("retired", "ecu"): "the name is free",
        ("kept", "counter"): "a repeat is stale, and a view has no plan"}
# Columns of which more is taken than the product writes.
AS_THEY_STAND = {
    ("meta", "image_version"): "no version is greater", ("repo_file", "body"): "the text is served",
    ("image_repository", "targets"): "the next files have their own version",
    ("campaign", "running"): "the campaign is passed over",
    ("vehicle", "version"): "the version is shown",
    ("ecu", "place"): "the ECUs are in another order",
    ("ecu", "public_key"): "nothing is signed by the key",
    ("ecu", "report"): "the same report is another one", ("kept", "version"): "the version is told",
    ("kept", "signed"): "a repeat is stale"}
OTHERWISE = KEYS | AS_THEY_STAND
# Of another product, or of another schema.
OF_OTHERS = {("meta", column) for column in ("id", "app", "schema")}


def all_rows(path: Any) -> dict[str, list[list[Any]]]:
    """All rows of all tables in their order."""
    with closing(connected(path)) as db:
        return {
            table: [list(row) for row in db.execute("SELECT * FROM %s ORDER BY rowid" % table)
                    ] for table in trials.TABLES}


def breaks_the_schema(path: Path) -> bool:
    """Whether SQLite finds a row that no table of the schema takes."""
    with closing(connected(path)) as db:
        whole = db.execute("PRAGMA integrity_check").fetchall() == [(("text", b"ok"), )]
        return not whole or db.execute("PRAGMA foreign_key_check").fetchall() != []


def marks(before: dict[str, list[list[Any]]],
          after: dict[str, list[list[Any]]]) -> Iterator[tuple[tuple[str, int, int], Any]]:
    """Where the rows of two files differ, and what stands there in the second."""
    for table in trials.TABLES:
        for at, (old, new) in enumerate(zip(before[table], after[table])):
            yield from (((table, at, column), value) for column, value in enumerate(new)
                        if value != old[column])


def but_for(wanted: Any, rows: Any, marked: Any) -> Any:
    """The rows that are wanted, with the damaged value where it still stands."""
    for (table, at, column), value in marked:
        if at < len(rows[table]) and rows[table][at][column] == value:
            wanted[table][at][column] = value
    return wanted


class Story:
    """A file after the story, and what is answered over copies of it."""

    def __init__(self, program: Path, own: Path) -> None:
        self.program, self.own, self.known = program, own, dict[Any, Any]()
        self.lines = list(asked())
        self.begun = trials.printed(program, own / "own", told_before())
        self.path = tables.dumped(own / "own", own / "story")
        self.loose = {
            table: loosened(self.path, own / ("loose " + table), table) for table in trials.TABLES}
        self.before = all_rows(self.path)

    def counted(self, table: str, row: str) -> int:
        with closing(connected(self.path)) as db:
            return db.execute("SELECT count(*) FROM %s WHERE %s" % (table, row)).fetchone()[0]

    def given(self, kept: tuple[int, ...]) -> list[str]:
        return [self.lines[number] for number in kept]

    def answered(self, kept: tuple[int, ...]) -> tuple[list[str], dict[str, list[list[Any]]]]:
        """What is printed over the story's file for some of the lines, by their numbers, and the
        rows then.
        """
        if kept not in self.known:
            with trials.folder(self.own) as own:
                path = shutil.copy(self.path, own / "story")
                self.known[kept] = trials.printed(self.program, path,
                                                  self.given(kept)), all_rows(path)
        told, rows = self.known[kept]
        return told, copy.deepcopy(rows)

    def by_the_rules(self, path: str | Path,
                     kept: tuple[int, ...]) -> tuple[list[Any], dict[str, list[list[Any]]]]:
        """What the rules print over the rows as they stand in a damaged file, and the rows then;
        nothing where they can't.
        """
        try:
            with closing(sqlite3.connect(path)) as db:
                db.text_factory = lambda told: told.decode("utf-8", "surrogateescape")
                desk = reference.Desk(db)
                told = [desk.answer(line) for line in self.given(kept)]
        except (ArithmeticError, LookupError, TypeError, ValueError, sqlite3.Error):
            return None, {}
        return told, all_rows(path)


def in_any_order(rows: Any) -> dict[Any, list[Any]]:
    return {table: sorted(rows[table], key=repr) for table in rows}


def judged(story: Story, own: Path, table: str, column: str, row: str, value: str) -> bool:
    """None where the value stood there; else whether the damage is answered as it must be."""
    path = damaged(story.loose[table], own / "damaged", table, column, row, value)
    if path is None:
        return None
    given, damage = shutil.copy(path, own / "given"), list(marks(story.before, all_rows(path)))
    status, out, err = trials.run(story.program, path, story.lines)
    if breaks_the_schema(given) or (table, column) in OF_OTHERS:
        return (status, out) == (
            3, b"") and err in trials.UNOPENED.values() and path.read_bytes() == given.read_bytes()
    told = out.decode("utf-8", "surrogateescape").split("\n")[:-1]
    if status or err or len(told) != len(story.lines):
        return False
    kept = tuple(number for number, answer in enumerate(told) if answer != LOST)
    answers, rows = [told[number] for number in kept], all_rows(path)
    wanted, then = story.answered(kept)
    if answers == wanted and rows == but_for(then, rows, damage):
        return True
    if (table, column) not in OTHERWISE:
        return False
    wanted, then = story.by_the_rules(given, kept)
    return answers == wanted and in_any_order(rows) == in_any_order(then)


def tried(story: Story, damage: tuple[str, str, str, str]) -> bool:
    with trials.folder(story.own) as own:
        return judged(story, own, *damage)


def named(table: str, column: str, row: str, value: str) -> str:
    """The name of a case, which says where an answer may be another one than `Store`."""
    otherwise = ", or " + OTHERWISE[table, column] if (table, column) in OTHERWISE else ""
    return "%s.%s where %s, %s%s" % (table, column, row,
                                     value if len(value) < 100 else value[:90] + "..", otherwise)


def cases(program: Path) -> trials.Cases:
    with trials.folder() as own:
        story, made = Story(program, own), list(damages())
        yield "the story", story.begun == trials.expected(own / "expected", told_before())
        whole, _ = story.answered(tuple(range(len(story.lines))))
        yield "there is one row of each", all(
            story.counted(table, row) == 1 for table, rows in ROWS.items() for row in rows)
        yield "what is asked then", whole == trials.expected(own / "expected", story.lines)
        with ThreadPoolExecutor(os.cpu_count()) as pool:
            for damage, well in zip(made, pool.map(tried, repeat(story), made)):
                if well is not None:
                    yield named(*damage), well


def main(words: arguments.Words = None) -> int:
    """Tries the program that is named."""
    return trials.tried(__doc__, words, "damaged rows", cases)
