"""Carries out the edits that turn a text of SQL alone over SQLite itself (Python's module), and
shows the wrong answers.

    tools/run sql_edits [whole]

The proofs of `up_tables` have each text of its statements once more, so the prover refuses such
an edit by its spelling, whatever it means. So each names a section of the cases of tables in
`up_test_store` (`rows: SECTION`). Here the statements are taken out of `src/`, those sections are
carried out with them and with the edit made, and a case has to be answered otherwise than it
wants. `whole` carries out every section, and tells in which of them each edit is seen. As the
texts stand, every case has to be answered as it wants.

Where a query asks for no order, SQLite is told to answer its rows backwards
(`reverse_unordered_selects`), since it may.
"""
import re
import sqlite3
from collections.abc import Iterator
from contextlib import closing
from typing import Any

from uptane_tools import arguments
from uptane_tools.edits.edit import edits_in, functions_below
from uptane_tools.edits.sql import IN_A_BODY, rows_named, texts_in
from uptane_tools.rows import cases as cases_of
from uptane_tools.trial import trials

CRATE = "up_tables"
FOLDER = trials.TOP / "crates" / CRATE
# the tables in the order in which they are made, and those that an older schema lacks
TABLES = [
    "meta", "role_key", "repo_file", "image", "campaign", "vehicle", "ecu", "kept", "retired",
    "image_sha512", "image_repository", "retired_vehicle"]
LATER = {1: TABLES[8:], 2: TABLES[9:], 3: TABLES[10:], 4: []}
# the words of the rows that read, each with its function
READS = {
    "meta": "meta", "numbers": "image_repository", "keys": "role_keys", "file": "file",
    "image": "image", "images": "images", "campaign": "campaign", "running": "running_campaigns",
    "sha512": "image_sha512", "sha512s": "image_sha512s", "vehicle": "vehicle", "ecus": "ecus",
    "owner": "ecu_owner", "retired": "retired_owner", "shut_out": "retired_vehicle", "kept": "kept"}
MANY = {"role_keys", "images", "running_campaigns", "image_sha512s", "ecus"}


class Refused(Exception):
    """The statement is answered `Store`."""


def number(word: str) -> int:
    return int(word) if re.fullmatch(r"\d+", word) and int(word) < 1 << 63 else 0


def split(text: str, count: int) -> list[str]:
    words = text.split(" ")
    return words[:count] + [""] * (count - len(words))


def image_of(word: str) -> list:
    """What an ECU has installed, as three columns."""
    if ":" not in word:
        return [None, None, None]
    file, length, digits = word.split(":")
    return [file, number(length), bytes.fromhex(digits)]


class Database:
    """A database on which the rows of a section are carried out, by the statements that are
    given by the names of their functions.
    """

    def __init__(self, statements: dict[str, str]) -> None:
        self.statements = statements
        self.db = sqlite3.connect(":memory:", isolation_level=None)
        self.db.execute("PRAGMA foreign_keys = ON")
        self.db.execute("PRAGMA reverse_unordered_selects = ON")

    def close(self) -> None:
        self.db.close()

    def run(self, name: str, *values: Any) -> list[tuple[Any, ...]]:
        return self.db.execute(self.statements[name], values).fetchall()

    def answer(self, given: str) -> Any:
        word, _, rest = given.partition(" ")
        try:
            if word == "ours":
                return self.ours()
            if word == "sql":
                self.db.execute(rest)
                return "done"
            if word == "ask":
                return told(self.db.execute(rest))
            if word in READS:
                return self.read(READS[word], rest)
            return self.written({
                "make": self.make, "put": self.put, "set": self.set, "close": self.end}[word], rest)
        except (Refused, sqlite3.Error):
            return "Store"
        except KeyError:
            return "no such statement"

    def written(self, write: Any, rest: Any) -> str:
        """Carries out a write in one transaction, of which nothing is left where a part of it
        fails.
        """
        self.db.execute("BEGIN")
        try:
            write(rest)
            self.db.execute("COMMIT")
        finally:
            if self.db.in_transaction:
                self.db.execute("ROLLBACK")
        return "done"

    # ---- whose tables they are

    def make(self, _: Any = "") -> None:
        if self.db.execute("SELECT * FROM sqlite_schema").fetchall():
            raise Refused
        for table in TABLES:
            self.run("make_" + table)
        self.run("name_tables")
        self.run("number_tables")

    def ours(self) -> str:
        try:
            rows = self.run("find_meta")
        except sqlite3.Error:
            return "no"
        if len(rows) != 1 or rows[0][0] != "uptane_desk" or not isinstance(
                rows[0][1], int) or rows[0][1] not in LATER:
            return "no"
        if LATER[rows[0][1]]:
            self.written(self.raised, LATER[rows[0][1]])
        return "yes"

    def raised(self, tables: list[str]) -> None:
        for table in tables:
            self.run("make_" + table)
        self.run("same_numbers")
        self.run("drop_keys")
        self.run("set_schema")

    # ---- reads

    def read(self, name: str, rest: str) -> str:
        values: list[Any] = split(
            rest, 2) if name in ("file", "kept") else [rest] * ("?1" in self.statements[name])
        if name == "kept":
            values[-1] = number(values[-1])
        taken = values[:max([int(it)
                             for it in re.findall(r"\?(\d)", self.statements[name])], default=0)]
        rows = self.run(name, *taken)
        if name not in MANY and len(rows) > 1:
            raise Refused
        if "owner" in name and any(not isinstance(row[0], str) for row in rows):
            raise Refused
        return told(rows) if rows or name in MANY else "none"

    # ---- writes

    def put(self, given: str) -> None:
        word, _, rest = given.partition(" ")
        {
            "image": self.put_image, "campaign": self.put_campaign, "root": self.put_root,
            "vehicle": self.put_vehicle, "sha512": self.put_sha512,
            "retired": lambda rest: self.run("insert_retired", *split(rest, 2)),
            "shut_out": lambda rest: self.run("insert_retired_vehicle", rest)}[word](rest)

    def set(self, given: str) -> None:
        word, _, rest = given.partition(" ")
        {
            "files": self.set_files, "manifest": self.set_manifest, "ecu": self.set_ecu,
            "numbers": self.set_own_numbers}[word](rest)

    def end(self, rest: str) -> None:
        self.run("close_campaign", rest)

    def put_image(self, rest: str) -> None:
        file, length, digits, hardware, release, needs, conflicts = split(rest, 7)
        self.run("insert_image", file, number(length), bytes.fromhex(digits), hardware,
                 number(release), needs, conflicts)

    def put_sha512(self, rest: str) -> None:
        file, digits = split(rest, 2)
        self.run("insert_image_sha512", file, bytes.fromhex(digits))

    def put_campaign(self, rest: str) -> None:
        *words, runs = split(rest, 4)
        self.run("insert_campaign", *words, int(runs == "1"))

    def set_numbers(self, text: str) -> None:
        self.run("update_meta", *map(number, split(text, 3)))

    def set_own_numbers(self, text: str) -> None:
        self.run("update_image_repository", *map(number, split(text, 2)))

    def put_root(self, rest: Any) -> None:
        numbers, *keys = rest.split(" ; ")
        self.set_numbers(numbers)
        self.run("delete_role_keys")
        for root, repository, role, place, digits, threshold in (split(key, 6) for key in keys):
            self.run("insert_role_key", number(root), repository, role, number(place),
                     bytes.fromhex(digits), number(threshold))

    def set_files(self, rest: str) -> None:
        numbers, *files = rest.split(" ; ")
        self.set_numbers(numbers)
        for file in files:
            self.run("upsert_file", *split(file, 3))

    def put_vehicle(self, rest: str) -> None:
        row, *ecus = rest.split(" ; ")
        vehicle, first, version, counter = split(row, 4)
        self.run("insert_vehicle", vehicle, first, number(version), number(counter))
        self.each_ecu("insert_ecu", vehicle, ecus)

    def each_ecu(self, name: str, vehicle: str, ecus: list[str]) -> None:
        for place, row in enumerate(ecus):
            ecu, hardware, key, image, counter, report = split(row, 6)
            self.run(name, ecu, vehicle, place, hardware, bytes.fromhex(key), *image_of(image),
                     number(counter), None if report == "-" else report)

    def set_manifest(self, rest: str) -> None:
        row, kept, *ecus = rest.split(" ; ")
        vehicle, first, version, counter = split(row, 4)
        values = [vehicle, first, number(version), number(counter)]
        if self.run("upsert_vehicle", *values) != [tuple(values)]:
            raise Refused
        self.each_ecu("update_ecu", vehicle, ecus)
        words = split(kept, 8)
        self.run("insert_kept", words[0], *map(number, words[1:5]), *words[5:])

    def set_ecu(self, rest: str) -> None:
        old, ecu, hardware, key = split(rest, 4)
        self.run("replace_ecu", ecu, hardware, bytes.fromhex(key), old)


def shown(value: Any) -> str:
    """A column: a number, a text, or bytes in hex, and a - for anything else."""
    return value.hex() if isinstance(value, bytes) else str(value) if isinstance(value,
                                                                                 (str,
                                                                                  int)) else "-"


def told(rows: Any) -> str:
    """Rows as they are told, whatever their columns hold."""
    return " ; ".join(" ".join(map(shown, row)) for row in rows)


def sections() -> Any:
    """The sections of rows, each a list of what is given and what is wanted."""
    found = cases_of.sections(cases_of.kinds("up_test_store")["tables"])
    return {name: cases_of.pairs(lines) for name, lines in found.items()}


def statements() -> dict[str, str]:
    """The texts of SQL by the names of their functions, those that make tables by `make_` and
    the table.
    """
    found: dict = {}
    for path, functions in functions_below(str(FOLDER)).items():
        text = (FOLDER / path).read_bytes()
        for it in functions:
            body = text[it.opens:it.closes]
            texts = texts_in(body)[0] if IN_A_BODY.search(body) else []
            named = named_by(it.name, texts)
            assert len(named) == len(texts) and not named.keys() & found.keys(
            ), "%s has more than one text, or another function its name" % it.name
            found |= named
    return found


def named_by(function: str, texts: list[str]) -> dict[str, str]:
    """These texts of a function by their names."""
    makes = [re.match(r"CREATE TABLE (\w+)", text) for text in texts]
    return {"make_" + it[1] if it else function: text for it, text in zip(makes, texts)}


def first_wrong(texts: dict[str, str], rows: list[tuple[str, str]]) -> tuple[str, str, str] | None:
    """The first row that is answered otherwise than it wants: what is given, what is wanted, and
    the answer.
    """
    with closing(Database(texts)) as database:
        for given, wanted in rows:
            had = database.answer(given)
            if had != wanted:
                return given, wanted, had
    return None


def of_text_alone() -> list:
    """The edits of the crate that turn a text of SQL alone."""
    return [it for it in edits_in(CRATE, str(FOLDER)) if it.function and it.is_of_text]


def cases(whole: bool) -> Iterator[tuple[str, bool]]:
    """Whether the rows are answered as they want, and each edit is seen in the rows that it names.
    """
    all_rows, as_it_stands = sections(), statements()
    for name, rows in all_rows.items():
        on_purpose = "on purpose" in name
        found = None if on_purpose else first_wrong(as_it_stands, rows)
        yield "rows: %s%s" % (name, "" if found is None else ": `%s` is answered %s and not %s" %
                              (found[0], found[2], found[1])), found is None
    for edit in of_text_alone():
        file = FOLDER / "refused" / (edit.label.split("/")[1] + ".edit")
        texts, named = as_it_stands | named_by(edit.function.name,
                                               texts_in(edit.body)[0]), rows_named(file)
        wrong = {
            name: first_wrong(texts, all_rows[name]) for name in (all_rows if whole else named)
            if name in all_rows and "on purpose" not in name}
        if whole:
            yield "%s is seen in: %s" % (edit.label, ", ".join(
                name for name in wrong if wrong[name]) or "none"), any(wrong.values())
        for name in named:
            found = wrong.get(name)
            said = "`%s` is answered %s and not %s" % (
                found[0], found[2], found[1]) if found else "each row is answered as it wants"
            yield "%s, in the rows of '%s': %s" % (edit.label, name, said[:300]), found is not None
        if not named:
            yield "%s names no rows" % edit.label, False


def main(words: arguments.Words = None) -> int:
    """Carries the edits out."""
    asked = arguments.given(__doc__, words, order=["part", "whole"])
    return trials.judged("SQL", cases(asked.order == "whole"))
