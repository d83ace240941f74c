"""The statements that make the tables of each schema. Those of today's are taken from
`docs/use/TABLES.md`.

Those of the schemas before it are written down here as they were, and not taken from the page,
since files that they made are there for good.
"""
import re

import sqlite3

from uptane_tools import TOP

PAGE = TOP / "docs" / "use" / "TABLES.md"
SCHEMA = 4
# which of the page's tables a database of an older schema lacks
NEW = ["image_repository", "retired_vehicle"]
LACKS: dict[int, list[str]] = {
    1: ["retired", "image_sha512", *NEW], 2: ["image_sha512", *NEW], 3: NEW, SCHEMA: []}
FIRST = """
CREATE TABLE meta (id INTEGER PRIMARY KEY, app TEXT NOT NULL, schema INTEGER NOT NULL, \
root INTEGER NOT NULL,
  image_version INTEGER NOT NULL, stamp INTEGER NOT NULL) STRICT;
CREATE TABLE role_key (root INTEGER NOT NULL, repository TEXT NOT NULL, role TEXT NOT NULL, \
place INTEGER NOT NULL,
  secret BLOB NOT NULL, threshold INTEGER NOT NULL, PRIMARY KEY (root, repository, role, \
place)) STRICT;
CREATE TABLE repo_file (repository TEXT NOT NULL, name TEXT NOT NULL, body TEXT NOT NULL, \
PRIMARY KEY (repository, name)) STRICT;
CREATE TABLE image (file TEXT NOT NULL PRIMARY KEY, length INTEGER NOT NULL, \
sha256 BLOB NOT NULL, hardware TEXT NOT NULL,
  release_count INTEGER NOT NULL, needs TEXT NOT NULL, conflicts TEXT NOT NULL) STRICT;
CREATE TABLE campaign (name TEXT NOT NULL PRIMARY KEY, reach TEXT NOT NULL, items TEXT NOT NULL, \
running INTEGER NOT NULL) STRICT;
CREATE TABLE vehicle (vehicle TEXT NOT NULL PRIMARY KEY, primary_ecu TEXT NOT NULL, \
version INTEGER NOT NULL,
  last_counter INTEGER NOT NULL) STRICT;
CREATE TABLE ecu (ecu TEXT NOT NULL PRIMARY KEY, \
vehicle TEXT NOT NULL REFERENCES vehicle (vehicle), place INTEGER NOT NULL,
  hardware TEXT NOT NULL, public_key BLOB NOT NULL, file TEXT, length INTEGER, sha256 BLOB, \
counter INTEGER NOT NULL,
  report TEXT, UNIQUE (vehicle, place)) STRICT;
CREATE TABLE kept (vehicle TEXT NOT NULL REFERENCES vehicle (vehicle), counter INTEGER NOT NULL, \
version INTEGER NOT NULL,
  moment INTEGER NOT NULL, root INTEGER NOT NULL, signed TEXT NOT NULL, plan_text TEXT NOT NULL, \
reply TEXT NOT NULL,
  PRIMARY KEY (vehicle, counter), UNIQUE (vehicle, version)) STRICT;
"""
SECOND = """
CREATE TABLE retired (ecu TEXT NOT NULL PRIMARY KEY, \
vehicle TEXT NOT NULL REFERENCES vehicle (vehicle)) STRICT;
"""
THIRD = """
CREATE TABLE image_sha512 (file TEXT NOT NULL PRIMARY KEY REFERENCES image (file), \
sha512 BLOB NOT NULL) STRICT;
"""
OLDER = {1: FIRST, 2: FIRST + SECOND, 3: FIRST + SECOND + THIRD}


def schema() -> list[str]:
    """The statements of the page that make the tables."""
    return re.findall(r"^    (CREATE TABLE .*?STRICT)$", PAGE.read_text(encoding="ascii"),
                      re.S | re.M)


def table_of(statement: str) -> str:
    return statement.split()[2]


def statements(number: int) -> list[str]:
    """The statements that make the tables of a schema."""
    return [it.strip() for it in OLDER[number].split(";") if it.strip()
            ] if number in OLDER else schema()


def made(db: sqlite3.Connection, number: int) -> sqlite3.Connection:
    """Makes the tables of a schema, without a row."""
    for statement in statements(number):
        db.execute(statement)
    return db
