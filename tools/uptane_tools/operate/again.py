"""The lines that a restore asks for again, made from the file as it was when it was lost, or any
later copy than the one that is restored; where there is none, from the journal.

A file has the secrets of its last root version alone. Those of the versions between are in the
copies that were made behind them, each under the identifier that its Root lists at its place.
"""
import gzip
import json
import re
import sqlite3
import time
from collections.abc import Iterable, Iterator
from contextlib import suppress
from pathlib import Path
from typing import Any

from uptane_tools.operate import fleet_tables
from uptane_tools.operate.formats import REPOSITORIES, canonical

Members = dict[str, Any]
# what a line does, and its members
Step = tuple[str, Members]
UNREADABLE = (fleet_tables.Other, OSError, sqlite3.Error, ValueError, LookupError)


def roles_of(db: sqlite3.Connection, repository: str, root: int) -> Members:
    """The roles of a root version, by its Root."""
    sql = "SELECT body FROM repo_file WHERE repository = ? AND name = ?"
    found = db.execute(sql, (repository, "%d.root.json" % root)).fetchone()
    if found is None:
        raise ValueError("root version %d of %s is missing" % (root, repository))
    return json.loads(found["body"])["signed"]["roles"]


def secrets_of(paths: Iterable[Path]) -> dict[str, str]:
    """The secrets that these files have, by the identifiers of their keys."""
    found = {}
    for path in paths:
        with suppress(*UNREADABLE), fleet_tables.opened(path) as db:
            for row in db.execute("SELECT * FROM role_key").fetchall():
                role = roles_of(db, row["repository"], row["root"])[row["role"]]
                found[role["keyids"][row["place"]]] = row["secret"].hex()
    return found


def keys_of(db: sqlite3.Connection, root: int, secrets: dict[str, str]) -> Members:
    """The keys and thresholds of all roles in a root version, as `rotate` has them."""
    return {
        repository: {
            role: {"keys": [secrets[it] for it in told["keyids"]], "threshold": told["threshold"]}
            for role, told in roles_of(db, repository, root).items()}
        for repository in REPOSITORIES}


def rotations(db: sqlite3.Connection, root: int, secrets: dict[str, str]) -> Iterator[Step]:
    """What makes the root versions of a file that are behind this one, up to the first whose keys
    aren't known.
    """
    for number in range(root + 1, fleet_tables.meta_of(db)["root"] + 1):
        try:
            yield "rotate" if number > 1 else "found", keys_of(db, number, secrets)
        except KeyError:
            return


def image_of(db: sqlite3.Connection, row: sqlite3.Row, schema: int) -> Members:
    made = {
        "file": row["file"], "length": row["length"], "sha256": row["sha256"].hex(),
        "hardware": json.loads(row["hardware"]), "release": row["release_count"]}
    made |= {name: told for name in ("needs", "conflicts") if (told := json.loads(row[name]))}
    second = db.execute("SELECT sha512 FROM image_sha512 WHERE file = ?",
                        (row["file"], )).fetchone() if schema > 2 else None
    return made | ({"sha512": second["sha512"].hex()} if second else {})


def ecus_of(db: sqlite3.Connection, vehicle: str) -> list[Members]:
    sql = "SELECT ecu, hardware, public_key FROM ecu WHERE vehicle = ? ORDER BY place"
    return [{"ecu": row["ecu"], "hardware": row["hardware"], "key": row["public_key"].hex()}
            for row in db.execute(sql, (vehicle, ))]


def missing(before: sqlite3.Connection, after: sqlite3.Connection, table: str,
            column: str) -> Iterator[sqlite3.Row]:
    """The rows of the later file that the earlier one hasn't, in the order in which they were made.
    """
    had = {row[0] for row in before.execute("SELECT %s FROM %s" % (column, table))}
    yield from (row for row in after.execute("SELECT * FROM %s ORDER BY rowid" % table)
                if row[column] not in had)


def of_vehicles(before: sqlite3.Connection, after: sqlite3.Connection) -> Iterator[Step]:
    for row in missing(before, after, "vehicle", "vehicle"):
        yield "add_vehicle", {
            "vehicle": row["vehicle"], "primary": row["primary_ecu"], "ecus": ecus_of(
                after, row["vehicle"])}
    for (name, ) in before.execute("SELECT vehicle FROM vehicle ORDER BY rowid").fetchall():
        for old, new in zip(ecus_of(before, name), ecus_of(after, name)):
            if old["ecu"] != new["ecu"]:
                yield "replace_ecu", {"vehicle": name, "old": old["ecu"], **new}


def of_campaigns(before: sqlite3.Connection, after: sqlite3.Connection) -> Iterator[Step]:
    running = {
        row["name"]: bool(row["running"])
        for row in before.execute("SELECT name, running FROM campaign")}
    for row in after.execute("SELECT * FROM campaign ORDER BY rowid"):
        if row["name"] not in running:
            yield "open_campaign", {
                "campaign": row["name"], "vehicles": json.loads(row["reach"]),
                "items": json.loads(row["items"])}
        if not row["running"] and running.get(row["name"], True):
            yield "close_campaign", {"campaign": row["name"]}


def lacking_keys(number: int) -> list[str]:
    return ["to give again by hand: %d rotations, whose keys no copy has" % number] * (number > 0)


def lines(copy: Path, later: Path, copies: Path, now: int) -> tuple[list[str], list[str]]:
    """The lines, in an order in which each is taken, and a sentence for those that can't be made.
    A refresh is the last: above each version that was served, and each that the lines before it
    make.
    """
    secrets = secrets_of([*copies_of(copy, copies), copy, later])
    with fleet_tables.opened(copy) as before, fleet_tables.opened(later) as after:
        first, last = fleet_tables.meta_of(before), fleet_tables.meta_of(after)
        made = list(rotations(after, first["root"], secrets))
        lacking = lacking_keys(last["root"] - first["root"] - len(made))
        made += [("add_image", image_of(after, row, last["schema"]))
                 for row in missing(before, after, "image", "file")]
        ends = first["image_version"] + len(made)
        made += [*of_vehicles(before, after), *of_campaigns(before, after)]
        if max(last["image_version"], ends) > first["image_version"]:
            made.append(("refresh", {"version": max(last["image_version"], ends) + 1}))
        return [canonical({"at": now, "do": do, **its}) for do, its in made], lacking


# ---- by the journal

GIVEN = ("add_image", "add_vehicle", "replace_ecu", "open_campaign", "close_campaign")


def given(journal: Path) -> Iterator[Members]:
    """What was done, the oldest first, those files included that were rotated away."""
    every = [*sorted(journal.parent.glob(journal.name + "-*")), journal]
    if not any(path.exists() for path in every):
        raise OSError("no lines can be made by %s, which isn't there; nothing is changed" % journal)
    for path in filter(Path.exists, every):
        with gzip.open(path, "rt") if path.suffix == ".gz" else path.open(encoding="utf-8") as file:
            for line in file:
                with suppress(ValueError):
                    it = json.loads(line)
                    if it.get("answer") == "done":
                        yield it


def is_new(db: sqlite3.Connection, asked: Members) -> bool:
    """Whether the copy hasn't what a line made."""
    sql, of = {
        "add_image": ("SELECT 1 FROM image WHERE file = ?", "file"),
        "add_vehicle": ("SELECT 1 FROM vehicle WHERE vehicle = ?",
                        "vehicle"), "replace_ecu": ("SELECT 1 FROM retired WHERE ecu = ?", "old"),
        "open_campaign": ("SELECT 1 FROM campaign WHERE name = ?", "campaign"),
        "close_campaign": ("SELECT 1 FROM campaign WHERE name = ? AND NOT running",
                           "campaign")}[asked["do"]]
    return db.execute(sql, (asked[of], )).fetchone() is None


def made_at(copy: Path) -> str:
    """When the copy was made: its name tells, or its time."""
    told = re.search(r"-(\d{8}T\d{6}Z)", copy.name)
    at = time.strptime(told[1], "%Y%m%dT%H%M%SZ") if told else time.gmtime(copy.stat().st_mtime)
    return time.strftime("%Y-%m-%dT%H:%M:%SZ", at)


def copies_of(copy: Path, copies: Path) -> list[Path]:
    """The copies of the same desk."""
    return sorted(copies.glob(copy.name.partition("-")[0] + "-*.db"))


def root_in(path: Path) -> int:
    """The file's last root version; 0 where it can't be read."""
    with suppress(*UNREADABLE), fleet_tables.opened(path) as db:
        return int(fleet_tables.meta_of(db)["root"])
    return 0


def rotated_again(copy: Path, copies: Path, root: int) -> list[Step]:
    """The rotations behind this root, by the other copies of the same desk."""
    there = copies_of(copy, copies)
    newest = max(there, key=root_in, default=copy)
    if root_in(newest) <= root:
        return []
    with fleet_tables.opened(newest) as db:
        return list(rotations(db, root, secrets_of([*there, copy])))


def by_journal(copy: Path, journal: Path, copies: Path, now: int) -> tuple[list[str], list[str]]:
    """The lines that the journal has and the copy hasn't, and a sentence for each that can't be
    made, since the journal leaves its keys out.
    """
    lacking, rest, rotated, files = [], [], 0, 0
    with fleet_tables.opened(copy) as db:
        meta = fleet_tables.meta_of(db)
        version, since = meta["image_version"], made_at(copy)
        for it in given(journal):
            asked, do = it["asked"], it["asked"]["do"]
            if do == "refresh":
                version = max(version, asked["version"])
            version += do in ("rotate", "add_image")
            rotated += do == "rotate" and it["given"] > since
            if do in GIVEN and is_new(db, asked):
                if "left out" in json.dumps(asked):
                    lacking.append("to give again by hand, as the journal has no keys: line %d of "
                                   "%s, of %s" % (it["line"], it["script"], it["given"]))
                else:
                    rest.append({**asked, "at": now})
                    files += do == "add_image"
        kept = rotated_again(copy, copies, meta["root"])
        lacking += lacking_keys(rotated - len(kept))
        made = [{"at": now, "do": do, **its} for do, its in kept] + rest
        last = max(version, meta["image_version"] + files + len(kept)) + 1
        return [
            canonical(it) for it in [*made, {"at": now, "do": "refresh", "version": last}]], lacking
