"""What a copy of the database file tells of a fleet. `fleet_page.py` and `metrics.py` read by
it; nothing is written.
"""
import json
import os
import re
import shutil
import sqlite3
import tempfile
from contextlib import closing, contextmanager, nullcontext
from datetime import datetime, timezone
from pathlib import Path
from typing import Any, Iterator

from uptane_tools.operate.formats import Named

SCHEMAS = (1, 2, 3, 4)
DAY, WEEK = 86400, 7 * 86400
# the most that there can be
ROOTS, IMAGES, VERSIONS = 64, 1024, 2**53 - 1
# a log of so many bytes holds nothing
EMPTY_LOG = 41

# the images, by filename
Images = dict[str, Named]


class Other(Exception):
    """The file isn't a database of this product."""


def named(word: str) -> tuple[str, Path]:
    """A desk's name and its copy, of a word DESK=COPY; `desk` where no name is given."""
    desk, _, path = word.rpartition("=")
    return desk or "desk", Path(path)


def log_of(path: Path) -> Path:
    return Path(str(path) + "-wal")


def size_of(path: Path) -> int:
    """The bytes of the file and its log."""
    return sum(it.stat().st_size for it in (Path(path), log_of(path)) if it.exists())


@contextmanager
def linked(path: Path) -> Iterator[Path]:
    """Another name of the file, with a copy of its log beside it, so that reading leaves nothing
    beside the file itself. Where the file can't have another name, it is a copy.
    """
    folder = tempfile.mkdtemp(dir=path.parent if os.access(path.parent, os.W_OK) else None)
    own = Path(folder) / "copy"
    try:
        try:
            os.link(path, own)
        except OSError:
            shutil.copyfile(path, own)
        shutil.copyfile(log_of(path), log_of(own))
        yield own
    finally:
        shutil.rmtree(folder)


@contextmanager
def opened(path: Path) -> Iterator[sqlite3.Connection]:
    """A connection that changes nothing. A file without a log is read where it lies."""
    path = Path(path)
    path.open("rb").close()
    alone = not log_of(path).exists() or log_of(path).stat().st_size <= EMPTY_LOG
    with nullcontext(path) if alone else linked(path) as own:
        with closing(
                sqlite3.connect(own.resolve().as_uri() + "?mode=ro" + "&immutable=1" * alone,
                                uri=True)) as db:
            db.row_factory = sqlite3.Row
            yield db


def meta_of(db: sqlite3.Connection) -> sqlite3.Row:
    try:
        rows = db.execute("SELECT * FROM meta WHERE id = 1").fetchall()
        if len(rows) == 1 and rows[0]["app"] == "uptane_desk" and rows[0]["schema"] in SCHEMAS:
            return rows[0]
    except (sqlite3.Error, IndexError):
        pass
    raise Other(
        "it isn't a database of uptane_desk, of schema %d to %d" % (SCHEMAS[0], SCHEMAS[-1]))


# ---- images and what ECUs have


def registered(db: sqlite3.Connection, schema: int) -> Images:
    """The images, by filename. A table of second hashes is there from schema 3 on."""
    images = {
        row["file"]: dict(row) | {"hardware": json.loads(row["hardware"]), "sha512": None}
        for row in db.execute("SELECT * FROM image")}
    if schema >= 3:
        for row in db.execute("SELECT file, sha512 FROM image_sha512"):
            images[row["file"]]["sha512"] = row["sha512"].hex()
    return images


def second_hash(report: str | None) -> str | None:
    """The SHA-512 that a report gives of its image, if it does."""
    found = json.loads(report)["image"]["hashes"].get("sha512") if report else None
    return found.lower() if isinstance(found, str) and re.fullmatch("[0-9A-Fa-f]{128}",
                                                                    found) else None


def release_of(images: Images, ecu: Any, schema: int) -> int:
    """The release of the registered image that an ECU reported, for its hardware; 0 where there
    is none.
    """
    image = images.get(ecu["file"])
    if not image or (image["length"], image["sha256"]) != (
            ecu["length"], ecu["sha256"]) or ecu["hardware"] not in image["hardware"]:
        return 0
    reported = second_hash(ecu["report"]) if schema >= 3 and image["sha512"] else None
    return 0 if reported and reported != image["sha512"] else image["release_count"]


def attack_in(report: str | None) -> str:
    """The note on an attack in a report; empty where none was detected."""
    return json.loads(report)["attack"] if report and '"attack":""' not in report else ""


def ecus_of(db: sqlite3.Connection, images: Images, schema: int) -> dict[str, list[Named]]:
    """The ECUs of each vehicle in inventory order: name, hardware, installed file, release, note
    of an attack.
    """
    made: dict[str, list[Named]] = {}
    for row in db.execute("SELECT * FROM ecu ORDER BY vehicle, place"):
        one = {
            "ecu": row["ecu"], "hardware": row["hardware"], "file": row["file"],
            "release": release_of(images, row, schema)}
        made.setdefault(row["vehicle"], []).append(one | {"attack": attack_in(row["report"])})
    return made


# ---- vehicles and their manifests


def lasts_of(db: sqlite3.Connection) -> dict[str, tuple[int, Named]]:
    """Of each vehicle that has sent one: the moment of its last manifest, and its plan."""
    sql = "SELECT vehicle, moment, plan_text FROM vehicle JOIN kept USING (vehicle, version)"
    return {
        row["vehicle"]: (row["moment"], json.loads(row["plan_text"])) for row in db.execute(sql)}


def cause_of(withheld: Named | None) -> str:
    if not withheld:
        return ""
    if "hardware" in withheld:
        return "%s needs a newer %s" % (withheld["ecu"], withheld["hardware"])
    return "%s conflicts with %s" % (withheld["ecu"], withheld["file"])


def vehicles_of(db: sqlite3.Connection, ecus: dict[str, list[Named]]) -> list[Named]:
    """The vehicles by name: version, moment of the last manifest, cause of a withheld plan, and
    the ECUs with what they are assigned.
    """
    lasts, made = lasts_of(db), []
    for row in db.execute("SELECT * FROM vehicle ORDER BY vehicle"):
        seen, plan = lasts.get(row["vehicle"], (None, {"assigned": [], "withheld": None}))
        assigned = {it["ecu"]: it["file"] for it in plan["assigned"]}
        own = [
            one | {"assigned": assigned.get(one["ecu"], "")}
            for one in ecus.get(row["vehicle"], [])]
        cause = plan["withheld"] or {}
        one = {"vehicle": row["vehicle"], "version": row["version"], "seen": seen, "ecus": own}
        made.append(one
                    | {"withheld": cause_of(plan["withheld"]), "withheld_ecu": cause.get("ecu")})
    return made


def kept_since(db: sqlite3.Connection, moment: int) -> int:
    """How many manifests were accepted behind a moment. Each vehicle's are read from its last
    one on, so that a large file isn't read whole.
    """
    sql = "SELECT moment FROM kept WHERE vehicle = ? AND version <= ? ORDER BY version DESC"
    number = 0
    for name, version in db.execute("SELECT vehicle, version FROM vehicle").fetchall():
        for (at, ) in db.execute(sql, (name, version)):
            if at <= moment:
                break
            number += 1
    return number


def newest(db: sqlite3.Connection) -> int:
    """The moment of the newest command that left one: an accepted manifest, or new files of the
    Image repository.
    """
    seen = db.execute(
        "SELECT max(moment) FROM vehicle JOIN kept USING (vehicle, version)").fetchone()[0]
    return max(seen or 0, meta_of(db)["stamp"])


# ---- campaigns


def moves_of(campaign: Named, images: Images,
             vehicles: list[Named]) -> Iterator[tuple[Named, Named, bool]]:
    """For each ECU that a campaign is to reach: its vehicle, the ECU, and whether it has the
    item's image or a greater release.
    """
    for item in campaign["items"]:
        release = images[item["file"]]["release_count"]
        for vehicle in vehicles:
            for ecu in vehicle["ecus"]:
                if ecu["hardware"] == item["hardware"]:
                    yield vehicle, ecu, ecu["release"] >= release and bool(ecu["release"]
                                                                           or ecu["file"] in images)


def campaigns_of(db: sqlite3.Connection, images: Images, vehicles: list[Named]) -> list[Named]:
    """How far each campaign is, and which vehicles are left. A withheld plan is in the way of
    the campaigns whose item its ECU waits for.
    """
    by_name, made = {it["vehicle"]: it for it in vehicles}, []
    for row in db.execute("SELECT * FROM campaign ORDER BY running DESC, name"):
        reach, items = json.loads(row["reach"]), json.loads(row["items"])
        reached = vehicles if reach == "all" else [by_name[name] for name in sorted(set(reach))]
        one = {
            "name": row["name"], "running": bool(row["running"]), "all": reach == "all",
            "items": items, "vehicles": len(reached)}
        moves = list(moves_of(one, images, reached))
        left = {vehicle["vehicle"] for vehicle, _, has in moves if not has}
        withheld = {
            vehicle["vehicle"] for vehicle, ecu, has in moves
            if not has and vehicle["withheld_ecu"] == ecu["ecu"]}
        one |= {"reached": [it["vehicle"] for it in reached]} if reach != "all" else {}
        one |= {
            "ecus": len(moves), "done": sum(has for _, _, has in moves), "left": sorted(left),
            "withheld": sorted(withheld)}
        made.append(one)
    return made


# ---- files


def moment_in(text: str) -> int:
    return int(
        datetime.strptime(text, "%Y-%m-%dT%H:%M:%SZ").replace(tzinfo=timezone.utc).timestamp())


LIFE = {("image", "targets"): 90 * DAY, ("image", "snapshot"): 30 * DAY,
        ("image", "timestamp"): DAY}
ANEW = {"root": "rotate"}


def files_of(db: sqlite3.Connection) -> Iterator[Named]:
    """The files that are served under the names that change: version, when they expire, their
    life, and what makes them anew.
    """
    for row in db.execute(
            "SELECT * FROM repo_file WHERE name NOT GLOB '[0-9]*' ORDER BY repository, name"):
        signed = json.loads(row["body"])["signed"]
        life = LIFE.get((row["repository"], signed["type"]), 365 * DAY)
        one = {
            "repository": row["repository"], "name": row["name"],
            "file": "%s/%s" % (row["repository"], row["name"])}
        yield one | {
            "version": signed["version"], "expires": moment_in(signed["expires"]), "life": life,
            "by": ANEW.get(signed["type"], "refresh")}


# ---- over time


def reports(signed: str, ecu: str, file: str) -> bool:
    """Whether a manifest's signed text has a report of the ECU with that file. As canonical text
    has the members in order, the two stand side by side, but for members that this product
    doesn't know.
    """
    if '"ecu":"%s","image":{"file":"%s"' % (ecu, file) in signed:
        return True
    if '"file":"%s"' % file not in signed or '"ecu":"%s","image":' % ecu in signed:
        return False
    every = [it["signed"] for it in json.loads(signed)["reports"]]
    return any(it["ecu"] == ecu and it["image"]["file"] == file for it in every)


def since_when(db: sqlite3.Connection, vehicle: str, version: int, ecu: str,
               file: str) -> int | None:
    """The moment of a manifest by which an ECU that reports the file now began to. Found by
    halves, so a few manifests are read: where it went back and forth, it is one of the times at
    which it began.
    """
    sql = "SELECT moment, signed FROM kept WHERE vehicle = ? AND version = ?"

    def at(number: int) -> sqlite3.Row | None:
        return db.execute(sql, (vehicle, number)).fetchone()

    row = at(version)
    if not row or not reports(row["signed"], ecu, file):
        return None
    low, high, moment = 0, version, row["moment"]
    while high - low > 1:
        middle = (low + high) // 2
        row = at(middle)
        if row and reports(row["signed"], ecu, file):
            high, moment = middle, row["moment"]
        else:
            low = middle
    return moment


def taken_up(db: sqlite3.Connection, campaign: Named, images: Images,
             vehicles: list[Named]) -> list[int]:
    """The moments at which ECUs began to report what a running campaign offers, in order."""
    made = []
    files = {item["hardware"]: item["file"] for item in campaign["items"]}
    for vehicle, ecu, has in moves_of(campaign, images, vehicles):
        if has and ecu["file"] == files[ecu["hardware"]]:
            made.append(
                since_when(db, vehicle["vehicle"], vehicle["version"], ecu["ecu"], ecu["file"]))
    return sorted(it for it in made if it is not None)


def replaced_of(db: sqlite3.Connection, schema: int) -> Iterator[Named]:
    """The ECUs that were replaced, in order, with the last version and moment of their vehicle's
    manifests that they reported in.
    """
    if schema < 2:
        return
    sql = "SELECT version, moment, signed FROM kept WHERE vehicle = ? ORDER BY version DESC"
    for row in db.execute("SELECT ecu, vehicle FROM retired ORDER BY rowid").fetchall():
        found = next(((it[0], it[1]) for it in db.execute(sql, (row["vehicle"], ))
                      if '"ecu":"%s"' % row["ecu"] in it[2]), (None, None))
        yield {"vehicle": row["vehicle"], "ecu": row["ecu"], "version": found[0], "seen": found[1]}
