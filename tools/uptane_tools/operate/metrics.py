"""Writes what a copy of the database file tells as metrics of Prometheus, for the textfile
collector of its node exporter.

    tools/run metrics [DESK=]COPY [DESK=COPY ..] [--to FILE] [--now SECONDS] [--manifests N]
                      [--log [DESK=]FILE ..]

COPY is made as `docs/use/TABLES.md` says; it isn't written to. DESK names it in the label
`desk`, `desk` where none is given. The metrics go to standard output, or to FILE, which is
replaced whole: `/var/lib/prometheus/node-exporter/uptane.prom`, say. An assignment counts as
open over N manifests (3) where the last N replies to its vehicle had it. Silent vehicles are
reckoned from now, by this machine's clock, or from SECONDS. FILE of `--log` is what the service
of that desk wrote, of an hour, say: its refusals are counted by name.

The status is 1, with a message and without metrics, where a copy isn't a database of this
product.
"""
import itertools
import json
import os
import re
import sqlite3
import sys
import time
from collections import Counter
from pathlib import Path
from typing import Any, Iterator

from uptane_tools import arguments
from uptane_tools.operate import fleet_tables
from uptane_tools.operate.fleet_tables import DAY, IMAGES, ROOTS, VERSIONS, WEEK
from uptane_tools.operate.formats import Named

# the name, the labels and the value of each
Samples = Iterator[tuple[str, dict[str, Any], int]]

# a line of the service's log
REFUSED = re.compile(r"uptane_desk: (?:vehicle \S+: )?refused (?:0 (.+)|\d+ (\w+))")
HELP = {
    "copy_timestamp_seconds":
    "When the copy that these metrics tell of was made.",
    "newest_timestamp_seconds":
    "When the newest manifest of the copy was accepted, or its newest files were made.",
    "file_expires_timestamp_seconds":
    "When a file of a repository expires.",
    "version":
    "The Image repository's version, and the root version.",
    "version_limit":
    "The greatest of them that there can be.",
    "images":
    "Registered images.",
    "images_limit":
    "The most that there can be.",
    "vehicles":
    "Vehicles in the inventory.",
    "vehicles_never_seen":
    "Vehicles that have sent no manifest yet.",
    "vehicles_silent":
    "Vehicles of which nothing was accepted for so long.",
    "vehicles_withheld":
    "Vehicles whose last plan was withheld.",
    "vehicles_reporting_attack":
    "Vehicles of which an ECU's last report tells of an attack.",
    "assignments_open":
    "ECUs that the last reply told to install an image.",
    "assignments_open_long":
    "ECUs that so many replies in a row told to install the same image.",
    "campaign_ecus":
    "ECUs that a running campaign is for.",
    "campaign_ecus_left":
    "ECUs among them that haven't reported its image or a greater release.",
    "kept_replies":
    "Accepted manifests, each kept with its reply for good.",
    "kept_replies_last_day":
    "Those that were accepted within the last day.",
    "file_bytes":
    "The size of the database file and its log.",
    "refusals_logged":
    "Manifests and requests that were refused, by the service's log of the hour before the copy: "
    "it has 60 lines a minute of each refusal at most.",
    "growth_bytes_a_day":
    "What the file grew by within the last day, by its kept replies and their mean size.",
}


def long_open(db: sqlite3.Connection, vehicles: list[Named], number: int) -> int:
    """The ECUs whose assignment stands in the last so many plans of their vehicle."""
    sql = "SELECT plan_text FROM kept WHERE vehicle = ? AND version BETWEEN ? AND ?"
    found = 0
    for it in vehicles:
        now = {(ecu["ecu"], ecu["assigned"]) for ecu in it["ecus"] if ecu["assigned"]}
        if now and it["version"] >= number:
            for (plan, ) in db.execute(sql,
                                       (it["vehicle"], it["version"] - number + 1, it["version"])):
                now &= {(one["ecu"], one["file"]) for one in json.loads(plan)["assigned"]}
            found += len(now)
    return found


def of_files(db: sqlite3.Connection, meta: sqlite3.Row) -> Samples:
    for it in fleet_tables.files_of(db):
        yield "file_expires_timestamp_seconds", {
            "repository": it["repository"], "file": it["name"]
        }, it["expires"]
    for name, value, most in (("image", meta["image_version"], VERSIONS), ("root", meta["root"],
                                                                           ROOTS)):
        yield "version", {"of": name}, value
        yield "version_limit", {"of": name}, most


def of_vehicles(db: sqlite3.Connection, vehicles: list[Named], now: int, number: int) -> Samples:
    yield "vehicles", {}, len(vehicles)
    yield "vehicles_never_seen", {}, sum(it["seen"] is None for it in vehicles)
    for name, span in (("day", DAY), ("week", WEEK)):
        yield "vehicles_silent", {"for":
                                  name}, sum(it["seen"] is not None and it["seen"] < now - span
                                             for it in vehicles)
    yield "vehicles_withheld", {}, sum(bool(it["withheld"]) for it in vehicles)
    yield "vehicles_reporting_attack", {}, sum(
        any(ecu["attack"] for ecu in it["ecus"]) for it in vehicles)
    yield "assignments_open", {}, sum(
        bool(ecu["assigned"]) for it in vehicles for ecu in it["ecus"])
    yield "assignments_open_long", {"manifests": number}, long_open(db, vehicles, number)


def of_growth(db: sqlite3.Connection, path: Path, vehicles: list[Named], now: int) -> Samples:
    kept, day, size = sum(it["version"] for it in vehicles), fleet_tables.kept_since(
        db, now - DAY), fleet_tables.size_of(path)
    yield "kept_replies", {}, kept
    yield "kept_replies_last_day", {}, day
    yield "file_bytes", {}, size
    yield "growth_bytes_a_day", {}, day * size // kept if kept else 0


def samples(path: Path, now: int, number: int) -> Samples:
    """The name, the labels and the value of each sample."""
    with fleet_tables.opened(path) as db:
        meta = fleet_tables.meta_of(db)
        images = fleet_tables.registered(db, meta["schema"])
        vehicles = fleet_tables.vehicles_of(db, fleet_tables.ecus_of(db, images, meta["schema"]))
        yield "copy_timestamp_seconds", {}, int(path.stat().st_mtime)
        yield "newest_timestamp_seconds", {}, fleet_tables.newest(db)
        yield from of_files(db, meta)
        yield "images", {}, len(images)
        yield "images_limit", {}, IMAGES
        yield from of_vehicles(db, vehicles, now, number)
        for it in fleet_tables.campaigns_of(db, images, vehicles):
            if it["running"]:
                yield "campaign_ecus", {"campaign": it["name"]}, it["ecus"]
                yield "campaign_ecus_left", {"campaign": it["name"]}, it["ecus"] - it["done"]
        yield from of_growth(db, path, vehicles, now)


def of_log(path: Path) -> Samples:
    """How many lines tell each refusal."""
    with open(path, encoding="utf-8", errors="replace") as lines:
        found = Counter(told[1] or told[2] for told in map(REFUSED.match, lines) if told)
    for name, number in sorted(found.items()):
        yield "refusals_logged", {"refusal": name}, number


def text_of(desks: dict[str, Path], now: int, number: int, logs: dict[str, Path]) -> str:
    """All metrics, each with its help once. Names of desks, files and campaigns need no escape."""
    made: dict[str, list[str]] = {name: [] for name in HELP}
    for desk, path in desks.items():
        for name, labels, value in itertools.chain(samples(path, now, number),
                                                   of_log(logs[desk]) if desk in logs else ()):
            words = ",".join('%s="%s"' % it for it in ({"desk": desk} | labels).items())
            made[name].append("uptane_desk_%s{%s} %d\n" % (name, words, value))
    head = "# HELP uptane_desk_%s %s\n# TYPE uptane_desk_%s gauge\n"
    return "".join(head % (name, HELP[name], name) + "".join(lines) for name, lines in made.items()
                   if lines)


def written(path: Path, text: str) -> None:
    """Replaces the file whole; others may read it."""
    new = path.with_name(path.name + ".new")
    new.write_text(text, encoding="ascii")
    new.chmod(0o644)
    os.replace(new, path)


def main(words: arguments.Words = None) -> int:
    parser = arguments.parser(__doc__)
    parser.add_argument("copies", nargs="+", type=fleet_tables.named, metavar="[DESK=]COPY")
    parser.add_argument("--to", type=Path)
    parser.add_argument("--now", type=int, default=None)
    parser.add_argument("--manifests", type=int, default=3)
    parser.add_argument("--log",
                        action="append",
                        default=[],
                        type=fleet_tables.named,
                        metavar="[DESK=]FILE")
    given = parser.parse_args(words)
    desks = dict(given.copies)
    if len(desks) < len(given.copies) or not all(
            it.replace("-", "").replace("_", "").isalnum() and it.isascii() for it in desks):
        parser.error("each copy needs a name of its own, of letters, digits, - and _")
    try:
        now = int(time.time()) if given.now is None else given.now
        made = text_of(desks, now, given.manifests, dict(given.log))
        if given.to:
            written(given.to, made)
    except (fleet_tables.Other, OSError, sqlite3.Error) as wrong:
        print("metrics: %s" % wrong, file=sys.stderr)
        return 1
    if not given.to:
        sys.stdout.write(made)
    return 0
