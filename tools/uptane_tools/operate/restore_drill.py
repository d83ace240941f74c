"""Tries a backup: restores it into a folder of its own, starts the program over it, and tells
what each vehicle would then meet.

    tools/run restore_drill PROGRAM COPY [--after LATER] [--vehicles] [--folder FOLDER]

COPY and its log stay as they are; what is restored is taken away again at the end. FOLDER, where
it is put, is COPY's own folder where none is named. How long each step takes is printed, so what
a real restore would take. LATER is the file as it was when it was lost, or any later copy. Where
it is given, what the restore forgets is told: manifests, scripts' lines that have to be given
again, and for each kind of vehicle how many there are; `--vehicles` prints a line for each
vehicle.

The status is 0 where the backup is taken and served, and 1 with a message where it isn't.
"""
import contextlib
import json
import os
import random
import socket
import sqlite3
import subprocess
import sys
import tempfile
import time
import urllib.request
from collections import Counter
from pathlib import Path

from typing import Iterator

from uptane_tools import arguments
from uptane_tools.operate import check_file, fleet_tables, try_copy
from uptane_tools.operate.formats import Named

# seconds that a start may take
PATIENCE = 3600


class Failed(Exception):
    """What keeps the backup from being taken."""


# ---- restoring


def free_port() -> int:
    """A port at which nothing listens, below those that the system gives to clients."""
    while True:
        with socket.socket() as one, contextlib.suppress(OSError):
            one.setsockopt(socket.SOL_SOCKET, socket.SO_REUSEADDR, 1)
            one.bind(("127.0.0.1", random.randrange(10_000, 32_000)))
            return one.getsockname()[1]


def served(program: Path, path: Path) -> tuple[int, float]:
    """The Image repository's version, as the program serves it over the restored file, and the
    seconds until it listens.
    """
    port, begun = free_port(), time.monotonic()
    with subprocess.Popen([program, "serve", path, str(port), "2"], stdout=subprocess.PIPE,
                          stderr=subprocess.PIPE) as running:
        try:
            assert running.stdout
            if running.stdout.readline() != b"listening %d\n" % port:
                raise Failed("the program doesn't take it: %s" %
                             running.communicate()[1].decode("ascii", "replace").strip())
            took = time.monotonic() - begun
            with urllib.request.urlopen("http://127.0.0.1:%d/image/timestamp.json" % port,
                                        timeout=60) as answer:
                return json.load(answer)["signed"]["version"], took
        finally:
            running.kill()


# ---- what is forgotten


def ecus_in(db: sqlite3.Connection) -> dict[str, list[str]]:
    made: dict[str, list[str]] = {}
    for vehicle, ecu in db.execute("SELECT vehicle, ecu FROM ecu ORDER BY vehicle, place"):
        made.setdefault(vehicle, []).append(ecu)
    return made


def state(path: Path) -> Named:
    """What a file has, by the names of what operators and vehicles made."""
    with fleet_tables.opened(path) as db:
        meta = fleet_tables.meta_of(db)

        def names(sql: str) -> dict[str, tuple]:
            return {row[0]: tuple(row)[1:] for row in db.execute(sql)}

        made = {
            "root": meta["root"], "version": meta["image_version"],
            "newest": fleet_tables.newest(db), "ecus": ecus_in(db)}
        made |= {
            "vehicles": names("SELECT vehicle, version, last_counter FROM vehicle"),
            "images": names("SELECT file FROM image")}
        return made | {"campaigns": names("SELECT name, running FROM campaign")}


def meets(name: str, before: Named, after: Named) -> tuple[str, str]:
    """What a vehicle meets, in words, and the kind of it."""
    if name not in before["vehicles"]:
        return "unknown", "is refused 10 UnknownVehicle until it is added again"
    if before["ecus"].get(name) != after["ecus"].get(name):
        return "other ECUs", ("is refused 14 UnknownEcu or 16 MissingEcu until its ECUs are "
                              "replaced again")
    back = after["vehicles"][name][0] - before["vehicles"][name][0]
    if back == 0:
        return "as before", "goes on as before"
    words = ("goes back from version %d to %d: it refuses the replies to its next %d manifests, "
             "and takes that to the one behind them")
    return "goes back", words % (after["vehicles"][name][0], before["vehicles"][name][0], back - 1)


def given_again(before: Named, after: Named) -> Iterator[str]:
    """The lines that have to be given again, and those that bring versions back to where
    vehicles are.
    """
    for root in range(before["root"] + 1, after["root"] + 1):
        yield ("rotate to root version %d, with the same keys as then: a vehicle that saw it "
               "follows no other") % root
    for name in sorted(after["images"].keys() - before["images"].keys()):
        yield "add_image %s" % name
    for name in sorted(after["vehicles"].keys() - before["vehicles"].keys()):
        yield "add_vehicle %s" % name
    for name in sorted(after["ecus"].keys() & before["ecus"].keys()):
        for old, new in zip(before["ecus"][name], after["ecus"][name]):
            if old != new:
                yield "replace_ecu of %s: %s by %s" % (name, old, new)
    for name, (running, ) in sorted(after["campaigns"].items()):
        if name not in before["campaigns"]:
            yield "open_campaign %s" % name
        if not running and before["campaigns"].get(name, (1, )) == (1, ):
            yield "close_campaign %s" % name
    if after["version"] > before["version"]:
        yield "refresh to a version above %d: the last that was served" % after["version"]


def forgotten(copy: Path, later: Path, each: bool) -> Iterator[str]:
    before, after = state(copy), state(later)
    lost = sum(version - before["vehicles"].get(name, (0, 0))[0]
               for name, (version, _) in after["vehicles"].items())
    yield "forgotten: %d manifests, behind %s until %s" % (lost, *(
        time.strftime("%Y-%m-%dT%H:%M:%SZ", time.gmtime(it["newest"])) for it in (before, after)))
    told = {name: meets(name, before, after) for name in sorted(after["vehicles"])}
    counts = Counter(kind for kind, _ in told.values())
    yield "vehicles: " + ", ".join("%d %s" % (counts[kind], kind)
                                   for kind in ("as before", "goes back", "other ECUs", "unknown"))
    yield from ("vehicle %s %s" % (name, words) for name, (_, words) in told.items() if each)
    yield from ("to give again: " + words for words in given_again(before, after))


def drill(program: Path, copy: Path, later: Path | None, each: bool, folder: Path) -> None:
    steps = [("looked at", time.monotonic())]
    amiss = list(check_file.amiss(copy))
    if amiss:
        raise Failed("; ".join(amiss))
    with tempfile.TemporaryDirectory(dir=folder, prefix="drill-") as own:
        steps.append(("restored", time.monotonic()))
        path = Path(own) / "desk.db"
        try_copy.restored(copy, path)
        steps.append(("started", time.monotonic()))
        version, _ = served(program, path)
        ended = time.monotonic()
    for at, (name, begun) in enumerate(steps):
        until = steps[at + 1][1] if at + 1 < len(steps) else ended
        print("%s in %.2f seconds" % (name, until - begun))
    print("serves: %d bytes, the Image repository's version is %d" %
          (fleet_tables.size_of(copy), version))
    if later:
        for line in forgotten(copy, later, each):
            print(line)


def main(words: arguments.Words = None) -> int:
    parser = arguments.parser(__doc__)
    parser.add_argument("program", type=Path)
    parser.add_argument("copy", type=Path)
    parser.add_argument("--after", type=Path)
    parser.add_argument("--vehicles", action="store_true", help="a line for each vehicle")
    parser.add_argument("--folder", type=Path)
    given = parser.parse_args(words)
    os.umask(0o077)
    try:
        drill(given.program.resolve(), given.copy, given.after, given.vehicles, given.folder
              or given.copy.resolve().parent)
    except (Failed, fleet_tables.Other, OSError, ValueError, sqlite3.Error) as wrong:
        print("restore_drill: %s: %s" % (given.copy, wrong), file=sys.stderr)
        return 1
    return 0
