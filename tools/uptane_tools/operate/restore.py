"""Restores a desk's file from a copy: has the program open the copy, stops the service, puts the
copy in place, and starts the service again.

    tools/run restore COPY [--desk N] [--tell] [--lines FILE] [--lost FILE]

To be run by root. The settings are those of `/etc/uptane/settings`, or of the file that SETTINGS
names. COPY stays as it is. It is first copied beside the file and opened there by the program, as
OWNER, in the time of a start; what the program refuses is told, and changes nothing. Then the file
that was there and its log are kept in FOLDER/before-TIME. No script is given meanwhile.

It is told what the copy hasn't, by the file that was there, or by the file LOST: how many
manifests, the lines to give again, and which vehicles will refuse replies as older ones, how many
and until about when, by how often each one asked. `--lines FILE` writes those lines as a script,
which holds secrets where keys were rotated; where the lost file can't be read they are those of
the journal. FILE mustn't be there, and is made before anything is changed. `--tell` tells, and
changes nothing.

The status is 0 where the service answers from the restored file, 1 with a message where it
doesn't, which says what there is to do, and 2 where FILE can't be made.
"""
import argparse
import contextlib
import fcntl
import json
import os
import pwd
import sqlite3
import subprocess
import sys
import tempfile
import time
import urllib.request
from collections.abc import Iterator
from pathlib import Path

from uptane_tools import arguments
from uptane_tools.operate import again, check_file, fleet_tables, restore_drill, try_copy

# what apply.sh and backup.sh take where the settings don't say
USUAL = {
    "FOLDER": "/var/lib/uptane", "OWNER": "uptane", "PORT": "8080", "RUN": "/run", "DESKS": "",
    "JOURNAL": "/var/log/uptane/journal", "PATIENCE": "600", "PROGRAM": "/usr/bin/uptane_desk",
    "COPIES": "/var/backups/uptane"}


class Failed(Exception):
    """Why nothing is restored, or what was restored isn't served."""


def settings(path: Path) -> dict[str, str]:
    """The settings, as a shell reads them; those of the environment count where the file has none.
    """
    words = " ".join('"%s=${%s-}"' % (name, name) for name in USUAL)
    script = 'if [ -r "$0" ]; then . "$0"; fi; printf "%%s\\0" %s' % words
    told = subprocess.run(["sh", "-c", script, str(path)], capture_output=True,
                          check=True).stdout.decode().split("\0")[:-1]
    return USUAL | {name: value for name, _, value in (it.partition("=") for it in told) if value}


def systemctl(*words: str) -> subprocess.CompletedProcess[str]:
    return subprocess.run(["systemctl", *words], capture_output=True, text=True, check=False)


# ---- what a restore forgets


def every(moments: list[int]) -> float:
    """The seconds between two manifests of a vehicle, by its last ones; a day where it sent one
    alone.
    """
    return (moments[0] - moments[-1]) / (
        len(moments) - 1) if len(moments) > 1 and moments[0] > moments[-1] else 86400.0


def older(copy: Path, later: Path) -> Iterator[tuple[str, int, int]]:
    """The vehicles that will refuse replies: how many, and until about when."""
    before, after = restore_drill.state(copy), restore_drill.state(later)
    with fleet_tables.opened(later) as db:
        for name in sorted(after["vehicles"].keys() & before["vehicles"].keys()):
            back = after["vehicles"][name][0] - before["vehicles"][name][0] - 1
            if back > 0:
                rows = db.execute(
                    "SELECT moment FROM kept WHERE vehicle = ? ORDER BY version DESC LIMIT 8",
                    (name, ))
                yield name, back, int(time.time() + (back + 1) * every([row[0] for row in rows]))


def told(copy: Path, later: Path) -> list[str]:
    """What the copy hasn't, for an operator to read."""
    made, until = list(restore_drill.forgotten(copy, later, False)), 0
    for name, back, until_then in older(copy, later):
        words = ("vehicle %s refuses the replies to its next %d manifests as older ones, until "
                 "about %s")
        made.append(words % (name, back, moment(until_then)))
        until = max(until, until_then)
    if until:
        made.append("until about %s vehicles report `goes back to version`, which is no attack" %
                    moment(until))
    return made


def moment(at: int) -> str:
    return time.strftime("%Y-%m-%dT%H:%MZ", time.gmtime(at))


def compared(copy: Path, lost: Path, lines: int | None, its: dict[str, str]) -> Iterator[str]:
    """What the copy hasn't; the lines go to the file that is open."""
    try:
        yield from told(copy, lost)
        made, lacking = again.lines(copy, lost, Path(its["COPIES"]), int(time.time()))
        by = str(lost)
        yield from lacking
    except (fleet_tables.Other, OSError, ValueError, sqlite3.Error) as wrong:
        yield "what the copy hasn't can't be told by %s: %s" % (lost, wrong)
        yield "where the lost file is elsewhere, name it by --lost"
        by, made = its["JOURNAL"], []
        if lines is not None:
            made, lacking = again.by_journal(copy, Path(by), Path(its["COPIES"]), int(time.time()))
            yield from lacking
    if lines is not None:
        with open(lines, "w", encoding="ascii", closefd=False) as file:
            file.write("".join(line + "\n" for line in made))
        yield "%d lines to give again, by %s, are written" % (len(made), by)


# ---- putting it in place


def moved(path: Path, to: Path, owner: pwd.struct_passwd) -> None:
    """The file and its log, into a folder of their own."""
    there = [it for it in (path, fleet_tables.log_of(path)) if os.path.lexists(it)]
    if there:
        to.mkdir(mode=0o700)
        os.chown(to, owner.pw_uid, owner.pw_gid)
    for it in there:
        it.rename(to / it.name)


def taken(copy: Path, own: Path, its: dict[str, str], owner: pwd.struct_passwd) -> Path:
    """The copy at its new place, beside the file, once the program has opened it there."""
    path = own / "desk.db"
    try_copy.restored(copy, path)
    for it in (own, path, fleet_tables.log_of(path)):
        if it.exists():
            os.chown(it, owner.pw_uid, owner.pw_gid)
    try:
        try_copy.opened(["runuser", "-u", its["OWNER"], "--", its["PROGRAM"]], path)
    except try_copy.Refused as wrong:
        raise Failed("%s; nothing is changed: take an older copy" % wrong) from wrong
    return path


def placed(made: Path, path: Path) -> None:
    """What the program opened, synchronised, under the file's name; the log comes first, since a
    file without it may be taken without what the log has.
    """
    for one, other in ((fleet_tables.log_of(made), fleet_tables.log_of(path)), (made, path)):
        if one.exists():
            with open(one, "rb") as file:
                os.fsync(file.fileno())
            one.rename(other)
    folder = os.open(path.parent, os.O_RDONLY)
    os.fsync(folder)
    os.close(folder)


def version(port: int, unit: str, patience: float) -> int:
    """The Image repository's version, once the service answers."""
    until = time.monotonic() + patience
    while True:
        with contextlib.suppress(OSError, ValueError):
            with urllib.request.urlopen("http://127.0.0.1:%d/image/timestamp.json" % port,
                                        timeout=60) as answer:
                return int(json.load(answer)["signed"]["version"])
        if time.monotonic() > until or systemctl("is-failed", unit).returncode == 0:
            raise Failed("the restored file isn't served: look at journalctl -u %s; for another "
                         "copy, --lost names what was there first" % unit)
        time.sleep(0.5)


def noted(journal: Path, copy: Path, path: Path) -> None:
    """A line of the journal: a restore changes what was done."""
    entry = {
        "given": time.strftime("%Y-%m-%dT%H:%M:%SZ", time.gmtime()), "who": os.environ.get(
            "SUDO_USER", "root"), "restored": str(path), "from": str(copy)}
    with open(os.open(journal, os.O_WRONLY | os.O_CREAT | os.O_APPEND, 0o640), "w",
              encoding="utf-8") as file:
        file.write(json.dumps(entry, sort_keys=True) + "\n")


def restored(copy: Path, made: Path, desk: str, its: dict[str, str]) -> Iterator[str]:
    unit = "uptane-desk@%s.service" % desk if desk else "uptane-desk.service"
    path, owner = file_of(desk, its), pwd.getpwnam(its["OWNER"])
    aside = path.parent / time.strftime("before-%Y%m%dT%H%M%SZ", time.gmtime())
    if systemctl("stop", unit).returncode:
        raise Failed("%s doesn't stop; nothing is changed" % unit)
    moved(path, aside, owner)
    try:
        placed(made, path)
    except OSError as wrong:
        for it in (path, fleet_tables.log_of(path)):
            it.unlink(missing_ok=True)
        for it in aside.iterdir() if aside.exists() else ():
            it.rename(path.parent / it.name)
        systemctl("start", unit)
        raise Failed("%s; the file that was there is in its place again" % wrong) from wrong
    noted(Path(its["JOURNAL"]), copy, path)
    yield "%s is in place; what was there is in %s" % (path, aside if aside.exists() else
                                                       "no folder, as nothing was")
    systemctl("reset-failed", unit)
    # (it starts by itself meanwhile, and ends only once it listens)
    systemctl("start", "--no-block", unit)
    yield "%s answers; the Image repository's version is %d" % (
        unit, version(int(its["PORT"]) + int(desk or 0), unit, float(its["PATIENCE"])))


def file_of(desk: str, its: dict[str, str]) -> Path:
    return Path(its["FOLDER"]) / ("desk%s.db" % desk)


def done(given: argparse.Namespace, its: dict[str, str], lines: int | None) -> Iterator[str]:
    """What is amiss with the copy keeps it from being restored; what is beyond it is told."""
    if bool(given.desk) != bool(its["DESKS"]):
        raise Failed("the settings name %s: give --desk accordingly" %
                     ("%s desks" % its["DESKS"] if its["DESKS"] else "one desk alone"))
    amiss = list(check_file.amiss(given.copy))
    if amiss:
        raise Failed("%s; nothing is changed" % "; ".join(amiss))
    path = file_of(given.desk, its)
    with tempfile.TemporaryDirectory(dir=path.parent, prefix="restoring-") as own:
        made = taken(given.copy, Path(own), its, pwd.getpwnam(its["OWNER"]))
        yield from compared(given.copy, given.lost or path, lines, its)
        if not given.tell:
            yield from restored(given.copy, made, given.desk, its)


def main(words: arguments.Words = None) -> int:
    parser = arguments.parser(__doc__)
    parser.add_argument("copy", type=Path)
    parser.add_argument("--desk", default="")
    parser.add_argument("--tell", action="store_true")
    parser.add_argument("--lines", type=Path)
    parser.add_argument("--lost", type=Path)
    given = parser.parse_args(words)
    os.umask(0o077)
    try:
        lines = os.open(given.lines, os.O_WRONLY | os.O_CREAT
                        | os.O_EXCL, 0o600) if given.lines else None
    except OSError as wrong:
        print("restore: --lines: %s; nothing is changed" % wrong, file=sys.stderr)
        return 2
    try:
        its = settings(Path(os.environ.get("SETTINGS", "/etc/uptane/settings")))
        with open(Path(its["RUN"]) / "uptane-apply.lock", "a", encoding="ascii") as lock:
            # (no script is given between the look and the start)
            fcntl.flock(lock, fcntl.LOCK_EX)
            for line in done(given, its, lines):
                print(line, flush=True)
    except (Failed, fleet_tables.Other, KeyError, OSError, ValueError, sqlite3.Error) as wrong:
        print("restore: %s: %s" % (given.copy, wrong), file=sys.stderr)
        if given.lines and not given.lines.stat().st_size:
            given.lines.unlink()
        return 1
    return 0
