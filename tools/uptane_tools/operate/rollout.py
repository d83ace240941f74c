"""Makes the lines of a rollout in steps: each step offers the same images to so many more of the
vehicles, and one line stops them all.

    tools/run rollout NAME VEHICLES --item HARDWARE=FILE .. [--steps PERCENT ..] [--seed WORD] --to
        FOLDER

VEHICLES is a file with the name of a vehicle on each line, or a copy of the database file, whose
vehicles it then is. They are put into an order that follows from the seed (the rollout's NAME,
where none is given) and their names alone, so the same words make the same steps, and a vehicle
that is new changes no other's place by much. The steps (1 10 50 100) say how much of them has
been reached then.

    FOLDER/NAME-1.script ..      opens the campaign `NAME.1` and so on, each for the vehicles that
                                 it adds
    FOLDER/NAME-stop.script      closes all that may be open
    FOLDER/NAME-steps.csv        the vehicles and the step that reaches each

Give them one after the other, each once the fleet's page shows that the one before was taken up;
it shows the steps of a rollout as one. Closed campaigns can't be opened again: to go on behind a
stop, make a rollout of another NAME, with the same seed. A campaign names at most 1,000
vehicles, so a step of more has several, `NAME.3aa`, `NAME.3ab`; the step of 100 reaches all
vehicles, those too that come later. The moment is now; `--at SECONDS` names another.
"""
import argparse
import hashlib
import math
import os
import sqlite3
import sys
import time
from pathlib import Path

from uptane_tools import arguments
from uptane_tools.operate import fleet_tables
from uptane_tools.operate.formats import FILE, IDENT, canonical

# vehicles that a campaign names, and letters that tell the campaigns of a step apart
MOST, LETTERS = 1000, "abcdefghijklmnopqrstuvwxyz"

Reach = list[str] | str


class Wrong(Exception):
    """What keeps lines from being made."""


def named(path: Path) -> list[str]:
    """The names in a list, or in a copy of the file."""
    with open(path, "rb") as file:
        is_copy = file.read(16) == b"SQLite format 3\0"
    if is_copy:
        with fleet_tables.opened(path) as db:
            fleet_tables.meta_of(db)
            return [row[0] for row in db.execute("SELECT vehicle FROM vehicle")]
    return [line.strip() for line in path.read_text(encoding="ascii").splitlines() if line.strip()]


def ordered(names: list[str], seed: str) -> list[str]:
    """By the seed: each name's place is its own sum's."""
    wrong = next((it for it in names if not IDENT(it)), None)
    if wrong is not None or len(set(names)) < len(names) or not names:
        raise Wrong("%s is no name of a vehicle" %
                    wrong if wrong is not None else "names of vehicles, none twice")
    return sorted(names, key=lambda it: hashlib.sha256(("%s/%s" %
                                                        (seed, it)).encode("ascii")).digest())


def parted(names: list[str], percents: list[float]) -> list[list[str]]:
    """The vehicles that each step adds: behind it, so much of all has been reached, rounded up."""
    if sorted(set(percents)) != percents or not 0 < percents[0] or percents[-1] > 100:
        raise Wrong("steps rise, from above 0 to at most 100")
    ends = [0, *(math.ceil(len(names) * it / 100 - 1e-9) for it in percents)]
    return [names[low:high] for low, high in zip(ends, ends[1:])]


def campaigns(name: str, step: int, names: list[str], is_whole: bool) -> list[tuple[str, Reach]]:
    """The campaigns of a step, with their vehicles."""
    if is_whole:
        return [("%s.%d" % (name, step), "all")]
    pieces = [sorted(names[at:at + MOST]) for at in range(0, len(names), MOST)]
    if len(pieces) > len(LETTERS)**2:
        raise Wrong("a step has at most %d vehicles" % (len(LETTERS)**2 * MOST))
    ends = [one + other for one in LETTERS for other in LETTERS] if len(pieces) > 1 else [""]
    return [("%s.%d%s" % (name, step, end), one) for end, one in zip(ends, pieces)]


def made(given: argparse.Namespace) -> dict[str, str]:
    """What each file of the folder holds."""
    items = [{"hardware": hardware, "file": file} for hardware, file in given.item]
    if not all(IDENT(it["hardware"]) and FILE(it["file"])
               for it in items) or len({it["hardware"] for it in items}) < len(items):
        raise Wrong("an item is HARDWARE=FILE, each hardware once")
    at = int(time.time()) if given.at is None else given.at
    steps = parted(ordered(named(given.vehicles), given.seed or given.name), given.steps)
    files: dict[str, str] = {}
    every, rows = [], ["vehicle,step"]
    for number, (names, percent) in enumerate(zip(steps, given.steps), 1):
        its = campaigns(given.name, number, names, percent == 100)
        if not all(IDENT(one) for one, _ in its):
            raise Wrong(
                "%s: a name of a campaign has 1 to 64 bytes of A-Z a-z 0-9 . _ -, its step included"
                % given.name)
        files["%s-%d.script" % (given.name, number)] = "".join(
            canonical({
                "at": at, "do": "open_campaign", "campaign": one, "vehicles": reach, "items": items
            }) + "\n" for one, reach in its)
        every += [one for one, _ in its]
        rows += ["%s,%d" % (it, number) for it in sorted(names)]
    files["%s-stop.script" % given.name] = "".join(
        canonical({"at": at, "do": "close_campaign", "campaign": one}) + "\n" for one in every)
    return files | {"%s-steps.csv" % given.name: "\n".join(rows) + "\n"}


def pair(text: str) -> tuple[str, str]:
    name, _, file = text.partition("=")
    return name, file


def main(words: arguments.Words = None) -> int:
    parser = arguments.parser(__doc__)
    parser.add_argument("name")
    parser.add_argument("vehicles", type=Path)
    parser.add_argument("--item", type=pair, nargs="+", required=True, metavar="HARDWARE=FILE")
    parser.add_argument("--steps", type=float, nargs="+", default=[1, 10, 50, 100],
                        metavar="PERCENT")
    parser.add_argument("--seed", default="")
    parser.add_argument("--to", type=Path, required=True, metavar="FOLDER")
    parser.add_argument("--at", type=int, default=None)
    given = parser.parse_args(words)
    os.umask(0o077)
    try:
        files = made(given)
        given.to.mkdir(exist_ok=True)
        for name, text in files.items():
            (given.to / name).write_text(text, encoding="ascii")
            print("%s: %d lines" % (given.to / name, text.count("\n")))
    except (Wrong, fleet_tables.Other, OSError, UnicodeError, sqlite3.Error) as wrong:
        print("rollout: %s" % wrong, file=sys.stderr)
        return 1
    return 0
