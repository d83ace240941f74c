"""Tries what is larger than in any row. No contract excludes that want of memory is told of it,
so it is tried. Bounded to a minute.

    tools/run large_cases PROGRAM

Over a file: 65,537 running campaigns, of which the last alone names the vehicle; 1,100 manifests
of one vehicle; roles of four keys, of which each signs, before and behind a rotation, so that a
Root file has eight signatures; and the greatest counts in all places at once. Each line is
answered as by the rules of `tools/run reference`; it is spared the campaigns that name other
vehicles, which change no answer.
"""
import os
from collections.abc import Sequence
from pathlib import Path
from typing import Any

from uptane_tools import arguments
from uptane_tools.measure import fleet
from uptane_tools.trial import trials

MEMORY = "/dev/shm"
CAMPAIGNS = 65_537
MANIFESTS = 1_100
GREATEST = 2**53 - 1
ECU = {"ecu": "p", "hardware": "HP", "key": fleet.key(0x31)}
FOUND = fleet.line("found", **fleet.key_set(1))
VEHICLE = fleet.line("add_vehicle", vehicle="v", primary="p", ecus=[ECU])
FETCHES = [
    fleet.line("fetch", repository=name, file=file) for name in ("director", "image")
    for file in ("root.json", "1.root.json", "2.root.json")]


def image(file: str, **told: Any) -> str:
    return fleet.line("add_image", file=file, hardware=["HP"],
                      **{"length": 3, "release": 1, "sha256": fleet.digest(file)} | told)


def campaign(name: str, vehicles: Any, file: str = "new") -> str:
    return fleet.line("open_campaign", campaign=name, vehicles=vehicles, items=[{
        "hardware": "HP", "file": file}])


def manifest(counter: int, installed: dict[str, Any] = fleet.FACTORY) -> str:
    report = {"ecu": "p", "key": ECU["key"], "counter": counter, "time": fleet.START, **installed}
    return fleet.line("bench", vehicle="v", primary="p", key=ECU["key"], counter=counter, reports=[
        report])


def shown() -> list[str]:
    return [fleet.line("show", vehicle="v"), manifest(1), fleet.line("show", vehicle="v")]


def is_answered(program: Any, own: Path, script: list[str], spared: Sequence[str] = ()) -> bool:
    """Whether the script is answered as by the rules, and each spared line, behind its first
    three, `done`.
    """
    told = trials.printed(program, own / "tried", script[:3] + list(spared) + script[3:], 600)
    if told is None or told[3:3 + len(spared)] != ["done"] * len(spared):
        return False
    return told[:3] + told[3 + len(spared):] == trials.expected(own / "rules", script)


def campaigns(program: Path, own: Path) -> trials.Cases:
    other = fleet.line("add_vehicle", vehicle="w", primary="q", ecus=[ECU | {"ecu": "q"}])
    others = [campaign("c%05d" % at, ["w"]) for at in range(CAMPAIGNS - 1)]
    script = [FOUND, image("new"), other, VEHICLE, campaign("last", ["v"]), *shown()]
    yield "%d running campaigns, the last for a vehicle" % CAMPAIGNS, is_answered(
        program, own, script, others)


def manifests(program: str | Path, own: Path) -> trials.Cases:
    script = [
        FOUND,
        image("new"), VEHICLE,
        campaign("all", "all"), *map(manifest, range(1, MANIFESTS + 1)), *shown()]
    yield "%d manifests of one vehicle" % MANIFESTS, is_answered(program, own, script)


def keys(first: int) -> dict[str, Any]:
    """Four keys of each role, of which each has to sign."""

    def roles(start: Any) -> dict[str, dict[str, Any]]:
        return {
            role: {"keys": [fleet.key(start + 4 * i + j) for j in range(4)
                            ], "threshold": 4} for i, role in enumerate(fleet.ROLES)}

    return {"director": roles(first), "image": roles(first + 16)}


def signatures(program: str | Path, own: Path) -> trials.Cases:
    script = [
        fleet.line("found", **keys(1)),
        image("new"), VEHICLE,
        fleet.line("rotate", **keys(101)),
        campaign("all", "all"), *shown(), *FETCHES]
    yield "four keys of each role, and four others", is_answered(program, own, script)


def counts(program: str | Path, own: Path) -> trials.Cases:
    greatest = {"length": GREATEST, "release": GREATEST}
    reported = {"file": "new", "length": GREATEST, "sha256": fleet.digest("new")}
    script = [
        FOUND,
        image("new", **greatest), VEHICLE,
        campaign("all", "all"),
        manifest(GREATEST - 1),
        manifest(GREATEST, reported), *shown()]
    yield "the greatest length, release and counters", is_answered(program, own, script)


def cases(program: Path) -> trials.Cases:
    for part in (campaigns, manifests, signatures, counts):
        with trials.folder(MEMORY if os.path.isdir(MEMORY) else None) as own:
            yield from part(program, own)


def main(words: arguments.Words = None) -> int:
    """Tries the program that is named."""
    return trials.tried(__doc__, words, "large", cases)
