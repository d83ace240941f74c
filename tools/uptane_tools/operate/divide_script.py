"""Divides a script by vehicle over several desks, and joins what they answer. It runs nothing.
`docs/use/SCALE.md` says when.

    tools/run divide_script FOLDER [--desks N] < SCRIPT
            writes FOLDER/desk1.script, FOLDER/desk2.script ..
    tools/run divide_script FOLDER --join
            reads FOLDER/desk1.answers .., and prints one answer for each line

A line on a vehicle goes to the vehicle's desk, and a new vehicle to the desk that has the
fewest. A line on keys or images goes to all desks. So does a campaign for all vehicles; one that
names vehicles goes to their desks, and names to each its own. What asks nothing that can be told
goes to the first desk.

Between the two give each script to its desk, `tools/run tell SOCKET < FOLDER/desk1.script >
FOLDER/desk1.answers`; where its service ended in the middle, add the rest to the answers
(`--from`). What is joined is what one desk prints for the whole script. Where desks differ on a
line, `differs:` and each answer is printed; the status is then 1.

FOLDER keeps what was divided: `division.json` has the desk of each vehicle and of each ECU's and
campaign's name that was taken, `vehicles.map` the vehicles for a proxy. `every.script` has the
lines for all desks, since the beginning: where N is greater than before, the scripts of new
desks begin with them. All hold secrets, and are made for their owner alone.

Where a line can't be divided, or the last script isn't joined yet, that is told, nothing is
written, and the status is 1.
"""
import json
import os
import sys
from collections import Counter
from pathlib import Path

from typing import Any, Iterator

from uptane_tools import arguments
from uptane_tools.operate.formats import Named, canonical

MOST_DESKS = 64
BY_VEHICLE = {"add_vehicle", "replace_ecu", "bench", "show"}
FOR_ALL = {"found", "rotate", "add_image", "refresh", "fetch"}
THERE = ("done", "already")

# the line of each desk that gets one, and what is taken once it is done
Parted = tuple[dict[int, bytes], Named]


class Wrong(Exception):
    """What can't be divided or joined."""


def need(holds: object, words: str, *given: object) -> None:
    if not holds:
        raise Wrong(words % given)


def is_name(value: Any) -> bool:
    return isinstance(value, str) and value != ""


# ---- what a folder keeps

EMPTY = {"desks": 0, "vehicles": {}, "ecus": {}, "campaigns": {}}


def kept(folder: Path) -> Named:
    path = folder / "division.json"
    return json.loads(path.read_text(
        encoding="ascii")) if path.exists() else json.loads(json.dumps(EMPTY))


def write(path: Path, text: str | bytes) -> None:
    """Writes a file whole or not at all, for its owner alone."""
    new = path.with_name(path.name + ".new")
    with open(os.open(new, os.O_WRONLY | os.O_CREAT | os.O_TRUNC, 0o600), "wb") as file:
        file.write(text if isinstance(text, bytes) else text.encode("ascii"))
    os.replace(new, path)


def script_of(folder: Path, desk: int) -> Path:
    return folder / ("desk%d.script" % desk)


# ---- dividing


class Division:
    """The lines of each desk, over what was divided before."""

    def __init__(self, before: Named, desks: int) -> None:
        self.desks, self.ecus = range(1, desks + 1), dict(before["ecus"])
        self.vehicles, self.campaigns, self.taken = dict(before["vehicles"]), dict(
            before["campaigns"]), before["campaigns"]
        self.load = Counter({desk: 0 for desk in self.desks})
        self.load.update(self.vehicles.values())
        self.scripts: dict[int, list[bytes]] = {desk: [] for desk in self.desks}
        self.every: list[bytes] = []
        self.lines: list[list[Any]] = []

    def add(self, line: bytes) -> None:
        """Gives a line to its desks: to each as it is, or with its own vehicles."""
        try:
            asked = json.loads(line)
        except (ValueError, RecursionError):
            asked = None
        asked = asked if isinstance(asked, dict) else {}
        parts, takes = self.parted(asked, line)
        for desk, part in parts.items():
            self.scripts[desk].append(part)
        if takes.get("every"):
            self.every.append(line)
        self.lines.append([sorted(parts), takes])

    def parted(self, asked: Named, line: bytes) -> Parted:
        """The line of each desk that gets one, and what is taken once it is done."""
        word = asked.get("do") if isinstance(asked.get("do"), str) else None
        if word in FOR_ALL:
            return dict.fromkeys(self.desks, line), {"every": word != "fetch"}
        if word == "open_campaign":
            return self.campaign(asked, line)
        if word == "close_campaign":
            known = self.campaigns.get(asked.get("campaign")) if is_name(
                asked.get("campaign")) else None
            named = known and known[0]
            return dict.fromkeys(named or self.desks, line), {} if named else {"every": True}
        if word in BY_VEHICLE:
            return self.of_vehicle(word, asked, line)
        if word == "deliver":
            return {self.desk_of(delivered(asked)): line}, {}
        return {1: line}, {}

    def desk_of(self, vehicle: Any) -> int:
        """The desk of a vehicle; of one that isn't there the first, which says so."""
        return self.vehicles.get(vehicle, 1) if is_name(vehicle) else 1

    def of_vehicle(self, word: str, asked: Named, line: bytes) -> Parted:
        vehicle, desk, ecus = asked.get("vehicle"), self.desk_of(asked.get("vehicle")), []
        if word == "add_vehicle":
            ecus = [it.get("ecu") for it in asked.get("ecus") or [] if isinstance(it, dict)
                    ] if isinstance(asked.get("ecus"), list) else []
            ecus = list(filter(is_name, ecus))
            if is_name(vehicle) and vehicle not in self.vehicles:
                desk = next((self.ecus[it] for it in ecus if it in self.ecus),
                            min(self.desks, key=lambda it: (self.load[it], it)))
                self.vehicles[vehicle] = desk
                self.load[desk] += 1
        elif word == "replace_ecu" and is_name(asked.get("ecu")):
            ecus = [asked["ecu"]]
            need(
                self.ecus.get(ecus[0], desk) == desk, "%s is an ECU's name at desk %s", ecus[0],
                self.ecus.get(ecus[0]))
        taken = {"desk": desk, "vehicle": vehicle if word == "add_vehicle" else None, "ecus": ecus}
        for ecu in ecus:
            self.ecus.setdefault(ecu, desk)
        return {desk: line}, taken if ecus else {}

    def campaign(self, asked: Named, line: bytes) -> Parted:
        """A campaign for all goes to all. Of one that names vehicles each desk gets its own, and
        none has the name but these.
        """
        name, named = asked.get("campaign"), asked.get("vehicles")
        if not is_name(name) or not (named == "all"
                                     or isinstance(named, list) and all(map(is_name, named))):
            return {1: line}, {}
        whole, before = canonical({"items": asked.get("items"),
                                   "vehicles": named}), self.campaigns.get(name)
        if before and before[1] != whole:
            need(name in self.taken, "the campaign %s stands twice, with other members", name)
            # the name is taken: one desk that has it says so
            return {(before[0] or [1])[0]: line}, {}
        if named == "all":
            self.campaigns[name] = [[], whole]
            return dict.fromkeys(self.desks, line), {
                "every": True, "campaign": name, "value": self.campaigns[name]}
        for vehicle in named:
            need(vehicle in self.vehicles, "%s is at no desk", vehicle)
        owned: dict[int, list[str]] = {}
        for vehicle in named:
            owned.setdefault(self.vehicles[vehicle], []).append(vehicle)
        parts = {
            desk: canonical(asked | {"vehicles": own}).encode("ascii")
            for desk, own in sorted(owned.items())} or {1: line}
        self.campaigns[name] = [sorted(parts), whole]
        return parts, {"campaign": name, "value": self.campaigns[name]}


def delivered(asked: Named) -> Any:
    """The vehicle that a body names."""
    try:
        return json.loads(asked["body"])["signed"]["vehicle"]
    except (ValueError, KeyError, TypeError, RecursionError):
        return None


def divide(folder: Path, desks: int, given: bytes) -> None:
    """Writes the script of each desk, and what `--join` needs."""
    need(not (folder / "pending.json").exists(),
         "the last script isn't joined yet: give it to the desks, and join their answers")
    before = kept(folder)
    desks = desks or before["desks"]
    need(desks, "--desks says how many there are")
    need(before["desks"] <= desks <= MOST_DESKS, "%d desks: there were %d, and %d are the most",
         desks, before["desks"], MOST_DESKS)
    made = Division(before, desks)
    for number, line in enumerate(given.split(b"\n"), 1):
        try:
            if line:
                made.add(line)
        except Wrong as wrong:
            raise Wrong("line %d: %s" % (number, wrong)) from None
    every = folder / "every.script"
    first = every.read_bytes() if every.exists() else b""
    for desk, lines in made.scripts.items():
        own = b"".join(line + b"\n" for line in lines)
        write(script_of(folder, desk), (first if desk > before["desks"] else b"") + own)
    lead = {desk: first.count(b"\n") if desk > before["desks"] else 0 for desk in made.desks}
    write(every, first + b"".join(line + b"\n" for line in made.every))
    write(folder / "pending.json", json.dumps({"desks": desks, "lead": lead, "lines": made.lines}))
    for desk, lines in made.scripts.items():
        print("desk %d: %d lines" % (desk, lead[desk] + len(lines)))


# ---- joining


def answers_of(folder: Path, desk: int, lead: int, number: int) -> list[str]:
    path = folder / ("desk%d.answers" % desk)
    told = path.read_text(encoding="ascii").split("\n")[:-1] if path.exists() else []
    need(
        len(told) == lead + number, "%s has %d answers, and its script %d lines", path, len(told),
        lead + number)
    return told[lead:]


def joined(folder: Path, pending: Named) -> Iterator[tuple[dict[int, str], Named]]:
    """The answers to each line, by desk."""
    counts = Counter(desk for desks, _ in pending["lines"] for desk in desks)
    told = {
        desk: iter(answers_of(folder, desk, pending["lead"][str(desk)], counts[desk]))
        for desk in range(1, pending["desks"] + 1)}
    for desks, takes in pending["lines"]:
        yield {desk: next(told[desk]) for desk in desks}, takes


def keep(state: Named, takes: Named) -> None:
    """What a line that is done takes for good."""
    if "campaign" in takes:
        state["campaigns"][takes["campaign"]] = takes["value"]
    if takes.get("vehicle"):
        state["vehicles"].setdefault(takes["vehicle"], takes["desk"])
    for ecu in takes.get("ecus", []):
        state["ecus"].setdefault(ecu, takes["desk"])


def join(folder: Path) -> bool:
    """Prints the answers, and keeps what they say is taken; whether the desks agree on each line.
    """
    path = folder / "pending.json"
    need(path.exists(), "no script was divided")
    pending, state, agree = json.loads(path.read_text(encoding="ascii")), kept(folder), True
    state["desks"] = pending["desks"]
    lines = list(joined(folder, pending))
    for told, takes in lines:
        if set(told.values()) & set(THERE):
            keep(state, takes)
        same = len(set(told.values())) == 1
        agree = agree and same
        print(
            next(iter(told.values())) if same else "differs: " +
            "; ".join("desk %d %s" % it for it in told.items()))
    write(folder / "division.json", json.dumps(state, indent=0, sort_keys=True) + "\n")
    write(folder / "vehicles.map",
          "".join("%s desk%d\n" % it for it in sorted(state["vehicles"].items())))
    for desk in range(1, pending["desks"] + 1):
        script_of(folder, desk).unlink()
    path.unlink()
    return agree


def main(words: arguments.Words = None) -> int:
    parser = arguments.parser(__doc__)
    parser.add_argument("folder", type=Path)
    parser.add_argument("--desks", type=int, default=0)
    parser.add_argument("--join", action="store_true")
    given = parser.parse_args(words)
    try:
        given.folder.mkdir(mode=0o700, exist_ok=True)
        if given.join:
            return 0 if join(given.folder) else 1
        divide(given.folder, given.desks, sys.stdin.buffer.read())
    except (Wrong, OSError) as wrong:
        print("divide_script: %s" % wrong, file=sys.stderr)
        return 1
    return 0
