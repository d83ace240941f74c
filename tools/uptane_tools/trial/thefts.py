"""Tries what a thief can make the proved Primary do, by which keys are stolen, as SECURITY's table
says: what they are enough for is installed, what they aren't is refused by the check that is named,
and the premises of the laws are met that bound it.

    tools/run thefts PROGRAM

promise: primary-verifies
"""
import json
from collections.abc import Callable
from dataclasses import dataclass
from pathlib import Path
from typing import Any

from uptane_tools import arguments
from uptane_tools.oracle import reference, verification
from uptane_tools.oracle.reference import REPOSITORIES, ROLES, SCHEME, canonical, sealed
from uptane_tools.trial import premises, proved_rounds, trials, vector_cases

DAY, FILES = proved_rounds.DAY, verification.FILES
# how many keys a role has, all of which have to sign; the thief's own
SIGN = {"root": 2, "targets": 2, "snapshot": 1, "timestamp": 1}
OWN = bytes([99]) * 32


def secret(repository: str, role: str, number: int) -> bytes:
    return bytes([1 + 8 * REPOSITORIES.index(repository) + 2 * ROLES.index(role) + number]) * 32


KEYS: dict[str, dict[str, Any]] = {
    it: {
        role: {
            "keys": [secret(it, role, number).hex() for number in range(count)], "threshold": count}
        for role, count in SIGN.items()} for it in REPOSITORIES}

# ---- what is stolen, and what it is enough for

Stolen = dict[tuple[str, str], int]
LISTING: Stolen = {(it, role): 1 for it in REPOSITORIES for role in ("snapshot", "timestamp")}
IMAGES: Stolen = LISTING | {("image", role): 2 for role in ("root", "targets")}
ONLINE = {("director", role): SIGN[role] for role in FILES}
DIRECTOR: Stolen = ONLINE | {("director", "root"): 2}
ALL_BUT_OFFLINE = DIRECTOR | LISTING | {("image", role): 1 for role in ("root", "targets")}
# what is installed, or why nothing is
NOTHING = {
    "an earlier reply": "new.bin",
    "another vehicle's reply": "WrongVehicle",
    "the files of two days before": "image timestamp Expired", } | dict.fromkeys(
        ("an image that isn't assigned", "an image of a lower release", "one for other hardware",
         "one that isn't registered", "one that the thief lists", "a lower release under a greater",
         "one under the thief's Root"), "director targets NotSigned")
REGISTERED = NOTHING | {
    "an image that isn't assigned": "newest.bin",
    "an image of a lower release": "LowerRelease E",
    "one for other hardware": "WrongHardware E",
    "one that isn't registered": "UnknownImage evil.bin",
    "one that the thief lists": "image targets NotSigned",
    "a lower release under a greater": "image targets NotSigned",
    "one under the thief's Root": "image root NotSignedBefore", }
OLDER = {"the files of two days before": "new.bin"}
ANYTHING = REGISTERED | OLDER | {
    "one that the thief lists": "evil.bin", "a lower release under a greater": "old.bin",
    "one under the thief's Root": "evil.bin"}


@dataclass(frozen=True)
class Row:
    """What is stolen, with its keys; of which repositories the premises of a law are met; and what
    comes of each act.
    """

    what: str
    stolen: Stolen
    laws: set[str]
    comes: dict[str, str]


ROWS = [
    Row("a car's", {}, {*REPOSITORIES}, NOTHING | {"a reply to the thief's manifest": "new.bin"}),
    Row("all Timestamps', Snapshots' and the Image repository's", IMAGES, {"director"},
        NOTHING | OLDER),
    Row("the Director's online keys", ONLINE, {"image"}, REGISTERED),
    Row("all of the Director's", DIRECTOR, {"image"}, REGISTERED),
    Row("all but enough of the Image repository's Root and Targets", ALL_BUT_OFFLINE, {"image"},
        REGISTERED | OLDER),
    Row("the server", DIRECTOR | IMAGES, set(), ANYTHING)]


class Robbed(proved_rounds.World):
    """Two repositories with these keys, and two vehicles, one of which has taken a reply."""

    def __init__(self) -> None:
        super().__init__(1)
        told = [("old.bin", "HA", 1), ("own.bin", "HA", 2), ("new.bin", "HA", 3)]
        for name, hardware, release in (*told, ("newest.bin", "HA", 4), ("other.bin", "HB", 5)):
            image = {"file": name, "hardware": [hardware], "length": 1, "release": release}
            image |= {"sha256": proved_rounds.digest(name)}
            assert self.give("add_image", **image) == "done"
            self.files.append(image)
        self.named = {it["file"]: proved_rounds.target_of(it) for it in self.files}
        self.pool = [
            bytes.fromhex(key) for it in KEYS.values() for role in it.values()
            for key in role["keys"]] + [OWN]
        self.one, self.other = self.vehicle("V", "E"), self.vehicle("W", "F")
        own = {it: self.files[1][it] for it in ("file", "length", "release", "sha256")}
        self.one.ecus["E"]["installed"] = own
        items = [{"file": "new.bin", "hardware": "HA"}]
        assert self.give("open_campaign", campaign="c", vehicles="all", items=items) == "done"

    def new_keys(self, before: dict[str, Any] | None) -> dict[str, Any]:
        return KEYS

    def vehicle(self, name: str, ecu: str) -> proved_rounds.Vehicle:
        own = self.new_ecu() | {"hardware": "HA"}
        told = [{"ecu": ecu, "hardware": "HA", "key": proved_rounds.public(own)}]
        assert self.give("add_vehicle", vehicle=name, primary=ecu, ecus=told) == "done"
        return proved_rounds.Vehicle(self, name, {ecu: own})


# ---- the thief


class Thief:
    """Has all that was ever served, and the stolen keys."""

    def __init__(self, world: Robbed, served: dict[str, Any], stolen: dict[tuple[str, str],
                                                                           int]) -> None:
        self.world, self.served, self.stolen = world, served, stolen

    def signed(self, repository: str, role: str, payload: dict[str, Any]) -> str:
        """The payload, signed by the stolen keys of the role, else by the thief's own."""
        count = self.stolen.get((repository, role), 0)
        stolen = [secret(repository, role, number) for number in range(count)]
        return sealed(stolen or [OWN], canonical(payload))

    def assign(self, image: dict[str, Any]) -> None:
        """The Director's Targets give the ECU this image."""
        reply = verification.reply_in(self.served["reply"])
        told = json.loads(reply["files"]["targets"])["signed"]
        told["targets"] = [image | {"ecu": "E"}]
        files = reply["files"] | {"targets": self.signed("director", "targets", told)}
        self.served["reply"] = proved_rounds.reply_text(reply, files)

    def enlist(self, image: dict[str, Any]) -> None:
        """The Image repository's Targets list it, and the Director's give it."""
        told = json.loads(self.served["targets"])["signed"]
        told["targets"].append(image)
        self.served["targets"] = self.signed("image", "targets", told)
        self.assign(image)

    def hold_back(self) -> None:
        """The files of before, under a Timestamp of now where its key is stolen."""
        self.served |= {role: self.world.ever[role][0] for role in FILES}
        if ("image", "timestamp") in self.stolen:
            self.renew("timestamp", {})

    def renew(self, role: str, told: dict[str, Any]) -> None:
        """One of the Image repository's files, that expires later."""
        told = json.loads(self.served[role])["signed"] | told
        told["expires"] = reference.moment(self.world.now + DAY)
        self.served[role] = self.signed("image", role, told)

    def take_over(self) -> None:
        """A Root of the thief's key behind the Image repository's last, and files under it."""
        last = json.loads(self.world.texts()["image/root.json"])["signed"]
        public = SCHEME.public_of(OWN)
        own = verification.key_identifier(public)
        keys = {own: {"method": SCHEME.method, "public": SCHEME.shown(public)}}
        roles = {it: {"keyids": [own], "threshold": 1} for it in ROLES}
        told = last | {"version": last["version"] + 1, "keys": keys, "roles": roles}
        stolen = [
            secret("image", "root", it) for it in range(self.stolen.get(("image", "root"), 0))]
        self.served["image_roots"] = [sealed([*stolen, OWN], canonical(told))]
        self.stolen = {it: count for it, count in self.stolen.items() if it[0] == "director"}
        self.enlist(proved_rounds.EVIL | {"hardware": ["HA"]})
        self.renew("snapshot", {})
        named = {
            "hashes": {"sha256": proved_rounds.digest(self.served["snapshot"])},
            "version": json.loads(self.served["snapshot"])["signed"]["version"]}
        self.renew("timestamp", {"meta": {"snapshot.json": named}})

    def acts(self, replies: dict[str, Any]) -> dict[str, Callable[[], None]]:
        """Each by the words of what it serves."""
        named, evil = self.world.named, proved_rounds.EVIL | {"hardware": ["HA"]}
        return {
            "an earlier reply": lambda: self.served.update(reply=replies["earlier"]),
            "a reply to the thief's manifest": lambda: self.served.update(reply=replies["forged"]),
            "another vehicle's reply": lambda: self.served.update(reply=replies["other"]),
            "the files of two days before": self.hold_back,
            "an image that isn't assigned": lambda: self.assign(named["newest.bin"]),
            "an image of a lower release": lambda: self.assign(named["old.bin"]),
            "one for other hardware": lambda: self.assign(named["other.bin"]),
            "one that isn't registered": lambda: self.assign(evil),
            "one that the thief lists": lambda: self.enlist(evil),
            "a lower release under a greater": lambda: self.enlist(named["old.bin"]
                                                                   | {"release": 9}),
            "one under the thief's Root": self.take_over}


# ---- the cases


class Bench:
    """The Primary behind its first round, and what is served it then."""

    def __init__(self, program: str, own: Path) -> None:
        self.world = world = Robbed()
        self.tried = proved_rounds.Tried(program, own, world.pool)
        self.met = premises.Met(world, self.tried.verifier)
        first, trust = world.one.reply(), world.one.history[0]
        self.met.sign(world.texts())
        found = self.tried.answers(world.one, trust, proved_rounds.honest(world, trust, first))
        self.begins, self.trust = found[:3] == ("accepted", "", {"E": "new.bin"}), found[3]
        world.now += 2 * DAY
        assert world.give("refresh", version=50) == "done"
        self.replies = {"earlier": first, "forged": self.forged()} | {
            "last": world.one.reply(), "other": world.other.reply()}
        self.met.sign(world.texts())

    def forged(self) -> str | None:
        """The reply to a manifest by the car's keys, in which the ECU knows no image."""
        own = dict(self.world.one.ecus["E"])
        self.world.one.ecus["E"] |= {"installed": self.world.other.ecus["F"]["installed"]}
        reply = self.world.one.reply()
        self.world.one.ecus["E"]["installed"] = own["installed"]
        return reply

    def comes_to(self, row: Row, act: str) -> bool:
        """Whether the program and the rules say so of the act, and whether just these laws hold."""
        served = proved_rounds.honest(self.world, self.trust, self.replies["last"])
        Thief(self.world, served, row.stolen).acts(self.replies)[act]()
        words = self.world.one, self.trust, served
        found = self.tried.answers(*words)
        came = found[2].get("E") if found[0] == "accepted" else found[1]
        laws = self.laws(served, row.stolen)
        agrees = self.tried.agree(found, self.tried.wanted(*words))
        return agrees and (came, laws) == (row.comes[act], row.laws)

    def laws(self, served: dict[str, Any], stolen: Stolen) -> set[str]:
        """The repositories of which the premises of their law are met."""
        texts, names = self.world.texts(), {
            verification.key_identifier(SCHEME.public_of(secret(*it, number)))
            for it, count in stolen.items() for number in range(count)}
        met = {it: self.met.of_theft(it, self.trust, served, names, texts) for it in REPOSITORIES}
        asked = ("FollowsRoot", "AreSafeFrom", "AreUnforged")
        return {it for it, each in met.items() if all(each[name] for name in asked)}


def cases(program: str) -> trials.Cases:
    vector_cases.envelopes.use({"method": SCHEME.method})
    with trials.folder("/dev/shm" if Path("/dev/shm").is_dir() else None) as own:
        bench = Bench(program, own)
        yield "an honest round", bench.begins
        for row in ROWS:
            for act, wanted in row.comes.items():
                yield "%s: %s: %s" % (row.what, act, wanted), bench.comes_to(row, act)


def main(words: arguments.Words = None) -> int:
    """Tries the program."""
    asked = arguments.given(__doc__, words, "program")
    return trials.judged("theft", cases(asked.program))
