"""Tries the proved Primary by random lists of commands: rounds of vehicles at random old trust, and
what an adversary serves who has all that was ever served, and some stolen keys.

    tools/run proved_rounds PROGRAM [SEED [COUNT]]

Of each round the program has to say what `oracle/verification.py` computes: the verdict with its
refusal, what is installed, and the state that is written. What honest repositories serve is refused
only where something has expired or is old. And where of the Image repository's root and Targets
keys fewer are stolen than have to sign, only registered images are installed, whatever else is
stolen.

promise: primary-told, primary-verifies
"""
import hashlib
import json
import random
import sqlite3
import subprocess
from collections import Counter
from pathlib import Path
from typing import Any

from uptane_tools import arguments
from uptane_tools.oracle import reference, verification
from uptane_tools.oracle.reference import REPOSITORIES, ROLES, SCHEME, canonical, sealed
from uptane_tools.trial import premises, trials, vector_cases

DAY, START = 86_400, 1_767_225_600
HARDWARE = ["HA", "HB", "HC"]
FILES = verification.FILES
EVIL = {
    "file": "evil.bin", "hardware": HARDWARE, "hashes": {"sha256": 64 * "e"}, "length": 1,
    "release": 9}


def digest(words: str) -> str:
    return hashlib.sha256(words.encode()).hexdigest()


class World:
    """Two repositories, their vehicles, and all that they ever served."""

    def __init__(self, seed: int) -> None:
        self.rng = random.Random(seed)
        self.desk = reference.Desk(sqlite3.connect(":memory:"))
        self.now, self.used = START, 0
        self.files: list[dict[str, Any]] = []
        self.pool = [bytes([it]) * 32 for it in range(1, self.rng.choice((8, 40, 200)))]
        self.vehicles: dict[str, Vehicle] = {}
        self.ever: dict[str, list[str]] = {role: [] for role in FILES}
        self.keys = self.new_keys(None)
        assert self.give("found", **self.keys) == "done"

    def give(self, command: str, **more: Any) -> str:
        return self.desk.answer(canonical({"do": command, "at": self.now} | more).encode())

    def new_keys(self, before: dict[str, Any] | None) -> dict[str, Any]:
        made = {it: {role: self.role() for role in ROLES} for it in REPOSITORIES}
        for it, roles in (before or {}).items():
            for role in ROLES:
                if self.rng.random() < 0.5:
                    made[it][role] = roles[role]
        return made

    def role(self) -> dict[str, Any]:
        keys = self.rng.sample(self.pool, self.rng.randint(1, 4))
        return {"keys": [it.hex() for it in keys], "threshold": self.rng.randint(1, len(keys))}

    def texts(self) -> dict[str, str]:
        """What is served now, by path; of the Image repository it is remembered."""
        rows = self.desk.all("SELECT repository, name, body FROM repo_file")
        found = {"%s/%s" % (row[0], row[1]): row[2] for row in rows}
        for role in FILES:
            text = found.get("image/%s.json" % role)
            if text and text not in self.ever[role]:
                self.ever[role].append(text)
        return found

    # ---- commands

    def rotate(self) -> None:
        keys = self.new_keys(self.keys)
        if self.give("rotate", **keys) == "done":
            self.keys = keys

    def add_image(self) -> None:
        name = "f%d.bin" % len(self.files)
        told = {
            "file": name, "hardware": self.rng.sample(HARDWARE, self.rng.randint(
                1, 3)), "length": self.rng.randint(0, 99), "release": self.rng.randint(0, 9),
            "sha256": digest(name)}
        if self.rng.random() < 0.5:
            told["sha512"] = hashlib.sha512(name.encode()).hexdigest()
        if self.give("add_image", **told) == "done":
            self.files.append(told)

    def add_vehicle(self) -> None:
        name = "V%d" % len(self.vehicles)
        ecus = {"%s-E%d" % (name, it): self.new_ecu() for it in range(self.rng.randint(1, 4))}
        told = [{"ecu": it, "hardware": ecu["hardware"], "key": public(ecu)}
                for it, ecu in ecus.items()]
        assert self.give("add_vehicle", vehicle=name, primary=next(iter(ecus)), ecus=told) == "done"
        self.vehicles[name] = Vehicle(self, name, ecus)

    def new_ecu(self) -> dict[str, Any]:
        self.used += 1
        secret = hashlib.sha256(b"ecu%d" % self.used).digest()
        none = {"file": "unknown", "length": 0, "release": 0, "sha256": digest("")}
        return {"hardware": self.rng.choice(HARDWARE), "secret": secret, "counter": 0} | {
            "installed": none}

    def replace(self) -> None:
        vehicle = self.some()
        old = self.rng.choice([*vehicle.ecus])
        if old != vehicle.primary:
            name, new = "%s-R%d" % (vehicle.name, self.used), self.new_ecu()
            assert self.give("replace_ecu", vehicle=vehicle.name, old=old, ecu=name,
                             hardware=new["hardware"], key=public(new)) == "done"
            vehicle.replaced.append(old)
            vehicle.ecus = {
                name if it == old else it: new if it == old else ecu
                for it, ecu in vehicle.ecus.items()}

    def refresh(self) -> None:
        version = self.desk.one("SELECT image_version FROM meta")[0]
        self.give("refresh", version=version + self.rng.choice((0, 1, 1, 2, 50)))

    def open(self) -> None:
        self.used += 1
        some = self.rng.sample(self.files, min(len(self.files), self.rng.randint(1, 3)))
        items = [{"file": it["file"], "hardware": self.rng.choice(it["hardware"])} for it in some]
        self.give("open_campaign", campaign="c%d" % self.used, vehicles="all", items=items)

    def wait(self) -> None:
        self.texts()
        self.now += self.rng.choice((60, 3600, DAY // 2, DAY, 3 * DAY, 100 * DAY))

    def some(self) -> "Vehicle":
        return self.vehicles[self.rng.choice(sorted(self.vehicles))]


def public(ecu: dict[str, Any]) -> str:
    return SCHEME.public_of(ecu["secret"]).hex()


class Vehicle:
    """What a vehicle has, and what it has trusted up to now."""

    def __init__(self, world: World, name: str, ecus: dict[str, Any]) -> None:
        self.world, self.name, self.ecus, self.primary = world, name, ecus, next(iter(ecus))
        self.counter, self.body, self.lost = 0, "", False
        self.replaced: list[str] = []
        texts, last = world.texts(), world.desk.one("SELECT root FROM meta")[0]
        first = world.rng.choice(range(1, last + 1))
        self.history = [{
            it: {"root": texts["%s/%d.root.json" % (it, first)]} | dict.fromkeys(FILES, 0)
            for it in REPOSITORIES}]

    def reply(self) -> str | None:
        """The text of the reply to a new manifest."""
        self.counter += 1
        self.body = vector_cases.envelopes.manifest({
            "vehicle": self.name, "primary": self.primary, "counter": self.counter,
            "key": self.ecus[self.primary]["secret"].hex(), "reports": [
                self.report(*it) for it in self.ecus.items()]})
        return self.delivered()

    def delivered(self) -> str | None:
        """The text of the reply to the last manifest, which may come again."""
        if not self.world.give("deliver", body=self.body).startswith("reply"):
            return None
        return self.world.desk.one("SELECT reply FROM kept WHERE vehicle = ? AND counter = ?",
                                   self.name, self.counter)[0]

    def report(self, name: str, ecu: dict[str, Any]) -> dict[str, Any]:
        ecu["counter"] += 1
        image = {it: ecu["installed"][it] for it in ecu["installed"] if it != "release"}
        return {"ecu": name, "key": ecu["secret"].hex(), "counter": ecu["counter"]} | {
            "time": self.world.now, "attack": ""} | image

    def install(self, due: dict[str, str]) -> None:
        named = {it["file"]: it for it in self.world.files}
        for ecu, file in due.items():
            if self.world.rng.random() < 0.8:
                self.ecus[ecu]["installed"] = {
                    it: named[file][it] for it in ("file", "length", "release", "sha256", "sha512")
                    if it in named[file]}


# ---- the program, and the rules


class Tried:
    """Gives the same to the program and to the rules."""

    def __init__(self, program: str, own: Path, pool: list[bytes]) -> None:
        self.program, self.state, self.served = program, own / "state.json", own / "served.json"
        self.held = [] if SCHEME.method == "ed25519" else pool
        self.verifier = verification.Verifier(SCHEME.method, self.held)

    def write(self, vehicle: Vehicle, trust: dict[str, Any], served: dict[str, Any]) -> None:
        """Writes the files that the program reads."""
        ecus = [{"ecu": it, "hardware": ecu["hardware"], "release": ecu["installed"]["release"]}
                for it, ecu in vehicle.ecus.items()]
        state = {
            "method": SCHEME.method, "vehicle": vehicle.name, "ecus": ecus,
            "replaced": vehicle.replaced, "held": [it.hex() for it in self.held]} | trust
        self.state.write_text(json.dumps(state), encoding="ascii")
        self.served.write_text(json.dumps(served), encoding="ascii")

    def answers(self, vehicle: Vehicle, trust: dict[str, Any], served: dict[str, Any]) -> tuple:
        """The program's verdict, with what it says behind it, what is due, and what is trusted."""
        self.write(vehicle, trust, served)
        words = [self.program, str(self.state), str(vehicle.world.now), str(self.served)]
        ran = subprocess.run(words, capture_output=True, check=False, timeout=60)
        first, *lines = ran.stdout.decode("ascii").splitlines()
        verdict, _, why = first.partition(" ")
        due = dict(it.split(" ")[1:3] for it in lines)
        after = json.loads(self.state.read_text(encoding="ascii"))
        return verdict, why, due, {it: after[it] for it in REPOSITORIES}

    def wanted(self, vehicle: Vehicle, trust: dict[str, Any], served: dict[str, Any]) -> tuple:
        """The same by the rules, but for the texts of Roots."""
        known = {
            it: {
                "root": verification.root_in(trust[it]["root"])[0], "versions": {
                    role: trust[it][role] for role in FILES}} for it in REPOSITORIES}
        ecus = {
            it: {"hardware": ecu["hardware"], "release": ecu["installed"]["release"]}
            for it, ecu in vehicle.ecus.items()}
        primary = known | {"vehicle": vehicle.name, "ecus": ecus, "replaced": vehicle.replaced}
        came = {
            "director_roots": served["director_roots"], "image_roots": served["image_roots"],
            "image": {role: served[role] for role in FILES}, "reply": verification.reply_in(
                served["reply"])}
        try:
            behind, due = verification.verify(self.verifier, vehicle.world.now, primary, came)
            return "accepted", (), due, behind
        except verification.Refused as refused:
            words = refused.args[0]
        behind = {
            it: verification.follow(self.verifier, it, known[it], served[it + "_roots"])[0]
            for it in REPOSITORIES}
        return "old" if verification.is_old(words) else "refused", words, {}, behind

    def agree(self, found: tuple, wanted: tuple) -> bool:
        """Whether both are the same. What is wrong with a text isn't compared."""
        why, said = " ".join(map(str, wanted[1])), found[1]
        if why.endswith(" Unread"):
            why = why.removesuffix("Unread")
            said = said[:len(why)]
        states = {
            it: {"root": json.loads(found[3][it]["root"])["signed"]["version"]}
            | {role: found[3][it][role] for role in FILES} for it in REPOSITORIES}
        kept = {
            it: {"root": wanted[3][it]["root"]["version"]} | wanted[3][it]["versions"]
            for it in REPOSITORIES}
        return (found[0], said, found[2], states) == (wanted[0], why, wanted[2], kept)


def behind(texts: dict[str, str], trust: dict[str, Any], repository: str) -> list[str]:
    """The Roots behind the trusted one."""
    found, number = [], json.loads(trust[repository]["root"])["signed"]["version"] + 1
    while "%s/%d.root.json" % (repository, number) in texts:
        found.append(texts["%s/%d.root.json" % (repository, number)])
        number += 1
    return found


def honest(world: World, trust: dict[str, Any], reply: str) -> dict[str, Any]:
    """What the repositories serve."""
    texts = world.texts()
    roots = {it + "_roots": behind(texts, trust, it) for it in REPOSITORIES}
    return roots | {role: texts["image/%s.json" % role] for role in FILES} | {"reply": reply}


def reply_text(reply: dict[str, Any], files: dict[str, str]) -> str:
    """A reply with these files."""
    return '{"root":%d,"snapshot":%s,"targets":%s,"timestamp":%s,%s}' % (
        reply["root"], files["snapshot"], files["targets"], files["timestamp"],
        '"vehicle":"%s","version":%d' % (reply["vehicle"], reply["version"]))


# ---- the adversary


class Adversary:
    """Has all that was ever served, and some secrets."""

    def __init__(self, world: World, served: dict[str, Any], vehicle: Vehicle) -> None:
        self.world, self.rng, self.served, self.vehicle = world, world.rng, served, vehicle
        some = self.rng.choice((0, 0, 1, 2, 4, 1000))
        self.stolen = set(self.rng.sample(world.pool, min(some, len(world.pool))))
        if self.rng.random() < 0.6:
            which = self.rng.choice((*REPOSITORIES, "listing"))
            self.stolen |= {
                bytes.fromhex(key) for it in REPOSITORIES for role in ROLES
                if which in (it, "listing" if role in ("snapshot", "timestamp") else None)
                for key in world.keys[it][role]["keys"]}

    def forged(self, payload: dict[str, Any]) -> str:
        """The payload, signed by eight of the stolen keys at most."""
        secrets = self.rng.sample(sorted(self.stolen), min(8, len(self.stolen))) or [32 * b"\xee"]
        return sealed(secrets, canonical(payload))

    def role_key(self, repository: str, role: str, payload: dict[str, Any]) -> str:
        """The payload, signed by as many of the role's keys as are stolen."""
        own = [bytes.fromhex(it) for it in self.world.keys[repository][role]["keys"]]
        stolen = [it for it in own if it in self.stolen]
        return sealed(stolen, canonical(payload)) if stolen else self.forged(payload)

    def files(self, repository: str, texts: dict[str, str], targets: dict[str, Any],
              version: int) -> dict[str, str]:
        """Three files that name each other, with these Targets."""
        told = {role: json.loads(texts[role])["signed"] for role in FILES}
        soon = reference.moment(self.world.now + DAY)
        told["targets"] |= targets | {"version": version, "expires": soon}
        told["snapshot"] |= {"version": version, "expires": soon} | {
            "meta": {"targets.json": {"version": version}}}
        made = {
            role: self.role_key(repository, role, told[role]) for role in ("targets", "snapshot")}
        named = {"hashes": {"sha256": digest(made["snapshot"])}, "version": version}
        told["timestamp"] |= {"version": version, "expires": soon} | {
            "meta": {"snapshot.json": named}}
        return made | {"timestamp": self.role_key(repository, "timestamp", told["timestamp"])}

    def forge_reply(self) -> None:
        """Every ECU is to install an image of the adversary's, or an old one."""
        reply = verification.reply_in(self.served["reply"])
        image = EVIL if self.rng.random() < 0.5 or not self.world.files else None
        targets = []
        for ecu, own in self.vehicle.ecus.items():
            one = image or target_of(self.rng.choice(self.world.files))
            targets.append(one | {"ecu": ecu} | ({"hardware": [own["hardware"]]} if image else {}))
        version = reply["version"] + self.rng.choice((0, 1, 50))
        files = self.files("director", reply["files"], {"targets": targets}, version)
        self.served["reply"] = reply_text(reply | {"version": version}, files)

    def forge_image(self) -> None:
        """The image of the adversary's is among those of the Image repository."""
        texts = {role: self.served[role] for role in FILES}
        told = json.loads(texts["targets"])["signed"]
        targets = {
            "targets": [*told["targets"], *(EVIL | {"hardware": [it]} for it in HARDWARE), EVIL]}
        version = told["version"] + self.rng.choice((0, 1, 50))
        self.served |= self.files("image", texts, targets, version)

    def forge_root(self) -> None:
        """A Root of the adversary's own keys behind the last."""
        repository = self.rng.choice(REPOSITORIES)
        roots = self.served[repository + "_roots"]
        last = roots[-1] if roots else None
        if last:
            told = json.loads(last)["signed"]
            own = {"version": told["version"] + self.rng.choice((0, 1, 1, 2))}
            roots.append(self.role_key(repository, "root", told | own))

    def hold_back(self) -> None:
        """Older files, or fewer Roots."""
        role = self.rng.choice(FILES)
        self.served[role] = self.rng.choice(self.world.ever[role])
        roots = self.served[self.rng.choice(REPOSITORIES) + "_roots"]
        if roots and self.rng.random() < 0.5:
            roots.pop(self.rng.randrange(len(roots)))

    def mix(self) -> None:
        """Another vehicle's reply, or an older one; the other repository's Roots."""
        rows = self.world.desk.all("SELECT reply FROM kept")
        if rows and self.rng.random() < 0.7:
            self.served["reply"] = self.rng.choice(rows)[0]
        else:
            roots = self.served["director_roots"], self.served["image_roots"]
            self.served["image_roots"], self.served["director_roots"] = roots

    def serves(self) -> None:
        acts = [self.forge_reply, self.forge_image, self.forge_root, self.hold_back, self.mix]
        if self.rng.random() < 0.3:
            acts = [self.forge_image, self.forge_reply]
        for act in self.rng.sample(acts, self.rng.randint(1, 2)) if len(acts) > 2 else acts:
            act()


def target_of(image: dict[str, Any]) -> dict[str, Any]:
    hashes = {it: image[it] for it in ("sha256", "sha512") if it in image}
    return {it: image[it] for it in ("file", "hardware", "length", "release")} | {"hashes": hashes}


def is_bounded(world: World, trust: dict[str, Any], stolen: set[bytes]) -> bool:
    """Whether of the Image repository's root and Targets keys fewer are stolen than have to sign,
    in each root version from the trusted one on.
    """
    first = json.loads(trust["image"]["root"])["signed"]["version"]
    names = {verification.key_identifier(SCHEME.public_of(it)) for it in stolen}
    texts = world.desk.all("SELECT name, body FROM repo_file WHERE repository = 'image'")
    for name, text in texts:
        if name.endswith(".root.json") and int(name.split(".")[0]) >= first:
            root = verification.root_in(text)[0]
            for role in ("root", "targets"):
                if len(names & {*root[role]["keys"]}) >= root[role]["threshold"]:
                    return False
    return True


# ---- the lists


class Case:
    """A list of commands, with rounds between them."""

    def __init__(self, program: str, own: Path, seed: int) -> None:
        self.world = World(seed)
        self.counts: Counter = Counter()
        self.met: Counter = Counter()
        self.faults: list[str] = []
        self.tried = Tried(program, own, self.world.pool)
        self.premises = premises.Met(self.world, self.tried.verifier)

    def run(self) -> None:
        world = self.world
        for act in (world.add_image, world.add_image, world.add_vehicle, world.add_vehicle):
            act()
        acts = [world.add_image, world.rotate, world.refresh, world.open, world.wait]
        acts += [world.replace, world.add_vehicle] + 6 * [self.round]
        for _ in range(world.rng.randint(15, 40)):
            world.rng.choice(acts)()

    def round(self) -> None:
        vehicle = self.world.some()
        again = vehicle.lost and self.world.rng.random() < 0.7
        reply = vehicle.delivered() if again else vehicle.reply()
        vehicle.lost = reply is not None and not again and self.world.rng.random() < 0.2
        if reply is None or vehicle.lost:
            self.counts["answers lost" if reply else "manifests refused"] += 1
            return
        older = self.world.rng.sample(vehicle.history, min(2, len(vehicle.history)))
        for number, trust in enumerate([vehicle.history[-1], *older]):
            served = honest(self.world, trust, reply)
            met = self.premises.of_round(vehicle, trust, reply, again, self.world.texts())
            found = self.compared(vehicle, trust, served)
            self.honest_is(found, met, reply, again)
            if number == 0 and found[0] == "accepted":
                vehicle.history.append(found[3])
                vehicle.install(found[2])
        self.attacked(vehicle, self.world.rng.choice(vehicle.history), reply)

    def honest_is(self, found: tuple, met: dict[str, bool], reply: str, again: bool) -> None:
        """Where each premise is met just what is assigned is accepted."""
        due = verification.targets_in(verification.reply_in(reply)["files"]["targets"])[0]
        assigned = {it["ecu"]: it["image"][0] for it in due["targets"]}
        self.count("of a round", met)
        if all(met.values()) and (found[0], found[2]) != ("accepted", assigned):
            self.faults.append("all premises met: %s" % (found[:3], ))
        of_old = again and found[1] == "OldRoot"
        fault = found[0] != "accepted" and not found[1].endswith("Expired") and not of_old
        if fault and "ReplacedEcu" not in found[1] and "LowerRelease" not in found[1]:
            self.faults.append("honest: %s %s" % found[:2])

    def count(self, of: str, met: dict[str, bool]) -> None:
        """Counts which premises are met."""
        self.met.update({"%s %s" % (name, of): holds for name, holds in met.items()})
        self.met["all premises " + of] += all(met.values())

    def compared(self, vehicle: Vehicle, trust: dict[str, Any], served: dict[str, Any]) -> tuple:
        """What the program says, compared with the rules."""
        found = self.tried.answers(vehicle, trust, served)
        wanted = self.tried.wanted(vehicle, trust, served)
        self.counts[found[0]] += 1
        if not self.tried.agree(found, wanted):
            self.faults.append("%s, and not %s" % (found[:3], wanted[:3]))
        return found

    def attacked(self, vehicle: Vehicle, trust: dict[str, Any], reply: str) -> None:
        served = honest(self.world, trust, reply)
        thief = Adversary(self.world, served, vehicle)
        thief.serves()
        found = self.compared(vehicle, trust, served)
        strange = {*found[2].values()} - {it["file"] for it in self.world.files}
        bounded = is_bounded(self.world, trust, thief.stolen)
        self.counts["attacked, %s" % ("bounded" if bounded else "not bounded")] += 1
        self.counts["accepted of an adversary"] += found[0] == "accepted"
        self.counts["forged images installed"] += bool(strange)
        met = self.thefts(trust, served, thief.stolen)
        if strange and (bounded or all(met["image"].values())):
            self.faults.append("installs %s" % sorted(strange))
        if found[0] == "accepted" and all(met["director"].values()):
            self.heard_is(vehicle, served)

    def thefts(self, trust: dict[str, Any], served: dict[str, Any],
               stolen: set[bytes]) -> dict[str, dict[str, bool]]:
        """The premises of what a thief served, by repository."""
        texts = self.world.texts()
        self.premises.sign(texts)
        names = {verification.key_identifier(SCHEME.public_of(it)) for it in stolen}
        met = {it: self.premises.of_theft(it, trust, served, names, texts) for it in REPOSITORIES}
        for it, each in met.items():
            self.count("of what a thief serves as %s" % it, each)
        return met

    def heard_is(self, vehicle: Vehicle, served: dict[str, Any]) -> None:
        """Under safe keys the reply is one of the vehicle's, of the last seven days."""
        told = verification.reply_in(served["reply"])
        kept = self.world.desk.one(
            "SELECT moment, reply FROM kept WHERE vehicle = ? AND version = ?", vehicle.name,
            told["version"])
        own = kept and verification.reply_in(kept[1])["files"]["targets"]
        same = own and premises.payload(own) == premises.payload(told["files"]["targets"])
        if not same or self.world.now >= kept[0] + 7 * DAY:
            self.faults.append("heard %s of %s" % (told["version"], vehicle.name))


def cases(program: str, seed: int, count: int) -> trials.Cases:
    total: Counter = Counter()
    met: Counter = Counter()
    with trials.folder("/dev/shm" if Path("/dev/shm").is_dir() else None) as own:
        vector_cases.envelopes.use({"method": SCHEME.method})
        for number in range(seed, seed + count):
            case = Case(program, Path(own), number)
            case.run()
            total += case.counts
            met.update(case.met)
            for fault in case.faults[:3]:
                yield "list %d: %s" % (number, fault), False
            case.world.desk.db.close()
        for name, times in sorted(met.items()):
            yield "%s: met %d times" % (name, times), times > 0
        yield "%d lists: %s" % (count, dict(sorted(total.items()))), total["accepted"] > 0


def main(words: arguments.Words = None) -> int:
    """Tries the program."""
    asked = arguments.given(__doc__, words, "program", seed=1, count=30)
    return trials.judged("rounds", cases(asked.program, int(asked.seed), int(asked.count)))
