"""The rules once more, in plain Python over SQLite's own tables. This is the reference and not
the product: nothing here is proved.

    tools/run reference run FILE < SCRIPT          answers the lines of a script as `uptane_desk
                                                   run` does
    tools/run reference serve FILE PORT [COUNT]    serves 127.0.0.1:PORT as `uptane_desk serve`
                                                   does, COUNT connections or for ever

FILE is `:memory:`, or is made where it isn't there. What the product prints and keeps is
compared with this program, and whoever writes a Primary can try it here, without the kit that
builds the product. It needs Python's standard library alone.

The scheme is HMAC-SHA-256, or Ed25519 where the environment has SCHEME=ed25519.

Its limits: it is slow; what outlasts a crash is what Python's `sqlite3` keeps by default; a
script's lines have no limit, nor has their number; refusals 1 and 2 never come. The tables are
those of `docs/use/TABLES.md`; those of an older schema are raised.
"""
import hashlib
import json
import os
import sqlite3
import sys
from collections.abc import Callable, Iterator
from contextlib import closing
from datetime import datetime, timedelta
from typing import Any

from uptane_tools import arguments
from uptane_tools.operate.formats import (
    COUNT, FILE, HASH, IDENT, KEY, KEYID, LAST_AT, LAST_MOMENT, LIST, METHODS, MOST, NOTE, OBJECT,
    REPOSITORIES, ROLES, SECOND_HASH, SIG, canonical, is_count, text, value_of)
from uptane_tools.operate.statements import LACKS, SCHEMA, schema, table_of
from uptane_tools.oracle.schemes import TRIED as SCHEME, key_identifier

DAYS = {
    "director": {"root": 365, "targets": 7, "snapshot": 7, "timestamp": 7}, "image": {
        "root": 365, "targets": 90, "snapshot": 30, "timestamp": 1}}
METHOD = SCHEME.method
NAMES = dict(
    enumerate(
        """Memory Store MomentOutOfRange TooLarge NotJson NotCanonical BadShape NotFounded
        AlreadyFounded UnknownVehicle WrongPrimary BadManifestSignature Stale UnknownEcu
        DuplicateEcu MissingEcu BadReportSignature ReportReplayed ImageTaken
        RegisterFull VersionLimit VehicleTaken EcuTaken CampaignTaken UnknownCampaign
        UnknownImage WrongHardware VersionNotGreater UnknownFile RootFull PrimaryFixed""".split(),
        1))


class Refused(Exception):

    def __init__(self, number: int, value: int | str | None = None) -> None:
        super().__init__(number, value)
        self.text = "refused %d %s" % (number, NAMES[number]) + ("" if value is None else " %s" %
                                                                 value)


# ---- JSON


def read_json(text: bytes | str) -> Any:
    """The value of the text, a string or bytes."""
    try:
        return value_of(text)
    except ValueError:
        raise Refused(5) from None


def depth(value: Any) -> int:
    if isinstance(value, dict):
        return 1 + max(map(depth, value.values()), default=0)
    if isinstance(value, list):
        return 1 + max(map(depth, value), default=0)
    return 0


def is_plain(value: Any) -> bool:
    if isinstance(value, str):
        return value.isascii() and value.isprintable()
    if isinstance(value, list):
        return all(map(is_plain, value))
    if isinstance(value, dict):
        return all(map(is_plain, [*value, *value.values()]))
    return value is None or isinstance(value, bool) or is_count(value)


# ---- members


def member(value: Any, name: str, holds: Callable[..., Any]) -> Any:
    if not isinstance(value, dict) or name not in value or not holds(value[name]):
        raise Refused(7, name)
    return value[name]


def each(values: list[Any], name: str, read: Callable[..., Any]) -> Iterator[Any]:
    """What `read` makes of each member of a list of objects."""
    for value in values:
        if not isinstance(value, dict):
            raise Refused(7, name)
        yield read(value)


def names(value: dict[str, Any], name: str, holds: Callable[..., Any], least: int,
          most: int) -> tuple[list[str], bool]:
    found = member(value, name, lambda v: isinstance(v, list) and all(map(holds, v)))
    return found, not least <= len(found) <= most


def hash_of(value: dict[str, Any]) -> bytes:
    return bytes.fromhex(member(value, "sha256", HASH))


def second_hash_of(value: dict[str, Any]) -> bytes | None:
    """A second hash, none where it was left out: what stands there otherwise is a fault."""
    return bytes.fromhex(member(value, "sha512", SECOND_HASH)) if "sha512" in value else None


def second_hash_in(hashes: dict[str, Any]) -> bytes | None:
    """The second hash among hashes that were reported: a member that is none is one of those
    that nobody knows.
    """
    return bytes.fromhex(hashes["sha512"]) if SECOND_HASH(hashes.get("sha512")) else None


def hashes(told: dict[str, Any]) -> dict[str, str]:
    """The hashes that are written for an image: the second one where it has one."""
    return {name: told[name].hex() for name in ("sha256", "sha512") if told[name]}


# ---- signatures


def signature(secret: bytes, signed: str) -> str:
    """The signature of a canonical text, as an envelope has it."""
    sig = SCHEME.sign(secret, signed.encode()).hex()
    return canonical({
        "keyid": key_identifier(SCHEME.public_of(secret)), "method": METHOD, "sig": sig})


def sealed(secrets: list[bytes], signed: str) -> str:
    return '{"signatures":[%s],"signed":%s}' % (",".join(signature(it, signed)
                                                         for it in secrets), signed)


def is_signed(envelope: dict[str, Any], public: bytes) -> bool:
    wanted, signed = key_identifier(public), canonical(envelope["signed"]).encode()
    return any(s["keyid"] == wanted and s["method"] == METHOD
               and SCHEME.verify(public, signed, bytes.fromhex(s["sig"]))
               for s in envelope["signatures"])


def read_envelope(value: dict[str, Any]) -> dict[str, Any]:

    def fits(v: list[dict[str, Any]] | str) -> bool:
        return isinstance(v, list) and 1 <= len(v) <= 8 and all(map(OBJECT, v))

    signatures = member(value, "signatures", fits)
    for signature in signatures:
        for name, holds in (("keyid", KEYID), ("method", METHODS), ("sig", SIG)):
            member(signature, name, holds)
    return member(value, "signed", OBJECT)


# ---- manifests


def read_moment(value: str) -> bool:
    if not text(r"[0-9]{4}-[0-9]{2}-[0-9]{2}T[0-9]{2}:[0-9]{2}:[0-9]{2}Z")(value):
        return False
    try:
        return datetime.strptime(value, "%Y-%m-%dT%H:%M:%SZ") >= datetime(1970, 1, 1)
    except ValueError:
        return False


def moment(seconds: int) -> str:
    return (datetime(1970, 1, 1) + timedelta(seconds=seconds)).strftime("%Y-%m-%dT%H:%M:%SZ")


def read_report(value: dict[str, Any]) -> dict[str, Any]:
    signed = read_envelope(value)
    member(signed, "type", lambda v: v == "report")
    told = {"ecu": member(signed, "ecu", IDENT), "counter": member(signed, "counter", COUNT)}
    member(signed, "time", read_moment)
    member(signed, "attack", NOTE)
    image = member(signed, "image", OBJECT)
    told |= {"file": member(image, "file", FILE), "length": member(image, "length", COUNT)}
    among = member(image, "hashes", OBJECT)
    told |= {"sha256": hash_of(among), "sha512": second_hash_in(among)}
    return told | {"envelope": value, "text": canonical(signed)}


def read_manifest(body: bytes) -> dict[str, Any]:
    if len(body) > 262_144:
        raise Refused(4)
    value = read_json(body)
    if not isinstance(value, dict):
        raise Refused(7, "body")
    signed = read_envelope(value)
    if not is_plain(signed) or depth(signed) > 16:
        raise Refused(6)
    member(signed, "type", lambda v: v == "manifest")
    told = {
        "vehicle": member(signed, "vehicle", IDENT), "primary": member(signed, "primary", IDENT)}
    told["counter"] = member(signed, "counter", lambda v: is_count(v, 1))
    reports = member(signed, "reports", lambda v: isinstance(v, list) and len(v) <= 64)
    told["reports"] = list(each(reports, "reports", read_report))
    return told | {"envelope": value, "text": canonical(signed)}


# ---- lines


def read_role(value: dict[str, Any]) -> tuple[list[bytes], int]:
    keys = member(value, "keys", lambda v: isinstance(v, list) and all(map(KEY, v)))
    return [bytes.fromhex(k) for k in keys], member(value, "threshold",
                                                    lambda v: is_count(v, 0, 2**32 - 1))


def read_keys(line: dict[str, Any]) -> dict[str, Any]:

    def keys(told: dict[str, Any]) -> dict[str, tuple[list[bytes], int]]:
        return {role: read_role(member(told, role, OBJECT)) for role in ROLES}

    return {repository: keys(member(line, repository, OBJECT)) for repository in REPOSITORIES}


def read_ecu(value: dict[str, Any]) -> tuple[str, str, bytes]:
    return member(value, "ecu", IDENT), member(value, "hardware", IDENT), bytes.fromhex(
        member(value, "key", KEY))


def read_vehicle(line: dict[str, Any]) -> tuple[str, str, list[tuple[str, str, bytes]]]:
    told = member(line, "vehicle", IDENT), member(line, "primary", IDENT)
    ecus = list(each(member(line, "ecus", LIST), "ecus", read_ecu))
    if not 1 <= len(ecus) <= 32:
        raise Refused(7, "ecus")
    if told[1] not in [e[0] for e in ecus]:
        raise Refused(7, "primary")
    return *told, ecus


def read_need(value: dict[str, Any]) -> dict[str, Any]:
    return {
        "hardware": member(value, "hardware", IDENT), "release": member(value, "release", COUNT)}


def read_image(line: dict[str, Any]) -> dict[str, Any]:
    image = {"file": member(line, "file", FILE), "length": member(line, "length", COUNT)}
    image |= {"sha256": hash_of(line), "sha512": second_hash_of(line)}
    image["hardware"], few = names(line, "hardware", IDENT, 1, 16)
    image["release"] = member(line, "release", COUNT)
    image["needs"] = list(each(member({"needs": []} | line, "needs", LIST), "needs", read_need))
    image["conflicts"], many = names({"conflicts": []} | line, "conflicts", FILE, 0, 16)
    if few or len(set(image["hardware"])) < len(image["hardware"]):
        raise Refused(7, "hardware")
    if len(image["needs"]) > 16:
        raise Refused(7, "needs")
    if many or image["file"] in image["conflicts"]:
        raise Refused(7, "conflicts")
    return image


def read_item(value: dict[str, str]) -> dict[str, str]:
    return {"hardware": member(value, "hardware", IDENT), "file": member(value, "file", FILE)}


def read_campaign(line: dict[str, Any]) -> tuple[str, Any, list[dict[str, str]]]:
    name, reach, bad = member(line, "campaign", IDENT), line.get("vehicles"), False
    if reach != "all":
        reach, bad = names(line, "vehicles", IDENT, 1, 1000)
    items = list(each(member(line, "items", LIST), "items", read_item))
    if bad:
        raise Refused(7, "vehicles")
    if not 1 <= len(items) <= 16:
        raise Refused(7, "items")
    return name, reach, items


def fitting_key(value: dict[str, Any]) -> bytes:
    key = bytes.fromhex(member(value, "key", KEY))
    if len(key) != 32:
        raise Refused(7, "key")
    return key


def bench_report(value: dict[str, Any]) -> str:
    told = {"ecu": member(value, "ecu", IDENT)}
    key = fitting_key(value)
    told["counter"] = member(value, "counter", COUNT)
    told["time"] = moment(member(value, "time", lambda v: is_count(v, 0, LAST_MOMENT)))
    told["attack"] = member({"attack": ""} | value, "attack", NOTE)
    image = {"file": member(value, "file", FILE), "length": member(value, "length", COUNT)}
    image["hashes"] = hashes({"sha256": hash_of(value), "sha512": second_hash_of(value)})
    return sealed([key], canonical(told | {"image": image, "type": "report"}))


def bench_body(line: dict[str, Any]) -> bytes:
    vehicle, primary, key = member(line, "vehicle", IDENT), member(line, "primary",
                                                                   IDENT), fitting_key(line)
    counter = member(line, "counter", lambda v: is_count(v, 1))
    reports = member(line, "reports", lambda v: isinstance(v, list) and len(v) <= 64)
    made = ",".join(each(reports, "reports", bench_report))
    told = '{"counter":%d,"primary":"%s","reports":[%s],"type":"manifest","vehicle":"%s"}'
    return sealed([key], told % (counter, primary, made, vehicle)).encode()


# ---- plans


def level(image: dict[str, dict[str, Any]], ecu: dict[str, Any]) -> dict[str, Any] | None:
    """The registered image of what the ECU reported, if there is one for its hardware."""
    it: Any = image.get(ecu["file"])
    same = it and (it["length"], it["sha256"]) == (ecu["length"], ecu["sha256"])
    both = it and it["sha512"] and ecu["sha512"]
    agree = same and (not both or it["sha512"] == ecu["sha512"])
    return it if agree and ecu["hardware"] in it["hardware"] else None


def wanted(images: dict[str, dict[str, Any]], items: list[dict[str, str]],
           ecu: dict[str, Any]) -> dict[str, Any] | None:
    offered = [
        images[i["file"]] for i in items if i["hardware"] == ecu["hardware"] and i["file"] in images
    ]
    best = min(offered, key=lambda i: (-i["release"], i["file"].encode()), default=None)
    present = level(images, ecu)
    return best if best and best["release"] > (present["release"] if present else 0) else None


def plan(images: dict[str, dict[str, Any]], items: list[dict[str, str]],
         ecus: list[dict[str, Any]]) -> dict[str, Any]:
    wants = [wanted(images, items, e) for e in ecus]
    if not any(wants):
        return {"assigned": [], "withheld": None}
    result = [w or level(images, e) for w, e in zip(wants, ecus)]
    files = [w["file"] if w else e["file"] for w, e in zip(wants, ecus)]
    levels = [r["release"] if r else 0 for r in result]
    for image, ecu in zip(result, ecus):
        for need in image["needs"] if image else []:
            if any(e["hardware"] == need["hardware"] and n < need["release"]
                   for e, n in zip(ecus, levels)):
                return {
                    "assigned": [], "withheld": {"ecu": ecu["ecu"], "hardware": need["hardware"]}}
        for conflict in image["conflicts"] if image else []:
            if conflict in files:
                return {"assigned": [], "withheld": {"ecu": ecu["ecu"], "file": conflict}}
    assigned = [{"ecu": e["ecu"], "file": w["file"]} for e, w in zip(ecus, wants) if w]
    return {"assigned": assigned, "withheld": None}


def target(image: dict[str, Any], more: dict[str, str]) -> dict[str, Any]:
    told = {"file": image["file"], "hardware": image["hardware"], "hashes": hashes(image)}
    return told | {"length": image["length"], "release": image["release"]} | more


# ---- the desk


class Desk:

    def __init__(self, db: sqlite3.Connection) -> None:
        self.db = db
        db.row_factory = sqlite3.Row
        db.execute("PRAGMA foreign_keys = ON")
        if not db.execute("SELECT name FROM sqlite_schema").fetchall():
            self.make([table_of(statement) for statement in schema()],
                      "INSERT INTO meta VALUES (1, 'uptane_desk', ?, 0, 0, 0)")
        told = [tuple(row) for row in db.execute("SELECT app, schema FROM meta WHERE id = 1")]
        found = next((number for number in LACKS if told == [("uptane_desk", number)]), None)
        if found is None:
            raise sqlite3.DatabaseError
        if found < SCHEMA:
            self.make(LACKS[found], "UPDATE meta SET schema = ?")

    def make(self, tables: Any, named: str) -> None:
        """Makes these tables of the page, and says that they are of its schema."""
        with self.db:
            self.db.execute("BEGIN")
            for statement in schema():
                if table_of(statement) in tables:
                    self.db.execute(statement)
            self.db.execute(named, (SCHEMA, ))
            if "image_repository" in tables:
                # both repositories had one number of root versions, and Targets the version of
                # the rest; secrets of older root versions sign nothing any more
                self.db.execute(
                    "INSERT INTO image_repository SELECT id, root, image_version FROM meta")
                self.db.execute("DELETE FROM role_key WHERE root < (SELECT root FROM meta)")

    def one(self, sql: str, *given: str | int) -> Any:
        return self.db.execute(sql, given).fetchone()

    def all(self, sql: str, *given: int | str) -> list[sqlite3.Row]:
        return self.db.execute(sql, given).fetchall()

    def founded(self) -> sqlite3.Row:
        meta = self.one("SELECT * FROM meta")
        if not meta["root"]:
            raise Refused(8)
        return meta

    def keys(self, repository: str, role: str) -> list[bytes]:
        """The secrets of a role, in its repository's last root version."""
        of = {"director": "meta", "image": "image_repository"}[repository]
        sql = ("SELECT secret FROM role_key WHERE root = (SELECT root FROM %s) AND repository = ? "
               "AND role = ? ORDER BY place") % of
        return [row[0] for row in self.all(sql, repository, role)]

    def images(self) -> dict[str, dict[str, Any]]:
        found = {}
        for row in self.all("SELECT * FROM image LEFT JOIN image_sha512 USING (file)"):
            told = {k: json.loads(row[k]) for k in ("hardware", "needs", "conflicts")}
            told |= {k: row[k] for k in ("file", "length", "sha256", "sha512")}
            found[row["file"]] = told | {"release": row["release_count"]}
        return found

    # -- files

    def put_file(self, repository: str, name: str, body: str) -> None:
        self.db.execute("INSERT OR REPLACE INTO repo_file VALUES (?, ?, ?)",
                        (repository, name, body))

    def role_files(self, repository: str, at: int, version: int, targets: list[dict[str, Any]],
                   more: dict[str, str]) -> dict[str, str]:

        def made(role: str, members: dict[str, Any]) -> str:
            told: dict[str, Any] = {
                "expires": moment(at + 86400 * DAYS[repository][role]), "repository": repository}
            told |= {"type": role, "version": version}
            return sealed(self.keys(repository, role), canonical(told | members | more))

        snapshot = made("snapshot", {"meta": {"targets.json": {"version": version}}})
        entry: dict[str, Any] = {
            "hashes": {"sha256": hashlib.sha256(snapshot.encode()).hexdigest()}, "version": version}
        timestamp = made("timestamp", {"meta": {"snapshot.json": entry}})
        return {
            "targets": made("targets", {"targets": targets}), "snapshot": snapshot,
            "timestamp": timestamp}

    def put_root(self, keys: dict[str, Any], at: int, root: int) -> None:
        """The Root files of a new root version, and its keys in place of those before it, by which
        it is signed too.
        """
        before = {it: self.keys(it, "root") for it in REPOSITORIES}
        for table in ("meta", "image_repository"):
            self.db.execute("UPDATE %s SET root = ?" % table, (root, ))
        self.db.execute("DELETE FROM role_key")
        for repository in REPOSITORIES:
            for role in ROLES:
                secrets, threshold = keys[repository][role]
                for place, secret in enumerate(secrets):
                    row = (root, repository, role, place, secret, threshold)
                    self.db.execute("INSERT INTO role_key VALUES (?, ?, ?, ?, ?, ?)", row)
        for repository in REPOSITORIES:
            signers = self.keys(repository, "root")
            signers += [k for k in before[repository] if k not in signers]
            payload: dict[str, Any] = {
                "expires": moment(at + 86400 * 365), "repository": repository}
            payload |= {"type": "root", "version": root}
            publics = {
                role: list(map(SCHEME.public_of, keys[repository][role][0])) for role in ROLES}
            every = [public for role in ROLES for public in publics[role]]
            payload["keys"] = {
                key_identifier(it): {"method": METHOD, "public": SCHEME.shown(it)} for it in every}
            payload["roles"] = {
                role: {
                    "keyids": list(map(key_identifier, publics[role])),
                    "threshold": keys[repository][role][1]} for role in ROLES}
            body = sealed(signers, canonical(payload))
            self.put_file(repository, "%d.root.json" % root, body)
            self.put_file(repository, "root.json", body)

    def put_image_files(self, at: int, version: int) -> None:
        self.db.execute("UPDATE meta SET image_version = ?, stamp = ?", (version, at))
        self.db.execute("UPDATE image_repository SET targets = ?", (version, ))
        images = self.images()
        targets = [target(images[name], {}) for name in sorted(images, key=str.encode)]
        for role, body in self.role_files("image", at, version, targets, {}).items():
            self.put_file("image", role + ".json", body)

    # -- commands

    def new_keys(self, line: dict[str, Any]) -> dict[str, Any]:
        keys = read_keys(line)
        self.in_range(line)
        for repository in REPOSITORIES:
            for role in ROLES:
                secrets, threshold = keys[repository][role]
                fit = 1 <= len(secrets) <= 4 and all(len(k) == 32 for k in secrets)
                if not fit or len(set(secrets)) < len(secrets):
                    raise Refused(7, "keys")
                if not 1 <= threshold <= len(secrets):
                    raise Refused(7, "threshold")
        return keys

    def in_range(self, line: dict[str, Any]) -> None:
        if line["at"] > LAST_AT:
            raise Refused(3)

    def found(self, line: dict[str, Any]) -> str:
        keys = self.new_keys(line)
        if self.one("SELECT root FROM meta")[0]:
            raise Refused(9)
        self.put_root(keys, line["at"], 1)
        self.put_image_files(line["at"], 1)
        return "done"

    def rotate(self, line: dict[str, Any]) -> str:
        keys = self.new_keys(line)
        meta = self.founded()
        if meta["root"] == 64:
            raise Refused(30)
        if meta["image_version"] >= MOST:
            raise Refused(21)
        self.put_root(keys, line["at"], meta["root"] + 1)
        self.put_image_files(line["at"], meta["image_version"] + 1)
        return "done"

    def add_image(self, line: dict[str, Any]) -> str:
        image = read_image(line)
        self.in_range(line)
        meta, images = self.founded(), self.images()
        if image["file"] in images:
            if images[image["file"]] == image:
                return "already"
            raise Refused(19)
        if len(images) == 1024:
            raise Refused(20)
        if meta["image_version"] >= MOST:
            raise Refused(21)
        lists = {k: canonical(image[k]) for k in ("hardware", "needs", "conflicts")}
        sql = ("INSERT INTO image VALUES (:file, :length, :sha256, :hardware, :release, :needs, "
               ":conflicts)")
        self.db.execute(sql, image | lists)
        if image["sha512"]:
            self.db.execute("INSERT INTO image_sha512 VALUES (:file, :sha512)", image)
        self.put_image_files(line["at"], meta["image_version"] + 1)
        return "done"

    def refresh(self, line: dict[str, Any]) -> str:
        version = member(line, "version", COUNT)
        self.in_range(line)
        if version <= self.founded()["image_version"]:
            raise Refused(28)
        self.put_image_files(line["at"], version)
        return "done"

    def add_vehicle(self, line: dict[str, Any]) -> str:
        name, primary, ecus = read_vehicle(line)
        self.in_range(line)
        if not all(SCHEME.fits(key) for _, _, key in ecus):
            raise Refused(7, "key")
        self.founded()
        there = self.one("SELECT primary_ecu FROM vehicle WHERE vehicle = ?", name)
        if there:
            same = self.all(
                "SELECT ecu, hardware, public_key FROM ecu WHERE vehicle = ? ORDER BY place", name)
            if there[0] == primary and [tuple(e) for e in same] == ecus:
                return "already"
            raise Refused(22)
        told = [e[0] for e in ecus]
        for i, ecu in enumerate(told):
            if ecu in told[:i]:
                raise Refused(15, ecu)
        for ecu in told:
            self.not_taken(ecu)
        self.db.execute("INSERT INTO vehicle VALUES (?, ?, 0, 0)", (name, primary))
        sql = "INSERT INTO ecu VALUES (?, ?, ?, ?, ?, NULL, NULL, NULL, 0, NULL)"
        for place, (ecu, hardware, key) in enumerate(ecus):
            self.db.execute(sql, (ecu, name, place, hardware, key))
        return "done"

    def not_taken(self, ecu: str) -> None:
        """An identifier that is recorded anywhere is taken, and so is one that is retired."""
        for table in ("ecu", "retired"):
            if self.one("SELECT 1 FROM %s WHERE ecu = ?" % table, ecu):
                raise Refused(23, ecu)

    def replace_ecu(self, line: dict[str, Any]) -> str:
        name, old = member(line, "vehicle", IDENT), member(line, "old", IDENT)
        ecu, hardware, key = read_ecu(line)
        self.in_range(line)
        if not SCHEME.fits(key):
            raise Refused(7, "key")
        self.founded()
        vehicle = self.one("SELECT primary_ecu FROM vehicle WHERE vehicle = ?", name)
        if not vehicle:
            raise Refused(10)
        place = self.one("SELECT place FROM ecu WHERE vehicle = ? AND ecu = ?", name, old)
        if not place:
            raise Refused(14, old)
        if old == vehicle[0]:
            raise Refused(31)
        self.not_taken(ecu)
        self.db.execute("DELETE FROM ecu WHERE ecu = ?", (old, ))
        sql = "INSERT INTO ecu VALUES (?, ?, ?, ?, ?, NULL, NULL, NULL, 0, NULL)"
        self.db.execute(sql, (ecu, name, place[0], hardware, key))
        self.db.execute("INSERT INTO retired VALUES (?, ?)", (old, name))
        return "done"

    def open_campaign(self, line: dict[str, Any]) -> str:
        name, reach, items = read_campaign(line)
        self.in_range(line)
        self.founded()
        row = name, canonical(reach), canonical(items), 1
        there = self.one("SELECT * FROM campaign WHERE name = ?", name)
        if there:
            if tuple(there) == row:
                return "already"
            raise Refused(24)
        for vehicle in [] if reach == "all" else reach:
            if not self.one("SELECT 1 FROM vehicle WHERE vehicle = ?", vehicle):
                raise Refused(10)
        images = self.images()
        if any(i["file"] not in images for i in items):
            raise Refused(26)
        if any(i["hardware"] not in images[i["file"]]["hardware"] for i in items):
            raise Refused(27)
        self.db.execute("INSERT INTO campaign VALUES (?, ?, ?, ?)", row)
        return "done"

    def close_campaign(self, line: dict[str, Any]) -> str:
        name = member(line, "campaign", IDENT)
        self.in_range(line)
        self.founded()
        there = self.one("SELECT running FROM campaign WHERE name = ?", name)
        if not there:
            raise Refused(25)
        self.db.execute("UPDATE campaign SET running = 0 WHERE name = ?", (name, ))
        return "done" if there[0] else "already"

    def fetch(self, line: dict[str, Any]) -> str:
        repository, name = member(line, "repository", lambda v: v in REPOSITORIES), member(
            line, "file", FILE)
        self.in_range(line)
        self.founded()
        found = self.one("SELECT body FROM repo_file WHERE repository = ? AND name = ?", repository,
                         name)
        if not found:
            raise Refused(29)
        return "file " + found[0]

    def show(self, line: dict[str, Any]) -> str:
        name = member(line, "vehicle", IDENT)
        vehicle = self.one("SELECT version, last_counter FROM vehicle WHERE vehicle = ?", name)
        if not vehicle:
            raise Refused(10)
        last = self.one("SELECT plan_text FROM kept WHERE vehicle = ? AND counter = ?", name,
                        vehicle[1])
        assigned = {a["ecu"]: a["file"] for a in json.loads(last[0])["assigned"]} if last else {}
        told = ["vehicle %s version %d" % (name, vehicle[0])]
        for ecu, file in self.all("SELECT ecu, file FROM ecu WHERE vehicle = ? ORDER BY place",
                                  name):
            told.append("%s=%s" % (ecu, file or "-") +
                        (">" + assigned[ecu] if ecu in assigned else ""))
        return " ".join(told)

    def deliver(self, line: dict[str, Any]) -> str:
        body = member(line, "body", lambda v: isinstance(v, str)).encode()
        self.in_range(line)
        return self.delivered(body, line["at"])

    def bench(self, line: dict[str, Any]) -> str:
        body = bench_body(line)
        self.in_range(line)
        return self.delivered(body, line["at"])

    def reply_to(self, body: bytes, at: int) -> str:
        """The reply to a manifest that is accepted, or was."""
        self.delivered(body, at)
        sent = read_manifest(body)
        return self.one("SELECT reply FROM kept WHERE vehicle = ? AND counter = ?", sent["vehicle"],
                        sent["counter"])[0]

    def delivered(self, body: bytes, at: int) -> str:
        told = read_manifest(body)
        self.founded()
        vehicle = self.one("SELECT * FROM vehicle WHERE vehicle = ?", told["vehicle"])
        if not vehicle:
            raise Refused(10)
        if vehicle["primary_ecu"] != told["primary"]:
            raise Refused(11)
        ecus = [
            dict(e)
            for e in self.all("SELECT * FROM ecu WHERE vehicle = ? ORDER BY place", told["vehicle"])
        ]
        by_name = {e["ecu"]: e for e in ecus}
        if not is_signed(told["envelope"], by_name[told["primary"]]["public_key"]):
            raise Refused(12)
        kept = self.one("SELECT * FROM kept WHERE vehicle = ? AND counter = ?", told["vehicle"],
                        told["counter"])
        if kept and kept["signed"] == told["text"]:
            return self.printed(kept)
        if told["counter"] <= vehicle["last_counter"]:
            raise Refused(13, vehicle["last_counter"])
        self.check_reports(told["reports"], ecus, by_name)
        return self.accept(told, at, vehicle, ecus)

    def check_reports(self, reports: list[dict[str, Any]], ecus: list[dict[str, Any]],
                      by_name: dict[str, dict[str, Any]]) -> None:
        told = [r["ecu"] for r in reports]
        for ecu in told:
            if ecu not in by_name:
                raise Refused(14, ecu)
        for i, ecu in enumerate(told):
            if ecu in told[:i]:
                raise Refused(15, ecu)
        for ecu in ecus:
            if ecu["ecu"] not in told:
                raise Refused(16, ecu["ecu"])
        for report in reports:
            if not is_signed(report["envelope"], by_name[report["ecu"]]["public_key"]):
                raise Refused(17, report["ecu"])
        for report in reports:
            last = by_name[report["ecu"]]
            same = last["report"] is None or report["text"] == last["report"]
            if report["counter"] < last["counter"] or (report["counter"] == last["counter"]
                                                       and not same):
                raise Refused(18, report["ecu"])

    def accept(self, told: Any, at: int, vehicle: sqlite3.Row, ecus: list[dict[str, Any]]) -> str:
        name, reports = told["vehicle"], {r["ecu"]: r for r in told["reports"]}
        sql = (
            "UPDATE ecu SET file = :file, length = :length, sha256 = :sha256, counter = :counter, "
            "report = :text "
            "WHERE ecu = :ecu")
        for ecu in ecus:
            report = {k: v for k, v in reports[ecu["ecu"]].items() if k != "envelope"}
            self.db.execute(sql, report)
            ecu.update(report)
        images, items = self.images(), []
        for row in self.all("SELECT reach, items FROM campaign WHERE running = 1"):
            reach = json.loads(row[0])
            items += json.loads(row[1]) if reach == "all" or name in reach else []
        made = plan(images, items, ecus)
        targets = [target(images[a["file"]], {"ecu": a["ecu"]}) for a in made["assigned"]]
        root, version = self.one("SELECT root FROM meta")[0], vehicle["version"] + 1
        files = self.role_files("director", at, version, targets, {"vehicle": name})
        words = root, files["snapshot"], files["targets"], files["timestamp"], name, version
        form = '{"root":%d,"snapshot":%s,"targets":%s,"timestamp":%s,"vehicle":"%s","version":%d}'
        reply = form % words
        sql = "UPDATE vehicle SET version = ?, last_counter = ? WHERE vehicle = ?"
        self.db.execute(sql, (version, told["counter"], name))
        kept = (name, told["counter"], version, at, root, told["text"], canonical(made), reply)
        self.db.execute("INSERT INTO kept VALUES (?, ?, ?, ?, ?, ?, ?, ?)", kept)
        return self.printed({"vehicle": name, "version": version, "plan_text": canonical(made)})

    def printed(self, kept: dict[str, Any] | sqlite3.Row) -> str:
        made = json.loads(kept["plan_text"])
        told = "reply %s version %d targets %d" % (kept["vehicle"], kept["version"],
                                                   len(made["assigned"]))
        if made["withheld"]:
            cause = made["withheld"]
            kind, name = ("need", "hardware") if "hardware" in cause else ("conflict", "file")
            told += " withheld %s %s %s" % (cause["ecu"], kind, cause[name])
        return told

    WORDS = [
        "found", "rotate", "add_vehicle", "replace_ecu", "add_image", "refresh", "open_campaign",
        "close_campaign", "deliver", "fetch", "bench", "show"]

    def answer(self, line: bytes | str) -> Any:
        """What is printed for a line that has any byte."""
        try:
            with self.db:
                asked = read_json(line)
                if not isinstance(asked, dict) or asked.get("do") not in self.WORDS:
                    raise Refused(7, "do")
                member(asked, "at", COUNT)
                return getattr(self, asked["do"])(asked)
        except Refused as refused:
            return refused.text


def opened(path: str) -> Desk:
    db = sqlite3.connect(path, timeout=0)
    db.execute("PRAGMA locking_mode = EXCLUSIVE")
    desk = Desk(db)
    db.execute("BEGIN IMMEDIATE")
    db.commit()
    return desk


def cause_of(fault: sqlite3.Error) -> str:
    """Why a file can't be opened, in the product's words."""
    told = str(fault)
    if "locked" in told:
        return "another program has it open"
    if "unable to open" in told:
        return "its path can't be opened or made"
    return "it is damaged, or its disk fails"


LABEL = ("reference.py: this is the reference in plain Python and not the product; nothing here is "
         "proved\n")


def run(desk: Desk) -> int:
    """Answers the lines of standard input."""
    for line in sys.stdin.buffer:
        line = line.removesuffix(b"\n")
        if line:
            sys.stdout.buffer.write(desk.answer(line).encode() + b"\n")
            sys.stdout.buffer.flush()
    return 0


def main(words: arguments.Words = None) -> int:
    """Answers a script, or serves."""
    asked = arguments.parser(__doc__)
    ways = asked.add_subparsers(dest="do", required=True)
    for name in ("run", "serve"):
        ways.add_parser(name).add_argument("file", metavar="FILE")
    ways.choices["serve"].add_argument("port", type=arguments.number(65_535), metavar="PORT")
    ways.choices["serve"].add_argument("count", type=arguments.number(9_999_999), nargs="?",
                                       metavar="COUNT")
    told = asked.parse_args(words)
    os.umask(0o077)
    sys.stderr.write(LABEL)
    try:
        desk = opened(told.file)
    except sqlite3.Error as fault:
        print("uptane_desk: cannot open the database: %s" % cause_of(fault), file=sys.stderr)
        return 3
    with closing(desk.db):
        if told.do == "run":
            return run(desk)
        from uptane_tools.oracle import reference_http

        return reference_http.serve(desk, told.port, *([told.count] if told.count else []))
