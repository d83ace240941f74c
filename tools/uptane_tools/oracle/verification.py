"""The full verification of a Primary once more, check by check as it is defined, with a name for
each refusal: what `vectors/` say of chains is computed by it, and compared with what was written by
hand.

A Primary is `{"vehicle": NAME, "ecus": {NAME: {"hardware": .., "release": N or None}}, "replaced":
NAMES, "director": TRUST, "image": TRUST}`, a trust `{"root": ROOT, "versions": {ROLE: N}}`. What it
is served: `director_roots` and `image_roots`, the texts behind the trusted one; `reply` and
`image`, the texts of three files each, and the reply's own members.
"""
import functools
import hashlib
import json
import re
from collections.abc import Callable
from datetime import datetime, timezone
from typing import Any

from uptane_tools.operate.formats import FILE, IDENT, KEYID, METHODS, SIG, is_count, value_of
from uptane_tools.oracle import ed25519
from uptane_tools.oracle.reference import canonical, depth, is_plain
from uptane_tools.oracle.schemes import SCHEMES, key_identifier

FILES = ("timestamp", "snapshot", "targets")
ROLES = ("root", *FILES)
NONE_YET = dict.fromkeys(FILES, 0)
# signatures and the canonical text that they sign; a Root and the versions that are trusted; the
# repository, the vehicle whose files they are, and the moment
Sealed = tuple[list[dict[str, str]], str]
Trust = dict[str, Any]
Asked = tuple[str, str | None, int]
# what is read of a text, which comes again and again
kept = functools.lru_cache(maxsize=1024)
# the refusals of a target, which come once both repositories are verified
CHECKED_LAST = ("ReplacedEcu", "UnknownEcu", "UnknownImage", "WrongHardware", "LowerRelease")


class Unread(Exception):
    """A text that is no file of its role."""


class Refused(Exception):
    """Why what was served isn't accepted: the words of a refusal."""


def need(holds: object) -> None:
    if not holds:
        raise Unread


def refuse_unless(holds: bool, *words: str) -> None:
    if not holds:
        raise Refused(words)


# ---- what files say


def text(told: dict[str, Any], name: str, holds: Callable[..., Any]) -> str:
    need(isinstance(told, dict) and isinstance(told.get(name), str) and holds(told[name]))
    return told[name]


def count(told: dict[str, Any], name: str, least: int = 0) -> int:
    need(isinstance(told, dict) and is_count(told.get(name), least))
    return told[name]


def envelope(bytes_: str) -> tuple[Sealed, Any]:
    """The signatures and the canonical text of what is signed, and its value."""
    need(isinstance(bytes_, str) and len(bytes_) <= 4_194_304)
    return _envelope(bytes_)


@functools.lru_cache(maxsize=1024)
def _envelope(bytes_: str) -> tuple[Sealed, Any]:
    try:
        value = value_of(bytes_)
    except ValueError:
        raise Unread from None
    need(isinstance(value, dict))
    signatures, signed = value.get("signatures"), value.get("signed")
    need(isinstance(signatures, list) and 1 <= len(signatures) <= 8)
    for it in signatures:
        need(isinstance(it, dict))
        need(KEYID(it.get("keyid")) and METHODS(it.get("method")) and SIG(it.get("sig")))
    need(isinstance(signed, dict) and is_plain(signed) and depth(signed) <= 16)
    return (signatures, canonical(signed)), signed


def head(told: dict[str, Any], kind: str) -> dict[str, Any]:
    need(text(told, "type", lambda it: True) == kind)
    repository = text(told, "repository", lambda it: it in ("director", "image"))
    shape = "[0-9]{4}-[0-9]{2}-[0-9]{2}T[0-9]{2}:[0-9]{2}:[0-5][0-9]Z"
    expires = text(told, "expires", lambda it: re.fullmatch(shape, it))
    try:
        at = datetime.strptime(expires, "%Y-%m-%dT%H:%M:%SZ").replace(tzinfo=timezone.utc)
    except ValueError:
        raise Unread from None
    need(at.timestamp() >= 0)
    return {
        "repository": repository, "version": count(told, "version", 1),
        "expires": int(at.timestamp())}


def vehicle_of(told: dict[str, Any], repository: str) -> str | None:
    return text(told, "vehicle", IDENT) if repository == "director" else None


@kept
def root_in(bytes_: str) -> tuple[dict[str, Any], Sealed]:
    sealed, told = envelope(bytes_)
    keys: Any
    roles: Any
    file, keys, roles = head(told, "root"), told.get("keys"), told.get("roles")
    need(isinstance(keys, dict) and isinstance(roles, dict))
    for name, it in keys.items():
        need(KEYID(name) and isinstance(it, dict))
        text(it, "method", METHODS)
        text(it, "public", lambda shown: re.fullmatch("[ -~]{0,1024}", shown))
    for role in ROLES:
        it = roles.get(role)
        need(isinstance(it, dict) and isinstance(it.get("keyids"), list))
        names = it["keyids"]
        need(1 <= len(names) <= 4 and all(isinstance(name, str) and name in keys for name in names))
        need(len({*names}) == len(names) and count(it, "threshold", 1) <= len(names))
        known = {name: (keys[name]["method"], keys[name]["public"]) for name in names}
        file[role] = {"keys": known, "threshold": it["threshold"]}
    need({name for role in ROLES for name in file[role]["keys"]} == {*keys})
    return file, sealed


def second_in(hashes: dict[str, str]) -> str | None:
    """A SHA-512 of its form; another member of that name is one that nobody knows."""
    second = hashes.get("sha512")
    is_one = isinstance(second, str) and re.fullmatch("[0-9a-f]{128}", second)
    return second if is_one else None


def target_in(it: dict[str, Any], repository: str) -> dict[str, Any]:
    need(isinstance(it, dict) and isinstance(it.get("hashes"), dict))
    hardware: Any = it.get("hardware")
    need(isinstance(hardware, list) and 1 <= len(hardware) <= 16 and all(map(IDENT, hardware)))
    need(len({*hardware}) == len(hardware))
    first = text(it["hashes"], "sha256", lambda digits: re.fullmatch("[0-9a-f]{64}", digits))
    hashes = first, second_in(it["hashes"])
    numbers = count(it, "length"), count(it, "release")
    ecu = text(it, "ecu", IDENT) if repository == "director" else None
    return {"ecu": ecu, "image": (text(it, "file", FILE), hashes, tuple(hardware), *numbers)}


@kept
def targets_in(bytes_: str) -> tuple[dict[str, Any], Sealed]:
    sealed, told = envelope(bytes_)
    file = head(told, "targets")
    file["vehicle"] = vehicle_of(told, file["repository"])
    need(isinstance(told.get("targets"), list))
    file["targets"] = [target_in(it, file["repository"]) for it in told["targets"]]
    ecus = [it["ecu"] for it in file["targets"] if it["ecu"] is not None]
    need(len({*ecus}) == len(ecus))
    return file, sealed


def listing(bytes_: str, kind: str, name: str) -> tuple[dict[str, Any], Sealed, dict[str, Any]]:
    """A Timestamp or a Snapshot, and its entry of the file that it names."""
    sealed, told = envelope(bytes_)
    file = head(told, kind)
    file["vehicle"] = vehicle_of(told, file["repository"])
    need(isinstance(told.get("meta"), dict) and isinstance(told["meta"].get(name), dict))
    entry = told["meta"][name]
    file["named"] = count(entry, "version", 1)
    return file, sealed, entry


@kept
def snapshot_in(bytes_: str) -> tuple[dict[str, Any], Sealed]:
    return listing(bytes_, "snapshot", "targets.json")[:2]


@kept
def timestamp_in(bytes_: str) -> tuple[dict[str, Any], Sealed]:
    file, sealed, entry = listing(bytes_, "timestamp", "snapshot.json")
    need(isinstance(entry.get("hashes"), dict))
    is_hash = re.compile("[0-9a-f]{64}").fullmatch
    file["sha256"] = text(entry["hashes"], "sha256", is_hash)
    return file, sealed


READERS = {"timestamp": timestamp_in, "snapshot": snapshot_in, "targets": targets_in}

# ---- who signed


class Verifier:
    """A scheme, and the public parts that the vehicle holds besides those that Roots show."""

    def __init__(self, method: str, held: Any) -> None:
        self.scheme, self.held = SCHEMES[method], {key_identifier(it): it for it in held}

    def shown(self, digits: str) -> bytes | None:
        """The public part that a Root shows so, if it is one."""
        if self.scheme.method != "ed25519" or not re.fullmatch("[0-9a-f]{64}", digits):
            return None
        public = bytes.fromhex(digits)
        return public if ed25519.is_public(public) else None

    def candidates(self, name: str, key: tuple[str, str]) -> list[bytes]:
        """The public parts of this identifier: the one that a Root shows, and one that is held."""
        parts = (self.shown(key[1]), self.held.get(name))
        return [it for it in parts if it is not None and key_identifier(it) == name]

    def is_known(self, name: str, key: tuple[str, str]) -> bool:
        """Whether it is a key of the scheme, with a public part that is shown so."""
        method, digits = key
        shown = map(self.scheme.shown, self.candidates(name, key))
        return method == self.scheme.method and digits in shown

    def has_signed(self, sealed: tuple[list[dict[str, Any]], str], name: str,
                   key: tuple[str, str]) -> bool:
        """Whether a key signed: by the scheme that the vehicle trusts, whatever it is called."""
        (signatures, signed), named = sealed, (name, self.scheme.method)
        own = [it["sig"] for it in signatures if (it["keyid"], it["method"]) == named]
        return any(
            self.scheme.verify(public, signed.encode(), bytes.fromhex(it))
            for public in self.candidates(name, key) for it in own)

    def is_signed_for(self, role: dict[str, Any], sealed: tuple[list[dict[str, Any]], str]) -> bool:
        signers = [name for name, key in role["keys"].items() if self.has_signed(sealed, name, key)]
        return len(signers) >= role["threshold"]


# ---- Roots


def next_root(verifier: Verifier, repository: str, before: dict[str, Any],
              bytes_: str) -> dict[str, Any]:
    try:
        root, sealed = root_in(bytes_)
    except Unread:
        raise Refused((repository, "root", "Unread")) from None
    keys = [key for role in ROLES for key in root[role]["keys"].items()]
    are_known = all(verifier.is_known(*key) for key in keys)
    what = repository, "root"
    refuse_unless(root["repository"] == repository, *what, "OtherRepository")
    refuse_unless(root["version"] == before["version"] + 1, *what, "NotNext")
    refuse_unless(are_known, *what, "UnknownKey")
    refuse_unless(verifier.is_signed_for(before["root"], sealed), *what, "NotSignedBefore")
    refuse_unless(verifier.is_signed_for(root["root"], sealed), *what, "NotSigned")
    return root


def with_root(trust: Trust, root: Any) -> Trust:
    """What is trusted with a new Root. Versions under a role's old keys are forgotten: those of
    Timestamp and Snapshot together, that of Targets alone."""
    same = {role: {*trust["root"][role]["keys"]} == {*root[role]["keys"]} for role in FILES}
    versions = dict(trust["versions"])
    if not (same["timestamp"] and same["snapshot"]):
        versions |= {"timestamp": 0, "snapshot": 0}
    if not same["targets"]:
        versions["targets"] = 0
    return {"root": root, "versions": versions}


def follow(verifier: Verifier, repository: str, trust: Trust,
           roots: list[str]) -> tuple[Trust, Refused | None]:
    """What is trusted once each Root was looked at in its turn, and the first refusal, if any."""
    for bytes_ in roots:
        try:
            trust = with_root(trust, next_root(verifier, repository, trust["root"], bytes_))
        except Refused as refused:
            return trust, refused
    return trust, None


def latest(verifier: Verifier, repository: str, now: int, trust: Trust, roots: list[str]) -> Trust:
    trust, refused = follow(verifier, repository, trust, roots)
    if refused:
        raise refused
    refuse_unless(now < trust["root"]["expires"], repository, "root", "Expired")
    return trust


# ---- files


def check_file(verifier: Verifier, asked: Asked, role: str, trust: Trust, bytes_: Any,
               is_named: Callable[[dict[str, Any]], bool]) -> dict[str, Any]:
    repository, vehicle, now = asked
    try:
        file, sealed = READERS[role](bytes_)
    except Unread:
        raise Refused((repository, role, "Unread")) from None
    what = repository, role
    refuse_unless(is_named(file), *what, "NotNamed")
    refuse_unless(file["repository"] == repository, *what, "OtherRepository")
    refuse_unless(file["vehicle"] == vehicle, *what, "OtherVehicle")
    refuse_unless(verifier.is_signed_for(trust["root"][role], sealed), *what, "NotSigned")
    refuse_unless(file["version"] >= trust["versions"][role], *what, "GoesBack")
    refuse_unless(now < file["expires"], *what, "Expired")
    return file


def check_files(verifier: Verifier, asked: Asked, trust: Trust,
                texts: dict[str, Any]) -> tuple[dict[str, int], dict[str, Any]]:
    """The versions of a repository's files, and its Targets."""
    digest = hashlib.sha256((texts["snapshot"] or "").encode()).hexdigest()

    def check(role: str, is_named: Callable[[dict[str, Any]], bool]) -> dict[str, Any]:
        return check_file(verifier, asked, role, trust, texts[role], is_named)

    timestamp = check("timestamp", lambda file: True)
    named = timestamp["named"], timestamp["sha256"]
    snapshot = check("snapshot", lambda file: (file["version"], digest) == named)
    targets = check("targets", lambda file: file["version"] == snapshot["named"])
    found = zip(FILES, (timestamp, snapshot, targets))
    return {role: file["version"] for role, file in found}, targets


def check_reply(verifier: Verifier, now: int, primary: dict[str, Any], trust: Trust,
                reply: dict[str, Any]) -> tuple[dict[str, int], dict[str, Any]]:
    root = trust["root"]["version"]
    refuse_unless(reply["vehicle"] == primary["vehicle"], "WrongVehicle")
    refuse_unless(reply["root"] <= root, "UnknownRoot")
    refuse_unless(reply["root"] == root, "OldRoot")
    asked = "director", primary["vehicle"], now
    versions, targets = check_files(verifier, asked, trust, reply["files"])
    refuse_unless({*versions.values()} == {reply["version"]}, "MixedVersions")
    return versions, targets


def check_target(primary: dict[str, Any], images: list[dict[str, Any]], target: dict[str,
                                                                                     Any]) -> None:
    name, (file, _, hardware, _, release) = target["ecu"], target["image"]
    refuse_unless(name in primary["ecus"] or name not in primary["replaced"], "ReplacedEcu", name)
    refuse_unless(name in primary["ecus"], "UnknownEcu", name)
    refuse_unless(target["image"] in [it["image"] for it in images], "UnknownImage", file)
    own = primary["ecus"][name]
    refuse_unless(own["hardware"] in hardware, "WrongHardware", name)
    refuse_unless((own["release"] or 0) <= release, "LowerRelease", name)


# ---- all of it


def verify(verifier: Verifier, now: int, primary: dict[str, Any],
           served: dict[str, Any]) -> tuple[dict[str, Any], dict[str, str]]:
    """What the Primary trusts from then on, and the file to install by ECU."""
    director = latest(verifier, "director", now, primary["director"], served["director_roots"])
    versions, targets = check_reply(verifier, now, primary, director, served["reply"])
    known = primary | {"director": director | {"versions": versions}}
    if not targets["targets"]:
        return known, {}
    image = latest(verifier, "image", now, primary["image"], served["image_roots"])
    versions, images = check_files(verifier, ("image", None, now), image, served["image"])
    for it in targets["targets"]:
        check_target(primary, images["targets"], it)
    due = {it["ecu"]: it["image"][0] for it in targets["targets"]}
    return known | {"image": image | {"versions": versions}}, due


def is_old(words: tuple) -> bool:
    """Whether a refusal is of what was good once: a new manifest brings something newer."""
    is_expired = len(words) == 3 and (words[0], words[2]) == ("director", "Expired")
    return words[0] in ("OldRoot", "ReplacedEcu") or is_expired and words[1] != "root"


def behind(trust: Trust, repository: str, texts: dict[str, Any]) -> list[str]:
    """The texts of a repository's Roots behind the trusted one, up to the first that is missing."""
    found, number = [], trust["root"]["version"] + 1
    while texts.get("%s/%d.root.json" % (repository, number)) is not None:
        found.append(texts["%s/%d.root.json" % (repository, number)])
        number += 1
    return found


def is_reply(reply: dict[str, Any]) -> bool:
    """Whether a reply has its members. Each of its files is read in its turn."""
    has_all = None not in reply["files"].values() and IDENT(reply["vehicle"])
    return has_all and is_count(reply["root"], 1) and is_count(reply["version"], 1)


def judged(verifier: Verifier, now: int, primary: dict[str, Any], texts: dict[str, Any],
           reply: dict[str, Any]) -> tuple[str, dict[str, str] | None, dict[str, Any]]:
    """The verdict on what a vehicle receives, what is due, and what it trusts from then on: Roots
    that were verified stay, whatever came behind them. Of a repository that it needn't have asked,
    where a newer Root would be, that is left open. Behind what is no reply nothing is asked."""
    roots = {it: behind(primary[it], it, texts) for it in ("director", "image")}
    if not is_reply(reply):
        return "refused", None, {
            it: primary[it] for it in roots if it == "director" or not roots[it]}
    files = {role: texts.get("image/%s.json" % role) for role in FILES}
    served = {"director_roots": roots["director"], "image_roots": roots["image"]}
    try:
        known, due = verify(verifier, now, primary, served | {"reply": reply, "image": files})
        return "accepted", due, {it: known[it] for it in ("director", "image")}
    except Refused as refused:
        words = refused.args[0]
    known = {it: follow(verifier, it, primary[it], roots[it])[0] for it in ("director", "image")}
    is_of_image = words[0] == "image" or words[0] in CHECKED_LAST
    if not is_of_image and roots["image"]:
        del known["image"]
    return "old" if is_old(words) else "refused", None, known


# ---- what vectors have


@kept
def reply_in(text_: str) -> dict[str, Any]:
    """A reply's own members, and the text of each file as it stands there."""
    value, decoder, at = value_of(text_), json.JSONDecoder(), text_.index("{") + 1

    def past(at: int) -> int:
        """Where the next name or value begins."""
        return len(text_) - len(text_[at:].lstrip(" \t\n\r,:"))

    texts, at = {}, past(at)
    while text_[at] != "}":
        name, at = decoder.raw_decode(text_, at)
        begins = past(at)
        at = decoder.raw_decode(text_, begins)[1]
        texts[name], at = text_[begins:at], past(at)
    return {it: value.get(it) for it in ("vehicle", "root", "version")} | {
        "files": {role: texts.get(role) for role in FILES}}


def state_of(known: dict[str, Trust]) -> dict[str, dict[str, int]]:
    """What is trusted, as vectors say it: the number of the Root, and the versions."""
    return {
        repository: {"root": trust["root"]["version"], **trust["versions"]}
        for repository, trust in known.items()}


def of_case(method: str, told: dict[str, Any],
            case: dict[str, Any]) -> tuple[str, dict[str, str] | None, dict[str, dict[str, int]]]:
    """The verdict on a case of chains, what is due, and the state behind it."""
    texts = told["files of " + case["base"]] | case.get("replace", {})
    verifier = Verifier(method, map(bytes.fromhex, told["vehicle"]["role_keys"].values()))
    renamed, ecus = case.get("replaced", {}), {}
    for it in told["vehicle"]["ecus"]:
        name, has = it["ecu"], it["installed"] | case.get("installed", {}).get(it["ecu"], {})
        hardware = case.get("hardware", {}).get(name, it["hardware"])
        ecus[renamed.get(name, name)] = {"hardware": hardware, "release": has["release"]}
    primary = {"vehicle": told["vehicle"]["vehicle"], "ecus": ecus, "replaced": [*renamed]}
    for it in ("director", "image"):
        versions = NONE_YET | case.get("trusted", {}).get(it, {})
        primary[it] = {"root": root_in(texts[it + "/1.root.json"])[0], "versions": versions}
    reply, now = reply_in(texts["reply"]), case.get("now", told["now"])
    verdict, due, known = judged(verifier, now, primary, texts, reply)
    return verdict, due, state_of(known)
