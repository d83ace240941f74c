"""What a Primary verifies before anything is installed: the full verification of the Uptane
Standard 2.1.0.

What a vehicle trusts of a repository is `{"root": ENVELOPE, "versions": {ROLE: N, ..}}`: the last
Root that it verified (the first is put in when the vehicle is built), and the versions of the last
files. `secrets` are the roles' keys that the vehicle holds, by identifier: under Ed25519 none,
since a Root shows the keys of its roles. A check that fails raises `Refused`. Then the Roots that
were verified before it stay, and nothing else is trusted that wasn't.
"""
import hashlib
from collections.abc import Callable, Container
from typing import Any

import forms
from envelopes import File, has_form, is_signed_by, seconds, shown_keys

ROLES = ("timestamp", "snapshot", "targets")
# what the vehicle trusts, a file's members, keys by identifier, and what brings a file
Told = dict[str, Any]
Keys = dict[str, bytes]
Fetch = Callable[[str], File | None]


class Refused(Exception):
    """What is wrong with the metadata."""


class Old(Refused):
    """The Director's metadata was good once. A new manifest brings new metadata."""


def expect(holds: bool, words: str, *given: Any, kind: type[Exception] = Refused) -> None:
    if not holds:
        raise kind(words % given)


# ---- Roots


def check_signed(envelope: Told, root: Told, role: str, secrets: Keys, what: str) -> None:
    """That enough of the role's keys signed, by this Root. Keys are counted, and not signatures."""
    told, keys = root["roles"][role], secrets | shown_keys(root)
    signers = {it for it in told["keyids"] if it in keys and is_signed_by(envelope, keys[it])}
    words = "%s isn't signed by %d of the %s keys"
    expect(len(signers) >= told["threshold"], words, what, told["threshold"], role)


def check_next(trusted: Told, envelope: File, secrets: Keys, repository: str) -> None:
    """That a Root may come behind the trusted one: of the next version, and signed by enough of
    the old root keys and of its own."""
    before = trusted["signed"]
    what = "%s root %d" % (repository, before["version"] + 1)
    expect(forms.fits(envelope, "root"), "%s is no Root", what)
    root = envelope["signed"]
    expect(root["repository"] == repository, "%s is of the other repository", what)
    expect(root["version"] == before["version"] + 1, "%s has the version %d", what, root["version"])
    shown = [has_form(key, name, secrets) for name, key in root["keys"].items()]
    expect(all(shown), "%s shows a key in another form", what)
    check_signed(envelope, before, "root", secrets, what + ", by the Root before,")
    check_signed(envelope, root, "root", secrets, what)


def forgotten(before: Told, root: Told) -> dict[str, int]:
    """The versions that are forgotten with a new Root. Whoever had a role's old keys may have made
    its versions far too great: those of Timestamp and Snapshot go together, that of Targets alone.
    """

    def differs(role: str) -> bool:
        old, new = (it["signed"]["roles"][role]["keyids"] for it in (before, root))
        return {*old} != {*new}

    found = {"timestamp": 0, "snapshot": 0} if differs("timestamp") or differs("snapshot") else {}
    return found | ({"targets": 0} if differs("targets") else {})


def follow(trust: Told, fetch: Fetch, secrets: Keys, repository: str, now: int) -> None:
    """Fetches each newer Root, and trusts it once it is verified. The latest alone must not have
    expired."""
    while True:
        root = trust["root"]
        newer = fetch("%s/%d.root.json" % (repository, root["signed"]["version"] + 1))
        if newer is None:
            break
        check_next(root, newer, secrets, repository)
        trust["root"], trust["versions"] = newer, trust["versions"] | forgotten(root, newer)
    root = trust["root"]["signed"]
    words = "%s root %d has expired"
    expect(seconds(root["expires"]) > now, words, repository, root["version"])


# ---- files


def check_named(files: Told, role: str, repository: str) -> None:
    """That the file before names this one: the Timestamp the Snapshot, by the SHA-256 of its text
    and its version, and the Snapshot Targets, by its version."""
    version = files[role]["signed"]["version"]
    if role == "snapshot":
        named = forms.entry(files["timestamp"]["signed"], "snapshot.json")
        digest = hashlib.sha256(files["snapshot"].text.encode("utf-8")).hexdigest()
        words = "the %s Timestamp names another Snapshot"
        expect(named["hashes"]["sha256"] == digest, words, repository)
        words = "the %s Timestamp names another version of the Snapshot"
        expect(named["version"] == version, words, repository)
    if role == "targets":
        listed = forms.entry(files["snapshot"]["signed"], "targets.json")["version"]
        words = "the %s Snapshot names another version of Targets"
        expect(listed == version, words, repository)


def check_files(trust: Told, files: Told, secrets: Keys, repository: str, now: int,
                vehicle: str | None = None) -> dict[str, int]:
    """The versions of a repository's Timestamp, Snapshot and Targets, once they are verified in
    this order. That it has expired is the last that is looked at of a file: only of one that is
    right otherwise it means that a newer one is to be had."""
    root, versions = trust["root"]["signed"], trust["versions"]
    for role in ROLES:
        what = "%s %s" % (repository, role)
        expect(forms.fits(files[role], role), "%s isn't of its form", what)
        check_named(files, role, repository)
        told = files[role]["signed"]
        check_signed(files[role], root, role, secrets, what)
        expect(told["repository"] == repository, "%s is of the other repository", what)
        expect(vehicle is None or told["vehicle"] == vehicle, "%s is for another vehicle", what)
        words = "%s goes back to version %d"
        expect(told["version"] >= versions.get(role, 0), words, what, told["version"])
        kind = Old if repository == "director" else Refused
        expect(seconds(told["expires"]) > now, "%s has expired", what, kind=kind)
    return {role: files[role]["signed"]["version"] for role in ROLES}


def check_reply(trust: Told, reply: Told, secrets: Keys, vehicle: str,
                now: int) -> dict[str, int]:
    """The versions of the Director's files in a reply. One of an older Root, or expired, is `Old`.
    """
    root = trust["root"]["signed"]["version"]
    expect(reply["vehicle"] == vehicle, "the reply is for another vehicle")
    words = "the reply is of Root version %d, which isn't served"
    expect(reply["root"] <= root, words, reply["root"])
    words = "the reply is of Root version %d, and the latest is %d"
    expect(reply["root"] == root, words, reply["root"], root, kind=Old)
    versions = check_files(trust, reply, secrets, "director", now, vehicle)
    words = "the files of the reply are of several versions"
    expect({*versions.values()} == {reply["version"]}, words)
    return versions


def image_repository(trust: Told, fetch: Fetch, secrets: Keys,
                     now: int) -> tuple[Any, dict[str, int]]:
    """The Image repository's Targets, and the versions of its files. A change of the repository
    between two of these requests mixes files of two versions: so what can't be verified is fetched
    once more, from the Root on."""
    for again in (True, False):
        try:
            follow(trust, fetch, secrets, "image", now)
            files = {role: fetch("image/%s.json" % role) for role in ROLES}
            lacking = [role for role in ROLES if files[role] is None]
            expect(not lacking, "the Image repository lacks a file")
            return files["targets"], check_files(trust, files, secrets, "image", now)
        except Refused:
            if not again:
                raise
    raise AssertionError("the second try ends it")


# ---- targets


def second_hash(target: Told) -> str | None:
    """A target's SHA-512, where it has one of its form."""
    given = target["hashes"].get("sha512")
    return given if forms.is_like("[0-9a-f]{128}", given) else None


def image_of(target: Told) -> list[Any]:
    """What both repositories have to say alike of an image. The hardware is a list, with order."""
    parts = [target[it] for it in ("file", "length", "hardware", "release")]
    return [*parts, target["hashes"]["sha256"], second_hash(target)]


def check_targets(director: Told, image: Told, ecus: Told,
                  replaced: Container[str] = ()) -> dict[str, Told]:
    """The images to install, by ECU, once both repositories agree on each and it suits its ECU. An
    ECU that was replaced is named by a reply from before: that is `Old`."""
    known, due = [image_of(one) for one in image["signed"]["targets"]], {}
    for target in director["signed"]["targets"]:
        name, file = target["ecu"], target["file"]
        expect(name in ecus or name not in replaced, "%s was replaced", name, kind=Old)
        expect(name in ecus, "%s is no ECU of this vehicle", name)
        expect(image_of(target) in known, "the Image repository has no such %s", file)
        hardware = ecus[name]["hardware"]
        expect(hardware in target["hardware"], "%s isn't for %s of %s", file, hardware, name)
        # (an image whose release the ECU doesn't know counts as release 0)
        release = ecus[name]["installed"].get("release") or 0
        words = "%s would put %s back to release %d"
        expect(target["release"] >= release, words, file, name, target["release"])
        due[name] = target
    return due


def check_image(target: Told, content: bytes) -> None:
    """That the bytes are the image that was meant, by each hash that the target has."""
    file, second = target["file"], second_hash(target)
    expect(len(content) == target["length"], "%s has another length", file)
    first = hashlib.sha256(content).hexdigest()
    expect(first == target["hashes"]["sha256"], "%s has another SHA-256", file)
    expect(second in (None, hashlib.sha512(content).hexdigest()), "%s has another SHA-512", file)


# ---- all of it


def verified(told: Told, reply: Told, fetch: Fetch, secrets: Keys, now: int) -> dict[str, Told]:
    """What is to be installed, by ECU. What the vehicle trusts of both repositories is changed with
    it: a Root once it is verified, the versions of files once all of them are."""
    expect(forms.is_reply(reply), "that is no reply")
    director, image = told["director"], told["image"]
    follow(director, fetch, secrets, "director", now)
    versions, due = check_reply(director, reply, secrets, told["vehicle"], now), dict[str, Told]()
    # (where nothing is assigned the Standard ends here: 5.4.4.2)
    if reply["targets"]["signed"]["targets"]:
        ecus = {ecu["ecu"]: ecu for ecu in told["ecus"]}
        targets, of_image = image_repository(image, fetch, secrets, now)
        due = check_targets(reply["targets"], targets, ecus, told.get("replaced", ()))
        image["versions"] = of_image
    director["versions"] = versions
    return due
