"""Test vectors of chains: all that a vehicle receives, with one thing wrong, and whether it may
install what the reply assigns.
"""
import copy
import json
from collections.abc import Callable, Iterator
from typing import Any

from uptane_tools.oracle import ed25519
from uptane_tools.oracle.reference import METHOD, SCHEME, canonical, moment
from uptane_tools.oracle.schemes import HmacSha256, key_identifier, other_method_of
from uptane_tools.oracle.vector_fleet import (CONTENT, DAY, ECUS, FIRST, NOW, ROTATE, SECOND, SETUP,
                                              UPDATE, desk, digest, image_of, key, line, manifest,
                                              public, reports_of, signed_by)

# ---- chains: all that a vehicle gets, with one thing wrong

# of each case the attack, its name, the verdict, the texts that are replaced, and further members
Cases = Iterator[tuple[str, str, str, dict[str, Any], dict[str, Any]]]


class Chain:
    """The files of both repositories and the reply that a vehicle gets, as texts, which a case
    changes.
    """

    def __init__(self, rotated: bool) -> None:
        with desk() as it:

            def delivered(vehicle: Any, counter: int) -> str:
                return line("deliver", body=manifest(vehicle, counter, reports_of(vehicle,
                                                                                  counter)))

            self.lines = [*SETUP, *UPDATE,
                          delivered("VIN-1", 1),
                          delivered("VIN-2", 1)] + [ROTATE, delivered("VIN-1", 2)] * rotated
            assert not any(it.answer(given).startswith("refused") for given in self.lines)
            self.other, old = (it.one("SELECT reply FROM kept WHERE vehicle = ? AND counter = 1",
                                      name)[0] for name in ("VIN-2", "VIN-1"))
            kept = it.one("SELECT reply FROM kept WHERE vehicle = 'VIN-1' ORDER BY version DESC")[0]
            self.files = {
                "%s/%s" % (row[0], row[1]): row[2]
                for row in it.all("SELECT repository, name, body FROM repo_file")}
        self.files = {
            name: text for name, text in sorted(self.files.items())
            if not name.endswith("/root.json")}
        self.files["reply"], self.old, self.keys = kept, old, SECOND if rotated else FIRST

    def reply(self, **members: Any) -> dict[str, str]:
        """The reply with other members."""
        return {"reply": canonical(json.loads(self.files["reply"]) | members)}

    def director(self, role: str, change: Callable[..., Any], keys: list[str] | None = None,
                 rehash: bool = True, **more: int) -> dict[str, str]:
        """The reply after a change of what one of its files has signed, which these keys sign,
        or the role's. The Timestamp names the Snapshot anew, unless that is what is to be wrong.
        The reply may have other members.
        """
        told = json.loads(self.files["reply"]) | more
        told[role] = resigned(told[role], change, keys or self.keys["director"][role]["keys"])
        if role == "snapshot" and rehash:

            def name(signed: dict[str, Any]) -> None:
                return signed["meta"].update({"snapshot.json": named(told["snapshot"])})

            told["timestamp"] = resigned(told["timestamp"], name,
                                         self.keys["director"]["timestamp"]["keys"])
        return {"reply": canonical(told)}

    def image(self, role: str, change: Callable[..., Any], keys: list[str] | None = None,
              rehash: bool = True) -> dict[str, str]:
        """The same of a file of the Image repository."""
        made = resigned(json.loads(self.files["image/%s.json" % role]), change, keys
                        or self.keys["image"][role]["keys"])
        found = {"image/%s.json" % role: canonical(made)}
        if role == "snapshot" and rehash:

            def name(signed: dict[str, Any]) -> None:
                return signed["meta"].update({"snapshot.json": named(made)})

            found |= self.image("timestamp", name)
        return found

    def spaced(self, renamed: bool) -> tuple[dict[str, str], dict[str, str]]:
        """The reply whose Snapshot has white space, and the same of the Image repository. Their
        Timestamps name that text, or the canonical one.
        """
        told = json.loads(self.files["reply"])
        texts = canonical(told["snapshot"]), self.files["image/snapshot.json"]
        others = [it.replace(",", " , ", 1) for it in texts]

        def name(text: str) -> Callable[..., Any]:
            hashes = {"sha256": digest(text)}
            return lambda signed: signed["meta"]["snapshot.json"].update(hashes=hashes)

        if renamed:
            told["timestamp"] = resigned(told["timestamp"], name(others[0]),
                                         self.keys["director"]["timestamp"]["keys"])
        found = self.image("timestamp", name(others[1])) if renamed else {}
        return {"reply": canonical(told).replace(
            texts[0], others[0])}, {"image/snapshot.json": others[1]} | found

    def root(self, change: Callable[..., Any], keys: list[str], repository: str = "director",
             number: int = 2) -> dict[str, str]:
        """The Root of this number after a change, signed by these keys. One that isn't there is
        made of the one before it.
        """
        name = "%s/%d.root.json"
        found = self.files.get(name % (repository, number)) or self.files[name %
                                                                          (repository, number - 1)]

        def changed(signed: dict[str, Any]) -> None:
            signed["version"] = number
            change(signed)

        return {name % (repository, number): canonical(resigned(json.loads(found), changed, keys))}


def resigned(envelope: dict[str, Any], change: Callable[..., Any],
             keys: list[str]) -> dict[str, Any]:
    signed = copy.deepcopy(envelope["signed"])
    change(signed)
    return json.loads(signed_by(keys, signed))


def named(snapshot: dict[str, Any]) -> dict[str, Any]:
    return {
        "hashes": {"sha256": digest(canonical(snapshot))}, "version": snapshot["signed"]["version"]}


def members(**more: Any) -> Callable[..., Any]:
    return lambda signed: signed.update(more)


def target(**more: Any) -> Callable[..., Any]:
    return lambda signed: signed["targets"][0].update(more)


def of_role(role: str, secrets: list[str], threshold: int = 1) -> Callable[..., Any]:
    """A Root's change: the role has these keys, and a key that no role has any more is gone."""

    def change(signed: dict[str, Any]) -> None:
        own = {
            key_identifier(bytes.fromhex(public(it))): {
                "method": METHOD, "public": SCHEME.shown(bytes.fromhex(public(it)))}
            for it in secrets}
        signed["roles"][role] = {"keyids": [*own], "threshold": threshold}
        listed = {it for one in signed["roles"].values() for it in one["keyids"]}
        signed["keys"] = {name: it for name, it in (signed["keys"] | own).items() if name in listed}

    return change


def of_key(secret: str, change: Callable[..., Any]) -> Callable[..., Any]:
    """A Root's change of the key of this secret: of its name, or of what stands there."""

    def changed(signed: dict[str, Any]) -> None:
        name = key_identifier(bytes.fromhex(public(secret)))
        other, told = change(name, signed["keys"].pop(name))
        signed["keys"][other] = told
        for role in signed["roles"].values():
            role["keyids"] = [other if it == name else it for it in role["keyids"]]

    return changed


nothing = members()


def trusted(repository: str, **versions: int) -> dict[str, Any]:
    return {"trusted": {repository: versions}}


ROOTS = {it: (FIRST[it]["root"]["keys"], SECOND[it]["root"]["keys"]) for it in FIRST}
BOTH_ROOTS = FIRST["director"]["root"]["keys"], SECOND["director"]["root"]["keys"]


def one_key(role: str) -> list[str]:
    return FIRST["director"][role]["keys"][:1]


def with_signatures(chain: Chain, change: Callable[..., Any]) -> dict[str, str]:
    """The reply with other signatures of its Targets."""
    told = json.loads(chain.files["reply"])
    told["targets"]["signatures"] = change(told["targets"]["signatures"])
    return {"reply": canonical(told)}


def upper(signature: dict[str, str]) -> dict[str, str]:
    return signature | {"sig": signature["sig"].upper()}


def of_update(it: Chain) -> Cases:
    """The cases of an update of three ECUs. The first three signatures of Targets are of keys of
    which two have to sign.
    """
    yes, no, old = "accepted", "refused", "old"
    yield "none", "as it is", yes, {}, {}
    yield "none", "the vehicle has verified these versions before", yes, {}, trusted(
        "director", timestamp=1, snapshot=1, targets=1)
    yield "none", "members that nobody knows", yes, it.director("targets", members(more=[1])), {}
    yield "freeze", "eight days later", old, {}, {"now": NOW + 8 * DAY}
    yield "freeze", "the second at which the Director's files expire", old, {}, {
        "now": NOW + 7 * DAY}
    yield "freeze", "two days later: the Image repository's Timestamp has expired", no, {}, {
        "now": NOW + 2 * DAY}
    yield "freeze", "the Director's Targets alone have expired", old, it.director(
        "targets", members(expires=moment(NOW))), {}
    yield "freeze", "the Director's Snapshot alone has expired", old, it.director(
        "snapshot", members(expires=moment(NOW))), {}
    yield "freeze", "the Director's Timestamp alone has expired", old, it.director(
        "timestamp", members(expires=moment(NOW))), {}
    yield "freeze", "the Image repository's Targets alone have expired", no, it.image(
        "targets", members(expires=moment(NOW))), {}
    yield "freeze", "the Image repository's Snapshot alone has expired", no, it.image(
        "snapshot", members(expires=moment(NOW))), {}
    yield "freeze", "a year later: the Root has expired too", no, {}, {"now": NOW + 366 * DAY}
    for role in ("timestamp", "snapshot", "targets"):
        for repository, whose, version in (("director", "Director's", 2),
                                           ("image", "Image repository's", 9)):
            yield "rollback", "a greater version of the %s %s was verified before" % (
                whose, role), no, {}, trusted(repository, **{role: version})
    yield "rollback", "the gateway has a greater release", no, {}, {
        "installed": {"gw": {"release": 3}}}
    yield "mix and match", "the Timestamp names another Snapshot", no, it.director(
        "snapshot", members(more=1), rehash=False), {}
    yield "mix and match", "the Timestamp names another version of the Snapshot", no, it.director(
        "timestamp", lambda signed: signed["meta"]["snapshot.json"].update(version=9)), {}
    yield "mix and match", "the Snapshot names another version of Targets", no, it.director(
        "snapshot", members(meta={"targets.json": {"version": 2}})), {}
    yield "mix and match", "Targets of another version", no, it.director(
        "targets", members(version=3)), {}
    yield "mix and match", "the reply has another version than its files", no, it.reply(
        version=9), {}
    yield "mix and match", "the Image repository's Snapshot is of another moment", no, it.image(
        "snapshot", members(more=1), rehash=False), {}
    yield "mix and match", "the Image repository's Targets are of another moment", no, it.image(
        "targets", members(version=4)), {}
    yield "mix and match", "the repositories differ on a length", no, it.director(
        "targets", target(length=1)), {}
    other = image_of("gateway-2.bin")["hashes"]
    yield "mix and match", "the repositories differ on a SHA-256", no, it.director(
        "targets", target(hashes=other | {"sha256": 64 * "0"})), {}
    yield "mix and match", "the repositories differ on a SHA-512", no, it.director(
        "targets", target(hashes=other | {"sha512": 128 * "0"})), {}
    yield "mix and match", "the Director lacks the SHA-512", no, it.director(
        "targets", target(hashes={"sha256": other["sha256"]})), {}
    yield "mix and match", "the repositories differ on a release", no, it.director(
        "targets", target(release=9)), {}
    yield "mix and match", "the repositories differ on hardware", no, it.director(
        "targets", target(hardware=["GW", "BR"])), {}
    yield "arbitrary software", "the Image repository hasn't the image", no, it.director(
        "targets", target(file="gateway-9.bin")), {}
    yield "arbitrary software", "what is signed was changed", no, {
        "reply": it.files["reply"].replace('"ecu":"gw"', '"ecu":"GW"')}, {}
    yield "arbitrary software", "Targets signed by the Timestamp's key", no, it.director(
        "targets", nothing, it.keys["director"]["timestamp"]["keys"]), {}
    yield "arbitrary software", "Targets signed by the Image repository's key", no, it.director(
        "targets", nothing, it.keys["image"]["targets"]["keys"]), {}
    yield "arbitrary software", "a Snapshot in place of Targets", no, it.director(
        "targets", members(type="snapshot")), {}
    name = "Targets of the Image repository in place of the Director's"
    yield "arbitrary software", name, no, it.director("targets", members(repository="image")), {}
    name = "the Director's Targets in place of the Image repository's"
    yield "arbitrary software", name, no, it.image("targets", members(repository="director")), {}
    yield "arbitrary software", "the Image repository has no Targets", no, {
        "image/targets.json": None}, {}
    yield "wrong vehicle", "another vehicle's reply", no, {"reply": it.other}, {}
    yield "wrong vehicle", "the same under this vehicle's name", no, {
        "reply": canonical(json.loads(it.other) | {"vehicle": "VIN-1"})}, {}
    yield "wrong vehicle", "the reply alone names another vehicle", no, it.reply(
        vehicle="VIN-2"), {}
    yield "wrong vehicle", "the Timestamp is for another vehicle", no, it.director(
        "timestamp", members(vehicle="VIN-2")), {}
    yield "wrong vehicle", "Targets for an ECU of another vehicle", no, it.director(
        "targets", target(ecu="solo")), {}
    yield "wrong ECU", "two targets for an ECU", no, it.director(
        "targets", lambda signed: signed["targets"].append(signed["targets"][1])), {}
    yield "wrong ECU", "the gateway's target for another ECU", no, it.director(
        "targets", target(ecu="left")), {}
    yield "wrong ECU", "an image for other hardware", no, {}, {"hardware": {"gw": "GW-9"}}
    yield "too few signatures", "two of three keys", yes, it.director(
        "targets", nothing, it.keys["director"]["targets"]["keys"][1:]), {}
    yield "too few signatures", "one of three keys", no, it.director("targets", nothing,
                                                                     one_key("targets")), {}
    yield "too few signatures", "one right signature, and a wrong one", no, with_signatures(
        it, lambda own: [own[0], own[1] | {"sig": own[0]["sig"]}]), {}
    yield "too few signatures", "one key of the role, and one of another role", no, it.director(
        "targets", nothing,
        one_key("targets") + one_key("snapshot")), {}
    yield "too few signatures", "no signatures", no, with_signatures(it, lambda own: []), {}
    yield "a key twice", "one key signs twice", no, it.director("targets", nothing,
                                                                2 * one_key("targets")), {}
    yield "a key twice", "one key signs three times, in other cases", no, with_signatures(
        it, lambda own: [own[0], upper(own[0]), own[0]]), {}
    yield "a key twice", "one key signs twice, and another once", yes, with_signatures(
        it, lambda own: [own[0], own[0], own[1]]), {}


def signed_otherwise(it: Chain) -> Cases:
    """Each file of the two repositories but the Director's Targets, which has other cases: under
    another role's key.
    """
    no = "refused"
    for repository, roles in (("director", ("timestamp", "snapshot")),
                              ("image", ("timestamp", "snapshot", "targets"))):
        of, whose = getattr(it, repository), {
            "director": "the Director's", "image": "the Image repository's"}[repository]
        for role in roles:
            other = it.keys[repository]["targets" if role == "snapshot" else "snapshot"]["keys"]
            yield "arbitrary software", "%s %s signed by the key of another role" % (
                whose, role.capitalize()), no, of(role, nothing, other[:1]), {}


def of_forms(it: Chain) -> Cases:
    """Cases of one repository's members and texts."""
    yes, no = "accepted", "refused"
    name = "the Image repository's Timestamp names another version of the Snapshot"
    yield "mix and match", name, no, it.image(
        "timestamp", lambda signed: signed["meta"]["snapshot.json"].update(version=9)), {}
    for place, whose in enumerate(("the Director's", "the Image repository's")):
        name = "%s Snapshot has white space, and the Timestamp the SHA-256 of " % whose
        yield "none", name + "that text", yes, it.spaced(True)[place], {}
        yield "mix and match", name + "the canonical text", no, it.spaced(False)[place], {}
    yield "none", "white space between the members of the reply", yes, {
        "reply": it.files["reply"].replace(',"snapshot":', ' , "snapshot" : ').replace(
            ',"targets":{"sig', '\n, "targets":{"sig')}, {}
    yield "mix and match", "the reply names a later Root than is served", no, it.reply(root=2), {}
    empty = it.director("targets", members(targets=[]))
    yield "none", "nothing is assigned", yes, empty, {"installs": {}}
    yield "none", ("nothing is assigned, and the Image repository's Timestamp has expired: none of "
                   "its files is needed"), yes, empty, {"installs": {}, "now": NOW + 2 * DAY}


def of_new_roots(it: Chain) -> Cases:
    """A second Root after a change of the first, of a vehicle that has verified greater versions.
    """
    yes, no = "accepted", "refused"
    for repository, whose in (("director", "the Director's"), ("image", "the Image repository's")):
        own, first, second = getattr(it, repository), FIRST[repository], SECOND[repository]

        def root(change: Callable[..., Any]) -> dict[str, str]:
            return it.root(change, first["root"]["keys"], repository)

        more = {"root": 2} if repository == "director" else {}
        told = {"reply": it.reply(**more)["reply"]} if more else {}

        def greater(**versions: int) -> dict[str, Any]:
            return trusted(repository, **versions)

        yield "none", "%s new Root has the same keys" % whose, yes, root(nothing) | told, {}
        for role in ("timestamp", "snapshot"):
            name = "%s new Root has the same keys: the version of the %s isn't forgotten" % (
                whose, role.capitalize())
            yield "rollback", name, no, root(nothing) | told, greater(**{role: 99})
            for other in ("timestamp", "snapshot"):
                found = own(role, nothing, second[role]["keys"], **more) if more else own(
                    role, nothing, second[role]["keys"])
                name = ("%s new Root has another key of the %s alone: the version of the %s is "
                        "forgotten") % (whose, role.capitalize(), other.capitalize())
                yield "none", name, yes, root(of_role(role, second[role]["keys"])) | found, greater(
                    **{other: 99})
        both = first["timestamp"]["keys"] + second["timestamp"]["keys"]
        before = it.root(of_role("timestamp", both), first["root"]["keys"], repository, 1)
        signed = own("timestamp", nothing, both, **more) if more else own(
            "timestamp", nothing, both)
        for name, change in (("in another order", of_role("timestamp", both[::-1])),
                             ("with another threshold", of_role("timestamp", both, 2))):
            replaced = before | root(change) | signed
            yield "none", "%s new Root has the keys of the Timestamp %s" % (
                whose, name), yes, replaced, {}
            yield "rollback", "the same: the version of the Timestamp isn't forgotten" + (
                " (%s, %s)" % (repository, name)), no, replaced, greater(timestamp=99)


def of_root_keys(it: Chain) -> Cases:
    """A second Root that isn't of the form of a Root, though enough other keys sign all files."""
    no, roots = "refused", FIRST["director"]["root"]["keys"]
    spare = FIRST["director"]["targets"]["keys"][2]
    told, signed = it.reply(root=2), it.director("targets", nothing,
                                                 FIRST["director"]["targets"]["keys"][:2], root=2)
    other_method = other_method_of(SCHEME)
    cases = [("a key of another method",
              of_key(spare, lambda name, it: (name, it | {"method": other_method}))),
             ("a key under another name", of_key(spare, lambda name, it: (64 * "0", it)))]
    if SCHEME is HmacSha256:
        cases += [("a key that shows a public part",
                   of_key(spare, lambda name, it: (name, it | {"public": spare})))]
    else:
        point = (1).to_bytes(32, "little"), (ed25519.P + 1).to_bytes(32, "little")
        cases += [
            ("a key in upper case",
             of_key(spare, lambda name, it: (name, it | {"public": it["public"].upper()}))),
            ("a key of 31 bytes",
             of_key(
                 spare, lambda name, it: (key_identifier(bytes.fromhex(it["public"][:62])), it | {
                     "public": it["public"][:62]}))),
            ("a key with y not below p",
             of_key(spare, lambda name, it:
                    (key_identifier(point[1]), it | {"public": point[1].hex()})))]
    for name, change in cases:
        yield "arbitrary software", "a Root with %s, though enough others sign" % name, no, it.root(
            change, roots) | signed, {}
    stranger = of_role("targets", [key(0x99)])

    def of_no_role(signed: dict[str, Any]) -> None:
        known = copy.deepcopy(signed)
        stranger(known)
        signed["keys"] |= known["keys"]

    def listed(**more: int) -> Callable[..., Any]:
        return lambda signed: signed["roles"]["targets"].update(more)

    yield "arbitrary software", "a Root that is an empty object", no, {
        "director/2.root.json": "{}"} | told, {}
    yield "arbitrary software", "a Root with a key of no role", no, it.root(of_no_role,
                                                                            roots) | told, {}
    yield "arbitrary software", "a Root that lists a key which it hasn't", no, it.root(
        lambda signed: signed["roles"]["targets"]["keyids"].append(64 * "0"), roots) | told, {}
    name = "a Root that lists a key of a role twice, though enough sign"
    yield "arbitrary software", name, no, it.root(
        lambda signed: signed["roles"]["targets"]["keyids"].append(signed["roles"]["targets"][
            "keyids"][0]), roots) | told, {}
    name = "a Root with a threshold of 0, and Targets under another role's key"
    yield "too few signatures", name, no, it.root(listed(threshold=0), roots) | it.director(
        "targets", nothing, one_key("snapshot"), root=2), {}

    def above(signed: dict[str, Any]) -> None:
        return signed["roles"]["timestamp"].update(threshold=2)

    last = it.root(nothing, roots, number=2)["director/2.root.json"]
    third = canonical(resigned(json.loads(last), members(version=3), roots))
    yield "none", "two new Roots", "accepted", {
        "director/2.root.json": last, "director/3.root.json": third} | it.reply(root=3), {}
    yield "too few signatures", ("the first of two new Roots has a threshold above the number of "
                                 "the role's keys"), no, it.root(above, roots) | {
                                     "director/3.root.json": third} | it.reply(root=3), {}
    passed = it.root(members(expires=moment(NOW)), roots)
    name = "the first of two new Roots has expired, and the latest hasn't"
    yield "none", name, "accepted", passed | {"director/3.root.json": third} | it.reply(root=3), {}
    yield "none", "the trusted Root has expired, and the latest hasn't", "accepted", it.root(
        members(expires=moment(NOW)), roots, number=1) | {"director/2.root.json": last} | told, {}
    own = FIRST["image"]["root"]["keys"]
    again = it.root(nothing, own, "image")
    name = "the Image repository's trusted Root has expired, and the latest hasn't"
    yield "none", name, "accepted", it.root(members(expires=moment(NOW)), own, "image",
                                            1) | again, {}
    later = canonical(resigned(json.loads(again["image/2.root.json"]), members(version=3), own))
    yield "none", ("the first of two new Roots of the Image repository has expired, and the latest "
                   "hasn't"), "accepted", it.root(members(expires=moment(NOW)), own, "image") | {
                       "image/3.root.json": later}, {}


def of_image_rotation(it: Chain) -> Cases:
    """The cases of the Image repository's second Root."""
    yes, no = "accepted", "refused"
    first, second = ROOTS["image"]

    def root(change: Callable[..., Any], keys: list[str]) -> dict[str, str]:
        return it.root(change, keys, "image")

    name = "versions of the Image repository's files whose keys were replaced are forgotten"
    yield "none", name, yes, {}, trusted("image", timestamp=99, snapshot=99)
    yield "none", "so is that of its Targets", yes, {}, trusted("image", targets=99)
    yield "freeze", "the Image repository's new Root is kept back", no, {
        "image/2.root.json": None}, {}
    for name, keys in (("that the old keys didn't sign",
                        second), ("that its own keys didn't sign",
                                  first), ("by one of two old keys", second + first[:1]),
                       ("by one of its own two keys", second[:1] + first)):
        yield "too few signatures", "the Image repository's Root " + name, no, root(nothing,
                                                                                    keys), {}
    of_others: list[tuple[str, str, dict[str, Any]]] = [("rollback", "of a later version", {
        "version": 3}), ("rollback", "of version 1", {"version": 1}),
                                                        ("arbitrary software", "of the Director", {
                                                            "repository": "director"}),
                                                        ("arbitrary software", "of another type", {
                                                            "type": "targets"})]
    for attack, name, more in of_others:
        yield attack, "a Root %s in place of the Image repository's" % name, no, root(
            members(**more), second + first), {}
    yield "freeze", "the Image repository's new Root has expired", no, root(
        members(expires=moment(NOW)), second + first), {}


def of_rotation(it: Chain) -> Cases:
    """The cases after a rotation, of a vehicle that trusts root version 1 of both repositories."""
    yes, no, old = "accepted", "refused", "old"
    first, second = BOTH_ROOTS
    by_both = second + first
    yield "none", "as it is", yes, {}, {}
    yield "none", "versions of files whose keys were replaced are forgotten", yes, {}, trusted(
        "director", timestamp=99, snapshot=99)
    yield "none", "so is that of Targets", yes, {}, trusted("director", targets=99)
    yield "rollback", "the reply to a manifest before it", old, {"reply": it.old}, {}
    yield "freeze", "the new Root is kept back", no, {"director/2.root.json": None}, {}
    yield "too few signatures", "a Root that the old keys didn't sign", no, it.root(
        nothing, second), {}
    yield "too few signatures", "a Root that its own keys didn't sign", no, it.root(nothing,
                                                                                    first), {}
    yield "too few signatures", "a Root by one of two old keys", no, it.root(
        nothing, second + first[:1]), {}
    yield "too few signatures", "a Root by one of its own two keys", no, it.root(
        nothing, second[:1] + first), {}
    yield "a key twice", "a Root by one of two old keys, twice", no, it.root(
        nothing, second + 2 * first[:1]), {}

    def twice(signed: dict[str, Any]) -> None:
        return signed["roles"]["root"].update(keyids=2 * signed["roles"]["root"]["keyids"][:1])

    name = "a Root that lists one of its keys twice, and isn't signed by the other"
    yield "a key twice", name, no, it.root(twice, second[:1] + first), {}
    yield "a key twice", "a Root that lists one key under two names", no, two_names(
        it, second, first), {}
    yield "rollback", "a Root of a later version in its place", no, it.root(
        members(version=3), by_both), {}
    yield "rollback", "a Root of version 1 in its place", no, it.root(members(version=1),
                                                                      by_both), {}
    yield "arbitrary software", "the Image repository's Root in its place", no, it.root(
        members(repository="image"), by_both), {}
    yield "arbitrary software", "a file of another type in its place", no, it.root(
        members(type="targets"), by_both), {}
    yield "freeze", "the new Root has expired", no, it.root(members(expires=moment(NOW)),
                                                            by_both), {}


def two_names(it: Chain, own: list[str], before: list[str]) -> dict[str, str]:
    """The second Root whose root keys are one key and that key under another name, signed under
    both names and by the Root before.
    """
    other, name = 64 * "0", key_identifier(bytes.fromhex(public(own[0])))

    def change(signed: dict[str, Any]) -> None:
        signed["keys"][other] = signed["keys"][name]
        signed["roles"]["root"]["keyids"] = [name, other]

    made = json.loads(it.root(change, own[:1] + before)["director/2.root.json"])
    made["signatures"].insert(1, made["signatures"][0] | {"keyid": other})
    return {"director/2.root.json": canonical(made)}


VEHICLE: dict[str, Any] = {
    "vehicle": "VIN-1", "primary": "gw", "ecus": [{
        "ecu": ecu, "hardware": kind,
        "installed": image_of("gateway-1.bin" if kind == "GW" else "brake-1.bin") | {"release": 1}}
                                                  for ecu, (kind, _) in ECUS["VIN-1"].items()]}
INSTALLS = {"gw": "gateway-2.bin", "left": "brake-2.bin", "right": "brake-2.bin"}

CASES: dict[str, tuple[Callable[[Chain], Cases], ...]] = {
    "update": (of_update, signed_otherwise, of_forms, of_new_roots, of_root_keys),
    "rotation": (of_rotation, of_image_rotation)}


def bases() -> dict[str, Chain]:
    return {"update": Chain(False), "rotation": Chain(True)}


def chains(made: dict[str, Chain], more_cases: dict[str, tuple[Callable[[Chain], Cases],
                                                               ...]]) -> Iterator[dict[str, Any]]:
    """The cases over these bases. Beside each verdict stands what the vehicle trusts then, which
    `verification` computes.
    """
    for base, it in made.items():
        for attack, name, verdict, replaced, more in (
                one for cases in (*CASES[base], *more_cases[base]) for one in cases(it)):
            assert not replaced or any(
                it.files.get(file) != text for file, text in replaced.items()), name
            yield {"base": base, "attack": attack, "name": name, "verdict": verdict
                   } | ({"replace": replaced} if replaced else {}) | more


def contents() -> Iterator[dict[str, Any]]:
    name = "gateway-2.bin"
    told, content = image_of(name), CONTENT[name]
    yield {"name": "the image", "target": told, "content": content, "verdict": "accepted"}
    yield {
        "name": "one byte more: endless data", "target": told, "content": content + "!",
        "verdict": "refused"}
    yield {"name": "one byte less", "target": told, "content": content[:-1], "verdict": "refused"}
    yield {
        "name": "another byte", "target": told, "content": content.replace("2", "3", 1),
        "verdict": "refused"}
    yield {
        "name": "another length, and the right hashes", "target": told | {"length": 1},
        "content": content, "verdict": "refused"}
    yield {
        "name": "another SHA-256",
        "target": told | {"hashes": told["hashes"] | {"sha256": 64 * "0"}}, "content": content,
        "verdict": "refused"}
    yield {
        "name": "another SHA-512",
        "target": told | {"hashes": told["hashes"] | {"sha512": 128 * "0"}}, "content": content,
        "verdict": "refused"}
    yield {
        "name": "no SHA-512", "target": told | {"hashes": {"sha256": told["hashes"]["sha256"]}},
        "content": content, "verdict": "accepted"}
