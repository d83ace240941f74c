"""More test vectors of chains: what needs no key or one key alone, files of another form, and what
a vehicle knows of its ECUs. Each has one thing wrong, and is signed correctly otherwise."""
import json
from collections.abc import Callable
from typing import Any

from uptane_tools.oracle import ed25519
from uptane_tools.oracle.reference import SCHEME, canonical, moment
from uptane_tools.oracle.schemes import Ed25519, HmacSha256, key_identifier, other_method_of
from uptane_tools.oracle.vector_chains import (Cases, Chain, members, nothing, of_key, of_role,
                                               resigned, target, trusted)
from uptane_tools.oracle.vector_fleet import (DAY, FIRST, NOW, SECOND, digest, image_of, public,
                                              unhex)

YES, NO, OLD = "accepted", "refused", "old"
GATEWAY = "gateway-2.bin"
INSTALLED = {"gw": GATEWAY, "left": "brake-2.bin", "right": "brake-2.bin"}
OF = {"director": "the Director's", "image": "the Image repository's"}
ROLES = ("timestamp", "snapshot", "targets")


def spliced(it: Chain, *roles: str) -> dict[str, str]:
    """The reply with these files of another vehicle's, as the Director signed them."""
    other = json.loads(it.other)
    return {
        "reply": canonical(json.loads(it.files["reply"]) | {role: other[role] for role in roles})}


def of_splices(it: Chain) -> Cases:
    """What someone between the vehicle and the service can put together without any key."""
    kind = "mix and match"
    for roles in (("targets", ), ("snapshot", ), ("timestamp", ), ("timestamp", "snapshot")):
        name = " and ".join(role.capitalize() for role in roles)
        yield kind, "another vehicle's %s in this one's reply" % name, NO, spliced(it, *roles), {}
    others = {"vehicle": "VIN-2"}
    whose = "Targets for this vehicle's ECUs that name another vehicle"
    yield kind, whose, NO, it.director("targets", members(**others)), {}
    empty = it.director("targets", members(targets=[], **others))
    yield kind, "another vehicle's Targets, to which nothing is assigned", NO, empty, {}
    yield kind, "a Snapshot for another vehicle", NO, it.director("snapshot", members(**others)), {}
    yield kind, "the Director's Timestamp of the Image repository's Snapshot", NO, of_other(it), {}
    for repository, other in (("director", "image"), ("image", "director")):
        change = members(repository=other, vehicle="VIN-1")
        for role in ROLES if repository == "image" else ROLES[:2]:
            words = OF[repository], role.capitalize()
            made = getattr(it, repository)(role, change)
            what = "%s %s says it is of the other repository" % words
            yield "arbitrary software", what, NO, made, {}
    for repository in OF:
        for role, other in (("timestamp", "snapshot"), ("snapshot", "timestamp")):
            made = getattr(it, repository)(role, members(type=other))
            what = "%s %s says it is a %s" % (OF[repository], role.capitalize(), other)
            yield "arbitrary software", what, NO, made, {}


def of_other(it: Any) -> dict[str, str]:
    """The reply whose Timestamp is the Image repository's own."""
    own = json.loads(it.files["image/timestamp.json"])
    return {"reply": canonical(json.loads(it.files["reply"]) | {"timestamp": own})}


def numbered(it: Any, version: int) -> dict[str, str]:
    """The reply whose files are all of one version."""

    def change(signed: dict[str, Any]) -> None:
        signed["version"] = version
        for named in signed.get("meta", {}).values():
            named["version"] = version

    told, keys = json.loads(it.files["reply"]) | {"version": version}, it.keys["director"]
    for role in ("targets", "snapshot", "timestamp"):
        told[role] = resigned(told[role], change, keys[role]["keys"])
        if role == "timestamp":
            hashes = {"sha256": digest(canonical(told["snapshot"]))}

            def name(signed: dict[str, Any]) -> None:
                return signed["meta"]["snapshot.json"].update(hashes=hashes)

            told[role] = resigned(told[role], name, keys[role]["keys"])
    return {"reply": canonical(told)}


def both(it: Chain, **more: Any) -> dict[str, str]:
    """The gateway's image with other members in both repositories."""

    def change(signed: dict[str, Any]) -> None:
        for one in signed["targets"]:
            if one["file"] == GATEWAY:
                one.update(more)

    return it.director("targets", change) | it.image("targets", change)


def of_images(it: Chain) -> Cases:
    """The two repositories agree on an image, whose form may be wrong."""
    two = image_of(GATEWAY)["hashes"]
    first, second = {"sha256": two["sha256"]}, two["sha512"]
    kind = "arbitrary software"
    for name, verdict, more in [("a filename of 128 characters", YES, {"file": 128 * "g"}),
                                ("a filename of 129 characters", NO, {"file": 129 * "g"}),
                                ("an empty filename", NO, {"file": ""}),
                                ("a filename with a space", NO, {"file": "gateway 2.bin"}),
                                ("a SHA-256 in upper case", NO, {
                                    "hashes": two | {"sha256": two["sha256"].upper()}}),
                                ("a SHA-256 of 63 digits", NO, {
                                    "hashes": two | {"sha256": two["sha256"][1:]}}),
                                ("no SHA-256", NO, {"hashes": {"sha512": second}}),
                                ("a SHA-512 in upper case, which counts as none", YES, {
                                    "hashes": first | {"sha512": second.upper()}}),
                                ("a hash of a function that nobody knows", YES, {
                                    "hashes": two | {"md5": "00"}}),
                                ("a length that is a text", NO, {"length": "21"}),
                                ("a length of 2^53", NO, {"length": 2**53}),
                                ("a length below 0", NO, {"length": -1}),
                                ("a length with a fraction", NO, {"length": 21.5}),
                                ("a release that is a text", NO, {"release": "2"}),
                                ("no hardware", NO, {"hardware": []}),
                                ("hardware that is a text", NO, {"hardware": "GW"}),
                                ("hardware twice", NO, {"hardware": ["GW", "GW"]}),
                                ("the ECU's hardware as the second", YES, {
                                    "hardware": ["BR", "GW"]}),
                                ("16 kinds of hardware", YES, {
                                    "hardware": ["GW", *map(str, range(15))]}),
                                ("17 kinds of hardware", NO, {
                                    "hardware": ["GW", *map(str, range(16))]}),
                                ("an ECU whose name has 65 characters", NO, {"ecu": 65 * "g"})]:
        more_of = {"installs": INSTALLED
                   | {"gw": more["file"]}} if verdict == YES and "file" in more else {}
        attack = kind if verdict == NO else "none"
        yield attack, "both repositories have %s" % name, verdict, both(it, **more), more_of
    name = "the Image repository lacks the SHA-512"
    lacks = it.image("targets", lambda signed: target_named(signed).update(hashes=first))
    yield "mix and match", name, NO, lacks, {}
    name = "the Director has a SHA-512 in upper case, which counts as none"
    yield "mix and match", name, NO, it.director("targets",
                                                 target(hashes=first
                                                        | {"sha512": second.upper()})), {}
    ordered = it.director("targets", target(hardware=["GW", "BR"]))
    ordered |= it.image("targets",
                        lambda signed: target_named(signed).update(hardware=["BR", "GW"]))
    yield "mix and match", "the repositories have the hardware in another order", NO, ordered, {}


def target_named(signed: dict[str, Any]) -> dict[str, Any]:
    return next(it for it in signed["targets"] if it["file"] == GATEWAY)


def of_files(it: Chain) -> Cases:
    """Files of another form than FORMATS has."""
    kind = "arbitrary software"
    yield kind, "files of version 0", NO, numbered(it, 0), {}
    yield kind, "files of version 2^53", NO, numbered(it, 2**53), {}
    name = "the Image repository's Timestamp is of version 0"
    yield kind, name, NO, it.image("timestamp", members(version=0)), {}
    yield "none", "files of the greatest version", YES, numbered(it, 2**53 - 1), {}

    def upper(signed: dict[str, Any]) -> None:
        return (signed["meta"]["snapshot.json"]["hashes"].update(
            sha256=signed["meta"]["snapshot.json"]["hashes"]["sha256"].upper()))

    for repository in OF:
        name = "%s Timestamp has the Snapshot's SHA-256 in upper case" % OF[repository]
        yield kind, name, NO, getattr(it, repository)("timestamp", upper), {}
    for text in ("2026-01-08T00:00:00", "2026-01-08T00:00:00+00:00", "2026-02-30T00:00:00Z",
                 "2026-01-08T24:00:00Z", "2026-01-07T23:60:00Z", "2026-01-07T23:59:60Z",
                 "1969-12-31T23:59:59Z"):
        yield kind, "Targets that expire at %s" % text, NO, it.director(
            "targets", members(expires=text)), {}
    yield kind, "Targets that expire at a number", NO, it.director("targets",
                                                                   members(expires=NOW + DAY)), {}

    def deep(levels: int) -> list[list[list[list]]]:
        return json.loads(levels * "[" + levels * "]")

    yield "none", "a member of 15 levels", YES, it.director("targets", members(more=deep(15))), {}
    yield kind, "a member of 16 levels, in what is signed", NO, it.director(
        "targets", members(more=deep(16))), {}
    yield kind, "a member with a fraction", NO, it.director("targets", members(more=1.5)), {}
    yield kind, "a member that isn't ASCII", NO, it.director("targets", members(more="\u00e9")), {}
    own = json.loads(it.files["reply"])["targets"]["signed"]
    for name, verdict, first, last in [
        ("the last of which is signed", YES, own | {"version": 9}, own),
        ("the first of which is signed", NO, own, own | {"more": 1})]:
        two = '"signed":%s,"signed":%s' % (canonical(first), canonical(last))
        replaced = {"reply": it.files["reply"].replace('"signed":' + canonical(own), two)}
        yield (kind if verdict == NO else
               "none"), "Targets with two members `signed`, %s" % name, verdict, replaced, {}
    twice = it.files["reply"].replace(
        '{"root":1,', '{"targets":%s,"root":1,' % canonical(json.loads(it.other)["targets"]))
    yield "none", "a reply with two members `targets`, the last of which is the vehicle's", YES, {
        "reply": twice}, {}
    for name in ("vehicle", "root", "version", *ROLES):
        lacks = json.loads(it.files["reply"])
        del lacks[name]
        yield kind, "a reply without %s" % name, NO, {"reply": canonical(lacks)}, {}
    yield kind, "a reply whose version is a text", NO, it.reply(version="1"), {}
    snapshot = it.files["image/snapshot.json"]

    def named(text: str) -> Callable[..., Any]:
        hashes = {"sha256": digest(text)}
        return lambda signed: signed["meta"]["snapshot.json"].update(hashes=hashes)

    ends = {"image/snapshot.json": snapshot + "\n"}
    yield "none", ("the Image repository's Snapshot ends in a newline, and the Timestamp has the "
                   "SHA-256 of that text"), YES, ends | it.image("timestamp",
                                                                 named(snapshot + "\n")), {}
    yield "mix and match", ("the Image repository's Snapshot ends in a newline, which its "
                            "Timestamp doesn't know"), NO, ends, {}


def of_signatures(it: Chain) -> Cases:
    """Other signatures of the Director's Targets, whose first two of three keys sign enough."""
    told = json.loads(it.files["reply"])
    own = told["targets"]["signatures"][:2]

    def signed(*signatures: dict[str, str]) -> dict[str, str]:
        return {
            "reply": canonical(told | {"targets": told["targets"] | {"signatures": [*signatures]}})}

    strange = own[0] | {"keyid": 64 * "0"}
    kind = "too few signatures"
    other = other_method_of(SCHEME)
    yield "none", "eight signatures, six of them of strangers", YES, signed(*own,
                                                                            *6 * [strange]), {}
    yield "arbitrary software", "nine signatures", NO, signed(*own, *7 * [strange]), {}
    yield "none", "signatures in upper case", YES, signed(
        *(one | {"sig": one["sig"].upper()} for one in own)), {}
    yield kind, "an identifier in upper case", NO, signed(
        own[0], own[1] | {"keyid": own[1]["keyid"].upper()}), {}
    yield kind, "a signature that names another method", NO, signed(own[0],
                                                                    own[1] | {"method": other}), {}
    yield "arbitrary software", "a signature without a method", NO, signed(
        *own, {"keyid": "0", "sig": "00"}), {}
    yield "arbitrary software", "a signature of an odd number of digits", NO, signed(
        *own, strange | {"sig": "000"}), {}
    if SCHEME is Ed25519:
        text = canonical(told["targets"]["signed"]).encode()
        by_public = [{
            "keyid": key_identifier(it), "method": HmacSha256.method, "sig": HmacSha256.sign(
                it, text).hex()} for it in unhex(map(public, FIRST["director"]["targets"]["keys"]))]
        name = "tags of HMAC-SHA-256 under the public keys, which anyone can make"
        yield "arbitrary software", name, NO, signed(*by_public[:2]), {}


def of_ecus(it: Chain) -> Cases:
    """What a vehicle knows of its ECUs."""

    def of(**gateway: Any) -> dict[str, Any]:
        return {"installed": {"gw": gateway}}

    yield "none", "the gateway has this release already", YES, {}, of(release=2)
    yield "none", "the gateway doesn't know its release", YES, {}, of(release=None)
    name = "the reply is from before an ECU was replaced, which it names"
    yield "none", name, OLD, {}, {"replaced": {"left": "left-2"}}
    name = "an ECU was replaced, and the reply names one that the vehicle never had"
    yield "wrong ECU", name, NO, it.director("targets", target(ecu="solo")), {
        "replaced": {"left": "left-2"}}
    empty = it.director("targets", members(targets=[]))
    yield "none", "an ECU was replaced, and nothing is assigned", YES, empty, {
        "installs": {}, "replaced": {"left": "left-2"}}
    yield "none", "nothing is assigned, a second before the files expire", YES, empty, {
        "installs": {}, "now": NOW + 7 * DAY - 1}
    yield "none", "a second before the Image repository's Timestamp expires", YES, {}, {
        "now": NOW + DAY - 1}
    yield "freeze", "the second at which it expires", NO, {}, {"now": NOW + DAY}


def of_forgetting(it: Chain) -> Cases:
    """A second Root that gives one role other keys, of a vehicle that has verified greater
    versions.
    """
    for repository, whose in OF.items():
        first = FIRST[repository]
        own = getattr(it, repository)
        roots = first["root"]["keys"]
        more = {"root": 2} if repository == "director" else {}
        told = it.reply(**more) if more else {}

        def greater(**versions: int) -> dict[str, Any]:
            return trusted(repository, **versions)

        kept = it.root(nothing, roots, repository) | told
        name = "%s new Root has the same keys: the version of Targets isn't forgotten" % whose
        yield "rollback", name, NO, kept, greater(targets=99)
        others = SECOND[repository]["targets"]["keys"][:1]
        change = it.root(of_role("targets", others), roots, repository) | own(
            "targets", nothing, others, **more)
        name = "%s new Root has another key of Targets alone: the version of %s %s"
        yield "none", name % (whose, "Targets", "is forgotten"), YES, change, greater(targets=99)
        for role in ("timestamp", "snapshot"):
            yield "rollback", name % (whose, role.capitalize(), "isn't"), NO, change, greater(
                **{role: 99})
        others = SECOND[repository]["timestamp"]["keys"]
        change = it.root(of_role("timestamp", others), roots, repository) | own(
            "timestamp", nothing, others, **more)
        name = ("%s new Root has another key of the Timestamp alone: the version of Targets isn't "
                "forgotten")
        yield "rollback", name % whose, NO, change, greater(targets=99)
        other = next(one for one in OF if one != repository)
        name = ("%s new Root has another key of the Timestamp: the other repository's version "
                "isn't forgotten")
        yield "rollback", name % whose, NO, change, trusted(other, timestamp=99)
        # (it was verified, so it stays, with what it makes forgotten)
        name = "%s new Root has another key of the Timestamp, and its Targets have expired"
        late = own("targets", members(expires=moment(NOW)), **more)
        if repository == "director":
            signed = json.loads(late["reply"]) | {
                "timestamp": json.loads(change["reply"])["timestamp"]}
            late = {"reply": canonical(signed)}
        verdict = OLD if repository == "director" else NO
        yield "freeze", name % whose, verdict, change | late, greater(timestamp=99)


def of_more_roots(it: Chain) -> Cases:
    """Roots of another form, though enough other keys sign all files."""
    roots, kind = FIRST["director"]["root"]["keys"], "arbitrary software"
    told = it.reply(root=2)
    spare = FIRST["director"]["targets"]["keys"]

    def root(change: Callable[..., Any]) -> dict[str, str]:
        return it.root(change, roots) | told

    more = SECOND["director"]["targets"]["keys"]
    four, five = [*spare, *more[:1]], [*spare, *more[:2]]
    yield "none", "a Root with four keys of a role", YES, root(of_role("targets", four, 2)), {}
    yield kind, "a Root with five keys of a role", NO, root(of_role("targets", five, 2)), {}
    yield "none", "a Root with a member that nobody knows", YES, root(members(more=1)), {}
    yield kind, "a Root without the role Snapshot", NO, root(lambda signed: signed["roles"].pop(
        "snapshot")), {}

    def threshold(value: str) -> Callable[..., Any]:
        return lambda signed: signed["roles"]["targets"].update(threshold=value)

    yield kind, "a Root with a threshold that is a text", NO, root(threshold("2")), {}
    yield kind, "a Root that expires in another form", NO, root(members(expires="2027-01-01")), {}
    good = it.root(nothing, roots)
    second = json.loads(good["director/2.root.json"])
    bad = canonical(resigned(second, members(version=3, repository="image"), roots))
    name = "the second of two new Roots is another's: the first stays"
    yield kind, name, NO, good | {"director/3.root.json": bad} | it.reply(root=3), {}
    if SCHEME is Ed25519:
        none = next(it for it in (n.to_bytes(32, "little") for n in range(2, 99))
                    if ed25519.decode(it) is None)
        parts, signed = map(ed25519.decode, ed25519.small_points()), it.director(
            "targets", nothing, spare[:2], root=2)
        kinds = {
            "is no point": none, "is the neutral point": ed25519.small_points()[0],
            "is a point of order 4": bytes(32), "has a part of small order": ed25519.encode(
                ed25519.add(ed25519.BASE, [*parts][1]))}
        for name, other in kinds.items():
            named = of_key(
                spare[2], lambda name, it, other=other:
                (key_identifier(other), it | {"public": other.hex()}))
            name = "a Root with a key that %s, though enough others sign" % name
            yield kind, name, NO, it.root(named, roots) | signed, {}


CASES = {
    "update": (of_splices, of_images, of_files, of_signatures, of_ecus, of_forgetting,
               of_more_roots), "rotation": ()}
