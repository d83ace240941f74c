"""More test vectors of chains: which of several faults decides, what is judged of Roots that are
trusted, and what isn't a fault. Those of `of_order` and `of_old_replies` have several things wrong.
"""
import copy
import json
from typing import Any

from uptane_tools.oracle.reference import SCHEME, canonical, moment
from uptane_tools.oracle.schemes import Ed25519, other_method_of
from uptane_tools.oracle.vector_chains import (BOTH_ROOTS, Cases, Chain, members, nothing, of_key,
                                               of_role, one_key, resigned, trusted)
from uptane_tools.oracle.vector_fleet import DAY, FIRST, NOW, key

YES, NO, OLD = "accepted", "refused", "old"
EXPIRED = {"expires": moment(NOW)}
OTHER_METHOD = other_method_of(SCHEME)
REPLACED = {"replaced": {"left": "left-2"}}


def behind(it: Chain, replaced: dict) -> Chain:
    """The chain with these texts in the place of its own."""
    found = copy.copy(it)
    found.files = it.files | replaced
    return found


def of_order(it: Chain) -> Cases:
    """Two faults: the first in the order of checks decides."""
    late, kind = it.director("timestamp", members(**EXPIRED)), "freeze"
    strange = it.keys["director"]["timestamp"]["keys"]
    name = "the Timestamp has expired, and Targets are signed by its key: the first decides"
    yield kind, name, OLD, behind(it, late).director("targets", nothing, strange), {}
    name = "the Timestamp has expired, and the reply is of another version: the first decides"
    yield kind, name, OLD, behind(it, late).reply(version=9), {}
    name = "the Timestamp has expired, and Targets are null: each file is read in its own turn"
    yield kind, name, OLD, behind(it, late).reply(targets=None), {}
    name = "the Timestamp has expired, and is for another vehicle: expiry is looked at last"
    yield kind, name, NO, it.director("timestamp", members(**EXPIRED, vehicle="VIN-2")), {}
    yield kind, "no time is known, and the Timestamp expires as 1970 begins", OLD, it.director(
        "timestamp", members(expires=moment(0))), {"now": 0}
    yield kind, "the Timestamp has expired, and is signed by another role's key", NO, it.director(
        "timestamp", members(**EXPIRED), one_key("snapshot")), {}
    yield kind, "the Timestamp has expired, and goes back to an older version", NO, late, trusted(
        "director", timestamp=2)
    yield kind, "the Snapshot has expired, and the Timestamp names another", NO, it.director(
        "snapshot", members(**EXPIRED), rehash=False), {}
    yield kind, "Targets have expired, and the Snapshot names another version", NO, it.director(
        "targets", members(**EXPIRED, version=3)), {}
    yield kind, "the reply is for another vehicle, and its Timestamp has expired", NO, behind(
        it, late).reply(vehicle="VIN-2"), {}
    both = REPLACED | {"now": NOW + 2 * DAY}
    name = "an ECU was replaced, and the Image repository's Timestamp has expired"
    yield kind, name, NO, {}, both

    def lacks(place: int) -> dict[str, str]:
        return it.director("targets", lambda signed: signed["targets"][place].update(file="no.bin"))

    kind = "wrong ECU"
    name = "an ECU was replaced, and the Image repository hasn't "
    yield kind, name + "its image: the ECU is looked at first", OLD, lacks(1), REPLACED
    yield kind, name + "the image of a target before it", NO, lacks(0), REPLACED
    yield kind, name + "the image of a target behind it", OLD, lacks(2), REPLACED
    own = json.loads(it.files["reply"])["targets"]["signed"]["targets"]
    many = [own[1], *(own[2] | {"ecu": "e%d" % at} for at in range(32))]
    name = "an ECU was replaced, and is the first of 33 targets: their number has no limit"
    yield kind, name, OLD, it.director("targets", members(targets=many)), REPLACED
    yield "none", "an ECU was replaced, and the reply names the one in its place", YES, it.director(
        "targets", lambda signed: signed["targets"][1].update(ecu="left-2")), REPLACED | {
            "installs": {"gw": "gateway-2.bin", "left-2": "brake-2.bin", "right": "brake-2.bin"}}


def with_others(text: str, *more: dict[str, str]) -> str:
    """The text of an envelope with more signatures before its own."""
    told = json.loads(text)
    return canonical(told | {"signatures": [*more, *told["signatures"]]})


def of_more_signatures(it: Chain) -> Cases:
    """Signatures that don't count, beside enough that do."""
    told = json.loads(it.files["reply"])["targets"]
    own, kind = told["signatures"], "none"
    wrong, other = own[2] | {"sig": own[0]["sig"]}, own[2] | {"method": OTHER_METHOD}

    def signed(*signatures: dict[str, str]) -> dict[str, str]:
        return it.reply(targets=told | {"signatures": [*signatures]})

    yield kind, "a third signature that is wrong", YES, signed(*own[:2], wrong), {}
    yield kind, "a third signature that names another method", YES, signed(*own[:2], other), {}
    before = own[0] | {"sig": own[1]["sig"]}
    yield kind, "a wrong signature of a key before its right one", YES, signed(before, *own[:2]), {}
    made = it.root(nothing, FIRST["director"]["root"]["keys"])["director/2.root.json"]
    first, second = json.loads(made)["signatures"]
    for name, one in (("that is wrong", second | {"sig": first["sig"]}),
                      ("that names another method", second | {"method": OTHER_METHOD})):
        yield kind, "a Root with a signature more, %s" % name, YES, {
            "director/2.root.json": with_others(made, one)} | it.reply(root=2), {}
    text = it.files["image/timestamp.json"]
    one = json.loads(text)["signatures"][0] | {"sig": first["sig"]}
    yield kind, "the Image repository's Timestamp with a wrong signature more", YES, {
        "image/timestamp.json": with_others(text, one)}, {}
    more = {"more": 1.5}
    name = "a member with a fraction beside what is signed"
    yield kind, name, YES, it.reply(targets=told | more), {}


def of_image_targets(it: Chain) -> Cases:
    """The Image repository's Targets in another order, and with a filename twice."""

    def twice(place: int) -> dict[str, str]:

        def change(signed: dict[str, Any]) -> None:
            one = next(it for it in signed["targets"] if it["file"] == "gateway-2.bin")
            signed["targets"].insert(place, one | {"release": 9})

        return it.image("targets", change)

    yield "none", "the Image repository's Targets in another order", YES, it.image(
        "targets", lambda signed: signed["targets"].reverse()), {}
    name = "the Image repository's Targets have a filename twice, and the %s is the image"
    yield "none", name % "last", YES, twice(0), {}
    yield "none", name % "first", YES, twice(99), {}


def of_trusted_roots(it: Chain) -> Cases:
    """What the trusted Root is, which nobody looks at again; and what has no limit."""
    roots, spare = FIRST["director"]["root"]["keys"], FIRST["director"]["targets"]["keys"][2]
    shown = of_key(spare, lambda name, it: (name, it | {"method": OTHER_METHOD}))
    name = "the trusted Root has a key of another method, and enough others sign"
    yield "none", name, YES, it.root(shown, roots, number=1), {}
    change = of_key(FIRST["director"]["timestamp"]["keys"][0], lambda _, it: (64 * "0", it))
    name = "the trusted Root has the Timestamp's key under another name: it counts for no signature"
    yield "too few signatures", name, NO, it.root(change, roots, number=1), {}
    own = it.root(members(version=64), roots, number=1)
    made = json.loads(own["director/1.root.json"])
    newer = {"director/65.root.json": canonical(resigned(made, members(version=65), roots))}
    name = "the trusted Root is of version 64, and there is a newer one"
    yield "none", name, YES, own | newer | it.reply(root=65), {}
    change = of_role("targets", [*FIRST["director"]["targets"]["keys"][:2], key(0x99)], 2)
    made = it.root(change, roots) | it.director("targets", nothing,
                                                FIRST["director"]["targets"]["keys"][:2], root=2)
    name = "a Root with a key that is new to the vehicle, and enough others sign"
    shows = SCHEME is Ed25519
    yield "none" if shows else "arbitrary software", name, YES if shows else NO, made, {}
    yield "none", "a reply of more than 65,536 bytes", YES, {
        "reply": it.files["reply"] + 65536 * " "}, {}
    whole = it.files["reply"].replace('{"root":1,', '{"root":1.0,')
    yield "arbitrary software", "a reply whose root is 1.0", NO, {"reply": whole}, {}


def of_old_replies(it: Chain) -> Cases:
    """The reply from before a rotation, with another fault."""
    old = json.loads(it.old)
    kind = "rollback"
    yield kind, "the reply to a manifest before it, for another vehicle", NO, {
        "reply": canonical(old | {"vehicle": "VIN-2"})}, {}
    yield kind, "the reply to a manifest before it, whose Targets are no envelope", OLD, {
        "reply": canonical(old | {"targets": {}})}, {}
    yield kind, "the reply to a manifest before it, and a Root that the old keys didn't sign", NO, {
        "reply": it.old} | it.root(nothing, BOTH_ROOTS[1]), {}
    told = json.loads(it.files["reply"])
    del told["version"]
    yield kind, "a reply without version: no newer Root is asked for", NO, {
        "reply": canonical(told)}, {}


CASES = {
    "update": (of_order, of_more_signatures, of_image_targets, of_trusted_roots),
    "rotation": (of_old_replies, ), }
