"""Test vectors of chains that a thief of the server makes, who has the keys by which it signs each
day: not those of the Roots, nor of the Image repository's Targets. And how the Roots mend it.
"""
import json
from collections.abc import Callable
from typing import Any

from uptane_tools.operate.formats import MOST
from uptane_tools.oracle.vector_chains import Cases, Chain, members, nothing, of_role
from uptane_tools.oracle.vector_fleet import FIRST, SECOND, digest, key
from uptane_tools.oracle.vector_verdicts import behind

YES, NO = "accepted", "refused"
DIRECTOR, IMAGE = ("targets", "snapshot", "timestamp"), ("snapshot", "timestamp")
# what he has, and a key of his own
STOLEN = [
    it for repository, roles in (("director", DIRECTOR), ("image", IMAGE)) for role in roles
    for it in FIRST[repository][role]["keys"]]
OWN = key(0x99)
EVIL = {
    "file": "evil.bin", "hardware": ["GW"], "hashes": {"sha256": digest("evil")}, "length": 4,
    "release": 1000}


def each(*changes: Callable[..., Any]) -> Callable[..., Any]:
    """These changes, one behind the other."""

    def change(signed: dict[str, Any]) -> None:
        for it in changes:
            it(signed)

    return change


def first_is(target: dict[str, Any]) -> Callable[..., Any]:
    """The gateway gets this image, and no other ECU one."""
    return lambda signed: signed.update(targets=[target | {"ecu": "gw"}])


def directed(it: Chain, keys: Any, change: Callable[..., Any], version: int = 0,
             root: int = 1) -> dict[str, str]:
    """The reply after a change of Targets, all files of it signed by these keys, and of a version
    where one is given.
    """
    of = members(**({"version": version} if version else {}))
    meta = members(**({"meta": {"targets.json": {"version": version}}} if version else {}))
    more: dict[str, Any] = {"root": root} | ({"version": version} if version else {})
    it = behind(it, it.director("targets", each(change, of), keys["targets"]["keys"], **more))
    it = behind(it, it.director("snapshot", each(of, meta), keys["snapshot"]["keys"]))
    return it.director("timestamp", of, keys["timestamp"]["keys"])


def listing(it: Chain, change: Callable[..., Any], keys: list[str], version: int,
            by: Any = FIRST["image"]) -> dict[str, str]:
    """The Image repository's Targets after a change, signed by these keys, and a Snapshot that
    names their version, with its Timestamp.
    """
    found = it.image("targets", each(change, members(version=version)), keys)
    return found | stamped(it, version, by=by)


def stamped(it: Chain, targets: int, version: int = 0, by: Any = FIRST["image"]) -> dict[str, str]:
    """A Snapshot that names Targets of this version, and its Timestamp, of a version where one is
    given.
    """
    of = members(**({"version": version} if version else {}))
    meta = members(meta={"targets.json": {"version": targets}})
    it = behind(it, it.image("snapshot", each(of, meta), by["snapshot"]["keys"]))
    found = {"image/snapshot.json": it.files["image/snapshot.json"]}
    return found | it.image("timestamp", of, by["timestamp"]["keys"])


def version_of(it: Chain) -> int:
    return json.loads(it.files["image/targets.json"])["signed"]["version"]


def stolen_server(it: Chain) -> Cases:
    """What he tries, and what he can do."""
    kind, first, listed = "arbitrary software", FIRST["director"], version_of(it)
    whole = json.loads(it.files["image/targets.json"])["signed"]["targets"]
    of_evil = directed(it, first, first_is(EVIL))
    lists = members(targets=[*whole, EVIL])
    name = "a thief of the server lists an image, by all keys that he has"
    yield kind, name, NO, of_evil | listing(it, lists, STOLEN, listed + 1), {}
    name = "a thief of the server makes an Image Root with a key of Targets of his own"
    root = it.root(of_role("targets", [OWN]), [*STOLEN, OWN], "image")
    yield kind, name, NO, of_evil | root | listing(it, lists, [OWN], listed + 1), {}
    name = "a thief of the server makes the Director's Root with root keys of his own"
    root = it.root(of_role("root", [OWN]), [*STOLEN, OWN])
    yield kind, name, NO, root | directed(it, first, nothing, root=2), {}
    name = "a thief of the server brings back Targets that the Image repository had"
    yield "rollback", name, NO, listing(it, nothing, it.keys["image"]["targets"]["keys"],
                                        listed - 1), {"trusted": {"image": {"targets": listed}}}
    name = "a thief of the server assigns a listed image alone, whatever the campaign says"
    gateway = next(one for one in whole if one["file"] == "gateway-2.bin")
    yield "none", name, YES, directed(it, first, first_is(gateway)), {
        "installs": {"gw": "gateway-2.bin"}}


def raised(it: Chain) -> Cases:
    """He raises the versions of his roles to the greatest, and what mends it."""
    listed = version_of(it)
    most: dict[str, Any] = {
        "trusted": {
            "director": dict.fromkeys(DIRECTOR, MOST),
            "image": dict.fromkeys(IMAGE, MOST) | {"targets": listed}}}
    by_him = directed(it, FIRST["director"], nothing, MOST) | stamped(it, listed, MOST)
    name = "a thief of the server makes files of the greatest versions"
    yield "none", name, YES, by_him, {}
    name = "a thief of the server has made files of the greatest versions, and the server's come"
    yield "rollback", name, NO, {}, most
    second = SECOND["director"], SECOND["image"]
    roots = it.root(each(*(of_role(role, second[0][role]["keys"]) for role in DIRECTOR)),
                    FIRST["director"]["root"]["keys"])
    roots |= it.root(each(*(of_role(role, second[1][role]["keys"]) for role in IMAGE)),
                     FIRST["image"]["root"]["keys"], "image")
    mended = roots | directed(it, second[0], nothing, root=2) | stamped(it, listed, by=second[1])
    name = "the same, and Roots with other keys of all his roles: his versions are forgotten"
    yield "none", name, YES, mended, most
    name = "Roots with other keys of all roles that a thief of the server had, and files of his"
    yield "arbitrary software", name, NO, roots | directed(it, FIRST["director"], nothing, MOST,
                                                           2), {}
    name = "the same, and only the Image repository's are his"
    yield "arbitrary software", name, NO, mended | stamped(it, listed, MOST), {}
    name = "the same, of the Director alone: the Image repository's versions aren't forgotten"
    alone = {name: text for name, text in mended.items() if not name.startswith("image/")}
    yield "rollback", name, NO, alone, most


CASES = {"update": (stolen_server, raised), "rotation": ()}
