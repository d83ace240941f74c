"""The fleet of the test vectors: two vehicles, four images, a campaign, a rotation, and the
manifests that the vehicles send.
"""
import hashlib
import sqlite3
from collections.abc import Iterable
from contextlib import closing
from typing import Any

from uptane_tools.oracle import reference
from uptane_tools.oracle.reference import ROLES, SCHEME, canonical, moment, sealed

NOW, DAY = 1767225600, 86400


def key(byte: int) -> str:
    """A key of 32 equal bytes."""
    return "%02x" % byte * 32


def public(secret: str) -> Any:
    """The public part of a secret in hex."""
    return SCHEME.public_of(bytes.fromhex(secret)).hex()


def unhex(keys: Iterable[str]) -> list[bytes]:
    return [bytes.fromhex(it) for it in keys]


def digest(words: str, kind: str = "sha256") -> str:
    return hashlib.new(kind, words.encode()).hexdigest()


def line(do: str, **members: Any) -> str:
    return canonical({"do": do, "at": NOW, **members})


def signed_by(keys: list[str], payload: dict[str, Any] | str) -> str:
    """The text of an envelope round a payload, signed by these keys in their order."""
    return sealed(unhex(keys), payload if isinstance(payload, str) else canonical(payload))


# ---- vehicles, images, a campaign


def role_keys(start: int) -> dict[str, dict[str, dict[str, Any]]]:
    """The keys of a root version: two root keys that both sign, and two of three for the
    Director's Targets.
    """
    found = {}
    for repository, first in (("director", start), ("image", start + 4)):
        found[repository] = {
            role: {"keys": [key(first + place)], "threshold": 1} for place, role in enumerate(ROLES)
        }
        found[repository]["root"] = {"keys": [key(first), key(first + 0x10)], "threshold": 2}
    found["director"]["targets"] = {
        "keys": [key(start + 1), key(start + 0x11),
                 key(start + 0x21)], "threshold": 2}
    return found


FIRST, SECOND = role_keys(0x01), role_keys(0x51)
ECUS = {
    "VIN-1": {"gw": ("GW", key(0xA1)), "left": ("BR", key(0xA2)), "right": ("BR", key(0xA3))},
    "VIN-2": {"solo": ("GW", key(0xA4))}}
PRIMARY = {"VIN-1": "gw", "VIN-2": "solo"}
CONTENT = {
    name: name + " content"
    for name in ("gateway-1.bin", "brake-1.bin", "gateway-2.bin", "brake-2.bin")}
BOTH = {"gateway-1.bin", "gateway-2.bin"}


def image_of(name: str) -> dict[str, Any]:
    """What a report says of an image: those of the gateway have two hashes."""
    hashes = {
        kind: digest(CONTENT[name], kind)
        for kind in (("sha256", "sha512") if name in BOTH else ("sha256", ))}
    return {"file": name, "length": len(CONTENT[name]), "hashes": hashes}


def add_image(name: str) -> str:
    told = image_of(name)
    hardware = "GW" if name in BOTH else "BR"
    return line("add_image", file=name, length=told["length"], **told["hashes"], hardware=[
        hardware], release=int(name[-5]))


FOUND = line("found", **FIRST)
VEHICLES = [
    line(
        "add_vehicle", vehicle=name, primary=PRIMARY[name],
        ecus=[{"ecu": ecu, "hardware": kind, "key": public(secret)}
              for ecu, (kind, secret) in ecus.items()]) for name, ecus in ECUS.items()]
SETUP = [FOUND, *VEHICLES, add_image("gateway-1.bin"), add_image("brake-1.bin")]
UPDATE = [
    add_image("gateway-2.bin"),
    add_image("brake-2.bin"),
    line(
        "open_campaign", campaign="spring", vehicles="all", items=[{
            "hardware": "GW", "file": "gateway-2.bin"}, {"hardware": "BR", "file": "brake-2.bin"}])]
ROTATE = line("rotate", **SECOND)


def report(ecu: str, secret: str, counter: int, image: dict[str, Any], /, **more: Any) -> str:
    payload = {
        "attack": "", "counter": counter, "ecu": ecu, "image": image, "time": moment(NOW),
        "type": "report"}
    return signed_by([secret], payload | more)


def reports_of(vehicle: str, counter: int, images: dict[str, str] | None = None) -> list[str]:
    """The reports of a vehicle's ECUs, each of its first image where nothing else is said."""
    first = {"GW": "gateway-1.bin", "BR": "brake-1.bin"}
    return [
        report(ecu, secret, counter, image_of((images or {}).get(ecu, first[kind])))
        for ecu, (kind, secret) in ECUS[vehicle].items()]


def payload_of(vehicle: str, counter: int, reports: list[str], /, **more: Any) -> str:
    """A manifest's payload, canonical; the reports stand in it as they are."""
    told = {
        "counter": counter, "primary": PRIMARY[vehicle], "reports": "@", "type": "manifest",
        "vehicle": vehicle} | more
    return canonical(told).replace('"@"', "[%s]" % ",".join(reports))


def manifest(vehicle: str, counter: int, reports: list[str], /, secret: str | None = None,
             **more: Any) -> str:
    return signed_by([secret or ECUS[vehicle][PRIMARY[vehicle]][1]],
                     payload_of(vehicle, counter, reports, **more))


# ---- the desk that answers


def desk() -> Any:
    return closing(Opened(sqlite3.connect(":memory:")))


class Opened(reference.Desk):

    def close(self) -> None:
        self.db.close()
