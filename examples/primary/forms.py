"""The forms of the files that a Primary reads, member by member, as docs/integrate/FORMATS.md has
them.

A file that was made by other rules is refused before anyone asks who signed it: so a check that
comes later never meets a member that is missing, or of another kind.
"""
import re
from collections.abc import Callable, Container
from typing import Any

from envelopes import MOST, File, is_plain, seconds

# the largest file, in bytes
LARGEST = 4_194_304
ROLES = ("root", "targets", "snapshot", "timestamp")


def is_text(value: Any, least: int, most: int) -> bool:
    """Whether a value is a text of so many characters of printable ASCII."""
    return isinstance(value, str) and least <= len(value) <= most and is_plain(value)


def is_like(pattern: str, value: Any) -> bool:
    return isinstance(value, str) and re.fullmatch(pattern, value) is not None


def is_name(value: Any) -> bool:
    """Whether a value is an identifier."""
    return is_like("[A-Za-z0-9._-]{1,64}", value)


def is_filename(value: Any) -> bool:
    return is_like("[A-Za-z0-9._/-]{1,128}", value)


def is_sha256(value: Any) -> bool:
    return is_like("[0-9a-f]{64}", value)


def is_count(value: Any, least: int = 0) -> bool:
    return type(value) is int and least <= value <= MOST


def is_moment(value: Any) -> bool:
    """Whether a value is the text of a moment that the calendar has."""
    if not is_like("[0-9]{4}-[0-9]{2}-[0-9]{2}T[0-9]{2}:[0-9]{2}:[0-5][0-9]Z", value):
        return False
    try:
        return seconds(value) >= 0
    except ValueError:
        return False


def is_list(value: Any, least: int, most: int, fits: Callable[[Any], bool]) -> bool:
    """Whether a value is a list of so many items that fit and differ."""
    is_one = isinstance(value, list) and least <= len(value) <= most and all(map(fits, value))
    return is_one and len({*value}) == len(value)


def is_signature(value: Any) -> bool:
    return (
        isinstance(value, dict)
        and is_text(value.get("keyid"), 1, 128)
        and is_text(value.get("method"), 1, 64)
        and is_like("([0-9A-Fa-f]{2}){1,512}", value.get("sig"))
    )


def is_envelope(value: Any) -> bool:
    """Whether a value is an envelope: 1 to 8 signatures round what has a canonical text."""
    if not isinstance(value, dict) or not isinstance(value.get("signatures"), list):
        return False
    is_signed = isinstance(value.get("signed"), dict) and is_plain(value["signed"])
    signatures = value["signatures"]
    return is_signed and 1 <= len(signatures) <= 8 and all(map(is_signature, signatures))


def is_key(value: Any) -> bool:
    """Whether a Root has a key so. What it shows is looked at by `envelopes.has_form`."""
    if not isinstance(value, dict):
        return False
    return is_text(value.get("method"), 1, 64) and is_text(value.get("public"), 0, 1024)


def is_role(value: Any, keys: Container[str]) -> bool:
    """Whether a Root has a role so: 1 to 4 keys of those that it lists, and a threshold."""
    if not isinstance(value, dict) or not is_count(value.get("threshold"), 1):
        return False
    names: Any = value.get("keyids")
    is_of_keys = is_list(names, 1, 4, lambda it: isinstance(it, str) and it in keys)
    return is_of_keys and value["threshold"] <= len(names)


def is_root(signed: dict[str, Any]) -> bool:
    """Whether a Root has its keys and roles so: no key is listed that no role has."""
    keys, roles = signed.get("keys"), signed.get("roles")
    if not isinstance(keys, dict) or not isinstance(roles, dict):
        return False
    are_roles = all(is_role(roles.get(role), keys) for role in ROLES)
    are_keys = all(is_text(name, 1, 128) and is_key(keys[name]) for name in keys)
    if not are_roles or not are_keys:
        return False
    return {it for role in ROLES for it in roles[role]["keyids"]} == {*keys}


def is_target(value: Any, is_directors: bool) -> bool:
    if not isinstance(value, dict) or not isinstance(value.get("hashes"), dict):
        return False
    return (
        is_filename(value.get("file"))
        and (is_name(value.get("ecu")) or not is_directors)
        and is_list(value.get("hardware"), 1, 16, is_name)
        and is_sha256(value["hashes"].get("sha256"))
        and is_count(value.get("length"))
        and is_count(value.get("release"))
    )


def is_targets(signed: dict[str, Any]) -> bool:
    """Whether Targets has its targets so: the Director's name no ECU twice."""
    targets, is_directors = signed.get("targets"), signed["repository"] == "director"
    if not isinstance(targets, list) or not all(is_target(it, is_directors) for it in targets):
        return False
    return not is_directors or len({it["ecu"] for it in targets}) == len(targets)


def entry(signed: dict[str, Any], name: str) -> dict[str, Any]:
    """What a Timestamp or a Snapshot says of a file, or an empty entry."""
    meta = signed.get("meta")
    found = meta.get(name) if isinstance(meta, dict) else None
    return found if isinstance(found, dict) else {}


def is_snapshot(signed: dict[str, Any]) -> bool:
    return is_count(entry(signed, "targets.json").get("version"), 1)


def is_timestamp(signed: dict[str, Any]) -> bool:
    told = entry(signed, "snapshot.json")
    hashes = told.get("hashes")
    is_hashed = isinstance(hashes, dict) and is_sha256(hashes.get("sha256"))
    return is_hashed and is_count(told.get("version"), 1)


OF_ROLES = {
    "root": is_root,
    "targets": is_targets,
    "snapshot": is_snapshot,
    "timestamp": is_timestamp,
}


def fits(file: File, role: str) -> bool:
    """Whether a file has the form of one of this role."""
    if len(file.text) > LARGEST or not is_envelope(file):
        return False
    signed = file["signed"]
    is_vehicles = signed.get("repository") == "director" and role != "root"
    return (
        signed.get("type") == role
        and signed.get("repository") in ("director", "image")
        and is_count(signed.get("version"), 1)
        and is_moment(signed.get("expires"))
        and (not is_vehicles or is_name(signed.get("vehicle")))
        and OF_ROLES[role](signed)
    )


def is_reply(reply: dict[str, Any]) -> bool:
    """Whether a reply has its members. What its three files are is looked at in their turn."""
    return (
        is_name(reply.get("vehicle"))
        and is_count(reply.get("root"), 1)
        and is_count(reply.get("version"), 1)
        and all(role in reply for role in ("timestamp", "snapshot", "targets"))
    )
