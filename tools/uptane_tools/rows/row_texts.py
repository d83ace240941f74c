"""Prints the texts of the replies and of the fetched files that a row of `rows/` has to have,
from the formats alone, by Python's hmac and hashlib.

    tools/run row_texts replies ROW
    tools/run row_texts files ROW
"""
import hashlib
import hmac
import json
import sys
from datetime import datetime, timedelta, timezone
from typing import Any

from uptane_tools import arguments

ROLES = ["root", "targets", "snapshot", "timestamp"]
# the byte of the Director's root key of a root version: its other roles' keys are of the bytes
# after it, then come those of the Image repository
FIRST = {1: 0x01, 2: 0x51}
DAYS = {
    "director": {"root": 365, "targets": 7, "snapshot": 7, "timestamp": 7}, "image": {
        "root": 365, "targets": 90, "snapshot": 30, "timestamp": 1}}
NOTHING = hashlib.sha256(b"").hexdigest()
ABC = hashlib.sha256(b"abc").hexdigest()
BOTH = {"sha256": ABC, "sha512": hashlib.sha512(b"abc").hexdigest()}
Z = {"file": "z.bin", "hardware": ["HS"], "hashes": {"sha256": NOTHING}, "length": 0, "release": 1}
A = {"file": "a.bin", "hardware": ["HS"], "hashes": {"sha256": ABC}, "length": 3, "release": 2}
A7 = A | {"file": "a7.bin", "release": 7}
A_FOR_S2 = A | {"ecu": "S2"}
A_FOR_S1 = A | {"ecu": "S1"}
A7_FOR_S2 = A7 | {"ecu": "S2"}
A7_FOR_S3 = A7 | {"ecu": "S3"}
A_FOR_S3 = A | {"ecu": "S3"}
A_FOR_S4 = A | {"ecu": "S4"}
S = A | {"file": "s.bin", "release": 3}
S_FOR_S1 = S | {"ecu": "S1"}
S_FOR_S2 = S | {"ecu": "S2"}
S_FOR_S3 = S | {"ecu": "S3"}
S_FOR_S4 = S | {"ecu": "S4"}
P_FOR_P2 = A | {"ecu": "P2", "file": "p.bin", "hardware": ["HP"], "release": 5}
P_FOR_P3 = P_FOR_P2 | {"ecu": "P3"}
A_OF_BOTH = A | {"hashes": BOTH}
BOTH_FOR_S2 = A_OF_BOTH | {"ecu": "S2"}
A7_FOR_31 = [A7 | {"ecu": "E%d" % number} for number in range(1, 32)]

# each reply of a row: the vehicle, its version, the root version, and the targets
REPLIES: dict[str, list[Any]] = {
    "first_manifest": [("V1", 1, 1, [])], "first_manifest_under_a_second_scheme": [
        ("V2", 1, 1, [])], "changed_signature": [("V1", 1, 1, [])], "greatest_counts": 2 * [
            ("V1", 1, 1, [])], "withheld_for_a_conflict": [
                ("V2", 1, 1, [])], "withheld_for_a_need": [("V2", 1, 1, []),
                                                           ("V2", 2, 1, [P_FOR_P2, S_FOR_S2])],
    "repeat_when_expired": [
        ("V1", 1, 1, []), ("V1", 1, 1, []), ("V1", 2, 1, [])], "older_counter": [
            ("V1", 1, 1, []), ("V1", 2, 1, []), ("V1", 2, 1, [])], "same_counter_other_manifest": [
                ("V1", 1, 1, []), ("V1", 2, 1, []), ("V1", 2, 1, [])],
    "repeat_in_another_spelling": 3 * [("V1", 1, 1, [])], "replayed_reports": [
        ("V2", 1, 1, []), ("V2", 2, 1, []), ("V2", 3, 1, [])], "equal_and_greater_releases": [
            ("V2", 1, 1, []), ("V2", 2, 1, [A_FOR_S2])], "tie_by_the_least_filename": [
                ("V2", 1, 1, [A7_FOR_S2])], "campaigns_by_vehicle": [("V2", 1, 1, [
                    P_FOR_P2, S_FOR_S2]), ("V3", 1, 1, [P_FOR_P3, A7_FOR_S3]),
                                                                     ("V4", 1, 1, [S_FOR_S4]),
                                                                     ("V1", 1, 1, [A_FOR_S1]),
                                                                     ("V1", 2, 1, [S_FOR_S1])],
    "kept_reply_after_a_rotation": [("V2", 1, 1, [
        A_FOR_S2]), ("V2", 2, 2, []), ("V2", 1, 1, [A_FOR_S2])], "commands_between_manifests": [
            ("V2", 1, 1, []), ("V2", 2, 1, []), ("V2", 3, 1, [A_FOR_S2]), ("V2", 4, 1, [S_FOR_S2]),
            ("V2", 5, 1, [A_FOR_S2]), ("V2", 6, 2, [A_FOR_S2]), ("V2", 3, 1, [A_FOR_S2]),
            ("V2", 7, 2, []), ("V2", 8, 2, [S_FOR_S3]), ("V1", 1, 2, []), ("V2", 9, 2, [S_FOR_S3]),
            ("V2", 10, 2, []), ("V2", 8, 2, [S_FOR_S3])], "manifests_in_a_row": [
                ("V2", 1, 1, [P_FOR_P2, A_FOR_S2]), ("V2", 1, 1, [P_FOR_P2, A_FOR_S2]),
                ("V1", 1, 1, []), ("V2", 2, 1, []), ("V2", 3, 1, [A_FOR_S2]),
                ("V2", 1, 1, [P_FOR_P2, A_FOR_S2])], "root_signed_by_the_old_key_too": [
                    ("V1", 1, 1, []), ("V1", 2, 2, [])], "each_command_under_a_second_scheme": [
                        ("V2", 1, 1, [A_FOR_S2]), ("V2", 2, 2, []), ("V2", 1, 1, [
                            A_FOR_S2])], "report_of_an_attack": [
                                ("V1", 1, 1, []), ("V1", 2, 1, []), ("V1", 1, 1, []),
                                ("V1", 3, 1, [])], "vehicles_in_turn": [
                                    ("V1", 1, 1, []), ("V2", 1, 1, [S_FOR_S2]), ("V1", 2, 1, []),
                                    ("V2", 2, 1, [
                                        S_FOR_S2]), ("V1", 1, 1, [])], "vehicles_in_another_turn": [
                                            ("V2", 1, 1, [S_FOR_S2]), ("V1", 1, 1, []),
                                            ("V2", 2, 1, [S_FOR_S2]), ("V1", 2, 1, []),
                                            ("V1", 1, 1, [])], "replaced_ecu": [("V2", 1, 1, []),
                                                                                ("V2", 2, 1, []),
                                                                                ("V2", 1, 1, [])],
    "replaced_ecu_under_a_second_scheme": [
        ("V2", 1, 1, []), ("V2", 2, 1, []), ("V2", 1, 1, [])], "replaced_ecu_of_a_campaign": [
            ("V2", 1, 1, [A_FOR_S2]), ("V2", 2, 1, [A_FOR_S3]), ("V2", 1, 1, [A_FOR_S2]),
            ("V2", 3, 1, [A_FOR_S4])], "second_hash": [
                ("V2", 1, 1, [BOTH_FOR_S2]), ("V2", 2, 1, [BOTH_FOR_S2]), ("V2", 3,
                                                                           1, []), ("V2", 4, 1, []),
                ("V2", 1, 1, [BOTH_FOR_S2])], "second_hash_under_a_second_scheme": [
                    ("V2", 1, 1, [BOTH_FOR_S2]), ("V2", 2, 1, [BOTH_FOR_S2]), ("V2", 3, 1, []),
                    ("V2", 4, 1, []), ("V2", 1, 1, [BOTH_FOR_S2])
                ], "second_hash_in_other_spellings": [
                    ("V2", version, 1, [BOTH_FOR_S2] if version in (2, 11, 12) else [])
                    for version in [*range(1, 15), 13]], "vehicle_of_32_ecus": 2 * [
                        ("V32", 1, 1, A7_FOR_31)], "vehicle_of_32_ecus_under_a_second_scheme": 2 * [
                            ("V32", 1, 1, A7_FOR_31)]}

# each fetched file of a row: a repository's Root with its version and how many hours after the
# founding it was made, or a role's file of the Image repository with the root version, those hours,
# its own version, and the targets
FILES: dict[str, list[Any]] = {
    "files_of_the_image_repository": [(role, 1, 0, 2, [Z]) for role in ROLES[1:]] + [
        ("image", 1, 0)], "root_signed_by_the_old_key_too": [("director", 2, 0)],
    "commands_between_manifests": [("timestamp", 2, 0, 40, [A, S])], "second_hash_in_the_files": [
        (role, 1, 0, 3, [A_OF_BOTH, Z]) for role in ROLES[1:]],
    "each_command_under_a_second_scheme": [(role, 1, 1, 9, [A, Z]) for role in ROLES[1:]] + [
        ("director", 2, 2), ("image", 2, 2)] + [(role, 2, 2, 10, [A, Z]) for role in ROLES[1:]]}


def canonical(value: dict[str, Any]) -> str:
    return json.dumps(value, sort_keys=True, separators=(",", ":"))


class HmacSha256:
    """The public part is the secret, of which a Root shows nothing."""

    method, shown = "hmac-sha256", ""

    @staticmethod
    def tag(secret: bytes, text: bytes) -> str:
        return hmac.new(secret, text, hashlib.sha256).hexdigest()

    @staticmethod
    def public(secret: bytes) -> bytes:
        return secret


class Sha256Tag:
    """The public part is a hash of the secret, of which a Root shows one word, and a tag one of
    the public part and the text.
    """

    method, shown = "sha256-tag", "hash"

    @staticmethod
    def public(secret: bytes) -> bytes:
        return hashlib.sha256(b"public " + secret).digest()

    @staticmethod
    def tag(secret: bytes, text: bytes) -> str:
        return hashlib.sha256(Sha256Tag.public(secret) + text).hexdigest()


def scheme_of(row: str) -> Any:
    return Sha256Tag if row.endswith("_under_a_second_scheme") else HmacSha256


def secret_of(repository: str, role: str, root: int) -> bytes:
    return bytes([FIRST[root] + 4 * (repository == "image") + ROLES.index(role)]) * 32


def keyid_of(scheme: Any, secret: bytes) -> str:
    return hmac.new(scheme.public(secret), b"uptane-key-id", hashlib.sha256).hexdigest()


def envelope(scheme: Any, secrets: list[bytes], payload: dict[str, Any]) -> str:
    signed = canonical(payload)
    tags = [
        (keyid_of(scheme, it), scheme.method, scheme.tag(it, signed.encode())) for it in secrets]
    signatures = ",".join('{"keyid":"%s","method":"%s","sig":"%s"}' % tag for tag in tags)
    return '{"signatures":[%s],"signed":%s}' % (signatures, signed)


def expiry(repository: str, role: str, hours: int) -> str:
    made = datetime(2026, 1, 1, tzinfo=timezone.utc) + timedelta(hours=hours)
    return (made + timedelta(days=DAYS[repository][role])).strftime("%Y-%m-%dT%H:%M:%SZ")


def role_texts(scheme: Any, repository: str, root: int, hours: int, version: int, targets: Any,
               more: dict[str, str]) -> dict[str, str]:
    """The Targets, Snapshot and Timestamp files of one version."""

    def text(role: str, members: dict[str, Any]) -> str:
        payload = {
            "expires": expiry(repository, role, hours), "repository": repository, "type": role,
            "version": version} | members | more
        return envelope(scheme, [secret_of(repository, role, root)], payload)

    snapshot = text("snapshot", {"meta": {"targets.json": {"version": version}}})
    entry = {
        "hashes": {"sha256": hashlib.sha256(snapshot.encode()).hexdigest()}, "version": version}
    return {
        "targets": text("targets", {"targets": targets}), "snapshot": snapshot, "timestamp": text(
            "timestamp", {"meta": {"snapshot.json": entry}})}


def root_text(scheme: Any, repository: str, root: int, hours: int) -> str:
    """A Root file, which the root key before it signs too."""
    keyids = {role: keyid_of(scheme, secret_of(repository, role, root)) for role in ROLES}
    payload = {
        "expires": expiry(repository, "root", hours), "keys": {
            keyid: {"method": scheme.method, "public": scheme.shown} for keyid in keyids.values()
        }, "repository": repository, "roles": {
            role: {"keyids": [keyid], "threshold": 1} for role, keyid in keyids.items()},
        "type": "root", "version": root}
    return envelope(scheme, [secret_of(repository, "root", it) for it in (root, root - 1) if it],
                    payload)


def reply(scheme: Any, vehicle: str, version: int, root: int, targets: list[dict[str, Any]]) -> str:
    texts = role_texts(scheme, "director", root, 0, version, targets, {"vehicle": vehicle})
    named = (root, texts["snapshot"], texts["targets"], texts["timestamp"], vehicle, version)
    form = '{"root":%d,"snapshot":%s,"targets":%s,"timestamp":%s,"vehicle":"%s","version":%d}'
    return form % named


def replies(row: str) -> str:
    return "".join(reply(scheme_of(row), *told) + "\n" for told in REPLIES[row])


def file(scheme: Any, which: str, root: int, hours: int, version: int = 0,
         targets: list[dict[str, Any]] | tuple = ()) -> str:
    if which in DAYS:
        return root_text(scheme, which, root, hours)
    return role_texts(scheme, "image", root, hours, version, targets, {})[which]


def files(row: str) -> str:
    return "".join(file(scheme_of(row), *told) + "\n" for told in FILES[row])


def main(words: arguments.Words = None) -> int:
    """Prints the texts of a row."""
    asked = arguments.given(__doc__, words, "kind", "row")
    sys.stdout.write({"replies": replies, "files": files}[asked.kind](asked.row))
    return 0
