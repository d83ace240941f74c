"""Computes the answers that the cases of decisions want where they have digests, under each
scheme, by Python's own libraries from the formats in docs/integrate/FORMATS.md, and tells which
of them no case wants, and which wanted ones aren't among them. They are in the standard input of
the crate `up_test_calls`.

    tools/run expected_decisions
"""
import datetime
import functools
import hashlib
import hmac
import json
import re
from typing import Any

from uptane_tools import arguments
from uptane_tools.rows import cases


def H(b: bytes) -> str:
    return hashlib.sha256(b).hexdigest()


def canon(v: dict[str, Any] | list[dict[str, str]]) -> str:
    return json.dumps(v, sort_keys=True, separators=(",", ":"))


class Hmac:
    method = "hmac-sha256"
    show = ""
    public = staticmethod(lambda k: k)
    sign = staticmethod(lambda k, m: hmac.new(k, m, hashlib.sha256).hexdigest())


class Hashed:
    method = "sha256-tag"
    show = "hash"
    public = staticmethod(lambda k: hashlib.sha256(b"public " + k).digest())
    sign = staticmethod(lambda k, m: H(hashlib.sha256(b"public " + k).digest() + m))


def keyid(s: Any, k: bytes) -> str:
    return hmac.new(s.public(k), b"uptane-key-id", hashlib.sha256).hexdigest()


def seal(s: Any, keys: list[bytes], payload: dict[str, Any]) -> str:
    p = canon(payload)
    return '{"signatures":' + canon([{
        "keyid": keyid(s, k), "method": s.method, "sig": s.sign(k, p.encode())}
                                     for k in keys]) + ',"signed":' + p + '}'


def time(t: int) -> str:
    return datetime.datetime.fromtimestamp(t, datetime.timezone.utc).strftime("%Y-%m-%dT%H:%M:%SZ")


def K(b: Any) -> bytes:
    return bytes([b]) * 32


DAY = 86400
T0 = 1767225600
MOST = 2**53 - 1


def roles(first: int) -> dict[str, tuple[list[bytes], int]]:
    return {
        r: ([K(first + i)], 1) for i, r in enumerate(["root", "targets", "snapshot", "timestamp"])}


def keyset(first: int) -> dict[str, Any]:
    return {"director": roles(first), "image": roles(first + 4)}


def root(s: Any, repo: str, n: int, keys: dict[str, Any], at: int,
         before: dict[str, Any] | None = None) -> str:
    ks = keys[repo]
    payload: Any = {
        "expires": time(at + 365 * DAY), "keys": {}, "repository": repo, "roles": {},
        "type": "root", "version": n}
    for r, (secrets, t) in ks.items():
        for k in secrets:
            payload["keys"][keyid(s, k)] = {"method": s.method, "public": s.show}
        payload["roles"][r] = {"keyids": [keyid(s, k) for k in secrets], "threshold": t}
    signers = list(ks["root"][0])
    if before:
        signers += [k for k in before[repo]["root"][0] if k not in ks["root"][0]]
    return seal(s, signers, payload)


LIFE = {"director": (7, 7, 7), "image": (90, 30, 1)}


def three(s: Any, repo: str, keys: dict[str, Any], version: int, at: int,
          targets: list[dict[str, Any]], vehicle: str | None = None) -> tuple[str, str, str]:
    ks = keys[repo]
    a, b, c = LIFE[repo]
    v = {"vehicle": vehicle} if vehicle else {}
    t = seal(
        s, ks["targets"][0], {
            "expires": time(at + a * DAY), "repository": repo, "targets": targets,
            "type": "targets", "version": version, **v})
    sn = seal(
        s, ks["snapshot"][0], {
            "expires": time(at + b * DAY), "meta": {"targets.json": {"version": version}},
            "repository": repo, "type": "snapshot", "version": version, **v})
    ts = seal(
        s, ks["timestamp"][0], {
            "expires": time(at + c * DAY), "meta": {
                "snapshot.json": {"hashes": {"sha256": H(sn.encode())}, "version": version}},
            "repository": repo, "type": "timestamp", "version": version, **v})
    return t, sn, ts


def SECOND(text: str) -> dict[str, str]:
    return {"sha512": hashlib.sha512(text.encode()).hexdigest()}


def target(file: str, content: Any, hardware: list[str], release: int, ecu: str | None = None,
           second: dict[str, str] = {}) -> dict[str, Any]:
    hashes = {"sha256": H(content.encode()), **second}
    return {
        "file": file, "hardware": hardware, "hashes": hashes, "length": len(content),
        "release": release, **({"ecu": ecu} if ecu else {})}


def reply(s: Any, keys: dict[str, Any], rootn: int, vehicle: str, version: int, at: int,
          targets: list[dict[str, Any]]) -> str:
    t, sn, ts = three(s, "director", keys, version, at, targets, vehicle)
    return '{"root":%d,"snapshot":%s,"targets":%s,"timestamp":%s,"vehicle":"%s","version":%d}' % (
        rootn, sn, t, ts, vehicle, version)


def digest(*texts: str) -> str:
    return H("".join(t + "\n" for t in texts).encode())


def founded(s: Any, n: int, version: int, at: int, keys: dict[str, Any],
            before: dict[str, Any] | None = None) -> str:
    """A founding, or a rotation: the row, and a digest of both Root files and the image
    repository's three.
    """
    files = root(s, "director", n, keys, at, before), root(
        s, "image", n, keys, at, before), *three(s, "image", keys, version, at, [])
    return f"root {n} version {version} at {at} {digest(*files)}"


def registered_of(number: int, s: Any) -> str:
    """So many images, each registered by itself."""
    return registered(s, number + 1, T0, IMAGES[:number])


def registered(s: Any, version: int, at: int, images: list[dict[str, Any]]) -> str:
    """A new image, or a refresh: the row, and a digest of the image repository's three files."""
    images = sorted(images, key=lambda t: t["file"])
    return (f"root 1 version {version} at {at} "
            f"{digest(*three(s, 'image', keyset(1), version, at, images))}")


# what an ECU may report: a text, and its hashes
CONTENTS: dict[str, tuple[str, dict[str, str]]] = {
    "empty": ("", {}), "abc": ("abc", {}), "both": ("abc", SECOND("abc")), "unlike": ("abc",
                                                                                      SECOND(""))}


def report(s: Any, ecu: Any, byte: Any, counter: Any, file: str,
           content: str = "empty") -> dict[str, Any]:
    text, second = CONTENTS[content]
    image = {"file": file, "hashes": {"sha256": H(text.encode()), **second}, "length": len(text)}
    return {
        "attack": "", "counter": counter, "ecu": ecu, "image": image, "time": time(T0),
        "type": "report"}


def vehicle(s: Any, name: str, number: int, last: int, ecus: Any) -> str:
    """A vehicle's row, and a digest of those of its ECUs (name, hardware, key), each with its
    last report (counter, file) where there is one.
    """

    def line(e: Any, h: str, b: int, counter: int | None = None, file: str = "none",
             content: str = "empty") -> str:
        installed = "+".join([file, *CONTENTS[content][1].values()])
        return (
            f"{e} {h} {s.public(K(b)).hex()} {counter or 0} {installed} "
            f"{'none' if counter is None else canon(report(s, e, b, counter, file, content))}\n")

    return (f"{name} of {ecus[0][0]} version {number} last {last} "
            f"{digest(''.join(line(*e) for e in ecus))}")


def accepted(
    s: Any, name: str, n: int, at: int, ecus: Any, plan: list[str],
    image: tuple[str, str, list[str], int, dict[str, str]] = ("a7.bin", "abc", ["HS"], 7, {})
) -> str:
    """The vehicle after its n-th manifest, which has the counter n, by these reports of its
    ECUs, and the kept row.
    """
    reports = [json.loads(seal(s, [K(b)], report(s, e, b, *told))) for e, h, b, *told in ecus]
    signed = canon({
        "counter": n, "primary": ecus[0][0], "reports": reports, "type": "manifest",
        "vehicle": name})
    text = reply(s, keyset(1), 1, name, n, at, [target(*image[:4], e, image[4]) for e in plan])
    kept = f"; kept {n} as {n} at {at} under 1 {digest(signed, text)}" + "".join(f" {e}={image[0]}"
                                                                                 for e in plan)
    return vehicle(s, name, n, n, ecus) + kept


V1, V2 = [("P1", "HP", 17)], [("P2", "HP", 68), ("S2", "HS", 51)]
V32 = [("E0", "HP", 1)] + [(f"E{i}", "HS", i + 1) for i in range(1, 32)]
V2_AFTER = [("P2", "HP", 68, 1, "factory.bin"), ("S3", "HS", 119),
            ("S5", "HS", 85, 1, "factory.bin")]
V2_REPORTED = [V2_AFTER[0], ("S3", "HS", 119, 0, "factory.bin"), V2_AFTER[2]]


def factory(ecus: list[tuple[str, str, int]]) -> list[tuple[str, str, int, int, str]]:
    return [(*e, 1, "factory.bin") for e in ecus]


IMAGES = [
    target("z.bin", "", ["HS"], 1),
    target("b.bin", "abc", ["HS"], 7),
    target("a.bin", "abc", ["HS"], 2),
    target("m.bin", "", ["HP"], 3)]
A_BOTH, Z_ONE = target("a.bin", "abc", ["HS"], 2, second=SECOND("abc")), target(
    "z.bin", "", ["HS"], 1)


def by_second_hash(s: Any, n: int, report: list[str], plan: list[str]) -> str:
    """The n-th manifest of V2, by this report of its Secondary, where the image `a.bin` has both
    hashes.
    """
    return accepted(s, "V2", n, T0, [factory(V2)[0], (*V2[1], n, *report)], plan,
                    ("a.bin", "abc", ["HS"], 2, SECOND("abc")))


def one_role(keys: list[int], threshold: int) -> dict[str, Any]:
    some = keyset(1)
    some["image"]["snapshot"] = ([K(b) for b in keys], threshold)
    return some


def two_root_keys(first: int, keys: list[int], threshold: int) -> dict[str, Any]:
    some = keyset(first)
    some["director"]["root"] = ([K(b) for b in keys], threshold)
    return some


before, after = two_root_keys(1, [1, 9], 2), two_root_keys(81, [81, 1], 1)
EXPECTED = {
    "founded": lambda s: founded(s, 1, 1, T0, keyset(1)),
    "rotated": lambda s: founded(s, 2, 2, T0 + DAY, keyset(81), keyset(1)),
    "founded_with_two": lambda s: founded(s, 1, 1, T0, before),
    "rotated_to_one_of_them": lambda s: founded(s, 2, 2, T0, after, before),
    "one_key": lambda s: founded(s, 1, 1, T0, one_role([1], 1)),
    "four_keys": lambda s: founded(s, 2, 2, T0, one_role([1, 2, 3, 4], 4), one_role([1], 1)),
    "last_root": lambda s: founded(s, 64, MOST, T0, keyset(1), keyset(1)), **{
        f"image{n}": functools.partial(registered_of, n) for n in (1, 2, 3, 4)}, "refreshed": lambda
    s: registered(s, 3, T0 + 3600, IMAGES[:1]), "refreshed_to_the_greatest": lambda s: registered(
        s, MOST, T0 + 3600, IMAGES[:1]), "image_1024": lambda s: registered(
            s, MOST, T0, [target(f"{n}.bin", "", ["HS"], 1) for n in range(1024)]),
    "v1": lambda s: vehicle(s, "V1", 0, 0, V1), "v2": lambda s: vehicle(s, "V2", 0, 0, V2),
    "v3": lambda s: vehicle(s, "V3", 0, 0, [
        ("P3", "HP", 17)]), "v32": lambda s: vehicle(s, "V32", 0, 0, V32),
    "replaced": lambda s: vehicle(s, "V2", 1, 1, V2_AFTER),
    "after_replacement": lambda s: accepted(s, "V2", 2, T0, V2_REPORTED, []),
    "replaced_again": lambda s: vehicle(s, "V2", 2, 2, V2_REPORTED[:2] + [
        ("S4", "HT", 153)]), "manifest1": lambda s: accepted(s, "V2", 1, T0, factory(V2), ["S2"]),
    "manifest2": lambda s: accepted(s, "V2", 2, T0 + DAY, factory(V2), ["S2"]),
    "next_manifest": lambda s: accepted(s, "V2", 2, T0, [
        ("P2", "HP", 68, 2, "a"),
        ("S2", "HS", 51, 1, "factory.bin")], ["S2"]), "second_hash": lambda s: registered(
            s, 2, T0, [A_BOTH]), "second_hash_and_none": lambda s: registered(
                s, 3, T0, [A_BOTH, Z_ONE]), "second_hash_refreshed": lambda s: registered(
                    s, 9, T0 + 3600, [A_BOTH, Z_ONE]),
    "second_hash_wanted": lambda s: by_second_hash(s, 1, ["factory.bin"], [
        "S2"]), "second_hash_unlike": lambda s: by_second_hash(s, 2, ["a.bin", "unlike"], [
            "S2"]), "second_hash_alike": lambda s: by_second_hash(s, 3, ["a.bin", "both"], [
            ]), "second_hash_unreported": lambda s: by_second_hash(s, 4, ["a.bin", "abc"], []),
    "manifest_of_32": lambda s: accepted(s, "V32", 1, T0, factory(V32), [e for e, h, b in V32[1:]])}


def both(name: str) -> str:
    one, other = EXPECTED[name](Hmac), EXPECTED[name](Hashed)
    return one if one == other else f"{one} / {other}"


def main(words: arguments.Words = None) -> int:
    """Compares what is computed with what the rows want."""
    arguments.given(__doc__, words)
    rows = cases.kinds("up_test_calls")["decisions"].split("\n")
    wanted = {row.split(" => ", 1)[1] for row in rows if re.search(r" => .*[0-9a-f]{64}", row)}
    computed = {both(name) for name in EXPECTED}
    for answer in sorted(wanted ^ computed):
        print("%s %.300s" % ("not computed:" if answer in wanted else "no case wants:", answer))
    print("%d wanted answers with digests are computed" % len(wanted & computed))
    return 1 if wanted ^ computed else 0
