"""The cases of files signed elsewhere: Root and Targets files, signed here under Ed25519, and what
is to be answered of each. `computed` gives them to the program of the crate `up_test_ed25519`,
whose input has the first of each section.

Each answer is written here by hand, beside what is wrong with the file.

promise: brought-root, brought-keys, brought-targets
"""
import json
from collections.abc import Iterator
from typing import Any

from uptane_tools.oracle.ed25519 import (P, add, decode, encode, public_of, sign, small_points)
from uptane_tools.oracle.schemes import key_identifier
from uptane_tools.rows.ed25519_cases import little, stdin, stdout

NOW = 1_800_000_000
# the second is the moment itself
EXPIRES, GONE = "2027-06-01T00:00:00Z", "2027-01-15T08:00:00Z"
HELD = "root 0, targets %s, snapshot 1 of 1, timestamp 1 of 1"


def canonical(value: dict[str, Any]) -> str:
    return json.dumps(value, sort_keys=True, separators=(",", ":"), ensure_ascii=False)


def secret(name: str) -> bytes:
    return name.encode().ljust(32, b"-")


def key(name: str) -> tuple[str, dict[str, str]]:
    public = public_of(secret(name))
    return key_identifier(public), {"method": "ed25519", "public": public.hex()}


def sealed(payload: dict[str, Any], signers: list[str] | tuple) -> str:
    signed = canonical(payload)
    signatures = [{
        "keyid": key(it)[0], "method": "ed25519", "sig": sign(secret(it), signed.encode()).hex()}
                  for it in signers]
    return canonical({"signatures": signatures})[:-1] + ',"signed":' + signed + "}"


def role(number: int, names: tuple) -> dict[str, Any]:
    return {"keyids": [key(name)[0] for name in names], "threshold": number}


def root(roles: dict[str, tuple[int, tuple]], version: int = 1, repository: str = "director",
         expires: str = EXPIRES, keys: dict[str, dict[str, str]] | None = None) -> dict[str, Any]:
    """The payload of a Root; of each role its threshold and its keys."""
    listed = dict(key(name) for _, names in roles.values() for name in names)
    return {
        "expires": expires, "keys": keys or listed, "repository": repository, "roles": {
            it: role(*told) for it, told in roles.items()}, "type": "root", "version": version}


def roles_of(
        who: str, root_keys: tuple[int, tuple] = (2, ("ann", "bob", "eve")),
        targets_keys: tuple[int, tuple[str, str]] | None = None) -> dict[str, tuple[int, tuple]]:
    online = {"snapshot": (1, (who + "-s", )), "timestamp": (1, (who + "-ts", ))}
    return {"root": root_keys, "targets": targets_keys or (1, (who + "-t", ))} | online


def image(name: str, release: int = 1) -> dict[str, Any]:
    hashes = {"sha256": "ab" * 32}
    return {"file": name, "hardware": ["HP"], "hashes": hashes, "length": 5, "release": release}


def targets(listed: list[dict[str, Any]], version: int = 1,
            expires: str = EXPIRES) -> dict[str, Any]:
    return {
        "expires": expires, "repository": "image", "targets": listed, "type": "targets",
        "version": version}


def hexes(*names: str) -> str:
    return ",".join(secret(it).hex() for it in names)


def shown_rows() -> Iterator[tuple[str, str]]:
    public = public_of(secret("ann")).hex()
    no_point = next(y for y in range(2, 99) if decode(little(y)) is None)
    yield public, public
    mixed = [encode(add(decode(bytes.fromhex(public)), decode(it))) for it in small_points()[1:]]
    for text in ("ff" * 32, *(it.hex() for it in small_points() + mixed)):
        yield text, "none"
    for text in (public.upper(), public[:-1], public[:-2], public + "00", "", "-", "x" * 64,
                 little(no_point).hex(), little(P + 3).hex(), little(1 | 1 << 255).hex()):
        yield text, "none"


NOTHING = "none none none"
GIVEN = " ".join(hexes("d-" + it) for it in ("t", "s", "ts"))


def root_row(text: str, answer: str, repository: str = "director", at: int = NOW,
             kept: str = NOTHING, given: str = GIVEN,
             last: tuple[int, str] = (0, "-")) -> tuple[str, str]:
    return f"{repository} {last[0]} {last[1]} {at} {text} {kept} {given}", answer


def root_rows() -> Iterator[tuple[str, str]]:
    """The Director's Root, with all secrets given."""
    held, roles, row = HELD % "1 of 1", roles_of("d"), root_row
    first = sealed(root(roles), ["ann", "eve"])
    yield row(first, held)
    yield row(sealed(root(roles), ["ann", "bob", "eve"]), held)
    yield row(sealed(root(roles), ["ann", "ann"]), "bad signature root")
    yield row(sealed(root(roles), ["ann", "d-t"]), "bad signature root")
    signatures, signed = first[:-1].split(',"signed":', 1)
    yield row('{"signed":' + signed + "," + signatures[1:] + "}", "NotCanonical")
    yield row(first[:-1], "NotJson")
    yield row(first, "BadShape repository", repository="image")
    yield row(sealed(root(roles_of("d", (1, ("d-t", )))), ["d-t"]), "BadShape keys")
    listed = root(roles)["keys"]
    upper = {it: told | {"public": told["public"].upper()} for it, told in listed.items()}
    others = {it: told | {"method": "hmac-sha256"} for it, told in listed.items()}
    for keys in (upper, others):
        yield row(sealed(root(roles, keys=keys), ["ann", "bob"]), "BadShape keys")
    (name, bob), text = key("bob"), canonical(root(roles))
    for free in (little(1), little(0)):
        mended = text.replace(name, key_identifier(free)).replace(bob["public"], free.hex())
        yield row(sealed(json.loads(mended), ["ann", "eve"]), "BadShape keys")
    yield row(first, "RootFull", last=(64, first))
    yield row(first, "wrong version 3", last=(2, first))
    yield row(sealed(root(roles, 2), ["ann", "bob"]), "wrong version 1")
    late = sealed(root(roles, expires=GONE), ["ann", "bob"])
    yield row(late, "expired root")
    yield row(late, held, at=NOW - 1)
    second, last = root(roles_of("d", (2, ("ann", "dan"))), 2), (1, first)
    yield row(sealed(second, ["ann", "dan"]), "bad signature before", last=last)
    yield row(sealed(second, ["ann", "bob"]), "bad signature root", last=last)
    yield row(sealed(second, ["ann", "bob", "dan"]), held, last=last)


def held_rows() -> Iterator[tuple[str, str]]:
    """Secrets that are held stay, others are refused, and the Director's Targets are online."""
    row, first = root_row, sealed(root(roles_of("d")), ["ann", "eve"])
    target, snapshot, timestamp = GIVEN.split()
    yield row(first, HELD % "1 of 1", kept=GIVEN, given="- - -")
    yield row(first, "other keys targets", given=f"none {snapshot} {timestamp}")
    yield row(first, "other keys snapshot", kept=GIVEN, given=f"- {timestamp} -")
    yield row(first, "other keys timestamp", given=f"{target} {snapshot} {timestamp},{snapshot}")


def offline_rows() -> Iterator[tuple[str, str]]:
    """The Image repository's Targets may be kept offline."""
    text, others = IMAGE_ROOT, f"{hexes('i-s')} {hexes('i-ts')}"

    def row(answer: str, given: str, kept: str = NOTHING) -> tuple[str, str]:
        return root_row(text, answer, repository="image", given=f"{given} {others}", kept=kept)

    yield row(HELD % "0 of 0", "none")
    yield row(HELD % "0 of 0", "-")
    yield row("other keys targets", "-", kept=f"{hexes('i-t')} none none")
    yield row(HELD % "2 of 2", hexes("kim", "joe"))
    yield row("other keys targets", hexes("joe", "kim"))


IMAGE_ROOT = sealed(root(roles_of("i", targets_keys=(2, ("kim", "joe"))), repository="image"),
                    ["ann", "bob"])
LISTED = [image("a.bin"), image("b.bin", 2)]
REGISTER = sealed(targets(LISTED, 99), ["kim"])
BOTH = ("kim", "joe")


def targets_row(text: str, answer: str, at: int = NOW, last: str = IMAGE_ROOT,
                register: str = REGISTER) -> tuple[str, str]:
    return f"4 9 {at} {last} {text} {register}", answer


def targets_rows() -> Iterator[tuple[str, str]]:
    """Targets above version 4, up to 9."""
    row, good = targets_row, sealed(targets(LISTED, 5), BOTH)
    yield row(good, "version 5")
    yield row(sealed(targets(LISTED, 9), BOTH), "version 9")
    yield row(sealed(targets(LISTED, 4), BOTH), "VersionNotGreater")
    yield row(sealed(targets(LISTED, 10), BOTH), "wrong version 9")
    yield row(sealed(targets(LISTED, 2**53 - 1), BOTH), "wrong version 9")
    late = sealed(targets(LISTED, 5, GONE), BOTH)
    yield row(late, "expired targets")
    yield row(late, "version 5", at=NOW - 1)
    yield row(sealed(targets(LISTED, 5), ("kim", )), "bad signature targets")
    yield row(sealed(targets(LISTED, 5), ("kim", "i-s")), "bad signature targets")
    yield row(good, "bad signature targets", last="-")
    yield row(good, "other images", register=sealed(targets(LISTED[:1], 1), ("kim", )))
    yield row(good, "other images", register=sealed(targets(LISTED[::-1], 1), ("kim", )))
    newer = [image("a.bin"), image("b.bin", 3)]
    yield row(sealed(targets(newer, 5), BOTH), "other images")
    yield row(IMAGE_ROOT, "BadShape type")


def kept_rows() -> Iterator[tuple[str, str]]:
    """Targets that stay; they may have expired."""
    for text, answer in ((sealed(targets(LISTED, 5, GONE), BOTH), "stay"), (sealed(
            targets(LISTED, 5), ("joe", )), "bad signature targets"), (sealed(
                targets(LISTED[:1], 5), BOTH), "other images")):
        yield f"{IMAGE_ROOT} {text} {REGISTER}", answer


def sections() -> Any:
    made = (("shown", shown_rows()), ("root", [*root_rows(), *held_rows(), *offline_rows()]),
            ("targets", targets_rows()), ("kept", kept_rows()))
    return [(call, [" => ".join(row) for row in rows]) for call, rows in made]


def texts(most: int | None = None) -> tuple[str, str]:
    """The input and what is told; at most so many cases of a section, if any are said."""
    parts = [(call, rows[:most]) for call, rows in sections()]
    return stdin(parts), stdout(parts)


def first() -> tuple[str, str]:
    """The same of the first of each section."""
    return texts(1)
