"""Makes lines of a script from what an operator has: files of keys, images, a table of vehicles,
the version that is served.

    tools/run make_lines found KEYS [--threshold ROLE=N ..]
            the line that founds both repositories
    tools/run make_lines rotate KEYS [--threshold ROLE=N ..]       the line that gives both new keys
    tools/run make_lines add_image IMAGE --hardware H .. --release N [--file NAME] [--needs H=N ..]
        [--conflicts NAME ..] [--no-sha512]
    tools/run make_lines add_vehicle TABLE                         a line for each vehicle of a CSV
    tools/run make_lines replace_ecu VEHICLE OLD ECU --hardware H --key FILE
    tools/run make_lines refresh FROM
            the line that makes the Image repository's files anew

Lines go to standard output, so that they can be looked at, checked with `check_script.py` and
piped into the program. The moment is now, by this machine's clock; `--at SECONDS` names another.

KEYS is a folder with a file for each secret, `director-root-1.key`, `director-root-2.key` up to
`image-timestamp-4.key`: 64 hexadecimal digits, as `openssl rand -hex 32` prints them, or an
Ed25519 key as `openssl genpkey -algorithm ed25519` writes it. Each of the eight roles has 1 to
4. A role's threshold is the number of its keys; `--threshold director-root=1` names another.
What this prints for `found` and `rotate` holds the secrets: pipe it.

IMAGE is the image itself: its length, SHA-256 and SHA-512 are computed. Its filename in the
repository is the file's own name, or NAME. `--no-sha512` leaves the SHA-512 out; an image
doesn't get one later.

TABLE is a CSV whose first line is `vehicle,ecu,hardware,primary,key`, with a row for each ECU:
`primary` is `yes` for the Primary and empty for the others, `key` has 64 hexadecimal digits, or
the column is called `keyfile` and names a file that has them, beside the table. The rows of a
vehicle stand together, in inventory order. Under Ed25519 that is the ECU's public key, and the
file may be one that `openssl pkey -pubout` writes; a private key is refused. Under HMAC it is
the secret. What is nobody's key is refused: a blank, and a point of small order.

Keys that stand in an example of this project are refused, since they are published. `--old COPY`
refuses those that a copy has, or that a Root in it lists: behind a theft, and where a fleet goes on
under another scheme of signatures, no secret of before may be used again.

OLD is the ECU that was taken out of the vehicle and ECU the one that was put in, whose key FILE
holds, as above.

FROM is the address of the service, http://127.0.0.1:8080, or a file with the text of the Image
repository's `timestamp.json` (`-` is standard input); the version is the next one.

What isn't within the limits is told and nothing is printed: the status is then 1.
"""
import argparse
import base64
import csv
import hashlib
import json
import os
import re
import sqlite3
import stat
import sys
import time
import urllib.request
from pathlib import Path

from typing import Iterable, Iterator

from uptane_tools import TOP, arguments
from uptane_tools.operate import fleet_tables, points
from uptane_tools.operate.formats import (FILE, IDENT, MOST, REPOSITORIES, ROLES, Named, canonical)

# seconds that the service has for an answer
PATIENCE = 20
COLUMNS = ["vehicle", "ecu", "hardware", "primary"]


class Wrong(Exception):
    """What keeps a line from being made."""


def need(holds: object, words: str, *given: object) -> None:
    if not holds:
        raise Wrong(words % given)


# ---- keys

PEM = re.compile(r"-----BEGIN (PRIVATE|PUBLIC) KEY-----\n([A-Za-z0-9+/=\n]+)-----END \1 KEY-----")
# what stands before the 32 bytes of an Ed25519 key (RFC 8410): PKCS #8's private key, and a
# SubjectPublicKeyInfo
BEFORE = {"PRIVATE": "302e020100300506032b657004220420", "PUBLIC": "302a300506032b6570032100"}


def hex_key(text: str, where: object) -> str:
    need(re.fullmatch(r"[0-9A-Fa-f]{64}", text.strip()), "%s: a key is 64 hexadecimal digits",
         where)
    need(not points.is_nobodys(text.strip()), "%s: that is %s", where, points.NOBODYS)
    return text.strip().lower()


def pem_key(text: str, where: object, wanted: str) -> str:
    """The key in a text that OpenSSL wrote, private or public as it is wanted."""
    found = PEM.fullmatch(text.replace("\r\n", "\n").strip())
    if not found:
        raise Wrong("%s: that is no key as OpenSSL writes it, without a password" % where)
    need(found[1] == wanted, "%s: a %s key, where a %s one is asked", where, found[1].lower(),
         wanted.lower())
    try:
        told = base64.b64decode(found[2]).hex()
    except ValueError:
        told = ""
    need(
        told.startswith(BEFORE[wanted]) and len(told) == len(BEFORE[wanted]) + 64,
        "%s: that is no Ed25519 key", where)
    if wanted == "PUBLIC":
        need(points.is_public(bytes.fromhex(told[-64:])), "%s: that is %s", where,
             points.NO_PUBLIC_KEY)
    return told[-64:]


def key_of(path: Path, wanted: str) -> str:
    """The key that a file holds, `PRIVATE` or `PUBLIC` where it tells. Others that may read what
    may be a secret are told of.
    """
    need(path.is_file(), "%s: there is no such file", path)
    text = path.read_text(encoding="ascii", errors="replace")
    if "PUBLIC KEY" not in text and stat.S_IMODE(path.stat().st_mode) & 0o077:
        print("make_lines: %s: others may read this key: chmod 600" % path, file=sys.stderr)
    return pem_key(text, path, wanted) if "-----BEGIN" in text else hex_key(text, path)


def known_keys(old: Path | None) -> dict[str, str]:
    """Keys that aren't to be used, each with where it stands: those of the examples, and those
    of a copy.
    """
    made = {
        key: "examples/%s, so it is published" % path.parent.name
        for path in sorted((TOP / "examples").glob("*/script"))
        for key in re.findall('"([0-9a-f]{64})"', path.read_text(encoding="ascii"))}
    if old:
        with fleet_tables.opened(old) as db:
            fleet_tables.meta_of(db)
            made |= {
                row[0].hex(): "%s" % old for row in db.execute(
                    "SELECT secret FROM role_key UNION SELECT public_key FROM ecu")}
    return made


def need_fresh(keys: Iterable[tuple[str, str]], old: Path | None) -> None:
    known = known_keys(old)
    for name, key in keys:
        need(key not in known, "%s: the key stands in %s: draw another", name, known.get(key))


def need_unlisted(keys: list[tuple[str, str]], old: Path) -> None:
    """No Root of a copy lists the key of a secret. The secrets before the last Roots' aren't in it
    any more, and their keys' identifiers are.
    """
    with fleet_tables.opened(old) as db:
        texts = db.execute("SELECT body FROM repo_file WHERE name GLOB '[0-9]*.root.json'")
        listed = {name for (body, ) in texts for name in json.loads(body)["signed"]["keys"]}
    for name, key in keys:
        need(not listed & points.identifiers(key), "%s: a Root in %s lists the key: draw another",
             name, old)


def role_keys(folder: Path, name: str, thresholds: dict[str, int]) -> Named:
    """The keys of a role, `director-root` say, in the order of their numbers, with the threshold.
    """
    there = sorted(folder.glob(name + "-*.key"))
    wanted = [folder / ("%s-%d.key" % (name, number)) for number in range(1, len(there) + 1)]
    need(there, "%s: no key of %s: %s-1.key is missing", folder, name, name)
    need(there == wanted and len(there) <= 4, "%s: the keys of %s are %s-1.key to at most %s-4.key",
         folder, name, name, name)
    keys = [key_of(path, "PRIVATE") for path in there]
    threshold = thresholds.pop(name, len(keys))
    need(1 <= threshold <= len(keys), "%s: a threshold is 1 to the number of keys, %d", name,
         len(keys))
    return {"keys": keys, "threshold": threshold}


def new_keys(folder: Path, asked: list[tuple[str, str]], old: Path | None) -> Named:
    """What `found` and `rotate` are given: the keys of eight roles, none of them twice."""
    need(folder.is_dir(), "%s: there is no such folder", folder)
    thresholds = {name: int(number) for name, number in asked}
    told = {
        it: {role: role_keys(folder, "%s-%s" % (it, role), thresholds) for role in ROLES
             } for it in REPOSITORIES}
    need(not thresholds, "there is no role %s", ", ".join(thresholds))
    known = {
        "%s-%s-%d.key" % (it, role, number) for it in REPOSITORIES for role in ROLES
        for number in range(1, 5)}
    for path in sorted(folder.glob("*.key")):
        need(path.name in known, "%s: no role has such a key", path)
    every = [key for roles in told.values() for role in roles.values() for key in role["keys"]]
    need(len(set(every)) == len(every), "%s: a key stands there twice", folder)
    named = [("%s-%s" % (it, role), key) for it, roles in told.items()
             for role, its in roles.items() for key in its["keys"]]
    need_fresh(named, old)
    if old:
        need_unlisted(named, old)
    return told


# ---- images, vehicles, versions


def hashes_of(path: Path, names: list[str]) -> Named:
    """The length and these hashes of an image, by the names of the line's members."""
    made, length = {name: hashlib.new(name) for name in names}, 0
    with open(path, "rb") as file:
        while part := file.read(1 << 20):
            length += len(part)
            for one in made.values():
                one.update(part)
    return {"length": length} | {name: one.hexdigest() for name, one in made.items()}


def new_image(given: argparse.Namespace) -> Named:
    name = given.file or given.image.name
    need(FILE(name), "%s: a filename has 1 to 128 bytes of A-Z a-z 0-9 . _ - /", name)
    need(name[0] != "/" and ".." not in name.split("/"),
         "%s: it leaves the folder in which a Primary puts images", name)
    for one in given.hardware + [hardware for hardware, _ in given.needs]:
        need(IDENT(one), "%s: hardware has 1 to 64 bytes of A-Z a-z 0-9 . _ -", one)
    need(
        len(given.hardware) <= 16 and len(set(given.hardware)) == len(given.hardware),
        "hardware: 1 to 16 names, none twice")
    needs = [{"hardware": hardware, "release": int(number)} for hardware, number in given.needs]
    need(all(0 <= it <= MOST for it in [given.release, *(one["release"] for one in needs)]),
         "a release is 0 to 2^53-1")
    need(
        len(needs) <= 16 and len(given.conflicts) <= 16,
        "there are at most 16 needs and 16 conflicts")
    need(
        all(map(FILE, given.conflicts)) and name not in given.conflicts,
        "a conflict is another image's filename")
    hashes = hashes_of(given.image, ["sha256"] if given.no_sha512 else ["sha256", "sha512"])
    made = {"file": name, "hardware": given.hardware, "release": given.release, **hashes}
    return made | ({"needs": needs} if needs else {}) | ({"conflicts": given.conflicts}
                                                         if given.conflicts else {})


def rows_of(path: Path) -> Iterator[tuple[str, dict[str, str]]]:
    """The rows of the table, each with its number of line and its key."""
    with open(path, newline="", encoding="ascii") as file:
        rows = csv.DictReader(file)
        names = rows.fieldnames or []
        ends = sorted(set(names) - set(COLUMNS))
        need(
            set(COLUMNS) < set(names) and ends in (["key"], ["keyfile"]),
            "%s: its columns are %s and key or keyfile", path, ", ".join(COLUMNS))
        for number, row in enumerate(rows, 2):
            where = "%s:%d" % (path, number)
            need(None not in row and None not in row.values(),
                 "%s: a row has as many fields as the first", where)
            for name in ("vehicle", "ecu", "hardware"):
                need(IDENT(row[name]), "%s: %s: 1 to 64 bytes of A-Z a-z 0-9 . _ -", where, name)
            need(row["primary"] in ("yes", ""), "%s: primary is yes or empty", where)
            row["key"] = hex_key(row["key"], where) if ends == ["key"] else key_of(
                path.parent / row["keyfile"], "PUBLIC")
            yield where, row


def vehicles_in(path: Path, old: Path | None) -> list[Named]:
    """The members of each line."""
    ecus: set[str] = set()
    made: dict[str, Named] = {}
    last = None
    for where, row in rows_of(path):
        name = row["vehicle"]
        need(name == last or name not in made, "%s: the rows of %s stand together", where, name)
        need(row["ecu"] not in ecus, "%s: the ECU %s stands there twice", where, row["ecu"])
        vehicle, last = made.setdefault(name, {"vehicle": name, "primary": None, "ecus": []}), name
        need(not (row["primary"] and vehicle["primary"]), "%s: %s has a Primary already", where,
             name)
        vehicle["primary"] = row["ecu"] if row["primary"] else vehicle["primary"]
        vehicle["ecus"].append({member: row[member] for member in ("ecu", "hardware", "key")})
        ecus.add(row["ecu"])
    for name, vehicle in made.items():
        need(vehicle["primary"], "%s: %s has no Primary", path, name)
        need(len(vehicle["ecus"]) <= 32, "%s: %s has more than 32 ECUs", path, name)
    need_fresh([(ecu["ecu"], ecu["key"]) for vehicle in made.values() for ecu in vehicle["ecus"]],
               old)
    return list(made.values())


def new_ecu(given: argparse.Namespace) -> Named:
    made = {
        "vehicle": given.vehicle, "old": given.old, "ecu": given.ecu, "hardware": given.hardware}
    for member, name in made.items():
        need(IDENT(name), "%s: %s has 1 to 64 bytes of A-Z a-z 0-9 . _ -", name, member)
    need(given.old != given.ecu, "%s: the new ECU needs an identifier of its own", given.ecu)
    key = key_of(given.key, "PUBLIC")
    need_fresh([(given.ecu, key)], given.old_file)
    return made | {"key": key}


def text_from(place: str) -> str:
    if place == "-":
        return sys.stdin.read()
    if place.startswith("http://") or place.startswith("https://"):
        with urllib.request.urlopen(place.rstrip("/") + "/image/timestamp.json",
                                    timeout=PATIENCE) as answer:
            return answer.read().decode("ascii")
    return Path(place).read_text(encoding="ascii")


def next_version(place: str) -> int:
    """The version after that of the Timestamp there; `file `, which a script's answer begins
    with, may stand before it.
    """
    try:
        signed = json.loads(text_from(place).removeprefix("file "))["signed"]
        fits = (signed["repository"], signed["type"]) == ("image", "timestamp") and isinstance(
            signed["version"], int)
    except (ValueError, KeyError, TypeError):
        fits = False
    need(fits, "%s: that isn't the Image repository's timestamp.json", place)
    need(signed["version"] < MOST, "%s: the version is the greatest that there is", place)
    return signed["version"] + 1


# ---- lines


def lines(given: argparse.Namespace) -> list[Named]:
    """The members of each line that is asked for. A further word gets its case here and its
    parser below.
    """
    if given.do in ("found", "rotate"):
        return [new_keys(given.keys, given.threshold, given.old_file)]
    if given.do == "add_image":
        return [new_image(given)]
    if given.do == "add_vehicle":
        return vehicles_in(given.table, given.old_file)
    if given.do == "replace_ecu":
        return [new_ecu(given)]
    return [{"version": next_version(given.source)}]


def pair(text: str) -> tuple[str, str]:
    name, _, number = text.partition("=")
    if not number.isdecimal():
        raise argparse.ArgumentTypeError("%s isn't NAME=NUMBER" % text)
    return name, number


def parser() -> argparse.ArgumentParser:
    top = arguments.parser(__doc__)
    words = top.add_subparsers(dest="do", required=True, metavar="WORD")
    made = {
        word: words.add_parser(word)
        for word in ("found", "rotate", "add_image", "add_vehicle", "replace_ecu", "refresh")}
    for one in made.values():
        one.add_argument("--at", type=int, default=None,
                         help="the moment, in seconds; now where it is left out")
    for word in ("found", "rotate", "add_vehicle", "replace_ecu"):
        made[word].add_argument("--old", type=Path, default=None, metavar="COPY", dest="old_file")
    for word in ("found", "rotate"):
        made[word].add_argument("keys", type=Path)
        made[word].add_argument("--threshold", type=pair, action="append", default=[])
    image = made["add_image"]
    image.add_argument("image", type=Path)
    image.add_argument("--hardware", nargs="+", required=True)
    image.add_argument("--release", type=int, required=True)
    image.add_argument("--file")
    image.add_argument("--needs", nargs="+", type=pair, default=[])
    image.add_argument("--conflicts", nargs="+", default=[])
    image.add_argument("--no-sha512", action="store_true")
    made["add_vehicle"].add_argument("table", type=Path)
    for name in ("vehicle", "old", "ecu"):
        made["replace_ecu"].add_argument(name)
    made["replace_ecu"].add_argument("--hardware", required=True)
    made["replace_ecu"].add_argument("--key", type=Path, required=True, metavar="FILE")
    made["refresh"].add_argument("source", metavar="FROM")
    return top


def main(words: arguments.Words = None) -> int:
    os.umask(0o077)
    given = parser().parse_args(words)
    at = int(time.time()) if given.at is None else given.at
    try:
        made = [canonical({"at": at, "do": given.do, **members}) for members in lines(given)]
    except (Wrong, fleet_tables.Other, OSError, UnicodeError, csv.Error, sqlite3.Error) as wrong:
        print("make_lines: %s" % wrong, file=sys.stderr)
        return 1
    print("\n".join(made))
    return 0
