"""Tries what operators use beside the program: the makers of lines, the checkers of scripts and
of files, the page of the fleet, and the queries and idioms of `docs/use/OPERATING.md`.

    tools/run operator_cases PROGRAM
"""
import base64
import html
import itertools
import json
import re
import sqlite3
import subprocess
import sys
from collections.abc import Iterator
from contextlib import closing
from datetime import datetime, timezone
from pathlib import Path
from typing import Any

from uptane_tools import arguments
from uptane_tools.measure import fleet
from uptane_tools.operate import check_script, fleet_tables, page_sums, points, statements
from uptane_tools.oracle import ed25519, reference
from uptane_tools.rows import translated
from uptane_tools.trial import http_cases, schemas, trials

NOW = fleet.START
ROLES = [
    "%s-%s" % (repository, role) for repository in reference.REPOSITORIES
    for role in reference.ROLES]


def made(*words: Any, given: bytes = b"") -> tuple[int, list[str], str]:
    """The status, the lines and the message of the maker of lines."""
    ran = subprocess.run([sys.executable, trials.RUN, "make_lines", *map(str, words)], input=given,
                         capture_output=True, check=False)
    return ran.returncode, ran.stdout.decode("ascii").splitlines(), ran.stderr.decode("ascii")


def drawn(number: int) -> str:
    """A key that no example has."""
    return fleet.digest("key %d" % number)


def shown(number: int) -> str:
    """What an ECU of such a key shows of it."""
    return str(fleet.with_public({"key": drawn(number)})["key"])


def key_files(folder: Path, start: int) -> Path:
    folder.mkdir()
    for number, name in enumerate([role + "-1" for role in ROLES] + ["director-root-2"]):
        (folder / (name + ".key")).write_text(drawn(start + number) + "\n", encoding="ascii")
        (folder / (name + ".key")).chmod(0o600)
    return folder


# ---- makers of lines

TABLE = ("vehicle,ecu,hardware,primary,key\n"
         "V1,P1,HP,yes,%s\nV1,S1,HS,,%s\nV2,P2,HP,yes,%s\n") % tuple(map(shown, (1, 2, 3)))
WRONG_TABLES = {
    "an ECU twice": TABLE.replace("P2", "P1"),
    "no Primary": TABLE.replace("P2,HP,yes", "P2,HP,"), "two Primaries": TABLE.replace(
        "S1,HS,", "S1,HS,yes"), "rows apart": TABLE + "V1,S9,HS,,%s\n" % shown(9),
    "a short key": TABLE.replace(shown(2), "02"), "a name past its limit": TABLE.replace(
        "V2", 65 * "V"), "other columns": TABLE.replace("primary", "first")}


def makers(program: Path, own: Path) -> trials.Cases:
    path, at = own / "desk", ("--at", str(NOW))
    first, second = key_files(own / "first", 1), key_files(own / "second", 101)
    (own / "image.bin").write_bytes(b"abc")
    (own / "vehicles.csv").write_text(TABLE, encoding="ascii")
    asked = [("found", first, "--threshold", "director-root=1"),
             ("add_vehicle", own / "vehicles.csv"),
             ("add_image", own / "image.bin", "--hardware", "HP", "--release", 1),
             ("add_image", own / "image.bin", "--hardware", "HS", "HT", "--release", 2, "--file",
              "a/2.bin", "--needs", "HP=1", "--conflicts", "old.bin"), ("rotate", second)]
    told = [made(*words, *at) for words in asked]
    lines = [line for _, out, _ in told for line in out]
    yield "lines are made", [(status, err) for status, _, err in told] == 5 * [
        (0, "")] and len(lines) == 6
    yield "the checker finds nothing in them", list(
        check_script.amiss("\n".join(lines).encode(), NOW)) == []
    yield "the program takes them", trials.printed(program, path, lines) == 6 * ["done"]
    with trials.read(path) as db:
        yield "thresholds", db.execute(
            "SELECT root, threshold, count(*) FROM role_key WHERE repository = 'director' AND "
            "role = 'root' GROUP BY root").fetchall() == [(2, 2, 2)]
        hashed = db.execute(
            "SELECT length, hex(sha256), hex(sha512) FROM image JOIN image_sha512 USING (file) "
            "WHERE file = 'a/2.bin'").fetchall()
        yield "an image's hashes", hashed == [(3, ABC_256.upper(), ABC_512.upper())]
    words = ("add_image", own / "image.bin", "--hardware", "HP", "--release", 1, "--file",
             "one.bin", "--no-sha512", *at)
    yield "an image with one hash", "sha512" not in made(*words)[1][0] and ABC_256 in made(
        *words)[1][0]
    stamp = trials.printed(program, path,
                           [fleet.line("fetch", repository="image", file="timestamp.json")])[0]
    by_file = made("refresh", "-", *at, given=stamp.encode())
    with http_cases.served(program, path, 1) as running:
        by_url = made("refresh", "http://127.0.0.1:%d" % running.port, *at)
    yield from replaced(program, path, own, at)
    yield "a refresh by either way", by_file == by_url and json.loads(by_file[1][0])["version"] == 5
    yield "the program takes it once", trials.printed(program, path, 2 * by_file[1]) == [
        "done", "refused 28 VersionNotGreater"]
    yield from refusals(own, first, at)
    yield from openssl_keys(own, at)
    yield from known_keys(path, own, at)


def replaced(program: str | Path, path: str | Path, own: Path, at: Any) -> trials.Cases:
    """The line for an ECU that a workshop put in, and that the program takes it once."""
    (own / "S3.key").write_text(shown(99) + "\n", encoding="ascii")
    (own / "S3.key").chmod(0o600)
    words = ["replace_ecu", "V1", "S1", "S3", "--hardware", "HS", "--key", own / "S3.key", *at]
    status, lines, err = made(*words)
    yield "an ECU is replaced", (status, err, len(lines)) == (0, "", 1) and list(
        check_script.amiss(lines[0].encode(), NOW)) == []
    yield "the program replaces it once", trials.printed(program, path, 2 * lines) == [
        "done", "refused 14 UnknownEcu S1"]
    with trials.read(path) as db:
        now = db.execute(
            "SELECT ecu, place, hardware FROM ecu WHERE vehicle = 'V1' ORDER BY place").fetchall()
        gone = db.execute("SELECT ecu, vehicle FROM retired").fetchall()
    yield "the new one stands in its place", [row[0::2] for row in now] == [
        ("P1", "HP"), ("S3", "HS")] and gone == [("S1", "V1")]
    words[3] = "S1"
    yield "not by itself", made(*words)[:2] == (1, [])


def pem(kind: str, data: bytes | bytearray | None) -> str:
    return "-----BEGIN %s KEY-----\n%s\n-----END %s KEY-----\n" % (
        kind, base64.b64encode(data).decode(), kind)


def openssl_keys(own: Path, at: Any) -> trials.Cases:
    """Keys as OpenSSL writes those of RFC 8410's example (section 10.3)."""
    secret = bytes.fromhex("d4ee72dbf913584ad5b6d8f1f769f8ad3afe7c28cbf1d4fbe097a88f44755842")
    public = bytes.fromhex("19bf44096984cdfe8541bac167dc3b96c85086aa30b6b6cb0c5c38ad703166e1")
    private_text = pem("PRIVATE", bytes.fromhex("302e020100300506032b657004220420") + secret)
    public_text = pem("PUBLIC", bytes.fromhex("302a300506032b6570032100") + public)
    keys = key_files(own / "pem", 150)
    role, ecu = keys / "image-root-1.key", own / "ecu.key"

    def asked(path: Any, text: str, *words: Any) -> tuple[int, int, str]:
        path.write_text(text, encoding="ascii")
        path.chmod(0o644 if path is ecu else 0o600)
        status, lines, err = made(*words, *at)
        return status, lines[0].count(
            secret.hex()) + 2 * lines[0].count(public.hex()) if lines else 0, err

    table = own / "pem.csv"
    table.write_text("vehicle,ecu,hardware,primary,keyfile\nV9,P9,HP,yes,ecu.key\n",
                     encoding="ascii")
    found, vehicle = ("found", keys), ("add_vehicle", table)
    other = ("replace_ecu", "V9", "P9", "Q9", "--hardware", "HP", "--key", ecu)
    yield "a role's secret that OpenSSL wrote", asked(role, private_text, *found) == (0, 1, "")
    yield "an ECU's public key that OpenSSL wrote", asked(ecu, public_text, *vehicle) == asked(
        ecu, public_text, *other) == (0, 2, "")

    def refused(told: Any, words: Any) -> Any:
        return told[:2] == (1, 0) and told[2].endswith(words + "\n")

    yield "no private key in the inventory", all(
        refused(asked(ecu, private_text, *it), "a private key, where a public one is asked")
        for it in (vehicle, other))
    yield "no public key for a role", refused(asked(role, public_text, *found),
                                              "a public key, where a private one is asked")
    longer = pem("PRIVATE", bytes.fromhex("302e020100300506032b657004220420") + secret + b"0")
    yield "no key of another kind", all(
        refused(asked(role, it, *found), "no Ed25519 key")
        for it in (longer, private_text.replace("MC4C", "MC4D")))
    yield "no key under a password", refused(
        asked(role, private_text.replace("PRIVATE", "ENCRYPTED PRIVATE"), *found),
        "without a password")


def refusals(own: Path, keys: Any, at: Any) -> trials.Cases:

    def one_line(ran: Any) -> Any:
        return ran[:2] == (1, []) and ran[2].startswith("make_lines: ") and ran[2].count("\n") == 1

    yield "a key that others may read is told of", (
        keys / "image-root-1.key").chmod(0o644) is None and made(
            "found", keys, *at)[2].count("others may read") == 1
    (keys / "image-root-1.key").chmod(0o600)
    yield "a threshold past the keys", one_line(
        made("found", keys, "--threshold", "director-root=3", *at))
    yield "a role that isn't one", one_line(
        made("found", keys, "--threshold", "director-rot=1", *at))
    (keys / "director-targets-2.key").write_text(drawn(1), encoding="ascii")
    (keys / "director-targets-2.key").chmod(0o600)
    yield "a key that stands twice", one_line(made("found", keys, *at))
    (keys / "director-targets-2.key").unlink()
    (keys / "image-root-1.key").unlink()
    yield "a key that is missing", one_line(made("found", keys, *at))
    for name, text in WRONG_TABLES.items():
        (own / "wrong.csv").write_text(text, encoding="ascii")
        yield "a table with " + name, one_line(made("add_vehicle", own / "wrong.csv", *at))
    yield "an image's name past its limit", one_line(
        made("add_image", own / "image.bin", "--hardware", "HP", "--release", 1, "--file",
             129 * "a", *at))
    yield "no Timestamp", one_line(made("refresh", "-", *at, given=b"{}"))
    yield "no service", one_line(
        made("refresh", "http://127.0.0.1:%d" % http_cases.free_port(), *at))


def known_keys(path: str | Path, own: Path, at: Any) -> trials.Cases:
    """Keys that are published, or that a file of the other scheme has, are refused by name."""
    keys = key_files(own / "fresh", 201)
    yield "keys that are drawn are taken", made("found", keys, "--old", path, *at)[0] == 0
    (keys / "image-root-1.key").write_text(fleet.key(5) + "\n", encoding="ascii")
    yield "a key of an example is refused", made("found", keys, *at)[2].startswith(
        "make_lines: image-root: the key stands in examples/fleet_day, so it is published")
    for name, number, words in (("one of the old file", 101, "the key stands in %s"),
                                ("one that it had", 4, "a Root in %s lists the key")):
        (keys / "image-root-1.key").write_text(drawn(number) + "\n", encoding="ascii")
        told = [made("found", keys, *old, *at) for old in ((), ("--old", path))]
        yield "and " + name, told[0][0] == 0 and told[1] == (
            1, [], "make_lines: image-root: %s: draw another\n" % (words % path))
    (own / "old.csv").write_text(TABLE, encoding="ascii")
    yield "an ECU's too", made(
        "add_vehicle", own / "old.csv", "--old", path,
        *at)[2] == "make_lines: P1: the key stands in %s: draw another\n" % path


def rollouts(program: str | Path, own: Path) -> trials.Cases:
    """A rollout's steps: each of so many vehicles, by the seed; the program takes them, one line
    stops them, and the page shows them as one.
    """
    path, folder, listed = own / "desk", own / "steps", own / "vehicles"
    names = ["VIN-%04d" % it for it in range(200)]
    listed.write_text("\n".join(reversed(names)) + "\n", encoding="ascii")

    def make(*words: Any) -> subprocess.CompletedProcess[str]:
        return subprocess.run(
            [sys.executable, trials.RUN, "rollout", *map(str, words), "--at",
             str(NOW)], capture_output=True, text=True, check=False)

    asked = [
        "brakes", listed, "--item", "HP=hp-2.bin", "--steps", "1", "12.5", "99.5", "100", "--to",
        folder]
    ran = make(*asked)
    scripts = [
        (folder / ("brakes-%d.script" % it)).read_text("ascii").splitlines() for it in (1, 2, 3, 4)]
    *reached, last = [json.loads(it[0])["vehicles"] for it in scripts]
    yield "so many vehicles a step, and all at the end", ran.returncode == 0 and [
        len(it) for it in reached] == [2, 23, 174] and len(set(sum(reached,
                                                                   []))) == 199 and last == "all"
    again = make("other", listed, "--item", "HP=hp-2.bin", "--steps", "1", "12.5", "100", "--seed",
                 "brakes", "--to", folder)
    same = json.loads((folder / "other-1.script").read_text("ascii"))["vehicles"]
    yield "the seed alone decides which", again.returncode == 0 and same == reached[
        0] and reached[0] != names[:2]
    rows = (folder / "brakes-steps.csv").read_text("ascii").splitlines()
    yield "a table says which step reaches a vehicle", len(rows) == 201 and {
        row.split(",")[0] for row in rows if row.endswith(",1")} == set(reached[0])
    yield "the checker finds nothing in them", all(
        list(check_script.amiss("\n".join(it).encode(), NOW)) == [] for it in scripts)

    def ecu(name: str) -> list[dict[str, str]]:
        return [{"ecu": name + "-p", "hardware": "HP", "key": fleet.key(9)}]

    lines = [
        fleet.line("found", **fleet.key_set(1)),
        *(fleet.line("add_vehicle", vehicle=it, primary=it + "-p", ecus=ecu(it)) for it in names)]
    lines.append(
        fleet.line("add_image", file="hp-2.bin", length=3, sha256=fleet.digest("2"), hardware=[
            "HP"], release=2))
    stop = (folder / "brakes-stop.script").read_text("ascii").splitlines()
    told = trials.printed(program, path, [*lines, *scripts[0], *scripts[1]])
    yield "the program takes them", set(told) == {"done"}
    page = page_of(path).split("<h2>Rollouts</h2>")[1].split('<h2 id="files">')[0]
    yield "the page shows the steps as one", re.search(
        "brakes</code>.*>running<.*0 of 25 ECUs.*1: 0 of 2 ECUs<br>2: 0 of 23 ECUs<",
        page) is not None
    yield "one script stops what is open", trials.printed(program, path, stop) == [
        "done", "done", "refused 25 UnknownCampaign", "refused 25 UnknownCampaign"]
    yield "and the page shows that", ">stopped<" in page_of(path).split("<h2>Rollouts</h2>")[1]
    by_copy = make("late", path, "--item", "HP=hp-2.bin", "--seed", "brakes", "--to", own / "late")
    yield "a copy of the file has the vehicles", by_copy.returncode == 0 and json.loads(
        (own / "late" / "late-1.script").read_text("ascii"))["vehicles"] == reached[0]
    (own / "many").write_text("".join("V%05d\n" % it for it in range(5001)), encoding="ascii")
    make("many", own / "many", "--item", "HP=hp-2.bin", "--steps", "50", "--to", folder)
    parts = [
        json.loads(line) for line in (folder / "many-1.script").read_text("ascii").splitlines()]
    yield "a campaign names at most 1,000", [
        (it["campaign"], len(it["vehicles"])) for it in parts] == [("many.1aa", 1000),
                                                                   ("many.1ab", 1000),
                                                                   ("many.1ac", 501)]
    wrong = [
        make("x", listed, "--item", "HP=h", "--steps", *steps, "--to", folder).returncode
        for steps in (["0", "1"], ["5", "5"], ["50", "101"])]
    yield "steps that are none", wrong == [1, 1, 1]


# ---- the checker of scripts

# of `abc`, by FIPS 180-4
ABC_256 = "ba7816bf8f01cfea414140de5dae2223b00361a396177a9cb410ff61f20015ad"
ABC_512 = ("ddaf35a193617abacc417349ae20413112e6fa4e89a97ea20a9eeee64b55d39a"
           "2192992a274fc1a836ba3c23a3feebbd454d4423643ce80e2a9ac94fa54ca49f")
IMAGE = {"file": "a.bin", "length": 3, "sha256": 64 * "0", "hardware": ["HP"], "release": 1}
KEYS = fleet.key_set(1)
AMISS = [
    (fleet.line("add_image", NOW, **IMAGE,
                need=[]), "look: need: no such member; it is ignored; is it needs?"),
    (fleet.line("add_image", NOW, **IMAGE, needs=[{"hardware": "HP", "release": 1, "file": "x"}]),
     "look: file: no such member, in needs[0]; it is ignored"),
    (fleet.line("add_image", NOW, **IMAGE | {"file": 129 * "a"}),
     "fault: file: 1 to 128 bytes of A-Z a-z 0-9 . _ - /"),
    (fleet.line("add_image", NOW, **IMAGE,
                sha512=127 * "0"), "fault: sha512: 128 hexadecimal digits"),
    (fleet.line("add_image", NOW, **IMAGE, sha512=None), "fault: sha512: 128 hexadecimal digits"),
    (fleet.line("add_image", NOW, **IMAGE,
                sha51=128 * "0"), "look: sha51: no such member; it is ignored; is it sha512?"),
    (fleet.line("add_image", NOW + 40 * 86400, **IMAGE),
     "look: at: 40.0 days after now; it is taken as it stands, and files expire by it"),
    (fleet.line("add_image", NOW * 1000,
                **IMAGE), "fault: at: past 2100-01-01T00:00:00Z; the moment is in seconds"),
    (fleet.line("add_images", NOW,
                **IMAGE), "fault: do: one of %s; is it add_image?" % ", ".join(check_script.WORDS)),
    ('{"at":%d,"at":%d,"do":"refresh","version":2}' % (NOW, NOW),
     "look: at: it stands twice, and the last one counts"),
    (fleet.line("replace_ecu", NOW, vehicle="v", old="a", ecu="a", hardware="HP",
                key=fleet.key(1)), "fault: ecu: another identifier than the old ECU's"),
    (fleet.line("replace_ecu", NOW, vehicle="v", ecu="a", hardware="HP",
                key=fleet.key(1)), "fault: old: it is missing"),
    (fleet.line("replace_ecu", NOW, vehicle="v", old="b", ecu="a", hardware=["HP"],
                key=fleet.key(1)), "fault: hardware: " + check_script.A_NAME),
    (fleet.line("show", NOW,
                vehicle=65 * "v"), "fault: vehicle: 1 to 64 bytes of A-Z a-z 0-9 . _ -"),
    (fleet.line("found", NOW, **KEYS | {"image": KEYS["director"]}),
     "look: keys: a key stands in two roles: whoever has it can sign for both"),
    (fleet.line("refresh", NOW, version=2**53 - 1),
     "final: version: none is above it: no image, no keys and no new files could follow, and all "
     "metadata would expire for good"),
    (fleet.line("refresh", NOW, version=2**53 - 10**6),
     "final: version: none is above it: no image, no keys and no new files could follow, and all "
     "metadata would expire for good"),
    (fleet.line("refresh", NOW,
                version=2**53 - 1 - 10**6), "look: version: above 1,000,000; it never goes back"),
    (fleet.line("add_image", NOW, **IMAGE | {"release": 2**53 - 1}),
     "final: release: none is above it: this hardware could get no further image"),
    (fleet.line("add_image", NOW, **IMAGE | {"file": "/etc/passwd"}),
     "final: file: it leaves the folder in which a Primary puts images"),
    (fleet.line("add_image", NOW, **IMAGE | {"file": "a/../../b"}),
     "final: file: it leaves the folder in which a Primary puts images"),
    (fleet.line("add_image", NOW, **IMAGE | {"file": "a//b"}),
     "look: file: a part of its path is empty, or is a point"),
    (fleet.line("bench", NOW, vehicle="v", primary="a", key=fleet.key(1), counter=2**53 - 1,
                reports=[]),
     "final: counter: none is above it: the vehicle's next manifests would be stale for good"),
    ("nope", "fault: line: no JSON"),
    (2_097_153 * " ", "fault: line: longer than 2097152 bytes: it ends the run")]


def of_the_line(text: Any, answer: str) -> bool:
    """Whether such an answer is the fault of the line alone, whatever was done before."""
    asked = text if isinstance(text, bytes) else text.encode()
    return answer == "refused 5 NotJson" and b'"deliver"' not in asked or answer.startswith(
        "refused 7 ") and b'"do":"deliver"' not in asked


def checker() -> trials.Cases:
    for text, wanted in AMISS:
        yield "the checker: " + wanted, list(check_script.amiss(text.encode(), NOW)) == [
            "line 1: " + wanted]
    last = fleet.line("refresh", NOW, version=2**53 - 1) + "\n"
    ran = [
        subprocess.run([sys.executable, trials.RUN, "check_script", "--now",
                        str(NOW), *words], input=last.encode(), capture_output=True, check=False)
        for words in ((), ("--final", ))]
    yield "what can't be undone is refused, or only told where that is asked", [
        (it.returncode, it.stdout.split(b": ")[1]) for it in ran] == [(1, b"final"), (1, b"look")]
    for name in ("/a.bin", "a.bin/..", "..", "x/../a.bin", "a..b.bin", "..a.bin"):
        line = fleet.line("add_image", NOW, **IMAGE | {"file": name}).encode()
        leaves = check_script.checked(line, None, NOW, 1e12)[0]
        yield "the filename " + name, bool(leaves) == (name[0] == "/" or ".." in name.split("/"))
    backwards = [fleet.line("refresh", at, version=it) for it, at in ((5, NOW), (6, NOW - 1))]
    yield "moments that go back", list(check_script.amiss("\n".join(backwards).encode(), NOW)) == [
        "line 2: look: at: earlier than in a line before"]
    days = [fleet.line("close_campaign", NOW, campaign="a")] * 2
    yield "a line that makes no file may wait, though not for its moment", [
        list(check_script.amiss("\n".join(days).encode(), at)) == []
        for at in (NOW + 90 * 86400, NOW - 86400, NOW - 2 * 86400)] == [True, True, False]
    yield "lines past the limit", list(check_script.amiss(100_001 * b"\n", NOW)) == [
        "line 100001: fault: line: a script has at most 100000 lines"]
    # random lines, some of them damaged: what the rules refuse for the line's sake is a fault, and
    # nothing else is
    faults = missed = 0
    from uptane_tools.trial import fuzz
    for seed in range(1, 41):
        lines = fuzz.Script(seed).made()
        with closing(sqlite3.connect(":memory:")) as db:
            desk = reference.Desk(db)
            for line in lines:
                answer = desk.answer(line)
                # (whether an ECU's key is a point, only a program of Ed25519 knows)
                refused = of_the_line(
                    line,
                    answer) and (answer, reference.METHOD) != ("refused 7 BadShape key", "ed25519")
                found: Any = any(
                    it.startswith("fault") for it in check_script.checked(line, None, NOW, 1e12)[0])
                faults += refused
                missed += refused and not found
                if refused and not found:
                    print("the checker has nothing on: %r" % line)
    yield "%d lines that the rules refuse for their own sake" % faults, faults > 40 and not missed
    for script in sorted(trials.TOP.glob("examples/*/script")):
        found = check_script.amiss(script.read_bytes(), NOW, 1e12)
        yield "the checker on %s" % script.parent.name, [
            it for it in found if "earlier" not in it] == []


# ---- the checker of files

# what someone does to a file of the latest schema, and what the checker has to say of it
CHANGED = [
    ("an index", ["CREATE INDEX by_hardware ON ecu (hardware)"], [
        "index by_hardware on ecu: it is too much"]),
    ("an index of one rule more", ["CREATE UNIQUE INDEX Once ON image (sha256)"], [
        "index once on image: it is too much"]),
    ("a trigger", ["CREATE TRIGGER told AFTER INSERT ON kept BEGIN DELETE FROM campaign; END"], [
        "trigger told on kept: it is too much"]),
    ("a view", ["CREATE VIEW seen AS SELECT vehicle FROM vehicle"], ["view seen: it is too much"]),
    ("a dropped table", ["DROP TABLE image_sha512"], ["table image_sha512: it is missing"]),
    ("another table", ["CREATE TABLE notes (note TEXT)"], ["table notes: it is too much"]),
    ("an added column", ["ALTER TABLE ecu ADD COLUMN note TEXT"], [
        "table ecu: the column note is too much"]),
    ("a column of another name", ["ALTER TABLE meta RENAME COLUMN stamp TO moment"], [
        "table meta: the column stamp is missing", "table meta: the column moment is too much"]),
    ("a column of another name, and back", [
        "ALTER TABLE meta RENAME COLUMN stamp TO moment",
        "ALTER TABLE meta RENAME COLUMN moment TO stamp"], []),
    ("statistics", ["ANALYZE"], ["table sqlite_stat1: it is too much"]),
    ("a number set back", ["UPDATE meta SET schema = 1"], [
        "table %s: it is too much" % it
        for it in ("image_repository", "image_sha512", "retired", "retired_vehicle")]),
    ("a number set forward", ["UPDATE meta SET schema = 5"], [
        "it is no database of this product: its schema is 5, and not one of 1, 2, 3, 4"]),
    ("a root version less", ["UPDATE image_repository SET root = 1"], [
        "root of image: the number is 1, and 2.root.json is too much"]),
    ("a root version more", ["UPDATE meta SET root = 3"], [
        "root of director: the number is 3, and 3.root.json is missing"]),
    ("another product", ["UPDATE meta SET app = 'desk'"], [
        "it is no database of this product: meta names 'desk' and not uptane_desk"]),
    ("an empty meta", ["DELETE FROM meta"], ["meta: it has 0 rows and not one"]),
    ("two rows in meta", [
        "INSERT INTO meta SELECT 2, app, schema, root, image_version, stamp FROM meta"], [
            "meta: it has 2 rows and not one"]),
    ("no meta", ["DROP TABLE " + it for it in ("meta", *statements.LACKS[1])], [
        "table meta: it is missing"]),
    ("no tables", ["DROP TABLE " + table for table in reversed(trials.TABLES)], [
        "it is no database of this product: it has no tables"])]
# the same columns, but another rule for one of them, another key or reference, or no strictness
MADE_ANEW = [
    ("a rule of a column", "running INTEGER NOT NULL",
     "running INTEGER NOT NULL CHECK (running < 2)",
     "table campaign: it is made by other words: create table campaign"),
    ("a table that isn't strict", ") STRICT", ")",
     "table campaign: it is made by other words: create table campaign"),
    ("a column of another kind", "items TEXT NOT NULL", "items BLOB NOT NULL",
     "table campaign: the column items is another"),
    ("a column that may be null", "items TEXT NOT NULL", "items TEXT",
     "table campaign: the column items is another"),
    ("one key more", "running INTEGER NOT NULL", "running INTEGER NOT NULL, UNIQUE (reach)",
     "table campaign: the key reach is too much"),
    ("a reference", "items TEXT NOT NULL", "items TEXT NOT NULL REFERENCES image (file)",
     "table campaign: the reference items to image is too much")]


def check(path: Any) -> tuple[int, list[str]] | None:
    """The status and the lines of the checker of files; none where it says something on standard
    error, or changes what is there.
    """
    before = {it.name: it.read_bytes() for it in path.parent.iterdir() if it.is_file()}
    ran = subprocess.run([sys.executable, trials.RUN, "check_file", path], capture_output=True,
                         check=False)
    after = {it.name: it.read_bytes() for it in path.parent.iterdir() if it.is_file()}
    return (ran.returncode,
            ran.stdout.decode("ascii").splitlines()) if after == before and not ran.stderr else None


def changed(path: str | Path, to: Path, made_of: Any) -> Path:
    """A copy of a file of the program's own in which SQLite carries out statements."""
    trials.copied(path, to)
    with closing(sqlite3.connect(to, isolation_level=None)) as db:
        for statement in made_of:
            db.execute(statement)
    return to


def campaign_anew(old: str, new: str) -> list[str]:
    made = next(it for it in statements.schema() if statements.table_of(it) == "campaign")
    assert made.count(old) == 1
    return ["DROP TABLE campaign", made.replace(old, new)]


def checked_files(program: str | Path, own: Path) -> trials.Cases:
    path = own / "first"
    lines = (trials.TOP / "examples" / "fleet_day" /
             "script").read_text(encoding="ascii").split("\n")[:-1]
    trials.printed(program, path, lines)
    yield "a file of the program's own is as it has to be", check(path) == (0, [])
    for number in statements.LACKS:
        yield "one of schema %d" % number, check(
            schemas.written(path, own / ("written%d" % number), number)) == (0, [])
        yield "one of schema %d with sums" % number, check(
            schemas.lowered(path, own / ("lowered%d" % number), number)) == (0, [])
    stopped = trials.copied(path, own / "stopped")
    yield "one with the log that a stop left", stop_after(
        program, stopped, fleet.line("refresh", version=1000)) and check(stopped) == (0, [])
    anew = [(name, campaign_anew(old, new), said) for name, old, new, said in MADE_ANEW]
    for name, sql, said in CHANGED + anew:
        found = check(changed(path, own / "changed", sql))
        wanted = said if isinstance(said, list) else [said]
        yield "one with " + name, found is not None and found[0] == bool(wanted) and begin(
            found[1], wanted)
    # (the log alone has the change)
    other = trials.copied(path, own / "logged")
    with closing(sqlite3.connect(other, isolation_level=None)) as db:
        db.execute("PRAGMA journal_mode = WAL").fetchall()
        db.execute("CREATE TABLE notes (note TEXT)")
        yield "one whose log has a table more", trials.log_of(other).stat(
        ).st_size > 0 and check_beside(other) == (1, ["table notes: it is too much"])
    for name, data in (("an empty file", b""), ("a text", b"no database\n"),
                       ("half a file", path.read_bytes()[:2000])):
        (own / "other").write_bytes(data)
        found = check(own / "other")
        yield "%s is none" % name, found is not None and found[0] == 1 and found[1][0].startswith(
            "it is no database of this product: ")
    ran = subprocess.run([sys.executable, trials.RUN, "check_file", own / "none"],
                         capture_output=True, check=False)
    yield "no file", (ran.returncode, ran.stdout) == (
        2, b"") and ran.stderr.count(b"\n") == 1 and not (own / "none").exists()


# what someone does to a file, and which of the lines that follow are then lost; the others are
# answered as ever
TAKEN = [
    ("an index", ["CREATE INDEX by_hardware ON ecu (hardware)"], ()),
    ("a view", ["CREATE VIEW seen AS SELECT vehicle FROM vehicle"], ()),
    ("another table", ["CREATE TABLE notes (note TEXT)"], ()),
    ("an added column", ["ALTER TABLE ecu ADD COLUMN note TEXT"], ()),
    ("a column of another name", ["ALTER TABLE meta RENAME COLUMN stamp TO moment"], (1, 2, 3, 4)),
    ("a dropped table", ["DROP TABLE kept"], (0, 1)),
    ("another dropped table", ["DROP TABLE retired"], (3, 4)),
    ("a trigger on a table", [
        "CREATE TRIGGER told AFTER INSERT ON campaign BEGIN DELETE FROM role_key; END"], (1, ))]
REFUSED = [("a trigger on a table that refers to another", [
    "CREATE TRIGGER told AFTER INSERT ON kept BEGIN DELETE FROM campaign; END"]),
           ("an index of some rows", ["CREATE INDEX some ON vehicle (version) WHERE version > 1"])]
ASKED = [
    fleet.line("show", vehicle="V1"), http_cases.FIRST_PATH[-1],
    fleet.line("refresh", version=50),
    fleet.line("add_vehicle", vehicle="V2", primary="P2",
               ecus=[{"ecu": it, "hardware": "HP", "key": fleet.key(2)} for it in ("P2", "S2")]),
    fleet.line("replace_ecu", vehicle="V2", old="S2", ecu="S3", hardware="HP", key=fleet.key(3))]


def taken_changed(program: str | Path, own: Path) -> trials.Cases:
    """What a start makes of a file that someone changed, as the page on tables has it."""
    path = own / "first"
    trials.printed(program, path, http_cases.FIRST_PATH)
    as_ever = trials.printed(program, trials.copied(path, own / "same"), ASKED)
    yield "each line is answered", len(as_ever) == 5 and not any(
        it.startswith("refused") for it in as_ever)
    for name, sql, lost in TAKEN + [(name, it, None) for name, it in REFUSED]:
        other = changed(path, own / name.replace(" ", "-"), sql)
        unwritten = trials.run(program, trials.copied(other, own / "unwritten"), ASKED)
        yield "a file with %s is refused for its sums" % name, unwritten == (
            3, b"", trials.UNOPENED["damaged"])
        page_sums.rewritten(other)
        if lost is None:
            yield "and with sums, where it is %s" % name, trials.run(
                program, other, ASKED) == (3, b"", trials.UNOPENED["damaged"])
        else:
            wanted = ["refused 2 Store" if at in lost else it for at, it in enumerate(as_ever)]
            yield "with sums it is taken, and %d lines are lost" % len(lost), trials.printed(
                program, other, ASKED) == wanted


def stop_after(program: str | Path, path: str | Path, line: str) -> Any | bool:
    """Whether the program was killed once this line was done, and left a log."""
    with subprocess.Popen([program, "run", path], stdin=subprocess.PIPE,
                          stdout=subprocess.PIPE) as running:
        running.stdin.write(line.encode() + b"\n")
        running.stdin.flush()
        told = running.stdout.readline()
        running.kill()
    return told == b"done\n" and trials.log_of(
        path).exists() and trials.log_of(path).stat().st_size > 0


def begin(lines: list[str], wanted: Any) -> bool:
    """Whether the lines are as many as the wanted ones and begin like them."""
    return len(lines) == len(wanted) and all(line.startswith(it) for line, it in zip(lines, wanted))


def check_beside(path: str | Path) -> tuple[int, list[str]]:
    """The same of a file that a connection has open, whose index of the log may change."""
    ran = subprocess.run([sys.executable, trials.RUN, "check_file", path], capture_output=True,
                         check=False)
    return ran.returncode, ran.stdout.decode("ascii").splitlines()


# ---- keys that are none


def no_keys() -> Iterator[tuple[str, bytes, bool]]:
    """32 bytes that are no public key of Ed25519, each with whether they are nobody's."""
    small = ed25519.small_points()
    named = {"zeros": bytes(32), "0xff": b"\xff" * 32, "the neutral point": small[0]}
    named |= {"point %d of small order" % at: it for at, it in enumerate(small[1:], 1)}
    named |= {"p + 3": (ed25519.P + 3).to_bytes(32, "little")}
    yield from ((name, it, True) for name, it in named.items())
    yield "no point", (2).to_bytes(32, "little"), False
    for at, it in enumerate(small[1:], 1):
        yield "the base point and point %d" % at, ed25519.encode(
            ed25519.add(ed25519.BASE, ed25519.decode(it))), False


def inventory(key: bytes) -> tuple[str, str]:
    """A line that registers a vehicle with this key, and one that puts it in."""
    ecus = [
        fleet.with_public({"ecu": "P", "hardware": "HP", "key": drawn(2)}), {
            "ecu": "S", "hardware": "HS", "key": key.hex()}]
    new = {"ecu": "N", "hardware": "HS", "key": key.hex()}
    return (reference.canonical({
        "do": "add_vehicle", "at": NOW, "vehicle": "W", "primary": "P", "ecus": ecus}),
            reference.canonical({
                "do": "replace_ecu", "at": NOW, "vehicle": "V", "old": "S2", **new}))


def wrong_keys(program: str | Path, own: Path) -> trials.Cases:
    """The program under Ed25519, the maker of lines and both checkers refuse them by name."""
    is_strict, wrong = reference.METHOD == "ed25519", list(no_keys())
    ecus = [{"ecu": it, "hardware": "HS", "key": drawn(3)} for it in ("P2", "S2")]
    lines = [
        fleet.line("found", **fleet.key_set(1)),
        fleet.line("add_vehicle", vehicle="V", primary="P2", ecus=ecus)]
    for name, key, is_nobodys in wrong:
        added, replaced = inventory(key)
        if is_strict:
            lines += [added, replaced]
        told: Any = list(check_script.amiss(added.encode(), NOW))
        yield "the checker of scripts, of " + name, told == is_nobodys * [
            "line 1: look: key: " + points.NOBODYS]
        (own / "table.csv").write_text(
            "vehicle,ecu,hardware,primary,key\nW,P,HP,yes,%s\n" % key.hex(), encoding="ascii")
        told = made("add_vehicle", own / "table.csv", "--at", NOW)
        yield "the maker of lines does", (told[0] == 1 and points.NOBODYS in told[2]) == is_nobodys
        (own / "ecu.key").write_text(pem("PUBLIC",
                                         bytes.fromhex("302a300506032b6570032100") + key),
                                     encoding="ascii")
        words = ["V", "S2", "N", "--hardware", "HS", "--key", own / "ecu.key", "--at", NOW]
        told = made("replace_ecu", *words)
        yield "and of OpenSSL's file", told[0] == 1 and points.NO_PUBLIC_KEY in told[2]
    path = own / "desk"
    told = trials.printed(program, path, lines)
    yield "the program takes no such key", told == [
        "done", "done"] + (len(lines) - 2) * ["refused 7 BadShape key"]
    # a file of an older program
    sql = ["UPDATE ecu SET public_key = X'%s' WHERE ecu = 'S2'" % wrong[0][1].hex()]
    found = check(changed(path, own / "older", sql))
    yield "the checker of files names the ECU", found == (0, []) if not is_strict else (
        found is not None and found[0] == 1 and begin(found[1], ["ecu S2 of V: its key is no "]))


# ---- the page


def data_of(page: str) -> Any:
    return json.loads(re.search(r'id="data" data-now="\d+">(.*?)</script>', page).group(1))


def unwrapped(page: str) -> bool:
    """Whether each text in an element that keeps to one line fits a screen of 420 pixels, of some
    49 letters; on one of at most 760 the style lets some wrap, as the caption of a line over time.
    """
    style = re.search(r"<style>(.*?)</style>", page, re.S)[1]
    wide, narrow = style.split("@media (max-width: 760px)")
    kept = set(re.findall(r"\.([\w-]+)(?: small)? { [^}]*white-space: nowrap", wide))
    lets = set(re.findall(r"\.([\w-]+) { [^}]*white-space: normal", narrow))
    texts = [
        (words[0], html.unescape(re.sub("<[^>]*>", "", words[1])))
        for words in re.findall(r'<(?:div|span|a|td|small) class="([\w -]+)"[^>]*>(.*?)</', page)]
    longest = max(len(text) for names, text in texts if "of" in names.split())
    return "of" in kept & lets and longest > 20 and all(
        len(text) < 49 for names, text in texts if set(names.split()) & (kept - lets))


def pages(program: str | Path, own: Path) -> trials.Cases:
    path = own / "fleet"
    lines = list(fleet.script(vehicles=10, ecus=4, rounds=3, second_hashes=0.7, replaced=0.2))
    lines += unlike(lines)
    lines.append(
        fleet.line("add_vehicle", vehicle="new", primary="n", ecus=[{
            "ecu": "n", "hardware": "HP", "key": fleet.key(9)}]))
    attack = {
        "ecu": "n", "key": fleet.key(9), "counter": 1, "time": NOW, "attack": "</script><b>&",
        **fleet.FACTORY}
    yield "a fleet", trials.printed(program, path, lines) is not None
    made = page_of(path)
    packed = data_of(made)
    yield "all vehicles are on the page", len(
        packed["vehicles"]
    ) == 11 and packed["vehicles"][0][0] == "new" and packed["vehicles"][0][2] is None
    yield "nothing comes from outside", not re.search(r"(?:src|href)=\"(?!#)|url\(|@import|https?:",
                                                      made)
    with trials.read(path) as db:
        left = dict(db.execute(query("use/TABLES.md", "SELECT campaign.name, count(ecu.ecu)")))
        secrets = [
            row[0].hex()
            for row in db.execute("SELECT secret FROM role_key UNION SELECT public_key FROM ecu")]
    with fleet_tables.opened(path) as db:
        schema = fleet_tables.meta_of(db)["schema"]
        images = fleet_tables.registered(db, schema)
        vehicles = fleet_tables.vehicles_of(db, fleet_tables.ecus_of(db, images, schema))
        campaigns = fleet_tables.campaigns_of(db, images, vehicles)
        far = {it["name"]: it["ecus"] - it["done"] for it in campaigns if it["running"]}
        its = {
            it["name"]:
            vehicles if it["all"] else [one for one in vehicles if one["vehicle"] in it["reached"]]
            for it in campaigns}
        began = {
            it["name"]: fleet_tables.taken_up(db, it, images, its[it["name"]]) for it in campaigns}
        gone = [(it["vehicle"], it["ecu"], it["version"])
                for it in fleet_tables.replaced_of(db, schema)]
    yield "campaigns are as far as the query says", far == left and len(far) == 5
    places = {it[0]: at for at, it in enumerate(packed["vehicles"])}
    listed = {
        name.removeprefix("left "): its for name, its in packed["sets"].items()
        if name.startswith("left ")}
    yield "each campaign leads to the vehicles that are left", listed == {
        it["name"]: [places[name] for name in it["left"]] for it in campaigns if it["left"]
    } and listed
    told: Any
    told, offers = histories(path), {
        it["name"]: {one["hardware"]: one["file"] for one in it["items"]} for it in campaigns}
    first = {
        it["name"]: sorted(
            begun(told[ecu["ecu"]], ecu["file"])
            for _, ecu, has in fleet_tables.moves_of(it, images, its[it["name"]])
            if has and ecu["file"] == offers[it["name"]][ecu["hardware"]]) for it in campaigns}
    yield "ECUs began to report an image when their manifests first had it", began == first and len(
        set(sum(began.values(), []))) > 1
    with trials.read(path) as db:
        wanted = db.execute(
            query("use/TABLES.md", "SELECT retired.vehicle, retired.ecu, max(version)")).fetchall()
    yield "replaced ECUs are those of the query", sorted(gone) == sorted(
        wanted) and len(gone) > 1 and all(it[1] in made for it in gone)
    yield "each table can be saved", re.findall('data-csv="([a-z]+)"', made)[:3] == [
        "campaigns", "files", "releases"]
    yield "the page is as of the newest manifest", "as of %s UTC" % date_of(
        max(it["seen"] or 0 for it in vehicles)) in made
    yield "no secret is on the page", secrets and not any(secret in made for secret in secrets)
    yield "at 420 pixels each text that can't wrap fits", unwrapped(made)
    trials.printed(program, path, [
        fleet.line("bench", vehicle="new", primary="n", key=fleet.key(9), counter=1, reports=[
            attack])])
    made = page_of(path)
    yield "an attack's note is text", "<b>&" not in made and data_of(
        made)["vehicles"][0][4][0][4] == "</script><b>&"
    late = page_of(path, now=NOW + 30 * 86400 + 5)
    told = "expired 29 days ago" in late and "<b>2 files</b>expired" in late
    yield "expired files are told, at the top too", told and "expired" not in made.split("<h2")[0]
    yield from pages_of_several(program, own)
    other = own / "other"
    other.write_bytes(b"")
    ran = subprocess.run([sys.executable, trials.RUN, "fleet_page", other], capture_output=True,
                         check=False)
    yield "another file is refused", (ran.returncode,
                                      ran.stdout) == (1, b"") and ran.stderr.count(b"\n") == 1
    yield from other_schemas(path, own)


def pages_of_several(program: str | Path, own: Path) -> trials.Cases:
    """Of several desks the page says of campaigns and vehicles what one desk's with all vehicles
    does.
    """
    every = list(fleet.script(vehicles=24, ecus=3, rounds=6, campaigns=3, seed=3))

    def vehicle_of(line: str) -> Any:
        return json.loads(line).get("vehicle")

    home = {
        name: at % 3 for at, name in enumerate(sorted(set(filter(None, map(vehicle_of, every)))))}
    copies = []
    for desk in range(3):
        lines = [line for line in every if home.get(vehicle_of(line), desk) == desk]
        copies.append("desk%d=%s" % (desk, own / ("desk%d" % desk)))
        trials.printed(program, own / ("desk%d" % desk),
                       [reached(line, lambda name: home[name] == desk) for line in lines])
    trials.printed(program, own / "alone", every)
    one, several = page_of(own / "alone"), page_of(*copies)

    def campaigns(page: str) -> str:
        return page.split('<h2 id="campaigns">')[1].split('<h2 id="files">')[0]

    yield "a campaign of several desks is as it would be of one", campaigns(one) == campaigns(
        several) and one.count("<svg") > 1

    def listed(page: str) -> list[Any]:
        return [it[:5] for it in data_of(page)["vehicles"]]

    yield "and so are the vehicles", listed(one) == listed(several) and len(listed(one)) == 24
    table = several.split("<h2>Desks</h2>")[1].split("<h2>")[0]
    rows = re.findall("<code.*?>(desk.)</code></td>.*?>([0-9]+)</td>", table)
    yield "each desk has a row", rows == [
        ("desk%d" % at, "8") for at in range(3)] and "Desks" not in one


def reached(line: str, whether: Any) -> str:
    """The line, in which a campaign reaches only such vehicles."""
    told = json.loads(line)
    if told["do"] != "open_campaign" or told["vehicles"] == "all":
        return line
    return json.dumps(told | {"vehicles": list(filter(whether, told["vehicles"]))})


def date_of(seconds: int) -> str:
    return datetime.fromtimestamp(seconds, timezone.utc).strftime("%Y-%m-%d %H:%M")


def histories(path: str | Path) -> dict[Any, Any]:
    """What each ECU reported, the newest first: the manifest's moment and the file."""
    made: Any = {}
    with trials.read(path) as db:
        for moment, signed in db.execute(
                "SELECT moment, signed FROM kept ORDER BY vehicle, version DESC"):
            for it in json.loads(signed)["reports"]:
                made.setdefault(it["signed"]["ecu"], []).append(
                    (moment, it["signed"]["image"]["file"]))
    return made


def begun(history: list[Any], file: str) -> Any:
    """The moment of the first manifest from which on the ECU reported the file until now."""
    return list(itertools.takewhile(lambda it: it[1] == file, history))[-1][0]


def unlike(lines: list[str]) -> Iterator[str]:
    """One more manifest of each vehicle, whose ECUs report another second hash than the
    registered image's, or none that is one.
    """
    told = [json.loads(line) for line in lines]
    for at, last in enumerate({it["vehicle"]: it for it in told if it["do"] == "bench"}.values()):
        hash = [fleet.second("another"), fleet.second("another").upper(), 128 * "x"][at % 3]
        reports = [
            report | {"counter": report["counter"] + 9, "sha512": hash}
            for report in last["reports"]]
        yield fleet.line(
            "deliver", last["at"],
            body=fleet.body(last
                            | {"counter": last["counter"] + 9, "reports": reports}))


def page_of(*copies: Any, now: int = NOW + 4 * 3600) -> str:
    ran = subprocess.run([sys.executable, trials.RUN, "fleet_page", *copies, "--now",
                          str(now)], capture_output=True, check=False)
    return ran.stdout.decode("ascii") if not ran.returncode and not ran.stderr else ""


def other_schemas(path: str | Path, own: Path) -> trials.Cases:
    """A file of schema 1 hasn't the retired identifiers, and one of 1 or 2 no second hashes:
    vehicles have what they had, and how far a campaign is may differ.
    """

    def listed(page: str) -> dict[Any, Any]:
        return {name: it for name, it in data_of(page).items() if name != "sets"}

    wanted = listed(page_of(path))
    for schema in sorted(statements.LACKS):
        other = own / ("schema%d" % schema)
        if statements.LACKS[schema]:
            schemas.written(path, other, schema)
        else:
            trials.copied(path, other)
            with closing(sqlite3.connect(other)) as db, db:
                db.execute(
                    "INSERT OR REPLACE INTO image_sha512 SELECT file, zeroblob(64) FROM image")
        yield "a page of schema %d" % schema, schemas.schema_of(other) == schema and listed(
            page_of(other)) == wanted


# ---- what the page for operators says


def query(page: str, begins: Any) -> str:
    """The statement of a page of `docs/` that begins so."""
    text = (trials.TOP / "docs" / page).read_text(encoding="utf-8")
    found = re.search(r"^    %s.*?(?=\n\n|\n[^ ])" % re.escape(begins), text,
                      re.MULTILINE | re.DOTALL)
    return re.sub(r"\s+", " ", found.group(0)).strip()


def operating(program: str | Path, own: Path) -> trials.Cases:
    lines, wanted = translated.under(trials.TOP / "examples" / "operating", reference.METHOD)
    yield "an operator's first days", translated.are_as(
        wanted, trials.printed(program, own / "days", lines))
    with trials.read(own / "days") as db:
        silent = [
            row[0] for row in db.execute(
                query("use/OPERATING.md", "SELECT vehicle.vehicle, datetime(max(moment)"))]
        yield "vehicles that are silent", silent == ["VIN-0001", "VIN-0002"]
        expired = [
            row[0]
            for row in db.execute(query("use/OPERATING.md", "SELECT repository || '/' || name"))]
        yield "files that expire, the next first", expired[0] == "image/timestamp.json" and len(
            expired) == 5
        attacks = db.execute(
            query("use/OPERATING.md",
                  "SELECT vehicle, ecu, json_extract(report, '$.attack')")).fetchall()
        yield "attacks", len(attacks) == 1 and attacks[0][:2] == ("VIN-0001", "br-0001")
    yield from scripts_given(program, own, lines[0])


def scripts_given(program: str | Path, own: Path, founding: str) -> trials.Cases:
    """The page's two ways to give a script by hand: where no service runs, and beside one."""
    (own / "founding.script").write_text(founding + "\n", encoding="ascii")
    (own / "today.script").write_text('\nnope\n\n{"at":1767225600,"do":"show","vehicle":"V9"}\n',
                                      encoding="ascii")
    path, operators = own / "first", own / "socket"
    told = given(own, "uptane_desk run", {
        "runuser -u uptane -- uptane_desk": str(program), "/var/lib/uptane/desk.db": str(path)})
    yield "a script where no service runs", told == "done\n"
    with http_cases.served(program, path, 1, operators=operators):
        told = given(
            own, "tools/run tell", {
                "tools/run": "%s %s" %
                (sys.executable, trials.RUN), "/var/lib/uptane/desk.socket": str(operators)})
    yield "a script beside the service", told == "refused 5 NotJson\nrefused 10 UnknownVehicle\n"


def given(own: Path, words: str, changes: dict[str, str]) -> str:
    """What the command of the section on giving scripts prints that has these words, once it is
    changed so; what it says is an error.
    """
    page = (trials.TOP / "docs" / "use" / "OPERATING.md").read_text(
        encoding="utf-8").split("\n## Giving scripts\n")[1].split("\n## ")[0]
    asked, = re.findall(r"^    (.*%s .*)$" % words, page, re.MULTILINE)
    for old, new in changes.items():
        assert old in asked, asked
        asked = asked.replace(old, new)
    ran = subprocess.run(["bash", "-c", asked], cwd=own, capture_output=True, check=False)
    return (ran.stdout + ran.stderr).decode("ascii", "replace")


def cases(program: Path) -> trials.Cases:
    yield from checker()
    yield from trials.each(program, makers, checked_files, taken_changed, wrong_keys, pages,
                           operating, rollouts)


def main(words: arguments.Words = None) -> int:
    """Tries the program that is named."""
    return trials.tried(__doc__, words, "operator", cases)
