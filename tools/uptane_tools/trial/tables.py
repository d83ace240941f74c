"""Tries the files that the program leaves with SQLite itself, and the other way round. Bounded
to a minute.

    tools/run tables PROGRAM

A fleet's day, of images with second hashes and without, is carried out over a file. SQLite has
to find the file whole, with the tables of `docs/use/TABLES.md` and the rows that `tools/run
reference` makes of the same day. A file that SQLite wrote, with the same rows, is adopted and
answers alike, and so are copies. The page's queries have to tell what the day's answers told.
Files of older schemas, which SQLite makes of the rows of worked rows, are raised and answer as
before, with the same kept replies. And refusals that come before images or campaigns are read
are answered where SQLite has damaged those rows, as lines that read a damaged row are refused.

promise: columns-read, store-opened, store-columns, file-adopted
"""
import json
import re
import shlex
import shutil
import sqlite3
import subprocess
from collections.abc import Iterator
from contextlib import closing
from itertools import combinations
from pathlib import Path
from typing import Any

from uptane_tools import arguments
from uptane_tools.measure import fleet
from uptane_tools.operate import page_sums, statements
from uptane_tools.oracle import reference
from uptane_tools.rows import translated
from uptane_tools.trial import schemas, trials

FLEET: dict[str, Any] = {
    "vehicles": 9, "ecus": 4, "rounds": 3, "images": 14, "campaigns": 4, "seed": 13}
DAY = list(fleet.script(**FLEET, second_hashes=0.5))
HALF = len(DAY) // 2
# what an older program may have done
OLD_DAY = list(fleet.script(**FLEET))
SHOWS = [fleet.line("show", vehicle="v%06d" % number) for number in range(9)]


def has_the_schema(path: Any) -> trials.Cases:
    with trials.read(path) as db:
        yield "the file's tables are those of the page", schemas.number_in(db) == statements.SCHEMA
        texts = db.execute("SELECT sql FROM sqlite_schema WHERE type = 'table' ORDER BY rowid")
        told = [row[0].split() for row in texts]
        yield "so is the text of each", told == [
            statement.split() for statement in statements.schema()]


def backed_up(path: str | Path, to: Path) -> Path | None:
    """SQLite's own backup, with the sums of its pages made anew."""
    with trials.read(path) as db, closing(sqlite3.connect(to)) as made:
        db.backup(made)
    return to if page_sums.rewritten(to) == 0 else None


def dumped(path: Path, to: Path) -> Path:
    """What `.dump` prints, read by a new file."""
    with trials.read(path) as db, closing(sqlite3.connect(to)) as made:
        made.executescript("\n".join(db.iterdump()))
    return to


def by_the_page(path: str | Path, to: Path) -> Path:
    """The page's own commands for a copy of a file and its log, where `sqlite3` is installed."""
    commands = re.search(
        r"^    (sqlite3 FILE '\.backup BACKUP')\n    (tools/run page_sums BACKUP)$",
        statements.PAGE.read_text(encoding="ascii"), re.M)
    if not shutil.which("sqlite3"):
        return shutil.copy(path, to)
    for command in commands.groups():
        words = shlex.split(command.replace("FILE", str(path)).replace("BACKUP", str(to)))
        subprocess.run(words, capture_output=True, check=True, cwd=trials.TOP)
    return to


def copies(program: str | Path, own: Path) -> trials.Cases:
    """What is made of the file halfway goes on as the file itself does."""
    half = own / "half"
    yield "the first half", trials.printed(program, half, DAY[:HALF]) is not None
    made = {
        "a file that SQLite wrote": schemas.written(half, own / "written", statements.SCHEMA),
        "a backup by SQLite": backed_up(half, own / "backup"),
        "a backup by the page's commands": by_the_page(trials.copied(half, own / "other"),
                                                       own / "page"),
        "a dump read again": dumped(half, own / "dumped"),
        "a copy": shutil.copy(half, own / "copied"), }
    wanted = trials.printed(program, half, DAY[HALF:] + SHOWS)
    yield "the second half", wanted is not None
    for name, path in made.items():
        yield name + " is adopted and answers alike", trials.printed(program, path,
                                                                     DAY[HALF:] + SHOWS) == wanted
        yield name + " then has the same rows", trials.rows(path) == trials.rows(half)
        yield name + " is whole then", trials.faults(path) == []


OURS = "INSERT INTO meta VALUES (1, 'uptane_desk', %d, 0, 0, 0)"

NEWER = ["schema %d's" % number for number in (5, 2**62)]


def foreign(program: str | Path, own: Path) -> trials.Cases:
    """Databases of others, and files that hold none, are refused and stay as they are."""
    made = {
        "another product's": [
            "CREATE TABLE meta (id INTEGER PRIMARY KEY, app TEXT, schema INTEGER)",
            "INSERT INTO meta VALUES (1, 'other', 1)"], "one without our row": statements.schema(),
        "tables of the same names": [
            "CREATE TABLE %s (a INTEGER) STRICT" % table for table in trials.TABLES]}
    for schema in (0, 5, -1, 2**62):
        made["schema %d's" % schema] = statements.schema() + [OURS % schema]
    for schema in statements.OLDER:
        made["one set back to schema %d" % schema] = statements.schema() + [OURS % schema]
    for number, (name, sql) in enumerate(made.items()):
        path = own / ("foreign%d" % number)
        with closing(sqlite3.connect(path)) as db, db:
            for statement in sql:
                db.execute(statement)
        causes = ["schema"] if name in NEWER else ["product", "damaged"]
        stays = is_refused(program, path, causes) and trials.faults(path) == []
        yield name + " is refused and stays", stays
    path = own / "text"
    path.write_bytes(b"no database\n")
    yield "a text is refused and stays", is_refused(program, path, ["product", "damaged"])


def is_refused(program: str | Path, path: Any, causes: Any) -> Any | bool:
    before = path.read_bytes()
    status, out, err = trials.run(program, path, DAY[:1])
    wanted = [trials.UNOPENED[cause] for cause in causes]
    return (status, out) == (3, b"") and err in wanted and path.read_bytes() == before


# ---- older schemas

WORKED = [
    "first_manifest", "kept_reply_after_a_rotation", "equal_and_greater_releases",
    "withheld_for_a_need", "vehicles_in_turn"]
FILES = [("director", "root.json"), ("director", "1.root.json"), ("image", "root.json"),
         ("image", "targets.json"), ("image", "snapshot.json"), ("image", "timestamp.json"),
         ("image", "2.root.json")]


def worked() -> trials.Cases:
    """Scripts after which a database is taken back to an older schema: worked rows, and half a day.
    """
    for name in WORKED:
        yield name, list(
            filter(None,
                   translated.under(trials.TOP / "rows" / name, reference.METHOD)[0]))
    yield "half a day", OLD_DAY[:HALF]
    yield "reports with second hashes", list(second_hashes_reported())


def second_hashes_reported() -> Iterator[Any]:
    """An older program took reports that have one, and kept them, but registered no image with one.
    """
    yield fleet.line("found", **fleet.key_set(1))
    yield from (vehicle("V1", "P1", "S1"), image("a"), campaign("mine", ["V1"], "HP", "a"))
    for counter, hash in enumerate(
        (fleet.second("a"), fleet.second("b").upper(), fleet.second("a")[1:], None, ""), 1):
        yield delivered("V1", counter, "P1", "S1", file="a", second=hash)


BOTH: dict[str, Any] = {
    "file": "both.bin", "length": 1, "sha256": fleet.digest("both"), "sha512": fleet.second("both"),
    "hardware": ["HS"], "release": 99}


def asked_again(lines: Any) -> Iterator[str]:
    """After a script: its vehicles are shown, files fetched, its lines given again, each vehicle
    sends one more manifest, and an ECU of it is replaced, after which its last manifests come
    again and the new one reports, at last an image with a second hash.
    """
    told: Any = [json.loads(line) for line in lines]
    names = [it["vehicle"] for it in told if it["do"] == "add_vehicle"]
    yield from (fleet.line("show", vehicle=name) for name in names)
    yield from (fleet.line("fetch", repository=repository, file=file) for repository, file in FILES)
    yield from lines
    yield fleet.line("add_image", **BOTH)
    yield campaign("both", "all", "HS", BOTH["file"])
    for last in {it["vehicle"]: it for it in told if it["do"] == "bench"}.values():
        reports = [report | {"counter": report["counter"] + 50} for report in last["reports"]]
        yield json.dumps(last | {"counter": last["counter"] + 50, "reports": reports})
        old = reports[-1]
        new = {"ecu": old["ecu"] + "-new", "key": fleet.key(9)}
        told = {"vehicle": last["vehicle"], "old": old["ecu"], "hardware": "HS", **new}
        yield fleet.line("replace_ecu", **told)
        yield json.dumps(last)
        yield json.dumps(last | {"counter": last["counter"] + 51, "reports": reports})
        yield json.dumps(last
                         | {"counter": last["counter"] + 51, "reports": [*reports[:-1], old | new]})
        of_both = old | new | fleet.content(BOTH)
        for step, hash in ((52, fleet.second("another")), (53, BOTH["sha512"].upper())):
            told = of_both | {"counter": old["counter"] + step, "sha512": hash}
            yield json.dumps(
                last | {"counter": last["counter"] + step, "reports": [*reports[:-1], told]})
    yield from (fleet.line("show", vehicle=name) for name in names)


def raised(program: str | Path, path: str | Path, asked: Any, wanted: Any,
           rules: Any) -> trials.Cases:
    """A file of an older schema is raised as it is, then goes on as it would have gone on."""
    before = schemas.rows(path)
    yield "is taken", trials.printed(program, path, []) == []
    yield "has the page's schema then", all(well for _, well in has_the_schema(path))
    yield "has the same rows then", trials.rows(path) == before
    yield "answers as before", trials.printed(program, path, asked) == wanted
    after = trials.rows(path)
    yield "has the rows of the rules", after == rules
    yield "keeps each reply, byte for byte", before["kept"] != [] and set(before["kept"]) <= set(
        after["kept"])
    yield "had no second hash, and has one now", before["image_sha512"] == [] != after[
        "image_sha512"]
    yield "is whole", trials.faults(path) == []


def older(program: str | Path, own: Path) -> trials.Cases:
    """Databases of each older schema: made by its statements, and files of the program's own
    that are taken back to it.
    """
    for name, lines in worked():
        path, rules = own / name, own / (name + " by the rules")
        yield name, trials.printed(program, path, lines) is not None
        asked = list(asked_again(lines))
        wanted = trials.expected(trials.copied(path, rules), asked)
        for number in statements.OLDER:
            for made in (schemas.written, schemas.lowered):
                to = made(path, own / ("%s %s %d" % (name, made.__name__, number)), number)
                yield "%s, of schema %d" % (to.name, number), schemas.schema_of(to) == number
                for what, well in raised(program, to, asked, wanted, trials.rows(rules)):
                    yield "%s: it %s" % (to.name, what), well
    path = schemas.written(own / "half a day", own / "retired", 2)
    with closing(sqlite3.connect(path)) as db, db:
        db.execute("INSERT INTO retired VALUES ('old-ecu', 'v000001')")
    yield "schema 2 with a retired ECU is taken", trials.printed(program, path, []) == []
    yield "and keeps it", trials.rows(path)["retired"] == [
        ("old-ecu", "v000001")] and trials.faults(path) == []


# ---- what refusals read

DAMAGED_IMAGES, DAMAGED_CAMPAIGNS = "UPDATE image SET needs = 'x'", ("UPDATE campaign SET items = "
                                                                     "'x'")
CLOSED_CAMPAIGNS = DAMAGED_CAMPAIGNS + " WHERE running = 0"
SEVENTEEN = [{"hardware": "H%d" % number, "release": 1} for number in range(17)]
LONG_NEEDS = "UPDATE image SET needs = '%s' WHERE file = 'b'" % reference.canonical(SEVENTEEN)
LONG_ITEMS = "UPDATE campaign SET items = '%s' WHERE name = 'theirs'" % reference.canonical(
    [{"file": "b", "hardware": "HS"}] * 17)
OTHER_IMAGES = DAMAGED_IMAGES + " WHERE file <> 'a'"
OTHER_CAMPAIGNS = DAMAGED_CAMPAIGNS + " WHERE name <> 'mine'"
INSTALLED = ("file", "length", "sha256")
NOT_CANONICAL = '{"signatures":[{"keyid":"k","method":"m","sig":"aa"}],"signed":{"x":1.5}}'
LATE = 4102444801
LOST = "refused 2 Store"


def image(file: str, kind: str = "HP", release: int = 1) -> str:
    members = {
        "file": file, "length": 1, "sha256": fleet.digest(file), "hardware": [kind],
        "release": release}
    return fleet.line("add_image", **members)


def campaign(name: str, vehicles: Any, kind: str, file: Any) -> str:
    return fleet.line("open_campaign", campaign=name, vehicles=vehicles, items=[{
        "hardware": kind, "file": file}])


def close(name: str) -> str:
    return fleet.line("close_campaign", campaign=name)


def vehicle(name: str, *ecus: str) -> str:
    told = [{"ecu": ecu, "hardware": "HP", "key": fleet.key(7)} for ecu in ecus]
    return fleet.line("add_vehicle", vehicle=name, primary=ecus[0], ecus=told)


def replaced(vehicle: Any, old: str, ecu: str | dict[str, Any] | None,
             at: int = fleet.START) -> str:
    return fleet.line("replace_ecu", at, vehicle=vehicle, old=old, ecu=ecu, hardware="HP",
                      key=fleet.key(7))


def delivered(name: str, counter: int | str | None, *ecus: Any, primary: str = "P1", key: int = 7,
              report_key: int = 7, of: int = 0, file: str | None = None, **second: Any) -> str:
    """A manifest with a report of each ECU, at the counter of the manifest or at another; of the
    factory's image or of a file, and with what stands in the place of a `second` hash.
    """
    had = {"file": file, "length": 1, "sha256": fleet.digest(file)} if file else fleet.FACTORY
    report: dict[str, Any] = {
        "counter": of or counter, "key": fleet.key(report_key), "time": fleet.START, **had}
    report |= {"sha512": hash for hash in second.values()}
    told = {"vehicle": name, "primary": primary, "key": fleet.key(key), "counter": counter}
    return fleet.line("deliver",
                      body=fleet.body(told | {"reports": [report | {"ecu": ecu} for ecu in ecus]}))


def founded() -> Iterator[Any]:
    """Two vehicles, images `a` and `b`, and campaigns: for the first one, for the other one, and
    one that is closed.
    """
    yield fleet.line("found", **fleet.key_set(1))
    yield from (vehicle("V1", "P1", "S1"), vehicle("V2", "P2"), image("a"), image("b", "HS"))
    yield from (campaign("mine", ["V1"], "HP", "a"), campaign("theirs", ["V2"], "HS", "b"))
    yield from (campaign("over", ["V2"], "HS", "b"), close("over"))
    yield from (delivered("V1", 1, "P1", "S1"), delivered("V1", 3, "P1", "S1"))


def repeated_keys() -> dict[str, Any]:
    keys = fleet.key_set(1)
    keys["image"]["root"]["keys"] *= 2
    return keys


def all_damaged() -> Iterator[tuple[str, str]]:
    """Refusals for which no image and no campaign is read, where all are damaged, and between
    them lines that read one.
    """
    yield fleet.line("found", LATE, **fleet.key_set(1)), "refused 3 MomentOutOfRange"
    yield fleet.line("found", **repeated_keys()), "refused 7 BadShape keys"
    yield fleet.line("found", **fleet.key_set(1)), "refused 9 AlreadyFounded"
    yield fleet.line("rotate", LATE, **fleet.key_set(9)), "refused 3 MomentOutOfRange"
    yield fleet.line("rotate", **repeated_keys()), "refused 7 BadShape keys"
    yield fleet.line("rotate", **fleet.key_set(9)), LOST
    yield image("a"), LOST
    yield image("c"), LOST
    yield fleet.line("refresh", LATE, version=99), "refused 3 MomentOutOfRange"
    yield fleet.line("refresh", version=3), "refused 28 VersionNotGreater"
    yield fleet.line("refresh", version=99), LOST
    yield campaign("new", "all", "HP", "a"), LOST
    yield fleet.line("close_campaign", LATE, campaign="mine"), "refused 3 MomentOutOfRange"
    yield close("none"), "refused 25 UnknownCampaign"
    yield close("mine"), LOST
    yield fleet.line("deliver", LATE, body=""), "refused 3 MomentOutOfRange"
    yield fleet.line("deliver", body=262_145 * " "), "refused 4 TooLarge"
    yield fleet.line("deliver", body=""), "refused 5 NotJson"
    yield fleet.line("deliver", body=NOT_CANONICAL), "refused 6 NotCanonical"
    yield fleet.line("deliver", body="{}"), "refused 7 BadShape signatures"
    yield delivered("V1", 4, "P1", "S1"), LOST
    yield vehicle("V1", "P1", "S2"), "refused 22 VehicleTaken"
    yield vehicle("V3", "P3", "P3"), "refused 15 DuplicateEcu P3"
    yield vehicle("V3", "P3", "S1"), "refused 23 EcuTaken S1"
    yield replaced("V1", "S1", "S2", LATE), "refused 3 MomentOutOfRange"
    yield replaced("V3", "S1", "S2"), "refused 10 UnknownVehicle"
    yield replaced("V1", "P2", "S2"), "refused 14 UnknownEcu P2"
    yield replaced("V1", "P1", "S2"), "refused 31 PrimaryFixed"
    yield replaced("V1", "S1", "P2"), "refused 23 EcuTaken P2"
    yield fleet.line("fetch", repository="image", file="none"), "refused 29 UnknownFile"


def others_damaged() -> Iterator[Any]:
    """Those for which only the image and the campaigns that they name are read, where all others
    are damaged. A manifest reads all images and running campaigns, before its vehicle is looked
    at: so each is lost.
    """
    yield image("a"), "already"
    yield image("a", release=2), "refused 19 ImageTaken"
    yield fleet.line("add_image", LATE, **fleet.FACTORY, hardware=["HP"],
                     release=1), "refused 3 MomentOutOfRange"
    yield campaign("mine", ["V1"], "HP", "a"), "already"
    yield campaign("mine", "all", "HP", "a"), "refused 24 CampaignTaken"
    yield campaign("new", ["V9"], "HP", "a"), "refused 10 UnknownVehicle"
    yield campaign("new", "all", "HP", "none"), "refused 26 UnknownImage"
    yield campaign("new", "all", "HS", "a"), "refused 27 WrongHardware"
    yield campaign("new", "all", "HS", "b"), LOST
    yield from ((line, LOST) for line, _ in deliveries())
    yield delivered("V1", 4, "P1", "S1", file="b"), LOST
    yield delivered("V2", 1, "P2", primary="P2"), LOST
    yield fleet.line("deliver", body=NOT_CANONICAL), "refused 6 NotCanonical"
    yield fleet.line("fetch", repository="image", file="none"), "refused 29 UnknownFile"
    yield image("a"), "already"


def one_damaged() -> Iterator[Any]:
    """A manifest reads the images and the running campaigns, whomever they are for, unless they
    were read before.
    """
    yield fleet.line("deliver", body="{}"), "refused 7 BadShape signatures"
    yield from ((line, LOST) for line, _ in deliveries())
    yield vehicle("V1", "P1", "S1"), "already"


def closed_damaged() -> Iterator[Any]:
    """What is read of no closed campaign, where those are damaged, each line twice."""
    for line, wanted in deliveries():
        yield from ((line, wanted), (line, wanted))
    yield campaign("mine", ["V1"], "HP", "a"), "already"
    yield campaign("over", ["V2"], "HS", "b"), LOST
    yield close("over"), LOST
    yield from deliveries()


def deliveries() -> Iterator[tuple[str, str]]:
    """Manifests that are refused, and a repeat. None of them changes a row."""
    yield delivered("V9", 4, "P1", "S1"), "refused 10 UnknownVehicle"
    yield delivered("V1", 4, "P1", "S1", primary="S1"), "refused 11 WrongPrimary"
    yield delivered("V1", 4, "P1", "S1", key=8), "refused 12 BadManifestSignature"
    yield delivered("V1", 1, "P1", "S1"), "reply V1 version 1 targets 2"
    yield delivered("V1", 2, "P1", "S1"), "refused 13 Stale 3"
    yield delivered("V1", 4, "P1", "P2"), "refused 14 UnknownEcu P2"
    yield delivered("V1", 4, "P1", "P1"), "refused 15 DuplicateEcu P1"
    yield delivered("V1", 4, "P1"), "refused 16 MissingEcu S1"
    yield delivered("V1", 4, "P1", "S1", report_key=8), "refused 17 BadReportSignature P1"
    yield delivered("V1", 4, "P1", "S1", of=2), "refused 18 ReportReplayed P1"


def second_hashes_damaged() -> Iterator[Any]:
    """Those for which an image's second hash is read, where all of them are damaged, and
    refusals before that.
    """
    yield image("a"), LOST
    yield image("c"), LOST
    yield fleet.line("refresh", version=99), LOST
    yield fleet.line("refresh", version=3), "refused 28 VersionNotGreater"
    yield fleet.line("rotate", **fleet.key_set(9)), LOST
    yield campaign("new", "all", "HP", "a"), LOST
    yield campaign("new", "all", "HP", "none"), "refused 26 UnknownImage"
    yield campaign("new", ["V9"], "HP", "a"), LOST
    yield delivered("V1", 4, "P1", "S1"), LOST
    yield from ((line, LOST) for line, _ in deliveries())
    yield close("over"), "already"


def in_part() -> list[tuple[str, ...]]:
    """One or two of the three columns that say together what an ECU has installed."""
    return [*combinations(INSTALLED, 1), *combinations(INSTALLED, 2)]


def emptied(columns: Any) -> str:
    return "UPDATE ecu SET %s WHERE ecu = 'S1'" % ", ".join(column + " = NULL"
                                                            for column in columns)


def installed_in_part() -> Iterator[tuple[str, str]]:
    """Lines that read what an ECU has installed, where a part of it is null."""
    yield fleet.line("show", vehicle="V1"), LOST
    yield delivered("V1", 4, "P1", "S1"), LOST
    yield replaced("V1", "S1", "S2"), LOST


def unfounded() -> Iterator[tuple[str, str]]:
    """Before the founding, over an image that no call of the product leaves."""
    yield fleet.line("rotate", **fleet.key_set(9)), "refused 8 NotFounded"
    yield fleet.line("refresh", version=99), "refused 8 NotFounded"
    yield image("c"), "refused 8 NotFounded"
    yield close("mine"), "refused 8 NotFounded"
    yield delivered("V1", 4, "P1", "S1"), "refused 8 NotFounded"
    yield replaced("V1", "S1", "S2"), "refused 8 NotFounded"
    yield fleet.line("found", **fleet.key_set(1)), LOST


def read(program: Any, own: Path) -> trials.Cases:
    """Refusals that come before images or campaigns are read, whatever their rows hold. None of
    these lines changes a row.
    """
    rotated = [fleet.line("rotate", **fleet.key_set(9))] * 63
    greatest = fleet.line("refresh", version=2**53 - 1)
    strange = "INSERT INTO image VALUES ('a', 1, x'00', 'x', 1, 'x', 'x')"
    rotate = fleet.line("rotate", **fleet.key_set(9))
    made = {
        "all": (founded(), [DAMAGED_IMAGES, DAMAGED_CAMPAIGNS], all_damaged()),
        "others": (founded(), [OTHER_IMAGES, OTHER_CAMPAIGNS], others_damaged()),
        "one image": (founded(), [OTHER_IMAGES], one_damaged()),
        "one campaign": (founded(), [DAMAGED_CAMPAIGNS + " WHERE name = 'theirs'"], one_damaged()),
        "an image of 17 needs": (founded(), [LONG_NEEDS], one_damaged()),
        "a campaign of 17 items": (founded(), [LONG_ITEMS], one_damaged()),
        "closed campaigns": (founded(), [CLOSED_CAMPAIGNS], closed_damaged()),
        "second hashes": (founded(), ["INSERT INTO image_sha512 SELECT file, x'00' FROM image"],
                          second_hashes_damaged()),
        **{
            "installed " + " and ".join(columns): (founded(), [emptied(columns)], installed_in_part(
                                                   )) for columns in in_part()},
        "unfounded": ([], [strange], unfounded()),
        "64 roots": ([*founded(), *rotated], [DAMAGED_IMAGES], [(rotate, "refused 30 RootFull")]),
        "the greatest version": ([*founded(), greatest], [DAMAGED_IMAGES], [
            (rotate, "refused 21 VersionLimit")]), }
    for name, (before, sql, asked_of_it) in made.items():
        begun = trials.printed(program, own / name, before)
        yield "before %s" % name, begun is not None and not any(
            answer.startswith("refused") for answer in begun)
        path, lines = dumped(own / name, own / (name + " damaged")), list(asked_of_it)
        with closing(sqlite3.connect(path)) as db, db:
            for statement in sql:
                db.execute(statement)
        rows = trials.rows(path)
        told = trials.printed(program, path, [line for line, _ in lines]) or len(lines) * [None]
        for (line, wanted), answer in zip(lines, told):
            yield "%s damaged: %s, %s" % (name, json.loads(line)["do"], wanted), answer == wanted
        yield "%s damaged: the rows stay" % name, trials.rows(path) == rows


# ---- the queries of the page


def queries() -> list[str]:
    """The queries of the page, in order."""
    page = statements.PAGE.read_text(encoding="ascii").split("## Queries")[1]
    return re.findall(r"^    (SELECT .*?)\n\n", page, re.S | re.M)


def last_told(answers: list[str]) -> dict[str, list[str]]:
    """The words of the reply of each vehicle's last accepted manifest."""
    found: Any = {}
    for words in (answer.split(" ") for answer in answers):
        if words[0] == "reply" and (words[1] not in found
                                    or int(words[3]) > int(found[words[1]][3])):
            found[words[1]] = words
    return found


def shown(answers: list[str]) -> Iterator[Any]:
    """What each `show` line says of each ECU: vehicle, ECU, filename, and the filename that is
    assigned.
    """
    for answer in answers:
        words = answer.split(" ")
        for told in words[4:] if words[0] == "vehicle" else []:
            ecu, files = told.split("=")
            yield (words[1], ecu, *(files.split(">") + [None])[:2])


def due_ecus(ecus: list[tuple[str, str, str]],
             offered: list[dict[str, Any]]) -> Iterator[tuple[str, int]]:
    """How many ECUs each campaign still has to reach, by the fleet's own script and what the
    ECUs run.
    """
    images = {it["file"]: it for it in offered if it["do"] == "add_image"}

    def suits(kind: str, file: str) -> bool:
        return file in images and kind in images[file]["hardware"]

    def release(kind: str, file: str) -> int:
        return images[file]["release"] if suits(kind, file) else -1

    for campaign in (it for it in offered if it["do"] == "open_campaign"):
        reach, left = campaign["vehicles"], 0
        for item in campaign["items"]:
            left += sum(kind == item["hardware"] and (reach == "all" or vehicle in reach)
                        and release(kind, file) < images[item["file"]]["release"]
                        for vehicle, kind, file in ecus)
        yield campaign["campaign"], left


def replacing(
    lines: list[dict[str,
                     Any]]) -> tuple[dict[str, list[str]], list[tuple[str, str]], dict[str, str]]:
    """The ECUs that are in each vehicle after the lines, those that were replaced in order, and
    the hardware of all.
    """
    kinds: Any
    present, retired, kinds = {}, [], {}
    for it in lines:
        if it["do"] == "add_vehicle":
            present[it["vehicle"]] = [ecu["ecu"] for ecu in it["ecus"]]
            kinds |= {ecu["ecu"]: ecu["hardware"] for ecu in it["ecus"]}
        if it["do"] == "replace_ecu":
            ecus = present[it["vehicle"]]
            ecus[ecus.index(it["old"])] = it["ecu"]
            retired.append((it["vehicle"], it["old"]))
            kinds[it["ecu"]] = it["hardware"]
    return present, retired, kinds


def replaced_day() -> list[str]:
    """The day with replacements between its rounds and, of some vehicles, at its end."""
    day = list(fleet.script(**FLEET, replaced=0.3, second_hashes=0.5))
    present, _, kinds = replacing([json.loads(line) for line in day])
    for vehicle in sorted(present)[::2]:
        for old in present[vehicle][1:3]:
            told = {
                "vehicle": vehicle, "old": old, "ecu": old + "-new", "hardware": kinds[old],
                "key": fleet.key(9)}
            day.append(fleet.line("replace_ecu", **told))
    return day


def last_versions(lines: list[dict[str, Any]], answers: list[str],
                  retired: list[tuple[str, str]]) -> list[tuple[str, str, int]]:
    """Each replaced ECU, vehicle by vehicle, with the last version whose manifest had a report
    of it.
    """
    had: Any = {}
    for it, answer in zip(lines, answers):
        for report in it.get("reports", []) if answer.startswith("reply ") else []:
            had[report["ecu"]] = max(int(answer.split(" ")[3]), had.get(report["ecu"], 0))
    return [(vehicle, ecu, had.get(ecu)) for vehicle, ecu in sorted(retired, key=lambda it: it[0])]


def asked(program: Path, own: Path) -> trials.Cases:
    path = own / "day"
    script = [*replaced_day(), *SHOWS]
    answers = trials.printed(program, path, script)
    yield "the day", answers == trials.expected(own / "expected", script)
    if answers is None:
        return
    yield "its rows are those of the rules", trials.rows(path) == trials.rows(own / "expected")
    yield "SQLite finds it whole", trials.faults(path) == []
    yield from has_the_schema(path)
    lines = [json.loads(line) for line in script]
    seen, told = sorted(set(shown(answers[-len(SHOWS):]))), last_told(answers)
    with trials.read(path) as db:
        assigned, run, history, withheld, left, replaced, new = queries()
        yield "open assignments", sorted(db.execute(assigned)) == [
            (v, e, to) for v, e, _, to in seen if to]
        told_to_run = sorted((v, e, f) for f, _, v, e in db.execute(run))
        yield "ECUs that run an image", told_to_run == [it[:3] for it in seen if it[2] != "-"]
        _, retired, kinds = replacing(lines)
        due = sorted(due_ecus([(v, kinds[e], f) for v, e, f, _ in seen], lines))
        yield "ECUs that a campaign has to reach", db.execute(left).fetchall() == due and any(
            n for _, n in due)
        causes = sorted(
            (v, w[7], w[9] if w[8] == "need" else None, w[9] if w[8] == "conflict" else None)
            for v, w in told.items() if "withheld" in w)
        yield "withheld plans", db.execute(withheld).fetchall() == causes and causes != []
        versions = last_versions(lines, answers, retired)
        yield "replaced ECUs", db.execute(replaced).fetchall() == versions and len(versions) > 10
        unreported = [(v, e) for v, e, file, _ in seen if file == "-"]
        yield "new ECUs that haven't reported", sorted(db.execute(new)) == unreported != []
        for vehicle, words in told.items():
            past = db.execute(history, {"vehicle": vehicle}).fetchall()
            replies = (w for w in (a.split(" ") for a in answers) if w[:2] == ["reply", vehicle])
            wanted = sorted({(int(w[3]), int(w[5])) for w in replies})
            yield "the history of " + vehicle, [(row[0], row[4]) for row in past] == wanted


def by_second_hashes(program: Path, own: Path) -> trials.Cases:
    """What the queries tell of ECUs that report an image with its second hash, with another,
    without one, and with none that is one.
    """
    path, hash = own / "second", fleet.second("a")
    lines = [
        fleet.line("found", **fleet.key_set(1)),
        vehicle("V1", "E1", "E2", "E3", "E4"),
        fleet.line("add_image", **BOTH | {"hardware": ["HP"]})]
    reports: list[dict[str, Any]] = [{
        "ecu": ecu, "key": fleet.key(7), "counter": 1, "time": fleet.START, **fleet.content(BOTH)}
                                     for ecu in ("E1", "E2", "E3", "E4")]
    reports[0]["sha512"] = reports[0]["sha512"].upper()
    reports[1]["sha512"] = hash
    del reports[2]["sha512"]
    reports[3]["sha512"] = hash[1:] + "g"
    told = {"vehicle": "V1", "primary": "E1", "key": fleet.key(7), "counter": 1, "reports": reports}
    lines += [
        campaign("mine", "all", "HP", BOTH["file"]),
        fleet.line("deliver", body=fleet.body(told))]
    answers = trials.printed(program, path, lines)
    yield "an ECU with another second hash is assigned the image", answers == 4 * ["done"] + [
        "reply V1 version 1 targets 1"]
    with trials.read(path) as db:
        assigned, run, _, _, left, *_ = queries()
        yield "and it alone", db.execute(assigned).fetchall() == [("V1", "E2", BOTH["file"])]
        had = [(BOTH["file"], None if ecu == "E2" else 99, "V1", ecu)
               for ecu in ("E1", "E2", "E3", "E4")]
        yield "the others run it", db.execute(run).fetchall() == had
        yield "it is left", db.execute(left).fetchall() == [("mine", 1)]


def cases(program: Path) -> trials.Cases:
    yield from trials.each(program, asked, by_second_hashes, copies, foreign, older, read)


def main(words: arguments.Words = None) -> int:
    """Tries the program that is named."""
    return trials.tried(__doc__, words, "tables", cases)
