"""The cases of the store in `up_test_store`: the nine writes, every read after every write, and
databases of older schemas.

What a read has to answer is computed from the rows that are written and the page on tables, and
not by the program: the parts of a row are read as they were spelled when they were written.
FORMATS says which files a root version has.

A database of an older schema is made by the statements of that schema, which stand here, and by
rows that are put in as the page on tables has them. Once it is taken it has to answer each read
as a created database answers it.
"""
import itertools
import json
from collections.abc import Iterator
from typing import Any

from uptane_tools.rows import cases

CRATE = "up_test_store"
# what a section is carried out over, and how the words begin of one over disks that fail
PLACES = ["memory", "files", "memory in turns", "files in turns"]
SWEPT = "each disk call refused"
# the first of the sections that are written by hand
BY_HAND = "adopt and create"
KEYS = {
    1: "01,02/2;0b/1;15,16,17,18/3;1f20/1 33,34/2;3d/1;47/1;51,52/1",
    2: "0102/1;6f/1;79,7a/2;83/1 97,98,99/2;a1/1;ab/1;b5/1",
    3: "c1/1;c2/1;c3/1;c4/1 c5/1;c6/1;c7/1;c8/1"}
TWO, FIVE, NINE = "02" * 32, "05" * 32, "9f" * 32

FRESH = ["b-v hw 090009 - 0 -", "a-v hv ff - 0 -"]
OTHER = ["b-w hw 0a - 0 -", "a-w hv 0b0b - 0 -"]
FIRST = [f"b-v hw 090009 x/y.bin:5:{FIVE} 7 signed-b7", "a-v hv ff - 0 -"]
SECOND = [
    f"b-v hw 090009 a.bin:9007199254740991:{NINE} 8 signed-b8",
    f"a-v hv ff x/y.bin:0:{TWO} 1 signed-a1"]

WRITES = [("found", 1, 1, 1000, "director-1", "image-1", "targets-1 snapshot-1 timestamp-1"),
          ("rotate", 2, 1, 2000, "director-2", "image-2", "targets-2 snapshot-2 timestamp-2"),
          ("refresh", 2, 2, 253402300799, "targets-3 snapshot-3 timestamp-3"),
          ("image", f"x/y.bin 5 {FIVE} hw,hv 6 hw:4,hv:9007199254740991 a/b.bin,c.bin", 2, 3, 3000,
           "targets-4 snapshot-4 timestamp-4"),
          ("image", f"a.bin 9007199254740991 {NINE} hw 0 - -", 2, 4, 3001,
           "targets-5 snapshot-5 timestamp-5"), ("vehicle", "v b-v 0 0", FRESH),
          ("vehicle", "w b-w 0 0", OTHER), ("campaign", "some v,w hw:x/y.bin,hv:a.bin runs"),
          ("campaign", "any * hw:a.bin runs"), ("campaign", "else w hv:x/y.bin runs"),
          ("close", "any * hw:a.bin closed"),
          ("accept", 'v 3 1 4000 2 {"m":3} b-v=x/y.bin,a-v=a.bin!- {"r":3}', "v b-v 1 3", FIRST),
          ("accept", 'v 5 2 4001 2 {"m":5} -!b-v=needs=hv {"r":5}', "v b-v 2 5", SECOND),
          ("accept", 'w 1 1 4001 2 {"m":1} -!b-w=conflicts=c.bin {"r":1}', "w b-w 1 1", OTHER)]

# the ninth, behind the others: an ECU of the vehicle, with its report, is replaced
REPLACEMENT = ("replace", "v a-v a-x hz 0c0c")

# written a second time: a name or a counter that is there already (a root version isn't told by the
# tables, whose keys and files are set as a whole: whoever puts one has read the last)
REFUSED = [("image", f"a.bin 1 {TWO} hw 9 - -", 2, 6, 5000, "targets-7 snapshot-7 timestamp-7"),
           ("vehicle", "v b-v 0 0", FRESH), ("campaign", "any * hw:a.bin runs"),
           ("accept", 'v 5 3 5000 2 {"m":6} -!- {"r":6}', "v b-v 3 5", FRESH),
           ("accept", 'v 6 3 5000 2 {"m":6} -!- {"r":6}', "v a-v 3 6", FRESH),
           ("replace", "v b-v a-w hz 0c"), ("replace", "v a-v a-y hz 0c")]

READS = [
    "founding", "founded", "file director root.json", "file director 1.root.json",
    "file image root.json", "file image 2.root.json", "file image targets.json",
    "file image snapshot.json", "file image timestamp.json", "file director targets.json",
    "image x/y.bin", "image a.bin", "images", "campaign some", "campaign any", "running",
    "vehicle v", "ecus v", "ecus w", "owner a-v", "owner a-x", "owner v", "kept v 3", "kept v 5",
    "kept w 3", "latest v", "latest w"]

# one of each of the twelve
ONE_OF_EACH = [
    "founding", "founded", "file image timestamp.json", "image x/y.bin", "images", "campaign any",
    "running", "vehicle v", "ecus v", "owner a-v", "kept v 3", "latest v"]

# ---- older schemas: their statements, as databases in the field have them

EIGHT_TABLES = [
    "CREATE TABLE meta (id INTEGER PRIMARY KEY, app TEXT NOT NULL, schema INTEGER NOT NULL, root "
    "INTEGER NOT NULL, "
    "image_version INTEGER NOT NULL, stamp INTEGER NOT NULL) STRICT",
    "CREATE TABLE role_key (root INTEGER NOT NULL, repository TEXT NOT NULL, role TEXT NOT NULL, "
    "place INTEGER NOT NULL, "
    "secret BLOB NOT NULL, threshold INTEGER NOT NULL, PRIMARY KEY (root, repository, role, "
    "place)) STRICT",
    "CREATE TABLE repo_file (repository TEXT NOT NULL, name TEXT NOT NULL, body TEXT NOT NULL, "
    "PRIMARY KEY (repository, name)) STRICT",
    "CREATE TABLE image (file TEXT NOT NULL PRIMARY KEY, length INTEGER NOT NULL, sha256 BLOB NOT "
    "NULL, hardware TEXT NOT NULL, "
    "release_count INTEGER NOT NULL, needs TEXT NOT NULL, conflicts TEXT NOT NULL) STRICT",
    "CREATE TABLE campaign (name TEXT NOT NULL PRIMARY KEY, reach TEXT NOT NULL, items TEXT NOT "
    "NULL, "
    "running INTEGER NOT NULL) STRICT",
    "CREATE TABLE vehicle (vehicle TEXT NOT NULL PRIMARY KEY, primary_ecu TEXT NOT NULL, version "
    "INTEGER NOT NULL, "
    "last_counter INTEGER NOT NULL) STRICT",
    "CREATE TABLE ecu (ecu TEXT NOT NULL PRIMARY KEY, vehicle TEXT NOT NULL REFERENCES vehicle "
    "(vehicle), place INTEGER NOT NULL, "
    "hardware TEXT NOT NULL, public_key BLOB NOT NULL, file TEXT, length INTEGER, sha256 BLOB, "
    "counter INTEGER NOT NULL, "
    "report TEXT, UNIQUE (vehicle, place)) STRICT",
    "CREATE TABLE kept (vehicle TEXT NOT NULL REFERENCES vehicle (vehicle), counter INTEGER NOT "
    "NULL, version INTEGER NOT NULL, "
    "moment INTEGER NOT NULL, root INTEGER NOT NULL, signed TEXT NOT NULL, plan_text TEXT NOT "
    "NULL, reply TEXT NOT NULL, "
    "PRIMARY KEY (vehicle, counter), UNIQUE (vehicle, version)) STRICT"]
RETIRED_TABLE = (
    "CREATE TABLE retired (ecu TEXT NOT NULL PRIMARY KEY, vehicle TEXT NOT NULL REFERENCES "
    "vehicle (vehicle)) STRICT")
SHA512_TABLE = (
    "CREATE TABLE image_sha512 (file TEXT NOT NULL PRIMARY KEY REFERENCES image (file), sha512 "
    "BLOB NOT NULL) STRICT")
TABLES_OF = {
    1: EIGHT_TABLES, 2: EIGHT_TABLES + [RETIRED_TABLE],
    3: EIGHT_TABLES + [RETIRED_TABLE, SHA512_TABLE]}
LATEST = 4
EIGHT_NAMES = ["meta", "role_key", "repo_file", "image", "campaign", "vehicle", "ecu", "kept"]
TEN_NAMES = EIGHT_NAMES + ["retired", "image_sha512"]
NAMES_OF = {
    1: EIGHT_NAMES, 2: EIGHT_NAMES + ["retired"], 3: TEN_NAMES,
    4: TEN_NAMES + ["image_repository", "retired_vehicle"]}
RETIRED_ECUS = [("s-v", "v"), ("r-v", "v")]

# written into a database that was taken
FURTHER = [("accept", 'v 6 3 5000 2 {"m":6} -!- {"r":6}', "v b-v 3 6", SECOND),
           ("vehicle", "x b-x 0 0", ["b-x hw 0c - 0 -"]),
           ("image", f"c.bin 1 {TWO} hv 1 - -", 2, 6, 5000, "targets-7 snapshot-7 timestamp-7"),
           ("rotate", 3, 7, 6000, "director-3", "image-3", "targets-8 snapshot-8 timestamp-8"),
           REPLACEMENT]

# ---- second hashes

ONE_HASH, OTHER_HASH = "5c" * 64, "c5" * 32 + "0a" * 32
HARDWARE = {"b-v": "hw", "a-v": "hv", "a-x": "hz"}


def report(ecu: str, counter: int, file: str, sha256: str, second: str = "") -> str:
    """The signed text of an ECU's report. In the file's hashes stands `second` behind the first
    one.
    """
    image = f'{{"file":"{file}","hashes":{{"sha256":"{sha256}"{second}}},"length":5}}'
    return (f'{{"attack":"","counter":{counter},"ecu":"{ecu}","image":{image},'
            '"time":"2026-01-01T00:00:00Z","type":"report"}')


def member(digits: str) -> str:
    return f',"sha512":"{digits}"'


def told(ecu: str, key: str, file: str, sha256: str, counter: int, second: str,
         hash: str | None = None) -> str:
    """An ECU's row after a report: the second hash is the one that the report's text has, in
    lower case.
    """
    hashes = sha256 + ("+" + hash if hash else "")
    return (f"{ecu} {HARDWARE[ecu]} {key} {file}:5:{hashes} {counter} "
            f"{report(ecu, counter, file, sha256, second)}")


# the images are put in, and stand in the table of second hashes, in other orders than that of their
# names
IMAGES_OF_BOTH = [
    ("image", f"c.bin 5 {FIVE}+{ONE_HASH} hw 6 hw:4 -", 1, 2, 3000,
     "targets-2 snapshot-2 timestamp-2"),
    ("image", f"a.bin 5 {FIVE} hw 7 - -", 1, 3, 3000, "targets-3 snapshot-3 timestamp-3"),
    ("image", f"d.bin 5 {FIVE}+{OTHER_HASH} hw 8 - c.bin", 1, 4, 3000,
     "targets-4 snapshot-4 timestamp-4"),
    ("image", f"b.bin 9007199254740991 {NINE}+{ONE_HASH} hw,hv 0 - -", 1, 5, 3000,
     "targets-5 snapshot-5 timestamp-5")]
BOTH_REPORTED = [
    told("b-v", "090009", "c.bin", FIVE, 7, member(ONE_HASH.upper()), ONE_HASH),
    told("a-v", "ff", "a.bin", FIVE, 1, "")]
BOTH_AGAIN = [
    told("b-v", "090009", "d.bin", NINE, 8, member(OTHER_HASH[:-1])),
    told("a-v", "ff", "d.bin", TWO, 2, member(OTHER_HASH), OTHER_HASH)]
UNKNOWN_MEMBERS = [
    told("b-v", "090009", "c.bin", FIVE, 9, ',"sha384":"00"' + member("g" + ONE_HASH[1:])),
    told("a-x", "0c0c", "c.bin", FIVE, 3, ',"sha512":7')]
SECOND_HASHES = [
    WRITES[0], IMAGES_OF_BOTH[0], WRITES[5],
    ("accept", 'v 3 1 4000 1 {"m":3} -!- {"r":3}', "v b-v 1 3", BOTH_REPORTED), *IMAGES_OF_BOTH[1:],
    ("accept", 'v 5 2 4001 1 {"m":5} -!- {"r":5}', "v b-v 2 5", BOTH_AGAIN),
    ("replace", "v a-v a-x hz 0c0c"),
    ("accept", 'v 6 3 4002 1 {"m":6} -!- {"r":6}', "v b-v 3 6", UNKNOWN_MEMBERS)]
SECOND_HASHES_REFUSED = [
    ("image", f"c.bin 5 {FIVE}+{OTHER_HASH} hw 6 hw:4 -", 1, 6, 3000,
     "targets-6 snapshot-6 timestamp-6"),
    ("image", f"a.bin 5 {FIVE}+{ONE_HASH} hw 7 - -", 1, 6, 3000,
     "targets-6 snapshot-6 timestamp-6"),
    ("accept", 'v 6 4 4002 1 {"m":6} -!- {"r":6}', "v b-v 4 6", UNKNOWN_MEMBERS)]
SECOND_HASH_READS = ["image a.bin", "image b.bin", "image c.bin", "image d.bin", "images", "ecus v"]

# after a fault: few calls, since each is made to fail in turn
FEW_READS = ["founding", "image x/y.bin", "ecus v", "kept v 3", "latest v"]


def spelled(write: tuple[Any, ...]) -> str:
    word, *rest = write
    if word in ("found", "rotate"):
        root, version, stamp, director, image, texts = rest
        return f"write {word} {root} {version} {stamp} {KEYS[root]} ; {director} {image} ; {texts}"
    if word == "refresh":
        root, version, stamp, texts = rest
        return f"write refresh {root} {version} {stamp} {KEYS[root]} ; {texts}"
    if word == "replace":
        return f"write replace {rest[0]}"
    if word == "image":
        image, root, version, stamp, texts = rest
        return f"write image {image} ; {root} {version} {stamp} {KEYS[root]} ; {texts}"
    rows = [part for given in rest for part in ([given] if isinstance(given, str) else given)]
    return f"write {word} " + " ; ".join(rows)


class State:

    def __init__(self) -> None:
        self.founding = "none"
        self.files, self.images, self.campaigns = dict[Any, Any](), dict[Any, Any](), dict[Any,
                                                                                           Any]()
        self.vehicles, self.ecus, self.kept = dict[Any, Any](), dict[Any, Any](), dict[Any, Any]()
        self.retired = dict[Any, Any]()

    def texts(self, texts: str) -> None:
        for name, text in zip(("targets", "snapshot", "timestamp"), texts.split()):
            self.files["image", f"{name}.json"] = text

    def write(self, word: Any, *rest: Any) -> None:
        if word in ("found", "rotate"):
            root, version, stamp, director, image, texts = rest
            for repository, text in (("director", director), ("image", image)):
                self.files[repository, "root.json"] = self.files[repository,
                                                                 f"{root}.root.json"] = text
        elif word == "refresh":
            root, version, stamp, texts = rest
        elif word == "image":
            image, root, version, stamp, texts = rest
            self.images[image.split()[0]] = image
        elif word in ("campaign", "close"):
            self.campaigns[rest[0].split()[0]] = rest[0]
        elif word == "replace":
            self.replace(*rest[0].split())
        else:
            *kept, vehicle, ecus = rest
            name = vehicle.split()[0]
            self.vehicles[name], self.ecus[name] = vehicle, ecus
            for row in kept:
                self.kept[name, int(row.split()[1])] = row
        if word in ("found", "rotate", "refresh", "image"):
            self.founding = f"{root} {version} {stamp} {KEYS[root]}"
            self.texts(texts)

    def replace(self, vehicle: str, old: str, ecu: str, hardware: str, key: str) -> None:
        new = f"{ecu} {hardware} {key} - 0 -"
        self.ecus[vehicle] = [new if row.split()[0] == old else row for row in self.ecus[vehicle]]
        self.retired[old] = vehicle

    def running(self) -> list[str]:
        return [row for _, row in sorted(self.campaigns.items()) if row.split()[3] == "runs"]

    def read(self, word: str, *rest: str) -> str:
        if word == "founding":
            return self.founding
        if word == "founded":
            return "no" if self.founding == "none" else "yes"
        if word == "images":
            return " ; ".join(row for _, row in sorted(self.images.items())) or "no rows"
        if word == "running":
            return " ; ".join(self.running()) or "no rows"
        if word == "ecus":
            return " ; ".join(self.ecus.get(rest[0], [])) or "no rows"
        if word == "owner":
            owners = {ecu.split()[0]: name for name, ecus in self.ecus.items() for ecu in ecus}
            return (self.retired | owners).get(rest[0], "none")
        if word == "latest":
            return max(((key[1], row) for key, row in self.kept.items() if key[0] == rest[0]),
                       default=(0, "none"))[1]
        if word == "kept":
            return self.kept.get((rest[0], int(rest[1])), "none")
        if word == "file":
            return self.files.get(rest, "none")
        return {"image": self.images, "campaign": self.campaigns,
                "vehicle": self.vehicles}[word].get(rest[0], "none")

    def second_hashes(self) -> Iterator[tuple[str, str]]:
        """The images that have one, in the order in which they were put in, each with it."""
        for file, row in self.images.items():
            if "+" in row:
                yield file, row.split()[2].split("+")[1]

    def asked_numbers(self) -> list[str]:
        """Questions about the image repository's own numbers, and about the keys: those of the last
        root version alone.
        """
        root, version = (self.founding if self.founding != "none" else "0 0").split()[:2]
        keys = sum(1 for _ in role_keys(int(root))) if self.founding != "none" else 0
        numbers = rows_text([(1, root, version)])
        return [
            f"ask SELECT id, root, targets FROM image_repository => {numbers}",
            f"ask SELECT count(root), count(DISTINCT root) FROM role_key => "
            f"{rows_text([(keys, min(keys, 1))])}"]

    def inserts(self, schema: int) -> list[str]:
        """The statements that put these rows into tables of a schema."""
        root, version, stamp = (self.founding if self.founding != "none" else "0 0 0").split()[:3]
        rows = {
            "meta": [f"1, 'uptane_desk', {schema}, {root}, {version}, {stamp}"], "role_key": [
                row for last in range(1,
                                      int(root) + 1) for row in role_keys(last)], "repo_file": [
                                          f"'{repository}', '{name}', '{text}'"
                                          for (repository, name), text in self.files.items()],
            "image": [image_columns(*row.split()) for row in self.images.values()], "campaign": [
                campaign_columns(*row.split()) for row in self.campaigns.values()], "vehicle": [
                    vehicle_columns(*row.split()) for row in self.vehicles.values()
                ], "image_sha512": [f"'{file}', x'{hash}'" for file, hash in self.second_hashes()]
            if schema > 2 else [], "ecu": [
                ecu_columns(name, place, *row.split()) for name, ecus in self.ecus.items()
                for place, row in enumerate(ecus)], "kept": [
                    kept_columns(*row.split()) for row in self.kept.values()]}
        return [
            f"INSERT INTO {table} VALUES ({row})" for table, all_rows in rows.items()
            for row in all_rows]


# ---- columns


def text_of(value: Any) -> str:
    return "'" + json.dumps(value, separators=(",", ":"), sort_keys=True) + "'"


def listed(words: str) -> list[str]:
    return [] if words == "-" else words.split(",")


def role_keys(root: int) -> Iterator[str]:
    for repository, roles in zip(("director", "image"), KEYS[root].split()):
        for role, keys in zip(("root", "targets", "snapshot", "timestamp"), roles.split(";")):
            secrets, threshold = keys.split("/")
            for place, secret in enumerate(secrets.split(",")):
                yield f"{root}, '{repository}', '{role}', {place}, x'{secret}', {threshold}"


def image_columns(file: str, length: str, sha256: str, hardware: str, release: str, needs: Any,
                  conflicts: str) -> str:
    needs = [
        dict(zip(("hardware", "release"), (need.split(":")[0], int(need.split(":")[1]))))
        for need in listed(needs)]
    return (f"'{file}', {length}, x'{sha256.split('+')[0]}', {text_of(listed(hardware))}, "
            f"{release}, {text_of(needs)}, {text_of(listed(conflicts))}")


def campaign_columns(name: str, reach: Any, items: Any, state: str) -> str:
    items = [dict(zip(("hardware", "file"), item.split(":"))) for item in listed(items)]
    reach = "all" if reach == "*" else listed(reach)
    return f"'{name}', {text_of(reach)}, {text_of(items)}, {int(state == 'runs')}"


def vehicle_columns(vehicle: str, primary: str, version: str, last: str) -> str:
    return f"'{vehicle}', '{primary}', {version}, {last}"


def ecu_columns(vehicle: str, place: int, ecu: str, hardware: str, public: str, installed: str,
                counter: str, report: str) -> str:
    sha256: Any
    file, length, sha256 = installed.split(":") if installed != "-" else (None, "NULL", None)
    file, sha256 = (f"'{file}'", f"x'{sha256.split('+')[0]}'") if file else ("NULL", "NULL")
    report = "NULL" if report == "-" else f"'{report}'"
    return (f"'{ecu}', '{vehicle}', {place}, '{hardware}', x'{public}', {file}, {length}, {sha256},"
            f" {counter}, {report}")


def kept_columns(vehicle: str, counter: str, version: str, moment: str, root: str, signed: str,
                 plan: str, reply: str) -> str:
    assigned: Any
    assigned, cause = plan.split("!")
    assigned = [dict(zip(("ecu", "file"), pair.split("="))) for pair in listed(assigned)]
    ecu, kind, what = cause.split("=") if cause != "-" else ("", "", "")
    withheld = {"ecu": ecu, {"needs": "hardware", "conflicts": "file"}[kind]: what} if ecu else None
    plan = text_of({"assigned": assigned, "withheld": withheld})
    return f"'{vehicle}', {counter}, {version}, {moment}, {root}, '{signed}', {plan}, '{reply}'"


def section(name: str, writes: list[tuple[Any, ...]], refused: list[tuple[Any, ...]],
            reads: list[str]) -> str:
    state = State()
    rows = ["ask SELECT name FROM sqlite_schema => rows", "create => done"]
    for write, answer in [(None, None)] + [(write, "done") for write in writes] + [
        (write, "store") for write in refused]:
        if write:
            rows.append(f"{spelled(write)} => {answer}")
            if answer == "done":
                state.write(*write)
        rows += [f"{read} => {state.read(*read.split())}" for read in reads]
    return name + "\n" + "\n".join(rows) + "\n"


def rows_text(rows: Any) -> str:
    return "rows" + "".join(" ; " + " ".join(str(column) for column in row) for row in rows)


def asked(state: State, schema: int) -> list[str]:
    """Questions to the database itself, in this schema, about its tables and the texts that are
    kept.
    """
    kept = [row.split() for row in state.kept.values()]
    return [
        f"ask SELECT id, app, schema FROM meta => {rows_text([(1, 'uptane_desk', schema)])}",
        f"ask SELECT name FROM sqlite_schema WHERE type = 'table' => "
        f"{rows_text([(name,) for name in NAMES_OF[schema]])}",
        f"ask SELECT vehicle, counter, signed, reply FROM kept => "
        f"{rows_text([(row[0], row[1], row[5], row[7]) for row in kept])}"
    ] + ([f"ask SELECT ecu, vehicle FROM retired => {rows_text(state.retired.items())}"]
         if schema > 1 else []) + ([
             f"ask SELECT file, sha512 FROM image_sha512 => {rows_text(state.second_hashes())}"
         ] if schema > 2 else []) + (state.asked_numbers() if schema == LATEST else [])


def older(name: str, schema: int, writes: list[tuple[Any, ...]], further: list[tuple[Any, ...]],
          reads: list[str]) -> str:
    """A database of an older schema in which the rows of these writes stand, before and after it
    is taken.
    """
    state = State()
    for write in writes:
        state.write(*write)
    if schema in (2, 3) and writes:
        state.retired, reads = dict(RETIRED_ECUS), [*reads, "owner r-v"]
    made = TABLES_OF[schema] + state.inserts(schema)
    made += [
        f"INSERT INTO retired VALUES ('{ecu}', '{vehicle}')"
        for ecu, vehicle in state.retired.items()]
    rows = [f"run {statement} => done" for statement in made] + asked(state, schema)
    rows += ["create => store"] + asked(state, schema) + ["adopt => done"]
    rows += [f"{read} => {state.read(*read.split())}" for read in reads]
    rows += ["release => done"] + asked(state, LATEST) + ["adopt => done"]
    for write in further:
        rows.append(f"{spelled(write)} => done")
        state.write(*write)
        rows += [f"{read} => {state.read(*read.split())}" for read in reads]
    rows += ["release => done"] + asked(state, LATEST)
    return name + "\n" + "\n".join(rows) + "\n"


def second_hashes() -> str:
    """Images and reports with a second hash and without, and what the database has of them."""
    state = State()
    for write in SECOND_HASHES:
        state.write(*write)
    rows = ["release => done"] + asked(state, LATEST) + ["adopt => done"]
    rows += [f"{read} => {state.read(*read.split())}" for read in SECOND_HASH_READS]
    return section("second hashes", SECOND_HASHES, SECOND_HASHES_REFUSED,
                   SECOND_HASH_READS) + "\n".join(rows) + "\n"


def of_both(write: tuple[Any, ...]) -> tuple[Any, ...]:
    """The write with a second hash, where it puts in an image or a report."""
    if write[0] == "image":
        return write[:1] + (write[1].replace(FIVE, f"{FIVE}+{ONE_HASH}"), *write[2:])
    if write[0] == "accept":
        return (*write[:-1], [
            told("b-v", "090009", "x/y.bin", FIVE, 7, member(ONE_HASH.upper()), ONE_HASH),
            *write[-1][1:]])
    return write


def damaged() -> str:
    """A second hash that no call of this product writes."""
    state = State()
    rows = ["create => done"]
    for write in (WRITES[0], *IMAGES_OF_BOTH):
        state.write(*write)
        rows.append(f"{spelled(write)} => done")
    for bytes_ in (63, 65, 0):
        hash = "0a" * bytes_
        rows += [
            "release => done",
            f"run UPDATE image_sha512 SET sha512 = x'{hash}' WHERE file = 'c.bin' => done",
            "adopt => done"]
        rows += ["image c.bin => store", "images => store"]
        rows += [
            f"{read} => {state.read(*read.split())}"
            for read in ("image a.bin", "image b.bin", "image d.bin")]
    rows += [
        "release => done", "run DELETE FROM image_sha512 WHERE file = 'c.bin' => done",
        "adopt => done"]
    state.images["c.bin"] = state.images["c.bin"].replace("+" + ONE_HASH, "")
    rows += [f"{read} => {state.read(*read.split())}" for read in SECOND_HASH_READS[:-1]]
    return "damaged second hashes\n" + "\n".join(rows) + "\n"


def older_reports(name: str, schema: int) -> str:
    """A database of an older schema with reports whose texts have second hashes, which that
    schema knew nothing of.
    """
    without = [
        write[:1] + (write[1].replace("+" + ONE_HASH, "").replace("+" + OTHER_HASH, ""), *write[2:])
        for write in IMAGES_OF_BOTH[:2]]
    writes = [
        WRITES[0], *without, WRITES[5], WRITES[6], SECOND_HASHES[3],
        ("accept", 'v 5 2 4001 1 {"m":5} -!- {"r":5}', "v b-v 2 5", BOTH_AGAIN)]
    further = [
        IMAGES_OF_BOTH[2],
        ("accept", 'v 6 3 4002 1 {"m":6} -!- {"r":6}', "v b-v 3 6", BOTH_REPORTED),
        ("replace", "v a-v a-x hz 0c0c")]
    return older(name, schema, writes, further, [
        "image a.bin", "image c.bin", "image d.bin", "images", "ecus v", "ecus w", "kept v 3",
        "latest v"])


def computed() -> list[str]:
    once = {
        write[0]: write for write in reversed(WRITES)
        if write[-1] != "some v,w hw:x/y.bin,hv:a.bin runs"}
    in_order = [of_both(write) for write in WRITES if write in once.values()]
    return [
        section("all nine writes", [*WRITES, REPLACEMENT], REFUSED, READS),
        section("each disk call refused", [*in_order, REPLACEMENT], [], ONE_OF_EACH),
        second_hashes(),
        damaged(),
        older("each disk call refused over a raise of schema 1 in files", 1, WRITES, FURTHER[:1],
              FEW_READS),
        older("each disk call refused over a raise of schema 2 in files", 2, WRITES, FURTHER[:1],
              FEW_READS),
        older("each disk call refused over a raise of schema 3 in files", 3, WRITES, FURTHER[:1],
              FEW_READS),
        older("a database of schema 1 in files", 1, WRITES, FURTHER, READS),
        older("a database of schema 2 in files", 2, WRITES, FURTHER, READS),
        older("a database of schema 3 in files", 3, WRITES, FURTHER, READS),
        older_reports("second hashes in reports of schema 1 in files", 1),
        older_reports("second hashes in reports of schema 2 in files", 2),
        older("a new database of schema 1 in files", 1, [], WRITES[:1], READS),
        older("a new database of schema 2 in files", 2, [], WRITES[:1], READS),
        older("a new database of schema 3 in files", 3, [], WRITES[:1], READS)]


def told_of(section: str) -> str:
    """What is told of a section: how many of its cases are answered so, over each place; where
    disks fail, without the statements at its beginning, which make the database.
    """
    words, *rows = filter(None, section.split("\n"))
    asked = list(itertools.dropwhile(lambda it: it.startswith("run "), rows))
    places = ["files"] if words.endswith("in files") else PLACES
    lines = ["over %s, %s: %d\n" % (it, words, len(rows)) for it in places]
    if words.startswith(SWEPT):
        lines += [
            "over a %s that fails from any call on, %s: %d\n" % (it, words, len(asked))
            for it in ("log", "database file")]
    return "".join(lines)


def texts() -> tuple[str, str]:
    """The sections that are computed, and what is told of them."""
    sections = computed()
    return "".join("\n# " + it for it in sections), "".join(map(told_of, sections))


def first() -> tuple[str, str]:
    """Those over disks that fail, with the sections that are written by hand, and what is told of
    the former.
    """
    short = [it for it in computed() if it.startswith(SWEPT)]
    given = cases.kinds(CRATE)["store"]
    by_hand = given[given.index("\n# " + BY_HAND):]
    return "".join("\n# " + it for it in short) + by_hand, "".join(map(told_of, short))
