"""Tries what an operator needs of the database file. Bounded to a minute or so.

    tools/run file_cases PROGRAM [KILLS]

The file is its owner's alone; a second program is refused and the first goes on; the log is
copied at the end. Three hundred bits of a file at rest are flipped, one at a time: each is
answered by status 3 or by unchanged answers. The program is given a fleet's day by one line, by
eight or by 64 at a time, and killed (SIGKILL) a little after so many, at KILLS moments (100), each
over a new file, and the day is repeated over what is left: it is answered as by the rules after the
lines that were carried out. A minute is given for it, in which at least a quarter of the moments
must come. And it is killed while it opens files of older schemas: they are of the old schema or of
the page's, and go on as they would have gone on.

promise: closed-once, file-names, file-adopted, deliveries-act-once
"""
import json
import os
import random
import re
import signal
import sqlite3
import stat
import subprocess
import sys
import time
from collections.abc import Callable
from contextlib import closing
from pathlib import Path
from typing import Any

from uptane_tools import arguments
from uptane_tools.measure import fleet
from uptane_tools.operate import statements
from uptane_tools.oracle import reference
from uptane_tools.rows import translated
from uptane_tools.trial import schemas, trials

DAY = list(fleet.script(vehicles=5, ecus=3, rounds=3, images=6, campaigns=2, seed=4))
SHOWS = [fleet.line("show", vehicle="v%06d" % number) for number in range(5)]
FILES = [line for line in DAY if '"do":"fetch"' in line]
BITS = 300
MINUTE = 60
MEMORY = "/dev/shm"
# seconds that a line takes at least
A_LINE = 0.0005


def mode(path: Path | str) -> int:
    return stat.S_IMODE(os.stat(path).st_mode)


def modes(program: Path, own: Path) -> trials.Cases:
    path = own / "new"
    yield "a new file", trials.printed(program, path, DAY[:2]) == ["done", "done"]
    yield "it is its owner's alone", mode(path) == 0o600
    yield "and so is its log", not trials.log_of(path).exists() or mode(
        trials.log_of(path)) == 0o600
    os.chmod(path, 0o640)
    told = trials.printed(program, path, SHOWS[:1])
    yield "the mode of a file that is there stays", told is not None and mode(path) == 0o640
    path = own / "empty"
    path.touch(0o640)
    yield "an empty file is taken", trials.printed(program, path, DAY[:1]) == ["done"]
    # a new file by its name alone, in the working folder; and one by a URI, of which nothing may be
    # left there
    there: Any = os.getcwd()
    os.chdir(own)
    try:
        yield "a new file in the working folder", trials.printed(program, "alone", DAY[:1]) == [
            "done"] and mode("alone") == 0o600
        yield "a URI is refused", trials.run(program, "file:named",
                                             DAY[:1]) == (3, b"", trials.UNOPENED["path"])
        yield "and no file is made of it", not [name for name in os.listdir() if "named" in name]
    finally:
        os.chdir(there)
    (own / "link").symlink_to("nowhere")
    yield "a link to nothing is refused", trials.run(program, own / "link",
                                                     DAY[:1]) == (3, b"", trials.UNOPENED["path"])
    (own / "folder").mkdir()
    for name in ("folder", "missing/file"):
        yield name + " is refused", trials.run(program, own / name,
                                               DAY[:1]) == (3, b"", trials.UNOPENED["path"])
    yield "nothing is made in their place", not (own / "missing").exists() and not (
        own / "nowhere").exists()
    path = own / "byte"
    path.write_bytes(b"S")
    told = trials.run(program, path, DAY[:1])
    yield "a file of one byte is refused, and stays", told == (
        3, b"", trials.UNOPENED["damaged"]) and path.read_bytes() == b"S"
    path = own / "begun"
    path.write_bytes(b"\0")
    yield "what a stop may leave of a database that is made is taken", trials.printed(
        program, path, DAY[:1]) == ["done"]
    # SQLite takes a journal back that begins with these bytes; the program leaves it to SQLite
    path, journal, left = own / "new", own / "new-journal", bytes.fromhex(
        "d9d505f920a163d7") + bytes(504)
    held = path.read_bytes()
    journal.write_bytes(left)
    yield "a file with a journal that SQLite left is refused", trials.run(
        program, path, SHOWS[:1]) == (3, b"", trials.UNOPENED["journal"])
    yield "and both stay", path.read_bytes() == held and journal.read_bytes() == left
    journal.unlink()
    yield "without the journal the file is taken", trials.printed(program, path,
                                                                  SHOWS[:1]) is not None
    # a journal's name has eight bytes more, and a file system takes 255
    there = sorted(os.listdir(own))
    told = trials.run(program, own / (248 * "n"), DAY[:1])
    yield "a name too long for its journal is refused, and no file is left", told == (
        3, b"", trials.UNOPENED["path"]) and sorted(os.listdir(own)) == there
    yield "the longest that fits is taken", trials.printed(program, own / (247 * "n"), DAY[:1]) == [
        "done"]


class Running:
    """The program, with a line handed over and answered at a time."""

    def __init__(self, program: str | Path, path: str | Path) -> None:
        words = [str(program), "run", str(path)]
        self.it = subprocess.Popen(words, stdin=subprocess.PIPE, stdout=subprocess.PIPE,
                                   stderr=subprocess.PIPE)

    def ask(self, line: str) -> str | Any:
        self.it.stdin.write(line.encode() + b"\n")
        self.it.stdin.flush()
        return self.it.stdout.readline().decode("ascii").removesuffix("\n")

    def end(self) -> tuple[int | Any, bytes, bytes]:
        out, err = self.it.communicate(timeout=30)
        return self.it.returncode, out, err


def is_locked(path: str | Path) -> bool:
    """Whether SQLite itself may not even read the file."""
    with closing(sqlite3.connect(path, timeout=0)) as db:
        try:
            db.execute("SELECT 1 FROM meta").fetchall()
        except sqlite3.OperationalError as error:
            return str(error) == "database is locked"
    return False


def seconds(program: str | Path, own: Path) -> trials.Cases:
    """A second program is refused, and the first goes on undisturbed."""
    path = own / "shared"
    first = Running(program, path)
    answers = [first.ask(line) for line in DAY[:4]]
    yield "a second program is refused", trials.run(program, path,
                                                    DAY[:1]) == (3, b"", trials.UNOPENED["locked"])
    yield "and so is SQLite", is_locked(path)
    answers += [first.ask(line) for line in DAY[4:]]
    yield "the first goes on", answers == trials.expected(":memory:", DAY)
    yield "and ends well", first.end() == (0, b"", b"")
    yield "then the other is let in", trials.printed(program, path, DAY[:1]) == [
        "refused 9 AlreadyFounded"]


def rests(program: str | Path, own: Path) -> trials.Cases:
    """At the end the file holds everything by itself."""
    path = own / "alone"
    told = trials.printed(program, path, DAY)
    trials.log_of(path).unlink(missing_ok=True)
    yield "without its log the file is whole", trials.faults(path) == []
    wanted = trials.expected(":memory:", DAY + SHOWS)[-len(SHOWS):]
    yield "and has everything", trials.printed(program, path, SHOWS) == wanted
    yield "the day", told == trials.expected(":memory:", DAY)


def flipped(program: str | Path, own: Path) -> trials.Cases:
    """One bit after another: status 3, or the answers of the file as it was."""
    path, bad, rng = own / "bits", own / "bad", random.Random(1)
    trials.printed(program, path, DAY)
    asked = SHOWS + FILES + DAY
    wanted = trials.printed(program, trials.copied(path, bad), asked)
    data, refused, wrong = path.read_bytes(), 0, []
    for _ in range(BITS):
        at, bit = rng.randrange(len(data)), 1 << rng.randrange(8)
        trials.copied(path, bad)
        with open(bad, "r+b") as file:
            file.seek(at)
            file.write(bytes([data[at] ^ bit]))
        status, out, err = trials.run(program, bad, asked)
        if (status, out, err) == (3, b"", trials.UNOPENED["damaged"]):
            refused += 1
        elif status or err or out.decode("ascii", "replace").split("\n")[:-1] != wanted:
            wrong.append("byte %d, bit %d" % (at, bit))
    for it in wrong:
        print("flipped: " + it)
    yield "%d flipped bits, of which %d were refused" % (BITS,
                                                         refused), wanted is not None and not wrong


def operated(program: str | Path, own: Path) -> trials.Cases:
    """The operator's first days, a start of the program for each part of the script, over one
    file and its copies.
    """
    told: Any
    folder, path, told = trials.TOP / "examples" / "operating", own / "operated", []
    parts = "\n".join(translated.under(folder, reference.METHOD)[0]).split("\n\n")
    for part in parts:
        answers = trials.printed(program, path, part.split("\n"))
        told += answers or ["no answer"]
        path = trials.copied(path, own / ("after%d" % len(told)))
    yield "an operator's first days", translated.are_as(
        translated.under(folder, reference.METHOD)[1], told)
    yield "the last copy is whole", trials.faults(path) == []
    page = (trials.TOP / "docs" / "use" / "OPERATING.md").read_text(encoding="ascii")
    shown = re.findall(r"^    ((?:reply|vehicle) .*)$", page, re.M)
    yield "the page shows what is printed", len(shown) == 3 and set(shown) <= set(told)
    reports = (report for part in parts for line in part.splitlines()
               for report in json.loads(line).get("reports", []))
    attacks = sorted(
        (report["ecu"], report["attack"]) for report in reports if report.get("attack"))
    with trials.read(path) as db:
        asked = [
            query for query in re.findall(r"^    (SELECT .*?)\n\n", page, re.S | re.M)
            if "AS attack" in query]
        found = [(ecu, attack) for query in asked for _, ecu, attack in db.execute(query)]
    yield "and a query that tells the attacks", sorted(found) == attacks != []


def other_scheme(program: str | Path, own: Path) -> trials.Cases:
    """A file whose keys are of the other program's scheme is refused: it stays as it is, and so
    do the commits in its log, also where that alone has the keys, and where the schema is an
    older one. One in which nothing is founded has no keys.
    """
    method = {"hmac-sha256": "ed25519", "ed25519": "hmac-sha256"}[reference.METHOD]
    asked = [sys.executable, trials.RUN, "reference", "run"]

    def made(path: str | Path, lines: list[str]) -> str | Path:
        given, told = "\n".join(lines).encode(), os.environ | {"SCHEME": method}
        subprocess.run([*asked, path], input=given, capture_output=True, check=True, env=told)
        return path

    def in_log(path: str | Path, founded: Any) -> Path:
        """A file in which nothing is founded, and a log that has the rows of another."""
        copy = own / "in a log"
        with closing(sqlite3.connect(path)) as db:
            db.execute("PRAGMA journal_mode = WAL")
            db.execute("ATTACH ? AS other", (str(founded), ))
            for table in trials.TABLES:
                db.execute("DELETE FROM main." + table)
                db.execute("INSERT INTO main.%s SELECT * FROM other.%s" % (table, table))
            db.commit()
            return trials.copied(path, copy)

    def stays(path: Any) -> bool | Any:
        """Each open puts the head of a log where there is none, or one of 41 bytes without a
        commit.
        """

        def log() -> bytes:
            return trials.log_of(path).read_bytes() if trials.log_of(path).exists() else b""

        file, held = path.read_bytes(), log()
        told = trials.run(program, path, DAY[:1])
        kept = log().startswith(held) if len(held) > 41 else len(log()) == 41
        return told == (3, b"", trials.UNOPENED["scheme"]) and path.read_bytes() == file and kept

    founded, bare = made(own / "founded", DAY[:1]), made(own / "bare", [])
    yield "a file of the other scheme is refused", stays(founded)
    yield "one whose keys are in its log", stays(in_log(made(own / "to log", []), founded))
    for older in statements.LACKS:
        if older != statements.SCHEMA:
            yield "one of schema %d" % older, stays(
                schemas.written(founded, own / ("schema %d" % older), older))
    yield "where nothing is founded it is taken", trials.printed(program, bare, DAY[:1]) == ["done"]


# ---- kills


def killed_day() -> list[str]:
    """A fleet's day with some ECUs replaced, two refreshes, two rotations and two campaigns that
    are closed, between its manifests.
    """
    day = list(
        fleet.script(vehicles=8, ecus=3, rounds=3, images=6, campaigns=2, seed=4, replaced=0.3,
                     second_hashes=0.7))
    sent = [at for at, line in enumerate(day) if '"do":"bench"' in line]
    for number in (2, 1):
        more = [
            fleet.line("refresh", version=100 * number),
            fleet.line("rotate", **fleet.key_set(32 * number))]
        more.append(fleet.line("close_campaign", campaign="c%04d" % (number - 1)))
        place = sent[number * len(sent) // 3]
        day[place:place] = more
    return day


class Days:
    """The day by the rules: its answers, the tables after each number of lines, and what its
    repeat answers and leaves then.
    """

    def __init__(self, day: Any) -> None:
        self.day, self.again = day, dict[Any, Any]()
        with closing(sqlite3.connect(":memory:")) as db:
            desk = reference.Desk(db)
            self.tables, self.dumps, self.answers = [trials.rows_in(db)], [list(db.iterdump())], []
            for line in day:
                self.answers.append(desk.answer(line))
                self.tables.append(trials.rows_in(db))
                self.dumps.append(list(db.iterdump()))

    def repeated(self, done: Any) -> Any:
        """The answers to the whole day after so many of its lines, and the tables that it leaves.
        """
        if done not in self.again:
            with closing(sqlite3.connect(":memory:")) as db:
                db.executescript("\n".join(self.dumps[done]))
                desk = reference.Desk(db)
                self.again[done] = [desk.answer(line) for line in self.day], trials.rows_in(db)
        return self.again[done]


def killed(program: str | Path, path: str | Path, script: list[str], after: int, together: int,
           wait: float) -> list[str]:
    """The lines printed by a program that gets the first line, and then so many at a time, each
    piece once the one before it is answered; it is killed so many seconds after it got the line
    of this number.
    """
    with subprocess.Popen([str(program), "run", str(path)], stdin=subprocess.PIPE,
                          stdout=subprocess.PIPE) as it:
        told = b""
        ends = [1, *range(1 + together, len(script), together), len(script)]
        for begin, end in zip([0, *ends], ends):
            given = script[begin:end]
            it.stdin.write("".join(line + "\n" for line in given).encode())
            it.stdin.flush()
            if after < end:
                time.sleep(wait)
                break
            told += b"".join(it.stdout.readline() for _ in given)
        os.kill(it.pid, signal.SIGKILL)
        told += it.stdout.read()
    return told.decode("ascii").split("\n")[:-1]


def left(path: str | Path) -> dict[str, list[tuple[Any, ...]]] | None:
    """The rows that a kill left; none where it came before there were tables."""
    try:
        return trials.rows(path)
    except (OSError, sqlite3.Error):
        return None


def is_kept(line: str, first: int | Callable[..., Any], again: Any) -> bool:
    """Whether a line that was answered before the kill is answered by what was kept; of other
    lines the rules alone tell. A vehicle of which an ECU was replaced is another one than the
    line added.
    """
    do = json.loads(line)["do"]
    if do in ("bench", "found"):
        return again == ("refused 9 AlreadyFounded" if do == "found" else first)
    done = {"add_vehicle": ("already", "refused 22 VehicleTaken"), "add_image": ("already", )}
    return again in done.get(do, (again, ))


def survives(program: str | Path, path: str | Path, told: Any, days: Any, more: int) -> bool:
    """Whether what a kill left is the lines printed and at most so many more, and the whole day
    is then answered by the rules.
    """
    rows, number = left(path), len(told)
    if rows is None:
        done = [0] if number == 0 else []
    else:
        done = [
            at for at in range(number, number + more + 1)
            if at < len(days.tables) and days.tables[at] == rows]
    if told != days.answers[:number] or not done or (rows is not None and trials.faults(path)):
        return False
    again = trials.printed(program, path, days.day)
    if again is None or not all(map(is_kept, days.day, told, again)):
        return False
    return (again, trials.rows(path)) in [days.repeated(at) for at in done
                                          ] and trials.faults(path) == []


def kills(program: str | Path, number: int) -> trials.Cases:
    days, moments, begun, stopped, tried = Days(killed_day()), list(
        range(number)), time.monotonic(), 0, 0
    rng = random.Random(2)
    rng.shuffle(moments)
    for at in moments:
        if time.monotonic() - begun > MINUTE:
            break
        after, together = at * len(days.day) // number, rng.choice([1, 8, trials.TOGETHER])
        with trials.folder(MEMORY if os.access(MEMORY, os.W_OK) else None) as own:
            told = killed(program, own / "killed", days.day, after, together,
                          rng.random() * together * A_LINE)
            stopped, tried = stopped + (len(told) < len(days.day)), tried + 1
            if not survives(program, own / "killed", told, days, together):
                yield "killed after %d answers, of %d at a time" % (len(told), together), False
    yield "%d kills, %d of them before the end" % (
        tried, stopped), stopped > tried // 2 and tried >= number // 4


def killed_soon(program: str | Path, path: str | Path, after: Any) -> None:
    """Kills the program so many seconds after it began to open the file."""
    with subprocess.Popen([str(program), "run", str(path)], stdin=subprocess.PIPE,
                          stdout=subprocess.PIPE) as it:
        time.sleep(after)
        os.kill(it.pid, signal.SIGKILL)


def taken_in(program: str | Path, path: str | Path) -> float:
    """The seconds in which the program opens the file, answers a line and ends."""
    begun = time.monotonic()
    trials.printed(program, path, SHOWS[:1])
    return time.monotonic() - begun


def raises(program: str | Path, number: int) -> trials.Cases:
    """Kills in the time in which a file of an older schema is opened and raised."""
    with trials.folder() as own:
        path, found = own / "day", []
        yield "a day before it is taken back", trials.printed(program, path, DAY) is not None
        wanted = trials.expected(trials.copied(path, own / "rules"), SHOWS + FILES + DAY)
        for older, made in ((1, schemas.lowered), (2, schemas.written), (3, schemas.lowered)):
            begun = made(path, own / ("older%d" % older), older)
            rows, most = schemas.rows(begun), taken_in(
                program, trials.copied(begun, own / ("timed%d" % older)))
            for at in range(number):
                to = trials.copied(begun, own / ("killed %d %d" % (older, at)))
                killed_soon(program, to, most * at / number)
                found.append(schemas.schema_of(to))
                well = found[-1] in (older, statements.SCHEMA
                                     ) and schemas.rows(to) == rows and trials.faults(to) == []
                if not well or trials.printed(program, to,
                                              SHOWS + FILES + DAY) != wanted or trials.faults(to):
                    yield "schema %d, killed at part %d of %d" % (older, at, number), False
        new = found.count(statements.SCHEMA)
        told = "%d kills while files of older schemas are opened, %d of them once they were raised"
        yield told % (len(found), new), True


def cases(program: Path, number: int = 100) -> trials.Cases:
    yield from trials.each(program, modes, seconds, rests, operated, other_scheme, flipped)
    yield from raises(program, number // 5)
    yield from kills(program, number)


def main(words: arguments.Words = None) -> int:
    """Tries the program that is named."""
    return trials.tried(__doc__, words, "file", cases, kills=100)
