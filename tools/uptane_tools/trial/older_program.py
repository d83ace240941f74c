"""Has files that an older program of ours wrote raised by this one, and compares what they hold
and answer. Takes some minutes, needs `strace`, and is no part of the gate, which has no such
program.

    tools/run older_program OLDER PROGRAM [FIRST [NUMBER [SWEPT]]]

OLDER is a program of the scheme that is tried, of an earlier commit, built as `tools/run unproved`
does it there. Each seed from FIRST (1) on, NUMBER (40) of them, makes a script of `tools/run
fuzz`, without commands that OLDER doesn't know. OLDER carries it out over a file, to its end or to
a moment at which it is killed, which leaves a log. PROGRAM then takes the file: each file of the
repositories is served, and each manifest that was answered is answered again, as before, byte for
byte, over HTTP; the rows are those that the file had; and the rest of the script, the whole once
more and the script of another seed are answered by the rules. It is killed in the raise, too, at
moments in turn; and of the first SWEPT (1) seeds at each call of its files, which also fails, alone
or with all after it; then views and files are those of the rules.

promise: file-adopted, tables-raised, store-opened
"""
import http.client
import json
import random
import sqlite3
import subprocess
import time
from collections.abc import Iterator
from contextlib import closing, suppress
from dataclasses import dataclass
from pathlib import Path
from typing import Any

from uptane_tools import arguments
from uptane_tools.measure import fleet
from uptane_tools.operate import statements
from uptane_tools.oracle import reference
from uptane_tools.trial import file_cases, fuzz, http_cases, schemas, stops, trials

# what no older program knows
NEW_WORDS = (b"retire_vehicle", )
KILLS = 4
# bytes that a log may have without a frame
HEAD = 64


@dataclass
class Story:
    """What a script does by the rules: its answers, and after so many of them the tables."""

    lines: list[bytes]
    answers: list[str]
    tables: list[Any]

    def after(self, done: int, asked: list[bytes]) -> tuple[list[str], Any]:
        """What is answered to other lines after so many of these, and the tables then."""
        with closing(sqlite3.connect(":memory:")) as db:
            desk = reference.Desk(db)
            for line in self.lines[:done]:
                desk.answer(line)
            return [desk.answer(line) for line in asked], trials.rows_in(db)


def story(lines: list[bytes]) -> Story:
    with closing(sqlite3.connect(":memory:")) as db:
        desk, answers, tables = reference.Desk(db), [], [trials.rows_in(db)]
        for line in lines:
            answers.append(desk.answer(line))
            tables.append(trials.rows_in(db))
    return Story(lines, answers, tables)


def script(seed: int) -> list[bytes]:
    return [line for line in fuzz.Script(seed).made() if line]


def known(lines: list[bytes]) -> list[bytes]:
    return [line for line in lines if not any(word in line for word in NEW_WORDS)]


def killed(older: str, path: Path, lines: list[bytes], rng: random.Random) -> list[str]:
    """The lines printed by a program that is killed soon after it answered some of these, and got
    the rest.
    """
    cut = rng.randint(1, len(lines))
    with subprocess.Popen([older, "run", str(path)], stdin=subprocess.PIPE,
                          stdout=subprocess.PIPE) as it:
        told = b""
        with suppress(BrokenPipeError):
            for given in (lines[:cut], lines[cut:]):
                it.stdin.write(b"".join(line + b"\n" for line in given))
                it.stdin.flush()
                told = told or b"".join(it.stdout.readline() for _ in given)
        time.sleep(0.1 * rng.random())
        it.kill()
        told += it.stdout.read()
    return told.decode("ascii").split("\n")[:-1]


def begun(older: str, path: Path, lines: list[bytes], rng: random.Random) -> list[str]:
    """The answers of a run to the end, or to a kill."""
    if rng.random() < 0.2:
        return trials.printed(older, path, lines)
    return killed(older, path, lines, rng)


def done_in(told: Story, answers: list[str], rows: Any) -> int | None:
    """How many lines a file has behind these answers; none where it has other rows."""
    first, last = len(answers), min(len(answers) + trials.TOGETHER, len(told.lines))
    return next((at for at in range(first, last + 1) if told.tables[at] == rows), None)


def bodies(told: Story, kept: Any) -> Iterator[tuple[bytes, str]]:
    """Each manifest that was accepted, with the text of the reply that was kept for it."""
    replies = {(row[0], row[2]): row[7] for row in kept}
    for line, answer in zip(told.lines, told.answers):
        if answer.startswith("reply "):
            _, vehicle, _, version, *_ = answer.split(" ")
            asked = reference.read_json(line)
            body = asked["body"].encode() if asked["do"] == "deliver" else reference.bench_body(
                asked)
            if (vehicle, int(version)) in replies:
                yield body, replies[vehicle, int(version)]


def asked_over_http(port: int, requests: list[Any]) -> Iterator[tuple[int, bytes]]:
    client = http.client.HTTPConnection("127.0.0.1", port, timeout=http_cases.PATIENCE)
    for method, path, body in requests:
        client.request(method, path, body)
        answer = client.getresponse()
        yield answer.status, answer.read()
    client.close()


def served_alike(program: str, path: Path, had: Any, told: Story) -> bool:
    """Whether each file and each kept reply is served as the older program left it."""
    requests, wanted = list[Any](), []
    for repository, name, text in had["repo_file"]:
        requests.append(("GET", "/%s/%s" % (repository, name), None))
        wanted.append((200, text.encode()))
    for body, reply in bodies(told, had["kept"]):
        requests.append(("POST", "/director/manifest", body))
        wanted.append((200, reply.encode()))
    groups = [slice(at, at + 99) for at in range(0, len(requests), 99)] or [slice(0, 0)]
    with http_cases.served(program, path, len(groups)) as running:
        came = [it for group in groups for it in asked_over_http(running.port, requests[group])]
        if not requests:
            http_cases.connected(running).close()
        return came == wanted and http_cases.ended(running)


def raw_rows(path: Path) -> dict[str, list[Any]]:
    """The rows of the older file as they stand in it."""
    with trials.read(path) as db:
        return {
            table: db.execute("SELECT * FROM %s ORDER BY rowid" % table).fetchall()
            for table in ("repo_file", "kept")}


@dataclass
class Left:
    """A file that the older program left, its log, and what they hold."""

    path: Path
    number: int
    rows: Any
    told: Story
    # lines with what the rules answer to them, and the tables then: views alone, and more
    views: list[bytes]
    shown: tuple[list[str], Any]
    asked: list[bytes]
    wanted: tuple[list[str], Any]

    def is_either(self, path: Path) -> bool:
        """Whether a file is of the older schema still, or raised, and has the same rows."""
        either = schemas.schema_of(path) in (self.number, statements.SCHEMA)
        return either and schemas.rows(path) == self.rows and not trials.faults(path)

    def shows(self, program: str, path: Path) -> bool:
        """Whether views and files are those of the rules."""
        answers = trials.printed(program, path, self.views)
        return (answers, trials.rows(path)) == self.shown and not trials.faults(path)

    def goes_on(self, program: str, path: Path) -> bool:
        """Whether the rest of the script, the whole once more and another one are answered by the
        rules, and leave their rows.
        """
        answers = trials.printed(program, path, self.asked)
        return (answers, trials.rows(path)) == self.wanted and not trials.faults(path)


def left_by(older: str, seed: int, own: Path) -> Left | None:
    """What the older program leaves of a seed; none where a kill came before there were tables."""
    rng, told, path = random.Random("older %d" % seed), story(known(script(seed))), own / "older"
    answers = begun(older, path, told.lines, rng)
    if not path.exists() or stops_before_tables(path):
        return None
    rows = schemas.rows(path)
    done = done_in(told, answers, rows)
    if answers != told.answers[:len(answers)] or done is None:
        raise SystemExit("seed %d: the older program answers otherwise: %s" %
                         (seed, fuzz.first_other(told.lines, told.answers, answers)))
    views = list(viewing(rows))
    asked = told.lines[done:] + told.lines + script(seed + 100_000)
    return Left(path, schemas.schema_of(path), rows, told, views, told.after(done, views), asked,
                told.after(done, asked))


def viewing(rows: Any) -> Iterator[bytes]:
    """Lines that show each vehicle and fetch each file."""
    for name, *_ in rows["vehicle"]:
        yield fleet.line("show", vehicle=name).encode()
    for repository, name, _ in rows["repo_file"]:
        yield fleet.line("fetch", repository=repository, file=name).encode()


def has_log(path: Path) -> bool:
    """Whether a log beside the file has more than its head."""
    log = trials.log_of(path)
    return log.exists() and log.stat().st_size > HEAD


def stops_before_tables(path: Path) -> bool:
    with trials.read(path) as db:
        return not db.execute("SELECT name FROM sqlite_schema").fetchall()


def raised(program: str, left: Left, own: Path) -> trials.Cases:
    path, had = trials.copied(left.path, own / "raised"), raw_rows(left.path)
    yield "is taken", trials.printed(program, path, []) == []
    yield "is raised", schemas.schema_of(path) == statements.SCHEMA != left.number
    yield "has the same rows", trials.rows(path) == left.rows
    now = raw_rows(path)
    yield "keeps each file and each reply", had == now
    yield "serves them", served_alike(program, path, had, left.told)
    yield "goes on by the rules", left.goes_on(program, path)


def kills(program: str, left: Left, own: Path) -> trials.Cases:
    most = file_cases.taken_in(program, trials.copied(left.path, own / "timed"))
    for at in range(KILLS):
        path = trials.copied(left.path, own / ("killed %d" % at))
        file_cases.killed_soon(program, path, most * at / KILLS)
        well = left.is_either(path) and left.goes_on(program, path)
        yield "killed at part %d of %d" % (at, KILLS), well


def swept(program: str, left: Left, call: str) -> tuple[int, list[str]]:
    """The stops at calls of a kind while the file is taken, and those that went wrong."""
    number, wrong = 0, []
    for how in (stops.KILLED, stops.FAILING, stops.FAILED):
        for k in range(1, stops.MOST):
            with trials.folder() as own:
                path = trials.copied(left.path, own / "swept")
                status, told, message = stops.made(program, path, [],
                                                   stops.Wrong(call + ":" + how % k))
                if not status and not message:
                    break
                number += 1
                if not left.is_either(path) or not left.shows(program, path):
                    wrong.append("%s:%s" % (call, how % k))
    return number, wrong


def cases(older: str, program: str, first: int, number: int, sweeps: int) -> trials.Cases:
    empty = logs = replies = 0
    for seed in range(first, first + number):
        with trials.folder() as own:
            left = left_by(older, seed, own)
            if left is None:
                empty += 1
                continue
            logs += has_log(left.path)
            replies += len(raw_rows(left.path)["kept"])
            for what, well in [*raised(program, left, own), *kills(program, left, own)]:
                yield "seed %d %s" % (seed, what), well
            if seed < first + sweeps:
                for call in stops.CALLS:
                    stopped, wrong = swept(program, left, call)
                    yield "seed %d, %d stops at %s %s" % (seed, stopped, call,
                                                          json.dumps(wrong)), not wrong
    told = "%d files of %d seeds, %d with a log, %d kept replies"
    yield told % (number - empty, number, logs, replies), number - empty > number // 2


def main(words: arguments.Words = None) -> int:
    """Tries the program that is named."""
    asked = arguments.given(__doc__, words, "older", "program", first=1, number=40, swept=1)
    older, program = (str(Path(it).resolve()) for it in (asked.older, asked.program))
    return trials.judged(
        "older", cases(older, program, asked.first, asked.number, asked.swept))
