"""Makes one call of the program fail, the first, the second, and so on until a run ends without:
needs a C compiler.

    tools/run sweeps PROGRAM KIND [EVERY [FIRST]]

KIND is memory, disk, older, reading, http, lines, group, failed, failing or killed. Only every
EVERY-th (1) call is tried, from call FIRST (1) on. A word in place of FIRST draws one of the calls
1 to EVERY, so that another part is tried each time.

`memory` refuses a request for memory, `disk` fails a read, write or sync of the database's
files, each over the rows of `rows/` that are named here, a line at a time over a file. Every
answer has to be the row's, or `refused 1 Memory`, upon which the tables are those before the
line, and the line is given again at once and has to have the row's answer; or, where the disk
failed, `refused 2 Store`; or the program stops with its message. After `Store` the line is given
again too: either it has the row's answer and the row goes on, or a fault has shut the file, and
each later line is answered `Store`, or refused as the row has it. Then the file has to have the
rows that `tools/run reference` makes of just the lines that were answered, or of the next one
too; the rest of the row is carried out over it by a new start, and has to end as the row does.
Each goes over a new file, which has to be its owner's alone. One more row, of manifests alone,
is carried out over a file that has what comes before its first manifest: images, running
campaigns and a closed one, which the first manifest reads and the next ones don't. `disk` goes
over a large one too, of which no call of the start is made to fail: there the first manifest
reads from the disk. And two of the rows are carried out again over files of older schemas, which
have what the row does up to its first manifest: they stay of their schema until they are of the
page's. `older` is `memory` over these two alone, and `reading` over the one of manifests.

`http` refuses memory while a vehicle's first manifest is posted four times, a request a
connection. Each answer has to be the kept reply, but for one, which may be a 503 for want of
memory or none, and the tables those of the rules at the moment that was kept. Images and running
campaigns are there, which the first one reads.

The others are of groups. `lines` refuses memory while the runs of `tools/run stops` are given
whole. `group` does so while manifests of some vehicles, three of them twice, and an operator's
script are at hand together, and there a call of the disk fails (`failed`), or it and all after it
(`failing`), or the program is killed at it (`killed`). What was answered is kept, each manifest
once; the lines are answered by the rules, which the lost ones never reached; the tables are those
of the rules, and all of it again leaves the tables of the rules, behind a new start.

promise: messages, connections-at-once, clients-as-a-whole, store-opened, file-refused
"""
import hashlib
import json
import os
import sqlite3
import stat
import subprocess
import sys
from collections.abc import Iterator
from contextlib import closing
from pathlib import Path
from typing import Any

from uptane_tools import arguments
from uptane_tools.measure import fleet
from uptane_tools.operate import statements
from uptane_tools.oracle import reference
from uptane_tools.rows import translated
from uptane_tools.trial import at_hand, http_cases, schemas, stops, trials

ROWS = [
    "first_manifest", "equal_and_greater_releases", "kept_reply_after_a_rotation", "images_taken",
    "files_of_the_image_repository", "campaigns", "replaced_ecu", "second_hash"]
READING = ["manifests_in_a_row"]
OLDER = [("equal_and_greater_releases", 1), ("kept_reply_after_a_rotation", 2)]
ROW_KINDS = ("memory", "disk", "older", "reading")
REFUSED = {"memory": "refused 1 Memory", "disk": "refused 2 Store"}
VARIABLES = {
    "memory": "FAIL_ALLOC", "disk": "FAIL_IO", "older": "FAIL_ALLOC", "reading": "FAIL_ALLOC",
    "http": "FAIL_ALLOC", "lines": "FAIL_ALLOC", "group": "FAIL_ALLOC", "failed": "FAIL_IO",
    "failing": "FAIL_IO", "killed": "FAIL_IO"}
HOW = {"failing": "on", "killed": "kill"}
MESSAGES = [b"", b"uptane_desk: stopped after %d lines: memory\n"]
UNOPENED = [trials.UNOPENED[name] for name in ("memory", "path", "damaged")]
POSTS = 4


def built(own: Path) -> Path:
    """The library that makes calls fail."""
    to, source = own / "failing.so", Path(__file__).resolve().parent / "failing.c"
    subprocess.run(["cc", "-shared", "-fPIC", "-O1", "-o",
                    str(to), str(source), "-ldl"], check=True)
    return to


class Failing:
    """What starts the program so that one call fails, and tells whether it did."""

    def __init__(self, library: Any, mark: Any, kind: str, number: int) -> None:
        self.mark, self.told = mark, {
            "LD_PRELOAD": str(library), "FAIL_MARK": str(mark), VARIABLES[kind]: str(number),
            "FAIL_HOW": HOW.get(kind, "")}
        self.mark.unlink(missing_ok=True)

    def start(self, words: Any) -> Any:
        pipes: dict[str, Any] = {
            "stdin": subprocess.PIPE, "stdout": subprocess.PIPE, "stderr": subprocess.PIPE}
        return subprocess.Popen([str(word) for word in words], env=os.environ | self.told, **pipes)

    def failed(self) -> Any:
        return self.mark.exists()


class Sweep:
    """Which calls are made to fail."""

    def __init__(self, own: Path, kind: str, every: int, first: int) -> None:
        self.own, self.kind, self.every, self.first = own, kind, every, first
        self.library = built(own)

    def over(self, name: str, attempt: Any, passed: int = 0) -> tuple[str, bool]:
        """Makes calls of attempts behind those that are passed fail in turn, until one ends
        without; tells each that went otherwise than it has to.
        """
        number, tries, bad = passed + self.first, 0, 0
        while True:
            failing = Failing(self.library, self.own / "mark", self.kind, number)
            other = attempt(failing)
            if other:
                bad += 1
                print("%s, call %d: %s" % (name, number, other), flush=True)
            if not failing.failed():
                break
            number, tries = number + self.every, tries + 1
        return "%s: %d calls failed in turn, of fewer than %d" % (name, tries, number -
                                                                  passed), tries > 0 and not bad


class Row:
    """A row's lines, what they print, and the tables after each of them."""

    def __init__(self, name: str, own: Path) -> None:
        lines, wanted = translated.under(trials.TOP / "rows" / name, reference.METHOD)
        self.name, self.lines, self.printed = name, [line for line in lines if line], []
        path, self.states = own / ("rules " + name), []
        Row.begin(self, path)
        for count in range(len(self.lines) + 1):
            self.printed += trials.expected(path, self.lines[max(count - 1, 0):count])
            self.states.append(trials.rows(path))
        assert translated.are_as(wanted, self.printed)

    def begin(self, path: str | Path) -> None:
        part: Any
        for part in (path, trials.log_of(path)):
            part.unlink(missing_ok=True)

    def shown(self, path: Any) -> dict[str, list[tuple[Any, ...]]] | None:
        """The tables of the file, or none where it isn't a database; those of the empty state
        where nothing was written.
        """
        try:
            return trials.rows(path) if path.exists() and path.stat().st_size else self.states[0]
        except sqlite3.DatabaseError:
            return None

    def is_private(self, path: Path) -> bool:
        """Whether the file and its log, where they were made, are their owner's alone."""
        return all(
            stat.S_IMODE(part.stat().st_mode) == 0o600 for part in (path, trials.log_of(path))
            if part.exists())


class Begun(Row):
    """A row from its first manifest on, over a file that has what comes before it; or has that
    one too, so that it is given again.
    """

    def __init__(self, program: str | Path, name: str, own: Path,
                 is_given_again: bool = False) -> None:
        super().__init__(name, own)
        at = next(at for at, line in enumerate(self.lines) if '"bench"' in line)
        done, self.begun = at + is_given_again, own / ("%s before %s" % (type(self).__name__, name))
        assert trials.printed(program, self.begun, self.lines[:done]) == self.printed[:done]
        self.before, self.lines, self.printed = self.lines[:done], self.lines[at:], self.printed[
            at:]
        self.states = self.states[done:done + is_given_again] + self.states[done:]
        self.name += " from its first manifest on"

    def begin(self, path: str | Path) -> None:
        super().begin(path)
        trials.copied(self.begun, path)

    def is_private(self, path: Path) -> bool:
        return True


class Large(Begun):
    """The same over a file of some megabytes. What a start has read of the images first isn't
    held any more at its end, so that the first manifest reads it from the disk again. No call of
    the start is made to fail.
    """

    def __init__(self, program: str | Path, name: str, own: Path) -> None:
        super().__init__(program, name, own)
        self.name += " over a large file"
        rules, more = own / ("rules " + self.name), list(filling())
        told = trials.printed(program, self.begun, more)
        assert told == trials.expected(rules, self.before + more)[len(self.before):]
        self.states = [trials.rows(rules)]
        for line, wanted in zip(self.lines, self.printed):
            assert trials.expected(rules, [line]) == [wanted]
            self.states.append(trials.rows(rules))


class Older(Begun):
    """The same over a file of an older schema, in which the first manifest is there."""

    def __init__(self, program: str | Path, name: str, number: int, own: Path) -> None:
        super().__init__(program, name, own, True)
        self.begun, self.number = schemas.lowered(self.begun, own / ("older " + name),
                                                  number), number
        self.name += " over schema %d" % number

    def shown(self, path: str | Path) -> Any:
        """The tables as they are once they were raised; none where they are of neither schema."""
        try:
            return schemas.rows(path) if schemas.schema_of(path) in (self.number,
                                                                     statements.SCHEMA) else None
        except sqlite3.DatabaseError:
            return None


def filling(number: int = 36) -> Iterator[str]:
    """A vehicle, and manifests of it that are as long as they may be nearly."""
    key = fleet.key(9)
    yield fleet.line("add_vehicle", vehicle="VF", primary="PF", ecus=[{
        "ecu": "PF", "hardware": "HF", "key": key}])
    for counter in range(1, number + 1):
        report = json.loads(
            fleet.report_text({
                "ecu": "PF", "key": key, "counter": counter, "time": fleet.START, **fleet.FACTORY}))
        told = {
            "counter": counter, "more": 240_000 * "~", "primary": "PF", "reports": [report],
            "type": "manifest", "vehicle": "VF"}
        yield fleet.line("deliver", body=reference.sealed([bytes.fromhex(key)],
                                                          reference.canonical(told)))


def calls_of_a_start(program: str | Path, row: Any, sweep: Any, path: str | Path) -> int:
    """How many calls a start makes before it answers a line that asks nothing of the file."""
    few, many = 0, 1 << 20
    while few + 1 < many:
        middle = (few + many) // 2
        failing = Failing(sweep.library, sweep.own / "mark", sweep.kind, middle)
        row.begin(path)
        it = failing.start([program, "run", path])
        ask(it, "nothing")
        few, many = (middle, many) if failing.failed() else (few, middle)
        it.kill()
        it.communicate()
    return few


def ask(it: Any, line: str) -> str:
    """The answer to a line, without its newline; empty where the program has ended."""
    try:
        it.stdin.write(line.encode() + b"\n")
        it.stdin.flush()
    except BrokenPipeError:
        return ""
    return it.stdout.readline().decode("ascii").removesuffix("\n")


def answered(it: Any, row: Any, kind: str, path: str | Path) -> tuple[int, bool]:
    """How many lines had the row's answers, and whether the last answer, if another, is one that
    there may be.
    """
    for count, (line, wanted) in enumerate(zip(row.lines, row.printed)):
        told = ask(it, line)
        if told == REFUSED[kind]:
            if kind == "memory" and row.shown(path) != row.states[count]:
                return count, False
            told = ask(it, line)
        if told != wanted:
            is_shut = kind == "disk" and told == REFUSED[kind]
            return count, told == "" or (is_shut and stays_shut(it, row, count))
    return len(row.lines), True


def stays_shut(it: Any, row: Any, count: int) -> bool:
    """Whether the lines behind so many are answered by the database's refusal, or are refused as
    the row has it.
    """
    rest = list(zip(row.lines, row.printed))[count + 1:]
    return all(
        ask(it, line) in [REFUSED["disk"]] + [wanted] * wanted.startswith("refused ")
        for line, wanted in rest)


def ended(it: Any, count: int) -> Any:
    """Whether the program ends as it may, with so many lines answered: none, if not even its
    words could be read.
    """
    out, err = it.communicate(timeout=60)
    if it.returncode == 2:
        return count == 0 and err.startswith(b"usage: ")
    return (it.returncode, err) in ((0, b""), (4, MESSAGES[1] % count),
                                    *((3, line) for line in UNOPENED))


def found(path: str | Path, row: Any, count: int) -> int | None:
    """How many lines of the row the file has carried out; none where it isn't what it has to be."""
    rows = row.shown(path)
    if rows is None:
        return 0 if count == 0 else None
    return next((at for at in (count, count + 1) if row.states[at:at + 1] == [rows]), None)


def tried(program: str | Path, row: Any, failing: Any, kind: str, path: str | Path) -> Any:
    """What went otherwise than it has to, in words; none where all went well."""
    row.begin(path)
    it = failing.start([program, "run", path])
    count, well = answered(it, row, kind, path)
    if not ended(it, count) or not well:
        return "another answer or end after %d lines" % count
    if not row.is_private(path):
        return "a file that others may open after %d lines" % count
    if not failing.failed():
        return None
    at = found(path, row, count)
    if at is None:
        return "other rows after %d lines" % count
    if trials.printed(program, path, row.lines[at:]) != row.printed[at:]:
        return "other answers after %d lines, when started again" % at
    return None if trials.rows(path) == row.states[-1] and trials.faults(
        path) == [] else "other rows at the end"


def over_rows(program: str | Path, own: Path, sweep: Any) -> Iterator[Any]:
    rows, begun = [Row(name, own) for name in ROWS], [Begun(program, name, own) for name in READING]
    older = [Older(program, name, number, own) for name, number in OLDER]
    fails = sweep.kind if sweep.kind in REFUSED else "memory"
    large = [Large(program, name, own) for name in READING] if sweep.kind == "disk" else []
    kinds: dict[str, list[Any]] = {"older": older, "reading": begun}
    for row in kinds.get(sweep.kind, [*rows, *begun, *older, *large]):
        passed = calls_of_a_start(program, row, sweep, own / "swept") if row in large else 0
        yield sweep.over(row.name,
                         lambda failing: tried(program, row, failing, fails, own / "swept"), passed)


# ---- HTTP


def before_a_manifest() -> Iterator[str]:
    """Lines that found, add the vehicle and some images, and open campaigns: for all, for
    another vehicle, and one that is closed.
    """
    yield from http_cases.FIRST_PATH[:2]
    lines = (trials.TOP / "rows" / READING[0] / "script").read_text("ascii").split("\n")
    done = next(at for at, line in enumerate(lines) if '"bench"' in line)
    yield from (with_public(line) for line in lines[1:done] if '"vehicle":"V1"' not in line)


def with_public(line: str) -> str:
    """The line, with what its ECUs show of their keys, where it adds a vehicle."""
    said = json.loads(line)
    if said["do"] != "add_vehicle":
        return line
    return str(reference.canonical(said | {"ecus": [*map(fleet.with_public, said["ecus"])]}))


def by_the_rules(path: str | Path) -> Any:
    """The tables after the manifest was accepted at the moment that the file has kept, and its
    reply.
    """
    with trials.read(path) as db:
        moment = db.execute("SELECT moment FROM kept").fetchone()
    if moment is None:
        return None, None
    with closing(sqlite3.connect(":memory:")) as db:
        desk = reference.Desk(db)
        for line in before_a_manifest():
            desk.answer(line)
        desk.delivered(http_cases.MANIFEST, moment[0])
        return trials.rows_in(db), desk.one("SELECT reply FROM kept")[0].encode()


def posted(program: str | Path, path: str | Path, failing: Any) -> Any:
    """What went otherwise than it has to while the manifest was posted over connections of its
    own each.
    """
    body, port, before = http_cases.MANIFEST, http_cases.free_port(), trials.rows(path)
    it = failing.start([program, "serve", path, port, 20])
    if it.stdout.readline() != b"listening %d\n" % port:
        status, err = it.wait(60), it.stderr.read()
        well = (status == 3 and err in UNOPENED) or err.startswith(b"usage: ")
        return None if well and trials.rows(path) == before else "no start"
    it.port = port
    got = [http_cases.told(it, http_cases.POST % len(body) + body) for _ in range(POSTS)]
    it.kill()
    _, err = it.communicate()
    rows, reply = by_the_rules(path)
    if rows != trials.rows(path):
        return "other rows"
    lost = [at for at, answer in enumerate(got, 1) if answer != http_cases.answer(b"200 OK", reply)]
    memory = http_cases.answer(b"503 Service Unavailable", b'{"error":1,"text":"Memory"}')
    if len(lost) > 1 or any(got[at - 1] not in (b"", memory) for at in lost):
        return "other answers: %r" % got
    told = [b"uptane_desk: connection %d: memory\n" % at for at in lost if got[at - 1] == b""]
    return None if http_cases.REFUSED.sub(b"", err) == b"".join(told) else ("another message: %r" %
                                                                            err)


def over_http(program: str | Path, own: Path, sweep: Any) -> Iterator[Any]:
    """The file was founded and has the vehicle, images and campaigns, so that the first post is
    accepted and the others are repeats.
    """
    assert set(trials.printed(program, own / "first", before_a_manifest())) == {"done"}

    def attempt(failing: Any) -> Any:
        trials.log_of(own / "swept").unlink(missing_ok=True)
        return posted(program, trials.copied(own / "first", own / "swept"), failing)

    yield sweep.over("a manifest over HTTP", attempt)


# ---- groups


def over_lines(program: Path, own: Path, sweep: Any) -> Iterator[Any]:
    """Lines that are given whole, over a new file."""
    for name, run in stops.runs(program, own):
        if run.is_whole and not run.begun:

            def attempt(failing: Any) -> str:
                _, well = run.stopped(stops.Wrong(variables=failing.told))
                return "" if well else "otherwise"

            yield sweep.over(name, attempt)


def over_groups(program: Path, own: Path, sweep: Any) -> Iterator[Any]:
    yield sweep.over("requests and lines at hand", at_hand.AtHand(program, own).tried)


def drawn(first: Any, every: Any) -> int:
    """The call to begin with: a number, or the one that a word draws."""
    if first.isdecimal():
        return int(first)
    return 1 + int(hashlib.sha256(first.encode()).hexdigest(), 16) % every


def main(words: arguments.Words = None) -> int:
    """Makes calls of a kind fail in turn."""
    asked = arguments.given(__doc__, words, "program", "kind", every=1, first="1")
    if asked.kind not in VARIABLES:
        sys.exit("sweeps: KIND is one of %s" % ", ".join(VARIABLES))
    with trials.folder() as own:
        sweep = Sweep(own, asked.kind, asked.every, drawn(asked.first, asked.every))
        ways: dict[str, Any] = {"http": over_http, "lines": over_lines}
        way = ways.get(asked.kind, over_rows if asked.kind in ROW_KINDS else over_groups)
        return trials.judged(asked.kind, way(Path(asked.program).resolve(), own, sweep))
