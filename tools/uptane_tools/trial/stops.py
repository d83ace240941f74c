"""Stops the program at each call that reads, writes or syncs its database files, and starts it
again on what is left. Takes some minutes, needs `strace`, and is no part of the gate.

    tools/run stops PROGRAM

The runs are the rows of the section of stops in `rows/each_answer`, over a new file; and, over a
file of an older schema that has what a run does up to its first manifest, that manifest again
and what follows it. Each is given a line at a time, and whole, so that its lines share commits. For
each system call of a kind in turn the program is killed at the k-th, or it and all after it fail,
or it alone fails; k counts up until a run isn't stopped any more.

Once killed, or once all calls failed, the whole run is made again over the same file: every line
has its own answer, or is done already; what was answered before the stop is done, and a reply is
the kept one, byte for byte. Where one call failed, each line was answered as by the rules, which
the lost lines never reached, and the tables are those of the rules, in which at most one of the
lost lines is done, or of those that share a commit the first ones. SQLite always finds the file
whole. After each stop a file of an older schema is still of that schema or of the page's, with the
rows that it had and those of the lines that were answered, or of one more, or of more that share a
commit.

promise: store-opened, deliveries-act-once, stopped-tables, store-stop
"""
import json
import os
import sqlite3
import subprocess
from collections.abc import Iterator
from contextlib import closing, suppress
from dataclasses import dataclass, field
from pathlib import Path
from typing import Any

from uptane_tools import arguments
from uptane_tools.operate import statements
from uptane_tools.oracle import reference
from uptane_tools.trial import each_line, schemas, trials

CALLS = ["pwrite64", "fdatasync", "fsync", "ftruncate", "pread64"]
KILLED, FAILING, FAILED = "signal=KILL:when=%d", "error=EIO:when=%d+", "error=EIO:when=%d"
LOST = {"refused 1 Memory", "refused 2 Store"}
# what is told of a line that is done already, where it isn't so named: of a vehicle once an ECU of
# it was replaced
AGAIN = {"found": "refused 9 AlreadyFounded", "replace_ecu": "refused 14 UnknownEcu S2"}
OTHER_NOW = {"add_vehicle": "refused 22 VehicleTaken"}
MOST = 2000


@dataclass(frozen=True)
class Wrong:
    """What goes wrong in a run: as strace's word says, or a library that these variables load.
    Nothing where there is neither.
    """

    inject: str = ""
    variables: dict[str, str] = field(default_factory=dict)

    def words(self, *words: Any) -> list[str]:
        traced = ["-qq", "-o", "/dev/null", "-e", "trace=" + ",".join(CALLS), "-e"]
        before = ["strace", *traced, "inject=" + self.inject] if self.inject else []
        return [*before, *map(str, words)]

    def is_one_call(self) -> bool:
        return "+" not in self.inject


def by_line(it: Any, lines: list[str]) -> bytes:
    """What a program prints that is given each line once the one before it was answered."""
    told = b""
    with suppress(BrokenPipeError):
        for line in lines:
            it.stdin.write(line.encode() + b"\n")
            it.stdin.flush()
            answer = it.stdout.readline()
            if not answer:
                break
            told += answer
    return told


def made(program: str | Path, path: str | Path, lines: list[str], wrong: Wrong = Wrong(),
         is_whole: bool = True) -> tuple[int, list[str], str]:
    """The status, the lines printed and the message of a run that is given its lines whole, or one
    after another.
    """
    pipes: dict[str, Any] = {
        "stdin": subprocess.PIPE, "stdout": subprocess.PIPE, "stderr": subprocess.PIPE}
    words = wrong.words(program, "run", path)
    with subprocess.Popen(words, env=os.environ | wrong.variables, **pipes) as it:
        told = b"" if is_whole else by_line(it, lines)
        given = "".join(line + "\n" for line in lines).encode() if is_whole else b""
        out, message = it.communicate(given, timeout=120)
    return it.returncode, (told + out).decode("ascii").split("\n")[:-1], message.decode(
        "ascii", "replace")


def kept(path: str | Path) -> dict[Any, Any]:
    """Each reply that the file keeps, none where it holds no tables yet."""
    with trials.read(path) as db:
        if not db.execute("SELECT name FROM sqlite_schema WHERE name = 'kept'").fetchall():
            return {}
        return {row[:2]: row[2] for row in db.execute("SELECT vehicle, version, reply FROM kept")}


def is_well(line: str, own: Any, is_answered: Any, again: Any, is_replaced: Any) -> Any:
    do = json.loads(line)["do"]
    told = (AGAIN | OTHER_NOW if is_replaced else AGAIN).get(do, "already")
    if own == "done":
        return again == told or (again == "done" and (not is_answered or do == "rotate"))
    return again == own


class Run:
    """Lines that are run over a new file, or over a copy of one of an older schema, whole or one
    after another, and what the program itself answers to them.
    """

    def __init__(self, program: str | Path, lines: list[str], begun: Any = None,
                 number: int | None = None, is_whole: bool = True) -> None:
        self.program, self.lines, self.begun, self.number = program, lines, begun, number
        self.is_whole = is_whole
        with trials.folder() as folder:
            self.own = made(program, self.begin(folder / "own"), lines, is_whole=is_whole)[1]
        lost = [range(done, len(lines)) for done in range(len(lines) + 1)] if begun else []
        self.states = [self.ruled(it)[1] for it in lost]

    def begin(self, path: str | Path) -> str | Path:
        return trials.copied(self.begun, path) if self.begun else path

    def ruled(self, lost: Any) -> tuple[list[Any], dict[str, list[tuple[Any, ...]]]]:
        """What the rules answer to the lines without the lost ones, and the tables that they leave.
        """
        with closing(sqlite3.connect(":memory:")) as db:
            if self.begun:
                with trials.read(self.begun) as before:
                    before.backup(db)
            desk = reference.Desk(db)
            answers = [
                desk.answer(line.encode()) for i, line in enumerate(self.lines) if i not in lost]
            return answers, trials.rows_in(db)

    def is_left(self, path: str | Path, answered: int) -> bool:
        """Whether a file of an older schema is as a stop may leave it after so many answers."""
        if not self.begun:
            return True
        is_either = schemas.schema_of(path) in ([self.number] if not answered else []) + [
            statements.SCHEMA]
        more = trials.TOGETHER if self.is_whole else 1
        return is_either and schemas.rows(path) in self.states[answered:answered + more + 1]

    def stopped(self, wrong: Wrong) -> Any:
        """Whether a run was stopped, and whether it could be made again as it has to be."""
        lines = self.lines
        with trials.folder() as folder:
            path = self.begin(folder / "desk")
            status, first, message = made(self.program, path, lines, wrong, self.is_whole)
            answered = next((i for i, answer in enumerate(first) if answer in LOST), len(first))
            was_stopped = bool(status or message or answered < len(lines))
            if wrong.is_one_call() and not status and not message:
                return was_stopped, self.is_by_the_rules(path, first) and not trials.faults(path)
            replies = kept(path) if not status else {}
            well = self.is_left(path, answered)
            status_again, again, message_again = made(self.program, path, lines,
                                                      is_whole=self.is_whole)
            well &= (status_again, message_again, len(again)) == (0, "", len(lines))
            told = zip(range(len(lines)), lines, self.own, again)
            well &= all(
                is_well(line, own, i < answered, answer, AGAIN["replace_ecu"] in again)
                for i, line, own, answer in told)
            return was_stopped, well and not trials.faults(
                path) and replies.items() <= kept(path).items()

    def is_by_the_rules(self, path: str | Path, printed: Any) -> Any:
        """Whether the lines that weren't lost are answered by the rules, and the tables are
        those that they leave, or one more, or the first ones of those that share a commit.
        """
        if len(printed) != len(self.lines):
            return False
        lost = [i for i, answer in enumerate(printed) if answer in LOST]
        answers, tables = self.ruled(lost)
        if answers != [answer for answer in printed if answer not in LOST]:
            return False
        left = trials.rows(path)
        fewer = [[i for i in lost if i != one] for one in lost]
        if self.is_whole:
            fewer += [lost[done:] for done in range(2, len(lost) + 1)]
        return left == tables or any(left == self.ruled(it)[1] for it in fewer)


def swept(run: Any, call: str) -> trials.Cases:
    """The number of stops at calls of a kind, and the first that went wrong."""
    most = 0
    for how in (KILLED, FAILING, FAILED):
        for k in range(1, MOST):
            was_stopped, well = run.stopped(Wrong(call + ":" + how % k))
            if not well:
                yield how % k, False
            if how == KILLED and not was_stopped:
                most = k - 1
                break
            if how != KILLED and k > most:
                break
    yield "%d of each kind" % most, True


def runs(program: str | Path, own: Path) -> Iterator[tuple[str, Run]]:
    """Each run with its name, a line at a time and whole: over a new file, and over a file of each
    older schema, with sums of its pages or without.
    """
    rows = next(rows for words, rows in each_line.sections() if words == each_line.STOPS)
    for at, (_, row, _) in enumerate(rows, 1):
        lines = row.split(" ;; ")
        # (behind a rotation a file of an older schema has the secrets before it, too)
        last = max((i for i, line in enumerate(lines) if '"rotate"' in line), default=0)
        first = next(i for i, line in enumerate(lines) if '"bench"' in line and i > last)
        assert made(program, own / ("first %d" % at), lines[:first + 1])[0] == 0
        for is_whole in (False, True):
            how = "whole" if is_whole else "by line"
            yield "run %d %s" % (at, how), Run(program, lines, is_whole=is_whole)
            for number, older in ((1, schemas.lowered), (2, schemas.written), (3, schemas.lowered)):
                begun = older(own / ("first %d" % at), own / ("%d %d %s" % (at, number, how)),
                              number)
                yield "run %d %s over schema %d" % (at, how, number), Run(
                    program, lines[first:], begun, number, is_whole)


def cases(program: str | Path) -> trials.Cases:
    with trials.folder() as own:
        for name, run in runs(program, own):
            for call in CALLS:
                for what, well in swept(run, call):
                    yield "%s, %s, %s" % (name, call, what), well


def main(words: arguments.Words = None) -> int:
    """Tries the program that is named."""
    return trials.tried(__doc__, words, "stop", cases)
