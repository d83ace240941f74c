"""Collects the rows of `rows/` into what the program that carries them out reads, and what it has
to write: each folder, and each section of `rows/each_answer`, with the texts that `reference.py`
computes. `computed` gives them to the program of the crate `up_test_worked_rows`, whose input has
the first row, and those that are wrong on purpose.
"""
import json
import sqlite3
from collections.abc import Iterator, Sequence
from dataclasses import dataclass
from pathlib import Path
from typing import Any
from uptane_tools import TOP
from uptane_tools.oracle import reference
from uptane_tools.trial import each_line

ROWS = TOP / "rows"
# sections that aren't carried out by calls: one has too many lines to open files before each,
# another lines that no text holds
APART = [
    each_line.STOPS, each_line.WRONG, "campaign of 16 items for 1000 vehicles", each_line.NO_TEXT]


def lines_of(path: Path) -> list[str]:
    return path.read_text(encoding="ascii").split("\n")[:-1] if path.exists() else []


class IsCommand(Exception):
    pass


class Reader(reference.Desk):
    """Reads lines: what is read in full is a command, and its moment comes next."""

    def in_range(self, line: dict[str, Any]) -> None:
        raise IsCommand


READER = Reader(sqlite3.connect(":memory:"))


def is_command(line: str) -> bool:
    """Whether a line asks the desk something: it has no fault, and shows nothing."""
    try:
        READER.answer(line.encode())
    except IsCommand:
        return True
    return False


@dataclass(frozen=True)
class Row:
    """A row: its name, the method of its scheme, and its lines, each with the line that is
    printed and the text of its reply.
    """

    name: str
    method: str
    steps: Sequence[tuple[Any, ...]]

    def given(self) -> str:
        out = ["row " + self.name, "@ " + self.method]
        for line, answer, reply in self.steps:
            asks = is_command(line)
            out.append(("> " if asks else "? ") + line)
            out += [("< " if asks else "! ") + answer] * bool(line) + ["= " + reply] * bool(reply)
        return "\n".join(out) + "\n"

    def wanted(self) -> str:
        answered = [step for step in self.steps if step[0]]
        asked = sum(is_command(line) for line, _, _ in answered)
        texts = sum(bool(reply) for _, _, reply in answered)
        return tells(self.name, len(answered), asked + texts, len(answered) + texts) + "\n"


def row_of(folder: Path) -> Row:
    printed = iter(lines_of(folder / "printed"))
    replies = iter(lines_of(folder / "replies"))
    steps = []
    for line in lines_of(folder / "script"):
        answer = next(printed) if line else ""
        reply = next(replies) if answer.startswith("reply ") else ""
        steps.append((line, answer, reply))
    if list(printed) or list(replies):
        raise SystemExit("row %s: more answers than lines" % folder.name)
    return Row(folder.name, (lines_of(folder / "under") or ["hmac-sha256"])[0], steps)


def row_of_section(words: str, rows: list[tuple[str, str | None, str | None]]) -> Row:
    """The lines of a section. A body that is no text is none, and is left out."""
    desk, steps = each_line.Desk(), []
    for given, text, wanted in rows:
        lines = each_line.script(text) if text else []
        answers = [desk.answer(line.encode()) for line in lines]
        if lines and each_line.told(answers) != wanted:
            raise SystemExit("%s: %.200s wants another answer" % (words, given))
        steps += [(line, *answer.partition("\n")[::2]) for line, answer in zip(lines, answers)]
    return Row("each_answer, " + words, reference.METHOD, steps)


def rows() -> Iterator[Row]:
    yield from (row_of(script.parent) for script in sorted(ROWS.glob("*/script")))
    yield from (
        row_of_section(*section) for section in each_line.sections() if section[0] not in APART)


def controls() -> str:
    """Rows that are wrong on purpose: an answer, the text of a reply, the number of lines, a
    scheme.
    """
    found, vehicle, manifest = (step[0] for step in row_of(ROWS / "first_manifest").steps)
    started = ["> " + found, "< done", "> " + vehicle, "< done"]
    wrong = [["answer", "@ hmac-sha256", "> " + found, "< already"],
             [
                 "text", "@ hmac-sha256", *started, "> " + manifest,
                 "< reply V1 version 1 targets 0", "= {}"],
             ["number", "@ hmac-sha256", "? nope", "? nope", "! refused 5 NotJson"],
             ["scheme", "@ none"]]
    return "".join("row control of " + "\n".join(row) + "\n" for row in wrong)


def tells(name: str, script: int | str, run: int | str, calls: int | str) -> str:
    """The lines of a row, one for each medium. Read by bytes a script is answered the same, and
    so are calls in turns.
    """
    ways = "script %s, by bytes %s, run %s, calls %s, in turns %s" % (script, script, run, calls,
                                                                      calls)
    return "\n".join("%s in %s: %s" % (name, medium, ways) for medium in ("memory", "files"))


def seen() -> str:
    """What shows that the program sees each of the controls."""

    def differs(had: str, wanted: str) -> str:
        return "DIFFERS: %s in place of %s" % (json.dumps(had), json.dumps(wanted))

    answer = differs("done\n", "already\n")
    printed = "done\ndone\nreply V1 version 1 targets 0\n"
    reply = differs(printed + lines_of(ROWS / "first_manifest" / "replies")[0] + "\n",
                    printed + "{}\n")
    number = differs(2 * "refused 5 NotJson\n", "refused 5 NotJson\n")
    return "\n".join([
        tells("control of answer", answer, answer, answer),
        tells("control of text", "3", reply, reply),
        tells("control of number", number, "0", number), "control of scheme: no such scheme"
    ]) + "\n"


def texts(of: list[Row] | None = None) -> tuple[str, str]:
    """The input and what is told; of some rows, if any are said."""
    each = list(rows() if of is None else of)
    return ("\n" + "".join(row.given() for row in each) + controls(),
            "".join(row.wanted() for row in each) + seen())


def first() -> tuple[str, str]:
    """The same of the first manifest alone."""
    return texts([row_of(ROWS / "first_manifest")])
