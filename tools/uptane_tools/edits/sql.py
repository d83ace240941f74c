"""Texts of SQL in the bodies of functions. The proofs have each such text once more as a
constant, so an edit that turns one alone is refused by its spelling, whatever it means. It shows
something only beside rows of a test that fail with it, which a line `rows: SECTION` of the edit
names. One that has a choice among such texts in the place of one is refused so, too, and can't
be carried out beside rows, since its condition is Rattle's.
"""
import functools
import json
import re
import tempfile
from pathlib import Path
from typing import Any

from uptane_tools.edits.functions import tokens_of

BEGINS = r"(?:SELECT|INSERT|UPDATE|DELETE|REPLACE|CREATE|DROP|ALTER|WITH|PRAGMA)\b"
IN_A_BODY = re.compile(rb'"\s*' + BEGINS.encode())
IS_TEXT = re.compile(rf'"\s*{BEGINS}')
ROWS = re.compile(r"(?m)^rows: (.*)$")
SECTION = re.compile(r"(?m)^# (.+)$")


@functools.cache
def words_in(body: bytes) -> list[str]:
    """Returns the words of a body's (bytes) tokens, in order."""
    with tempfile.NamedTemporaryFile(suffix=".rt") as file:
        file.write(b"fn f() {" + body + b"}")
        file.flush()
        tokens = tokens_of([file.name])
    return [json.loads(f'"{it.word}"') for it in (tokens or [[]])[0]]


def texts_in(body: bytes) -> tuple[list[str], list[str]]:
    """Returns the texts of SQL in a body (bytes), in order, and its other tokens."""
    words = words_in(body)
    texts = [it for it in words if IS_TEXT.match(it)]
    return [re.sub(r"\\(.)", r"\1", it[1:-1]) for it in texts], [
        it for it in words if it not in texts]


def turns_a_text(old: bytes, new: bytes) -> bool:
    """Returns whether of two bodies (bytes) texts of SQL alone differ."""
    if old == new or not IN_A_BODY.search(old):
        return False
    (before, others), (after, now) = texts_in(old), texts_in(new)
    return before != after and others == now


def chooses_a_text(old: bytes, new: bytes) -> bool:
    """Returns whether two bodies (bytes) are the same, but that the new one has a choice among
    texts of SQL in the place of one.
    """
    if old == new or not IN_A_BODY.search(old):
        return False
    words, at, is_choice = words_in(new), 0, False
    for word in words_in(old):
        ends = _choice_ends(
            words, at) if IS_TEXT.match(word) else at + 1 if words[at:at + 1] == [word] else None
        if ends is None:
            return False
        at, is_choice = ends, is_choice or ends - at > 1
    return is_choice and at == len(words)


def _choice_ends(words: list[str], at: int) -> Any:
    """Returns where an expression ends that begins at `at` and has texts of SQL alone as its
    values: one, or such in brackets, or in the branches of an `if` or a `match`. Or returns
    None, where another begins there.
    """
    begins = "".join(words[at:at + 1])
    if IS_TEXT.match(begins):
        return at + 1
    if begins in ("(", "{"):
        ends = _choice_ends(words, at + 1)
        return ends + 1 if ends and words[ends:ends +
                                          1] == [")" if begins == "(" else "}"] else None
    if begins == "if":
        ends = _choice_ends(words, _found(words, at, ["{"]))
        return _choice_ends(words, ends + 1) if ends and words[ends:ends + 1] == ["else"] else None
    if begins != "match":
        return None
    at = _found(words, at, ["{"]) + 1
    while at and words[at:at + 1] != ["}"]:
        at = _choice_ends(words, _found(words, at, ["=", ">"]) + 2)
        at = at and at + (words[at:at + 1] == [","])
    return at and at + 1


def _found(words: list[str], at: int, these: list[str]) -> int:
    """Returns where these words stand in a row first, from `at` on, or the end."""
    return next((it for it in range(at, len(words)) if words[it:it + len(these)] == these),
                len(words))


def rows_named(file: Path) -> list[str]:
    """Returns the sections of rows that an edit's file names, one in each of its lines 'rows:
    SECTION'.
    """
    return [
        it.strip() for it in ROWS.findall(Path(file).read_text(encoding="utf-8", errors="replace"))]


def sections_beside(folder: str) -> set[str]:
    """Returns the names of the sections of rows that the crates beside this one carry out."""
    return {
        name for it in Path(folder).resolve().parent.glob("*/stdin")
        for name in SECTION.findall(it.read_text(encoding="utf-8"))}


def unshown(folder: str, file: Path) -> str | None:
    """Returns why an edit of a text of SQL alone shows nothing, or None."""
    named, there = rows_named(file), sections_beside(folder)
    if not named:
        return ("it turns a text of SQL alone, so its spelling refuses it; a line 'rows: SECTION' "
                "has to name the rows that fail with it")
    return next((f"it names the rows '{it}', and no crate has a section of that name"
                 for it in named if it not in there), None)
