"""Tries every answer of every command: by script over memory; over a file that another start of
the program opens before each row; and bodies over HTTP too. None may be answered by want of
memory or by the database. Bounded to a minute.

    tools/run each_line PROGRAM
    tools/run each_line wanted [write]     tells which rows want another answer than `reference.py`
                                           gives, or writes what they want

The rows stand in `rows/each_answer`, in sections, each from an empty database: a line of a
script, or one of these words and what stands behind it. `times N LINE` is the line so many
times, with the numbers from 0 on in place of `%`; `body TEXT`, `cuts TEXT` and `bytes HEX` are a
body that is delivered, each of its beginnings, and a body in hex; `line HEX` is a line in hex.
How texts that repeat or change in one place are spelled is said in
docs/develop/CASES.md. What is wanted is the line printed, with the SHA-256 of a file in
place of its text and of a reply behind its line, and what is shown of a vehicle without its
name. In a section of stops a row is a whole run, its lines parted by ` ;; `, for `stops.py`.

promise: line-meaning, script-any-database, http-output
"""
import hashlib
import http.client
import json
import re
import sqlite3
from collections.abc import Iterator
from pathlib import Path
from typing import Any

from uptane_tools import TOP, arguments
from uptane_tools.oracle import reference
from uptane_tools.oracle.schemes import HmacSha256
from uptane_tools.rows import translated
from uptane_tools.trial import http_cases, trials

ROWS = TOP / "rows" / "each_answer"
AT = 1767225600
STOPS = "stops at each call of a disk"
NO_TEXT = "lines that are no text"
WRONG = "rows that are wrong on purpose"
STATUS = {4: 413} | dict.fromkeys((5, 6, 7), 400) | dict.fromkeys(
    (11, 12, 17), 403) | dict.fromkeys((10, 29), 404)

# what is given, the line or the body, and what is wanted
Row = tuple[str, str | None, str | None]


def digest(text: str) -> str:
    return hashlib.sha256(text.encode()).hexdigest()


# ---- rows


def in_full(text: str) -> str:
    """The text with its repetitions: `<*N*TEXT*>`, with a comma between and numbers in place of
    `#` where it has one.
    """
    front, *pieces = text.split("<*")
    for piece in pieces:
        repeated, rest = piece.split("*>", 1)
        number, _, what = repeated.partition("*")
        many = range(int(number))
        front += (",".join(what.replace("#", str(i))
                           for i in many) if "#" in what else len(many) * what) + rest
    return front


def sections() -> Iterator[tuple[str, list[Row]]]:
    """The words of each section and its rows: what stands in it, what that is in full and what
    is wanted, none of a base.
    """
    for section in ROWS.read_text(encoding="ascii").split("\n# ")[1:]:
        words, *lines = section.rstrip("\n").split("\n")
        yield words, list(rows(lines))


def rows(lines: list[str]) -> Iterator[tuple[str, str | None, str | None]]:
    base = ""
    for line in lines:
        given, arrow, wanted = line.partition(" => ")
        word, _, rest = given.partition(" ")
        if not arrow:
            base = rest
            yield line, None, None
            continue
        text = given
        if word in ("~", "+"):
            old, new = rest.split(" | ")
            if old not in base:
                raise SystemExit("no such text: " + line)
            text = base.replace(old, new, 1)
            base = text if word == "+" else base
        yield given, in_full(text), wanted


def delivery(body: str) -> str:
    return json.dumps({"do": "deliver", "at": AT, "body": body})


def script(text: str) -> list[Any]:
    """The lines of what is given, texts or bytes; none of a body that is no text."""
    word, _, rest = text.partition(" ")
    if word == "times":
        number, _, line = rest.partition(" ")
        return [line.replace("%", str(i)) for i in range(int(number))]
    if word == "body":
        return [delivery(rest)]
    if word == "cuts":
        return [delivery(rest[:n]) for n in range(len(rest))]
    if word == "line":
        return [bytes.fromhex(rest)]
    return [] if word == "bytes" else [text]


def bodies(text: str) -> list[bytes]:
    """The bodies that are given, none of a line."""
    word, _, rest = text.partition(" ")
    if word == "bytes":
        return [bytes.fromhex(rest)] if len(rest) % 2 == 0 else []
    return [json.loads(line)["body"].encode() for line in script(text) if word in ("body", "cuts")]


# ---- what is told


def short(answer: str) -> str:
    """What is told of a printed line, behind which the text of its reply may stand."""
    line, _, text = answer.partition("\n")
    if line.startswith("file "):
        return "file " + digest(line[5:])
    return line + " " + digest(text) if text else re.sub(r"^vehicle \S+ ", "", line)


def told(printed: list[str]) -> str:
    """What is told of printed lines, with the digests of replies whose texts stand behind them."""
    one = list(map(short, printed))
    if len(one) > 1:
        return "%d %s" % (len(one), one[0] if one[0] == "done" else "times " + one[0]) if len(
            set(one)) == 1 else "not all alike"
    return one[0] if one else "nothing"


def without_digest(wanted: str) -> str:
    return re.sub(r"^(reply .*) [0-9a-f]{64}$", r"\1", wanted)


class Desk(reference.Desk):
    """The rules over tables in memory, with the text of a reply behind its line."""

    def __init__(self) -> None:
        super().__init__(sqlite3.connect(":memory:"))

    def printed(self, kept: dict[str, Any] | sqlite3.Row) -> str:
        sql = "SELECT reply FROM kept WHERE vehicle = ? AND version = ?"
        return super().printed(kept) + "\n" + self.one(sql, kept["vehicle"], kept["version"])[0]

    def body(self, body: bytes) -> str:
        try:
            with self.db:
                return self.delivered(body, AT)
        except reference.Refused as refused:
            return refused.text

    def told(self, text: str) -> str:
        lines = script(text)
        if lines:
            return told([
                self.answer(line if isinstance(line, bytes) else line.encode()) for line in lines])
        return "".join(short(self.body(body)) for body in bodies(text)) or "no hex"


# ---- another scheme


def text_under(translation: Any, text: str) -> str:
    """What is given, under another scheme."""
    word, _, rest = text.partition(" ")
    if word in ("body", "cuts"):
        return "%s %s" % (word, translation.body(rest))
    if word == "times":
        return "times %s %s" % (rest.split(" ")[0], translation.line(rest.partition(" ")[2]))
    return text if word in ("line", "bytes") else translation.line(text)


def rows_under(rows: list[Row]) -> tuple[list[Row], bool]:
    """The rows under the scheme that is tried, with what the rules want then: but for digests
    that is the same.
    """
    lines = [line for _, text, _ in rows if text for line in script(text) if isinstance(line, str)]
    translation, desk, made = translated.Translation(lines, HmacSha256,
                                                     reference.SCHEME), Desk(), []
    for given, text, wanted in rows:
        under = text and text_under(translation, text)
        made.append((given, under, wanted if text is None else desk.told(under)))

    def plain(it: Any) -> str | None:
        return None if it is None or it.startswith("file ") else without_digest(it)

    return made, [plain(it) for _, _, it in rows] == [plain(it) for _, _, it in made]


# ---- the program


def by_script(program: str, rows: list[Row]) -> bool:
    """The answers of one script over memory."""
    lines = [line for _, text, _ in rows if text for line in script(text)]
    printed = trials.printed(program, ":memory:", lines) or []
    return len(printed) == len(lines) and all(wells(rows, iter(printed)))


def wells(rows: list[Row], printed: Iterator[str]) -> Iterator[bool]:
    """Whether each row is answered as it wants, by the next of these lines."""
    for _, text, wanted in rows:
        if text and script(text):
            lines = script(text)
            yield told([next(printed) for _ in lines]) == without_digest(wanted)


def by_starts(program: str, path: Path, rows: list[Row]) -> bool:
    """Each row by a start of the program of its own, over the file; then the tables are those
    that the rules leave.
    """
    desk, well = Desk(), True
    for _, text, wanted in rows:
        lines = script(text) if text else []
        if lines:
            desk.told(text)
            well &= told(trials.printed(program, path, lines) or []) == without_digest(wanted)
    return well and trials.rows(path) == trials.rows_in(desk.db) and not trials.faults(path)


def by_posts(program: str | Path, path: str | Path, rows: list[tuple[str, str | None,
                                                                     str | None]]) -> bool:
    """Each body of the rows over HTTP, over the file, a connection for each row."""
    given = [(bodies(text), wanted) for _, text, wanted in rows if text and bodies(text)]
    with http_cases.served(program, path, len(given)) as running:
        well = all(posted(running, some) == refused(wanted, len(some)) for some, wanted in given)
        return well and http_cases.ended(running)


def posted(running: http_cases.Served, bodies: list[Any]) -> list[tuple[int, str]]:
    """The statuses and the bodies of what is answered to these on one connection."""
    client = http.client.HTTPConnection("127.0.0.1", running.port, timeout=http_cases.PATIENCE)
    answers = []
    for body in bodies:
        client.request("POST", "/director/manifest", body)
        answer = client.getresponse()
        answers.append((answer.status, answer.read().decode("ascii")))
    client.close()
    return answers


def refused(wanted: Any, number: int) -> list[tuple[int, str]]:
    """What is answered over HTTP to so many bodies that want this refusal."""
    _, code, text = wanted[wanted.index("refused"):].split(" ", 2)
    return number * [(STATUS.get(int(code), 409), '{"error":%s,"text":"%s"}' % (code, text))]


def cases(program: str) -> trials.Cases:
    for words, rows in sections():
        if words == STOPS:
            continue
        if words == WRONG:
            yield "a row that is wrong on purpose is seen", not by_script(program, rows)
            continue
        if reference.METHOD != HmacSha256.method:
            rows, same = rows_under(rows)
            yield words + ", by the rules as under HMAC", same
        lost = any(re.search(r"refused [12] ", wanted) for _, text, wanted in rows if text)
        yield words + ", by script", by_script(program, rows) and not lost
        with trials.folder() as folder:
            yield words + ", over a file by many starts", by_starts(program, folder / "desk", rows)
            if any(text and bodies(text) for _, text, _ in rows):
                yield words + ", over HTTP", by_posts(program, folder / "desk", rows)


# ---- what is wanted


def computed() -> tuple[str, int]:
    """The rows as the rules want them, and how many want something else."""
    made, differing = "", 0
    for words, rows in sections():
        desk, made = Desk(), made + "\n# %s\n" % words
        for given, text, wanted in rows:
            answer = wanted if text is None or words in (STOPS, WRONG) else desk.told(text)
            if answer != wanted:
                differing += 1
                print("%s: %.200s\n  wants %.300s" % (words, given, answer))
            made += given + "\n" if text is None else "%s => %s\n" % (given, answer)
    return made, differing


def wanted(order: str = "tell") -> int:
    made, differing = computed()
    if order == "write":
        ROWS.write_text(made, encoding="ascii")
        return 0
    print("%d rows want another answer" % differing)
    return 1 if differing else 0


def main(words: arguments.Words = None) -> int:
    """Tries the program that is named, or tells what the rows want."""
    asked = arguments.given(__doc__, words, "program", order=["tell", "write"])
    if asked.program == "wanted":
        return wanted(asked.order)
    return trials.judged("each line", cases(asked.program))
