"""Looks through a script before it is given to the program. It runs nothing, and needs neither
the program nor a database.

    tools/run check_script [SCRIPT] [--now SECONDS] [--far DAYS] [--final]

SCRIPT is a file; without it standard input is read. For each line in which something is amiss a
line is printed:

    line 7: fault: needs: a list of 0 to 16 ..      the program would refuse the line, whatever it
                                                    has done before
    line 8: look: need: no such member; needs?      the program would take the line, but hardly as
                                                    it was meant
    line 9: final: version: .. none is above it     the program would take the line, and no later
                                                    line undoes it

Looked for are: what is no JSON, words and members that the program doesn't know (it ignores a
member that it doesn't know, so a misspelt `needs` is an image without needs for good), members that
are missing, of a wrong kind or outside their limits, names past their limits, members that stand
twice, moments more than a day (or DAYS) after now, in lines that make files also moments so far
before now and moments that go back, a key that stands twice or is nobody's, and lines and scripts
that are too long. Final are a version of the Image repository, a release of an image and a counter
near their end, behind which no further one comes, and a filename that leaves the folder in which a
Primary puts images; `--final` calls them `look`. Whether a vehicle or an image is there, only the
program can tell.

The status is 0 where nothing is amiss, 1 where something is, and 2 where the script can't be
read. Words and members are those that `docs/integrate/FORMATS.md` lists.
"""
import difflib
import json
import re
import sys
import time
from pathlib import Path

from typing import Any, Iterable, Iterator

from uptane_tools import TOP, arguments
from uptane_tools.operate import points
from uptane_tools.operate.formats import (COUNT, FILE, HASH, IDENT, KEY, LAST_AT, LAST_MOMENT, LIST,
                                          MOST, NOTE, OBJECT, REPOSITORIES, ROLES, SECOND_HASH,
                                          Named, Test, is_count, value_of)

PAGE = TOP / "docs" / "integrate" / "FORMATS.md"
LONGEST, MOST_LINES, DAY = 2_097_152, 100_000, 86400
# so many numbers have to be left behind a version, a release or a counter; a version above the
# second is hardly meant
LEFT, HIGH_VERSION = 1_000_000, 1_000_000
A_NAME = "1 to 64 bytes of A-Z a-z 0-9 . _ -"
A_FILE = "1 to 128 bytes of A-Z a-z 0-9 . _ - /"
A_COUNT = "a whole number from 0 to 2^53-1"
A_KEY = "a key of 32 bytes, 64 hexadecimal digits"


def is_key(value: Any) -> bool:
    return KEY(value) and len(value) == 64


def sized(holds: Test, least: int, most: int) -> Test:
    return lambda value: LIST(value) and least <= len(value) <= most and all(map(holds, value))


def distinct(values: list) -> bool:
    return len(set(values)) == len(values)


# What each member holds: a test, and what is said where it fails. One that another word has in
# another sense stands with that word.
KINDS: dict[str, tuple[Test, str]] = {
    "at": (COUNT, "the moment, in whole seconds since 1970"),
    "director": (OBJECT, "an object with root, targets, snapshot and timestamp"),
    "vehicle": (IDENT, A_NAME), "primary": (IDENT, A_NAME), "ecu": (IDENT, A_NAME), "old": (IDENT,
                                                                                            A_NAME),
    "campaign": (IDENT, A_NAME), "key": (is_key,
                                         A_KEY), "file": (FILE, A_FILE), "length": (COUNT, A_COUNT),
    "release": (COUNT, A_COUNT), "version": (COUNT, A_COUNT), "sha256": (HASH,
                                                                         "64 hexadecimal digits"),
    "sha512": (SECOND_HASH,
               "128 hexadecimal digits"), "hardware": (IDENT, A_NAME), "hardware of add_image": (
                   lambda v: sized(IDENT, 1, 16)(v) and distinct(v),
                   "a list of 1 to 16 names, none twice, each of " + A_NAME), "needs": (sized(
                       OBJECT, 0,
                       16), 'a list of 0 to 16 {"hardware","release"}'), "conflicts": (sized(
                           FILE, 0,
                           16), "a list of 0 to 16 filenames, each of " + A_FILE), "ecus": (sized(
                               OBJECT, 1, 32), 'a list of 1 to 32 {"ecu","hardware","key"}'),
    "vehicles": (lambda v: v == "all" or sized(IDENT, 1, 1000)
                 (v), '"all", or a list of 1 to 1,000 names'), "items": (sized(
                     OBJECT, 1, 16), 'a list of 1 to 16 {"hardware","file"}'),
    "body": (lambda v: isinstance(v, str),
             "the text of a manifest"), "repository": (lambda v: v in REPOSITORIES,
                                                       "director or image"), "counter": (COUNT,
                                                                                         A_COUNT),
    "counter of bench": (lambda v: is_count(v, 1),
                         "a whole number from 1 to 2^53-1"), "reports": (sized(
                             OBJECT, 0, 64), "a list of 0 to 64 reports"),
    "time": (lambda v: is_count(v, 0, LAST_MOMENT),
             "a moment, in whole seconds"), "attack": (NOTE, "up to 256 bytes of printable ASCII"),
    "keys": (lambda v: sized(is_key, 1, 4)(v) and distinct([k.lower() for k in v]),
             "1 to 4 keys of 32 bytes, none twice"), "threshold": (lambda v: is_count(v, 1, 4),
                                                                   "1 to the number of keys")}
KINDS["image"] = KINDS["director"]
# lines that make no file: they may have been written days ago
NO_FILES = {"add_vehicle", "replace_ecu", "open_campaign", "close_campaign", "show", "fetch"}
OPTIONAL = {"needs", "conflicts", "attack", "sha512"}


def listed() -> tuple[dict[str, list[str]], dict[str, list[str]]]:
    """The members of each word, and those of the objects in a list, as the page on formats lists
    them.
    """
    page = PAGE.read_text(encoding="ascii").split("\n## Scripts\n")[1].split("\n## ")[0]
    rows = re.findall(r"^\| (`.*?) \| (`.*?) \|$", page, re.MULTILINE)

    def named(text: str) -> list[str]:
        return re.findall(r"`(\w+)`", text)

    words = {
        word: named(members) for those, members in rows for word in named(those)
        if members != "Members"}
    inner = {
        name: re.findall(r'"(\w+)"', members) for name, members in re.findall(
            r"`(\w+)`(?:\s+is)?\s+a\s+list\s+of\s+`\{(.*?)\}`", page, re.DOTALL)}
    return {word: members for word, members in words.items() if word != "do"}, inner


WORDS, INNER = listed()


class Line:
    """What is amiss in one line."""

    def __init__(self) -> None:
        self.found: list[str] = []

    def fault(self, name: str, words: str) -> None:
        self.found.append("fault: %s: %s" % (name, words))

    def look(self, name: str, words: str) -> None:
        self.found.append("look: %s: %s" % (name, words))

    def final(self, name: str, words: str) -> None:
        self.found.append("final: %s: %s" % (name, words))

    def unknown(self, value: Named, known: Iterable[str], within: str = "") -> None:
        for name in value:
            if name not in known:
                near = difflib.get_close_matches(name.lower(),
                                                 [it for it in known if it not in value], 1)
                self.look(
                    name, "no such member%s; it is ignored" % within +
                    ("; is it %s?" % near[0] if near else ""))

    def members(self, value: Named, known: Iterable[str], word: str, within: str = "") -> bool:
        """The members of an object, each by its kind. True where all are there and hold what
        they have to.
        """
        self.unknown(value, known, within)
        well = True
        for name in known:
            holds, words = KINDS.get("%s of %s" % (name, word)) or KINDS[name]
            if name not in value and name not in OPTIONAL:
                well, words = False, "it is missing" + within
                self.fault(name, words)
            elif name in value and not holds(value[name]):
                well = False
                self.fault(name, words + within)
        return well

    def inner(self, asked: Named, known: Iterable[str]) -> None:
        """The objects in a member that is a list of them."""
        for name in known:
            if name in INNER and isinstance(asked.get(name), list):
                for number, one in enumerate(it for it in asked[name] if isinstance(it, dict)):
                    self.members(one, INNER[name], name, ", in %s[%d]" % (name, number))

    def roles(self, asked: Named) -> None:
        """The keys of `found` and `rotate`."""
        every = []
        for repository in REPOSITORIES:
            value = asked.get(repository)
            if isinstance(value, dict):
                self.unknown(value, ROLES, ", in " + repository)
                for role in ROLES:
                    every += self.role(value, role, "%s.%s" % (repository, role))
        if not distinct(every):
            self.look("keys", "a key stands in two roles: whoever has it can sign for both")

    def role(self, value: Named, role: str, where: str) -> list[str]:
        if not isinstance(value.get(role), dict):
            self.fault(role, "an object with keys and threshold, in " + where.split(".")[0])
            return []
        told = value[role]
        if self.members(told, ["keys", "threshold"], "role",
                        ", in " + where) and told["threshold"] > len(told["keys"]):
            self.fault("threshold", "%s, in %s" % (KINDS["threshold"][1], where))
        return [key.lower() for key in told.get("keys", []) if isinstance(key, str)] if isinstance(
            told.get("keys"), list) else []

    def together(self, asked: Named) -> None:
        """What two members of a line say of one another."""
        ecus = [it["ecu"] for it in asked.get("ecus", []) if isinstance(it.get("ecu"), str)
                ] if self.whole(asked, "ecus") else []
        if asked["do"] == "add_vehicle" and ecus:
            if asked.get("primary") not in ecus:
                self.fault("primary", "one of the vehicle's ECUs")
            if not distinct(ecus):
                self.fault("ecus", "an ECU stands there twice")
        keys = [it.get("key") for it in asked.get("ecus", [])] if ecus else []
        if not distinct([key.lower() for key in keys if isinstance(key, str)]):
            self.look("key", "two ECUs have one key")
        for key in [*keys, asked.get("key") if asked["do"] == "replace_ecu" else None]:
            if is_key(key) and points.is_nobodys(key):
                self.look("key", points.NOBODYS)
        if asked["do"] == "replace_ecu" and asked.get(
                "old") is not None and asked["old"] == asked.get("ecu"):
            self.fault("ecu", "another identifier than the old ECU's")
        if asked["do"] == "add_image" and isinstance(
                asked.get("conflicts"), list) and asked.get("file") in asked["conflicts"]:
            self.fault("conflicts", "an image doesn't conflict with itself")

    def last(self, asked: Named) -> None:
        """What would be taken, and leaves nothing that comes after it."""
        word, ends = asked["do"], lambda value: is_count(value, MOST - LEFT + 1)
        if word == "refresh" and ends(asked.get("version")):
            self.final(
                "version",
                "none is above it: no image, no keys and no new files could follow, and all "
                "metadata would expire for good")
        elif word == "refresh" and is_count(asked.get("version"), HIGH_VERSION + 1):
            self.look("version", "above 1,000,000; it never goes back")
        if word == "add_image" and ends(asked.get("release")):
            self.final("release", "none is above it: this hardware could get no further image")
        if word == "add_image" and FILE(asked.get("file")):
            parts = asked["file"].split("/")
            if parts[0] == "" or ".." in parts:
                self.final("file", "it leaves the folder in which a Primary puts images")
            elif "" in parts or "." in parts:
                self.look("file", "a part of its path is empty, or is a point")
        if word == "bench":
            reports = [it.get("counter") for it in asked["reports"]] if self.whole(
                asked, "reports") else []
            if any(map(ends, [asked.get("counter"), *reports])):
                self.final(
                    "counter",
                    "none is above it: the vehicle's next manifests would be stale for good")

    @staticmethod
    def whole(asked: Named, name: str) -> bool:
        return isinstance(asked.get(name), list) and all(isinstance(it, dict) for it in asked[name])

    def moment(self, at: int, before: int | None, now: int, far: float, makes: bool) -> None:
        """`makes` tells whether the line makes files, which expire by its moment."""
        if at > LAST_AT:
            self.fault("at", "past 2100-01-01T00:00:00Z; the moment is in seconds")
        elif at - now > far or makes and now - at > far:
            self.look(
                "at", "%.1f days %s now; it is taken as it stands, and %s" %
                (abs(at - now) / DAY, "after" if at > now else "before",
                 "files expire by it" if makes else "done at once"))
        if makes and before is not None and at < before:
            self.look("at", "earlier than in a line before")


def repeated(text: bytes) -> list[str]:
    """The members that stand twice in an object of the text: the last one counts."""
    twice = []

    def kept(pairs: list[tuple[str, Any]]) -> Named:
        names = [name for name, _ in pairs]
        twice.extend(sorted({name for name in names if names.count(name) > 1}))
        return dict(pairs)

    json.loads(text, object_pairs_hook=kept)
    return twice


def checked(text: bytes, before: int | None, now: int, far: float) -> tuple[list[str], int | None]:
    """What is amiss in a line, and its moment where it makes files by it."""
    line = Line()
    if len(text) > LONGEST:
        line.fault("line", "longer than %d bytes: it ends the run" % LONGEST)
        return line.found, None
    try:
        asked = value_of(text)
    except ValueError:
        line.fault("line", "no JSON")
        return line.found, None
    if not isinstance(asked, dict) or not isinstance(asked.get("do"),
                                                     str) or asked["do"] not in WORDS:
        word = asked.get("do") if isinstance(asked, dict) else None
        near = difflib.get_close_matches(word, WORDS, 1) if isinstance(word, str) else []
        line.fault("do", "one of %s" % ", ".join(WORDS) + ("; is it %s?" % near[0] if near else ""))
        return line.found, None
    for name in repeated(text):
        line.look(name, "it stands twice, and the last one counts")
    known = WORDS[asked["do"]]
    line.members({name: it for name, it in asked.items() if name != "do"}, ["at", *known],
                 asked["do"])
    line.inner(asked, known)
    if "director" in known:
        line.roles(asked)
    line.together(asked)
    line.last(asked)
    at = asked["at"] if COUNT(asked.get("at")) else None
    makes = asked["do"] not in NO_FILES
    if at is not None:
        line.moment(at, before, now, far, makes)
    return line.found, at if makes else None


def amiss(script: bytes, now: int, far: float = DAY) -> Iterator[str]:
    """A line for each thing that is amiss in a script, given as bytes."""
    before = None
    lines = script.split(b"\n")
    for number, text in enumerate(lines if lines[-1] else lines[:-1], 1):
        if number > MOST_LINES:
            yield "line %d: fault: line: a script has at most %d lines" % (number, MOST_LINES)
            return
        found, at = checked(text, before, now, far) if text else ([], None)
        yield from ("line %d: %s" % (number, it) for it in found)
        before = before if at is None else max(at, before or 0)


def main(words: arguments.Words = None) -> int:
    parser = arguments.parser(__doc__)
    parser.add_argument("script", nargs="?", type=Path)
    parser.add_argument("--now", type=int, default=None)
    parser.add_argument("--far", type=float, default=1, help="days from now that a moment may be")
    parser.add_argument("--final", action="store_true",
                        help="what can't be undone is only to be looked at")
    given = parser.parse_args(words)
    try:
        script = given.script.read_bytes() if given.script else sys.stdin.buffer.read()
    except OSError as error:
        print("check_script: %s" % error, file=sys.stderr)
        return 2
    now = int(time.time()) if given.now is None else given.now
    found = list(amiss(script, now, given.far * DAY))
    found = [it.replace(": final: ", ": look: ", 1) if given.final else it for it in found]
    print("\n".join(found), end="\n" * bool(found))
    return 1 if found else 0
