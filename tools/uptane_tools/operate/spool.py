"""What `apply.sh` needs to know of the scripts that operators gave: takes and checks them, makes
one script of them, keeps a journal.

    tools/run spool take SPOOL WORK JOURNAL              takes each SPOOL/NAME.script, and checks it
    tools/run spool reads WORK
            whether no accepted script changes anything: `show` and `fetch` alone
    tools/run spool whole WORK [--refresh VERSION]
            prints one script of those that were accepted
    tools/run spool keep SPOOL WORK JOURNAL [--public]
            keeps what was answered, which is WORK/answers

A script is dropped whole: written under another name, and then renamed to NAME.script. `take`
copies it into WORK, which is root's alone, checks it as `check_script.py` does, and removes it
from SPOOL. One in which anything is amiss isn't accepted, nor one that others than its owner may
read: why is written to SPOOL/answers/NAME.refused and to JOURNAL. What is only to be looked at
doesn't count where the name ends in `.looked.script`; what can't be undone always does. What is
no plain file of its own, or has more than 256 MB, is left where it is, and named. The number of
scripts that were accepted is printed, and the status is 1 where one wasn't.

`whole` prints their lines, one script after another by name. VERSION is the version that the
Image repository has: a `refresh` stands at the end then, with a version behind every one that
the lines before may make.

`keep` writes the answers to each script to SPOOL/answers/NAME.answers, and a line of JSON for
each line of a script to JOURNAL: when it was given, by whom (the owner of the file that was
dropped), the script's name and SHA-256, the line without its secrets, and the answer. `--public`
tells that ECUs' keys are public ones, which stay in: what a workshop registered is found again.
A script that wasn't answered to its end is put into SPOOL/held, for root alone, and
SPOOL/answers/NAME.held says so; so is one of a WORK that a killed run left. The status is 1 where
there is one, or a line was refused. What an earlier script of a NAME left in SPOOL/answers is
removed. JOURNAL is only ever added to.
"""
import hashlib
import json
import os
import pwd
import shutil
import stat
import sys
import time
from pathlib import Path

from typing import Any, Iterator

from uptane_tools import arguments
from uptane_tools.operate import check_script
from uptane_tools.operate.formats import Named

MOST_BYTES = 256 << 20
# lines that make new files of the Image repository, each with a version of its own
MAKE_FILES = ("add_image", "rotate", "refresh")
# lines that change nothing
READ = ("show", "fetch")
# members that hold secrets, and one that is long; and the lines whose keys are of ECUs, where these
# are public
LEFT_OUT = ("key", "keys", "body")
OF_ECUS = ("add_vehicle", "replace_ecu")
LONGEST_ANSWER = 200
# what an operator finds of a script
ENDS = (".answers", ".refused", ".held")

# ---- taking


def owner(number: int) -> str:
    try:
        return pwd.getpwuid(number).pw_name
    except KeyError:
        return str(number)


def copied(path: Path, to: Path) -> tuple[str, bytes, int]:
    """Copies a plain file that has no other name, and returns who owns it. A link isn't
    followed, and nothing waits for a pipe.
    """
    given = os.open(path, os.O_RDONLY | os.O_NOFOLLOW | os.O_NONBLOCK)
    with open(given, "rb") as file:
        is_what = os.fstat(given)
        if not stat.S_ISREG(
                is_what.st_mode) or is_what.st_nlink != 1 or is_what.st_size > MOST_BYTES:
            raise OSError("it is no plain file of at most %d bytes with one name" % MOST_BYTES)
        data = file.read(MOST_BYTES)
    to.write_bytes(data)
    return owner(is_what.st_uid), data, is_what.st_mode & 0o044


def amiss(name: str, script: bytes, now: int, others: int) -> list[str]:
    """What keeps a script from being given."""
    if others:
        return [
            "others can read it, and a folder hides names alone: chmod 600 before it is dropped; "
            "secrets in it are known now"]
    found = list(check_script.amiss(script, now))
    return [it for it in found if ": look: " not in it
            ] if name.endswith(".looked.script") else found


def put(spool: Path, script: str, end: str, text: str) -> None:
    """Writes what became of a script, for operators, in a folder that root alone writes to."""
    folder, name = spool / "answers", script.removesuffix(".script")
    folder.mkdir(mode=0o750, exist_ok=True)
    path = folder / (name + end)
    if end != ".held":
        for other in ENDS:
            (folder / (name + other)).unlink(missing_ok=True)
    path.write_text(text, encoding="utf-8")
    path.chmod(0o640)
    shutil.chown(path, group=folder.stat().st_gid)


def take(spool: Path, work: Path, journal: Path) -> int:
    listed: list[Named] = []
    refused, now = 0, int(time.time())
    (work / "list.json").write_text("[]", encoding="utf-8")
    for path in sorted(spool.glob("*.script")):
        try:
            who, script, others = copied(path, work / ("%04d.script" % len(listed)))
        except OSError as error:
            print("spool: %s: %s" % (path, error), file=sys.stderr)
            continue
        found = amiss(path.name, script, now, others)
        one = {"name": path.name, "who": who, "sha256": hashlib.sha256(script).hexdigest()}
        if found:
            refused += 1
            put(spool, path.name, ".refused", "\n".join(found) + "\n")
            added(journal, [{
                "given": stamp(), "who": who, "script": path.name, "sha256": one["sha256"],
                "refused": [it[:LONGEST_ANSWER] for it in found]}])
            print("spool: %s by %s: refused, see %s" % (path.name, who, spool / "answers"),
                  file=sys.stderr)
        else:
            listed.append(one)
            # (before it is gone from there: a run that is killed loses none)
            (work / "list.json").write_text(json.dumps(listed), encoding="utf-8")
        path.unlink()
    print(len(listed))
    return 1 if refused else 0


def reads(work: Path) -> int:
    """Whether each line of the accepted scripts changes nothing, and there is one."""
    asked = [json.loads(line)["do"] for _, lines in scripts(work) for line in lines]
    return 0 if asked and set(asked) <= set(READ) else 1


# ---- one script


def lines_of(path: Path) -> list[bytes]:
    return [line for line in path.read_bytes().split(b"\n") if line]


def scripts(work: Path) -> Iterator[tuple[Named, list[bytes]]]:
    """The scripts that were accepted, each with its lines, in their order; the refresh is the
    last, where there is one.
    """
    listed = json.loads((work / "list.json").read_text(encoding="utf-8"))
    for number, it in enumerate(listed):
        yield it, lines_of(work / ("%04d.script" % number))
    last = work / "refresh.script"
    if last.exists():
        yield {
            "name": "refresh", "who": "the timer",
            "sha256": hashlib.sha256(last.read_bytes()).hexdigest()}, lines_of(last)


def whole(work: Path, version: int | None) -> int:
    """All lines. Where a refresh is asked for, its version is above the present one, and above
    each that a line may make or names.
    """
    if version is not None:
        asked = [json.loads(line) for _, lines in scripts(work) for line in lines]
        named = [it["version"] for it in asked if it["do"] == "refresh"]
        above = max([version, *named]) + 1 + sum(it["do"] in MAKE_FILES for it in asked)
        line = {
            "at": max([int(time.time()), *(it["at"] for it in asked)]), "do": "refresh",
            "version": above}
        (work / "refresh.script").write_text(
            json.dumps(line, sort_keys=True, separators=(",", ":")) + "\n", encoding="ascii")
    for _, lines in scripts(work):
        sys.stdout.buffer.write(b"".join(line + b"\n" for line in lines))
    return 0


# ---- the journal


def stamp() -> str:
    return time.strftime("%Y-%m-%dT%H:%M:%SZ", time.gmtime())


def without_secrets(value: Any, out: list[str]) -> Any:
    if isinstance(value, dict):
        return {
            name: "left out" if name in out else without_secrets(it, out)
            for name, it in value.items()}
    return [without_secrets(it, out) for it in value] if isinstance(value, list) else value


def entry(it: Named, number: int, line: bytes, answer: str | None, now: str, public: bool) -> Named:
    made, asked = {
        "given": now, "who": it["who"], "script": it["name"], "sha256": it["sha256"],
        "line": number}, json.loads(line)
    out = [name for name in LEFT_OUT if not (public and name == "key" and asked["do"] in OF_ECUS)]
    return made | {
        "asked": without_secrets(asked, out),
        "answer": answer if answer is None else answer[:LONGEST_ANSWER]}


def added(journal: Path, entries: list[Named]) -> None:
    """Adds lines to the journal, and waits until the disk has them."""
    with open(os.open(journal, os.O_WRONLY | os.O_CREAT | os.O_APPEND, 0o640), "wb") as file:
        file.write(b"".join(
            json.dumps(it, sort_keys=True).encode("ascii") + b"\n" for it in entries))
        file.flush()
        os.fsync(file.fileno())


def keep(spool: Path, work: Path, journal: Path, public: bool) -> int:
    told = work / "answers"
    answers = told.read_text(encoding="ascii",
                             errors="replace").split("\n")[:-1] if told.exists() else []
    now = stamp()
    entries, at, short = [], 0, 0
    for number, (it, lines) in enumerate(scripts(work)):
        own = answers[at:at + len(lines)]
        at += len(lines)
        padded = own + [None] * (len(lines) - len(own))
        entries += [
            entry(it, place, *pair, now, public)
            for place, pair in enumerate(zip(lines, padded), 1)]
        if it["name"] == "refresh":
            short += own != ["done"]
            continue
        put(spool, it["name"], ".answers", "".join(line + "\n" for line in own))
        refused = sum(line.startswith("refused ") for line in own)
        if refused:
            short += 1
            print("spool: %s: %d of %d lines were refused" % (it["name"], refused, len(lines)),
                  file=sys.stderr)
        if len(own) < len(lines):
            short += 1
            held = spool / "held"
            held.mkdir(mode=0o700, exist_ok=True)
            shutil.copyfile(work / ("%04d.script" % number), held / it["name"])
            words = "%d of %d lines were answered; it is in %s" % (len(own), len(lines), held)
            put(spool, it["name"], ".held", words + "\n")
            if not own:
                (spool / "answers" / (it["name"].removesuffix(".script") + ".answers")).unlink()
            print("spool: %s: %s" % (it["name"], words), file=sys.stderr)
    added(journal, entries)
    return 1 if short else 0


def main(words: arguments.Words = None) -> int:
    """Takes scripts, prints the one of them all, or keeps what was answered."""
    parser = arguments.parser(__doc__)
    ways = parser.add_subparsers(dest="do", required=True)
    asked = {
        "take": ["spool", "work", "journal"], "reads": ["work"], "whole": ["work"], "keep": [
            "spool", "work", "journal"]}
    for name, folders in asked.items():
        one = ways.add_parser(name)
        for folder in folders:
            one.add_argument(folder, type=Path)
    ways.choices["whole"].add_argument("--refresh", type=int, default=None, metavar="VERSION")
    ways.choices["keep"].add_argument("--public", action="store_true")
    given = parser.parse_args(words)
    os.umask(0o077)
    try:
        if given.do == "take":
            return take(given.spool, given.work, given.journal)
        if given.do == "reads":
            return reads(given.work)
        return whole(given.work, given.refresh) if given.do == "whole" else keep(
            given.spool, given.work, given.journal, given.public)
    except OSError as error:
        print("spool: %s" % error, file=sys.stderr)
        return 1
