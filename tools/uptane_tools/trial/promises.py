"""Lists, for each promise of the page of proofs, the refused edits and the tests that belong to
it, and what is missing.

    tools/run promises             lists them
    tools/run promises NAME ..     lists those of these promises, with the files that they stand in
    tools/run promises --restore REVISION      gives each edit that has lost its line, as in a
                                               merge, the one that it has at that revision of git

Which promise an edit or a test belongs to is written once, where it stands: in the edit's file
as a line `promise: NAME`, with several names parted by commas; above a test's function as a
comment `// promise: NAME`; in a tool's own first lines; and, where rows have no place for a
comment, in the file `promises` beside the rows that a crate carries out, whose lines name a
section or a row, a colon, and its promises. A promise that has neither an edit nor a test fails,
and so does a name that is no promise's, and a section or row that isn't there.
"""
import re
import subprocess
from collections import defaultdict
from collections.abc import Iterator
from pathlib import Path
from typing import Any

from uptane_tools import arguments
from uptane_tools.rows import expected_store, expected_streams
from uptane_tools.trial import trials
from uptane_tools.trial.trials import TOP

# what stands in the place of a section where all that a crate carries out belongs to a promise
EVERY = "every row"
NAMES = r"([a-z][a-z0-9-]*(?:, [a-z][a-z0-9-]*)*)"


def promised() -> list[str]:
    """The names of the promises, in the order of the page."""
    page = (TOP / "docs" / "trust" / "PROOFS.md").read_text(encoding="utf-8")
    return re.findall(r"^- `([a-z][a-z0-9-]*)`: ", page, re.MULTILINE)


def marks(pattern: str, folder: Path = TOP / "crates") -> Iterator[tuple[str, Path, str]]:
    """The marks in the files of a pattern: the promise, the file, and the line that comes next,
    which is what belongs to it.
    """
    for path in sorted(folder.glob(pattern)):
        if "out" in path.relative_to(folder).parts[:-1]:
            continue
        lines = path.read_text(encoding="utf-8").split("\n")
        for at, line in enumerate(lines):
            found = re.fullmatch(r"\s*(?://|#)? ?promise: " + NAMES, line)
            for name in found[1].split(", ") if found else []:
                yield name, path, " ".join(lines[at + 1:at + 3])


def edits() -> Iterator[tuple[str, str, Path]]:
    yield from ((name, path.stem, path) for name, path, _ in marks("*/refused/*.edit"))


def sections(folder: Path) -> set[str]:
    """The words of the sections that a crate carries out, those too that are computed; of worked
    rows, their names, and sections of lines.
    """
    text = (folder / "stdin").read_text(encoding="utf-8")
    words = re.findall(r"^(?:#|row) (.+)$", text, re.MULTILINE)
    if folder.name == "up_test_service":
        words += [it[0] for it in expected_streams.parts()]
    if folder.name == "up_test_store":
        words += [it.partition("\n")[0] for it in expected_store.computed()]
    if words and "\nrow " in text:
        words += [it.parent.name for it in (TOP / "rows").glob("*/script")]
        words += re.findall(r"^# (.+)$", (TOP / "rows" / "each_answer").read_text(encoding="utf-8"),
                            re.MULTILINE)
    return {name for it in words for name in (it, it.split(" under ")[0])} | {EVERY}


def rows() -> Iterator[tuple[str, str, Path, bool]]:
    """The sections and rows that the files `promises` name, with what they belong to, and
    whether the crate has them.
    """
    for path in sorted((TOP / "crates").glob("up_test_*/promises")):
        there = sections(path.parent)
        for line in path.read_text(encoding="utf-8").split("\n")[:-1]:
            words, _, names = line.rpartition(": ")
            for name in names.split(", "):
                yield name, words, path, words in there


def tests() -> Iterator[tuple[str, str, Path]]:
    """Functions and sections of crates, worked rows, and tools."""
    for name, path, behind in marks("up_test_*/src/**/*.rt"):
        words = re.search(r"fn (\w+)", behind)
        yield name, words[1] if words else path.parent.parent.name, path
    yield from ((name, words, path) for name, words, path, _ in rows())
    for pattern in ("trial/*.py", "measure/*.py", "rows/*.py"):
        yield from ((name, path.name, path)
                    for name, path, _ in marks(pattern, TOP / "tools" / "uptane_tools"))


def belonging() -> defaultdict[Any, Any]:
    """For each promise its edits and its tests, each with the file in which that is written."""
    found: Any = defaultdict(lambda: ([], []))
    for place, marked in enumerate((edits(), tests())):
        for name, what, path in marked:
            found[name][place].append((what, path.relative_to(TOP)))
    return found


def cases() -> trials.Cases:
    there, found = promised(), belonging()
    yield "%d promises, each under one name" % len(there), len(there) == len(set(there))
    for name in there:
        if not any(found[name]):
            yield "the promise %s: an edit or a test" % name, False
    for name in sorted(set(found) - set(there)):
        yield "the promise %s, which %s names" % (name, ", ".join(
            sorted({str(path) for part in found[name] for _, path in part}))), False
    yield from (("the section %s of %s is there" % (words, path.parent.name), False)
                for _, words, path, well in rows() if not well)
    yield "edits and tests name promises", sum(
        len(part) for name in there for part in found[name]) > 0


def listed(names: list[Any]) -> None:
    found = belonging()
    for name in names or promised():
        for words, part in zip(("edits", "tests"), found[name]):
            shown = ["%s (%s)" % it for it in part] if names else sorted({what for what, _ in part})
            print("%s: %d %s%s%s" % (name, len(part), words, ": " * bool(part), ", ".join(shown)))


def restore(revision: str) -> None:
    for path in sorted((TOP / "crates").glob("*/refused/*.edit")):
        text = path.read_text(encoding="utf-8")
        if not re.search("^promise: ", text, re.MULTILINE):
            words = ["git", "show", "%s:%s" % (revision, path.relative_to(TOP))]
            shown = subprocess.run(words, capture_output=True, check=False,
                                   cwd=TOP).stdout.decode("utf-8")
            lines = re.findall("^promise: .*$", shown, re.MULTILINE)
            if lines:
                path.write_text(text.rstrip("\n") + "\n%s\n" % lines[0], encoding="utf-8")
                print("%s: %s" % (path.relative_to(TOP), lines[0]))


def main(words: arguments.Words = None) -> int:
    """Lists the promises, or those that are named."""
    asked = arguments.parser(__doc__)
    asked.add_argument("names", nargs="*", metavar="NAME")
    asked.add_argument("--restore", metavar="REVISION", help="the edits' lines as they were")
    told = asked.parse_args(words)
    if told.restore:
        restore(told.restore)
        return 0
    listed(told.names)
    return trials.judged("promises", cases())
