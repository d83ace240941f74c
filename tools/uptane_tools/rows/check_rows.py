"""Compares the examples and the rows with the formats and the rules alone: it needs neither the
program nor the kit.

    tools/run check_rows

Nothing is missing that there has to be; each script prints what stands beside it by the
independent rules, and each row wants what is computed from the formats; what crates of tests have
of the cases that are computed is a part of these; the small Primary builds and checks what its page
shows.
"""
import os
import re
import shlex
import subprocess
import sys
from collections.abc import Iterator
from pathlib import Path
from typing import Any

from uptane_tools import arguments
from uptane_tools.rows import computed, expected_files, row_texts, translated
from uptane_tools.trial import http_cases, trials

EXAMPLES, ROWS = trials.TOP / "examples", trials.TOP / "rows"
PRIMARY = EXAMPLES / "primary"
COMPUTED = [("texts", "expected_texts"), ("decisions", "expected_decisions"),
            ("lines", "each_line", "wanted")]


def read(path: Path) -> str:
    return path.read_text(encoding="ascii")


def ran(path: str | Path, *words: Any, given: str = "") -> tuple[int, str]:
    """The status of a program of Python's, and what it prints."""
    done = subprocess.run([sys.executable, path, *words], input=given.encode(), capture_output=True,
                          check=False)
    return done.returncode, done.stdout.decode("ascii", "replace")


def scripts() -> Iterator[tuple[str, bool]]:
    """Each script that an example or a row has, but those under a scheme that the rules haven't."""
    for script in sorted([*EXAMPLES.glob("*/script"), *ROWS.glob("*/script")]):
        if not (script.parent / "under").exists():
            wanted = read(script.parent / "printed").split("\n")[:-1]
            yield "%s, by the rules" % script.parent.relative_to(trials.TOP), trials.expected(
                ":memory:",
                read(script).split("\n")) == wanted


def scripts_under_ed25519() -> Iterator[tuple[str, bool]]:
    """Each of them under Ed25519, as it stands or translated."""
    for script in sorted([*EXAMPLES.glob("*/script"), *ROWS.glob("*/script")]):
        lines, wanted = translated.under(script.parent, "ed25519")
        words, scheme = [sys.executable, trials.RUN, "reference", "run",
                         ":memory:"], os.environ | {"SCHEME": "ed25519"}
        done = subprocess.run(words, input="\n".join(lines).encode(), capture_output=True,
                              check=False, env=scheme)
        name = "%s under Ed25519, by the rules" % script.parent.relative_to(trials.TOP)
        yield name, translated.are_as(wanted, done.stdout.decode("ascii").split("\n")[:-1])


def texts() -> Iterator[tuple[str, bool]]:
    """The texts of the rows are those of the formats, and what crates of tests have of cases that
    are computed is a part of them.
    """
    for crate, kind, well in computed.kept():
        yield "the input of %s begins as what is computed%s" % (crate, kind and ": " + kind), well
    for name in row_texts.REPLIES:
        yield "replies of %s, from the formats" % name, read(
            ROWS / name / "replies") == row_texts.replies(name)
    for name in row_texts.FILES:
        files = [
            line[5:] + "\n" for line in expected_files.lines(ROWS / name / "printed")
            if line.startswith("file ")]
        yield "files of %s, from the formats" % name, "".join(files) == row_texts.files(name)


def primary() -> Iterator[tuple[str, bool]]:
    given, body, reply = (
        read(PRIMARY / name) for name in ("manifest-input.json", "manifest.json", "reply.json"))
    tool, keys = PRIMARY / "primary.py", str(PRIMARY / "director-secrets.json")
    yield "the Primary builds the manifest that the page shows", ran(tool, "build",
                                                                     given=given) == (0, body)
    yield "the Primary checks the reply that the page shows", ran(tool, "check", keys,
                                                                  given=reply)[0] == 0
    broken = reply.replace('"version":1}', '"version":2}', 1)
    yield "the Primary refuses a changed reply", broken != reply and ran(
        tool, "check", keys, given=broken)[0] == 1


def reference() -> Iterator[tuple[str, bool]]:
    """What stands in for the product where the kit isn't there: a script's answers, and the
    exchanges of the page on HTTP.
    """
    first = EXAMPLES / "first_path"
    with trials.folder() as own:
        yield "the rules print the first path", ran(
            trials.RUN, "reference", "run", own / "desk", given=read(
                first / "script")) == (0, read(first / "printed"))
        page = read(trials.TOP / "docs" / "integrate" / "HTTP.md")
        with trials.rules_served(own / "desk") as port:
            for asked, shown in re.findall(r"^    \$ (curl [^\n]*)\n((?:    [^\n]*\n|\n(?=    ))*)",
                                           page, re.M):
                came = http_cases.by_library(shlex.split(asked.replace(":8080", ":%d" % port)))
                yield "the rules answer `%s`" % asked, came.strip() == re.sub(
                    "(?m)^    ", "", shown).strip()


def cases() -> Iterator[tuple[str, bool]]:
    gaps = list(expected_files.gaps())
    yield from ((gap, False) for gap in gaps)
    yield "nothing is missing", not gaps
    yield from scripts()
    yield from scripts_under_ed25519()
    yield from texts()
    for rows, *words in COMPUTED:
        yield "answers that the rows of %s want" % rows, ran(trials.RUN, *words)[0] == 0
    yield from primary()
    yield from reference()


def main(words: arguments.Words = None) -> int:
    """Tries them."""
    arguments.given(__doc__, words)
    return trials.judged("rows", cases())
