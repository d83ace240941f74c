"""Gives the programs of the crates of tests the cases that are computed, of which their inputs have
the first alone.

    tools/run computed              tells how many characters there are of each kind
    tools/run computed CRATES       gives them to the programs of CRATES/*/out, as LLVM and as
                                    Rattle's own compiler built them
    tools/run computed write        writes the first of them into the crates' inputs and outputs

Each program has to tell what is computed with them.
"""
import subprocess
from collections.abc import Callable, Iterator
from pathlib import Path

from uptane_tools import TOP, arguments
from uptane_tools.rows import (brought_cases, cases, collect_rows, ed25519_cases, expected_stops,
                               expected_store, expected_streams)
from uptane_tools.trial import trials

# the sections of streams that an input has are so short
SHORT = 2500
# the input and what is told of it
Texts = Callable[[], tuple[str, str]]
# of each kind all of it, and the part that the crate's input has
KINDS: dict[tuple[str, str], tuple[Texts, Texts]] = {
    ("up_test_worked_rows", ""): (collect_rows.texts, collect_rows.first),
    ("up_test_store", "store"): (expected_store.texts, expected_store.first),
    ("up_test_ed25519", ""): (ed25519_cases.texts, ed25519_cases.first),
    ("up_test_ed25519", "cached"): (ed25519_cases.cached_texts, ed25519_cases.cached_first),
    ("up_test_ed25519", "brought"): (brought_cases.texts, brought_cases.first),
    ("up_test_service", "streams"): (expected_streams.texts, lambda: expected_streams.texts(SHORT)),
    ("up_test_service", "stops"): (expected_stops.texts, expected_stops.first), }
# what a crate has been built to, by the name of its compiler
BUILT = {"LLVM": "", "Rattle's own compiler": ".by-rattle"}


def kept() -> Iterator[tuple[str, str, bool]]:
    """Whether a crate's input has this part of a kind, and its output what is told of it."""
    for (crate, kind), (_, part) in KINDS.items():
        given, told = part()
        has = cases.kinds(crate).get(kind) == given
        yield crate, kind, has and told in (TOP / "crates" / crate /
                                            "stdout").read_text(encoding="utf-8")


def write() -> None:
    """Writes that part, and what is told of it where the old was told."""
    for (crate, kind), (whole, part) in KINDS.items():
        path = TOP / "crates" / crate / "stdout"
        was, (given, told) = path.read_text(encoding="utf-8"), part()
        before = next(it for it in (told, whole()[1]) if it in was)
        cases.put(crate, kind, given)
        path.write_text(was.replace(before, told, 1), encoding="utf-8")


def carried_out(folder: Path) -> Iterator[tuple[str, bool]]:
    """Whether each program tells what is computed."""
    for (crate, kind), (whole, _) in KINDS.items():
        given, told = whole()
        for compiler, ending in BUILT.items():
            program = folder / crate / "out" / (crate + ending)
            if ending and not program.exists():
                continue
            with trials.folder() as own:
                ran = subprocess.run([program.resolve()], input=cases.headed({
                    kind: given}).encode(), capture_output=True, cwd=own, timeout=600, check=False)
            had = ran.stdout.decode("utf-8", "replace")
            if had != told:
                lines = zip(had.split("\n") + [""], told.split("\n") + [""])
                print(
                    next(("%.300s\nin place of\n%.300s" % it for it in lines if it[0] != it[1]),
                         "more"))
            yield "%s%s, by %s" % (crate, kind and ": " + kind, compiler), had == told


def main(words: arguments.Words = None) -> int:
    """Tells of the cases, writes a part, or gives all of them to programs."""
    asked = arguments.given(__doc__, words, crates="tell")
    if asked.crates == "write":
        write()
    elif asked.crates != "tell":
        return trials.judged("computed", carried_out(Path(asked.crates)))
    for (crate, kind), (whole, part) in KINDS.items():
        print("%s %s: %d of %d" % (crate, kind, len(part()[0]), len(whole()[0])))
    return 0
