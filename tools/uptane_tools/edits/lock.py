"""The file in the tree that keeps, for each crate whose edits were all refused, how many they
are, the hash that their verdicts rest on, and the kit that judged them.
"""
import fcntl
import os
from dataclasses import dataclass
from pathlib import Path

from uptane_tools.edits import kit
from uptane_tools.edits.hashes import count_of
from uptane_tools.edits.kit import Crate

FILE = "tools/refused.lock"
HEAD = """# For each crate whose edits the prover refused, all of them: how many they
# are, the hash of all that the verdicts rest on, and the kit that judged them.
# `tools/run refused` alone writes this file.
"""


@dataclass(frozen=True)
class Line:
    """A crate's line. `rests` are the number of its edits and the hash."""

    rests: tuple[int, str]
    kit: str


def kept() -> dict[str, Line]:
    """Returns the line of each crate that the lock has, by name."""
    text = Path(FILE).read_text(encoding="utf-8") if os.path.isfile(FILE) else ""
    rows = [line.split() for line in text.splitlines() if line and not line.startswith("#")]
    # (what isn't in this form tells nothing)
    return {row[0]: Line((int(row[1]), row[2]), row[3]) for row in rows if len(row) == 4}


def write(crates: dict[str, Crate], found: dict[str, tuple[int, str]]) -> None:
    """Gives these crates, each with the number of its edits and the hash, their lines in the
    lock, judged by the kit that is here, and takes out the lines of those that have no edits any
    more.
    """
    put(crates, {it: Line(rests, kit.name()) for it, rests in found.items()})


def put(crates: dict[str, Crate], lines: dict[str, Line]) -> None:
    """Puts these lines into the lock, by name."""
    os.makedirs(os.path.dirname(FILE), exist_ok=True)
    with open(FILE, "a+", encoding="utf-8") as file:
        # (two runs may end at one time)
        fcntl.flock(file, fcntl.LOCK_EX)
        rows = {**kept(), **lines}
        there = {
            it: line for it, line in sorted(rows.items())
            if it in crates and count_of(crates[it].folder)}
        file.truncate(0)
        file.write(HEAD + "".join(f"{it} {line.rests[0]} {line.rests[1]} {line.kit}\n"
                                  for it, line in there.items()))
