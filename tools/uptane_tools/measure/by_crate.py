"""Runs a command that proves crates, and says at its end how long each crate took.

    tools/run by_crate COMMAND WORD ..      as by_crate.py rt ci

Once a second it looks at the programs that the command started, and adds up the processor time
of each that names a crate, with its tests or without, and of those that such a one started, as
compilers are. So what a program takes in its last second is missing, and one that is faster
isn't seen. The status is the command's.
"""
import argparse
import os
import subprocess
import threading
from collections import defaultdict
from collections.abc import Iterator
from pathlib import Path
from typing import Any

from uptane_tools import arguments

TICKS = os.sysconf("SC_CLK_TCK")
EVERY = 1


def running() -> Iterator[tuple[int, int, float, list[str]]]:
    """For each program that runs: its number, its parent's, the seconds that it took, and its
    words.
    """
    for folder in Path("/proc").glob("[0-9]*"):
        try:
            fields = (folder / "stat").read_text().rpartition(")")[2].split()
            words = (folder / "cmdline").read_bytes().decode("utf-8", "replace").split("\0")
        except OSError:
            continue
        yield int(folder.name), int(fields[1]), (int(fields[11]) + int(fields[12])) / TICKS, words


def crate_of(words: Any) -> Any:
    """The crate that a program proves, builds or tries, and whether with its tests; none where
    it names none.
    """
    if "--crate-name" not in words[:-1]:
        return None
    return words[words.index("--crate-name") + 1] + " with its tests" * ("--test" in words)


def look(top: Any, took: Any) -> None:
    """Writes down what each program below this one took so far: for the crate that it names, or
    else the nearest above it.
    """
    rows = list(running())
    parents, crates = {number: parent for number, parent, *_ in rows}, {
        number: crate_of(words) for number, *_, words in rows}
    for number, _, seconds, _ in rows:
        crate, at = crates[number], number
        while at in parents and at != top:
            at = parents[at]
            crate = crate or crates.get(at)
        if crate and at == top:
            took[number, crate] = max(took.get((number, crate), 0), seconds)


def main(words: arguments.Words = None) -> int:
    """Runs the command."""
    asked = arguments.parser(__doc__)
    asked.add_argument("command", nargs=argparse.REMAINDER, metavar="COMMAND")
    took: dict[tuple[int, str], float] = {}
    ended = threading.Event()
    command = subprocess.Popen(asked.parse_args(words).command)

    def watch() -> None:
        while not ended.wait(EVERY):
            look(command.pid, took)

    watching = threading.Thread(target=watch)
    watching.start()
    status = command.wait()
    ended.set()
    watching.join()
    sums: dict[str, float] = defaultdict(float)
    for (_, crate), seconds in took.items():
        sums[crate] += seconds
    for crate, seconds in sorted(sums.items(), key=lambda it: -it[1]):
        print("%6d processor seconds: %s" % (seconds, crate))
    print("%6d processor seconds: all" % sum(sums.values()), flush=True)
    return status if status >= 0 else 128 - status
