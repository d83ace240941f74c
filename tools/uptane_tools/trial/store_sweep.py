"""Refuses one request for memory of the store in `up_test_store`, the first, the second, and so on
until a run ends without: needs a C compiler.

    tools/run store_sweep PROGRAM PLACE [EVERY [FIRST [LAST]]]

PLACE is `memory` or `files` (on disks that are memory). Only every EVERY-th (1) request is
refused, from number FIRST (1) on. A word in place of FIRST draws one of the numbers 1 to EVERY,
so that another part is tried each time.

The sections whose words begin with `each disk call refused` are carried out: each of the nine
writes, and each of the twelve reads after each; and databases of schema 1 to 3, which are
taken, read and written. What is told has to be the same whichever request was refused: a call
that is answered `Memory` changed nothing, and goes through when it is made again. Over `memory`
no disk can fail, and a call that is answered `Store` isn't made again: so want of memory that is
told as `Store` is found. Else the program has to end with a message, having told nothing.

promise: store-memory
"""
import shutil
import subprocess
from pathlib import Path
from typing import Any

from uptane_tools import arguments
from uptane_tools.rows import cases
from uptane_tools.trial import sweeps, trials


def sections() -> list[str]:
    texts = cases.kinds("up_test_store")["store"].split("\n# ")
    return [text for text in texts if text.startswith("each disk call refused")]


def carried_out(program: str, place: str, section: str,
                variables: dict[str, str] | None) -> tuple[int, bytes, bytes]:
    """The status and what is told."""
    rows = cases.headed({"store": f"\n# {section}"}).encode()
    ran = subprocess.run([program, place], input=rows, capture_output=True, env=variables,
                         timeout=120, check=False)
    return ran.returncode, ran.stdout, ran.stderr


def swept(program: str, place: str, section: str, library: Any, numbers: Any) -> tuple[int, int]:
    """How many runs told what they had to, and how many didn't."""
    mark, words = library.parent / "mark", section.split("\n")[0]
    whole = carried_out(program, place, section, {})
    assert whole[0] == 0 and whole[1].startswith(
        f"{words}: ".encode()) and whole[1].count(b"\n") == 1, whole
    tries, ended, bad = 0, 0, 0
    for number in numbers:
        mark.unlink(missing_ok=True)
        variables = {"LD_PRELOAD": str(library), "FAIL_MARK": str(mark), "FAIL_ALLOC": str(number)}
        told = carried_out(program, place, section, variables)
        if not mark.exists():
            break
        tries += 1
        if told[0] != 0 and told[1] == b"" and told[2] != b"":
            ended += 1
        elif told != whole:
            bad += 1
            print(f"{words}, call {number}: {told}", flush=True)
    same = tries - ended - bad
    print(f"over {place}, {words}: {tries} calls failed in turn, to number {number}; ", end="")
    print(f"{same} told the same, {ended} ended with a message, {bad} otherwise", flush=True)
    return tries - bad, bad + (tries == 0)


def main(words: arguments.Words = None) -> int:
    """Refuses requests in turn."""
    asked = arguments.given(__doc__, words, "program", "place", every=1, first="1",
                            last=1_000_000_000)
    if not shutil.which("cc"):
        print("no C compiler, so no request for memory is refused")
        return 0
    numbers = range(sweeps.drawn(asked.first, asked.every), asked.last, asked.every)
    program = str(Path(asked.program).resolve())
    with trials.folder() as own:
        library = sweeps.built(own)
        told = [swept(program, asked.place, it, library, numbers) for it in sections()]
    passed, failed = map(sum, zip(*told))
    print("%d passed, %d failed" % (passed, failed))
    return 1 if failed else 0
