"""Refuses one request for memory of a run of the desk in `up_test_worked_rows`, the first, the
second, and so on until a run ends without: needs a C compiler.

    tools/run run_sweep PROGRAM [EVERY [FIRST [LAST]]]

Only every EVERY-th (1) request is refused, from number FIRST (1) on. A word in place of FIRST draws
one of the numbers 1 to EVERY, so that another part is tried each time.

The commands of a row are carried out in one run, over memory and over files, beside other ways
that nobody looks at here. Where a request is refused in the common transaction, all of it is undone
and each command is carried out by itself: so the answers are the row's, whatever was refused. Else
the program has to end with a message.

promise: headline
"""
import re
import shutil
import subprocess
from collections import Counter
from pathlib import Path
from typing import Any

from uptane_tools import TOP, arguments
from uptane_tools.rows import collect_rows
from uptane_tools.trial import sweeps, trials

ROW = "vehicles_in_turn"


def carried_out(program: str, row: str,
                variables: dict[str, str] | None) -> tuple[int, list[str], bytes]:
    """The status, what is told of runs, and the message."""
    ran = subprocess.run([program], input=("\n" + row).encode(), capture_output=True, env=variables,
                         timeout=120, check=False)
    return ran.returncode, re.findall(r" run (.*?), calls ", ran.stdout.decode()), ran.stderr


def swept(program: str, row: str, library: Any, numbers: Any) -> Counter[str]:
    """How many runs came to what."""
    mark, came = library.parent / "mark", Counter[str]()
    status, whole, _ = carried_out(program, row, {})
    assert status == 0 and len(whole) == 2 and all(it.isdecimal() for it in whole), whole
    for number in numbers:
        mark.unlink(missing_ok=True)
        variables = {"LD_PRELOAD": str(library), "FAIL_MARK": str(mark), "FAIL_ALLOC": str(number)}
        status, told, message = carried_out(program, row, variables)
        if not mark.exists():
            break
        if status and not told and message:
            came["ended with a message"] += 1
        elif status == 0 and told == whole:
            came["answered the same"] += 1
        else:
            came["otherwise"] += 1
            print(f"call {number}: {status} {told} {message!r}", flush=True)
    return came


def main(words: arguments.Words = None) -> int:
    """Refuses requests in turn."""
    asked = arguments.given(__doc__, words, "program", every=1, first="1", last=1_000_000_000)
    if not shutil.which("cc"):
        print("no C compiler, so no request for memory is refused")
        return 0
    numbers = range(sweeps.drawn(asked.first, asked.every), asked.last, asked.every)
    row = collect_rows.row_of(TOP / "rows" / ROW).given()
    with trials.folder() as own:
        came = swept(str(Path(asked.program).resolve()), row, sweeps.built(own), numbers)
    failed = came["otherwise"]
    passed = came.total() - failed
    print("%s in a run: %s" % (ROW, ", ".join("%d %s" % (came[it], it) for it in sorted(came))))
    print("%d passed, %d failed" % (passed, failed))
    return 1 if failed or not passed else 0
