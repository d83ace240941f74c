"""Tries the program from outside, over files and over HTTP: runs the tools that do, as many at
once as there are processors.

    tools/run check_program PROGRAM [WORD]
    tools/run check_program PROGRAM quick     runs a part, of some minutes, that needs no proxy and
                                              no C compiler, and the examples beside it

The program is that of the scheme that the environment names (`SCHEME=ed25519`), or of HMAC.
Random scripts and requests are those of a hundred seeds, random bodies of ten. Each tool has
fifteen minutes, many times what it takes on a machine with nothing else to do. Where there is a
WORD it draws a part of the sweeps of `tools/run sweeps`, some ten seconds of each kind; they
need a C compiler.
"""
import os
import re
import shutil
import subprocess
import sys
from concurrent.futures import ThreadPoolExecutor
from pathlib import Path
from typing import Any

from uptane_tools import RUN, arguments

LIMIT = 900
# the longest first
TRIED = [("file_cases", ), ("fuzz", "1", "50"), ("fuzz", "51", "50"), ("http_fleet", ),
         ("fuzz_http", "1", "50"), ("fuzz_http", "51", "50"), ("http_cases", ), ("proxy_cases", ),
         ("fuzz", "bodies", "1", "10"), ("crowd_kills", "1000", "5", "64", "100"),
         ("hostile", "10000"), ("each_line", ), ("damaged_rows", ), ("tables", )]
# what operators and integrators use
TRIED += [("copy_cases", "2"), ("primary_cases", ), ("operator_cases", ), ("scale_cases", ),
          ("large_cases", ), ("vector_cases", ), ("upkeep_cases", ), ("socket_cases", )]
QUICK = [("check_examples", ), ("fuzz", "1", "5"), ("fuzz_http", "1", "5"),
         ("fuzz", "bodies", "1", "1"), ("each_line", ), ("tables", ), ("primary_cases", ),
         ("operator_cases", ), ("vector_cases", ), ("upkeep_cases", )]
# every so manieth call of a kind
SWEPT = {
    "memory": "997", "disk": "31", "reading": "211", "http": "199", "lines": "1499",
    "group": "1999", "failed": "17", "failing": "17", "killed": "17"}


def ran(program: str | Path, words: Any) -> tuple[str, int, int]:
    """What the tool prints, and how many cases passed and failed; a tool that doesn't end well
    is a case that failed.
    """
    tool, *more = words
    asked = [sys.executable, RUN, tool, program, *more]
    try:
        done = subprocess.run(asked, capture_output=True, check=False, timeout=LIMIT)
    except subprocess.TimeoutExpired as it:
        return "%s%s DIFFERS: it takes more than %d seconds\n" % (
            (it.stdout or b"").decode("utf-8", "replace"), " ".join(words), LIMIT), 0, 1
    told = done.stdout.decode("utf-8", "replace") + done.stderr.decode("utf-8", "replace")
    counts = re.search(r"^(\d+) passed, (\d+) failed\n\Z", told, re.M)
    if counts is None:
        return told, 0, 1
    passed, failed = map(int, counts.groups())
    return told, passed, max(failed, int(done.returncode != 0))


def tried(word: str) -> list[tuple[str, ...]]:
    """The words of each tool. Without a C compiler no call can be made to fail."""
    if word in ("", "quick"):
        return QUICK if word else TRIED
    if not shutil.which("cc"):
        print("no C compiler, so no sweeps")
        return TRIED
    return TRIED + [("sweeps", kind, every, word) for kind, every in SWEPT.items()]


def main(words: arguments.Words = None) -> int:
    """Runs the tools over the program, and says how many cases passed in all."""
    asked = arguments.given(__doc__, words, "program", word="")
    passed = failed = 0
    with ThreadPoolExecutor(os.cpu_count()) as pool:
        for told, good, bad in pool.map(lambda it: ran(asked.program, it), tried(asked.word)):
            print(told, end="", flush=True)
            passed, failed = passed + good, failed + bad
    print("%d passed, %d failed" % (passed, failed))
    return 1 if failed else 0
