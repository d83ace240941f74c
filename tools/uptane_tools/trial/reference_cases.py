"""Tries the reference as whoever has no kit uses it: `tools/run reference` over scripts and over
HTTP. Needs no program.

    tools/run reference_cases

Each script of `examples/` and `rows/` prints what stands beside it. Over HTTP the exchanges that
`docs/integrate/HTTP.md` shows and the clients of `tools/run http_cases` find what they find of
the program, and the requests of the tests of `up_http` and `up_service` have the answers that
these want.
"""
import re
import sqlite3
import subprocess
import sys
from collections.abc import Iterator
from concurrent.futures import ThreadPoolExecutor
from contextlib import closing
from typing import Any

from uptane_tools import arguments
from uptane_tools.oracle import reference, reference_http
from uptane_tools.rows import expected_streams
from uptane_tools.trial import http_cases, trials

LABEL = reference.LABEL.encode()
# the reference under the name of a program, without the line on standard error that says what it is
WITHOUT_LABEL = """#!/usr/bin/env -S PYTHONPATH=%s %s
import sys
from uptane_tools.oracle import reference
reference.LABEL = ""
sys.exit(reference.main(sys.argv[1:]))
""" % (trials.TOP / "tools", sys.executable)


def ran(*words: str, given: bytes = b"") -> tuple[int, bytes, bytes]:
    done = subprocess.run([sys.executable, trials.RUN, "reference", *words], input=given,
                          capture_output=True, check=False, timeout=http_cases.PATIENCE)
    return done.returncode, done.stdout, done.stderr


def asked() -> trials.Cases:
    for words in ("", "run", "serve x", "serve x 0", "serve x 65536", "serve x 80 0", "digest x"):
        wrong = words.split()
        status, out, err = ran(*wrong)
        yield "no words of it: %s" % " ".join(wrong), (status, out) == (2,
                                                                        b"") and b"usage: " in err
    cannot = LABEL + trials.UNOPENED["path"]
    yield "a file that can't be opened", ran("run", "/nowhere/desk") == (3, b"", cannot)


def scripts() -> trials.Cases:
    """What each script prints, and that standard error says what answers."""
    found = [
        it.parent
        for it in sorted([*trials.TOP.glob("examples/*/script"), *trials.TOP.glob("rows/*/script")])
        if not (it.parent / "under").exists()]
    with ThreadPoolExecutor(2) as pool:
        made = pool.map(
            lambda folder: ran("run", ":memory:", given=(folder / "script").read_bytes()), found)
        for folder, told in zip(found, made, strict=True):
            yield "the script %s" % folder.relative_to(trials.TOP), told == (0, (
                folder / "printed").read_bytes(), LABEL)


def over_http() -> Iterator[Any]:
    with trials.folder() as own:
        program = own / "reference"
        program.write_text(WITHOUT_LABEL, encoding="ascii")
        program.chmod(0o755)
        trials.printed(program, own / "first", http_cases.FIRST_PATH)
        with ThreadPoolExecutor(4) as pool:
            tried = [(it,
                      pool.submit(http_cases.goes_well, it, program,
                                  trials.copied(own / "first", own / it.__name__)))
                     for it in http_cases.CLIENTS]
            for client, well in tried:
                yield client.__doc__.strip().rstrip("."), well.result()
        yield from http_cases.exchanges(program, own / "first")


def by_the_page() -> trials.Cases:
    """The two commands with which the page for integrators begins: the second one answers a
    request.
    """
    page = (trials.TOP / "docs" / "integrate" /
            "PRIMARY.md").read_text(encoding="ascii").split("\n## ")[0]
    first, second = re.findall(r"(?m)^    (.+)$", page)
    with trials.folder() as own:

        def placed(command: str, port: int = 8080) -> str:
            return command.replace("desk.db", str(own / "desk")).replace("8080", str(port))

        ran = subprocess.run(["bash", "-c", placed(first)], capture_output=True, check=False,
                             cwd=trials.TOP, timeout=http_cases.PATIENCE)
        yield "the page's first command", (ran.returncode, ran.stdout) == (
            0, b"done\ndone\nreply V1 version 1 targets 0\n")
        with http_cases.served([*placed(second).split()[:2]], own / "desk", 1) as running:
            came = http_cases.told(running, http_cases.GET_ROOT)
            yield "the page's second command", placed(second, running.port).split()[2:] == [
                "serve", str(own / "desk"), str(running.port)] and b'"type":"root"' in came


# ---- the requests that tests of crates make


def rows(crate: str, section: str) -> list[tuple[str, ...]]:
    """What the rows of a section of a crate's input ask, and what they want."""
    told = (trials.TOP / "crates" / crate / "stdin").read_text(encoding="utf-8")
    part = re.search(r"(?ms)^# %s\n(.*?)(?=^# |\Z)" % re.escape(section), told)
    return [tuple(line.split(" => ", 1)) for line in part[1].split("\n") if " => " in line
            ] if part else []


def unfolded(text: Any) -> bytes:
    """The bytes that a row means."""
    before = None
    while before != text:
        before, text = text, re.sub(r"<\*(\d+)\*((?:(?!<\*).)*?)\*>", lambda it: it[2] * int(it[1]),
                                    text, flags=re.DOTALL)
    text = text.replace("|", "\r\n").replace("\\n", "\n").replace("\\t", "\t").encode()
    return re.sub(rb"\\x(..)", lambda it: bytes([int(it[1], 16)]), text)


def written(asked: reference_http.Next) -> str:
    """A request as the rows of `up_http` write it."""
    what: Any = asked.what
    words = "%s %s" % what if isinstance(
        what, tuple) else "manifest %d" % len(what) if isinstance(what, bytes) else ""
    words = words or str(
        reference_http.CHECKS[what][0]) + (" " + asked.allow if asked.allow else "")
    return words + " head" * asked.head + " last" * asked.last + ";"


def requests() -> trials.Cases:
    """How bytes are cut into requests, whatever the pieces in which they come."""
    for section in ("requests cut at every byte", "requests in pieces"):
        found = rows("up_test_calls", section)
        yield "rows of %s" % section, len(found) > 10
        for asked, wanted in found:
            given, wanted = unfolded(asked), re.sub(r"^\d+ bytes, ", "", wanted)
            yield "request: %s" % asked[:80], all(
                cut(given, size) == wanted
                for size in ((1, 7, 8192) if len(given) < 1000 else (8192, )))


def cut(given: bytes, size: int) -> str:
    stream = reference_http.Stream()
    pieces = [given[at:at + size] for at in range(0, len(given), size)]
    found = [it for piece in pieces for it in stream.feed(piece)] + list(stream.feed(b"", True))
    return "%d: %s" % (len(found), "".join(map(written, found)))


def streams() -> trials.Cases:
    """The answers to streams, over a desk after the lines of the same section."""
    number = 0
    for words, of in expected_streams.sections():
        with closing(sqlite3.connect(":memory:")) as db:
            desk = reference.Desk(db)
            for asked, wanted in of:
                word, _, given = asked.partition(" ")
                if word == "do":
                    desk.answer(given)
                elif word in ("whole", "slow", "cut"):
                    number += 1
                    yield "%s: %s" % (words, asked[:60]), answers(
                        desk, unfolded(given)) == unfolded(wanted)
    yield "rows of streams", number > 40


def answers(desk: reference.Desk, given: bytes) -> bytes:
    found = [
        reference_http.answer(desk, 1767225600, it)
        for it in reference_http.Stream().feed(given, True)]
    return b"%d: " % len(found) + b"".join(found)


def cases() -> trials.Cases:
    yield from asked()
    yield from scripts()
    yield from over_http()
    yield from by_the_page()
    yield from requests()
    yield from streams()


def main(words: arguments.Words = None) -> int:
    """Tries them."""
    arguments.given(__doc__, words)
    return trials.judged("reference", cases())
