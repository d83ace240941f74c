"""What the tools that try the program from outside have in common."""
import shutil
import socket
import sqlite3
import subprocess
import sys
import tempfile
from collections.abc import Callable, Iterable, Iterator
from contextlib import closing, contextmanager
from pathlib import Path
from typing import Any

from uptane_tools import RUN, TOP, arguments
from uptane_tools.operate import statements
from uptane_tools.oracle import reference

__all__ = ["RUN", "TOP"]
AnyPath = str | Path
# what is tried: the name of each case, and whether it is as it must be
Cases = Iterator[tuple[str, object]]
# so many lines, or deliveries, share a commit at most
TOGETHER = 64
TABLES = [statements.table_of(statement) for statement in statements.schema()]
# the examples of the scheme that is tried: the first path, and the messages of the small Primary
FIRST_PATH, MESSAGES = (TOP / "examples" / it for it in {
    "hmac-sha256": ("first_path", "primary"), "ed25519": ("first_path_ed25519",
                                                          "primary/ed25519")}[reference.METHOD])
# why a database isn't opened, each with the line that tells it
UNOPENED = {
    name: b"uptane_desk: cannot open the database: %s\n" % words for name, words in {
        "memory": b"there is too little memory", "path": b"its path can't be opened or made",
        "locked": b"another program has it open", "journal": b"SQLite left a journal beside it",
        "damaged": b"it is damaged, or its disk fails", "product": b"it is another product's",
        "schema": b"it has a newer schema", "scheme": b"its keys are of the other scheme"}.items()}


def run(program: Any, path: AnyPath, script: Iterable[str | bytes],
        limit: int = 120) -> tuple[int, bytes, bytes]:
    """The status, the bytes printed and the message of a script, given as lines, over a database.
    """
    words = [str(program), "run", str(path)]
    given = b"".join(
        (line if isinstance(line, bytes) else line.encode()) + b"\n" for line in script)
    ran = subprocess.run(words, input=given, capture_output=True, check=False, timeout=limit)
    return ran.returncode, ran.stdout, ran.stderr


def printed(program: AnyPath, path: AnyPath, script: Any, limit: int = 120) -> Any:
    """The lines printed; none where the run didn't end well."""
    status, out, err = run(program, path, script, limit)
    return None if status or err else out.decode("ascii").split("\n")[:-1]


def expected(path: AnyPath, script: Iterable[str | bytes]) -> list[str]:
    """The lines that the rules print, over tables of SQLite's own."""
    with closing(sqlite3.connect(path)) as db:
        desk = reference.Desk(db)
        return [desk.answer(line) for line in script if line]


def tool(name: str, *words: Any, given: bytes = b"",
         limit: int = 120) -> tuple[int, list[str], str]:
    """The status of another tool, the lines printed and its message."""
    ran = subprocess.run([sys.executable, RUN, name, *map(str, words)], input=given,
                         capture_output=True, check=False, timeout=limit)
    return ran.returncode, ran.stdout.decode("ascii").splitlines(), ran.stderr.decode("ascii")


@contextmanager
def folder(within: Any = None) -> Iterator[Path]:
    """A new folder, in the usual place or in that one."""
    with tempfile.TemporaryDirectory(dir=within) as name:
        yield Path(name)


@contextmanager
def rules_served(path: Path) -> Iterator[int]:
    """The port at which the independent rules answer over HTTP."""
    with socket.socket() as free:
        free.bind(("127.0.0.1", 0))
        port = free.getsockname()[1]
    words = [sys.executable, str(RUN), "reference", "serve", str(path), str(port)]
    with subprocess.Popen(words, stdout=subprocess.PIPE, stderr=subprocess.DEVNULL) as running:
        assert running.stdout is not None
        running.stdout.readline()
        try:
            yield port
        finally:
            running.terminate()


def each(program: Path, *parts: Callable[[Path, Path], Cases]) -> Cases:
    """The cases of parts, each in a new folder of its own."""
    for part in parts:
        with folder() as own:
            yield from part(program, own)


def log_of(path: AnyPath) -> Path:
    return Path(str(path) + "-wal")


def copied(path: Any, to: Any) -> Path:
    """A copy of the database, with its log where it has one."""
    shutil.copy(path, to)
    if log_of(path).exists():
        shutil.copy(log_of(path), log_of(to))
    return to


@contextmanager
def read(path: Any) -> Iterator[sqlite3.Connection]:
    """A connection of SQLite's own to a copy of the database, so that the file and its log stay
    as they are.
    """
    with folder(Path(path).parent) as own, closing(sqlite3.connect(copied(path,
                                                                          own / "copy"))) as db:
        yield db


def rows_in(db: sqlite3.Connection) -> dict[str, list[tuple[Any, ...]]]:
    """All rows of all tables of a database."""
    return {
        table: sorted(map(tuple, db.execute("SELECT * FROM " + table)), key=repr)
        for table in TABLES}


def rows(path: AnyPath) -> dict[str, list[tuple[Any, ...]]]:
    """All rows of all tables of a file."""
    with read(path) as db:
        return rows_in(db)


def faults(path: AnyPath) -> list[Any]:
    """What SQLite finds wrong with the file."""
    with read(path) as db:
        found = [row for row in db.execute("PRAGMA integrity_check") if row != ("ok", )]
        return found + db.execute("PRAGMA foreign_key_check").fetchall()


def tried(doc: str | None, words: arguments.Words, kind: str, cases: Callable[..., Cases],
          **usual: Any) -> int:
    """What a tool does whose words are a program and then such numbers: it judges the cases of
    these.
    """
    asked = arguments.given(doc, words, "program", **usual)
    return judged(kind, cases(Path(asked.program).resolve(), *(getattr(asked, it) for it in usual)))


def judged(kind: str, cases: Any) -> int:
    """Prints each case and, last, how many passed; the status of the tool."""
    passed = failed = 0
    for name, well in cases:
        print("%s: %s: %s" % (kind, name, "as it must be" if well else "DIFFERS"), flush=True)
        passed, failed = passed + bool(well), failed + (not well)
    print("%d passed, %d failed" % (passed, failed))
    return 1 if failed else 0
