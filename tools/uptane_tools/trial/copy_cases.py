"""Tries copies of a database file: those that `tools/run copy_served` takes while the program
serves it, and what `tools/run page_sums` refuses.

    tools/run copy_cases PROGRAM [COPIES [MANIFESTS]]

Manifests of a fleet are posted without a pause (2,000, a hundred a connection) while copies are
taken (6): SQLite finds each whole, it has the reply to every manifest that was answered before
it was asked for, the program takes it and answers these manifests by the same replies, and the
service goes on and answers all the rest.

promise: connections-at-once
"""
import contextlib
import io
import os
import re
import shutil
import sqlite3
import subprocess
import threading
import time
from collections.abc import Iterator
from contextlib import closing
from functools import partial
from pathlib import Path
from typing import Any, BinaryIO

from uptane_tools import arguments
from uptane_tools.measure import http_fleet
from uptane_tools.operate import copy_served, fleet_tables
from uptane_tools.trial import http_cases, trials


class Posting:
    """Posts the bodies, one after another, and keeps what is answered; each connection carries a
    hundred of them.
    """

    def __init__(self, running: http_cases.Served, parts: list[list[bytes]]) -> None:
        self.running, self.parts, self.answered = running, parts, list[Any]()
        self.thread = threading.Thread(target=self.post_all)
        self.thread.start()

    def post_all(self) -> None:
        with contextlib.suppress(OSError):
            for part in self.parts:
                with http_cases.connected(self.running) as client, client.makefile("rb") as reader:
                    for body in part:
                        client.sendall(http_cases.POST % len(body) + body)
                        self.answered.append((body, whole_answer(reader)))


def whole_answer(reader: BinaryIO) -> bytes:
    """The body of an answer whose status is 200."""
    head = b"".join(iter(reader.readline, b"\r\n"))
    if not head.startswith(b"HTTP/1.1 200 OK\r\n"):
        raise OSError("no reply")
    length = int(re.search(rb"Content-Length: (\d+)", head)[1])
    text = reader.read(length)
    if len(text) < length:
        raise OSError("half a reply")
    return text


def has_all(path: str | Path, answered: Any) -> bool:
    """Whether the replies that were given are those that the file keeps."""
    replies = http_fleet.kept(path, "reply")
    return all(replies.get(http_fleet.named(body)) == reply.decode() for body, reply in answered)


def is_taken(program: str | Path, path: str | Path, answered: Any) -> bool:
    """Whether the program takes the file, and answers the last manifests as before."""
    some = answered[-40:]
    with http_cases.served(program, path, 1) as running:
        told = http_fleet.posted(running, [body for body, _ in some])
        return told == b"".join(
            http_cases.answer(b"200 OK", reply) for _, reply in some) and http_cases.ended(running)


def under_load(program: Path, own: Path, copies: int, number: int) -> trials.Cases:
    lines, bodies = http_fleet.day(number)
    path, taken = own / "served", []
    yield "a file of a fleet", trials.printed(program, path, lines) is not None
    parts = http_fleet.hundreds(bodies)
    with http_cases.served(program, path, len(parts)) as running:
        posting = Posting(running, parts)
        for at in range(copies):
            while len(posting.answered) < (at + 1) * len(bodies) // (
                    copies + 2) and posting.thread.is_alive():
                time.sleep(0.001)
            one: Any
            answered, to, one = list(posting.answered), own / ("copy%d" % at), ["--one"] * (at % 2)
            status, _, err = trials.tool("copy_served", running.pid, path, to, *one)
            taken.append((to, answered, (status, err) == (0, "")))
        posting.thread.join()
        yield "the service goes on", len(
            posting.answered) == len(bodies) and http_cases.ended(running)
    yield "each was answered by its kept reply", has_all(path, posting.answered)
    for number, (to, answered, well) in enumerate(taken):
        one = number % 2 == 1
        words = "copy %d, after %d replies%s" % (number + 1, len(answered),
                                                 ", made one file" if one else "")
        yield words, well and 0 < len(answered) < len(bodies)
        modes = [os.stat(name).st_mode & 0o777 for name in (to, trials.log_of(to)) if name.exists()]
        yield "it is its owner's alone", modes == [0o600] * (1 if one else 2)
        yield "SQLite finds it whole", trials.faults(to) == []
        yield "it has every reply that was given before", has_all(to, answered)
        yield "the program takes it, and answers as before", is_taken(program, to, answered)


def waiting(program: str | Path, own: Path) -> trials.Cases:
    """A client that is in the middle of its request when the program is stopped is answered all
    the same.
    """
    path = own / "waited"
    trials.printed(program, path, http_cases.FIRST_PATH)
    with http_cases.served(program, path, 1) as running, http_cases.connected(running) as client:
        client.sendall(http_cases.NO_FILE[:10])
        time.sleep(0.3)
        for at in range(3):
            copy_served.copy(running.pid, str(path), str(own / ("waited%d" % at)))
            time.sleep(0.1)
        client.sendall(http_cases.NO_FILE[10:])
        well = client.recv(len(http_cases.OPEN), 0x100) == http_cases.OPEN
        client.close()
        yield "a client that waits meanwhile", well and http_cases.ended(running)


def taking(program: str | Path, own: Path) -> trials.Cases:
    """A client that takes nothing of its answers while the program is stopped gets them all the
    same.
    """
    path = http_cases.many_images(program, own / "large")
    with http_cases.served(program, path, 2) as running:
        wanted = 99 * http_cases.told(running, http_cases.GET_TARGETS)
        with http_cases.connected(running) as client, client.makefile("rb") as reader:
            client.sendall(99 * http_cases.GET_TARGETS)
            time.sleep(1)
            for at in range(3):
                copy_served.copy(running.pid, str(path), str(own / ("taken%d" % at)))
                time.sleep(0.3)
            well = reader.read(len(wanted)) == wanted
        yield "a client that takes nothing meanwhile", well and http_cases.ended(running)


@contextlib.contextmanager
def that_clones(own: Path, size: int) -> Iterator[Path | None]:
    """A folder on a filesystem that can clone files, made in a file of that size; none where this
    machine makes or mounts none.
    """
    folder, image = own / "clones", own / "clones.img"
    folder.mkdir()
    with open(image, "wb") as file:
        file.truncate(size)

    def ran(*words: Any) -> Any | bool:
        return shutil.which(words[0]) and subprocess.run(words, capture_output=True,
                                                         check=False).returncode == 0

    made = ran("mkfs.xfs", "-q", str(image)) or ran("mkfs.btrfs", "-q", str(image))
    if not (made and ran("mount", "-o", "loop", str(image), str(folder))):
        yield None
        return
    try:
        yield folder
    finally:
        subprocess.run(["umount", "--lazy", str(folder)], check=True)


def cloned(program: str | Path, own: Path) -> Iterator[tuple[str, bool]]:
    """Where the filesystem can, the copy is a clone; the tool says so, and where it can't, how
    long the program stood still.
    """
    with that_clones(own, 320 << 20) as folder:
        for to in filter(None, (own, folder)):
            path = to / "served"
            trials.printed(program, path, http_cases.FIRST_PATH)
            with http_cases.served(program, path, 1) as running:
                status, out, _ = trials.tool("copy_served", running.pid, path, to / "copy")
                running.kill()
            how = "cloned|copied, since the filesystem can't clone it there"
            how = how if to == own else "cloned"
            told = re.fullmatch(
                r"(\d+) bytes (%s); the program stood still for (\d\.\d{3}) seconds" % how,
                "".join(out))
            well = told and int(told[1]) == fleet_tables.size_of(path) and float(
                told[3]) < 5 and trials.rows(to / "copy") == trials.rows(path)
            yield "a copy" if to == own else "a copy that is a clone", status == 0 and bool(well)
        if not folder:
            print("no filesystem that clones can be mounted here, so no clone is tried")


def removed(program: str | Path, own: Path) -> trials.Cases:
    """A file that was removed is copied from the process that still has it; so is its log."""
    for number, ends in enumerate((["", "-wal"], [""])):
        path, to = own / ("removed%d" % number), own / ("saved%d" % number)
        trials.printed(program, path, http_cases.FIRST_PATH)
        rows = trials.rows(path)
        with http_cases.served(program, path, 1) as running:
            for end in ends:
                os.unlink(str(path) + end)
            status, out, err = trials.tool("copy_served", running.pid, path, to)
            running.kill()
        yield "a file that was removed", (status, err) == (
            0, "") and out[0] == "%s was removed: copied is what process %d still has open" % (
                path, running.pid) and trials.rows(to) == rows


def refused(program: str | Path, own: Path) -> trials.Cases:
    """What can't be copied, and what gets no sums, stays as it was."""
    path = own / "refused"
    trials.printed(program, path, http_cases.FIRST_PATH)
    (own / "there").write_bytes(b"there")
    with http_cases.served(program, path, 1) as running:
        tried = [(running.pid, path, own / "there"), (running.pid, own / "there", own / "new"),
                 (os.getpid(), path, own / "new"), (running.pid, path, own / "missing" / "new")]
        with contextlib.redirect_stderr(io.StringIO()):
            told = [copy_served.made(pid, str(file), str(to), False) for pid, file, to in tried]
        made = (own / "there").read_bytes() != b"there" or (own / "new").exists()
        yield "copies that are refused", told == [1, 1, 1, 1] and not made and http_cases.told(
            running, b"") == b""
    with closing(sqlite3.connect(own / "another product's meta")) as db, db:
        db.execute("CREATE TABLE meta (id INTEGER, app TEXT)")
        db.execute("INSERT INTO meta VALUES (1, 'another')")
    with closing(sqlite3.connect(own / "other tables")) as db, db:
        db.execute("CREATE TABLE other (id INTEGER)")
    (own / "no bytes").touch()
    (own / "one byte").write_bytes(b"S")
    for name in ("another product's meta", "other tables", "no bytes", "one byte"):
        before = (own / name).read_bytes()
        status, _, err = trials.tool("page_sums", own / name)
        well = status == 1 and err.startswith("page_sums: ")
        yield "no sums for a file with " + name, well and (own / name).read_bytes() == before


def cases(program: Path, copies: int = 6, number: int = 2000) -> trials.Cases:
    load = partial(under_load, copies=copies, number=number)
    yield from trials.each(program, load, waiting, taking, cloned, removed, refused)


def main(words: arguments.Words = None) -> int:
    """Tries the program that is named."""
    return trials.tried(__doc__, words, "copies", cases, copies=6, number=2000)
