"""Copies a database file and its log while the program serves it: stops the program, copies, and
lets it go on.

    tools/run copy_served PID FILE COPY [--one]

PID is the program's (`systemctl show -p MainPID --value uptane-desk`), and it has to have FILE
open; 0 where no program runs. Where FILE or its log was removed meanwhile, what the program still
has open of it is copied: it is there until the program ends. Clients wait while the program is
stopped, which is printed: some milliseconds however large the file is where the filesystem can
clone a file (XFS, Btrfs), and COPY is on the same one. Else the file is copied first, while the
program goes on, and only the log while it is stopped: the file itself changes but now and then,
when its log is copied into it. Where that was just meanwhile it is copied again, and the third time
while the program is stopped, which takes as long as the copy. COPY and its log
COPY-wal are made, for their owner alone, and mustn't be there. They are what a kill at that
moment would have left: all that was answered before is in them. They belong together, and `run`
or `serve` takes them so; `--one` has SQLite copy the log into the file and writes the sums of
its pages, so that COPY stands alone.

The status is 0, or 1 with a message; the program goes on in any case.
"""
import contextlib
import fcntl
import os
import shutil
import signal
import sys
import time
from pathlib import Path

from uptane_tools import arguments
from uptane_tools.operate import fleet_tables, page_sums

PATIENCE = 10
# how often a file is copied ahead that changes meanwhile, and how many seconds ago the last change
# has to be
TRIES, AT_REST = 2, 0.1
# the call of Linux that gives a new file the blocks of another (FICLONE)
CLONE = 0x40049409


def handle(pid: int, path: str) -> str | None:
    """The name by which to read what the process has open under this path: the path itself, or
    the process's own handle where the file was removed; none where it hasn't it open.
    """
    wanted, removed = os.stat(path) if os.path.exists(path) else None, None
    for link in Path("/proc/%d/fd" % pid).iterdir():
        try:
            if wanted and os.path.samestat(os.stat(link), wanted):
                return path
            if os.readlink(link).endswith("/%s (deleted)" % os.path.basename(path)):
                removed = str(link)
        except OSError:
            pass
    return removed


def sources(pid: int, path: str) -> list[tuple[str, str]]:
    """What is to be copied: the ends of the names, each with what it is read from."""
    if not pid:
        return [(end, path + end) for end in ("", "-wal") if os.path.exists(path + end)]
    file, log = handle(pid, path), handle(pid, path + "-wal")
    if not file:
        raise OSError("process %d doesn't have %s open" % (pid, path))
    if not log and file == path and os.path.exists(path + "-wal"):
        log = path + "-wal"
    return [("", file), *([("-wal", log)] if log else [])]


def is_stopped(pid: int) -> bool:
    """Whether all threads of the process stand still."""
    states = [(task / "stat").read_text().rpartition(")")[2].split()[0]
              for task in Path("/proc/%d/task" % pid).iterdir()]
    return set(states) == {"T"}


def stop(pid: int) -> None:
    """Stops the process, and waits until it stands still."""
    os.kill(pid, signal.SIGSTOP)
    until = time.monotonic() + PATIENCE
    while not is_stopped(pid):
        if time.monotonic() > until:
            raise OSError("process %d doesn't stop" % pid)
        time.sleep(0.001)


def cloned(out: int, given: int) -> bool:
    with contextlib.suppress(OSError):
        fcntl.ioctl(out, CLONE, given)
        return True
    return False


def copied(path: str | Path, to: str | Path) -> bool:
    """Makes a new file of its owner alone: a clone where the filesystem can, else a copy.
    Whether it is a clone.
    """
    made = os.open(to, os.O_WRONLY | os.O_CREAT | os.O_EXCL, 0o600)
    with open(made, "wb") as out, open(path, "rb") as given:
        is_clone = cloned(out.fileno(), given.fileno())
        if not is_clone:
            shutil.copyfileobj(given, out, 1 << 20)
        return is_clone


def state_of(path: str) -> tuple[int, int]:
    """What is another once the file was written to, where nothing is written to it just now."""
    its = os.stat(path)
    return its.st_mtime_ns, its.st_size


def ahead(path: str, to: str) -> tuple[int, int] | None:
    """Copies the file while the program goes on, and returns of which state it is; nothing where
    it can be cloned, or is written to all the time.
    """
    made = os.open(to, os.O_WRONLY | os.O_CREAT | os.O_EXCL, 0o600)
    with open(made, "wb") as out, open(path, "rb") as given:
        is_clone, until, age = cloned(out.fileno(),
                                      given.fileno()), time.monotonic() + PATIENCE, 0.0
        while not is_clone and age < AT_REST and time.monotonic() < until:
            # (by the clock of files, whose steps hide what is written in the same one)
            os.utime(out.fileno())
            age = os.fstat(out.fileno()).st_mtime - os.fstat(given.fileno()).st_mtime
            time.sleep(0.05)
        state = state_of(path)
        if not is_clone and age >= AT_REST:
            shutil.copyfileobj(given, out, 1 << 20)
            return state
    os.unlink(to)
    return None


def stopped(pid: int, path: str, to: str) -> tuple[bool, float]:
    """Stops the process, if there is one. Whether the file was copied before, and when it stopped.
    """
    for _ in range(TRIES if pid else 0):
        state, begun = ahead(path, to), time.monotonic()
        stop(pid)
        if state is None or state == state_of(path):
            return state is not None, begun
        os.kill(pid, signal.SIGCONT)
        os.unlink(to)
    begun = time.monotonic()
    if pid:
        stop(pid)
    return False, begun


def copy(pid: int, path: str, to: str) -> tuple[bool, float]:
    """Copies both files as they are at one moment. What was made is taken away again where
    it fails. Whether both are clones, and how many seconds the process stood still.
    """
    clones, given, taken = [], sources(pid, path), 0.0
    try:
        is_there, begun = stopped(pid, given[0][1], to)
        for end, one in given[1:] if is_there else given:
            clones.append(copied(one, to + end))
        taken = time.monotonic() - begun
    except OSError:
        for end, _ in given:
            if os.path.exists(to + end):
                os.unlink(to + end)
        raise
    finally:
        if pid:
            os.kill(pid, signal.SIGCONT)
    if any(one != path + end for end, one in given):
        print("%s was removed: copied is what process %d still has open" % (path, pid))
    return all(clones) and not is_there, taken


def made(pid: int, path: str, to: str, one: bool) -> int:
    try:
        for name in (to, to + "-wal"):
            if os.path.lexists(name):
                raise OSError("%s is there already" % name)
        is_clone, took = copy(pid, path, to)
    except (OSError, ValueError) as error:
        print("copy_served: %s" % error, file=sys.stderr)
        return 1
    how = "cloned" if is_clone else "copied, since the filesystem can't clone it there"
    print("%d bytes %s; the program stood still for %.3f seconds" %
          (fleet_tables.size_of(Path(to)), how, took if pid else 0))
    for name in (to, to + "-wal"):
        if os.path.exists(name):
            with open(name, "rb") as file:
                os.fsync(file.fileno())
    return page_sums.rewritten(to) if one else 0


def main(words: arguments.Words = None) -> int:
    asked = arguments.parser(__doc__)
    asked.add_argument("pid", type=int, metavar="PID")
    asked.add_argument("file", metavar="FILE")
    asked.add_argument("copy", metavar="COPY")
    asked.add_argument("--one", action="store_true", help="COPY stands alone")
    given = asked.parse_args(words)
    return made(given.pid, given.file, given.copy, given.one)
