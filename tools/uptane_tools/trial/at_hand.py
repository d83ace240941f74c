"""Requests, and an operator's lines, that are at hand together: they are sent while the program is
stopped, so that it finds them all when it looks.
"""
import contextlib
import os
import signal
import socket
import sqlite3
from collections.abc import Iterator
from contextlib import closing
from pathlib import Path
from typing import Any

from uptane_tools.measure import fleet, http_fleet
from uptane_tools.oracle import reference
from uptane_tools.trial import crowd_kills, http_cases, stops, telling, trials

# vehicles of which each sends a manifest, the first ones twice; and an operator's lines
VEHICLES, TWICE, LINES = 12, 3, 20
COUNT = 1000


@contextlib.contextmanager
def stopped(pid: int) -> Iterator[None]:
    """The program stands still."""
    os.kill(pid, signal.SIGSTOP)
    try:
        os.waitid(os.P_PID, pid, os.WSTOPPED | os.WEXITED | os.WNOWAIT)
        yield
    finally:
        os.kill(pid, signal.SIGCONT)


def heard(peer: socket.socket) -> bytes:
    """What comes until the other side ends, or breaks off."""
    came = b""
    with contextlib.suppress(OSError):
        while piece := peer.recv(65_536):
            came += piece
    return came


class AtHand:
    """What is sent at once, and the file that it meets."""

    def __init__(self, program: Path, own: Path) -> None:
        self.program, self.own = program, own
        self.file, self.before = own / "filled", crowd_kills.filled(VEHICLES)
        self.bodies = crowd_kills.made(VEHICLES)
        self.sent = self.bodies + self.bodies[:TWICE]
        self.script = telling.lines(LINES)
        assert set(trials.printed(program, self.file, self.before)) == {"done"}

    def answers(self, running: http_cases.Served, path: Path) -> tuple[list[bytes], list[str]]:
        """What each request and each line is answered; nothing where the program ended before."""
        with contextlib.ExitStack() as up:
            with stopped(running.pid):
                clients = [up.enter_context(http_cases.connected(running)) for _ in self.sent]
                for client, body in zip(clients, self.sent):
                    client.sendall(http_cases.closing_one(http_cases.POST % len(body) + body))
                operator = up.enter_context(socket.socket(socket.AF_UNIX))
                operator.settimeout(http_cases.PATIENCE)
                operator.connect(str(path))
                operator.sendall("".join(line + "\n" for line in self.script).encode())
                operator.shutdown(socket.SHUT_WR)
            return [heard(client) for client in clients], heard(operator).decode().split("\n")[:-1]

    def tables(self, moments: dict[Any, int], lost: list[int]) -> Any:
        """The rules' answers to the lines but the lost ones, and their tables, behind the
        manifests that were kept, at their moments.
        """
        with closing(sqlite3.connect(":memory:")) as db:
            desk = reference.Desk(db)
            for line in self.before:
                desk.answer(line)
            for body in self.bodies:
                at = moments.get(http_fleet.named(body))
                if at is not None:
                    desk.answer(fleet.line("deliver", at, body=body.decode("ascii")))
            answers = [desk.answer(line) for at, line in enumerate(self.script) if at not in lost]
            return answers, trials.rows_in(db)

    def is_left(self, path: Path, printed: list[str]) -> bool:
        """Whether the lines were answered by the rules, and the tables are those of what was kept
        and of the lines that weren't lost, or of the first ones of these too.
        """
        moments, rows = http_fleet.kept(path, "moment"), trials.rows(path)
        lost = [
            at for at, answer in enumerate(printed + ["" for _ in self.script[len(printed):]])
            if not answer or answer in stops.LOST]
        wanted, tables = self.tables(moments, lost)
        return wanted == [answer for answer in printed if answer not in stops.LOST
                          ] and (rows == tables or any(rows == self.tables(moments, lost[done:])[1]
                                                       for done in range(1,
                                                                         len(lost) + 1)))

    def are_kept(self, path: Path, got: list[bytes], may_lack: bool) -> bool:
        """Whether each answer is the reply that is kept, or, where there may be such, none or that
        memory or the database failed.
        """
        replies = http_fleet.kept(path, "reply")
        for body, answer in zip(self.sent, got):
            status, reply = answer[9:12], replies.get(http_fleet.named(body))
            if status in (b"", b"503"):
                if not may_lack:
                    return False
            elif reply is None or answer != http_cases.answer(b"200 OK", reply.encode(), True):
                return False
        return True

    def again(self, path: Path, got: list[bytes]) -> str:
        """All of it again, by a new start: what is otherwise than it has to be."""
        with http_cases.served(self.program, path, COUNT, operators=self.own / "socket") as running:
            more, printed = self.answers(running, self.own / "socket")
        if not self.are_kept(path, more, False) or not self.are_kept(path, got, True):
            return "other replies, when started again"
        with closing(sqlite3.connect(":memory:")) as db:
            desk = reference.Desk(db)
            for line in self.before:
                desk.answer(line)
            for line, answer in zip(self.script, printed, strict=True):
                first = desk.answer(line)
                if answer not in (first, desk.answer(line)) and not (
                        '"add_vehicle"' in line and answer == "refused 22 VehicleTaken"):
                    return "another answer to a line, when started again: %s" % answer
        if trials.rows(path) != self.tables(http_fleet.kept(path, "moment"), [])[1]:
            return "other rows, when started again"
        return "" if trials.faults(path) == [] else "a damaged file"

    def tried(self, failing: Any) -> str:
        """What is otherwise than it has to be while a call goes wrong."""
        path, operators = self.own / "swept", self.own / "socket"
        trials.log_of(path).unlink(missing_ok=True)
        trials.copied(self.file, path)
        got, printed = list[bytes](), list[str]()
        with contextlib.suppress(OSError), http_cases.served(self.program, path, COUNT,
                                                             failing.told, operators) as running:
            got, printed = self.answers(running, operators)
        if not failing.failed() and not self.are_kept(path, got, False):
            return "other answers where no call failed"
        if printed and printed[-1].startswith("uptane_desk: stopped after "):
            printed.pop()
        if not self.are_kept(path, got, True):
            return "other answers: %r" % got
        if not self.is_left(path, printed):
            return "other rows or lines: %r" % printed
        return self.again(path, got)
