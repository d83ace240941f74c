"""Tries the operators' socket of a program that serves, and groups of requests: what
`docs/use/PROGRAM.md` says. Each wait is bounded.

    tools/run socket_cases PROGRAM

promise: connections-at-once, clients-as-a-whole, messages, words-after-the-name
"""
import contextlib
import json
import os
import signal
import socket
import subprocess
import time
from collections.abc import Iterator
from concurrent.futures import ThreadPoolExecutor
from pathlib import Path
from typing import Any

from uptane_tools import arguments
from uptane_tools.trial import http_cases, trials
from uptane_tools.trial.http_cases import PATIENCE, SOON, Served, served

UNHEARD = (4, b"", b"uptane_desk: cannot listen\n")
STATUS = b'{"do":"status"}\n'
NOT_JSON = b"refused 5 NotJson\n"
LONGEST_LINE = 2_097_152
# as many operators as are served at once
PLACES = 16


def reached(path: Path) -> socket.socket:
    peer = socket.socket(socket.AF_UNIX)
    peer.settimeout(PATIENCE)
    peer.connect(str(path))
    return peer


def told(path: Path, script: bytes) -> bytes:
    """What is answered to a script that is given whole."""
    with reached(path) as peer:
        peer.sendall(script)
        peer.shutdown(socket.SHUT_WR)
        return http_cases.to_the_end(peer)


def asked(peer: socket.socket, line: bytes) -> bytes:
    """The answer to a line while more may follow."""
    peer.sendall(line)
    answer = b""
    while not answer.endswith(b"\n") and (part := peer.recv(65536)):
        answer += part
    return answer


def known(path: Path) -> dict[str, int]:
    return dict(json.loads(told(path, STATUS)))


def counted(path: Path) -> list[int]:
    """How many groups there were, and how many commands in them."""
    it = known(path)
    return [it["groups"], it["commands"]]


def tried(program: Path, words: Any) -> tuple[int, bytes, bytes]:
    ran = subprocess.run([program, *map(str, words)], capture_output=True, check=False,
                         timeout=PATIENCE)
    return ran.returncode, ran.stdout, ran.stderr


# ---- the file


def files(program: Path, own: Path) -> trials.Cases:
    path = own / "socket"
    with served(program, own / "one", 1, operators=path) as running:
        yield "a socket of its owner alone", path.is_socket(
        ) and path.stat().st_mode & 0o777 == 0o600
        port = http_cases.free_port()
        yield "at which somebody listens, so it stays", tried(
            program, ["serve", own / "other", port, 1, path]) == UNHEARD and known(path) != {}
        running.kill()
        running.wait()
    yield "a killed service leaves it", path.is_socket()
    with served(program, own / "one", 1, operators=path) as running:
        yield "and the next one replaces it", known(path)["open"] == 0
        http_cases.told(running, http_cases.closing_one(http_cases.GET_ROOT))
        yield "it goes with the service, and operators aren't counted", http_cases.ended(
            running) and not path.exists()
    link, target = own / "link", own / "target"
    with contextlib.closing(socket.socket(socket.AF_UNIX)) as left:
        left.bind(str(target))
    link.symlink_to(target)
    (own / "file").write_text("x")
    (own / "folder").mkdir()
    for name in ("file", "folder", "link"):
        before = (own / name).lstat()
        ended = tried(program, ["serve", own / "other", http_cases.free_port(), 1, own / name])
        yield "another %s stays" % name, ended == UNHEARD and (own / name).lstat() == before
    yield "no folder for it", tried(
        program, ["serve", own / "other",
                  http_cases.free_port(), 1, own / "no" / "socket"]) == UNHEARD


# ---- scripts


def scripts(program: Path, own: Path) -> trials.Cases:
    script = (trials.FIRST_PATH / "script").read_bytes()
    path = own / "socket"
    printed = subprocess.run([program, "run", own / "by_run"], input=script, capture_output=True,
                             check=True).stdout
    with served(program, own / "by_socket", 1, operators=path) as running:
        yield "a script is answered as `run` does", told(path, script) == printed
        yield "no lines", told(path, b"") == b"" and told(path, b"\n\n") == b""
        yield "cut off in a line", told(
            path, b"x\n\ny\nhalf") == 2 * NOT_JSON + (b"uptane_desk: stopped after 2 lines: read\n")
        yield "a line that is too long", told(
            path, b"x\n" + b"y" * (LONGEST_LINE + 1) +
            b"\nz\n") == (NOT_JSON + b"uptane_desk: stopped after 1 lines: line limit\n")
        with reached(path) as peer:
            yield "a line typed by hand", asked(peer, b"x\n") == NOT_JSON
            yield "and the next one", asked(peer, b"y\n") == NOT_JSON
            yield "how it stands, between lines", sorted(json.loads(asked(peer, STATUS))) == [
                "commands", "groups", "open", "seconds", "served"]
            peer.sendall(b"z")
            yield "a script that is begun holds up nobody", told(path, b"x\n") == NOT_JSON
        yield "how it stands, among lines", told(path, b"x\n" + STATUS + b"y\n").count(b"\n") == 3
        yield "only spelled so", told(path, b' {"do":"status"}\n').startswith(b"refused ")
        with contextlib.ExitStack() as up:
            peers = [up.enter_context(reached(path)) for _ in range(PLACES)]
            yield "so many at once", all(asked(peer, b"x\n") == NOT_JSON for peer in peers)
            late = up.enter_context(reached(path))
            late.sendall(b"x\n")
            late.settimeout(0.5)
            with contextlib.suppress(TimeoutError):
                yield "one more waits", not late.recv(1)
            late.settimeout(PATIENCE)
            peers[0].close()
            yield "for the first that goes", late.recv(100) == NOT_JSON
        http_cases.told(running, http_cases.closing_one(http_cases.GET_ROOT))
        yield "nothing else is told", http_cases.ended(running)
    yield "and leaves the same tables", trials.rows(own / "by_run") == trials.rows(
        own / "by_socket")


def long_ones(program: Path, own: Path) -> trials.Cases:
    """While a long script is carried out, others are answered."""
    path, lines = own / "socket", 40_000
    with served(program, own / "long", 21, operators=path) as running, ThreadPoolExecutor() as pool:
        long_one = pool.submit(told, path, b"x\n" * lines)
        waits = []
        for _ in range(20):
            begun = time.monotonic()
            http_cases.told(running, http_cases.closing_one(http_cases.GET_ROOT))
            other = told(path, b"y\n")
            waits.append(time.monotonic() - begun if other == NOT_JSON else PATIENCE)
        yield "beside a long script clients and operators are answered soon", max(waits) < SOON
        yield "and all of its lines are", long_one.result() == NOT_JSON * lines
        http_cases.told(running, http_cases.closing_one(http_cases.GET_ROOT))
        yield "the service ends", http_cases.ended(running)


# ---- groups


def at_hand(running: Served, path: Path, requests: list[bytes]) -> Iterator[bytes]:
    """The answers to requests that are all at hand when the program looks."""
    with contextlib.ExitStack() as up:
        clients = [up.enter_context(http_cases.connected(running)) for _ in requests]
        # (each is accepted and answered once, and then waited for)
        for client in clients:
            client.sendall(http_cases.NO_FILE)
            client.recv(65536)
        known(path)
        os.kill(running.pid, signal.SIGSTOP)
        os.waitid(os.P_PID, running.pid, os.WSTOPPED | os.WNOWAIT)
        for client, request in zip(clients, requests):
            client.sendall(request)
            client.shutdown(socket.SHUT_WR)
        os.kill(running.pid, signal.SIGCONT)
        for client in clients:
            yield http_cases.to_the_end(client)


def groups(program: Path, own: Path) -> trials.Cases:
    path, manifest = own / "socket", http_cases.MANIFEST
    script = (trials.FIRST_PATH / "script").read_bytes()
    subprocess.run([program, "run", own / "file"], input=script, capture_output=True, check=True)
    post = http_cases.POST % len(manifest) + manifest
    with served(program, own / "file", 160, operators=path) as running:
        first = list(at_hand(running, path, [post] * 20))
        yield "twenty at hand get their answers", first == [http_cases.KEPT] * 20
        yield "as one group", counted(path) == [1, 20]
        mixed = list(
            at_hand(running, path, [post, http_cases.NO_FILE, http_cases.POST % 1 + b"x"] * 23))
        yield "others among them too", len({
            *mixed[0::3]}) == 1 and mixed[0] == (http_cases.KEPT) and {*mixed[1::3]} == {
                http_cases.OPEN} and len({*mixed[2::3]}) == 1
        yield "in a group of their own", counted(path) == [2, 66]
        many = list(at_hand(running, path, [post] * 70))
        yield "seventy in two, since 64 are the most", many == [
            http_cases.KEPT] * 70 and counted(path) == [4, 136]
        http_cases.told(running, http_cases.closing_one(http_cases.GET_ROOT))
        yield "each is counted", http_cases.ended(running)


def cases(program: Path) -> trials.Cases:
    yield from trials.each(program, files, scripts, long_ones, groups)


def main(words: arguments.Words = None) -> int:
    """Tries the program that is named."""
    return trials.tried(__doc__, words, "socket", cases)
