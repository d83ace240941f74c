"""Sends random requests over HTTP in random pieces, and compares the answers and the tables with
the rules and with scripts.

    tools/run fuzz_http PROGRAM [FIRST [NUMBER]]

For each seed from FIRST (1) on, NUMBER (100) of them, a script of `tools/run fuzz` founds and
fills a file. The program serves it to one connection, which sends manifests, some of them
damaged, and asks for files, in pieces that are cut anywhere. Then a script has operators'
commands, some between manifests, and a new start serves another connection, over which earlier
manifests come again too. Each answer has to be, byte for byte, what `tools/run reference`
answers at the moment that the program's clock had, and the file has to have its rows. The same
is then asked for by script, each manifest at the moment that was kept: over a copy of the file
as it was, and over memory after the script that filled it. Both have to answer alike, and the
copy has to have the same rows, byte for byte. Five more connections send requests whose heads
are damaged anywhere: they are answered as `tools/uptane_tools/oracle/reference_http.py` answers
them, and the file stays as it was.

promise: one-call
"""
import contextlib
import json
import random
import shutil
import socket
import sqlite3
from contextlib import closing
from dataclasses import dataclass
from pathlib import Path
from typing import Any

from uptane_tools import arguments
from uptane_tools.measure import fleet
from uptane_tools.oracle import reference, reference_http
from uptane_tools.trial import fuzz, http_cases, trials


@dataclass(frozen=True)
class Request:
    """What it is made of, what it asks, and how its answer ends: `check` is a fixed answer, `asks`
    a body or a file.
    """

    method: str
    target: str
    fields: list[str]
    body: bytes = b""
    version: str = "1.1"
    check: tuple[str, str | None] | None = None
    asks: bytes | tuple[str, str] | None = None
    ends: bool = False

    def sent(self) -> bytes:
        """Its bytes."""
        lines = ["%s %s HTTP/%s" % (self.method, self.target, self.version), *self.fields]
        return "".join(line + "\r\n" for line in lines).encode() + b"\r\n" + self.body


def answer(desk: reference.Desk, request: Request, moments: dict[tuple[str, int], int]) -> bytes:
    """The bytes of the answer by the rules, at the moment that was kept where it is a manifest
    that was accepted.
    """
    what, allow = request.check or (request.asks, None)
    at = 0
    if isinstance(what, bytes):
        with contextlib.suppress(reference.Refused):
            told = reference.read_manifest(what)
            at = moments.get((told["vehicle"], told["counter"]), 0)
    ends = request.ends or request.version == "1.0" or bool(
        request.check) and reference_http.CHECKS[what][0] in (400, 411, 413, 501)
    return reference_http.answer(
        desk, at, reference_http.Next(what, request.method == "HEAD", ends, allow or ""))


class Stream:
    """The requests of one seed: bodies of the seed's own script, and files."""

    def __init__(self, seed: int, script: fuzz.Script) -> None:
        self.rng, self.script, self.sent = random.Random(seed), script, list[Any]()

    def body(self) -> bytes:
        self.script.lines.clear()
        while True:
            self.script.deliver()
            line = json.loads(self.script.lines[-1])
            return line["body"].encode()

    def fields(self, *more: str) -> list[str]:
        fields = ["Host: d", *more]
        if self.rng.random() < 0.3:
            fields.append(
                self.rng.choice(["Accept: */*", "x-a:  b ", "Connection: keep-alive", "Expect: x"]))
        self.rng.shuffle(fields)
        return fields

    def deliver(self, **more: Any) -> Request:
        body = self.rng.choice(
            self.sent[-8:]) if self.sent and self.rng.random() < 0.2 else self.body()
        self.sent.append(body)
        query = self.rng.choice(["", "", "", "?", "?a=b"])
        fields = self.fields("Content-Length: %d" % len(body))
        return Request("POST", "/director/manifest" + query, fields, body, asks=body, **more)

    def fetch(self, **more: Any) -> Request:
        where = self.rng.choice(["director", "image"])
        names = [
            "root.json", "1.root.json", "2.root.json", "targets.json", "snapshot.json",
            "timestamp.json", "no"]
        name = self.rng.choice(names)
        return Request("GET", "/%s/%s" % (where, name), self.fields(), asks=(where, name), **more)

    def other(self) -> Request:
        """A request that no command comes of."""
        return self.rng.choice([
            lambda: Request("GET", "/nowhere", self.fields(), check=("not found", None)),
            lambda: Request("PUT", "/image/a%20b", self.fields(), check=("not found", None)),
            lambda: Request("HEAD", "/image/root.json", self.fields(
            ), check=("method not allowed", "GET")), lambda: Request(
                "DELETE", "/image/root.json", self.fields(), check=("method not allowed", "GET")),
            lambda: Request("GET", "/director/manifest", self.fields(), check=("method not allowed",
                                                                               "POST"))])()

    def last(self) -> Request:
        """A request that ends the stream."""
        return self.rng.choice([
            lambda: Request("GET", "/image/root.json", [], check=("bad request", None)),
            lambda: Request("GET", "/image/root.json", [
                "Host: d", "Host: d"], check=("bad request", None)), lambda: Request(
                    "POST", "/director/manifest", self.fields(), check=("length required", None)),
            lambda: Request("POST", "/director/manifest", self.fields("Content-Length: x"), check=(
                "bad request", None)),
            lambda: Request("POST", "/director/manifest",
                            self.fields("Content-Length: %d" %
                                        (reference_http.MOST_BODY + 1)), check=("TooLarge", None)),
            lambda: Request("POST", "/director/manifest", self.fields("Transfer-Encoding: chunked"),
                            check=("not implemented", None)),
            lambda: self.fetch(version="1.0"), lambda: Request("GET", "/image/root.json", [
                "Host: d", "Connection: a, Close"], asks=("image", "root.json"), ends=True)])()

    def between(self) -> list[str]:
        """The lines of operators, with manifests among them: some replace ECUs, others change
        images, campaigns or keys.
        """
        script = self.script
        script.lines.clear()
        kinds = [
            script.replace_ecu, script.between, script.open_campaign, script.close_campaign,
            script.rotate, script.refresh]
        for _ in range(self.rng.randint(0, 4)):
            self.rng.choices(kinds, [6, 4, 2, 2, 1, 1])[0]()
        return [line.decode() for line in script.lines]

    def made(self) -> list[Request]:
        number = self.rng.randint(1, 30)
        kinds: list[Any] = [self.deliver, self.fetch, self.other]
        found = [self.rng.choices(kinds, [6, 3, 1])[0]() for _ in range(number)]
        return found + ([self.last()] if self.rng.random() < 0.5 else [])


def came(running: http_cases.Served, sent: bytes, rng: random.Random) -> bytes:
    """What the program answers to the bytes, sent in pieces."""
    told = b""
    with http_cases.connected(running) as peer, contextlib.suppress(ConnectionError):
        while sent:
            size = rng.choice([1, 2, 7, 100, 1000, 10_000])
            peer.sendall(sent[:size])
            sent = sent[size:]
        peer.shutdown(socket.SHUT_WR)
        while piece := peer.recv(65_536):
            told += piece
    return told


# ---- by script


def line_of(asks: Any, moments: dict[tuple[str, int], int]) -> str:
    """The line that asks the same, where it isn't one; a manifest that was accepted at its moment.
    """
    if isinstance(asks, str):
        return asks
    if isinstance(asks, tuple):
        return fleet.line("fetch", repository=asks[0], file=asks[1])
    at = fleet.START
    with contextlib.suppress(reference.Refused):
        told = reference.read_manifest(asks)
        at = moments.get((told["vehicle"], told["counter"]), at)
    return fleet.line("deliver", at, body=asks.decode())


def printed_as(line: str, asks: Any, answer: Any, replies: dict[tuple[str, int], str]) -> bool:
    """Whether a script's line says what the answer says, or what another line of a script said."""
    if isinstance(asks, str):
        return line == answer
    body: Any
    head, _, body = answer.partition(b"\r\n\r\n")
    if not head.startswith(b"HTTP/1.1 200 "):
        return line == "refused %(error)d %(text)s" % json.loads(body)
    if isinstance(asks, tuple):
        return line == "file " + body.decode()
    told = json.loads(body)
    said = line.startswith("reply %(vehicle)s version %(version)d targets " % told)
    return said and replies[told["vehicle"], told["version"]] == body.decode()


def by_script(program: Path, before: list[bytes], path: Path,
              commands: list[tuple[Any, bytes | str]], moments: dict[tuple[str, int], int]) -> Any:
    """What went otherwise where the same is asked by script: over the file, and over memory
    after the lines that filled it.
    """
    lines = [line_of(asks, moments) for asks, _ in commands]
    told, whole = trials.printed(program, path, lines), trials.printed(
        program, ":memory:", before + lines)
    if told is None or whole is None or whole[len(whole) - len(lines):] != told:
        return "a script over memory"
    with trials.read(path) as db:
        replies = {
            row[:2]: row[2] for row in db.execute("SELECT vehicle, version, reply FROM kept")}
    for line, (asks, answer) in zip(told, commands, strict=True):
        if not printed_as(line, asks, answer, replies):
            return "a script over a file: %s\n  over HTTP: %r" % (line[:300], answer[:300])
    return None


# ---- damaged heads


def spoiled(rng: random.Random) -> bytes:
    """Requests that no manifest is accepted by, with bytes that are damaged anywhere."""
    sent = b"".join(
        rng.choice([http_cases.GET_ROOT, http_cases.NO_FILE, http_cases.POST % 2 + b"{}"])
        for _ in range(rng.randint(1, 6)))
    for _ in range(rng.randint(1, 4)):
        sent = fuzz.damaged(rng, sent)
    return sent


def by_the_rules(desk: reference.Desk, sent: bytes) -> bytes:
    """What is answered to a connection that sends this and ends its half."""
    return b"".join(
        reference_http.answer(desk, 0, asked) for asked in reference_http.Stream().feed(sent, True))


def hostile(program: Path, path: Path, rng: random.Random) -> bool:
    """Whether requests with damaged heads are answered as by the rules, and leave the file as it
    was.
    """
    rows, streams = trials.rows(path), [spoiled(rng) for _ in range(5)]
    with trials.folder(path.parent) as own, closing(
            sqlite3.connect(trials.copied(path, own / "copy"))) as db:
        desk = reference.Desk(db)
        wanted = [by_the_rules(desk, sent) for sent in streams]
    with http_cases.served(program, path, 5) as running:
        well = [came(running, sent, rng) for sent in streams] == wanted
        return well and http_cases.ended(running) and trials.rows(path) == rows


def kept_moments(path: Path) -> dict[tuple[str, int], int]:
    with trials.read(path) as db:
        return {row[:2]: row[2] for row in db.execute("SELECT vehicle, counter, moment FROM kept")}


def served_as(program: Path, path: Path, desk: reference.Desk, requests: list[Request],
              rng: random.Random, commands: list[tuple[Any, bytes | str]]) -> Any:
    """What went otherwise where these are served; what they ask is added to the commands, with
    its answers by the rules.
    """
    with http_cases.served(program, path, 1) as running:
        told = came(running, b"".join(it.sent() for it in requests), rng)
        if not http_cases.ended(running):
            return "another end"
    moments = kept_moments(path)
    for number, request in enumerate(requests, 1):
        wanted = answer(desk, request, moments)
        if not told.startswith(wanted):
            words = number, request.sent()[:300], wanted[:300], told[:300]
            return "request %d: %r\n  rules: %r\n  program: %r" % words
        told = told[len(wanted):]
        if request.check is None:
            commands.append((request.asks, wanted))
    return "more than the answers: %r" % told[:300] if told else None


def ordered_as(program: Path, path: Path, desk: reference.Desk, lines: list[str],
               commands: list[tuple[Any, bytes]]) -> Any:
    """The same of operators' lines."""
    wanted = [desk.answer(line.encode()) for line in lines]
    commands.extend(zip(lines, wanted, strict=True))
    return None if trials.printed(program, path, lines) == wanted else "lines between"


def tried(program: Path, seed: int, own: Path) -> Any:
    script = fuzz.Script(seed)
    path, rules, scripted, lines = own / "served", own / "rules", own / "scripted", script.made()
    if trials.printed(program, path, lines) is None:
        return "the script"
    shutil.copy(path, rules)
    shutil.copy(path, scripted)
    commands: Any
    rng, commands, stream = random.Random(seed), [], Stream(seed, script)
    with closing(sqlite3.connect(rules)) as db:
        desk = reference.Desk(db)
        other = served_as(program, path, desk, stream.made(), rng, commands)
        other = other or ordered_as(program, path, desk, stream.between(), commands)
        other = other or served_as(program, path, desk, stream.made(), rng, commands)
    if other:
        return other
    if not hostile(program, path, rng):
        return "damaged heads"
    other = by_script(program, lines, scripted, commands, kept_moments(path))
    return other or (None if trials.rows(path) == trials.rows(rules) == trials.rows(scripted) else
                     "other rows")


def cases(program: Path, first: int = 1, number: int = 100) -> trials.Cases:
    for seed in range(first, first + number):
        with trials.folder() as own:
            other = tried(program, seed, own)
        if other:
            print("http: seed %d: %s" % (seed, other))
        yield "seed %d" % seed, not other


def main(words: arguments.Words = None) -> int:
    """Tries the program that is named."""
    return trials.tried(__doc__, words, "http", cases, first=1, number=100)
