"""The service over HTTP by the rules, in plain Python: what `reference.py serve` listens with.
docs/integrate/HTTP.md has the rules.

A connection's bytes are cut into requests, each with the check that it fails or the command that
it means. The grammar of a head is that of RFC 9112, sections 2 to 5, with a line feed alone
taken as the end of a line too.
"""
import contextlib
import itertools
import re
import socket
import sys
import time
from collections.abc import Iterator
from dataclasses import dataclass
from typing import Any

from uptane_tools.oracle import reference

MOST_HEAD, MOST_FIELDS, MOST_BODY, MOST_REQUESTS = 16_384, 64, 262_144, 100
# seconds: how long a client may do nothing, how long a connection lasts, how long it may go on
# sending after its last answer
SILENCE, LONGEST, GOING_ON = 30, 300, 10

TOKEN = rb"[!#$%&'*+\-.^_`|~0-9A-Za-z]+"
START = re.compile(rb"(" + TOKEN + rb") ([\x21-\x7e\x80-\xff]+) HTTP/1\.([01])")
FIELD = re.compile(rb"(" + TOKEN + rb"):([\t\x20-\x7e\x80-\xff]*)")

PHRASES = {
    200: "OK", 400: "Bad Request", 403: "Forbidden", 404: "Not Found", 405: "Method Not Allowed",
    409: "Conflict", 411: "Length Required", 413: "Payload Too Large", 501: "Not Implemented",
    503: "Service Unavailable"}
# the status of each refusal; that of any other is 503
STATUS = {
    4: 413, 5: 400, 6: 400, 7: 400, 10: 404, 11: 403, 12: 403, 13: 409, 14: 409, 15: 409, 16: 409,
    17: 403, 18: 409, 29: 404}
# what a check says, with its status and its error number
CHECKS = {
    "bad request": (400, 0), "not found": (404, 0), "method not allowed": (405, 0),
    "length required": (411, 0), "TooLarge": (413, 4), "not implemented": (501, 0)}


class BadRequest(Exception):
    pass


@dataclass(frozen=True)
class Next:
    """A request: the words of the check that it fails, the body of a manifest, or a repository
    and a filename; whether its method is HEAD, whether the stream ends with it, and the method
    that its route takes.
    """

    what: object
    head: bool = False
    last: bool = True
    allow: str = ""


# ---- requests


def head_of(came: bytes, ended: bool) -> tuple[list[bytes], bytes] | None:
    """The lines of the head at the front, and what follows it; none where more bytes may come
    and complete one.
    """
    lines: list[bytes] = []
    at = 0
    while (end := came.find(b"\n", at)) >= 0:
        line, at = came[at:end].removesuffix(b"\r"), end + 1
        if at > MOST_HEAD or (line and not (FIELD if lines else START).fullmatch(line)):
            raise BadRequest
        if lines and not line:
            return lines, came[at:]
        lines += [line] * bool(line)
        if len(lines) > 1 + MOST_FIELDS:
            raise BadRequest
    if ended or len(came) >= MOST_HEAD:
        raise BadRequest
    return None


def values(lines: list[bytes], name: bytes) -> list[bytes]:
    """The values of the fields of a name, without the white space around them."""
    fields = (it.groups() for it in map(FIELD.fullmatch, lines[1:]) if it)
    return [value.strip(b" \t") for found, value in fields if found.lower() == name]


def check_of(lines: list[bytes], minor: bytes) -> tuple[str | None, int | None]:
    """The check that the head alone fails, and the length that it states."""
    hosts, lengths = len(values(lines, b"host")), values(lines, b"content-length")
    if hosts != 1 and (hosts, minor) != (0, b"0"):
        return "bad request", None
    if values(lines, b"transfer-encoding"):
        return "not implemented", None
    if len(lengths) > 1 or not all(re.fullmatch(rb"[0-9]+", it) for it in lengths):
        return "bad request", None
    stated = int(lengths[0]) if lengths else None
    return "TooLarge" if stated and stated > MOST_BODY else None, stated


def routed(method: str, target: str, stated: int | None, body: bytes) -> tuple[Any, str]:
    """What a request asks, and the method that its route takes."""
    path = target.split("?", 1)[0]
    file = re.fullmatch(r"/(director|image)/([A-Za-z0-9._-]{1,128})", path)
    if path == "/director/manifest":
        found, allow = (body if stated is not None else "length required"), "POST"
    elif file:
        found, allow = file.groups(), "GET"
    else:
        return "not found", ""
    return (found, "") if method == allow else ("method not allowed", allow)


def first(came: bytes, before: int, ended: bool) -> tuple[Next, bytes] | None:
    """The first request of the bytes, of which so many stood before, and what is left; none
    where more bytes are needed.
    """
    try:
        found = head_of(came, ended)
        if found is None:
            return None
        lines, after = found
        method, target, minor = re.findall(START, lines[0])[0]
        method, target = method.decode(), target.decode()
    except (BadRequest, UnicodeDecodeError):
        return Next("bad request"), b""
    check, stated = check_of(lines, minor)
    size, head = stated or 0, method == "HEAD"
    if check is None and len(after) < size:
        if not ended:
            return None
        check = "bad request"
    if check:
        return Next(check, head), b""
    what, allow = routed(method, target, stated, after[:size])
    closes = any(b"close" in [it.strip(b" \t").lower() for it in value.split(b",")]
                 for value in values(lines, b"connection"))
    last = closes or minor == b"0" or what == "length required" or before + 1 >= MOST_REQUESTS
    return Next(what, head, last, allow), after[size:]


class Stream:
    """The requests of one connection, whose bytes come in pieces."""

    def __init__(self) -> None:
        self.rest, self.given, self.ended = b"", 0, False

    def feed(self, piece: bytes, end: bool = False) -> Iterator[Next]:
        """The requests that are whole once these bytes came, with which the input ends or not."""
        self.rest += piece
        while self.rest and not self.ended:
            found = first(self.rest, self.given, end)
            if found is None:
                return
            asked, self.rest = found
            self.given, self.ended = self.given + 1, asked.last
            yield asked


# ---- answers


def error(number: int, words: str) -> str:
    return reference.canonical({"error": number, "text": words})


def response(status: int, body: Any, asked: Next) -> bytes:
    """The bytes of an answer."""
    lines = [
        "HTTP/1.1 %d %s" % (status, PHRASES[status]), "Content-Type: application/json",
        "Content-Length: %d" % len(body)]
    lines += ["Allow: " + asked.allow] * bool(asked.allow) + ["Connection: close"] * asked.last
    return "".join(line + "\r\n"
                   for line in lines).encode() + b"\r\n" + (b"" if asked.head else body.encode())


def carried_out(desk: Any, at: int, what: Any) -> str:
    """The text that answers a command."""
    if isinstance(what, tuple):
        return desk.fetch({"at": at, "repository": what[0], "file": what[1]}).removeprefix("file ")
    desk.in_range({"at": at})
    return desk.reply_to(what, at)


class Log:
    """Lines of what is refused, on standard error: in a minute at most 60 of each number."""

    def __init__(self) -> None:
        self.lines: dict[tuple[int, int], int] = {}

    def hear(self, at: int, number: int, words: str, what: Any = None) -> None:
        key = number, at // 60
        self.lines[key] = self.lines.get(key, 0) + 1
        if self.lines[key] > 60:
            return
        vehicle = ""
        if isinstance(what, bytes):
            with contextlib.suppress(reference.Refused):
                sent = reference.read_manifest(what) or {}
                vehicle = "vehicle %s: " % sent["vehicle"]
        print("uptane_desk: %srefused %d %s" % (vehicle, number, words), file=sys.stderr,
              flush=True)


def answer(desk: Any, at: int, asked: Next, log: Log | None = None) -> Any:
    """The bytes that answer a request at a moment."""
    if isinstance(asked.what, str):
        status, number = CHECKS[asked.what]
        if log:
            log.hear(at, number, asked.what)
        return response(status, error(number, asked.what), asked)
    try:
        with desk.db:
            return response(200, carried_out(desk, at, asked.what), asked)
    except reference.Refused as refused:
        number, words = refused.args[0], refused.text.split(" ", 2)[2]
        if log:
            log.hear(at, number, words, asked.what)
        return response(STATUS.get(number, 503), error(number, words), asked)


# ---- connections


def connection(desk: reference.Desk, peer: socket.socket, log: Log) -> str | None:
    """Answers a client until it ends its half, or a request ends the stream; then what it still
    sends is read and dropped.
    """
    at, end, stream, cause = max(0, int(time.time())), time.monotonic() + LONGEST, Stream(), "read"
    try:
        while not stream.ended:
            peer.settimeout(max(0.001, min(SILENCE, end - time.monotonic())))
            piece = peer.recv(8192)
            for asked in stream.feed(piece, not piece):
                cause = "write"
                peer.sendall(answer(desk, at, asked, log))
            cause = "read"
            if not piece:
                return None
    except OSError:
        return cause
    with contextlib.suppress(OSError):
        peer.shutdown(socket.SHUT_WR)
        end = time.monotonic() + GOING_ON
        while (left := end - time.monotonic()) > 0:
            peer.settimeout(left)
            if not peer.recv(65536):
                break
    return None


def serve(desk: reference.Desk, port: int, count: int | None = None) -> int:
    """Serves so many connections one after the other, or for ever, and gives the status."""
    with socket.socket() as listener:
        try:
            listener.setsockopt(socket.SOL_SOCKET, socket.SO_REUSEADDR, 1)
            listener.bind(("127.0.0.1", port))
            listener.listen()
        except OSError:
            print("uptane_desk: cannot listen", file=sys.stderr)
            return 4
        print("listening %d" % port, flush=True)
        log = Log()
        with contextlib.suppress(KeyboardInterrupt):
            for number in range(1, count + 1) if count else itertools.count(1):
                peer, _ = listener.accept()
                with peer:
                    cause = connection(desk, peer, log)
                if cause:
                    print("uptane_desk: connection %d: %s" % (number, cause), file=sys.stderr,
                          flush=True)
    return 0
