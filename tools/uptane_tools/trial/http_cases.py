"""Tries the program over HTTP, with clients of several kinds: what `docs/integrate/HTTP.md`
says. Each wait is bounded.

    tools/run http_cases PROGRAM [whole]

The program serves a file in which `examples/first_path` was carried out, so that its files and
the reply that it kept are known beforehand. Clients that hold the connection are tried all at
once, beside the others: this takes two minutes. For those that send or take a byte now and then,
the program's clock is made to go ten times as fast, and one case sets it to a time before
1970, which needs a C compiler. `whole` tries these alone, by the clock as it is, which takes six
minutes.

promise: exit-status, messages, closed-once, connections-at-once, moment-of-a-connection
"""
import calendar
import contextlib
import http.client
import json
import os
import random
import re
import select
import shlex
import shutil
import socket
import sqlite3
import struct
import subprocess
import sys
import tempfile
import threading
import time
import urllib.parse
from collections.abc import Callable, Iterator
from concurrent.futures import ThreadPoolExecutor
from contextlib import closing
from pathlib import Path
from typing import Any, IO

from uptane_tools import arguments
from uptane_tools.measure import fleet
from uptane_tools.oracle import reference
from uptane_tools.trial import trials

PRIMARY = trials.TOP / "examples" / "primary"
FIRST_PATH = (trials.FIRST_PATH / "script").read_text(encoding="ascii").split("\n")[:-1]
GIVEN, MANIFEST, REPLY = ((trials.MESSAGES / name).read_bytes()
                          for name in ("manifest-input.json", "manifest.json", "reply.json"))
MANIFEST, REPLY = MANIFEST.strip(), REPLY.strip()
# what the small Primary checks a reply by
VERIFIES = trials.MESSAGES / ("director-root.json"
                              if reference.METHOD == "ed25519" else "director-secrets.json")
PATIENCE = 90

# how long the service waits for a client that does nothing, and for a connection as a whole, in
# seconds; what more a busy machine may take, and how many times as fast its clock is made to go
SILENCE, WHOLE, SLACK, FAST = 30, 300, 60, 10
# how soon others are answered beside a client that holds its connection, on a busy machine
SOON = 5
# how long a client may go on sending after its last answer, in seconds
GOING_ON = 10

GET_ROOT = b"GET /image/root.json HTTP/1.1\r\nHost: d\r\n\r\n"
NO_FILE = b"GET /image/nofile HTTP/1.1\r\nHost: d\r\n\r\n"
POST = b"POST /director/manifest HTTP/1.1\r\nHost: d\r\nContent-Length: %d\r\n\r\n"
UNKNOWN_FILE = b'{"error":29,"text":"UnknownFile"}'
REFUSED = re.compile(rb"(?m)^uptane_desk: (?:vehicle \S+: )?refused \d+ [^\n]*\n")


def answer(status: bytes, body: bytes, ends: bool = False) -> bytes:
    """The bytes of an answer, whose connection ends with it or goes on."""
    lines = [
        b"HTTP/1.1 " + status, b"Content-Type: application/json",
        b"Content-Length: %d" % len(body)]
    return b"\r\n".join(lines + [b"Connection: close"] * ends) + b"\r\n\r\n" + body


OPEN, CLOSED = (answer(b"404 Not Found", UNKNOWN_FILE, ends) for ends in (False, True))
TOO_LARGE = answer(b"413 Payload Too Large", b'{"error":4,"text":"TooLarge"}', True)
BAD = answer(b"400 Bad Request", b'{"error":0,"text":"bad request"}', True)
KEPT = answer(b"200 OK", REPLY)


def closing_one(request: bytes) -> bytes:
    return request.replace(b"\r\n\r\n", b"\r\nConnection: Close\r\n\r\n", 1)


def is_free(port: int) -> bool:
    with socket.socket() as probe:
        probe.setsockopt(socket.SOL_SOCKET, socket.SO_REUSEADDR, 1)
        with contextlib.suppress(OSError):
            probe.bind(("127.0.0.1", port))
            return True
    return False


def free_port(many: int = 1) -> int:
    """The first of so many ports at which nothing listens, below those that the system gives to
    clients: no connection takes them.
    """
    while True:
        first = random.randrange(10_000, 32_000)
        if all(is_free(first + at) for at in range(many)):
            return first


class Served(subprocess.Popen[bytes]):
    """A program that serves, its port, and what it writes to standard error."""

    port: int
    said: IO[bytes]


@contextlib.contextmanager
def served(program: Any, path: Path | str, count: int, variables: dict[str, str] | None = None,
           operators: Path | None = None) -> Iterator[Served]:
    """The program, or the words that run it, while it serves so many connections, and its port;
    with a socket for operators, where one is named.
    """
    port = free_port()
    words = [
        *(program if isinstance(program, list) else [str(program)]), "serve",
        str(path),
        str(port),
        str(count), *([str(operators)] if operators else [])]
    told = os.environ | (variables or {})
    # (a pipe that nobody reads would stop it behind some thousand refusals)
    said = tempfile.TemporaryFile()
    running = Served(words, stdout=subprocess.PIPE, stderr=said, env=told)
    running.said = said
    try:
        ready = select.select([running.stdout], [], [], PATIENCE)[0]
        if not ready or running.stdout.readline() != b"listening %d\n" % port:
            raise OSError("the program doesn't listen")
        running.port = port
        yield running
    finally:
        running.kill()
        running.communicate()
        said.close()


def ended(running: Served, err: bytes = b"", refused: int | None = None,
          patience: int = PATIENCE) -> bool:
    """Whether the program ends by itself, with status 0 and these lines on standard error, beside
    those of refusals: of so many, where that is said.
    """
    try:
        out = running.communicate(timeout=patience)[0]
    except subprocess.TimeoutExpired:
        return False
    running.said.seek(0)
    told = running.said.read()
    return (running.returncode, out, REFUSED.sub(
        b"", told)) == (0, b"", err) and (refused is None or len(REFUSED.findall(told)) == refused)


def connected(running: Served, patience: int = PATIENCE) -> socket.socket:
    client = socket.create_connection(("127.0.0.1", running.port), timeout=patience)
    client.setsockopt(socket.IPPROTO_TCP, socket.TCP_NODELAY, 1)
    return client


def to_the_end(client: socket.socket) -> bytes:
    """What comes until the other side has ended its half."""
    parts = []
    while part := client.recv(65536):
        parts.append(part)
    return b"".join(parts)


def told(running: Served, sent: bytes, patience: int = PATIENCE) -> bytes:
    """What is answered to a client that sends this and ends its half."""
    with connected(running, patience) as client:
        client.sendall(sent)
        client.shutdown(socket.SHUT_WR)
        return to_the_end(client)


def root_text() -> bytes:
    """The Image repository's Root, by the rules."""
    with closing(sqlite3.connect(":memory:")) as db:
        desk = reference.Desk(db)
        for line in FIRST_PATH:
            desk.answer(line)
        return desk.one(
            "SELECT body FROM repo_file WHERE repository = 'image' AND name = 'root.json'"
        )[0].encode()


# ---- clients


def library(program: Path | str, path: Path) -> bool:
    """Python's client: five requests on one connection."""
    requests = [("GET", "/image/root.json", None), ("POST", "/director/manifest", MANIFEST),
                ("POST", "/director/manifest", b"{"), ("HEAD", "/x", None),
                ("GET", "/image/root.json?a=%20", b"body")]
    with served(program, path, 1) as running:
        client = http.client.HTTPConnection("127.0.0.1", running.port, timeout=PATIENCE)
        answers = []
        for method, target, body in requests:
            client.request(method, target, body)
            came = client.getresponse()
            answers.append((came.status, came.read()))
        client.close()
        root = (200, root_text())
        return answers == [
            root, (200, REPLY), (400, b'{"error":5,"text":"NotJson"}'),
            (404, b""), root] and ended(running)


def before_founding(program: Path | str, _: Path) -> bool:
    """Before founding a file is unavailable."""
    with served(program, ":memory:", 1) as running:
        wanted = answer(b"503 Service Unavailable", b'{"error":8,"text":"NotFounded"}')
        return told(running, GET_ROOT) == wanted and ended(running)


def half_closed(program: Path | str, path: Path) -> bool:
    """A client that ends its half, then reads."""
    with served(program, path, 1) as running:
        return told(running, 2 * NO_FILE + POST % len(MANIFEST) +
                    MANIFEST) == 2 * OPEN + KEPT and ended(running)


def silent(program: Path | str, path: Path) -> bool:
    """A client that sends nothing is answered nothing."""
    with served(program, path, 2) as running:
        return told(running, b"") == b"" and told(running, NO_FILE) == OPEN and ended(running)


def held_open(program: Path | str, path: Path) -> bool:
    """A client that asks for the connection to be closed, and keeps its half open: it is
    answered, and soon so is the next one.
    """
    with served(program, path, 2) as running, connected(running) as first:
        begun = time.monotonic()
        first.sendall(closing_one(NO_FILE))
        well = to_the_end(first) == CLOSED
        with connected(running) as second:
            second.sendall(closing_one(NO_FILE))
            well = well and to_the_end(second) == CLOSED and time.monotonic() - begun < SILENCE - 2
            return well and ended(running)


def unread(program: Path, path: Path) -> bool:
    """A client whose bytes are not all read gets its answer, and no reset."""
    with served(program, path, 1) as running:
        return told(running, POST % 262145 + 65 * 65536 * b" ") == TOO_LARGE and ended(running)


def behind_the_last(program: Path, path: Path) -> bool:
    """What follows a request that closes the connection is not answered, and no reset."""
    with served(program, path, 1) as running:
        return told(running, NO_FILE + closing_one(NO_FILE) +
                    10_000 * NO_FILE) == OPEN + CLOSED and ended(running)


def half_a_head(program: Path, path: Path) -> bool:
    """A client that leaves in the middle of a head; the next one is served."""
    with served(program, path, 2) as running:
        return told(running, b"GET /image/no") == BAD and told(running,
                                                               NO_FILE) == OPEN and ended(running)


def half_a_body(program: Path, path: Path) -> bool:
    """A client that leaves in the middle of a body; the next one is served."""
    with served(program, path, 2) as running:
        well = told(running, POST % len(MANIFEST) + MANIFEST[:-1]) == BAD
        return well and told(running, POST % len(MANIFEST) + MANIFEST) == KEPT and ended(running)


def reset(program: Path, path: Path) -> bool:
    """A connection that is reset is a fault that is told, and the next one is served."""
    with served(program, path, 2) as running:
        with connected(running) as client:
            client.sendall(NO_FILE)
            well = client.recv(len(OPEN), socket.MSG_WAITALL) == OPEN
            client.setsockopt(socket.SOL_SOCKET, socket.SO_LINGER, struct.pack("ii", 1, 0))
        well = well and told(running, NO_FILE) == OPEN
        return well and ended(running, b"uptane_desk: connection 1: read\n")


def gone(program: Path, path: Path) -> bool:
    """A client that is gone before its answers are written is a fault that is told, and the next
    one is served.
    """
    with served(program, path, 2) as running:
        with connected(running) as client:
            client.setsockopt(socket.SOL_SOCKET, socket.SO_RCVBUF, 4096)
            client.sendall(99 * (POST % len(MANIFEST) + MANIFEST))
            client.setsockopt(socket.SOL_SOCKET, socket.SO_LINGER, struct.pack("ii", 1, 0))
        well = told(running, NO_FILE) == OPEN
        return well and any(
            ended(running, b"uptane_desk: connection 1: %s\n" % cause)
            for cause in (b"read", b"write"))


def hundredth(program: Path, path: Path) -> bool:
    """A connection ends with its hundredth request."""
    with served(program, path, 1) as running, connected(running) as client:
        client.sendall(101 * NO_FILE)
        return to_the_end(client) == 99 * OPEN + CLOSED and ended(running, refused=60)


def byte_by_byte(program: Path, path: Path) -> bool:
    """A request that comes a byte at a time."""
    with served(program, path, 1) as running, connected(running) as client:
        for byte in NO_FILE + POST % len(MANIFEST) + MANIFEST:
            client.sendall(bytes([byte]))
        client.shutdown(socket.SHUT_WR)
        return to_the_end(client) == OPEN + KEPT and ended(running)


def no_listener(program: Path, path: Path) -> bool:
    """A port that is taken."""
    with socket.socket() as taken:
        taken.bind(("127.0.0.1", 0))
        taken.listen()
        words = [str(program), "serve", str(path), str(taken.getsockname()[1]), "1"]
        ran = subprocess.run(words, capture_output=True, check=False, timeout=PATIENCE)
    return (ran.returncode, ran.stdout, ran.stderr) == (4, b"", b"uptane_desk: cannot listen\n")


def second_program(program: Path, path: Path) -> bool:
    """While it serves, a second program on its file is refused."""
    with served(program, path, 1) as running:
        refused = trials.run(program, path, FIRST_PATH) == (3, b"", trials.UNOPENED["locked"])
        return refused and told(running, NO_FILE) == OPEN and ended(running)


# ---- what no contract says: where it listens, when it reads the clock, and when it answers


def other_addresses() -> list[str]:
    """Addresses of this machine other than 127.0.0.1: another of the same network, that of the
    name of the machine, and those by which it would send to others, for which nothing is sent.
    """
    found = {"127.0.0.2", "::1"}
    with contextlib.suppress(OSError):
        found.add(socket.gethostbyname(socket.gethostname()))
    for family, other in ((socket.AF_INET, "192.0.2.1"), (socket.AF_INET6, "2001:db8::1")):
        with contextlib.suppress(OSError), socket.socket(family, socket.SOCK_DGRAM) as asked:
            asked.connect((other, 9))
            found.add(asked.getsockname()[0])
    return sorted(found - {"127.0.0.1"})


def accepts(address: str, port: int) -> bool:
    """Whether a connection to this address and port is accepted."""
    with contextlib.suppress(OSError), socket.create_connection((address, port), timeout=PATIENCE):
        return True
    return False


def listed_as_listening(port: int) -> list[str]:
    """The addresses at which the kernel lists this port as listening, as it writes them."""
    found = []
    for file in map(Path, ("/proc/net/tcp", "/proc/net/tcp6")):
        rows = [line.split() for line in file.read_text(encoding="ascii").splitlines()[1:]
                ] if file.exists() else []
        found += [
            row[1].split(":")[0] for row in rows
            if row[3] == "0A" and int(row[1].split(":")[1], 16) == port]
    return found


def loopback_alone(program: Path, path: Path) -> bool:
    """It listens on 127.0.0.1 alone, by the kernel's list too, and is refused at other addresses
    of the machine.
    """
    with served(program, path, 1) as running:
        well = not [it for it in other_addresses() if accepts(it, running.port)]
        if Path("/proc/net/tcp").exists():
            # (an address of the kernel's list is a number in the machine's own order of bytes)
            well = well and listed_as_listening(running.port) == [
                "%08X" % struct.unpack("=I", socket.inet_aton("127.0.0.1"))[0]]
        return well and told(running, NO_FILE) == OPEN and ended(running)


def next_manifest(counter: int) -> bytes:
    """The body of the small Primary's manifest of this counter."""
    given = json.loads(GIVEN)
    given["counter"] = given["reports"][0]["counter"] = counter
    return primary(None, "build", given=json.dumps(given).encode())[1]


def delivered(client: socket.socket, body: bytes) -> int:
    """The moment at which a manifest was answered on this connection, by the reply's Timestamp,
    which expires seven days later.
    """
    client.sendall(POST % len(body) + body)
    came = http.client.HTTPResponse(client)
    came.begin()
    expires = json.loads(came.read())["timestamp"]["signed"]["expires"]
    return calendar.timegm(time.strptime(expires, "%Y-%m-%dT%H:%M:%SZ")) - 7 * 86400


def clock_once(program: Path, path: Path) -> bool:
    """Two manifests on one connection, more than a second apart, have one moment, and one on the
    next connection a later one.
    """
    begun = int(time.time())
    with served(program, path, 2) as running:
        with connected(running) as first:
            moments = [delivered(first, next_manifest(2))]
            time.sleep(1.2)
            moments.append(delivered(first, next_manifest(3)))
        with connected(running) as second:
            moments.append(delivered(second, next_manifest(4)))
        well = ended(running)
    with trials.read(path) as db:
        kept = [
            row[0]
            for row in db.execute("SELECT moment FROM kept WHERE version > 1 ORDER BY version")]
    return well and kept == moments and begun <= moments[0] == moments[1] < moments[2] <= time.time(
    )


def early_clock(program: str | Path, path: str | Path, library: Any) -> bool:
    """Where the clock tells a time before 1970, the moment is 0."""
    with served(
            program, path, 1,
        {"LD_PRELOAD": str(library), "EARLY_CLOCK": "1"}) as running, connected(running) as client:
        moment = delivered(client, next_manifest(2))
        client.close()
        well = ended(running)
    with trials.read(path) as db:
        return well and [moment] == [
            row[0] for row in db.execute("SELECT moment FROM kept WHERE version > 1")] == [0]


def once_whole(program: Path, path: Path) -> bool:
    """Each request is answered as soon as it is whole, while the next one is still cut."""
    half, silence = len(MANIFEST) // 2, 1
    with served(program, path, 1) as running, connected(running, SILENCE - 2) as client:
        client.sendall(NO_FILE + POST % len(MANIFEST) + MANIFEST[:half])
        well = client.recv(len(OPEN), socket.MSG_WAITALL) == OPEN and not select.select(
            [client], [], [], silence)[0]
        client.sendall(MANIFEST[half:] + NO_FILE[:1])
        well = well and client.recv(len(KEPT), socket.MSG_WAITALL) == KEPT and not select.select(
            [client], [], [], silence)[0]
        client.sendall(NO_FILE[1:])
        return well and client.recv(len(OPEN), socket.MSG_WAITALL) == OPEN


# ---- clients that hold the connection

OTHERS = 3


def outlived(program: str, path: Path, first: Callable[..., Any], kind: bytes | None, least: int,
             most: int, variables: dict[str, str] | None = None) -> bool:
    """Whether, while the first client does what it does, others are answered at once, its
    connection ends between so many and so many seconds after it came, and what is told of it is
    that a read or a write failed, or nothing.
    """
    with served(program, path, 1 + OTHERS, variables) as running, connected(running) as held:
        begun, left = time.monotonic(), threading.Event()
        holder = threading.Thread(target=quietly, args=(first, held, left))
        holder.start()
        others = [timed(running) for _ in range(OTHERS)]
        well = ended(running, b"uptane_desk: connection 1: %s\n" % kind if kind else b"",
                     patience=most)
        after = time.monotonic() - begun
        left.set()
        holder.join()
    return well and least < after < most and all(
        came == OPEN and waited < SOON for came, waited in others)


def timed(running: Served) -> tuple[bytes, float]:
    """What one that sends a request is answered, and after how many seconds."""
    begun = time.monotonic()
    return told(running, NO_FILE), time.monotonic() - begun


def quietly(first: Callable[..., Any], held: socket.socket, left: threading.Event) -> None:
    """Lets a client do what it does, until it is closed."""
    with contextlib.suppress(OSError):
        first(held, left)


def sends_nothing(held: socket.socket, left: threading.Event) -> None:
    """sends nothing"""
    left.wait()


def idle(held: socket.socket, left: threading.Event) -> None:
    """sends nothing after its answer"""
    held.sendall(NO_FILE)
    left.wait()


def half_of_a_body(held: socket.socket, left: threading.Event) -> None:
    """sends half of a body"""
    held.sendall(POST % len(MANIFEST) + MANIFEST[:len(MANIFEST) // 2])
    left.wait()


def reads_nothing(held: socket.socket, left: threading.Event) -> None:
    """reads nothing of a hundred large answers"""
    held.setsockopt(socket.SOL_SOCKET, socket.SO_RCVBUF, 4096)
    held.sendall(100 * GET_TARGETS)
    left.wait()


def drips(held: socket.socket, left: threading.Event) -> None:
    """sends a byte a second"""
    for byte in 20 * NO_FILE:
        held.sendall(bytes([byte]))
        if left.wait(1):
            return


def sips(held: socket.socket, left: threading.Event) -> None:
    """takes a little each second of a hundred large answers"""
    held.setsockopt(socket.SOL_SOCKET, socket.SO_RCVBUF, 4096)
    held.sendall(100 * GET_TARGETS)
    while not left.wait(1):
        held.recv(1024)


def goes_on(held: socket.socket, left: threading.Event) -> None:
    """goes on sending after its last answer"""
    held.sendall(closing_one(NO_FILE))
    while not left.wait(0.5):
        held.sendall(b" ")


GET_TARGETS = b"GET /image/targets.json HTTP/1.1\r\nHost: d\r\n\r\n"
SILENT = [(sends_nothing, b"read"), (idle, b"read"), (half_of_a_body, b"read"),
          (reads_nothing, b"write")]
SLOW = [(drips, b"read"), (sips, b"write")]
# a system that keeps more and more of what isn't read takes a part after some waits; and it may not
# see that a little was taken
WAITS, LEAST = {b"read": 1, b"write": 4}, {b"read": WHOLE - 2, b"write": SILENCE - 2}


def many_images(program: Any, path: Path) -> Path:
    """A file whose Image repository has so large a Targets file that a hundred don't fit into
    what systems keep for a connection.
    """
    kinds = ["hardware-%02d-%s" % (number, 48 * "x") for number in range(16)]
    lines = [fleet.line("found", **fleet.key_set(1))]
    for number in range(60):
        told = {
            "file": "%03d.bin" % number, "length": 1, "sha256": fleet.digest(str(number)),
            "hardware": kinds, "release": number}
        lines.append(fleet.line("add_image", **told))
    assert trials.printed(program, path, lines, 600) == len(lines) * ["done"]
    return path


def clock_in(own: Path) -> Path:
    """The library that sets a program's clocks, made in this folder where it isn't there."""
    library, source = own / "fast_clock.so", Path(__file__).resolve().parent / "fast_clock.c"
    if not library.exists():
        subprocess.run(
            ["cc", "-shared", "-fPIC", "-O1", "-o",
             str(library), str(source)], check=True)
    return library


def holding(program: str, own: Path, whole: bool) -> Iterator[Any]:
    """What to try of the clients that hold the connection: the words of each case, and what is
    called for it.
    """
    large = many_images(program, own / "large")
    tried: list[Any] = [] if whole else [
        (first, kind, SILENCE - 2, WAITS[kind] * SILENCE + SLACK, None) for first, kind in SILENT]
    tried += [] if whole else [(goes_on, None, GOING_ON - 2, GOING_ON + SLACK, None)]
    if whole:
        tried += [(first, kind, LEAST[kind], WHOLE + SILENCE + SLACK, None) for first, kind in SLOW]
    elif shutil.which("cc"):
        faster = {"LD_PRELOAD": str(clock_in(own)), "FAST_CLOCK": str(FAST)}
        tried += [(first, kind, LEAST[kind] // FAST - 2, WHOLE // FAST + SILENCE + SLACK, faster)
                  for first, kind in SLOW]
    else:
        print("no C compiler, so no client that sends or takes a byte now and then")
    for first, *told in tried:
        path = trials.copied(large, own / first.__name__)
        yield "a client that %s holds nobody up, and ends" % first.__doc__, (program, path, first,
                                                                             *told)


CROWD = 100


def beside_a_crowd(program: str, path: Path) -> bool:
    """A hundred clients that send nothing, a hundred that send a byte a second and a hundred that
    read nothing of their answers, which are more than there are places: others are answered.
    """
    with served(program, path, 100_000) as running, contextlib.ExitStack() as up:
        silent, slow, deaf = (
            [up.enter_context(connected(running)) for _ in range(CROWD)] for _ in range(3))
        for client in deaf:
            client.setsockopt(socket.SOL_SOCKET, socket.SO_RCVBUF, 4096)
            client.sendall(99 * GET_TARGETS)
        waits = []
        for at in range(20):
            for client in slow:
                with contextlib.suppress(OSError):
                    client.sendall(NO_FILE[at:at + 1])
            came, waited = timed(running)
            waits.append(waited)
            if came != OPEN:
                return False
            time.sleep(max(0, 1 - waited))
        print(
            "beside %d clients the slowest of %d waited %.2f seconds" %
            (sum(map(len, (silent, slow, deaf))), len(waits), max(waits)), flush=True)
        return max(waits) < SOON


# ---- the small Primary and curl


def primary(running: Any, *asked: str, given: bytes) -> tuple[int, bytes]:
    words = [sys.executable, str(PRIMARY / "primary.py"), *asked]
    words += ["http://127.0.0.1:%d" % running.port] if words[-1] == "send" else []
    ran = subprocess.run(words, input=given, capture_output=True, check=False, timeout=PATIENCE)
    return ran.returncode, ran.stdout.strip()


def small_primary(program: Path, path: Path) -> bool:
    """The small Primary posts its manifest and is answered by the kept reply, then its next one
    and checks the reply.
    """
    after = json.loads(GIVEN)
    after["counter"] = after["reports"][0]["counter"] = 2
    with served(program, path, 3) as running:
        well = primary(running, "send", given=GIVEN) == (0, REPLY)
        status, reply = primary(running, "send", given=json.dumps(after).encode())
        well = well and status == 0 and json.loads(reply)["version"] == 2
        well = well and primary(running, "check", str(VERIFIES), given=reply)[0] == 0
        after["reports"][0]["key"] = 64 * "e"
        after["counter"] = 3
        refused = 1, b'403 {"error":17,"text":"BadReportSignature P1"}'
        return well and primary(running, "send",
                                given=json.dumps(after).encode()) == refused and ended(running)


def by_curl(words: list[str]) -> str:
    """What this `curl -i` shows."""
    ran = subprocess.run([*words, "-s", "-m", str(PATIENCE)], capture_output=True, check=False,
                         cwd=PRIMARY)
    return ran.stdout.decode("ascii").replace("\r\n", "\n")


def by_library(words: list[str]) -> str:
    """The same by Python's client: `curl -i`, a body or the name of its file behind `-d` or
    `--data-binary`, and the target.
    """
    *_, given, target = words
    body = (PRIMARY / given[1:]
            ).read_bytes() if given.startswith("@") else given.encode() if "-d" in words else None
    asked = urllib.parse.urlsplit(target)
    with closing(http.client.HTTPConnection(asked.netloc, timeout=PATIENCE)) as client:
        client.request("GET" if body is None else "POST", asked.path, body)
        came = client.getresponse()
        lines = ["HTTP/1.1 %d %s" % (came.status, came.reason), *map(": ".join, came.getheaders())]
        return "\n".join(lines) + "\n\n" + came.read().decode("ascii")


def exchange(program: Path, path: Path, client: Callable[..., Any], asked: str,
             wanted: str) -> bool:
    with served(program, path, 1) as running:
        came = client(shlex.split(asked.replace(":8080", ":%d" % running.port)))
        return came.strip() == wanted and ended(running)


def exchanges(program: Any, path: Path) -> trials.Cases:
    """The exchanges that the page shows, as Python's client sees them, and `curl` where it is
    installed.
    """
    page = (trials.TOP / "docs" / "integrate" / "HTTP.md").read_text(encoding="ascii")
    blocks = re.findall(r"^    \$ (curl [^\n]*)\n((?:    [^\n]*\n|\n(?=    ))*)", page, re.M)
    yield "the page shows three exchanges", len(blocks) == 3
    for asked, shown in blocks:
        wanted = re.sub("(?m)^    ", "", shown).strip()
        for client in [by_library, by_curl] if shutil.which("curl") else [by_library]:
            well = goes_well(exchange, program, path, client, asked, wanted)
            yield "`%s` %s" % (asked, client.__name__.replace("_", " ")), well


CLIENTS = [
    library, before_founding, half_closed, silent, held_open, unread, behind_the_last, half_a_head,
    half_a_body, reset, gone, hundredth, byte_by_byte, no_listener, second_program, small_primary,
    loopback_alone, clock_once, once_whole]


def goes_well(case: Callable[..., Any], *given: Any) -> bool:
    """Whether a case goes well, and its connections too."""
    try:
        return case(*given)
    except (OSError, http.client.HTTPException):
        return False


def cases(program: str, whole: bool = False) -> Iterator[Any]:
    """Each case with whether the program does as the page says."""
    with trials.folder() as own, ThreadPoolExecutor(8) as pool:
        trials.printed(program, own / "first", FIRST_PATH)
        held = [(words, pool.submit(goes_well, outlived, *given))
                for words, given in holding(program, own, whole)]
        for client in [] if whole else CLIENTS:
            path = trials.copied(own / "first", own / client.__name__)
            yield client.__doc__.strip().rstrip("."), goes_well(client, program, path)
        if not whole:
            path = trials.copied(own / "large", own / "crowd")
            yield "others are answered beside three hundred clients that hold their connections", (
                goes_well(beside_a_crowd, program, path))
        if shutil.which("cc") and not whole:
            path = trials.copied(own / "first", own / "early_clock")
            yield early_clock.__doc__.rstrip("."), goes_well(early_clock, program, path,
                                                             clock_in(own))
        # (the page shows texts that HMAC signed)
        if not whole and reference.METHOD == "hmac-sha256":
            yield from exchanges(program, own / "first")
        for words, well in held:
            yield words, well.result()


def main(words: arguments.Words = None) -> int:
    """Tries the program that is named."""
    asked = arguments.given(__doc__, words, "program", order=["part", "whole"])
    return trials.judged("HTTP", cases(asked.program, asked.order == "whole"))
