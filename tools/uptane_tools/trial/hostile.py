"""Sends hostile requests through many connections at once, and compares each connection's answers
with the rules and with one connection at a time.

    tools/run hostile PROGRAM [NUMBER [CLIENTS [FIRST]]]

NUMBER (1,000,000) requests, some four a connection, 64 CLIENTS at once: heads with bytes that are
damaged anywhere, bodies that are no manifest, manifests that are damaged, one that is known, files
that are there and that aren't, methods and lengths that don't fit; each connection's bytes are cut
anywhere, and some clients leave in the middle. None of them changes anything: so what each is
answered is known, whoever is before it. A tenth of them goes through one connection at a time too.
In the end the file has the rows that it had, and the program still serves. Another FIRST (1) draws
others.

promise: one-call, connections-at-once
"""
import contextlib
import random
import sqlite3
from collections import Counter
from contextlib import closing
from pathlib import Path

from uptane_tools import arguments
from uptane_tools.oracle import reference
from uptane_tools.trial import crowd, fuzz, fuzz_http, http_cases, trials

BATCH, AN_EACH = 2000, 10
COUNT = 1_000_000


def posts(rng: random.Random) -> bytes:
    """Manifests that are known, damaged, or none."""
    sent = b""
    for _ in range(rng.randint(1, 4)):
        body = rng.choice([
            http_cases.MANIFEST,
            fuzz.damaged(rng, http_cases.MANIFEST), b"", b"{", b"[" * rng.randrange(300),
            http_cases.MANIFEST.replace(b'"V1"', b'"V9"'), http_cases.MANIFEST[:-2]])
        length = len(body) if rng.random() < 0.95 else rng.choice([0, len(body) + 1, 262_145])
        sent += http_cases.POST % length + body
    return sent


def stream(rng: random.Random) -> bytes:
    """The bytes of one connection, by which nothing changes."""
    how = rng.random()
    if how < 0.5:
        return fuzz_http.spoiled(rng)
    if how < 0.8:
        return posts(rng)
    asked = [http_cases.GET_ROOT, http_cases.NO_FILE, b"PUT / HTTP/1.1\r\nHost: d\r\n\r\n"]
    sent = b"".join(rng.choice(asked) for _ in range(rng.randint(1, 8)))
    return sent if how < 0.9 else sent + rng.randbytes(rng.randrange(200))


def exchanges(rng: random.Random, number: int) -> list[crowd.Exchange]:
    found = []
    for _ in range(number):
        sent = stream(rng)
        pieces = [] if rng.random() < 0.5 else crowd.cut_anywhere(rng, len(sent))
        found.append(crowd.Exchange(sent, ends=True, pieces=pieces))
        if rng.random() < 0.02:
            found[-1].cut = rng.randrange(len(sent) + 1)
    return found


def requests(came: bytes) -> int:
    return came.count(b"HTTP/1.1 ")


def differing(desk: reference.Desk, program: Path, path: Path, asked: list[crowd.Exchange],
              clients: int, said: Counter[str]) -> list[crowd.Exchange]:
    """Those that are answered otherwise than by the rules."""
    with http_cases.served(program, path, COUNT) as running:
        crowd.all_of(running.port, clients, asked)
        whole = http_cases.told(running, http_cases.NO_FILE) == http_cases.OPEN
    said["the program serves no more"] += not whole
    found = []
    for it in asked:
        wanted = fuzz_http.by_the_rules(desk, it.sent)
        said["requests"] += requests(wanted)
        said["connections"] += 1
        if it.cut is not None:
            said["cut off"] += 1
        elif it.came != wanted:
            found.append(it)
    return found


def cases(program: Path, number: int = COUNT, clients: int = 64, first: int = 1) -> trials.Cases:
    said: Counter[str] = Counter()
    others: list[crowd.Exchange] = []
    rng = random.Random(first)
    with trials.folder() as own, contextlib.ExitStack() as up:
        path = own / "desk"
        yield "a file with a manifest", trials.printed(program, path,
                                                       http_cases.FIRST_PATH) is not None
        rows = trials.rows(path)
        db = up.enter_context(closing(sqlite3.connect(trials.copied(path, own / "copy"))))
        desk = reference.Desk(db)
        while said["requests"] < number:
            batch = said["batches"]
            asked = exchanges(rng, BATCH)
            others += differing(desk, program, path, asked,
                                1 if batch % AN_EACH == AN_EACH - 1 else clients, said)
            said["batches"] += 1
        for it in others[:10]:
            print("hostile: %r\n  rules: %r\n  program: %r" %
                  (it.sent[:300], fuzz_http.by_the_rules(desk, it.sent)[:300], it.came[:300]))
        yield "%d requests by %d connections, %d of them cut off" % (
            said["requests"], said["connections"], said["cut off"]), not others
        yield "the program serves on behind each %d" % BATCH, not said["the program serves no more"]
        yield "the file has the rows that it had", trials.rows(path) == rows
        yield "SQLite finds it whole", trials.faults(path) == []


def main(words: arguments.Words = None) -> int:
    """Tries the program that is named."""
    return trials.tried(__doc__, words, "hostile", cases, number=COUNT, clients=64, first=1)
