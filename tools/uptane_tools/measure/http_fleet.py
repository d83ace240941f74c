"""Sends a fleet's day over HTTP and compares what it leaves with the same deliveries by script.
Bounded to a minute.

    tools/run http_fleet PROGRAM [MANIFESTS [KILLS]]

A script founds and fills a file. The manifests of the fleet, at least MANIFESTS (1,000) of them,
a fifth of which come again, go through one start of the program, a hundred a connection. Then
the table `kept` tells the moment of each, and a script delivers the very same bodies, in the
same order, each at that moment, over a copy of the file: every table has to be the same, byte
for byte, and every answer the reply that was kept.

Then the program is killed (SIGKILL) at KILLS moments (20) while it is sent manifests: each reply
that came is the one that is kept, and SQLite finds the file whole.

promise: one-call
"""
import contextlib
import itertools
import json
import os
import random
import signal
import time
from collections.abc import Iterator
from pathlib import Path
from typing import Any

from uptane_tools import arguments
from uptane_tools.measure import fleet
from uptane_tools.trial import http_cases, trials

A_CONNECTION = 100
# bytes: what no answer to an accepted manifest is shorter than
AN_ANSWER = 1000


def day(number: int) -> tuple[list[str], list[bytes]]:
    """The lines that fill a file, and the bodies that are delivered over it, in order."""
    vehicles, ecus = 40, 3
    words: dict[str, Any] = {
        "images": 12, "campaigns": 4, "seed": 5, "second_hashes": 0.7, "deliver": True}
    lines = list(fleet.script(vehicles, ecus, -(-number // vehicles), **words))
    bodies = [json.loads(line)["body"].encode() for line in lines if '"do":"deliver"' in line]
    return [line for line in lines if '"do":"deliver"' not in line and '"do":"show"' not in line
            ], bodies


def posted(running: http_cases.Served, bodies: list[bytes]) -> bytes:
    """What is answered to these bodies, sent on one connection."""
    return http_cases.told(running, b"".join(http_cases.POST % len(body) + body for body in bodies))


def hundreds(bodies: list[bytes]) -> list[list[bytes]]:
    return [bodies[at:at + A_CONNECTION] for at in range(0, len(bodies), A_CONNECTION)]


def named(body: bytes) -> tuple[Any, Any]:
    """The vehicle and the counter of a manifest."""
    signed = json.loads(body)["signed"]
    return signed["vehicle"], signed["counter"]


def kept(path: str | Path, what: Any) -> dict[Any, Any]:
    with trials.read(path) as db:
        return {
            row[:2]: row[2] for row in db.execute("SELECT vehicle, counter, %s FROM kept" % what)}


def over_http(program: Any, path: Any, bodies: list[bytes]) -> list[bytes] | None:
    """The answers, a text for each connection; none where the program didn't end well."""
    parts = hundreds(bodies)
    with http_cases.served(program, path, len(parts)) as running:
        answers = [posted(running, part) for part in parts]
        return answers if http_cases.ended(running) else None


def wanted(replies: dict[tuple[str, int], str], bodies: list[bytes]) -> bytes:
    """The bytes that answer the bodies of a connection by the replies that were kept."""

    def closes(number: int) -> bool:
        return number == A_CONNECTION

    return b"".join(
        http_cases.answer(b"200 OK", replies[named(body)].encode(), closes(number))
        for number, body in enumerate(bodies, 1))


def alike(program: Path, own: Path, number: int) -> Iterator[tuple[str, bool]]:
    lines, bodies = day(number)
    path, script = own / "served", own / "script"
    yield "%d lines that fill a file" % len(lines), trials.printed(program, path, lines) is not None
    trials.copied(path, script)
    answers = over_http(program, path, bodies)
    moments, replies = kept(path, "moment"), kept(path, "reply")
    accepted = "%d manifests, of which %d came again" % (len(bodies), len(bodies) - len(replies))
    yield accepted, len(replies) >= number and {named(body) for body in bodies} == set(replies)
    yield "each is answered by its kept reply", answers == [
        wanted(replies, part) for part in hundreds(bodies)]
    now = time.time()
    yield "at the moments of the clock", all(
        now - 600 < moment <= now for moment in moments.values())
    again = [
        fleet.line("deliver", moments[named(body)], body=body.decode("ascii")) for body in bodies]
    printed = trials.printed(program, script, again)
    yield "the same by script", printed is not None and all(
        line.startswith("reply ") for line in printed)
    yield "leaves the same rows in every table", trials.rows(script) == trials.rows(path)
    yield "SQLite finds both whole", trials.faults(path) == trials.faults(script) == []


# ---- kills


def killed(program: str | Path, path: str | Path, bodies: list[bytes], rng: random.Random) -> bytes:
    """What came of the answers to these bodies until the program was killed."""
    with http_cases.served(program, path, 1) as running, http_cases.connected(running) as client:
        client.sendall(b"".join(http_cases.POST % len(body) + body for body in bodies))
        came, enough = b"", rng.randrange(AN_ANSWER * len(bodies))
        while len(came) < enough and (part := client.recv(enough - len(came))):
            came += part
        time.sleep(rng.random() * 0.003)
        os.kill(running.pid, signal.SIGKILL)
        with contextlib.suppress(ConnectionError):
            came += http_cases.to_the_end(client)
    return came


def is_kept(program: str | Path, path: str | Path, bodies: list[bytes], came: bytes) -> bool | Any:
    """Whether the answers that came before a kill are those of the replies that are kept, and
    stay so.
    """
    whole, replies = trials.faults(path) == [], kept(path, "reply")
    accepted = list(itertools.takewhile(lambda body: named(body) in replies, bodies))
    first = wanted(replies, accepted).startswith(came) and {*map(named, accepted)} == {*replies}
    again = over_http(program, path, bodies)
    return whole and first and again == [wanted(kept(path, "reply"), bodies)
                                         ] and again[0].startswith(came)


def kills(program: str | Path, own: Path, number: int) -> Iterator[tuple[str, bool]]:
    lines, bodies = day(80)
    trials.printed(program, own / "filled", lines)
    rng, stopped, bodies = random.Random(3), 0, bodies[:A_CONNECTION]
    for at in range(number):
        path = trials.copied(own / "filled", own / ("killed%d" % at))
        came = killed(program, path, bodies, rng)
        stopped += len(kept(path, "reply")) < len({*map(named, bodies)})
        if not is_kept(program, path, bodies, came) or trials.faults(path):
            yield "killed after %d bytes of answers" % len(came), False
    yield "%d kills, %d of them before the last manifest" % (number, stopped), stopped > number // 2


def cases(program: Path, number: int = 1000, times: int = 20) -> Iterator[tuple[str, bool]]:
    with trials.folder() as own:
        yield from alike(program, own, number)
        yield from kills(program, own, times)


def main(words: arguments.Words = None) -> int:
    """Tries the program that is named."""
    return trials.tried(__doc__, words, "fleet", cases, manifests=1000, kills=20)
