"""Kills the program while many clients send manifests at once, and looks at what is left.

    tools/run crowd_kills PROGRAM [NUMBER [KILLS [CLIENTS [LINES]]]]

Each of NUMBER (20,000) vehicles sends a manifest, by 64 CLIENTS at once, a connection each: one in
ten sends it again behind its answer, one in ten twice at once, and one in ten is cut off anywhere
first, also behind the last byte. The program is killed (SIGKILL) KILLS (10) times meanwhile, each
time behind a number of answers that is drawn, and started again over the file; what wasn't
answered whole is sent again. Meanwhile an operator's script of LINES (1,000) goes through the
socket (`tell`), behind a kill from the first line that has no answer; now and then it offers all
vehicles a newer image. In the end each manifest is kept once, whatever was answered is kept, each
repeat got the bytes of the first reply; each line was answered as by the rules, or as when it is
given twice; a manifest was offered an image where the line before it was carried out, and none
whose line wasn't given yet; and the tables are those of the plain reference, which is given the
lines, and between them the manifests at the moments that were kept.

promise: one-call, connections-at-once
"""
import os
import random
import re
import signal
import sqlite3
import time
from collections import Counter
from collections.abc import Iterator
from contextlib import closing
from dataclasses import replace
from pathlib import Path
from typing import Any

from uptane_tools import arguments
from uptane_tools.measure import fleet, http_fleet, speed
from uptane_tools.oracle import reference
from uptane_tools.trial import crowd, http_cases, telling, trials

PATIENCE = 600
CONNECTIONS = 1_000_000


def filled(number: int) -> list[str]:
    """Founding, so many vehicles, and a campaign that offers each ECU an image."""
    image = {
        "file": "offered.bin", "length": 1, "sha256": fleet.digest("offered"), "hardware": ["HP"]}
    items = [{"hardware": "HP", "file": "offered.bin"}]
    return [
        *speed.prepared(number, 1, 0),
        fleet.line("add_image", **image, release=1),
        fleet.line("open_campaign", campaign="all", vehicles="all", items=items)]


def made(number: int) -> list[bytes]:
    """A manifest of each vehicle."""
    return [
        http_cases.json.loads(line)["body"].encode("ascii")
        for line in speed.manifests(number, number)]


class Senders:
    """What clients send, and what they were answered."""

    def __init__(self, bodies: list[bytes], rng: random.Random) -> None:
        self.rng, self.answers = rng, [list[bytes]() for _ in bodies]
        self.came: Counter[str] = Counter()
        self.asked: list[crowd.Exchange] = []
        self.again: set[int] = set()
        # when each manifest was first sent, and first answered
        self.begun: dict[int, float] = {}
        self.ended: dict[int, float] = {}
        for name, body in enumerate(bodies):
            sent = http_cases.closing_one(http_cases.POST % len(body) + body)
            one, how = crowd.Exchange(sent, name), rng.random()
            if how < 0.1:
                self.again.add(name)
            elif how < 0.2:
                self.asked.append(one)
                one = replace(one)
            elif how < 0.3:
                one.cut = rng.choice([rng.randrange(len(sent)), len(sent)])
            self.asked.append(one)

    def heard(self, it: crowd.Exchange) -> crowd.Exchange | None:
        """What the client sends next, where it does."""
        self.begun[it.name] = min(it.begun, self.begun.get(it.name, it.begun))
        if it.cut is not None:
            self.came["cut off"] += 1
            return replace(it, cut=None, came=b"", broke=False)
        if not it.is_answered():
            self.came["not answered"] += 1
            return replace(it, came=b"", broke=False)
        self.answers[it.name].append(it.came)
        self.ended.setdefault(it.name, it.ended)
        if it.name in self.again:
            self.again.remove(it.name)
            return replace(it, came=b"")
        return None

    def answered(self) -> int:
        return sum(map(len, self.answers))


def delivered(program: Path, path: Path, senders: Senders, kills: int, clients: int,
              operators: Path) -> int:
    """Sends all of it; how often the program was killed."""
    rng, killed = senders.rng, 0
    moments = sorted(rng.sample(range(1, len(senders.asked)), kills))
    with crowd.Crowd(None, clients) as many:
        many.ask(*senders.asked)
        while many.waiting:
            with http_cases.served(program, path, CONNECTIONS, operators=operators) as running:
                many.port = running.port
                for it in many.took():
                    again = senders.heard(it)
                    many.ask(*([again] if again else []))
                    if many.port and moments and senders.answered() >= moments[0]:
                        moments.pop(0)
                        time.sleep(rng.random() * 0.005)
                        os.kill(running.pid, signal.SIGKILL)
                        many.port, killed = None, killed + 1
    return killed


def offered(reply: str) -> int:
    """The number of the line that offered the image which a reply assigns; 0 for the first one."""
    named = re.search(r'"offer-(\d+)\.bin"', reply)
    return int(named[1]) if named else 0


def in_time(senders: Senders, operator: telling.Operator, name: int, line: int) -> bool:
    """Whether a manifest could meet the offer of this line as the newest: it was given before the
    answer came, and the next one wasn't answered before the manifest was sent.
    """
    after = operator.ended.get(line + telling.OFFERS_EACH)
    return (not line
            or operator.begun[line] <= senders.ended[name]) and (after is None
                                                                 or after >= senders.begun[name])


def by_the_rules(lines: list[str], bodies: list[bytes], kept: dict[Any, tuple[int, int]],
                 operator: telling.Operator) -> tuple[dict[str, list[tuple[Any, ...]]], list[int]]:
    """The rows of the plain reference behind all lines and manifests, each manifest behind the
    offer that it met and at its moment; and the lines that were answered otherwise.
    """
    others, by_offer = [], dict[int, list[bytes]]()
    for body in bodies:
        by_offer.setdefault(kept[http_fleet.named(body)][0], []).append(body)
    with closing(sqlite3.connect(":memory:")) as db:
        desk = reference.Desk(db)

        def deliver(offer: int) -> None:
            for body in by_offer.get(offer, []):
                at = kept[http_fleet.named(body)][1]
                assert desk.answer(fleet.line("deliver", at,
                                              body=body.decode("ascii"))).startswith("reply ")

        for line in lines:
            assert desk.answer(line) == "done", line
        deliver(0)
        for number, _, is_well in telling.by_the_rules(desk, operator):
            others += [] if is_well else [number]
            deliver(number)
        return trials.rows_in(db), others


def looked_at(path: Path, lines: list[str], bodies: list[bytes], senders: Senders,
              operator: telling.Operator) -> Iterator[tuple[str, bool]]:
    """What is left, and what was answered."""
    replies, moments = (http_fleet.kept(path, it) for it in ("reply", "moment"))
    yield "each manifest is kept once", len(replies) == len(bodies) and set(replies) == {
        http_fleet.named(body) for body in bodies}
    yield "each answer is the kept reply, a repeat's too", all(
        set(answers) == {
            http_cases.answer(b"200 OK", replies[http_fleet.named(body)].encode("ascii"), True)}
        for body, answers in zip(bodies, senders.answers))
    kept = {name: (offered(reply), moments[name]) for name, reply in replies.items()}
    met = {offer for offer, _ in kept.values()}
    yield "each met the offers of its time, %d in all" % len(met), all(
        in_time(senders, operator, name, kept[http_fleet.named(body)][0])
        for name, body in enumerate(bodies))
    rows, others = by_the_rules(lines, bodies, kept, operator)
    for number in others[:5]:
        print("line %d: %s" % (number, operator.answers[number - 1]))
    yield "each line was answered as by the rules", not others
    yield "the tables are those of the rules", trials.rows(path) == rows
    yield "SQLite finds the file whole", trials.faults(path) == []


def cases(program: Path, number: int = 20_000, kills: int = 10, clients: int = 64,
          lines: int = 1000) -> Iterator[tuple[str, bool]]:
    before, bodies = filled(number), made(number)
    senders = Senders(bodies, random.Random(7))
    with trials.folder() as own:
        path, operators = own / "desk", own / "socket"
        yield "%d lines that fill a file" % len(before), trials.printed(
            program, path, before, PATIENCE) == len(before) * ["done"]
        operator = telling.Operator(operators, telling.lines(lines),
                                    lambda: 1 + senders.answered() * lines // number)
        operator.start()
        killed = delivered(program, path, senders, kills, clients, operators)
        with http_cases.served(program, path, CONNECTIONS, operators=operators):
            operator.join(PATIENCE)
            operator.stops.set()
        yield "%d kills while %d clients sent %d manifests" % (
            killed, clients, number), killed == kills and senders.came["not answered"] >= kills
        print("%d answers; %s; lines again from %s" % (senders.answered(), ", ".join(
            "%d %s" % (many, what)
            for what, many in sorted(senders.came.items())), operator.begins[1:]))
        is_whole = len(operator.answers) == lines
        yield "%d lines of an operator meanwhile" % lines, is_whole
        if is_whole:
            yield from looked_at(path, before, bodies, senders, operator)


def main(words: arguments.Words = None) -> int:
    """Tries the program that is named."""
    return trials.tried(__doc__, words, "crowd", cases, number=20_000, kills=10, clients=64,
                        lines=1000)
