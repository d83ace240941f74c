"""An operator's script that goes through the socket of a service that is killed now and then."""
import contextlib
import socket
import subprocess
import sys
import threading
import time
from collections.abc import Callable, Iterator
from pathlib import Path
from typing import Any

from uptane_tools.measure import fleet
from uptane_tools.oracle import reference
from uptane_tools.trial import trials

# one in so many lines offers all vehicles a newer image
OFFERS_EACH = 100


def image(name: str, kind: str, release: int) -> str:
    return fleet.line("add_image", file=name, length=1, sha256=fleet.digest(name), hardware=[kind],
                      release=release)


def opened(name: str, vehicles: Any, kind: str, file: str) -> str:
    return fleet.line("open_campaign", campaign=name, vehicles=vehicles, items=[{
        "hardware": kind, "file": file}])


def line(at: int) -> str:
    """The line of such a number: none does anything to the vehicles that send, but those that
    offer an image to all.
    """
    one, ten = at % 10, at // 10
    if at % OFFERS_EACH == OFFERS_EACH - 5:
        return image("offer-%d.bin" % (at + 5), "HP", at + 5)
    if at % OFFERS_EACH == 0:
        return opened("offer-%d" % at, "all", "HP", "offer-%d.bin" % at)
    if one < 5:
        ecus = [
            {"ecu": "n%d-%d" % (at, ecu), "hardware": "HN", "key": fleet.key(7)} for ecu in range(2)
        ]
        return fleet.line("add_vehicle", vehicle="n%d" % at, primary="n%d-0" % at, ecus=ecus)
    name = "n%d" % (10 * ten + 1)
    return [
        image("n%d.bin" % ten, "HN", ten + 1),
        opened("n%d" % ten, [name], "HN", "n%d.bin" % ten),
        fleet.line("refresh", version=1000 * (at + 1)),
        fleet.line("replace_ecu", vehicle=name, old=name + "-1", ecu=name + "-2", hardware="HN",
                   key=fleet.key(8)),
        fleet.line("show", vehicle="other")][one - 5]


def lines(number: int) -> list[str]:
    return [line(at) for at in range(1, number + 1)]


class Operator(threading.Thread):
    """Gives the lines, as many as `due` says by now, and begins again behind each kill."""

    def __init__(self, path: Path, script: list[str], due: Callable[[], int]) -> None:
        super().__init__(daemon=True)
        self.path, self.script, self.due, self.given = path, script, due, 0
        self.answers, self.begins, self.said = list[str](), list[int](), list[str]()
        self.begun: dict[int, float] = {}
        self.ended: dict[int, float] = {}
        self.stops = threading.Event()

    def run(self) -> None:
        while len(self.answers) < len(self.script) and not self.stops.is_set():
            if self.is_served():
                self.once()
            time.sleep(0.1)

    def is_served(self) -> bool:
        with contextlib.suppress(OSError), socket.socket(socket.AF_UNIX) as peer:
            peer.connect(str(self.path))
            return True
        return False

    def once(self) -> None:
        """One run of `tell`, until it ends."""
        first = len(self.answers) + 1
        words = [sys.executable, str(trials.RUN), "tell", str(self.path), "--from", str(first)]
        with subprocess.Popen(words, stdin=subprocess.PIPE, stdout=subprocess.PIPE,
                              stderr=subprocess.PIPE, text=True, bufsize=1) as running:
            writer = threading.Thread(target=self.write, args=(running, first))
            writer.start()
            for answer in running.stdout:
                self.answers.append(answer.rstrip("\n"))
                self.ended[len(self.answers)] = time.monotonic()
            status = running.wait()
            self.said += [it for it in [running.stderr.read().strip()] if it]
            writer.join()
        if status in (0, 4):
            self.begins.append(first)

    def write(self, running: Any, first: int) -> None:
        """The lines before the first are given too: `tell` leaves them out."""
        with contextlib.suppress(OSError):
            self.write_all(running, first)
        with contextlib.suppress(OSError):
            running.stdin.close()

    def write_all(self, running: Any, first: int) -> None:
        running.stdin.write("".join(it + "\n" for it in self.script[:first - 1]))
        for number in range(first, len(self.script) + 1):
            while number > self.due() and running.poll() is None and not self.stops.is_set():
                time.sleep(0.01)
            self.begun.setdefault(number, time.monotonic())
            self.given = max(self.given, number)
            running.stdin.write(self.script[number - 1] + "\n")

    def is_given_again(self, number: int) -> bool:
        """Whether a later run of `tell` began at this line, or before it once it was given."""
        return any(it <= number <= self.given for it in self.begins[1:])


def by_the_rules(desk: reference.Desk, it: Operator) -> Iterator[tuple[int, str, bool]]:
    """Each line, carried out by the rules: its number, itself, and whether its answer is theirs,
    or what they say of it where it is given twice.
    """
    for number, (asked, answer) in enumerate(zip(it.script, it.answers, strict=True), 1):
        first = desk.answer(asked)
        # (a vehicle whose ECU was replaced meanwhile isn't the one that the line has)
        again = answer != first and it.is_given_again(number) and (
            desk.answer(asked) == answer or
            ('"add_vehicle"' in asked and answer == "refused 22 VehicleTaken"))
        yield number, asked, answer == first or again
