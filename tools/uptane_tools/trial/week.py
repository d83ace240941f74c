"""A simulated week of a large fleet over eight desks behind nginx, by the scripts and tools that
operators use. By hand: up to an hour.

    tools/run week PROGRAM [--vehicles N] [--days N] [--to FOLDER] [--within FOLDER]

10,000 vehicles of four ECUs report once a day each, through nginx, over desks that `apply.sh`,
`backup.sh` and a systemd in small start and stop. The time of day is set by the trial
(`fast_clock.c`), an hour at a time, so a week takes as long as its work does. Operators drop
scripts: a campaign for all, one for two hundred, one that leaves plans withheld, a replaced ECU.
Twice a day `apply.sh --refresh` gives them; each hour `backup.sh` copies all files, and makes
metrics and the page. On the third day a desk is killed among its requests; on the fifth one
loses its file, and is restored from its newest copy.

At the end every answer that a desk gave, to scripts and to manifests, is compared with that of
the rules at the same moment, and every acknowledged reply has to be kept, but for those that the
restore forgets: these are the ones that the drill told. The page, the metrics and what happened
are put into the first FOLDER, `/tmp/week` where none is named. All else is in the second, one
for new files where none is named, on a filesystem that clones where one can be made; in
`/dev/shm` no disk has to synchronise (1 GB).
"""
import calendar
import contextlib
import json
import os
import random
import re
import shutil
import signal
import sqlite3
import struct
import subprocess
import sys
import threading
import time
from collections import Counter
from concurrent.futures import ProcessPoolExecutor, ThreadPoolExecutor
from contextlib import closing
from http.client import HTTPConnection, HTTPException
from pathlib import Path
from typing import Any

from uptane_tools import arguments
from uptane_tools.measure import fleet
from uptane_tools.oracle import reference
from uptane_tools.trial import (copy_cases, http_cases, proxy_cases, scale_cases, trials,
                                upkeep_cases)

BEGUN = time.monotonic()
DESKS, THREADS, HOUR, DAY = 8, 8, 3600, 86400
KINDS = ("GATEWAY", "BRAKE", "ENGINE", "DISPLAY")
START = 1767225600
# shares of the vehicles: never on the road this week, never install, send each manifest twice
SILENT, STUBBORN, TWICE = 0.02, 0.05, 0.03
KILLED, LOST = 3, 6
# the campaigns, and the hour of the `apply.sh` that opens each
OPENED = {"spring": 3, "first-two-hundred": 39, "engines": 63}
# the script that the checker refuses, by the hour of its `apply.sh`
REFUSED = {3: "typo.script"}
# the vehicle of which a workshop replaces an ECU
BROKEN = 500

# ---- vehicles


def image(kind: str, release: int) -> dict[str, Any]:
    name = "%s/%d.bin" % (kind.lower(), release)
    return {
        "file": name, "length": 1000 + release, "sha256": fleet.digest(name), "hardware": [kind],
        "release": release}


CONTENT = {
    image(kind, release)["file"]: fleet.content(image(kind, release)) for kind in KINDS
    for release in (1, 2, 3)}


class Vehicle:
    """What a vehicle knows, and how it acts: it reports what it has, and installs what a reply
    assigns that it takes.
    """

    def __init__(self, number: int, rng: random.Random) -> None:
        self.name, self.key = "VIN%07d" % number, "%064x" % (number + 1)
        self.ecus = [[self.name + "-" + kind[:2], kind] for kind in KINDS]
        self.installed = {kind: image(kind, 1)["file"] for kind in KINDS}
        self.counter = self.verified = self.refused = 0
        self.hour = rng.choices(range(24),
                                weights=[1] * 6 + [6] * 4 + [3] * 6 + [8] * 4 + [2] * 4)[0]
        self.is_silent, self.is_stubborn, self.is_twice = (
            rng.random() < share for share in (SILENT, STUBBORN, TWICE))
        self.attack = "a counter went back" if number % 2500 == 7 else ""
        self.pending = ""

    def line(self) -> str:
        ecus = [{"ecu": ecu, "hardware": kind, "key": self.key} for ecu, kind in self.ecus]
        return fleet.line("add_vehicle", START, vehicle=self.name, primary=self.ecus[0][0],
                          ecus=ecus)

    def manifest(self, now: int) -> Any:
        """A new body, or the one that wasn't answered yet."""
        if not self.pending:
            self.counter += 1
            report = {"key": self.key, "counter": self.counter, "time": now}
            reports = [
                report | {"ecu": ecu, "attack": self.attack if kind == "BRAKE" else ""}
                | CONTENT[self.installed[kind]] for ecu, kind in self.ecus]
            self.pending = fleet.body({
                "vehicle": self.name, "primary": self.ecus[0][0], "key": self.key,
                "counter": self.counter, "reports": reports})
        return self.pending

    def takes(self, reply: dict[str, Any]) -> bool:
        """Whether the vehicle takes a reply: one of a lower version than it has verified it
        refuses.
        """
        self.pending = ""
        if reply["version"] < self.verified:
            self.refused += 1
            return False
        self.verified = reply["version"]
        for target in reply["targets"]["signed"]["targets"] if not self.is_stubborn else []:
            self.installed[next(
                kind for ecu, kind in self.ecus if ecu == target["ecu"])] = target["file"]
        return True


# ---- the service


class Week(upkeep_cases.Service):
    """Eight desks, nginx, a clock, and what was answered."""

    def __init__(self, program: str | Path, own: Path, to: Path, vehicles: int,
                 seed: int = 1) -> None:
        super().__init__(program, own, DESKS)
        self.rng, self.to, self.program = random.Random(seed), to, program
        self.library, self.clock = own / "clock.so", own / "clock"
        subprocess.run([
            "cc", "-shared", "-fPIC", "-O1", "-o",
            str(self.library),
            str(Path(__file__).resolve().parent / "fast_clock.c")], check=True)
        self.set_clock(START)
        self.env |= {"LD_PRELOAD": str(self.library), "CLOCK_FILE": str(self.clock)}
        self.vehicles = [Vehicle(number, self.rng) for number in range(vehicles)]
        self.home, self.log, self.lock = dict[Any, Any](), {
            name: list[Any]() for name in self.names}, threading.Lock()
        self.counts, self.notes, self.again, self.forgotten, self.foretold = Counter[Any](
        ), list[Any](), list[Any](), set[Any](), 0

    def set_clock(self, now: int) -> None:
        self.now = now
        mode = "r+b" if self.clock.exists() else "wb"
        with open(self.clock, mode) as file:
            file.write(struct.pack("<q", now))

    def note(self, words: Any) -> None:
        self.notes.append("%s %s" % (time.strftime("%Y-%m-%d %H:%M", time.gmtime(self.now)), words))
        print("%.0f s: %s" % (time.monotonic() - BEGUN, self.notes[-1]), flush=True)

    # -- scripts

    def found(self) -> Any | bool:
        lines = [
            fleet.line("found", START, **fleet.key_set(1)),
            *(fleet.line("add_image", START, **image(kind, 1)) for kind in KINDS)]
        lines += [it.line() for it in self.vehicles]
        upkeep_cases.tool("divide_script", self.own / "division", "--desks", DESKS,
                          input="".join(line + "\n" for line in lines), env=self.env)
        scripts = {
            name:
            (self.own / "division" / ("desk%s.script" % name)).read_text("ascii").splitlines()
            for name in self.names}
        with ThreadPoolExecutor(DESKS) as pool:
            answered = pool.map(
                lambda name: trials.run(self.program, self.file(name), scripts[name], 3600)[1],
                self.names)
        for name, told in zip(self.names, answered):
            own, answers = scripts[name], told.decode("ascii").splitlines()
            (self.own / "division" / ("desk%s.answers" % name)).write_text(
                "".join(it + "\n" for it in answers), encoding="ascii")
            self.log[name].append(("script", list(zip(own, answers))))
        joined = upkeep_cases.tool("divide_script", self.own / "division", "--join", env=self.env)
        self.home = dict(
            line.split()
            for line in (self.own / "division" / "vehicles.map").read_text("ascii").splitlines())
        self.home = {vehicle: desk.removeprefix("desk") for vehicle, desk in self.home.items()}
        return joined.returncode == 0 and len(self.home) == len(self.vehicles)

    def apply(self, refused: str = "") -> bool:
        """Gives what was dropped, with a refresh; what each desk was given is kept for the
        comparison. A script that is refused fails it, and is told; the rest is given.
        """
        before = {
            name: (self.own / "division" / ("desk%s.answers" % name)).read_text("ascii")
            for name in self.names}
        ran = subprocess.run(["sh", str(self.spy), "--refresh"], env=self.env, capture_output=True,
                             text=True, check=False, timeout=3600)
        for name in self.names:
            lines, answers = ((self.own / "run" / ("%s.%s" %
                                                   (name, what))).read_text("ascii").splitlines()
                              for what in ("given", "answered"))
            self.log[name].append(("script", list(zip(lines, answers))))
            assert len(lines) == len(answers) and before is not None
        told = re.findall(r"(\S+) by root: refused", ran.stderr)
        well = ran.returncode == bool(refused) and told == ([refused] if refused else [])
        self.counts["applies"] += well
        if ran.returncode:
            self.note("apply.sh: %s" % ran.stderr.strip())
        return well

    def spying(self) -> None:
        """What gives lines for `apply.sh`, and what it was given and answered beside it."""
        words = self.own / "bin" / "python3"
        real = words.resolve()
        words.unlink()
        words.write_text(
            '#!/bin/sh\n[ "$2" = tell ] || exec %s "$@"\nat=$(basename "$3" .socket) '
            'at=%s/run/${at#desk}\ntee "$at.given" | %s "$@" | tee "$at.answered"\n' %
            (real, self.own, real), encoding="ascii")
        words.chmod(0o755)
        self.spy = upkeep_cases.SERVICE / "apply.sh"

    # -- requests

    def nginx(self) -> Any:
        """The configuration for several desks, with as many as there are."""
        self.folder = self.own / "division"
        self.proxy = Eight(self.own, "nginx", http_cases.free_port(), self,
                           [self.ports[name] for name in self.names], False)
        return self.proxy.running()

    def post(self, client: Any, vehicle: Any, body: bytes) -> tuple[Any, Any]:
        client.request("POST", "/%s/director/manifest" % vehicle, body)
        came = client.getresponse()
        return came.status, came.read().decode("ascii")

    def deliver(self, vehicle: Any, times: int = 1) -> None:
        """One vehicle's round: it keeps its manifest where no answer comes, and sends it again
        later.
        """
        body = vehicle.manifest(self.now)
        for _ in range(times):
            try:
                source = next(proxy_cases.ADDRESSES), 0
                with closing(
                        HTTPConnection("127.0.0.1", self.proxy.port, timeout=120,
                                       source_address=source)) as client:
                    status, text = self.post(client, vehicle.name, body)
            except (OSError, HTTPException):
                status, text = 0, ""
            with self.lock:
                self.counts[status] += 1
            if status in (0, 502, 503, 504):
                with self.lock:
                    self.again.append(vehicle)
                return
            with self.lock:
                self.log[self.home[vehicle.name]].append(
                    ("manifest", vehicle.name, vehicle.counter, body, status, text, self.now))
        if status == 200 and not vehicle.takes(json.loads(text)):
            with self.lock:
                self.again.append(vehicle)
        vehicle.pending = ""

    def round(self, vehicles: Any) -> None:
        """Posts a manifest of each, by several clients at once."""
        with ThreadPoolExecutor(THREADS) as pool:
            list(pool.map(lambda it: self.deliver(it, 2 if it.is_twice else 1), vehicles))

    def hour(self, number: int, meanwhile: Any) -> None:
        """The vehicles of an hour, and those that weren't answered or refused a reply, in
        quarters of it; and what else happens.
        """
        due = [it for it in self.vehicles if it.hour == number % 24 and not it.is_silent]
        with ThreadPoolExecutor(1) as other:
            happens = other.submit(meanwhile)
            for part in range(4):
                self.set_clock(START + DAY + HOUR * number + 900 * part)
                late, self.again = self.again, []
                self.round(list({id(it): it for it in late + due[part::4]}.values()))
            happens.result()

    # -- what goes wrong

    def kill(self, name: str) -> bool:
        """Kills a desk among its requests; systemd would start it anew."""
        path = self.own / "run" / (self.unit(name) + ".pid")
        time.sleep(0.5)
        number = int(path.read_text("ascii"))
        assert str(self.file(name)) in Path(
            "/proc/%d/cmdline" % number).read_text("ascii").split("\0")
        os.kill(number, signal.SIGKILL)
        self.note("desk %s is killed" % name)
        time.sleep(1)
        upkeep_cases.ran(self.own / "bin" / "systemctl", "start", self.unit(name), env=self.env)
        self.note("desk %s is started again" % name)
        return self.version(name) > 0

    def restore(self, name: str) -> Any:
        """A desk loses its file, and is restored from the newest copy, as the page says; the
        drill tells before what is forgotten.
        """
        path, copies = self.file(name), sorted((self.own / "copies").glob("desk%s-*Z.db" % name))
        upkeep_cases.ran(self.own / "bin" / "systemctl", "stop", self.unit(name), env=self.env)
        lost, backup = self.own / "lost.db", copies[-1]
        trials.copied(path, lost)
        drilled = upkeep_cases.tool("restore_drill", self.program, backup, "--after", lost,
                                    "--folder", self.own)
        for it in (path, trials.log_of(path)):
            it.unlink(missing_ok=True)
        begun = time.monotonic()
        trials.copied(backup, path)
        upkeep_cases.ran(self.own / "bin" / "systemctl", "start", self.unit(name), env=self.env)
        self.note("desk %s is restored from %s in %.1f s: %s" %
                  (name, backup.name, time.monotonic() - begun, "; ".join(
                      drilled.stdout.splitlines()[4:])))
        with trials.read(backup) as db:
            kept = {tuple(row) for row in db.execute("SELECT vehicle, counter FROM kept")}
        self.forgotten = {it[1:3]
                          for it in self.log[name] if it[0] == "manifest" and it[4] == 200} - kept
        self.foretold = int(re.search(r"forgotten: (\d+) manifests", drilled.stdout)[1])
        self.log[name].append(("restore", self.forgotten))
        return drilled.returncode == 0

    def backup(self) -> None:
        ran = upkeep_cases.ran("sh", upkeep_cases.SERVICE / "backup.sh", env=self.env, timeout=3600)
        self.counts["backups"] += ran.returncode == 0
        self.counts["stood still, ms"] += int(
            sum(1000 * float(it) for it in re.findall(r"stood still for ([\d.]+)", ran.stdout)))
        if ran.returncode:
            self.note("backup.sh: %s" % ran.stderr.strip())


class Eight(scale_cases.Before):
    """nginx before as many desks as there are: the file of the examples has four."""

    def changed(self, text: str) -> Any:
        block = re.search(r"    upstream desk1 \{.*?\n    \}\n", text, re.S)[0]
        text = re.sub(
            r"(    upstream desk\d \{.*?\n    \}\n)+", lambda _: "".join(
                block.replace("desk1", "desk%d" % at).replace("8081", "808%d" % at)
                for at in range(1, DESKS + 1)), text, flags=re.S)
        return super().changed(text)


# ---- the week


def operators(week: Any, hour: Any) -> None:
    """The scripts that operators drop before an hour, by their names."""
    at = START + DAY + HOUR * hour

    def line(do: str, **members: Any) -> str:
        return fleet.line(do, at, **members)

    def offer(name: str, kinds: Any, release: int, vehicles: Any = 'all') -> Any:
        return (line(
            "open_campaign", campaign=name, vehicles=vehicles,
            items=[{"hardware": kind, "file": image(kind, release)["file"]} for kind in kinds]))

    few = [it.name for it in week.vehicles[100:300]]
    if hour == 2:
        week.drop("1-images.script", *(line("add_image", **image(kind, 2)) for kind in KINDS))
        week.drop("2-campaign.script", offer("spring", ("GATEWAY", "BRAKE"), 2))
        week.drop("typo.script", offer("wrong", ("GATEWAY", ), 2).replace("vehicles", "vehicle"))
    if hour == 38:
        week.drop("few.script", offer("first-two-hundred", ("DISPLAY", ), 2, few))
    if hour == 62:
        needs = image("ENGINE", 3) | {"needs": [{"hardware": "DISPLAY", "release": 3}]}
        week.drop("engine.script", line("add_image", **needs),
                  offer("engines", ("ENGINE", ), 3, few[:50]))
        broken = week.vehicles[BROKEN]
        old, broken.ecus[3][0] = broken.ecus[3][0], broken.name + "-new"
        week.drop(
            "workshop.script",
            line("replace_ecu", vehicle=broken.name, old=old, ecu=broken.name + "-new",
                 hardware="DISPLAY", key=broken.key))
        broken.installed["DISPLAY"] = image("DISPLAY", 1)["file"]
        broken.pending = ""
    if hour == 134:
        week.drop("over.script", line("close_campaign", campaign="spring"))


def lived(week: Any, days: Any) -> trials.Cases:
    """The hours, one after another."""
    for hour in range(24 * days):
        operators(week, hour)
        if hour % 12 == 3:
            week.set_clock(START + DAY + HOUR * hour)
            yield "apply.sh --refresh at hour %d" % hour, week.apply(REFUSED.get(hour, ""))
        if hour == (48 if days > 2 else 0) + 8:
            happened = []
            week.hour(hour, lambda: happened.append(week.kill(str(KILLED))))
            yield "a desk is killed among its requests, and comes again", happened == [True]
        elif hour == (96 if days > 4 else 0) + 9:
            # (it fails before the hour's copy is made)
            week.hour(hour, lambda: None)
            yield "a desk is restored from its copy", week.restore(str(LOST))
            week.backup()
        else:
            week.hour(hour, week.backup)
        if hour % 12 == 11:
            week.note(
                "%d manifests answered, %d without an answer at first, %d refused by vehicles; %s" %
                (week.counts[200], sum(week.counts[it] for it in (0, 502, 503, 504)),
                 sum(it.refused for it in week.vehicles), sizes(week)))


def sizes(week: Any) -> str:
    return "%d MB" % (sum(week.file(name).stat().st_size for name in week.names) >> 20)


# ---- the comparison


def moment_of(text: str) -> int:
    """The moment at which a reply was made: seven days before it expires."""
    return calendar.timegm(
        time.strptime(json.loads(text)["timestamp"]["signed"]["expires"],
                      "%Y-%m-%dT%H:%M:%SZ")) - 7 * DAY


def replayed(events: Any) -> tuple[Any, Any]:
    """How many answers of a desk were compared with those of the rules, and which differ. What a
    restore forgets is left out from the beginning, but for its answers, which are compared
    before the restore.
    """
    at = next((number for number, it in enumerate(events) if it[0] == "restore"), None)
    if at is None:
        return compared(events, frozenset())
    forgotten = events[at][1]
    first, second = compared(events[:at], frozenset()), compared(events[:at] + events[at + 1:],
                                                                 forgotten, at)
    return first[0] + second[0], first[1] + second[1]


def compared(events: Any, left_out: Any, begin: int = 0) -> tuple[int, list[tuple[str, Any, Any]]]:
    """Carries the events out by the rules; those from `begin` on are compared."""
    number, wrong = 0, []
    with closing(sqlite3.connect(":memory:", isolation_level=None)) as db:
        desk = reference.Desk(db)
        for place, it in enumerate(events):
            if it[0] == "script":
                told = [desk.answer(line) for line, _ in it[1]]
                pairs = list(zip([line for line, _ in it[1]], told,
                                 [answer for _, answer in it[1]]))
            elif place < begin and (it[1:3] in left_out or it[4] != 200):
                continue
            else:
                _, vehicle, counter, body, status, text, now = it
                answer = desk.answer(
                    fleet.line("deliver",
                               moment_of(text) if status == 200 else now, body=body))
                row = db.execute("SELECT reply FROM kept WHERE vehicle = ? AND counter = ?",
                                 (vehicle, counter)).fetchone() if status == 200 else None
                said = row[0] if row and answer.startswith("reply ") else answer
                refused = "refused %(error)d %(text)s" % json.loads(text) if status != 200 else text
                pairs = [((vehicle, counter), said, refused)]
            for what, wanted, got in pairs if place >= begin else []:
                number += 1
                if wanted != got:
                    wrong.append((str(what)[:200], wanted[:300], got[:300]))
    return number, wrong


def kept_in(path: str | Path) -> dict[tuple[Any, Any], Any]:
    with trials.read(path) as db:
        return {(row[0], row[1]): row[2]
                for row in db.execute("SELECT vehicle, counter, reply FROM kept")}


def judged(week: Any) -> trials.Cases:
    """What has to hold at the end."""
    with ProcessPoolExecutor(max(2, os.cpu_count() // 2)) as pool:
        found = list(pool.map(replayed, [week.log[name] for name in week.names]))
    number, wrong = sum(it[0] for it in found), [one for it in found for one in it[1]]
    print("".join("differs: %s\n  rules: %s\n  desk:  %s\n" % it for it in wrong[:5]), end="")
    week.note("%d answers compared with the rules, %d differ" % (number, len(wrong)))
    yield "no answer differs from the rules'", not wrong and number > len(week.vehicles)
    lost, gone = 0, 0
    for name in week.names:
        kept = kept_in(week.file(name))
        for it in week.log[name]:
            if it[0] == "manifest" and it[4] == 200 and kept.get(it[1:3]) != it[5]:
                if name == str(LOST) and it[1:3] in week.forgotten:
                    gone += 1
                else:
                    lost += 1
    once = len({it[1:3] for it in week.log[str(LOST)] if it[0] == "manifest"} & week.forgotten)
    week.note("%d acknowledged replies are missing; %d more were forgotten by the restore, and the "
              "drill told of %d" % (lost, once, week.foretold))
    forgets = lost == 0 and once == week.foretold == len(week.forgotten) and gone >= 0
    yield "nothing acknowledged is lost but what the restore forgets", forgets
    yield "each desk's file is whole", all(
        trials.faults(week.file(name)) == [] for name in week.names)
    yield "all backups and refreshes went well", week.counts[
        "backups"] >= week.hours - 1 and week.counts["applies"] == 2 * (week.hours // 24)
    journal = [it for it in week.journal() if "asked" in it]
    who = [it for it in journal if it["asked"]["do"] == "open_campaign" and it["answer"] == "done"]
    opened = [name for name, hour in OPENED.items() if hour < week.hours]
    yield "the journal tells who opened each campaign", [
        it["asked"]["campaign"] for it in who] == opened and all(it["who"] for it in who)
    taken = sum(it.installed["GATEWAY"] == image("GATEWAY", 2)["file"] for it in week.vehicles)
    week.note("%d of %d vehicles have what the first campaign offers" % (taken, len(week.vehicles)))
    yield "most vehicles have what the first campaign offers", 2 * taken > len(week.vehicles)
    withheld = [
        int(it) for it in re.findall(r"(?m)^uptane_desk_vehicles_withheld\{.*\} (\d+)$", (
            week.own / "metrics.prom").read_text("ascii"))]
    yield "plans are withheld where a campaign's needs aren't met", len(withheld) == DESKS and (
        sum(withheld) > 0) == (OPENED["engines"] + 24 < week.hours)
    refused = [it["script"] for it in week.journal() if "refused" in it]
    yield "the script that the checker refuses was never given", week.answers(
        "typo.refused") is not None and "wrong" not in [
            it["asked"].get("campaign") for it in journal] and refused == [*REFUSED.values()]
    for name, given in (("fleet.html", "page.html"), ("uptane.prom", "metrics.prom"), ("journal",
                                                                                       "journal")):
        shutil.copy(week.own / given, week.to / name)
    (week.to / "notes").write_text("\n".join(week.notes) + "\n%s\n" % dict(week.counts),
                                   encoding="utf-8")


def cases(program: str | Path, vehicles: int, days: Any, to: Path,
          within: Path | str | None) -> trials.Cases:
    with trials.folder(within) as own, contextlib.ExitStack() as up:
        own.chmod(0o755)
        week: Any = Week(program, own, to, vehicles)
        up.callback(week.systemctl, "stop")
        week.hours = 24 * days
        week.spying()
        yield "%d vehicles over %d desks" % (vehicles, DESKS), week.found()
        week.note("founded")
        for name in week.names:
            upkeep_cases.ran(own / "bin" / "systemctl", "start", week.unit(name), env=week.env)
        up.enter_context(week.nginx())
        yield from lived(week, days)
        week.set_clock(week.now + 900)
        while week.again:
            late, week.again = week.again, []
            week.round(late)
        week.backup()
        yield from judged(week)


def main(words: arguments.Words = None) -> int:
    """Lives the week."""
    asked = arguments.parser(__doc__)
    asked.add_argument("program", type=Path)
    asked.add_argument("--vehicles", type=int, default=10_000)
    asked.add_argument("--days", type=int, default=7)
    asked.add_argument("--to", type=Path, default=Path("/tmp/week"))
    asked.add_argument("--within", type=Path, default=None)
    given = asked.parse_args(words)
    if given.vehicles <= BROKEN and given.days > 1:
        asked.error(
            "%d vehicles or fewer live one day at most: what operators do later is for others, too"
            % BROKEN)
    lacks = [word for word in ("nginx", "curl", "cc") if not shutil.which(word)]
    if lacks:
        print("there is no %s, so no week is lived" % ", no ".join(lacks))
        return trials.judged("week", [])
    given.to.mkdir(exist_ok=True)
    # where it is told to end, the services end first
    signal.signal(signal.SIGTERM, lambda *_: sys.exit(1))
    with trials.folder(given.within) as own, copy_cases.that_clones(own, 4 << 30) as cloning:
        if not cloning:
            print("no filesystem that clones can be mounted here, so copies are copies")
        told = given.program.resolve(), given.vehicles, given.days, given.to, cloning or own
        return trials.judged("week", cases(*told))
