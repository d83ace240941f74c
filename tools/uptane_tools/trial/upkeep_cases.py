"""Tries what runs a service for years: the planner, metrics and rules of alerts, `apply.sh` with
its spool and journal, `backup.sh`, `watch.sh`, a restore and its drill, the package, and how
often the small Primary asks.

    tools/run upkeep_cases PROGRAM

In the place of systemd a small program starts and stops the services. What isn't installed
(promtool, dpkg, curl, logrotate) is left out, and told.

promise: lines-a-minute, refusal-line
"""
import contextlib
import gzip
import hashlib
import json
import os
import pwd
import re
import shutil
import signal
import socket
import stat
import subprocess
import sys
import threading
import time
import urllib.error
import urllib.request
from collections.abc import Iterator
from pathlib import Path
from typing import Any

from uptane_tools import arguments
from uptane_tools.measure import fleet, speed
from uptane_tools.operate import package, plan
from uptane_tools.oracle import reference
from uptane_tools.trial import http_cases, small_primary, trials

TOOLS, SERVICE = trials.TOP / "tools", trials.TOP / "examples" / "service"
NOW, DAY = int(time.time()), 86400


def ran(*words: Any, **more: Any) -> subprocess.CompletedProcess[str]:
    return subprocess.run(list(map(str, words)), capture_output=True, text=True, check=False,
                          **dict[str, Any](timeout=120) | more)


def tool(name: Any, *words: Any, **more: Any) -> Any:
    return ran(sys.executable, trials.RUN, name, *words, **more)


# ---- the planner


def near(value: Any, wanted: Any, part: Any) -> Any:
    return abs(value - wanted) <= part * wanted


def first_manifests(vehicles: int, ecus: int, names: int, hashes: int) -> Iterator[str]:
    """A fleet whose vehicles, ECUs and files have names of so many bytes, and one manifest of each.
    """

    def name(word: str, at: int) -> str:
        return "%s%0*d" % (word, names - len(word), at)

    image = fleet.FACTORY | {"file": name("f", 0)
                             } | ({"sha512": fleet.second("factory")} if hashes == 2 else {})
    yield fleet.line("found", **fleet.key_set(1))
    for at in range(vehicles):
        own = [name("e", ecus * at + it) for it in range(ecus)]
        yield fleet.line("add_vehicle", vehicle=name("v", at), primary=own[0],
                         ecus=[{"ecu": it, "hardware": "HP", "key": fleet.key(7)} for it in own])
        reports = [{"ecu": it, "key": fleet.key(7), "counter": 1, "time": fleet.START, **image}
                   for it in own]
        yield fleet.line(
            "deliver", body=fleet.body({
                "vehicle": name("v", at), "primary": own[0], "key": fleet.key(7), "counter": 1,
                "reports": reports}))


def planned(program: Path, own: Path) -> trials.Cases:
    """What it tells of small files that are really made; those of SPEED are large ones."""
    for ecus, kept, names, hashes in ((1, 12000, 8, 1), (3, 6000, 20, 2), (5, 4000, 30, 2)):
        path = own / ("kept of %d" % ecus)
        trials.printed(program, path, list(first_manifests(100, ecus, names, hashes)))
        speed.multiplied(path, 100, kept)
        took, memory = speed.used([program, "run", path])
        words = [
            "--vehicles", "100", "--ecus", ecus, "--years", "1", "--names", names, "--scheme",
            reference.METHOD, *(["--one-hash"] if hashes == 1 else [])]
        given = plan.parsed(list(map(str, words)))
        given.manifests_a_day = kept / 100 / plan.YEAR
        it = plan.needed(given, 1)
        figures = path.stat().st_size, it.file, memory << 20, it.peak, took, it.start
        print("%d replies of %d ECUs: file %d, planned %d; memory %d, planned %d; start %.2f s, "
              "planned %.2f s" % (kept, ecus, *figures))
        yield "the size of a file of %d ECUs" % ecus, near(figures[0], it.file, 0.1)
        yield "the memory of its start", near(figures[2], it.peak, 0.1)
        yield "the seconds of its start", it.start / 8 < took < 8 * it.start + 0.5
    asked = ["--vehicles", "1000", "--ecus", "4"]
    its = [
        plan.needed(plan.parsed([*asked, "--requests", requests]), 1) for requests in ("6", "1000")]
    yield "a start behind a million connections, and none for an operator's act", near(
        its[0].days, 1e9 / 6e6, 0.001) and near(its[1].away, its[1].start + 1, 0.001)
    disks = [plan.needed(plan.parsed([*asked, *words]), 1) for words in ((), ("--clones", ))]
    yield "48 whole copies, or clones", near(disks[0].disk, 49 * disks[0].file,
                                             0.001) and disks[1].disk < 1.01 * disks[1].file
    few, many = (tool("plan", "--vehicles", 10_000, "--ecus", 4, *words)
                 for words in (["--years", 1, "--clones"],
                               ["--memory", 20, "--disk", 600, "--clones"]))
    yield "desks for a year, and for ten", re.search(
        r"^(\d+) desks? (?:is|are) enough$", few.stdout,
        re.M) and int(few.stdout.split()[-4]) < int(many.stdout.split()[-4])
    yield "64 that aren't enough", tool("plan", "--vehicles", 10**6, "--ecus", 32).returncode == 1
    yield "numbers that are none", tool("plan", "--vehicles", 0, "--ecus", 4).returncode == 2


# ---- metrics


def sample(text: str, name: str, **labels: Any) -> int | None:
    """The value of a metric with these labels, among others."""
    found = [
        line for line in text.splitlines() if line.startswith("uptane_desk_%s{" % name) and all(
            '%s="%s"' % it in line for it in labels.items())]
    return int(found[0].split()[-1]) if len(found) == 1 else None


def measured(program: str | Path, own: Path) -> trials.Cases:
    path, lines = own / "fleet", list(fleet.script(vehicles=30, ecus=4, rounds=4,
                                                   second_hashes=0.3))
    lines.append(
        fleet.line("add_vehicle", vehicle="new", primary="n", ecus=[{
            "ecu": "n", "hardware": "HP", "key": fleet.key(9)}]))
    yield "a fleet", trials.printed(program, path, lines) is not None
    before, after = path.read_bytes(), fleet.START + 2 * DAY
    text = tool("metrics", path, "--now", after).stdout
    with trials.read(path) as db:

        def one(sql: str) -> Any:
            return db.execute(sql).fetchone()[0]

        last = "FROM vehicle JOIN kept USING (vehicle, version)"
        plans: Any = {}
        for vehicle, text_of in db.execute(
                "SELECT vehicle, plan_text FROM kept ORDER BY vehicle, version"):
            plans.setdefault(vehicle, []).append({
                (it["ecu"], it["file"]) for it in json.loads(text_of)["assigned"]})
        wanted = {
            "vehicles": one("SELECT count(*) FROM vehicle"),
            "vehicles_never_seen": one("SELECT count(*) FROM vehicle WHERE version = 0"),
            "vehicles_withheld": one(
                "SELECT count(*) %s WHERE json_extract(plan_text, '$.withheld.ecu') IS NOT NULL" %
                last),
            "vehicles_reporting_attack": one(
                "SELECT count(DISTINCT vehicle) FROM ecu WHERE json_extract(report, '$.attack') "
                "<> ''"), "assignments_open": one(
                    "SELECT count(*) %s, json_each(plan_text, '$.assigned')" % last),
            "assignments_open_long": sum(
                len(set.intersection(*its[-3:])) for its in plans.values() if len(its) >= 3),
            "kept_replies": one("SELECT count(*) FROM kept"), "kept_replies_last_day": one(
                "SELECT count(*) FROM kept WHERE moment > %d" %
                (after - DAY)), "images": one("SELECT count(*) FROM image"),
            "file_bytes": path.stat().st_size + trials.log_of(path).stat().st_size,
            "newest_timestamp_seconds": one("SELECT max(moment) FROM kept"),
            "copy_timestamp_seconds": int(path.stat().st_mtime)}
        silent = one("SELECT count(*) %s WHERE moment < %d" % (last, after - DAY))
    different = {
        name: (sample(text, name), value) for name, value in wanted.items()
        if sample(text, name) != value}
    print("".join("metrics: %s: %r\n" % it for it in different.items()), end="")
    yield "metrics are what queries tell", not different and wanted[
        "assignments_open"] > 0 and wanted["assignments_open_long"] > 0
    yield "silent vehicles, and when files expire", (sample(text, "vehicles_silent", **{
        "for": "day"
    }), sample(text, "file_expires_timestamp_seconds", repository="image",
               file="timestamp.json")) == (silent, fleet.START + 2 + DAY)
    yield "the copy stays as it was", path.read_bytes() == before
    both = tool("metrics", "a=%s" % path, "b=%s" % path, "--to", own / "both.prom")
    made = (own / "both.prom").read_text("ascii")
    yield "of two desks, into a file", both.returncode == 0 and sample(
        made, "vehicles", desk="a") == sample(
            made, "vehicles", desk="b") == 31 and made.count("# HELP uptane_desk_vehicles ") == 1
    (own / "other").write_bytes(b"")
    yield "another file, and one name for two", tool(
        "metrics", own / "other").returncode == 1 and tool("metrics", path, path).returncode == 2
    if shutil.which("promtool"):
        yield "promtool takes them", ran("promtool", "check", "metrics", input=made).returncode == 0
        rules = ran("promtool", "test", "rules", "uptane_test.yml", cwd=SERVICE / "alerts")
        yield "each rule of alerts has its cases", rules.returncode == 0
        names = [
            set(re.findall(r"alert(?:name)?: (\w+)",
                           (SERVICE / "alerts" / name).read_text("ascii")))
            for name in ("uptane.yml", "uptane_test.yml")]
        yield "and none is without", names[0] == names[1] and len(names[0]) > 10
    else:
        print("there is no promtool, so no rule of alerts is tried")


# ---- scripts that are dropped

SYSTEMCTL = """#!/bin/sh
cd %s
for unit; do :; done
read -r pid < "$unit.pid" || pid=0
# (a number is soon another program's, once its own has ended)
alive() {
    [ "$pid" != 0 ] && [ "$(tr '\\0' ' ' < "/proc/$pid/cmdline")" = "$(cat "$unit.words") " ]
}
gone() { [ ! -e "/proc/$pid" ] || grep -q '^State:.Z' "/proc/$pid/status"; }
case $1 in show|reset-failed) ;; *) echo "$1 $unit" >> calls;; esac
case $1 in
show) if alive; then echo "$pid"; else echo 0; fi;;
is-failed) false;;
stop) if alive; then kill "$pid"; until gone; do sleep 0.02; done; fi;;
start)
    for _ in 1 2 3 4 5 6 7 8 9; do
        if alive; then break; fi
        : > "$unit.said"
        setsid sh -c 'echo $$ > "$0.pid"; exec $(cat "$0.words")' "$unit" > "$unit.said" 2>&1 9>&- &
        pid=$!
        until grep -q listening "$unit.said" || gone; do sleep 0.02; done
        alive || sleep 0.5
    done;;
esac 2> /dev/null
"""
# all that the services wrote
JOURNALCTL = "#!/bin/sh\ncat %s/*.said\n"
# what `runuser -u USER -- WORDS` does, by the same user
RUNUSER = '#!/bin/sh\nshift 3\nexec "$@"\n'


class Service:
    """One desk or several, with their folders, and a systemd in small."""

    def __init__(self, program: str | Path, own: Path, desks: int) -> None:
        self.own, self.desks, self.names = own, desks, [str(at) for at in range(1, desks + 1)
                                                        ] if desks else [""]
        for name in ("bin", "spool", "spool/answers", "copies", "run", "data"):
            (own / name).mkdir()
        first = http_cases.free_port(desks + 1)
        self.ports = {name: first + int(name or 0) for name in self.names}
        for name, port in self.ports.items():
            (own / "run" / (self.unit(name) + ".words")).write_text(
                "%s serve %s %d 1000000 %s" % (program, self.file(name), port, self.socket(name)),
                encoding="ascii")
            (own / "run" / (self.unit(name) + ".pid")).write_text("0\n", encoding="ascii")
        (own / "bin" / "python3").symlink_to(os.path.realpath(sys.executable))
        for name, text in (("systemctl", SYSTEMCTL % (own / "run")),
                           ("journalctl", JOURNALCTL % (own / "run")), ("runuser", RUNUSER)):
            (own / "bin" / name).write_text(text, encoding="ascii")
            (own / "bin" / name).chmod(0o755)
        told: dict[str, Any] = {
            "PROGRAM": program, "TOOLS": TOOLS, "FOLDER": own / "data", "SPOOL": own / "spool",
            "JOURNAL": own / "journal", "COPIES": own / "copies"}
        told |= {
            "RUN": own / "run", "PORT": first, "DESKS": desks or "", "DIVISION": own / "division",
            "PATIENCE": 60, "SETTINGS": "/nonexistent", "KEEP": 3, "FOUNDED": own / "founded"}
        told |= {
            "METRICS": own / "metrics.prom", "PAGE": own / "page.html", "AFTER": own / "after",
            "AFTER_APPLY": own / "after-apply"}
        told |= {
            "WATCHED": own / "watch.prom", "LATE": 0, "OWNER": pwd.getpwuid(os.getuid()).pw_name}
        self.env = os.environ | {name: str(value) for name, value in told.items()} | {
            "PATH": "%s:%s" % (own / "bin", os.environ["PATH"])}

    def unit(self, name: str) -> str:
        return "uptane-desk@%s.service" % name if name else "uptane-desk.service"

    def file(self, name: str = "") -> Path:
        return self.own / "data" / ("desk%s.db" % name)

    def socket(self, name: str = "") -> Path:
        return self.own / "data" / ("desk%s.socket" % name)

    def script(self, name: str, *words: Any) -> Any:
        if name == "backup.sh":
            # copies are named by their second, and two of one second don't meet
            time.sleep(1 - time.time() % 1)
        return ran("sh", SERVICE / name, *words, env=self.env, timeout=120)

    def systemctl(self, verb: Any) -> list[subprocess.CompletedProcess[str]]:
        return [ran(self.own / "bin" / "systemctl", verb, self.unit(name)) for name in self.names]

    def calls(self) -> list[str]:
        """What systemd was asked since the last time, but what it shows."""
        path = self.own / "run" / "calls"
        made = [
            line for line in path.read_text("ascii").splitlines() if not line.startswith("show")
        ] if path.exists() else []
        path.unlink(missing_ok=True)
        return made

    def drop(self, name: str, *lines: Any, mode: int = 0o600) -> None:
        (self.own / "spool" / name).write_text("".join(line + "\n" for line in lines),
                                               encoding="ascii")
        (self.own / "spool" / name).chmod(mode)

    def answers(self, name: str) -> list[str] | None:
        path = self.own / "spool" / "answers" / name
        return path.read_text("ascii").splitlines() if path.exists() else None

    def journal(self) -> list[Any]:
        path = self.own / "journal"
        return [json.loads(line) for line in path.read_text("ascii").splitlines()
                ] if path.exists() else []

    def get(self, target: str | dict[str, Any], name: str = "") -> Any:
        with urllib.request.urlopen("http://127.0.0.1:%d%s" % (self.ports[name], target),
                                    timeout=60) as answer:
            return answer.read()

    def version(self, name: str = "") -> Any:
        with urllib.request.urlopen("http://127.0.0.1:%d/image/timestamp.json" % self.ports[name],
                                    timeout=60) as answer:
            return json.load(answer)["signed"]["version"]


@contextlib.contextmanager
def service(program: str | Path, own: Path, desks: int = 0) -> Iterator[Service]:
    it = Service(program, own, desks)
    try:
        yield it
    finally:
        it.systemctl("stop")


def vehicle(name: str, number: int = 9) -> str:
    return fleet.line("add_vehicle", NOW, vehicle=name, primary=name + "-p", ecus=[{
        "ecu": name + "-p", "hardware": "HP", "key": fleet.key(number)}])


def image(release: int) -> str:
    return fleet.line("add_image", NOW, file="hp-%d.bin" % release, length=3,
                      sha256=fleet.digest("%d" % release), hardware=["HP"], release=release)


def campaign(name: str, vehicles: Any = "all", release: int = 2) -> str:
    return fleet.line("open_campaign", NOW, campaign=name, vehicles=vehicles, items=[{
        "hardware": "HP", "file": "hp-%d.bin" % release}])


FOUNDING = [fleet.line("found", NOW, **fleet.key_set(1)), vehicle("V1"), image(1)]


def applied(program: str | Path, own: Path) -> trials.Cases:
    with service(program, own) as it:
        trials.printed(program, it.file(), FOUNDING)
        it.systemctl("start")
        it.calls()
        yield "nothing is dropped, and nothing done", it.script(
            "apply.sh").returncode == 0 and it.calls() == []
        version = it.version()
        done = it.script("apply.sh", "--refresh")
        yield "a refresh, which stops nothing", done.returncode == 0 and it.version(
        ) == version + 1 and it.calls() == []
        yield "the journal has it", [
            (one["who"], one["asked"]["do"], one["answer"]) for one in it.journal()] == [
                ("the timer", "refresh", "done")]
        it.drop("wrong.script", campaign("x").replace("vehicles", "vehicle"))
        it.drop("final.looked.script", fleet.line("refresh", NOW, version=2**53 - 1))
        it.drop("half", image(2))
        os.symlink("/etc/passwd", own / "spool" / "link.script")
        listed = len(it.journal())
        it.drop("seen.script", campaign("seen"), mode=0o644)
        refused = it.script("apply.sh")
        stays = it.calls() == [] and it.answers("wrong.answers") is None
        what = "scripts that the checker refuses stop nothing, and it fails"
        yield what, refused.returncode == 1 and stays
        told = {one["script"]: one["refused"][0] for one in it.journal()[listed:]}
        yield "they are in the journal", sorted(told) == [
            "final.looked.script", "seen.script", "wrong.script"
        ] and told["wrong.script"].startswith("line 1: ")
        yield "one that others can read is refused", it.answers("seen.refused")[0].startswith(
            "others can read it") and not (own / "spool" / "seen.script").exists()
        yield "operators find why", it.answers("wrong.refused")[0].startswith(
            "line 1: ") and it.answers("final.looked.refused")[0].startswith(
                "line 1: final: version: ")
        yield "a link and a name of another kind are left", "link.script" in refused.stderr and (
            own / "spool" / "half").exists() and (own / "spool" / "link.script").is_symlink()
        (own / "spool" / "link.script").unlink()
        it.drop("1-image.script", image(2), "", vehicle("V2", 8))
        it.drop("2-campaign.script", campaign("first"), campaign("first", release=1))
        version, listed = it.version(), len(it.journal())
        done = it.script("apply.sh", "--refresh")
        yield "scripts and a refresh stop nothing either", it.calls() == [] and it.version(
        ) == version + 2
        yield "a line that is refused is told", done.returncode == 1 and (
            "spool: 2-campaign.script: 1 of 2 lines were refused\n") in done.stderr
        yield "each has its answers", (it.answers("1-image.answers"),
                                       it.answers("2-campaign.answers")) == (["done", "done"], [
                                           "done", "refused 24 CampaignTaken"])
        added = it.journal()[listed:]
        who = {
            one["asked"].get("campaign"): (one["who"], one["script"], one["answer"])
            for one in added if one["asked"]["do"] == "open_campaign" and one["answer"] == "done"}
        yield "the journal tells who opened a campaign", who == {
            "first": (pwd.getpwuid(os.getuid()).pw_name, "2-campaign.script", "done")
        } and len(added) == 5
        text, is_public = (
            own /
            "journal").read_text("ascii"), b'"method":"ed25519"' in it.get("/director/root.json")
        public = fleet.with_public({"key": fleet.key(8)})["key"]
        yield "it has public keys and no secrets, and is its owner's", (
            public in text) == is_public and fleet.key(1) not in text and stat.S_IMODE(
                (own / "journal").stat().st_mode) & 0o7 == 0
        copies = sorted((own / "copies").glob("desk-*-before.db"))
        yield from read_alone(it)
        with trials.read(copies[0]) as db:
            yield "a copy was taken before", len(copies) == 1 and db.execute(
                "SELECT count(*) FROM campaign").fetchone() == (0, )
        yield "what was given is taken away", sorted(
            path.name for path in (own / "spool").glob("*.script")) == []
        it.drop("3.script", vehicle("V3", 7), vehicle("V4", 6))
        with standing_in(it, 0):
            failed = it.script("apply.sh")
        yield "a service that ends in the middle", failed.returncode == 1 and it.calls(
        ) == [] and "lines answered: 1, the next one is line 2: " in failed.stderr
        held = own / "spool" / "held"
        yield "the script is held, for root alone", (held / "3.script").exists() and stat.S_IMODE(
            held.stat().st_mode) == 0o700 and it.answers("3.answers") == ["done"]
        yield "its operator finds that", it.answers("3.held")[0].startswith(
            "1 of 2 lines were answered; it is in ")
        yield "and the journal says how far it came", [
            one["answer"] for one in it.journal()[-2:]] == ["done", None]
        yield from killed(it)
        it.systemctl("stop")
        it.systemctl("start")
        yield from rotated(it)
        yield from turned(it)


def read_alone(it: Any) -> trials.Cases:
    """A script that only shows stops nothing. Nothing is left of an earlier one of its name."""
    it.calls()
    it.drop("show.script", "{}")
    it.script("apply.sh")
    told = it.answers("show.refused")
    it.drop("show.script", fleet.line("show", NOW, vehicle="V1"),
            fleet.line("fetch", NOW, repository="image", file="timestamp.json"))
    before = list((it.own / "copies").glob("desk-*-before.db"))
    done = it.script("apply.sh")
    answers = it.answers("show.answers")
    yield "what only shows stops nothing", done.returncode == 0 and it.calls() == [] and [
        line.split()[0] for line in answers] == ["vehicle", "file"]
    yield "nor does a refusal of before stay", told and it.answers("show.refused") is None
    yield "and leaves nothing behind", [
        path.name for path in (it.own / "data").iterdir() if path.is_dir()] == [] and list(
            (it.own / "copies").glob("desk-*-before.db")) == before


@contextlib.contextmanager
def standing_in(it: Any, seconds: float) -> Iterator[None]:
    """What answers a line at the operators' socket in the service's place, and ends so many seconds
    later.
    """
    it.socket().unlink(missing_ok=True)
    with socket.socket(socket.AF_UNIX) as listener:
        listener.bind(str(it.socket()))
        listener.listen()

        def run() -> None:
            with listener.accept()[0] as peer:
                peer.recv(65_536)
                peer.sendall(b"done\n")
                (it.own / "stands").touch()
                time.sleep(seconds)

        threading.Thread(target=run, daemon=True).start()
        yield


def killed(it: Any) -> trials.Cases:
    """apply.sh is killed while it gives a script: none is lost."""
    it.drop("4.script", vehicle("V5", 5), vehicle("V6", 4))
    (it.own / "stands").unlink()
    with standing_in(it, 600), subprocess.Popen(
        ["sh", SERVICE / "apply.sh"], env=it.env, stdout=subprocess.DEVNULL,
            stderr=subprocess.DEVNULL, start_new_session=True) as running:
        while not (it.own / "stands").exists():
            time.sleep(0.05)
        time.sleep(0.5)
        os.killpg(running.pid, signal.SIGKILL)
    mended = it.script("apply.sh", "--mend")
    yield "a run is killed, and no script is lost", mended.returncode == 0 and it.calls(
    ) == [] and (it.own / "spool" / "held" / "4.script").exists() and [
        one["answer"] for one in it.journal()[-2:]] == ["done", None]
    yield "and nothing is left", it.script("apply.sh",
                                           "--mend").returncode == 0 and it.calls() == [] and list(
                                               (it.own / "spool").glob("taken.*")) == []


def between() -> trials.Cases:
    """Nobody waits for the timer: a path is watched whose unit gives what was dropped; and no
    Timestamp comes near its end before the timer's next time.
    """
    path, unit, timer = ((SERVICE / ("uptane-desk-" + name)).read_text("ascii")
                         for name in ("now.path", "now.service", "refresh.timer"))
    asked = "/var/spool/uptane/now"
    yield "a file asks for scripts to be given at once", "PathExists=%s\n" % asked in path and (
        "ExecStartPre=/bin/rm -rf %s\nExecStart=/usr/lib/uptane_desk/apply.sh\n" % asked) in unit
    hours = sorted(map(int, re.search(r"OnCalendar=.* ([\d,]+):00:00\n", timer)[1].split(",")))
    gaps = [after - before for before, after in zip(hours, [*hours[1:], hours[0] + 24])]
    delay = int(re.search(r"RandomizedDelaySec=(\d+)min\n", timer)[1])
    least = int(re.search(r"LEAST_LEFT:=(\d+)", (SERVICE / "watch.sh").read_text("ascii"))[1])
    yield "between two runs nothing is told of a Timestamp", 3600 * max(
        gaps) + 60 * delay < DAY - least


def turned(it: Any) -> trials.Cases:
    """The journal is rotated, and what is given then is in the file that has the name."""
    if not shutil.which("logrotate"):
        print("there is no logrotate, so no journal is rotated")
        return
    conf, own = it.own / "logrotate", it.own
    text = (SERVICE / "uptane-desk.logrotate").read_text("ascii")
    conf.write_text(text.replace("/var/log/uptane/", "%s/" % own), encoding="ascii")
    conf.chmod(0o644)
    before = (own / "journal").read_bytes()
    done = ran("logrotate", "--force", "--state", own / "turned", conf)
    print(done.stderr, end="")
    old = list(own.glob("journal-*"))
    it.script("apply.sh", "--refresh")
    yield "the journal is rotated whole, and goes on", done.returncode == 0 and [
        path.read_bytes() for path in old] == [before] and [
            one["asked"]["do"] for one in it.journal()] == ["refresh"]


def rotated(it: Any) -> trials.Cases:
    """Behind a rotation a copy is made, which has the new keys."""
    it.drop("keys.script", fleet.line("rotate", NOW, **fleet.key_set(2)))
    after = it.own / "after"
    after.write_text('#!/bin/sh\necho "$@" > %s/brought\n' % it.own, encoding="ascii")
    after.chmod(0o755)
    done = it.script("apply.sh")
    copies = sorted((it.own / "copies").glob("desk-*-rotated.db"))
    brought = (it.own / "brought").read_text("ascii").split()
    yield "it is brought elsewhere", brought == [str(it) for it in copies]
    with trials.read(copies[0]) as db:
        yield "a copy behind a rotation", done.returncode == 0 and len(copies) == 1 and db.execute(
            "SELECT root FROM meta").fetchone() == (2, )


def watched(program: str | Path, own: Path) -> trials.Cases:
    """What is amiss is told once: a service that is down, a Timestamp near its end, no copy, or
    an old one.
    """
    with service(program, own) as it:
        trials.printed(program, it.file(),
                       FOUNDING + [fleet.line("refresh", NOW - DAY + 3600, version=9)])
        it.systemctl("start")

        def look() -> tuple[Any, list[Any]]:
            return (lambda done:
                    (done.returncode, [line.split(": ")[1] for line in done.stderr.splitlines()]))(
                        it.script("watch.sh"))

        first = look()
        yield "a Timestamp near its end", first[0] == 1 and [
            words.split(" expires")[0] for words in first[1]] == ["the Timestamp"]
        yield "is told once", look() == (0, first[1])
        it.script("apply.sh", "--refresh")
        it.script("backup.sh")
        posted(it.ports[""], "x")
        yield "all is well", look() == (0, [])
        made = (own / "watch.prom").read_text("ascii")
        yield "it writes metrics", sample(made, "up", desk="desk") == 1 and 80000 < sample(
            made, "served_timestamp_left_seconds") <= 86400 and sample(
                made, "newest_copy_age_seconds") < 600
        yield "with what the service says of itself", [
            sample(made, "service_" + name) for name in ("groups", "commands", "open")] == [
                1, 1, 0]
        it.systemctl("stop")
        yield "a service that is down", look() == (1, ["it doesn't answer"]) and sample(
            (own / "watch.prom").read_text("ascii"), "up") == 0
        it.systemctl("start")
        for path in (own / "copies").glob("desk-*"):
            os.utime(path, (NOW - DAY, NOW - DAY))
        yield "a copy that is old", [words.split(" is of")[0] for words in look()[1]] == [
            "the newest copy"]
        for path in (own / "copies").glob("desk-*"):
            path.unlink()
        (own / "run" / "uptane-watch" / "first").write_text("%d\n" % (NOW - DAY), encoding="ascii")
        yield "no copy at all", look() == (1, ["there is no copy"])


def applied_to_several(program: str | Path, own: Path) -> trials.Cases:
    with service(program, own, 2) as it:
        asked = FOUNDING + [vehicle("V2"), vehicle("V3")]
        tool("divide_script", own / "division", "--desks", 2,
             input="".join(line + "\n" for line in asked))
        for name in it.names:
            told: Any = trials.run(
                program, it.file(name),
                (own / "division" / ("desk%s.script" % name)).read_text("ascii").splitlines())[1]
            (own / "division" / ("desk%s.answers" % name)).write_bytes(told)
        tool("divide_script", own / "division", "--join")
        it.systemctl("start")
        it.calls()
        it.drop("1.script", image(2), campaign("two", ["V1", "V2"]), vehicle("V4", 5))
        (own / "after-apply").write_text('#!/bin/sh\ncp "$1" %s/map\n' % own, encoding="ascii")
        (own / "after-apply").chmod(0o755)
        version = it.version("1")
        done = it.script("apply.sh", "--refresh")
        yield "two desks, one after the other", done.returncode == 0 and it.calls(
        ) == [] and it.answers("1.answers") == ["done", "done", "done"]
        yield "and the proxy may read its map again", (own /
                                                       "map").read_text("ascii").split()[::2] == [
                                                           "V1", "V2", "V3", "V4"]
        yield "all have the files of one version", [
            it.version(name) for name in it.names] == [version + 2] * 2
        it.drop("1.script", campaign("none", ["nobody"]))
        done = it.script("apply.sh", "--refresh")
        yield "what can't be divided is held, and the refresh goes on", done.returncode == 1 and (
            own / "spool" / "held" / "1.script").exists() and it.version("2") == version + 3
        copied = it.script("backup.sh")
        yield "a copy of each", copied.returncode == 0 and sample(
            (own / "metrics.prom").read_text("ascii"), "vehicles", desk="desk2") == 2
        yield "and one page of all", '"V4"' in (own / "page.html").read_text(
            "ascii") and "2 desks" in (own / "page.html").read_text("ascii")
        it.file("2").unlink()
        it.calls()
        told = it.script("watch.sh")
        yield "one whose file is gone is told of", told.returncode == 1 and [
            line.split(", ")[0] for line in told.stderr.splitlines()] == [
                "desk2: its file is gone"]
        copies = sorted((own / "copies").glob("desk2-*Z.db"))
        done = [tool("restore", copies[-1], *words, env=it.env) for words in ((), ("--desk", "2"))]
        print(done[0].stderr + done[1].stdout + done[1].stderr, end="")
        calls = [line for line in it.calls() if not line.startswith("is-failed ")]
        yield "and restored, the other goes on", [
            it.returncode for it in done] == [1, 0] and calls == [
                "stop uptane-desk@2.service", "start uptane-desk@2.service"] and it.version("2") > 0


# ---- copies, and what a restore forgets


def posted(port: int, body: Any) -> tuple[int, Any]:
    client = http_cases.http.client.HTTPConnection("127.0.0.1", port, timeout=60)
    with contextlib.closing(client):
        client.request("POST", "/director/manifest", body)
        came = client.getresponse()
        return came.status, json.loads(came.read())


def manifest(name: str, number: int, key: int = 9, ecu: str | dict[str, Any] | None = None) -> str:
    ecu = ecu or name + "-p"
    report: dict[str, Any] = {
        "ecu": ecu, "key": fleet.key(key), "counter": number, "time": NOW, **fleet.FACTORY}
    return fleet.body({
        "vehicle": name, "primary": ecu, "key": fleet.key(key), "counter": number, "reports": [
            report]})


def backed_up(program: str | Path, own: Path) -> trials.Cases:
    with service(program, own) as it:
        trials.printed(program, it.file(), FOUNDING + [vehicle("V2", 8)])
        it.systemctl("start")
        port = it.ports[""]
        for number in (1, 2):
            posted(port, manifest("V1", number))
        (own / "after").write_text('#!/bin/sh\nls "$@" > %s/listed\n' % own, encoding="ascii")
        (own / "after").chmod(0o755)
        done = it.script("backup.sh")
        copies = sorted((own / "copies").glob("desk-*Z.db"))
        yield "a backup", done.returncode == 0 and len(copies) == 1 and "stood still" in done.stdout
        yield "with metrics, a page, and what comes after", [
            (own / name).exists() for name in ("metrics.prom", "page.html")] == [
                True, True] and str(copies[0]) in (own / "listed").read_text("ascii")
        page = (own / "page.html").stat()
        yield "the page is for the group of its folder", (stat.S_IMODE(
            page.st_mode), page.st_gid) == (0o640, own.stat().st_gid)
        modes = {stat.S_IMODE(path.stat().st_mode) for path in (own / "copies").iterdir()}
        yield "it is its owner's alone", modes == {0o600}
        never = [
            own / name
            for name in ("copies/desk-20200101T000000Z-schema2.db", "spool/answers/old.answers",
                         "spool/held/old.script", "data/before-20200101T000000Z/desk.db")]
        for path in never:
            path.parent.mkdir(exist_ok=True)
            path.touch(0o600)
            os.utime(path, (0, 0))
        for at in range(3):
            it.script("backup.sh")
        kept = sorted((own / "copies").glob("desk-*Z.db"))
        yield "older ones go", len(kept) == 3 and copies[0] not in kept
        yield "what the page calls never pruned stays", all(path.exists() for path in never)
        # what comes behind the newest copy
        backup = kept[-1]
        told = [posted(port, manifest("V1", number)) for number in (3, 4, 5)] + [
            posted(port, manifest("V2", 1, 8))]
        yield "the fleet goes on", [(status, reply["version"]) for status, reply in told] == [
            (200, 3), (200, 4), (200, 5), (200, 1)]
        it.systemctl("stop")
        more = [image(2), vehicle("V3", 7), campaign("late"), fleet.line("refresh", NOW, version=9)]
        yield "so do operators", trials.printed(program, it.file(), more) == 4 * ["done"]
        later = it.file()
        before = {path.name: path.read_bytes() for path in (own / "copies").iterdir()}
        drilled = tool("restore_drill", program, backup, "--after", later, "--vehicles")
        print(drilled.stdout + drilled.stderr, end="")
        lines = drilled.stdout.splitlines()
        yield "a drill: restored and started", drilled.returncode == 0 and [
            line.split(" in ")[0] for line in lines[:3]] == ["looked at", "restored", "started"]
        yield "and nothing is changed by it", {
            path.name: path.read_bytes() for path in (own / "copies").iterdir()} == before
        yield "what is forgotten", any(
            line.startswith("forgotten: 4 manifests") for line in lines
        ) and "vehicles: 0 as before, 2 goes back, 0 other ECUs, 1 unknown" in lines
        yield "lines to give again", [line for line in lines if line.startswith("to give")] == [
            "to give again: add_image hp-2.bin", "to give again: add_vehicle V3",
            "to give again: open_campaign late",
            "to give again: refresh to a version above 9: the last that was served"]
        yield from restored(it, backup, lines)
        damaged = own / "damaged.db"
        data = bytearray(backup.read_bytes())
        data[5000] ^= 1
        damaged.write_bytes(data)
        yield "a damaged backup is told", tool("restore_drill", program, damaged).returncode == 1
        yield from refused(it, damaged)
        yield from by_journal(it, backup)


def refused(it: Any, damaged: Any) -> trials.Cases:
    """What keeps a restore from being done is told before anything is changed."""
    before, script = it.file().read_bytes(), it.own / "again.script"
    it.calls()
    for words in ((), ("--tell", )):
        done = tool("restore", damaged, *words, env=it.env)
        yield "a damaged copy isn't restored", done.returncode == 1 and done.stderr.endswith(
            "%s; nothing is changed: take an older copy\n" %
            trials.UNOPENED["damaged"].decode("ascii").strip())
    backup = sorted((it.own / "copies").glob("desk-*Z.db"))[-1]
    for path in (script, it.own / "nowhere" / "again.script"):
        done = tool("restore", backup, "--lines", path, env=it.env)
        yield "nor where its lines can't be written", done.returncode == 2 and done.stderr.endswith(
            "; nothing is changed\n")
    left = list((it.own / "data").glob("restoring-*"))
    yield "and nothing is changed", it.file().read_bytes() == before and it.calls(
    ) == [] and script.stat().st_size > 0 and left == []


def by_journal(it: Any, backup: Any) -> trials.Cases:
    """The file can't be read: what operators gave is in the journal, and the keys of a rotation
    in the copy that was made behind it. A file that lies elsewhere is named.
    """
    it.drop("more.script", image(5), vehicle("V8", 5), campaign("more", release=5),
            fleet.line("rotate", NOW, **fleet.key_set(2)),
            fleet.line("close_campaign", NOW, campaign="more"))
    yield "operators go on", it.script("apply.sh").returncode == 0 and it.answers(
        "more.answers") == 5 * ["done"]
    is_public = b'"method":"ed25519"' in it.get("/director/root.json")
    version, lost = it.version(), it.own / "lost.db"
    it.systemctl("stop")
    it.file().rename(lost)
    trials.log_of(it.file()).rename(trials.log_of(lost))
    made = it.own / "journal.script"
    journal = it.own / "journal"
    kept = journal.read_bytes()
    journal.unlink()
    done = tool("restore", backup, "--lines", made, env=it.env)
    yield "not without a journal", done.returncode == 1 and "nothing is changed" in (
        done.stderr) and not it.file().exists() and not made.exists()
    with gzip.open(it.own / "journal-20261101.gz", "wb") as packed:
        packed.write(kept)
    done = tool("restore", backup, "--lines", made, env=it.env)
    print(done.stdout + done.stderr, end="")
    asked = [json.loads(line) for line in made.read_text("ascii").splitlines()]
    yield "lines by the journal, where the file is gone", done.returncode == 0 and [
        one["do"] for one in asked] == [
            "rotate", "add_image", *(["add_vehicle"] if is_public else []), "open_campaign",
            "close_campaign", "refresh"] and is_public != ("line 2 of more.script" in done.stdout)
    it.drop("journal.script", *made.read_text("ascii").splitlines())
    yield "they are taken, and no version goes back", it.script("apply.sh").returncode == 0 and set(
        it.answers("journal.answers")) == {"done"} and it.version() > version
    told = tool("restore", backup, "--tell", "--lost", lost, env=it.env).stdout
    yield "a lost file that lies elsewhere tells", "to give again: add_vehicle V8\n" in told


def lost(program: str | Path, own: Path) -> trials.Cases:
    """A file that is gone is told, while the program still has it and once it is down; what the
    program has is copied, and nothing is forgotten.
    """
    with service(program, own) as it:
        it.env["LATE"] = "999999"
        yield "before the founding there is nothing to tell", it.script(
            "watch.sh").returncode == 0 and not (own / "founded").exists()
        trials.printed(program, it.file(), FOUNDING)
        it.systemctl("start")
        yield "a copy, and all is well", it.script("backup.sh").returncode == 0 and it.script(
            "watch.sh").returncode == 0 and (own / "founded" / "desk.db").exists()
        it.file().unlink()
        trials.log_of(it.file()).unlink()
        kept = posted(it.ports[""], manifest("V1", 1))
        it.calls()
        told = it.script("watch.sh")
        yield "the watch tells that it is gone", told.returncode == 1 and (
            "desk: its file is gone, and the program still has it: don't stop it") in told.stderr
        yield "and a metric", sample((own / "watch.prom").read_text("ascii"), "file_there") == 0
        it.drop("late.script", image(2))
        given = [it.script("apply.sh", *words) for words in ((), ("--refresh", ))]
        yield "nothing is given then, and nothing stopped", [one.returncode for one in given] == [
            1, 1] and it.calls() == []
        saved = it.script("backup.sh")
        backup = sorted((own / "copies").glob("desk-*Z.db"))[-1]
        yield "a copy is made of what the program has", saved.returncode == 0 and (
            "was removed: copied is what process") in saved.stdout
        done = tool("restore", backup, env=it.env)
        yield "and restored: nothing is forgotten", done.returncode == 0 and posted(
            it.ports[""], manifest("V1", 1)) == kept
        it.script("watch.sh")
        it.systemctl("stop")
        it.file().unlink()
        trials.log_of(it.file()).unlink(missing_ok=True)
        told = it.script("watch.sh")
        yield "one that is gone while nothing runs", told.returncode == 1 and (
            "desk: its file is gone (") in told.stderr
        begun = ran("sh", SERVICE / "before.sh", it.file(), env=it.env)
        yield "no start makes an empty one", begun.returncode == 1 and " is gone: restore" in (
            begun.stderr)


def damaged(program: str | Path, own: Path) -> trials.Cases:
    """A file is damaged while it is served: its copy doesn't count, no older one goes, and what
    comes behind a backup gets whole files.
    """
    with service(program, own) as it:
        trials.printed(program, it.file(), FOUNDING)
        it.systemctl("start")
        posted(it.ports[""], manifest("V1", 1))
        (own / "after").write_text('#!/bin/sh\ncp -p "$@" %s\n' % (own / "elsewhere"),
                                   encoding="ascii")
        (own / "after").chmod(0o755)
        (own / "elsewhere").mkdir()
        it.script("backup.sh")
        alone = list((own / "elsewhere").iterdir())
        served = trials.printed(program, alone[0], [fleet.line("show", NOW, vehicle="V1")])
        yield "what is brought elsewhere is whole", len(alone) == 1 and served[0].startswith(
            "vehicle V1 version 1")
        time.sleep(1.1)
        it.env["TRY_EACH"] = "60"
        it.script("backup.sh")
        ends = [
            path.name.partition(".db")[2] for path in (own / "elsewhere").iterdir()
            if not path.name.startswith(alone[0].name)]
        yield "one that isn't tried, with its log", sorted(ends) == ["", "-wal"]
        it.env["TRY_EACH"] = "0"
        for _ in range(3):
            it.script("backup.sh")
        good = sorted((own / "copies").glob("desk-*Z.db"))
        # each page but the first: the log may hold a newer one of some of them
        with open(it.file(), "r+b") as file:
            for at in range(5000, it.file().stat().st_size, 4096):
                file.seek(at)
                file.write(b"sixteen bytes !!")
        done = it.script("backup.sh")
        print(done.stderr, end="")
        yield "a copy of a damaged file fails", done.returncode == 1 and trials.UNOPENED[
            "damaged"].decode("ascii") in done.stderr
        yield "it doesn't count, and no older one goes", sorted(
            (own / "copies").glob("desk-*Z.db")) == good and len(
                list((own / "copies").glob("desk-*Z-untaken.db"))) == 1
        it.drop("late.script", image(2))
        it.calls()
        yield "no script is given to it, and it isn't stopped", it.script(
            "apply.sh").returncode == 1 and it.calls() == []
        yield "an older one is restored", tool("restore", good[-1], env=it.env).returncode == 0


def logged(program: str | Path, own: Path) -> trials.Cases:
    """Each refusal is a line of the service's log, with the vehicle that a manifest names; of more
    than 60 a minute the rest is left out. The answers are as ever.
    """
    with service(program, own) as it:
        trials.printed(program, it.file(), FOUNDING)
        it.systemctl("start")
        port = it.ports[""]
        posted(port, manifest("V1", 5))
        said = own / "run" / "uptane-desk.service.said"

        def lines() -> list[str]:
            return said.read_text("ascii").splitlines()[1:]

        told = [
            posted(port, manifest("V1", 4))[0],
            posted(port, manifest("V9", 1))[0],
            posted(port, manifest("V1", 6, 8))[0],
            posted(port, "{}")[0],
            posted(port, "nothing")[0]]
        for target in ("/image/9.root.json", "/nowhere"):
            with contextlib.suppress(urllib.error.HTTPError):
                it.get(target)
        yield "what was refused is told, by vehicle and refusal", told == [
            409, 404, 403, 400, 400] and lines() == [
                "uptane_desk: vehicle V1: refused 13 Stale 5",
                "uptane_desk: vehicle V9: refused 10 UnknownVehicle",
                "uptane_desk: vehicle V1: refused 12 BadManifestSignature",
                "uptane_desk: refused 7 BadShape signatures", "uptane_desk: refused 5 NotJson",
                "uptane_desk: refused 29 UnknownFile", "uptane_desk: refused 0 not found"]
        begun = int(time.time()) // 60
        answers = {posted(port, manifest("V1", 4))[0] for _ in range(150)}
        minutes = int(time.time()) // 60 - begun + 1
        stale = [line for line in lines() if " 13 Stale " in line]
        yield "60 lines a minute of each, and every answer", answers == {
            409} and 60 <= len(stale) <= min(60 * minutes + 1, 151)
        it.script("backup.sh")
        text = (own / "metrics.prom").read_text("ascii")
        yield "metrics count them by name", [
            sample(text, "refusals_logged", refusal=name)
            for name in ("Stale", "UnknownFile", "not found")] == [len(stale), 1, 1]


def restored(it: Any, backup: Any, lines: list[str]) -> trials.Cases:
    """What vehicles then meet is what the drill and the restore say: V1 had version 5 and has 2,
    V2 had 1 and has none.
    """
    asked = {"env": it.env}
    before, _ = it.file().read_bytes(), it.calls()
    told = tool("restore", backup, "--tell", **asked)
    yield "a restore tells what comes, and does nothing yet", told.returncode == 0 and it.file(
    ).read_bytes() == before and it.calls() == []
    done = tool("restore", backup, "--lines", it.own / "again.script", **asked)
    print(done.stdout + done.stderr, end="")
    told = "answers; the Image repository's version is 2" in done.stdout
    began = it.calls()[-1] == "start uptane-desk.service"
    yield "a restore", done.returncode == 0 and began and told
    yield "it says who will refuse what, and until when", re.search(
        r"(?m)^vehicle V1 refuses the replies to its next 2 manifests as older ones, until about "
        r"20\d\d-", done.stdout)
    aside = max((it.own / "data").glob("before-*"))
    yield "what was there is kept", (aside /
                                     it.file().name).read_bytes() == before and stat.S_IMODE(
                                         aside.stat().st_mode) == 0o700
    yield "the file is its owner's alone", stat.S_IMODE(
        it.file().stat().st_mode) == 0o600 and it.journal()[-1]["restored"] == str(it.file())
    port = it.ports[""]
    met = [posted(port, manifest("V1", number))[1]["version"] for number in (6, 7, 8)] + [
        posted(port, manifest("V2", 2, 8))[1]["version"]]
    words = {line.split()[1]: line for line in lines if line.startswith("vehicle ")}
    yield "V1 refuses two replies, and takes the third", met[:3] == [
        3, 4, 5
    ] and words["V1"].endswith(
        "from version 5 to 2: it refuses the replies to its next 2 manifests, and takes that to "
        "the one behind them")
    yield "V2 takes its first", met[3] == 1 and words["V2"].endswith(
        "from version 1 to 0: it refuses the replies to its next 0 manifests, and takes that to "
        "the one behind them")
    yield from given_again(it)
    yield "V3 is unknown", posted(port, manifest("V3", 1, 7)) == (404, {
        "error": 10, "text": "UnknownVehicle"
    }) and words["V3"].split(" is ")[1].startswith("refused 10")


def given_again(it: Any) -> trials.Cases:
    """The lines that the restore wrote are taken as a script, and bring back what operators had
    made.
    """
    script = it.own / "again.script"
    asked = [json.loads(line)["do"] for line in script.read_text("ascii").splitlines()]
    yield "its lines to give again are a script", asked == [
        "add_image", "add_vehicle", "open_campaign", "refresh"] and stat.S_IMODE(
            script.stat().st_mode) == 0o600
    shutil.copyfile(script, it.own / "copied")
    answers = it.own / "given"
    it.systemctl("stop")
    shutil.copy(it.file(), answers)
    if trials.log_of(it.file()).exists():
        shutil.copy(trials.log_of(it.file()), trials.log_of(answers))
    yield "and each is done", trials.printed(
        it.env["PROGRAM"], answers,
        script.read_text("ascii").splitlines()) == 4 * ["done"]
    it.systemctl("start")


# ---- the package


def packaged(program: str | Path, own: Path) -> trials.Cases:
    if not shutil.which("dpkg-deb"):
        print("there is no dpkg, so no package is made")
        return
    without = own / "without"
    without.write_bytes(Path(program).read_bytes() + package.LABEL + b"no proof\n")
    refused = tool("package", "--program", without, "--tree", own / "none")
    yield "a program built without a proof is refused", refused.returncode == 1 and (
        "without a "
        "proof") in refused.stderr and not (own / "none").exists()
    # (the program that is tried may be such a one)
    asked = ["package", "--unproved", "--program", program]
    made = tool(*asked, "--to", own)
    path = Path(made.stdout.strip())
    yield "a package", made.returncode == 0 and path.is_file() and path.parent == own
    first = path.read_bytes()
    time.sleep(1.1)
    yield "made twice it is the same file", Path(tool(*asked, "--to",
                                                      own).stdout.strip()).read_bytes() == first
    shown = ran("dpkg-deb", "--field", path).stdout
    is_proved = package.LABEL not in Path(program).read_bytes()[-200:]
    yield "it says whether there is a proof", ("~unproved" in shown, " proved Director" in shown,
                                               "UNPROVED" in shown) == (not is_proved, is_proved,
                                                                        not is_proved)
    bench = Path(
        tool("package", "--unproved", "--bench", "--program", program, "--to", own).stdout.strip())
    listed = ran("dpkg-deb", "--contents", bench).stdout
    alone = "/usr/bin/uptane_desk_bench\n" in listed and "systemd" not in listed
    named: Any = "Package: uptane-desk-bench" in ran("dpkg-deb", "--field", bench).stdout
    yield "one for benches has the program alone", alone and named
    root = own / "root"
    (root / "var/lib/dpkg/info").mkdir(parents=True)
    (root / "var/lib/dpkg/status").touch()
    dpkg = [
        "dpkg",
        "--root=%s" % root, "--force-not-root,depends,script-chrootless",
        "--log=%s" % (own / "log")]
    yield "dpkg installs it in a folder of its own", ran(*dpkg, "--install", path).returncode == 0
    sums = ran("sha256sum", "--check", "--quiet", "usr/lib/uptane_desk/MANIFEST", cwd=root)
    text = (root / "usr/lib/uptane_desk/MANIFEST").read_text("ascii")
    commit = ran("git", "-C", trials.TOP, "rev-parse", "HEAD").stdout.strip()
    yield "the sums of its manifest hold", sums.returncode == 0 and len(text.splitlines()) > 40
    told = ran(program, "--version")
    head = text.split("\n# program ")
    yield "it names the commit and the program", commit in text and hashlib.sha256(
        Path(program).read_bytes()).hexdigest() in head[1].split("\n")[0]
    yield "and what the program says of itself", told.returncode or head[0].startswith("# " +
                                                                                       told.stdout)
    parts = json.loads(
        (root / "usr/share/doc/uptane-desk/uptane-desk.spdx.json").read_text("ascii"))
    names = {it["name"] for it in parts["packages"]}
    yield "its list of parts has the kit's crates", parts["spdxVersion"] == "SPDX-2.3" and {
        "uptane_desk_ed25519", "up_machine", "sqlite", "std"} <= names and len(
            parts["relationships"]) == len(names)
    named = [
        word for unit in root.glob("usr/lib/systemd/system/*") for word in re.findall(
            r"(?m)^(?:ExecStart|ExecStartPost)=(/\S+)|^Documentation=file://(\S+)",
            unit.read_text("ascii"))]
    places = {first or second for first, second in named} - {"/bin/sh"}
    yield "what its units name is there", len(places) >= 5 and all(
        (root / name[1:]).exists() for name in places)
    library = root / "usr/lib/uptane_desk"
    links = [(page, link) for page in root.rglob("*.md")
             for link in re.findall(r"\]\(([^)#:]+)[^):]*\)", page.read_text("utf-8"))]
    lost = [(page.name, link) for page, link in links if not (page.parent / link).exists()]
    print("".join("%s links to %s, which isn't packaged\n" % it for it in lost), end="")
    yield "no link of a page leads nowhere", len(links) > 150 and not lost
    yield "what isn't packed is called so", "vectors (in the sources)" in (
        library / "docs/integrate/PRIMARY.md").read_text("utf-8")
    yield "it has the name of the pages too", (root / "usr/bin/uptane_desk_ed25519").resolve() == (
        root / "usr/bin/uptane_desk").resolve()
    packed = library / "tools"
    helped = {
        path.stem: ran(sys.executable, packed / "run", path.stem, "--help").returncode
        for path in packed.glob("*/operate/*.py") if "def main(" in path.read_text("ascii")}
    yield "its tools have what they need", len(helped) >= 9 and set(helped.values()) <= {
        0, 2} and ran(sys.executable, packed / "run", "check_script",
                      input=vehicle("V9") + "\n").returncode == 0
    data = root / "var/lib/uptane"
    data.mkdir(parents=True)
    trials.printed(program, data / "desk.db", FOUNDING)
    (root / "etc/uptane/settings").write_text("KEEP=9\n", encoding="ascii")
    again = ran(*dpkg, "--install", path)
    yield "installed again, it keeps settings", again.returncode == 0 and (
        root / "etc/uptane/settings").read_text("ascii") == "KEEP=9\n"
    gone = ran(*dpkg, "--purge", "uptane-desk")
    left = sorted(
        str(it.relative_to(root)) for it in root.rglob("*")
        if it.is_file() and "var/lib/dpkg" not in str(it))
    print(gone.stdout if left != ["var/lib/uptane/desk.db"] else "", end="")
    yield "removed, it leaves the data", gone.returncode == 0 and left in ([
        "var/lib/uptane/desk.db"], ["var/lib/uptane/desk.db", "var/lib/uptane/desk.db-wal"])
    tree = own / "tree"
    laid = tool(*asked, "--tree", tree)
    yield "the same files without dpkg", laid.returncode == 0 and (
        tree / "usr/lib/uptane_desk/MANIFEST").read_text("ascii") == text


# ---- the small Primary


def paced() -> trials.Cases:
    primary: Any = small_primary.modules()[2]
    waits = {failed: [primary.pause(failed) for _ in range(200)] for failed in (0, 1, 2, 30)}

    def within(its: list[float], least: float, most: float) -> bool:
        return all(least <= it <= most for it in its) and max(its) - min(its) > (most - least) / 2

    yield "a Primary asks once a day, a tenth more or less", within(waits[0], 0.9 * DAY, 1.1 * DAY)
    yield "sooner behind a failure, and then less often", within(waits[1], 150, 300) and within(
        waits[2], 300, 600) and within(waits[30], DAY / 2, DAY)
    slept: Any
    rounds: Any
    slept, rounds = [], []

    def round(*_: Any) -> int:
        rounds.append(len(rounds))
        if len(rounds) < 3:
            raise primary.Failed("no answer")
        if len(rounds) == 5:
            raise KeyboardInterrupt
        return 0

    before = primary.go_round, primary.time.sleep
    primary.go_round, primary.time.sleep = round, slept.append
    try:
        with contextlib.redirect_stdout(None), contextlib.redirect_stderr(
                None), contextlib.suppress(KeyboardInterrupt):
            primary.go_rounds("http://127.0.0.1:1", None, None)
    finally:
        primary.go_round, primary.time.sleep = before
    yield "rounds go on behind failures", len(
        slept) == 4 and 150 <= slept[0] <= 300 <= slept[1] <= 600 and min(slept[2:]) > 0.8 * DAY
    images = Path("images")
    paths = [
        primary.path_of(images, name)
        for name in ("/etc/passwd", "../x", "a/../../x", "..", ".", "a/b.bin")]
    yield "it takes no image from another folder", all(
        it.parent == images and it.name not in (".", "..") for it in paths)


def first_round(program: str | Path, own: Path) -> trials.Cases:
    """A vehicle's file as the small Primary's page says it begins: it trusts, and goes a round."""
    with service(program, own) as it:
        trials.printed(program, it.file(), FOUNDING)
        it.systemctl("start")
        is_public = b'"method":"ed25519"' in it.get("/director/root.json")
        told: dict[str, Any] = {
            "vehicle": "V1", "primary": "V1-p", "counter": 0, "director": {"versions": {}},
            "image": {"versions": {}}, "ecus": [{
                "ecu": "V1-p", "hardware": "HP", "secret": fleet.key(9), "counter": 0,
                "installed": {
                    "file": "hp-1.bin", "length": 3, "sha256": fleet.digest("1"), "release": 1}}]}
        keys = fleet.key_set(1)
        secrets = [
            key for of in ("director", "image") for role in keys[of].values()
            for key in role["keys"]]
        told["method" if is_public else "role_secrets"] = "ed25519" if is_public else secrets
        path = own / "vehicle.json"
        path.write_text(json.dumps(told), encoding="ascii")
        words = [
            ran(sys.executable, trials.TOP / "examples" / "primary" / "primary.py", word,
                "http://127.0.0.1:%d" % it.ports[""], path) for word in ("trust", "round")]
        print(words[1].stdout + words[0].stderr + words[1].stderr, end="")
        yield "a new vehicle's file", words[1].stdout == "verified: version 1, targets 0\n"


def cases(program: Path) -> trials.Cases:
    yield from paced()
    yield from between()
    parts = [planned, measured]
    if shutil.which("curl"):
        parts += [
            applied, applied_to_several, backed_up, logged, damaged, lost, watched, first_round]
    else:
        print("there is no curl, so no scripts are applied")
    yield from trials.each(program, *parts, packaged)


def main(words: arguments.Words = None) -> int:
    """Tries the program that is named."""
    return trials.tried(__doc__, words, "upkeep", cases)
