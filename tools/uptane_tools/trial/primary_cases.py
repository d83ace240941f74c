"""Tries the small Primary of `examples/primary` against the program: what
`docs/integrate/PRIMARY.md` says.

    tools/run primary_cases PROGRAM

A vehicle of three ECUs goes its rounds over HTTP: nothing to install, an update of which one
image comes late, a reply that is lost before the keys are rotated, one that has expired, an ECU
that is replaced, a service that isn't there; and, of both small Primaries, a kept reply that
names an ECU which was replaced, and a database that was restored. The commands of the page's
section on rounds are carried out as they stand. What it verifies is tried by `tools/run
vector_cases`.
"""
import contextlib
import hashlib
import http.server
import json
import os
import re
import shutil
import subprocess
import sys
import threading
import time
from collections.abc import Iterator
from pathlib import Path
from typing import Any

from uptane_tools import arguments
from uptane_tools.measure import fleet
from uptane_tools.oracle import reference
from uptane_tools.trial import http_cases, small_primary, trials

HERE = trials.TOP / "examples" / "primary"
NOW = int(time.time())
DAY = 86400
# the Primary with short waits
PYTHON = ["env", "PYTHONPATH=%s" % HERE, sys.executable, "-c"]
PRIMARY = "import sys, primary; primary.WAITS = (0.1, 0.1); sys.exit(primary.main())"
ECUS = [("gw", "GW"), ("left", "BR"), ("right", "BR")]
CONTENT = {
    name: name.encode() for name in ("gateway-1.bin", "gateway-2.bin", "brake-1.bin", "brake-2.bin")
}
FIRST, SECOND = 1, 101
INSTALLED = [
    "gw installed gateway-2.bin", "left installed brake-2.bin", "right installed brake-2.bin"]
# the small Primaries: how a round of each is begun
SMALL = {
    "Python": [*PYTHON, PRIMARY], "JavaScript": [
        "node", str(trials.TOP / "examples" / "primary_node" / "primary.mjs")]}


def keys(start: int) -> dict[str, Any]:
    """The eight roles' keys: two root keys each, of which both have to sign."""
    sets = {}
    for repository, at in (("director", start), ("image", start + 10)):
        sets[repository] = {
            role: {"keys": [fleet.key(at + i)], "threshold": 1}
            for i, role in enumerate(fleet.ROLES)}
        sets[repository]["root"] = {"keys": [fleet.key(at), fleet.key(at + 8)], "threshold": 2}
    return sets


def secrets(start: int) -> list[str]:
    return [
        key for roles in keys(start).values() for role in roles.values() for key in role["keys"]]


def ecu_key(number: int) -> str:
    return fleet.key(200 + number)


def hashes(name: str) -> dict[str, str]:
    """The hashes of an image: those of the gateway have two."""
    first = {"sha256": hashlib.sha256(CONTENT[name]).hexdigest()}
    return first | ({"sha512": hashlib.sha512(CONTENT[name]).hexdigest()}
                    if name.startswith("gateway") else {})


def image(name: str, at: int) -> str:
    kind, release = name.split("-")
    told: dict[str, Any] = {"length": len(CONTENT[name]), **hashes(name)}
    return fleet.line("add_image", at, file=name, hardware=["GW" if kind == "gateway" else "BR"],
                      release=int(release[0]), **told)


def beginning(at: int) -> list[str]:
    ecus = [{"ecu": ecu, "hardware": kind, "key": ecu_key(i)} for i, (ecu, kind) in enumerate(ECUS)]
    vehicle = fleet.line("add_vehicle", at, vehicle="VIN-1", primary="gw", ecus=ecus)
    return [
        fleet.line("found", at, **keys(FIRST)), vehicle,
        image("gateway-1.bin", at),
        image("brake-1.bin", at)]


def update(at: Any) -> list[str]:
    items = [{"hardware": "GW", "file": "gateway-2.bin"}, {"hardware": "BR", "file": "brake-2.bin"}]
    return [
        image("gateway-2.bin", at),
        image("brake-2.bin", at),
        fleet.line("open_campaign", at, campaign="spring", vehicles="all", items=items)]


def vehicle_of(roots: dict[str, dict[str, Any]]) -> dict[str, Any]:
    """What the vehicle knows when it leaves the factory. Under HMAC it has the secrets of the
    next keys by another way, before the rotation.
    """
    ecus = []
    for i, (ecu, kind) in enumerate(ECUS):
        name = "gateway-1.bin" if kind == "GW" else "brake-1.bin"
        has = {"file": name, "length": len(CONTENT[name]), **hashes(name), "release": 1}
        ecus.append({
            "ecu": ecu, "hardware": kind, "secret": ecu_key(i), "counter": 0, "installed": has})
    told = {
        "vehicle": "VIN-1", "primary": "gw", "counter": 0, "ecus": ecus, "method": reference.METHOD}
    told |= {} if reference.METHOD == "ed25519" else {
        "role_secrets": secrets(FIRST) + secrets(SECOND)}
    return told | {repository: {"root": root, "versions": {}} for repository, root in roots.items()}


# ---- rounds


class Vehicle:

    def __init__(self, own: Path, roots: dict[str, dict[str, Any]], small: str = "Python") -> None:
        self.words = SMALL[small]
        self.file, self.images = own / "vehicle.json", own / "images"
        self.images.mkdir()
        self.file.write_text(json.dumps(vehicle_of(roots)), encoding="ascii")

    def told(self) -> dict[str, Any]:
        return json.loads(self.file.read_text(encoding="ascii"))

    def releases(self) -> list[int]:
        return [ecu["installed"]["release"] for ecu in self.told()["ecus"]]

    def attack(self) -> str:
        """What the Primary reports next."""
        return self.told()["ecus"][0].get("attack", "")

    def put(self, name: str) -> None:
        (self.images / name).write_bytes(CONTENT[name])

    def round(self, port: int) -> tuple[int, list[str], str]:
        words = [
            *self.words, "round",
            "http://127.0.0.1:%d" % port,
            str(self.file),
            str(self.images)]
        ran = subprocess.run(words, capture_output=True, check=False, timeout=http_cases.PATIENCE)
        return ran.returncode, ran.stdout.decode("ascii").splitlines(), ran.stderr.decode("ascii")


def with_service(program: Any, path: Any, vehicle: Vehicle) -> tuple[int, list[str], str]:
    with http_cases.served(program, path, 50) as running:
        return vehicle.round(running.port)


def roots_of(program: Any, path: Path) -> dict[str, dict[str, Any]]:
    """The first Root files, which a vehicle gets where it is built."""
    lines = [
        fleet.line("fetch", NOW, repository=it, file="1.root.json") for it in reference.REPOSITORIES
    ]
    return dict(
        zip(reference.REPOSITORIES,
            (json.loads(it[5:]) for it in trials.printed(program, path, lines))))


def lost(program: str | Path, path: str | Path, vehicle: Vehicle,
         at: int) -> tuple[tuple[int, list[str], str], bool]:
    """A manifest that was accepted at a moment, and whose reply never came."""
    refused = vehicle.round(http_cases.free_port())
    printed = trials.printed(program, path,
                             [fleet.line("deliver", at, body=vehicle.told()["pending"])])
    return refused, printed is not None and printed[0].startswith("reply VIN-1")


def rounds(program: Path, own: Path) -> trials.Cases:
    path = own / "desk"
    yield "a founding and a vehicle", trials.printed(program, path, beginning(NOW)) == 4 * ["done"]
    vehicle = Vehicle(own, roots_of(program, path))
    wanted = 0, ["verified: version 1, targets 0"], ""
    yield "a round with nothing to install", with_service(program, path, vehicle) == wanted
    yield "a file that is its owner's alone", vehicle.file.stat().st_mode & 0o777 == 0o600
    yield "an update", trials.printed(program, path, update(NOW)) == 3 * ["done"]
    vehicle.put("gateway-2.bin")
    late = ["%s is to install brake-2.bin, which isn't here yet" % it for it in ("left", "right")]
    wanted = 0, [*late, "verified: version 2, targets 3"], ""
    yield "a round with an image that is late installs none", with_service(
        program, path, vehicle) == wanted and vehicle.releases() == [1, 1, 1]
    (vehicle.images / "brake-2.bin").write_bytes(b"brake-3.bin")
    status, out, err = with_service(program, path, vehicle)
    wanted = 1, [], "primary: brake-2.bin has another SHA-256\n"
    yield "a round with a wrong image installs none", (status, out,
                                                       err) == wanted and vehicle.releases() == [
                                                           1, 1, 1]
    yield "which is an attack, to be reported", vehicle.attack(
    ) == "brake-2.bin has another SHA-256"
    vehicle.put("brake-2.bin")
    wanted = 0, [*INSTALLED, "verified: version 4, targets 3"], ""
    yield "all", with_service(program, path, vehicle) == wanted and vehicle.releases() == [2, 2, 2]
    reported = trials.rows(path)["kept"][-1]
    yield "the attack was reported, and is no more", "brake-2.bin has another SHA-256" in str(
        reported) and vehicle.attack() == ""
    (status, out, err), accepted = lost(program, path, vehicle, NOW)
    one_line = err.startswith("primary: no answer from http://127.0.0.1:") and err.count("\n") == 1
    yield "a service that isn't there, told in one line", (status, out) == (1, []) and one_line
    yield "the manifest is kept, and accepted", accepted
    yield "a rotation", trials.printed(program, path,
                                       [fleet.line("rotate", NOW, **keys(SECOND))]) == ["done"]
    again = "again with a new manifest: the reply is of Root version 1, and the latest is 2"
    yield "a kept reply of an older root", with_service(program, path, vehicle) == (0, [
        again, "verified: version 6, targets 0"], "")
    known = vehicle.told()
    yield "the new root is trusted", known["director"]["root"]["signed"]["version"] == 2
    yield "a manifest that was accepted eight days ago", lost(program, path, vehicle,
                                                              NOW - 8 * DAY)[1]
    again = "again with a new manifest: director timestamp has expired"
    yield "a kept reply that has expired", with_service(program, path, vehicle) == (0, [
        again, "verified: version 8, targets 0"], "")
    vehicle.file.write_text(json.dumps(vehicle.told() | {"counter": 1}), encoding="ascii")
    yield "a counter that was lost", with_service(program, path, vehicle)[:2] == (0, [
        "verified: version 9, targets 0"])
    yield "each round is a manifest", trials.rows(path)["vehicle"] == [("VIN-1", "gw", 9, 9)]
    known = vehicle.told()
    known["ecus"][1]["counter"] = 1
    vehicle.file.write_text(json.dumps(known), encoding="ascii")
    yield "a report's counter that was lost", with_service(program, path, vehicle)[:2] == (0, [
        "verified: version 10, targets 0"])
    for counter in (NOW + 10 * DAY, 1):
        known = vehicle.told()
        known["ecus"][2]["counter"] = counter
        vehicle.file.write_text(json.dumps(known), encoding="ascii")
        status, out, _ = with_service(program, path, vehicle)
        yield "one that was above the clock" + (", lost" if counter == 1 else
                                                ""), status == 0 and len(out) == 1
    yield from replaced(program, path, vehicle)


def replacement() -> str:
    """The line by which a workshop puts a new ECU in the place of one."""
    return fleet.line("replace_ecu", NOW, vehicle="VIN-1", old="left", ecu="left-2", hardware="BR",
                      key=ecu_key(9))


def replaced(program: str | Path, path: str | Path, vehicle: Vehicle) -> trials.Cases:
    """A workshop puts a new ECU in the place of one: the old one's reports are refused, and the
    new one gets the image that is due.
    """
    yield "an ECU is replaced", trials.printed(program, path, [replacement()]) == ["done"]
    refused: Any = 1, [], 'primary: 409 {"error":14,"text":"UnknownEcu left"}\n'
    yield "a round with the old ECU", with_service(program, path, vehicle) == refused
    told = vehicle.told()
    new = told["ecus"][1] | {
        "ecu": "left-2", "secret": ecu_key(9), "counter": 0, "installed": vehicle_of(
            {})["ecus"][1]["installed"]}
    vehicle.file.write_text(json.dumps(told | {"ecus": [told["ecus"][0], new, told["ecus"][2]]}),
                            encoding="ascii")
    wanted = 0, ["left-2 installed brake-2.bin", "verified: version 13, targets 1"], ""
    yield "a round with the new one", with_service(
        program, path, vehicle) == wanted and vehicle.releases() == [2, 2, 2]


def locked(program: str | Path, own: Path, small: str) -> trials.Cases:
    """What a reply that is refused leads to: a reply that was kept from before an ECU was
    replaced, and those of a database that was restored.
    """
    path = own / "desk"
    trials.printed(program, path, beginning(NOW) + update(NOW))
    vehicle = Vehicle(own, roots_of(program, path), small)
    for name in ("gateway-2.bin", "brake-2.bin"):
        vehicle.put(name)
    fresh = vehicle.told()
    told = json.loads(primary_made(fresh))
    vehicle.file.write_text(json.dumps(told), encoding="ascii")
    yield "%s: a manifest whose answer is lost" % small, trials.printed(
        program, path, [fleet.line("deliver", NOW, body=told["pending"])]) == [
            "reply VIN-1 version 1 targets 3"]
    trials.printed(program, path, [replacement()])
    new = told["ecus"][1] | {"ecu": "left-2", "secret": ecu_key(9), "counter": 0}
    known = told | {"ecus": [told["ecus"][0], new, told["ecus"][2]]}
    # one that has kept no identifier takes the reply for a stranger's, and goes on in the next
    # round all the same
    vehicle.file.write_text(json.dumps(known), encoding="ascii")
    trials.copied(path, own / "replaced")
    wanted: Any = 1, [], "primary: left is no ECU of this vehicle\n"
    yield "%s: a kept reply for an ECU that it never knew" % small, with_service(
        program, path, vehicle) == wanted and vehicle.attack() != ""
    installed = [it.replace("left", "left-2") for it in INSTALLED]
    wanted = 0, [*installed, "verified: version 2, targets 3"], ""
    yield "%s: the next round goes on" % small, with_service(
        program, path, vehicle) == wanted and vehicle.attack() == ""
    trials.copied(own / "replaced", path)
    vehicle.file.write_text(json.dumps(known | {"replaced": ["left"]}), encoding="ascii")
    wanted = 0, [
        "again with a new manifest: left was replaced", *installed,
        "verified: version 2, targets 3"], ""
    yield "%s: a kept reply for an ECU that was replaced" % small, with_service(
        program, path, vehicle) == wanted
    for version in (3, 4):
        yield "%s: a round more" % small, with_service(program, path, vehicle)[:2] == (0, [
            "verified: version %d, targets 0" % version])
    trials.copied(own / "replaced", path)
    for version in (2, 3):
        status, out, err = with_service(program, path, vehicle)
        refused = (status, out) == (1,
                                    []) and err.startswith("primary: director timestamp goes back")
        yield "%s: a restored database at version %d" % (
            small, version), refused and vehicle.told()["pending"] is None
    yield "%s: and at the version that it knows" % small, with_service(
        program, path, vehicle)[:2] == (0, ["verified: version 4, targets 0"])


# the small Primaries, with a clock that is eight days ahead
AHEAD = {
    "Python": [
        *PYTHON,
        "import time; now = time.time; time.time = lambda: now() + 8 * 86400; " + PRIMARY],
    "JavaScript": [
        "node", "--import",
        "data:text/javascript,const now = Date.now; Date.now = () => now() + 691200000",
        *SMALL["JavaScript"][1:]]}


def strange(program: str | Path, own: Path, small: str) -> trials.Cases:
    """A clock that makes each reply old, and an answer without end."""
    path = own / "desk"
    trials.printed(program, path, beginning(NOW))
    vehicle = Vehicle(own, roots_of(program, path), small)
    first = vehicle.told()
    vehicle.words = AHEAD[small]
    status, out, err = with_service(program, path, vehicle)
    again, told = ["again with a new manifest: director timestamp has expired"
                   ], "primary: the service's replies stay old, or the clock is wrong"
    yield "%s: a clock that is eight days ahead" % small, (status, out) == (
        1, again) and err.startswith(told)
    yield "%s: after two manifests the round ends" % small, trials.rows(path)["vehicle"] == [
        ("VIN-1", "gw", 2, 2)] and vehicle.attack() != ""
    vehicle.words = SMALL[small]
    vehicle.file.write_text(json.dumps(first), encoding="ascii")
    with endless() as port:
        status, out, err = vehicle.round(port)
    told = "primary: http://127.0.0.1:%d/director/manifest has no end\n" % port
    yield "%s: an answer without end" % small, (status, out, err) == (1, [], told)


@contextlib.contextmanager
def endless() -> Iterator[int]:
    """The port of a server whose answers are larger than any file."""

    class Endless(http.server.BaseHTTPRequestHandler):

        def do_POST(self) -> None:
            self.rfile.read(int(self.headers["Content-Length"]))
            self.send_response(200)
            self.end_headers()
            with contextlib.suppress(OSError):
                for _ in range(100):
                    self.wfile.write(65536 * b" ")

        def log_message(self, *_: Any) -> None:
            pass

    with http.server.ThreadingHTTPServer(("127.0.0.1", 0), Endless) as server:
        threading.Thread(target=server.serve_forever, daemon=True).start()
        try:
            yield server.server_port
        finally:
            server.shutdown()


def primary_made(told: dict[str, Any]) -> str:
    """The vehicle's file with a manifest that it has made and not sent."""
    _, _, primary = small_primary.modules()
    primary.use(told)
    told["pending"] = primary.new_manifest(told, NOW)
    return json.dumps(told)


def by_the_page(program: str | Path, own: Path,
                primary: str | None = None) -> trials.Cases:
    """The commands of the page's section on rounds, in an empty folder, with another Primary
    where one is given.
    """
    page = (trials.TOP / "docs" / "integrate" / "PRIMARY.md").read_text(
        encoding="utf-8").split("\n## Rounds of a vehicle\n")[1].split("\n## ")[0]
    (own / "bin").mkdir()
    (own / "bin" / "uptane_desk").symlink_to(program)
    if reference.METHOD == "ed25519":
        page = page.replace("first_path/", "first_path_ed25519/").replace(
            "primary/vehicle.json", "primary/ed25519/vehicle.json")
    (own / "empty").mkdir()
    commands = "".join(re.findall(r"^    (.*\n)", page, re.MULTILINE)).replace(
        "8080", str(http_cases.free_port())).replace("sleep 1", "sleep 3")
    commands = commands.replace("python3 $REPO/examples/primary/primary.py",
                                primary) if primary else commands
    found = os.environ | {
        "PATH": "%s:%s" % (own / "bin", os.environ["PATH"]), "REPO": str(trials.TOP)}
    ran = subprocess.run(["bash", "-c", commands], cwd=own / "empty", env=found,
                         capture_output=True, check=False, timeout=120)
    told = [
        line for line in ran.stdout.decode("ascii").splitlines() if not line.startswith("listening")
    ]
    first = [
        "done", "done", "reply V1 version 1 targets 0",
        "trusted: root version 1 of both repositories", "verified: version 2, targets 0"]
    second = ["done", "done", "P1 installed gateway-1.bin", "verified: version 3, targets 1"]
    yield "the page's commands%s" % (" with `%s`" % primary if primary else
                                     ""), told == first + second and b"Traceback" not in ran.stderr


def words() -> trials.Cases:
    """What the Primary says to what isn't as it must be: one line, and no trace of its own."""
    tried = [(["send", "http://127.0.0.1:%d" % http_cases.free_port()], http_cases.GIVEN, 1),
             (["build"], b"{}", 1), (["build"], b"nope", 1),
             (["check", "nowhere"], http_cases.REPLY, 1),
             (["round", "http://127.0.0.1:1", "nowhere"], b"", 1), (["walk"], b"", 2)]
    for given, text, status in tried:
        ran = subprocess.run([*PYTHON, PRIMARY, *given], input=text,
                             capture_output=True, check=False, timeout=http_cases.PATIENCE)
        told = ran.stderr.decode("ascii")
        yield "the words " + given[0], ran.returncode == status and "Traceback" not in told and (
            status == 2 or told.count("\n") == 1)


def cases(program: Path) -> trials.Cases:
    with trials.folder() as own:
        yield from rounds(program, own)
    for small in SMALL:
        if shutil.which(SMALL[small][0]):
            with trials.folder() as own:
                yield from locked(program, own, small)
            with trials.folder() as own:
                yield from strange(program, own, small)
    with trials.folder() as own:
        yield from by_the_page(program, own)
    if shutil.which("node"):
        with trials.folder() as own:
            yield from by_the_page(program, own, "node $REPO/examples/primary_node/primary.mjs")
    yield from words()


def main(words: arguments.Words = None) -> int:
    """Tries the program that is named."""
    return trials.tried(__doc__, words, "primary", cases)
