"""Tries several desks in the place of one: what `docs/use/SCALE.md` says.

    tools/run scale_cases PROGRAM            tries that they answer as one
    tools/run scale_cases PROGRAM measure    measures one and four: manifests a second, starts,
                                             memory; takes some minutes

A script of a fleet, in parts, is divided by `tools/run divide_script` over four desks, later
over six, and its joined answers, replies and files are those of one desk. Then four desks are
served, and vehicles post to their own: directly, and through each proxy that is installed, in
the configurations of `examples/service/several`. What isn't installed is left out, and told.
"""
import contextlib
import http.client
import json
import os
import shutil
import subprocess
import time
from collections.abc import Iterator
from concurrent.futures import ThreadPoolExecutor
from pathlib import Path
from typing import Any

from uptane_tools import arguments
from uptane_tools.measure import fleet, http_fleet, speed
from uptane_tools.trial import http_cases, proxy_cases, trials

DESKS, MORE = 4, 6
SEVERAL = trials.TOP / "examples" / "service" / "several"
UNKNOWN = (404, b'{"error":10,"text":"UnknownVehicle"}')

# ---- scripts


class Desks:
    """A file for each desk, and the folder of their division."""

    def __init__(self, program: Any, own: Path) -> None:
        self.program, self.own, self.folder, self.number = program, own, own / "division", 0

    def path(self, desk: int) -> Path:
        return self.own / ("desk%d" % desk)

    def split(self, script: list[str], desks: int) -> tuple[int, list[str], str]:
        self.number = desks
        given = "".join(line + "\n" for line in script).encode("ascii")
        return trials.tool("divide_script", self.folder, "--desks", desks, given=given)

    def answer(self, desk: int) -> bool:
        """Gives a desk its script, and keeps its answers."""
        with open(self.folder / ("desk%d.script" % desk), "rb") as given, open(
                self.folder / ("desk%d.answers" % desk), "wb") as told:
            return subprocess.run([self.program, "run", self.path(desk)], stdin=given, stdout=told,
                                  check=False).returncode == 0

    def ran(self, script: list[str], desks: int) -> list[str] | None:
        """The joined answers to a script; none where anything went wrong."""
        well = self.split(script, desks)[0] == 0 and all(map(self.answer, range(1, desks + 1)))
        status, answers, err = trials.tool("divide_script", self.folder, "--join")
        return answers if well and not err and status == any(
            it.startswith("differs") for it in answers) else None

    def vehicles(self) -> dict[str, int]:
        """The desk of each vehicle, as the proxies are told."""
        lines = (self.folder / "vehicles.map").read_text(encoding="ascii").splitlines()
        return {name: int(desk.removeprefix("desk")) for name, desk in map(str.split, lines)}

    def rows(self) -> list[dict[str, list[tuple[Any, ...]]]]:
        return [trials.rows(self.path(desk)) for desk in range(1, self.number + 1)]


BY_VEHICLE = ("vehicle", "ecu", "kept", "retired")
FOR_ALL = ("meta", "role_key", "repo_file", "image", "image_sha512")


def united(desks: Any, table: str) -> list[Any]:
    return sorted((row for rows in desks for row in rows[table]), key=repr)


def scripts(program: Path, own: Path) -> trials.Cases:
    lines = list(
        fleet.script(vehicles=30, ecus=3, rounds=4, images=12, campaigns=6, seed=3, replaced=0.2))
    wanted, desks, told = trials.printed(program, own / "one", lines), Desks(program, own), []
    parts = [lines[at:at + 60] for at in range(0, len(lines), 60)]
    for number, part in enumerate(parts):
        told += desks.ran(part, DESKS if number < 3 else MORE) or []
    yield "%d lines in %d parts are answered as by one desk" % (
        len(lines), len(parts)), len(wanted) == len(lines) and told == wanted
    rows, one = desks.rows(), trials.rows(own / "one")
    yield "vehicles, ECUs and kept replies are those of one desk", all(
        united(rows, table) == one[table] for table in BY_VEHICLE)
    yield "so are keys, files and images, at each", all(
        it[table] == one[table] for table in FOR_ALL for it in rows)
    load = [len(it["vehicle"]) for it in rows]
    yield "each has its share of the vehicles", max(load[:DESKS]) - min(load[:DESKS]) <= 1 and sum(
        load) == 30
    modes = {
        path.name: path.stat().st_mode & 0o777 for path in desks.folder.iterdir()
        if not path.name.endswith(".answers")}
    yield "what is kept is its owner's alone", set(modes) == {
        "division.json", "every.script", "vehicles.map"} and set(modes.values()) == {0o600}
    yield from afterwards(program, own, desks, lines)


def vehicle(name: str, *ecus: Any) -> str:
    return fleet.line("add_vehicle", vehicle=name, primary=ecus[0],
                      ecus=[{"ecu": ecu, "hardware": "HP", "key": fleet.key(9)} for ecu in ecus])


def campaign(name: str, vehicles: Any) -> str:
    line = json.loads(
        next(it for it in fleet.script(vehicles=1, ecus=3, rounds=0, images=12, campaigns=6, seed=3)
             if '"open_campaign"' in it))
    return fleet.canonical(line | {"campaign": name, "vehicles": vehicles})


def afterwards(program: str | Path, own: Path, desks: Any, lines: list[str]) -> trials.Cases:
    """Names that are taken at another desk, and what is no line on a vehicle, are answered as by
    one.
    """
    first, second = "v000000", "v000001"
    told: Any = [
        vehicle("new", "a1", second + "-e0"),
        vehicle("new", "a1", "a2"),
        vehicle(first, "b1"), "nope", "[]", '{"do":"show","at":1}', '{"do":{}}',
        fleet.line("show", vehicle="nobody"),
        fleet.line("deliver", body="{}"),
        campaign("few", [first]),
        campaign("few", [first]),
        campaign("every", "all"),
        fleet.line("close_campaign", campaign="none")]
    wanted = trials.printed(program, own / "one", told)
    yield "names that are taken at another desk", desks.ran(told,
                                                            MORE) == wanted and len(set(wanted)) > 6
    told = [
        campaign("few", [second]),
        campaign("few", "all"),
        campaign("every", [second]),
        fleet.line("close_campaign", campaign="few"),
        fleet.line("close_campaign", campaign="few"),
        fleet.line("close_campaign", campaign="every"),
        campaign("few", [first]), lines[0]]
    wanted = trials.printed(program, own / "one", told)
    yield "and campaigns", desks.ran(told, MORE) == wanted and len(set(wanted)) == 4
    before = {path.name: path.read_bytes() for path in desks.folder.iterdir()}
    cannot = [([campaign("x", [first]), campaign(
        "x", [second])], MORE, "line 2: the campaign x stands twice, with other members"),
              ([campaign("x", ["nobody"])], MORE, "line 1: nobody is at no desk"),
              (["nope", campaign("x", ["nobody"])], MORE, "line 2: nobody is at no desk"),
              ([
                  fleet.line("replace_ecu", vehicle=first, old=first + "-e1", ecu=second + "-e0",
                             hardware="HP", key=fleet.key(9))], MORE,
               "line 1: %s-e0 is an ECU's name at desk 2" % second),
              ([], DESKS, "4 desks: there were 6, and 64 are the most")]
    yield "what can't be divided", all(
        desks.split(script, number) == (1, [], "divide_script: %s\n" % words)
        for script, number, words in cannot)
    yield "and nothing is written then", {
        path.name: path.read_bytes() for path in desks.folder.iterdir()} == before
    desks.split([lines[0]], MORE)
    yield "two scripts at once", desks.split([lines[0]], MORE)[0] == 1
    well = all(map(desks.answer, range(1, MORE + 1)))
    (desks.folder / "desk2.answers").write_bytes(b"")
    status, _, err = trials.tool("divide_script", desks.folder, "--join")
    yield "answers that are missing", well and status == 1 and ("desk2.answers has 0 answers, and "
                                                                "its script 1 lines") in err
    well = desks.answer(2)
    (desks.folder / "desk6.answers").write_bytes(b"refused 2 Store\n")
    status, answers, err = trials.tool("divide_script", desks.folder, "--join")
    told = "differs: desk 1 refused 9 AlreadyFounded; "
    yield "desks that differ", well and (status, err) == (
        1, "") and answers[0].startswith(told) and answers[0].endswith("desk 6 refused 2 Store")


# ---- requests


def posted(port: int, body: bytes, at: str = "") -> tuple[int, bytes]:
    """The status and the body of the answer to a manifest."""
    with contextlib.closing(
            http.client.HTTPConnection("127.0.0.1", port, timeout=http_cases.PATIENCE)) as client:
        client.request("POST", at + "/director/manifest", body)
        came = client.getresponse()
        return came.status, came.read()


@contextlib.contextmanager
def all_served(program: str | Path, paths: Any, count: int) -> Iterator[list[http_cases.Served]]:
    with contextlib.ExitStack() as up:
        yield [up.enter_context(http_cases.served(program, path, count)) for path in paths]


def requests(program: str | Path, own: Path) -> trials.Cases:
    lines, bodies = http_fleet.day(160)
    desks = Desks(program, own)
    yield "a fleet at four desks", desks.ran(lines, DESKS) == trials.printed(
        program, own / "one", lines)
    home, paths = desks.vehicles(), [desks.path(desk) for desk in range(1, DESKS + 1)]
    with all_served(program, paths, 10_000) as running:
        told = [posted(running[home[http_fleet.named(body)[0]] - 1].port, body) for body in bodies]
        yield from proxied(own, desks, [it.port for it in running], bodies, dict(zip(bodies, told)))
    kept, moments = ({
        key: value for path in paths for key, value in http_fleet.kept(path, what).items()}
                     for what in ("reply", "moment"))
    yield "each is answered by its kept reply", told == [
        (200, kept[http_fleet.named(body)].encode()) for body in bodies]
    again = [
        fleet.line("deliver", moments[http_fleet.named(body)], body=body.decode("ascii"))
        for body in bodies]
    yield "the same at one desk", trials.printed(
        program, own / "one", again) is not None and http_fleet.kept(own / "one", "reply") == kept
    yield "leaves the same rows of every vehicle", all(
        united(desks.rows(), table) == trials.rows(own / "one")[table] for table in BY_VEHICLE)


class Before(proxy_cases.Proxy):
    """A proxy before several services, with the map of their vehicles."""

    def __init__(self, own: Path, name: str, port: int, desks: Any, ports: Any,
                 secret: Any) -> None:
        super().__init__(own, name, port, 0, secret)
        self.desks, self.ports = desks, ports

    def words(self) -> list[str]:
        given = SEVERAL / ("nginx.conf" if self.name == "nginx" else "haproxy.cfg")
        path = self.own / (self.name + ".conf")
        path.write_text(self.changed(given.read_text("ascii")), "ascii")
        listed = (self.desks.folder / "vehicles.map").read_text("ascii")
        (self.own / "vehicles.map").write_text(listed, "ascii")
        (self.own / "vehicles.nginx").write_text(listed.replace("\n", ";\n"), "ascii")
        return ["nginx", "-p", str(self.own), "-c", str(path)] if self.name == "nginx" else [
            "haproxy", "-db", "-f", str(path)]

    def changed(self, text: str) -> str:
        for number, port in enumerate(self.ports, 1):
            text = text.replace("127.0.0.1:808%d" % number, "127.0.0.1:%d" % port)
        text = text.replace("/etc/uptane/vehicles", "%s/vehicles" % self.own)
        return super().changed(text)


def certified(own: Path) -> bool:
    secret = proxy_cases.certified(own)
    if not secret:
        print("no openssl, so no TLS")
    return secret


def proxied(own: Path, desks: Any, ports: list[int], bodies: list[bytes],
            told: dict[bytes, Any]) -> trials.Cases:
    """Each proxy that is installed takes a vehicle's requests to its desk."""
    home, secret = desks.vehicles(), certified(own)
    with trials.read(desks.path(1)) as db:
        root = db.execute(
            "SELECT body FROM repo_file WHERE repository = 'director' AND name = 'root.json'"
        ).fetchone()[0].encode()
    for name in ("nginx", "haproxy"):
        if not shutil.which(name):
            print("%s isn't installed, so it is left out" % name)
            continue
        proxy = Before(own, name, http_cases.free_port(), desks, ports, secret)
        with proxy.running(), ThreadPoolExecutor(8) as pool:

            def send(body: bytes) -> tuple[int, bytes]:
                return proxy_cases.asked(
                    proxy, "POST", "/%s/director/manifest" % http_fleet.named(body)[0], body)[0]

            yield name + ": each manifest comes to its desk", list(pool.map(send, bodies)) == [
                told[body] for body in bodies]
            files = {
                proxy_cases.asked(proxy, "GET", "/%s/director/root.json?a=%%2F" % it)[0]
                for it in home}
            yield name + ": so does a request for a file", files == {(200, root)}
            stranger = json.loads(bodies[0])
            stranger["signed"]["vehicle"] = "nobody"
            yield name + ": a vehicle that no desk has", proxy_cases.asked(
                proxy, "POST", "/nobody/director/manifest", json.dumps(stranger))[0] == UNKNOWN
            bare = [
                proxy_cases.asked(proxy, "GET", target)[0]
                for target in ("/director/root.json", "/", "/v000000")]
            yield name + ": an address without a vehicle", bare == 3 * [
                (404, b'{"error":0,"text":"not found"}')]


# ---- measures


def parted(lines: Any, number: int, many: int) -> list[list[Any]]:
    """The manifests of each desk: vehicle v is at desk v mod many."""
    parts: Any = [[] for _ in range(many)]
    for at, line in enumerate(lines):
        parts[at % number % many].append(json.loads(line)["body"].encode("ascii"))
    return parts


def filled(program: str | Path, own: Path, many: int, vehicles: int, ecus: int) -> list[Path]:
    """Files of so many desks, each with its share of the vehicles."""
    paths = [own / ("of%d desk%d" % (many, desk)) for desk in range(many)]
    for desk, path in enumerate(paths):
        mine = {"v%06d" % at for at in range(vehicles) if at % many == desk} | {"other"}
        lines = [
            it for it in speed.prepared(vehicles, 10, 10, ecus)
            if '"add_vehicle"' not in it or json.loads(it)["vehicle"] in mine]
        assert set(trials.printed(program, path, lines, 600)) == {"done"}
    return paths


def rate(program: str | Path, own: Path, many: int, ecus: int, number: int,
         vehicles: int = 400) -> float:
    """Manifests a second, of so many desks at once, a hundred a connection."""
    paths = filled(program, own, many, vehicles, ecus)
    parts = [[http_cases.POST % len(body) + body for body in part]
             for part in parted(speed.manifests(vehicles, number, 1, ecus), vehicles, many)]
    with all_served(program, paths, 10_000) as running, ThreadPoolExecutor(many) as pool:
        begun = time.perf_counter()
        assert all(pool.map(speed.sent, running, parts))
        return number / (time.perf_counter() - begun)


def listening(program: str | Path, paths: Any) -> tuple[float, list[int]]:
    """Seconds until all listen, and the memory of each in MB."""
    begun = time.perf_counter()
    with all_served(program, paths, 1) as running:
        took = time.perf_counter() - begun
        told = [(Path("/proc/%d/status" % it.pid).read_text()) for it in running]
    return took, [int(text.split("VmHWM:")[1].split()[0]) >> 10 for text in told]


def measure(program: str | Path) -> None:
    with trials.folder() as own:
        for ecus in (1, 4):
            one, four = (rate(program, own, many, ecus, 8000) for many in (1, 4))
            print(
                "| manifests a second, of %d ECUs | %d | %d | %.2f |" %
                (ecus, one, four, four / one), flush=True)
            for path in own.glob("of*"):
                path.unlink()
        kept = 20_000
        for many in (1, 4):
            paths = filled(program, own, many, 400, 4)
            for desk, path in enumerate(paths):
                part = [
                    it for at, it in enumerate(speed.manifests(400, kept, 1, 4))
                    if at % 400 % many == desk]
                assert trials.printed(program, path, part, 3600) is not None
            took, memory = listening(program, paths)
            sizes = [os.stat(path).st_size >> 20 for path in paths]
            print(
                "| %d kept replies of 4 ECUs, at %d desks | %s MB | %.2f s | %s MB |" %
                (kept, many, sizes, took, memory), flush=True)


def cases(program: Path) -> trials.Cases:
    for part in (scripts, requests):
        with trials.folder() as own:
            own.chmod(0o755)
            yield from part(program, own)


def main(words: arguments.Words = None) -> int:
    """Tries several desks, or measures them."""
    asked = arguments.given(__doc__, words, "program", order=["try", "measure"])
    program = Path(asked.program).resolve()
    if asked.order == "measure":
        measure(program)
        return 0
    return trials.judged("scale", cases(program))
