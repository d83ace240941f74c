"""Measures how many manifests a second clients get that come at once, by the time that a disk takes
to synchronise; a long script; and what a crowd holds.

    tools/run clients PROGRAM FOLDER [OTHER ..] [--number NUMBER] [--lines LINES]

The first manifests of vehicles of four ECUs (NUMBER, 400 of them, twice as many on a disk of 1 ms,
and four times by 64 clients or on a disk of 0), a connection each, by 1, 8 and 64 clients, over a
file in FOLDER: of the program and of OTHER ones, as the forerunner, turn by turn, three times, of
which the best counts. They are made before, and a small program sends them (`clients.c`), so that
it takes little of what is measured. Each call that waits for the disk takes 0, 1 and 10
milliseconds longer (`slow_disk.c`): so FOLDER is to be in memory, as /dev/shm is. Both need a C
compiler. A row has manifests a second, for a second of a processor, the median and the greatest
wait in milliseconds, and manifests for each call that waited. Then a script of LINES (10,000) new
vehicles of four ECUs on each such disk: seconds, and calls that waited; none where LINES is 0. Then
255 clients that each have sent a manifest of the greatest length but for its last byte, and one
more that asks for a file: what the program takes of memory meanwhile, and before.
"""
import contextlib
import socket
import statistics
import struct
import subprocess
import tempfile
import time
from dataclasses import dataclass
from pathlib import Path

from uptane_tools import arguments
from uptane_tools.measure import fleet, speed
from uptane_tools.trial import http_cases, trials

# milliseconds, and clients, and how many times NUMBER each sends; the larger number counts
DISKS, CLIENTS = {0: 4, 1: 2, 10: 1}, {1: 1, 8: 1, 64: 4}
ROUNDS, CROWD, LONGEST, PATIENCE = 3, 255, 262_144, 600
ECUS = 4


@dataclass(frozen=True)
class Disk:
    """A disk that takes so many milliseconds more to synchronise, and counts."""

    library: Path
    wait: int

    @property
    def counted(self) -> Path:
        return self.library.with_suffix(".syncs")

    def variables(self) -> dict[str, str]:
        self.counted.write_bytes(bytes(8))
        return {
            "LD_PRELOAD": str(self.library), "SLOW_DISK": str(1000 * self.wait),
            "SYNCS": str(self.counted)}

    def syncs(self) -> int:
        return int(struct.unpack("q", self.counted.read_bytes())[0])


def compiled(made: Path, source: Path, *words: str) -> Path:
    """The same file, compiled from this source."""
    subprocess.run(["cc", "-O1", *words, "-o", str(made), str(source)], check=True)
    return made


def library_in(own: Path) -> Path:
    """The library that slows a disk down, made in this folder."""
    source = Path(trials.__file__).with_name("slow_disk.c")
    return compiled(own / "slow_disk.so", source, "-shared", "-fPIC")


def clients_in(own: Path) -> Path:
    """The program of the clients, made in this folder."""
    return compiled(own / "clients", Path(__file__).with_name("clients.c"))


@dataclass(frozen=True)
class Asked:
    """The status of an answer, and the microseconds at which its request was begun and ended."""

    status: int
    begun: int
    ended: int


def asked(client: Path, port: int, clients: int, requests: list[bytes]) -> list[Asked]:
    """What came of these requests, each of which ends its connection, by so many clients."""
    ran = subprocess.run([str(client), str(port), str(clients)], input=b"".join(
        struct.pack("I", len(it)) + it for it in requests), capture_output=True, check=True)
    return [Asked(*map(int, line.split())) for line in ran.stdout.splitlines()]


@dataclass(frozen=True)
class Rate:
    """Manifests a second, for a second of a processor, their waits in milliseconds, and how many
    there were for each call that waited for the disk.
    """

    a_second: float
    of_processor: float
    median: float
    most: float
    together: float

    def told(self) -> str:
        return "%d | %d | %.1f | %.1f | %.1f" % (self.a_second, self.of_processor, self.median,
                                                 self.most, self.together)


def by_clients(program: str, path: Path, client: Path, bodies: list[bytes], clients: int,
               disk: Disk) -> Rate:
    """The rate over a file that has the vehicles of these bodies."""
    requests = [http_cases.closing_one(http_cases.POST % len(body) + body) for body in bodies]
    with http_cases.served(program, path, 100_000, disk.variables()) as running:
        used, synced = speed.processor(running.pid), disk.syncs()
        came = asked(client, running.port, clients, requests)
        used = speed.processor(running.pid) - used
        assert len(came) == len(requests) and {it.status for it in came} == {200}
        waits = [(it.ended - it.begun) / 1000 for it in came]
        return Rate(1e6 * len(came) / max(it.ended for it in came), 1e6 * len(came) / used,
                    statistics.median(waits), max(waits),
                    len(came) / max(disk.syncs() - synced, 1))


def rates(programs: list[str], own: Path, beside: Path, number: int) -> None:
    library, client = library_in(beside), clients_in(beside)
    most = number * max(*DISKS.values(), *CLIENTS.values())
    filled = own / "filled"
    assert trials.printed(programs[0], filled, speed.prepared(most, 10, 10, ECUS), PATIENCE)
    bodies = [
        http_cases.json.loads(line)["body"].encode("ascii")
        for line in speed.manifests(most, most, 1, ECUS)]
    for wait, times in DISKS.items():
        for clients, more in CLIENTS.items():
            came: dict[str, list[Rate]] = {it: [] for it in programs}
            for _ in range(ROUNDS):
                for name in programs:
                    path = trials.copied(filled, own / "desk")
                    few, disk = bodies[:number * max(times, more)], Disk(library, wait)
                    came[name].append(by_clients(name, path, client, few, clients, disk))
                    path.unlink()
                    trials.log_of(path).unlink(missing_ok=True)
            for name, told in came.items():
                best = max(told, key=lambda it: it.a_second)
                print("| %d ms | %d | %s | %s |" % (wait, clients, Path(name).name, best.told()),
                      flush=True)


def new_vehicles(number: int) -> list[str]:
    """The founding, and lines that add so many vehicles."""
    own = fleet.Fleet(number, ECUS, 0, 0, 1)
    return [it for it in own.setup() if '"do":"found"' in it or '"do":"add_vehicle"' in it]


def by_script(programs: list[str], own: Path, library: Path, number: int) -> None:
    script = new_vehicles(number)
    given = own / "script"
    given.write_text("".join(line + "\n" for line in script), encoding="ascii")
    for wait in DISKS:
        for name in programs:
            disk, path = Disk(library, wait), own / "scripted"
            begun = time.monotonic()
            with open(given, "rb") as lines:
                ran = subprocess.run([name, "run", str(path)], stdin=lines, capture_output=True,
                                     check=True, env=http_cases.os.environ | disk.variables())
            took = time.monotonic() - begun
            assert ran.stdout == len(script) * b"done\n"
            print(
                "| %d ms | %d lines | %s | %.1f s | %d waits |" %
                (wait, len(script), Path(name).name, took, disk.syncs()), flush=True)
            path.unlink()


def resident(pid: int) -> int:
    """The kilobytes of memory that a program takes."""
    told = Path("/proc/%d/status" % pid).read_text(encoding="ascii")
    return int(told.split("VmRSS:")[1].split()[0])


def held(program: str, path: Path) -> tuple[int, int]:
    """The kilobytes that the program takes before, and with the crowd."""
    trials.printed(program, path, speed.prepared(10, 1, 1, 1))
    with http_cases.served(program, path, 100_000) as running, contextlib.ExitStack() as up:
        before = resident(running.pid)
        for _ in range(CROWD):
            client = up.enter_context(socket.create_connection(("127.0.0.1", running.port)))
            client.sendall(http_cases.POST % LONGEST + (LONGEST - 1) * b" ")
        # (what is read last is read before the one that comes next is answered)
        assert b" 404 " in http_cases.told(running, http_cases.NO_FILE, PATIENCE)
        return before, resident(running.pid)


def main(words: arguments.Words = None) -> int:
    """Measures the program that is named, and another one."""
    parser = arguments.parser(__doc__)
    for name in ("program", "folder"):
        parser.add_argument(name, metavar=name.upper())
    parser.add_argument("other", nargs="*", metavar="OTHER")
    parser.add_argument("--number", type=int, default=400)
    parser.add_argument("--lines", type=int, default=10_000)
    given = parser.parse_args(words)
    programs = [str(Path(it).resolve()) for it in (given.program, *given.other)]
    with tempfile.TemporaryDirectory(dir=given.folder) as folder, trials.folder() as beside:
        own = Path(folder)
        rates(programs, own, beside, given.number)
        if given.lines:
            by_script(programs, own, library_in(beside), given.lines)
        print("%d kB before a crowd, %d kB with it" % held(programs[0], own / "crowd"))
    return 0
