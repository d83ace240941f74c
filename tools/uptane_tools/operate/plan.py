"""Tells what a fleet will need, and how many desks to begin with. Vehicles never move between
desks, so begin with what the last year needs.

    tools/run plan --vehicles N --ecus N [--manifests-a-day N] [--years N] [--desks N] [--scheme
        ed25519|hmac-sha256] [--one-hash] [--names BYTES] [--seconds S] [--memory GB] [--disk GB]
        [--clones] [--copies N] [--busiest SHARE] [--requests N] [--speed FACTOR] [--sync MS]

For 1, 2, 4, 8, 16, 32 and 64 desks, or for N, it prints what there is at the end of so many
years (10): the replies that each keeps, its file, the seconds of a start and its peak of memory,
what stays in memory behind it, the days between two starts and the seconds a day that each is
away for them, the time of a manifest that comes alone, how busy each is in the busiest hour, the
disk of all together, and the minutes of an upgrade, which starts one after another.

A reply is kept for good, with its manifest: of so many ECUs, with SHA-512 beside SHA-256 but for
--one-hash, of that scheme (ed25519), and with names of so many bytes (20) for vehicles, ECUs and
files. Reports without a note, plans without an assignment, and one key a role are reckoned with;
images, campaigns and keys are left out. SQLite's pages of 4,096 bytes hold whole rows, so a file
grows in steps of these.

No act of an operator stops a desk. A service starts anew behind 1,000,000 connections; a vehicle
makes --requests of them (6) for each manifest. So many whole copies of each file are kept (48), on
the same disk; with --clones (XFS, Btrfs) they take what grew meanwhile.

Desks are enough where a start takes at most S seconds (60), where all desks of one machine and a
start, of one of them or of a copy that is tried, fit into its memory (8 GB), all files and copies
on its disk (200 GB), and where the busiest hour, which has SHARE of a day's manifests (0.2),
leaves a desk half of its time. The last line says how many are enough, and the status is 1 where
64 aren't.

The figures are those of `docs/use/SPEED.md`, measured on a machine that had other work: FACTOR
(1) is how many times as fast yours is. What is at hand waits together until the disk has
synchronised, MS milliseconds (5; a disk for servers takes 0.1), in groups of ten where many come.
"""
import argparse
from collections.abc import Iterator
from dataclasses import dataclass

from uptane_tools import arguments

# SQLite's page, and what of a row it takes in itself (its file format, "cell payload overflow")
PAGE, HEAD, CELL = 4096, 8, 8
MOST_LOCAL, LEAST_LOCAL = PAGE - 35, (PAGE - 12) * 32 // 255 - 23
# the texts of a kept reply: a manifest's own part, each report, its second hash, the Director's
# files, and what a signature of Ed25519 is longer by than one of HMAC
MANIFEST_TEXT, REPORT_TEXT, SECOND_HASH, REPLY_TEXT, LONGER = 69, 401, 140, 1179, 60
# a row's numbers and its head; an entry of each of two indexes, which are three quarters full
ROW, ENTRY, FULL = 24, 12, 0.75
# what a start takes beside a kept reply's texts; what stays in memory behind it with jemalloc: so
# much, and so much for each reply
START_BYTES, STAYS, STAYS_BYTES = 210, 18_000_000, 20
# processor seconds of a start for a million kept replies, and for each thousand bytes of their
# texts
START_SECONDS, START_TEXT = 10.0, 14.4
# what a program without kept replies takes
PROGRAM_BYTES = 11_500_000
# processor microseconds of a manifest: so many, for each ECU, and for each thousand kept replies;
# and for each signature of Ed25519
MANIFEST, MANIFEST_ECU, MANIFEST_KEPT, VERIFY, SIGN = 350, 150, 0.2, 89, 42
# a service ends behind so many connections
CONNECTIONS = 1_000_000
# manifests that wait for the disk together in the busiest hour
TOGETHER = 10
MOST_DESKS = 64
YEAR = 365


def texts(given: argparse.Namespace) -> int:
    """The bytes of a kept reply's texts."""
    longer = LONGER if given.scheme == "ed25519" else 0
    report = REPORT_TEXT + 2 * given.names + longer + (0 if given.one_hash else SECOND_HASH)
    reports = MANIFEST_TEXT + 2 * given.names + given.ecus * report
    return reports + REPLY_TEXT + 4 * given.names + 3 * longer


def row_bytes(payload: float) -> float:
    """What a row takes of the file: its share of a leaf, and pages of its own for what is too
    long for one.
    """
    beyond = 0
    local = payload
    if payload > MOST_LOCAL:
        local = LEAST_LOCAL + (payload - LEAST_LOCAL) % (PAGE - 4)
        local = local if local <= MOST_LOCAL else LEAST_LOCAL
        beyond = -(-int(payload - local) // (PAGE - 4))
    return PAGE / ((PAGE - HEAD) // (local + CELL)) + PAGE * beyond


def reply_bytes(given: argparse.Namespace) -> float:
    """What a kept reply takes of the file, its entries in two indexes included."""
    return row_bytes(texts(given) + given.names + ROW) + 2 * (given.names + ENTRY) / FULL


@dataclass(frozen=True)
class Desk:
    """What one desk of so many needs."""

    kept: int
    file: float
    start: float
    peak: float
    stays: float
    days: float
    away: float
    manifest: float
    busy: float
    memory: float
    disk: float
    upgrade: float

    def lacks(self, given: argparse.Namespace) -> list[str]:
        """The names of what it doesn't keep below its limit."""
        limits = {
            "start": self.start <= given.seconds, "memory": self.memory <= given.memory * 1e9,
            "disk": self.disk <= given.disk * 1e9, "busy": self.busy <= 0.5}
        return [name for name, holds in limits.items() if not holds]


def needed(given: argparse.Namespace, desks: int) -> Desk:
    """What one desk of so many needs."""
    vehicles = -(-given.vehicles // desks)
    a_day = vehicles * given.manifests_a_day
    kept = int(a_day * YEAR * given.years)
    file = kept * reply_bytes(given)
    start = kept / 1e6 * (START_SECONDS + START_TEXT * texts(given) / 1000) / given.speed
    peak = PROGRAM_BYTES + kept * (texts(given) + given.names + START_BYTES)
    stays = min(peak, STAYS + kept * STAYS_BYTES)
    days = CONNECTIONS / max(a_day * given.requests, 1)
    away = (start + 1) / days
    signed = (given.ecus + 1) * VERIFY + 3 * SIGN if given.scheme == "ed25519" else 0
    processor = (MANIFEST + MANIFEST_ECU * given.ecus + signed +
                 MANIFEST_KEPT * kept / 1000) / given.speed
    manifest = processor + 1000 * given.sync
    busy = a_day * given.busiest / 3600 * (processor + 1000 * given.sync / TOGETHER) / 1e6
    memory = stays * desks + peak
    grown = min(file, 2 * a_day * reply_bytes(given))
    disk = desks * (file + (2 * grown if given.clones else given.copies * file))
    upgrade = desks * (start + 1) / 60
    return Desk(kept, file, start, peak, stays, days, away, manifest, busy, memory, disk, upgrade)


def size(number: float) -> str:
    return "%.1f GB" % (number / 1e9) if number >= 1e9 else "%.0f MB" % (number / 1e6)


def rows(given: argparse.Namespace, numbers: list[int]) -> Iterator[list[str]]:
    yield [
        "desks", "replies each", "file", "start", "its peak", "stays", "starts each", "away a day",
        "manifest", "busy", "memory", "disk", "upgrade", "too much"]
    for desks in numbers:
        it = needed(given, desks)
        yield [
            str(desks),
            format(it.kept, ","),
            size(it.file),
            "%.0f s" % it.start,
            size(it.peak),
            size(it.stays),
            "%.0f days" % it.days,
            "%.1f s" % it.away,
            "%.1f ms" % (it.manifest / 1000),
            "%.0f%%" % (100 * it.busy),
            size(it.memory),
            size(it.disk),
            "%.0f min" % it.upgrade, ", ".join(it.lacks(given)) or "-"]


def printed(table: list[list[str]]) -> None:
    widths = [max(len(row[at]) for row in table) for at in range(len(table[0]))]
    for row in table:
        print("  ".join(cell.rjust(width) for cell, width in zip(row[:-1], widths)) + "  " +
              row[-1])


def enough(given: argparse.Namespace) -> int | None:
    """The least number of desks that keeps all below the limits; none where 64 don't."""
    return next(
        (desks for desks in range(1, MOST_DESKS + 1) if not needed(given, desks).lacks(given)),
        None)


def parsed(words: arguments.Words) -> argparse.Namespace:
    parser = arguments.parser(__doc__)
    parser.add_argument("--vehicles", type=int, required=True)
    parser.add_argument("--ecus", type=int, required=True)
    parser.add_argument("--desks", type=int, default=None)
    parser.add_argument("--names", type=int, default=20)
    usual = {
        "--manifests-a-day": 1, "--years": 10, "--seconds": 60, "--memory": 8, "--disk": 200,
        "--busiest": 0.2, "--copies": 48, "--requests": 6, "--speed": 1, "--sync": 5}
    for name, value in usual.items():
        parser.add_argument(name, type=float, default=value)
    for name in ("--clones", "--one-hash"):
        parser.add_argument(name, action="store_true")
    parser.add_argument("--scheme", choices=["ed25519", "hmac-sha256"], default="ed25519")
    given = parser.parse_args(words)
    numbers = [it for it in vars(given).values() if isinstance(it, (int, float))]
    if min(given.vehicles, given.ecus, given.desks or 1) < 1 or min(numbers) < 0 or not given.speed:
        parser.error("these are numbers from 1 on, or from 0 on")
    return given


def main(words: arguments.Words = None) -> int:
    given = parsed(words)
    printed(list(rows(given, [given.desks] if given.desks else [2**at for at in range(7)])))
    number = enough(given)
    if number is None:
        print("64 desks, the most there can be, aren't enough: ask vehicles to report less often, "
              "or give more")
        return 1
    print("%d %s enough" % (number, "desk is" if number == 1 else "desks are"))
    return 0
