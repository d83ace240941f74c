"""Measures the program: instructions a line, lines a second, and what a start takes.
`docs/use/SPEED.md` has the figures.

    tools/run speed PROGRAM fleets         instructions a line, over memory, over a file where each
                                           is given once the one before it is answered, and over one
                                           where the script is given whole; and compressions of
                                           SHA-256, of scripts of seven fleets
    tools/run speed PROGRAM functions      the five functions that take most of them, in the fleet
                                           of `fleets` that is first
    tools/run speed PROGRAM malloc         calls of malloc, calloc and realloc a line, of the same
                                           scripts
    tools/run speed PROGRAM commands       instructions and compressions of SHA-256 of a line of
                                           each kind
    tools/run speed PROGRAM lines          lines for a second of a processor, over a file and over
                                           memory
    tools/run speed PROGRAM growth         how a manifest's time grows with kept replies, images,
                                           campaigns that run or are closed, vehicles
    tools/run speed PROGRAM growth_counts  the same in instructions, over files
    tools/run speed PROGRAM senders        instructions of a fresh, a repeated, a stale and a forged
                                           manifest of 4 ECUs, over files with so many campaigns and
                                           images, behind a manifest of the same vehicle; and of a
                                           forged one behind one of another
    tools/run speed PROGRAM loading        what the first manifest behind a start takes more, over
                                           such files, and what stays in memory
    tools/run speed PROGRAM start          processor seconds and memory of a start over files of so
                                           many kept replies
    tools/run speed PROGRAM sums           instructions of a start and of a manifest over files with
                                           and without sums of pages
    tools/run speed PROGRAM http           requests for a second of a processor, beside the same by
                                           script, and instructions
    tools/run speed PROGRAM head           instructions for a head of 16,384 bytes in one piece and
                                           a byte at a time
    tools/run speed PROGRAM millions       the same over files of one and four million kept replies,
                                           what stays in memory, and a manifest's time
    tools/run speed PROGRAM allocators     memory behind a start and lines for a second, with the C
                                           library's malloc and with jemalloc
    tools/run speed PROGRAM proxied        manifests a second behind each proxy that is installed, a
                                           connection each, on the disk of TMPDIR
    tools/run speed PROGRAM bodies         instructions a byte to refuse bodies of 64 KiB and of 256
                                           KiB, by their shape

Instructions are those that valgrind's callgrind counts; compressions are the calls of SHA-256's
function in its file, and those of malloc are counted in it too. Other parts need no valgrind. A
number behind `growth_counts`, `start`, `millions` or `sums` is the greatest number of kept
replies, for a quick trial; `millions` needs 9 GB of disk and as much memory, `millions 1000000`
half of that, and both a C compiler. Files are made where `TMPDIR` says.
"""
import contextlib
import json
import os
import re
import shutil
import sqlite3
import subprocess
import sys
import threading
import time
from collections.abc import Iterator, Sequence
from concurrent.futures import ThreadPoolExecutor
from contextlib import closing
from dataclasses import dataclass
from pathlib import Path
from typing import Any

from uptane_tools import arguments
from uptane_tools.measure import fleet
from uptane_tools.operate import page_sums
from uptane_tools.trial import http_cases, proxy_cases, trials

FLEETS: dict[str, dict[str, Any]] = {
    "40 of 4 ECUs": {"vehicles": 40, "ecus": 4}, "100 of 4 ECUs": {"vehicles": 100, "ecus": 4},
    "1,000 of 1 ECU": {"vehicles": 1000, "ecus": 1, "rounds": 2}, "1,000 of 1 ECU, three rounds": {
        "vehicles": 1000, "ecus": 1,
        "rounds": 3}, "10 of 32 ECUs": {"vehicles": 10, "ecus": 32}, "10 of 32 ECUs, ten rounds": {
            "vehicles": 10, "ecus": 32, "rounds": 10}, "40 of 4 ECUs, images with two hashes": {
                "vehicles": 40, "ecus": 4, "second_hashes": 1}}
COMPRESS = re.compile(r".*block256::compress")
TAKES_MEMORY = [re.compile(name) for name in ("malloc", "calloc", "realloc")]
MOST = 100_000


def callgrind(told: Any, *more: Any) -> list[Any]:
    """The words before a program's that have callgrind count it and write the file `told`."""
    return ["valgrind", "--tool=callgrind", "--callgrind-out-file=%s" % told, *more]


def collected(err: bytes) -> int:
    """The instructions that callgrind's message tells."""
    return int(re.search(rb"Collected : (\d+)", err)[1])


def counted(program: str | Path, script: list[str], own: Path, told: Any,
            path: Any = ":memory:") -> Any:
    """The instructions that a script takes over a database; `told` is the file that callgrind
    writes.
    """
    given = own / "script"
    given.write_text("".join(line + "\n" for line in script), encoding="ascii")
    with open(given, "rb") as lines:
        words = [*callgrind(told), str(program), "run", str(path)]
        ran = subprocess.run(words, stdin=lines, capture_output=True, check=True)
    return collected(ran.stderr)


def counted_by_line(program: str | Path, script: list[str], told: Any, path: Path) -> int:
    """The instructions that a script takes of which each line is given once the one before it was
    answered.
    """
    words, pipes = [*callgrind(told), str(program), "run", str(path)], subprocess.PIPE
    with subprocess.Popen(words, stdin=pipes, stdout=pipes, stderr=pipes) as it:
        assert it.stdin is not None and it.stdout is not None
        for line in script:
            it.stdin.write(line.encode() + b"\n")
            it.stdin.flush()
            it.stdout.readline()
        return collected(it.communicate()[1])


def calls(told: Any, function: Any) -> int:
    """How often a function of such a name was called, by callgrind's file."""
    names: Any
    names, number, called = {}, 0, None
    with open(told, encoding="utf-8", errors="replace") as lines:
        for line in lines:
            named = re.match(r"(c?)fn=\((\d+)\)(?: (.*))?$", line)
            if named:
                names.setdefault(named[2], named[3])
                called = names[named[2]] if named[1] else called
            elif line.startswith("calls=") and called and function.fullmatch(called):
                number += int(line[6:].split(" ")[0])
    return number


def hashed(program: str | Path, script: list[str], own: Path) -> tuple[int, int]:
    """The instructions that a script takes over memory, and the compressions among them."""
    return counted(program, script, own, own / "told"), calls(own / "told", COMPRESS)


def fleets(program: str | Path, own: Path) -> None:
    for at, (name, words) in enumerate(FLEETS.items()):
        script = list(fleet.script(**words))
        taken, blocks = hashed(program, script, own)
        one = counted_by_line(program, script, own / "told", own / ("one%d" % at))
        whole = counted(program, script, own, own / "told", own / ("fleet%d" % at))
        each = [number // len(script) for number in (taken, one, whole, blocks)]
        print("| %s | %d | %d | %d | %d | %d |" % (name, len(script), *each), flush=True)


def malloc(program: str | Path, own: Path) -> None:
    for name, words in FLEETS.items():
        script = list(fleet.script(**words))
        counted(program, script, own, own / "told")
        taken = [calls(own / "told", kind) // len(script) for kind in TAKES_MEMORY]
        print("| %s | %s |" % (name, " | ".join(map(str, taken))), flush=True)


def functions(program: str | Path, own: Path) -> None:
    told = own / "told"
    script = list(fleet.script(**next(iter(FLEETS.values()))))
    print("%d instructions" % counted(program, script, own, told))
    words = ["callgrind_annotate", str(told)]
    shown = subprocess.run(words, capture_output=True, check=True).stdout.decode("utf-8", "replace")
    found = re.findall(r"^ *([\d,]+) \(([ \d.]+%)\)  *(?:[^:\n]*):(.*?)(?: \[.*)?$", shown, re.M)
    for _, share, name in found[:5]:
        print("| `%s` | %s |" % (name, share.strip()))


def kinds_of_lines() -> Iterator[tuple[str, list[str], list[str]]]:
    """Lines of each kind, ten but for the founding, after lines that are carried out first."""
    desk = fleet.Fleet(vehicles=10, ecus=4, images=20, campaigns=5, seed=1)
    setup, few = list(desk.setup()), range(10)
    manifests = [fleet.line("deliver", body=fleet.body(told)) for told in desk.manifests(1)]
    ecus = [{"hardware": kind, "key": key} for _, kind, key in desk.vehicles["v000000"]]

    def named(name: str) -> list[dict[str, str]]:
        return [ecu | {"ecu": "%s-e%d" % (name, at)} for at, ecu in enumerate(ecus)]

    items = [{"hardware": desk.images[0]["hardware"][0], "file": desk.images[0]["file"]}]
    campaigns = [
        fleet.line("open_campaign", campaign="n%d" % at, vehicles="all", items=items) for at in few]
    image = {"length": 1, "sha256": fleet.digest("new"), "hardware": ["HP"], "release": 99}
    yield "`found`", [], setup[:1]
    yield "`rotate`", setup, [fleet.line("rotate", **fleet.key_set(81))] * 10
    yield "`add_vehicle`, of 4 ECUs", setup, [
        fleet.line("add_vehicle", vehicle="n%d" % at, primary="n%d-e0" % at, ecus=named("n%d" % at))
        for at in few]
    yield "`add_image`, the 21st to the 30th", setup, [
        fleet.line("add_image", file="n%d" % at, **image) for at in few]
    both = image | {"sha512": fleet.second("new")}
    yield "the same with two hashes", setup, [
        fleet.line("add_image", file="n%d" % at, **both) for at in few]
    yield "`refresh`, with 20 images", setup, [
        fleet.line("refresh", version=100 + at) for at in few]
    yield "`open_campaign`, for all", setup, campaigns
    yield "`close_campaign`", setup + campaigns, [
        fleet.line("close_campaign", campaign="n%d" % at) for at in few]
    yield "a manifest of 4 ECUs", setup, manifests
    yield "its repeat", setup + manifests, manifests
    for name, second in (("the next one", {}), ("the next one, of ECUs with two hashes", {
            "sha512": fleet.second("factory")})):
        first, after = (list(numbered(desk, number, second)) for number in (1, 2))
        yield name, setup + first, after
    yield "`fetch` of a Timestamp", setup, [
        fleet.line("fetch", repository="image", file="timestamp.json")] * 10
    yield "`show`, of 4 ECUs", setup + manifests, [
        fleet.line("show", vehicle="v%06d" % at) for at in few]


def numbered(desk: Any, number: int, second: Any) -> Iterator[str]:
    """A manifest of each vehicle, in which all ECUs report the factory's image, with a second
    hash or without.
    """
    for name, ecus in desk.vehicles.items():
        report: dict[str, Any] = {"counter": number, "time": fleet.START, **fleet.FACTORY, **second}
        reports = [report | {"ecu": ecu, "key": key} for ecu, _, key in ecus]
        told = {
            "vehicle": name, "primary": ecus[0][0], "key": ecus[0][2], "counter": number,
            "reports": reports}
        yield fleet.line("deliver", body=fleet.body(told))


def commands(program: str | Path, own: Path) -> None:
    for name, before, lines in kinds_of_lines():
        answers = trials.printed(program, ":memory:", before + lines)
        assert answers is not None and not any(
            answer.startswith(("refused", "already")) for answer in answers)
        whole, begun = hashed(program, before + lines, own), hashed(program, before, own)
        taken, blocks = ((after - first) // len(lines) for after, first in zip(whole, begun))
        print("| %s | %d | %d |" % (name, taken, blocks), flush=True)


def seconds(program: str | Path, path: str | Path, script: list[str]) -> Any:
    """The processor seconds that a script takes. What a disk takes to synchronise isn't in them."""
    return used([program, "run", str(path)], script)[0]


def lines(program: str | Path, own: Path) -> None:
    for name, words in FLEETS.items():
        script = list(fleet.script(**words))
        memory = seconds(program, ":memory:", script)
        file = seconds(program, own / name, script)
        print("| %s | %d | %d | %.2f |" %
              (name, len(script) / file, len(script) / memory, memory / file))


def manifests(vehicles: int, number: int, first: int = 1, ecus: int = 1) -> Iterator[str]:
    """So many manifests, one vehicle after another, each of so many ECUs with the factory's image.
    """
    names = ["v%06d" % at for at in range(vehicles)]
    for at in range(number):
        name, counter = names[at % vehicles], first + at // vehicles
        report = {"key": fleet.key(7), "counter": counter, "time": fleet.START, **fleet.FACTORY}
        reports = [report | {"ecu": "%s-e%d" % (name, ecu)} for ecu in range(ecus)]
        told = {
            "vehicle": name, "primary": name + "-e0", "key": fleet.key(7), "counter": counter,
            "reports": reports}
        yield fleet.line("deliver", body=fleet.body(told))


def prepared(vehicles: int, images: Any, campaigns: int, ecus: int = 1, ended: int = 0,
             reach: Any = ("other", ), is_great: bool = False) -> Iterator[str]:
    """Founding, vehicles of so many ECUs, images of other hardware, campaigns for a vehicle that
    sends nothing, some of them ended.
    """
    yield fleet.line("found", **fleet.key_set(1))
    for name in [*("v%06d" % at for at in range(vehicles)), "other"]:
        told = [{"ecu": "%s-e%d" % (name, ecu), "hardware": "HP", "key": fleet.key(7)}
                for ecu in range(ecus)]
        yield fleet.line("add_vehicle", vehicle=name, primary=name + "-e0", ecus=told)
    for at in range(images):
        image = {
            "file": "i%d" % at, "length": 1, "sha256": fleet.digest("%d" % at), "hardware": ["HS"]}
        yield fleet.line("add_image", **image | (greatest(at) if is_great else {}), release=at + 1)
    items = [{"hardware": "HS", "file": "i0"}]
    reach = reach if reach == "all" else list(reach)
    for at in range(campaigns):
        yield fleet.line("open_campaign", campaign="c%d" % at, vehicles=reach, items=items)
    for at in range(ended):
        yield fleet.line("open_campaign", campaign="d%d" % at, vehicles=reach, items=items)
        yield fleet.line("close_campaign", campaign="d%d" % at)


def greatest(at: int) -> dict[str, Any]:
    """Members of an image that are as long and as many as they may be; the first one keeps its
    name.
    """
    kinds = ["HS", *("%d-%s" % (place, 61 * "h") for place in range(10, 25))]
    needs, files = [{"hardware": kind, "release": 1} for kind in kinds], [
        "%d-%s" % (place, 125 * "c") for place in range(10, 26)]
    lists = {
        "hardware": kinds, "needs": needs, "conflicts": files, "sha512": fleet.second("%d" % at)}
    return lists | ({"file": "%04d%s" % (at, 124 * "f")} if at else {})


def asked(it: Any, script: Sequence[str]) -> list[bytes]:
    """The answers to the lines, of a program that is answering a script."""

    def write() -> None:
        it.stdin.write("".join(line + "\n" for line in script).encode())
        it.stdin.flush()

    writer = threading.Thread(target=write)
    writer.start()
    answers = [it.stdout.readline() for _ in script]
    writer.join()
    return answers


def processor(pid: Any) -> float:
    """The processor microseconds that a program has taken so far."""
    with open("/proc/%d/schedstat" % pid, encoding="ascii") as told:
        return int(told.read().split()[0]) / 1000


def cost(program: str | Path, before: Any, script: list[str]) -> Any:
    """The processor microseconds that a line of the script takes over memory, behind the lines
    before it.
    """
    with subprocess.Popen([program, "run", ":memory:"], stdin=subprocess.PIPE,
                          stdout=subprocess.PIPE) as it:
        asked(it, before)
        begun = processor(it.pid)
        answers = asked(it, script)
        took = processor(it.pid) - begun
        it.stdin.close()
    assert all(answer.startswith(b"reply ") for answer in answers)
    return took / len(script)


# what is there, of which a manifest of the 100 vehicles needs nothing but what is for all
FEW: dict[str, Any] = {"vehicles": 100, "images": 10, "campaigns": 10}
MANY = ["v%06d" % at for at in range(100, 1100)]
THERE: dict[str, dict[str, Any]] = {
    "10 images, 10 campaigns, 100 vehicles": FEW, "no campaigns": FEW | {"campaigns": 0},
    "200 campaigns": FEW | {"campaigns": 200}, "1,000 campaigns": FEW | {"campaigns": 1000},
    "200 campaigns for all": FEW | {"campaigns": 200, "reach": "all"},
    "10,000 closed campaigns": FEW | {"ended": 10_000}, "200 campaigns for 1,000 vehicles each": {
        "vehicles": 1100, "images": 10, "campaigns": 200,
        "reach": MANY}, "2,000 closed campaigns for 1,000 vehicles each": {
            "vehicles": 1100, "images": 10, "campaigns": 0, "ended": 2000, "reach": MANY
        }, "1,000 images": FEW | {"images": 1000}, "10,000 vehicles": FEW | {"vehicles": 10_000}}


def growth(program: str | Path, _: Any) -> None:
    few, number = list(prepared(100, 10, 10)), 2000
    for kept in (1000, 10_000, 97_000):
        told = list(manifests(100, kept + number))
        print("| %d kept replies | %.0f |" % (kept, cost(program, few + told[:kept], told[kept:])),
              flush=True)
        repeats = cost(program, few + told[:kept], told[kept - 1000:kept])
        print("| %d kept replies, a repeat | %.0f |" % (kept, repeats), flush=True)
    first = list(manifests(100, 100 + number))
    for name, words in THERE.items():
        print(
            "| %s | %.0f |" %
            (name, cost(program, [*prepared(**words), *first[:100]], first[100:])), flush=True)


def alone(program: str | Path, path: Any, script: list[str], before: Any = (),
          answered: bytes = b"reply ") -> int:
    """The instructions that a line takes behind a start over a file and the lines before, which
    callgrind leaves out.
    """
    told = path.parent / "told"
    words = [*callgrind(told, "--instr-atstart=no"), str(program), "run", str(path)]
    with subprocess.Popen(words, stdin=subprocess.PIPE, stdout=subprocess.PIPE,
                          stderr=subprocess.PIPE) as it:
        asked(it, [fleet.line("show", vehicle="v000000"), *before])
        subprocess.run(
            ["callgrind_control", "-i", "on", str(it.pid)], capture_output=True, check=True)
        answers = asked(it, script)
        subprocess.run(
            ["callgrind_control", "-i", "off", str(it.pid)], capture_output=True, check=True)
        it.stdin.close()
        taken = collected(it.stderr.read())
    assert all(answer.startswith(answered) for answer in answers)
    return taken // len(script)


def kept_replies(program: str | Path, path: str | Path, there: Any, kept: int,
                 ecus: int = 1) -> int:
    """Adds manifests of 100 vehicles to a file that has so many of them, until it has so many."""
    while there < kept:
        more = min(kept - there, 90_000)
        assert trials.printed(program, path, manifests(100, more, 1 + there // 100, ecus),
                              3600) is not None
        there += more
    return there


def growth_counts(program: str | Path, own: Path, most: float = MOST) -> None:
    there: Any
    path, there, lines = own / "kept", 0, 100
    trials.printed(program, path, prepared(100, 10, 10))
    for kept in [it for it in (1000, 10_000, 100_000) if it <= most]:
        there = kept_replies(program, path, there, kept)
        fresh, again = (list(manifests(100, lines, 1 + at // 100)) for at in (kept, kept - lines))
        print(
            "| %d kept replies | %d |" %
            (kept, alone(program, trials.copied(path, own / "next"), fresh)), flush=True)
        print(
            "| %d kept replies, a repeat | %d |" %
            (kept, alone(program, trials.copied(path, own / "same"), again)), flush=True)
    for name, words in THERE.items():
        path = own / name
        assert trials.printed(program, path, prepared(**words), 3600) is not None
        kept_replies(program, path, 0, lines)
        first, fresh = list(manifests(100, 1)), list(manifests(100, lines, 2))
        print("| %s | %d |" % (name, alone(program, path, fresh, first)), flush=True)


def forged(line: str) -> str:
    """The line with one digit of its Primary's signature changed, which is the first of its body.
    """
    asked = json.loads(line)
    front, rest = asked["body"].split('"sig":"', 1)
    other = "1" if rest[0] == "0" else "0"
    return fleet.line("deliver", body=front + '"sig":"' + other + rest[1:])


# what the files have over which manifests of four ECUs are counted
ONE = {"vehicles": 100, "images": 1, "campaigns": 0, "ecus": 4}
FILES: dict[str, dict[str, Any]] = {
    "1 image": ONE, "10 campaigns": ONE | {"campaigns": 10}, "200 campaigns": ONE
    | {"campaigns": 200}, "200 campaigns for all": ONE | {"campaigns": 200, "reach": "all"},
    "10,000 closed campaigns": ONE | {"ended": 10_000}, "1,024 images": ONE | {"images": 1024}}


def senders(program: str | Path, own: Path, lines: int = 100) -> None:
    """Counters 1 and 3 are accepted first, so that 2 is stale and 4 is fresh. Before the lines
    that are counted each vehicle's first manifest comes again; before the last kind that of one
    vehicle alone.
    """
    told = [list(manifests(100, lines, counter, 4)) for counter in (1, 2, 3, 4)]
    signed, met = [forged(line) for line in told[3]], told[0]
    kinds = [(told[3], met, b"reply "), (told[0], met, b"reply "), (told[1], met, b"refused 13 "),
             (signed, met, b"refused 12 "), (signed, met[:1], b"refused 12 ")]
    for name, words in FILES.items():
        path = own / name
        assert trials.printed(program, path, [*prepared(**words), *told[0], *told[2]],
                              3600) is not None
        taken = [alone(program, trials.copied(path, own / "next"), *kind) for kind in kinds]
        print("| %s | %s |" % (name, " | ".join(map(str, taken))), flush=True)


def loading(program: str | Path, own: Path) -> None:
    """A repeat behind a start, less the same once more; and the peaks of memory of a start
    without it and with it.
    """
    first = list(manifests(100, 1, 1, 4))
    wide: dict[str, dict[str, Any]] = {
        "128 images of the greatest size": ONE | {"images": 128, "is_great": True},
        "200 campaigns for 1,000 vehicles each": ONE
        | {"vehicles": 1100, "campaigns": 200, "reach": MANY}}
    for name, words in (FILES | wide).items():
        path = own / name
        assert trials.printed(program, path, [*prepared(**words), *first], 3600) is not None
        whole = alone(program, trials.copied(path, own / "next"), first)
        again = alone(program, trials.copied(path, own / "next"), first, first)
        _, begun = used([program, "run", str(trials.copied(path, own / "next"))])
        _, loaded = used([program, "run", str(trials.copied(path, own / "next"))], first)
        print("| %s | %d | %d MB | %d MB |" % (name, whole - again, begun, loaded), flush=True)


def used(words: list[Path | str], script: Any = ()) -> tuple[Any, int]:
    """The processor seconds that a program takes for a script, and its peak memory in MB behind
    it. That is the kernel's own figure of the program: what `wait4` tells of memory counts the
    process that started it too.
    """
    with subprocess.Popen(words, stdin=subprocess.PIPE, stdout=subprocess.PIPE) as it:
        answers = asked(it, [*script, "x"])
        with open("/proc/%d/status" % it.pid, encoding="ascii") as told:
            memory = int(re.search(r"VmHWM:\s+(\d+)", told.read())[1]) >> 10
        it.stdin.close()
        it.stdout.read()
        _, status, usage = os.wait4(it.pid, 0)
    assert status == 0 and answers[-1] == b"refused 5 NotJson\n"
    return usage.ru_utime + usage.ru_stime, memory


def start(program: str | Path, own: Path, most: float = MOST) -> None:
    for ecus in (1, 4):
        there: Any
        path, there = own / ("kept of %d" % ecus), 0
        trials.printed(program, path, prepared(100, 10, 10, ecus))
        for kept in [it for it in (1000, 10_000, 100_000) if it <= most]:
            there = kept_replies(program, path, there, kept, ecus)
            took, memory = used([program, "run", str(path)])
            words = kept, ecus, os.stat(path).st_size >> 20, took, memory
            print("| %d of %d | %d MB | %.2f | %d MB |" % words, flush=True)


# where Debian has it, and how it gives memory back
JEMALLOC = "/usr/lib/x86_64-linux-gnu/libjemalloc.so.2"
PRELOADED = {
    "LD_PRELOAD": JEMALLOC,
    "MALLOC_CONF": "background_thread:true,dirty_decay_ms:1000,muzzy_decay_ms:0"}


def allocators_here() -> Any:
    """The variables of each allocator, by its name."""
    if not os.path.exists(JEMALLOC):
        print("there is no %s, so jemalloc isn't measured" % JEMALLOC)
    return {"malloc": {}} | ({"jemalloc": PRELOADED} if os.path.exists(JEMALLOC) else {})


def started(
    program: str | Path, path: str | Path, variables: dict[str, str] | None,
    script: Sequence[str] = ()) -> tuple[float, int, int, Any]:
    """Over a file, the processor seconds of a start, its peak of memory and what is resident
    four seconds and 800 lines later, in MB; and the processor microseconds of a line of the
    script after that.
    """

    def status(it: Any, name: str) -> int:
        return int(
            re.search(name + r":\s+(\d+)",
                      open("/proc/%d/status" % it.pid, encoding="ascii").read())[1]) >> 10

    with subprocess.Popen([program, "run", str(path)], stdin=subprocess.PIPE,
                          stdout=subprocess.PIPE, env=os.environ | variables) as it:
        assert asked(it, ["x"]) == [b"refused 5 NotJson\n"]
        took, peak = processor(it.pid) / 1e6, status(it, "VmHWM")
        asked(it, script[:1])
        # jemalloc looks at what to give back while memory is asked for
        for _ in range(4):
            time.sleep(1)
            asked(it, 200 * ["x"])
        stays, begun = status(it, "VmRSS"), processor(it.pid)
        answers = asked(it, script[1:])
        line = (processor(it.pid) - begun) / max(1, len(script) - 1)
        it.stdin.close()
    assert all(answer.startswith(b"reply ") for answer in answers)
    return took, peak, stays, line


def multiplied(path: Path, vehicles: int, kept: int) -> None:
    """Makes a file with one kept reply for each vehicle one with so many, by SQLite: the same
    texts with other counters and versions.
    """
    more = kept // vehicles - 1
    with closing(sqlite3.connect(path, isolation_level=None)) as db:
        for pragma in ("journal_mode = OFF", "synchronous = OFF", "cache_size = -200000"):
            db.execute("PRAGMA " + pragma).fetchall()
        db.execute("CREATE TEMP TABLE first AS SELECT * FROM kept WHERE version = 1")
        db.execute("BEGIN")
        for at in range(1, more + 1):
            db.execute(
                "INSERT INTO kept SELECT vehicle, counter + ?1, version + ?1, moment, root, "
                "signed, plan_text, reply FROM first", (at, ))
        db.execute(
            "UPDATE vehicle SET version = version + ?1, last_counter = last_counter + ?1 WHERE "
            "version = 1", (more, ))
        db.execute("COMMIT")
    if not shutil.which("cc"):
        with open(path, "r+b") as file:
            page_sums.written(file, page_sums.page_size(file.read(100)))
        return
    # (Python takes minutes for a gigabyte)
    summing, size = path.with_name("sums"), page_sums.page_size(path.open("rb").read(100))
    subprocess.run(
        ["cc", "-O2", "-o",
         str(summing),
         str(Path(__file__).resolve().parent / "sums.c")], check=True)
    subprocess.run([str(summing), str(path), str(size)], check=True)


def millions(program: str | Path, own: Path, most: int = 4_000_000) -> None:
    vehicles = 1000
    for ecus, kept in dict.fromkeys(
        (ecus, min(kept, most)) for ecus, kept in ((1, 1_000_000), (4, 1_000_000), (1, 4_000_000))):
        path = own / ("%d of %d" % (kept, ecus))
        trials.printed(program, path,
                       [*prepared(vehicles, 10, 10, ecus), *manifests(vehicles, vehicles, 1, ecus)])
        multiplied(path, vehicles, kept)
        for at, (name, variables) in enumerate(allocators_here().items()):
            fresh = list(manifests(vehicles, 201, 2 + kept // vehicles + at, ecus))
            took, peak, stays, line = started(program, path, variables, fresh)
            words = kept, ecus, name, os.stat(path).st_size >> 20, took, peak, stays, line
            print("| %d of %d, %s | %d MB | %.1f | %d MB | %d MB | %.0f |" % words, flush=True)
        path.unlink()


def allocators(program: str | Path, own: Path) -> None:
    path, kept = own / "kept", 40_000
    trials.printed(program, path, [*prepared(100, 10, 10, 4), *manifests(100, 100, 1, 4)])
    multiplied(path, 100, kept)
    script = list(fleet.script(vehicles=100, ecus=4))
    for name, variables in allocators_here().items():
        os.environ |= variables
        memory, file = (seconds(program, it, script) for it in (":memory:", own / name))
        for variable in variables:
            del os.environ[variable]
        took, peak, stays, _ = started(program, path, variables)
        words = name, os.stat(
            path).st_size >> 20, took, peak, stays, len(script) / file, len(script) / memory
        print("| %s | %d MB | %.2f | %d MB | %d MB | %d | %d |" % words, flush=True)


def with_and_without(path: str | Path, own: Path) -> tuple[Path, Path]:
    """The same rows, in files that SQLite packs alike: one with sums of pages and one without."""
    with_sums, without = own / "with", own / "without"
    with closing(sqlite3.connect(path)) as db:
        db.execute("VACUUM INTO ?", (str(with_sums), ))
    with trials.read(path) as db, closing(sqlite3.connect(without)) as made:
        made.executescript("\n".join(db.iterdump()))
    assert page_sums.rewritten(with_sums) == 0
    assert [page_sums.has_sums(it.read_bytes()) for it in (with_sums, without)] == [True, False]
    return with_sums, without


def sums(program: str | Path, own: Path, most: int = 10_000) -> None:
    path, lines = own / "kept", 100
    trials.printed(program, path, prepared(100, 10, 10))
    kept = kept_replies(program, path, 0, most)
    files = with_and_without(path, own)
    script = list(manifests(100, lines, 1 + kept // 100))
    begun = [
        counted(program, [], own, own / "told", trials.copied(it, own / "empty")) for it in files]
    print("| a start over %d kept replies | %d | %d |" % (kept, *begun), flush=True)
    print("| a manifest of one ECU | %d | %d |" % tuple(alone(program, it, script) for it in files))


# ---- HTTP


def posts(bodies: list[Any]) -> list[Any]:
    return [http_cases.POST % len(body) + body for body in bodies]


def sent(running: http_cases.Served, requests: list[Any]) -> bool:
    """Whether so many requests, a hundred a connection, are all answered by a 200."""
    well = 0
    for at in range(0, len(requests), 100):
        well += http_cases.told(running, b"".join(requests[at:at + 100])).count(b"HTTP/1.1 200 OK")
    return well == len(requests)


def kinds(number: int) -> dict[str, tuple[Any, Any]]:
    """The requests of each kind, with the lines that ask the same; the second kind is the first
    once more.
    """
    lines = list(manifests(100, number))
    fetch = fleet.line("fetch", repository="image", file="timestamp.json")
    bodies = [http_cases.json.loads(line)["body"].encode("ascii") for line in lines]
    gets = number * [b"GET /image/timestamp.json HTTP/1.1\r\nHost: d\r\n\r\n"]
    return {
        "fresh manifests": (posts(bodies), lines), "repeats": (posts(bodies), lines),
        "fetches": (gets, number * [fetch])}


def rates(program: str | Path, own: Path, number: int = 2000) -> Iterator[tuple[Any, Any, float]]:
    """Requests and lines of each kind for a second of a processor, over files."""
    for name in ("served", "script"):
        trials.printed(program, own / name, prepared(100, 10, 10))
    for kind, (requests, lines) in kinds(number).items():
        with http_cases.served(program, own / "served", number // 100) as running:
            begun = processor(running.pid)
            assert sent(running, requests)
            took = (processor(running.pid) - begun) / 1_000_000
            assert http_cases.ended(running)
        yield kind, number / took, number / seconds(program, own / "script", lines)


def through(proxy: proxy_cases.Proxy, body: bytes) -> int:
    """The status of the answer to a manifest, by a connection of its own."""
    return proxy_cases.asked(proxy, "POST", "/director/manifest", body)[0][0]


@dataclass(frozen=True)
class Directly:
    """The service itself, in the place of a proxy."""

    port: int

    def client(self) -> Any:
        return http_cases.http.client.HTTPConnection("127.0.0.1", self.port,
                                                     timeout=proxy_cases.PATIENCE)


def rate(ask: Any, bodies: list[Any], clients: Any) -> float:
    """Manifests a second, by so many clients at once."""
    with ThreadPoolExecutor(clients) as pool:
        begun = time.perf_counter()
        assert set(pool.map(lambda body: through(ask, body), bodies)) == {200}
        return len(bodies) / (time.perf_counter() - begun)


def proxied(program: str | Path, own: Path, number: int = 600, clients: int = 8) -> None:
    """Fresh manifests of four ECUs, a connection each; and what a synchronised write takes on
    this disk.
    """
    own.chmod(0o755)
    with open(own / "synced", "wb") as file:
        begun = time.perf_counter()
        for _ in range(200):
            file.write(4096 * b"s")
            file.flush()
            os.fdatasync(file.fileno())
        print(
            "a write of 4,096 bytes that is synchronised: %.2f ms" %
            ((time.perf_counter() - begun) * 1000 / 200), flush=True)
    bodies = [json.loads(line)["body"].encode("ascii") for line in manifests(100, number, 1, 4)]
    secret = proxy_cases.certified(own)
    for name in ("directly", *filter(shutil.which, ("nginx", "haproxy"))):
        path = own / name
        trials.printed(program, path, prepared(100, 10, 10, 4))
        with http_cases.served(program, path, 100_000) as running, contextlib.ExitStack() as up:
            ask: Any = Directly(running.port)
            if name != "directly":
                ask = proxy_cases.Proxy(own, name, http_cases.free_port(), running.port, secret)
                up.enter_context(ask.running())
            begun = processor(running.pid)
            rates = rate(ask, bodies, clients)
            took = (processor(running.pid) - begun) / 1e6
            print("| %s | %d | %d |" % (name, rates, number / took), flush=True)
            running.kill()


def counted_of(running: http_cases.Served) -> int:
    """The instructions that a program took which ends by itself, as callgrind tells."""
    running.wait(timeout=600)
    running.said.seek(0)
    return collected(running.said.read())


def instructions(program: Any, path: Any, requests: list[Any]) -> Any:
    """The instructions that the program takes to serve a connection with these requests."""
    program = [*callgrind(path.parent / "requests"), program]
    with http_cases.served(program, path, 1) as running:
        assert http_cases.told(running, b"".join(requests)).count(b"HTTP/1.1 ") == len(requests)
        return counted_of(running)


def http(program: str | Path, own: Path) -> None:
    counts = {}
    path = own / "counted"
    trials.printed(program, path, prepared(100, 10, 10))
    for kind, (requests, _) in kinds(100).items():
        few = instructions(program, trials.copied(path, own / "few"), requests[:1])
        counts[kind] = (instructions(program, path, requests) - few) // (len(requests) - 1)
    for kind, requests, lines in rates(program, own):
        print("| %s | %d | %d | %d |" % (kind, requests, lines, counts[kind]))


def head(program: str | Path, own: Path) -> None:
    """A head at its limit, that asks for a file which isn't there."""
    path = own / "head"
    trials.printed(program, path, prepared(1, 1, 1))
    begins, ends = b"GET /image/none HTTP/1.1\r\nHost: d\r\na: ", b"\r\n\r\n"
    whole = begins + (16_384 - len(begins) - len(ends)) * b"b" + ends
    for name, pause in (("in one piece", None), ("a byte at a time", 0.001)):
        with http_cases.served([*callgrind(own / name), program], path,
                               1) as running, http_cases.connected(running) as client:
            for piece in [whole
                          ] if pause is None else (whole[at:at + 1] for at in range(len(whole))):
                client.sendall(piece)
                time.sleep(pause or 0)
            client.shutdown(http_cases.socket.SHUT_WR)
            assert b"404 Not Found" in http_cases.to_the_end(client)
            taken = counted_of(running)
        print("| %s | %d |" % (name, taken), flush=True)


def repeated(size: int, front: Any, item: Any, between: Any, end: bool | str) -> Any:
    """A text of nearly that size: the front, an item for each number with something between, the
    end.
    """
    count = (size - len(front + end)) // len(item(0) + between)
    return front + between.join(item(at) for at in range(count)) + end


def shapes(size: int) -> Iterator[tuple[str, str]]:
    """Bodies of nearly that size that are read to their end: envelopes whose signed member is
    long, and longer ones.
    """
    begins, ends = '{"signatures":[{"keyid":"k","method":"m","sig":"aa"}],"signed":{', "}}"
    members = (size - len(begins + ends)) // 13
    yield "members in order", repeated(size, begins, lambda at: '"m%06d":0' % at, ",", ends)
    yield "members in reverse", repeated(size, begins, lambda at: '"m%06d":0' % (members - at), ",",
                                         ends)
    yield "one member repeated", repeated(size, begins, lambda at: '"m":0', ",", ends)
    yield "`signed` repeated", repeated(size, begins[:-10], lambda at: '"signed":{"m":0}', ",", "}")
    yield "a list of numbers", repeated(size, begins + '"m":[', lambda at: "%06d" %
                                        (100_000 + at % 800_000), ",", "]" + ends)
    yield "a list of objects", repeated(size, begins + '"m":[', lambda at: '{"m":0}', ",",
                                        "]" + ends)
    yield "lists of lists", repeated(size, begins + '"m":[', lambda at: 8 * "[" + 8 * "]", ",",
                                     "]" + ends)
    yield "escapes", repeated(size, begins + '"m":"', lambda at: "\\u0041", "", '"' + ends)
    yield "a long text", repeated(size, begins + '"m":"', lambda at: "a", "", '"' + ends)
    yield "a long name", repeated(size, begins + '"', lambda at: "a", "", '":0' + ends)
    yield "open brackets", size * "["
    yield "a number of many digits", size * "1"


def bodies(program: str | Path, own: Path) -> None:
    path = own / "bodies"
    trials.printed(program, path, prepared(1, 1, 1))
    none = instructions(program, trials.copied(path, own / "none"), [])
    sizes = [dict(shapes(size)) for size in (65_536, 262_144)]
    for name in sizes[0]:
        taken = []
        for texts in sizes:
            body = texts[name].encode("ascii")
            taken.append(
                (instructions(program, trials.copied(path, own / "some"), posts([body])) - none) //
                len(body))
        print("| %s | %d | %d |" % (name, *taken), flush=True)


PARTS: tuple[Any,
             ...] = (fleets, functions, malloc, commands, lines, growth, growth_counts, senders,
                     loading, start, millions, allocators, sums, http, proxied, head, bodies)


def main(words: arguments.Words = None) -> int:
    """Measures a part."""
    parts = {it.__name__: it for it in PARTS}
    asked = arguments.given(__doc__, words, "program", part=["", *parts], most=0)
    if not asked.part:
        sys.exit("speed: PART is one of %s" % ", ".join(parts))
    with trials.folder() as own:
        parts[asked.part](asked.program, own, *([asked.most] if asked.most else []))
    return 0
