"""Measures a round of the proved Primary: ten new Roots of each repository and 200 images, of which
four are installed. Its instructions, by valgrind's callgrind, the time of a run, and its memory.

    tools/run primary_speed PROGRAM

With SCHEME=ed25519 it is a round under Ed25519.
"""
import re
import subprocess
import time
from pathlib import Path
from typing import Any

from uptane_tools import arguments
from uptane_tools.oracle.reference import SCHEME
from uptane_tools.trial import proved_rounds, trials, vector_cases

ROOTS, IMAGES, ECUS, RUNS = 10, 200, 4, 20


def one_key(place: int) -> dict[str, Any]:
    return {"keys": [(bytes([place]) * 32).hex()], "threshold": 1}


def made(own: Path) -> proved_rounds.Tried:
    """The files of the state and of what is served."""
    world = proved_rounds.World(1)
    world.pool = [bytes([it]) * 32 for it in range(1, 100)]
    vehicle_of(world)
    vehicle = world.vehicles["V"]
    for place in range(ROOTS):
        keys = {
            it: {
                role: one_key(1 + 8 * (place % 4) + 4 * at + number)
                for number, role in enumerate(proved_rounds.ROLES)}
            for at, it in enumerate(proved_rounds.REPOSITORIES)}
        assert world.give("rotate", **keys) == "done"
    reply = vehicle.reply()
    assert reply is not None
    tried, trust = proved_rounds.Tried("", own, world.pool), vehicle.history[0]
    served = proved_rounds.honest(world, trust, reply)
    assert [len(served[it + "_roots"]) for it in proved_rounds.REPOSITORIES] == 2 * [ROOTS]
    tried.write(vehicle, trust, served)
    return tried


def vehicle_of(world: proved_rounds.World) -> None:
    """A vehicle, each of whose ECUs is to install one of the images."""
    ecus = {"E%d" % it: world.new_ecu() | {"hardware": "H%d" % it} for it in range(ECUS)}
    told = [{"ecu": it, "hardware": ecu["hardware"], "key": proved_rounds.public(ecu)}
            for it, ecu in ecus.items()]
    assert world.give("add_vehicle", vehicle="V", primary="E0", ecus=told) == "done"
    for place in range(IMAGES):
        image = {"file": "image-%d.bin" % place, "hardware": ["H%d" % (place % ECUS)]}
        assert world.give("add_image", length=place, release=place, **image,
                          sha256=proved_rounds.digest(str(place))) == "done"
    items = [{"hardware": "H%d" % it, "file": "image-%d.bin" % (IMAGES - ECUS + it)}
             for it in range(ECUS)]
    assert world.give("open_campaign", campaign="c", vehicles="all", items=items) == "done"
    world.vehicles["V"] = proved_rounds.Vehicle(world, "V", ecus)


def measured(program: str, own: Path) -> str:
    tried = made(own)
    before = tried.state.read_text(encoding="ascii")
    words = [program, str(tried.state), str(proved_rounds.START), str(tried.served)]
    counting = ["valgrind", "--tool=callgrind", "--callgrind-out-file=/dev/null", *words]
    ran = subprocess.run(counting, capture_output=True, check=True)
    assert ran.stdout.decode("ascii").count("\ninstall ") == ECUS
    found = re.search(rb"Collected : (\d+)", ran.stderr)
    assert found is not None
    passed = []
    for _ in range(RUNS):
        tried.state.write_text(before, encoding="ascii")
        first = time.perf_counter()
        subprocess.run(words, capture_output=True, check=True)
        passed.append(time.perf_counter() - first)
    tried.state.write_text(before, encoding="ascii")
    held = subprocess.run(["/usr/bin/time", "-f", "%M", *words], capture_output=True, check=True)
    size = len(before) + len(tried.served.read_text(encoding="ascii"))
    return "%s: %d bytes, %d instructions, %d microseconds, %d kB of memory" % (
        SCHEME.method, size, int(found[1]), min(passed) * 1e6, int(held.stderr))


def main(words: arguments.Words = None) -> int:
    """Prints them."""
    asked = arguments.given(__doc__, words, "program")
    vector_cases.envelopes.use({"method": SCHEME.method})
    with trials.folder("/dev/shm" if Path("/dev/shm").is_dir() else None) as own:
        print(measured(asked.program, Path(own)))
    return 0
