"""A first answer of the product itself: builds the program for fleets, without a proof, and has
a vehicle's first manifest answered.

    tools/run first_answer

The program, `out/uptane_desk_ed25519`, stays, and so does the database, `out/first.db`, which is
made anew each time. It founds the repositories, adds a vehicle with its Primary, and delivers
the manifest that this Primary signs, by `examples/first_path_ed25519` at the present time. It
needs the Rattle kit and no network, and is not optimised: it is built sooner so. A program that is
newer than its sources is not built again.
"""
import shutil
import subprocess
import sys
import time
from pathlib import Path

from uptane_tools import TOP, arguments
from uptane_tools.trial import unproved

NAME, OUT, DATABASE = "uptane_desk_ed25519", TOP / "out", TOP / "out" / "first.db"
# the moment of the example
AT = "1767225600"
NEXT = """It is %s. What may be tried next:
    %s serve %s 8080  serves what it keeps, until it is stopped
    curl http://127.0.0.1:8080/image/targets.json   then fetches the list of images
    tools/run fleet_page %s > fleet.html  makes a page of the fleet
    bash .ci/run                                    proves and tries the program, in an hour or two
Founded, a vehicle added, its first manifest delivered:
"""


def is_new(program: Path) -> bool:
    """Whether the program is younger than all that it is built from."""
    sources = [
        it for part in ("src", "specs", "proofs") for it in TOP.glob(f"crates/*/{part}/**/*")
        if it.is_file()]
    return program.exists() and program.stat().st_mtime > max(it.stat().st_mtime for it in sources)


def answers(program: Path) -> str:
    """What the program answers to the lines of the example, over a new file."""
    for path in OUT.glob(DATABASE.name + "*"):
        path.unlink()
    script = (TOP / "examples" / "first_path_ed25519" /
              "script").read_text(encoding="ascii").replace(AT, str(int(time.time())))
    return subprocess.run([program, "run", DATABASE], input=script, capture_output=True, text=True,
                          check=True).stdout


def main(words: arguments.Words = None) -> int:
    """Builds, founds, delivers."""
    arguments.given(__doc__, words)
    if not shutil.which("rt"):
        sys.exit("first_answer: there is no rt on the path: the product is built by the Rattle kit")
    program = OUT / NAME
    OUT.mkdir(exist_ok=True)
    if not is_new(program):
        print(f"builds {NAME}, unproved and not optimised: to try it, and not to ship it",
              flush=True)
        unproved.main([str(program), NAME, "O0"])
    program, database = (it.relative_to(Path.cwd()) if it.is_relative_to(Path.cwd()) else it
                         for it in (program, DATABASE))
    print(NEXT % (program, program, database, database) + answers(OUT / NAME), end="")
    return 0
