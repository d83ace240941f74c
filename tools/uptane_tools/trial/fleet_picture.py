"""Makes the picture of the page of the fleet that the front page shows, `docs/fleet_page.png`,
from a fleet that is simulated.

    tools/run fleet_picture [BROWSER]      BROWSER is chromium where none is named

The fleet is one of `tools/run fleet`, some ECUs of which report attacks. Its file is made by the
independent rules, and the page by `tools/run fleet_page`. The same fleet and moment give the
same page; how a browser draws it is the browser's.
"""
import json
import sqlite3
import subprocess
import sys
from collections.abc import Iterator
from contextlib import closing
from typing import Any

from uptane_tools import arguments
from uptane_tools.measure import fleet
from uptane_tools.oracle import reference
from uptane_tools.trial import trials

PICTURE = trials.TOP / "docs" / "fleet_page.png"
FLEET: dict[str, Any] = {
    "vehicles": 40, "ecus": 3, "rounds": 6, "images": 12, "campaigns": 5, "seed": 7,
    "from_round": 0, "repeats": 0.1, "replaced": 0.1, "second_hashes": 0.5, "deliver": False}
SIZE = "1180,900"
# half an hour after the last round
NOW = fleet.START + 6 * 3600 + 1800


def with_attacks(lines: Any) -> Iterator[str]:
    """The same lines, in which a report of every 37th line of `bench` tells of an attack."""
    benches = 0
    for text in lines:
        line = json.loads(text)
        benches += line["do"] == "bench"
        if line["do"] == "bench" and benches % 37 == 0:
            line["reports"][-1]["attack"] = "signature of an image refused"
        yield json.dumps(line)


def made(browser: Any) -> None:
    with trials.folder() as own:
        with closing(sqlite3.connect(own / "desk.db")) as db:
            desk = reference.Desk(db)
            answers = [desk.answer(line) for line in with_attacks(fleet.script(**FLEET))]
        made = subprocess.run(
            [sys.executable, trials.RUN, "fleet_page", own / "desk.db", "--now",
             str(NOW)], capture_output=True, check=True)
        (own / "fleet.html").write_bytes(made.stdout)
        words = [
            browser, "--headless", "--no-sandbox", "--disable-gpu", "--hide-scrollbars",
            "--window-size=" + SIZE]
        subprocess.run(
            [*words, "--screenshot=%s" % (own / "fleet.png"),
             str(own / "fleet.html")], capture_output=True, check=True, timeout=120)
        PICTURE.write_bytes((own / "fleet.png").read_bytes())
    print("%s: %d lines, of which %d were refused" % (PICTURE.relative_to(
        trials.TOP), len(answers), sum(it.startswith("refused") for it in answers)))


def main(words: arguments.Words = None) -> int:
    """Makes the picture."""
    made(arguments.given(__doc__, words, browser="chromium").browser)
    return 0
