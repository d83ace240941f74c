#!/usr/bin/env python3
"""Rounds of a vehicle by the proved Primary. This script carries bytes; `uptane_primary` builds
what is sent, and verifies what comes back.

    round.py first URL FOLDER      puts the first Root of each repository into FOLDER/state.json, as
                                   where the vehicle is built
    round.py round URL FOLDER      one round: prints what `uptane_primary` says, and takes it as
                                   installed

FOLDER/own.json is an input of `uptane_primary manifest`: what each ECU reports, with its key. Its
`hardware` and `release` are there too, and under HMAC `held`, the keys that verify. URL is
http://HOST:PORT, and uptane_primary is on the PATH. The status is that of uptane_primary, 0 where
all was accepted, and 5 where the service gave no reply.
"""
import argparse
import json
import os
import subprocess
import sys
import time
import urllib.error
import urllib.request
from pathlib import Path
from typing import Any

REPOSITORIES, FILES = ("director", "image"), ("timestamp", "snapshot", "targets")
MOST, PATIENCE = 4_194_304, 100


def asked(url: str, body: bytes | None = None) -> tuple[int, str]:
    """The status and the text of an answer."""
    try:
        with urllib.request.urlopen(url, body, PATIENCE) as came:
            return came.status, came.read(MOST + 1).decode("ascii")
    except urllib.error.HTTPError as error:
        return error.code, error.read(MOST + 1).decode("ascii", "replace")


def fetched(url: str, name: str) -> str:
    """A file, and an empty text where there is none."""
    status, text = asked("%s/%s" % (url, name))
    return text if status == 200 else ""


def put(path: Path, told: dict[str, Any]) -> None:
    """Writes the file whole or not at all, for its owner alone."""
    new = path.with_name(path.name + ".new")
    handle = os.open(new, os.O_WRONLY | os.O_CREAT | os.O_TRUNC, 0o600)
    with open(handle, "w", encoding="ascii") as file:
        json.dump(told, file)
    os.replace(new, path)


def taken(folder: Path, name: str) -> dict[str, Any]:
    """What such a file holds."""
    return dict(json.loads((folder / name).read_text(encoding="ascii")))


def first(url: str, folder: Path) -> int:
    """What the vehicle knows and trusts from the beginning."""
    own = taken(folder, "own.json")
    ecus = [{name: it[name] for name in ("ecu", "hardware", "release")} for it in own["reports"]]
    state = {
        "method": own.get("method", "hmac-sha256"),
        "vehicle": own["vehicle"],
        "ecus": ecus,
        "replaced": [],
        "held": own.get("held", []),
    }
    for it in REPOSITORIES:
        state[it] = {"root": fetched(url, it + "/1.root.json")} | dict.fromkeys(FILES, 0)
    put(folder / "state.json", state)
    return 0


def manifest(folder: Path) -> bytes:
    """The body of the next manifest, in which every ECU reports with a greater counter."""
    own = taken(folder, "own.json")
    own["counter"] += 1
    for it in own["reports"]:
        it["counter"], it["time"] = it["counter"] + 1, int(time.time())
    put(folder / "own.json", own)
    words = ["uptane_primary", "manifest", str(folder / "own.json")]
    return subprocess.run(words, capture_output=True, check=True).stdout


def newer(url: str, state: dict[str, Any], repository: str) -> list[str]:
    """The Roots behind the trusted one."""
    found, number = [], json.loads(state[repository]["root"])["signed"]["version"] + 1
    while text := fetched(url, "%s/%d.root.json" % (repository, number)):
        found.append(text)
        number += 1
    return found


def installed(folder: Path, lines: list[list[str]]) -> None:
    """Puts down that each image is installed. A vehicle fetches it first, and checks its length and
    hashes.
    """
    state, own = (taken(folder, name) for name in ("state.json", "own.json"))
    for _, ecu, file, length, sha256, release, *sha512 in lines:
        for it in (it for it in own["reports"] if it["ecu"] == ecu):
            it.pop("sha512", None)
            it |= {"file": file, "length": int(length), "sha256": sha256, "release": int(release)}
            it |= {"sha512": digits for digits in sha512}
        for it in (it for it in state["ecus"] if it["ecu"] == ecu):
            it["release"] = int(release)
    put(folder / "state.json", state)
    put(folder / "own.json", own)


def go_round(url: str, folder: Path) -> int:
    """A new manifest, and all that is served behind its reply."""
    status, reply = asked(url + "/director/manifest", manifest(folder))
    if status != 200:
        print("%d %s" % (status, reply), file=sys.stderr)
        return 5
    state = taken(folder, "state.json")
    served: dict[str, Any] = {it + "_roots": newer(url, state, it) for it in REPOSITORIES}
    served |= {"reply": reply} | {it: fetched(url, "image/%s.json" % it) for it in FILES}
    put(folder / "served.json", served)
    now, names = str(int(time.time())), ("state.json", "served.json")
    state_file, served_file = (str(folder / name) for name in names)
    words = ["uptane_primary", state_file, now, served_file]
    ran = subprocess.run(words, stdout=subprocess.PIPE, check=False)
    said = ran.stdout.decode("ascii")
    print(said, end="")
    lines = [line.split(" ") for line in said.splitlines()]
    installed(folder, [line for line in lines if line[0] == "install"])
    return ran.returncode


def main() -> int:
    """Carries out what the words say."""
    plain = argparse.RawDescriptionHelpFormatter
    given = argparse.ArgumentParser(description=__doc__, formatter_class=plain)
    given.add_argument("word", choices=("first", "round"))
    given.add_argument("url", metavar="URL")
    given.add_argument("folder", type=Path, metavar="FOLDER")
    words = given.parse_args()
    return (first if words.word == "first" else go_round)(words.url, words.folder)


if __name__ == "__main__":
    sys.exit(main())
