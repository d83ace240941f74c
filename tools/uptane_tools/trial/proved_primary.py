"""Tries the proved Primary by `vectors/`, of both schemes: the verdict on each chain, what is to be
installed, and the state that is written; the manifests that it builds, and rounds over HTTP by
`examples/proved_primary`.

    tools/run proved_primary PROGRAM

promise: primary-told, primary-verifies, primary-roots
"""
import json
import os
import subprocess
import sys
import time
from collections.abc import Iterator
from pathlib import Path
from typing import Any

from uptane_tools import arguments
from uptane_tools.oracle import reference
from uptane_tools.trial import trials, vector_cases

FILES = ("timestamp", "snapshot", "targets")


def roots_behind(texts: dict, repository: str) -> list[str]:
    """The Roots behind the trusted one, as far as they are served."""
    found: list[str] = []
    first = json.loads(texts[repository + "/1.root.json"])["signed"]["version"] + 1
    while texts.get("%s/%d.root.json" % (repository, first + len(found))) is not None:
        found.append(texts["%s/%d.root.json" % (repository, first + len(found))])
    return found


def trust(known: dict, texts: dict, repository: str) -> dict:
    """What is trusted of a repository, as the state's file has it."""
    versions = dict.fromkeys(FILES, 0) | known[repository]["versions"]
    return {"root": texts[repository + "/1.root.json"]} | versions


def state_of(told: dict, case: dict, texts: dict) -> dict:
    """The state's file of a case."""
    known = vector_cases.vehicle_of(vector_cases.SMALL, told, case, texts.__getitem__)
    ecus = [{
        "ecu": it["ecu"], "hardware": it["hardware"], "release": it["installed"]["release"] or 0}
            for it in known["ecus"]]
    return {
        "method": told["method"],
        "vehicle": known["vehicle"],
        "ecus": ecus,
        "replaced": known["replaced"],
        "held": [*told["vehicle"]["role_keys"].values()], } | {
            it: trust(known, texts, it) for it in reference.REPOSITORIES}


def served_of(texts: dict) -> dict:
    """The file of what was served."""
    roots = {it + "_roots": roots_behind(texts, it) for it in reference.REPOSITORIES}
    images = {it: texts.get("image/%s.json" % it) or "" for it in FILES}
    return roots | images | {"reply": texts["reply"]}


def is_answered(program: str, told: dict, case: dict, own: Path) -> bool:
    """Whether the program gives the case its verdict, and writes the state behind it."""
    texts = told["files of " + case["base"]] | case.get("replace", {})
    state, served = own / "state.json", own / "served.json"
    state.write_text(json.dumps(state_of(told, case, texts)), encoding="ascii")
    served.write_text(json.dumps(served_of(texts)), encoding="ascii")
    words = [program, str(state), str(case.get("now", told["now"])), str(served)]
    ran = subprocess.run(words, capture_output=True, check=False, timeout=60)
    lines = ran.stdout.decode("ascii").splitlines() or [""]
    verdict = lines[0].split(" ")[0]
    installs = dict(line.split(" ")[1:3] for line in lines[1:])
    wanted = case.get("installs", told["installs"]) if case["verdict"] == "accepted" else {}
    return (verdict, installs, ran.returncode) == (case["verdict"], wanted,
                                                   int(verdict != "accepted")) and has_state(
                                                       state, case["state"])


def has_state(path: Path, wanted: dict) -> bool:
    """Whether the file has this state."""
    state = json.loads(path.read_text(encoding="ascii"))
    found = {
        it: {"root": json.loads(state[it]["root"])["signed"]["version"]}
        | {name: state[it][name] for name in FILES} for it in wanted}
    return found == wanted and not path.with_suffix(".json.new").exists()


def cases(program: str) -> Iterator[tuple[str, bool]]:
    with trials.folder() as own:
        for method in vector_cases.envelopes.SCHEMES:
            told = vector_cases.vectors("chains", method)
            for case in told["cases"]:
                name = "%s: %s: %s" % (method, case["attack"], case["name"])
                yield name, is_answered(program, told, case, Path(own))


def builds(program: str) -> trials.Cases:
    """The manifests that are to be built, and what is no list of reports."""
    with trials.folder() as own:
        listed = Path(own) / "listed.json"
        for method in vector_cases.envelopes.SCHEMES:
            for case in vector_cases.vectors("manifests", method)["builds"]:
                given = case["build"] | {"method": method}
                listed.write_text(json.dumps(given), encoding="ascii")
                yield "%s: build: %s" % (method, case["name"]), printed(program,
                                                                        listed) == (0, case["body"])
                for lacks in given.keys() - {"method"}:
                    listed.write_text(
                        json.dumps({name: it for name, it in given.items() if name != lacks}),
                        encoding="ascii")
                    yield "%s: build: %s, without %s" % (method, case["name"], lacks), printed(
                        program, listed) == (3, "")


def printed(program: str, listed: Path) -> tuple[int, str]:
    """The status, and the manifest that is printed of a list of reports."""
    ran = subprocess.run([program, "manifest", str(listed)], capture_output=True, check=False,
                         timeout=60)
    return ran.returncode, ran.stdout.decode("ascii")


# ---- rounds over HTTP


def rounds(program: str) -> trials.Cases:
    """Whole rounds over HTTP, by `examples/proved_primary`, with the rules as the service."""
    with trials.folder() as own:
        folder = Path(own)
        bin_of(program, folder)
        started(folder)
        yield "rounds: the first Roots", went(folder, "first") == (0, "")
        yield "rounds: nothing is assigned", went(folder, "round") == (0, "accepted\n")
        given(folder, "rotate", keys_of(folder) | {"at": int(time.time())})
        given(folder, "add_image", {"at": int(time.time())} | IMAGE)
        items = [{"hardware": "HP", "file": IMAGE["file"]}]
        given(folder, "open_campaign",
              {"at": int(time.time()), "campaign": "c", "vehicles": "all", "items": items})
        told = "accepted\ninstall P1 %(file)s %(length)d %(sha256)s %(release)d\n" % IMAGE
        yield "rounds: an image, behind a rotation", went(folder, "round") == (0, told)
        yield "rounds: it is installed", went(folder, "round") == (0, "accepted\n")
        state = json.loads((folder / "state.json").read_text(encoding="ascii"))
        roots = [
            json.loads(state[it]["root"])["signed"]["version"] for it in reference.REPOSITORIES]
        yield "rounds: the state", (roots, state["director"]["targets"],
                                    state["ecus"][0]["release"]) == ([2, 2], 4, 7)


IMAGE: dict[str, Any] = {
    "file": "new.bin", "hardware": ["HP"], "length": 3, "release": 7, "sha256": 32 * "5a"}


def bin_of(program: str, folder: Path) -> None:
    """A folder for the PATH, in which the program has its own name."""
    (folder / "bin").mkdir()
    (folder / "bin" / "uptane_primary").symlink_to(Path(program).resolve())


def started(folder: Path) -> None:
    """Two repositories that are founded now, and what the vehicle reports."""
    script = (trials.FIRST_PATH / "script").read_text(encoding="ascii")
    lines = script.replace("1767225600", str(int(time.time()))).encode("ascii")
    assert trials.tool("reference", "run", folder / "desk", given=lines)[0] == 0
    told = json.loads((trials.MESSAGES / "manifest-input.json").read_text(encoding="ascii"))
    vehicle = json.loads((trials.MESSAGES / "vehicle.json").read_text(encoding="ascii"))
    for it in told["reports"]:
        it |= {"hardware": "HP", "release": 0}
    told |= {"held": vehicle.get("role_secrets", [])}
    (folder / "own.json").write_text(json.dumps(told), encoding="ascii")


def given(folder: Path, command: str, members: dict[str, Any]) -> None:
    """A command of the operator's."""
    line = reference.canonical({"do": command} | members).encode("ascii")
    assert trials.tool("reference", "run", folder / "desk", given=line + b"\n")[1] == ["done"]


def keys_of(folder: Path) -> dict[str, Any]:
    """The roles' keys that the repositories were founded with, for a Root with the same."""
    found = json.loads((trials.FIRST_PATH / "script").read_text(encoding="ascii").split("\n")[0])
    return {it: found[it] for it in reference.REPOSITORIES}


def went(folder: Path, word: str) -> tuple[int, str]:
    """The status of the script, and what it printed."""
    with trials.rules_served(folder / "desk") as port:
        words = [
            sys.executable,
            str(trials.TOP / "examples" / "proved_primary" / "round.py"), word,
            "http://127.0.0.1:%d" % port,
            str(folder)]
        path = "%s:%s" % (folder / "bin", os.environ["PATH"])
        ran = subprocess.run(words, capture_output=True, check=False, timeout=120,
                             env=os.environ | {"PATH": path})
    return ran.returncode, ran.stdout.decode("ascii")


def main(words: arguments.Words = None) -> int:
    """Tries the program."""
    asked = arguments.given(__doc__, words, "program")
    return trials.judged("primary",
                         [*cases(asked.program), *builds(asked.program), *rounds(asked.program)])
