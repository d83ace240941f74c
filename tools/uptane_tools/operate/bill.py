"""The list of the parts of a program, in SPDX 2.3: the crates of the repository, and those of
the kit.
"""
import hashlib
import json
import time
from pathlib import Path
from typing import Any

from uptane_tools import TOP

Package = dict[str, Any]


def crates(listed: str) -> dict[str, list[str]]:
    """The crates of `crates.txt`, each with those that it uses."""
    rows = (line.partition(":") for line in listed.splitlines()
            if line.strip() and not line.startswith("#"))
    return {name.strip(): its.split() for name, _, its in rows}


def below(name: str, every: dict[str, list[str]]) -> set[str]:
    """All that a crate stands on."""
    found: set[str] = set()
    left = list(every[name])
    while left:
        one = left.pop()
        if one not in found:
            found.add(one)
            left += every.get(one, [])
    return found


def part(name: str, version: str, more: Package) -> Package:
    usual = {
        "downloadLocation": "NOASSERTION", "filesAnalyzed": False,
        "licenseConcluded": "NOASSERTION", "licenseDeclared": "NOASSERTION",
        "copyrightText": "NOASSERTION"}
    return {
        "SPDXID": "SPDXRef-" + name.replace("_", "-"), "name": name, "versionInfo": version,
        **usual, **more}


def spdx(crate: str, program: bytes, version: str, kit: str, made: int) -> str:
    """The list, whose bytes follow from what it is given."""
    every = crates((TOP / "crates.txt").read_text(encoding="utf-8"))
    named = sorted(below(crate, every) | {"std"})
    digest = hashlib.sha256(program).hexdigest()
    whole = part(
        crate, version, {
            "primaryPackagePurpose": "APPLICATION", "checksums": [{
                "algorithm": "SHA256", "checksumValue": digest}]})
    parts = [
        part(name, version if name in every else kit,
             {"primaryPackagePurpose": "LIBRARY", "supplier": "NOASSERTION"}) for name in named]
    links = [{
        "spdxElementId": whole["SPDXID"], "relationshipType": "STATIC_LINK",
        "relatedSpdxElement": it["SPDXID"]} for it in parts]
    head: dict[str, object] = {
        "spdxVersion": "SPDX-2.3", "dataLicense": "CC0-1.0", "SPDXID": "SPDXRef-DOCUMENT",
        "name": "%s-%s" % (crate, version)}
    head |= {"documentNamespace": "https://spdx.org/spdxdocs/%s-%s" % (crate, digest)}
    head |= {
        "creationInfo": {
            "created": time.strftime("%Y-%m-%dT%H:%M:%SZ", time.gmtime(made)), "creators": [
                "Tool: uptane_tools-package"]}}
    first = {
        "spdxElementId": "SPDXRef-DOCUMENT", "relationshipType": "DESCRIBES",
        "relatedSpdxElement": whole["SPDXID"]}
    return json.dumps({**head, "packages": [whole, *parts], "relationships": [first, *links]},
                      indent=1) + "\n"


def written(crate: str, program: Path, version: str, kit: str, made: int, to: Path) -> None:
    to.parent.mkdir(parents=True, exist_ok=True)
    to.write_text(spdx(crate, program.read_bytes(), version, kit, made), encoding="ascii")
