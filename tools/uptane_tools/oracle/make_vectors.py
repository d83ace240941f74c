"""Makes the test vectors of `vectors/` by the rules alone, as `tools/run reference` has them.

    tools/run make_vectors            writes the files
    tools/run make_vectors --check    says which of them differ from what would be written; status 1
                                      where one does

`vectors/README.md` says what the members mean. A start makes the files of one scheme, and starts
itself for the other.
"""
import json
import os
import subprocess
import sys
from collections.abc import Iterable, Iterator
from typing import Any

from uptane_tools import RUN, TOP, arguments
from uptane_tools.oracle import (vector_forms, vector_rounds, vector_thefts, vector_verdicts,
                                 verification)
from uptane_tools.oracle.reference import METHOD, SCHEME
from uptane_tools.oracle.schemes import OF_PRODUCT, Ed25519, HmacSha256, key_identifier
from uptane_tools.oracle.vector_answers import answers, files
from uptane_tools.oracle.vector_chains import INSTALLS, VEHICLE, bases, chains, contents
from uptane_tools.oracle.vector_fleet import FIRST, NOW, SECOND, SETUP, key, public
from uptane_tools.oracle.vector_manifests import builds, delivered, replies
from uptane_tools.oracle.vector_signatures import (canonical_texts, encodings, envelopes,
                                                   key_identifiers, signatures)

FOLDER = TOP / "vectors"
SHARED = ("canonical_texts.json", "key_identifiers.json", "answers.json")
OF_A_SCHEME = ("signatures.json", "manifests.json", "replies.json", "chains.json", "rounds.json")

# ---- files


def listed(name: str, values: Iterator[Any] | list[str]) -> str:
    """A member that is a list, one value a line."""
    return ' "%s": [\n%s\n ]' % (name, ",\n".join("  " + json.dumps(value) for value in values))


def text(about: str, *parts: str) -> str:
    return '{\n "about": %s,\n%s\n}\n' % (json.dumps(about), ",\n".join(parts))


def member(name: Any, value: Any) -> str:
    return ' "%s": %s' % (name, json.dumps(value))


def by_name(name: str, values: dict[str, str]) -> str:
    return ' "%s": {\n%s\n }' % (name, ",\n".join("  %s: %s" % (json.dumps(it), json.dumps(value))
                                                  for it, value in values.items()))


def shared() -> Iterator[tuple[str, str]]:
    """The files that are the same whatever the scheme."""
    yield SHARED[0], text(
        "texts of JSON values, each with its canonical text "
        "or the refusal of a value that has none", listed("cases", canonical_texts()))
    yield SHARED[1], text("public parts of keys, and the identifiers of these keys",
                          listed("cases", key_identifiers()))
    yield SHARED[2], text(
        "answers to a manifest, those to a GET of a file, and what a Primary does behind each",
        listed("cases", answers()), listed("files", files()))


def judged(told: dict[str, Any], cases: Iterable[dict[str, Any]]) -> Iterator[dict[str, Any]]:
    """Each case with what the vehicle trusts behind it. The verdict that was written by hand has
    to be the one that is computed.
    """
    for case in cases:
        verdict, due, state = verification.of_case(METHOD, told, case)
        wanted = case["verdict"], case.get("installs",
                                           INSTALLS) if case["verdict"] == "accepted" else None
        assert (verdict, due) == wanted, (case["name"], verdict, due)
        yield case | {"state": state}


def known_keys() -> dict[str, str]:
    """The repositories' keys by identifier, where the vehicle can't have them from the Root files.
    """
    secrets = {
        it for keys in (FIRST, SECOND) for roles in keys.values() for role in roles.values()
        for it in role["keys"]}
    return {key_identifier(bytes.fromhex(it)): it for it in sorted(secrets)
            } if SCHEME is HmacSha256 else {}


def of_the_scheme() -> list[tuple[str, str]]:
    method, setup, made = member("method", METHOD), listed("setup", SETUP), bases()
    contained = [
        text(
            "signatures, and envelopes round one payload: whether the key signed, or the refusal "
            "of one of another form", method, member("key", public(key(0xA4))), setup,
            listed("signatures", signatures()), listed("envelopes", envelopes()),
            *([listed("encodings", encodings())] if SCHEME is Ed25519 else []))]
    contained.append(
        text(
            "bodies that are delivered one after another once the lines of setup were run, and "
            "how each is answered; and manifests to be built", method, member("at", NOW), setup,
            listed("cases", delivered()), listed("builds", builds())))
    contained.append(
        text(
            "manifests that are accepted one after another, each after its lines, and the replies "
            "to them", method, member("at", NOW), setup, listed("cases", replies())))
    vehicle = VEHICLE | {"role_keys": known_keys()}
    known = {"vehicle": vehicle, "now": NOW} | {
        "files of " + name: it.files for name, it in made.items()}
    contained.append(
        text(
            "what a vehicle receives, and whether it may install what the reply assigns", method,
            member("now", NOW), member("vehicle", vehicle), member("installs", INSTALLS),
            *(part for name, it in made.items()
              for part in (listed("lines of " + name, it.lines),
                           by_name("files of " + name, it.files))),
            listed(
                "cases",
                judged(
                    known,
                    chains(
                        made, {
                            base: (*vector_forms.CASES[base], *vector_verdicts.CASES[base],
                                   *vector_thefts.CASES[base]) for base in made}))),
            listed("contents", contents())))
    update = made["update"]
    contained.append(
        text("rounds of a vehicle: what comes back, and what it sends, waits, installs and trusts",
             method, member("now", NOW),
             member("vehicle", vector_rounds.KNOWN | {"role_keys": known_keys()}),
             by_name("files", vector_rounds.files(update)),
             by_name("texts", vector_rounds.texts(update)), member("images", vector_rounds.IMAGES),
             listed("cases", vector_rounds.cases())))
    return [("%s/%s" % (METHOD, name), it) for name, it in zip(OF_A_SCHEME, contained, strict=True)]


def names() -> set[str]:
    """All files of the folder."""
    return {*SHARED, *("%s/%s" % (it.method, name) for it in OF_PRODUCT for name in OF_A_SCHEME)}


def main(words: arguments.Words = None) -> int:
    """Writes the vectors, or compares them."""
    asked = arguments.parser(__doc__)
    asked.add_argument("--check", action="store_true", help="write nothing")
    check = asked.parse_args(words).check
    differing = 0
    for name, made in [*(shared() if SCHEME is HmacSha256 else []), *of_the_scheme()]:
        path = FOLDER / name
        if check and not (path.is_file() and path.read_text(encoding="ascii") == made):
            differing += 1
            print("%s differs" % name)
        elif not check:
            path.parent.mkdir(exist_ok=True)
            path.write_text(made, encoding="ascii")
    if SCHEME is HmacSha256:
        again = [sys.executable, RUN, "make_vectors", *(["--check"] if check else [])]
        scheme = os.environ | {"SCHEME": Ed25519.method}
        differing += subprocess.run(again, env=scheme, check=False).returncode != 0
    return 1 if differing else 0
