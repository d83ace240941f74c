"""Tries the vectors of `vectors/`: by the small Primaries, and by the program where it takes
them.

    tools/run vector_cases [PROGRAM]

They have to be what `tools/run make_vectors` makes. Without a PROGRAM the small Primaries alone
are tried, with those of both schemes; the one in JavaScript where Node is installed. With
SCHEME=ed25519 the program is uptane_desk_ed25519.
"""
import contextlib
import copy
import http.client
import json
import re
import shutil
import subprocess
import types
from collections.abc import Callable, Iterator
from contextlib import closing
from pathlib import Path
from typing import Any

from uptane_tools import arguments
from uptane_tools.measure import fleet
from uptane_tools.oracle import make_vectors, reference, schemes, vector_fleet
from uptane_tools.trial import http_cases, small_primary, small_rounds, trials

PRIMARY = trials.TOP / "examples" / "primary"
envelopes, verify, primary = small_primary.modules()
# the small Primary in Python, whose modules these are
SMALL = types.SimpleNamespace(envelopes=envelopes, primary=primary, verify=verify)
FOLDER = trials.TOP / "vectors"
# the members that have vectors
CASES = {"cases", "files", "signatures", "encodings", "envelopes", "builds", "contents"}
HMAC, METHOD = schemes.HmacSha256.method, reference.METHOD


def vectors(name: str, method: str | None = None) -> dict[str, Any]:
    """The vectors of a name, of this scheme or of both."""
    return json.loads((FOLDER / (method or "") / (name + ".json")).read_text(encoding="ascii"))


def made() -> trials.Cases:
    yield "the vectors are those of the rules", make_vectors.main(["--check"]) == 0
    shown = re.findall(r"(?s)```json\n(.*?)\n```", (trials.TOP / "docs" / "integrate" /
                                                    "PRIMARY.md").read_text(encoding="ascii"))
    of_primary = [path.read_text(encoding="ascii").strip() for path in PRIMARY.glob("**/*.json")]
    texts = of_primary + [it["reply"] for it in vectors("replies", HMAC)["cases"]] + list(
        vectors("chains", HMAC)["files of update"].values())
    yield "the page shows eight messages", len(shown) == 8
    for text in shown:
        yield "the page shows %s.." % text[:60], any(text in it for it in texts)
    found = {str(path.relative_to(FOLDER)) for path in FOLDER.rglob("*") if path.is_file()}
    lists = [
        it for name in sorted(found - {"README.md"})
        for it in json.loads((FOLDER / name).read_text(encoding="ascii")).items()]
    count = sum(len(value) for name, value in lists if name in CASES and isinstance(value, list))
    page = (FOLDER / "README.md").read_text(encoding="ascii")
    yield "the page says that there are %d" % count, "\n\n%d, for " % count in page
    yield "there is no other file", found == make_vectors.names() | {"README.md"}


# ---- the small Primary


def by_primary() -> trials.Cases:
    for case in vectors("canonical_texts")["cases"]:
        if "canonical" in case:
            yield "canonical text: %(name)s" % case, envelopes.canonical(json.loads(
                case["text"])) == case["canonical"]
    for case in vectors("key_identifiers")["cases"]:
        yield "key identifier: %(name)s" % case, envelopes.key_identifier(
            bytes.fromhex(case["public"])) == case["keyid"]
    for case in vectors("answers")["cases"]:
        yield "answer: %(name)s" % case, answer_is_answered(SMALL, case)
    for case in vectors("answers")["files"]:
        yield "answer to a GET: %(name)s" % case, get_is_answered(SMALL, case)
    for method in envelopes.SCHEMES:
        yield from (("%s: %s" % (method, name), well) for name, well in under(method))


def under(method: str) -> trials.Cases:
    """The vectors of a scheme."""
    envelopes.use({"method": method})
    scheme, told = envelopes.SCHEMES[method], vectors("signatures", method)
    for case in told["signatures"]:
        secret, public, data, sig = (
            bytes.fromhex(case[it]) for it in ("secret", "public", "data", "sig"))
        well = (scheme.public_of(secret), scheme.sign(
            secret, data)) == (public, sig) and scheme.verify(public, data, sig)
        yield "signature: %(name)s" % case, well
    for case in told.get("encodings", []):
        yield "encoding: %(name)s" % case, scheme.verify(
            *(bytes.fromhex(case[it]) for it in ("public", "data", "sig"))) == case["verified"]
    for case in told["envelopes"]:
        if "refused" not in case:
            signed = envelopes.is_signed_by(json.loads(case["envelope"]),
                                            bytes.fromhex(told["key"]))
            yield "envelope: %(name)s" % case, signed == case["signed_by_the_key"]
    for case in vectors("manifests", method)["builds"]:
        yield "build: %(name)s" % case, build_is_answered(SMALL, case)
    yield from verified(SMALL, method)
    told = vectors("rounds", method)
    for case in told["cases"]:
        yield "rounds: %(name)s" % case, small_rounds.is_answered(SMALL, told, case)
    told = vectors("chains", method)
    yield "a change of the repository between two requests", begins_again(told)
    if told["vehicle"]["role_keys"]:
        first = {
            name: key for name, key in told["vehicle"]["role_keys"].items()
            if name in told["files of update"]["director/1.root.json"]}
        lacks = told | {"vehicle": told["vehicle"] | {"role_keys": first}}
        yield "a Root whose keys the vehicle hasn't", verdict_of(
            SMALL, lacks, {"base": "rotation"})[0] == "refused"


def begins_again(told: dict[str, Any]) -> bool:
    """Whether the small Primary verifies the Image repository where its Targets were of another
    moment once, and not where they always are.
    """
    files = {name: envelopes.File(text) for name, text in told["files of update"].items()}
    other = next(case["replace"] for case in told["cases"]
                 if case["name"] == "the Image repository's Targets are of another moment")
    found = []
    for times in (1, 2):
        mixed = times * [envelopes.File(other["image/targets.json"])]

        def fetch(name: str) -> Any:
            return mixed.pop() if mixed and name == "image/targets.json" else files.get(name)

        trust = {"root": files["image/1.root.json"], "versions": {}}
        secrets = {name: bytes.fromhex(it) for name, it in told["vehicle"]["role_keys"].items()}
        with contextlib.suppress(verify.Refused):
            found.append(verify.image_repository(trust, fetch, secrets, told["now"])[0])
    return found == [files["image/targets.json"]]


def by_node() -> trials.Cases:
    """Whether the small Primary in JavaScript answers all of them."""
    if shutil.which("node"):
        words = [
            "node",
            str(trials.TOP / "examples" / "primary_node" / "primary.mjs"), "vectors",
            str(FOLDER)]
        ran = subprocess.run(words, capture_output=True, check=False, timeout=600)
        counts = re.fullmatch(rb"([0-9]+) passed, 0 failed\n", ran.stdout)
        yield "the small Primary in JavaScript", ran.returncode == 0 and not ran.stderr and bool(
            counts) and int(counts[1]) > 100


def verified(small: types.SimpleNamespace, method: str) -> trials.Cases:
    """Whether this small Primary gives each chain and each image its verdict, and trusts then
    what it has to.
    """
    told = vectors("chains", method)
    for case in told["cases"]:
        yield "%(attack)s: %(name)s" % case, chain_is_answered(small, told, case)
    for case in told["contents"]:
        yield "image: %(name)s" % case, image_is_answered(small, case)


def image_is_answered(small: types.SimpleNamespace, case: dict[str, Any]) -> bool:
    try:
        small.verify.check_image(case["target"], case["content"].encode())
    except small.verify.Refused:
        return case["verdict"] == "refused"
    return case["verdict"] == "accepted"


def answer_is_answered(small: types.SimpleNamespace, case: dict[str, Any]) -> bool:
    return small.primary.follows(case["status"], case["body"]) == (case["then"], case["value"])


def get_is_answered(small: types.SimpleNamespace, case: dict[str, Any]) -> bool:
    return small.primary.of_get(case["status"], case["body"]) == case["then"]


def build_is_answered(small: types.SimpleNamespace, case: dict[str, Any]) -> bool:
    return small.envelopes.manifest(case["build"]) == case["body"]


def chain_is_answered(small: types.SimpleNamespace, told: dict[str, Any], case: dict[str,
                                                                                     Any]) -> bool:
    verdict, due, known = verdict_of(small, told, case)
    wanted = (case["verdict"],
              case.get("installs", told["installs"]) if case["verdict"] == "accepted" else None)
    none = dict.fromkeys(("timestamp", "snapshot", "targets"), 0)
    states = {
        it: {"root": known[it]["root"]["signed"]["version"]} | none | known[it]["versions"]
        for it in case["state"]}
    return (verdict, due) == wanted and states == case["state"]


def vehicle_of(small: types.SimpleNamespace, told: dict[str, Any], case: dict[str, Any],
               files: Callable[..., Any]) -> dict[str, Any]:
    """What the vehicle of a case knows."""
    renamed, ecus = case.get("replaced", {}), copy.deepcopy(told["vehicle"]["ecus"])
    for ecu in ecus:
        name = ecu["ecu"]
        ecu["installed"] |= case.get("installed", {}).get(name, {})
        ecu["hardware"] = case.get("hardware", {}).get(name, ecu["hardware"])
        ecu["ecu"] = renamed.get(name, name)
    trust = {
        it: {
            "root": files(it + "/1.root.json"), "versions": dict(
                case.get("trusted", {}).get(it, {}))} for it in reference.REPOSITORIES}
    return {"vehicle": told["vehicle"]["vehicle"], "ecus": ecus, "replaced": [*renamed]} | trust


def verdict_of(small: types.SimpleNamespace, told: dict[str, Any],
               case: dict[str, Any]) -> tuple[str, dict[str, str] | None, dict[str, Any]]:
    """What a small Primary says of a chain, what it would install, and what it trusts then."""
    texts = told["files of " + case["base"]] | case.get("replace", {})

    def files(name: str) -> Any:
        return small.envelopes.File(texts[name]) if texts.get(name) is not None else None

    known = vehicle_of(small, told, case, files)
    secrets = {name: bytes.fromhex(it) for name, it in told["vehicle"]["role_keys"].items()}
    try:
        reply = small.envelopes.reply_of(texts["reply"])
        due = small.verify.verified(known, reply, files, secrets, case.get("now", told["now"]))
    except small.verify.Old:
        return "old", None, known
    except small.verify.Refused:
        return "refused", None, known
    return "accepted", {ecu: target["file"] for ecu, target in due.items()}, known


# ---- the program


def delivered(body: Any, at: int | None = None) -> str:
    return fleet.line("deliver", at or vectors("manifests", METHOD)["at"], body=body)


def of_text(secret: Any, counter: Any, case: dict[str, Any]) -> str:
    """A manifest of VIN-2 that has the text as a member more. One level of a text that is as
    deep as may be is left to what is signed, which has it round the member; of one that is as deep
    as JSON may be, two, since the body is another.
    """
    payload = vector_fleet.payload_of("VIN-2", counter, vector_fleet.reports_of("VIN-2", counter))
    texts = [case["text"], case.get("canonical", "[0]")]
    if texts[0].startswith((14 * "[", 14 * '{"a":')):
        texts = [it[1:-1] if it.startswith("[") else it[5:-1] for it in texts]
    if texts[0].startswith(126 * "["):
        texts[0] = texts[0][1:-1]
    with_member = ['%s,"x":%s}' % (payload[:-1], it) for it in texts]
    signature = json.loads(reference.sealed([secret], with_member[1]))["signatures"]
    return '{"signatures":%s,"signed":%s}' % (reference.canonical(signature), with_member[0])


def texts(program: str | Path) -> trials.Cases:
    told, setup = vectors("canonical_texts")["cases"], vectors("manifests", METHOD)["setup"]
    secret, version, lines, wanted = bytes.fromhex(vector_fleet.key(0xA4)), 0, [], []
    for counter, case in enumerate(told, 1):
        lines.append(delivered(of_text(secret, counter, case)))
        version += "canonical" in case
        number = {"NotJson": 5, "NotCanonical": 6}
        wanted.append("refused %d %s" % (number[case["refused"]], case["refused"]) if "refused" in
                      case else "reply VIN-2 version %d targets 0" % version)
    printed = trials.printed(program, ":memory:", [*setup, *lines]) or []
    for case, line, it in zip(told, printed[len(setup):] or len(told) * [None], wanted,
                              strict=True):
        yield "the program: canonical text: %(name)s" % case, line == it


def identifiers(program: str | Path) -> trials.Cases:
    keys = [case for case in vectors("key_identifiers")["cases"] if len(case["public"]) == 64]

    def role(*given: Any) -> dict[str, Any]:
        return {"keys": list(given), "threshold": 1}

    roles = {it: role(vector_fleet.key(0x70 + at)) for at, it in enumerate(reference.ROLES)}
    lines = [
        fleet.line("found", director=roles | {"root": role(*(case["public"] for case in keys))},
                   image=roles),
        fleet.line("fetch", repository="director", file="root.json")]
    printed = trials.printed(program, ":memory:", lines) or ["", "file null"]
    root = json.loads(printed[1].removeprefix("file ")) or {}
    yield "the program: key identifiers", bool(
        root) and root["signed"]["roles"]["root"]["keyids"] == [case["keyid"] for case in keys]


def signatures(program: str | Path) -> trials.Cases:
    told = vectors("signatures", METHOD)
    printed = trials.printed(program, ":memory:", [
        *told["setup"], *(delivered(case["envelope"]) for case in told["envelopes"])]) or []
    for case, line in zip(told["envelopes"], printed[len(told["setup"]):]
                          or len(told["envelopes"]) * [None], strict=True):
        wanted = "reply VIN-2 version 1 targets 0" if case.get(
            "signed_by_the_key") else "refused 12 BadManifestSignature"
        yield "the program: envelope: %(name)s" % case, line == ("refused 7 " + case["refused"]
                                                                 if "refused" in case else wanted)


def body_of(case: dict[str, Any]) -> Any:
    return case["body"] if "body" in case else case["spaces"] * " "


def manifests(program: str | Path, own: Path) -> trials.Cases:
    told = vectors("manifests", METHOD)
    printed = trials.printed(program, ":memory:", [
        *told["setup"], *(delivered(body_of(case)) for case in told["cases"])]) or []
    for case, line in zip(told["cases"], printed[len(told["setup"]):]
                          or len(told["cases"]) * [None], strict=True):
        yield "the program: manifest: %(name)s" % case, line == case["printed"]
    trials.printed(program, own / "desk", told["setup"])
    with http_cases.served(program, own / "desk", len(told["cases"])) as running:
        for case in told["cases"]:
            yield "the program, over HTTP: manifest: %(name)s" % case, posted(
                running, body_of(case)) == answered(case)
        yield "the program ends well", http_cases.ended(running)


def builds(program: str | Path) -> trials.Cases:
    """Each manifest that is to be built is taken."""
    told = vectors("manifests", METHOD)
    for case in told["builds"]:
        printed = trials.printed(program, ":memory:", [*told["setup"], delivered(case["body"])])
        wanted = "reply %s version 1 targets 0" % case["build"]["vehicle"]
        yield "the program: build: %(name)s" % case, (printed or [None])[-1] == wanted


def posted(running: http_cases.Served, body: Any) -> tuple[int, Any | None] | None:
    """The status of a manifest that is posted, and the body of the answer where it is refused."""
    with contextlib.suppress(OSError, http.client.HTTPException), closing(
            http.client.HTTPConnection("127.0.0.1", running.port, timeout=90)) as client:
        client.request("POST", "/director/manifest", body.encode(), {"Connection": "close"})
        came = client.getresponse()
        text = came.read().decode()
        return came.status, None if came.status == 200 else json.loads(text)
    return None


def answered(case: dict[str, Any]) -> tuple[Any, dict[str, Any] | None]:
    """The same as the vector says."""
    words = case["printed"].split(" ", 2)
    return case["status"], {"error": int(words[1]), "text": words[2]
                            } if words[0] == "refused" else None


def replies(program: str | Path, own: Path) -> trials.Cases:
    told = vectors("replies", METHOD)
    path = own / "replies"
    trials.printed(program, path, told["setup"])
    for case in told["cases"]:
        printed = trials.printed(
            program, path, [*case["lines"], delivered(case["body"], told["at"])]) or [None]
        signed = json.loads(case["body"])["signed"]
        with trials.read(path) as db:
            kept = db.execute("SELECT reply FROM kept WHERE vehicle = ? AND counter = ?",
                              (signed["vehicle"], signed["counter"])).fetchone()
        yield "the program: reply: %(name)s" % case, printed[-1] == case["printed"] and kept == (
            case["reply"], )


def bases(program: str | Path, own: Path) -> trials.Cases:
    """The files and the reply of each base are those that the program makes."""
    told = vectors("chains", METHOD)
    for base in ("update", "rotation"):
        path, files = own / base, dict(told["files of " + base])
        printed = trials.printed(program, path, told["lines of " + base])
        reply, names = files.pop("reply"), [name.split("/") for name in files]
        fetched = trials.printed(program, path, [
            fleet.line("fetch", repository=repository, file=name) for repository, name in names])
        with trials.read(path) as db:
            kept = db.execute(
                "SELECT reply FROM kept WHERE vehicle = 'VIN-1' ORDER BY version DESC").fetchone()
        well = printed is not None and fetched == ["file " + text for text in files.values()
                                                   ] and kept == (reply, )
        yield "the program: the files and the reply of the base %s" % base, well


def by_program(program: str | Path) -> Iterator[tuple[str, Any]]:
    with trials.folder() as own:
        yield from texts(program)
        # (under Ed25519 no key is given whose public part is chosen)
        yield from identifiers(program) if METHOD == HMAC else ()
        yield from signatures(program)
        yield from manifests(program, own)
        yield from builds(program)
        yield from replies(program, own)
        yield from bases(program, own)


def cases(program: None = None) -> trials.Cases:
    yield from made()
    yield from by_primary()
    yield from by_node()
    if program:
        yield from by_program(program)


def main(words: arguments.Words = None) -> int:
    """Tries the vectors."""
    return trials.judged("vectors",
                         cases(arguments.given(__doc__, words, program="").program or None))
