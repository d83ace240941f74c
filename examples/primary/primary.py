#!/usr/bin/env python3
"""A Primary ECU in small: builds and signs a vehicle version manifest, sends it, and verifies all
that comes back.

    primary.py build < manifest-input.json      prints the body to deliver
    primary.py line AT < manifest-input.json    prints it as a `deliver` line of a script, at the
                                                moment AT
    primary.py send URL < manifest-input.json   posts it to the Director at http://HOST:PORT, and
                                                prints the reply
    primary.py check SECRETS < reply.json       looks at a reply's signatures alone: SECRETS is a
                                                file with the Director's secrets of each role, which
                                                verify as they sign
    primary.py trust URL VEHICLE                puts the first Root of each repository into VEHICLE,
                                                as where it is built
    primary.py round URL VEHICLE [IMAGES]       one round of a vehicle: a new manifest, the metadata
                                                of both repositories, and what is to be installed,
                                                from the folder IMAGES
    primary.py rounds URL VEHICLE [IMAGES]      rounds without end: one a day, and sooner behind one
                                                that failed

Nothing but Python's standard library is used. The input of `build` is one JSON object:

    {"vehicle": .., "primary": .., "key": HEX, "counter": N,
     "reports": [{"ecu": .., "key": HEX, "counter": N, "time": SECONDS, "attack": .., "file": ..,
                  "length": N, "sha256": HEX}, ..]}

A report may have `"sha512": HEX` too. With `"method": "ed25519"` the keys are secrets of Ed25519;
without, they are HMAC's. So it is with VEHICLE and SECRETS; under Ed25519 `check` takes the text of
the Director's Root in place of SECRETS.

VEHICLE is a file that holds what the vehicle knows, `vehicle.json` for one; it is written anew in
each round. Before `trust` it is

    {"vehicle": .., "primary": .., "counter": 0, "method": "ed25519",
     "director": {"versions": {}}, "image": {"versions": {}},
     "ecus": [{"ecu": .., "hardware": .., "secret": HEX, "counter": 0,
               "installed": {"file": .., "length": N, "sha256": HEX, "release": N}}, ..]}

with the inventory's ECUs in its order, and what is in them. It holds secrets: the ECUs', and under
HMAC, in `role_secrets`, those of the repositories' roles. OpenSSL's file of one ends with it:
`openssl pkey -in P1.pem -outform DER | tail -c 32 | od -An -vtx1`. In a vehicle each ECU signs its
own report with its own key and hands the envelope to the Primary, and checks the metadata once
more; here one program holds all keys. Images aren't served by the repositories: a round takes them
from a folder, by their filenames, and installs none before all are there. What `trust` fetches is
believed as it comes: so that is done once, in the factory, and over a connection that nobody else
can change. Where an ECU was replaced, its old identifier is put into the list `replaced`.

The status is 0 where all went well, 1 with a message where it didn't, and 2 where the words are
wrong.
"""
import argparse
import http.client
import json
import os
import random
import re
import sys
import time
import urllib.error
import urllib.request
from collections.abc import Callable
from pathlib import Path
from typing import Any

sys.dont_write_bytecode = True

import forms  # noqa: E402 (no bytecode is written beside them)
import verify  # noqa: E402
from envelopes import (  # noqa: E402
    MOST, File, canonical, hashes, key_identifier, manifest, reply_of, use, value_of)

Told = dict[str, Any]
Image = Callable[[str], bytes | None]

# seconds: what an answer may take, longer than the proxies of `examples/service` wait, and the
# waits between tries, each half as long again at random so that a fleet doesn't come at once
PATIENCE = 100
WAITS = (1, 3, 9)
# seconds between two rounds, and behind one that failed or installed something; behind each further
# one that failed the wait doubles
INTERVAL, SOON = 86_400, 300
# 9999-12-31T23:59:59Z
LAST_SECOND = 253_402_300_799


# what comes of a file or a line that isn't there, or of another form
OF_FORMS = (ValueError, KeyError, TypeError, AttributeError)
STRANGE = (OSError, *OF_FORMS)


class Failed(Exception):
    """What ends a round without a verdict, told in one line."""


# ---- requests


def follows(status: int, text: str) -> tuple[str, Any]:
    """What a Primary does after an answer: `read` it; send the same `again`, since the answer is no
    verdict on it; raise the manifest's `counter` above a number, or that of an ECU's `report`; or
    nothing until somebody has made good what the answer names (`mend`)."""
    try:
        told = value_of(text)
    except ValueError:
        told = None
    if not isinstance(told, dict):
        return "again", None
    if status == 200:
        return "read", None
    error, words = told.get("error"), told.get("text")
    if status >= 500 or type(error) is not int or error < 1 or not isinstance(words, str):
        return "again", None
    if error in (1, 2, 3, 8):
        return "again", None
    value = words.partition(" ")[2]
    if error == 13 and forms.is_like("[0-9]{1,16}", value) and int(value) <= MOST:
        return "counter", int(value)
    return ("report", value) if error == 18 and forms.is_name(value) else ("mend", error)


def of_get(status: int, text: str) -> str:
    """What an answer to a GET is: the file, to be `read`; `none`, where the repository has none of
    this name; the same `again`; or the `end` of the round, without a verdict."""
    what, value = follows(status, text)
    if what in ("read", "again"):
        return what
    return "none" if (status, value) == (404, 29) else "end"


class NoRedirect(urllib.request.HTTPRedirectHandler):
    """A redirect is an answer that isn't the service's."""

    def redirect_request(self, *_: Any) -> None:
        return None


def taken(answer: Any, ends: float) -> bytes:
    """The bytes of an answer, one more at most than a file may have: all of them come in time."""
    data = bytearray()
    while len(data) <= forms.LARGEST and (piece := answer.read1(65_536)):
        data += piece
        if time.monotonic() > ends:
            raise TimeoutError("an answer without end")
    return bytes(data)


def exchanged(url: str, data: bytes | None) -> tuple[int, bytes]:
    """The status of one answer, and its bytes."""
    ends, opener = time.monotonic() + PATIENCE, urllib.request.build_opener(NoRedirect)
    request = urllib.request.Request(url, data=data, headers={"Connection": "close"})
    try:
        with opener.open(request, timeout=PATIENCE) as answer:
            return answer.status, taken(answer, ends)
    except urllib.error.HTTPError as refused:
        return refused.code, taken(refused, ends)


def asked(url: str, body: str | None = None) -> tuple[int, str]:
    """The status and the text of an answer. Where none comes, or the service says that the fault is
    its own, the same is asked again after a while: a manifest that was accepted meanwhile is
    answered by its kept reply."""
    wrong: Any = None
    for wait in (*WAITS, None):
        try:
            status, data = exchanged(url, body.encode("ascii") if body else None)
            verify.expect(len(data) <= forms.LARGEST, "%s has no end", url)
            came = status, data.decode("utf-8", "strict" if status == 200 else "replace")
        except (OSError, http.client.HTTPException, UnicodeError) as error:
            came, wrong = None, error
        if came and follows(*came)[0] != "again":
            return came
        wrong = "%d %s" % (came[0], came[1][:200]) if came else wrong
        if wait is None:
            break
        time.sleep(wait * random.uniform(1, 1.5))
    raise Failed("no answer from %s: %s" % (url, wrong))


def send(url: str, body: str) -> tuple[int, str]:
    return asked(url + "/director/manifest", body)


def fetcher(url: str) -> verify.Fetch:
    """Fetches a file of a repository; none where there is none of that name. One that is too large
    has another form, which is looked at in its turn."""

    def fetch(name: str) -> File | None:
        try:
            status, text = asked("%s/%s" % (url, name))
        except verify.Refused:
            return File("{}")
        what = of_get(status, text)
        if what == "end":
            raise Failed("%s: %d %s" % (name, status, text[:200]))
        return File(text) if what == "read" else None

    return fetch


# ---- a round


def primary_of(told: Told) -> Told:
    return next(ecu for ecu in told["ecus"] if ecu["ecu"] == told["primary"])


def raised(counter: int) -> int:
    """A counter that may be signed. The greatest number never is: none would come behind it."""
    if counter >= MOST:
        raise Failed("no counter is left")
    return counter


def new_report(ecu: Told, now: int) -> Told:
    """What an ECU reports next: what it has, and the attack that it has seen. Its counter rises;
    where none is left, and nothing but the time moved, the report is the last one once more."""
    own = ecu["installed"]
    has = {name: own[name] for name in ("file", "length", "sha256", "sha512") if name in own}
    says, last = {"ecu": ecu["ecu"], "attack": ecu.get("attack", "")} | has, ecu.get("last", {})
    if ecu["counter"] + 1 < MOST or says != {it: last[it] for it in last if it != "time"}:
        ecu["counter"], ecu["last"] = raised(ecu["counter"] + 1), says | {"time": now}
    return ecu["last"] | {"key": ecu["secret"], "counter": ecu["counter"]}


def new_manifest(told: Told, now: int) -> str:
    """The body of the next manifest: its counter rises, and each ECU reports."""
    counter, reports = raised(told["counter"] + 1), [new_report(it, now) for it in told["ecus"]]
    told["counter"], key = counter, primary_of(told)["secret"]
    made = {"vehicle": told["vehicle"], "primary": told["primary"], "key": key}
    return manifest(made | {"counter": counter, "reports": reports})


def clock(told: Told) -> int:
    """The latest time that the vehicle knows: it never goes back, nor past the year 9999."""
    told["time"] = max(told.get("time", 0), min(int(time.time()), LAST_SECOND))
    return told["time"]


def role_secrets(told: Told) -> verify.Keys:
    return {key_identifier(key): key for key in map(bytes.fromhex, told.get("role_secrets", []))}


def answered(told: Told, url: str, save: Callable[[], None]) -> dict[str, Told]:
    """What is to be installed by the reply to this round's manifest, by ECU, once it is verified.

    A manifest is kept until it was answered. From then on its bytes would only ever bring the same
    reply: so whatever that is, they aren't sent again. Behind a reply that is old by now one new
    manifest follows at once; behind one that is refused, one in the next round."""
    is_second = False
    for _ in range(2 + 2 * len(told["ecus"])):
        now = clock(told)
        if not told.get("pending"):
            told["pending"] = new_manifest(told, now)
            save()
        try:
            status, text = send(url, told["pending"])
            what, value = follows(status, text)
            if what == "read":
                reply, fetch = reply_of(text), fetcher(url)
                return verify.verified(told, reply, fetch, role_secrets(told), clock(told))
        except verify.Old as old:
            told["pending"] = None
            words = "the service's replies stay old, or the clock is wrong: %s"
            verify.expect(not is_second, words, old)
            print("again with a new manifest: %s" % old)
            is_second = True
        except verify.Refused:
            told["pending"] = None
            raise
        if what != "read":
            told["pending"] = None
        if what == "counter":
            told["counter"] = max(raised(value + 1) - 1, told["counter"])
        elif what == "report":
            skip(told, value, now)
        elif what == "mend":
            raise Failed("%d %s" % (status, text))
    raise Failed("the service goes on refusing the counters")


def skip(told: Told, name: str, now: int) -> None:
    """The ECU has lost its counter, and the refusal doesn't say what the last one was. Counters may
    skip: so the next one is the time in seconds, or twice what was refused, which comes above any
    other in a few tries. One that can't be signed isn't kept, nor the report that was refused."""
    for ecu in told["ecus"]:
        if ecu["ecu"] == name:
            ecu["last"] = {}
            ecu["counter"] = raised(max(2 * ecu["counter"], now, 1)) - 1


def path_of(folder: Path, name: str) -> Path:
    """The path of an image. A filename is not a path: `/` and a first `.` are %2F and %2E."""
    return folder / re.sub(r"^\.", "%2E", name.replace("/", "%2F"))


def images_in(folder: Path | None) -> Image:
    """Finds an image by its filename, where the folder has it."""

    def image(name: str) -> bytes | None:
        path = path_of(folder, name) if folder else None
        return path.read_bytes() if path and path.is_file() else None

    return image


def takes(_ecu: str, _content: bytes) -> bool:
    """Whether an ECU installs an image: here each one does."""
    return True


def has_already(ecu: Told, target: Told) -> bool:
    """Whether an ECU has its target's image already. A SHA-512 that only one of them has makes no
    difference."""
    own, second = ecu["installed"], verify.second_hash(target)
    is_one = second is None or own.get("sha512") in (None, second)
    found = own["file"], own["length"], own["sha256"], own.get("release")
    digest = target["hashes"]["sha256"]
    return is_one and found == (target["file"], target["length"], digest, target["release"])


def install(told: Told, due: dict[str, Told], image: Image) -> int | None:
    """Puts each image into its ECU that hasn't it, in the order of Targets, once all of these can
    be had and are what was meant: one may need another. So none follows one that failed. Returns
    how many were installed, and nothing where one wasn't."""
    found, ecus = {}, {it["ecu"]: it for it in told["ecus"]}
    due = {name: target for name, target in due.items() if not has_already(ecus[name], target)}
    for ecu, target in due.items():
        content = image(target["file"])
        if content is not None:
            verify.check_image(target, content)
            found[ecu] = content
        else:
            print("%s is to install %s, which isn't here yet" % (ecu, target["file"]))
    if len(found) < len(due):
        return None
    for ecu, target in due.items():
        if not takes(ecu, found[ecu]):
            print("%s failed to install %s" % (ecu, target["file"]))
            return None
        has = {"file": target["file"], "length": target["length"], **hashes(target["hashes"])}
        ecus[ecu]["installed"] = has | {"release": target["release"]}
        print("%s installed %s" % (ecu, target["file"]))
    return len(due)


def write(path: Path, told: Told) -> None:
    """Writes the file whole or not at all, for its owner alone."""
    new = path.with_name(path.name + ".new")
    handle = os.open(new, os.O_WRONLY | os.O_CREAT | os.O_TRUNC, 0o600)
    with open(handle, "w", encoding="ascii") as file:
        file.write(json.dumps(told, indent=1) + "\n")
    os.replace(new, path)


def went(told: Told, url: str, save: Callable[[], None], image: Image) -> int | None:
    """A round, and what `install` returns. What is wrong with the metadata or an image is told in
    the Primary's own report, from the next manifest on, until metadata is accepted again."""
    own = primary_of(told)
    try:
        due = answered(told, url, save)
        told["pending"], own["attack"] = None, ""
        save()
        installed = install(told, due, image)
        version = told["director"]["versions"]["targets"]
        print("verified: version %d, targets %d" % (version, len(due)))
        return installed
    except verify.Refused as wrong:
        own["attack"] = "".join(it for it in str(wrong) if " " <= it <= "~")[:256]
        raise
    finally:
        save()


def go_round(url: str, path: Path, images: Path | None) -> int | None:
    told = json.loads(path.read_text(encoding="ascii"))
    use(told)
    return went(told, url, lambda: write(path, told), images_in(images))


def pause(failed: int, installed: int | None = 0) -> float:
    """The seconds until the next round, behind so many that failed in a row. They differ at random,
    so that a fleet that was switched on at one moment, or met one outage, doesn't come at one
    moment: by a tenth, and behind a failure by half the wait. What was installed is told soon."""
    if not failed and not installed:
        return INTERVAL * random.uniform(0.9, 1.1)
    return min(INTERVAL, SOON * 2 ** min(max(failed - 1, 0), 20)) * random.uniform(0.5, 1)


def behind(go: Callable[[], int | None], failed: int) -> tuple[int, float]:
    """Goes a round, behind so many that failed in a row: how many have by then, and the seconds
    until the next one. An image that isn't there is a failure too."""
    installed = None
    try:
        installed = go()
    except (Failed, verify.Refused, *STRANGE) as wrong:
        is_told = isinstance(wrong, (Failed, verify.Refused))
        print("primary: %s" % (wrong if is_told else repr(wrong)), file=sys.stderr, flush=True)
    failed = failed + 1 if installed is None else 0
    return failed, pause(failed, installed)


def go_rounds(url: str, path: Path, images: Path | None) -> None:
    failed = 0
    while True:
        failed, wait = behind(lambda: go_round(url, path, images), failed)
        print("the next round is in %d minutes" % (wait // 60), flush=True)
        time.sleep(wait)


def trust(url: str, path: Path) -> None:
    """What a vehicle trusts from the beginning: root version 1 of both repositories, and no file.
    """
    told, fetch = json.loads(path.read_text(encoding="ascii")), fetcher(url)
    for repository in ("director", "image"):
        root = fetch(repository + "/1.root.json")
        verify.expect(bool(root), "%s has no 1.root.json", repository)
        told[repository] = {"root": root, "versions": {}}
    write(path, told)


# ---- words


def check(text: str, told: Told) -> None:
    """Looks at a reply alone: each file under its role's keys, its versions, and that the Timestamp
    names this very Snapshot."""
    reply, secrets = reply_of(text), {}
    if "signed" in told:
        use(next(iter(told["signed"]["keys"].values())))
    else:
        keys = [bytes.fromhex(key) for role in told.values() for key in role["secrets"]]
        secrets = {key_identifier(key): key for key in keys}
        told = {"signed": {"roles": {name: root_role(role) for name, role in told.items()}}}
    trusted = {"root": told, "versions": {}}
    versions = verify.check_files(trusted, reply, secrets, "director", 0, reply["vehicle"])
    words = "the files of the reply are of several versions"
    verify.expect(set(versions.values()) == {reply["version"]}, words)


def root_role(role: Told) -> Told:
    """What a Root file says of a role with these secrets."""
    keyids = [key_identifier(bytes.fromhex(key)) for key in role["secrets"]]
    return {"keyids": keyids, "threshold": role["threshold"]}


def given() -> Told:
    told = json.load(sys.stdin)
    use(told)
    return told


def parser() -> argparse.ArgumentParser:
    """The words that are known."""
    plain = argparse.RawDescriptionHelpFormatter
    made = argparse.ArgumentParser(description=__doc__, formatter_class=plain)
    of = made.add_subparsers(dest="word", required=True, metavar="WORD")
    of.add_parser("build")
    of.add_parser("line").add_argument("at", type=int, metavar="AT")
    of.add_parser("send").add_argument("url", metavar="URL")
    of.add_parser("check").add_argument("secrets", type=Path, metavar="SECRETS")
    for word in ("trust", "round", "rounds"):
        one = of.add_parser(word)
        one.add_argument("url", type=lambda text: text.rstrip("/"), metavar="URL")
        one.add_argument("vehicle", type=Path, metavar="VEHICLE")
        if word != "trust":
            one.add_argument("images", type=Path, nargs="?", metavar="IMAGES")
    return made


def carried_out(asked: argparse.Namespace) -> int:
    if asked.word == "build":
        print(manifest(given()))
    elif asked.word == "line":
        print(canonical({"at": asked.at, "body": manifest(given()), "do": "deliver"}))
    elif asked.word == "send":
        status, answer = send(asked.url, manifest(given()))
        print(answer if status == 200 else "%d %s" % (status, answer))
        return 0 if status == 200 else 1
    elif asked.word == "check":
        check(sys.stdin.read(), json.loads(asked.secrets.read_text(encoding="ascii")))
        print("the reply is signed as it must be")
    elif asked.word == "trust":
        trust(asked.url, asked.vehicle)
        print("trusted: root version 1 of both repositories")
    else:
        go = go_round if asked.word == "round" else go_rounds
        go(asked.url, asked.vehicle, asked.images)
    return 0


def main(words: list[str] | None = None) -> int:
    asked = parser().parse_args(words)
    try:
        return carried_out(asked)
    except (Failed, verify.Refused, OSError) as wrong:
        print("primary: %s" % wrong, file=sys.stderr)
    except OF_FORMS as wrong:
        print("primary: that has another form than it must have: %r" % wrong, file=sys.stderr)
    return 1


if __name__ == "__main__":
    sys.exit(main())
