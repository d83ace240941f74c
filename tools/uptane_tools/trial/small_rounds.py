"""Tries the vectors of rounds by a small Primary in Python, of which a line, a clock and a store
that aren't there are put in the place of its own.
"""
import collections
import contextlib
import copy
import io
import json
import types
from typing import Any

URL = "http://desk"
MOST = 2**53 - 1


class Stopped(BaseException):
    """The Primary loses its power."""


class Line:
    """What answers a round as its vector says, and notes what is sent, fetched and waited."""

    def __init__(self, told: dict[str, Any], given: dict[str, Any]) -> None:
        self.told, self.posts, self.is_up = told, list(given["answers"]), True
        self.gets = {name: list(answers) for name, answers in given.get("gets", {}).items()}
        self.sent, self.waits, self.fetched = list[Any](), list[int](), collections.Counter[str]()

    def exchanged(self, url: str, data: bytes | None) -> tuple[int, bytes]:
        name = url.removeprefix(URL + "/")
        if data is not None:
            self.sent.append(data.decode("ascii"))
            came = self.posts.pop(0) if self.posts else None
        else:
            self.fetched[name] += 1
            came = self.file(name)
        if came == "stop":
            self.is_up = False
            raise Stopped
        if came is None:
            raise OSError("no answer")
        text = self.told["texts"][came["text"]] if "text" in came else came["body"]
        return came["status"], text.ljust(came.get("bytes", 0)).encode("utf-8")

    def file(self, name: str) -> dict[str, Any] | None:
        answers = self.gets.get(name)
        if answers:
            return answers.pop(0) if len(answers) > 1 else answers[0]
        if name in self.told["files"]:
            return {"status": 200, "body": self.told["files"][name]}
        return {"status": 404, "body": '{"error":29,"text":"UnknownFile"}'}


def shown(image: dict[str, Any]) -> dict[str, Any]:
    """What a report has of an image."""
    return {it: image[it] for it in ("file", "length", "hashes") if it in image}


def vehicle_of(small: types.SimpleNamespace, told: dict[str, Any],
               case: dict[str, Any]) -> dict[str, Any]:
    """What the vehicle of a case knows at first."""
    knows, known = case.get("knows", {}), copy.deepcopy(told["vehicle"])
    known |= {"method": told["method"], "role_secrets": [*known.pop("role_keys").values()]}
    known["counter"] = knows.get("counter", known["counter"])
    for ecu in known["ecus"]:
        has = ecu["installed"] | knows.get("installed", {}).get(ecu["ecu"], {})
        ecu["installed"] = has | has.pop("hashes")
        ecu["counter"] = knows.get("counters", {}).get(ecu["ecu"], ecu["counter"])
    for it in ("director", "image"):
        root = small.envelopes.File(told["files"][it + "/1.root.json"])
        known[it] = {"root": root, "versions": knows.get("trusted", {}).get(it, {})}
    return known


def replace(known: dict[str, Any], renamed: dict[str, str]) -> None:
    for ecu in known["ecus"]:
        if ecu["ecu"] in renamed:
            known.setdefault("replaced", []).append(ecu["ecu"])
            ecu.update(ecu=renamed[ecu["ecu"]], counter=0)


def state_of(known: dict[str, Any], it: str) -> dict[str, int]:
    none = dict.fromkeys(("timestamp", "snapshot", "targets"), 0)
    return {"root": known[it]["root"]["signed"]["version"]} | none | known[it]["versions"]


class Rounds:
    """A case: its rounds, one after another."""

    def __init__(self, small: types.SimpleNamespace, told: dict[str, Any], case: dict[str,
                                                                                      Any]) -> None:
        self.small, self.told, self.case = small, told, case
        self.known = vehicle_of(small, told, case)
        self.failed = case.get("knows", {}).get("failed", 0)
        self.last = self.known["counter"], {it["ecu"]: it["counter"] for it in self.known["ecus"]}
        self.now, self.body, self.reports = told["now"], "", dict[Any, Any]()
        self.latest, self.targets = 0, json.loads(
            told["texts"]["update"])["targets"]["signed"]["targets"]
        self.images = {it["ecu"]: shown(it["installed"]) for it in told["vehicle"]["ecus"]}
        for ecu, has in case.get("knows", {}).get("installed", {}).items():
            self.images[ecu] |= shown(has)

    def are_well(self) -> bool:
        return all(map(self.is_well, self.case["rounds"]))

    def is_well(self, given: dict[str, Any]) -> bool:
        """Whether a round goes as it has to."""
        self.now = given.get("now", self.told["now"])
        self.latest = max(self.latest, min(self.now, self.small.primary.LAST_SECOND))
        primary, line, verdicts = self.small.primary, Line(self.told, given), []
        replace(self.known, given.get("replaced", {}))
        for name, other in given.get("replaced", {}).items():
            self.images[other] = self.images.pop(name, {})
        installed = {it["ecu"]: it["installed"]["file"] for it in self.known["ecus"]}
        kept, images = copy.deepcopy(self.known), self.told["images"] | given.get("images", {})

        def save() -> None:
            if line.is_up:
                kept.clear()
                kept.update(copy.deepcopy(self.known))

        def image(name: str) -> bytes | None:
            content = images.get(name)
            if content == "stop":
                line.is_up = False
                raise Stopped
            return None if content is None else content.encode("ascii")

        def go() -> int | None:
            try:
                done = primary.went(self.known, URL, save, image)
            except self.small.verify.Refused:
                verdicts.append("refused")
                raise
            verdicts.append("accepted")
            return done

        primary.exchanged = line.exchanged
        primary.takes = lambda ecu, _: ecu not in given.get("fails", [])
        primary.time = types.SimpleNamespace(time=lambda: self.now, sleep=line.waits.append)
        wait = None
        with contextlib.redirect_stdout(io.StringIO()), contextlib.redirect_stderr(io.StringIO()):
            try:
                self.failed, wait = primary.behind(go, self.failed)
            except Stopped:
                verdicts.append("stopped")
                self.failed = 0
        self.known = kept
        return (verdicts or [None]) == [
            given["verdict"]] and is_within(wait, given["next"]) and (self.are_sent(
                line.sent, given["sent"], installed)) and (self.is_left(line, given, installed))

    def is_left(self, line: Line, given: dict[str, Any], before: dict[str, str]) -> bool:
        """Whether the waits were right, the files that were fetched, and what is left behind."""
        waits, fetched = given["waits"], given.get("fetched")
        well = len(waits) == len(line.waits) and all(
            is_within(wait, [least, 1.5 * least]) for wait, least in zip(line.waits, waits))
        changed = {
            it["ecu"]: it["installed"]["file"] for it in self.known["ecus"]
            if it["installed"]["file"] != before[it["ecu"]]}
        self.images |= {it["ecu"]: shown(it) for it in self.targets if it["ecu"] in changed}
        states = given.get("trusts", {})
        return well and fetched in (None, line.fetched) and changed == given.get(
            "installs", {}) and states == {it: state_of(self.known, it) for it in states}

    def are_sent(self, sent: list[str], wanted: list[dict[str, Any]], installed: dict[str,
                                                                                      str]) -> bool:
        """Whether these bodies are those that are due."""
        if len(sent) != len(wanted):
            return False
        for text, due in zip(sent, wanted):
            if due["new"] and not self.is_new(text, due, installed):
                return False
            if not due["new"] and text != self.body:
                return False
            self.body = text
        return True

    def is_new(self, text: str, due: dict[str, Any], installed: dict[str, str]) -> bool:
        """Whether a body is a new manifest, with right counters, images and attacks."""
        signed, own = json.loads(text)["signed"], self.known["primary"]
        reports = {it["signed"]["ecu"]: it for it in signed["reports"]}
        least, most = max(self.last[0], due.get("above", 0)), due.get("below", MOST)
        if not least < signed["counter"] < most:
            return False
        well = reports.keys() == installed.keys() and len(signed["reports"]) == len(reports)
        for name, envelope in reports.items():
            told, last = envelope["signed"], self.last[1].get(name, -1)
            if due.get("raised") == name:
                well &= told["counter"] == max(2 * last, self.now)
            well &= told["counter"] == due.get("counters", {}).get(name, told["counter"])
            is_same = envelope == self.reports.get(name) and due.get("fresh") != name
            is_now = told["time"] == self.small.envelopes.moment(self.latest)
            is_later = is_now and last < told["counter"] < MOST or is_same
            is_attack = name == own and due["attack"]
            well &= is_later and bool(told["attack"]) == is_attack
            well &= told["image"] == self.images.get(name)
        self.last = signed["counter"], {it: reports[it]["signed"]["counter"] for it in reports}
        self.reports = reports
        return well


def is_within(wait: float | None, bounds: list[float] | None) -> bool:
    return wait is None if bounds is None else wait is not None and bounds[0] <= wait <= bounds[1]


def is_answered(small: types.SimpleNamespace, told: dict[str, Any], case: dict[str, Any]) -> bool:
    """Whether a small Primary goes the rounds of a case as it has to."""
    small.envelopes.use(told)
    it = small.primary
    real = it.exchanged, it.time, it.takes
    try:
        return Rounds(small, told, case).are_well()
    finally:
        it.exchanged, it.time, it.takes = real
