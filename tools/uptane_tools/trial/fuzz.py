"""Runs random scripts and compares what comes of them: mostly valid lines, some damaged at a
random byte.

    tools/run fuzz PROGRAM [bodies] [FIRST [NUMBER]]

Each seed from FIRST (1) on, NUMBER (100) of them, makes a script, in which operators' commands
stand between manifests that they change the answers of. It is carried out over memory, over a
file, and over a file in pieces with a new start of the program for each. All have to print what
`tools/run reference` prints by the rules, and each file has to have its rows. Where they differ,
the seed and the first line are told.

With `bodies` each seed delivers a hundred manifests of one vehicle over memory: in the form in
which Primaries write them, and with one change each, before an ECU signs, before the Primary
signs, in the whole body, or in the line itself.

promise: manifest-meaning, line-meaning
"""
import json
import random
import re
import sys
from collections.abc import Callable, Iterator
from pathlib import Path
from typing import Any

from uptane_tools import arguments
from uptane_tools.measure import fleet
from uptane_tools.oracle.reference import (Refused, canonical, depth, is_plain, moment, read_json,
                                           signature)
from uptane_tools.trial import trials

START = fleet.START
MOST = 2**53 - 1
KINDS = ["HP", "HS", "HT"]
WORDS = [
    "%d" % MOST,
    "%d" % (MOST + 1), "-1", "1.0", "1e3", "1e999", '""', "null", "true", "[]", "{}", '"all"', "00",
    '"\\u00e9"', '"\\ud800"', '"' + 65 * "a" + '"', "[[[[[[[[[[[[[[[[[[[]]]]]]]]]]]]]]]]]]]"]


class Script:
    """The lines of one seed. It follows roughly what they do, so that most of them are carried out.
    """

    def __init__(self, seed: int) -> None:
        self.rng, self.lines, self.counters, self.last, self.images = random.Random(
            seed), list[Any](), dict[Any, Any](), dict[Any, Any](), list[Any]()
        self.at, self.present, self.retired = START, dict[Any, Any](), list[Any]()
        self.sent, self.opened, self.news = list[Any](), list[Any](), 0

    def some(self, share: float) -> bool:
        return self.rng.random() < share

    def add(self, do: str, **members: Any) -> None:
        self.at += self.rng.choice([0, 0, 1, 60, 86400])
        at = self.rng.choice([4102444800, 4102444801, MOST]) if self.some(0.01) else self.at
        self.lines.append(fleet.line(do, at, **members).encode())

    # -- commands

    def key_set(self) -> dict[str, Any]:
        keys = fleet.key_set(self.rng.choice([1, 0x51, 0x61, 0xA1]))
        while self.some(0.3):
            role = keys[self.rng.choice(["director", "image"])][self.rng.choice(fleet.ROLES)]
            role["keys"] += [
                fleet.key(self.rng.randrange(256)) for _ in range(self.rng.randrange(4))]
            role["threshold"] = self.rng.randint(0 if self.some(0.1) else 1, len(role["keys"]))
        return keys

    def first_ecus(self, number: int) -> list[dict[str, str]]:
        """The ECUs with which a vehicle is added: always the same ones."""
        return [{
            "ecu": "E%d%d" % (number, i), "hardware": KINDS[min(i, 2)],
            "key": fleet.key(16 * number + i + 1)} for i in range(1 + number % 4)]

    def ecus(self, number: int) -> list[dict[str, str]]:
        """The ECUs of a vehicle with the replacements that were asked."""
        return list(self.present.setdefault(number, self.first_ecus(number)))

    def add_vehicle(self, number: int | None = None) -> None:
        number = self.rng.randrange(6) if number is None else number
        ecus = self.first_ecus(number) if self.some(0.8) else self.ecus(number)
        if self.some(0.15):
            ecus[self.rng.randrange(len(ecus))] = self.rng.choice(self.ecus(self.rng.randrange(6)))
        if self.some(0.05):
            ecus[0]["hardware"] = self.rng.choice(KINDS)
        self.add("add_vehicle", vehicle="V%d" % number, primary="E%d0" % number, ecus=ecus)

    def replace_ecu(self) -> None:
        """Mostly a Secondary by a new ECU; else an ECU that can't be replaced, or one that is
        recorded or retired in its place. What the vehicle sent last often comes again then, and
        its next manifest.
        """
        rng, number = self.rng, self.rng.choice([1, 2, 3] if self.some(0.9) else range(6))
        ecus = self.ecus(number)
        place = rng.randrange(len(ecus)) if self.some(0.1) else rng.randint(
            min(1,
                len(ecus) - 1),
            len(ecus) - 1)
        old, new = ecus[place]["ecu"], {
            "ecu": "R%d" % len(self.lines), "hardware": ecus[place]["hardware"]}
        new["key"] = fleet.key(rng.randrange(256))
        known = self.retired + [it["ecu"] for it in self.ecus(rng.randrange(6))]
        if self.some(0.15):
            new["ecu"] = rng.choice(known)
        elif self.some(0.1):
            old = rng.choice(known + ["X"])
        elif place:
            self.retired.append(old)
            self.present[number][place] = new
        if self.some(0.1):
            new["hardware"] = rng.choice(KINDS)
        self.add("replace_ecu", vehicle="V%d" % number, old=old, **new)
        sent = [told for told in self.sent if told["vehicle"] == "V%d" % number]
        if sent and self.some(0.6):
            self.add("bench", **sent[-1])
        if sent and self.some(0.6):
            self.add("bench", **self.manifest(number))

    def add_image(self) -> None:
        rng, number = self.rng, self.rng.randrange(12)
        words = "image %d" % (number if not self.some(0.05) else rng.randrange(99))
        image: dict[str, Any] = {
            "file": "i/%d.bin" % number, "length": len(words), "sha256": fleet.digest(words)}
        image |= {"hardware": [KINDS[number % 3]], "release": number // 3 + 1}
        if number % 5 == 4:
            image["hardware"] = sorted({*image["hardware"], KINDS[0]})
        if number % 4 > 1:
            image["needs"] = [{"hardware": KINDS[(number + 1) % 3], "release": number // 4}]
        if number % 7 > 4:
            image["conflicts"] = ["i/%d.bin" % ((number + 1) % 12), "factory.bin"][:number % 3]
        if (number % 3 > 0) != self.some(0.05):
            image["sha512"] = self.spelled(fleet.second(words))
        self.images.append(image)
        self.add("add_image", **image)

    # -- second hashes

    def spelled(self, hash: str) -> str | bool:
        """A second hash as a line may have it: of either case, now and then none."""
        if self.some(0.03):
            return self.malformed(hash)
        return hash.upper() if self.some(0.1) else hash

    def malformed(self, hash: str) -> Any:
        """What is no second hash: too short, too long, of other digits, of another kind."""
        return self.rng.choice([
            hash[:-1], hash + "0", hash[1:] + "g", hash[:64], "", "x", None, 7, True, [hash], {
                "sha512": hash}])

    def second_hash(self) -> None:
        """A campaign for an image that has a second hash, and a manifest whose ECUs report that
        image in several spellings.
        """
        images = [it for it in self.images if isinstance(it.get("sha512"), str)]
        if not images:
            return self.add_image()
        image, number = self.rng.choice(images), self.rng.choice([1, 2, 3])
        self.offer("H%d" % len(self.lines), "all", image)
        told, kinds = self.manifest(number), {it["ecu"]: it["hardware"] for it in self.ecus(number)}
        for report in told["reports"]:
            if kinds.get(report["ecu"]) in image["hardware"]:
                hash = self.rng.choice(2 * [image["sha512"]] +
                                       [fleet.second("another"),
                                        self.malformed(image["sha512"])])
                told_so = hash.upper() if isinstance(hash, str) and self.some(0.5) else hash
                report |= fleet.content(image) | {"sha512": told_so}
        self.lines.append(fleet.line("deliver", self.at, body=fleet.body(told)).encode())

    def reported(self, image: dict[str, Any]) -> dict[str, Any]:
        """An image as an ECU reports it: with a second hash, with that of another image, or
        without.
        """
        told, how = fleet.content(image), self.rng.random()
        if how < 0.25:
            told.pop("sha512", None)
        elif how < 0.5:
            told["sha512"] = fleet.second("another %d" % self.rng.randrange(3))
        if isinstance(told.get("sha512"), str) and self.some(0.3):
            told["sha512"] = self.rng.choice([told["sha512"].lower(), told["sha512"].upper()])
        return told

    def open_campaign(self) -> None:
        rng, number = self.rng, self.rng.randrange(8)
        chosen = [rng.randrange(12) for _ in range(rng.randint(1, 3))]
        items = [{"hardware": KINDS[i % 3], "file": "i/%d.bin" % i} for i in chosen]
        if self.some(0.05):
            items[0]["hardware"] = rng.choice(KINDS)
        reach = "all" if number % 2 else [
            "V%d" % rng.randrange(5) for _ in range(rng.randint(1, 3))]
        self.opened.append("C%d" % number)
        self.add("open_campaign", campaign="C%d" % number, vehicles=reach, items=items)

    def offer(self, name: str, reach: Any, image: dict[str, Any]) -> None:
        """A campaign for one image."""
        items = [{"hardware": kind, "file": image["file"]} for kind in image["hardware"]]
        self.opened.append(name)
        self.add("open_campaign", campaign=name, vehicles=reach, items=items)

    def close_campaign(self) -> None:
        """Mostly one that was opened."""
        name = "C%d" % self.rng.randrange(8)
        self.add("close_campaign",
                 campaign=self.rng.choice(self.opened) if self.opened and self.some(0.8) else name)

    def report(self, ecu: dict[str, str]) -> dict[str, Any]:
        rng, name = self.rng, ecu["ecu"]
        if name in self.last and self.some(0.2):
            return self.last[name]
        fitting = [it for it in self.images if ecu["hardware"] in it["hardware"]]
        image = rng.choice(fitting
                           or self.images) if self.images and self.some(0.7) else fleet.FACTORY
        image = self.reported(
            image if self.some(0.95) else rng.choice([fleet.FACTORY, *self.images]))
        last = self.last.get(name, {"counter": 0})["counter"]
        step = rng.choice([0, -1]) if self.some(0.05) else rng.choice([1, 1, 5])
        told = {"ecu": name, "key": ecu["key"], "counter": max(0, last + step), **image}
        told["time"] = self.at - START + rng.choice([0, 1, 253402300799 - self.at])
        if self.some(0.1):
            told["attack"] = rng.choice(['"low" \\', 256 * "~", ""])
        self.last[name] = told
        return told

    def manifest(self, number: int | None = None) -> dict[str, Any]:
        """The members of a bench line, some of them wrong."""
        rng, number = self.rng, self.rng.randrange(
            6 if self.some(0.05) else 5) if number is None else number
        vehicle, ecus = "V%d" % number, self.ecus(number)
        last = self.counters.get(vehicle, 0)
        counter = max(1, last + rng.choice([1, 1, 1, 1, 1, 7, 0, -1]))
        self.counters[vehicle] = max(last, counter)
        reports = [self.report(ecu) for ecu in ecus]
        told = {
            "vehicle": vehicle, "primary": ecus[0]["ecu"], "key": ecus[0]["key"],
            "counter": counter}
        told["reports"] = reports
        if self.some(0.12):
            wrong = rng.choice([
                "primary", "key", "report", "missing", "twice", "unknown", "retired", "order"])
            if wrong == "primary":
                told["primary"] = ecus[-1]["ecu"]
            elif wrong == "key":
                told["key"] = fleet.key(0xEE)
            elif wrong == "report":
                reports[-1] = reports[-1] | {"key": fleet.key(0xEE)}
            elif wrong == "missing":
                reports.pop(rng.randrange(len(reports)))
            elif wrong == "twice":
                reports.append(rng.choice(reports))
            elif wrong == "unknown":
                reports.append(reports[0] | {"ecu": "X"})
            elif wrong == "retired":
                reports[-1] = reports[-1] | {"ecu": rng.choice(self.retired or ["X"])}
            else:
                rng.shuffle(reports)
        self.sent.append(told)
        return told

    def bench(self) -> None:
        """A manifest, or one that was sent before."""
        self.add(
            "bench",
            **(self.rng.choice(self.sent) if self.sent and self.some(0.08) else self.manifest()))

    def deliver(self) -> None:
        """A body as it is signed, or with another spelling, other signatures, or damage."""
        rng, told = self.rng, self.manifest()
        if self.some(0.3):
            reports = [
                report | {"sha512": self.malformed(fleet.second("malformed"))}
                for report in told["reports"]]
            told = told | {"reports": reports}
        body = fleet.body(told)
        how = rng.choice(["as it is"] * 4 + ["spelled", "signatures", "members", "damaged", "word"])
        if how in ("spelled", "signatures", "members"):
            value = json.loads(body)
            if how == "signatures":
                other = value["signatures"][0] | {"sig": rng.choice(["00", "0", 64 * "ab"])}
                value["signatures"].insert(rng.randrange(2), other)
            if how == "members":
                value[rng.choice(["more", "body"])] = rng.choice([1.5, None, [], "x"])
            body = json.dumps(value, indent=rng.choice([None, 1]), sort_keys=self.some(0.5))
        if how == "word":
            body = worded(rng, body)
        if how == "damaged":
            body = damaged(rng, body.encode()).decode("utf-8", "replace")
        self.add("deliver", body=body)

    # -- commands between manifests

    def new_image(self, kind: str) -> dict[str, Any]:
        """An image of a greater release than all before."""
        self.news += 1
        image = {
            "file": "n/%d.bin" % self.news, "length": self.news,
            "sha256": fleet.digest("new %d" % self.news)}
        return image | {"hardware": [kind], "release": 1000 + self.news}

    def register(self, image: dict[str, Any]) -> None:
        self.images.append(image)
        self.add("add_image", **image)

    def reporting(self, number: int, image: dict[str, Any]) -> None:
        """The vehicle's next manifest, in which its last ECU reports that image."""
        told = self.manifest(number)
        for report in told["reports"]:
            if report["ecu"] == self.ecus(number)[-1]["ecu"]:
                report.pop("sha512", None)
                report |= fleet.content(image)
        if self.some(0.5):
            self.add("bench", **told)
        else:
            self.add("deliver", body=fleet.body(told))

    def between(self) -> None:
        """A manifest, then a command that changes what the next one is answered, or might, and
        that one. An image is offered whose release is the greatest; a newer one is offered too,
        or is reported and then registered.
        """
        rng, number, name = self.rng, self.rng.choice([1, 2, 3]), "M%d" % self.news
        kind, reach = self.ecus(number)[-1]["hardware"], rng.choice(["all", ["V%d" % number]])
        offered, newer = self.new_image(kind), self.new_image(kind)
        commands = {
            "close": lambda: self.add("close_campaign", campaign=name),
            "open": lambda: self.offer("N" + name, reach, newer),
            "image": lambda: self.register(newer), "rotate": self.rotate,
            "refresh": lambda: self.add("refresh", version=rng.choice([20, 60, 100, 200])),
            "vehicle": self.add_vehicle, "replace": self.replace_ecu}
        how = rng.choice(list(commands))
        for image in [offered, newer] if how == "open" else [offered]:
            self.register(image)
        self.offer(name, reach, offered)
        steps: list[Any] = [lambda: None, commands[how]]
        for command in steps:
            command()
            self.reporting(number, newer if how == "image" else fleet.FACTORY)
        for it in self.opened[-2 if how == "open" else -1:] if self.some(0.8) else []:
            self.add("close_campaign", campaign=it)

    def fetch(self) -> None:
        name = self.rng.choice([
            "root.json", "1.root.json", "2.root.json", "01.root.json", "targets.json",
            "snapshot.json", "timestamp.json", "no"])
        self.add("fetch", repository=self.rng.choice(["director", "image"]), file=name)

    def show(self) -> None:
        self.add("show", vehicle="V%d" % self.rng.randrange(7))

    def rotate(self) -> None:
        self.add("rotate", **fleet.key_set(self.rng.choice([1, 0x51, 0x61, 0xA1])))

    def refresh(self) -> None:
        self.add("refresh",
                 version=self.rng.choice([1, 5, 40, 80, MOST] if self.some(0.05) else [5, 20, 40]))

    WEIGHTS = {
        "add_vehicle": 8, "replace_ecu": 5, "add_image": 8, "second_hash": 4, "open_campaign": 6,
        "close_campaign": 3, "bench": 30, "deliver": 16, "between": 8, "fetch": 5, "show": 6,
        "refresh": 1}

    def step(self) -> None:
        rng = self.rng
        if self.lines and self.some(0.12):
            self.lines.append(rng.choice(self.lines[-3:] if self.some(0.5) else self.lines))
        elif self.some(0.02):
            self.add(rng.choice(["found", "rotate"]), **self.key_set())
        else:
            getattr(self, rng.choices(list(self.WEIGHTS), list(self.WEIGHTS.values()))[0])()
        if self.some(0.06):
            self.lines[-1] = damaged(rng, self.lines[-1])
        elif self.some(0.03):
            self.lines[-1] = worded(rng, self.lines[-1].decode("utf-8", "replace")).encode()

    def made(self) -> list[bytes]:
        for _ in range(self.rng.choice([0, 0, 0, 2])):
            self.step()
        self.add("found", **self.key_set())
        for number in range(5):
            if self.some(0.9):
                self.add_vehicle(number)
        for step in [self.add_image] * self.rng.randint(0, 12) + [self.open_campaign
                                                                  ] * self.rng.randint(0, 4):
            step()
        for _ in range(self.rng.randint(10, 70)):
            self.step()
        return [line for whole in self.lines for line in whole.split(b"\n")]


class Bodies:
    """Manifests of one vehicle as a Primary writes them, each of a counter of its own and with
    one change.
    """

    NUMBER = 100

    def __init__(self, seed: int) -> None:
        self.rng = random.Random("bodies %d" % seed)
        self.ecus = [
            ("E%d" % i, KINDS[i], fleet.key(17 * (i + 1))) for i in range(self.rng.randint(1, 3))]

    def image(self) -> dict[str, Any]:
        words = "image %d" % self.rng.randrange(3)
        told: Any = {
            "file": words.replace(" ", "/") + ".bin", "length": self.rng.choice([
                0, 7, len(words), 10**9, MOST])}
        told["hashes"] = {"sha256": fleet.digest(words)}
        if self.rng.random() < 0.5:
            told["hashes"]["sha512"] = fleet.second(words)
        return told

    def report(self, ecu: str, counter: int) -> str:
        rng = self.rng
        attack = rng.choice(["", "", "low", "a ~ b", 256 * "~", 'a "b"', "a \\ b"])
        told = {"attack": attack, "counter": counter, "ecu": ecu, "image": self.image()}
        return canonical(
            told | {
                "time": moment(START + rng.choice([0, 1, 59, 86399, 253402300799 -
                                                   START])), "type": "report"})

    def body(self, counter: int) -> str:
        """It may be without reports; each ECU's counter is the manifest's."""
        where = self.rng.choice(
            ["report", "manifest", "body", "nowhere"] if counter > 1 else ["nowhere"])
        reports = [(self.report(ecu, counter), key) for ecu, _, key in self.ecus]
        if where == "report":
            reports[0] = changed(self.rng, reports[0][0]), reports[0][1]
        elif self.rng.random() < 0.05:
            reports = reports * self.rng.choice([0, 2, 64 // len(reports), 65])
        told = counter, self.ecus[0][0], ",".join(sealed(key, text) for text, key in reports)
        form = '{"counter":%d,"primary":"%s","reports":[%s],"type":"manifest","vehicle":"V"}'
        signed = form % told
        whole = sealed(self.ecus[0][2],
                       changed(self.rng, signed) if where == "manifest" else signed)
        return changed(self.rng, whole) if where == "body" else whole

    def line(self, counter: int) -> str:
        """One of five is changed too, but stays one line."""
        line = fleet.line("deliver", body=self.body(counter))
        return changed(self.rng, line).replace(
            "\n", " ") if counter > 1 and self.rng.random() < 0.2 else line

    def made(self) -> Iterator[str]:
        ecus = [{"ecu": ecu, "hardware": kind, "key": key} for ecu, kind, key in self.ecus]
        yield fleet.line("found", **fleet.key_set(1))
        yield fleet.line("add_vehicle", vehicle="V", primary="E0", ecus=ecus)
        for counter in range(1, self.NUMBER + 1):
            yield self.line(counter)
            yield fleet.line("show", vehicle="V")


def sealed(key: str, signed: str) -> str:
    """The text in an envelope whose one signature is right, wherever the text means something."""
    try:
        value = read_json(signed)
        words = canonical(value) if is_plain(value) and depth(value) <= 16 else signed
    except Refused:
        words = signed
    return '{"signatures":[%s],"signed":%s}' % (signature(bytes.fromhex(key), words), signed)


def spelled(rng: random.Random, text: str, pattern: str, spell: Any) -> str:
    """One of the places that fit the pattern is spelled otherwise."""
    found = list(re.finditer(pattern, text))
    if not found:
        return text
    at = rng.choice(found)
    return text[:at.start()] + spell(at.group()) + text[at.end():]


DIGITS, COUNT, TEXT = r"[0-9a-f]{64,}", r"(?<=:)[0-9]+", r'(?<=:")[^"\\]*(?=")'
MEMBER, SIGNATURE = r'"[a-z0-9]+":(?:"[^"\\]*"|[0-9]+)', r'\{"keyid":[^}]*\}'


def exchanged(members: str) -> str:
    """Two members the other way round."""
    comma = members.index(',"')
    return members[comma + 1:] + "," + members[:comma]


# what stands in a body, and how it may be spelled otherwise
CHANGES = {
    DIGITS: [
        str.upper, lambda it: it[:-1] + it[-1].upper(), lambda it: it[1:], lambda it: it[:-2],
        lambda it: it + "0", lambda it: it[:-1] + "g", lambda it: ""], COUNT: [
            lambda it: "0" + it, lambda it: "00", lambda it: "0", lambda it: "",
            lambda it: "-" + it, lambda it: "+" + it, lambda it: it + ".0", lambda it: it + "e0",
            lambda it: '"%s"' % it, lambda it: str(MOST), lambda it: str(MOST + 1),
            lambda it: str(2**64 + 1), lambda it: 40 * "1"], TEXT: [
                lambda it: "", lambda it: it + " ", lambda it: it + "\x7f", lambda it: it + "\x1f",
                lambda it: it + "\u00e9", lambda it: it + '\\"', lambda it: it + "\\/",
                lambda it: it + 257 * "x", lambda it: it.ljust(64, "x"),
                lambda it: it.ljust(65, "x"), lambda it: it.ljust(128, "x"),
                lambda it: it.ljust(129, "x"), lambda it: "".join("\\u%04x" % ord(c) for c in it)],
    MEMBER + ",": [lambda it: "", lambda it: it + it, lambda it: it + '"more":1,'], "," + MEMBER: [
        lambda it: "", lambda it: it + it, lambda it: it + ',"zz":null'], MEMBER + "," + MEMBER: [
            exchanged], r"[:,\[\]{}]": [
                lambda it: "", lambda it: it + " ", lambda it: it + "\n",
                lambda it: it + it], r"[0-9]{2}Z": [
                    lambda it: "60Z", lambda it: "00Z", lambda it: it[:-1] + "z"], r"-[0-9]{2}T": [
                        lambda it: "-31T", lambda it: "-32T", lambda it: "-00T"], r'"[0-9]{4}-': [
                            lambda it: '"1969-'], SIGNATURE: [
                                lambda it: it + "," + it, lambda it: ",".join(9 * [it]),
                                lambda it: ""], r'"sha512":"[^"]*"': [
                                    lambda it: '"sha512":7',
                                    lambda it: it + ',"sha513":"00"'], r'"sha256":"[^"]*"': [
                                        lambda it: it + ',"md5":"00"'], r"\Z": [
                                            lambda it: " ", lambda it: "\n", lambda it: "}",
                                            lambda it: "\x00", lambda it: "{}"], r"\A": [
                                                lambda it: " ", lambda it: "\ufeff"]}


def changed(rng: random.Random, text: str) -> str:
    """The text with one change: a known one, or a byte or more at any place."""
    if rng.random() < 0.6:
        pattern = rng.choice(list(CHANGES))
        return spelled(rng, text, pattern, rng.choice(CHANGES[pattern]))
    return damaged(rng, text.encode()).decode("utf-8", "replace")


def damaged(rng: random.Random, line: bytes) -> bytes:
    """One byte is changed, taken out or put in, or the line is cut there."""
    at = rng.randrange(len(line) + 1)
    byte = bytes([
        rng.choice(b'"{}[],:0189aeE\\ x\n') if rng.random() < 0.7 else rng.randrange(256)])
    before, here, after = line[:at], line[at:at + 1], line[at + 1:]
    return rng.choice([before + byte + after, before + after, before + byte + here + after, before])


def worded(rng: random.Random, line: str) -> str:
    """A member's value is another one."""
    parts = line.split(":")
    at = rng.randrange(1, len(parts)) if len(parts) > 1 else 0
    end = min((i for i in map(parts[at].find, ",}]") if i >= 0), default=len(parts[at]))
    parts[at] = rng.choice(WORDS) + parts[at][end:]
    return ":".join(parts)


def pieces(rng: random.Random, lines: list[bytes]) -> list[list[bytes]]:
    """The script in up to four pieces."""
    cuts = [0, *sorted(rng.randrange(len(lines) + 1) for _ in range(3)), len(lines)]
    return [lines[a:b] for a, b in zip(cuts, cuts[1:])]


def first_other(lines: Any, wanted: Any, found: list[str]) -> str:
    """What is told of the first line that is answered otherwise."""
    asked = [line for line in lines if line]
    for line, want, got in zip(asked, wanted, found or []):
        if want != got:
            return "%r\n  rules: %s\n  program: %s" % (line, want[:300], got[:300])
    return "%d answers for %d lines" % (len(found or []), len(asked))


def tried(program: str, seed: int, own: Path) -> Iterator[str]:
    """Each way that went otherwise, with what is told of it."""
    lines, rng = Script(seed).made(), random.Random(seed)
    path = {name: own / ("%s%d" % (name, seed)) for name in ("rules", "whole", "pieces")}
    wanted = trials.expected(path["rules"], lines)
    found = {"memory": trials.printed(program, ":memory:", lines)}
    found["whole"] = trials.printed(program, path["whole"], lines)
    parts = [trials.printed(program, path["pieces"], part) for part in pieces(rng, lines)]
    found["pieces"] = None if None in parts else sum(parts, [])
    for name, answers in found.items():
        if answers != wanted:
            yield name + ": " + first_other(lines, wanted, answers)
    rows = trials.rows(path["rules"])
    for name in ("whole", "pieces"):
        if path[name].exists() and trials.rows(path[name]) != rows:
            yield name + ": other rows"


def tried_bodies(program: str, seed: int, _: Path) -> Iterator[Any]:
    """The same of bodies."""
    lines = list(Bodies(seed).made())
    wanted, found = trials.expected(":memory:", lines), trials.printed(program, ":memory:", lines)
    if found != wanted:
        yield first_other(lines, wanted, found)


def cases(way: Callable[..., Any], program: str, first: int = 1, number: int = 100) -> trials.Cases:
    for seed in range(first, first + number):
        with trials.folder() as own:
            told = list(way(program, seed, own))
        for it in told:
            print("fuzz: seed %d: %s" % (seed, it))
        yield "seed %d" % seed, not told


def main(words: arguments.Words = None) -> int:
    """Tries the program by scripts, or by bodies."""
    words = list(sys.argv[1:] if words is None else words)
    way = tried_bodies if words[1:2] == ["bodies"] else tried
    if way is tried_bodies:
        words.remove("bodies")
    asked = arguments.given(__doc__, words, "program", first=1, number=100)
    return trials.judged("fuzz", cases(way, asked.program, asked.first, asked.number))
