"""Prints a script of a fleet: the same for the same words.

    tools/run fleet [--vehicles N] [--ecus N] [--rounds N] [--images N] [--campaigns N] [--seed N]
        [--repeats SHARE] [--replaced SHARE] [--second-hashes SHARE] [--deliver] [--from-round N]

It founds, adds vehicles and images, opens campaigns, and goes so many rounds of manifests over
all vehicles, each round in another order, a share of them sent again: half of these the one just
before, half any earlier one. Before each round but the first an ECU of a share of the vehicles
(none) is replaced. A share of the images (none) has a SHA-512 too, and so have the reports of
these. At the end it shows some vehicles and fetches files. `--deliver` prints bodies that are
built here in place of `bench` lines, so that the program builds and signs no manifest itself.
`--from-round R` leaves out what comes before round R, for a database that has it already.
"""
import hashlib
import random
from collections.abc import Iterator
from typing import Any

from uptane_tools import arguments
from uptane_tools.oracle.reference import HASH, SCHEME, canonical, moment, sealed

START = 1767225600
ROLES = ("root", "targets", "snapshot", "timestamp")
FACTORY: dict[str, Any] = {
    "file": "factory.bin", "length": 4096, "sha256": hashlib.sha256(b"factory").hexdigest()}


def with_public(ecu: dict[str, Any]) -> dict[str, Any]:
    """An ECU with the public part of its key, if that is a secret."""
    return ecu | {"key": SCHEME.public_of(bytes.fromhex(ecu["key"])).hex()} if HASH(
        ecu.get("key")) else ecu


def line(do: str, at: Any = START, **members: Any) -> str:
    """A line of a script. The keys of ECUs are given as secrets: the inventory gets their public
    parts.
    """
    if do == "add_vehicle":
        members["ecus"] = list(map(with_public, members["ecus"]))
    elif do == "replace_ecu":
        members = with_public(members)
    return canonical({"do": do, "at": at, **members})


def key(number: int) -> str:
    """A key of 32 equal bytes."""
    return "%02x" % number * 32


def key_set(first: int) -> dict[str, Any]:
    """Keys of eight bytes in order, one for each role, with threshold 1."""

    def roles(start: int) -> dict[str, dict[str, Any]]:
        return {role: {"keys": [key(start + i)], "threshold": 1} for i, role in enumerate(ROLES)}

    return {"director": roles(first), "image": roles(first + 4)}


def report_text(told: dict[str, Any]) -> str:
    """The report as it was told: a second hash, or what stands in its place, isn't looked at."""
    hashes = {name: told[name] for name in ("sha256", "sha512") if name in told}
    image = {"file": told["file"], "hashes": hashes, "length": told["length"]}
    payload = {
        "attack": told.get("attack", ""), "counter": told["counter"], "ecu": told["ecu"],
        "image": image}
    payload |= {"time": moment(told["time"]), "type": "report"}
    return sealed([bytes.fromhex(told["key"])], canonical(payload))


def body(told: dict[str, Any]) -> str:
    """The manifest that a `bench` line with these members builds."""
    words = told["counter"], told["primary"], ",".join(map(report_text,
                                                           told["reports"])), told["vehicle"]
    signed = '{"counter":%d,"primary":"%s","reports":[%s],"type":"manifest","vehicle":"%s"}' % words
    return sealed([bytes.fromhex(told["key"])], signed)


def digest(words: str) -> str:
    return hashlib.sha256(words.encode()).hexdigest()


def second(words: str) -> str:
    return hashlib.sha512(words.encode()).hexdigest()


def content(image: dict[str, Any]) -> dict[str, Any]:
    """What a report has of an image."""
    return {name: image[name] for name in ("file", "length", "sha256", "sha512") if name in image}


class Fleet:

    def __init__(self, vehicles: int, ecus: int, images: int, campaigns: int, seed: int,
                 second_hashes: float | int = 0) -> None:
        self.seed, self.rng, self.second_hashes = seed, random.Random(seed), second_hashes
        self.hardware = ["HP"] + ["HS%d" % i for i in range(1, min(ecus, 6))]
        self.vehicles = {
            "v%06d" % number: self.ecus_of("v%06d" % number, ecus) for number in range(vehicles)}
        self.images = self.new_images(images)
        self.by_file = {image["file"]: image for image in self.images}
        self.campaigns = [self.new_campaign(number) for number in range(campaigns if images else 0)]
        self.offers = self.best_offers()
        self.installed, self.last = dict[Any, Any](), dict[Any, Any]()

    def ecus_of(self, vehicle: str, number: int) -> list[tuple[str, str, str]]:
        others = self.hardware[1:] or self.hardware
        kinds = [self.hardware[0]] + [others[i % len(others)] for i in range(number - 1)]

        def secret(i: int) -> str:
            return digest("%d %s %d" % (self.seed, vehicle, i))

        return [("%s-e%d" % (vehicle, i), kind, secret(i)) for i, kind in enumerate(kinds)]

    def new_images(self, number: int) -> list[dict[str, Any]]:
        """The releases of each hardware rise; some images have a need or a conflict."""
        made: Any
        rng, releases, made = self.rng, dict.fromkeys(self.hardware, 0), []
        for i in range(number):
            kind = self.hardware[i % len(self.hardware)]
            releases[kind] += rng.randint(1, 3)
            image = {
                "file": "%s/image-%04d.bin" % (kind.lower(), i), "length": rng.randint(1, 2**30)}
            image |= {
                "sha256": digest("image %d %d" % (self.seed, i)), "hardware": [kind],
                "release": releases[kind]}
            if int(digest("second %d %d" % (self.seed, i))[:8], 16) < self.second_hashes * 2**32:
                image["sha512"] = second("image %d %d" % (self.seed, i))
            other = rng.choice(self.hardware)
            if i % 5 == 4 and other != kind and releases[other]:
                image["needs"] = [{"hardware": other, "release": 1}]
            if i % 7 == 6:
                image["conflicts"] = [rng.choice(made[:len(self.hardware)])["file"]]
            made.append(image)
        return made

    def new_campaign(self, number: int) -> dict[str, Any]:
        rng = self.rng
        chosen = rng.sample(self.images, min(len(self.images), rng.randint(1, 3)))
        items: Any = {image["hardware"][0]: image["file"] for image in chosen}
        few = max(1, min(1000, len(self.vehicles) // 4))
        reach = "all" if number % 2 == 0 else rng.sample(sorted(self.vehicles), few)
        items = [{"hardware": kind, "file": file} for kind, file in items.items()]
        return {"campaign": "c%04d" % number, "vehicles": reach, "items": items}

    def best_offers(self) -> dict[tuple[str, str], dict[str, Any]]:
        """What the campaigns offer each hardware of each vehicle, for installing roughly what is
        handed out.
        """
        best: Any = {}
        for campaign in self.campaigns:
            for name in self.vehicles if campaign["vehicles"] == "all" else campaign["vehicles"]:
                for item in campaign["items"]:
                    image, there = self.by_file[item["file"]], best.get((name, item["hardware"]))
                    if there is None or image["release"] > there["release"]:
                        best[name, item["hardware"]] = image
        return best

    def setup(self) -> Iterator[str]:
        yield line("found", **key_set(1))
        for name, ecus in self.vehicles.items():
            told = [{"ecu": ecu, "hardware": kind, "key": secret} for ecu, kind, secret in ecus]
            yield line("add_vehicle", START + 1, vehicle=name, primary=ecus[0][0], ecus=told)
        for image in self.images:
            yield line("add_image", START + 2, **image)
        for campaign in self.campaigns:
            yield line("open_campaign", START + 3, **campaign)

    def report(self, number: int, vehicle: str, ecu: str, kind: str, secret: str) -> dict[str, Any]:
        """One report in ten is the last one again; one in two installs what is offered."""
        rng = self.rng
        if ecu in self.last and rng.random() < 0.1:
            return self.last[ecu]
        offer = self.offers.get((vehicle, kind))
        if number > 1 and offer and rng.random() < 0.5:
            self.installed[ecu] = content(offer)
        self.last[ecu] = {
            "ecu": ecu, "key": secret, "counter": number, "time": START + 3600 * number}
        self.last[ecu] |= self.installed.get(ecu, FACTORY)
        if rng.random() < 0.02:
            self.last[ecu]["attack"] = 'counter "low" \\ seen'
        return self.last[ecu]

    def manifests(self, number: int) -> Iterator[dict[str, Any]]:
        """The members of the bench lines of a round."""
        order = sorted(self.vehicles)
        self.rng.shuffle(order)
        for name in order:
            ecus = self.vehicles[name]
            reports = [self.report(number, name, *ecu) for ecu in ecus]
            told = {"vehicle": name, "primary": ecus[0][0], "key": ecus[0][2], "counter": number}
            yield told | {"reports": reports}

    def replacements(self, number: int, share: float) -> Iterator[str]:
        """The lines that replace an ECU of some vehicles, each a Secondary."""
        for name, ecus in sorted(self.vehicles.items()) if share else []:
            if len(ecus) < 2 or self.rng.random() >= share:
                continue
            place = self.rng.randrange(1, len(ecus))
            old, kind, _ = ecus[place]
            new = "%s-e%d-r%d" % (name, place, number)
            ecus[place] = new, kind, digest("%d %s" % (self.seed, new))
            told = {
                "vehicle": name, "old": old, "ecu": new, "hardware": kind, "key": ecus[place][2]}
            yield line("replace_ecu", START + 3600 * number, **told)

    def round(self, number: int, share: float, replaced: float, history: list[dict[str, Any]],
              delivers: bool) -> Iterator[str]:
        at = START + 3600 * number
        yield from self.replacements(number, replaced if number > 1 else 0)

        def printed(told: dict[str, Any], at: int) -> str:
            return line("deliver", at, body=body(told)) if delivers else line("bench", at, **told)

        for told in self.manifests(number):
            yield printed(told, at)
            history.append(told)
            if self.rng.random() < share:
                yield printed(told if self.rng.random() < 0.5 else self.rng.choice(history),
                              at + 60)

    def closing(self) -> Iterator[str]:
        names = sorted(self.vehicles)
        for name in names[::max(1, len(names) // 50)]:
            yield line("show", vehicle=name)
        yield line("fetch", repository="director", file="root.json")
        for file in ("1.root.json", "targets.json", "snapshot.json", "timestamp.json"):
            yield line("fetch", repository="image", file=file)


def script(vehicles: Any = 100, ecus: int = 4, rounds: int = 5, images: Any = 20,
           campaigns: int = 5, seed: int = 1, repeats: float = 0.2, replaced: float | int = 0,
           second_hashes: float | int = 0, deliver: bool = False,
           from_round: int = 0) -> Iterator[str]:
    """The lines of the script."""
    history: Any
    fleet, history = Fleet(vehicles, ecus, images, campaigns, seed, second_hashes), []
    setup = list(fleet.setup())
    yield from setup if from_round < 2 else []
    for number in range(1, rounds + 1):
        told = list(
            fleet.round(number, repeats, replaced, history, deliver and number >= from_round))
        yield from told if number >= from_round else []
    yield from fleet.closing()


def main(words: arguments.Words = None) -> int:
    """Prints the script."""
    asked = arguments.parser(__doc__)
    numbers = {
        "--vehicles": 100, "--ecus": 4, "--rounds": 5, "--images": 20, "--campaigns": 5,
        "--seed": 1, "--from-round": 0}
    for name, usual in numbers.items():
        asked.add_argument(name, type=int, default=usual)
    asked.add_argument("--repeats", type=float, default=0.2)
    asked.add_argument("--replaced", type=float, default=0)
    asked.add_argument("--second-hashes", type=float, default=0)
    asked.add_argument("--deliver", action="store_true")
    for text in script(**vars(asked.parse_args(words))):
        print(text)
    return 0
