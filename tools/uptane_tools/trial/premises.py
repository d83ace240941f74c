"""The premises of a Primary's laws (`up_primary/specs`), each by its name: whether a round of a run
meets it. So that a law isn't proved of nothing, `proved_rounds` counts how often each is met.
"""
import json
from typing import Any

from uptane_tools.oracle import verification
from uptane_tools.oracle.reference import REPOSITORIES, ROLES, canonical

FILES = verification.FILES


def payload(text: str) -> str:
    """The canonical text of what a file's envelope signs."""
    return canonical(json.loads(text)["signed"])


def root_of(text: str) -> dict[str, Any]:
    """The Root that a text is."""
    return verification.root_in(text)[0]


def roots(texts: dict[str, str], repository: str) -> list[dict[str, Any]]:
    """A repository's Roots, from the first on."""
    found: list[dict[str, Any]] = []
    while (name := "%s/%d.root.json" % (repository, len(found) + 1)) in texts:
        found.append(root_of(texts[name]))
    return found


class Met:
    """What the rounds of one list meet: `world` is the list's, with all that was ever signed."""

    def __init__(self, world: Any, verifier: verification.Verifier) -> None:
        self.world, self.verifier = world, verifier
        self.signed: dict[str, str] = {}

    def sign(self, texts: dict[str, str]) -> None:
        """Remembers what the repositories have signed by now."""
        kept = [row[0] for row in self.world.desk.all("SELECT reply FROM kept")]
        for it in kept:
            if it not in self.signed:
                self.signed[it] = ""
                for file in verification.reply_in(it)["files"].values():
                    self.signed[file] = payload(file)
        for it in texts.values():
            if it not in self.signed:
                self.signed[it] = payload(it)

    # ---- of an honest round

    def version(self, name: str) -> int:
        """How many manifests of a vehicle were accepted."""
        return self.world.desk.one("SELECT count(*) FROM kept WHERE vehicle = ?", name)[0]

    def follows(self, vehicle: Any, trust: dict[str, Any], texts: dict[str, str]) -> bool:
        """Both Roots are the repositories', and no version is greater than what is served."""
        image = self.world.desk.one("SELECT image_version FROM meta")[0]
        most = {"director": self.version(vehicle.name), "image": image}
        return all(
            self.follows_root(it, trust, texts) and max(trust[it][role]
                                                        for role in FILES) <= most[it]
            for it in REPOSITORIES)

    def follows_root(self, repository: str, trust: dict[str, Any], texts: dict[str, str]) -> bool:
        """The trusted Root is the repository's of that version."""
        root = root_of(trust[repository]["root"])
        name = "%s/%d.root.json" % (repository, root["version"])
        return texts.get(name) == trust[repository]["root"]

    def keys_agree(self, texts: dict[str, str]) -> bool:
        """In each Root the keys of one identifier are shown alike."""
        return all(
            len({root[role]["keys"][name] for role in ROLES if name in root[role]["keys"]}) == 1
            for it in REPOSITORIES for root in roots(texts, it) for role in ROLES
            for name in root[role]["keys"])

    def knows_keys(self, texts: dict[str, str]) -> bool:
        """Of each key of each Root the public part is shown, or held."""
        return all(
            self.verifier.is_known(*key) for it in REPOSITORIES for root in roots(texts, it)
            for role in ROLES for key in root[role]["keys"].items())

    def is_current(self, vehicle: Any) -> bool:
        """No ECU has a greater release than the inventory sees by its report."""
        named = {it["file"]: it for it in self.world.files}

        def level(ecu: dict[str, Any]) -> int:
            told = ecu["installed"]
            image = named.get(told["file"])
            if image is None or ecu["hardware"] not in image["hardware"]:
                return 0
            same = all(image[it] == told[it] for it in ("length", "sha256"))
            return image["release"] if same else 0

        return all(it["installed"]["release"] <= level(it) for it in vehicle.ecus.values())

    def is_last_again(self, vehicle: Any, reply: dict[str, Any], texts: dict[str, str]) -> bool:
        """The reply is to the last accepted manifest, under the last Root, and suits the ECUs."""
        last = reply["version"] == self.version(vehicle.name)
        due = verification.targets_in(reply["files"]["targets"])[0]["targets"]
        named = [(vehicle.ecus.get(it["ecu"]), it["image"]) for it in due]
        return last and reply["root"] == len(roots(texts, "director")) and all(
            own and own["hardware"] in image[2] and own["installed"]["release"] <= image[4]
            for own, image in named)

    def is_fresh(self, reply: dict[str, Any], texts: dict[str, str]) -> bool:
        """Neither the last Root has expired nor the Timestamps of both repositories."""
        stamps = (reply["files"]["timestamp"], texts["image/timestamp.json"])
        soonest = [verification.timestamp_in(it)[0]["expires"] for it in stamps]
        soonest += [root_of(texts[it + "/root.json"])["expires"] for it in REPOSITORIES]
        return self.world.now < min(soonest)

    def of_round(self, vehicle: Any, trust: dict[str, Any], reply: str, again: bool,
                 texts: dict[str, str]) -> dict[str, bool]:
        """Each premise of an honest round by its name."""
        told = verification.reply_in(reply)
        current = ("IsLastAgain", self.is_last_again(
            vehicle, told, texts)) if again else ("IsCurrent", self.is_current(vehicle))
        return {
            "Follows": self.follows(vehicle, trust, texts), "KeysAgree": self.keys_agree(texts),
            "KnowsKeys": self.knows_keys(texts), "IsFresh": self.is_fresh(told, texts)} | dict([
                current])

    # ---- of a round with a thief

    def are_safe(self, repository: str, roles: tuple[str, ...], trust: dict[str, Any],
                 stolen: set[str], texts: dict[str, str]) -> bool:
        """From the trusted Root on fewer keys of these roles are stolen than have to sign."""
        first = root_of(trust[repository]["root"])["version"]
        return all(
            len(stolen & {*root[role]["keys"]}) < root[role]["threshold"]
            for root in roots(texts, repository)[first - 1:] for role in roles)

    def is_unforged(self, text: str, stolen: set[str], texts: dict[str, str]) -> bool:
        """What a key that isn't stolen has signed, the repositories have signed."""
        try:
            sealed, _ = verification.envelope(text)
        except verification.Unread:
            return True
        keys = {
            key for it in REPOSITORIES for root in roots(texts, it) for role in ROLES
            for key in root[role]["keys"].items() if key[0] not in stolen}
        signers = {it["keyid"] for it in sealed[0]}
        own = sealed[1] in self.signed.values()
        return own or not any(name in signers and self.verifier.has_signed(sealed, name, key)
                              for name, key in keys)

    def of_theft(self, repository: str, trust: dict[str, Any], served: dict[str, Any],
                 stolen: set[str], texts: dict[str, str]) -> dict[str, bool]:
        """Each premise of what a thief served of a repository, by its name."""
        files = served if repository == "image" else verification.reply_in(served["reply"])["files"]
        came = [*served[repository + "_roots"], files["targets"]]
        return {
            "FollowsRoot": self.follows_root(
                repository, trust, texts), "AreSafeFrom": self.are_safe(
                    repository, ("root", "targets"), trust,
                    stolen, texts), "AreSafeTimestamps": self.are_safe(
                        repository, ("timestamp", ), trust, stolen, texts), "AreUnforged": all(
                            self.is_unforged(it, stolen, texts) for it in came),
            "IsUnforged": self.is_unforged(files["timestamp"], stolen, texts)}
