"""Translates a script to another scheme of signatures: the same secrets, with what they become
under it.

    tools/run translated OLD NEW < SCRIPT      OLD and NEW are methods: hmac-sha256, ed25519,
                                               sha256-tag

Secrets stay. A key of the inventory becomes the public key of the same secret. In a manifest
that is delivered, each signature of a known secret becomes that secret's under the new scheme:
over what is signed now where it was valid, and else over another text. All else stays as it is
spelled.
"""
import sys
from collections.abc import Iterator
from pathlib import Path
from typing import Any

from uptane_tools import arguments
from uptane_tools.operate.formats import HASH, LIST, OBJECT, canonical, value_of
from uptane_tools.oracle.schemes import HmacSha256, SCHEMES, key_identifier


def read(text: str) -> dict[str, Any]:
    """The members of an object; none where the text isn't one."""
    try:
        value = value_of(text)
    except ValueError:
        return {}
    return value if isinstance(value, dict) else {}


def ecus_of(line: dict[str, Any]) -> list[dict[str, Any]]:
    """What a line says of ECUs that come into the inventory."""
    ecus = line["ecus"] if line.get("do") == "add_vehicle" and LIST(line.get("ecus")) else [line]
    return [
        ecu for ecu in ecus
        if line.get("do") in ("add_vehicle", "replace_ecu") and OBJECT(ecu) and HASH(ecu.get("key"))
    ]


def secrets_in(line: dict[str, Any], old: type) -> Iterator[str]:
    """The secrets that a line names. Where secrets are public too, the inventory names them."""
    if line.get("do") == "bench":
        reports = line["reports"] if LIST(line.get("reports")) else []
        yield from (it.get("key") for it in [line, *reports] if OBJECT(it))
    if old is HmacSha256:
        yield from (ecu["key"] for ecu in ecus_of(line))


def is_envelope(value: dict[str, Any]) -> bool:
    return OBJECT(value) and LIST(value.get("signatures")) and OBJECT(value.get("signed"))


class Translation:

    def __init__(self, lines: list[str], old: Any, new: Any) -> None:
        named = [it for line in map(read, lines) for it in secrets_in(line, old) if HASH(it)]
        self.old, self.new, self.secrets = old, new, {
            old.public_of(it): it for it in map(bytes.fromhex, named)}
        self.by_identifier = {
            key_identifier(public): secret for public, secret in self.secrets.items()}

    def line(self, line: str) -> str:
        told = read(line)
        for ecu in ecus_of(told):
            public = bytes.fromhex(ecu["key"])
            line = line.replace(ecu["key"],
                                self.new.public_of(self.secrets.get(public, public)).hex())
        if told.get("do") == "deliver" and isinstance(told.get("body"), str):
            body = self.body(told["body"])
            return line if body == told["body"] else canonical(told | {"body": body})
        return line

    def body(self, text: str) -> str:
        """The text of a manifest. Its own signatures come last, since they are over those of the
        reports.
        """
        before, after = read(text), read(text)
        if not is_envelope(before):
            return text
        reports = [
            it["signed"]["reports"] for it in (before, after) if LIST(it["signed"].get("reports"))]
        pairs = [(before, after), *zip(*reports)]
        for envelope, made in reversed([pair for pair in pairs if is_envelope(pair[0])]):
            signed = canonical(envelope["signed"]).encode()
            for one, new in zip(envelope["signatures"], made["signatures"]):
                text = self.spelled(text, one, new, signed, canonical(made["signed"]).encode())
        return text

    def spelled(self, text: str, one: dict[str, str], new: dict[str, str], was_signed: bytes,
                signed: bytes) -> str:
        """The text with a signature translated; `new` gets what it has become."""
        secret = self.by_identifier.get(one["keyid"])
        if secret is None:
            return text
        valid = self.old.verify(self.old.public_of(secret), was_signed, bytes.fromhex(one["sig"]))
        new["keyid"] = key_identifier(self.new.public_of(secret))
        new["sig"] = self.new.sign(secret, signed if valid else b"another text").hex()
        new["method"] = self.new.method if one["method"] == self.old.method else one["method"]
        for member in ("keyid", "sig", "method"):
            text = text.replace('"%s"' % one[member], '"%s"' % new[member])
        return text


def translated(lines: list[str], old: str, new: str) -> list[str]:
    """The lines under another scheme; both are given by their methods."""
    translation = Translation(lines, SCHEMES[old], SCHEMES[new])
    return list(map(translation.line, lines))


def under(folder: Path, method: str) -> Any:
    """A row's or an example's script under a method, and the lines that it prints; none in place
    of a file's text, which is another where the script is translated.
    """

    def text(name: str) -> str:
        return (folder / name).read_text(encoding="ascii")

    own = text("under").strip() if (folder / "under").exists() else HmacSha256.method
    printed = text("printed").split("\n")[:-1]
    if own == method:
        return text("script").split("\n"), printed
    return translated(text("script").split("\n"), own, method), [
        None if it.startswith("file ") else it for it in printed]


def are_as(wanted: list[str | None], printed: list[str]) -> bool:
    """Whether the lines printed are these, whatever stands where there is none."""
    return printed is not None and len(wanted) == len(printed) and all(
        it in (None, got) for it, got in zip(wanted, printed))


def main(words: arguments.Words = None) -> int:
    """Translates a script."""
    asked = arguments.given(__doc__, words, "old", "new")
    print("\n".join(translated(sys.stdin.read().splitlines(), asked.old, asked.new)))
    return 0
