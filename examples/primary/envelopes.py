"""Canonical texts, keys, envelopes, reports and manifests: what a Primary writes, and what it needs
to read the answer.

Under HMAC-SHA-256 the same 32 bytes sign and verify: every key here is a secret, those of the
repositories' roles too, and whoever reads one can sign with it. Under Ed25519 an ECU has its secret
alone, and what verifies the repositories' files stands in their Root files.
"""
import functools
import hashlib
import hmac
import json
import re
from datetime import datetime, timedelta, timezone
from typing import Any

# (Python's standard library has no Ed25519; an ECU has a library of its own, or its hardware)
import ed25519


class HmacSha256:
    method = "hmac-sha256"

    @staticmethod
    def public_of(secret: bytes) -> bytes:
        return secret

    @staticmethod
    def sign(secret: bytes, data: bytes) -> bytes:
        return hmac.new(secret, data, hashlib.sha256).digest()

    @staticmethod
    def verify(key: bytes, data: bytes, signature: bytes) -> bool:
        return hmac.compare_digest(hmac.new(key, data, hashlib.sha256).digest(), signature)


class Ed25519:
    method = "ed25519"
    public_of = staticmethod(ed25519.public_of)
    sign, verify = staticmethod(ed25519.sign), staticmethod(ed25519.verify)


# the same keys are asked again and again
is_public = functools.lru_cache(1000)(ed25519.is_public)
# the greatest number, and how many lists and objects may stand in one another
MOST, DEEPEST = 2**53 - 1, 16
SCHEMES: dict[str, Any] = {"hmac-sha256": HmacSha256, "ed25519": Ed25519}
scheme: Any = HmacSha256


def use(told: dict[str, Any]) -> None:
    """From here on the scheme is that which an input or a vehicle names as `method`, or HMAC."""
    global scheme
    scheme = SCHEMES[told.get("method", HmacSha256.method)]


def canonical(value: Any) -> str:
    """The canonical text: compact, keys in byte order. Texts here are printable ASCII, numbers
    whole."""
    return json.dumps(value, sort_keys=True, separators=(",", ":"))


def is_plain(value: Any, deepest: int = DEEPEST) -> bool:
    """Whether a value has a canonical text: of printable ASCII and whole numbers, not too deep."""
    if isinstance(value, (bool, type(None))):
        return True
    if isinstance(value, int):
        return 0 <= value <= MOST
    if isinstance(value, str):
        return all(" " <= it <= "~" for it in value)
    if not isinstance(value, (dict, list)) or deepest == 0:
        return False
    parts = [*value, *value.values()] if isinstance(value, dict) else value
    return all(is_plain(it, deepest - 1) for it in parts)


def value_of(text: str) -> Any:
    """The value of a JSON text. What is no JSON is a ValueError: Python's own reader takes NaN too,
    and -0, which is no whole number, for 0."""

    def refuse(name: str) -> None:
        raise ValueError("%s is no JSON" % name)

    def whole(digits: str) -> float:
        return -0.0 if digits == "-0" else int(digits)

    try:
        return json.loads(text, parse_constant=refuse, parse_int=whole)
    except RecursionError:
        raise ValueError("lists in lists without end") from None


def key_identifier(public: bytes) -> str:
    """The identifier of a key: HMAC-SHA-256 of a fixed word under its public part, in hex."""
    return hmac.new(public, b"uptane-key-id", hashlib.sha256).hexdigest()


class File(dict[str, Any]):
    """An envelope, and its text as it was served: a Timestamp names the SHA-256 of the Snapshot's
    text. What is no object has no member."""

    def __init__(self, text: str) -> None:
        value = value_of(text)
        super().__init__(value if isinstance(value, dict) else {})
        self.text = text


def after_spaces(text: str, at: int) -> int:
    """Where the white space, a comma or a colon at a place of a text ends."""
    while text[at:at + 1] in (" ", "\t", "\n", "\r", ",", ":"):
        at += 1
    return at


def reply_of(text: str) -> dict[str, Any]:
    """A Director's reply. Its files have their own texts: what stands between two members of the
    reply belongs to neither. What is no object is a ValueError."""
    reply, decoder, at = value_of(text), json.JSONDecoder(), text.find("{") + 1
    if not isinstance(reply, dict):
        raise ValueError("that is no reply")
    while text[at := after_spaces(text, at)] != "}":
        name, at = decoder.raw_decode(text, at)
        at = after_spaces(text, at)
        value, end = decoder.raw_decode(text, at)
        reply[name] = File(text[at:end]) if name in ("timestamp", "snapshot", "targets") else value
        at = end
    return reply


def has_form(key: dict[str, Any], name: str, secrets: dict[str, bytes]) -> bool:
    """Whether a Root shows a key as it has to: of this scheme, and under its identifier, in the one
    encoding of a point of the right order. Under HMAC it shows nothing, and the vehicle has the
    key."""
    if scheme is HmacSha256:
        return name in secrets and key == key | {"method": scheme.method, "public": ""}
    public = bytes.fromhex(key["public"]) if re.fullmatch("[0-9a-f]{64}", key["public"]) else b""
    return key["method"] == scheme.method and is_public(public) and key_identifier(public) == name


def shown_keys(root: dict[str, Any]) -> dict[str, bytes]:
    """The keys that a Root shows, by identifier. Under HMAC it shows none. What isn't a key of that
    name counts for nothing: the Root that the vehicle got in the factory may have such a one."""
    keys = {} if scheme is HmacSha256 else root.get("keys", {})
    texts = {name: it["public"] for name, it in keys.items()}
    of_form = {name: it for name, it in texts.items() if re.fullmatch("[0-9a-f]{64}", it)}
    shown = {name: bytes.fromhex(it) for name, it in of_form.items()}
    return {name: it for name, it in shown.items() if key_identifier(it) == name and is_public(it)}


def moment(seconds: int) -> str:
    """Seconds since 1970-01-01T00:00:00Z as the text of a moment."""
    return (datetime(1970, 1, 1) + timedelta(seconds=seconds)).strftime("%Y-%m-%dT%H:%M:%SZ")


def seconds(text: str) -> int:
    """A moment's text as seconds since 1970-01-01T00:00:00Z."""
    told = datetime.strptime(text, "%Y-%m-%dT%H:%M:%SZ")
    return int(told.replace(tzinfo=timezone.utc).timestamp())


def sealed(secret: bytes, signed: str) -> str:
    """The envelope round a canonical text, with one signature. The text stands in it as it is."""
    keyid = key_identifier(scheme.public_of(secret))
    sig = scheme.sign(secret, signed.encode("ascii")).hex()
    signature = {"keyid": keyid, "method": scheme.method, "sig": sig}
    return '{"signatures":[%s],"signed":%s}' % (canonical(signature), signed)


def is_signed_by(envelope: dict[str, Any], key: bytes) -> bool:
    """Whether some signature of the envelope is this key's, over the canonical text of what is
    signed. The algorithm is that of the trusted key: a signature's `method` has to name it, and
    never chooses one."""
    identifier, data = key_identifier(key), canonical(envelope["signed"]).encode("ascii")
    for one in envelope["signatures"]:
        is_keys = one["keyid"] == identifier and one["method"] == scheme.method
        if is_keys and scheme.verify(key, data, bytes.fromhex(one["sig"])):
            return True
    return False


def hashes(given: dict[str, str]) -> dict[str, str]:
    """The hashes of an image: SHA-256, and SHA-512 where the image has one."""
    return {name: given[name] for name in ("sha256", "sha512") if name in given}


def report(given: dict[str, Any]) -> str:
    """An ECU version report, signed by the ECU."""
    payload = {
        "attack": given.get("attack", ""),
        "counter": given["counter"],
        "ecu": given["ecu"],
        "image": {"file": given["file"], "hashes": hashes(given), "length": given["length"]},
        "time": moment(given["time"]),
        "type": "report",
    }
    return sealed(bytes.fromhex(given["key"]), canonical(payload))


def manifest(given: dict[str, Any]) -> str:
    """The body of a vehicle version manifest, signed by the Primary."""
    reports = ",".join(report(one) for one in given["reports"])
    payload = '{"counter":%d,"primary":%s,"reports":[%s],"type":"manifest","vehicle":%s}' % (
        given["counter"],
        canonical(given["primary"]),
        reports,
        canonical(given["vehicle"]),
    )
    return sealed(bytes.fromhex(given["key"]), payload)
