"""Computes what the cases of texts want, by Python's own libraries from the formats in
docs/integrate/FORMATS.md, and tells where it is something else. They are in the
standard input of the crate `up_test_calls`. Refusals and those that are wrong on purpose are left
out: their answers are by hand.

    tools/run expected_texts
"""
import datetime
import hashlib
import hmac
import json
import re
from collections.abc import Iterator
from typing import Any

from uptane_tools import arguments
from uptane_tools.rows import cases

UTC = datetime.timezone.utc
FORM = "%Y-%m-%dT%H:%M:%SZ"


def time(second: int) -> str:
    return datetime.datetime.fromtimestamp(second, UTC).strftime(FORM)


def second(text: str) -> int:
    return int(datetime.datetime.strptime(text, FORM).replace(tzinfo=UTC).timestamp())


def canon(value: Any) -> str:
    return json.dumps(value, sort_keys=True, separators=(",", ":"))


def by_hmac(key: bytes, message: bytes) -> str:
    return hmac.new(key, message, hashlib.sha256).hexdigest()


class Hmac:
    method, shown = "hmac-sha256", ""
    public = staticmethod(lambda key: key)
    sign = staticmethod(by_hmac)
    fits = staticmethod(lambda key: len(key) == 32)


class Hashed:
    method, shown = "sha256-tag", "hash"
    public = staticmethod(lambda key: hashlib.sha256(b"public " + key).digest())
    sign = staticmethod(lambda key, message: hashlib.sha256(Hashed.public(key) + message).hexdigest(
    ))
    fits = staticmethod(lambda key: len(key) > 0)


SCHEMES = {"hmac-sha256": Hmac, "sha256-tag": Hashed}


def key_of(word: str) -> bytes:
    return bytes.fromhex(word[:-1] * 32 if word.endswith("*") else word)


def keyid(public: bytes) -> str:
    return by_hmac(public, b"uptane-key-id")


def seal(scheme: Any, keys: list[bytes], text: str) -> str:
    signatures = [{
        "keyid": keyid(scheme.public(k)), "method": scheme.method, "sig": scheme.sign(
            k, text.encode())} for k in keys]
    return '{"signatures":%s,"signed":%s}' % (canon(signatures), text)


def valid(scheme: Any, public: bytes, signature: str, message: bytes) -> bool:
    wanted = by_hmac(public, message) if scheme is Hmac else hashlib.sha256(public +
                                                                            message).hexdigest()
    return signature == wanted


def accepted(scheme: Any, publics: list[bytes], threshold: int, envelope: dict[str, Any]) -> bool:
    text = canon(envelope["signed"]).encode()

    def signed(public: bytes, s: dict[str, str]) -> bool:
        return s["keyid"] == keyid(public) and s["method"] == scheme.method and valid(
            scheme, public, s["sig"], text)

    return sum(
        any(signed(public, s) for s in envelope["signatures"]) for public in publics) >= threshold


LOWER, EITHER = r"[0-9a-f]{128}", r"[0-9A-Fa-f]{128}"


def second_hash(hashes: dict[str, Any], digits: str) -> str | None:
    """The second hash among the hashes, none where it hasn't 128 such digits."""
    hash = hashes.get("sha512")
    return hash.lower() if isinstance(hash, str) and re.fullmatch(digits, hash) else None


def hash_words(hashes: dict[str, Any], digits: str) -> str:
    second = second_hash(hashes, digits)
    return hashes["sha256"].lower() + ("+" + second if second else "")


def known_target(target: dict[str, Any]) -> dict[str, Any]:
    """The members of a target that its format has, and the hashes that are hashes."""
    second = second_hash(target["hashes"], LOWER)
    return target | {
        "hashes": {"sha256": target["hashes"]["sha256"]} | ({"sha512": second} if second else {})}


def known(v: dict[str, Any]) -> dict[str, Any]:
    """The members of a payload that its format has."""
    v = {name: value for name, value in v.items() if name != "more"}
    v.update({"targets": [known_target(t) for t in v["targets"]]} if "targets" in v else {})
    if v["repository"] == "image":
        v.pop("vehicle", None)
        v.update({"targets": [{n: x for n, x in t.items() if n != "ecu"}
                              for t in v["targets"]]} if "targets" in v else {})
    return v


def file_fields(v: dict[str, Any]) -> str:
    director = v["repository"] == "director"
    out = "%s %d %d %s" % (v["repository"], v["version"], second(
        v["expires"]), v["vehicle"] if director and v["type"] != "root" else "none")
    for role in ("root", "targets", "snapshot", "timestamp") if v["type"] == "root" else ():
        keys = [
            "%s by %s [%s]" % (k, v["keys"][k]["method"], v["keys"][k]["public"])
            for k in v["roles"][role]["keyids"]]
        out += "; " + " ".join(["%d of" % v["roles"][role]["threshold"], *keys])
    for t in v.get("targets", ()):
        told = [
            t["ecu"] if director else "none", t["file"],
            str(t["length"]),
            hash_words(t["hashes"], LOWER),
            str(t["release"]), *t["hardware"]]
        out += "; " + " ".join(told)
    for below in v.get("meta", {}).values():
        out += "; " + " ".join([str(below["version"]), *below.get("hashes", {}).values()])
    return out


def role_file(scheme: Any, given: str) -> str:
    words, body = given.split(" ", 1)
    envelope = json.loads(body)
    v, text = envelope["signed"], seal(scheme, [key_of(w) for w in words.split(",")],
                                       canon(known(envelope["signed"])))
    if text == body:
        return file_fields(v) + ", the same again"
    return file_fields(v) + (", signed anew" if known(v) == v else ", written " + text)


def manifest(body: str) -> str:
    v = json.loads(body)["signed"]
    out = "%s %s %d" % (v["vehicle"], v["primary"], v["counter"])
    for r in (envelope["signed"] for envelope in v["reports"]):
        image = r["image"]
        told = (r["ecu"], r["counter"], second(r["time"]), r["attack"], image["file"],
                image["length"], hash_words(image["hashes"], EITHER))
        out += "; %s %d %d [%s] %s %d %s" % told
    return out


def member_hash(given: str) -> str:
    """The second hash of an object, where another member counts as none, and where it is a fault.
    """
    hash = second_hash(json.loads(given), EITHER)
    return "%s, wanted %s" % (hash or "none", hash or "sha512")


def report_hash(text: str) -> str:
    """The second hash in a report's signed text, which is canonical."""
    value = json.loads(text)
    return canon(value) == text and second_hash(value["image"]["hashes"], EITHER) or "none"


def built(scheme: Any, given: str) -> str:
    word, body = given.split(" ", 1)
    key, v = key_of(word), json.loads(body)
    v["signed"]["reports"] = [
        json.loads(seal(scheme, [key], canon(r["signed"]))) for r in v["signed"]["reports"]]
    return "the same, 2 and 2 accepted" if seal(scheme, [key], canon(
        v["signed"])) == body else "another body"


def key_fields(scheme: Any, word: str) -> str:
    key = key_of(word)
    told = (scheme.method, scheme.fits(key), len(key) == 32, scheme.public(key).hex(), scheme.shown)
    return "%s: secret %s, public %s, its public part %s, shown as [%s]" % tuple(
        str(t).lower() if isinstance(t, bool) else t for t in told)


def sealed(scheme: Any, given: str) -> str:
    words, text = given.split(" ", 1)
    return seal(scheme, [key_of(word) for word in words.split(",")], text)


def verified(scheme: Any, given: str) -> str:
    public, signature, message = given.split(" ", 2)
    return str(valid(scheme, key_of(public), signature, message.encode())).lower()


def is_accepted(scheme: Any, given: str) -> str:
    words, threshold, envelope = given.split(" ", 2)
    return str(
        accepted(scheme, [key_of(w) for w in words.split(",")], int(threshold),
                 json.loads(envelope))).lower()


def envelope_fields(given: str) -> str:
    v = json.loads(given)
    return "".join("%s by %s: %s; " % (s["keyid"], s["method"], s["sig"].lower())
                   for s in v["signatures"]) + canon(v["signed"])


def keys_kept(given: str) -> str:
    """The identifiers of the public parts that are found once all were kept in turn: the last of
    each slot.
    """
    publics = [bytes.fromhex(word) for word in json.loads(given)]
    last = {int.from_bytes(public, "big") % 4093: public for public in publics}
    return "; ".join(keyid(public) if public in last.values() else "none" for public in publics)


CALLS = {
    "moment text": lambda g: time(int(g)), "moment read": lambda g: str(second(g)),
    "moment a week later": lambda g: str(int(g) + 7 * 86400), "canonical": lambda g: canon(
        json.loads(g)), "sha256": lambda g: hashlib.sha256(g.encode()).hexdigest(),
    "sha512": lambda g: hashlib.sha512(g.encode()).hexdigest(), "sha512 of a member": member_hash,
    "second hash of a report": report_hash,
    "hmac": lambda g: by_hmac(*(bytes.fromhex(json.loads(g)[name]) for name in ("key", "message"))),
    "key identifier": lambda g: "{0}, as text {0}".format(keyid(bytes.fromhex(json.loads(g)))),
    "envelope": envelope_fields, "keys kept": keys_kept, "manifest": manifest,
    "signed text of a manifest": lambda g: canon(json.loads(g)["signed"])}
UNDER = {
    "key": key_fields, "signature": lambda s, g: s.sign(key_of(g.split(" ", 1)[0]),
                                                        g.split(" ", 1)[1].encode()),
    "verified": verified, "accepted": is_accepted, "seal": sealed, "built manifest": built,
    "root": role_file, "targets": role_file, "snapshot": role_file, "timestamp": role_file}


def in_full(text: str) -> str:

    def many(found: re.Match[str]) -> str:
        number, one = int(found.group(1)), found.group(2)
        return ",".join(
            one.replace("#", str(i)) for i in range(number)) if "#" in one else one * number

    return re.sub(r"<\*(\d+)\*(.*?)\*>", many, text)


def rows(section: str) -> Iterator[tuple[str, str]]:
    base = ""
    for line in section.split("\n")[1:]:
        if line.startswith("of "):
            base = line[3:]
        elif " => " in line:
            given, wanted = line.split(" => ", 1)
            sign, _, change = given.partition(" ")
            if sign in ("~", "+"):
                old, new = change.split(" | ", 1)
                given = base.replace(old, new, 1)
                base = given if sign == "+" else base
            yield in_full(given), wanted


def computed(call: str, given: str) -> str:
    call, _, scheme = call.partition(" under ")
    return UNDER[call](SCHEMES[scheme], given) if scheme else CALLS[call](given)


def main(words: arguments.Words = None) -> int:
    """Compares what is computed with what the rows want."""
    arguments.given(__doc__, words)
    same = by_hand = 0
    text = cases.kinds("up_test_calls")["texts"]
    for section in text.split("\n# dance")[0].rsplit("\n# canonical", 1)[0].split("\n# ")[1:]:
        call = section.split("\n", 1)[0]
        for given, wanted in rows(section):
            by_rule = call.partition(" under ")[0] in (*CALLS, *UNDER) and not re.fullmatch(
                r"(BadShape \w+|Not\w+|TooLarge|none)", wanted)
            if by_rule and computed(call, given) != wanted:
                print("%s of %.200s: %.200s, in place of %.200s" %
                      (call, given, computed(call, given), wanted))
                return 1
            same, by_hand = same + by_rule, by_hand + (not by_rule)
    print("%d wanted answers are computed, %d are by hand" % (same, by_hand))
    return 0
