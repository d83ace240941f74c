"""Test vectors of canonical texts, key identifiers, signatures and envelopes."""
import json
from collections.abc import Callable, Iterator
from typing import Any

from uptane_tools.oracle import ed25519, reference
from uptane_tools.oracle.reference import METHOD, SCHEME, canonical
from uptane_tools.oracle.schemes import HmacSha256, key_identifier, other_method_of
from uptane_tools.oracle.vector_fleet import key, payload_of, public, reports_of, signed_by

# ---- canonical texts

TAKEN = [("members in the order of bytes", '{"b":[1,true,null],"a":"x\\"y"}'),
         ("capitals before small letters", '{"a":1,"B":2,"_":3,"":4}'),
         ("white space", ' { "a" :\n\t[ 1 , 2 ] } '),
         ("a member twice: the last counts", '{"a":1,"a":2}'),
         ("escapes of printable characters", '"\\u0041\\/\\u005c\\u0022"'),
         ("a backslash and a quotation mark", '"\\\\ \\""'),
         ("all of printable ASCII", json.dumps("".join(map(chr, range(0x20, 0x7F))))),
         ("no members", "[{},[],\"\"]"), ("zero", "0"), ("the greatest number", "9007199254740991"),
         ("16 levels", 16 * "[" + 16 * "]"),
         ("16 levels of objects", 15 * '{"a":' + "{}" + 15 * "}"),
         ("16 levels round a number, which is none", 16 * "[" + "7" + 16 * "]")]
NOT_CANONICAL = [("a number past 2^53-1", "9007199254740992"), ("a fraction", "1.0"),
                 ("an exponent", "1e2"), ("a negative number", "-1"), ("a negative zero", "-0"),
                 ("a letter past ASCII", '"\u00e9"'), ("the same as an escape", '"\\u00e9"'),
                 ("a line feed", '"\\n"'), ("the byte 0x7F", '"\\u007f"'),
                 ("a member's name past ASCII", '{"\u00e9":1}'), ("17 levels", 17 * "[" + 17 * "]"),
                 ("127 levels round a number", 127 * "[" + "7" + 127 * "]"),
                 ("a number too small for a float", "1e-400")]
NOT_JSON = [("a leading zero", "01"), ("a plus sign", "+1"), ("a word", "nan"),
            ("single quotation marks", "'a'"), ("a comma too many", "[1,]"), ("no comma", "[1 2]"),
            ("a tab in a string", '"\t"'), ("half of a surrogate pair", '"\\ud800"'),
            ("an unknown escape", '"\\x41"'), ("a number too great for a float", "1e400"),
            ("128 levels", 128 * "[" + 128 * "]")]


def canonical_texts() -> Iterator[dict[str, str]]:
    for name, text in TAKEN:
        value = reference.read_json(text)
        assert reference.is_plain(value) and reference.depth(value) <= 16
        yield {"name": name, "text": text, "canonical": canonical(value)}
    for name, text in NOT_CANONICAL:
        value = reference.read_json(text)
        assert not reference.is_plain(value) or reference.depth(value) > 16
        yield {"name": name, "text": text, "refused": "NotCanonical"}
    for name, text in NOT_JSON:
        yield {
            "name": name, "text": text, "refused": refusal(reference.read_json, text).split(" ",
                                                                                            2)[2]}


def refusal(call: Callable[..., Any], *given: str) -> str:
    try:
        call(*given)
    except reference.Refused as refused:
        return refused.text
    raise AssertionError("this isn't refused: %r" % (given, ))


# ---- key identifiers and signatures


def key_identifiers() -> Iterator[dict[str, str]]:
    ascending = bytes(range(32)).hex()
    for name, it in [("zeros", key(0)), ("0x11 repeated", key(0x11)), ("0xff repeated", key(0xFF)),
                     ("0x00 to 0x1f", ascending)]:
        yield {
            "name": "32 bytes, " + name, "public": it, "keyid": key_identifier(bytes.fromhex(it))}
    for size in (1, 64, 65, 256):
        none = size * bytes([0x5A])
        yield {
            "name": "%d bytes; no key of these schemes" % size, "public": none.hex(),
            "keyid": key_identifier(none)}


# RFC 4231, test cases 1 to 3, 6 and 7: key, data, tag
RFC_4231 = [
    (1, 20 * b"\x0b", b"Hi There",
     "b0344c61d8db38535ca8afceaf0bf12b881dc200c9833da726e9376c2e32cff7"),
    (2, b"Jefe", b"what do ya want for nothing?",
     "5bdcc146bf60754e6a042426089575c75a003f089d2739839dec58b964ec3843"),
    (3, 20 * b"\xaa", 50 * b"\xdd",
     "773ea91e36800e46854db8ebd09181a72959098b3ef8c122d9635514ced565fe"),
    (6, 131 * b"\xaa", b"Test Using Larger Than Block-Size Key - Hash Key First",
     "60e431591ee0b67f0d8a26aacbf5b77f8e0bc6213728c5140546040f0ee37f54"),
    (7, 131 * b"\xaa",
     b"This is a test using a larger than block-size key and a larger than block-size data. "
     b"The key needs to be hashed before being used by the HMAC algorithm.",
     "9b09ffa71b942fcb27635fbcd5b0e944bfdc63644f0713938a7f51535c3a35e2")]


def outside() -> list[tuple]:
    """The vectors of the RFCs: name, secret, public part, data, signature."""
    if SCHEME is HmacSha256:
        return [("RFC 4231, test case %d" % number, secret, secret, data, bytes.fromhex(tag))
                for number, secret, data, tag in RFC_4231]
    names = ("1", "2", "3", "1024", "SHA(abc)")
    return [("RFC 8032, section 7.1, test %s" % name, *it)
            for name, it in zip(names, ed25519.vectors(), strict=True)]


def signatures() -> Iterator[dict[str, str]]:
    for name, secret, of, data, sig in outside():
        assert (SCHEME.public_of(secret), SCHEME.sign(secret, data)) == (of, sig)
        yield {
            "name": name, "secret": secret.hex(), "public": of.hex(), "data": data.hex(),
            "sig": sig.hex()}
    data, secret = payload_of("VIN-2", 1, reports_of("VIN-2", 1)).encode(), key(0xA4)
    sig = SCHEME.sign(bytes.fromhex(secret), data)
    yield {
        "name": "a canonical text", "secret": secret, "public": public(secret), "data": data.hex(),
        "sig": sig.hex()}


def encodings() -> Iterator[dict[str, Any]]:
    """Public keys and signatures of Ed25519 in other encodings than RFC 8032 has."""
    secret, data = bytes.fromhex(key(0xA4)), canonical({"a": 1}).encode()
    of, sig = ed25519.public_of(secret), ed25519.sign(secret, data)
    first, last = sig[:32], ed25519.number(sig[32:])

    def bytes_of(it: int) -> bytes:
        return it.to_bytes(32, "little")

    # with the neutral point as the key any s and s * B fit: what is tried is how the key is decoded
    free = ed25519.encode(ed25519.multiple(5, ed25519.BASE)) + bytes_of(5)
    for name, it, made in [
        ("the signature", of, sig), ("a bit of R changed", of, bytes([sig[0] ^ 1]) + sig[1:]),
        ("a bit of s changed", of, sig[:63] + bytes([sig[63] ^ 1])),
        ("s plus the order of the group", of, first + bytes_of(last + ed25519.ORDER)),
        ("63 bytes", of, sig[:-1]), ("65 bytes", of, sig + b"\0"),
        ("another key", ed25519.public_of(bytes.fromhex(key(0xA1))), sig),
        ("the secret in place of the public key", secret, sig),
        ("the neutral point as the key: nothing is wrong by section 5.1.7", bytes_of(1), free),
        ("the same point with y not below p", bytes_of(ed25519.P + 1), free),
        ("the same point with the sign of x set, though x is 0", bytes_of(1 | 1 << 255), free),
        ("a key that is no point", bytes_of(2), sig)]:
        yield {
            "name": name, "public": it.hex(), "data": data.hex(), "sig": made.hex(),
            "verified": ed25519.verify(it, data, made)}


# ---- envelopes round the first manifest of VIN-2, in several forms


def envelopes() -> Iterator[dict[str, Any]]:
    payload, secret, other = payload_of("VIN-2", 1, reports_of("VIN-2", 1)), key(0xA4), key(0xA1)
    good = json.loads(signed_by([secret], payload))["signatures"][0]
    wrong = json.loads(signed_by([other], payload))["signatures"][0]
    sig, identifier = good["sig"], good["keyid"]
    changed = sig[:-1] + ("1" if sig[-1] == "0" else "0")
    other_method = other_method_of(SCHEME)
    forms = [
        ("one signature", [good]), ("upper case digits in sig", [good | {"sig": sig.upper()}]),
        ("another signature before it", [wrong, good]),
        ("a wrong one of the same key before it", [good | {"sig": changed}, good]),
        ("a member more", [good | {"more": 1}]), ("eight signatures", 7 * [wrong] + [good]),
        ("another signature alone", [wrong]), ("its last digit changed", [good | {"sig": changed}]),
        ("a byte less", [good | {"sig": sig[:-2]}]), ("a byte more", [good | {"sig": sig + "00"}]),
        ("a key identifier in upper case", [good | {"keyid": identifier.upper()}]),
        ("another key's identifier", [good | {"keyid": wrong["keyid"]}]),
        ("another method", [good | {"method": other_method}]),
        ("the method in upper case", [good | {"method": METHOD.upper()}]), ("no signatures", []),
        ("nine signatures", 9 * [good]), ("an odd number of digits", [good | {"sig": sig[:-1]}]),
        ("no digits", [good | {"sig": ""}]), ("another letter", [good | {"sig": "g" + sig[1:]}]),
        ("no key identifier", [{"method": METHOD, "sig": sig}]),
        ("a key identifier of 129 characters", [good | {"keyid": 129 * "a"}]),
        ("no method", [{"keyid": identifier, "sig": sig}]), ("signatures that are no list", "x")]
    for name, made in forms:
        body = '{"signatures":%s,"signed":%s}' % (canonical(made), payload)
        yield {"name": name, "envelope": body} | judged(body, public(secret))


def judged(body: str, of: str) -> dict[str, Any]:
    """Whether this key signed the envelope, or the refusal of an envelope that has another form."""
    try:
        told = reference.read_manifest(body.encode())
    except reference.Refused as refused:
        return {"refused": refused.text.split(" ", 2)[2]}
    return {"signed_by_the_key": reference.is_signed(told["envelope"], bytes.fromhex(of))}
