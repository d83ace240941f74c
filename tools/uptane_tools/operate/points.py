"""Which bytes are an Ed25519 public key, and which are nobody's key under any scheme.
`examples/primary/ed25519.py` has the curve.
"""
import hashlib
import hmac
import runpy
from typing import Any

from uptane_tools import TOP

_CURVE: dict[str, Any] = runpy.run_path(str(TOP / "examples" / "primary" / "ed25519.py"))
NOBODYS = "no key of anybody: a blank, or a point of small order. Whoever knows that signs by it"
NO_PUBLIC_KEY = "no Ed25519 public key: no point of the right order. Others may sign by it"


def is_public(key: bytes) -> bool:
    """Whether they are a public key: a point that isn't neutral, in the subgroup of the base
    point's order. Takes some milliseconds.
    """
    return bool(_CURVE["is_public"](key))


def identifiers(secret: str) -> set[str]:
    """What Roots call the key of a secret, under HMAC, where it is its own public part, and under
    Ed25519.
    """
    data = bytes.fromhex(secret)
    return {
        hmac.new(it, b"uptane-key-id", hashlib.sha256).hexdigest()
        for it in (data, _CURVE["public_of"](data))}


def is_nobodys(key: str) -> bool:
    """Whether the hexadecimal digits of a key, of either case, are what no draw gives: a point of
    small order, as the neutral one and 32 bytes of 0 are, or a number not below 2^255 - 19, as 32
    bytes of 0xff.
    """
    data = bytes.fromhex(key)
    if len(data) != 32:
        return False
    point = _CURVE["decode"](data)
    y = _CURVE["number"](data) % 2**255
    return y >= _CURVE["P"] or y in (1, _CURVE["P"] - 1) or point is not None and _CURVE["is_same"](
        _CURVE["multiple"](8, point), _CURVE["NEUTRAL"])
