"""Ed25519 by RFC 8032 in plain Python, as the small Primary has it (`examples/primary/ed25519.py`,
which stands alone), and the test vectors of the RFC's section 7.1.
"""
import functools
import runpy
from pathlib import Path
from typing import Any

from uptane_tools import TOP

_NAMES: dict[str, Any] = runpy.run_path(str(TOP / "examples/primary/ed25519.py"))
P, ORDER, BASE = _NAMES["P"], _NAMES["ORDER"], _NAMES["BASE"]
digest, number, encode, decode = (_NAMES[it] for it in ("digest", "number", "encode", "decode"))
add, multiple = _NAMES["add"], _NAMES["multiple"]
public_of, sign, verify = _NAMES["public_of"], _NAMES["sign"], _NAMES["verify"]
is_public = functools.lru_cache(None)(_NAMES["is_public"])


def small_points() -> list[bytes]:
    """The eight points of small order, encoded, the neutral one first."""
    for y in range(2, 99):
        point = decode(y.to_bytes(32, "little"))
        if point is not None:
            points = [encode(multiple(count, multiple(ORDER, point))) for count in range(8)]
            if len(set(points)) == 8:
                return points
    raise AssertionError


def vectors() -> list[list[bytes]]:
    """Secret, public key, message and signature of each: tests 1, 2, 3, 1024 and SHA(abc)."""
    lines = (Path(__file__).parent / "ed25519_vectors.txt").read_text(encoding="ascii").splitlines()
    return [[bytes.fromhex(word.removeprefix("x")) for word in line.split(" ")] for line in lines]
