"""The cases of Ed25519, by tools/run ed25519.

    tools/run ed25519_cases PROGRAM WORD [N]   gives the program of up_test_ed25519 cases of N keys,
                                               1,000 if none are said, drawn by the word

Those that `computed` gives it are the vectors of RFC 8032, section 7.1; signatures of which each
byte of R, S, A and M is changed in turn; S + order; keys and nonces of small order; and 32 bytes
that write no point. What is drawn are keys, messages and signatures both ways: a signature of the
program is the reference's, byte by byte, and the program verifies those of the reference, each as
it is and once more with a bit changed.

The kind `cached` is for the scheme that keeps keys decoded, and public keys of secrets: each row
of a verification twice, so that its key is new and then found, keys of one slot in turn, of which
each puts the other out, and more secrets than are kept, twice. What is drawn is given to it too.

promise: ed25519-laws, ed25519-sign, ed25519-verify
"""
import random
import subprocess
from collections.abc import Iterator
from typing import Any

from uptane_tools import arguments
from uptane_tools.oracle.ed25519 import (BASE, ORDER, P, add, decode, digest, encode, is_public,
                                         multiple, number, public_of, sign, small_points, vectors,
                                         verify)


def little(count: int) -> bytes:
    return count.to_bytes(32, "little")


def turned(data: bytes, at: int, bit: int = 1) -> bytes:
    return data[:at] + bytes([data[at] ^ bit]) + data[at + 1:]


def key_row(data: bytes) -> str:
    fits, is_key = ("true" if it else "false" for it in (len(data) == 32, is_public(data)))
    public = public_of(data).hex() if len(data) == 32 else "none"
    shown = data.hex() if len(data) == 32 else ""
    return (f"{data.hex()} => ed25519: secret {fits}, public {is_key}, its public key {public}, "
            f"shown as [{shown}]")


def signature_row(secret: bytes, message: bytes) -> str:
    return f"{secret.hex()} x{message.hex()} => {sign(secret, message).hex()}"


def verified_row(public: bytes, message: bytes, signature: bytes) -> str:
    answer = "true" if verify(public, message, signature) else "false"
    return f"{public.hex()} x{message.hex()} {signature.hex()} => {answer}"


def changed(public: bytes, message: bytes,
            signature: bytes) -> Iterator[tuple[bytes, bytes, bytes]]:
    """Each byte of R, S, A and M changed in turn, by a bit that goes on."""
    for at in range(64):
        yield public, message, turned(signature, at, 1 << at % 8)
    for at in range(32):
        yield turned(public, at, 1 << at % 8), message, signature
    for at in range(len(message)):
        yield public, turned(message, at, 1 << at % 8), signature


def sizes(public: bytes, message: bytes, signature: bytes) -> Iterator[tuple[bytes, bytes, bytes]]:
    yield public, message, signature[:63]
    yield public, message, signature + b"\0"
    yield public, message, b""
    yield public[:31], message, signature
    yield public + b"\0", message, signature
    yield b"", message, signature
    yield public, message + b"\0", signature
    yield public, message, signature[32:] + signature[:32]


def later(public: bytes, message: bytes, signature: bytes) -> Iterator[tuple[bytes, bytes, bytes]]:
    """S and the order, as often as 256 bits allow, and S with high bits."""
    s = number(signature[32:])
    for more in range(ORDER, 2**256 - s, ORDER):
        yield public, message, signature[:32] + little(s + more)
    for bit in (253, 254, 255):
        yield public, message, signature[:32] + little(s | 1 << bit)


def small(message: bytes) -> Iterator[tuple[bytes, bytes, bytes]]:
    """Signatures with S = 0 under keys of small order, by R of small order."""
    for public in small_points():
        for first in small_points():
            yield public, message, first + little(0)


def mixed(secret: bytes, message: bytes) -> Iterator[tuple[bytes, bytes, bytes]]:
    """Signatures by keys and nonces with a part of small order, made as the equation asks, and
    without the part.
    """
    scalar = number(digest(secret)[:32]) % ORDER
    for part in small_points()[1:]:
        key = encode(add(multiple(scalar, BASE), decode(part)))
        first = encode(multiple(7, BASE))
        k = number(digest(first, key, message)) % ORDER
        s = little((7 + k * scalar) % ORDER)
        yield key, message, first + s
        other = encode(add(multiple(7, BASE), multiple(k, decode(part))))
        yield key, message, other + s
        nonce = encode(add(multiple(7, BASE), decode(part)))
        plain = encode(multiple(scalar, BASE))
        k = number(digest(nonce, plain, message)) % ORDER
        yield plain, message, nonce + little((7 + k * scalar) % ORDER)


def unwritten(message: bytes, signature: bytes) -> Iterator[tuple[bytes, bytes, bytes]]:
    """Keys and R that write no point or aren't in their least form: y from 2^255 - 19 on, x = 0
    with its sign, no root.
    """
    kinds = [little(y) for y in range(P, 2**255)] + [little(y | 1 << 255) for y in range(P, 2**255)]
    kinds += [little(1 | 1 << 255), little(P - 1 | 1 << 255)] + [
        little(y) for y in range(2, 30) if decode(little(y)) is None]
    for data in kinds:
        yield data, message, little(1) + little(0)
        yield data, message, data + little(0)
        yield little(1), message, data + signature[32:]


def keys(public: bytes) -> list[bytes]:
    """Bytes that are no public key, and some that are: of wrong sizes; points of small order, in
    their encoding and in others; a key with each of them added; no point.
    """
    wrong = [b"", b"\x07" * 31, b"\x07" * 33, b"\0" * 32, b"\xff" * 32, *small_points()]
    wrong += [encode(add(decode(public), decode(it))) for it in small_points()]
    wrong += [little(y | sign << 255) for y in range(P, 2**255) for sign in (0, 1)]
    return wrong + [little(it | 1 << 255) for it in (1, P - 1)] + [little(y) for y in range(2, 30)]


def sections() -> Any:
    known = vectors()
    secrets = [vector[0] for vector in known]
    publics = [vector[1] for vector in known]
    yield "key", [key_row(data) for data in secrets + publics + keys(publics[0])]
    messages = [
        b"\0" * length for length in (0, 1, 47, 48, 63, 64, 79, 80, 111, 112, 127, 128, 239, 240)]
    yield "signature", [signature_row(vector[0], vector[2]) for vector in known] + [
        signature_row(secrets[1], one) for one in messages]
    triples = [(vector[1], vector[2], vector[3]) for vector in known]
    rows = list(triples)
    for triple in (triples[2], triples[4]):
        rows += changed(*triple)
    for triple in triples[:3]:
        rows += [*sizes(*triple), *later(*triple)]
    rows += [
        *small(b""), *small(b"metadata"), *mixed(secrets[0], b"metadata"),
        *unwritten(b"metadata", triples[0][2])]
    yield "verified", [verified_row(*row) for row in rows]


def slot(public: bytes) -> int:
    """Where the crate keeps a public key."""
    return int.from_bytes(public[:3], "little") % 4093


def rivals(secrets: list[bytes]) -> list[tuple[bytes, bytes]]:
    """Pairs of secrets whose public keys have one slot."""
    met: dict[int, bytes] = {}
    pairs = []
    for secret in secrets:
        other = met.setdefault(slot(public_of(secret)), secret)
        if other != secret:
            pairs.append((other, secret))
    return pairs


def displaced(one: bytes, other: bytes) -> list[str]:
    """Signatures by two keys of one slot: each of them new, found, put out and new again."""
    message = b"of one slot"
    first, second = ((public_of(it), message, sign(it, message)) for it in (one, other))
    mixed_up = (first[0], message, second[2])
    bad = (second[0], message, turned(second[2], 40))
    return [
        verified_row(*it)
        for it in (first, first, second, bad, second, first, mixed_up, bad, first, mixed_up, first)]


def cached_sections() -> list[tuple[str, list[str]]]:
    """For the scheme that keeps keys: keys that are asked for first, then those of `sections`."""
    draw = random.Random("rivals")
    secrets = [draw.randbytes(32) for _ in range(256)]
    plain = dict(sections())
    pairs = rivals(secrets)[:3]
    more = [signature_row(it, b"metadata") for it in secrets[:20]]
    known = [row for it in vectors() for row in [verified_row(*it[1:])] * 2]
    return [("key", plain["key"] + [key_row(public_of(it)) for pair in pairs[:2] for it in pair]),
            ("verified", known + [row for pair in pairs for row in displaced(*pair)]),
            ("signature", [row for it in more for row in (it, it)] + more + plain["signature"]),
            ("verified", [row for it in plain["verified"] for row in (it, it)])]


def drawn(word: str, count: int) -> list[tuple[str, list[str]]]:
    draw = random.Random(word)
    signatures, checks, keys = [], [], []
    for _ in range(count):
        secret, message = draw.randbytes(32), draw.randbytes(draw.randrange(300))
        public, signature = public_of(secret), sign(secret, message)
        keys.append(key_row(secret))
        signatures.append(signature_row(secret, message))
        checks.append(verified_row(public, message, signature))
        at = draw.randrange(96 + len(message))
        data = turned(public + signature + message, at, 1 << draw.randrange(8))
        checks.append(verified_row(data[:32], data[96:], data[32:96]))
    return [("key", keys), ("signature", signatures), ("verified", checks)]


def stdin(parts: list[tuple[str, list[str]]]) -> str:
    return "\n# " + "\n# ".join(f"{call}\n" + "".join(row + "\n" for row in rows)
                                for call, rows in parts)


def stdout(parts: list[tuple[str, list[str]]]) -> str:
    return "".join(f"{call}: {len(rows)}\n" for call, rows in parts)


def compare(program: str, parts: list[tuple[str, list[str]]]) -> int:
    """What the program tells of the rows by both schemes: how many of each section are answered as
    they want, and those that aren't.
    """
    asked, right, wanted = 0, 0, stdout(parts)
    for head in ("", "\n## cached"):
        told = subprocess.run([program], input=head + stdin(parts), capture_output=True, text=True,
                              check=False).stdout
        asked += sum(len(rows) for _, rows in parts)
        right += sum(
            int(line.rpartition(": ")[2]) for line in told.splitlines()
            if line.rpartition(": ")[0] in dict(parts))
        if told != wanted:
            print(told[:3000], end="")
    print("%d passed, %d failed" % (right, asked - right))
    return 0 if right == asked else 1


def texts() -> tuple[str, str]:
    """The input and what is told."""
    parts = list(sections())
    return stdin(parts), stdout(parts)


def first() -> tuple[str, str]:
    """The first of them: of what is verified the vectors of the RFC alone."""
    parts = [(call, rows[:len(vectors())]) for call, rows in sections()]
    return stdin(parts), stdout(parts)


def cached_texts() -> tuple[str, str]:
    """Those of the kind `cached`."""
    parts = cached_sections()
    return stdin(parts), stdout(parts)


def cached_first() -> tuple[str, str]:
    """The first of them, with the keys that have one slot."""
    keys, known, made = (rows for _, rows in cached_sections()[:3])
    parts = [("key", keys[-4:]), ("verified", known), ("signature", made[:4])]
    return stdin(parts), stdout(parts)


def main(words: arguments.Words = None) -> int:
    """Gives the program cases that are drawn."""
    asked = arguments.given(__doc__, words, "program", "word", count=1000)
    return compare(asked.program, drawn(asked.word, asked.count))
