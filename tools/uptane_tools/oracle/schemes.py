"""The schemes of signatures of the programs and of the tests, each with what its calls answer.

The tools try the scheme that the environment names: `SCHEME=ed25519 tools/run fuzz
.../uptane_desk_ed25519`. Where it names none, that is `hmac-sha256`.
"""
import functools
import hashlib
import hmac
import os
from typing import Any

from uptane_tools.oracle import ed25519


class Of32Bytes:
    """What schemes have in common whose public parts are any 32 bytes."""

    @staticmethod
    def fits(public: bytes) -> bool:
        return len(public) == 32


class HmacSha256(Of32Bytes):
    """HMAC-SHA-256 (RFC 2104): the secret is its own public part."""

    method = "hmac-sha256"

    @staticmethod
    def public_of(secret: bytes) -> bytes:
        return secret

    @staticmethod
    def shown(public: bytes) -> str:
        return ""

    @staticmethod
    def sign(secret: bytes, message: bytes) -> bytes:
        return hmac.new(secret, message, hashlib.sha256).digest()

    @classmethod
    def verify(cls, public: bytes, message: bytes, signature: bytes) -> bool:
        return hmac.compare_digest(cls.sign(public, message), signature)


class Ed25519:
    """Ed25519 (RFC 8032)."""

    method = "ed25519"
    # the same is asked again and again, and takes milliseconds
    public_of = staticmethod(functools.lru_cache(None)(ed25519.public_of))
    sign = staticmethod(functools.lru_cache(10_000)(ed25519.sign))
    verify = staticmethod(functools.lru_cache(10_000)(ed25519.verify))
    fits = staticmethod(ed25519.is_public)

    @staticmethod
    def shown(public: bytes) -> str:
        return public.hex()


class Sha256Tag(Of32Bytes):
    """The second scheme of the crates' tests: the public part is a hash of the secret, a
    signature one of it and the message.
    """

    method = "sha256-tag"

    @staticmethod
    def public_of(secret: bytes) -> bytes:
        return hashlib.sha256(b"public " + secret).digest()

    @staticmethod
    def shown(public: bytes) -> str:
        return "hash"

    @classmethod
    def sign(cls, secret: bytes, message: bytes) -> bytes:
        return hashlib.sha256(cls.public_of(secret) + message).digest()

    @staticmethod
    def verify(public: bytes, message: bytes, signature: bytes) -> bool:
        return hashlib.sha256(public + message).digest() == signature


OF_PRODUCT: tuple[Any, ...] = (HmacSha256, Ed25519)
ALL = (*OF_PRODUCT, Sha256Tag)
SCHEMES = {it.method: it for it in ALL}
TRIED = SCHEMES[os.environ.get("SCHEME", HmacSha256.method)]


def other_method_of(scheme: Any) -> str:
    """The method of the product's other scheme."""
    return next(it.method for it in OF_PRODUCT if it is not scheme)


@functools.lru_cache(4096)
def key_identifier(public: Any) -> str:
    """HMAC-SHA-256 of a fixed word under the public part, whatever the scheme."""
    return hmac.new(public, b"uptane-key-id", hashlib.sha256).hexdigest()
