"""The oracle's Ed25519, by the test vectors of RFC 8032, section 7.1."""
import unittest

from uptane_tools.oracle.ed25519 import ORDER, number, public_of, sign, vectors, verify


class Vectors(unittest.TestCase):
    """Each vector: a secret, its public key, a message and its signature."""

    def test_keys_and_signatures(self) -> None:
        for secret, public, message, signature in vectors():
            with self.subTest(public.hex()):
                self.assertEqual(public_of(secret), public)
                self.assertEqual(sign(secret, message), signature)
                self.assertTrue(verify(public, message, signature))

    def test_changed_signatures(self) -> None:
        for _, public, message, signature in vectors():
            turned = [
                signature[:at] + bytes([signature[at] ^ 1]) + signature[at + 1:]
                for at in range(0, 64, 9)]
            greater = number(signature[32:]) + ORDER
            turned.append(signature[:32] + greater.to_bytes(32, "little"))
            with self.subTest(public.hex()):
                self.assertFalse(any(verify(public, message, it) for it in turned))
