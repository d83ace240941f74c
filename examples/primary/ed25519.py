"""Ed25519 by RFC 8032, section 5.1, in plain Python: what is signed and verified is compared
with it.

It is slow, and its time depends on secrets: no one signs with it what matters. Where the RFC
leaves a choice, it takes that of the RFC's own code (section 6): the equation without the
cofactor, k modulo the order. Comments name the sections.
"""
import functools
import hashlib
from collections.abc import Iterator

# a point as (X, Y, Z, T)
Point = tuple[int, int, int, int]

# ---- 5.1: the parameters

P = 2**255 - 19
D = -121665 * pow(121666, -1, P) % P
ORDER = 2**252 + 27742317777372353535851937790883648493
ROOT_OF_MINUS_1 = pow(2, (P - 1) // 4, P)
NEUTRAL = (0, 1, 1, 0)


def digest(*parts: bytes) -> bytes:
    return hashlib.sha512(b"".join(parts)).digest()


def number(data: bytes) -> int:
    return int.from_bytes(data, "little")


# ---- 5.1.4: points as (X, Y, Z, T), where x = X / Z, y = Y / Z and x * y = T / Z


def add(one: Point, other: Point) -> Point:
    (x1, y1, z1, t1), (x2, y2, z2, t2) = one, other
    a, b = (y1 - x1) * (y2 - x2) % P, (y1 + x1) * (y2 + x2) % P
    c, d = t1 * 2 * D * t2 % P, z1 * 2 * z2 % P
    e, f, g, h = b - a, d - c, d + c, b + a
    return e * f % P, g * h % P, f * g % P, e * h % P


@functools.lru_cache(1000)
def doubled(point: Point) -> tuple[Point, ...]:
    """The point, and 255 more, each twice the one before: kept, since a key comes again."""
    points = [point]
    for _ in range(255):
        points.append(add(points[-1], points[-1]))
    return tuple(points)


def multiple(count: int, point: Point) -> Point:
    """[count]P, for a count below 2^256."""
    total = NEUTRAL
    for twice in doubled(point):
        if count & 1:
            total = add(total, twice)
        count >>= 1
    return total


def is_same(one: Point, other: Point) -> bool:
    (x1, y1, z1, _), (x2, y2, z2, _) = one, other
    return (x1 * z2 - x2 * z1) % P == 0 and (y1 * z2 - y2 * z1) % P == 0


# ---- 5.1.2 and 5.1.3: points as bytes


def encode(point: Point) -> bytes:
    inverse = pow(point[2], -1, P)
    x, y = point[0] * inverse % P, point[1] * inverse % P
    return (y | (x & 1) << 255).to_bytes(32, "little")


@functools.lru_cache(1000)
def decode(data: bytes) -> Point | None:
    """The point that 32 bytes write; none where they write none."""
    if len(data) != 32:
        return None
    sign, y = number(data) >> 255, number(data) & 2**255 - 1
    if y >= P:
        return None
    u, v = (y * y - 1) % P, (D * y * y + 1) % P
    x = u * v**3 * pow(u * v**7, (P - 5) // 8, P) % P
    if (v * x * x + u) % P == 0:
        x = x * ROOT_OF_MINUS_1 % P
    if (v * x * x - u) % P != 0:
        return None
    if x == 0 and sign == 1:
        return None
    if x & 1 != sign:
        x = P - x
    return x, y, 1, x * y % P


def is_public(data: bytes) -> bool:
    """Whether they are a public key: a point that isn't neutral, in the subgroup of the base
    point's order. Under any other anybody makes signatures.
    """
    point = decode(data)
    return point is not None and not is_same(point, NEUTRAL) and is_same(
        multiple(ORDER, point), NEUTRAL)


BASE = decode((4 * pow(5, -1, P) % P).to_bytes(32, "little")) or NEUTRAL


def rows_of_multiples() -> Iterator[list[Point]]:
    """For each four bits of a count, the fifteen multiples of the base point that they may stand
    for.
    """
    point = BASE
    for _ in range(64):
        row = [point]
        for _ in range(15):
            row.append(add(row[-1], point))
        point = row.pop()
        yield row


MULTIPLES = list(rows_of_multiples())


def multiple_of_base(count: int) -> Point:
    """[count]B, for a count below 2^256."""
    total = NEUTRAL
    for row in MULTIPLES:
        if count & 15:
            total = add(total, row[(count & 15) - 1])
        count >>= 4
    return total


# ---- 5.1.5 to 5.1.7: keys, signatures


def expanded(secret: bytes) -> tuple[int, bytes]:
    """The scalar and the prefix of a secret."""
    if len(secret) != 32:
        raise ValueError("a secret of %d bytes" % len(secret))
    hashed = bytearray(digest(secret))
    hashed[0] &= 0b11111000
    hashed[31] &= 0b01111111
    hashed[31] |= 0b01000000
    return number(hashed[:32]), bytes(hashed[32:])


@functools.lru_cache(1000)
def public_of(secret: bytes) -> bytes:
    return encode(multiple_of_base(expanded(secret)[0]))


def sign(secret: bytes, message: bytes) -> bytes:
    scalar, prefix = expanded(secret)
    r = number(digest(prefix, message)) % ORDER
    first = encode(multiple_of_base(r))
    k = number(digest(first, public_of(secret), message)) % ORDER
    return first + ((r + k * scalar) % ORDER).to_bytes(32, "little")


def verify(public: bytes, message: bytes, signature: bytes) -> bool:
    if len(signature) != 64:
        return False
    first, s = decode(signature[:32]), number(signature[32:])
    key = decode(public)
    if first is None or key is None or s >= ORDER:
        return False
    k = number(digest(signature[:32], public, message)) % ORDER
    return is_same(multiple_of_base(s), add(first, multiple(k, key)))
