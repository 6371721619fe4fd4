"""The sum of public keys of BLS signatures: compressed points of the group G1 of BLS12-381, in Python's whole numbers.

A state's keys were validated when they were deposited, so it is not tested here that a point lies in the group of prime order.
"""
MODULUS = 0x1a0111ea397fe69a4b1ba7b6434bacd764774b84f38512bf6730d2a0f6b0f6241eabfffeb153ffffb9feffffffffaaab
LENGTH = 48
# The three first bits of a compressed point: that it is one, that it is the one at infinity, that its y is the larger of the two
COMPRESSED, INFINITE, LARGER = (1 << 8 * LENGTH - place for place in (1, 2, 3))


def is_larger(y):
    return y > (MODULUS - 1) // 2


def point_of(key):
    """The point x, y with y * y = x * x * x + 4 that a public key encodes."""
    number = int.from_bytes(key, "big")
    if not number & COMPRESSED or number & INFINITE:
        raise ValueError(f"no public key: {key.hex()}")
    x = number % LARGER
    square = (x ** 3 + 4) % MODULUS
    y = pow(square, (MODULUS + 1) // 4, MODULUS)
    if x >= MODULUS or y * y % MODULUS != square:
        raise ValueError(f"no point of the curve: {key.hex()}")
    return x, y if is_larger(y) == bool(number & LARGER) else MODULUS - y


def key_of(point):
    """The bytes of a point; None is the one at infinity."""
    if point is None:
        return (COMPRESSED | INFINITE).to_bytes(LENGTH, "big")
    x, y = point
    return (COMPRESSED | LARGER * is_larger(y) | x).to_bytes(LENGTH, "big")


def add(one, other):
    """The sum of two points."""
    if one is None or other is None:
        return other if one is None else one
    (x, y), (u, v) = one, other
    if x == u and y != v:
        return None
    rise, run = (3 * x * x, 2 * y) if x == u else (v - y, u - x)
    slope = rise * pow(run, -1, MODULUS) % MODULUS
    z = (slope * slope - x - u) % MODULUS
    return z, (slope * (x - z) - y) % MODULUS


def aggregate(keys):
    """eth_aggregate_pubkeys: the key of the sum of the keys' points."""
    points = {key: point_of(key) for key in set(keys)}
    total = None
    for key in keys:
        total = add(total, points[key])
    return key_of(total)
