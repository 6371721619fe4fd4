"""Public keys of secret keys: multiples of the generator of G1 of BLS12-381, in Jacobian coordinates.

Known from outside: the keys of the first secret keys and of the first two validators of interoperability tests.
"""
MODULUS = 0x1a0111ea397fe69a4b1ba7b6434bacd764774b84f38512bf6730d2a0f6b0f6241eabfffeb153ffffb9feffffffffaaab
GENERATOR = (0x17f1d3a73197d7942695638c4fa9ac0fc3688c4f9774b905a14e3a3f171bac586c55e83ff97a1aeffb3af00adb22c6bb,
             0x08b3f481e3aaa0f1a09e30ed741d8ae4fcf5e095d5d00af600db18cb2c04b3edd03cc744a2888ae40caa232946c5e7e1, 1)
KNOWN = {
    1: "97f1d3a73197d7942695638c4fa9ac0fc3688c4f9774b905a14e3a3f171bac586c55e83ff97a1aeffb3af00adb22c6bb",
    2: "a572cbea904d67468808c8eb50a9450c9721db309128012543902d0ac358a62ae28f75bb8f1c7c42c39a8c5529bf0f4e",
    3: "89ece308f9d1f0131765212deca99697b112d61f9be9a5f1f3780a51335b3ff981747a0b2ca2179b96d2c0c9024e5224",
    4: "ac9b60d5afcbd5663a8a44b7c5a02f19e9a77ab0a35bd65809bb5c67ec582c897feb04decc694b13e08587f3ff9b5b60",
    5: "b0e7791fb972fe014159aa33a98622da3cdc98ff707965e536d8636b5fcc5ac7a91a8c46e59a00dca575af0f18fb13dc",
    0x25295f0d1d592a90b333e26e85149708208e9f8e8bc18f6c77bd62f8ad7a6866:
        "a99a76ed7796f7be22d5b7e85deeb7c5677e88e511e0b337618f8c4eb61349b4bf2d153f649f7b53359fe8b94a38e44c",
    0x51d0b65185db6989ab0b560d6deed19c7ead0e24b9b6372cbecb1f26bdfad000:
        "b89bebc699769726a318c8e9971bd3171297c61aea4a6578a7a4f94b547dcba5bac16a89108b6b6a1fe3695d1a874a0b",
}


def doubled(point):
    x, y, z = point
    b = y * y % MODULUS
    d, e = 4 * x * b % MODULUS, 3 * x * x % MODULUS
    u = (e * e - 2 * d) % MODULUS
    return u, (e * (d - u) - 8 * b * b) % MODULUS, 2 * y * z % MODULUS


def added(one, other):
    """The sum of two points of which neither is the other or its negative."""
    (x, y, z), (u, v, w) = one, other
    first, second = x * w * w % MODULUS, u * z * z % MODULUS
    h, r = second - first, (v * z ** 3 - y * w ** 3) % MODULUS
    t = (r * r - h ** 3 - 2 * first * h * h) % MODULUS
    return t, (r * (first * h * h - t) - y * w ** 3 * h ** 3) % MODULUS, h * z * w % MODULUS


def multiple(number):
    """A multiple of the generator, from the first bit of the number down."""
    point = GENERATOR
    for bit in bin(number)[3:]:
        point = doubled(point)
        if bit == "1":
            point = added(point, GENERATOR)
    return point


def pubkey(secret):
    """The compressed point of a secret key: x, with flags that it is compressed and of the larger y."""
    x, y, z = multiple(secret)
    inverse = pow(z, MODULUS - 2, MODULUS)
    x, y = x * inverse ** 2 % MODULUS, y * inverse ** 3 % MODULUS
    flags = 0b101 if 2 * y > MODULUS else 0b100
    return (flags << 381 | x).to_bytes(48, "big")


assert all(pubkey(secret).hex() == key for secret, key in KNOWN.items())
