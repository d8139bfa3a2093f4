#!/usr/bin/env python3
"""Writes src/stored.rt: arguments and their roots, as bit patterns. Run it in this folder: ./make_roots.py > src/stored.rt

The roots are Python's math.sqrt, which is the C library's, and so the hardware's. Each is tested once more here against the exact root,
by squaring the midpoints beside it as whole numbers. A NaN is written 7ff8000000000000.
"""
import math
import random
import struct
from fractions import Fraction

NAN = 0x7FF8000000000000
INFINITY = 0x7FF0000000000000
SIGN = 1 << 63


def value(bits):
    return struct.unpack('<d', struct.pack('<Q', bits))[0]


def pattern(x):
    return struct.unpack('<Q', struct.pack('<d', x))[0]


def root(bits):
    x = value(bits)
    if x != x or x < 0:
        return NAN
    r = pattern(math.sqrt(x))
    if 0 < bits < INFINITY:
        here, below, above = (Fraction(value(b)) for b in (r, r - 1, r + 1))
        assert ((below + here) / 2) ** 2 < Fraction(x) < ((here + above) / 2) ** 2
    return r


def arguments():
    chance = random.Random(2024)
    yield from (0, SIGN, INFINITY, SIGN + INFINITY, NAN, SIGN + NAN, INFINITY + 1, SIGN + INFINITY + 1, SIGN - 1, 2 * SIGN - 1)
    yield from (1, 2, 3, 4, (1 << 52) - 2, (1 << 52) - 1, 1 << 52, (1 << 52) + 1, INFINITY - 2, INFINITY - 1)
    yield from (SIGN + 1, SIGN + (1 << 52) - 1, SIGN + (1 << 52), pattern(-1.0), pattern(-4.0), SIGN + INFINITY - 1)
    for _ in range(120):  # any size
        yield chance.randrange(1, INFINITY)
    for _ in range(40):  # subnormal
        yield chance.randrange(1, 1 << chance.randrange(1, 53))
    for _ in range(32):  # squares, and the floats beside them
        b = pattern(float(chance.randrange(1, 1 << 26) ** 2) * 4.0 ** chance.randrange(-250, 250))
        yield from (b - 1, b, b + 1)
    for e in range(-1074, 1024, 70):  # powers of two, even and odd, and the floats beside them
        for p in (e, e + 1):
            b = pattern(math.ldexp(1.0, p))
            yield from (b - 1, b, b + 1)


def grouped(n):
    return f'0x{n >> 48:04x}_{n >> 32 & 0xFFFF:04x}_{n >> 16 & 0xFFFF:04x}_{n & 0xFFFF:04x}'


stored = list(dict.fromkeys(arguments()))
print('// Written by make_roots.py, which says where the roots come from: a pattern, and the pattern of its root.')
print(f'pub const ROOTS: [(u64, u64); {len(stored)}] = [')
for n in stored:
    print(f'    ({grouped(n)}, {grouped(root(n))}),')
print('];')
