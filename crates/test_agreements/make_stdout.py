#!/usr/bin/env python3
"""Writes the file stdout beside this one: what the program is to print.

The arithmetic here is Python's: its floats are IEEE 754's binary64, math.sqrt is correctly rounded, and nothing is fused. It
follows geo.rs, linalg.rs and standing.rs of sky-commons/tally with their loops, with the series for sine and cosine of
docs/REFERENCE.md, 'Agreement and decision', and takes nothing from the proved crate. The inputs are those of the program: its tables are read from its source, its numbers made anew."""
import math
import os
import re
import struct
from fractions import Fraction

HERE = os.path.dirname(os.path.abspath(__file__))
WORD = 2**64
INFINITY = math.inf


def of_bits(b):
    return struct.unpack("<d", struct.pack("<Q", b))[0]


def to_bits(x):
    return 0x7FF8_0000_0000_0000 if x != x else struct.unpack("<Q", struct.pack("<d", x))[0]


# ---- docs/REFERENCE.md, 'Agreement and decision': the constants from their decimals, the series for sine and cosine

E7 = float("1e-7")
# pi to 50 decimals; a Fraction turns into the nearest float
DEGREE = float(Fraction("3.14159265358979323846264338327950288419716939937510") / 180)


def horner(u, top):
    total, sign = 1.0 / math.factorial(top), -1.0
    for n in range(top - 2, -1, -2):
        total = total * u
        total = total + sign * (1.0 / math.factorial(n))
        sign = -sign
    return total


def sincos(v):
    q = (v + 450_000_000) // 900_000_000
    r = v - 900_000_000 * q
    t = float(r) * E7 * DEGREE
    u = t * t
    s, c = horner(u, 17) * t, horner(u, 16)
    return [(s, c), (c, -s), (-s, -c), (-c, s)][q % 4]


# ---- geo.rs

A = 6_378_137.0
F = 1.0 / 298.257_223_563
E2 = F * (2.0 - F)


def to_ecef(lat, lon, height_m):
    (sin_lat, cos_lat), (sin_lon, cos_lon) = sincos(lat), sincos(lon)
    n = A / math.sqrt(1.0 - E2 * sin_lat * sin_lat)
    return [
        (n + height_m) * cos_lat * cos_lon,
        (n + height_m) * cos_lat * sin_lon,
        (n * (1.0 - E2) + height_m) * sin_lat,
    ]


def enu_basis(lat, lon):
    (sin_lat, cos_lat), (sin_lon, cos_lon) = sincos(lat), sincos(lon)
    return [
        [-sin_lon, cos_lon, 0.0],
        [-sin_lat * cos_lon, -sin_lat * sin_lon, cos_lat],
        [cos_lat * cos_lon, cos_lat * sin_lon, sin_lat],
    ]


# ---- linalg.rs


def dot(a, b):
    return a[0] * b[0] + a[1] * b[1] + a[2] * b[2]


def cholesky(n, data):
    l = [0.0] * (n * n)
    for j in range(n):
        diagonal = data[j * n + j]
        for k in range(j):
            diagonal -= l[j * n + k] * l[j * n + k]
        if diagonal != diagonal or diagonal <= 0.0:
            return None
        root = math.sqrt(diagonal)
        l[j * n + j] = root
        for i in range(j + 1, n):
            value = data[i * n + j]
            for k in range(j):
                value -= l[i * n + k] * l[j * n + k]
            l[i * n + j] = value / root
    return l


def solve(n, l, b):
    y = [0.0] * n
    for i in range(n):
        value = b[i]
        for k in range(i):
            value -= l[i * n + k] * y[k]
        y[i] = value / l[i * n + i]
    x = [0.0] * n
    for i in reversed(range(n)):
        value = y[i]
        for k in range(i + 1, n):
            value -= l[k * n + i] * x[k]
        x[i] = value / l[i * n + i]
    return x


# ---- standing.rs and the merge's lib.rs

AGREE_CHI2 = 16.266
AGREE_CHI2_2D = 13.815_51


def agreement(smaller, larger):
    """Claims are (lat, lon, height or None, six numbers)."""
    basis = enu_basis(smaller[0], smaller[1])
    here = to_ecef(smaller[0], smaller[1], float(smaller[2] or 0) / 1000.0)
    there = to_ecef(larger[0], larger[1], float(larger[2] or 0) / 1000.0)
    difference = [there[at] - here[at] for at in range(3)]
    enu = [dot(row, difference) for row in basis]
    xx, xy, xz, yy, yz, zz = smaller[3]
    terms = [[xx, xy, xz], [xy, yy, yz], [xz, yz, zz]]
    three = smaller[2] is not None and larger[2] is not None
    n = 3 if three else 2
    factor = cholesky(n, [terms[row][column] for row in range(n) for column in range(n)])
    chi2 = INFINITY
    if factor is not None:
        solved = solve(n, factor, enu)
        chi2 = -0.0
        for at in range(n):
            chi2 = chi2 + enu[at] * solved[at]
    return (chi2 if math.isfinite(chi2) else INFINITY), (AGREE_CHI2 if three else AGREE_CHI2_2D)


def horizontal_sigma_m(c):
    mean = 0.5 * (c[0] + c[3])
    return math.sqrt(mean if mean > 0.0 else 0.0)


# ---- the program's inputs


SOURCE = open(os.path.join(HERE, "src", "main.rt")).read()
NAMED = dict(re.findall(r"^const ([A-Z_]+): u64 = (\w+);$", SOURCE, re.M))


def body(name):
    """The text of a function of the program."""
    start = SOURCE[SOURCE.index("fn %s(" % name) :]
    return start[: start.index("\n}\n")]


def numbers(text):
    """The numbers in a text, some of which have names; or in a function, where the text only calls it."""
    called = re.fullmatch(r"(\w+)\(\)", text)
    words = re.findall(r"-?\b(?:0x[0-9a-f_]+|\d[\d_]*|[A-Z][A-Z_]*)\b", body(called[1]) if called else text)
    return [int(NAMED.get(word, word).replace("_", ""), 0) for word in words]


def table(name):
    """The numbers of a function of the program that is one `match`, in order."""
    return [numbers(row) for row in re.findall(r"^ +(?:\d+|_) => (.*),$", body(name), re.M)]


def next_of(x):
    x ^= x << 13 & WORD - 1
    x ^= x >> 7
    x ^= x << 17 & WORD - 1
    return x


def digits(x):
    return "%016x" % to_bits(x)


def line(numbers, out):
    print(" ".join(digits(x) for x in numbers), file=out)


def outcome(chi2, limit):
    """Document 02, A.7: where the chi-square is infinite, nothing was measured, and there is no limit either."""
    return ["none", "none"] if chi2 == INFINITY else [digits(chi2), digits(limit)]


def pair(smaller, larger, out):
    chi2, limit = agreement(smaller, larger)
    agrees = 1.0 if chi2 <= limit else 0.0
    print(" ".join(outcome(chi2, limit) * 2 + [digits(agrees), digits(horizontal_sigma_m(smaller[3]))]), file=out)


def covariance(kind, x, pool):
    """Values of the table, any patterns, or such that make a positive definite matrix likely."""
    values = []
    for at in range(6):
        x = next_of(x)
        if kind == 0:
            values.append(of_bits(pool[x % len(pool)]))
        elif kind == 1:
            values.append(of_bits(x))
        elif at in (0, 3, 5):
            values.append(of_bits(0x4070_0000_0000_0000 + x % 2**52))
        else:
            values.append(of_bits((0xC030_0000_0000_0000 if x >> 63 else 0x4030_0000_0000_0000) + x % 2**52))
    return tuple(values)


def main():
    angles = [row[0] for row in table("angle")]
    heights = [row[0] for row in table("height")]
    pool = [row[0] for row in table("number")]
    named = [tuple(of_bits(b) for b in row) for row in table("named")]
    edges = [row[0] for row in table("variance")]
    with open(os.path.join(HERE, "stdout"), "w") as out:
        for x in (E7, DEGREE, A, F, E2, AGREE_CHI2, AGREE_CHI2_2D):
            line([x], out)
        for k in range(960, 1124):
            u = of_bits(k << 52)
            line([horner(u, 17), horner(u, 16)], out)
        for v in angles:
            line(sincos(v), out)
        for c in named:
            for larger in ((500_000_000, 100_000_000), (500_002_700, 100_000_000)):
                for height in (1_500, None):
                    pair((500_000_000, 100_000_000, height, c), (*larger, height, c), out)
        for i, v in enumerate(edges):
            x = of_bits(v)
            c = (x, 0.0, 0.0, x, 0.0, x)
            height = 1_500 if i < 3 else None
            larger = (500_002_701, 100_000_000) if i < 3 else (500_002_007, 100_001_033)
            pair((500_000_000, 100_000_000, height, c), (*larger, height, c), out)
        x = 0x9E37_79B9_7F4A_7C15
        for _ in range(400):
            x = next_of(x)
            lat, lon = x % 40, x // 64 % 40
            first = heights[x // 2**16 % 8] if x // 2**20 % 2 == 0 else None
            second = heights[x // 2**24 % 8] if x // 2**28 % 2 == 0 else None
            c = covariance(x // 2**32 % 5, x, pool)
            pair((angles[lat], angles[lon], first, c), (angles[lat + x // 2**12 % 3], angles[lon + x // 2**14 % 3], second, c), out)


if __name__ == "__main__":
    main()
