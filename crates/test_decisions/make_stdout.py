#!/usr/bin/env python3
"""Writes the files stdin and stdout beside this one: lists of items, and what the program is to print of them.

The decision follows docs/REFERENCE.md, 'Agreement and decision', and standing.rs of sky-commons/tally: lists of disagreeing
subsets, the superseding pass, the contested pass, dominance, a sort by rank. The agreement follows geo.rs, linalg.rs and
standing.rs on Python's floats, which are IEEE 754's binary64, with the series for sine and cosine of the same section. Nothing is
taken from the proved crates."""
import math
import os
import random
import struct
import sys
from fractions import Fraction

HERE = os.path.dirname(os.path.abspath(__file__))
sys.path.insert(0, os.path.join(HERE, "..", "..", "oracle"))
import layouts  # noqa: E402
from layouts import ITEM, MAX_TAGS, MODEL_COUNT_AT, TAGS_AT, USED_AT  # noqa: E402

E7 = float("1e-7")
DEGREE = float(Fraction("3.14159265358979323846264338327950288419716939937510") / 180)
A = 6_378_137.0
F = 1.0 / 298.257_223_563
E2 = F * (2.0 - F)


def of_bits(b):
    return struct.unpack("<d", struct.pack("<Q", b))[0]


def to_bits(x):
    return 0x7FF8_0000_0000_0000 if x != x else struct.unpack("<Q", struct.pack("<d", x))[0]


def horner(u, top):
    total, sign = 1.0 / math.factorial(top), -1.0
    for n in range(top - 2, -1, -2):
        total = total * u
        total = total + sign * (1.0 / math.factorial(n))
        sign = -sign
    return total


def sincos(v):
    q = (v + 450_000_000) // 900_000_000
    r = v - 900_000_000 * q
    t = float(r) * E7 * DEGREE
    u = t * t
    s, c = horner(u, 17) * t, horner(u, 16)
    return [(s, c), (c, -s), (-s, -c), (-c, s)][q % 4]


def to_ecef(lat, lon, h):
    (sl, cl), (so, co) = sincos(lat), sincos(lon)
    n = A / math.sqrt(1.0 - E2 * sl * sl)
    return [(n + h) * cl * co, (n + h) * cl * so, (n * (1.0 - E2) + h) * sl]


def basis(lat, lon):
    (sl, cl), (so, co) = sincos(lat), sincos(lon)
    return [[-so, co, 0.0], [-sl * co, -sl * so, cl], [cl * co, cl * so, sl]]


def dot(a, b):
    return a[0] * b[0] + a[1] * b[1] + a[2] * b[2]


def root(x):
    return math.nan if x != x or x < 0.0 else math.sqrt(x)


def divide(a, b):
    if b != 0.0 or a != a or b != b:
        return a / b if b != 0.0 else math.nan
    if a == 0.0:
        return math.nan
    return math.copysign(math.inf, a) * math.copysign(1.0, b)


def cholesky(a, n):
    l = [[0.0] * n for _ in range(n)]
    for j in range(n):
        diagonal = a[j][j]
        for k in range(j):
            diagonal -= l[j][k] * l[j][k]
        if diagonal != diagonal or diagonal <= 0.0:
            return None
        l[j][j] = root(diagonal)
        for i in range(j + 1, n):
            value = a[i][j]
            for k in range(j):
                value -= l[i][k] * l[j][k]
            l[i][j] = divide(value, l[j][j])
    return l


def solve(l, b, n):
    y = [0.0] * n
    for i in range(n):
        value = b[i]
        for k in range(i):
            value -= l[i][k] * y[k]
        y[i] = divide(value, l[i][i])
    x = [0.0] * n
    for i in reversed(range(n)):
        value = y[i]
        for k in range(i + 1, n):
            value -= l[k][i] * x[k]
        x[i] = divide(value, l[i][i])
    return x


def agreement(smaller, larger):
    three = smaller["height"] is not None and larger["height"] is not None
    n = 3 if three else 2
    metres = lambda r: float(r["height"] or 0) / 1000.0
    here = to_ecef(smaller["lat"], smaller["lon"], metres(smaller))
    there = to_ecef(larger["lat"], larger["lon"], metres(larger))
    d = [there[k] - here[k] for k in range(3)]
    enu = [dot(b, d) for b in basis(smaller["lat"], smaller["lon"])]
    xx, xy, xz, yy, yz, zz = smaller["cov"]
    full = [[xx, xy, xz], [xy, yy, yz], [xz, yz, zz]]
    l = cholesky([row[:n] for row in full[:n]], n)
    chi2 = math.inf
    if l is not None:
        x = solve(l, enu[:n], n)
        chi2 = enu[0] * x[0]
        for k in range(1, n):
            chi2 += enu[k] * x[k]
        if not math.isfinite(chi2):
            chi2 = math.inf
    return chi2, chi2 <= (16.266 if three else 13.815_51)


def encode(r):
    used = sum(1 << k for k, t in enumerate(r["tags"]) if t in r["used"])
    fields = ("time", "lat", "lon", "height", "message")
    return layouts.record(r["tags"], used=used, covariance=r["cov"], **{name: r[name] for name in fields})


def item_bytes(i):
    return encode(i["record"]) + i["inputs"] + i["identity"] + struct.pack("<QBBB", i["standing"], i["consistent"], i["preferred"], i["verified"])


def subset(a, b):
    return a["message"] == b["message"] and set(a["tags"]) < set(b["tags"])


def decide(items):
    if len(items) > 96 or len({i["identity"] for i in items}) < len(items):
        return None
    found = []
    for at, larger in enumerate(items):
        rows = []
        for other, smaller in enumerate(items):
            if other != at and smaller["consistent"] and subset(smaller["record"], larger["record"]):
                chi2, agrees = agreement(smaller["record"], larger["record"])
                if not agrees:
                    rows.append((other, chi2))
        found.append(rows)
    supersedes = [
        bool(rows) and all(items[at]["standing"] > items[k]["standing"] for k, _ in rows) and items[at]["verified"] == 1
        for at, rows in enumerate(found)
    ]
    refusals = {}
    for at, rows in enumerate(found):
        if supersedes[at]:
            for smaller, chi2 in rows:
                if smaller not in refusals or items[at]["identity"] < items[refusals[smaller][0]]["identity"]:
                    refusals[smaller] = (at, chi2, True)
    superseded = set(refusals)
    for at, rows in enumerate(found):
        if supersedes[at] or at in superseded:
            continue
        left = [row for row in rows if row[0] not in superseded]
        if left:
            kept, chi2 = min(left, key=lambda row: items[row[0]]["identity"])
            refusals[at] = (kept, chi2, False)
    standing = [at for at in range(len(items)) if at not in refusals]
    dominated, ranked = [], []
    for at in standing:
        over = any(
            k != at and items[k]["inputs"] == items[at]["inputs"] and subset(items[at]["record"], items[k]["record"]) for k in standing
        )
        (dominated if over else ranked).append(at)
    ranked.sort(key=lambda at: (not items[at]["preferred"], -items[at]["standing"], -len(items[at]["record"]["used"]), items[at]["identity"]))
    return ranked, dominated, dict(sorted(refusals.items()))


def in_any_order(items):
    """What is decided of the items in ascending identity, with their places in the order given."""
    order = sorted(range(len(items)), key=lambda at: items[at]["identity"])
    answer = decide([items[at] for at in order])
    if answer is None:
        return None
    ranked, dominated, refusals = answer
    back = lambda places: [order[at] for at in places]
    return back(ranked), back(dominated), {order[at]: (order[kept], chi2, taken) for at, (kept, chi2, taken) in sorted(refusals.items())}


def measured(chi2):
    """Document 02, A.7: no number where the chi-square is infinite."""
    return "none" if chi2 == math.inf else "%016x" % to_bits(chi2)


def show(answer):
    if answer is None:
        return "answer 8 ranked dominated refused\n"
    ranked, dominated, refusals = answer
    out = "answer 0 ranked" + "".join(" %d" % i for i in ranked) + " dominated" + "".join(" %d" % i for i in dominated) + " refused"
    for at in refusals:
        kept, chi2, taken = refusals[at]
        out += " %s %d %d %s" % ("superseded" if taken else "contested", at, kept, measured(chi2))
    return out + "\n"


def show_verdict(a, b):
    chi2, agrees = agreement(a, b)
    if agrees:
        return "agrees added\n"
    return "contested %s added" % measured(chi2) + "".join(" %d" % t for t in b["tags"] if t not in a["tags"]) + "\n"


def rec(tags, lat, cov=100.0, height=1500, message=b"\x8d" + bytes(6), used=None):
    return dict(time=1000, lat=lat, lon=0, height=height, message=message, tags=sorted(tags), used=set(tags if used is None else used), cov=[cov, 0.0, 0.0, cov, 0.0, cov])


def item(record, identity, standing=0, consistent=1, preferred=0, verified=0, inputs=0):
    return dict(record=record, identity=bytes([identity]) + bytes(31), standing=standing, consistent=consistent, preferred=preferred, verified=verified, inputs=bytes([inputs]) * 32)


def named():
    s, m, l = rec([1], 0), rec([1, 2], 2700), rec([1, 2, 3], 5400)
    yield []
    yield [item(s, 1), item(m, 2), item(l, 3)]
    yield [item(l, 3), item(m, 2), item(s, 1)]
    yield [item(s, 1), item(m, 2), item(l, 3, verified=1, standing=1)]
    yield [item(s, 1, standing=1), item(m, 2), item(l, 3, verified=1, standing=1)]
    yield [item(s, 1), item(m, 2), item(l, 3, verified=2, standing=9)]
    yield [item(s, 1, consistent=0), item(m, 2), item(l, 3)]
    yield [item(s, 1, inputs=1), item(m, 2), item(l, 3)]
    yield [item(s, 7), item(m, 7)]
    yield [item(s, 1, preferred=1), item(rec([2], 0), 2, standing=5), item(rec([3, 4], 0), 3, standing=5), item(rec([5], 0), 0, standing=2**64 - 1)]
    zero = [rec([1], 0, 0.0), rec([1, 2], 0, 0.0), rec([1, 2, 3], 0, 0.0)]
    yield [item(zero[0], 2), item(zero[1], 1), item(zero[2], 3)]
    yield [item(zero[0], 2), item(zero[1], 1, standing=1, verified=1), item(zero[2], 3, standing=2, verified=1)]
    yield [item(rec([1], 0, height=None), 1), item(rec([1, 2], 2600, height=None), 2), item(rec([1, 2, 3], 5400), 3)]
    yield [item(rec([k % 16 + 1], 0), k) for k in range(96)]
    yield [item(rec([k % 16 + 1], 0), k) for k in range(97)]
    yield [item(rec(range(1, k // 6 + 2), 700 * (k // 6)), k, standing=k * 7 % 5, verified=k % 3) for k in range(96)]
    yield [item(rec(range(1, k + 2), 300 * k), k) for k in range(MAX_TAGS)]


def randoms():
    dice = random.Random(3)
    for _ in range(40):
        n = dice.randrange(2, 13)
        ids = dice.sample(range(256), n)
        yield [
            item(
                rec(
                    dice.sample(range(1, 6), dice.randrange(1, 6)),
                    dice.choice([0, 0, 2700, 5400, 8000, -2700]),
                    dice.choice([100.0, 100.0, 100.0, 0.0, 25.0]),
                    dice.choice([1500, 1500, None, 41500]),
                    dice.choice([b"\x8d" + bytes(6)] * 4 + [bytes(range(14))]),
                ),
                ids[k],
                dice.randrange(4),
                dice.choice([1, 1, 1, 0, 200]),
                dice.choice([0, 0, 0, 1]),
                dice.choice([0, 1, 1, 2, 77]),
                dice.choice([0, 0, 1]),
            )
            for k in range(n)
        ]


def by_identity(items, answer):
    """The answer with each place replaced by the identity of the item there."""
    ranked, dominated, refusals = answer
    name = lambda at: items[at]["identity"][0]
    return [name(at) for at in ranked], [name(at) for at in dominated], [(name(at), name(kept), *rest) for at, (kept, *rest) in refusals.items()]


def reordered():
    """Some of the random lists in other orders. In ascending identity each order has one answer, by the identities of its items."""
    for items in list(randoms())[:12]:
        answer = by_identity(items, in_any_order(items))
        for other in (items[::-1], items[1:] + items[:1]):
            assert by_identity(other, in_any_order(other)) == answer
            yield other


def broken(items):
    """Lists that hold a malformed item: a byte short, a byte more, a flag of 2, a tag repeated, a mask bit too many."""
    whole = b"".join(item_bytes(i) for i in items)
    yield whole[:-1]
    yield whole + b"\0"
    for at, value in ((16, 2), (21, 8), (36, 0), (36, MAX_TAGS + 1), (USED_AT, 255), (USED_AT + 3, 1), (MODEL_COUNT_AT, 5), (ITEM + TAGS_AT + 8, 1)):
        yield whole[:at] + bytes([value]) + whole[at + 1 :]


def main():
    stdin, stdout = b"", ""
    for items in list(named()) + list(randoms()) + list(reordered()):
        data = b"".join(item_bytes(i) for i in items)
        stdin += struct.pack("<H", len(data)) + data
        stdout += show(decide(items)) + show(in_any_order(items))
        stdout += show_verdict(items[0]["record"], items[1]["record"]) if len(items) > 1 else "malformed added\n"
    for data in broken([item(rec([1], 0), 1), item(rec([1, 2], 0), 2)]):
        stdin += struct.pack("<H", len(data)) + data
        whole = data[ITEM + TAGS_AT + 8] == 2 and len(data) > ITEM and all(data[k] == v for k, v in ((16, 1), (21, 7), (36, 1), (USED_AT, 1), (USED_AT + 3, 0), (MODEL_COUNT_AT, 0)))
        stdout += show(None) + show(None) + ("agrees added\n" if whole else "malformed added\n")
    with open(os.path.join(HERE, "stdin"), "wb") as out:
        out.write(stdin)
    with open(os.path.join(HERE, "stdout"), "w") as out:
        out.write(stdout)


if __name__ == "__main__":
    main()
