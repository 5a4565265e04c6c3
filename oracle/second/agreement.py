"""Agreement, chi-square, sine and cosine, the square root and the horizontal deviation: docs/REFERENCE.md, 'Agreement' and 'Chi-square'.

Python's floats are binary64, each operation is rounded to nearest, ties to even, and none are fused; `*`, `+` and `-` overflow to
infinities without an exception. `/` raises where the divisor is zero: every divisor here is a constant, or the root of a number above
zero, and so is above zero itself."""
from __future__ import annotations

import math
from dataclasses import dataclass
from enum import IntEnum
from typing import Sequence

Vector = Sequence[float]

LIMIT_WITH_HEIGHTS = 16.266
LIMIT_WITHOUT = 13.81551

EQUATOR = 6_378_137.0
FLATTENING = 1.0 / 298.257223563
ECCENTRICITY = FLATTENING * (2.0 - FLATTENING)
"""E2 of the page: the square of the ellipsoid's first eccentricity."""

QUADRANT = 900_000_000
RADIANS_IN_A_DEGREE = float("0.01745329251994329576923690768488612713")
SINE_SERIES = tuple((-1.0) ** (k // 2) / math.factorial(k) for k in range(17, 0, -2))
COSINE_SERIES = tuple((-1.0) ** (k // 2) / math.factorial(k) for k in range(16, -1, -2))


@dataclass(frozen=True)
class Claim:
    """What a fix states of its place: 1e-7 degree, millimetres or none, and xx, xy, xz, yy, yz, zz."""

    lat: int
    lon: int
    height: int | None
    covariance: tuple[float, ...]


class Outcome(IntEnum):
    """The three outcomes, by their numbers."""

    INSIDE = 0
    OUTSIDE = 1
    UNMEASURABLE = 2


@dataclass(frozen=True)
class Agreement:
    """An outcome, with the chi-square and its limit unless it is unmeasurable."""

    outcome: Outcome
    chi_square: float | None = None
    limit: float | None = None


def agreement(smaller: Claim, larger: Claim) -> Agreement:
    """Whether the two agree."""
    with_heights = smaller.height is not None and larger.height is not None
    chi_square = chi_square_of(smaller, larger, rows=3 if with_heights else 2)
    if chi_square is None:
        return Agreement(Outcome.UNMEASURABLE)
    limit = LIMIT_WITH_HEIGHTS if with_heights else LIMIT_WITHOUT
    return Agreement(Outcome.INSIDE if chi_square <= limit else Outcome.OUTSIDE, chi_square, limit)


def chi_square_of(smaller: Claim, larger: Claim, rows: int) -> float | None:
    """The chi-square of the larger one's position under the smaller one's covariance, or none."""
    factor = cholesky(matrix_of(smaller.covariance), rows)
    if factor is None:
        return None
    difference = difference_of(smaller, larger)[:rows]
    total = sum_of_products(difference, solve_back(factor, solve_forth(factor, difference)))
    return total if math.isfinite(total) else None


def matrix_of(covariance: Vector) -> tuple[Vector, Vector, Vector]:
    """The symmetric matrix, in rows east, north and up."""
    xx, xy, xz, yy, yz, zz = covariance
    return (xx, xy, xz), (xy, yy, yz), (xz, yz, zz)


def difference_of(smaller: Claim, larger: Claim) -> Vector:
    """Step 2: where the larger one is, seen from the smaller one: east, north and up."""
    step = [there - here for there, here in zip(cartesian(larger), cartesian(smaller))]
    sin_lat, cos_lat = sine_and_cosine(smaller.lat)
    sin_lon, cos_lon = sine_and_cosine(smaller.lon)
    east = (-sin_lon, cos_lon, 0.0)
    north = (-sin_lat * cos_lon, -sin_lat * sin_lon, cos_lat)
    up = (cos_lat * cos_lon, cos_lat * sin_lon, sin_lat)
    return [sum_of_products(axis, step) for axis in (east, north, up)]


def cartesian(claim: Claim) -> Vector:
    """Step 1: the coordinates on the WGS 84 ellipsoid, in metres."""
    sin_lat, cos_lat = sine_and_cosine(claim.lat)
    sin_lon, cos_lon = sine_and_cosine(claim.lon)
    height = 0.0 if claim.height is None else claim.height / 1000.0
    normal = EQUATOR / root(1.0 - ECCENTRICITY * sin_lat * sin_lat)
    return (
        (normal + height) * cos_lat * cos_lon,
        (normal + height) * cos_lat * sin_lon,
        (normal * (1.0 - ECCENTRICITY) + height) * sin_lat,
    )


def cholesky(matrix: Sequence[Vector], rows: int) -> list[list[float]] | None:
    """Step 3: the lower triangle of the factor, made column by column, or none."""
    factor = [[0.0] * rows for _ in range(rows)]
    for j in range(rows):
        pivot = less_products(matrix[j][j], factor[j][:j], factor[j][:j])
        if not pivot > 0.0:
            return None
        factor[j][j] = root(pivot)
        for i in range(j + 1, rows):
            factor[i][j] = less_products(matrix[i][j], factor[i][:j], factor[j][:j]) / factor[j][j]
    return factor


def solve_forth(factor: Sequence[Vector], difference: Vector) -> Vector:
    """Step 4, the first solution: y, from the first row on."""
    y: list[float] = []
    for i, row in enumerate(factor):
        y.append(less_products(difference[i], row[:i], y) / row[i])
    return y


def solve_back(factor: Sequence[Vector], y: Vector) -> Vector:
    """Step 4, the second solution: x, from the last row back; in each row the products are subtracted from the next row on."""
    rows = len(factor)
    x = [0.0] * rows
    for i in reversed(range(rows)):
        below = range(i + 1, rows)
        x[i] = less_products(y[i], [factor[k][i] for k in below], [x[k] for k in below]) / factor[i][i]
    return x


def less_products(start: float, left: Vector, right: Vector) -> float:
    """The start, less one product after another."""
    for one, other in zip(left, right):
        start -= one * other
    return start


def sum_of_products(left: Vector, right: Vector) -> float:
    """The sum of the products, from the first on."""
    total = left[0] * right[0]
    for one, other in zip(left[1:], right[1:]):
        total += one * other
    return total


def sine_and_cosine(angle: int) -> tuple[float, float]:
    """The sine and the cosine of an angle in 1e-7 degree."""
    quadrant = (angle + QUADRANT // 2) // QUADRANT
    t = float(angle - QUADRANT * quadrant) * 1e-7 * RADIANS_IN_A_DEGREE
    u = t * t
    s, c = series(SINE_SERIES, u) * t, series(COSINE_SERIES, u)
    return ((s, c), (c, -s), (-s, -c), (-c, s))[quadrant % 4]


def series(coefficients: Vector, u: float) -> float:
    """The polynomial in u, from its highest coefficient down."""
    total = coefficients[0]
    for coefficient in coefficients[1:]:
        total = total * u + coefficient
    return total


def root(x: float) -> float:
    """The square root of IEEE 754; of a negative number and of each NaN the NaN 7ff8000000000000."""
    return math.nan if math.isnan(x) or x < 0.0 else math.sqrt(x)


def horizontal_deviation(covariance: Vector) -> float:
    """The root of half the sum of xx and yy, or +0 where that half is not above zero."""
    half = (covariance[0] + covariance[3]) / 2.0
    return root(half) if half > 0.0 else 0.0
