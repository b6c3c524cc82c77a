"""One piece: its blend multiplied out, its value, trend and total by the rounding steps, and what demand 3 says of them."""
from dataclasses import dataclass
from fractions import Fraction
from functools import cache
from math import comb, floor

from document.hold import hold

UNIT_OF_VALUE = 65_536
UNIT_OF_WATER = 720_720
UNIT_OF_POSITION = 256


# ---- polynomials in s: whole coefficients, lowest power first


def add(a, b):
    if len(a) < len(b):
        a, b = b, a
    return [x + (b[i] if i < len(b) else 0) for i, x in enumerate(a)]


def times(a, b):
    product = [0] * (len(a) + len(b) - 1)
    for i, x in enumerate(a):
        for j, y in enumerate(b):
            product[i + j] += x * y
    return product


def power(a, k):
    return times(a, power(a, k - 1)) if k else [1]


def at(a, s):
    return sum(x * s**i for i, x in enumerate(a))


def derivative(a):
    return [(i + 1) * x for i, x in enumerate(a[1:])]


def integral(a, h):
    """Over x from 0 to h, where s = x/h: each a_i × (x/h)^i integrated."""
    return sum(Fraction(c, h**i) * Fraction(h ** (i + 1), i + 1) for i, c in enumerate(a))


@cache
def term(i, k):
    """s^i × (1−s)^k, multiplied out."""
    return times(power([0, 1], i), power([1, -1], k))


# ---- one piece


@dataclass(frozen=True)
class Piece:
    """Of h steps, with the coefficients C_0, C_1, .. of the knots at its ends."""

    h: int
    left: tuple
    right: tuple

    @property
    def m(self):
        return len(self.left) - 1

    @property
    def n(self):
        return len(self.right) - 1

    @property
    def D(self):
        return UNIT_OF_POSITION * self.h

    def left_weights(self):
        """p_j = C_j × h^j of the left knot."""
        return [c * self.h**j for j, c in enumerate(self.left)]

    def right_weights(self):
        """(−1)^j × q_j, where q_j = C_j × h^j of the right knot."""
        return [(-1) ** j * c * self.h**j for j, c in enumerate(self.right)]

    @cache
    def blend(self):
        """Formula (1) of source document 000, multiplied out."""
        m, n = self.m, self.n
        a = []
        for j, w in enumerate(self.left_weights()):
            for i in range(m - j + 1):
                a = add(a, [comb(n + i, i) * w * x for x in term(i + j, n + 1)])
        for j, w in enumerate(self.right_weights()):
            for i in range(n - j + 1):
                a = add(a, [comb(m + i, i) * w * x for x in term(m + 1, i + j)])
        return a


# ---- the rounding steps


def nearest(x):
    """The whole number nearest to x, halves up, also below 0 (request 5/14). Scaling and the division by h are rounded so."""
    return floor(x + Fraction(1, 2))


def scaled(u, a, D, rounded):
    """u scaled by a/D."""
    return rounded(Fraction(u * a, D))


def half_sum(n, a, D, w, rounded):
    """Of grade m = len(w) − 1 against n, with fraction a/D; of grade −1 it is 0."""
    m = len(w) - 1
    if m < 0:
        return 0
    g = [sum(comb(n + i - j, i - j) * w[j] for j in range(i + 1)) for i in range(m + 1)]
    u = UNIT_OF_VALUE * g[m]
    for i in range(m - 1, -1, -1):
        u = scaled(u, a, D, rounded) + UNIT_OF_VALUE * g[i]
    for _ in range(n + 1):
        u = scaled(u, D - a, D, rounded)
    return u


@cache
def value(piece, r, rounded=nearest):
    m, n, D = piece.m, piece.n, piece.D
    return half_sum(n, r, D, piece.left_weights(), rounded) + half_sum(m, D - r, D, piece.right_weights(), rounded)


@cache
def trend(piece, r, rounded=nearest):
    m, n, D = piece.m, piece.n, piece.D
    left, right = piece.left_weights(), piece.right_weights()

    def primed(w):
        return [(j + 1) * w[j + 1] for j in range(len(w) - 1)]

    y1 = half_sum(n, r, D, primed(left), rounded)
    y2 = half_sum(m, D - r, D, primed(right), rounded)
    k = sum(right[j] * (m + n - j + 1) * comb(m + n - j, n - j) for j in range(n + 1))
    k -= sum(left[j] * (m + n - j + 1) * comb(m + n - j, m - j) for j in range(m + 1))
    y3 = UNIT_OF_VALUE * k
    for _ in range(m):
        y3 = scaled(y3, r, D, rounded)
    for _ in range(n):
        y3 = scaled(y3, D - r, D, rounded)
    return rounded(Fraction(y1 - y2 + y3, piece.h))


@cache
def total(piece):
    """In 1/720,720 of a count × step: the exact integral over the piece, a whole number."""
    water = UNIT_OF_WATER * integral(piece.blend(), piece.h)
    hold(water.denominator == 1, "a total is not whole:", piece)
    return int(water)


# ---- what demand 3 says of one piece


@cache
def hold_ends(piece):
    """The Taylor coefficients of the blend at both ends are the knots' own C_j × h^j."""
    a = piece.blend()
    hold(len(a) == piece.m + piece.n + 2, "the blend has not m+n+2 coefficients:", piece)
    for j, c in enumerate(piece.left):
        hold(a[j] == c * piece.h**j, "left Taylor coefficient", j, piece)
    for j, c in enumerate(piece.right):
        hold(sum(comb(i, j) * x for i, x in enumerate(a)) == c * piece.h**j, "right Taylor coefficient", j, piece)


@cache
def integral_weights(m, n):
    """c_0 to c_m of Water, by the recurrence."""
    c = [Fraction(UNIT_OF_WATER * (m + 1), m + n + 2)]
    for j in range(1, m + 1):
        c.append(c[-1] * Fraction(j * (m - j + 1), (j + 1) * (m + n + 2 - j)))
    return c


@cache
def hold_total(piece):
    """The total is h × the sum of a_i × 720,720/(i+1), each division without rest, and h × the weights by the integral weights."""
    for i in range(len(piece.blend())):
        hold(UNIT_OF_WATER % (i + 1) == 0, i + 1, "does not divide", UNIT_OF_WATER)
    parts = sum(a * (UNIT_OF_WATER // (i + 1)) for i, a in enumerate(piece.blend()))
    hold(total(piece) == piece.h * parts, "total of", piece)
    left = sum(c * p for c, p in zip(integral_weights(piece.m, piece.n), piece.left_weights()))
    right = sum(c * q for c, q in zip(integral_weights(piece.n, piece.m), piece.right_weights()))
    hold(total(piece) == piece.h * (left + right), "integral weights of", piece)


def value_error(piece, r, v):
    return UNIT_OF_VALUE * at(piece.blend(), Fraction(r, piece.D)) - v


def trend_error(piece, r, z):
    return UNIT_OF_VALUE * at(derivative(piece.blend()), Fraction(r, piece.D)) - piece.h * z


def value_distance(m, n):
    """How far a value may lie from 65,536 × the exact blend, either way (request 5/14)."""
    return m + n + 1


@cache
def hold_distances(piece, r):
    """Those of value and trend, either way; of the trend, twice the distance is at most 3(m+n)+h (request 5/14)."""
    m, n, h = piece.m, piece.n, piece.h
    hold(abs(value_error(piece, r, value(piece, r))) <= value_distance(m, n), "distance of the value at", r, piece)
    hold(2 * abs(trend_error(piece, r, trend(piece, r))) <= 3 * (m + n) + h, "distance of the trend at", r, piece)


def case(piece, r):
    """Value and trend at distance r, and the total, with all that demand 3 says of them held."""
    hold_ends(piece)
    hold_total(piece)
    hold_distances(piece, r)
    return {"value": value(piece, r), "trend": trend(piece, r), "total": total(piece)}
