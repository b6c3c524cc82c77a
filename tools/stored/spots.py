"""Coefficients past the size rule's limits, and knots with them (request 6/14)."""
from itertools import product

from document.coefficients import FLAT, greatest, only
from document.knot import GAP_MAX, GRADE_MAX, TooLarge
from stored.sums import limit_at, shares


def at_limits(h, past=(), sign=1):
    """At the size rule's limits at a gap of h, with signs that alternate; at the orders `past` one past them."""
    return tuple(c + (1 if c > 0 else -1) * (j in past) for j, c in enumerate(greatest(GRADE_MAX, h, sign, -1)))


def past_two_limits(i, h, j, gap):
    """C_i one past the limit at a gap of h, and C_j, of the other sign, one past that at another gap; else 0."""
    past = {i: limit_at(h, i) + 1, j: -limit_at(gap, j) - 1}
    return tuple(past.get(order, 0) for order in range(max(past) + 1))


def flat_before(number, position, gap=1):
    """So many flat knots before this position, with this gap between all of them and behind the last."""
    return [(position - gap * k, FLAT) for k in range(number, 0, -1)]


# The order at which each of four knots is too large, and a gap that no reel has.
ORDERS_OF_FOUR = (3, 5, 1, 6)
NO_GAP = GAP_MAX + 1


def four_knots(gaps):
    """All ways to lay four knots with these gaps, each too large from one of the gaps on that it is tested with, or at
    none of them, but not all at none: the first spot, and the knots."""
    tested = [(0, 1), *((knot, h) for k, h in enumerate(gaps, 1) for knot in (k - 1, k))]
    choices = [sorted({NO_GAP, *(h for knot, h in tested if knot == k)}) for k in range(4)]
    for least in product(*choices):
        spots = [TooLarge(k, ORDERS_OF_FOUR[k], h) for k, h in tested if h >= least[k]]
        lists = [only(j, limit_at(h, j) + 1) for j, h in zip(ORDERS_OF_FOUR, least)]
        if spots:
            yield spots[0], [(100 + sum(gaps[:k]), coefficients) for k, coefficients in enumerate(lists)]


def in_shares(alpha, beta, knots):
    """The knots of two reels whose sum has these, where α is −1 or 1."""
    pairs = [(position, [shares(alpha, beta, c) for c in coefficients]) for position, coefficients in knots]
    return [[(position, tuple(pair[which] for pair in of_knot)) for position, of_knot in pairs] for which in range(2)]
