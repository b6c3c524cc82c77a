"""Knots as pairs of a position and coefficients: the limits, refusals, the size rule with the spot where it is broken,
and what may follow a list of knots."""
from typing import NamedTuple

KNOTS_MAX = 129
POSITION_MAX = 65_535
GRADE_MAX = 7
GAP_MAX = 16
SIZE_MAX = 268_435_456


class TooLarge(NamedTuple):
    """A refusal with 6, by its spot: the knot, the order j and the gap that broke the size rule (request 6/14)."""

    knot: int
    order: int
    gap: int


class Refused(Exception):
    """A block is refused, with this number of the refusal table; of a 6 with its spot instead."""


def number_of(refusal):
    """In the refusal table."""
    return 6 if isinstance(refusal, TooLarge) else refusal


def refuse(refusal, condition):
    if condition:
        raise Refused(refusal)


def orders_too_large(coefficients, h):
    """The orders j, rising, whose product |C_j| × h^j exceeds the limit."""
    return [j for j, c in enumerate(coefficients) if abs(c) * h**j > SIZE_MAX]


def keeps_size_rule(coefficients, gaps):
    return not any(orders_too_large(coefficients, h) for h in gaps)


def first_too_large(tested):
    """6 or None, of coefficients that are tested in this sequence, those of a knot k with a gap h, orders rising."""
    spots = (TooLarge(k, j, h) for k, coefficients, h in tested for j in orders_too_large(coefficients, h))
    return next(spots, None)


def misplaced(knots, position):
    """4, of a knot after these."""
    return position > POSITION_MAX or (knots and position <= knots[-1][0])


def too_far(knots, position):
    """5, where 4 does not hold."""
    return knots and position - knots[-1][0] > GAP_MAX


def oversized(knots, position, coefficients):
    """6 or None, where 4 and 5 do not hold: the last held knot with the new gap, then the new one, alone with h = 1."""
    new = len(knots)
    if not knots:
        return first_too_large([(new, coefficients, 1)])
    last, held = knots[-1]
    h = position - last
    return first_too_large([(new - 1, held, h), (new, coefficients, h)])
