"""Request 5/14's lean: the mean errors of values and trends, with every rounding down, as before it, and to nearest."""
import random
from fractions import Fraction
from itertools import product
from math import floor

from document.coefficients import ordinary
from document.hold import hold
from document.knot import GAP_MAX, GRADE_MAX
from document.piece import Piece, nearest, trend, trend_error, value, value_error

GAPS = range(1, GAP_MAX + 1)


def error_of_value(piece, r, rounded):
    return value_error(piece, r, value(piece, r, rounded))


def error_of_trend(piece, r, rounded):
    return trend_error(piece, r, trend(piece, r, rounded))


# What is averaged, at which gaps, and the bound on the size of the mean to nearest. A division by an even h is a half about once
# in h times, and halves go up by h/2 in h × z: over all divisions h × z is then 1/2 too much.
AVERAGED = (
    ("values", error_of_value, GAPS, Fraction(1, 20)),
    ("trends, odd gaps", error_of_trend, GAPS[::2], Fraction(1, 10)),
    ("trends, even gaps", error_of_trend, GAPS[1::2], Fraction(1, 2) + Fraction(1, 10)),
)

# What every mean with rounding down is above.
LEAN = Fraction(2, 5)


def places_by_chance(chance, pairs_of_grades, number):
    """So many for each pair of grades and each gap: a piece with ordinary coefficients, and r."""
    for (m, n), h, _ in product(pairs_of_grades, GAPS, range(number)):
        piece = Piece(h, ordinary(chance, m, h), ordinary(chance, n, h))
        yield piece, chance.randint(0, piece.D)


def averaged_places():
    """By name: those of all pairs of grades, of the least and of the greatest."""
    chance = random.Random(16)
    grades = range(GRADE_MAX + 1)
    yield "all pairs of grades", [*places_by_chance(chance, [*product(grades, grades)], 40)]
    for grade in (0, GRADE_MAX):
        yield f"grades {grade} and {grade}", [*places_by_chance(chance, [(grade, grade)], 320)]


def mean_errors():
    """For each of these places and of what is averaged there: both names, how many, and the means, down and to nearest."""
    for where, places in averaged_places():
        for what, error, gaps, most in AVERAGED:
            asked = [(piece, r) for piece, r in places if piece.h in gaps]
            down, near = (sum(error(piece, r, rounded) for piece, r in asked) / len(asked) for rounded in (floor, nearest))
            hold(down > LEAN, "rounded down,", what, "at", where, "have the mean error", float(down))
            hold(abs(near) < most, "rounded to nearest,", what, "at", where, "have the mean error", float(near))
            yield where, what, len(asked), down, near
