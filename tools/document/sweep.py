"""What is held of one piece over all grades and gaps: integral weights and distances; what the distances need, and halves."""
import random
from fractions import Fraction
from math import factorial

from document.coefficients import extreme, only, ordinary
from document.hold import hold
from document.knot import GAP_MAX, GRADE_MAX
from document.piece import Piece, UNIT_OF_WATER, case, integral, integral_weights, trend, trend_error, value, value_error


def hold_integral_weights():
    """Formulas (11) and (12) of 001 give the integral at every order; (9), which prints (j+1)! for (j+1), does not from order 2 on."""
    for m in range(GRADE_MAX + 1):
        for n in range(GRADE_MAX + 1):
            for j, weight in enumerate(integral_weights(m, n)):
                c = weight / UNIT_OF_WATER
                single = only(j, 1) + (0,) * (m - j)
                left = integral(Piece(1, single, (0,) * (n + 1)).blend(), 1)
                right = integral(Piece(1, (0,) * (n + 1), single).blend(), 1)
                hold(left == c, "formula (11) at", m, n, j)
                hold(right == (-1) ** j * c, "formula (12) at", n, m, j)
                printed = Fraction(factorial(m + 1) * factorial(m + n - j + 1), factorial(m + n + 2) * factorial(m - j) * factorial(j + 1))
                hold((printed == c) == (j < 2), "formula (9) at", m, n, j)


def hold_need_of_distances():
    """What lesser distances do not allow. At grades 0 and 0 a value is 14/15 below 65,536 × the blend or above it: m+n, which is
    0, does not do. There, with a gap of 3, twice a trend's distance is 2: 3(m+n)+h−2, which is 1, does not do. At grades 1 and
    1, with a gap of 4, m+n+h, which is 6, does not."""
    for error, piece in ((Fraction(14, 15), Piece(15, (8,), (7,))), (Fraction(-14, 15), Piece(15, (7,), (8,)))):
        hold(value_error(piece, 1, value(piece, 1)) == error, "the distance of the value at 1 of", piece)
    for twice, piece in ((2, Piece(3, (0,), (1,))), (Fraction(13, 2), Piece(4, (0, 2), (0, -1)))):
        hold(2 * abs(trend_error(piece, 1, trend(piece, 1))) == twice, "twice the distance of the trend at 1 of", piece)


def hold_halves():
    """A half goes up, above 0 and below: in the last scaling of a value at every gap, and, where no scaling rounds, in the
    division by h at every even one."""
    for sign in (1, -1):
        for h in range(1, GAP_MAX + 1):
            piece = Piece(h, (sign * 128 * h**3,), (0, 0, 0))
            hold(value_error(piece, piece.D - 1, value(piece, piece.D - 1)) == Fraction(-1, 2), "a half in the value of", piece)
        for h in range(2, GAP_MAX + 1, 2):
            piece = Piece(h, (0, 0, 0), (sign * h // 2,))
            hold(trend_error(piece, h, trend(piece, h)) == Fraction(-h, 2), "a half in the trend of", piece)


def hold_sweep():
    """All pairs of grades and all gaps, ends and interior, ordinary and extreme coefficients."""
    chance = random.Random(1)
    cases = 0
    for m in range(GRADE_MAX + 1):
        for n in range(GRADE_MAX + 1):
            for h in range(1, GAP_MAX + 1):
                for piece in (
                    Piece(h, ordinary(chance, m, h), ordinary(chance, n, h)),
                    Piece(h, extreme(chance, m, h), extreme(chance, n, h)),
                ):
                    for r in (0, chance.randint(1, piece.D - 1), piece.D):
                        case(piece, r)
                        cases += 1
    return cases
