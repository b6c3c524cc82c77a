"""The call same (request 7/14), and what the request says of it."""
import random

from document.block import block_of
from document.coefficients import ordinary
from document.hold import hold
from document.knot import GAP_MAX, GRADE_MAX
from document.reel import Reel


def agree(knot, other):
    """Positions, grades and all coefficients."""
    (position, coefficients), (its_position, its_coefficients) = knot, other
    grades = len(coefficients) == len(its_coefficients)
    return position == its_position and grades and all(a == b for a, b in zip(coefficients, its_coefficients))


def same_moistures(reel, other):
    """What Same was before the request: counts, positions and every C_0."""
    return [(position, c[0]) for position, c in reel.knots] == [(position, c[0]) for position, c in other.knots]


def same(reel, other):
    """Yes exactly when knot counts, positions, grades and all coefficients agree: that is when the written bytes agree, and
    it is a yes under the old meaning too."""
    yes = len(reel.knots) == len(other.knots) and all(agree(*pair) for pair in zip(reel.knots, other.knots))
    hold(yes == (block_of(reel.knots) == block_of(other.knots)), "same and the bytes of", reel.knots, other.knots)
    hold(same_moistures(reel, other) or not yes, "a yes of same is none under the old meaning:", reel.knots, other.knots)
    return yes


def others_of(knots, k):
    """The knots with one thing changed at knot k: its position or a coefficient by 1, its grade by a 0 more or a coefficient
    less, the count by this knot."""
    position, c = knots[k]
    changed = [(position + by, c) for by in (-1, 1)]
    changed += [(position, c[:j] + (c[j] + by,) + c[j + 1 :]) for j in range(len(c)) for by in (-1, 1)]
    changed += [(position, c + (0,))] if len(c) <= GRADE_MAX else []
    changed += [(position, c[:-1])] if len(c) > 1 else []
    return [knots[:k] + [knot] + knots[k + 1 :] for knot in changed] + [knots[:k] + knots[k + 1 :]]


def hold_sames():
    """All pairs of grades: reels of three knots with themselves, yes, and with others that differ in one thing, no. Where it
    is a grade, or a coefficient other than C_0, and only there, the old meaning says yes. It returns the number of pairs,
    and how many of them have this yes."""
    chance = random.Random(14)
    pairs, once_same, not_in_C_0 = 0, 0, 0
    for m in range(GRADE_MAX + 1):
        for n in range(GRADE_MAX + 1):
            knots = [(position, ordinary(chance, grade, GAP_MAX)) for position, grade in ((2, m), (5, n), (10, m))]
            reel = Reel(knots)
            hold(same(reel, Reel(list(knots))), "not the same as itself:", knots)
            not_in_C_0 += sum(2 * (len(c) - 1) + (len(c) <= GRADE_MAX) + (len(c) > 1) for _, c in knots)
            for others in (others for k in range(3) for others in others_of(knots, k)):
                other = Reel(others)
                hold(not same(reel, other) and not same(other, reel), "the same:", knots, others)
                once_same += same_moistures(reel, other)
                pairs += 1
    hold(once_same == not_in_C_0, "the old meaning says yes", once_same, "times, and not", not_in_C_0)
    return pairs, once_same
