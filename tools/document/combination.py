"""Sum and difference of reels (request 4/14): the call, and what the request says of blends and totals, and 5/14 of values."""
import random
from functools import cache

from document.coefficients import extreme, ordinary
from document.hold import hold
from document.knot import GAP_MAX, GRADE_MAX, keeps_size_rule, number_of
from document.piece import UNIT_OF_POSITION, value, value_distance
from document.reel import Reel

MULTIPLIER_MAX = 16


# ---- the call


def alike(reel, other):
    """The same positions and grades, and so as many knots."""
    return [(position, len(c)) for position, c in reel.knots] == [(position, len(c)) for position, c in other.knots]


def sum_of_lists(alpha, beta, a, b):
    """The coefficients αA + βB of one knot."""
    return tuple(alpha * x + beta * y for x, y in zip(a, b, strict=True))


def knots_of_sum(alpha, beta, reel, other):
    """Of two like reels, whether the size rule takes them or not."""
    pairs = zip(reel.knots, other.knots, strict=True)
    return [(position, sum_of_lists(alpha, beta, a, b)) for (position, a), (_, b) in pairs]


def refusal_by_size(knots):
    """6 or 0: append's own test, knot by knot. No other of its causes holds of the positions and grades of a reel."""
    reel = Reel()
    for position, coefficients in knots:
        refusal = reel.append(position, coefficients)
        hold(number_of(refusal) in (0, 6), "a knot of a sum is refused with", refusal, knots)
        if refusal:
            return refusal
    return 0


def combination(alpha, beta, reel, other):
    """The knots of the sum in a list, or its refusal."""
    if max(abs(alpha), abs(beta)) > MULTIPLIER_MAX:
        return 14
    if not alike(reel, other):
        return 13
    hold_combined(alpha, beta, tuple(reel.knots), tuple(other.knots))
    knots = knots_of_sum(alpha, beta, reel, other)
    return refusal_by_size(knots) or knots


# ---- what the request says of two like reels; it holds also where the size rule refuses their sum


def query_positions(knots):
    """All knots, and four positions within each piece; of a long reel within every 16th."""
    at_knots = [UNIT_OF_POSITION * position for position, _ in knots]
    pieces = list(zip(at_knots, at_knots[1:]))[:: 1 if len(knots) < 10 else 16]
    return at_knots + [x for a, b in pieces for x in (a + 1, a + (b - a) // 3, a + (b - a) // 2 + 1, b - 1)]


def hold_blend(alpha, beta, piece, other, of_sum):
    coefficients = zip(piece.blend(), other.blend(), of_sum.blend(), strict=True)
    hold(all(alpha * a + beta * b == c for a, b, c in coefficients), "the blend of", alpha, beta, piece, other)


def hold_added(alpha, beta, i, j, reel, other, combined):
    """The totals from i to j."""
    [a], [b], [c] = (each.total(i, j) for each in (reel, other, combined))
    hold(alpha * a + beta * b == c, "the total from", i, "to", j, "of", alpha, beta, reel.knots, other.knots)


def difference_of_values(alpha, beta, x, reel, other, combined):
    """What the sum's value at x differs by from αv + βv', and m+n+1 of the piece that it is taken from."""
    v, w, of_sum = (value(*each.place(x)) for each in (reel, other, combined))
    piece, _ = combined.place(x)
    return of_sum - (alpha * v + beta * w), value_distance(piece.m, piece.n)


def hold_near(alpha, beta, x, reel, other, combined):
    """The sum's value at x differs from αv + βv' by at most (1+|α|+|β|)(m+n+1): half of what 4/14 says, by 5/14."""
    difference, distance = difference_of_values(alpha, beta, x, reel, other, combined)
    near = abs(difference) <= (1 + abs(alpha) + abs(beta)) * distance
    hold(near, "the value at", x, "of", alpha, beta, reel.knots, other.knots, "differs by", difference)


def hold_size_rule(combined):
    """6 said of the whole sum at once: it is refused exactly if a knot breaks the size rule at a gap beside it."""
    kept = all(keeps_size_rule(c, combined.gaps_beside(k)) for k, (_, c) in enumerate(combined.knots))
    hold(kept == (refusal_by_size(combined.knots) == 0), "the size rule in a sum:", combined.knots)


@cache
def hold_combined(alpha, beta, knots, others):
    """The exact blends and totals of the sum are the same combination of theirs, and its values are near that of theirs."""
    reel, other = Reel(knots), Reel(others)
    combined = Reel(knots_of_sum(alpha, beta, reel, other))
    hold_size_rule(combined)
    last = len(knots) - 1
    for k in range(last):
        hold_blend(alpha, beta, reel.piece(k), other.piece(k), combined.piece(k))
        hold_added(alpha, beta, k, k + 1, reel, other, combined)
    if last > 0:
        hold_added(alpha, beta, 0, last, reel, other, combined)
        for x in query_positions(knots):
            hold_near(alpha, beta, x, reel, other, combined)


# ---- over all grades and gaps


# Knots of grades 0 and 0 whose values at 1/256 lie 14/15 below the exact blend and 14/15 above it.
BELOW, ABOVE = [(0, (8,)), (15, (7,))], [(0, (7,)), (15, (8,))]


def hold_need_of_bound():
    """Differences at grades 0 and 0, where the bound is 1+|α|+|β|. With m+n in place of m+n+1 it would be 0, and without |α| or
    without |β| it would be 17 where both are 16. Without the 1 it would be reached, at 14."""
    reel = Reel(BELOW)
    for alpha, beta, others, found in (
        (1, 1, BELOW, 2), (14, 0, BELOW, 14), (7, -7, ABOVE, 14), (16, 16, BELOW, 30), (-16, -16, BELOW, -30), (-16, 16, ABOVE, -30),
    ):
        other = Reel(others)
        combined = Reel(combination(alpha, beta, reel, other))
        difference, distance = difference_of_values(alpha, beta, 1, reel, other, combined)
        hold((difference, distance) == (found, 1), "the value of", alpha, beta, BELOW, others, "differs by", difference)


def hold_exchanged(alpha, beta, reel, other):
    """The sum, and the same with multipliers and reels exchanged; the two given reels are kept. It returns the answer."""
    before = [*reel.knots], [*other.knots]
    answer = combination(alpha, beta, reel, other)
    hold(combination(beta, alpha, other, reel) == answer, "exchanged, another sum of", alpha, beta, *before)
    hold((reel.knots, other.knots) == before, "the given reels are not kept:", *before)
    return answer


def hold_combinations():
    """All pairs of grades with all gaps: three knots, ordinary and extreme coefficients, multipliers by chance. It returns
    the number of sums, and how many of them are refused."""
    hold_need_of_bound()
    chance = random.Random(10)
    answers = []
    for m in range(GRADE_MAX + 1):
        for n in range(GRADE_MAX + 1):
            for h in range(1, GAP_MAX + 1):
                after = chance.randint(1, GAP_MAX)
                places, greater = ((0, m), (h, n), (h + after, m)), max(h, after)
                reel = Reel((position, ordinary(chance, grade, greater)) for position, grade in places)
                other = Reel((position, extreme(chance, grade, greater)) for position, grade in places)
                for most in (1, MULTIPLIER_MAX):
                    answers.append(hold_exchanged(chance.randint(-most, most), chance.randint(-most, most), reel, other))
    return len(answers), sum(number_of(answer) == 6 for answer in answers)
