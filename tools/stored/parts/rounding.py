"""Parts of the replay script: scalings and divisions by h go to the nearest whole number, halves up (request 5/14)."""
import random

from document.block import block_of
from document.combination import ABOVE, BELOW
from document.knot import GAP_MAX
from document.piece import UNIT_OF_POSITION
from stored.halves import HALVES, among_zeros, beside_zeros, halves_of_trends, halves_of_values
from stored.reels import cycle_of_grades, laid_out
from stored.replay_lines import line_for
from stored.sums import limit_at

GAPS = range(1, GAP_MAX + 1)


def expect_of(script, query, knots, asked):
    """These knots have these answers at these query positions."""
    script.hold_knots(*knots)
    for x, answer in asked:
        script.call(f"{query} {x}", f"{query} {answer}")


def values_at_halves(script):
    """Value: halves above 0 and below, at every gap, from either end"""
    for halves in (1, -1, 3, -3):
        expect_of(script, "value", *halves_of_values(halves))


# A sign, what is added to D/2 before the last scaling by 1/D, and the whole number that it gives.
BESIDE = ((1, -1, 0), (1, 1, 1), (-1, -1, 0), (-1, 1, -1))

# t^2/128 and −t^2/128, rounded: where t is 8, 24 or 40 they are halves.
SQUARES = {7: (0, 0), 8: (1, 0), 9: (1, -1), 23: (4, -4), 24: (5, -4), 25: (5, -5), 39: (12, -12), 40: (13, -12), 41: (13, -13)}


def values_beside_halves(script):
    """Value: as near to a half as it can be, at every gap, from either end; 1/256 step before a half and after it"""
    beside = [BESIDE[h % 4] for h in GAPS]
    knots = among_zeros(2, [(h, (sign * (128 * h + more) * h**2,)) for h, (sign, more, _) in zip(GAPS, beside)])
    rounded = [v for _, _, v in beside for _ in range(2)]
    expect_of(script, "value", knots, zip(beside_zeros(knots, [1] * len(GAPS)), rounded, strict=True))
    for turn, sign in enumerate((1, -1)):
        # With t = D−r, 65,536 × 2 is scaled by t/4,096 twice: it becomes 32t and t^2/128.
        squares = [(GAP_MAX * UNIT_OF_POSITION - t, rounded[turn]) for t, rounded in SQUARES.items()]
        expect_of(script, "value", [(0, (2 * sign,)), (GAP_MAX, (0, 0))], squares)


def values_with_halves_within(script):
    """Value: halves in step 2 of either half-sum, at every gap, before the last scaling"""
    knots = among_zeros(0, [(h, ((-1) ** h * 128 * h**3, 0, 0, 0)) for h in GAPS])
    script.hold_knots(*knots)
    for x in beside_zeros(knots, [UNIT_OF_POSITION * h - 3 for h in GAPS]):
        script.call(line_for("value", x))


def trends_at_halves(script):
    """Trend: the division by h at a half at every even gap, above 0 and below; 1/256 step before a half and after it"""
    for halves in (1, 3):
        expect_of(script, "trend", *halves_of_trends(halves))
    knots, asked = halves_of_trends(1)
    script.hold_knots(*knots)
    for x, _ in asked:
        script.call(line_for("trend", x - 1))
        script.call(line_for("trend", x + 1))


# A gap h, a K, and 65,536 × K / h rounded: from h = 3 on it is (h−1)/2 or (h+1)/2 parts of h above a whole number.
QUOTIENTS = (
    (1, 1, 65_536), (3, 1, 21_845), (3, 2, 43_691), (5, 2, 26_214), (5, 3, 39_322), (7, 5, 46_811), (7, 2, 18_725), (9, 7, 50_972),
    (9, 2, 14_564), (11, 3, 17_873), (11, 8, 47_663), (13, 2, 10_082), (13, 11, 55_454), (15, 7, 30_583), (15, 8, 34_953),
)


def trends_beside_halves(script):
    """Trend: the division by h as near to a half as it can be at every odd gap, above 0 and below"""
    for sign in (1, -1):
        knots, asked = [(0, (0,))], []
        for h, k, z in QUOTIENTS:
            position, (c,) = knots[-1]
            asked.append((UNIT_OF_POSITION * position + 1, sign * z))
            knots.append((position + h, (c + sign * k,)))
        expect_of(script, "trend", knots, asked)


# At a gap of 1 the C_0 of a peak between zeros of grade 3, and the trends 1/256 beside these. K is 4 times the C_0 before the
# peak and −4 times behind it, and Y3 is 65,536 × K / 256^3, which is K/256.
PEAKS = ((32, 1, 0), (96, 2, -1), (-32, 0, 1), (-96, -1, 2), (31, 0, 0), (33, 1, -1), (-31, 0, 0), (-33, -1, 1))

# At a gap of 1 the C_4 of a peak between zeros of grade 0, and the trends 1/256 before it and behind it, which are −Y2 and Y1.
# In step 2 of these 65,536 × 4 × C_4 is scaled by 1/256 three times, and becomes C_4/64.
BENDS = ((32, -1, 1), (96, -2, 2), (-32, 0, 0), (-96, 1, -1))


def trends_with_halves_within(script):
    """Trend: halves in Y3 and in steps 2 and 3 of Y1 and Y2, above 0 and below, and in Y3 just beside a half"""
    knots = among_zeros(3, [(1, (c,)) for c, _, _ in PEAKS])
    rounded = [z for _, before, behind in PEAKS for z in (before, behind)]
    expect_of(script, "trend", knots, zip(beside_zeros(knots, [1] * len(PEAKS)), rounded, strict=True))
    knots = among_zeros(0, [(1, (0, 0, 0, 0, c)) for c, _, _ in BENDS])
    rounded = [z for _, before, behind in BENDS for z in (before, behind)]
    expect_of(script, "trend", knots, zip(beside_zeros(knots, [255] * len(BENDS)), rounded, strict=True))
    for halves in (1, 3):
        # K is 0 in every piece. The trends are Y1, −Y2, Y1 and −Y2: of Y1 and Y2 so many halves, then the opposite.
        slope, level = 128 * halves, 32 * halves
        knots = [(0, (0, slope)), (1, (level, 0, 0)), (2, (0, -slope)), (3, (-level, 0, 0)), (4, (0, slope))]
        above, below = HALVES[halves], HALVES[-halves]
        expect_of(script, "trend", knots, ((255, above), (257, -above), (767, below), (769, -below)))


# Two reels A and B, a query position and the values v and v' there; α, β and the value of αA + βB there.
HALF = [(0, (128,)), (1, (0, 0, 0))]
SUMS = (
    (BELOW, BELOW, 1, 524_270, 524_270, ((1, 1, 1_048_542), (14, 0, 7_339_794), (16, 16, 16_776_670), (-16, -16, -16_776_670))),
    (BELOW, ABOVE, 1, 524_270, 458_770, ((1, 1, 983_040), (1, -1, 65_502), (7, -7, 458_514), (-16, 16, -1_048_030))),
    (HALF, HALF, 255, 1, 1, ((-1, 0, 0), (1, 1, 1), (0, 3, 2), (-2, -1, -1))),
)


def rounded_sums(script):
    """Combine: the value of a sum differs from αv + βv' by up to 14/15 of what it may; a half goes up in the sum too"""
    for knots, others, x, v, w, sums in SUMS:
        expect_of(script, "value", knots, [(x, v)])
        expect_of(script, "value", others, [(x, w)])
        for alpha, beta, of_sum in sums:
            script.call(line_for("combine", alpha, beta, block_of(knots), block_of(others)))
            script.read_sum()
            script.call(f"value {x}", f"value {of_sum}")


def few_counts(chance, grade, h):
    """Coefficients of up to 9, within the size rule."""
    limits = [min(9, limit_at(h, j)) for j in range(grade + 1)]
    return tuple(chance.randint(-limit, limit) for limit in limits)


def many_roundings(script):
    """Value and trend in a piece of each pair of grades, with small coefficients: up to 30 roundings in a value and 43 in a trend"""
    chance = random.Random(15)
    grades = [*cycle_of_grades(), 0]
    gaps = [chance.randint(1, GAP_MAX) for _ in grades[1:]]
    knots = laid_out(chance, 1_000, grades, gaps, (few_counts,))
    script.hold_knots(*knots)
    for (position, _), h in zip(knots, gaps):
        script.ask(UNIT_OF_POSITION * position + chance.randint(1, UNIT_OF_POSITION * h - 1))
