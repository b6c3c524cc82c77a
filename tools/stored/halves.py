"""Reels with places at which a scaling, or the division by h, is a half and nothing else is rounded (request 5/14)."""
from document.knot import GAP_MAX
from document.piece import UNIT_OF_POSITION

# How many halves, and the whole number that these are rounded to.
HALVES = {1: 1, -1: 0, 3: 2, -3: -1, 9: 5, -9: -4}


def among_zeros(grade, peaks):
    """For each gap h and each list a peak, a knot with that list and with h on both sides; between the peaks knots of this grade
    with all coefficients 0."""
    zeros = (0,) * (grade + 1)
    position, knots = 0, [(0, zeros)]
    for h, coefficients in peaks:
        knots += [(position + h, coefficients), (position + 2 * h, zeros)]
        position += 2 * h
    return knots


def beside_zeros(knots, distances):
    """Query positions, two for each peak: behind the zeros before it and before the zeros behind it, at this distance."""
    ends = [UNIT_OF_POSITION * position for position, _ in knots[::2]]
    for a, b, distance in zip(ends[:-1], ends[1:], distances, strict=True):
        yield from (a + distance, b - distance)


def halves_of_values(halves):
    """A reel, and query positions with the values there, which are so many halves. At grades 0 and 2, 1/256 step beside the
    zeros, 65,536 × the C_0 of the peak is scaled by 1/D three times: 65,536 × 128h^3 becomes 32,768h^2, 128h and 1/2."""
    gaps = range(1, GAP_MAX + 1)
    knots = among_zeros(2, [(h, (halves * 128 * h**3,)) for h in gaps])
    return knots, [(x, HALVES[halves]) for x in beside_zeros(knots, [1] * len(gaps))]


def halves_of_trends(halves):
    """A reel, and query positions with the trends there, which are 3 times so many halves, above 0 and below. At grades 0 and 2 K
    is 3 times the C_0 of the peak before it and −3 times behind it. With r or D−r equal to h, Y3 is K: 65,536 × K / 256^2."""
    gaps = range(2, GAP_MAX + 1, 2)
    knots = among_zeros(2, [(h, (halves * h // 2,)) for h in gaps])
    return knots, [*zip(beside_zeros(knots, gaps), [HALVES[3 * halves], HALVES[-3 * halves]] * len(gaps), strict=True)]
