"""Pairs of reels to combine (request 4/14): like and unlike ones, and coefficients whose sum is at the size rule's limit."""
from document.coefficients import FLAT, extreme, only, ordinary
from document.knot import GAP_MAX, GRADE_MAX, SIZE_MAX
from stored.reels import laid_out

# Two reels with the same positions and grades; each of their knots may move by a step.
TOP_PLY = ((10, (5, -3)), (12, (7, 2)), (27, (-9,)))
BASE_PLY = ((10, (-2, 4)), (12, (11, -1)), (27, (100,)))


# ---- like and unlike knots


def at_positions(knots, *lists):
    """Knots at the same positions with these coefficients."""
    return [(position, coefficients) for (position, _), coefficients in zip(knots, lists, strict=True)]


def zeros(knots):
    """The same positions and grades, with all coefficients 0."""
    return [(position, (0,) * len(coefficients)) for position, coefficients in knots]


def moved(knots, steps):
    return [(position + steps, coefficients) for position, coefficients in knots]


def with_knot(knots, k, position, coefficients):
    """With this knot in place of knot k."""
    return [*knots[:k], (position, coefficients), *knots[k + 1 :]]


def unlike_at(knots, k):
    """Unlike at knot k alone: in its position, or in its grade by a 0 more or an order less."""
    position, coefficients = knots[k]
    yield with_knot(knots, k, position - 1, coefficients)
    yield with_knot(knots, k, position + 1, coefficients)
    yield with_knot(knots, k, position, coefficients + (0,))
    if len(coefficients) > 1:
        yield with_knot(knots, k, position, coefficients[:-1])


def unlike_in_count(knots):
    """A knot more at either end; knots fewer."""
    yield [*knots, (knots[-1][0] + 1, FLAT)]
    yield [(knots[0][0] - 1, FLAT), *knots]
    yield from (list(knots[:-1]), list(knots[1:]), list(knots[:1]), list(knots[-1:]), [])


def all_unlike(knots):
    """Unlike at each knot, or in count."""
    return [others for k in range(len(knots)) for others in unlike_at(knots, k)] + [*unlike_in_count(knots)]


# ---- knots at the limit of the size rule


def limit_at(h, j):
    """The greatest C_j that the size rule takes at a gap of h."""
    return SIZE_MAX // h**j


def shares(alpha, beta, c):
    """Whole a and b with αa + βb = c, the greater of them as little as can be, where α is −1 or 1."""
    least = c * beta // (1 + beta**2)
    tried = [(alpha * (c - beta * b), b) for b in (least, least + 1)]
    return min(tried, key=lambda pair: max(map(abs, pair)))


def single_knot(h, j, c, flat):
    """C_j = c of the only knot: append tests it with h = 1."""
    return [(100, only(j, c))]


def new_knot(h, j, c, flat):
    """C_j = c behind a flat knot: append tests it with the gap before it."""
    return [(100, (flat,)), (100 + h, only(j, c))]


def held_knot(h, j, c, flat):
    """C_j = c before a flat knot: append tests it again with the gap behind it."""
    return [(100, only(j, c)), (100 + h, (flat,))]


# Gaps that differ on both sides of each inner knot.
FIVE = (100, 101, 117, 119, 134)


def greater_gap(k):
    """Beside knot k of FIVE."""
    return max(abs(FIVE[k] - FIVE[beside]) for beside in (k - 1, k + 1) if 0 <= beside < len(FIVE))


def one_of_five(k, j, c, flat):
    """C_j = c at knot k, the others flat."""
    return [(position, only(j, c) if i == k else (flat,)) for i, position in enumerate(FIVE)]


# ---- by chance


def small(chance, grade, h):
    """Coefficients of up to 1,000, of which every sum is within the size rule."""
    limits = [min(1000, limit_at(h, j) // 32) for j in range(grade + 1)]
    return tuple(chance.randint(-limit, limit) for limit in limits)


def two_reels(chance, first, grades, gaps, lists):
    """Both laid out with these grades and gaps."""
    return [laid_out(chance, first, grades, gaps, lists) for _ in range(2)]


def near_limit(chance, alpha, beta, limit):
    """Of either reel a coefficient within this limit, so that the sum is near it or near its opposite."""
    sign, share = chance.choice((-1, 1)), limit // max(abs(alpha) + abs(beta), 1)
    for multiplier in (alpha, beta):
        yield (sign if multiplier > 0 else -sign) * min(share + chance.randint(-1, 1), limit)


def reels_near_limit(chance, alpha, beta, first, grades, gaps):
    """Small coefficients, but at one order of one knot near the limit that its greater gap sets to the sum."""
    reels = two_reels(chance, first, grades, gaps, (small,))
    k = chance.randrange(len(grades))
    j, h = chance.randint(0, grades[k]), max([1, *gaps[max(k - 1, 0) : k + 1]])
    for knots, c in zip(reels, near_limit(chance, alpha, beta, limit_at(h, j))):
        position, coefficients = knots[k]
        knots[k] = (position, coefficients[:j] + (c,) + coefficients[j + 1 :])
    return reels


def reels_by_chance(chance, alpha, beta):
    """Two like reels of up to four knots, with coefficients of one kind."""
    first, count = chance.randint(1, 60_000), chance.choice((0, 1, 1, 2, 2, 2, 3, 3, 4))
    grades = [chance.randint(0, GRADE_MAX) for _ in range(count)]
    gaps = [chance.randint(1, GAP_MAX) for _ in range(count - 1)]
    if count and chance.randrange(2):
        return reels_near_limit(chance, alpha, beta, first, grades, gaps)
    return two_reels(chance, first, grades, gaps, chance.choice(((small,), (small,), (ordinary,), (ordinary, extreme))))


def unlike_by_chance(chance, knots):
    """Unlike at one knot or in count."""
    if not knots:
        return [(1, FLAT)]
    return chance.choice([*unlike_at(knots, chance.randrange(len(knots))), *unlike_in_count(knots)])
