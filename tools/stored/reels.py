"""Lists of knots to try things with: of mixed grades, of all pairs of grades, and with inner knots of grade 0."""
import random

from document.coefficients import extreme, ordinary
from document.knot import GAP_MAX, GRADE_MAX, KNOTS_MAX, POSITION_MAX, SIZE_MAX

# A query position and an index that no reel has.
NO_PLACE = 4_294_967_295

# Knots of mixed grades.
MIXED = ((300, (-5,)), (301, (1, -2, 3, -4, 5, -6, 7, -1)), (317, (9, 8, 7, 6)), (320, (-1, SIZE_MAX // 9)), (323, (0, 0, 4)))


def laid_out(chance, first, grades, gaps, lists):
    """Knots of these grades with these gaps between them, each with one of the lists within its size rule."""
    position, knots = first, []
    for grade, before, after in zip(grades, [1, *gaps], [*gaps, 1]):
        knots.append((position, chance.choice(lists)(chance, grade, max(before, after))))
        position += after
    return knots


def cycle_of_grades():
    """64 grades. Where they go round, each pair of grades stands side by side once."""
    for a in range(GRADE_MAX + 1):
        yield a
        for b in range(a + 1, GRADE_MAX + 1):
            yield from (a, b)


def reel_of_all_pairs(chance, turn):
    """The full reel `turn` of 8: twice round all pairs of grades, so that the 8 have each pair with each gap."""
    grades = [*cycle_of_grades()] * 2
    gaps = [(2 * turn + k // 64 + 5 * (k % 64)) % GAP_MAX + 1 for k in range(KNOTS_MAX - 1)]
    first = POSITION_MAX - sum(gaps) if turn == 7 else 7 * turn
    return laid_out(chance, first, grades + grades[:1], gaps, (ordinary, ordinary, extreme))


def lone_readings_among(chance, first, grades):
    """Knots of these grades with a knot of grade 0 between each two. Its gaps differ: by turns the left one is the lesser
    and the greater."""
    gaps = []
    for k in range(len(grades) - 1):
        gaps += sorted(chance.sample(range(1, GAP_MAX + 1), 2), reverse=k % 2)
    among = [grade for left in grades for grade in (left, 0)][:-1]
    return laid_out(chance, first, among, gaps, (ordinary,))


def reels_of_lone_readings():
    """With inner knots of grade 0 (request 3/14): between neighbours of all pairs of grades, in short reels and in a full
    one; with first and last knots of grade 0 beside knots of other grades; of knots of grade 0 alone, and of two of them,
    which are no inner ones."""
    chance = random.Random(8)
    for m in range(GRADE_MAX + 1):
        for n in range(GRADE_MAX + 1):
            yield lone_readings_among(chance, 100 * n, (m, n, m))
    for n in range(1, GRADE_MAX + 1):
        gaps = chance.sample(range(1, GAP_MAX + 1), 4)
        yield laid_out(chance, 500 * n, (0, n, 0, GRADE_MAX + 1 - n, 0), gaps, (ordinary,))
    yield lone_readings_among(chance, 0, [*cycle_of_grades(), 0])
    yield lone_readings_among(chance, POSITION_MAX - 200, [0] * 6)
    yield [(5, (7,)), (8, (-4,))]
