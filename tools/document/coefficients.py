"""Coefficient lists to try things with: of one value, at the size rule's limits, by chance within it."""
from document.knot import GRADE_MAX, SIZE_MAX

FLAT = (1,)
NINE = (0,) * (GRADE_MAX + 2)
MOST, MORE, LESS = (SIZE_MAX,), (SIZE_MAX + 1,), (-SIZE_MAX - 1,)


def only(j, c):
    """C_j = c, those below it 0."""
    return (0,) * j + (c,)


def greatest(grade, h, sign, turn):
    """Coefficients at the size rule's limits: with `turn` −1 their signs alternate, as those of right weights do."""
    return tuple(sign * turn**j * (SIZE_MAX // h**j) for j in range(grade + 1))


def extreme(chance, grade, h):
    """Coefficients at the size rule's limits, of either sign, some of them 0."""
    return tuple(chance.choice((-1, 0, 1)) * (SIZE_MAX // h**j) for j in range(grade + 1))


def ordinary(chance, grade, h):
    """Coefficients of up to 1,000, within the size rule."""
    limits = [min(1000, SIZE_MAX // h**j) for j in range(grade + 1)]
    return tuple(chance.randint(-limit, limit) for limit in limits)
