"""What request 6/14 says of the coefficient that was too large, held on calls by chance: all products of a call are put
down in its sequence, and the spot is looked up among them."""
import random

from document.block import READINGS_MAX, block_of, block_words, packed, with_end
from document.coefficients import FLAT, extreme, ordinary
from document.combination import MULTIPLIER_MAX, combination, knots_of_sum
from document.hold import hold
from document.knot import GAP_MAX, GRADE_MAX, KNOTS_MAX, POSITION_MAX, SIZE_MAX, TooLarge
from document.reel import Reel
from document.view import view, view_at

FULL = [(k, FLAT) for k in range(KNOTS_MAX)]
NINE_TOO_LARGE = (SIZE_MAX + 1,) * (GRADE_MAX + 2)


# ---- all products of a call in its sequence, each with its spot


def products_of(k, coefficients, h):
    """Of the coefficients of knot k with a gap of h: orders rising."""
    return [((k, j, h), abs(coefficients[j]) * h**j) for j in range(len(coefficients))]


def products_of_append(knots, position, coefficients):
    """The held knot and then the new one, both with the gap between them; the first knot alone, with 1."""
    if not knots:
        return products_of(0, coefficients, 1)
    last, held = knots[-1]
    return products_of(len(knots) - 1, held, position - last) + products_of(len(knots), coefficients, position - last)


def products_of_correction(knots, k, coefficients):
    """The left gap and then the right, as far as there is one; 1 of a knot with no neighbour."""
    if len(knots) == 1:
        return products_of(0, coefficients, 1)
    position, _ = knots[k]
    left = products_of(k, coefficients, position - knots[k - 1][0]) if k > 0 else []
    right = products_of(k, coefficients, knots[k + 1][0] - position) if k < len(knots) - 1 else []
    return left + right


def products_of_list(knots):
    """Of a block or a sum of reels: each knot in turn as if appended."""
    return [product for n, knot in enumerate(knots) for product in products_of_append(knots[:n], *knot)]


def hold_spot(answer, products, otherwise):
    """The product that an answer names exceeds the limit, and every earlier one does not. If the answer names none, no
    product exceeds it, and the answer is the one that the call has otherwise. It returns the answer."""
    spots, sizes = [spot for spot, _ in products], [size for _, size in products]
    if isinstance(answer, TooLarge):
        hold(answer in spots, answer, "is not among", products)
        named = spots.index(answer)
        hold(sizes[named] > SIZE_MAX, answer, "is not too large:", products)
        hold(max(sizes[:named], default=0) <= SIZE_MAX, answer, "is not the first:", products)
    else:
        hold(max(sizes, default=0) <= SIZE_MAX, answer, "names none of", products)
        hold(answer == otherwise, answer, "is answered and not", otherwise)
    return answer


# ---- calls by chance, with coefficients about the size rule's limits


def within_rule(chance, grade, h):
    """Ordinary coefficients, but some at the limits."""
    either = zip(ordinary(chance, grade, h), extreme(chance, grade, h))
    return tuple(chance.choices(pair, (7, 1))[0] for pair in either)


def near_rule(chance, grade, h):
    """The same, but some one past the limit at a gap of h or of less."""
    past = [SIZE_MAX // chance.choice((h, chance.randint(1, h))) ** j + 1 for j in range(grade + 1)]
    either = zip(within_rule(chance, grade, h), past)
    return tuple(chance.choices((c, p, -p), (16, 1, 1))[0] for c, p in either)


def append_by_chance(chance, reel):
    """The position and the coefficients of a knot."""
    h = chance.randint(1, GAP_MAX)
    return reel.knots[-1][0] + h if reel.knots else 99, near_rule(chance, chance.randint(0, GRADE_MAX), h)


def correction_by_chance(chance, reel):
    """The index of a knot, and coefficients for one of its gaps."""
    k = chance.randrange(len(reel.knots))
    return k, near_rule(chance, chance.randint(0, GRADE_MAX), chance.choice(reel.gaps_beside(k)))


def reels_by_chance(chance, lists, number):
    """So many like reels of up to five knots, each with one of the lists for the greater of its gaps."""
    gaps = [chance.randint(1, GAP_MAX) for _ in range(chance.randint(0, 4))]
    reels, position = [Reel() for _ in range(number)], 99
    for before, after in zip([1, *gaps], [*gaps, 1]):
        grade = chance.randint(0, GRADE_MAX)
        for reel in reels:
            reel.knots.append((position, lists(chance, grade, max(before, after))))
        position += after
    return reels


def block_by_chance(chance):
    """The knots of a block."""
    [reel] = reels_by_chance(chance, near_rule, 1)
    return reel.knots


def sum_by_chance(chance):
    """Multipliers and two like reels."""
    alpha, beta = (chance.choice((-1, 1, chance.randint(-MULTIPLIER_MAX, MULTIPLIER_MAX))) for _ in range(2))
    return alpha, beta, *reels_by_chance(chance, within_rule, 2)


# ---- what is held of them, also where another cause comes first


def hold_append(chance, reel):
    """On the reel that the calls before it left."""
    if len(reel.knots) > 4:
        reel.clear()
    position, coefficients = append_by_chance(chance, reel)
    hold_spot(Reel(FULL).append(KNOTS_MAX, coefficients), [], 2)
    hold_spot(Reel(reel.knots).append(position, NINE_TOO_LARGE), [], 3)
    hold_spot(Reel(reel.knots).append(POSITION_MAX + 1, coefficients), [], 4)
    hold_spot(Reel([(99, coefficients)]).append(99 + GAP_MAX + 1, coefficients), [], 5)
    products = products_of_append(reel.knots, position, coefficients)
    return hold_spot(reel.append(position, coefficients), products, 0)


def hold_correction(chance, reel):
    """On the same reel."""
    hold_spot(reel.correct(len(reel.knots), NINE_TOO_LARGE), [], 9)
    if not reel.knots:
        return 0
    k, coefficients = correction_by_chance(chance, reel)
    hold_spot(reel.correct(k, NINE_TOO_LARGE), [], 3)
    products = products_of_correction(reel.knots, k, coefficients)
    return hold_spot(reel.correct(k, coefficients), products, 0)


def other_faults(chance, knots):
    """A fault at one of these knots or at the end: its number, the knots that are tested before it, and the block."""
    k = chance.randrange(len(knots))
    before, (_, coefficients), after = knots[:k], knots[k], knots[k + 1 :]
    one_too_many = [(7,) * (READINGS_MAX + 1) if i == k else () for i in range(len(knots))]
    yield 1, before, packed(with_end(block_words(knots[: k + 1])[:-2]))
    yield 12, knots[: k + 1], block_of(knots, one_too_many)
    yield 1, knots, block_of(knots)[:-4]
    for number, h in ((4, 0), (5, GAP_MAX + 1)) if before else ():
        yield number, before, block_of([*before, (before[-1][0] + h, coefficients), *after])


def hold_block(chance, _):
    """Read; with another fault also viewed, with a knot and a stride that are refused later."""
    knots = block_by_chance(chance)
    for number, tested, block in other_faults(chance, knots):
        for answer in (Reel().read(block), view(block, len(knots), 1), view_at(block, 0, 0, 0)):
            hold_spot(answer, products_of_list(tested), number)
    return hold_spot(Reel().read(block_of(knots)), products_of_list(knots), 0)


def hold_sum(chance, _):
    """Of two like reels, and of unlike ones."""
    alpha, beta, reel, other = sum_by_chance(chance)
    hold_spot(combination(alpha, MULTIPLIER_MAX + 1, reel, other), [], 14)
    hold_spot(combination(alpha, beta, reel, Reel(other.knots[:-1])), [], 13)
    knots = knots_of_sum(alpha, beta, reel, other)
    return hold_spot(combination(alpha, beta, reel, other), products_of_list(knots), knots)


def hold_all_named(answers):
    """Among these answers are spots of every order and of every gap. It returns the number of spots."""
    spots = [answer for answer in answers if isinstance(answer, TooLarge)]
    hold({j for _, j, _ in spots} == {*range(GRADE_MAX + 1)}, "not every order is named:", spots)
    hold({h for _, _, h in spots} == {*range(1, GAP_MAX + 1)}, "not every gap is named:", spots)
    return len(spots)


def hold_spots():
    """Many calls of each kind. It returns their number, and how many of them name a spot."""
    chance, reel, kinds = random.Random(17), Reel(), (hold_append, hold_correction, hold_block, hold_sum)
    answers = [[hold_call(chance, reel) for hold_call in kinds] for _ in range(500)]
    return len(kinds) * len(answers), sum(map(hold_all_named, zip(*answers)))
