"""A part of the replay script: calls by chance, of which about a third are refused."""
import random

from document.block import block_of, block_words, packed, with_end
from document.coefficients import NINE, extreme, ordinary
from document.knot import GAP_MAX, GRADE_MAX, POSITION_MAX, SIZE_MAX, keeps_size_rule
from document.piece import UNIT_OF_POSITION
from document.reel import Reel
from stored.reels import NO_PLACE
from stored.replay_lines import line_for


def list_by_chance(chance, h):
    """Coefficients within the size rule at h, low grades more often."""
    grade = min(chance.randint(0, GRADE_MAX), chance.randint(0, GRADE_MAX))
    return chance.choice((ordinary, ordinary, extreme))(chance, grade, h)


def too_large(chance, coefficients, h):
    """One of them just above the size rule at h."""
    j = chance.randrange(len(coefficients))
    c = chance.choice((-1, 1)) * (SIZE_MAX // h**j + 1)
    return coefficients[:j] + (c,) + coefficients[j + 1 :]


def gap_by_chance(chance):
    return chance.choice((1, 1, 2, 3, 4, 6, 8, 12, 15, 16))


def append_by_chance(chance, reel):
    last = reel.knots[-1][0] if reel.knots else chance.choice((0, 1, 1_000, chance.randint(0, POSITION_MAX)))
    h = gap_by_chance(chance)
    if reel.knots and not chance.randrange(3):
        h = next((h for h in range(GAP_MAX, 0, -1) if keeps_size_rule(reel.knots[-1][1], [h])), 1)
    position, coefficients = last + h, list_by_chance(chance, h)
    fault = chance.randrange(16)
    if fault == 0:
        coefficients = chance.choice(((), NINE))
    elif fault == 1:
        position = chance.choice((last, max(last - h, 0), POSITION_MAX + h))
    elif fault == 2:
        position = last + GAP_MAX + h
    elif fault == 3:
        coefficients = too_large(chance, coefficients, h)
    return line_for("append", position, coefficients)


def correct_by_chance(chance, reel):
    k = chance.randrange(len(reel.knots) or 1) if chance.randrange(12) else len(reel.knots) + chance.randrange(3)
    h = max(reel.gaps_beside(k))
    coefficients = list_by_chance(chance, h if chance.randrange(6) else gap_by_chance(chance))
    fault = chance.randrange(12)
    if fault == 0:
        coefficients = chance.choice(((), NINE))
    elif fault == 1:
        coefficients = too_large(chance, coefficients, h)
    return line_for("correct", k, coefficients)


def knots_by_chance(chance, most):
    """Up to that many knots within the limits."""
    gaps = [gap_by_chance(chance) for _ in range(chance.choice((0, *range(1, most + 1), most)) + 1)]
    position, knots = chance.randint(0, 60_000), []
    for before, after in zip(gaps, gaps[1:]):
        knots.append((position, list_by_chance(chance, max(before, after))))
        position += after
    return knots


def spoiled(chance, knots):
    """The block of knots with one thing changed, which need not be a fault."""
    words, k = block_words(knots), chance.randrange(len(knots) or 1)
    change = chance.randrange(6)
    if knots and change < 3:
        position, coefficients = knots[k]
        h = max(Reel(knots).gaps_beside(k))
        moved = max(position + chance.choice((-17, -16, -1, 1, 16, 17)), 0)
        changed = ((position, too_large(chance, coefficients, h)), (moved, coefficients), (position, list_by_chance(chance, 1)))[change]
        return block_of(knots[:k] + [changed] + knots[k + 1 :])
    w = chance.randrange(len(words))
    if change == 3:
        return packed(words)[: chance.randrange(4 * len(words))]
    if change == 4:
        return packed(with_end(words[:w] + words[w + 1 : -1]))
    return packed(words[:w] + [words[w] ^ 1 << chance.randrange(32)] + words[w + 1 :])


def block_by_chance(chance, reel):
    knots = knots_by_chance(chance, 4) if chance.randrange(3) else reel.knots[-4:]
    return block_of(knots) if chance.randrange(2) else spoiled(chance, knots)


def read_by_chance(chance, reel):
    return line_for("read", block_by_chance(chance, reel))


def write_by_chance(chance, reel):
    length = len(block_of(reel.knots))
    return line_for("write", max(length + chance.choice((0, 0, 1, 4, 7, -1, -4, chance.randint(-length, 0))), 0))


def same_by_chance(chance, reel):
    """Two reels of which the second may lack all but C_0 at some knots, and have one thing more changed, or a fault."""
    knots = knots_by_chance(chance, 3)
    others = [(position, c if chance.randrange(4) else c[:1]) for position, c in knots]
    return line_for("same", block_of(knots), block_of(others) if chance.randrange(3) else spoiled(chance, others))


def place_by_chance(chance, reel):
    """At a knot or just beside one, between two, or outside."""
    positions = [UNIT_OF_POSITION * position for position, _ in reel.knots] or [0]
    first, last = positions[0], positions[-1]
    beside = chance.choice(positions) + chance.choice((-1, 0, 0, 1))
    outside = chance.choice((first - 1, last + 1, last + UNIT_OF_POSITION, NO_PLACE))
    inside = chance.randint(first, last)
    return max(chance.choices((inside, beside, outside), (12, 8, 1))[0], 0)


def query_by_chance(chance, reel):
    name = chance.choice(("value", "trend", "total"))
    if name != "total":
        return line_for(name, place_by_chance(chance, reel))
    count = len(reel.knots)
    i, j = sorted(chance.randrange(count or 1) for _ in range(2))
    return line_for(name, *chance.choices(((i, j), (0, max(count - 1, 0)), (j, i), (i, count + chance.randrange(2))), (12, 6, 2, 1))[0])


def call_by_chance(chance, reel):
    if len(reel.knots) > chance.randint(6, 40) or not chance.randrange(100):
        return "clear"
    kinds = (append_by_chance, correct_by_chance, read_by_chance, write_by_chance, same_by_chance, query_by_chance)
    line = chance.choices(kinds, (40, 22, 14, 15, 4, 10))[0](chance, reel)
    if not chance.randrange(25):
        k = chance.randrange(len(line))
        spoilt = (line + " ", line + "\r", line + "x", line[:k] + " " + line[k:], line[:k] + "+" + line[k:], line.upper())
        line = chance.choice(spoilt)
    return line


def calls_by_chance(script):
    """All calls by chance, about a third of them refused; after every change a query"""
    chance = random.Random(3)
    for _ in range(1_500):
        script.call(call_by_chance(chance, script.reel))
        if script.answers[-1] == "accepted":
            script.call(query_by_chance(chance, script.reel))
