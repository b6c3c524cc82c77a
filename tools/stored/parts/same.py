"""Parts of the replay script: same (request 7/14), of reels that differ in one thing, or in nothing that a block holds."""
import random

from document.block import READINGS_MAX, block_of
from document.coefficients import ordinary
from document.hold import hold
from document.knot import GAP_MAX, GRADE_MAX, KNOTS_MAX, POSITION_MAX, SIZE_MAX
from document.reel import Reel
from document.same import others_of, same_moistures
from stored.readings import different, edition_2
from stored.replay_lines import line_for

# No two coefficients alike, and none of them 0.
LIST = (9, -8, 7, -6, 5, -4, 3, -2)


def both_ways(script, answer, block, other):
    script.call(line_for("same", block, other), answer)
    if block != other:
        script.call(line_for("same", other, block), answer)


def compare(script, answer, knots, others):
    both_ways(script, answer, block_of(knots), block_of(others))


def beside(*lists):
    """Each list at one position as the first, an inner and the last knot of three, and alone: the index of the knot, and the
    reels that have it, one for each list."""
    low, high = [(13, (6,)), (18, (4, 1))], [(23, (5,)), (27, (0, 2))]
    for before, after in (([], high), (low[1:], high[:1]), (low, []), ([], [])):
        yield len(before), [before + [(20, coefficients)] + after for coefficients in lists]


def unlike_grades(script):
    """Same: reels that differ in a grade only, by zeros behind the last coefficient"""
    for m in range(GRADE_MAX):
        for zeros in range(1, GRADE_MAX + 1 - m):
            for _, reels in beside(LIST[: m + 1], LIST[: m + 1] + (0,) * zeros):
                compare(script, "no", *reels)
    for m in range(GRADE_MAX):
        compare(script, "no", [(20, (0,) * (m + 1))], [(20, (0,) * (m + 2))])


def one_thing_changed(script):
    """Same: reels of every grade that differ in nothing, or in one coefficient, at each order, a position, a grade or a count"""
    once_same = 0
    for m in range(GRADE_MAX + 1):
        for k, (knots,) in beside(LIST[: m + 1]):
            compare(script, "yes", knots, knots)
            for others in others_of(knots, k):
                compare(script, "no", knots, others)
                once_same += same_moistures(Reel(knots), Reel(others))
    hold(once_same > 200, "few of them agree at each scan:", once_same)


def coefficients_exchanged(script):
    """Same: the coefficients of one knot in another order"""
    for i in range(GRADE_MAX + 1):
        for j in range(i):
            exchanged = list(LIST)
            exchanged[i], exchanged[j] = LIST[j], LIST[i]
            compare(script, "no", [(20, LIST)], [(20, tuple(exchanged))])


def each_bit_of_a_coefficient(script):
    """Same: coefficients that differ in one bit, or in their sign"""
    for j in (0, 1, GRADE_MAX):
        for bit in range(28):
            for c, other in ((1 << bit, 0), (1 << bit, -1 << bit), (-1, -1 - (1 << bit))):
                compare(script, "no", [(3, LIST[:j] + (c,))], [(3, LIST[:j] + (other,))])
        for c, other in ((SIZE_MAX, 0), (-SIZE_MAX, 0), (SIZE_MAX, -SIZE_MAX)):
            compare(script, "no", [(3, LIST[:j] + (c,))], [(3, LIST[:j] + (other,))])
        for c in (SIZE_MAX, -SIZE_MAX):
            compare(script, "yes", [(3, LIST[:j] + (c,))], [(3, LIST[:j] + (c,))])


def each_bit_of_a_position(script):
    """Same: positions that differ in one bit"""
    for bit in range(16):
        for position in (0, POSITION_MAX, 21_845):
            compare(script, "no", [(position, LIST)], [(position ^ 1 << bit, LIST)])


def written_block(script):
    """The block that the reel writes, as it was answered."""
    script.write(len(block_of(script.reel.knots)))
    return bytes.fromhex(script.answers[-1].split(" ")[2])


def lowered_grades(script):
    """Same: the block that is written after a knot was corrected to fewer coefficients, with that of a knot that never had more, and with the block before"""
    for m in range(1, GRADE_MAX + 1):
        for n in range(m):
            for k, (knots, greater) in beside(LIST[: n + 1], LIST[: m + 1]):
                script.expect(0, "clear")
                for knot in greater:
                    script.expect(0, "append", *knot)
                before = written_block(script)
                script.expect(0, "correct", k, knots[k][1])
                lowered = written_block(script)
                both_ways(script, "yes", lowered, block_of(knots))
                both_ways(script, "no", lowered, before)


def same_with_readings(script):
    """Same: readings have no part in it, in reels that are the same and in reels that are not"""
    for m in (0, 1, GRADE_MAX):
        knots = [(20, LIST[: m + 1]), (23, (5,))]
        counts = ((0, 0), (1, 0), (0, 1), (READINGS_MAX, 0), (2, READINGS_MAX))
        blocks = [block_of(knots), *(edition_2(knots, different(*numbers)) for numbers in counts)]
        for block in blocks:
            for other in blocks:
                script.call(line_for("same", block, other), "yes")
            for others in others_of(knots, 0)[:-1]:
                both_ways(script, "no", block, block_of(others))
                script.call(line_for("same", block, edition_2(others, different(1, 2))), "no")


def full_reels_compared(script):
    """Same: full reels of grade 7 that differ in nothing, or in C_0, in C_7 or in the grade of one knot, or in the count"""
    chance = random.Random(14)
    knots = [(GAP_MAX * k, ordinary(chance, GRADE_MAX, GAP_MAX)) for k in range(KNOTS_MAX)]
    compare(script, "yes", knots, knots)
    for k in (0, KNOTS_MAX // 2, KNOTS_MAX - 1):
        position, c = knots[k]
        for j in (0, GRADE_MAX):
            toward_0 = c[:j] + (c[j] - (1 if c[j] > 0 else -1),) + c[j + 1 :]
            compare(script, "no", knots, knots[:k] + [(position, toward_0)] + knots[k + 1 :])
        compare(script, "no", knots, knots[:k] + [(position, c[:-1])] + knots[k + 1 :])
    compare(script, "no", knots, knots[:-1])
    compare(script, "no", knots, knots[1:])
