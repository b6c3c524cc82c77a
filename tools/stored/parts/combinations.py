"""Parts of the replay script: sums and differences of reels (request 4/14)."""
import random
from collections import Counter

from document.block import block_of, header_word, packed
from document.coefficients import FLAT, MORE, extreme, greatest, only, ordinary
from document.combination import MULTIPLIER_MAX, query_positions
from document.hold import hold
from document.knot import GAP_MAX, GRADE_MAX, KNOTS_MAX, POSITION_MAX, SIZE_MAX
from document.known_results import WORKED
from document.piece import UNIT_OF_POSITION
from stored.faults import NO_READINGS
from stored.parts.chance import place_by_chance, spoiled
from stored.readings import COUNTS, FEW, at_knot, different, edition_2, greatest_block
from stored.reels import MIXED, cycle_of_grades, laid_out
from stored.replay_lines import hex_of, kind_of_answer, line_for
from stored.sums import (
    BASE_PLY, FIVE, TOP_PLY, all_unlike, at_positions, greater_gap, held_knot, limit_at, single_knot, moved, new_knot, one_of_five,
    reels_by_chance, shares, small, two_reels, unlike_by_chance, with_knot, zeros,
)

LOWEST, HIGHEST = -(1 << 31), (1 << 31) - 1
MULTIPLIERS = (LOWEST, -17, -16, -1, 0, 1, 16, 17, HIGHEST)

# Numbers whose low 8 or 16 bits, taken alone, are within −16 to 16.
NARROWED = (240, 256, 272, -240, -256, -257, 65_520, 65_536, 65_537, -65_536, 1 << 24, LOWEST + 1, LOWEST + 16, HIGHEST - 15)


def one_way(script, answer, alpha, beta, knots, others):
    """The sum of two reels with these knots has the knots in a list, or is refused with a number."""
    script.combine(answer, alpha, beta, block_of(knots), block_of(others))


def both_ways(script, answer, alpha, beta, knots, others):
    """The same with multipliers and reels exchanged."""
    one_way(script, answer, alpha, beta, knots, others)
    one_way(script, answer, beta, alpha, others, knots)


def accepted(script, alpha, beta, knots, others):
    """A sum that no cause refuses."""
    answer = script.call(line_for("combine", alpha, beta, block_of(knots), block_of(others)))
    hold(answer.startswith("combined"), alpha, beta, knots, others, "give", answer)


def sums_and_differences(script):
    """Combine: sums and differences by hand; of no knot, of one and of two; a reel with itself"""
    script.hold_knots((7, (1, 2)), (9, (3,)))
    for alpha, beta, *lists in (
        (1, 1, (3, 1), (18, 1), (91,)),
        (1, -1, (7, -7), (-4, 3), (-109,)),
        (-1, 1, (-7, 7), (4, -3), (109,)),
        (2, 3, (4, 6), (47, 1), (282,)),
        (16, -16, (112, -112), (-64, 48), (-1744,)),
        (-16, -16, (-48, -16), (-288, -16), (-1456,)),
        (1, 0, (5, -3), (7, 2), (-9,)),
        (0, -1, (2, -4), (-11, 1), (-100,)),
        (0, 0, (0, 0), (0, 0), (0,)),
    ):
        both_ways(script, at_positions(TOP_PLY, *lists), alpha, beta, TOP_PLY, BASE_PLY)
    for alpha, beta in ((1, 1), (0, 0), (16, -16), (-16, 1)):
        one_way(script, [], alpha, beta, [], [])
    for position in (0, POSITION_MAX):
        for grade in range(GRADE_MAX + 1):
            a, b = tuple(range(1, grade + 2)), tuple(range(-3, grade - 2))
            both_ways(script, [(position, tuple(range(5, grade + 6)))], 2, -1, [(position, a)], [(position, b)])
    both_ways(script, [(0, (8,)), (16, (9, 1))], 3, 1, [(0, (2,)), (16, (4, 0))], [(0, (2,)), (16, (-3, 1))])
    top = ((POSITION_MAX - 1, only(7, 5)), (POSITION_MAX, FLAT))
    both_ways(script, [(POSITION_MAX - 1, only(7, 35)), (POSITION_MAX, (7,))], 16, -9, top, top)
    for knots in (TOP_PLY, WORKED, MIXED, MIXED[:1], MIXED[1:3], [(5, greatest(7, 1, 1, -1)), (6, greatest(7, 1, -1, 1))], []):
        for alpha in (1, -1, 16):
            one_way(script, zeros(knots), alpha, -alpha, knots, knots)
        both_ways(script, list(knots), 1, 0, knots, zeros(knots))
        both_ways(script, list(knots), -15, 16, knots, knots)
    script.write(28)


def multipliers(script):
    """Combine: multipliers to −16 and 16, and 14 past them, to the limits of 32 bits, in either place and in both"""
    script.hold_knots((7, (1, 2)), (9, (3,)))
    for alpha in MULTIPLIERS:
        for beta in MULTIPLIERS:
            if max(abs(alpha), abs(beta)) > MULTIPLIER_MAX:
                one_way(script, 14, alpha, beta, TOP_PLY, BASE_PLY)
            else:
                accepted(script, alpha, beta, TOP_PLY, BASE_PLY)
    for multiplier in NARROWED:
        both_ways(script, 14, multiplier, 1, TOP_PLY[:1], BASE_PLY[:1])
    for multiplier in (-17, 17, LOWEST, HIGHEST):
        for knots in ([], zeros(TOP_PLY)):
            both_ways(script, 14, multiplier, 0, knots, knots)
            one_way(script, 14, multiplier, multiplier, knots, knots)
    one_way(script, 14, 17, -17, TOP_PLY, TOP_PLY)
    script.write(28)


def unlike_reels(script):
    """Combine: 13 of unlike positions, grades or counts, at every knot, whatever the multipliers; not of unlike coefficients"""
    script.hold_knots((7, (1, 2)), (9, (3,)))
    unlike = all_unlike(BASE_PLY)
    unlike += [moved(BASE_PLY, steps) for steps in (-1, 1, 256, 32_768)]
    unlike += [at_positions(TOP_PLY, *lists) for lists in (((5,), (7, 2, 0), (-9,)), ((5, 0, 0), (7,), (-9,)), ((5, 0), (7,), (1, 0)))]
    turns = ((1, 1), (0, 0), (1, 0), (16, -16), (0, -1))
    for turn, others in enumerate(unlike):
        both_ways(script, 13, *turns[turn % len(turns)], TOP_PLY, others)
    for a in range(GRADE_MAX + 1):
        for b in range(GRADE_MAX + 1):
            one_way(script, [(9, only(a, 3))] if a == b else 13, 1, 1, [(9, only(a, 1))], [(9, only(b, 2))])
    for others in ([], [(8, FLAT)], [(265, FLAT)], [(32_777, FLAT)], [(9, FLAT), (10, FLAT)], [(8, FLAT), (9, FLAT)]):
        both_ways(script, 13, 1, -1, [(9, FLAT)], others)
        both_ways(script, 13, 0, 0, [(9, FLAT)], others)
    script.write(28)


def at_limit(script, layout, place, j, limit, alpha, beta):
    """C_j of a sum at the size rule's limit there, of either sign, and one past it; the other knots are flat."""
    for c in (limit, -limit, limit + 1, -limit - 1):
        a, b = shares(alpha, beta, c)
        answer = layout(place, j, c, alpha - 2 * beta) if abs(c) == limit else 6
        both_ways(script, answer, alpha, beta, layout(place, j, a, 1), layout(place, j, b, -2))


# Multipliers of which one is −1 or 1, so that there are shares of every sum.
TURNS = ((1, 1), (-1, 1), (1, -3), (-1, -2))


def sizes_of_sums(script):
    """Combine: the size rule at every order with gaps 1, 2, 15 and 16, at its limit and past it: a new knot, the held knot, a lone one"""
    script.hold_knots((7, (1, 2)), (9, (3,)))
    for j in range(GRADE_MAX + 1):
        at_limit(script, single_knot, 1, j, SIZE_MAX, *TURNS[j % 4])
        for turn, h in enumerate((1, 2, 15, 16), j):
            at_limit(script, new_knot, h, j, limit_at(h, j), *TURNS[turn % 4])
            at_limit(script, held_knot, h, j, limit_at(h, j), *TURNS[(turn + 1) % 4])


def sizes_at_every_knot(script):
    """Combine: the size rule at every knot of five and every order, at the limit that the greater of its gaps sets, and past it"""
    script.hold_knots((7, (1, 2)), (9, (3,)))
    for k in range(len(FIVE)):
        for j in range(GRADE_MAX + 1):
            at_limit(script, one_of_five, k, j, limit_at(greater_gap(k), j), *TURNS[(j + k) % 4])


# Multipliers of 2^28 and 2^28 that give 2^32, or 2^28 more or less than it, and 2^33; then 2^31, 2^30 and 2^29.
WIDE = (
    (16, 0), (8, 8), (15, 1), (16, 1), (16, -1), (16, 16), (8, 0), (4, 4), (7, 1), (16, -8), (3, 1), (16, -12), (2, 0), (16, -14),
)

# Those whose products cancel, to 0 or to 2^28.
CANCELLING = ((16, -16), (16, -15), (15, -16), (8, -7), (1, -1), (-1, 2))


def wide_sums(script):
    """Combine: sums past 32 bits, of which the low 32 bits are 2^31 or within the size rule; and large products that cancel"""
    script.hold_knots((7, (1, 2)), (9, (3,)))
    for layout, h, j in (
        (single_knot, 1, 0), (single_knot, 1, 7), (new_knot, 16, 1), (new_knot, 16, 7), (held_knot, 16, 6), (held_knot, 1, 0),
    ):
        for c in (limit_at(h, j), -limit_at(h, j)):
            knots, opposite = layout(h, j, c, 1), layout(h, j, -c, -1)
            for alpha, beta in WIDE:
                one_way(script, 6, alpha, beta, knots, knots)
                one_way(script, 6, -beta, alpha, opposite, knots)
            for alpha, beta in CANCELLING:
                answer = layout(h, j, (alpha + beta) * c, alpha + beta)
                one_way(script, answer, alpha, beta, knots, knots)
                one_way(script, answer, -beta, alpha, opposite, knots)
    sixteenth = SIZE_MAX // 16
    for alpha, beta, a, b, c in (
        (16, 1, SIZE_MAX, 5, None), (16, -1, SIZE_MAX, 1, None), (8, -1, SIZE_MAX, 1, None), (8, 1, SIZE_MAX, 1, None),
        (16, -16, SIZE_MAX, SIZE_MAX - sixteenth, SIZE_MAX), (16, -16, SIZE_MAX, SIZE_MAX - sixteenth - 1, None),
        (16, 0, sixteenth, 7, SIZE_MAX), (16, 0, sixteenth + 1, 7, None),
        (16, 1, sixteenth, 0, SIZE_MAX), (16, 1, sixteenth, 1, None), (16, 1, sixteenth, -1, SIZE_MAX - 1),
    ):
        for sign in (1, -1):
            answer = 6 if c is None else [(9, (sign * c,))]
            both_ways(script, answer, alpha, beta, [(9, (sign * a,))], [(9, (sign * b,))])
            both_ways(script, answer, alpha, -beta, [(9, (sign * a,))], [(9, (-sign * b,))])


def causes_of_combinations(script):
    """Combine: 14, then 13, then 6, alone and together, at every two knots"""
    script.hold_knots((7, (1, 2)), (9, (3,)))
    sound = [(10, (1, 0)), (12, (2, 0)), (14, (3, 0))]
    for others in all_unlike(sound):
        both_ways(script, 13, 1, 1, sound, others)
        both_ways(script, 14, 17, 0, sound, others)
    for k, (position, _) in enumerate(sound):
        large = with_knot(sound, k, position, (SIZE_MAX, 0))
        both_ways(script, 6, 1, 1, large, large)
        both_ways(script, 14, 17, 1, large, large)
        both_ways(script, 14, -1, LOWEST, large, large)
        for others in all_unlike(large):
            both_ways(script, 13, 1, 1, large, others)
            both_ways(script, 14, 1, -17, large, others)
    script.write(28)


def sums_with_readings(script):
    """Combine: blocks of edition 2 combine as their reels do, and their sum is written in edition 1"""
    script.hold_knots((7, (1, 2)), (9, (3,)))
    of_top, of_base = ([edition_2(knots, readings) for readings in (FEW, at_knot(1, 32), NO_READINGS)] for knots in (TOP_PLY, BASE_PLY))
    for block in (*of_top, block_of(TOP_PLY)):
        for other in (*of_base, block_of(BASE_PLY)):
            script.combine(at_positions(TOP_PLY, (7, -7), (-4, 3), (-109,)), 1, -1, block, other)
    script.combine([], 1, 1, edition_2((), []), block_of([]))
    script.combine([(10, (16, 0))], -16, 16, edition_2(TOP_PLY[:1], different(32)), edition_2([(10, (6, -3))], different(1)))
    large = with_knot(TOP_PLY, 2, 27, (SIZE_MAX,))
    for number, alpha, knots in ((14, 17, TOP_PLY), (13, 1, moved(TOP_PLY, 1)), (6, 1, large)):
        script.combine(number, alpha, 1, edition_2(large, FEW), edition_2(knots, FEW))
    sound, too_many = block_of(TOP_PLY), edition_2(TOP_PLY, at_knot(0, COUNTS[-1]))
    script.unreadable(line_for("combine", 1, 1, too_many, sound), line_for("combine", 17, 1, sound, too_many))
    script.write(28)


def forms_of_combinations(script):
    """Combine: the forms that its numbers may have, and lines that are unreadable"""
    script.hold_knots((7, (1, 2)), (9, (3,)))
    block, other = block_of(TOP_PLY[:1]), block_of(BASE_PLY[:1])
    good, like = hex_of(block), hex_of(other)
    for numbers in ("01 -0", "-0 -0000", f"{'0' * 300}1 -{'0' * 300}1", "-00016 0016"):
        script.call(f"combine {numbers} {good} {like}")
    for numbers in ("0000000000000002147483647 1", "1 -0000000000000002147483648", "-017 -0"):
        script.call(f"combine {numbers} {good} {like}", "refused 14")
    script.unreadable(
        "combine", "combine ", "combine 1", "combine 1 1", "combine 1 1 ", f"combine 1 1 {good}", f"combine 1 1 {good} ",
        f"combine 1 {good} {like}", f"combine {good} {like}", f"combine {good} {like} 1 1", f"combine 1 {good} 1 {like}",
        f"combine 1 1 {good} {like} ", f"combine 1 1 {good} {like} 1", f"combine 1 1 {good} {like} -", f"combine 1 1 1 {good} {like}",
        f"combine 1 1 {good} {like} {like}", f"combine 1 1 {good} {like}\r", f"combine  1 1 {good} {like}", f"combine 1  1 {good} {like}",
        f"combine 1 1  {good} {like}", f"combine 1 1 {good}  {like}", f" combine 1 1 {good} {like}", f"combine\t1 1 {good} {like}",
        f"Combine 1 1 {good} {like}", f"COMBINE 1 1 {good} {like}", f"combines 1 1 {good} {like}", f"combined 1 1 {good} {like}",
        f"combin 1 1 {good} {like}", f"combine1 1 {good} {like}", f"combine 1 1 {good}{like}", f"combine 1 1 {good},{like}",
        f"combine 1 1 {good[:-1]} {like}", f"combine 1 1 {good} {like[:-1]}", f"combine 1 1 {good.upper()} {like}",
        f"combine 1 1 {good} {like.upper()}", f"combine 1 1 {good} {like[:-1]}g", f"combine 1 1 0x00 {like}", f"combine 1 1 {good}- {like}",
        f"combine 1 1 - {like}", f"combine 1 1 {good} -", "combine 1 1 - -", "combine 17 1 - -", f"combine 1 1 -- {like}",
        f"same 1 1 {good} {like}", f"read 1 1 {good} {like}",
    )
    for number in (
        "2147483648", "-2147483649", "4294967295", "4294967296", "4294967297", "18446744073709551617", f"1{'0' * 300}",
        "+1", "-", "--1", "1-", "1.0", "1e1", "0x1", "x", "",
    ):
        script.unreadable(f"combine {number} 1 {good} {like}", f"combine 1 {number} {good} {like}")
    script.unreadable(f"combine 2147483648 17 {good} {like}", f"combine 17 2147483648 {good} {hex_of(block_of([]))}")
    a, b = TOP_PLY[:2]
    refused = [block_of(knots) for knots in ([b, a], [a, (27, FLAT)], [(10, MORE)])] + [packed([header_word(130), 0])]
    for bad in (block[:-4], block + bytes(4), block[:-1], *refused):
        for alpha, beta in ((1, 1), (17, 0)):
            script.unreadable(line_for("combine", alpha, beta, bad, other), line_for("combine", alpha, beta, block, bad))
        script.unreadable(line_for("combine", 1, -1, bad, bad))
    script.write(28)


def ask_around(script):
    """The reel that stands: value and trend at, beside and between its knots; the totals of its pieces, of a long reel of
    every 16th, and of all."""
    last = len(script.reel.knots) - 1
    script.ask(*query_positions(script.reel.knots))
    script.add_up((0, last), *((k, k + 1) for k in range(0, last, 1 if last < 9 else 16)))


def read_and_ask(script, alpha, beta, knots, others):
    """A sum that no cause refuses becomes the reel and is asked."""
    accepted(script, alpha, beta, knots, others)
    script.read_sum()
    ask_around(script)


# Knots of grades 0 and 0, the value at 1/256, and the values there of αA + βA. In the first one scaling goes up by 1/3 and the
# other down by 1/3, and so in its sums: these have αv + βv. In the second both go up by 1/15. As 32 times that is 2 and 2/15,
# the values of −32A and 32A are 4 from αv + βv.
ROUNDED = (
    ([(0, (1,)), (3, (1,))], 65_536, ((-1, 0, -65_536), (0, -1, -65_536), (1, 1, 131_072), (2, 1, 196_608), (1, -1, 0), (0, 0, 0))),
    ([(0, (1,)), (15, (14,))], 65_758, ((-16, -16, -2_104_252), (16, 16, 2_104_252), (16, -16, 0), (-1, 0, -65_758), (1, 0, 65_758))),
)


def values_of_sums(script):
    """Sums that are read: value, trend and total at, beside and between their knots"""
    for knots, v, sums in ROUNDED:
        script.hold_knots(*knots)
        script.call("value 1", f"value {v}")
        for alpha, beta, of_sum in sums:
            read_and_ask(script, alpha, beta, knots, knots)
            script.call("value 1", f"value {of_sum}")
    chance = random.Random(11)
    for h in (3, 5, 7, 11, 13, 15):
        knots, others = two_reels(chance, h, (0, 0), (h,), (ordinary,))
        for alpha, beta in ((-1, 0), (0, -1), (-1, -1)):
            read_and_ask(script, alpha, beta, knots, others)
    turns = ((-1, 0), (1, 1), (16, -16), (1, -1), (-16, -16), (0, 1), (7, -5), (0, 0), (16, 16))
    for turn, (m, n) in enumerate(((0, 0), (0, 1), (1, 0), (1, 1), (0, 7), (7, 0), (3, 2), (7, 7), (6, 7))):
        for h in (1, 3, 7, 11, 16):
            knots, others = two_reels(chance, 50 * h, (m, n), (h,), (small,))
            read_and_ask(script, *turns[(turn + h) % len(turns)], knots, others)
    like_mixed = at_positions(MIXED, (17,), (3, 1, -4, 1, -5, 9, -2, 0), (6, -5, 3, 5), (8, -9), (7, 9, -3))
    for alpha, beta in ((1, 1), (1, -1), (-1, 0), (-1, 3), (0, 8)):
        read_and_ask(script, alpha, beta, MIXED, like_mixed)


def flat_combinations(script):
    """129 flat knots: 13 and 6 far into them."""
    flat, others = ([(4 * k, (c * k,)) for k in range(KNOTS_MAX)] for c in (1, -3))
    last = flat[-1][0]
    one_way(script, [(4 * k, (5 * k,)) for k in range(KNOTS_MAX)], 2, -1, flat, others)
    for unlike in (others[:-1], with_knot(others, 128, last - 1, FLAT), with_knot(others, 128, last, (1, 0))):
        both_ways(script, 13, 1, 1, flat, unlike)
    for k in (0, 64, 128):
        large = with_knot(flat, k, 4 * k, (SIZE_MAX,))
        both_ways(script, 6, 16, 0, large, others)
        one_way(script, 13, 16, 0, large, others[:-1])
        one_way(script, 14, 17, 0, large, others[:-1])


def seventh_combinations(script):
    """129 knots of grade 7, with coefficients at the limits; 6 at the last knot alone."""
    gaps = [k * 7 % 16 + 1 for k in range(KNOTS_MAX - 1)]
    seventh = laid_out(random.Random(14), 0, [GRADE_MAX] * KNOTS_MAX, gaps, (extreme,))
    one_way(script, seventh, 16, -15, seventh, seventh)
    script.read_sum()
    ask_around(script)
    one_way(script, zeros(seventh), 1, -1, seventh, seventh)
    one_way(script, 6, 1, 1, seventh, [*zeros(seventh[:-1]), seventh[-1]])


def mixed_combinations(script):
    """129 knots with all pairs of grades side by side twice: also a value or a trend within each piece of the sum."""
    chance = random.Random(12)
    grades = [*cycle_of_grades()] * 2
    for alpha, beta in ((13, -16), (-1, 5)):
        gaps = [chance.randint(1, GAP_MAX) for _ in range(KNOTS_MAX - 1)]
        read_and_ask(script, alpha, beta, *two_reels(chance, chance.randint(0, 60_000), grades + grades[:1], gaps, (small,)))
        for k in range(KNOTS_MAX - 1):
            start, D = UNIT_OF_POSITION * script.reel.knots[k][0], script.reel.piece(k).D
            script.call(line_for(("value", "trend")[k % 2], start + chance.randint(1, D - 1)))


def full_combinations(script):
    """Combine: 129 knots, flat, of grade 7 and of mixed grades; the longest blocks with readings"""
    flat_combinations(script)
    seventh_combinations(script)
    mixed_combinations(script)
    longest = greatest_block()
    script.combine([(k, (0,) * (GRADE_MAX + 1)) for k in range(KNOTS_MAX)], 16, -16, longest, longest)


def multiplier_by_chance(chance):
    """Within −16 to 16 as a rule, −1, 0 and 1 more often."""
    within = chance.randint(-1, 1), chance.randint(-MULTIPLIER_MAX, MULTIPLIER_MAX), chance.choice((-16, 16))
    outside = chance.choice((-17, 17, LOWEST, HIGHEST, chance.randint(LOWEST, HIGHEST)))
    return chance.choices((*within, outside), (8, 12, 4, 1))[0]


def combination_by_chance(chance):
    """Of like reels as a rule; of an unlike one or of a block that is spoiled, in either place; a line that is spoiled."""
    alpha, beta = multiplier_by_chance(chance), multiplier_by_chance(chance)
    knots, others = reels_by_chance(chance, alpha, beta)
    if not chance.randrange(8):
        others = unlike_by_chance(chance, others)
    blocks = [block_of(knots), block_of(others)]
    if not chance.randrange(12):
        blocks[chance.randrange(2)] = spoiled(chance, knots)
    if chance.randrange(2):
        blocks.reverse()
        alpha, beta = beta, alpha
    line = line_for("combine", alpha, beta, *blocks)
    k = chance.randrange(len(line))
    return chance.choices((line, line[:k] + " " + line[k:], line[:k] + line[k + 1 :], line.upper()), (60, 1, 1, 1))[0]


def combinations_by_chance(script):
    """Combine by chance: small coefficients, ordinary and extreme ones, and sums near the size rule's limits; many of the sums are read"""
    chance = random.Random(13)
    script.hold_knots(*WORKED)
    seen = Counter()
    for _ in range(600):
        kind = kind_of_answer(script.call(combination_by_chance(chance)))
        seen[kind] += 1
        if kind == "combined" and chance.randrange(2):
            script.read_sum()
            if len(script.reel.knots) > 1:
                script.ask(place_by_chance(chance, script.reel))
                script.add_up((0, len(script.reel.knots) - 1))
    for kind in ("combined", "refused 6", "refused 13", "refused 14", "unreadable"):
        hold(seen[kind] >= 30, "too few answers by chance of", kind, seen)
