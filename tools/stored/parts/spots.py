"""Parts of the replay script: which coefficient was too large (request 6/14)."""
import random
from itertools import accumulate, combinations, count

from document.block import READINGS_MAX, block_of, block_words
from document.coefficients import FLAT, MORE, only
from document.combination import knots_of_sum
from document.knot import GAP_MAX, GRADE_MAX, KNOTS_MAX, POSITION_MAX, SIZE_MAX, TooLarge
from document.spots import (
    NINE_TOO_LARGE, append_by_chance, block_by_chance, correction_by_chance, hold_all_named, hold_spot,
    products_of_append, products_of_correction, products_of_list, sum_by_chance,
)
from stored.faults import SOUND, Fault, all_faults, faulty, first_number
from stored.parts.combinations import HIGHEST, LOWEST, TURNS, WIDE, both_ways, one_way
from stored.readings import FEW, at_knot, different, edition_2, places_of_readings
from stored.reels import NO_PLACE
from stored.replay_lines import line_for, line_of_sum
from stored.spots import at_limits, flat_before, four_knots, in_shares, past_two_limits
from stored.sums import all_unlike, limit_at, with_knot

GAPS = range(1, GAP_MAX + 1)
ORDERS = range(GRADE_MAX + 1)


def half(h):
    """A lesser gap, where there is one."""
    return max(h // 2, 1)


def unchanged(script):
    """A write shows that the refused calls before it have changed nothing."""
    script.write(len(block_of(script.reel.knots)))


# ---- append


def too_large_in_appends(script):
    """Append: one past the limit at every order and gap: the new knot, the held one, and both: then the held one"""
    for h in GAPS:
        before = flat_before(h % 4, 100, half(h))
        new = len(before) + 1
        script.hold_knots(*before, (100, at_limits(h)))
        for j in ORDERS:
            script.expect(TooLarge(new, j, h), "append", 100 + h, at_limits(h, [j], (-1) ** j))
        unchanged(script)
        script.expect(0, "append", 100 + h, at_limits(h))
        for j in ORDERS[1:] if h > 1 else ():
            script.hold_knots(*before, (100, at_limits(h, [j], (-1) ** h)))
            script.expect(TooLarge(new - 1, j, h), "append", 100 + h, FLAT)
            script.expect(TooLarge(new - 1, j, h), "append", 100 + h, at_limits(h, [(j + h) % 8]))
            unchanged(script)


def with_order(coefficients, j, c):
    """With c in place of C_j."""
    return coefficients[:j] + (c,) + coefficients[j + 1 :]


def several_too_large_in_appends(script):
    """Append: two orders and more too large, of the new knot and of the held one: the least of them"""
    script.hold_knots((99, FLAT), (100, FLAT))
    for turn, (i, j) in enumerate(combinations(ORDERS, 2)):
        h = 5 * turn % GAP_MAX + 1
        past = at_limits(h, [i, j])
        for coefficients in (past, with_order(past, j, LOWEST), with_order(past, i, HIGHEST)):
            script.expect(TooLarge(2, i, h), "append", 100 + h, coefficients)
    for h in (1, 16):
        for coefficients in (at_limits(h, ORDERS), (LOWEST,) * 8, (HIGHEST,) * 8):
            script.expect(TooLarge(2, 0, h), "append", 100 + h, coefficients)
    unchanged(script)
    for turn, (i, j) in enumerate(combinations(ORDERS[1:], 2)):
        h = 7 * turn % (GAP_MAX - 1) + 2
        past = at_limits(h, [i, j])
        for held in (past, with_order(past, j, SIZE_MAX), with_order(past, i, -SIZE_MAX)):
            script.hold_knots((99, FLAT), (100, held))
            script.expect(TooLarge(1, i, h), "append", 100 + h, at_limits(h, ORDERS[: turn % 3]))
    script.hold_knots((100, at_limits(1)))
    script.expect(TooLarge(0, 1, 2), "append", 102, MORE)
    script.expect(TooLarge(1, 0, 1), "append", 101, MORE)
    unchanged(script)


def other_causes_of_appends(script):
    """Append: 2, 3, 4 and 5 of a new knot that is too large, behind a held one that is too: no place"""
    script.hold_knots((100, (0, SIZE_MAX)))  # it allows no gap of 2
    for number, positions, coefficients in (
        (3, (0, 100, 101, 102, 117, POSITION_MAX + 1), NINE_TOO_LARGE), (3, (101, 116, 117), ()),
        (4, (0, 99, 100, POSITION_MAX + 1, NO_PLACE), MORE), (4, (100, POSITION_MAX + 1), at_limits(1, ORDERS)),
        (5, (117, 118, POSITION_MAX), MORE), (5, (117, POSITION_MAX), FLAT),
    ):
        for position in positions:
            script.expect(number, "append", position, coefficients)
        script.expect(TooLarge(0, 1, 16), "append", 116, MORE)
        script.expect(TooLarge(1, 0, 1), "append", 101, MORE)
        unchanged(script)
    last = KNOTS_MAX - 1
    script.hold_knots(*flat_before(last - 1, last - 1), (last - 1, (0, SIZE_MAX)))
    script.expect(TooLarge(last - 1, 1, 2), "append", last + 1, MORE)
    script.expect(TooLarge(last, 7, 1), "append", last, at_limits(1, [7]))
    script.expect(0, "append", last, at_limits(1))
    for position in (last, last + 1, last + 2, last + 17):
        for coefficients in (FLAT, MORE, NINE_TOO_LARGE):
            script.expect(2, "append", position, coefficients)
    unchanged(script)


# ---- correct


def too_large_in_corrections(script):
    """Correct: one past the limit at every order and gap, the left gap greater than the right, less and the same"""
    for h in GAPS:
        for left, right in sorted({(h, half(h)), (half(h), h), (h, h)}):
            before = flat_before(h % 3, 100 - left)
            k = len(before) + 1
            script.hold_knots(*before, (100 - left, FLAT), (100, FLAT), (100 + right, FLAT))
            for j in ORDERS:
                gap = h if j else left  # at order 0 both gaps have the same product
                script.expect(TooLarge(k, j, gap), "correct", k, at_limits(h, [j], (-1) ** (h + j)))
            unchanged(script)
            script.expect(0, "correct", k, at_limits(h))


def several_too_large_in_corrections(script):
    """Correct: two orders too large, by one gap or by both: the left gap comes first, also with the greater order"""
    for left, right in ((2, 3), (5, 16), (16, 5)):
        script.hold_knots((100 - left, FLAT), (100, FLAT), (100 + right, FLAT))
        greater = max(left, right)
        for i, j in combinations(ORDERS[1:], 2):
            by_left = j if left < right else i
            script.expect(TooLarge(1, by_left, left), "correct", 1, past_two_limits(i, right, j, left))
            script.expect(TooLarge(1, i, left), "correct", 1, past_two_limits(i, left, j, right))
            script.expect(TooLarge(1, i, greater), "correct", 1, at_limits(greater, [i, j]))
        for coefficients in (at_limits(left, ORDERS), (LOWEST,) * 8, (HIGHEST,) * 8):
            script.expect(TooLarge(1, 0, left), "correct", 1, coefficients)
        unchanged(script)


def too_large_at_ends(script):
    """Correct: the first knot, which has a right gap alone, and the last, which has a left one; no place of 9 and 3"""
    for h in (1, 3, 8, 12, 16):
        script.hold_knots((100, FLAT), (100 + h, FLAT), (117, FLAT))
        for k, gap in ((0, h), (2, 17 - h)):
            for j in ORDERS:
                script.expect(TooLarge(k, j, gap), "correct", k, at_limits(gap, [j], (-1) ** j))
            unchanged(script)
            script.expect(0, "correct", k, at_limits(gap))
        for number, k in ((9, 3), (9, NO_PLACE), (3, 0), (3, 1), (3, 2)):
            script.expect(number, "correct", k, NINE_TOO_LARGE)
        script.expect(9, "correct", 3, MORE)
    script.hold_knots((100, FLAT), (109, FLAT))
    for k in (0, 1):
        script.expect(TooLarge(k, 2, 9), "correct", k, only(2, limit_at(9, 2) + 1))
    script.hold_knots(*((3 * k + k % 2, FLAT) for k in range(KNOTS_MAX)))
    for k, gap in ((0, 4), (1, 4), (64, 4), (65, 4), (127, 4), (128, 2)):
        script.expect(TooLarge(k, 5, gap), "correct", k, at_limits(gap, [5, 6]))
    script.expect(9, "correct", KNOTS_MAX, MORE)
    unchanged(script)


# ---- blocks and sums


def ask_block(script, refusal, block, turn):
    """By turns it is read and viewed: the knot and the stride of a view come after its reader's refusal."""
    k, n = ((0, 1), (NO_PLACE, 1), (0, 0), (NO_PLACE, 0))[turn // 3 % 4]
    match turn % 3:
        case 0:
            script.expect(refusal, "read", block)
        case 1:
            script.view(refusal, block, k, n)
        case 2:
            script.view_at(refusal, block, k, n, turn)


# Multipliers of which the second is as large as it may be, so that both shares of a sum are small.
LARGE_TURNS = ((1, 16), (-1, 16), (1, -16), (-1, -16))


def ask_sum(script, answer, knots, turn, multipliers=TURNS):
    """By turns of the multipliers and of the reels, a sum that would have these knots."""
    alpha, beta = multipliers[turn % 4]
    reel, other = in_shares(alpha, beta, knots)
    if turn % 3:
        one_way(script, answer, alpha, beta, reel, other)
    else:
        one_way(script, answer, beta, alpha, other, reel)


def single_too_large(script):
    """A lone knot, whose gap is 1: every order and every two of them, appended, corrected, in a block and in a sum"""
    orders_past = [*([j] for j in ORDERS), *combinations(ORDERS, 2), ORDERS]
    refused = [(TooLarge(0, past[0], 1), at_limits(1, past, (-1) ** turn)) for turn, past in enumerate(orders_past)]
    script.expect(0, "clear")
    for spot, coefficients in refused:
        script.expect(spot, "append", 40, coefficients)
    unchanged(script)
    script.expect(0, "append", 40, at_limits(1))
    for spot, coefficients in refused:
        script.expect(spot, "correct", 0, coefficients)
    unchanged(script)
    for turn, (spot, coefficients) in enumerate(refused):
        ask_block(script, spot, block_of([(40, coefficients)]), turn)
        ask_sum(script, spot, [(40, coefficients)], turn)
    unchanged(script)


def too_large_at(h, j):
    """Spots with knots, of which the new one, and where it can be the held one, is one past the limit here."""
    before, sign = flat_before(h % 4, 100, half(h)), (-1) ** (h + j)
    new = len(before) + 1
    yield TooLarge(new, j, h), [*before, (100, at_limits(h)), (100 + h, at_limits(h, [j], sign))]
    if h > 1 and j > 0:
        behind = [(100 + h, FLAT), (101 + h, FLAT)] if h % 2 else [(100 + h, at_limits(h, [(j + h) % 8]))]
        yield TooLarge(new - 1, j, h), [*before, (100, at_limits(h, [j], sign)), *behind]


def by_editions(knots, turn):
    """The block of these knots, by turns of edition 1 and of edition 2 with few readings or none."""
    return edition_2(knots, different(*((turn + k) % 3 for k in range(len(knots))))) if turn % 2 else block_of(knots)


def too_large_in_blocks(script):
    """Read and view: one past the limit at every order and gap: a knot with the gap before it or with that behind it"""
    script.hold_knots((20, (1, 1)))
    turn = count()
    for h in GAPS:
        for j in ORDERS:
            for spot, knots in too_large_at(h, j):
                ask_block(script, spot, by_editions(knots, h + j), h + next(turn))
        script.try_block(0, block_of([(100, at_limits(h)), (100 + h, at_limits(h, sign=-1))]))
    unchanged(script)


def too_large_in_sums(script):
    """Combine: one past the limit at every order and gap: a knot with the gap before it or with that behind it"""
    script.hold_knots((7, (1, 2)), (9, (3,)))
    turn = count()
    for h in GAPS:
        for j in ORDERS:
            for spot, knots in too_large_at(h, j):
                ask_sum(script, spot, knots, h + next(turn))
        knots = [(100, at_limits(h)), (100 + h, at_limits(h, sign=-1))]
        ask_sum(script, knots, knots, h)
    unchanged(script)


def each_knot_in_turn(script):
    """Read, view and combine: four knots, each too large from some gap on or not at all: the first in the sequence"""
    script.hold_knots((7, (1, 2)), (9, (3,)))
    for gaps in ((2, 5, 16), (16, 5, 2), (5, 16, 2)):
        for turn, (spot, knots) in enumerate(four_knots(gaps)):
            ask_block(script, spot, by_editions(knots, turn // 3), turn)
    for gaps in ((2, 3, 4), (2, 3, 2)):
        for turn, (spot, knots) in enumerate(four_knots(gaps)):
            ask_sum(script, spot, knots, turn, LARGE_TURNS)
    unchanged(script)


# The spots of the faults of SOUND that are a 6, in their sequence.
SPOTS_OF_FAULTS = [
    TooLarge(0, 0, 1), TooLarge(0, 1, 1), TooLarge(0, 1, 2),
    TooLarge(1, 0, 2), TooLarge(1, 1, 2), TooLarge(1, 1, 16),
    TooLarge(2, 0, 16), TooLarge(2, 0, 16),
]


def spots_of_faults(readings):
    """Each with its fault, of SOUND with these readings."""
    faults = [fault for fault in all_faults(readings) if fault.number == 6]
    return [*zip(SPOTS_OF_FAULTS, faults, strict=True)]


def first_refusal(spot, fault, other):
    """The spot of a fault that is a 6, if it comes first, or the number of the other."""
    number = first_number(fault, other)
    return spot if number == 6 else number


def too_large_among_faults(script):
    """Read and view: a coefficient that is too large, and another fault before it or behind it: the first answers"""
    script.hold_knots((20, (1, 1)))
    turn, words = count(), block_words(SOUND, FEW)
    others = {(fault.place, fault.number): fault for fault in all_faults(FEW) if fault.number not in (0, 6)}.values()
    for spot, fault in spots_of_faults(FEW):
        for _ in range(3):
            ask_block(script, spot, faulty(words, [fault]), next(turn))
        for other in filter(fault.can_stand_with, others):
            ask_block(script, first_refusal(spot, fault, other), faulty(words, [fault, other]), next(turn))
    for (spot, fault), (_, later) in combinations(spots_of_faults(FEW), 2):
        if fault.can_stand_with(later):
            ask_block(script, spot, faulty(words, [fault, later]), next(turn))
    for k in range(len(SOUND)):
        readings = at_knot(k, READINGS_MAX + 1)
        words = block_words(SOUND, readings)
        too_many = Fault((places_of_readings(words)[-1], 1), 12)
        for spot, fault in spots_of_faults(readings):
            ask_block(script, first_refusal(spot, fault, too_many), faulty(words, [fault]), next(turn))
    unchanged(script)


def too_large_in_full_blocks(script):
    """Read, view and combine: the first knot of 129, knots with the gap before them and behind them, and the last"""
    script.hold_knots((7, (1, 2)), (9, (3,)))
    positions = [0, *accumulate(k * 7 % 16 + 1 for k in range(KNOTS_MAX - 1))]
    flat = [(position, (1,) * 5) for position in positions]
    for turn, (k, h) in enumerate(((0, 1), (64, 10), (65, 8), (127, 10), (128, 10))):
        limit = limit_at(h, 4)
        ask_block(script, TooLarge(k, 4, h), block_of(with_knot(flat, k, positions[k], only(4, limit + 1))), turn)
        large = with_knot(flat, k, positions[k], only(4, limit))
        one_way(script, TooLarge(k, 4, h), 2, -1, large, with_knot(flat, k, positions[k], only(4, -1)))
    unchanged(script)


def too_large_in_wide_sums(script):
    """Combine: sums past 32 bits, whose low 32 bits can be within the size rule, before others that are too large"""
    script.hold_knots((7, (1, 2)), (9, (3,)))
    for sign in (1, -1):
        wide = (1, 0, sign * SIZE_MAX, 0, 0, sign * (SIZE_MAX // 2 + 1), 1)
        knots = [(100, FLAT), (101, wide), (102, FLAT)]
        for alpha, beta in WIDE:
            both_ways(script, TooLarge(1, 2, 1), alpha, beta, knots, knots)
    for h, j in ((16, 1), (16, 6), (2, 7)):
        knots = [(100, only(j, limit_at(h, j))), (100 + h, at_limits(h))]
        for alpha, beta in ((16, 0), (-16, 0), (8, 8), (2, 0), (-1, -1), (16, -14)):
            one_way(script, TooLarge(0, j, h), alpha, beta, knots, knots)
    unchanged(script)


def other_causes_of_sums(script):
    """Combine: 14 and 13 of reels whose sum is too large, at each knot: no place"""
    script.hold_knots((7, (1, 2)), (9, (3,)))
    sound = [(10, (1, 0)), (12, (2, 0)), (14, (3, 0))]
    for k, (position, _) in enumerate(sound):
        large = with_knot(sound, k, position, (0, SIZE_MAX // 3))  # a gap of 3 allows it too
        both_ways(script, TooLarge(k, 1, 2), 1, 1, large, large)
        both_ways(script, 14, 17, -1, large, large)
        for others in all_unlike(large)[k::3]:
            both_ways(script, 13, 1, 1, large, others)
            one_way(script, 14, 1, LOWEST, large, others)
    unchanged(script)


# ---- by chance


def appended(chance, reel):
    """A line, its products, and what it answers otherwise; and so of the other calls."""
    position, coefficients = append_by_chance(chance, reel)
    products = products_of_append(reel.knots, position, coefficients)
    return line_for("append", position, coefficients), products, "accepted"


def corrected(chance, reel):
    k, coefficients = correction_by_chance(chance, reel)
    return line_for("correct", k, coefficients), products_of_correction(reel.knots, k, coefficients), "accepted"


def read_or_viewed(chance, _):
    knots = block_by_chance(chance)
    calls = ("read", (), "accepted"), ("view", (0, 1), "view 0"), ("viewat", (0, 1, 0), "past")
    name, fields, otherwise = chance.choice(calls)
    return line_for(name, block_of(knots), *fields), products_of_list(knots), otherwise


def combined(chance, _):
    alpha, beta, reel, other = sum_by_chance(chance)
    knots = knots_of_sum(alpha, beta, reel, other)
    line = line_for("combine", alpha, beta, block_of(reel.knots), block_of(other.knots))
    return line, products_of_list(knots), line_of_sum(knots)


def named(script, line, products, otherwise):
    """A call that names the first of these products past the limit, or else answers otherwise."""
    answer = script.call(line)
    fields = answer.split(" ")
    spot = TooLarge(*map(int, fields[2:5])) if fields[:2] == ["refused", "6"] else answer
    return hold_spot(spot, products, otherwise)


def too_large_by_chance(script):
    """Append, correct, read, view and combine by chance, with coefficients about the size rule's limits"""
    chance, answers = random.Random(18), []
    for _ in range(125):
        if not 1 <= len(script.reel.knots) <= 4:
            script.hold_knots((99, FLAT))
        for asked in (appended, corrected, read_or_viewed, combined):
            answers.append(named(script, *asked(chance, script.reel)))
    hold_all_named(answers)
