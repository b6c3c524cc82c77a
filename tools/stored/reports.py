"""The stored blocks of crates/report_runs, with their reports."""
import random
from collections import Counter

from document.block import block_of, block_words, end_word, header_word, packed
from document.coefficients import MORE, MOST, extreme, greatest, only, ordinary
from document.hold import hold
from document.knot import GAP_MAX, GRADE_MAX, KNOTS_MAX, POSITION_MAX, SIZE_MAX
from document.known_results import WORKED
from document.report import INPUT_MAX, report_of
from stored.faults import SOUND, all_faults, faulty
from stored.readings import greatest_block, tried_blocks
from stored.reels import laid_out, reel_of_all_pairs, reels_of_lone_readings


def blocks_at_limits():
    """By length, by the number of knots, by position."""
    seventh = block_of([(k, greatest(GRADE_MAX, 1, (-1) ** k, (-1) ** (k // 2))) for k in range(KNOTS_MAX)])
    worked = block_of(WORKED)
    yield from (worked, b"", worked[:1], worked[:4], packed([header_word(0)]), worked[:7], worked[:-1], worked[:-4], worked + b"\0")
    yield from (seventh, seventh + b"\0", seventh + bytes(4), seventh[:-1], seventh[:-4])
    yield packed([header_word(200)] + [0] * (INPUT_MAX // 4))
    yield packed([header_word(200)] + [0] * (INPUT_MAX // 4 - 1))
    for knots in ((), (WORKED[0],), ((POSITION_MAX, MOST),), WORKED[:2], ((0, (1,)), (1, (0,))), ((10, (1,)), (12, (0,)))):
        yield block_of(knots)
    top = POSITION_MAX
    for sign in (1, -1):
        yield block_of([(top - 16, greatest(GRADE_MAX, 16, sign, 1)), (top, greatest(GRADE_MAX, 16, sign, -1))])
        yield block_of([(top - GAP_MAX * k, (sign * SIZE_MAX,)) for k in range(KNOTS_MAX - 1, -1, -1)])


def blocks_by_chance():
    """Of mixed grades, of which many are 0: only there does a report show rounding."""
    chance = random.Random(7)
    yield block_of(reel_of_all_pairs(chance, 3))
    for count in (2, 2, 3, 3, 4, 7, 12, 30):
        grades = [chance.choice((0, 0, chance.randint(0, GRADE_MAX))) for _ in range(count)]
        gaps = [chance.choice((3, 7, 15, 16, chance.randint(1, GAP_MAX))) for _ in range(count - 1)]
        yield block_of(laid_out(chance, chance.randint(0, 60_000), grades, gaps, (ordinary, extreme)))


def faulty_blocks():
    """Each number that read gives: the faults of a block of three knots, 1 and edition 2 once at each place; faults of
    blocks of one knot or none."""
    words = block_words(SOUND)
    ones = {fault.place: fault for fault in all_faults() if fault.number <= 1}
    others = [fault for fault in all_faults() if fault.number > 1]
    for fault in (*ones.values(), *others):
        yield faulty(words, [fault])
    single = block_words([(9, (5, -3))])
    yield from (block_of([(9, MORE)]), block_of([(0, only(7, -SIZE_MAX - 1))]))
    for faulty_words in (
        single[:-1],
        single[:2] + single[3:],
        single[:-1] + [end_word(5)],
        single + [0],
        [header_word(200)] + single[1:],
        [header_word(1), single[-1]],
        [header_word(0, edition=2), end_word(1)],
        [header_word(0), end_word(2)],
        [header_word(130), end_word(1)],
    ):
        yield packed(faulty_words)


def blocks_with_readings():
    """Those that the replay script reads; the longest input; longer ones, one of which read refuses with 12."""
    longest = greatest_block()
    of_limit = [(0, longest), (1, longest + b"\0"), (1, greatest_block(more=1))]
    for number, block in (*tried_blocks(), *of_limit):
        expected = (f"refused {number}\n",) if number else ("0 ", "refused 8\n")
        hold(report_of(block).startswith(expected), "the report of", block.hex())
        yield block


def stored_reports():
    """Blocks and their reports; every number that a report can have is among them, twice at least."""
    lone_readings = map(block_of, reels_of_lone_readings())
    blocks = [*blocks_at_limits(), *blocks_by_chance(), *faulty_blocks(), *blocks_with_readings(), *lone_readings]
    stored = [(block, report_of(block)) for block in blocks]
    numbers = Counter(report for _, report in stored)
    for number in (1, 2, 4, 5, 6, 8, 12):
        hold(numbers[f"refused {number}\n"] >= 2, "too few reports of", number)
    hold(max(map(len, blocks)) == INPUT_MAX + 4, "the longest stored block")
    return stored
