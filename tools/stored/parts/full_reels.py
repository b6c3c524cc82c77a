"""Parts of the replay script: full reels, with their blocks, queries and greatest totals."""
from document.block import WRITTEN_MAX, block_of, block_words, coefficient_word, end_word, header_word, packed
from document.coefficients import FLAT, MORE, NINE, greatest, only
from document.knot import GAP_MAX, GRADE_MAX, KNOTS_MAX, POSITION_MAX, SIZE_MAX
from document.piece import UNIT_OF_POSITION, UNIT_OF_WATER
from document.reel import Reel


def refused_when_full(script, last):
    """2 of a full reel, alone and with every other cause; `last` is its last position."""
    for position in (last + 1, last + 16, last, 0, last + 17, POSITION_MAX + 1, 4_294_967_295):
        for coefficients in (FLAT, MORE, (), NINE):
            script.expect(2, "append", position, coefficients)
    for coefficients in ((), NINE, MORE, FLAT):
        script.expect(9, "correct", KNOTS_MAX, coefficients)


def query_when_full(script):
    """At both ends of a full reel and of its first, an inner and its last piece; just outside it; the reel's total, and 9."""
    positions = [UNIT_OF_POSITION * position for position, _ in script.reel.knots]
    script.ask(positions[0], positions[1] - 1, positions[64] + 99, positions[127] + 1, positions[128] - 1, positions[128])
    script.expect_asked(7, positions[128] + 1)
    script.add_up((0, 128), (0, 1), (127, 128), (64, 65), (1, 128), (0, 127), (128, 128))
    script.expect_added(9, (0, 129), (129, 129), (128, 127))


def full_reels(script):
    """Full reels: 129 knots appended, the next refused 2; written, read back, corrected at the first, an inner and the last knot"""
    script.expect(0, "clear")
    first = POSITION_MAX - GAP_MAX * (KNOTS_MAX - 1)
    for k in range(KNOTS_MAX):
        script.expect(0, "append", first + GAP_MAX * k, ((-1) ** k * (SIZE_MAX - k % 2 * k),))
    refused_when_full(script, POSITION_MAX)
    flat = list(script.reel.knots)
    for room in (1_040, 1_039, 1_041):
        script.write(room)
    query_when_full(script)
    script.expect(0, "clear")
    script.expect(0, "read", block_of(flat))
    for k in (0, 64, 128):
        script.expect(6, "correct", k, (SIZE_MAX + 1,))
        script.expect(0, "correct", k, (k, -k))
        query_when_full(script)
    script.write(1_052)

    script.expect(0, "clear")
    gaps = [k * 7 % 16 + 1 for k in range(KNOTS_MAX + 1)]
    position = 0
    for k in range(KNOTS_MAX):
        h = max(gaps[k], gaps[k + 1])
        script.expect(0, "append", position, greatest(GRADE_MAX, h, (-1) ** (k // 3), (-1) ** k))
        position += gaps[k + 1]
    refused_when_full(script, script.reel.knots[-1][0])
    seventh = list(script.reel.knots)
    for room in (WRITTEN_MAX, WRITTEN_MAX - 1, 4_700):
        script.write(room)
    query_when_full(script)
    script.expect(0, "clear")
    script.expect(0, "read", block_of(seventh))
    for k in (0, 77, 128):
        gap = max(Reel(seventh).gaps_beside(k))
        for j in (1, 7):
            script.expect(6, "correct", k, only(j, SIZE_MAX // gap**j + 1))
        script.expect(0, "correct", k, tuple(-c for c in seventh[k][1]))
    script.write(WRITTEN_MAX)
    script.expect(0, "correct", 128, FLAT)
    script.write(WRITTEN_MAX - 28)
    script.expect(0, "read", block_of([(k, greatest(GRADE_MAX, 1, (-1) ** k, -1)) for k in range(KNOTS_MAX)]))
    script.write(WRITTEN_MAX)
    long_blocks(script, flat, seventh)


def long_blocks(script, flat, seventh):
    """Faults far into a full block, and blocks of more than 4,652 bytes."""
    script.hold_knots((20, (1, 1)))
    words = block_words(flat)
    script.expect(2, "read", packed([header_word(130)] + words[1:]))
    script.expect(1, "read", packed([header_word(128)] + words[1:]))
    script.expect(1, "read", packed(words[:-1] + [end_word(len(words))]))
    script.expect(1, "read", packed(words[:-2] + words[-1:]))
    script.expect(6, "read", packed(words[:-2] + [coefficient_word(SIZE_MAX + 1), words[-1]]))
    script.expect(4, "read", packed(words[:-3] + [words[-5]] + words[-2:]))
    script.expect(5, "read", block_of([(position - 1, c) for position, c in flat[:-1]] + flat[-1:]))
    words = block_words(seventh)
    script.expect(1, "read", packed(words + [end_word(len(words))]))
    script.expect(2, "read", block_of(seventh + [(seventh[-1][0] + 1, (0,) * 8)]))
    script.expect(6, "read", packed(words[:-2] + [coefficient_word(-SIZE_MAX - 1), words[-1]]))
    zeros = [0] * (WRITTEN_MAX // 4)
    for number, knots in ((4, [(5, FLAT), (5, FLAT)]), (6, [(5, MORE)])):
        script.expect(number, "read", packed(block_words(knots) + zeros))


def a_flat_reel(script):
    """A reel of flat knots at 0 to 128: filled, the next refused 2, corrected at an inner knot"""
    script.expect(0, "clear")
    for k in range(KNOTS_MAX):
        script.expect(0, "append", k, FLAT)
    script.expect(2, "append", KNOTS_MAX, FLAT)
    script.expect(0, "correct", 64, (5, -3))
    script.write(1_044)


def greatest_totals(script):
    """Full reels at the limits of gap and size: the greatest totals of either sign"""
    for c in (SIZE_MAX, -SIZE_MAX):
        script.hold_knots(*((GAP_MAX * k, (c,)) for k in range(KNOTS_MAX)))
        query_when_full(script)
        script.call("total 0 128", f"total {c * UNIT_OF_WATER * GAP_MAX * (KNOTS_MAX - 1)}")
