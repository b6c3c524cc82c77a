"""Parts of the replay script: clear, append, correct, write and same on reels of few knots, with the size rule and the limits."""
from document.block import block_of, header_word, packed
from document.coefficients import FLAT, LESS, MORE, MOST, NINE, greatest, only
from document.knot import GAP_MAX, GRADE_MAX, KNOTS_MAX, POSITION_MAX, SIZE_MAX
from document.known_results import WORKED
from stored.replay_lines import line_for


def the_worked_block(script):
    """The worked block: appended, written into outputs of several lengths, read"""
    for knot in WORKED:
        script.expect(0, "append", *knot)
    for room in (40, 39, 0, 41, 64, 1, 36, 38):
        script.write(room)
    script.expect(0, "clear")
    script.write(40)
    script.expect(0, "read", block_of(WORKED))
    for room in (39, 40):
        script.write(room)


def the_empty_reel(script):
    """No knot, and one knot"""
    script.expect(0, "clear")
    for room in range(13):
        script.write(room)
    script.expect(9, "correct", 0, FLAT)
    script.hold_knots(*WORKED)
    script.hold_knots()
    script.write(9)
    for position in (0, 1, 255, 256, POSITION_MAX):
        for coefficients in (FLAT, (-1,), tuple(range(-4, 4))):
            script.hold_knots((position, coefficients))
            length = len(block_of(script.reel.knots))
            for room in (length - 1, length):
                script.write(room)
    for call in ("clear", "clear"):
        script.expect(0, call)
    script.expect(0, "append", 0, FLAT)
    script.write(16)


def refused_appends(script):
    """Append: 3, 4, 5 and 6, alone and two at once; 2 is with the full reels"""
    script.expect(0, "clear")
    for coefficients in ((), NINE, (1,) * 10, (-1,) * 100, (SIZE_MAX + 1,) * 9):
        for position in (0, POSITION_MAX, POSITION_MAX + 1):
            script.expect(3, "append", position, coefficients)
    for position in (65_536, 65_537, 131_072, 2_147_483_648, 4_294_967_295):
        for coefficients in (FLAT, MORE):
            script.expect(4, "append", position, coefficients)
    for coefficients in (MORE, LESS, (0, SIZE_MAX + 1), only(7, -SIZE_MAX - 1)):
        script.expect(6, "append", 0, coefficients)
    script.expect(0, "append", 100, (0, SIZE_MAX))  # it allows no gap of 2
    for position in (0, 99, 100, 101, 102, 117, 65_536):
        for coefficients in ((), NINE, (SIZE_MAX + 1,) * 9):
            script.expect(3, "append", position, coefficients)
    for position in (0, 99, 100, 65_536, 65_636, 4_294_967_295):
        for coefficients in (FLAT, MORE):
            script.expect(4, "append", position, coefficients)
    for position in (117, 118, 356, POSITION_MAX):
        for coefficients in (FLAT, MORE):
            script.expect(5, "append", position, coefficients)
    for position, coefficients in ((102, FLAT), (116, FLAT), (102, MORE), (101, MORE), (101, LESS)):
        script.expect(6, "append", position, coefficients)
    script.expect(0, "append", 101, FLAT)
    script.hold_knots((100, FLAT))
    for position in (117, 118, 164, 356, POSITION_MAX):
        for coefficients in (FLAT, MORE):
            script.expect(5, "append", position, coefficients)
    script.expect(6, "append", 116, MORE)
    script.expect(6, "append", 116, only(1, SIZE_MAX // 16 + 1))
    script.expect(0, "append", 116, only(1, SIZE_MAX // 16))
    script.expect(4, "append", 116, FLAT)


def refused_corrections(script):
    """Correct: 9, 3 and 6, alone and two at once; 6 by the left gap, by the right gap, of a lone knot"""
    lists = ((), NINE, (SIZE_MAX + 1,) * 9, MORE, FLAT)
    script.expect(0, "clear")
    for k in (0, 1, 4_294_967_295):
        for coefficients in lists:
            script.expect(9, "correct", k, coefficients)
    script.expect(0, "append", 100, FLAT)
    for k in (1, 2, 256, 65_536, 4_294_967_295):
        for coefficients in lists:
            script.expect(9, "correct", k, coefficients)
    for coefficients in lists[:3]:
        script.expect(3, "correct", 0, coefficients)
    for j in range(GRADE_MAX + 1):
        script.expect(0, "correct", 0, only(j, -SIZE_MAX))
        for c in (SIZE_MAX + 1, -SIZE_MAX - 1):
            script.expect(6, "correct", 0, only(j, c))
    for left, right in ((4, 2), (2, 4), (1, 16), (16, 1), (3, 3)):
        script.hold_knots((100 - left, FLAT), (100, (2, 1)), (100 + right, (3,)))
        for k in (3, 4, 4_294_967_295):
            script.expect(9, "correct", k, MORE)
        for k, gap in ((0, left), (1, max(left, right)), (2, right)):
            for coefficients in lists[:3]:
                script.expect(3, "correct", k, coefficients)
            for j in (0, 1, 3, 7):
                script.expect(6, "correct", k, only(j, SIZE_MAX // gap**j + 1))
                script.expect(6, "correct", k, only(j, -(SIZE_MAX // gap**j) - 1))
            script.expect(0, "correct", k, only(1, SIZE_MAX // gap))
            script.write(100)
            script.expect(0, "correct", k, only(7, -(SIZE_MAX // gap**7)))


def sizes(script):
    """The size rule at every gap and order: taken at the limit, refused one above it; a new knot, the held knot, a corrected one"""
    for h in range(1, GAP_MAX + 1):
        limits = greatest(GRADE_MAX, h, 1, -1)
        script.hold_knots((100, FLAT))
        for j, limit in enumerate(limits):
            script.expect(6, "append", 100 + h, only(j, limit + (1 if limit > 0 else -1)))
        script.expect(0, "append", 100 + h, limits)
        for j, limit in enumerate(limits):
            above = limit + (1 if limit > 0 else -1)
            script.expect(6, "correct", 1, limits[:j] + (above,) + limits[j + 1 :])
        script.expect(0, "correct", 0, tuple(-c for c in limits))
        script.write(84)
    for h in range(2, GAP_MAX + 1):
        for j in range(1, GRADE_MAX + 1):
            c = SIZE_MAX // h**j + 1
            script.hold_knots((100, only(j, c)))
            script.expect(6, "append", 100 + h, FLAT)
            script.expect(0, "append", 100 + max(gap for gap in range(1, h) if c * gap**j <= SIZE_MAX), FLAT)


def places(script):
    """Known results and limits: positions, gaps 1, 16 and 17, C_0 and C_7"""
    script.expect(0, "clear")
    script.expect(0, "append", 100, FLAT)
    script.expect(5, "append", 117, FLAT)
    script.expect(0, "append", 116, FLAT)
    script.expect(0, "append", 117, FLAT)
    script.expect(5, "append", 134, FLAT)
    script.expect(0, "append", 133, FLAT)
    script.write(40)
    for c in (SIZE_MAX, -SIZE_MAX):
        script.expect(0, "clear")
        script.expect(6, "append", 0, (c + (1 if c > 0 else -1),))
        script.expect(0, "append", 0, (c,))
        script.expect(6, "append", 16, (c + (1 if c > 0 else -1),))
        script.expect(0, "append", 16, (c,))
    for sign in (1, -1):
        one, two = (only(GRADE_MAX, sign * c) for c in (1, 2))
        script.hold_knots((0, FLAT))
        script.expect(6, "append", GAP_MAX, two)
        script.expect(0, "append", GAP_MAX, one)
        script.expect(6, "correct", 1, two)
        script.expect(6, "correct", 0, two)
        script.expect(0, "correct", 0, one)
        script.hold_knots((0, two))
        script.expect(6, "append", GAP_MAX, FLAT)
        script.expect(6, "append", GAP_MAX - 1, FLAT)
        script.expect(0, "append", GAP_MAX - 2, FLAT)
    for c in (2_147_483_647, -2_147_483_648, 2_147_483_646, -2_147_483_647, 536_870_911, -536_870_912, 1 << 29, 1 << 30):
        script.expect(6, "append", 30, (c,))
        script.expect(6, "append", 15, (0, 0, c))
        script.expect(6, "correct", 0, (c,))
        script.expect(6, "correct", 1, (1, 2, 3, 4, 5, 6, 7, c))
    for c in (2_147_483_648, -2_147_483_649, 4_294_967_295, 4_294_967_296, 1 << 63, 1 << 64, (1 << 64) + 1, 10**40):
        script.unreadable(f"append 30 {c}", f"append 30 1 {-c - 1}", f"correct 0 {c}")
    script.expect(0, "clear")
    script.expect(4, "append", POSITION_MAX + 1, FLAT)
    script.expect(0, "append", POSITION_MAX, FLAT)
    for position in (0, POSITION_MAX - 1, POSITION_MAX, POSITION_MAX + 1, POSITION_MAX + 16, 4_294_967_295):
        script.expect(4, "append", position, FLAT)
    for position in (4_294_967_296, 4_294_967_296 + POSITION_MAX, 1 << 64, 10**40):
        script.unreadable(f"append {position} 1", f"correct {position} 1")
    script.hold_knots((POSITION_MAX - 5, FLAT))
    script.expect(4, "append", POSITION_MAX + 1, FLAT)
    script.expect(0, "append", POSITION_MAX, FLAT)
    script.write(24)


def same_reels(script):
    """Same: counts, positions, grades and all coefficients; the reel has no part in it"""
    a, b, c = (7, (1, 5)), (9, (2,)), (12, (3, 0, 1))
    pairs = [
        ("yes", [a, b, c], [a, b, c]),
        ("no", [a, b, c], [(7, (1, -5)), b, c]),
        ("no", [a, b, c], [(7, (1,)), b, c]),
        ("no", [a, b, c], [a, (9, (2, 0, 0, 0, 0, 0, 0, 0)), (12, (3,))]),
        ("no", [a, b, c], [(7, (2, 5)), b, c]),
        ("no", [a, b, c], [a, (9, (-2,)), c]),
        ("no", [a, b, c], [a, b, (12, (4, 0, 1))]),
        ("no", [a, b, c], [(8, (1, 5)), b, c]),
        ("no", [a, b, c], [a, (10, (2,)), c]),
        ("no", [a, b, c], [a, b, (13, (3, 0, 1))]),
        ("no", [a, b, c], [a, b]),
        ("no", [a, b, c], [b, c]),
        ("no", [a, b, c], []),
        ("yes", [a, b], [a, b]),
        ("no", [a], [(7, (1,))]),
        ("no", [a], [b]),
        ("no", [a], []),
        ("yes", [], []),
        ("no", [(0, MOST)], [(0, (SIZE_MAX, 1))]),
        ("no", [(0, MOST)], [(0, (-SIZE_MAX,))]),
        ("no", [(0, (-1,))], [(0, FLAT)]),
        ("yes", list(WORKED), list(WORKED)),
    ]
    for answer, knots, others in pairs:
        for one, other in ((knots, others), (others, knots)):
            script.call(line_for("same", block_of(one), block_of(other)), answer)
    good = block_of([a, b])
    script.write(len(block_of(script.reel.knots)))
    refused = [block_of(knots) for knots in ([b, a], [a, (24, FLAT)], [(7, MORE)])] + [packed([header_word(130), 0])]
    for bad in (b"", good[:-4], good + bytes(4), *refused):
        script.unreadable(line_for("same", bad, good), line_for("same", good, bad), line_for("same", bad, bad))
    full = [(4 * k, (k - 64, 1)) for k in range(KNOTS_MAX)]
    last = (full[-1][0], (0, 1))
    for others in ([(p, c[:1]) for p, c in full], full[:-1], full[:-1] + [last]):
        script.call(line_for("same", block_of(full), block_of(others)), "no")
