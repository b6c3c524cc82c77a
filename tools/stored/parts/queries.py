"""Parts of the replay script: value, trend and total, refused and answered; around knots, all pairs of grades with all
gaps, all ranges, trends at lone readings."""
import random

from document.coefficients import FLAT, extreme, ordinary
from document.hold import hold
from document.knot import GAP_MAX, GRADE_MAX, KNOTS_MAX, POSITION_MAX
from document.known_results import KNOWN_RESULTS, WORKED
from document.piece import UNIT_OF_POSITION, UNIT_OF_VALUE, trend, value
from stored.reels import MIXED, NO_PLACE, cycle_of_grades, laid_out, reel_of_all_pairs, reels_of_lone_readings
from stored.replay_lines import line_for, line_of


def queries_of_few_knots(script):
    """Value, trend and total of no knot and of one knot: 8, whatever else holds; of two knots an answer"""
    for knots in ((), ((0, FLAT),), ((10, (4, -1)),), ((POSITION_MAX, tuple(range(8))),)):
        at_knot = UNIT_OF_POSITION * knots[0][0] if knots else 0
        script.hold_knots(*knots)
        script.expect_asked(8, at_knot, at_knot + 1, max(at_knot - 1, 0), 0, 2_559, NO_PLACE)
        script.expect_added(8, (0, 0), (0, 1), (1, 0), (1, 1), (5, 3), (0, NO_PLACE), (NO_PLACE, 0), (NO_PLACE, NO_PLACE))
    script.expect(0, "clear")
    for number, knot in zip((8, 0, 0), WORKED):
        script.expect(0, "append", *knot)
        for line in ("value 2560", "trend 2560", "total 0 0"):
            script.call(line, line_of(number) if number else line.split(" ")[0] + " 0")
    script.call("value 2816", "value 131072")
    script.call("total 0 2", "total 5765760")
    script.hold_knots((10, FLAT))
    script.expect_asked(8, 2_560)
    script.expect(0, "clear")
    script.expect_asked(8, 2_560)
    script.expect_added(8, (0, 0))


def refused_queries(script):
    """Value and trend: 7 outside both ends, to the limits of a word; total: 9 of i above j and of no knot j"""
    top = POSITION_MAX
    for knots in (((10, FLAT), (12, (0,))), ((0, (1, 2)), (1, (3,))), ((top - 16, (-1, 4)), (top, (5,))), MIXED, WORKED):
        script.hold_knots(*knots)
        first, last = (UNIT_OF_POSITION * knots[k][0] for k in (0, -1))
        script.ask(first, first + 1, last - 1, last)
        script.expect_asked(7, last + 1, last + 256, last + (1 << 16), last + (1 << 24), (1 << 31) + first, NO_PLACE - 255, NO_PLACE)
        if first:
            script.expect_asked(7, first - 1, first - 256, first // UNIT_OF_POSITION, 0)
        count = len(knots)
        script.add_up((0, 0), (0, count - 1), (count - 1, count - 1), (count - 2, count - 1), (0, 1))
        script.expect_added(9, (1, 0), (count - 1, count - 2), (count, 0), (NO_PLACE, 0), (NO_PLACE, count - 1))
        script.expect_added(9, (0, count), (count - 1, count), (count, count), (count + 1, count), (0, count + 1))
        script.expect_added(9, (0, 256), (256, 257), (0, 65_536), (0, 1 << 31), (0, NO_PLACE), (NO_PLACE, NO_PLACE))


def known_results(script):
    """Scans with known results, those of one piece, with the first knot at 0 and at 10"""
    for piece, r, asked, expected in KNOWN_RESULTS:
        for first in (0, 10):
            script.hold_knots((first, piece.left), (first + piece.h, piece.right))
            fields = (0, 1) if asked == "total" else (UNIT_OF_POSITION * first + r,)
            script.call(line_for(asked, *fields), f"{asked} {expected}")
    script.hold_knots((10, (1,)), (12, (0,)))
    script.call("value 2560", "value 65536")
    script.call("value 2559", "refused 7")


def around_knots(script):
    """At, just before and just after every knot: reels of flat knots, of mixed grades, of one knot corrected again and again"""
    chance = random.Random(4)
    flat = laid_out(chance, 3, [0] * 12, [chance.randint(1, GAP_MAX) for _ in range(11)], (ordinary, extreme))
    mixed = laid_out(chance, 60_000, [k * 3 % 8 for k in range(25)], [k * 5 % 16 + 1 for k in range(24)], (ordinary, extreme))
    for knots in (flat, MIXED, mixed):
        script.hold_knots(*knots)
        for position, _ in knots:
            x = UNIT_OF_POSITION * position
            script.ask(x - 1, x, x + 1)
    script.hold_knots((10, (7,)), (12, FLAT), (15, (-7, 3)))
    for coefficients in ((2,), (2, -1), (-2, 0, 1), (0,), (3, 3, 3), (-1,)):
        script.expect(0, "correct", 1, coefficients)
        script.ask(3_071, 3_072, 3_073)
        script.add_up((0, 1), (1, 2), (0, 2))


def all_pairs_and_gaps(script):
    """Every pair of grades with every gap: value and trend 1/256 after the left knot, 1/256 before the right one or between; at knots"""
    chance = random.Random(5)
    seen = set()
    for turn in range(8):
        knots = reel_of_all_pairs(chance, turn)
        script.hold_knots(*knots)
        for k in range(KNOTS_MAX - 1):
            piece, start = script.reel.piece(k), UNIT_OF_POSITION * knots[k][0]
            seen.add((piece.m, piece.n, piece.h))
            places = [1, piece.D - 1, chance.randint(2, piece.D - 2), chance.randint(2, piece.D - 2)]
            script.call(line_for("value", start + places[(turn + k) % 4]))
            script.call(line_for("trend", start + places[(turn + k + 2) % 4]))
            if piece.m == 0:
                script.call(line_for("trend", start))
        script.ask(UNIT_OF_POSITION * knots[-1][0])
        script.add_up((0, KNOTS_MAX - 1), (turn, 9 * turn + 5), (100 - turn, 120), (64 + turn, 65 + turn))
    hold(len(seen) == 64 * GAP_MAX, "pairs of grades with gaps:", len(seen))


def slight(chance, grade, h):
    """Coefficients whose p_j are at most 1, 8, 8, .. at h, so that totals are near 0."""
    return (chance.choice((-1, 1)), *(chance.randint(-(8 // h**j), 8 // h**j) for j in range(1, grade + 1)))


def add_up_all_ranges(script, chance, lists):
    """Of a full reel of mixed grades."""
    grades = [*cycle_of_grades()] * 2
    gaps = [chance.choice((1, 1, 1, 1, 2, 2, 3, chance.randint(4, GAP_MAX))) for _ in range(KNOTS_MAX - 1)]
    script.hold_knots(*laid_out(chance, 0, grades + grades[:1], gaps, lists))
    ranges = [(i, j) for j in range(KNOTS_MAX) for i in range(j + 1)]
    script.add_up(*ranges)
    hold(script.answers[-len(ranges) :].count("total 0") == KNOTS_MAX, "ranges with the total 0")


def all_ranges(script):
    """The total of every range of a full reel of mixed grades; only the empty ranges have 0"""
    add_up_all_ranges(script, random.Random(380), (slight,))


def all_ranges_to_the_limits(script):
    """The total of every range of a full reel of mixed grades, with coefficients up to the limits of the size rule"""
    add_up_all_ranges(script, random.Random(6), (ordinary, ordinary, extreme))


def trends_by_hand(script):
    """Straight pieces, with slopes of 2, 1 and −3 counts per step: an inner knot of grade 0 has the slope before it, one
    of another grade its own C_1."""

    def expect(*slopes):
        for x, slope in slopes:
            script.call(f"trend {x}", f"trend {UNIT_OF_VALUE * slope}")

    script.hold_knots((0, (0,)), (2, (4,)))
    expect((0, 2), (1, 2), (511, 2), (512, 2))
    script.expect(0, "append", 3, (5,))
    expect((0, 2), (511, 2), (512, 2), (513, 1), (768, 1))
    script.expect(0, "append", 5, (-1,))
    expect((0, 2), (512, 2), (513, 1), (767, 1), (768, 1), (769, -3), (1_280, -3))
    for coefficients, slope in (((4, 9), 9), ((4, -7, 0), -7), ((4,), 2)):
        script.expect(0, "correct", 1, coefficients)
        expect((512, slope))
        script.call("value 512", f"value {UNIT_OF_VALUE * 4}")
    script.hold_knots((2, (4,)), (3, (5,)), (5, (-1,)))
    expect((512, 1), (768, 1), (1_280, -3))


def shown_between(reel):
    """Of each inner knot of grade 0 the grades beside it, and whether the left gap is the lesser. Its trend shows which
    piece is taken; its value is the same from either side."""
    for k, (_, coefficients) in [*enumerate(reel.knots)][1:-1]:
        if len(coefficients) == 1:
            left, right = reel.piece(k - 1), reel.piece(k)
            hold(trend(left, left.D) != trend(right, 0), "the trend is the same from either side of knot", k, reel.knots)
            hold(value(left, left.D) == value(right, 0), "the value is not the same from either side of knot", k, reel.knots)
            yield left.m, right.n, left.h < right.h


def shown_at_ends(reel):
    """Of a first and a last knot of grade 0 the grade beside it, where the trend shows at which end of the piece it is taken."""
    first, last = reel.piece(0), reel.piece(len(reel.knots) - 2)
    for end, piece, grade, beside in (("first", first, first.m, first.n), ("last", last, last.n, last.m)):
        if grade == 0 and trend(piece, 0) != trend(piece, piece.D):
            yield end, beside


def trends_at_lone_readings(script):
    """Trend at an inner knot of grade 0, from the piece on its left; just before and after it, and at the first and the last knot"""
    trends_by_hand(script)
    between, at_ends = set(), set()
    for knots in reels_of_lone_readings():
        script.hold_knots(*knots)
        at_knots = [UNIT_OF_POSITION * position for position, _ in knots]
        for x in at_knots:
            script.ask(*(near for near in (x - 1, x, x + 1) if at_knots[0] <= near <= at_knots[-1]))
        between.update(shown_between(script.reel))
        at_ends.update(shown_at_ends(script.reel))
    hold(len(between) == 128, "pairs of grades beside lone readings, with the lesser gap on either side:", len(between))
    hold(len(at_ends) == 2 * GRADE_MAX, "grades beside first and last knots of grade 0:", at_ends)
