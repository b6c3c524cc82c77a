"""Document 01's "Scans with known results" and its worked block, and that they hold."""
from document.block import WRITTEN_MAX, READINGS_MAX, block_of, block_words, knots_of
from document.coefficients import FLAT, only
from document.hold import hold
from document.knot import GRADE_MAX, KNOTS_MAX, TooLarge
from document.piece import Piece, case
from document.reel import Reel
from document.report import INPUT_MAX, report_of

# The entries of "Scans with known results" that concern one piece: the piece, r, what is asked there and the answer. The
# value 3 is request 5/14's.
KNOWN_RESULTS = [
    (Piece(1, (0, 0), (1, 0)), 128, "value", 32_768),
    (Piece(1, (0, 0), (1, 0)), 128, "trend", 98_304),
    (Piece(1, (0, 0), (1, 0)), 1, "value", 3),
    (Piece(1, (0, 0), (-1, 0)), 1, "value", -3),
    (Piece(2, (0, 0), (4, 0)), 256, "trend", 196_608),
    (Piece(1, (1,), (0,)), 0, "total", 360_360),
    (Piece(1, (0, 1), (0, 0)), 0, "total", 60_060),
    (Piece(1, (0, 0), (0, 1)), 0, "total", -60_060),
    (Piece(1, (1, 0), (0,)), 0, "total", 480_480),
    (Piece(1, (0, 0, 1), (0, 0, 0)), 0, "total", 12_012),
    (Piece(1, only(7, 1), (0,) * 8), 0, "total", 7),
    (Piece(2, (1,), (0,)), 0, "value", 65_536),
]

# The worked block ("Reel report"), as words and as knots.
WORKED_WORDS = "00000103 4001000A 80000000 80000000 4001000C 80000004 80000000 4000000D 80000004 C0000009"
WORKED = ((10, (0, 0)), (12, (4, 0)), (13, (4,)))

WORKED_REPORT = """0 10 12 0 0 2882880
1 12 13 262144 0 2882880
reel 2 5765760
"""


def hold_known_results():
    for piece, r, asked, expected in KNOWN_RESULTS:
        found = case(piece, r)[asked]
        hold(found == expected, asked, "at", r, "of", piece, "is", found, "and not", expected)
    return len(KNOWN_RESULTS)


def hold_known_refusals():
    """The entries of "Scans with known results" that are limits, each taken at the limit and refused above it; a 6 has
    its spot (request 6/14)."""
    entries = [
        ((0, 5), [Reel([(0, FLAT)]).append(h, FLAT) for h in (16, 17)]),
        ((0, 2), [Reel((k, FLAT) for k in range(count)).append(count, FLAT) for count in (128, 129)]),
        ((0, TooLarge(0, 0, 1)), [Reel().append(0, (c,)) for c in (268_435_456, 268_435_457)]),
        ((0, TooLarge(1, 7, 16)), [Reel([(0, FLAT)]).append(16, only(7, c)) for c in (1, 2)]),
        (([65_536], 7), [Reel([(10, (1,)), (12, (0,))]).value(x) for x in (2_560, 2_559)]),
        ((0, 10), [Reel(WORKED).write(bytearray(room)) for room in (40, 39)]),
    ]
    for expected, found in entries:
        hold(list(expected) == found, "limits: expected", expected, "found", found)
    return len(entries)


def hold_worked_block():
    hold(block_words(WORKED) == [int(w, 16) for w in WORKED_WORDS.split()], "the words of the worked block")
    hold(knots_of(block_of(WORKED)) == list(WORKED), "the knots of the worked block")
    full = [(k, (0,) * (GRADE_MAX + 1)) for k in range(KNOTS_MAX)]
    hold(len(block_of(full)) == WRITTEN_MAX, "the longest block")
    hold(len(block_of(full, [(0,) * READINGS_MAX] * KNOTS_MAX)) == INPUT_MAX, "the longest block with readings")


def hold_worked_report():
    hold(report_of(block_of(WORKED)) == WORKED_REPORT, "the report of the worked block:", report_of(block_of(WORKED)))
