"""The reel with its calls and queries, and what a reel is."""
from functools import cache

from document.block import block_of, knots_of
from document.hold import hold
from document.knot import (
    GAP_MAX, GRADE_MAX, KNOTS_MAX, POSITION_MAX, Refused, first_too_large, keeps_size_rule, misplaced, oversized,
    too_far,
)
from document.piece import Piece, UNIT_OF_POSITION, hold_distances, hold_ends, hold_total, total, trend, value


class Reel:
    """Knots as pairs of a position and coefficients. Each call returns its refusal, or 0: the spot of a 6, and of any
    other the number. A refusal changes nothing. A query returns the number of its refusal, or its answer in a list."""

    def __init__(self, knots=()):
        self.knots = list(knots)

    def clear(self):
        self.knots = []
        return 0

    def gaps_beside(self, k):
        """The left gap and then the right; 1 of a knot with no neighbour."""
        positions = [position for position, _ in self.knots]
        gaps = [b - a for i, (a, b) in enumerate(zip(positions, positions[1:])) if k in (i, i + 1)]
        return gaps or [1]

    def append(self, position, coefficients):
        if len(self.knots) + 1 > KNOTS_MAX:
            return 2
        if not 1 <= len(coefficients) <= GRADE_MAX + 1:
            return 3
        if misplaced(self.knots, position):
            return 4
        if too_far(self.knots, position):
            return 5
        too_large = oversized(self.knots, position, coefficients)
        if too_large:
            return too_large
        self.knots.append((position, coefficients))
        return 0

    def correct(self, k, coefficients):
        if k >= len(self.knots):
            return 9
        if not 1 <= len(coefficients) <= GRADE_MAX + 1:
            return 3
        too_large = first_too_large((k, coefficients, h) for h in self.gaps_beside(k))
        if too_large:
            return too_large
        self.knots[k] = (self.knots[k][0], coefficients)
        return 0

    def read(self, block):
        try:
            self.knots = knots_of(block)
        except Refused as refused:
            return refused.args[0]
        return 0

    def write(self, room):
        """Into the lent bytes `room`, whose first bytes become the block; those after them stay."""
        block = block_of(self.knots)
        if len(room) < len(block):
            return 10
        room[: len(block)] = block
        return 0

    def piece(self, k):
        """From knot k to knot k+1."""
        (a, left), (b, right) = self.knots[k : k + 2]
        return Piece(b - a, left, right)

    def place(self, x):
        """The piece of a query position, and r in it: an inner knot belongs to the piece on its right, the last knot to the last piece."""
        starts = [UNIT_OF_POSITION * position for position, _ in self.knots[:-1]]
        k = max(k for k, start in enumerate(starts) if start <= x)
        return self.piece(k), x - starts[k]

    def trend_place(self, x):
        """The piece of a trend, and r in it: at an inner knot of grade 0 the piece on its left, at its right end (request 3/14)."""
        for k, (position, coefficients) in enumerate(self.knots[1:-1]):
            if x == UNIT_OF_POSITION * position and len(coefficients) == 1:
                return self.piece(k), self.piece(k).D
        return self.place(x)

    def asked(self, query, place, x):
        """Value or trend at the query position x, with all that demand 3 says of it held."""
        if len(self.knots) < 2:
            return 8
        if not UNIT_OF_POSITION * self.knots[0][0] <= x <= UNIT_OF_POSITION * self.knots[-1][0]:
            return 7
        piece, r = place(x)
        hold_ends(piece)
        hold_distances(piece, r)
        return [query(piece, r)]

    def value(self, x):
        return self.asked(value, self.place, x)

    def trend(self, x):
        return self.asked(trend, self.trend_place, x)

    def total(self, i, j):
        """Pieces i to j−1, each the exact integral of its blend."""
        if len(self.knots) < 2:
            return 8
        if i > j or j >= len(self.knots):
            return 9
        added = [self.piece(k) for k in range(i, j)]
        for piece in added:
            hold_ends(piece)
            hold_total(piece)
        return [sum(map(total, added))]


@cache
def hold_standing(knots):
    """What a reel is ("The reel"), said of the whole list at once and not knot by knot as append tests it."""
    hold(len(knots) <= KNOTS_MAX, len(knots), "knots")
    positions = [position for position, _ in knots]
    hold(all(0 <= position <= POSITION_MAX for position in positions), "positions", positions)
    gaps = [b - a for a, b in zip(positions, positions[1:])]
    hold(all(1 <= h <= GAP_MAX for h in gaps), "gaps", positions)
    for k, (_, coefficients) in enumerate(knots):
        hold(1 <= len(coefficients) <= GRADE_MAX + 1, "grade of", knots[k])
        hold(keeps_size_rule(coefficients, gaps[max(k - 1, 0) : k + 1] or [1]), "size rule at", k, knots)
    for k in range(len(gaps)):
        hold_ends(Reel(knots).piece(k))
