"""The stored cases of crates/piece_vectors."""
import random

from document.coefficients import extreme, greatest, ordinary
from document.knot import GAP_MAX, GRADE_MAX
from document.known_results import KNOWN_RESULTS
from document.piece import Piece
from document.reel import Reel
from stored.halves import halves_of_trends, halves_of_values


def pieces(chance, m, n, h, sign):
    """One piece for each place that is asked: at the limits, with weights that add up, that oppose or by chance, and ordinary ones."""
    yield Piece(h, greatest(m, h, sign, 1), greatest(n, h, sign, -1))
    yield Piece(h, greatest(m, h, -sign, 1), greatest(n, h, sign, -1))
    yield Piece(h, extreme(chance, m, h), extreme(chance, n, h))
    yield Piece(h, greatest(m, h, -sign, -1), extreme(chance, n, h))
    yield Piece(h, ordinary(chance, m, h), ordinary(chance, n, h))


def cases_by_grades():
    """For each pair of grades and each gap the places 0, D, 1, D−1 and one by chance, the pieces going round."""
    chance = random.Random(2)
    turn = 0
    for m in range(GRADE_MAX + 1):
        for n in range(GRADE_MAX + 1):
            for h in range(1, GAP_MAX + 1):
                made = list(pieces(chance, m, n, h, chance.choice((-1, 1))))
                D = made[0].D
                for i, r in enumerate((0, D, 1, D - 1, chance.randint(2, D - 2))):
                    yield made[(i + turn) % len(made)], r
                turn += 1


def cases_at_halves():
    """Values and trends that are halves before they are rounded, above 0 and below (request 5/14)."""
    for knots, asked in (*map(halves_of_values, (1, -1)), *map(halves_of_trends, (1, 3))):
        for x, _ in asked:
            yield Reel(knots).place(x)


def stored_cases():
    """The known results, then all these."""
    for piece, r, _, _ in KNOWN_RESULTS:
        yield piece, r
    yield from cases_by_grades()
    yield from cases_at_halves()


def words_of(piece, r):
    """A case as piece_vectors reads it: 20 words, a negative coefficient by its magnitude with 2^31 more."""

    def list_of(coefficients):
        unused = (-123_456_789,) * (GRADE_MAX + 1 - len(coefficients))
        return [abs(c) + (1 << 31 if c < 0 else 0) for c in coefficients + unused]

    return [piece.h, piece.m + 1, piece.n + 1, r] + list_of(piece.left) + list_of(piece.right)
