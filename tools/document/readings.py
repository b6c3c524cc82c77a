"""What request 1/14 says of readings, held on blocks by chance: text and bytes, the operator's answers, the views."""
import random

from document.block import (
    EDITION_OF_READINGS, READING_MAX, READINGS_MAX, block_of, block_words, in_edition, is_reading, knots_of, packed,
    reading_word, rewritten, unpacked, with_end, without_readings,
)
from document.coefficients import extreme, ordinary
from document.hold import hold
from document.knot import GAP_MAX, GRADE_MAX
from document.reel import Reel
from document.report import report_of
from document.text import text_of
from document.texts import hold_text
from document.view import view, view_at

STRIDES_HELD = (1, 2, 3, 5, 31, 32, 33, 4_294_967_295)


def few_knots(chance):
    """Up to five, within the size rule at every gap."""
    position, knots = chance.randint(0, 60_000), []
    for _ in range(chance.randint(0, 5)):
        listed = chance.choice((ordinary, extreme))
        knots.append((position, listed(chance, chance.randint(0, GRADE_MAX), GAP_MAX)))
        position += chance.randint(1, GAP_MAX)
    return knots


def reading_by_chance(chance):
    return chance.choice((0, READING_MAX, chance.randint(0, READING_MAX)))


def readings_by_chance(chance, knots):
    """Of each knot none, few or as many as it may have."""
    counts = [chance.choice((0, 1, chance.randint(2, 9), READINGS_MAX - 1, READINGS_MAX)) for _ in knots]
    return [tuple(reading_by_chance(chance) for _ in range(count)) for count in counts]


def changed_readings(chance, words):
    """The words of a block with readings put in anywhere, left out or changed, and the end count set right."""
    words = words[:-1]
    for _ in range(chance.randint(1, 4)):
        k = chance.randint(1, len(words))
        put_in = [reading_word(reading_by_chance(chance))] * chance.randrange(2)
        words[k : k + 1] = put_in + [w for w in words[k : k + 1] if not is_reading(w) or chance.randrange(2)]
    return with_end(words)


def hold_rewritten(block):
    """Write gives the words of an accepted block but for its readings, in edition 1: of edition 1 the same bytes."""
    hold(block_of(knots_of(block)) == rewritten(block), "write(read(block)) of", block.hex())


def hold_skipped(block, other):
    """Two accepted blocks that differ only in readings and end count: the same list and the same report."""
    words, others = unpacked(block), unpacked(other)
    hold(without_readings(words) == without_readings(others), "not only readings differ:", block.hex(), other.hex())
    hold(knots_of(block) == knots_of(other), "other lists:", block.hex(), other.hex())
    hold(report_of(block) == report_of(other), "other reports:", block.hex(), other.hex())


def hold_changed(block, other):
    """A block, and another that changes of its readings made: these are skipped, or it is refused 1 or 12. It returns
    whether the other is accepted."""
    number = Reel().read(other)
    hold(number in (0, 1, 12), "changed readings give", number, other.hex())
    if not number:
        hold_skipped(block, other)
        hold_rewritten(other)
    return not number


def hold_views(chance, block, readings):
    """Of each knot every n-th reading, as a slice has them; the i-th of these, also past the last; 11 and 9."""
    for k, beside in enumerate(readings):
        for n in (*STRIDES_HELD, chance.randint(1, READINGS_MAX)):
            shown = list(beside[::n])
            hold(view(block, k, n) == shown, "view of", k, n, block.hex())
            for i in {0, max(len(shown) - 1, 0), len(shown), chance.randint(0, READINGS_MAX), STRIDES_HELD[-1]}:
                hold(view_at(block, k, n, i) == list(beside[i * n : i * n + 1]), "view of", k, n, i, block.hex())
        hold(view(block, k, 0) == 11, "a view with n of 0:", block.hex())
    for n in (0, 1):
        hold(view(block, len(readings), n) == 9, "a view of no knot:", block.hex())


def hold_readings():
    """On blocks by chance. It returns the number of pairs that differed in readings and end count alone."""
    chance = random.Random(8)
    pairs = 0
    for _ in range(200):
        knots = few_knots(chance)
        readings = readings_by_chance(chance, knots)
        hold_text(text_of(knots, readings), knots, readings)
        words = in_edition(block_words(knots, readings), EDITION_OF_READINGS)
        block, plain = packed(words), block_of(knots)
        hold_rewritten(block)
        hold_views(chance, block, readings)
        hold_views(chance, plain, [()] * len(knots))
        hold(report_of(block) == report_of(plain), "another report than in edition 1:", block.hex())
        others = {packed(changed_readings(chance, words)) for _ in range(4)} - {block}
        pairs += sum(hold_changed(block, other) for other in others)
    return pairs
