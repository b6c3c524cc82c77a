"""Blocks with readings (request 1/14), sound and faulty, each with the number that read gives, or 0."""
from itertools import count, islice

from document.block import (
    COEFFICIENT, EDITION, EDITION_OF_READINGS, END, HEADER, KNOT, READING_BIT, READING_MAX, READINGS_MAX, block_of,
    block_words, coefficient_word, end_word, header_word, in_edition, is_reading, kind_of, knot_word, packed,
    payload_of, reading_word, with_end, word,
)
from document.coefficients import greatest
from document.knot import GRADE_MAX, KNOTS_MAX
from stored.faults import EDITION_BITS, NO_READINGS, SOUND, SPARE_OF_READING, Fault, all_faults, faulty, first_number

COUNTS = (0, 1, READINGS_MAX - 1, READINGS_MAX, READINGS_MAX + 1)


def different(*counts):
    """So many readings for each knot, no two alike: 65,535, 43,690, 21,845, 0, 43,691 and so on."""
    readings = ((READING_MAX + 43_691 * i) % (READING_MAX + 1) for i in count())
    return [tuple(islice(readings, number)) for number in counts]


# Readings for each knot of SOUND.
FEW = different(1, 2, 1)


def edition_2(knots, readings):
    """In edition 2, even where no knot has a reading."""
    return packed(in_edition(block_words(knots, readings), EDITION_OF_READINGS))


def at_knot(k, number):
    """So many readings of knot k of SOUND, and none of the others."""
    return different(*(number if i == k else 0 for i in range(len(SOUND))))


def places_of_readings(words):
    return [k for k, w in enumerate(words) if is_reading(w)]


def exchanged(words, k, w):
    """With w in place of word k."""
    return packed([*words[:k], w, *words[k + 1 :]])


def blocks_of_counts():
    """From no reading to one too many, at the first, the inner and the last knot; of all knots; of few or no knots."""
    for k in range(len(SOUND)):
        for number in COUNTS:
            yield 12 if number > READINGS_MAX else 0, edition_2(SOUND, at_knot(k, number))
    yield 0, edition_2(SOUND, different(READINGS_MAX, READINGS_MAX, READINGS_MAX))
    yield 0, edition_2(SOUND[:1], different(2))
    yield 12, edition_2(SOUND[:1], different(READINGS_MAX + 1))
    yield 0, edition_2((), [])
    yield 1, packed(with_end([header_word(0, EDITION_OF_READINGS), reading_word(7)]))


def blocks_of_editions():
    """Each edition without readings and with them; with no knot and with too many."""
    for edition in (0, EDITION, EDITION_OF_READINGS, 3, 4, 255):
        known = edition in (EDITION, EDITION_OF_READINGS)
        for readings in (NO_READINGS, *(at_knot(k, 1) for k in range(len(SOUND)))):
            taken = edition == EDITION_OF_READINGS or known and not any(readings)
            yield 0 if taken else 1, packed(in_edition(block_words(SOUND, readings), edition))
        yield 0 if known else 1, packed([header_word(0, edition), end_word(1)])
        yield 2 if known else 1, packed([header_word(KNOTS_MAX + 1, edition), reading_word(7)])


def blocks_of_places():
    """A reading before each word, with the end count set right, and after the end word: edition 2 alone takes it, after
    a knot's last coefficient."""
    words = block_words(SOUND)
    taken = [k for k, w in enumerate(words) if kind_of(w) in (KNOT, END)][1:]
    for edition in (EDITION, EDITION_OF_READINGS):
        of_edition = in_edition(words, edition)
        for k in range(len(words)):
            number = 0 if edition == EDITION_OF_READINGS and k in taken else 1
            yield number, packed(with_end([*of_edition[:k], reading_word(7), *of_edition[k:-1]]))
        yield 1, packed([*of_edition, reading_word(7)])


def blocks_of_forms():
    """At each reading: spare bits, each kind, an end word; at the first a knot word, which is then looked at as one."""
    words = block_words(SOUND, FEW)
    places = places_of_readings(words)
    for k in places:
        for bit in range(16, READING_BIT) if k == places[0] else (16, READING_BIT - 1):
            yield 1, exchanged(words, k, words[k] | 1 << bit)
        for kind in (HEADER, KNOT, COEFFICIENT):
            yield 1, exchanged(words, k, word(kind, payload_of(words[k])))
        for w in (header_word(3), coefficient_word(1), end_word(0), end_word(k), end_word(k + 1)):
            yield 1, exchanged(words, k, w)
    first = SOUND[0][0]
    for number, position in ((4, first), (4, 0), (5, first + 17), (5, READING_MAX), (1, first + 1)):
        yield number, exchanged(words, places[0], knot_word(position, 0))
    yield 1, exchanged(words, places[-1], knot_word(SOUND[-1][0] + 1, 0))


def blocks_of_ends():
    """Cut before every word, and there ended with the right count; words after the end word; an end word with bit 29
    set, which is a reading, so that the end is missing."""
    words = block_words(SOUND, different(2, 1, 3))
    last_readings = places_of_readings(words)[-3]
    for k in range(1, len(words)):
        yield 1, packed(words[:k])
        yield 0 if k >= last_readings else 1, packed(with_end(words[:k]))
    for over in (0, coefficient_word(1), words[-1], end_word(len(words)), reading_word(7), reading_word(7, spare=1)):
        yield 1, packed([*words, over])
    for number, ended, missing in ((1, 0, 1), (READINGS_MAX, 12, 12)):
        words = block_words(SOUND, at_knot(2, number))
        read_on = [*words[:-1], words[-1] | 1 << READING_BIT]
        yield missing, packed(read_on)
        yield ended, packed(with_end(read_on))


def blocks_with_a_fault():
    """Every fault of a block with readings; those of readings and of the edition with every fault of another number."""
    words = block_words(SOUND, FEW)
    faults = list(all_faults(FEW))
    for fault in faults:
        yield fault.number, faulty(words, [fault])
    for fault in faults:
        if fault.mask in (SPARE_OF_READING, EDITION_BITS):
            for other in faults:
                if other.number != fault.number and fault.can_stand_with(other):
                    yield first_number(fault, other), faulty(words, [fault, other])


def blocks_with_one_too_many():
    """A 33rd reading and a fault at every place: the first in word order answers, and at this reading its form."""
    for k in range(len(SOUND)):
        readings = at_knot(k, READINGS_MAX + 1)
        words = block_words(SOUND, readings)
        too_many = Fault((places_of_readings(words)[-1], 1), 12)
        for fault in {(fault.place, fault.number): fault for fault in all_faults(readings)}.values():
            yield first_number(fault, too_many), faulty(words, [fault])
        for bit in (16, READING_BIT - 1):
            yield 1, exchanged(words, too_many.place[0], words[too_many.place[0]] | 1 << bit)
    words = block_words(SOUND, at_knot(2, READINGS_MAX + 2))
    yield 12, exchanged(words, -2, words[-2] | 1 << 16)
    yield 1, exchanged(words, -3, words[-3] | 1 << 16)


def tried_blocks():
    """All of these: a number, or 0, and a block."""
    yield from blocks_of_counts()
    yield from blocks_of_editions()
    yield from blocks_of_places()
    yield from blocks_of_forms()
    yield from blocks_of_ends()
    yield from blocks_with_a_fault()
    yield from blocks_with_one_too_many()


def greatest_block(more=0):
    """The longest block that is accepted: 129 knots of grade 7 with 32 readings each; the last may have more."""
    knots = [(k, greatest(GRADE_MAX, 1, (-1) ** k, -1)) for k in range(KNOTS_MAX)]
    return block_of(knots, different(*[READINGS_MAX] * (KNOTS_MAX - 1), READINGS_MAX + more))
