"""The block: its words and their fields, written from a list of knots and read back; in edition 2 with readings."""
import struct

from document.knot import KNOTS_MAX, misplaced, oversized, refuse, too_far

WRITTEN_MAX = 4_652
READINGS_MAX = 32
READING_MAX = 65_535


# ---- the words of a block ("Block"): 32 bits, the kind in the top two, the payload in the other 30


PAYLOAD = 30
HEADER, KNOT, COEFFICIENT, END = range(4)
EDITION, EDITION_OF_READINGS = 1, 2
READING_BIT = 29


def word(kind, payload):
    return kind << PAYLOAD | payload


def kind_of(w):
    return w >> PAYLOAD


def payload_of(w):
    return w & (1 << PAYLOAD) - 1


def header_word(count, edition=EDITION, spare=0):
    return word(HEADER, spare << 16 | edition << 8 | count)


def header_fields(payload):
    """The knot count, the edition, and the bits that are to be 0."""
    return payload & 0xFF, payload >> 8 & 0xFF, payload >> 16


def knot_word(position, grade, spare=0):
    return word(KNOT, spare << 19 | grade << 16 | position)


def knot_fields(payload):
    """The position, the grade, and the bits that are to be 0."""
    return payload & 0xFFFF, payload >> 16 & 7, payload >> 19


def coefficient_word(c):
    """Two's complement of 30 bits."""
    return word(COEFFICIENT, c % (1 << PAYLOAD))


def coefficient_of(payload):
    return payload - (1 << PAYLOAD) if payload >> PAYLOAD - 1 else payload


def end_word(before):
    return word(END, before)


def reading_word(reading, spare=0):
    """It shares its kind with the end word; bit 29 tells them apart (request 1/14)."""
    return word(END, 1 << READING_BIT | spare << 16 | reading)


def is_reading(w):
    return kind_of(w) == END and payload_of(w) >> READING_BIT == 1


def reading_fields(payload):
    """The reading, and the bits 16 to 28, which are to be 0."""
    return payload & 0xFFFF, payload >> 16 & 0x1FFF


def packed(words):
    """Low byte first."""
    return struct.pack(f"<{len(words)}I", *words)


def unpacked(data):
    return list(struct.unpack(f"<{len(data) // 4}I", data))


# ---- the block of a list of knots


def with_end(words):
    """The words before it, and the end word that counts them."""
    return [*words, end_word(len(words))]


def words_of_knot(position, coefficients, readings=()):
    return [
        knot_word(position, len(coefficients) - 1), *map(coefficient_word, coefficients), *map(reading_word, readings),
    ]


def block_words(knots, readings=()):
    """In edition 1; with the readings of each knot beside them, where some knot has one, in edition 2."""
    readings = readings or [()] * len(knots)
    edition = EDITION_OF_READINGS if any(readings) else EDITION
    of_knots = [w for knot, beside in zip(knots, readings, strict=True) for w in words_of_knot(*knot, beside)]
    return with_end([header_word(len(knots), edition), *of_knots])


def block_of(knots, readings=()):
    """The bytes of the block of a list of knots, with their readings."""
    return packed(block_words(knots, readings))


def in_edition(words, edition):
    """The words of a block with another edition in their header."""
    count, _, spare = header_fields(payload_of(words[0]))
    return [header_word(count, edition, spare), *words[1:]]


def without_readings(words):
    """The words of a block but for its readings, with the end count set right."""
    return with_end([w for w in words[:-1] if not is_reading(w)])


def rewritten(block):
    """What write gives of an accepted block: itself, or of edition 2 its words without readings, in edition 1."""
    words = unpacked(block)
    _, edition, _ = header_fields(payload_of(words[0]))
    return block if edition == EDITION else packed(in_edition(without_readings(words), EDITION))


# ---- reading a block ("Order", Read): faults in word order


def take(words, kind):
    """The payload of the next word; it is 1 if none is left or it is of another kind."""
    refuse(1, not words or kind_of(words[0]) != kind)
    return payload_of(words.pop(0))


def take_readings(words):
    """Those of one knot, to the first word that is none: of each its form, then 12 if it is one too many."""
    readings = []
    while words and is_reading(words[0]):
        reading, spare = reading_fields(take(words, END))
        refuse(1, spare)
        refuse(12, len(readings) == READINGS_MAX)
        readings.append(reading)
    return tuple(readings)


def contents_of(block):
    """The list of a block: one knot for each knot word, with its position and the coefficients in its coefficient
    words. Beside it, since they are no part of it, the readings of each knot: edition 2 alone has them."""
    refuse(1, len(block) % 4 or len(block) < 8)
    words = unpacked(block)
    length = len(words)
    count, edition, spare = header_fields(take(words, HEADER))
    refuse(1, edition not in (EDITION, EDITION_OF_READINGS) or spare)
    refuse(2, count > KNOTS_MAX)
    knots, readings = [], []
    for _ in range(count):
        position, grade, spare = knot_fields(take(words, KNOT))
        refuse(1, spare)
        refuse(4, misplaced(knots, position))
        refuse(5, too_far(knots, position))
        coefficients = tuple(coefficient_of(take(words, COEFFICIENT)) for _ in range(grade + 1))
        too_large = oversized(knots, position, coefficients)
        refuse(too_large, too_large)
        knots.append((position, coefficients))
        readings.append(take_readings(words) if edition == EDITION_OF_READINGS else ())
    before = length - len(words)
    refuse(1, take(words, END) != before)
    refuse(1, words)
    return knots, readings


def knots_of(block):
    """The list of a block."""
    return contents_of(block)[0]


def readings_of(block):
    """The readings of each of its knots."""
    return contents_of(block)[1]
