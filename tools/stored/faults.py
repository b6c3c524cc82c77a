"""A block of three knots, with readings or without, and its faults at every place."""
from dataclasses import dataclass

from document.block import (
    COEFFICIENT, EDITION, EDITION_OF_READINGS, END, HEADER, KNOT, READING_BIT, block_words, coefficient_word, end_word,
    is_reading, packed, payload_of, word,
)
from document.knot import POSITION_MAX, SIZE_MAX

# A block of three knots for faults at every place: 10 and 12 are 2 apart, 12 and 28 are 16 apart.
SOUND = ((10, (5, -3)), (12, (7, 2)), (28, (-9,)))
NO_READINGS = [()] * len(SOUND)

EDITION_BITS = 0xFF00
SPARE_OF_READING = 0x1FFF << 16


@dataclass(frozen=True)
class Fault:
    """A change of a block: `bits` where `mask` is in one word, or a cut before a word, or bytes after the last.
    It shows at `place`, in word order, as `number`, which is 0 where the change is no fault."""

    place: tuple
    number: int
    word: int = 0
    mask: int = 0
    bits: int = 0
    cut: int = None
    tail: bytes = b""

    def can_stand_with(self, other):
        if self.cut is not None and other.cut is not None or self.tail and other.tail:
            return False
        return self.word != other.word or not self.mask & other.mask


def faulty(words, faults):
    words, tail = list(words), b""
    for fault in faults:
        words[fault.word] = words[fault.word] & ~fault.mask | fault.bits
        tail += fault.tail
    return packed(words[: min((f.cut for f in faults if f.cut is not None), default=len(words))]) + tail


def first_number(*faults):
    """The number of the first in word order, or 0."""
    return min(((fault.place, fault.number) for fault in faults if fault.number), default=((), 0))[1]


def faults_of_form(k, kind, spare, spare_bits):
    """1, of the word k: another kind, spare bits, and that it is missing."""
    yield Fault((k, 0), 1, k, word(3, 0), word((kind + 3) % 4, 0))
    if spare:
        yield Fault((k, 0), 1, k, spare, spare_bits)
    if k > 1:
        yield Fault((k, 0), 1, cut=k)


def faults_of_readings(first, count):
    """1, of the first and the last of these readings, from the word `first` on: its form, and bit 29."""
    for k in sorted({first, first + count - 1}) if count else ():
        yield from faults_of_form(k, END, SPARE_OF_READING, 1 << 22)
        yield Fault((k, 0), 1, k, 1 << READING_BIT, 0)


def faults_of_knots(readings):
    """Those of each knot of SOUND: its word, 4, 5, its coefficient words, 6 of itself and of the knot before it, and
    its readings."""
    k = 1
    coefficient, position_bits = payload_of(-1), 0xFFFF
    for i, (position, coefficients) in enumerate(SOUND):
        last = k + len(coefficients)
        after = last + 1 + len(readings[i])
        yield from faults_of_form(k, KNOT, 0x7FF << 19, 1 << 24)
        if i:
            before = SOUND[i - 1][0]
            yield Fault((k, 1), 4, k, position_bits, before)
            yield Fault((k, 1), 4, k, position_bits, before - 1)
            yield Fault((k, 2), 5, k, position_bits, before + 17)
            yield Fault((k, 2), 5, k, position_bits, POSITION_MAX)
        for c in range(k + 1, last + 1):
            yield from faults_of_form(c, COEFFICIENT, 0, 0)
        yield Fault((last, 1), 6, k + 1, coefficient, SIZE_MAX + 1)
        yield Fault((last, 1), 6, last, coefficient, payload_of(coefficient_word(-SIZE_MAX - 1)))
        if i + 1 < len(SOUND):
            gap = SOUND[i + 1][0] - position
            yield Fault((after + len(SOUND[i + 1][1]), 1), 6, k + 2, coefficient, SIZE_MAX // gap + 1)
        yield from faults_of_readings(last + 1, len(readings[i]))
        k = after


def changes_of_edition(words):
    """Edition 2 is no fault of a block without readings. With them edition 1 is one at the first reading."""
    places = [k for k, w in enumerate(words) if is_reading(w)]
    if places:
        yield Fault((0, 0), 1, 0, EDITION_BITS, 3 << 8)
        yield Fault((places[0], 0), 1, 0, EDITION_BITS, EDITION << 8)
    else:
        yield Fault((0, 0), 0, 0, EDITION_BITS, EDITION_OF_READINGS << 8)


def all_faults(readings=NO_READINGS):
    """At every place of the block, in word order."""
    words = block_words(SOUND, readings)
    end = len(words) - 1
    yield Fault((-1, 0), 1, tail=b"\0")
    yield from faults_of_form(0, HEADER, 0x3FFF << 16, 1 << 20)
    yield from changes_of_edition(words)
    yield Fault((0, 1), 2, 0, 0xFF, 130)
    yield Fault((0, 1), 2, 0, 0xFF, 255)
    yield from faults_of_knots(readings)
    yield from faults_of_form(end, END, 0, 0)
    yield Fault((end, 0), 1, end, payload_of(-1), end + 1)
    yield Fault((end, 0), 1, 0, 0xFF, len(SOUND) + 1)
    yield Fault((end - 2 - len(readings[-1]), 0), 1, 0, 0xFF, len(SOUND) - 1)
    yield Fault((end + 1, 0), 1, tail=packed([end_word(end + 1)]))
