"""Parts of the replay script: blocks that are read, with their faults."""
from document.block import (
    COEFFICIENT, EDITION, EDITION_OF_READINGS, END, KNOT, PAYLOAD, block_of, block_words, coefficient_word, end_word,
    header_word, kind_of, knot_fields, knot_word, packed, payload_of, with_end, word,
)
from document.coefficients import FLAT, only
from document.knot import GRADE_MAX, POSITION_MAX, SIZE_MAX
from document.known_results import WORKED
from stored.faults import SOUND, all_faults, faulty, first_number
from stored.reels import MIXED
from stored.replay_lines import line_for


def forms_of_blocks(script):
    """Read: 1 by length, by kind, edition and spare bits, by missing words and words over, by the end word; 2 by the header"""
    words = block_words(WORKED)
    script.hold_knots((7, (1, 2)), (9, (3,)))
    for length in range(8):
        script.expect(1, "read", packed(words)[:length])
        script.expect(1, "read", packed([header_word(200)] * 2)[:length])
    for length in range(9, 12):
        script.expect(1, "read", (block_of([]) + bytes(4))[:length])
        script.expect(1, "read", packed([header_word(200)] * 3)[:length])
    for k, w in enumerate(words):
        for kind in range(4):
            if kind != kind_of(w):
                script.expect(1, "read", packed(words[:k] + [word(kind, payload_of(w))] + words[k + 1 :]))
    rest = words[1:]
    for bit in range(8, PAYLOAD):
        script.expect(1, "read", packed([words[0] ^ 1 << bit] + rest))
    for number, edition in ((1, 0), (0, EDITION_OF_READINGS), (1, 3), (1, 255)):
        script.try_block(number, packed([header_word(3, edition)] + rest))
        script.try_block(number, packed([header_word(0, edition), end_word(1)]))
    for count in (130, 131, 200, 254, 255):
        for tail in (rest, [end_word(1)], [0], [header_word(count)]):
            script.expect(2, "read", packed([header_word(count)] + tail))
        for number, edition, spare in ((1, 0, 0), (2, EDITION_OF_READINGS, 0), (1, EDITION, 1), (1, EDITION, 1 << 13)):
            script.expect(number, "read", packed([header_word(count, edition, spare), end_word(1)]))
        for kind in (KNOT, COEFFICIENT, END):
            script.expect(1, "read", packed([word(kind, header_word(count)), end_word(1)]))
        script.expect(1, "read", packed([header_word(count)] + rest) + b"\0")
    for count in (0, 1, 2, 4, 128, 129):
        script.expect(1, "read", packed([header_word(count)] + rest))
        script.expect(1 if count else 0, "read", packed([header_word(count), end_word(1)]))
    script.hold_knots((7, (1, 2)), (9, (3,)))
    for k, w in enumerate(words):
        if kind_of(w) == KNOT:
            for bit in range(19, PAYLOAD):
                script.expect(1, "read", packed(words[:k] + [w ^ 1 << bit] + words[k + 1 :]))
            position, held, _ = knot_fields(payload_of(w))
            for grade in range(GRADE_MAX + 1):
                if grade != held:
                    script.expect(1, "read", packed(words[:k] + [knot_word(position, grade)] + words[k + 1 :]))
    for before in (0, 8, 10, 265, 9 + (1 << 16), 9 + (1 << 29), (1 << 30) - 1):
        script.expect(1, "read", packed(words[:-1] + [end_word(before)]))
    knot = [knot_word(14, 0), coefficient_word(1), end_word(11)]
    for over in ([end_word(9)], [end_word(10)], [0], [coefficient_word(1)], knot, words):
        script.expect(1, "read", packed(words + over))
        script.expect(1, "read", packed(words[:-1] + over[:1] + over))
    for before in range(3):
        script.expect(0 if before == 1 else 1, "read", packed([header_word(0), end_word(before)]))


def places_in_blocks(script):
    """Read: 4, 5 and 6 at the first, second and later knots, to the limits of a word"""
    script.hold_knots((20, (1, 1)))
    for position in (0, POSITION_MAX):
        for j in (0, 1, 7):
            for c in (SIZE_MAX + 1, -SIZE_MAX - 1, 536_870_911, -536_870_911, -536_870_912, SIZE_MAX + 2):
                script.expect(6, "read", block_of([(position, only(j, c))]))
    for c in (SIZE_MAX, -SIZE_MAX):
        script.expect(0, "read", block_of([(0, (c,) * 8)]))
    for before in ([], [(100, (3, 4, 5))], [(98, FLAT), (114, (0, 1)), (130, FLAT)]):
        last = before[-1][0] + 8 if before else 100
        held = before + [(last, FLAT)]
        for position in (last, last - 1, last - 9, 0):
            script.expect(4, "read", block_of(held + [(position, FLAT)]))
        for position in (last + 17, last + 18, last + 256, POSITION_MAX):
            script.expect(5, "read", block_of(held + [(position, FLAT)]))
        script.expect(0, "read", block_of(held + [(last + 16, FLAT)]))
        for h in (1, 2, 15, 16):
            for j in (0, 1, 6, 7):
                limit = SIZE_MAX // h**j
                script.expect(0, "read", block_of(held + [(last + h, only(j, -limit))]))
                script.expect(6, "read", block_of(held + [(last + h, only(j, -limit - 1))]))
                if j and h > 8:
                    script.expect(6, "read", block_of(before + [(last, only(j, limit + 1)), (last + h, FLAT)]))
                    script.expect(0, "read", block_of(before + [(last, only(j, limit)), (last + h, FLAT)]))
    for c in (536_870_911, -536_870_911, -536_870_912):
        script.expect(6, "read", block_of([(1, FLAT), (2, (c,))]))
        script.expect(6, "read", block_of([(1, FLAT), (2, (1, 2)), (3, (1, 2, c))]))
    top = POSITION_MAX
    script.expect(0, "read", block_of([(top - 16, FLAT), (top, FLAT)]))
    script.expect(4, "read", block_of([(top - 16, FLAT), (top, FLAT), (0, FLAT)]))
    script.expect(4, "read", block_of([(top, FLAT), (top, FLAT)]))
    script.expect(5, "read", block_of([(top - 17, FLAT), (top, FLAT)]))
    script.expect(5, "read", block_of([(0, FLAT), (top, FLAT)]))


def two_faults(script):
    """Read: a fault at every place, and every two that differ in number: the earlier in word order answers"""
    words = block_words(SOUND)
    faults = list(all_faults())
    script.hold_knots((20, (1, 1)))
    for fault in faults:
        script.try_block(fault.number, faulty(words, [fault]))
    for i, fault in enumerate(faults):
        for other in faults[i + 1 :]:
            # Edition 2 with a fault of form is among the blocks with readings.
            if fault.number != other.number and max(fault.number, other.number) > 1 and fault.can_stand_with(other):
                script.expect(first_number(fault, other), "read", faulty(words, [fault, other]))
    script.expect(0, "read", packed(words))


def cuts(script):
    """A block of five knots cut at every byte; at every word, with an end word that counts right; a word left out, twice or exchanged"""
    words = block_words(MIXED)
    script.hold_knots((20, (1, 1)))
    for length in range(4 * len(words)):
        script.expect(1, "read", packed(words)[:length])
    for k in range(1, len(words) - 1):
        script.expect(1, "read", packed(with_end(words[:k])))
    for k in range(len(words) - 1):
        for others in (words[:k] + words[k + 1 : -1], words[: k + 1] + words[k:-1]):
            script.call(line_for("read", packed(with_end(others))))
        script.call(line_for("read", packed(words[:k] + [words[k + 1], words[k]] + words[k + 2 :])))
        script.hold_knots((20, (1, 1)))
    for count in range(len(MIXED) + 1):
        script.expect(0, "read", block_of(MIXED[:count]))
        script.expect(1, "read", block_of(MIXED[:count])[:-4])
    script.write(len(words) * 4)


def flipped_bits(script):
    """Each bit of the worked block flipped"""
    block = block_of(WORKED)
    script.hold_knots((20, (1, 1)))
    for bit in range(8 * len(block)):
        script.call(line_for("read", (int.from_bytes(block, "little") ^ 1 << bit).to_bytes(len(block), "little")))
        if script.answers[-1] == "accepted" and bit % 3 == 0:
            script.write(len(block))
