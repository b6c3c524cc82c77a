"""Parts of the replay script: blocks with readings, read and viewed (request 1/14)."""
import random

from document.block import (
    WRITTEN_MAX, EDITION_OF_READINGS, PAYLOAD, READING_BIT, READINGS_MAX, block_of, block_words, in_edition, packed,
)
from document.coefficients import FLAT
from document.hold import hold
from document.knot import KNOTS_MAX
from document.known_results import WORKED
from document.piece import UNIT_OF_POSITION
from document.readings import changed_readings, readings_by_chance
from stored.faults import SOUND, all_faults, faulty
from stored.parts.chance import knots_by_chance
from stored.readings import (
    COUNTS, FEW, at_knot, different, edition_2, exchanged, greatest_block, places_of_readings, tried_blocks,
)
from stored.reels import MIXED, NO_PLACE
from stored.replay_lines import hex_of, line_for

STRIDES = (1, 2, READINGS_MAX - 1, READINGS_MAX, READINGS_MAX + 1, NO_PLACE)


def readings_of_every_count(script):
    """Edition 2: readings of every count, at every place; their faults, alone and with others: the first answers"""
    script.hold_knots((20, (1, 1)))
    for number, block in tried_blocks():
        script.try_block(number, block)


def calls_of_an_operator(script):
    """Calls on the reel that stands, none of them refused."""
    start = len(script.answers)
    positions = [UNIT_OF_POSITION * position for position, _ in script.reel.knots]
    last = len(positions) - 1
    script.ask(positions[0], positions[0] + 1, positions[1], positions[last] - 1, positions[last])
    script.add_up((0, last), (0, 1), (last - 1, last), (last, last))
    script.write(len(block_of(script.reel.knots)))
    script.expect(0, "correct", 1, (8, -1))
    script.expect(0, "append", script.reel.knots[-1][0] + 3, (2, 1))
    script.ask(positions[1] + 1, positions[last] + 1)
    script.add_up((0, last + 1))
    script.write(len(block_of(script.reel.knots)) + 1)
    return script.answers[start:]


def operators_answers(script):
    """Blocks that differ only in readings and end count: the same answers after each, as after edition 1"""
    for knots in (WORKED, MIXED):
        counts = [(2, 0, 3, 0, 1), (1, READINGS_MAX, 0, 2, 0), (0,) * 5]
        blocks = [edition_2(knots, different(*numbers[: len(knots)])) for numbers in counts]
        answers = []
        for block in (*blocks, block_of(knots), blocks[0]):
            script.expect(0, "read", block)
            answers.append(calls_of_an_operator(script))
            script.call(line_for("same", block, block_of(knots)), "yes")
        hold(all(found == answers[0] for found in answers), "readings show in the answers after a read of", knots)
    too_many = edition_2(SOUND, at_knot(0, COUNTS[-1]))
    script.unreadable(line_for("same", too_many, block_of(SOUND)), line_for("same", block_of(SOUND), too_many))


def strides_and_indices(script):
    """View: every stride over 0, 1, 31 and 32 readings; of those shown the first, the last, and past the last"""
    for number in COUNTS[:-1]:
        readings = at_knot(1, number)
        block = edition_2(SOUND, readings)
        script.view(11, block, 1, 0)
        script.view_at(11, block, 1, 0, 0)
        for n in STRIDES:
            shown = list(readings[1][::n])
            script.view(shown, block, 1, n)
            for i in sorted({0, max(len(shown) - 1, 0), len(shown), NO_PLACE}) if number != READINGS_MAX - 1 else ():
                script.view_at(shown[i : i + 1], block, 1, n, i)
    block = edition_2(SOUND, at_knot(1, COUNTS[-1]))
    script.view(12, block, 1, 1)
    script.view_at(12, block, 1, 1, 0)


def products(script):
    """View: index times stride past 32 bits, where its low 32 bits would be the number of a reading"""
    readings = at_knot(0, READINGS_MAX)
    block = edition_2(SOUND, readings)
    third = (1 << 32) // 3 + 1
    for n, i in ((2, 1 << 31), (3, third), (1 << 16, 1 << 16), (third, 3), (1 << 31, 2), (NO_PLACE, NO_PLACE)):
        hold(i * n % (1 << 32) < READINGS_MAX, "no reading has the low bits of", i, "times", n)
        script.view_at([], block, 0, n, i)
        script.view_at(list(readings[0][n : n + 1]), block, 0, n, 1)
        script.view_at(list(readings[0][:1]), block, 0, n, 0)


def chosen_knots(script):
    """View: the first, the inner and the last knot, and 9 past it; of blocks without readings and without knots"""
    for knots, readings in ((SOUND, different(3, 0, 2)), (SOUND, FEW), (SOUND[:1], different(2)), ((), [])):
        block, count = edition_2(knots, readings), len(knots)
        for k, beside in enumerate(readings):
            script.view(list(beside), block, k, 1)
            script.view_at(list(beside[1:2]), block, k, 1, 1)
        for k in (count, count + 1, 256, 65_536 + count, 1 << 31, NO_PLACE):
            script.view(9, block, k, 1)
            script.view_at(9, block, k, 1, 0)
    for block in (block_of(SOUND), edition_2(SOUND, [()] * len(SOUND))):
        for k in range(len(SOUND)):
            script.view([], block, k, 1)
            script.view_at([], block, k, NO_PLACE, 0)
        script.view(9, block, len(SOUND), 1)
    script.view(9, block_of([]), 0, 1)


def causes_of_views(script):
    """View: the reader's own causes, then 9, then 11, alone and together"""
    faults = list(all_faults(FEW))
    words = block_words(SOUND, FEW)
    sound = [(0, packed(words)), (0, block_of(SOUND)), (12, edition_2(SOUND, at_knot(2, COUNTS[-1])))]
    first_of_each = {fault.number: fault for fault in reversed(faults)}
    blocks = sound + [(number, faulty(words, [fault])) for number, fault in sorted(first_of_each.items())]
    for number, block in blocks:
        for k, n, after_reading in ((NO_PLACE, 1, 9), (0, 0, 11), (len(SOUND), 0, 9), (NO_PLACE, 0, 9)):
            script.view(number or after_reading, block, k, n)
            script.view_at(number or after_reading, block, k, n, 0)
        if number:
            script.view_at(number, block, 0, 1, 0)
    for i, fault in enumerate(faults):
        script.view(fault.number, faulty(words, [fault]), *((0, 1), (2, 3), (NO_PLACE, 1), (1, 0))[i % 4])


def bits_of_readings(script):
    """View: each bit of each reading and of the end word flipped"""
    knots, readings = WORKED[1:], different(1, 2)
    words = block_words(knots, readings)
    places = places_of_readings(words)
    for place, (k, i) in zip(places, ((0, 0), (1, 0), (1, 1))):
        for bit in range(PAYLOAD + 2):
            shown = list(readings[k])
            shown[i] ^= 1 << bit
            script.view(shown if bit < 16 else 1, exchanged(words, place, words[place] ^ 1 << bit), k, 1)
    for bit in (0, 1, 15, 16, READING_BIT - 1, READING_BIT, PAYLOAD, PAYLOAD + 1):
        script.view(1, exchanged(words, -1, words[-1] ^ 1 << bit), 1, 1)


def forms_of_views(script):
    """View: the forms that its numbers and bytes may have, and lines that are unreadable"""
    script.hold_knots((7, (1, 2)), (9, (3,)))
    good = hex_of(edition_2(WORKED[:1], different(3)))
    for rest in ("00 0001", "-0 1", "-000 -0", f"0 {'0' * 300}2", "0000000000000004294967295 1", "0 04294967295"):
        script.call(f"view {good} {rest}")
        script.call(f"viewat {good} {rest} 0001")
    for rest in ("0 1 -0", "0 1 0000000000000004294967295", "-0 01 00002"):
        script.call(f"viewat {good} {rest}")
    script.call("view - 0 1", "refused 1")
    script.call("viewat - 4294967295 0 0", "refused 1")
    for name, numbers in (("view", "0 1"), ("viewat", "0 1 2")):
        fewer = numbers[: numbers.rindex(" ")]
        script.unreadable(
            name, f"{name} ", f"{name} {good}", f"{name} {good} ", f"{name} {good} {fewer}", f"{name} {good} {fewer} ",
            f"{name} {good} {numbers} 0", f"{name} {good} {numbers} -", f"{name} {good} {numbers} ",
            f"{name} {good} {numbers}\r", f"{name} {good}  {numbers}", f"{name}  {good} {numbers}",
            f" {name} {good} {numbers}", f"{name.upper()} {good} {numbers}", f"{name}s {good} {numbers}",
            f"{name[:-1]} {good} {numbers}", f"{name}{good} {numbers}", f"{name}\t{good} {numbers}",
            f"{name} {numbers}", f"{name} {numbers} {good}", f"{name} {good[:-1]} {numbers}",
            f"{name} {good[:-2]}C0 {numbers}", f"{name} {good.upper()} {numbers}", f"{name} {good[:-1]}g {numbers}",
            f"{name} 0x00 {numbers}", f"{name} {good}- {numbers}", f"{name} -- {numbers}",
        )
        fields = numbers.split(" ")
        for k in range(len(fields)):
            for number in ("4294967296", "4294967297", "18446744073709551617", "-1", "+1", "-", "1.0", "0x1", "x", ""):
                script.unreadable(" ".join([name, good, *fields[:k], number, *fields[k + 1 :]]))
    script.unreadable("view - 4294967296 0", "viewat 00 0 0 -1", f"read {good} 0 1")
    script.write(28)


def readings_by_chance_tried(script):
    """Blocks with readings by chance, of which some are changed in their readings or in a bit: read or viewed"""
    chance = random.Random(9)
    script.hold_knots(*WORKED)
    for _ in range(40):
        knots = knots_by_chance(chance, 3)
        words = in_edition(block_words(knots, readings_by_chance(chance, knots)), EDITION_OF_READINGS)
        change = chance.randrange(4)
        if change == 0:
            words = changed_readings(chance, words)
        elif change == 1:
            words[chance.randrange(len(words))] ^= 1 << chance.randrange(32)
        k, n, i = chance.randint(0, len(knots)), chance.choice((0, 1, 2, chance.randint(3, 40))), chance.randint(0, 9)
        name, *fields = chance.choice((("read",), ("view", k, n), ("viewat", k, n, i)))
        script.call(line_for(name, packed(words), *fields))


def full_blocks(script):
    """129 knots: the longest block, of grade 7 with 32 readings each; views far into a block of flat knots"""
    script.expect(0, "read", greatest_block())
    script.expect(12, "read", greatest_block(more=1))
    positions = [UNIT_OF_POSITION * position for position, _ in script.reel.knots]
    script.ask(positions[0], positions[64] + 99, positions[128])
    script.add_up((0, 128), (127, 128))
    script.write(WRITTEN_MAX)
    readings = different(*(READINGS_MAX if k in (64, 128) else 0 for k in range(KNOTS_MAX)))
    block = edition_2([(k, FLAT) for k in range(KNOTS_MAX)], readings)
    for k in (64, 128):
        script.view(list(readings[k][::31]), block, k, 31)
    script.view_at(list(readings[128][-1:]), block, 128, 1, READINGS_MAX - 1)
    script.view(9, block, KNOTS_MAX, 1)
