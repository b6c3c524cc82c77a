"""Texts of blocks, with and without readings: packed and unpacked, passed over, refused."""
from document.block import block_of, contents_of
from document.hold import hold
from document.known_results import WORKED
from document.text import Faulty, contents_of_text, text_of

SPOT_OF_ONE = ": in line 1 the coefficient C_0, 268435457, is too large for a gap of 1"
SPOT_BEFORE = ": in line 1 the coefficient C_1, -20000000, is too large for a gap of 16"

# Each with what is said of it.
FAULTY_TEXTS = [
    (b"1 1\n\n18 1\n", "refused 5 at line 3"),
    (b"1 1\n1 1", "refused 4 at line 2"),
    (b"7", "refused 3 at line 1"),
    (b"7 268435457", "refused 6 at line 1" + SPOT_OF_ONE),
    (b"7 0 -20000000\n# next\n23 0", "refused 6 at line 3" + SPOT_BEFORE),
    (b"7 1\n8 x", "line 2: 'x' is no whole number"),
    (b"7 2147483648", "line 1: '2147483648' is not within -2147483648 to 2147483647"),
    (b"7 " + b"-" + b"9" * 41, "line 1: '-" + "9" * 39 + "..' is not within -2147483648 to 2147483647"),
    (b"-1 0", "line 1: '-1' is not within 0 to 4294967295"),
    (b"7 \xff", "line 1: '\\xff' is no whole number"),
    (b"7 1 : 5\n8 1 :" + b" 5" * 33, "refused 12 at line 2"),
    (b"7 268435457 :" + b" 5" * 33, "refused 6 at line 1" + SPOT_OF_ONE),
    (b"7 : 5", "refused 3 at line 1"),
    (b"7 1\n8 1 :", "line 2: no reading stands behind the colon"),
    (b"7 1 : 65536", "line 1: '65536' is not within 0 to 65535"),
    (b"7 1 : -1", "line 1: '-1' is not within 0 to 65535"),
    (b"7 1 :" + b" 5" * 33 + b" x", "line 1: 'x' is no whole number"),
    (b"7 1 : 5 : 5", "line 1: ':' is no whole number"),
    (b"7 1: 5", "line 1: '1:' is no whole number"),
    (b"7 1 :5", "line 1: ':5' is no whole number"),
    (b": 5", "line 1: ':' is no whole number"),
]


def hold_text(text, knots, readings):
    """Packed and unpacked, from the text and from the block."""
    block = block_of(knots, readings)
    hold(contents_of_text(text.encode()) == (list(knots), readings), "the knots and readings of", text)
    hold(contents_of(block) == (list(knots), readings), "the knots and readings in the block of", text)
    hold(block_of(*contents_of_text(text.encode())) == block, "the block of", text)
    hold(text_of(*contents_of(block)) == text, "the text from the block of", text)


def hold_texts():
    """The worked block's text, and one with readings; what is passed over; and what is refused, with its line."""
    hold_text("10 0 0\n12 4 0\n13 4\n", WORKED, [(), (), ()])
    hold_text("10 0 0 : 65535 0\n12 4 0\n13 4 : 7\n", WORKED, [(65_535, 0), (), (7,)])
    hold_text("10 0 0" + " : 1" + " 5" * 31 + "\n", WORKED[:1], [(1,) + (5,) * 31])
    passed_over = contents_of_text(b"# one\n\n10 0 0\r\n  12  4 0  :  09")
    hold(passed_over == (list(WORKED[:2]), [(), (9,)]), "what is passed over in a text")
    for faulty_text, fault in FAULTY_TEXTS:
        try:
            contents_of_text(faulty_text)
        except Faulty as found:
            hold(str(found) == fault, faulty_text, "gives", found, "and not", fault)
        else:
            hold(False, faulty_text, "is taken")
