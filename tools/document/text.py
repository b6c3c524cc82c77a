"""Numbers as text, and the text of a block, a line for each knot."""
import re

from document.block import READING_MAX, READINGS_MAX
from document.knot import TooLarge, number_of
from document.reel import Reel


class Unreadable(Exception):
    """A line is none of the calls, or a field of it is no number that fits: with what is wrong, of a field."""


class Faulty(Exception):
    """A text is no reel: with what is wrong, and in which line."""


def shown(field):
    """As it was written, but cut after 40 bytes."""
    text = field[:40].decode(errors="backslashreplace")
    return f"'{text}..'" if len(field) > 40 else f"'{text}'"


def whole(field, least, most):
    """Digits with at most a - in front, of any length (so the zeros in front go before Python counts the digits)."""
    if not re.fullmatch(rb"-?[0-9]+", field):
        raise Unreadable(f"{shown(field)} is no whole number")
    digits = field.lstrip(b"-").lstrip(b"0")[:11] or b"0"  # 11 digits are too many for any field, and so are more
    n = -int(digits) if field.startswith(b"-") else int(digits)
    if not least <= n <= most:
        raise Unreadable(f"{shown(field)} is not within {least} to {most}")
    return n


def unsigned(field):
    """A position or an index: 32 bits."""
    return whole(field, 0, (1 << 32) - 1)


def signed(fields):
    """Coefficients, or multipliers: 32 bits each."""
    return tuple(whole(field, -(1 << 31), (1 << 31) - 1) for field in fields)


def text_of_knot(position, coefficients, readings):
    fields = [position, *coefficients, *([":", *readings] if readings else [])]
    return " ".join(map(str, fields)) + "\n"


def text_of(knots, readings):
    return "".join(text_of_knot(*knot, beside) for knot, beside in zip(knots, readings, strict=True))


def readings_behind(colon):
    """The readings of a line, from the fields that begin with its colon, if it has one: then one reading at least."""
    if len(colon) == 1:
        raise Unreadable("no reading stands behind the colon")
    return tuple(whole(field, 0, READING_MAX) for field in colon[1:])


def reason_of(refusal, knots, lines):
    """Behind a 6 the coefficient that is too large, of knots in these lines: it can be in the line before."""
    if not isinstance(refusal, TooLarge):
        return ""
    k, j, h = refusal
    return f": in line {lines[k]} the coefficient C_{j}, {knots[k][1][j]}, is too large for a gap of {h}"


def contents_of_text(text):
    """A line `POSITION C_0 C_1 ..` for each knot, with ` : R_0 R_1 ..` after it if the knot has readings: the list of
    knots, and beside it the readings of each. Empty lines and lines that begin with # are passed over."""
    reel, readings, lines = Reel(), [], []
    for line_number, line in enumerate(text.split(b"\n"), 1):
        fields = line.split()
        if not fields or line.startswith(b"#"):
            continue
        colon = fields.index(b":") if b":" in fields else len(fields)
        try:
            position, coefficients = unsigned(fields[0]), signed(fields[1:colon])
            readings.append(readings_behind(fields[colon:]))
        except Unreadable as unreadable:
            raise Faulty(f"line {line_number}: {unreadable}")
        lines.append(line_number)
        knots = [*reel.knots, (position, coefficients)]
        refusal = reel.append(position, coefficients) or (12 if len(readings[-1]) > READINGS_MAX else 0)
        if refusal:
            raise Faulty(f"refused {number_of(refusal)} at line {line_number}{reason_of(refusal, knots, lines)}")
    return reel.knots, readings
