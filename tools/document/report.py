"""The report ("Reel report")."""
from document.knot import number_of
from document.piece import UNIT_OF_POSITION
from document.reel import Reel

INPUT_MAX = 21_164


def report_of(block):
    """The lines for a block of any length: its limit comes first, then read's refusal, then 8."""
    if len(block) > INPUT_MAX:
        return "refused 1\n"
    reel = Reel()
    number = number_of(reel.read(block))
    if not number and len(reel.knots) < 2:
        number = 8
    if number:
        return f"refused {number}\n"
    lines, last = [], len(reel.knots) - 1
    for k in range(last):
        a, b = reel.knots[k][0], reel.knots[k + 1][0]
        answers = reel.value(UNIT_OF_POSITION * a) + reel.trend(UNIT_OF_POSITION * a) + reel.total(k, k + 1)
        lines.append(" ".join(map(str, [k, a, b, *answers])))
    lines.append(f"reel {last} {reel.total(0, last)[0]}")
    return "".join(line + "\n" for line in lines)
