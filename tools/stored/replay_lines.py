"""The replay program's lines: a script's bytes in, the answers out."""
import re

from document.block import block_of
from document.combination import combination
from document.knot import TooLarge
from document.reel import Reel
from document.same import same
from document.text import Unreadable, signed, unsigned, whole
from document.view import view, view_at

PASSED_OVER = (b"#", b"=", b"~")
LENT = b"\xa5"
LENT_MAX = 32_768
LINE_MAX = 524_288


def bytes_of_hex(field):
    if field == b"-":
        return b""
    if not re.fullmatch(rb"([0-9a-f][0-9a-f])+", field):
        raise Unreadable
    return bytes.fromhex(field.decode())


def hex_of(data):
    return data.hex() or "-"


def line_for(name, *fields):
    """A call's line; a field is a number, a tuple of them, or the bytes of a block."""
    texts = [name]
    for field in fields:
        if isinstance(field, tuple):
            texts += map(str, field)
        else:
            texts.append(hex_of(field) if isinstance(field, bytes) else str(field))
    return " ".join(texts)


def line_of(answer):
    """A yes or no, or a refusal, 0 for an accepted call. Behind a 6 stands its spot; the list of a knot is whole."""
    if isinstance(answer, bool):
        return "yes" if answer else "no"
    if isinstance(answer, TooLarge):
        return f"refused 6 {answer.knot} {answer.order} {answer.gap} whole"
    return f"refused {answer}" if answer else "accepted"


def answered(query, answer):
    """A query's answer with the query's name, or its refusal."""
    return f"{query} {answer[0]}" if isinstance(answer, list) else line_of(answer)


def line_of_view(answer):
    """The number of readings that a view shows, and these; or its refusal."""
    return " ".join(map(str, ("view", len(answer), *answer))) if isinstance(answer, list) else line_of(answer)


def line_of_shown(answer):
    """One reading of a view, or that it is past the last; or the view's refusal."""
    if not isinstance(answer, list):
        return line_of(answer)
    return f"reading {answer[0]}" if answer else "past"


def line_of_sum(answer):
    """The block that is written of the knots of a sum; or its refusal."""
    return f"combined {hex_of(block_of(answer))}" if isinstance(answer, list) else line_of(answer)


def kind_of_answer(answer):
    return " ".join(answer.split(" ")[: 2 if answer.startswith("refused") else 1])


def accepted_reel(block):
    """The reel of a block that read accepts."""
    reel = Reel()
    if reel.read(block):
        raise Unreadable
    return reel


def written(reel, room):
    number = reel.write(room)
    return f"{line_of(number) if number else f'wrote {len(block_of(reel.knots))}'} {hex_of(room)}"


def answer_to_call(line, reel):
    match line.split(b" "):
        case [b"clear"]:
            return line_of(reel.clear())
        case [b"append", position, *coefficients]:
            return line_of(reel.append(unsigned(position), signed(coefficients)))
        case [b"correct", k, *coefficients]:
            return line_of(reel.correct(unsigned(k), signed(coefficients)))
        case [b"read", block]:
            return line_of(reel.read(bytes_of_hex(block)))
        case [b"write", room]:
            return written(reel, bytearray(LENT * whole(room, 0, LENT_MAX)))
        case [b"value", x]:
            return answered("value", reel.value(unsigned(x)))
        case [b"trend", x]:
            return answered("trend", reel.trend(unsigned(x)))
        case [b"total", i, j]:
            return answered("total", reel.total(unsigned(i), unsigned(j)))
        case [b"same", block, other]:
            return line_of(same(accepted_reel(bytes_of_hex(block)), accepted_reel(bytes_of_hex(other))))
        case [b"view", block, k, n]:
            return line_of_view(view(bytes_of_hex(block), unsigned(k), unsigned(n)))
        case [b"viewat", block, k, n, i]:
            return line_of_shown(view_at(bytes_of_hex(block), unsigned(k), unsigned(n), unsigned(i)))
        case [b"combine", alpha, beta, block, other]:
            reels = accepted_reel(bytes_of_hex(block)), accepted_reel(bytes_of_hex(other))
            return line_of_sum(combination(*signed([alpha, beta]), *reels))
    raise Unreadable


def answer_to(line, reel):
    """The answer to one line, or None where it is passed over. Another line that is too long is unreadable, whatever it says."""
    if not line or line.startswith(PASSED_OVER):
        return None
    if len(line) > LINE_MAX:
        return "unreadable"
    try:
        return answer_to_call(line, reel)
    except Unreadable:
        return "unreadable"


def answers_to(script):
    """The answers to a whole script, on one reel that starts empty."""
    reel = Reel()
    answers = [answer_to(line, reel) for line in script.split(b"\n")]
    return [answer for answer in answers if answer is not None]
