"""The workshop's view of a block (request 1/14): every n-th reading of a knot, the first one included."""
from document.block import readings_of
from document.knot import Refused


def view(block, k, n):
    """The readings of knot k that it shows, in a list, or its refusal: the reader's own, 9, 11."""
    try:
        readings = readings_of(block)
    except Refused as refused:
        return refused.args[0]
    if k >= len(readings):
        return 9
    if n == 0:
        return 11
    return [reading for number, reading in enumerate(readings[k]) if number % n == 0]


def view_at(block, k, n, i):
    """The i-th of the readings shown, in a list, which is empty past the last; or the view's refusal."""
    shown = view(block, k, n)
    return shown[i : i + 1] if isinstance(shown, list) else shown
