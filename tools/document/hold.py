"""How a claim of document 01 is held."""


class Broken(Exception):
    """Something that document 01 states does not hold."""


def hold(condition, *what):
    if not condition:
        raise Broken(" ".join(str(w) for w in what))
