"""The operations that terms, guidelines and sums are worked out with: those of decimals.py, and the e of every decimal on the way.

Every input and constant in its working form, and every product, quotient and sum of an accepted case, is a result of one of these
four. For each of them docs/SPECIFICATION.md, "Promises", states an e from -999 to 999; another e is an error here and no refusal.
The operations as calls of their own (decimals.py) hand such an e back.
"""
from . import decimals


def on_the_way(d):
    """The same decimal, which has an e from -999 to 999."""
    assert decimals.in_range(d), f"e out of range on the way: {d}"
    return d


def working_form(d):
    return on_the_way(decimals.working_form(d))


def multiply(a, b, direction):
    return on_the_way(decimals.multiply(a, b, direction))


def divide(a, b, direction):
    return on_the_way(decimals.divide(a, b, direction))


def add(a, b, direction):
    return on_the_way(decimals.add(a, b, direction))
