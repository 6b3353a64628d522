"""Decimals (m, e) worth m * 10^e, and their operations rounded down or up (docs/SPECIFICATION.md, "Decimals")."""
import functools
from fractions import Fraction
from math import ceil, floor
from typing import NamedTuple


class Decimal(NamedTuple):
    m: int
    e: int


ZERO = Decimal(0, 0)
DOWN = "down"
UP = "up"
OPPOSITE = {DOWN: UP, UP: DOWN}


def power_of_ten(e):
    return Fraction(10**e) if e >= 0 else Fraction(1, 10**-e)


def value(d):
    """The exact value of a decimal."""
    return d.m * power_of_ten(d.e)


def keeps_input_rule(d):
    """The rule of a decimal in a file or record."""
    return 0 <= d.m <= 999_999_999 and -20 <= d.e <= 20 and (d.m != 0 or d.e == 0)


def in_range(d):
    return -999 <= d.e <= 999


def is_working(d):
    return d == ZERO or 100_000_000 <= d.m <= 999_999_999


def exponent_of(exact):
    """The e for which the exact value, above zero, lies from 100,000,000 * 10^e to below 1,000,000,000 * 10^e."""
    e = len(str(exact.numerator)) - len(str(exact.denominator)) - 9
    while exact < 10**8 * power_of_ten(e):
        e -= 1
    while exact >= 10**9 * power_of_ten(e):
        e += 1
    return e


def rounded(exact, direction):
    """Down: the greatest working decimal not above the exact value. Up: the least not below it."""
    if exact == 0:
        return ZERO
    e = exponent_of(exact)
    in_units = exact / power_of_ten(e)
    m = floor(in_units) if direction == DOWN else ceil(in_units)
    # Nothing lies between 999,999,999 units and 100,000,000 of the next ones, which are 1,000,000,000 of these.
    return Decimal(100_000_000, e + 1) if m == 10**9 else Decimal(m, e)


@functools.cache
def working_form(d):
    """The working decimal of the same value. An input has one; both directions give it. The inputs of a list come again and again."""
    form = rounded(value(d), DOWN)
    assert value(form) == value(d), d
    return form


def are_operands(a, b):
    """The specification: an operand is a working decimal with e from -999 to 999; anything else gives (0, 0)."""
    return is_working(a) and is_working(b) and in_range(a) and in_range(b)


def multiply(a, b, direction):
    return rounded(value(a) * value(b), direction) if are_operands(a, b) else ZERO


def divide(a, b, direction):
    # A zero divisor gives (0, 0).
    return rounded(value(a) / value(b), direction) if are_operands(a, b) and b.m != 0 else ZERO


def add(a, b, direction):
    return rounded(value(a) + value(b), direction) if are_operands(a, b) else ZERO
