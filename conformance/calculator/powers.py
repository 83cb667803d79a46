"""Products and powers of whole numbers, enclosed between two ends of 256 bits."""
from __future__ import annotations

from typing import NamedTuple

BITS = 256


class Enclosed(NamedTuple):
    """A number from low * 2^shift to high * 2^shift."""

    low: int
    high: int
    shift: int


def enclosed(low: int, high: int, shift: int = 0) -> Enclosed:
    """The ends without the digits that are too many. The lower end goes down, and the higher one up."""
    excess = high.bit_length() - BITS
    if excess <= 0:
        return Enclosed(low, high, shift)
    return Enclosed(low >> excess, -(-high >> excess), shift + excess)


def product(one: Enclosed, other: Enclosed) -> Enclosed:
    return enclosed(one.low * other.low, one.high * other.high, one.shift + other.shift)


def power(base: int, exponent: int) -> Enclosed:
    """A power of a number that is not below zero, by squares."""
    found, square = Enclosed(1, 1, 0), enclosed(base, base)
    while exponent:
        if exponent % 2:
            found = product(found, square)
        exponent //= 2
        if exponent:
            square = product(square, square)
    return found


def is_below(one: Enclosed, other: Enclosed) -> bool:
    """Whether the higher end of the one is below the lower end of the other."""
    shift = one.shift - other.shift
    return one.high << max(shift, 0) < other.low << max(-shift, 0)
