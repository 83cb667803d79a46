"""Figures as they are printed: a price cut off, a yield rounded, and what the desk may leave undecided.

The desk encloses a price between two ends that are less than 10^-9 dollars apart. If a boundary between two printed
figures may lie between them, it may say so in place of the figure (docs/RULES.md, Undecided).
"""
from __future__ import annotations

import enum
import math
from collections.abc import Callable
from fractions import Fraction
from typing import NamedTuple

from calculator.price import HALVES, ManyPayments, OnePayment

# The units of a printed price in a dollar, and those of a yield, a millionth, in a printed one.
MILLS = 1000
YIELDS = 10


class Ending(enum.Enum):
    PRINTED = "printed"
    BELOW = "below all that may be printed"
    ABOVE = "above all that may be printed"
    NO_TIME = "with no day left, so that there is no yield"
    UNDECIDED = "between two printed figures"


class Outcome(NamedTuple):
    """What comes out for one redemption: a printed figure, or the lower of the two between which it is undecided."""

    ending: Ending
    figure: int = 0


class Outcomes(NamedTuple):
    """The exact outcome, and those that the desk may come to, of which the first is the likely one."""

    exact: Outcome
    allowed: tuple[Outcome, ...]


def certain(outcome: Outcome) -> Outcomes:
    return Outcomes(outcome, (outcome,))


def undecided_at(boundary: int) -> Outcome:
    return Outcome(Ending.UNDECIDED, boundary - 1)


def rounded(yield_: int) -> int:
    """A yield in thousandths of a percent. Half of one goes away from zero."""
    size = (abs(yield_) + YIELDS // 2) // YIELDS
    return size if yield_ >= 0 else -size


def boundary_of(figure: int) -> int:
    """The yield that parts a printed yield from the one below it."""
    return YIELDS * figure - YIELDS // 2


def last(holds: Callable[[int], bool], low: int, high: int) -> int:
    """The last number at which something holds that holds at the low one, not at the high one, and ends once."""
    while high - low > 1:
        middle = (low + high) // 2
        if holds(middle):
            low = middle
        else:
            high = middle
    return low


def price_of(paid: OnePayment | ManyPayments, yield_: int) -> Outcomes:
    """The printed price at a yield, in thousandths of a dollar."""
    if isinstance(paid, OnePayment):
        price = paid.price(yield_) * MILLS
        return certain(Outcome(Ending.PRINTED, math.floor(price)) if price >= 0 else Outcome(Ending.BELOW))
    exact = exact_price(paid, yield_)
    if paid.is_exact_case(yield_):
        return certain(exact)
    mill = paid.unit // MILLS
    boundaries = [0] if exact.ending is Ending.BELOW else [exact.figure, exact.figure + 1]
    near = [each for each in boundaries if each * mill + paid.accrued > 0 and paid.is_near(yield_, each * mill)]
    tie = next((each for each in near if not paid.is_more(yield_, each * mill)
                and paid.is_at_least(yield_, each * mill)), None)
    if tie is None:
        return Outcomes(exact, (exact, *map(undecided_at, near)))
    return Outcomes(exact, (undecided_at(tie), exact) if has_short_discount(yield_) else (undecided_at(tie),))


def exact_price(paid: ManyPayments, yield_: int) -> Outcome:
    mill = paid.unit // MILLS
    if not paid.is_at_least(yield_, 0):
        return Outcome(Ending.BELOW)
    above = 1
    while paid.is_at_least(yield_, above * mill):
        above *= 2
    return Outcome(Ending.PRINTED, last(lambda figure: paid.is_at_least(yield_, figure * mill), 0, above))


def has_short_discount(yield_: int) -> bool:
    """Whether the discount of half a year is a whole number over a power of two, so that the ends may be exact."""
    growth, fives = HALVES + yield_, 0
    while growth % 5 == 0:
        growth, fives = growth // 5, fives + 1
    return growth & (growth - 1) == 0 and fives <= 6


def yield_of(paid: OnePayment | ManyPayments, price: int, ends: tuple[int, int]) -> Outcomes:
    """The printed yield at a price in units, in thousandths of a percent, within the ends of what may be printed."""
    if isinstance(paid, ManyPayments):
        return yields_of_many(paid, price, ends)
    if paid.left == 0:
        return certain(Outcome(Ending.NO_TIME))
    exact = paid.yield_at(Fraction(price, paid.unit))
    figure = rounded(math.trunc(exact))
    if figure < ends[0]:
        return certain(Outcome(Ending.BELOW))
    return certain(Outcome(Ending.ABOVE) if figure > ends[1] else Outcome(Ending.PRINTED, figure))


def reaches(paid: ManyPayments, price: int, figure: int) -> bool:
    """Whether the exact yield at a price rounds to a figure or more."""
    # Half a thousandth goes up above zero, and down below it.
    is_price_there = paid.is_at_least if figure >= 1 else paid.is_more
    return is_price_there(boundary_of(figure), price)


def yields_of_many(paid: ManyPayments, price: int, ends: tuple[int, int]) -> Outcomes:
    least, greatest = ends
    exact, start = Outcome(Ending.BELOW), least
    if reaches(paid, price, greatest + 1):
        exact, start = Outcome(Ending.ABOVE), greatest + 1
    elif reaches(paid, price, least):
        start = last(lambda figure: reaches(paid, price, figure), least, greatest + 1)
        exact = Outcome(Ending.PRINTED, start)
    doubtful = [each for each in near_boundaries(paid, price, start, ends) if not paid.is_exact_case(boundary_of(each))]
    # A search that is undecided between two figures has found that the lower one is reached, or it is the least.
    is_below = exact.ending is Ending.BELOW
    possible = [each for each in doubtful if each == least or each <= start + 1 and not is_below]
    tie = next((each for each in doubtful if is_tie(paid, price, each)), None)
    if tie is None:
        return Outcomes(exact, (exact, *map(undecided_at, possible)))
    return Outcomes(exact, tuple(map(undecided_at, [tie] + [each for each in possible if each < tie])))


def near_boundaries(paid: ManyPayments, price: int, start: int, ends: tuple[int, int]) -> list[int]:
    """The figures about the start at whose boundary with the one below the exact price is within 10^-9 dollars."""
    below, above = start, start + 1
    while below >= ends[0] and paid.is_near(boundary_of(below), price):
        below -= 1
    while above <= ends[1] + 1 and paid.is_near(boundary_of(above), price):
        above += 1
    return list(range(below + 1, above))


def is_tie(paid: ManyPayments, price: int, figure: int) -> bool:
    at = boundary_of(figure)
    return paid.is_at_least(at, price) and not paid.is_more(at, price)
