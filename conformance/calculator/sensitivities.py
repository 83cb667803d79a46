"""How the price with the accrued interest moves with the yield, and what of it may be printed (docs/RULES.md).

Duration, convexity and DV01 are of the redemption that is disclosed, at the yield as it is shown.
"""
from __future__ import annotations

import dataclasses
from collections.abc import Callable
from fractions import Fraction
from typing import NamedTuple

from calculator.figures import Asked, Choice, Figures, likely
from calculator.price import HALVES, MILLION, PERIOD, ManyPayments, OnePayment, total
from calculator.printed import YIELDS, last
from calculator.redemptions import redemptions
from calculator.terms import Issue, Kind

# The last digits of a duration and a convexity in one, and those of a DV01 in a dollar.
THOUSANDTHS = 1000
DV01_DIGITS = 1_000_000
# A printed number is within half a last digit of the exact one and this.
LEEWAY = Fraction(1, 1_000_000)
HALF = Fraction(1, 2)


class Nearest(NamedTuple):
    """The numbers of last digits that may be printed, of which the first is the likely one.

    They are two if the exact number is within 10^-6 of a last digit of half of one.
    """

    allowed: tuple[int, ...]


class Risk(NamedTuple):
    """The current yield in thousandths of a percent, if there is one, duration and convexity in thousandths, and the
    DV01 in 10^-6 dollars."""

    current_yield: int | None
    duration: int
    convexity: int
    dv01: int


def nearest(compared: Callable[[Fraction], int]) -> Nearest:
    """What may be printed for a number that is not below zero, of which is known how it compares with others."""
    above = 1
    while compared(above - HALF - LEEWAY) >= 0:
        above *= 2
    greatest = last(lambda digits: compared(digits - HALF - LEEWAY) >= 0, 0, above)
    near = [digits for digits in (greatest, greatest - 1) if digits >= 0 and compared(digits + HALF + LEEWAY) <= 0]
    return Nearest(tuple(near if compared(greatest - HALF) >= 0 else reversed(near)))


def nearest_to(exact: Fraction) -> Nearest:
    return nearest(lambda bound: (exact > bound) - (exact < bound))


def days_to(paid: ManyPayments) -> list[int]:
    """The days from the settlement to each payment."""
    return [PERIOD * (place + 1) - paid.elapsed for place in range(len(paid.payments))]


def duration(paid: OnePayment | ManyPayments, yield_: int) -> Fraction:
    """The modified duration in years. What discounts the broken half-year cancels, so it is a fraction."""
    if isinstance(paid, OnePayment):
        time = Fraction(paid.left, paid.year)
        return time / (1 + time * Fraction(yield_, MILLION))
    weighted = tuple(payment * days for payment, days in zip(paid.payments, days_to(paid)))
    mean = Fraction(total(weighted, yield_), total(paid.payments, yield_) * 2 * PERIOD)
    return mean / (1 + Fraction(yield_, HALVES))


def convexity(paid: OnePayment | ManyPayments, yield_: int) -> Fraction:
    """In years squared."""
    if isinstance(paid, OnePayment):
        return 2 * duration(paid, yield_) ** 2
    weighted = tuple(payment * days * (days + PERIOD) for payment, days in zip(paid.payments, days_to(paid)))
    mean = Fraction(total(weighted, yield_), total(paid.payments, yield_) * (2 * PERIOD) ** 2)
    return mean / (1 + Fraction(yield_, HALVES)) ** 2


def dv01(paid: OnePayment | ManyPayments, yield_: int) -> Nearest:
    """What the price falls by if the yield rises by 0.01 percent: the duration times the worth / 10,000.

    The worth of many payments is no fraction, so it is compared with that of which the bound would be the DV01.
    """
    basis_point = duration(paid, yield_) * Fraction(DV01_DIGITS, 10_000)
    if isinstance(paid, OnePayment):
        growth = 1 + Fraction(paid.left * yield_, paid.year * MILLION)
        return nearest_to(basis_point * paid.due / growth / paid.unit)

    def compared(bound: Fraction) -> int:
        worth = bound / basis_point * paid.unit
        if worth <= 0:
            return 1
        enlarged = tuple(payment * worth.denominator for payment in paid.payments)
        return dataclasses.replace(paid, payments=enlarged).compared(yield_, worth.numerator)

    return nearest(compared)


def current_yield(issue: Issue, price: int) -> int | None:
    """The coupon divided by the printed price, of a periodic issue at a price above 0: cut off after four decimals of
    the percentage, and rounded to three."""
    if issue.kind != Kind.PERIODIC or price == 0:
        return None
    return (100 * issue.coupon // price + YIELDS // 2) // YIELDS


def risk_of(issue: Issue, asked: Asked, figures: Figures, choose: Choice = likely) -> Risk | None:
    """The sensitivities of a trade with these figures. A discounted note has none."""
    if issue.kind == Kind.DISCOUNT:
        return None
    disclosed = next(each for each in redemptions(issue, asked.settlement) if each.day == figures.redemption)
    paid, shown = disclosed.paid, YIELDS * figures.yield_
    return Risk(current_yield(issue, figures.price),
                choose(nearest_to(THOUSANDTHS * duration(paid, shown))),
                choose(nearest_to(THOUSANDTHS * convexity(paid, shown))),
                choose(dv01(paid, shown)))
