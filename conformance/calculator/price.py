"""The exact price at a yield: with one payment to come, and with two or more (MSRB Rule G-33, section (b)(i)).

A price is in dollars per 100 of par, without accrued interest. Payments and accrued interest are whole numbers of
units, of which a dollar has 10^9 for each day of the year by the issue's basis. A yield is in millionths.
"""
from __future__ import annotations

import dataclasses
import functools
from fractions import Fraction

from calculator.powers import Enclosed, is_below, power, product

MILLION = 1_000_000
UNITS_A_DAY = 10**9
# Two, in millionths: a yield y is y / HALVES of half a year.
HALVES = 2 * MILLION
# The days of half a year by 30/360.
PERIOD = 180
# 10^-9 dollars, in units.
NEARNESS = 360
# The most payments for which the price on an interest date is an exact case.
FEW = 3


@dataclasses.dataclass(frozen=True)
class OnePayment:
    """What is paid at a redemption with simple interest up to it: its amount, what has accrued, and the days left."""

    due: int
    accrued: int
    left: int
    year: int = 360

    @property
    def unit(self) -> int:
        """The units of a dollar."""
        return self.year * UNITS_A_DAY

    def price(self, yield_: int) -> Fraction:
        growth = 1 + Fraction(self.left * yield_, self.year * MILLION)
        return (self.due / growth - self.accrued) / self.unit

    def yield_at(self, price: Fraction) -> Fraction:
        """The yield at which that price comes out. It needs a day that is left."""
        paid = price * self.unit + self.accrued
        return (self.due - paid) / paid * self.year / self.left * MILLION


@dataclasses.dataclass(frozen=True)
class ManyPayments:
    """Two payments or more, half a year apart, with the redemption in the last.

    `elapsed` is A, the days from the last quasi-coupon date to the settlement. `redemption` is a price in 10^-6
    dollars, and `coupon` in 10^-7.
    """

    payments: tuple[int, ...]
    accrued: int
    elapsed: int
    coupon: int
    redemption: int
    unit = 360 * UNITS_A_DAY

    @property
    def regular(self) -> int:
        """The interest of half a year."""
        return PERIOD * 100 * self.coupon

    @property
    def is_rational(self) -> bool:
        """Whether the settlement is on an interest date, so that the price is a fraction."""
        return self.elapsed in (0, PERIOD)

    def price(self, yield_: int) -> Fraction:
        """The price on an interest date. On another day it is a root, which no fraction is in general."""
        if not self.is_rational:
            raise ValueError("the price is no fraction")
        worth = Fraction(total(self.payments, yield_), (HALVES + yield_) ** (len(self.payments) - 1))
        if self.elapsed == 0:
            worth *= Fraction(HALVES, HALVES + yield_)
        return (worth - self.accrued) / self.unit

    def is_at_least(self, yield_: int, price: int) -> bool:
        """Whether the exact price at a yield is at least a price in units."""
        paid = price + self.accrued
        return paid <= 0 or self.compared(yield_, paid) >= 0

    def is_more(self, yield_: int, price: int) -> bool:
        paid = price + self.accrued
        return paid <= 0 or self.compared(yield_, paid) > 0

    def is_near(self, yield_: int, price: int) -> bool:
        """Whether the exact price is within 10^-9 dollars of a price."""
        return self.is_at_least(yield_, price - NEARNESS) and not self.is_at_least(yield_, price + NEARNESS)

    def compared(self, yield_: int, paid: int) -> int:
        """Whether the worth of the payments at a yield is below, at or above what is paid: -1, 0 or 1.

        The 180th powers of both are compared, which are whole numbers: first the ends between which they lie, and if
        these do not tell, the powers themselves.
        """
        worth, growth = sides(self.payments, self.elapsed, yield_)
        price = product(power(paid, PERIOD), growth)
        if is_below(worth, price):
            return -1
        if is_below(price, worth):
            return 1
        return self.compared_whole(yield_, paid)

    def compared_whole(self, yield_: int, paid: int) -> int:
        worth = total(self.payments, yield_) ** PERIOD * HALVES ** (PERIOD - self.elapsed)
        price = paid**PERIOD * (HALVES + yield_) ** exponent(self.payments, self.elapsed)
        return (worth > price) - (worth < price)

    def is_exact_case(self, yield_: int) -> bool:
        """Whether the desk knows the price in whole numbers, so that it is never undecided."""
        if yield_ == 0:
            return True
        return self.is_rational and (len(self.payments) <= FEW or self.is_par_bond(yield_))

    def is_par_bond(self, yield_: int) -> bool:
        """Whether each payment is a regular one and the coupon is the yield on the redemption price."""
        interest = self.payments[:-1] + (self.payments[-1] - 360_000 * self.redemption,)
        return (all(payment == self.regular for payment in interest)
                and self.accrued == self.elapsed // PERIOD * self.regular
                and self.coupon * 100_000 == yield_ * self.redemption)


def total(payments: tuple[int, ...], yield_: int) -> int:
    """T: the sum over k of the payment k times HALVES^k times (HALVES + y)^(n - 1 - k)."""
    found, scale = 0, 1
    for payment in payments:
        found = found * (HALVES + yield_) + payment * scale
        scale *= HALVES
    return found


def exponent(payments: tuple[int, ...], elapsed: int) -> int:
    """The power of the half-year's growth by which the 180th power of the last payment is discounted."""
    return len(payments) * PERIOD - elapsed


@functools.lru_cache(maxsize=4096)
def sides(payments: tuple[int, ...], elapsed: int, yield_: int) -> tuple[Enclosed, Enclosed]:
    """What the 180th power of the payments is worth, and by what that of a price is multiplied to compare them."""
    worth = product(power(total(payments, yield_), PERIOD), power(HALVES, PERIOD - elapsed))
    return worth, power(HALVES + yield_, exponent(payments, elapsed))
