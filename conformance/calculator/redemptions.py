"""The redemptions that an issue may have, what is paid up to each, and which of them is disclosed.

MSRB Rule G-33(b)(i) has the payments, the Standard Securities Calculation Methods the odd first coupons, and Rule
G-15(a) the redemption at which a customer does worst.
"""
from __future__ import annotations

import enum
import functools
from collections.abc import Iterable, Iterator
from datetime import date
from typing import NamedTuple

from calculator.days import days_30_360, days_between, days_of_period, quasi_coupon_dates
from calculator.price import PERIOD, ManyPayments, OnePayment
from calculator.printed import Ending, Outcome
from calculator.terms import Call, Issue, Kind, Mark

# 100 dollars, in 10^-6 dollars.
PAR = 100_000_000
# A coupon of 10^-7 dollars earns so many units a day, and a price of 10^-6 dollars is 1,000 for each day of a year.
DAILY = 100
MICROS = 1_000


class Form(enum.Enum):
    """How a redemption is priced, on which hang the ranges of yields."""

    MANY = "more than six months to redemption"
    ONE = "six months or less to redemption"
    AT_REDEMPTION = "interest at redemption"
    DISCOUNT = "a discount"


# The yields that may be given, in millionths, and those that may be printed, in thousandths of a percent.
GIVEN = {Form.MANY: (-50_000, 1_000_000), Form.ONE: (-900_000, 9_999_990), Form.AT_REDEMPTION: (-450_000, 9_999_990)}
PRINTED = {Form.MANY: (-5_000, 100_000), Form.ONE: (-90_000, 999_999), Form.AT_REDEMPTION: (-45_000, 999_999),
           Form.DISCOUNT: (-45_000, 999_999)}


class Label(enum.StrEnum):
    MATURITY = "MATURITY"
    PAR_OPTION = "PAR OPTION"
    CALL = "CALL"
    CALLED = "CALLED"


class Redemption(NamedTuple):
    """A day on which an issue may be redeemed, its price in 10^-6 dollars, and what is paid up to it."""

    day: date
    price: int
    label: Label
    form: Form
    paid: OnePayment | ManyPayments


def accrued_days(issue: Issue, settlement: date) -> int:
    """The days of accrued interest (MSRB Rule G-33, section (a))."""
    if issue.kind == Kind.AT_REDEMPTION:
        return days_between(issue.basis, issue.dated, settlement)
    if issue.kind == Kind.PERIODIC:
        return (days_30_360(issue.dated, settlement) if settlement < issue.first
                else days_of_period(issue.first, settlement))
    return 0


def redemptions(issue: Issue, settlement: date) -> list[Redemption]:
    """The calls after the settlement and the maturity, or the call that stands in its place, in order of date."""
    if issue.is_note:
        return [maturity_of_note(issue, settlement)]
    return [redemption_of(issue, settlement, day) for day in days_of_redemption(issue) if day.day > settlement]


def days_of_redemption(issue: Issue) -> Iterator[Call]:
    """The days that the calls stand for, each at its price, and the maturity at 100 if no call has `!`."""
    ends = [call.day for call in issue.calls[1:]] + [issue.maturity]
    for call, end in zip(issue.calls, ends):
        yield call
        if call.mark == Mark.ON_OR_AFTER:
            for day in quasi_coupon_dates(issue.anchor):
                if call.day < day < end:
                    yield call._replace(day=day)
    if issue.end == issue.maturity:
        yield Call(issue.maturity, PAR)


def label_of(issue: Issue, call: Call) -> Label:
    if call.day == issue.maturity:
        return Label.MATURITY
    if call.mark == Mark.CALLED:
        return Label.CALLED
    return Label.PAR_OPTION if call.price == PAR else Label.CALL


def maturity_of_note(issue: Issue, settlement: date) -> Redemption:
    year = issue.basis.year
    due = MICROS * year * PAR
    if issue.kind == Kind.DISCOUNT:
        paid = OnePayment(due, 0, days_between(issue.basis, settlement, issue.maturity), year)
        return Redemption(issue.maturity, PAR, Label.MATURITY, Form.DISCOUNT, paid)
    term = days_between(issue.basis, issue.dated, issue.maturity)
    elapsed = accrued_days(issue, settlement)
    paid = OnePayment(due + DAILY * issue.coupon * term, DAILY * issue.coupon * elapsed, term - elapsed, year)
    return Redemption(issue.maturity, PAR, Label.MATURITY, Form.AT_REDEMPTION, paid)


def redemption_of(issue: Issue, settlement: date, call: Call) -> Redemption:
    label = label_of(issue, call)
    interest = [interest_on(issue, day) for day in quasi_coupon_dates(issue.anchor) if settlement < day <= call.day]
    payments = (*interest[:-1], interest[-1] + 360 * MICROS * call.price)
    accrued = DAILY * issue.coupon * accrued_days(issue, settlement)
    elapsed = days_of_period(issue.anchor, settlement)
    if len(payments) == 1:
        paid = OnePayment(payments[0], accrued, PERIOD - elapsed)
        return Redemption(call.day, call.price, label, Form.ONE, paid)
    paid = ManyPayments(payments, accrued, elapsed, issue.coupon, call.price)
    return Redemption(call.day, call.price, label, Form.MANY, paid)


def interest_on(issue: Issue, day: date) -> int:
    """What a periodic or a zero issue pays on a quasi-coupon date."""
    if issue.kind == Kind.ZERO or day < issue.first:
        return 0
    days = days_30_360(issue.dated, day) if day == issue.first else PERIOD
    return DAILY * issue.coupon * days


def side_of_range(found: Iterable[Redemption], yield_: int) -> str | None:
    """`below` or `above`, by the first redemption for which a yield may not be given, or None if it may for all."""
    for redemption in found:
        least, greatest = GIVEN[redemption.form]
        if not least <= yield_ <= greatest:
            return "below" if yield_ < least else "above"
    return None


class Decided(NamedTuple):
    """What decides, the place of its redemption, and its figure. If all yields are above there is no place."""

    ending: Ending
    place: int = -1
    figure: int = 0


class Standing(NamedTuple):
    """What the redemptions so far come to: of each ending the one that would decide, as its figure and its place."""

    no_time: int | None = None
    below: tuple[int, Outcome] | None = None
    printed: tuple[int, int] | None = None
    undecided: tuple[int, int] | None = None

    def and_then(self, place: int, outcome: Outcome, lowest: Outcome) -> Standing:
        """With one redemption more. `lowest` is undecided at the least figure, which counts as below."""
        at = (outcome.figure, place)
        if outcome.ending is Ending.NO_TIME:
            return self if self.no_time is not None else self._replace(no_time=place)
        if outcome.ending is Ending.BELOW or outcome == lowest:
            return self if self.below is not None else self._replace(below=(place, outcome))
        if outcome.ending is Ending.PRINTED:
            return self._replace(printed=min(self.printed or at, at))
        if outcome.ending is Ending.UNDECIDED:
            return self._replace(undecided=min(self.undecided or at, at))
        return self

    def decided(self) -> Decided:
        if self.no_time is not None:
            return Decided(Ending.NO_TIME, self.no_time)
        if self.below is not None:
            place, outcome = self.below
            return Decided(outcome.ending, place, outcome.figure)
        # An undecided figure is material if it may be the lowest, or as low as the lowest and of an earlier date.
        if self.undecided is not None and (self.printed is None or self.undecided < self.printed):
            return Decided(Ending.UNDECIDED, self.undecided[1], self.undecided[0])
        if self.printed is not None:
            return Decided(Ending.PRINTED, self.printed[1], self.printed[0])
        return Decided(Ending.ABOVE)


def deciding(outcomes: Iterable[Outcome], lowest: Outcome) -> Decided:
    """What decides among the outcomes of the redemptions, which are in order of date."""
    standing = Standing()
    for place, outcome in enumerate(outcomes):
        standing = standing.and_then(place, outcome, lowest)
    return standing.decided()


def all_deciding(allowed: Iterable[Iterable[Outcome]], lowest: Outcome) -> set[Decided]:
    """What may decide if each redemption may come to several outcomes."""
    def with_one(standings: set[Standing], each: tuple[int, Iterable[Outcome]]) -> set[Standing]:
        place, outcomes = each
        return {standing.and_then(place, outcome, lowest) for standing in standings for outcome in outcomes}

    return {standing.decided() for standing in functools.reduce(with_one, enumerate(allowed), {Standing()})}
