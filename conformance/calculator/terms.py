"""The terms of an issue, and the tests that they have to pass."""
from __future__ import annotations

import dataclasses
import enum
from collections.abc import Iterator
from datetime import date
from typing import NamedTuple

from calculator.days import LAST_INTEREST_DAY, DayBasis, days_30_360, days_between, quasi_coupon_dates

DIGITS = "0123456789ABCDEFGHIJKLMNOPQRSTUVWXYZ"
FIRST_DATED = date(1902, 1, 1)
LONGEST_NAME = 60
LONGEST_FIRST = 360
LONGEST_NOTE = 720
MOST_DATES = 100
# The least and the greatest price of a call, in 10^-6 dollars.
CALL_PRICES = (1_000_000, 200_000_000)


class Kind(enum.StrEnum):
    PERIODIC = "periodic"
    ZERO = "zero"
    AT_REDEMPTION = "at-redemption"
    DISCOUNT = "discount"


class Mark(enum.StrEnum):
    """What may stand after the price of a call."""

    NONE = ""
    ON_OR_AFTER = "+"
    CALLED = "!"


class Call(NamedTuple):
    """A day on which the issuer may redeem the whole issue, and its price in 10^-6 dollars.

    With the mark `+` he may on each interest date after it too, up to the next call. With `!` he does: the issue is
    redeemed on this day, and not at maturity.
    """

    day: date
    price: int
    mark: Mark = Mark.NONE


@dataclasses.dataclass(frozen=True)
class Issue:
    """The terms of an issue. The coupon is in 10^-7 dollars per 100 of par and year."""

    cusip: str
    name: str
    kind: Kind
    dated: date
    maturity: date
    coupon: int = 0
    first: date | None = None
    calls: tuple[Call, ...] = ()
    basis: DayBasis = DayBasis.THIRTY_360

    @property
    def is_note(self) -> bool:
        return self.kind in (Kind.AT_REDEMPTION, Kind.DISCOUNT)

    @property
    def pays_interest(self) -> bool:
        return self.kind in (Kind.PERIODIC, Kind.AT_REDEMPTION)

    @property
    def anchor(self) -> date:
        """The day from which the quasi-coupon dates are counted."""
        return self.first if self.kind == Kind.PERIODIC else self.maturity

    @property
    def end(self) -> date:
        """The day on which the issue is redeemed for certain: that of a call with `!`, or maturity."""
        return next((call.day for call in self.calls if call.mark == Mark.CALLED), self.maturity)

    def settles(self, settlement: date) -> bool:
        return self.dated <= settlement < self.end


class Fault(enum.IntEnum):
    """The faults of terms by their numbers, which do not follow the order of the tests."""

    BAD_CUSIP = 1
    BAD_ORDER = 2
    BAD_DAY = 3
    BAD_COUPON = 4
    FIRST_TOO_LONG = 5
    CALL_OFF_CALENDAR = 6
    CALLS_NOT_RISING = 7
    BAD_CALL_PRICE = 8
    TOO_LONG = 9
    BAD_NAME = 10
    BAD_BASIS = 11
    CALLED_NOT_LAST = 12


class BadTerms(NamedTuple):
    """The first test that terms fail. A call that is at fault is named by its day."""

    fault: Fault
    call: date | None = None


def check_digit(eight: str) -> str:
    """The check digit that follows the eight other characters of a CUSIP."""
    values = [DIGITS.index(character) * (1 + place % 2) for place, character in enumerate(eight)]
    return str(-sum(value // 10 + value % 10 for value in values) % 10)


def is_cusip(text: str) -> bool:
    return len(text) == 9 and all(each in DIGITS for each in text) and text[8] == check_digit(text[:8])


def fault_of(issue: Issue) -> BadTerms | None:
    """The first test that the terms fail, or None if they pass all."""
    return next(faults(issue), None)


def faults(issue: Issue) -> Iterator[BadTerms]:
    """The tests that the terms fail, in the order of docs/RULES.md. A test relies on those before it."""
    if not is_cusip(issue.cusip):
        yield BadTerms(Fault.BAD_CUSIP)
    if not 1 <= len(issue.name) <= LONGEST_NAME or not all(" " <= each <= "~" for each in issue.name):
        yield BadTerms(Fault.BAD_NAME)
    if not is_ordered(issue):
        yield BadTerms(Fault.BAD_ORDER)
    if not issue.is_note and not has_interest_days(issue):
        yield BadTerms(Fault.BAD_DAY)
    if (issue.coupon > 0) != issue.pays_interest:
        yield BadTerms(Fault.BAD_COUPON)
    if issue.basis != DayBasis.THIRTY_360 and not issue.is_note:
        yield BadTerms(Fault.BAD_BASIS)
    if issue.kind == Kind.PERIODIC and days_30_360(issue.dated, issue.first) > LONGEST_FIRST:
        yield BadTerms(Fault.FIRST_TOO_LONG)
    if is_too_long(issue):
        yield BadTerms(Fault.TOO_LONG)
    yield from faults_of_calls(issue)


def is_ordered(issue: Issue) -> bool:
    if issue.dated < FIRST_DATED:
        return False
    if issue.kind == Kind.PERIODIC:
        return issue.dated < issue.first <= issue.maturity
    return issue.dated < issue.maturity


def has_interest_days(issue: Issue) -> bool:
    """Whether interest falls on days that each month has, and a periodic issue matures on a quasi-coupon date."""
    return issue.anchor.day <= LAST_INTEREST_DAY and issue.maturity in quasi_coupon_dates(issue.anchor)


def is_too_long(issue: Issue) -> bool:
    if issue.is_note:
        return days_between(issue.basis, issue.dated, issue.maturity) > LONGEST_NOTE
    return sum(issue.dated < day <= issue.maturity for day in quasi_coupon_dates(issue.anchor)) > MOST_DATES


def faults_of_calls(issue: Issue) -> Iterator[BadTerms]:
    before = None
    for call in issue.calls:
        if issue.is_note or not is_on_calendar(issue, call.day):
            yield BadTerms(Fault.CALL_OFF_CALENDAR, call.day)
        if before is not None and call.day <= before:
            yield BadTerms(Fault.CALLS_NOT_RISING, call.day)
        if not CALL_PRICES[0] <= call.price <= CALL_PRICES[1]:
            yield BadTerms(Fault.BAD_CALL_PRICE, call.day)
        before = call.day
    for call in issue.calls[:-1]:
        if call.mark == Mark.CALLED:
            yield BadTerms(Fault.CALLED_NOT_LAST, call.day)


def is_on_calendar(issue: Issue, day: date) -> bool:
    """Whether a call may be on the day."""
    is_after = day >= issue.first if issue.kind == Kind.PERIODIC else day > issue.dated
    return is_after and day < issue.maturity and day in quasi_coupon_dates(issue.anchor)
