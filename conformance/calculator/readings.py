"""Figures by other formulas than the rule's, which tell why another firm printed another figure."""
from __future__ import annotations

import calendar
import dataclasses
import enum
from datetime import date
from fractions import Fraction

from calculator.days import DayBasis, months_later, quasi_coupon_dates
from calculator.figures import Asked, Figures, Given, Side, answers, cents, price_at_a_rate
from calculator.price import PERIOD, ManyPayments
from calculator.printed import MILLS, Ending, Outcome, price_of, yield_of
from calculator.redemptions import GIVEN, MICROS, PRINTED, Form, Label, Redemption, redemptions
from calculator.terms import Call, Issue, Kind, Mark, fault_of

# The most accrued days of an issue.
MOST_DAYS = 720


class Reading(enum.StrEnum):
    """Another formula than the rule's, in the order in which they are tried."""

    MATURITY = "MATURITY"
    FIRST_CALL = "FIRST CALL"
    ROUNDED = "ROUNDED"
    COMPOUNDED = "COMPOUNDED"
    FEBRUARY = "FEBRUARY"
    GROSS = "GROSS"
    REGULAR = "REGULAR"


def figures_by(reading: Reading, issue: Issue, asked: Asked, ours: Figures) -> Figures | None:
    """The figures of a trade by another formula, or None if it gives none. `ours` are those of the rule."""
    match reading:
        case Reading.MATURITY:
            return over_terms(dataclasses.replace(issue, calls=()), asked)
        case Reading.FIRST_CALL:
            return to_first_call(issue, asked)
        case Reading.ROUNDED:
            return rounded_price(issue, asked, ours)
        case Reading.COMPOUNDED:
            return compounded(issue, asked, ours)
        case Reading.FEBRUARY:
            return by_february(issue, asked, ours)
        case Reading.GROSS:
            return without_commission(issue, asked, ours)
        case Reading.REGULAR:
            return with_regular_coupons(issue, asked)


def over_terms(issue: Issue, asked: Asked) -> Figures | None:
    """The rule's figures over other terms."""
    if fault_of(issue):
        return None
    found = answers(issue, asked).exact
    return found if isinstance(found, Figures) else None


def to_first_call(issue: Issue, asked: Asked) -> Figures | None:
    """As if the issue were redeemed for certain on the first day to come on which it may be called."""
    first = redemptions(issue, asked.settlement)[0]
    if first.label is Label.MATURITY:
        return None
    return over_terms(dataclasses.replace(issue, calls=(Call(first.day, first.price, Mark.CALLED),)), asked)


def disclosed(issue: Issue, asked: Asked, ours: Figures) -> Redemption:
    return next(each for each in redemptions(issue, asked.settlement) if each.day == ours.redemption)


def with_money(asked: Asked, figures: Figures) -> Figures:
    """Figures whose total is that of their principal and their accrued interest."""
    commission = figures.commission if asked.side == Side.BUY else -figures.commission
    return dataclasses.replace(figures, total=figures.principal + figures.accrued + commission)


def with_price(asked: Asked, ours: Figures, price: int) -> Figures:
    return with_money(asked, dataclasses.replace(ours, price=price, principal=(asked.par * price + 500) // 1000))


def rounded_price(issue: Issue, asked: Asked, ours: Figures) -> Figures:
    """A computed price is rounded to thousandths, half of one upward, and not cut off. A given one stays."""
    redemption = disclosed(issue, asked, ours)
    paid = redemption.paid
    if asked.given is Given.PRICE:
        return ours
    if asked.given is Given.RATE:
        exact = Fraction(price_at_a_rate(asked, redemption), paid.unit)
        is_up = exact * MILLS - ours.price >= Fraction(1, 2)
    elif isinstance(paid, ManyPayments):
        is_up = paid.is_at_least(asked.value, paid.unit // MILLS * ours.price + paid.unit // MILLS // 2)
    else:
        is_up = paid.price(asked.value) * MILLS - ours.price >= Fraction(1, 2)
    return with_price(asked, ours, ours.price + is_up)


def compounded(issue: Issue, asked: Asked, ours: Figures) -> Figures | None:
    """One payment is left, and it is discounted by the formula for several."""
    redemption = disclosed(issue, asked, ours)
    if redemption.form is not Form.ONE:
        return ours
    paid = redemption.paid
    several = ManyPayments((paid.due,), paid.accrued, PERIOD - paid.left, issue.coupon, redemption.price)
    if asked.given is Given.PRICE:
        found = printed(yield_of(several, issue.basis.year * MICROS * asked.net_price, PRINTED[Form.MANY]).exact)
        return None if found is None else dataclasses.replace(ours, yield_=found)
    least, greatest = GIVEN[Form.MANY]
    found = printed(price_of(several, asked.value).exact) if least <= asked.value <= greatest else None
    return None if found is None else with_price(asked, ours, found)


def printed(outcome: Outcome) -> int | None:
    return outcome.figure if outcome.ending is Ending.PRINTED else None


def days_by_february(start: date, end: date) -> int:
    """Days of 30/360 by a rule for the end of February. A second day on a 31st counts as the 30th if the first day, as
    it is written, is a 30th or a 31st. Then a first day that ends February, or is a 31st, counts as the 30th."""
    last = 30 if end.day == 31 and start.day >= 30 else end.day
    ends_february = start.month == 2 and start.day == calendar.monthrange(start.year, 2)[1]
    first = 30 if ends_february or start.day == 31 else start.day
    return (end.year - start.year) * 360 + (end.month - start.month) * 30 + last - first


def accrual_start(issue: Issue, settlement: date) -> date | None:
    """The day from which interest has accrued by 30/360."""
    if not issue.pays_interest or issue.basis is not DayBasis.THIRTY_360:
        return None
    if issue.kind is Kind.AT_REDEMPTION or settlement < issue.first:
        return issue.dated
    return quasi_coupon_date_before(issue, settlement)


def quasi_coupon_date_before(issue: Issue, day: date) -> date | None:
    """The last quasi-coupon date that is not after a day."""
    return max((each for each in quasi_coupon_dates(issue.anchor) if each <= day), default=None)


def by_february(issue: Issue, asked: Asked, ours: Figures) -> Figures | None:
    """Price and yield stay the rule's, and so does the principal."""
    start = accrual_start(issue, asked.settlement)
    days = -1 if start is None else days_by_february(start, asked.settlement)
    if not 0 <= days <= MOST_DAYS:
        return None
    accrued = cents(issue.coupon * asked.par * days // (issue.basis.year * 1_000_000))
    return with_money(asked, dataclasses.replace(ours, accrued_days=days, accrued=accrued))


def without_commission(issue: Issue, asked: Asked, ours: Figures) -> Figures | None:
    """The yield, and the redemption that has it, are those at the price without the commission."""
    gross = over_terms(issue, dataclasses.replace(asked, fee=0))
    if gross is None:
        return None
    return dataclasses.replace(ours, yield_=gross.yield_, redemption=gross.redemption,
                               redemption_price=gross.redemption_price, label=gross.label)


def with_regular_coupons(issue: Issue, asked: Asked) -> Figures | None:
    """As if the coupons were regular from the beginning: the dated date is the quasi-coupon date before it, and the
    first interest date half a year later."""
    if issue.kind is not Kind.PERIODIC:
        return over_terms(issue, asked)
    dated = quasi_coupon_date_before(issue, issue.dated)
    first = None if dated is None else months_later(dated, 6)
    return None if first is None else over_terms(dataclasses.replace(issue, dated=dated, first=first), asked)


FIELDS = ("price", "yield_", "redemption", "accrued_days", "principal", "accrued", "total")


def reading_of(issue: Issue, asked: Asked, ours: Figures, field: str, theirs: object) -> Reading | None:
    """The first reading by which a field of the figures has what another firm printed."""
    for reading in Reading:
        found = figures_by(reading, issue, asked, ours)
        if found is not None and getattr(found, field) == theirs:
            return reading
    return None
