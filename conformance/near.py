"""Families of cases whose exact figure is no fraction and lies near a boundary between two printed ones."""
import dataclasses
import datetime
from fractions import Fraction

import exact
from calculator.days import months_later
from calculator.numerals import PRICE_MAX
from calculator.redemptions import Form, redemptions
from drawn import Case
from exact import MICRO, MILL


WINDOWS = [
    (Fraction(11, 10**10), Fraction(3, 10**9)),
    (Fraction(3, 10**9), Fraction(3, 10**8)),
    (Fraction(3, 10**8), Fraction(1, 10**6)),
]
INSIDE = (Fraction(1, 10**14), Fraction(9, 10**10))


def near(draw, unit, low, high, make, tries):
    """Coupons at which a price that is no fraction lies so near a whole multiple of the unit."""
    while True:
        kind = draw.number(1, 10)
        issue = draw.regular(draw.number(2, 60))
        if kind <= 2:
            first = months_later(draw.start(), 6)
            dated = first - datetime.timedelta(draw.number(30, 350))
            issue = draw.issue("periodic", dated, months_later(first, 6 * draw.number(2, 40)), 50_000_000, first)
        settle = draw.day_between(issue.dated, issue.maturity)
        redemption = redemptions(issue, settle)[0]
        if redemption.form is not Form.MANY:
            continue
        y, side = make(), draw.one_of((1, -1))
        line = exact.Line(issue, settle, 0, y)
        ends = sorted((side * low, side * high))
        coupon = line.coupon_near(unit, ends[0], ends[1], draw.number(5_000_000, 80_000_000))
        if coupon is None or coupon > 200_000_000:
            continue
        issue = dataclasses.replace(issue, coupon=coupon)
        distance = Fraction(exact.decimal(redemptions(issue, settle)[0], y)) % unit
        past = distance if distance < unit / 2 else distance - unit
        yield issue, settle, y, "%s: %.2g dollars %s it" % (tries, abs(past), "above" if past > 0 else "below")


def near_prices(draw):
    def given():
        return draw.one_of((draw.number(5_000, 90_000), 10 * draw.number(500, 9_000)))

    each = [near(draw, MILL, low, high, given, "an exact price near a whole thousandth") for low, high in WINDOWS]
    while True:
        for source in each:
            issue, settle, y, tries = next(source)
            yield Case(tries, issue, settle, "yield", y)


def at_boundaries(draw, windows, tries):
    def boundary():
        return 10 * draw.one_of((draw.number(500, 9_000), draw.number(500, 9_000), draw.number(-400, 40))) - 5

    each = [near(draw, MICRO, low, high, boundary, tries) for low, high in windows]
    while True:
        for source in each:
            issue, settle, y, said = next(source)
            price = round(Fraction(exact.decimal(redemptions(issue, settle)[0], y)) / MICRO)
            if 0 < price < PRICE_MAX:
                yield Case(said, issue, settle, "price", price)


def near_yields(draw):
    return at_boundaries(draw, WINDOWS, "a given price near the exact one at half a thousandth of yield")


def within(draw):
    """Nearer than 10^-9 dollars: the exact figure and `Undecided` are both right."""

    def given():
        return draw.number(5_000, 90_000)

    prices = near(draw, MILL, *INSIDE, given, "an exact price nearer than 10^-9 dollars to a whole thousandth")
    yields = at_boundaries(
        draw, [INSIDE], "a given price nearer than 10^-9 dollars to the exact one at half a thousandth"
    )
    while True:
        issue, settle, y, tries = next(prices)
        yield Case(tries, issue, settle, "yield", y)
        yield next(yields)


def usual_terms(draw, unit, first_yield, step, given):
    """Near ties with a coupon of eighths, found among the yields of a printed form."""
    low, high = Fraction(11, 10**10), Fraction(2, 10**8)
    while True:
        issue = draw.regular(draw.number(4, 60), 1_250_000 * draw.number(8, 56))
        settle = draw.day_between(issue.first, issue.maturity)
        redemption = redemptions(issue, settle)[0]
        if redemption.form is not Form.MANY:
            continue
        side = draw.one_of((1, -1))
        ends = sorted((side * low, side * high))
        y = next(
            exact.yields_near(redemption, unit, ends[0], ends[1], first_yield + step * draw.number(0, 500), step), None
        )
        if y is not None and y < 150_000:
            yield issue, settle, y


def usual_prices(draw):
    for issue, settle, y in usual_terms(draw, MILL, 10_000, 1, "yield"):
        yield Case(
            "usual terms, and an exact price within 2e-8 dollars of a whole thousandth", issue, settle, "yield", y
        )


def usual_yields(draw):
    for issue, settle, y in usual_terms(draw, 10 * MICRO, 9_995, 10, "price"):
        price = round(Fraction(exact.decimal(redemptions(issue, settle)[0], y)) / MICRO)
        yield Case("usual terms, and a yield within a hair of half a thousandth", issue, settle, "price", price)
