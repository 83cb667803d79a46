"""Families of cases whose exact figure lies on a boundary between two printed ones, or very near it."""
import dataclasses
import datetime
from fractions import Fraction

import exact
from calculator.days import days_between, months_later, quasi_coupon_dates
from calculator.numerals import PRICE_MAX
from calculator.price import HALVES, ManyPayments
from calculator.redemptions import PAR, Form, redemptions
from calculator.terms import Call, fault_of
from drawn import Case, decimal_text
from exact import MICRO, MILL

# Yields whose half-year divides by a short decimal, so that many prices are whole thousandths.
SHORT = (-46_875, 40_000, 48_000, 50_000, 80_000, 97_152, 100_000, 200_000, 500_000, 560_000, 1_000_000)


def on_interest_date(draw, halves, coupon):
    """An issue, and a settlement of A 0 or, on a 31st before interest on a 1st, 180."""
    issue = draw.regular(halves + draw.number(1, 12), coupon)
    settle = months_later(issue.maturity, -6 * halves)
    if draw.chance(30):
        issue = draw.issue(
            "periodic",
            datetime.date(2001, 1, 1),
            datetime.date(draw.number(2010, 2030), 1, 1),
            coupon,
            datetime.date(2001, 7, 1),
        )
        settle = months_later(issue.maturity, -12 * (halves // 2 + 1)) - datetime.timedelta(1)
    return issue, settle


def par_bonds(draw):
    """The coupon is the yield on the redemption price: the price is that price."""
    while True:
        y = draw.one_of((10, 10, 1)) * draw.number(500, 9_000)
        price = draw.one_of((PAR, PAR, 50_000_000, 62_500_000, 80_000_000, 96_000_000, 99_500_000, 125_000_000))
        issue, settle = on_interest_date(draw, draw.number(2, 60), y * price // 100_000)
        if not issue.dated <= settle:
            continue
        tries = "a par bond at its coupon: the price is exactly 100.000"
        if price != PAR:
            call = months_later(issue.maturity, -6 * draw.number(1, 8))
            if not max(settle, issue.first) < call:
                continue
            issue = dataclasses.replace(issue, calls=(Call(call, price),))
            tries = "the coupon is the yield on the call's price, so the price up to the call is exactly that price"
        yield Case(tries, issue, settle, "yield", y)


def yield_ties(draw):
    """A coupon of half a thousandth at 100: the exact yield is that half, and goes up."""
    while True:
        coupon = 10_000 * draw.number(500, 9_000) + 5_000
        issue, settle = on_interest_date(draw, draw.number(2, 60), coupon)
        if issue.dated <= settle:
            off = draw.one_of((0, 0, 0, 1, -1))
            tries = (
                "an exact yield of just half a thousandth at 100, which goes up"
                if off == 0
                else "a millionth of a dollar beside the price at which the yield is just half a thousandth"
            )
            yield Case(tries, issue, settle, "price", PAR + off)


def zero_yields(draw):
    """At a yield of zero the price is a plain sum, which is often a whole thousandth."""
    while True:
        issue = draw.regular(draw.number(2, 60), 1_250_000 * draw.number(4, 64))
        settle = draw.settlement(issue)
        if draw.chance(40):
            settle = months_later(issue.maturity, -6 * draw.number(1, 2))
        yield Case("a yield of zero: the plain sum of the payments", issue, settle, "yield", 0)


def rational(draw, shapes):
    """An issue and a settlement at which the price is a fraction."""
    while True:
        shape = draw.one_of(shapes)
        if shape == "few":
            issue, settle = on_interest_date(draw, draw.number(2, 3), 50_000_000)
        elif shape == "one":
            issue = draw.regular(draw.number(1, 20))
            settle = draw.day_between(months_later(issue.maturity, -6), issue.maturity)
        else:
            issue = draw.note("at-redemption", draw.number(0, 1))
            settle = draw.day_between(issue.dated, issue.maturity)
        if issue.dated <= settle and not fault_of(issue):
            paid = redemptions(issue, settle)[0].paid
            if len(paid.payments) <= 3 if isinstance(paid, ManyPayments) else paid.left > 0:
                return issue, settle


def aside(parts, tie):
    """A tie, or that the price is as little above or below one as a fraction can be."""
    return (
        tie if parts == 0 else "%s, but for a few parts of its fraction %s" % (tie, "more" if parts > 0 else "less")
    )


def rational_ties(draw, unit, make):
    """Coupons at which the price is a whole multiple of the unit, or as near it as it can be."""
    while True:
        issue, settle = rational(draw, ("few", "one", "one", "note"))
        y = make()
        line = exact.Line(issue, settle, 0, y)
        least = draw.number(1_000_000, 80_000_000)
        for parts in (0, draw.one_of((1, -1))):
            coupon = next(
                (
                    found
                    for more in range(0, 60)
                    for found in [line.coupon_at(unit, parts * (more + 1), least)]
                    if found
                ),
                None,
            )
            if coupon and coupon < 150_000_000:
                yield dataclasses.replace(issue, coupon=coupon), settle, y, parts


def price_ties(draw):
    def given():
        return draw.one_of(
            (draw.one_of(SHORT), 2_500 * draw.number(1, 40), 10 * draw.number(100, 9_000), draw.number(100, 90_000))
        )

    for issue, settle, y, parts in rational_ties(draw, MILL, given):
        yield Case(aside(parts, "an exact price of a whole thousandth"), issue, settle, "yield", y)


def boundary_ties(draw):
    def boundary():
        return (
            10 * draw.one_of((draw.number(100, 9_000), draw.number(-4_000, 100), 250 * draw.number(1, 400) + 1)) - 5
        )

    for issue, settle, y, parts in rational_ties(draw, MICRO, boundary):
        price = redemptions(issue, settle)[0].paid.price(y) / MICRO
        if 1_000 < price < PRICE_MAX:
            tries = aside(-parts, "a given price at which the yield is just half a thousandth")
            yield Case(tries, issue, settle, "price", round(price))


def tied_calls(draw):
    """Zeros with a call up to which the exact price is a whole thousandth."""
    while True:
        n = draw.number(4, 9)
        y = draw.one_of((500_000, 560_000, 97_152))
        growth = Fraction(HALVES + y, HALVES)
        dated = datetime.date(draw.number(1990, 2020), draw.number(1, 12), 15)
        settle = months_later(dated, 6 * draw.number(1, 9))
        maturity, call = months_later(settle, 6 * (n + 1)), months_later(settle, 6 * n)
        greatest = 90_000_000 / growth
        if y == 97_152:
            # A quarter on, what is left of the first half-year has a discount of 1.024.
            n, growth = 2 * 2 - 1, Fraction(1024, 1000)
            maturity, call = months_later(settle, 18), months_later(settle, 12)
            settle = months_later(settle, 3)
        unit = (1000 * growth**n).numerator
        prices = [price for price in range(unit, int(greatest), unit) if price >= 1_000_000]
        if prices:
            issue = draw.issue("zero", dated, maturity, calls=(Call(call, draw.one_of(prices)),))
            yield Case(
                "an exact price of a whole thousandth up to the call, in no exact case", issue, settle, "yield", y
            )


def tied_schedules(draw, yields, unit):
    """Prices of a call, four or five payments on, at which the exact price up to it is a multiple of the unit."""
    while True:
        y, n = draw.one_of(yields), draw.number(4, 5)
        issue, settle = on_interest_date(draw, draw.number(8, 30), 1000 * y + 10_000 * draw.number(100, 1_500))
        begin = settle if settle.day <= 28 else months_later(settle + datetime.timedelta(1), -6)
        call = months_later(begin, 6 * n + (6 if settle.day > 28 else 0))
        if not issue.dated <= settle or not issue.first <= call < issue.maturity:
            continue
        to_call = redemptions(dataclasses.replace(issue, calls=(Call(call, PAR),)), settle)[0]
        with_par = to_call.paid.price(y)
        worth = dearer(to_call).paid.price(y) - with_par
        price = exact.whole_at(
            worth / unit, (with_par - PAR * worth) / unit, 0, draw.number(80_000_000, 100_000_000), 104_000_000
        )
        if price:
            issue = dataclasses.replace(issue, calls=(Call(call, price),))
            yield issue, settle, y, (with_par + (price - PAR) * worth) / MICRO


def undecided(draw):
    """Exact ties that are no listed exact case: a refusal by name."""
    calls = tied_calls(draw)
    prices = tied_schedules(draw, (25_000, 40_000, 50_000, 60_000, 80_000, 100_000), MILL)
    yields = tied_schedules(draw, (15_625, 46_875, 109_375), MICRO)
    while True:
        yield next(calls)
        issue, settle, y, _ = next(prices)
        yield Case("an exact price of a whole thousandth up to the call, in no exact case", issue, settle, "yield", y)
        issue, settle, _, price = next(yields)
        yield Case(
            "a given price at which the yield up to the call is just half a thousandth, in no exact case",
            issue,
            settle,
            "price",
            int(price),
        )


def passed_over(draw):
    """A call that is a tie, or within 10^-9 dollars of one, beside a lower figure."""
    while True:
        issue = draw.regular(draw.number(12, 60))
        settle = draw.day_between(issue.first, months_later(issue.first, 12))
        call = months_later(issue.first, 6 * draw.number(5, 11))
        y = draw.number(20_000, 80_000)
        plain = redemptions(issue, settle)[-1]
        to_call = redemptions(dataclasses.replace(issue, calls=(Call(call, PAR),)), settle)[0]
        if to_call.form is not Form.MANY:
            continue
        last, with_par = Fraction(exact.decimal(plain, y)), Fraction(exact.decimal(to_call, y))
        worth = Fraction(exact.decimal(dearer(to_call), y)) - with_par
        # The call's price at which the exact price up to it is some whole thousandths over that of maturity.
        target = (int(last / MILL) + draw.number(1, 300)) * MILL
        price = PAR + round((target - with_par) / worth)
        off = abs(with_par + (price - PAR) * worth - target)
        if off < Fraction(1, 10**9) and 1_000_000 <= price <= 200_000_000:
            yield Case(
                "a call within 10^-9 dollars of a boundary, which a lower price at maturity makes immaterial",
                dataclasses.replace(issue, calls=(Call(call, price),)),
                settle,
                "yield",
                y,
            )


def dearer(redemption):
    """The redemption at a price that is one unit higher."""
    paid, price = redemption.paid, redemption.price + 1
    payments = (*paid.payments[:-1], paid.payments[-1] + 360_000)
    return redemption._replace(price=price, paid=dataclasses.replace(paid, payments=payments, redemption=price))


def equal_figures(draw):
    """A call and a maturity whose exact prices differ by less than a thousandth, or by little more."""
    while True:
        issue = draw.regular(draw.number(12, 60))
        settle = draw.day_between(issue.first, months_later(issue.first, 12))
        call = months_later(issue.first, 6 * draw.number(4, 11))
        y = draw.number(10_000, 90_000)
        to_call = redemptions(dataclasses.replace(issue, calls=(Call(call, PAR),)), settle)[0]
        last = Fraction(exact.decimal(redemptions(issue, settle)[-1], y))
        with_par = Fraction(exact.decimal(to_call, y))
        worth = Fraction(exact.decimal(dearer(to_call), y)) - with_par
        off = draw.one_of(
            (
                Fraction(3, 10_000),
                Fraction(-3, 10_000),
                Fraction(1, 1_000_000),
                Fraction(-1, 1_000_000),
                Fraction(9, 10_000),
                Fraction(12, 10_000),
            )
        )
        price = PAR + round((last + off - with_par) / worth)
        if not 1_000_000 <= price <= 200_000_000:
            continue
        issue = dataclasses.replace(issue, calls=(Call(call, price),))
        same = int(last / MILL) == int((with_par + (price - PAR) * worth) / MILL)
        lower = "the call" if off < 0 else "maturity"
        tries = "exact prices up to the call and maturity %s dollars apart, %s the lower: %s" % (
            decimal_text(abs(int(off * 10**6)), 6),
            lower,
            "both print the same, so the call is disclosed" if same else "they print differently",
        )
        yield Case(tries, issue, settle, "yield", y)


def equal_yields(draw):
    """A call and a maturity whose exact yields differ by less than a thousandth, or by little more."""
    while True:
        issue = draw.regular(draw.number(12, 60))
        settle = draw.day_between(issue.first, months_later(issue.first, 12))
        call = months_later(issue.first, 6 * draw.number(4, 11))
        value = draw.price_of(issue, settle, draw.number(10_000, 90_000))
        y = exact.exact_yield(redemptions(issue, settle)[-1], MICRO * value)
        off = draw.one_of((3, -3, 1, -1, 8, -8, 12))
        to_call = redemptions(dataclasses.replace(issue, calls=(Call(call, PAR),)), settle)[0]
        with_par = Fraction(exact.decimal(to_call, y + off))
        worth = Fraction(exact.decimal(dearer(to_call), y + off)) - with_par
        price = PAR + round((MICRO * value - with_par) / worth)
        if 1_000_000 <= price <= 200_000_000:
            tries = "exact yields up to the call and maturity about %s percent apart, %s the lower" % (
                decimal_text(abs(off), 4),
                "the call" if off < 0 else "maturity",
            )
            yield Case(tries, dataclasses.replace(issue, calls=(Call(call, price),)), settle, "price", value)


def par_calls(draw):
    """Par calls of a bond at 100 or beside it: the printed yields are equal, or all but."""
    while True:
        issue, settle = on_interest_date(draw, draw.number(12, 40), draw.coupon())
        dates = [
            day for day in quasi_coupon_dates(issue.first) if max(settle, issue.first) <= day < issue.maturity
        ]
        calls = tuple(Call(day, PAR) for day in dates[draw.number(0, 3) :][: draw.one_of((1, 3, 10, 40))])
        if not calls or not issue.dated <= settle:
            continue
        issue = dataclasses.replace(issue, calls=calls)
        off = draw.one_of((0, 0, 1, -1, 1000, -1000, 5000, -5000))
        tries = (
            "par calls at 100: every yield is the coupon, so the earliest is disclosed"
            if off == 0
            else "par calls at %s: the yields differ by little, or print the same" % decimal_text(PAR + off, 6)
        )
        yield Case(tries, issue, settle, "price", PAR + off)


def discount_ties(draw):
    """Rates whose price is a whole thousandth, and prices whose return is near half a thousandth."""
    while True:
        basis = draw.number(0, 1)
        issue = draw.note("discount", basis, 360)
        settle = draw.day_between(issue.dated, issue.maturity)
        left = days_between(basis, settle, issue.maturity)
        if left == 0:
            continue
        year = issue.basis.year
        if draw.chance(50):
            rate = draw.number(100, 80_000)
            rest = rate * left * 100 % (year * 1_000)
            if rest in (0, 100, year * 1_000 - 100) or rest * 50 < year:
                yield Case("the price at a rate is a whole thousandth, or next to one", issue, settle, "rate", rate)
            continue
        t = draw.number(500, 8_000)
        price = Fraction(100) / (1 + Fraction(10 * t - 5, 1_000_000) * left / year) / MICRO
        near_price = round(price)
        yield Case("a return near half a thousandth", issue, settle, "price", near_price + draw.number(-1, 1))
