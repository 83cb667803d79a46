"""Families of cases over the kinds of issues, days, calls, money and printed digits."""
import dataclasses
import datetime

import exact
from calculator.days import days_30_360, days_between, months_later, quasi_coupon_dates
from calculator.redemptions import Form, accrued_days, redemptions, side_of_range
from calculator.terms import Call, fault_of
from drawn import Case, call_days, said_of

ONE_DAY = datetime.timedelta(1)
BASES = {0: "30/360", 1: "actual/365"}


def quote_one(draw):
    while True:
        next_ = datetime.date(
            draw.number(1902, 2199), draw.number(1, 12), draw.one_of((1, 1, 15, 28, draw.number(1, 28)))
        )
        begin = months_later(next_, -6)
        settle = draw.day_between(begin, next_)
        redeemed = draw.one_of(
            (100_000_000, 100_000_000, 100_000 * draw.number(10, 2_000), draw.number(0, 999_999_999))
        )
        given = draw.one_of((draw.yield_(), draw.yield_(), draw.number(-900_000, 9_999_990)))
        tries = "one payment, a price at a yield%s"
        if draw.chance(6):
            settle, tries = (
                begin + draw.one_of((-ONE_DAY, next_ - begin)),
                "one payment, settled outside its six months%s",
            )
        elif draw.chance(12):
            given = draw.one_of((-900_001, -900_000, 9_999_990, 9_999_991))
            tries = "one payment, a yield at or past an end of the range%s"
        issue = draw.issue("periodic", begin, next_, draw.coupon(), next_)
        yield Case(tries % said_of(settle, issue), issue, settle, "yield", given, redeemed=redeemed)


def many(draw, given):
    while True:
        issue = draw.regular(draw.number(1, 79))
        settle = draw.settlement(issue)
        y = draw.yield_()
        if len([day for day in quasi_coupon_dates(issue.first) if settle < day <= issue.maturity]) < 2:
            continue
        value = y if given == "yield" else draw.price_of(issue, settle, y)
        if value is not None:
            yield Case(
                "two payments or more, a %s given%s" % (given, said_of(settle, issue)), issue, settle, given, value
            )


def many_at_a_yield(draw):
    return many(draw, "yield")


def many_at_a_price(draw):
    return many(draw, "price")


def one_left(draw):
    while True:
        issue = draw.regular(draw.number(1, 40))
        settle = draw.day_between(months_later(issue.maturity, -6), issue.maturity)
        y = draw.one_of((draw.yield_(), draw.number(-300_000, 3_000_000)))
        given = draw.one_of(("yield", "price"))
        value = y if given == "yield" else draw.price_of(issue, settle, y)
        if value is not None:
            yield Case(
                "one payment left, simple interest, a %s given%s" % (given, said_of(settle, issue)),
                issue,
                settle,
                given,
                value,
            )


def odd_first(draw):
    """First coupons that are shorter or longer than half a year."""
    while True:
        first = months_later(draw.start(), 6)
        days = draw.one_of((draw.number(5, 178), draw.number(183, 355)))
        dated = first - datetime.timedelta(days)
        issue = draw.issue(
            "periodic",
            dated,
            months_later(first, 6 * draw.one_of((0, 1, 2, draw.number(3, 60)))),
            draw.coupon(),
            first,
        )
        long = days_30_360(dated, first) > 180
        skipped = months_later(first, -6)
        stage = draw.number(1, 4)
        if stage == 1 and long:
            settle, when = draw.day_between(dated, skipped), "before the date that pays nothing"
        elif stage == 2 and long:
            settle, when = skipped, "on the date that pays nothing"
        elif stage == 3 and first < issue.maturity:
            settle, when = draw.day_between(first, issue.maturity), "after the first interest date"
        else:
            settle, when = (
                draw.day_between(max(dated, skipped), first),
                "in the half-year before the first interest date",
            )
        given = draw.one_of(("yield", "yield", "price"))
        value = draw.yield_() if given == "yield" else draw.price_of(issue, settle, draw.yield_())
        if value is not None:
            yield Case(
                "a %s first coupon, a %s given, settled %s%s"
                % ("long" if long else "short", given, when, said_of(settle, issue).replace("settled ", "")),
                issue,
                settle,
                given,
                value,
            )


def zeros(draw):
    while True:
        issue = draw.zero(draw.number(1, 80))
        settle = draw.day_between(issue.dated, issue.maturity)
        given = draw.one_of(("yield", "price"))
        value = draw.yield_() if given == "yield" else draw.price_of(issue, settle, draw.yield_())
        if value is not None:
            yield Case("no coupon, a %s given%s" % (given, said_of(settle, issue)), issue, settle, given, value)


def notes(draw):
    """Interest at redemption, by both bases."""
    while True:
        basis = draw.number(0, 1)
        issue = draw.note("at-redemption", basis)
        settle = draw.day_between(issue.dated, issue.maturity)
        if fault_of(issue) or days_between(basis, settle, issue.maturity) < 2:
            continue
        given = draw.one_of(("yield", "price"))
        value = draw.yield_() if given == "yield" else draw.price_of(issue, settle, draw.yield_())
        if value is not None:
            yield Case(
                "interest at redemption, %s, a %s given%s" % (BASES[basis], given, said_of(settle, issue)),
                issue,
                settle,
                given,
                value,
                draw.one_of((100, 5_000, 1_000_000)),
            )


def discounts(draw):
    while True:
        basis = draw.number(0, 1)
        issue = draw.note("discount", basis, 400)
        settle = draw.day_between(issue.dated, issue.maturity)
        given = draw.one_of(("rate", "rate", "price"))
        value = draw.number(0, 80_000) if given == "rate" else draw.one_of((1000, 1)) * draw.number(90_000, 100_100)
        if given == "price" and value < 1_000_000:
            value *= 1000
        tries = "a discounted note, %s, a %s given%s" % (BASES[basis], given, said_of(settle, issue))
        yield Case(tries, issue, settle, given, value, draw.one_of((100, 5_000, 1_000_000)))


def called(draw):
    """Schedules of calls: the lowest figure decides, and the redemption is labelled."""
    while True:
        issue = draw.regular(draw.number(6, 60)) if draw.chance(75) else draw.zero(draw.number(6, 60))
        dates = call_days(issue)
        begin = draw.number(0, len(dates) - 1)
        dates = dates[begin : begin + draw.one_of((1, 2, 3, 8, 40))]
        price, calls = 1_000_000 * draw.number(98, 104), []
        for day in dates:
            calls.append(Call(day, price))
            price = draw.one_of((price, max(100_000_000, price - 250_000), 100_000_000, price + 125_000))
        issue = dataclasses.replace(issue, calls=tuple(calls))
        settle = draw.settlement(issue)
        when = said_of(settle, issue)
        if draw.chance(15):
            settle, when = calls[0].day, ", settled on the first call, which is no candidate then"
        given = draw.one_of(("yield", "price"))
        value = draw.yield_() if given == "yield" else draw.price_of(issue, settle, draw.yield_())
        if value is not None:
            yield Case(
                "%d call%s, the lowest %s%s"
                % (len(calls), "s" if len(calls) > 1 else "", "price" if given == "yield" else "yield", when),
                issue,
                settle,
                given,
                value,
            )


def counted_days(draw):
    """Settlements on 29ths to 31sts, at the end of February and over leap days."""
    while True:
        year = draw.one_of((1999, 2000, 2023, 2024, 2024, 2100))
        settle = draw.one_of(
            [datetime.date(year, month, 31) for month in (1, 3, 5, 7, 8, 10, 12)]
            + [datetime.date(year, month, 30) for month in (4, 6, 9, 11)]
            + [
                datetime.date(year, 3, 1) - ONE_DAY,
                datetime.date(year, 3, 1) - 2 * ONE_DAY,
                datetime.date(year, 3, 1),
            ]
        )
        if draw.chance(50):
            last = draw.one_of(
                (
                    datetime.date(year - 1, 2, 28),
                    datetime.date(year - 1, 8, 30),
                    datetime.date(year - 1, 8, 31),
                    datetime.date(year - 1, 12, 30),
                    datetime.date(year - 1, 12, 31),
                    datetime.date(year, 1, 30),
                    datetime.date(2024, 2, 29),
                    datetime.date(2000, 2, 29),
                    datetime.date(2023, 2, 28),
                )
            )
            basis = draw.number(0, 1)
            issue = draw.issue(
                "at-redemption", last, last + datetime.timedelta(draw.number(430, 700)), draw.coupon(), basis=basis
            )
            if not last <= settle < issue.maturity or fault_of(issue):
                continue
            tries = "accrued days from %s, %s%s" % (last, BASES[basis], said_of(settle, issue))
        else:
            first = months_later(datetime.date(year - 2, draw.number(1, 12), draw.one_of((1, 15, 27, 28))), 6)
            issue = draw.issue("periodic", months_later(first, -6), months_later(first, 60), draw.coupon(), first)
            tries = "accrued days since an interest date on a %d%s" % (first.day, said_of(settle, issue))
        yield Case(
            tries, issue, settle, "yield", 10 * draw.number(100, 6_000), draw.one_of((10_000, 1_000_000, 999_000))
        )


def money(draw):
    """Principal and accrued interest at half a cent and beside it, and the ends of par."""
    while True:
        issue = draw.regular(draw.number(2, 40))
        settle = draw.settlement(issue)
        days = accrued_days(issue, settle)
        value = 1_000 * draw.number(85_000, 120_000) + draw.one_of((0, 0, 999))
        if draw.chance(15):
            par = draw.one_of((1, 2, 999_999_999, 1_000_000_000))
            yield Case("the least and the greatest par", issue, settle, "price", value, par)
            continue
        par = draw.number(1, 2_000_000)
        thousandths = issue.coupon * par * days // 360_000_000
        if par * (value // 1000) % 1000 in (499, 500, 501):
            yield Case("principal at half a cent or beside it", issue, settle, "price", value, par)
        elif days and thousandths % 10 in (4, 5) and issue.coupon * par * days % 360_000_000 >= 300_000_000:
            yield Case(
                "accrued interest is cut to thousandths before it is rounded to cents",
                issue,
                settle,
                "price",
                value,
                par,
            )
        elif days and thousandths % 10 == 5 and issue.coupon * par * days % 360_000_000 == 0:
            yield Case("accrued interest of just half a cent, which goes up", issue, settle, "price", value, par)


def shown_digits(draw):
    """A given price is cut to three decimals and a given yield rounded, and each counts in full."""
    while True:
        issue = draw.regular(draw.number(1, 40))
        settle = draw.settlement(issue)
        if draw.chance(50):
            value = 1_000 * draw.number(90_000, 115_000) + draw.one_of((1, 499, 500, 501, 999))
            yield Case(
                "a given price of more than three decimals is shown cut off, and counts in full",
                issue,
                settle,
                "price",
                value,
            )
        else:
            value = draw.one_of((1, -1)) * (10 * draw.number(0, 4_000) + draw.one_of((4, 5, 6)))
            yield Case(
                "a given yield of four decimals is shown rounded by its magnitude, and counts in full",
                issue,
                settle,
                "yield",
                value,
            )


def cut_off(draw):
    """Exact prices a little below a whole thousandth, which rounding would raise."""
    while True:
        issue = draw.regular(draw.number(1, 40))
        settle = draw.settlement(issue)
        y = draw.yield_()
        if not side_of_range(redemptions(issue, settle), y):
            price = exact.decimal(redemptions(issue, settle)[-1], y)
            if 0 < price and price * 1000 % 1 > 0.9:
                yield Case("the exact price is nearly the next thousandth, and is cut off", issue, settle, "yield", y)


def rounded(draw):
    """Exact yields near half of the last printed digit."""
    while True:
        issue = draw.one_of((draw.regular(draw.number(1, 40)), draw.zero(draw.number(2, 40))))
        settle = draw.settlement(issue)
        value = draw.price_of(issue, settle, draw.one_of((draw.yield_(), draw.number(-9_000, 2_000))))
        if value is None:
            continue
        maturity = redemptions(issue, settle)[-1]
        if maturity.form is not Form.MANY and maturity.paid.left == 0:
            continue
        y = exact.exact_yield(maturity, exact.MICRO * value)
        if abs(y) < 900_000 and abs(abs(y) % 10 - 5) < 0.4:
            yield Case(
                "the exact yield is near half a thousandth, and is rounded by its magnitude",
                issue,
                settle,
                "price",
                value,
            )
