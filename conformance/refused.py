"""Families of cases over ranges, refusals, terms and commissions."""
import dataclasses
import datetime

import exact
from calculator.days import DayBasis, months_later, quasi_coupon_dates
from calculator.numerals import PRICE_MAX
from calculator.redemptions import PRINTED, Form, redemptions
from calculator.terms import Call, check_digit, fault_of
from drawn import TRADED, Case

ONE_DAY = datetime.timedelta(1)
BASES = {0: "30/360", 1: "actual/365"}


def ranges(draw):
    """The ends of each range, of what is given and of what is printed."""
    ends = {
        Form.MANY: (-50_001, -50_000, -49_999, 999_999, 1_000_000, 1_000_001),
        Form.ONE: (-900_001, -900_000, 9_999_990, 9_999_991),
        Form.AT_REDEMPTION: (-450_001, -450_000, 9_999_990, 9_999_991),
    }
    while True:
        issue = draw.one_of(
            (
                draw.regular(draw.number(1, 20)),
                draw.zero(draw.number(1, 20)),
                draw.note("at-redemption", draw.number(0, 1)),
                draw.note("discount", draw.number(0, 1)),
            )
        )
        settle = draw.settlement(issue)
        if issue.kind == "discount":
            if draw.chance(60):
                yield Case(
                    "a rate at or past an end of its range",
                    issue,
                    settle,
                    "rate",
                    draw.one_of((-1, 0, 300_000, 300_001)),
                )
            else:
                price = draw.one_of((0, 1, 100, 999_999_999, 150_000_000, draw.number(1, 20_000_000)))
                yield Case(
                    "a price far out, whose return is at or past an end of the range", issue, settle, "price", price
                )
            continue
        redemption = redemptions(issue, settle)[-1]
        if draw.chance(40):
            yield Case(
                "a yield at or past an end of its range", issue, settle, "yield", draw.one_of(ends[redemption.form])
            )
            continue
        if redemption.form is not Form.MANY and redemption.paid.left == 0:
            continue
        least, greatest = PRINTED[redemption.form]
        boundary = 10 * draw.one_of((least, least + 1, greatest, greatest + 1)) - 5
        price = int(exact.decimal(redemption, boundary) * 1_000_000) + draw.number(-1, 1)
        if 0 <= price <= PRICE_MAX:
            yield Case("a price whose yield is at an end of what is printed", issue, settle, "price", price)


def below_zero(draw):
    """Prices at a yield that are about zero, and below it."""
    while True:
        issue = draw.issue(
            "at-redemption",
            datetime.date(draw.number(2000, 2030), 1, 1),
            datetime.date(2031, 12, 20),
            10_000_000 * draw.number(10, 30),
        )
        issue = dataclasses.replace(issue, maturity=issue.dated + datetime.timedelta(draw.number(600, 725)))
        settle = issue.dated + datetime.timedelta(draw.number(200, 400))
        if fault_of(issue):
            continue
        paid = redemptions(issue, settle)[0].paid
        at_zero = (paid.due - paid.accrued) * paid.year * 1_000_000 // (paid.accrued * paid.left)
        value = at_zero + draw.number(-2, 2)
        if value <= 9_999_990:
            yield Case("an exact price just above or below zero", issue, settle, "yield", value)


def refused(draw):
    """Refusals of what is asked: basis, settlement, time."""
    while True:
        issue = draw.one_of(
            (
                draw.regular(draw.number(1, 30)),
                draw.zero(draw.number(2, 30)),
                draw.note("at-redemption", draw.number(0, 1)),
                draw.note("discount", draw.number(0, 1)),
            )
        )
        settle = draw.settlement(issue)
        rated = issue.kind == "discount"
        given, value = draw.one_of((("rate", 30_000), ("yield", 30_000), ("price", 99_000_000)))
        how = draw.number(1, 4)
        if how == 1 and given != "price" and (given == "rate") != rated:
            yield Case(
                "a rate for an issue that has none, or a yield for a discounted note", issue, settle, given, value
            )
        elif how == 2 and (given == "price" or (given == "rate") == rated):
            settle = draw.one_of((issue.dated - ONE_DAY, issue.dated, issue.maturity - ONE_DAY, issue.maturity))
            yield Case("settled on or beside the dated date or maturity", issue, settle, given, value)
        elif how == 3 and issue.kind != "zero" and given == "price":
            month = draw.one_of((1, 3, 5, 7, 8, 10, 12))
            year = draw.number(2000, 2020)
            settle = datetime.date(year, month, 31)
            maturity = settle + ONE_DAY
            if issue.kind == "periodic":
                issue = draw.issue(
                    "periodic", months_later(maturity, -24), maturity, issue.coupon, months_later(maturity, -18)
                )
            else:
                issue = dataclasses.replace(issue, dated=months_later(maturity, -9), maturity=maturity)
            yield Case(
                "a price on the day before maturity, a 31st, by %s" % BASES[issue.basis], issue, settle, given, value
            )
        elif how == 4 and given == "price":
            value = draw.one_of((0, 1, 1_000, 1_000_000, 500_000_000, 999_999_999))
            yield Case("a price far from any that is usual", issue, settle, given, value)


def terms(draw):
    """Terms that are refused, and terms at the ends of what is taken."""
    while True:
        issue = draw.regular(draw.number(3, 60))
        how = draw.number(1, 10)
        first, dated, maturity = issue.first, issue.dated, issue.maturity
        change, tries = {}, ""
        if how == 1:
            change, tries = {
                "first": draw.one_of((dated, dated - ONE_DAY, maturity + ONE_DAY, maturity))
            }, "the order of the days"
        elif how == 2:
            change, tries = {
                "maturity": maturity + draw.one_of((ONE_DAY, -ONE_DAY))
            }, "a maturity beside the interest dates"
        elif how == 3:
            change, tries = {"coupon": draw.one_of((0, 300_000_000))}, "no coupon, or the greatest"
        elif how == 4:
            begin = draw.one_of(
                (
                    first.replace(year=first.year - 1),
                    first.replace(year=first.year - 1) + draw.one_of((ONE_DAY, -ONE_DAY)),
                )
            )
            change, tries = {"dated": begin}, "a first coupon for about 360 days"
        elif how == 5:
            change, tries = {"maturity": months_later(first, 6 * draw.number(98, 101))}, "about 100 interest dates"
        elif how == 6:
            # `quote` takes no days for such an issue, and an import does.
            change, tries = {"basis": DayBasis.ACTUAL_365} | TRADED, "actual/365 for an issue that is no note"
        elif how == 7:
            days = draw.one_of(
                (
                    issue.first - ONE_DAY,
                    months_later(first, -6),
                    months_later(first, 6) + ONE_DAY,
                    maturity,
                    first,
                )
            )
            change, tries = {"calls": (Call(days, 100_000_000),)}, "a call on or beside the days on which one may be"
        elif how == 8:
            one, other = months_later(first, 6), months_later(first, 12)
            calls = draw.one_of(((other, one), (one, one), (one, other)))
            calls = tuple(Call(day, 101_000_000) for day in calls)
            change, tries = {"calls": calls}, "calls out of order, and in order"
        elif how == 9:
            price = draw.one_of((0, 999_999, 1_000_000, 200_000_000, 200_000_001))
            change, tries = {"calls": (Call(months_later(first, 6), price),)}, "the ends of a call's price"
        elif how == 10:
            note = draw.note(draw.one_of(("at-redemption", "discount")), draw.number(0, 1))
            span = draw.one_of((719, 720, 721, 729, 730, 731))
            issue, tries = note, "a note of about 720 days, by %s" % BASES[note.basis]
            change = {"maturity": note.dated + datetime.timedelta(span)}
        issue = dataclasses.replace(issue, **change)
        settle = max(issue.dated, min(issue.dated + datetime.timedelta(40), issue.maturity - ONE_DAY))
        given, value = ("rate", 30_000) if issue.kind == "discount" else ("yield", 40_000)
        yield Case("terms: " + tries, issue, settle, given, value, 25_000, "buy" if how == 6 else "")


def cusips(draw):
    letters = "0123456789ABCDEFGHIJKLMNOPQRSTUVWXYZ"
    while True:
        eight = "".join(draw.one_of(letters if draw.chance(60) else letters[:10]) for _ in range(8))
        right = check_digit(eight)
        check = right if draw.chance(70) else draw.one_of(letters[:10] + "A")
        issue = dataclasses.replace(draw.regular(draw.number(2, 20)), cusip=eight + check, name="CASE")
        yield Case(
            "a CUSIP and its check digit",
            issue,
            draw.settlement(issue),
            "yield",
            40_000,
            25_000,
            draw.one_of(("buy", "sell")),
        )


def commissions(draw):
    while True:
        issue = draw.one_of(
            (
                draw.regular(draw.number(1, 40)),
                draw.zero(draw.number(2, 40)),
                draw.note("at-redemption", 1),
                draw.note("discount", 0),
            )
        )
        issue = dataclasses.replace(issue, **TRADED)
        settle = draw.settlement(issue)
        par, side = draw.one_of((1, 25_000, 100_000, draw.number(1, 9_999))), draw.one_of(("buy", "sell"))
        fee = draw.one_of((125, 250, 375, 500, draw.number(1, 10_000)))
        value = draw.price_of(issue, settle, 10 * draw.number(500, 7_000)) if issue.kind != "discount" else 98_500_000
        if value is None:
            continue
        given, tries = "price", "a commission on a %s: the yield is that of the net price" % (
            "buy" if side == "buy" else "sale"
        )
        if draw.chance(10):
            given, value, tries = draw.one_of((("yield", 40_000), ("rate", 40_000))) + (
                "a commission beside a yield or a rate",
            )
        elif draw.chance(12):
            value = draw.one_of(
                (0, 1_000 * fee, 1_000 * fee + 1, 999_999_999, 999_999_999 - 1_000 * fee, 1_000_000_000 - 1_000 * fee)
            )
            tries = "a net price at an end of the range"
        elif par * fee % 1000 in (499, 500, 501):
            tries = "a commission at half a cent or beside it"
        yield Case(tries, issue, settle, given, value, par, side, fee)


def decides(draw):
    """Calls whose ranges, times and refusals differ from those of maturity: which candidate decides."""
    while True:
        issue = draw.regular(draw.number(3, 30), 1_250_000 * draw.number(2, 60))
        dates = [day for day in quasi_coupon_dates(issue.first) if issue.first <= day < issue.maturity]
        soon = draw.number(0, len(dates) - 1)
        prices = (1_000_000, 80_000_000, 100_000_000, 120_000_000, 200_000_000)
        calls = [Call(day, draw.one_of(prices)) for day in dates]
        issue = dataclasses.replace(issue, calls=tuple(calls[soon : soon + draw.one_of((1, 2, 5))]))
        settle = draw.day_between(months_later(dates[soon], -6), dates[soon])
        how = draw.number(1, 4)
        if how == 1:
            y = draw.one_of((-900_000, -50_001, -50_000, 1_000_000, 1_000_001, 9_999_990))
            yield Case(
                "a call with one payment and a maturity with many: the range of each", issue, settle, "yield", y
            )
        elif how == 2:
            price = draw.one_of((1_000, 500_000, 1_000_000, 3_000_000, 300_000_000, 600_000_000, 999_999_999))
            yield Case("a price at which a call or maturity has no printed yield", issue, settle, "price", price)
        elif how == 3 and issue.first.month in (1, 5, 7, 8, 10, 12) and issue.first.day == 1:
            settle = dates[soon] - ONE_DAY
            value = 1_000 * draw.number(80_000, 130_000)
            yield Case(
                "settled on the day before a call: a price there may have no time", issue, settle, "price", value
            )
        elif how == 4:
            yield Case(
                "calls far above and far below 100", issue, settle, "price", 1_000 * draw.number(60_000, 160_000)
            )
