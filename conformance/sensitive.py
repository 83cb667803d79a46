"""The family of cases over sensitivities: current yield, duration, convexity and DV01."""
import dataclasses
import datetime
from fractions import Fraction

import marked
from calculator.days import months_later
from calculator.figures import Asked, Figures, Given, answers
from calculator.price import HALVES, MILLION
from calculator.redemptions import Form, redemptions, side_of_range
from calculator.sensitivities import HALF, days_to, duration, nearest_to
from calculator.terms import fault_of
from drawn import Case, call_days, said_of

ONE_DAY = datetime.timedelta(1)
NEARLY = "within 10^-6 of a last digit of half of one"
BASES = {0: "30/360", 1: "actual/365"}
# The ends of the yields of each form, in millionths.
ENDS = {
    Form.MANY: (-50_000, 0, 1_000_000),
    Form.ONE: (-900_000, 0, 9_999_990),
    Form.AT_REDEMPTION: (-450_000, 0, 9_999_990),
}


def risk(tries, issue, settle, given, value, par=100):
    return Case(tries, issue, settle, given, value, par, is_risk=True)


def with_payments(draw, count):
    """A bond of interest on the first of a month, and its settlements so many half-years before its maturity: on
    an interest date, and on the day before the next one."""
    dated = datetime.date(draw.number(1990, 2020), draw.number(1, 12), 1)
    issue = draw.issue("periodic", dated, months_later(dated, 6 * count), draw.coupon(), months_later(dated, 6))
    begin = months_later(issue.maturity, -6 * count)
    return issue, begin, months_later(begin, 6) - ONE_DAY


def counted(draw):
    """1, 2, 3, 40 and 100 payments, on an interest date, a day before one and between, at each end of the yields."""
    while True:
        for count in (1, 2, 3, 40, 100):
            issue, begin, before = with_payments(draw, count)
            for settle, when in ((begin, "on an interest date"), (before, "the day before one"),
                                 (draw.day_between(begin, before), "between two")):
                form = redemptions(issue, settle)[-1].form
                said = "%d payment%s to come, settled %s" % (count, "s" if count > 1 else "", when)
                yield risk(said + ", a usual yield", issue, settle, "yield", 10 * draw.number(0, 9_000))
                yield risk(said + ", a yield at an end or 0", issue, settle, "yield", draw.one_of(ENDS[form]))
                price = draw.price_of(issue, settle, 10 * draw.number(0, 9_000))
                if price:
                    yield risk(said + ", a price given", issue, settle, "price", price)


def odd(draw):
    while True:
        first = months_later(draw.start(), 6)
        dated = first - datetime.timedelta(draw.one_of((draw.number(5, 178), draw.number(183, 355))))
        issue = draw.issue("periodic", dated, months_later(first, 6 * draw.one_of((0, 1, 2, draw.number(3, 60)))),
                           draw.coupon(), first)
        settle = draw.day_between(dated, first)
        tries = "an odd first coupon to come%s" % said_of(settle, issue)
        yield risk(tries, issue, settle, "yield", draw.one_of((draw.yield_(), 0, -50_000)))
        price = draw.price_of(issue, settle, draw.yield_())
        if price:
            yield risk(tries, issue, settle, "price", price)


def zeros(draw):
    while True:
        issue = draw.zero(draw.one_of((1, 2, 40, 100, draw.number(3, 99))))
        settle = draw.day_between(issue.dated, issue.maturity)
        yield risk("no coupon, and so no current yield%s" % said_of(settle, issue), issue, settle, "yield",
                   draw.one_of((draw.yield_(), 0, 1_000_000)))
        price = draw.price_of(issue, settle, draw.yield_())
        if price:
            yield risk("no coupon, a price given%s" % said_of(settle, issue), issue, settle, "price", price)


def notes(draw):
    while True:
        basis = draw.number(0, 1)
        issue = draw.note("at-redemption", basis)
        settle = draw.one_of((issue.dated, issue.maturity - ONE_DAY, draw.day_between(issue.dated, issue.maturity)))
        if fault_of(issue):
            continue
        tries = "interest at redemption, %s%s" % (BASES[basis], said_of(settle, issue))
        yield risk(tries, issue, settle, "yield", draw.one_of((draw.yield_(), *ENDS[Form.AT_REDEMPTION])))
        if redemptions(issue, settle)[0].paid.left:
            price = draw.price_of(issue, settle, draw.yield_())
            if price:
                yield risk(tries + ", a price given", issue, settle, "price", price)


def discounts(draw):
    while True:
        basis = draw.number(0, 1)
        issue = draw.note("discount", basis, 360)
        settle = draw.day_between(issue.dated, issue.maturity - ONE_DAY)
        given, value = draw.one_of((("rate", draw.number(0, 80_000)), ("price", 1_000 * draw.number(95_000, 100_000))))
        yield risk("a discounted note, %s, which has none of the lines" % BASES[basis], issue, settle, given, value)


def called(draw):
    """The redemption that is disclosed, and not maturity, has the sensitivities."""
    while True:
        issue = marked.terms(draw)
        calls, tries = draw.one_of(marked.SCHEDULES)(draw, call_days(issue))
        if issue.kind == "zero":
            calls = [call._replace(price=250_000 * draw.number(80, 400)) for call in calls]
        issue = dataclasses.replace(issue, calls=tuple(calls))
        settle, when = marked.settlement(draw, issue)
        given, value = marked.asked(draw, issue, settle)
        if value is not None:
            yield risk("%s, a %s given%s" % (tries, given, when), issue, settle, given, value)


def told_of(issue, settle, given, value):
    """What is paid up to the disclosed redemption and the shown yield in millionths, or None without figures."""
    found = answers(issue, Asked(issue.cusip, 100, settle, Given(given), value)).exact
    if not isinstance(found, Figures):
        return None
    return next(each.paid for each in redemptions(issue, settle) if each.day == found.redemption), 10 * found.yield_


def shown(draw):
    """Yields of more digits than are shown, at which a duration would have another last digit."""
    while True:
        issue = draw.regular(draw.number(20, 60))
        settle = draw.day_between(issue.dated, issue.maturity)
        value = draw.yield_()
        paid, at = told_of(issue, settle, "yield", value) or (None, value)
        if nearest_to(1000 * duration(paid, at)) != nearest_to(1000 * duration(paid, value)):
            yield risk("a yield of four decimals: the duration at the shown one has another last digit", issue, settle,
                       "yield", value)


def near_half(draw):
    """Zeros whose duration or convexity is near half of a last digit."""
    while True:
        parts = draw.one_of((100, 1_000, 10_000))
        dated = datetime.date(draw.number(1990, 2020), draw.number(1, 12), 1)
        issue = draw.issue("zero", dated, months_later(dated, 6 * draw.number(2, 90)))
        settle = draw.day_between(dated, months_later(dated, 6))
        days = days_to(redemptions(issue, settle)[0].paid)[-1]
        found = yield_near_half(days, parts, 10 * draw.number(-4_000, 90_000))
        if found is not None:
            yield risk("a duration or a convexity that is less than 1/%d of a last digit from half of one" % parts, issue,
                       settle, "yield", found)


def yield_near_half(days, parts, start):
    """A yield from the start on at which the duration or the convexity of a zero is so near to half of a last digit."""
    for y in range(start, 1_000_001, 10):
        growth = HALVES + y
        for top, bottom in ((1_000 * days * HALVES, 360 * growth),
                            (1_000 * days * (days + 180) * HALVES**2, 129_600 * growth**2)):
            if parts * abs(2 * (top % bottom) - bottom) <= 2 * bottom:
                return y
    return None


def halves(draw):
    """Durations of exactly half of a last digit, or nearer to it than 10^-6 of one: both numbers are right."""
    while True:
        dated = datetime.date(draw.number(1990, 2020), draw.number(1, 12), 1)
        bond = draw.regular(draw.number(1, 4))
        zero = draw.issue("zero", dated, months_later(dated, 6 * draw.number(2, 90)))
        for issue, settle in ((bond, draw.day_between(months_later(bond.maturity, -6), bond.maturity)),
                              (zero, draw.day_between(dated, months_later(dated, 6)))):
            redemption = redemptions(issue, settle)[0]
            paid = redemption.paid
            if redemption.form is Form.ONE:
                found = yields_at_half(paid.left * MILLION, 360 * MILLION, paid.left, ENDS[Form.ONE])
            else:
                found = yields_at_half(days_to(paid)[-1] * HALVES, 360 * HALVES, 360, ENDS[Form.MANY])
            found = [y for y in found if not side_of_range([redemption], y)]
            if found:
                y = draw.one_of(found)
                how = "of exactly half of a last digit" if 1_000 * duration(paid, y) % 1 == HALF else NEARLY
                yield risk("a duration %s, so that both numbers are right" % how, issue, settle, "yield", y)


def yields_at_half(top, base, step, ends):
    """The yields at which the duration top / (base + step * y) is half of a last digit, but for 10^-6 of one."""
    least, greatest = (2_000 * top // (base + step * y) for y in (ends[-1], ends[0])) if step else (0, 0)
    for odd in range(least | 1, greatest, 2):
        y = 10 * round(Fraction(2_000 * top - base * odd, 10 * step * odd))
        growth = base + step * y
        if MILLION * abs(2_000 * top - odd * growth) <= 2 * growth:
            yield y


def current_yields(draw):
    """Current yields near half of a last digit, and prices of 0, which have none."""
    while True:
        issue = draw.regular(draw.number(1, 60))
        settle = draw.settlement(issue)
        value = 1_000 * draw.number(80_000, 120_000)
        at = Fraction(100 * issue.coupon, value // 1_000)
        if abs(at % 10 - 5) < Fraction(1, 50):
            yield risk("a current yield within 0.000002 percent of half of a last digit", issue, settle, "price", value)
        if draw.chance(1):
            issue = draw.regular(draw.number(60, 90), draw.number(1, 50))
            yield risk("a price of 0.000, and so no current yield", issue, months_later(issue.dated, 6), "yield",
                       1_000_000)


SOURCES = [counted] * 6 + [odd, odd, zeros, zeros, notes, notes, notes, discounts, called, called, called, shown,
                           near_half, near_half, halves, current_yields]


def sensitivities(draw):
    kinds = {source: source(draw) for source in SOURCES}
    while True:
        for source in SOURCES:
            yield next(kinds[source])
