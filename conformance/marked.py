"""Families of cases over calls on or after a day, and issues that have been called."""
import dataclasses
import datetime

from calculator.days import months_later
from calculator.redemptions import PAR, days_of_redemption
from calculator.terms import Call, Mark
from drawn import Case, call_days, said_of

ONE_DAY = datetime.timedelta(1)


def terms(draw):
    """A periodic issue, at times with an odd first coupon, or a zero."""
    how = draw.number(1, 20)
    if how <= 11:
        return draw.regular(draw.number(4, 60))
    if how <= 14:
        first = months_later(draw.start(), 6)
        dated = first - datetime.timedelta(draw.number(30, 350))
        return draw.issue("periodic", dated, months_later(first, 6 * draw.number(3, 60)), draw.coupon(), first)
    if how == 15:
        return draw.regular(99)
    return draw.zero(draw.number(6, 60))


def price_of_call(draw):
    return draw.one_of((PAR, PAR, 1_000_000 * draw.number(101, 104), 250_000 * draw.number(380, 420)))


def one_run(draw, days):
    begin = draw.number(0, len(days) - 1)
    return [Call(days[begin], price_of_call(draw), Mark.ON_OR_AFTER)], "a call on or after a day"


def falling(draw, days):
    """Runs that follow one another, each at a lower price, down to 100."""
    place, price, calls = draw.number(0, len(days) - 1), PAR + 500_000 * draw.number(1, 8), []
    while place < len(days) and (not calls or calls[-1].price > PAR):
        calls.append(Call(days[place], price, Mark.ON_OR_AFTER))
        place, price = place + draw.number(1, 5), max(PAR, price - 500_000 * draw.number(1, 4))
    return calls, "calls on or after days at prices that fall"


def mixed(draw, days):
    place, calls = draw.number(0, len(days) - 1), []
    while place < len(days) and len(calls) < 6:
        mark = draw.one_of((Mark.NONE, Mark.ON_OR_AFTER))
        calls.append(Call(days[place], price_of_call(draw), mark))
        place += draw.number(1, 6)
    return calls, "calls on a day and calls on or after one"


def called(draw, days):
    return [Call(draw.one_of(days), price_of_call(draw), Mark.CALLED)], "an issue that has been called"


def called_at_last(draw, days):
    calls, _ = mixed(draw, days)
    calls[-1] = calls[-1]._replace(mark=Mark.CALLED)
    return calls, "an issue that has been called, with calls before"


def called_not_at_last(draw, days):
    """Terms that are refused, unless there is one call alone."""
    calls, _ = mixed(draw, days)
    calls[0] = calls[0]._replace(mark=Mark.CALLED)
    return calls, "an issue that has been called, and what stands after its call"


SCHEDULES = [one_run] * 3 + [falling] * 3 + [mixed] * 3 + [called] * 2 + [called_at_last] * 2 + [called_not_at_last]


def settlement(draw, issue):
    """A settlement, and what is special about it, in words."""
    how = draw.number(1, 20)
    if how <= 3:
        day = draw.one_of([call.day for call in days_of_redemption(issue)])
        settle = day - draw.number(0, 1) * ONE_DAY
        return settle, ", settled on a day of redemption or the day before"
    if how == 4:
        settle = draw.day_between(issue.end, issue.maturity + ONE_DAY)
        return settle, ", settled on the day of its redemption or after it"
    if how <= 8:
        last = months_later(issue.end, -6)
        settle = draw.day_between(max(issue.dated, last), issue.end)
        return settle, ", settled in the last half-year"
    settle = draw.settlement(issue)
    return settle, said_of(settle, issue)


def asked(draw, issue, settle):
    """What is given, and its value: often at a premium, where a call is the lowest."""
    how = draw.number(1, 20)
    if how <= 3:
        return "price", PAR
    if how <= 8:
        return "price", PAR + 1_000 * draw.number(1, 8_000)
    if how <= 11 and issue.settles(settle):
        return "price", draw.price_of(issue, settle, draw.yield_())
    if how == 12:
        return "yield", draw.one_of((-900_000, -50_001, -50_000, 1_000_000, 1_000_001, 9_999_990))
    if how <= 17 and issue.coupon:
        return "yield", issue.coupon // 1_000 - 10 * draw.number(0, 1_500)
    return "yield", draw.yield_()


def on_or_after(draw):
    while True:
        issue = terms(draw)
        days = call_days(issue)
        calls, tries = draw.one_of(SCHEDULES)(draw, days)
        if issue.kind == "zero":
            calls = [call._replace(price=250_000 * draw.number(80, 400)) for call in calls]
        issue = dataclasses.replace(issue, calls=tuple(calls))
        settle, when = settlement(draw, issue)
        given, value = asked(draw, issue, settle)
        if value is not None:
            yield Case("%s, a %s given%s" % (tries, given, when), issue, settle, given, value)
