"""What the families of cases share: a case, its row, and terms that are drawn at random."""
import dataclasses
import datetime
import random

import cases
import exact
from calculator.days import DayBasis, months_later, quasi_coupon_dates
from calculator.numerals import PRICE_MAX
from calculator.redemptions import redemptions
from calculator.terms import Issue, Kind
from calculator.words import QUOTED

# The CUSIP and the name of a case of `trade`, which are no matter to it.
TRADED = {"cusip": "990034AA8", "name": "CASE"}


@dataclasses.dataclass
class Case:
    """What a case tries, and what is asked. Numbers are in the units of the calculator."""

    tries: str
    issue: object
    settle: datetime.date
    given: str
    value: int
    par: int = 100
    side: str = ""
    fee: int = 0
    redeemed: object = None
    is_risk: bool = False

    def command(self):
        if self.redeemed is not None:
            return "quote-one"
        return "trade" if self.side else "risk" if self.is_risk else "quote"


def decimal_text(value, places):
    """A number in units of its last place as the shortest text."""
    sign, digits = "-" if value < 0 else "", "%0*d" % (places + 1, abs(value))
    whole, part = digits[: len(digits) - places], digits[len(digits) - places :].rstrip("0")
    return sign + whole + ("." + part if part else "")


def call_text(call):
    """A call as a row has it, with its mark."""
    return "%s:%s%s" % (call.day, decimal_text(call.price, 6), call.mark)


def row_of(case):
    """The row of a case, without its answer."""
    issue, row = case.issue, dict.fromkeys(cases.COLUMNS, "")
    command = case.command()
    row |= {
        "tries": case.tries,
        "command": command,
        "maturity": issue.maturity.isoformat(),
        "settle": case.settle.isoformat(),
        "given": case.given,
        "value": decimal_text(case.value, 6 if case.given == "price" else 4),
    }
    if issue.coupon or issue.kind in ("periodic", "at-redemption"):
        row["coupon"] = decimal_text(issue.coupon, 7)
    if command == "quote-one":
        return row | {"redeemed": decimal_text(case.redeemed, 6)}
    row |= {
        "kind": issue.kind,
        "dated": issue.dated.isoformat(),
        "days": "actual/365" if issue.basis else "",
        "first": issue.first.isoformat() if issue.first else "",
        "par": str(case.par),
        "calls": " ".join(map(call_text, issue.calls)),
    }
    if command == "trade":
        row |= {
            "cusip": issue.cusip,
            "side": case.side,
            "fee": decimal_text(case.fee, 3) if case.fee else "",
        }
    return row


class Drawer:
    """Draws terms at random."""

    def __init__(self, seed):
        self.random = random.Random(seed)

    def number(self, low, high):
        return low + self.random.randrange(high - low + 1)

    def one_of(self, choices):
        return choices[self.random.randrange(len(choices))]

    def chance(self, percent):
        return self.random.randrange(100) < percent

    def issue(self, kind, dated, maturity, coupon=0, first=None, calls=(), basis=0):
        return Issue(*QUOTED, Kind(kind), dated, maturity, coupon, first, tuple(calls), DayBasis(basis))

    def coupon(self):
        how = self.number(1, 20)
        if how <= 12:
            return 1_250_000 * self.number(4, 64)
        if how <= 17:
            return 500_000 * self.number(2, 160)
        return self.number(1_000_000, 90_000_000)

    def start(self):
        return datetime.date(
            self.number(1990, 2024), self.number(1, 12), self.one_of((1, 1, 1, 15, 15, 28, self.number(2, 28)))
        )

    def regular(self, halves, coupon=None):
        """A periodic issue whose first coupon is a regular one, with so many payments after the first."""
        dated = self.start()
        first = months_later(dated, 6)
        return self.issue(
            "periodic", dated, months_later(first, 6 * halves), self.coupon() if coupon is None else coupon, first
        )

    def zero(self, halves):
        maturity = months_later(self.start(), 6 * halves)
        dated = months_later(maturity, -6 * halves)
        return self.issue("zero", dated + datetime.timedelta(self.number(0, 60)), maturity)

    def note(self, kind, basis, longest=700):
        dated = datetime.date(self.number(1995, 2030), self.number(1, 12), 1) + datetime.timedelta(self.number(0, 30))
        coupon = self.coupon() if kind == "at-redemption" else 0
        return self.issue(kind, dated, dated + datetime.timedelta(self.number(20, longest)), coupon, basis=basis)

    def day_between(self, low, high):
        """A day from low on and before high; often a 29th, 30th or 31st, or the end of February."""
        days = (high - low).days
        for _ in range(30 if self.chance(45) else 0):
            day = low + datetime.timedelta(self.number(0, days - 1))
            if day.day >= 29 or (day.month == 2 and day.day == 28):
                return day
        return low + datetime.timedelta(self.number(0, days - 1))

    def settlement(self, issue):
        """A settlement of an issue; at times an interest date or the day before one."""
        if issue.kind == "periodic" and self.chance(15):
            dates = [day for day in quasi_coupon_dates(issue.first) if issue.dated < day < issue.end]
            if dates:
                return self.one_of(dates) - datetime.timedelta(self.number(0, 1))
        return self.day_between(issue.dated, issue.end)

    def yield_(self):
        """A yield as one is given: from 0 to 9 percent for the most part."""
        how = self.number(1, 20)
        if how <= 10:
            return 10 * self.number(0, 9_000)
        if how <= 16:
            return self.number(0, 90_000)
        if how <= 18:
            return self.number(-20_000, 0)
        return self.number(90_000, 400_000)

    def price_of(self, issue, settle, y):
        """A price that gives about this yield up to maturity, with three to six decimals, or None if none does."""
        price = int(exact.decimal(redemptions(issue, settle)[-1], y) * 1_000_000)
        unit = self.one_of((1000, 1000, 10, 1))
        price = price // unit * unit
        return price if 0 < price <= PRICE_MAX else None


def call_days(issue):
    """The days on which an issue may be called."""
    begin = issue.first or issue.dated
    return [day for day in quasi_coupon_dates(issue.anchor) if issue.dated < day and begin <= day < issue.maturity]


def said_of(settle, issue):
    """What is special about a settlement, in words."""
    last = settle + datetime.timedelta(1)
    if settle.month == 2 and settle.day == 29:
        return ", settled on 29 February"
    if settle.month == 2 and last.month == 3:
        return ", settled on the last of February"
    if settle.day >= 29:
        return ", settled on a %s" % {29: "29th", 30: "30th", 31: "31st"}[settle.day]
    if settle == issue.dated:
        return ", settled on the dated date"
    return ""
