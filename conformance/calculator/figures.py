"""The figures of a trade, or the refusal in their place (MSRB Rules G-33 and G-15(a))."""
from __future__ import annotations

import dataclasses
import enum
from collections.abc import Callable
from datetime import date
from typing import NamedTuple

from calculator.days import days_30_360, months_later
from calculator.numerals import PRICE_MAX, shown, shown_figure
from calculator.price import PERIOD, OnePayment
from calculator.printed import Ending, Outcome, Outcomes, boundary_of, price_of, rounded, yield_of
from calculator.redemptions import (DAILY, MICROS, PRINTED, Decided, Form, Label, Redemption, accrued_days,
                                    all_deciding, deciding, redemptions, side_of_range)
from calculator.terms import Issue, Kind

RATE_MAX = 300_000


class Given(enum.StrEnum):
    """What a trade is done at."""

    YIELD = "yield"
    PRICE = "price"
    RATE = "rate"


class Side(enum.StrEnum):
    """What the party that is confirmed does."""

    BUY = "buy"
    SELL = "sell"


class Refused(enum.IntEnum):
    """The refusals by their numbers."""

    UNKNOWN_ISSUE = 1
    UNKNOWN_TRADE = 2
    CONFLICT = 3
    BAD_TERMS = 4
    SETTLE_OUTSIDE = 5
    GIVEN_OUT_OF_RANGE = 6
    YIELD_BELOW = 7
    YIELD_ABOVE = 8
    NO_TIME = 9
    UNDECIDED = 10
    CANCELED = 11
    WRONG_NUMBER = 12
    VERSIONS_FULL = 13
    DESK_FULL = 14
    WRONG_BASIS = 15

    @property
    def title(self) -> str:
        """The name as it is written."""
        return "".join(word.capitalize() for word in self.name.split("_"))


class Refusal(NamedTuple):
    """A refusal, and what its line has after the name."""

    number: Refused
    rest: str = ""


@dataclasses.dataclass(frozen=True)
class Asked:
    """What is asked of an issue. The par is in dollars, the fee in 10^-3 dollars per 100 of par.

    The value is a price in 10^-6 dollars, or a yield or a rate in millionths.
    """

    cusip: str
    par: int
    settlement: date
    given: Given
    value: int
    side: Side = Side.BUY
    fee: int = 0

    @property
    def net_price(self) -> int:
        """The price that counts for the yield: a buyer pays the commission, and a seller bears it."""
        return self.value + (MICROS * self.fee if self.side == Side.BUY else -MICROS * self.fee)


@dataclasses.dataclass(frozen=True)
class Figures:
    """The price and the yield in thousandths, the redemption that is disclosed, and money in cents."""

    price: int
    yield_: int
    redemption: date
    redemption_price: int
    label: Label
    accrued_days: int
    principal: int
    accrued: int
    commission: int
    total: int


class Answers(NamedTuple):
    """The exact answer, and those that the desk may give, of which the first is the likely one.

    They are several if an exact figure is within 10^-9 dollars of a boundary between two printed ones. A tie on the
    boundary may be refused alone: then the exact answer is not among them.
    """

    exact: Figures | Refusal
    allowed: tuple[Figures | Refusal, ...]


class Each(NamedTuple):
    """A redemption by itself, and what it comes to."""

    redemption: Redemption
    outcome: Outcome


# Picks one of the answers, or of the outcomes of one redemption.
Choice = Callable[[Answers | Outcomes], Figures | Refusal | Outcome]


def likely(answers: Answers | Outcomes) -> Figures | Refusal | Outcome:
    return answers.allowed[0]


def sure(answer: Figures | Refusal) -> Answers:
    return Answers(answer, (answer,))


def cents(thousandths: int) -> int:
    """Thousandths of a dollar rounded to cents. Half a cent goes up."""
    return (thousandths + 5) // 10


def figures(issue: Issue, asked: Asked, redemption: Redemption, price: int, yield_: int) -> Figures:
    """All figures of a trade whose printed price and yield are known."""
    days = accrued_days(issue, asked.settlement)
    # A price is per 100 of par: so many thousandths are par times price over 100.
    principal = (asked.par * price + 500) // 1000
    accrued = cents(issue.coupon * asked.par * days // (issue.basis.year * 1_000_000))
    commission = (asked.par * asked.fee + 500) // 1000
    total = principal + accrued + (commission if asked.side == Side.BUY else -commission)
    return Figures(price, yield_, redemption.day, redemption.price, redemption.label, days, principal, accrued,
                   commission, total)


def refusal_of_asked(issue: Issue, asked: Asked) -> Refusal | None:
    """The refusal of what is asked, before any figure is looked at, in the order of docs/FORMATS.md."""
    if asked.given != Given.PRICE and ((asked.given == Given.RATE) != (issue.kind == Kind.DISCOUNT) or asked.fee):
        return Refusal(Refused.WRONG_BASIS)
    if not issue.settles(asked.settlement):
        return Refusal(Refused.SETTLE_OUTSIDE)
    side = side_of_given(issue, asked)
    return Refusal(Refused.GIVEN_OUT_OF_RANGE, side) if side else None


def side_of_given(issue: Issue, asked: Asked) -> str | None:
    """`below` or `above`, if what is given is out of its range."""
    if asked.given == Given.PRICE:
        if asked.value == 0 or asked.net_price <= 0:
            return "below"
        return "above" if asked.net_price > PRICE_MAX else None
    if asked.given == Given.RATE:
        return "below" if asked.value < 0 else "above" if asked.value > RATE_MAX else None
    return side_of_range(redemptions(issue, asked.settlement), asked.value)


def answers(issue: Issue, asked: Asked) -> Answers:
    """The figures of a trade of an issue whose terms are good, or the refusal in their place."""
    refusal = refusal_of_asked(issue, asked)
    if refusal:
        return sure(refusal)
    found = redemptions(issue, asked.settlement)
    outcomes = outcomes_of(issue, asked, found)
    if asked.given == Given.RATE:
        return sure(at_a_rate(issue, asked, found[0], outcomes[0].exact))
    least = 0 if asked.given == Given.YIELD else PRINTED[Form.MANY][0]
    lowest = Outcome(Ending.UNDECIDED, least - 1)
    exact = deciding((each.exact for each in outcomes), lowest)
    first = deciding((each.allowed[0] for each in outcomes), lowest)
    others = all_deciding((each.allowed for each in outcomes), lowest) - {first}
    return Answers(answer_of(issue, asked, found, exact),
                   tuple(answer_of(issue, asked, found, each) for each in (first, *sorted(others, key=repr))))


def outcomes_of(issue: Issue, asked: Asked, found: list[Redemption]) -> list[Outcomes]:
    """What each redemption comes to by itself: a price at a yield, and else a yield."""
    if asked.given == Given.YIELD:
        return [price_of(redemption.paid, asked.value) for redemption in found]
    price = issue.basis.year * MICROS * asked.net_price
    if asked.given == Given.RATE:
        price = price_at_a_rate(asked, found[0])
    return [yield_of(redemption.paid, price, PRINTED[redemption.form]) for redemption in found]


def each_of(issue: Issue, asked: Asked, choose: Choice = likely) -> list[Each]:
    """What each redemption of a trade comes to, if the trade has figures."""
    found = redemptions(issue, asked.settlement)
    return [Each(*each) for each in zip(found, map(choose, outcomes_of(issue, asked, found)))]


def boundary_text(asked: Asked, lower: int) -> str:
    """The boundary between a printed figure and the one above it, as a refusal names it."""
    above = lower + 1
    if asked.given == Given.YIELD:
        return f"price {shown_figure(above)}"
    return f"yield {shown(boundary_of(above), 4)}"


def answer_of(issue: Issue, asked: Asked, found: list[Redemption], decided: Decided) -> Figures | Refusal:
    """What the redemption that decides is answered by."""
    at_yield = asked.given == Given.YIELD
    if decided.ending is Ending.ABOVE:
        return Refusal(Refused.YIELD_ABOVE)
    redemption = found[decided.place]
    if decided.ending is Ending.NO_TIME:
        return Refusal(Refused.NO_TIME, str(redemption.day))
    if decided.ending is Ending.BELOW:
        return (Refusal(Refused.GIVEN_OUT_OF_RANGE, "price below zero") if at_yield
                else Refusal(Refused.YIELD_BELOW, str(redemption.day)))
    if decided.ending is Ending.UNDECIDED:
        return Refusal(Refused.UNDECIDED, f"{redemption.day} {boundary_text(asked, decided.figure)}")
    if at_yield:
        return figures(issue, asked, redemption, decided.figure, rounded(asked.value))
    return figures(issue, asked, redemption, asked.value // 1000, decided.figure)


def price_at_a_rate(asked: Asked, maturity: Redemption) -> int:
    """The exact price of a discounted note at a rate, in units (section (c))."""
    return maturity.paid.due - 100_000 * asked.value * maturity.paid.left


def at_a_rate(issue: Issue, asked: Asked, maturity: Redemption, yield_: Outcome) -> Figures | Refusal:
    """A discounted note at a rate. Its return is that of the price before it is cut off."""
    if yield_.ending is Ending.NO_TIME:
        return Refusal(Refused.NO_TIME, str(maturity.day))
    price = price_at_a_rate(asked, maturity)
    return figures(issue, asked, maturity, price * 1000 // maturity.paid.unit, yield_.figure)


def quote_one(coupon: int, interest: date, settlement: date, redemption_price: int, yield_: int) -> int | Refusal:
    """The printed price of a bond with one regular payment left, on an interest date, or a refusal."""
    begin = months_later(interest, -6)
    if not begin <= settlement < interest:
        return Refusal(Refused.SETTLE_OUTSIDE)
    elapsed = days_30_360(begin, settlement)
    paid = OnePayment(360 * MICROS * redemption_price + PERIOD * DAILY * coupon, DAILY * coupon * elapsed,
                      PERIOD - elapsed)
    side = side_of_range([Redemption(interest, redemption_price, Label.MATURITY, Form.ONE, paid)], yield_)
    if side:
        return Refusal(Refused.GIVEN_OUT_OF_RANGE, side)
    outcome = price_of(paid, yield_).exact
    if outcome.ending is Ending.BELOW:
        return Refusal(Refused.GIVEN_OUT_OF_RANGE, "price below zero")
    return outcome.figure
