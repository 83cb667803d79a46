"""The trades that `drill` generates, and its summary (docs/FORMATS.md)."""
from __future__ import annotations

from collections.abc import Iterator
from datetime import date

from calculator.days import months_later
from calculator.figures import Asked, Choice, Figures, Given, Refused, answers, likely
from calculator.numerals import shown_money
from calculator.terms import Call, Issue, Kind

FIRST = date(2020, 7, 1)
STATES = 2**64


def draws(seed: int) -> Iterator[int]:
    state = seed
    while True:
        state = (state * 6364136223846793005 + 1442695040888963407) % STATES
        yield state >> 33


def trades(count: int, seed: int) -> Iterator[tuple[Issue, Asked]]:
    drawn = draws(seed)
    for _ in range(count):
        maturity = months_later(FIRST, 6 * (1 + next(drawn) % 60))
        coupon = 10_000_000 + 1_250_000 * (next(drawn) % 49)
        days = (months_later(FIRST, 6 * (2 + place)) for place in range(next(drawn) % 41))
        calls = tuple(Call(day, max(100_000_000, 102_000_000 - 250_000 * place))
                      for place, day in enumerate(days) if day < maturity)
        settlement = date(2020, 7 + next(drawn) % 6, 1 + next(drawn) % 28)
        par = 5_000 * (1 + next(drawn) % 200)
        price = 90_000_000 + 1_000 * (next(drawn) % 30_001)
        issue = Issue("000000000", "DRILL", Kind.PERIODIC, date(2020, 1, 1), maturity, coupon, FIRST, calls)
        yield issue, Asked(issue.cusip, par, settlement, Given.PRICE, price)


def summary(count: int, seed: int, choose: Choice = likely) -> list[str]:
    """The lines of a drill."""
    found = [(issue, choose(answers(issue, asked))) for issue, asked in trades(count, seed)]
    printed = [(issue, each) for issue, each in found if isinstance(each, Figures)]
    refused = [each.number for _, each in found if not isinstance(each, Figures)]
    outside = refused.count(Refused.YIELD_BELOW) + refused.count(Refused.YIELD_ABOVE)
    return [f"DRILL {count}",
            f"PRINTED {len(printed)}",
            f"UNDECIDED {refused.count(Refused.UNDECIDED)}",
            f"OUTSIDE {outside}",
            f"YIELDS {sum(each.yield_ for _, each in printed)}",
            f"ACCRUED {shown_money(sum(each.accrued for _, each in printed))}",
            f"CALLED {sum(each.redemption < issue.maturity for issue, each in printed)}"]
