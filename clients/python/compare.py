#!/usr/bin/env python3
"""Quotes generated bonds at a desk and by QuantLib's Python module, and compares the prices that both print.

    clients/python/compare.py [--url=http://127.0.0.1:8735] [--bonds=1000] [--seed=1] [--show=10]

The bonds are added to the desk as issues and stay there, so use a desk with a store of its own. Each is callable on
up to eight interest dates, and is quoted at a yield: the price is the lowest over its calls and its maturity, which
QuantLib is asked for one by one. A price that QuantLib computes is truncated to three decimals, as the desk's is.
Prices that differ are shown with QuantLib's in full. Debian has the module as quantlib-python for /usr/bin/python3;
without it the bonds are quoted at the desk alone.
"""
from __future__ import annotations

import argparse
import importlib
import pathlib
import random
import sys
import time
from collections.abc import Callable
from datetime import date
from decimal import ROUND_DOWN, Decimal
from typing import Any

sys.path.insert(0, str(pathlib.Path(__file__).resolve().parent / "src"))
import muni

SETTLE = date(2024, 4, 3)


def cusip_of(number: int) -> str:
    """The CUSIP of a number, of those that are left to users.

    >>> cusip_of(34)
    '990000341'
    """
    body = f"990{number:05d}"
    total = sum(sum(divmod(int(digit) * (1 + place % 2), 10)) for place, digit in enumerate(body))
    return body + str(-total % 10)


def half_years_after(day: date, count: int) -> date:
    """
    >>> half_years_after(date(2023, 8, 1), 3)
    datetime.date(2025, 2, 1)
    """
    months = day.month - 1 + 6 * count
    return date(day.year + months // 12, months % 12 + 1, day.day)


def drawn(source: random.Random, number: int) -> tuple[muni.Issue, Decimal]:
    """A bond and a yield to quote it at. Its first call is at a premium, and the price falls by a half to 100."""
    dated = date(source.randint(2018, 2023), source.randint(1, 12), source.randint(1, 28))
    length = source.randint(14, 60)
    calls = []
    begin = source.randint(12, length)
    for place in range(begin, min(begin + source.randint(0, 8), length)):
        price = max(Decimal(100), 102 - Decimal("0.5") * (place - begin))
        calls.append(muni.Call(half_years_after(dated, place), price))
    issue = muni.Issue(cusip_of(number), f"BOND {number}", muni.Kind.PERIODIC, dated, half_years_after(dated, length),
                       coupon=Decimal(source.randint(16, 56)) / 8, first=half_years_after(dated, 1), calls=tuple(calls))
    return issue, Decimal(source.randint(1500, 6500)) / 1000


def by_quantlib(ql: Any) -> Callable[[muni.Issue, Decimal], float]:
    """What gives the lowest price of a bond at a yield, as a user of QuantLib walks its redemptions."""
    basis = ql.Thirty360(ql.Thirty360.BondBasis)
    settle = ql.Date(SETTLE.day, SETTLE.month, SETTLE.year)

    def price_to(issue: muni.Issue, day: date, redemption: float, rate: float) -> float:
        schedule = ql.Schedule(ql.Date(issue.dated.day, issue.dated.month, issue.dated.year),
                               ql.Date(day.day, day.month, day.year), ql.Period(6, ql.Months), ql.NullCalendar(),
                               ql.Unadjusted, ql.Unadjusted, ql.DateGeneration.Forward, False)
        bond = ql.FixedRateBond(0, 100.0, schedule, [float(issue.coupon or 0) / 100], basis, ql.Unadjusted, redemption)
        left = sum(1 for each in schedule if each > settle)
        way = ql.SimpleThenCompounded if left == 1 else ql.Compounded
        return float(ql.BondFunctions.cleanPrice(bond, rate, basis, way, ql.Semiannual, settle))

    def lowest(issue: muni.Issue, percent: Decimal) -> float:
        ways = [(call.day, float(call.price)) for call in issue.calls if call.day > SETTLE] + [(issue.maturity, 100.0)]
        return min(price_to(issue, day, price, float(percent) / 100) for day, price in ways)

    return lowest


def main() -> int:
    words = argparse.ArgumentParser(description="Compares the desk's prices of generated bonds with QuantLib's.")
    words.add_argument("--url", default="http://127.0.0.1:8735")
    words.add_argument("--bonds", type=int, default=1000)
    words.add_argument("--seed", type=int, default=1)
    words.add_argument("--show", type=int, default=10)
    given = words.parse_args()
    desk = muni.Client(given.url)
    source = random.Random(given.seed)
    bonds = [drawn(source, number) for number in range(given.bonds)]
    for issue, _ in bonds:
        desk.add_issue(issue)
    begin = time.perf_counter()
    ours: list[Decimal | None] = []
    for issue, percent in bonds:
        try:
            ours.append(desk.quote(issue.cusip, 100_000, SETTLE, muni.Basis.YIELD, percent).price)
        except muni.Refused as error:
            print(f"{issue.cusip} at {percent}: {error}")
            ours.append(None)
    print(f"the desk: {len(bonds)} bonds quoted in {time.perf_counter() - begin:.1f} s")
    try:
        library: Any = importlib.import_module("QuantLib")
    except ImportError:
        print(f"skipped: QuantLib is not installed for {sys.executable}, so nothing was compared")
        return 0
    price_of = by_quantlib(library)
    begin = time.perf_counter()
    theirs = [price_of(issue, percent) for issue, percent in bonds]
    print(f"QuantLib {library.__version__}: {len(bonds)} bonds priced in {time.perf_counter() - begin:.1f} s")
    others = [(issue, percent, price, found) for (issue, percent), price, found in zip(bonds, ours, theirs)
              if price is not None and price != Decimal(found).quantize(Decimal("0.001"), ROUND_DOWN)]
    for issue, percent, price, found in others[:given.show]:
        print(f"{issue.cusip} at {percent}: the desk {price}, QuantLib {found!r}")
    compared = sum(price is not None for price in ours)
    print(f"{compared - len(others)} of {compared} prices are the same to the third decimal")
    return 1 if any(abs(Decimal(found) - price) > Decimal("0.0011") for _, _, price, found in others) else 0


if __name__ == "__main__":
    sys.exit(main())
