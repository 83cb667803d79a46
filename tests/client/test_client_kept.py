"""What the client reads of what is kept: terms, versions, positions, and the last trades."""
from __future__ import annotations

from collections.abc import Callable
from dataclasses import replace
from datetime import date
from decimal import Decimal

import pytest

import muni
from muni import Basis, Issue, Kind, Position, Side, Trade
from support.issues import DISCOUNT, ELM_GROVE, MARLOW, NOTE, RIVERTON, WRONG, ZERO

SALE = Trade("KEPT", "K0001", ELM_GROVE.cusip, Side.SELL, 25_000, date(2024, 4, 3), Basis.PRICE, Decimal("104.2505"),
             Decimal("0.375"))
CALLED = Issue("990000093", 'PINE "BRIDGE", 5S', Kind.PERIODIC, date(2020, 1, 1), date(2034, 1, 1), coupon=5,
               first=date(2020, 7, 1), calls=(muni.Call(date(2025, 7, 1), Decimal("102.5")),
                                              muni.Call(date(2026, 7, 1), 101, muni.CallKind.CALLED)))


@pytest.mark.parametrize("issue", [ELM_GROVE, MARLOW, RIVERTON, ZERO, DISCOUNT, NOTE, CALLED],
                         ids=[issue.cusip for issue in (ELM_GROVE, MARLOW, RIVERTON, ZERO, DISCOUNT, NOTE, CALLED)])
def test_the_terms_of_an_issue_are_read_as_they_were_added(desk: muni.Client, issue: Issue) -> None:
    """RIVERTON is what an issue was amended to."""
    assert desk.add_issue(WRONG if issue == RIVERTON else issue) == issue.cusip
    assert desk.issue(issue.cusip) == issue
    for number, kept in desk.terms(issue.cusip).items():
        assert (desk.add_issue(kept) == issue.cusip) if number == 1 else (desk.amend(kept, number) == number)


def test_terms_that_are_not_kept_are_refused(desk: muni.Client) -> None:
    with pytest.raises(muni.UnknownIssue):
        desk.issue("000000000")


@pytest.mark.parametrize("row", ["", "trade,990034AA8\n", "issue,990034AA8,NAME\n", 'issue,"a\n',
                                 "issue,1,2,3,4,5,6,7,8,9\n"])
def test_a_row_that_is_no_issue_is_told(row: str) -> None:
    with pytest.raises(ValueError):
        muni.read_issue(row)


def test_each_version_of_a_trade_is_read_by_its_number(desk: muni.Client) -> None:
    made = [desk.enter(SALE), desk.correct(replace(SALE, par=30_000), 2), desk.cancel("KEPT", "K0001", 3)]
    assert [desk.version("KEPT", "K0001", number) for number in (1, 2, 3)] == made
    assert [version.act for version in made] == [muni.Act.ENTERED, muni.Act.CORRECTED, muni.Act.CANCELED]


@pytest.mark.parametrize(("reference", "number"), [("K0001", 4), ("K0001", 99), ("K0002", 1)])
def test_a_version_that_is_not_kept_is_refused(desk: muni.Client, reference: str, number: int) -> None:
    with pytest.raises(muni.UnknownTrade):
        desk.version("KEPT", reference, number)


@pytest.mark.parametrize("number", [0, 101, -1])
def test_a_number_that_no_version_has_is_not_sent(number: int) -> None:
    with pytest.raises(ValueError):
        muni.Client("http://127.0.0.1:1").version("KEPT", "K0001", number)


def test_positions_are_of_live_trades_by_cusip(desk: muni.Client) -> None:
    totals = [desk.enter(replace(SALE, desk="HELD", reference=f"P{place}", side=side, par=par)).figures.total
              for place, (side, par) in enumerate([(Side.SELL, 25_000), (Side.BUY, 10_000), (Side.BUY, 40_000)])]
    other = desk.enter(Trade("HELD", "P9", RIVERTON.cusip, Side.BUY, 5_000, date(2024, 4, 1), Basis.YIELD, 4))
    desk.cancel("HELD", "P2", 2)
    assert desk.positions("HELD") == [
        Position(RIVERTON.cusip, 1, 5_000, 0, 5_000, other.figures.total),
        Position(ELM_GROVE.cusip, 2, 10_000, 25_000, -15_000, totals[1] - totals[0])]
    desk.cancel("HELD", "P9", 2)
    assert [each.cusip for each in desk.positions("HELD")] == [ELM_GROVE.cusip]


def test_the_last_trades_are_the_end_of_the_list(desk: muni.Client) -> None:
    for count in range(1, 53):
        desk.enter(replace(SALE, desk="LAST", reference=f"L{count:04}"))
        if count in (1, 49, 50, 51, 52):
            assert desk.latest("LAST") == list(desk.trades("LAST"))[-50:]
    assert [line.reference for line in desk.latest("LAST")] == [f"L{count:04}" for count in range(3, 53)]


@pytest.mark.parametrize("read", [muni.Client.positions, muni.Client.latest], ids=["positions", "last trades"])
def test_a_desk_without_trades_has_none(desk: muni.Client, read: Callable[[muni.Client, str], list[object]]) -> None:
    assert read(desk, "NOBODY") == []
