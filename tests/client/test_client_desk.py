"""The client on a desk: issues, quotes, trades and their versions, refusals and lists."""
from __future__ import annotations

import concurrent.futures
from collections.abc import Callable
from dataclasses import replace
from datetime import date
from decimal import Decimal
from typing import Any

import pytest

import muni
from muni import Basis, Call, CallKind, DayCount, Issue, Kind, Label, Side, Trade
from support.issues import DISCOUNT, ELM_GROVE, MARLOW, NOTE, RIVERTON, ZERO
from support.server import Server

APRIL = date(2024, 4, 1)
TRADE = Trade("RETAIL", "H0001", ELM_GROVE.cusip, Side.SELL, 25_000, date(2024, 4, 3), Basis.PRICE, Decimal("104.25"),
              Decimal("0.375"))


def quote(desk: muni.Client, issue: Issue, settle: date, basis: Basis, value: muni.Amount) -> muni.Figures:
    return desk.quote(issue.cusip, 100_000, settle, basis, value)


def bought(desk: str, reference: str, par: int = 1_000) -> Trade:
    """A purchase of RIVERTON."""
    return Trade(desk, reference, RIVERTON.cusip, Side.BUY, par, APRIL, Basis.YIELD, 4)


def refused(kind: type[muni.Refused], call: Callable[[], object]) -> Any:
    """The refusal of a call, which has to be of this kind with its number and name."""
    with pytest.raises(kind) as caught:
        call()
    assert (type(caught.value), caught.value.name) == (kind, kind.__name__)
    assert muni.REFUSALS[kind.number] is kind
    return caught.value


def test_a_quote_by_yield_has_each_figure(desk: muni.Client) -> None:
    figures = quote(desk, ELM_GROVE, date(2024, 4, 3), Basis.YIELD, Decimal("3.65"))
    assert (figures.given, figures.price, figures.yield_) == (Basis.YIELD, Decimal("104.370"), Decimal("3.650"))
    assert figures.redemption == muni.Redemption(date(2035, 8, 1), Decimal(100), muni.Label.PAR_OPTION)
    assert (figures.accrued_days, figures.principal) == (62, Decimal("104370.00"))
    assert (figures.accrued, figures.total) == (Decimal("710.42"), Decimal("105080.42"))
    assert figures.commission == 0 and figures.rate is None


def test_a_quote_by_a_rate_of_discount_has_its_rate(desk: muni.Client) -> None:
    figures = quote(desk, DISCOUNT, date(2024, 1, 1), Basis.RATE, 3)
    assert (figures.given, figures.rate, figures.price) == (Basis.RATE, Decimal("3.0000"), Decimal("99.250"))


ON_OR_AFTER = Issue("990010AC4", "RIVERTON WATER REV 5S 2034", Kind.PERIODIC, date(2024, 1, 1), date(2034, 7, 1),
                    coupon=5, first=date(2024, 7, 1), calls=(Call(date(2030, 7, 1), 100, CallKind.ON_OR_AFTER),))
ON_DAY = replace(ON_OR_AFTER, cusip="990000085", calls=(Call(date(2030, 7, 1), 100),))
CALLED = Issue("990000093", "PINE BRIDGE 5S 2034", Kind.PERIODIC, date(2020, 1, 1), date(2034, 1, 1), coupon=5,
               first=date(2020, 7, 1), calls=(Call(date(2026, 7, 1), Decimal("101.00"), CallKind.CALLED),))


@pytest.fixture(scope="module")
def callable_issues(desk: muni.Client) -> None:
    for issue in (ON_OR_AFTER, ON_DAY, CALLED):
        assert desk.add_issue(issue) == issue.cusip


@pytest.mark.parametrize(("issue", "yield_", "day", "label"), [
    (ON_OR_AFTER, "-3.380", date(2031, 7, 1), Label.PAR_OPTION),
    (ON_DAY, "3.893", date(2034, 7, 1), Label.MATURITY),
], ids=["on or after it", "on it alone"])
def test_a_day_after_that_of_a_call(desk: muni.Client, callable_issues: None, issue: Issue, yield_: str, day: date,
                                    label: Label) -> None:
    figures = quote(desk, issue, date(2031, 2, 3), Basis.PRICE, Decimal("103.5"))
    assert (figures.yield_, figures.redemption) == (Decimal(yield_), muni.Redemption(day, Decimal(100), label))


def test_an_issue_that_has_been_called_is_redeemed_on_that_day(desk: muni.Client, callable_issues: None) -> None:
    figures = quote(desk, CALLED, date(2024, 1, 1), Basis.YIELD, 3)
    assert figures.price == Decimal("105.710")
    assert figures.redemption == muni.Redemption(date(2026, 7, 1), Decimal(101), Label.CALLED)
    refused(muni.SettleOutside, lambda: quote(desk, CALLED, date(2026, 7, 1), Basis.YIELD, 3))


def test_a_call_that_is_certain_and_not_the_last_is_refused(desk: muni.Client) -> None:
    calls = (*CALLED.calls, Call(date(2027, 1, 1), 100))
    bad = refused(muni.BadTerms, lambda: desk.add_issue(replace(CALLED, calls=calls)))
    assert (bad.fault, bad.call) == (12, date(2026, 7, 1))


def test_a_trade_is_entered_corrected_and_canceled(desk: muni.Client) -> None:
    entered = desk.enter(TRADE)
    assert (entered.act, entered.number) == (muni.Act.ENTERED, 1)
    assert (entered.side, entered.par) == (Side.SELL, 25_000)
    assert (entered.issue, entered.coupon) == (ELM_GROVE.name, Decimal("4.125"))
    assert (entered.dated, entered.maturity) == (ELM_GROVE.dated, ELM_GROVE.maturity)
    assert (entered.settle, entered.day_count) == (TRADE.settle, DayCount.THIRTY_360)
    assert (entered.figures.given, entered.figures.yield_) == (Basis.PRICE, Decimal("3.703"))
    assert (entered.figures.commission, entered.figures.total) == (Decimal("93.75"), Decimal("26146.35"))
    assert desk.enter(TRADE) == entered
    more = replace(TRADE, par=30_000)
    assert refused(muni.Conflict, lambda: desk.enter(more)).version == 1
    corrected = desk.correct(more, 2)
    assert (corrected.act, corrected.number, corrected.par) == (muni.Act.CORRECTED, 2, 30_000)
    assert desk.confirmation("RETAIL", "H0001") == corrected
    canceled = desk.cancel("RETAIL", "H0001", 3)
    assert (canceled.act, canceled.number) == (muni.Act.CANCELED, 3)
    assert desk.enter(TRADE) == entered, "sent again, the first version is answered as the first time"
    assert desk.confirmation("RETAIL", "H0001") == canceled
    refused(muni.Canceled, lambda: desk.correct(more, 4))


def test_a_note_of_actual_365(desk: muni.Client) -> None:
    note = desk.enter(Trade("NOTES", "H0002", MARLOW.cusip, Side.BUY, 50_000, APRIL, Basis.YIELD, Decimal("3.545")))
    assert (note.day_count, note.side) == (DayCount.ACTUAL_365, Side.BUY)
    assert (note.figures.price, note.figures.total) == (Decimal("100.303"), Decimal("50322.46"))


REFUSED_QUOTES: dict[str, tuple[type[muni.Refused], Issue, date, Basis, muni.Amount, str]] = {
    "an unknown issue": (muni.UnknownIssue, replace(RIVERTON, cusip="000000000"), APRIL, Basis.YIELD, 4, ""),
    "a settlement at maturity": (muni.SettleOutside, RIVERTON, date(2025, 1, 1), Basis.YIELD, 4, ""),
    "a yield above its range": (muni.GivenOutOfRange, RIVERTON, date(2021, 4, 1), Basis.YIELD, 101, "above"),
    "a price below its range": (muni.GivenOutOfRange, RIVERTON, APRIL, Basis.PRICE, 0, "below"),
    "a price below zero": (muni.GivenOutOfRange, NOTE, date(2025, 1, 1), Basis.YIELD, Decimal("999.999"),
                           "price below zero"),
    "too little is earned": (muni.YieldBelow, RIVERTON, APRIL, Basis.PRICE, 900, "2025-01-01"),
    "too much is earned": (muni.YieldAbove, RIVERTON, APRIL, Basis.PRICE, Decimal("1.0025"), ""),
    "a day before maturity": (muni.NoTime, RIVERTON, date(2024, 12, 31), Basis.PRICE, 99, "2025-01-01"),
    "a tie": (muni.Undecided, ZERO, date(2024, 1, 1), Basis.YIELD, 50, "2026-07-01 price 32.768"),
    "a rate for a bond": (muni.WrongBasis, RIVERTON, APRIL, Basis.RATE, 4, ""),
}


@pytest.mark.parametrize(("kind", "issue", "settle", "basis", "value", "rest"), REFUSED_QUOTES.values(),
                         ids=REFUSED_QUOTES)
def test_a_quote_is_refused(desk: muni.Client, kind: type[muni.Refused], issue: Issue, settle: date, basis: Basis,
                            value: muni.Amount, rest: str) -> None:
    assert refused(kind, lambda: quote(desk, issue, settle, basis, value)).rest == rest


def test_a_trade_that_is_not_kept_is_refused(desk: muni.Client) -> None:
    refused(muni.UnknownTrade, lambda: desk.confirmation("RETAIL", "h0001"))


def test_another_issue_under_its_cusip_is_refused(desk: muni.Client) -> None:
    kept = refused(muni.Conflict, lambda: desk.add_issue(replace(RIVERTON, coupon=6)))
    assert (kept.rest, kept.version) == ("issue", None)


@pytest.mark.parametrize(("issue", "fault", "call"), [
    (replace(ELM_GROVE, cusip="990034AA9"), 1, None),
    (replace(ELM_GROVE, cusip="990000044", calls=(Call(date(2033, 8, 2), 102),)), 6, date(2033, 8, 2)),
], ids=["a wrong check digit", "a call beside the interest dates"])
def test_bad_terms_tell_their_fault(desk: muni.Client, issue: Issue, fault: int, call: date | None) -> None:
    bad = refused(muni.BadTerms, lambda: desk.add_issue(issue))
    assert (bad.fault, bad.call) == (fault, call)


def test_numbers_of_versions_end_at_a_hundred(desk: muni.Client) -> None:
    trade = bought("MANY", "V1")
    desk.enter(trade)
    assert refused(muni.WrongNumber, lambda: desk.correct(trade, 3)).next == 2
    for number in range(2, 100):
        desk.correct(replace(trade, par=1_000 + number), number)
    refused(muni.VersionsFull, lambda: desk.correct(trade, 100))
    assert desk.cancel("MANY", "V1", 100).number == 100


def test_a_list_goes_on_over_its_pages(desk: muni.Client) -> None:
    for count in range(1, 101):
        desk.enter(bought("LONG", f"T{count:04}", 1_000 * count))
        if count in (49, 50, 51, 100):
            assert [line.reference for line in desk.trades("LONG")] == [f"T{each:04}" for each in range(1, count + 1)]
    assert len(desk.page("LONG")) == muni.PAGE == 50
    assert desk.page("LONG", "T0099") == [muni.Listed("T0100", 1, True, 100_000, Decimal("100.725"), Decimal(4))]
    desk.cancel("LONG", "T0100", 2)
    assert not desk.page("LONG", "T0099")[0].is_live


def test_a_desk_without_trades_has_an_empty_list(desk: muni.Client) -> None:
    assert list(desk.trades("EMPTY")) == []


@pytest.mark.parametrize(("method", "path", "body", "status"), [
    ("GET", "/nothing", None, 404), ("POST", "/quotes", {"cusip": 1}, 400)])
def test_an_answer_that_is_no_refusal_is_a_status(desk: muni.Client, method: str, path: str,
                                                  body: dict[str, Any] | None, status: int) -> None:
    with pytest.raises(muni.Status) as caught:
        desk._ask(method, path, body)
    assert caught.value.status == status


@pytest.mark.parametrize("change", [
    {"par": 0}, {"par": 1_000_000_001}, {"value": Decimal("104.1234567")}, {"value": Decimal("NaN")},
    {"fee": Decimal("0.0001")}, {"cusip": "990034aa8"}, {"reference": "a b"}, {"desk": "retail"},
    {"settle": date(2200, 1, 1)}, {"basis": Basis.YIELD, "value": Decimal("3.65001")}], ids=str)
def test_a_value_that_is_none_is_not_sent(change: dict[str, Any]) -> None:
    # Nothing listens there, so a request would not end in a ValueError.
    with pytest.raises(ValueError):
        muni.Client("http://127.0.0.1:1").enter(replace(TRADE, **change))


def test_a_float_is_not_sent() -> None:
    no_decimal: Any = 104.25
    with pytest.raises(TypeError):
        muni.Client("http://127.0.0.1:1").enter(replace(TRADE, value=no_decimal))


def test_threads_share_a_client(desk: muni.Client, served: Server) -> None:
    # With one try, since others would hide that threads meet.
    client = muni.Client(served.address, tries=1)
    with concurrent.futures.ThreadPoolExecutor(8) as threads:
        entered = list(threads.map(lambda count: client.enter(bought("THREADS", f"T{count}")).number, range(40)))
    assert entered == [1] * 40
    assert len(desk.page("THREADS")) == 40
