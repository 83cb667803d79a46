"""What the page shows of a trade before it is entered, corrected or canceled."""
from __future__ import annotations

from datetime import date
from decimal import Decimal

import pytest

import muni
from muni import Basis, Side
from support.page import APRIL, TICKET, missing

pytestmark = pytest.mark.xdist_group("page_questions")

SALE = TICKET | {"value": "104.2505", "side": "sell", "fee": "0.375"}


def no(page) -> None:
    """Answers the question with No."""
    page.click("#sure button[value=no]")
    page.asks(False)
    page.settle()


def changes(was: muni.Figures, now: muni.Figures) -> list[list[str]]:
    """The rows that a question has to show of figures that differ."""
    rows = [["Price per 100", f"{was.price}", f"{now.price}"], ["Yield", f"{was.yield_} %", f"{now.yield_} %"],
            ["Redemption", f"{was.redemption.day}", f"{now.redemption.day}"],
            ["Days accrued", f"{was.accrued_days}", f"{now.accrued_days}"],
            ["Principal", f"{was.principal:,}", f"{now.principal:,}"],
            ["Accrued interest", f"{was.accrued:,}", f"{now.accrued:,}"], ["Total", f"{was.total:,}", f"{now.total:,}"]]
    return [row for row in rows if row[1] != row[2]]


def yes(page) -> str:
    page.click("#sure-yes")
    return page.shows("ticket-told", "is kept")


def test_a_trade_that_was_quoted_is_entered_without_a_question(page):
    page.fill("ticket", **SALE | {"reference": "ASKED1"})
    page.press("ticket-quote")
    assert "CONFIRMATION 1 of ASKED1 is kept" in page.press("ticket-enter")


def test_a_trade_that_was_not_quoted_as_it_stands_is_shown_with_its_figures(page):
    page.fill("ticket", **SALE | {"reference": "ASKED2"})
    page.press("ticket-quote")
    page.fill("ticket", par="250000")
    page.click("#ticket-enter")
    figures = page.desk.quote("990034AA8", 250_000, page.kept("ASKED1").settle, Basis.PRICE, Decimal("104.2505"))
    assert page.asked() == [
        ["Desk", "RETAIL"], ["Reference", "ASKED2"], ["Sells", "250,000"], ["CUSIP", "990034AA8"],
        ["Settlement", "2024-04-03"], ["Given", "a price of 104.2505"], ["Price per 100", f"{figures.price}"],
        ["Yield", f"{figures.yield_} %"], ["Redemption", "2035-08-01 at 100.000000, par option"],
        ["Total", f"{figures.total:,}"], ["Commission", "0.375 per 100"]]
    assert "these figures are without it" in page.text("sure-lines")
    page.shot("asked-entry")
    no(page)
    assert "Nothing was entered" in page.text("ticket-told")
    assert not [body for body in page.relay.sent("POST /trades") if "ASKED2" in body]
    assert page.figures()["Total"] == f"{figures.total:,}", "they stay to be looked at"
    assert "CONFIRMATION 1 of ASKED2 is kept" in page.press("ticket-enter")


def test_a_trade_whose_quote_is_refused_is_not_asked_about(page):
    page.fill("ticket", **SALE | {"reference": "ASKED3", "cusip": "000000000"})
    assert "REFUSED 1 UnknownIssue" in page.press("ticket-enter")
    assert page.asks(False)


def test_a_cancel_shows_the_trade_and_its_next_version_is_filled_in(page):
    page.enter("ASKED4", Side.SELL, par=40_000)
    kept = page.kept("ASKED4")
    page.fill("ticket", reference="ASKED4")
    page.click("#ticket-cancel")
    assert page.asked() == [
        ["Desk", "RETAIL"], ["Reference", "ASKED4"], ["Last version", "CONFIRMATION 1"], ["Sold", "40,000"],
        ["CUSIP", "990034AA8"], ["Name", kept.issue], ["Settlement", f"{kept.settle}"],
        ["Total", f"{kept.figures.total:,}"], ["Next version", "2"]]
    assert page.js("return document.activeElement.textContent") == "No"
    page.shot("asked-cancel")
    assert "CANCELED CONFIRMATION 2 of ASKED4 is kept" in yes(page)


def test_a_correction_shows_what_changes_of_a_trade_of_this_window(page):
    page.fill("ticket", **SALE | {"reference": "ASKED5"})
    page.press("ticket-enter", sure="#sure-yes")
    page.fill("ticket", par="30000", side="buy", value="104.2506", fee="")
    page.click("#ticket-correct")
    assert page.asked() == [
        ["", "Now", "Then"], ["Side", "sold", "bought"], ["Par", "25,000", "30,000"],
        ["Given", "a price of 104.2505", "a price of 104.2506"], ["Commission", "0.375 per 100", "none"],
        *changes(page.kept("ASKED5").figures,
                 page.desk.quote("990034AA8", 30_000, APRIL, Basis.PRICE, Decimal("104.2506")))]
    page.shot("asked-correction")
    assert "CORRECTED CONFIRMATION 2 of ASKED5 is kept" in yes(page)
    page.click("#ticket-correct")
    page.asks()
    assert "Correct CORRECTED CONFIRMATION 2 of ASKED5? Nothing of it changes." in page.text("sure-title")
    no(page)
    assert page.kept("ASKED5").number == 2


def test_a_correction_of_a_trade_of_another_window_says_what_was_printed(page):
    page.enter("ASKED6", par=40_000, basis=Basis.PRICE, value=Decimal("104.2505"), fee=Decimal("0.125"))
    change = {"reference": "ASKED6", "par": "40000", "cusip": "123456AA3", "settle": "2024-04-04", "basis": "yield",
              "value": "4", "fee": "0.375"}
    page.fill("ticket", **TICKET | change)
    page.click("#ticket-correct")
    assert page.asked() == [
        ["", "Now", "Then"], ["CUSIP", "990034AA8", "123456AA3"], ["Settlement", "2024-04-03", "2024-04-04"],
        ["Given", "a price of 104.250, as printed", "a yield of 4"], ["Commission", "50.00 dollars", "0.375 per 100"],
        *changes(page.kept("ASKED6").figures,
                 page.desk.quote("123456AA3", 40_000, date(2024, 4, 4), Basis.YIELD, 4))]
    assert "A commission goes with a price alone" in page.text("sure-lines")
    no(page)
    page.fill("ticket", fee="0.125")
    page.click("#ticket-correct")
    assert [row[0] for row in page.asked()][:5] == ["", "CUSIP", "Settlement", "Given", "Price per 100"], \
        "this makes the same dollars"
    no(page)


def test_the_next_version_of_another_is_not_sent_for_the_one_that_was_typed(page):
    page.enter("ASKED7", par=40_000)
    page.fill("ticket", **TICKET | {"reference": "ASKED7", "par": "50000", "number": "3"})
    told = page.press("ticket-correct", sure="#sure-yes")
    assert missing(["REFUSED 12 WrongNumber 2"], told) == []


def test_a_correction_of_no_trade_is_refused_and_not_asked_about(page):
    page.fill("ticket", **TICKET | {"reference": "NONE1"})
    assert "REFUSED 2 UnknownTrade" in page.press("ticket-correct")
    assert page.asks(False)


def test_a_question_can_be_read(page):
    page.enter("ASKED8", Side.SELL, par=1_000_000_000, basis=Basis.PRICE, value=Decimal("100.1255"), cusip="990081AB7")
    page.fill("ticket", **SALE | {"reference": "ASKED8"})
    for button in ("ticket-correct", "ticket-cancel", "ticket-enter"):
        page.fill("ticket", par="30000")
        page.click(f"#{button}")
        page.asks()
        assert page.faults(button) == []
        assert page.faults_when_narrow(button) == []
        no(page)
