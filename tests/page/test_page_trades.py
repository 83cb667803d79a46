"""Trades on the page: entered, sent again, corrected, taken into the ticket, and canceled."""
from __future__ import annotations

from datetime import date
from decimal import Decimal

import pytest

import muni
from muni import Basis
from support.page import TICKET, missing, sheet_shown

pytestmark = pytest.mark.xdist_group("page_trades")

LISTED = """
return [...document.querySelectorAll("#trades-list th button")].some(each => each.innerText === arguments[0]);
"""
SALE = TICKET | {"value": "104.2505", "side": "sell", "fee": "0.375"}


def sold(page, reference: str) -> None:
    """Enters a sale by the page, without a quote before it."""
    page.fill("ticket", **SALE | {"reference": reference})
    assert f"CONFIRMATION 1 of {reference} is kept" in page.press("ticket-enter", sure="#sure-yes")


def test_a_second_press_while_a_trade_is_entered_sends_nothing(page):
    sent = len(page.relay.sent("POST /trades"))
    page.fill("ticket", **SALE | {"reference": "TWICE"})
    page.press("ticket-quote")
    with page.relay.holding("POST /trades"):
        page.click("#ticket-enter")
        page.click("#ticket-enter")
    assert page.shows("ticket-told", "CONFIRMATION 1 of TWICE is kept")
    page.settle()
    assert len(page.relay.sent("POST /trades")) - sent == 1


def test_a_trade_has_its_sheet_and_its_line_in_the_list(page):
    sold(page, "ENTERED")
    assert page.sheet() == sheet_shown(page.kept("ENTERED"))
    assert "It is printed with three decimals; as given it may have more." in page.text("sheet-paper")
    page.click("#trades-again")
    assert page.until(LISTED, "ENTERED")


def test_a_trade_that_is_entered_again_adds_nothing(page):
    sold(page, "AGAIN")
    assert "Nothing was added: CONFIRMATION 1 of AGAIN was kept before" in page.press("ticket-enter")


def test_another_trade_under_its_reference_is_refused(page):
    sold(page, "TAKEN")
    told, stays = page.refused("ticket", "ticket-enter", "#sure-yes", par="30000")
    assert missing(page.lines_of("REFUSED 3 Conflict version 1"), told) == [] and stays
    assert page.kept("TAKEN").par == 25_000
    page.shot("conflict")


def test_a_number_that_is_left_out_is_refused(page):
    sold(page, "NUMBER")
    told, stays = page.refused("ticket", "ticket-correct", "#sure-yes", par="30000", number="3")
    assert missing(page.lines_of("REFUSED 12 WrongNumber 2"), told) == [] and stays


def test_after_a_correction_the_sheet_shows_the_present_state_whatever_is_sent_again(page):
    sold(page, "CORRECT")
    page.fill("ticket", par="30000", number="2")
    assert "CORRECTED CONFIRMATION 2 of CORRECT is kept" in page.press("ticket-correct", sure="#sure-yes")
    assert page.sheet() == sheet_shown(page.kept("CORRECT"))
    page.fill("ticket", par="25000")
    told = page.press("ticket-enter", sure="#sure-yes")
    assert missing(["CONFIRMATION 1 of CORRECT was kept before",
                    "It is not the present state: the last version is CORRECTED CONFIRMATION 2"], told) == []
    assert (page.title(), page.sheet()["Sold"]) == ("CORRECTED CONFIRMATION 2", "30,000")


def test_a_trade_of_this_window_is_taken_in_full(page):
    sold(page, "MINE")
    page.fill("ticket", par="30000", number="2")
    page.press("ticket-correct", sure="#sure-yes")
    page.click("#ticket-clear")
    page.click("#sheet-take")
    assert page.ticket("value", "fee", "number", "par") == ("104.2505", "0.375", "3", "30000")


KEPT = {
    "a yield": ("W0002", {"value": Decimal("3.6525")}, "yield", "",
                ["Type the yield in full", "the confirmation prints 3.653"]),
    "a price and a commission": ("W0003", {"basis": Basis.PRICE, "value": Decimal("104.2505"), "fee": Decimal("0.125")},
                                 "price", "",
                                 ["Type the price in full", "prints 104.250", "Type the commission per 100 too"]),
    "a rate": ("W0004", {"basis": Basis.RATE, "value": Decimal("3.1234"), "cusip": "990000028",
                         "settle": date(2024, 1, 2)}, "rate", "3.1234", ["All is as it was given, in full."]),
}


@pytest.mark.parametrize(("reference", "given", "basis", "value", "words"), KEPT.values(), ids=KEPT)
def test_a_trade_of_another_window_is_taken_without_what_may_be_rounded(page, reference, given, basis, value, words):
    page.enter(reference, par=40_000, **given)
    page.find(reference)
    page.click("#sheet-take")
    names = ("reference", "basis", "value", "fee", "number", "par")
    assert page.ticket(*names) == (reference, basis, value, "", "2", "40000")
    assert missing(words, page.text("ticket-told")) == []


def test_a_correction_without_its_yield_is_not_sent(page):
    page.enter("W0005", par=40_000, value=Decimal("3.6525"))
    page.find("W0005")
    page.click("#sheet-take")
    page.shot("taken")
    sent = len(page.relay.sent("POST"))
    page.click("#ticket-correct")
    assert "Missing: percent" in page.text("ticket-value-wrong")
    assert page.focus() == "ticket-value"
    page.settle()
    assert len(page.relay.sent("POST")) == sent


def test_a_cancel_that_is_not_sure_is_not_sent(page):
    sold(page, "UNSURE")
    page.fill("ticket", number="2")
    page.click("#ticket-cancel")
    page.asks()
    page.click("#sure button[value=no]")
    page.asks(False)
    page.settle()
    assert not [body for body in page.relay.sent("POST /cancels") if "UNSURE" in body]
    assert page.kept("UNSURE").act is muni.Act.ENTERED


def test_a_cancel_is_told_on_the_sheet_and_in_the_list(page):
    sold(page, "CANCEL")
    page.fill("ticket", number="2")
    assert "CANCELED CONFIRMATION 2 of CANCEL is kept" in page.press("ticket-cancel", sure="#sure-yes")
    assert page.title() == "CANCELED CONFIRMATION 2"
    page.click("#trades-again")
    page.until("return [...document.querySelectorAll('#trades-list tr.canceled button')]"
               ".some(each => each.innerText === 'CANCEL')")
    canceled = [line.reference for line in page.desk.trades("RETAIL") if not line.is_live]
    assert "CANCEL" in canceled
    assert page.texts("#trades-list tr.canceled button") == canceled


def test_after_a_cancel_a_correction_is_refused_and_the_trade_is_taken_for_another_reference(page):
    sold(page, "GONE")
    page.fill("ticket", number="2")
    page.press("ticket-cancel", sure="#sure-yes")
    told, stays = page.refused("ticket", "ticket-correct", "#sure-yes", number="3")
    assert missing(page.lines_of("REFUSED 11 Canceled"), told) == [] and stays
    page.click("#sheet-take")
    assert page.ticket("number", "value", "fee") == ("", "104.2505", "0.375")
    assert page.proposed()
