"""What the page tells of each refusal of a ticket, and of fields that have not their form."""
from __future__ import annotations

from dataclasses import replace
from datetime import date

import pytest

from muni import Basis, Side, Trade
from support.page import TICKET, missing

pytestmark = pytest.mark.xdist_group("page_refusals")

RIVERTON = {"cusip": "123456AA3", "par": "25000", "settle": "2024-04-01", "basis": "yield", "value": "4"}
QUOTES = {
    "an issue that is not kept": ("REFUSED 1 UnknownIssue", {"cusip": "000000000"}),
    "a settlement at maturity": ("REFUSED 5 SettleOutside", {"settle": "2025-01-01"}),
    "a yield above its range": ("REFUSED 6 GivenOutOfRange above", {"settle": "2021-04-01", "value": "101"}),
    "a price of 0": ("REFUSED 6 GivenOutOfRange below", {"basis": "price", "value": "0"}),
    "a price below zero": ("REFUSED 6 GivenOutOfRange price below zero",
                           {"cusip": "990000036", "settle": "2025-01-01", "value": "999.999"}),
    "a price at which too little is earned": ("REFUSED 7 YieldBelow 2025-01-01", {"basis": "price", "value": "900"}),
    "a slipped point": ("REFUSED 8 YieldAbove", {"basis": "price", "value": "1.0025"}),
    "a day before maturity": ("REFUSED 9 NoTime 2025-01-01",
                              {"settle": "2024-12-31", "basis": "price", "value": "99"}),
    "a tie": ("REFUSED 10 Undecided 2026-07-01 price 32.768",
              {"cusip": "990000010", "settle": "2024-01-01", "value": "50"}),
    "a rate for a bond": ("REFUSED 15 WrongBasis", {"basis": "rate"}),
}
MORE = {
    "a yield above its range": ["It lies above its range.", "from -5 to 100 percent with more than six months"],
    "a tie": ["Up to the redemption of 2026-07-01 the boundary is the price 32.768."],
}
WRONG = {"cusip": ["990034AA"], "par": ["25000.50", "0", "25,00", "1000000001"], "settle": ["2024-02-30", "04/03/2024"],
         "value": ["1,04", "104.1234567", ".5", "1000"], "fee": ["10.001", "-1"], "reference": ["W 6"]}


@pytest.mark.parametrize("name", QUOTES)
def test_a_quote_is_refused_in_words_and_what_was_typed_stays(page, name):
    line, change = QUOTES[name]
    told, stays = page.refused("ticket", "ticket-quote", **RIVERTON | change)
    assert missing(page.lines_of(line) + MORE.get(name, []), told) == []
    assert stays, "what was typed"


def test_the_way_from_an_unknown_issue_to_a_new_one_keeps_what_was_typed_there(page):
    page.fill("issue", cusip="990000051")
    page.refused("ticket", "ticket-quote", **RIVERTON | {"cusip": "000000000"})
    page.click("#ticket-told button")
    assert (page.typed()["issue-cusip"], page.focus()) == ("990000051", "issue-cusip")


def test_a_cancel_of_no_trade_is_refused(page):
    change = {"reference": "w0001", "number": "2"}
    told, stays = page.refused("ticket", "ticket-cancel", **RIVERTON | change)
    assert missing(page.lines_of("REFUSED 2 UnknownTrade"), told) == [] and stays


def test_a_commission_beside_a_yield_is_refused(page):
    change = {"reference": "W0005", "fee": "0.125"}
    told, stays = page.refused("ticket", "ticket-enter", "#sure-yes", **RIVERTON | change)
    assert missing(page.lines_of("REFUSED 15 WrongBasis"), told) == [] and stays


def test_a_page_with_a_refusal_can_be_read(page):
    page.refused("ticket", "ticket-quote", **RIVERTON | QUOTES["a tie"][1])
    assert page.faults("refused") == []


def test_a_version_past_the_99th_is_refused_and_its_cancel_is_taken(page):
    trade = Trade("RETAIL", "FULL", "123456AA3", Side.BUY, 1_000, date(2024, 4, 1), Basis.YIELD, 4)
    page.desk.enter(trade)
    for number in range(2, 100):
        page.desk.correct(replace(trade, par=1_000 + number), number)
    change = {"reference": "FULL", "number": "100"}
    told, stays = page.refused("ticket", "ticket-correct", "#sure-yes", **RIVERTON | change)
    assert missing(page.lines_of("REFUSED 13 VersionsFull"), told) == [] and stays
    assert "CANCELED CONFIRMATION 100 of FULL is kept" in page.press("ticket-cancel", sure="#sure-yes")


@pytest.mark.parametrize(("name", "value"), [(name, value) for name, values in WRONG.items() for value in values])
def test_a_field_that_has_not_its_form_is_marked_keeps_its_text_and_is_not_sent(page, name, value):
    page.fill("ticket", **TICKET | {"reference": "W0006", name: value})
    sent = len(page.relay.sent("POST"))
    page.click("#ticket-enter")
    field = f"ticket-{name}"
    assert (page.ids("#ticket [aria-invalid]"), page.focus(), page.typed()[field]) == ([field], field, value)
    page.settle()
    assert len(page.relay.sent("POST")) == sent
