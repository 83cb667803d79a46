"""The table of the redemptions that may come, of answers that the relay gives in the place of the desk."""
from __future__ import annotations

import json

import pytest

from support.page import FIGURES, quoted

pytestmark = pytest.mark.xdist_group("page_each")

BY_PRICE = FIGURES + """EACH 2033-01-01 102.500000 CALL UNDECIDED yield 4.0005
EACH 2034-01-01 100.000000 PAR OPTION YIELD 3.000
EACH 2034-07-01 100.000000 PAR OPTION ABOVE
EACH 2044-01-01 100.000000 MATURITY YIELD 3.405
"""
BY_YIELD = """PRICE 105.710 COMPUTED
YIELD 3.000 GIVEN
REDEMPTION 2026-07-01 101.000000 CALLED
ACCRUED DAYS 0
PRINCIPAL 26427.50
ACCRUED 0.00
TOTAL 26427.50
EACH 2026-07-01 101.000000 CALLED PRICE 105.710
"""
HEAD = "#figures-each thead tr"
ROWS = "#figures-each tbody tr"


def test_a_quote_asks_for_each_redemption_that_may_come(page):
    quoted(page, BY_PRICE)
    assert json.loads(page.relay.sent("POST /quotes")[-1])["each"] is True


def test_each_redemption_has_its_yield_or_the_reason_why_it_has_none_and_a_word_tells_which_decides(page):
    quoted(page, BY_PRICE)
    assert page.rows(HEAD) == [["Day", "At", "Redemption", "Yield", "Lowest"]]
    assert page.rows(ROWS) == [
        ["2033-01-01", "102.5", "call", "undecided at the yield 4.0005", ""],
        ["2034-01-01", "100", "par option", "3.000", "decides"],
        ["2034-07-01", "100", "par option", "above all that are printed", ""],
        ["2044-01-01", "100", "maturity", "3.405", ""]]


def test_at_a_yield_each_redemption_has_its_price(page):
    quoted(page, BY_YIELD)
    assert page.rows(HEAD)[0][3] == "Price"
    assert page.rows(ROWS) == [["2026-07-01", "101", "called", "105.710", "decides"]]
    assert ["Redemption", "at 101.000000, called", "2026-07-01"] in page.rows("#figures-lines tr")


def test_no_table_stays_beside_another_ticket(page):
    quoted(page, BY_PRICE)
    page.fill("ticket", par="26000")
    assert page.texts("#figures-each *") == []


def test_a_page_with_the_table_can_be_read(page):
    lines = BY_PRICE.splitlines(keepends=True)
    many = [f"EACH {2034 + place // 2}-0{1 + place % 2 * 6}-01 100.000000 PAR OPTION YIELD 3.{place:03}\n"
            for place in range(99)]
    quoted(page, "".join(lines[:8] + many))
    assert len(page.rows(ROWS)) == 100
    assert page.faults("each") == []
    assert page.faults_when_narrow("each") == []
