"""How the price moves with the yield, of answers that the relay gives in the place of the desk."""
from __future__ import annotations

import json

import pytest

from support.page import FIGURES, quoted

pytestmark = pytest.mark.xdist_group("page_risk")

EACH = """EACH 2034-01-01 100.000000 PAR OPTION YIELD 3.000
EACH 2044-01-01 100.000000 MATURITY YIELD 3.405
"""
MOVES = """DURATION 8.295
CONVEXITY 80.680
DV01 0.090074
"""
ROWS = "#figures-risk tr"
OF_MOVES = [
    ["Duration", "modified, in years", "8.295"],
    ["Convexity", "in years squared", "80.680"],
    ["DV01", "dollars per 100 of par for 0.01 %", "0.090074"]]


def test_a_quote_asks_how_the_price_moves(page):
    quoted(page, FIGURES + EACH + MOVES)
    assert json.loads(page.relay.sent("POST /quotes")[-1])["risk"] is True


def test_the_four_numbers_stand_under_the_quote(page):
    quoted(page, FIGURES + EACH + "CURRENT YIELD 3.684\n" + MOVES)
    assert page.rows(ROWS) == [["Current yield", "on the price", "3.684 %"], *OF_MOVES]
    assert page.faults("risk") == []
    assert page.faults_when_narrow("risk") == []


def test_what_pays_no_interest_every_half_year_has_no_current_yield(page):
    quoted(page, FIGURES + EACH + MOVES)
    assert page.rows(ROWS) == OF_MOVES


def test_a_discounted_note_has_none_of_them(page):
    quoted(page, FIGURES + EACH)
    assert page.texts("#figures-risk *") == []


def test_none_stay_beside_another_ticket(page):
    quoted(page, FIGURES + EACH + MOVES)
    page.fill("ticket", par="26000")
    assert page.texts("#figures-risk *") == []
