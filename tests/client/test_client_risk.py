"""How the price moves with the yield, which a quote of the client asks for, of answers that stand in the place of a desk."""
from __future__ import annotations

from decimal import Decimal

import pytest

import muni
from muni import Risk
from support.told import FIGURES, quoted

EACH = """EACH 2034-01-01 100.000000 PAR OPTION YIELD 3.000
EACH 2044-01-01 100.000000 MATURITY YIELD 3.405
"""
MOVES = """DURATION 8.295
CONVEXITY 80.680
DV01 0.090074
"""
OF_MOVES = (Decimal("8.295"), Decimal("80.680"), Decimal("0.090074"))


def test_a_quote_has_them_beside_its_figures_and_redemptions() -> None:
    figures, sent = quoted(FIGURES + EACH + "CURRENT YIELD 3.684\n" + MOVES, each=True, risk=True)
    assert (sent["each"], sent["risk"]) == (True, True)
    assert figures.risk == Risk(Decimal("3.684"), *OF_MOVES)
    assert (figures.yield_, len(figures.candidates)) == (Decimal("3.000"), 2)


def test_what_pays_no_interest_every_half_year_has_no_current_yield() -> None:
    figures, _ = quoted(FIGURES + MOVES, risk=True)
    assert figures.risk == Risk(None, *OF_MOVES)


def test_a_discounted_note_has_none() -> None:
    figures, _ = quoted(FIGURES, risk=True)
    assert figures.risk is None


def test_a_quote_that_does_not_ask_has_none() -> None:
    figures, sent = quoted(FIGURES)
    assert "risk" not in sent and "each" not in sent and figures.risk is None


def test_lines_that_are_not_whole_are_told_and_not_passed_over() -> None:
    with pytest.raises(ValueError):
        muni.read_figures(FIGURES + "DURATION 8.295\n")
