"""The redemptions that may come, which a quote of the client asks for, of answers that stand in the place of a desk."""
from __future__ import annotations

from datetime import date
from decimal import Decimal

import pytest

import muni
from muni import Candidate, Label
from support.told import FIGURES, quoted

LINES = {
    "EACH 2034-01-01 100.000000 PAR OPTION YIELD 3.000":
        Candidate(date(2034, 1, 1), Decimal(100), Label.PAR_OPTION, Decimal("3.000")),
    "EACH 2034-01-01 102.500000 CALL YIELD -3.380":
        Candidate(date(2034, 1, 1), Decimal("102.5"), Label.CALL, Decimal("-3.380")),
    "EACH 2026-07-01 101.000000 CALLED PRICE 105.710":
        Candidate(date(2026, 7, 1), Decimal(101), Label.CALLED, Decimal("105.710")),
    "EACH 2031-07-01 100.000000 PAR OPTION UNDECIDED yield 4.0005":
        Candidate(date(2031, 7, 1), Decimal(100), Label.PAR_OPTION, None, "UNDECIDED yield 4.0005"),
    "EACH 2031-07-01 100.000000 PAR OPTION UNDECIDED price 99.125":
        Candidate(date(2031, 7, 1), Decimal(100), Label.PAR_OPTION, None, "UNDECIDED price 99.125"),
    "EACH 2044-01-01 100.000000 MATURITY BELOW":
        Candidate(date(2044, 1, 1), Decimal(100), Label.MATURITY, None, "BELOW"),
    "EACH 2044-01-01 100.000000 MATURITY ABOVE":
        Candidate(date(2044, 1, 1), Decimal(100), Label.MATURITY, None, "ABOVE"),
    "EACH 2044-01-01 100.000000 MATURITY NO TIME":
        Candidate(date(2044, 1, 1), Decimal(100), Label.MATURITY, None, "NO TIME"),
}


@pytest.mark.parametrize(("line", "candidate"), LINES.items(), ids=LINES)
def test_a_line_is_read(line: str, candidate: Candidate) -> None:
    assert muni.read_figures(f"{FIGURES}{line}\n").candidates == (candidate,)


def test_a_line_that_is_none_is_told_and_not_passed_over() -> None:
    with pytest.raises(ValueError):
        muni.read_figures(FIGURES + "EACH 2034-01-01 100.000000 PAR OPTION\n")


def test_a_quote_that_asks_for_each_has_all_in_their_order_beside_its_figures() -> None:
    figures, sent = quoted(FIGURES + "".join(f"{line}\n" for line in LINES), each=True)
    assert sent["each"] is True
    assert figures.candidates == tuple(LINES.values())
    assert (figures.total, figures.redemption.day) == (Decimal("108584.00"), date(2034, 1, 1))


def test_a_quote_that_does_not_ask_for_each_has_none() -> None:
    figures, sent = quoted(FIGURES, each=False)
    assert "each" not in sent and figures.candidates == ()
