"""Quotes and the curve of prices on the page, against what the desk itself answers."""
from __future__ import annotations

import re
from datetime import date
from decimal import Decimal

import pytest

from muni import Basis
from support.page import APRIL, TICKET, missing, rows_shown

pytestmark = pytest.mark.xdist_group("page_quotes")

COLOURS = "return [...document.querySelectorAll('#curve-plot g.redemption')].map(each => getComputedStyle(each).color)"
OTHER = {"par": "30000", "cusip": "123456AA3", "settle": "2024-04-04", "value": "104.26", "basis": "yield",
         "side": "sell", "fee": "0.375"}


def test_a_quote_shows_the_figures_of_the_desk(page):
    page.fill("ticket", **TICKET | {"cusip": "990034aa8", "par": "25,000", "settle": "20240403"})
    assert missing(["Quoted", "Nothing is kept."], page.press("ticket-quote")) == []
    figures = page.desk.quote("990034AA8", 25_000, APRIL, Basis.PRICE, Decimal("104.25"))
    assert page.figures() == rows_shown(figures)
    assert "25,000 of 990034AA8, settlement 2024-04-03, at a price of 104.25" in page.text("figures-lines")


@pytest.mark.parametrize(("name", "other"), OTHER.items(), ids=OTHER)
def test_no_figures_and_no_curve_stay_beside_another_ticket(page, name, other):
    page.fill("ticket", **TICKET)
    page.press("ticket-curve")
    assert page.figures() != {} and page.curve() != []
    page.fill("ticket", **{name: other})
    assert (page.figures(), page.curve()) == ({}, [])


def test_a_quote_with_a_commission_says_what_it_leaves_out(page):
    page.fill("ticket", **TICKET | {"side": "sell", "fee": "0.375"})
    page.press("ticket-quote")
    assert missing(["The desk's quote takes no commission: these figures are without it.",
                    "With 0.375 per 100 the party that sells gets 103.875, at a yield of 3.703 to 2035-08-01."],
                   page.text("figures-lines")) == []


def test_a_quote_with_a_commission_beside_a_yield_says_that_it_goes_with_a_price(page):
    page.fill("ticket", **TICKET | {"basis": "yield", "value": "4", "side": "sell", "fee": "0.375"})
    page.press("ticket-quote")
    assert "A commission goes with a price alone" in page.text("figures-lines")


def test_a_late_answer_is_not_shown_beside_another_ticket(page):
    page.fill("ticket", **TICKET)
    with page.relay.holding("POST /quotes"):
        page.click("#ticket-quote")
        page.fill("ticket", par="26000")
    page.settle()
    assert page.figures() == {}


@pytest.fixture
def curve(page):
    """The page with a curve of a bond that is callable, whose points end at several redemptions."""
    page.fill("ticket", **TICKET | {"basis": "yield", "value": "3.65"})
    assert "Quoted, with its curve" in page.press("ticket-curve")
    return page


def redemptions(page) -> list[str]:
    return sorted({redemption for redemption, _, _ in page.curve()})


def test_the_points_of_a_curve_are_the_quotes_of_the_desk(curve):
    points = curve.curve()
    assert len(points) >= 41 and len(redemptions(curve)) >= 2
    for redemption, x, y in points[::6]:
        figures = curve.desk.quote("990034AA8", 25_000, APRIL, Basis.YIELD, Decimal(x))
        assert (str(figures.price), str(figures.redemption.day)) == (y, redemption[:10]), f"at {x}"


@pytest.mark.parametrize("scheme", ["dark", "light"])
def test_each_redemption_of_a_curve_has_a_colour_of_its_own(curve, scheme):
    curve.browser.scheme(scheme)
    colours = curve.js(COLOURS)
    assert len(colours) == len(set(colours)) == len(redemptions(curve))


def test_the_legend_has_each_redemption_and_each_yield_has_one(curve):
    legend = curve.rows("#curve-legend tbody tr")
    assert sorted(row[0][:10] for row in legend) == [redemption[:10] for redemption in redemptions(curve)]
    ends = sorted([float(each) for each in row[1].split(" to ")] for row in legend)
    gaps = [high[0] - low[1] for low, high in zip(ends, ends[1:])]
    assert gaps and all(0 < gap < 0.0015 for gap in gaps)
    assert "A redemption that decides at none of these yields has no line here." in curve.text("curve-legend")


def test_the_axes_of_a_curve_have_names_and_numbers(curve):
    texts = curve.texts("#curve-plot text")
    assert {"Price, dollars per 100", "Yield, percent"} <= set(texts)
    assert len([each for each in texts if re.fullmatch(r"[\d.]+", each)]) >= 8


def test_a_page_with_a_curve_can_be_read(curve):
    assert curve.faults("curve") == []
    assert curve.faults_when_narrow("curve") == []


def test_a_curve_of_a_note_at_a_discount(page):
    page.fill("ticket", **TICKET | {"cusip": "990000028", "settle": "2024-01-02", "basis": "rate", "value": "3"})
    page.press("ticket-curve")
    points = page.curve()
    assert len(points) > 20
    for _, x, y in points[::9]:
        figures = page.desk.quote("990000028", 25_000, date(2024, 1, 2), Basis.PRICE, Decimal(y))
        assert str(figures.yield_) == x, f"at {y}"
