"""What is entered, corrected or canceled on the page is in sight: its row is in the list, and marked."""
from __future__ import annotations

import pytest

from support.page import TICKET, Page
from support.relay import plain

pytestmark = pytest.mark.xdist_group("page_sight")


@pytest.fixture(scope="module")
def first(first: Page) -> Page:
    """The page over a desk that has 60 trades."""
    for number in range(60):
        first.enter(f"X{number:04}")
    return first


@pytest.fixture
def page(page: Page) -> Page:
    """The page with the first trades in its list."""
    page.lists("X0000")
    return page


def references(page: Page) -> list[str]:
    return [line.reference for line in page.desk.trades("RETAIL")]


@pytest.mark.parametrize(("reference", "is_known"), [("X0002A", True), ("X0099", True), ("X0099A", False)],
                         ids=["on the page at hand", "on the last page", "over a desk that knows no last page"])
def test_a_trade_that_is_entered_is_in_sight(page, reference, is_known):
    page.fill("ticket", **TICKET | {"reference": reference})
    if not is_known:
        page.relay.rules = [("GET /latest", plain(404, "Not Found"))]
    assert f"CONFIRMATION 1 of {reference} is kept" in page.press("ticket-enter", sure="#sure-yes")
    assert page.marked() == [reference]
    assert reference in page.listed()


def test_a_trade_that_is_corrected_or_canceled_is_in_sight(page):
    page.click("#trades-last")
    page.lists(references(page)[-50])
    page.fill("ticket", **TICKET | {"reference": "X0001"})
    page.press("ticket-correct", sure="#sure-yes")
    assert page.marked() == ["X0001"]
    assert page.listed() == references(page)[1:51]
    page.press("ticket-cancel", sure="#sure-yes")
    assert page.until("return document.querySelector('#trades-list [aria-current].canceled')")
    assert page.marked() == ["X0001"]


def test_the_trade_that_is_shown_stays_marked_when_the_list_is_read_again(page):
    page.click("#trades-list tbody tr:nth-child(3) td")
    assert page.marked() == ["X0002"]
    page.click("#trades-again")
    page.settle()
    assert page.marked() == ["X0002"]
