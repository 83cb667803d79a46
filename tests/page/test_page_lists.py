"""The list of trades on the page, which has 50 of them at once."""
from __future__ import annotations

from decimal import Decimal

import pytest

import muni
from muni import Basis, Side, Trade
from support.page import APRIL, Page, missing
from support.relay import plain

pytestmark = pytest.mark.xdist_group("page_lists")

COUNT = 60
# Whether each trade of the list has all that is told of it, of which its terms come last.
COMPLETE = "return [...document.querySelectorAll('#trades-list tbody tr')].every(row => row.cells[10].textContent)"


@pytest.fixture(scope="module")
def first(first: Page) -> Page:
    """The page over a desk that has so many trades, one of them canceled."""
    for number in range(COUNT):
        first.enter(f"X{number:04}", (Side.BUY, Side.SELL)[number // 50], value=Decimal(300 + number) / 100)
    first.desk.cancel("RETAIL", "X0003", 2)
    return first


@pytest.fixture
def page(page: Page) -> Page:
    """The page with the first trades in its list."""
    page.lists("X0000")
    return page


def row_of(line: muni.Listed, confirmation: muni.Confirmation) -> list[str]:
    """The row of a trade: what the desk lists of it, and what its confirmation has."""
    return [line.reference, f"{line.number}", "live" if line.is_live else "canceled",
            "sold" if confirmation.side is Side.SELL else "bought", confirmation.cusip, f"{line.par:,}",
            f"{line.price}", f"{line.yield_}", f"{confirmation.settle}", f"{confirmation.figures.total:,}", "1"]


def references(page: Page) -> list[str]:
    return [line.reference for line in page.desk.trades("RETAIL")]


def test_the_first_page_has_50_trades_as_the_desk_lists_them(page):
    lines = list(page.desk.trades("RETAIL"))[:50]
    assert page.listed() == [line.reference for line in lines]
    assert (page.is_off("trades-next"), page.is_off("trades-back")) == (False, True)
    page.until(COMPLETE)
    assert page.rows("#trades-list tbody tr") == [row_of(line, page.kept(line.reference)) for line in lines]


def test_the_second_page_says_that_none_follow_and_leads_back(page):
    page.click("#trades-next")
    assert page.lists("X0050") == references(page)[50:]
    assert (page.is_off("trades-next"), page.is_off("trades-back")) == (True, False)
    place = page.text("trades-place")
    assert f"Page 2: {len(references(page)) - 50} trades" in place and "No more follow." in place
    page.shot("second-page")
    page.click("#trades-back")
    assert page.lists("X0000") == references(page)[:50]


def test_a_full_page_after_which_none_follows_says_so(page):
    before, *rest = references(page)[-51:]
    page.browser.write("#find-reference", before)
    page.click("#trades-from")
    assert page.lists(rest[0]) == rest
    assert "50 trades" in page.text("trades-place") and page.is_off("trades-next")


def test_the_trades_after_a_reference_are_listed_and_a_line_opens_its_sheet(page):
    page.browser.write("#find-reference", "X0054")
    page.click("#trades-from")
    assert page.lists("X0055") == references(page)[55:]
    page.click("#trades-list tbody tr:nth-child(2) td")
    assert "X0056" in page.shows("sheet-paper", "X0056")


def test_a_trade_that_is_not_there_is_told(page):
    page.browser.write("#find-reference", "nothing")
    assert "REFUSED 2 UnknownTrade" in page.press("#find button", "trades-told")


def test_the_first_page_is_one_press_away(page):
    page.click("#trades-next")
    page.lists("X0050")
    page.click("#trades-first")
    assert page.lists("X0000") == references(page)[:50]


def test_the_last_page_is_one_press_away_and_leads_back(page):
    page.click("#trades-last")
    rest = references(page)[-50:]
    assert page.lists(rest[0]) == rest
    assert "Last page: 50 trades" in page.text("trades-place") and "No more follow." in page.text("trades-place")
    assert (page.is_off("trades-next"), page.is_off("trades-last")) == (True, True)
    page.click("#trades-back")
    assert page.lists("X0000") == references(page)[:50]


def test_a_desk_that_knows_no_last_page_says_so_and_the_page_at_hand_stays(page):
    page.relay.rules = [("GET /latest", plain(404, "Not Found"))]
    told = page.press("trades-last", "trades-told")
    assert missing(["The last page cannot be shown here", "of an earlier version than this page"], told) == []
    assert page.listed() == references(page)[:50]


def test_what_was_read_of_a_version_is_not_asked_for_again(page):
    page.until(COMPLETE)
    asked = len(page.relay.sent("GET /trades"))
    page.click("#trades-again")
    page.settle()
    page.until(COMPLETE)
    assert len(page.relay.sent("GET /trades")) == asked


def test_a_row_whose_trade_is_corrected_meanwhile_shows_the_correction(page):
    with page.relay.holding("GET /trades/RETAIL/X0040"):
        page.open("rita")
        page.lists("X0000")
        page.desk.correct(Trade("RETAIL", "X0040", "990034AA8", Side.BUY, 7_000, APRIL, Basis.YIELD, 4), 2)
    page.until(COMPLETE)
    line = next(line for line in page.desk.trades("RETAIL") if line.reference == "X0040")
    assert page.rows("#trades-list tbody tr:nth-child(41)") == [row_of(line, page.kept("X0040"))]


def test_a_sheet_that_is_read_again_says_that_a_correction_has_come(page):
    page.find("X0020")
    page.desk.correct(Trade("RETAIL", "X0020", "990034AA8", Side.BUY, 6_000, APRIL, Basis.YIELD, 4), 2)
    assert "CORRECTED CONFIRMATION 2 has come since." in page.press("sheet-again", "sheet-told")


def test_a_page_with_a_sheet_and_a_full_list_can_be_read(page):
    page.find("X0056")
    assert page.faults("day") == []
    assert page.faults_when_narrow("day") == []
