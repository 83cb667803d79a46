"""The page by keys alone: a whole trade is quoted, entered, opened from the list, corrected and canceled."""
from __future__ import annotations

from decimal import Decimal

import pytest
from selenium.webdriver.common.keys import Keys

import muni
from support import looks

pytestmark = pytest.mark.xdist_group("page_keys")

PANELS = {"g": "figures", "c": "curve", "s": "sheet", "l": "list", "p": "tab-positions", "k": "tab-check",
          "i": "issue", "t": "ticket"}
HAS_FOCUS = "return document.getElementById(arguments[0]).contains(document.activeElement)"
STOPS = ["ticket-par", "ticket-settle", "ticket-basis", "ticket-value", "ticket-quote", "ticket-curve",
         "ticket-reference", "ticket-side", "ticket-fee", "ticket-number", "ticket-issue", "ticket-enter"]
LISTED = """
return [...document.querySelectorAll("#trades-list th button")].some(each => each.innerText === arguments[0]);
"""


class Hand:
    """Who uses the page by keys. `stops` has each stop of Tab, and whether its focus is seen."""

    def __init__(self, page) -> None:
        self.page, self.press = page, page.browser.press
        self.stops: list[list] = []
        page.js("document.activeElement.blur()")

    def tab(self, count: int = 1) -> None:
        for _ in range(count):
            self.press(Keys.TAB)
            self.stops.append(self.page.js(looks.FOCUS))

    def go(self, key: str) -> None:
        self.press(key, holding=Keys.ALT)

    def quote(self) -> None:
        """Fills the ticket and quotes it."""
        self.go("t")
        self.press(*"990034AA8")
        self.tab()
        self.press(*"25000")
        self.tab()
        self.press(*"2024-04-03")
        self.tab(2)
        self.press(*"104.25", Keys.ENTER)
        self.page.shows("ticket-told", "Quoted")

    def enter(self, reference: str) -> str:
        """Quotes a purchase, enters it as a sale after the question, and gives what is told."""
        self.quote()
        self.tab(3)
        self.press(*reference)
        self.tab()
        self.press("s")
        self.tab()
        self.press(*"0.375")
        self.tab(3)
        self.press(Keys.ENTER)
        self.answer()
        return self.page.shows("ticket-told", "kept")

    def answer(self) -> None:
        """Answers the question, which begins at No, with its other button."""
        self.page.asks()
        self.press(Keys.TAB, Keys.ENTER)
        self.page.asks(False)

    def open(self, reference: str) -> None:
        """Opens a trade by the list."""
        self.page.until(LISTED, reference)
        self.go("l")
        self.press(Keys.HOME, *[Keys.DOWN] * self.page.listed().index(reference), Keys.ENTER)
        self.page.until("return document.querySelector('#trades-list [aria-current]')")
        self.page.shows("sheet-paper", reference)

    def take(self) -> None:
        """Takes the sheet that is shown into the ticket."""
        self.go("s")
        self.press(Keys.TAB, Keys.TAB, Keys.ENTER)


@pytest.fixture
def hand(page) -> Hand:
    return Hand(page)


@pytest.mark.parametrize(("key", "panel"), PANELS.items())
def test_alt_and_a_letter_lead_to_a_panel_and_the_focus_is_seen(page, hand, key, panel):
    hand.go(key)
    assert page.js(HAS_FOCUS, panel)
    assert page.js(looks.FOCUS)[1]


def test_a_ticket_is_quoted(page, hand):
    hand.quote()
    assert page.figures().get("Price per 100") == "104.250"


def test_a_trade_is_entered_and_each_stop_of_tab_is_seen(page, hand):
    assert "CONFIRMATION 1 of KEYS1 is kept" in hand.enter("KEYS1")
    assert [stop for stop, _ in hand.stops] == STOPS
    assert [stop for stop, is_seen in hand.stops if not is_seen] == []
    kept = next(line for line in page.desk.trades("RETAIL") if line.reference == "KEYS1")
    assert (kept.par, kept.yield_) == (25_000, Decimal("3.703"))


def test_a_trade_is_opened_by_the_list_and_taken_in_full(page, hand):
    hand.enter("KEYS2")
    hand.open("KEYS2")
    assert page.texts("#trades-list [aria-current] button") == ["KEYS2"]
    hand.take()
    assert page.ticket("value", "number") == ("104.25", "2")


def test_a_trade_is_corrected_and_canceled(page, hand):
    hand.enter("KEYS3")
    hand.open("KEYS3")
    hand.take()
    hand.go("t")
    hand.press(Keys.TAB)
    hand.press(*"30000")
    for _ in range(20):
        if page.focus() == "ticket-correct":
            break
        hand.press(Keys.TAB)
    hand.press(Keys.ENTER)
    hand.answer()
    assert page.shows("ticket-told", "CORRECTED CONFIRMATION 2 of KEYS3 is kept")
    assert (page.kept("KEYS3").number, page.kept("KEYS3").par) == (2, 30_000)
    hand.press(Keys.TAB, Keys.ENTER)
    page.asks()
    assert page.js(looks.FOCUS)[0] == "No", "the question begins at No"
    hand.press(Keys.TAB, Keys.ENTER)
    assert page.shows("ticket-told", "CANCELED CONFIRMATION 3 of KEYS3 is kept")
    assert page.kept("KEYS3").act is muni.Act.CANCELED
    hand.press(Keys.TAB, holding=Keys.SHIFT)
    assert page.focus() == "ticket-correct"
