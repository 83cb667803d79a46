"""The positions of a desk, which a tab shows in the place of its trades."""
from __future__ import annotations

import pytest
from selenium.webdriver.common.keys import Keys

from muni import Side
from support.page import TICKET, missing
from support.relay import plain

pytestmark = pytest.mark.xdist_group("page_positions")

IS_SHOWN = "return arguments[0].map(each => document.getElementById(each).checkVisibility())"


def shown(page) -> list[bool]:
    """Whether the trades and the positions are shown."""
    return page.js(IS_SHOWN, ["list", "positions"])


def rows(page) -> list[list[str]]:
    return [[each.cusip, f"{each.trades}", f"{each.bought:,}", f"{each.sold:,}", f"{each.par:,}", f"{each.money:,}"]
            for each in page.desk.positions("RETAIL")]


def test_they_are_those_of_the_desk_and_of_each_act(page):
    assert shown(page) == [True, False]
    page.enter("P0001", Side.SELL, par=1_250_000)
    page.enter("P0002", par=40_000, cusip="123456AA3")
    page.enter("P0003", par=30_000)
    page.click("#tab-positions")
    page.shows("positions-place", "2 securities")
    assert shown(page) == [False, True]
    assert page.rows("#positions-list tbody tr") == rows(page)
    page.fill("ticket", **TICKET | {"reference": "P0004", "cusip": "990081AB7", "settle": "2024-04-01"})
    page.press("ticket-enter", sure="#sure-yes")
    page.shows("positions-place", "3 securities")
    assert page.rows("#positions-list tbody tr") == rows(page)
    page.shot("positions")


def test_they_are_read_again(page):
    page.click("#tab-positions")
    page.shows("positions-place", "securit")
    page.enter("P0005", par=5_000)
    page.click("#positions-again")
    money = rows(page)[-1][-1]
    assert page.until("return document.getElementById('positions-list').innerText.includes(arguments[0])", money)


def test_a_desk_that_does_not_know_them_says_so_and_lists_its_trades(page):
    page.relay.rules = [("GET /positions", plain(404, "Not Found"))]
    page.click("#tab-positions")
    told = page.shows("positions-told", "cannot be shown here")
    assert missing(["Positions cannot be shown here", "of an earlier version than this page"], told) == []
    page.click("#tab-trades")
    assert page.shows("trades-place", "trades") and shown(page) == [True, False]


def test_the_tabs_are_walked_by_keys(page):
    page.browser.press("p", holding=Keys.ALT)
    assert (page.focus(), shown(page)) == ("tab-positions", [False, True])
    page.browser.press(Keys.ARROW_LEFT)
    assert (page.focus(), shown(page)) == ("tab-trades", [True, False])
    assert page.texts("[role=tab][aria-selected=true]") == ["Trades"]
    for name in ("tab-amended", "tab-check"):
        page.browser.press(Keys.ARROW_LEFT)
        assert (page.focus(), shown(page)) == (name, [False, False])
    page.browser.press(*[Keys.ARROW_RIGHT] * 3, Keys.TAB)
    assert page.focus() == "positions-again"
    page.browser.press("l", holding=Keys.ALT)
    assert shown(page) == [True, False]


def test_they_can_be_read(page):
    page.click("#tab-positions")
    page.until("return document.querySelector('#positions-list tbody tr')")
    assert page.faults("positions") == []
    assert page.faults_when_narrow("positions") == []
