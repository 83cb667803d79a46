"""The versions of a trade on the page, each by its number."""
from __future__ import annotations

from dataclasses import replace

import pytest

from muni import Act, Basis, Side, Trade
from support.page import APRIL, Page, missing, sheet_shown
from support.relay import plain

pytestmark = pytest.mark.xdist_group("page_versions")

SALE = Trade("RETAIL", "V0001", "990034AA8", Side.SELL, 25_000, APRIL, Basis.YIELD, 4)
OFFERED = "return [...document.getElementById('sheet-version').options].map(each => each.value)"
HIDDEN = "return !document.getElementById('sheet-versions').checkVisibility()"


@pytest.fixture(scope="module")
def first(first: Page) -> Page:
    """The page over a desk with a trade of three versions, one that is canceled, and one of one."""
    first.desk.enter(SALE)
    for number in (2, 3):
        first.desk.correct(replace(SALE, par=25_000 + number), number)
    first.enter("V0002")
    first.desk.cancel("RETAIL", "V0002", 2)
    first.enter("V0003")
    return first


def version(page: Page, number: int) -> None:
    page.browser.choose("#sheet-version", str(number))


def test_a_trade_of_one_version_has_no_choice(page):
    page.find("V0003")
    assert page.js(HIDDEN)


@pytest.mark.parametrize("number", [1, 2])
def test_an_old_version_is_shown_and_says_that_it_is_old(page, number):
    page.find("V0001")
    assert page.js(OFFERED) == ["1", "2", "3"]
    version(page, number)
    assert page.shows("sheet-paper", f"Version {number} of 3: not the present state.")
    assert page.sheet() == sheet_shown(page.desk.version("RETAIL", "V0001", number))
    page.shot(f"version-{number}")


def test_the_last_version_is_shown_again_without_a_request(page):
    page.find("V0001")
    version(page, 1)
    page.shows("sheet-paper", "not the present state")
    asked = len(page.relay.seen)
    version(page, 3)
    assert page.sheet() == sheet_shown(page.kept("V0001"))
    assert "not the present state" not in page.text("sheet-paper")
    assert len(page.relay.seen) == asked


def test_an_old_version_is_taken_for_a_correction_of_the_last_one(page):
    page.find("V0001")
    version(page, 1)
    page.shows("sheet-paper", "not the present state")
    page.click("#sheet-take")
    assert page.ticket("reference", "number", "par", "side") == ("V0001", "4", "25000", "sell")


def test_a_version_before_a_cancel_is_taken_for_another_reference(page):
    page.find("V0002")
    version(page, 1)
    page.shows("sheet-paper", "not the present state")
    page.click("#sheet-take")
    assert page.ticket("number", "par") == ("", "5000")
    assert "The trade is canceled: it takes another reference." in page.text("ticket-told")
    assert page.kept("V0002").act is Act.CANCELED


def test_a_desk_that_does_not_know_old_versions_says_so_and_the_sheet_stays(page):
    page.find("V0001")
    page.relay.rules = [("GET /trades/RETAIL/V0001/1", plain(404, "Not Found"))]
    version(page, 1)
    told = page.shows("sheet-told", "cannot be shown here")
    assert missing(["Version 1 of V0001 cannot be shown here", "of an earlier version than this page"], told) == []
    assert page.sheet() == sheet_shown(page.kept("V0001"))
    assert page.typed()["sheet-version"] == "3"


def test_a_sheet_of_an_old_version_can_be_read(page):
    page.find("V0001")
    version(page, 1)
    page.shows("sheet-paper", "not the present state")
    assert page.faults("version") == []
    assert page.faults_when_narrow("version") == []
