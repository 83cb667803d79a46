"""The sheet of a confirmation on paper."""
from __future__ import annotations

import re
from datetime import date
from decimal import Decimal

import pytest

from muni import Basis, Side
from support.page import Page, sheet_shown

pytestmark = pytest.mark.xdist_group("page_print")

PARTS = ["ticket", "figures", "curve", "trades", "issue", "sheet-title", "sheet-acts", "house", "sheet-paper"]
VISIBLE = "return arguments[0].filter(each => document.getElementById(each).getClientRects().length)"
INK = """
const style = selector => getComputedStyle(document.querySelector(selector));
return [style("#sheet-paper td").color, style("body").backgroundColor];
"""


@pytest.fixture
def page(page: Page) -> Page:
    """The page with the longest sheet that there is."""
    page.enter("PRINT", Side.SELL, 1_000_000_000, Basis.PRICE, Decimal("100.1255"), cusip="990081AB7",
               settle=date(2024, 4, 1), fee=Decimal("0.125"))
    page.find("PRINT")
    return page


def test_the_longest_sheet_is_that_of_the_desk(page):
    assert page.sheet() == sheet_shown(page.kept("PRINT"))


def test_it_prints_on_one_page(page):
    printed = page.browser.printed()
    if page.shots:
        (page.shots / "sheet.pdf").write_bytes(printed)
    assert len(re.findall(rb"/Type\s*/Page\b(?!s)", printed)) == 1


@pytest.mark.parametrize("scheme", ["dark", "light"])
def test_it_prints_the_sheet_alone_in_black_on_white(page, scheme):
    page.browser.scheme(scheme, "print")
    page.shot(f"print-{scheme}")
    assert page.js(VISIBLE, PARTS) == ["sheet-paper"]
    assert page.js(INK) == ["rgb(0, 0, 0)", "rgb(255, 255, 255)"]


def test_its_button_prints(page):
    page.js("window.print = () => { window.printed = true; }")
    page.click("#sheet-print")
    assert page.js("return window.printed")
