"""The list of trades by their days, and the way back through it from its end."""
from __future__ import annotations

import pytest

from support.page import Page

pytestmark = pytest.mark.xdist_group("page_days")

DAYS = {"20240402": 130, "20240403": 60}
REFERENCES = [f"{day}A{number:04}" for day, count in DAYS.items() for number in range(1, count + 1)]


@pytest.fixture(scope="module")
def first(first: Page) -> Page:
    """The page over a desk with two days of trades."""
    for reference in REFERENCES:
        first.enter(reference)
    return first


@pytest.fixture
def page(page: Page) -> Page:
    page.lists(REFERENCES[0])
    return page


def references(page: Page) -> list[str]:
    return [line.reference for line in page.desk.trades("RETAIL")]


def of_day(page: Page, typed: str, begins: str) -> list[str]:
    page.browser.write("#find-reference", typed)
    page.click("#trades-day")
    return page.lists(begins)


def test_the_page_before_the_last_one_ends_before_it_and_so_on_to_the_first(page):
    kept = references(page)
    page.click("#trades-last")
    assert page.lists(kept[-50]) == kept[-50:]
    for end in (-50, -100):
        page.click("#trades-back")
        assert page.lists(kept[end - 50]) == kept[end - 50:end]
        assert not page.is_off("trades-next")
    page.click("#trades-back")
    assert page.lists(REFERENCES[0]) == REFERENCES[:50]
    assert page.is_off("trades-back")


def test_after_the_page_before_comes_the_one_that_was_left(page):
    kept = references(page)
    page.click("#trades-last")
    page.lists(kept[-50])
    page.click("#trades-back")
    page.lists(kept[-100])
    page.click("#trades-next")
    assert page.lists(kept[-50]) == kept[-50:]


@pytest.mark.parametrize("typed", ["2024-04-03", "20240403", "20240403A0017"])
def test_a_day_is_listed_by_itself(page, typed):
    ours = [each for each in REFERENCES if each.startswith("20240403")]
    assert of_day(page, typed, ours[0]) == ours[:50]
    assert "Page 1 of 20240403: 50 trades" in page.text("trades-place")
    assert page.is_off("trades-back")
    page.click("#trades-next")
    assert page.lists(ours[50]) == ours[50:]
    assert page.is_off("trades-next")
    page.click("#trades-back")
    assert page.lists(ours[0]) == ours[:50]


def test_a_day_ends_before_the_next_one(page):
    ours = [each for each in REFERENCES if each.startswith("20240402")]
    of_day(page, "2024-04-02", ours[0])
    for begin in (50, 100):
        page.click("#trades-next")
        assert page.lists(ours[begin]) == ours[begin:begin + 50]
    assert "No more follow." in page.text("trades-place") and page.is_off("trades-next")


def test_without_a_day_it_is_today(page):
    page.click("#trades-day")
    assert page.shows("trades-place", "Desk RETAIL has no trades whose references begin with 20")


def test_what_is_no_day_is_told_at_the_field(page):
    page.browser.write("#find-reference", "X0001")
    page.click("#trades-day")
    assert "Missing: a day as 2024-04-03" in page.text("find-reference-wrong")
