"""References that the page proposes: the day, a letter and four digits, after the last one of the desk and the day."""
from __future__ import annotations

import pytest
from selenium.webdriver.common.keys import Keys

from support.page import TICKET

pytestmark = pytest.mark.xdist_group("page_references")

TODAY = "return new Date().toLocaleDateString('sv').replaceAll('-', '')"
ORDER = """
const { justBefore } = await import("/page/references.js");
return arguments[0].map(justBefore);
"""


@pytest.fixture
def day(page) -> str:
    return page.js(TODAY)


def number_of(reference: str) -> int:
    return int(reference[-4:])


def entered(page) -> str:
    """Enters a trade under the reference that is proposed."""
    reference = page.proposed()
    page.fill("ticket", **TICKET)
    assert f"CONFIRMATION 1 of {reference} is kept" in page.press("ticket-enter", sure="#sure-yes")
    return reference


def test_the_first_reference_of_a_day_is_proposed_and_then_the_next_one(page, day):
    assert page.proposed() == f"{day}A0001"
    assert entered(page) == f"{day}A0001"
    assert page.ticket("reference", "number") == (f"{day}A0001", "2"), "it stays to be corrected"
    page.click("#ticket-told button")
    assert page.until("return document.getElementById('ticket-reference').value.endsWith('A0002')")
    assert page.ticket("number") == ("",)
    assert page.focus() == "ticket-reference"


def test_it_comes_after_what_others_entered_meanwhile(page, day):
    first = entered(page)
    page.enter(f"{day}A0049")
    page.click("#ticket-clear")
    assert page.until("return document.getElementById('ticket-reference').value.endsWith('A0050')")
    assert number_of(first) < 49


def test_it_is_typed_over(page):
    page.proposed()
    page.js("document.getElementById('ticket-side').focus()")
    page.browser.press(Keys.TAB, holding=Keys.SHIFT)
    page.browser.press(*"OTHER1")
    assert page.ticket("reference") == ("OTHER1",)
    page.click("#ticket-curve")
    assert page.ticket("reference") == ("OTHER1",), "and stays"


def test_what_was_typed_is_not_replaced(page):
    with page.relay.holding("GET /lists/RETAIL/2"):
        page.open("rita")
        page.fill("ticket", reference="TYPED")
    page.settle()
    assert page.ticket("reference") == ("TYPED",)


def test_it_is_found_on_a_day_of_many_pages(page, day):
    for place in range(0, 180):
        page.enter(f"{day}B{place + 1:04}")
    page.enter(f"{day}C0007")
    page.enter("Z0001")
    page.open("rita")
    asked = len([line for line, _ in page.relay.seen if line.startswith(f"GET /lists/RETAIL/{day}")])
    assert page.until("return document.getElementById('ticket-reference').value.endsWith('C0008')")
    assert asked <= 20


def test_a_reference_that_another_has_taken_is_a_conflict_and_the_next_one_is_a_press_away(page, day):
    taken = page.proposed()
    page.enter(taken, par=70_000)
    page.fill("ticket", **TICKET)
    assert "REFUSED 3 Conflict version 1" in page.press("ticket-enter", sure="#sure-yes")
    page.click("#ticket-told button:last-child")
    assert page.until("return document.getElementById('ticket-reference').value > arguments[0]", taken)


def test_the_reference_before_another_is_the_last_one_that_comes_before_it(page):
    assert page.browser.js_later(ORDER, ["T1", "A", "a", "B0", "0", "X0100"]) == [
        "T0" + "z" * 18, "9" + "z" * 19, "Z" + "z" * 19, "B", "", "X010"]
