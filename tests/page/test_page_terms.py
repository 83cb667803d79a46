"""What the page shows is what is booked: by which terms a trade is quoted and stands, and what an amendment touches."""
from __future__ import annotations

import json
from dataclasses import replace
from datetime import date

import pytest

import muni
from muni import Basis, Call, CallKind, Trade
from support.issues import ELM_GROVE
from support.page import APRIL, FIGURES, TICKET, Page, missing, quoted
from support.relay import plain

pytestmark = pytest.mark.xdist_group("page_terms")

# At a yield of 3 percent 110.605 by the first terms and 103.534 by those with an earlier call.
FIRST, SECOND, TOTALS = "110.605", "103.534", ("27,828.85", "26,061.10")
EARLIER = (Call(date(2027, 8, 1), 100, CallKind.ON_OR_AFTER),)
# Each test amends one of its own.
QUOTED, CORRECTED, RENAMED, SHOWN, LISTED, TOUCHED = (
    replace(ELM_GROVE, cusip=cusip)
    for cusip in ("990000101", "990000119", "990000127", "990000135", "990000143", "990000150"))
GIVEN = TICKET | {"basis": "yield", "value": "3"}
MOOD = "return document.getElementById('ticket-told').dataset.mood"
COMPLETE = "return [...document.querySelectorAll('#trades-list tbody tr')].every(row => row.cells[10].textContent)"
FOUND = """
const told = document.getElementById("amended-told");
return told.dataset.mood && told.dataset.mood !== "wait" && !document.querySelector("[aria-busy]") && told.innerText;
"""


@pytest.fixture(scope="module")
def first(first: Page) -> Page:
    for issue in (QUOTED, CORRECTED, RENAMED, SHOWN, LISTED, TOUCHED):
        first.desk.add_issue(issue)
    return first


def amend(page: Page, issue: muni.Issue) -> None:
    page.desk.amend(replace(issue, calls=EARLIER), 2)


def entered(page: Page, reference: str, cusip: str) -> None:
    """Enters a trade by the page, which has been quoted."""
    page.fill("ticket", **GIVEN | {"cusip": cusip, "reference": reference})
    page.press("ticket-quote")
    assert f"{reference} is kept" in page.press("ticket-enter")


def sent(page: Page, path: str) -> str | None:
    """The number of terms that was sent last."""
    return json.loads(page.relay.sent(f"POST {path}")[-1]).get("issue")


def test_a_quote_that_an_amendment_has_overtaken_is_asked_about_with_both_figures(page):
    page.fill("ticket", **GIVEN | {"cusip": QUOTED.cusip, "reference": "STALE1"})
    page.press("ticket-quote")
    assert page.figures()["Price per 100"] == FIRST
    amend(page, QUOTED)
    page.click("#ticket-enter")
    rows = page.asked()
    assert missing([["", "Shown", "Now"], ["Price per 100", FIRST, SECOND], ["Total", *TOTALS]], rows) == []
    assert dict(row[::2] for row in rows)["Redemption"] == "2027-08-01"
    assert "were amended after the quote" in page.text("sure-title")
    page.shot("overtaken")
    page.click("#sure button[value=no]")
    page.asks(False)
    assert page.shows("ticket-told", "Nothing was entered")
    assert (page.figures()["Price per 100"], page.relay.sent("POST /trades")) == (SECOND, [])
    assert "STALE1 is kept" in page.press("ticket-enter"), "these are the figures that are shown"
    assert f"{page.kept('STALE1').figures.price}" == SECOND
    assert sent(page, "/trades") == "2"


def test_a_confirmation_with_other_figures_than_were_shown_is_marked(page):
    quoted(page, FIGURES)
    page.relay.rules.clear()
    page.fill("ticket", reference="OTHER1")
    told = page.press("ticket-enter")
    assert missing(["CONFIRMATION 1 of OTHER1 is kept with other figures than were shown",
                    "Price per 100: 108.584 was shown, and 104.250 is confirmed.", "What to do:"], told) == []
    assert page.js(MOOD) == "bad"
    assert "Price per 100: 108.584 was shown before it was sent, and 104.250 is confirmed." in page.text("sheet-paper")


def test_a_correction_after_an_amendment_shows_the_figures_by_both_terms(page):
    entered(page, "CORR1", CORRECTED.cusip)
    assert page.sheet()["Terms"] == "number 1"
    amend(page, CORRECTED)
    page.click("#ticket-correct")
    rows = page.asked()
    assert missing([["Terms of the issue", "number 1", "number 2"], ["Price per 100", FIRST, SECOND],
                    ["Total", *TOTALS]], rows) == []
    assert "Nothing of it changes" not in page.text("sure-title")
    assert "The issue was amended since." in page.text("sure-lines")
    page.shot("corrected-by-both")
    page.click("#sure-yes")
    assert page.shows("ticket-told", "CORRECTED CONFIRMATION 2 of CORR1 is kept")
    assert (page.sheet()["Terms"], sent(page, "/corrections")) == ("number 2, the last", "2")
    page.browser.choose("#sheet-version", "1")
    page.shows("sheet-paper", "not the present state")
    assert page.sheet()["Terms"] == "number 1 of 2, amended since"


def test_a_correction_whose_terms_alone_change_says_so(page):
    entered(page, "NAME1", RENAMED.cusip)
    page.desk.amend(replace(RENAMED, name="ELM GROVE SCHOOLS"), 2)
    page.click("#ticket-correct")
    assert page.asked() == [["", "Now", "Then"], ["Terms of the issue", "number 1", "number 2"]]
    page.click("#sure button[value=no]")


def test_the_sheet_names_the_terms_of_a_trade_of_another_window(page):
    page.enter("SHOWN1", value=3, cusip=SHOWN.cusip)
    page.find("SHOWN1")
    assert page.sheet()["Terms"] == "number 1"
    amend(page, SHOWN)
    page.enter("SHOWN2", value=3, cusip=SHOWN.cusip)
    page.press("sheet-again", "sheet-told")
    assert page.sheet()["Terms"] == "number 1 of 2, amended since"
    page.shot("terms")
    page.find("SHOWN2")
    assert page.sheet()["Terms"] == "number 2, the last"
    page.relay.rules = [(f"GET /issues/{SHOWN.cusip}", plain(404, "Not Found"))]
    page.press("sheet-again", "sheet-told")
    assert page.sheet()["Terms"] == "not known"


def test_the_list_names_the_terms_of_each_trade(page):
    page.enter("LISTED1", value=3, cusip=LISTED.cusip)
    amend(page, LISTED)
    page.enter("LISTED2", value=3, cusip=LISTED.cusip)
    page.browser.write("#find-reference", "LISTED0")
    page.click("#trades-from")
    page.lists("LISTED1")
    page.until(COMPLETE)
    assert [(row[0], row[-1]) for row in page.rows("#trades-list tbody tr")[:2]] == [
        ("LISTED1", "1 of 2"), ("LISTED2", "2")]
    assert page.texts("#trades-list td.old")[0] == "1 of 2"


def test_what_an_amendment_touches_is_a_list_from_which_each_is_corrected(page):
    for number in (1, 2, 3):
        page.enter(f"TOUCH{number}", value=3, par=25_000, cusip=TOUCHED.cusip)
    page.desk.cancel("RETAIL", "TOUCH3", 2)
    page.click("#issue-clear")
    page.fill("issue", cusip=TOUCHED.cusip)
    page.press("issue-read", "issue-told")
    page.browser.write("#issue-call-1-date", "2027-08-01")
    page.press("issue-amend", "issue-told", "#sure-yes")
    page.enter("TOUCH4", value=3, cusip=TOUCHED.cusip)
    page.click("#issue-told button:nth-of-type(2)")
    assert f"2 of 3 live trades of {TOUCHED.cusip} stand by earlier terms than number 2" in page.until(FOUND)
    rows = page.rows("#amended-list tbody tr")
    assert [[*row[:5], row[-2]] for row in rows] == [
        [f"TOUCH{number}", "1", "bought", "25,000", FIRST, "1 of 2"] for number in (1, 2)]
    assert page.faults("amended") == []
    assert page.faults_when_narrow("amended") == []
    page.click("#amended-list tbody tr:nth-child(2) button")
    page.until("return document.getElementById('ticket-reference').value === 'TOUCH2'")
    assert page.ticket("cusip", "par", "number", "issue", "value") == (TOUCHED.cusip, "25000", "2", "", "")
    page.fill("ticket", value="3")
    page.click("#ticket-correct")
    assert ["Terms of the issue", "number 1", "number 2"] in page.asked()
    page.click("#sure-yes")
    page.shows("ticket-told", "CORRECTED CONFIRMATION 2 of TOUCH2 is kept")
    page.press("#amended-find button", "amended-told")
    assert [row[0] for row in page.rows("#amended-list tbody tr")] == ["TOUCH1"]


def test_an_issue_that_was_never_amended_touches_none(page):
    page.desk.enter(Trade("RETAIL", "SOUND1", "990034AA8", muni.Side.BUY, 5_000, APRIL, Basis.YIELD, 4))
    page.click("#tab-amended")
    page.browser.write("#amended-cusip", "990034AA8")
    told = page.press("#amended-find button", "amended-told")
    assert "The terms of 990034AA8 were never amended" in told
