"""Amendments on the page: terms that are kept are read, changed and kept under the next number. Trades name them."""
from __future__ import annotations

import json
from dataclasses import replace
from datetime import date

import pytest
from selenium.webdriver.common.keys import Keys

from muni import Basis, Call, CallKind
from support.issues import ELM_GROVE
from support.page import TICKET, Page, missing
from support.relay import plain

pytestmark = pytest.mark.xdist_group("page_amendments")

# One is amended here, one has three terms, one is named by trades, and of one the page is told another answer.
AMENDED, SEVERAL, NAMED, FAKED = (replace(ELM_GROVE, cusip=cusip)
                                  for cusip in ("990000044", "990000051", "990000069", "990000085"))
SHORTER = replace(NAMED, calls=())
OFFERED = "return [...document.getElementById('issue-terms').options].map(each => each.value)"
HIDDEN = "return document.getElementById('issue-numbers').hidden"
SCHEDULE = """
return [...document.querySelectorAll("#issue-calls tbody tr")]
    .map(row => [...row.querySelectorAll("input")].map(each => each.value).join(" "));
"""


@pytest.fixture(scope="module")
def first(first: Page) -> Page:
    """The page over a desk that has the issues."""
    for issue in (AMENDED, SEVERAL, NAMED, FAKED):
        first.desk.add_issue(issue)
    first.desk.amend(replace(SEVERAL, name="OAK 2", coupon=5), 2)
    first.desk.amend(replace(SEVERAL, name="OAK 3", calls=(Call(date(2035, 8, 1), 100, CallKind.CALLED),)), 3)
    first.enter("N0001", basis=Basis.PRICE, value=120, cusip=NAMED.cusip)
    first.desk.amend(SHORTER, 2)
    return first


def read(page: Page, cusip: str) -> str:
    page.click("#issue-clear")
    page.fill("issue", cusip=cusip)
    return page.press("issue-read", "issue-told")


def test_terms_are_read_changed_and_kept_under_the_next_number(page):
    assert "They are" not in read(page, AMENDED.cusip)
    page.fill("issue", coupon="4.25", name="ELM GROVE SCHOOLS 4.25S 2039")
    page.browser.write("#issue-call-2-price", "101.5")
    page.click("#issue-amend")
    elm = "2034-08-01 at {}, on or after this day"
    assert page.asked() == [
        ["", "Now", "Then"], ["Name", AMENDED.name, "ELM GROVE SCHOOLS 4.25S 2039"],
        ["Coupon, percent", "4.125", "4.25"], ["Call 2", elm.format(101), elm.format("101.5")]]
    page.shot("amendment")
    page.click("#sure-yes")
    assert page.shows("issue-told", f"AMENDED {AMENDED.cusip} 2")
    assert json.loads(page.relay.sent("POST /amendments")[-1])["number"] == "2"
    first, second = page.desk.terms(AMENDED.cusip).values()
    calls = (AMENDED.calls[0], replace(AMENDED.calls[1], price=second.calls[1].price), AMENDED.calls[2])
    assert first == AMENDED
    assert (str(second.calls[1].price), second.name) == ("101.500000", "ELM GROVE SCHOOLS 4.25S 2039")
    assert second == replace(AMENDED, name=second.name, coupon=second.coupon, calls=calls)


def test_a_call_that_falls_away_and_one_that_comes_are_asked_for(page):
    read(page, SEVERAL.cusip)
    page.browser.choose("#issue-call-1-kind", "+")
    page.browser.write("#issue-call-2-date", "2036-08-01")
    page.browser.write("#issue-call-2-price", "100")
    page.click("#issue-amend")
    assert page.asked()[1:] == [
        ["Call 1", "2035-08-01 at 100, called (certain)", "2035-08-01 at 100, on or after this day"],
        ["Call 2", "none", "2036-08-01 at 100, on or after this day"]]
    page.browser.press(Keys.ESCAPE)
    page.asks(False)
    page.settle()
    assert len(page.desk.terms(SEVERAL.cusip)) == 3, "what is not sure is not sent"


def test_terms_that_are_kept_already_are_not_sent(page):
    read(page, SEVERAL.cusip)
    page.fill("issue", coupon="4.12500")
    sent = len(page.relay.sent("POST /amendments"))
    assert f"These are the last terms of {SEVERAL.cusip}, which are kept under number 3." \
        in page.press("issue-amend", "issue-told")
    assert len(page.relay.sent("POST /amendments")) == sent


def test_each_number_of_the_terms_is_shown(page):
    assert "Number 3, the last ones." in read(page, SEVERAL.cusip)
    assert page.js(OFFERED) == ["1", "2", "3"]
    assert (page.typed()["issue-name"], page.js(SCHEDULE)) == ("OAK 3", ["2035-08-01 100", " "])
    page.browser.choose("#issue-terms", "1")
    assert "Number 1 of 3: not those by which quotes and new trades go." in page.text("issue-told")
    assert (page.typed()["issue-name"], len(page.js(SCHEDULE))) == (SEVERAL.name, 4)
    page.browser.choose("#issue-terms", "2")
    assert (page.typed()["issue-coupon"], page.typed()["issue-terms"]) == ("5", "2")
    assert page.faults("issue-terms") == []
    assert page.faults_when_narrow("issue-terms") == []


def test_numbers_are_offered_of_the_issue_alone_whose_terms_were_read(page):
    assert "Number 1, the last ones." in read(page, "990034AA8")
    assert page.js(HIDDEN)
    read(page, SEVERAL.cusip)
    assert not page.js(HIDDEN)
    page.fill("issue", cusip="990034AA8")
    assert page.js(HIDDEN)


def test_an_issue_that_is_not_kept_is_not_amended_and_what_was_typed_stays(page):
    read(page, SEVERAL.cusip)
    page.fill("issue", cusip="990000093")
    told, stays = page.refused("issue", "issue-amend")
    assert missing(page.lines_of("REFUSED 1 UnknownIssue", "issue"), told) == []
    assert stays


def test_a_number_that_another_took_meanwhile_is_refused(page):
    read(page, FAKED.cusip)
    page.fill("issue", name="TAKEN")
    page.relay.rules = [("POST /amendments", plain(409, "Conflict", "REFUSED 3 Conflict issue\n"))]
    told, stays = page.refused("issue", "issue-amend", "#sure-yes")
    assert missing(["REFUSED 3 Conflict issue", "Other terms are kept under this number."], told) == []
    assert stays


def test_a_fault_of_an_amendment_is_marked(page):
    read(page, SEVERAL.cusip)
    page.fill("issue", coupon="0")
    told, stays = page.refused("issue", "issue-amend", "#sure-yes")
    assert told.startswith("REFUSED 4 BadTerms 4") and stays
    assert page.ids("#issue [aria-invalid]") == ["issue-coupon"]


def test_a_desk_that_does_not_know_amendments_says_so(page):
    read(page, FAKED.cusip)
    page.fill("issue", name="NOT KNOWN")
    page.relay.rules = [("POST /amendments", plain(404, "Not Found"))]
    told = page.press("issue-amend", "issue-told", "#sure-yes")
    assert missing(["An issue cannot be amended here", "of an earlier version than this page"], told) == []


PRICED = TICKET | {"cusip": NAMED.cusip, "value": "120", "par": "5000"}


def test_a_trade_names_terms_and_the_sheet_has_their_number(page):
    page.fill("ticket", **PRICED, reference="N0002", issue="1")
    page.click("#ticket-enter")
    rows = dict(page.asked())
    figures = page.kept("N0001").figures
    assert (rows["Terms of the issue"], rows["Yield"]) == ("number 1", f"{figures.yield_} %"), "by these terms"
    assert (rows["Total"], rows["Redemption"]) == (f"{figures.total:,}", f"{figures.redemption.day}")
    page.click("#sure-yes")
    assert page.shows("ticket-told", "CONFIRMATION 1 of N0002 is kept")
    assert json.loads(page.relay.sent("POST /trades")[-1])["issue"] == "1"
    assert page.sheet()["Terms"] == "number 1 of 2, amended since"
    assert page.kept("N0002").figures.yield_ == figures.yield_
    page.click("#sheet-take")
    assert page.ticket("issue") == ("1",)


def test_a_trade_that_names_none_goes_by_the_last_terms_and_sends_their_number(page):
    page.fill("ticket", **PRICED, reference="N0003")
    page.press("ticket-enter", sure="#sure-yes")
    assert json.loads(page.relay.sent("POST /trades")[-1])["issue"] == "2"
    assert page.kept("N0003").figures.yield_ > page.kept("N0001").figures.yield_
    assert page.sheet()["Terms"] == "number 2, the last"


def test_a_correction_names_terms(page):
    page.enter("N0004", basis=Basis.PRICE, value=120, cusip=NAMED.cusip)
    page.fill("ticket", **PRICED, reference="N0004", issue="1")
    page.click("#ticket-correct")
    assert ["Terms of the issue", "number 2", "number 1"] in page.asked()
    page.click("#sure-yes")
    assert page.shows("ticket-told", "CORRECTED CONFIRMATION 2 of N0004 is kept")
    assert page.kept("N0004").figures.yield_ == page.kept("N0001").figures.yield_
    page.fill("ticket", issue="")
    page.click("#ticket-correct")
    assert ["Terms of the issue", "number 1", "number 2"] in page.asked()
    page.click("#sure-yes")
    assert page.shows("ticket-told", "CORRECTED CONFIRMATION 3 of N0004 is kept")
    assert page.kept("N0004").figures.yield_ > page.kept("N0001").figures.yield_


def test_the_number_of_terms_goes_when_another_trade_or_issue_comes(page):
    page.fill("ticket", **PRICED, reference="N0007", issue="1")
    page.press("ticket-enter", sure="#sure-yes")
    page.click("#ticket-told button")
    assert page.ticket("issue") == ("",)
    page.fill("ticket", issue="1")
    page.fill("ticket", cusip="990034AA8")
    assert page.ticket("issue") == ("",)


def test_terms_that_are_not_kept_are_refused(page):
    page.fill("ticket", **PRICED, reference="N0005", issue="3")
    told, stays = page.refused("ticket", "ticket-enter", "#sure-yes")
    assert missing(["REFUSED 12 WrongNumber 3", "The next number is 3."], told) == []
    assert stays


@pytest.mark.parametrize("number", ["0", "100", "01", "x"])
def test_a_number_that_no_terms_have_is_marked_and_not_sent(page, number):
    page.fill("ticket", **PRICED, reference="N0006", issue=number)
    page.click("#ticket-enter")
    assert page.ids("#ticket [aria-invalid]") == ["ticket-issue"]
    assert not any("N0006" in body for body in page.relay.sent("POST /trades"))
