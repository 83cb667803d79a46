"""New issues on the page: schedules of calls, the question, what is refused, and each kind's own fields."""
from __future__ import annotations

import json

import pytest
from selenium.webdriver.common.keys import Keys

from support.page import TICKET, missing
from support.relay import plain

pytestmark = pytest.mark.xdist_group("page_issues")

OAK_HILL = {"cusip": "990000077", "name": "OAK HILL UNION SCH DIST 4.125S 2039", "kind": "periodic",
            "dated": "2023-08-01", "first": "2024-02-01", "maturity": "2039-08-01", "coupon": "4.125"}
ELM_GROVE = OAK_HILL | {"cusip": "990034AA8", "name": "ELM GROVE UNION SCH DIST 4.125S 2039"}
CALLS = [["2033-08-01", "102"], ["2034-08-01", "101"], ["2035-08-01", "100"]]
LINES = "\n".join("\t".join(call) for call in CALLS)
PASTE = """
const data = new DataTransfer();
data.setData("text", arguments[1]);
document.getElementById(arguments[0]).dispatchEvent(
    new ClipboardEvent("paste", { clipboardData: data, bubbles: true, cancelable: true }));
"""
KINDS = """
return [...document.querySelectorAll("#issue-calls select")].map(each => each.selectedOptions[0].textContent);
"""
SCHEDULE = """
return [...document.querySelectorAll("#issue-calls tbody tr")]
    .map(row => [...row.querySelectorAll("input")].map(each => each.value));
"""
DISABLED = "return arguments[0].map(each => document.getElementById(each).disabled)"


def pasted(page, calls: str = LINES, place: str = "issue-call-1-date") -> list[list[str]]:
    page.js(PASTE, place, calls)
    return page.js(SCHEDULE)


def test_a_schedule_is_pasted(page):
    assert pasted(page) == CALLS + [["", ""]]


def test_a_call_holds_on_or_after_its_day_if_nothing_else_is_chosen_and_is_as_the_one_before_it(page):
    assert page.js(KINDS) == ["on or after this day"]
    page.browser.choose("#issue-call-1-kind", "")
    pasted(page)
    assert page.js(KINDS) == ["on this day"] * 4
    assert page.texts("#issue-call-1-kind option") == ["on this day", "on or after this day", "called (certain)"]


def test_the_marks_of_a_schedule_that_is_pasted_are_chosen(page):
    assert pasted(page, "2033-08-01:102 2034-08-01:101+ 2035-08-01:100!") == CALLS + [["", ""]]
    assert page.js(KINDS)[:3] == ["on this day", "on or after this day", "called (certain)"]


def test_what_is_not_covered_is_told(page):
    assert missing(["Redemption between interest dates, and on notice within a half-year, is not covered."],
                   " ".join(page.text("issue-calls").split())) == []


def test_a_schedule_of_more_than_40_calls_is_not_pasted_in_part(page):
    pasted(page)
    assert pasted(page, " 2036-08-01:100" * 38, "issue-call-3-price") == CALLS + [["", ""]]
    assert "It would make 41 calls, and an issue has 40 at most." in page.text("issue-told")


def test_an_issue_is_asked_for_once_more_and_sent_with_its_calls(page):
    page.fill("issue", **OAK_HILL)
    pasted(page)
    page.click("#issue .first")
    page.asks()
    asked = [row for row in page.rows("#sure-lines tr") if row[0] in ("CUSIP", "Call 3")]
    assert asked == [["CUSIP", "990000077"], ["Call 3", "2035-08-01 at 100, on or after this day"]]
    page.shot("sure")
    sent = len(page.relay.sent("POST /issues"))
    page.browser.press(Keys.ESCAPE)
    page.asks(False)
    page.settle()
    assert len(page.relay.sent("POST /issues")) == sent, "an issue that is not sure is not sent"
    assert "ADDED 990000077" in page.press("#issue .first", "issue-told", "#sure-yes")
    calls = [{"date": at, "price": f"{price}+"} for at, price in CALLS]
    assert json.loads(page.relay.sent("POST /issues")[sent]) == OAK_HILL | {"calls": calls}


REFUSED = {
    "another issue under its CUSIP": ("REFUSED 3 Conflict issue", {"coupon": "4.25"}, LINES, []),
    "a wrong check digit": ("REFUSED 4 BadTerms 1", {"cusip": "990034AA9"}, LINES, ["issue-cusip"]),
    "a call beside the interest dates": ("REFUSED 4 BadTerms 6 2034-08-02", {"cusip": "990000044"},
                                         LINES.replace("2034-08-01", "2034-08-02"), ["issue-call-2-date"]),
}


@pytest.mark.parametrize(("line", "change", "calls", "marked"), REFUSED.values(), ids=REFUSED)
def test_an_issue_is_refused_in_words_and_its_fault_is_marked(page, line, change, calls, marked):
    page.fill("issue", **ELM_GROVE | change)
    pasted(page, calls)
    told, stays = page.refused("issue", "#issue .first", "#sure-yes")
    assert missing(page.lines_of(line, "issue"), told) == []
    assert stays, "what was typed"
    assert page.ids("#issue [aria-invalid]") == marked
    if marked == ["issue-call-2-date"]:
        page.shot("issue-refused")


def test_a_certain_call_that_is_not_the_last_is_refused_in_words_and_marked(page):
    page.fill("issue", **ELM_GROVE | {"cusip": "990000044"})
    pasted(page, "2033-08-01:102 2034-08-01:101! 2035-08-01:100")
    told, stays = page.refused("issue", "#issue .first", "#sure-yes")
    assert told.startswith("REFUSED 4 BadTerms 12 2034-08-01\n")
    assert "at the call of 2034-08-01: a call that is certain is the last one." in told
    assert stays and page.ids("#issue [aria-invalid]") == ["issue-call-2-kind"]


def test_an_issue_that_has_been_called_is_kept_and_quoted_as_called(page):
    page.fill("issue", **OAK_HILL | {"cusip": "990000085"})
    pasted(page, "2033-08-01:102+ 2034-08-01:101!")
    assert "ADDED 990000085" in page.press("#issue .first", "issue-told", "#sure-yes")
    calls = json.loads(page.relay.sent("POST /issues")[-1])["calls"]
    assert calls == [{"date": "2033-08-01", "price": "102+"}, {"date": "2034-08-01", "price": "101!"}]
    page.fill("ticket", **TICKET | {"cusip": "990000085", "value": "98"})
    page.press("ticket-quote")
    assert ["Redemption", "at 101.000000, called", "2034-08-01"] in page.rows("#figures-lines tr")


TERMS = ("name", "kind", "dated", "first", "maturity", "coupon", "days")


def terms(page, cusip: str) -> tuple[str, ...]:
    """The terms of an issue that is kept, as they are read into the form."""
    page.click("#issue-clear")
    page.fill("issue", cusip=cusip)
    assert f"These are the terms that are kept of {cusip}" in page.press("issue-read", "issue-told")
    return tuple(page.typed()[f"issue-{name}"] for name in TERMS)


def test_the_terms_of_an_issue_that_is_kept_are_read_into_the_form(page):
    assert terms(page, "990034AA8") == (ELM_GROVE["name"], "periodic", "2023-08-01", "2024-02-01", "2039-08-01",
                                        "4.125", "30/360")
    assert page.js(SCHEDULE) == CALLS + [["", ""]]
    assert page.js(KINDS)[:3] == ["on or after this day"] * 3
    page.shot("terms")
    assert terms(page, "990081AB7")[1:] == ("at-redemption", "2024-02-29", "", "2025-02-28", "3.9", "actual/365")
    assert page.js(SCHEDULE) == [["", ""]]
    page.click("#issue-told button")
    assert page.ticket("cusip") == ("990081AB7",)


def test_what_was_read_is_sent_as_it_is_kept(page):
    terms(page, "990034AA8")
    assert "ADDED 990034AA8" in page.press("#issue .first", "issue-told", "#sure-yes")


def test_a_name_with_quotes_and_commas_is_read(page):
    name = 'TOWN OF "OAK", 5S, 2030'
    page.fill("issue", cusip="990000093", name=name, kind="zero", dated="2020-01-01", maturity="2030-01-01")
    pasted(page, "2025-01-01:99.5 2026-01-01:101!")
    page.press("#issue .first", "issue-told", "#sure-yes")
    assert terms(page, "990000093") == (name, "zero", "2020-01-01", "", "2030-01-01", "", "30/360")
    assert page.js(SCHEDULE) == [["2025-01-01", "99.5"], ["2026-01-01", "101"], ["", ""]]
    assert page.js(KINDS)[:2] == ["on this day", "called (certain)"]


def test_terms_that_are_not_kept_are_refused_and_what_was_typed_stays(page):
    page.fill("issue", cusip="000000000", name="TYPED")
    assert "REFUSED 1 UnknownIssue" in page.press("issue-read", "issue-told")
    assert page.typed()["issue-name"] == "TYPED"


def test_a_desk_that_does_not_tell_terms_says_so_and_what_was_typed_stays(page):
    page.fill("issue", cusip="990034AA8", name="TYPED")
    page.relay.rules = [("GET /issues", plain(404, "Not Found"))]
    told = page.press("issue-read", "issue-told")
    assert missing(["Terms of an issue cannot be shown here", "of an earlier version than this page"], told) == []
    assert page.typed()["issue-name"] == "TYPED"


def test_a_new_issue_with_its_calls_can_be_read(page):
    pasted(page, "2033-08-01:102 2034-08-01:101.125+ 2035-08-01:100!")
    assert page.faults("issue-calls") == []
    assert page.faults_when_narrow("issue-calls") == []


def test_a_name_that_is_too_long_is_marked_and_not_cut_or_sent(page):
    sent = len(page.relay.sent("POST /issues"))
    page.fill("issue", **OAK_HILL)
    page.fill("issue", name="X" * 61, kind="zero", maturity="2039-13-01")
    page.click("#issue .first")
    assert page.typed()["issue-name"] == "X" * 61
    assert page.ids("#issue [aria-invalid]") == ["issue-name", "issue-maturity"]
    assert "Not of its form: a day of the calendar" in page.text("issue-maturity-wrong")
    page.settle()
    assert len(page.relay.sent("POST /issues")) == sent


def test_a_note_has_no_first_coupon_and_no_calls_and_what_was_typed_for_them_stays(page):
    page.fill("issue", **OAK_HILL)
    pasted(page)
    page.fill("issue", kind="zero")
    assert page.js(DISABLED, ["issue-first", "issue-coupon", "issue-calls"]) == [True, True, False]
    assert page.typed()["issue-first"] == "2024-02-01"
    page.fill("issue", kind="at-redemption", cusip="990000051", name="NOTE 2024", dated="2024-01-01",
              maturity="2024-12-31", days="actual/365")
    assert "ADDED 990000051" in page.press("#issue .first", "issue-told", "#sure-yes")
    sent = json.loads(page.relay.sent("POST /issues")[-1])
    assert tuple(sent.get(name) for name in ("days", "first", "calls")) == ("actual/365", None, None)


@pytest.mark.parametrize(("price", "words"), [
    ("100+", 'Type 100 alone, and choose "on or after this day" beside it.'),
    ("102.5 !", 'Type 102.5 alone, and choose "called (certain)" beside it.')])
def test_a_mark_that_is_typed_after_a_price_says_where_it_is_chosen(page, price, words):
    page.fill("issue", **OAK_HILL)
    page.browser.write("#issue-call-1-date", "2033-08-01")
    page.browser.write("#issue-call-1-price", price)
    page.click("#issue .first")
    assert page.text("issue-call-1-price-wrong") == words
    assert page.focus() == "issue-call-1-price"


def test_a_wrong_check_digit_says_which_it_is(page):
    """That of 990034AA is 8, and that of 990000077 is 7."""
    page.fill("issue", **OAK_HILL | {"cusip": "990000078"})
    assert "REFUSED 4 BadTerms 1" in page.press("#issue .first", "issue-told", "#sure-yes")
    assert "After 99000007 the check digit is 7, and not 8" in page.text("issue-cusip-wrong")
    page.fill("ticket", **TICKET | {"cusip": "990034AA3"})
    assert "REFUSED 1 UnknownIssue" in page.press("ticket-quote")
    assert "After 990034AA the check digit is 8, and not 3" in page.text("ticket-cusip-wrong")
