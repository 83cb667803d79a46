"""Figures of another firm on the tab Check of the page: what it says of each row, and how it asks for that."""
from __future__ import annotations

import csv
import io
import pathlib
import re

import pytest

from support.dropped import DROP, STREET, dropped, lines, right, sent, told, went_on
from support.page import missing
from support.program import PATIENCE, ROOT
from support.relay import plain
from support.trading import until

pytestmark = pytest.mark.xdist_group("page_checks")

REPORT = [line.split(",") for line in (ROOT / "examples/street.report").read_text().splitlines()[:-1]]
REFERENCES = [row["reference"] for row in csv.DictReader(io.StringIO(STREET))]
FIGURES = {"price": "Price", "yield": "Yield", "days": "Days accrued"}
# A bond with a call, and one with an odd first coupon.
CALLED = ["periodic", "2022-01-01", "2022-07-01", "2044-01-01", "4", "2034-01-01:100"]
ODD = ["periodic", "2024-01-15", "2024-10-01", "2026-10-01", "6", ""]
COLUMNS = ["reference", "par", "settle", "basis", "value", "price", "redemption", "kind", "dated", "first", "maturity",
           "coupon", "calls"]


def text_of(columns: list[str], *rows: list[str]) -> str:
    written = io.StringIO(newline="")
    csv.writer(written, lineterminator="\n").writerows([columns, *rows])
    return written.getvalue()


@pytest.fixture
def page(page):
    page.relay.seen.clear()
    return page


def test_a_dropped_file_has_its_wrong_rows_first_and_the_right_ones_folded(page):
    said = dropped(page, STREET)
    assert missing(["Not all of street.csv is right", "40 rows checked: 21 differ, 19 right."], said) == []
    wanted = [[f"{REFERENCES[int(place) - 1]} row {place}", FIGURES[column], ours, theirs]
              for place, verdict, *rest in REPORT if verdict == "differs" for column, ours, theirs, _ in [rest]]
    assert [row[:4] for row in lines(page)] == wanted
    assert right(page) == ", ".join(REFERENCES[int(place) - 1] for place, verdict, *_ in REPORT if verdict == "right")
    assert not page.js("return document.querySelector('#checks-right p').checkVisibility()")


def test_each_row_is_sent_by_itself_and_in_its_order(page):
    dropped(page, STREET)
    found = [body["reference"] for body in sent(page) if body["redemption"] != "1900-01-01"]
    assert sorted(found, key=REFERENCES.index) == REFERENCES
    assert all(abs(REFERENCES.index(each) - place) < 4 for place, each in enumerate(found))
    assert "desk" not in sent(page)[0]


def test_a_file_whose_rows_are_all_right_is_told(page):
    said = dropped(page, "\n".join(STREET.splitlines()[:1] + STREET.splitlines()[5:9]))
    assert missing(["street.csv is right", "4 rows checked: 4 right."], said) == []
    assert lines(page) == [] and right(page) == "ASH5, ASH6, ASH7, ASH8"


WORDS = {
    "MATURITY": (["", "1", "2024-01-01", "yield", "3", "114.957", "", *CALLED],
                 ["priced to maturity alone", "You price to maturity; the call on 2034-01-01 gives the lower price."]),
    "MATURITY, by its day": (["", "1", "2024-01-01", "yield", "3", "", "2044-01-01", *CALLED],
                             ["priced to maturity alone", "You price to maturity; the call on 2034-01-01 decides."]),
    "FIRST CALL": (["", "1", "2024-01-01", "yield", "6", "91.448", "", *CALLED[:-1], "2030-01-01:102 2034-01-01:100"],
                   ["priced to the first call alone",
                    "You price to the first call; the redemption on 2044-01-01 gives the lower price."]),
    "REGULAR": (["", "1", "2024-02-01", "yield", "4", "105.004", "", *ODD],
                ["the odd first coupon is taken for a regular one",
                 "You take an odd first coupon for a regular one; interest accrues from the dated date."]),
    "no formula": (["", "1", "2024-02-01", "yield", "4", "105", "", *ODD],
                   ["no formula that is known", "No formula that we know gives your price; how do you compute it?"]),
}


@pytest.mark.parametrize("name", WORDS)
def test_a_formula_of_theirs_is_told_in_words(page, name):
    row, words = WORDS[name]
    dropped(page, text_of(COLUMNS, row))
    assert [line[4:] for line in lines(page)] == [words]


def test_there_are_words_for_each_reading_and_no_other(page):
    rules = (ROOT / "docs/RULES.md").read_text()
    table = rules[rules.index("| name | their formula |"):].split("\n\n")[0]
    names = page.browser.js_later("return Object.keys((await import('/page/verdicts.js')).READINGS)")
    assert names == re.findall(r"^\| `([A-Z ]+)` \|", table, re.M)


def test_rows_come_by_what_is_said_of_them(page):
    for number in (1, 2, 3):
        page.enter(f"KEPT{number}")
    wanted = {
        "right": ["KEPT1", "990034AA8", "2024-04-03", "yield", "4", ""],
        "bad": ["KEPT2", "", "2024-04-03", "yield", "4", "1.0005"],
        "missing": ["KEPT9", "", "", "", "", ""], "again": ["KEPT1", "", "", "", "", "1"],
        "refused": ["", "000000000", "2024-04-03", "yield", "4", "1"],
        "undecided": ["", "990000010", "2024-01-01", "yield", "50", "32.768"],
        "differs": ["KEPT3", "", "", "", "", "1"], "nothing": ["", "990034AA8", "2024-04-03", "yield", "4", ""]}
    said = dropped(page, text_of(["reference", "cusip", "settle", "basis", "value", "price", "par"],
                                 *[[*row, "5000"] for row in wanted.values()]), "RETAIL")
    assert ("8 rows checked: 1 differs, 1 undecided, 1 refused, 1 missing, 1 bad, 1 again, 1 nothing, 1 right."
            in said)
    found = [line for line in lines(page) if "row " in line[0]]
    assert [line[0] for line in found] == ["KEPT3 row 7", "row 6", "row 5", "KEPT9 row 3", "KEPT2 row 2", "KEPT1 row 4",
                                           "row 8"]
    assert [line[4] for line in found] == [
        "no formula that is known", "undecided: the exact one lies at the boundary of two printed ones",
        "no figures: no issue of this CUSIP is kept", "no live trade is kept under this reference",
        "price does not read: 1.0005", "its reference came before, in row 1", "nothing is stated that could be right"]
    assert right(page) == "KEPT1"
    assert len(sent(page)) == 7


def test_what_is_not_that_of_the_kept_trade_is_told(page):
    """What was traded and the terms, before the figures. The issue has calls, and pays 4.125 percent."""
    columns = ["reference", "side", "par", "price", "kind", "dated", "first", "maturity", "coupon", "calls"]
    terms = ["periodic", "2023-08-01", "2024-02-01", "2039-08-01"]
    rows = [["SAME1", "buy", "5000", "1", *[""] * 6], ["SAME2", "sell", "50000", "1", *[""] * 6],
            ["SAME3", "", "50000", "1", *[""] * 6], ["SAME4", "", "", "", *terms, "4.25", ""],
            ["SAME5", "", "", "", *terms, "4.125", ""]]
    for reference, *_ in rows:
        page.enter(reference)
    said = dropped(page, text_of(columns, *rows), "RETAIL")
    assert "5 rows checked: 5 differ." in said
    price = f"{page.kept('SAME1').figures.price}"
    calls = "2033-08-01:102.000000+ 2034-08-01:101.000000+ 2035-08-01:100.000000+"
    kept, terms_of = "not that of the trade that is kept", "not the terms of the trade that is kept"
    assert [line[1:] for line in lines(page)[:5]] == [
        ["Price", price, "1.000", "no formula that is known",
         "No formula that we know gives your price; how do you compute it?"],
        ["Side", "buy", "sell", kept, "For side we have buy and you have sell; compare the tickets."],
        ["Par", "5000", "50000", kept, "For par we have 5000 and you have 50000; compare the tickets."],
        ["Coupon", "4.1250000", "4.2500000", terms_of,
         "For coupon we have 4.1250000 and you have 4.2500000; compare the terms."],
        ["Calls", calls, "", terms_of, f"For calls we have {calls} and you have none; compare the terms."]]


def test_a_trade_is_checked_by_the_terms_by_which_it_stands(page):
    """One stands by terms that were amended since, and the other, which was corrected, by the last ones."""
    earlier, last = (page.kept(reference).figures.price for reference in ("zAmended", "zCorrected"))
    said = dropped(page, text_of(["reference", "price"], ["zAmended", f"{earlier}"], ["zCorrected", f"{earlier}"],
                                 ["zCanceled", f"{last}"]), "RETAIL")
    assert earlier != last and "3 rows checked: 1 differs, 1 missing, 1 right." in said
    assert right(page) == "zAmended"
    assert [line[:4] for line in lines(page) if "row " in line[0]] == [
        ["zCorrected row 2", "Price", f"{last}", f"{earlier}"], ["zCanceled row 3", "", "", ""]]


def test_a_file_of_a_desk_needs_no_more_than_references(page):
    for number in range(1, 61):
        page.enter(f"MANY{number:02}")
    page.desk.cancel("RETAIL", "MANY60", 2)
    before = [line.reference for line in page.desk.trades("RETAIL")
              if line.is_live and not line.reference.startswith("MANY")]
    page.click("#tab-check")
    page.browser.write("#checks-desk", "")
    price = page.kept("MANY01").figures.price
    rows = [[f"MANY{number:02}", f"{price}"] for number in [*range(1, 30), *range(31, 61)]]
    said = dropped(page, text_of(["reference", "price"], *rows))
    assert page.typed()["checks-desk"] == "RETAIL"
    assert missing(["59 rows checked: 1 missing, 58 right.",
                    f"{len(before) + 1} live trade" + "s" * bool(before) + " of the desk without a row."], said) == []
    assert lines(page)[0][0] == "MANY60 row 59"
    assert [line[0] for line in lines(page)[1:]] == sorted([*before, "MANY30"])
    assert lines(page)[1][4] == "a live trade of the desk for which no row came"


def test_what_a_row_lacks_is_told_by_its_name(page):
    dropped(page, text_of(["cusip", "settle", "basis", "value"], ["990034AA8", "2024-04-03", "yield", "4"]))
    assert lines(page)[0][4:] == ["no par is stated", "The row has no par; send it again."]


def test_no_text_of_a_file_names_another_member(page):
    row = ['x","desk":"ALPHA', "\\u0022", "naïve", "2024-04-03", "yield", "4"]
    said = dropped(page, text_of(["reference", "cusip", "par", "settle", "basis", "value"], row), "RETAIL")
    assert "1 bad" in said
    [body] = page.relay.sent("POST /checks")
    assert "\\" not in body and body.count('"desk"') == 1
    assert lines(page)[-1][4].startswith("reference does not read: x\"")


def test_a_server_that_fails_is_told_and_the_rest_is_checked_then(page):
    rows = STREET.splitlines()
    page.relay.rules = [("POST /checks", "pass")] * 2 + [("POST /checks", plain(503, "Service Unavailable"))] * 16
    said = dropped(page, "\n".join(rows[:13]))
    assert missing(["503 Service Unavailable", "It was sent 4 times.", "2 rows checked"], said) == []
    page.relay.rules.clear()
    count = len(sent(page))
    assert missing(["Not all of street.csv is right", "12 rows checked: 8 differ, 4 right."],
                   went_on(page)) == []
    assert len(sent(page)) - count == 10
    assert len(lines(page)) == 8


def test_an_answer_that_is_cut_is_asked_for_again(page):
    page.relay.rules = [("POST /checks", "half"), ("POST /checks", "cut")]
    assert "4 rows checked: 4 right." in dropped(page, "\n".join(STREET.splitlines()[:1] + STREET.splitlines()[5:9]))


def test_a_desk_of_an_earlier_version_says_so(page):
    page.relay.rules = [("POST /checks", plain(404, "Not Found"))] * 4
    said = dropped(page, STREET)
    assert missing(["A check cannot be shown here", "of an earlier version than this page"], said) == []


def test_the_trades_of_another_desk_are_not_checked(page):
    said = dropped(page, "reference,price\nKEPT1,1\n", "ALPHA")
    assert missing(["403 Forbidden", "this user may not do that", "0 rows checked: none."], said) == []


def test_a_desk_that_is_none_is_marked_and_nothing_is_sent(page):
    page.click("#tab-check")
    page.browser.write("#checks-desk", "NO DESK")
    page.js(DROP, "check", "street.csv", STREET)
    assert page.until("return document.querySelector('#checks-desk[aria-invalid]')")
    page.settle()
    assert sent(page) == []


def test_a_check_is_stopped_and_goes_on(page):
    page.click("#tab-check")
    page.browser.write("#checks-desk", "")
    with page.relay.holding("POST /checks"):
        page.js(DROP, "check", "street.csv", STREET)
        page.until("return !document.getElementById('checks-way').hidden")
        assert page.text("checks-count") == "0 of 40 rows"
        page.click("#checks-stop")
    said = told(page)
    assert "The check of street.csv was stopped" in said
    assert 0 < len(sent(page)) < 40
    assert "40 rows checked: 21 differ, 19 right." in went_on(page)
    found = [body["reference"] for body in sent(page) if body["redemption"] != "1900-01-01"]
    assert sorted(found) == sorted(REFERENCES), "each is sent once"


def test_another_file_takes_the_place_of_the_one_that_is_checked(page):
    page.click("#tab-check")
    page.browser.write("#checks-desk", "")
    with page.relay.holding("POST /checks"):
        page.js(DROP, "check", "first.csv", STREET)
        page.until("return !document.getElementById('checks-way').hidden")
        page.js(DROP, "check", "second.csv", "\n".join(STREET.splitlines()[:6]))
    assert missing(["Not all of second.csv is right", "5 rows checked: 4 differ, 1 right."], told(page)) == []
    assert len(lines(page)) == 4


def read(text: str) -> list[dict[str, str]]:
    return list(csv.DictReader(io.StringIO(text, newline="")))


def test_what_was_found_is_downloaded_as_csv(page, tmp_path: pathlib.Path):
    dropped(page, STREET, name="street of May.csv")
    page.browser.tool("Browser.setDownloadBehavior", behavior="allow", downloadPath=str(tmp_path))
    page.click("#checks-save")
    file = tmp_path / "street of May-checked.csv"
    assert until(lambda: file.exists() and file.stat().st_size > 0, PATIENCE)
    rows = read(file.read_text())
    assert [[row["row"], row["verdict"], row["ours"], row["theirs"], row["reading"]] for row in rows] == [
        [place, verdict, *(rest[1:] or ["", "", ""])] for place, verdict, *rest in REPORT]
    assert [row["reference"] for row in rows] == REFERENCES
    assert rows[16]["what to say"] == "You price to maturity; the call on 2034-01-01 gives the lower price."


def test_what_was_found_is_copied_as_csv(page):
    dropped(page, STREET)
    page.browser.tool("Browser.grantPermissions", permissions=["clipboardReadWrite", "clipboardSanitizedWrite"])
    assert "Copied" in page.press("checks-copy", "checks-told")
    copied = page.browser.js_later("return navigator.clipboard.readText()")
    assert [row["reference"] for row in read(copied)] == REFERENCES


def test_no_field_of_what_is_downloaded_is_a_formula_of_the_file(page):
    dropped(page, text_of(["reference", "cusip", "par"], ["=1+1", "=HYPERLINK(1)", "@x"]))
    page.browser.tool("Browser.grantPermissions", permissions=["clipboardReadWrite", "clipboardSanitizedWrite"])
    page.press("checks-copy", "checks-told")
    copied = page.browser.js_later("return navigator.clipboard.readText()")
    assert [field for row in read(copied) for field in row.values() if field[:1] in "=+-@" and field] == []


def test_a_browser_that_does_not_let_it_copy_is_told(page):
    dropped(page, STREET)
    page.js("navigator.clipboard.writeText = async () => { throw new Error() }")
    assert missing(["Nothing was copied", "download them"], page.press("checks-copy", "checks-told")) == []


@pytest.mark.parametrize("text", ["1,strange\n", "OK\n"])
def test_an_answer_that_is_none_of_the_desk_is_told(page, text):
    page.relay.rules = [("POST /checks", plain(200, "OK", text))] * 4
    assert missing(["the answer is not one of the desk's", "0 rows checked"], dropped(page, STREET)) == []


def test_a_row_that_the_desk_finds_without_what_it_needs_is_bad(page):
    page.relay.rules = [("POST /checks", plain(200, "OK", "1,bad,1\n"))]
    dropped(page, "\n".join(STREET.splitlines()[:2]))
    assert lines(page)[0][4:] == ["what it needs is not stated", "The row lacks what was traded; send it again."]


def test_it_can_be_read(page):
    dropped(page, STREET)
    page.click("#checks-right summary")
    assert page.faults("checks") == []
    assert page.faults_when_narrow("checks") == []


MANY = """
const { showFound } = await import("/page/found.js");
document.getElementById("tab-check").click();
const found = Array.from({ length: arguments[0] }, (_, place) =>
    ({ row: { place: 0, reference: `MANY${place}`, texts: {} }, verdict: "missing" }));
showFound({ name: "many.csv" }, found);
const more = document.getElementById("checks-more");
return [document.querySelectorAll("#checks-list tbody tr").length, more.checkVisibility() ? more.textContent : ""];
"""


@pytest.mark.parametrize(("count", "words"), [
    (10_000, "These are the first 500. 9,500 more are not right: Copy and Download have all."), (500, "")])
def test_of_very_many_rows_the_first_500_are_shown(page, count, words):
    assert page.browser.js_later(MANY, count) == [500, words]
