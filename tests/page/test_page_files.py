"""Files of figures on the tab Check of the page: how they are read, dropped and chosen."""
from __future__ import annotations

import csv
import io
import pathlib

import pytest
from selenium.webdriver.common.by import By

from muni import Basis
from support.dropped import CLICK, DROP, STREET, dropped, lines, sent, told
from support.page import missing

pytestmark = pytest.mark.xdist_group("page_files")


@pytest.fixture
def page(page):
    page.relay.seen.clear()
    return page


SPELLINGS = {
    "a mark of byte order": "\ufeff" + STREET,
    "line ends of two bytes": STREET.replace("\n", "\r\n"),
    "line ends of the other kind": STREET.replace("\n", "\r"),
    "empty lines": "\n" + STREET.replace("\n", "\n\n"),
    "no end of the last line": STREET.rstrip("\n"),
    "quotes": "".join(",".join(f'"{field}"' for field in line.split(",")) + "\n" for line in STREET.splitlines()),
}


@pytest.mark.parametrize("name", SPELLINGS)
def test_a_file_is_read_as_a_spreadsheet_writes_it(page, name):
    assert "40 rows checked: 21 differ, 19 right." in dropped(page, SPELLINGS[name])


def test_records_are_those_of_csv(page):
    script = "return (await import('/page/csv.js')).readCsv(arguments[0])"
    for text in ['a,"b,c"\n"d""e",\n', '"a\nb",c\r\n\r\nd\r,\n', 'a"b,c" ,"d"e\n', '""\n,,\n', '"a,b\nc', "", "\n\n",
                 "a"]:
        assert page.browser.js_later(script, text) == [
            row for row in csv.reader(io.StringIO(text, newline="")) if row], text
    again = "const { readCsv, writeCsv } = await import('/page/csv.js'); return readCsv(writeCsv(arguments[0]))"
    records = [["a", "b,c", 'd"e'], ["", "\r\n"], ["f"]]
    assert page.browser.js_later(again, records) == records


FAULTS = {
    "a column that is unknown": ("reference,Price\nA,1\n", "Columns that are unknown: Price"),
    "a column without a name": ("reference,,price\nA,1,1\n", "Columns that are unknown: one without a name"),
    "a column that is there twice": ("price,fee,price\n1,1,1\n", "Columns that are named twice: price"),
    "semicolons": ("reference;price\nA;104,25\n", "Its fields are parted by semicolons, and a check takes commas"),
    "tabs": ("cusip\tprice\nA\t1\n", "Its fields are parted by tabs, and a check takes commas"),
    "no row": ("cusip,price\n", "No row follows the first line"),
    "nothing": ("", "The file is empty"),
    "more rows than the page takes": ("price\n" + "1\n" * 10_001, "It has 10001 rows, and the page takes 10000"),
}


@pytest.mark.parametrize("name", FAULTS)
def test_a_file_that_cannot_be_checked_is_told_before_anything_is_sent(page, name):
    text, words = FAULTS[name]
    assert missing([f"street.csv: {words}", "What to do: ", "Nothing was sent."], dropped(page, text)) == []
    assert lines(page) == [] and sent(page) == []
    page.settle()
    assert page.is_off("checks-again")


def test_a_row_with_another_count_of_fields_is_bad_and_is_not_sent(page):
    rows = STREET.splitlines()
    said = dropped(page, "\n".join([rows[0], rows[5], "A,B,C", rows[6] + ","]))
    assert "3 rows checked: 2 bad, 1 right." in said
    assert [line[4] for line in lines(page)] == [
        f"another count of fields than the first line has: {count}" for count in (3, 22)]
    assert len(sent(page)) == 1


def test_a_file_is_chosen_and_checked_again(page, tmp_path: pathlib.Path):
    page.click("#tab-check")
    page.browser.write("#checks-desk", "")
    page.enter("AGAIN1", basis=Basis.PRICE, value=101)
    file = tmp_path / "chosen.csv"
    file.write_text("reference,cusip,par,settle,basis,value,price\nAGAIN1,990034AA8,5000,2024-04-03,price,101,101\n")
    page.browser.driver.find_element(By.ID, "checks-file").send_keys(str(file))
    assert "chosen.csv is right" in told(page)
    page.browser.write("#checks-desk", "ALPHA")
    assert "403 Forbidden" in page.press("checks-again", "checks-told")
    page.browser.write("#checks-desk", "RETAIL")
    assert "live trade" in page.press("checks-again", "checks-told")
    assert sent(page)[-1]["desk"] == "RETAIL"


def test_a_file_that_is_dropped_beside_the_tab_does_not_leave_the_page(page):
    page.fill("ticket", par="25000")
    assert page.js(DROP, "ticket", "street.csv", STREET) == [False, False], "both are prevented"
    page.settle()
    assert sent(page) == [] and page.typed()["ticket-par"] == "25000"


def test_a_file_that_cannot_be_read_is_told(page):
    page.js("File.prototype.text = async () => { throw new Error() }")
    assert "street.csv: it could not be read" in dropped(page, STREET)
    assert sent(page) == []


def test_the_same_file_is_chosen_again(page, tmp_path: pathlib.Path):
    page.click("#tab-check")
    page.browser.write("#checks-desk", "")
    file = tmp_path / "same.csv"
    field = page.browser.driver.find_element(By.ID, "checks-file")
    for count in (5, 9):
        file.write_text("\n".join(STREET.splitlines()[:count]))
        page.js("document.getElementById('checks-told').replaceChildren()")
        page.js(CLICK)
        field.send_keys(str(file))
        assert page.shows("checks-told", f"{count - 1} rows checked")
