"""The page before anything is done, and its words against the documents."""
from __future__ import annotations

import re

import pytest

from support import looks
from support.program import ROOT

pytestmark = pytest.mark.xdist_group("page_opening")


@pytest.fixture(scope="module")
def first(bare):
    """The page over a desk without trades."""
    return bare


def test_it_tells_who_has_logged_in(page):
    assert page.text("house-user") == "logged in as rita"


def test_a_desk_without_trades_says_so(page):
    assert "Desk RETAIL has no trades. If it should have some, check its name." in page.shows("trades-place", "Desk")
    page.click("#tab-positions")
    assert page.shows("positions-place", "Desk RETAIL has no live trades.")


def test_each_field_has_its_label(page):
    assert page.js(looks.UNNAMED) == []


def test_without_a_sheet_there_are_no_buttons_for_it(page):
    assert not page.js("return document.getElementById('sheet-acts').checkVisibility()")


def test_its_policy_lets_nothing_of_others_run(page):
    policy = page.site.ask("GET", "/", user="rita").fields["Content-Security-Policy"]
    assert "default-src 'self'" in policy


def test_it_can_be_read(page):
    assert page.faults("empty") == []
    assert page.faults_when_narrow("empty") == []


def plain_words(text: str) -> str:
    """A text of a document without its links and quotes of code."""
    return re.sub(r"\[([^]]*)\]\([^)]*\)", r"\1", text).replace("`", "")


def rows_of(document: str, columns: int) -> list[list[str]]:
    """The rows of the tables of a document that have so many columns."""
    lines = (ROOT / document).read_text().splitlines()
    rows = [[plain_words(cell.strip()) for cell in line[1:-1].split("|")] for line in lines if line.startswith("|")]
    return [row for row in rows if len(row) == columns]


REFUSALS = [row for row in rows_of("docs/FORMATS.md", 5) if row[0].isdigit()]
STATUSES = [row for row in rows_of("docs/HTTP.md", 3) if re.match(r"\d{3} ", row[0])]
FAULTS = [row for row in rows_of("docs/RULES.md", 3) if row[2].isdigit() and row[1].partition(",")[0].isalpha()]


@pytest.fixture(scope="module")
def words(first):
    """What the page says of refusals, statuses and faults."""
    first.open("rita")
    return first.words()


@pytest.mark.parametrize(("number", "name", "_", "means", "todo"), REFUSALS, ids=[row[1] for row in REFUSALS])
def test_it_says_of_a_refusal_what_the_page_of_formats_says(words, number, name, _, means, todo):
    ours = words["refusals"][number]
    assert ours[:2] == [name, means.split("; of quote-one")[0]]
    # What leads to RULES.md cannot be told here, nor what is of quote-one alone.
    texts = ours[2].values() if isinstance(ours[2], dict) else [ours[2]]
    assert todo == ours[2] or all(text and text in todo for text in texts)


@pytest.mark.parametrize("status", sorted({row[0][:3] for row in STATUSES}))
def test_it_says_of_a_status_what_the_page_of_http_says(words, status):
    assert words["statuses"].get(status) in [row[1:] for row in STATUSES if row[0][:3] == status]


@pytest.mark.parametrize(("test", "name", "number"), FAULTS, ids=[row[2] for row in FAULTS])
def test_it_says_of_a_fault_what_the_page_of_rules_says(words, test, name, number):
    ours = words["faults"][number]
    assert ours[0] == name.split(",")[0]
    assert ours[2] != "" and test.endswith(ours[2])


def test_it_has_words_for_each_number_and_no_other(words):
    assert sorted(words["refusals"]) == sorted(row[0] for row in REFUSALS)
    assert sorted(words["faults"]) == sorted(row[2] for row in FAULTS)
    assert len(REFUSALS) == 15 and len(STATUSES) > 0 and len(FAULTS) > 0
