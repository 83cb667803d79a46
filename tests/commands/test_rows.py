"""Texts of rows, and what comes of each row of tables/rows: over an empty store, and over one that has the trade."""
from __future__ import annotations

import re

import pytest

from support.program import Program
from support.stores import Store
from support.tables import bytes_of, cases

LINES = cases("rows")

# The trade T0001 has three versions, of which the last is a cancel.
KEPT = """issue,123456AA3,RIVERTON WATER 5S 2025,periodic,2020-01-01,2020-07-01,2025-01-01,5,
trade,ALPHA,T0001,123456AA3,buy,1,2024-04-01,yield,4
correct,ALPHA,T0001,2,123456AA3,buy,2,2024-04-01,yield,4
cancel,ALPHA,T0001,3
"""

# What a row of a name may be answered over each of the two stores.
ANSWERS = {
    "empty": {
        "issue": r"added,.*|refused,4,BadTerms|refused,3,Conflict",
        "amend": r"amended,.*|refused,4,BadTerms|refused,1,UnknownIssue",
        "trade": r"refused,1,UnknownIssue|confirmed,.*,1,.*",
        "correct": r"refused,2,UnknownTrade|confirmed,.*,2,.*",
        "cancel": r"refused,2,UnknownTrade|confirmed,.*,3,.*",
    },
    "kept": {
        "issue": r"added,.*|refused,4,BadTerms|refused,3,Conflict",
        "amend": r"amended,.*|refused,4,BadTerms|refused,1,UnknownIssue|refused,3,Conflict|refused,12,WrongNumber",
        "trade": r"refused,3,Conflict|confirmed,.*,1,.*",
        "correct": r"refused,3,Conflict|refused,11,Canceled|confirmed,.*,2,.*",
        "cancel": r"refused,3,Conflict|refused,11,Canceled|confirmed,.*,3,.*",
    },
}


def answer(state: str, kind: str) -> str:
    """A pattern of the answers that a row of a kind may have: `1` has a wrong number of fields, `2:5` a column that
    does not read, and all others are names of rows."""
    if kind == "1":
        return "bad,1"
    if kind.startswith("2:"):
        return f"bad,2,{kind[2:]}"
    return ANSWERS[state][kind]


@pytest.fixture(scope="module")
def kept(muni: Program, tmp_path_factory: pytest.TempPathFactory) -> bytes:
    """A journal that has the trade."""
    store = Store("journal", tmp_path_factory.mktemp("kept") / "S")
    report = muni.run("import", store.word, rows=KEPT).text.splitlines()
    assert [line.split(",")[1] for line in report] == ["added", "confirmed", "confirmed", "confirmed"]
    return store.file.read_bytes()


@pytest.mark.parametrize("state", ANSWERS)
@pytest.mark.parametrize("case", LINES, ids=[str(case.line) for case in LINES])
def test_each_row_of_a_text_is_read_as_the_table_has_it(muni, tmp_path, kept, case, state):
    text, kinds = case.parts
    store = Store("journal", tmp_path / "S")
    if state == "kept":
        store.file.write_bytes(kept)
    said = muni.run("import", store.word, rows=bytes_of(text))
    report = said.text.splitlines()
    assert (said.status, len(report)) == (0, len(kinds.split()))
    for place, (line, kind) in enumerate(zip(report, kinds.split()), 1):
        assert re.fullmatch(f"{place},({answer(state, kind)})", line), f"{line} of a row that is {kind}"
