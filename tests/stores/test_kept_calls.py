"""What a store keeps of calls on or after a day and of issues that have been called: as sqlite reads it, and by the
bytes of a journal."""
from __future__ import annotations

import pytest

from support.program import Said
from support.slots import Terms, bodies, bytes_of_day
from support.stores import ROWS

REFUSED = Said(6, b"")
TERMS = "CITY OF EXAMPLE 5S 2034,periodic,2020-01-01,2020-07-01,2034-01-01,5"
# The calls of an issue as they are given, and as the column of sqlite has them.
CALLS = {
    "990034AA8": ("2030-07-01:100+", "2030-07-01:100.000000+"),
    "990081AB7": ("2025-01-01:102+ 2026-07-01:101!", "2025-01-01:102.000000+ 2026-07-01:101.000000!"),
    "123456AA3": ("2025-01-01:102.5 2026-01-01:101.125+ 2027-01-01:99!",
                  "2025-01-01:102.500000 2026-01-01:101.125000+ 2027-01-01:99.000000!"),
    "990000010": ("2025-01-01:102 2026-01-01:100", "2025-01-01:102.000000 2026-01-01:100.000000"),
}
CALLED = "990081AB7"
TRADES = f"""trade,ALPHA,C1,{CALLED},buy,50000,2026-05-31,yield,3
trade,ALPHA,C2,{CALLED},sell,20000,2024-01-01,price,101.5
"""
CONFIRMED = {"C1": "REDEMPTION 2026-07-01 101.000000 CALLED", "C2": "REDEMPTION 2026-07-01 101.000000 CALLED"}


def issue(cusip: str, calls: str) -> str:
    return f"issue,{cusip},{TERMS},{calls}\n"


ISSUES = "".join(issue(cusip, given) for cusip, (given, _) in CALLS.items())


def body_of(cusip: str) -> bytes:
    """The body of an issue by docs/STORES.md."""
    name, *_ = TERMS.split(",")
    terms = Terms(cusip, name, ("2020-01-01", "2020-07-01", "2034-01-01"), 50_000_000, CALLS[cusip][1])
    return terms.body(1)


def test_sqlite_has_the_mark_after_the_price(database):
    database.report(ISSUES)
    assert dict(database.sql("SELECT cusip, calls FROM issues_3")) == {
        cusip: kept for cusip, (_, kept) in CALLS.items()}


def test_an_issue_with_a_mark_is_a_record_of_its_own_kind(journal):
    """One without a mark has no byte more than before."""
    journal.report(ISSUES)
    found = list(bodies(journal.store.file.read_bytes()))
    assert found == [body_of(cusip) for cusip in CALLS]
    assert [body[0] for body in found] == [3, 3, 3, 1]


def test_sqlite_has_the_label_of_a_redemption_that_is_called(database):
    database.report(ISSUES + TRADES)
    assert database.sql("SELECT reference, redemption, at_price, label FROM versions_3 ORDER BY reference") == [
        (reference, "2026-07-01", 101_000_000, 3) for reference in CONFIRMED]


def test_a_journal_has_the_label_of_a_redemption_that_is_called(journal):
    """After the label the days and four sums of money have 36 bytes, and the redemption and its price stand before."""
    journal.report(ISSUES + TRADES)
    versions = [body for body in bodies(journal.store.file.read_bytes()) if body[0] == 2]
    assert [body[-45:-36] for body in versions] == [
        bytes_of_day("2026-07-01") + (101_000_000).to_bytes(4, "big") + b"\3"] * len(CONFIRMED)


@pytest.mark.parametrize("reference", CONFIRMED)
def test_a_trade_is_confirmed_as_called(book, reference):
    book.report(ISSUES + TRADES)
    assert CONFIRMED[reference] in book.confirmed(reference).text.splitlines()


@pytest.mark.parametrize("other", ["2025-01-01:102 2026-07-01:101!", "2025-01-01:102+ 2026-07-01:101",
                                   "2025-01-01:102+ 2025-07-01:102+ 2026-07-01:101!"])
def test_an_issue_is_the_same_by_its_entries_and_marks(book, other):
    book.report(ISSUES)
    assert book.report(issue(CALLED, CALLS[CALLED][0]) + issue(CALLED, other)) == (
        f"1,added,{CALLED}\n2,refused,3,Conflict\n".encode())


def test_forty_calls_with_marks_are_kept(book):
    days = [f"20{20 + (place + 1) // 2}-{'01' if place % 2 else '07'}-01" for place in range(40)]
    calls = " ".join(f"{day}:{199 - place}.123456+" for place, day in enumerate(days))
    row = f"issue,123456AA3,{'X' * 60},periodic,2020-01-01,2020-07-01,2041-01-01,5,{calls}\n"
    rows = row + "trade,ALPHA,F,123456AA3,sell,1000,2040-01-15,yield,3\n"
    report = book.report(rows)
    assert report.splitlines()[0] == b"1,added,123456AA3"
    assert book.report(rows) == report
    assert "REDEMPTION 2041-01-01 100.000000 MATURITY" in book.confirmed("F").text.splitlines()


@pytest.mark.parametrize("calls", ["2030-07-01:100.000000++", "2030-07-01:100.000000 +", "2030-07-01:100.000000*",
                                   "2026-07-01:100.000000! 2030-07-01:100.000000"])
def test_a_row_of_an_issue_with_a_mark_that_is_none_does_not_read(database, calls):
    database.report(ISSUES)
    database.sql(f"UPDATE issues_3 SET calls = '{calls}' WHERE cusip = '990034AA8'")
    mark = "990034AA8,1000,2024-01-01,4\n"
    assert database.said("mark", rows=mark) == REFUSED
    database.sql("UPDATE issues_3 SET calls = '2030-07-01:100.000000+' WHERE cusip = '990034AA8'")
    assert database.said("mark", rows=mark).text.startswith("1,marked,990034AA8,105.")


def test_a_label_that_is_none_does_not_read(database):
    database.report(ISSUES + TRADES)
    database.sql("UPDATE versions_3 SET label = 4 WHERE reference = 'C1'")
    assert database.confirmed("C1") == REFUSED
    assert CONFIRMED["C2"] in database.confirmed("C2").text.splitlines()


# The place of the mark of the first issue's call, which ends its slot, and that of the kind of its record.
@pytest.mark.parametrize(("place", "byte"), [(4 + len(body_of("990034AA8")), 3), (5, 6), (5, 1)],
                         ids=["a mark of 3", "a record of kind 6", "a record without marks that is too long"])
def test_a_journal_with_a_mark_that_is_none_is_refused(journal, place, byte):
    journal.report(ISSUES + TRADES)
    data = bytearray(journal.store.file.read_bytes())
    assert data[place] in (1, 3)
    data[place] = byte
    journal.store.file.write_bytes(data)
    assert journal.said("import", rows=ROWS) == REFUSED
    assert journal.confirmed("C1") == REFUSED
    assert journal.store.file.read_bytes() == data
