"""The tables of the first program, whose rows are moved into those of today by the first command."""
import pytest

from support.program import Said

REFUSED = Said(6, b"")
TABLES = """CREATE TABLE issues (cusip TEXT NOT NULL, name TEXT NOT NULL, kind INTEGER NOT NULL,
    dated TEXT NOT NULL, first TEXT NOT NULL, maturity TEXT NOT NULL, coupon INTEGER NOT NULL,
    calls TEXT NOT NULL, PRIMARY KEY (cusip)) STRICT;
CREATE TABLE versions (desk TEXT NOT NULL, reference TEXT NOT NULL, number INTEGER NOT NULL,
    act INTEGER NOT NULL, cusip TEXT NOT NULL, side INTEGER NOT NULL, par INTEGER NOT NULL,
    settle TEXT NOT NULL, basis INTEGER NOT NULL, value INTEGER NOT NULL, price INTEGER NOT NULL,
    yld INTEGER NOT NULL, redemption TEXT NOT NULL, at_price INTEGER NOT NULL,
    label INTEGER NOT NULL, days INTEGER NOT NULL, principal INTEGER NOT NULL,
    accrued INTEGER NOT NULL, total INTEGER NOT NULL,
    PRIMARY KEY (desk, reference, number)) STRICT;
INSERT INTO issues VALUES ('123456AA3', 'City of Example', 0, '2020-01-01', '2020-07-01',
    '2035-01-01', 50000000, '2030-01-01:102.500000 2032-01-01:100.000000');
INSERT INTO versions VALUES ('ALPHA', 'T1', 1, 1, '123456AA3', 1, 25000, '2024-04-01', 2, 40001,
    100725, 4000, '2030-01-01', 102500000, 2, 90, 2518125, 31250, 2549375)"""
CONFIRMATION = b"""CORRECTED CONFIRMATION 1
DESK ALPHA
REFERENCE T1
SOLD 25000
CUSIP 123456AA3
ISSUE City of Example
COUPON 5.0000000
DATED 2020-01-01
MATURITY 2035-01-01
SETTLEMENT 2024-04-01
PRICE 100.725 COMPUTED
YIELD 4.000 COMPUTED
RATE 4.0001 GIVEN
REDEMPTION 2030-01-01 102.500000 CALL
ACCRUED DAYS 90
PRINCIPAL 25181.25
ACCRUED 312.50
TOTAL 25493.75
"""
REST = ("cusip, side, {par}, settle, basis, value, price, yld, redemption, at_price, label, days, principal, accrued, "
        "total FROM versions WHERE number = 1")


@pytest.fixture
def old(database):
    """A database of the first program, with an issue and a trade."""
    database.sql(TABLES)
    return database


def tables(book) -> list[str]:
    return [name for (name,) in book.sql("SELECT name FROM sqlite_schema WHERE type = 'table' ORDER BY name")]


def test_the_rows_of_old_tables_are_moved(old):
    for _ in range(2):
        assert old.confirmed("T1") == Said(0, CONFIRMATION)
        assert old.said("positions", "--desk=ALPHA") == Said(0, b"123456AA3 1 0 25000 -25000 -25493.75\n")
    assert old.sql("SELECT * FROM issues_3") == [
        ("123456AA3", 1, "City of Example", 0, "2020-01-01", "2020-07-01", "2035-01-01", 50_000_000,
         "2030-01-01:102.500000 2032-01-01:100.000000", 0)]
    assert old.sql("SELECT * FROM versions_3") == [
        ("ALPHA", "T1", 1, 1, "123456AA3", 1, 25_000, "2024-04-01", 2, 40_001, 100_725, 4_000, "2030-01-01",
         102_500_000, 2, 90, 2_518_125, 31_250, 2_549_375, 0, 0, 1)]
    assert tables(old) == ["issues_3", "versions_3"]
    assert old.sql("PRAGMA integrity_check") == [("ok",)]


def test_a_check_counts_the_rows_that_were_moved(old):
    for _ in range(2):
        assert old.said("check-store") == Said(0, b"ISSUES 1\nDESK ALPHA 1\nSOUND\n")
    assert tables(old) == ["issues_3", "versions_3"]


def test_a_spoiled_version_keeps_all_where_it_is(old):
    """The store is refused each time, until that row is gone."""
    old.sql("INSERT INTO issues VALUES ('990034AA8', 'Town of Sample', 1, '2020-01-01', '', '2035-01-01', 0, '');\n"
            "INSERT INTO versions SELECT desk, reference, 2, 2, " + REST.format(par="par") + ";\n"
            "INSERT INTO versions SELECT desk, 'T2', 1, 0, " + REST.format(par="0"))
    for _ in range(2):
        assert old.confirmed("T1") == REFUSED
    assert tables(old) == ["issues", "versions"]
    assert old.sql("SELECT (SELECT COUNT(*) FROM issues), (SELECT COUNT(*) FROM versions)") == [(2, 3)]
    old.sql("DELETE FROM versions WHERE reference = 'T2'")
    said = old.confirmed("T1")
    assert (said.status, said.text.splitlines()[0]) == (0, "CANCELED CONFIRMATION 2")
    assert old.sql("SELECT number FROM versions_3 ORDER BY number") == [(1,), (2,)]
    assert old.sql("SELECT cusip, number FROM issues_3 ORDER BY cusip") == [("123456AA3", 1), ("990034AA8", 1)]
    assert tables(old) == ["issues_3", "versions_3"]


def test_a_spoiled_issue_keeps_all_where_it_is(old):
    old.sql("INSERT INTO issues VALUES ('990034AA8', 'Town of Sample', 1, '2020-02-30', '', '2035-01-01', 0, '')")
    for _ in range(2):
        assert old.confirmed("T1") == REFUSED
    assert tables(old) == ["issues", "versions"]
    assert old.sql("SELECT (SELECT COUNT(*) FROM issues), (SELECT COUNT(*) FROM versions)") == [(2, 1)]
    old.sql("UPDATE issues SET dated = '2020-02-28' WHERE cusip = '990034AA8'")
    assert old.confirmed("T1").status == 0
    assert old.sql("SELECT cusip FROM issues_3 ORDER BY cusip") == [("123456AA3",), ("990034AA8",)]
