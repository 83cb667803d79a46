"""The views of examples/views.sql over the book of examples/book.csv, and the desk over a store that has them."""
import collections
import contextlib
import csv
import pathlib
import shutil
import sqlite3
from collections.abc import Iterator
from typing import NamedTuple

import pytest

from support.answers import asked
from support.books import Book, needs_strict_tables
from support.program import ROOT
from support.stores import Store

ROWS = (ROOT / "examples/book.csv").read_text(encoding="ascii")
VIEWS = ("blotter", "desk_positions", "live_trades", "live_versions", "trade_versions", "trades_by_reference_date")
TRADE = {"desk": "RETAIL", "reference": "V0001", "cusip": "990034AA8", "side": "sell", "par": "25000",
         "settle": "2024-04-03", "basis": "price", "value": "104.25", "fee": "0.375"}
CONFIRMATION = """SELECT desk, reference, number, side, par, cusip, issue, coupon, maturity, settle, price, yield,
    redemption, redeemed_at, label, principal, accrued, total FROM live_trades"""


def viewed_book(muni, folder: pathlib.Path) -> Book:
    """A store of sqlite with the book and the views."""
    needs_strict_tables()
    book = Book(muni, Store("sqlite", folder / "store"))
    book.report(ROWS)
    with contextlib.closing(sqlite3.connect(book.store.path)) as database:
        database.executescript((ROOT / "examples/views.sql").read_text(encoding="ascii"))
    return book


@pytest.fixture(scope="module")
def viewed(muni, tmp_path_factory) -> Book:
    return viewed_book(muni, tmp_path_factory.mktemp("views"))


@pytest.fixture(scope="module")
def report(viewed) -> str:
    return viewed.report(ROWS).decode()


class Confirmed(NamedTuple):
    """A row of the book, and what the report says of it: the number and what follows it."""

    row: list[str]
    number: int
    figures: list[str]

    @property
    def trade(self) -> tuple[str, str]:
        """The desk and the reference."""
        return self.row[1], self.row[2]


def confirmed(report: str) -> Iterator[Confirmed]:
    rows = [row for row in csv.reader(ROWS.splitlines()) if row]
    for line in report.splitlines():
        place, what, *rest = line.split(",")
        if what == "confirmed":
            yield Confirmed(rows[int(place) - 1], int(rest[1]), rest[2:])


def test_the_versions_are_those_of_the_report(viewed, report):
    shown = viewed.sql("SELECT desk, reference, number, price, yield, redemption, total FROM trade_versions")
    told = {(*each.trade, each.number, *each.figures) for each in confirmed(report)}
    assert len(told) > 40
    assert sorted(shown) == sorted(told)


def test_a_live_trade_is_what_its_confirmation_says(viewed):
    trades = viewed.sql(CONFIRMATION)
    assert trades
    for (desk, reference, number, side, par, cusip, issue, coupon, maturity, settle, price, yield_, redemption,
         redeemed_at, label, principal, accrued, total) in trades:
        text = viewed.said("confirm", f"--desk={desk}", f"--ref={reference}").text
        top, *rest = text.splitlines()
        lines = dict(line.split(" ", 1) for line in rest if not line.startswith("ACCRUED DAYS"))
        shown = {"DESK": desk, "REFERENCE": reference, side: str(par), "CUSIP": cusip, "ISSUE": issue,
                 "COUPON": coupon, "MATURITY": maturity, "SETTLEMENT": settle,
                 "REDEMPTION": f"{redemption} {redeemed_at} {label}", "PRINCIPAL": principal, "ACCRUED": accrued,
                 "TOTAL": total}
        assert {name: lines.get(name) for name in shown} == shown
        assert (lines["PRICE"].split()[0], lines["YIELD"].split()[0]) == (price, yield_)
        assert f" {top}".endswith(f" CONFIRMATION {number}")


def test_the_positions_of_each_desk_are_those_of_the_view(viewed):
    desks = viewed.sql("SELECT DISTINCT desk FROM versions_3 ORDER BY desk")
    assert desks
    for (desk,) in desks:
        rows = viewed.sql("SELECT cusip, trades, bought, sold, position, money FROM desk_positions "
                          f"WHERE desk = '{desk}'")
        lines = "".join(" ".join(map(str, row)) + "\n" for row in rows)
        assert viewed.said("positions", f"--desk={desk}").text == lines


def test_the_blotter_has_the_last_version_of_each_trade_that_is_not_canceled(viewed, report):
    last, asked_for = {}, {}
    for each in confirmed(report):
        if each.row[0] != "cancel":
            terms = each.row[4:] if each.row[0] == "correct" else each.row[3:]
            asked_for[each.trade] = (terms[3], terms[1], int(terms[2]))
        if each.number >= last.get(each.trade, (0,))[0]:
            last[each.trade] = (each.number, each.row[0], int(each.figures[3].replace(".", "")))
    days = collections.defaultdict(lambda: [0, 0, 0, 0, 0])
    for trade, (_, act, cents) in last.items():
        if act != "cancel":
            settle, side, par = asked_for[trade]
            line = days[settle, trade[0]]
            line[0] += 1
            line[1 if side == "buy" else 2] += par
            line[3 if side == "buy" else 4] += cents
    wanted = [(*key, *line[:3], "%d.%02d" % divmod(line[3], 100), "%d.%02d" % divmod(line[4], 100))
              for key, line in sorted(days.items())]
    assert viewed.sql("SELECT * FROM blotter") == wanted


def test_trades_are_grouped_by_the_day_with_which_their_references_begin(muni, tmp_path):
    book = viewed_book(muni, tmp_path)
    assert book.sql("SELECT * FROM trades_by_reference_date") == [], "no reference of the book begins with a day"
    for reference in ("20240403A0001", "20240403A0002", "20240403", "20240404B0001", "20240230A0001", "20241301A0001",
                      "2024040", "2024040A3"):
        row = "trade," + ",".join({**TRADE, "reference": reference}.values()) + "\n"
        assert b"confirmed" in book.report(row)
    book.report("cancel,RETAIL,20240403A0002,2\n")
    assert book.sql("SELECT * FROM trades_by_reference_date") == [
        ("2024-04-03", "RETAIL", 2, 0, 50_000, "0.00", "52292.70"),
        ("2024-04-04", "RETAIL", 1, 0, 25_000, "0.00", "26146.35")]


def test_a_trade_is_shown_with_the_terms_by_which_it_was_figured(muni, tmp_path):
    book = viewed_book(muni, tmp_path)
    shown = "SELECT desk, reference, number, issue, coupon FROM trade_versions WHERE cusip = '990034AA8' ORDER BY 1, 2, 3"
    was = book.sql(shown)
    assert was
    assert book.report("amend,990034AA8,2,ELM GROVE 4S 2039,periodic,2023-08-01,2024-02-01,2039-08-01,4,\n") == \
        b"1,amended,990034AA8,2\n"
    assert book.sql(shown) == was
    assert book.report("trade," + ",".join(TRADE.values()) + "\n").startswith(b"1,confirmed,V0001,1,")
    assert [row for row in book.sql(shown) if row not in was] == [
        ("RETAIL", "V0001", 1, "ELM GROVE 4S 2039", "4.0000000")]
    names = book.sql("SELECT DISTINCT issue FROM desk_positions WHERE cusip = '990034AA8'")
    assert names == [("ELM GROVE 4S 2039",)]


def test_the_views_of_an_earlier_store_are_made_anew(muni, tmp_path):
    """They read the tables that were taken away, and the file of views replaces them."""
    needs_strict_tables()
    book = Book(muni, Store("sqlite", tmp_path / "store"))
    shutil.copy(ROOT / "tests/stores/kept/1.9.0/store", book.store.file)
    book.sql("CREATE VIEW live_versions AS SELECT * FROM versions_2 WHERE act <> 2")
    assert book.said("positions", "--desk=INST").status == 0
    with pytest.raises(sqlite3.OperationalError):
        book.sql("SELECT * FROM live_versions")
    assert book.said("positions", "--desk=INST").status == 0
    with contextlib.closing(sqlite3.connect(book.store.path)) as database:
        database.executescript((ROOT / "examples/views.sql").read_text(encoding="ascii"))
    assert len(book.sql("SELECT * FROM live_trades")) == 6
    assert book.said("positions", "--desk=INST").status == 0


def test_the_desk_works_over_a_store_with_views(muni, tmp_path, serve, report):
    book = viewed_book(muni, tmp_path)
    assert book.report(ROWS) == report.encode()
    row = "trade," + ",".join(TRADE.values()) + "\n"
    assert book.report(row) == b"1,confirmed,V0001,1,104.250,3.703,2035-08-01,26146.35\n"
    assert book.said("mark", rows="990034AA8,25000,2024-04-03,4\n").status == 0
    server = serve(book.store, connections=1)
    assert asked(server, "/trades", {**TRADE, "reference": "V0002"}).status == 200
    assert server.ended() == 0
    shown = book.sql("SELECT reference, price, yield, total, commission FROM live_trades "
                     "WHERE reference LIKE 'V000%' ORDER BY reference")
    assert shown == [(name, "104.250", "3.703", "26146.35", "93.75") for name in ("V0001", "V0002")]
    assert book.sql("PRAGMA integrity_check") == [("ok",)]
    kept = book.sql("SELECT name FROM sqlite_schema WHERE type = 'view' ORDER BY name")
    assert tuple(name for (name,) in kept) == VIEWS
