"""Stores that earlier versions of the program have written: `kept/VERSION` has what it was given, a store of each kind,
and the confirmations of each desk as it wrote them. Those of a database are moved into the tables of today by the first
command, and are confirmed as before."""
from __future__ import annotations

import pathlib
import shutil

import pytest

from support.books import Book
from support.checked import listed
from support.earlier import earlier_program
from support.faults import KILLED, Fault
from support.program import ROOT, Program, Said
from support.stores import KINDS, Store

KEPT = ROOT / "tests/stores/kept"
VERSIONS = sorted(each.name for each in KEPT.iterdir())
# The last version whose tables have no numbers of terms.
LAST = "1.9.0"
DESKS = ("INST", "RETAIL")
OLD_TABLES = ["issues_2", "versions_2"]
TABLES = ["issues_3", "versions_3"]
ROWS = "trade,INST,NEW,990010AA8,buy,5000,2024-04-03,yield,3.15\n"


def kept(muni: Program, version: str, kind: str, folder: pathlib.Path) -> Book:
    """A copy of the store of a version, with nothing beside it."""
    store = Store(kind, folder / "store")
    store.remove()
    shutil.copy(KEPT / version / store.file.name, store.file)
    return Book(muni, store)


def confirmations(book: Book) -> list[Said]:
    return [book.said("confirm", f"--desk={desk}", "--all") for desk in DESKS]


def wanted(version: str) -> list[Said]:
    """The confirmations as that version wrote them."""
    return [Said(0, (KEPT / version / desk).read_bytes()) for desk in DESKS]


def tables(book: Book) -> list[str]:
    return [name for (name,) in book.sql("SELECT name FROM sqlite_schema WHERE type = 'table' ORDER BY name")]


@pytest.fixture(scope="session")
def last(tmp_path_factory) -> Program:
    return earlier_program(LAST, tmp_path_factory.mktemp("earlier"))


@pytest.mark.parametrize("kind", KINDS)
@pytest.mark.parametrize("version", VERSIONS)
def test_a_store_of_an_earlier_version_is_confirmed_as_before(muni, tmp_path, version, kind):
    book = kept(muni, version, kind, tmp_path)
    for _ in range(2):
        assert confirmations(book) == wanted(version)
    assert book.said("check-store").text.endswith("\nSOUND\n")
    rows = (KEPT / version / "rows.csv").read_bytes()
    report = book.report(rows)
    assert b"refused" not in report
    assert confirmations(book) == wanted(version)
    assert book.report(ROWS).startswith(b"1,confirmed,NEW,1,")


@pytest.mark.parametrize("kind", KINDS)
@pytest.mark.parametrize("version", VERSIONS)
def test_a_store_of_an_earlier_version_is_exported_as_the_same_rows_in_a_new_one(muni, tmp_path, version, kind):
    """Its issues and trades have terms of number 1 alone, so no row has a number of terms."""
    book = kept(muni, version, kind, tmp_path)
    anew = Book(muni, Store(kind, tmp_path / "anew"))
    assert b"refused" not in anew.report((KEPT / version / "rows.csv").read_bytes())
    assert book.said("export") == anew.said("export")


@pytest.mark.parametrize("kind", KINDS)
@pytest.mark.parametrize("version", VERSIONS)
def test_what_a_store_of_an_earlier_version_has_of_its_trades_is_right(muni, tmp_path, version, kind):
    """A file of all that its list has of the live ones; and with another par or another yield none of it."""
    book = kept(muni, version, kind, tmp_path)
    for desk in DESKS:
        words, live = ("check", f"--desk={desk}"), book.said("list", f"--desk={desk}").text
        said = book.said(*words, rows=listed(live))
        count = said.output.count(b",right\n")
        assert (said.status, said.text.splitlines()[-1]) == (0, f"TOTAL,{count},{count},0,0,0,0") and count > 0
        for column, text in (("par", "1"), ("yield", "-1.234")):
            said = book.said(*words, rows=listed(live, **{column: text}))
            assert (said.status, said.text.splitlines()[-1]) == (3, f"TOTAL,{count},0,{count},0,0,0")
            assert said.output.count(f",differs,{column},".encode()) == count


@pytest.mark.parametrize("version", VERSIONS)
def test_the_tables_of_an_earlier_version_are_taken_away(muni, tmp_path, version):
    book = kept(muni, version, "sqlite", tmp_path)
    counts = book.sql("SELECT (SELECT COUNT(*) FROM issues_2), (SELECT COUNT(*) FROM versions_2)")
    issues = book.sql("SELECT *, 1 FROM issues_2 ORDER BY cusip")
    versions = book.sql("SELECT *, 1 FROM versions_2 ORDER BY desk, reference, number")
    assert tables(book) == OLD_TABLES
    assert book.said("positions", "--desk=INST").status == 0
    assert tables(book) == TABLES
    assert book.sql("SELECT (SELECT COUNT(*) FROM issues_3), (SELECT COUNT(*) FROM versions_3)") == counts
    assert book.sql("SELECT cusip, name, kind, dated, first, maturity, coupon, calls, basis, number FROM issues_3 "
                    "ORDER BY cusip") == issues
    assert book.sql("SELECT * FROM versions_3 ORDER BY desk, reference, number") == versions
    assert book.sql("PRAGMA integrity_check") == [("ok",)]


def test_an_earlier_program_refuses_a_store_that_was_moved(muni, tmp_path, last):
    book = kept(muni, LAST, "sqlite", tmp_path)
    earlier = Book(last, book.store)
    assert confirmations(earlier) == wanted(LAST)
    assert confirmations(book) == wanted(LAST)
    before, seal = book.store.state(), book.store.seal.read_bytes()
    for command, words in [("import", ()), ("confirm", ("--desk=INST", "--all")), ("positions", ("--desk=INST",)),
                           ("mark", ()), ("export", ()), ("list", ("--desk=INST",)),
                           ("serve", ("--port=1", "--connections=1"))]:
        assert earlier.said(command, *words, rows=ROWS) == Said(6, b""), command
        assert (book.store.state(), book.store.seal.read_bytes()) == (before, seal), command
    assert earlier.said("check-store") == Said(6, b"")
    assert book.store.state() == before
    assert confirmations(book) == wanted(LAST)


@pytest.mark.parametrize("name", ["open", "pread", "pwrite", "fdatasync", "fsync", "ftruncate", "unlink"])
def test_a_move_that_is_killed_at_any_call_leaves_the_old_store_or_the_new_one(muni, tmp_path, faults, name):
    book = kept(faults.counting(muni), LAST, "sqlite", tmp_path)
    assert book.said("positions", "--desk=INST").status == 0
    for number in range(1, faults.counts()[name].in_all + 1):
        book = kept(muni, LAST, "sqlite", tmp_path)
        killed = Book(faults.at(muni, Fault(name, number, KILLED)), book.store)
        assert killed.said("positions", "--desk=INST").status == -9, number
        assert tables(book) in (OLD_TABLES, TABLES), number
        assert confirmations(book) == wanted(LAST), number
        assert tables(book) == TABLES, number


@pytest.mark.parametrize("name", ["pread", "pwrite", "fdatasync", "ftruncate"])
def test_a_move_that_fails_at_any_call_leaves_the_old_store_or_the_new_one(muni, tmp_path, faults, name):
    book = kept(faults.counting(muni), LAST, "sqlite", tmp_path)
    assert book.said("positions", "--desk=INST").status == 0
    for number in range(1, faults.counts()[name].in_all + 1):
        book = kept(muni, LAST, "sqlite", tmp_path)
        failing = Book(faults.at(muni, Fault(name, number)), book.store)
        assert failing.said("positions", "--desk=INST").status in (0, 6), number
        assert confirmations(book) == wanted(LAST), number
        assert tables(book) == TABLES, number


def test_a_spoiled_row_keeps_all_where_it_is(muni, tmp_path):
    """The store is refused each time, until that row is mended."""
    book = kept(muni, LAST, "sqlite", tmp_path)
    book.sql("UPDATE versions_2 SET par = 0 WHERE reference = 'R1'")
    for _ in range(2):
        assert book.said("positions", "--desk=INST") == Said(6, b"")
    assert tables(book) == OLD_TABLES
    book.sql("UPDATE versions_2 SET par = 100000 WHERE reference = 'R1'")
    assert confirmations(book) == wanted(LAST)
    assert tables(book) == TABLES


def test_what_a_user_added_to_an_earlier_store(muni, tmp_path):
    """An index of an old table goes with it. A view stays, and what it reads is no more there. A table stays."""
    book = kept(muni, LAST, "sqlite", tmp_path)
    book.sql("CREATE INDEX by_cusip ON versions_2 (cusip);\nCREATE VIEW pars AS SELECT par FROM versions_2;\n"
             "CREATE TABLE notes (text TEXT)")
    assert confirmations(book) == wanted(LAST)
    listed = book.sql("SELECT type, name FROM sqlite_schema WHERE name NOT LIKE 'sqlite_%' ORDER BY name")
    assert listed == [("table", "issues_3"), ("table", "notes"), ("view", "pars"), ("table", "versions_3")]
    assert book.report(ROWS).startswith(b"1,confirmed,NEW,1,")
    assert book.said("check-store").status == 0
