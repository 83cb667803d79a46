"""What an import keeps: as commands tell it, as sqlite reads it, and by the bytes of a journal."""
import contextlib
import os
import sqlite3

import pytest

from support.program import Said
from support.stores import REPORT, ROWS

EMPTY_LOG = 41
FIGURES = "25000|2024-04-01|0|40000|100725|4000|2025-01-01|100000000|0|90|2518125|31250|2549375|0|0|1"
OTHER_FIGURES = "10000|2024-04-01|1|100725000|100725|4001|2025-01-01|100000000|0|90|1007250|12500|1019750|0|0|1"

# The issue by docs/STORES.md: its gate, its length, and its body.
SLOT = (b"\x01\x00\x00\x00\x34\x01123456AA3\x16RIVERTON WATER 5S 2025\x00\x00\x07\xe4\x01\x01\x07\xe4\x07\x01"
        b"\x07\xe9\x01\x01\x02\xfa\xf0\x80\x00")


def test_an_import_that_is_sent_again_has_the_same_report(book):
    assert book.report(ROWS) == REPORT
    assert book.store.file.is_file()
    assert book.report(ROWS) == REPORT
    assert "TOTAL 25493.75" in book.confirmed("T0001").text.splitlines()
    assert "TOTAL 10197.50" in book.confirmed("T0002").text.splitlines()


# Each command that only reads, with an input if it has one.
READING = {
    "confirm": ("--desk=ALPHA", "--ref=T0001"), "confirm all": ("--desk=ALPHA", "--all"),
    "positions": ("--desk=ALPHA",), "mark": (), "export": (), "export of issues": ("--issues",),
    "export of a desk": ("--desk=ALPHA",), "list": ("--desk=ALPHA",), "check-store": (), "figures": ("--header",),
    "check": (), "check of a desk": ("--desk=ALPHA",)}
INPUT = b"123456AA3,25000,2024-04-01,4\n"


@pytest.mark.parametrize("name", READING)
def test_a_command_that_only_reads_makes_no_store(book, name):
    """Neither in a folder without files nor beside other files, and not if it is told again."""
    command, words = name.split()[0], READING[name]
    for _ in range(2):
        assert book.said(command, *words, rows=INPUT) == Said(6, b"")
    beside = book.store.path.with_name(book.store.path.name + "-other")
    beside.write_bytes(b"")
    assert book.said(command, *words, rows=INPUT) == Said(6, b"")
    assert list(book.store.path.parent.iterdir()) == [beside]


@pytest.mark.parametrize("name", READING)
def test_a_store_whose_file_is_gone_is_not_there(book, name):
    """What stands beside it, as the seal of a file of sqlite, is left as it was."""
    book.report(ROWS)
    book.store.file.unlink()
    before = {each: each.read_bytes() for each in book.store.path.parent.iterdir()}
    assert book.said(name.split()[0], *READING[name], rows=INPUT) == Said(6, b"")
    assert {each: each.read_bytes() for each in book.store.path.parent.iterdir()} == before


@pytest.mark.parametrize("command", ["import", "load"])
def test_a_command_that_puts_makes_a_store_that_is_not_there(book, command):
    assert book.said(command) == Said(0, b"")
    assert book.store.file.exists()
    assert [book.said(name.split()[0], *words).status for name, words in READING.items()] == [3] + [0] * 9 + [3, 3]


def test_an_input_that_is_too_long_is_told_before_a_store_that_is_not_there(book):
    assert book.said("mark", rows=b"a" * 1_048_577) == Said(9, b"")
    assert list(book.store.path.parent.iterdir()) == []


def test_sqlite_reads_the_rows(database):
    database.report(ROWS)
    lines = ["|".join(map(str, row)) for row in database.sql("SELECT * FROM versions_3 ORDER BY reference")]
    assert lines == ["ALPHA|T0001|1|0|123456AA3|0|" + FIGURES, "ALPHA|T0002|1|0|123456AA3|1|" + OTHER_FIGURES]
    lines = ["|".join(map(str, row)) for row in database.sql("SELECT * FROM issues_3")]
    assert lines == ["123456AA3|1|RIVERTON WATER 5S 2025|0|2020-01-01|2020-07-01|2025-01-01|50000000||0"]
    assert database.sql("PRAGMA integrity_check") == [("ok",)]


def test_a_dump_of_sqlite_has_each_trade(database):
    database.report(ROWS)
    with contextlib.closing(sqlite3.connect(database.store.path)) as opened:
        assert sum('INSERT INTO "versions_3"' in line for line in opened.iterdump()) == 2


def test_a_journal_has_its_slots_and_a_closed_gate_at_the_end(journal):
    """The body of the issue has 52 bytes, and that of each trade 102."""
    journal.report(ROWS)
    data = journal.store.file.read_bytes()
    assert len(data) == 272
    assert data[:57] == SLOT
    assert (data[57:62].hex(), data[164:169].hex()) == ("0100000066", "0100000066")
    assert data[271] == 0


def test_a_closed_log_has_no_rows(database):
    """The file of a store that was closed is the whole of it, also if an issue alone was put."""
    log = database.store.path.with_name("store-wal")
    database.report(ROWS)
    assert log.stat().st_size == EMPTY_LOG
    before = database.store.path.read_bytes()
    assert database.has("T0001")
    assert database.store.path.read_bytes() == before
    assert log.stat().st_size == EMPTY_LOG
    assert database.report("issue,990034AA8,TOWN OF SAMPLE,zero,2020-01-01,,2035-01-01,,\n") == b"1,added,990034AA8\n"
    assert log.stat().st_size == EMPTY_LOG


def test_a_first_put_that_was_cut_leaves_a_journal_of_nothing(journal):
    journal.report(ROWS)
    good = journal.store.file.read_bytes()
    journal.store.file.write_bytes(b"\0" + good[1:57])
    assert journal.report(ROWS) == REPORT
    assert journal.store.file.read_bytes() == good


def test_an_empty_file_is_a_store_of_nothing(book):
    book.store.file.touch()
    assert book.report(ROWS) == REPORT


def test_bytes_after_the_last_gate_of_a_journal_are_a_put_that_was_not_answered(journal):
    journal.report(ROWS)
    with journal.store.file.open("ab") as file:
        file.write(b"\1\2\3")
    assert "TOTAL 10197.50" in journal.confirmed("T0002").text.splitlines()


def test_a_journal_may_stand_in_a_file_of_more_than_its_greatest_size(journal):
    journal.report(ROWS)
    size = 2 ** 40 + 1
    try:
        os.truncate(journal.store.file, size)
    except OSError:
        pytest.skip("no file can have more than 2^40 bytes here")
    assert "TOTAL 10197.50" in journal.confirmed("T0002").text.splitlines()
    assert journal.report(ROWS) == REPORT
    assert journal.store.file.stat().st_size == size


def test_a_portfolio_has_at_most_1048576_bytes(book):
    book.report(ROWS)
    assert book.said("mark", rows=b"\n" * 1_048_576) == Said(0, b"TOTAL,0,0.00\n")
    assert book.said("mark", rows=b"\n" * 1_048_577) == Said(9, b"")


def test_equal_rows_of_a_portfolio_have_equal_marks(book):
    book.report(ROWS)
    said = book.said("mark", rows="123456AA3,25000,2024-04-01,4\n" * 4096)
    marks = [f"{place},marked,123456AA3,100.725,2025-01-01,25493.75" for place in range(1, 4097)]
    assert said.text.splitlines() == marks + ["TOTAL,4096,104422400.00"]


def test_commands_that_only_read_leave_the_files_of_a_store_as_they_were(book):
    """A log that is empty begins with another salt afterwards, so it is removed before."""
    book.report(ROWS)
    book.store.path.with_name("store-wal").unlink(missing_ok=True)
    is_read(book)


def is_read(book) -> None:
    """The commands that only read answer, and leave each file as it is."""
    before = book.store.state()
    assert book.has("T0001")
    assert book.said("positions", "--desk=ALPHA") == Said(0, b"123456AA3 2 25000 10000 15000 15296.25\n")
    assert book.said("mark", rows="123456AA3,25000,2024-04-01,4\n") == Said(
        0, b"1,marked,123456AA3,100.725,2025-01-01,25493.75\nTOTAL,1,25493.75\n")
    for words in (("export",), ("export", "--issues"), ("export", "--desk=ALPHA"), ("list", "--desk=ALPHA"),
                  ("confirm", "--desk=ALPHA", "--all"), ("check-store",), ("figures",)):
        said = book.said(*words)
        assert (said.status, bool(said.output)) == (0, True)
    assert book.said("check", "--desk=ALPHA", rows="reference,par\nT0001,25000\n") == Said(
        3, b"1,right\n0,missing,T0002\nTOTAL,1,1,0,1,0,0\n")
    assert book.store.state() == before


def test_a_rollback_journal_stays_until_something_is_put(database):
    database.report(ROWS)
    assert database.sql("PRAGMA journal_mode = delete") == [("delete",)]
    is_read(database)
    assert database.sql("PRAGMA journal_mode") == [("delete",)]
    assert database.report(ROWS) == REPORT
