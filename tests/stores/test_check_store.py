"""What check-store says: how much is kept, part by part, and before which part its lines end."""
from __future__ import annotations

import contextlib
import fcntl
import os
import random
import sqlite3

import pytest

from support.answers import entered
from support.books import ISSUE, Book, trade
from support.checks import REFUSED, checked, sound, told
from support.exported import Kept, book as book_of, text_of
from support.program import PATIENCE, ROOT, Said
from support.stores import KINDS, ROWS, Store

NOTE = "issue,990081AB7,MARLOW NOTES,at-redemption,2024-02-29,,2025-02-28,3.9,,actual/365\n"

# Rows that no other command finds or misses.
LOST = ["UPDATE versions_3 SET number = 0 WHERE reference = 'T0002'",
        "UPDATE versions_3 SET number = -5 WHERE reference = 'T0002'",
        "UPDATE versions_3 SET number = 2 WHERE reference = 'T0002'",
        "UPDATE versions_3 SET reference = '' WHERE reference = 'T0002'",
        "UPDATE versions_3 SET desk = '' WHERE reference = 'T0002'",
        "UPDATE issues_3 SET cusip = '' WHERE cusip = '990081AB7'",
        "UPDATE issues_3 SET number = 0 WHERE cusip = '990081AB7'",
        "UPDATE issues_3 SET number = 2 WHERE cusip = '990081AB7'",
        "CREATE TEMP TABLE one AS SELECT * FROM versions_3 WHERE reference = 'T0002';\n"
        "UPDATE one SET number = 0;\nINSERT INTO versions_3 SELECT * FROM one"]

# Columns of a version and of an issue that do not read.
UNREAD = ["act = 99", "side = 2", "par = 0", "settle = '2024-02-30'", "yld = 1000000", "label = 4", "total = -1"]
UNREAD_OF_ISSUE = ["coupon = -1", "coupon = 300000001", "kind = 9", "dated = '2020-02-30'", "calls = 'x'", "basis = 2"]


def rows_of(desk: str, *references: str) -> str:
    """The rows of trades of a desk."""
    return "".join(trade(reference).replace("ALPHA", desk) for reference in references)


def test_an_empty_store_is_sound(book):
    book.report("")
    assert checked(book) == sound(0)
    assert checked(book) == sound(0)


def test_a_file_of_nothing_is_sound(book):
    book.store.file.touch()
    assert checked(book) == sound(0)


def test_issues_without_trades(book):
    book.report(NOTE + ISSUE)
    assert checked(book) == sound(2)


def test_the_day_of_the_examples(book):
    book.report((ROOT / "examples/book.csv").read_bytes())
    assert checked(book) == sound(23, INST=20, RETAIL=14, SHORT=12)


def test_desks_are_in_the_order_of_their_names(book):
    names = ["9Z", "A", "A0", "AB", "B", "ZZZZZZZZZZZZZZZZ"]
    rows = [rows_of(name, *(f"T{each}" for each in range(place + 1))) for place, name in enumerate(names)]
    book.report(ISSUE + "".join(random.Random(1).sample(rows, len(rows))))
    wanted = sound(1, **{name: place + 1 for place, name in enumerate(names)})
    assert checked(book) == wanted


def test_each_version_of_a_trade_counts(book):
    """Also the cancel. What was refused, or was sent again, is no version."""
    book.report(ROWS + b"correct,ALPHA,T0001,2,123456AA3,buy,30000,2024-04-01,yield,4\ncancel,ALPHA,T0001,3\n"
                b"cancel,ALPHA,T0001,3\ncancel,ALPHA,T0001,4\ntrade,BETA,T0001,123456AA3,buy,-5,2024-04-01,yield,4\n"
                b"trade,GAMMA,T0001,990034AA8,buy,25000,2024-04-01,yield,4\n")
    assert checked(book) == sound(1, ALPHA=4)


def test_a_trade_of_99_versions_and_its_cancel(book):
    corrections = "".join(f"correct,ALPHA,T0001,{number},123456AA3,buy,{number},2024-04-01,yield,4\n"
                          for number in range(2, 100))
    book.report(ISSUE + trade("T0001") + corrections + "cancel,ALPHA,T0001,100\n")
    assert checked(book) == sound(1, ALPHA=100)


@pytest.mark.parametrize("kind", KINDS)
def test_many_issues_and_trades_are_counted_as_they_were_put_in(muni, tmp_path, kind):
    book, kept, rows = Book(muni, Store(kind, tmp_path / "store")), Kept(), book_of(random.Random(0), 60, 500)
    kept.take(rows, book.report(text_of(rows)))
    desks = {desk: sum(map(len, versions.values())) for desk, versions in sorted(kept.desks.items())}
    assert len(desks) > 1
    # Each of the terms of an issue counts.
    terms = sum(map(len, kept.issues.values()))
    assert len(kept.issues) == 60 < terms
    assert checked(book) == sound(terms, **desks)
    if kind == "sqlite":
        assert list(desks.items()) == book.sql("SELECT desk, COUNT(*) FROM versions_3 GROUP BY desk ORDER BY desk")


def test_what_is_in_the_log_of_a_server_that_was_killed_is_read(book, serve):
    book.report(ROWS)
    server = serve(book.store)
    assert entered(server, "H1") == 200
    server.process.kill()
    server.process.wait()
    for _ in range(2):
        assert checked(book) == sound(1, ALPHA=3)


def test_a_check_leaves_what_is_kept(book):
    """A log that is empty begins with another salt afterwards, so it is removed before."""
    book.report(ROWS)
    book.store.path.with_name("store-wal").unlink(missing_ok=True)
    before = book.store.state()
    assert checked(book) == sound(1, ALPHA=2)
    assert book.store.state() == before
    assert book.has("T0001")


def test_other_words_are_no_command_and_make_no_file(book):
    for words in (("--desk=ALPHA",), ("--issues",), ("--workers=1",), (book.store.word,), ("S",)):
        assert book.said("check-store", *words) == Said(2, b"")
    assert book.muni.run("check-store") == Said(2, b"")
    assert not book.store.file.exists()


def test_an_output_that_is_full_has_its_status(book):
    book.report(ROWS)
    with open("/dev/full", "wb") as full:
        assert book.muni.start("check-store", book.store.word, stdout=full).wait(PATIENCE) == 5
    assert checked(book) == sound(1, ALPHA=2)


def test_an_output_that_nobody_reads_has_its_status(book):
    book.report(ROWS)
    reading, writing = os.pipe()
    os.close(reading)
    process = book.muni.start("check-store", book.store.word, stdout=writing)
    os.close(writing)
    assert process.wait(PATIENCE) == 5


def test_a_store_that_a_server_has_is_refused(book, serve):
    book.report(ROWS)
    server = serve(book.store)
    assert server.ask(b"GET /lists/ALPHA HTTP/1.1\r\n\r\n").startswith(b"HTTP/1.1 200")
    assert checked(book) == REFUSED
    server.__exit__()
    assert checked(book) == sound(1, ALPHA=2)


def test_a_database_that_sqlite_reads_is_refused(database):
    database.report(ROWS)
    with contextlib.closing(sqlite3.connect(database.store.path, isolation_level=None)) as reader:
        reader.execute("SELECT COUNT(*) FROM versions_3").fetchall()
        assert checked(database) == REFUSED
    assert checked(database) == sound(1, ALPHA=2)


def test_a_journal_with_a_lock_is_refused(journal):
    journal.report(ROWS)
    with journal.store.file.open("rb") as file:
        fcntl.flock(file, fcntl.LOCK_SH)
        assert checked(journal) == REFUSED
    assert checked(journal) == sound(1, ALPHA=2)


@pytest.mark.parametrize("content", [b"Ledger of 2024\n25,493.75\n", b"SQLite format 3, of a ledger", ROWS],
                         ids=["ledger", "ledger-as-sqlite", "rows"])
def test_a_file_that_is_no_store_is_refused_and_stays(book, content):
    book.store.file.write_bytes(content)
    before = book.store.state()
    assert checked(book) == REFUSED
    assert book.store.state() == before


def test_a_folder_is_no_store(book):
    book.store.file.mkdir()
    assert checked(book) == REFUSED


@pytest.fixture
def three(database):
    """A store with three desks, the second one with many trades."""
    database.report(NOTE + ISSUE + rows_of("A", "T1", "T2") + rows_of("B", *(f"T{each:05}" for each in range(300)))
                    + "correct,B,T00150,2,123456AA3,buy,30000,2024-04-01,yield,4\n" + rows_of("C", "T1"))
    assert checked(database) == sound(2, A=2, B=301, C=1)
    return database


@pytest.mark.parametrize("change", UNREAD)
def test_a_desk_with_a_version_that_does_not_read_has_no_line(three, change):
    """It is the one after the last line, and no desk after it is told."""
    three.sql(f"UPDATE versions_3 SET {change} WHERE desk = 'B' AND reference = 'T00299'")
    assert checked(three) == Said(6, told(2, A=2))
    # What the other commands say of it.
    assert three.said("list", "--desk=B").status == 6
    assert three.said("list", "--desk=C").status == three.said("export", "--issues").status == 0


@pytest.mark.parametrize(("desk", "lines"), [("A", told(2)), ("B", told(2, A=2)), ("C", told(2, A=2, B=301))])
def test_the_lines_end_before_the_desk_that_does_not_read(three, desk, lines):
    three.sql(f"UPDATE versions_3 SET act = 99 WHERE desk = '{desk}'")
    assert checked(three) == Said(6, lines)


def test_a_row_that_is_mended_reads_again(three):
    three.sql("UPDATE versions_3 SET act = 99 WHERE desk = 'B' AND reference = 'T00007'")
    assert checked(three) == Said(6, told(2, A=2))
    three.sql("UPDATE versions_3 SET act = 0 WHERE desk = 'B' AND reference = 'T00007'")
    assert checked(three) == sound(2, A=2, B=301, C=1)


def test_a_version_before_the_last_one_is_read_too(three):
    """A confirmation and a list need the last version alone."""
    three.sql("UPDATE versions_3 SET act = 99 WHERE reference = 'T00150' AND number = 1")
    assert three.said("list", "--desk=B").status == 0
    assert three.said("confirm", "--desk=B", "--ref=T00150").status == 0
    assert checked(three) == Said(6, told(2, A=2))


@pytest.mark.parametrize("change", UNREAD_OF_ISSUE)
def test_issues_of_which_one_does_not_read_have_no_line(three, change):
    three.sql(f"UPDATE issues_3 SET {change} WHERE cusip = '123456AA3'")
    assert checked(three) == REFUSED
    assert three.said("export", "--issues").status == 6
    assert three.said("list", "--desk=A").status == 0


@pytest.mark.parametrize("change", LOST, ids=range(len(LOST)))
def test_a_row_that_no_command_finds_is_no_sound_store(database, change):
    database.report(ROWS.decode() + NOTE)
    assert checked(database) == sound(2, ALPHA=2)
    database.sql(change)
    assert database.sql("PRAGMA integrity_check") == [("ok",)]
    assert checked(database) == REFUSED


@pytest.mark.parametrize("content", [b"\1\0\0\0", b"\1\0\0\0\1\7", b"\2"], ids=["cut-off", "no-kind", "no-gate"])
def test_a_journal_with_a_slot_that_does_not_read_is_refused(journal, content):
    """It is read as a whole, so no part of it is told."""
    journal.report(ROWS)
    good = journal.store.file.read_bytes()
    journal.store.file.write_bytes(good[:-1] + content if content[0] == 1 else content + good[1:])
    assert checked(journal) == REFUSED
    journal.store.file.write_bytes(good)
    assert checked(journal) == sound(1, ALPHA=2)


def test_a_gate_that_was_closed_ends_a_journal_and_the_counts_tell(journal):
    """The gate of the second trade."""
    journal.report(ROWS)
    data = bytearray(journal.store.file.read_bytes())
    data[164] = 0
    journal.store.file.write_bytes(data)
    assert checked(journal) == sound(1, ALPHA=1)
