"""Look-ups and puts by the trees of a database, and the seal that says that it need not be audited."""
import errno
import os
import shutil
import sqlite3
import time

import pytest

from support.answers import entered
from support.books import Book, trade, trades
from support.faults import Fault
from support.program import Said
from support.seals import sealed
from support.server import Server
from support.stores import REPORT, ROWS, Store

BESIDE = ("CREATE TABLE notes (text);\nCREATE INDEX by_text ON notes (text)",
          "CREATE TABLE words (word TEXT PRIMARY KEY) WITHOUT ROWID",
          "CREATE TABLE counts (id INTEGER PRIMARY KEY AUTOINCREMENT)",
          "CREATE VIEW live AS SELECT * FROM versions_3 WHERE act <> 2", "ANALYZE", "VACUUM")
BARRED = (("CREATE INDEX by_settlement ON versions_3 (settle)", "DROP INDEX by_settlement"),
          ("CREATE UNIQUE INDEX names ON ISSUES_3 (name, number)", "DROP INDEX names"),
          ("CREATE TRIGGER seen AFTER INSERT ON Versions_3 BEGIN SELECT 1; END", "DROP TRIGGER seen"),
          ("ALTER TABLE versions_3 ADD COLUMN note TEXT", "ALTER TABLE versions_3 DROP COLUMN note"))
ISSUE = "issue,990034AA8,TOWN OF SAMPLE,zero,2020-01-01,,2035-01-01,,\n"
AMENDMENT = ("amend,123456AA3,{number},RIVERTON WATER 5S 2025,periodic,2020-01-01,2020-07-01,2025-01-01,{coupon},\n")
CHANGES = (trade("T0003") + "correct,ALPHA,T0001,2,123456AA3,buy,30000,2024-04-01,yield,4\n"
           "cancel,ALPHA,T0002,2\n" + ISSUE + "trade,BETA,T0001,123456AA3,sell,5000,2024-04-01,price,100\n")


def spoiled(book: Book) -> None:
    """Changes the kind of the last page of the file, which has nothing of `T0001`."""
    place = book.store.path.stat().st_size - 4096
    with open(book.store.path, "r+b") as file:
        file.seek(place)
        old = file.read(1)
        file.seek(place)
        file.write(bytes([old[0] ^ 0x55]))


def is_audited(book: Book) -> bool:
    """Whether the next command reads more of the file than it needs: it notices a byte that is far away."""
    return not book.has("T0001")


@pytest.fixture
def large(database):
    """A store of some hundred pages."""
    database.report(ROWS.decode() + trades(400))
    return database


def test_sqlite_finds_each_put_in_the_table_and_in_its_index(database):
    database.report(ROWS)
    for row in CHANGES.splitlines(keepends=True):
        assert b"refused" not in database.report(row)
        assert database.sql("PRAGMA integrity_check") == [("ok",)]
    # Answered from the index alone, and from the rows alone.
    from_index = "SELECT desk, reference, number FROM versions_3 INDEXED BY sqlite_autoindex_versions_3_1"
    from_rows = "SELECT desk, reference, number FROM versions_3 NOT INDEXED"
    assert sorted(database.sql(from_index)) == sorted(database.sql(from_rows))
    assert len(database.sql(from_rows)) == 6
    rowids = [row[0] for row in database.sql("SELECT rowid FROM versions_3 ORDER BY rowid")]
    assert rowids == list(range(1, 7))


def test_a_row_that_sqlite_puts_is_found_and_followed(database):
    """Of rowids that sqlite has left out the next is one more than the last."""
    database.report(ROWS)
    database.sql("UPDATE versions_3 SET rowid = 70 WHERE reference = 'T0002'")
    database.report(trade("T0003"))
    assert database.sql("SELECT rowid FROM versions_3 WHERE reference = 'T0003'") == [(71,)]
    assert database.confirmed("T0002").status == 0 and database.has("T0003")


@pytest.mark.parametrize("statements", BESIDE)
def test_what_stands_beside_the_tables_is_left_and_costs_no_audit(database, statements):
    database.report(ROWS)
    database.sql(statements)
    listed = database.sql("SELECT * FROM sqlite_schema ORDER BY name")
    database.report(ROWS.decode() + trades(400))
    assert b"refused" not in database.report(CHANGES)
    assert database.sql("PRAGMA integrity_check") == [("ok",)]
    assert database.sql("SELECT * FROM sqlite_schema ORDER BY name") == listed
    assert database.report(ROWS) == REPORT
    spoiled(database)
    sealed(database.store)
    # The last page has the changes of T0001.
    assert database.has("T00001")


@pytest.mark.parametrize(("statement", "undone"), BARRED, ids=("index", "unique", "trigger", "column"))
def test_what_must_not_be_on_the_tables_is_refused_until_it_is_dropped(database, statement, undone):
    """By every command, and no byte of the file changes. Nothing is lost."""
    database.report(ROWS)
    database.sql(statement)
    kept = database.store.path.read_bytes()
    for words in (("confirm", "--desk=ALPHA", "--ref=T0001"), ("import",), ("check-store",)):
        assert database.said(*words, rows=trade("T0003") if words[0] == "import" else b"") == Said(6, b"")
    assert database.store.path.read_bytes() == kept
    assert not database.store.path.with_name("store-wal").exists()
    database.sql(undone)
    assert database.report(ROWS) == REPORT
    assert b"refused" not in database.report(CHANGES)
    assert database.sql("PRAGMA integrity_check") == [("ok",)]


def test_terms_are_found_by_their_numbers(database):
    """A trade is confirmed by the terms by which it was figured, a new one goes by the last ones or by those it names."""
    database.report(ROWS)
    was = database.confirmed("T0001")
    for number, coupon in (2, "4.5"), (3, "4.25"):
        row = AMENDMENT.format(number=number, coupon=coupon)
        for _ in range(2):
            assert database.report(row) == f"1,amended,123456AA3,{number}\n".encode()
    database.report(ISSUE + trade("T0003") + trade("T0004").replace(",4\n", ",4,,1\n"))
    assert database.confirmed("T0001") == was
    shown = [database.confirmed(reference).text.splitlines()[6] for reference in ("T0001", "T0003", "T0004")]
    assert shown == ["COUPON 5.0000000", "COUPON 4.2500000", "COUPON 5.0000000"]
    assert database.sql("SELECT reference, issue FROM versions_3 ORDER BY reference") == [
        ("T0001", 1), ("T0002", 1), ("T0003", 3), ("T0004", 1)]
    from_index = "SELECT cusip, number FROM issues_3 INDEXED BY sqlite_autoindex_issues_3_1 ORDER BY cusip, number"
    assert database.sql(from_index) == [("123456AA3", 1), ("123456AA3", 2), ("123456AA3", 3), ("990034AA8", 1)]
    assert [line.split(",")[:3] for line in database.said("export", "--issues").text.splitlines()] == [
        ["issue", "123456AA3", "RIVERTON WATER 5S 2025"], ["amend", "123456AA3", "2"], ["amend", "123456AA3", "3"],
        ["issue", "990034AA8", "TOWN OF SAMPLE"]]
    assert database.said("check-store").text.endswith("\nSOUND\n")


def test_a_store_that_fits_its_seal_is_not_audited(large):
    """A byte that a disk spoils by itself changes no time. Here the seal is written for the spoiled file."""
    spoiled(large)
    assert is_audited(large)
    sealed(large.store)
    assert large.has("T0001")
    large.store.seal.unlink()
    assert is_audited(large)


@pytest.mark.parametrize("change", (
    spoiled,
    lambda book: os.utime(book.store.path),
    lambda book: os.chmod(book.store.path, 0o600),
    lambda book: book.store.path.with_name("store-wal").write_bytes(bytes(100)),
), ids=("byte", "time", "mode", "log"))
def test_what_changes_a_store_breaks_its_seal(large, change):
    """The command that comes next audits the file: it refuses it, or seals it anew."""
    assert large.has("T0001")
    written = large.store.seal.stat().st_mtime_ns
    change(large)
    assert large.said("list", "--desk=ALPHA").status == 6 or large.store.seal.stat().st_mtime_ns != written


def test_a_file_that_is_put_in_its_place_is_audited(large, tmp_path):
    """A copy of before has other times, also if it has the same bytes and its seal is put beside it."""
    kept = tmp_path / "kept"
    kept.mkdir()
    for file in ("store", "store-wal", "store-seal"):
        shutil.copy2(tmp_path / file, kept / file)
    copy = Book(large.muni, Store("sqlite", kept / "store"))
    spoiled(copy)
    assert is_audited(copy)


def test_rows_that_sqlite_writes_are_seen_at_once(database):
    """The seal is of before, also within the same tick of the clock."""
    database.report(ROWS)
    for at in range(20):
        assert database.has("T0001")
        database.sql(f"UPDATE versions_3 SET reference = 'T{at:04}X' WHERE reference = 'T0001'")
        assert not database.has("T0001") and database.has(f"T{at:04}X")
        database.sql(f"UPDATE versions_3 SET reference = 'T0001' WHERE reference = 'T{at:04}X'")


def test_a_seal_is_written_again_after_a_kill(database):
    database.report(trades(3))
    before = database.store.seal.read_bytes()
    with Server(database.muni, database.store.name, 1000) as server:
        assert entered(server, "H1") == 200
        server.process.kill()
        server.process.wait()
    assert database.has("H1")
    assert database.store.seal.read_bytes() != before
    assert database.held() == 4


@pytest.mark.parametrize("seal", (b"", b"muni seal 1\n", b"\0" * 400, b"muni seal 9\nstore\n"))
def test_what_is_no_seal_is_written_anew(database, seal):
    database.report(ROWS)
    good = database.store.seal.read_bytes()
    database.store.seal.write_bytes(seal)
    assert database.has("T0001")
    assert database.store.seal.read_bytes() == good


def test_what_is_not_a_seal_stays(database, tmp_path):
    database.report(ROWS)
    database.store.seal.unlink()
    other = tmp_path / "notes"
    other.write_text("mine")
    database.store.seal.symlink_to(other)
    assert database.has("T0001")
    assert database.report(trade("T0003")).count(b"confirmed") == 1
    assert other.read_text() == "mine" and database.store.seal.is_symlink()
    database.store.seal.unlink()
    database.store.seal.write_text("a letter")
    assert database.has("T0003")
    assert database.store.seal.read_text() == "a letter"


def test_a_reading_command_leaves_the_seal(database):
    database.report(ROWS)
    before = database.store.seal.stat().st_mtime_ns
    time.sleep(0.02)
    assert database.has("T0001") and database.held() == 2
    assert database.store.seal.stat().st_mtime_ns == before


@pytest.mark.parametrize("words", (("confirm", "--desk=ALPHA", "--ref=T0001"), ("import",)))
def test_calls_that_fail_over_a_seal_do_no_harm(faults, database, words):
    database.report(ROWS)
    rows = ROWS if words[0] == "import" else b""
    right = Book(faults.counting(database.muni, over_seals=True), database.store).said(*words, rows=rows)
    assert right.status == 0
    for call in ("open", "pread", "pwrite", "ftruncate"):
        for at in range(1, 4):
            database.store.seal.unlink(missing_ok=True)
            fault = Fault(call, at, errno.EIO)
            assert Book(faults.at_seals(database.muni, fault), database.store).said(*words, rows=rows) == right, fault
            assert database.said(*words, rows=rows) == right, fault


def test_each_byte_of_a_small_store(database, tmp_path):
    """A command over a spoiled file answers as before or says that the store failed. Most of the bytes are free."""
    database.report(ROWS)
    good = database.store.path.read_bytes()
    right = database.confirmed("T0001")
    refused = 0
    for at in range(0, len(good), 61):
        database.store.path.write_bytes(good[:at] + bytes([good[at] ^ 0xFF]) + good[at + 1:])
        said = database.confirmed("T0001")
        assert said == right or said.status == 6, at
        refused += said.status == 6
    assert refused > 10
    database.store.path.write_bytes(good)
    assert database.confirmed("T0001") == right


def test_old_and_new_rows_side_by_side(database):
    """A desk of many versions is paged and counted as sqlite counts it."""
    database.report(ROWS.decode() + trades(120))
    for number in (2, 3, 4):
        database.report("".join(f"correct,ALPHA,T{at:05},{number},123456AA3,buy,{1000 * number},2024-04-01,yield,4\n"
                                for at in range(1, 60)))
    held = database.sql("SELECT COUNT(DISTINCT reference) FROM versions_3 WHERE desk = 'ALPHA'")[0][0]
    assert database.held() == held
    assert len(database.said("list", "--desk=ALPHA").output.splitlines()) == held + 1
    with pytest.raises(sqlite3.OperationalError):
        database.sql("CREATE TABLE versions_3 (desk)")
