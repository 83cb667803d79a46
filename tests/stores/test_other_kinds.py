"""Files that are no store: every command refuses them as a fault of the store, and leaves them as they were."""
import contextlib
import os
import pathlib
import shutil
import sqlite3
import subprocess

import pytest

from support.books import Book, needs_strict_tables
from support.program import Said
from support.stores import KINDS, REPORT, ROWS, Store

REFUSED = Said(6, b"")
TEXTS = {
    "a text of a ledger": b"Ledger of 2024\n25,493.75\n",
    "a text that begins as SQLite": b"SQLite format 3, of a ledger",
    "rows": ROWS,
    "one letter": b"x",
    "one letter of SQLite": b"S",
    "zeros and ones as text": b"0101",
}
# What a journal of nothing may begin with too.
ZEROS = {"one byte of 0": b"\0", "a page of 0": b"\0" * 4096}


def is_refused(book: Book) -> None:
    """Each command ends with the status of a store that failed, writes nothing, and makes no file."""
    before = book.store.state()
    assert book.said("import", rows=ROWS) == REFUSED
    assert book.confirmed("T0001") == REFUSED
    assert book.said("positions", "--desk=ALPHA") == REFUSED
    assert book.said("mark") == book.said("figures") == book.said("check") == book.said("check-store") == REFUSED
    assert book.said("export") == book.said("export", "--issues") == book.said("export", "--desk=ALPHA") == REFUSED
    assert book.said("list", "--desk=ALPHA") == book.said("confirm", "--desk=ALPHA", "--all") == REFUSED
    assert book.said("serve", "--port=1", "--connections=1") == REFUSED
    assert book.store.state() == before


@pytest.mark.parametrize("content", TEXTS.values(), ids=TEXTS)
def test_a_text_is_no_store(book, content):
    book.store.file.write_bytes(content)
    is_refused(book)


@pytest.mark.parametrize("content", ZEROS.values(), ids=ZEROS)
def test_zeros_are_no_database(database, content):
    database.store.file.write_bytes(content)
    is_refused(database)


def test_a_store_of_the_other_kind_is_refused(book, tmp_path):
    other = Store(KINDS[1 - KINDS.index(book.store.kind)], tmp_path / "other")
    Book(book.muni, other).report(ROWS)
    shutil.copy(other.file, book.store.file)
    is_refused(book)


@pytest.mark.parametrize("statements", [
    "CREATE TABLE notes (text TEXT);\nINSERT INTO notes VALUES (1)",
    "CREATE TABLE notes (text TEXT);\nINSERT INTO notes VALUES (1);\nPRAGMA journal_mode = wal",
    "CREATE TABLE issues (number INTEGER, title TEXT);\nCREATE TABLE versions (number INTEGER)",
    "CREATE VIEW seven AS SELECT 7",
], ids=["another", "another-with-a-log", "other-tables-of-these-names", "a-view"])
def test_a_database_of_another_program_is_refused(database, statements):
    database.sql(statements)
    is_refused(database)


def test_a_database_of_another_program_that_is_in_its_log_alone_is_refused(database, tmp_path):
    """While sqlite has the database, what was put stands in the log alone."""
    needs_strict_tables()
    with contextlib.closing(sqlite3.connect(tmp_path / "live", isolation_level=None)) as live:
        live.execute("PRAGMA journal_mode = wal")
        live.execute("CREATE TABLE notes (text TEXT)")
        shutil.copy(tmp_path / "live", database.store.path)
        shutil.copy(tmp_path / "live-wal", tmp_path / "store-wal")
    is_refused(database)


def test_a_database_of_nothing_becomes_a_store(database):
    database.sql("PRAGMA user_version = 0;\nVACUUM")
    assert database.store.file.exists()
    assert database.report(ROWS) == REPORT
    assert database.sql("SELECT COUNT(*) FROM versions_3") == [(2,)]


@pytest.mark.parametrize("name", [":memory:", "file:named"])
def test_a_name_by_which_sqlite_opens_another_database_is_refused(muni, tmp_path, name):
    assert muni.run("import", f"--store={name}", rows=ROWS, folder=tmp_path) == REFUSED
    assert not list(tmp_path.iterdir())


@pytest.mark.parametrize("place", ["folder", "none/store"])
def test_a_path_of_no_file_is_refused(muni, tmp_path, place):
    for name in ("folder", "folder.journal"):
        (tmp_path / name).mkdir()
    for word in (f"--store={tmp_path / place}", f"--store=journal:{tmp_path / place}"):
        assert muni.run("import", word, rows=ROWS) == REFUSED
    assert sorted(each.name for each in tmp_path.iterdir()) == ["folder", "folder.journal"]


def test_a_file_of_the_system_is_refused(muni):
    assert muni.run("import", "--store=/proc/version", rows=ROWS) == REFUSED


def test_a_journal_that_may_not_be_written_is_refused(journal):
    """One user may write to any file but one that is not to be changed at all."""
    journal.report(ROWS)
    file = journal.store.file
    file.chmod(0o444)
    is_fixed = os.access(file, os.W_OK) and shutil.which("chattr") is not None
    if is_fixed:
        subprocess.run(["chattr", "+i", file], capture_output=True)
    try:
        if is_writable(file):
            pytest.skip("this user may write to any file")
        is_refused(journal)
    finally:
        if is_fixed:
            subprocess.run(["chattr", "-i", file], capture_output=True)


def is_writable(file: pathlib.Path) -> bool:
    try:
        with file.open("ab"):
            return True
    except OSError:
        return False
