"""What check-store finds in a file of sqlite that fits its seal, of which the other commands read what they need alone;
and the seal that it leaves."""
from __future__ import annotations

import os
from collections.abc import Callable

import pytest

from support.books import Book, trade, trades
from support.checks import REFUSED, checked, sound
from support.program import Said
from support.seals import sealed
from support.stores import ROWS

INDEX = "sqlite_autoindex_versions_3_1"
KEY = ",\n  PRIMARY KEY (desk, reference, number)"


@pytest.fixture
def large(database):
    """A store of some pages."""
    database.report(ROWS.decode() + trades(400))
    assert checked(database) == sound(2, ALPHA=402, HELD=4)
    return database


def spoil(book: Book, page: int) -> None:
    """Turns bits in the byte that says of what kind a page is. The first page has the header of the file before it."""
    data = book.store.path.read_bytes()
    place = page * page_size(data) + (100 if page == 0 else 0)
    with open(book.store.path, "r+b") as file:
        file.seek(place)
        file.write(bytes([data[place] ^ 0x55]))


def page_size(data: bytes) -> int:
    return int.from_bytes(data[16:18], "big")


def pages(book: Book) -> range:
    data = book.store.path.read_bytes()
    return range(len(data) // page_size(data))


def test_a_byte_that_is_written_without_a_later_time_is_seen(large):
    """Its size and its time are those of the seal. The system has another time, at which they were changed."""
    before = os.stat(large.store.path)
    spoil(large, len(pages(large)) // 2)
    os.utime(large.store.path, ns=(before.st_atime_ns, before.st_mtime_ns))
    after = os.stat(large.store.path)
    assert (after.st_size, after.st_mtime_ns) == (before.st_size, before.st_mtime_ns)
    assert checked(large) == REFUSED
    assert large.confirmed("T0001") == REFUSED


def test_a_page_that_a_disk_has_spoiled_is_seen_by_a_check_alone(large):
    """A disk changes no time with a byte. Here the seal is written for the spoiled file, and the other commands answer
    from the pages that they need."""
    good, right = large.store.path.read_bytes(), large.confirmed("T0001")
    answered = 0
    for page in pages(large):
        spoil(large, page)
        sealed(large.store)
        answered += large.confirmed("T0001") == right
        assert checked(large) == REFUSED, page
        large.store.path.write_bytes(good)
    assert answered > len(pages(large)) // 4
    assert checked(large) == sound(2, ALPHA=402, HELD=4)


def with_the_index_hidden(book: Book, change: Callable[[], object]) -> None:
    """Makes a change while the schema does not name the index of the versions, so that sqlite leaves it as it is."""
    before = book.sql("SELECT * FROM sqlite_schema")
    [(place, root)] = book.sql(f"SELECT rowid, rootpage FROM sqlite_schema WHERE name = '{INDEX}'")
    book.sql(f"PRAGMA writable_schema = ON;\nDELETE FROM sqlite_schema WHERE name = '{INDEX}';\n"
             f"UPDATE sqlite_schema SET sql = replace(sql, '{KEY}', '') WHERE name = 'versions_3'")
    change()
    book.sql("PRAGMA writable_schema = ON;\n"
             f"UPDATE sqlite_schema SET sql = replace(sql, '\n) STRICT', '{KEY}\n) STRICT') "
             "WHERE name = 'versions_3';\n"
             "INSERT INTO sqlite_schema (rowid, type, name, tbl_name, rootpage) "
             f"VALUES ({place}, 'index', '{INDEX}', 'versions_3', {root})")
    assert book.sql("SELECT * FROM sqlite_schema") == before


def without_its_key(book: Book) -> None:
    """The row of T0002 stands in the table and has no key in the index."""
    [row] = book.sql("SELECT rowid, * FROM versions_3 WHERE reference = 'T0002'")
    names = ["rowid", *(name for _, name, *_ in book.sql("PRAGMA table_info(versions_3)"))]
    book.sql("DELETE FROM versions_3 WHERE reference = 'T0002'")
    with_the_index_hidden(book, lambda: book.sql(
        f"INSERT INTO versions_3 ({', '.join(names)}) VALUES ({', '.join(map(repr, row))})"))


def without_its_row(book: Book) -> None:
    """The key of T0002 stands in the index and has no row in the table."""
    with_the_index_hidden(book, lambda: book.sql("DELETE FROM versions_3 WHERE reference = 'T0002'"))


@pytest.mark.parametrize("change", [without_its_key, without_its_row])
@pytest.mark.parametrize("has_seal", [False, True], ids=["audited", "sealed"])
def test_an_index_that_is_not_of_its_table_is_refused(database, change, has_seal):
    """If a seal is believed, the trade beside it is still answered."""
    database.report(ROWS.decode() + trade("T0003"))
    change(database)
    assert database.sql("SELECT COUNT(*) FROM versions_3 NOT INDEXED") == [(3 if change is without_its_key else 2,)]
    assert database.sql("PRAGMA integrity_check") != [("ok",)]
    if has_seal:
        sealed(database.store)
        assert database.has("T0001")
    assert checked(database) == REFUSED


def test_a_key_that_only_a_check_misses(database):
    """Whoever asks for the trade is told that there is none."""
    database.report(ROWS.decode() + trade("T0003"))
    without_its_key(database)
    sealed(database.store)
    assert database.confirmed("T0002") == Said(3, b"REFUSED 2 UnknownTrade\n")
    assert checked(database) == REFUSED


def test_a_sound_file_has_its_seal_afterwards(database):
    database.report(ROWS)
    seal = database.store.seal.read_bytes()
    assert checked(database) == sound(1, ALPHA=2)
    assert database.store.seal.read_bytes() == seal
    database.store.seal.unlink()
    assert checked(database) == sound(1, ALPHA=2)
    assert database.store.seal.read_bytes() == seal


@pytest.mark.parametrize("seal", [b"", b"muni seal 1\n", b"muni seal 9\nstore\n", b"\0" * 400],
                         ids=["empty", "cut-off", "other", "zeros"])
def test_what_is_no_seal_is_written_anew(database, seal):
    database.report(ROWS)
    good = database.store.seal.read_bytes()
    database.store.seal.write_bytes(seal)
    assert checked(database) == sound(1, ALPHA=2)
    assert database.store.seal.read_bytes() == good


def test_a_file_with_a_table_of_ones_own_is_checked_and_gets_its_seal(database):
    database.report(ROWS)
    database.store.seal.unlink()
    database.sql("CREATE TABLE notes (text TEXT)")
    assert checked(database) == sound(1, ALPHA=2)
    assert database.store.seal.exists()
    assert database.sql("PRAGMA integrity_check") == [("ok",)]


def test_a_journal_has_no_seal(journal):
    journal.report(ROWS)
    assert checked(journal) == sound(1, ALPHA=2)
    assert [each.name for each in journal.store.path.parent.iterdir()] == ["store.journal"]
