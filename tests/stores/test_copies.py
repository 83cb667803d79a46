"""What docs/OPERATING.md says of the files of a store: which they are, copies, backups, moves, and looks by sqlite."""
import contextlib
import os
import pathlib
import shlex
import shutil
import sqlite3
import subprocess
import tempfile

import pytest

from support.answers import entered
from support.books import Book, trade, trades
from support.program import PATIENCE, ROOT, Program
from support.server import Server
from support.stores import Store

EMPTY_LOG = 41
WINDOW = "CREATE VIEW ranks AS SELECT reference, row_number() OVER (ORDER BY par) FROM versions_3"


def copied(book: Book, folder: pathlib.Path, *endings: str) -> Book:
    """The book over a copy of some files of its store: its name with each of the endings."""
    folder.mkdir()
    for ending in endings:
        shutil.copyfile(f"{book.store.path}{ending}", folder / f"{book.store.path.name}{ending}")
    return Book(book.muni, Store(book.store.kind, folder / book.store.path.name))


# How many versions `trades(3)` puts in: the three trades, and of the other desk an entry, a correction, and an entry
# and its cancel.
VERSIONS = 3 + 4


def log_size(book: Book) -> int:
    return os.path.getsize(f"{book.store.path}-wal")


def count_of(book: Book) -> object:
    """How many versions sqlite finds."""
    return book.sql("SELECT COUNT(*) FROM versions_3")[0][0]


def killed_after_a_trade(book: Book) -> None:
    with Server(book.muni, book.store.name, 1000) as server:
        assert entered(server, "H1") == 200


def test_the_files_after_a_command(database, tmp_path):
    database.report(trades(3))
    assert sorted(each.name for each in tmp_path.iterdir()) == ["store", "store-seal", "store-wal"]
    assert log_size(database) == EMPTY_LOG
    assert copied(database, tmp_path / "alone", "").held() == 3


def test_the_files_while_a_server_has_them(database):
    database.report(trades(3))
    with Server(database.muni, database.store.name, 1000) as server:
        assert entered(server, "H1") == 200
        assert log_size(database) > EMPTY_LOG
        assert database.said("positions", "--desk=ALPHA").status == 6
        with pytest.raises(sqlite3.OperationalError, match="database is locked"):
            count_of(database)


def test_the_files_after_a_kill(database, tmp_path):
    """Both together have all."""
    database.report(trades(3))
    killed_after_a_trade(database)
    assert copied(database, tmp_path / "both", "", "-wal").held() == 4
    assert copied(database, tmp_path / "one", "").held() == 3
    assert database.held() == 4
    database.report(trades(4))
    assert log_size(database) == EMPTY_LOG
    assert copied(database, tmp_path / "later", "").held() == 5


def test_a_store_that_is_moved_and_renamed(database, tmp_path):
    database.report(trades(3))
    killed_after_a_trade(database)
    (tmp_path / "moved").mkdir()
    for ending in ("", "-wal"):
        os.rename(f"{database.store.path}{ending}", tmp_path / f"moved/book{ending}")
    assert Book(database.muni, Store("sqlite", tmp_path / "moved/book")).held() == 4


def test_a_look_by_sqlite(database):
    database.report(trades(3))
    assert count_of(database) == VERSIONS
    assert database.held() == 3


def test_a_look_by_sqlite_keeps_a_store_until_it_ends(database):
    database.report(trades(3))
    with contextlib.closing(sqlite3.connect(database.store.path, isolation_level=None)) as reader:
        reader.execute("SELECT COUNT(*) FROM versions_3").fetchall()
        assert database.said("positions", "--desk=ALPHA").status == 6
    assert database.held() == 3


def test_a_store_that_is_read_from_another_database(database, tmp_path):
    database.report(trades(3))
    with contextlib.closing(sqlite3.connect(tmp_path / "own")) as own:
        own.execute("ATTACH ? AS store", (str(database.store.path),))
        assert own.execute("SELECT COUNT(*) FROM store.versions_3").fetchall() == [(VERSIONS,)]


@pytest.mark.parametrize(("statement", "undone"), [
    (WINDOW, "DROP VIEW ranks"),
    ("CREATE TABLE versions (a)", "DROP TABLE versions"),
], ids=["window", "table"])
def test_what_must_not_be_added(database, statement, undone):
    database.report(trades(3))
    database.sql(statement)
    assert database.said("positions", "--desk=ALPHA").status == 6
    database.sql(undone)
    assert database.held() == 3


@pytest.fixture
def readable(muni):
    """A database with three trades in a folder that may be read and not written, and the program beside it. The folders
    of pytest may be entered by one user alone, so this one is elsewhere."""
    folder = pathlib.Path(tempfile.mkdtemp(prefix="muni-readable-"))
    book = Book(muni, Store("sqlite", folder / "store"))
    book.report(trades(3))
    shutil.copy(muni.path, folder / "program")
    for name, mode in (("store", 0o444), ("store-wal", 0o444), ("program", 0o555), ("", 0o555)):
        (folder / name).chmod(mode)
    yield book
    folder.chmod(0o755)
    shutil.rmtree(folder)


def test_a_store_that_may_not_be_written(readable, tmp_path):
    """Root may write anything, so another user asks for it."""
    folder = readable.store.path.parent
    user = {"user": 65534, "group": 65534, "extra_groups": []} if os.geteuid() == 0 else {}
    came = subprocess.run([folder / "program", "positions", "--store=store", "--desk=ALPHA"], cwd=folder,
                          capture_output=True, timeout=PATIENCE, **user)
    assert (came.returncode, came.stdout) in ((6, b""), (0, b"123456AA3 3 75000 0 75000 76481.25\n"))
    with contextlib.closing(sqlite3.connect(f"file:{readable.store.path}?immutable=1", uri=True)) as opened:
        assert opened.execute("SELECT COUNT(*) FROM versions_3").fetchall() == [(VERSIONS,)]
    assert log_size(readable) == EMPTY_LOG
    assert copied(readable, tmp_path / "mine", "").held() == 3


def backup(book: Book, folder: pathlib.Path, before: pathlib.Path | None = None) -> tuple[int, str]:
    """The status of deploy/backup, and what it complains of. The commands of `before` are found first."""
    path = os.environ["PATH"] if before is None else f"{before}:{os.environ['PATH']}"
    came = subprocess.run([ROOT / "deploy/backup", book.store.path, folder], env={**os.environ, "PATH": path},
                          stdin=subprocess.DEVNULL, stderr=subprocess.PIPE, text=True, timeout=PATIENCE)
    return came.returncode, came.stderr


def make_interrupted_copy(muni: Program, folder: pathlib.Path, book: Book) -> None:
    """A `cp` that lets an import in after its first copy, which copies the log into the file."""
    rows = folder.parent / "more"
    rows.write_text(trade("T00009"))
    folder.mkdir()
    came = shlex.quote(str(folder.parent / "came"))
    importing = shlex.join([str(muni.path), "import", book.store.word])
    (folder / "cp").write_text("#!/bin/sh\nPATH=${PATH#*:}\ncp \"$@\" || exit\n"
                               f"[ -e {came} ] || {{ : >{came}; {importing} <{shlex.quote(str(rows))} >/dev/null; }}\n")
    (folder / "cp").chmod(0o755)


def test_a_backup_while_an_import_comes_and_goes(database, tmp_path):
    """The copy has what was acknowledged before and by it."""
    database.report(trades(3))
    killed_after_a_trade(database)
    make_interrupted_copy(database.muni, tmp_path / "bin", database)
    assert backup(database, tmp_path / "whole", tmp_path / "bin") == (0, "")
    assert (tmp_path / "came").exists()
    assert Book(database.muni, Store("sqlite", tmp_path / "whole/store")).held() == 5


def test_a_log_without_a_name_has_no_backup(database, tmp_path):
    """A program has the log of the store under no name, as version 1.1.0 could leave it."""
    database.report(trades(3))
    log = pathlib.Path(f"{database.store.path}-wal")
    with database.store.path.open("rb"), log.open("rb"):
        log.unlink()
        status, words = backup(database, tmp_path / "nameless")
    assert status == 1 and "has a log without a name" in words
    assert not (tmp_path / "nameless").exists()


def in_folders(muni: Program, folder: pathlib.Path, *names: str) -> list[str]:
    """Stores with a trade each, in folders of these names."""
    books = [Book(muni, Store("sqlite", folder / name / "book")) for name in names]
    for book in books:
        book.store.path.parent.mkdir(parents=True)
        book.report(trades(1))
    return [str(book.store.path) for book in books]


def test_of_several_stores_the_first_is_copied_last(muni, tmp_path):
    """So its copy has each issue that another copy has."""
    stores = in_folders(muni, tmp_path, "first", "second", "third")
    shim = tmp_path / "bin/cp"
    shim.parent.mkdir()
    shim.write_text('#!/bin/sh\nPATH=${PATH#*:}\nprintf "%s\\n" "$@" >>"$TOLD"\ncp "$@"\n')
    shim.chmod(0o755)
    subprocess.run([ROOT / "deploy/backup", *stores, tmp_path / "all"], check=True, stdin=subprocess.DEVNULL,
                   env={**os.environ, "PATH": f"{shim.parent}:{os.environ['PATH']}", "TOLD": str(tmp_path / "told")})
    copied_in_order = [line for line in (tmp_path / "told").read_text().splitlines() if line in stores]
    assert copied_in_order == stores[::-1]
    found = sorted(file.relative_to(tmp_path / "all") for file in (tmp_path / "all").rglob("book"))
    assert found == [pathlib.Path(name, "book") for name in ("first", "second", "third")]


def test_two_stores_in_folders_of_one_name_have_no_backup(muni, tmp_path):
    stores = in_folders(muni, tmp_path, "one/book", "two/book")
    came = subprocess.run([ROOT / "deploy/backup", *stores, tmp_path / "all"], stderr=subprocess.PIPE, text=True)
    assert (came.returncode, came.stderr.splitlines()[-1]) == (1, "backup: two stores are in folders of one name")
    assert not list(tmp_path.glob("all*"))


def ends_of_slots(data: bytes):
    """The ends of the open slots of a journal."""
    place = 0
    while place < len(data) and data[place] == 1:
        place += 5 + int.from_bytes(data[place + 1:place + 5], "big")
        yield place


def test_the_first_slots_of_a_journal_are_one(journal, tmp_path):
    journal.report(trades(40))
    data = journal.store.file.read_bytes()
    part = Book(journal.muni, Store("journal", tmp_path / "part"))
    found = []
    for end in ends_of_slots(data):
        part.store.file.write_bytes(data[:end])
        found.append(part.held())
    # The trades come after the rows of the issue and of the other desk.
    assert found == [0] * trades(0).count("\n") + list(range(1, 41))


def test_a_copy_of_a_journal_while_it_is_written_has_what_was_answered(journal, tmp_path):
    with journal.muni.start("import", journal.store.word, stdin=subprocess.PIPE, stdout=subprocess.PIPE) as importing:
        importing.stdin.write(trades(800).encode())
        importing.stdin.close()
        answered = 0
        for place in range(20):
            answered += sum(b",confirmed,T" in importing.stdout.readline() for _ in range(20))
            held = copied(journal, tmp_path / f"copy{place}", ".journal").held()
            assert held is not None and held >= answered
        importing.stdout.read()
        assert importing.wait(PATIENCE) == 0
