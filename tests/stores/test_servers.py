"""Stores under servers: one that ends by itself, one that is killed, and one whose syncs or reads fail."""
import pathlib

import pytest

from support.answers import TRADE, added, asked, entered, found
from support.books import Book, trade, trades
from support.faults import Fault
from support.server import Server
from support.stores import ROWS

EMPTY_LOG = 41
KEPT = ("T0001", "T0002")


def test_what_a_server_keeps_is_in_its_store_when_it_ends(book, serve):
    server = serve(book.store, connections=4)
    assert added(server) == 200
    assert found(server, "T0001") == 404
    assert entered(server, "T0001") == 200
    answer = asked(server, "/trades/ALPHA/T0001")
    assert answer.status == 200 and b"25493.75" in answer.body
    assert server.ended() == 0
    assert book.has("T0001")


@pytest.fixture
def killed(book, serve) -> Book:
    """A book whose server was killed after it had answered."""
    server = serve(book.store, connections=100)
    assert [added(server), *(entered(server, reference) for reference in KEPT)] == [200, 200, 200]
    server.process.kill()
    server.process.wait()
    return book


def log_of(book: Book) -> pathlib.Path:
    return book.store.path.with_name("store-wal")


def test_a_server_that_is_killed_has_kept_what_it_answered(killed):
    """What it acknowledged is in the log beside a database. The two belong together: a command that only reads finds it
    and leaves both as they are, and an import copies it into the file."""
    is_database = killed.store.kind == "sqlite"
    assert not is_database or log_of(killed).stat().st_size > EMPTY_LOG
    before = killed.store.state()
    assert all(killed.has(reference) for reference in KEPT)
    assert killed.store.state() == before
    killed.report(trade("T0009"))
    assert not is_database or log_of(killed).stat().st_size == EMPTY_LOG
    assert all(killed.has(reference) for reference in (*KEPT, "T0009"))


def test_a_trade_whose_gate_could_not_be_written_is_unknown(journal, faults):
    """The next one stands in its place. A put writes twice, so that gate is the fourth write."""
    with Server(faults.at(journal.muni, Fault("pwrite", 4)), journal.store.name, 4) as server:
        assert added(server) == 200
        assert entered(server, "T0001") == 503
        assert entered(server, "T0002") == 200
        assert found(server, "T0001") == 404
        assert server.ended() == 0
    assert journal.confirmed("T0001").status == 3
    assert journal.has("T0002")


@pytest.fixture
def broken(tmp_path) -> pathlib.Path:
    """A file. As long as it is there, syncs fail under `server`."""
    return tmp_path / "broken"


@pytest.fixture
def server(database, broken, faults):
    """A server over a database, of whose syncs each fails while `broken` is there."""
    database.report(ROWS)
    program = faults.during(database.muni, "fdatasync,fsync,", broken)
    with Server(program, database.store.name, 100) as server:
        assert found(server, "T0001") == 200
        yield server


def test_a_sync_that_fails_shuts_a_database_until_syncs_work(database, server, broken):
    """The next request finds it shut, and opens it anew, which fails while syncs do. Then each request tries it again,
    and none is answered before one has. What the log holds is then written into the file."""
    broken.touch()
    assert entered(server, "T0003") == 503
    assert [found(server, "T0001") for _ in range(2)] == [503, 503]
    broken.unlink()
    assert found(server, "T0001") == 503
    assert log_of(database).stat().st_size == EMPTY_LOG
    assert found(server, "T0001") == 200
    assert [entered(server, reference) for reference in ("T0003", "T0004")] == [200, 200]
    server.__exit__()
    assert all(database.has(reference) for reference in ("T0001", "T0003", "T0004"))


def test_the_request_that_finds_a_database_shut_opens_it_anew(database, server, broken):
    broken.touch()
    assert entered(server, "T0005") == 503
    broken.unlink()
    assert found(server, "T0001") == 503
    assert entered(server, "T0006") == 200
    server.__exit__()
    assert all(database.has(reference) for reference in ("T0001", "T0006"))


def test_a_list_that_finds_a_database_shut_opens_it_anew(server, broken):
    """At the first list, and at a later one if the file could not be opened then."""
    broken.touch()
    assert entered(server, "T0007") == 503
    broken.unlink()
    assert [asked(server, "/lists/ALPHA").status for _ in range(2)] == [503, 200]
    broken.touch()
    assert entered(server, "T0008") == 503
    assert asked(server, "/lists/ALPHA").status == 503
    broken.unlink()
    assert asked(server, "/lists/ALPHA").status == 503
    answer = asked(server, "/lists/ALPHA")
    assert (answer.status, answer.body.splitlines()[0]) == (200, b"T0001 1 LIVE 25000 100.725 4.000")


CHECK = {"desk": "ALPHA", "reference": "T00001", "total": "25493.75"}
CORRECTION = {**TRADE, "reference": "T00001", "number": "2", "par": "30000"}
REQUESTS = {
    "issue": ("/issues/123456AA3", None), "version": ("/trades/ALPHA/T00001/1", None),
    "positions": ("/positions/ALPHA", None), "latest": ("/latest/ALPHA", None), "list": ("/lists/ALPHA", None),
    "check": ("/checks", CHECK), "correction": ("/corrections", CORRECTION),
    "cancel": ("/cancels", {"desk": "ALPHA", "reference": "T00001", "number": "2"}),
}


@pytest.mark.parametrize("request_of", REQUESTS)
def test_a_request_whose_read_fails_is_unavailable_and_then_answered(database, broken, faults, request_of):
    """The server goes on. Each request is the first that reads the pages of its rows."""
    database.report(trades(400))
    path, body = REQUESTS[request_of]
    with Server(faults.during(database.muni, "pread,", broken), database.store.name, 4) as server:
        assert asked(server, "/unknown").status == 404
        broken.touch()
        assert asked(server, path, body).status == 503
        broken.unlink()
        assert [asked(server, path, body).status for _ in range(2)] == [200, 200]
        assert server.ended() == 0
