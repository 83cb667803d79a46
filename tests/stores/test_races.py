"""What other programs may do while one opens a store: each call of the system by which `confirm` and `import` open one
is stopped at, and a server, an import, an sqlite3 or a rename is let in there. Whatever happens, what was acknowledged
is kept, also after a kill, and no other file is touched."""
import concurrent.futures
import contextlib
import functools
import os
import pathlib
import shutil
import sqlite3
import tempfile
import threading
from collections.abc import Iterator
from typing import NamedTuple

import pytest

from support.books import Book, needs_strict_tables, trade
from support.intruders import INTRUDERS, files, make, make_killed, named, served, sqlite3_that_writes
from support.program import PATIENCE, needs_trace
from support.stores import Store
from support.trace import Call, opening_calls, stopped

# The words of each command that opens a store, and whether it is killed.
COMMANDS = {"confirm": (("--desk=ALPHA", "--ref=FIRST"), False), "import": ((), True)}
# Where a trade may be kept, the likely place first.
PLACES = {"FIRST": "ST", "OTHER": "US", "NEXT": "ST", "OWN": "ST"}
# The kind of a store, and whether it fits its seal. A file of sqlite that does not is audited.
STORES = {"sqlite": ("sqlite", False), "sealed": ("sqlite", True), "journal": ("journal", False)}
CASES = [(name, command, intruder) for name, (kind, _) in STORES.items() for command in COMMANDS
         for intruder in INTRUDERS if intruder is not sqlite3_that_writes or kind == "sqlite"]
MANY = 10_000
STARTS = 200


class Scene(NamedTuple):
    """A folder with the stores S and U, which each run has a copy of, whether S fits its seal there, and the calls of
    each command over it."""

    book: Book
    is_sealed: bool
    calls: dict[str, list[Call]]


@contextlib.contextmanager
def copied(book: Book, is_sealed: bool) -> Iterator[Book]:
    """The book over a copy of its folder, which fits no seal until a command has audited it. Each copy has as many
    folders above it: there is a call for each of them."""
    with tempfile.TemporaryDirectory(prefix="muni-races-") as folder:
        shutil.copytree(book.store.path.parent, folder, dirs_exist_ok=True)
        copy = Book(book.muni, Store(book.store.kind, pathlib.Path(folder, "S")))
        assert not is_sealed or copy.has("FIRST")
        yield copy


@pytest.fixture(scope="module")
def scene(muni, tmp_path_factory):
    """The scene of a store."""
    needs_trace()

    @functools.cache
    def of(name: str) -> Scene:
        kind, is_sealed = STORES[name]
        book = Book(muni, Store(kind, tmp_path_factory.mktemp(name) / "S"))
        make(book, "FIRST")
        make_killed(named(book, "U"), "OTHER")
        calls = {}
        for command, (words, _) in COMMANDS.items():
            with copied(book, is_sealed) as copy:
                calls[command] = opening_calls(copy, command, *words, rows=trade("OWN"))
        return Scene(book, is_sealed, calls)

    return of


class Run(NamedTuple):
    """Whether a command came to the call after which it was to stop, and what went wrong."""

    has_stopped: bool
    faults: list[str]


def intruded(made: Scene, command: str, call: Call, intruder) -> Run:
    """One command over a copy of what was made, one call after which it stops, and one thing that happens there."""
    words, is_killed = COMMANDS[command]
    with copied(made.book, made.is_sealed) as book:
        with contextlib.ExitStack() as stack:
            with stopped(book, command, *words, rows=trade("OWN"), call=call, is_killed=is_killed) as stop:
                came = stack.enter_context(intruder(book))
        told = ["OTHER", *([] if came.has_removed else ["FIRST"]), *came.told]
        if b",confirmed,OWN," in stop.output:
            told.append("OWN")
        lost = [each for each in told if not any(named(book, at).has(each) for at in PLACES[each])]
        faults = [f"after {call.name} {call.number}: {each} is lost" for each in lost]
        if came.content is not None and book.store.file.read_bytes() != came.content:
            faults.append(f"after {call.name} {call.number}: the file was touched")
    return Run(stop.process is not None, faults)


@pytest.mark.parametrize("name", STORES)
@pytest.mark.parametrize("command", COMMANDS)
def test_the_calls_of_a_command_are_seen(scene, name, command):
    assert len(scene(name).calls[command]) > 5


@pytest.mark.parametrize(("name", "command", "intruder"), CASES,
                         ids=[f"{name}-{command}-{intruder.__name__}" for name, command, intruder in CASES])
def test_what_is_acknowledged_is_kept_whatever_comes_in(scene, name, command, intruder):
    if STORES[name][0] == "sqlite":
        needs_strict_tables()
    made = scene(name)
    beside = int(os.environ.get("PYTEST_XDIST_WORKER_COUNT", "1"))
    with concurrent.futures.ThreadPoolExecutor(max(1, (os.cpu_count() or 1) // beside)) as pool:
        pending = [pool.submit(intruded, made, command, call, intruder) for call in made.calls[command]]
        runs = [each.result() for each in pending]
    assert [fault for run in runs for fault in run.faults] == []
    assert all(run.has_stopped for run in runs)


def make_many(book: Book) -> None:
    """A store of many trades without a log."""
    make(book, "T00000")
    with contextlib.closing(sqlite3.connect(book.store.file)) as database, database:
        database.execute(
            "INSERT INTO versions_3 SELECT desk, printf('T%05d', place), number, act, cusip, side, par, settle, basis, "
            "value, price, yld, redemption, at_price, label, days, principal, accrued, total, fee, commission, issue "
            "FROM versions_3, (WITH RECURSIVE places(place) AS (VALUES (1) UNION ALL SELECT place + 1 FROM places "
            "WHERE place < ?) SELECT place FROM places)", (MANY - 1,))


@contextlib.contextmanager
def confirming(book: Book):
    """Confirmations one after the other, and a word that waits until one has come and gone whole."""
    ending, ended = threading.Event(), threading.Semaphore(0)

    def confirm() -> None:
        while not ending.is_set():
            book.has("T00000")
            ended.release()

    def wait_for_one() -> None:
        while ended.acquire(blocking=False):
            pass
        for _ in range(2):
            assert ended.acquire(timeout=PATIENCE)

    thread = threading.Thread(target=confirm)
    thread.start()
    try:
        yield wait_for_one
    finally:
        ending.set()
        thread.join()


def open_files(process) -> Iterator[str]:
    """The files that a process has open. One that it closes meanwhile may be left out."""
    for each in pathlib.Path(f"/proc/{process.pid}/fd").iterdir():
        with contextlib.suppress(FileNotFoundError):
            yield os.readlink(each)


def test_a_log_of_a_server_that_starts_beside_commands_has_its_name(database):
    """The store has no log when each server starts."""
    needs_strict_tables()
    make_many(database)
    ran, nameless = 0, 0
    with confirming(database) as wait_for_one:
        for _ in range(STARTS):
            files(database, "store")[1].unlink(missing_ok=True)
            with served(database) as (server, port):
                if port:
                    ran += 1
                    wait_for_one()
                    nameless += any(each.endswith("-wal (deleted)") for each in open_files(server))
    assert ran > 0
    assert nameless == 0
