"""What other programs do while a command that opens a store stands still. What comes after the `yield` of one happens
once the command has ended."""
from __future__ import annotations

import contextlib
import dataclasses
import fcntl
import http.client
import itertools
import json
import os
import pathlib
import socket
import sqlite3
import subprocess
import time
from collections.abc import Iterator

from support.answers import TRADE
from support.books import ISSUE, Book, trade
from support.program import PATIENCE
from support.stores import Store

LEDGER = b"\0Ledger of 2024\n25,493.75\n"
LETTER = b"x"

# A server that finds its port taken would look as one that a store refuses, so each worker has ports of its own, which
# the system hands to no client.
FIRST_PORT = 20_000 + 1_000 * int(os.environ.get("PYTEST_XDIST_WORKER", "gw0")[2:])
PORTS = itertools.cycle(range(FIRST_PORT, FIRST_PORT + 1_000))


def files(book: Book, name: str) -> list[pathlib.Path]:
    """The files of a store of this name beside the one of the book: the first one has its rows, the others belong to
    it."""
    path = book.store.path.with_name(name)
    if book.store.kind == "journal":
        return [path.with_name(name + ".journal")]
    return [path, path.with_name(name + "-wal")]


def named(book: Book, name: str) -> Book:
    """The book over the store of another name."""
    return Book(book.muni, Store(book.store.kind, book.store.path.with_name(name)))


def make(book: Book, reference: str) -> None:
    """A store with one trade, as it is when it was restored from the file that has its rows."""
    book.report(ISSUE + trade(reference))
    for log in files(book, book.store.path.name)[1:]:
        log.unlink()


def make_killed(book: Book, reference: str) -> None:
    """A store whose log alone has its trade, as a kill leaves it."""
    book.report(ISSUE)
    subprocess.run(["strace", "-f", "-o", "/dev/null", "-e", "trace=write", "-e", "inject=write:signal=KILL:when=1",
                    book.muni.path, "import", book.store.word], input=trade(reference).encode(), capture_output=True,
                   timeout=PATIENCE)


def move(book: Book, name: str, to: str) -> None:
    for old, new in zip(files(book, name), files(book, to)):
        with contextlib.suppress(FileNotFoundError):
            old.rename(new)


@contextlib.contextmanager
def locked(book: Book) -> Iterator[bool]:
    """Whether the lock of the store can be had, which is held then."""
    with book.store.file.open("r+b") as file:
        try:
            if book.store.kind == "sqlite":
                fcntl.lockf(file, fcntl.LOCK_EX | fcntl.LOCK_NB, 512, 1 << 30)
            else:
                fcntl.flock(file, fcntl.LOCK_EX | fcntl.LOCK_NB)
        except BlockingIOError:
            yield False
        else:
            yield True


def free_port() -> int:
    """A port that no other server of these tests gets."""
    while True:
        port = next(PORTS)
        with socket.socket() as link:
            if link.connect_ex(("127.0.0.1", port)) != 0:
                return port


@contextlib.contextmanager
def served(book: Book) -> Iterator[tuple[subprocess.Popen[bytes], int | None]]:
    """A server of the store, and its port once it listens, or None if it ended before. It is killed at the end."""
    port = free_port()
    server = book.muni.start("serve", book.store.word, f"--port={port}", "--connections=1000")
    try:
        yield server, port if listens(server, port) else None
    finally:
        server.kill()
        server.wait()


def listens(server: subprocess.Popen[bytes], port: int) -> bool:
    """Waits until the server takes connections or has ended."""
    while server.poll() is None:
        with socket.socket() as link:
            if link.connect_ex(("127.0.0.1", port)) == 0:
                return True
        time.sleep(0.005)
    return False


def is_entered(port: int, reference: str) -> bool:
    """Whether a trade was confirmed."""
    link = http.client.HTTPConnection("127.0.0.1", port, timeout=PATIENCE)
    try:
        link.request("POST", "/trades", json.dumps({**TRADE, "reference": reference}))
        return link.getresponse().status == 200
    except (OSError, http.client.HTTPException):
        return False
    finally:
        link.close()


@dataclasses.dataclass
class Came:
    """What something that was let in did: the references that it has as acknowledged, whether it removed what was
    there, and what the file has to hold afterwards."""

    told: list[str] = dataclasses.field(default_factory=list)
    has_removed: bool = False
    content: bytes | None = None


@contextlib.contextmanager
def server_that_stays(book: Book) -> Iterator[Came]:
    came = Came()
    with served(book) as (_, port):
        yield came
        if port and is_entered(port, "NEXT"):
            came.told.append("NEXT")


@contextlib.contextmanager
def server_that_is_killed(book: Book) -> Iterator[Came]:
    with served(book) as (_, port):
        told = ["NEXT"] if port and is_entered(port, "NEXT") else []
    yield Came(told)


@contextlib.contextmanager
def another_import(book: Book) -> Iterator[Came]:
    yield Came(["NEXT"] if b",confirmed,NEXT," in book.said("import", rows=trade("NEXT")).output else [])


@contextlib.contextmanager
def sqlite3_that_writes(book: Book) -> Iterator[Came]:
    columns = ("number, act, cusip, side, par, settle, basis, value, price, yld, redemption, at_price, label, days, "
               "principal, accrued, total, fee, commission, issue")
    told = ["NEXT"]
    with contextlib.closing(sqlite3.connect(book.store.file, timeout=0)) as database:
        try:
            with database:
                database.execute(f"INSERT INTO versions_3 SELECT desk, 'NEXT', {columns} FROM versions_3 "
                                 "WHERE reference = 'FIRST'")
        except sqlite3.OperationalError:
            told = []
    yield Came(told)


@contextlib.contextmanager
def its_files_elsewhere(book: Book) -> Iterator[Came]:
    move(book, "S", "T")
    yield Came()


@contextlib.contextmanager
def another_store_in_its_place(book: Book) -> Iterator[Came]:
    move(book, "S", "T")
    move(book, "U", "S")
    yield Came()


@contextlib.contextmanager
def a_ledger_in_its_place(book: Book) -> Iterator[Came]:
    move(book, "S", "T")
    book.store.file.write_bytes(LEDGER)
    yield Came(content=LEDGER)


@contextlib.contextmanager
def a_restore_under_the_lock(book: Book) -> Iterator[Came]:
    with locked(book) as is_locked:
        if is_locked:
            for file in files(book, "S"):
                file.unlink(missing_ok=True)
            move(book, "U", "S")
    yield Came(has_removed=is_locked)


@contextlib.contextmanager
def a_letter_under_the_lock(book: Book) -> Iterator[Came]:
    with locked(book) as is_locked:
        if is_locked:
            book.store.file.write_bytes(LETTER)
    yield Came(has_removed=is_locked, content=LETTER if is_locked else None)


INTRUDERS = [server_that_stays, server_that_is_killed, another_import, sqlite3_that_writes, its_files_elsewhere,
             another_store_in_its_place, a_ledger_in_its_place, a_restore_under_the_lock, a_letter_under_the_lock]
