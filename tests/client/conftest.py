"""A desk for the client, over a store of its own, and rows to be valued over a store of issues."""
from __future__ import annotations

import pathlib
import random
from collections.abc import Iterator
from dataclasses import replace
from datetime import date

import pytest

import muni
from support.books import Book
from support.exported import Row, held, issue
from support.issues import DISCOUNT, ELM_GROVE, MARLOW, NOTE, RIVERTON, WRONG, ZERO
from support.program import Program, program_path
from support.server import Server
from support.stores import Store
from support.valued import lines


@pytest.fixture(scope="module")
def served(tmp_path_factory: pytest.TempPathFactory) -> Iterator[Server]:
    """A server over a new store."""
    store = tmp_path_factory.mktemp("desk") / "store"
    with Server(Program(program_path()), str(store), connections=100_000) as server:
        server.connect().close()
        yield server


@pytest.fixture(scope="module")
def desk(served: Server) -> muni.Client:
    """A client of the server, which has the issues. The coupon of one was mended, and a desk has a trade in it that is
    corrected and one that is canceled."""
    client = muni.Client(served.address, tries=9)
    assert client.add_issue(WRONG) == RIVERTON.cusip
    assert client.amend(RIVERTON, 2) == 2
    for issue in (ELM_GROVE, MARLOW, ZERO, DISCOUNT, NOTE):
        assert client.add_issue(issue) == issue.cusip
    for place, reference in enumerate(("H0001", "H0002")):
        held = muni.Trade("HELDOUT", reference, RIVERTON.cusip, muni.Side.BUY, 5_000, date(2024, 4, 1),
                          muni.Basis.YIELD, 4)
        assert client.enter(held).number == 1
        again = client.cancel("HELDOUT", reference, 2) if place else client.correct(replace(held, par=10_000), 2)
        assert again.number == 2
    return client


@pytest.fixture(scope="module")
def issues() -> list[Row]:
    """Issues of every kind."""
    source = random.Random(5)
    return [issue(source, place) for place in range(20)]


@pytest.fixture(scope="module")
def book(tmp_path_factory: pytest.TempPathFactory, issues: list[Row]) -> Book:
    """A store with the issues, some of which are amended, and with trades."""
    return Book(Program(program_path()), Store("sqlite", tmp_path_factory.mktemp("book") / "store")).with_rows(
        held(random.Random(7), issues))


@pytest.fixture(scope="module")
def rows(issues: list[Row]) -> bytes:
    """Rows of them, some of which have no figures."""
    return b"".join(row + b"\n" for row in lines(random.Random(6), issues, 600))


@pytest.fixture
def file(tmp_path: pathlib.Path, rows: bytes) -> pathlib.Path:
    path = tmp_path / "rows"
    path.write_bytes(rows)
    return path
