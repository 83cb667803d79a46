"""The files of examples/: a book, what it is reported as, its confirmations and positions, and requests by HTTP."""
from __future__ import annotations

import http.client
import re
from typing import NamedTuple

import pytest

from support.program import PATIENCE, ROOT, Program, Said
from support.server import Server
from support.stores import KINDS, Store

EXAMPLES = ROOT / "examples"
BOOK = (EXAMPLES / "book.csv").read_bytes()
TRADES = [("SHORT", "S24A003"), ("RETAIL", "R0002"), ("INST", "I240401012")]


class Exchange(NamedTuple):
    """A request of examples/http, and the status of its answer."""

    status: int
    method: str
    path: str
    name: str

    @property
    def body(self) -> bytes | None:
        file = EXAMPLES / "http" / f"{self.name}.json"
        return file.read_bytes() if file.exists() else None

    @property
    def answer(self) -> bytes:
        return (EXAMPLES / "http" / f"{self.name}.answer").read_bytes()


REQUESTS = (EXAMPLES / "http" / "requests").read_text().splitlines()
EXCHANGES = [Exchange(int(status), *rest) for status, *rest in map(str.split, REQUESTS)]


def test_the_figures_of_a_street_are_checked(muni, tmp_path):
    said = muni.run("check", rows=(EXAMPLES / "street.csv").read_bytes(), folder=tmp_path)
    assert said[:2] == (3, (EXAMPLES / "street.report").read_bytes())
    assert not list(tmp_path.iterdir())


@pytest.fixture(scope="module", params=KINDS)
def book(request: pytest.FixtureRequest, muni: Program, tmp_path_factory) -> tuple[Store, list[Said]]:
    """A store into which the book was imported, and sent again, with what was said of it."""
    store = Store(request.param, tmp_path_factory.mktemp("book") / "store")
    return store, [muni.run("import", store.word, rows=BOOK) for _ in range(2)]


def test_the_book_is_reported_and_when_sent_again_as_before(book):
    _, reports = book
    assert [said[:2] for said in reports] == [(0, (EXAMPLES / "book.report").read_bytes())] * 2


@pytest.mark.parametrize(("desk", "reference"), TRADES)
def test_a_trade_of_the_book_is_confirmed(muni, book, desk, reference):
    said = muni.run("confirm", book[0].word, f"--desk={desk}", f"--ref={reference}")
    assert said[:2] == (0, (EXAMPLES / f"confirmation.{reference}").read_bytes())


@pytest.mark.parametrize("desk", ["INST", "RETAIL", "SHORT"])
def test_positions_of_the_book_are_listed(muni, book, desk):
    said = muni.run("positions", book[0].word, f"--desk={desk}")
    assert said[:2] == (0, (EXAMPLES / f"positions.{desk}").read_bytes())


def test_each_confirmation_and_positions_of_the_folder_are_tried():
    found = {each.name for each in EXAMPLES.iterdir() if each.name.startswith(("confirmation.", "positions."))}
    desks = {desk for desk, _ in TRADES}
    assert found == {f"confirmation.{name}" for _, name in TRADES} | {f"positions.{desk}" for desk in desks}


def test_the_errors_that_the_page_names_are_those_of_the_report():
    page = (EXAMPLES / "README.md").read_text()
    named = re.findall(r"^\| (\d+) \| [^|]+ \| `(.*)` \|$", page, re.M)
    report = (EXAMPLES / "book.report").read_text().splitlines()
    assert len(named) == 11
    assert [line for _, line in named] == [report[int(place) - 1] for place, _ in named]


@pytest.fixture(scope="module", params=KINDS)
def answers(request: pytest.FixtureRequest, muni: Program, tmp_path_factory) -> tuple[list, int | None]:
    """What the requests of examples/http are answered in their order, and the status in which the server then ends."""
    store, found = Store(request.param, tmp_path_factory.mktemp("http") / "store"), []
    with Server(muni, store.name, len(EXCHANGES) + 1) as server:
        # The first connection waits for the server.
        server.connect().close()
        for exchange in EXCHANGES:
            link = http.client.HTTPConnection("127.0.0.1", server.port, timeout=PATIENCE)
            link.request(exchange.method, exchange.path, exchange.body)
            answer = link.getresponse()
            found.append((answer.status, answer.read()))
            link.close()
        return found, server.ended()


@pytest.mark.parametrize("place", range(len(EXCHANGES)), ids=[f"{each.method}-{each.name}" for each in EXCHANGES])
def test_a_request_is_answered_as_its_file_has_it(answers, place):
    assert answers[0][place] == (EXCHANGES[place].status, EXCHANGES[place].answer)


def test_the_server_ends_after_its_last_connection(answers):
    assert answers[1] == 0


def test_each_file_of_requests_is_tried():
    names = {each.stem for each in (EXAMPLES / "http").iterdir()} - {"requests"}
    assert names == {each.name for each in EXCHANGES}
