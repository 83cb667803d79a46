"""Requests of tables/requests and tables/replies, each sent whole and in pieces, and what a server answers."""
from __future__ import annotations

import contextlib
import pathlib
from collections.abc import Iterator

import pytest

from support.program import Program
from support.server import Server
from support.stores import Store
from support.tables import bytes_of, cases

# In how many bytes at a time a request is sent. None is all at once.
SIZES = (None, 1, 2, 7, 4096)

# What is kept before: an issue, and a trade that is entered and then canceled.
ROWS = """issue,123456AA3,RIVERTON WATER 5S 2025,periodic,2020-01-01,2020-07-01,2025-01-01,5,
trade,A,t,123456AA3,buy,25000,2024-04-01,yield,4
cancel,A,t,2
"""
CANCELED = """CANCELED CONFIRMATION 2
DESK A
REFERENCE t
BOUGHT 25000
CUSIP 123456AA3
ISSUE RIVERTON WATER 5S 2025
COUPON 5.0000000
DATED 2020-01-01
MATURITY 2025-01-01
SETTLEMENT 2024-04-01
PRICE 100.725 COMPUTED
YIELD 4.000 GIVEN
REDEMPTION 2025-01-01 100.000000 MATURITY
ACCRUED DAYS 90
PRINCIPAL 25181.25
ACCRUED 312.50
TOTAL 25493.75
"""
FIGURES = """PRICE 100.725 COMPUTED
YIELD 4.000 GIVEN
REDEMPTION 2025-01-01 100.000000 MATURITY
ACCRUED DAYS 90
PRINCIPAL 5.04
ACCRUED 0.06
TOTAL 5.10
"""

# The answers that a command has over what is kept. None of them changes it.
COMMANDS = {
    # A note of five years, a name of a byte above 126, and forty calls at one date have faulty terms.
    "issue": [(409, "REFUSED 3 Conflict issue\n"), (422, "REFUSED 4 BadTerms 9\n"),
              (422, "REFUSED 4 BadTerms 10\n"), (422, "REFUSED 4 BadTerms 7 2024-01-01\n")],
    "amend": [(404, "REFUSED 1 UnknownIssue\n"), (409, "REFUSED 3 Conflict issue\n"),
              (409, "REFUSED 12 WrongNumber 2\n"), (422, "REFUSED 4 BadTerms 6 2024-01-02\n")],
    "trade": [(409, "REFUSED 3 Conflict version 1\n")],
    "correct": [(409, "REFUSED 3 Conflict version 2\n")],
    "cancel": [(200, CANCELED), (409, "REFUSED 11 Canceled\n")],
    "confirm": [(200, CANCELED), (404, "REFUSED 2 UnknownTrade\n")],
    "quote": [(200, FIGURES)],
    "check": [(200, "1,right\n"), (200, "1,missing,t\n"), (200, "1,bad,1\n")],
    "list": [(200, ""), (200, "t 2 CANCELED 25000 100.725 4.000\n")],
}
PHRASES = {200: "OK", 400: "Bad Request", 404: "Not Found", 405: "Method Not Allowed", 409: "Conflict",
           411: "Length Required", 413: "Payload Too Large", 422: "Unprocessable Entity",
           431: "Request Header Fields Too Large"}

REQUESTS = cases("requests")
REPLIES = cases("replies")

LONG_HEAD = b"GET /lists/B HTTP/1.1\r\na: "
# The head has 49 bytes.
LONG_BODY = b'POST /cancels HTTP/1.1\r\nContent-Length: 65536\r\n\r\n{"desk":"A","reference":"t","number":"2"}'
LIMITS = {
    "the longest head": (LONG_HEAD.ljust(16_380, b"x") + b"\r\n\r\n", "list"),
    "the longest head, without its last byte": (LONG_HEAD.ljust(16_380, b"x") + b"\r\n\r", "gone"),
    "a head of one byte more": (LONG_HEAD.ljust(16_381, b"x") + b"\r\n\r\n", "431"),
    "a head of three bytes more": (LONG_HEAD.ljust(16_383, b"x") + b"\r\n\r\n", "431"),
    "the longest body": (LONG_BODY.ljust(65_585), "cancel"),
    "the longest body, without its last byte": (LONG_BODY.ljust(65_584), "gone"),
}


def answer(status: int, text: str, allowed: str = "") -> bytes:
    """The bytes of an answer."""
    allow = f"Allow: {allowed}\r\n" if allowed else ""
    return (f"HTTP/1.1 {status} {PHRASES[status]}\r\nContent-Type: text/plain\r\nContent-Length: {len(text)}\r\n{allow}"
            f"Connection: close\r\n\r\n{text}").encode()


def answers(kind: str) -> list[bytes]:
    """The answers that a request of this kind may have."""
    if kind == "gone":
        return [b""]
    if kind in COMMANDS:
        return [answer(*each) for each in COMMANDS[kind]]
    number, _, allowed = kind.partition(" ")
    status = int(number)
    return [answer(status, f"{status} {PHRASES[status]}\n", allowed)]


@contextlib.contextmanager
def server_over(muni: Program, folder: pathlib.Path) -> Iterator[Server]:
    """A server over a store that has the canceled trade."""
    store = Store("sqlite", folder / "S")
    assert muni.run("import", store.word, rows=ROWS).text.count("confirmed") == 2
    with Server(muni, store.name, 1_000_000) as server:
        yield server


@pytest.fixture(scope="module")
def server(muni: Program, tmp_path_factory: pytest.TempPathFactory) -> Iterator[Server]:
    with server_over(muni, tmp_path_factory.mktemp("requests")) as server:
        yield server


@pytest.fixture(scope="module")
def replied(muni: Program, tmp_path_factory: pytest.TempPathFactory) -> list[list[bytes]]:
    """What one server answers to the requests of tables/replies, each sent in all sizes before the next one."""
    with server_over(muni, tmp_path_factory.mktemp("replies")) as server:
        return [[server.ask(bytes_of(case.parts[0]), size) for size in SIZES] for case in REPLIES]


@pytest.mark.parametrize("case", REQUESTS, ids=[str(case.line) for case in REQUESTS])
def test_a_request_is_read_as_the_table_has_it_whole_and_in_pieces(server, case):
    sent, kind = case.parts
    got = [server.ask(bytes_of(sent), size) for size in SIZES]
    assert got[0] in answers(kind)
    assert got == [got[0]] * len(SIZES)


@pytest.mark.parametrize("place", range(len(REPLIES)), ids=[str(case.line) for case in REPLIES])
def test_a_request_has_the_whole_answer_of_the_table(replied, place):
    assert replied[place] == [bytes_of(REPLIES[place].parts[1])] * len(SIZES)


@pytest.mark.parametrize("name", LIMITS)
def test_heads_and_bodies_are_read_up_to_their_limits(server, name):
    data, kind = LIMITS[name]
    assert server.ask(data) in answers(kind)


def test_a_request_that_is_cut_off_after_each_of_its_bytes_has_no_answer(server):
    whole = bytes_of(REPLIES[1].parts[0])
    assert {count: server.ask(whole[:count]) for count in range(len(whole))} == dict.fromkeys(range(len(whole)), b"")


def test_no_line_of_the_tables_is_left_out():
    assert (len(REQUESTS), len(REPLIES)) == (294, 17)
