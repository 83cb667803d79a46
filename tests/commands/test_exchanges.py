"""Connections to servers, and all that their clients get: those of tables/exchanges, one after another over a store of
either kind, and clients that send on, or stay, after their answer."""
from __future__ import annotations

import contextlib
import http.client
import signal
import socket
import threading
import time
from collections.abc import Iterator
from typing import NamedTuple

import pytest

from support.program import Program, Said
from support.server import Server, ended, received
from support.stores import KINDS, Store
from support.tables import TABLES, Case, bytes_of, cases

# The length of a body that is refused, and how many clients send it.
LENGTH, CLIENTS = 3_000_000, 20
LIST = b"GET /lists/ALPHA HTTP/1.1\r\n\r\n"


class Group(NamedTuple):
    """Exchanges over one store, which begins with the rows of their base."""

    table: str
    base: str
    exchanges: list[Case]

    @property
    def name(self) -> str:
        return f"{self.table}-{self.exchanges[0].line}"


class Played(NamedTuple):
    """What came of a group: its base, the answers, how a second server at the port ended, and how the first one."""

    base: Said
    answers: list[bytes]
    second: int | None
    end: int | None


def groups() -> list[Group]:
    found: list[Group] = []
    for table in sorted(path.name for path in (TABLES / "exchanges").iterdir()):
        for case in cases(f"exchanges/{table}"):
            if not found or (found[-1].table, found[-1].base) != (table, case.base):
                found.append(Group(table, case.base, []))
            found[-1].exchanges.append(case)
    return found


GROUPS = groups()
EXCHANGES = [(group, place) for group in GROUPS for place in range(len(group.exchanges))]
NAMES = [f"{group.table}-{group.exchanges[place].line}" for group, place in EXCHANGES]


@pytest.fixture(scope="module")
def play(muni: Program, tmp_path_factory: pytest.TempPathFactory):
    """Plays a group over a store of a kind, once for all tests that look at it."""
    played: dict[tuple[str, str], Played] = {}

    def found(group: Group, kind: str) -> Played:
        if (group.name, kind) not in played:
            store = Store(kind, tmp_path_factory.mktemp("exchanges") / "S")
            played[group.name, kind] = play_once(muni, group, store)
        return played[group.name, kind]

    return found


def play_once(muni: Program, group: Group, store: Store) -> Played:
    base = muni.run("import", store.word, rows=bytes_of(group.base))
    answers = []
    second = None
    with Server(muni, store.name, len(group.exchanges)) as server:
        for case in group.exchanges:
            answers.append(server.ask(bytes_of(case.parts[0])))
            if len(answers) == 1 < len(group.exchanges):
                second = ended(server.beside(store.name + "2", 1))
        return Played(base, answers, second, server.ended())


@pytest.mark.parametrize("kind", KINDS)
@pytest.mark.parametrize(("group", "place"), EXCHANGES, ids=NAMES)
def test_a_client_gets_the_answer_of_the_table(play, group, place, kind):
    assert play(group, kind).answers[place] == bytes_of(group.exchanges[place].parts[1])


@pytest.mark.parametrize("kind", KINDS)
@pytest.mark.parametrize("group", GROUPS, ids=[group.name for group in GROUPS])
def test_a_server_ends_after_its_last_connection_and_has_its_port_for_itself(play, group, kind):
    played = play(group, kind)
    assert (played.base.status, "added" in played.base.text) == (0, bool(group.base))
    # A port is asked for a second time if more than one connection is still to come.
    assert played.second == (7 if len(group.exchanges) > 1 else None)
    assert played.end == 0


def status_of(server: Server, body: bytes) -> int:
    """The status that a client reads that sends the whole body first."""
    client = http.client.HTTPConnection("127.0.0.1", server.port)
    client.sock = server.connect()
    try:
        client.request("POST", "/trades", body)
        return client.getresponse().status
    finally:
        client.close()


def test_each_client_has_its_answer_though_the_server_reads_no_body_of_that_length(muni, tmp_path):
    with Server(muni, str(tmp_path / "S"), CLIENTS) as server:
        assert [status_of(server, bytes(LENGTH)) for _ in range(CLIENTS)] == [413] * CLIENTS
        assert server.ended() == 0


# Its limits are of real time, so nothing runs beside it.
@pytest.mark.xdist_group("alone")
def test_a_client_that_stays_has_the_end_of_its_answer_and_keeps_the_next_one_waiting_for_a_second(muni, tmp_path):
    with Server(muni, str(tmp_path / "S"), 2) as server, server.connect() as staying:
        begin = time.monotonic()
        staying.sendall(LIST)
        assert received(staying)[:12] == b"HTTP/1.1 200"
        assert time.monotonic() - begin < 0.5, "the answer has not ended"
        begin = time.monotonic()
        assert server.ask(LIST)[:12] == b"HTTP/1.1 200"
        assert time.monotonic() - begin < 3, "the next client waits"
        assert server.ended() == 0


@contextlib.contextmanager
def dripping(client: socket.socket) -> Iterator[None]:
    """A client sends a byte each 20 ms, until its connection is closed or this ends."""
    over = threading.Event()

    def drip() -> None:
        with contextlib.suppress(OSError):
            while not over.wait(0.02):
                client.sendall(b"a")

    thread = threading.Thread(target=drip)
    thread.start()
    try:
        yield
    finally:
        over.set()
        thread.join()


@pytest.mark.xdist_group("alone")
def test_a_client_that_sends_byte_by_byte_after_its_answer_keeps_the_next_one_waiting_for_two_seconds(muni, tmp_path):
    with Server(muni, str(tmp_path / "S"), 2) as server, server.connect() as client:
        client.sendall(LIST)
        assert received(client)[:12] == b"HTTP/1.1 200"
        begin = time.monotonic()
        with dripping(client):
            assert server.ask(LIST)[:12] == b"HTTP/1.1 200"
        assert time.monotonic() - begin < 4, "the next client waits"
        assert server.ended() == 0


def test_a_client_that_sends_on_loses_nothing_by_a_signal_that_interrupts_the_server(muni, tmp_path):
    with Server(muni, str(tmp_path / "S"), 1) as server, server.connect() as client:
        client.sendall(b"POST /trades HTTP/1.1\r\nContent-Length: %d\r\n\r\n" % LENGTH)
        assert client.recv(12) == b"HTTP/1.1 413"
        for order in 3 * (signal.SIGSTOP, signal.SIGCONT):
            # Reads of the server wait one after another, and one is to be interrupted.
            time.sleep(0.05)
            server.process.send_signal(order)
        for _ in range(3):
            time.sleep(0.05)
            client.sendall(bytes(LENGTH // 3))
        assert server.ended() == 0
