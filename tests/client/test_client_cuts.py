"""The client and answers that do not come, come cut, or tell that the store fails."""
from __future__ import annotations

import socket
import threading
from dataclasses import replace
from datetime import date
from decimal import Decimal

import pytest

import muni
from muni import Basis, Side, Trade
from support.cutter import Cutter
from support.issues import ELM_GROVE
from support.server import Server, free_port, received

TRADE = Trade("CUT", "C1", ELM_GROVE.cusip, Side.SELL, 25_000, date(2024, 4, 3), Basis.PRICE, Decimal("104.25"),
              Decimal("0.375"))


@pytest.mark.parametrize("cut", [0, 40, 300])
def test_a_trade_whose_answer_is_cut_twice_is_sent_a_third_time_and_acts_once(desk: muni.Client, served: Server,
                                                                              cut: int) -> None:
    with Cutter(served.port, [cut, cut]) as cutter:
        entered = cutter.client.enter(replace(TRADE, reference=f"C{cut}"))
    kept = desk.confirmation("CUT", f"C{cut}")
    assert (entered, cutter.asked, kept.number) == (kept, 3, 1)


def test_an_answer_that_is_cut_after_each_of_its_bytes(desk: muni.Client, served: Server) -> None:
    desk.enter(replace(TRADE, desk="BYTES"))
    kept = desk.confirmation("BYTES", "C1")
    with Cutter(served.port, []) as whole, socket.create_connection(whole.door.getsockname()) as link:
        link.sendall(b"GET /trades/BYTES/C1 HTTP/1.1\r\n\r\n")
        length = len(received(link))
    assert length > 400
    with Cutter(served.port, [cut for place in range(length) for cut in (place, length)]) as cutter:
        for place in range(length):
            assert cutter.client.confirmation("BYTES", "C1") == kept
            assert cutter.asked == 2 * place + 2, f"cut after {place} bytes"


def test_no_answer_is_told_after_the_last_try(served: Server) -> None:
    with Cutter(served.port, [0, 0, 0, 0]) as cutter:
        with pytest.raises(muni.Unanswered):
            cutter.client.page("CUT")
        assert cutter.asked == 4


def test_a_port_where_nothing_listens_is_no_answer() -> None:
    with pytest.raises(muni.Unanswered):
        muni.Client(f"http://127.0.0.1:{free_port()}", tries=2, pause=0.01).page("CUT")


def test_a_store_that_fails_is_asked_again_and_told() -> None:
    asked: list[bytes] = []

    def fail() -> None:
        for _ in range(3):
            link, _ = door.accept()
            with link:
                asked.append(link.recv(65_536))
                link.sendall(b"HTTP/1.1 503 Service Unavailable\r\nContent-Length: 24\r\n\r\n503 Service Unavailable\n")

    with socket.create_server(("127.0.0.1", 0)) as door:
        threading.Thread(target=fail, daemon=True).start()
        with pytest.raises(muni.Status) as caught:
            muni.Client(f"http://127.0.0.1:{door.getsockname()[1]}", tries=3, pause=0.01).page("CUT")
    assert (caught.value.status, len(asked)) == (503, 3)
