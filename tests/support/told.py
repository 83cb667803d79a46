"""Answers that stand in the place of a desk, and what the client asks for them."""
from __future__ import annotations

import json
import socket
import threading
from collections.abc import Callable
from datetime import date
from decimal import Decimal
from typing import TypeVar

import muni
from muni import Basis

Read = TypeVar("Read")

FIGURES = """PRICE 108.584 GIVEN
YIELD 3.000 COMPUTED
REDEMPTION 2034-01-01 100.000000 PAR OPTION
ACCRUED DAYS 0
PRINCIPAL 108584.00
ACCRUED 0.00
TOTAL 108584.00
"""


def quoted(text: str, **wanted: bool) -> tuple[muni.Figures, dict[str, object]]:
    """What the client reads of an answer to a quote, and the body that it sent."""
    return answered(text, lambda client: client.quote("990034AA8", 100_000, date(2024, 1, 1), Basis.PRICE,
                                                      Decimal("108.584"), **wanted))


def answered(text: str, asks: Callable[[muni.Client], Read]) -> tuple[Read, dict[str, object]]:
    """What a client that asks reads of an answer with this text, and the body that it sent."""
    sent: list[bytes] = []

    def answer() -> None:
        link, _ = door.accept()
        with link:
            request = link.recv(65_536)
            if request.endswith(b"\r\n\r\n"):
                request += link.recv(65_536)
            sent.append(request.partition(b"\r\n\r\n")[2])
            link.sendall(f"HTTP/1.1 200 OK\r\nContent-Length: {len(text)}\r\n\r\n{text}".encode())

    with socket.create_server(("127.0.0.1", 0)) as door:
        thread = threading.Thread(target=answer, daemon=True)
        thread.start()
        found = asks(muni.Client(f"http://127.0.0.1:{door.getsockname()[1]}", tries=1))
        thread.join()
    return found, json.loads(sent[0])
