"""Requests to a server of a store, one a connection, and their answers."""
from __future__ import annotations

import json
from typing import NamedTuple

from support.server import Server

ISSUE = {"cusip": "123456AA3", "name": "RIVERTON WATER 5S 2025", "kind": "periodic", "dated": "2020-01-01",
         "first": "2020-07-01", "maturity": "2025-01-01", "coupon": "5"}
TRADE = {"desk": "ALPHA", "cusip": "123456AA3", "side": "buy", "par": "25000", "settle": "2024-04-01",
         "basis": "yield", "value": "4"}


class Answer(NamedTuple):
    """The number of its status line and its body, or 0 if nothing came."""

    status: int
    body: bytes


def asked(server: Server, path: str, body: dict[str, str] | None = None) -> Answer:
    """The answer to a request, which posts the body if there is one."""
    data = b"" if body is None else json.dumps(body).encode()
    method = "GET" if body is None else "POST"
    head = f"{method} {path} HTTP/1.1\r\nHost: desk\r\n" + f"Content-Length: {len(data)}\r\n" * bool(data) + "\r\n"
    came = server.ask(head.encode() + data)
    top, _, rest = came.partition(b"\r\n\r\n")
    return Answer(int(top.split()[1]) if top else 0, rest)


def added(server: Server) -> int:
    """The status of the issue."""
    return asked(server, "/issues", ISSUE).status


def entered(server: Server, reference: str) -> int:
    """The status of a trade of ALPHA."""
    return asked(server, "/trades", {**TRADE, "reference": reference}).status


def found(server: Server, reference: str) -> int:
    """The status of the look-up of a trade."""
    return asked(server, f"/trades/ALPHA/{reference}").status
