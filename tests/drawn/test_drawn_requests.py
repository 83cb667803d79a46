"""Requests that are drawn at random, most of them hostile, one connection each: every answer has the form of one and is
that of an exact calculator, no client is reset, and the server ends after its last one."""
from __future__ import annotations

import pathlib
import re
import socket
import struct
import tempfile
import time

import pytest
from hypothesis import event, given, settings
from hypothesis import strategies as st

from support.drawn import ISSUE, many, post, requests
from support.program import Program
from support.reference import Reference
from support.server import Server
from support.stores import KINDS, Store

FORM = re.compile(rb"HTTP/1\.1 (\d\d\d) [A-Za-z ]+\r\nContent-Type: text/plain\r\nContent-Length: (\d+)\r\n"
                  rb"(Allow: (GET|POST)\r\n)?Connection: close\r\n\r\n")

# How a client sends its bytes: whole, in a few pieces, or byte by byte; and how it leaves before the answer.
WAYS = ("whole", "whole", "whole", "pieces", "singly")
LEAVINGS = ("stays", "stays", "stays", "stays", "closes", "resets")

# What clients send, and how.
client = st.tuples(requests, st.sampled_from(WAYS), st.sampled_from(LEAVINGS))
clients = many(client, 40, 80)


def is_of_the_form(answer: bytes) -> bool:
    found = FORM.match(answer)
    return not answer or (found is not None and len(answer) == found.end() + int(found[2]))


def send(link: socket.socket, data: bytes, way: str) -> None:
    """Sends the bytes, as far as the server takes them."""
    size = {"whole": len(data), "pieces": len(data) // 3 + 1, "singly": 1 if len(data) <= 3000 else len(data)}[way]
    try:
        for place in range(0, len(data), max(size, 1)):
            link.sendall(data[place:place + size])
            if way == "pieces":
                # The server is to find the pieces one by one.
                time.sleep(0.001)
    except OSError:
        pass


def left_early(server: Server, data: bytes, leaving: str) -> None:
    """Sends the bytes, and goes without a look at the answer."""
    link = server.connect()
    send(link, data, "whole")
    if leaving == "resets":
        link.setsockopt(socket.SOL_SOCKET, socket.SO_LINGER, struct.pack("ii", 1, 0))
    link.close()


def answer_to(server: Server, data: bytes, way: str) -> bytes:
    """All that a client gets. A reset after the answer is a fault."""
    answer = b""
    with server.connect() as link:
        send(link, data, way)
        try:
            link.shutdown(socket.SHUT_WR)
        except OSError:
            pass
        while piece := link.recv(65_536):
            answer += piece
    return answer


def asked_in_turn(muni: Program, kind: str, drawn: list[tuple[bytes, str, str]], reference: Reference | None) -> None:
    """One client after another at one server. Who leaves before the answer has sent no whole request, or it would be
    open whether it was applied."""
    with tempfile.TemporaryDirectory() as folder:
        with Server(muni, Store(kind, pathlib.Path(folder) / "S").name, len(drawn) + 1) as server:
            for data, way, leaving in [(post("/issues", ISSUE), "whole", "stays"), *drawn]:
                right = None if reference is None else reference.answered(data)
                is_cut = right == [b""] or (right is None and len(data) < 40)
                if is_cut and leaving != "stays":
                    left_early(server, data, leaving)
                    continue
                answer = answer_to(server, data, way)
                assert is_of_the_form(answer)
                if right is not None and answer not in right and not reference.is_sure:
                    event("another figure of several that may be right")
                    return
                assert right is None or answer in right
            assert server.ended() == 0


@pytest.mark.parametrize("kind", KINDS)
def test_the_answer_to_any_request_is_that_of_an_exact_calculator(muni: Program, kind: str):
    @given(clients)
    def tried(drawn: list[tuple[bytes, str, str]]) -> None:
        asked_in_turn(muni, kind, drawn, Reference())

    tried()


def test_the_answer_to_any_request_has_the_form_of_one(muni: Program):
    @settings(max_examples=settings.default.max_examples // 5)
    @given(clients)
    def tried(drawn: list[tuple[bytes, str, str]]) -> None:
        asked_in_turn(muni, "sqlite", drawn, None)

    tried()
