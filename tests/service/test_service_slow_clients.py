"""Clients that send nothing, or half of a head, or half of a body, and others who ask meanwhile."""
from __future__ import annotations

import socket
import ssl
import statistics
import time
from typing import NamedTuple

import pytest

from support.rules import UNLIMITED
from support.site import NAME, Link, Site
from support.trading import beside

# It counts the time of answers.
pytestmark = pytest.mark.xdist_group("alone")

# These clients ask more than an address may.
EDITS = (UNLIMITED,)
COUNT = 300
# nginx waits for a head or a body for five seconds, and a busy machine is late.
KEPT = 15


class Beside(NamedTuple):
    """The statuses of all who asked, and the middles of their times beside slow clients and without them."""

    statuses: list[int]
    slow: float
    usual: float
    left: int


def slow_links(site: Site) -> list[socket.socket]:
    half_head = f"GET /lists/ALPHA HTTP/1.1\r\nHost: {NAME}\r\nX-Half: "
    half_body = (f"POST /quotes HTTP/1.1\r\nHost: {NAME}\r\nAuthorization: {site.log_in('otto')['Authorization']}\r\n"
                 "Content-Length: 200\r\n\r\n{")
    links: list[socket.socket] = [socket.create_connection(("127.0.0.1", site.port)) for _ in range(COUNT // 3)]
    for text in [half_head, half_body] * (COUNT // 3):
        link = Link(site)
        link.connect()
        link.sock.sendall(text.encode())
        links.append(link.sock)
    return links


def seconds(site: Site, statuses: list[int]) -> float:
    """The middle of the times of five who ask at once."""
    times = []

    def ask() -> None:
        begin = time.monotonic()
        statuses.append(site.ask("GET", "/lists/ALPHA").status)
        times.append(time.monotonic() - begin)

    for thread in [beside(ask) for _ in range(5)]:
        thread.join()
    return statistics.median(times)


def left(links: list[socket.socket], end_by: float) -> int:
    """How many connections are not closed by a moment."""
    count = 0
    for link in links:
        link.settimeout(max(0.01, end_by - time.monotonic()))
        try:
            while link.recv(4096):
                pass
        except TimeoutError:
            count += 1
        except (ConnectionError, ssl.SSLError):
            pass
        link.close()
    return count


@pytest.fixture(scope="module")
def asked(site, deploy) -> Beside:
    """On a busy machine all answers take longer, so others ask a second site meanwhile that has no slow clients."""
    other = deploy()
    links, statuses, slow, usual = [], [], [], []
    for _ in range(3):
        links += slow_links(site)
        slow.append(seconds(site, statuses))
        usual.append(seconds(other, statuses))
    return Beside(statuses, statistics.median(slow), statistics.median(usual), left(links, time.monotonic() + KEPT))


def test_others_are_answered_in_50_ms(asked):
    assert asked.statuses == [200] * 30
    assert asked.slow < max(0.05, 5 * asked.usual)


def test_no_slow_client_is_kept(asked):
    assert asked.left == 0


def test_nginx_has_files_for_its_connections(site, asked):
    assert "exceed open file resource limit" not in (site.folder / "log/error.log").read_text()
