"""How much one address may ask at once and in a second."""
from __future__ import annotations

import collections
import re
import socket
import time

import pytest

from support.links import asking, joined, said, status
from support.rules import NGINX, Edit
from support.site import Site
from support.trading import trade, until

# It counts what comes within a second.
pytestmark = pytest.mark.xdist_group("alone")

# On a busy machine requests come slowly, so a guess takes longer here, and fewer are let through after the first ones.
DELAY = 8
SLOWER = Edit(NGINX, "auth_delay 1s;", f"auth_delay {DELAY}s;")
EDITS = (SLOWER, Edit(NGINX, "rate=100r/s", "rate=5r/s"), Edit(NGINX, "rate=1r/s", "rate=1r/m"))
# As nginx.conf has them, and how many more than an address may guess at once.
AT_ONCE, BURST, LARGE = 40, 200, 4
MORE = 20


class Guesses:
    """The answers to guesses that come at once, more than an address may ask, and to another address meanwhile."""

    def __init__(self, site: Site) -> None:
        links = [joined(site) for _ in range(AT_ONCE + MORE)]
        other = joined(site, "127.0.0.2")
        guess = asking(site, "/lists/ALPHA", "wrong")
        for link in links:
            link.sendall(guess)
        # A guess is answered after a while. Before that all have come, of which nginx's log has those refused.
        log = site.folder / "log/desk.log"
        until(lambda: log.read_text().count('"status":"429"') == MORE, seconds=DELAY / 2)
        begin = time.monotonic()
        other.sendall(asking(site, "/lists/ALPHA"))
        self.other = status(said(other))
        self.seconds = time.monotonic() - begin
        self.told = [said(link) for link in links]


def asked_at_once(site: Site, count: int, address: str) -> list[socket.socket]:
    """Connections of an address that ask for a path that is none, which ends each of them."""
    links = [joined(site, address) for _ in range(count)]
    asked = asking(site, "/nothing")
    for link in links:
        link.sendall(asked)
    return links


@pytest.fixture(scope="module")
def guesses(site) -> Guesses:
    return Guesses(site)


def test_more_guesses_at_once_than_an_address_may_ask_are_refused(guesses):
    assert collections.Counter(map(status, guesses.told)) == {401: AT_ONCE, 429: MORE}


def test_who_is_refused_is_told_when_to_come_again(guesses):
    refused = [each for each in guesses.told if status(each) == 429]
    assert refused and all("\r\nRetry-After: 1\r\n" in each for each in refused)
    assert all(each.endswith("\r\n\r\n429 Too Many Requests\n") for each in refused)


def test_no_connection_stays_without_a_password(guesses):
    assert all("\r\nConnection: close\r\n" in each for each in guesses.told)


def test_another_address_is_answered_at_once_meanwhile(guesses):
    assert guesses.other == 200
    assert guesses.seconds < DELAY / 2


def test_more_requests_in_a_second_than_an_address_may_ask_end_the_connection(site, guesses):
    # Another address, of which the guesses have used up nothing.
    link = joined(site, "127.0.0.3")
    link.sendall(asking(site, "/me") * 2_000)
    came = ""
    try:
        while piece := link.recv(65_536):
            came += piece.decode("latin-1")
    except OSError:
        pass
    statuses = re.findall(r"HTTP/1\.1 (\d+)", came)
    assert set(statuses) == {"200", "429"}
    assert BURST <= statuses.count("200") < 2_000
    assert "limiting" not in (site.folder / "log/error.log").read_text(), "the other log has each of them"


def test_of_large_bodies_an_address_may_send_few(site):
    bodies = [trade(f"B{place}").ljust(60_000) for place in range(12)]
    answers = [site.ask("POST", "/trades", body, user="otto").status for body in bodies]
    assert answers[:LARGE + 1] == [403] * (LARGE + 1) and answers.count(429) >= 5
    assert site.ask("POST", "/trades", bodies[0].strip(), user="otto").status == 403


def test_paths_that_are_none_are_counted(site):
    told = collections.Counter(status(said(link)) for link in asked_at_once(site, 300, "127.0.0.4"))
    assert set(told) <= {0, 404, 429} and told[404] < 300
