"""The filter of fail2ban finds who guesses, and takes nothing that a client writes for an address or a status."""
from __future__ import annotations

import subprocess

import pytest

from support.links import joined, said
from support.program import needs
from support.site import NAME
from support.trading import until

FORGED = 'x","from":"192.0.2.1","request":"x","status":"401",'


@pytest.fixture(scope="module")
def found(site) -> list[str]:
    """The addresses that the filter finds in the log."""
    needs("fail2ban-regex")
    asked = [("127.0.0.11", "alice", "wrong", "/me"), ("127.0.0.12", FORGED, "wrong", "/me"),
             ("127.0.0.13", "", "", "/me"), ("127.0.0.14", "alice", site.passwords["alice"], f'/"{FORGED}'),
             ("127.0.0.15", "alice", site.passwords["alice"], "/me")]
    for address, user, password, path in asked:
        field = site.log_in(user, password)["Authorization"] if user else "none"
        link = joined(site, address)
        link.sendall(f"GET {path} HTTP/1.1\r\nHost: {NAME}\r\nAuthorization: {field}\r\n\r\n".encode())
        said(link)
    log = site.folder / "log/desk.log"
    until(lambda: len(log.read_text().splitlines()) >= len(asked))
    came = subprocess.run(["fail2ban-regex", "-o", "ip", log, site.deploy / "fail2ban-filter.conf"],
                          capture_output=True, text=True)
    return came.stdout.split()


def test_who_guesses_is_found_and_no_other(found):
    assert found == ["127.0.0.11", "127.0.0.12"]
