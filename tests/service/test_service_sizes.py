"""The largest bodies and heads that nginx lets through, and a body that is sent when it is asked for."""
from __future__ import annotations

import pytest

from support.site import NAME, Link
from support.trading import add_issue, trade


@pytest.fixture(scope="module", autouse=True)
def issue(site):
    add_issue(site)


@pytest.mark.parametrize(("size", "status"), [(65_536, 200), (65_537, 413), (2_000_000, 413)])
def test_a_body_of_a_size(site, size, status):
    assert site.ask("POST", "/trades", trade("Z1").ljust(size)).status == status


@pytest.mark.parametrize(("fields", "status"), [(4, 200), (8, 400)])
def test_a_head_of_fields_of_3_000_bytes(site, fields, status):
    more = {f"X_{place}": "x" * 3_000 for place in range(fields)}
    assert site.ask("GET", "/lists/ALPHA", **more).status == status


def test_a_client_that_waits_to_be_asked_for_its_body_is_asked(site):
    """nginx answers it, which the desk itself does not."""
    body = trade("Z2").encode()
    fields = {"Host": NAME, **site.log_in("alice"), "Expect": "100-continue", "Content-Length": str(len(body))}
    link = Link(site)
    link.connect()
    with link.sock as sock:
        sock.sendall(b"POST /trades HTTP/1.1\r\n"
                     + "".join(f"{name}: {value}\r\n" for name, value in fields.items()).encode() + b"\r\n")
        answer = sock.makefile("rb")
        assert answer.readline() == b"HTTP/1.1 100 Continue\r\n"
        assert answer.readline() == b"\r\n"
        sock.sendall(body)
        assert answer.readline().startswith(b"HTTP/1.1 200 ")
