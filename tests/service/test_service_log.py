"""The log of the desk behind nginx: a line of JSON for each request, with the user and who answered."""
from __future__ import annotations

import json
import socket
from base64 import b64encode

import pytest

from support.links import asking, joined, said, status
from support.site import NAME, Site, stranger
from support.trading import add_issue, trade, until

# The user, the status and who answered, in the order of the requests.
WANTED = [("alice", "403", "queue"), ("alice", "401", "nginx"), ("alice", "403", "queue"), ("alice", "404", "desk"),
          ("alice", "400", "queue"), ("alice", "502", "nginx"), ("", "400", "nginx")]


def lines_of(site: Site) -> list[str]:
    return (site.folder / "log/desk.log").read_text().splitlines()


def logged(site: Site, method: str, path: str, body: str | bytes | None = None, **more: str | None) -> int:
    """The status of a request, once its line is there: it comes after the answer, and another process may be faster."""
    count = len(lines_of(site))
    told = site.ask(method, path, body, **more).status
    assert until(lambda: len(lines_of(site)) > count)
    return told


@pytest.fixture(scope="module")
def lines(site) -> list[str]:
    """The lines of the log after requests of each kind."""
    logged(site, "GET", '/lists/"RETAIL"?\\x')
    logged(site, "GET", "/lists/ALPHA", user=None, **site.log_in("alice", 'wrong"\\'))
    logged(site, "POST", "/trades", trade("L1", "RETAIL"))
    logged(site, "GET", "/trades/ALPHA/L2")
    logged(site, "GET", "/lists/ALPHA#")
    # Without the queue.
    door, away = site.folder / "queue/queue.sock", site.folder / "queue/away"
    door.rename(away)
    logged(site, "GET", "/trades/ALPHA/L3")
    away.rename(door)
    socket.create_connection(("127.0.0.1", site.port)).close()
    with stranger().wrap_socket(socket.create_connection(("127.0.0.1", site.port)), server_hostname=NAME) as link:
        link.sendall(b'GARBAGE "\\\x01\r\n\r\n')
        link.recv(1000)
    until(lambda: len(lines_of(site)) >= len(WANTED))
    return lines_of(site)


def test_each_request_has_a_line_of_json(lines):
    assert len([json.loads(line) for line in lines]) == len(WANTED)


@pytest.mark.parametrize("place", range(len(WANTED)))
def test_a_line_tells_the_user_the_status_and_who_answered(lines, place):
    line = json.loads(lines[place])
    assert (line.get("user"), line["status"], line["by"]) == WANTED[place]


def test_a_line_has_the_request_and_the_body(lines):
    line = json.loads(lines[2])
    assert (line["request"], line.get("body")) == ("POST /trades HTTP/1.1", trade("L1", "RETAIL"))


def test_of_what_is_refused_the_log_has_the_beginning(site, lines):
    add_issue(site)
    assert until(lambda: len(lines_of(site)) == len(lines) + 1)
    log = site.folder / "log/desk.log"
    before = log.stat().st_size
    assert logged(site, "POST", "/trades", b"\x01" * 8_000, user="otto") == 403
    assert logged(site, "POST", "/trades", trade("L9", "RETAIL").ljust(7_000)) == 403
    assert logged(site, "GET", "/" + "A" * 3_900, user=None) == 404
    assert logged(site, "GET", "/lists/ALPHA", user=None, **site.log_in("\x01" * 2_500, "x")) == 400
    whole = trade("L9").ljust(7_000)
    assert logged(site, "POST", "/trades", whole) == 200
    added = [json.loads(line) for line in lines_of(site)[len(lines) + 1:]]
    assert [line.get("body", "") for line in added] == ["", trade("L9", "RETAIL").ljust(200), "", "", whole]
    assert (len(added[2]["request"]), len(added[3]["user"])) == (400, 100)
    assert log.stat().st_size - before < 10_000


@pytest.mark.parametrize("name", ["eve\n2026/01/01 00:00:00 [alert] 1#1: forged", "eve\r", "\x7f"])
def test_nobody_begins_a_line_of_the_error_log(site, name):
    log = site.folder / "log/error.log"
    before = log.read_text()
    link = joined(site)
    field = "Basic " + b64encode(f"{name}:x".encode()).decode()
    link.sendall(f"GET /lists/ALPHA HTTP/1.1\r\nHost: {NAME}\r\nAuthorization: {field}\r\n\r\n".encode())
    assert status(said(link)) == 400
    link = joined(site)
    link.sendall(asking(site, "/page/%0A2026%2F01%2F01 forged".replace(" ", "%20")))
    assert status(said(link)) == 400
    assert log.read_text() == before
