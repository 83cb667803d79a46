"""With one store and an empty map the answers are those of a queue without a map, byte for byte."""
from __future__ import annotations

import json
import re

import pytest

from support.links import joined, said
from support.program import ROOT
from support.rules import NGINX, QUEUE, Edit
from support.site import NAME, Site
from support.trading import ISSUE, TERMS, trade

# Its desks take long to start.
pytestmark = pytest.mark.xdist_group("empty map")

TEXT = (ROOT / "deploy/queue.cfg").read_text()
MAPPED = TEXT[TEXT.index("    # The store that is asked:"):TEXT.index("    default_backend desk\n")]
WITHOUT = (Edit(QUEUE, MAPPED), Edit(NGINX, "            proxy_set_header X-Desk $desk_of_path;\n"),
           Edit(NGINX, "            proxy_set_header X-Desk $desk_of_body;\n"))
QUOTE = json.dumps({name: TERMS[name] for name in ("cusip", "par", "settle", "basis", "value")})
ASKED = (
    ("rita", "POST", "/quotes", QUOTE), ("alice", "POST", "/issues", ISSUE), ("rita", "POST", "/issues", ISSUE),
    ("rita", "POST", "/issues", ISSUE.replace("4.125\"", "5\"")), ("rita", "POST", "/issues", "{}"),
    ("otto", "POST", "/quotes", QUOTE), ("otto", "GET", f"/issues/{TERMS['cusip']}", ""),
    ("otto", "POST", "/checks", QUOTE), ("otto", "POST", "/checks", '{"desk":"ALPHA"}'),
    ("alice", "POST", "/trades", trade("E1")), ("alice", "POST", "/trades", trade("E2", "BETA")),
    ("rita", "POST", "/trades", trade("E3", "RETAIL")), ("alice", "POST", "/trades", trade("E4", "RETAIL")),
    ("alice", "POST", "/trades", trade("E1", par="30000")),
    ("alice", "POST", "/corrections", trade("E1", number="2", par="30000")),
    ("alice", "POST", "/cancels", '{"desk":"BETA","reference":"E2","number":"2"}'),
    ("alice", "POST", "/cancels", '{"desk":"BETA","reference":"E9","number":"2"}'),
    ("alice", "POST", "/checks", '{"desk":"BETA","reference":"E2","price":"1"}'),
    ("alice", "POST", "/trades", "{"), ("alice", "GET", "/trades", ""), ("alice", "GET", "/nothing", ""),
    *[("alice", "GET", path, "") for path in (
        "/trades/ALPHA/E1", "/trades/ALPHA/E1/1", "/trades/ALPHA/E9", "/lists/ALPHA", "/lists/BETA/E1",
        "/latest/BETA", "/positions/ALPHA", "/lists/RETAIL", "/lists/ALPHA/", "/lists/0", "/issues/000000000", "/me")])


def answers(site: Site) -> list[str]:
    """The bytes of each answer, without the time."""
    found = []
    for user, method, path, body in ASKED:
        head = (f"{method} {path} HTTP/1.1\r\nHost: {NAME}\r\nAuthorization: {site.log_in(user)['Authorization']}\r\n"
                f"Content-Length: {len(body)}\r\nConnection: close\r\n\r\n")
        link = joined(site)
        link.sendall((head + body).encode())
        found.append(re.sub("\r\nDate: [^\r]*", "", said(link)))
    return found


@pytest.fixture(scope="module")
def told(deploy) -> tuple[list[str], list[str]]:
    """What is answered with the map, and without."""
    return answers(deploy(())), answers(deploy(WITHOUT))


@pytest.mark.parametrize("place", range(len(ASKED)), ids=[" ".join(each[:3]) for each in ASKED])
def test_an_answer_is_the_same_with_an_empty_map(told, place):
    assert told[0][place] == told[1][place]
    assert told[0][place].startswith("HTTP/1.1 ")


def test_all_kinds_of_answers_were_compared(told):
    statuses = {int(each.split()[1]) for each in told[0]}
    assert statuses == {200, 400, 403, 404, 405, 409}
