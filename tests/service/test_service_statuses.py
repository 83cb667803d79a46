"""Each status that an answer of the site may have, and the table of deploy/README.md that explains them."""
from __future__ import annotations

import contextlib
import os
import pathlib
import re
import signal
import socket
import stat
import subprocess
from collections.abc import Callable, Iterator

import pytest

from support.links import joined, said, status
from support.program import PATIENCE, ROOT
from support.rules import QUEUE, Edit
from support.site import NAME, Site, stranger
from support.trading import tell, trade, until

# It waits for what a desk that stands still makes others wait, so it has shorter times.
EDITS = (Edit(QUEUE, "timeout server 20s", "timeout server 6s"), Edit(QUEUE, "retries 300", "retries 30"))

GET, POST = "GET {} HTTP/1.1\r\n{{log_in}}", "POST {} HTTP/1.1\r\n{{log_in}}"
SENT = {
    "no password": (401, f"GET /me HTTP/1.1\r\nHost: {NAME}\r\n\r\n"),
    "another's desk": (403, GET.format("/lists/RETAIL") + "\r\n"),
    "no HTTP": (400, "GARBAGE\r\n\r\n"),
    "no Host": (400, "GET /me HTTP/1.1\r\n\r\n"),
    "a field of 5,000 bytes": (400, GET.format("/me") + f"X: {'x' * 5_000}\r\n\r\n"),
    "a field of 4,000 bytes": (200, GET.format("/me") + f"X: {'x' * 4_000}\r\n\r\n"),
    "a path that leaves the root": (400, GET.format("/../x") + "\r\n"),
    "a path of 5,000 bytes": (414, GET.format("/" + "x" * 5_000) + "\r\n"),
    "a path that is none": (404, GET.format("/nothing") + "\r\n"),
    "an issue that is not kept": (404, GET.format("/trades/ALPHA/X1") + "\r\n"),
    "another method": (405, GET.format("/quotes") + "\r\n"),
    "TRACE": (405, "TRACE /me HTTP/1.1\r\n{log_in}\r\n"),
    "no length": (411, POST.format("/quotes") + "\r\n"),
    "a condition that fails": (412, GET.format("/page/desk.js") + 'If-Match: "x"\r\n\r\n'),
    "a body of 99,999 bytes": (413, POST.format("/quotes") + "Content-Length: 99999\r\n\r\n"),
    "a range past the end": (416, GET.format("/page/desk.js") + "Range: bytes=9999999-\r\n\r\n"),
    "another Host": (421, "GET /me HTTP/1.1\r\nHost: evil.example\r\n\r\n"),
    "another encoding of a body": (501, POST.format("/quotes") + "Transfer-Encoding: gzip\r\n\r\n"),
    "another HTTP": (505, "GET /me HTTP/3.0\r\n{log_in}\r\n"),
    "a body that comes too slowly": (0, POST.format("/quotes") + "Content-Length: 2\r\n\r\n{{"),
    "a body that is no quote": (400, POST.format("/quotes") + "Content-Length: 2\r\n\r\n{{}}"),
}
FAILING = (403, 500, 502, 503, 504)


@pytest.mark.parametrize(("wanted", "text"), SENT.values(), ids=SENT)
def test_a_request_is_answered_by_its_status(site, wanted, text):
    link = joined(site)
    field = site.log_in("alice")["Authorization"]
    link.sendall(text.format(log_in=f"Host: {NAME}\r\nAuthorization: {field}\r\n").encode())
    came = said(link)
    assert status(came) == wanted
    assert not re.search(r"nginx/\d", came), "nobody is told nginx's version"
    if wanted not in (0, 200, 400, 414, 501, 505):
        assert re.search(rf"\r\n\r\n{wanted} [A-Z][^\n<]*\n$", came) or "REFUSED" in came, "it is answered by a line"


def test_the_table_of_answers_has_each_status():
    table = (ROOT / "deploy/README.md").read_text().partition("## What the answers mean")[2].partition("\n## ")[0]
    rows = re.findall(r"^\| ([^|]*)\|", table, re.M)
    named = {int(number) for row in rows for number in re.findall(r"\b\d{3}\b", row)}
    assert {wanted for wanted, _ in SENT.values()} | set(FAILING) <= named | {0, 200}


def test_what_is_not_encrypted_is_refused(site):
    plain = socket.create_connection(("127.0.0.1", site.port), timeout=PATIENCE)
    plain.sendall(f"GET / HTTP/1.1\r\nHost: {NAME}\r\n\r\n".encode())
    assert status(said(plain)) == 400


def test_a_client_that_asks_nothing_leaves_the_site_as_it_is(site):
    plain = socket.create_connection(("127.0.0.1", site.port), timeout=PATIENCE)
    stranger().wrap_socket(plain, server_hostname=NAME).close()
    assert site.ask("GET", "/me").status == 200


@contextlib.contextmanager
def away(file: pathlib.Path) -> Iterator[None]:
    """Takes a file away for a while."""
    other = file.rename(file.with_name("away"))
    try:
        yield
    finally:
        other.rename(file)


@contextlib.contextmanager
def changed(file: pathlib.Path, rights: int) -> Iterator[None]:
    """Gives a file other rights for a while."""
    before = stat.S_IMODE(file.stat().st_mode)
    file.chmod(rights)
    try:
        yield
    finally:
        file.chmod(before)


def no_passwords(site: Site) -> contextlib.AbstractContextManager[None]:
    return away(site.folder / "etc/users")


def unread_passwords(site: Site) -> contextlib.AbstractContextManager[None]:
    if os.getuid() != 0:
        pytest.skip("this user is not root, so nginx runs as the same one")
    return changed(site.folder / "etc/users", 0o600)


def no_queue(site: Site) -> contextlib.AbstractContextManager[None]:
    return away(site.folder / "queue/queue.sock")


@contextlib.contextmanager
def no_desk(site: Site) -> Iterator[None]:
    with changed(site.folder / "muni", 0o644):
        tell(site, signal.SIGTERM)
        yield
    until(lambda: site.ask("GET", "/lists/ALPHA").status == 200)


@contextlib.contextmanager
def still_desk(site: Site) -> Iterator[None]:
    tell(site, signal.SIGSTOP)
    try:
        yield
    finally:
        tell(site, signal.SIGCONT)


FAULTS: dict[str, tuple[int, Callable[..., contextlib.AbstractContextManager[None]]]] = {
    "a file of passwords that is not there": (403, no_passwords),
    "a file of passwords that nginx may not read": (500, unread_passwords),
    "no queue": (502, no_queue),
    "a desk that does not come back": (503, no_desk),
    "a desk that stands still": (504, still_desk),
}


def health(site: Site) -> str:
    """The status of the health, which is asked for on the machine itself."""
    words = ["curl", "-s", "-o", "/dev/null", "-w", "%{http_code}", f"{site.told['health']}/health"]
    return subprocess.run(words, capture_output=True, text=True).stdout


@pytest.mark.parametrize(("wanted", "fault"), FAULTS.values(), ids=FAULTS)
def test_what_does_not_run_or_may_not_be_read_is_told_by_a_status(site, wanted, fault):
    method, path, body = ("POST", "/trades", trade("N1")) if wanted == 503 else ("GET", "/lists/ALPHA", None)
    with fault(site):
        answer = site.ask(method, path, body)
        if wanted == 504:
            assert health(site) == "504"
    assert (answer.status, answer.text.startswith(f"{wanted} ")) == (wanted, True)


def test_the_faults_have_each_status_of_what_does_not_run():
    assert sorted(wanted for wanted, _ in FAULTS.values()) == sorted(FAILING)
