"""A store on another machine: TLS between the queues of both, on which each knows the certificate of the other."""
from __future__ import annotations

import contextlib
import os
import pathlib
import socket
import ssl
import subprocess
from collections.abc import Iterator
from typing import NamedTuple

import pytest

from support.program import PATIENCE
from support.server import free_port
from support.several import health, lead, references
from support.site import Site, stranger
from support.trading import add_issue, trade, until

# Its desks take long to start.
pytestmark = pytest.mark.xdist_group("hop")

NEAR, FAR = "door.example", "far.example"
USES = {NEAR: "clientAuth", FAR: "serverAuth"}
REQUEST = b"GET /lists/RETAIL HTTP/1.1\r\nHost: queue\r\nX-Allowed: yes\r\n\r\n"


class Machines(NamedTuple):
    """The machine of nginx, the one of the store, the port between them, and a folder with their keys."""

    near: Site
    far: Site
    port: int
    keys: pathlib.Path


def make_key(folder: pathlib.Path, name: str, use: str) -> pathlib.Path:
    """Makes a key with its certificate in a new folder, and the certificate alone beside it."""
    folder.mkdir()
    subprocess.run(["openssl", "req", "-x509", "-newkey", "ec", "-pkeyopt", "ec_paramgen_curve:prime256v1", "-nodes",
                    "-days", "2", "-subj", f"/CN={name}", "-addext", f"subjectAltName=DNS:{name}", "-addext",
                    f"extendedKeyUsage={use}", "-keyout", "hop.pem", "-out", "hop.pem"], cwd=folder, check=True,
                   capture_output=True)
    subprocess.run(["openssl", "x509", "-in", "hop.pem", "-out", "known.pem"], cwd=folder, check=True)
    return folder


@contextlib.contextmanager
def hop(site: Site, name: str, key: pathlib.Path, known: pathlib.Path, port: int, sock: str = "far") -> Iterator[None]:
    """Runs haproxy with one of the files of the hop. Its certificate is in `key`, the known one in `known`."""
    group = (site.folder / "etc/users").group()
    text = (site.deploy / name).read_text()
    for old, new in (("/etc/muni/door.pem", f"{known}/known.pem"), ("/etc/muni/far.pem", f"{known}/known.pem"),
                     ("/run/muni-", f"{site.folder}/"), ("far.sock", f"{sock}.sock"), ("192.0.2.10", "127.0.0.1"),
                     ("far.example:8737", f"127.0.0.1:{port}"), ("bind :8737", f"bind :{port}"),
                     ("group www-data", f"group {group}")):
        text = text.replace(old, new)
    file = key / f"{sock}-{name}"
    file.write_text(text)
    (site.folder / "hop").mkdir(exist_ok=True)
    process = subprocess.Popen(["/usr/sbin/haproxy", "-db", "-f", file], stderr=subprocess.DEVNULL,
                               env=os.environ | {"CREDENTIALS_DIRECTORY": str(key)})
    try:
        yield
    finally:
        process.terminate()
        process.wait()


@pytest.fixture(scope="module")
def machines(deploy, tmp_path_factory) -> Iterator[Machines]:
    """Two machines, of which the other one has the desk BETA."""
    keys = tmp_path_factory.mktemp("keys")
    near_key, far_key = (make_key(keys / name, name, use) for name, use in USES.items())
    near, far = deploy((), "--stores=2"), add_issue(deploy(()))
    port = free_port()
    with hop(near, "hop-out.cfg", near_key, far_key, port), hop(far, "hop-in.cfg", far_key, near_key, port):
        lead(add_issue(near), "BETA far", "/issues issues")
        assert until(lambda: health(near, "far") == 200)
        yield Machines(near, far, port, keys)


def said_at(port: int, key: pathlib.Path | None, address: str = "127.0.0.1") -> bytes:
    """What the port between the machines says to a client with this certificate, or none, from an address."""
    context = stranger()
    if key:
        context.load_cert_chain(key / "hop.pem")
    try:
        plain = socket.create_connection(("127.0.0.1", port), timeout=PATIENCE, source_address=(address, 0))
        with context.wrap_socket(plain) as link:
            link.sendall(REQUEST)
            return link.recv(65_536)
    except (ssl.SSLError, ConnectionError):
        return b""


def test_the_trades_of_a_desk_are_on_the_other_machine_alone(machines):
    near, far = machines.near, machines.far
    assert near.ask("POST", "/trades", trade("H1", "BETA")).status == 200
    assert near.ask("GET", "/lists/BETA").text.startswith("H1 1 LIVE ")
    assert references(far, "desk", "BETA") == {"H1"}
    assert references(near, "desk", "BETA") | references(near, "second", "BETA") == set()


def test_the_machine_of_nginx_is_let_in(machines):
    assert said_at(machines.port, machines.keys / NEAR).startswith(b"HTTP/1.1 200 ")


def test_who_shows_no_certificate_or_another_is_not_let_in(machines, tmp_path):
    for key in (None, make_key(tmp_path / "other", NEAR, "clientAuth"), machines.keys / FAR):
        assert said_at(machines.port, key) == b""


def test_another_address_is_not_let_in(machines):
    assert said_at(machines.port, machines.keys / NEAR, "127.0.0.2") == b""


def test_a_machine_with_another_certificate_is_told_nothing(machines, tmp_path):
    near, far, port, keys = machines._replace(port=free_port())
    other = make_key(tmp_path / "other", FAR, "serverAuth")
    sock = near.folder / "hop/other.sock"
    with hop(near, "hop-out.cfg", keys / NEAR, keys / FAR, port, "other"), \
            hop(far, "hop-in.cfg", other, keys / NEAR, port, "other"):
        assert until(sock.exists) and until(lambda: said_at(port, keys / NEAR) != b"")
        words = ["curl", "-s", "-m", "2", "--unix-socket", sock, "-H", "X-Allowed: yes", "http://queue/lists/RETAIL"]
        assert subprocess.run([*words, "-w", "%{http_code}"], capture_output=True).stdout == b"000"
