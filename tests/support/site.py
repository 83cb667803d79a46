"""A desk behind nginx and haproxy: what `deployed` starts, and requests to it."""
from __future__ import annotations

import http.client
import os
import pathlib
import socket
import ssl
import subprocess
from base64 import b64encode
from collections.abc import Iterable
from typing import NamedTuple

import pytest

from support.program import ROOT, program_path

NAME = "desk.example"


class Answer(NamedTuple):
    status: int
    fields: http.client.HTTPMessage
    text: str


class Missing(Exception):
    """A program is not on this machine."""


class Link(http.client.HTTPSConnection):
    """A connection to the site, which no name server knows."""

    def __init__(self, site: Site, name: str | None = NAME) -> None:
        self.tls = site.context if name == NAME else stranger()
        super().__init__(NAME, site.port, timeout=80, context=self.tls)
        self.name = name

    def connect(self) -> None:
        self.sock = self.tls.wrap_socket(socket.create_connection(("127.0.0.1", self.port), timeout=80),
                                         server_hostname=self.name)


def stranger() -> ssl.SSLContext:
    """A client that takes any certificate."""
    context = ssl.SSLContext(ssl.PROTOCOL_TLS_CLIENT)
    context.check_hostname = False
    context.verify_mode = ssl.CERT_NONE
    return context


class Site:
    """What `deployed` starts with these words. It ends with the `with`, and also if the test does not end well.

    `told` has its lines, as `address` and `folder`; `passwords` and `desks` are by user.
    """

    def __init__(self, *words: str) -> None:
        self.told: dict[str, str] = {}
        self.passwords: dict[str, str] = {}
        self.desks: dict[str, list[str]] = {}
        self.process = subprocess.Popen([ROOT / "tests/support/deployed", *words], stdin=subprocess.PIPE,
                                        stdout=subprocess.PIPE, text=True, start_new_session=True,
                                        env=os.environ | {"MUNI_PROGRAM": str(program_path())})
        assert self.process.stdin and self.process.stdout
        self.life = self.process.stdin
        for line in self.process.stdout:
            name, _, value = line.rstrip("\n").partition(" ")
            if name == "ready":
                break
            if name == "missing":
                raise Missing(value)
            if name == "user":
                user, password, *desks = value.split()
                self.passwords[user], self.desks[user] = password, desks
            self.told[name] = value
        else:
            raise RuntimeError(f"the desk did not start: {self.told}")
        self.folder = pathlib.Path(self.told["folder"])
        self.deploy = self.folder / "deploy"
        self.address = self.told["address"]
        self.port = int(self.told["port"])
        self.context = ssl.create_default_context(cafile=self.told["certificate"])

    def __enter__(self) -> Site:
        return self

    def __exit__(self, *_: object) -> None:
        self.life.close()
        self.process.wait()

    def log_in(self, user: str, password: str | None = None) -> dict[str, str]:
        """The field that logs a user in."""
        words = f"{user}:{self.passwords[user] if password is None else password}"
        return {"Authorization": "Basic " + b64encode(words.encode()).decode()}

    def ask(self, method: str, path: str, body: str | bytes | Iterable[bytes] | None = None, user: str | None = "alice",
            **fields: str) -> Answer:
        """What a request of a user is answered. In the names of fields `_` stands for `-`."""
        head = {name.replace("_", "-"): value for name, value in fields.items()}
        if user:
            head = self.log_in(user) | head
        link = Link(self)
        try:
            link.request(method, path, body, head, encode_chunked="Transfer-Encoding" in head)
            answer = link.getresponse()
            return Answer(answer.status, answer.headers, answer.read().decode())
        finally:
            link.close()

    def process_of(self, unit: str) -> int:
        """The number of the process of a unit, which is another one after each start."""
        return int((self.folder / f"{unit}.pid").read_text())


def deployed(*words: str) -> Site:
    """A site. The test is skipped if a program is missing that it needs."""
    try:
        return Site(*words)
    except Missing as missing:
        pytest.skip(f"{missing} is missing")
