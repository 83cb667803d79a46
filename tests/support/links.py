"""Connections to a site that send the bytes of a request as they are."""
from __future__ import annotations

import re
import socket
import ssl

from support.program import PATIENCE
from support.site import NAME, Site


def joined(site: Site, address: str = "127.0.0.1") -> ssl.SSLSocket:
    """A connection from an address of this machine."""
    plain = socket.create_connection(("127.0.0.1", site.port), timeout=PATIENCE, source_address=(address, 0))
    return site.context.wrap_socket(plain, server_hostname=NAME)


def said(link: ssl.SSLSocket | socket.socket) -> str:
    """What comes until the connection is closed, or an answer that leaves it open is whole."""
    text = b""
    try:
        while piece := link.recv(65_536):
            text += piece
            if b"Connection: keep-alive" in text and text.endswith(b"\n"):
                break
    except OSError:
        pass
    link.close()
    return text.decode("latin-1")


def status(text: str) -> int:
    """The status of an answer, or 0 if there is none."""
    found = re.search(r"HTTP/1\.1 (?!100)(\d+)", text)
    return int(found[1]) if found else 0


def asking(site: Site, path: str, password: str | None = None) -> bytes:
    """A request of alice."""
    field = site.log_in("alice", password)["Authorization"]
    return f"GET {path} HTTP/1.1\r\nHost: {NAME}\r\nAuthorization: {field}\r\n\r\n".encode()
