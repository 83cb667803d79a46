"""What stands between a browser and a site: it hands requests on, and cuts, fakes or delays answers as it is told."""
from __future__ import annotations

import contextlib
import socket
import ssl
import struct
import threading
import time
from collections.abc import Iterator

from support.program import PATIENCE
from support.server import received
from support.site import NAME, Site


class Relay:
    """Takes connections of TLS with the site's certificate, one request each, and asks the site for it.

    `seen` has each request as its line and its body. `rules` has pairs of the beginning of a line and what is done
    to the next answer to it: `pass` sends it, `cut` nothing of it, `half` a part of it, and any other text is
    sent in its place. Each rule is used once. `delays` has seconds by the beginning of a line, and `holds` what is
    waited for.
    """

    def __init__(self, site: Site) -> None:
        self.site = site
        self.seen: list[tuple[str, str]] = []
        self.rules: list[tuple[str, str]] = []
        self.delays: dict[str, float] = {}
        self.holds: dict[str, threading.Event] = {}
        self.own = ssl.SSLContext(ssl.PROTOCOL_TLS_SERVER)
        self.own.load_cert_chain(site.told["certificate"], site.folder / "etc/key.pem")
        self.door = socket.create_server(("127.0.0.1", 0), backlog=64)
        self.port = self.door.getsockname()[1]
        threading.Thread(target=self.take, daemon=True).start()

    def __enter__(self) -> Relay:
        return self

    def __exit__(self, *_: object) -> None:
        # An end of the socket alone would leave the thread in its accept.
        self.door.shutdown(socket.SHUT_RDWR)
        self.door.close()

    def take(self) -> None:
        while True:
            try:
                link, _ = self.door.accept()
            except OSError:
                return
            threading.Thread(target=self.serve, args=(link,), daemon=True).start()

    def serve(self, link: socket.socket) -> None:
        try:
            with self.own.wrap_socket(link, server_side=True) as client:
                request = whole_request(client)
                if not request:
                    return
                head, _, body = request.partition(b"\r\n\r\n")
                line = head.split(b"\r\n")[0].decode()
                self.seen.append((line, body.decode()))
                time.sleep(next((each for begin, each in self.delays.items() if line.startswith(begin)), 0))
                held = next((each for begin, each in self.holds.items() if line.startswith(begin)), None)
                if held:
                    held.wait(PATIENCE)
                self.answer(client, line, self.asked(head, body))
        except OSError:
            pass

    def asked(self, head: bytes, body: bytes) -> bytes:
        """The site's answer."""
        lines = [line for line in head.split(b"\r\n") if not line.lower().startswith(b"connection:")]
        with socket.create_connection(("127.0.0.1", self.site.port)) as plain:
            with self.site.context.wrap_socket(plain, server_hostname=NAME) as link:
                link.sendall(b"\r\n".join(lines + [b"Connection: close", b"", b""]) + body)
                return received(link)

    def answer(self, client: ssl.SSLSocket, line: str, answer: bytes) -> None:
        rule = next((each for each in self.rules if line.startswith(each[0])), None)
        if rule is not None:
            self.rules.remove(rule)
        if rule is None or rule[1] == "pass":
            client.sendall(answer)
            return
        if rule[1] == "half":
            client.sendall(answer[:-40])
        elif rule[1] != "cut":
            client.sendall(rule[1].encode())
            return
        # The end without a close of TLS or of TCP, as of a line that breaks.
        client.setsockopt(socket.SOL_SOCKET, socket.SO_LINGER, struct.pack("ii", 1, 0))
        socket.socket(fileno=client.detach()).close()

    @contextlib.contextmanager
    def holding(self, begin: str) -> Iterator[None]:
        """Holds requests whose line begins so, until one of them has come and the `with` ends."""
        before, self.holds[begin] = len(self.sent(begin)), threading.Event()
        yield
        end_by = time.monotonic() + PATIENCE
        while len(self.sent(begin)) == before and time.monotonic() < end_by:
            time.sleep(0.02)
        self.holds.pop(begin).set()

    def sent(self, begin: str) -> list[str]:
        """The bodies of the requests whose line begins so."""
        return [body for line, body in self.seen if line.startswith(begin)]


def whole_request(client: ssl.SSLSocket) -> bytes:
    """The bytes of a request with its body, or none if the client ended before."""
    request = b""
    while b"\r\n\r\n" not in request:
        piece = client.recv(65_536)
        if not piece:
            return b""
        request += piece
    head, _, body = request.partition(b"\r\n\r\n")
    fields = dict(line.lower().split(b": ", 1) for line in head.split(b"\r\n")[1:])
    while len(body) < int(fields.get(b"content-length", 0)):
        body += client.recv(65_536)
    return head + b"\r\n\r\n" + body


def plain(status: int, phrase: str, text: str = "") -> str:
    """An answer that is not the site's."""
    text = text or f"{status} {phrase}\n"
    return (f"HTTP/1.1 {status} {phrase}\r\nContent-Type: text/plain\r\nContent-Length: {len(text)}\r\n"
            f"Connection: close\r\n\r\n{text}")
