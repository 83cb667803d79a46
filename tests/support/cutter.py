"""What stands before a desk and hands on only a part of its answers."""
from __future__ import annotations

import re
import socket
import threading

import muni
from support.server import received


class Cutter:
    """Hands each request on to a desk. Of so many answers it hands only a part back, as many bytes each.

    `asked` counts the requests. It takes no more of them after the `with`.
    """

    def __init__(self, port: int, cuts: list[int]) -> None:
        self.port = port
        self.cuts = cuts
        self.asked = 0
        self.door = socket.create_server(("127.0.0.1", 0))
        self.client = muni.Client(f"http://127.0.0.1:{self.door.getsockname()[1]}", pause=0.01, tries=4)
        threading.Thread(target=self.serve, daemon=True).start()

    def __enter__(self) -> Cutter:
        return self

    def __exit__(self, *_: object) -> None:
        # An end of the socket alone would leave the thread in its accept.
        self.door.shutdown(socket.SHUT_RDWR)
        self.door.close()

    def serve(self) -> None:
        while True:
            try:
                link, _ = self.door.accept()
            except OSError:
                return
            with link:
                self.asked += 1
                link.sendall(self.handed_on(link))

    def handed_on(self, link: socket.socket) -> bytes:
        request = b""
        while not (found := re.match(rb"(?is)(.*?\r\n\r\n)(.*)", request)):
            request += link.recv(65_536)
        length = re.search(rb"(?i)content-length: (\d+)", found[1])
        while len(request) < len(found[1]) + (int(length[1]) if length else 0):
            request += link.recv(65_536)
        with socket.create_connection(("127.0.0.1", self.port)) as desk:
            desk.sendall(request)
            answer = received(desk)
        return answer[:self.cuts.pop(0)] if self.cuts else answer
