"""A server of the program over a store, and what a client gets from it."""
from __future__ import annotations

import contextlib
import pathlib
import random
import socket
import subprocess
import time
from collections.abc import Sequence

from support.program import PATIENCE, Program


# The most connections that a server takes.
MOST = 1_000_000

# Below the ports that the system gives to connections, so that none of these takes one before its server does.
PORTS = range(10_000, 20_000)
DRAWS = random.SystemRandom()


def free_port() -> int:
    """A port of the loopback that was free a moment ago."""
    while True:
        port = DRAWS.choice(PORTS)
        with socket.socket() as probe, contextlib.suppress(OSError):
            probe.bind(("127.0.0.1", port))
            return port


def listening(port: int) -> list[tuple[str, str]]:
    """The addresses at which the port is listened to, by /proc."""
    found = []
    for name in ("tcp", "tcp6"):
        for line in pathlib.Path(f"/proc/net/{name}").read_text().splitlines()[1:]:
            address, _, number = line.split()[1].partition(":")
            if int(number, 16) == port and line.split()[3] == "0A":
                found.append((name, address))
    return found


def ended(process: subprocess.Popen[bytes]) -> int | None:
    """The status in which a process ends by itself, or None if it had to be killed."""
    try:
        return process.wait(timeout=PATIENCE)
    except subprocess.TimeoutExpired:
        process.kill()
        process.wait()
        return None


def reached(process: subprocess.Popen[bytes], port: int) -> socket.socket:
    """A connection to a port of the loopback, once the process that is starting listens there."""
    end_by = time.monotonic() + PATIENCE
    while True:
        try:
            return socket.create_connection(("127.0.0.1", port), timeout=PATIENCE)
        except ConnectionRefusedError:
            if process.poll() is not None or time.monotonic() > end_by:
                raise
            time.sleep(0.02)


def received(link: socket.socket) -> bytes:
    """All that the server writes, up to the end of the connection."""
    data = b""
    try:
        while piece := link.recv(65_536):
            data += piece
    except ConnectionError:
        pass
    return data


class Server:
    """`serve` over a store, at a port that was free. It is killed with the `with` if it did not end."""

    def __init__(self, program: Program, store: str, connections: int = MOST, more: Sequence[str] = ()) -> None:
        self.program = program
        self.port = free_port()
        self.process = self.beside(store, connections, more)
        self.is_new = True

    def beside(self, store: str, connections: int = MOST, more: Sequence[str] = ()) -> subprocess.Popen[bytes]:
        """Another server at the same port, with more options."""
        return self.program.start("serve", f"--store={store}", f"--port={self.port}", "--workers=2",
                                  f"--connections={connections}", *more)

    def __enter__(self) -> Server:
        return self

    def __exit__(self, *_: object) -> None:
        if self.process.poll() is None:
            self.process.kill()
        self.process.wait()

    @property
    def address(self) -> str:
        return f"http://127.0.0.1:{self.port}"

    def connect(self) -> socket.socket:
        """A connection. The first one waits for the server to listen."""
        if self.is_new:
            link = reached(self.process, self.port)
        else:
            link = socket.create_connection(("127.0.0.1", self.port), timeout=PATIENCE)
        self.is_new = False
        link.setsockopt(socket.IPPROTO_TCP, socket.TCP_NODELAY, 1)
        return link

    def ask(self, data: bytes, size: int | None = None) -> bytes:
        """All that a client gets that sends the bytes in pieces of a size, and nothing more."""
        size = size or max(1, len(data))
        with self.connect() as link:
            try:
                for place in range(0, len(data), size):
                    link.sendall(data[place:place + size])
                    if size < 4096 and size < len(data):
                        time.sleep(0.00002)
                link.shutdown(socket.SHUT_WR)
            except OSError:
                pass
            return received(link)

    def ended(self) -> int | None:
        """The status after the last connection."""
        return ended(self.process)
