"""A desk behind nginx whose trading desks are in several stores."""
from __future__ import annotations

import contextlib
import http.client
import json
import os
import pathlib
import signal
import socket
import subprocess
from collections.abc import Iterator

from support.program import PATIENCE
from support.rules import QUEUE, UNLIMITED, Edit
from support.site import Answer, Site
from support.trading import tell, until

# The queue gives up a store that is away after a second.
SOON = (UNLIMITED, Edit(QUEUE, "retries 300", "retries 10"))
# The stores of `deployed --stores=2`, to which issues go in this order.
STORES = ("desk", "second", "quotes1", "quotes2")


class Line(http.client.HTTPConnection):
    """A connection to the queue, past nginx."""

    def __init__(self, site: Site) -> None:
        super().__init__("queue", timeout=PATIENCE)
        self.path = site.folder / "queue/queue.sock"

    def connect(self) -> None:
        self.sock = socket.socket(socket.AF_UNIX)
        self.sock.settimeout(PATIENCE)
        self.sock.connect(str(self.path))


def ask_store(site: Site, store: str, method: str, path: str, body: str | None = None) -> Answer:
    """What one of the stores answers."""
    line = Line(site)
    try:
        line.request(method, path, body, {"X-Allowed": "yes", "X-Store": store})
        came = line.getresponse()
        return Answer(came.status, came.headers, came.read().decode())
    finally:
        line.close()


def references(site: Site, store: str, desk: str) -> set[str]:
    """The references of a desk in one of the stores, of which none comes twice."""
    found: list[str] = []
    while page := ask_store(site, store, "GET", f"/lists/{desk}/{found[-1]}" if found else f"/lists/{desk}").text:
        found += [line.split()[0] for line in page.splitlines()]
    assert len(set(found)) == len(found)
    return set(found)


def health(site: Site, store: str = "") -> int:
    """The status that a monitor gets for a store."""
    address = f"{site.told['health']}/health" + (f"/{store}" if store else "")
    words = ["curl", "-s", "-o", "/dev/null", "-w", "%{http_code}", address]
    return int(subprocess.run(words, capture_output=True, text=True).stdout)


def unit_of(store: str) -> str:
    return "muni" if store == "desk" else f"muni@{store}"


@contextlib.contextmanager
def away(site: Site, *stores: str) -> Iterator[None]:
    """Stops the servers of stores, which start again afterwards, over files that may be others' then."""
    program = site.folder / "muni"
    program.chmod(0o644)
    try:
        for store in stores:
            process = site.process_of(unit_of(store))
            os.kill(process, signal.SIGTERM)
            until(lambda: not pathlib.Path(f"/proc/{process}").exists())
        yield
        for store in stores:
            give(folder_of(site, store))
    finally:
        program.chmod(0o755)
    for store in stores:
        assert until(lambda: health(site, store) == 200)


@contextlib.contextmanager
def standing(site: Site, store: str) -> Iterator[None]:
    """Makes the server of a store stand still."""
    tell(site, signal.SIGSTOP, unit_of(store))
    try:
        yield
    finally:
        tell(site, signal.SIGCONT, unit_of(store))


def quoted(site: Site, cusip: str) -> str:
    """The figures of a quote at a yield, or its refusal."""
    body = json.dumps({"cusip": cusip, "par": "25000", "settle": "2024-04-03", "basis": "yield", "value": "3"})
    return site.ask("POST", "/quotes", body, user="otto").text


def store_of(site: Site, store: str) -> str:
    """What the server of a store has as --store=."""
    return site.told["store" if store == "desk" else f"{store}_store"]


def folder_of(site: Site, store: str) -> pathlib.Path:
    return pathlib.Path(store_of(site, store).removeprefix("journal:")).parent


def give(folder: pathlib.Path) -> None:
    """Gives the files of a folder to whom the folder is."""
    for file in folder.iterdir():
        os.chown(file, folder.stat().st_uid, folder.stat().st_gid)


def lead(site: Site, *lines: str) -> None:
    """Makes these the lines of shards.map, and waits until the queue knows no others and was told of the issues.

    Until muni-issues has told it, a new queue lets no trade to a store other than the first.
    """
    (site.folder / "etc/shards.map").write_text("".join(f"{line}\n" for line in lines))
    before = workers(site)
    tell(site, signal.SIGUSR2, "muni-queue")
    assert until(lambda: workers(site) and not workers(site) & before)
    assert until(lambda: ask_store(site, "second", "POST", "/trades", "{}").status != 503)


def workers(site: Site) -> set[str]:
    """The processes of the queue that take requests, or still have some."""
    master = site.process_of("muni-queue")
    return set(pathlib.Path(f"/proc/{master}/task/{master}/children").read_text().split())
