"""Trades that users of a desk behind nginx send, one by one and many at once."""
from __future__ import annotations

import contextlib
import functools
import http.client
import json
import os
import pathlib
import threading
import time
from collections.abc import Callable, Iterator

from support.program import PATIENCE, ROOT
from support.site import Site

ISSUE = (ROOT / "examples/http/issue.json").read_text()
TERMS = {"cusip": "990034AA8", "side": "buy", "par": "25000", "settle": "2024-04-03", "basis": "price",
         "value": "104.25"}


class Entered(list[tuple[str, int | str]]):
    """References of trades in the order of their answers, each with the status, or with the fault in its place."""

    def accepted(self) -> list[str]:
        return [reference for reference, status in self if status == 200]

    def others(self) -> set[int | str]:
        return {status for _, status in self} - {200}


def trade(reference: str, desk: str = "ALPHA", **more: str) -> str:
    """The body of a trade. The desk comes first."""
    return json.dumps({"desk": desk, "reference": reference} | TERMS | more)


def add_issue(site: Site) -> Site:
    """Adds the issue of the trades, and gives the site."""
    assert site.ask("POST", "/issues", ISSUE, user="rita").status == 200
    return site


def is_kept(site: Site, reference: str, desk: str = "ALPHA") -> bool:
    user = "rita" if desk == "RETAIL" else "alice"
    return site.ask("GET", f"/trades/{desk}/{reference}", user=user).status == 200


def enter(site: Site, entered: Entered, reference: str, **more: str) -> None:
    try:
        entered.append((reference, site.ask("POST", "/trades", trade(reference, **more)).status))
    except (OSError, http.client.HTTPException) as fault:
        entered.append((reference, type(fault).__name__))


@contextlib.contextmanager
def clients(site: Site, count: int, desks: tuple[str, ...] = ("ALPHA",)) -> Iterator[Entered]:
    """So many clients that enter one trade after another as long as this lasts, each for one desk after another."""
    entered, done = Entered(), threading.Event()

    def client(place: int) -> None:
        number = 0
        while not done.is_set():
            number += 1
            enter(site, entered, f"C{place}x{number}", desk=desks[number % len(desks)])

    threads = [beside(functools.partial(client, place)) for place in range(count)]
    try:
        yield entered
    finally:
        done.set()
        for thread in threads:
            thread.join()


def beside(call: Callable[[], None]) -> threading.Thread:
    thread = threading.Thread(target=call)
    thread.start()
    return thread


def listed(site: Site, desk: str = "ALPHA") -> str:
    """All pages of the list of a desk of alice."""
    lines, after = "", ""
    while page := site.ask("GET", f"/lists/{desk}{after}").text:
        lines += page
        after = "/" + page.splitlines()[-1].split()[0]
    return lines


def tell(site: Site, signal_number: int, unit: str = "muni") -> None:
    """Sends a signal to the desk, or to another unit, which may just be starting again."""
    until(lambda: has_taken(site, signal_number, unit))


def has_taken(site: Site, signal_number: int, unit: str) -> bool:
    try:
        os.kill(site.process_of(unit), signal_number)
    except ProcessLookupError:
        return False
    return True


def until(holds: Callable[[], bool], seconds: float = PATIENCE) -> bool:
    """Waits until something holds, and whether it does within so many seconds."""
    end_by = time.monotonic() + seconds
    while not holds():
        if time.monotonic() > end_by:
            return False
        time.sleep(0.02)
    return True


def waiting(site: Site) -> int:
    """How many connections of nginx are at the queue, also that of a request that is at the desk."""
    lines = pathlib.Path("/proc/net/unix").read_text().splitlines()
    # The queue listens in state 01, and 03 is a connection of it.
    return sum(f"{site.folder}/queue/queue.sock" in line and line.split()[5] == "03" for line in lines)


def at_desk(site: Site) -> int:
    """How many connections of the queue are at the desk."""
    lines = pathlib.Path(f"/proc/{site.process_of('muni')}/net/tcp").read_text().splitlines()
    here = f"0100007F:{int(site.told['desk_port']):04X}"
    return sum(words[1] == here and words[3] == "01" for words in map(str.split, lines))
