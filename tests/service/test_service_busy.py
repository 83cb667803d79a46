"""A desk that stands still, before which three requests may wait."""
from __future__ import annotations

import functools
import signal
import subprocess
from typing import NamedTuple

import pytest

from support.rules import QUEUE, Edit
from support.site import Link, Site
from support.trading import Entered, add_issue, at_desk, beside, is_kept, tell, trade, until, waiting

# All come in the time that the desk may take, also on a busy machine.
EDITS = (Edit(QUEUE, "queue(desk) ge 1000", "queue(desk) ge 3"), Edit(QUEUE, "timeout server 20s", "timeout server 60s"),
         Edit(QUEUE, "timeout queue 30s", "timeout queue 60s"))
COUNT = 9


class Told(NamedTuple):
    """The references and statuses in order, what those who were refused are told, and how many were so at first."""

    entered: Entered
    refusals: list[tuple[str, str | None]]
    first: list[int | str]


@pytest.fixture(scope="module")
def told(site: Site) -> Told:
    """A request at the desk, one of a client that leaves, and eight more, of which three may wait."""
    add_issue(site)
    entered, refusals = Entered(), []

    def ask(reference: str) -> None:
        answer = site.ask("POST", "/trades", trade(reference))
        entered.append((reference, answer.status))
        if answer.status != 200:
            refusals.append((answer.text, answer.fields["Retry-After"]))

    tell(site, signal.SIGSTOP)
    try:
        threads = [beside(lambda: ask("Q0"))]
        assert until(lambda: at_desk(site) == 1)
        leaver = Link(site)
        leaver.request("POST", "/trades", trade("LEFT"), site.log_in("alice"))
        assert until(lambda: waiting(site) == 2)
        leaver.close()
        # nginx then ends its connection to the queue.
        assert until(lambda: waiting(site) == 1, seconds=20)
        threads += [beside(functools.partial(ask, f"Q{place}")) for place in range(1, COUNT)]
        until(lambda: len(entered) == 5, seconds=20)
        # The others wait.
        until(lambda: len(entered) > 5, seconds=0.5)
        first = [status for _, status in entered]
    finally:
        tell(site, signal.SIGCONT)
    for thread in threads:
        thread.join()
    return Told(entered, refusals, first)


def test_who_would_be_the_fourth_to_wait_is_refused_at_once(told):
    assert told.first == [503] * 5


def test_who_is_refused_is_told_when_to_come_again(told):
    assert told.refusals == [("503 Service Unavailable\n", "1")] * 5


def test_who_may_wait_is_answered(told):
    assert len(told.entered.accepted()) == 4


def test_a_trade_of_a_client_that_left_before_its_turn_is_not_entered(site, told):
    assert len(told.entered) == COUNT
    assert not is_kept(site, "LEFT")


def test_the_health_is_good_then(site, told):
    health = subprocess.run(["curl", "-s", "-w", "%{http_code}", f"{site.told['health']}/health"], capture_output=True)
    assert health.stdout == b"200"
