"""The queue before the desk: one request is at the desk, and the others wait in order."""
from __future__ import annotations

import functools
import signal

from support.rules import QUEUE, UNLIMITED, Edit
from support.trading import Entered, add_issue, at_desk, beside, clients, enter, tell, until, waiting

# These clients ask more than an address may. All come in the time that the desk may take, also on a busy machine.
EDITS = (UNLIMITED, Edit(QUEUE, "timeout server 20s", "timeout server 60s"))
COUNT = 16


def test_clients_that_ask_at_once_are_all_answered(site):
    add_issue(site)
    with clients(site, COUNT) as entered:
        assert until(lambda: len(entered) > 4 * COUNT)
    assert entered.others() == set()


def test_a_desk_that_stands_still_has_one_request_while_others_wait(site):
    add_issue(site)
    entered = Entered()
    tell(site, signal.SIGSTOP)
    try:
        threads = [beside(functools.partial(enter, site, entered, f"S{place}")) for place in range(COUNT)]
        assert until(lambda: waiting(site) == COUNT)
        assert until(lambda: at_desk(site) > 0)
        # The system takes connections for a desk that stands still, so each one that the queue opens is seen.
        assert not until(lambda: at_desk(site) > 1, seconds=1)
        assert len(entered) == 0
    finally:
        tell(site, signal.SIGCONT)
    for thread in threads:
        thread.join()
    assert sorted(entered.accepted()) == sorted(f"S{place}" for place in range(COUNT))
