"""Stores of which one is killed: no request is lost, and what was acknowledged is kept in the store of its desk."""
from __future__ import annotations

import signal

import pytest

from support.rules import UNLIMITED
from support.several import ask_store, references
from support.site import Site
from support.trading import ISSUE, TERMS, Entered, add_issue, beside, clients, tell, until

# Its desks take long to start.
pytestmark = pytest.mark.xdist_group("killed stores")

DESKS = ("ALPHA", "BETA")
STORES = dict(zip(DESKS, ("desk", "second")))
# How many trades of each desk are answered between two kills.
COUNT = 30


@pytest.fixture(scope="module")
def site(deploy) -> Site:
    """These clients ask more than an address may."""
    return add_issue(deploy((UNLIMITED,), "--stores=2"))


def of(entered: Entered, place: int) -> list[str]:
    """The trades of a desk that were acknowledged."""
    return [each for each in entered.accepted() if int(each.partition("x")[2]) % 2 == place]


def more(entered: Entered) -> bool:
    """Waits until each desk has so many more."""
    before = [len(of(entered, place)) for place in range(2)]
    return until(lambda: all(len(of(entered, place)) >= before[place] + COUNT for place in range(2)), seconds=120)


def test_trades_are_entered_while_a_store_is_killed(site):
    killed = set()
    with clients(site, 8, DESKS) as entered:
        for _ in range(3):
            assert more(entered)
            killed.add(site.process_of("muni@second"))
            tell(site, signal.SIGKILL, "muni@second")
        assert more(entered)
    assert len(killed) == 3
    assert entered.others() == set()
    for place, desk in enumerate(DESKS):
        of_desk = set(of(entered, place))
        assert len(of_desk) >= 4 * COUNT
        kept = {store: references(site, store, desk) for store in STORES.values()}
        assert kept == {store: of_desk if store == STORES[desk] else set() for store in STORES.values()}


def test_an_issue_in_the_hands_of_the_program_that_is_killed_is_sent_again(site):
    body, told = ISSUE.replace(TERMS["cusip"], "990081AB7"), []
    tell(site, signal.SIGSTOP, "muni@second")
    try:
        thread = beside(lambda: told.append(site.ask("POST", "/issues", body, user="rita")[::2]))
        assert until(lambda: ask_store(site, "desk", "GET", "/issues/990081AB7").status == 200)
        tell(site, signal.SIGKILL, "muni-issues")
    finally:
        tell(site, signal.SIGCONT, "muni@second")
    thread.join()
    assert told == [(200, "ADDED 990081AB7\n")]
    assert ask_store(site, "second", "GET", "/issues/990081AB7").status == 200
