"""A desk that ends and is started again: no request is lost, and what was acknowledged is kept."""
from __future__ import annotations

import signal

import pytest

from support.rules import DESK, UNLIMITED, Edit
from support.trading import Entered, add_issue, at_desk, beside, clients, enter, listed, tell, until

# These clients ask more than an address may. A desk that is used up after so few connections ends many times.
EDITS = (UNLIMITED, Edit(DESK, "--connections=1000000", "--connections=60"))
LINE = "{} 1 LIVE 25000 104.250 3.663\n"


@pytest.fixture(scope="module", autouse=True)
def issue(site):
    add_issue(site)


def test_trades_are_entered_while_the_desk_ends_and_is_killed(site):
    before = listed(site)
    ended = set()
    with clients(site, 8) as entered:
        for place in range(10):
            count = len(entered)
            assert until(lambda: len(entered) > count + 3)
            process = site.process_of("muni")
            ended.add(process)
            tell(site, (signal.SIGTERM, signal.SIGKILL)[place % 2])
    assert len(ended) >= 8
    assert entered.others() == set()
    lines = [LINE.format(reference) for reference in sorted(entered.accepted())]
    assert listed(site) == "".join(sorted([*before.splitlines(keepends=True), *lines]))


def test_a_trade_waits_for_a_desk_that_does_not_come_back_for_two_seconds(site):
    program = site.folder / "muni"
    program.chmod(0o644)
    try:
        tell(site, signal.SIGTERM)
        waited = Entered()
        thread = beside(lambda: enter(site, waited, "W1"))
        assert not until(lambda: len(waited) > 0, seconds=2)
    finally:
        program.chmod(0o755)
    thread.join()
    assert waited == [("W1", 200)]


@pytest.mark.parametrize("size", [0, 60_000])
def test_a_trade_in_the_hands_of_a_desk_that_is_killed_is_sent_again(site, size):
    """Also one that is as large as a request may be."""
    killed = Entered()
    tell(site, signal.SIGSTOP)
    thread = beside(lambda: enter(site, killed, f"K{size}", pad="x" * size))
    assert until(lambda: at_desk(site) > 0)
    tell(site, signal.SIGKILL)
    thread.join()
    assert killed == [(f"K{size}", 200)]
