"""The page of a desk behind nginx, in one window for each module. Answers pass a relay that cuts, fakes and delays."""
from __future__ import annotations

import contextlib
import pathlib
from collections.abc import Callable, Iterator
from dataclasses import replace

import pytest

from muni import Basis, Side, Trade
from support.browser import Browser
from support.issues import DISCOUNT, ELM_GROVE, MARLOW, NOTE, RIVERTON, WRONG, ZERO
from support.page import APRIL, Page
from support.program import needs
from support.relay import Relay
from support.site import NAME, Site, deployed

# Its name is the longest that an issue has.
LONG_NAME = replace(MARLOW, name="COUNTY OF MARLOW AND TOWNS, TAX ANTICIPATION NOTES OF 2025 A")
# Trades of the desk, which come after all others: one by terms that were amended since, one that is corrected, and one
# that is canceled.
AMENDED = Trade("RETAIL", "zAmended", RIVERTON.cusip, Side.BUY, 5_000, APRIL, Basis.YIELD, 4, issue=1)
CORRECTED, CANCELED = (replace(AMENDED, reference=name, issue=None) for name in ("zCorrected", "zCanceled"))


@pytest.fixture(scope="module")
def site() -> Iterator[Site]:
    """A desk that the tests may ask beside nginx, too."""
    with deployed("--unguarded") as site:
        yield site


@pytest.fixture(scope="module")
def window(request: pytest.FixtureRequest, site: Site) -> Iterator[Callable[[], Page]]:
    """Gives pages in windows of their own, which end with the module."""
    needs("chromium", "chromedriver")
    shots = request.config.getoption("--shots")
    if shots:
        shots = pathlib.Path(shots)
        shots.mkdir(parents=True, exist_ok=True)
    with contextlib.ExitStack() as stack:
        relay = stack.enter_context(Relay(site))

        def opened() -> Page:
            browser = stack.enter_context(Browser(f"MAP {NAME}:{site.port} 127.0.0.1:{relay.port}"))
            return Page(browser, site, relay, shots)

        yield opened


@pytest.fixture(scope="module")
def bare(window: Callable[[], Page]) -> Page:
    """The page in the window of the module, over a desk that has issues, of which one was amended, and no trade."""
    page = window()
    for issue in (ELM_GROVE, WRONG, ZERO, DISCOUNT, NOTE, LONG_NAME):
        page.desk.add_issue(issue)
    page.desk.amend(RIVERTON, 2)
    return page


@pytest.fixture(scope="module")
def first(bare: Page) -> Page:
    """The same over a desk that has trades, too."""
    for trade in (AMENDED, CORRECTED, CANCELED):
        bare.desk.enter(trade)
    bare.desk.correct(replace(CORRECTED, par=6_000), 2)
    bare.desk.cancel("RETAIL", CANCELED.reference, 2)
    return bare


@pytest.fixture
def page(first: Page) -> Iterator[Page]:
    """The page as rita opens it. At the end the browser must have nothing to say of it."""
    first.relay.rules.clear()
    first.relay.delays.clear()
    first.open("rita")
    yield first
    assert first.browser.log() == []
