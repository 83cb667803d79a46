"""Users with two desks and with none, and a program that logs in at the address of the page."""
from __future__ import annotations

import socket
from unittest import mock

import pytest
from selenium.webdriver.common.keys import Keys

import muni
from support.page import TICKET, Page, missing
from support.site import NAME

pytestmark = pytest.mark.xdist_group("page_users")


@pytest.fixture(scope="module")
def windows(window, first) -> dict[str, Page]:
    """A window for each of the other users, since a browser keeps a password that it was told."""
    return {user: window() for user in ("alice", "otto")}


@pytest.fixture
def opened(windows):
    """Opens the page as one of the other users. At the end the browser must have nothing to say of it."""
    pages = []

    def open_as(user: str) -> Page:
        pages.append(windows[user])
        pages[0].open(user)
        return pages[0]

    yield open_as
    assert pages[0].browser.log() == []


def test_who_has_two_desks_is_offered_both(opened):
    page = opened("alice")
    page.until("return document.title.startsWith('ALPHA')")
    assert page.js("return [...document.querySelectorAll('#house-desks option')].map(each => each.value)") == [
        "ALPHA", "BETA"]


def test_another_desk_has_its_own_trades_and_no_old_sheet(opened):
    page = opened("alice")
    page.fill("ticket", **TICKET | {"reference": "A1"})
    page.press("ticket-enter", sure="#sure-yes")
    assert page.title() != ""
    page.browser.write("#house-desk", "BETA")
    page.browser.press(Keys.ENTER)
    assert page.shows("trades-place", "Desk BETA has no trades.")
    assert page.title() == ""


def test_the_desk_of_another_is_not_shown(opened):
    page = opened("alice")
    page.browser.write("#house-desk", "retail")
    page.click("#house button")
    told = page.shows("trades-told", "403")
    assert missing(["403 Forbidden", "What it means: this user may not do that"], told) == []


def test_who_may_add_no_issue_is_told_so(opened):
    page = opened("alice")
    page.fill("issue", cusip="990000069", name="ALICE 2030", kind="zero", dated="2020-01-01", maturity="2030-01-01")
    told = page.press("#issue .first", "issue-told", "#sure-yes")
    assert missing(["403 Forbidden", "What it means: this user may not do that"], told) == []


def test_who_has_no_desk_may_quote_and_enters_nothing(opened):
    page = opened("otto")
    page.shows("house-told", ".")
    assert "No desk is yours." in page.text("house-told")
    page.fill("ticket", **TICKET | {"reference": "A1"})
    assert "Quoted" in page.press("ticket-quote")
    page.click("#ticket-enter")
    assert "Open a desk first" in page.text("house-told")


@pytest.fixture
def program(first: Page):
    """The client of a program that logs in as rita. No name server knows the site."""
    site, resolve = first.site, socket.getaddrinfo
    here = mock.patch("socket.getaddrinfo", lambda name, *words, **more: resolve(
        "127.0.0.1" if name == NAME else name, *words, **more))
    with here:
        yield muni.Client(site.address, user="rita", password=site.passwords["rita"], context=site.context)


def test_a_program_that_logs_in_reads_a_trade(first, program):
    first.enter("PROGRAM")
    assert program.confirmation("RETAIL", "PROGRAM") == first.kept("PROGRAM")


def test_a_program_that_logs_in_does_not_read_the_desk_of_another(program):
    with pytest.raises(muni.Status) as caught:
        program.page("ALPHA")
    assert caught.value.status == 403
