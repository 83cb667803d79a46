"""Answers that do not come to the page, come cut or late, or come from what stands before the desk."""
from __future__ import annotations

import pytest

from support.page import TICKET, missing
from support.relay import plain

pytestmark = pytest.mark.xdist_group("page_cuts")

# What a box has told since it was last asked for.
LISTEN = """
window.heard = [];
const box = document.getElementById("ticket-told");
new MutationObserver(() => window.heard.push(box.innerText)).observe(box, { childList: true });
"""
HEARD = "return window.heard.splice(0).join('\\n')"
CUTS = {"CUT1": ("cut", "The answer was cut"), "CUT2": ("half", "The answer was cut"),
        "CUT3": (plain(503, "Service Unavailable"), "Status 503 came"),
        "CUT4": (plain(502, "Bad Gateway"), "Status 502 came")}


@pytest.fixture
def ticket(page):
    """The page with a ticket that was quoted and has no reference yet, of which each word is heard."""
    page.fill("ticket", **TICKET)
    page.press("ticket-quote")
    page.js(LISTEN)
    return page


@pytest.mark.parametrize(("reference", "rule", "words"), [(name, *cut) for name, cut in CUTS.items()],
                         ids=["nothing of it", "half of it", "status 503", "status 502"])
def test_a_trade_whose_answer_is_lost_is_sent_again_and_acts_once(ticket, reference, rule, words):
    ticket.fill("ticket", reference=reference)
    ticket.relay.rules = [("POST /trades", rule)]
    sent = len(ticket.relay.sent("POST /trades"))
    told = ticket.press("ticket-enter")
    assert missing([f"CONFIRMATION 1 of {reference} is kept", "it was sent 2 times; it acted once"], told) == []
    assert len(ticket.relay.sent("POST /trades")) - sent == 2
    assert missing([f"{words}: sending again", "Time 2 of 4"], ticket.js(HEARD)) == []
    assert [line.number for line in ticket.desk.trades("RETAIL") if line.reference == reference] == [1]
    if reference == "CUT1":
        ticket.shot("cut")


def test_no_answer_at_all_is_told_and_the_same_again_adds_nothing(ticket):
    ticket.fill("ticket", reference="CUT5")
    typed = ticket.typed()
    ticket.relay.rules = [("POST /trades", "cut")] * 4
    told = ticket.press("ticket-enter")
    assert missing(["No answer came", "It was sent 4 times. Whether it was kept is not known.",
                    "what was accepted acts once"], told) == []
    assert ticket.typed() == typed
    ticket.shot("unanswered")
    assert "Nothing was added: CONFIRMATION 1 of CUT5 was kept before" in ticket.press("ticket-enter")


def test_a_last_version_that_cannot_be_read_is_told(ticket):
    ticket.fill("ticket", reference="CUT6")
    ticket.relay.rules = [("GET /trades/RETAIL/CUT6", "pass")] + [("GET /trades/RETAIL/CUT6", "cut")] * 4
    told = ticket.press("ticket-enter")
    assert missing(["CONFIRMATION 1 of CUT6 is kept", "The last version could not be read"], told) == []


def test_nothing_is_entered_if_what_is_kept_cannot_be_looked_at(ticket):
    ticket.fill("ticket", reference="CUT7")
    ticket.relay.rules = [("GET /trades/RETAIL/CUT7", "cut")] * 4
    assert "No answer came" in ticket.press("ticket-enter")
    assert not [body for body in ticket.relay.sent("POST /trades") if "CUT7" in body]


def test_a_store_that_fails_is_told(ticket):
    ticket.fill("ticket", reference="CUT8")
    ticket.relay.rules = [("POST /trades", plain(503, "Service Unavailable"))] * 4
    told = ticket.press("ticket-enter")
    assert missing(["503 Service Unavailable", "It was sent 4 times.", "see whether its disk is full",
                    "What stands before the desk may have said this. Whether it was kept is then not known"],
                   told) == []


def test_a_slow_answer_is_waited_for_and_that_is_said(ticket):
    ticket.relay.delays["POST /quotes"] = 2.6
    ticket.press("ticket-quote")
    assert missing(["Waiting for the desk", "Quoted"], ticket.js(HEARD)) == []


def test_a_late_number_is_not_put_into_the_ticket_of_another_trade(ticket):
    ticket.fill("ticket", reference="LATE1")
    with ticket.relay.holding("POST /trades"):
        ticket.click("#ticket-enter")
        ticket.fill("ticket", reference="LATE2")
    assert ticket.shows("ticket-told", "CONFIRMATION 1 of LATE1 is kept")
    assert ticket.ticket("reference", "number") == ("LATE2", "")
