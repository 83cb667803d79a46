"""Figures of another firm: whoever may quote has them checked, and against kept trades those of his own desks alone."""
from __future__ import annotations

import json

import pytest

from support.rules import UNLIMITED
from support.trading import TERMS, add_issue, trade

# Large bodies and those in chunks come faster than an address may send them.
EDITS = (UNLIMITED,)

ROW = json.dumps(TERMS | {"price": "104.250", "yield": "3.663"})[1:]
PAD = '"pad":"%s",' % ("x" * 60_000)
OWN, OTHER = '"desk":"ALPHA",', '"desk":"RETAIL",'
# Members of a body that name a desk which is not the user's, or none that can be told.
MEMBERS = {
    "another's desk": OTHER,
    "both, the own one first": OWN + OTHER,
    "both, the own one last": OTHER + OWN,
    "an escaped name": '"d\\u0065sk":"RETAIL",',
    "an escaped name beside the own one": '"d\\u0065sk":"RETAIL",' + OWN,
    "an escaped desk": '"desk":"\\u0052ETAIL",',
    "blanks around it": '"desk" \t:\r\n "RETAIL",',
    "much before it": PAD + OTHER,
    "much after it": OTHER + PAD,
    "the own one within another": '"x":{"desk":"ALPHA"},' + OTHER,
    "another's within the own one": OWN + '"x":{"desk":"RETAIL"},',
    "a desk of another form": '"desk":"retail",',
    "no text": '"desk":["RETAIL"],',
    "nothing": '"desk":null,',
}
WAYS = {"as it is": {}, "in chunks": {"Transfer_Encoding": "chunked"}, "with X-Allowed": {"X_Allowed": "yes"}}
SPELLINGS = {"none": "", "much": " " * 60_000, "blanks before it": "\r\n \t",
             "the word as a text": '"reference":"desk",'}


@pytest.fixture(scope="module", autouse=True)
def issue(site):
    add_issue(site)
    assert site.ask("POST", "/trades", trade("C1", "RETAIL"), user="rita").status == 200
    assert site.ask("POST", "/trades", trade("C2")).status == 200


@pytest.mark.parametrize("way", WAYS)
@pytest.mark.parametrize("name", MEMBERS)
def test_figures_of_the_trades_of_another_desk_are_not_checked(site, name, way):
    answer = site.ask("POST", "/checks", f'{{{MEMBERS[name]}"reference":"C1","price":"1"}}', **WAYS[way])
    assert (answer.status, answer.text) == (403, "403 Forbidden\n")


@pytest.mark.parametrize("user", ["rita", "alice", "otto"])
@pytest.mark.parametrize("name", SPELLINGS)
def test_figures_of_an_issue_are_checked_by_all_who_may_quote(site, name, user):
    answer = site.ask("POST", "/checks", f"{{{SPELLINGS[name]}{ROW}", user=user)
    assert (answer.status, answer.text) == (200, "1,right\n")


def test_a_member_that_is_no_column_is_refused_by_the_desk(site):
    answer = site.ask("POST", "/checks", '{"Price":"104.250",' + ROW)
    assert (answer.status, answer.text.split("\n")[0][:15]) == (400, "400 Bad Request")


def test_figures_of_a_trade_of_the_own_desk_are_checked(site):
    body = '{"desk":"ALPHA","reference":"C2","yield":"3.700"}'
    assert site.ask("POST", "/checks", body)[::2] == (200, "1,differs,yield,3.663,3.700\n")
    assert site.ask("POST", "/checks", body.replace("C2", "C1"))[::2] == (200, "1,missing,C1\n")
    turned = body.replace("{", '{"side":"sell",')
    assert site.ask("POST", "/checks", turned)[::2] == (200, "1,differs,side,buy,sell\n")


@pytest.mark.parametrize("body", ["", "[]", '"x"', " ", '{"x":"\\u0041"}'])
def test_what_names_no_members_or_has_a_backslash_is_refused(site, body):
    assert site.ask("POST", "/checks", body).status == 403


def test_without_a_password_nothing_is_checked(site):
    assert site.ask("POST", "/checks", "{" + ROW, user=None).status == 401
