"""Each user enters, corrects and cancels trades of his own desks alone, however the body is written."""
from __future__ import annotations

import json

import pytest

from support.rules import UNLIMITED
from support.trading import TERMS, add_issue, is_kept, trade

# Large bodies and those in chunks come faster than an address may send them.
EDITS = (UNLIMITED,)

OWN, OTHER, REST = '"desk":"ALPHA",', '"desk":"RETAIL",', json.dumps(TERMS)[1:]
PAD = '"pad":"%s",' % ("x" * 60_000)
# Members of a body that name a desk which is not the user's, or none that can be told.
MEMBERS = {
    "another's desk": OTHER,
    "both, the own one first": OWN + OTHER,
    "both, the own one last": OTHER + OWN,
    "an escaped name": '"d\\u0065sk":"RETAIL",' + OWN,
    "an escaped desk": '"desk":"\\u0052ETAIL",',
    "a backslash before it": '"x":"\\"desk",' + OTHER,
    "blanks around it": '"desk" \t:\r\n "RETAIL",',
    "much before it": PAD + OTHER,
    "much after it": OTHER + PAD,
    "the own one within another": '"x":{"desk":"ALPHA"},' + OTHER,
    "a bar as of the rule": '"x":"ALPHA|",' + OTHER + '"y":" RETAIL|",',
    "a desk of another form": '"desk":"retail",',
    "no text": '"desk":["ALPHA"],' + OTHER,
    "none": "",
}
PLACES = {name: place for place, name in enumerate(MEMBERS)}
WAYS = {"as it is": {}, "in chunks": {"Transfer_Encoding": "chunked"}, "with X-Allowed": {"X_Allowed": "yes"}}
SPELLINGS = {"blanks around": '"desk" \t:\r\n "ALPHA",', "much before": PAD + OWN, "much after": OWN + PAD}


@pytest.fixture(scope="module", autouse=True)
def issue(site):
    add_issue(site)


@pytest.mark.parametrize("way", WAYS)
@pytest.mark.parametrize("name", MEMBERS)
def test_a_trade_of_another_desk_is_not_entered(site, name, way):
    reference = f"B{PLACES[name]}"
    answer = site.ask("POST", "/trades", f'{{"reference":"{reference}",{MEMBERS[name]}{REST}', **WAYS[way])
    assert (answer.status, answer.text) == (403, "403 Forbidden\n")
    assert not any(is_kept(site, reference, desk) for desk in ("ALPHA", "RETAIL"))


@pytest.mark.parametrize("name", SPELLINGS)
def test_a_trade_of_the_own_desk_is_entered(site, name):
    reference = "O" + str(len(name))
    answer = site.ask("POST", "/trades", f'{{"reference":"{reference}",{SPELLINGS[name]}{REST}')
    assert answer.status == 200
    assert is_kept(site, reference)


def test_a_trade_of_the_own_desk_is_entered_in_chunks(site):
    assert site.ask("POST", "/trades", trade("S2"), Transfer_Encoding="chunked").status == 200


def test_no_body_is_refused(site):
    assert site.ask("POST", "/trades").status == 403


def test_a_reference_that_is_the_word_desk_cannot_be_told_from_a_name(site):
    assert site.ask("POST", "/trades", trade("desk")).status == 403


def test_a_trade_of_the_second_own_desk_is_entered_corrected_and_canceled(site):
    assert site.ask("POST", "/trades", trade("S1", "BETA")).status == 200
    assert site.ask("POST", "/corrections", trade("S1", "BETA", number="2", par="5000")).status == 200
    assert site.ask("POST", "/cancels", '{"desk":"BETA","reference":"S1","number":"3"}').status == 200


@pytest.mark.parametrize(("route", "body"), [
    ("corrections", trade("R1", "RETAIL", number="2", par="5000")),
    ("cancels", '{"desk":"RETAIL","reference":"R1","number":"2"}')], ids=["corrected", "canceled"])
def test_a_trade_of_another_desk_is_not_changed(site, route, body):
    assert site.ask("POST", "/trades", trade("R1", "RETAIL"), user="rita").status == 200
    before = site.ask("GET", "/lists/RETAIL", user="rita").text
    assert site.ask("POST", f"/{route}", body).status == 403
    assert site.ask("GET", "/lists/RETAIL", user="rita").text == before
