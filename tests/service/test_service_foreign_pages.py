"""What a browser sends for a page of another site: a form can send a whole trade as text."""
from __future__ import annotations

import pytest

from support.site import NAME
from support.trading import add_issue, is_kept, trade

OWN, FOREIGN = "https://desk.example:{port}", "https://evil.example"
FORMS = (
    {"Origin": FOREIGN}, {"Origin": "null"}, {"Origin": OWN + ".evil.example"}, {"Origin": f"https://{NAME}"},
    {"Sec_Fetch_Site": "cross-site"}, {"Sec_Fetch_Site": "same-site"},
    {"Origin": OWN, "Sec_Fetch_Site": "cross-site"}, {"Origin": FOREIGN, "Sec_Fetch_Site": "same-origin"})


@pytest.fixture(scope="module", autouse=True)
def issue(site):
    add_issue(site)


@pytest.mark.parametrize("place", range(len(FORMS)), ids=[" ".join(form.values()) for form in FORMS])
def test_a_form_of_a_foreign_page_enters_no_trade(site, place):
    fields = {name: value.format(port=site.port) for name, value in FORMS[place].items()}
    form = trade(f"F{place}", x="=") + "\r\n"
    answer = site.ask("POST", "/trades", form, Content_Type="text/plain", **fields)
    assert (answer.status, answer.text) == (403, "403 Forbidden\n")
    assert not is_kept(site, f"F{place}")


@pytest.mark.parametrize("path", ["/lists/ALPHA", "/page/desk.js"])
def test_a_foreign_page_reads_nothing(site, path):
    assert site.ask("GET", path, Sec_Fetch_Site="cross-site").status == 403


def test_a_link_of_a_foreign_page_leads_to_the_page(site):
    assert site.ask("GET", "/", Sec_Fetch_Site="cross-site").status == 200


def test_the_own_page_and_an_address_that_was_typed_are_answered(site):
    own = OWN.format(port=site.port)
    assert own == site.address
    assert site.ask("POST", "/trades", trade("F99"), Origin=own, Sec_Fetch_Site="same-origin").status == 200
    assert site.ask("GET", "/lists/ALPHA", Sec_Fetch_Site="none").status == 200
