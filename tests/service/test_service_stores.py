"""Desks in several stores: each request goes to the store of the desk that nginx has allowed."""
from __future__ import annotations

import json
import re
import subprocess

import pytest

from support.program import ROOT
from support.several import SOON, STORES, ask_store, away, health, lead, references, store_of
from support.site import Site
from support.trading import TERMS, add_issue, trade

# Its desks take long to start.
pytestmark = pytest.mark.xdist_group("stores")

QUOTE = json.dumps({name: TERMS[name] for name in ("cusip", "par", "settle", "basis", "value")})
FOLDERS = ("lib", "lib-second", "lib-quotes1", "lib-quotes2")
MAP = ("BETA second", "RETAIL second", "/issues issues", "/quotes quotes")


@pytest.fixture(scope="module")
def site(deploy) -> Site:
    return add_issue(deploy(SOON, "--stores=2"))


def test_the_trades_of_a_desk_are_in_its_store_alone(site):
    for reference, desk, user in (("A1", "ALPHA", "alice"), ("B1", "BETA", "alice"), ("R1", "RETAIL", "rita")):
        correction = trade(reference, desk, number="2", par="30000")
        cancel = json.dumps({"desk": desk, "reference": reference, "number": "3"})
        for path, body in (("/trades", trade(reference, desk)), ("/corrections", correction), ("/cancels", cancel)):
            assert site.ask("POST", path, body, user=user).status == 200
        for path in (f"/trades/{desk}/{reference}", f"/lists/{desk}", f"/latest/{desk}"):
            assert reference in site.ask("GET", path, user=user).text
    kept = {store: [desk for desk in ("ALPHA", "BETA", "RETAIL") if references(site, store, desk)] for store in STORES}
    assert kept == {"desk": ["ALPHA"], "second": ["BETA", "RETAIL"], "quotes1": [], "quotes2": []}


@pytest.mark.parametrize("fields", [
    {"X-Desk": "BETA"}, {"X-Store": "second"}, {"X-Desk": "BETA", "X-Store": "second", "X-Allowed": "yes"}])
def test_a_field_of_the_client_leads_to_no_other_store(site, fields):
    reference = f"F{len(json.dumps(fields))}"
    assert site.ask("POST", "/trades", trade(reference), **fields).status == 200
    assert reference in site.ask("GET", f"/trades/ALPHA/{reference}", **fields).text
    assert reference in references(site, "desk", "ALPHA")
    assert references(site, "second", "ALPHA") == set()


def test_a_field_of_the_client_opens_no_store(site):
    assert site.ask("GET", "/lists/RETAIL", X_Desk="ALPHA", X_Store="second", X_Allowed="yes").status == 403


def test_quotes_are_answered_while_the_stores_are_away(site):
    with away(site, "desk", "second"):
        assert [site.ask("POST", "/quotes", QUOTE, user="otto").status for _ in range(8)] == [200] * 8


@pytest.mark.parametrize("store", ["quotes1", "quotes2"])
def test_quotes_are_answered_while_one_of_their_servers_is_away(site, store):
    with away(site, store):
        assert [site.ask("POST", "/quotes", QUOTE, user="otto").status for _ in range(8)] == [200] * 8


def test_a_store_that_is_away_stops_its_own_desks_alone(site):
    with away(site, "second"):
        assert site.ask("GET", "/lists/BETA").status == 503
        assert site.ask("GET", "/lists/ALPHA").status == 200
    assert site.ask("GET", "/lists/BETA").status == 200


def test_each_store_has_a_health_of_its_own(site):
    assert [health(site, store) for store in ("", *STORES, "issues", "quotes")] == [200] * 7
    with away(site, "second"):
        assert [health(site, store) for store in ("", "desk", "quotes")] == [200] * 3
        assert [health(site, store) for store in ("second", "issues")] == [503] * 2


def test_a_store_that_is_none_has_no_health(site):
    assert health(site, "thrid") == 503


def test_a_desk_of_a_store_that_is_none_is_not_kept_in_the_first(site):
    lead(site, "BETA secnod", *MAP[1:])
    try:
        assert site.ask("POST", "/trades", trade("N1", "BETA"))[::2] == (503, "503 Service Unavailable\n")
        assert site.ask("GET", "/lists/ALPHA").status == 200
    finally:
        lead(site, *MAP)
    assert not any("N1" in references(site, store, "BETA") for store in STORES)
    assert site.ask("POST", "/trades", trade("N1", "BETA")).status == 200


def test_a_backup_of_all_stores_has_each_in_a_folder_of_its_own(site, muni, tmp_path):
    add_issue(site)
    for desk in ("ALPHA", "BETA"):
        assert site.ask("POST", "/trades", trade("K1", desk)).status == 200
    stores = [store_of(site, store) for store in STORES]
    subprocess.run([site.deploy / "backup", *stores, tmp_path / "copies"], check=True)
    told = [muni.run("check-store", f"--store={tmp_path}/copies/{folder}/book").text for folder in FOLDERS]
    assert all(text.startswith("ISSUES 1\n") and text.endswith("SOUND\n") for text in told)
    desks = [[desk for desk in ("ALPHA", "BETA") if f"DESK {desk} " in text] for text in told]
    assert desks == [["ALPHA"], ["BETA"], [], []]


def test_the_terms_of_an_issue_are_read(site):
    answers = {ask_store(site, store, "GET", f"/issues/{TERMS['cusip']}").text for store in STORES}
    assert answers == {site.ask("GET", f"/issues/{TERMS['cusip']}").text}


def test_stores_that_stand_twice_in_the_file_are_told_by_a_reload(site):
    unit = (ROOT / "deploy/muni-queue.service").read_text()
    check = re.findall(r"^ExecReload=(.*)$", unit, re.M)[0].split()
    file = site.folder / "etc/queue.cfg"
    twice = file.with_name("twice.cfg")
    twice.write_text(file.read_text() + "".join(file.read_text().partition("\nbackend second\n")[1:]))
    told = [subprocess.run([*check[:-1], each], capture_output=True, text=True) for each in (file, twice)]
    assert check[-1] == "/etc/muni/queue.cfg" and [each.returncode for each in told] == [0, 1]
    assert "backend 'second' has the same name as backend 'second'" in told[1].stderr
