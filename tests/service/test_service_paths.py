"""Each user reads his own desks alone, however the path is written."""
from __future__ import annotations

import re

import pytest

from support.site import NAME
from support.trading import add_issue, trade

# Spellings of paths to the desk RETAIL, for who has ALPHA and BETA.
OTHERS = (
    "/lists/RETAIL", "/lists/RETAIL/A", "/lists/RETAIL/", "/lists/RETAIL?", "/lists/RETAIL?/lists/ALPHA",
    "/trades/RETAIL/P1", "//lists/RETAIL", "/lists//RETAIL", "/lists/./RETAIL", "/lists/ALPHA/../RETAIL",
    "/lists/RETAIL/../ALPHA", "/page/../lists/RETAIL", "/quotes/../lists/RETAIL", "/lists/%52ETAIL",
    "/%6cists/RETAIL", "/lists/RETAIL%20", "/lists/ALPHA%2f..%2f..%2flists%2fRETAIL", "/lists/ALPHA|RETAIL",
    "/lists/RETAIL;ALPHA", "/lists/ALPH", "/lists/BETA%20RETAIL", "/lists/ALPHABETA", f"https://{NAME}/lists/RETAIL",
    "/trades/RETAIL/P1/1", "/trades/ALPHA/P1/../../RETAIL/P1/1", "/trades//RETAIL/P1/1", "/positions/RETAIL",
    "/positions/RETAIL?/positions/ALPHA", "/positions/ALPHA/../RETAIL", "/positions/%52ETAIL", "/latest/RETAIL",
    "/latest/RETAIL/", "/latest/./RETAIL", "/issues/../positions/RETAIL")
# And some that are no paths of the desk.
NO_PATHS = ("/lists/RETAIL/../../quotes", "/lists/RETAIL/../../issues/000000000", "/POSITIONS/RETAIL", "/positions",
            "/latest", "/LISTS/RETAIL", "/lists", "/trade/RETAIL/P1", "/page/../../etc/users",
            "/lists/RETAIL%00", "/lists/RETAIL#/lists/ALPHA")
DESKS = (("rita", "RETAIL"), ("alice", "ALPHA"), ("alice", "BETA"))


@pytest.fixture(scope="module", autouse=True)
def trades(site):
    """A trade of each desk."""
    add_issue(site)
    for user, desk in DESKS:
        assert site.ask("POST", "/trades", trade("P1", desk), user=user).status == 200


@pytest.mark.parametrize(("user", "desk"), DESKS)
@pytest.mark.parametrize("path", ["/lists/{}", "/lists/{}/A", "/lists/{}?/lists/OTHER", "/trades/{}/P1",
                                  "/trades/{}/P1/1", "/trades/{}/P1/1?/9", "/latest/{}", "/positions/{}"])
def test_an_own_desk_is_read(site, user, desk, path):
    answer = site.ask("GET", path.format(desk), user=user)
    assert answer.status == 200
    assert re.search(r"P1[ \n]|^990034AA8 1 25000 0 25000 ", answer.text)


@pytest.mark.parametrize("path", ["/trades/ALPHA/P1/2", "/trades/ALPHA/P2/1"])
def test_a_version_of_the_own_desk_that_is_not_kept_is_refused_by_the_desk(site, path):
    assert site.ask("GET", path)[::2] == (404, "REFUSED 2 UnknownTrade\n")


@pytest.mark.parametrize("path", ["/trades/ALPHA", "/trades/ALPHA/P1/x", "/positions/ALPHA/P1", "/latest/ALPHA/P1"])
def test_what_the_desk_does_not_read_is_not_found(site, path):
    assert site.ask("GET", path)[::2] == (404, "404 Not Found\n")


@pytest.mark.parametrize("path", OTHERS)
def test_the_desk_of_another_is_not_read(site, path):
    answer = site.ask("GET", path)
    assert (answer.status, answer.text) == (403, "403 Forbidden\n")


@pytest.mark.parametrize("path", NO_PATHS)
def test_what_is_no_path_leads_nowhere(site, path):
    answer = site.ask("GET", path)
    assert answer.status in (400, 404, 405)
    assert "P1" not in answer.text


@pytest.mark.parametrize(("name", "value"), [
    ("X-Allowed", "yes"), ("X-Original-URL", "/lists/RETAIL"), ("X-Forwarded-User", "rita"),
    ("X-HTTP-Method-Override", "POST")])
def test_a_field_of_the_client_opens_no_desk(site, name, value):
    assert site.ask("GET", "/lists/RETAIL", **{name: value}).status == 403


def test_who_has_no_desk_reads_no_list(site):
    assert site.ask("GET", "/lists/ALPHA", user="otto").status == 403


@pytest.mark.parametrize(("method", "path", "allowed"), [
    ("DELETE", "/trades/ALPHA/P1", "GET"), ("HEAD", "/lists/ALPHA", "GET"), ("PUT", "/trades", "POST"),
    ("GET", "/quotes", "POST"), ("POST", "/trades/ALPHA/P1/1", "GET"), ("POST", "/positions/ALPHA", "GET"),
    ("POST", "/latest/ALPHA", "GET"), ("POST", "/issues/990034AA8", "GET"), ("GET", "/issues", "POST"),
    ("GET", "/checks", "POST"), ("GET", "/amendments", "POST")])
def test_another_method_is_told_which_one_is_allowed(site, method, path, allowed):
    answer = site.ask(method, path)
    assert (answer.status, answer.fields["Allow"]) == (405, allowed)
