"""Who may add issues to the desk behind nginx."""
from __future__ import annotations

import json

import pytest

from support.trading import ISSUE, TERMS, add_issue


def test_an_issue_is_added_by_who_may_and_then_quoted_by_all(site):
    quote = json.dumps({name: TERMS[name] for name in ("cusip", "par", "settle", "basis", "value")})
    assert site.ask("POST", "/issues", ISSUE).status == 403
    unknown = site.ask("POST", "/quotes", quote)
    assert (unknown.status, unknown.text) == (404, "REFUSED 1 UnknownIssue\n")
    add_issue(site)
    # Also by who has no desk.
    assert site.ask("POST", "/quotes", quote, user="otto").status == 200


@pytest.mark.parametrize("user", ["rita", "alice", "otto"])
def test_the_terms_of_an_issue_are_read_by_all_who_may_quote(site, user):
    add_issue(site)
    answer = site.ask("GET", f"/issues/{TERMS['cusip']}", user=user)
    assert answer.status == 200
    assert answer.text.startswith(f"issue,{TERMS['cusip']},ELM GROVE UNION SCH DIST 4.125S 2039,periodic,2023-08-01,")


def test_the_terms_of_an_issue_are_not_read_without_a_password(site):
    assert site.ask("GET", f"/issues/{TERMS['cusip']}", user=None).status == 401


@pytest.mark.parametrize(("path", "text"), [
    ("/issues/000000000", "REFUSED 1 UnknownIssue\n"), ("/issues/000000000?/990034AA8", "REFUSED 1 UnknownIssue\n"),
    ("/issues/99003", "404 Not Found\n"), ("/issues/990034aa8", "404 Not Found\n"), ("/issues/", "404 Not Found\n"),
    ("/issues/990034AA8/1", "404 Not Found\n")])
def test_an_issue_that_is_not_kept_and_what_is_no_cusip_are_not_found(site, path, text):
    assert site.ask("GET", path, user="otto")[::2] == (404, text)


AMENDMENT = json.dumps(json.loads(ISSUE) | {"number": "2", "calls": [{"date": "2035-08-01", "price": "100+"}]})


def test_an_issue_is_amended_by_who_may_and_its_terms_are_read_by_all(site):
    add_issue(site)
    assert site.ask("POST", "/amendments", AMENDMENT).status == 403
    assert site.ask("POST", "/amendments", AMENDMENT, user=None).status == 401
    assert site.ask("POST", "/amendments", AMENDMENT, user="rita")[::2] == (200, f"AMENDED {TERMS['cusip']} 2\n")
    rows = site.ask("GET", f"/issues/{TERMS['cusip']}", user="otto").text.splitlines()
    assert [row.split(",")[0] for row in rows] == ["issue", "amend"]
    assert rows[1].startswith(f"amend,{TERMS['cusip']},2,") and rows[1].endswith(",2035-08-01:100.000000+,30/360")


def test_the_path_of_amendments_takes_a_post_alone(site):
    answer = site.ask("GET", "/amendments", user="rita")
    assert (answer.status, answer.fields["Allow"]) == (405, "POST")
    assert site.ask("POST", "/amendments/990034AA8", AMENDMENT, user="rita").status == 404


def test_who_may_read_the_terms_of_an_issue_may_not_add_one_by_their_path(site):
    assert site.ask("POST", "/issues/990000010", ISSUE).status == 405
