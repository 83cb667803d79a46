"""Issues are the same at several stores: the first one decides, and the others follow."""
from __future__ import annotations

import json
import runpy
import signal
import types

import pytest

from support.links import joined, said, status
from support.program import ROOT
from support.several import SOON, STORES, ask_store, away, health, quoted, standing
from support.site import NAME, Site
from support.trading import ISSUE, beside, tell, trade, until

# Its desks take long to start.
pytestmark = pytest.mark.xdist_group("issues of stores")

OTHERS = STORES[1:]
CONFLICT = (409, "REFUSED 3 Conflict issue\n")
AGAIN = (503, "503 Service Unavailable\n")
UNKNOWN = "REFUSED 1 UnknownIssue\n"
COUPONS = ("4.125", "5")


@pytest.fixture(scope="module")
def site(deploy) -> Site:
    return deploy(SOON, "--stores=2")


def issue(cusip: str, coupon: str = COUPONS[0]) -> str:
    return json.dumps(json.loads(ISSUE) | {"cusip": cusip, "coupon": coupon})


def add(site: Site, cusip: str, coupon: str = COUPONS[0]) -> tuple[int, str]:
    answer = site.ask("POST", "/issues", issue(cusip, coupon), user="rita")
    return answer.status, answer.text


def amend(site: Site, cusip: str, coupon: str, number: int) -> tuple[int, str]:
    body = json.dumps(json.loads(issue(cusip, coupon)) | {"number": str(number)})
    answer = site.ask("POST", "/amendments", body, user="rita")
    return answer.status, answer.text


def added(cusip: str) -> tuple[int, str]:
    return 200, f"ADDED {cusip}\n"


def kept(site: Site, cusip: str) -> list[str]:
    """The coupon that each store keeps, or the line of its refusal."""
    texts = [ask_store(site, store, "GET", f"/issues/{cusip}").text for store in STORES]
    return [text.split(",")[7] if text.startswith("issue,") else text for text in texts]


@pytest.mark.parametrize(("cusip", "first", "second"), [("990034AA8", *COUPONS), ("990081AB7", *COUPONS[::-1])])
def test_the_terms_that_come_first_are_kept_everywhere_and_others_are_refused(site, cusip, first, second):
    assert add(site, cusip, first) == added(cusip)
    assert add(site, cusip, second) == CONFLICT
    assert add(site, cusip, first) == added(cusip)
    assert kept(site, cusip) == [f"{float(first):.7f}"] * 4


def amended(cusip: str, number: int) -> tuple[int, str]:
    return 200, f"AMENDED {cusip} {number}\n"


def all_terms(site: Site, cusip: str) -> set[str]:
    """What the stores keep of an issue."""
    return {ask_store(site, store, "GET", f"/issues/{cusip}").text for store in STORES}


def test_an_amendment_is_kept_everywhere_and_others_under_its_number_are_refused(site):
    cusip = "990000044"
    assert add(site, cusip) == added(cusip)
    assert amend(site, cusip, "5", 2) == amended(cusip, 2)
    assert amend(site, cusip, "6", 2) == CONFLICT
    assert amend(site, cusip, "5", 2) == amended(cusip, 2)
    [text] = all_terms(site, cusip)
    assert [row.split(",")[0] for row in text.splitlines()] == ["issue", "amend"]


def test_an_amendment_that_a_store_did_not_get_is_finished_when_it_is_back(site):
    cusip = "990000051"
    assert add(site, cusip) == added(cusip)
    with away(site, "quotes1"):
        assert amend(site, cusip, "5", 2) == AGAIN
        assert amend(site, cusip, "6", 3) == AGAIN
        assert len(all_terms(site, cusip)) == 2
    assert until(lambda: len(all_terms(site, cusip)) == 1)
    assert kept(site, cusip) == ["4.1250000"] * 4
    assert amend(site, cusip, "5", 2) == amended(cusip, 2)


def test_what_the_first_store_accepted_is_finished_though_the_program_is_killed(site):
    cusip = "990000069"
    assert add(site, cusip) == added(cusip)
    with away(site, "second", "quotes1"):
        assert amend(site, cusip, "5", 2) == AGAIN
        tell(site, signal.SIGKILL, "muni-issues")
    assert until(lambda: len(all_terms(site, cusip)) == 1)
    assert all_terms(site, cusip).pop().count("\n") == 2


def test_quotes_go_by_the_terms_of_the_first_store_while_another_lacks_them(site):
    cusip = "990000077"
    assert add(site, cusip) == added(cusip)
    before = quoted(site, cusip)
    with standing(site, "quotes1"):
        assert amend(site, cusip, "6", 2)[0] == 504
        told = {quoted(site, cusip) for _ in range(8)}
        assert len(told) == 1 and before not in told
        assert ask_store(site, "quotes2", "POST", "/quotes", "{}").status == 400
        assert health(site, "issues") in (503, 504)
    assert until(lambda: len(all_terms(site, cusip)) == 1)
    assert {quoted(site, cusip) for _ in range(8)} == told
    assert until(lambda: health(site, "issues") == 200)


def test_a_store_that_lacks_terms_figures_nothing_by_those_of_before(site):
    cusip = "990000085"
    assert add(site, cusip) == added(cusip)
    with standing(site, "second"):
        assert amend(site, cusip, "6", 2)[0] == 504
        assert site.ask("POST", "/trades", trade("D1", "BETA", cusip=cusip))[::2] == AGAIN
        assert site.ask("POST", "/trades", trade("D1", "ALPHA", cusip=cusip)).status == 200
        # Also if the queue starts anew.
        before = site.process_of("muni-queue")
        tell(site, signal.SIGTERM, "muni-queue")
        assert until(lambda: site.process_of("muni-queue") != before)
        assert until(lambda: site.ask("GET", "/lists/ALPHA").status == 200)
        assert until(lambda: ask_store(site, "second", "POST", "/trades", trade("D1", "BETA", cusip=cusip)).status == 503)
    assert until(lambda: site.ask("POST", "/trades", trade("D1", "BETA", cusip=cusip)).status == 200)
    first, second = [site.ask("GET", f"/trades/{desk}/D1").text for desk in ("ALPHA", "BETA")]
    assert first.replace("ALPHA", "BETA") == second


def test_the_health_compares_terms(site):
    cusip = "990000093"
    assert add(site, cusip) == added(cusip)
    assert until(lambda: health(site, "issues") == 200)
    body = json.dumps(json.loads(issue(cusip)) | {"number": "2", "coupon": "6"})
    assert ask_store(site, "desk", "POST", "/amendments", body).status == 200
    # A question compares as many issues as it can in two seconds.
    assert until(lambda: health(site, "issues") == 503)
    assert until(lambda: len(all_terms(site, cusip)) == 1)
    assert until(lambda: health(site, "issues") == 200)


def test_the_health_tells_of_a_difference_that_is_finished_already(tmp_path):
    issues = types.SimpleNamespace(**runpy.run_path(str(ROOT / "deploy/issues")))
    (tmp_path / "known").write_text("990000101\n")

    class Queue:
        """A first store that has one more row of terms, until the second one is given it."""

        rows = {"desk": "issue,990000101\namend,990000101,2\n", "second": "issue,990000101\n"}

        def ask(self, store, request):
            return issues.Answer(200, "OK", "", self.rows[store].encode() if "990000101" in request.path else b"")

        def tell(self, *words):
            self.rows["second"] = self.rows["desk"]

    stores = issues.Stores(Queue(), tmp_path, ["desk", "second"])
    stores.doubts.begin = lambda cusip: stores.doubts.end(cusip)
    assert [stores.health().status for _ in range(2)] == [503, 200]


def test_of_two_that_come_at_once_one_is_kept_everywhere(site):
    cusip, told = "990000028", []
    threads = [beside(lambda coupon=coupon: told.append(add(site, cusip, coupon))) for coupon in COUPONS * 4]
    for thread in threads:
        thread.join()
    assert sorted(told) == [added(cusip)] * 4 + [CONFLICT] * 4
    assert len(set(kept(site, cusip))) == 1


@pytest.mark.parametrize(("store", "cusip"), zip(OTHERS, ("123456AA3", "990000010", "990000036")))
def test_an_issue_that_a_store_did_not_get_is_finished_when_it_is_back(site, store, cusip):
    with away(site, store):
        assert add(site, cusip) == AGAIN
        assert add(site, cusip, COUPONS[1]) == CONFLICT
        quotes = {ask_store(site, "quotes", "GET", f"/issues/{cusip}").status for _ in range(4)}
        assert quotes == {200}, "all others are asked"
    assert until(lambda: kept(site, cusip) == ["4.1250000"] * 4)
    assert add(site, cusip) == added(cusip)


def test_without_the_first_store_no_other_one_gets_an_issue(site):
    cusip = "990084AA3"
    with away(site, "desk"):
        assert add(site, cusip) == AGAIN
        assert {ask_store(site, store, "GET", f"/issues/{cusip}").text for store in OTHERS} == {UNKNOWN}
    assert add(site, cusip) == added(cusip)


@pytest.mark.parametrize("body", ["", "{}", issue("990084AA4")])
def test_what_is_no_issue_is_answered_as_by_one_store(site, body):
    answer, alone = site.ask("POST", "/issues", body, user="rita"), ask_store(site, "desk", "POST", "/issues", body)
    assert answer.status == alone.status in (400, 422)
    assert (answer.text, answer.fields["Content-Type"]) == (alone.text, alone.fields["Content-Type"])


def test_a_request_without_a_length_is_answered_as_by_one_store(site):
    link = joined(site)
    link.sendall((f"POST /issues HTTP/1.1\r\nHost: {NAME}\r\nAuthorization: {site.log_in('rita')['Authorization']}"
                  "\r\nConnection: close\r\n\r\n").encode())
    assert status(said(link)) == 411


def test_nothing_else_is_asked_of_all_stores(site):
    assert ask_store(site, "issues", "POST", "/trades", "{}")[::2] == (404, "404 Not Found\n")


def test_a_store_that_got_other_terms_past_the_program_is_told_of(site):
    cusip = "990086AA8"
    assert ask_store(site, "second", "POST", "/issues", issue(cusip, COUPONS[1])).status == 200
    assert add(site, cusip) == CONFLICT
    told = f"issues: POST /issues: second answers 409, {CONFLICT[1].strip()}, and the first store has {cusip}"
    log = site.folder / "log/muni-issues"
    assert not until(lambda: log.read_text().splitlines().count(told) > 1, seconds=1)
    assert log.read_text().splitlines().count(told) == 1
    assert health(site, "issues") == 503
