"""Later terms of issues by the client: amended, read by their numbers, and named by trades."""
from __future__ import annotations

from dataclasses import replace
from datetime import date
from decimal import Decimal
from typing import Any

import pytest

import muni
from muni import Basis, Call, CallKind, Issue, Kind, Side, Trade

# A bond whose call was left out at first. The figures are those of docs/FORMATS.md.
FIRST = Issue("990034AA8", "ELM GROVE SCHOOLS 4.125S 2039", Kind.PERIODIC, date(2023, 8, 1), date(2039, 8, 1),
              coupon=Decimal("4.125"), first=date(2024, 2, 1),
              calls=(Call(date(2033, 8, 1), 102, CallKind.ON_OR_AFTER),))
SECOND = replace(FIRST, calls=(*FIRST.calls, Call(date(2035, 8, 1), 100, CallKind.ON_OR_AFTER)))
THIRD = replace(SECOND, name='ELM GROVE "UNIFIED", 4.125S 2039')
BEFORE, AFTER = Decimal("3.757"), Decimal("3.663")


def moved(cusip: str, *terms: Issue) -> tuple[Issue, ...]:
    return tuple(replace(each, cusip=cusip) for each in terms)


def bought(cusip: str, reference: str, issue: int | None = None) -> Trade:
    return Trade("AMENDED", reference, cusip, Side.BUY, 25_000, date(2024, 4, 3), Basis.PRICE, Decimal("104.25"),
                 issue=issue)


@pytest.fixture(scope="module")
def amended(desk: muni.Client) -> tuple[Issue, ...]:
    """The terms of an issue that was amended twice."""
    terms = moved("990000077", FIRST, SECOND, THIRD)
    assert desk.add_issue(terms[0]) == "990000077"
    assert [desk.amend(issue, number) for number, issue in enumerate(terms[1:], 2)] == [2, 3]
    return terms


def test_all_terms_are_read_by_their_numbers_and_the_last_ones_alone(desk: muni.Client,
                                                                     amended: tuple[Issue, ...]) -> None:
    assert desk.terms("990000077") == dict(enumerate(amended, 1))
    assert desk.issue("990000077") == amended[-1]


def test_an_issue_that_was_never_amended_has_terms_of_one_number(desk: muni.Client) -> None:
    [issue] = moved("990000085", FIRST)
    desk.add_issue(issue)
    assert desk.terms(issue.cusip) == {1: issue}


def test_terms_that_are_sent_again_are_answered_as_the_first_time(desk: muni.Client,
                                                                  amended: tuple[Issue, ...]) -> None:
    assert desk.amend(amended[1], 2) == 2
    assert desk.add_issue(amended[0]) == "990000077"
    assert desk.issue("990000077") == amended[2]


def test_an_amendment_is_refused(desk: muni.Client, amended: tuple[Issue, ...]) -> None:
    with pytest.raises(muni.Conflict) as conflict:
        desk.amend(amended[0], 2)
    assert conflict.value.version is None
    with pytest.raises(muni.WrongNumber) as wrong:
        desk.amend(amended[0], 5)
    assert wrong.value.next == 4
    with pytest.raises(muni.UnknownIssue):
        desk.amend(replace(FIRST, cusip="990000093"), 2)
    with pytest.raises(muni.BadTerms) as bad:
        desk.amend(replace(FIRST, cusip="990000093", calls=(Call(date(2033, 8, 2), 102),)), 2)
    assert (bad.value.fault, bad.value.call) == (6, date(2033, 8, 2))


def test_a_version_stays_by_its_terms_and_a_trade_names_others(desk: muni.Client) -> None:
    first, second = moved("990000051", FIRST, SECOND)
    desk.add_issue(first)
    before = desk.enter(bought(first.cusip, "A1"))
    desk.amend(second, 2)
    after = desk.enter(bought(first.cusip, "A2"))
    named = desk.enter(bought(first.cusip, "A3", issue=1))
    assert [each.figures.yield_ for each in (before, after, named)] == [BEFORE, AFTER, BEFORE]
    assert desk.confirmation("AMENDED", "A1") == before
    assert desk.enter(bought(first.cusip, "A1")) == before
    corrected = desk.correct(bought(first.cusip, "A1"), 2)
    assert corrected.figures.yield_ == AFTER
    assert desk.correct(bought(first.cusip, "A2", issue=1), 2).figures.yield_ == BEFORE
    assert desk.cancel("AMENDED", "A3", 2).figures.yield_ == BEFORE


def test_a_trade_by_terms_that_are_not_kept_or_by_others_than_its_own_is_refused(desk: muni.Client,
                                                                                 amended: tuple[Issue, ...]) -> None:
    with pytest.raises(muni.WrongNumber) as wrong:
        desk.enter(bought("990000077", "B1", issue=4))
    assert wrong.value.next == 4
    desk.enter(bought("990000077", "B2", issue=2))
    assert desk.enter(bought("990000077", "B2")).number == 1
    with pytest.raises(muni.Conflict) as conflict:
        desk.enter(bought("990000077", "B2", issue=3))
    assert conflict.value.version == 1


def test_terms_end_at_a_number_of_99(desk: muni.Client) -> None:
    [issue] = moved("990000069", FIRST)
    desk.add_issue(issue)
    for number in range(2, 100):
        assert desk.amend(replace(issue, name=f"TERMS {number}"), number) == number
    with pytest.raises(muni.VersionsFull):
        desk._ask("POST", "/amendments", {**muni._issue(issue), "number": "100"})
    assert [terms.name for terms in desk.terms(issue.cusip).values()][1:] == [f"TERMS {n}" for n in range(2, 100)]


@pytest.mark.parametrize("number", [0, 100, -1])
def test_a_number_that_no_terms_have_is_not_sent(number: int) -> None:
    nobody = muni.Client("http://127.0.0.1:1")
    with pytest.raises(ValueError):
        nobody.amend(FIRST, number)
    with pytest.raises(ValueError):
        nobody.enter(bought(FIRST.cusip, "C1", issue=number))


ROW = "990034AA8,NAME,zero,2020-01-01,,2030-01-01,0.0000000,,30/360\n"


@pytest.mark.parametrize("text", [
    f"amend,2,{ROW}", f"issue,{ROW}issue,{ROW}", f"issue,{ROW}amend,990034AA8\n", f"issue,{ROW}amend,{ROW}",
    f"issue,{ROW}" + "amend,990034AA8,3," + ROW[10:], f"issue,{ROW}\nissue,{ROW}",
], ids=["no first terms", "first terms twice", "a row cut", "a row without a number", "a number left out",
        "an empty line"])
def test_rows_that_are_no_terms_are_told_as_a_status(desk: muni.Client, monkeypatch: Any, text: str) -> None:
    monkeypatch.setattr(desk, "_ask", lambda *_: text)
    with pytest.raises(muni.Status):
        desk.terms("990034AA8")
