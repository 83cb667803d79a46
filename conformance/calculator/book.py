"""The book of the desks: its issues and trades, and what each command answers (docs/FORMATS.md)."""
from __future__ import annotations

import dataclasses
import enum
from typing import NamedTuple

from calculator.figures import Asked, Choice, Each, Figures, Refusal, Refused, Side, answers, each_of, likely
from calculator.sensitivities import Risk, risk_of
from calculator.terms import Issue, fault_of

# How many trades a desk may have if nothing else is said.
USUAL_LIMIT = 100_000
MOST_VERSIONS = 99
MOST_TERMS = 99
LISTED = 50


class AddIssue(NamedTuple):
    issue: Issue


class Amend(NamedTuple):
    """Other terms of an issue, with their number."""

    number: int
    issue: Issue


class Enter(NamedTuple):
    """A trade, and the number of the terms of its issue by which it is figured, or none for the last ones."""

    desk: str
    reference: str
    asked: Asked
    terms: int | None = None


class Correct(NamedTuple):
    desk: str
    reference: str
    number: int
    asked: Asked
    terms: int | None = None


class Cancel(NamedTuple):
    desk: str
    reference: str
    number: int


class Confirm(NamedTuple):
    desk: str
    reference: str


class ListTrades(NamedTuple):
    """The first trades of a desk, or the first ones after a reference."""

    desk: str
    after: str = ""


class Quote(NamedTuple):
    """A question for figures, and whether each redemption and the sensitivities are told."""

    asked: Asked
    is_each: bool = False
    is_risk: bool = False


Command = AddIssue | Amend | Enter | Correct | Cancel | Confirm | ListTrades | Quote


class Act(enum.StrEnum):
    """What makes a version of a trade, as the head of its confirmation has it."""

    ENTERED = "CONFIRMATION"
    CORRECTED = "CORRECTED CONFIRMATION"
    CANCELED = "CANCELED CONFIRMATION"


class Version(NamedTuple):
    act: Act
    asked: Asked
    figures: Figures
    # The number of the terms of its issue by which it was figured.
    terms: int = 1


class Added(NamedTuple):
    cusip: str


class Amended(NamedTuple):
    cusip: str
    number: int


class Confirmed(NamedTuple):
    issue: Issue
    desk: str
    reference: str
    number: int
    version: Version


class Quoted(NamedTuple):
    asked: Asked
    figures: Figures
    each: list[Each]
    risk: Risk | None = None


class Listed(NamedTuple):
    """Trades by their references, each with its number of versions and the last one."""

    trades: list[tuple[str, int, Version]]


Reply = Added | Amended | Confirmed | Quoted | Listed | Refusal


@dataclasses.dataclass
class Position:
    """The live trades of a desk in an issue: how many, the par bought and sold, and the money paid, in cents."""

    trades: int = 0
    bought: int = 0
    sold: int = 0
    money: int = 0

    def add(self, version: Version) -> None:
        self.trades += 1
        if version.asked.side == Side.BUY:
            self.bought += version.asked.par
            self.money += version.figures.total
        else:
            self.sold += version.asked.par
            self.money -= version.figures.total


class Book:
    """The terms of each issue by its CUSIP, and the versions of each trade by its desk and its reference. `limit` is how
    many trades a desk may have. It is not kept with them: each command over the book sets it."""

    def __init__(self, limit: int = USUAL_LIMIT) -> None:
        self.limit = limit
        self.issues: dict[str, list[Issue]] = {}
        self.desks: dict[str, dict[str, list[Version]]] = {}

    def terms(self, cusip: str) -> list[Issue]:
        return self.issues.get(cusip, [])

    def issue(self, cusip: str) -> Issue | None:
        """An issue by its last terms."""
        return self.issues[cusip][-1] if cusip in self.issues else None

    def versions(self, desk: str, reference: str) -> list[Version]:
        return self.desks.get(desk, {}).get(reference, [])

    def apply(self, command: Command, choose: Choice = likely) -> Reply:
        """What a command answers. `choose` picks an answer if several are right."""
        match command:
            case AddIssue(issue):
                return self.add(issue)
            case Amend(number, issue):
                return self.amend(number, issue)
            case Quote():
                return self.quoted(command, choose)
            case ListTrades(desk, after):
                return self.listed(desk, after)
            case Confirm(desk, reference):
                count = len(self.versions(desk, reference))
                return self.confirmed(desk, reference, count) if count else Refusal(Refused.UNKNOWN_TRADE)
            case Enter():
                return self.enter(command, choose)
            case Correct():
                return self.correct(command, choose)
            case Cancel(desk, reference, number):
                return self.cancel(desk, reference, number)

    def quote(self, asked: Asked, choose: Choice) -> Figures | Refusal:
        issue = self.issue(asked.cusip)
        return choose(answers(issue, asked)) if issue else Refusal(Refused.UNKNOWN_ISSUE)

    def quoted(self, question: Quote, choose: Choice) -> Quoted | Refusal:
        asked, found = question.asked, self.quote(question.asked, choose)
        if isinstance(found, Refusal):
            return found
        issue = self.issues[asked.cusip][-1]
        each = each_of(issue, asked, choose) if question.is_each else []
        return Quoted(asked, found, each, risk_of(issue, asked, found, choose) if question.is_risk else None)

    def add(self, issue: Issue) -> Reply:
        refusal = refused_terms(issue)
        if refusal:
            return refusal
        if self.issues.setdefault(issue.cusip, [issue])[0] != issue:
            return Refusal(Refused.CONFLICT, "issue")
        return Added(issue.cusip)

    def amend(self, number: int, issue: Issue) -> Reply:
        refusal = refused_terms(issue)
        if refusal:
            return refusal
        kept = self.terms(issue.cusip)
        if not kept:
            return Refusal(Refused.UNKNOWN_ISSUE)
        if 1 <= number <= len(kept):
            is_same = kept[number - 1] == issue
            return Amended(issue.cusip, number) if is_same else Refusal(Refused.CONFLICT, "issue")
        if len(kept) >= MOST_TERMS:
            return Refusal(Refused.VERSIONS_FULL)
        if number != len(kept) + 1:
            return wrong_number(kept)
        kept.append(issue)
        return Amended(issue.cusip, number)

    def listed(self, desk: str, after: str) -> Listed:
        trades = self.desks.get(desk, {})
        found = sorted(reference for reference in trades if reference > after)[:LISTED]
        return Listed([(reference, len(trades[reference]), trades[reference][-1]) for reference in found])

    def latest(self, desk: str) -> Listed:
        """The last trades of a desk, as many as a list has."""
        trades = self.desks.get(desk, {})
        found = sorted(trades)[-LISTED:]
        return Listed([(reference, len(trades[reference]), trades[reference][-1]) for reference in found])

    def confirmed(self, desk: str, reference: str, number: int) -> Confirmed:
        version = self.versions(desk, reference)[number - 1]
        issue = self.issues[version.asked.cusip][version.terms - 1]
        return Confirmed(issue, desk, reference, number, version)

    def enter(self, sent: Enter, choose: Choice) -> Reply:
        kept = self.versions(sent.desk, sent.reference)
        if kept:
            return self.again(sent.desk, sent.reference, 1, is_of(kept[0], sent))
        refusal = self.refused_issue(sent)
        if refusal:
            return refusal
        if len(self.desks.get(sent.desk, {})) >= self.limit:
            return Refusal(Refused.DESK_FULL)
        return self.put(sent, Act.ENTERED, choose)

    def correct(self, sent: Correct, choose: Choice) -> Reply:
        kept = self.versions(sent.desk, sent.reference)
        if 1 <= sent.number <= len(kept):
            version = kept[sent.number - 1]
            is_same = version.act == Act.CORRECTED and is_of(version, sent)
            return self.again(sent.desk, sent.reference, sent.number, is_same)
        return (refused_number(kept, sent.number, MOST_VERSIONS) or self.refused_issue(sent)
                or self.put(sent, Act.CORRECTED, choose))

    def refused_issue(self, sent: Enter | Correct) -> Refusal | None:
        """The refusal of a trade whose issue, or the terms of it that it names, are not kept."""
        kept = self.terms(sent.asked.cusip)
        if not kept:
            return Refusal(Refused.UNKNOWN_ISSUE)
        if sent.terms is not None and not 1 <= sent.terms <= len(kept):
            return wrong_number(kept)
        return None

    def cancel(self, desk: str, reference: str, number: int) -> Reply:
        kept = self.versions(desk, reference)
        if 1 <= number <= len(kept):
            return self.again(desk, reference, number, kept[number - 1].act == Act.CANCELED)
        refusal = refused_number(kept, number, MOST_VERSIONS + 1)
        if refusal:
            return refusal
        kept.append(kept[-1]._replace(act=Act.CANCELED))
        return self.confirmed(desk, reference, number)

    def again(self, desk: str, reference: str, number: int, is_same: bool) -> Reply:
        """What is sent again as it was is answered as before."""
        return self.confirmed(desk, reference, number) if is_same else Refusal(Refused.CONFLICT, f"version {number}")

    def put(self, sent: Enter | Correct, act: Act, choose: Choice) -> Reply:
        issues = self.issues[sent.asked.cusip]
        terms = len(issues) if sent.terms is None else sent.terms
        found = choose(answers(issues[terms - 1], sent.asked))
        if isinstance(found, Refusal):
            return found
        kept = self.desks.setdefault(sent.desk, {}).setdefault(sent.reference, [])
        kept.append(Version(act, sent.asked, found, terms))
        return self.confirmed(sent.desk, sent.reference, len(kept))

    def positions(self, desk: str) -> dict[str, Position]:
        """The positions of a desk by their CUSIPs, in their order."""
        found: dict[str, Position] = {}
        for version in (versions[-1] for versions in self.desks.get(desk, {}).values()):
            if version.act != Act.CANCELED:
                found.setdefault(version.asked.cusip, Position()).add(version)
        return dict(sorted(found.items()))


def refused_terms(issue: Issue) -> Refusal | None:
    """The refusal of terms that fail a test, or None if they are good."""
    bad = fault_of(issue)
    if bad is None:
        return None
    return Refusal(Refused.BAD_TERMS, f"{bad.fault.value} {bad.call}" if bad.call else str(bad.fault.value))


def is_of(version: Version, sent: Enter | Correct) -> bool:
    """Whether a version is what a trade asks for that is sent again."""
    return version.asked == sent.asked and sent.terms in (None, version.terms)


def wrong_number(kept: list[Issue] | list[Version]) -> Refusal:
    return Refusal(Refused.WRONG_NUMBER, str(len(kept) + 1))


def refused_number(kept: list[Version], number: int, most: int) -> Refusal | None:
    """The refusal of a version that is not the next one of a trade."""
    if not kept:
        return Refusal(Refused.UNKNOWN_TRADE)
    if kept[-1].act == Act.CANCELED:
        return Refusal(Refused.CANCELED)
    if len(kept) >= most:
        return Refusal(Refused.VERSIONS_FULL)
    if number != len(kept) + 1:
        return wrong_number(kept)
    return None
