"""The figures that another firm printed, a row each, and what is said of them (docs/FORMATS.md)."""
from __future__ import annotations

import dataclasses
import re
from collections.abc import Callable
from typing import TypeVar

from calculator import exported, fields, numerals
from calculator.book import Act, Book, Version, refused_terms
from calculator.figures import Asked, Choice, Figures, Given, Refusal, Refused, Side, answers, likely
from calculator.numerals import Unreadable, shown_figure, shown_money
from calculator.readings import reading_of
from calculator.rows import BadRow, bad_line, records, refused_line
from calculator.terms import Issue

Read = TypeVar("Read")
# The columns of what was traded, of the figures, and of the terms of an issue. Of a kept trade what was traded is
# compared first, then the terms, and then the figures.
TRADED = ("cusip", "side", "par", "settle", "basis", "value", "fee")
STATED = ("price", "yield", "redemption", "days", "principal", "accrued", "total")
TERMS = ("kind", "dated", "first", "maturity", "coupon", "calls", "day_count")
COLUMNS = ("reference", *TRADED, *STATED, *TERMS)
# The name and the CUSIP of an issue whose terms a row has.
UNNAMED = ("000000000", "CHECK")
# What is not asked of a trade that is not kept.
USUAL = {"side": Side.BUY, "fee": 0}
PRICE_MAX, YIELDS, DAYS_MAX, DOLLARS = 99_999_999_999, (-90_000, 999_999), 999, 15


def money(text: str) -> int:
    """Dollars, perhaps with a point and one or two digits, in cents."""
    found = re.fullmatch(r"([0-9]+)(?:\.([0-9]{1,2}))?", text)
    if not found or len(found[1]) > DOLLARS:
        raise Unreadable
    return int(found[1]) * 100 + int((found[2] or "").ljust(2, "0"))


def days(text: str) -> int:
    if len(text) > len(str(DAYS_MAX)):
        raise Unreadable
    return numerals.count(text, 0, DAYS_MAX)


READERS: dict[str, Callable[[str], object]] = {
    "price": lambda text: numerals.decimal(text, 3, 0, PRICE_MAX),
    "yield": lambda text: numerals.decimal(text, 3, *YIELDS),
    "redemption": numerals.day, "days": days, "principal": money, "accrued": money, "total": money}
SHOWN: dict[str, Callable[[object], str]] = {
    "price": shown_figure, "yield": shown_figure, "redemption": str, "days": str,
    "principal": shown_money, "accrued": shown_money, "total": shown_money}
# What the figures call some columns.
OF_FIGURES = {"yield": "yield_", "days": "accrued_days"}


@dataclasses.dataclass
class Row:
    """A row by the columns that the first line names. A field that is not there is empty."""

    columns: list[str]
    record: list[str]

    def text(self, column: str) -> str:
        return self.record[self.columns.index(column)] if column in self.columns else ""

    def fault(self, column: str) -> BadRow:
        return BadRow(self.columns.index(column) + 1) if column in self.columns else BadRow()

    def read(self, column: str, reader: Callable[[str], Read]) -> Read:
        try:
            return reader(self.text(column))
        except Unreadable as error:
            raise Unread(self.fault(column)) from error

    def stated(self, column: str, reader: Callable[[str], Read]) -> Read | None:
        return self.read(column, reader) if self.text(column) else None

    def states_any(self, columns: tuple[str, ...]) -> bool:
        return any(map(self.text, columns))


class Unread(Exception):
    """A row that does not read."""

    @property
    def bad(self) -> BadRow:
        return self.args[0]


def columns_of(record: list[str]) -> list[str] | BadRow:
    """The columns that a first line names, or the place of the first name that is unknown or there twice."""
    for place, name in enumerate(record):
        if name not in COLUMNS or name in record[:place]:
            return BadRow(place + 1)
    return record


def asked_by(row: Row, known: Asked | None) -> Asked:
    """What a row asks for: what it does not say itself is that of the kept trade."""
    def one(column: str, name: str, reader: Callable[[str], Read]) -> Read:
        if row.text(column):
            return row.read(column, reader)
        if known is not None:
            return getattr(known, name)
        if column == "cusip" and row.text("kind"):
            return UNNAMED[0]
        if column in USUAL:
            return USUAL[column]
        raise Unread(row.fault(column))

    cusip, side = one("cusip", "cusip", fields.cusip), one("side", "side", fields.side)
    par, settlement = one("par", "par", numerals.par), one("settle", "settlement", numerals.day)
    given = one("basis", "given", fields.given)
    if row.text("value"):
        value = row.read("value", lambda text: fields.value(given, text))
    elif known is not None:
        value = known.value
    else:
        raise Unread(row.fault("value"))
    return Asked(cusip, par, settlement, given, value, side, one("fee", "fee", fields.fee))


def issue_by(row: Row, cusip: str) -> Issue | None:
    """The issue whose terms a row has, if it has any."""
    if not row.states_any(TERMS):
        return None
    kind = row.read("kind", fields.kind)
    dated = row.read("dated", numerals.day)
    first = row.read("first", lambda text: fields.first_interest(kind, text))
    maturity = row.read("maturity", numerals.day)
    coupon = row.read("coupon", lambda text: fields.coupon(kind, text))
    calls = row.read("calls", fields.calls)
    return Issue(cusip, UNNAMED[1], kind, dated, maturity, coupon, first, calls,
                 row.read("day_count", fields.day_basis))


def figures_by(row: Row) -> dict[str, object]:
    """The figures that a row states, and None for each other one."""
    return {column: row.stated(column, READERS[column]) for column in STATED}


def texts_of(asked: Asked, issue: Issue) -> dict[str, str]:
    """What was traded and the terms of its issue, by their columns, as an export writes them."""
    _, _, *terms = exported.terms(issue)
    return dict(zip((*TRADED, *TERMS), map(str, [*exported.asked(asked), *terms])))


@dataclasses.dataclass
class Tally:
    rows: int = 0
    right: int = 0
    differ: int = 0
    missing: int = 0
    again: int = 0
    nothing: int = 0

    @property
    def is_all_right(self) -> bool:
        return self.right == self.rows and self.missing == 0

    def line(self) -> str:
        return ",".join(map(str, ["TOTAL", *dataclasses.astuple(self)]))


class Check:
    """The rows over a book, and over a desk of it if there is one."""

    def __init__(self, book: Book, desk: str, columns: list[str], choose: Choice = likely) -> None:
        self.book, self.desk, self.columns, self.choose = book, desk, columns, choose
        # The place of the first row of each reference.
        self.named: dict[str, int] = {}
        self.tally = Tally()

    def line(self, record: list[str]) -> str:
        """What is said of a row."""
        self.tally.rows += 1
        place, row = self.tally.rows, Row(self.columns, record)
        try:
            if len(record) != len(self.columns):
                raise Unread(BadRow())
            reference = row.stated("reference", numerals.reference)
            if not self.desk or reference is None:
                return self.alone(place, row)
            return self.named_trade(place, row, reference)
        except Unread as unread:
            return bad_line(place, unread.bad)

    def named_trade(self, place: int, row: Row, reference: str) -> str:
        """What is said of a row that names a trade of the desk."""
        first = self.named.setdefault(reference, place)
        if first != place:
            self.tally.again += 1
            return f"{place},again,{first}"
        versions = self.book.versions(self.desk, reference)
        if not versions or versions[-1].act is Act.CANCELED:
            self.tally.missing += 1
            return f"{place},missing,{reference}"
        return self.kept(place, row, versions[-1])

    def kept(self, place: int, row: Row, last: Version) -> str:
        """What is said of a row of a trade that is kept: what it states of the trade comes before its figures."""
        issue = self.book.terms(last.asked.cusip)[last.terms - 1]
        asked, figures = asked_by(row, last.asked), figures_by(row)
        ours, theirs = texts_of(last.asked, issue), texts_of(asked, issue_by(row, asked.cusip) or issue)
        for column, text in ours.items():
            if theirs[column] != text:
                return self.differs(place, column, text, theirs[column])
        if not row.states_any(COLUMNS[1:]):
            return self.nothing(place)
        return self.compared(place, issue, last.asked, last.figures, figures)

    def alone(self, place: int, row: Row) -> str:
        """What is said of a row that goes by what it states and by the last terms of its issue."""
        asked, figures = asked_by(row, None), figures_by(row)
        issue = issue_by(row, asked.cusip)
        if not row.states_any(STATED):
            return self.nothing(place)
        issue = issue or self.book.issue(asked.cusip)
        if issue is None:
            return refused_line(place, Refusal(Refused.UNKNOWN_ISSUE))
        ours = refused_terms(issue) or self.choose(answers(issue, asked))
        if isinstance(ours, Refusal):
            if ours.number is Refused.UNDECIDED:
                return f"{place},undecided,{'price' if asked.given is Given.YIELD else 'yield'}"
            return refused_line(place, ours)
        return self.compared(place, issue, asked, ours, figures)

    def nothing(self, place: int) -> str:
        self.tally.nothing += 1
        return f"{place},nothing"

    def differs(self, place: int, *words: str) -> str:
        self.tally.differ += 1
        return ",".join([str(place), "differs", *words])

    def compared(self, place: int, issue: Issue, asked: Asked, ours: Figures, figures: dict[str, object]) -> str:
        for column, theirs in figures.items():
            name = OF_FIGURES.get(column, column)
            if theirs is None or getattr(ours, name) == theirs:
                continue
            reading = reading_of(issue, asked, ours, name, theirs)
            shown = SHOWN[column]
            words = [column, shown(getattr(ours, name)), shown(theirs)]
            return self.differs(place, *words, *([reading] if reading else []))
        self.tally.right += 1
        return f"{place},right"

    def unseen(self) -> list[str]:
        """The live trades of the desk for which no row came."""
        trades = self.book.desks.get(self.desk, {}) if self.desk else {}
        found = [reference for reference in sorted(trades)
                 if trades[reference][-1].act is not Act.CANCELED and reference not in self.named]
        self.tally.missing += len(found)
        return [f"0,missing,{reference}" for reference in found]


def report(book: Book, desk: str, data: bytes, choose: Choice = likely) -> tuple[list[str], bool]:
    """The lines on a text, and whether its first line names columns, every row is right and no trade is missing."""
    rows = records(data)
    names = next(rows, None)
    columns = BadRow() if names is None else columns_of(names)
    if isinstance(columns, BadRow):
        return [bad_line(0, columns)], False
    check = Check(book, desk, columns, choose)
    lines = [*map(check.line, rows)]
    lines += check.unseen()
    return [*lines, check.tally.line()], check.tally.is_all_right
