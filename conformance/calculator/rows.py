"""Rows of CSV: those of an import and its report, and those of a portfolio and its marks (docs/FORMATS.md)."""
from __future__ import annotations

import re
from collections.abc import Callable, Iterator
from typing import NamedTuple, TypeVar

from calculator import fields, numerals
from calculator.book import AddIssue, Added, Amend, Amended, Book, Cancel, Command, Confirmed, Correct, Enter, Reply
from calculator.figures import Asked, Choice, Given, Refusal, likely
from calculator.numerals import Unreadable, shown_figure, shown_money
from calculator.terms import Issue

Read = TypeVar("Read")
BYTE_ORDER_MARK = "\u00ef\u00bb\u00bf"
# A field in quotes, in which two stand for one, with what follows the last of them; or one without.
FIELD = re.compile(r'"((?:[^"]++|"")*+)"?([^,\r\n]*+)|([^,\r\n]*+)')
# The numbers of fields that a row has with its name; the last fields of some may be left out.
SIZES = {"issue": (9, 10), "amend": (10, 11), "trade": (9, 10, 11), "correct": (10, 11, 12), "cancel": (4,)}


class BadRow(NamedTuple):
    """A row that does not read: the first column that does not, or None if it has another number of fields."""

    column: int | None = None


def records(data: bytes) -> Iterator[list[str]]:
    """The records of a text, each with its fields. Empty lines are passed over."""
    text = data.decode("latin-1").removeprefix(BYTE_ORDER_MARK)
    place = 0
    while place < len(text):
        if text[place] in "\r\n":
            place += 1
            continue
        record = []
        while True:
            found = FIELD.match(text, place)
            quoted, rest, plain = found.groups()
            record.append(plain if quoted is None else quoted.replace('""', '"') + rest)
            place = found.end()
            if text[place:place + 1] != ",":
                break
            place += 1
        yield record


class Columns:
    """The fields of a record, which are read one after the other."""

    def __init__(self, record: list[str], column: int = 1) -> None:
        self.record = record
        self.column = column

    def next(self, reader: Callable[[str], Read]) -> Read:
        self.column += 1
        return reader(self.record[self.column - 1])

    def rest(self, reader: Callable[[str], Read], default: Read) -> Read:
        """The last field, which may be left out."""
        return self.next(reader) if self.column < len(self.record) else default


def row(record: list[str]) -> Command | BadRow:
    """What a row of an import asks for."""
    sizes = SIZES.get(record[0])
    if sizes is None:
        return BadRow(1)
    if len(record) not in sizes:
        return BadRow()
    columns = Columns(record)
    try:
        if record[0] == "issue":
            return AddIssue(issue(columns, columns.next(fields.cusip)))
        if record[0] == "amend":
            cusip, number = columns.next(fields.cusip), columns.next(fields.number)
            return Amend(number, issue(columns, cusip))
        key = columns.next(numerals.desk), columns.next(numerals.reference)
        if record[0] == "trade":
            return Enter(*key, asked(columns), terms(columns))
        number = columns.next(fields.number)
        if record[0] == "cancel":
            return Cancel(*key, number)
        return Correct(*key, number, asked(columns), terms(columns))
    except Unreadable:
        return BadRow(columns.column)


def issue(columns: Columns, cusip: str) -> Issue:
    name, kind = columns.next(fields.issue_name), columns.next(fields.kind)
    dated = columns.next(numerals.day)
    first = columns.next(lambda text: fields.first_interest(kind, text))
    maturity = columns.next(numerals.day)
    coupon = columns.next(lambda text: fields.coupon(kind, text))
    calls = columns.next(fields.calls)
    return Issue(cusip, name, kind, dated, maturity, coupon, first, calls,
                 columns.rest(fields.day_basis, fields.BASES[""]))


def asked(columns: Columns) -> Asked:
    cusip, side, par = columns.next(fields.cusip), columns.next(fields.side), columns.next(numerals.par)
    settlement, given = columns.next(numerals.day), columns.next(fields.given)
    value = columns.next(lambda text: fields.value(given, text))
    return Asked(cusip, par, settlement, given, value, side, columns.rest(fields.fee, 0))


def terms(columns: Columns) -> int | None:
    """The number of the terms of the issue of a trade, if one is named."""
    return columns.rest(fields.terms, None)


def report_line(place: int, came: Reply | BadRow) -> str:
    """The line on a row of an import."""
    match came:
        case BadRow():
            return bad_line(place, came)
        case Added(cusip):
            return f"{place},added,{cusip}"
        case Amended(cusip, number):
            return f"{place},amended,{cusip},{number}"
        case Refusal():
            return refused_line(place, came)
        case Confirmed(_, _, reference, number, version):
            figures = version.figures
            return (f"{place},confirmed,{reference},{number},{shown_figure(figures.price)},"
                    f"{shown_figure(figures.yield_)},{figures.redemption},{shown_money(figures.total)}")


def bad_line(place: int, bad: BadRow) -> str:
    return f"{place},bad,1" if bad.column is None else f"{place},bad,2,{bad.column}"


def refused_line(place: int, refusal: Refusal) -> str:
    return f"{place},refused,{refusal.number.value},{refusal.number.title}"


def report(book: Book, data: bytes, choose: Choice = likely) -> list[str]:
    """Applies the rows of an import to a book: a line on each of them."""
    lines = []
    for place, record in enumerate(records(data), 1):
        read = row(record)
        lines.append(report_line(place, read if isinstance(read, BadRow) else book.apply(read, choose)))
    return lines


def marked(record: list[str]) -> Asked | BadRow:
    """What a row of a portfolio asks for."""
    if len(record) != 4:
        return BadRow()
    columns = Columns(record, 0)
    try:
        cusip, par, settlement = columns.next(fields.cusip), columns.next(numerals.par), columns.next(numerals.day)
        return Asked(cusip, par, settlement, Given.YIELD, columns.next(numerals.yield_))
    except Unreadable:
        return BadRow(columns.column)


def marks(book: Book, data: bytes, choose: Choice = likely) -> list[str]:
    """The marks of a portfolio over the issues of a book, and their total."""
    lines, count, total = [], 0, 0
    for place, record in enumerate(records(data), 1):
        read = marked(record)
        if isinstance(read, BadRow):
            lines.append(bad_line(place, read))
            continue
        found = book.quote(read, choose)
        if isinstance(found, Refusal):
            lines.append(refused_line(place, found))
            continue
        lines.append(f"{place},marked,{read.cusip},{shown_figure(found.price)},{found.redemption},"
                     f"{shown_money(found.total)}")
        count, total = count + 1, total + found.total
    return lines + [f"TOTAL,{count},{shown_money(total)}"]
