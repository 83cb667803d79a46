"""The lines of a file that is valued, and the figures of each (docs/FORMATS.md)."""
from __future__ import annotations

from collections.abc import Iterator
from typing import NamedTuple

from calculator import fields, numerals
from calculator.book import Book
from calculator.figures import Asked, Choice, Figures, Refusal, Side, likely
from calculator.numerals import Unreadable, shown_dv01, shown_figure, shown_money, shown_price
from calculator.rows import BYTE_ORDER_MARK, BadRow, Columns, bad_line, refused_line
from calculator.sensitivities import Risk, risk_of

HEADER = ("place,answer,cusip,price,yield,redemption,redemption_price,redemption_label,days,principal,accrued,"
          "commission,total")
RISK_HEADER = ",current_yield,duration,convexity,dv01"
# The numbers of fields of a line, whose last two may be left out, and the most bytes that it may have.
SIZES = (5, 6, 7)
LONGEST = 4096


class Form(NamedTuple):
    """The place of the first line, whether the names of the columns come first, and whether each line has its
    sensitivities."""

    first: int = 1
    has_header: bool = False
    is_risk: bool = False

    def header(self) -> list[str]:
        return [HEADER + RISK_HEADER * self.is_risk] if self.has_header else []


def lines(data: bytes) -> Iterator[str]:
    """The lines of a text, without their line feeds. Empty ones are passed over."""
    for line in data.decode("latin-1").removeprefix(BYTE_ORDER_MARK).split("\n"):
        if line.removesuffix("\r"):
            yield line


def asked(line: str) -> Asked | BadRow:
    """What a line asks for."""
    record = line.removesuffix("\r").split(",")
    if len(line) > LONGEST or len(record) not in SIZES:
        return BadRow()
    columns = Columns(record, 0)
    try:
        cusip, par, settlement = columns.next(fields.cusip), columns.next(numerals.par), columns.next(numerals.day)
        given = columns.next(fields.given)
        value = columns.next(lambda text: fields.value(given, text))
        fee = columns.rest(fields.fee, 0)
        return Asked(cusip, par, settlement, given, value, columns.rest(side, Side.BUY), fee)
    except Unreadable:
        return BadRow(columns.column)


def side(text: str) -> Side:
    return fields.side(text) if text else Side.BUY


def line_of(place: int, cusip: str, found: Figures) -> str:
    money = (found.principal, found.accrued, found.commission, found.total)
    return ",".join([f"{place},figures,{cusip}", shown_figure(found.price), shown_figure(found.yield_),
                     str(found.redemption), shown_price(found.redemption_price), found.label, str(found.accrued_days),
                     *map(shown_money, money)])


def risk_columns(risk: Risk | None) -> str:
    """The columns of the sensitivities. Of one that there is not, the column is empty."""
    if risk is None:
        return ",,,,"
    current = "" if risk.current_yield is None else shown_figure(risk.current_yield)
    return f",{current},{shown_figure(risk.duration)},{shown_figure(risk.convexity)},{shown_dv01(risk.dv01)}"


def report(book: Book, data: bytes, form: Form = Form(), choose: Choice = likely) -> list[str]:
    """A line on each line of a text, whose places begin with the first one, and how many have figures, the sum of
    their totals, and how many there are."""
    found, count, total = [], 0, 0
    for place, line in enumerate(lines(data), form.first):
        read = asked(line)
        came = read if isinstance(read, BadRow) else book.quote(read, choose)
        if isinstance(came, BadRow):
            found.append(bad_line(place, came))
        elif isinstance(came, Refusal):
            found.append(refused_line(place, came))
        else:
            risk = risk_columns(risk_of(book.issues[read.cusip][-1], read, came, choose)) if form.is_risk else ""
            found.append(line_of(place, read.cusip, came) + risk)
            count, total = count + 1, total + came.total
    return [*form.header(), *found, f"TOTAL,{count},{shown_money(total)},{len(found)}"]
