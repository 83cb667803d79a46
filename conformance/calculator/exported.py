"""The rows of an export, which an import reads, and the lines of a list and of a check (docs/FORMATS.md)."""
from __future__ import annotations

from collections.abc import Iterator, Sequence

from calculator.book import Act, Book, Version
from calculator.days import DayBasis
from calculator.figures import Asked, Given
from calculator.numerals import shown, shown_figure, shown_money, shown_price
from calculator.terms import Issue

COLUMNS = ("reference", "version", "state", "cusip", "side", "par", "settlement", "basis", "value", "fee", "price",
           "yield", "redemption", "redemption_price", "redemption_label", "days", "principal", "accrued", "commission",
           "total")
# A field with one of these stands in quotes.
SPECIAL = ',"\r\n'


def row(fields: Sequence[object]) -> str:
    """A row of CSV without its end."""
    return ",".join(map(field, fields))


def field(value: object) -> str:
    text = str(value)
    return '"' + text.replace('"', '""') + '"' if any(each in text for each in SPECIAL) else text


def export(book: Book, desk: str = "", is_issues: bool = False) -> list[str]:
    """The rows of all that is kept, of one desk with the issues that it names, or of the issues alone."""
    cusips = named(book, desk) if desk else set(book.issues)
    desks = [] if is_issues else [desk] if desk else sorted(book.desks)
    return [each for cusip in sorted(cusips) for each in issues(book.issues[cusip])] + [
        row(fields) for each in desks for fields in trades(book, each)]


def issues(kept: list[Issue]) -> list[str]:
    """The rows of all terms of an issue."""
    first, *rest = map(terms, kept)
    return [row(["issue", *first]), *(row(["amend", cusip, number, *fields])
                                      for number, (cusip, *fields) in enumerate(rest, 2))]


def named(book: Book, desk: str) -> set[str]:
    """The CUSIPs that the trades of a desk name, in any version."""
    return {version.asked.cusip for versions in book.desks.get(desk, {}).values() for version in versions}


def terms(kept: Issue) -> list[object]:
    calls = " ".join(f"{call.day}:{shown_price(call.price)}{call.mark}" for call in kept.calls)
    days = "actual/365" if kept.basis == DayBasis.ACTUAL_365 else "30/360"
    return [kept.cusip, kept.name, kept.kind, kept.dated, kept.first or "", kept.maturity,
            shown(kept.coupon, 7), calls, days]


def trades(book: Book, desk: str) -> Iterator[list[object]]:
    """The fields of each version of each trade of a desk."""
    for reference, versions in sorted(book.desks.get(desk, {}).items()):
        for number, version in enumerate(versions, 1):
            act, kept = version.act, [*asked(version.asked), *named_terms(book, version)]
            if act == Act.ENTERED:
                yield ["trade", desk, reference, *kept]
            elif act == Act.CORRECTED:
                yield ["correct", desk, reference, number, *kept]
            else:
                yield ["cancel", desk, reference, number]


def named_terms(book: Book, version: Version) -> list[int]:
    """The number of the terms by which a version was figured, if they are not the last ones."""
    return [] if version.terms == len(book.terms(version.asked.cusip)) else [version.terms]


def asked(kept: Asked) -> list[object]:
    value = shown_price(kept.value) if kept.given == Given.PRICE else shown(kept.value, 4)
    return [kept.cusip, kept.side, kept.par, kept.settlement, kept.given, value, shown(kept.fee, 3)]


def listing(book: Book, desk: str) -> list[str]:
    """The names of the columns, and a line for each trade of a desk with its last version."""
    return [row(COLUMNS)] + [row(line(reference, len(versions), versions[-1]))
                             for reference, versions in sorted(book.desks.get(desk, {}).items())]


def line(reference: str, number: int, version: Version) -> list[object]:
    state = "CANCELED" if version.act == Act.CANCELED else "LIVE"
    figures = version.figures
    money = (figures.principal, figures.accrued, figures.commission, figures.total)
    return [reference, number, state, *asked(version.asked), shown_figure(figures.price), shown_figure(figures.yield_),
            figures.redemption, shown_price(figures.redemption_price), figures.label, figures.accrued_days,
            *map(shown_money, money)]


def counted(book: Book) -> list[str]:
    """The lines of a check: how many terms of issues are kept, and of each desk with trades how many versions."""
    desks = [(desk, sum(map(len, trades.values()))) for desk, trades in sorted(book.desks.items()) if trades]
    return [f"ISSUES {sum(map(len, book.issues.values()))}", *(f"DESK {desk} {count}" for desk, count in desks), "SOUND"]
