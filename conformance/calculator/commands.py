"""Runs the commands of the command line over books in memory: how each ends, and what it writes."""
from __future__ import annotations

import enum
from collections.abc import Callable, Sequence
from typing import NamedTuple

from calculator import checked, drill, exported, rows, valued
from calculator.book import Book, Confirm, refused_terms
from calculator.figures import Choice, Refusal, answers, each_of, likely, quote_one
from calculator.numerals import shown_figure
from calculator.sensitivities import risk_of
from calculator.texts import (confirmation, each_lines, figure_lines, position_line, refusal_line, risk_lines,
                              text_of)
from calculator.words import NO_STORE, Drill, Help, OverStore, QuoteOne, QuoteTerms, Usage, job

# The commands with an input, and how long that of some may be.
READING = ("import", "load", "mark", "figures", "check")
LONGEST = {"import": 4_194_304, "mark": 1_048_576}
# The commands that make a store which is not there. The others only read one.
MAKING = ("import", "load")
HELP = """\
quote-one COUPON NEXT SETTLE REDEMPTION YIELD
quote --kind --dated --maturity --settle --yield|--price|--rate --first --coupon --call --par --workers --days --each --risk
import --store --workers --positions --desk-limit
confirm --store --desk --ref|--all
serve --store --port --connections --workers --desk-limit
drill --count --seed --workers
positions --store --desk
mark --store
export --store --desk --issues
list --store --desk
load --store --desk-limit
check-store --store
figures --store --workers --from --header --risk
check --store --desk
help
"""


class Status(enum.IntEnum):
    DONE = 0
    USAGE = 2
    REFUSED = 3
    STORE_FAULT = 6
    TOO_LARGE = 9


class Said(NamedTuple):
    """How a command ends, and the bytes that it writes."""

    status: int
    output: bytes = b""


def said(lines: Sequence[str], status: Status = Status.DONE) -> Said:
    return Said(status, text_of(lines).encode("ascii"))


def refused(refusal: Refusal) -> Said:
    return said([refusal_line(refusal)], Status.REFUSED)


def run(words: Sequence[str], books: dict[str, Book] | None = None, data: bytes | Callable[[], bytes] = b"",
        choose: Choice = likely) -> Said:
    """What a command says. `books` are the stores by their names, `data` its input or what reads it."""
    try:
        asked = job(words)
    except Usage:
        return Said(Status.USAGE)
    match asked:
        case Help():
            return Said(Status.DONE, HELP.encode())
        case Drill(count, seed):
            return said(drill.summary(count, seed, choose))
        case QuoteOne():
            found = quote_one(asked.coupon, asked.interest, asked.settlement, asked.redemption_price, asked.yield_)
            return refused(found) if isinstance(found, Refusal) else said([shown_figure(found)])
        case QuoteTerms():
            return quoted(asked, choose)
        case OverStore():
            return over_store(asked, {} if books is None else books, data, choose)


def quoted(asked: QuoteTerms, choose: Choice) -> Said:
    found = refused_terms(asked.issue) or choose(answers(asked.issue, asked.asked))
    if isinstance(found, Refusal):
        return refused(found)
    each = each_of(asked.issue, asked.asked, choose) if asked.is_each else []
    risk = risk_of(asked.issue, asked.asked, found, choose) if asked.is_risk else None
    return said([*figure_lines(asked.asked, found), *each_lines(asked.asked, each), *risk_lines(risk)])


def over_store(asked: OverStore, books: dict[str, Book], data: bytes | Callable[[], bytes], choose: Choice) -> Said:
    text = b"" if asked.name not in READING else data if isinstance(data, bytes) else data()
    if len(text) > LONGEST.get(asked.name, len(text)):
        return Said(Status.TOO_LARGE)
    if asked.name in MAKING:
        books.setdefault(asked.store, Book())
    book = Book() if asked.store == NO_STORE else books.get(asked.store)
    if book is None:
        return Said(Status.STORE_FAULT)
    book.limit = asked.limit
    return over_book(asked, book, text, choose)


def over_book(asked: OverStore, book: Book, text: bytes, choose: Choice) -> Said:
    match asked.name:
        case "confirm" if asked.is_all:
            return said(confirmations(book, asked.desk))
        case "confirm":
            found = book.apply(Confirm(asked.desk, asked.reference))
            return refused(found) if isinstance(found, Refusal) else said(confirmation(found))
        case "positions":
            return said(positions(book, asked.desk))
        case "export":
            return said(exported.export(book, asked.desk, asked.is_issues))
        case "list":
            return said(exported.listing(book, asked.desk))
        case "check-store":
            return said(exported.counted(book))
        case "import":
            return said(rows.report(book, text, choose) + positions(book, asked.desk))
        case "load":
            return said(rows.report(book, text, choose))
        case "figures":
            form = valued.Form(asked.first, asked.has_header, asked.is_risk)
            return said(valued.report(book, text, form, choose))
        case "check":
            lines, is_right = checked.report(book, asked.desk, text, choose)
            return said(lines, Status.DONE if is_right else Status.REFUSED)
        case _:
            return said(rows.marks(book, text, choose))


def confirmations(book: Book, desk: str) -> list[str]:
    """The confirmations of all trades of a desk, with an empty line between two."""
    lines: list[str] = []
    for reference in sorted(book.desks.get(desk, {})):
        lines += [*([""] if lines else []), *confirmation(book.apply(Confirm(desk, reference)))]
    return lines


def positions(book: Book, desk: str) -> list[str]:
    return [position_line(*each) for each in book.positions(desk).items()]
