"""The fields that rows of an import and bodies of requests share (docs/FORMATS.md)."""
from __future__ import annotations

from datetime import date

from calculator import numerals
from calculator.days import DayBasis
from calculator.figures import Given, Side
from calculator.numerals import Unreadable
from calculator.terms import LONGEST_NAME, Call, Kind, Mark

MOST_CALLS = 40
BASES = {"": DayBasis.THIRTY_360, "30/360": DayBasis.THIRTY_360, "actual/365": DayBasis.ACTUAL_365}


def cusip(text: str) -> str:
    """Nine digits and capital letters. The check digit is a test of the terms."""
    return numerals.name(text, "[0-9A-Z]{9}")


def issue_name(text: str) -> str:
    if not 1 <= len(text) <= LONGEST_NAME:
        raise Unreadable
    return text


def kind(text: str) -> Kind:
    return one_of(Kind, text)


def side(text: str) -> Side:
    return one_of(Side, text)


def given(text: str) -> Given:
    return one_of(Given, text)


def one_of(words: type, text: str):
    try:
        return words(text)
    except ValueError as error:
        raise Unreadable from error


def value(what: Given, text: str) -> int:
    return numerals.price(text) if what == Given.PRICE else numerals.yield_(text)


def number(text: str) -> int:
    """The number of a version, or of terms of an issue."""
    return int(numerals.name(text, "[0-9]{1,9}"))


def terms(text: str) -> int | None:
    """The number of the terms by which a trade is figured, or none for the last ones."""
    return number(text) if text else None


def day_basis(text: str) -> DayBasis:
    if text not in BASES:
        raise Unreadable
    return BASES[text]


def fee(text: str) -> int:
    return numerals.fee(text) if text else 0


def coupon(what: Kind, text: str) -> int:
    """The coupon of a kind. If no interest is paid it may be left out."""
    needed = what in (Kind.PERIODIC, Kind.AT_REDEMPTION)
    return numerals.coupon(text) if text or needed else 0


def first_interest(what: Kind, text: str) -> date | None:
    if what == Kind.PERIODIC:
        return numerals.day(text)
    if text:
        raise Unreadable
    return None


def call(text: str) -> Call:
    day, colon, price = text.partition(":")
    if not colon:
        raise Unreadable
    return Call(numerals.day(day), *marked_price(price))


def marked_price(text: str) -> tuple[int, Mark]:
    """The price of a call, with the mark that may stand after it."""
    mark = Mark(text[-1:]) if text.endswith((Mark.ON_OR_AFTER, Mark.CALLED)) else Mark.NONE
    return numerals.price(text.removesuffix(mark)), mark


def calls(text: str) -> tuple[Call, ...]:
    """Calls with one blank between."""
    found = text.split(" ") if text else []
    if len(found) > MOST_CALLS:
        raise Unreadable
    return tuple(map(call, found))
