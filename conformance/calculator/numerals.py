"""Numbers, days and names as texts (docs/FORMATS.md). A text has one character for each byte."""
from __future__ import annotations

import re
from datetime import date

from calculator.days import FIRST_YEAR, LAST_YEAR

PRICE_MAX = 999_999_999
YIELDS = (-999_999, 9_999_999)
COUPON_MAX = 300_000_000
PAR_MAX = 1_000_000_000
FEE_MAX = 10_000
# More digits than any number in a range has.
LONG = 20


class Unreadable(Exception):
    """A text that does not have its form."""


def whole(digits: str, low: int, high: int) -> int:
    """Digits as a number in a range. Leading zeros are accepted."""
    digits = digits.lstrip("0")
    if len(digits) > LONG or not low <= int(digits or "0") <= high:
        raise Unreadable
    return int(digits or "0")


def decimal(text: str, places: int, low: int, high: int) -> int:
    """A number in units of so many decimals. It has a sign only if the range has numbers below zero."""
    sign = "-?" if low < 0 else ""
    found = re.fullmatch(rf"({sign})([0-9]+)(?:\.([0-9]{{1,{places}}}))?", text)
    if not found:
        raise Unreadable
    digits = found[2] + (found[3] or "").ljust(places, "0")
    return -whole(digits, -high, -low) if found[1] else whole(digits, low, high)


def price(text: str) -> int:
    return decimal(text, 6, 0, PRICE_MAX)


def yield_(text: str) -> int:
    return decimal(text, 4, *YIELDS)


def coupon(text: str) -> int:
    return decimal(text, 7, 0, COUPON_MAX)


def fee(text: str) -> int:
    return decimal(text, 3, 0, FEE_MAX)


def par(text: str) -> int:
    return count(text, 1, PAR_MAX)


def count(text: str, low: int, high: int) -> int:
    """Digits alone."""
    if not re.fullmatch("[0-9]+", text):
        raise Unreadable
    return whole(text, low, high)


def day(text: str) -> date:
    if not re.fullmatch("[0-9]{4}-[0-9]{2}-[0-9]{2}", text):
        raise Unreadable
    try:
        found = date.fromisoformat(text)
    except ValueError as error:
        raise Unreadable from error
    if not FIRST_YEAR <= found.year <= LAST_YEAR:
        raise Unreadable
    return found


def name(text: str, form: str) -> str:
    """A text of a form, which is a regular expression."""
    if not re.fullmatch(form, text):
        raise Unreadable
    return text


def desk(text: str) -> str:
    return name(text, "[0-9A-Z]{1,16}")


def reference(text: str) -> str:
    return name(text, "[0-9A-Za-z]{1,20}")


def shown(value: int, places: int) -> str:
    """A number in units of so many decimals, with all of them."""
    size = 10**places
    return f"{'-' if value < 0 else ''}{abs(value) // size}.{abs(value) % size:0{places}d}"


def shown_price(micros: int) -> str:
    """A price as it is given, with six decimals."""
    return shown(micros, 6)


def shown_figure(thousandths: int) -> str:
    """A printed price or a printed yield."""
    return shown(thousandths, 3)


def shown_dv01(micros: int) -> str:
    return shown(micros, 6)


def shown_money(cents: int) -> str:
    return shown(cents, 2)
