"""The command line (docs/FORMATS.md): what the words of a command ask for."""
from __future__ import annotations

import dataclasses
from collections.abc import Callable, Sequence
from datetime import date
from typing import TypeVar

from calculator import fields, numerals
from calculator.book import USUAL_LIMIT
from calculator.days import LAST_INTEREST_DAY
from calculator.figures import Asked, Given
from calculator.numerals import Unreadable
from calculator.terms import FIRST_DATED, Call, Issue, Kind

Read = TypeVar("Read")
# The CUSIP and the name of what `quote` asks for, which no text shows.
QUOTED = ("000000000", "QUOTE")
QUOTED_PAR = 100
SEEDS = 2**64
GREATEST_LIMIT = 100_000_000
GREATEST_PLACE = 2**63 - 1
# The store of a check without one, which is empty.
NO_STORE = ""
# The options without a value.
PLAIN = ("--each", "--risk", "--all", "--issues", "--header")


class Usage(Exception):
    """Words that are no command."""


@dataclasses.dataclass(frozen=True)
class QuoteOne:
    coupon: int
    interest: date
    settlement: date
    redemption_price: int
    yield_: int


@dataclasses.dataclass(frozen=True)
class QuoteTerms:
    issue: Issue
    asked: Asked
    is_each: bool = False
    is_risk: bool = False


@dataclasses.dataclass(frozen=True)
class Drill:
    count: int
    seed: int


@dataclasses.dataclass(frozen=True)
class OverStore:
    """A command over a store, with the words that it may have beside: all trades of a desk, or the issues alone, how
    many trades a desk may have, and of a file that is valued the place of the first row, whether the names of the
    columns come first, and whether each line has its sensitivities."""

    name: str
    store: str
    desk: str = ""
    reference: str = ""
    is_all: bool = False
    is_issues: bool = False
    limit: int = USUAL_LIMIT
    first: int = 1
    has_header: bool = False
    is_risk: bool = False


@dataclasses.dataclass(frozen=True)
class Help:
    pass


Job = QuoteOne | QuoteTerms | Drill | OverStore | Help


class Options:
    """The options of a command, each taken once by its reader. What is left over is no option of the command."""

    def __init__(self, words: Sequence[str]) -> None:
        self.values: dict[str, list[str]] = {}
        for word in words:
            name, _, value = word.partition("=")
            if not name.startswith("--") or not value and word not in PLAIN:
                raise Usage
            self.values.setdefault(name[2:], []).append(value)

    def all(self, name: str, reader: Callable[[str], Read]) -> list[Read]:
        """What an option has that may be given several times."""
        return [read(reader, value) for value in self.values.pop(name, [])]

    def maybe(self, name: str, reader: Callable[[str], Read], default: Read) -> Read:
        found = self.all(name, reader)
        if len(found) > 1:
            raise Usage
        return found[0] if found else default

    def one(self, name: str, reader: Callable[[str], Read]) -> Read:
        if name not in self.values:
            raise Usage
        return self.maybe(name, reader, None)

    def exactly_if(self, is_needed: bool, name: str, reader: Callable[[str], Read], default: Read) -> Read:
        """An option that is given exactly if it is needed."""
        if is_needed != (name in self.values):
            raise Usage
        return self.maybe(name, reader, default)

    def plain(self, name: str) -> bool:
        """Whether an option is given that has no value."""
        found = self.values.pop(name, None)
        if found not in (None, [""]):
            raise Usage
        return found is not None

    def end(self) -> None:
        if self.values:
            raise Usage


def read(reader: Callable[[str], Read], text: str) -> Read:
    try:
        return reader(text)
    except Unreadable as error:
        raise Usage from error


def number(low: int, high: int) -> Callable[[str], int]:
    """The reader of a number of 1 to 20 digits in a range."""
    return lambda text: numerals.count(numerals.name(text, "[0-9]{1,20}"), low, high)


def store_name(text: str) -> str:
    """The name of a store. What names a journal has more than the beginning of such names."""
    return numerals.name(text, "(?!journal:$)[!-~]{1,200}")


def job(words: Sequence[str]) -> Job:
    """What the words ask for. `serve` is no command of the calculator."""
    if not words:
        raise Usage
    if words[0] == "quote-one":
        return quote_one(words[1:])
    options = Options(words[1:])
    if words[0] == "quote":
        found: Job = quote(options)
    elif words[0] == "drill":
        options.one("workers", number(1, 16))
        found = Drill(options.one("count", number(0, 1000)), options.one("seed", number(0, SEEDS - 1)))
    elif words[0] == "help":
        found = Help()
    else:
        found = over_store(words[0], options)
    options.end()
    return found


def quote_one(words: Sequence[str]) -> QuoteOne:
    if len(words) != 5:
        raise Usage
    readers = (numerals.coupon, numerals.day, numerals.day, numerals.price, numerals.yield_)
    found = QuoteOne(*(read(reader, word) for reader, word in zip(readers, words)))
    if found.interest.day > LAST_INTEREST_DAY or found.interest < FIRST_DATED:
        raise Usage
    return found


def quote(options: Options) -> QuoteTerms:
    kind = options.one("kind", fields.kind)
    pays = kind in (Kind.PERIODIC, Kind.AT_REDEMPTION)
    dated, maturity = options.one("dated", numerals.day), options.one("maturity", numerals.day)
    first = options.exactly_if(kind == Kind.PERIODIC, "first", numerals.day, None)
    coupon = options.exactly_if(pays, "coupon", numerals.coupon, 0)
    calls: list[Call] = options.all("call", fields.call)
    if len(calls) > fields.MOST_CALLS or kind in (Kind.PERIODIC, Kind.ZERO) and "days" in options.values:
        raise Usage
    basis = options.maybe("days", fields.day_basis, fields.BASES[""])
    options.maybe("workers", number(1, 16), 1)
    par, settlement = options.maybe("par", numerals.par, QUOTED_PAR), options.one("settle", numerals.day)
    given = [each for each in Given if each in options.values]
    if len(given) != 1:
        raise Usage
    value = options.one(given[0], lambda text: fields.value(given[0], text))
    issue = Issue(*QUOTED, kind, dated, maturity, coupon, first, tuple(calls), basis)
    return QuoteTerms(issue, Asked(issue.cusip, par, settlement, given[0], value), options.plain("each"),
                      options.plain("risk"))


def over_store(name: str, options: Options) -> OverStore:
    if name == "check" and "store" not in options.values:
        return OverStore(name, NO_STORE)
    store = options.one("store", store_name)
    match name:
        case "import":
            options.maybe("workers", number(1, 16), 1)
            desk = options.maybe("positions", numerals.desk, "")
            return OverStore(name, store, desk, limit=desk_limit(options))
        case "confirm":
            desk = options.one("desk", numerals.desk)
            if options.plain("all"):
                return OverStore(name, store, desk, is_all=True)
            return OverStore(name, store, desk, options.one("ref", numerals.reference))
        case "positions" | "list":
            return OverStore(name, store, options.one("desk", numerals.desk))
        case "export":
            desk, is_issues = options.maybe("desk", numerals.desk, ""), options.plain("issues")
            if desk and is_issues:
                raise Usage
            return OverStore(name, store, desk, is_issues=is_issues)
        case "load":
            return OverStore(name, store, limit=desk_limit(options))
        case "figures":
            options.maybe("workers", number(1, 16), 1)
            first = options.maybe("from", number(1, GREATEST_PLACE), 1)
            return OverStore(name, store, first=first, has_header=options.plain("header"),
                             is_risk=options.plain("risk"))
        case "check":
            return OverStore(name, store, options.maybe("desk", numerals.desk, ""))
        case "mark" | "check-store":
            return OverStore(name, store)
    raise Usage


def desk_limit(options: Options) -> int:
    return options.maybe("desk-limit", number(1, GREATEST_LIMIT), USUAL_LIMIT)
