"""A client of the desk over HTTP.

    import muni
    from datetime import date
    from decimal import Decimal

    desk = muni.Client("http://127.0.0.1:8735")
    figures = desk.quote("990034AA8", 100_000, date(2024, 4, 3), muni.Basis.YIELD, Decimal("3.65"))
    print(figures.price, figures.redemption)

Amounts go in as Decimal or int and come out as Decimal; a float is refused, since it seldom is the number that was
typed. Days are datetime.date. What the desk refuses is an exception with the desk's number and name, and all
exceptions of this module are of the class Error.

What the desk accepted acts once, however often it is sent. So a request whose answer does not come, or comes cut, is
sent again. The answer to a request that was sent again is that of the first time: it may be an old version of the
trade, and `Client.confirmation` alone tells the last one.
"""
from __future__ import annotations

import base64
import csv
import enum
import http.client
import io
import json
import os
import re
import ssl
import time
import urllib.parse
from collections.abc import Iterator, Mapping
from dataclasses import dataclass, replace
from datetime import date
from decimal import Decimal
from typing import Any, ClassVar, Union

from ._checks import Checked, Field, Reading, Verdict, check, members, read_checked
from ._frames import figures, figures_by_part
from ._program import Ended, Error, Path, ran
from ._refusals import WORDS

__all__ = [
    "Act", "BadTerms", "Basis", "Call", "CallKind", "Canceled", "Candidate", "Checked", "Client", "Confirmation",
    "Conflict", "DayCount", "DeskFull", "Ended", "Error", "Field", "Figures", "GivenOutOfRange", "Issue", "Kind",
    "Label", "Listed", "NoTime", "PAGE", "Position", "REFUSALS", "Reading", "Redemption", "Refused", "Risk",
    "SettleOutside", "Side", "Status", "Trade", "Unanswered", "Undecided", "UnknownIssue", "UnknownTrade", "Verdict",
    "VersionsFull", "WrongBasis", "WrongNumber", "YieldAbove", "YieldBelow", "check", "export", "figures",
    "figures_by_part", "read_checked", "read_confirmation", "read_figures", "read_issue", "read_list", "read_positions",
    "read_terms",
]

__version__ = "1.11.0"

Amount = Union[Decimal, int]

PAGE = 50


class Side(enum.Enum):
    """What the party that is confirmed does."""

    BUY = "buy"
    SELL = "sell"


class Basis(enum.Enum):
    """What a trade or a quote is given by."""

    PRICE = "price"
    YIELD = "yield"
    RATE = "rate"


class Kind(enum.Enum):
    """How an issue pays interest."""

    PERIODIC = "periodic"
    ZERO = "zero"
    AT_REDEMPTION = "at-redemption"
    DISCOUNT = "discount"


class DayCount(enum.Enum):
    """How days are counted. A note may have either; every other issue has the first."""

    THIRTY_360 = "30/360"
    ACTUAL_365 = "actual/365"


class Act(enum.Enum):
    """What made a version of a trade."""

    ENTERED = "CONFIRMATION"
    CORRECTED = "CORRECTED CONFIRMATION"
    CANCELED = "CANCELED CONFIRMATION"


class Label(enum.Enum):
    """What a redemption is: the maturity, a call at exactly 100, any other call, or that for which the issue has
    been called."""

    MATURITY = "MATURITY"
    PAR_OPTION = "PAR OPTION"
    CALL = "CALL"
    CALLED = "CALLED"


class CallKind(enum.Enum):
    """When an issue is redeemed by a call: on its day alone if the issuer calls it, on its day or an interest date
    after it and before the next call, or on its day for certain, since it has been called or refunded."""

    ON_DAY = ""
    ON_OR_AFTER = "+"
    CALLED = "!"


@dataclass(frozen=True)
class Call:
    """A call of an issue: its day, its price per 100, and when it holds. Of a bond that is callable on or after a day
    the kind is ON_OR_AFTER; CALLED is for the last call alone. Redemption between interest dates, and on notice within
    a half-year, is not covered."""

    day: date
    price: Amount
    kind: CallKind = CallKind.ON_DAY


@dataclass(frozen=True)
class Issue:
    """An issue to be kept. `first` is the first coupon of a periodic issue, and `coupon` is in percent."""

    cusip: str
    name: str
    kind: Kind
    dated: date
    maturity: date
    coupon: Amount | None = None
    first: date | None = None
    calls: tuple[Call, ...] = ()
    day_count: DayCount = DayCount.THIRTY_360


@dataclass(frozen=True)
class Trade:
    """A trade to be entered or corrected. `fee` is the commission in dollars per 100 of par. `issue` is the number of
    the terms of its issue by which it is figured; without one it is figured by the last ones."""

    desk: str
    reference: str
    cusip: str
    side: Side
    par: int
    settle: date
    basis: Basis
    value: Amount
    fee: Amount = 0
    issue: int | None = None


@dataclass(frozen=True)
class Redemption:
    """The redemption that is disclosed."""

    day: date
    price: Decimal
    label: Label


@dataclass(frozen=True)
class Candidate(Redemption):
    """A redemption that may come, priced on its own. `figure` is its price if a yield was given, and else its yield. If
    it has none, that is None and `reason` says why in the desk's words, as BELOW or UNDECIDED yield 4.0005."""

    figure: Decimal | None
    reason: str = ""


@dataclass(frozen=True)
class Risk:
    """How the price moves with the yield: of the disclosed redemption, at the yield as it is printed.

    `duration` is the modified duration in years, `convexity` is in years squared, and `dv01` is what the price falls by
    if the yield rises by 0.01 percent, in dollars per 100 of par. `current_yield` is in percent, and None if interest is
    not paid periodically.
    """

    current_yield: Decimal | None
    duration: Decimal
    convexity: Decimal
    dv01: Decimal


@dataclass(frozen=True)
class Figures:
    """What the desk computes. `given` is what it was asked by, and the other figures are computed from that.

    A given price is printed with three decimals, truncated, and a given yield with three, rounded: neither is
    told in full. `rate` is there only if it was given, and `commission` is 0 if there is none. `candidates` has every
    redemption that may come, in order of day, if a quote has asked for each. `risk` is there if a quote has asked for
    it, and of a discounted note it is None.
    """

    given: Basis
    price: Decimal
    yield_: Decimal
    rate: Decimal | None
    redemption: Redemption
    accrued_days: int
    principal: Decimal
    accrued: Decimal
    commission: Decimal
    total: Decimal
    candidates: tuple[Candidate, ...] = ()
    risk: Risk | None = None


@dataclass(frozen=True)
class Confirmation:
    """The confirmation of a version of a trade."""

    act: Act
    number: int
    desk: str
    reference: str
    side: Side
    par: int
    cusip: str
    issue: str
    coupon: Decimal
    dated: date
    maturity: date
    day_count: DayCount
    settle: date
    figures: Figures


@dataclass(frozen=True)
class Listed:
    """A line of a desk's list: the last version of a trade."""

    reference: str
    number: int
    is_live: bool
    par: int
    price: Decimal
    yield_: Decimal


@dataclass(frozen=True)
class Position:
    """The live trades of a desk in an issue: how many, the par bought, sold and left, and the money paid less the money
    received. The side is that of the party that is confirmed."""

    cusip: str
    trades: int
    bought: int
    sold: int
    par: int
    money: Decimal


class Unanswered(Error):
    """No answer came. Whether the request was kept is not known; sent again it acts once."""


class Status(Error):
    """An answer that is neither what was asked for nor a refusal, by its status of HTTP."""

    def __init__(self, status: int, text: str) -> None:
        super().__init__(f"status {status}: {text.strip()[:200]}")
        self.status = status
        self.text = text


class Refused(Error):
    """A refusal of the desk: nothing that is kept was changed.

    `number` and `name` are the desk's, `rest` is what stands after the name, `means` tells what the refusal means
    and `todo` what to do.
    """

    number: ClassVar[int] = 0
    means: ClassVar[str] = "a refusal that this client does not know"
    todo: ClassVar[str] = "ask whoever runs the desk"

    def __init_subclass__(cls) -> None:
        cls.means, cls.todo = WORDS[cls.number]

    def __init__(self, line: str) -> None:
        found = _REFUSAL.fullmatch(line)
        self.line = line
        self.name = found[2] if found else type(self).__name__
        self.rest = found[3] if found else ""
        super().__init__(f"{line}: {self.means}. {self.todo[0].upper()}{self.todo[1:]}.")


class UnknownIssue(Refused):
    """Refusal 1: no issue of this CUSIP is kept."""

    number = 1


class UnknownTrade(Refused):
    """Refusal 2: the desk keeps no trade of this reference."""

    number = 2


class Conflict(Refused):
    """Refusal 3: other contents are kept. `version` is the number that is kept, or None for terms of an issue."""

    number = 3

    @property
    def version(self) -> int | None:
        kind, _, number = self.rest.partition(" ")
        return int(number) if kind == "version" else None


class BadTerms(Refused):
    """Refusal 4: the terms fail a test. `fault` is its number, `call` the day of the call at fault, if it is one."""

    number = 4

    @property
    def fault(self) -> int:
        return int(self.rest.partition(" ")[0])

    @property
    def call(self) -> date | None:
        day = self.rest.partition(" ")[2]
        return date.fromisoformat(day) if day else None


class SettleOutside(Refused):
    """Refusal 5: the settlement is before the dated date, or not before maturity or the day of a call that is
    certain."""

    number = 5


class GivenOutOfRange(Refused):
    """Refusal 6: what is given is out of range. `rest` is below, above or price below zero."""

    number = 6


class YieldBelow(Refused):
    """Refusal 7: the yield is too low to print. `rest` is the day of the redemption that decides."""

    number = 7


class YieldAbove(Refused):
    """Refusal 8: every yield is above all that are printed."""

    number = 8


class NoTime(Refused):
    """Refusal 9: no day is left up to the redemption. `rest` is the day of the redemption."""

    number = 9


class Undecided(Refused):
    """Refusal 10: two printed figures are possible. `rest` is the day of the redemption and the boundary."""

    number = 10


class Canceled(Refused):
    """Refusal 11: the trade is canceled."""

    number = 11


class WrongNumber(Refused):
    """Refusal 12: the number of a version, or of terms of an issue, is wrong. `next` is the number that comes next; a
    trade may name terms below it."""

    number = 12

    @property
    def next(self) -> int:
        return int(self.rest)


class VersionsFull(Refused):
    """Refusal 13: the trade has 99 versions, or the issue 99 terms."""

    number = 13


class DeskFull(Refused):
    """Refusal 14: the desk has as many trades as it may have."""

    number = 14


class WrongBasis(Refused):
    """Refusal 15: this kind of issue does not take what is given."""

    number = 15


REFUSALS: dict[int, type[Refused]] = {each.number: each for each in (
    UnknownIssue, UnknownTrade, Conflict, BadTerms, SettleOutside, GivenOutOfRange, YieldBelow, YieldAbove, NoTime,
    Undecided, Canceled, WrongNumber, VersionsFull, DeskFull, WrongBasis)}

_REFUSAL = re.compile(r"REFUSED (\d+) (\w+) ?(.*)")

_AMENDED = re.compile(r"AMENDED [0-9A-Z]{9} (\d+)\n")

_EACH = re.compile(r"EACH (\S+) ([\d.]+) (MATURITY|PAR OPTION|CALLED|CALL) "
                   r"(?:(?:PRICE|YIELD) (-?[\d.]+)|(UNDECIDED (?:price|yield) -?[\d.]+|BELOW|ABOVE|NO TIME))")

_RISK = re.compile(r"^(CURRENT YIELD|DURATION|CONVEXITY|DV01) ([\d.]+)$", re.MULTILINE)

# The names of lines. The longer of two that begin alike comes first.
_NAMES = (
    "CORRECTED CONFIRMATION", "CANCELED CONFIRMATION", "CONFIRMATION", "DESK", "REFERENCE", "BOUGHT", "SOLD", "CUSIP",
    "ISSUE", "COUPON", "DATED", "MATURITY", "BASIS", "SETTLEMENT", "PRICE", "YIELD", "RATE", "REDEMPTION",
    "ACCRUED DAYS", "ACCRUED", "PRINCIPAL", "COMMISSION", "TOTAL")


def _lines(text: str) -> dict[str, str]:
    lines: dict[str, str] = {}
    for line in text.splitlines():
        name = next((each for each in _NAMES if line.startswith(each + " ")), None)
        if name is not None:
            lines[name] = line[len(name) + 1:]
    return lines


def _refusal(line: str) -> Refused | None:
    """The exception of a refusal's line, or None of another.

    >>> error = _refusal("REFUSED 12 WrongNumber 2")
    >>> error.number, error.name, error.next
    (12, 'WrongNumber', 2)
    >>> _refusal("REFUSED 4 BadTerms 7 2034-08-01").call
    datetime.date(2034, 8, 1)
    >>> _refusal("TOTAL 5.10") is None
    True
    """
    found = _REFUSAL.fullmatch(line)
    return REFUSALS.get(int(found[1]), Refused)(line) if found else None


def _figures(lines: dict[str, str]) -> Figures:
    price, _, how = lines["PRICE"].partition(" ")
    day, redeemed, label = lines["REDEMPTION"].split(" ", 2)
    rate = lines["RATE"].split(" ")[0] if "RATE" in lines else None
    given = Basis.RATE if rate is not None else Basis.PRICE if how == "GIVEN" else Basis.YIELD
    return Figures(
        given=given,
        price=Decimal(price),
        yield_=Decimal(lines["YIELD"].split(" ")[0]),
        rate=None if rate is None else Decimal(rate),
        redemption=Redemption(date.fromisoformat(day), Decimal(redeemed), Label(label)),
        accrued_days=int(lines["ACCRUED DAYS"]),
        principal=Decimal(lines["PRINCIPAL"]),
        accrued=Decimal(lines["ACCRUED"]),
        commission=Decimal(lines.get("COMMISSION", "0.00")),
        total=Decimal(lines["TOTAL"]))


def _candidate(line: str) -> Candidate:
    """Reads the line of a redemption that may come.

    >>> _candidate("EACH 2034-01-01 100.000000 PAR OPTION YIELD 3.000").figure
    Decimal('3.000')
    >>> _candidate("EACH 2031-07-01 100.000000 PAR OPTION UNDECIDED yield 4.0005").reason
    'UNDECIDED yield 4.0005'
    """
    found = _EACH.fullmatch(line)
    if not found:
        raise ValueError(f"no redemption: {line!r}")
    day, price, label, figure, reason = found.groups()
    return Candidate(date.fromisoformat(day), Decimal(price), Label(label), Decimal(figure) if figure else None,
                     reason or "")


def _risk(text: str) -> Risk | None:
    """Reads how the price moves with the yield, if the lines have it.

    >>> _risk("TOTAL 108.58\\nCURRENT YIELD 3.684\\nDURATION 8.295\\nCONVEXITY 80.680\\nDV01 0.090074\\n").dv01
    Decimal('0.090074')
    """
    found = {name: Decimal(value) for name, value in _RISK.findall(text)}
    if not found:
        return None
    if not {"DURATION", "CONVEXITY", "DV01"} <= found.keys():
        raise ValueError(f"no risk: {text!r}")
    return Risk(found.get("CURRENT YIELD"), found["DURATION"], found["CONVEXITY"], found["DV01"])


def read_figures(text: str) -> Figures:
    """Reads the lines of figures, those of each redemption, and how the price moves, if they are there.

    >>> figures = read_figures('''PRICE 104.370 COMPUTED
    ... YIELD 3.650 GIVEN
    ... REDEMPTION 2035-08-01 100.000000 PAR OPTION
    ... ACCRUED DAYS 62
    ... PRINCIPAL 104370.00
    ... ACCRUED 710.42
    ... TOTAL 105080.42
    ... ''')
    >>> figures.given.name, figures.price, figures.total
    ('YIELD', Decimal('104.370'), Decimal('105080.42'))
    >>> figures.redemption
    Redemption(day=datetime.date(2035, 8, 1), price=Decimal('100.000000'), label=<Label.PAR_OPTION: 'PAR OPTION'>)
    """
    candidates = tuple(_candidate(line) for line in text.splitlines() if line.startswith("EACH "))
    return replace(_figures(_lines(text)), candidates=candidates, risk=_risk(text))


def read_confirmation(text: str) -> Confirmation:
    """Reads a confirmation.

    >>> read = read_confirmation('''CORRECTED CONFIRMATION 2
    ... DESK RETAIL
    ... REFERENCE H0001
    ... SOLD 30000
    ... CUSIP 990034AA8
    ... ISSUE ELM GROVE UNION SCH DIST 4.125S 2039
    ... COUPON 4.1250000
    ... DATED 2023-08-01
    ... MATURITY 2039-08-01
    ... SETTLEMENT 2024-04-03
    ... PRICE 104.250 GIVEN
    ... YIELD 3.703 COMPUTED
    ... REDEMPTION 2035-08-01 100.000000 PAR OPTION
    ... ACCRUED DAYS 62
    ... PRINCIPAL 31275.00
    ... ACCRUED 213.13
    ... COMMISSION 112.50
    ... TOTAL 31375.63
    ... ''')
    >>> read.act.name, read.number, read.side.name, read.par
    ('CORRECTED', 2, 'SELL', 30000)
    >>> read.figures.accrued_days, read.figures.accrued, read.figures.commission
    (62, Decimal('213.13'), Decimal('112.50'))
    """
    lines = _lines(text)
    act = next(each for each in Act if each.value in lines)
    return Confirmation(
        act=act,
        number=int(lines[act.value]),
        desk=lines["DESK"],
        reference=lines["REFERENCE"],
        side=Side.SELL if "SOLD" in lines else Side.BUY,
        par=int(lines["SOLD"] if "SOLD" in lines else lines["BOUGHT"]),
        cusip=lines["CUSIP"],
        issue=lines["ISSUE"],
        coupon=Decimal(lines["COUPON"]),
        dated=date.fromisoformat(lines["DATED"]),
        maturity=date.fromisoformat(lines["MATURITY"]),
        day_count=DayCount.ACTUAL_365 if "BASIS" in lines else DayCount.THIRTY_360,
        settle=date.fromisoformat(lines["SETTLEMENT"]),
        figures=_figures(lines))


def read_list(text: str) -> list[Listed]:
    """Reads the lines of a desk's list.

    >>> read_list('H0002 2 CANCELED 50000 100.303 3.545\\n')[0].is_live
    False
    >>> read_list('')
    []
    """
    found = []
    for line in text.splitlines():
        reference, number, state, par, price, yields = line.split(" ")
        found.append(Listed(reference, int(number), state == "LIVE", int(par), Decimal(price), Decimal(yields)))
    return found


def read_positions(text: str) -> list[Position]:
    """Reads the lines of a desk's positions.

    >>> read_positions('990010AC4 2 30000 15000 15000 16433.36\\n')[0].money
    Decimal('16433.36')
    """
    found = []
    for line in text.splitlines():
        cusip, trades, bought, sold, par, money = line.split(" ")
        found.append(Position(cusip, int(trades), int(bought), int(sold), int(par), Decimal(money)))
    return found


def _kept_call(text: str) -> Call:
    """Reads a call of a row.

    >>> _kept_call("2030-07-01:100.500000+")
    Call(day=datetime.date(2030, 7, 1), price=Decimal('100.500000'), kind=<CallKind.ON_OR_AFTER: '+'>)
    """
    day, _, price = text.partition(":")
    number = price.rstrip("+!")
    return Call(date.fromisoformat(day), Decimal(number), CallKind(price[len(number):]))


def _kept_terms(fields: list[str]) -> Issue:
    """The terms of a row, without its name and its number."""
    cusip, name, kind, dated, first, maturity, coupon, calls, days = fields
    has_coupon = Kind(kind) in (Kind.PERIODIC, Kind.AT_REDEMPTION)
    return Issue(cusip, name, Kind(kind), date.fromisoformat(dated), date.fromisoformat(maturity),
                 coupon=Decimal(coupon) if has_coupon else None, first=date.fromisoformat(first) if first else None,
                 calls=tuple(_kept_call(call) for call in calls.split()), day_count=DayCount(days))


def read_terms(text: str) -> dict[int, Issue]:
    """Reads the rows of an issue, as an export has them: its terms by their numbers, from 1 on.

    >>> read = read_terms('''issue,990010AC4,FERRY 5S 2030,periodic,2020-01-01,2020-07-01,2030-01-01,5.0000000,,30/360
    ... amend,990010AC4,2,FERRY 5S 2031,periodic,2020-01-01,2020-07-01,2031-01-01,5.0000000,,30/360
    ... ''')
    >>> [(number, issue.name, issue.maturity.year) for number, issue in read.items()]
    [(1, 'FERRY 5S 2030', 2030), (2, 'FERRY 5S 2031', 2031)]
    """
    read: dict[int, Issue] = {}
    for number, (row, cusip, *fields) in enumerate(csv.reader(io.StringIO(text, newline="")), 1):
        name, numbers = ("issue", []) if number == 1 else ("amend", [str(number)])
        if row != name or fields[:len(numbers)] != numbers:
            raise ValueError(f"no terms of an issue: {text!r}")
        read[number] = _kept_terms([cusip, *fields[len(numbers):]])
    if not read:
        raise ValueError(f"no issue: {text!r}")
    return read


def read_issue(text: str) -> Issue:
    """Reads the rows of an issue, as an export has them: its last terms.

    >>> read = read_issue('issue,990081AB7,"MARLOW, NOTES",at-redemption,2024-02-29,,2025-02-28,3.9000000,,actual/365\\n')
    >>> read.name, read.coupon, read.first, read.calls, read.day_count.name
    ('MARLOW, NOTES', Decimal('3.9000000'), None, (), 'ACTUAL_365')
    """
    return list(read_terms(text).values())[-1]


def export(store: Path, desk: str = "", *, program: Path = "muni") -> str:
    """The rows of what a store keeps, or of one desk with the issues that it names. `muni load` reads them again.

    It starts the program, which must be on the path if it is not named. No server may have the store open.
    """
    words = ["export", f"--store={os.fspath(store)}", *([f"--desk={_desk(desk)}"] if desk else [])]
    return ran(program, *words).decode()



def _amount(name: str, value: Amount, places: int, least: str, most: str) -> str:
    """The text of an amount, or an exception if it is out of the range or has too many decimals.

    >>> _amount("value", Decimal("104.2500"), 6, "0", "999.999999"), _amount("value", Decimal("1E+2"), 6, "0", "999")
    ('104.25', '100')
    >>> _amount("fee", Decimal("0.0005"), 3, "0", "10")
    Traceback (most recent call last):
    ...
    ValueError: fee: 0 to 10 with up to 3 decimals, not 0.0005
    >>> _amount("value", 104.25, 6, "0", "999.999999")
    Traceback (most recent call last):
    ...
    TypeError: value: a Decimal or an int, not a float
    """
    if isinstance(value, bool) or not isinstance(value, (int, Decimal)):
        raise TypeError(f"{name}: a Decimal or an int, not a {type(value).__name__}")
    number = Decimal(value)
    text = format(number, "f")
    if "." in text:
        text = text.rstrip("0").rstrip(".")
    decimals = len(text.partition(".")[2])
    if not number.is_finite() or not Decimal(least) <= number <= Decimal(most) or decimals > places:
        raise ValueError(f"{name}: {least} to {most} with up to {places} decimals, not {value}")
    return "0" if number == 0 else text


def _formed(name: str, value: str, form: str) -> str:
    """The text itself, or an exception if it has not the form.

    >>> _formed("cusip", "990034AA", "[0-9A-Z]{9}")
    Traceback (most recent call last):
    ...
    ValueError: cusip: [0-9A-Z]{9}, not '990034AA'
    """
    if not re.fullmatch(form, value, re.ASCII):
        raise ValueError(f"{name}: {form}, not {value!r}")
    return value


def _cusip(value: str) -> str:
    return _formed("cusip", value, "[0-9A-Z]{9}")


def _desk(value: str) -> str:
    return _formed("desk", value, "[A-Z0-9]{1,16}")


def _reference(value: str) -> str:
    return _formed("reference", value, "[A-Za-z0-9]{1,20}")


def _number(value: int) -> str:
    return _amount("number", value, 0, "0", "999999999")


def _day(name: str, value: date) -> str:
    if not date(1900, 1, 1) <= value <= date(2199, 12, 31):
        raise ValueError(f"{name}: 1900-01-01 to 2199-12-31, not {value}")
    return value.strftime("%Y-%m-%d")


def _given(cusip: str, par: int, settle: date, basis: Basis, value: Amount) -> dict[str, Any]:
    is_price = basis is Basis.PRICE
    text = _amount("value", value, 6 if is_price else 4, "0" if is_price else "-99.9999",
                   "999.999999" if is_price else "999.9999")
    return {"cusip": _cusip(cusip), "par": _amount("par", par, 0, "1", "1000000000"), "settle": _day("settle", settle),
            "basis": basis.value, "value": text}


def _trade(trade: Trade) -> dict[str, Any]:
    """The body of a trade. The desk is named first and once, as what stands before the desk may ask.

    >>> body = _trade(Trade("RETAIL", "H1", "990034AA8", Side.SELL, 25000, date(2024, 4, 3), Basis.PRICE,
    ...                     Decimal("104.2500"), Decimal("0.375")))
    >>> print(json.dumps(body))
    {"desk": "RETAIL", "reference": "H1", "side": "sell", "cusip": "990034AA8", "par": "25000", \
"settle": "2024-04-03", "basis": "price", "value": "104.25", "fee": "0.375"}
    """
    return {"desk": _desk(trade.desk), "reference": _reference(trade.reference), "side": trade.side.value,
            **_given(trade.cusip, trade.par, trade.settle, trade.basis, trade.value),
            "fee": _amount("fee", trade.fee, 3, "0", "10"),
            **({} if trade.issue is None else {"issue": _amount("issue", trade.issue, 0, "1", "99")})}


def _issue(issue: Issue) -> dict[str, Any]:
    """The body of an issue.

    >>> note = Issue("990081AB7", "MARLOW NOTES", Kind.AT_REDEMPTION, date(2024, 2, 29), date(2025, 2, 28),
    ...              coupon=Decimal("3.9"), day_count=DayCount.ACTUAL_365)
    >>> print(json.dumps(_issue(note)))
    {"cusip": "990081AB7", "name": "MARLOW NOTES", "kind": "at-redemption", "dated": "2024-02-29", \
"maturity": "2025-02-28", "days": "actual/365", "coupon": "3.9"}
    """
    body: dict[str, Any] = {
        "cusip": _cusip(issue.cusip), "name": _formed("name", issue.name, "[ -~]{1,60}"), "kind": issue.kind.value,
        "dated": _day("dated", issue.dated), "maturity": _day("maturity", issue.maturity),
        "days": issue.day_count.value}
    if (issue.first is not None) != (issue.kind is Kind.PERIODIC):
        raise ValueError("first: a periodic issue has a first coupon, and no other has")
    if issue.first is not None:
        body["first"] = _day("first", issue.first)
    if issue.coupon is not None:
        body["coupon"] = _amount("coupon", issue.coupon, 7, "0", "30")
    elif issue.kind in (Kind.PERIODIC, Kind.AT_REDEMPTION):
        raise ValueError("coupon: missing")
    if len(issue.calls) > 40:
        raise ValueError(f"calls: up to 40, not {len(issue.calls)}")
    if issue.calls:
        body["calls"] = [_call(call) for call in issue.calls]
    return body


def _call(call: Call) -> dict[str, str]:
    """A call as the body of an issue has it: the mark of its kind stands after its price.

    >>> _call(Call(date(2030, 7, 1), Decimal("100.50"), CallKind.ON_OR_AFTER))
    {'date': '2030-07-01', 'price': '100.5+'}
    """
    return {"date": _day("call", call.day),
            "price": _amount("call", call.price, 6, "0", "999.999999") + call.kind.value}


class Client:
    """Asks a desk, each request over a connection of its own, so that threads may share a client.

    `url` is that of the desk itself, or of a proxy before it, which may want a user and a password. `tries` is how
    often a request is sent before Unanswered is raised, and `pause` the seconds before the second time, which double
    from then on. `context` is for https: by default certificates are checked.

    A value that has not the form or the range of its member is a ValueError or a TypeError before anything is sent,
    since the desk's status 400 does not say which member is wrong.

    >>> Client("http://127.0.0.1:1").quote("990034AA8", 0, date(2024, 4, 3), Basis.YIELD, 4)
    Traceback (most recent call last):
    ...
    ValueError: par: 1 to 1000000000 with up to 0 decimals, not 0
    """

    # Statuses of what stands before the desk, and of a store that failed: the same request may go well later.
    LATER: ClassVar[tuple[int, ...]] = (429, 502, 503, 504)

    def __init__(self, url: str = "http://127.0.0.1:8735", *, user: str | None = None, password: str = "",
                 context: ssl.SSLContext | None = None, timeout: float = 30.0, tries: int = 6,
                 pause: float = 0.1) -> None:
        parts = urllib.parse.urlsplit(url)
        if parts.scheme not in ("http", "https") or not parts.hostname:
            raise ValueError(f"url: http://HOST:PORT or https://HOST, not {url!r}")
        self._is_secure = parts.scheme == "https"
        self._host = parts.hostname
        self._port = parts.port
        self._context = context
        self._timeout = timeout
        self._tries = tries
        self._pause = pause
        self._fields: dict[str, str] = {}
        if user is not None:
            word = base64.b64encode(f"{user}:{password}".encode()).decode()
            self._fields["Authorization"] = "Basic " + word

    def add_issue(self, issue: Issue) -> str:
        """Has an issue kept, and gives its CUSIP. Its terms have the number 1, and stay; `amend` adds others."""
        text = self._ask("POST", "/issues", _issue(issue))
        if not text.startswith("ADDED "):
            raise Status(200, text)
        return text[6:].rstrip("\n")

    def amend(self, issue: Issue, number: int) -> int:
        """Has the next terms of an issue kept, and gives their number.

        They are all terms anew, those that change and those that stay. `number` is the one after that of the terms that
        were seen, from 2 to 99. Versions of trades that are kept stay as they were figured.
        """
        body = {**_issue(issue), "number": _amount("number", number, 0, "1", "99")}
        text = self._ask("POST", "/amendments", body)
        found = _AMENDED.fullmatch(text)
        if not found:
            raise Status(200, text)
        return int(found[1])

    def quote(self, cusip: str, par: int, settle: date, basis: Basis, value: Amount, each: bool = False,
              risk: bool = False) -> Figures:
        """Figures of an issue that is kept; nothing is kept by it. A quote knows no commission. With `each` the figures
        have every redemption that may come as one of their `candidates`, and with `risk` how the price moves with the
        yield as their `risk`."""
        wanted = {name: True for name, is_wanted in (("each", each), ("risk", risk)) if is_wanted}
        return self._figures(self._ask("POST", "/quotes", {**_given(cusip, par, settle, basis, value), **wanted}))

    def check(self, row: Mapping[str, Field], desk: str | None = None) -> Checked:
        """What is said of figures that another firm printed; nothing is kept by it.

        The row has the columns of a file of `muni check`, as docs/FORMATS.md has them: what was traded, what was
        printed, and for an issue that is not kept its terms. With a desk `reference` names a trade that it keeps: what
        the row states of it is compared with what is kept, and the figures with those of the trade. A field is a Decimal, an int, a text, a day or an Enum of the client;
        None, as a column that is left out, is not stated. Another column is a ValueError, and a float a TypeError.
        """
        named = {} if desk is None else {"desk": _desk(desk)}
        text = self._ask("POST", "/checks", {**named, **members(row)})
        try:
            return read_checked(text)
        except (ArithmeticError, IndexError, KeyError, ValueError) as error:
            raise Status(200, text) from error

    def enter(self, trade: Trade) -> Confirmation:
        """Enters a trade. One that was entered before, with equal contents, is answered as the first time."""
        return self._confirmation(self._ask("POST", "/trades", _trade(trade)))

    def correct(self, trade: Trade, number: int) -> Confirmation:
        """Corrects a trade; `number` is that of the new version, the one after the version that was seen. Without
        `trade.issue` it is figured by the last terms of the issue, also if the version before was not."""
        return self._confirmation(self._ask("POST", "/corrections", {**_trade(trade), "number": _number(number)}))

    def cancel(self, desk: str, reference: str, number: int) -> Confirmation:
        """Cancels a trade; `number` is as of `correct`. Nothing follows a cancel."""
        body = {"desk": _desk(desk), "reference": _reference(reference), "number": _number(number)}
        return self._confirmation(self._ask("POST", "/cancels", body))

    def issue(self, cusip: str) -> Issue:
        """The last terms of an issue that is kept."""
        return list(self.terms(cusip).values())[-1]

    def terms(self, cusip: str) -> dict[int, Issue]:
        """All terms of an issue that is kept, by their numbers from 1 on."""
        text = self._ask("GET", f"/issues/{_cusip(cusip)}")
        try:
            return read_terms(text)
        except (ValueError, csv.Error) as error:
            raise Status(200, text) from error

    def confirmation(self, desk: str, reference: str) -> Confirmation:
        """The confirmation of the last version of a trade."""
        return self._confirmation(self._ask("GET", f"/trades/{_desk(desk)}/{_reference(reference)}"))

    def version(self, desk: str, reference: str, number: int) -> Confirmation:
        """The confirmation of a version of a trade, by its number from 1 to 100."""
        place = f"{_desk(desk)}/{_reference(reference)}/{_amount('number', number, 0, '1', '100')}"
        return self._confirmation(self._ask("GET", f"/trades/{place}"))

    def positions(self, desk: str) -> list[Position]:
        """The positions of a desk, by CUSIP. A desk without live trades has none."""
        return read_positions(self._ask("GET", f"/positions/{_desk(desk)}"))

    def latest(self, desk: str) -> list[Listed]:
        """The last 50 trades of a desk by their references, in that order."""
        return read_list(self._ask("GET", f"/latest/{_desk(desk)}"))

    def page(self, desk: str, after: str = "") -> list[Listed]:
        """The first 50 trades of a desk by their references, or the first 50 after a reference."""
        return read_list(self._ask("GET", f"/lists/{_desk(desk)}" + (f"/{_reference(after)}" if after else "")))

    def trades(self, desk: str, after: str = "") -> Iterator[Listed]:
        """All trades of a desk by their references, or those after a reference, page by page as they are used."""
        while True:
            page = self.page(desk, after)
            yield from page
            if len(page) < PAGE:
                return
            after = page[-1].reference

    def _figures(self, text: str) -> Figures:
        try:
            return read_figures(text)
        except (KeyError, ValueError) as error:
            raise Status(200, text) from error

    def _confirmation(self, text: str) -> Confirmation:
        try:
            return read_confirmation(text)
        except (KeyError, ValueError, StopIteration) as error:
            raise Status(200, text) from error

    def _ask(self, method: str, path: str, body: dict[str, Any] | None = None) -> str:
        """The text of a good answer. What does not come, comes cut or may go well later is asked for again."""
        data = None if body is None else json.dumps(body).encode("ascii")
        failure: Exception | None = None
        for attempt in range(self._tries):
            if attempt:
                time.sleep(self._pause * 2 ** (attempt - 1))
            try:
                status, text = self._send(method, path, data)
            except ssl.SSLCertVerificationError:
                raise
            except (OSError, http.client.HTTPException) as error:
                failure = error
                continue
            if status in self.LATER:
                failure = Status(status, text)
                continue
            if status == 200:
                return text
            raise _refusal(text.rstrip("\n")) or Status(status, text)
        if isinstance(failure, Status):
            raise failure
        raise Unanswered(f"no answer to {method} {path} in {self._tries} tries; sent again it acts once") from failure

    def _send(self, method: str, path: str, data: bytes | None) -> tuple[int, str]:
        link: http.client.HTTPConnection
        if self._is_secure:
            link = http.client.HTTPSConnection(self._host, self._port, timeout=self._timeout, context=self._context)
        else:
            link = http.client.HTTPConnection(self._host, self._port, timeout=self._timeout)
        try:
            fields = {**self._fields, "Connection": "close"}
            if data is not None:
                fields["Content-Type"] = "application/json"
            link.request(method, path, data, fields)
            answer = link.getresponse()
            came = answer.read()
        finally:
            link.close()
        # http.client takes a head that is cut for a whole one, so the length is looked at here.
        length = answer.getheader("Content-Length", "")
        is_whole = length == str(len(came)) or answer.chunked
        if not is_whole or (answer.status == 200 and came and not came.endswith(b"\n")):
            raise http.client.IncompleteRead(came)
        return answer.status, came.decode("ascii", "replace")
