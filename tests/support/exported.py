"""Books with issues of each kind, and what an export and a list have of them: by the rows that were put in, which
Python's csv and Decimal write again, and by the confirmation of each trade."""
from __future__ import annotations

import csv
import io
import random
from collections.abc import Iterable
from decimal import Decimal

KINDS = ("periodic", "zero", "at-redemption", "discount")
DESKS = ("ALPHA", "ALPHA2", "9Z")
DIGITS = "0123456789ABCDEFGHIJKLMNOPQRSTUVWXYZ"
PLAIN_NAMES = "AB cd 09 ,,\"\"'=+-@&;"
COLUMNS = ("reference,version,state,cusip,side,par,settlement,basis,value,fee,price,yield,redemption,redemption_price,"
           "redemption_label,days,principal,accrued,commission,total").split(",")

Row = list[str]


def text_of(rows: Iterable[Row], end: str = "\n") -> bytes:
    written = io.StringIO(newline="")
    for row in rows:
        # Python leaves a field with another line end than this one without quotes.
        has_line_end = any(each in field for field in row for each in "\r\n")
        csv.writer(written, lineterminator=end,
                   quoting=csv.QUOTE_ALL if has_line_end else csv.QUOTE_MINIMAL).writerow(row)
    return written.getvalue().encode()


# Books

def cusip(place: int) -> str:
    """The CUSIP with this number among those that are left to users, with its check digit."""
    eight = f"990{place:05d}"
    doubled = [DIGITS.index(each) * (1 + at % 2) for at, each in enumerate(eight)]
    return eight + str(-sum(each // 10 + each % 10 for each in doubled) % 10)


def issue(source: random.Random, place: int, names: str = PLAIN_NAMES) -> Row:
    """An issue that any settlement of `asked` suits, if its name does."""
    kind = KINDS[place % len(KINDS)]
    is_note = kind in ("at-redemption", "discount")
    dated, first = ("2024-01-15" if is_note else "2020-01-01"), ("2020-07-01" if kind == "periodic" else "")
    maturity = f"2025-0{source.randint(1, 9)}-28" if is_note else f"{source.randint(2040, 2060)}-07-01"
    coupon = "" if kind in ("zero", "discount") else f"{source.randint(1, 9)}.{source.choice(['0', '25', '1234567'])}"
    days = source.choice(["", "30/360", "actual/365"] if is_note else ["", "30/360"])
    name = "".join(source.choice(names) for _ in range(source.choice([1, 8, 60])))
    return ["issue", cusip(place), name, kind, dated, first, maturity, coupon, "" if is_note else calls(source), days]


def amendment(source: random.Random, place: int, number: int = 2, names: str = PLAIN_NAMES) -> Row:
    """Other terms of that issue, under a number after the first."""
    _, number_of_issue, *terms = issue(source, place, names)
    return ["amend", number_of_issue, str(number), *terms]


def calls(source: random.Random) -> str:
    """None, or several whose prices fall, of which the last may say that the issue has been called."""
    found = [f"{2026 + 2 * each}-01-01:{104 - each}{source.choice(['', '.5', '.123456'])}{source.choice(['', '+'])}"
             for each in range(source.choice([0, 0, 1, 4]))]
    if found and source.randrange(4) == 0:
        found[-1] = found[-1].rstrip("+") + "!"
    return " ".join(found)


def asked(source: random.Random, traded: Row) -> Row:
    """What a trade in an issue asks for."""
    basis = source.choice(["price", "rate" if traded[3] == "discount" else "yield"])
    decimals = source.choice(["", ".5", ".25", ".1234", ".123456" if basis == "price" else ".0001"])
    value = (str(source.randint(97, 103)) if basis == "price" else str(source.randint(1, 9))) + decimals
    fee = source.choice(["", "0", "0.5", "0.125"]) if basis == "price" else source.choice(["", "0"])
    return [traded[1], source.choice(["buy", "sell"]), str(source.choice([1, 5000, 25000, 1_000_000_000])),
            f"2024-0{source.randint(2, 6)}-{source.randint(1, 28):02d}", basis, value, fee]


def trade(source: random.Random, issues: list[Row], reference: str, corrections: int, is_canceled: bool) -> list[Row]:
    """The rows of a trade: its entry, so many corrections, and perhaps a cancel."""
    key = [source.choice(DESKS), reference]
    rows = [["trade", *key, *asked(source, source.choice(issues))]]
    rows += [["correct", *key, str(2 + each), *asked(source, source.choice(issues))] for each in range(corrections)]
    return rows + ([["cancel", *key, str(2 + corrections)]] if is_canceled else [])


def held(source: random.Random, issues: list[Row]) -> list[Row]:
    """A small book over issues that `issue` gave from the place 0 on: a third of them are amended once and one twice,
    after a trade of each. Of the trades the first is canceled, the second corrected, and the others stand."""
    again = range(0, len(issues), 3)
    entered = [trade(source, [issues[place]], f"T{at}", at == 1, at == 0) for at, place in enumerate(again)]
    later = [amendment(source, place) for place in again] + [amendment(source, 0, 3)]
    return issues + [row for rows in entered for row in rows] + later


def references(source: random.Random, count: int) -> list[str]:
    """References whose order by bytes is not that of their numbers."""
    found = [f"{'TtA9'[each % 4]}{each}" for each in range(count)]
    source.shuffle(found)
    return found


def book(source: random.Random, issues: int, trades: int, names: str = PLAIN_NAMES) -> list[Row]:
    """The rows of a book, the issues in any order and then the trades, among which some issues are amended."""
    added = [issue(source, place, names) for place in range(issues)]
    later = [amendment(source, place, number, names) for place in range(issues)
             for number in range(2, 3 if place == 0 else source.choice([2, 2, 3, 5]))]
    source.shuffle(added)
    entered = [trade(source, added, reference, source.choice([0, 0, 0, 1, 4, 12]), source.randrange(5) == 0)
               for reference in references(source, trades)]
    return added + among(source, [row for rows in entered for row in rows], later)


def among(source: random.Random, rows: list[Row], others: list[Row]) -> list[Row]:
    """The rows with others among them, both in their order."""
    is_other = [False] * len(rows) + [True] * len(others)
    source.shuffle(is_other)
    left, right = iter(rows), iter(others)
    return [next(right if each else left) for each in is_other]


# What is kept of them

def fixed(text: str, places: int) -> str:
    """A number with so many decimals. Zero has no sign."""
    return f"{Decimal(text or '0') + 0:.{places}f}"


def kept_issue(row: Row) -> Row:
    head = 3 if row[0] == "amend" else 2
    name, kind, dated, first, maturity, coupon, schedule, *days = row[head:]
    written = [kept_call(each) for each in schedule.split()]
    return [*row[:head], name, kind, dated, first, maturity, fixed(coupon, 7), " ".join(written),
            "".join(days) or "30/360"]


def kept_call(text: str) -> str:
    day, price = text.split(":")
    return f"{day}:{fixed(price.rstrip('+!'), 6)}{price[-1] if price[-1] in '+!' else ''}"


def kept_asked(fields: Row) -> Row:
    number, side, par, settle, basis, value, *fee = fields
    return [number, side, str(int(par)), settle, basis, fixed(value, 6 if basis == "price" else 4),
            fixed("".join(fee), 3)]


class Kept:
    """What a store keeps of rows that were imported, by the report on them."""

    def __init__(self) -> None:
        # All terms of each issue, and the versions of each trade, with the number of the terms that each goes by.
        self.issues: dict[str, list[Row]] = {}
        self.desks: dict[str, dict[str, list[Row]]] = {}
        self.terms: dict[tuple[str, str, int], int] = {}

    def take(self, rows: list[Row], report: bytes) -> None:
        lines = report.decode().splitlines()
        assert len(lines) == len(rows)
        for row, (_, came, *rest) in zip(rows, csv.reader(lines)):
            # A row that is sent again adds no terms and no version.
            if came in ("added", "amended"):
                terms = self.issues.setdefault(row[1], [])
                if int("".join(rest[1:]) or 1) == len(terms) + 1:
                    terms.append(kept_issue(row))
            elif came == "confirmed":
                versions = self.desks.setdefault(row[1], {}).setdefault(row[2], [])
                if int(rest[1]) == len(versions) + 1:
                    versions.append(self.version(row))
                    if row[0] != "cancel":
                        self.terms[row[1], row[2], len(versions)] = len(self.issues[versions[-1][-7]])

    @staticmethod
    def version(row: Row) -> Row:
        fields = {"trade": 3, "correct": 4, "cancel": 4}[row[0]]
        return row[:fields] + (kept_asked(row[fields:]) if row[0] != "cancel" else [])

    def trades(self, desk: str) -> list[tuple[str, list[Row]]]:
        """The trades of a desk in the order of their references, each with its versions."""
        return sorted(self.desks.get(desk, {}).items())

    def last_asked(self, desk: str, reference: str) -> Row:
        """What the last version of a trade asks for, which a cancel leaves as it was."""
        return next(row[-7:] for row in reversed(self.desks[desk][reference]) if row[0] != "cancel")

    def export(self, desk: str = "", is_issues: bool = False) -> bytes:
        desks = [] if is_issues else [desk] if desk else sorted(self.desks)
        versions = [(each, reference, number, row) for each in desks for reference, rows in self.trades(each)
                    for number, row in enumerate(rows, 1)]
        named = {row[-7] for *_, row in versions if row[0] != "cancel"} if desk else set(self.issues)
        return text_of([terms for number in sorted(named) for terms in self.issues[number]]
                       + [row + self.earlier_terms(*key, row) for *key, row in versions])

    def earlier_terms(self, desk: str, reference: str, number: int, row: Row) -> Row:
        """The number of the terms that a version goes by, if they are not the last ones. A cancel names none."""
        if row[0] == "cancel" or self.terms[desk, reference, number] == len(self.issues[row[-7]]):
            return []
        return [str(self.terms[desk, reference, number])]

    def listing(self, desk: str, confirmations: dict[str, str]) -> bytes:
        """The list of a desk, by the confirmation of each of its trades."""
        return text_of([COLUMNS, *(listed(confirmations[reference], self.last_asked(desk, reference))
                                   for reference, _ in self.trades(desk))])


def listed(confirmation: str, asked_for: Row) -> Row:
    """The line of a list on a trade: what was asked for as it was put in, and the rest as its confirmation has it."""
    head, *rest = confirmation.splitlines()
    lines = dict(line.rsplit(" ", 1) if line.startswith("ACCRUED DAYS") else line.split(" ", 1) for line in rest)
    redemption, price, label = lines["REDEMPTION"].split(" ", 2)
    state = "CANCELED" if head.startswith("CANCELED") else "LIVE"
    return [lines["REFERENCE"], head.rsplit(" ", 1)[1], state, *asked_for, lines["PRICE"].split()[0],
            lines["YIELD"].split()[0], redemption, price, label, lines["ACCRUED DAYS"], lines["PRINCIPAL"],
            lines["ACCRUED"], lines.get("COMMISSION", "0.00"), lines["TOTAL"]]
