"""Figures that other firms print, as rows of a check: right, by another formula, or wrong."""
from __future__ import annotations

import csv
import dataclasses
import io
import random

from calculator.book import Book
from calculator.checked import OF_FIGURES, SHOWN, STATED, texts_of
from calculator.figures import Figures, answers
from calculator.readings import Reading, figures_by
from calculator.rows import Columns
from calculator.rows import asked as asked_of
from calculator.rows import issue as issue_of

from support.exported import Row, cusip

ASKED = ("cusip", "side", "par", "settle", "basis", "value", "fee")
TERMS = ("kind", "dated", "first", "maturity", "coupon", "calls", "day_count")
# Terms over which each formula gives figures of its own for some settlement from March to June of 2025.
ISSUES = (
    ("periodic", "2022-01-01", "2022-07-01", "2044-01-01", "4", "2030-01-01:102 2034-01-01:100+", ""),
    ("periodic", "2015-01-01", "2015-07-01", "2025-07-01", "5", "", ""),
    ("periodic", "2019-02-28", "2019-08-28", "2031-02-28", "4.5", "", ""),
    ("periodic", "2025-01-15", "2025-10-01", "2035-10-01", "6", "", "30/360"),
    ("zero", "2020-01-01", "", "2040-01-01", "", "2035-01-01:98.5", ""),
    ("at-redemption", "2025-01-31", "", "2025-12-30", "3.9", "", ""),
    ("discount", "2025-01-15", "", "2025-12-31", "", "", "actual/365"),
    ("at-redemption", "2025-02-28", "", "2026-01-31", "4", "", "actual/365"),
)
# The places there of those over which a formula gives them often.
SUITED = {Reading.MATURITY: (0, 4), Reading.FIRST_CALL: (0,), Reading.COMPOUNDED: (1,), Reading.FEBRUARY: (2,),
          Reading.REGULAR: (3,)}


@dataclasses.dataclass(frozen=True)
class Printed:
    """What a firm prints of a trade: what was traded, the terms of the issue, and the figures by their columns."""

    asked: Row
    terms: Row
    figures: dict[str, str]

    def field(self, column: str) -> str:
        return (dict(zip(ASKED, self.asked)) | dict(zip(TERMS, self.terms)) | self.figures).get(column, "")


def issues(source: random.Random, count: int) -> list[Row]:
    """Rows of issues, whose coupons differ."""
    found = []
    for place in range(count):
        kind, dated, first, maturity, coupon, *rest = ISSUES[place % len(ISSUES)]
        coupon = coupon and f"{coupon.split('.')[0]}.{source.randint(1, 999):03d}"
        found.append(["issue", cusip(place), f"ISSUE {place}", kind, dated, first, maturity, coupon, *rest])
    return found


def traded(source: random.Random, issue: Row) -> Row:
    """What is traded in an issue."""
    basis = source.choice(["price", "rate" if issue[3] == "discount" else "yield"])
    value = (f"{source.randint(97, 103)}.{source.choice(['0', '25', '1234'])}" if basis == "price"
             else f"{source.randint(2, 6)}.{source.randint(0, 9999):04d}")
    fee = source.choice(["", "0", "0.5", "0.125"]) if basis == "price" else ""
    settlement = f"2025-0{source.randint(3, 6)}-{source.choice(range(1, 31)):02d}"
    return [issue[1], source.choice(["buy", "sell"]), str(source.choice([1, 5000, 25000, 1_000_000_000])), settlement,
            basis, value, fee]


def shown(figures: Figures) -> dict[str, str]:
    return {column: SHOWN[column](getattr(figures, OF_FIGURES.get(column, column))) for column in STATED}


def printed(source: random.Random, issue: Row, reading: Reading | None) -> Printed | None:
    """The figures of some trade by another formula, if they are not those of the rule, or by the rule."""
    wanted = traded(source, issue)
    kept, asked = issue_of(Columns(issue, 2), issue[1]), asked_of(Columns(["trade", *wanted]))
    ours = answers(kept, asked).exact
    if not isinstance(ours, Figures):
        return None
    theirs = ours if reading is None else figures_by(reading, kept, asked, ours)
    if theirs is None or (reading is not None and theirs == ours):
        return None
    return Printed(wanted, issue[3:], shown(theirs))


def some(source: random.Random, issues: list[Row], reading: Reading | None) -> Printed:
    suited = SUITED.get(reading, range(len(ISSUES)))
    while True:
        place = source.choice(suited) + len(ISSUES) * source.randrange(len(issues) // len(ISSUES))
        found = printed(source, issues[place], reading)
        if found is not None:
            return found


def noisy(source: random.Random, row: Printed) -> Printed:
    """With one figure that no formula gives, or that is not stated, or that does not read."""
    column = source.choice(STATED)
    wrong = source.choice(["", "0", "1", "9.99", "2031-01-01", "x", "1e3"])
    return dataclasses.replace(row, figures=row.figures | {column: wrong})


def rows(source: random.Random, issues: list[Row], count: int) -> list[Printed]:
    """So many rows over as many issues of each terms, of which some are right, and each formula has its share."""
    found = []
    for place in range(count):
        row = some(source, issues, [None, *Reading][place % (len(Reading) + 1)])
        found.append(noisy(source, row) if source.randrange(6) == 0 else row)
    return found


def whole_trades(book: Book, desk: str) -> list[dict[str, str]]:
    """All that can be stated of each trade of a desk, as it is kept."""
    found = []
    for reference, versions in sorted(book.desks[desk].items()):
        last = versions[-1]
        issue = book.terms(last.asked.cusip)[last.terms - 1]
        found.append({"reference": reference} | texts_of(last.asked, issue) | shown(last.figures))
    return found


def parts_of(source: random.Random, whole: list[dict[str, str]]) -> list[dict[str, str]]:
    """A part of what can be stated of each trade, of some of them with a field of another, and some of them again."""
    found = []
    for row in whole:
        parts = [column for column in (*ASKED, *STATED) if source.randrange(2)] + [*TERMS] * source.randrange(2)
        part = {column: row[column] for column in ("reference", *parts)}
        if source.randrange(3) == 0:
            column = source.choice([*ASKED, *STATED, *TERMS])
            part[column] = source.choice(whole)[column]
        found += [part] * (1 + (source.randrange(6) == 0))
    source.shuffle(found)
    return found


def text_of(columns: list[str], printed: list[Printed]) -> bytes:
    """The rows as a file with these columns."""
    return text_of_fields(columns, [{column: row.field(column) for column in columns} for row in printed])


def text_of_fields(columns: list[str], rows: list[dict[str, str]]) -> bytes:
    """The same of rows by their columns, of which some may be missing, and others are left out."""
    written = io.StringIO(newline="")
    writer = csv.DictWriter(written, columns, restval="", extrasaction="ignore", lineterminator="\n")
    writer.writeheader()
    writer.writerows(rows)
    return written.getvalue().encode()


def listed(text: str, **change: str) -> bytes:
    """A file of all that a list has of the live trades of a desk, perhaps with another field in each row."""
    live = [{"settle": row["settlement"]} | row | change for row in csv.DictReader(io.StringIO(text))
            if row["state"] == "LIVE"]
    return text_of_fields(["reference", *ASKED, *STATED], live)
