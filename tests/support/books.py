"""The trades that a program keeps in a store, as its commands tell them."""
from __future__ import annotations

import contextlib
import sqlite3
from typing import NamedTuple

import pytest

from support.exported import Row, text_of
from support.program import Program, Said
from support.stores import Store

ISSUE = "issue,123456AA3,RIVERTON WATER 5S 2025,periodic,2020-01-01,2020-07-01,2025-01-01,5,\n"

# The same issue with a wrong coupon, the rows of another desk before it is mended, and the row that mends it.
WRONG_ISSUE = ISSUE.replace(",5,", ",4,")
HELD = """trade,HELD,H1,123456AA3,buy,25000,2024-04-01,yield,4
trade,HELD,H2,123456AA3,sell,25000,2024-04-01,yield,4
correct,HELD,H1,2,123456AA3,buy,5000,2024-04-01,yield,4
cancel,HELD,H2,2
"""
MENDED = ISSUE.replace("issue,123456AA3,", "amend,123456AA3,2,")

# What a report says of a row that was taken.
TAKEN = (b"added", b"amended", b"confirmed")

# What a confirmation of each trade of `trade` has.
TOTAL = "TOTAL 25493.75"


def trade(reference: str) -> str:
    """The row of a trade of ALPHA in the issue."""
    return f"trade,ALPHA,{reference},123456AA3,buy,25000,2024-04-01,yield,4\n"


def trades(count: int, first: int = 0) -> str:
    """The rows of the issue, whose coupon was mended, and of so many trades. Another desk has a trade by the wrong
    coupon that is corrected and one that is canceled."""
    return WRONG_ISSUE + HELD + MENDED + "".join(trade(f"T{each:05d}") for each in range(first, first + count))


class Book(NamedTuple):
    """A program over a store."""

    muni: Program
    store: Store

    def said(self, command: str, *words: str, rows: bytes | str = b"") -> Said:
        """How a command over the store ends."""
        return self.muni.run(command, self.store.word, *words, rows=rows)

    def with_rows(self, rows: list[Row]) -> Book:
        """The book after an import, of which every row was taken."""
        report = self.report(text_of(rows)).splitlines()
        assert all(line.split(b",")[1] in TAKEN for line in report) and len(report) == len(rows)
        return self

    def report(self, rows: bytes | str) -> bytes:
        """What an import writes that ends well."""
        said = self.said("import", rows=rows)
        assert said.status == 0
        return said.output

    def confirmed(self, reference: str) -> Said:
        return self.said("confirm", "--desk=ALPHA", f"--ref={reference}")

    def has(self, reference: str) -> bool:
        """Whether a trade of `trade` is kept. A store that is not there is not made."""
        if not self.store.file.exists():
            return False
        said = self.confirmed(reference)
        return said.status == 0 and TOTAL in said.text.splitlines()

    def held(self) -> int | None:
        """How many trades of ALPHA in the issue are live, or None if positions fail."""
        said = self.said("positions", "--desk=ALPHA")
        if said.status != 0:
            return None
        return int(said.text.split()[1]) if said.text else 0

    def sql(self, statement: str) -> list[tuple[object, ...]]:
        """What sqlite answers to statements over the file of the store: the rows of the last one."""
        return sql(self.store.path, statement)


def sql(path: object, statements: str) -> list[tuple[object, ...]]:
    """What sqlite answers to statements over a file, each of which ends with a line: the rows of the last one."""
    needs_strict_tables()
    rows: list[tuple[object, ...]] = []
    with contextlib.closing(sqlite3.connect(path, timeout=0, isolation_level=None)) as database:
        for statement in statements.split(";\n"):
            rows = database.execute(statement).fetchall()
    return rows


def needs_strict_tables() -> None:
    """Skips the test if the sqlite of Python cannot read the tables of a store."""
    if sqlite3.sqlite_version_info < (3, 37):
        pytest.skip(f"Python has SQLite {sqlite3.sqlite_version}, which reads no STRICT tables")
