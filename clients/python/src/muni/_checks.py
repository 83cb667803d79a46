"""The figures that another firm printed, a row or a frame of pandas: which are right, and what the others are by.

pandas is imported when a frame is asked about, so the rest of the client does without it.
"""
from __future__ import annotations

import csv
import enum
import importlib
import io
import os
import re
from collections import Counter
from collections.abc import Callable, Mapping, Sequence
from dataclasses import dataclass
from datetime import date
from decimal import Decimal
from typing import Any, Union

from ._frames import Frame, text_of, texts_of
from ._program import Ended, Error, Path, pieces

# A field of a row. None is not stated.
Field = Union[Decimal, int, str, date, enum.Enum, None]
# A figure of a row, or what it states of a trade, as its column has it.
Figure = Union[Decimal, int, date, str]


class Verdict(enum.Enum):
    """What is said of a row."""

    RIGHT = "right"
    DIFFERS = "differs"
    UNDECIDED = "undecided"
    REFUSED = "refused"
    MISSING = "missing"
    BAD = "bad"
    AGAIN = "again"
    NOTHING = "nothing"


class Reading(enum.Enum):
    """A formula by which figures come out that are not those of the rule. docs/RULES.md says what each does."""

    MATURITY = "MATURITY"
    FIRST_CALL = "FIRST CALL"
    ROUNDED = "ROUNDED"
    COMPOUNDED = "COMPOUNDED"
    FEBRUARY = "FEBRUARY"
    GROSS = "GROSS"
    REGULAR = "REGULAR"


@dataclass(frozen=True)
class Checked:
    """What is said of a row of figures that another firm printed.

    Of a row that differs `differs` is the first column that does, `ours` and `theirs` are what the trade has that is
    kept, or the figure of the rule, and what is stated, and `reading` is the formula that gives theirs, or None.
    `reason` is the name of a refusal, the column that is undecided, the reference of a trade that is not kept, or the
    first column that does not read.
    """

    verdict: Verdict
    differs: str | None = None
    ours: Figure | None = None
    theirs: Figure | None = None
    reading: Reading | None = None
    reason: str | None = None


# What the program knows the columns of a file by, with the forms of what it tells of them.
STATED: dict[str, Callable[[str], Figure]] = {
    "price": Decimal, "yield": Decimal, "redemption": date.fromisoformat, "days": int, "principal": Decimal,
    "accrued": Decimal, "total": Decimal}
TRADED: dict[str, Callable[[str], Figure]] = {
    "cusip": str, "side": str, "par": int, "settle": date.fromisoformat, "basis": str, "value": Decimal, "fee": Decimal}
TERMS: dict[str, Callable[[str], Figure]] = {
    "kind": str, "dated": date.fromisoformat, "first": date.fromisoformat, "maturity": date.fromisoformat,
    "coupon": Decimal, "calls": str, "day_count": str}
READERS = {**TRADED, **STATED, **TERMS}
COLUMNS = ("reference", *READERS)
TOLD = ("verdict", "differs", "ours", "reading", "reason")
# The words of lines in the order in which the total counts them.
COUNTED = ("right", "differs", "missing", "again", "nothing")
# The status of a check in which not every row is right.
NOT_ALL_RIGHT = 3


def check(frame: Frame, store: Path | None = None, *, desk: str | None = None, program: Path = "muni") -> Frame:
    """A frame with what `muni check` says of each of its rows, which have figures that another firm printed.

    The columns are those of a file of `muni check`, in any order: what was traded, as `cusip`, `par`, `settle`, `basis`,
    `value` and perhaps `side` and `fee`; what was printed, of `price`, `yield`, `redemption`, `days`, `principal`,
    `accrued` and `total`; and without a store, or for an issue that it does not keep, the terms `kind`, `dated`, `first`,
    `maturity`, `coupon`, `calls` and `day_count`. With a desk, `reference` names a trade that the store keeps: what a
    row states of it and of its terms is compared with what is kept, and the figures with those of the trade. A field is
    a Decimal, an int, a text, a day, an Enum of the client, or a float as `figures` takes it. A missing value is not
    stated. Other columns stay as they are and are not looked at.

    The frame that is returned has the same index, rows and columns, and after them `verdict`: `right`, `differs`,
    `undecided`, `refused`, `missing`, `bad`, `again` if the reference came in an earlier row, or `nothing` if nothing
    is stated that could be right. Of a row that differs `differs` is the first column that does, `ours` what the trade
    has that is kept, or the figure of the rule, and `reading` the name of the formula that gives theirs, or None.
    `reason` is the name of a refusal, the column that is undecided, the first column that does not read, or the index
    of the row in which the reference came first. The references of the desk's live trades for which no row came are in
    `attrs["missing"]`.

    A frame that has one of the new columns, or none that is known, is a ValueError. If the program ends with another
    status than 0 or 3, the exception is Ended; the store must not be open elsewhere.
    """
    names = [name for name in COLUMNS if name in frame.columns]
    if not names:
        raise ValueError(f"columns: none of {', '.join(COLUMNS)} is there")
    taken = [name for name in TOLD if name in frame.columns]
    if taken:
        raise ValueError(f"columns: {', '.join(taken)} would be written over; rename or drop them")
    words = ["check"] + ([] if store is None else [f"--store={os.fspath(store)}"])
    words += [] if desk is None else [f"--desk={desk}"]
    lines = _said(program, words, _rows(frame, names)).decode("ascii").splitlines()
    return _beside(frame, names, lines)


def _rows(frame: Frame, names: list[str]) -> bytes:
    written = io.StringIO(newline="")
    writer = csv.writer(written, lineterminator="\n")
    writer.writerow(names)
    writer.writerows(zip(*(texts_of(name, frame[name]) for name in names)))
    text = written.getvalue()
    if "\r" in text:
        raise ValueError("a field has no end of a line")
    # A letter that is not ASCII stands in no field that reads, and neither does what is put for it.
    return text.encode("ascii", "replace")


def _said(program: Path, words: list[str], rows: bytes) -> bytes:
    found: list[bytes] = []
    try:
        found.extend(pieces(program, *words, rows=rows))
    except Ended as ended:
        if ended.status != NOT_ALL_RIGHT:
            raise
    return b"".join(found)


def _beside(frame: Frame, names: list[str], lines: list[str]) -> Frame:
    """The frame with the columns after its own, if there is a line on each row and the total is theirs."""
    pandas = importlib.import_module("pandas")
    told = [line.split(",") for line in lines]
    rows, unseen, last = told[:len(frame)], told[len(frame):-1], lines[-1] if lines else ""
    counts = Counter(row[1] for row in rows) + Counter(missing=len(unseen))
    said = ",".join(map(str, ["TOTAL", len(frame), *(counts[each] for each in COUNTED)]))
    if last != said or any(row[:2] != ["0", "missing"] for row in unseen):
        raise Error(f"{len(lines)} lines for {len(frame)} rows, and {last!r} at their end, not {said!r}")
    columns = zip(*(_columns(row, names, frame.index) for row in rows)) if rows else [()] * len(TOLD)
    found = frame.assign(**{name: pandas.Series(list(column), index=frame.index, dtype=object)
                            for name, column in zip(TOLD, columns)})
    found.attrs["missing"] = [row[2] for row in unseen]
    return found


def _columns(row: list[str], names: list[str], index: Any) -> tuple[Any, ...]:
    """What a line tells, as the new columns."""
    found = _checked(row, names)
    reason: Any = None if found.verdict is Verdict.MISSING else found.reason
    if found.verdict is Verdict.AGAIN:
        reason = index[int(row[2]) - 1]
    return (found.verdict.value, found.differs, found.ours, None if found.reading is None else found.reading.value,
            reason)


def _checked(row: Sequence[str], names: Sequence[str]) -> Checked:
    """What the fields of a line tell of a row with these columns."""
    _, word, *rest = row
    verdict = Verdict(word)
    if verdict is Verdict.DIFFERS:
        name, ours, theirs, *reading = rest
        read = READERS[name]
        return Checked(verdict, name, read(ours), read(theirs), Reading(reading[0]) if reading else None)
    if verdict is Verdict.BAD:
        return Checked(verdict, reason=names[int(rest[1]) - 1] if rest[0] == "2" else "row")
    if verdict in (Verdict.RIGHT, Verdict.NOTHING):
        return Checked(verdict)
    return Checked(verdict, reason=rest[1 if verdict is Verdict.REFUSED else 0])


def read_checked(text: str) -> Checked:
    """Reads the line on a row that has every column.

    >>> found = read_checked("1,differs,price,108.584,114.957,MATURITY\\n")
    >>> found.verdict.name, found.differs, found.ours, found.theirs, found.reading.name
    ('DIFFERS', 'price', Decimal('108.584'), Decimal('114.957'), 'MATURITY')
    >>> read_checked("1,bad,2,4\\n").reason
    'par'
    """
    return _checked(text.rstrip("\n").split(","), COLUMNS)


def members(row: Mapping[str, Field]) -> dict[str, str]:
    """The texts of a row, one for each column, so that a column which does not read is told by its place.

    >>> found = members({"settle": date(2024, 4, 3), "value": Decimal("4.50")})
    >>> found["settle"], found["value"], found["par"]
    ('2024-04-03', '4.5', '')
    """
    for name, value in row.items():
        if name not in COLUMNS:
            raise ValueError(f"columns: {name} is none of {', '.join(COLUMNS)}")
        if isinstance(value, bool) or not isinstance(value, (Decimal, int, str, date, enum.Enum, type(None))):
            raise TypeError(f"{name}: a Decimal, an int, a text or a day, not a {type(value).__name__}")
    # What is put for other letters, quotes and backslashes stands in no field that reads, as they do not.
    return {name: re.sub(r'[^ !#-\[\]-~]', "?", text_of(row.get(name))) for name in COLUMNS}
