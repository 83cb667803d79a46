"""Days of 30/360 and actual/365, and quasi-coupon dates (MSRB Rule G-33, section (e))."""
from __future__ import annotations

import bisect
import enum
import functools
from datetime import date

# The calendar.
FIRST_YEAR, LAST_YEAR = 1900, 2199
# The last day of a month on which interest is paid: each month has it.
LAST_INTEREST_DAY = 28


class DayBasis(enum.IntEnum):
    """How the days of an issue are counted."""

    THIRTY_360 = 0
    ACTUAL_365 = 1

    @property
    def year(self) -> int:
        """The days of a year."""
        return 360 if self is DayBasis.THIRTY_360 else 365


def days_30_360(start: date, end: date) -> int:
    """The days of 30/360 from a day, which is counted, to another, which is not."""
    first = min(start.day, 30)
    last = 30 if end.day == 31 and start.day >= 30 else end.day
    return (end.year - start.year) * 360 + (end.month - start.month) * 30 + last - first


def days_between(basis: DayBasis, start: date, end: date) -> int:
    return days_30_360(start, end) if basis == DayBasis.THIRTY_360 else (end - start).days


def months_later(day: date, months: int) -> date | None:
    """The same day of another month, or None if the calendar ends before it. It is a day from 1 to 28."""
    year, month = divmod(day.year * 12 + day.month - 1 + months, 12)
    return day.replace(year=year, month=month + 1) if FIRST_YEAR <= year <= LAST_YEAR else None


@functools.lru_cache(maxsize=None)
def quasi_coupon_dates(anchor: date) -> tuple[date, ...]:
    """All days of the calendar at whole multiples of six months before and after the anchor."""
    span = 12 * (LAST_YEAR - FIRST_YEAR + 1)
    days = (months_later(anchor, months) for months in range(-span, span + 1, 6))
    return tuple(day for day in days if day is not None)


def days_of_period(anchor: date, settlement: date) -> int:
    """A: the days from the last quasi-coupon date that is not after the settlement, up to the settlement."""
    dates = quasi_coupon_dates(anchor)
    return days_30_360(dates[bisect.bisect_right(dates, settlement) - 1], settlement)
