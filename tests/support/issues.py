"""Issues of each kind, as the client has them."""
from dataclasses import replace
from datetime import date
from decimal import Decimal

from muni import Call, CallKind, DayCount, Issue, Kind

ELM_GROVE = Issue("990034AA8", "ELM GROVE UNION SCH DIST 4.125S 2039", Kind.PERIODIC, date(2023, 8, 1),
                  date(2039, 8, 1), coupon=Decimal("4.125"), first=date(2024, 2, 1),
                  calls=(Call(date(2033, 8, 1), 102, CallKind.ON_OR_AFTER),
                         Call(date(2034, 8, 1), 101, CallKind.ON_OR_AFTER),
                         Call(date(2035, 8, 1), 100, CallKind.ON_OR_AFTER)))
MARLOW = Issue("990081AB7", "COUNTY OF MARLOW TAX NOTES 2025", Kind.AT_REDEMPTION, date(2024, 2, 29), date(2025, 2, 28),
               coupon=Decimal("3.9"), day_count=DayCount.ACTUAL_365)
RIVERTON = Issue("123456AA3", "RIVERTON WATER 5S 2025", Kind.PERIODIC, date(2020, 1, 1), date(2025, 1, 1), coupon=5,
                 first=date(2020, 7, 1))
# The same with the coupon that was wrong, before it was amended.
WRONG = replace(RIVERTON, name="RIVERTON WATER 4S 2025", coupon=4)
ZERO = Issue("990000010", "ZERO 2026", Kind.ZERO, date(2020, 1, 1), date(2026, 7, 1))
DISCOUNT = Issue("990000028", "DISCOUNT 2024", Kind.DISCOUNT, date(2024, 1, 1), date(2024, 4, 1))
NOTE = Issue("990000036", "NOTE 2026", Kind.AT_REDEMPTION, date(2024, 1, 1), date(2026, 1, 1), coupon=30)
