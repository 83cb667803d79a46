"""Other formulas than the rule's: each gives its worked figure, and the first one that does is named."""
from __future__ import annotations

import dataclasses
from datetime import date

import pytest
from calculator.days import DayBasis, days_30_360
from calculator.figures import Asked, Figures, Given, Side, answers
from calculator.readings import Reading, days_by_february, figures_by, reading_of
from calculator.terms import Call, Issue, Kind

CUSIP = "123456AA3"
CALLED = Issue(CUSIP, "C", Kind.PERIODIC, date(2022, 1, 1), date(2044, 1, 1), 40_000_000, date(2022, 7, 1),
               (Call(date(2034, 1, 1), 100_000_000),))
TWICE_CALLED = dataclasses.replace(CALLED, calls=(Call(date(2030, 1, 1), 102_000_000), *CALLED.calls))
ZERO = Issue(CUSIP, "Z", Kind.ZERO, date(2020, 1, 1), date(2034, 1, 1))
LAST_PERIOD = Issue(CUSIP, "L", Kind.PERIODIC, date(2020, 1, 1), date(2024, 7, 1), 50_000_000, date(2020, 7, 1))
FEBRUARY = Issue(CUSIP, "F", Kind.PERIODIC, date(2020, 2, 28), date(2030, 2, 28), 40_000_000, date(2020, 8, 28))
TWO_LEFT = Issue(CUSIP, "T", Kind.PERIODIC, date(2020, 1, 1), date(2025, 1, 1), 50_000_000, date(2020, 7, 1))
LONG_FIRST = Issue(CUSIP, "O", Kind.PERIODIC, date(2024, 1, 15), date(2026, 10, 1), 60_000_000, date(2024, 10, 1))
NOTE = Issue(CUSIP, "N", Kind.DISCOUNT, date(2024, 1, 1), date(2025, 1, 1))
ACTUAL = Issue(CUSIP, "A", Kind.AT_REDEMPTION, date(2023, 2, 28), date(2024, 2, 28), 40_000_000,
               basis=DayBasis.ACTUAL_365)

AT_3 = Asked(CUSIP, 250_000, date(2024, 1, 1), Given.YIELD, 30_000)
AT_4 = Asked(CUSIP, 100, date(2024, 4, 1), Given.YIELD, 40_000)
IN_MARCH = Asked(CUSIP, 100_000, date(2023, 3, 31), Given.PRICE, 100_000_000)
WITH_A_FEE = Asked(CUSIP, 100, date(2024, 4, 1), Given.PRICE, 100_625_000, fee=100)


def ours(issue: Issue, asked: Asked) -> Figures:
    found = answers(issue, asked).exact
    assert isinstance(found, Figures)
    return found


@pytest.mark.parametrize(("reading", "issue", "asked", "field", "rule", "theirs"), [
    (Reading.MATURITY, CALLED, AT_3, "price", 108_584, 114_957),
    (Reading.FIRST_CALL, TWICE_CALLED, dataclasses.replace(AT_3, value=60_000), "redemption", date(2044, 1, 1),
     date(2030, 1, 1)),
    (Reading.ROUNDED, ZERO, dataclasses.replace(AT_3, value=60_000), "price", 55_367, 55_368),
    (Reading.COMPOUNDED, LAST_PERIOD, AT_4, "price", 100_235, 100_240),
    (Reading.FEBRUARY, FEBRUARY, IN_MARCH, "accrued", 36_667, 34_444),
    (Reading.FEBRUARY, FEBRUARY, IN_MARCH, "accrued_days", 33, 31),
    (Reading.GROSS, TWO_LEFT, WITH_A_FEE, "yield_", 4_001, 4_136),
    (Reading.REGULAR, LONG_FIRST, dataclasses.replace(AT_4, settlement=date(2024, 2, 1)), "price", 104_991, 105_004),
])
def test_a_reading_gives_its_worked_figure(reading: Reading, issue: Issue, asked: Asked, field: str, rule: object,
                                           theirs: object):
    figures = ours(issue, asked)
    assert getattr(figures, field) == rule
    assert getattr(figures_by(reading, issue, asked, figures), field) == theirs
    assert reading_of(issue, asked, figures, field, theirs) is reading


def test_of_two_readings_that_give_a_figure_the_first_is_named():
    """Rounded, or compounded and cut off, this price is 100.907, and by the rule it is 100.906."""
    asked = dataclasses.replace(AT_4, settlement=date(2024, 1, 15), value=30_000)
    figures = ours(LAST_PERIOD, asked)
    prices = [figures_by(each, LAST_PERIOD, asked, figures).price for each in (Reading.ROUNDED, Reading.COMPOUNDED)]
    assert (figures.price, prices) == (100_906, [100_907, 100_907])
    assert reading_of(LAST_PERIOD, asked, figures, "price", 100_907) is Reading.ROUNDED


def test_a_figure_that_no_formula_gives_has_no_reading():
    assert reading_of(CALLED, AT_3, ours(CALLED, AT_3), "price", 1) is None


def test_where_a_formula_is_the_same_its_figures_are_the_rules():
    for issue, asked in ((TWO_LEFT, AT_4), (ZERO, AT_3)):
        figures = ours(issue, asked)
        for reading in (Reading.MATURITY, Reading.COMPOUNDED, Reading.GROSS, Reading.REGULAR):
            assert figures_by(reading, issue, asked, figures) == figures


def test_a_given_price_is_shown_as_it_is_cut_off():
    asked = Asked(CUSIP, 100, date(2024, 1, 1), Given.PRICE, 108_584_900)
    assert figures_by(Reading.ROUNDED, CALLED, asked, ours(CALLED, asked)) == ours(CALLED, asked)


def test_a_sale_bears_its_commission_by_every_reading():
    asked = dataclasses.replace(IN_MARCH, side=Side.SELL, fee=250)
    figures = figures_by(Reading.FEBRUARY, FEBRUARY, asked, ours(FEBRUARY, asked))
    assert figures.total == 10_000_000 + 34_444 - 25_000


@pytest.mark.parametrize(("issue", "asked"), [
    (ZERO, AT_3), (ACTUAL, dataclasses.replace(IN_MARCH, settlement=date(2023, 6, 1))),
    (NOTE, Asked(CUSIP, 100, date(2024, 2, 1), Given.RATE, 30_000))])
def test_what_accrues_nothing_by_30_360_has_no_days_of_february(issue: Issue, asked: Asked):
    assert figures_by(Reading.FEBRUARY, issue, asked, ours(issue, asked)) is None


@pytest.mark.parametrize(("start", "end", "rule", "theirs"), [
    ((2023, 2, 28), (2023, 3, 31), 33, 31), ((2024, 2, 28), (2024, 3, 31), 33, 33), ((2024, 2, 29), (2024, 3, 31), 32, 31),
    ((2023, 2, 28), (2023, 3, 30), 32, 30), ((2023, 1, 31), (2023, 3, 31), 60, 60), ((2023, 1, 15), (2023, 3, 31), 76, 76)])
def test_the_end_of_february_counts_as_a_30th(start, end, rule, theirs):
    assert days_30_360(date(*start), date(*end)) == rule
    assert days_by_february(date(*start), date(*end)) == theirs
