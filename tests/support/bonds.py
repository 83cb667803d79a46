"""Issues and settlements that are drawn at random for the exact calculator."""
from __future__ import annotations

from collections.abc import Callable
from datetime import date, timedelta

from hypothesis import strategies as st

from calculator.days import DayBasis, months_later
from calculator.redemptions import PAR
from calculator.terms import Call, Issue, Kind, Mark

Draw = Callable[[st.SearchStrategy], object]
CUSIP = "990034AA8"
coupons = st.integers(1, 160).map(lambda eighths: 1_250_000 * eighths) | st.integers(1, 300_000_000)


@st.composite
def bonds(draw: Draw, calls: int = 0) -> Issue:
    """A periodic or a zero issue, with up to so many calls, of which some have marks."""
    dated = date(draw(st.integers(1950, 2050)), draw(st.integers(1, 12)), draw(st.integers(1, 28)))
    first = months_later(dated, 6)
    is_zero = draw(st.booleans())
    maturity = months_later(first, 6 * draw(st.integers(1, 60)))
    half_years = [months_later(first, 6 * place) for place in range(1, 60)]
    days = draw(st.lists(st.sampled_from([day for day in half_years if day < maturity] or [first]), unique=True,
                         max_size=calls))
    prices = st.sampled_from((PAR, 102_000_000)) | st.integers(80_000_000, 120_000_000)
    called = [Call(day, draw(prices), draw(st.sampled_from((Mark.NONE, Mark.NONE, Mark.ON_OR_AFTER))))
              for day in sorted(days) if day < maturity]
    if called and draw(st.sampled_from((False, False, True))):
        called[-1] = called[-1]._replace(mark=Mark.CALLED)
    if is_zero:
        return Issue(CUSIP, "ZERO", Kind.ZERO, dated, maturity, calls=tuple(called))
    return Issue(CUSIP, "BOND", Kind.PERIODIC, dated, maturity, draw(coupons), first, tuple(called))


@st.composite
def notes(draw: Draw) -> Issue:
    dated = date(draw(st.integers(1950, 2050)), draw(st.integers(1, 12)), draw(st.integers(1, 28)))
    kind, basis = draw(st.sampled_from((Kind.AT_REDEMPTION, Kind.DISCOUNT))), draw(st.sampled_from(DayBasis))
    maturity = dated + timedelta(draw(st.integers(30, 700)))
    return Issue(CUSIP, "NOTE", kind, dated, maturity, draw(coupons) if kind == Kind.AT_REDEMPTION else 0, basis=basis)


@st.composite
def settled(draw: Draw, issues: st.SearchStrategy[Issue]) -> tuple[Issue, date]:
    """An issue with a settlement of it."""
    issue = draw(issues)
    return issue, issue.dated + timedelta(draw(st.integers(0, (issue.end - issue.dated).days - 1)))
