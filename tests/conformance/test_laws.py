"""Laws that days, powers, prices, yields and disclosed redemptions of the exact calculator keep."""
import dataclasses
import math
from datetime import date
from decimal import Context, Decimal, localcontext
from fractions import Fraction

from calculator.days import days_30_360, days_of_period, months_later, quasi_coupon_dates
from calculator.figures import Asked, Figures, Given, answers
from calculator.powers import enclosed, is_below, power, product
from calculator.price import HALVES, ManyPayments, OnePayment
from calculator.printed import Ending, Outcome, boundary_of, price_of, rounded
from calculator.redemptions import PAR, Decided, Label, all_deciding, deciding, redemptions, side_of_range
from calculator.sensitivities import LEEWAY, convexity, duration, dv01, nearest_to
from calculator.terms import Call, Issue, Kind, Mark, fault_of
from hypothesis import assume, given
from hypothesis import strategies as st

from support.bonds import bonds, notes, settled

yields = st.integers(-50_000, 300_000)


@given(settled(bonds(calls=6) | notes()))
def test_what_is_drawn_has_good_terms(settlement_of_issue):
    issue, settlement = settlement_of_issue
    assert fault_of(issue) is None and issue.settles(settlement) and redemptions(issue, settlement)


@given(st.dates(date(1900, 1, 1), date(2199, 12, 31)), st.integers(1, 28), st.integers(1, 12), st.integers(1900, 2199))
def test_a_settlement_stands_within_its_period(settlement, day, month, year):
    assume(date(1901, 1, 1) <= settlement)
    anchor = date(year, month, day)
    assert 0 <= days_of_period(anchor, settlement) <= 180
    for one, other in zip(quasi_coupon_dates(anchor), quasi_coupon_dates(anchor)[1:]):
        assert days_30_360(one, other) == 180


@given(st.lists(st.integers(1, 2**400), min_size=1, max_size=6), st.integers(0, 180))
def test_powers_lie_between_their_ends(factors, exponent):
    whole, found = 1, enclosed(1, 1)
    for factor in factors:
        whole *= factor**exponent
        found = product(found, power(factor, exponent))
    assert found.low << found.shift <= whole <= found.high << found.shift
    above = enclosed(2 * whole, 2 * whole)
    assert is_below(found, above) and not is_below(above, found) and not is_below(found, found)


@given(settled(bonds()), yields, st.integers(1, 50_000), st.integers(0, 300_000))
def test_the_price_falls_as_the_yield_rises(settlement_of_issue, yield_, more, mills):
    issue, settlement = settlement_of_issue
    paid = redemptions(issue, settlement)[0].paid
    if isinstance(paid, OnePayment):
        falls = paid.left > 0
        assert (paid.price(yield_) > paid.price(yield_ + more)) == falls
        return
    price = mills * paid.unit // 1000
    if paid.is_at_least(yield_ + more, price):
        assert paid.is_more(yield_, price)


@given(settled(bonds()), yields, st.integers(-3, 3))
def test_the_ends_and_the_whole_powers_compare_alike(settlement_of_issue, yield_, aside):
    issue, settlement = settlement_of_issue
    paid = redemptions(issue, settlement)[0].paid
    assume(isinstance(paid, ManyPayments))
    printed = price_of(paid, yield_).exact
    worth = max(1, printed.figure * paid.unit // 1000 + paid.accrued + aside)
    assert paid.compared(yield_, worth) == paid.compared_whole(yield_, worth)


@given(bonds(), st.integers(0, 40), yields)
def test_a_price_on_an_interest_date_is_that_of_the_fraction(issue, half_years, yield_):
    assume(issue.kind == Kind.PERIODIC)
    dates = [day for day in quasi_coupon_dates(issue.first) if issue.first <= day < issue.maturity]
    paid = redemptions(issue, dates[half_years % len(dates)])[0].paid
    assume(isinstance(paid, ManyPayments))
    growth = 1 + Fraction(yield_, HALVES)
    plain = sum(Fraction(payment) / growth ** (place + 1) for place, payment in enumerate(paid.payments)) - paid.accrued
    assert paid.price(yield_) == plain / paid.unit
    mills = math.floor(plain * 1000 / paid.unit)
    assert price_of(paid, yield_).exact == Outcome(Ending.PRINTED, mills)


@given(settled(bonds(calls=6) | notes()), st.integers(90_000_000, 104_000_000))
def test_the_exact_yield_is_within_the_last_digit_of_the_printed_one(settlement_of_issue, value):
    issue, settlement = settlement_of_issue
    found = redemptions(issue, settlement)
    by_price = answers(issue, Asked(issue.cusip, 100, settlement, Given.PRICE, value)).exact
    assume(isinstance(by_price, Figures))
    disclosed = next(each for each in found if each.day == by_price.redemption)
    price = value * 1000 * issue.basis.year
    lower, upper = boundary_of(by_price.yield_), boundary_of(by_price.yield_ + 1)
    if isinstance(disclosed.paid, OnePayment):
        assert disclosed.paid.price(lower) >= Fraction(price, disclosed.paid.unit) >= disclosed.paid.price(upper)
    else:
        assert disclosed.paid.is_at_least(lower, price) and not disclosed.paid.is_more(upper, price)
    # Up to every other redemption the yield is no lower.
    for each in found:
        if isinstance(each.paid, ManyPayments):
            assert each.paid.is_at_least(lower, price)


@given(settled(bonds(calls=6)), yields)
def test_the_lowest_price_is_disclosed_at_its_earliest_redemption(settlement_of_issue, yield_):
    issue, settlement = settlement_of_issue
    found = redemptions(issue, settlement)
    assume(side_of_range(found, yield_) is None)
    said = answers(issue, Asked(issue.cusip, 100, settlement, Given.YIELD, yield_))
    prices = [price_of(each.paid, yield_).exact for each in found]
    if all(each.ending is Ending.PRINTED for each in prices):
        lowest = min(each.figure for each in prices)
        earliest = next(each for each, price in zip(found, prices) if price.figure == lowest)
        assert (said.exact.price, said.exact.redemption) == (lowest, earliest.day)
    if isinstance(said.allowed[0], Figures):
        assert said.exact in said.allowed


def told(issue: Issue, settlement: date, given_: Given, value: int) -> tuple[Figures | object, ...]:
    return answers(issue, Asked(issue.cusip, 100, settlement, given_, value)).allowed


values = st.tuples(st.just(Given.YIELD), yields) | st.tuples(st.just(Given.PRICE), st.integers(1, 140_000_000))


def worth(paid: OnePayment | ManyPayments, yield_: Decimal) -> Decimal:
    """What the payments are worth in dollars, by decimals of the context."""
    growth = yield_ / 1_000_000
    if isinstance(paid, OnePayment):
        return Decimal(paid.due) / paid.unit / (1 + growth * paid.left / paid.year)
    first = Decimal(180 - paid.elapsed) / 180
    return sum(Decimal(payment) / paid.unit / (1 + growth / 2) ** (first + place)
               for place, payment in enumerate(paid.payments))


@given(settled(bonds() | notes()), yields)
def test_sensitivities_are_those_of_the_worth_at_yields_beside(settlement_of_issue, yield_):
    paid = redemptions(*settlement_of_issue)[0].paid
    with localcontext(Context(prec=70)):
        step = Decimal("1e-12")
        below, at, above = (worth(paid, Decimal(yield_) + move) for move in (-step, 0, step))
        by_year = step / 1_000_000
        slope, bend = (below - above) / (2 * by_year), (above - 2 * at + below) / by_year**2
        near = Decimal("1e-9")
        for exact, found in ((duration(paid, yield_), slope / at), (convexity(paid, yield_), bend / at)):
            assert abs(Decimal(exact.numerator) / exact.denominator - found) < near
        digits = slope * 100
        for printed in dv01(paid, yield_).allowed:
            assert abs(digits - printed) < Decimal("0.500001") + near


@given(st.fractions(0, 10**6))
def test_a_number_is_printed_within_half_of_a_last_digit(exact):
    allowed = nearest_to(exact).allowed
    assert allowed == tuple(sorted(allowed, key=lambda digits: (abs(digits - exact), -digits)))
    assert set(allowed) == {digits for digits in range(max(0, int(exact) - 1), int(exact) + 3)
                            if abs(digits - exact) <= Fraction(1, 2) + LEEWAY}


@given(st.integers(0, 10**6), st.integers(-3, 3))
def test_near_half_of_a_last_digit_two_numbers_are_right(digits, millionths):
    allowed = nearest_to(digits + Fraction(1, 2) + millionths * LEEWAY).allowed
    both = (digits + 1, digits) if millionths >= 0 else (digits, digits + 1)
    assert allowed == (both if abs(millionths) <= 1 else both[:1])


@given(settled(bonds(calls=6)), values)
def test_marks_answer_as_the_days_they_stand_for(settlement_of_issue, value):
    issue, settlement = settlement_of_issue
    days = []
    for place, call in enumerate(issue.calls):
        days.append(call._replace(mark=Mark.CALLED if call.mark == Mark.CALLED else Mark.NONE))
        end = issue.calls[place + 1].day if place + 1 < len(issue.calls) else issue.maturity
        day = months_later(call.day, 6)
        while call.mark == Mark.ON_OR_AFTER and day < end:
            days.append(Call(day, call.price))
            day = months_later(day, 6)
    spelled = dataclasses.replace(issue, calls=tuple(days))
    assert fault_of(spelled) is None and told(spelled, settlement, *value) == told(issue, settlement, *value)


@given(settled(bonds(calls=6)), values)
def test_an_issue_called_at_100_answers_as_one_that_matures_then(settlement_of_issue, value):
    issue, settlement = settlement_of_issue
    assume(issue.calls and issue.calls[-1].day > settlement)
    *calls, last = issue.calls
    called = dataclasses.replace(issue, calls=(*calls, Call(last.day, PAR, Mark.CALLED)))
    matures = dataclasses.replace(issue, calls=tuple(calls), maturity=last.day)
    wanted = [dataclasses.replace(each, label=Label.CALLED)
              if isinstance(each, Figures) and each.label == Label.MATURITY else each
              for each in told(matures, settlement, *value)]
    assert list(told(called, settlement, *value)) == wanted


@given(st.integers(500, 9_000).map(lambda thousandths: 10 * thousandths), st.integers(2, 60))
def test_a_par_bond_at_its_coupon_is_at_100(yield_, half_years):
    bond = Issue("990034AA8", "PAR", Kind.PERIODIC, date(2020, 1, 1), date(2020 + half_years // 2 + 1, 1, 1),
                 1_000 * yield_, date(2020, 7, 1))
    found = answers(bond, Asked(bond.cusip, 100, date(2020, 7, 1), Given.YIELD, yield_))
    assert [each.price for each in found.allowed] == [100_000]
    back = answers(bond, Asked(bond.cusip, 100, date(2020, 7, 1), Given.PRICE, 100_000_000))
    assert [each.yield_ for each in back.allowed] == [rounded(yield_)]


outcomes = st.one_of(st.builds(Outcome, st.just(Ending.PRINTED), st.integers(0, 4)),
                     st.builds(Outcome, st.just(Ending.UNDECIDED), st.integers(-1, 4)),
                     st.sampled_from([Outcome(Ending.BELOW), Outcome(Ending.ABOVE), Outcome(Ending.NO_TIME)]))
LOWEST = Outcome(Ending.UNDECIDED, -1)


def decides(found: list[Outcome]) -> Decided:
    """What decides, as docs/RULES.md has it in words."""
    for place, each in enumerate(found):
        if each.ending is Ending.NO_TIME:
            return Decided(Ending.NO_TIME, place)
    for place, each in enumerate(found):
        if each.ending is Ending.BELOW or each == LOWEST:
            return Decided(each.ending, place, each.figure)
    printed = [(each.figure, place) for place, each in enumerate(found) if each.ending is Ending.PRINTED]
    undecided = [(each.figure, place) for place, each in enumerate(found) if each.ending is Ending.UNDECIDED]
    material = [each for each in undecided if not printed or each < min(printed)]
    if material:
        return Decided(Ending.UNDECIDED, min(material)[1], min(material)[0])
    return Decided(Ending.PRINTED, min(printed)[1], min(printed)[0]) if printed else Decided(Ending.ABOVE)


@given(st.lists(outcomes, min_size=1, max_size=6))
def test_what_decides_is_what_the_rules_say(found):
    assert deciding(found, LOWEST) == decides(found)


@given(st.lists(st.lists(outcomes, min_size=1, max_size=3), min_size=1, max_size=4))
def test_what_may_decide_is_what_each_choice_decides(allowed):
    choices = [[]]
    for several in allowed:
        choices = [[*choice, each] for choice in choices for each in several]
    assert all_deciding(allowed, LOWEST) == {decides(choice) for choice in choices}
