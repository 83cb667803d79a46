"""Rows of figures that another firm printed, which a desk checks one by one."""
from __future__ import annotations

import csv
import re
from collections.abc import Mapping
from dataclasses import replace
from datetime import date
from decimal import Decimal
from typing import Any

import pytest

import muni
from muni import Basis, Checked, Reading, Side, Trade, Verdict
from support.issues import ELM_GROVE, RIVERTON, ZERO
from support.program import ROOT
from support.told import answered

TRADED: dict[str, muni.Field] = {"cusip": RIVERTON.cusip, "par": 25_000, "settle": date(2024, 4, 1),
                                 "basis": Basis.YIELD, "value": Decimal(4)}
RIGHT: dict[str, muni.Field] = {"price": Decimal("100.725"), "yield": "4.000", "redemption": date(2025, 1, 1),
                                "days": 90, "principal": Decimal("25181.25"), "accrued": Decimal("312.50"),
                                "total": Decimal("25493.75"), "fee": None}
COMMITTED = Trade("STREET", "K1", ELM_GROVE.cusip, Side.SELL, 25_000, date(2024, 4, 3), Basis.PRICE, Decimal("104.25"),
                  Decimal("0.375"))


def test_each_row_of_the_street_is_checked_as_the_program_says_it(desk: muni.Client) -> None:
    with open(ROOT / "examples/street.csv", encoding="ascii", newline="") as file:
        found = [desk.check(row) for row in csv.DictReader(file)]
    told = [line.split(",") for line in (ROOT / "examples/street.report").read_text().splitlines()[:-1]]
    assert [each.verdict.value for each in found] == [row[1] for row in told]
    assert [[each.differs, f"{each.ours}", f"{each.theirs}", each.reading and each.reading.value]
            for each in found if each.verdict is Verdict.DIFFERS] == [row[2:] for row in told if row[1] == "differs"]


WRONG: dict[str, muni.Field] = {"price": Decimal(1), "yield": Decimal("-3.5"), "redemption": date(2030, 1, 1),
                                "days": 1, "principal": 1, "accrued": "1.5", "total": Decimal("0.01")}


@pytest.mark.parametrize("column", WRONG)
def test_a_figure_is_of_its_type(desk: muni.Client, column: str) -> None:
    assert desk.check(TRADED | RIGHT) == Checked(Verdict.RIGHT)
    found = desk.check(TRADED | RIGHT | {column: WRONG[column]})
    theirs = WRONG[column]
    assert (found.verdict, found.differs, found.reading) == (Verdict.DIFFERS, column, None)
    assert found.ours == (Decimal("4.000") if column == "yield" else RIGHT[column])
    assert found.theirs == (Decimal(theirs) if isinstance(theirs, str) else theirs)


def test_a_kept_trade_is_looked_up_by_its_reference(desk: muni.Client) -> None:
    desk.enter(COMMITTED)
    desk.enter(replace(COMMITTED, reference="K2"))
    desk.cancel("STREET", "K2", 2)
    assert desk.check({"reference": "K1", "yield": Decimal("3.663")}, desk="STREET") == Checked(
        Verdict.DIFFERS, "yield", Decimal("3.703"), Decimal("3.663"), Reading.GROSS)
    assert [desk.check({"reference": each}, "STREET") for each in ("K2", "K9")] == [
        Checked(Verdict.MISSING, reason=each) for each in ("K2", "K9")]


def test_what_is_stated_of_a_kept_trade_is_compared_with_it(desk: muni.Client) -> None:
    desk.enter(replace(COMMITTED, reference="K3"))
    same: dict[str, muni.Field] = {"reference": "K3", "cusip": ELM_GROVE.cusip, "side": Side.SELL, "par": 25_000,
                                   "settle": date(2024, 4, 3), "basis": Basis.PRICE, "value": Decimal("104.25"),
                                   "fee": Decimal("0.375")}
    assert desk.check(same, "STREET") == Checked(Verdict.RIGHT)
    assert desk.check({"reference": "K3"}, "STREET") == Checked(Verdict.NOTHING)
    wrong: dict[str, tuple[muni.Field, Any, Any]] = {
        "cusip": (RIVERTON.cusip, ELM_GROVE.cusip, RIVERTON.cusip), "side": (Side.BUY, "sell", "buy"),
        "par": (250_000, 25_000, 250_000),
        "settle": (date(2024, 4, 4), date(2024, 4, 3), date(2024, 4, 4)), "basis": (Basis.YIELD, "price", "yield"),
        "value": ("104.5", Decimal("104.25"), Decimal("104.5")), "fee": (0, Decimal("0.375"), Decimal(0))}
    for name, (field, ours, theirs) in wrong.items():
        found = desk.check(same | {name: field, "price": "104.250"}, "STREET")
        assert found == Checked(Verdict.DIFFERS, name, ours, theirs)
    assert desk.check({"reference": "K3", "coupon": 4}, "STREET") == Checked(Verdict.BAD, reason="kind")


def test_refusals_ties_and_what_does_not_read_have_their_reasons(desk: muni.Client) -> None:
    asked: list[Mapping[str, muni.Field]] = [
        TRADED | {"cusip": "000000000", "days": 1}, TRADED | {"value": 101, "days": 1},
        TRADED | {"cusip": ZERO.cusip, "settle": date(2024, 1, 1), "value": 50, "price": Decimal("32.768")},
        TRADED | {"par": 0}, TRADED | {"price": "1.0005"}, {"value": 4}, TRADED | {"day_count": "x", "kind": "zero"},
        TRADED]
    assert [desk.check(row) for row in asked] == [
        Checked(Verdict.REFUSED, reason="UnknownIssue"), Checked(Verdict.REFUSED, reason="GivenOutOfRange"),
        Checked(Verdict.UNDECIDED, reason="price"), Checked(Verdict.BAD, reason="par"),
        Checked(Verdict.BAD, reason="price"), Checked(Verdict.BAD, reason="cusip"),
        Checked(Verdict.BAD, reason="dated"), Checked(Verdict.NOTHING)]


def test_nothing_of_a_row_has_to_be_escaped() -> None:
    _, body = answered("1,right\n", lambda desk: desk.check({"cusip": '12"3\\4', "price": "naïve\r"}, "STREET"))
    assert list(body)[:3] == ["desk", "reference", "cusip"]
    assert (body["cusip"], body["price"], body["value"]) == ("12?3?4", "na?ve?", "")


FALSE: list[tuple[Mapping[str, object], str, type[Exception]]] = [
    ({"prize": 1}, "STREET", ValueError), ({"price": 1.5}, "STREET", TypeError), ({"par": True}, "STREET", TypeError),
    ({"price": b"1"}, "STREET", TypeError), ({"price": 1}, "no desk", ValueError)]


@pytest.mark.parametrize(("row", "name", "error"), FALSE)
def test_what_is_no_row_is_told_before_anything_is_sent(row: Mapping[str, muni.Field], name: str,
                                                        error: type[Exception]) -> None:
    with pytest.raises(error):
        muni.Client("http://127.0.0.1:1", tries=1).check(row, name)


@pytest.mark.parametrize("text", ["\n", "1\n", "1,wrong\n", "1,differs,price,1\n", "1,differs,prize,1,2\n",
                                  "1,differs,price,x,2\n", "1,differs,price,1,2,OTHER\n", "1,bad,2,23\n", "1,bad,2,x\n",
                                  "1,refused,1\n", "1,undecided\n"])
def test_a_line_that_is_none_of_the_desk_is_told(text: str) -> None:
    with pytest.raises(muni.Status):
        answered(text, lambda desk: desk.check({}))


def test_the_formulas_are_those_of_the_page_of_rules() -> None:
    rules = (ROOT / "docs/RULES.md").read_text()
    table = rules[rules.index("| name | their formula |"):].split("\n\n")[0]
    assert [each.value for each in Reading] == re.findall(r"^\| `([A-Z ]+)` \|", table, re.M)
