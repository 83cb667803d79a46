"""Frames of figures that another firm printed, which the program checks."""
from __future__ import annotations

import csv
import pathlib
from datetime import date
from decimal import Decimal
from typing import Any

import pytest

import muni
from support.books import Book
from support.program import ROOT, Program, program_path
from support.stores import AMENDED_ROWS, Store

pandas: Any = pytest.importorskip("pandas", reason="pandas is missing")
PROGRAM = Program(program_path())
STREET = ROOT / "examples" / "street.csv"
NEW = ["verdict", "differs", "ours", "reading", "reason"]
TRADED: dict[str, Any] = {"cusip": "123456AA3", "par": 25000, "settle": date(2024, 4, 1), "basis": muni.Basis.YIELD,
                          "value": Decimal(4)}


@pytest.fixture(scope="module")
def kept(tmp_path_factory: pytest.TempPathFactory) -> Book:
    """A store with an issue that was amended and trades of ALPHA in it, of which three are live."""
    found = Book(PROGRAM, Store("sqlite", tmp_path_factory.mktemp("checks") / "store"))
    found.report(AMENDED_ROWS)
    return found


def checked(frame: Any, book: Book | None = None, **how: Any) -> Any:
    return muni.check(frame, None if book is None else book.store.name, program=PROGRAM.path, **how)


def verdicts(frame: Any) -> list[tuple[Any, ...]]:
    return [tuple(row) for row in frame[NEW].itertuples(index=False)]


def test_the_street_is_checked_as_the_program_says_it() -> None:
    with open(STREET, encoding="ascii", newline="") as file:
        names, *rows = csv.reader(file)
    found = checked(pandas.DataFrame(rows, columns=names, index=range(100, 140)))
    assert list(found.columns) == names + NEW and list(found.index) == list(range(100, 140))
    told = [line.split(",") for line in (ROOT / "examples" / "street.report").read_text().splitlines()[:-1]]
    assert [row[1] for row in told] == list(found["verdict"])
    assert [row[5] if len(row) > 5 else None for row in told] == list(found["reading"])
    assert found.attrs["missing"] == []


def test_each_kind_of_figure_is_of_its_type(kept: Book) -> None:
    right = {"price": Decimal("100.725"), "yield": "4.000", "redemption": date(2025, 1, 1), "days": 90,
             "principal": Decimal("25181.25"), "accrued": Decimal("312.50"), "total": Decimal("25493.75")}
    wrong = {"price": Decimal(1), "yield": Decimal("-3.5"), "redemption": date(2030, 1, 1), "days": 1, "principal": 1,
             "accrued": "1.5", "total": Decimal("0.01")}
    frame = pandas.DataFrame([TRADED | right] + [TRADED | right | {name: value} for name, value in wrong.items()])
    assert verdicts(checked(frame, kept)) == [("right", None, None, None, None)] + [
        ("differs", name, Decimal(value) if name == "yield" else value, None, None) for name, value in right.items()]


def test_a_missing_value_is_not_stated_and_other_columns_stay(kept: Book) -> None:
    frame = pandas.DataFrame([TRADED | {"price": None, "desk": "X"}, TRADED | {"price": Decimal("100.725"), "desk": None}])
    found = checked(frame, kept)
    assert verdicts(found) == [("nothing", None, None, None, None), ("right", None, None, None, None)]
    assert list(found["desk"]) == ["X", None]


def test_the_trades_of_a_desk_are_looked_up(kept: Book) -> None:
    frame = pandas.DataFrame({"reference": ["T0002", "T9"], "price": ["100.725", "1"]})
    found = checked(frame, kept, desk="ALPHA")
    assert verdicts(found) == [("right", None, None, None, None), ("missing", None, None, None, None)]
    assert found.attrs["missing"] == ["T0001", "T0003"]


def test_what_is_stated_of_a_kept_trade_is_compared_with_it(kept: Book) -> None:
    """The trade is bought: 25,000 of an issue of 5 percent at a yield of 4."""
    same = {"side": muni.Side.BUY, "fee": Decimal(0), "kind": muni.Kind.PERIODIC, "dated": date(2020, 1, 1),
            "first": date(2020, 7, 1), "maturity": date(2025, 1, 1), "coupon": 5, "calls": None, "day_count": "30/360"}
    whole = {"reference": "T0001", "price": Decimal("100.725")} | TRADED | same
    wrong = {"cusip": "990000010", "side": muni.Side.SELL, "par": 2500, "settle": date(2024, 4, 2),
             "basis": muni.Basis.PRICE, "value": Decimal("4.5"), "fee": Decimal("0.25"), "kind": muni.Kind.ZERO,
             "dated": date(2019, 1, 1), "first": date(2021, 1, 1), "maturity": date(2026, 1, 1),
             "coupon": Decimal("5.5"), "calls": "2024-07-01:100", "day_count": "actual/365"}
    ours = {"cusip": "123456AA3", "side": "buy", "par": 25000, "settle": date(2024, 4, 1), "basis": "yield",
            "value": Decimal("4.0000"), "fee": Decimal("0.000"), "kind": "periodic", "dated": date(2020, 1, 1),
            "first": date(2020, 7, 1), "maturity": date(2025, 1, 1), "coupon": Decimal(5), "calls": "",
            "day_count": "30/360"}
    right, none = ("right", None, None, None, None), ("nothing", None, None, None, None)
    assert verdicts(checked(pandas.DataFrame([whole]), kept, desk="ALPHA")) == [right]
    for name, value in wrong.items():
        # An issue that pays no interest has no first interest date.
        rest = {"first": None, "coupon": None} if name == "kind" else {}
        frame = pandas.DataFrame([whole | {name: value} | rest, {"reference": "T0002"}], dtype=object)
        assert verdicts(checked(frame, kept, desk="ALPHA")) == [("differs", name, ours[name], None, None), none]


def test_a_reference_that_comes_again_names_the_row_of_the_first(kept: Book) -> None:
    frame = pandas.DataFrame({"reference": ["T0002", "T9", "T0002", "T9"], "price": ["1", "1", "100.725", ""]},
                             index=["a", "b", "c", "d"])
    found = checked(frame, kept, desk="ALPHA")
    assert verdicts(found) == [("differs", "price", Decimal("100.725"), None, None), ("missing", *[None] * 4),
                               ("again", None, None, None, "a"), ("again", None, None, None, "b")]
    assert list(checked(frame, kept)["verdict"]) == ["bad"] * 4


def test_refusals_and_what_does_not_read_have_their_reasons(kept: Book) -> None:
    stated = TRADED | {"price": 1}
    frame = pandas.DataFrame([stated | {"cusip": "990000010"}, stated | {"par": 0}, stated | {"value": 101}])
    assert verdicts(checked(frame, kept)) == [
        ("refused", None, None, None, "UnknownIssue"), ("bad", None, None, None, "par"),
        ("refused", None, None, None, "GivenOutOfRange")]
    assert list(checked(frame[["cusip", "par"]], kept)["reason"]) == ["row", "par", "row"]


def test_floats_are_the_numbers_that_were_typed(kept: Book) -> None:
    frame = pandas.DataFrame([TRADED | {"value": 4.0, "price": 100.725, "total": 25493.75},
                              TRADED | {"value": 4.0, "price": 100.726, "total": 25493.75}])
    assert verdicts(checked(frame, kept)) == [("right", None, None, None, None),
                                              ("differs", "price", Decimal("100.725"), None, None)]


def test_no_rows_have_no_verdicts(kept: Book) -> None:
    found = checked(pandas.DataFrame({"cusip": [], "price": []}), kept)
    assert list(found.columns) == ["cusip", "price"] + NEW and len(found) == 0


@pytest.mark.parametrize(("frame", "error"), [
    ({"name": ["x"]}, ValueError), ({"cusip": ["123456AA3"], "ours": [1]}, ValueError), ({"value": [0.1 + 0.2]}, ValueError),
    ({"cusip": ["12\r3"]}, ValueError)])
def test_a_frame_that_cannot_be_asked_is_told(frame: dict[str, Any], error: type[Exception]) -> None:
    with pytest.raises(error):
        checked(pandas.DataFrame(frame))


def test_a_program_that_fails_is_told(tmp_path: pathlib.Path) -> None:
    (tmp_path / "S").write_bytes(b"no store")
    for name in ("S", "none"):
        with pytest.raises(muni.Ended) as ended:
            muni.check(pandas.DataFrame({"cusip": ["x"]}), tmp_path / name, program=PROGRAM.path)
        assert ended.value.status == 6
    assert [each.name for each in tmp_path.iterdir()] == ["S"]


def test_lines_that_are_not_whole_are_told(tmp_path: pathlib.Path, monkeypatch: pytest.MonkeyPatch) -> None:
    program = tmp_path / "program"
    program.write_text("#!/bin/sh\necho 1,right\necho $TOTAL\n")
    program.chmod(0o755)
    for total in ("TOTAL,2,2,0,0,0,0", "TOTAL,1,1,0,0,0,1", "TOTAL,1,1,0,0"):
        monkeypatch.setenv("TOTAL", total)
        with pytest.raises(muni.Error):
            muni.check(pandas.DataFrame({"cusip": ["x"]}), program=program)
    monkeypatch.setenv("TOTAL", "TOTAL,1,1,0,0,0,0")
    assert list(muni.check(pandas.DataFrame({"cusip": ["x"]}), program=program)["verdict"]) == ["right"]
