"""Frames of pandas whose rows get figures by the program."""
from __future__ import annotations

import itertools
import json
import pathlib
import random
import warnings
from collections.abc import Iterator
from datetime import date, datetime
from decimal import Decimal
from typing import Any

import pytest

import muni
from support.books import Book
from support.exported import held, issue
from support.program import Program, program_path
from support.stores import ROWS, Store
from support.valued import lines

pandas: Any = pytest.importorskip("pandas", reason="pandas is missing")
PROGRAM = Program(program_path())
# Many rows of these tests have no figures.
pytestmark = pytest.mark.filterwarnings("ignore:.* rows have no figures")
NEW = ["price", "yield", "redemption", "redemption_price", "redemption_label", "days", "principal", "accrued",
       "commission", "total", "refusal"]
AMOUNTS = ["price", "yield", "redemption_price", "principal", "accrued", "commission", "total"]
RISK = ["current_yield", "duration", "convexity", "dv01"]
KNOWN = ROWS.decode().splitlines()[0].split(",")
CUSIP = "123456AA3"
COLUMNS = ["cusip", "par", "settle", "basis", "value", "fee", "side"]

ROW: dict[str, Any] = {"cusip": CUSIP, "par": 25000, "settle": date(2024, 4, 3), "basis": "price", "value": Decimal("104.25"),
                       "fee": Decimal("0.125"), "side": "sell"}


@pytest.fixture(scope="module")
def book(tmp_path_factory: pytest.TempPathFactory) -> Book:
    """A store with an issue that is known, and others of every kind, some of which are amended, and with trades."""
    store = Store("sqlite", tmp_path_factory.mktemp("frames") / "store")
    source = random.Random(3)
    return Book(PROGRAM, store).with_rows([KNOWN, *held(source, [issue(source, place) for place in range(20)])])


@pytest.fixture(scope="module")
def drawn() -> list[list[str]]:
    """Rows of every kind, as texts, with a field for each column."""
    source = random.Random(4)
    rows = lines(source, [issue(random.Random(3), place) for place in range(20)], 3000)
    texts = [row.decode().split(",") for row in rows]
    return [(text + [""] * 7)[:7] for text in texts if len(text) <= 7]


def valued(book: Book, frame: Any, **how: Any) -> Any:
    return muni.figures(frame, book.store.name, program=PROGRAM.path, **how)


def told(book: Book, rows: list[list[str]], *words: str) -> list[list[str]]:
    """The fields that the program writes on rows, behind their places, and those of its last line."""
    said = book.said("figures", *words, rows="".join(",".join(row) + "\n" for row in rows))
    assert said.status == 0
    return [line.split(",")[1:] for line in said.text.splitlines()]


def as_text(row: Any) -> str:
    """The texts of the new columns of a row."""
    return ",".join(str(row[name]) for name in NEW[:-1])


def test_a_frame_gets_what_the_program_writes(book: Book, drawn: list[list[str]]) -> None:
    frame = pandas.DataFrame(drawn, columns=COLUMNS)
    found = valued(book, frame, workers=2)
    assert list(found.columns) == COLUMNS + NEW
    assert found[COLUMNS].equals(frame)
    for (_, row), line in zip(found.iterrows(), told(book, drawn)):
        if line[0] == "figures":
            assert (as_text(row), row.refusal) == (",".join(line[2:]), None)
        else:
            name = line[2] if line[0] == "refused" else f"bad {COLUMNS[int(line[2]) - 1]}"
            assert row.refusal == name
            assert row[NEW[:-1]].isna().all()
    assert {"UnknownIssue", "bad par", None} <= set(found.refusal)


def test_amounts_are_decimals_and_days_are_days(book: Book) -> None:
    found = valued(book, pandas.DataFrame({"cusip": [CUSIP], "par": [25000], "settle": [date(2024, 4, 3)],
                                           "basis": [muni.Basis.YIELD], "value": [Decimal("4")]}))
    row = found.iloc[0]
    assert {type(row[name]) for name in NEW if name not in ("redemption", "redemption_label", "days", "refusal")} == {
        Decimal}
    assert (type(row.redemption), type(row.redemption_label), row.days) == (date, str, int(row.days))
    assert str(found.days.dtype) == "Int64"


@pytest.mark.parametrize("order", [COLUMNS[::-1], COLUMNS[2:] + COLUMNS[:2], [*COLUMNS, "note"]], ids=str)
def test_columns_stand_in_any_order(book: Book, order: list[str]) -> None:
    rows = [{**ROW, "note": "mine"}] * 2
    plain = valued(book, pandas.DataFrame(rows)[COLUMNS])
    found = valued(book, pandas.DataFrame(rows)[order])
    assert list(found.columns) == order + NEW
    assert found[NEW].equals(plain[NEW])


@pytest.mark.parametrize("left", [COLUMNS[:5], COLUMNS[:6], [*COLUMNS[:5], "side"]], ids=len)
def test_a_fee_and_a_side_may_be_left_out(book: Book, left: list[str]) -> None:
    found = valued(book, pandas.DataFrame([ROW])[left])
    assert found.commission[0] == (Decimal("31.25") if "fee" in left else Decimal("0.00"))


@pytest.mark.parametrize("index", [["b", "a", "a"], [7, 7, 7], pandas.to_datetime(["2024-01-03"] * 3),
                                   pandas.MultiIndex.from_tuples([(1, "x"), (1, "y"), (0, "x")])], ids=str)
def test_the_index_is_kept(book: Book, index: Any) -> None:
    frame = pandas.DataFrame([ROW, {**ROW, "par": 0}, {**ROW, "par": 5000}], index=index)
    found = valued(book, frame)
    assert found.index.equals(frame.index)
    assert list(found.refusal) == [None, "bad par", None]
    assert list(found.par) == [25000, 0, 5000]


def test_a_frame_without_rows_gets_the_columns(book: Book) -> None:
    found = valued(book, pandas.DataFrame(columns=COLUMNS))
    assert (list(found.columns), len(found)) == (COLUMNS + NEW, 0)


@pytest.mark.parametrize("missing", [None, float("nan"), pandas.NA, pandas.NaT, Decimal("NaN")], ids=str)
def test_a_missing_value_is_an_empty_field(book: Book, missing: Any) -> None:
    frame = pandas.DataFrame([ROW] + [{**ROW, name: missing} for name in COLUMNS], dtype=object)
    found = valued(book, frame)
    assert list(found.refusal) == [None] + [f"bad {name}" for name in COLUMNS[:5]] + [None, None]
    assert list(found.commission[-2:]) == [Decimal("0.00"), Decimal("31.25")]


def test_fields_may_have_other_types_than_those_of_a_trade(book: Book) -> None:
    plain = valued(book, pandas.DataFrame([ROW]))
    others = {"cusip": pandas.Categorical([CUSIP]), "par": pandas.array([25000], dtype="Int64"),
              "settle": pandas.to_datetime(["2024-04-03"]), "basis": [muni.Basis.PRICE], "value": ["104.2500"],
              "fee": [Decimal("1250E-4")], "side": [muni.Side.SELL]}
    assert valued(book, pandas.DataFrame(others))[NEW].equals(plain[NEW])
    assert valued(book, pandas.DataFrame([{**ROW, "settle": datetime(2024, 4, 3), "par": Decimal("25000.00")}]))[
        NEW].equals(plain[NEW])


@pytest.mark.parametrize(("name", "wrong"), [("par", True), ("value", b"4"), ("side", ["buy"]), ("fee", 1j)], ids=str)
def test_another_type_is_refused_by_its_column(book: Book, name: str, wrong: Any) -> None:
    with pytest.raises(TypeError, match=f"^{name}: .*not a {type(wrong).__name__}"):
        valued(book, pandas.DataFrame([ROW, {**ROW, name: wrong}]).astype(object))


@pytest.mark.parametrize("value", ["104.25", "101.123456", "99.000001", "100", "3.65", "0.00001", "1234.1"])
def test_a_float_is_the_number_that_was_typed(book: Book, value: str) -> None:
    """Also one that pandas makes of an int beside a missing value."""
    plain = valued(book, pandas.DataFrame([{**ROW, "value": Decimal(value)}, {**ROW, "par": None}]))
    frame = pandas.DataFrame([{**ROW, "value": float(value), "fee": 0.125}, {**ROW, "value": 104.25, "par": None}])
    assert (str(frame.value.dtype), str(frame.par.dtype)) == ("float64", "float64")
    assert valued(book, frame)[NEW].equals(plain[NEW])
    assert plain.refusal[1] == "bad par"


@pytest.mark.parametrize("wrong", [0.1 + 0.2, 1e-7, 99.1234567, 1e22, 12345678901234567.0, 1234567890.1234567,
                                   float("inf")], ids=str)
def test_a_float_that_may_not_be_what_was_typed_says_what_to_do(book: Book, wrong: float) -> None:
    with pytest.raises(ValueError, match=r"^value: .* may not be what was typed: round .*\.round\(3\), or give "):
        valued(book, pandas.DataFrame([ROW, {**ROW, "value": wrong}]))


def test_floats_that_are_rounded_as_the_error_says_are_taken(book: Book) -> None:
    frame = pandas.DataFrame([{**ROW, "value": 101.1}]).astype({"value": "float32"})
    with pytest.raises(ValueError, match="^value: 101.099998"):
        valued(book, frame)
    rounded = valued(book, frame.assign(value=frame.value.astype(float).round(3)))
    assert list(rounded.price) == [Decimal("101.100")]


@pytest.mark.parametrize("risk", [False, True], ids=["plain", "risk"])
def test_amounts_are_floats_if_that_is_asked(book: Book, drawn: list[list[str]], risk: bool) -> None:
    """They plot and correlate, and a row without figures has no number in them."""
    frame = pandas.DataFrame(drawn, columns=COLUMNS)
    plain, found = valued(book, frame, risk=risk), valued(book, frame, risk=risk, floats=True)
    amounts = AMOUNTS + (RISK if risk else [])
    assert {str(found[name].dtype) for name in amounts} == {"float64"}
    for name in amounts:
        assert found[name].equals(plain[name].map(float, na_action="ignore").astype(float))
    assert list(found.select_dtypes("number").columns) == [name for name in found.columns if name in {*amounts, "days"}]
    assert found[amounts].describe().loc["count", "price"] == found.refusal.isna().sum() > 2000
    assert found[["price", "yield", "accrued"]].corr().notna().all(axis=None)
    others = [name for name in found.columns if name not in amounts]
    assert found[others].equals(plain[others]) and found.attrs == plain.attrs


def test_risk_adds_what_the_program_does(book: Book, drawn: list[list[str]]) -> None:
    found = valued(book, pandas.DataFrame(drawn, columns=COLUMNS), workers=2, risk=True)
    assert list(found.columns) == COLUMNS + NEW[:-1] + RISK + NEW[-1:]
    lacking = set()
    for (_, row), line in zip(found.iterrows(), told(book, drawn, "--risk")):
        if line[0] == "figures":
            assert ["" if row[name] is None else str(row[name]) for name in RISK] == line[-4:]
            lacking.add(tuple(row[name] is None for name in RISK))
        else:
            assert row[RISK].isna().all()
    # All four are there, a note has no current yield, and a discounted note has none of them.
    assert lacking == {(False,) * 4, (True, False, False, False), (True,) * 4}


def test_the_total_says_how_many_rows_are_not_in_it(book: Book, drawn: list[list[str]]) -> None:
    frame = pandas.DataFrame(drawn, columns=COLUMNS)
    with pytest.warns(UserWarning, match="rows have no figures") as said:
        found = valued(book, frame)
    priced, money, rows = told(book, drawn)[-1]
    refused = int(found.refusal.notna().sum())
    assert found.attrs["total"] == {"priced": int(priced), "money": money, "rows": int(rows), "refused": refused}
    assert (int(priced), refused) == (len(drawn) - refused, refused) and 200 < refused < len(drawn)
    assert sum(found.total.dropna()) == Decimal(money)
    assert json.loads(json.dumps(found.attrs)) == found.attrs and frame.attrs == {}
    [warning] = said
    assert str(warning.message).startswith(f"{refused} of {rows} rows ") and warning.filename == __file__


def test_rows_that_all_have_figures_warn_of_nothing(book: Book) -> None:
    with warnings.catch_warnings():
        warnings.simplefilter("error")
        found = valued(book, pandas.DataFrame([ROW, ROW]))
        assert list(muni.figures_by_part([found[COLUMNS]], book.store.name, program=PROGRAM.path))[0].equals(found)
    assert found.attrs["total"]["refused"] == 0 and found.attrs["total"]["rows"] == 2


@pytest.mark.parametrize("wrong", ["A,B", "A\nB", "A\r", "\n"], ids=repr)
def test_a_text_that_is_more_than_a_field_is_refused(book: Book, wrong: str) -> None:
    with pytest.raises(ValueError, match="^side: "):
        valued(book, pandas.DataFrame([ROW, {**ROW, "side": wrong}]))


@pytest.mark.parametrize("wrong", ["é", "\ufeff" + CUSIP, "\0", '"', "9" * 5000],
                         ids=["letter", "mark", "nul", "quote", "long"])
def test_a_text_that_does_not_read_is_told_of_its_row(book: Book, wrong: str) -> None:
    found = valued(book, pandas.DataFrame([{**ROW, "cusip": wrong}, ROW]))
    assert list(found.refusal) == ["bad row" if len(wrong) > 4096 else "bad cusip", None]


def test_a_column_that_is_missing_or_would_be_lost_is_named(book: Book) -> None:
    with pytest.raises(ValueError, match="^columns: par, basis missing"):
        valued(book, pandas.DataFrame([ROW]).drop(columns=["par", "basis"]))
    with pytest.raises(ValueError, match="^columns: price, refusal would"):
        valued(book, pandas.DataFrame([{**ROW, "price": 1, "refusal": 2}]))


def test_frames_that_come_one_after_the_other_give_the_same(book: Book, drawn: list[list[str]],
                                                            tmp_path: pathlib.Path) -> None:
    frame = pandas.DataFrame(drawn, columns=COLUMNS)
    frame.to_csv(tmp_path / "rows.csv", index=False)
    whole = valued(book, frame)
    read = pandas.read_csv(tmp_path / "rows.csv", dtype=str, chunksize=700)
    parts = list(muni.figures_by_part(read, book.store.name, program=PROGRAM.path))
    assert [len(part) for part in parts] == [700] * (len(frame) // 700) + [len(frame) % 700]
    assert pandas.concat(parts)[NEW].equals(whole[NEW])
    assert sum(part.attrs["total"]["refused"] for part in parts) == whole.attrs["total"]["refused"]
    how: dict[str, Any] = {"program": PROGRAM.path, "risk": True, "floats": True}
    [numbers] = muni.figures_by_part([frame], book.store.name, **how)
    assert numbers.equals(muni.figures(frame, book.store.name, **how))


def test_no_more_frames_are_taken_than_are_used(book: Book) -> None:
    taken: list[int] = []

    def frames() -> Iterator[Any]:
        for place in itertools.count():
            taken.append(place)
            yield pandas.DataFrame([ROW])

    some = muni.figures_by_part(frames(), book.store.name, program=PROGRAM.path)
    next(some), next(some)
    assert taken == [0, 1]


def test_a_program_that_fails_is_told_of(book: Book, tmp_path: pathlib.Path) -> None:
    frame = pandas.DataFrame([ROW])
    with pytest.raises(muni.Ended) as ended:
        muni.figures(frame, tmp_path / "no" / "store", program=PROGRAM.path)
    assert ended.value.status == 6
    cutting = tmp_path / "cutting"
    cutting.write_text(f'#!/bin/sh\n"{PROGRAM.path}" "$@" | head -c 40\n')
    cutting.chmod(0o755)
    with pytest.raises(muni.Error, match="^a line is cut: b'1,figures"):
        muni.figures(frame, book.store.name, program=cutting)


def test_progress_is_shown_by_tqdm(book: Book, capfd: pytest.CaptureFixture[str], monkeypatch: pytest.MonkeyPatch) -> None:
    pytest.importorskip("tqdm", reason="tqdm is missing")
    frame = pandas.DataFrame([ROW] * 3)
    valued(book, frame, progress=True)
    assert "3.00/3.00" in capfd.readouterr().err
    monkeypatch.setitem(__import__("sys").modules, "tqdm", None)
    assert valued(book, frame, progress=True).equals(valued(book, frame))
    assert capfd.readouterr().err == ""
