"""examples/unpad: what a spreadsheet made of the rows of an import is put back, or told. gnumeric is a real one."""
from __future__ import annotations

import pathlib
import re
import subprocess
import sys

import pytest

from support.program import PATIENCE, ROOT, Program, needs
from support.stores import Store

SCRIPT = ROOT / "examples/unpad"
BOOK = (ROOT / "examples/book.csv").read_bytes()
BOOK_REPORT = (ROOT / "examples/book.report").read_bytes()
# The row of the book that ends too early. A spreadsheet fills it up, and it lacks the settlement then.
SHORT_ROW, FILLED_UP = b"83,bad,1\n", b"83,bad,2,7\n"
LEFT_OUT = "; this row is left out"


def unpad(sheet: bytes | str, *words: str) -> tuple[int, str, list[str]]:
    """The status, the rows, and what is told."""
    said = subprocess.run([sys.executable, SCRIPT, *words], capture_output=True, timeout=PATIENCE,
                          input=sheet.encode() if isinstance(sheet, str) else sheet)
    return said.returncode, said.stdout.decode(), said.stderr.decode().splitlines()


def saved(folder: pathlib.Path, sheet: bytes, kind: str) -> bytes:
    """What is in a CSV after gnumeric has read it, and has saved it as a sheet of its own and that as a CSV again."""
    needs("ssconvert")
    (folder / "sheet.csv").write_bytes(sheet)
    for source, target in (("sheet.csv", f"sheet.{kind}"), (f"sheet.{kind}", "again.csv")):
        subprocess.run(["ssconvert", source, target], cwd=folder, capture_output=True, timeout=PATIENCE, check=True)
    return (folder / "again.csv").read_bytes()


def issue(days: str, cusip: str = "990010AC4") -> str:
    return f"issue,{cusip},RIVERTON,periodic,{days},5,2030-07-01:100+\n"


def trade(reference: str = "R0001", cusip: str = "990010AC4", settle: str = "2024-04-03") -> str:
    return f"trade,RETAIL,{reference},{cusip},buy,25000,{settle},price,107.5\n"


# A row of each name, with days as the desk reads them.
ROWS = (issue("2024-01-01,2024-07-01,2034-07-01")
        + issue("2024-01-01,,2034-07-01").replace("issue,990010AC4", "amend,990010AC4,2")
        + trade() + trade().replace("trade", "correct").replace("R0001", "R0001,2") + "cancel,RETAIL,R0001,3\n")


def days_as(form: str) -> str:
    return re.sub(r"(\d{4})-(\d\d)-(\d\d)(?!:)", lambda day: form.format(
        y=day[1], m=int(day[2]), d=int(day[3]), mm=day[2], dd=day[3]), ROWS)


@pytest.mark.parametrize(("form", "words"), [
    ("{y}/{mm}/{dd}", ()), ("{y}/{m}/{d}", ("--day-first",)), ("{m}/{d}/{y}", ("--month-first",)),
    ("{mm}/{dd}/{y}", ("--month-first",)), ("{d}/{m}/{y}", ("--day-first",)), ("{y}-{mm}-{dd}", ("--month-first",))])
def test_the_days_of_each_row_are_put_back(form: str, words: tuple[str, ...]) -> None:
    assert unpad(days_as(form), *words) == (0, ROWS, [])


def test_a_day_of_two_readings_is_put_back_as_it_is_said() -> None:
    row = trade(settle="4/3/2024")
    for words, day in ((["--month-first"], "2024-04-03"), (["--day-first"], "2024-03-04")):
        assert unpad(row, *words) == (0, trade(settle=day), [])
    status, rows, [told] = unpad(trade() + row)
    assert (status, rows) == (1, trade() + row)
    assert told == "unpad: row 2: '4/3/2024' is no day; --month-first or --day-first says how it reads"


@pytest.mark.parametrize(("saved_as", "typed"), [
    ("2.7449999999999999999", "2.745"), ("0.0050000000000000000001", "0.005"), ("107.50000000000000001", "107.5"),
    ("-0.25000000000000000001", "-0.25"), ("2.1234567", "2.1234567"), ("107.50", "107.50"), ("99.123456", "99.123456")])
def test_a_decimal_has_the_digits_that_were_typed(saved_as: str, typed: str) -> None:
    for row in (trade().replace("107.5", "{0},{0}"), "correct,RETAIL,R1,2,990010AC4,buy,1,2024-04-03,yield,{0},{0}\n",
                issue("2024-01-01,2024-07-01,2034-07-01").replace(",5,", ",{0},")):
        assert unpad(row.format(saved_as)) == (0, row.format(typed), [])


@pytest.mark.parametrize("day", ["2024/13/01", "2024/02/30", "13/3/2024", "4/3/24", "45385", "20240403", "2024-W14-3",
                                 "3.4.2024", "2024-4-3", "\x1b[2J"])
def test_what_is_no_day_stays_and_is_told(day: str) -> None:
    status, rows, [told] = unpad(trade(settle=day), "--month-first")
    assert (status, rows) == (1, trade(settle=day))
    assert told == f"unpad: row 1: {day!r} is no day"


@pytest.mark.parametrize(("reference", "why"), [
    ("202404030", "may have been 20240403E0001"), ("20240403", "may have been 20240403E0000"),
    ("2024040300000", "may have been 20240403E0005"),
    ("1234567890123456", "has more digits than the 15 that a spreadsheet keeps")])
def test_a_reference_that_may_have_been_another_is_left_out(reference: str, why: str) -> None:
    for name in ("trade", "correct", "cancel"):
        row = {"trade": trade(reference), "cancel": f"cancel,RETAIL,{reference},2\n",
               "correct": trade(f"{reference},2").replace("trade", "correct")}[name]
        assert unpad(trade() + "\n" + row + trade("R0002")) == (
            1, trade() + trade("R0002"), [f"unpad: row 3: the reference {reference} {why}{LEFT_OUT}"])


@pytest.mark.parametrize("reference", ["R0001", "20240403A0001", "20240403001", "20241303000", "12345", "00123", "100",
                                       "123456789012345"])
def test_other_references_are_taken(reference: str) -> None:
    assert unpad(trade(reference)) == (0, trade(reference), [])


def test_a_reference_of_digits_alone_has_as_many_as_is_said() -> None:
    rows = [trade(reference) for reference in ("123", "00123", "202404030", "R1", "2024A")]
    assert unpad("".join(rows), "--digits=5") == (1, rows[1] + rows[3] + rows[4], [
        f"unpad: row 1: the reference 123 has 3 digits and not 5{LEFT_OUT}",
        f"unpad: row 3: the reference 202404030 has 9 digits and not 5{LEFT_OUT}"])
    assert unpad("".join(rows[2:]), "--digits=9") == (0, "".join(rows[2:]), [])


@pytest.mark.parametrize(("row", "why"), [
    (trade(cusip="7.27443E+38"), "the CUSIP became the number 7.27443E+38"),
    (trade(cusip="37833100"), "the CUSIP 37833100 has 8 digits and not 9: zeros in front may be lost"),
    (issue("2024-01-01,2024-07-01,2034-07-01", "1E+12"), "the CUSIP became the number 1E+12"),
    (trade("2.0240403E+130"), "the reference became the number 2.0240403E+130")])
def test_what_became_a_number_stays_and_is_told(muni: Program, tmp_path: pathlib.Path, row: str, why: str) -> None:
    assert unpad(row) == (1, row, [f"unpad: row 1: {why}"])
    # The import says that it is bad.
    said = muni.run("import", Store("sqlite", tmp_path / "store").word, rows=row)
    assert said.output.startswith(b"1,bad,2,")


def test_other_rows_and_cells_are_as_they_were() -> None:
    rows = 'name,2024/04/03,7E+5\n"issue",2024/04/03\ntrade,A\n\n,,\ntrade,A,R1,990010AC4,buy,1,,price,1,,,,\n'
    assert unpad(rows) == (0, "name,2024/04/03,7E+5\nissue,2024/04/03\ntrade,A\n"
                              "trade,A,R1,990010AC4,buy,1,,price,1,,\n", [])


@pytest.mark.parametrize("words", [["--month-first", "--day-first"], ["--digits"], ["--digits=x"], ["--days"], ["sheet"]],
                         ids=str)
def test_other_words_are_refused(words: list[str]) -> None:
    status, rows, told = unpad(trade(), *words)
    assert (status, rows) == (2, "") and told[0].startswith("usage: ")


@pytest.mark.parametrize("kind", ["xlsx", "ods", "gnumeric"])
def test_a_book_that_a_spreadsheet_saved_is_imported_as_it_was(muni: Program, tmp_path: pathlib.Path, kind: str) -> None:
    sheet = saved(tmp_path, BOOK, kind)
    # It has changed the days and filled up the shorter rows.
    assert b"2024/04/03" in sheet and b"2024-04-03" not in sheet
    store = Store("sqlite", tmp_path / "store")
    assert muni.run("import", store.word, rows=sheet).output.count(b"confirmed") == 0
    status, rows, told = unpad(sheet)
    assert (status, told) == (0, [])
    assert muni.run("import", store.word, rows=rows).output == BOOK_REPORT.replace(SHORT_ROW, FILLED_UP)


def test_what_a_spreadsheet_takes_for_numbers_is_told(tmp_path: pathlib.Path) -> None:
    """The letter E makes a number of a reference and of a CUSIP, and zeros in front are lost."""
    references = ["20240403A0001", "20240403E0001", "20240403E0005", "20240403E0130", "20240403000000000001"]
    sheet = "".join([issue("2024-01-01,2024-07-01,2034-07-01", "727443E33"), trade(cusip="037833100"),
                     *map(trade, references)])
    status, rows, told = unpad(saved(tmp_path, sheet.encode(), "xlsx"))
    assert (status, [row.split(",")[2] for row in rows.splitlines()]) == (
        1, ["RIVERTON", "R0001", "20240403A0001", "2.0240403E+137"])
    assert told == [
        "unpad: row 1: the CUSIP became the number 7.27443E+38",
        "unpad: row 2: the CUSIP 37833100 has 8 digits and not 9: zeros in front may be lost",
        f"unpad: row 4: the reference 202404030 may have been 20240403E0001{LEFT_OUT}",
        f"unpad: row 5: the reference 2024040300000 may have been 20240403E0005{LEFT_OUT}",
        "unpad: row 6: the reference became the number 2.0240403E+137",
        f"unpad: row 7: the reference 20240403000000000000 may have been 20240403E0012{LEFT_OUT}"]
