"""examples/joined: the rows of a file that were not kept, each with what is wrong and what to do, and files that do not
belong together."""
from __future__ import annotations

import bisect
import doctest
import json
import os
import pathlib
import pty
import re
import runpy
import subprocess
import sys
import tempfile
from collections.abc import Callable
from typing import NamedTuple

import pytest
from calculator import rows as calculated
from hypothesis import given
from hypothesis import strategies as st

from support.drawn import texts
from support.program import PATIENCE, ROOT, Program, Said
from support.stores import Store
from support.tables import bytes_of, cases

SCRIPT = ROOT / "examples/joined"
PARTS = runpy.run_path(str(SCRIPT))
REFUSALS = json.loads((ROOT / "docs/refusals.json").read_text())["refusals"]
BOOK = (ROOT / "examples/book.csv").read_bytes()
BOOK_REPORT = (ROOT / "examples/book.report").read_bytes()

ISSUE = "issue,123456AA3,RIVERTON WATER 5S 2025,periodic,2020-01-01,2020-07-01,2025-01-01,5,"
ZERO = "issue,990000010,ZERO CALLED AT PAR,zero,2020-01-01,,2030-01-01,,2026-07-01:100!"
ASKED = "123456AA3,buy,25000,2024-04-01,yield,4"

# T0001 has one version, T0002 is canceled, and T0003 has as many versions as a trade may have.
KEPT = [ISSUE, ZERO, f"trade,ALPHA,T0001,{ASKED}", f"trade,ALPHA,T0002,{ASKED}", "cancel,ALPHA,T0002,2",
        f"trade,ALPHA,T0003,{ASKED}", *(f"correct,ALPHA,T0003,{each},{ASKED}" for each in range(2, 100))]

NEW = "trade,ALPHA,NEW,"
# The rows of a day, each with its title if it is not kept, and with a part of what is said of it.
DAY: list[tuple[str, str, str]] = [
    ("issue,123456AB1,RIVERTON 5S 2030,periodic,2020-01-01,2020-07-01,2030-01-01,5,", "", ""),
    (f"trade,ALPHA,T0004,{ASKED}", "", ""),
    (f"correct,ALPHA,T0004,02,{ASKED},", "", ""),
    ("cancel,ALPHA,T0004,3", "", ""),
    # Other terms of an issue, a trade by the first ones, and one by the last
    ("amend,123456AB1,02,RIVERTON 5S 2030,periodic,2020-01-01,2020-07-01,2030-01-01,5,2025-01-01:100+", "", ""),
    ("trade,ALPHA,T0006,123456AB1,buy,25000,2024-04-01,yield,4,,1", "", ""),
    ("trade,ALPHA,T0007,123456AB1,buy,25000,2024-04-01,yield,4,0", "", ""),
    # Sent again
    (ISSUE, "", ""),
    (f'trade,"ALPHA","T0001",{ASKED}', "", ""),
    # Every refusal that needs no full desk
    (f"{NEW}123456AA4,buy,25000,2024-04-01,yield,4", "refused, UnknownIssue", "or add the issue first."),
    ("cancel,ALPHA,T0009,2", "refused, UnknownTrade", "Check the desk and the reference"),
    (ISSUE + "2022-01-01:101+", "refused, Conflict", "Compare the terms"),
    (f"trade,ALPHA,T0001,{ASKED}5", "refused, Conflict", "Correct it under the next number"),
    ("amend,123456AB1,1,RIVERTON 5S 2030,periodic,2020-01-01,2020-07-01,2030-01-01,4,", "refused, Conflict",
     "Compare the terms"),
    ("amend,123456AB1,4,RIVERTON 5S 2030,periodic,2020-01-01,2020-07-01,2030-01-01,4,", "refused, WrongNumber",
     "which `export --issues` shows"),
    (f"{NEW}{ASKED},,2", "refused, WrongNumber", "A trade goes by terms that are kept"),
    ('issue,123456AA3,"RIVERTON\n\n""WATER"", 5S",periodic,2020-01-01,2020-07-01,2025-01-01,5,',
     "refused, BadTerms", "Mend the terms. A report does not say which test fails"),
    (f"{NEW}123456AA3,buy,25000,2025-01-01,yield,4", "refused, SettleOutside", "not before maturity"),
    (f"{NEW}123456AA3,buy,25000,2024-04-01,yield,999.999", "refused, GivenOutOfRange", "a slipped point"),
    (f"{NEW}990000010,buy,25000,2026-06-01,price,250", "refused, YieldBelow", "Check the price against"),
    (f"{NEW}123456AA3,buy,25000,2024-04-01,price,1", "refused, YieldAbove", "Check the price for a slipped point."),
    (f"{NEW}123456AA3,buy,25000,2024-12-31,price,99", "refused, NoTime", "Settle on another day"),
    (f"{NEW}990000010,buy,25000,2024-01-01,yield,50", "refused, Undecided", "the last digit suffices."),
    ("cancel,ALPHA,T0002,3", "refused, Canceled", "Enter a new trade under another reference."),
    ("cancel,ALPHA,T0001,7", "refused, WrongNumber", "one more than that of the last version"),
    (f"correct,ALPHA,T0003,100,{ASKED}", "refused, VersionsFull", "Cancel the trade"),
    (f"{NEW}123456AA3,buy,25000,2024-04-01,rate,4", "refused, WrongBasis", "Give a price"),
    # Rows that are none
    ("type,desk,reference", "bad, no name",
     'Its first field "type" is none of issue, amend, trade, correct and cancel.'),
    (f"Trade,ALPHA,T0005,{ASKED}", "bad, no name", 'Its first field "Trade" is none of'),
    ('"trade,ALPHA,T0005', "bad, no name", ""),
]
# What stands at the end of a day: a quote that is not closed goes on to the end of the file.
UNCLOSED = DAY.pop()
DAY += [
    (f"trade,ALPHA,T0005,{ASKED},0.5,,", "bad, another number of fields", "Cut off the empty fields at its end"),
    ("trade,ALPHA,T0005,123456AA3,buy,25,000,2024-04-01,yield,4,0.5,1", "bad, another number of fields",
     "A row `trade` has 9 to 11 fields with its name, and this one has 12."),
    ("trade,ALPHA,T0005,123456AA3,buy,25,000,2024-04-01,yield,4,0.5,1", "bad, another number of fields",
     "Put a field that has a comma in quotes"),
    ("cancel,ALPHA,T0001", "bad, another number of fields", "has 4 fields with its name, and this one has 3."),
    ("cancel,ALPHA,T0001", "bad, another number of fields", "Add the fields that are missing"),
    ('trade,"ALPHA"s,T0005,' + ASKED, "bad, column 2", 'Its DESK "ALPHAs" does not read.'),
    ("trade,ALPHA,T0005,123456AA3,buy,25000.50,2024-04-01,yield,4", "bad, column 6",
     'Its PAR "25000.50" does not read. It has to be whole dollars without commas'),
    ("trade,ALPHA,T0005,123456AA3,buy,25000,2024-04-01,price,1002.5", "bad, column 9", "It has to be dollars per 100"),
    ("trade,ALPHA,T0005,123456AA3,buy,25000,2024-04-01,yield,-100", "bad, column 9", "It has to be percent"),
    ("trade,ALPHA,T0005,123456AA3,,25000,2024-04-01,yield,4", "bad, column 5", 'Its SIDE "" does not read.'),
    ('trade,ALPHA,"T\n5",' + ASKED, "bad, column 3", "Its REFERENCE does not read."),
    ("issue,990000028," + "N" * 61 + ",zero,2020-01-01,,2030-01-01,,", "bad, column 3", "Its NAME does not read."),
    ("trade,ALPHA,\x1b[31m\x00,é,buy,1,2024-04-01,yield,4", "bad, column 3", "Its REFERENCE does not read."),
    ("\ufefftrade,ALPHA,T0005," + ASKED, "bad, no name", "Its first field is none of"),
]


class Block(NamedTuple):
    """What is told of one row."""

    place: int
    line: int
    title: str
    row: list[str]
    text: str


def ran(*words: object, **how: object) -> Said:
    told = subprocess.run([sys.executable, SCRIPT, *map(str, words)], timeout=PATIENCE,
                          **{"stdout": subprocess.PIPE, "stderr": subprocess.PIPE, **how})
    return Said(told.returncode, told.stdout or b"", told.stderr or b"")


@pytest.fixture
def joined(tmp_path: pathlib.Path) -> Callable[[bytes, bytes], Said]:
    """What is said of a file and a report."""
    def told(rows: bytes, report: bytes) -> Said:
        (tmp_path / "rows.csv").write_bytes(rows)
        (tmp_path / "report.csv").write_bytes(report)
        said = ran(tmp_path / "rows.csv", tmp_path / "report.csv")
        assert b"Traceback" not in said.error and said.error.count(b"\n") == (said.status == 2)
        return said

    return told


def blocks(said: Said) -> list[Block]:
    """The blocks of the rows. Nothing stands between them."""
    *parts, last = said.text.split("\n\n")
    assert re.fullmatch(r"\d+ rows?: \d+ kept, \d+ refused, \d+ bad(, \d+ without a line)?\.\n", last)
    found = []
    for part in parts:
        head, *lines = part.split("\n")
        place, line, title = re.fullmatch(r"Row (\d+), at line (\d+): (.*)", head).groups()
        row = [each[4:] for each in lines if each.startswith("    ")]
        found.append(Block(int(place), int(line), title, row, "\n".join(lines[len(row):])))
    return found


def last_line(said: Said) -> str:
    return said.text.splitlines()[-1]


def imported(muni: Program, folder: pathlib.Path, *several: bytes) -> bytes:
    """The report on the last of several files, which are imported in turn into the store of a folder."""
    store = Store("journal", folder / "S")
    reports = [muni.run("import", store.word, rows=rows) for rows in several]
    assert {said.status for said in reports} == {0}
    return reports[-1].output


# What is told of rows

def test_the_rows_of_the_book_that_were_not_kept_are_told(joined):
    said = joined(BOOK, BOOK_REPORT)
    report, rows = BOOK_REPORT.decode().splitlines(), BOOK.decode().splitlines()
    wanted = [(place, place, [row]) for place, (row, line) in enumerate(zip(rows, report), 1)
              if line.split(",")[1] in ("refused", "bad")]
    assert [(each.place, each.line, each.row) for each in blocks(said)] == wanted
    assert (said.status, last_line(said)) == (1, "84 rows: 71 kept, 11 refused, 2 bad.")


@pytest.mark.parametrize("mark", [b"", b"\xef\xbb\xbf"], ids=["plain", "after a mark"])
@pytest.mark.parametrize("end", ["\n", "\r\n", "\r"], ids=["LF", "CRLF", "CR"])
def test_each_outcome_is_told_with_its_line(muni, tmp_path, joined, mark, end):
    rows = [*DAY, UNCLOSED]
    # Two empty lines stand in front, and one after each row.
    text = "\n\n" + "\n\n".join(row for row, _, _ in rows) + "\n\ncancel,ALPHA,T0001,3\n"
    data = mark + text.replace("\n", end).encode()
    report = imported(muni, tmp_path, "\n".join(KEPT).encode(), data)
    said = joined(data, report)
    wanted, line = [], 3
    for place, (row, title, _) in enumerate(rows, 1):
        if title:
            wanted.append((place, line, title, row.split("\n")))
        line += row.count("\n") + 2
    *_, (place, at, title, shown) = wanted
    wanted[-1] = (place, at, title, [*shown, "", "cancel,ALPHA,T0001,3", ""])
    told = blocks(said)
    assert [each[:4] for each in told] == wanted
    for each in told:
        assert rows[each.place - 1][2] in each.text, each
        assert ("It goes on to line" in each.text) == (len(each.row) > 1)
        assert "\nWhat to do: " in "\n" + each.text
    refused, bad = (sum(title.startswith(what) for _, title, _ in rows) for what in ("refused", "bad"))
    assert (said.status, last_line(said)) == (
        1, f"{len(rows)} rows: {len(rows) - refused - bad} kept, {refused} refused, {bad} bad.")


def test_the_day_has_each_refusal_but_that_of_a_full_desk():
    titles = {title for _, title, _ in DAY if title.startswith("refused")}
    assert titles == {f"refused, {each['name']}" for each in REFUSALS} - {"refused, DeskFull"}


def test_a_row_goes_on_to_the_line_at_which_it_ends(joined):
    said = joined(b'\nissue,"a\r\nb\rc",d\ncancel,ALPHA,T1,2\n', b"1,bad,1\n2,refused,2,UnknownTrade\n")
    first, second = blocks(said)
    assert (first.line, first.row, second.line) == (2, ['issue,"a', "b", 'c",d'], 5)
    assert "It goes on to line 4, in quotes." in first.text


@pytest.mark.parametrize("refusal", REFUSALS, ids=[each["name"] for each in REFUSALS])
@pytest.mark.parametrize("row", [f"trade,ALPHA,T0001,{ASKED}", ISSUE], ids=["trade", "issue"])
def test_a_refusal_is_told_in_the_words_of_its_table(joined, refusal, row):
    said = joined(row.encode(), f"1,refused,{refusal['number']},{refusal['name']}\n".encode())
    todo = refusal["todo"]
    if isinstance(todo, dict):
        todo = todo[row.split(",")[0]]
    [block] = blocks(said)
    assert block.title == f"refused, {refusal['name']}"
    means, do = block.text.splitlines()
    assert (means.lower(), said.status) == (refusal["means"].lower() + ".", 1)
    assert (do + " ").lower().startswith(f"what to do: {todo.lower()}. ")
    assert last_line(said) == "1 row: 0 kept, 1 refused, 0 bad."


def test_rows_are_shown_as_they_are_byte_for_byte(joined):
    row = b'cancel,\xff\x00\x85\xe2\x80\xa8\x1b[0m\t "\xc3\xa9",T1,2'
    said = joined(b"\xef\xbb\xbf" + row + b"\r\n", b"1,bad,2,2\n")
    assert said.output.splitlines()[1] == b"    " + row


def test_a_terminal_is_shown_nothing_that_it_obeys(tmp_path):
    (tmp_path / "rows").write_bytes(b"trade,\x1b]0;forged\x07,1\n")
    (tmp_path / "report").write_bytes(b"1,bad,2,2\n")
    told, terminal = pty.openpty()
    process = subprocess.Popen([SCRIPT, tmp_path / "rows", tmp_path / "report"], stdout=terminal, stderr=terminal)
    process.wait(timeout=PATIENCE)
    os.close(terminal)
    shown = os.read(told, 4096)
    os.close(told)
    assert b"trade,?]0;forged?,1" in shown and b"\x1b" not in shown


def test_the_columns_are_those_of_the_formats():
    page = (ROOT / "docs/FORMATS.md").read_text()
    table = re.findall(r"^\| `(\w+)`, (\d+)(?: (?:or|to) (\d+))?(?: fields)? \| ([A-Z, ]+) \|$", page, re.M)
    assert PARTS["COLUMNS"] == {name: tuple(fields.split(", ")) for name, _, _, fields in table}
    assert {name: PARTS["sizes_of"](name) for name in PARTS["COLUMNS"]} == {
        name: list(range(int(least), int(most or least) + 1)) for name, least, most, _ in table}
    assert set(PARTS["FORMS"]) == {field for fields in PARTS["COLUMNS"].values() for field in fields} | {
        "VALUE price", "VALUE yield", "VALUE rate"}


def test_each_note_is_of_a_refusal():
    assert set(PARTS["NOTES"]) < {each["name"] for each in REFUSALS}


@pytest.mark.parametrize(("rows", "said"), [
    (b"", "0 rows: 0 kept, 0 refused, 0 bad.\n"), (b"\xef\xbb\xbf", "0 rows: 0 kept, 0 refused, 0 bad.\n"),
    (b"\n\r\n\r", "0 rows: 0 kept, 0 refused, 0 bad.\n"), (ISSUE.encode(), "1 row: 1 kept, 0 refused, 0 bad.\n"),
    ("\n".join(KEPT).encode(), "104 rows: 104 kept, 0 refused, 0 bad.\n"),
])
def test_of_a_file_that_was_kept_there_is_one_line(muni, tmp_path, joined, rows, said):
    report = imported(muni, tmp_path, rows)
    assert joined(rows, report) == Said(0, said.encode())
    assert joined(rows, imported(muni, tmp_path, rows)) == Said(0, said.encode())


def test_positions_after_the_report_are_passed_over(muni, tmp_path, joined):
    said = muni.run("import", Store("journal", tmp_path / "S").word, "--positions=RETAIL", rows=BOOK)
    positions = (ROOT / "examples/positions.RETAIL").read_bytes()
    assert said.output == BOOK_REPORT + positions
    wanted = joined(BOOK, BOOK_REPORT)
    for length in range(len(positions) + 1):
        if length % 7 == 0 or length == len(positions):
            assert joined(BOOK, BOOK_REPORT + positions[:length]) == wanted


def test_a_report_may_have_lines_of_another_system(joined):
    assert joined(BOOK, b"\xef\xbb\xbf" + BOOK_REPORT.replace(b"\n", b"\r\n")) == joined(BOOK, BOOK_REPORT)


def test_quotes_that_are_not_closed_end_with_the_file(joined):
    [block] = blocks(joined(b'cancel,ALPHA,T1,"2""x', b"1,bad,2,4\n"))
    assert block.text.startswith('Its NUMBER "2"x" does not read. It has to be one to nine digits.\n')


def test_an_example_of_the_code_gives_what_it_shows():
    [case] = doctest.DocTestFinder().find(PARTS["rows_of"], "rows_of", module=False, globs=PARTS)
    assert doctest.DocTestRunner().run(case) == (0, 1)


# Any text of rows

def line_of(kind: str) -> str:
    """A line that a row of a kind of tables/rows may have: those that read are refused here."""
    if kind == "1":
        return "bad,1"
    return f"bad,2,{kind[2:]}" if kind.startswith("2:") else "refused,3,Conflict"


@pytest.mark.parametrize("case", cases("rows"), ids=lambda case: str(case.line))
def test_each_row_of_the_table_is_joined_with_its_line(case):
    text, kinds = case.parts
    lines = [line_of(kind) for kind in kinds.split()]
    rows = list(PARTS["rows_of"](PARTS["text_of"](bytes_of(text))))
    told = PARTS["join"](rows, "".join(f"{place},{line}\n" for place, line in enumerate(lines, 1)))
    refused = lines.count("refused,3,Conflict")
    assert told.counts == {"kept": 0, "refused": refused, "bad": len(lines) - refused}
    assert (len(rows), told.left) == (len(lines), [])


def test_the_rows_of_any_text_are_those_of_its_report(muni: Program):
    @given(st.lists(texts, min_size=1, max_size=2))
    def tried(several: list[bytes]) -> None:
        with tempfile.TemporaryDirectory() as folder:
            report = imported(muni, pathlib.Path(folder), *several).decode()
        text = several[-1]
        rows = list(PARTS["rows_of"](PARTS["text_of"](text)))
        records = list(calculated.records(text))
        assert [[as_bytes(field) for field in row.fields] for row in rows] == [
            [field.encode("latin-1") for field in record] for record in records]
        begin, plain = 0, text.removeprefix(b"\xef\xbb\xbf")
        # Where each line begins.
        lines = [0, *(found.end() for found in re.finditer(rb"\r\n|\r|\n", plain))]
        for place, row in enumerate(rows, 1):
            at = plain.index(as_bytes(row.text), begin)
            begin, between = at + len(as_bytes(row.text)), plain[begin:at]
            assert (between.strip(b"\r\n"), row.place) == (b"", place)
            assert (row.line, row.last_line) == (bisect.bisect(lines, at), bisect.bisect(lines, begin))
        assert plain[begin:].strip(b"\r\n") == b""
        told = PARTS["join"](rows, report)
        words = [line.split(",")[1] for line in report.splitlines()]
        assert told.counts == {"kept": sum(words.count(word) for word in ("added", "amended", "confirmed")),
                               "refused": words.count("refused"), "bad": words.count("bad")}
        assert told.left == [] and told.text.count("\nWhat to do: ") >= told.counts["refused"] + told.counts["bad"]

    tried()


def as_bytes(text: str) -> bytes:
    return text.encode("utf-8", "surrogateescape")


# Files that do not belong together

SHORT = f"\n{ISSUE}\n\ntrade,ALPHA,T0001,{ASKED}\ntrade,ALPHA,T0002,{ASKED}0\ncancel,ALPHA,T0001\nx\n".encode()
SHORT_REPORT = (b"1,added,123456AA3\n2,confirmed,T0001,1,100.725,4.000,2025-01-01,25493.75\n"
                b"3,confirmed,T0002,1,97.000,9.000,2025-01-01,25493.75\n4,bad,1\n5,bad,2,1\n")


def test_a_report_that_ended_early_is_told_at_whichever_byte(joined):
    assert joined(SHORT, SHORT_REPORT).status == 1
    starts = {1: 2, 2: 4, 3: 5, 4: 6, 5: 7}
    for length in range(len(SHORT_REPORT)):
        said = joined(SHORT, SHORT_REPORT[:length])
        whole = SHORT_REPORT[:length].count(b"\n")
        kept, bad = min(whole, 3), int(whole == 4)
        which = ("row 5, at line 7 of the file, has" if whole == 4 else
                 f"rows {whole + 1} to 5, from line {starts[whole + 1]} of the file on, have")
        assert (said.status, said.error.decode()) == (
            2, f"examples/joined: the report ended early: {which} no line yet. Send the whole file again, or these "
               "rows: what was accepted acts once.\n")
        assert [each.place for each in blocks(said)] == [4] * bad
        assert last_line(said) == f"5 rows: {kept} kept, 0 refused, {bad} bad, {5 - whole} without a line."


def test_what_was_cut_off_is_kept_once_if_it_is_sent_again(muni, tmp_path, joined):
    first = imported(muni, tmp_path, BOOK)
    rows = BOOK.splitlines(keepends=True)
    cut = b"".join(first.splitlines(keepends=True)[:50])
    assert b"rows 51 to 84, from line 51 of the file on, have no line yet" in joined(BOOK, cut).error
    again = imported(muni, tmp_path, b"".join(rows[50:]))
    assert [line.split(b",", 1)[1] for line in again.splitlines()] == [
        line.split(b",", 1)[1] for line in first.splitlines()[50:]]


LINES = SHORT_REPORT.splitlines(keepends=True)


@pytest.mark.parametrize(("report", "said"), [
    (SHORT_REPORT + b"6,bad,1\n", "the file has 5 rows, and line 6 of the report is one more: 6,bad,1"),
    (SHORT_REPORT + b"6,ba", "the file has 5 rows, and line 6 of the report is one more: 6,ba"),
    (SHORT_REPORT + b"\n", "the file has 5 rows, and line 6 of the report is one more: "),
    (SHORT_REPORT + b"TOTAL\n", "the file has 5 rows, and line 6 of the report is one more: TOTAL"),
    (b"".join(LINES[1:]), "line 1 of the report is that of row 2, so it is not the report of one import"),
    (b"".join([LINES[0], *LINES]), "line 2 of the report is that of row 1, so it is not the report of one import"),
    (b"".join([*LINES[:3], LINES[4], LINES[3]]), "line 4 of the report is that of row 5"),
    (SHORT_REPORT.replace(b"123456AA3", b"123456AB1"), "line 1 of the report, 1,added,123456AB1, is no answer to row"),
    (SHORT_REPORT.replace(b"T0002", b"T0003"), "is no answer to row 3, at line 5 of the file: trade,ALPHA,T0002,"),
    (SHORT_REPORT.replace(b"T0002,1", b"T0002,2"), "is no answer to row 3"),
    (SHORT_REPORT.replace(b"2,confirmed,T0001,1,100.725,4.000,2025-01-01,25493.75", b"2,added,123456AA3"),
     "is no answer to row 2"),
    (SHORT_REPORT.replace(b"1,added,123456AA3", LINES[1].strip().replace(b"2,", b"1,", 1)), "is no answer to row 1"),
    (SHORT_REPORT.replace(b"1,added,123456AA3", b"1,bad,1"), "is no answer to row 1"),
    (SHORT_REPORT.replace(b"1,added,123456AA3", b"1,bad,2,1"), "is no answer to row 1"),
    (SHORT_REPORT.replace(b"1,added,123456AA3", b"1,bad,2,10"), "is no answer to row 1"),
    (SHORT_REPORT.replace(b"4,bad,1", b"4,refused,2,UnknownTrade"), "is no answer to row 4"),
    (SHORT_REPORT.replace(b"4,bad,1", b"4,bad,2,2"), "is no answer to row 4"),
    (SHORT_REPORT.replace(b"5,bad,2,1", b"5,bad,1"), "is no answer to row 5"),
    (SHORT_REPORT.replace(b"1,added,123456AA3", b"1,refused,16,New"), "row 1 was refused with 16 New, which "),
    (SHORT_REPORT.replace(b"1,added,123456AA3", b"1,refused,4,Conflict"), "row 1 was refused with 4 Conflict, which "),
    (b"1,marked,123456AA3,100.000,2025-01-01,1.00\n", "line 1 of the report is no line of an import: 1,marked,"),
    (SHORT, "line 1 of the report is no line of an import: "),
    (b"\xff\n", "line 1 of the report is no line of an import: "),
    ("\u0661,bad,1\n".encode(), "line 1 of the report is no line of an import: "),
    (b"9" * 5000 + b",bad,1\n", "line 1 of the report is no line of an import: " + "9" * 80 + ".."),
    (b"1,refused," + b"9" * 5000 + b",X\n", "line 1 of the report is no line of an import: 1,refused,999"),
    (b"1,added,123456AA3\n123456AA3 1 1 0 1 1.00\n", "line 2 of the report is no line of an import: 123456AA3 1 1 "),
])
def test_a_report_of_other_rows_is_told(joined, report, said):
    told = joined(SHORT, report)
    assert (told.status, told.output) == (2, b"")
    assert told.error.decode().startswith("examples/joined: ") and said in told.error.decode()


def test_the_report_of_another_day_is_told(muni, tmp_path, joined):
    """A file that has as many rows as the book, and the other way round."""
    other = "\n".join([ISSUE, *(f"trade,ALPHA,T{each},{ASKED}" for each in range(83))]).encode()
    report = imported(muni, tmp_path, other)
    assert joined(other, report).status == 0
    assert [joined(other, BOOK_REPORT).status, joined(BOOK, report).status] == [2, 2]


def test_a_row_of_several_lines_is_told_in_one(joined):
    said = joined(b'issue,"A\nB",C\n', b"1,added,123456AA3\n")
    assert said.error.endswith(b'is no answer to row 1, at line 1 of the file: issue,"A...\n')


# Files and words

def test_a_file_is_read_up_to_the_length_that_an_import_takes(joined):
    said = joined(b"," * 4_194_304, b"1,bad,2,1\n")
    assert (said.status, len(said.output) > 4_194_304) == (1, True)
    said = joined(b"\n" * 4_194_305, b"")
    assert (said.status, said.output) == (2, b"")
    assert said.error.endswith(b"has more than 4,194,304 bytes, which no import takes. Send it in parts.\n")


def test_a_file_that_cannot_be_read_is_told(tmp_path):
    (tmp_path / "rows").write_bytes(b"")
    rows, none = tmp_path / "rows", tmp_path / "none"
    for words, told in [((none, rows), f"{none} cannot be read: No such file or directory"),
                        ((rows, tmp_path), f"{tmp_path} cannot be read: Is a directory"),
                        ((), "name two files: examples/joined ROWS REPORT"),
                        ((rows,), "name two files: examples/joined ROWS REPORT"),
                        ((rows,) * 3, "name two files: examples/joined ROWS REPORT")]:
        assert ran(*words) == Said(2, b"", f"examples/joined: {told}.\n".encode())


@pytest.mark.parametrize("word", ["-h", "--help"])
def test_its_help_is_its_first_text(word):
    assert ran(word) == Said(0, PARTS["__doc__"].encode())
    assert b"examples/joined ROWS REPORT" in ran(word).output


def test_a_full_disk_is_told(tmp_path):
    with open("/dev/full", "wb") as full:
        said = ran(ROOT / "examples/book.csv", ROOT / "examples/book.report", stdout=full)
    assert said == Said(2, b"", b"examples/joined: the answer cannot be written: No space left on device.\n")


def test_a_reader_that_ends_early_is_no_error():
    command = f"{sys.executable} {SCRIPT} {ROOT}/examples/book.csv {ROOT}/examples/book.report | head -n 1"
    told = subprocess.run(["bash", "-c", command], capture_output=True, timeout=PATIENCE)
    assert (told.stdout, told.stderr) == (b"Row 24, at line 24: refused, BadTerms\n", b"")


@pytest.mark.parametrize("content", [None, b"{", b"{}", b'{"refusals": [1]}', b"[]"])
def test_without_its_table_of_refusals_it_says_so(tmp_path, content):
    for name in ("examples", "docs"):
        (tmp_path / name).mkdir()
    copy = tmp_path / "examples/joined"
    copy.write_bytes(SCRIPT.read_bytes())
    if content is not None:
        (tmp_path / "docs/refusals.json").write_bytes(content)
    told = subprocess.run([sys.executable, copy, ROOT / "examples/book.csv", ROOT / "examples/book.report"],
                          capture_output=True, text=True, timeout=PATIENCE)
    why = "cannot be read: No such file or directory" if content is None else "does not read"
    assert (told.returncode, told.stdout, told.stderr) == (
        2, "", f"examples/joined: {tmp_path}/docs/refusals.json has what refusals mean, and {why}.\n")
