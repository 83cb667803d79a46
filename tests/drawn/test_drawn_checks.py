"""Figures of other firms that are drawn at random, right, by each other formula, and wrong: what is said of each is
what an exact calculator says."""
from __future__ import annotations

import pathlib
import random
import tempfile

import pytest
from hypothesis import given
from hypothesis import strategies as st

from support.books import Book
from support.checked import ASKED, STATED, TERMS, issues, parts_of, rows, text_of, text_of_fields, whole_trades
from support.drawn import any_of, mutated, one_in, whole
from support.exported import Row, book, trade
from support.exported import text_of as text_of_rows
from support.program import Program
from support.reference import Reference
from support.stores import KINDS, Store, empty_folder

COUNT, LONG = 500, 5_000
COLUMNS = [*ASKED, *STATED]
ISSUES = issues(random.Random(0), 16)


def wanted(kept: bytes, *words: str, sent: bytes) -> tuple[Reference, tuple[int, bytes]]:
    """What the calculator says of a file over rows that are kept."""
    reference = Reference()
    assert reference.imported(kept)[0] == 0
    return reference, reference.ran("check", *words, rows=sent)


def test_what_is_said_of_many_figures_is_what_an_exact_calculator_says(muni: Program, request):
    is_long = request.config.getoption("--long")
    source = random.Random() if is_long else random.Random(1)
    kept = issues(source, 64)
    sent = text_of(COLUMNS, rows(source, kept, LONG if is_long else COUNT))
    reference, said = wanted(text_of_rows(kept), sent=sent)
    assert reference.is_sure
    for kind in KINDS:
        with empty_folder() as folder:
            found = Book(muni, Store(kind, pathlib.Path(folder, "S")))
            assert found.said("load", rows=text_of_rows(kept)).status == 0
            told = found.said("check", rows=sent)
        assert (told.status, told.output.splitlines()) == (said[0], said[1].splitlines())


def test_rows_with_the_terms_of_their_issues_need_no_store(muni: Program, tmp_path: pathlib.Path):
    source = random.Random(2)
    kept = issues(source, 40)
    printed = rows(source, kept, 200)
    alone = text_of([*COLUMNS[1:], *TERMS], printed)
    reference, said = wanted(b"", sent=alone)
    assert reference.is_sure
    told = muni.run("check", rows=alone, folder=tmp_path)
    assert (told.status, told.output.splitlines()) == (said[0], said[1].splitlines())
    # The CUSIP comes last, so that a column that does not read has the same place.
    assert said[1] == wanted(text_of_rows(kept), sent=text_of([*COLUMNS[1:], "cusip"], printed))[1][1]


def amended(source: random.Random) -> list[Row]:
    """The rows of a book, some of whose issues are amended between its trades."""
    first = book(source, 30, 80)
    added = [row for row in first if row[0] == "issue"]
    others = [["amend", row[1], "2", *row[2:7], "7.25", *row[8:]] for row in added[::3] if row[7]]
    later = [trade(source, added, f"Z{place}", source.choice([0, 0, 1]), place % 9 == 0) for place in range(80)]
    return [*first, *others, *(row for rows in later for row in rows)]


@pytest.mark.parametrize("kind", KINDS)
def test_what_rows_state_of_kept_trades_is_compared_with_them(muni: Program, kind: str, request):
    """By the calculator; and what the store itself has of its live trades is right, all of it."""
    source = random.Random() if request.config.getoption("--long") else random.Random(3)
    entered, columns = text_of_rows(amended(source)), ["reference", *COLUMNS, *TERMS]
    reference, _ = wanted(entered, sent=b"reference\n")
    wholes = whole_trades(reference.book, "ALPHA")
    parts = [*parts_of(source, wholes), {"reference": "NONE1"}]
    source.shuffle(columns)
    with empty_folder() as folder:
        found = Book(muni, Store(kind, pathlib.Path(folder, "S")))
        found.said("load", rows=entered)
        for sent in (text_of_fields(columns, each) for each in (wholes, parts, parts[::2])):
            status, lines = reference.ran("check", "--desk=ALPHA", rows=sent)
            told = found.said("check", "--desk=ALPHA", rows=sent)
            assert (told.status, told.output.splitlines()) == (status, lines.splitlines())
        told = found.said("check", "--desk=ALPHA", rows=text_of_fields(columns, wholes)).output
    assert reference.is_sure
    assert {line.split(b",")[1] for line in told.splitlines()[:-1]} == {b"right", b"missing"}


@st.composite
def text(draw) -> bytes:
    """A file with columns in any order, of which some are missing, unknown or there twice, and bytes changed."""
    source = random.Random(draw(whole(0, 65_535)))
    columns = ["reference", *COLUMNS, *TERMS]
    source.shuffle(columns)
    columns = columns[:draw(any_of(4, 12, 22, 22, 22))]
    if draw(one_in(8)):
        columns[draw(whole(0, len(columns) - 1))] = draw(any_of("price", "label", "", "Price"))
    printed = rows(source, ISSUES, draw(whole(0, 5)))
    found = draw(any_of(b"", b"", b"\xef\xbb\xbf")) + text_of(columns, printed)
    return draw(mutated(st.just(found))) if draw(one_in(3)) else found


def test_what_is_said_of_any_text_is_what_an_exact_calculator_says(muni: Program):
    kept = text_of_rows(ISSUES)

    @given(text())
    def tried(sent: bytes) -> None:
        reference, said = wanted(kept, sent=sent)
        with tempfile.TemporaryDirectory() as folder:
            found = Book(muni, Store("journal", pathlib.Path(folder) / "S"))
            found.said("load", rows=kept)
            told = found.said("check", rows=sent)
        if (told.status, told.output) != said and not reference.is_sure:
            return
        assert (told.status, told.output.splitlines()) == (said[0], said[1].splitlines())

    tried()
